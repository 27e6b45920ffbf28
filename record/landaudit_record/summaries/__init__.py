"""An audit for a person: tables in a terminal, and a page."""
