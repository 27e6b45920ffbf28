"""The subcommands of landaudit-record and landaudit-policy."""
