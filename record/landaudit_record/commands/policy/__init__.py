"""The subcommands of landaudit-policy, one module each, of the same form as those of landaudit-record."""

#: The modules, which have the names of their subcommands; `import` is a keyword.
NAMES = ("confine", "check", "lint", "diff", "export", "import_")
