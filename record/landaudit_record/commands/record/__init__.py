"""The subcommands, one module each: NAME, HELP, EXAMPLE, add_arguments(parser), run(arguments) -> status."""

#: The modules, which have the names of their subcommands.
NAMES = ("run", "convert", "apply", "audit", "compare", "suggest", "tighten", "distill", "merge", "pack", "unpack", "denials")
