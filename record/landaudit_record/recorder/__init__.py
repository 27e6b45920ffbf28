"""From a command to a tree and a trace: strace, its log, and what each call becomes."""
