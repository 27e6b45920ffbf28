"""What Landlock refused by the kernel's own log: the audit records of Linux 6.15 and later.

The kernel's Documentation/admin-guide/LSM/landlock.rst describes the records. `records` reads lines, `denials` puts
records together, `counting` counts them as an audit counts refusals, `matching` finds the layers and rules of a policy
that they are about, and `granting` finds rules.
"""
