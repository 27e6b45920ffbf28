/* Events as lines of JSON. */
#ifndef PRINTING_H
#define PRINTING_H

#include <stddef.h>
#include <stdio.h>
#include <sys/types.h>

/* The name of a hook, or of the function that has a program which is no hook of a security module. */
const char *hook_name(unsigned int hook);

/* Writes a text as a JSON string; a byte that is not ASCII is written as the escape \udcXX. */
void print_text(FILE *out, const char *text, size_t length);

/* Writes a process that ran before it was followed as a line. */
void print_found(FILE *out, pid_t process);

/* Writes an event as a line. `secret` hides the kernel's addresses of open files and rulesets. */
void print_event(FILE *out, const void *data, size_t size, unsigned long long secret);

#endif
