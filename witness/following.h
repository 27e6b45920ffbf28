/* Finds what runs already, to be followed: processes with their descendants, or those of a cgroup. */
#ifndef FOLLOWING_H
#define FOLLOWING_H

#include <stdio.h>
#include "loading.h"

#define MOST_NAMED 64

/* What is to be followed beside what a command starts. */
struct running {
    int processes[MOST_NAMED];
    int number;
    const char *cgroup;
};

/* Whether this process sees all processes by the kernel's own numbers; else says so on standard error. */
int sees_all_processes(void);

/* Lets the BPF side follow all processes of a cgroup, also those that come later; returns false after a line on
 * standard error if that can't be done. */
int follow_cgroup(const struct loaded *loaded, const char *path);

/* Follows what runs already, and writes each process as a line; returns how many there are, or -1 after a line on
 * standard error. */
int follow_running(const struct loaded *loaded, const struct running *running, FILE *out);

#endif
