/* Loads the BPF programs and attaches them, in the way that the running kernel allows. */
#ifndef LOADING_H
#define LOADING_H

#include <linux/types.h>
#include "witness.skel.h"

/* AT_FUNCTIONS: programs at the functions by which the kernel asks its modules (fexit). AS_MODULE: BPF LSM programs. */
enum way { ANY_WAY, AT_FUNCTIONS, AS_MODULE };

struct loaded {
    struct witness *programs;
    enum way way;
    int own; /* whether Landlock's own functions are to be heard too, which needs AT_FUNCTIONS */
    const char *unheard[64]; /* functions that can't be heard, though this kernel has them */
    int unheard_number;
};

/* Loads and attaches all programs; returns false, after a line on standard error, if that can't be done. */
int load(struct loaded *loaded, enum way way);

/* How often the kernel skipped a program because another task was in it, on the whole machine (recursion_misses). */
unsigned long long skipped(const struct loaded *loaded);

#endif
