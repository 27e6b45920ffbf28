/*
 * What the BPF programs send: an event is a head and then the nodes of its chains, each a head and a name that is
 * padded to 8 bytes.
 */
#ifndef EVENT_H
#define EVENT_H

#include <linux/types.h>

enum hook {
    FILE_OPEN,
    FILE_TRUNCATE,
    FILE_IOCTL,
    FILE_IOCTL_COMPAT,
    PATH_MKNOD,
    PATH_MKDIR,
    PATH_SYMLINK,
    PATH_UNLINK,
    PATH_RMDIR,
    PATH_RENAME,
    PATH_LINK,
    PATH_TRUNCATE,
    SB_MOUNT,
    SB_UMOUNT,
    SB_PIVOTROOT,
    SB_REMOUNT,
    MOVE_MOUNT,
    SOCKET_BIND,
    SOCKET_CONNECT,
    PTRACE_ACCESS_CHECK,
    TASK_KILL,
    CREATE,
    ADD_PATH,
    ADD_PORT,
    RESTRICT,
    JOINED,
    FORK,
    EXEC,
    EXIT,
    HOOKS
};

/* The values of an event; which of them a hook has is said where they are printed. */
struct event {
    __u64 time;
    __u64 file;
    __u64 values[4];
    __u32 pid, tid;
    __u32 hook;
    __s32 answer;
    __s32 own; /* Landlock's own answer, if it was heard */
    __u32 has_own;
    __u32 nodes;
    __u32 cut;
    char comm[16];
};

struct node {
    __u64 inode;
    __u32 device, generation;
    __u32 mode;
    __u16 length;
    __u8 chain, flags;
};

/* Flags of a node. */
#define OBJECT 1   /* what the call is about; the other nodes are the directories above it */
#define MISSING 2  /* a name without an object */
#define MOUNT 4    /* the root of a mount: the next node is above the mountpoint */
#define LAST 8     /* the walk ends: at the root of a mount that has no parent */
#define DETACHED 16 /* the walk ends: at a root that is not that of its mount */
#define INTERNAL 32 /* a mount of the kernel's own: Landlock allows everything there */

/* As long as the path of a cgroup may be where the kernel tells of one that is made (TRACE_CGROUP_PATH_LEN). */
#define CGROUP_PATH_BYTES 1024

/* What the BPF programs count. */
enum count {
    HEARD,      /* events */
    LOST,       /* events for which the ring had no room */
    ROOMLESS,   /* questions for which there was no buffer */
    UNFOLLOWED, /* processes that could not be followed */
    CUT,        /* events with a chain that is not whole */
    COUNTS
};

#endif
