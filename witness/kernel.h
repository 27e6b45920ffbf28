/*
 * The members of the kernel's structures that the witness reads. The loader finds each of them by its name in the BTF
 * of the running kernel (CO-RE), so their places here and what is missing between them do not matter, and the build
 * needs no kernel.
 */
#ifndef KERNEL_H
#define KERNEL_H

#include <linux/types.h>

typedef __u8 u8;
typedef __u16 u16;
typedef __u32 u32;
typedef __u64 u64;
typedef __s32 s32;

#pragma clang attribute push(__attribute__((preserve_access_index)), apply_to = record)

struct upid {
    int nr;
};

struct pid {
    unsigned int level;
    struct upid numbers[1];
};

struct signal_struct {
    struct {
        int counter;
    } live;
    struct pid *pids[4];
};

struct cred;

struct task_struct {
    int tgid;
    unsigned long atomic_flags;
    struct task_struct *real_parent;
    struct pid *thread_pid;
    struct signal_struct *signal;
    const struct cred *real_cred;
};

struct super_block {
    u32 s_dev;
};

struct inode {
    u16 i_mode;
    unsigned int i_flags;
    unsigned long i_ino;
    u32 i_rdev;
    u32 i_generation;
};

struct qstr {
    u32 len;
    const unsigned char *name;
};

struct dentry {
    struct dentry *d_parent;
    struct qstr d_name;
    struct inode *d_inode;
    struct super_block *d_sb;
};

struct vfsmount {
    struct dentry *mnt_root;
    int mnt_flags;
};

struct mount {
    struct mount *mnt_parent;
    struct dentry *mnt_mountpoint;
    struct vfsmount mnt;
};

struct path {
    struct vfsmount *mnt;
    struct dentry *dentry;
};

struct file {
    unsigned int f_mode;
    unsigned int f_flags;
    struct path f_path;
    const struct cred *f_cred;
};

struct sock_common {
    unsigned short skc_family;
};

struct sock {
    struct sock_common __sk_common;
    u16 sk_protocol;
};

struct socket {
    short type;
    struct sock *sk;
};

struct kernfs_node {
    u64 id;
};

struct cgroup {
    struct kernfs_node *kn;
};

#pragma clang attribute pop

struct sockaddr;
struct linux_binprm;
struct landlock_ruleset;

#endif
