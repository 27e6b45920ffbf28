/*
 * Hears what the kernel asks its security modules about the processes that are followed. Each program sends one event,
 * with the objects that Landlock would visit to answer.
 *
 * The programs are made for the functions by which the kernel asks (fexit). The loader can also make them BPF LSM
 * programs: those have the same arguments, and their last one, the answer, is that of the BPF programs before them.
 */
#include "kernel.h"
#include <linux/bpf.h>
#include <bpf/bpf_core_read.h>
#include <bpf/bpf_helpers.h>
#include <bpf/bpf_tracing.h>
#include "event.h"

/*
 * The kernel lets a BPF object call the helpers that read kernel memory only if this section has a word that the kernel
 * counts as compatible with the GPL. The word is about the source of this object alone (this file, event.h, kernel.h).
 * It says nothing about the licence of anything else in the repository.
 */
char LICENSE[] SEC("license") = "GPL";

#define MOST_BYTES 8192 /* where a node may begin */
#define MOST_STEPS 256
#define HEARD_ITSELF 1
#define PIDTYPE_TGID 1
#define MNT_INTERNAL 0x4000
#define PFA_NO_NEW_PRIVS 1
#define MOST_ERRORS 4096UL /* a pointer above -4096 is an error */

/* A walk from an object up, as is_access_to_paths_allowed() in the kernel's security/landlock/fs.c does it. */
struct walk {
    u64 dentry, mount, root;
    u64 mounted; /* the root of the mount that the walk has left, until it is added; what is below it is not visited */
    u32 used, nodes;
    u8 chain, flags, done, cut;
};

/*
 * What a program needs to make an event. The walk is in a map and not on the stack: the verifier of Linux 6.1 looks at
 * the first step of bpf_loop only, and removes what cannot happen with the values that the stack has then.
 */
struct room {
    struct walk walk;
    s32 own; /* Landlock's own answer to the question that is being asked */
    u32 has_own;
    struct event event;
    char nodes[MOST_BYTES + sizeof(struct node) + 256]; /* behind the event, as both are sent */
};

struct {
    __uint(type, BPF_MAP_TYPE_RINGBUF);
    __uint(max_entries, 64 << 20);
} events SEC(".maps");

/* A room for each thread: programs may be preempted, so one for each processor would not do. */
struct {
    __uint(type, BPF_MAP_TYPE_TASK_STORAGE);
    __uint(map_flags, BPF_F_NO_PREALLOC);
    __type(key, int);
    __type(value, struct room);
} rooms SEC(".maps");

/* The processes that are followed, each with the number of generations from which on descendants are heard. */
struct {
    __uint(type, BPF_MAP_TYPE_HASH);
    __uint(max_entries, 65536);
    __type(key, u32);
    __type(value, u32);
} followed SEC(".maps");

struct {
    __uint(type, BPF_MAP_TYPE_PERCPU_ARRAY);
    __uint(max_entries, COUNTS);
    __type(key, u32);
    __type(value, u64);
} counts SEC(".maps");

/* The depth of the PID namespace in whose numbers events name processes: that of the witness. */
__u32 level;
/* A cgroup all of whose processes are followed, by its number, and its depth and path in the hierarchy; 0 if there is
 * none. */
volatile __u64 cgroup;
__u32 cgroup_depth;
char cgroup_path[CGROUP_PATH_BYTES];
char made_path[CGROUP_PATH_BYTES]; /* of the one that is made: the kernel tells of one at a time */
/* How many processes are followed, beside the first. */
volatile __u64 following;

static __always_inline void count(u32 what)
{
    u64 *number = bpf_map_lookup_elem(&counts, &what);

    if (number)
        __sync_fetch_and_add(number, 1);
}

static __always_inline struct room *room_of_thread(u64 flags)
{
    return bpf_task_storage_get(&rooms, bpf_get_current_task_btf(), 0, flags);
}

/* The number that a process or thread has in the PID namespace of the witness, 0 if it has none there. */
static __always_inline u32 number_of(struct pid *pid)
{
    u32 number = 0;
    u64 at = bpf_core_field_offset(struct pid, numbers) + level * bpf_core_type_size(struct upid);

    if (BPF_CORE_READ(pid, level) < level)
        return 0;
    bpf_probe_read_kernel(&number, sizeof(number), (char *)pid + at + bpf_core_field_offset(struct upid, nr));
    return number;
}

static __always_inline u32 process_of(struct task_struct *task)
{
    return number_of(BPF_CORE_READ(task, signal, pids[PIDTYPE_TGID]));
}

static __always_inline void add_object(struct node *node, struct dentry *dentry)
{
    struct inode *inode = BPF_CORE_READ(dentry, d_inode);

    node->device = BPF_CORE_READ(dentry, d_sb, s_dev);
    node->inode = node->generation = node->mode = 0;
    if (!inode) {
        node->flags |= MISSING;
        return;
    }
    node->inode = BPF_CORE_READ(inode, i_ino);
    node->generation = BPF_CORE_READ(inode, i_generation);
    node->mode = BPF_CORE_READ(inode, i_mode);
}

/* Adds an object to the chain, under the name of a dentry: its own, or its mountpoint's. */
static __always_inline void add(struct room *room, struct dentry *dentry, u8 flags, struct dentry *named)
{
    struct walk *walk = &room->walk;
    u32 used = walk->used, length = BPF_CORE_READ(named, d_name.len);
    struct node *node;

    if (used >= MOST_BYTES) {
        walk->done = walk->cut = 1;
        return;
    }
    asm volatile("%0 &= 8191" : "+r"(used)); /* the verifier of Linux 6.1 forgets the bound */
    if (length > 255)
        length = 255;
    asm volatile("%0 &= 255" : "+r"(length));
    node = (struct node *)(room->nodes + used);
    node->chain = walk->chain;
    node->length = length;
    node->flags = flags | walk->flags;
    walk->flags = 0;
    add_object(node, dentry);
    bpf_probe_read_kernel(room->nodes + used + sizeof(*node), length, BPF_CORE_READ(named, d_name.name));
    walk->used = used + sizeof(*node) + ((length + 7) & ~7u);
    walk->nodes++;
}

/* Goes from the root of a mount to the mountpoint, whose name the root gets: it is added when that is known. */
static __always_inline void leave_mount(struct room *room)
{
    struct walk *walk = &room->walk;
    struct mount *mount = (void *)walk->mount, *parent = BPF_CORE_READ(mount, mnt_parent);

    if (!walk->mounted)
        walk->mounted = walk->dentry;
    if (parent == mount) {
        add(room, (void *)walk->mounted, MOUNT | LAST, (void *)walk->mounted);
        walk->done = 1;
        return;
    }
    walk->dentry = (u64)BPF_CORE_READ(mount, mnt_mountpoint);
    walk->mount = (u64)parent;
    walk->root = (u64)BPF_CORE_READ(parent, mnt.mnt_root);
}

static __always_inline u8 is_internal(struct walk *walk)
{
    struct mount *mount = (void *)walk->mount;

    return BPF_CORE_READ(mount, mnt.mnt_flags) & MNT_INTERNAL ? INTERNAL : 0;
}

/* Goes from an object to the one above it. */
static __always_inline void go_on(struct room *room)
{
    struct walk *walk = &room->walk;
    struct dentry *dentry = (void *)walk->dentry, *parent = BPF_CORE_READ(dentry, d_parent);

    if (walk->mounted) {
        add(room, (void *)walk->mounted, MOUNT, dentry);
        walk->mounted = 0;
    } else if (parent == dentry) {
        add(room, dentry, DETACHED | is_internal(walk), dentry);
        walk->done = 1;
    } else {
        add(room, dentry, 0, dentry);
    }
    walk->dentry = (u64)parent;
}

static long step(u32 number, void *nothing)
{
    struct room *room = room_of_thread(0);

    if (!room || room->walk.done)
        return 1;
    if (room->walk.dentry == room->walk.root)
        leave_mount(room);
    else
        go_on(room);
    return 0;
}

/* Adds an object and what is above it. */
static __always_inline void go_up(struct room *room, struct vfsmount *mount, struct dentry *dentry, u8 flags)
{
    struct walk *walk = &room->walk;

    if (walk->cut)
        return;
    walk->dentry = (u64)dentry;
    walk->mount = (u64)mount - bpf_core_field_offset(struct mount, mnt);
    walk->root = (u64)BPF_CORE_READ(mount, mnt_root);
    walk->flags = flags;
    walk->mounted = walk->done = 0;
    bpf_loop(MOST_STEPS, step, 0, 0);
    if (!walk->done)
        walk->cut = 1;
}

static __always_inline void go_up_from(struct room *room, const struct path *path, u8 chain)
{
    room->walk.chain = chain;
    go_up(room, BPF_CORE_READ(path, mnt), BPF_CORE_READ(path, dentry), OBJECT);
}

/* Adds a name in a directory, and what is above it. */
static __always_inline void go_up_from_name(struct room *room, const struct path *directory, struct dentry *name,
                                            u8 chain)
{
    room->walk.chain = chain;
    add(room, name, OBJECT, name);
    go_up(room, BPF_CORE_READ(directory, mnt), BPF_CORE_READ(directory, dentry), 0);
}

/* Makes an event of the thread that runs. */
static __always_inline struct room *event_of(u32 hook)
{
    struct task_struct *task = bpf_get_current_task_btf();
    struct room *room = room_of_thread(BPF_LOCAL_STORAGE_GET_F_CREATE);
    struct event *event;

    if (!room) {
        count(ROOMLESS);
        return 0;
    }
    event = &room->event;
    __builtin_memset(event, 0, sizeof(*event));
    event->own = room->own;
    event->has_own = room->has_own;
    room->has_own = 0;
    event->time = bpf_ktime_get_ns();
    event->hook = hook;
    event->pid = process_of(task);
    event->tid = number_of(BPF_CORE_READ(task, thread_pid));
    bpf_get_current_comm(event->comm, sizeof(event->comm));
    __builtin_memset(&room->walk, 0, sizeof(room->walk));
    return room;
}

static __always_inline int end(struct room *room, int answer)
{
    struct event *event = &room->event;
    u32 used = room->walk.used;

    event->answer = answer;
    event->nodes = room->walk.nodes;
    event->cut = room->walk.cut;
    if (used > sizeof(room->nodes))
        used = sizeof(room->nodes);
    count(HEARD);
    if (event->cut)
        count(CUT);
    if (bpf_ringbuf_output(&events, event, sizeof(*event) + used, BPF_RB_NO_WAKEUP))
        count(LOST);
    return 0;
}

static __always_inline int is_in_cgroup(void)
{
    return cgroup && bpf_get_current_ancestor_cgroup_id(cgroup_depth) == cgroup;
}

/* Follows a process from now on, and says so. */
static __always_inline int join(u32 process)
{
    u32 generations = HEARD_ITSELF;
    struct room *room;

    if (bpf_map_update_elem(&followed, &process, &generations, BPF_NOEXIST)) {
        if (bpf_map_lookup_elem(&followed, &process))
            return 1; /* another thread of it was faster */
        count(UNFOLLOWED);
        return 0;
    }
    __sync_fetch_and_add(&following, 1);
    room = event_of(JOINED);
    return room ? !end(room, 0) : 0;
}

/* Begins an event, if the process is one of those that are heard. */
static __always_inline struct room *begin(u32 hook)
{
    u32 process = bpf_get_current_pid_tgid() >> 32;
    u32 *generations = bpf_map_lookup_elem(&followed, &process);

    if (generations ? *generations != HEARD_ITSELF : !is_in_cgroup() || !join(process))
        return 0;
    return event_of(hook);
}

#define BEGIN(HOOK) \
    struct room *room = begin(HOOK); \
    if (!room) \
        return 0

static __always_inline void add_file(struct room *room, struct file *file)
{
    struct event *event = &room->event;

    event->file = (u64)file;
    event->values[0] = BPF_CORE_READ(file, f_flags);
    event->values[1] = BPF_CORE_READ(file, f_mode);
    go_up(room, BPF_CORE_READ(file, f_path.mnt), BPF_CORE_READ(file, f_path.dentry), OBJECT);
}

SEC("fexit/security_file_open")
int BPF_PROG(file_open, struct file *file, int answer)
{
    BEGIN(FILE_OPEN);
    /* Asked for someone else: overlayfs opens files of its layers with the credentials of who mounted it. */
    room->event.values[2] = BPF_CORE_READ(file, f_cred) != BPF_CORE_READ(bpf_get_current_task_btf(), real_cred);
    add_file(room, file);
    return end(room, answer);
}

SEC("fexit/security_file_truncate")
int BPF_PROG(file_truncate, struct file *file, int answer)
{
    BEGIN(FILE_TRUNCATE);
    add_file(room, file);
    return end(room, answer);
}

SEC("fexit/security_file_ioctl")
int BPF_PROG(file_ioctl, struct file *file, unsigned int command, unsigned long argument, int answer)
{
    BEGIN(FILE_IOCTL);
    room->event.values[2] = command;
    add_file(room, file);
    return end(room, answer);
}

SEC("fexit/security_file_ioctl_compat")
int BPF_PROG(file_ioctl_compat, struct file *file, unsigned int command, unsigned long argument, int answer)
{
    BEGIN(FILE_IOCTL_COMPAT);
    room->event.values[2] = command;
    add_file(room, file);
    return end(room, answer);
}

SEC("fexit/security_path_mknod")
int BPF_PROG(path_mknod, const struct path *directory, struct dentry *name, u16 mode, unsigned int device, int answer)
{
    BEGIN(PATH_MKNOD);
    room->event.values[0] = mode;
    go_up_from_name(room, directory, name, 0);
    return end(room, answer);
}

SEC("fexit/security_path_mkdir")
int BPF_PROG(path_mkdir, const struct path *directory, struct dentry *name, u16 mode, int answer)
{
    BEGIN(PATH_MKDIR);
    go_up_from_name(room, directory, name, 0);
    return end(room, answer);
}

SEC("fexit/security_path_symlink")
int BPF_PROG(path_symlink, const struct path *directory, struct dentry *name, const char *target, int answer)
{
    BEGIN(PATH_SYMLINK);
    go_up_from_name(room, directory, name, 0);
    return end(room, answer);
}

SEC("fexit/security_path_unlink")
int BPF_PROG(path_unlink, const struct path *directory, struct dentry *name, int answer)
{
    BEGIN(PATH_UNLINK);
    go_up_from_name(room, directory, name, 0);
    return end(room, answer);
}

SEC("fexit/security_path_rmdir")
int BPF_PROG(path_rmdir, const struct path *directory, struct dentry *name, int answer)
{
    BEGIN(PATH_RMDIR);
    go_up_from_name(room, directory, name, 0);
    return end(room, answer);
}

SEC("fexit/security_path_rename")
int BPF_PROG(path_rename, const struct path *from, struct dentry *name, const struct path *to, struct dentry *new_name,
             unsigned int flags, int answer)
{
    BEGIN(PATH_RENAME);
    room->event.values[0] = flags;
    go_up_from_name(room, from, name, 0);
    go_up_from_name(room, to, new_name, 1);
    return end(room, answer);
}

/* A link's source has no path: Landlock takes the mount of the new directory. */
SEC("fexit/security_path_link")
int BPF_PROG(path_link, struct dentry *from, const struct path *to, struct dentry *new_name, int answer)
{
    BEGIN(PATH_LINK);
    go_up(room, BPF_CORE_READ(to, mnt), from, OBJECT);
    go_up_from_name(room, to, new_name, 1);
    return end(room, answer);
}

SEC("fexit/security_path_truncate")
int BPF_PROG(path_truncate, const struct path *path, int answer)
{
    BEGIN(PATH_TRUNCATE);
    go_up_from(room, path, 0);
    return end(room, answer);
}

SEC("fexit/security_sb_mount")
int BPF_PROG(sb_mount, const char *source, const struct path *path, const char *type, unsigned long flags, void *data,
             int answer)
{
    BEGIN(SB_MOUNT);
    room->event.values[0] = flags;
    go_up_from(room, path, 0);
    return end(room, answer);
}

SEC("fexit/security_sb_umount")
int BPF_PROG(sb_umount, struct vfsmount *mount, int flags, int answer)
{
    BEGIN(SB_UMOUNT);
    room->event.values[0] = flags;
    go_up(room, mount, BPF_CORE_READ(mount, mnt_root), OBJECT);
    return end(room, answer);
}

SEC("fexit/security_sb_pivotroot")
int BPF_PROG(sb_pivotroot, const struct path *old, const struct path *new, int answer)
{
    BEGIN(SB_PIVOTROOT);
    go_up_from(room, old, 0);
    go_up_from(room, new, 1);
    return end(room, answer);
}

SEC("fexit/security_sb_remount")
int BPF_PROG(sb_remount, struct super_block *file_system, void *options, int answer)
{
    BEGIN(SB_REMOUNT);
    return end(room, answer);
}

SEC("fexit/security_move_mount")
int BPF_PROG(move_mount, const struct path *from, const struct path *to, int answer)
{
    BEGIN(MOVE_MOUNT);
    go_up_from(room, from, 0);
    go_up_from(room, to, 1);
    return end(room, answer);
}

static __always_inline void add_address(struct event *event, struct socket *socket, struct sockaddr *address,
                                        int length)
{
    struct {
        u16 family;
        u8 port[2];
    } start = {};
    struct sock *sock = BPF_CORE_READ(socket, sk);

    bpf_probe_read_kernel(&start.family, length < 2 ? 0 : 2, address);
    bpf_probe_read_kernel(&start.port, length < 4 ? 0 : 2, (char *)address + 2);
    event->values[0] = start.family;
    event->values[1] = start.port[0] << 8 | start.port[1];
    event->values[2] = (u64)BPF_CORE_READ(socket, type) << 32 | BPF_CORE_READ(sock, sk_protocol);
    event->values[3] = (u64)BPF_CORE_READ(sock, __sk_common.skc_family) << 32 | (u32)length;
}

SEC("fexit/security_socket_bind")
int BPF_PROG(socket_bind, struct socket *socket, struct sockaddr *address, int length, int answer)
{
    BEGIN(SOCKET_BIND);
    add_address(&room->event, socket, address, length);
    return end(room, answer);
}

SEC("fexit/security_socket_connect")
int BPF_PROG(socket_connect, struct socket *socket, struct sockaddr *address, int length, int answer)
{
    BEGIN(SOCKET_CONNECT);
    add_address(&room->event, socket, address, length);
    return end(room, answer);
}

static __always_inline void add_target(struct event *event, struct task_struct *target)
{
    u32 process = BPF_CORE_READ(target, tgid);

    event->values[0] = process_of(target);
    event->values[1] = bpf_map_lookup_elem(&followed, &process) != 0;
}

SEC("fexit/security_ptrace_access_check")
int BPF_PROG(ptrace_access_check, struct task_struct *target, unsigned int mode, int answer)
{
    BEGIN(PTRACE_ACCESS_CHECK);
    add_target(&room->event, target);
    return end(room, answer);
}

SEC("fexit/security_task_kill")
int BPF_PROG(task_kill, struct task_struct *target, void *info, int signal, const struct cred *cred, int answer)
{
    BEGIN(TASK_KILL);
    add_target(&room->event, target);
    room->event.values[2] = signal;
    return end(room, answer);
}

/* Keeps Landlock's own answer for the event of the question, which is sent after all modules have answered. */
static __always_inline int keep_own(u64 *arguments)
{
    u32 process = bpf_get_current_pid_tgid() >> 32;
    u32 *generations = bpf_map_lookup_elem(&followed, &process);
    struct room *room;
    u64 answer = 0;

    if (!generations || *generations != HEARD_ITSELF)
        return 0;
    room = room_of_thread(BPF_LOCAL_STORAGE_GET_F_CREATE);
    if (!room)
        return 0;
    bpf_get_func_ret(arguments, &answer);
    room->own = answer;
    room->has_own = 1;
    return 0;
}

#define OWN(HOOK) \
    SEC("fexit/hook_" #HOOK) \
    int own_##HOOK(u64 *arguments) \
    { \
        return keep_own(arguments); \
    }

OWN(file_open)
OWN(file_truncate)
OWN(file_ioctl)
OWN(file_ioctl_compat)
OWN(path_mknod)
OWN(path_mkdir)
OWN(path_symlink)
OWN(path_unlink)
OWN(path_rmdir)
OWN(path_rename)
OWN(path_link)
OWN(path_truncate)
OWN(sb_mount)
OWN(sb_umount)
OWN(sb_pivotroot)
OWN(sb_remount)
OWN(move_mount)
OWN(socket_bind)
OWN(socket_connect)

static __always_inline int answer_of(u64 pointer)
{
    return pointer > -MOST_ERRORS ? pointer : 0;
}

/* A ruleset is made, after all checks; how many kinds of rights it has depends on the kernel. */
SEC("fexit/landlock_create_ruleset")
int created(u64 *arguments)
{
    u64 ruleset = 0, number;

    BEGIN(CREATE);
    number = bpf_get_func_arg_cnt(arguments);
    bpf_get_func_ret(arguments, &ruleset);
    room->event.file = ruleset;
    bpf_get_func_arg(arguments, 0, &room->event.values[0]);
    if (number > 1)
        bpf_get_func_arg(arguments, 1, &room->event.values[1]);
    if (number > 2)
        bpf_get_func_arg(arguments, 2, &room->event.values[2]);
    return end(room, answer_of(ruleset));
}

SEC("fexit/landlock_append_fs_rule")
int BPF_PROG(path_added, struct landlock_ruleset *ruleset, const struct path *path, u64 rights, int answer)
{
    BEGIN(ADD_PATH);
    room->event.file = (u64)ruleset;
    room->event.values[0] = (u32)rights;
    go_up_from(room, path, 0);
    return end(room, answer);
}

SEC("fexit/landlock_append_net_rule")
int BPF_PROG(port_added, struct landlock_ruleset *ruleset, u64 port, u64 rights, int answer)
{
    BEGIN(ADD_PORT);
    room->event.file = (u64)ruleset;
    room->event.values[0] = (u32)rights;
    room->event.values[1] = (u16)port;
    return end(room, answer);
}

/* A thread restricts itself: Landlock joins its domain and a ruleset, after all checks. */
SEC("fexit/landlock_merge_ruleset")
int BPF_PROG(restricted, struct landlock_ruleset *domain, struct landlock_ruleset *ruleset, u64 joined)
{
    BEGIN(RESTRICT);
    room->event.file = (u64)ruleset;
    room->event.values[0] = BPF_CORE_READ(bpf_get_current_task_btf(), atomic_flags) & PFA_NO_NEW_PRIVS;
    return end(room, answer_of(joined));
}

/* Follows a child of a process that is followed; threads are of the same process. */
static __always_inline void follow(u32 parent, u32 child)
{
    u32 *generations = bpf_map_lookup_elem(&followed, &parent);
    u32 left;

    if (!generations || parent == child)
        return;
    left = *generations > HEARD_ITSELF ? *generations - 1 : HEARD_ITSELF;
    if (bpf_map_update_elem(&followed, &child, &left, BPF_ANY))
        count(UNFOLLOWED);
    else
        __sync_fetch_and_add(&following, 1);
}

SEC("tp_btf/sched_process_fork")
int BPF_PROG(forked, struct task_struct *parent, struct task_struct *child)
{
    follow(BPF_CORE_READ(parent, tgid), BPF_CORE_READ(child, tgid));
    BEGIN(FORK);
    room->event.values[0] = process_of(child);
    room->event.values[1] = number_of(BPF_CORE_READ(child, thread_pid));
    return end(room, 0);
}

SEC("tp_btf/sched_process_exec")
int BPF_PROG(executed, struct task_struct *task, int old_tid, struct linux_binprm *program)
{
    BEGIN(EXEC);
    return end(room, 0);
}

static __always_inline void unfollow(struct task_struct *task)
{
    u32 process = BPF_CORE_READ(task, tgid);

    if (BPF_CORE_READ(task, signal, live.counter) == 0 && !bpf_map_delete_elem(&followed, &process))
        __sync_fetch_and_add(&following, -1);
}

static __always_inline int tell_exit(struct task_struct *task)
{
    BEGIN(EXIT);
    room->event.values[0] = BPF_CORE_READ(task, signal, live.counter) == 0;
    return end(room, 0);
}

SEC("tp_btf/sched_process_exit")
int BPF_PROG(exited, struct task_struct *task)
{
    tell_exit(task);
    unfollow(task);
    return 0;
}

/* A service manager that restarts a unit removes its cgroup, and makes another one of the same path. */
SEC("tp_btf/cgroup_mkdir")
int BPF_PROG(cgroup_made, struct cgroup *made, const char *path)
{
    if (!cgroup || bpf_probe_read_kernel_str(made_path, sizeof(made_path), path) < 0)
        return 0;
    for (u32 at = 0; at < sizeof(made_path) && (at == 0 || made_path[at - 1]); at++)
        if (made_path[at] != cgroup_path[at])
            return 0;
    cgroup = BPF_CORE_READ(made, kn, id);
    return 0;
}

/* Run once by the loader: follows its own process or its parent, with the number of generations that it says, if any. */
__u32 generations, from_parent;

SEC("raw_tp")
int start(void *context)
{
    struct task_struct *task = bpf_get_current_task_btf();
    u32 process = from_parent ? BPF_CORE_READ(task, real_parent, tgid) : BPF_CORE_READ(task, tgid);

    level = BPF_CORE_READ(task, thread_pid, level);
    return generations ? bpf_map_update_elem(&followed, &process, &generations, BPF_ANY) : 0;
}
