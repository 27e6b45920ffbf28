#include "printing.h"
#include <limits.h>
#include <string.h>
#include <sys/stat.h>
#include <time.h>
#include <unistd.h>
#include "event.h"

#define MOST_NODES 512
#define FMODE_READ 1
#define FMODE_WRITE 2
#define FMODE_EXEC 040

struct nodes {
    const struct node *of[MOST_NODES];
    size_t number;
};

static const char *const names[HOOKS] = {
    [FILE_OPEN] = "file_open",
    [FILE_TRUNCATE] = "file_truncate",
    [FILE_IOCTL] = "file_ioctl",
    [FILE_IOCTL_COMPAT] = "file_ioctl_compat",
    [PATH_MKNOD] = "path_mknod",
    [PATH_MKDIR] = "path_mkdir",
    [PATH_SYMLINK] = "path_symlink",
    [PATH_UNLINK] = "path_unlink",
    [PATH_RMDIR] = "path_rmdir",
    [PATH_RENAME] = "path_rename",
    [PATH_LINK] = "path_link",
    [PATH_TRUNCATE] = "path_truncate",
    [SB_MOUNT] = "sb_mount",
    [SB_UMOUNT] = "sb_umount",
    [SB_PIVOTROOT] = "sb_pivotroot",
    [SB_REMOUNT] = "sb_remount",
    [MOVE_MOUNT] = "move_mount",
    [SOCKET_BIND] = "socket_bind",
    [SOCKET_CONNECT] = "socket_connect",
    [PTRACE_ACCESS_CHECK] = "ptrace_access_check",
    [TASK_KILL] = "task_kill",
    [CREATE] = "create",
    [ADD_PATH] = "add_path",
    [ADD_PORT] = "add_port",
    [RESTRICT] = "restrict",
    [JOINED] = "joined",
    [FORK] = "fork",
    [EXEC] = "exec",
    [EXIT] = "exit",
};

const char *hook_name(unsigned int hook)
{
    return hook < HOOKS ? names[hook] : "unknown";
}

void print_text(FILE *out, const char *text, size_t length)
{
    putc_unlocked('"', out);
    for (size_t at = 0; at < length && text[at]; at++) {
        unsigned char byte = text[at];

        if (byte == '"' || byte == '\\')
            fprintf(out, "\\%c", byte);
        else if (byte < 0x20 || byte > 0x7e)
            fprintf(out, "\\u%s%02x", byte > 0x7e ? "dc" : "00", byte);
        else
            putc_unlocked(byte, out);
    }
    putc_unlocked('"', out);
}

static const char *kind(unsigned int mode)
{
    switch (mode & S_IFMT) {
    case S_IFDIR: return "dir";
    case S_IFREG: return "reg";
    case S_IFLNK: return "sym";
    case S_IFCHR: return "char";
    case S_IFBLK: return "block";
    case S_IFIFO: return "fifo";
    case S_IFSOCK: return "sock";
    default: return "none";
    }
}

static const char *name_of(const struct node *node)
{
    return (const char *)(node + 1);
}

static void find_nodes(struct nodes *nodes, const struct event *event, size_t size, unsigned int chain)
{
    size_t at = sizeof(*event);

    nodes->number = 0;
    for (unsigned int count = 0; count < event->nodes && at + sizeof(struct node) <= size; count++) {
        const struct node *node = (const void *)((const char *)event + at);

        if (node->chain == chain && nodes->number < MOST_NODES)
            nodes->of[nodes->number++] = node;
        at += sizeof(*node) + ((node->length + 7) & ~7u);
    }
}

static void print_chain(FILE *out, const struct nodes *nodes)
{
    for (size_t at = 0; at < nodes->number; at++) {
        const struct node *node = nodes->of[at];
        unsigned int flags = node->flags;

        fprintf(out, "%s[\"%u:%u\",%llu,%u,", at ? "," : "", node->device >> 20, node->device & 0xfffff,
                (unsigned long long)node->inode, node->generation);
        print_text(out, name_of(node), node->length);
        fprintf(out, ",\"%s\",\"%s%s%s%s%s%s\"]", kind(node->mode), flags & OBJECT ? "o" : "",
                flags & MISSING ? "?" : "", flags & MOUNT ? "m" : "", flags & LAST ? "r" : "",
                flags & DETACHED ? "d" : "", flags & INTERNAL ? "i" : "");
    }
}

static int is_root(const struct node *node)
{
    return node->length == 1 && name_of(node)[0] == '/';
}

/* Writes the path that the names of a chain are; a mount's root has the name of its mountpoint. */
static void print_path(FILE *out, const struct nodes *nodes)
{
    char path[8192 + 512];
    size_t length = 0;

    for (size_t at = nodes->number; at-- > 0;) {
        const struct node *node = nodes->of[at];

        if (is_root(node) || length + node->length + 1 > sizeof(path))
            continue;
        path[length++] = '/';
        memcpy(path + length, name_of(node), node->length);
        length += node->length;
    }
    print_text(out, length ? path : "/", length ? length : 1);
}

static void print_chains(FILE *out, const struct event *event, size_t size)
{
    static const char *const members[][2] = {{"path", "chain"}, {"to", "to_chain"}};
    struct nodes nodes;

    for (unsigned int chain = 0; chain < 2; chain++) {
        find_nodes(&nodes, event, size, chain);
        if (!nodes.number)
            continue;
        fprintf(out, ",\"%s\":", members[chain][0]);
        print_path(out, &nodes);
        fprintf(out, ",\"%s\":[", members[chain][1]);
        print_chain(out, &nodes);
        putc(']', out);
    }
}

static void print_file(FILE *out, const struct event *event, unsigned long long secret)
{
    const __u64 *values = event->values;

    fprintf(out, ",\"file\":\"%llx\",\"flags\":%llu,\"rights\":\"%s%s%s\"", (unsigned long long)event->file ^ secret,
            (unsigned long long)values[0], values[1] & FMODE_READ ? "r" : "", values[1] & FMODE_WRITE ? "w" : "",
            values[0] & FMODE_EXEC ? "x" : "");
    if (event->hook == FILE_OPEN && values[2])
        fputs(",\"other\":true", out);
    if (event->hook == FILE_IOCTL || event->hook == FILE_IOCTL_COMPAT)
        fprintf(out, ",\"command\":%llu", (unsigned long long)values[2]);
}

static void print_socket(FILE *out, const __u64 *values)
{
    fprintf(out, ",\"family\":%llu,\"port\":%llu,\"type\":%llu,\"protocol\":%llu,\"of\":%llu,\"length\":%llu",
            (unsigned long long)values[0], (unsigned long long)values[1], (unsigned long long)values[2] >> 32,
            (unsigned long long)values[2] & 0xffff, (unsigned long long)values[3] >> 32,
            (unsigned long long)values[3] & 0xffffffff);
}

/* Writes a ruleset, and its rights or those of a rule as the kernel's bits. */
static void print_ruleset(FILE *out, const struct event *event, unsigned long long secret)
{
    const __u64 *values = event->values;

    fprintf(out, ",\"ruleset\":\"%llx\"", (unsigned long long)event->file ^ secret);
    if (event->hook == RESTRICT)
        fprintf(out, ",\"nnp\":%s", values[0] ? "true" : "false");
    else if (event->hook == CREATE)
        fprintf(out, ",\"fs\":%llu,\"net\":%llu,\"scoped\":%llu", (unsigned long long)values[0],
                (unsigned long long)values[1], (unsigned long long)values[2]);
    else
        fprintf(out, ",\"allowed\":%llu", (unsigned long long)values[0]);
    if (event->hook == ADD_PORT)
        fprintf(out, ",\"port\":%llu", (unsigned long long)values[1]);
}

/* Writes the program that a process runs, if it still does. */
static void print_program(FILE *out, pid_t process)
{
    char link[64], path[PATH_MAX];
    ssize_t length;

    snprintf(link, sizeof(link), "/proc/%d/exe", process);
    length = readlink(link, path, sizeof(path));
    if (length <= 0)
        return;
    fputs(",\"program\":", out);
    print_text(out, path, length);
}

static void print_target(FILE *out, const struct event *event)
{
    fprintf(out, ",\"target\":%llu,\"followed\":%s", (unsigned long long)event->values[0],
            event->values[1] ? "true" : "false");
    if (event->hook == TASK_KILL)
        fprintf(out, ",\"signal\":%llu", (unsigned long long)event->values[2]);
}

static void print_values(FILE *out, const struct event *event, unsigned long long secret)
{
    switch (event->hook) {
    case FILE_OPEN:
    case FILE_TRUNCATE:
    case FILE_IOCTL:
    case FILE_IOCTL_COMPAT:
        print_file(out, event, secret);
        break;
    case PATH_MKNOD:
        fprintf(out, ",\"kind\":\"%s\"", event->values[0] & S_IFMT ? kind(event->values[0]) : "reg");
        break;
    case PATH_RENAME:
    case SB_MOUNT:
    case SB_UMOUNT:
        fprintf(out, ",\"flags\":%llu", (unsigned long long)event->values[0]);
        break;
    case SOCKET_BIND:
    case SOCKET_CONNECT:
        print_socket(out, event->values);
        break;
    case PTRACE_ACCESS_CHECK:
    case TASK_KILL:
        print_target(out, event);
        break;
    case CREATE:
    case ADD_PATH:
    case ADD_PORT:
    case RESTRICT:
        print_ruleset(out, event, secret);
        break;
    case EXIT:
        fprintf(out, ",\"last\":%s", event->values[0] ? "true" : "false");
        break;
    case JOINED:
        print_program(out, event->pid);
        break;
    case FORK:
        fprintf(out, ",\"child\":%llu,\"thread\":%llu", (unsigned long long)event->values[0],
                (unsigned long long)event->values[1]);
        break;
    }
}

void print_found(FILE *out, pid_t process)
{
    struct timespec now;
    char file[64], comm[16];
    size_t length = 0;
    FILE *in;

    snprintf(file, sizeof(file), "/proc/%d/comm", process);
    in = fopen(file, "re");
    if (in) {
        length = fread(comm, 1, sizeof(comm), in);
        fclose(in);
    }
    clock_gettime(CLOCK_MONOTONIC, &now);
    fprintf(out, "{\"time\":%llu,\"pid\":%d,\"tid\":%d,\"comm\":",
            (unsigned long long)now.tv_sec * 1000000000 + now.tv_nsec, process, process);
    print_text(out, comm, length ? length - 1 : 0); /* it ends with a line feed */
    fputs(",\"hook\":\"found\",\"answer\":0", out);
    print_program(out, process);
    fputs("}\n", out);
}

void print_event(FILE *out, const void *data, size_t size, unsigned long long secret)
{
    const struct event *event = data;

    fprintf(out, "{\"time\":%llu,\"pid\":%u,\"tid\":%u,\"comm\":", (unsigned long long)event->time, event->pid,
            event->tid);
    print_text(out, event->comm, sizeof(event->comm));
    fprintf(out, ",\"hook\":\"%s\",\"answer\":%d", hook_name(event->hook), event->answer);
    if (event->has_own)
        fprintf(out, ",\"landlock\":%d", event->own);
    if (event->cut)
        fputs(",\"cut\":true", out);
    print_values(out, event, secret);
    print_chains(out, event, size);
    fputs("}\n", out);
}
