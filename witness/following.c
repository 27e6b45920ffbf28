#include "following.h"
#include <bpf/bpf.h>
#include <bpf/libbpf.h>
#include <dirent.h>
#include <errno.h>
#include <limits.h>
#include <linux/magic.h>
#include <stdlib.h>
#include <string.h>
#include <sys/stat.h>
#include <sys/vfs.h>
#include <unistd.h>
#include "event.h"
#include "printing.h"

#define FIRST_NAMESPACE "pid:[4026531836]" /* PROC_PID_INIT_INO */
#define HEARD_ITSELF 1

int sees_all_processes(void)
{
    char target[64] = "";

    if (readlink("/proc/self/ns/pid", target, sizeof(target) - 1) > 0 && !strcmp(target, FIRST_NAMESPACE))
        return 1;
    fputs("landaudit-witness: --pid and --cgroup need the first PID namespace of the machine\n", stderr);
    return 0;
}

static int is_cgroup(const char *path)
{
    struct statfs about;

    return !statfs(path, &about) && about.f_type == CGROUP2_SUPER_MAGIC;
}

/* How many directories are above a cgroup in the hierarchy; -1 if it is none of version 2. `path` is its real path, of
 * which the path in the hierarchy, if any, is left. */
static int depth_of(char *path)
{
    char over[PATH_MAX];
    int depth = -1;
    size_t root = 0;

    strcpy(over, path);
    while (is_cgroup(over)) {
        char *last = strrchr(over, '/');

        depth++;
        root = strlen(over);
        if (last == over)
            break;
        *last = 0;
    }
    memmove(path, path + root, strlen(path + root) + 1);
    return depth;
}

int follow_cgroup(const struct loaded *loaded, const char *path)
{
    struct stat about;
    char real[PATH_MAX];
    int depth = realpath(path, real) ? depth_of(real) : -1;

    if (depth < 0 || stat(path, &about) || !S_ISDIR(about.st_mode)) {
        fprintf(stderr, "landaudit-witness: %s is no directory of a cgroup (version 2)\n", path);
        return 0;
    }
    loaded->programs->bss->cgroup_depth = depth;
    if (strlen(real) < CGROUP_PATH_BYTES)
        strcpy(loaded->programs->bss->cgroup_path, real);
    loaded->programs->bss->cgroup = about.st_ino;
    return 1;
}

/* Follows a process, unless it is followed; returns how many that are. */
static int follow_process(const struct loaded *loaded, unsigned int process, FILE *out)
{
    unsigned int generations = HEARD_ITSELF;

    if (bpf_map_update_elem(bpf_map__fd(loaded->programs->maps.followed), &process, &generations, BPF_NOEXIST))
        return 0;
    __atomic_fetch_add(&loaded->programs->bss->following, 1, __ATOMIC_SEQ_CST);
    print_found(out, process);
    return 1;
}

static int is_followed(const struct loaded *loaded, unsigned int process)
{
    unsigned int generations;

    return !bpf_map_lookup_elem(bpf_map__fd(loaded->programs->maps.followed), &process, &generations);
}

static unsigned int parent_of(const char *process)
{
    char file[64], line[512];
    unsigned int parent = 0;
    FILE *in;

    snprintf(file, sizeof(file), "/proc/%.16s/stat", process);
    in = fopen(file, "re");
    if (in && fgets(line, sizeof(line), in) && strrchr(line, ')'))
        sscanf(strrchr(line, ')'), ") %*c %u", &parent);
    if (in)
        fclose(in);
    return parent;
}

/* Follows the children of processes that are followed; returns how many more that are. */
static int follow_children(const struct loaded *loaded, FILE *out)
{
    DIR *processes = opendir("/proc");
    struct dirent *entry;
    int more = 0;

    while (processes && (entry = readdir(processes)) != NULL) {
        unsigned int process = strtoul(entry->d_name, NULL, 10);

        if (process && is_followed(loaded, parent_of(entry->d_name)))
            more += follow_process(loaded, process, out);
    }
    if (processes)
        closedir(processes);
    return more;
}

/* Follows the processes of a cgroup; returns how many more that are. */
static int follow_members(const struct loaded *loaded, const char *path, FILE *out)
{
    char file[PATH_MAX];
    unsigned int process;
    int more = 0;
    FILE *in;

    snprintf(file, sizeof(file), "%s/cgroup.procs", path);
    in = fopen(file, "re");
    while (in && fscanf(in, "%u", &process) == 1)
        if (process)
            more += follow_process(loaded, process, out);
    if (in)
        fclose(in);
    return more;
}

/* Follows the processes of a cgroup and of those below it; returns how many more that are. */
static int follow_members_below(const struct loaded *loaded, const char *path, FILE *out)
{
    DIR *directory = opendir(path);
    struct dirent *entry;
    int more = follow_members(loaded, path, out);

    while (directory && (entry = readdir(directory)) != NULL) {
        char below[PATH_MAX];

        if (entry->d_type != DT_DIR || entry->d_name[0] == '.')
            continue;
        if (snprintf(below, sizeof(below), "%s/%s", path, entry->d_name) < (int)sizeof(below))
            more += follow_members_below(loaded, below, out);
    }
    if (directory)
        closedir(directory);
    return more;
}

int follow_running(const struct loaded *loaded, const struct running *running, FILE *out)
{
    int found = 0, more;

    for (int at = 0; at < running->number; at++) {
        char process[16];

        snprintf(process, sizeof(process), "%d", running->processes[at]);
        if (!parent_of(process) && running->processes[at] != 1) {
            fprintf(stderr, "landaudit-witness: there is no process %s\n", process);
            return -1;
        }
        found += follow_process(loaded, running->processes[at], out);
    }
    if (running->cgroup)
        found += follow_members_below(loaded, running->cgroup, out);
    while (running->number && (more = follow_children(loaded, out)) != 0)
        found += more; /* a child that was made before its parent was followed may have children too */
    return found;
}
