#include "loading.h"
#include <bpf/bpf.h>
#include <bpf/btf.h>
#include <bpf/libbpf.h>
#include <errno.h>
#include <stdio.h>
#include <stdlib.h>
#include <string.h>
#include <sys/utsname.h>

#define FUNCTION "fexit/"
#define QUESTION "security_"
#define OWN "hook_"
#define CAP_SYS_ADMIN 21
#define CAP_PERFMON 38
#define CAP_BPF 39

/* The function at which a program listens; none for tracepoints. */
static const char *function_of(const struct bpf_program *program)
{
    const char *section = bpf_program__section_name(program);

    return strncmp(section, FUNCTION, strlen(FUNCTION)) ? NULL : section + strlen(FUNCTION);
}

/* The name of the hook that a function asks; none for a function of Landlock's own. */
static const char *hook_of(const char *function)
{
    return strncmp(function, QUESTION, strlen(QUESTION)) ? NULL : function + strlen(QUESTION);
}

static int read_line(const char *file, char *line, size_t size)
{
    FILE *in = fopen(file, "re");
    int done = in && fgets(line, size, in);

    if (in)
        fclose(in);
    return done;
}

/* Whether the kernel runs BPF LSM programs: "bpf" is one of its active modules. */
static int has_bpf_lsm(void)
{
    char modules[512];

    if (!read_line("/sys/kernel/security/lsm", modules, sizeof(modules)))
        return 0;
    for (char *module = strtok(modules, ",\n"); module; module = strtok(NULL, ",\n"))
        if (!strcmp(module, "bpf"))
            return 1;
    return 0;
}

/* Whether a task may be preempted in the kernel, so that programs at functions may be skipped; true if in doubt. */
static int preempts(void)
{
    char modes[128], arguments[4096];
    struct utsname kernel;

    if (read_line("/sys/kernel/debug/sched/preempt", modes, sizeof(modes)))
        return !strstr(modes, "(none)") && !strstr(modes, "(voluntary)");
    if (uname(&kernel) || !strstr(kernel.version, "PREEMPT"))
        return 0;
    if (!strstr(kernel.version, "PREEMPT_DYNAMIC") || !read_line("/proc/cmdline", arguments, sizeof(arguments)))
        return 1;
    return !strstr(arguments, "preempt=none") && !strstr(arguments, "preempt=voluntary");
}

/* Whether this process may load the programs (capabilities(7)). */
static int is_privileged(void)
{
    FILE *in = fopen("/proc/self/status", "re");
    char line[256];
    unsigned long long held = 0;

    while (in && fgets(line, sizeof(line), in))
        if (!strncmp(line, "CapEff:", 7))
            held = strtoull(line + 7, NULL, 16);
    if (in)
        fclose(in);
    return held >> CAP_SYS_ADMIN & 1 || (held >> CAP_BPF & 1 && held >> CAP_PERFMON & 1);
}

/* Leaves out a program whose function this kernel does not have; such a kernel does not ask the question. Programs at
 * Landlock's own functions are left out too if they are not wanted. */
static void leave_out(const struct loaded *loaded, struct bpf_program *program, const struct btf *kernel)
{
    const char *function = function_of(program);
    int is_own = function && !strncmp(function, OWN, strlen(OWN));

    if (is_own && (!loaded->own || loaded->way == AS_MODULE))
        bpf_program__set_autoload(program, false);
    else if (function && btf__find_by_name_kind(kernel, function, BTF_KIND_FUNC) < 0)
        bpf_program__set_autoload(program, false);
}

static int not_attached(const char *name)
{
    fprintf(stderr, "landaudit-witness: no program can be attached to %s: %s\n", name, strerror(errno));
    return 0;
}

/* Makes a program one of the module; a function of Landlock's own stays unheard. */
static int make_module_program(struct loaded *loaded, struct bpf_program *program)
{
    const char *function = function_of(program), *hook = function ? hook_of(function) : NULL;

    if (!function || !bpf_program__autoload(program))
        return 1;
    if (!hook) {
        bpf_program__set_autoload(program, false);
        loaded->unheard[loaded->unheard_number++] = function;
        return 1;
    }
    if (bpf_program__set_type(program, BPF_PROG_TYPE_LSM) ||
        bpf_program__set_expected_attach_type(program, BPF_LSM_MAC) ||
        bpf_program__set_attach_target(program, 0, hook))
        return not_attached(hook);
    return 1;
}

static int prepare(struct loaded *loaded)
{
    struct btf *kernel = btf__load_vmlinux_btf();
    struct bpf_program *program;
    int done = kernel != NULL;

    if (!kernel)
        fputs("landaudit-witness: this kernel has no BTF (/sys/kernel/btf/vmlinux)\n", stderr);
    bpf_object__for_each_program(program, loaded->programs->obj) {
        if (!done)
            break;
        leave_out(loaded, program, kernel);
        if (loaded->way == AS_MODULE)
            done = make_module_program(loaded, program);
    }
    btf__free(kernel);
    return done;
}

static int attach(struct loaded *loaded)
{
    struct bpf_program *program;

    bpf_object__for_each_program(program, loaded->programs->obj) {
        int is_lsm = bpf_program__type(program) == BPF_PROG_TYPE_LSM;

        if (!bpf_program__autoload(program) || bpf_program__type(program) == BPF_PROG_TYPE_RAW_TRACEPOINT)
            continue;
        if (!(is_lsm ? bpf_program__attach_lsm(program) : bpf_program__attach(program)))
            return not_attached(bpf_program__section_name(program));
    }
    return 1;
}

/* Loads the programs in one way; returns 0, or the number of the error. */
static int load_in(struct loaded *loaded, enum way way)
{
    int error;

    loaded->way = way;
    loaded->unheard_number = 0;
    loaded->programs = witness__open();
    if (!loaded->programs)
        return errno;
    errno = 0;
    if (prepare(loaded) && !witness__load(loaded->programs) && attach(loaded))
        return 0;
    error = errno ? errno : EINVAL;
    witness__destroy(loaded->programs);
    return error;
}

static int refused(enum way way, int error)
{
    const char *what = way == AS_MODULE ? "BPF LSM programs" : "BPF programs at its functions (fexit)";

    fprintf(stderr, "landaudit-witness: this kernel refuses %s: %s\n", what, strerror(error));
    return 0;
}

int load(struct loaded *loaded, enum way way)
{
    int module = has_bpf_lsm(), error;

    if (!is_privileged()) {
        fputs("landaudit-witness: only root, or who has CAP_BPF and CAP_PERFMON, may load its programs\n", stderr);
        return 0;
    }
    if (way == AS_MODULE && !module) {
        fputs("landaudit-witness: this kernel runs no BPF LSM programs (/sys/kernel/security/lsm)\n", stderr);
        return 0;
    }
    if (way == AS_MODULE || (way == ANY_WAY && module && preempts())) {
        error = load_in(loaded, AS_MODULE);
        return !error || refused(AS_MODULE, error);
    }
    error = load_in(loaded, AT_FUNCTIONS);
    if (!error)
        return 1;
    refused(AT_FUNCTIONS, error);
    if (way == AT_FUNCTIONS || !module)
        return 0;
    error = load_in(loaded, AS_MODULE);
    return !error || refused(AS_MODULE, error);
}

unsigned long long skipped(const struct loaded *loaded)
{
    unsigned long long all = 0;
    struct bpf_program *program;

    bpf_object__for_each_program(program, loaded->programs->obj) {
        struct bpf_prog_info info = {};
        unsigned int size = sizeof(info);

        if (bpf_program__fd(program) >= 0 && !bpf_obj_get_info_by_fd(bpf_program__fd(program), &info, &size))
            all += info.recursion_misses;
    }
    return all;
}
