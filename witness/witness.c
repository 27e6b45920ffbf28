/* landaudit-witness: writes what the kernel asks its security modules about the processes of a command. */
#include <bpf/bpf.h>
#include <bpf/libbpf.h>
#include <errno.h>
#include <getopt.h>
#include <poll.h>
#include <signal.h>
#include <stdarg.h>
#include <stdio.h>
#include <stdio_ext.h>
#include <stdlib.h>
#include <string.h>
#include <sys/random.h>
#include <sys/utsname.h>
#include <sys/wait.h>
#include <unistd.h>
#include "event.h"
#include "following.h"
#include "loading.h"
#include "printing.h"

#define USAGE 2
#define UNABLE 4
#define NOT_FOUND 127
#define PAUSE_MILLISECONDS 2
#define BUFFER_BYTES (1 << 20)

/* Whose questions are written: those of a command; of what the children of the parent start, without or with these
 * children; or of what runs already. */
enum whom { COMMAND, BESIDE, CHILDREN, RUNNING };

struct options {
    enum way way;
    enum whom whom;
    int own;
    struct running running;
    const char *out;
    char **command;
};

struct output {
    FILE *file;
    unsigned long long secret;
};

static volatile sig_atomic_t asked_to_end;

static void ask_to_end(int signal_number)
{
    (void)signal_number;
    asked_to_end = 1;
}

static int say_libbpf(enum libbpf_print_level level, const char *format, va_list arguments)
{
    return level == LIBBPF_WARN && getenv("WITNESS_DEBUG") ? vfprintf(stderr, format, arguments) : 0;
}

static int write_event(void *output_, void *data, size_t size)
{
    struct output *output = output_;

    print_event(output->file, data, size, output->secret);
    return 0;
}

static void write_start(FILE *out, const struct loaded *loaded)
{
    struct utsname kernel;

    uname(&kernel);
    fprintf(out, "{\"witness\":1,\"kernel\":\"%s\",\"by\":\"%s\",\"unheard\":[", kernel.release,
            loaded->way == AS_MODULE ? "lsm" : "fexit");
    for (int at = 0; at < loaded->unheard_number; at++)
        fprintf(out, "%s\"%s\"", at ? "," : "", loaded->unheard[at]);
    fputs("]}\n", out);
}

static unsigned long long counted(const struct loaded *loaded, unsigned int what)
{
    int processors = libbpf_num_possible_cpus();
    unsigned long long values[processors], sum = 0;

    memset(values, 0, sizeof(values));
    bpf_map_lookup_elem(bpf_map__fd(loaded->programs->maps.counts), &what, values);
    for (int at = 0; at < processors; at++)
        sum += values[at];
    return sum;
}

/* Writes the last line, and says the same on standard error. */
static void write_end(FILE *out, const struct loaded *loaded)
{
    unsigned long long heard = counted(loaded, HEARD), lost = counted(loaded, LOST), cut = counted(loaded, CUT);
    unsigned long long missed = skipped(loaded) + counted(loaded, ROOMLESS) + counted(loaded, UNFOLLOWED);
    unsigned long long left = loaded->programs->bss->following;

    fprintf(out, "{\"end\":true,\"heard\":%llu,\"lost\":%llu,\"missed\":%llu,\"cut\":%llu,\"left\":%llu}\n", heard,
            lost, missed, cut, left);
    fprintf(stderr, "landaudit-witness: %llu events heard, %llu lost, %llu missed, %llu cut\n", heard, lost, missed,
            cut);
}

/* Lets the BPF side follow this process or its parent, if any, whose descendants are heard from a generation on. */
static int follow_from(const struct loaded *loaded, enum whom whom)
{
    static const unsigned int generations[] = {[COMMAND] = 2, [BESIDE] = 3, [CHILDREN] = 2, [RUNNING] = 0};
    struct bpf_test_run_opts run = {.sz = sizeof(run)};

    loaded->programs->bss->from_parent = whom == BESIDE || whom == CHILDREN;
    loaded->programs->bss->generations = generations[whom];
    return !bpf_prog_test_run_opts(bpf_program__fd(loaded->programs->progs.start), &run) && run.retval == 0;
}

static pid_t start_command(char **command)
{
    pid_t child = fork();

    if (child)
        return child;
    signal(SIGINT, SIG_DFL);
    signal(SIGTERM, SIG_DFL);
    execvp(command[0], command);
    fprintf(stderr, "landaudit-witness: %s: %s\n", command[0], strerror(errno));
    _exit(NOT_FOUND);
}

/* Whether standard input has ended. */
static int input_ended(void)
{
    struct pollfd input = {.fd = STDIN_FILENO, .events = POLLIN};
    char byte;

    return poll(&input, 1, 0) > 0 && read(STDIN_FILENO, &byte, 1) <= 0;
}

/* Whether what is followed has ended, or the witness shall end; `status` becomes that of the command, if known. */
static int has_ended(const struct loaded *loaded, const struct options *options, pid_t child, int *status)
{
    if (asked_to_end)
        return 1;
    if (options->whom != COMMAND)
        return input_ended() || (options->running.number && !loaded->programs->bss->following);
    waitpid(child, status, WNOHANG);
    return !loaded->programs->bss->following;
}

/* Follows what runs already. */
static int start_running(const struct loaded *loaded, const struct running *running, FILE *out)
{
    if (!sees_all_processes() || (running->cgroup && !follow_cgroup(loaded, running->cgroup)))
        return 0;
    return follow_running(loaded, running, out) >= 0;
}

static int follow(const struct loaded *loaded, const struct options *options, struct output *output)
{
    struct ring_buffer *ring = ring_buffer__new(bpf_map__fd(loaded->programs->maps.events), write_event, output, NULL);
    int status = 0;
    pid_t child = 0;

    if (!ring || !follow_from(loaded, options->whom)) {
        fprintf(stderr, "landaudit-witness: its programs do not run: %s\n", strerror(errno));
        return UNABLE;
    }
    if (options->whom == RUNNING && !start_running(loaded, &options->running, output->file))
        return UNABLE;
    if (options->whom != COMMAND) {
        puts("ready");
        fflush(stdout);
    } else {
        child = start_command(options->command);
    }
    while (!has_ended(loaded, options, child, &status))
        if (ring_buffer__consume(ring) == 0)
            usleep(PAUSE_MILLISECONDS * 1000);
    if (options->whom == COMMAND && !asked_to_end)
        waitpid(child, &status, 0); /* it has ended, but may not have been a zombie when that was looked for */
    ring_buffer__consume(ring);
    ring_buffer__free(ring);
    return WIFEXITED(status) ? WEXITSTATUS(status) : 128 + WTERMSIG(status);
}

static const char usage[] =
    "usage: landaudit-witness [--by fexit|lsm] [--landlock] OUT.jsonl -- COMMAND..\n"
    "       landaudit-witness [--by fexit|lsm] [--landlock] --beside|--children OUT.jsonl\n"
    "       landaudit-witness [--by fexit|lsm] [--landlock] --pid N..|--cgroup DIR OUT.jsonl\n"
    "\n"
    "Writes what the kernel asks its security modules about the processes of COMMAND, or about processes that run\n"
    "already, or that its parent starts: then from the line 'ready' on standard output until standard input ends. It\n"
    "needs CAP_BPF and CAP_PERFMON.\n"
    "\n"
    "  --beside     about the processes that the children of its parent start\n"
    "  --children   about the children that its parent starts, and what they start\n"
    "  --pid N      about a process that runs, its descendants, and what they start\n"
    "  --cgroup DIR about all processes of a cgroup (version 2), and what they start\n"
    "  --landlock   with Landlock's own answers, where its functions can be heard\n"
    "  --by fexit   by programs at the functions of the kernel that ask\n"
    "  --by lsm     by programs of the BPF security module\n";

static int read_way(const char *text, enum way *way)
{
    if (!strcmp(text, "fexit"))
        *way = AT_FUNCTIONS;
    else if (!strcmp(text, "lsm"))
        *way = AS_MODULE;
    else
        return 0;
    return 1;
}

/* Reads an option that says whose questions are written; returns false if it is wrong, or not alone. */
static int read_whom(int option, const char *text, struct options *options)
{
    enum whom whom = option == 's' ? BESIDE : option == 'c' ? CHILDREN : RUNNING;
    struct running *running = &options->running;

    if (options->whom != COMMAND && (options->whom != RUNNING || whom != RUNNING))
        return 0;
    options->whom = whom;
    if (option == 'g')
        return !running->cgroup && (running->cgroup = text) != NULL;
    if (option != 'p')
        return option == 's' || option == 'c';
    if (running->number == MOST_NAMED || atoi(text) <= 0)
        return 0;
    running->processes[running->number++] = atoi(text);
    return 1;
}

/* Reads the command line; returns false if it is wrong. */
static int read_options(int number, char **words, struct options *options)
{
    static const struct option known[] = {{"by", required_argument, NULL, 'b'}, {"beside", no_argument, NULL, 's'},
                                          {"children", no_argument, NULL, 'c'}, {"pid", required_argument, NULL, 'p'},
                                          {"cgroup", required_argument, NULL, 'g'}, {"landlock", no_argument, NULL, 'l'},
                                          {"help", no_argument, NULL, 'h'}, {}};
    int option;

    while ((option = getopt_long(number, words, "+h", known, NULL)) != -1) {
        if (option == 'h') {
            fputs(usage, stdout);
            exit(0);
        }
        if (option == 'l')
            options->own = 1;
        else if (option == 'b' ? !read_way(optarg, &options->way) : !read_whom(option, optarg, options))
            return 0;
    }
    if (optind >= number)
        return 0;
    options->out = words[optind++];
    if (options->whom != COMMAND)
        return optind == number;
    options->command = words + optind + 1;
    return optind + 1 < number && !strcmp(words[optind], "--");
}

int main(int number, char **words)
{
    struct options options = {};
    struct loaded loaded = {};
    struct output output = {};
    int status;

    if (!read_options(number, words, &options)) {
        fputs(usage, stderr);
        return USAGE;
    }
    libbpf_set_print(say_libbpf);
    loaded.own = options.own;
    if (!load(&loaded, options.way) || getrandom(&output.secret, sizeof(output.secret), 0) < 0)
        return UNABLE;
    output.file = fopen(options.out, "wxe");
    if (!output.file) {
        fprintf(stderr, "landaudit-witness: cannot write %s: %s\n", options.out, strerror(errno));
        return UNABLE;
    }
    __fsetlocking(output.file, FSETLOCKING_BYCALLER);
    setvbuf(output.file, NULL, _IOFBF, BUFFER_BYTES);
    signal(SIGINT, ask_to_end);
    signal(SIGTERM, ask_to_end);
    write_start(output.file, &loaded);
    status = follow(&loaded, &options, &output);
    write_end(output.file, &loaded);
    if (fclose(output.file)) {
        fprintf(stderr, "landaudit-witness: cannot write %s: %s\n", options.out, strerror(errno));
        status = UNABLE;
    }
    witness__destroy(loaded.programs);
    return status;
}
