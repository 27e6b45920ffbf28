"""A policy as code: a C99 function that confines its process as `confining` does, with only the kernel's headers.

The tables of the code are the policy. The functions after them are the same for every policy, and follow "Defining
and enforcing a security policy" in the kernel's userspace documentation on Landlock.
"""

from __future__ import annotations

import textwrap
from collections.abc import Iterable, Iterator, Sequence

from ...common.comments import Comments
from ...common.rights import ABI_OF_LOG, ABI_OF_SCOPES, FS, LATEST_ABI, NET, NEWEST_ABI, SCOPES, Family
from ..fitting import FittedLayer, FittedPathRule, FittedPortRule, in_force
from ..landlock_calls import LOG_NEW_EXEC_ON
from ..policies import Policy
from . import Exported

WIDTH = 100
_HEAD = """\
#ifndef _GNU_SOURCE
#define _GNU_SOURCE
#endif
#include <errno.h>
#include <fcntl.h>
#include <stddef.h>
#include <stdint.h>
#include <sys/prctl.h>
#include <sys/stat.h>
#include <sys/syscall.h>
#include <unistd.h>

#include <linux/landlock.h>

/*
 * Confines the calling thread, and all that it starts afterwards, by the policy below. Returns 0, or the errno of the
 * call that failed: ENOSYS or EOPNOTSUPP if the kernel has no Landlock. After a failure, the thread may be confined by
 * some of the layers. Rights that the kernel's ABI does not have are left out, and so are rules on objects that do not
 * exist.
 */
int confine_by_policy(void);
"""

_TYPES = """\
struct policy_path {
	const char *path;
	uint64_t on_directory, on_file; /* what is allowed, by what the path is */
};

struct policy_port {
	uint64_t port, allowed;
};

struct policy_layer {
	uint64_t handled_access_fs, handled_access_net, scoped;
	const struct policy_path *paths;
	size_t path_count;
	const struct policy_port *ports;
	size_t port_count;
};
"""

_CODE = """\
/* Structures and numbers that headers older than the policy's ABI lack. */
struct policy_ruleset_attr {
	uint64_t handled_access_fs, handled_access_net, scoped;
};

struct policy_net_port_attr {
	uint64_t allowed_access, port;
};

enum {
	POLICY_RULE_NET_PORT = 2,
	POLICY_NET_ABI = @NET_ABI@,
	POLICY_SCOPE_ABI = @SCOPE_ABI@,
	POLICY_NEWEST_ABI = @NEWEST_ABI@,
	POLICY_LOG_ABI = @LOG_ABI@,
	/* LANDLOCK_RESTRICT_SELF_LOG_NEW_EXEC_ON, or nothing */
	POLICY_LOG = @LOG@
};

#ifndef SYS_landlock_create_ruleset
#define SYS_landlock_create_ruleset 444
#define SYS_landlock_add_rule 445
#define SYS_landlock_restrict_self 446
#endif

static int policy_add_path(int ruleset, const struct policy_path *rule, uint64_t handled)
{
	struct landlock_path_beneath_attr attr;
	struct stat about;
	int error = 0;

	if (!(rule->on_directory & handled))
		return 0;
	attr.parent_fd = open(rule->path, O_PATH | O_CLOEXEC);
	if (attr.parent_fd < 0)
		return errno == ENOENT || errno == ENOTDIR || errno == EACCES || errno == ELOOP ? 0 : errno;
	if (fstat(attr.parent_fd, &about)) {
		error = errno;
	} else {
		attr.allowed_access = (S_ISDIR(about.st_mode) ? rule->on_directory : rule->on_file) & handled;
		if (attr.allowed_access && syscall(SYS_landlock_add_rule, ruleset, LANDLOCK_RULE_PATH_BENEATH, &attr, 0))
			error = errno;
	}
	close(attr.parent_fd);
	return error;
}

static int policy_add_port(int ruleset, const struct policy_port *rule, uint64_t handled)
{
	struct policy_net_port_attr attr;

	attr.allowed_access = rule->allowed & handled;
	attr.port = rule->port;
	if (!attr.allowed_access)
		return 0;
	return syscall(SYS_landlock_add_rule, ruleset, POLICY_RULE_NET_PORT, &attr, 0) ? errno : 0;
}

static int policy_restrict(const struct policy_layer *layer, long abi)
{
	struct policy_ruleset_attr attr;
	long known = abi < POLICY_NEWEST_ABI ? abi : POLICY_NEWEST_ABI;
	size_t i, size = sizeof(attr);
	int ruleset, error = 0;

	if (abi < POLICY_SCOPE_ABI)
		size = offsetof(struct policy_ruleset_attr, scoped);
	if (abi < POLICY_NET_ABI)
		size = offsetof(struct policy_ruleset_attr, handled_access_net);
	attr.handled_access_fs = layer->handled_access_fs & policy_known_fs[known];
	attr.handled_access_net = layer->handled_access_net & policy_known_net[known];
	attr.scoped = abi < POLICY_SCOPE_ABI ? 0 : layer->scoped;
	if (!attr.handled_access_fs && !attr.handled_access_net && !attr.scoped)
		return 0;
	ruleset = (int)syscall(SYS_landlock_create_ruleset, &attr, size, 0);
	if (ruleset < 0)
		return errno;
	for (i = 0; !error && i < layer->path_count; i++)
		error = policy_add_path(ruleset, &layer->paths[i], attr.handled_access_fs);
	for (i = 0; !error && i < layer->port_count; i++)
		error = policy_add_port(ruleset, &layer->ports[i], attr.handled_access_net);
	if (!error && syscall(SYS_landlock_restrict_self, ruleset, abi < POLICY_LOG_ABI ? 0 : POLICY_LOG))
		error = errno;
	close(ruleset);
	return error;
}

int confine_by_policy(void)
{
	long abi = syscall(SYS_landlock_create_ruleset, NULL, 0, LANDLOCK_CREATE_RULESET_VERSION);
	size_t i;
	int error = 0;

	if (abi < 0)
		return errno;
	if (prctl(PR_SET_NO_NEW_PRIVS, 1, 0, 0, 0))
		return errno;
	for (i = 0; !error && i < sizeof(policy_layers) / sizeof(policy_layers[0]); i++)
		error = policy_restrict(&policy_layers[i], abi);
	return error;
}
"""


def written(policy: Policy, comments: Comments, log: bool) -> Exported:
    """The code."""
    return Exported(list(_code(policy, comments, log)))


def _code(policy: Policy, comments: Comments, log: bool) -> Iterator[str]:
    """The lines of the code; with `log`, the kernel logs what it refuses the programs that are executed afterwards."""
    yield from _comment([f"Made of {policy.path.name} by landaudit-policy export.", *comments.whole], "")
    yield from _HEAD.splitlines()
    yield ""
    yield from _rights()
    yield ""
    yield from _TYPES.splitlines()
    yield ""
    layers, _ = in_force(policy, LATEST_ABI)
    for layer in layers:
        yield from _rules(layer, comments)
    yield from _layers(layers, comments)
    yield ""
    yield from _known("fs", FS)
    yield from _known("net", NET)
    yield ""
    code = _CODE.replace("@NET_ABI@", str(min(NET.since.values()))).replace("@NEWEST_ABI@", str(NEWEST_ABI))
    code = code.replace("@SCOPE_ABI@", str(ABI_OF_SCOPES)).replace("@LOG_ABI@", str(ABI_OF_LOG))
    code = code.replace("@LOG@", str(LOG_NEW_EXEC_ON if log else 0))
    yield from code.splitlines()


def _rights() -> Iterator[str]:
    """The rights under separate names, since a header may be older than a right."""
    for family, prefix in ((FS, "FS"), (NET, "NET")):
        yield f"/* The rights {family.what}, as LANDLOCK_ACCESS_{prefix}_ names them. */"
        for right in family.since:
            yield f"#define {_right(prefix, right)} (UINT64_C(1) << {family.bit(right)})"
    yield "/* The scopes, as LANDLOCK_SCOPE_ names them. */"
    for bit, scope in enumerate(SCOPES):
        yield f"#define POLICY_SCOPE_{scope.upper()} (UINT64_C(1) << {bit})"


def _right(prefix: str, right: str) -> str:
    return f"POLICY_{prefix}_{right.upper()}"


def _set(prefix: str, family: Family, rights: Iterable[str]) -> str:
    """A set of rights as an expression."""
    return " | ".join(_right(prefix, right) for right in family.ordered(rights)) or "0"


def _rules(layer: FittedLayer, comments: Comments) -> Iterator[str]:
    """The tables of a layer's rules, where it has some."""
    if layer.path_rules:
        yield f"static const struct policy_path policy_paths_{layer.number}[] = {{"
        for rule in layer.path_rules:
            of_group = [] if rule.group is None else [f"of the group {rule.group}"]
            yield from _comment([*comments.on_rule(layer.number, rule.place), *of_group], "\t")
            yield from _path_rows(rule)
        yield from ("};", "")
    if layer.port_rules:
        yield f"static const struct policy_port policy_ports_{layer.number}[] = {{"
        for port_rule in layer.port_rules:
            yield from _comment(comments.on_rule(layer.number, port_rule.place), "\t")
            yield from _port_rows(port_rule)
        yield from ("};", "")


def _path_rows(rule: FittedPathRule) -> Iterator[str]:
    """A row for each object that a rule is on."""
    for parent in rule.parents:
        yield f"\t{{{_text(parent)},"
        yield from _wrapped(f"{_set('FS', FS, rule.on_directory)},")
        yield from _wrapped(f"{_set('FS', FS, rule.on_file)}}},")


def _port_rows(rule: FittedPortRule) -> Iterator[str]:
    """A row for each port that a rule is on."""
    for port in rule.ports:
        yield f"\t{{{port}, {_set('NET', NET, rule.on_port)}}},"


def _layers(layers: Sequence[FittedLayer], comments: Comments) -> Iterator[str]:
    """The table of the layers."""
    yield "static const struct policy_layer policy_layers[] = {"
    for layer in layers:
        yield from _comment(comments.on_layer(layer.number), "\t")
        yield "\t{"
        yield from _wrapped(f"{_set('FS', FS, layer.handled_fs)},")
        yield f"\t {_set('NET', NET, layer.handled_net)},"
        yield f"\t {' | '.join(f'POLICY_SCOPE_{scope.upper()}' for scope in layer.scoped) or '0'},"
        yield f"\t {_table('policy_paths', layer.number, layer.path_rules)},"
        yield f"\t {_table('policy_ports', layer.number, layer.port_rules)}}},"
    yield "};"


def _table(name: str, number: int, rules: Sequence[object]) -> str:
    """A table and the number of its rows; a layer without rules has no table."""
    table = f"{name}_{number}"
    return f"{table}, sizeof({table}) / sizeof({table}[0])" if rules else "NULL, 0"


def _known(name: str, family: Family) -> Iterator[str]:
    """The rights that each ABI knows."""
    yield f"static const uint64_t policy_known_{name}[] = {{"
    for abi in range(NEWEST_ABI + 1):
        yield f"\t/* ABI {abi} */"
        yield from _wrapped(f"{_set(name.upper(), family, family.known(abi))},")
    yield "};"


def _wrapped(text: str) -> list[str]:
    """An expression on lines that can be read."""
    return textwrap.wrap(text, WIDTH, initial_indent="\t ", subsequent_indent="\t ", break_long_words=False)


def _comment(texts: Iterable[str], indent: str) -> Iterator[str]:
    """Texts as a comment; no text can end it or begin another."""
    for text in texts:
        plain = "".join(character if character.isprintable() else " " for character in text)
        yield f"{indent}/* {plain.replace('*/', '* /').replace('/*', '/ *')} */"


def _text(text: str) -> str:
    """A text as a C string: each byte that is not a plain character is an octal escape of three digits."""
    plain = (chr(byte) if 32 <= byte < 127 and chr(byte) not in '"\\?' else f"\\{byte:03o}" for byte in text.encode())
    return f'"{"".join(plain)}"'
