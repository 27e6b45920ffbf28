"""Random policies and trees, for tests that try many: a policy as its author writes it and as a trace has it.

What a policy's records are is written down here once more, from docs/POLICIES.md, so that the tests ask landaudit about the policy and not about what the package makes of it.
"""

from __future__ import annotations

import posixpath
import random
import re
from collections.abc import Callable, Collection, Iterable, Iterator, Sequence
from dataclasses import dataclass, replace

from landaudit_record.common.jsonl import Record
from landaudit_record.common.rights import FILE_RIGHTS, FS, NET, NEWEST_ABI, NONE, Family, Rights
from landaudit_record.common.trees import ROOT, directory_of, joined, upwards

NAMES = ("a", "b", "c")
PORTS = (0, 22, 80, 443)
FILES = ("reg", "reg", "reg", "char", "block", "fifo", "sock")
MOST_OBJECTS = 60
RULESET = 1
Kinds = dict[str, str]
Names = dict[str, list[str]]
Led = Callable[[str], Iterable[str]]
"""The names in a tree of the object to which a path of a policy leads; none where it leads to nothing."""


def meant(words: Iterable[str], family: Family) -> Rights:
    """The rights that words of a policy stand for: rights by name and groups."""
    return NONE.union(*(family.groups.get(word, frozenset({word})) for word in words))


#: Links at the top of a tree, each with what it leads to; a policy may name paths by way of them.
LINKS = {f"/to{path.replace('/', '-')}": path for path in ("/a", "/b", "/a/b", "/b/c", "/c/a/b")}
_LINK = re.compile(r"/to((?:-[abc])+)(?=/|\Z)")


def plain(path: str) -> str:
    """A path of a policy without links, doubled slashes, `.` and `..`."""
    followed = _LINK.sub(lambda link: link[1].replace("-", "/"), "/" + path.lstrip("/"))
    return posixpath.normpath(followed)


def _roundabout(path: str) -> str:
    """The path in other words, which lead to it if its directory is one."""
    directory, name = posixpath.split(path)
    return f"/.{directory}//../{posixpath.basename(directory)}/{name}" if directory != ROOT else f"/.//./{name}"


@dataclass(frozen=True)
class Rule:
    """A rule of one kind or the other: the words for its rights, and the paths or ports that it is on."""

    words: tuple[str, ...]
    on: tuple[str | int, ...]
    of_group: bool = False


#: Groups of rules, as the files of groups have them: their rights count as groups of rights do.
GROUPS = {
    "one": (Rule(("read",), ("/to-a/b", "/c"), True), Rule(("read_file", "write_file"), ("/b",), True)),
    "two": (Rule(("all",), ("/to-b-c/../a", "/a"), True),),
}
SCOPES = ("abstract_unix_socket", "signal")


@dataclass(frozen=True)
class Layer:
    """A layer: the words for what it handles, and its rules on paths and on ports."""

    fs: tuple[str, ...]
    net: tuple[str, ...]
    paths: tuple[Rule, ...] = ()
    ports: tuple[Rule, ...] = ()
    scoped: tuple[str, ...] = ()
    include: tuple[str, ...] = ()

    def mended(self) -> Layer:
        """The layer without what a policy may not have: rights that it does not handle, and rules without any."""
        fs, net = self.fs, self.net
        if not fs and not net:
            fs = ("make_sym",)
        return replace(self, fs=fs, net=net, paths=tuple(_mended(self.paths, fs, FS)),
                       ports=tuple(_mended(self.ports, net, NET)))

    @property
    def on_paths(self) -> tuple[Rule, ...]:
        """The rules on paths, also those of groups that have a right which the layer handles."""
        handled = meant(self.fs, FS)
        of_groups = (rule for name in self.include for rule in GROUPS[name] if meant(rule.words, FS) & handled)
        return (*self.paths, *of_groups)

    def toml(self) -> Iterator[str]:
        """The layer's lines in a policy's file."""
        yield "[[layer]]"
        for key, words in (("handled_access_fs", self.fs), ("handled_access_net", self.net), ("scoped", self.scoped),
                           ("include", self.include)):
            if words:
                yield f"{key} = {_listed(words)}"
        for table, place, rules in (("path_beneath", "parent", self.paths), ("net_port", "port", self.ports)):
            for rule in rules:
                yield f"[[layer.{table}]]\nallowed_access = {_listed(rule.words)}\n{place} = {_listed(rule.on)}"

    def records(self, kinds: Kinds, led: Led | None = None) -> Iterator[Record]:
        """The records that a process makes this layer by, on a tree: `rule` says of which rule one is.

        `led` says where the objects of its paths are, if they are not where the paths say.
        """
        handled, handled_net = meant(self.fs, FS), meant(self.net, NET)
        yield {"op": "create", "rs": RULESET, "fs": FS.ordered(handled), "net": NET.ordered(handled_net)}
        for number, rule in enumerate(self.on_paths, start=1):
            for on, path in _named(rule, led):
                rights = granted(rule, handled, kinds.get(path))
                if path in kinds and rights:
                    of_rule: Record = {"rs": RULESET, "rule": f"path {number}", "on": on}
                    yield {**of_rule, "op": "add_path", "path": path, "fs": FS.ordered(rights)}
        for number, rule in enumerate(self.ports, start=1):
            for port in rule.on:
                net = NET.ordered(meant(rule.words, NET) & handled_net)
                of_rule = {"rs": RULESET, "rule": f"port {number}", "on": port}
                yield {**of_rule, "op": "add_port", "port": port, "net": net}
        yield {"op": "restrict", "rs": RULESET}
        yield {"op": "close_rs", "rs": RULESET}


def _mended(rules: Iterable[Rule], handled_words: Iterable[str], family: Family) -> Iterator[Rule]:
    handled = meant(handled_words, family)
    for rule in rules:
        words = tuple(word for word in rule.words if word in family.groups or word in handled)
        if meant(words, family) & handled and rule.on:
            yield Rule(words, rule.on)


def _named(rule: Rule, led: Led | None) -> Iterator[tuple[str, str]]:
    """The paths of a rule, each with the names of the object that is there."""
    for on in map(str, rule.on):
        yield from ((on, name) for name in ((plain(on),) if led is None or plain(on) == ROOT else led(on)))


def granted(rule: Rule, handled: Rights, kind: str | None) -> Rights:
    """What a rule asks for on an object: a group stands for what the layer handles and, on a file, applies to files."""
    grouped = [word for word in rule.words if word in FS.groups or rule.of_group]
    groups = meant(grouped, FS) & handled
    named = frozenset(rule.words) - frozenset(grouped)
    return named | (groups if kind == "dir" else groups & FILE_RIGHTS)


def _is_taken(rule: Rule, layer: Layer, kind: str | None, abi: int = NEWEST_ABI) -> bool:
    """Whether the kernel takes a rule on an object of a kind, or an ABI knows nothing of it and it is left out."""
    handled = meant(layer.fs, FS) & FS.known(abi)
    if kind in ("dir", None) or not meant(rule.words, FS) & handled:
        return True
    rights = granted(rule, handled, kind) & handled
    return bool(rights) and rights <= FILE_RIGHTS


def _listed(values: Sequence[str | int]) -> str:
    return f"[{', '.join(str(value) if isinstance(value, int) else chr(34) + value + chr(34) for value in values)}]"


@dataclass(frozen=True)
class Policy:
    """A policy's layers, the oldest first."""

    layers: tuple[Layer, ...]

    def toml(self) -> str:
        """The policy's file."""
        return "\n".join(line for layer in self.layers for line in layer.toml()) + "\n"

    def records(self, kinds: Kinds, led: Led | None = None) -> list[Record]:
        """The records by which a process confines itself, without its pid: `layer` says of which layer one is."""
        made: list[Record] = [{"op": "nnp"}]
        for number, layer in enumerate(self.layers, start=1):
            made += [{**record, "layer": number} for record in layer.records(kinds, led)]
        return made

    @property
    def directories(self) -> set[str]:
        """The paths that must be directories, since the kernel refuses a rule on a file there."""
        return {plain(str(path)) for layer in self.layers for rule in layer.on_paths for path in rule.on
                if not _is_taken(rule, layer, "reg")}

    @property
    def scoped(self) -> set[str]:
        """The scopes that some layer has."""
        return {scope for layer in self.layers for scope in layer.scoped}

    def used(self, abi: int, *, scopes: bool) -> int:
        """How many layers are in force at an ABI, on a kernel that has scopes or one that does not."""
        return sum(bool(meant(it.fs, FS) & FS.known(abi) or meant(it.net, NET) & NET.known(abi)
                        or (scopes and it.scoped)) for it in self.layers)

    def taken_on(self, kinds: Kinds) -> Policy:
        """The policy without rules on files that the kernel refuses: those with none of their rights, or others."""
        layers = []
        for layer in self.layers:
            rules = []
            for rule in layer.paths:
                on = tuple(path for path in rule.on if _is_taken(rule, layer, kinds.get(plain(str(path)))))
                rules.append(replace(rule, on=on))
            layers.append(replace(layer, paths=tuple(rules)).mended())
        return Policy(tuple(layers))

    def not_taken(self, kinds: Kinds, abi: int) -> set[tuple[int, int, str]]:
        """Rules on files that the kernel refuses at an ABI, by the numbers of layer and rule, and by the path.

        They are on no directory and have rights of directories by name, or the ABI knows none of theirs for files.
        """
        return {
            (number, place, str(path))
            for number, layer in enumerate(self.layers, start=1)
            for place, rule in enumerate(layer.paths, start=1)
            for path in rule.on
            if not _is_taken(rule, layer, kinds.get(plain(str(path))), abi)
        }

    @property
    def paths(self) -> set[str]:
        """The paths that it has rules on."""
        return {plain(str(path)) for layer in self.layers for rule in layer.on_paths for path in rule.on}


@dataclass(frozen=True)
class Maker:
    """Makes policies and trees by draws."""

    of: random.Random

    def dressed(self, policy: Policy) -> Policy:
        """The policy with some paths named by way of links, and with some scopes and groups of rules."""
        layers = []
        for layer in policy.layers:
            paths = tuple(replace(rule, on=tuple(self._by_link(str(path)) for path in rule.on)) for rule in layer.paths)
            scoped = tuple(scope for scope in SCOPES if self.of.random() < 0.15)
            include = tuple(name for name in GROUPS if self.of.random() < 0.1)
            layers.append(replace(layer, paths=paths, scoped=scoped, include=include))
        return Policy(tuple(layers))

    def _by_link(self, path: str) -> str:
        """A path by way of a link that leads to it or to what is over it, if there is one; seldom by `..` after it."""
        ways = [link + path[len(to) :] for link, to in LINKS.items() if path == to or path.startswith(to + "/")]
        for link, to in LINKS.items():
            over = directory_of(to)
            if path != ROOT and over != ROOT and path.startswith(over + "/"):
                ways.append(f"{link}/..{path[len(over) :]}")
        return self.of.choice(ways) if ways and self.of.random() < 0.25 else path

    def policy(self, layers: int, rules: int | None = None) -> Policy:
        """A policy of some layers; `rules` says how many rules it has in all, if there is room for them."""
        share = 6 if rules is None else -(-rules // layers)
        made = [self.layer(self.of.randint(0, share) if rules is None else share) for _ in range(layers)]
        return Policy(tuple(made))

    def layer(self, rules: int) -> Layer:
        """A layer that handles much or little, with rules on paths, of which the first often grants much of it."""
        fs, net = self.words(FS, 0.6), self.words(NET, 0.4) if self.of.random() < 0.5 else ()
        if self.of.random() < 0.5 and "refer" not in meant(fs, FS):
            fs = (*fs, "refer")
        paths = [self.path_rule() for _ in range(rules)]
        if paths and self.of.random() < 0.7:
            wide = ("all",) if self.of.random() < 0.4 else (*self.words(FS, 0.85), "refer")
            paths[0] = Rule(wide, self.of.choice(((ROOT,), (ROOT,), ("/a", "/b"), ("/a", "/b", "/c"))))
        ports = [self.port_rule() for _ in range(self.of.randint(0, 2))]
        return Layer(fs, net, tuple(paths), tuple(ports)).mended()

    def path_rule(self) -> Rule:
        return Rule(self.words(FS, self.of.choice((0.2, 0.6, 0.9))), self.places(self.of.choice((1, 1, 1, 2, 3))))

    def port_rule(self) -> Rule:
        return Rule(self.words(NET, 0.7), tuple(self.of.sample(PORTS, k=self.of.choice((1, 1, 2)))))

    def words(self, family: Family, share: float) -> tuple[str, ...]:
        """Some rights, of which some by a group."""
        words = [right for right in family.since if self.of.random() < share]
        match self.of.random():
            case few if few < 0.4:
                return tuple(self.of.sample(list(family.groups), k=1))
            case some if some < 0.5:
                words.insert(0, self.of.choice(list(family.groups)))
        return tuple(words)

    def places(self, count: int) -> tuple[str, ...]:
        """Paths of up to four names, nested in one another; the root seldom, and seldom in a roundabout way."""
        return tuple(self.place() for _ in range(count))

    def place(self) -> str:
        if self.of.random() < 0.07:
            return ROOT
        path = "/" + "/".join(self.of.choices(NAMES, k=self.of.choice((1, 1, 2, 2, 3, 4))))
        return _roundabout(path) if self.of.random() < 0.03 else path

    def changed(self, policy: Policy) -> Policy:
        """A policy that differs from another by one to three small changes, or seldom in nothing."""
        for _ in range(self.of.choice((0, 1, 1, 1, 1, 2, 3))):
            policy = self._changed(policy)
        return policy

    def _changed(self, policy: Policy) -> Policy:
        layers = list(policy.layers)
        at = self.of.randrange(len(layers))
        match self.of.choice(("rule", "rule", "rule", "rule", "handled", "ports", "drop", "add", "swap")):
            case "rule":
                layers[at] = self._with_rule_changed(layers[at])
            case "handled":
                fs, net = self._words_changed(layers[at].fs, FS), self._words_changed(layers[at].net, NET)
                layers[at] = replace(layers[at], **(self.of.choice(({"fs": fs}, {"fs": fs}, {"net": net})))).mended()
            case "ports":
                layers[at] = replace(layers[at], ports=(*layers[at].ports[1:], self.port_rule())).mended()
            case "drop" if len(layers) > 1:
                layers.pop(at)
            case "add" if len(layers) < 4:
                layers.insert(at, self.of.choice((layers[at], self.layer(self.of.randint(0, 6)))))
            case _:
                self.of.shuffle(layers)
        return Policy(tuple(layers))

    def _with_rule_changed(self, layer: Layer) -> Layer:
        """A layer with one rule on paths more, less, split in two or with other rights or paths."""
        rules = list(layer.paths)
        if not rules:
            return replace(layer, paths=(self.path_rule(),)).mended()
        at = self.of.randrange(len(rules))
        rule = rules.pop(at)
        match self.of.choice(("gone", "more", "rights", "rights", "rights", "place", "place", "split")):
            case "more":
                rules += [rule, self.path_rule()]
            case "rights":
                rules.append(replace(rule, words=self._words_changed(rule.words, FS)))
            case "place":
                rules.append(replace(rule, on=(*rule.on[1:], self._near(str(rule.on[0])))))
            case "split":
                rules += [replace(rule, words=(word,)) for word in rule.words]
        return replace(layer, paths=tuple(rules)).mended()

    def _near(self, path: str) -> str:
        """A path that is over, beneath or beside another."""
        return self.of.choice((directory_of(plain(path)), joined(plain(path), self.of.choice(NAMES)), self.place()))

    def _words_changed(self, words: tuple[str, ...], family: Family) -> tuple[str, ...]:
        """Words with one right more or less."""
        right = self.of.choice(list(family.since))
        rights = tuple(dict.fromkeys(it for word in words for it in family.ordered(meant([word], family))))
        return tuple(it for it in rights if it != right) if right in rights else (*words, right)

    def elsewhere(self, ruled: Iterable[str], directories: Collection[str]) -> tuple[Kinds, Names]:
        """A tree in which objects with rules are elsewhere and in one another, and files have several names."""
        kinds: Kinds = {ROOT: "dir"}
        names: Names = {}
        paths = sorted(set(ruled) - {ROOT})
        self.of.shuffle(paths)
        for path in paths:
            kind = "dir" if path in directories else self.of.choice(("dir", "dir", "dir", *FILES))
            names[path] = [self._anywhere(kinds, kind) for _ in range(1 if kind == "dir" else self.of.choice((1, 2)))]
        while len(kinds) < MOST_OBJECTS:
            self._anywhere(kinds, self.of.choice(("dir", *FILES, "sym")))
        return kinds, names

    def _anywhere(self, kinds: Kinds, kind: str) -> str:
        """A new object in one of the directories, and its path."""
        path = joined(self.of.choice([over for over, of in kinds.items() if of == "dir"]), f"o{len(kinds)}")
        kinds[path] = kind
        return path

    def tree(self, ruled: Iterable[str], directories: Collection[str] = ()) -> Kinds:
        """A tree in which most of some paths are directories or files, with more in and beside them.

        None of these paths is a symbolic link: a rule on one is on what the link leads to.
        """
        kinds: Kinds = {ROOT: "dir"}
        paths = sorted(ruled)
        self.of.shuffle(paths)
        for path in paths:
            if self.of.random() < 0.85:
                kind = self.of.choice(("dir", "dir", *FILES))
                self._put(kinds, path, "dir" if path in directories else kind)
        while len(kinds) < MOST_OBJECTS:
            directory = self.of.choice([path for path, kind in kinds.items() if kind == "dir"])
            path = joined(directory, self.of.choice((*NAMES, "d", "e", "f")))
            if path in kinds or path in paths or directory.count("/") > 4:
                path = joined(directory, f"x{len(kinds)}")
            self._put(kinds, path, self.of.choice(("dir", "dir", "dir", *FILES, "sym")))
        return kinds

    def _put(self, kinds: Kinds, path: str, kind: str) -> None:
        """Puts an object at a path, if nothing is in the way."""
        over = list(upwards(path))[1:]
        if path not in kinds and all(kinds.get(one, "dir") == "dir" for one in over):
            kinds.update({one: "dir" for one in over if one not in kinds})
            kinds[path] = kind
