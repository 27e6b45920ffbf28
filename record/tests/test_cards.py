"""The cards of a page: which rules they offer for a group of refused calls, and what they say of these."""

from __future__ import annotations

from collections import Counter

from landaudit_record.audit.auditor import TriedPolicy
from landaudit_record.audit.summary import Refusal, RefusingLayer, Summary
from landaudit_record.common.trees import Tree, upwards
from landaudit_record.engine.answers import Closed, Gained, Missing, Mounting, Objection
from landaudit_record.policy import policies
from landaudit_record.policy.policies import Layer, Policy
from landaudit_record.summaries.page import cards
from landaudit_record.summaries.page.offering import NO_RULE, OF_PROGRAM

from .calling import InFolder
from .pages import Element, read
from .worded import subject

DENY = '[[layer]]\nhandled_access_fs = ["all"]\nhandled_access_net = ["all"]\n'


def refused(call: str, place: str, *objections: Objection, layer: int | None = 1, error: str = "EACCES") -> Refusal:
    """A kind of calls that one layer refuses."""
    return Refusal(call, subject(place), error, (RefusingLayer(1, layer, objections),), None)


def opened(path: str, *rights: str) -> Refusal:
    """Opens of a file, which lacks rights."""
    return refused("open", path, Missing(rights or ("read_file",), path))


class Cards(InFolder):
    def policy(self, text: str = DENY) -> Policy:
        file = self.folder / "P.toml"
        file.write_text(text, encoding="utf-8")
        return policies.read(file)

    def cards(self, *refusals: Refusal, text: str = DENY, tree: Tree | None = None, abi: int = 5) -> list[Element]:
        """The cards for some refusals, each of two calls, on files that are all there before the run."""
        kinds = {over: "dir" for one in refusals for path in one.subject.paths
                 for over in upwards(path)}
        kinds |= {path: "reg" for one in refusals if one.call == "open" for path in one.subject.paths}
        tried = TriedPolicy(None, self.policy(text), None, tree or Tree(kinds), [])  # type: ignore[arg-type]
        found = Summary(abi, refusals={one: Counter({"/usr/bin/a": 2}) for one in refusals})
        return read(cards.cards([found], tried, [])).all("article")

    def layer(self, card: Element, text: str = DENY, which: int = 0) -> Layer:
        """The first layer of a policy with the rules that a card shows."""
        return self.policy(text + card.all("pre")[which].text(5)).layers[0]

    def granted(self, card: Element, which: int = 0) -> dict[str, set[str]]:
        """The rights by path that the rules of a card grant when they are pasted to a policy that grants nothing."""
        return {parent: set(rule.allowed_access.rights) for rule in self.layer(card, which=which).path_beneath
                for parent in rule.parents}

    def test_a_rule_for_one_file_is_on_the_file(self) -> None:
        (card,) = self.cards(opened("/a/f"))
        self.assertEqual(self.granted(card), {"/a/f": {"read_file"}})
        self.assertEqual(len(card.all("pre")), 1)

    def test_an_indented_line_is_not_broken_before_its_path(self) -> None:
        (card,) = self.cards(*(opened(f"/a/{name}") for name in "fg"), tree=Tree({"/a/f": "reg", "/a/g": "reg"}))
        starts = [one.text(5) for one in card.all("span", "start")]
        self.assertEqual(starts, ['    "'] * 2, card.text(5))
        self.assertIn('\n    "/a/f",\n    "/a/g",\n', card.text(5))

    def test_a_group_has_a_rule_on_its_directory_and_exact_rules(self) -> None:
        (card,) = self.cards(*(opened(f"/x/y/f{number}") for number in range(5)))
        self.assertEqual(self.granted(card), {"/x/y": {"read_file"}})
        self.assertEqual(self.granted(card, 1), {f"/x/y/f{number}": {"read_file"} for number in range(5)})
        self.assertEqual(card.all("summary")[0].text(5), "or exactly: 5 rules")

    def test_what_a_rule_grants_besides_is_counted_on_the_disk(self) -> None:
        for number in range(9):
            (self.folder / f"f{number}").touch()
        (self.folder / "below").mkdir()
        (self.folder / "below" / "g").touch()
        (card,) = self.cards(*(opened(f"{self.folder}/f{number}") for number in range(5)))
        # Of the nine files five are asked for; the file below and the policy are the others.
        self.assertEqual([one.text(5) for one in card.all("p", "also")],
                         [f"grants also 6 files under {self.folder} (read_file)"])

    def test_the_earliest_is_first_and_the_only_one_that_is_marked(self) -> None:
        found = self.cards(opened("/b/f"), *(opened(f"/x/y/f{number}", "execute") for number in range(9)))
        self.assertEqual([one.all("h3")[0].text(5) for one in found], ["2 calls read_file", "18 calls execute"])
        self.assertEqual([len(one.all("p", "first")) for one in found], [1, 0])

    def test_a_rule_for_what_the_run_makes_is_on_the_directory(self) -> None:
        tree = Tree({"/": "dir", "/a": "dir", "/a/new": "reg"}, made={"/a/new"})
        (card,) = self.cards(opened("/a/new"), tree=tree)
        self.assertEqual(self.granted(card), {"/a": {"read_file"}})

    def test_a_rule_for_what_the_run_replaces_is_on_the_directory(self) -> None:
        kinds = {"/": "dir", "/a": "dir", "/a/f": "reg", "/a/~f~": "reg"}
        tree = Tree(kinds, made={"/a/~f~"}, shown={"/a/~f~": "/a/f"})
        (card,) = self.cards(opened("/a/f"), tree=tree)
        self.assertEqual(self.granted(card), {"/a": {"read_file"}})

    def test_a_move_needs_rules_on_both_directories(self) -> None:
        lacking = Missing(("remove_file", "refer"), "/a"), Missing(("make_reg", "refer"), "/b")
        move = refused("rename", "/a/f -> /b/f", *lacking)
        (card,) = self.cards(move)
        self.assertEqual(self.granted(card), {"/a": {"remove_file", "refer"}, "/b": {"make_reg", "refer"}})

    def test_what_would_be_gained_is_granted_on_the_object(self) -> None:
        move = refused("rename", "/a/f -> /b/f", Gained("/a/f", ("execute",), "/b"), error="EXDEV")
        (card,) = self.cards(move, tree=Tree({"/": "dir", "/a": "dir", "/a/f": "reg", "/b": "dir"}))
        self.assertEqual(self.granted(card), {"/a/f": {"execute"}})

    def test_refer_that_the_layer_does_not_name_is_to_be_handled_first(self) -> None:
        text = '[[layer]]\nhandled_access_fs = ["make_reg"]\n'
        move = refused("rename", "/a/f -> /b/f", Missing(("refer",), "/a"), error="EXDEV")
        (card,) = self.cards(move, text=text)
        self.assertIn('# handled_access_fs = ["make_reg", "refer"]', card.all("pre")[0].text(5))

    def test_ports(self) -> None:
        closed = (refused("connect", f"port {port}", Closed(("connect_tcp",), port)) for port in (80, 443))
        (card,) = self.cards(*closed)
        (rule,) = self.layer(card).net_port
        self.assertEqual((rule.ports, rule.allowed_access.rights), ((80, 443), {"connect_tcp"}))
        self.assertIn("# 4 calls", card.all("pre")[0].text(5))

    def test_no_rule_helps(self) -> None:
        for one, abi, why in (
            (refused("mount", "-", Mounting(), error="EPERM"), 5, NO_RULE),
            (refused("rename", "/a/f -> /b/f", Missing(("refer",), "/a"), error="EXDEV"), 1, NO_RULE),
            (refused("open r", "/a", Missing(("read_dir",), "/a"), layer=None), 5, OF_PROGRAM),
        ):
            (card,) = self.cards(one, abi=abi)
            self.assertEqual([it.text(abi) for it in card.all("p", "warned")], [f"No rule here: {why}."])
            self.assertEqual(card.all("pre"), [])

    def warned(self, card: Element) -> list[str]:
        return [one.text(5) for one in card.all("p", "warned")]

    def test_warnings(self) -> None:
        (secret,) = self.cards(opened("/etc/shadow"))
        self.assertEqual(self.warned(secret), ["/etc/shadow holds secrets"])
        (everything,) = self.cards(refused("open r", "/", Missing(("read_dir",), "/")))
        self.assertEqual(self.warned(everything), ["read_dir on everything"])
        (both,) = self.cards(opened("/a/f", "execute", "write_file"))
        self.assertEqual(self.warned(both), ["what is written there can be run"])

    def test_a_rule_that_completes_write_and_run(self) -> None:
        text = f'{DENY}[[layer.path_beneath]]\nallowed_access = ["execute"]\nparent = "/a"\n'
        written = opened("/a/f", "write_file")
        warning = ["what is written there can be run"]
        self.assertEqual([self.warned(one) for one in self.cards(written, text=text)], [warning])
        self.assertEqual([self.warned(one) for one in self.cards(written)], [[]])
        self.assertEqual([self.warned(one) for one in self.cards(opened("/b/f", "write_file"), text=text)], [[]])

    def test_what_is_said_in_a_card_is_not_in_its_rule(self) -> None:
        (card,) = self.cards(opened("/etc/shadow"))
        self.assertEqual(card.all("pre")[0].text(5), '# 2 calls\n[[layer.path_beneath]]\n'
                                                     'allowed_access = ["read_file"]\nparent = "/etc/shadow"\n')

    def test_of_two_layers_the_one_is_named_that_refuses(self) -> None:
        two = f'{DENY}[[layer]]\nhandled_access_fs = ["execute"]\n'
        (card,) = self.cards(refused("open r", "/a", Missing(("read_dir",), "/a"), layer=2), text=two)
        self.assertIn("# 1 rule for layer 2: paste them under the [[layer]] of that number", card.all("pre")[0].text(5))

    def test_equal_cards_of_some_abis_are_written_once(self) -> None:
        tree = Tree({"/": "dir", "/a": "reg", "/b": "reg"})
        tried = TriedPolicy(None, self.policy(), None, tree, [])  # type: ignore[arg-type]
        one, other = {opened("/a"): Counter(a=1)}, {opened("/a"): Counter(a=1), opened("/b", "execute"): Counter(a=1)}
        summaries = [Summary(3, refusals=one), Summary(4, refusals=one), Summary(5, refusals=other)]
        shown = read(cards.cards(summaries, tried, [])).all("div", "cards")
        self.assertEqual([sorted(it.kinds) for it in shown], [["a", "a3", "a4", "cards"], ["a", "a5", "cards"]])
        self.assertEqual([len(it.all("article")) for it in shown], [1, 2])
