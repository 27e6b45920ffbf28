"""What kept logs become. Every expected record follows from docs/RECORDERS.md, "Writing a recorder"."""

from __future__ import annotations

from pathlib import Path

from landaudit_record.common.jsonl import Record
from landaudit_record.common.problems import Problem
from landaudit_record.recorder import converting
from landaudit_record.recorder.ports import Ports

from .kept_logs import LOADER, WORK, KeptLogs, bare, ops


class Forks(KeptLogs):
    def test_children_are_forked_before_they_act_and_exit_in_their_order(self) -> None:
        trace = ops(self.convert("forks"), "start", "fork", "exit")
        first = trace[0]["pid"]
        child, grandchild, other = (record["child"] for record in trace if record["op"] == "fork")
        self.assertEqual(
            [(record["op"], record["pid"]) for record in trace],
            [
                ("start", first),
                ("fork", first),
                ("fork", child),
                ("exit", grandchild),
                ("exit", child),
                ("fork", first),
                ("exit", other),
                ("exit", first),
            ],
        )

    def test_a_vforked_child_runs_a_program_before_the_fork_has_ended(self) -> None:
        trace = self.convert("forks")
        forks = [index for index, record in enumerate(trace) if record["op"] == "fork"]
        after = [record for record in trace[forks[-1] + 1 :] if record["op"] == "exec"]
        self.assertEqual([record["path"] for record in after], ["/usr/bin/true", LOADER])

    def test_a_start_has_what_its_process_was_given(self) -> None:
        trace = self.convert("forks")
        self.assertEqual(bare(trace[0]), {"op": "start", "nnp": True, "admin": True})
        adopted = [{"op": "adopt", "fd": fd, "kind": "device"} for fd in range(3)]
        self.assertEqual([bare(record) for record in trace[1:4]], adopted)


class Programs(KeptLogs):
    def test_what_the_kernel_opens_for_a_program(self) -> None:
        trace = [record for record in ops(self.convert("script"), "open", "exec", "close") if record["call"] == 1]
        opened = [(record["op"], record["path"], record.get("role")) for record in trace if record["op"] != "close"]
        script, shell = f"{WORK}/script", "/usr/bin/dash"
        self.assertEqual(
            opened,
            [
                ("open", script, None),
                ("exec", script, None),
                ("open", shell, "interpreter"),
                ("exec", shell, "interpreter"),
                ("open", LOADER, "interpreter"),
                ("exec", LOADER, "interpreter"),
            ],
        )
        made_up = [record["fd"] for record in trace if record["op"] == "open"]
        self.assertEqual([record["fd"] for record in trace if record["op"] == "close"], made_up)
        self.assertTrue(all(number > 1_000_000 for number in made_up))

    def test_links_to_programs_are_in_the_tree(self) -> None:
        self.convert("script")
        tree = self.tree("script")
        self.assertEqual((tree["/bin"], tree["/usr/bin/sh"], tree["/usr/bin/dash"]), ("sym", "sym", "reg"))


class Threads(KeptLogs):
    def test_threads_are_one_process_and_the_restricts_of_siblings_one(self) -> None:
        trace = self.convert("threads")
        self.assertEqual(len({record["pid"] for record in trace}), 1)
        self.assertEqual(len(ops(trace, "restrict")), 1)
        self.assertEqual(len(ops(trace, "exit")), 1)

    def test_the_ruleset_has_numbers_of_its_own(self) -> None:
        trace = self.convert("threads")
        calls = [bare(record) for record in ops(trace, "create", "close_rs")]
        self.assertEqual(calls, [{"op": "create", "rs": 3, "fs": ["read_file"]}, {"op": "close_rs", "rs": 3}])

    def test_what_the_kernel_answered_stands_beside(self) -> None:
        opens = [record for record in self.convert("threads") if record.get("path") == "/etc/hostname"]
        self.assertEqual([record["kernel"] for record in opens], ["ok", "EACCES", "EACCES"])


class Descriptors(KeptLogs):
    def test_duplicates_of_every_kind(self) -> None:
        trace = self.convert("descriptors")
        log = next(record["fd"] for record in trace if record.get("shown") == f"{WORK}/log")
        null = next(record["fd"] for record in trace if record.get("path") == "/dev/null")
        pairs = [(record["fd"], record["to"]) for record in ops(trace, "dup")]
        self.assertEqual(pairs, [(log, log + 1), (log, 20), (null, 20), (log, 21), (log, 30)])

    def test_what_is_marked_close_on_exec_is_closed(self) -> None:
        trace = self.convert("descriptors")
        runs = [record["call"] for record in ops(trace, "exec") if "role" not in record]
        self.assertEqual(len(runs), 2)
        closes = [record for record in ops(trace, "close") if record["call"] == runs[1]]
        closed = [record["fd"] for record in closes if record["fd"] < 1_000_000]
        log = next(record["fd"] for record in trace if record.get("shown") == f"{WORK}/log")
        null = next(record["fd"] for record in trace if record.get("path") == "/dev/null")
        self.assertEqual(closed, [log + 1, null, 21, 30])

    def test_a_new_file_has_a_name_that_nothing_ever_has(self) -> None:
        (made,) = (bare(record) for record in self.convert("descriptors") if record.get("create"))
        self.assertEqual(
            {name: made[name] for name in ("path", "mode", "trunc")},
            {"path": f"{WORK}/log~new~", "mode": "rw", "trunc": True},
        )

    def test_a_memfd_is_adopted_as_a_file(self) -> None:
        trace = self.convert("descriptors")
        cut = [bare(record) for record in ops(trace, "adopt", "ftruncate")[-2:]]
        self.assertEqual(cut, [{"op": "adopt", "fd": 5, "kind": "reg"}, {"op": "ftruncate", "fd": 5}])

    def test_which_commands_the_policy_judges(self) -> None:
        judged = [record["driver"] for record in ops(self.convert("descriptors"), "ioctl")]
        self.assertEqual(judged, [True, False])

    def test_a_program_that_runs_itself_is_found(self) -> None:
        run = [record["path"] for record in ops(self.convert("descriptors"), "exec") if "role" not in record]
        self.assertEqual(run, ["/tmp/story/descriptors"] * 2)


class Moves(KeptLogs):
    def moved(self) -> list[tuple[str, str, bool]]:
        trace = ops(self.convert("moves"), "rename", "link")
        return [(record["from"], record["to"], record.get("exchange", False)) for record in trace]

    def test_new_names_are_made_up_and_names_that_are_there_stand(self) -> None:
        self.assertEqual(
            [(start.removeprefix(WORK), end.removeprefix(WORK), exchange) for start, end, exchange in self.moved()],
            [
                ("/a/f", "/a/g~new~", False),
                ("/a/g", "/b/g~new~", False),
                ("/a/f", "/b/g", True),
                ("/a/f", "/b/g", False),
                ("/b/g", "/a/h~new~", False),
                ("/b/#11092261", "/b/t~new~", False),
                ("/b", "/c~new~", False),
            ],
        )

    def test_what_a_moved_directory_holds_is_listed_where_it_went(self) -> None:
        self.convert("moves")
        self.assertEqual(self.tree("moves")[f"{WORK}/c/g"], "reg")

    def test_a_link_is_opened_where_it_leads_and_not_where_it_must_not_be_followed(self) -> None:
        opens = [record for record in ops(self.convert("moves"), "open") if record["call"] > 17]
        self.assertEqual((opens[0]["path"], opens[0]["kernel"]), (f"{WORK}/b/g", "ok"))
        self.assertEqual((opens[1]["path"], opens[1]["kernel"]), (f"{WORK}/s", "ELOOP"))

    def test_a_file_without_a_name_is_opened_in_its_directory(self) -> None:
        (opened,) = [record for record in ops(self.convert("moves"), "open") if "#" in record["path"]]
        self.assertTrue(opened["path"].startswith(f"{WORK}/b/#"))
        self.assertEqual((opened["mode"], opened.get("create")), ("rw", None))
        self.assertEqual(self.tree("moves")[opened["path"]], "reg")

    def test_what_is_missing_when_it_is_asked_for(self) -> None:
        missing = [record for record in self.convert("moves") if record.get("kernel") == "ENOENT"]
        self.assertEqual([record["path"] for record in missing], [f"{WORK}/a/none~new~", f"{WORK}/a/none~new~/x"])
        self.assertEqual(missing[0]["shown"], f"{WORK}/a/none")

    def test_what_was_there_before_the_run_is_removed_as_it_is(self) -> None:
        removed = [record["path"] for record in ops(self.convert("moves"), "unlink")]
        self.assertEqual(removed[-1], f"{WORK}/old")

    def test_what_cannot_be_said(self) -> None:
        self.convert("moves")
        self.assertEqual(self.unsaid("moves"), ["EEXIST before Landlock is asked"])


class Objects(KeptLogs):
    """A program that replaces, moves, links and exchanges files and directories, and reads them then."""

    def test_what_is_read_is_the_object_that_is_there(self) -> None:
        opened = ops(self.convert("objects"), "open")
        read = [record["path"] for record in opened if record["mode"] == "r" and record["path"].startswith(WORK)]
        self.assertEqual(
            [path.removeprefix(WORK) for path in read],
            [
                "/conf", "/conf~2~", "/conf~2~",
                "/bak", "/hard",
                "/dir~2~/in", "/old/in",
                "/old~2~/in", "/else~2~/in",
                "/named",
                "/bak", "/bak", "/bak~2~",
                "/none~new~/conf",
            ],
        )

    def test_names_of_one_object_say_so(self) -> None:
        folder = self.folder("objects")
        converting.convert(folder, Ports())
        listed = {line["path"].removeprefix(WORK): line for line in self.lines(folder, "tree.jsonl")}
        same = {name: line["same"].removeprefix(WORK) for name, line in listed.items() if "same" in line}
        self.assertEqual(
            same,
            {
                "/bak": "/other", "/hard": "/other",
                "/old": "/dir", "/old/in": "/dir/in", "/else~2~": "/dir", "/else~2~/in": "/dir/in",
                "/old~2~": "/else", "/old~2~/in": "/else/in",
            },
        )
        there = {name for name, line in listed.items() if line["path"].startswith(WORK) and "made" not in line}
        self.assertEqual(there, {"", "/conf", "/other", "/dir", "/dir/in", "/else", "/else/in"})


class Policies(KeptLogs):
    def test_landlocks_own_calls(self) -> None:
        trace = ops(self.convert("policy"), "create", "add_path", "add_port", "restrict", "nnp", "close_rs")
        self.assertEqual(
            [bare(record) for record in trace],
            [
                {
                    "op": "create",
                    "rs": 3,
                    "fs": ["execute", "read_file", "read_dir", "refer", "truncate"],
                    "net": ["bind_tcp", "connect_tcp"],
                },
                {"op": "add_path", "rs": 3, "path": "/etc", "fs": ["read_file", "read_dir"]},
                {"op": "add_port", "rs": 3, "port": 4242, "net": ["bind_tcp"]},
                {"op": "restrict", "rs": 3},
                {"op": "nnp"},
                {"op": "restrict", "rs": 3},
                {"op": "close_rs", "rs": 3},
            ],
        )

    def test_a_refused_open_has_a_number_of_its_own_and_is_closed(self) -> None:
        trace = self.convert("policy")
        index = next(index for index, record in enumerate(trace) if record.get("path") == "/usr/bin/env")
        self.assertGreater(trace[index]["fd"], 1_000_000)
        self.assertEqual(bare(trace[index + 1]), {"op": "close", "fd": trace[index]["fd"]})

    def test_ports_of_tcp_alone(self) -> None:
        calls = ops(self.convert("policy"), "bind", "connect")
        self.assertEqual(
            [(record["op"], record["port"], record["kernel"]) for record in calls],
            [("bind", 4242, "ok"), ("bind", 4243, "EACCES"), ("connect", 4243, "EACCES")],
        )

    def test_a_bound_unix_socket_is_made(self) -> None:
        (made,) = ops(self.convert("policy"), "mknod")
        self.assertEqual(bare(made), {"op": "mknod", "path": f"{WORK}/sock~new~", "kind": "sock"})

    def test_programs_that_are_refused_are_written_whole(self) -> None:
        refused = [record["path"] for record in ops(self.convert("policy"), "exec") if record["kernel"] == "EACCES"]
        self.assertEqual(refused, ["/usr/bin/true", LOADER, f"{WORK}/script", "/usr/bin/dash", LOADER])

    def test_a_mount_is_a_mount(self) -> None:
        self.assertEqual([record["kernel"] for record in ops(self.convert("policy"), "mount")], ["EPERM"])


class BadLogs(KeptLogs):
    def test_a_log_that_is_cut_converts_as_far_as_it_goes(self) -> None:
        folder = self.folder("policy")
        log = folder / "strace.txt"
        whole = log.read_bytes()
        log.write_bytes(whole[: whole.rindex(b"mount(")] + b"mount(\"no")
        trace = self.lines_of(folder)
        self.assertEqual((trace[0]["op"], trace[-1]["op"]), ("start", "unlink"))
        self.assertEqual(self.lines(folder, "unsaid.jsonl")[-1]["class"], "a line that is not understood")

    def lines_of(self, folder: Path) -> list[Record]:
        converting.convert(folder, Ports())
        return self.lines(folder, "trace.jsonl")

    def test_a_log_of_another_program_is_told(self) -> None:
        folder = self.folder("policy")
        (folder / "strace.txt").write_text("Mon 23: something happened\n" * 30, encoding="ascii")
        with self.assertRaisesRegex(Problem, "is not a log that 'landaudit-record run' wrote"):
            self.lines_of(folder)

    def test_a_folder_without_a_recording_is_told(self) -> None:
        folder = self.folder("policy")
        (folder / "recording.json").unlink()
        with self.assertRaisesRegex(Problem, "name a folder that 'landaudit-record run' made") as raised:
            self.lines_of(folder)
        self.assertEqual(raised.exception.status, 3)
