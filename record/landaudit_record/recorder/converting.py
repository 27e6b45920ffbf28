"""From a kept log to a tree and a trace."""

from __future__ import annotations

from contextlib import closing
from pathlib import Path
from typing import Any

from ..common.finished import Converted
from ..common.problems import Problem
from ..common.progress import Progress
from . import disk, hearing, log_apart, strace_log, unrecorded
from .calls import HANDLERS, arguments, ptrace
from .unwritten import NOT_UNDERSTOOD, CannotSay
from .modes import NOBODY_KNOWN
from .mounted import MountPlaces
from .names import Doubts, Names, UnknownWay
from .ports import Ports
from .processes import Directories, Handle, Process, Thread
from .recordings import BESIDE, OBJECTS, WITNESS, About, read_about, read_before
from .scene import Scene
from .strace_log import Call, Ended, Superseded, UnreadLine
from .writing import LIMITS, Limits, ListedTree, Recording

CORE_FILE = "a core file that the kernel was to write"
TAKEN_AWAY = "a file system that was taken from its server, for which strace waited: its use failed from then on"
NOT_SEEN_TO_START = "a process whose start was not seen"
ELSEWHERE = "calls by an inherited descriptor whose path names another object"
#: The number of lines after which progress may be shown again.
LINES_APART = 64


def convert(folder: Path, ports: Ports, limits: Limits = LIMITS) -> Converted:
    """Writes the trees and traces of a recording from its log, or from what its witness heard if that recorded it.

    The files are put in place when all are written.

    A conversion may find out that it took something to be known that is not: then it begins again.
    """
    about = read_about(folder)
    if about.by == WITNESS:
        return hearing.convert(folder, about, limits)
    kept = disk.kept(folder / OBJECTS, about.started, about.registered, folder / BESIDE, about.mounts)
    doubts = Doubts()
    while True:
        found = doubts.size()
        done = _convert(folder, about, kept, doubts, ports, limits, found)
        if done is not None:
            (folder / BESIDE).unlink(missing_ok=True)
            return done


def _convert(
    folder: Path, about: About, kept: disk.Disk, doubts: Doubts, ports: Ports, limits: Limits, found: int
) -> Converted | None:
    """One conversion; None if it added to the `found` doubts."""
    log = strace_log.find_log(folder)
    places = MountPlaces(about.mounts)
    names = Names(kept, read_before(folder), about.watched, about.whiteouts, about.unlisted, doubts, places)
    with Recording(folder, ListedTree(names), limits) as recording, Progress("records") as progress:
        births = strace_log.births(log)
        scene = Scene(names, kept, recording, births, ports, reads_links=about.readlink)
        scene.hides, scene.hides_not_from = about.hidepid, about.hidepid_group
        scene.protects_links = about.protected_hardlinks
        with closing(log_apart.events(log, births.ends, scene.near)) as events:
            for event in events:
                if isinstance(event, Call):
                    _take_call(scene, about, event)
                else:
                    _take(scene, event)
                if recording.waiting:
                    recording.commit()
                if event.line % LINES_APART == 0:
                    progress.show(recording.records)
        if recording.unsaid[NOT_UNDERSTOOD] > recording.records:
            raise Problem(f"{log} is not a log that 'landaudit-record run' wrote: record the program with it")
        if recording.records == 0:
            raise Problem(f"{log} has no call of a program: record it again")
        if doubts.size() > found:
            return None
        for place in about.taken:
            recording.leave_out(TAKEN_AWAY, 0, 0, place, asks=True)
        kept.keep(folder / OBJECTS)
        ended = about.ended and scene.have_ended(scene.threads)
        unrecorded.tell(folder, recording)
        return recording.finish(ended, scene.further_names(), about.untraced, about.too_large)


def _take(scene: Scene, event: Ended | Superseded | UnreadLine) -> None:
    """Takes an event that is not a call."""
    match event:
        case Ended():
            _take_end(scene, event)
        case Superseded():
            _take_over(scene, event)
        case UnreadLine():
            scene.recording.leave_out(NOT_UNDERSTOOD, event.line, event.tid, event.text, asks=True)


def _take_call(scene: Scene, about: About, call: Call) -> None:
    """Takes a call, whose records are all written or none; most calls are of a thread that is known already."""
    handler = HANDLERS.get(call.name)
    scene.names.line = call.line
    try:
        thread = scene.threads.get(call.tid)
        if thread is None or scene.unmet:
            thread = scene.known(call.tid, call.line, call.text) or _started(scene, about, call)
        thread.forked = None
        scene.call = call
        if scene.through:
            scene.through.clear()
        near, text = scene.near, call.text
        may_look = "proc" in text or near.relative or near.elsewhere
        looked = may_look and near.is_look(text) and ptrace.look(scene, thread, call)
        if handler is not None:
            handler(scene, thread, call)
        if scene.through and not looked:
            ptrace.passed_by_links(scene, thread, call)
    except CannotSay as reason:
        scene.recording.drop()
        asks = reason.asks and not (isinstance(reason, UnknownWay) and call.error in arguments.NOT_REACHED)
        scene.recording.leave_out(str(reason), call.line, call.tid, call.text, asks=asks)


def _started(scene: Scene, about: About, call: Call) -> Thread:
    """A thread that no fork made: that of the first process, or of a process whose start was not seen.

    It is where it is since before this call, whatever call there was before.
    """
    scene.call = None
    process = Process(call.tid, confined=about.confined, unseen_layer=about.confined)
    user = NOBODY_KNOWN if scene.recording.records else about.user
    thread = Thread(call.tid, process, Directories("/", "/"), user=user)
    scene.go_to(thread, about.directory)
    if scene.recording.records:
        process.confined = True
        scene.leave_out(thread, call, NOT_SEEN_TO_START, asks=True)
    scene.start(thread, call, nnp=about.nnp, admin=about.admin)
    for number, known in about.descriptors.items():
        handle = Handle(known["path"], adopted=known["kind"], tcp=known.get("tcp"), foreign=is_unknown(known))
        handle.node = scene.names.at(handle.path) if handle.path is not None else None
        process.table[int(number)] = handle
        scene.adopt(thread, call, int(number), handle)
        if known.get("elsewhere"):
            scene.leave_out(thread, call, ELSEWHERE, asks=True)
    return thread


def is_unknown(given: dict[str, Any]) -> bool:
    """Whether a descriptor may be a TCP socket for all that is known of it, as older recordings know it."""
    return given["kind"] == "other" and given["path"] is None and "tcp" not in given


def _take_end(scene: Scene, ended: Ended) -> None:
    """Takes a thread's end, which may be all that the log says of it before its fork has ended."""
    try:
        thread = scene.known(ended.tid, ended.line, "exit")
        if thread is not None and (ended.killed or thread.process.threaded):
            scene.doubt(thread)
        if ended.dumped and ended.tid in scene.processes:
            scene.recording.leave_out(CORE_FILE, ended.line, ended.tid, "core dumped", asks=True)
        scene.end(ended.tid, ended.line)
    except CannotSay as reason:
        scene.recording.leave_out(str(reason), ended.line, ended.tid, "exit", asks=reason.asks)


def _take_over(scene: Scene, event: Superseded) -> None:
    """Takes an exec by a thread beside the leader: it continues under the number of the leader, which was killed."""
    if (leader := scene.threads.get(event.tid)) is not None:
        scene.doubt(leader)
    thread = scene.threads.pop(event.by, None)
    if thread is not None:
        scene.names.put(f"/proc/{event.by}", None)
        thread.process.threads.discard(event.by)
        thread.process.threads.add(event.tid)
        thread.tid = event.tid
        scene.threads[event.tid] = thread
