"""Work in processes of their own."""

from __future__ import annotations

import os
import signal
import time
import unittest
from collections.abc import Callable, Iterator
from functools import partial

from landaudit_record.common import apart
from landaudit_record.common.problems import USAGE, Problem


def _fails() -> int:
    raise Problem("so it is", USAGE)


def _is_killed() -> int:
    os.kill(os.getpid(), signal.SIGKILL)
    return 0


def _late(number: float) -> float:
    time.sleep(0.2 / number)
    return number


def _is_there(pid: int) -> bool:
    try:
        os.kill(pid, 0)
    except ProcessLookupError:
        return False
    return True


class Each(unittest.TestCase):
    def test_results_are_in_the_order_of_the_works(self) -> None:
        works = [partial(_late, number) for number in range(1, 6)]
        for most in (1, 2, 9):
            self.assertEqual(list(apart.each(works, most)), [1, 2, 3, 4, 5])

    def test_each_work_has_a_process(self) -> None:
        found = list(apart.each([os.getpid] * 3, 2))
        self.assertEqual(len({os.getpid(), *found}), 4)
        self.assertFalse(any(map(_is_there, found)))

    def test_a_work_sees_what_was_there_when_it_began(self) -> None:
        held = ["before"]
        works: list[Callable[[], list[str]]] = [lambda: held + ["mine"], lambda: list(held)]
        self.assertEqual(list(apart.each(works, 2)), [["before", "mine"], ["before"]])

    def test_what_a_work_raises_is_raised(self) -> None:
        with self.assertRaisesRegex(Problem, "so it is") as caught:
            list(apart.each([_fails, os.getpid], 2))
        self.assertEqual(caught.exception.status, USAGE)

    def test_a_killed_work_is_a_problem(self) -> None:
        with self.assertRaisesRegex(Problem, "was killed: is there enough memory"):
            list(apart.each([_is_killed], 2))

    def test_works_end_with_the_one_who_asked(self) -> None:
        began = time.monotonic()
        works: list[Callable[[], object]] = [os.getpid, partial(time.sleep, 60), partial(time.sleep, 60)]
        for _ in apart.each(works, 2):
            break
        self.assertLess(time.monotonic() - began, 30)


def _counts(most: int) -> Iterator[list[int]]:
    yield from ([number] for number in range(most))


def _counts_and(end: Callable[[], int]) -> Iterator[list[int]]:
    yield [1]
    end()


class Pieces(unittest.TestCase):
    def test_pieces_are_in_their_order(self) -> None:
        for most in (0, 1, 100_000):
            self.assertEqual([one for (one,) in apart.pieces(partial(_counts, most))], list(range(most)))

    def test_what_the_work_raises_is_raised_after_its_pieces(self) -> None:
        found = apart.pieces(partial(_counts_and, _fails))
        self.assertEqual(next(found), [1])
        with self.assertRaisesRegex(Problem, "so it is"):
            next(found)

    def test_a_killed_work_is_a_problem(self) -> None:
        found = apart.pieces(partial(_counts_and, _is_killed))
        self.assertEqual(next(found), [1])
        with self.assertRaisesRegex(Problem, "was killed: is there enough memory"):
            next(found)

    def test_a_work_ends_with_the_one_who_asked(self) -> None:
        began = time.monotonic()
        found = apart.pieces(partial(_counts_and, partial(_late, 0.002)))
        next(found)
        del found
        self.assertLess(time.monotonic() - began, 30)
