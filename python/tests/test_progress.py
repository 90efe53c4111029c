"""What a list has come to: its file cut at every byte, appended to on a full disk, and changed."""
from __future__ import annotations

import contextlib
import os
import tempfile
import unittest
from typing import Any, Callable
from unittest import mock

from romp801 import Failure, files
from romp801.progress import Job, Progress, sum_of

JOB = Job(sum_of(b"job"), sum_of(b"opening"), 7, [1, 2, 33])


def state(found: Progress) -> tuple[object, ...]:
    """What a file says."""
    return found.list, found.count, dict(found.ended), found.job, found.number, found.due


class Cuts(unittest.TestCase):
    """Each state of the file."""

    def setUp(self) -> None:
        """A folder for the file, whose syncs take no time."""
        syncs = mock.patch("os.fsync")
        syncs.start()
        self.addCleanup(syncs.stop)
        self.folder = tempfile.TemporaryDirectory()
        self.addCleanup(self.folder.cleanup)
        self.path = os.path.join(self.folder.name, "progress")

    def whole(self) -> list[tuple[int, tuple[object, ...]]]:
        """A list with two jobs and a command; answers each state, and from which length of the file on it holds."""
        made = Progress.begin(self.path, sum_of(b"list"), 4, 7)
        states = [(made.length, state(made))]
        calls: list[Callable[[], None]] = [
            lambda: made.begin_job(JOB),
            lambda: made.end_job([(1, "commit 8 out -"), (33, "check 8 at 00000024")], 8, True),
            made.end_after,
            lambda: made.begin_job(JOB._replace(number=8, lines=[2, 3])),
            lambda: made.end_job([(2, "commit 9 out 00ff")], 9, False),
        ]
        for call in calls:
            call()
            states.append((made.length, state(made)))
        return states

    def test_every_byte(self) -> None:
        """Cut at any byte it says what the records before say, and goes on from there."""
        states = self.whole()
        data = files.read_bytes(self.path)
        for length in range(len(data) + 1):
            with open(self.path, "wb") as file:
                file.write(data[:length])
            if length < states[0][0]:
                with self.assertRaises(Failure):
                    Progress.read(self.path)
                continue
            found = Progress.read(self.path)
            assert found is not None
            wanted = [it for at, it in states if at <= length][-1]
            self.assertEqual(state(found), wanted)
            found.end_job([(3, "commit 10 out -")], 10, False)
            again = Progress.read(self.path)
            assert again is not None
            self.assertEqual(state(again), state(found))

    def test_every_byte_changed(self) -> None:
        """A byte that is changed anywhere ends what is read in front of its record."""
        states = self.whole()
        data = files.read_bytes(self.path)
        for at in range(states[0][0], len(data)):
            with open(self.path, "wb") as file:
                file.write(data[:at] + bytes([data[at] ^ 1]) + data[at + 1 :])
            found = Progress.read(self.path)
            assert found is not None
            self.assertEqual(state(found), [it for length, it in states if length <= at][-1])

    def test_records_out_of_place(self) -> None:
        """A whole record at another place is none."""
        states = self.whole()
        data = files.read_bytes(self.path)
        first, second = states[0][0], states[1][0]
        with open(self.path, "wb") as file:
            file.write(data[:first] + data[second:] + data[first:second])
        found = Progress.read(self.path)
        assert found is not None
        self.assertEqual(state(found), states[0][1])

    def test_none(self) -> None:
        """No file is no list."""
        self.assertIsNone(Progress.read(self.path))

    def test_full_disk(self) -> None:
        """Where the disk takes only some bytes of a record the file stays as it was, and goes on when there is room."""
        write = os.write
        for room in range(0, 200, 7):
            self.whole()
            made = Progress.read(self.path)
            assert made is not None
            data, before, left = files.read_bytes(self.path), state(made), [room]

            def some(file: int, data: Any) -> int:
                """As many bytes as there is room for."""
                count = min(left[0], len(data), 11)
                if count == 0:
                    raise OSError(28, "No space left on device")
                left[0] -= count
                return write(file, data[:count])

            with mock.patch("os.write", some), contextlib.suppress(Failure):
                made.end_job([(3, "commit 10 out -")], 10, False)
                continue
            self.assertEqual((files.read_bytes(self.path), state(made)), (data, before))
            made.end_job([(3, "commit 10 out -")], 10, False)
            self.assertIn(3, made.ended)

    def test_a_new_list(self) -> None:
        """A new list's file has nothing of the old one."""
        self.whole()
        Progress.begin(self.path, sum_of(b"other"), 1, 9)
        found = Progress.read(self.path)
        assert found is not None
        self.assertEqual(state(found), (sum_of(b"other"), 1, {}, None, 9, False))


if __name__ == "__main__":
    unittest.main()
