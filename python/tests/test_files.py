"""Safe files: each step fails once, and the process ends at each step once."""
from __future__ import annotations

import errno
import fcntl
import itertools
import os
import tempfile
import threading
import time
import unittest
from typing import Any, Callable
from unittest import mock

from romp801 import Failure, files

STEPS = ("os.open", "os.write", "os.fsync", "os.fchmod", "os.replace", "os.stat")


class Whole(unittest.TestCase):
    """write_whole."""

    def setUp(self) -> None:
        """A folder with a file."""
        self.folder = tempfile.TemporaryDirectory()
        self.addCleanup(self.folder.cleanup)
        self.path = os.path.join(self.folder.name, "file")
        files.write_whole(self.path, b"old")

    def test_each_step_fails(self) -> None:
        """Where a call fails the old file or the new one is there, whole, and nothing beside it."""
        for step in STEPS:
            for moment in range(3):
                files.write_whole(self.path, b"old")
                real, calls = getattr(os, step[3:]), [0]

                def fails(*words: Any, **named: Any) -> Any:
                    """The call, which fails once."""
                    calls[0] += 1
                    if calls[0] == moment + 1:
                        raise OSError(5, "Input/output error")
                    return real(*words, **named)

                failed = False
                with mock.patch(step, fails):
                    try:
                        files.write_whole(self.path, b"new", like=self.path)
                    except Failure:
                        failed = True
                self.assertEqual(os.listdir(self.folder.name), ["file"], step)
                held = files.read_bytes(self.path)
                self.assertIn(held, (b"old", b"new"))
                if not failed:
                    self.assertEqual(held, b"new")

    def test_each_step_is_the_last(self) -> None:
        """Where the process ends in front of a call or behind it the old file or the new one is there, and the next
        call takes what is left."""
        for step in STEPS[:5]:
            for behind in (False, True):
                files.write_whole(self.path, b"old")
                child = os.fork()
                if child == 0:
                    real = getattr(os, step[3:])

                    def ends(*words: Any, **named: Any) -> Any:
                        """The call, with which the process ends."""
                        if behind:
                            real(*words, **named)
                        os._exit(9)

                    with mock.patch(step, ends):
                        files.write_whole(self.path, b"new", like=self.path)
                    os._exit(0)
                self.assertEqual(os.waitpid(child, 0)[1] >> 8, 9)
                self.assertIn(files.read_bytes(self.path), (b"old", b"new"))
                files.write_whole(self.path, b"next")
                self.assertEqual((files.read_bytes(self.path), os.listdir(self.folder.name)), (b"next", ["file"]))

    def test_another_writes(self) -> None:
        """What another process is writing isn't touched."""
        beside = os.path.join(self.folder.name, f".file{files.BESIDE}")
        with open(beside, "w") as other:
            fcntl.flock(other, fcntl.LOCK_EX)
            with self.assertRaises(Failure):
                files.write_whole(self.path, b"new")
            self.assertTrue(os.path.exists(beside))

    def test_rights_and_links(self) -> None:
        """The new file has the rights of `like`, and a link stays one."""
        os.chmod(self.path, 0o640)
        os.symlink("file", self.path + "2")
        files.write_whole(self.path + "2", b"new", like=self.path)
        self.assertTrue(os.path.islink(self.path + "2"))
        self.assertEqual((files.read_bytes(self.path), os.stat(self.path).st_mode & 0o777), (b"new", 0o640))


class Looks(unittest.TestCase):
    """What is asked of a name."""

    def setUp(self) -> None:
        """A folder with a file."""
        self.folder = tempfile.TemporaryDirectory()
        self.addCleanup(self.folder.cleanup)
        self.path = os.path.join(self.folder.name, "file")
        files.write_whole(self.path, b"old")

    def test_answers(self) -> None:
        """A file, a folder, a link that leads nowhere, and nothing."""
        link = self.path + ".link"
        os.symlink("nosuch", link)
        names = (self.path, self.folder.name, link, self.path + "/below", self.path + ".none")
        asked = (files.is_there, files.is_file, files.is_folder)
        self.assertEqual([[ask(it) for it in names] for ask in asked], [
            [True, True, False, False, False], [True, False, False, False, False], [False, True, False, False, False]])
        self.assertIsNotNone(files.look(link, through=False))
        self.assertFalse(files.same_file(self.path, link))
        self.assertTrue(files.same_file(self.path, self.path))

    def test_links_without_an_end(self) -> None:
        """A link to itself is no absent file."""
        os.symlink("file.round", self.path + ".round")
        with self.assertRaises(Failure):
            files.is_there(self.path + ".round")
        with self.assertRaises(Failure):
            files.write_whole(self.path + ".round", b"new")

    def test_no_answer(self) -> None:
        """Where the system can't tell, nobody takes it for an answer, and what is there stays."""
        number = os.open(self.path, os.O_RDONLY)
        self.addCleanup(os.close, number)
        asks: list[Callable[[], object]] = [
            lambda: files.is_there(self.path),
            lambda: files.is_file(self.path),
            lambda: files.is_folder(self.path),
            lambda: files.has_name(number, self.path),
            lambda: files.same_file(self.path, self.path),
            lambda: files.make_folder(self.path),
            lambda: files.write_whole(self.path, b"new"),
            lambda: files.hold_list(self.path),
        ]
        for ask in asks:
            with mock.patch("os.stat", side_effect=OSError(errno.EIO, "it fails")), self.assertRaises(Failure):
                ask()
        self.assertEqual((files.read_bytes(self.path), os.listdir(self.folder.name)), (b"old", ["file"]))

    def test_each_question_of_a_write(self) -> None:
        """Each question that a write asks of a name fails in turn: a link stays one, and nothing is left beside it."""
        os.symlink("file", self.path + ".link")
        real = os.stat
        for nth in range(1, 5):
            answers = itertools.count(1)

            def asked(*words: Any, **named: Any) -> Any:
                """The call, which fails once."""
                if next(answers) == nth:
                    raise OSError(errno.EIO, "it fails")
                return real(*words, **named)

            with mock.patch("os.stat", asked), self.assertRaises(Failure):
                files.write_whole(self.path + ".link", b"new", like=self.path)
            self.assertEqual(files.read_bytes(self.path), b"old")
            self.assertEqual(sorted(os.listdir(self.folder.name)), ["file", "file.link"])


class Locks(unittest.TestCase):
    """locked, hold_list and open_store."""

    def setUp(self) -> None:
        """A folder with a file."""
        self.folder = tempfile.TemporaryDirectory()
        self.addCleanup(self.folder.cleanup)
        self.path = os.path.join(self.folder.name, "file")
        files.write_whole(self.path, b"old")

    def test_another_has_it(self) -> None:
        """A lock that another has is waited for so long, and no longer."""
        with open(self.path, "rb") as other:
            fcntl.flock(other, fcntl.LOCK_EX)
            began = time.monotonic()
            with self.assertRaises(Failure), files.locked(self.path, 0.2):
                pass
            self.assertGreater(time.monotonic() - began, 0.15)
            self.assertTrue(files.is_held(self.path))
        with files.locked(self.path) as file:
            self.assertEqual(files.read_all(file, self.path), b"old")

    def test_replaced_meanwhile(self) -> None:
        """A file that was put in its place while the lock was waited for is the one that is locked."""
        with open(self.path, "rb") as other:
            fcntl.flock(other, fcntl.LOCK_EX)

            def replace() -> None:
                """Another file takes the name, and then the lock is given back."""
                files.write_whole(self.path, b"new")
                other.close()

            timer = threading.Timer(0.2, replace)
            timer.start()
            with files.locked(self.path, 10) as file:
                self.assertEqual(files.read_all(file, self.path), b"new")
            timer.join()

    def test_lists(self) -> None:
        """One list at a time, beside the lock of the program."""
        held = files.hold_list(self.path)
        try:
            with self.assertRaises(Failure):
                files.hold_list(self.path)
            with files.locked(self.path), self.assertRaises(Failure):
                files.hold_list(self.path)
        finally:
            os.close(held)
        os.close(files.hold_list(self.path))
        self.assertEqual(os.listdir(self.folder.name), ["file"])

    def test_no_files(self) -> None:
        """A pipe, a folder and a device are refused at once."""
        os.mkfifo(self.path + ".pipe")
        for path in (self.path + ".pipe", self.folder.name, os.devnull, self.path + ".none"):
            with self.assertRaises(Failure):
                files.open_store(path)


class Copies(unittest.TestCase):
    """Files without a name."""

    def test_copies(self) -> None:
        """In memory, in the folder for such files, or, where no open file has a name, under a name of its own."""
        choices: list[list[Any]] = [
            [],
            [mock.patch("os.memfd_create", side_effect=OSError(1, "no"))],
            [mock.patch("romp801.files.is_there", return_value=False)],
        ]
        for patches in choices:
            for it in patches:
                it.start()
            try:
                with files.copy_of(b"bytes") as (name, keeps):
                    self.assertEqual(files.read_bytes(name), b"bytes")
            finally:
                for it in patches:
                    it.stop()
            self.assertFalse(os.path.exists(name))


if __name__ == "__main__":
    unittest.main()
