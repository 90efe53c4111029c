"""Jobs as text and as objects, and the program's words."""
from __future__ import annotations

import pathlib
import re
import unittest

from romp801 import Failure, job, program, words
from tests import tables

TOP = pathlib.Path(__file__).resolve().parent.parent.parent


class Jobs(unittest.TestCase):
    """Tokens, fronts and lists."""

    def test_sizes(self) -> None:
        """A mnemonic has two bytes where docs/FORMATS.md, "Rows", gives it a form of two."""
        rows = re.findall(
            r"^\| `(\w+)` \| `[^`]*` \| (J|S|X|R|D|BI|BA) \|",
            (TOP / "docs/FORMATS.md").read_text(encoding="utf-8"),
            re.M,
        )
        self.assertEqual(len(rows), 85)
        for name, form in rows:
            self.assertEqual(job.size_of([name]), 2 if form in "JSXR" else 4, name)

    def test_lines(self) -> None:
        """A line ends with a line feed alone, and blanks are space, tab and carriage return."""
        self.assertEqual(job.list_of("a 1\r\n\n; no\nb\t2 ; \x85 c 3\n"), {1: "a 1", 4: "b 2"})
        self.assertEqual(job.list_of("a 1\xa02\n"), {1: "a 1\xa02"})
        self.assertEqual(job.tokens_of("x:.byte-1 ; 2"), ["x", ":", ".byte", "-", "1"])
        self.assertEqual(
            [job.size_of(job.tokens_of(it)) for it in (".space 010", ".space 0x10", ".byte-1", "")], [10, 16, 1, 0]
        )

    def test_fronts(self) -> None:
        """A front ends in front of the schedule, and each of its lines with a line feed."""
        self.assertEqual(job.front_of("frames 2\n schedule ; now\nend\n"), "frames 2\n")
        self.assertEqual(job.front_of("frames 2"), "frames 2\n")
        self.assertEqual(job.front_of("schedule\n"), "")


class Objects(unittest.TestCase):
    """Jobs as objects."""

    def test_all(self) -> None:
        """Each job of examples/ and checks/ is read, and what is written of it is the same job."""
        jobs = tables.jobs()
        self.assertGreater(len(jobs), 60)
        for name, text in jobs:
            found = job.Job.read(text)
            self.assertEqual(job.Job.read(str(found)), found, name)

    def test_the_program(self) -> None:
        """What is written of each has the listing and the report of what was read."""
        try:
            romp801 = program.Program.find()
        except Failure as failure:
            self.skipTest(str(failure))
        for name, text in tables.jobs():
            for word in ("list", "try"):
                wanted = romp801.call(word, given=text.encode("latin-1"))
                found = romp801.call(word, given=bytes(job.Job.read(text)))
                self.assertEqual((found.returncode, found.stdout), (wanted.returncode, wanted.stdout), (name, word))
                self.assertEqual(wanted.returncode, 0, name)

    def test_refused(self) -> None:
        """Of the texts of checks/refused those whose fault is one of the job's own lines are refused there, and no
        other one before its fault."""
        own = 0
        for said, text in tables.texts("refused"):
            line, kind = map(int, said.split()[1:])
            try:
                job.Job.read(text)
                found = None
            except job.NoJob as fault:
                found = fault.line, fault.kind
            if 10 <= kind <= 14:
                own += 1
                self.assertEqual(found, (line, kind), text)
            elif found:
                self.assertGreater(found, (line, 0), text)
        self.assertGreater(own, 25)

    def test_bounds(self) -> None:
        """The most of each number, and one more."""
        program_text = "program p\nsvc 0\nend\n"
        for front, events, kind in (
            ("frames 1024\n", "", None),
            ("frames 1025\n", "", 11),
            ("frames 2\n" + "".join(f"program p{it}\nend\n" for it in range(64)), "", None),
            ("frames 2\n" + "".join(f"program p{it}\nend\n" for it in range(65)), "", 11),
            ("frames 2\nprogram p\n" + 15 * ".part ; more\n" + "end\n", "", None),
            ("frames 2\nprogram p\n" + 16 * ".part\n" + "end\n", "", 11),
            (f"frames 2\n{program_text}", 10000 * "begin p\n", None),
            (f"frames 2\n{program_text}", 10001 * "begin p\n", 11),
            (f"frames 2\n{program_text}", "begin p 0xFFFFFFFF\nturn 1 1000000\ndrain 9998 1\n", None),
            (f"frames 2\n{program_text}", "begin p 4294967296\n", 10),
            (f"frames 2\n{program_text}", "begin p\ndrain 10000 1\n", 11),
            (f"frames 2\n{program_text}", "begin p \xa0\n", 10),
        ):
            text = f"{front}schedule\n{events}end\n"
            if kind is None:
                self.assertEqual(job.Job.read(str(job.Job.read(text))), job.Job.read(text))
            else:
                with self.assertRaises(job.NoJob, msg=text[:99]) as raised:
                    job.Job.read(text)
                self.assertEqual(raised.exception.kind, kind, text[:99])

    def test_made(self) -> None:
        """A job that a script makes."""
        made = job.Job(
            2,
            (job.Program("p", (".window 1, 1, rw", "svc 0", ".part", ".export x")),),
            (job.Begin("p", (5, 7)), job.Turn(1, 9), job.Drain(2, 3), job.Checkpoint(), job.Crash()),
        )
        self.assertEqual(job.Job.read(str(made)), made)
        self.assertEqual(made.programs[0].sources, [[".window 1, 1, rw", "svc 0"], [".export x"]])
        self.assertTrue(str(made).endswith("schedule\nbegin p 5 7\nturn 1 9\ndrain 2 3\ncheckpoint\ncrash\nend\n"))


class Words(unittest.TestCase):
    """Statuses and kinds."""

    def test_all(self) -> None:
        """Each status and each kind of docs/FORMATS.md has words, and nothing else."""
        text = (TOP / "docs/FORMATS.md").read_text(encoding="utf-8")
        statuses = set(map(int, re.findall(r"^\| (\d+) \| [A-Z]\w+(?:\([^)]*\))? \|", text, re.M))) - {0}
        self.assertEqual(set(words.STATUSES), statuses)
        self.assertEqual(set(words.KINDS), set(range(1, 17)))


if __name__ == "__main__":
    unittest.main()
