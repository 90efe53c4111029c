"""Where programs stand: a run that is done again here ends as the program's, row by row."""
from __future__ import annotations

import os
import pathlib
import unittest

from romp801 import Store, files, job, lines, prints, report
from tests.stores import Case

EXAMPLES = pathlib.Path(__file__).resolve().parent.parent.parent / "examples"


class Lines(unittest.TestCase):
    """The lines of a job's programs."""

    def test_rows(self) -> None:
        """Each row has its address; a comment of tools/compile is the line of C of the rows behind it."""
        text = b"frames 2\nprogram p\n; a.c:3: x = 1;\nlis r2, 1\nl: svc 1\n.word 7\n; no line of C\nsvc 0\nend\nschedule\nend\n"
        found = [(it.at, it.size, it.number, it.told) for it in lines.lines_of(text) if it.size]
        told = "a.c:3: x = 1;"
        self.assertEqual(found, [(0, 2, 4, told), (2, 4, 5, told), (6, 4, 6, told), (10, 4, 8, told)])
        places = lines.Places(text)
        self.assertEqual([places.told("p", 2), places.told("p", 3), places.told("q", 2)], [told, "", ""])
        plain = lines.Places(b"program q\n  lis   r2, 1 ; one\nend\n")
        self.assertEqual(plain.told("q", 0), "lis r2, 1")


class Machine(Case):
    """Runs of the examples, done again."""

    def test_examples(self) -> None:
        """Each check stands where the report says, each commit has its steps, and the store is the program's in the
        end."""
        for path in sorted(EXAMPLES.glob("*.job")):
            text = path.read_bytes()
            its = job.Job.read(text.decode("latin-1"))
            if any(isinstance(it, job.Crash) for it in its.events) or path.name == "no-end.job":
                continue
            self.again(path.name, text, its)

    def again(self, name: str, text: bytes, its: job.Job) -> None:
        """One run, on a store of both segments."""
        store = os.path.join(self.folder, name)
        self.new("new", store, "65536", "1", "4", "2", "2")
        opening = files.sound_store(store)
        found = report.Report.read(self.program.call("run", store, given=text).stdout)
        images = prints.images_of(self.program.call("list", given=text).stdout.decode())
        again = lines.Again(found, its, images, opening)
        stands = again.run()
        content = Store(files.sound_store(store).image).content()
        self.assertEqual({segment: bytes(data) for segment, data in again.content.items()}, content, name)
        for it in found.commits():
            self.assertEqual(len(stands.steps[it.activation]), it.steps, name)
        for place, line in enumerate(found.lines, 1):
            self.assertEqual(place in stands.waits, isinstance(line, report.Wait), name)
