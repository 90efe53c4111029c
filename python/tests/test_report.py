"""Reports and what other words print: each line read and written again, over all that the repository has."""
from __future__ import annotations

import dataclasses
import pathlib
import unittest

from romp801 import prints, report
from romp801.forms import FIELD, Line
from tests import tables

TOP = pathlib.Path(__file__).resolve().parent.parent.parent


class Lines(unittest.TestCase):
    """Lines by their forms."""

    def test_fields(self) -> None:
        """The fields of a form are those of its class, in their order."""
        printed = (prints.Listed, prints.Window, prints.Row, prints.Touch, prints.Traced, prints.Yes, prints.No)
        classes: list[type[Line]] = [*report.LINES, *printed]
        for it in classes:
            named = [field.name for field in dataclasses.fields(it)]
            self.assertEqual([name for name, _ in FIELD.findall(it.form)], named, it)

    def test_all_reports(self) -> None:
        """Each report of examples/, of checks/worked and of the program's own run is read and written again as it
        was."""
        seen: set[type[Line]] = set()
        texts = tables.reports()
        for name, text in texts:
            lines = list(report.read(text))
            self.assertEqual(report.written(lines), text, name)
            seen |= {type(it) for it in lines}
        self.assertGreater(len(texts), 50)
        # (no run in memory has a disk that fails, or a bank that is too small)
        rare = {report.Disk, report.Doubt, report.Closed, report.Journal}
        self.assertLessEqual(set(report.LINES) - seen, rare)

    def test_table(self) -> None:
        """The texts of checks/reports, with the first line that is none; behind 0 is one with lines of each kind."""
        for said, text in tables.texts("reports"):
            if said == "0":
                self.assertEqual(report.written(report.read(text)), text)
                continue
            with self.assertRaises(report.NoReport) as raised:
                list(report.read(text))
            self.assertEqual(raised.exception.place, int(said), text)

    def test_bounds(self) -> None:
        """What is out of range, cut or spelled otherwise is no line."""
        for text in (
            "commit 1 number 18446744073709551616 steps 1 out -",
            "commit 1 number 1 steps 1 out " + 4097 * "00",
            "commit 1 number 1 steps 1 out 0",
            "wait 1 for" + 17 * " 2",
            "open 1\n",
            "begin 1 a" + 31 * "b",
            "END 1",
            "",
        ):
            with self.assertRaises(ValueError, msg=text):
                report.line_of(text)
        self.assertEqual(str(report.line_of("wait 1 for" + 16 * " 2")), "wait 1 for" + 16 * " 2")
        longest = "commit 1 number 18446744073709551615 steps 18446744073709551615 out " + 4096 * "ff"
        self.assertEqual(str(report.line_of(longest)), longest)

    def test_prints(self) -> None:
        """The lines of a listing, a trace and a verdict."""
        listing = "program a bytes 18 entry 00000002\nwindow 1 segment 7 rw\n00000000 " + 32 * "0" + "\n00000010 c000\n"
        image = prints.images_of(listing)["a"]
        self.assertEqual((image.entry, image.windows, len(image.data)), (2, [prints.Window(1, 7, "rw")], 18))
        self.assertEqual(prints.touches_of("step 4 r 9\nstep 9 w 17\ntrace 7 steps 10\n")[1], prints.Touch(9, "w", 17))
        self.assertEqual(prints.verdict_of("audit no 3\n"), prints.No(3))
        self.assertEqual(prints.verdict_of("audit yes commits 3\n"), prints.Yes(3))
        with self.assertRaises(ValueError):
            prints.images_of("open 0\n")


class Reports(unittest.TestCase):
    """What a report tells in all."""

    def test_ends(self) -> None:
        """How each ended, and in words."""
        text = (TOP / "examples/index.report").read_bytes()
        found = report.Report.read(text)
        self.assertEqual((found.number, found.piece, len(found.commits())), (8, "", 8))
        self.assertEqual(found.ends[6], report.Check(6, 8, 0x22))
        self.assertEqual(found.ends[6].how, "check 8 at 00000022")
        self.assertEqual(report.Commit(4, 57, 14, b"\0a").how, "commit 57 out 0061")
        self.assertEqual(report.Journal(4, 31, 30).how, "journal 31 lines, and a commit has at most 30")
        self.assertEqual(report.NoSegment(1, "p", 7).how, "nosegment 7")

    def test_cut(self) -> None:
        """A report that is cut anywhere tells what its whole lines do."""
        data = (TOP / "examples/crossing.report").read_bytes()
        for length in range(len(data)):
            found = report.Report.read(data[:length])
            self.assertIsNone(found.number)
            self.assertEqual(report.written(found.lines).encode() + found.piece.encode(), data[:length])

    def test_end_of(self) -> None:
        """The end that a line of the program's output tells."""
        self.assertEqual(report.end_of(b"victim 3\n"), report.Victim(3))
        self.assertIsNone(report.end_of(b"end 3\n"))
        with self.assertRaises(ValueError):
            report.end_of(b"hello\n")


if __name__ == "__main__":
    unittest.main()
