"""Pages of reports: their steps, over all reports that the repository has."""
from __future__ import annotations

import json
import re
import unittest

from romp801 import Failure, Store, files, held, page, report
from romp801.job import Job
from romp801.prints import Touch
from romp801.program import refused
from romp801.report import NoReport
from tests import tables
from tests.stores import Case


class Steps(unittest.TestCase):
    """The steps of reports."""

    def test_all(self) -> None:
        """Each line of each report stands in one step, with its words, and each activation ends as its line says."""
        for name, text in tables.reports():
            found = report.Report.read(text.encode())
            steps = page.Steps(found.lines)
            self.assertEqual("".join(f"{line}\n" for it in steps.steps for line in it.text), text, name)
            for it in steps.steps:
                self.assertEqual(len(it.text), len(it.said))
                self.assertTrue(all(it.said))
            self.assertEqual(steps.steps[-1].active, [])
            for number, end in found.ends.items():
                how = f"check {end.code}" if isinstance(end, report.Check) else end.word
                self.assertEqual(steps.activations[number].how, how)
            # (no two that are active at one step share a lane)
            for it in steps.steps:
                lanes = [steps.activations[who].lane for who, _, _ in it.active]
                self.assertEqual(len(lanes), len(set(lanes)))

    def test_cut(self) -> None:
        """A report that is cut at any line has a page; a line of nobody has none."""
        lines = list(report.read(dict(tables.reports())["queue.report"]))
        for length in range(1, len(lines)):
            self.assertGreater(len(page.Steps(lines[:length]).steps), 0)
        for line in (report.Turn(9, 1, 0, 0), report.Wait(9, (1,)), report.Victim(9), report.Commit(9, 1, 1, b"")):
            with self.assertRaises(NoReport) as raised:
                page.Steps([*lines[:3], line])
            self.assertEqual(raised.exception.place, 4)

    def test_page(self) -> None:
        """What a page is told can't end its script, and it may ask no network."""
        text = dict(tables.reports())["one-add.report"].encode()
        made = page.page("</script><b>", report.Report.read(text), {1: [Touch(2, "r", 0)]})
        self.assertIn("default-src 'none'", made)
        self.assertNotIn("</script><b>", made)
        self.assertNotIn("http", made.replace("http-equiv", ""))
        data = re.search(r'<script id="data" type="application/json">(.*?)</script>', made)
        assert data
        told = json.loads(data[1])
        self.assertEqual((told["title"], told["traces"]), ("</script><b>", {"1": [[2, "r", "0"]]}))


class Held(Case):
    """What the store held at each step."""

    def test_held(self) -> None:
        """The opening store with the changes of all commits is the store in the end; of a cut report it is a first
        part; a job with another report is refused."""
        job = Job.read((tables.TOP / "examples/index.job").read_text())
        store = self.path("store")
        self.new("new", store, "8192", "1", "4", "2", "2")
        opening = files.read_bytes(store)
        ended = refused(self.program.call("run", store, given=bytes(job)), "run").stdout
        found = report.Report.read(ended)
        behind = held.changes(self.program, bytes(job), opening, found)
        self.assertTrue(set(behind) <= {it.number for it in found.commits()})
        lines = list(page.lines_of(Store(opening)).values())
        for changed in behind.values():
            for index, data in changed.items():
                lines[index] = data
        self.assertEqual(lines, list(page.lines_of(files.read_store(store)).values()))
        first = held.changes(self.program, bytes(job), opening, report.Report.read(ended[:400]))
        self.assertEqual(first, {number: behind[number] for number in first})
        self.assertLess(0, len(first))
        self.assertLess(len(first), len(behind))
        with self.assertRaises(Failure):
            held.changes(self.program, bytes(job._replace(events=job.events[1:])), opening, found)


if __name__ == "__main__":
    unittest.main()
