"""What a list of transactions has come to: one file, of which each state says exactly what is done.

It is a text of records (romp801.log). A record is synced before what it says is acted on. In this order there are

    {"list": SUM, "count": N, "number": N}
        once, the first: the sum of the list's text, how many transactions it has, the store's number when it was begun
    {"job": SUM, "opening": SUM, "number": N, "lines": [..]}
        a job is about to be run: its sum, that of the store before it, the store's number then, and the list's lines of
        its activations, in order
    {"over": [[LINE, HOW], ..], "number": N, "due": B}
        the job is over: how these ended, the store's number then, and whether a command is due
    {"after": true}
        the command that was due has been run

The first is written whole and renamed, so a new list's file takes the place of an old one's at once.
"""
from __future__ import annotations

import hashlib
from typing import Any, Iterable, NamedTuple, Optional

from romp801.log import Log


class Job(NamedTuple):
    """A job that may have been run: its sum, its opening store's sum and number, and the list's lines of its
    activations."""

    sum: str
    opening: str
    number: int
    lines: list[int]


def sum_of(data: bytes) -> str:
    """The sum by which a file is known again."""
    return hashlib.sha256(data).hexdigest()


class Progress(Log):
    """The file's content. `ended` tells of each line how it ended; `job` is the one that isn't over, `number` the
    store's number when the last one was over or the list was begun, `due` whether a command is to be run."""

    what = "list"

    def __init__(self, path: str) -> None:
        super().__init__(path)
        self.list, self.count = "", 0
        self.ended: dict[int, str] = {}
        self.job: Optional[Job] = None
        self.number = 0
        self.due = False

    @classmethod
    def begin(cls, path: str, list_sum: str, count: int, number: int) -> Progress:
        """Puts the file of a list of which nothing is done yet in the place of what stands there."""
        made = cls(path)
        made.begin_log({"list": list_sum, "count": count, "number": number})
        return made

    @classmethod
    def read(cls, path: str) -> Optional[Progress]:
        """What the file says, or None where there is none. Raises Failure where it isn't one that a list left."""
        found = cls(path)
        return found if found.read_log() else None

    @property
    def is_done(self) -> bool:
        """Whether each transaction ended, and no job is to be settled."""
        return len(self.ended) == self.count and self.job is None

    def apply(self, record: dict[str, Any]) -> None:
        """Does what a record says."""
        if "list" in record:
            self.list, self.count, self.number = record["list"], record["count"], record["number"]
        elif "job" in record:
            self.job = Job(record["job"], record["opening"], record["number"], record["lines"])
        elif "over" in record:
            self.job, self.number, self.due = None, record["number"], record["due"]
            self.ended.update((line, how) for line, how in record["over"])
        elif "after" in record:
            self.due = False

    def begin_job(self, job: Job) -> None:
        """A job is about to be run."""
        self.add({"job": job.sum, "opening": job.opening, "number": job.number, "lines": job.lines})

    def end_job(self, ends: Iterable[tuple[int, str]], number: int, due: bool) -> None:
        """The job is over: how these lines ended, the store's number, and whether a command is due."""
        self.add({"over": [list(it) for it in ends], "number": number, "due": due})

    def end_after(self) -> None:
        """The command was run."""
        self.add({"after": True})
