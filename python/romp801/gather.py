"""How requests of many become jobs: a thread gathers what waits, runs it as one job after another, and hands on how
each ended. A served store and a cluster's have it in common."""
from __future__ import annotations

import collections
import threading
import time
from typing import Optional, Protocol

from romp801.errors import Failure
from romp801.report import Ended
from romp801.request import Asked, Front, Queue, Take

PAUSE = 0.2
"""Seconds after a job that failed, before the next is tried."""


class Runner(Protocol):
    """What runs jobs: a ledger, or a cluster's store."""

    front: Front

    def run(self, asked: list[Asked], rounds: int, take: Take) -> None:
        """Runs one job of these, and hands over how each ended; raises Failure where what came of them isn't known."""


class Gatherer(threading.Thread):
    """Runs jobs of what was asked, one after another, until it is told to end."""

    def __init__(self, runner: Runner) -> None:
        super().__init__(daemon=True)
        self.runner = runner
        self.queue = Queue(runner.front)
        self.incoming: collections.deque[Asked] = collections.deque()
        self.wake = threading.Event()
        self.is_ending = False
        self.jobs = 0
        self.failed: Optional[str] = None

    # what is told by who has one

    def told(self, asked: Asked, end: Ended) -> None:
        """A request ended."""
        raise NotImplementedError

    def untold(self, asked: list[Asked], failure: Failure) -> None:
        """The job of these failed."""
        raise NotImplementedError

    def is_due(self) -> bool:
        """Whether there is something to do though nothing waits."""
        return False

    def after(self) -> None:
        """Between two jobs."""

    def over(self) -> None:
        """The thread ends."""

    # its own

    def ask(self, asked: Asked) -> None:
        """One more request, of any thread."""
        self.incoming.append(asked)
        self.wake.set()

    def end(self) -> None:
        """Ends what was asked, and then the thread."""
        self.is_ending = True
        self.wake.set()

    def run(self) -> None:
        """Runs jobs, until it is told to end."""
        try:
            while True:
                self.wake.wait()
                self.wake.clear()
                while self.incoming or self.queue.waiting or self.is_due():
                    self._job()
                if self.is_ending:
                    return
        except BaseException as error:  # (who has it ends with it, whatever it is)
            self.failed = f"a mistake in the server: {type(error).__name__}: {error}"
        finally:
            self.over()

    def _job(self) -> None:
        """Runs one job of what waits."""
        while self.incoming:
            self.queue.put(self.incoming.popleft())
        try:
            if self.queue.waiting:
                self.queue.work(self.runner.run, self.told)
                self.queue.running = []
                self.jobs += 1
            self.after()
        except Failure as failure:
            self.untold(self.queue.running, failure)
            self.queue.running = []
            time.sleep(PAUSE)
