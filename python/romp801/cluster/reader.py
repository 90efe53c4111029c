"""What is read at a primary: never of before anything that was answered to anybody.

Whatever was asked for by a moment is looked at behind one call of the engine that began later. It says at one moment
whether the node is still the primary, where the history ends, and where the slots are; and the bytes are read when the
primary has all of that history at hand.
"""
from __future__ import annotations

import threading
import time
from typing import Any, Callable, Mapping, Tuple

from romp801.cluster import engine as etcd
from romp801.cluster.engine import EngineFault
from romp801.cluster.history import read_head
from romp801.cluster.keys import CONFIG, Config
from romp801.cluster.term import Term
from romp801.errors import Failure

Look = Callable[[], Mapping[str, Any]]
"""Tells what was asked for, of the term's content."""
Tell = Callable[[Mapping[str, Any]], None]


class Reader(threading.Thread):
    """Answers what was asked for, of a term."""

    def __init__(self, term: Term) -> None:
        super().__init__(daemon=True)
        self.term = term
        self.some = threading.Condition()
        self.asked: list[Tuple[Mapping[str, Any], Look, Tell]] = []

    def ask(self, guard: Mapping[str, Any], look: Look, tell: Tell) -> None:
        """One more, which names these slots."""
        with self.some:
            self.asked.append((guard, look, tell))
            self.some.notify()

    def run(self) -> None:
        """Answers, until the term is over."""
        while True:
            with self.some:
                self.some.wait_for(lambda: self.asked or self.term.why is not None, 0.5)
                asked, self.asked = self.asked, []
            if self.term.why is not None:
                for _, _, tell in asked:
                    tell({"again": self.term.why})
                return
            try:
                if asked:
                    self._answer(asked)
            except EngineFault as fault:
                for _, _, tell in asked:
                    tell({"again": str(fault)})

    def _answer(self, asked: list[Tuple[Mapping[str, Any], Look, Tell]]) -> None:
        """Answers these."""
        term = self.term
        held, (head, item) = term.engine.look(
            [etcd.is_created(term.keys.primary, term.created)], term.keys.head, CONFIG
        )
        if not held or head is None or item is None:
            term.over("another is the primary")
            raise EngineFault("another is the primary")
        number, config = read_head(head.value)[0], Config.of(item)
        while term.content.number < number:
            if term.why is not None:
                raise EngineFault(term.why)
            time.sleep(0.001)
        for guard, look, tell in asked:
            with term.lock:
                if any(guard.values()) and term.settled_config > config.changed:
                    answer: Mapping[str, Any] = {"again": "the slots were changed meanwhile"}
                elif config.has(term.replica.name, guard):
                    try:
                        answer = look()
                    except Failure as failure:
                        answer = {"error": str(failure)}
                else:
                    answer = {"moved": True}
            tell(answer)
