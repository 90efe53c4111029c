#!/usr/bin/env python3
"""A second judge, which has no code in common with the first, nor with what is judged: `linear.py FILE`.

FILE has what clients did on registers, a line of JSON each: {"key", "kind", "first", "second", "begun", "told",
"result"}. Each register must be linearizable: there is an order of what was done on it, in which no operation stands
before one that had its answer before it was begun, and in which each has the answer that a register gives. `write`
puts `second`; `swap` does so where the register has `first`, and says by 1 or 0 whether it did; `read` tells the
value; a register is 0 at first. Of one with the answer null it isn't known when it was done, or whether a swap did.

The search is that of Wing and Gong, with Lowe's memory of what was tried: from the first operation that may come next,
back where none may.
"""
from __future__ import annotations

import collections
import json
import sys
from typing import Any, DefaultDict, List, Optional, Tuple

sys.dont_write_bytecode = True


class Event:
    """The call of an operation, or its return, in a list by their times."""

    def __init__(self, number: int, operation: Any, back: Optional["Event"]) -> None:
        self.number, self.operation, self.back = number, operation, back
        self.before: Optional[Event] = None
        self.after: Optional[Event] = None

    def out(self) -> None:
        """Takes it out of the list."""
        assert self.before is not None
        self.before.after = self.after
        if self.after is not None:
            self.after.before = self.before

    def into(self) -> None:
        """Puts it back where it was."""
        assert self.before is not None
        self.before.after = self
        if self.after is not None:
            self.after.before = self


def step(value: int, it: Any) -> Tuple[bool, int]:
    """Whether a register of this value gives an operation's answer, and the value behind it."""
    if it["kind"] == "read":
        return it["result"] == value, value
    takes = it["kind"] == "write" or value == it["first"]
    return it["result"] in (None, int(takes)), it["second"] if takes else value


def listed(operations: List[Any]) -> Event:
    """The head of the list of all calls and returns by their times, a call before a return of the same time."""
    moments: List[Tuple[float, int, Event]] = []
    for number, it in enumerate(operations):
        back = Event(number, it, None)
        moments.append((it["begun"], 0, Event(number, it, back)))
        moments.append((float("inf") if it["result"] is None else it["told"], 1, back))
    moments.sort(key=lambda moment: moment[:2])
    last = head = Event(-1, None, None)
    for _, _, event in moments:
        last.after, event.before = event, last
        last = event
    return head


def is_linear(operations: List[Any]) -> bool:
    """Whether there is such an order."""
    head, value, done = listed(operations), 0, 0
    tried = set()
    taken: List[Tuple[Event, int]] = []
    at = head.after
    while head.after is not None:
        assert at is not None
        if at.back is None:
            # (it had its answer by now, and stands in no order so far: back)
            if not taken:
                return False
            at, value = taken.pop()
            done &= ~(1 << at.number)
            assert at.back is not None
            at.back.into()
            at.into()
            at = at.after
            continue
        holds, after = step(value, at.operation)
        if holds and (done | 1 << at.number, after) not in tried:
            done |= 1 << at.number
            tried.add((done, after))
            taken.append((at, value))
            value = after
            at.out()
            at.back.out()
            at = head.after
        else:
            at = at.after
    return True


def main() -> int:
    parts: DefaultDict[str, List[Any]] = collections.defaultdict(list)
    with open(sys.argv[1], encoding="ascii") as file:
        for line in file:
            it = json.loads(line)
            if it["kind"] != "read" or it["result"] is not None:
                parts[it["key"]].append(it)
    wrong = [key for key, operations in sorted(parts.items()) if not is_linear(operations)]
    count = sum(map(len, parts.values()))
    verdict = f"not linearizable: {', '.join(wrong)}" if wrong else "linearizable"
    print(f"{count} operations on {len(parts)} registers: {verdict}")
    return 1 if wrong else 0


if __name__ == "__main__":
    sys.exit(main())
