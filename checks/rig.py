"""What the checks in Python share: jobs, stores as the program shows them, and what is found wrong.

The tools are treated as programs here: nothing is taken from their code.
"""
import contextlib
import os
import pathlib
import shutil
import signal
import subprocess
import sys
from dataclasses import dataclass, field
from typing import Dict, List, NamedTuple, Optional, Sequence

TOP = pathlib.Path(__file__).resolve().parent.parent
FRONT = ("frames 2\nprogram add5\n.window 1, 1, rw\ncau r6, r0, 0x1000\nl r3, 0(r6)\nai r3, r3, 5\nst r3, 0(r6)\n"
         "svc 0\nend\n")
NO_NUMBER = str(2**64 - 1)       # a store's number that none has


@dataclass
class Done:
    """How a program ended: its status, below 0 where a signal ended it, and what it put."""
    status: int
    out: str
    err: str

    def told(self) -> str:
        """In one line, for a report."""
        return f"{self.status} {(self.out + self.err).strip()[-300:]!r}"


@dataclass
class Found:
    """What was looked at, and what was wrong."""
    looks: int = 0
    wrong: List[str] = field(default_factory=list)

    def expect(self, holds: bool, what: str) -> bool:
        """Notes whether something holds; what doesn't is printed at once."""
        self.looks += 1
        if not holds:
            self.wrong.append(what)
            print(f"checks: {what}", flush=True)
        return holds


def end_in_order() -> None:
    """A signal to end ends the script as an error does, so that what is mounted and made is taken away."""
    for number in (signal.SIGTERM, signal.SIGHUP):
        signal.signal(number, lambda what, _: sys.exit(128 + what))


class Process(NamedTuple):
    """A process that hasn't ended: its number, its parent's and its name."""
    number: int
    parent: int
    name: str


def of_session(session: int) -> List[Process]:
    """The processes of a session that haven't ended."""
    found = []
    for number in filter(str.isdigit, os.listdir("/proc")):
        with contextlib.suppress(OSError):
            with open(f"/proc/{number}/stat", encoding="utf-8", errors="replace") as stat:
                front, _, rest = stat.read().rpartition(")")
            state, parent, _, its = rest.split()[:4]
            if int(its) == session and state not in "ZX":
                found.append(Process(int(number), int(parent), front.partition("(")[2]))
    return found


HANGS = -1000                    # the status of what didn't end in time


def call(words: Sequence[str], given: bytes = b"", folder: Optional[str] = None, seconds: float = 600,
         environment: Optional[Dict[str, str]] = None) -> Done:
    """Runs a program to its end, on these bytes; one that doesn't end in time is ended, with all that it began."""
    with subprocess.Popen(words, stdin=subprocess.PIPE, stdout=subprocess.PIPE, stderr=subprocess.PIPE, cwd=folder,
                          env={**os.environ, **(environment or {})}, start_new_session=True) as child:
        try:
            out, err = child.communicate(given, timeout=seconds)
            status = child.returncode
        except subprocess.TimeoutExpired:
            os.killpg(child.pid, signal.SIGKILL)
            out, err = child.communicate()
            status = HANGS
    return Done(status, out.decode(errors="replace"), err.decode(errors="replace"))


def job(*events: str) -> bytes:
    """A job with the program add5, which adds 5 to the first word of segment 1."""
    return (FRONT + "schedule\n" + "".join(f"{event}\n" for event in events) + "end\n").encode()


def adds(count: int) -> bytes:
    """A job of so many commits, one after another."""
    return job(*(event for it in range(1, count + 1) for event in ("begin add5", f"turn {it} 9")))


def number_of(program: str, store: str) -> Optional[int]:
    """A store's number, as the program tells it; None where it doesn't open. It needs the right to read alone."""
    done = call([program, "ship", store, NO_NUMBER])
    return int(done.err.split()[2]) if done.status == 12 else None


def sum_of(program: str, store: str) -> Optional[int]:
    """The first word of a store's segment 1, to which each commit has added 5."""
    done = call([program, "show", store, "1", "0", "4"])
    return int(done.out.split()[1], 16) if done.status == 0 else None


def whole(program: str, store: str) -> Optional[int]:
    """The number of a store whose sum is that of so many commits; None of any other file."""
    number = number_of(program, store)
    return number if number is not None and sum_of(program, store) == 5 * number else None


def launcher_of(program: str, folder: str) -> str:
    """The launcher as an installation of this program has it, below a folder."""
    os.makedirs(f"{folder}/docs")
    shutil.copy(TOP / "romp801", f"{folder}/romp801")
    shutil.copy(TOP / "docs/FORMATS.md", f"{folder}/docs/FORMATS.md")
    os.symlink(program, f"{folder}/program")
    return f"{folder}/romp801"


def children_of(parent: int) -> List[int]:
    """The processes that a process began, and that are there."""
    found = []
    for it in os.listdir("/proc"):
        if it.isdigit():
            try:
                with open(f"/proc/{it}/stat", encoding="latin-1") as file:
                    words = file.read().rsplit(")", 1)[1].split()
            except (OSError, IndexError):
                continue
            if int(words[1]) == parent:
                found.append(int(it))
    return found
