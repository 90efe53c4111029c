"""The program: where it is, and the one way in which it is called (docs/FORMATS.md, "Words" and "Statuses")."""
from __future__ import annotations

import contextlib
import os
import stat
import subprocess
import sys
from typing import NamedTuple, Optional, Protocol, Sequence

from romp801 import files, words
from romp801.errors import WRONG_USE, Failure
from romp801.format import Fault
from romp801.report import Commit, Open, line_of

TOP = os.path.dirname(os.path.dirname(os.path.dirname(os.path.realpath(__file__))))
PROVED = os.path.join(TOP, "crates/romp801/out/romp801")
UNPROVED = os.path.join(TOP, "out/unproved/romp801")
INSTALLED = os.path.join(TOP, "program")
OF_A_STORE = ("run", "show", "ship", "follow")
LOOKS = ("show", "ship")
BUSY = 5
JOB, NOT_KEPT = 3, 12


def _runs(path: str) -> bool:
    """Whether a file has this name that is one to run."""
    found = files.look(path)
    return found is not None and stat.S_ISREG(found.st_mode) and found.st_mode & 0o111 != 0


def _look_at_words(line: Sequence[str]) -> None:
    """Raises Failure where a word is none that the program takes."""
    for word in line:
        try:
            os.fsencode(word).decode("utf-8")
        except UnicodeDecodeError as error:
            raise Failure(
                f"the program takes names in UTF-8 alone, and {os.fsencode(word)!r} isn't", WRONG_USE
            ) from error


class Held(Failure):
    """Another process runs the store."""

    def __init__(self, store: str) -> None:
        super().__init__(f"another process has {store}")


class Starter(Protocol):
    """What starts the program with words on bytes: Program, or Ahead."""

    def start(self, *line: str, given: bytes = b"", keeps: Sequence[int] = ()) -> subprocess.Popen[bytes]:
        """Starts the program."""


class Replay(NamedTuple):
    """The report of a job that was run again, and the number that its store has behind the last line of it, or None."""

    report: bytes
    number: Optional[int]


class Program:
    """The program, by its absolute name."""

    def __init__(self, path: str) -> None:
        self.path = path

    @classmethod
    def find(cls, named: Optional[str] = None) -> Program:
        """The one that is named, else that of the variable ROMP801, else the one that was installed or built beside
        this package, proved or else unproved, else romp801 on PATH. Raises Failure where there is none."""
        named = named or os.environ.get("ROMP801")
        if named:
            if not _runs(named):
                raise Failure(f"there is no program {named}", WRONG_USE)
            return cls(os.path.abspath(named))
        for built in (INSTALLED, PROVED):
            if _runs(built):
                return cls(built)
        if _runs(UNPROVED):
            if sys.stderr is not None and sys.stderr.isatty():
                print(f"{os.path.basename(sys.argv[0])}: the program is unproved", file=sys.stderr)
            return cls(UNPROVED)
        import shutil

        found = shutil.which("romp801")
        if not found:
            raise Failure(
                "the program isn't built: ./romp801 --build proves and builds it, "
                "./romp801 --unproved try builds one without a proof"
            )
        return cls(os.path.abspath(found))

    def start(
        self, *line: str, given: bytes = b"", keeps: Sequence[int] = (), output: int = subprocess.PIPE
    ) -> subprocess.Popen[bytes]:
        """Starts the program with these words on these bytes; its output and errors are pipes, or its output goes into
        an open file. Of a store memory forgets the clean pages first, so that the program opens what the medium holds;
        where another process runs it Held is raised. `keeps` are open files that it has too, among them a store that
        lies in memory alone, which isn't forgotten."""
        _look_at_words(line)
        if line[0] in OF_A_STORE and not keeps and not files.forget_store(line[1]):
            raise Held(line[1])
        with files.in_memory(given) as text:
            return subprocess.Popen(
                [self.path, *line], stdin=text, stdout=output, stderr=subprocess.PIPE, pass_fds=tuple(keeps)
            )

    def begin(self, *line: str, keeps: Sequence[int] = ()) -> subprocess.Popen[bytes]:
        """Starts the program with these words before its input is known. It opens no store before it has all of that,
        and an input without an end is no job; so where whoever would give it ends instead, it does nothing. `keeps`
        are open files that it has too."""
        _look_at_words(line)
        pipe = subprocess.PIPE
        return subprocess.Popen([self.path, *line], stdin=pipe, stdout=pipe, stderr=pipe, pass_fds=tuple(keeps))

    def call(
        self, *line: str, given: bytes = b"", seconds: Optional[float] = 0.0, keeps: Sequence[int] = ()
    ) -> subprocess.CompletedProcess[bytes]:
        """Calls the program with these words on these bytes. Where another process has the store it is waited for,
        `seconds` long. `keeps` are open files that the program has too."""
        wait = files.Wait(seconds)
        while True:
            done = self._once(line, given, keeps)
            if (
                done.returncode != BUSY
                or done.stdout
                or line[0] not in OF_A_STORE
                or not wait.for_store(line[1], line[0] not in LOOKS)
            ):
                return done

    def _once(
        self, line: Sequence[str], given: bytes, keeps: Sequence[int]
    ) -> subprocess.CompletedProcess[bytes]:
        """A call that waits for nobody."""
        try:
            with self.start(*line, given=given, keeps=keeps) as child:
                output, errors = child.communicate()
            return subprocess.CompletedProcess(child.args, child.returncode, output, errors)
        except Held:
            return subprocess.CompletedProcess(line, BUSY, b"", b"disk\n")

    def number(self, store: str, seconds: Optional[float] = 0.0) -> int:
        """The number of a store, told by the program, which syncs the file as it opens it; raises Failure where it
        doesn't open. It is `ship` that is asked, of a number that no store has: the right to read is enough, and the
        lock is shared."""
        done = self.call("ship", store, str(2**64 - 1), seconds=seconds)
        if done.returncode == NOT_KEPT:
            return int(done.stderr.split()[2])
        if done.returncode == 0:
            return int(done.stdout.split()[-1])
        raise Failure(f"{store} doesn't open: {why_not(store, done)}")

    def replay(self, job: bytes, opening: bytes, number: int, least: int = 0, to_next: bool = False) -> Replay:
        """The report that a job has on a copy of a store: a job on a store has one report, whenever it is run. It
        goes up to the commit with this number and to its first `least` bytes at least; with `to_next` up to the
        commit after that, which isn't in it. The copy lies in memory, where it may."""
        report, reached = b"", None
        with files.copy_of(opening) as (store, keeps), self.start("run", store, given=job, keeps=keeps) as child:
            assert child.stdout is not None
            for text in child.stdout:
                if not text.endswith(b"\n"):
                    break  # (a piece, of a program that was killed)
                line = line_of(text[:-1].decode())
                if to_next and isinstance(line, Commit) and reached == number:
                    break
                if isinstance(line, Commit) or isinstance(line, Open) and reached is None:
                    reached = line.number
                report += text
                if not to_next and reached == number and len(report) >= least:
                    break
            child.kill()
        return Replay(report, reached)


class Ahead:
    """The program for one job after another on a store: each is begun while the one before runs. Memory forgets the
    store's clean pages in front of the first one, and of each one behind a job that failed or behind which somebody else
    wrote the store: behind one that went well there is nothing that wasn't synced."""

    def __init__(self, romp801: Program, *line: str) -> None:
        self.program, self.line = romp801, line
        self.waiting: Optional[subprocess.Popen[bytes]] = None
        self.left: Optional[files.Mark] = None

    def done(self, went_well: bool) -> None:
        """A job is over: where it went well the store is as it left it."""
        self.left = files.mark_of(self.line[1]) if went_well else None

    def start(self, *line: str, given: bytes = b"", keeps: Sequence[int] = ()) -> subprocess.Popen[bytes]:
        """Gives these bytes to the program with its words, and begins the next one."""
        assert line == self.line and not keeps
        child, self.waiting = self.waiting, None
        if child is None or child.poll() is not None:
            self._leave(child)
            child = self.program.begin(*self.line)
        left, self.left = self.left, None
        if (left is None or left != files.mark_of(self.line[1])) and not files.forget_store(self.line[1]):
            self.waiting = child
            raise Held(self.line[1])
        assert child.stdin is not None
        with contextlib.suppress(BrokenPipeError):  # (it was killed, and its status tells)
            child.stdin.write(given)
        with contextlib.suppress(BrokenPipeError):
            child.stdin.close()
        child.stdin = None
        with contextlib.suppress(OSError):
            self.waiting = self.program.begin(*self.line)
        return child

    def end(self) -> None:
        """Ends the one that waits."""
        child, self.waiting = self.waiting, None
        if child is not None:
            child.kill()
        self._leave(child)

    @staticmethod
    def _leave(child: Optional[subprocess.Popen[bytes]]) -> None:
        """Takes what is left of one that has ended, or ends."""
        if child is not None:
            for pipe in (child.stdin, child.stdout, child.stderr):
                if pipe is not None:
                    pipe.close()
            child.wait()


def refused(
    done: subprocess.CompletedProcess[bytes], what: str, store: Optional[str] = None
) -> subprocess.CompletedProcess[bytes]:
    """Raises Failure where the program didn't end with Done, with its status in words."""
    if done.returncode:
        raise Failure(f"{what}: {ended(done.returncode, done.stderr, store)}")
    return done


def ended(status: int, errors: bytes, store: Optional[str] = None) -> str:
    """How the program ended, in words."""
    said = errors.decode(errors="replace").strip()
    why = words.status(status)
    if status == BUSY and store is not None and files.is_held(store):
        why = "another process has it"
    return f"the program ended with {status}{', ' + said if said else ''} ({why})"


def why_not(store: str, done: subprocess.CompletedProcess[bytes]) -> str:
    """Why a store doesn't open, as far as it can be seen: the one cause."""
    if done.returncode not in (2, BUSY):
        return ended(done.returncode, done.stderr)
    if not files.is_there(store):
        return "there is no such file"
    if not files.is_file(store):
        return "it is no regular file"
    if done.returncode == BUSY and files.is_held(store, alone=False):
        return "another process has it"
    try:
        files.read_store(store)
    except Fault as fault:
        return f"it is no store, or a damaged one, at byte {fault.offset}: {fault.why}"
    except Failure as failure:
        return str(failure)
    return ended(done.returncode, done.stderr)


def refused_job(done: subprocess.CompletedProcess[bytes]) -> Optional[tuple[int, int]]:
    """The line and the kind of a refused job, or None where the program ended otherwise."""
    if done.returncode != JOB:
        return None
    line, kind = done.stderr.split()[1:3]
    return int(line), int(kind)


def bundle(job: bytes, report: bytes, opening: bytes, closing: bytes) -> bytes:
    """A bundle for the words audit and trace, of the bytes of its parts (docs/FORMATS.md, "Bundle")."""
    lengths = " ".join(str(len(part)) for part in (job, report, opening, closing))
    return f"audit {lengths}\n".encode() + job + report + opening + closing
