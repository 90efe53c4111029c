"""Holds what tools/compile makes of a program in C against what gcc makes of it: the same source runs on the machine
and, as 32 bits, here; both print bytes, and both have to print the same."""
import os
import pathlib
import resource
import signal
import subprocess
import sys
from typing import Dict, List, NamedTuple, Optional, Sequence, Tuple

HERE = pathlib.Path(__file__).resolve().parent
TOP = HERE.parent.parent
sys.path.insert(0, str(TOP / "python"))

from romp801 import Failure, compiler  # noqa: E402
from romp801.compiler.layout import TooLarge  # noqa: E402

OPTIONS_OF_GCC = (
    *"-m32 -O0 -w -fwrapv -funsigned-char -fno-strict-aliasing -ffreestanding -nostdlib -static".split(),
    *"-fno-stack-protector -Wl,--allow-multiple-definition -fno-pic -no-pie -std=gnu11".split(),
    f"-I{TOP}/python/romp801/compiler/include",
    f"-I{HERE}",
    f"-I{TOP}/python/romp801/compiler/library",
)
HOSTS: Dict[str, Tuple[str, ...]] = {"small": ("gcc",), "big": ("powerpc-linux-gnu-gcc", "qemu-ppc")}
"""gcc for programs of 32 bits that run here, with the lowest byte of a number first; and for such of a machine that has
the highest byte first, as this one has it, with what runs those here."""
LIBRARY = TOP / "python/romp801/compiler/library/string.c"
MORE: Tuple[str, ...] = ()
"""What gcc is told besides."""
OPTIONS: Tuple[str, ...] = (f"-I{HERE}", "-DRECORD=extern")
"""What the compiler is told of the sources."""
CPU = {"small": 2, "big": 6}
"""Seconds of a processor in which a program has to end here."""
SECONDS = 120.0
ROUNDS, ROWS = 20, 1000000
"""Turns that a program is given, and their rows."""


class Outcome(NamedTuple):
    """What came of a program: `agreed`, `refused`, `large`, `long`, `host` (gcc can't) or `differed`, and why; the rows
    that it ran and the bytes that it has."""

    word: str
    why: str = ""
    rows: int = 0
    size: int = 0


def here(
    folder: str, paths: Sequence[str], entry: str, values: Sequence[int], host: str = "small"
) -> Optional[bytes]:
    """What the program prints here; None where it doesn't end in time. It ends with 8 where it gives up."""
    given = ",".join(f"{it}u" for it in values)
    macros = ["-DRECORD=", f"-DHOST_ENTRY={entry}", f"-DHOST_VALUES={given}"]
    sources = [str(HERE / "host.c"), *paths[1:], str(LIBRARY), f'-DHOST_SOURCE="{os.path.abspath(paths[0])}"']
    gcc, *runs = HOSTS[host]
    words = [gcc, *OPTIONS_OF_GCC, *MORE, *macros, "-o", f"{folder}/host", *sources]
    built = subprocess.run(words, capture_output=True, check=False)
    if built.returncode:
        raise ValueError(built.stderr.decode(errors="replace")[:300])
    try:
        # (seconds of a processor, however busy the machine is)
        limit = lambda: resource.setrlimit(resource.RLIMIT_CPU, (CPU[host], CPU[host]))  # noqa: E731
        line = [*runs, f"{folder}/host"]
        done = subprocess.run(line, capture_output=True, timeout=SECONDS, check=False, preexec_fn=limit)
    except subprocess.TimeoutExpired:
        return None
    if done.returncode in (-signal.SIGXCPU, -signal.SIGKILL):
        return None
    return done.stdout if done.returncode == 0 else b"gave up" if done.returncode == 8 else b"signal"


def there(program: str, text: str, entry: str, values: Sequence[int]) -> "tuple[str, bytes, int]":
    """How the program ends on the machine, what it prints and how many rows it runs."""
    given = " ".join(map(str, (*values[:4],)))
    job = f"frames 4\n{text}schedule\nbegin {entry} {given}\ndrain {ROUNDS} {ROWS}\nend\n"
    done = subprocess.run([program, "try"], input=job.encode("latin-1"), capture_output=True, check=False)
    for line in done.stdout.decode().splitlines():
        words = line.split()
        if words[0] == "commit":
            return "commit", b"" if words[7] == "-" else bytes.fromhex(words[7]), int(words[5])
        if words[0] == "check":
            return f"check {words[3]} at {words[5]}", b"", 0
        if words[0] == "left":
            return "left", b"", 0
    return f"status {done.returncode} {done.stderr.decode().strip()}", b"", 0


def compiled(paths: Sequence[str], entry: str) -> "tuple[str, int]":
    """The program's text and its bytes; raises Failure where it is refused."""
    found = compiler.read(paths, OPTIONS)
    done = found.program(entry)
    return "".join(f"{it}\n" for it in done.lines), done.size


def look(
    program: str, folder: str, paths: Sequence[str], entry: str, values: Sequence[int] = (), host: str = "small"
) -> Outcome:
    """Holds one program against gcc's."""
    try:
        text, size = compiled(paths, entry)
    except TooLarge as failure:
        return Outcome("large", str(failure))
    except Failure as failure:
        return Outcome("refused", str(failure))
    except Exception as error:  # (a mistake of the compiler's is one more that differs)
        return Outcome("differed", f"the compiler ended with {type(error).__name__}: {error}")
    try:
        want = here(folder, paths, entry, values, host)
    except ValueError as error:
        return Outcome("host", str(error))
    if want is None:
        return Outcome("long", "", 0, size)
    how, found, rows = there(program, text, entry, values)
    if how == "left":
        return Outcome("long", "", 0, size)
    if how.startswith("check 8") and want == b"gave up":
        return Outcome("agreed", "", rows, size)
    if how != "commit" or found != want:
        pathlib.Path(folder, "differs.job").write_text(text, "latin-1")
        return Outcome("differed", f"{how}: {found.hex()[:80]} and not {want.hex()[:80]}", rows, size)
    return Outcome("agreed", "", rows, size)


def program_of(words: List[str]) -> str:
    """The program that is named, or that of the variable ROMP801."""
    return os.path.abspath(words[0]) if words else os.environ["ROMP801"]
