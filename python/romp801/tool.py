"""How a script begins and ends: its words, its streams and its status, which is never that of an answer where it
failed. What few calls need is brought in where they do, so that a script begins soon.
"""
from __future__ import annotations

import argparse
import contextlib
import os
import sys
from typing import Any, Callable, NoReturn, Optional

from romp801 import files
from romp801.errors import FAILED, Failure, WRONG_USE, named

Parser = argparse.ArgumentParser
Options = argparse.Namespace
WIDTH = 80
DESCRIBE = "--describe"
INSTALLED = "romp801-"
"""What the name of a script begins with where it is called as it was installed."""
INTERRUPTED, NO_READER = 130, 141


def name() -> str:
    """The script's name."""
    return os.path.basename(sys.argv[0])


def say(message: str) -> None:
    """A line on standard error, if somebody reads it."""
    with contextlib.suppress(OSError, AttributeError):
        print(f"{name()}: {message}", file=sys.stderr, flush=True)


def _open_streams() -> None:
    """Sees that no file that is opened later takes the place of a standard stream that is closed, and that each
    letter can be put."""
    for number in range(3):
        try:
            os.fstat(number)
        except OSError:
            os.open(os.devnull, os.O_RDONLY if number < 2 else os.O_WRONLY)
    if sys.stdout is None:
        sys.stdout = open(1, "w", encoding="utf-8", closefd=False)
    if sys.stderr is None:
        sys.stderr = open(2, "w", encoding="utf-8", closefd=False)
    for stream in (sys.stdout, sys.stderr):
        stream.reconfigure(errors="backslashreplace")  # type: ignore[attr-defined]


def _status_of(main: Callable[[], int]) -> int:
    """What the main function answers, or the status of what ended it."""
    try:
        status = main()
        sys.stdout.flush()
        return status
    except Failure as failure:
        say(str(failure))
        return failure.status
    except BrokenPipeError:
        return NO_READER
    except OSError as error:
        say(str(named(error)))
    except KeyboardInterrupt:
        return INTERRUPTED
    except MemoryError:
        say("there was no memory")
    except Exception as error:
        import traceback

        place = traceback.extract_tb(error.__traceback__)[-1]
        say(f"a mistake in the script: {type(error).__name__}: {error} (line {place.lineno} of {place.filename})")
    return FAILED


def start(main: Callable[[], int]) -> NoReturn:
    """Calls a script's main function, and ends with what it answers. Where it is interrupted (130), or who reads its
    output has gone (141), it ends as such programs do; what nobody took ends it with 3, with words. Nothing that
    can't be put changes the status at the end.
    """
    _open_streams()
    status = _status_of(main)
    for stream in (sys.stdout, sys.stderr):
        with contextlib.suppress(OSError, ValueError):
            stream.flush()
    os._exit(status)


class _Form(argparse.RawDescriptionHelpFormatter):
    """Help within WIDTH columns."""

    def __init__(self, prog: str) -> None:
        super().__init__(prog, width=WIDTH, max_help_position=20)

    def _fill_text(self, text: str, width: int, indent: str) -> str:
        return _folded(text)


class _Words(argparse.ArgumentParser):
    """Words of the command line; where they are mistaken the script says so and ends as any other."""

    def error(self, message: str) -> NoReturn:
        """The form, and what is mistaken."""
        self.print_usage(sys.stderr)
        raise Failure(message, WRONG_USE)

    def exit(self, status: int = 0, message: Optional[str] = None) -> NoReturn:
        """The end of --help."""
        raise _Over(status)


class _Over(Exception):
    """The words asked for nothing more."""


def _folded(text: str) -> str:
    """A text within WIDTH columns: its paragraphs filled, and lines that are set in as they are."""
    import textwrap

    parts = (it if it.startswith(" ") else textwrap.fill(it, WIDTH) for it in text.strip().split("\n\n"))
    return "\n\n".join(parts)


def _named(line: list[str]) -> list[str]:
    """The words without `--`, behind which a word that begins with `-` is a file of this folder, and not an option."""
    if "--" not in line:
        return line
    at = line.index("--")
    return line[:at] + [f"./{it}" if it.startswith("-") else it for it in line[at + 1 :]]


def _described(parser: Parser, about: str, statuses: str) -> dict[str, Any]:
    """What the words of a script are, for its page and its completion: they are made of this."""
    words = [
        {
            "names": it.option_strings,
            "value": None if it.nargs == 0 else it.metavar,
            "help": (it.help or "") % {"prog": parser.prog},
            "may lack": not it.required,
            "many": it.nargs in ("*", "+"),
        }
        for it in parser._actions
    ]
    return {"name": name(), "about": about.strip().split("\n\n"), "words": words, "statuses": statuses}


def arguments(
    description: Optional[str], statuses: str, add: Callable[[argparse.ArgumentParser], object]
) -> argparse.Namespace:
    """The words of the command line. `add` takes the parser and adds what the script wants; `statuses` says what it
    ends with. With --describe alone it prints as JSON what its words are."""
    folder = os.path.basename(os.path.dirname(os.path.realpath(sys.argv[0])))
    parser = _Words(
        prog=name() if name().startswith(INSTALLED) else f"{folder}/{name()}",
        description=description or "",
        formatter_class=_Form,
        allow_abbrev=False,
        epilog=f"Exit status: {statuses}",
    )
    add(parser)
    if sys.argv[1:] == [DESCRIBE]:
        put_json(_described(parser, description or "", statuses))
        os._exit(0)
    try:
        # (an option may stand among the other words)
        return parser.parse_intermixed_args(_named(sys.argv[1:]))
    except _Over:
        sys.stdout.flush()
        os._exit(0)


def add_program(parser: argparse.ArgumentParser) -> None:
    """The option --program."""
    parser.add_argument(
        "--program",
        metavar="FILE",
        help="the program to call; else that of the variable ROMP801, else the one that was "
        "installed or built beside this, proved or else unproved, else romp801 on PATH",
    )


def seconds(text: str) -> float:
    """A number of seconds."""
    found = float(text)
    if not 0 <= found < float("inf"):
        raise ValueError(text)
    return found


def add_wait(parser: argparse.ArgumentParser, default: Optional[float] = 0.0) -> None:
    """The option --wait."""
    usual = "for ever" if default is None else f"{default:g}"
    parser.add_argument(
        "--wait",
        metavar="SECONDS",
        type=seconds,
        default=default,
        help=f"wait so long for a store that another process has, such as 0.5; usually {usual}",
    )


def add_json(parser: argparse.ArgumentParser) -> None:
    """The option --json."""
    parser.add_argument("--json", action="store_true", help="print it as JSON, an object a line")


def put_json(found: object) -> None:
    """An object as JSON, in a line."""
    import json

    print(json.dumps(found), flush=True)


def source(path: str) -> bytes:
    """The bytes of a file that is no store; standard input where its name is -."""
    return standard_input() if path == "-" else files.read_bytes(path)


def standard_input() -> bytes:
    """All of standard input."""
    try:
        with open(0, "rb", closefd=False) as stream:
            return stream.read()
    except OSError as error:
        raise named(error, "standard input") from error
