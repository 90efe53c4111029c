#!/usr/bin/env python3
"""Measures what tools/compile makes: the rows of ten kernels (bench/c/kernels.c), and those of five examples' programs
in C (bench/c/examples.c) beside the assembler that stands in examples/. `bench/compiled.py [PROGRAM]` prints the tables
of docs/SPEED.md; with `--against COMPILER` the rows of what another compiler makes of the kernels stand beside.
"""
import argparse
import pathlib
import re
import subprocess
import sys
from typing import List, Sequence

TOP = pathlib.Path(__file__).resolve().parent.parent
sys.path.insert(0, str(TOP / "python"))

from romp801 import job, program  # noqa: E402

KERNELS = ("sum", "search", "insert", "walk", "sort", "strings", "checksum", "queues", "bank", "lookup")
EXAMPLES = {"accounts": (), "counter": (), "index": ("INDEX",), "inventory": ("INVENTORY",), "queue": ()}


def compiled(compiler: Sequence[str], *words: str) -> str:
    """The programs that a compiler prints."""
    return subprocess.run([*compiler, *words], capture_output=True, check=True).stdout.decode()


def ends(romp801: str, text: str) -> List[List[str]]:
    """The words of the lines that tell how activations ended."""
    done = subprocess.run([romp801, "try"], input=text.encode("latin-1"), capture_output=True, check=True)
    return [line.split() for line in done.stdout.decode().splitlines() if re.match("commit|check|victim|left", line)]


def rows_of(romp801: str, compiler: Sequence[str], name: str) -> "tuple[int, str]":
    """The rows of a kernel, and what it prints."""
    text = compiled(compiler, str(TOP / "bench/c/kernels.c"), name)
    found = ends(romp801, f"frames 8\n{text}schedule\nbegin {name} 5\nturn 1 1000000\nend\n")
    return int(found[0][5]), found[0][7]


def kernels(romp801: str, against: "str | None") -> None:
    """The table of the kernels."""
    print("| Kernel | rows |" + (" before | ratio |" if against else ""))
    print("|---|---|" + ("---|---|" if against else ""))
    for name in KERNELS:
        rows, out = rows_of(romp801, [str(TOP / "tools/compile")], name)
        line = f"| {name} | {rows:,} |"
        if against:
            before, was = rows_of(romp801, [sys.executable, against], name)
            assert out == was, (name, out, was)
            line += f" {before:,} | {rows / before:.2f} |"
        print(line)


def statements(body: Sequence[str]) -> int:
    """The rows that a program has in its text."""
    count = 0
    for line in body:
        tokens = job.tokens_of(line)
        tokens = tokens[2:] if tokens[1:2] == [":"] else tokens
        count += bool(tokens) and not tokens[0].startswith(".")
    return count


def examples(romp801: str) -> None:
    """The table of the examples."""
    ran = "rows that ran, of those that committed: assembler, C | ratio"
    print(f"| Example | {ran} | rows in the text: assembler, C | ratio |")
    print("|---|---|---|---|---|")
    for name, defines in EXAMPLES.items():
        its = job.Job.read((TOP / f"examples/{name}.job").read_text("latin-1"))
        names = [it.name for it in its.programs]
        given = [*names, *(f"--define={it}" for it in defines)]
        text = compiled([str(TOP / "tools/compile")], str(TOP / "bench/c/examples.c"), *given)
        begins = [it for it in its.events if isinstance(it, job.Begin)]
        events = [line for at, it in enumerate(begins, 1) for line in (str(it), f"turn {at} 1000")]
        mine = job.Job.read(f"frames 4\n{text}schedule\nend\n")
        old, new = (ends(romp801, job.joined(front, events)) for front in (its.front, mine.front))
        told = [[it[:1] + it[6:] if it[0] == "commit" else it[:4] for it in one] for one in (old, new)]
        assert told[0] == told[1], (name, old, new)
        ran = [sum(int(it[5]) for it in one if it[0] == "commit") for one in (old, new)]
        had = [sum(statements(it.body) for it in one.programs) for one in (its, mine)]
        print(f"| {name} | {ran[0]}, {ran[1]} | {ran[1] / ran[0]:.2f} | {had[0]}, {had[1]} | {had[1] / had[0]:.2f} |")


def main() -> None:
    parser = argparse.ArgumentParser(description=__doc__)
    parser.add_argument("program", metavar="PROGRAM", nargs="?")
    parser.add_argument("--against", metavar="COMPILER", help="a script that compiles too, in Python")
    options = parser.parse_args()
    romp801 = program.Program.find(options.program).path
    kernels(romp801, options.against)
    print()
    examples(romp801)


if __name__ == "__main__":
    main()
