"""Prints the tables of docs/SPEED.md: `python3 table.py PROGRAM SCRATCH`. SCRATCH has interp-O2, interp-O3, interp-moves, once and jobs/."""
import os
import re
import shutil
import statistics
import subprocess
import sys

import jobs

ROUNDS = 7
ROWS = jobs.TURNS * jobs.MILLION
program, scratch = sys.argv[1:3]
once = os.path.join(scratch, "once")


def path(*parts):
    return os.path.join(scratch, *parts)


def run(words, source):
    """Processor time in milliseconds, peak resident set in KiB and wall time of a command that reads a file."""
    with open(source) as file:
        done = subprocess.run([once, *words], stdin=file, stdout=subprocess.DEVNULL, stderr=subprocess.PIPE, text=True)
    wall, spent, peak, status = map(int, re.search(r"once (\d+) (\d+) (\d+) (-?\d+)", done.stderr).groups())
    if status != 0:
        sys.exit(f"{words} on {source}: status {status}, {done.stderr}")
    return spent / 1000, peak, wall / 1000


def rounds(commands, count=ROUNDS):
    """Lowest and median processor time, the highest peak and the lowest wall time, of commands that take turns."""
    seen = [[] for _ in commands]
    for _ in range(count):
        for command, times in zip(commands, seen):
            times.append(run(*command))
    return [(min(s)[0], statistics.median(t[0] for t in s), max(t[1] for t in s), min(t[2] for t in s)) for s in seen]


def listing(name):
    with open(path("jobs", name + ".job")) as source, open(path(name + ".list"), "w") as file:
        subprocess.run([program, "list"], stdin=source, stdout=file, check=True)
    return path(name + ".list")


def interp(kind, frames, begins, turns, limit, *args):
    return [path("interp-" + kind), *map(str, (frames, begins, turns, limit, *args))]


def counted(words, source, name):
    """Instructions that callgrind counts, in all and by function."""
    out = path(name + ".callgrind")
    with open(source) as file:
        subprocess.run(["valgrind", "--tool=callgrind", f"--callgrind-out-file={out}", *words], stdin=file,
                       stdout=subprocess.DEVNULL, stderr=subprocess.DEVNULL, check=True)
    told = subprocess.run(["callgrind_annotate", "--threshold=100", out], capture_output=True, text=True, check=True).stdout
    by_function = {}
    for count, where in re.findall(r"^\s*([\d,]+) \([^)]*\)\s+(\S.*)$", told, re.M):
        if "PROGRAM TOTALS" not in where:
            where = re.sub(r"^[^:]*:", "", re.sub(r"\s*\[.*\]$", "", where))
            by_function[where] = by_function.get(where, 0) + int(count.replace(",", ""))
    total = int(re.search(r"^\s*([\d,]+) \([^)]*\)\s+PROGRAM TOTALS", told, re.M).group(1).replace(",", ""))
    return total, by_function


def per_row(name):
    """Instructions per row, of the program by function, and of interp and fast: 100,000 rows more against 20,000."""
    found = {}
    frames = jobs.LOOPS[name][0]
    for limit in (20_000, 120_000):
        job = path(f"{name}-{limit}.job")
        with open(job, "w") as file:
            file.write(jobs.loop(name, 1, limit))
        found[limit] = (counted([program, "try"], job, f"{name}-{limit}"),
                        *(counted(interp(kind, frames, 1, 1, limit), path(name + ".list"), f"{name}-{limit}-{kind}") for kind in ("O2", "fast")))
    (few, few_by), *few_c = found[20_000]
    (many, many_by), *many_c = found[120_000]
    by_function = {f: (n - few_by.get(f, 0)) / 100_000 for f, n in many_by.items()}
    return (many - few) / 100_000, [(m[0] - f[0]) / 100_000 for m, f in zip(many_c, few_c)], by_function


def loops():
    print("Times are of the processor, user and system; rates too.\n")
    print("| Loop | romp801, million rows/s: best, median | interp -O2 | interp -O3 | fast -O2 | romp801's time to interp's, to fast's |"
          " ns a row: romp801, interp, fast | instructions a row: romp801, interp, fast |")
    print("|---|---|---|---|---|---|---|---|")
    profiles = {}
    for name, (frames, *_) in jobs.LOOPS.items():
        source = listing(name)
        words = interp("O2", frames, 1, jobs.TURNS, jobs.MILLION)
        ours, o2, o3, fast = rounds([([program, "try"], path("jobs", name + ".job")), (words, source),
                                     ([path("interp-O3"), *words[1:]], source), ([path("interp-fast"), *words[1:]], source)])
        counts = "-"
        if shutil.which("valgrind"):
            total, (other, quick), profiles[name] = per_row(name)
            counts = f"{total:.0f}, {other:.0f}, {quick:.0f}"
        rate = [f"{ROWS / t[0] / 1000:.1f}, {ROWS / t[1] / 1000:.1f}" for t in (ours, o2, o3, fast)]
        each = ", ".join(f"{t[0] * 1e6 / ROWS:.1f}" for t in (ours, o2, fast))
        print(f"| {name} | {' | '.join(rate)} | {ours[0] / o2[0]:.2f}, {ours[0] / fast[0]:.2f} | {each} | {counts} |", flush=True)
    return profiles


def moves():
    """The loop of faults beside an interpreter that moves the bytes of each page as frames do."""
    name = "two-frames"
    words = interp("moves", jobs.LOOPS[name][0], 1, jobs.TURNS, jobs.MILLION)
    ours, other = rounds([([program, "try"], path("jobs", name + ".job")), (words, listing(name))])
    print(f"\n{name} beside the interpreter that moves bytes: {ours[0] * 1e6 / ROWS:.1f}, {other[0] * 1e6 / ROWS:.1f} ns a row,"
          f" {ours[0] / other[0]:.1f}", flush=True)
    with open(path("one-turn.job"), "w") as job:
        job.write(jobs.loop(name, 1))
    _, one, _ = run([program, "try"], path("one-turn.job"))
    print(f"Its peak after one turn of a million rows and after {jobs.TURNS}: {one:,} and {ours[2]:,} KiB", flush=True)


def transactions():
    """A transaction is the difference of many and few, as a row is, so the start of a process isn't in it."""
    print("\n| Transactions, each begun and ended by one turn | number | ms: romp801, interp -O2 | ratio |"
          " µs each beyond the first few: romp801, interp -O2 | ratio |")
    print("|---|---|---|---|---|---|")
    for name, (count, few), what in (("commit-lines", (458, 58), "add and commit, one line"),
                                     ("commit-none", (4990, 990), "commit alone"),
                                     ("give-up", (4990, 990), "add and give up")):
        commands = []
        for number, job in ((count, name), (few, name + "-few")):
            commands.append(([program, "try"], path("jobs", job + ".job")))
            commands.append((interp("O2", 64, number, 1, 100, 1), listing(job)))
        ours, other, our_few, other_few = (times[0] for times in rounds(commands, 3 * ROUNDS))
        each = [1000 * (many - few_ms) / (count - few) for many, few_ms in ((ours, our_few), (other, other_few))]
        print(f"| {what} | {count} | {ours:.1f}, {other:.1f} | {ours / other:.1f} |"
              f" {each[0]:.2f}, {each[1]:.2f} | {each[0] / each[1]:.2f} |", flush=True)


def texts():
    print("\n| Text | bytes | word | ms: best, median | wall, best | MB/s of text | peak, KiB |")
    print("|---|---|---|---|---|---|---|")
    for name, word, what in (("empty", "try", "a job without programs or events (start-up)"),
                             ("text-plain", "try", "39,680 rows"),
                             ("text-labels", "try", "57,600 labelled rows that branch to the next"),
                             ("text-far-labels", "try", "one program, 4,096 labels named from afar"),
                             ("text-empty-labels", "try", "one program, 125,000 labels on one row"),
                             ("images", "list", "64 images of 16,384 bytes"),
                             ("images", "try", "64 images of 16,384 bytes"),
                             ("alu", "try", "50 turns of a million rows"),
                             ("give-up", "try", "4,990 begins and turns")):
        source = path("jobs", name + ".job")
        (best, median, peak, wall), = rounds([([program, word], source)])
        size = os.path.getsize(source)
        rate = f"{size / best / 1000:.0f}" if name.startswith("text") else "-"
        print(f"| {what} | {size:,} | {word} | {best:.1f}, {median:.1f} | {wall:.1f} | {rate} | {peak:,} |", flush=True)


def functions(profiles):
    print("\nInstructions a row by function, where it is one or more:")
    for name, by_function in profiles.items():
        print(f"\n| {name} | |\n|---|---|")
        for function, count in sorted(by_function.items(), key=lambda pair: -pair[1]):
            if count >= 1:
                print(f"| `{function}` | {count:.1f} |")


print("Load at the start: " + " ".join(f"{load:.1f}" for load in os.getloadavg()) + f", {os.cpu_count()} processors\n")
profiles = loops()
moves()
transactions()
texts()
functions(profiles)
