#!/usr/bin/env python3
"""Runs a command, as `rt ci --anew`, and prints what its proofs took: minutes of a processor by kind and by crate (docs/GATE.md).

usage: bench/gate.py COMMAND WORD..
Nothing else of the toolchain may run meanwhile. It looks at /proc three times a second, so a process loses up to a third of a second; the
sum in the last line is exact.
"""
import collections
import os
import re
import resource
import subprocess
import sys
import time

TICKS = os.sysconf("SC_CLK_TCK")


def seen():
    """Each process of the prover that runs now: what it works on, its kind, and its seconds so far."""
    for number in filter(str.isdigit, os.listdir("/proc")):
        try:
            with open(f"/proc/{number}/cmdline", "rb") as it:
                words = it.read().decode("utf-8", "replace").split("\0")
            if os.path.basename(words[0]) != "rattle":
                continue
            with open(f"/proc/{number}/stat") as it:
                fields = it.read().rsplit(") ", 1)[1].split()
            folder = os.readlink(f"/proc/{number}/cwd")
        except (OSError, IndexError):
            continue
        named = re.search(r"--crate-name (\S+)", " ".join(words))
        if "/rt-edit-" in folder:
            what = ("all", "wrong bodies")
        else:
            what = (named[1] if named else "others", "proved tests" if "--test" in words else "proofs")
        yield (number, fields[19]), what, (int(fields[11]) + int(fields[12])) / TICKS


def main():
    if len(sys.argv) < 2 or sys.argv[1] in ("-h", "--help"):
        print(__doc__.strip())
        return 2
    begun = time.time()
    child = subprocess.Popen(sys.argv[1:])
    last = {}
    while child.poll() is None:
        for key, what, seconds in seen():
            last[key] = what, seconds
        time.sleep(0.33)
    sums = collections.Counter()
    for (crate, kind), seconds in last.values():
        sums[crate, kind] += seconds
        sums["", kind] += seconds
    print(f"\n{'crate':20} {'kind':14} minutes")
    for (crate, kind), seconds in sorted(sums.items(), key=lambda it: (it[0][0] != "", -it[1])):
        print(f"{crate or 'in all':20} {kind:14} {seconds / 60:7.1f}")
    used = resource.getrusage(resource.RUSAGE_CHILDREN)
    print(f"{(used.ru_utime + used.ru_stime) / 60:.1f} minutes of processors, {(time.time() - begun) / 60:.0f} minutes in all")
    return child.returncode


if __name__ == "__main__":
    sys.exit(main())
