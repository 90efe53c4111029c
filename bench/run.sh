#!/usr/bin/env bash
# run.sh PROGRAM [SCRATCH]: checks interp against the program and prints the tables of docs/SPEED.md.
# Wants gcc and python3, and valgrind for the counts of instructions.
set -eu

here=$(dirname -- "$(readlink -f -- "${BASH_SOURCE[0]}")")
program=$(readlink -f -- "${1:?run.sh PROGRAM [SCRATCH]}")
scratch=${2:-$(mktemp -d)}
mkdir -p "$scratch"
scratch=$(readlink -f -- "$scratch")

cd -- "$here"
export PYTHONDONTWRITEBYTECODE=1
gcc -O2 -Wall -Wextra -o "$scratch/interp-O2" interp.c
gcc -O3 -Wall -Wextra -o "$scratch/interp-O3" interp.c
gcc -O2 -DMOVES -Wall -Wextra -o "$scratch/interp-moves" interp.c
gcc -O2 -Wall -o "$scratch/interp-fast" fast.c
gcc -O2 -static -Wall -Wextra -o "$scratch/once" once.c
python3 jobs.py "$scratch/jobs"
python3 check.py "$program" "$scratch/interp-O2" "$scratch" 2000
python3 check.py "$program" "$scratch/interp-fast" "$scratch" 400
python3 table.py "$program" "$scratch"
