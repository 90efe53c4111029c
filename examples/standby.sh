#!/bin/sh
# A standby: a second store follows a first one through texts, and takes over when the first is lost.
# `examples/standby.sh [PROGRAM]`; without a word it is the one that was built here. It prints examples/standby.out.
set -eu

here=$(cd "$(dirname "$0")" && pwd)
. "$here/program.sh"
folder=$(mktemp -d)
trap 'rm -rf "$folder"' EXIT
cd "$folder"

say() { printf -- '-- %s\n' "$*"; }

# job EVENT..: a job that counts up, with these events
job() {
    printf 'frames 2\nprogram count\n.window 1, 1, rw\ncau r6, r0, 0x1000\nl r2, 0(r6)\ninc r2, 1\nst r2, 0(r6)\nsvc 0\nend\nschedule\n'
    printf '%s\n' "$@" end
}

# commits STORE: three commits on it
commits() { job 'begin count' 'turn 1 9' 'begin count' 'turn 2 9' 'begin count' 'turn 3 9' | "$program" run "$1" | tail -n 1; }

say 'two stores that are alike'
"$program" new first 4096 1 1
cp first second

say 'the first commits; its records behind number 0 go to the second, which commits them too'
commits first
"$program" ship first 0 | "$program" follow second

say 'it commits again; the second has number 3, so that is where the next text begins'
commits first
"$program" ship first 3 >text
"$program" follow second <text

say 'the same text once more: nothing is left to do'
"$program" follow second <text

say 'a checkpoint drops the records that were not shipped; then the whole file is copied'
commits first
job checkpoint | "$program" run first | tail -n 1
"$program" ship first 6 2>&1 || echo "status $?"
cp first copy && sync copy && mv copy second

say 'the first is lost, and the second takes over'
rm first
commits second
"$program" show second 1 0 4
