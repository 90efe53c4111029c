#!/usr/bin/env bash
# growth.sh PROGRAM [SCRATCH]: what a turn, a commit, a checkpoint and an opening cost as the store grows, and as more programs are
# active, and the peak of memory. Prints the tables of docs/SPEED.md, "Growth". Wants gcc. SCRATCH is a folder for the stores; a file system in memory, where a
# sync does nothing, shows what the program does itself.
set -eu

here=$(dirname -- "$(readlink -f -- "${BASH_SOURCE[0]}")")
program=$(readlink -f -- "${1:?growth.sh PROGRAM [SCRATCH]}")
made=
if [ $# -lt 2 ]; then made=$(mktemp -d -p /dev/shm) && trap 'rm -rf -- "$made"' EXIT; fi
scratch=${2:-$made}
mkdir -p "$scratch"
rounds=9
commits=400
checkpoints=200
rows=1000000

gcc -O2 -static -Wall -Wextra -o "$scratch/once" "$here/once.c"

# job OTHERS EVENTS..: the programs, so many others that each write into a page of their own, and the events that a function prints, whose first
# activation is the number after them
job() {
    local others=$1
    shift
    cat <<'JOB'
frames 32
program add
.window 1, 1, rw
cau r6, r0, 0x1000
l r3, 0(r6)
ai r3, r3, 1
st r3, 0(r6)
svc 0
end
program hold
.window 1, 1, rw
cau r6, r0, 0x1000
a r6, r2
st r6, 0(r6)
jump: l r3, 0(r6)
jb eq, jump
svc 0
end
program loop
.window 1, 1, rw
cau r6, r0, 0x1000
again: st r6, 0(r6)
l r3, 0(r6)
ai r3, r3, 1
jnb eq, again
svc 0
end
schedule
JOB
    for ((other = 1; other <= others; other++)); do printf 'begin hold %d\nturn %d 4\n' "$((other * 2048))" "$other"; done
    "$@" "$((others + 1))"
    echo end
}

nothing() { :; }
commit_often() { for ((k = 0; k < commits; k++)); do printf 'begin add\nturn %d 9\n' "$(($1 + k))"; done; }
store_often() { for ((k = 0; k < checkpoints; k++)); do printf 'begin add\nturn %d 9\ncheckpoint\n' "$(($1 + k))"; done; }
commit_as_often() { for ((k = 0; k < checkpoints; k++)); do printf 'begin add\nturn %d 9\n' "$(($1 + k))"; done; }
turn_long() { printf 'begin loop\nturn %d %d\n' "$1" "$rows"; }

# the least processor time of so many runs of a job on a fresh store, in microseconds
spent() {
    local text=$1 round
    for ((round = 0; round < rounds; round++)); do
        rm -f "$scratch/store"
        "$program" new "$scratch/store" 131072 $segments >/dev/null
        "$scratch/once" "$program" run "$scratch/store" <"$text" 2>&1 >/dev/null | awk '/^once/ && $5 == 0 { print $3 }'
    done | sort -n | head -n 1
}

# the peak of resident memory of a run of a job on a fresh store, in KiB
peak() {
    rm -f "$scratch/store"
    "$program" new "$scratch/store" 131072 $segments >/dev/null
    "$scratch/once" "$program" run "$scratch/store" <"$1" 2>&1 >/dev/null | awk '/^once/ && $5 == 0 { print $4 }'
}

# line LABEL OTHERS: the costs, as a row of a table
line() {
    job "$2" nothing >"$scratch/none.job"
    job "$2" commit_often >"$scratch/commits.job"
    job "$2" commit_as_often >"$scratch/fewer.job"
    job "$2" store_often >"$scratch/stores.job"
    job "$2" turn_long >"$scratch/turn.job"
    local none all fewer stores turn
    none=$(spent "$scratch/none.job")
    all=$(spent "$scratch/commits.job")
    fewer=$(spent "$scratch/fewer.job")
    stores=$(spent "$scratch/stores.job")
    turn=$(spent "$scratch/turn.job")
    awk -v label="$1" -v none="$none" -v all="$all" -v fewer="$fewer" -v stores="$stores" -v turn="$turn" -v commits="$commits" -v checkpoints="$checkpoints" -v rows="$rows" 'BEGIN {
        printf "| %s | %.2f | %.1f | %.1f | %.1f |\n", label, none / 1000, (all - none) / commits, (stores - fewer) / checkpoints, (turn - none) * 1000 / rows
    }'
}

echo '| Pages of the store | opening, ms | a commit, µs | a checkpoint, µs | a row, ns |'
echo '|---|---|---|---|---|'
segments='1 4' && line 4 0
segments='1 32' && line 32 0
segments='1 128 2 128' && line 256 0
segments='1 128 2 128 3 128 4 128 5 128 6 128 7 128 8 128' && line 1024 0
echo
echo '| Active programs | opening and begins, ms | a commit, µs | a checkpoint, µs | a row, ns |'
echo '|---|---|---|---|---|'
segments='1 32' && for others in 0 3 7 15; do line $((others + 1)) "$others"; done
echo
echo '| Pages of the store | KiB of them | peak, KiB: opened | after 400 commits | after a turn of a million rows |'
echo '|---|---|---|---|---|'
for pages in 4 32 256 1024; do
    segments="1 $((pages < 128 ? pages : 128))"
    for ((segment = 2; segment <= pages / 128; segment++)); do segments="$segments $segment 128"; done
    job 0 nothing >"$scratch/none.job"
    job 0 commit_often >"$scratch/commits.job"
    job 0 turn_long >"$scratch/turn.job"
    echo "| $pages | $((pages * 2)) | $(peak "$scratch/none.job") | $(peak "$scratch/commits.job") | $(peak "$scratch/turn.job") |"
done
