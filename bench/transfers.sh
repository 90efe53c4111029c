#!/usr/bin/env bash
# transfers.sh PROGRAM [SCRATCH]: transfers between 256 accounts, each a commit of its own on a file: romp801 beside SQLite and LMDB, in
# turns in one run. Prints the lines of docs/SPEED.md, "Transfers". Wants gcc, libsqlite3-dev and liblmdb-dev. SCRATCH is a folder on the
# disk to measure.
set -eu

here=$(dirname -- "$(readlink -f -- "${BASH_SOURCE[0]}")")
program=$(readlink -f -- "${1:?transfers.sh PROGRAM [SCRATCH]}")
made=
if [ $# -lt 2 ]; then made=$(mktemp -d) && trap 'rm -rf -- "$made"' EXIT; fi
scratch=${2:-$made}
mkdir -p "$scratch"
rounds=7
count=512

gcc -O2 -Wall -Wextra -o "$scratch/transfers" "$here/transfers.c" -lsqlite3 -llmdb
gcc -O2 -static -Wall -Wextra -o "$scratch/once" "$here/once.c"

# job EVENTS: the programs of `big TRANSFERS`, the accounts funded, and these events
job() {
    cat <<'JOB'
frames 3
program fund
.window 1, 1, rw
cau r6, r0, 0x1000
loop: st r2, 0(r6)
ai r6, r6, 32
sis r3, 1
jnb eq, loop
svc 0
end
program move
.window 1, 1, rw
cau r6, r0, 0x1000
cas r7, r6, r2
cas r8, r6, r3
l r9, 0(r7)
s r9, r4
jb lt, no
st r9, 0(r7)
l r9, 0(r8)
a r9, r4
st r9, 0(r8)
svc 0
no: svc 2
end
schedule
begin fund 1000 256
turn 1 1000000
JOB
    "$@"
    echo end
}

none() { :; }

# transfer k of the job of `big TRANSFERS`, each begun and ended by one turn
transfers() {
    awk -v count="$count" 'BEGIN {
        for (k = 0; k < count; k++) {
            j = int(k / 2); a = (29 * j) % 256; c = (a + 100 + j) % 256
            if (k % 2) { from = c; to = a } else { from = a; to = c }
            printf "begin move %d %d %d\nturn %d 50\n", 32 * from, 32 * to, 1 + k % 9, k + 2
        }
    }'
}

job transfers >"$scratch/transfers.job"
job none >"$scratch/none.job"

# the wall time of a run of a job on a fresh store, in microseconds
run() {
    rm -f "$scratch/store"
    "$program" new "$scratch/store" 65536 1 4 2 2 >"$scratch/printed"
    "$scratch/once" "$program" run "$scratch/store" <"$1" 2>&1 >/dev/null | awk '/^once/ && $5 == 0 { print $2 }'
}

least() { sort -n | head -n 1; }

: >"$scratch/ours"
: >"$scratch/sqlite"
: >"$scratch/lmdb"
for ((round = 0; round < rounds; round++)); do
    all=$(run "$scratch/transfers.job")
    rest=$(run "$scratch/none.job")
    awk -v all="$all" -v rest="$rest" -v count="$count" 'BEGIN { printf "%.1f\n", (all - rest) / count }' >>"$scratch/ours"
    rm -f "$scratch"/db*
    "$scratch/transfers" sqlite "$scratch/db" "$count" >>"$scratch/sqlite"
    rm -f "$scratch"/db*
    "$scratch/transfers" lmdb "$scratch/db" "$count" >>"$scratch/lmdb"
done
awk -v ours="$(least <"$scratch/ours")" -v sqlite="$(least <"$scratch/sqlite")" -v lmdb="$(least <"$scratch/lmdb")" 'BEGIN {
    printf "| romp801, `run STORE` | %.0f | %.0f | |\n", ours, 1e6 / ours
    printf "| SQLite, WAL, synchronous=FULL | %.0f | %.0f | %.2f |\n", sqlite, 1e6 / sqlite, sqlite / ours
    printf "| LMDB | %.0f | %.0f | %.2f |\n", lmdb, 1e6 / lmdb, lmdb / ours
}'
