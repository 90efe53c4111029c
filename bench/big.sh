#!/usr/bin/env bash
# big.sh PROGRAM [SCRATCH]: the load of `big 512` beside the same job through `run` on a store in a file, and through `try`, in turns in
# one run; the audit of that run, with the trace of its first activation; and how often the job waits and is rolled back on pages of
# either size, and on fine ones. Prints the lines of docs/SPEED.md, "A load with waits and victims". Wants gcc. SCRATCH is a folder on
# the disk to measure.
set -eu

here=$(dirname -- "$(readlink -f -- "${BASH_SOURCE[0]}")")
program=$(readlink -f -- "${1:?big.sh PROGRAM [SCRATCH]}")
made=
if [ $# -lt 2 ]; then made=$(mktemp -d) && trap 'rm -rf -- "$made"' EXIT; fi
scratch=${2:-$made}
mkdir -p "$scratch"
rounds=7
count=512

gcc -O2 -static -Wall -Wextra -o "$scratch/once" "$here/once.c"

# the job of `big TRANSFERS` as a text (docs/FORMATS.md, "The big job")
job() {
    cat <<'JOB'
frames 3
program fund
.window 1, 1, rw
cau r6, r0, 0x1000
loop: st r2, 0(r6)
ai r6, r6, 32
sis r3, 1
jnb eq, loop
svc 0
end
program move
.window 1, 1, rw
cau r6, r0, 0x1000
cas r7, r6, r2
cas r8, r6, r3
l r9, 0(r7)
s r9, r4
jb lt, no
st r9, 0(r7)
l r9, 0(r8)
a r9, r4
st r9, 0(r8)
svc 0
no: svc 2
end
program tally
.window 1, 1, r
cau r6, r0, 0x1000
loop: l r7, 0(r6)
a r4, r7
ai r6, r6, 32
sis r3, 1
jnb eq, loop
cas r2, r4, r0
sri16 r2, 8
svc 1
cas r2, r4, r0
sri16 r2, 0
svc 1
cas r2, r4, r0
sri r2, 8
svc 1
cas r2, r4, r0
svc 1
svc 0
end
schedule
begin fund 1000 256
turn 1 1000000
JOB
    awk -v count="$count" 'BEGIN {
        for (first = 0; first < count; first += 16) {
            last = first + 16 < count ? first + 16 : count
            for (k = first; k < last; k++) {
                j = int(k / 2); a = (29 * j) % 256; c = (a + 100 + j) % 256
                if (k % 2) { from = c; to = a } else { from = a; to = c }
                printf "begin move %d %d %d\n", 32 * from, 32 * to, 1 + k % 9
            }
            for (k = first; k < last; k++) printf "turn %d 7\n", k + 2
            for (round = first; round < last; round++) for (k = first; k < last; k++) printf "turn %d 50\n", k + 2
        }
        printf "begin tally 0 256\nturn %d 1000000\nend\n", count + 2
    }'
}

# the wall and processor time of a command in microseconds, without what it prints
times() { "$scratch/once" "$@" 2>&1 >/dev/null | awk '/^once/ && $5 == 0 { print $2, $3 }'; }

least() { sort -n | head -n 1; }

job >"$scratch/big.job"
: >"$scratch/big"
: >"$scratch/try"
: >"$scratch/run"
: >"$scratch/audit"
: >"$scratch/trace"
for ((round = 0; round < rounds; round++)); do
    times "$program" big "$count" >>"$scratch/big"
    times "$program" try <"$scratch/big.job" >>"$scratch/try"
    rm -f "$scratch/store"
    "$program" new "$scratch/store" 65536 1 4 2 2 >"$scratch/printed"
    cp "$scratch/store" "$scratch/opening"
    times "$program" run "$scratch/store" <"$scratch/big.job" >>"$scratch/run"
done
"$program" try <"$scratch/big.job" >"$scratch/report"
"$here/../examples/bundle.sh" "$scratch/big.job" "$scratch/report" "$scratch/opening" "$scratch/store" >"$scratch/bundle"
for ((round = 0; round < rounds; round++)); do
    times "$program" audit <"$scratch/bundle" >>"$scratch/audit"
    times "$program" trace 1 <"$scratch/bundle" >>"$scratch/trace"
done
for kind in big try run audit trace; do
    awk -v kind="$kind" -v wall="$(cut -d' ' -f1 "$scratch/$kind" | least)" -v spent="$(cut -d' ' -f2 "$scratch/$kind" | least)" 'BEGIN {
        name["big"] = "`big 512`"; name["try"] = "its job through `try`"; name["run"] = "its job through `run` on a file"
        name["audit"] = "the audit of its bundle"; name["trace"] = "the trace of its first activation, of 1,026 rows"
        printf "| %s | %.1f | %.1f |\n", name[kind], wall / 1000, spent / 1000
    }'
done
# counts NAME WORD..: what came of the job on a new store that these words make
counts() {
    local name=$1
    shift
    rm -f "$scratch/store"
    "$program" "$1" "$scratch/store" "${@:2}" >"$scratch/printed"
    cp "$scratch/store" "$scratch/opening"
    "$program" run "$scratch/store" <"$scratch/big.job" >"$scratch/report"
    "$here/../examples/bundle.sh" "$scratch/big.job" "$scratch/report" "$scratch/opening" "$scratch/store" >"$scratch/bundle"
    "$program" audit <"$scratch/bundle" | grep -q '^audit yes' || return 1
    awk -v name="$name" '
        $1 == "turn" { pages += $6; locks += $8 }
        { lines[$1]++ }
        END { printf "| %s | %d | %d | %d | %d | %d |\n", name, lines["wait"], lines["victim"] + lines["check"], lines["commit"], pages, locks }
    ' "$scratch/report"
}
echo
counts 'pages of 2,048 bytes' new 65536 1 4 2 2
counts 'pages of 4,096 bytes' new2 65536 1 2 2 1
counts 'fine pages of 4,096 bytes' new2 65536 1 2f 2 1f
