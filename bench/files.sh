#!/usr/bin/env bash
# files.sh PROGRAM [SCRATCH]: what stores in files cost: commits beside a loop in C on the same disk, a job of a megabyte, and bytes
# shown. Prints the lines of docs/SPEED.md, "Files". Wants gcc. SCRATCH is a folder on the disk to measure.
set -eu

here=$(dirname -- "$(readlink -f -- "${BASH_SOURCE[0]}")")
program=$(readlink -f -- "${1:?files.sh PROGRAM [SCRATCH]}")
made=
if [ $# -lt 2 ]; then made=$(mktemp -d) && trap 'rm -rf -- "$made"' EXIT; fi
scratch=${2:-$made}
mkdir -p "$scratch"
rounds=7
count=2000

gcc -O2 -Wall -Wextra -o "$scratch/commits" "$here/commits.c"
gcc -O2 -static -Wall -Wextra -o "$scratch/once" "$here/once.c"

# micros COLUMN COMMAND..: the wall (1) or processor (2) time of a command in microseconds, without what it prints
micros() {
    local column=$1
    shift
    "$scratch/once" "$@" 2>&1 >/dev/null | awk -v column="$column" '/^once/ && $5 == 0 { print $(column + 1) }'
}

least() {
    sort -n | head -n 1
}

cat >"$scratch/add.part" <<'END'
frames 2
program add
.window 1, 1, rw
cau r6, r0, 0x1000
l r3, 0(r6)
ai r3, r3, 1
st r3, 0(r6)
svc 0
end
schedule
END
(
    cat "$scratch/add.part"
    for ((turn = 1; turn <= count; turn++)); do printf 'begin add\nturn %d 9\n' "$turn"; done
    echo end
) >"$scratch/add.job"
(cat "$scratch/add.part" && echo end) >"$scratch/none.job"
rm -f "$scratch/store" "$scratch/wide"
"$program" new "$scratch/store" 131072 1 4 >"$scratch/printed"
"$program" new "$scratch/wide" 65536 1 32 >"$scratch/printed"
cp "$scratch/store" "$scratch/loop"

# in turns, so that all meet what else the machine does: a run of commits without the opening, and as many in C, by syncs of data and by
# syncs of all; the best of each
: >"$scratch/ours"
: >"$scratch/loops"
: >"$scratch/all"
for ((round = 0; round < rounds; round++)); do
    all=$(micros 1 "$program" run "$scratch/store" <"$scratch/add.job")
    opening=$(micros 1 "$program" run "$scratch/store" <"$scratch/none.job")
    echo $(((all - opening) / count)) >>"$scratch/ours"
    echo $(($(micros 1 "$scratch/commits" "$scratch/loop" "$count" 143) / count)) >>"$scratch/loops"
    echo $(($(micros 1 "$scratch/commits" "$scratch/loop" "$count" 143 all) / count)) >>"$scratch/all"
done
ours=$(least <"$scratch/ours")
loop=$(least <"$scratch/loops")
all=$(least <"$scratch/all")
awk -v ours="$ours" -v loop="$loop" -v all="$all" 'BEGIN {
    printf "| a commit of one line, µs: romp801, the loop in C | %d, %d | %.2f |\n", ours, loop, loop / ours
    printf "| beside the loop in C by fsync | %d, %d | %.2f |\n", ours, all, all / ours
}'

# a job of a megabyte, and 65,536 bytes
(
    printf 'frames 2\n'
    for name in a b c d e f g h i j; do
        printf 'program %s\n' "$name"
        for ((row = 0; row < 4000; row++)); do echo '        ai r6, r6, 128'; done
        printf 'end\n'
    done
    printf 'schedule\nend\n'
) >"$scratch/large.job"
# comments in front, up to a little below the most that a job may have
(
    for ((left = (1048000 - $(wc -c <"$scratch/large.job")) / 51; left > 0; left--)); do
        echo '; a comment, in front of the line with the frames.'
    done
    cat "$scratch/large.job"
) >"$scratch/larger" && mv "$scratch/larger" "$scratch/large.job"
for word in run try; do
    words=(run "$scratch/wide")
    [ "$word" = run ] || words=(try)
    for ((round = 0; round < rounds; round++)); do micros 1 "$program" "${words[@]}" <"$scratch/large.job"; done | least |
        awk -v word="$word" -v bytes="$(wc -c <"$scratch/large.job")" '{ printf "| `%s` of a job of %d bytes, ms | %.1f | |\n", word, bytes, $1 / 1000 }'
done
for ((round = 0; round < rounds; round++)); do micros 1 "$program" show "$scratch/wide" 1 0 65536; done | least |
    awk '{ printf "| `show` of 65,536 bytes, ms | %.1f | |\n", $1 / 1000 }'

# a bank of 131,072 bytes with nine hundred commits of one line: shipped, and followed by a copy of the store as it was, beside a copy of
# the file that is synced; the records followed are held against as many commits of a run, the best of each
records=900
(
    cat "$scratch/add.part"
    for ((turn = 1; turn <= records; turn++)); do printf 'begin add\nturn %d 9\n' "$turn"; done
    echo end
) >"$scratch/many.job"
rm -f "$scratch/empty" "$scratch/first"
"$program" new "$scratch/empty" 131072 1 4 >"$scratch/printed"
: >"$scratch/ours"
: >"$scratch/shipped"
: >"$scratch/followed"
: >"$scratch/copied"
for ((round = 0; round < rounds; round++)); do
    cp "$scratch/empty" "$scratch/first"
    cp "$scratch/empty" "$scratch/second"
    micros 1 "$program" run "$scratch/first" <"$scratch/many.job" >>"$scratch/ours"
    "$program" ship "$scratch/first" 0 >"$scratch/text"
    micros 1 "$program" ship "$scratch/first" 0 >>"$scratch/shipped"
    micros 1 "$program" follow "$scratch/second" <"$scratch/text" >>"$scratch/followed"
    micros 1 /bin/sh -c 'cp "$1" "$2" && sync "$2"' - "$scratch/first" "$scratch/copy" >>"$scratch/copied"
done
awk -v ours="$(least <"$scratch/ours")" -v shipped="$(least <"$scratch/shipped")" -v followed="$(least <"$scratch/followed")" \
    -v copied="$(least <"$scratch/copied")" -v records="$records" 'BEGIN {
    printf "| `ship` of %d records of one line, ms | %.1f | |\n", records, shipped / 1000
    printf "| `follow` of them, µs a record: beside a commit of `run` | %d, %d | %.2f |\n", followed / records, ours / records, ours / followed
    printf "| a copy of the file that is synced, ms | %.1f | |\n", copied / 1000
}'
