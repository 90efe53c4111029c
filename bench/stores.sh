#!/usr/bin/env bash
# stores.sh PROGRAM [SCRATCH]: transfers a second with 1, 2, 4 and 8 stores, a process each, side by side on one disk. Prints the lines
# of docs/SPEED.md, "More than one store". SCRATCH is a folder on the disk to measure.
set -eu

here=$(dirname -- "$(readlink -f -- "${BASH_SOURCE[0]}")")
program=$(readlink -f -- "${1:?stores.sh PROGRAM [SCRATCH]}")
made=
if [ $# -lt 2 ]; then made=$(mktemp -d) && trap 'rm -rf -- "$made"' EXIT; fi
scratch=${2:-$made}
mkdir -p "$scratch"
rounds=5
count=2000

# the programs of examples/four.job; its sixteen accounts are funded, and then money moves between them, a commit each
job() {
    sed '/^schedule/,$d' "$here/../examples/four.job"
    printf 'schedule\n'
    for place in {0..15}; do printf 'begin deposit 100000 %d\nturn %d 100\n' $((place * 256)) $((place + 1)); done
    for ((move = 0; move < count; move++)); do
        printf 'begin move 1 %d %d\nturn %d 100\n' $((move % 16 * 256)) $(((move * 5 + 3) % 16 * 256)) $((move + 17))
    done
    printf 'end\n'
}

job >"$scratch/stores.job"
echo '| Stores | transfers a second, in all | beside one store |'
echo '|---|---|---|'
one=
for stores in 1 2 4 8; do
    best=
    for ((round = 0; round < rounds; round++)); do
        for ((store = 0; store < stores; store++)); do
            rm -f "$scratch/store.$store"
            "$program" new2 "$scratch/store.$store" 131072 1 1f 2 1f >/dev/null
        done
        start=$(date +%s%N)
        for ((store = 0; store < stores; store++)); do
            "$program" run "$scratch/store.$store" <"$scratch/stores.job" >"$scratch/report.$store" &
        done
        wait
        time=$((($(date +%s%N) - start) / 1000))
        for ((store = 0; store < stores; store++)); do
            [ "$(tail -n 1 "$scratch/report.$store")" = "end $((count + 16))" ] || { echo "store $store didn't end well" >&2 && exit 1; }
        done
        if [ -z "$best" ] || [ "$time" -lt "$best" ]; then best=$time; fi
    done
    rate=$((stores * (count + 16) * 1000000 / best))
    one=${one:-$rate}
    printf '| %d | %d | %d.%02d |\n' "$stores" "$rate" $((rate / one)) $((rate * 100 / one % 100))
done
