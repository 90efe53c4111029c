#!/bin/sh
# Four stores that share 64 accounts, with an outbox each and two standbys, killed at random: `examples/four.sh [PROGRAM]`; without a word
# it is the one that was built here. It prints examples/four.out. Account A is one of store A modulo 4, at offset 256 times A / 4 of segment 1.
set -eu

here=$(cd "$(dirname "$0")" && pwd)
. "$here/program.sh"
ROMP801=$program
export ROMP801
tools=$here/../tools
programs=$here/four.job
folder=$(mktemp -d)
trap 'rm -rf "$folder"' EXIT
cd "$folder"

say() { printf -- '-- %s\n' "$*"; }

# under LIMIT: a number below this one
under() { echo $(($(od -An -N 2 -tu2 /dev/urandom) % $1)); }

# work_all NAME: the list NAME.K on each store K, side by side. In two rounds some of the four are killed, with the program or alone, and
# called again; a call settles what a kill left, and an audit must say yes of it
work_all() {
    round=0
    while :; do
        round=$((round + 1))
        again=
        for store in 0 1 2 3; do
            setsid "$tools/work" --wait 600 "store.$store" "$programs" "$1.$store" >"out.$store" 2>"said.$store" &
            eval "call$store=$!"
        done
        for store in 0 1 2 3; do
            eval "call=\$call$store"
            if [ "$round" -le 2 ] && [ "$(under 3)" -gt 0 ]; then
                sleep "0.$(under 3)$(under 10)"
                if [ "$(under 2)" -eq 0 ]; then kill -9 -- "-$call" 2>/dev/null || true; else kill -9 "$call" 2>/dev/null || true; fi
            fi
            status=0
            wait "$call" 2>/dev/null || status=$?
            case $status in
            0) ;;
            137) again=yes ;;
            *)
                cat "said.$store"
                exit 1
                ;;
            esac
        done
        [ -n "$again" ] || break
    done
}

# word STORE SEGMENT OFFSET: a word of a store
word() { echo $((0x$("$ROMP801" show "store.$1" "$2" "$3" 4 | cut -c 10-))); }

# drain: what is in the outboxes goes to the stores that have the accounts, and then is marked as sent. It may stop anywhere and be
# called again: a number that was taken in is given up by its store
drain() {
    for store in 0 1 2 3; do : >"receive.$store" && : >"sent.$store"; done
    for store in 0 1 2 3; do
        put=$(word "$store" 2 0)
        done=$(word "$store" 2 256)
        [ "$put" -gt "$done" ] || continue
        "$ROMP801" show "store.$store" 2 1024 1024 | while read -r _ entry; do
            number=$((0x$(echo "$entry" | cut -c 1-8)))
            account=$((0x$(echo "$entry" | cut -c 9-16)))
            amount=$((0x$(echo "$entry" | cut -c 17-24)))
            [ "$number" -le "$done" ] || echo "receive $number $store $((account / 4 * 256)) $amount" >>"receive.$((account % 4))"
        done
        echo "sent $put" >"sent.$store"
    done
    work_all receive
    work_all sent
}

# total: the sum of all accounts
total() {
    for store in 0 1 2 3; do
        for place in 0 1 2 3 4 5 6 7 8 9 10 11 12 13 14 15; do word "$store" 1 $((place * 256)); done
    done | awk '{ sum += $1 } END { print sum }'
}

say 'four stores, and two standbys of the first: one follows it, and one follows that one'
for store in 0 1 2 3; do "$ROMP801" new2 "store.$store" 16384 1 1f 2 1f; done
cp store.0 near
cp store.0 far

say 'the accounts get 1,000 each'
for store in 0 1 2 3; do
    for place in 0 1 2 3 4 5 6 7 8 9 10 11 12 13 14 15; do echo "deposit 1000 $((place * 256))"; done >"deposit.$store"
done
work_all deposit
total

for day in 1 2; do
    say "day $day: on each store forty transfers within it, and twenty to accounts of the others"
    for store in 0 1 2 3; do
        awk -v store="$store" -v day="$day" 'BEGIN {
            for (i = 0; i < 40; i++) print "move", 1 + (i * 7 + day) % 20, 256 * (i % 16), 256 * ((i * 5 + 3) % 16)
            for (i = 0; i < 20; i++) print "send", 1 + (i * 3 + day) % 30, 256 * (i % 16), (store + 1 + i % 3) % 4 + 4 * ((i * 7 + day) % 16)
        }' >"day$day.$store"
    done
    work_all "day$day"
    say 'what left the accounts is in the outboxes'
    total
    say 'the outboxes are drained'
    drain
    total
    say 'the standbys are brought up'
    "$tools/catch-up" store.0 near >/dev/null
    "$tools/catch-up" near far >/dev/null
    for name in store.0 near far; do echo "$name is at $("$tools/stat" --number "$name")"; done
done

say 'the first is lost: a standby takes over, and a day later nothing is missing'
rm -rf store.0 store.0.work
cp far store.0 && sync store.0
total
for store in 0 1 2 3; do cat "day1.$store" >"day3.$store"; done
work_all day3
drain
total
for store in 0 1 2 3; do "$tools/stat" --number "store.$store"; done
