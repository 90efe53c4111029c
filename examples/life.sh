#!/bin/sh
# A store's life: made, run on, shown, and run on again. `examples/life.sh [PROGRAM]`; without a word it is the one that was built here.
# It prints examples/life.out.
set -eu

here=$(cd "$(dirname "$0")" && pwd)
. "$here/program.sh"
folder=$(mktemp -d)
trap 'rm -rf "$folder"' EXIT
store=$folder/accounts

# a store with segment 1 of one page, and banks of 4,096 bytes
"$program" new "$store" 4096 1 1

# a day of deposits, transfers and audits, each a transaction
"$program" run "$store" <"$here/accounts.job"

# the two accounts, at offsets 0 and 128 of segment 1
"$program" show "$store" 1 0 4
"$program" show "$store" 1 128 4

# the next day begins where that one ended
"$program" run "$store" <"$here/accounts.job"
