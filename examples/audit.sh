#!/bin/sh
# A day of accounts, audited from what it left: `examples/audit.sh [PROGRAM]`; without a word it is the one that was built here.
# It prints examples/audit.out.
set -eu

here=$(cd "$(dirname "$0")" && pwd)
. "$here/program.sh"
folder=$(mktemp -d)
trap 'rm -rf "$folder"' EXIT

# a store of two accounts, and a copy of it before the day
"$program" new "$folder/accounts" 4096 1 1
cp "$folder/accounts" "$folder/opening"

# the day, with its report
"$program" run "$folder/accounts" <"$here/accounts.job" >"$folder/report"

# its commits, run again one after another, print what the report says and leave the store that the day left
"$here/bundle.sh" "$here/accounts.job" "$folder/report" "$folder/opening" "$folder/accounts" >"$folder/day"
"$program" audit <"$folder/day"

# the lines that the transfer, its second activation, touched
"$program" trace 2 <"$folder/day"

# a report that tells of one commit less isn't that of the store that was left
grep -v 'commit 5' "$folder/report" >"$folder/short"
"$here/bundle.sh" "$here/accounts.job" "$folder/short" "$folder/opening" "$folder/accounts" >"$folder/day"
"$program" audit <"$folder/day"
