#!/bin/sh
# A bundle of a finished run, for the words `audit` and `trace`: `examples/bundle.sh JOB REPORT OPENING CLOSING >BUNDLE`.
# OPENING is a copy of the store that the run began with, and CLOSING the store that it left; for a trace alone CLOSING may be
# /dev/null.
set -eu

for part; do
    # (each part is read twice)
    [ -f "$part" ] || [ "$part" = /dev/null ] || { printf 'bundle.sh: %s is no file\n' "$part" >&2 && exit 1; }
done

length() { wc -c <"$1" | tr -d ' '; }

printf 'audit %s %s %s %s\n' "$(length "$1")" "$(length "$2")" "$(length "$3")" "$(length "$4")"
cat "$1" "$2" "$3" "$4"
