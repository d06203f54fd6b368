#!/usr/bin/env bash
# Nanoseconds for the calls of the row store at growing numbers of rows, by the proved program s2_storebench; and where valgrind is there, the instructions of a call,
# which are the same in every run and on every machine.
set -eu
top=$(cd "$(dirname "$0")/.." && pwd)
program=$top/crates/s2_storebench/out/s2_storebench
[ -x "$program" ] || (cd "$top/crates/s2_storebench" && rt run > /dev/null)
"$program" time | grep ' ns$'
command -v valgrind > /dev/null || exit 0
work=$(mktemp -d)
trap 'rm -rf "$work"' EXIT
for rows in 1000 10000 100000; do
    valgrind --tool=callgrind --callgrind-out-file="$work/$rows" "$program" time "$rows" > /dev/null 2>&1
    callgrind_annotate --inclusive=yes --threshold=100 "$work/$rows" | tr -d ',' | awk -v rows="$rows" '
        /times::time_place / { print rows " rows: place, instructions a call: " int($1 / 1000) }
        /times::change / { print rows " rows: put_slots and commit, instructions a call: " int($1 / 300000) }
        /times::look_up / { print rows " rows: visible_row, instructions a call: " int($1 / 300000) }
        /times::by_key / { print rows " rows: with_key, instructions a call: " int($1 / 300000) }'
done
