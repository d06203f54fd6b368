#!/usr/bin/env bash
# Makes scripts of single-row INSERT lines and runs the built program over them: seconds and the most memory.
set -eu
top=$(cd "$(dirname "$0")/.." && pwd)
program=$top/crates/s2_main/out/s2_main
[ -x "$program" ] || "$top/bin/s2table" < "$top/examples/insert-select.s2" > /dev/null
work=$(mktemp -d)
trap 'rm -rf "$work"' EXIT
script() { # bytes, columns, format of a line's values (one %d for the line's number)
    awk -v size="$1" -v columns="$2" -v values="$3" 'BEGIN {
        line = "CREATE TABLE t (" columns ");"; used = length(line) + 1; print line
        for (i = 1; ; i++) {
            line = sprintf("1: INSERT INTO t VALUES (" values ");", i)
            used += length(line) + 1
            if (used > size) exit
            print line
        }
    }'
}
text=$(printf 'x%.0s' $(seq 250))
script 1048576 'id INT, sku TEXT, status TEXT, cents INT' "%d, 'sku-123', 'new', 4774" > "$work/four-1"
script 16777216 'id INT, sku TEXT, status TEXT, cents INT' "%d, 'sku-123', 'new', 4774" > "$work/four-16"
script 16777216 'a INT, b INT, c INT, d INT' '%d, 1, 2, 3' > "$work/numbers-16"
script 16777216 'id INT' '%d' > "$work/one-16"
script 16777216 'id INT' '7' > "$work/digit-16"
script 16777216 "$(seq -s, 16 | sed 's/[0-9]*/c& INT/g')" '1, 1, 1, 1, 1, 1, 1, 1, 1, 1, 1, 1, 1, 1, 1, 1' > "$work/digits-16"
script 16777216 'id INT, note TEXT' "%d, '$text'" > "$work/wide-16"
for name in four-1 four-16 numbers-16 one-16 digit-16 digits-16 wide-16; do
    lines=$(wc -l < "$work/$name"); bytes=$(wc -c < "$work/$name")
    /usr/bin/time -f '%U %M' -o "$work/time" "$program" --mode drive < "$work/$name" > "$work/out"
    read -r seconds kilobytes < "$work/time"
    echo "$name: $lines lines, $bytes bytes, $seconds s in user mode, $kilobytes KB, $(awk -v k="$kilobytes" -v b="$bytes" 'BEGIN { printf "%.1f", k * 1024 / b }') times the script"
done
