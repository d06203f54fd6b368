#!/usr/bin/env bash
# Times the reading of scripts: user seconds and the most memory. Each script's last line is none, so that the program reads all of it, names that line and runs nothing.
set -eu
top=$(cd "$(dirname "$0")/.." && pwd)
program=$top/crates/s2_main/out/s2_main
[ -x "$program" ] || "$top/bin/s2table" < "$top/examples/insert-select.s2" > /dev/null
work=$(mktemp -d)
trap 'rm -rf "$work"' EXIT
inserts() { # bytes, columns, format of a line's values (one %d for the line's number)
    awk -v size="$1" -v columns="$2" -v values="$3" 'BEGIN {
        line = "CREATE TABLE t (" columns ");"; used = length(line) + 8; print line
        for (i = 1; ; i++) {
            line = sprintf("1: INSERT INTO t VALUES (" values ");", i)
            used += length(line) + 1
            if (used > size) exit
            print line
        }
    }'
}
tuples() { # how many, columns, format of a tuple's values
    awk -v count="$1" -v columns="$2" -v values="$3" 'BEGIN {
        print "CREATE TABLE t (" columns ");"
        printf "1: INSERT INTO t VALUES "
        for (i = 1; i <= count; i++) printf "%s(" values ")", i == 1 ? "" : ", ", i
        print ";"
    }'
}
four='id INT, sku TEXT, status TEXT, cents INT'
inserts 16777216 "$four" "%d, 'sku-123', 'new', 4774" > "$work/four-columns"
inserts 16777216 'id INT' '%d' > "$work/one-column"
tuples 65536 "$four" "%d, 'sku-123', 'new', 4774" > "$work/tuples-of-four"
tuples 65536 'id INT' '%d' > "$work/tuples-of-one"
awk 'BEGIN { for (i = 0; i < 16777214; i++) print "" }' > "$work/empty-lines"
for name in four-columns one-column tuples-of-four tuples-of-one empty-lines; do
    echo '?' >> "$work/$name"
    bytes=$(wc -c < "$work/$name")
    /usr/bin/time -q -f '%U %M' -o "$work/time" "$program" --mode drive < "$work/$name" > "$work/out" || true
    read -r seconds kilobytes < "$work/time"
    echo "$name: $bytes bytes, $seconds s, $kilobytes KB, $(awk -v k="$kilobytes" -v b="$bytes" 'BEGIN { printf "%.1f", k * 1024 / b }') times the script, $(cat "$work/out")"
done
