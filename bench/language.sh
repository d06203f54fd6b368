#!/usr/bin/env bash
# Times the statement language against sqlite3 on the same statements, one run each: 100,000 inserts, 1,000 selects with a predicate
# over 10,000 rows, 100 aggregates over 100,000 rows. What selects and aggregates take is the run's time less that of the inserts alone.
set -eu
top=$(cd "$(dirname "$0")/.." && pwd)
program=$top/crates/s2_main/out/s2_main
[ -x "$program" ] || "$top/bin/s2table" < "$top/examples/insert-select.s2" > /dev/null
command -v sqlite3 > /dev/null || { echo "sqlite3 isn't on the PATH" >&2; exit 1; }
work=$(mktemp -d)
trap 'rm -rf "$work"' EXIT
statements() { # inserts, selects, aggregates: one statement a line, as both take them
    awk -v inserts="$1" -v selects="$2" -v aggregates="$3" 'BEGIN {
        for (i = 1; i <= inserts; i++)
            printf "INSERT INTO orders VALUES (%d, %s, %s, %d);\n", i, "\047sku-" i % 97 "\047", i % 3 ? "\047new\047" : "\047paid\047", i * 37 % 10000
        for (i = 1; i <= selects; i++)
            printf "SELECT id, cents FROM orders WHERE cents = %d AND state = \047new\047;\n", i * 11 % 10000
        for (i = 1; i <= aggregates; i++)
            printf "SELECT COUNT(*), SUM(cents), MIN(cents), MAX(cents) FROM orders WHERE cents >= %d;\n", i * 83 % 10000
    }'
}
seconds() { # a command over standard input
    /usr/bin/time -f '%e' -o "$work/time" "$@" > "$work/out"
    cat "$work/time"
}
compare() { # name, inserts, selects, aggregates
    statements "$2" "$3" "$4" > "$work/statements"
    { echo 'CREATE TABLE orders (id INT, sku TEXT, state TEXT, cents INT);'; sed 's/^/1: /' "$work/statements"; } > "$work/ours"
    { echo 'CREATE TABLE orders (id INT, sku TEXT, state TEXT, cents INT);'; cat "$work/statements"; } > "$work/theirs"
    ours=$(seconds "$program" --mode drive < "$work/ours")
    theirs=$(seconds sqlite3 :memory: < "$work/theirs")
    echo "$1: s2table $ours s, sqlite3 $theirs s, $(awk -v a="$ours" -v b="$theirs" 'BEGIN { printf "%.1f", a / b }') times"
}
compare "100,000 inserts" 100000 0 0
compare "10,000 inserts" 10000 0 0
compare "10,000 inserts, 1,000 selects" 10000 1000 0
compare "100,000 inserts, 100 aggregates" 100000 0 100
