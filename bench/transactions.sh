#!/usr/bin/env bash
# Times four sessions that insert, update and delete by a unique key, one statement after another, against sqlite3 on the same statements:
# 10,000 and 100,000 inserted rows. Prints seconds in user mode, and the most memory that the program had for each row, history and output included.
set -eu
top=$(cd "$(dirname "$0")/.." && pwd)
program=$top/crates/s2_main/out/s2_main
[ -x "$program" ] || "$top/bin/s2table" < "$top/examples/insert-select.s2" > /dev/null
command -v sqlite3 > /dev/null || { echo "sqlite3 isn't on the PATH" >&2; exit 1; }
command -v python3 > /dev/null || { echo "python3 isn't on the PATH" >&2; exit 1; }
work=$(mktemp -d)
trap 'rm -rf "$work"' EXIT
statements() { # rows: a session and a statement a line
    python3 - "$1" <<'END'
import sys
x = 1
for i in range(int(sys.argv[1])):
    x = (6364136223846793005 * x + 1442695040888963407) % 2 ** 64
    u = x // 2 ** 33
    session = i % 4 + 1
    print(f"{session}: INSERT INTO orders VALUES ({i + 1}, 'sku-{u % 500:03}', 'new', {u % 10000});")
    if i % 8 == 7:
        print(f"{session}: UPDATE orders SET status = 'paid' WHERE id = {i + 1};")
    if i % 16 == 15:
        print(f"{session}: DELETE FROM orders WHERE id = {i + 1};")
END
}
columns='id INT, sku TEXT, status TEXT, cents INT'
compare() { # rows
    statements "$1" > "$work/statements"
    { echo "CREATE TABLE orders ($columns, UNIQUE KEY (id), KEY (sku), KEY (status), SORT KEY (sku, id));"; cat "$work/statements"; } > "$work/ours"
    { echo "CREATE TABLE orders ($columns, UNIQUE (id)); CREATE INDEX by_sku ON orders (sku); CREATE INDEX by_status ON orders (status);"
      sed 's/^[1-4]: //' "$work/statements"; } > "$work/theirs"
    /usr/bin/time -f '%U %M' -o "$work/time" "$program" --mode drive < "$work/ours" > "$work/out"
    read -r ours memory < "$work/time"
    /usr/bin/time -f '%U' -o "$work/time" sqlite3 :memory: < "$work/theirs" > "$work/out"
    theirs=$(cat "$work/time")
    awk -v n="$1" -v a="$ours" -v b="$theirs" -v m="$memory" 'BEGIN { printf "%d rows: s2table %.2f s, sqlite3 %.2f s, %.1f times; %d bytes a row\n", n, a, b, a / b, m * 1024 / n }'
}
compare 10000
compare 100000
