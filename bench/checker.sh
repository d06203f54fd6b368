#!/usr/bin/env bash
# Times the checker, each input beside one twice or ten times as long: single-row inserts with point selects among them, selects
# that find all rows and put them in another order, and outputs that aren't legal, with many writes that no commit follows.
set -eu
top=$(cd "$(dirname "$0")/.." && pwd)
program=$top/crates/s2_main/out/s2_main
[ -x "$program" ] || "$top/bin/s2table" < "$top/examples/insert-select.s2" > /dev/null
work=$(mktemp -d)
trap 'rm -rf "$work"' EXIT

judge() { # what the input has
    { cat "$work/script"; echo '==OUTPUT=='; cat "$work/output"; } > "$work/input"
    /usr/bin/time -q -f '%U %e %M' -o "$work/time" "$program" --mode check < "$work/input" > "$work/answer" || true
    read -r user seconds kilobytes < "$work/time"
    echo "$1: $(cat "$work/answer"), $(wc -c < "$work/input") bytes, $seconds s ($user s of the processor), $kilobytes KB"
}

inserts() { # inserts
    awk -v inserts="$1" 'BEGIN {
        print "CREATE TABLE orders (id INT, sku TEXT, state TEXT, cents INT);"
        for (i = 1; i <= inserts; i++) {
            printf "1: INSERT INTO orders VALUES (%d, %s, %s, %d);\n", i, "\047sku-" i % 97 "\047", "\047new\047", i * 37 % 10000
            if (i % 10 == 0) printf "1: SELECT * FROM orders WHERE id = %d;\n", i * 7919 % i
        }
    }' > "$work/script"
    "$program" --mode drive < "$work/script" > "$work/output"
    judge "$1 inserts, $(($1 / 10)) selects"
}

# Five selects of all rows, which lie in the order of their numbers, by a column whose values are in no order.
orders() { # rows
    awk -v rows="$1" 'BEGIN {
        print "CREATE TABLE orders (id INT, sku TEXT, cents INT);"
        for (i = 1; i <= rows; i++) {
            printf "%s(%d, %s, %d)", i % 1000 == 1 ? "1: INSERT INTO orders VALUES " : ", ", i, "\047sku-" i % 97 "\047", i * 7919 % 10007
            if (i % 1000 == 0 || i == rows) print ";"
        }
        for (i = 1; i <= 5; i++) print "1: SELECT * FROM orders ORDER BY cents DESC, sku;"
    }' > "$work/script"
    "$program" --mode drive < "$work/script" > "$work/output"
    judge "$1 rows, 5 selects in another order"
}

# Sessions 2 and 3, which have no line, write the rows by turns and never commit.
opens() { # rows
    awk -v rows="$1" -v script="$work/script" -v output="$work/output" 'BEGIN {
        print "CREATE TABLE orders (id INT, cents INT);" > script
        printf "1: INSERT INTO orders VALUES" > script
        printf "SESSION 1 1 0\n0 0 OK %d\nHISTORY %d\n1 WRITE", rows, rows + 2 > output
        for (i = 1; i <= rows; i++) {
            printf "%s(%d, %d)", i == 1 ? " " : ", ", i, i * 37 % 10000 > script
            printf "%sPUT %d (%d, %d)", i == 1 ? " " : ", ", i, i, i * 37 % 10000 > output
        }
        print ";" > script
        print "\n1 COMMIT" > output
        for (i = 1; i <= rows; i++) printf "%d WRITE PUT %d (%d, 0)\n", 2 + i % 2, i, i > output
        print "END" > output
    }'
    judge "$1 open writes"
}

inserts 20000
inserts 200000
orders 10000
orders 20000
opens 5000
opens 10000
