#!/bin/sh
# Puts the rows of a table in order and assigns to it in place, with dtq and, where they are installed, with R's
# data.table and sqlite3. Run it at the top of the checkout: bench/orders.sh [ROWS]
# What counts is the difference between two scripts: one that does a thing some times, and one that does not.
set -eu
rows=${1:-1000000}
top=$(CDPATH= cd -- "$(dirname -- "$0")/.." && pwd)
room=$(mktemp -d)
trap 'rm -rf "$room"' EXIT
cd "$room"

awk -v n="$rows" 'BEGIN {
    x = 1; print "a,b,t,v";
    for (i = 1; i <= n; i++) {
        x = (x * 69069 + 1) % 4294967296;
        print int(x / 16) "," int(x / 65536) % 100 ",kind" int(x / 4096) % 10000 "," int(x / 64) % 100000;
    }
}' >big.csv

# repeat TIMES STATEMENTS: a script that reads the table and then does the statements so often
repeat() {
    printf 'D <- fread("big.csv")\n'
    i=0
    while [ "$i" -lt "$1" ]; do
        printf '%s\n' "$2"
        i=$((i + 1))
    done
}

# ms SCRIPT: the least processor time of five runs
ms() {
    python3 "$top/bench/least.py" "$top/dtq" "$1"
}

# tell NAME TIMES STATEMENTS BASE: what one of the statements takes beyond those of the script BASE
tell() {
    repeat "$2" "$3" >some.dq
    echo "dtq: $1: $(((($(ms some.dq)) - $4) * 1000 / $2)) us"
}

repeat 0 '' >read.dq
"$top/dtq" read.dq >/dev/null
read_ms=$(ms read.dq)
repeat 5 'E <- copy(D)' >copy.dq
copy_ms=$(ms copy.dq)
echo "dtq: reading $read_ms ms, five copies $((copy_ms - read_ms)) ms"
tell 'setkey, integers' 5 'E <- copy(D); setkey(E, a)' "$copy_ms"
tell 'setkey, texts of 10,000 kinds' 5 'E <- copy(D); setkey(E, t)' "$copy_ms"
tell 'setkey, two columns' 5 'E <- copy(D); setkey(E, b, v)' "$copy_ms"
repeat 1 'setkey(D, a)' >keyed.dq
keyed_ms=$(ms keyed.dq)
tell 'setkey, which is there' 21 'setkey(D, a)' "$keyed_ms"
tell 'D[, s := a + b]' 20 'D[, s := a + b]' "$read_ms"
tell 'set of one cell' 10000 'set(D, 5L, "v", 7L)' "$read_ms"
tell 'D[5L, v := 7L]' 10000 'D[5L, v := 7L]' "$read_ms"

if command -v Rscript >/dev/null 2>&1; then
    cat >some.R <<'END'
suppressMessages(library(data.table)); setDTthreads(1)
D <- fread("big.csv", showProgress = FALSE)
us <- function(times, f) {
    spent <- 0
    for (k in seq_len(times)) { E <- copy(D); used <- system.time(f(E)); spent <- spent + used[[1]] + used[[2]] }
    round(spent / times * 1e6)
}
cat("R: setkey, integers:", us(5, function(E) setkey(E, a)), "us\n")
cat("R: setkey, texts of 10,000 kinds:", us(5, function(E) setkey(E, t)), "us\n")
cat("R: setkey, two columns:", us(5, function(E) setkey(E, b, v)), "us\n")
setkey(D, a)
used <- system.time(for (k in 1:20) setkey(D, a))
cat("R: setkey, which is there:", round((used[[1]] + used[[2]]) / 20 * 1e6), "us\n")
used <- system.time(for (k in 1:20) D[, s := a + b])
cat("R: D[, s := a + b]:", round((used[[1]] + used[[2]]) / 20 * 1e6), "us\n")
used <- system.time(for (k in 1:10000) set(D, 5L, "v", 7L))
cat("R: set of one cell:", round((used[[1]] + used[[2]]) / 10000 * 1e6), "us\n")
used <- system.time(for (k in 1:1000) D[5L, v := 7L])
cat("R: D[5L, v := 7L]:", round((used[[1]] + used[[2]]) / 1000 * 1e6), "us\n")
END
    Rscript some.R
fi
if command -v sqlite3 >/dev/null 2>&1; then
    {
        printf '.mode csv\n.import big.csv D\n'
        echo 'CREATE TABLE E AS SELECT CAST(a AS INT) a, CAST(b AS INT) b, t, CAST(v AS INT) v FROM D;'
        printf '.timer on\n'
        echo 'CREATE TABLE F AS SELECT * FROM E ORDER BY a;'
        echo 'CREATE TABLE G AS SELECT * FROM E ORDER BY t;'
        echo 'CREATE TABLE H AS SELECT * FROM E ORDER BY b, v;'
        echo 'UPDATE E SET v = a + b;'
    } >some.sql
    echo 'sqlite3: in order of a, of t, of b and v, and an update:'
    sqlite3 :memory: <some.sql
fi
