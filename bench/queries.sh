#!/bin/sh
# Chooses rows of 1,000,000 and sums them, with dtq and, where they are installed, with R's data.table
# and sqlite3. Run it at the top of the checkout: bench/queries.sh [ROWS]
# What counts is the difference between a script that queries twenty times and one that only reads.
set -eu
rows=${1:-1000000}
top=$(CDPATH= cd -- "$(dirname -- "$0")/.." && pwd)
room=$(mktemp -d)
trap 'rm -rf "$room"' EXIT
cd "$room"

awk -v n="$rows" 'BEGIN {
    x = 1; print "a,b,v";
    for (i = 1; i <= n; i++) {
        x = (x * 69069 + 1) % 4294967296;
        print (x % 2001 - 1000) "," int(x / 65536) % 4 "," int(x / 64) % 100000;
    }
}' >big.csv
query='D[a > 0L & b == 2L, .(s = sum(v), n = .N)]'
printf 'D <- fread("big.csv")\n' >read.dq
cp read.dq query.dq
for _ in 1 2 3 4 5 6 7 8 9 10 11 12 13 14 15 16 17 18 19 20; do printf '%s\n' "$query" >>query.dq; done
"$top/dtq" read.dq >/dev/null

read_ms=$(python3 "$top/bench/least.py" "$top/dtq" read.dq)
query_ms=$(python3 "$top/bench/least.py" "$top/dtq" query.dq)
echo "dtq: one query $(((query_ms - read_ms) / 20)) ms, reading $read_ms ms"
if command -v Rscript >/dev/null 2>&1; then
    Rscript -e 'suppressMessages(library(data.table)); setDTthreads(1); D <- fread("big.csv", showProgress = FALSE)
        once <- function() D[a > 0L & b == 2L, .(s = sum(v), n = .N)]
        once(); used <- system.time(for (k in 1:20) once())
        cat("R: one query", round((used[[1]] + used[[2]]) * 50, 1), "ms\n")'
fi
if command -v sqlite3 >/dev/null 2>&1; then
    printf '.mode csv\n.import big.csv D\n' >import.sql
    printf 'CREATE TABLE E AS SELECT CAST(a AS INT) a, CAST(b AS INT) b, CAST(v AS INT) v FROM D;\n.timer on\nSELECT SUM(v), COUNT(*) FROM E WHERE a > 0 AND b = 2;\n' >>import.sql
    sqlite3 :memory: <import.sql | tail -n 1
fi
