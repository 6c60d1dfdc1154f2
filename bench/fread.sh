#!/bin/sh
# Reads an integer CSV of 1,000,000 rows and 3 columns with dtq, and with R's data.table, sqlite3 and
# wc where they are installed. Run it at the top of the checkout: bench/fread.sh [ROWS]
set -eu
rows=${1:-1000000}
top=$(CDPATH= cd -- "$(dirname -- "$0")/.." && pwd)
room=$(mktemp -d)
trap 'rm -rf "$room"' EXIT
cd "$room"

awk -v n="$rows" 'BEGIN {
    x = 1; print "a,b,c";
    for (i = 1; i <= n; i++) {
        x = (x * 69069 + 1) % 4294967296;
        print i "," (x % 2000001 - 1000000) "," int(x / 65536);
    }
}' >big.csv
printf 'a\n1\n' >small.csv
printf 'x <- fread("big.csv")\nprint(x)\n' >big.dq
printf 'x <- fread("small.csv")\nprint(x)\n' >small.dq
"$top/dtq" small.dq >/dev/null

# The least of five runs, in seconds, and the memory of the last in MiB.
measure() {
    name=$1; shift
    best=; memory=
    for _ in 1 2 3 4 5; do
        # shellcheck disable=SC2039
        /usr/bin/env python3 - "$@" >run.out 2>run.err <<'PY'
import resource, subprocess, sys, time
began = time.monotonic()
subprocess.run(sys.argv[1:], stdout=subprocess.DEVNULL, check=True)
took = time.monotonic() - began
print(f"{took:.3f} {resource.getrusage(resource.RUSAGE_CHILDREN).ru_maxrss / 1024:.0f}")
PY
        read -r took memory <run.out
        best=$(printf '%s\n%s\n' "${best:-$took}" "$took" | sort -n | head -n 1)
    done
    printf '%-28s %8s s %8s MiB\n' "$name" "$best" "$memory"
}

ls -l big.csv | awk '{ printf "file: %.1f MiB\n", $5 / 1048576 }'
measure "wc -l" wc -l big.csv
measure "dtq, a file of one row" "$top/dtq" small.dq
measure "dtq" "$top/dtq" big.dq
if command -v Rscript >/dev/null 2>&1; then
    measure "R, data.table loaded" Rscript -e 'suppressMessages(library(data.table))'
    measure "R, fread and print" Rscript -e 'suppressMessages(library(data.table)); setDTthreads(1); x <- fread("big.csv"); print(x)'
fi
if command -v sqlite3 >/dev/null 2>&1; then
    measure "sqlite3, import and count" sqlite3 :memory: '.mode csv' '.import big.csv t' 'select count(*) from t'
fi
