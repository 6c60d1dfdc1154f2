#!/bin/sh
# Runs scripts of 10,000 small statements with dtq. Run it at the top of the checkout:
# bench/statements.sh
set -eu
top=$(CDPATH= cd -- "$(dirname -- "$0")/.." && pwd)
room=$(mktemp -d)
trap 'rm -rf "$room"' EXIT
cd "$room"

# One name bound anew each time; and 2,500 names with vectors, copies, tables and second names.
awk 'BEGIN { for (i = 0; i < 10000; i++) print "x <- " i "L" }' >one_name.dq
awk 'BEGIN {
    for (i = 0; i < 2500; i++) {
        print "x" i " <- " i "L"; print "y <- x" i; print "a <- data.table(v = " i "L)"; print "b <- a"
    }
}' >many_names.dq
awk 'BEGIN { for (i = 0; i < 10000; i++) print "print(" i "L)" }' >prints.dq
printf '' >empty.dq
"$top/dtq" empty.dq

for script in empty one_name many_names prints; do
    echo "$script.dq: $(python3 "$top/bench/least.py" "$top/dtq" "$script.dq") ms of processor time, the launcher's included"
done
