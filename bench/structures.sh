#!/bin/bash
# Times the reading of sources whose tasks all reach all helpers, so that the structures are much longer than the source.
# It prints the processor time, and that of a helper in a structure, which should stay the same. Outside the gate.
set -eu
top=$(cd "$(dirname "$0")/.." && pwd)
room=$(mktemp -d)
trap 'rm -rf "$room"' EXIT
cd "$room"

# So many helpers, each of which calls the next, and as many tasks that call the first.
source_of() {
    awk -v count="$1" 'BEGIN {
        for (i = 0; i < count; i++) printf "def h%d(x, y=0): return [h%d(x), y, \047text\047]\n", i, i + 1
        printf "def h%d(x): return x\n", count
        for (i = 0; i < count; i++) printf "@task\ndef t%d(x): return h0(x)\n", i
        print "@task\ndef main(): return 1"
    }'
}

# Milliseconds of the processor.
milliseconds() {
    TIMEFORMAT='%U %S'
    { time "$@" >"$room/printed"; } 2>&1 | awk '{ printf "%d", ($1 + $2) * 1000 }'
}

for count in 100 200 400 800; do
    source_of "$count" >w.py
    run=$(milliseconds "$top/redun" run w.py main)
    echo "$count tasks, each with $count helpers: $run ms, $((run * 1000000 / (count * count))) ns for a helper in a structure ($(cat printed))"
done
