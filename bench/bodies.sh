#!/bin/bash
# How long bodies take in the program and in CPython: the same code in both, twenty bodies a run.
# It prints a line for each kind of work: processor time of the program, of CPython, and their ratio.
# Processor time, since other work on the machine changes the clock's time.
set -eu
top=$(cd "$(dirname "$0")/.." && pwd)
room=$(mktemp -d)
trap 'rm -rf "$room"' EXIT
cd "$room"

# The work of one body, by its name.
work() {
    case $1 in
    loops) printf '  i = 0\n  while i < n: i += 1\n  return i\n' ;;
    lists) printf '  xs = [x * 2 for x in range(n) if x %% 3 == 0]\n  ys = []\n  for x in range(100): ys = ys + [x]\n  return len(xs) + len(ys)\n' ;;
    index) printf '  xs = range(100000)\n  s = 0\n  for i in range(n): s += xs[i * 7 %% 100000]\n  return s\n' ;;
    texts) printf "  t = ''\n  for i in range(n): t = '{} {}'.format(i, 'word').strip()\n  return len(t)\n" ;;
    helpers) printf '  s = 0\n  for i in range(n): s = add(s, i)\n  return s\n' ;;
    esac
}

# How many turns its steps allow.
turns() {
    case $1 in
    loops) echo 140000 ;;
    lists) echo 80000 ;;
    index) echo 60000 ;;
    texts) echo 80000 ;;
    helpers) echo 70000 ;;
    esac
}

source_of() {
    printf 'def add(a, b): return a + b\n@task\ndef body(n, k):\n'
    work "$1"
    printf '@task\ndef main(): return ['
    for k in 1 2 3 4 5 6 7 8 9 10 11 12 13 14 15 16 17 18 19 20; do
        printf 'body(%s, %s), ' "$(turns "$1")" "$k"
    done
    printf ']\n'
}

# Milliseconds of the processor.
milliseconds() {
    TIMEFORMAT='%U %S'
    { time "$@" >"$room/printed"; } 2>&1 | awk '{ printf "%d", ($1 + $2) * 1000 }'
}

for kind in loops lists index texts helpers; do
    source_of "$kind" >w.py
    { printf 'def task(f): return f\n'; sed 's/xs = range(100000)/xs = list(range(100000))/' w.py; printf 'print(main())\n'; } >p.py
    ours=$(milliseconds "$top/redun" run w.py main)
    cp "$room/printed" ours
    theirs=$(milliseconds python3 p.py)
    cmp -s "$room/printed" ours || echo "$kind: the answers differ" >&2
    echo "$kind: $ours ms, CPython $theirs ms, ratio $((ours * 100 / theirs)) percent"
done
