#!/bin/sh
# Times the program on generated sources of 64 KiB, 256 KiB and nearly 1 MiB: each is read and run, and then refused at its last line.
# The time should grow with the size and no faster. Outside the gate: the times are those of this machine at this moment.
set -eu
top=$(CDPATH= cd -- "$(dirname -- "$0")/.." && pwd)
room=$(mktemp -d)
trap 'rm -rf "$room"' EXIT
cd "$room"

# Tasks, each with its own name, of about so many bytes.
tasks() {
    awk -v size="$1" 'BEGIN {
        while (bytes < size) {
            task = sprintf("@task(namespace=\047b.c\047)\ndef f%d(x: list[int], y=-1):\n", count)
            task = task "    for i in [g(i, z=x)[0] for i in x if not i < -1]:\n"
            task = task "        if i in {\047k\047: 1, 2: [3, \047a\047 \047b\047]} and y != 0 or x:\n"
            task = task "            y += i * (len(x) + 2) // 3 if x else 4\n"
            task = task "    return \047{}, {}\047.format(x, y)\n\n"
            printf "%s", task
            bytes += length(task)
            count++
        }
    }'
}

milliseconds() {
    begin=$(date +%s%N)
    "$top/redun" run w.py main >printed || true
    end=$(date +%s%N)
    echo $(((end - begin) / 1000000))
}

for size in 65536 262144 1048000; do
    tasks $((size - 400)) >w.py
    printf 'def g(x, z): return [x, z]\n@task\ndef main(): return f0([1, 2])\n' >>w.py
    run=$(milliseconds)
    ran=$(cat printed)
    printf 'def h(: pass\n' >>w.py
    refused=$(milliseconds)
    echo "$(wc -c <w.py) bytes: run in $run ms ($ran), refused in $refused ms ($(cat printed))"
done
