#!/bin/sh
# Times `mill -j 1 show a` over COUNT class files, by default 4,000, beside `cat` of the same files. They are one class
# that `javac` wrote, under a name of its own in each. Every file is read and verified before the answer comes, which is
# that none of them is of a form that is built.
#   sh scripts/measure_loading.sh [COUNT]
set -eu
count=${1:-4000}
top=$(cd "$(dirname "$0")/.." && pwd)
if ! command -v javac >/dev/null; then
    echo "skipped: no javac" >&2
    exit 0
fi
program=$(sh "$top/scripts/built.sh")
work=$(mktemp -d)
trap 'rm -rf "$work"' EXIT
mkdir -p "$work/build/classes"
javac -d "$work" "$top/scripts/loading/C0000.java"
for at in $(seq 0 $((count - 1))); do
    name=$(printf 'C%04d' "$at")
    LC_ALL=C sed "s/C0000/$name/g" "$work/C0000.class" >"$work/build/classes/$name.class"
done
cd "$work/build"
echo "$count files, $(cat classes/*.class | wc -c) bytes"
"$program" -j 1 show a || true

# The least wall time of five runs of a command, in seconds.
least() {
    for turn in 1 2 3 4 5; do
        begin=$(date +%s%N)
        "$@" >/dev/null || true
        echo $((($(date +%s%N) - begin) / 1000))
    done | sort -n | head -n 1
}

echo "mill: $(least "$program" -j 1 show a) microseconds"
echo "cat: $(least sh -c 'cat classes/*.class') microseconds"
