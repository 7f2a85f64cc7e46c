#!/bin/sh
# Times `mill -j 1 show a` over hostile folders of class files, legal or nearly so, which scripts/hostile writes into a
# temporary folder: each at its full size and at half of it. Prints bytes, time and memory, and which case misses 1.5
# seconds, 256 MB, or 2.5 times the time of half its size; its status is 1 where one does. On an idle machine.
#   sh scripts/measure_hostile.sh [CASE..]
#   python3 scripts/hostile/measure.py --list     what each case is
set -eu
top=$(cd "$(dirname "$0")/.." && pwd)
if ! command -v python3 >/dev/null; then
    echo "skipped: no python3" >&2
    exit 0
fi
program=$(sh "$top/scripts/built.sh")
exec python3 -B "$top/scripts/hostile/measure.py" "$program" "$@"
