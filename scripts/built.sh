#!/bin/sh
# Prints the path of the built program, and builds it first where it isn't built.
set -eu
top=$(cd "$(dirname "$0")/.." && pwd)
program="$top/crates/mill_top/out/mill_top"
if [ ! -x "$program" ]; then
    if ! command -v rt >/dev/null; then
        echo "mill isn't built, and the kit that builds it isn't found: no command 'rt' in PATH" >&2
        exit 1
    fi
    # The build ends with a run without words, which the program refuses.
    (cd "$top/crates/mill_top" && rt run) >&2 || true
    if [ ! -x "$program" ]; then
        echo "mill isn't built: 'rt run' in crates/mill_top failed" >&2
        exit 1
    fi
fi
echo "$program"
