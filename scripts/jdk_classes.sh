#!/bin/sh
# Runs the program over class files that a JDK brings and that no one here wrote: those of a package below `classes/`
# together, and each of them alone. Prints the line of each, and how often each kind of line came.
#   sh scripts/jdk_classes.sh [PACKAGE]      by default java/util
set -eu
package=${1:-java/util}
top=$(cd "$(dirname "$0")/.." && pwd)
if ! command -v jmod >/dev/null; then
    echo "skipped: no jmod" >&2
    exit 0
fi
program=$(sh "$top/scripts/built.sh")
home=$(dirname "$(dirname "$(readlink -f "$(command -v jmod)")")")
work=$(mktemp -d)
trap 'rm -rf "$work"' EXIT
jmod extract --dir "$work/jdk" "$home/jmods/java.base.jmod"
mkdir -p "$work/all/classes" "$work/one/classes"
cp "$work/jdk/classes/$package"/*.class "$work/all/classes"
echo "all: $(cd "$work/all" && "$program" -j 1 show a || true)"
for file in "$work"/all/classes/*.class; do
    cp "$file" "$work/one/classes/C.class"
    echo "$(basename "$file"): $(cd "$work/one" && "$program" -j 1 show a || true)"
done >"$work/lines"
cat "$work/lines"
echo
sed -e 's/^[^:]*: //' -e 's/: [^:]*\.[^:]*: /: M: /' -e 's/ at [0-9]*$/ at N/' -e 's/class [^ ]*$/class C/' -e 's/super [^ ]*$/super C/' "$work/lines" | sort | uniq -c | sort -rn
