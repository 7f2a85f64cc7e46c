#!/bin/sh
# Runs `mill -j 1 show a` twice in a fresh copy of the example `first`, and shows the lines and the folder of results.
set -eu
top=$(cd "$(dirname "$0")/.." && pwd)
program=$(sh "$top/scripts/built.sh")
folder=$(mktemp -d)
trap 'rm -rf "$folder"' EXIT
cp -R "$top/examples/first/." "$folder"
cd "$folder"
for turn in 1 2; do
    echo "\$ mill -j 1 show a"
    "$program" -j 1 show a
done
for file in out/*; do
    echo "\$ cat $file"
    cat "$file"
done
echo
