#!/bin/sh
# Puts the built program as `mill` into the folder, by default ~/.local/bin.
set -eu
top=$(cd "$(dirname "$0")/.." && pwd)
program=$(sh "$top/scripts/built.sh")
folder=${1:-"$HOME/.local/bin"}
mkdir -p "$folder"
cp "$program" "$folder/mill"
echo "$folder/mill"
