#!/usr/bin/env bash
# Joins the archives of the proved crates, and the version in C, into one archive for hosts. Each crate
# becomes one object in which the functions for hosts alone are global: what the crates share stands in
# each of them under a name of its own. Usage: join.sh LIBRARY ARCHIVE..
set -euo pipefail
cd "$(dirname "$0")/.."
scripts/tools.sh gcc

library=$1
shift
objects=$(mktemp -d)
trap 'rm -rf "$objects"' EXIT

for archive in "$@"; do
    name=$(basename "$archive" .a)
    object=$objects/${name#lib}.o
    ld -r --whole-archive "$archive" -o "$object"
    objcopy --wildcard --keep-global-symbol='day_*' --keep-global-symbol='entry_*' "$object"
done
gcc -std=c11 -O2 -fPIC -Wall -Wextra -Wpedantic -Werror -c -o "$objects/version.o" host/version.c

# No function twice: of two the linker would take the first and say nothing.
twice=$(nm --extern-only --defined-only --format=just-symbols "$objects"/*.o | sort | uniq -d | grep . || true)
[ -z "$twice" ] || { echo "in more than one crate: $twice" >&2; exit 1; }

mkdir -p "$(dirname "$library")"
rm -f "$library"
ar rcsD "$library" "$objects"/*.o
echo "$library"
