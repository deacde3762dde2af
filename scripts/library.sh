#!/usr/bin/env bash
# Proves a library, of what it depends on only what is not proved yet, and makes its archive
# target/staticlib/libNAME.a: its functions for C are those of the crate NAME_c. What the prover says is
# kept in build/NAME.log. Usage: library.sh NAME
set -euo pipefail
cd "$(dirname "$0")/.."

name=$1
mkdir -p build target/staticlib
start=$SECONDS
(cd "crates/${name}_c" && exec rt lib) 2>&1 | scripts/progress.sh "build/$name.log" "${name}_c" || {
    echo "the library $name is not proved: build/$name.log has what the prover says" >&2
    exit 1
}
cp "crates/${name}_c/out/lib${name}_c.a" "target/staticlib/lib$name.a"
echo "target/staticlib/lib$name.a ($((SECONDS - start)) s)"
