#!/usr/bin/env bash
# Builds the programs that are installed, where they are not built: dayrun, which is proved, and those in
# Rust, which are packages of their name. Usage: programs.sh PROGRAM..
set -euo pipefail
cd "$(dirname "$0")/.."

scripts/proved.sh || scripts/build.sh
packages=()
for program in "$@"; do
    case $program in build/release/*) packages+=(-p "${program##*/}") ;; esac
done
cargo build --quiet --release --offline "${packages[@]}"
