#!/usr/bin/env bash
# Proves each crate that was not proved here before, as many at a time as there are cores, and builds the libraries that
# others stand on: `rt ci` leaves none that other commands take. PROGRESS_LATER is for progress.sh. Usage: check.sh LOG
set -euo pipefail
cd "$(dirname "$0")/.."

read -ra every <<<"$(sed -n 's/#.*//; s/^\([a-z0-9_]*\)[ a-z]*:.*/\1/p' crates.txt | tr '\n' ' ')"
mkdir -p "$(dirname "$1")"
rt all check --jobs "$(nproc)" 2>&1 | scripts/progress.sh "$1" "${every[@]}"
