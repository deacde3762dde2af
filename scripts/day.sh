#!/usr/bin/env bash
# Runs a tape, in its text form or as words, and shows it: what dayrun prints, then the day told for
# people. What is not proved yet, or has changed since, is proved first. Usage: day.sh FILE
set -euo pipefail
cd "$(dirname "$0")/.."

[ $# -eq 1 ] && [ -n "$1" ] || { echo 'say which tape: make day TAPE=file' >&2; exit 2; }
[ -f "$1" ] && [ -r "$1" ] || {
    printf 'there is no file %s that can be read: make day TAPE=file\n' "$1" >&2
    exit 2
}
scripts/proved.sh && [ -x build/release/tape ] || scripts/build.sh
scripts/proved.sh || {
    echo 'the sources changed while they were proved: run it again' >&2
    exit 1
}
printf '%s, run by the proved program target/bin/dayrun:\n' "$1"
status=0
build/release/tape run -- "$1" || status=$?
[ "$status" -lt 2 ] || exit "$status"
printf '\nThe same day, told:\n'
build/release/tape explain -- "$1"
exit "$status"
