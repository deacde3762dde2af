#!/usr/bin/env bash
# Runs the settled day P5 to P9 and shows it: first what dayrun prints, then the day told for people.
# Where dayrun is not proved here yet, the day is shown at once from a build without proof.
set -euo pipefail
cd "$(dirname "$0")/.."
scripts/tools.sh rt make gcc cargo rustc

day=tapes/p5-to-p9
copy=''
trap '[ -z "$copy" ] || rm -rf "$copy"' EXIT
trap 'exit 129' HUP
trap 'exit 130' INT
trap 'exit 143' TERM

# Runs the day on the program as `rt try` builds it, which proves nothing, in a copy of the sources; what
# must come of it is stored.
try_day() {
    copy=$(mktemp -d)
    tar --exclude='*/out' -cf - crates crates.txt | tar -xf - -C "$copy"
    (cd "$copy/crates/dayrun" && exec rt try) <"$day.tape" >"$copy/printed" 2>"$copy/log" &&
        cmp "$copy/printed" "$day.expected" >>"$copy/log" || { cat "$copy/log" >&2; exit 1; }
    rm -rf "$copy"
    copy=''
}

if ! scripts/proved.sh; then
    try_day
    printf 'NOT PROVED HERE YET. The day %s.txt, run by dayrun built without proof:\n' "$day"
    cat "$day.expected"
    printf '\nThe same day, told, as it is stored in %s.told:\n' "$day"
    cat "$day.told"
    printf '\nNext come the proofs of dayrun and the libraries. What is proved once is not proved again.\n'
    scripts/build.sh
    printf '\n'
fi
scripts/day.sh "$day.txt"
