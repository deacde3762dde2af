#!/usr/bin/env bash
# Is the program target/bin/dayrun the one that was proved from the sources as they are here? By their
# content, not their dates. Usage:
#   proved.sh               ends with 0 where it is
#   proved.sh sources       prints what stands for the sources
#   proved.sh take SOURCES  takes over the program that rt has just linked, proved from these sources
set -euo pipefail
cd "$(dirname "$0")/.."

program=target/bin/dayrun
linked=crates/dayrun/out/dayrun
note=build/proved

# What stands for the sources of all crates; wrong edits, which are no part of them, and what rt made left out.
sources() {
    find crates crates.txt -type f ! -path '*/must-fail/*' ! -path '*/out/*' -print0 | LC_ALL=C sort -z |
        xargs -0 sha256sum | sha256sum | cut -d ' ' -f 1
}

# What stands for the program.
built() { sha256sum "$program" | cut -d ' ' -f 1; }

case ${1:-} in
sources) sources ;;
take)
    mkdir -p "$(dirname "$program")" "$(dirname "$note")"
    cp "$linked" "$program.new"
    mv -f "$program.new" "$program"
    printf '%s %s\n' "$2" "$(built)" >"$note"
    ;;
*) [ -x "$program" ] && [ -f "$note" ] && [ "$(cat "$note")" = "$(sources) $(built)" ] ;;
esac
