#!/usr/bin/env bash
# Writes the table of docs/CHECK-TIMES.md anew from the times of a whole gate that proved everything from
# nothing: when each crate was proved, by the clock from the start, and the number of its must-fail edits
# with when the last was refused. What stands above the table stays. Usage: check-times.sh [LOG [PAGE]]
set -euo pipefail
cd "$(dirname "$0")/.."

log=${1:-build/proofs.log}
page=${2:-docs/CHECK-TIMES.md}
[[ $(tail -n 1 "$log") =~ ^[0-9]+\ passed,\ 0\ failed$ ]] || { echo "$log is not the log of a whole gate" >&2; exit 1; }
[ -f "$log.times" ] || { echo "there are no times beside $log" >&2; exit 1; }

# The rows in the order of crates.txt; a crate without a time was not proved in that run.
rows() {
    awk '
        FNR == NR { sub(/#.*/, ""); if (index($0, ":")) { name = substr($0, 1, index($0, ":") - 1); sub(/ .*/, "", name); names[++n] = name } next }
        $1 == "proved" && !($2 in seconds) { seconds[$2] = $3; if ($3 > last) last = $3 }
        $1 == "refused" { name = $2; sub(/\/.*/, "", name); edits[name]++; of_edits[name] = $3; if ($3 > last) last = $3 }
        END {
            print "| Crate | Proved after, s | Edits | The last refused after, s |"
            print "|---|--:|--:|--:|"
            for (i = 1; i <= n; i++) {
                name = names[i]
                if (!(name in seconds)) { print "no time of " name > "/dev/stderr"; exit 1 }
                if (name in edits) print "| " name " | " seconds[name] " | " edits[name] " | " of_edits[name] " |"
                else print "| " name " | " seconds[name] " | – | – |"
                all_edits += edits[name]
            }
            print "\nAll " n " crates and their " all_edits + 0 " edits: " last " seconds."
        }' crates.txt "$log.times"
}

new=$(mktemp)
trap 'rm -f "$new"' EXIT
sed '/^| Crate /,$d' "$page" >"$new"
rows >>"$new"
cat "$new" >"$page"
