#!/usr/bin/env bash
# Tests what scripts/progress.sh shows of the prover's lines, and what it keeps; and the table that
# scripts/check-times.sh makes of its times.
set -euo pipefail
cd "$(dirname "$0")/.."

log=$(mktemp)
page=$(mktemp)
clock=$(mktemp)
trap 'rm -f "$log" "$log.times" "$page" "$clock"' EXIT
said='logic=proved functions=3
== rules
rt: tally is kept: an earlier run on this machine proved the same files over the same libraries
rt: rules proved
rt: rules: its tests are proved
a.antt:5:6: error: this is not proved
rt: laws NOT PROVED (exit 1)
rt: must-fail rules/one.edit: refused, as it must be: a.antt:1:2: error
rt: FAILED: laws
7 passed, 1 failed'
shown=$(printf '%s' "$said" | scripts/progress.sh "$log")

expect() { # GREP-WORDS..
    grep -q "$@" <<<"$shown" || { printf 'not shown: %s\n%s\n' "$*" "$shown"; exit 1; }
}
refuse() { # PATTERN
    ! grep -q "$1" <<<"$shown" || { printf 'shown: %s\n%s\n' "$1" "$shown"; exit 1; }
}

expect '^To be proved, where it was not before: [0-9]* crates, and [0-9]* wrong edits to be refused; at most about '
expect '^proved 2 of [0-9]*: rules; at most about [0-9]* minutes to come$'
expect '^refused 1 of [0-9]*: rules/one$'
expect -Fx 'a.antt:5:6: error: this is not proved'
expect -Fx 'rt: laws NOT PROVED (exit 1)'
expect -Fx 'rt: FAILED: laws'
refuse ' passed, '
refuse 'logic='
refuse 'large solution'
refuse '^=='
refuse 'is kept'
refuse 'its tests'
[ "$(cat "$log")" = "$said" ] || { echo 'the log is not what was said'; exit 1; }
shown=$(cat "$log.times")
expect '^proved rules [0-9]*$'
expect '^refused rules/one [0-9]*$'

# A whole gate in which every crate was proved after 7 s, with two edits of rules and one of host.
{
    sed -n 's/^\([a-z_]*\)[^:]*:.*/proved \1 7/p' crates.txt
    echo 'refused rules/one 12'
    echo 'refused rules/two 15'
    echo 'refused host/one 31'
} >"$log.times"
echo '35 passed, 0 failed' >"$log"
printf 'Said above.\n\n| Crate | old |\n' >"$page"
scripts/check-times.sh "$log" "$page"
shown=$(cat "$page")
all=$(sed -n '/^[a-z_]*[^:]*:/p' crates.txt | wc -l)
expect -Fx 'Said above.'
expect -Fx '| rules | 7 | 2 | 15 |'
expect -Fx '| host | 7 | 1 | 31 |'
expect -Fx '| dayrun | 7 | – | – |'
expect -Fx "All $all crates and their 3 edits: 31 seconds."
refuse '| old |'
for line in '12 passed, 1 failed' 'rt: ok; handles allowed: none'; do
    ! scripts/check-times.sh <(echo "$line") "$page" 2>/dev/null || { echo "a table of: $line"; exit 1; }
done
printf '1 passed, 0 failed\n' >"$log"
printf 'proved rules 7\n' >"$log.times"
! scripts/check-times.sh "$log" "$page" 2>/dev/null || { echo 'a table of one crate'; exit 1; }
[ "$(cat "$page")" = "$shown" ] || { echo 'the page is not as it was'; exit 1; }

# The minutes to come behind a first crate, where so many seconds have gone.
to_come() { # SECONDS LINE
    echo "$1" >"$clock"
    printf '%s\n' "$2" | PROGRESS_CLOCK="$clock" scripts/progress.sh "$log" |
        sed -n 's/^proved 1 of .*; at most about \([0-9]*\) minutes to come$/\1/p'
}
line='rt: rules proved'
quick=$(to_come 0 "$line") slow=$(to_come 900 "$line")
[ -n "$quick" ] && [ -n "$slow" ] && [ "$slow" -gt $((4 * quick)) ] ||
    { echo "the pace is not learned: $quick and $slow minutes to come"; exit 1; }

# Libraries that are made later are named, and their time is counted.
first_line() { # LIBRARIES: what is said before the first proof
    printf '' | PROGRESS_LATER=$1 scripts/progress.sh "$log" none_of_the_crates
}
[ -z "$(first_line '')" ] || { echo 'nothing is to be proved'; exit 1; }
shown=$(first_line 'host callers desk entries funds trust')
expect '^To be proved, where it was not before: 0 crates, then 6 libraries; at most about '
shown=$(first_line 'desk')
expect '^To be proved, where it was not before: 0 crates, then 1 library; at most about a minute on '
# The estimate goes by the text of the crates that are named, and of what they stand on.
worth() { # NAME
    find "crates/$1/src" "crates/$1/specs" "crates/$1/proofs" -type f -printf '%s\n' 2>/dev/null |
        awk '{ n += $1 } END { print 8 + int(n / 1000) }'
}
known=$((($(worth rules) + $(worth laws)) / $(nproc)))
known=$(((known + 59) / 60))
if [ "$known" -le 1 ]; then known='about a minute'; else known="about $known minutes"; fi
shown=$(printf '' | scripts/progress.sh "$log" laws)
expect "^To be proved, where it was not before: 2 crates; at most $known on "
shown=$(printf '%s: proved\n' 'enum status::Told' 'struct dayrun::Sent' 'fn a' | scripts/progress.sh "$log" none_of_the_crates)
refuse ': proved'
shown=$(printf 'rt: chose --jobs 2 for rules\nrt: chose --jobs 2 for rules\n' | scripts/progress.sh "$log" rules)
expect -Fx 'proving 1 of 1: rules'
refuse 'chose'
shown=$(printf '== rules\nonly=0 proved=0\n== summary\nrules: ok\n1 of 1 crates ok\n' | scripts/progress.sh "$log" rules)
expect -Fx 'done 1 of 1: rules'
refuse 'ok$\|summary\|only='
echo 'what is shown of the proofs: as it must be'
