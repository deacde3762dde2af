#!/usr/bin/env bash
# Runs the host in C on the settled day P11, on refusals and on bad use, and compares what it
# prints and its status. Usage: test-host.sh PROGRAM
set -euo pipefail

program=$1
cases=0
failed=0

# The status, standard output and standard error of a run, in one line.
run() {
    local status=0 out err
    err=$(mktemp)
    out=$("$program" "$@" 2>"$err") || status=$?
    printf '%s|%s|%s' "$status" "$out" "$(head -n 1 "$err")"
    rm -f "$err"
}

expect() { # STATUS OUT ERR WORDS..
    local want="$1|$2|$3" got
    shift 3
    got=$(run "$@")
    cases=$((cases + 1))
    [ "$got" = "$want" ] && return
    failed=$((failed + 1))
    printf 'measures %s\n  expected %s\n  got      %s\n' "$*" "$want" "$got"
}

# P11
expect 0 49999 '' value 1 99999 0
expect 0 1643 '' charge 1 99999 12 10000 0

# price and accrued round apart
expect 0 30 '' value 1 61 1
expect 0 0 '' charge 1 61 12 10000 1
expect 0 152 '' value 3 101 1
expect 0 4 '' charge 3 101 12 10000 1

# the limits themselves
expect 0 2000000000000 '' value 20000000 200000 0
expect 0 2000000000000 '' value 20000000 190000 10000
expect 0 65753424657 '' charge 20000000 200000 12 10000 0
expect 0 65753424657 '' charge 20000000 190000 12 10000 10000
expect 0 0 '' value 1 1 0
expect 0 0 '' charge 1 1 1 0 0

# refusals, one number beyond each limit; lots are asked first
lots='give 1 to 20000000' price='give 1 to 200000' days='give 1 to 12' rate='give 0 to 10000'
accrued='give 0 to 10000' both='PRICE and ACCRUED together are 200001, give at most 200000'
expect 1 '' "measures: refused 7: LOTS is 0, $lots" value 0 99999 0
expect 1 '' "measures: refused 7: LOTS is 20000001, $lots" value 20000001 99999 0
expect 1 '' "measures: refused 7: LOTS is 0, $lots" value 0 0 10001
expect 1 '' "measures: refused 11: PRICE is 0, $price" value 1 0 0
expect 1 '' "measures: refused 11: PRICE is 0, $price" value 1 0 5
expect 1 '' "measures: refused 11: PRICE is 200001, $price" value 1 200001 0
expect 1 '' "measures: refused 11: ACCRUED is 10001, $accrued" value 1 1 10001
expect 1 '' "measures: refused 11: $both" value 1 190001 10000
expect 1 '' "measures: refused 7: LOTS is 0, $lots" charge 0 0 0 10001 10001
expect 1 '' "measures: refused 11: PRICE is 200001, $price" charge 1 200001 12 10000 0
expect 1 '' "measures: refused 11: DAYS is 0, $days" charge 1 99999 0 10000 0
expect 1 '' "measures: refused 11: DAYS is 13, $days" charge 1 99999 13 10000 0
expect 1 '' "measures: refused 11: RATE is 10001, $rate" charge 1 99999 12 10001 0
expect 1 '' "measures: refused 11: DAYS is 13, $days: RATE is 4294967295, $rate" charge 1 1 13 4294967295 0
expect 1 '' "measures: refused 11: ACCRUED is 4294967295, $accrued" charge 1 1 1 0 4294967295
expect 1 '' "measures: refused 11: $both" charge 1 200000 1 0 1

# bad use
say="measures: say 'value' or 'charge'"
whole='not a whole number from 0 to 4294967295'
expect 2 '' "$say"
expect 2 '' "$say" worth 1 99999 0
expect 2 '' 'measures: value takes 3 numbers, not 2' value 1 2
expect 2 '' 'measures: value takes 3 numbers, not 4' value 1 2 3 4
expect 2 '' 'measures: charge takes 5 numbers, not 4' charge 1 99999 12 10000
expect 2 '' "measures: LOTS is '-1', $whole" value -1 99999 0
expect 2 '' "measures: PRICE is '1e5', $whole" value 1 1e5 0
expect 2 '' "measures: PRICE is '', $whole" value 1 '' 0
expect 2 '' "measures: ACCRUED is '0.5', $whole" value 1 99999 0.5
expect 2 '' "measures: LOTS is '4294967296', $whole" value 4294967296 99999 0
expect 2 '' "measures: RATE is '99999999999999999999', $whole" charge 1 99999 12 99999999999999999999 0

printf 'the host in C: %d cases, %d wrong\n' "$cases" "$failed"
[ "$failed" -eq 0 ]
