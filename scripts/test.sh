#!/usr/bin/env bash
# The one test command. It proves every crate and then runs the tests of what was
# built from them. The last line, and no other, is the prover's verdict, or says which test failed.
set -euo pipefail
cd "$(dirname "$0")/.."

step() { # NAME COMMAND..
    local name=$1
    shift
    printf '== %s\n' "$name"
    "$@" || { printf 'tests failed: %s\n' "$name"; exit 1; }
}

# Proves all crates, tries the must-fail edits and runs the program; the log keeps the verdict. What rt has
# passed before, of the same text, it does not prove again; `rt ci --anew` does.
proofs() {
    local sources
    sources=$(scripts/proved.sh sources)
    rt ci 2>&1 | scripts/progress.sh build/proofs.log || return 1
    scripts/proved.sh take "$sources"
}

# rt ci passes over an edit that no longer fits the text: none may.
edits_fit() {
    if grep -E '^rt: ok.*, [1-9][0-9]* bad' build/proofs.log; then return 1; fi
    grep -q '^rt: ok' build/proofs.log
}

# The pages of `tape`, looked at in Chromium; 3 says that there is none, so that they were not looked at.
pages() {
    local status=0
    scripts/test-page.sh build/release/tape || status=$?
    [ "$status" -eq 3 ] || return "$status"
}

# rt proves nothing in a folder with a symbolic link: what is built leaves none, so that all can be proved here again.
no_links() {
    local links
    links=$(find . -path ./.git -prune -o -type l -print)
    [ -z "$links" ] || { printf 'a symbolic link: %s\n' $links; return 1; }
}

step 'tools' scripts/tools.sh rt make gcc g++ cargo rustc pkg-config
step 'what is shown of the proofs' scripts/test-progress.sh
step 'make day and make run' scripts/test-day.sh
mkdir -p build
step 'proofs' proofs
verdict=$(tail -n 1 build/proofs.log)
[[ $verdict =~ ^[0-9]+\ passed,\ 0\ failed$ ]] || { echo 'tests failed: no verdict on the proofs'; exit 1; }

step 'the wrong edits fit the text' edits_fit

step 'what the libraries stand on' scripts/check.sh build/check.log
step 'the libraries' make --no-print-directory libraries
step 'the libraries are no links' no_links
step 'the hosts in C' make --no-print-directory hosts
step 'what the host of value and charge prints' scripts/test-host.sh build/measures
step 'what the host of the book prints' scripts/test-day-host.sh build/day
step 'what the host of a trust account prints' scripts/test-trust-host.sh build/trust
step 'what the host of a simulated desk prints' scripts/test-sizes-host.sh build/sizes
step 'what the host of funds for a default prints' scripts/test-funds-host.sh build/funds
step 'what the host of small markets prints' scripts/test-markets-host.sh build/markets
step 'what the host of a fails statement prints' scripts/test-statement-host.sh build/statement
step 'the stack that a call needs' build/stack
step 'the tests in Rust' cargo test --release --offline
step 'the test programs' cargo build --release --offline
step 'the package' scripts/test-package.sh
step 'the pages in a browser' pages
step 'value and charge beside the second engine' build/release/measures
step 'entries beside the second engine' build/release/entries
step 'a trust account beside the second engine' build/release/trust
step 'simulated desks beside the second engine' build/release/simulation
step 'funds for a default beside the second engine' build/release/funds
step 'every small market beside the second engine' build/release/markets
step 'fails statements beside the second engine' build/release/statement
step 'the calls beside the second engine' build/release/calls
step 'many instructions in one call beside the second engine' build/release/runs
step 'callers beside the second engine' build/release/callers
step 'the program beside the second engine' build/release/tapes
step 'the memory that the tool takes of long tapes' build/release/memory
step 'the program where input or output fails' build/release/failures
step 'the desk'\''s console where writing fails' build/release/daybook_faults
step 'what is printed as JSON beside its schema' build/release/schema

printf '%s\n' "$verdict"
