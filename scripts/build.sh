#!/usr/bin/env bash
# Proves and builds what is not built yet: the program dayrun, the libraries and the tool tape. Says
# beforehand how long it takes and then how far it is.
set -euo pipefail
cd "$(dirname "$0")/.."
scripts/tools.sh rt make gcc cargo rustc

read -ra libraries <<<"$(make --no-print-directory list)"

# The libraries whose archives are still to be made.
to_make() {
    for name in "${libraries[@]}"; do
        make --no-print-directory -q "target/staticlib/lib$name.a" 2>/dev/null || printf '%s ' "$name"
    done
}

mkdir -p build
sources=$(scripts/proved.sh sources)
PROGRESS_LATER=$(to_make) scripts/check.sh build/check.log
# rt run links the program that was proved and runs it: on no tape at all, of which nothing is printed.
(cd crates/dayrun && exec rt run) </dev/null >/dev/null 2>build/dayrun.log || { cat build/dayrun.log >&2; exit 1; }
scripts/proved.sh take "$sources"
make --no-print-directory libraries
cargo build --quiet --release --offline -p tape
echo 'Proved: the program target/bin/dayrun and the library build/lib/libsettlement_day.a.'
