#!/usr/bin/env bash
# Prints the version, MAJOR.MINOR.PATCH, as the header has it.
set -euo pipefail
cd "$(dirname "$0")/.."

sed -n 's/^#define DAY_VERSION_\(MAJOR\|MINOR\|PATCH\) \([0-9]*\)u$/\2/p' host/settlement_day.h | paste -sd .
