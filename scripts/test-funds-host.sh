#!/usr/bin/env bash
# Runs the host in C of obligated funds for a default and compares what it prints.
# Usage: test-funds-host.sh PROGRAM
set -euo pipefail
cd "$(dirname "$0")/.."

diff host/funds.expected <("$1") || { echo 'the host prints something else'; exit 1; }
echo "the host in C: obligated funds for a default as expected, $(wc -l <host/funds.expected) lines"
