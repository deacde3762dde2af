#!/usr/bin/env bash
# Runs the host in C of small markets and compares what it prints. Usage: test-markets-host.sh PROGRAM
set -euo pipefail
cd "$(dirname "$0")/.."

diff host/markets.expected <("$1") || { echo 'the host prints something else'; exit 1; }
echo "the host in C: every small market as expected, $(wc -l <host/markets.expected) lines"
