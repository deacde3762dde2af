#!/usr/bin/env bash
# Runs the host in C of a fail inside a trust account and compares what it prints.
# Usage: test-trust-host.sh PROGRAM
set -euo pipefail
cd "$(dirname "$0")/.."

diff host/trust.expected <("$1") || { echo 'the host prints something else'; exit 1; }
echo "the host in C: a fail inside a trust account as expected, $(wc -l <host/trust.expected) lines"
