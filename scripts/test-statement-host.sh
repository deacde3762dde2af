#!/usr/bin/env bash
# Runs the host in C of a fails statement and compares what it prints.
# Usage: test-statement-host.sh PROGRAM
set -euo pipefail
cd "$(dirname "$0")/.."

diff host/statement.expected <("$1") || { echo 'the host prints something else'; exit 1; }
echo "the host in C: a fails statement as expected, $(wc -l <host/statement.expected) lines"
