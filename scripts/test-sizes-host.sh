#!/usr/bin/env bash
# Runs the host in C of a simulated desk and compares what it prints. Usage: test-sizes-host.sh PROGRAM
set -euo pipefail
cd "$(dirname "$0")/.."

diff host/sizes.expected <("$1") || { echo 'the host prints something else'; exit 1; }
echo "the host in C: unit sizes on a simulated desk as expected, $(wc -l <host/sizes.expected) lines"
