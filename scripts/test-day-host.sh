#!/usr/bin/env bash
# Runs the host in C on the settled days P5 to P9 and compares what it prints; then with an output
# that cannot be written. Usage: test-day-host.sh PROGRAM
set -euo pipefail
cd "$(dirname "$0")/.."

program=$1
diff host/day.expected <("$program") || { echo 'the host prints something else'; exit 1; }
status=0
said=$("$program" 2>&1 >/dev/full) || status=$?
if [ "$status" -ne 3 ] || [[ $said != 'day: the lines could not be written'* ]]; then
    echo "with a full output the host ends with $status and says: $said"
    exit 1
fi
echo "the host in C: the day P5 to P9 as expected, $(wc -l <host/day.expected) lines"
