#!/usr/bin/env bash
# The test command: rt ci, then the tests from outside. The last line is rt ci's, 'N passed, 0 failed', and stands there only where all passed.
set -euo pipefail
cd "$(dirname "$0")/.."
# In a fresh clone all libraries in crates/*/out after rt ci are of its run; elsewhere rt ci puts older ones back.
gate=fresh
for out in crates/*/out; do
    if [ -e "$out" ]; then gate=used; fi
done
log=$(mktemp)
trap 'rm -f "$log"' EXIT
rt ci | tee "$log"
# An edit that can't be tried passes rt ci, but shows nothing.
if grep -Eq '^rt: ok.*must-fail edits: [^;]*, [0-9]+ bad' "$log"; then
    echo "tests/gate.sh: of the must-fail edits some are bad, as rt ci says above"
    exit 1
fi
make --no-print-directory outside GATE=$gate
tail -n 1 "$log"
