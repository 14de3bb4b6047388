#!/usr/bin/env bash
# The merge gate: `rt ci` proves everything, and then the tests run. Its last line, 'N passed, 0 failed', is held back until they have
# passed as well, so that it stands at the end of a run in which nothing failed, and nowhere in another. An edit that must be refused and
# cannot be tried, which `rt ci` lets pass, fails here.
set -euo pipefail
cd "$(dirname "$0")/.."

# Not under target/: rt ci judges the checkout as it stands.
log=$(mktemp)
trap 'rm -f "$log"' EXIT

rt ci 2>&1 | tee "$log" | sed -u '$d' || { tail -n 1 "$log"; exit 1; }
if grep '^rt: ok' "$log" | grep -q ', [1-9][0-9]* bad'; then
    echo "gate.sh: an edit of crates/*/must-fail cannot be tried" >&2
    exit 1
fi
make --no-print-directory c-test compare list-test
tail -n 1 "$log" | grep -x '[0-9]* passed, 0 failed.*'
