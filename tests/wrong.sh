#!/usr/bin/env bash
# Tries every edit that must be refused: those of crates/*/must-fail, which the gate tries too, and those of crates/*/wrong, for which it
# has no time. They are put together in a copy of the repository, outside the checkout, since `rt ci` refuses sources that no crate lists.
set -euo pipefail
cd "$(dirname "$0")/.."

copy=$(mktemp -d)
trap 'rm -rf "$copy"' EXIT
git ls-files -z --cached --others --exclude-standard crates crates.txt | xargs -0 cp --parents -t "$copy"
for edit in "$copy"/crates/*/wrong/*.edit; do
    together=${edit%/wrong/*}/must-fail
    mkdir -p "$together"
    [ ! -e "$together/${edit##*/}" ] || { echo "wrong: ${edit#"$copy"/} has the name of a must-fail edit" >&2; exit 1; }
    mv "$edit" "$together"
done
cd "$copy"
rt must-fail
