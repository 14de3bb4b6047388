#!/usr/bin/env bash
# refusals.sh HEADER DIR: the numbers and names of gate_refusal_text, which the test program HEADER prints, are
# those of the library. DIR is for what is compared.
set -euo pipefail
sed -n 's/^    \([A-Z][a-z]*\) = \([0-9]*\),$/\2 \L\1/p' crates/tables/src/lib.rt >"$2/refusals"
"$1" names | cmp - "$2/refusals"
