#!/usr/bin/env bash
# examples.sh HOLD WALK DIR: what the example programs HOLD and WALK print of each example plan agrees with its
# listing, and with its bytes in hexadecimal; and what they say where there is no plan. DIR is for what is
# compared.
set -euo pipefail
hold=$1 walk=$2 dir=$3

# The lines of HOLD, from a listing.
held() {
    awk '
        $1 == "plan" || $1 == "tally" { next }
        $1 == "start" { print "start " $2 ": " ($3 == "L" ? "lost" : "safe") ", rounds " $4; next }
        $3 == "L" { print "state " $1 ": lost, rank " $4; next }
        { print "state " $1 ": " ($5 == "-" ? "safe, no command" : "command " $5) }
    '
}

# The plan file in hexadecimal, from the lines of WALK.
written() {
    awk '
        function state() { if (fields != "none") printf "020005%02X%04X%s%s", kind, count, practice, fields }
        BEGIN { fields = "none" }
        $1 == "states" { printf "010004%04X%04X", $2 + 0, $4 }
        $1 == "state" { state(); kind = index("ofr", substr($3, 1, 1)) - 1; count = $5; practice = "FFFF"; fields = "" }
        $1 == "practice" { practice = sprintf("%04X", $2 + 0) }
        $1 == "practice" || $1 == "command" {
            fields = fields sprintf("03%04X", 2 * (NF - 2))
            for (i = 3; i <= NF; i++) fields = fields sprintf("%04X", $i)
        }
        END { state(); printf "040000" }
    '
}

# fails STATUS MESSAGE COMMAND...: it ends with that status and says that alone
fails() {
    local wanted=$1 message=$2 status=0
    shift 2
    "$@" >"$dir/said" 2>&1 || status=$?
    [ "$status" = "$wanted" ] || { echo "examples.sh: $* ends with $status" >&2; exit 1; }
    echo "$message" | cmp - "$dir/said"
}

"$hold" examples/case-a.plan | cmp - examples/c/hold.expected
"$walk" examples/case-a.plan | cmp - examples/c/walk.expected
for plan in examples/*.plan; do
    held <"${plan%.plan}.listing" >"$dir/listed"
    "$hold" "$plan" | cmp - "$dir/listed"
    sed 's/#.*//' "${plan%.plan}.hex" | tr -d ' \n' >"$dir/bytes"
    "$walk" "$plan" | written | cmp - "$dir/bytes"
done

head -c 65537 /dev/zero >"$dir/long"
fails 1 "hold: gate_read: refusal 1, cut: the file ends too early" "$hold" /dev/null
fails 1 "walk: gate_read: refusal 1, cut: the file ends too early" "$walk" /dev/null
fails 1 "walk: $dir/long is larger than any plan file" "$walk" "$dir/long"
fails 2 "walk: $dir cannot be read" "$walk" "$dir"
fails 2 "walk: $dir/none cannot be read" "$walk" "$dir/none"
fails 2 "usage: walk PLAN" "$walk"
