#!/bin/sh
# archive.sh LIBRARY: it defines the three calls and nothing else, needs of C no more than moving memory (so it allocates nothing), and has
# no data that a call could alter (so it keeps nothing).
set -eu
lib=$1
fail() { echo "$lib: $*" >&2; exit 1; }

defined=$(nm -g --defined-only "$lib" | awk 'NF == 3 { print $3 }' | sort | tr '\n' ' ')
[ "$defined" = "gate_decide gate_read gate_search " ] || fail "defines $defined"
needed=$(nm -u "$lib" | awk 'NF == 2 { print $2 }' | sort -u | grep -v -x -e memcpy -e memmove -e memset -e memcmp -e bcmp || true)
[ -z "$needed" ] || fail "needs $needed"
written=$(size -A "$lib" | awk '$1 ~ /^\.(data|bss|tdata|tbss)/ && $1 !~ /^\.data\.rel\.ro/ { sum += $2 } END { print sum + 0 }')
[ "$written" = 0 ] || fail "has $written bytes of data that can be written"
