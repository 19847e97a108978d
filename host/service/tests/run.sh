#!/usr/bin/env bash
# All tests: tests/run.sh TESTS LIBRARY INCLUDE, with TESTS the program of tests. Two parts run at
# the same time. The last line is 'N passed, 0 failed', or the exit status is not 0.
set -u
export LC_ALL=C
here=$(cd "$(dirname "$0")" && pwd)
log=$(mktemp -d) || exit 1
trap 'rm -rf "$log"' EXIT

"$1" "$here" kills >"$log/2" 2>&1 &
{
    "$1" "$here" commands messages encode reach carry saving check
    "$1" "$here" pairs
    "$here/package.sh" "$2" "$3"
} >"$log/1" 2>&1
wait
cat "$log/1" "$log/2" | grep -vE '^[0-9]+ passed, [0-9]+ failed$'
# Each of the four has its own count, or did not come to its end.
cat "$log/1" "$log/2" | awk '
    /^[0-9]+ passed, [0-9]+ failed$/ { parts++; passed += $1; failed += $3 }
    END { failed += 4 - parts; printf "%d passed, %d failed\n", passed, failed; exit failed != 0 }'
