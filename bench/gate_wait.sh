#!/usr/bin/env bash
# One thread holds a book for two seconds while fifteen others wait for it.
# Prints the time that passed and the processor time of the whole process: threads that wait sleep, so it stays far below a tenth of a second.
# Build the program first: `dev/build tests_gate`.
set -euo pipefail
program="$(dirname "$0")/../crates/tests_gate/out/tests_gate"
[ -x "$program" ] || { echo "not built: run dev/build tests_gate" >&2; exit 1; }
TIMEFORMAT='%R %U %S'
times=$({ time "$program" 2000 >/dev/null; } 2>&1)
read -r passed user system <<<"$times"
awk -v p="$passed" -v u="$user" -v s="$system" 'BEGIN { printf "passed %.2f s, processor %.3f s\n", p, u + s }'
