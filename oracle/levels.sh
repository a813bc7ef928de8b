#!/bin/sh
# Usage: oracle/levels.sh PROGRAM CRATE. Builds the program at optimisation levels 0 to 3 and compares
# what each writes with crates/CRATE/stdin and crates/CRATE/stdout.
set -eu
program=$1
crate=$2
cd "$(dirname "$0")/.."
for level in 0 1 2 3; do
    built=$(oracle/build.sh "$program" "$level")
    rm -f "$built.calls" "$built.answers"
    "$built" "$built.calls" "$built.answers" 2>"$built.findings"
    cmp "$built.calls" "crates/$crate/stdin"
    cmp "$built.answers" "crates/$crate/stdout"
    echo "$program, level $level: the same"
done
