#!/bin/sh
# Usage: oracle/rewrite.sh [DIRECTORY]
# Makes what the gate hands to the program that writes a list anew, by default into crates/rewrite: stdin is
# the list of oracle/program.sh, the sample as one list, its last line open, without the kind full, nearly
# all of whose lines are the same; stdout is the list that the oracle writes from the calls it reads there, all wide,
# with the number alone where a line is refused.
set -eu
cd "$(dirname "$0")/.."
to=${1:-crates/rewrite}
rewrite=$(oracle/build.sh rewrite)
oracle/program.sh target/oracle/without_full full >/dev/null
mkdir -p "$to"
cp target/oracle/without_full/stdin "$to/stdin"
"$rewrite" <"$to/stdin" >"$to/stdout"
wc -lc "$to/stdin" "$to/stdout"
