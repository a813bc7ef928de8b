#!/bin/sh
# Usage: oracle/calls.sh. Writes crates/replay_calls/stdin (calls) and crates/replay_calls/stdout
# (answers); standard error gets how many answers have what.
set -eu
cd "$(dirname "$0")/.."
program=$(oracle/build.sh calls)
mkdir -p crates/replay_calls
"$program" crates/replay_calls/stdin crates/replay_calls/stdout
