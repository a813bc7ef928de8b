#!/bin/sh
# Usage: oracle/logarithm.sh. Writes crates/replay_logarithm/stdin (calls) and
# crates/replay_logarithm/stdout (answers).
set -eu
cd "$(dirname "$0")/.."
program=$(oracle/build.sh logarithm)
mkdir -p crates/replay_logarithm
"$program" crates/replay_logarithm/stdin crates/replay_logarithm/stdout
