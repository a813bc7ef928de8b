#!/bin/sh
# Usage: oracle/controller_steps.sh. Writes crates/replay_steps/stdin (states) and
# crates/replay_steps/stdout (answers).
set -eu
cd "$(dirname "$0")/.."
program=$(oracle/build.sh controller_steps)
mkdir -p crates/replay_steps
"$program" crates/replay_steps/stdin crates/replay_steps/stdout
