#!/bin/sh
# Usage: oracle/arithmetic.sh. Writes crates/replay/stdin (calls) and crates/replay/stdout (answers);
# standard error gets what the published Rust does where document 01 refuses.
set -eu
cd "$(dirname "$0")/.."
program=$(oracle/build.sh arithmetic)
mkdir -p crates/replay
"$program" crates/replay/stdin crates/replay/stdout
