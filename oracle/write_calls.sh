#!/bin/sh
# Usage: oracle/write_calls.sh [DIRECTORY]
# Makes the calls that the gate hands to the line writer, and what writing each gives, by default into
# crates/replay_lines: 2,000 calls of oracle/src/write_calls.rs.
set -eu
cd "$(dirname "$0")/.."
to=${1:-crates/replay_lines}
mkdir -p "$to"
"$(oracle/build.sh write_calls)" 2000 1 "$to"
