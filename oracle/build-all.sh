#!/bin/sh
# Builds every program of the oracle into target/oracle/ and prints where it is.
set -eu
cd "$(dirname "$0")/.."
for program in arithmetic logarithm controller_steps calls answer unlimited departs rewrite write_calls generate compare near_ties platform weights values; do
    oracle/build.sh "$program"
done
