#!/bin/sh
# Usage: oracle/build.sh PROGRAM [LEVEL [unlimited]]
# Builds oracle/src/PROGRAM.rs with overflow checks, at optimisation level 2 or LEVEL, and prints where the
# program is: under target/, which git ignores. With 'unlimited' it is the published build, without the limit of
# rates (request Q-5), of a program that has one: arithmetic, controller_steps or calls.
set -eu
cd "$(dirname "$0")/.."
usage() {
    sed -n '2s/^# Usage/usage/p' oracle/build.sh >&2
    exit 2
}
[ $# -ge 1 ] || usage
program=$1
level=${2:-2}
out=target/oracle/$program-$level
mkdir -p target/oracle
case "${3:-} $program" in
" $program") set -- ;;
'unlimited arithmetic' | 'unlimited controller_steps' | 'unlimited calls')
    out=$out-unlimited
    set -- --cfg unlimited
    ;;
*) usage ;;
esac
# TimeDelta::from_secs and from_millis are test-only in the source.
[ "$program" != arithmetic ] || set -- "$@" --cfg test
rustc --edition 2021 "$@" --check-cfg 'cfg(unlimited, test)' -C opt-level="$level" -C overflow-checks=on \
    -C panic=unwind -o "$out" "oracle/src/$program.rs"
echo "$out"
