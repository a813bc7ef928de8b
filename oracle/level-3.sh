#!/bin/sh
# Usage: oracle/level-3.sh
# Shows that the Rust, with its own f64::powi, differs from itself by optimisation level:
# the weights at levels 0 to 3, and a list of 13 lines that publishes another rate at level 3. Exit
# status 0 if that is so with this rustc.
set -eu
cd "$(dirname "$0")/.."
work=$(mktemp -d)
trap 'rm -rf "$work"' EXIT
list=examples/weights_at_level_3
for level in 0 1 2 3; do
    "$(oracle/build.sh weights "$level")" >"$work/weights_$level"
    "$(oracle/build.sh platform "$level")" <$list.txt >"$work/platform_$level"
    differ=$(grep -c differs "$work/weights_$level") || [ "$differ" = 0 ]
    last=$(tail -n 1 "$work/platform_$level")
    echo "level $level: $differ of 15 weights are not those of the steps; last answer$last"
    eval "differ_$level=\$differ"
done
"$(oracle/build.sh answer)" <$list.txt >"$work/oracle"
echo "oracle:                                               last answer$(tail -n 1 "$work/oracle")"
cat "$work/weights_3"
[ "$differ_0$differ_1$differ_2" = 000 ] && [ "$differ_3" -gt 0 ]
for level in 0 1 2; do
    cmp "$work/platform_$level" "$work/oracle"
done
[ "$(wc -l <"$work/platform_3")" = 13 ]
if cmp -s "$work/platform_3" "$work/oracle"; then
    echo "level 3 publishes the same" >&2
    exit 1
fi
