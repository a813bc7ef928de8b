#!/bin/sh
# Makes the sample anew. Each line of oracle/sample/lists.txt is a kind and a seed of the generator,
# or 'example' and a list of examples/; each gives NAME.calls and the oracle's NAME.answers.
# Usage: oracle/sample.sh [DIRECTORY], by default oracle/sample. Prints the lines and bytes of all.
set -eu
cd "$(dirname "$0")/.."
to=${1:-oracle/sample}
generate=$(oracle/build.sh generate)
answer=$(oracle/build.sh answer)
mkdir -p "$to"
rm -f "$to"/*.calls "$to"/*.answers
while read -r kind seed; do
    if [ "$kind" = example ]; then
        name=$seed
        cp "examples/$seed.txt" "$to/$name.calls"
    else
        name=$kind-$seed
        "$generate" "$kind" "$seed" >"$to/$name.calls"
    fi
    "$answer" <"$to/$name.calls" >"$to/$name.answers"
done <oracle/sample/lists.txt
cat "$to"/*.calls | wc -lc
