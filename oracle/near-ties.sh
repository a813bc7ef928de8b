#!/bin/sh
# Usage: oracle/near-ties.sh [check]
# Finds the near ties of examples/ again: runs the search with two seeds, and by packets (Q-7), and keeps the
# numbers below.
# What is found depends on the platform's logarithm; see examples/README.md. With the word 'check'
# nothing is written, and the exit status tells whether the search finds the stored lists.
set -eu
case "$*" in
'' | check) ;;
*)
    echo "usage: oracle/near-ties.sh [check]" >&2
    exit 2
    ;;
esac
cd "$(dirname "$0")/.."
search=$(oracle/build.sh near_ties)
answer=$(oracle/build.sh answer)
found=target/oracle/near_ties
rm -rf "$found" && mkdir -p "$found/1" "$found/2" "$found/packets"
"$search" 133 1 "$found/1"
"$search" 97 2 "$found/2"
"$search" packets 135 1 "$found/packets"
while read -r kept name; do
    list=$found/$(dirname "$kept")/near_tie_$(basename "$kept")
    if [ "${1:-}" = check ]; then
        cmp "$list.txt" "examples/$name.txt"
    else
        cp "$list.txt" "examples/$name.txt"
        "$answer" <"$list.txt" >"examples/$name.answers"
    fi
    echo "$name"
    cat "$list.why"
done <<LISTS
2/67 logarithm_triples_rate
2/49 logarithm_halves_rate
1/27 logarithm_raises_by_quarter
2/97 logarithm_drops_by_fifth
2/11 logarithm_keeps_352_kbit
1/8 logarithm_drops_256_kbit
1/28 logarithm_drops_64_kbit
1/131 logarithm_drops_28_bit
1/133 logarithm_drops_31_bit
packets/122 packets_triples_1100_bit
packets/107 packets_raises_1300_bit
packets/35 packets_drops_5225_bit
packets/127 packets_raises_70_bit
packets/82 packets_keeps_486_kbit
packets/135 packets_keeps_1329_bit
LISTS
