#!/bin/sh
# Usage: oracle/program.sh [DIRECTORY [KIND]]
# Makes the call list that the gate hands to the program anew, by default into crates/answer: stdin is the sample
# as one list, stdout the oracle's answers. First, on the controller that the program starts with, stand the lines
# about the ends of chunks, document 01's example and the list fresh; each other list stands behind a line of kind
# 8, of either width in turn, so that it meets a fresh controller by bytes and an empty queue (request Q-7). The
# lists that leave demand 2 (request Q-5) come last, and the list leaves it within them, or this command fails; the
# last line lacks its newline. Lists of KIND are left out.
set -eu
cd "$(dirname "$0")/.."
to=${1:-crates/answer}
without=${2:-}
answer=$(oracle/build.sh answer)
departs=$(oracle/build.sh departs)
mkdir -p "$to"
chunk=65536

# Usage: whole LIST. The list, its last line with its newline.
whole() {
    cat "$1"
    [ "$(tail -c 1 "$1" | wc -l)" = 1 ] || echo
}
# Usage: started LIST.. Each list behind its kind 8.
started() {
    places=6
    for list in "$@"; do
        printf "%2d%20d%20d%${places}d\n" 8 0 0 0
        whole "$list"
        places=$((14 - places))
    done
}
{
    cat oracle/sample/chunks-1.calls
    # One line up to the chunk's end, where the next list has to start.
    size=$(wc -c <oracle/sample/chunks-1.calls)
    head -c $((chunk - size % chunk - 1)) /dev/zero | tr '\0' 7
    echo
    cat oracle/sample/wide-chunks-1.calls
    printf '%2d%20d%20d%6d\n' 1 4696837146684686336 0 0 7 0 0 0
    whole oracle/sample/fresh-1.calls
} >"$to/stdin"
staying=
leaving=
while read -r kind seed; do
    case $kind in
    chunks | wide-chunks | fresh | "$without") continue ;;
    example) list=oracle/sample/$seed.calls ;;
    *) list=oracle/sample/$kind-$seed.calls ;;
    esac
    if [ "$("$departs" <"$list")" = 0 ]; then
        staying="$staying $list"
    else
        leaving="$leaving $list"
    fi
done <oracle/sample/lists.txt
# shellcheck disable=SC2086 # The names have no spaces.
started $staying >>"$to/stdin"
first=$(($(wc -l <"$to/stdin") + 1))
# shellcheck disable=SC2086
started $leaving >>"$to/stdin"
# An open last line that changes what is published.
printf '%2d%20d%20d%6d\n%2d%20d%20d%6d' 8 0 0 0 1 4668012349850910720 0 0 >>"$to/stdin"
"$answer" <"$to/stdin" >"$to/stdout"
wc -lc "$to/stdin"
leaves=$("$departs" <"$to/stdin")
echo "lists that leave demand 2 from line $first on; it leaves at line $leaves"
if [ -n "$leaving" ] && [ "$leaves" = 0 ]; then
    echo "$to/stdin does not leave demand 2, though lists of it do" >&2
    exit 1
fi
if [ "$leaves" != 0 ] && [ "$leaves" -lt "$first" ]; then
    echo "$to/stdin leaves demand 2 before the lists that leave" >&2
    exit 1
fi
