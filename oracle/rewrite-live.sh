#!/bin/sh
# Usage: oracle/rewrite-live.sh [LISTS [SEED]]
# Compares the program that writes a list anew with the oracle: on fresh lists of every kind, damaged ones
# among them, on 10^6 lines of both widths, and on what a shell can hand it; then the line writer on 10^6
# random calls. Needs rustc, and asks rt for the programs (tools/proved.sh). With
# PROGRAM=FILE or PROGRAM2=FILE in the environment that program is compared instead of the first or the
# second.
set -eu
cd "$(dirname "$0")/.."
lists=${1:-3000}
seed=${2:-1}
program=${PROGRAM:-}
if [ -z "$program" ]; then
    program=$(tools/proved.sh rewrite)
fi
replay=${PROGRAM2:-}
if [ -z "$replay" ]; then
    replay=$(tools/proved.sh replay_lines)
fi
rewrite=$(oracle/build.sh rewrite)
write_calls=$(oracle/build.sh write_calls)
generate=$(oracle/build.sh generate)
compare=$(oracle/build.sh compare)
work=$(mktemp -d)
trap 'rm -rf "$work"' EXIT

# Usage: ends NAME SECONDS COMMAND.. Whether the command ends in time with status 0.
ends() {
    name=$1 seconds=$2
    shift 2
    code=0
    timeout -k 5 "$seconds" "$@" || code=$?
    [ "$code" = 0 ] && return
    [ "$code" = 124 ] && code="none: it does not end"
    echo "$name: status $code" >&2
    exit 1
}

ends "fresh lists" 300 "$compare" --rewrite "$lists" "$seed" -- "$program"

same() {
    "$rewrite" <"$work/list" >"$work/theirs"
    ends "$1" 60 "$program" <"$work/list" >"$work/ours"
    if ! cmp "$work/theirs" "$work/ours"; then
        echo "$1: a difference" >&2
        exit 1
    fi
    echo "$1: no difference"
}
for kind in $("$generate" kinds | sed '/^stream /d; /^packets-KIND/d; s/ .*//'); do
    "$generate" "$kind" "$seed" >"$work/list"
    same "generate $kind $seed"
done
# Lines of kind 8, refused ones among them (Q-7).
for place in $(seq 100); do
    "$generate" pads $((seed + place))
done >"$work/list"
same "100 pads lists end to end"
for kind in damaged mixed; do
    for place in $(seq 100); do
        "$generate" "$kind" $((seed + place))
    done >"$work/list"
    same "100 $kind lists end to end"
done
"$generate" stream mixed >"$work/stream"
head -n 1000000 "$work/stream" >"$work/list"
rm "$work/stream"
same "10^6 lines of both widths"
read=' 7                   0                   0     0'
wide_read=' 7                   0                   0       0'
: >"$work/list"
same "empty input"
printf '\n' >"$work/list"
same "an empty line alone"
printf '%s' "$read" >"$work/list"
same "a last line without newline"
printf '%s' "$wide_read" >"$work/list"
same "a wide last line without newline"
printf '%s\n\n' "$read" >"$work/list"
same "an empty last line"
printf '%s  \n%s \n%s\n' "$read" "$read" "$wide_read" >"$work/list"
same "spaces behind a line"
head -c 3000000 /dev/urandom >"$work/list"
same "3 MB of noise"
head -c 100000000 /dev/zero | tr '\0' '7' >"$work/list"
printf '\n%s\n%s\n' "$read" "$wide_read" >>"$work/list"
same "a line of 100 MB"
for kind in dense frames; do
    "$generate" "$kind" "$seed" | awk '{ printf "%s\r\n", $0 }' >"$work/list"
    same "CRLF line ends, $kind"
done

# The line writer alone: any call, and buffers of 0 to 64 bytes.
"$write_calls" 1000000 "$seed" "$work/calls"
ends "random calls" 300 "$replay" <"$work/calls/stdin" >"$work/ours"
"$write_calls" differs "$work/calls" "$work/ours"

# The lines that were written are calls, all wide, and written anew they are the same.
LC_ALL=C awk 'length($0) == 53 && /^ 0 / { print substr($0, 4) }' "$work/calls/stdout" >"$work/list"
same "the lines of the random calls"
cmp "$work/list" "$work/ours"
