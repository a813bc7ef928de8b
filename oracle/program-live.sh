#!/bin/sh
# Usage: oracle/program-live.sh [LISTS [SEED]]
# Compares the program with the oracle: on fresh lists of every kind and of both profiles (request Q-7), damaged
# ones among them, on the streamed lists that come to code 10, that have lines of both widths, that run to the
# limit of rates and that are the pads', on the stored list and three that are no fresh ones, and on what a shell
# can hand it. What comes before the line at which a list leaves demand 2 (request Q-5) is compared with the
# published build, the rest with the departed one.
# Needs rustc, and asks rt for the program (tools/proved.sh). With PROGRAM=FILE in the environment that program
# is compared instead.
set -eu
cd "$(dirname "$0")/.."
lists=${1:-3000}
seed=${2:-1}
program=${PROGRAM:-}
if [ -z "$program" ]; then
    program=$(tools/proved.sh answer)
fi
answer=$PWD/$(oracle/build.sh answer)
unlimited=$PWD/$(oracle/build.sh unlimited)
compare=$(oracle/build.sh compare)
generate=$(oracle/build.sh generate)
work=$(mktemp -d)
trap 'rm -rf "$work"' EXIT

# Usage: ends NAME SECONDS STATUSES COMMAND.. Whether the command ends in time with one of the statuses.
ends() {
    name=$1 seconds=$2 statuses=$3
    shift 3
    code=0
    timeout -k 5 "$seconds" "$@" || code=$?
    case " $statuses " in
    *" $code "*) return ;;
    esac
    [ "$code" = 124 ] && code="none: it does not end"
    echo "$name: status $code" >&2
    exit 1
}

ends "fresh lists" 300 0 "$compare" --published "$unlimited" "$lists" "$seed" -- "$program"
ends "the stored list" 60 0 oracle/both-builds.sh crates/answer/stdin "$program"
for stream in bytes mixed pads infinity six-hours; do
    ends "a streamed list" 300 0 oracle/compare-stream.sh "$stream" "$program"
done

# None of these leaves demand 2.
same() {
    "$unlimited" <"$work/list" >"$work/theirs"
    ends "$1" 60 0 "$program" <"$work/list" >"$work/ours"
    cmp "$work/theirs" "$work/ours"
    echo "$1: no difference"
}
for kind in full packets-full wide-chunks; do
    "$generate" "$kind" 1 >"$work/list"
    same "generate $kind 1"
done
read=' 7                   0                   0     0'
wide_read=' 7                   0                   0       0'
: >"$work/list"
same "empty input"
printf '%s' "$read" >"$work/list"
same "a last line without newline"
printf '%s\n%s' "$read" "$wide_read" >"$work/list"
same "a wide last line without newline"
printf '%s\n%s ' "$wide_read" "$read" >"$work/list"
same "a last line of 49 columns without newline"
head -c 3000000 /dev/urandom >"$work/list"
same "3 MB of noise"
head -c 100000000 /dev/zero | tr '\0' '7' >"$work/list"
printf '\n%s\n%s\n' "$read" "$wide_read" >>"$work/list"
same "a line of 100 MB"

# A full and a closed output: the program ends, and tells that the answers cannot be written; what was
# written before is right.
yes "$read" | head -n 1000000 >"$work/list"
ends "a full output" 20 0 "$program" <"$work/list" >/dev/full
echo "a full output: it ends"
mkfifo "$work/pipe"
head -n 1000 <"$work/pipe" >"$work/ours" &
ends "a closed output" 20 "0 141" "$program" <"$work/list" >"$work/pipe"
wait
head -n 1000 "$work/list" | "$answer" >"$work/theirs"
cmp "$work/theirs" "$work/ours"
echo "a closed output: it ends"
