#!/bin/sh
# Usage: oracle/both-builds.sh LIST COMMAND..
# Holds a program's answers to a call list to both builds of the oracle (request Q-5): before the line at
# which the limit of rates first changed a result, inner ones too, to the published build (unlimited), from
# that line on to the departed one (answer). Prints how many lines were on each side, and of each profile. Exit
# status 0 if every byte agrees and the command ends with 0, 1 if not, 2 if the comparison cannot be made.
set -eu
if [ $# -lt 2 ] || [ ! -f "$1" ] || [ ! -r "$1" ]; then
    sed -n '2s/^# Usage/usage/p' "$0" >&2
    exit 2
fi
root=$(cd "$(dirname "$0")/.." && pwd)
list=$1
shift
built() {
    program=$("$root/oracle/build.sh" "$1") || exit 2
    echo "$root/$program"
}
unlimited=$(built unlimited) || exit 2
answer=$(built answer) || exit 2
departs=$(built departs) || exit 2
work=$(mktemp -d)
trap 'rm -rf "$work"' EXIT

{
    "$unlimited" <"$list" >"$work/unlimited" &&
        "$answer" <"$list" >"$work/answer" &&
        "$departs" profiles <"$list" >"$work/leaves"
} || exit 2
read -r leaves by_bytes by_packets <"$work/leaves"
code=0
"$@" <"$list" >"$work/command" || code=$?
case $code in
0) ;;
126 | 127)
    echo "$1: cannot be run" >&2
    exit 2
    ;;
*)
    echo "$list: the command ended with status $code" >&2
    exit 1
    ;;
esac

# Usage: shown FILE. Its line that differs.
shown() {
    sed -n "${place}p" "$work/$1" | grep . || echo " no such line"
}

# Usage: same BUILD FIRST. Whether the build's answers from line FIRST on, in the file theirs, are the
# command's, in the file ours.
same() {
    cmp -s "$work/theirs" "$work/ours" && return
    # Where one of the files ends early, the line is the first that it lacks.
    place=$(awk 'NR == FNR { theirs[NR] = $0; next }
        theirs[FNR] != $0 { exit }
        { same = FNR }
        END { print same + 1 }' "$work/theirs" "$work/ours")
    {
        echo "$list: line $(($2 + place - 1)) differs from the $1 build"
        echo "the build:  $(shown theirs)"
        echo "the command:$(shown ours)"
        echo "bytes from line $2 on: $(wc -c <"$work/theirs") and $(wc -c <"$work/ours")"
    } >&2
    exit 1
}

lines=$(wc -l <"$work/answer")
if [ "$leaves" = 0 ]; then
    cp "$work/unlimited" "$work/theirs"
    cp "$work/command" "$work/ours"
    same published 1
    echo "$list: $lines lines as the published build, none as the departed one; $by_bytes by bytes, $by_packets by packets"
    exit
fi
before=$((leaves - 1))
head -n "$before" "$work/unlimited" >"$work/theirs"
head -n "$before" "$work/command" >"$work/ours"
same published 1
tail -n +"$leaves" "$work/answer" >"$work/theirs"
tail -n +"$leaves" "$work/command" >"$work/ours"
same departed "$leaves"
echo "$list: $before lines as the published build, $((lines - before)) from line $leaves on as the departed one;" \
    "$by_bytes by bytes, $by_packets by packets"
