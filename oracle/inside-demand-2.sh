#!/bin/sh
# Usage: oracle/inside-demand-2.sh
# Holds the stored answers of the replays of the arithmetic, the controller's steps and the controller's calls to
# both builds of the oracle (request Q-5): all of them to the departed build, and those inside demand 2 to the
# published one too. A call of the arithmetic has left demand 2 where the limit of rates changed its result, a
# state of the steps where it changed one, inner ones too, and a sequence of calls from the first call on at
# which it did. Prints how many answers were compared with the published build, how many have left, and how many
# of these differ. Exit status 0 if every byte agrees, 1 if not, 2 if the comparison cannot be made.
set -eu
if [ $# != 0 ]; then
    sed -n '2s/^# Usage/usage/p' "$0" >&2
    exit 2
fi
cd "$(dirname "$0")/.."
work=$(mktemp -d)
trap 'rm -rf "$work"' EXIT

# Usage: same NAME FILE FILE. Whether the files agree.
same() {
    difference=$(cmp "$2" "$3" 2>&1) && return
    case $difference in
    *EOF*) echo "$1 differ: one of them ends with line ${difference##*line }" >&2 ;;
    *) echo "$1 differ, first in line ${difference##*line }" >&2 ;;
    esac
    exit 1
}

# Usage: made BUILD COMMAND.. Runs the command, which writes the build's files.
made() {
    build=$1
    shift
    "$@" 2>"$work/$build.log" && return
    cat "$work/$build.log" >&2
    exit 2
}

# Usage: inside BUILD. The build's answers, with the word left in the place of those that have.
inside() {
    awk -v left="$work/left" 'BEGIN { while ((getline number <left) > 0) gone[number] }
        { print (NR in gone) ? "left" : $0 }' "$work/$1.answers" >"$work/$1.inside"
}

# Usage: replay PROGRAM CRATE
replay() {
    departed=$(oracle/build.sh "$1") || exit 2
    published=$(oracle/build.sh "$1" 2 unlimited) || exit 2
    made departed "$departed" "$work/departed.calls" "$work/departed.answers" "$work/left"
    made published "$published" "$work/published.calls" "$work/published.answers"
    same "$1: the stored calls and the departed build's" "crates/$2/stdin" "$work/departed.calls"
    same "$1: the stored answers and the departed build's" "crates/$2/stdout" "$work/departed.answers"
    same "$1: the calls of the two builds" "$work/departed.calls" "$work/published.calls"
    inside departed
    inside published
    same "$1: the answers of the two builds inside demand 2" "$work/departed.inside" "$work/published.inside"
    differ=$(awk 'NR == FNR { published[NR] = $0; next } published[FNR] != $0' \
        "$work/published.answers" "$work/departed.answers" | wc -l)
    echo "$1: $(grep -vcx left "$work/departed.inside") answers as the published build;" \
        "$(wc -l <"$work/left") have left demand 2, of which $differ differ from it"
}
replay arithmetic replay
replay controller_steps replay_steps
replay calls replay_calls
