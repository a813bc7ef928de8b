#!/bin/sh
# Usage: oracle/compare-stream.sh NAME COMMAND..
# Compares a program's answers with the oracle's on a list that is too long to store; 'generate kinds'
# names them. Up to the line at which the list leaves demand 2 (request Q-5) the answers are those of the
# published build, from there on those of the departed one. Prints how many lines there are of each profile.
# Exit status 0 if all bytes agree and all programs end with 0.
set -eu
if [ $# -lt 2 ]; then
    sed -n '2s/^# Usage/usage/p' "$0" >&2
    exit 2
fi
root=$(cd "$(dirname "$0")/.." && pwd)
name=$1
shift
generate=$root/$("$root/oracle/build.sh" generate)
answer=$root/$("$root/oracle/build.sh" answer)
unlimited=$root/$("$root/oracle/build.sh" unlimited)
departs=$root/$("$root/oracle/build.sh" departs)
work=$(mktemp -d)
trap 'rm -rf "$work"' EXIT
mkfifo "$work/ours"

# Usage: noted NAME COMMAND.. Runs the command; its exit status, which a pipe would hide, goes to a file.
noted() {
    of=$1
    shift
    code=0
    "$@" || code=$?
    echo "$code" >"$work/$of.status"
}
noted first_list "$generate" stream "$name" | noted departs "$departs" profiles >"$work/leaves"
read -r leaves by_bytes by_packets <"$work/leaves"

theirs() {
    if [ "$leaves" = 0 ]; then
        noted list_again "$generate" stream "$name" | noted published "$unlimited"
        return
    fi
    # No head: a list that is not read to its end would end its writers otherwise.
    noted list_again "$generate" stream "$name" | noted published "$unlimited" | sed "$leaves,\$d"
    noted third_list "$generate" stream "$name" | noted departed "$answer" | tail -n +"$leaves"
}
(noted list "$generate" stream "$name" | noted program "$@" >"$work/ours") &
same=0
theirs | cmp - "$work/ours" || same=$?
wait
for status in "$work"/*.status; do
    code=$(cat "$status")
    if [ "$code" != 0 ]; then
        of=${status##*/}
        echo "stream $name: the ${of%.status} ended with status $code" >&2
        same=1
    fi
done
[ "$same" = 0 ] || exit 1
echo "stream $name: no difference; $by_bytes lines by bytes, $by_packets by packets"
case $leaves in
0) echo "stream $name: every line as the published build" ;;
*) echo "stream $name: $((leaves - 1)) lines as the published build, from line $leaves on as the departed one" ;;
esac
