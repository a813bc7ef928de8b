#!/bin/sh
# Usage: tools/usage.sh. What ./falghenti answers to a person before any program runs: its usage texts
# and the status of each refusal. Needs neither the kit nor rustc. Exit status 0 if all is as it says.
set -eu
cd "$(dirname "$0")/.."
work=$(mktemp -d)
trap 'rm -rf "$work"' EXIT

# Usage: says STATUS TEXT ARGUMENT... Runs ./falghenti so; the status and a line with the text are asked.
says() {
    status=$1
    text=$2
    shift 2
    got=0
    ./falghenti "$@" >"$work/said" 2>&1 </dev/null || got=$?
    if [ "$got" != "$status" ] || ! grep -qF -- "$text" "$work/said"; then
        echo "./falghenti $*: status $got, not $status, or no '$text':" >&2
        cat "$work/said" >&2
        exit 1
    fi
}
says 0 'usage: ./falghenti COMMAND' --help
says 2 'a command is missing'
says 2 "there is no command 'play'" play
for command in answer make rewrite; do
    says 0 "usage: ./falghenti $command" "$command" --help
    says 2 "$command takes no option -v" "$command" -v
    says 2 "$command takes one" "$command" README.md NOTICE
    says 2 'there is no file no-such-list' "$command" no-such-list
    says 2 'docs is a directory' "$command" docs
done
says 0 'start packets' make --help
says 2 '--version takes no argument' --version answer
echo "./falghenti: usage and refusals as documented"
