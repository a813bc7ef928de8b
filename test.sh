#!/bin/sh
# All tests. First the usage texts of ./falghenti, and that the column writer does not divide; where Python
# is at hand, that the stored columns are what it formats, and the stored list what its model makes of the
# words; where rustc is, what the oracle can show by itself and that the stored answers are what it makes
# today; then the gate, which needs the Rattle kit alone. Its last line is 'N passed, 0 failed'.
set -eu
cd "$(dirname "$0")"
tools/usage.sh
tools/no-division.sh
if command -v python3 >/dev/null 2>&1; then
    tools/columns.py --stored target/columns
    cmp target/columns/stdin crates/replay_columns/stdin
    cmp target/columns/stdout crates/replay_columns/stdout
    tools/words.py --stored target/words
    cmp target/words/stdin crates/make_list/stdin
    cmp target/words/stdout crates/make_list/stdout
else
    echo "no python3: the stored columns and the stored words are not made anew"
fi
if command -v rustc >/dev/null 2>&1; then
    oracle/quick.sh
    oracle/levels.sh arithmetic replay
    oracle/levels.sh logarithm replay_logarithm
    oracle/levels.sh controller_steps replay_steps
    oracle/levels.sh calls replay_calls
    oracle/inside-demand-2.sh
    oracle/program.sh target/oracle/program
    cmp target/oracle/program/stdin crates/answer/stdin
    cmp target/oracle/program/stdout crates/answer/stdout
    oracle/rewrite.sh target/oracle/rewritten
    cmp target/oracle/rewritten/stdin crates/rewrite/stdin
    cmp target/oracle/rewritten/stdout crates/rewrite/stdout
    oracle/write_calls.sh target/oracle/lines
    cmp target/oracle/lines/stdin crates/replay_lines/stdin
    cmp target/oracle/lines/stdout crates/replay_lines/stdout
else
    echo "no rustc: the oracle is skipped"
fi
# rt ci passes where an edit is bad, that is where it cannot be applied or read; here that fails.
mkdir -p target
{ rt ci 2>&1 && echo 0 >target/ci.status || echo $? >target/ci.status; } | tee target/ci.log
status=$(cat target/ci.status)
if [ "$status" = 0 ] && { ! grep -q '^rt: ok' target/ci.log || grep -q '^rt: ok.*, [1-9][0-9]* bad' target/ci.log; }; then
    echo "test.sh: no line 'rt: ok', or one with bad edits: 0 passed, 1 failed"
    exit 1
fi
exit "$status"
