#!/bin/sh
# Usage: oracle/quick.sh
# Builds the oracle and compares, with fixed seeds, all that can be compared without the port, in
# less than two minutes. Exit status 0 if everything agrees and every run ends with 0.
set -eu
cd "$(dirname "$0")/.."
work=target/oracle/quick
rm -rf "$work" && mkdir -p "$work"
answer=$(oracle/build.sh answer)
unlimited=$(oracle/build.sh unlimited)
departs=$(oracle/build.sh departs)
generate=$(oracle/build.sh generate)

line() {
    printf '%2s%20s%20s%6s\n' "$@"
}
wide_line() {
    printf '%2s%20s%20s%8s\n' "$@"
}

# Usage: agrees PROGRAM ANSWERS, with a list on standard input. No pipe hides the program's status.
agrees() {
    "$1" >"$work/answered"
    cmp "$work/answered" "$2"
}

# Usage: last_is NAME PROGRAM ANSWER, with a list on standard input: whether the last answer is ANSWER.
last_is() {
    "$2" >"$work/answered"
    last=$(tail -n 1 "$work/answered")
    if [ "$last" != "$3" ]; then
        echo "$1: answered$last, not$3" >&2
        exit 1
    fi
}

# Usage: holds NAME ANSWER. The same of the oracle.
holds() {
    last_is "$1" "$answer" "$2"
}

# Usage: parts NAME LINE HERE PUBLISHED, with a list on standard input: whether it leaves demand 2 at LINE, and
# the last answers of the two builds are these.
parts() {
    cat >"$work/parts.calls"
    leaves=$("$departs" <"$work/parts.calls")
    if [ "$leaves" != "$2" ]; then
        echo "$1: it leaves at line $leaves, not $2" >&2
        exit 1
    fi
    last_is "$1, here" "$answer" "$3" <"$work/parts.calls"
    last_is "$1, as published" "$unlimited" "$4" <"$work/parts.calls"
}

# Document 01's whole example.
{
    line 1 4696837146684686336 0 0
    line 7 0 0 0
} >"$work/example.calls"
example=' 0 0 1 4696837146684686336 4576918229304087675'
printf '%s\n%s\n' "$example" "$example" >"$work/example.answers"
agrees "$answer" "$work/example.answers" <"$work/example.calls"
agrees "$answer" /dev/null </dev/null
echo "document 01's example: agrees"

# Its values: the steps', and the ceiling of one observation (estimate 10^15 set after it).
"$(oracle/build.sh values)"
observe() {
    line 5 0 0 0
    line 6 9218868437227405312 0 0
    line 5 "$1" 0 $((1000 - $2))
    line 5 "$1" 1 "$2"
    line 6 9218868437227405312 0 0
    line 1 4831355200913801216 0 0
}
none=' 0 0 1 4831355200913801216 4576918229304087675'
two_megabits=' 0 0 1 4701340746312056832 4576918229304087675'
observe 250000001 50 | holds "50 of 1,000 bytes lost" "$none"
observe 250000001 100 | holds "100 of 1,000 bytes lost" "$two_megabits"
observe 250000000 100 | holds "a span of 250,000,000 ns" "$none"
echo "document 01's values: agree"

# The values of Q-7: lost packets of twenty, of which the first report's is one, and unequal sizes.
start() {
    line 8 0 "$1" 0
}
lost_of_twenty() {
    start 1
    line 5 0 0 50
    line 6 9218868437227405312 0 0
    for place in $(seq 19); do
        line 5 250000001 $((place <= $1)) 50
    done
    line 6 9218868437227405312 0 0
    line 1 4831355200913801216 0 0
}
first_lost() {
    start "$1"
    line 5 0 1 1000
    line 6 9218868437227405312 0 0
    line 5 250000001 0 10
    line 5 250000001 0 10
    line 6 9218868437227405312 0 0
    line 1 4831355200913801216 0 0
}
lost_of_twenty 1 | holds "1 of 20 packets lost" "$none"
{
    line 5 0 1 1000
    lost_of_twenty 1
} | holds "1 of 20 packets lost behind a packet that was queued" "$none"
lost_of_twenty 2 | holds "2 of 20 packets lost" "$two_megabits"
first_lost 0 | holds "1,000 of 1,020 bytes lost" ' 0 0 1 4682122489740682330 4576918229304087675'
first_lost 1 | holds "1 of 3 packets lost" ' 0 0 1 4689807095706727605 4576918229304087675'
# The smallest list on which the profiles part (docs/DIFFERENCES.md).
smallest() {
    start "$1"
    line 1 4607182418800017408 0 0
    line 5 0 0 0
    line 6 4607182418800017408 0 0
    line 5 250000001 1 1
    line 6 4607182418800017408 0 0
}
smallest 0 | holds "the smallest list by bytes" ' 0 2 1 4606732058837280358 4604822145566388110'
smallest 1 | holds "the smallest list by packets" ' 0 0 1 4607182418800017408 4562254508917369340'
echo "the values by packets: agree"

# The example in the other width, and mixed; lines that are 1 column off; the largest size and the next (Q-10).
{
    wide_line 1 4696837146684686336 0 0
    line 7 0 0 0
} >"$work/mixed.calls"
agrees "$answer" "$work/example.answers" <"$work/mixed.calls"
sed 's/0$/ 0/' "$work/mixed.calls" >"$work/off.calls"
printf ' 1 0 0                   0 4576918229304087675\n' >"$work/shapeless"
cat "$work/shapeless" "$work/shapeless" >"$work/off.answers"
agrees "$answer" "$work/off.answers" <"$work/off.calls"
fresh='0 0                   0 4576918229304087675'
line 5 0 0 999999 | holds "999,999 bytes" " 0 $fresh"
wide_line 5 0 0 9999999 | holds "9,999,999 bytes" " 0 $fresh"
wide_line 5 0 2 10000000 | holds "10,000,000 bytes" "17 $fresh"
wide_line 5 4000000000000000001 2 10000000 | holds "10,000,000 bytes too late" " 3 $fresh"
wide_line 7 0 0 10000000 | holds "a read with a C" " 1 $fresh"
echo "both widths: agree"

# Kind 8: the queue is empty, 1 before 8, refused it changes nothing.
kept() {
    line 1 4696837146684686336 0 0
    line 8 "$@"
}
rate='0 1 4696837146684686336 4576918229304087675'
kept 0 0 0 | holds "a start by bytes" " 0 $fresh"
kept 0 1 0 | holds "a start by packets" " 0 $fresh"
kept 0 2 0 | holds "a start by 2" " 8 $rate"
kept 1 2 0 | holds "a start by 2 with an A" " 1 $rate"
kept 0 2 1 | holds "a start by 2 with a C" " 1 $rate"
kept 0 1 1 | holds "a start with a C" " 1 $rate"
line 9 0 0 0 | holds "kind 9" " 1 $fresh"
echo "kind 8: agrees"

# The same calls in lines of 48 columns, of 50, and of either.
for stream in realistic wide mixed; do
    "$generate" stream "$stream" >"$work/stream"
    "$answer" <"$work/stream" >"$work/$stream.answers"
    awk -v name="$stream" '{ many[length($0)]++ } END { print name ": " many[48] + 0 " narrow, " many[50] + 0 " wide" }' \
        "$work/stream"
    cmp "$work/realistic.answers" "$work/$stream.answers"
done
rm "$work/stream" "$work/wide.answers" "$work/mixed.answers"
echo "two million lines in either width: agree"

# Lines of any length, in constant memory.
head -c 200000000 /dev/zero | (
    ulimit -v 65536
    agrees "$answer" "$work/shapeless"
)
echo "a line of 200 MB: agrees"

# Lines that come in parts.
for calls in oracle/sample/damaged-*.calls oracle/sample/mixed-*.calls; do
    dd if="$calls" bs=7 2>/dev/null | agrees "$answer" "${calls%.calls}.answers"
done
echo "lines in parts: agree"

# The stored sample is what the generator and the oracle make today, at every level.
oracle/sample.sh "$work/sample" >/dev/null
for stored in oracle/sample/*.calls oracle/sample/*.answers; do
    cmp "$stored" "$work/sample/$(basename "$stored")"
done
[ "$(ls oracle/sample/*.calls | wc -l)" = "$(wc -l <oracle/sample/lists.txt)" ]
for level in 0 1 3; do
    other=$(oracle/build.sh answer "$level")
    for calls in oracle/sample/*.calls; do
        agrees "$other" "${calls%.calls}.answers" <"$calls"
    done
done
echo "the sample: agrees at levels 0 to 3"

# Before the line at which a list leaves demand 2 (Q-5) both builds answer the same.
left=
for calls in oracle/sample/*.calls; do
    leaves=$("$departs" <"$calls")
    "$unlimited" <"$calls" >"$work/published"
    if [ "$leaves" = 0 ]; then
        cmp "$work/published" "${calls%.calls}.answers"
        continue
    fi
    left="$left $(basename "$calls" .calls):$leaves"
    head -n $((leaves - 1)) "$work/published" >"$work/before"
    head -n $((leaves - 1)) "${calls%.calls}.answers" | cmp - "$work/before"
done
echo "the sample: the published build agrees until a list leaves, these at line:$left"

# The examples' answers.
for list in examples/*.txt; do
    agrees "$answer" "${list%.txt}.answers" <"$list"
done
echo "the examples: agree"

# The smallest lists of docs/DIFFERENCES.md, 'Departures by request', and the picture there.
{
    line 1 4607182418800017408 0 0
    line 5 0 0 1
    line 6 4607182418800017408 0 0
    line 5 250000001 1 1
    line 6 4607182418800017408 0 0
} | holds "the bias as libWebRTC groups it" ' 0 0 1 4607182418800017408 4562254508917369340'
limit=4831355200913801216
absent=9218868437227405312
loss=4576918229304087675
at_the_limit() {
    line 1 "$limit" 0 0
    line 5 0 0 0
    line 6 "$absent" 0 0
    line 5 250000001 0 0
    line 6 "$absent" 0 0
}
later() {
    line 5 600000000 0 0
    line 6 "$absent" 0 0
}
acknowledged() {
    line 2 4607182418800017408 0 0
}
at_the_limit | parts "a rate at the limit" 5 " 0 2 1 $limit $loss" " 0 2 1 4831515200913801216 $loss"
{
    at_the_limit
    later
} | parts "Decreasing at the limit" 5 " 0 2 1 $limit $loss" " 0 1 1 4831678400913801216 $loss"
{
    acknowledged
    at_the_limit
    later
} | parts "one bit/s more at the limit" 6 " 0 2 1 $limit $loss" " 0 1 1 4831515200913801224 $loss"
{
    acknowledged
    at_the_limit
    line 1 $((limit - 1)) 0 0
    later
} | parts "one bit/s more to the limit" 6 " 0 1 1 $limit $loss" " 0 1 1 4831355200913801223 $loss"
echo "the departures: agree"

# Zero bytes: at every line the limit is published, where as published the rate runs to infinity and to none.
"$generate" stream infinity | sed '$d' | sed '$d' >"$work/infinity"
"$answer" <"$work/infinity" | awk -v limit="$limit" '$4 != limit || $3 != 1 { exit 1 }'
parts "zero bytes" 5 " 0 2 1 $limit $loss" " 0 0 0                   0 $loss" <"$work/infinity"
echo "zero bytes, $(wc -l <"$work/infinity") lines: the limit is published to the end"
if command -v python3 >/dev/null 2>&1; then
    oracle/groupings.py check
    echo "the picture: agrees"
else
    echo "no python3: the picture is skipped"
fi

# The comparisons find no difference where there is none, and one where there is one.
compare=$(oracle/build.sh compare)
# Usage: fails NAME COMMAND.. Whether the command ends with 1.
fails() {
    name=$1 code=0
    shift
    "$@" >/dev/null 2>&1 || code=$?
    if [ "$code" != 1 ]; then
        echo "$name misses a difference: status $code" >&2
        exit 1
    fi
}
"$compare" 500 1 -- "$answer"
fails "the comparison" "$compare" 500 1 -- sed 's/1$/2/'
# Programs that count bytes, or packets, whatever kind 8 says.
for turned in 's/^\( 8 *0 *\)1\( *0\)$/\10\2/' 's/^\( 8 *0 *\)0\( *0\)$/\11\2/'; do
    fails "the comparison of profiles" "$compare" 500 1 -- sh -c "LC_ALL=C sed '$turned' | $answer"
done
"$compare" --published "$unlimited" 500 1 -- "$answer"
fails "the comparison with the published build" "$compare" --published "$unlimited" 500 1 -- sed 's/1$/2/'
fails "the comparison with the departed build" "$compare" --published "$unlimited" 500 1 -- "$unlimited"
oracle/both-builds.sh crates/answer/stdin cat crates/answer/stdout
fails "oracle/both-builds.sh, from where a list leaves" oracle/both-builds.sh crates/answer/stdin "$unlimited"
fails "oracle/both-builds.sh, before a list leaves" oracle/both-builds.sh crates/answer/stdin sed '1s/.$/x/' crates/answer/stdout
fails "oracle/both-builds.sh, of a list that stays" oracle/both-builds.sh examples/logarithm_triples_rate.txt sed '1s/.$/x/' examples/logarithm_triples_rate.answers
