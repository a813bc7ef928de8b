#!/usr/bin/env python3
"""Prints, as a Markdown table, the rate that each build publishes in the stream six-hours: with the limit of
rates (request Q-5), and without it, as published. Usage: oracle/six_hours.py"""

import pathlib
import struct
import subprocess
import sys
import tempfile

ROOT = pathlib.Path(__file__).resolve().parent.parent
SECOND = 1_000_000_000
TIMES = [("0", 0), ("1 min", 60), ("3 min", 180), ("5 min", 300), ("6 min", 360), ("10 min", 600),
         ("15 min", 900), ("30 min", 1_800), ("1 h", 3_600), ("2 h", 7_200), ("3 h", 10_800), ("6 h", 21_600)]


def build(program):
    run = subprocess.run([ROOT / "oracle/build.sh", program], check=True, stdout=subprocess.PIPE, text=True)
    return ROOT / run.stdout.strip()


def answers(program, calls):
    with open(calls, "rb") as stdin:
        return subprocess.run([build(program)], stdin=stdin, check=True, stdout=subprocess.PIPE).stdout.splitlines()


def reports(lines):
    """The time of the last packet before each report, and the place of its answer."""
    latest = 0
    for place, line in enumerate(lines):
        if line.startswith(b" 5"):
            latest = int(line[2:22])
        elif line.startswith(b" 6"):
            yield latest, place


def places(lines):
    """For each of the times the last report up to it; at 0 the first one."""
    times = list(reports(lines))
    for _, seconds in TIMES:
        before = [place for time, place in times if time <= seconds * SECOND]
        yield before[-1] if before else times[0][1]


def published(answer):
    _, _, is_published, rate, _ = answer.split()
    if is_published == b"0":
        return "none"
    rate = struct.unpack("<d", struct.pack("<Q", int(rate)))[0]
    return f"{rate:,.0f}" if rate <= 1e15 else f"{rate:.4g}"


def main():
    if sys.argv[1:]:
        sys.exit(__doc__)
    with tempfile.TemporaryDirectory() as directory:
        calls = pathlib.Path(directory) / "calls"
        with open(calls, "wb") as stdout:
            subprocess.run([build("generate"), "stream", "six-hours"], check=True, stdout=stdout)
        lines = calls.read_bytes().splitlines()
        here, rust = answers("answer", calls), answers("unlimited", calls)
        with open(calls, "rb") as stdin:
            run = subprocess.run([build("departs")], stdin=stdin, check=True, stdout=subprocess.PIPE)
    print("| time | here, bit/s | the Rust, bit/s |\n|---|---|---|")
    for (name, _), place in zip(TIMES, places(lines)):
        print(f"| {name} | {published(here[place])} | {published(rust[place])} |")
    left = int(run.stdout)
    time = next(time for time, place in reports(lines) if place + 1 >= left)
    print(f"\n{len(lines)} lines; it leaves demand 2 at line {left}, after {time / SECOND:.1f} s")


if __name__ == "__main__":
    main()
