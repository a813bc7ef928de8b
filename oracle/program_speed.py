#!/usr/bin/env python3
"""Times the program beside the oracle's on the same lists, turn and turn about.

Usage: oracle/program_speed.py [--beside FILE] [RUNS [LINES]]

Prints the best time of RUNS (default 15) of each and its ratio to the oracle's, for LINES lines (default
1,500,000) of the stream realistic, of the same calls in wide lines and in lines of both widths, of the stream pads, by
packets, and of the stream changing, whose every answer changes. FILE is another program to time beside the two, an
earlier build for instance; one that reads narrow lines alone, or no kind 8, is not timed on the others. Exits with 1
where the program answers otherwise than the oracle, FILE does on narrow lines by bytes, or the program is the slower
one on a realistic list of any width and profile. Needs rustc, and asks rt for the program (tools/proved.sh).
"""

import subprocess
import sys
import tempfile
import time
from pathlib import Path

ROOT = Path(__file__).resolve().parent.parent
# The same calls in lines of 48 columns, of 50, and of either (Q-10); the pads' (Q-7).
REALISTIC = ("realistic", "wide", "mixed", "pads")
# What an earlier build may not read: wide lines, kind 8.
NEWER = ("wide", "mixed", "pads")


def built(name):
    """The path of an oracle program, built."""
    made = subprocess.run(["oracle/build.sh", name], cwd=ROOT, check=True, capture_output=True, text=True)
    return ROOT / made.stdout.strip()


def write_list(name, lines, path):
    """The first lines of the stream."""
    with subprocess.Popen(
        [built("generate"), "stream", name], stdout=subprocess.PIPE, stderr=subprocess.DEVNULL
    ) as stream, open(path, "wb") as out:
        for number in range(lines):
            line = stream.stdout.readline()
            if not line:
                sys.exit(f"the stream {name} has only {number} lines")
            out.write(line)
        stream.kill()


def answers(program, path):
    """What a program writes."""
    with open(path, "rb") as listed:
        return subprocess.run([program], stdin=listed, stdout=subprocess.PIPE, check=True).stdout


def seconds(program, path):
    """How long one run takes."""
    with open(path, "rb") as listed:
        start = time.perf_counter()
        subprocess.run([program], stdin=listed, stdout=subprocess.DEVNULL, check=True)
        return time.perf_counter() - start


def agreeing(stream, programs, path):
    """The programs to time. One that answers otherwise than the oracle ends the run, but for FILE on newer lines."""
    expected = answers(programs["oracle"], path)
    agree = {}
    for name, program in programs.items():
        if answers(program, path) == expected:
            agree[name] = program
        elif name == "beside" and stream in NEWER:
            print(f"{stream}: {name} answers otherwise than the oracle and is not timed")
        else:
            sys.exit(f"{stream}: {name} answers otherwise than the oracle")
    return agree


def measure(stream, programs, runs, lines):
    """The best time of each program on the stream, printed beside its ratio to the oracle's; the ratios."""
    with tempfile.NamedTemporaryFile() as listed:
        write_list(stream, lines, listed.name)
        programs = agreeing(stream, programs, listed.name)
        times = [[seconds(program, listed.name) for program in programs.values()] for _ in range(runs)]
    best = dict(zip(programs, map(min, zip(*times))))
    ratios = {name: taken / best["oracle"] for name, taken in best.items()}
    figures = ", ".join(f"{name} {best[name]:.3f} s ({ratios[name]:.3f})" for name in best)
    print(f"{stream}, {lines} lines, best of {runs}: {figures}", flush=True)
    return ratios


def main():
    words = sys.argv[1:]
    if words in (["--help"], ["-h"]):
        print(__doc__)
        return 0
    programs = {"program": ROOT / "crates/answer/out/answer", "oracle": None}
    if words[:1] == ["--beside"] and len(words) > 1:
        programs["beside"] = Path(words[1]).resolve()
        words = words[2:]
    if len(words) > 2 or not all(word.isdecimal() for word in words):
        print(__doc__, file=sys.stderr)
        return 2
    runs, lines = [*map(int, words), *(15, 1_500_000)[len(words) :]]
    if runs < 1 or lines < 1:
        sys.exit("RUNS and LINES are 1 or more")
    if "beside" in programs and not programs["beside"].is_file():
        sys.exit(f"there is no file {programs['beside']}")
    subprocess.run(["tools/proved.sh", "answer"], cwd=ROOT, check=True, stdout=subprocess.DEVNULL)
    programs["oracle"] = built("answer")
    ratios = {stream: measure(stream, programs, runs, lines) for stream in (*REALISTIC, "changing")}
    return 1 if any(ratios[stream]["program"] > 1 for stream in REALISTIC) else 0


if __name__ == "__main__":
    sys.exit(main())
