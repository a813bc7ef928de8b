#!/usr/bin/env python3
"""Holds the column writer to Python's own formatting of numbers.

Usage: tools/columns.py [COUNT [SEED]]
       tools/columns.py --stored DIRECTORY

Writes COUNT numbers (default 1,000,000, at least 1), at random and at the edges, in columns of 0 to 24 places with
the program replay_columns, and compares each with what Python writes; exits with 1 at the first that differs. Asks
rt for the program (tools/proved.sh), or takes PROGRAM=FILE from the environment. With --stored it writes into
DIRECTORY what the gate hands to that program, stdin, and what it has to write, stdout: each edge in each width.
"""

import os
import random
import shutil
import subprocess
import sys
from pathlib import Path

ROOT = Path(__file__).resolve().parent.parent
WIDTHS = range(25)
LARGEST = 2**64 - 1

# About the powers of ten and the largest numbers of 8, 16, 32, 63 and 64 bits, and with one digit in every place.
NEAR = [10**k for k in range(20)] + [2**k for k in (8, 16, 32, 63, 64)]
EDGES = sorted(
    n
    for n in {near + off for near in NEAR for off in (-1, 0, 1)}
    | {int(digit * count) for digit in "159" for count in range(1, 21)}
    if n <= LARGEST
)


def column(width, n):
    """Python's text: right-justified, and of a longer number its last places."""
    text = f"{n:{width}d}"
    return text[len(text) - width :].encode()


def some_number(source):
    """An edge, or a number of any length, at random in its bits, its digits, or its zeros and nines."""
    way = source.randrange(4)
    if way == 0:
        return source.choice(EDGES)
    if way == 1:
        return source.getrandbits(source.randrange(65))
    digits = "0123456789" if way == 2 else "00990099" + str(source.randrange(10))
    return min(LARGEST, int("".join(source.choice(digits) for _ in range(source.randint(1, 20)))))


def asked(pairs):
    """The program's input."""
    return "".join(f"{width:02x} {n:016x}\n" for width, n in pairs).encode()


def expected(pairs):
    """What the program has to write."""
    return b"".join(column(width, n) + b"\n" for width, n in pairs)


def store(directory):
    """The gate's input and answers."""
    pairs = [(width, n) for n in EDGES for width in WIDTHS]
    directory.mkdir(parents=True, exist_ok=True)
    (directory / "stdin").write_bytes(asked(pairs))
    (directory / "stdout").write_bytes(expected(pairs))
    print(f"{len(pairs)} columns of {len(EDGES)} numbers, in {directory}")


def proved():
    """The program's path, after rt has proved and built it."""
    print("columns: asking rt for the program, some minutes where it has to be proved", file=sys.stderr)
    if not shutil.which("rt"):
        sys.exit("columns: the Rattle kit is needed, and its command rt is not on the PATH")
    done = subprocess.run(["tools/proved.sh", "replay_columns"], cwd=ROOT, capture_output=True, text=True)
    if done.returncode != 0:
        sys.exit(f"columns: replay_columns is not proved on this checkout:\n{done.stdout[-600:]}{done.stderr[-600:]}")
    return done.stdout.strip()


def written_by(program, pairs):
    """What the program writes for the pairs."""
    try:
        ran = subprocess.run([program], input=asked(pairs), stdout=subprocess.PIPE)
    except OSError as why:
        sys.exit(f"columns: {program} cannot be run: {why.strerror}")
    if ran.returncode != 0:
        sys.exit(f"columns: {program} ended with status {ran.returncode}")
    return ran.stdout


def compare(count, seed):
    """The program beside Python on fresh numbers; whether they agree."""
    source = random.Random(seed)
    pairs = [(i % len(WIDTHS), some_number(source)) for i in range(count)]
    written = written_by(os.environ.get("PROGRAM") or proved(), pairs)
    for (width, n), text in zip(pairs, written.split(b"\n")):
        if text != column(width, n):
            print(f"{n} in {width} places: {text!r}, not {column(width, n)!r}")
            return False
    if written != expected(pairs):
        lines = written.count(b"\n")
        print(f"{lines} lines written, not {count}")
        return False
    print(f"{count} numbers in columns of {WIDTHS[0]} to {WIDTHS[-1]} places: no difference")
    return True


def main():
    words = sys.argv[1:]
    if words in (["--help"], ["-h"]):
        print(__doc__)
        return 0
    if len(words) == 2 and words[0] == "--stored":
        try:
            store(Path(words[1]))
        except OSError as why:
            sys.exit(f"columns: {words[1]} cannot be written to: {why.strerror}")
        return 0
    if len(words) > 2 or not all(word.isdecimal() for word in words):
        print(__doc__, file=sys.stderr)
        return 2
    count, seed = [*map(int, words), *(1_000_000, 1)[len(words) :]]
    if count < 1:
        sys.exit("columns: COUNT is 1 or more")
    return 0 if compare(count, seed) else 1


if __name__ == "__main__":
    sys.exit(main())
