#!/usr/bin/env python3
"""Holds make_list, the program that turns words into call lines, to a model of it.

Usage: tools/words.py --stored DIRECTORY
       tools/words.py --live PROGRAM [COUNT [SEED]]

With --stored it writes into DIRECTORY what the gate hands to the program, stdin, and the call lines that it has to
write, stdout. With --live it runs PROGRAM on COUNT lines (default 100,000, at least 1), good and damaged, and on some
inputs of few lines, and compares its standard output byte for byte and, of its standard error, the lines' numbers and
the reasons in order. It prints how many lines have which reason, or the smallest input found on which the two differ,
and exits with 1 if there is one.
"""

import functools
import random
import re
import struct
import subprocess
import sys
from itertools import zip_longest
from pathlib import Path
from time import monotonic

ROOT = Path(__file__).resolve().parent.parent

# What a message has to say of each reason, so that no other reason's message says it too.
REASONS = {
    "long": "too long",
    "call": "no such call",
    "count": "wrong number of words",
    "rate": "wrong rate",
    "time": "wrong time",
    "size": "wrong size: whole bytes, at most 9999999",
    "lost": "neither lost nor arrived",
    "measure": "neither bytes nor packets",
}
MESSAGE = re.compile(rb"make_list: line ([1-9][0-9]*): (.*)", re.DOTALL)

LONGEST = 256
HIGHEST_RATE = 10**15
LATEST = 4 * 10**18
# A whole frame of the capture card.
LARGEST = 9_999_999
# How long a run may take, and how long a difference is made smaller.
SECONDS = 120
SHRINKING = 60

BLANK = re.compile(rb"[ \t\r]+")
WHOLE = re.compile(rb"0|[1-9][0-9]*")
DECIMAL = re.compile(rb"(0|[1-9][0-9]*)(?:\.([0-9]{1,9}))?")

# The words of each call behind its name.
COUNTS = {b"estimate": 1, b"acknowledged": 1, b"alr": 1, b"capacity": 1, b"packet": 3, b"report": 1, b"read": 0}
COUNTS[b"start"] = 1


# The model


class Wrong(Exception):
    """The reason why a line is wrong."""


def rate(word):
    """The 64 bits of a whole rate in bit/s, or of inf."""
    if word != b"inf" and not (WHOLE.fullmatch(word) and int(word) <= HIGHEST_RATE):
        raise Wrong("rate")
    return struct.unpack("<Q", struct.pack("<d", float(word)))[0]


def time(word):
    """The ns of seconds with up to nine places."""
    parts = DECIMAL.fullmatch(word)
    if not parts:
        raise Wrong("time")
    ns = int(parts[1]) * 10**9 + int((parts[2] or b"").ljust(9, b"0"))
    if ns > LATEST:
        raise Wrong("time")
    return ns


def size(word):
    """A packet's bytes."""
    if not (WHOLE.fullmatch(word) and int(word) <= LARGEST):
        raise Wrong("size")
    return int(word)


def lost(word):
    """A packet's flag."""
    if word not in (b"lost", b"arrived"):
        raise Wrong("lost")
    return int(word == b"lost")


def measure(word):
    """What the ratio of a controller counts (Q-7)."""
    if word not in (b"bytes", b"packets"):
        raise Wrong("measure")
    return int(word == b"packets")


def call(line):
    """Kind, A, B and C of a line without its newline, or None where it says nothing."""
    # Also where the line is blank or a comment.
    if len(line) > LONGEST:
        raise Wrong("long")
    words = [word for word in BLANK.split(line) if word]
    if not words or words[0].startswith(b"#"):
        return None
    name, *values = words
    if name not in COUNTS:
        raise Wrong("call")
    if len(values) != COUNTS[name]:
        raise Wrong("count")
    if name == b"alr":
        return (3, 0, 0, 0) if values == [b"off"] else (3, time(values[0]), 1, 0)
    if name == b"capacity":
        return (4, 0, 0, 0) if values == [b"none"] else (4, rate(values[0]), 1, 0)
    if name == b"packet":
        a, c, b = time(values[0]), size(values[1]), lost(values[2])
        return 5, a, b, c
    if name == b"read":
        return 7, 0, 0, 0
    if name == b"start":
        return 8, 0, measure(values[0]), 0
    return {b"estimate": 1, b"acknowledged": 2, b"report": 6}[name], rate(values[0]), 0, 0


@functools.lru_cache(maxsize=1 << 18)
def answer(line):
    """The call line that a line gives, empty if none, and the reason why it is wrong, None if it is not."""
    try:
        columns = call(line)
    except Wrong as why:
        return b"", why.args[0]
    return (b"%2d%20d%20d%8d\n" % columns if columns else b""), None


def lines_of(text):
    """The lines of an input without their newlines; the last may be open."""
    lines = text.split(b"\n")
    return lines if lines[-1] else lines[:-1]


def expected(text):
    """What make_list has to write, and the numbers and reasons of the wrong lines."""
    answers = [answer(line) for line in lines_of(text)]
    wrong = [(place, reason) for place, (_, reason) in enumerate(answers, 1) if reason]
    return b"".join(written for written, _ in answers), wrong


def counts(text):
    """How many lines give what."""
    answers = [answer(line) for line in lines_of(text)]
    numbers = {"calls": sum(written != b"" for written, _ in answers)}
    numbers["nothing"] = answers.count((b"", None))
    numbers.update((reason, answers.count((b"", reason))) for reason in REASONS)
    return f"{len(answers)} lines: " + ", ".join(f"{what} {n}" for what, n in numbers.items())


# The stored lines


def padded(line, length):
    """The line with blanks behind it."""
    return line.ljust(length)


STORED = [
    # Every call.
    b"# Every call, and its values at the edges",
    b"estimate 2500000",
    b"acknowledged 2400000",
    b"alr 1.5",
    b"alr off",
    b"capacity 3000000",
    b"capacity none",
    b"packet 0.25 1200 lost",
    b"packet 0.25 1200 arrived",
    b"report 2600000",
    b"read",
    b"start bytes",
    b"start packets",
    b"",
    # Rates.
    b"estimate 0",
    b"estimate 1",
    b"estimate 3",
    b"estimate 9",
    b"estimate 10",
    b"acknowledged 99999999999999",
    b"acknowledged 562949953421311",
    b"acknowledged 562949953421312",
    b"acknowledged 562949953421313",
    b"acknowledged 999999999999999",
    b"acknowledged 1000000000000000",
    b"acknowledged 1000000000000001",
    b"estimate inf",
    b"acknowledged inf",
    b"capacity inf",
    b"report inf",
    b"capacity 0",
    b"report 0",
    b"capacity 1000000000000000",
    b"capacity 1000000000000001",
    b"report 1000000000000000",
    b"report 1000000000000001",
    b"estimate 9007199254740993",
    b"estimate 9223372036854775808",
    b"estimate 18446744073709551615",
    b"estimate 18446744073709551616",
    b"estimate 18446744073709551621",
    b"estimate 100000000000000000000000000000000000000000",
    b"estimate 00",
    b"estimate 05",
    b"estimate +5",
    b"estimate -5",
    b"estimate -0",
    b"estimate 5.0",
    b"estimate 1e6",
    b"estimate 0x10",
    b"estimate 1,000",
    b"estimate 5:",
    b"estimate /5",
    b"estimate Inf",
    b"estimate infinity",
    b"estimate in",
    b"estimate -inf",
    b"estimate nan",
    b"estimate none",
    b"capacity None",
    b"capacity off",
    b"capacity non",
    b"report 2500000bps",
    # Times.
    b"alr 0",
    b"alr 0.0",
    b"alr 0.000000000",
    b"alr 0.000000001",
    b"alr 0.1",
    b"alr 0.10",
    b"alr 0.01",
    b"alr 0.999999999",
    b"alr 1.000000001",
    b"alr 10.050",
    b"alr 123456789.987654321",
    b"alr 3999999999.999999999",
    b"alr 4000000000",
    b"alr 4000000000.000000000",
    b"alr 4000000000.000000001",
    b"alr 4000000000.1",
    b"alr 4000000001",
    b"alr 18446744073.709551615",
    b"alr 18446744073.709551616",
    b"alr 18446744074",
    b"alr 18446744073709551615",
    b"alr 18446744073709551616",
    b"alr 18446744073709551617.5",
    b"alr .5",
    b"alr 5.",
    b"alr .",
    b"alr 5.0000000000",
    b"alr 0.1234567890",
    b"alr 00.5",
    b"alr 05",
    b"alr -1",
    b"alr +1",
    b"alr 1,5",
    b"alr 1.5.5",
    b"alr 1..5",
    b"alr 1.-5",
    b"alr 1e3",
    b"alr inf",
    b"alr Off",
    b"alr of",
    b"alr none",
    b"alr on",
    b"alr 1.5s",
    # Packets.
    b"packet 0 0 lost",
    b"packet 0 0 arrived",
    b"packet 0 9 lost",
    b"packet 0 10 arrived",
    b"packet 4000000000 65535 lost",
    b"packet 3999999999.999999999 65534 arrived",
    b"packet 4000000000.000000001 65535 lost",
    b"packet 1 65536 lost",
    b"packet 1 65537 lost",
    b"packet 1 131072 arrived",
    b"packet 1 65535 arrived",
    b"packet 1 65536 arrived",
    b"packet 1 99999 lost",
    b"packet 1 999999 arrived",
    b"packet 1 1000000 arrived",
    b"packet 1 9999998 lost",
    b"packet 1 9999999 lost",
    b"packet 4000000000 9999999 arrived",
    b"packet 1 10000000 lost",
    b"packet 1 10000001 arrived",
    b"packet 1 99999999 lost",
    b"packet 1 100000000 lost",
    b"packet 1 4294967295 arrived",
    b"packet 1 4294967296 lost",
    b"packet 1 4294967297 lost",
    b"packet 1 99999999999999999999 arrived",
    b"packet 1 09999999 lost",
    b"packet 1 18446744073709551617 lost",
    b"packet 1 00 lost",
    b"packet 1 01200 lost",
    b"packet 1 -1 lost",
    b"packet 1 12.0 lost",
    b"packet 1 inf arrived",
    b"packet 1 1200 Lost",
    b"packet 1 1200 los",
    b"packet 1 1200 lost.",
    b"packet 1 1200 1",
    b"packet 1 1200 arrive",
    # Starts.
    b"start Bytes",
    b"start PACKETS",
    b"start byte",
    b"start packet",
    b"start bytess",
    b"start packets.",
    b"start 0",
    b"start 1",
    b"start off",
    b"start inf",
    # The first reason of two.
    b"packet x x x",
    b"packet 1 x x",
    b"packet x 1 lost",
    b"packet x 10000000 lost",
    b"packet 4000000000.000000001 10000000 x",
    b"packet 1 10000000 x",
    b"packet 1 10000000",
    b"packet off 1 lost",
    b"packet x x",
    b"packets x x",
    # The number of words.
    b"estimate",
    b"estimate 1 2",
    b"alr",
    b"alr off off",
    b"capacity",
    b"capacity none 0",
    b"packet",
    b"packet 1 1200",
    b"packet 1 1200 lost arrived",
    b"report",
    b"report 1 1",
    b"start",
    b"start bytes packets",
    b"start 2 now",
    b"read 0",
    b"read # now",
    b"estimate 5 # a comment is a line of its own",
    # No such call.
    b"Estimate 5",
    b"READ",
    b"rea",
    b"reads",
    b"Start bytes",
    b"star bytes",
    b"starts packets",
    b"startbytes",
    b"bytes",
    b"estimate2500000",
    b"estimate=2500000",
    b"5",
    b"inf",
    b"off",
    b"-",
    b"\x00",
    b"read\x00",
    b"read\x0b",
    b"\x0cread",
    b"\xc2\xa0read",
    b"\xff\xfe",
    b"\xef\xbb\xbfread",
    # Blanks and comments.
    b" ",
    b"\t",
    b"\r",
    b" \t\r \t",
    b"#",
    b"#read",
    b"  # read",
    b"\t#\xff\x00",
    b"\r# read",
    b"read\r",
    b"\rread",
    b" read",
    b"\tread\t",
    b"  estimate \t 2500000  ",
    b"estimate\t2500000",
    b"estimate\r2500000\r",
    b"packet\t1.25\r1200  lost\r",
    b"alr off\r",
    b"start\tpackets\r",
    b"es timate 5",
    b"estimate 25 00000",
    # The length.
    padded(b"estimate 256", LONGEST),
    padded(b"estimate 257", LONGEST + 1),
    b"read".rjust(LONGEST),
    b"read".rjust(LONGEST + 1),
    padded(b"estimate 255", LONGEST - 1) + b"\r",
    padded(b"estimate 256", LONGEST) + b"\r",
    b"packet" + b" " * 100 + b"1.5" + b"\t" * 100 + b"1200" + b"\r" * 36 + b"arrived",
    b"packet" + b" " * 100 + b"1.5" + b"\t" * 100 + b"1200" + b"\r" * 37 + b"arrived",
    b"estimate " + b"9" * (LONGEST - 9),
    b"estimate " + b"9" * (LONGEST - 8),
    b"x" * LONGEST,
    b"x" * (LONGEST + 1),
    b"#" * LONGEST,
    b"#" * (LONGEST + 1),
    b" " * LONGEST,
    b" " * (LONGEST + 1),
    b"x" * 5_000,
    # After all that a line is read as before, and the last may be open.
    b"read",
    b"report 2500000",
]


def store(directory):
    """The gate's input and answers."""
    text = b"\n".join(STORED)
    directory.mkdir(parents=True, exist_ok=True)
    (directory / "stdin").write_bytes(text)
    (directory / "stdout").write_bytes(expected(text)[0])
    print(f"{counts(text)}, in {directory}")


# Lines at random

BLANKS = [b" "] * 12 + [b"  ", b"\t", b"\r", b" \t", b"\r\r", b"   "]
# In no word of a call but near one: signs, what stands next to digits, blanks of other kinds.
ODD = [bytes([byte]) for byte in b"+-./:0_,e#\x00\x0b\x0c\x7f\xa0\xff"]
NEAR = sorted({near + off for near in [10**k for k in range(22)] + [2**k for k in range(72)] for off in (-1, 0, 1)})
NO_RATES = [b"Inf", b"INF", b"in", b"inff", b"infinity", b"+inf", b"-inf", b"nan", b"none", b"off", b"1e6", b"0x1"]
NO_TIMES = [b".5", b"5.", b".", b"1..5", b"1.5.5", b"on", b"none", b"inf", b"Off", b"of", b"offf", b"1.5s", b"1e3"]
NO_FLAGS = [b"Lost", b"los", b"lostt", b"LOST", b"arrive", b"arrivedd", b"Arrived", b"0", b"1", b"true", b"received"]
NO_MEASURES = [b"Bytes", b"byte", b"bytess", b"BYTES", b"packet", b"packetss", b"Packets", b"0", b"1", b"off", b"lost"]
NO_CALLS = [b"estimates", b"estimat", b"Estimate", b"packets", b"rea", b"READ", b"reads", b"alr1", b"capacit", b"ack"]
NO_CALLS += [b"star", b"starts", b"Start"]
NEAR_LATEST = [b"3999999999.999999999", b"4000000000", b"4000000000.0", b"4000000000.000000000", b"4000000000.1"]
NEAR_LATEST += [b"4000000000.000000001", b"4000000001", b"18446744073.709551616", b"18446744074", b"18446744075.5"]


def some_whole(source, largest):
    """A number up to the largest, short or long, or one about an edge, which may be above it."""
    way = source.randrange(8)
    if way == 0:
        return source.choice(NEAR)
    if way == 1:
        return largest + source.randint(-1, 1)
    if way == 2:
        return source.getrandbits(source.randint(1, 80))
    return min(largest, int("".join(source.choice("0123456789") for _ in range(source.randint(1, len(str(largest)))))))


def some_rate(source):
    way = source.randrange(24)
    if way < 3:
        return b"inf"
    if way == 3:
        return source.choice(NO_RATES)
    return b"%d" % some_whole(source, HIGHEST_RATE)


def some_time(source):
    way = source.randrange(24)
    if way == 0:
        return source.choice(NO_TIMES)
    if way == 1:
        return source.choice(NEAR_LATEST)
    whole = b"%d" % some_whole(source, LATEST // 10**9)
    if way < 8:
        return whole
    # Now and then a place too many, or none.
    places = source.randint(0, 10) if way == 8 else source.randint(1, 9)
    return whole + b"." + bytes(source.choice(b"0123456789" if way < 16 else b"0009") for _ in range(places))


def some_words(source):
    """A call; most are in order."""
    name = source.choice([*COUNTS, b"packet", b"packet"])
    if name == b"alr":
        return [name, b"off" if source.randrange(4) == 0 else some_time(source)]
    if name == b"capacity":
        return [name, b"none" if source.randrange(4) == 0 else some_rate(source)]
    if name == b"packet":
        flag = source.choice([b"lost", b"arrived"] * 12 + [source.choice(NO_FLAGS)])
        return [name, some_time(source), b"%d" % some_whole(source, LARGEST), flag]
    if name == b"start":
        return [name, source.choice([b"bytes", b"packets"] * 6 + [source.choice(NO_MEASURES)])]
    return [name] if name == b"read" else [name, some_rate(source)]


def damage_words(source, words):
    """A word more, less, twice, out of place, from another call, with a leading zero, or glued to the next."""
    place = source.randrange(len(words))
    way = source.randrange(8)
    if way == 0:
        del words[place]
    elif way == 1:
        words.insert(place, words[place])
    elif way == 2:
        words.append(source.choice([b"#", b"0", b"lost", b"off", b"read", b"bytes", b"x"]))
    elif way == 3:
        source.shuffle(words)
    elif way == 4:
        words[place] = source.choice(some_words(source))
    elif way == 5:
        words[place] = b"0" + words[place]
    elif way == 6:
        words[0] = source.choice(NO_CALLS)
    else:
        words[place : place + 2] = [b"".join(words[place : place + 2])]


def damage_bytes(source, line):
    """A byte more, less, or another."""
    place = source.randrange(len(line) + 1)
    odd = source.choice([*ODD, bytes([source.randrange(256)])])
    way = source.randrange(3)
    return line[: place + (way == 2)] + (odd if way else b"") + line[place + (way != 1) :]


def some_length(source):
    """A length about the longest, or far from it."""
    if source.randrange(40) == 0:
        return source.choice([4_096, 65_535, 65_536, 65_537, 200_000])
    return source.choice([LONGEST - 1, LONGEST, LONGEST + 1, LONGEST + 2, 300, 511, 512, 513, 1_000])


def noise(source, length):
    """Any bytes."""
    return bytes(source.randrange(256) for _ in range(length))


def some_line(source):
    """A line without its newline."""
    way = source.randrange(100)
    if way < 3:
        line = source.choice([b"", b" ", b"\t", b"\r", b" \r", b"\t \t"])
    elif way < 6:
        line = source.choice([b"#", b" #", b"\t# ", b"# "]) + noise(source, source.randrange(8))
    elif way < 8:
        line = noise(source, source.randrange(30))
    else:
        words = some_words(source)
        if way < 25:
            damage_words(source, words)
        line = b"".join(part for word in words for part in (word, source.choice(BLANKS)))
        # A blank before the words, and none behind them, more often than not.
        line = (source.choice(BLANKS) if way % 8 == 0 else b"") + (line if way % 4 == 0 else line.rstrip(b" \t\r"))
        if 25 <= way < 40:
            line = damage_bytes(source, line)
        if 40 <= way < 42:
            line = source.choice([line.ljust, line.rjust])(some_length(source))
        elif way == 42:
            line = source.choice([b"#", b"x", b"9", b" "]) * some_length(source)
    return line.replace(b"\n", b"")


def some_text(source, count):
    """So many lines; by the seed the last is open."""
    text = b"".join(some_line(source) + b"\n" for _ in range(count - 1))
    last = some_line(source) or b"read"
    return text + last + source.choice([b"", b"\n"])


# Few lines each: where an input can end, and a line that no memory should hold.
ENDS = [
    b"",
    b"\n",
    b"\n\n",
    b"read",
    b"read\n",
    b"read\n\n",
    b"reed",
    b"read\nreed",
    b"read\r",
    b" ",
    b"\r",
    b"#",
    b"# read",
    padded(b"read", LONGEST),
    padded(b"read", LONGEST + 1),
    padded(b"read", LONGEST) + b"\nread",
    padded(b"read", LONGEST + 1) + b"\nread",
    b"#" * (LONGEST + 1) + b"\nread",
    b"x" * 10_000_000 + b"\nread\n",
    b"read\n" + b" " * 10_000_000,
    b"\n" * 100_000 + b"reed\nread\n",
]


# The comparison


def reason_of(message):
    """Number and reason of a line of standard error, or that line, where it has none or more than one."""
    parts = MESSAGE.fullmatch(message)
    said = [reason for reason, words in REASONS.items() if parts and words.encode() in parts[2]]
    return (int(parts[1]), said[0]) if len(said) == 1 else message


def found(program, text):
    """What the program writes, and the numbers and reasons that it tells; a failure is told too, and wrong."""
    try:
        ran = subprocess.run([program], input=text, capture_output=True, timeout=SECONDS)
    except OSError as why:
        sys.exit(f"words: {program} cannot be run: {why.strerror}")
    except subprocess.TimeoutExpired:
        return b"", [f"it does not end in {SECONDS} s".encode()]
    told = [reason_of(message) for message in lines_of(ran.stderr)]
    if ran.stderr and not ran.stderr.endswith(b"\n"):
        told.append(b"an open last line on standard error")
    if ran.returncode != 0:
        told.append(f"status {ran.returncode}".encode())
    return ran.stdout, told


def shortest(parts, differs):
    """Drops parts, first many at once and then one by one, as long as a difference remains and time is left."""
    until = monotonic() + SHRINKING
    length = (len(parts) + 1) // 2
    while length and monotonic() < until:
        dropped = False
        end = len(parts)
        while end > 0 and monotonic() < until:
            start = max(0, end - length)
            without = parts[:start] + parts[end:]
            if differs(b"".join(without)):
                parts, dropped = without, True
            end = start
        if length == 1 and not dropped:
            break
        length = (length + 1) // 2
    return parts


def show(program, text):
    """Both answers to an input: whole where it is short, else what differs first, and the input in a file."""
    (right, wrong), (written, told) = expected(text), found(program, text)
    if len(text) <= 1_000:
        print(f"a difference, the smallest found: {text!r}")
        print(f"make_list should write {right!r} and tell {wrong}")
        print(f"{program} writes {written!r} and tells {told}")
        return
    kept = ROOT / "target/words-differ"
    kept.parent.mkdir(exist_ok=True)
    kept.write_bytes(text)
    print(f"a difference, the smallest found has {len(text)} bytes and is in {kept.relative_to(ROOT)}")
    for what, ours, theirs in ("call line", lines_of(right), lines_of(written)), ("message", wrong, told):
        for place, (a, b) in enumerate(zip_longest(ours, theirs), 1):
            if a != b:
                print(f"{what} {place}: should be {a}, is {b}")
                break


def agree(program, text):
    """Whether program and model give the same; else the smallest input found on which they do not is shown."""

    def differs(text):
        return found(program, text) != expected(text)

    if not differs(text):
        return True
    lines = shortest(re.findall(rb"[^\n]*\n|[^\n]+", text), differs)
    short = b"".join(lines)
    if len(lines) == 1 and len(short) <= 1_000:
        short = b"".join(shortest([short[i : i + 1] for i in range(len(short))], differs))
    show(program, short)
    return False


def compare(program, count, seed):
    """The program beside the model; whether they agree."""
    source = random.Random(seed)
    text = some_text(source, count)
    if not all(agree(program, text) for text in [*ENDS, text]):
        return False
    print(f"{len(ENDS)} inputs of few lines: no difference")
    print(f"{counts(text)}: no difference")
    return True


def main():
    words = sys.argv[1:]
    if words in (["--help"], ["-h"]):
        print(__doc__)
        return 0
    if len(words) == 2 and words[0] == "--stored":
        try:
            store(Path(words[1]))
        except OSError as why:
            sys.exit(f"words: {words[1]} cannot be written to: {why.strerror}")
        return 0
    numbers = words[2:]
    if not 2 <= len(words) <= 4 or words[0] != "--live" or not all(word.isdecimal() for word in numbers):
        print(__doc__, file=sys.stderr)
        return 2
    count, seed = [*map(int, numbers), *(100_000, 1)[len(numbers) :]]
    if count < 1:
        sys.exit("words: COUNT is 1 or more")
    return 0 if compare(words[1], count, seed) else 1


if __name__ == "__main__":
    sys.exit(main())
