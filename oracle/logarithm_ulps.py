#!/usr/bin/env python3
"""Usage: oracle/logarithm_ulps.py [COUNT]. Prints how far document 01's logarithm is from the true
one at most, in units in the last place of the answer, over COUNT arguments (1,000,000 if none is
given): any, probabilities, near 1, and about the boundaries at which k becomes the next. Python's
floats are binary64; the true logarithm is mpmath's, to 120 bits.
"""
import math
import random
import struct
import sys

from mpmath.libmp import from_float, fzero, mpf_abs, mpf_log, mpf_sub, round_nearest, to_float

PRECISION = 120
SEED = 13741


def of_bits(bits):
    return struct.unpack(">d", struct.pack(">Q", bits))[0]


def to_bits(x):
    return struct.unpack(">Q", struct.pack(">d", x))[0]


LN2_HI, LN2_LO = of_bits(0x3FE62E42FEE00000), of_bits(0x3DEA39EF35793C76)
L1, L2, L3 = of_bits(0x3FE5555555555593), of_bits(0x3FD999999997FA04), of_bits(0x3FD2492494229359)
L4, L5, L6 = of_bits(0x3FCC71C51D8E78AF), of_bits(0x3FC7466496CB03DE), of_bits(0x3FC39A09D078C69F)
L7 = of_bits(0x3FC2F112DF3E5244)


def ln(x):
    bits = to_bits(x)
    h = (bits >> 32) + 0x95F62
    k = (h >> 20) - 1023
    f = of_bits((((h & 0xFFFFF) + 0x3FE6A09E) << 32) + (bits & 0xFFFFFFFF)) - 1.0
    q = (0.5 * f) * f
    s = f / (2.0 + f)
    z = s * s
    w = z * z
    a = w * (L2 + w * (L4 + w * L6))
    b = z * (L1 + w * (L3 + w * (L5 + w * L7)))
    r = b + a
    return s * (q + r) + k * LN2_LO - q + f + k * LN2_HI


def ulps(x):
    """The error of ln(x), in units in the last place of the float nearest to the true logarithm."""
    true = mpf_log(from_float(x), PRECISION, round_nearest)
    error = mpf_abs(mpf_sub(from_float(ln(x)), true, PRECISION, round_nearest))
    if true == fzero:
        return 0.0 if error == fzero else math.inf
    return to_float(error) / math.ulp(to_float(true))


def arguments(count):
    """Four kinds in turn, a quarter each."""
    choose = random.Random(SEED)
    for _ in range(count // 4):
        yield of_bits(choose.randrange(0x0010000000000000, 0x7FF0000000000000))
        yield 1.0 - choose.random()
        yield 1.0 + choose.uniform(-0.5, 1.0) * 0.5 ** choose.randrange(45)
        boundary = (choose.randrange(0x3FD, 0x401) << 52) + (0x6A09E << 32)
        yield of_bits(boundary + choose.randrange(-(1 << 46), 1 << 46))


def main():
    count = int(sys.argv[1]) if len(sys.argv) > 1 else 1_000_000
    worst, at = max((ulps(x), x) for x in arguments(count))
    print(f"{count} arguments: at most {worst:.6f} units in the last place, at {to_bits(at):016X} ({at!r})")


main()
