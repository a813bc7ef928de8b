#!/usr/bin/env python3
"""Draws docs/groupings.svg: the published rate over time on two lists of examples/, with the bias as
libWebRTC groups it, which is the oracle, and as the Rust does, which is a wrong port of mutants.txt.

Usage: oracle/groupings.py [check]. With the word 'check' nothing is written, and the exit status tells
whether the stored picture is the one drawn; it is 2 where none can be. Needs rustc and Python's
standard library.
"""

import shutil
import struct
import subprocess
import sys

import mutants

PICTURE = mutants.ROOT / "docs" / "groupings.svg"
LISTS = [("fall_and_recovery", 1e6, "Mbit/s", 1.0), ("thin_link_falls_earlier", 1e3, "kbit/s", 5.0)]
RUSTS_GROUPING = "near miss: bias as the Rust groups it"
WIDTH, PANEL, LEFT, RIGHT, TOP, BOTTOM = 860, 300, 70, 30, 60, 45
INK, GREY, LOSS, HERE, RUST = "#222222", "#8a8a8a", "#eeeeee", "#14507a", "#f2a65a"


def programs():
    """The oracle's program, and the same with the bias as the Rust groups it."""
    oracle = subprocess.run([mutants.ORACLE / "build.sh", "answer"], check=True, stdout=subprocess.PIPE, text=True)
    rust = next(mutant for mutant in mutants.read_mutants() if mutant["name"] == RUSTS_GROUPING)
    return mutants.ROOT / oracle.stdout.strip(), mutants.build(rust)


def columns(line, widths):
    ends = [sum(widths[:k + 1]) for k in range(len(widths))]
    return [int(line[end - width:end]) for width, end in zip(widths, ends)]


def published(program, calls):
    """The published rate after each call, None where there is none."""
    run = subprocess.run([program], input=calls, check=True, capture_output=True, text=True)
    rates = []
    for line in run.stdout.splitlines():
        _, _, is_published, rate, _ = columns(line, [2, 2, 2, 20, 20])
        rates.append(struct.unpack("<d", struct.pack("<Q", rate))[0] if is_published else None)
    return rates


def reports(calls, rates):
    """The latest send time in s and the rate of each report, and the times of lost packets."""
    time, points, lost = 0.0, [], []
    for line, rate in zip(calls.splitlines(), rates):
        kind, a, b, _ = columns(line, [2, 20, 20, 6])
        if kind == 5:
            time = a / 1e9
            if b == 1:
                lost.append(time)
        elif kind == 6 and rate is not None:
            points.append((time, rate))
    return points, lost


def steps(points, x, y):
    """A rate stands until the next report."""
    (time, rate), *rest = points
    path = [f"M{x(time):.1f} {y(rate):.1f}"]
    for time, rate in rest:
        path.append(f"H{x(time):.1f}V{y(rate):.1f}")
    return "".join(path)


def text(x, y, words, anchor="start", colour=INK, weight="normal"):
    return (f'<text x="{x:.1f}" y="{y:.1f}" text-anchor="{anchor}" fill="{colour}" '
            f'font-weight="{weight}">{words}</text>')


def panel(top, name, unit, unit_name, tick, here, rust, lost):
    end = here[-1][0]
    highest = max(rate for _, rate in here + rust) / unit
    ticks = int(highest / tick) + 1
    bottom = top + PANEL - BOTTOM

    def x(time):
        return LEFT + (WIDTH - LEFT - RIGHT) * time / end

    def y(rate):
        return bottom - (PANEL - TOP - BOTTOM) * rate / unit / (ticks * tick)

    differ = sum(a != b for a, b in zip(here, rust))
    said = f"{differ} of {len(here)} reports publish another rate" if differ else "both publish the same"
    out = [text(LEFT, top + 24, f"{name}: {said}", weight="bold")]
    out.append(f'<rect x="{x(lost[0]):.1f}" y="{top + TOP}" width="{x(lost[-1]) - x(lost[0]):.1f}" '
               f'height="{bottom - top - TOP}" fill="{LOSS}"/>')
    out.append(text((x(lost[0]) + x(lost[-1])) / 2, top + TOP - 5, "packets lost", "middle", GREY))
    for k in range(ticks + 1):
        at = y(k * tick * unit)
        out.append(f'<path d="M{LEFT} {at:.1f}H{WIDTH - RIGHT}" stroke="#d8d8d8"/>')
        out.append(text(LEFT - 8, at + 4, f"{k * tick:g}", "end"))
    out.append(text(LEFT - 8, top + TOP - 12, unit_name, "end"))
    for second in range(int(end) + 1):
        out.append(text(x(second), bottom + 18, f"{second}", "middle"))
    out.append(text(WIDTH - RIGHT, bottom + 36, "time, s", "end"))
    out.append(f'<path d="{steps(rust, x, y)}" fill="none" stroke="{RUST}" stroke-width="7"/>')
    out.append(f'<path d="{steps(here, x, y)}" fill="none" stroke="{HERE}" stroke-width="2"/>')
    return out


def legend(top):
    rows = [(HERE, 2, "here, as libWebRTC: (factor × diff) / (0.002 + |diff|)"),
            (RUST, 7, "the Rust: factor × (diff / 0.002 + |diff|)")]
    out = []
    for place, (colour, width, words) in enumerate(rows):
        left = LEFT + 430 * place
        out.append(f'<path d="M{left} {top}h30" stroke="{colour}" stroke-width="{width}"/>')
        out.append(text(left + 38, top + 4, words))
    return out


def picture():
    here, rust = programs()
    height = 40 + PANEL * len(LISTS)
    out = [f'<svg xmlns="http://www.w3.org/2000/svg" viewBox="0 0 {WIDTH} {height}" '
           'font-family="sans-serif" font-size="13">',
           "<title>Published rate over time with both groupings of the bias</title>",
           f'<rect width="{WIDTH}" height="{height}" fill="white"/>', *legend(24)]
    for place, (name, unit, unit_name, tick) in enumerate(LISTS):
        calls = (mutants.ROOT / "examples" / (name + ".txt")).read_text()
        points, lost = reports(calls, published(here, calls))
        others, _ = reports(calls, published(rust, calls))
        out += panel(40 + PANEL * place, name, unit, unit_name, tick, points, others, lost)
    return "\n".join([*out, "</svg>"]) + "\n"


def main():
    if sys.argv[1:] in (["--help"], ["-h"]):
        print(__doc__.strip())
        return 0
    if sys.argv[1:] not in ([], ["check"]):
        print("usage: oracle/groupings.py [check]", file=sys.stderr)
        return 2
    if shutil.which("rustc") is None:
        print("rustc is not at hand: the picture plays the Rust", file=sys.stderr)
        return 2
    try:
        drawn = picture()
    except subprocess.CalledProcessError as error:
        print(error, error.stderr or "", file=sys.stderr)
        return 2
    if sys.argv[1:] == ["check"]:
        if PICTURE.exists() and PICTURE.read_text() == drawn:
            return 0
        print(f"{PICTURE.relative_to(mutants.ROOT)} is not the one drawn", file=sys.stderr)
        return 1
    PICTURE.write_text(drawn)
    return 0


if __name__ == "__main__":
    sys.exit(main())
