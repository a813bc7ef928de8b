#!/usr/bin/env python3
"""Which branches of the vendored Rust the sample reaches.

Usage: oracle/coverage.py [DIRECTORY]. Puts a counter into a copy of the vendored files at the start
of every block, at every arm of a match and where an 'if' without 'else' does nothing; runs the copy
on the sample and prints the functions that were never called and, in the others, the places that
were not reached. oracle/coverage.txt gives the reason for each such place, and names the functions
that the controller's source does not call. Exit status 1 if one has no reason, or a reason no place.
"""

import pathlib
import re
import shutil
import subprocess
import sys

ROOT = pathlib.Path(__file__).resolve().parent.parent
ORACLE = ROOT / "oracle"
OUT = ROOT / "target" / "oracle" / "coverage"
FILES = ["loss_controller.rs", "time.rs", "bandwidth.rs"]

COUNTERS = """
use std::sync::atomic::{AtomicU64, Ordering};
pub static HITS: [AtomicU64; 2000] = [const { AtomicU64::new(0) }; 2000];
pub fn hit(place: usize) {
    HITS[place].fetch_add(1, Ordering::Relaxed);
}
pub fn print() {
    for (place, hits) in HITS.iter().enumerate() {
        eprintln!("{place} {}", hits.load(Ordering::Relaxed));
    }
}
"""

OPENS_NO_BLOCK = re.compile(
    r"^\s*(pub(\(\w+\))? )?(struct|enum|trait|impl|mod|union|const|use)\b|\bmatch\b[^{]*\{$"
    r"|[\w>] = Self \{$|^\s*(Self|\w+) \{$|[(=] ?\w+ \{$|Some\(\w+ \{$")


class Places:
    def __init__(self):
        self.all = []
        self.function = None

    def add(self, file, number, text):
        if re.search(r"\bfn \w", text):
            self.function = len(self.all)
        self.all.append((file, number, text, self.function))
        return f"crate::coverage::hit({len(self.all) - 1});"


def indent(line):
    return len(line) - len(line.lstrip())


def condition(lines, end):
    """The text of the block's head, which may start on an earlier line."""
    if lines[end].strip() == "} else {":
        start = next(i for i in range(end - 1, 0, -1) if indent(lines[i]) == indent(lines[end])
                     and re.search(r"\bif\b|\bmatch\b", lines[i]))
        return "else of: " + " ".join(lines[start].split())
    start = end
    while lines[start].strip() == "{" or re.match(r"\s*(&&|\|\||[<>]=? |[=!]= |\.|\+|-)", lines[start]):
        start -= 1
    return " ".join(" ".join(line.split()) for line in lines[start:end + 1])


def instrument(name, text, places):
    lines = text.split("\n")
    out = list(lines)
    test_only = False
    for i, line in enumerate(lines):
        if "#[cfg(test)]" in line or "const fn" in line:
            test_only = True
        if test_only:
            if line.rstrip() in ("}", "    }"):
                test_only = False
            continue
        arm = re.match(r"^(\s+)(\S.*) => (.*[^{,]),$", line)
        if arm and "matches!" not in line:
            hit = places.add(name, i + 1, line.strip())
            out[i] = f"{arm[1]}{arm[2]} => {{ {hit} {arm[3]} }}"
            continue
        if not line.rstrip().endswith("{") or line.strip().startswith("//"):
            continue
        head = condition(lines, i)
        if OPENS_NO_BLOCK.search(line) or OPENS_NO_BLOCK.search(head):
            continue
        out[i] += " " + places.add(name, i + 1, head)
        if re.search(r"\bif\b", head) and not head.startswith("else of"):
            close = next(j for j in range(i + 1, len(lines))
                         if lines[j].strip().startswith("}") and indent(lines[j]) == indent(line))
            if lines[close].strip() == "}":
                out[close] += " else { " + places.add(name, i + 1, "not: " + head) + " }"
    return "\n".join(out)


def build(places):
    shutil.rmtree(OUT, ignore_errors=True)
    shutil.copytree(ORACLE / "src", OUT / "src")
    shutil.copytree(ORACLE / "vendor", OUT / "vendor")
    for name in FILES:
        path = OUT / "vendor" / name
        path.write_text(instrument(name, path.read_text(), places))
    (OUT / "src/coverage.rs").write_text(COUNTERS)
    answer = OUT / "src/answer.rs"
    text = answer.read_text().replace("mod stream;", "mod coverage;\nmod stream;")
    text = text.replace("|line| program.answer(line))", "|line| program.answer(line))?;\n"
                        "    coverage::print();\n    Ok(())")
    answer.write_text(text)
    subprocess.run(["rustc", "--edition", "2021", "-C", "opt-level=1", "-A", "warnings",
                    "-C", "overflow-checks=on", "-o", OUT / "answer", answer], check=True)


def run(directory, count):
    hits = [0] * count
    for calls in sorted(directory.glob("*.calls")):
        with open(calls, "rb") as stdin:
            done = subprocess.run([OUT / "answer"], stdin=stdin, capture_output=True, check=True)
        assert done.stdout == calls.with_suffix(".answers").read_bytes(), "counters changed answers"
        for line in done.stderr.decode().splitlines():
            place, number = map(int, line.split())
            if place < count:
                hits[place] += number
    return hits


def read_reasons():
    reasons = {}
    for line in (ORACLE / "coverage.txt").read_text().splitlines():
        if line.startswith("== "):
            key = line[3:]
        elif line and not line.startswith("#"):
            reasons[key] = line
    return reasons


def main():
    directory = pathlib.Path(sys.argv[1]) if len(sys.argv) > 1 else ORACLE / "sample"
    places = Places()
    build(places)
    hits = run(directory, len(places.all))
    reasons = read_reasons()
    used, faults = set(), 0
    for place, (name, number, text, function) in enumerate(places.all):
        if hits[place] or (function is not None and function != place and not hits[function]):
            continue
        key = f"{name}: {text}"
        used.add(key)
        faults += key not in reasons
        print(f"{name}:{number}: {text}\n    {reasons.get(key, 'NO REASON')}")
    for key in reasons.keys() - used:
        faults += 1
        print(f"a reason without a place: {key}")
    for name in FILES:
        called = [p for p, (file, _, _, function) in enumerate(places.all)
                  if file == name and (function is None or hits[function])]
        reached = sum(hits[place] > 0 for place in called)
        print(f"{name}: {reached} of {len(called)} places reached in the functions called")
    return 1 if faults else 0


if __name__ == "__main__":
    sys.exit(main())
