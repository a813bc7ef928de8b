#!/usr/bin/env python3
"""Brings this repository's own definitions and lemmas to the spelling of today's Rattle: words in snake case.

usage: tools/respell.py [FOLDER]    rewrites the .antt and .rt files below FOLDER/crates in place (default: the repository)
       tools/respell.py --text FILE..    the same names in prose and scripts: only names that the table tools/respelled.txt holds

Run once, after the kit's port.py. A name is turned where it is declared in this repository, unless the file imports a name of that
spelling from the library. Functions, fields and parameters of src/, strings, inputs and outputs keep their names. Written by the
first form: tools/respelled.txt, a line for each name, old and new.
"""
import collections
import os
import re
import sys

WORD = re.compile(r"(?<![\w'«-])[A-Za-z_][\w'-]*")
DECLARED = re.compile(
    r"^\s*(?:(?:abbrev|unfoldable|pub|record|data) )*([A-Za-z_][\w'-]*) (?:\([^:]*\) |\{.*?\} |\(.*?\) )*:(?: |$)"
)
IMPORT = re.compile(r"^use (\S+?)\.\{([^}]*)\}", re.M)
OWN_MODULE = re.compile(r"Rattle\.(?!std\b|core\b)")
# binders of definitions, which are not declarations of their own
LOCAL = "answeredFloat refusedFloat clampedFloat fittedInteger unsignedInteger rateOver lnLost lnReceived operandsFinite".split()
LOCAL += "checked-by d-is finite-estimate whole-input lost-bytes".split()
# a lemma that would have its function's name gets _lem
APART = {
    "at-most": "at_most_lem",
    "digit-of": "digit_of_lem",
    "hands-back": "hands_back_lem",
    "inherent-loss": "inherent_loss_lem",
    "is-nan": "is_nan_lem",
    "lost-bytes": "bytes_lost",
    "lost-of": "measured_lost",
    "none-refused": "none_refused_lem",
    "summary-of": "summary_of_lem",
    "total-of": "measured_total",
    "up-to-most": "up_to_most_lem",
}
# of these the first script already made another name
APART_IN = {"crates/answer/proofs/Turns.antt": {"some_read": "some_read_lem"}, "crates/call_line/specs/Examples.antt": {"last_digits": "last_digits_lem"}}


def files(top, *ends):
    for folder, dirs, names in os.walk(os.path.join(top, "crates")):
        dirs[:] = sorted(d for d in dirs if d not in ("out", ".git"))
        for name in sorted(names):
            if name.endswith(ends):
                yield os.path.join(folder, name)


def read(path):
    with open(path, encoding="utf-8") as f:
        return f.read()


def turned(name):
    if name in APART:
        return APART[name]
    name = re.sub(r"(?<=\w)-(?=\w)", "_", name)
    if name[0].islower():
        name = re.sub(r"(?<=[a-z0-9])([A-Z])", r"_\1", name).lower()
    return name


def own_names(top):
    names = set(LOCAL)
    for path in files(top, ".antt"):
        for line in read(path).split("\n"):
            m = DECLARED.match(line)
            if m and "tie.Need" not in line and not line.lstrip().startswith("--"):
                names.add(m[1])
    return {n: turned(n) for n in names if turned(n) != n and not (n.endswith("-spec") and n != "-spec")}


def of_library(text):
    names = set()
    for module, listed in IMPORT.findall(text):
        if not OWN_MODULE.match(module):
            for entry in listed.split(","):
                names.add(entry.strip().split(" as ")[-1])
    return names


def respelled(text, names, aside):
    def word(m):
        w = m[0]
        return w if w in aside else names.get(w, w)

    return WORD.sub(word, text)


def clauses_only(text, names, aside):
    """A source: comments and strings stay, and no name of Rust's own has the shape of a name that is turned."""
    camel = {n: v for n, v in names.items() if "-" not in n}
    out = []
    for line in text.split("\n"):
        code, slashes, comment = line.partition("//")
        parts = re.split(r'("(?:[^"\\]|\\.)*")', code)
        out.append("".join(p if p.startswith('"') else respelled(p, camel, aside) for p in parts) + slashes + comment)
    return "\n".join(out)


def main(argv):
    here = os.path.dirname(os.path.dirname(os.path.abspath(__file__)))
    table = os.path.join(here, "tools", "respelled.txt")
    if argv and argv[0] in ("-h", "--help"):
        print(__doc__)
        return 0
    if argv and argv[0] == "--text":
        names = dict(line.split() for line in read(table).splitlines())
        for path in argv[1:]:
            old = read(path)
            new = respelled(old, names, set())
            if new != old:
                with open(path, "w", encoding="utf-8") as f:
                    f.write(new)
        return 0
    top = argv[0] if argv else here
    names = own_names(top)
    together = collections.defaultdict(list)
    for old, new in names.items():
        together[new].append(old)
    bad = {new: olds for new, olds in together.items() if len(olds) > 1}
    if bad:
        print(f"respell: names fall together: {bad}", file=sys.stderr)
        return 1
    count = 0
    for path in files(top, ".antt", ".rt"):
        old = read(path)
        if path.endswith(".rt"):
            new = clauses_only(old, names, set())
        else:
            aside = of_library(old)
            new = respelled(old, names | APART_IN.get(os.path.relpath(path, top), {}), aside)
        if new != old:
            count += 1
            with open(path, "w", encoding="utf-8") as f:
                f.write(new)
    os.makedirs(os.path.join(top, "tools"), exist_ok=True)
    with open(os.path.join(top, "tools", "respelled.txt"), "w", encoding="utf-8") as f:
        f.writelines(f"{old} {new}\n" for old, new in sorted(names.items()))
    print(f"respell: {len(names)} names, {count} files")
    return 0


if __name__ == "__main__":
    raise SystemExit(main(sys.argv[1:]))
