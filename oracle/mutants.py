#!/usr/bin/env python3
"""Builds each wrong port of oracle/mutants.txt and oracle/touches.txt, runs it on the stored sample.

Usage: oracle/mutants.py [DIRECTORY [WORDS]]. DIRECTORY holds NAME.calls and NAME.answers, by
default oracle/sample; WORDS picks the mutants whose name has them. Prints one row per mutant: up to
three lists that tell it, with the first line that differs. Exit status 1 if a mutant that is not
marked 'unseen' survives, if one that is marked is told, or if an edit does not fit or does not build.

Usage: oracle/mutants.py --steps. Prints which mutants the stored states of the controller's steps
tell, among those that edit the vendored files, the steps or the limit; setters and first values are no
part of a state, so that some go untold.

Usage: oracle/mutants.py --arithmetic. The same of the stored calls of the arithmetic, among the mutants
that edit rates, sizes, times or the limit.

Usage: oracle/mutants.py --calls [WORDS]. The same as with a directory, on the stored calls of the
controller as call lists. Line reader and queue are no part of these, so that their mutants survive.

Usage: oracle/mutants.py --search KIND TRIES WORDS. Prints, for each mutant whose name has WORDS, the first
list of the generator's KIND, near or packets-near, that tells it, among TRIES ties.

Usage: oracle/mutants.py --seeds KIND FIRST LAST [WORDS]. Prints, for each of these seeds of a kind of
the generator, which mutants whose name has WORDS its list tells, and at the end those that none does:
what to choose the seeds of oracle/sample/lists.txt by.
"""

import concurrent.futures
import hashlib
import os
import pathlib
import shutil
import subprocess
import sys
import tempfile

ROOT = pathlib.Path(__file__).resolve().parent.parent
ORACLE = ROOT / "oracle"
OUT = ROOT / "target" / "oracle" / "mutants"
SECONDS = 20
SHOWN = 3
# The kind of the stored calls that queues a packet unasked.
UNASKED = 9
RUSTC = ["rustc", "--edition", "2021", "-C", "opt-level=1", "-C", "overflow-checks=on", "-A", "warnings",
         "-C", "prefer-dynamic", "-C", "rpath"]


def read_mutants():
    mutants = []
    for line in (ORACLE / "mutants.txt").read_text().splitlines():
        if line.startswith("== "):
            mutants.append({"name": line[3:], "edits": [{"after": ""}], "unseen": None})
        elif line and not line.startswith("#"):
            key, _, value = line.partition(" ")
            if key in ("unseen", "both"):
                mutants[-1][key] = value
                continue
            assert key in ("file", "after", "old", "new"), line
            edits = mutants[-1]["edits"]
            if "new" in edits[-1]:
                edits.append({"file": edits[-1]["file"], "after": ""})
            edits[-1][key] = value
    mutants = [of_profile for mutant in mutants for of_profile in profiles(mutant)] + read_touches()
    names = [mutant["name"] for mutant in mutants]
    assert len(set(names)) == len(names), "a name twice"
    return mutants


# What a text by bytes is by packets (Q-7).
BY_PACKETS = [
    ("BY_BYTES", "!self.config.use_byte_loss_ratio"),
    ("o.size.as_bytes_f64()", "o.num_packets as f64"),
    ("o.lost_size.as_bytes_f64()", "o.num_lost_packets as f64"),
    ("(o.lost_size.as_kb() / 1000.0)", "(o.num_lost_packets as f64)"),
    ("((o.size - o.lost_size).as_kb() / 1000.0)", "(o.num_received_packets as f64)"),
    ("o.size.as_kb() / 1000.0", "o.num_packets as f64"),
    ("o.lost_size.as_kb()", "o.num_lost_packets as f64"),
    ("(o.size - o.lost_size).as_kb()", "o.num_received_packets as f64"),
]


def profiles(mutant):
    """The mutant, and where it has 'both' the same mutant by packets."""
    if "both" not in mutant:
        return [mutant]
    [edit] = mutant["edits"]
    by_packets = edit["new"]
    for ours, theirs in BY_PACKETS:
        by_packets = by_packets.replace(ours, theirs)
    assert "o.size" not in by_packets and "o.lost_size" not in by_packets, mutant["name"]
    by_bytes = edit["new"].replace("BY_BYTES", "self.config.use_byte_loss_ratio")
    return [{**mutant, "edits": [{**edit, "new": by_bytes}]},
            {**mutant, "edits": [{**edit, "new": by_packets}], "name": mutant["name"] + ", by packets",
             "unseen": mutant["both"] or mutant["unseen"]}]


def read_touches():
    """Every call of oracle/touches.txt with every field, as mutants of one program; kind 8 keeps the field."""
    calls, fields, unseen = [], [], {}
    for line in (ORACLE / "touches.txt").read_text().splitlines():
        key, _, value = line.partition(" ")
        if key == "call":
            calls.append({"name": value, "after": ""})
        elif key == "field":
            fields.append({"name": value})
        elif key in ("set", "keep"):
            fields[-1][key] = value
        elif key == "unseen":
            pair, _, reason = value.partition(": ")
            unseen[pair] = reason
        elif line and not line.startswith("#"):
            assert key in ("file", "after", "old", "new"), line
            calls[-1][key] = value
    pairs = [(call["name"], field["name"]) for call in calls for field in fields
             if call["name"] != KEEPS or "keep" in field]
    known = {f"{call}, {field}" for call, field in pairs} | {f"any call, {f['name']}" for f in fields}
    assert unseen.keys() <= known, unseen.keys() - known
    return [{"name": f"touch: {call}{'' if call == KEEPS else ' clears'} {field}", "touch": (calls, fields),
             "chosen": f"{call}, {field}",
             "unseen": unseen.get(f"{call}, {field}", unseen.get(f"any call, {field}"))}
            for call, field in pairs]


# The one call that has to clear every field; wrong is that it keeps one.
KEEPS = "kind 8 keeps"


def touching(calls, fields):
    """The sources in which each call asks the environment whether it is to clear a field, or to keep it."""
    texts = {}
    for call in calls:
        file = call["file"]
        wrong = "keep(before);" if call["name"] == KEEPS else f"touch(\"{call['name']}\");"
        text = edited({**call, "new": call["new"].replace("TOUCH", wrong)}, texts.get(file))
        texts[file] = text
    def cases(what):
        return "".join(f"\"{field['name']}\" => {{ {field[what]} }}\n" for field in fields if what in field)

    texts["vendor/loss_controller.rs"] += (
        "\nfn chosen(call: &str) -> &'static str {\n"
        "static CHOSEN: std::sync::OnceLock<String> = std::sync::OnceLock::new();\n"
        "let chosen = CHOSEN.get_or_init(|| std::env::var(\"TOUCH\").unwrap_or_default());\n"
        "chosen.strip_prefix(call).and_then(|rest| rest.strip_prefix(\", \")).unwrap_or(\"\") }\n"
        "impl LossController {\n"
        f"pub fn touch(&mut self, call: &str) {{ match chosen(call) {{ \"\" => {{}}\n{cases('set')}_ => panic!() }} }}\n"
        f"pub fn keep(&mut self, before: Self) {{ match chosen(\"{KEEPS}\") {{ \"\" => {{}}\n{cases('keep')}_ => panic!() }} }}\n"
        "}\n")
    return texts


def texts_of(mutant):
    """The sources that a mutant changes."""
    if "touch" in mutant:
        return touching(*mutant["touch"])
    texts = {}
    for edit in mutant["edits"]:
        texts[edit["file"]] = edited(edit, texts.get(edit["file"]))
    return texts


def edited(edit, text=None):
    text = text or (ORACLE / edit["file"]).read_text()
    after = edit["after"]
    if after and after not in text:
        raise ValueError("no such place: " + after)
    start = text.index(after)
    place = text.find(edit["old"], start)
    if place < 0:
        raise ValueError("no such text: " + edit["old"])
    return text[:place] + edit["new"] + text[place + len(edit["old"]):]


def sources(program):
    """What the programs are built from; the generator and the other programs are no part of it."""
    names = """answer answer_line bwe call_list controller_steps instant limit line log private_steps
        random reads replay_files steps stream tell tie""".split()
    shared = [ORACLE / "src" / (name + ".rs") for name in names] + sorted(ORACLE.glob("vendor/*.rs"))
    if program != "arithmetic":
        return shared
    alone = [ORACLE / "src/arithmetic.rs", ORACLE / "src/no_limit.rs"]
    return shared + alone + sorted(ORACLE.glob("src/arithmetic/*.rs"))


def build(mutant, name="answer"):
    """The mutant's program; built anew only where a source or the edit changed."""
    texts = texts_of(mutant)
    digest = hashlib.sha256(repr((texts, RUSTC, name == "tell")).encode())
    for source in sources(name):
        digest.update(source.read_bytes())
    home = OUT / digest.hexdigest()[:24]
    program = home / name
    if program.exists():
        return program
    # 'tell' has the right tree beside the wrong one.
    wrong = home / "wrong" if name == "tell" else home
    for tree in {home, wrong}:
        for part in ("src", "vendor"):
            (tree / part).mkdir(parents=True, exist_ok=True)
        for source in sources(name):
            (tree / source.relative_to(ORACLE)).parent.mkdir(exist_ok=True)
            shutil.copy(source, tree / source.relative_to(ORACLE))
    for file, text in texts.items():
        (wrong / file).write_text(text)
    # TimeDelta::from_secs and from_millis are test-only in the source.
    test = ["--cfg", "test"] if name == "arithmetic" else []
    subprocess.run([*RUSTC, *test, "-o", home / (name + ".new"), home / "src" / (name + ".rs")],
                   check=True, capture_output=True, text=True)
    os.replace(home / (name + ".new"), program)
    return program


def first_difference(program, calls, answers, touch):
    """The number of the first answer that differs, or None."""
    with open(calls, "rb") as stdin:
        try:
            run = subprocess.run([program], stdin=stdin, capture_output=True, timeout=SECONDS,
                                 env={**os.environ, "TOUCH": touch})
        except subprocess.TimeoutExpired:
            return "no end"
    expected = answers.read_bytes()
    if run.stdout == expected and run.returncode == 0:
        return None
    if run.returncode != 0:
        return "panic"
    ours, theirs = expected.split(b"\n"), run.stdout.split(b"\n")
    return next((i + 1 for i, (a, b) in enumerate(zip(ours, theirs)) if a != b),
                min(len(ours), len(theirs)))


def told_by(mutant, lists):
    program = build(mutant)
    told = []
    for calls in lists:
        line = first_difference(program, calls, calls.with_suffix(".answers"), mutant.get("chosen", ""))
        if line is not None:
            told.append((calls.stem, line))
        if len(told) == SHOWN:
            break
    return told


def judge(mutant, lists):
    try:
        told = told_by(mutant, lists)
    except ValueError as error:
        return "FAULT", str(error), []
    except subprocess.CalledProcessError as error:
        return "FAULT", "does not build: " + error.stderr.split("\n")[0], []
    if mutant["unseen"] is None:
        return ("told" if told else "SURVIVES"), "", told
    return ("SEEN" if told else "unseen"), mutant["unseen"], told


def told_by_replay(mutant, name, crate):
    """Whether a stored call of a replay, which the program of that name makes, tells the mutant."""
    program = build(mutant, name)
    answers = program.with_name("answers")
    run = subprocess.run([program, program.with_name("calls"), answers], capture_output=True)
    stored = ROOT / "crates" / crate / "stdout"
    return run.returncode != 0 or answers.read_bytes() != stored.read_bytes()


# No edit: a program that is built the same way and has to survive, so that one that cannot even be
# started is not taken for a wrong one.
CONTROL = {"name": "no edit", "edits": [{"file": "src/steps.rs", "after": "", "old": "", "new": ""}],
           "unseen": None}


def replay(name, crate, files):
    """Which mutants whose edits all lie in these files the stored answers of a replay tell."""
    assert not told_by_replay(CONTROL, name, crate), "the program without an edit is told"
    mutants = [mutant for mutant in read_mutants()
               if "touch" not in mutant and all(edit["file"] in files for edit in mutant["edits"])]
    with concurrent.futures.ThreadPoolExecutor(os.cpu_count()) as pool:
        told = list(pool.map(lambda mutant: told_by_replay(mutant, name, crate), mutants))
    for mutant, is_told in zip(mutants, told):
        print("told  " if is_told else "untold", mutant["name"])
    unseen = sum(is_told and mutant["unseen"] is not None for mutant, is_told in zip(mutants, told))
    print(f"{sum(told)} of {len(mutants)} told, {unseen} of which no list tells")
    return 0


def search(kind, tries, words):
    mutants = [mutant for mutant in read_mutants() if words in mutant["name"] and "touch" not in mutant]
    assert mutants, "no mutants"

    def found(mutant):
        return subprocess.run([build(mutant, "tell"), kind, tries], capture_output=True, text=True).stdout

    with concurrent.futures.ThreadPoolExecutor(os.cpu_count()) as pool:
        for mutant, seed in zip(mutants, pool.map(found, mutants)):
            print(f"{seed.strip() or 'none':20} {mutant['name']}", flush=True)
    return 0


def answer(calls):
    """Writes the oracle's answers beside a list."""
    with open(calls, "rb") as stdin, open(calls.with_suffix(".answers"), "wb") as stdout:
        subprocess.run([OUT.parent / "answer-2"], stdin=stdin, stdout=stdout, check=True)


def seeds(kind, first, last, words=""):
    mutants = [mutant for mutant in read_mutants() if words in mutant["name"]]
    assert mutants, "no mutants"

    def told(seed):
        calls = pathlib.Path(directory) / f"{seed}.calls"
        with open(calls, "wb") as stdout:
            subprocess.run([OUT.parent / "generate-2", kind, str(seed)], stdout=stdout, check=True)
        answer(calls)
        return [mutant["name"] for mutant, program in zip(mutants, programs) if first_difference(
            program, calls, calls.with_suffix(".answers"), mutant.get("chosen", "")) is not None]

    untold = {mutant["name"] for mutant in mutants}
    with tempfile.TemporaryDirectory() as directory, \
            concurrent.futures.ThreadPoolExecutor(os.cpu_count()) as pool:
        programs = list(pool.map(build, mutants))
        numbers = range(int(first), int(last) + 1)
        for seed, names in zip(numbers, pool.map(told, numbers)):
            untold.difference_update(names)
            if names:
                print(f"{kind} {seed}: {', '.join(names)}", flush=True)
    print("told by none:", ", ".join(sorted(untold)) or "no mutant")
    return 0


def stored_calls():
    """A directory with the stored calls of the controller as one call list, and the oracle's answers.
    The reports of packets that no list can queue are left out; they are refused."""
    directory = OUT.parent / "stored_calls"
    shutil.rmtree(directory, ignore_errors=True)
    directory.mkdir(parents=True)
    lines, unasked = [], False
    for line in (ROOT / "crates/replay_calls/stdin").read_text().splitlines():
        kind, a, b, c = (int(field, 16) for field in line.split())
        if kind != UNASKED and not unasked:
            lines.append(f"{kind:2}{a:20}{b:20}{c:8}\n")
        unasked = kind == UNASKED
    calls = directory / "calls.calls"
    calls.write_text("".join(lines))
    answer(calls)
    return directory


def main():
    if sys.argv[1:] == ["--steps"]:
        vendored = [f"vendor/{path.name}" for path in ORACLE.glob("vendor/*.rs")]
        return replay("controller_steps", "replay_steps", [*vendored, "src/steps.rs", "src/limit.rs"])
    if sys.argv[1:] == ["--arithmetic"]:
        return replay("arithmetic", "replay", ["vendor/bandwidth.rs", "vendor/time.rs", "src/limit.rs"])
    if sys.argv[1:2] == ["--search"]:
        return search(*sys.argv[2:])
    for program in ("answer", "generate"):
        subprocess.run([ORACLE / "build.sh", program], check=True, stdout=subprocess.DEVNULL)
    if sys.argv[1:2] == ["--seeds"]:
        return seeds(*sys.argv[2:])
    if sys.argv[1:2] == ["--calls"]:
        directory = stored_calls()
    else:
        directory = pathlib.Path(sys.argv[1]) if len(sys.argv) > 1 else ORACLE / "sample"
    words = sys.argv[2] if len(sys.argv) > 2 else ""
    lists = sorted(directory.glob("*.calls"))
    mutants = [mutant for mutant in read_mutants() if words in mutant["name"]]
    assert lists and mutants, "no lists or no mutants"
    assert not told_by(CONTROL, lists), "the program without an edit is told"
    for mutant in [mutant for mutant in mutants if "touch" in mutant][:1]:
        assert not told_by({**mutant, "chosen": ""}, lists), "the program that touches nothing is told"
    counts = {}
    with concurrent.futures.ThreadPoolExecutor(os.cpu_count()) as pool:
        for mutant, (verdict, note, told) in zip(
                mutants, pool.map(lambda mutant: judge(mutant, lists), mutants)):
            counts[verdict] = counts.get(verdict, 0) + 1
            where = ", ".join(f"{name} {line}" for name, line in told)
            print(f"{verdict:8} {mutant['name']:70} {where or note}", flush=True)
    print(", ".join(f"{count} {verdict}" for verdict, count in sorted(counts.items())),
          f"of {len(mutants)} mutants on {len(lists)} lists")
    return 0 if set(counts) <= {"told", "unseen"} else 1


if __name__ == "__main__":
    sys.exit(main())
