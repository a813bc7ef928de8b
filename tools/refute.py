#!/usr/bin/env python3
"""refute.py [EDIT..]: for each must-fail edit of crate history, or for those named, that the edited claims are false.
Under the edit, the tests of the claims (crates/history/proofs/Tested.antt, which proves that the claims make them true)
are computed, under both profiles, on the list that the edit names as 'list NAME' (crates/history/proofs/Sample.antt), and from a false test the
negation of the edited claims is proved: of Unrefused1, of RatioAtMostOne and Never6 together, of StaysFinite and AtMost
together, or of Demand3 and Refusals2 together. Works on a copy under target/refute of history and the crates below it.
Exit status 1 if an edit is not refuted; one that names no list is not, unless it stands in NOT_COMPUTED."""
import os
import re
import shutil
import subprocess
import sys

root = os.path.dirname(os.path.dirname(os.path.abspath(__file__)))
copy = root + "/target/refute"
crate = copy + "/crates/history"

# edits that name no list, and why none is computed
NOT_COMPUTED = {"full-one-early": "the shortest list has 10^9 + 1 reports"}

IMPORTS = """use mathlib.Core.Path.{sym, ◌∙◌}
use mathlib.Core.Bool.{true≢false}
use Rattle.history.specs.Demand.{Demand3}
use Rattle.history.specs.Refusals.{Refusals2}
use Rattle.history.specs.Unrefused.{Unrefused1}
use Rattle.history.specs.Unreached.{RatioAtMostOne, Never6}
use Rattle.history.specs.Finite.{StaysFinite, AtMost}
use Rattle.history.proofs.Tested.{outcome_met, untraced_met, unreached_met, unescaped_met}
"""

REFUTED = {
    "outcome": """false_here : (outcome {calls}).met ≡ false
{unfolding}
false_here = refl

refuted : Demand3 → Refusals2 → ⊥
refuted d r = true≢false (sym (outcome_met d r {calls}) ∙ false_here)
""",
    "untraced": """false_here : untraced {calls} ≡ false
{unfolding}
false_here = refl

refuted : Unrefused1 → ⊥
refuted u = true≢false (sym (untraced_met u {calls}) ∙ false_here)
""",
    "unreached": """false_here : unreached {calls} ≡ false
{unfolding}
false_here = refl

refuted : RatioAtMostOne → Never6 → ⊥
refuted r n = true≢false (sym (unreached_met r n {calls}) ∙ false_here)
""",
    "unescaped": """false_here : unescaped {calls} ≡ false
{unfolding}
false_here = refl

refuted : StaysFinite → AtMost → ⊥
refuted s m = true≢false (sym (unescaped_met s m {calls}) ∙ false_here)
""",
}


def read(path):
    with open(path) as f:
        return f.read()


def write(path, text):
    with open(path, "w") as f:
        f.write(text)


def fresh_copy():
    """history and the crates below it that its line in crates.txt names, without what rt keeps in their out/."""
    shutil.rmtree(copy, ignore_errors=True)
    os.makedirs(copy)
    lines = [line for line in read(root + "/crates.txt").splitlines() if not line.startswith("#")]
    named = next(line.split(":")[1].split() for line in lines if line.split(":")[0] == "history")
    # the kit's own, as arrayvec, have no folder here
    below = [name for name in named if os.path.isdir(f"{root}/crates/{name}")]
    write(copy + "/crates.txt", "".join(line + "\n" for line in lines if line.split(":")[0] in [*below, "history"]))
    for name in [*below, "history"]:
        shutil.copytree(f"{root}/crates/{name}", f"{copy}/crates/{name}", ignore=shutil.ignore_patterns("out", "must-fail"))
    subprocess.run(["git", "init", "-q"], cwd=copy, check=True)


def keep_the_claims_alone(list_name):
    """The proofs but for Tested and Sample go, and of Sample all but the named list, on which its test is false."""
    sample = read(crate + "/proofs/Sample.antt")
    named = re.search(rf"^{list_name} :\s+(outcome|untraced|unreached|unescaped) (.*?) ≡\s+(?:record|true).*?\n(unfolding [^\n]*)\n", sample, re.M | re.S)
    test, calls, unfolding = named.groups()
    head = sample[: re.search(r"^(--.*\n)?\S+ :\s+(outcome|untraced|unreached|unescaped)", sample, re.M).start()]
    for name in os.listdir(crate + "/proofs"):
        if name != "Tested.antt":
            os.remove(f"{crate}/proofs/{name}")
    write(crate + "/proofs/Lib.antt", "mod Tested\nmod Sample\n")
    write(crate + "/proofs/Sample.antt", IMPORTS + head + REFUTED[test].format(calls=calls, unfolding=unfolding))


def refuted(edit):
    text = read(f"{root}/crates/history/must-fail/{edit}.edit")
    file = re.search(r"^file: (.*)$", text, re.M)[1]
    pairs = re.findall(r"^old: (.*)\nnew: (.*)$", text, re.M)
    named = re.search(r"\(list (\S+)\)", text)
    if not named:
        print(f"{edit}: not computed" + (f" ({NOT_COMPUTED[edit]})" if edit in NOT_COMPUTED else ", NOT refuted"))
        return edit in NOT_COMPUTED
    name = named[1]
    for part in ("specs", "proofs"):
        shutil.rmtree(f"{crate}/{part}")
        shutil.copytree(f"{root}/crates/history/{part}", f"{crate}/{part}")
    source = read(f"{crate}/{file}")
    for old, new in pairs:
        assert source.count(old) == 1, edit
        source = source.replace(old, new)
    write(f"{crate}/{file}", source)
    keep_the_claims_alone(name)
    run = subprocess.run(["rt", "check"], cwd=crate, capture_output=True, text=True)
    print(f"{edit}: {'false' if run.returncode == 0 else 'NOT refuted'} on {name}", flush=True)
    if run.returncode:
        print("\n".join(line[:300] for line in (run.stdout + run.stderr).splitlines() if "error" in line))
    return run.returncode == 0


subprocess.run(["rt", "check"], cwd=root + "/crates/history", check=True, capture_output=True)
fresh_copy()
edits = sys.argv[1:] or sorted(name[:-5] for name in os.listdir(root + "/crates/history/must-fail"))
assert edits, "no edits"
sys.exit(0 if all([refuted(edit) for edit in edits]) else 1)
