#!/usr/bin/env python3
"""Reads what rt ci said of every must-fail edit. An edit shows something only if it was refused because a fact no longer holds: not because the proof file
no longer fits the code, nor because a file did not parse or a name was not found, nor by a limit of the prover. rt ci prints the first line of the
first error, at most 160 characters of it, which is read here; all lines rt ci reads itself, and calls an edit bad whose text does not parse or names
what is not there. That the edited program is wrong this doesn't show; tests/wrong.py does.

    tests/must_fail.py LOG    what rt ci printed
"""
import collections
import glob
import re
import sys

LINE = re.compile(r"^rt: must-fail (\S+)\.edit: (.*)$", re.M)
REFUSED = "refused, as it must be: "  # then the error; in brackets before it why the refusal says little, where rt ci found that
COUNT = re.compile(r"^rt: ok; .*\bmust-fail edits: (\d+) refused(.*?)(?:;|$)", re.M)
# what an error must not say
UNFIT = (
    r"has no `[^`]*` that can be named",
    r"error\[",
    r"is not in scope(?! here, so what is shown)",  # but for what a refusal says of its own print
    r"\bunexpected\b|\bexpected an? |\bparse",
    r"has no field",
    r"no occurrence of the path's left endpoint",
    r"mismatched types",
    r"this pattern needs a function",
)


def fault(said):
    """Why what was said of an edit shows nothing, or None."""
    if not said.startswith(REFUSED):
        return "it was not refused with an error"
    found = next((found for pattern in UNFIT if (found := re.search(pattern, said))), None)
    return found and f"'{found[0]}'"


def main(name):
    with open(name, encoding="utf-8", errors="replace") as file:
        log = file.read()
    edits = {f"{path.split('/')[1]}/{path.split('/')[-1].removesuffix('.edit')}" for path in glob.glob("crates/*/must-fail/*.edit")}
    said, wrong = collections.defaultdict(list), []
    for edit, text in LINE.findall(log):
        said[edit].append(text)
    for edit in sorted(edits | said.keys()):
        if edit not in edits or len(said[edit]) != 1:
            wrong.append(f"{edit}: rt ci speaks of it {len(said[edit])} times{'' if edit in edits else ', and it is not there'}")
        elif why := fault(said[edit][0]):
            wrong.append(f"{edit}: shows nothing, for {why}: {said[edit][0]}")
    counted = COUNT.findall(log)
    if counted != [(str(len(edits)), "")]:
        wrong.append(f"rt ci counts them otherwise: {counted}")
    if not edits:
        wrong.append("no edits")
    for line in wrong:
        print(f"must_fail: {line}")
    print(f"must_fail: {len(edits)} edits, {len(wrong)} wrong")
    sys.exit(1 if wrong else 0)


if len(sys.argv) != 2:
    sys.exit(__doc__)
main(sys.argv[1])
