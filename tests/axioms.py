#!/usr/bin/env python3
"""Prints of every crate what it assumes; a library may assume nothing. Only functions of an extern "C" block can be assumed. A verdict has foreign= where the
crate has such a block, which rt ci refuses; and that of a program or a static library has axioms=, how many it reaches in any crate, those of std
too. So no crate has such a block, no verdict says foreign=, and that of a library no axioms=. A crate whose files an earlier run of
rt ci on this machine proved has no verdict in the log, but a line that says so; those of the library for C have one in the log of make lib.

    tests/axioms.py LOG..    what rt ci and make lib printed
"""
import glob
import os
import re
import sys

# words of a verdict of rt ci's that say what was not checked again, the logic and the libraries below, which were checked by themselves (`statements`: a library
# below gives its statements without the proofs, which its own check read); and of make lib's, which begins with what earlier checks of the crate kept, as rt ci
# never does
TRUSTED = {"logic-built", "libraries-built", "statements"}
LATER = {*TRUSTED, "incremental"}
BESIDE = ("bench_blocks",)  # a static library that is not of the library for C


def read(path):
    with open(path, encoding="utf-8", errors="replace") as file:
        return file.read()


def crates():
    """The names in crates.txt, and whether each is a static library."""
    with open("crates.txt") as file:
        heads = [line.split("#")[0].partition(":")[0].split() for line in file]
    return {head[0]: "staticlib" in head for head in heads if head}


def verdicts(log):
    """Of each crate the verdicts below its line, as words with what they are; of its tests none."""
    found = {}
    for name, text in re.findall(r"^== (\w+)\n(.*?)(?=^== |\Z)", log, re.M | re.S):
        lines = re.findall(r"^logic=proved (.*)$", text, re.M)
        found.setdefault(name, []).extend(dict(word.partition("=")[::2] for word in line.split()) for line in lines)
    return found


def main(names):
    logs = [read(name) for name in names]
    kept = {name for log in logs for name in re.findall(r"^rt: (\w+) is kept: an earlier run", log, re.M)}
    said, bad = [verdicts(log) for log in logs], 0
    for name, static in crates().items():
        own = [(at, verdict) for at, found in enumerate(said) for verdict in found.get(name, [])]
        trusted = {word for at, verdict in own for word, what in verdict.items() if what == "trusted" and word not in (TRUSTED, LATER)[at > 0]}
        foreign = any(re.search(r'\bextern\s+"C"\s*\{', read(path)) for path in glob.glob(f"crates/{name}/src/**/*.rt", recursive=True))
        assumed = max((int(verdict.get("axioms", 0)) for _, verdict in own), default=None)
        library = os.path.exists(f"crates/{name}/src/lib.rt")
        if not own and (name not in kept or static and name not in BESIDE):
            wrong = "no verdict of its own"
        elif trusted:
            wrong = f"it trusts {' '.join(sorted(trusted))}"
        elif foreign or any("foreign" in verdict for _, verdict in own):
            wrong = 'it has functions of an extern "C" block'
        else:
            wrong = f"a library that assumes {assumed}" if library and assumed else ""
        count = assumed if assumed is not None else "0" if library and not static else "proved by an earlier run"
        print(f"axioms: {name}: {'FAILED: ' + wrong if wrong else count}")
        bad += bool(wrong)
    sys.exit(1 if bad or not crates() else 0)


if len(sys.argv) < 2:
    sys.exit(__doc__)
main(sys.argv[1:])
