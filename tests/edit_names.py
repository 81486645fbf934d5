#!/usr/bin/env python3
"""Holds the must-fail edits to the code, and docs/CONTRACTS.md to the tree. Each text that an edit replaces stands exactly once in its file, which is
told here in a second and by rt ci when it comes to the edit. An edit is named in the page as `label` in the 'ruled out' column of a function of its
own crate, or as `crate/label` anywhere. Every edit is named, every name is an edit, an operation on offer names two at least, and every public
function of a library has a row. The crate of a row is what stands before `::`, or else the one that the heading names. A label ends in
_in_the_definition exactly if its edit is of specs/, but for the crate `promise`, which has no code."""
import glob
import os
import re
import sys

PAGE = "docs/CONTRACTS.md"
# its functions are for the benchmark alone, and the page says so in a sentence
NO_ROWS = ("bench_blocks",)
NO_CODE = ("promise",)

edits = {(path.split("/")[1], os.path.basename(path)[: -len(".edit")]) for path in glob.glob("crates/*/must-fail/*.edit")}
functions = set()
for path in glob.glob("crates/*/src/*.rt"):
    crate = path.split("/")[1]
    if os.path.exists(f"crates/{crate}/src/lib.rt") and crate not in NO_ROWS:
        functions |= {(crate, name) for name in re.findall(r'^pub (?:extern "C" )?fn (\w+)', open(path).read(), re.M)}

bad = 0


def wrong(what):
    global bad
    bad += 1
    print(f"edit_names: {what}")


def unfit(crate, text):
    """Why an edit cannot be applied, as rt reads it: the pairs one after the other, each to what those before it made."""
    file, old, made, pairs = "", "", {}, 0
    for line in text.split("\n"):
        if line.startswith("file: "):
            file = line[len("file: ") :]
            path = os.path.join("crates", crate, file)
            if not os.path.isfile(path):
                return f"no file {file}"
            made.setdefault(file, open(path).read())
        elif line.startswith("old: "):
            old = line[len("old: ") :]
        elif line.startswith("new:"):
            count = made[file].count(old) if file and old else 0
            if count != 1:
                return f"{count} times in {file}: {old}"
            made[file] = made[file].replace(old, line[len("new:") :].removeprefix(" "))
            old, pairs = "", pairs + 1
    return "no old: and new: pair, or a part of one" if old or not pairs else None


for crate, label in sorted(edits):
    text = open(f"crates/{crate}/must-fail/{label}.edit").read()
    if fault := unfit(crate, text):
        wrong(f"crates/{crate}/must-fail/{label}.edit: {fault}")
    if crate not in NO_CODE and ("\nfile: specs/" in "\n" + text) != label.endswith("_in_the_definition"):
        wrong(f"crates/{crate}/must-fail/{label}.edit: its name does not say whether it is of code or of a definition")

named, rowed, offered = set(), set(), 0
part, heading, column = "", None, None
for number, line in enumerate(open(PAGE), 1):
    place = f"{PAGE}:{number}"
    if line.startswith("#"):
        if line.startswith("## "):
            part = line[3:].strip()
        crate_named = re.search(r"`crates/(\w+)`", line)
        heading, column = crate_named and crate_named.group(1), None
        continue
    # with its crate, anywhere
    for crate, label in re.findall(r"`(\w+)/(\w+)`", line):
        if (crate, label) in edits:
            named.add((crate, label))
        elif os.path.isdir(f"crates/{crate}"):
            wrong(f"{place}: {crate}/{label} is no edit")
    if not line.startswith("|"):
        column = None
        continue
    cells = [cell.strip() for cell in line.strip().strip("|").split("|")]
    if column is None:
        column = cells.index("ruled out") if "ruled out" in cells else -1
        continue
    if column < 0 or set(line.strip()) <= set("|-"):
        continue
    # the row of a function, or of several of one crate
    names = re.findall(r"`(?:(\w+)::)?(\w+)", cells[0])
    own = next((crate for crate, _ in names if crate), heading)
    if not names or own is None:
        wrong(f"{place}: of which crate is {cells[0]}?")
        continue
    for _, name in names:
        if (own, name) in rowed:
            wrong(f"{place}: {own}::{name} has two rows")
        if (own, name) not in functions:
            wrong(f"{place}: {own} has no public function {name}")
        rowed.add((own, name))
    here = set()
    for name in re.findall(r"`([^`]*)`", cells[column]):
        edit = tuple(name.split("/")) if "/" in name else (own, name)
        here.add(edit)
        if edit not in edits:
            wrong(f"{place}: {name} is no edit" + ("" if "/" in name else f" of {own}"))
    named |= here & edits
    if part == "On offer":
        offered += 1
        if len(here & edits) < 2:
            wrong(f"{place}: {own}::{names[0][1]} is on offer and names fewer than two edits")

for crate, label in sorted(edits - named):
    wrong(f"crates/{crate}/must-fail/{label}.edit is not named in {PAGE}")
for crate, name in sorted(functions - rowed):
    wrong(f"{crate}::{name} has no row in {PAGE}")
if not edits or not offered:
    wrong("no edits, or no operation on offer")
print(f"edit_names: {len(edits)} edits, {len(rowed)} functions in rows, {offered} rows on offer, {bad} wrong")
sys.exit(1 if bad else 0)
