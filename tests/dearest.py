#!/usr/bin/env python3
"""Prints where rt ci's minutes went. rt prints no seconds, so the gate stamps each line as it comes. A crate's proof takes from the end of the last proof of a
crate below it, or from the beginning, to its own end, its wait for a processor with it. Printed are the ten longest of these, the chain of crates that the last
proof waited for, and how long proofs, edits and runs took. Edits are tried beside the proofs, where a processor is free, and told together at the end.

    tests/dearest.py LOG    what rt ci printed, before each line the second at which it came; before the first the second at which rt ci began
"""
import re
import sys

PROVED = re.compile(r"rt: (\w+) (?:proved$|is kept: )")
TRIES = re.compile(r"rt: (\w+): trying its must-fail edits \((\d+)\)$")
EDIT = re.compile(r"rt: must-fail \S+: refused, as it must be")
LAST = re.compile(r"(\d+) passed, \d+ failed$")
DONE = re.compile(r"rt: ok; handles allowed: [^;]*; must-fail edits: [^;]*; (.*)$")


def below():
    """The crates that each crate uses."""
    with open("crates.txt") as file:
        lines = [line.split("#")[0].partition(":") for line in file]
    uses = {head.split()[0]: used.split() for head, colon, used in lines if colon}
    return {crate: [one for one in used if one in uses] for crate, used in uses.items()}


def main(name):
    with open(name, encoding="utf-8", errors="replace") as file:
        lines = [line.rstrip("\n").partition(" ")[::2] for line in file]
    lines = [(int(second), text) for second, text in lines]
    began, uses = lines[0][0], below()
    ended = {found[1]: second for second, text in lines if (found := PROVED.match(text))}
    edits = [second for second, text in lines if EDIT.match(text)]
    passed = [int(found[1]) for _, text in lines if (found := LAST.match(text))]
    if ended.keys() != uses.keys() or passed != [len(ended) + len(edits)]:
        sys.exit(f"dearest: {len(ended)} proofs and {len(edits)} edits found, and rt ci passed {passed}: its lines have another form")
    waited = {crate: max(uses[crate], key=ended.get, default=None) for crate in uses}
    took = {crate: ended[crate] - (ended[waited[crate]] if waited[crate] else began) for crate in uses}
    print(f"dearest: {next((found[1] for _, text in lines if (found := DONE.match(text))), 'not said')}")
    print("dearest proofs, from the end of the last below:")
    for crate in sorted(took, key=took.get, reverse=True)[:10]:
        print(f"{took[crate]:>6} s  {crate}")
    chain = [max(ended, key=ended.get)]
    while waited[chain[-1]]:
        chain.append(waited[chain[-1]])
    print(f"the chain of the last proof: {', '.join(f'{crate} {took[crate]}' for crate in reversed(chain))}")
    tried = {found[1]: int(found[2]) for _, text in lines if (found := TRIES.match(text))}
    most = ", ".join(f"{crate} {tried[crate]}" for crate in sorted(tried, key=tried.get, reverse=True)[:10])
    print(f"edits tried in this run: {sum(tried.values())}{f', most of {most}' if tried else ''}")
    proofs, told, end = max(ended.values()), max(edits, default=max(ended.values())), lines[-1][0]
    print(f"rt ci took {end - began} s: {proofs - began} to the last proof, {told - proofs} more to the last edit, {end - told} more for programs and tests")


if len(sys.argv) != 2:
    sys.exit(__doc__)
main(sys.argv[1])
