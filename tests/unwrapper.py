#!/usr/bin/env python3
"""Unwraps keys (and, to check itself, wraps them) as section 7.4 of docs/OPENING-A-PAGE.md tells, over the E and U of opener.py beside it. Unlike
opener.py and verifier.py it is no stranger's: whoever wrote the section wrote this, in the form that lets the semiblocks stand.

    unwrapper.py unwrap -l L --master HEX WRAPPED       prints the key's digits, or 17 or 18
    unwrapper.py check PAPER                            holds it to the paper's values (sections 3 and 11.7)

Exit status: 0 done; 1 refused, or "check" found a difference; 2 wrong usage."""

import argparse
import sys

import opener
from opener import xor_bytes

CHECK = bytes([0xA6] * 8)


def number(t):
    return t.to_bytes(8, "big")


def working(l, master):
    if l not in (2, 3, 4) or len(master) != 8 * l:
        raise ValueError("l is 2, 3 or 4, and the master key has 8l bytes")
    return opener.expand(master, 1, l, {})  # n is 1 always


def wrap(l, master, key):
    """The wrapped key, or the number of a refusal."""
    if len(key) not in range(16, 129, 8):
        return 17
    k, a, r = working(l, master), CHECK, opener.cut(key, 8)
    for t in range(6 * len(r)):
        b = opener.E(a + r[t % len(r)], k, {})
        a, r[t % len(r)] = xor_bytes(b[:8], number(t + 1)), b[8:]
    return a + b"".join(r)


def unwrap(l, master, wrapped):
    """The key, or the number of a refusal."""
    if len(wrapped) not in range(24, 137, 8):
        return 17
    k, (a, *r) = working(l, master), opener.cut(wrapped, 8)
    for t in reversed(range(6 * len(r))):
        b = opener.U(xor_bytes(a, number(t + 1)) + r[t % len(r)], k, {})
        a, r[t % len(r)] = b[:8], b[8:]
    return b"".join(r) if a == CHECK else 18


# "c" is opener.py's Checker: it counts, and prints every difference


def check_vectors(c):
    for head, v in c.records("vectors-kw"):
        l = len(v["master"]) // 8
        c.same("the head line, by the lengths that stand below it", f"kw l {l} key {len(v['key'])}", head)
        c.same(f"{head}: wrapped", wrap(l, v["master"], v["key"]), v["wrapped"])
        c.same(f"{head}: unwrapped", unwrap(l, v["master"], v["wrapped"]), v["key"])
    for head, v in c.records("vectors-kw-refused"):
        l, length = len(v["master"]) // 8, len(v["string"])
        c.same("refused", f"refused l {l} bytes {length} number {unwrap(l, v['master'], v['string'])}", head)


def check_trace(c):
    (first, given), *steps = c.records("trace-wrap")
    l = len(given["master"]) // 8
    c.same("the head line, by the lengths that stand below it", f"kw l {l} key {len(given['key'])}", first)
    k = working(l, given["master"])
    before = None
    for t, (head, v) in zip((*range(7), 6 * len(given["key"]) // 8), steps, strict=True):
        c.same("the step's number", f"step {t}", head)
        a, *r = (v[name] for name in v if name == "A" or name.startswith("R_"))
        if "B" in v:
            c.same(f"{head}: given", before[0] + before[1], v["given"])
            c.same(f"{head}: B", opener.E(v["given"], k, {}), v["B"])
            c.same(f"{head}: A and the semiblocks", (xor_bytes(v["B"][:8], number(t)), [*before[2:], v["B"][8:]]), (a, r))
        elif before is None:
            c.same(head, (CHECK, given["key"]), (a, b"".join(r)))
        else:
            c.same(head, wrap(l, given["master"], given["key"]), a + b"".join(r))
        before = [a, *r]


def check_card(c):
    card = {}
    for line in c.lines("card") + c.lines("card-wrapped"):
        name, value = line.split(None, 1)
        card[name] = card.get(name, "") + value.strip()
    master, wrapped, key = (bytes.fromhex(card[name]) for name in ("master-key", "wrapped", "key"))
    c.same("the card's key, unwrapped", unwrap(int(card["master-l"]), master, wrapped), key)


def check(path, parts=(check_vectors, check_trace, check_card)):
    with open(path, encoding="utf-8") as file:
        c = opener.Checker(file.read())
    for part in parts:
        try:
            part(c)
        except (ValueError, KeyError, IndexError, TypeError) as error:
            c.differences += 1
            print(f"DIFFERENCE: {part.__name__}: it cannot be read: {error!r}")
    print(f"all {c.number} compared, {c.differences} different")
    return 1 if c.differences else 0


def main():
    parser = argparse.ArgumentParser(prog="unwrapper.py", allow_abbrev=False)
    commands = parser.add_subparsers(dest="what", required=True)
    p = commands.add_parser("unwrap", allow_abbrev=False)
    p.add_argument("-l", required=True, type=int, choices=[2, 3, 4])
    p.add_argument("--master", required=True, metavar="HEX")
    p.add_argument("WRAPPED", metavar="HEX")
    commands.add_parser("check", allow_abbrev=False).add_argument("PAPER")
    a = parser.parse_args()
    try:
        if a.what == "check":
            return check(a.PAPER)
        made = unwrap(a.l, *(bytes.fromhex("".join(text.split())) for text in (a.master, a.WRAPPED)))
    except (OSError, ValueError) as error:
        print(f"unwrapper.py: {error}", file=sys.stderr)
        return 2
    print(made if isinstance(made, int) else made.hex().upper())
    return int(isinstance(made, int))


if __name__ == "__main__":
    sys.exit(main())
