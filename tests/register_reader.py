#!/usr/bin/env python3
"""Reads key registers as section 7.6 of docs/OPENING-A-PAGE.md tells, over unwrapper.py beside it. Like that one it is no stranger's: whoever wrote the
section wrote this.

    register_reader.py find L MASTER REGISTER NUMBER    l and the digits of the master key, the register's file, and the number of a key
    register_reader.py check PAPER                      holds it to the paper's values (sections 3 and 11.9)

"find" prints the digits of the number's own key, which opens its pages; then those of the key at the end of its replacements, with the rule and how many
were followed; then which of the five lines of 7.6 don't hold. A refusal is a number in their place: 4 for a file of another length, 22 for an absent number,
18 for a key that cannot be unwrapped. Exit status: 0 done; 1 refused, or "check" found a difference; 2 wrong usage, or a file that cannot be read."""

import sys

import opener
import unwrapper


def entries(register):
    """Number, replaced number and wrapped key of each entry that is in the register."""
    cut = [register[8 + 44 * i : 52 + 44 * i] for i in range(min(int.from_bytes(register[:8], "little"), 64))]
    return [(int.from_bytes(one[:2], "little"), int.from_bytes(one[2:4], "little"), one[4:]) for one in cut]


def look_up(register, number):
    """The places of the number's own entry and of the one at the end of its replacements, the rule, and how many were followed; or 4 or 22."""
    if len(register) != 2824:
        return 4
    held, f = entries(register), 0
    own = next((i for i, one in enumerate(held) if one[0] == number != 0), None)
    if own is None:
        return 22
    reached = own
    while held[reached][0] != 0 and (later := [i for i in range(reached + 1, len(held)) if held[i][1] == held[reached][0]]):
        reached, f = later[0], f + 1
    return own, reached, int(f > 0), f


def keys(l, master, register, number):
    """The number's own key and the one at the end, or 18 in the place of either; or 4 or 22."""
    found = look_up(register, number)
    return found if isinstance(found, int) else [unwrapper.unwrap(l, master, entries(register)[place][2]) for place in found[:2]]


def faults(register):
    """Which of the five lines of 7.6 don't hold, counted from 1."""
    held = entries(register)
    numbers, replaced = [one[0] for one in held], [one[1] for one in held if one[1] != 0]
    lines = (
        int.from_bytes(register[:8], "little") <= 64,
        0 not in numbers and len(set(numbers)) == len(numbers),
        all(one[1] == 0 or one[1] in numbers[:i] for i, one in enumerate(held)),
        len(set(replaced)) == len(replaced),
        not any(register[8 + 44 * len(held) :]),
    )
    return [at for at, holds in enumerate(lines, 1) if not holds]


def check_look_ups(c, lines, register):
    """Of each number that stands at the places, then of 0 and 8. "c" is opener.py's Checker: it counts, and prints every difference."""
    numbers = [int.from_bytes(register[at : at + 2], "little") for at in range(8, 2824, 44)]
    for number, line in zip([*dict.fromkeys(filter(None, numbers)), 0, 8], lines, strict=True):
        found = look_up(register, number)
        says = f"refused {found}" if isinstance(found, int) else "own {} end {} rule {} followed {}".format(*found)
        c.same(f"number {number}", f"number {number} {says}", " ".join(line.split()))


def check_register(c):
    (first, given), *rest = c.records("key-register")
    register, l = (given["count"] + b"".join(v["entry"] for _, v in rest)).ljust(2824, b"\0"), len(given["master"]) // 8
    c.same("the head line", f"register count {len(entries(register))} bytes {len(register)}", first)
    for i, ((head, v), (number, replaced, wrapped)) in enumerate(zip(rest, entries(register), strict=True)):
        c.same(f"entry {i}", f"entry {i} byte {8 + 44 * i} number {number} replaces {replaced}", head)
        c.same(f"entry {i}: its key", unwrapper.unwrap(l, given["master"], wrapped), v["key"])
    check_look_ups(c, c.lines("key-register-look-ups"), register)
    c.same("what doesn't hold", faults(register), [])
    card = {}
    for name, value in (line.split(None, 1) for line in c.lines("card-register")):
        card[name] = card.get(name, "") + value
    n, size, number, q, length = (int(card[name]) for name in ("n", "l", "key-number", "q", "length"))
    start, sealed = (bytes.fromhex(card[name]) for name in ("start", "sealed"))
    pages = [opener.run("open", card["mode"].lower(), n, size, key, start, q, sealed) for key in keys(l, given["master"], register, number)]
    c.same("the card's page, by its own key and by the last one", [page == b"This page was sealed for you who open it." for page in pages], [True, False])
    c.same("the card's length", len(sealed), length)


def check_by_hand(c):
    for record in "\n".join(c.blocks["key-register-by-hand"]).split("\n\n"):
        (_, count), *lines = (line.split() for line in record.splitlines())
        register = bytearray(int(count).to_bytes(8, "little").ljust(2824, b"\0"))
        for _, place, _, *numbers in (line for line in lines if line[0] == "entry"):
            at = 8 + 44 * int(place)
            register[at : at + 4] = b"".join(int(number).to_bytes(2, "little") for number in numbers[::2])
        check_look_ups(c, [" ".join(line) for line in lines if line[0] == "number"], bytes(register))
        c.same("does something not hold", faults(register) != [], True)


def main(words):
    try:
        if len(words) == 2 and words[0] == "check":
            return unwrapper.check(words[1], (check_register, check_by_hand))
        if len(words) != 5 or words[0] != "find":
            raise ValueError(__doc__)
        l, number = int(words[1]), int(words[4])
        with open(words[3], "rb") as file:
            register = file.read()
        found = keys(l, bytes.fromhex(words[2]), register, number)
    except (OSError, ValueError) as error:
        print(f"register_reader.py: {error}", file=sys.stderr)
        return 2
    if isinstance(found, int):
        print(found)
        return 1
    own, last = (key if isinstance(key, int) else key.hex().upper() for key in found)
    print("own {}\nend {} rule {} followed {}\nlines that don't hold: {}".format(own, last, *look_up(register, number)[2:], faults(register)))
    return int(18 in found)


if __name__ == "__main__":
    sys.exit(main(sys.argv[1:]))
