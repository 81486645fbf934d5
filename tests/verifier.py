#!/usr/bin/env python3
"""Written from docs/OPENING-A-PAGE.md, second edition, and tests/opener.py alone.

Makes and verifies the tags of pages: CMAC over the block cipher Labyrinth,
which it takes from opener.py beside it. Section numbers are the paper's.

    verifier.py tag -l L --key HEX --length T IN       ('-': standard input)
    verifier.py verify -l L --key HEX --tag HEX IN
    verifier.py check PAPER

IN is the tagged bytes. "tag" prints the tag's digits, "verify" yes or no.
"check" reads the values about tags out of the paper's Markdown text (sections
3 and 11.6), holds this program to each, and prints how many it compared.

Exit status: 0 done, or yes; 1 no, or "check" found a difference; 2 wrong
usage, a wrong length, or a file that cannot be read.
"""

import argparse
import re
import sys

import opener
from opener import xor_bytes

# ---------------------------------------------------------------- 7.3

def double(string):
    product = 2 * int.from_bytes(string, "big")
    result = bytearray((product % 2**128).to_bytes(16, "big"))
    if product >= 2**128:
        result[15] ^= 0x87
    return bytes(result)


def steps(l, key, message):
    """All values on the way, under the names of section 11.6."""
    if l not in (2, 3, 4) or len(key) != 8 * l:
        raise ValueError("l is 2, 3 or 4, and the tag key has 8l bytes; here "
                         "l is %s, and it has %d bytes" % (l, len(key)))
    k = opener.expand(key, 1, l, {})                    # n is 1 always

    def E(block):
        return opener.E(block, k, {})

    L = E(bytes(16))                                    # the masks
    K1 = double(L)
    K2 = double(K1)
    *parts, last = opener.cut(message, 16) or [b""]     # making a tag, 1
    if len(last) == 16:                                 # 2
        last = xor_bytes(last, K1)
    else:
        last = xor_bytes(last + b"\x80" + bytes(15 - len(last)), K2)
    c = bytes(16)                                       # 3
    for part in parts:
        c = E(xor_bytes(c, part))
    return {"L": L, "K1": K1, "K2": K2, "last": last, "chain": c,
            "whole": E(xor_bytes(c, last))}


def tag(l, key, message, length):
    if not 8 <= length <= 16:
        raise ValueError("a tag has 8 to 16 bytes, not %d" % length)
    return steps(l, key, message)["whole"][:length]     # 4


def verify(l, key, message, given):
    return tag(l, key, message, len(given)) == given


# ---------------------------------------------------------------- 12, step 9
# "c" is opener.py's Checker: it counts, and prints every difference. "tags"
# gathers the paper's tags, with what they were made from.

def in_prose(paper, pattern):
    """What stands in the paper's prose at the groups of a pattern."""
    found = re.search(pattern, " ".join(paper.split()))
    if not found:
        raise ValueError("the paper's prose has no '%s'" % pattern)
    return found.groups()


def check_vectors(c, paper, tags):                              # 11.6
    text, = in_prose(paper, r'without line ends: "([^"]*)"')    # 11.3
    bits, = in_prose(paper, r"record by record: ([01 ,]*)\.")
    by_K1 = in_prose(paper, r"message has (\d+) (?:and|or) (\d+) bytes, K2")
    bits = [pair.split() for pair in bits.split(",")]
    records = c.records("vectors-cmac")
    c.same("vectors-cmac: number of records", len(records), len(bits))
    for (head, v), highest in zip(records, bits):
        key, message = v.pop("key"), v.pop("message", b"")
        l, length, size = len(key) // 8, len(message), len(v["tag"])
        c.same("the head line, by the lengths that stand below it",
               "cmac l %d message %d tag %d" % (l, length, size), head)
        c.same(head + ": message", text.encode("ascii")[:length], message)
        mine = steps(l, key, message)
        mine["tag"] = tag(l, key, message, size)
        for name in [*mine, *sorted(v.keys() - mine.keys())]:
            c.same("%s: %s" % (head, name), mine.get(name), v.get(name))
        c.same(head + ": highest bits of L and K1",
               [str(mine[name][0] >> 7) for name in ("L", "K1")], highest)
        c.same(head + ": is K1 used",
               xor_bytes(mine["last"], mine["K1"]) == message[-16:],
               str(length) in by_K1)
        tags.append((head, l, key, message, v["tag"]))


def check_card(c, paper, tags):                                 # 3
    card = {}
    for line in c.lines("card") + c.lines("card-tag"):
        name, value = line.split(None, 1)
        card[name] = card.get(name, "") + value.strip()
    sealed, key, given = [bytes.fromhex(card[name])
                          for name in ("sealed", "tag-key", "tag")]
    size, length = in_prose(paper, r"tag, of (\d+) bytes, of the (\d+) sealed")
    l = int(card["tag-l"])
    c.same("card: length", str(len(sealed)), card["length"])
    c.same("card: lengths told below it",
           (str(len(given)), str(len(sealed))), (size, length))
    c.same("card: what was tagged", "the sealed page", card["tagged"])
    c.same("card: tag", tag(l, key, sealed, len(given)), given)
    tags.append(("card", l, key, sealed, given))


def altered(data):
    """The bytes with the first, and with the last, of their bits altered."""
    if data:
        yield bytes([data[0] ^ 0x80]) + data[1:]
        yield data[:-1] + bytes([data[-1] ^ 0x01])


def check_answers(c, paper, tags):
    for what, l, *strings in tags:
        c.same(what + ": the answer", verify(l, *strings), True)
        for i, name in enumerate(("key", "message", "tag")):
            for other in altered(strings[i]):
                c.same("%s: answer, a bit of the %s altered" % (what, name),
                       verify(l, *strings[:i], other, *strings[i + 1:]), False)


def check(path):
    with open(path, encoding="utf-8") as file:
        paper = file.read()
    c, tags = opener.Checker(paper), []
    result = "%-26s %4d compared, %d different"
    for title, part in (("values of section 11.6", check_vectors),
                        ("the card of section 3", check_card),
                        ("answers, yes and no", check_answers)):
        before = c.number, c.differences
        try:
            part(c, paper, tags)
        except (ValueError, KeyError, IndexError, TypeError) as error:
            c.differences += 1
            print("DIFFERENCE: '%s' cannot be read: %r" % (title, error))
        print(result % (title, c.number - before[0],
                        c.differences - before[1]))
    print(result % ("all", c.number, c.differences))
    return 1 if c.differences else 0


# ---------------------------------------------------------------- command line

def from_digits(what, text):                                    # section 3
    try:
        return bytes.fromhex("".join(text.split()))
    except ValueError:
        raise ValueError(what + " must be pairs of hexadecimal digits")


def main():
    parser = argparse.ArgumentParser(prog="verifier.py", allow_abbrev=False)
    commands = parser.add_subparsers(dest="what", required=True)
    for what in ("tag", "verify"):
        p = commands.add_parser(what, allow_abbrev=False)
        p.add_argument("-l", required=True, type=int, choices=[2, 3, 4])
        p.add_argument("--key", required=True, metavar="HEX")
        if what == "tag":
            p.add_argument("--length", required=True, type=int, metavar="T")
        else:
            p.add_argument("--tag", required=True, metavar="HEX")
        p.add_argument("IN")
    commands.add_parser("check", allow_abbrev=False).add_argument("PAPER")
    a = parser.parse_args()
    try:
        if a.what == "check":
            return check(a.PAPER)
        key = from_digits("the tag key", a.key)
        with open(0 if a.IN == "-" else a.IN, "rb") as file:
            message = file.read()
        if a.what == "tag":
            print(tag(a.l, key, message, a.length).hex().upper())
            return 0
        answer = verify(a.l, key, message, from_digits("the tag", a.tag))
    except (OSError, ValueError, MemoryError) as error:
        print("verifier.py: %s" % error, file=sys.stderr)
        return 2
    print("yes" if answer else "no")
    return 0 if answer else 1


if __name__ == "__main__":
    sys.exit(main())
