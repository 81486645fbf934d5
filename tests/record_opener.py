#!/usr/bin/env python3
"""Reads page records (and, to check itself, writes them) as section 7.5 of docs/OPENING-A-PAGE.md tells, over the E and U of opener.py beside it and the
tags of verifier.py. Like unwrapper.py it is no stranger's: whoever wrote the section wrote this.

    record_opener.py list RECORD                                                      prints number, day, blocks and title, or 19
    record_opener.py open -l L --key HEX --tag-l L --tag-key HEX RECORD OUT           writes the page, or prints 19 or 20
    record_opener.py check PAPER                                                      holds it to the paper's values (section 11.8)

The keys are the sealing key and the tag key. Exit status: 0 done; 1 refused, or "check" found a difference; 2 wrong usage, or a file that cannot be read or
written."""

import argparse
import sys

import opener
import verifier

COMMANDS = {0: 0x10, 5: 0x11, 10: 0x12, 43: 0x13}  # before the blocks, by their places


def blocks_of(record):
    """7.5, step 1: m, or None if the layout is another."""
    m, rest = divmod(len(record) - 77, 17)
    if rest or not 0 <= m <= 4096:
        return None
    wanted = {**COMMANDS, **{60 + 17 * i: 0x15 for i in range(m)}, 60 + 17 * m: 0x1F}
    return m if all(record[at] == byte for at, byte in wanted.items()) else None


def entry(record):
    """What can be read without a key: number, day, m and title; or 19."""
    m = blocks_of(record)
    if m is None:
        return 19
    return int.from_bytes(record[1:5], "little"), int.from_bytes(record[6:10], "little"), m, record[11:43]


def opened(key, tag_key, record):
    """The page, or the number of a refusal."""
    m = blocks_of(record)
    if m is None:
        return 19
    if verifier.tag(len(tag_key) // 8, tag_key, record[: 60 + 17 * m], 16) != record[-16:]:  # steps 2 and 3
        return 20
    sealed = b"".join(record[61 + 17 * i : 77 + 17 * i] for i in range(m))  # step 4
    return opener.run("open", "cbc", 1, len(key) // 8, key, record[44:60], 0, sealed)  # step 5


def written(key, tag_key, number, day, title, start, page):
    """The record of a page of whole blocks."""
    sealed = opener.run("seal", "cbc", 1, len(key) // 8, key, start, 0, page)
    record = b"\x10" + number.to_bytes(4, "little") + b"\x11" + day.to_bytes(4, "little") + b"\x12" + title + b"\x13" + start
    record += b"".join(b"\x15" + block for block in opener.cut(sealed, 16))
    return record + b"\x1f" + verifier.tag(len(tag_key) // 8, tag_key, record, 16)


# "c" is opener.py's Checker: it counts, and prints every difference


def check_vectors(c):
    for head, v in c.records("vectors-page"):
        body, (number, day) = v.get("body", b""), map(int, head.split()[8::2])
        says = f"page l {len(v['sealing']) // 8} tag-l {len(v['tagging']) // 8} blocks {len(body) // 16} number {number} day {day}"
        c.same("the head line, by the lengths that stand below it", says, head)
        c.same(f"{head}: written", written(v["sealing"], v["tagging"], number, day, v["title"], v["start"], body), v["record"])
        c.same(f"{head}: listed", entry(v["record"]), (number, day, len(body) // 16, v["title"]))
        c.same(f"{head}: opened", opened(v["sealing"], v["tagging"], v["record"]), body)
    for head, v in c.records("vectors-page-refused"):
        c.same("refused", f"refused bytes {len(v['record'])} number {opened(v['sealing'], v['tagging'], v['record'])}", head)
        c.same("listed", entry(v["record"]) == 19, head.endswith(" 19"))


def check_trace(c):
    (first, given), *rest = c.records("trace-page")
    record, sealing = given["record"], given["sealing"]
    m = blocks_of(record)
    c.same("the head line", f"page blocks {m} bytes {len(record)}", first)
    shown, (tag_head, steps), blocks = rest[: 5 + m], rest[5 + m], rest[6 + m :]
    number, day, _, title = entry(record)
    heads = [f"byte 0 number {number}", f"byte 5 day {day}", "byte 10 title", "byte 43 start", *(f"byte {60 + 17 * i} block {i}" for i in range(m)), f"byte {60 + 17 * m} tag"]
    c.same("the parts", [head for head, _ in shown], heads)
    c.same("joined", b"".join(v["command"] + v["operand"] for _, v in shown), record)
    c.same("each command is a byte", {len(v["command"]) for _, v in shown}, {1})
    c.same("the title", shown[2][1]["operand"], title)
    c.same("what is tagged", f"tag bytes {60 + 17 * m}", tag_head)
    c.same("the tag's steps", verifier.steps(len(given["tagging"]) // 8, given["tagging"], record[: 60 + 17 * m]), steps)
    c.same("the tag", steps["whole"], record[-16:])
    k, before, page = opener.expand(sealing, 1, len(sealing) // 8, {}), record[44:60], b""
    for i, (head, v) in enumerate(blocks):
        sealed = record[61 + 17 * i : 77 + 17 * i]
        plain = opener.U(sealed, k, {})
        c.same(head, v, {"sealed": sealed, "U": plain, "before": before, "body": opener.xor_bytes(plain, before)})
        before, page = sealed, page + v["body"]
    c.same("the blocks", [head for head, _ in blocks], [f"open {i}" for i in range(m)])
    c.same("opened", opened(sealing, given["tagging"], record), page)
    c.same("written", written(sealing, given["tagging"], number, day, title, record[44:60], page), record)


def check(path):
    with open(path, encoding="utf-8") as file:
        c = opener.Checker(file.read())
    for part in (check_vectors, check_trace):
        try:
            part(c)
        except (ValueError, KeyError, IndexError, TypeError) as error:
            c.differences += 1
            print(f"DIFFERENCE: {part.__name__}: it cannot be read: {error!r}")
    print(f"all {c.number} compared, {c.differences} different")
    return 1 if c.differences else 0


def bytes_of(l, text):
    key = bytes.fromhex("".join(text.split()))
    if len(key) != 8 * l:
        raise ValueError(f"the key has {len(key)} bytes, not {8 * l}")
    return key


def main():
    parser = argparse.ArgumentParser(prog="record_opener.py", allow_abbrev=False)
    commands = parser.add_subparsers(dest="what", required=True)
    commands.add_parser("list", allow_abbrev=False).add_argument("RECORD")
    p = commands.add_parser("open", allow_abbrev=False)
    for name in ("-l", "--tag-l"):
        p.add_argument(name, required=True, type=int, choices=[2, 3, 4])
    for name in ("--key", "--tag-key"):
        p.add_argument(name, required=True, metavar="HEX")
    p.add_argument("RECORD")
    p.add_argument("OUT")
    commands.add_parser("check", allow_abbrev=False).add_argument("PAPER")
    a = parser.parse_args()
    try:
        if a.what == "check":
            return check(a.PAPER)
        with open(a.RECORD, "rb") as file:
            record = file.read()
        made = entry(record) if a.what == "list" else opened(bytes_of(a.l, a.key), bytes_of(a.tag_l, a.tag_key), record)
        if isinstance(made, int):
            print(made)
            return 1
        if a.what == "list":
            print("number {}, day {}, blocks {}, title {!r}".format(*made[:3], made[3].decode("latin-1")))
            return 0
        with open(a.OUT, "wb") as file:
            file.write(made)
    except (OSError, ValueError) as error:
        print(f"record_opener.py: {error}", file=sys.stderr)
        return 2
    return 0


if __name__ == "__main__":
    sys.exit(main())
