#!/usr/bin/env python3
"""tests/opener.py, a program written from docs/OPENING-A-PAGE.md's first edition alone, opens what our library sealed: random pages, all nine
sizes, CBC and CTR, through target/dist/liblabyrinth.a, which `make lib` makes. tests/verifier.py, written from the second edition and the opener
alone, makes the tags that our library makes, and both say yes and no to the same. Both programs agree with the values of the paper, the opener of the
tags with what E gives; they open the paper's card and verify its tag, and the opener with other tables opens the card that has tables of its own.
tests/unwrapper.py, which follows the paper over the opener's E and U, wraps and unwraps keys as our library does, and agrees with the paper; so does
tests/record_opener.py, over the opener and the verifier, with page records, and tests/register_reader.py, over the unwrapper, with key registers. Then what
must be noticed: an altered sealed byte, an altered bit of tag, message or key, another key, a wrong counter, wrong masks, an altered paper.

Word lines have check sums since the fourth edition; the opener does not know them, and gets the paper without them. tests/paper.py holds them.

    tests/opener_test.py [SEED]    a seed to repeat a run; without it a new one, which is printed
"""
import contextlib
import hashlib
import io
import os
import random
import re
import subprocess
import sys
import tempfile
import unittest.mock

sys.dont_write_bytecode = True
HERE = os.path.dirname(os.path.abspath(__file__))
NAMES = ("opener.py", "verifier.py", "unwrapper.py", "record_opener.py", "register_reader.py")
OPENER, VERIFIER, UNWRAPPER, RECORDS, REGISTERS = (os.path.join(HERE, name) for name in NAMES)
sys.path.insert(0, HERE)
import make_paper_values
import opener
import paper
import papers
import record_opener
import register_reader
import unwrapper
import verifier

# SHA-256 of each program that a stranger wrote, as it was written
WRITTEN = {
    OPENER: "cf5e5b42334352123761949f7a86983bb3adf21c2f8c9143e117b3384fd5f862",
    VERIFIER: "8ce88397172defc8fe2f7cde41836263f3be50de593d9884f5e276fc84ceba40",
}
CHECKED = {OPENER: "996 checked", VERIFIER: "209 compared", UNWRAPPER: "211 compared", RECORDS: "228 compared", REGISTERS: "80 compared"}  # what each program's own check says of the paper
COUNTS = {
    "CBC pages": 45, "CTR pages": 171, "tags": 315, "tags that get a no": 678, "wrapped keys": 45, "wrapped keys refused": 96, "page records": 63,
    "page records refused": 378, "key registers": 111, "look-ups": 629, "refusals": 31, "alterations": 210,
}  # fmt: skip
WORD_SUM = re.compile(r"^(\S.* 0x[0-9A-F]{16}) +: [0-9A-F]{4}$", re.M)  # a word line with its check sum
FAILURES = []
COUNTED = dict.fromkeys(COUNTS, 0)


def same(what, got, wanted):
    if got != wanted:
        FAILURES.append(f"{what}: {got!r}, not {wanted!r}"[:400])


def differ(what, got, other):
    COUNTED["alterations"] += 1
    if got == other:
        FAILURES.append(f"not noticed: {what}")


def places(a, b):
    return {i for i, (x, y) in enumerate(zip(a, b, strict=True)) if x != y}


# ---- pages sealed by ours

def sealed_by_us(mode, n, l, key, start, q, page):
    if mode == "cbc":
        return paper.our("cbc_seal", n, l, key, start, page)
    return paper.our("ctr", n, l, key, start, page, q=q)


def cases(rng):
    """mode, n, l, key, start, q and page."""
    for n, l in papers.SIZES:
        block = 16 * n
        for count in (0, 1, 2, 3, rng.randrange(4, 9)):
            yield "cbc", n, l, rng.randbytes(8 * n * l), rng.randbytes(block), 0, rng.randbytes(count * block)
        # start blocks: any, all FF, and any with so many FF at the end
        ends = [0, 0, block, 9, rng.randrange(1, block), *range(17, block, 16)]
        offsets = [0, 1, 2**64 - 1, 2**63, rng.randrange(2**64)]
        lengths = [0, 1, block - 1, block, block + 1, 3 * block, rng.randrange(2 * block, 6 * block)]
        for at in range(max(len(ends), len(offsets), len(lengths)) * 2):
            end, q, length = ends[at % len(ends)], offsets[at % len(offsets)], lengths[at % len(lengths)]
            yield "ctr", n, l, rng.randbytes(8 * n * l), rng.randbytes(block - end) + b"\xff" * end, q, rng.randbytes(length)
        for end in ends[2:]:  # these carry out of the FF bytes
            yield "ctr", n, l, rng.randbytes(8 * n * l), rng.randbytes(block - end) + b"\xff" * end, rng.randrange(1, 9), rng.randbytes(2 * block + 3)


def page_by_page(rng):
    for mode, n, l, key, start, q, page in cases(rng):
        name = f"{mode} n {n} l {l} q {q} start {start.hex()}, {len(page)} bytes"
        sealed = sealed_by_us(mode, n, l, key, start, q, page)
        same(f"{name}: opened", opener.run("open", mode, n, l, key, start, q, sealed).hex(), page.hex())
        same(f"{name}: sealed", opener.run("seal", mode, n, l, key, start, q, page).hex(), sealed.hex())
        COUNTED[f"{mode.upper()} pages"] += 1


# ---- what must be noticed, and what the paper says of it

def alterations(rng):
    for n, l in papers.SIZES:
        block = 16 * n
        key, start, page = rng.randbytes(8 * n * l), rng.randbytes(block), rng.randbytes(4 * block)
        at, bit = rng.randrange(3 * block), 1 << rng.randrange(8)
        other = bytes([key[0] ^ bit]) + key[1:]
        for mode in ("cbc", "ctr"):
            q = rng.randrange(2**64) if mode == "ctr" else 0
            name = f"{mode} n {n} l {l}"
            sealed = sealed_by_us(mode, n, l, key, start, q, page)
            opened = lambda key=key, start=start, q=q, sealed=sealed: opener.run("open", mode, n, l, key, start, q, sealed)
            altered = sealed[:at] + bytes([sealed[at] ^ bit]) + sealed[at + 1 :]
            touched = opened(sealed=altered)
            differ(f"{name}: an altered byte", touched, page)
            differ(f"{name}: another key", opened(key=other), page)
            differ(f"{name}: another start block", opened(start=start[:-1] + bytes([start[-1] ^ bit])), page)
            if mode == "ctr":
                differ(f"{name}: another q", opened(q=q ^ bit), page)
                same(f"{name}: an altered byte spoils itself alone", places(touched, page), {at})
                # the start block and q lost, block 2 known
                stream = bytes(a ^ b for a, b in zip(page[2 * block : 3 * block], sealed[2 * block : 3 * block]))
                counter = int.from_bytes(opener.U(stream, opener.expand(key, n, l, {}), {}), "big")
                found = ((counter - 2) % 2 ** (8 * block)).to_bytes(block, "big")
                same(f"{name}: opened by one known block", opened(start=found, q=0), page)
            else:
                first = at - at % block
                rest = places(touched, page) - set(range(first, first + block))
                same(f"{name}: an altered byte spoils its block and one byte of the next", rest, {at + block})
                lost = opened(start=bytes(block))
                same(f"{name}: without the start block", lost[block:], page[block:])
                same(f"{name}: the start block by the first block", bytes(a ^ b for a, b in zip(lost, page[:block])), start)


def wrong_counter(rng):
    """With a counter of 128 bits in the opener the pages above would not all open."""
    right = opener.counter_block

    def short(n, start, q, i):
        return start[:-16] + right(1, start[-16:], q, i)

    opener.counter_block = short
    for n, l in papers.SIZES:
        if n > 1:
            key, start, page = rng.randbytes(8 * n * l), rng.randbytes(16 * n - 17) + b"\xff" * 17, rng.randbytes(3)
            sealed = sealed_by_us("ctr", n, l, key, start, 1, page * 9)
            differ(f"n {n} l {l}: a counter of 128 bits", opener.run("open", "ctr", n, l, key, start, 1, sealed), page * 9)
    opener.counter_block = right


# ---- tags

def answers(l, key, message, tag):
    """The verifier's answer to a tag and ours: 1 is yes, 0 is no."""
    return int(verifier.verify(l, key, message, tag)), paper.our_answer(l, key, message, tag)


def tag_by_tag(rng):
    """Each length to four blocks and 1 byte, then those about whole blocks, then any; tags of each length, of whole and of short last parts."""
    lengths = [*range(66), *(16 * count + more for count in range(5, 17) for more in (-1, 0, 1)), *(rng.randrange(258, 500) for _ in range(3))]
    kinds = set()
    for l in (2, 3, 4):
        for length in lengths:
            key, message, size = rng.randbytes(8 * l), rng.randbytes(length), 8 + (length + length // 16) % 9
            name, tag = f"l {l}, {length} bytes, a tag of {size}", paper.our_tag(l, key, message, size)
            same(f"{name}: made", verifier.tag(l, key, message, size).hex(), tag.hex())
            same(f"{name}: the answers", answers(l, key, message, tag), (1, 1))
            kinds.add((l, size, length > 0 and length % 16 == 0))
            COUNTED["tags"] += 1
    same("the kinds of tags", len(kinds), 3 * 9 * 2)


def bit_by_byte(data, rng):
    """The string with a bit of each of its bytes altered in turn."""
    flips = [*paper.flipped(data)]
    return [rng.choice(flips[at : at + 8]) for at in range(0, len(flips), 8)]


def other_tags(rng):
    """An altered bit of tag, message or key, or another end of the message, gets a no. A tag cut short gets a yes, down to 8 bytes."""
    for l in (2, 3, 4):
        for length, size in ((0, 16), (15, 8), (16, 11), (33, 16)):
            key, message = rng.randbytes(8 * l), rng.randbytes(length)
            name, whole = f"l {l}, {length} bytes", paper.our_tag(l, key, message, 16)
            tag = whole[:size]
            ends = [message + b"\x00", message + b"\x80", message.ljust(48, b"\x00"), *[message[:-1]] * (length > 0)]
            others = [("tag", key, message, other) for other in bit_by_byte(tag, rng)]
            others += [("message", key, other, tag) for other in (*bit_by_byte(message, rng), *ends)]
            others += [("key", other, message, tag) for other in bit_by_byte(key, rng)]
            for what, *other in others:
                same(f"{name}, a tag of {size}, another {what}: the answers", answers(l, *other), (0, 0))
                COUNTED["tags that get a no"] += 1
            same(f"{name}: the answers to a tag cut short", {answers(l, key, message, whole[:count]) for count in papers.TAG_LENGTHS}, {(1, 1)})


def refused_tags(rng):
    """Tags of other lengths than 8 to 16: both programs refuse to make and to verify them, ours with the papers' number and without a yes."""
    for l in (2, 3, 4):
        key, message = rng.randbytes(8 * l), rng.randbytes(l)
        whole = paper.our_tag(l, key, message, 16)
        for given in (b"", whole[:7], whole + b"\x00"):
            name, number = f"l {l}, a tag of {len(given)}", papers.tag(1, len(given))
            ours = paper.our_tag(l, key, message, len(given), number=number), paper.our_answer(l, key, message, given, number=number)
            same(f"{name}: ours", ours, (bytes(len(given)), 0))
            for call, last in ((verifier.tag, len(given)), (verifier.verify, given)):
                with contextlib.suppress(ValueError):
                    same(f"{name}: the verifier's", call(l, key, message, last), "a refusal")
                COUNTED["refusals"] += 1


def wrong_masks(rng):
    """With masks that are not doubled the verifier's tags would not be ours."""
    right, verifier.double = verifier.double, lambda string: string
    for l in (2, 3, 4):
        for length in (0, 16, 40):
            key, message = rng.randbytes(8 * l), rng.randbytes(length)
            tag = paper.our_tag(l, key, message, 8)
            differ(f"l {l}, {length} bytes: masks not doubled", verifier.tag(l, key, message, 8), tag)
            differ(f"l {l}, {length} bytes: verified with masks not doubled", verifier.verify(l, key, message, tag), True)
    verifier.double = right


# ---- the paper

# ---- wrapped keys

def wrapped_by_us(name, l, master, source, number=0):
    return paper.our_wrap(name, l, master, source, number)


def key_by_key(rng):
    """Keys of every length and of each l, by both; and refused by both with a bit altered, or under another master key."""
    for l in (2, 3, 4):
        for length in papers.UNWRAPPED_LENGTHS:
            master, key = rng.randbytes(8 * l), rng.randbytes(length)
            name = f"a key of {length} bytes, l {l}"
            wrapped = wrapped_by_us("key_wrap", l, master, key)
            same(f"{name}: wrapped", unwrapper.wrap(l, master, key), wrapped)
            same(f"{name}: unwrapped", (unwrapper.unwrap(l, master, wrapped), wrapped_by_us("key_unwrap", l, master, wrapped)), (key, key))
            COUNTED["wrapped keys"] += 1
            flip = lambda data, at: data[:at] + bytes([data[at] ^ 1 << rng.randrange(8)]) + data[at + 1 :]
            for given in ((master, flip(wrapped, rng.randrange(len(wrapped)))), (flip(master, rng.randrange(8 * l)), wrapped)):
                same(f"{name}: altered", unwrapper.unwrap(l, *given), 18)
                wrapped_by_us("key_unwrap", l, *given, number=18)
                COUNTED["wrapped keys refused"] += 1
    for length in (0, 8, 15, 17, 136):
        for name, work, source in (("key_wrap", unwrapper.wrap, length), ("key_unwrap", unwrapper.unwrap, length + 8)):
            source = rng.randbytes(source)
            same(f"{name}: {len(source)} bytes", work(2, bytes(16), source), 17)
            wrapped_by_us(name, 2, bytes(16), source, number=17)
            COUNTED["refusals"] += 1


def wrong_wrapping(rng):
    """Wrong check value and wrong numbers in the unwrapper are noticed."""
    master, key = rng.randbytes(16), rng.randbytes(24)
    wrapped = wrapped_by_us("key_wrap", 2, master, key)
    for name, other in (("the check value", dict(CHECK=bytes(8))), ("t from 0", dict(number=lambda t: (t - 1).to_bytes(8, "big"))), ("t least first", dict(number=lambda t: t.to_bytes(8, "little")))):
        with unittest.mock.patch.multiple(unwrapper, **other):
            differ(f"wrapped, {name}", unwrapper.wrap(2, master, key), wrapped)
            differ(f"unwrapped, {name}", unwrapper.unwrap(2, master, wrapped), key)


# ---- page records

def record_by_record(rng):
    """Records of some sizes and of each l of both keys, written, listed and opened by both; and refused by both with a byte altered, cut, or put in."""
    for l in (2, 3, 4):
        for tag_l in (2, 3, 4):
            for blocks in (0, 1, 2, 3, 4, 7, 20):
                name = f"a record of {blocks} blocks, l {l}, l of the tag key {tag_l}"
                given = rng.randbytes(8 * l), rng.randbytes(8 * tag_l), rng.getrandbits(32), rng.getrandbits(32), rng.randbytes(32), rng.randbytes(16), rng.randbytes(16 * blocks)
                sealing, tagging, number, day, title, _, body = given
                record = paper.our_record(*given)
                same(f"{name}: written", record_opener.written(*given), record)
                same(f"{name}: listed", (record_opener.entry(record), paper.our_entry(record)), ((number, day, blocks, title),) * 2)
                same(f"{name}: opened", (record_opener.opened(sealing, tagging, record), paper.our_body(sealing, tagging, record)), (body, body))
                COUNTED["page records"] += 1
                at = rng.randrange(len(record))
                commands = {0, 5, 10, 43, *range(60, len(record), 17)}
                altered = record[:at] + bytes([record[at] ^ 1 << rng.randrange(8)]) + record[at + 1 :]
                cases = [(sealing, tagging, altered, 19 if at in commands else 20), (sealing, rng.randbytes(8 * tag_l), record, 20)]
                cases += [(sealing, tagging, other, 19) for other in (record[:-1], record + rng.randbytes(1), record + rng.randbytes(17), record[: rng.randrange(77)])]
                for *keys, other, refused in cases:
                    same(f"{name}: refused", record_opener.opened(*keys, other), refused)
                    paper.our_body(*keys, other, number=refused)
                    same(f"{name}: refused, listed", (record_opener.entry(other) == 19, paper.our_entry(other, refused % 20) == (0, 0, 0, b"")), (refused == 19,) * 2)
                    COUNTED["page records refused"] += 1


def wrong_records(rng):
    """What is wrong in the layout, in the tag or in the opening is noticed."""
    given = rng.randbytes(16), rng.randbytes(24), 258, 772, rng.randbytes(32), rng.randbytes(16), rng.randbytes(48)
    record = paper.our_record(*given)
    right = verifier.tag
    for name, of, other in (
        ("no byte 10 at the front", record_opener, dict(COMMANDS={1: 0x10, 5: 0x11, 10: 0x12, 43: 0x13})),
        ("the tag of one byte less", verifier, dict(tag=lambda l, key, message, length: right(l, key, message[:-1], length))),
        ("the tag of 1F too", verifier, dict(tag=lambda l, key, message, length: right(l, key, message + b"\x1f", length))),
        ("opened by CTR", opener, dict(cbc_open=lambda page, k, n, start: opener.ctr(page, k, n, start, 0))),
        ("E in the place of U", opener, dict(U=opener.E)),
    ):
        with unittest.mock.patch.multiple(of, **other):
            differ(f"a record, {name}", record_opener.opened(*given[:2], record), given[-1])


# ---- key registers

EMPTY = bytes(2824)


def made_again(register):
    """Whether our programs make this register: the entries that it has, added to the empty one by the library in their order, must all be taken and give it."""
    again = EMPTY
    try:
        for number, replaces, wrapped in register_reader.entries(register):
            again = paper.our_added(again, number, replaces, wrapped)
    except paper.Fault:
        return False
    return again == register


def kept(rng, count):
    """A register of so many entries made by the library, each replacing none or the newest of some chain; the numbers are any."""
    register, ends = EMPTY, []
    for number in rng.sample(range(1, 2**16), count):
        replaces = ends.pop(rng.randrange(len(ends))) if ends and rng.random() < 0.7 else 0
        register = paper.our_added(register, number, replaces, rng.randbytes(40))
        ends.append(number)
    return register


def by_hand(rng, count):
    """Any count, and few numbers, so that they come again, name one another and are 0."""
    entries = (rng.randrange(8).to_bytes(2, "little") + rng.randrange(8).to_bytes(2, "little") + rng.randbytes(40) for _ in range(64))
    return count.to_bytes(8, "little") + b"".join(entries)


def looked_up(name, register, numbers):
    """By the reader, by the naive reading of paper.py and by the library."""
    for number in numbers:
        found = paper.found_by_both(register, number)
        same(f"{name}, {number}", register_reader.look_up(register, number), 22 if found is None else found)
        COUNTED["look-ups"] += 1


def chains(register):
    """The places of the chains from the entries that replaced none, one chain behind another."""
    held = register_reader.entries(register)
    for start in (i for i, one in enumerate(held) if one[1] == 0):
        while start is not None:
            yield start
            start = next((i for i in range(start + 1, len(held)) if held[i][1] == held[start][0]), None)


def register_by_register(rng):
    """Registers that the library made, those with a bit altered, and any made by hand; what of the five lines doesn't hold tells whether the library makes it."""
    for count in (0, 1, 2, 5, 17, 40, 63, 64):
        register = kept(rng, count)
        numbers = [one[0] for one in register_reader.entries(register)]
        looked_up(f"a register of {count} keys", register, [*numbers, 0, next(number for number in range(1, 2**16) if number not in numbers)])
        same(f"{count} keys: what holds, and each entry is in one chain", (register_reader.faults(register), sorted(chains(register))), ([], [*range(count)]))
        COUNTED["key registers"] += 1
        # any bit; then one of a number or a replaced number, and one of the count
        entry = 8 + 44 * rng.randrange(max(count, 1))
        for bit in (*rng.sample(range(8 * 2824), 8), 8 * entry + rng.randrange(16), 8 * entry + 16 + rng.randrange(16), rng.randrange(64)):
            other = bytearray(register)
            other[bit // 8] ^= 1 << bit % 8
            other = bytes(other)
            looked_up(f"{count} keys, bit {bit} altered", other, [*numbers[:3], 0])
            same(f"{count} keys, bit {bit} altered: what holds", register_reader.faults(other) == [], made_again(other))
            COUNTED["key registers"] += 1
    for count in (0, 1, 2, 3, 4, 6, 10, 30, 63, 64, 65, 256, 2**32 + 1, 2**63, 2**64 - 1):
        register = by_hand(rng, count)
        looked_up(f"by hand, count {count}", register, range(9))
        same(f"by hand, count {count}: what holds", register_reader.faults(register) == [], made_again(register))
        COUNTED["key registers"] += 1
    for length in (0, 2823, 2825):
        same(f"a register of {length} bytes", (register_reader.look_up(bytes(length), 7), register_reader.keys(2, bytes(16), bytes(length), 7)), (4, 4))
        paper.our_found(bytes(length), 7, refused=4)
        COUNTED["refusals"] += 1


def register_keys(rng):
    """Keys that the library wrapped, from its register: the number's own and the last one, which open different pages; and one that was altered."""
    for l in (2, 3, 4):
        master, given, register = rng.randbytes(8 * l), [rng.randbytes(32) for _ in range(3)], EMPTY
        for place, key in enumerate(given):
            register = paper.our_added(register, place + 1, place, paper.our_wrap("key_wrap", l, master, key))
        for number in (1, 2, 3):
            same(f"l {l}, key {number}", register_reader.keys(l, master, register, number), [given[number - 1], given[2]])
        for n, size in ((1, 4), (2, 2)):
            start, page = rng.randbytes(16 * n), rng.randbytes(64)
            sealed = sealed_by_us("ctr", n, size, given[0], start, 0, page)
            own, last = (opener.run("open", "ctr", n, size, key, start, 0, sealed) for key in register_reader.keys(l, master, register, 1))
            same(f"l {l}, a page at n {n}", own, page)
            differ(f"l {l}, a page at n {n} by the last key", last, page)
        at = 12 + rng.randrange(40)
        altered = register[:at] + bytes([register[at] ^ 1 << rng.randrange(8)]) + register[at + 1 :]
        same(f"l {l}, an altered key", register_reader.keys(l, master, altered, 1), [18, given[2]])
        same(f"l {l}, another master key", register_reader.keys(l, rng.randbytes(8 * l), register, 3), [18, 18])
        COUNTED["wrapped keys refused"] += 2


def wrong_registers(rng):
    """What is wrong in the reader's layout is noticed."""
    master, key = rng.randbytes(16), rng.randbytes(32)
    wrapped, register = paper.our_wrap("key_wrap", 2, master, key), EMPTY
    for number, replaces in ((258, 0), (513, 0), (772, 258)):
        register = paper.our_added(register, number, replaces, wrapped)
    right, short = register_reader.entries, b"\2" + register[1:]  # the third is behind the count
    exchanged = lambda number: number >> 8 | number % 256 << 8
    for name, given, other in (
        ("highest byte first", register, lambda data: [(exchanged(a), exchanged(b), c) for a, b, c in right(data)]),
        ("the replaced number first", register, lambda data: [(b, a, c) for a, b, c in right(data)]),
        ("entries from byte 4 on", register, lambda data: right(data[:4] + bytes(4) + data[4:])),
        ("all 64 places", short, lambda data: right(b"\x40" + data[1:])),
        ("the wrapped key before the numbers", register, lambda data: [(a, b, data[8 + 44 * i : 48 + 44 * i]) for i, (a, b, _) in enumerate(right(data))]),
    ):
        found = lambda: (register_reader.look_up(given, 258), register_reader.keys(2, master, given, 258))
        wanted = found()
        same(f"a register, {name}: its keys", wanted[1], [key, key])
        with unittest.mock.patch.multiple(register_reader, entries=other):
            differ(f"a register, {name}", found(), wanted)


def command(program, *words):
    return subprocess.run([sys.executable, "-B", program, *words], capture_output=True, text=True, timeout=60)


def written(copy, text):
    with open(copy, "w", encoding="utf-8") as file:
        file.write(text)
    return copy


def without_sums(text):
    """The paper as the opener reads it: word lines without check sums."""
    without, count = WORD_SUM.subn(r"\1", text)
    same("the word lines", count, paper.SUMMED[1])
    return without


def checked(program, text):
    """The program's own check of the paper."""
    done = command(program, "check", text)
    last = [" ".join(line.split()) for line in done.stdout.splitlines()[-1:]]
    same(f"the check of {os.path.basename(program)}", (done.returncode, last), (0, [f"all {CHECKED[program]}, 0 different"]))


def altered_tags(text, blocks, rng):
    """What of the tags was altered, and the paper with it: a bit under each name in 11.6, with its check sum; a digit of the card; the prose."""
    lines = [line for line in blocks["vectors-cmac"][2].splitlines() if " : " in line]
    for name in sorted({line.split()[0] for line in lines}):
        line = rng.choice([line for line in lines if line.split()[0] == name])
        (other,) = make_paper_values.byte_lines(name, rng.choice([*paper.flipped(paper.byte_line(line)[1])]))
        yield line, text.replace(line, other)
    for block in ("card", "card-tag"):
        for line, other in paper.altered(blocks[block][2]):
            if line.split()[0] in ("length", "sealed", "tag", "tag-l", "tag-key"):
                yield line, text.replace(blocks[block][2], other)
    for said, other in (("the sealed page\n```", "the opened page\n```"), ("by record: 0 0,", "by record: 0 1,"), ("16 or 32 bytes, K2", "16 or 40 bytes, K2")):
        yield said, text.replace(said, other)


def altered_wraps(text, blocks, rng, names=("trace-wrap", "vectors-kw", "vectors-kw-refused", "card-wrapped")):
    """What of the wrapped keys, or of the page records, was altered, and the paper with it: a digit of a line of each name, and of a head line of each kind."""
    for block in names:
        lines = [*paper.altered(blocks[block][2])]
        for name in sorted({line.split()[0] for line, _ in lines}):
            line, other = rng.choice([one for one in lines if one[0].split()[0] == name])
            yield f"{block}, {line}", text.replace(blocks[block][2], other)


@contextlib.contextmanager
def other_tables(row, substitution):
    """The opener with another row and another substitution for the while, put where the paper says."""
    other = dict(ROW=list(row), S=substitution, S_INVERSE=bytes(substitution.index(y) for y in range(256)))
    other["PRODUCTS"] = [int.from_bytes(bytes(opener.product(g, b) for g in row), "little") for b in range(256)]
    with unittest.mock.patch.multiple(opener, **other):
        yield


def own_tables(text, said, tag_key):
    """The card with tables of its own: the opener, with these tables, opens its page, and the verifier makes its tag; with a published one in the
    place of either they do not."""
    n, l, q = (int(said[name]) for name in ("n", "l", "q"))
    tables = {}
    for line in text.splitlines():
        name, value = line.split(maxsplit=1)
        tables[name] = tables.get(name, b"") + bytes.fromhex(value)
    row, substitution, sealed = tables["row"], tables["subst"], tables["sealed"]
    opened = lambda: opener.run("open", "ctr", n, l, bytes.fromhex(said["key"]), bytes.fromhex(said["start"]), q, sealed)
    with other_tables(row, substitution):
        letters = opened()
        same("mixing 1 by the row", opener.mix(1), int.from_bytes(row, "little"))
        same("its tag", verifier.tag(len(tag_key) // 8, tag_key, sealed, len(tables["tag"])), tables["tag"])
    same("the page of tables of its own", letters, make_paper_values.TEXT[: len(sealed)].encode("ascii"))
    for name, *others in (("published tables", opener.ROW, opener.S), ("the published row", opener.ROW, substitution), ("the published substitution", row, opener.S)):
        with other_tables(*others):
            differ(f"the card's tables: {name}", opened(), letters)
            differ(f"the card's tag: {name}", verifier.tag(len(tag_key) // 8, tag_key, sealed, len(tables["tag"])), tables["tag"])


def with_the_paper(place, rng):
    with open(paper.PAPER, encoding="utf-8") as file:
        text = file.read()
    plain, copy = os.path.join(place, "without.md"), os.path.join(place, "altered.md")
    known = without_sums(text)
    checked(OPENER, written(plain, known))
    checked(VERIFIER, paper.PAPER)
    # an altered paper: a digit near the end of a block
    blocks = {match[1]: match for match in paper.FENCE.finditer(text)}
    ends = {match[1]: match.end() for match in paper.FENCE.finditer(known)}
    for name in ("vectors-mixed", "trace-1-expansion", "trace-1-rounds", "trace-2-it", "trace-4-rounds"):
        digit = next(i for i in range(ends[name] - 20, 0, -1) if known[i] in "0123456789")
        written(copy, known[:digit] + str((int(known[digit]) + 1) % 10) + known[digit + 1 :])
        differ(f"an altered paper: {name}", command(OPENER, "check", copy).returncode, 0)
    for line, other in altered_tags(text, blocks, rng):
        written(copy, other)
        with contextlib.redirect_stdout(io.StringIO()):
            status = verifier.check(copy)
        differ(f"an altered paper: {line}", status, 0)
    checked(UNWRAPPER, paper.PAPER)
    for line, other in altered_wraps(text, blocks, rng):
        written(copy, other)
        with contextlib.redirect_stdout(io.StringIO()):
            status = unwrapper.check(copy)
        differ(f"an altered paper: {line}", status, 0)
    checked(RECORDS, paper.PAPER)
    for line, other in altered_wraps(text, blocks, rng, ("trace-page", "vectors-page", "vectors-page-refused")):
        written(copy, other)
        with contextlib.redirect_stdout(io.StringIO()):
            status = record_opener.check(copy)
        differ(f"an altered paper: {line}", status, 0)
    checked(REGISTERS, paper.PAPER)
    lines = [*altered_wraps(text, blocks, rng, ("key-register", "key-register-look-ups", "card-register"))]
    lines += [one for one in altered_wraps(text, blocks, rng, ("key-register-by-hand",)) if ", number" in one[0]]
    for line, other in lines:
        written(copy, other)
        with contextlib.redirect_stdout(io.StringIO()):
            status = unwrapper.check(copy, (register_reader.check_register, register_reader.check_by_hand))
        differ(f"an altered paper: {line}", status, 0)
    # runs that came into the paper after the opener was written; and of the tags, which it does not know, what E gives
    checker = opener.Checker(text)
    runs = checker.records("vectors-ctr-carry")
    same("the runs", len(runs), 4)
    for head, v in runs:
        n, l, q = (int(word) for word in head.split()[2::2])
        same(f"{head}: opened", opener.run("open", "ctr", n, l, v["key"], v["start"], q, v["sealed"]), v["plain"])
        counters = [v[name] for name in v if name.startswith("count-")]
        same(f"{head}: counters", [opener.counter_block(n, v["start"], q, i) for i in range(len(counters))], counters)
    tags = checker.records("vectors-cmac")
    same("the tags", len(tags), 7)
    for head, v in tags:
        l, _, length = (int(word) for word in head.split()[2::2])
        k, last = opener.expand(v["key"], 1, l, {}), opener.xor_bytes(v["chain"], v["last"])
        same(f"{head}: the lengths", (len(v["key"]), v["whole"][:length]), (8 * l, v["tag"]))
        same(f"{head}: L and the whole", [opener.E(block, k, {}) for block in (bytes(16), last)], [v["L"], v["whole"]])
        differ(f"{head}: an altered last part", opener.E(bytes([last[0] ^ 1]) + last[1:], k, {}), v["whole"])
    same("the check sums", checker.differences, 0)
    # the card, by the command
    front, back = paper.records(blocks["card"][2])
    said = dict(line.split(maxsplit=1) for line in front)
    sealed, opened = os.path.join(place, "page.sealed"), os.path.join(place, "page")
    with open(sealed, "wb") as file:
        file.write(bytes.fromhex("".join(line.split(maxsplit=1)[1] for line in back)))
    words = ["-n", said["n"], "-l", said["l"], "--key", said["key"], "--start", said["start"], "--offset", said["q"]]
    done = command(OPENER, "open", "--mode", said["mode"].lower(), *words, sealed, opened)
    same("the card", (done.returncode, done.stderr), (0, ""))
    with open(opened, "rb") as file:
        letters = file.read().decode("ascii", "replace")
    same("the card's page is in the text", f'as ASCII: "{letters}"\n' in text, True)
    # its tag
    page_said, said = said, dict(line.split(maxsplit=1) for line in blocks["card-tag"][2].splitlines())
    own_tables(blocks["card-tables"][2], page_said, bytes.fromhex(said["tag-key"]))
    master = {}
    for line in blocks["card-wrapped"][2].splitlines():
        name, value = line.split(maxsplit=1)
        master[name] = f"{master.get(name, '')}{value}"
    for given, wanted in ((master["wrapped"], (0, "".join(page_said["key"].split()) + "\n")), (master["wrapped"][:-1] + "0", (1, "18\n")), ("00" * 16, (1, "17\n"))):
        done = command(UNWRAPPER, "unwrap", "-l", master["master-l"], "--master", master["master-key"], given)
        same(f"the card's wrapped key, {given}", (done.returncode, done.stdout), wanted)
    # the traced record
    file_of = {name: os.path.join(place, name) for name in ("record", "altered", "cut", "opened")}
    v = checker.records("trace-page")[0][1]
    for name, data in (("record", v["record"]), ("altered", v["record"][:61] + bytes([v["record"][61] ^ 1]) + v["record"][62:]), ("cut", v["record"][:-1])):
        with open(file_of[name], "wb") as file:
            file.write(data)
    words = ["-l", str(len(v["sealing"]) // 8), "--key", v["sealing"].hex(), "--tag-l", str(len(v["tagging"]) // 8), "--tag-key", v["tagging"].hex()]
    for name, wanted in (("altered", (1, "20\n")), ("cut", (1, "19\n")), ("record", (0, ""))):
        done = command(RECORDS, "open", *words, file_of[name], file_of["opened"])
        same(f"the paper's record, {name}", (done.returncode, done.stdout, os.path.exists(file_of["opened"])), (*wanted, name == "record"))
    with open(file_of["opened"], "rb") as file:
        same("the paper's record, opened, is in the text", f'the page opens to "{file.read().decode("ascii", "replace")}"' in text, True)
    done = command(RECORDS, "list", file_of["record"])
    same("the paper's record, listed", done.stdout, "number {2}, day {3}, blocks 2, title '{4}'\n".format(*make_paper_values.PAGE_TRACED[:4], make_paper_values.PAGE_TITLE.decode()))
    # the register
    register, (_, v), *entries = make_paper_values.kept_register(), *checker.records("key-register")
    number, digits = make_paper_values.REGISTER_CARD[2], [entry["key"].hex().upper() for _, entry in entries]
    with open(file_of["record"], "wb") as file:
        file.write(register)
    with open(file_of["cut"], "wb") as file:
        file.write(register[:-1])
    for name, asked, wanted in (
        ("record", number, (0, f"own {digits[0]}\nend {digits[4]} rule 1 followed 2\nlines that don't hold: []\n")), ("record", 8, (1, "22\n")), ("cut", number, (1, "4\n")),
    ):
        done = command(REGISTERS, "find", str(len(v["master"]) // 8), v["master"].hex(), file_of[name], str(asked))
        same(f"the paper's register, {name}, {asked}", (done.returncode, done.stdout), wanted)
    words, tag = ["-l", said["tag-l"], "--key", said["tag-key"]], bytes.fromhex(said["tag"])
    done = command(VERIFIER, "tag", *words, "--length", said["tag-length"], sealed)
    same("the card's tag, made", (done.returncode, done.stdout), (0, tag.hex().upper() + "\n"))
    for given, wanted in ((tag, (0, "yes\n")), (tag[:8], (0, "yes\n")), (next(paper.flipped(tag)), (1, "no\n")), (tag[:7], (2, ""))):
        done = command(VERIFIER, "verify", *words, "--tag", given.hex(), sealed)
        same(f"the card's tag, {given.hex()}", (done.returncode, done.stdout), wanted)


def as_written():
    """The two programs are never mended to agree with ours."""
    for program, wanted in WRITTEN.items():
        with open(program, "rb") as file:
            same(f"tests/{os.path.basename(program)} was altered", hashlib.sha256(file.read()).hexdigest(), wanted)


def main(words):
    if len(words) > 1 or not all(word.isdigit() for word in words):
        sys.exit(__doc__)
    seed = int(words[0]) if words else random.SystemRandom().randrange(2**32)
    rng = random.Random(seed)
    with tempfile.TemporaryDirectory() as place:
        paper.LIBRARY = paper.ours(place)
        page_by_page(rng)
        alterations(rng)
        wrong_counter(rng)
        tag_by_tag(rng)
        other_tags(rng)
        refused_tags(rng)
        wrong_masks(rng)
        key_by_key(rng)
        wrong_wrapping(rng)
        record_by_record(rng)
        wrong_records(rng)
        register_by_register(rng)
        register_keys(rng)
        wrong_registers(rng)
        with_the_paper(place, rng)
        as_written()
    same("tried", COUNTED, COUNTS)
    for failure in FAILURES:
        print(f"opener: FAILED: {failure}")
    counts = ", ".join(f"{count} {what}" for what, count in COUNTED.items())
    print(f"opener: seed {seed}: {counts} tried, {', '.join(CHECKED.values())} with the paper; {len(FAILURES)} failures")
    sys.exit(1 if FAILURES else 0)


if __name__ == "__main__":
    main(sys.argv[1:])
