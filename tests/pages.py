#!/usr/bin/env python3
"""Page records (document 02, Job 9) through the C interface. Asked are tests/labyrinth_lines.c's lines over the library; a request has all that the call is
lent, so that a key or a store made by hand is tried as any other. Needs target/dist (make lib) and gcc.

    tests/pages.py [--seed NUMBER]

- records of 0 to 4,096 blocks written, listed and opened, and longer ones refused; keys of all pairs of sets, equal keys, keys made by hand, keys of
  another record;
- every byte of a record of three blocks changed, to every other value for the catalogue reader, and to some for the keyed one;
- every front and every back of a record, and bytes put in and left out at its end, before its tag and at its front;
- every set of faults at once that a call can have, for the order of the refusals; and layouts with two faults.

Numbers and bytes are those of tests/page_records.py, written from document 02, over the archivists' program; after a refusal a destination is what it was.
What the library writes is also read by tests/page_records.py. Then changed answers, changed input and wrong rules are shown to be noticed, and the rules'
numbers are looked up in the text of our definitions. The random cases are made from a seed, which is printed."""
import argparse
import collections
import functools
import itertools
import os
import random
import subprocess
import sys
import tempfile
import time

sys.dont_write_bytecode = True
HERE = os.path.dirname(os.path.abspath(__file__))
sys.path[:0] = [os.path.join(HERE, "archivists"), HERE]
import archivists_sets
import labyrinth
import modes
import papers
from archivists_sets import OTHERS, PUBLISHED
from definitions import looked_up
from lines import Wrong, altered_vectors, asked, differences, line, program
from page_records import Cipher, Records
from papers import STORE, WORKING, record_length

SEED = 9
LARGE = 2**64 - 1
RIGHT = Records()

# how many requests of each kind there are
COUNTS = {
    "example": 6, "sizes": 66, "keys": 216, "lengths": 418, "changed, listed": 32640, "changed, opened": 1280, "cut, longer": 1568,
    "blocks moved": 44, "faults": 6912, "two faults of layout": 288, "any bytes": 600, "longest": 39,
}  # fmt: skip


# ---- what is expected


def store_with(sets, taken=(4, 4), zero=PUBLISHED):
    """The bytes of a store of set 0 and three others."""
    return papers.store_bytes(papers.Store([zero, *sets], taken))


ALL = store_with(OTHERS)


@functools.lru_cache(None)
def tables(store):
    """The tables of each set of a store, or None where it is not loaded."""
    kiosk = papers.store_of(store)
    return [kiosk.tables(i) if kiosk.loaded(i) else None for i in range(4)]


def named(store, working):
    """n, the tables of the set that is named, or None, and the words."""
    n, i, words = papers.working_of(working)
    return n, tables(store)[i] if i < 4 else None, words[:64]


def ciphers(store, *workings):
    return [Cipher(*named(store, working)[1:]) for working in workings]


def expected(request, rules=RIGHT):
    """The answer's line."""
    op, *given = request
    if op == "page_catalogue":
        return " ".join(map(str, rules.catalogue(*given)))
    *given, destination = given
    store, sealing, tagging, *given = given
    if [len(store), len(sealing), len(tagging)] != [STORE, WORKING, WORKING]:
        return f"4 {destination.hex() or '-'}"
    keys = [(n, known is not None) for n, known, _ in (named(store, sealing), named(store, tagging))]
    made = lambda: ciphers(store, sealing, tagging)
    if op == "page_write":
        number = rules.writing(*keys, *map(len, given[2:]), len(destination))
        answer = None if number else rules.written(*made(), *given)
    else:
        page = rules.parts(*given)
        blocks = None if page is None else len(page.sealed) // 16
        number = rules.reading(*keys, blocks, lambda: rules.right(*made(), page), len(destination))
        answer = None if number else rules.opened(*made(), page)
    return f"{number} {(destination if number else answer).hex() or '-'}"


def expanded(tables, key):
    with archivists_sets.with_set(*tables):
        return labyrinth.Labyrinth(1, key).expanded_key_bytes()


def changed(data, at, value):
    return data[:at] + bytes([value]) + data[at + 1 :]


def flipped(data, at, bit=0):
    return changed(data, at, data[at] ^ 1 << bit)


# ---- pages


class Sample:
    """Two keys, and a page handed in to be written under them."""

    def __init__(self, rng, blocks, sets=(0, 0), equal=False, ls=(2, 2), hand=False, store=ALL, number=None, day=None, body=None):
        data, self.store = rng.randbytes, store
        words = [data(256) if hand else expanded([PUBLISHED, *OTHERS][i], data(8 * l)) for i, l in zip(sets, ls)]
        self.keys = [papers.working_bytes(1, i, one) for i, one in zip(sets, words)]
        if equal:
            self.keys = self.keys[:1] * 2
        self.number = rng.getrandbits(32) if number is None else number
        self.day = rng.getrandbits(32) if day is None else day
        self.title, self.start, self.body = data(32), data(16), data(16 * blocks) if body is None else body
        self.given = self.number, self.day, self.title, self.start, self.body

    def record(self):
        return RIGHT.written(*ciphers(self.store, *self.keys), *self.given)

    def write(self, rng):
        return "page_write", self.store, *self.keys, *self.given, rng.randbytes(record_length(len(self.body) // 16))

    def open(self, rng, record=None, keys=None, room=None):
        record = self.record() if record is None else record
        return "page_open", self.store, *(keys or self.keys), record, rng.randbytes(len(self.body) if room is None else room)

    def all(self, rng):
        return self.write(rng), ("page_catalogue", self.record()), self.open(rng)


# values from a program written from the papers alone: set 1 has byte v to 255 - v and the row 02 and seven 00; keys, blocks, titles and start blocks zero,
# l = 2, number 1, day 2, sealing key set 0, tag key set 1. From byte 60 on, of no block and of one
EXAMPLE = bytes(range(255, -1, -1)), bytes([2]).ljust(8, b"\0")
EXAMPLE_ENDS = ["1FB09C41D56DBE85E7D2BE0B8C8B477094", "15F5DC29DB0AC8BBADA00A5233A5A41C32" "1F11C595C92B345A334782D82CADB70347"]


def example(rng):
    for blocks, text in enumerate(EXAMPLE_ENDS):
        page = Sample(rng, blocks, store=store_with([EXAMPLE] * 3), number=1, day=2)
        page.keys = [papers.working_bytes(1, i, expanded((PUBLISHED, EXAMPLE)[i], bytes(16))) for i in (0, 1)]
        page.given = 1, 2, bytes(32), bytes(16), bytes(16 * blocks)
        front = bytes.fromhex("10 01000000 11 02000000 12") + bytes(32) + b"\x13" + bytes(16)
        if page.record() != front + bytes.fromhex(text):
            raise SystemExit(f"pages: FAILED: the archivists' program gives another record for the example of {blocks} blocks")
        yield from page.all(rng)


NUMBERS = (0, 1, 255, 256, 0x01020304, 2**31, 2**32 - 1)


def sizes(rng):
    """Some counts of blocks, with sets in turn."""
    for at, blocks in enumerate((0, 1, 2, 3, 4, 5, 7, 8, 9, 15, 16, 17, 31, 33, 64, 129, 0, 1, 2, 3, 255)):
        sets = at % 4, at // 4 % 4
        page = Sample(rng, blocks, sets, ls=(2 + at % 3, 2 + at // 3 % 3), number=NUMBERS[at % 7], day=NUMBERS[(at + 3) % 7])
        yield from page.all(rng)
    # the body handed in is all zeros, so is the start block: nothing but the cipher
    page = Sample(rng, 3, (1, 2), body=bytes(48))
    page.given = page.number, page.day, bytes(32), bytes(16), bytes(48)
    yield from page.all(rng)


def longest(rng):
    """4,096 blocks; then more, some of counts that are legal once bits are lost. The record of 4,097 has the tag of its bytes before 1F."""
    page = Sample(rng, 4096, (1, 3))
    yield from page.all(rng)
    page.given = *page.given[:4], page.body + rng.randbytes(16)
    record = page.record()
    for blocks in (4097, 4098, 4112, 8192, 8193, 65536, 65537):
        given = *page.given[:4], page.given[4] if blocks == 4097 else bytes(16 * blocks)
        for room in (record_length(blocks), record_length(4096)):
            yield "page_write", ALL, *page.keys, *given, bytes(room)
        long = record if blocks == 4097 else record[:60] + (b"\x15" + bytes(16)) * blocks + b"\x1f" + bytes(16)
        yield "page_catalogue", long
        for room in (16 * blocks, 16 * 4096):
            yield "page_open", ALL, *page.keys, long, bytes(room)
    yield "page_catalogue", record[:60] + b"\x15" * (17 * 4097 + 17)


def keys(rng):
    """Every pair of sets, equal keys, keys by hand with words that nothing reads behind the first eight, other stores; each record also under other keys."""
    ls = itertools.cycle((2, 3, 4))
    samples = [Sample(rng, rng.randrange(4), (i, j), ls=(next(ls), next(ls))) for i in range(4) for j in range(4)]
    samples += [Sample(rng, 1 + i % 3, (i, i), equal=True, hand=i > 1) for i in range(4)]
    samples += [Sample(rng, rng.randrange(1, 4), (i, (i + 1) % 4), hand=True) for i in range(4)]
    junk = store_with(OTHERS, (LARGE, 2**63 + 1), (bytes(256), bytes(8))), store_with(OTHERS, (1, 3), OTHERS[2])
    samples += [Sample(rng, 2, (0, 2), store=junk[0]), Sample(rng, 2, (3, 0), store=junk[1])]
    for page in samples:
        yield from page.all(rng)
        # a bit of a word that is used; the keys exchanged; the record's own keys naming another set
        for at in (0, 1):
            other = list(page.keys)
            other[at] = flipped(other[at], 16 + rng.randrange(64), rng.randrange(8))
            yield page.open(rng, keys=other)
        yield page.open(rng, keys=page.keys[::-1])
        # words that are not used at n = 1
        other = [key[:80] + rng.randbytes(WORKING - 80) for key in page.keys]
        yield page.open(rng, keys=other)
    # another set, an unloaded one, none
    loaded, half = Sample(rng, 2, (1, 2)), store_with([OTHERS[0], OTHERS[1], (OTHERS[2][0], bytes(8))])
    for which in (0, 1):
        for i in (0, 1, 2, 3, 4, 5, 255, 256, 257, 2**32 + 1, LARGE):
            other = list(loaded.keys)
            other[which] = other[which][:8] + papers.number_bytes(i) + other[which][16:]
            yield "page_open", half, *other, loaded.record(), rng.randbytes(32)
    for n, i, unloaded in ((1, 3, bytes(256)), (1, 3, OTHERS[2][0][:-1] + OTHERS[2][0][:1]), (2, 3, bytes(256)), (3, 3, bytes(256))):
        other = papers.working_bytes(n, i, rng.randbytes(256))
        store = store_with([OTHERS[0], OTHERS[1], (unloaded, OTHERS[2][1])])
        yield "page_open", store, other, loaded.keys[1], loaded.record(), rng.randbytes(32)
        yield "page_write", store, loaded.keys[0], other, *loaded.given, rng.randbytes(record_length(2))
        yield "page_write", store, other, other, *loaded.given, rng.randbytes(record_length(2))


def lengths(rng):
    """Every length of a title, a start block, a body and a destination, about the right one and some that are right once bits are lost."""
    page = Sample(rng, 2, (2, 3))
    number, day, title, start, body = page.given
    write = lambda title, start, body, room: ("page_write", ALL, *page.keys, number, day, title, start, body, rng.randbytes(room))
    for length in (*range(50), 256 + 32, 65536 + 32):
        yield write(rng.randbytes(length), start, body, 111)
    for length in (*range(34), 256 + 16, 65536 + 16):
        yield write(title, rng.randbytes(length), body, 111)
    for length in range(66):
        yield write(title, start, rng.randbytes(length), record_length(length // 16))
    for room in (*range(130), 256 + 111, 65536 + 111):
        yield write(title, start, body, room)
    for room in (*range(130), 256 + 32, 65536 + 32):
        yield page.open(rng, room=room)


def changes(rng):
    """Every byte of a record of three blocks: to every other value, listed; to some values, opened."""
    page = Sample(rng, 3, (2, 1))
    record = page.record()
    for at, byte in enumerate(record):
        for value in range(256):
            if value != byte:
                yield "changed, listed", ("page_catalogue", changed(record, at, value))
        for value in (*(byte ^ 1 << bit for bit in range(8)), byte ^ 0xFF, 0x15 if byte != 0x15 else 0x1F):
            yield "changed, opened", page.open(rng, changed(record, at, value))


def cuts(rng):
    """Records of no block and of three, cut short, with bytes left out, with bytes put in."""
    for blocks in (0, 3):
        page = Sample(rng, blocks, (1, 0))
        record = page.record()
        end, made = len(record) - 17, []  # where 1F stands
        made += [record[:length] for length in range(len(record))]
        made += [record[length:] for length in range(1, len(record))]
        more = rng.randbytes(17), bytes(17), b"\x15" + rng.randbytes(16), record[end:]
        for length in range(1, 18):
            made += [record + one[:length] for one in more]
            made += [more[0][:length] + record, more[1][:length] + record]
            made += [record[:end] + one[:length] + record[end:] for one in more[:3]]
            made += [record[: end - length] + record[end:], record[:60] + record[60 + length :]]
        made += [record + record]
        for one in made:
            yield "page_catalogue", one
            # a destination of the body that it would have
            yield page.open(rng, one, room=16 * max((len(one) - 77) // 17, 0))


def moved(rng):
    """Whole commands exchanged, doubled, left out or put elsewhere; nothing else."""
    page = Sample(rng, 4, (3, 2))
    record = page.record()
    head, blocks, end = [record[0:5], record[5:10], record[10:43], record[43:60]], [record[60 + 17 * i : 77 + 17 * i] for i in range(4)], record[-17:]
    made = [b"".join([*head[:at], head[at + 1], head[at], *head[at + 2 :], *blocks, end]) for at in range(3)]
    made += [b"".join([*head[:at], *head[at + 1 :], *blocks, end]) for at in range(4)]
    made += [b"".join([*head[: at + 1], *head[at:], *blocks, end]) for at in range(4)]
    made += [b"".join([*head, *blocks[:at], blocks[at + 1], blocks[at], *blocks[at + 2 :], end]) for at in range(3)]
    made += [b"".join([*head, *blocks[:at], *blocks[at + 1 :], end]) for at in range(4)]
    made += [b"".join([*head, blocks[0], end, *blocks[1:]]), b"".join([*head, end, *blocks]), b"".join([*head, *blocks]), b"".join([*blocks, *head, end])]
    for one in made:
        yield "page_catalogue", one
        yield page.open(rng, one, room=16 * max((len(one) - 77) // 17, 0))


# ---- every set of faults at once

RECORDS = [("store", 4), ("sealing", 4), ("tagging", 4)]
KEYS = [(f"{name} {fault}", number) for name in ("sealing", "tagging") for fault, number in (("n", 1), ("set", 15), ("other n", 12))]


def subsets(faults):
    """Each set of faults with the number of its first, faults being names with their numbers, in their order. No n is illegal and another legal one."""
    for which in range(2 ** len(faults)):
        chosen = [fault for at, fault in enumerate(faults) if which >> at & 1]
        names = {name for name, _ in chosen}
        if not ({"sealing n", "sealing other n"} <= names or {"tagging n", "tagging other n"} <= names):
            yield names, chosen[0][1] if chosen else 0


def faults(rng):
    """Requests with the number that the order of checks gives: the first fault's. The rules that the number is also held to are papers.py's."""
    data, pick = rng.randbytes, rng.choice
    wrong_length = lambda right: pick([x for x in (0, 1, right - 1, right + 1, 2 * right, right + 256) if x != right and x >= 0])
    half = store_with([OTHERS[0], OTHERS[1], (bytes(256), bytes(8))], (1, 4))
    pages = [Sample(rng, blocks, sets, store=half) for blocks, sets in ((0, (0, 1)), (1, (1, 2)), (2, (2, 2)), (3, (1, 0)), (4, (0, 0)))]

    def lent(chosen, page):
        """The store and the two keys."""
        yield data(wrong_length(STORE)) if "store" in chosen else half
        for name, key in zip(("sealing", "tagging"), page.keys):
            n, i, words = papers.working_of(key)
            if f"{name} other n" in chosen:
                n = pick((2, 4))
            if f"{name} n" in chosen:
                n = pick((0, 3, 5, 8, 257, 2**32 + 1, LARGE))
            if f"{name} set" in chosen:
                i = pick((3, 3, 4, 5, 255, 256, 2**32, 2**32 + 1, LARGE))
            yield data(wrong_length(WORKING)) if name in chosen else papers.working_bytes(n, i, words)

    for chosen, number in subsets([*RECORDS, *KEYS, ("title", 19), ("start", 6), ("body", 4), ("destination", 5)]):
        page = pick(pages)
        title = data(wrong_length(32)) if "title" in chosen else page.title
        start = data(wrong_length(16)) if "start" in chosen else page.start
        body = page.body + data(pick((1, 8, 15))) if "body" in chosen else page.body
        right = record_length(len(body) // 16)
        room = pick([x for x in (0, 1, right - 1, right + 1, right - 17, right + 17, len(body), 2**16 + right) if x != right]) if "destination" in chosen else right
        yield number, ("page_write", *lent(chosen, page), page.number, page.day, title, start, body, data(room))
    for chosen, number in subsets([*RECORDS, *KEYS, ("layout", 19), ("tag", 20), ("destination", 5)]):
        page = pick(pages)
        record = page.record()
        if "tag" in chosen:
            # anything but command bytes: sealed bytes, the start block, the title, number and day, the tag
            commands = {0, 5, 10, 43, *range(60, len(record), 17)}
            record = flipped(record, pick([at for at in range(len(record)) if at not in commands]), rng.randrange(8))
        if "layout" in chosen:
            record = pick((record[:-1], record + b"\0", record[17:], b"", flipped(record, pick((0, 5, 10, 43, len(record) - 17)), rng.randrange(8)), record + record[-17:]))
        right = len(page.body)
        room = pick([x for x in (0, 1, right - 1, right + 1, right + 16, max(right - 16, 0), len(record), 2**16 + right) if x != right and x >= 0]) if "destination" in chosen else right
        yield number, ("page_open", *lent(chosen, page), record, data(room))


def layouts(rng):
    """Two faults of the layout at once: a wrong command byte and a wrong length, and two wrong command bytes."""
    page = Sample(rng, 3, (0, 3))
    record = page.record()
    commands = (0, 5, 10, 43, 60, 77, 94, 111)
    one = {at: flipped(record, at, rng.randrange(8)) for at in commands}
    made = [cut for at in commands for cut in (one[at][:-1], one[at] + b"\0", one[at][:-17], one[at] + record[-17:], one[at][1:], b"\0" + one[at], one[at][:60], one[at][: at + 1])]
    made += [flipped(one[a], b, rng.randrange(8)) for a, b in itertools.combinations(commands, 2)]
    # a wrong byte 15 that is 1F, and a wrong 1F that is 15
    made += [changed(changed(record, at, 0x1F), 111, last) for at in (60, 77, 94) for last in (0x1F, 0x15)]
    made += [record[:at] + b"\x1f" + record[at + 1 : at + 17] for at in (60, 77, 94)]
    made += [changed(record, 111, 0x15) + b"\x1f" + rng.randbytes(16), changed(record, 111, 0x15) + record[111:]]
    made += [b"\x1f" + rng.randbytes(16), record[111:], record[60:], record[:60], b"\x10", b"\x10\x11\x12\x13\x15\x1f", bytes(77), bytes(128), b"\x15" * 128]
    made += [record[:at] + bytes([value]) + record[at:] for at in commands for value in (0x00, 0x10, 0x15, 0x1F)]
    for one in made:
        yield "page_catalogue", one
        yield page.open(rng, one, room=16 * max((len(one) - 77) // 17, 0))


def anything(rng):
    """Bytes of the command bytes and others, of lengths about a record's, and records whose every byte that is no command byte is one of them."""
    page = Sample(rng, 2, (1, 1))
    some = bytes((0x10, 0x11, 0x12, 0x13, 0x15, 0x1F))
    for _ in range(100):
        yield "page_catalogue", bytes(rng.choices(some, k=77 + 17 * rng.randrange(4) + rng.choice((0, 0, 1, -1))))
        yield "page_catalogue", rng.randbytes(rng.choice((0, 1, 76, 77, 78, 94, 111, 128)))
    for _ in range(100):
        blocks = rng.randrange(6)
        fill = lambda length: bytes(rng.choices(some, k=length))
        other = Sample(rng, blocks, (1, 1))
        other.keys, other.given = page.keys, (int.from_bytes(fill(4), "little"), int.from_bytes(fill(4), "little"), fill(32), fill(16), other.body)
        record = other.record()
        yield "page_catalogue", record
        yield other.open(rng, record)
        # such bytes for sealed bytes and tag: a record, whose tag is wrong
        front = record[:60] + b"".join(b"\x15" + fill(16) for _ in range(blocks)) + b"\x1f" + fill(16)
        yield "page_catalogue", front
        yield other.open(rng, front)


def cases(seed):
    """Every request with its kind, in order; and the number that the order of faults gives, by place."""
    rng, made, ordered = random.Random(seed), [], {}
    for kind, series in (("example", example), ("sizes", sizes), ("keys", keys), ("lengths", lengths)):
        made += [(kind, request) for request in series(rng)]
    made += changes(rng)
    made += [("cut, longer", request) for request in cuts(rng)]
    made += [("blocks moved", request) for request in moved(rng)]
    for number, request in faults(rng):
        ordered[len(made)] = number
        made.append(("faults", request))
    made += [("two faults of layout", request) for request in layouts(rng)]
    made += [("any bytes", request) for request in anything(rng)]
    made += [("longest", request) for request in longest(rng)]
    return made, ordered


# ---- wrong rules


def wrong_rules():
    """Each with one rule altered."""
    def rule(name, **parts):
        return type(name, (Records,), parts)()

    def writing(change):
        return staticmethod(lambda sealing, tagging, *lengths: change(papers.page_writing(sealing, tagging, *lengths), sealing, tagging, *lengths))

    def reading(change):
        return staticmethod(lambda sealing, tagging, *rest: change(papers.page_reading(sealing, tagging, *rest), sealing, tagging, *rest))

    lengths_first = lambda number, sealing, tagging, *lengths: papers.page_lengths(*lengths) or number
    tag_key_first = lambda number, sealing, tagging, *rest: papers.page_key(*tagging) or number
    twelve_last = lambda number, sealing, tagging, *rest: papers.page_key(*tagging) or number if number == 12 and sealing[0] != 1 else number
    fifteen_first = lambda number, sealing, tagging, *rest: 15 if not sealing[1] else number
    twelve_first = lambda number, sealing, tagging, *rest: 12 if number == 15 and not sealing[1] and sealing[0] != 1 else number
    six_first = lambda number, s, t, title, start, body, room: 6 if number == 19 and start != 16 else number
    four_first = lambda number, s, t, title, start, body, room: 4 if number in (19, 6) and body % 16 else number
    five_first = lambda number, s, t, title, start, body, room: 5 if number == 4 and room != record_length(body // 16) else number
    more = lambda number, s, t, title, start, body, room: 5 if number == 4 and body == 16 * 4097 and room != record_length(4097) else number
    five_before_20 = lambda number, s, t, blocks, right, room: 5 if number == 20 and room != 16 * blocks else number
    no_tag = lambda number, s, t, blocks, right, room: (5 if room != 16 * blocks else 0) if number == 20 else number
    short = lambda number, s, t, title, *rest: papers.page_lengths(32, *rest) if number == 19 and title == 31 else number

    yield "lengths before keys", rule("A", writing=writing(lengths_first))
    yield "the tag key before the sealing key, writing", rule("B", writing=writing(tag_key_first))
    yield "the tag key before the sealing key, reading", rule("C", reading=reading(tag_key_first))
    yield "the sealing key's 12 behind the tag key, writing", rule("D", writing=writing(twelve_last))
    yield "the sealing key's 12 behind the tag key, reading", rule("E", reading=reading(twelve_last))
    yield "15 before 1", rule("F", reading=reading(fifteen_first))
    yield "12 before 15", rule("G", writing=writing(twelve_first))
    yield "6 before 19", rule("H", writing=writing(six_first))
    yield "4 before 6", rule("I", writing=writing(four_first))
    yield "5 before 4", rule("J", writing=writing(five_first))
    yield "4,097 blocks are looked at", rule("K", writing=writing(more))
    yield "a title of 31 bytes", rule("L", writing=writing(short))
    yield "5 before 20", rule("M", reading=reading(five_before_20))
    yield "the tag is not looked at", rule("N", reading=reading(no_tag))
    yield "the number's bytes the other way", rule("O", order="big")
    yield "the title from byte 10", rule("P", title_at=10)
    yield "4,097 blocks are read", rule("Q", blocks=range(4098))
    yield "4,095 blocks are the most", rule("R", blocks=range(4096))
    yield "the tag over 1F too", rule("S", tag=lambda self, sealing, tagging, page: modes.cmac(tagging, self.front(page) + b"\x1f"))
    yield "the tag over one byte less", rule("T", tag=lambda self, sealing, tagging, page: modes.cmac(tagging, self.front(page)[:-1]))
    yield "the tag of the sealed blocks alone", rule("U", tag=lambda self, sealing, tagging, page: modes.cmac(tagging, page.sealed))
    yield "the tag by the sealing key", rule("V", tag=lambda self, sealing, tagging, page: modes.cmac(sealing, self.front(page)))
    yield "sealed by the tag key", rule("W", seal=lambda self, sealing, tagging, start, body: modes.cbc_encrypt(tagging, start, body))
    yield "each block after the start block", rule("X", opened=lambda self, sealing, tagging, page: b"".join(modes.cbc_decrypt(sealing, page.start, page.sealed[at : at + 16]) for at in range(0, len(page.sealed), 16)))
    yield "half of the tag is compared", rule("Y", right=lambda self, sealing, tagging, page: self.tag(sealing, tagging, page)[:8] == page.tag[:8])
    yield "bytes behind the tag are passed over", rule("Z", parts=lambda self, record: Records.parts(self, record) or Records.parts(self, record[:-1]))
    yield "day before number", rule("a", head=((0x11, 4), (0x10, 4), (0x12, 32), (0x13, 16)))
    yield "the tag's command is 1E", rule("b", end=(0x1E, 16))


# ---- our definitions

# what stands in their text, from each of our definitions
TEXTS = {
    "pages/specs/Pages.antt": {
        "headed": [f"0x{byte:02X} {width} " for byte, width in papers.PAGE_HEAD],
        "ended": ["0x{:02X} {} ".format(*papers.PAGE_TAG), f"(length rest) {1 + papers.PAGE_TAG[1]}\n"],
        "times15": ["0x{:02X} {} ".format(*papers.PAGE_BLOCK)],
        "blocks": [f"times15 {papers.PAGE_BLOCKS[-1]} "],
        "behind15": [f"({record_length(1) - record_length(0)} * blocks r)"],
        "record_length": [f"= {record_length(0)} + {record_length(1) - record_length(0)} * m\n"],
        "front": [f"command 0x{byte:02X} " for byte, _ in papers.PAGE_HEAD],
        "sealed_commands": ["command 0x{:02X} (take {} s)".format(*papers.PAGE_BLOCK)],
        "layout": ["command 0x{:02X} ".format(papers.PAGE_TAG[0])],
    },
    "keyed_pages/specs/Refusals.antt": {
        "for_key": [" 1) 12 "],
        "write_lengths": [" 32) 19 ", " 16) 6\n", f" {papers.PAGE_BLOCKS[-1]}) 4 ", "(record_length (text / 16))) 5 0"],
        "read_refusal": ["(is_record r) 19 ", " 20 ", "(16 * blocks r)) 5 0"],
    },
}  # fmt: skip


# ---- asking and comparing


def read_back(requests, answers):
    """What the library wrote, read by both readers of tests/page_records.py: how many records, and what is wrong."""
    count, wrong = 0, []
    for (op, *given), answer in zip(requests, answers):
        if op != "page_write" or not answer.startswith("0 "):
            continue
        count += 1
        store, sealing, tagging, number, day, title, start, body, _ = given
        try:
            record = bytes.fromhex(answer.split(" ")[1])
        except (ValueError, IndexError):
            wrong.append(f"no record: {answer[:60]}")
            continue
        page, keys = RIGHT.parts(record), ciphers(store, sealing, tagging)
        listed = (0, number, day, len(body) // 16, 11)
        if page is None or RIGHT.catalogue(record) != listed or record[11:43] != title or not RIGHT.right(*keys, page) or RIGHT.opened(*keys, page) != body:
            wrong.append(f"a record of {len(body) // 16} blocks, number {number}, that the library wrote is not read back")
    return count, wrong


def gaps(requests, numbers):
    """Which operations never gave which of their numbers."""
    need = {"page_write": {0, 1, 4, 5, 6, 12, 15, 19}, "page_open": {0, 1, 4, 5, 12, 15, 19, 20}, "page_catalogue": {0, 19}}
    have = {(request[0], number) for request, number in zip(requests, numbers)}
    return sorted((op, number) for op in need for number in need[op] if (op, number) not in have)


def altered(request):
    """The request with one thing changed in each place from which the answer is made."""
    op, *given = request
    if op == "page_write":
        store, sealing, tagging, number, day, title, start, body, room = given
        yield op, store, flipped(sealing, 79), tagging, *given[3:]
        yield op, store, sealing, flipped(tagging, 79), *given[3:]
        yield op, store, sealing, tagging, number ^ 1 << 31, *given[4:]
        yield op, store, sealing, tagging, number, day ^ 1 << 31, *given[5:]
        yield op, store, sealing, tagging, number, day, flipped(title, 31), *given[6:]
        yield op, store, sealing, tagging, number, day, title, flipped(start, 15), *given[7:]
        yield op, store, sealing, tagging, number, day, title, start, flipped(body, len(body) - 1), room
    elif op == "page_open":
        store, sealing, tagging, record, room = given
        yield op, store, flipped(sealing, 79), tagging, record, room
        yield op, store, sealing, flipped(tagging, 79), record, room
        yield from ((op, store, sealing, tagging, flipped(record, at, 7), room) for at in (0, 1, 6, 11, 44, 60, 76, len(record) - 17, len(record) - 1))
    else:
        yield from ((op, flipped(given[0], at)) for at in (0, 1, 9, 10, 43, 60))


def breaks(request, rules, answer):
    """Whether a wrong rule differs from an answer."""
    try:
        return expected(request, rules) != answer
    except ValueError:  # a page that cannot be laid out or worked
        return True


def main():
    parser = argparse.ArgumentParser(description=__doc__, formatter_class=argparse.RawDescriptionHelpFormatter)
    parser.add_argument("--seed", type=int, default=SEED)
    seed, began = parser.parse_args().seed, time.monotonic()
    print(f"pages: seed {seed}", flush=True)
    failures, found = looked_up(TEXTS)
    made, ordered = cases(seed)
    requests = [request for _, request in made]
    wanted = [expected(request) for request in requests]
    numbers = [int(answer.split()[0]) for answer in wanted]
    counts = collections.Counter(kind for kind, _ in made)
    # what is asked once more, altered: the last of each operation among these
    last = {request[0]: at for at, (kind, request) in enumerate(made) if kind == "sizes"}
    probes = [(at, other) for at in last.values() for other in altered(requests[at])]
    try:
        with tempfile.TemporaryDirectory() as place:
            answers = asked(program(place), [*requests, *(request for _, request in probes)])
    except (Wrong, OSError, subprocess.SubprocessError) as fault:
        sys.exit(f"pages: FAILED: {fault}")
    ours, probed = answers[: len(requests)], answers[len(requests) :]
    # every answer
    differ = differences(ours, wanted)
    for at in differ[:10]:
        failures.append(f"{made[at][0]}, request {at}: {line(requests[at])[:60].strip()}..: {ours[at][:60]}.., not {wanted[at][:60]}..")
    failures += [f"the order of faults gives {number}, the papers' rules {numbers[at]}: request {at}" for at, number in ordered.items() if number != numbers[at]]
    read, wrong = read_back(requests, ours)
    failures += wrong
    # nothing is missing
    failures += [f"{kind}: {counts[kind]} requests, not {count}" for kind, count in COUNTS.items() if counts[kind] != count]
    failures += [f"no {op} with {number}" for op, number in gaps(requests, numbers)]
    failures += [f"the faults have no {op} with {number}" for op, number in gaps([requests[at] for at in ordered], [*ordered.values()]) if op != "page_catalogue"]
    # what is wrong is noticed
    places, whole = altered_vectors([kind for kind, _ in made], wanted)
    if not differ and differences(ours, whole) != places:
        failures.append("altered vectors are not noticed, or others")
    for (at, request), answer in zip(probes, probed):
        if answer == wanted[at]:
            failures.append(f"a changed request got the answer of the unchanged one: {line(request)[:60].strip()}..")
    rules, some = [*wrong_rules()], [at for one in ("faults", "lengths", "keys", "cut, longer", "changed, opened", "longest") for at, (kind, _) in enumerate(made) if kind == one]
    for name, wrong_rule in rules:
        if not any(breaks(requests[at], wrong_rule, ours[at]) for at in some):
            failures.append(f"a wrong rule is not noticed: {name}")
    for failure in failures[:20]:
        print(f"pages: FAILED: {failure}")
    told = ", ".join(f"{counts[kind]} {kind}" for kind in COUNTS)
    print(
        f"pages: seed {seed}: {told}: {len(differ)} differ; {read} written records read back; {found} numbers looked up in the definitions; "
        f"{len(places)} altered vectors, {len(probes)} altered requests and {len(rules)} wrong rules tried; {len(failures)} failures; {time.monotonic() - began:.0f} s"
    )
    sys.exit(1 if failures else 0)


main()
