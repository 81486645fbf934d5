#!/usr/bin/env python3
"""The store, operations under a key that names a set (document 02, Job 7), and wrapped keys (Job 8), through the C interface. Asked are
tests/labyrinth_lines.c's lines over the library; a request has all that the call is lent, so that a store or a key made by hand is tried as any other.
Needs target/dist (make lib) and gcc.

    tests/stores.py [--seed NUMBER]

- vectors of three other sets: expansion, blocks by table and by matrix, CBC, CTR, tags;
- keys wrapped and unwrapped with these and the published set, under expanded keys and keys by hand; every length of a source to 144 bytes with
  destinations that fit and that don't; every bit of a wrapped key flipped, and other strings that are no wrapped keys;
- every set of faults at once that a call can have, for the order of the refusals;
- stores made by hand: two equal bytes, a row that XORs to zero, marks out of range and on unloaded sets, something else at set 0;
- 10,000 random calls of two publishers from a fresh store, and shorter histories from stores made by hand; and what each publisher got, once more
  without the other's takes, keys and pages.

Numbers, and every byte of a store, are those of papers.Store, a naive model; other bytes are the archivists' program's with its tables exchanged, and
after a refusal what the destination held. Then changed answers, changed input and wrong rules in the model are shown to be noticed. The random cases
are made from a seed, which is printed."""
import argparse
import collections
import functools
import os
import random
import subprocess
import sys
import tempfile
import time

sys.dont_write_bytecode = True
HERE = os.path.dirname(os.path.abspath(__file__))
sys.path[:0] = [os.path.join(HERE, "archivists"), HERE]
import archivists_sets
import labyrinth
import modes
import papers
from archivists_sets import OTHERS, PUBLISHED
from lines import Wrong, altered_vectors, asked, differences, line, program
from papers import SIZES, STORE, TAG_LENGTHS, WORKING

SEED = 7
LARGE = 2**64 - 1
CALLS, SHORT = 10000, 50

ENCIPHERS, DECIPHERS = ("key_encipher", "key_encipher_by_matrix"), ("key_decipher", "key_decipher_by_matrix")
BLOCKS, CBC, CTR, TAGS = ENCIPHERS + DECIPHERS, ("key_cbc_seal", "key_cbc_open"), ("key_ctr",), ("key_cmac", "key_cmac_verify")
WRAPS = ("key_wrap", "key_unwrap")
USES = BLOCKS + CBC + CTR + TAGS + WRAPS
OPERATIONS = ("store_fresh", "store_load", "store_take", "expand") + USES

# how many requests of each kind there are; of the last at least
COUNTS = {
    "example": 6, "expansion": 54, "blocks": 432, "CBC": 306, "CTR": 216, "tags": 108, "verified tags": 324, "wrapped keys": 144,
    "lengths of keys": 2490, "flipped bits": 3206, "no wrapped keys": 156, "faults": 1352, "stores by hand": 2730,
    "history": CALLS, "histories by hand": 42 * SHORT, "isolation": 8000,
}  # fmt: skip
OUTSIDE = (4, 5, 255, 256, 2**32, 2**32 + 1, LARGE)  # sets outside a store; some are inside once bits are lost


# ---- what is expected


class Kiosk(papers.Store):
    """The papers' rules in one place, so that a wrong one can stand in for each."""

    expansion, block, cbc, ctr, tag = map(staticmethod, (papers.expansion, papers.block, papers.cbc, papers.ctr, papers.tag))
    wrapping, unwrapping = map(staticmethod, (papers.wrapping, papers.unwrapping))


@functools.lru_cache(None)
def expanded(tables, n, key):
    with archivists_sets.with_set(*tables):
        return labyrinth.Labyrinth(n, key).expanded_key_bytes()


SPOILED = set()  # wrapped keys with a bit flipped: no wrapped keys, with no word from the archivists' program, which takes long for them


@functools.lru_cache(None)
def worked(tables, op, n, words, *given):
    """The bytes by the archivists' program: of an operation under the words of a working key, its destination left out; a tag is whole. None for what is
    no wrapped key."""
    if op == "key_unwrap" and given[0] in SPOILED:
        return None
    with archivists_sets.with_set(*tables):
        cipher = archivists_sets.under(n, words)
        if op in ENCIPHERS:
            return cipher.encrypt_block(*given)
        if op in DECIPHERS:
            return cipher.decrypt_block(*given)
        if op in TAGS:
            return modes.cmac(cipher, *given)
        if op in WRAPS:
            return (modes.kw_wrap if op == "key_wrap" else modes.kw_unwrap)(cipher, *given)
        return {"key_cbc_seal": modes.cbc_encrypt, "key_cbc_open": modes.cbc_decrypt, "key_ctr": modes.ctr_crypt}[op](cipher, *given)


def answered(request, kind):
    """The number, and a function that gives the bytes where it is 0; of a store, whole, where it is not too."""
    op, store, *given = request
    if len(store) != STORE:
        return 4, None
    kiosk = papers.store_of(store, kind)
    if op == "store_fresh":
        return 0, lambda: papers.store_bytes(kind.fresh())
    if op == "store_load":
        return 4 if len(given[-1]) != 8 else kiosk.load(*given), lambda: papers.store_bytes(kiosk)
    if op == "store_take":
        return kiosk.take(*given), lambda: papers.store_bytes(kiosk)
    if op == "expand":
        n, l, i, key, working = given
        number = 4 if len(working) != WORKING else kiosk.expansion(n, l, len(key), kiosk.loaded(i))
        return number, lambda: papers.working_bytes(n, i, expanded(kiosk.tables(i), n, key))
    working, *given, destination = given
    if len(working) != WORKING:
        return 4, None
    n, i, words = papers.working_of(working)
    bytes_of = lambda: worked(kiosk.tables(i), op, n, words[: 64 * n], *given)
    if op in TAGS:
        return kiosk.tag(n, len(destination), kiosk.loaded(i)), lambda: bytes_of()[: len(destination)]
    if op == "key_wrap":
        return kiosk.wrapping(n, len(given[0]), len(destination), kiosk.loaded(i)), bytes_of
    if op == "key_unwrap":
        return kiosk.unwrapping(n, len(given[0]), len(destination), kiosk.loaded(i), lambda: bytes_of() is not None), bytes_of
    lengths = [len(field) for field in given if isinstance(field, bytes)]
    rule = kiosk.block if op in BLOCKS else kiosk.cbc if op in CBC else kiosk.ctr
    return rule(n, *lengths, len(destination), kiosk.loaded(i)), bytes_of


def expected(request, kind=Kiosk):
    """The answer's line."""
    number, bytes_of = answered(request, kind)
    if request[0].startswith("store_"):
        return f"{number} {(bytes_of() if bytes_of else request[1]).hex() or '-'}"
    if request[0] == "key_cmac_verify":
        return f"{number} {int(number == 0 and bytes_of() == request[-1])}"
    return f"{number} {(request[-1] if number else bytes_of()).hex() or '-'}"


# ---- vectors of the three other sets


def store_with(sets, taken=(4, 4), zero=PUBLISHED):
    """The bytes of a store of set 0 and three others."""
    return papers.store_bytes(papers.Store([zero, *sets], taken))


ALL = store_with(OTHERS)


def other(data, at=0):
    """With one bit changed."""
    return data[:at] + bytes([data[at] ^ 1]) + data[at + 1 :]


# values from a program written from the papers alone: byte v to 255 - v, the row 02 and seven 00, l = 2, key and block zeros, n = 1; and 16 bytes 00
# wrapped, with the published set and with this one
EXAMPLE = bytes(range(255, -1, -1)), bytes([2]).ljust(8, b"\0")
EXAMPLE_SEALED = "1083c6bf7338b0d1a76b506917d2c2ab"
EXAMPLE_WRAPPED = {0: "bdaf4e7fb45fd7be958f384fb9665196deb03e406cdfafbf", 1: "bca7bc5320516b227a2f7b481c5b321707f24d0a7b7a0175"}


def example():
    store, working = store_with([EXAMPLE] * 3), papers.working_bytes(1, 1, expanded(EXAMPLE, 1, bytes(16)))
    if worked(EXAMPLE, "key_encipher", 1, working[16:80], bytes(16)).hex() != EXAMPLE_SEALED:
        raise SystemExit("stores: FAILED: the archivists' program gives another block for the example")
    yield "example", ("expand", store, 1, 2, 1, bytes(16), bytes(WORKING))
    yield "example", ("key_encipher", store, working, bytes(16), bytes(16))
    for i, text in EXAMPLE_WRAPPED.items():
        tables, wrapped = (PUBLISHED, EXAMPLE)[i], bytes.fromhex(text)
        working = papers.working_bytes(1, i, expanded(tables, 1, bytes(16)))
        if worked(tables, "key_wrap", 1, working[16:80], bytes(16)) != wrapped:
            raise SystemExit(f"stores: FAILED: the archivists' program gives another wrapped key for the example of set {i}")
        yield "example", ("key_wrap", store, working, bytes(16), bytes(24))
        yield "example", ("key_unwrap", store, working, wrapped, b"\xff" * 16)


def vectors(rng):
    """Each set at each of the nine sizes; a destination holds anything before."""
    data = rng.randbytes
    for i, tables in enumerate(OTHERS, 1):
        for n, l in SIZES:
            block, keys = 16 * n, (bytes(range(8 * n * l)), data(8 * n * l))
            for key in keys:
                working = papers.working_bytes(n, i, expanded(tables, n, key))
                yield "expansion", ("expand", ALL, n, l, i, key, data(WORKING))
                for text in (bytes(block), data(block)):
                    for op in BLOCKS:
                        yield "blocks", (op, ALL, working, text, data(block))
            # runs to some 1 and 2 KiB, where a program may change its way of working; at one l, which is the expansion's matter
            long = l == 1 + i
            for count in (0, 1, 2, 3, 5, *((1024 // block, 2048 // block + 1) if long else ())):
                start, text = data(block), data(block * count)
                sealed = worked(tables, "key_cbc_seal", n, working[16 : 16 + 64 * n], start, text)
                for op, source in (("key_cbc_seal", text), ("key_cbc_open", sealed)):
                    yield "CBC", (op, ALL, working, start, source, data(len(source)))
            yield "CTR", ("key_ctr", ALL, working, b"\xff" * block, LARGE, data(2 * block + 1), data(2 * block + 1))
            for length in (0, 1, block - 1, block, block + 1, 3 * block + 7, *((1024, 1024 + 5, 2048 + block + 3) if long else ())):
                start, q = rng.choice((data(block), b"\xff" * block)), rng.choice((0, 1, 2**32 - 1, LARGE))
                yield "CTR", ("key_ctr", ALL, working, start, q, data(length), data(length))
            for at, length in enumerate((0, 1, 15, 16, 17, 31, 32, 33, 48, 257, 1024, 2053) if n == 1 else ()):
                message = data(length)
                whole = worked(tables, "key_cmac", 1, working[16:80], message)
                tag = whole[: TAG_LENGTHS[(at + l) % 9]]
                yield "tags", ("key_cmac", ALL, working, message, data(len(tag)))
                for given in (tag, other(tag, rng.randrange(len(tag))), tag[:-1] + bytes([tag[-1] ^ 0x80])):
                    yield "verified tags", ("key_cmac_verify", ALL, working, message, given)


# ---- wrapped keys

FAR = (*(256 + length for length in (16, 24, 128, 136)), 65536 + 16, 65536 + 24)  # lengths that are legal once bits are lost


def wraps(rng):
    """Under set 0 and the three others. A destination holds anything before."""
    data, pick = rng.randbytes, rng.choice
    sets = [PUBLISHED, *OTHERS]

    def a_key(i, l=None):
        """A working key at n = 1, expanded, or made by hand; and a function that wraps under it."""
        words = data(64) if l is None else expanded(sets[i], 1, data(8 * l))
        return papers.working_bytes(1, i, words), lambda key: worked(sets[i], "key_wrap", 1, words, key)

    for i in range(4):
        for length, l in [*((length, 2 + (i + length // 8) % 3) for length in papers.UNWRAPPED_LENGTHS), (16, None), (24, None), (128, None)]:
            working, wrapped = a_key(i, l)
            key = data(length)
            yield "wrapped keys", ("key_wrap", ALL, working, key, data(length + 8))
            yield "wrapped keys", ("key_unwrap", ALL, working, wrapped(key), data(length))
    # every length in both directions; to be unwrapped are a wrapped key, where there is one so long, and any bytes
    for length in (*range(145), *FAR):
        working, wrapped = a_key(length // 8 % 4, pick((2, 3, 4, None)))
        sources = {"key_wrap": [data(length)], "key_unwrap": [data(length)]}
        if length in papers.WRAPPED_LENGTHS:
            sources["key_unwrap"].append(wrapped(data(length - 8)))
        for op, fits in (("key_wrap", length + 8), ("key_unwrap", length - 8)):
            rooms = {fits - 8, fits - 1, fits + 1, fits + 8, fits + 16, fits + 256, 0, length}
            for source in sources[op]:
                for room in (*sorted(rooms - {fits}), fits):
                    if room >= 0:
                        yield "lengths of keys", (op, ALL, working, source, data(room))
    # every bit of a wrapped key, the key's own unwrapping behind them
    for length in (16, 32, 128):
        for i in (0, 3):
            working, wrapped = a_key(i, pick((2, 3, 4)))
            whole = wrapped(data(length))
            for bit in range(8 * len(whole)):
                source = whole[: bit // 8] + bytes([whole[bit // 8] ^ 1 << bit % 8]) + whole[bit // 8 + 1 :]
                if (length, i) != (16, 0):
                    SPOILED.add(source)
                yield "flipped bits", ("key_unwrap", ALL, working, source, data(length))
            yield "flipped bits", ("key_unwrap", ALL, working, whole, data(length))
    # with another check value, wrapped under another key, turned by a semiblock, a bit changed, zeros, the key itself; and with each set, of which one
    # is right
    for i in range(4):
        for length in (16, 24, 40):
            working, wrapped = a_key(i, pick((2, 3, 4, None)))
            words, key = papers.working_of(working)[2], data(length)
            whole = wrapped(key)
            with archivists_sets.with_set(*sets[i]):
                sources = [with_check(archivists_sets.under(1, words[:64]), check, key) for check in CHECKS]
            for source in (*sources, a_key(i)[1](key), whole[8:] + whole[:8], other(whole, length), bytes(len(whole)), key + key[:8]):
                yield "no wrapped keys", ("key_unwrap", ALL, working, source, data(length))
            for j in range(4):
                yield "no wrapped keys", ("key_unwrap", ALL, papers.working_bytes(1, j, words), whole, data(length))


# check values: the standard's for padded keys, of 16 bytes; ours with a bit flipped in its last and its first byte; zeros
CHECKS = [bytes.fromhex(check) for check in ("a65959a600000010", "a6a6a6a6a6a6a6a7", "26a6a6a6a6a6a6a6", "0000000000000000")]


def with_check(cipher, check, key):
    """The archivists' wrapping with another check value."""
    kept, modes.ICV1 = modes.ICV1, check
    try:
        return modes.kw_wrap(cipher, key)
    finally:
        modes.ICV1 = kept


# ---- every set of faults at once


def equal_bytes(substitution):
    """256 bytes, the last like the first."""
    return substitution[:-1] + substitution[:1]


def vanishing(row):
    """A row that XORs to zero."""
    return bytes([functools.reduce(int.__xor__, row[1:])]) + row[1:]


GOOD = OTHERS[2]
BAD = [(bytes(256), bytes(8)), (equal_bytes(GOOD[0]), GOOD[1]), (GOOD[0], vanishing(GOOD[1])), (equal_bytes(GOOD[0]), vanishing(GOOD[1]))]
# set 1 is loaded and taken by publisher 0, set 2 loaded, set 3 is not
HALF = [OTHERS[0], OTHERS[1]]


def subsets(faults):
    """Each set of faults with the number of its first, faults being names with their numbers, in their order."""
    for which in range(2 ** len(faults)):
        chosen = [fault for at, fault in enumerate(faults) if which >> at & 1]
        yield {name for name, _ in chosen}, chosen[0][1] if chosen else 0


def faults(rng):
    """Requests with the number that the order of checks gives: the first fault's. The rules that the number is also held to are papers.py's."""
    data, pick = rng.randbytes, rng.choice
    wrong_length = lambda right: pick([x for x in (0, 1, right - 1, right + 1, 2 * right, right + 256) if x != right])
    records = [("store", 4), ("working", 4)]

    def stored(chosen):
        return data(wrong_length(STORE)) if "store" in chosen else store_with([*HALF, pick(BAD)], (1, 4))

    def named(chosen):
        """A set that is loaded, or one that is unloaded or outside."""
        return pick((3, 3, *OUTSIDE)) if "set" in chosen else pick((0, 1, 2))

    for chosen, number in subsets([("store", 4), ("row's length", 4), ("publisher", 15), ("set", 15), ("substitution", 14), ("row", 13), ("held", 16)]):
        publisher = pick((2, 3, 256, 2**32, 2**32 + 1, LARGE)) if "publisher" in chosen else pick((0, 1))
        i = pick(OUTSIDE) if "set" in chosen else pick((0, 1)) if "held" in chosen else pick((2, 3))
        wrong = (equal_bytes(GOOD[0]), GOOD[0][:-1], GOOD[0] + b"\0", b"", bytes(256))
        substitution = pick(wrong) if "substitution" in chosen else GOOD[0]
        row = vanishing(data(8)) if "row" in chosen else GOOD[1]
        if "row's length" in chosen:
            row = (row * 3)[: pick((0, 1, 7, 9, 16))]
        # no set outside is held
        if not {"set", "held"} <= chosen:
            yield number, ("store_load", stored(chosen), publisher, i, substitution, row)
    for chosen, number in subsets([("store", 4), ("publisher", 15), ("set", 15)]):
        for _ in range(12):
            publisher = pick((2, 3, 256, 2**32, LARGE)) if "publisher" in chosen else pick((0, 1))
            yield number, ("store_take", stored(chosen), publisher, named(chosen))
    for number, store in ((0, ALL), (0, data(STORE)), *((4, data(length)) for length in (0, 1, 264, STORE - 1, STORE + 1, 2 * STORE))):
        yield number, ("store_fresh", store)
    for chosen, number in subsets([*records, ("n", 1), ("l", 2), ("set", 15), ("key", 3)]):
        for n, l in rng.sample(SIZES, 3):
            key = wrong_length(8 * n * l) if "key" in chosen else 8 * n * l
            sizes = pick((0, 3, 5, 8, 257, 2**32 + n, LARGE)) if "n" in chosen else n, pick((0, 1, 5, 258, 2**32 + l, LARGE)) if "l" in chosen else l
            working = wrong_length(WORKING) if "working" in chosen else WORKING
            yield number, ("expand", stored(chosen), *sizes, named(chosen), data(key), data(working))
    for op in (*BLOCKS, *CBC, *CTR, *TAGS):
        own = {"start": 6, "source": 4, "destination": 5} if op in CBC else {"start": 6, "destination": 5} if op in CTR else {"source": 4, "destination": 5}
        own = {"other n": 12, "tag": 11} if op in TAGS else own
        for chosen, number in subsets([*records, ("n", 1), ("set", 15), *own.items()]):
            if {"n", "other n"} <= chosen:
                continue
            n = pick((2, 4)) if "other n" in chosen else 1 if op in TAGS else pick((1, 2, 4))
            block = 16 * n
            held = pick((0, 3, 5, 8, 257, 2**32 + n, LARGE)) if "n" in chosen else n
            working = papers.working_bytes(held, named(chosen), data(256))
            if "working" in chosen:
                working = data(wrong_length(WORKING))
            start, source = wrong_length(block) if "start" in chosen else block, block if op in BLOCKS else block * pick((0, 1, 2, 5))
            if "source" in chosen:
                source = wrong_length(block) if op in BLOCKS else source + rng.randrange(1, block)
            destination = block if op in BLOCKS else source
            if op in TAGS:
                destination = pick((0, 1, 7, 17, 32, 264)) if "tag" in chosen else pick(TAG_LENGTHS)
            if "destination" in chosen:
                destination = pick([x for x in (0, 1, destination + 1, destination + 16, 2 * destination + 3, destination + 256) if x != destination])
            middle = [data(start)] * (op in CBC + CTR) + [pick((0, 1, LARGE))] * (op in CTR)
            yield number, (op, stored(chosen), working, *middle, data(source), data(destination))
    for op in WRAPS:
        own = [("other n", 12), ("source", 17), ("destination", 5)] + [("check value", 18)] * (op == "key_unwrap")
        for chosen, number in subsets([*records, ("n", 1), ("set", 15), *own]):
            if {"n", "other n"} <= chosen:
                continue
            n, i, words, key = pick((2, 4)) if "other n" in chosen else 1, named(chosen), data(256), data(pick((16, 16, 24, 32)))
            source = key
            if op == "key_unwrap":
                source = worked(papers.Store([PUBLISHED, *HALF], ()).tables(i if i < 3 else 0), "key_wrap", 1, words[:64], key)
            if "check value" in chosen:
                source = other(source, rng.randrange(len(source)))
            destination = len(source) + 8 if op == "key_wrap" else len(source) - 8
            if "source" in chosen:
                low = 16 if op == "key_wrap" else 24
                source = source[: pick((0, 1, 7, 8, low - 8, low - 1))] if rng.randrange(2) else source + data(pick((1, 4, 7, 128, 256, 65536)))
                destination = max(len(source) + (8 if op == "key_wrap" else -8), 0)
            if "destination" in chosen:
                destination = pick([x for x in (0, 1, destination + 1, destination + 8, destination + 16, destination + 256) if x != destination])
            held = pick((0, 3, 5, 8, 257, 2**32 + n, LARGE)) if "n" in chosen else n
            working = data(wrong_length(WORKING)) if "working" in chosen else papers.working_bytes(held, i, words)
            yield number, (op, stored(chosen), working, source, data(destination))


# ---- stores made by hand


def by_hand():
    """Each with its name: what stands in a store that no calls from a fresh one make."""
    good = [OTHERS[0], OTHERS[1], OTHERS[2]]
    for name, bad in zip(("zeros", "two equal bytes", "a row that XORs to zero", "both"), BAD):
        for place in (1, 2, 3):
            sets = [bad if i == place else one for i, one in enumerate(good, 1)]
            yield f"{name} at set {place}", store_with(sets)
            yield f"{name} at set {place}, which both have taken", store_with(sets, (place, place))
    for mark in (*OUTSIDE, 2**32 + 2, 2**63 + 3):
        yield f"marks {mark}", store_with(good, (mark, mark))
    yield "marks 0", store_with(good, (0, 0))
    yield "a mark on each", store_with(good, (3, 1))
    for name, zero in (("zeros", BAD[0]), ("two equal bytes", BAD[1]), ("a row that XORs to zero", BAD[2]), ("another set", OTHERS[2])):
        yield f"{name} at set 0", store_with(good, zero=zero)
    yield "junk everywhere", bytes(range(256)) * 4 + bytes(range(48))
    yield "ones everywhere", b"\xff" * STORE
    yield "zeros everywhere", bytes(STORE)


def trials(rng):
    """On each such store: every load and take of every set by both, and every operation under a key of every set."""
    words, data = rng.randbytes(256), rng.randbytes
    for _, store in by_hand():
        for i in (0, 1, 2, 3, 4):
            yield "store_load", store, i % 2, i, *GOOD
            yield "store_load", store, 1 - i % 2, i, *BAD[1 + i % 3]
            yield "store_take", store, 0, i
            yield "store_take", store, 1, i
            n, l = SIZES[rng.randrange(9)]
            yield "expand", store, n, l, i, data(8 * n * l), data(WORKING)
            n = 2 ** rng.randrange(3)
            key = papers.working_bytes(n, i, words)
            for op in (rng.choice(ENCIPHERS), rng.choice(DECIPHERS)):
                yield op, store, key, data(16 * n), data(16 * n)
            for op, middle in ((rng.choice(CBC), ()), ("key_ctr", (rng.choice((0, LARGE)),))):
                yield op, store, key, data(16 * n), *middle, data(32 * n), data(32 * n)
            key = papers.working_bytes(1, i, words)
            yield "key_cmac", store, key, data(rng.randrange(40)), data(16)
            yield "key_cmac_verify", store, key, b"", data(8)
            yield "key_wrap", store, key, words[:16], data(24)
            yield "key_unwrap", store, key, data(24), data(16)


# ---- histories


class Publisher:
    def __init__(self, number):
        self.number, self.keys, self.sealed = number, [], []


class History:
    """Random calls of two publishers. The store goes on by the model; a key is one that the publisher expanded, or made by hand."""

    def __init__(self, rng, store):
        self.rng, self.store = rng, papers.store_of(store, Kiosk)
        self.publishers = Publisher(0), Publisher(1)
        row = lambda: next(filter(papers_accepts, iter(lambda: rng.randbytes(8), None)))
        substitution = lambda: bytes(rng.sample(range(256), 256))
        self.sets = [PUBLISHED, *OTHERS, *((substitution(), row()) for _ in range(6))]

    def often(self, usual, seldom, one_in=12):
        return self.rng.choice(seldom) if self.rng.randrange(one_in) == 0 else self.rng.choice(usual)

    def one_set(self):
        return self.often((0, 1, 1, 2, 2, 3, 3), OUTSIDE, 25)

    def load(self, who):
        substitution, row = self.rng.choice(self.sets)
        if self.rng.randrange(8) == 0:
            substitution = self.rng.choice((equal_bytes(substitution), substitution[1:], substitution + b"\0", b""))
        if self.rng.randrange(8) == 0:
            row = self.rng.choice((vanishing(row), vanishing(row), bytes(8), row[:7]))
        return "store_load", self.often((who.number,), (2, 2**32 + who.number, LARGE), 25), self.one_set(), substitution, row

    def take(self, who):
        return "store_take", self.often((who.number,), (2, 2**32 + who.number, LARGE), 25), self.one_set()

    def expand(self, who):
        n, l = self.rng.choice(SIZES)
        length = self.often((8 * n * l,), (0, 8 * n * l - 1, 8 * n * l + 1))
        sizes = self.often((n,), (0, 3, 2**32 + 1)), self.often((l,), (0, 5, 2**32 + 2))
        return "expand", *sizes, self.one_set(), self.rng.randbytes(length), self.rng.randbytes(self.often((WORKING,), (WORKING - 1, 0), 50))

    def use(self, who):
        rng, data = self.rng, self.rng.randbytes
        working = rng.choice(who.keys) if who.keys else bytes(WORKING)
        if rng.randrange(5) == 0:
            i = self.often((0, 1, 2, 3), OUTSIDE, 3)
            working = papers.working_bytes(self.often((1, 2, 4), (0, 3, 2**32 + 1, LARGE), 6), i, data(256))
        op = rng.choice(USES)
        if op in TAGS + WRAPS and rng.randrange(4):
            working = papers.number_bytes(1) + working[8:]
        n = papers.working_of(working)[0]
        block = 16 * n if n in papers.NS else 16
        if op in TAGS:
            message, length = data(rng.randrange(40)), self.often(TAG_LENGTHS, (0, 7, 17, 24))
            if op == "key_cmac" or rng.randrange(3) == 0:
                return op, working, message, data(length)
            number, bytes_of = answered((op, papers.store_bytes(self.store), working, message, data(length)), Kiosk)
            tag = data(length) if number else bytes_of()
            return op, working, message, tag if rng.randrange(3) or not tag else other(tag, rng.randrange(len(tag)))
        if op in WRAPS:
            length = self.often((16, 16, 24), (32, 0, 8, 15, 17, 136, 144), 6)
            source, fits = data(length), length + 8
            if op == "key_unwrap":
                # mostly what wraps to the key now, whichever tables were there when it was expanded
                request = ("key_wrap", papers.store_bytes(self.store), working, source, data(fits))
                number, bytes_of = answered(request, Kiosk)
                source, fits = data(fits) if number or rng.randrange(4) == 0 else bytes_of(), length
            return op, working, source, data(self.often((fits,), (fits + 1, max(fits - 8, 0), len(source)), 10))
        start = data(self.often((block,), (0, block - 1, block + 1), 20))
        count = self.often((block,), (0, block - 1, block + 1), 20) if op in BLOCKS else block * rng.randrange(4) + rng.randrange(block) * (op in CTR)
        if op in CBC and rng.randrange(12) == 0:
            count += rng.randrange(1, block)
        destination = data(self.often((count,), (count + 1, 2 * count + 1), 10))
        # what the publisher sealed before, to be opened
        source = data(count)
        if op == "key_cbc_open" and who.sealed and rng.randrange(2):
            working, start, source = rng.choice(who.sealed)
            destination = data(len(source))
        return (op, working) + (() if op in BLOCKS else (start,)) + ((self.often((0, 1, 7), (LARGE,)),) if op in CTR else ()) + (source, destination)

    def calls(self, count):
        """The publisher and the request of each call."""
        for _ in range(count):
            who = self.rng.choice(self.publishers)
            choice = self.rng.choices((self.load, self.take, self.expand, self.use), (22, 20, 16, 42))[0]
            op, *given = choice(who)
            before = papers.store_bytes(self.store)
            request = (op, before, *given)
            number, bytes_of = answered(request, Kiosk)
            if number == 0 and op.startswith("store_"):
                self.store = papers.store_of(bytes_of(), Kiosk)
            elif number == 0 and op == "expand":
                who.keys = [*who.keys[-5:], bytes_of()]
            elif number == 0 and op == "key_cbc_seal":
                who.sealed = [*who.sealed[-5:], (given[0], given[1], bytes_of())]
            yield who.number, request


def papers_accepts(row):
    return papers.mixing(row) == 0


def replayed(history, who, start):
    """What a publisher did, over a store that knows nothing of what the other has taken: the accepted loads of both, its own takes, expansions and uses.
    The place of each call in the history, and its request."""
    def forget(store):
        taken = list(store.taken)
        taken[1 - who] = 4
        return Kiosk(store.sets, taken)

    store = forget(papers.store_of(start, Kiosk))
    for at, (by, (op, before, *given)) in enumerate(history):
        accepted = op == "store_load" and answered((op, before, *given), Kiosk)[0] == 0
        if not (accepted or by == who and op != "store_load"):
            continue
        request = (op, papers.store_bytes(store), *given)
        if op.startswith("store_") and answered(request, Kiosk)[0] == 0:
            store = papers.store_of(answered(request, Kiosk)[1](), Kiosk)
        yield at, request


def got(answer, request, who):
    """What a publisher gets: of a load or a take the number, and its own mark; else all."""
    if not request[0].startswith("store_"):
        return answer
    number, store = answer.split()
    return number, store[2 * (1056 + 8 * who) :][:16]


# ---- wrong rules


def wrong_rules():
    """Each a model with one rule altered."""
    def rule(name, **methods):
        return type(name, (Kiosk,), methods)

    def order(rule, *first):
        """A rule in which these numbers come before 15."""
        def changed(*given):
            n, *rest, loaded = given
            number = rule(n, *rest)
            return rule(*given) if loaded or number not in first else number
        return staticmethod(changed)

    def load_first(self, publisher, i, substitution, row):
        """16 before 14 and 13."""
        return 16 if not self.outside(publisher, i) and self.held(i) else Kiosk.load(self, publisher, i, substitution, row)

    def load_and_take(self, publisher, i, substitution, row):
        number = Kiosk.load(self, publisher, i, substitution, row)
        if number == 0:
            self.taken[publisher] = i
        return number

    def take_dropping(self, publisher, i):
        number = Kiosk.take(self, publisher, i)
        if number and publisher < 2:
            self.taken[publisher] = 4
        return number

    def take_keeping(self, publisher, i):
        if not self.outside(publisher, i) and self.loaded(i) and self.taken[publisher] in (1, 2, 3):
            return 0
        return Kiosk.take(self, publisher, i)

    def take_of_held(self, publisher, i):
        return 16 if publisher < 2 and i in (1, 2, 3) and self.taken[1 - publisher] == i else Kiosk.take(self, publisher, i)

    def thirteen_first(self, substitution, row):
        return papers.mixing(row) or Kiosk.content(self, substitution, row)

    def seventeen_first(n, source, destination, loaded):
        number = papers.wrapping(n, source, destination, loaded)
        return 17 if number == 12 and source not in papers.UNWRAPPED_LENGTHS else number

    def five_first(n, source, destination, loaded):
        number = papers.wrapping(n, source, destination, loaded)
        return 5 if number == 17 and destination != source + 8 else number

    def eighteen_first(n, source, destination, loaded, right):
        number = papers.unwrapping(n, source, destination, loaded, right)
        return 18 if number == 5 and not right() else number

    yield "13 before 14", rule("A", content=thirteen_first)
    yield "any 256 bytes are a substitution", rule("B", content=lambda self, s, g: 14 if len(s) != 256 else papers.mixing(g))
    yield "the row is not looked at", rule("C", content=lambda self, s, g: 14 if sorted(s) != list(range(256)) else 0)
    yield "set 0 is what stands there", rule("D", tables=lambda self, i: self.sets[i])
    yield "set 0 is held by nobody", rule("E", held=lambda self, i: i in self.taken)
    yield "publisher 1 holds nothing", rule("F", held=lambda self, i: i == 0 or i == self.taken[0])
    yield "only loaded sets are held", rule("G", held=lambda self, i: i == 0 or i in self.taken and self.loaded(i))
    yield "a mark above 3 is 3", rule("H", held=lambda self, i: i == 0 or i in [min(mark, 3) for mark in self.taken])
    yield "16 before 14", rule("I", load=load_first)
    yield "loading takes", rule("J", load=load_and_take)
    yield "a refused take drops", rule("K", take=take_dropping)
    yield "a taken set is kept", rule("L", take=take_keeping)
    yield "what the other has taken can't be taken", rule("M", take=take_of_held)
    yield "naming a set needs it taken", rule("N", loaded=lambda self, i: i == 0 or i in self.taken and Kiosk.loaded(self, i))
    yield "sets are counted modulo 4", rule("O", loaded=lambda self, i: Kiosk.loaded(self, i % 4), tables=lambda self, i: Kiosk.tables(self, i % 4))
    yield "an unloaded set is used", rule("P", loaded=lambda self, i: i < 4)
    yield "3 before 15", rule("Q", expansion=order(papers.expansion, 3))
    yield "15 before 2", rule("R", expansion=staticmethod(lambda n, l, key, ok: papers.expansion(n, l if ok or n not in papers.NS else 2, key, ok)))
    yield "4 before 15", rule("S", block=order(papers.block, 4))
    yield "6 before 15", rule("T", cbc=order(papers.cbc, 6))
    yield "5 before 15", rule("U", ctr=order(papers.ctr, 5))
    yield "12 before 15", rule("V", tag=order(papers.tag, 12))
    yield "11 before 15", rule("W", tag=order(papers.tag, 11))
    yield "17 before 15", rule("Y", wrapping=order(papers.wrapping, 17))
    yield "17 before 12", rule("Z", wrapping=staticmethod(seventeen_first))
    yield "5 before 17", rule("a", wrapping=staticmethod(five_first))
    yield "18 before 5", rule("b", unwrapping=staticmethod(eighteen_first))
    yield "136 bytes are wrapped", rule("c", wrapping=staticmethod(lambda n, s, d, ok: papers.wrapping(n, s - 8, d - 8, ok) if s == 136 else papers.wrapping(n, s, d, ok)))
    yield "8 bytes are wrapped", rule("d", wrapping=staticmethod(lambda n, s, d, ok: papers.wrapping(n, s + 8, d + 8, ok) if s == 8 else papers.wrapping(n, s, d, ok)))
    yield "15 before 1", rule("X", block=staticmethod(lambda n, s, d, ok: papers.block(n, s, d) if ok else 15))


# ---- asking and comparing


def gaps(requests, numbers):
    """Which operations never gave which of their numbers, among these requests."""
    need = {"store_load": {0, 4, 13, 14, 15, 16}, "store_take": {0, 15}, "expand": {0, 1, 2, 3, 4, 15}}
    need |= {op: {0, 1, 4, 5, 15} for op in BLOCKS} | {op: {0, 1, 4, 5, 6, 15} for op in CBC} | {"key_ctr": {0, 1, 5, 6, 15}}
    need |= {op: {0, 1, 11, 12, 15} for op in TAGS} | {"key_wrap": {0, 1, 5, 12, 15, 17}, "key_unwrap": {0, 1, 5, 12, 15, 17, 18}}
    have = {(request[0], number) for request, number in zip(requests, numbers)}
    return sorted((op, number) for op in need for number in need[op] if (op, number) not in have)


def cases(seed):
    """Every request with its kind, in order; the number that the order of faults gives, by place; and the long history."""
    rng = random.Random(seed)
    made, ordered = [*example(), *vectors(rng), *wraps(rng)], {}
    for number, request in faults(rng):
        ordered[len(made)] = number
        made.append(("faults", request))
    made += [("stores by hand", request) for request in trials(rng)]
    start = papers.store_bytes(Kiosk.fresh())
    history = [*History(rng, start).calls(CALLS)]
    made += [("history", request) for _, request in history]
    for _, store in by_hand():
        made += [("histories by hand", request) for _, request in History(rng, store).calls(SHORT)]
    return made, ordered, history, start


def altered(request):
    """The request with one bit of what it works on changed, or None where nothing follows from it."""
    op, store, *given = request
    if op == "expand":
        return (op, store, *given[:3], other(given[3]), given[4]) if given[3] else None
    if op in USES and given[-2]:
        return (op, store, *given[:-2], other(given[-2], len(given[-2]) - 1), given[-1])
    return None


def breaks(request, kind, answer):
    """Whether a wrong model differs from an answer."""
    try:
        return expected(request, kind) != answer
    except ValueError:  # the archivists' program cannot work with such tables
        return True


def main():
    parser = argparse.ArgumentParser(description=__doc__, formatter_class=argparse.RawDescriptionHelpFormatter)
    parser.add_argument("--seed", type=int, default=SEED)
    seed, began, failures = parser.parse_args().seed, time.monotonic(), []
    print(f"stores: seed {seed}", flush=True)
    made, ordered, history, start = cases(seed)
    requests = [request for _, request in made]
    wanted = [expected(request) for request in requests]
    numbers = [int(answer.split()[0]) for answer in wanted]
    again = [(who, at, request) for who in (0, 1) for at, request in replayed(history, who, start)]
    counts = collections.Counter(kind for kind, _ in made) + collections.Counter(isolation=len(again))
    # what is asked once more, altered: the last done request of each kind
    last = {kind: at for at, (kind, request) in enumerate(made) if numbers[at] == 0 and wanted[at] != "0 0" and altered(request)}
    swapped = store_with([(tables[0][1:] + tables[0][:1], tables[1]) for tables in OTHERS])
    turned = store_with([(tables[0], other(tables[1])) for tables in OTHERS])
    probes = [(at, altered(requests[at])) for at in last.values()]
    probes += [(at, (requests[at][0], store, *requests[at][2:])) for kind, at in last.items() if requests[at][1] == ALL for store in (swapped, turned)]
    try:
        with tempfile.TemporaryDirectory() as place:
            path = program(place)
            answers = asked(path, [*requests, *(request for _, _, request in again), *(request for _, request in probes)])
    except (Wrong, OSError, subprocess.SubprocessError) as fault:
        sys.exit(f"stores: FAILED: {fault}")
    ours, others, probed = answers[: len(requests)], answers[len(requests) : len(requests) + len(again)], answers[len(requests) + len(again) :]
    # every answer
    differ = differences(ours, wanted)
    for at in differ[:10]:
        failures.append(f"{made[at][0]}, request {at}: {line(requests[at])[:60]}..: {ours[at][:60]}.., not {wanted[at][:60]}..")
    failures += [f"the order of faults gives {number}, the papers' rules {numbers[at]}: {line(requests[at])[:60]}.." for at, number in ordered.items() if number != numbers[at]]
    # what each publisher gets does not depend on the other's takes, keys and pages
    where = len(requests) - counts["histories by hand"] - CALLS
    for (who, at, request), answer in zip(again, others):
        if got(answer, request, who) != got(ours[where + at], request, who):
            failures.append(f"publisher {who} gets something else at call {at} without the other")
    # nothing is missing
    failures += [f"{kind}: {counts[kind]} requests, not {count}" for kind, count in COUNTS.items() if counts[kind] != count and kind != "isolation"]
    if counts["isolation"] < COUNTS["isolation"]:
        failures.append(f"only {counts['isolation']} calls without the other")
    failures += [f"the history has no {op} with {number}" for op, number in gaps([request for _, request in history], numbers[where : where + CALLS])]
    failures += [f"the faults have no {op} with {number}" for op, number in gaps([requests[at] for at in ordered], [*ordered.values()])]
    # what is wrong is noticed
    places, whole = altered_vectors([kind for kind, _ in made], wanted)
    if not differ and differences(ours, whole) != places:
        failures.append("altered vectors are not noticed, or others")
    for (at, request), answer in zip(probes, probed):
        if answer == wanted[at]:
            failures.append(f"{made[at][0]}: a changed request got the answer of the unchanged one: {line(request)[:60]}..")
    rules = [*wrong_rules()]
    for name, kind in rules:
        if not any(breaks(requests[at], kind, ours[at]) for at in range(where, len(requests))):
            failures.append(f"a wrong rule in the model is not noticed by the histories: {name}")
    for failure in failures[:20]:
        print(f"stores: FAILED: {failure}")
    told = ", ".join(f"{counts[kind]} {kind}" for kind in COUNTS)
    print(f"stores: seed {seed}: {told}: {len(differ)} differ; {len(places)} altered vectors, {len(probes)} altered requests and {len(rules)} wrong rules tried; {len(failures)} failures; {time.monotonic() - began:.0f} s")
    sys.exit(1 if failures else 0)


main()
