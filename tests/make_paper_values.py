#!/usr/bin/env python3
"""Fills the value blocks of docs/OPENING-A-PAGE.md, made from the archivists' program and vectors alone. A value block is a fenced block whose
first line names it; the text around the blocks stays as it is.

    tests/make_paper_values.py            writes the paper anew
    tests/make_paper_values.py --check    fails if the paper's blocks are not what would be written
"""
import functools
import hashlib
import itertools
import json
import operator
import os
import re
import sys

sys.dont_write_bytecode = True
HERE = os.path.dirname(os.path.abspath(__file__))
PAPER = os.path.join(os.path.dirname(HERE), "docs", "OPENING-A-PAGE.md")
sys.path[:0] = [os.path.join(HERE, "archivists"), HERE]
import archivists_sets
import archivists_wraps
import labyrinth as lab
import modes
import page_records
import papers
from papers import SIZES

FENCE = re.compile(r"^```([a-z0-9-]+)\n(.*?)^```$", re.M | re.S)
ADDED, XORED = 0x1084210842108421, 0x4444444444444444  # of delta, held to the archivists' below
TEXT = (
    "This page was sealed for you who open it. Its paper is gone and these bytes are all that is left of it. "
    "If you can read this sentence, your program is right here. "
)


# ---- how values are written

def weighted(data):
    return sum((i + 1) * b for i, b in enumerate(data))


def byte_lines(name, data):
    """Sixteen bytes a line in groups of four, and the line's check sum."""
    for at in range(0, len(data), 16):
        line = data[at : at + 16]
        groups = " ".join(line[i : i + 4].hex().upper() for i in range(0, len(line), 4))
        yield f"{name:<8}{groups:<35}  : {weighted(line):04X}"


def word(w):
    return f"0x{w:016X}"


def word_line(line, width, words):
    """A line of words and its check sum, of the words' bytes as they are printed."""
    return f"{line:<{width}}  : {weighted(b''.join(w.to_bytes(8, 'big') for w in words)):04X}"


def word_lines(pairs):
    """Pairs of a name and a half-block: two names a line where a half-block is one word, else two words a line; and each line's check sum."""
    if all(len(words) == 1 for _, words in pairs):
        for at in range(0, len(pairs), 2):
            two = pairs[at : at + 2]
            yield word_line(" | ".join(f"{name:<11} {word(words[0])}" for name, words in two), 63, [words[0] for _, words in two])
    else:
        for name, words in pairs:
            for at in range(0, len(words), 2):
                two = words[at : at + 2]
                yield word_line(f"{name:<11} " + " ".join(map(word, two)), 49, two)


# ---- the tables

def table_1():
    yield "     " + " ".join(f"{c:02X}" for c in range(16)) + "   sum"
    for row in range(16):
        entries = lab.S[16 * row : 16 * row + 16]
        yield f"{16 * row:02X}   " + " ".join(f"{b:02X}" for b in entries) + f" : {weighted(entries):04X}"


def constants():
    yield f"field     0x{lab.F_MBN:X}"
    yield "row       " + " ".join(f"{g:02X}" for g in lab.G)
    for t, c in enumerate(lab.XC):
        yield f"xc_{t}      {word(c)}"
    for w in (0, 1, 0x0123456789ABCDEF, 2**64 - ADDED, 2**64 - 1):
        if lab.delta([w]) != [(w + ADDED) % 2**64 ^ XORED]:
            raise SystemExit("make_paper_values.py: other constants of delta")
    yield f"delta-add {word(ADDED)}"
    yield f"delta-xor {word(XORED)}"
    it, rounds, ft = lab.working_key_encipher(list(range(8)))
    yield f"IT        {it[0]} {it[1]}"
    yield "rounds    " + " ".join(map(str, rounds))
    yield f"FT        {ft[0]} {ft[1]}"


def sources():
    for n in (1, 2, 4):
        places = lab.half_to_bytes(lab.P(lab.bytes_to_half(list(range(8 * n)))))
        for at in range(0, 8 * n, 8):
            yield f"{n}  {at:>2}  " + " ".join(f"{p:>2}" for p in places[at : at + 8])


def small_values():
    for x in (0x00, 0x53, 0xFF):
        yield f"S          {x:02X} = {lab.S[x]:02X}"
    for x in (0x00, 0x54, 0xFF):
        yield f"S-inverse  {x:02X} = {lab.S_INV[x]:02X}"
    for a, b in ((0x80, 0x02), (0x2D, 0x80), (0xFF, 0x1F)):
        yield f"product    {a:02X} {b:02X} = {lab.gf_mul(a, b):02X}"
    for w in (0x1, 0x100, 0x0101010101010101, 0x80, 0x0123456789ABCDEF):
        yield f"mix        {word(w)} = {word(lab.cmbn_poly(w))}"
    eight = 0x0123456789ABCDEF
    for _ in range(8):
        eight = lab.cmbn_poly(eight)
    yield f"mix-8      {word(0x0123456789ABCDEF)} = {word(eight)}"
    for t in range(4):
        yield f"SL-{t}       {word(0)} = {word(lab.SL(t, 0))}"
    yield f"SL-0       {word(0x0123456789ABCDEF)} = {word(lab.SL(0, 0x0123456789ABCDEF))}"
    for w in (0, 2**64 - 1):
        yield f"delta      {word(w)} = {word(lab.delta([w])[0])}"
    for left, right in ((1, 0), (0x0123456789ABCDEF, 0x1122334455667788)):
        (a,), (b,) = lab.IMix([left], [right])
        yield f"IMix       {word(left)} {word(right)}"
        yield f"         = {word(a)} {word(b)}"


# ---- the traces

def halves(n, data):
    return [lab.bytes_to_half(data[at : at + 8 * n]) for at in range(0, len(data), 8 * n)]


def f_parts(k, x):
    """The four steps of F, from the archivists' functions; and they are F."""
    added = lab.vadd(x, k)
    taken = lab.P(added)
    substituted = lab.sub_half(lab.S, taken)
    mixed = [lab.cmbn_poly(w) for w in substituted]
    out = lab.F(k, x)
    if out != [w ^ lab.XC[t] for t, w in enumerate(mixed)]:
        raise SystemExit("make_paper_values.py: the steps of F are not F")
    return [("sum", added), ("permuted", taken), ("substituted", substituted), ("mixed", mixed), ("F", out)]


def trace_expansion(n, key, whole):
    uk = halves(n, key)
    l, k = len(uk), lab.expand_key(uk)
    yield from byte_lines("key", key)
    total = [0] * n
    for half in uk:
        total = lab.vxor(total, half)
    register = lab.vrol(total, 29)
    yield from word_lines([(f"k_{j}", k[j]) for j in range(l)])
    yield from word_lines([("XOR", total), ("register", register)])
    for j in range(l, 8):
        register = lab.delta(register)
        if whole:
            yield ""
            yield f"j {j}"
            yield from word_lines([("register", register), *f_parts(register, k[j - 1]), (f"k_{j - l}", k[j - l]), (f"k_{j}", k[j])])
        else:
            yield from word_lines([(f"k_{j}", k[j])])


def trace_it(n, key, block):
    kl, kr = lab.working_key_encipher(lab.expand_key(halves(n, key)))[0]
    right, left = halves(n, block)
    yield from byte_lines("block", block)
    out = [("L", left), ("R", right), ("key-L", kl), ("key-R", kr)]
    a, b = lab.vadd(left, kl), lab.vadd(right, kr)
    out += [("sum-L", a), ("sum-R", b)]
    a, b = lab.sub_half(lab.S, a), lab.sub_half(lab.S, b)
    out += [("subst-L", a), ("subst-R", b)]
    a, b = lab.vrol(a, 2), lab.vror(b, 2)
    out += [("rotated-L", a), ("rotated-R", b)]
    out += imix_parts(a, b, "L_0", "R_0")
    if lab.IT((kl, kr), (left, right)) != (out[-2][1], out[-1][1]):
        raise SystemExit("make_paper_values.py: the steps of IT are not IT")
    yield from word_lines(out)


def imix_parts(a, b, left, right):
    d = lab.vxor(a, b)
    sigma = [lab.rol64(d[0], 28), *d[1:]]
    c, e = lab.IMix(a, b)
    return [("XOR", d), ("sigma", sigma), (left, c), (right, e)]


def states(n, key, block):
    """The working key, and the halves after 0, 1, .., 16 rounds."""
    wk = lab.working_key_encipher(lab.expand_key(halves(n, key)))
    right, left = halves(n, block)
    out = [lab.IT(wk[0], (left, right))]
    for i in range(16):
        left, right = out[-1]
        out.append((right, lab.vxor(left, lab.F(wk[1][i], right))))
    return wk, out


def trace_rounds(n, key, block, whole):
    numbers = lab.working_key_encipher(list(range(8)))[1]
    wk, state = states(n, key, block)
    for i in range(16):
        left, right = state[i]
        if i:
            yield ""
        yield f"round {i} k_{numbers[i]}"
        parts = [("subkey", wk[1][i]), *f_parts(wk[1][i], right)]
        new = [(f"L_{i + 1}", state[i + 1][0]), (f"R_{i + 1}", state[i + 1][1])]
        if whole or i == 0:
            yield from word_lines([(f"L_{i}", left), (f"R_{i}", right), *parts, *new])
        else:
            yield from word_lines(new)


def trace_ft(n, key, block):
    (_, _, (kl, kr)), state = states(n, key, block)
    left, right = state[16][1], state[16][0]
    out = [("L", left), ("R", right), *imix_parts(left, right, "mixed-L", "mixed-R")]
    a, b = out[-2][1], out[-1][1]
    a, b = lab.vror(a, 2), lab.vrol(b, 2)
    out += [("rotated-L", a), ("rotated-R", b)]
    a, b = lab.sub_half(lab.S_INV, a), lab.sub_half(lab.S_INV, b)
    out += [("subst-L", a), ("subst-R", b), ("key-L", kl), ("key-R", kr)]
    a, b = lab.vsub(a, kl), lab.vsub(b, kr)
    out += [("sealed-L", a), ("sealed-R", b)]
    sealed = bytes(lab.half_to_bytes(b) + lab.half_to_bytes(a))
    if sealed != lab.Labyrinth(n, key).encrypt_block(block):
        raise SystemExit("make_paper_values.py: the trace is not the cipher")
    yield from word_lines(out)
    yield from byte_lines("sealed", sealed)


# ---- the vectors

with open(os.path.join(HERE, "archivists", "vectors.json")) as vectors_file:
    BLOCKS = json.load(vectors_file)["block"]


def found(n, l, name):
    (v,) = [v for v in BLOCKS if (v["n"], v["l"], v["name"]) == (n, l, name)]
    return [bytes.fromhex(v[part]) for part in ("key", "pt", "ct")]


TRACED = {1: (2, "random-0"), 2: (3, "random-0"), 4: (4, "random-0")}


def block_vectors(name):
    for n, l in SIZES:
        key, plain, sealed = found(n, l, name)
        if (n, l) != SIZES[0]:
            yield ""
        yield f"block n {n} l {l}"
        yield from byte_lines("key", key)
        yield from byte_lines("plain", plain)
        yield from byte_lines("sealed", sealed)


def bytes_of(label, count):
    out, i = b"", 0
    while len(out) < count:
        out += hashlib.sha256(f"{label} {i}".encode()).digest()
        i += 1
    return out[:count]


def page(length):
    return (TEXT * (length // len(TEXT) + 1)).encode("ascii")[:length]


def run_given(at, head, key, start, plain):
    """The head and what is given of run number at, an empty line before all but the first."""
    if at:
        yield ""
    yield head
    yield from byte_lines("key", key)
    yield from byte_lines("start", start)
    yield from byte_lines("plain", plain)


def cbc_vectors():
    for at, (n, l, count) in enumerate(((1, 4, 3), (2, 2, 2), (4, 3, 2))):
        key, start, plain = bytes_of(f"cbc key {n}", 8 * n * l), bytes_of(f"cbc start {n}", 16 * n), page(16 * n * count)
        yield from run_given(at, f"cbc n {n} l {l}", key, start, plain)
        yield from byte_lines("sealed", modes.cbc_encrypt(lab.Labyrinth(n, key), start, plain))


# n, l, key, start, q and length. Start blocks whose counters carry: n = 1 at once past all FF, n = 2 over 9 bytes, n = 4 by a large q over 8.
CTR_RUNS = (
    (1, 3, bytes_of("ctr key 1", 24), b"\xff" * 16, 1, 37),
    (2, 4, bytes_of("ctr key 2", 64), bytes_of("ctr start 2", 23) + b"\xff" * 8 + b"\xfe", 1, 69),
    (4, 2, bytes_of("ctr key 4", 64), bytes_of("ctr start 4", 64), 2**64 - 1, 133),
)
# q = 0 and whole blocks; past 128 bits at n = 2; past 256 at n = 4, less than a block; past all bits at n = 4.
CARRY_RUNS = (
    (1, 2, bytes_of("carry key 1", 16), bytes_of("carry start 1", 16), 0, 32),
    (2, 2, bytes_of("carry key 2", 32), bytes_of("carry start 2", 15) + b"\xff" * 16 + b"\xfe", 1, 37),
    (4, 3, bytes_of("carry key 3", 96), bytes_of("carry start 3", 31) + b"\xff" * 33, 1, 41),
    (4, 4, bytes_of("carry key 4", 128), b"\xff" * 64, 1, 16),
)


def ctr_vectors(runs):
    for at, (n, l, key, start, q, length) in enumerate(runs):
        plain = page(length)
        cipher = lab.Labyrinth(n, key)
        yield from run_given(at, f"ctr n {n} l {l} q {q}", key, start, plain)
        blocks = (length + 16 * n - 1) // (16 * n)
        for i in range(blocks):
            counter = ((int.from_bytes(start, "big") + q + i) % 2 ** (128 * n)).to_bytes(16 * n, "big")
            yield from byte_lines(f"count-{i}", counter)
        yield from byte_lines("sealed", modes.ctr_crypt(cipher, start, q, plain))


def digits(data):
    return " ".join(data[i : i + 4].hex().upper() for i in range(0, len(data), 4))


def card_run():
    """What the card says (n, l, key, start block), and its sealed page."""
    n, l = 1, 2
    key, start = bytes_of("card key", 8 * n * l), bytes_of("card start", 16 * n)
    return n, l, key, start, modes.ctr_crypt(lab.Labyrinth(n, key), start, 0, page(TEXT.index(".") + 1))


def card():
    """A card as one is written, without check sums, and its sealed page."""
    n, l, key, start, sealed = card_run()
    yield from (f"n        {n}", f"l        {l}", f"key      {digits(key)}", "mode     CTR", f"start    {digits(start)}", "q        0")
    yield from (f"length   {len(sealed)}", "")
    yield from (f"sealed   {digits(sealed[at : at + 16])}" for at in range(0, len(sealed), 16))


CARD_TAG_KEY, CARD_TAG_LENGTH = bytes_of("card tag key", 24), 12


# ---- tables of an archive's own

def own_tables():
    """A row and a substitution that are not the published ones: made up, and no advice."""
    row = bytes_of("card row", 8)
    if functools.reduce(operator.xor, row) == 0:
        raise SystemExit("make_paper_values.py: the row XORs to zero")
    return row, bytes(sorted(range(256), key=lambda x: hashlib.sha256(f"card substitution {x}".encode()).digest()))


def card_tables():
    """What tables of an archive's own add to the card, the page sealed with them, and its tag made with them."""
    row, substitution = own_tables()
    with archivists_sets.with_set(substitution, row):
        sealed = card_run()[-1]
        tag = made_tag(CARD_TAG_KEY, sealed, CARD_TAG_LENGTH)
    for name, data in (("row", row), ("subst", substitution), ("sealed", sealed), ("tag", tag)):
        yield from (f"{name:<8} {digits(data[at : at + 16])}" for at in range(0, len(data), 16))


# ---- tags

class Tags:
    """CMAC under a key in the paper's steps, with the archivists' block map. A wrong reading exchanges steps."""

    def __init__(self, key):
        self.cipher = lab.Labyrinth(1, key)

    def block(self, data):
        return self.cipher.encrypt_block(data)

    def first(self):
        return self.block(bytes(16))

    def double(self, data, order="big", place=15, reduced=None):
        number = 2 * int.from_bytes(data, order)
        out = bytearray((number % 2**128).to_bytes(16, order))
        if (number >= 2**128 if reduced is None else reduced):
            out[place] ^= 0x87
        return bytes(out)

    def masks(self):
        one = self.double(self.first())
        return one, self.double(one)

    def mask(self, part):
        return self.masks()[len(part) < 16]

    def cut(self, message):
        return [message[at : at + 16] for at in range(0, len(message), 16)] or [b""]

    def filled(self, part, byte=b"\x80"):
        return part if len(part) == 16 else (part + byte).ljust(16, b"\x00")

    def start(self):
        return bytes(16)

    def end(self, chain, part, mask):
        return self.block(modes.xor(chain, modes.xor(part, mask)))

    def whole(self, message):
        return self.steps(message)[-1][1]

    def tag(self, message, length):
        return self.whole(message)[:length]

    def steps(self, message):
        """Names and values on the way to the 16 bytes."""
        *before, part = self.cut(message)
        chain = self.start()
        for block in before:
            chain = self.block(modes.xor(chain, block))
        one, two = self.masks()
        filled, mask = self.filled(part), self.mask(part)
        return [
            ("L", self.first()), ("K1", one), ("K2", two), ("message", message), ("last", modes.xor(filled, mask)), ("chain", chain),
            ("whole", self.end(chain, filled, mask)),
        ]


def high(data):
    return data[0] >> 7


def key_with(label, l, bits):
    """The first of the keys with this label and 0, 1, .. whose L and K1 have these highest bits."""
    keys = (bytes_of(f"{label} {i}", 8 * l) for i in itertools.count())
    return next(key for key in keys if (high(Tags(key).first()), high(Tags(key).masks()[0])) == bits)


# l, key, the message's length and the tag's: the highest bits of L and K1 in all four ways, where K2 is used, and of L in both, where K1 is.
CMAC_RUNS = tuple(
    (l, key_with(f"cmac key {length}", l, bits), length, tag)
    for l, length, tag, bits in (
        (2, 0, 16, (0, 0)), (3, 1, 8, (0, 1)), (4, 15, 12, (1, 0)), (2, 16, 10, (0, 1)), (3, 17, 15, (1, 1)), (4, 32, 16, (1, 0)), (2, 40, 9, (0, 1)),
    )
)


def made_tag(key, message, length):
    """The archivists' tag; and the steps give it."""
    tag = modes.cmac(lab.Labyrinth(1, key), message, length)
    if (Tags(key).whole(message), Tags(key).tag(message, length)) != (modes.cmac(lab.Labyrinth(1, key), message), tag):
        raise SystemExit("make_paper_values.py: the steps of CMAC are not CMAC")
    return tag


def cmac_vectors():
    for at, (l, key, length, tag) in enumerate(CMAC_RUNS):
        message = page(length)
        yield from [""] * (at > 0)
        yield f"cmac l {l} message {length} tag {tag}"
        for name, data in (("key", key), *Tags(key).steps(message), ("tag", made_tag(key, message, tag))):
            yield from byte_lines(name, data)


def card_tag():
    """What the card's tag adds to the card."""
    tag = made_tag(CARD_TAG_KEY, card_run()[-1], CARD_TAG_LENGTH)
    yield from (f"tag        {digits(tag)}", f"tag-length {CARD_TAG_LENGTH}")
    yield from (f"tag-l      {len(CARD_TAG_KEY) // 8}", f"tag-key    {digits(CARD_TAG_KEY)}", "tagged     the sealed page")


# ---- wrapped keys

class Wraps:
    """KW under a master key in the paper's steps, with the archivists' block map. A wrong reading exchanges parts of them."""

    check, late = modes.ICV1, True

    def __init__(self, key):
        self.cipher = lab.Labyrinth(1, key)

    def enciphered(self, block):
        return self.cipher.encrypt_block(block)

    def deciphered(self, block):
        return self.cipher.decrypt_block(block)

    def turned(self, block):
        """What is done to the block that E is given, and undone for U."""
        return block

    def halved(self, block):
        """What is done to the block that E gives."""
        return block

    def count(self, m):
        return 6 * m

    def number(self, t, m):
        return t.to_bytes(8, "big")

    def step(self, t, a, r):
        number = self.number(t, len(r))
        block = self.halved(self.enciphered(self.turned((a if self.late else modes.xor(a, number)) + r[0])))
        return modes.xor(block[:8], number) if self.late else block[:8], [*r[1:], block[8:]]

    def back(self, t, a, r):
        number = self.number(t, len(r))
        block = self.turned(self.deciphered(self.halved((modes.xor(a, number) if self.late else a) + r[-1])))
        return block[:8] if self.late else modes.xor(block[:8], number), [block[8:], *r[:-1]]

    def wrapped(self, key):
        a, r = self.check, [key[at : at + 8] for at in range(0, len(key), 8)]
        for t in range(1, self.count(len(r)) + 1):
            a, r = self.step(t, a, r)
        return a + b"".join(r)

    def unwrapped(self, data):
        a, r = data[:8], [data[at : at + 8] for at in range(8, len(data), 8)]
        for t in range(self.count(len(r)), 0, -1):
            a, r = self.back(t, a, r)
        return b"".join(r) if a == self.check else None


# l, the master key and the key: a key of each length that keys have
KW_RUNS = tuple(
    (2 + at % 3, bytes_of(f"master key {length}", 8 * (2 + at % 3)), bytes_of(f"wrapped key {length}", length))
    for at, length in enumerate(sorted({8 * n * l for n, l in SIZES}))
)
KW_TRACED = KW_RUNS[1]
KW_STEPS = 6  # that are shown in full


@functools.cache
def made_wrapped(master, key):
    """The archivists' wrapped key; and the steps give it, both ways."""
    wrapped = modes.kw_wrap(lab.Labyrinth(1, master), key)
    if (Wraps(master).wrapped(key), Wraps(master).unwrapped(wrapped)) != (wrapped, key):
        raise SystemExit("make_paper_values.py: the steps of KW are not KW")
    return wrapped


def trace_wrap():
    """A and the R_i after each of the first steps, with what E was given and gave, and after the last."""
    l, master, key = KW_TRACED
    cipher = lab.Labyrinth(1, master)
    states = archivists_wraps.states(cipher.encrypt_block, key)
    yield f"kw l {l} key {len(key)}"
    yield from byte_lines("master", master)
    yield from byte_lines("key", key)
    for t in (*range(KW_STEPS + 1), len(states) - 1):
        yield from ("", f"step {t}")
        if 0 < t <= KW_STEPS:
            given = states[t - 1][:16]
            yield from byte_lines("given", given)
            yield from byte_lines("B", cipher.encrypt_block(given))
        for at in range(0, len(states[t]), 8):
            yield from byte_lines(f"R_{at // 8}" if at else "A", states[t][at : at + 8])


def kw_vectors():
    for at, (l, master, key) in enumerate(KW_RUNS):
        yield from [""] * (at > 0)
        yield f"kw l {l} key {len(key)}"
        for name, data in (("master", master), ("key", key), ("wrapped", made_wrapped(master, key))):
            yield from byte_lines(name, data)


def refused_strings():
    """The place of the master key among the records, and a string that is refused, with its number."""
    wrapped = [made_wrapped(master, key) for _, master, key in KW_RUNS]
    flip = lambda data, at, bit: data[:at] + bytes([data[at] ^ bit]) + data[at + 1 :]
    check = type("Padded", (Wraps,), dict(check=bytes.fromhex("A65959A600000010")))
    yield 0, flip(wrapped[0], 0, 0x80), 18
    yield 0, flip(wrapped[0], len(wrapped[0]) - 1, 0x01), 18
    yield 1, flip(wrapped[1], 13, 0x10), 18
    yield 1, wrapped[1][8:] + wrapped[1][:8], 18
    yield 0, check(KW_RUNS[0][1]).wrapped(KW_RUNS[0][2]), 18
    yield 2, wrapped[0], 18
    yield 0, wrapped[0][:-8], 17
    yield 0, wrapped[0][:-1], 17
    yield 0, wrapped[0] + b"\x00", 17


def kw_refused():
    for at, (place, data, number) in enumerate(refused_strings()):
        l, master, _ = KW_RUNS[place]
        yield from [""] * (at > 0)
        yield f"refused l {l} bytes {len(data)} number {number}"
        yield from byte_lines("master", master)
        yield from byte_lines("string", data)


CARD_MASTER = bytes_of("card master key", 32)


def card_wrapped():
    """The card's key, wrapped."""
    wrapped = made_wrapped(CARD_MASTER, card_run()[2])
    yield from (f"wrapped    {digits(wrapped[at : at + 16])}" for at in range(0, len(wrapped), 16))
    yield f"master-l   {len(CARD_MASTER) // 8}"
    yield from (f"master-key {digits(CARD_MASTER[at : at + 16])}" for at in range(0, len(CARD_MASTER), 16))


# ---- page records

# the sealing key, the tag key, number, day, title, start block and body
PAGE_TITLE, PAGE_BODY = b"The first page of the second box", b"This page was kept in a record. "
PAGE_TRACED = (bytes_of("page sealing key", 24), bytes_of("page tag key", 16), 70000, 20410, PAGE_TITLE, bytes_of("page start", 16), PAGE_BODY)


def page_run(blocks, l, tag_l, number, day, title):
    """The start block is the first of those with this label and 0, 1, .. by which a byte 15 stands within the first sealed block, if there is one."""
    sealing, body = bytes_of(f"page sealing key {blocks}", 8 * l), page(16 * blocks)
    starts = (bytes_of(f"page start {blocks} {i}", 16) for i in itertools.count())
    start = next(start for start in starts if not blocks or 0x15 in lab.Labyrinth(1, sealing).encrypt_block(modes.xor(start, body[:16])))
    return sealing, bytes_of(f"page tag key {blocks}", 8 * tag_l), number, day, title.ljust(32), start, body


PAGE_RUNS = (
    page_run(0, 2, 4, 0, 2**32 - 1, b"No block"),
    page_run(1, 4, 3, 2**32 - 1, 0, b"One block"),
    page_run(3, 3, 2, 258, 65536, b"Three blocks"),
)


def page_ciphers(sealing, tagging):
    return [page_records.Cipher(archivists_sets.PUBLISHED, lab.Labyrinth(1, key).expanded_key_bytes()) for key in (sealing, tagging)]


@functools.cache
def made_record(sealing, tagging, *given, rules=page_records.Records()):
    return rules.written(*page_ciphers(sealing, tagging), *given)


def trace_page():
    """A record, its parts, the tag's steps, and the body opened block by block."""
    sealing, tagging, number, day, *_, body = PAGE_TRACED
    record = made_record(*PAGE_TRACED)
    blocks, end = len(body) // 16, len(record) - 17
    yield f"page blocks {blocks} bytes {len(record)}"
    for name, data in (("sealing", sealing), ("tagging", tagging), ("record", record)):
        yield from byte_lines(name, data)
    at = 0
    for what, (byte, width) in (
        *zip((f"number {number}", f"day {day}", "title", "start"), papers.PAGE_HEAD),
        *((f"block {i}", papers.PAGE_BLOCK) for i in range(blocks)),
        ("tag", papers.PAGE_TAG),
    ):
        if record[at] != byte:
            raise SystemExit(f"make_paper_values.py: no {byte:02X} at {at}")
        yield from ("", f"byte {at} {what}")
        yield from byte_lines("command", record[at : at + 1])
        yield from byte_lines("operand", record[at + 1 : at + 1 + width])
        at += 1 + width
    yield from ("", f"tag bytes {end}")
    for name, data in Tags(tagging).steps(record[:end]):
        if name != "message":
            yield from byte_lines(name, data)
    cipher, before = lab.Labyrinth(1, sealing), record[44:60]
    for i in range(blocks):
        sealed = record[61 + 17 * i : 77 + 17 * i]
        unsealed = cipher.decrypt_block(sealed)
        yield from ("", f"open {i}")
        for name, data in (("sealed", sealed), ("U", unsealed), ("before", before), ("body", modes.xor(unsealed, before))):
            yield from byte_lines(name, data)
        before = sealed


def page_vectors():
    for at, given in enumerate(PAGE_RUNS):
        sealing, tagging, number, day, title, start, body = given
        yield from [""] * (at > 0)
        yield f"page l {len(sealing) // 8} tag-l {len(tagging) // 8} blocks {len(body) // 16} number {number} day {day}"
        for name, data in (("sealing", sealing), ("tagging", tagging), ("title", title), ("start", start), ("body", body), ("record", made_record(*given))):
            yield from byte_lines(name, data)


def refused_records():
    """The tag key and the string, from the traced record, and the number."""
    record, tagging = made_record(*PAGE_TRACED), PAGE_TRACED[1]
    flip = lambda at, bit: record[:at] + bytes([record[at] ^ bit]) + record[at + 1 :]
    yield tagging, flip(1, 0x01), 20
    yield tagging, flip(42, 0x20), 20
    yield tagging, flip(61, 0x80), 20
    yield tagging, flip(110, 0x01), 20
    yield tagging, record[:60] + record[77:94] + record[60:77] + record[94:], 20
    yield tagging, record[:77] + record[94:], 20
    yield PAGE_RUNS[2][1], record, 20
    yield tagging, flip(77, 0x0A), 19
    yield tagging, record[:-1], 19
    yield tagging, record + b"\x00", 19


def page_refused():
    for at, (tagging, data, number) in enumerate(refused_records()):
        yield from [""] * (at > 0)
        yield f"refused bytes {len(data)} number {number}"
        for name, key in (("sealing", PAGE_TRACED[0]), ("tagging", tagging), ("record", data)):
            yield from byte_lines(name, key)


# ---- key registers

REGISTER, ENTRY, PLACES = 2824, 44, 64  # bytes of a register and of an entry, and how many entries it has room for
WRAPPED = 40  # bytes of a wrapped key in it


class Registers:
    """A register's bytes read in the paper's steps; places are counted from 0. A wrong reading exchanges parts of them."""

    order, count_order, front, has, replaces = "little", "little", REGISTER - ENTRY * PLACES, 0, 2

    def field(self, register, place, at):
        start = self.front + ENTRY * place + at
        return int.from_bytes(register[start : start + 2], self.order)

    def number(self, register, place):
        return self.field(register, place, self.has)

    def replaced(self, register, place):
        return self.field(register, place, self.replaces)

    def held(self, register):
        return range(min(int.from_bytes(register[:8], self.count_order), PLACES))

    def own(self, register, number):
        """The places of the entries with the number; the first is taken."""
        return [place for place in self.held(register) if number and self.number(register, place) == number]

    def later(self, register, place):
        """The places of the entries that replace the one reached; the first is followed."""
        number = self.number(register, place)
        return [other for other in self.held(register)[place + 1 :] if number and self.replaced(register, other) == number]

    def followed(self, register, reached):
        """The places that are reached; a wrong reading may go round for ever, and is cut off."""
        while len(reached) <= PLACES and (later := self.later(register, reached[-1])):
            reached = [*reached, later[0]]
        return reached

    def rule(self, register, reached):
        return int(len(reached) > 1)

    def steps(self, reached):
        return len(reached) - 1

    def looked_up(self, register, number):
        """The place of the number's own entry, that at the end of its replacements, the rule, and how many were followed; None if it is absent."""
        own = self.own(register, number)
        if not own:
            return None
        reached = self.followed(register, own[:1])
        return own[0], reached[-1], self.rule(register, reached), self.steps(reached)


# the number of each key and the number that it replaced, in a register as our programs keep it; and two made by hand, with their counts and places
KEPT = ((7, 0), (258, 0), (9, 7), (513, 258), (65535, 9), (40, 0))
BY_HAND = (
    (256, {0: (5, 7), 1: (7, 0), 2: (11, 0), 3: (12, 11), 4: (13, 11), 5: (11, 5), 6: (0, 12), 7: (14, 11), 8: (20, 21), 9: (21, 20), 10: (30, 30), 63: (31, 13)}),
    (2, {0: (7, 0), 1: (9, 7), 2: (11, 9), 3: (12, 0)}),
)
ABSENT = (0, 8)  # in all of them
REGISTER_MASTER = bytes_of("register master key", 24)


def register_key(number):
    return bytes_of(f"register key {number}", WRAPPED - 8)


def register_bytes(count, entries, wrapped=lambda number: bytes(WRAPPED)):
    """The entries are the numbers by their places; zeros stand where there is none."""
    out = bytearray(count.to_bytes(8, "little").ljust(REGISTER, b"\0"))
    for place, numbers in entries.items():
        entry = b"".join(number.to_bytes(2, "little") for number in numbers) + wrapped(numbers[0])
        out[8 + ENTRY * place : 8 + ENTRY * place + ENTRY] = entry
    return bytes(out)


@functools.cache
def kept_register():
    return register_bytes(len(KEPT), dict(enumerate(KEPT)), lambda number: made_wrapped(REGISTER_MASTER, register_key(number)))


def key_register():
    """A register: its count, and each entry with the key that it unwraps to."""
    register = kept_register()
    yield f"register count {len(KEPT)} bytes {len(register)}"
    yield from byte_lines("master", REGISTER_MASTER)
    yield from byte_lines("count", register[:8])
    for place, (number, replaces) in enumerate(KEPT):
        at = 8 + ENTRY * place
        yield from ("", f"entry {place} byte {at} number {number} replaces {replaces}")
        yield from byte_lines("entry", register[at : at + ENTRY])
        yield from byte_lines("key", register_key(number))


def asked(entries):
    """Each number that the entries have, once, then two that are absent."""
    return [*dict.fromkeys(number for number, _ in entries if number), *ABSENT]


def look_ups(register, entries):
    for number in asked(entries):
        answer = Registers().looked_up(register, number)
        says = "refused 22" if answer is None else "own {:<4} end {:<4} rule {} followed {}".format(*answer)
        yield f"number {number:<6} {says}"


def kept_look_ups():
    return look_ups(kept_register(), KEPT)


def registers_by_hand():
    for at, (count, entries) in enumerate(BY_HAND):
        yield from [""] * (at > 0)
        yield f"count {count}"
        yield from ("entry {:<7} number {:<6} replaces {}".format(place, *numbers) for place, numbers in entries.items())
        yield from look_ups(register_bytes(count, entries), entries.values())


REGISTER_CARD = 2, 2, KEPT[0][0]  # n and l of the page, and the number of its key


def card_register():
    """A card that names its key by a number, and its sealed page."""
    n, l, number = REGISTER_CARD
    start = bytes_of("register card start", 16 * n)
    sealed = modes.ctr_crypt(lab.Labyrinth(n, register_key(number)), start, 0, page(TEXT.index(".") + 1))
    rows = lambda name, data: (f"{name:<10} {digits(data[at : at + 16])}" for at in range(0, len(data), 16))
    yield from (f"n          {n}", f"l          {l}", f"key-number {number}", "mode       CTR", *rows("start", start), "q          0", f"length     {len(sealed)}", "")
    yield from rows("sealed", sealed)


# ---- the tape

def word_to_08():
    """The word, as bytes, of 0x0123456789ABCD00 to 0x0123456789ABCDFF whose mixed word ends in 08."""
    words = (bytes([first]) + bytes.fromhex("CDAB8967452301") for first in range(256))
    (word,) = (word for word in words if papers.mixed(word)[-1] == 0x08)
    return word


def filled(byte, *parts):
    """A command's parts, and the zeros behind them."""
    zeros = papers.WIDTH[byte] - 1 - sum(len(data) for _, data in parts)
    return [("command", bytes([byte])), *parts, *[("zeros", bytes(zeros))] * (zeros > 0)]


def tape_commands():
    """The tape of section 14, command by command: what stands on the tape, and the answer. The key and the block are those of section 9."""
    l, name = TRACED[1]
    key, block, _ = found(1, l, name)
    sealed, word = lab.Labyrinth(1, key).encrypt_block(block), word_to_08()
    done = ("answer", b"\x00")
    yield filled(0x01, ("n-and-l", bytes([1, l])), ("key", key)), [done]
    yield filled(0x03, ("block", block)), [done, ("sealed", sealed)]
    yield filled(0x05, ("word", word)), [done, ("mixed", papers.mixed(word))]
    yield filled(0x00), []


def tape():
    """The commands with their answers, a run of zeros by its length; then the answers to the whole tape, and to the tape without its 00."""
    whole = b""
    for given, answer in tape_commands():
        for name, data in given + answer:
            yield from [f"zeros   {len(data)}"] if name == "zeros" else byte_lines(name, data)
        yield ""
        whole += b"".join(data for _, data in given)
    for at, tape in enumerate((whole, whole[:-1])):
        answers = b"".join(papers.answers(tape))
        yield from [""] * at
        yield f"tape {len(tape)} answers {len(answers)}"
        yield from byte_lines("answers", answers)


# ---- wrong readings: the archivists' program with a function exchanged, and put back

def transposed(w):
    b = lab.word_to_bytes(w)
    out = [0] * 8
    for i in range(8):
        for j in range(8):
            out[i] ^= lab.gf_mul(b[j], lab.G[(j - i) % 8])
    return lab.bytes_to_word(out)


def summed(w):
    total = 0
    for b in lab.word_to_bytes(w):
        total ^= lab.TL[b]
    return lab.rol64(total, 56)


def sent(x):
    n, v = len(x), lab.half_to_bytes(x)
    out = [0] * (8 * n)
    for i in range(8 * n):
        out[9 * i % (8 * n)] = v[i]
    return lab.bytes_to_half(out)


def not_exchanged(wk, block):
    left, right = lab.IT(wk[0], block)
    for i in range(16):
        left, right = right, lab.vxor(left, lab.F(wk[1][i], right))
    return lab.FT(wk[2], (left, right))


def same_way_it(k, block):
    a, b = (lab.vrol(lab.sub_half(lab.S, lab.vadd(h, x)), 2) for h, x in zip(block, k))
    return lab.IMix(a, b)


def same_way_ft(k, block):
    a, b = (lab.vsub(lab.sub_half(lab.S_INV, lab.vror(h, 2)), x) for h, x in zip(lab.IMix(*block), k))
    return a, b


TRUE_FT = lab.FT


def added_ft(k, block):
    left, right = TRUE_FT(([0] * len(k[0]), [0] * len(k[1])), block)
    return lab.vadd(left, k[0]), lab.vadd(right, k[1])


def imix_by(sigma_of):
    def imix(left, right):
        sigma = sigma_of(lab.vxor(left, right))
        return lab.vxor(left, sigma), lab.vxor(right, sigma)
    return imix


def turned(x):
    return [x[j - 1] for j in range(len(x))]


def as_one(sign):
    def add(x, y):
        join = lambda h: sum(w << 64 * i for i, w in enumerate(h))
        total = (join(x) + sign * join(y)) % 2 ** (64 * len(x))
        return [total >> 64 * i & 2**64 - 1 for i in range(len(x))]
    return add


def expanded_by(first, late):
    def expand(uk):
        total = [0] * len(uk[0])
        for half in uk:
            total = lab.vxor(total, half)
        register, k = first(total), list(uk)
        for j in range(len(uk), 8):
            if not late:
                register = lab.delta(register)
            k.append(lab.vxor(lab.F(register, k[j - 1]), k[j - len(uk)]))
            if late:
                register = lab.delta(register)
        return k
    return expand


def crossed(way):
    def keys(k):
        (a, b), rounds, (c, d) = way(k)
        return (b, a), rounds, (d, c)
    return keys


def reversed_words(data):
    return b"".join(data[at : at + 8][::-1] for at in range(0, len(data), 8))


def exchanged(data):
    return data[len(data) // 2 :] + data[: len(data) // 2]


@functools.cache
def readings_of(wrong):
    """The lines of a kind of wrong readings, worked once."""
    return list(wrong())


def wrong_readings():
    nibbles = [lab.S[(x % 16) * 16 + x // 16] for x in range(256)]
    back = [nibbles.index(y) for y in range(256)]
    plain = lambda data: data
    other = [lab.bytes_to_word([lab.gf_mul(g, x, 0x1BD) for g in lab.G]) for x in range(256)]
    readings = [
        (dict(cmbn=summed), plain, plain),
        (dict(cmbn=transposed), plain, plain),
        (dict(TL=other), plain, plain),
        (dict(P=sent), plain, plain),
        (dict(EF=not_exchanged), plain, plain),
        (dict(IT=same_way_it, FT=same_way_ft), plain, plain),
        ({}, plain, exchanged),
        ({}, reversed_words, reversed_words),
        (dict(XC=[*lab.XC[:3], 0x3333333333333333]), plain, plain),
        (dict(IMix=imix_by(lambda d: turned(lab.vrol(d, 28)))), plain, plain),
        (dict(IMix=imix_by(lambda d: [lab.rol64(d[0], 28), *d[1:]])), plain, plain),
        (dict(vadd=as_one(1), vsub=as_one(-1)), plain, plain),
        (dict(expand_key=expanded_by(lambda x: lab.vrol(x, 29), True)), plain, plain),
        (dict(expand_key=expanded_by(lambda x: lab.vror(x, 29), False)), plain, plain),
        (dict(working_key_encipher=crossed(lab.working_key_encipher), working_key_decipher=crossed(lab.working_key_decipher)), plain, plain),
        (dict(S=nibbles, S_INV=back), plain, plain),
        (dict(FT=added_ft), plain, plain),
    ]
    for number, (parts, keys, blocks) in enumerate(readings, 1):
        before = {name: getattr(lab, name) for name in parts}
        for name, part in parts.items():
            setattr(lab, name, part)
        right, opens = {1: 0, 2: 0, 4: 0}, 0
        for n, l in SIZES:
            key, source, sealed = found(n, l, "random-1")
            cipher = lab.Labyrinth(n, keys(key))
            got = blocks(cipher.encrypt_block(blocks(source)))
            right[n] += got == sealed
            opens += blocks(cipher.decrypt_block(blocks(got))) == source
        for name, part in before.items():
            setattr(lab, name, part)
        if any(count not in (0, 3) for count in right.values()) or opens not in (0, 9):
            raise SystemExit(f"make_paper_values.py: wrong reading {number}: {right}, {opens}")
        words = " ".join(f"{'same' if right[n] else 'differs':<8}" for n in (1, 2, 4))
        yield f"{number:>2}   {words} {'opens' if opens else 'lost'}"


def wrong_counters():
    """Wrong readings of CTR, on each run of 11.4 and 11.5."""
    def stream(cipher, order, modulus, start, q, length, block):
        number, out, i = int.from_bytes(start, order), b"", 0
        while len(out) < length:
            fixed = number - number % modulus
            out += block((fixed + (number + q + i) % modulus).to_bytes(len(start), order))
            i += 1
        return out[:length]

    def up(c, start, q, length):
        return stream(c, "little", 2 ** (8 * len(start)), start, q, length, c.encrypt_block)

    def short(c, start, q, length):
        return stream(c, "big", 2**128, start, q, length, c.encrypt_block)

    def cut(c, start, q, length):
        whole = 2 ** (8 * len(start))
        parts = ((int.from_bytes(start, "big") + (q + i) % 2**64) % whole for i in range(-(-length // len(start))))
        return b"".join(c.encrypt_block(part.to_bytes(len(start), "big")) for part in parts)[:length]

    def no_offset(c, start, q, length):
        return modes.ctr_crypt(c, start, 0, bytes(length))

    def in_bytes(c, start, q, length):
        blocks, skip = divmod(q, len(start))
        return modes.ctr_crypt(c, start, blocks, bytes(skip + length))[skip:]

    def by_u(c, start, q, length):
        return stream(c, "big", 2 ** (8 * len(start)), start, q, length, c.decrypt_block)

    first = 1 + len(readings_of(wrong_readings))
    for number, reading in enumerate((up, short, cut, no_offset, in_bytes, by_u), first):
        words = []
        for n, l, key, start, q, length in (*CTR_RUNS, *CARRY_RUNS):
            cipher = lab.Labyrinth(n, key)
            got, wanted = reading(cipher, start, q, length), modes.ctr_crypt(cipher, start, q, bytes(length))
            words.append("same" if got == wanted else "differs")
            if reading is up and (q == 0) != (got[: 16 * n] == wanted[: 16 * n]) and start != b"\xff" * 16 * n:
                raise SystemExit("make_paper_values.py: another first block by the counter carried up")
        yield shown(number, words)


def shown(number, words):
    """The line of a wrong reading; it must differ somewhere."""
    if "differs" not in words:
        raise SystemExit(f"make_paper_values.py: nothing shows wrong reading {number}")
    return f"{number}   " + " ".join(f"{word:<8}" for word in words).rstrip()


def wrong_tags():
    """Wrong readings of CMAC, on each record of 11.6."""
    def doubled(**other):
        return dict(double=lambda self, data: Tags.double(self, data, **other))

    def cut_on(self, message):
        return [message[at : at + 16] for at in range(0, len(message) + 1, 16)]

    def late(self, chain, part, mask):
        return modes.xor(self.block(modes.xor(chain, part)), mask)

    def by_u(self, data):
        return self.cipher.decrypt_block(data)

    readings = (
        doubled(order="little", place=0),
        doubled(place=0),
        doubled(reduced=False),
        doubled(reduced=True),
        dict(masks=lambda self: (self.first(), self.double(self.first()))),
        dict(masks=lambda self: Tags.masks(self)[::-1]),
        dict(mask=lambda self, part: self.masks()[0]),
        dict(filled=lambda self, part: Tags.filled(self, part, b"\x00")),
        dict(filled=lambda self, part: Tags.filled(self, part, b"\x01")),
        dict(cut=cut_on),
        dict(whole=lambda self, message: Tags.whole(self, message) if message else bytes(16)),
        dict(start=lambda self: self.first()),
        dict(end=late),
        dict(first=lambda self: by_u(self, bytes(16))),
        dict(block=by_u),
        dict(tag=lambda self, message, length: self.whole(message)[-length:]),
    )
    first = 1 + sum(map(len, map(readings_of, (wrong_readings, wrong_counters))))
    for number, parts in enumerate(readings, first):
        wrong = type("Wrong", (Tags,), parts)
        words = ("same" if wrong(key).tag(page(length), tag) == made_tag(key, page(length), tag) else "differs" for _, key, length, tag in CMAC_RUNS)
        yield shown(number, list(words))


def wrong_wraps():
    """Wrong readings of KW: what each makes of the first record of 11.7. Each unwraps what it wrapped, and none makes a right wrapped key."""
    def numbered(number):
        return dict(number=number)

    def exchanged(self, block):
        return block[8:] + block[:8]

    def from_the_end(self, t, a, r):
        a, r = Wraps.step(self, t, a, r[::-1])
        return a, r[::-1]

    def from_the_start(self, t, a, r):
        a, r = Wraps.back(self, t, a, r[::-1])
        return a, r[::-1]

    readings = (
        numbered(lambda self, t, m: (t - 1).to_bytes(8, "big")),
        numbered(lambda self, t, m: t.to_bytes(8, "little")),
        numbered(lambda self, t, m: bytes(8)),
        numbered(lambda self, t, m: ((t - 1) % m + 1).to_bytes(8, "big")),
        numbered(lambda self, t, m: ((t - 1) // m + 1).to_bytes(8, "big")),
        dict(late=False),
        dict(count=lambda self, m: m),
        dict(count=lambda self, m: 6 * (m + 1)),
        dict(turned=exchanged),
        dict(halved=exchanged),
        dict(step=from_the_end, back=from_the_start),
        dict(check=bytes.fromhex("A65959A600000010")),
        dict(enciphered=Wraps.deciphered, deciphered=Wraps.enciphered),
    )
    first = 1 + sum(map(len, map(readings_of, (wrong_readings, wrong_counters, wrong_tags))))
    for at, parts in enumerate(readings, first):
        wrong = type("Wrong", (Wraps,), parts)
        for l, master, key in KW_RUNS[:2]:
            made = wrong(master).wrapped(key)
            if made == made_wrapped(master, key) or wrong(master).unwrapped(made) != key:
                raise SystemExit(f"make_paper_values.py: wrong reading {at} is not wrong, or does not come back")
        yield f"{at}   {digits(wrong(KW_RUNS[0][1]).wrapped(KW_RUNS[0][2]))}"


def wrong_pages():
    """Wrong readings of page records: the tag that each writes to the traced page. Each opens what it wrote."""
    def tag(of):
        return dict(tag=lambda self, sealing, tagging, page: modes.cmac(tagging, of(self, page)))

    def apart(run, sealing, start, blocks):
        return b"".join(run(sealing, start, blocks[at : at + 16]) for at in range(0, len(blocks), 16))

    def operands(self, page):
        return b"".join((page.number.to_bytes(4, "little"), page.day.to_bytes(4, "little"), page.title, page.start, page.sealed))

    readings = (
        dict(order="big"),
        dict(head=(papers.PAGE_HEAD[1], papers.PAGE_HEAD[0], *papers.PAGE_HEAD[2:])),
        dict(
            seal=lambda self, sealing, tagging, start, body: modes.cbc_encrypt(tagging, start, body),
            opened=lambda self, sealing, tagging, page: modes.cbc_decrypt(tagging, page.start, page.sealed),
        ),
        dict(
            seal=lambda self, sealing, tagging, start, body: apart(modes.cbc_encrypt, sealing, start, body),
            opened=lambda self, sealing, tagging, page: apart(modes.cbc_decrypt, sealing, page.start, page.sealed),
        ),
        tag(lambda self, page: self.front(page) + b"\x1f"),
        tag(lambda self, page: self.front(page) + b"\x1f" + bytes(16)),
        tag(lambda self, page: self.front(page)[60:]),
        tag(lambda self, page: page.sealed),
        tag(operands),
        dict(tag=lambda self, sealing, tagging, page: modes.cmac(sealing, self.front(page))),
    )
    first = 1 + sum(map(len, map(readings_of, (wrong_readings, wrong_counters, wrong_tags, wrong_wraps))))
    right = made_record(*PAGE_TRACED)
    for at, parts in enumerate(readings, first):
        rules, ciphers = type("Wrong", (page_records.Records,), parts)(), page_ciphers(*PAGE_TRACED[:2])
        made = made_record(*PAGE_TRACED, rules=rules)
        read = rules.parts(made)
        if made[-16:] == right[-16:] or not rules.right(*ciphers, read) or (*read[:4], rules.opened(*ciphers, read)) != PAGE_TRACED[2:]:
            raise SystemExit(f"make_paper_values.py: wrong reading {at} is not wrong, or does not come back")
        yield f"{at}   {digits(made[-16:])}"


def wrong_registers():
    """Wrong readings of key registers: whether all answers of the register that is kept, and of the two made by hand, still come out."""
    right = Registers()

    def anywhere(self, register, place):
        number = self.number(register, place)
        return [other for other in self.held(register) if number and self.replaced(register, other) == number]

    def onward(self, register, place):
        number = self.replaced(register, place)
        return [other for other in self.held(register)[place + 1 :] if number and self.number(register, other) == number]

    def with_zero(self, register, place):
        return [other for other in self.held(register)[place + 1 :] if self.replaced(register, other) == self.number(register, place)]

    readings = (
        dict(order="big"),
        dict(count_order="big"),
        dict(has=2, replaces=0),
        dict(front=4),
        dict(held=lambda self, register: range(min(register[0], PLACES))),
        dict(held=lambda self, register: range(PLACES)),
        dict(own=lambda self, register, number: right.own(register, number)[-1:]),
        dict(own=lambda self, register, number: [place for place in self.held(register) if self.number(register, place) == number]),
        dict(later=onward),
        dict(later=anywhere),
        dict(later=lambda self, register, place: [*[place] * (self.number(register, place) == self.replaced(register, place) > 0), *right.later(register, place)]),
        dict(later=lambda self, register, place: right.later(register, place)[::-1]),
        dict(later=with_zero),
        dict(followed=lambda self, register, reached: [*reached, *self.later(register, reached[0])[:1]]),
        dict(rule=lambda self, register, reached: int(self.replaced(register, reached[-1]) > 0)),
        dict(steps=len),
    )
    first = 1 + sum(map(len, map(readings_of, (wrong_readings, wrong_counters, wrong_tags, wrong_wraps, wrong_pages))))
    registers = [(kept_register(), KEPT), *((register_bytes(count, entries), entries.values()) for count, entries in BY_HAND)]
    for at, parts in enumerate(readings, first):
        wrong = type("Wrong", (Registers,), parts)()
        words = ["same" if all(wrong.looked_up(register, number) == right.looked_up(register, number) for number in asked(entries)) else "differs" for register, entries in registers]
        if "differs" not in words:
            raise SystemExit(f"make_paper_values.py: wrong reading {at} is not wrong")
        yield f"{at}   " + "  ".join(f"{word:<7}" for word in words).rstrip()


def values():
    traced = {n: (found(n, l, name)) for n, (l, name) in TRACED.items()}
    out = {
        "table-1": table_1(),
        "constants": constants(),
        "byte-sources": sources(),
        "small-values": small_values(),
        "trace-1-expansion": trace_expansion(1, traced[1][0], True),
        "trace-1-it": trace_it(1, *traced[1][:2]),
        "trace-1-rounds": trace_rounds(1, *traced[1][:2], True),
        "trace-1-ft": trace_ft(1, *traced[1][:2]),
        "vectors-counting": block_vectors("key-inc/block-inc"),
        "vectors-mixed": block_vectors("random-1"),
        "vectors-cbc": cbc_vectors(),
        "vectors-ctr": ctr_vectors(CTR_RUNS),
        "vectors-ctr-carry": ctr_vectors(CARRY_RUNS),
        "vectors-cmac": cmac_vectors(),
        "trace-wrap": trace_wrap(),
        "vectors-kw": kw_vectors(),
        "vectors-kw-refused": kw_refused(),
        "trace-page": trace_page(),
        "vectors-page": page_vectors(),
        "vectors-page-refused": page_refused(),
        "key-register": key_register(),
        "key-register-look-ups": kept_look_ups(),
        "key-register-by-hand": registers_by_hand(),
        "card": card(),
        "card-tag": card_tag(),
        "card-tables": card_tables(),
        "card-wrapped": card_wrapped(),
        "card-register": card_register(),
        "tape": tape(),
        "wrong-readings": readings_of(wrong_readings),
        "wrong-readings-ctr": readings_of(wrong_counters),
        "wrong-readings-cmac": readings_of(wrong_tags),
        "wrong-readings-kw": readings_of(wrong_wraps),
        "wrong-readings-page": readings_of(wrong_pages),
        "wrong-readings-register": readings_of(wrong_registers),
    }
    for n in (2, 4):
        key, block, _ = traced[n]
        out[f"trace-{n}-expansion"] = trace_expansion(n, key, False)
        out[f"trace-{n}-it"] = trace_it(n, key, block)
        out[f"trace-{n}-rounds"] = trace_rounds(n, key, block, False)
        out[f"trace-{n}-ft"] = trace_ft(n, key, block)
    return {name: "".join(line + "\n" for line in lines) for name, lines in out.items()}


def main(words):
    if words not in ([], ["--check"]):
        raise SystemExit(__doc__)
    made = values()
    with open(PAPER, encoding="utf-8") as file:
        text = file.read()
    there = [match[1] for match in FENCE.finditer(text)]
    if sorted(there) != sorted(made):
        raise SystemExit(f"make_paper_values.py: the paper has other blocks: {sorted(set(there) ^ set(made))}, {len(there)} for {len(made)}")
    new = FENCE.sub(lambda match: f"```{match[1]}\n{made[match[1]]}```", text)
    if words and new != text:
        raise SystemExit("make_paper_values.py: the paper's values are not what the archivists' program gives")
    if not words and new != text:
        with open(PAPER, "w", encoding="utf-8") as file:
            file.write(new)
    print(f"make_paper_values: {len(made)} blocks, {sum(v.count(chr(10)) for v in made.values())} lines")


if __name__ == "__main__":
    main(sys.argv[1:])
