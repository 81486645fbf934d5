#!/usr/bin/env python3
"""Writes what a program of ours reads and must print, made from the archivists' program and vectors alone, and for refusals and
turns from the papers' numbers.

    tests/expected.py --all DIR     for each program NAME its input to DIR/NAME.stdin and its output to DIR/NAME.stdout; the same for each
                                    kind of its cases, by its place PLACE among them from 0 on, to DIR/NAME.PLACE.stdin and .stdout, and
                                    the input with one bit of the last case altered to DIR/NAME.PLACE.altered
    tests/expected.py --list        for each kind of cases a line: NAME, PLACE, the count of the cases, the kind's name
"""
import functools
import hashlib
import json
import os
import sys

sys.dont_write_bytecode = True
sys.path.insert(0, os.path.join(os.path.dirname(os.path.abspath(__file__)), "archivists"))
import archivists_rows
import labyrinth
import modes
import papers

# ---- what the article publishes, and the field's product


def tables():
    """For each byte: S, inverse S, the merged word, the mixed word."""
    for b in range(256):
        merged = labyrinth.TL[labyrinth.S[b]]
        yield bytes([b]), f"{b:02x} {labyrinth.S[b]:02x} {labyrinth.S_INV[b]:02x} {merged:016x} {labyrinth.cmbn_poly(b):016x}"


# the turns that document 02 names, by their multiplier
TURNS = {0x1F: 5, 0x80: 8, 0x00: 0}


def turns():
    for b, count in TURNS.items():
        yield bytes([b]), f"{b:02x} {count}"


def products():
    """For each multiplier: each byte's product by it, and the turns, as many as the multiplier has bits."""
    for b in range(256):
        yield bytes([b]), f"{b:02x}" + "".join(f" {labyrinth.gf_mul(a, b):02x}{b.bit_length()}" for a in range(256))


# ---- rows

LARGE = (1 << 64) - 1

# rows: 01 and seven 00; the published row; the zero row; one that XORs to zero without being zero
ROWS = [bytes([1]).ljust(8, b"\0"), bytes(labyrinth.G), bytes(8), bytes(range(8))]
WORDS = [0, 1, 0x100, 1 << 63, 0x80, 0x0101010101010101, 0x0123456789ABCDEF, LARGE]
ROOMS = [0, 1, 255, 256, 257]


def random_rows():
    """10,000 rows, each with a word."""
    data = hashlib.shake_256(b"rows and words").digest(16 * 10000)
    for at in range(0, len(data), 16):
        yield data[at : at + 8], int.from_bytes(data[at + 8 : at + 16], "little")


def rows_to_mix():
    return [*((row, word) for row in ROWS for word in WORDS), *random_rows()]


def rows_to_tabulate():
    return [*((row, room) for row in ROWS for room in ROOMS), *((row, 256) for row, _ in list(random_rows())[:12])]


def rows_to_multiply():
    pairs = [row + word.to_bytes(8, "little") for row, word in list(random_rows())[:1000]]
    return [*((g, h) for g in ROWS for h in ROWS), *((pair[:8], pair[8:]) for pair in pairs)]


def rows_to_invert():
    return [*ROWS, *(row for row, _ in random_rows())]


# the documents that print the published row's inverse. No outside paper has it: it is worked out over the archivists' product of two bytes,
# and these are held to that
PRINTED = ["README.md", os.path.join("include", "labyrinth.h")]


def misprinted(row):
    """The documents that do not have a row's bytes."""
    root = os.path.join(os.path.dirname(os.path.abspath(__file__)), "..")
    return [name for name in PRINTED if row.hex(" ").upper() not in open(os.path.join(root, name), encoding="utf-8").read()]


def mix():
    """Document 02, Job 4: 13 for a row that XORs to zero, and the zero word."""
    for row, word in rows_to_mix():
        number = papers.mixing(row)
        yield row + word.to_bytes(8, "little"), f"{number} {0 if number else archivists_rows.mixed(row, word):016x}"


def table():
    """13 for such a row, then 5 for a buffer that isn't 256 words; the buffer is then as it was."""
    for row, room in rows_to_tabulate():
        number = papers.table(row, room)
        before = (0x5A5A5A5A5A5A0000 + i for i in range(room))
        made = before if number else (archivists_rows.mixed(row, labyrinth.S[b]) for b in range(256))
        yield row + room.to_bytes(8, "little"), str(number) + "".join(f" {word:016x}" for word in made)


def product():
    """Job 5: products."""
    for g, h in rows_to_multiply():
        yield g + h, archivists_rows.product(g, h).hex()


def inverse():
    """Inverse rows with their products, or 13 and the zero row."""
    for row in rows_to_invert():
        found_row = archivists_rows.inverse(row)
        number = papers.mixing(row)
        if (found_row is None) != (number != 0) or (row == bytes(labyrinth.G) and misprinted(found_row)):
            raise SystemExit(f"expected.py: the inverse of {row.hex()} is {found_row and found_row.hex()}")
        made = found_row or bytes(8)
        yield row, f"{number} {made.hex()} {archivists_rows.product(row, made).hex()}"


# ---- operations under a key


@functools.cache
def found(kind, count):
    path = os.path.join(os.path.dirname(os.path.abspath(__file__)), "archivists", "vectors.json")
    with open(path) as file:
        vectors = json.load(file)[kind]
    if len(vectors) != count:
        raise SystemExit(f"expected.py: {len(vectors)} vectors of the kind {kind}, not {count}")
    return vectors


def far_runs():
    """CTR vectors more, by the archivists' program: three blocks from the last q on, the start block all 00 and all FF."""
    for n in (4, 2, 1):
        key, source = bytes(range(16 * n)), bytes(i * 7 % 256 for i in range(48 * n))
        for start in (bytes(16 * n), b"\xff" * (16 * n)):
            sealed = modes.ctr_crypt(labyrinth.Labyrinth(n, key), start, LARGE, source)
            texts = {"key": key.hex(), "start": start.hex(), "pt": source.hex(), "ct": sealed.hex()}
            yield {"n": n, "l": 2, "q": f"{LARGE:x}", **texts}


def more_tags():
    """CMAC vectors more, by the archivists' program: each key length, message length about a block, and tag length."""
    for l in (2, 3, 4):
        key = bytes(range(l, 9 * l))
        for length in (0, 1, 15, 16, 17, 31, 32, 33, 48):
            message = bytes((7 * i + length) % 256 for i in range(length))
            for taglen in range(8, 17):
                tag = modes.cmac(labyrinth.Labyrinth(1, key), message, taglen)
                yield {"n": 1, "l": l, "key": key.hex(), "msg": message.hex(), "taglen": taglen, "tag": tag.hex()}


# document 01's operations: expansion of n, l and a key's length; block operations under a key made by hand, with the lengths of the
# source and the destination; runs under such a key, with the lengths of the start block, the source and the destination; and document
# 02's tags under such a key, with the lengths of the message and the tag
EXPANSIONS = [
    (0, 2, 16), (3, 2, 48), (8, 2, 128), (3, 9, 0), (LARGE, 2, 16), (1 << 62, 4, 0), (0, 0, 0),
    (1, 1, 8), (1, 5, 40), (2, 0, 0), (4, LARGE, 0), (1, 1 << 61, 0),
    (1, 2, 15), (1, 2, 17), (1, 2, 0), (2, 3, 24), (4, 4, 64), (4, 4, 127),
    (1, 2, 16), (1, 3, 24), (1, 4, 32), (2, 2, 32), (2, 3, 48), (2, 4, 64), (4, 2, 64), (4, 3, 96), (4, 4, 128),
]
BLOCKS = [
    (0, 0, 0), (3, 48, 48), (8, 128, 128), (LARGE, 16, 16), (3, 0, 5),
    (1, 15, 16), (1, 17, 16), (1, 0, 16), (2, 16, 32), (4, 32, 64), (1, 15, 15),
    (1, 16, 15), (1, 16, 17), (1, 16, 0), (2, 32, 16), (4, 64, 63),
    (1, 16, 16), (2, 32, 32), (4, 64, 64),
]
RUNS = [
    (0, 0, 0, 0), (3, 48, 48, 48), (8, 128, 128, 128), (LARGE, 16, 16, 16), (3, 15, 17, 18),
    (1, 15, 16, 16), (1, 17, 16, 16), (1, 0, 16, 16), (2, 16, 32, 32), (1, 15, 15, 15), (1, 17, 15, 16), (4, 16, 0, 0),
    (1, 16, 15, 15), (1, 16, 17, 17), (2, 32, 16, 16), (1, 16, 15, 16), (1, 16, 17, 18), (4, 64, 32, 0),
    (1, 16, 16, 15), (1, 16, 16, 17), (1, 16, 32, 31), (2, 32, 32, 33), (4, 64, 64, 63), (1, 16, 0, 1), (1, 16, 16, 0),
    (1, 16, 0, 0), (1, 16, 1, 1), (1, 16, 16, 16), (1, 16, 32, 32), (2, 32, 33, 33), (2, 32, 64, 64), (4, 64, 0, 0), (4, 64, 192, 192),
    (4, 64, 255, 255),
]
TAGS = [
    (0, 16, 16), (3, 16, 16), (3, 0, 7), (8, 16, 17), (LARGE, 1, 16), ((1 << 32) + 1, 1, 16),
    (2, 16, 16), (4, 16, 16), (2, 0, 7), (4, 17, 17), (2, 32, 0),
    (1, 16, 7), (1, 16, 17), (1, 0, 0), (1, 0, 1), (1, 32, 32), (1, 15, 255),
    (1, 0, 8), (1, 1, 8), (1, 15, 16), (1, 16, 8), (1, 16, 16), (1, 17, 15), (1, 32, 9), (1, 255, 12),
]

# keys wrapped and unwrapped under such a key, with the lengths of the source and the destination
WRAPS = [
    (0, 16, 24), (3, 16, 24), (8, 24, 16), (LARGE, 16, 24), ((1 << 32) + 1, 24, 16), (3, 0, 0),
    (2, 16, 24), (4, 24, 16), (2, 15, 24), (4, 0, 0), (2, 128, 135),
    (1, 0, 8), (1, 0, 0), (1, 1, 9), (1, 7, 15), (1, 8, 16), (1, 8, 0), (1, 9, 1), (1, 15, 23), (1, 17, 25), (1, 20, 12), (1, 23, 15), (1, 25, 33),
    (1, 127, 135), (1, 129, 137), (1, 135, 127), (1, 137, 129), (1, 144, 152), (1, 144, 136), (1, 17, 17),
    (1, 16, 16), (1, 16, 23), (1, 16, 25), (1, 16, 0), (1, 24, 24), (1, 24, 15), (1, 24, 17), (1, 24, 0), (1, 128, 128), (1, 136, 136),
    (1, 16, 24), (1, 24, 16), (1, 16, 8), (1, 24, 32), (1, 32, 40), (1, 40, 32), (1, 128, 136), (1, 128, 120), (1, 136, 128), (1, 136, 144),
]

# what a destination holds before, and what keys, start blocks, sources and messages are of where only their lengths are told
DESTINATION, SOURCE = b"\x5a", b"\xa5"


def given(n, l, q=0, key=b"", start=b"", source=b"", destination=0):
    """n, l (0 for a key made by hand) and q in 8 bytes each; four lengths in 2 bytes each, lowest byte first; the key, the start block or
    the tag, the source."""
    numbers = b"".join(x.to_bytes(8, "little") for x in (n, l, q))
    lengths = b"".join(x.to_bytes(2, "little") for x in (len(key), len(start), len(source), destination))
    return numbers + lengths + key + start + source


def given_vector(v, source, destination, q=0, start=""):
    return given(v["n"], v["l"], q, bytes.fromhex(v["key"]), bytes.fromhex(start), bytes.fromhex(source), destination)


def by_hand(n):
    """The archivists' cipher under a key made by hand, of words alike."""
    cipher = labyrinth.Labyrinth(n, bytes(16 * n))
    cipher.k = [[0x0123456789ABCDEF] * n] * 8
    cipher.wk_e, cipher.wk_d = labyrinth.working_key_encipher(cipher.k), labyrinth.working_key_decipher(cipher.k)
    return cipher


def answered(number, made, destination):
    """The number and what the destination has then: what was made, or what it had."""
    return f"{number} {(DESTINATION * destination if number else made()).hex()}"


def expand():
    """The number, and n and all 32 words of the key, of a refusal 0 and words 0."""
    def line(number, n, expanded):
        words = (int.from_bytes(expanded[at : at + 8], "little") for at in range(0, 256, 8))
        return f"{number} {n}" + "".join(f" {word:016x}" for word in words)

    for n, l, length in EXPANSIONS:
        number = papers.expansion(n, l, length)
        key = SOURCE * length
        yield given(n, l, key=key), line(number, 0, b"") if number else line(0, n, labyrinth.Labyrinth(n, key).expanded_key_bytes())
    for v in found("block", 225):
        yield given_vector(v, "", 0), line(0, v["n"], bytes.fromhex(v["expanded"]))


def block(operation, source, made):
    """By either engine; the operation is the archivists', source and made are names in a vector."""
    for n, length, destination in BLOCKS:
        number = papers.block(n, length, destination)
        text = SOURCE * length
        yield given(n, 0, source=text, destination=destination), answered(number, lambda: operation(by_hand(n), text), destination)
    for v in found("block", 225):
        yield given_vector(v, v[source], 16 * v["n"]), f"0 {v[made]}"


encipher = functools.partial(block, labyrinth.Labyrinth.encrypt_block, "pt", "ct")
decipher = functools.partial(block, labyrinth.Labyrinth.decrypt_block, "ct", "pt")


def refused_runs(run, number_of):
    """number_of is the papers' number of such a run."""
    for n, first, length, destination in RUNS:
        number = number_of(n, first, length, destination)
        start, text = SOURCE * first, SOURCE * length
        case = given(n, 0, start=start, source=text, destination=destination)
        yield case, answered(number, lambda: run(by_hand(n), start, text), destination)


def cbc(run, source, made):
    yield from refused_runs(run, papers.cbc)
    for v in found("cbc", 72):
        yield given_vector(v, v[source], len(v[made]) // 2, start=v["iv"]), f"0 {v[made]}"


def ctr():
    yield from refused_runs(lambda cipher, start, text: modes.ctr_crypt(cipher, start, 0, text), papers.ctr)
    for v in [*found("ctr", 360), *far_runs()]:
        for source, made in (("pt", "ct"), ("ct", "pt")):
            yield given_vector(v, v[source], len(v[made]) // 2, int(v["q"], 16), v["start"]), f"0 {v[made]}"


def tag_vectors():
    return [*found("cmac", 40), *more_tags()]


def make():
    for n, length, tag in TAGS:
        message = SOURCE * length
        made = answered(papers.tag(n, tag), lambda: modes.cmac(by_hand(n), message, tag), tag)
        yield given(n, 0, source=message, destination=tag), made
    for v in tag_vectors():
        yield given_vector(v, v["msg"], v["taglen"]), f"0 {v['tag']}"


def verify():
    """The number in a digit, and 1 for yes or 0 for no, of a tag and then of it with each of its first 128 bits flipped in turn. A refusal gets a
    no, and so does a tag of bytes alike."""
    for n, length, tag in TAGS:
        answer = f"{papers.tag(n, tag):x}0"
        yield given(n, 0, start=DESTINATION * tag, source=SOURCE * length), f"{answer} {answer * min(8 * tag, 128)}"
    for v in tag_vectors():
        yield given_vector(v, v["msg"], 0, start=v["tag"]), f"01 {'00' * 8 * v['taglen']}"


# document 02, Job 8


def wrap():
    for n, length, destination in WRAPS:
        key = SOURCE * length
        made = answered(papers.wrapping(n, length, destination), lambda: modes.kw_wrap(by_hand(n), key), destination)
        yield given(n, 0, source=key, destination=destination), made
    for v in found("kw", 30):
        yield given_vector(v, v["pt"], len(v["ct"]) // 2), f"0 {v['ct']}"


def unwrap():
    """Bytes alike are no wrapped key, nor is a vector with a bit altered; one wrapped under the key by hand is."""
    made = lambda n, source: modes.kw_unwrap(by_hand(n), source)
    for n, length, destination in WRAPS:
        sources = [SOURCE * length]
        if n == 1 and length in papers.WRAPPED_LENGTHS:
            sources.append(modes.kw_wrap(by_hand(n), SOURCE * (length - 8)))
        for source in sources:
            number = papers.unwrapping(n, length, destination, right=lambda: made(n, source) is not None)
            yield given(n, 0, source=source, destination=destination), answered(number, lambda: made(n, source), destination)
    vectors = found("kw", 30)
    for at, v in enumerate(vectors):
        other = bytearray.fromhex(v["ct"])
        other[7 * at % len(other)] ^= 1 << at % 8
        yield given_vector(v, other.hex(), len(v["pt"]) // 2), answered(18, None, len(v["pt"]) // 2)
    for v in vectors:
        yield given_vector(v, v["ct"], len(v["pt"]) // 2), f"0 {v['pt']}"


# ---- the tape

# steps of a tape: (state by hand (n, keyed, ended) or None for what the step before left, room, rest)


def tape_cases():
    fresh, v = (0, 0, 0), found("block", 225)[0]
    key, plain = bytes.fromhex(v["key"]), bytes.fromhex(v["pt"])
    if (v["n"], v["l"]) != (1, 2):
        raise SystemExit("expected.py: the first block vector is of another size")
    enciphers, deciphers = b"\x03" + plain.ljust(64, b"\x00"), b"\x04" + bytes.fromhex(v["ct"]).ljust(64, b"\x00")
    # 5 first: fresh, ended and with an empty rest
    for room in (0, 1, 64, 66, 255):
        for state in (fresh, (1, 1, 0), (1, 1, 1)):
            for rest in (b"", papers.MIX, b"\x7f"):
                yield state, room, rest
    # the end of a tape, from each kind of state
    for state in (fresh, (1, 1, 0), (3, 0, 0), (3, 1, 1), (1, 0, 1)):
        for rest in (b"", b"\x00", b"\x00\x05", papers.MIX):
            yield state, 65, rest
    # an empty rest in more states: 8, and nothing in an ended one
    for state in ((3, 1, 0), (0, 1, 0), (2, 1, 0), (4, 0, 0), (8, 1, 0), (255, 1, 0), (0, 0, 1), (1, 1, 1), (255, 1, 1)):
        yield state, 65, b""
    # states by hand: set with n = 3 and with 0, not set with n = 3
    for state in ((3, 1, 0), (3, 0, 0), (0, 1, 0), (8, 1, 0), (255, 1, 0), (1, 0, 0), fresh):
        for rest in (enciphers, deciphers, b"\x03" + b"\x01" * 64, enciphers[:64]):
            yield state, 65, rest
    # commands one after another, with more behind; a refused 01 keeps the old key
    yield fresh, 65, papers.set_key(1, 2, key) + enciphers
    yield None, 65, enciphers + deciphers
    yield None, 65, papers.set_key(3, 2, b"")
    yield None, 65, papers.set_key(1, 5, b"")
    yield None, 65, papers.set_key(1, 2, key + b"\x01")
    yield None, 65, deciphers
    yield None, 65, enciphers[:17] + b"\x01".rjust(48, b"\x00")
    yield None, 64, enciphers
    yield None, 65, enciphers
    yield None, 65, b"\x02"
    yield None, 65, enciphers
    # after a 5 the empty rest still gets its 8; after that 8 a step gives 0 and nothing, or 5
    yield fresh, 64, b""
    yield None, 65, b""
    yield None, 65, b""
    yield None, 65, papers.MIX
    yield None, 66, b""
    # the same under a key that was set, and after a refusal
    yield fresh, 65, papers.set_key(1, 2, key)
    yield None, 65, enciphers
    yield None, 65, papers.set_key(3, 2, b"")
    yield None, 65, b""
    yield None, 65, enciphers
    yield None, 65, b""
    # an empty rest after 00 and an unknown command gets no 8, after a command cut short no second one
    for rest in (b"\x00", b"\x7f", papers.MIX[:8]):
        yield fresh, 65, rest
        yield None, 65, b""


def stepped(number, taken, answer, left, room):
    """A step's line: number, bytes taken, bytes written, n, the set and the marks of the next state, and the answer buffer over bytes AA."""
    buffer = (answer + b"\xaa" * (room - len(answer))).hex()
    return f"{number} {taken} {len(answer)} {left.n} {left.set} {left.keyed} {left.ended} {buffer}"


def step():
    """A case is a head of 4 bytes (0 for a state by hand; n; the marks; the room) and the rest. A key by hand names set 9."""
    left = papers.FRESH
    for state, room, rest in tape_cases():
        n, keyed, ended = state or (0, 0, 0)
        number, taken, answer, left = papers.step(papers.State(*state, set=9) if state else left, rest, room)
        yield bytes([0 if state else 1, n, keyed + 2 * ended, room]) + rest, stepped(number, taken, answer, left, room)
    # document 02, Job 7: the tape uses set 0, whichever its key names
    for n in papers.NS:
        text, cipher, left = SOURCE * 16 * n, by_hand(n), papers.State(n, 1, 0, set=9)
        for byte, made in ((0x03, cipher.encrypt_block(text)), (0x04, cipher.decrypt_block(text))):
            yield bytes([0, n, 1, papers.ROOM]) + papers.command(byte, text), stepped(0, papers.WIDTH[byte], b"\0" + made, left, papers.ROOM)


# ---- the judge of rows


def good_rows():
    """Rows whose verdict is a yes: with a no the word is left open, and tests/judge.py counts it."""
    for row in [bytes(labyrinth.G), *archivists_rows.GOOD]:
        if archivists_rows.singular(row):
            raise SystemExit(f"expected.py: {row.hex()} is not good enough")
        yield row


def judged():
    for row in good_rows():
        yield f"{row.hex()}\n".encode(), f"{row.hex()} yes\n"


# a kind of cases of the program comparison: its name, which begins its lines, the maker of the cases and their answers, and their count; its
# byte is its place here
KINDS = [
    ("tables", tables, 256),
    ("turns", turns, 3),
    ("products", products, 256),
    ("mix", mix, 10032),
    ("table", table, 32),
    ("product", product, 1016),
    ("inverse", inverse, 10004),
    ("expand", expand, 252),
    ("encipher table", encipher, 244),
    ("encipher matrix", encipher, 244),
    ("decipher table", decipher, 244),
    ("decipher matrix", decipher, 244),
    ("cbc seal", functools.partial(cbc, modes.cbc_encrypt, "pt", "ct"), 106),
    ("cbc open", functools.partial(cbc, modes.cbc_decrypt, "ct", "pt"), 106),
    ("ctr", ctr, 766),
    ("cmac make", make, 308),
    ("cmac verify", verify, 308),
    ("step", step, 136),
    ("key wrap", wrap, 80),
    ("key unwrap", unwrap, 124),
]


def compared(place, name, maker):
    """A kind's cases, each its byte, the length of the rest in 2 bytes, lowest first, and the rest; and the lines."""
    for rest, answer in maker():
        yield bytes([place]) + len(rest).to_bytes(2, "little") + rest, f"{name} {answer}\n"


# name: for each kind its name, the maker of cases and lines, and the count
PROGRAMS = {
    "comparison": [(name, functools.partial(compared, place, name, maker), count) for place, (name, maker, count) in enumerate(KINDS)],
    "judge_row": [("rows", judged, 5)],
}


def altered(data):
    """With the lowest bit altered of the last byte that ends no line."""
    at = len(data.rstrip(b"\n")) - 1
    return data[:at] + bytes([data[at] ^ 1]) + data[at + 1 :]


def write(path, data):
    with open(path, "wb") as out:
        out.write(data)


def input_and_output(program, name, maker, count):
    """The input and the output of a kind."""
    cases, lines = zip(*maker())
    if len(cases) != count or any(line.find("\n") != len(line) - 1 for line in lines):
        raise SystemExit(f"expected.py: {program}, {name}: {len(cases)} cases, not {count}, or not a line each")
    return b"".join(cases), "".join(lines).encode()


def main(words):
    if words == ["--list"]:
        for program, kinds in PROGRAMS.items():
            for place, (name, _, count) in enumerate(kinds):
                print(program, place, count, name)
    elif len(words) == 2 and words[0] == "--all":
        for program, kinds in PROGRAMS.items():
            path, parts = os.path.join(words[1], program), [input_and_output(program, *kind) for kind in kinds]
            for place, (given_data, printed) in enumerate(parts):
                write(f"{path}.{place}.stdin", given_data)
                write(f"{path}.{place}.altered", altered(given_data))
                write(f"{path}.{place}.stdout", printed)
            write(f"{path}.stdin", b"".join(given_data for given_data, _ in parts))
            write(f"{path}.stdout", b"".join(printed for _, printed in parts))
    else:
        raise SystemExit(__doc__)


main(sys.argv[1:])
