#!/usr/bin/env python3
"""Reads every value out of docs/OPENING-A-PAGE.md and holds it to both programs: the archivists' (all values, step by step) and ours (what the
library's functions give), through target/dist/liblabyrinth.a, which `make lib` makes; the tape to crates/tape_program/out/tape_program, which `rt ci` and `make run` make.
Then alters a digit in each line of each block in turn: each must be noticed. In each line that has a check sum it alters every digit, and exchanges
every two bytes that differ: the check sum alone must show it. And it holds the paper's contents, editions and article to what they are taken from."""
import ctypes
import functools
import itertools
import os
import re
import struct
import subprocess
import sys
import tempfile

sys.dont_write_bytecode = True
HERE = os.path.dirname(os.path.abspath(__file__))
ROOT = os.path.dirname(HERE)
PAPER = os.path.join(ROOT, "docs", "OPENING-A-PAGE.md")
ARCHIVE = os.path.join(ROOT, "target", "dist", "liblabyrinth.a")
PROGRAM = os.path.join(ROOT, "crates", "tape_program", "out", "tape_program")
HEADER = os.path.join(ROOT, "include", "labyrinth.h")
sys.path[:0] = [os.path.join(HERE, "archivists"), HERE]
import archivists_sets
import labyrinth as lab
import make_paper_values
import modes
import papers
from papers import EXAMPLE, LONGEST, SIZES, WIDTH, command, set_key

FENCE = re.compile(r"^```([a-z0-9-]+)\n(.*?)^```$", re.M | re.S)
BYTE_LINE = re.compile(r"^(\S+) +((?:[0-9A-F]{2}){1,4}(?: (?:[0-9A-F]{2}){1,4}){0,3}) +: ([0-9A-F]{4})$")
WORD_LINE = re.compile(r"^(\S.*\S) +: ([0-9A-F]{4})$")
WORD_CELL = re.compile(r"^(\S+) +(0x[0-9A-F]{16}(?: 0x[0-9A-F]{16})?)$")
READ = {
    "blocks": 43, "byte strings": 372, "half-blocks": 396, "block vectors": 18, "CBC runs": 3, "CTR runs": 7, "traced blocks": 3, "tags": 8,
    "flipped bits of tags and messages": 2080, "wrapped keys": 14, "flipped bits of wrapped keys": 5632, "refused strings": 19, "tapes": 514,
    "page records": 4, "flipped bits of records": 3280, "key registers": 3, "look-ups": 26,
}
SUMMED = [799, 354, 16]  # lines with check sums: of bytes, of words, of Table 1


class Fault(Exception):
    pass


def same(what, got, wanted):
    if got != wanted:
        raise Fault(f"{what}: {got}, not {wanted}")


# ---- ours

def ours(place):
    """The library as a shared object."""
    if not os.path.exists(ARCHIVE):
        sys.exit("paper.py: target/dist/liblabyrinth.a is not there: make lib")
    shared = os.path.join(place, "liblabyrinth.so")
    subprocess.run(["gcc", "-shared", "-o", shared, "-Wl,--whole-archive", ARCHIVE, "-Wl,--no-whole-archive"], check=True, timeout=60)
    library = ctypes.CDLL(shared)
    library.labyrinth_mix.restype = ctypes.c_uint64
    for name in (
        "encipher", "decipher", "cbc_seal", "cbc_open", "ctr", "cmac", "cmac_verify", "store_fresh", "store_load", "expand", "key_ctr", "key_cmac",
        "key_cmac_verify", "key_wrap", "key_unwrap", "page_write", "page_catalogue", "page_open", "register_add", "register_find",
    ):  # fmt: skip
        getattr(library, f"labyrinth_{name}").restype = ctypes.c_uint8
    return library


LIBRARY = None


def called(name, *given, number=0):
    """Calls the library's function, numbers as sizes, strings and buffers with their lengths; it must return this number."""
    lent = []
    for x in given:
        lent += [x, ctypes.c_size_t(len(x))] if isinstance(x, (bytes, ctypes.Array)) else [ctypes.c_size_t(x) if isinstance(x, int) else x]
    same(f"the number of {name}", getattr(LIBRARY, f"labyrinth_{name}")(*lent), number)


def room(length):
    return (ctypes.c_char * length)()


@functools.lru_cache(maxsize=None)
def our(name, n, l, key, *strings, q=None):
    """What the library's function gives for a source, the last of the strings."""
    out, offset = room(len(strings[-1])), [] if q is None else [ctypes.c_uint64(q)]
    called(name, n, l, key, *strings[:-1], *offset, strings[-1], out)
    return out.raw


@functools.lru_cache(maxsize=None)
def our_tag(l, key, message, length, number=0):
    out = room(length)
    called("cmac", l, key, message, out, number=number)
    return out.raw


@functools.lru_cache(maxsize=None)
def our_answer(l, key, message, tag, number=0):
    """The library's answer to a tag: 1 is yes, 0 is no."""
    yes = ctypes.c_uint8(2)
    called("cmac_verify", l, key, message, tag, ctypes.byref(yes), number=number)
    return yes.value


@functools.lru_cache(maxsize=None)
def our_key(l, master):
    """A fresh store, and the master key expanded for set 0."""
    store, working = room(papers.STORE), room(papers.WORKING)
    called("store_fresh", store)
    called("expand", store, 1, l, 0, master, working)
    return store, working


@functools.lru_cache(maxsize=None)
def our_wrap(name, l, master, source, number=0):
    """What the library wraps or unwraps a string to; if it is refused, the destination must be as it was."""
    out = room(max(len(source) + (8 if name == "key_wrap" else -8), 0))
    out.raw = b"\x5a" * len(out)
    called(name, *our_key(l, master), source, out, number=number)
    same("what a refusal left", number == 0 or out.raw == b"\x5a" * len(out), True)
    return out.raw


@functools.lru_cache(maxsize=None)
def our_record(sealing, tagging, number, day, title, start, body):
    """The record that the library writes, by the published tables."""
    (store, one), (_, two) = our_key(len(sealing) // 8, sealing), our_key(len(tagging) // 8, tagging)
    out = room(papers.record_length(len(body) // 16))
    called("page_write", store, one, two, ctypes.c_uint32(number), ctypes.c_uint32(day), title, start, body, out)
    return out.raw


@functools.lru_cache(maxsize=None)
def our_body(sealing, tagging, record, number=0):
    """What the library opens a record to; if it is refused, the destination must be as it was."""
    (store, one), (_, two) = our_key(len(sealing) // 8, sealing), our_key(len(tagging) // 8, tagging)
    out = room(16 * max((len(record) - 77) // 17, 0))
    out.raw = b"\x5a" * len(out)
    called("page_open", store, one, two, record, out, number=number)
    same("what a refusal left", number == 0 or out.raw == b"\x5a" * len(out), True)
    return out.raw


@functools.lru_cache(maxsize=None)
def our_entry(record, refused=0):
    """What the library's catalogue reader sees: number, day, blocks, and the title at its place; all zero and none if it is refused."""
    number, day, blocks, at = ctypes.c_uint32(5), ctypes.c_uint32(5), ctypes.c_uint64(5), ctypes.c_uint64(5)
    called("page_catalogue", record, *map(ctypes.byref, (number, day, blocks, at)), number=refused)
    return number.value, day.value, blocks.value, record[at.value :][:32] if at.value else b""


def our_added(register, number, replaces, wrapped, refused=0):
    """The register that the library makes of this one with an entry more; if it is refused, it must be as it was."""
    lent = ctypes.create_string_buffer(register, len(register))
    called("register_add", lent, ctypes.c_uint16(number), ctypes.c_uint16(replaces), wrapped, number=refused)
    same("what a refusal left", refused == 0 or lent.raw == register, True)
    return lent.raw


@functools.lru_cache(maxsize=None)
def our_found(register, number, refused=0, length=44):
    """What the library's look-up gives: the entry, the rule, and how many were followed; if it is refused, zeros and the entry's bytes as they were."""
    entry, rule, followed = room(length), ctypes.c_uint8(5), ctypes.c_uint64(5)
    entry.raw = b"\x5a" * length
    called("register_find", register, ctypes.c_uint16(number), entry, ctypes.byref(rule), ctypes.byref(followed), number=refused)
    same("what a refusal left", refused == 0 or (entry.raw, rule.value, followed.value) == (b"\x5a" * length, 0, 0), True)
    return entry.raw, rule.value, followed.value


@functools.lru_cache(maxsize=None)
def our_with(row, substitution, n, l, key, start, sealed, tag_key, tag):
    """With these tables as set 3 of a store: the page opened by CTR from q = 0 on, the sealed page's tag, and the answer to this one."""
    store, working, out, made, yes = room(papers.STORE), room(papers.WORKING), room(len(sealed)), room(len(tag)), ctypes.c_uint8(2)
    called("store_fresh", store)
    called("store_load", store, 1, 3, substitution, row)
    called("expand", store, n, l, 3, key, working)
    called("key_ctr", store, working, start, ctypes.c_uint64(0), sealed, out)
    called("expand", store, 1, len(tag_key) // 8, 3, tag_key, working)
    called("key_cmac", store, working, sealed, made)
    called("key_cmac_verify", store, working, sealed, tag, ctypes.byref(yes))
    return out.raw, made.raw, yes.value


@functools.lru_cache(maxsize=None)
def our_answers(tape):
    """What the tape program writes for a tape."""
    done = subprocess.run([PROGRAM], input=tape, capture_output=True, timeout=60)
    same("what the tape program says on standard error", done.stderr, b"")
    return done.stdout


@functools.lru_cache(maxsize=None)
def theirs(n, key):
    return lab.Labyrinth(n, key)


@functools.lru_cache(maxsize=None)
def their(name, n, key, *rest):
    cipher = theirs(n, key)
    if name in ("encrypt_block", "decrypt_block"):
        return getattr(cipher, name)(*rest)
    return getattr(modes, name)(cipher, *rest)


# ---- reading

def check_sum(data):
    return f"{sum(i * b for i, b in enumerate(data, 1)):04X}"


def byte_line(line):
    match = BYTE_LINE.match(line)
    if not match:
        raise Fault(f"no byte line: {line}")
    data = bytes.fromhex(match[2])
    same(f"the check sum of '{line}'", match[3], check_sum(data))
    return match[1], data


def word_line(line):
    """Pairs of a name and its words. The check sum is of the words' bytes as they are printed."""
    match = WORD_LINE.match(line)
    cells = [WORD_CELL.match(cell.strip()) for cell in match[1].split(" | ")] if match else [None]
    if not all(cells):
        raise Fault(f"no words: {line}")
    digits = "".join(cell[2] for cell in cells).replace("0x", "").replace(" ", "")
    same(f"the check sum of '{line}'", match[2], check_sum(bytes.fromhex(digits)))
    return [(cell[1], [int(w, 16) for w in cell[2].split()]) for cell in cells]


def has_words(line):
    return "0x" in line


def strings(lines):
    """Byte lines, lines of one name one after another joined; only the last line of a string may be short."""
    out = []
    for line in lines:
        name, data = byte_line(line)
        if out and out[-1][0] == name:
            same(f"bytes before '{line}'", len(out[-1][1]) % 16, 0)
            out[-1] = (name, out[-1][1] + data)
        else:
            out.append((name, data))
    COUNTED["byte strings"] += len(out)
    return out


def half_blocks(lines, n):
    """Word lines, as pairs of a name and n words."""
    cells = []
    for line in lines:
        for name, words in word_line(line):
            if cells and cells[-1][0] == name and len(cells[-1][1]) < n:
                cells[-1][1].extend(words)
            else:
                cells.append((name, words))
    for name, words in cells:
        same(f"the words of {name}", len(words), n)
    COUNTED["half-blocks"] += len(cells)
    return cells


def records(text):
    return [record.splitlines() for record in text.rstrip("\n").split("\n\n")]


def head(line, *names):
    words = line.split()
    same(f"the names in '{line}'", words[1::2], list(names))
    return [words[0], *(int(w) for w in words[2::2])]


def bytes_and_words(lines, n, front):
    """Lines of which the first `front` are byte lines and the rest word lines."""
    return strings(lines[:front]), half_blocks(lines[front:], n)


# ---- tables and parts

def table_line(line):
    """A line of Table 1: its head and its entries."""
    front, total = line.split(" : ")
    name, *values = front.split()
    values = [int(v, 16) for v in values]
    same(f"the check sum of line {name}", total, check_sum(values))
    return name, values


def table_1(text):
    lines = text.splitlines()
    same("the head of Table 1", lines[0].split(), [*(f"{c:02X}" for c in range(16)), "sum"])
    same("the lines of Table 1", len(lines), 17)
    entries = []
    for row, line in enumerate(lines[1:]):
        name, values = table_line(line)
        same("the head of a line", name, f"{16 * row:02X}")
        entries += values
    same("Table 1", entries, lab.S)
    same("Table 1's bytes", sorted(entries), list(range(256)))


def constants(text):
    lines = dict(line.split(maxsplit=1) for line in text.splitlines())
    numbers = {name: [int(v, 16) for v in lines[name].split()] for name in lines if name not in ("IT", "FT", "rounds")}
    same("the field", numbers.pop("field"), [lab.F_MBN])
    same("the row", numbers.pop("row"), lab.G)
    for t in range(4):
        same(f"xc_{t}", numbers.pop(f"xc_{t}"), [lab.XC[t]])
    (added,), (xored,) = numbers.pop("delta-add"), numbers.pop("delta-xor")
    for w in (0, 1, 0x0123456789ABCDEF, 2**63, 2**64 - added, 2**64 - 1):
        same(f"delta of {w:x}", [(w + added) % 2**64 ^ xored], lab.delta([w]))
    same("other constants", numbers, {})
    it, rounds, ft = lab.working_key_encipher(list(range(8)))
    for name, wanted in (("IT", it), ("rounds", rounds), ("FT", ft)):
        same(name, [int(v) for v in lines[name].split()], list(wanted))


def byte_sources(text):
    found = {1: [], 2: [], 4: []}
    for line in text.splitlines():
        n, place, *taken = map(int, line.split())
        same("the place", place, len(found.get(n, [])))
        found[n] += taken
    for n, taken in found.items():
        same(f"P({n})", taken, lab.half_to_bytes(lab.P(lab.bytes_to_half(list(range(8 * n))))))


def mixed_eight(w):
    for _ in range(8):
        w = lab.cmbn_poly(w)
    same("46 times each byte", lab.word_to_bytes(w), [lab.gf_mul(b, 0x46) for b in lab.word_to_bytes(0x0123456789ABCDEF)])
    return w


def small_values(text):
    by = {
        "S": lambda x: [lab.S[x]],
        "S-inverse": lambda x: [lab.S_INV[x]],
        "product": lambda a, b: [lab.gf_mul(a, b)],
        "mix": lambda w: [lab.cmbn_poly(w)],
        "mix-8": lambda w: [mixed_eight(w)],
        "delta": lambda w: lab.delta([w]),
        "IMix": lambda a, b: [h[0] for h in lab.IMix([a], [b])],
        **{f"SL-{t}": lambda w, t=t: [lab.SL(t, w)] for t in range(4)},
    }
    lines = re.sub(r"\n +=", " =", text).splitlines()
    same("the small values", len(lines), 24)
    for line in lines:
        front, back = line.split(" = ")
        name, *given = front.split()
        if name not in by:
            raise Fault(f"no such part: {line}")
        given, result = [int(v, 16) for v in given], [int(v, 16) for v in back.split()]
        same(line, result, by[name](*given))
        if name == "mix":
            same(f"ours: {line}", [LIBRARY.labyrinth_mix(ctypes.c_uint64(given[0]))], result)


def made(name):
    return make_paper_values.readings_of(getattr(make_paper_values, name))


def wrong_readings(text):
    same("the wrong readings", text.splitlines(), made("wrong_readings"))


def wrong_by(maker):
    """Wrong readings of CTR or of CMAC: each of the seven runs or records has its word, and one at least shows the reading."""
    def check(text):
        lines = text.splitlines()
        same(maker, lines, made(maker))
        for line in lines:
            same(f"what shows it: {line}", (len(line.split()), "differs" in line), (8, True))
    return check


# ---- traces

TRACED = {}


def split(n, data):
    return [lab.bytes_to_half(data[at : at + 8 * n]) for at in range(0, len(data), 8 * n)]


def steps(k, x):
    """F and its four steps."""
    added = lab.vadd(x, k)
    taken = lab.P(added)
    substituted = [lab.bytes_to_word([lab.S[b] for b in lab.word_to_bytes(w)]) for w in taken]
    return [("sum", added), ("permuted", taken), ("substituted", substituted), ("mixed", [lab.cmbn_poly(w) for w in substituted]), ("F", lab.F(k, x))]


def expansion_of(n, l, whole):
    def check(text):
        first, *rest = records(text)
        (name, key), = strings([line for line in first if not has_words(line)])
        same("the key's name and length", (name, len(key)), ("key", 8 * n * l))
        TRACED.setdefault(n, {})["key"] = key
        uk = split(n, key)
        k = lab.expand_key(uk)
        total = functools.reduce(lab.vxor, uk)
        register = lab.vrol(total, 29)
        wanted = [*((f"k_{j}", k[j]) for j in range(l)), ("XOR", total), ("register", register)]
        if not whole:
            wanted += [(f"k_{j}", k[j]) for j in range(l, 8)]
        same("the expansion", half_blocks([line for line in first if has_words(line)], n), wanted)
        same("the steps of the expansion", len(rest), 8 - l if whole else 0)
        for j, lines in enumerate(rest, l):
            register = lab.delta(register)
            same("the step's number", lines[0], f"j {j}")
            wanted = [("register", register), *steps(register, k[j - 1]), (f"k_{j - l}", k[j - l]), (f"k_{j}", k[j])]
            same(f"step {j}", half_blocks(lines[1:], n), wanted)
            same(f"k_{j}", k[j], lab.vxor(wanted[-3][1], k[j - l]))
    return check


def turn(a, b):
    d = lab.vxor(a, b)
    return [("XOR", d), ("sigma", [lab.rol64(d[0], 28), *d[1:]])]


def it_of(n):
    def check(text):
        lines = text.splitlines()
        front = sum(not has_words(line) for line in lines)
        ((name, block),), cells = bytes_and_words(lines, n, front)
        same("the block's name and length", (name, len(block)), ("block", 16 * n))
        TRACED[n]["block"] = block
        right, left = split(n, block)
        k = lab.expand_key(split(n, TRACED[n]["key"]))
        wanted = [("L", left), ("R", right), ("key-L", k[7]), ("key-R", k[4])]
        a, b = lab.vadd(left, k[7]), lab.vadd(right, k[4])
        wanted += [("sum-L", a), ("sum-R", b)]
        a, b = lab.sub_half(lab.S, a), lab.sub_half(lab.S, b)
        wanted += [("subst-L", a), ("subst-R", b)]
        a, b = lab.vrol(a, 2), lab.vror(b, 2)
        c, d = lab.IT((k[7], k[4]), (left, right))
        wanted += [("rotated-L", a), ("rotated-R", b), *turn(a, b), ("L_0", c), ("R_0", d)]
        same("IT", cells, wanted)
    return check


def states(n):
    """The halves after 0 to 16 rounds; and deciphering goes back over them."""
    k = lab.expand_key(split(n, TRACED[n]["key"]))
    wk, back = lab.working_key_encipher(k), lab.working_key_decipher(k)
    right, left = split(n, TRACED[n]["block"])
    out = [lab.IT(wk[0], (left, right))]
    for subkey in wk[1]:
        out.append((out[-1][1], lab.vxor(out[-1][0], lab.F(subkey, out[-1][1]))))
    sealed_left, sealed_right = lab.FT(wk[2], out[16][::-1])
    left, right = lab.IT(back[0], (sealed_left, sealed_right))
    for m in range(17):
        same(f"deciphering after {m} rounds", (left, right), (out[16 - m][1], out[16 - m][0]))
        if m < 16:
            left, right = right, lab.vxor(left, lab.F(back[1][m], right))
    return wk, out


def rounds_of(n, whole):
    def check(text):
        wk, state = states(n)
        numbers = lab.working_key_encipher(list(range(8)))[1]
        found = records(text)
        same("the rounds", len(found), 16)
        for i, lines in enumerate(found):
            same("the round's head", lines[0], f"round {i} k_{numbers[i]}")
            wanted = [(f"L_{i + 1}", state[i + 1][0]), (f"R_{i + 1}", state[i + 1][1])]
            if whole or i == 0:
                wanted = [(f"L_{i}", state[i][0]), (f"R_{i}", state[i][1]), ("subkey", wk[1][i]), *steps(wk[1][i], state[i][1]), *wanted]
            same(f"round {i}", half_blocks(lines[1:], n), wanted)
    return check


def ft_of(n, l):
    def check(text):
        wk, state = states(n)
        lines = text.splitlines()
        front = sum(has_words(line) for line in lines)
        cells, ((name, sealed),) = half_blocks(lines[:front], n), strings(lines[front:])
        same("the name", name, "sealed")
        left, right = state[16][1], state[16][0]
        c, d = lab.IMix(left, right)
        wanted = [("L", left), ("R", right), *turn(left, right), ("mixed-L", c), ("mixed-R", d)]
        c, d = lab.vror(c, 2), lab.vrol(d, 2)
        wanted += [("rotated-L", c), ("rotated-R", d)]
        c, d = lab.sub_half(lab.S_INV, c), lab.sub_half(lab.S_INV, d)
        wanted += [("subst-L", c), ("subst-R", d), ("key-L", wk[2][0]), ("key-R", wk[2][1])]
        c, d = lab.FT(wk[2], (left, right))
        same("FT", cells, [*wanted, ("sealed-L", c), ("sealed-R", d)])
        block_pair(n, l, TRACED[n]["key"], TRACED[n]["block"], sealed)
        COUNTED["traced blocks"] += 1
    return check


# ---- vectors

def block_pair(n, l, key, plain, sealed):
    same("the lengths", (len(key), len(plain), len(sealed)), (8 * n * l, 16 * n, 16 * n))
    same("theirs, sealed", sealed.hex(), their("encrypt_block", n, key, plain).hex())
    same("theirs, opened", plain.hex(), their("decrypt_block", n, key, sealed).hex())
    same("ours, sealed", sealed.hex(), our("encipher", n, l, key, plain).hex())
    same("ours, opened", plain.hex(), our("decipher", n, l, key, sealed).hex())


def parts(lines, *names):
    found = strings(lines)
    same("the names", [name for name, _ in found], list(names))
    return [data for _, data in found]


def blocks_of(counting):
    def check(text):
        sizes = []
        for first, *lines in records(text):
            kind, n, l = head(first, "n", "l")
            same("the kind", kind, "block")
            key, plain, sealed = parts(lines, "key", "plain", "sealed")
            if counting:
                same("counting", (key, plain), (bytes(range(8 * n * l)), bytes(range(16 * n))))
            block_pair(n, l, key, plain, sealed)
            sizes.append((n, l))
        same("the sizes", sizes, SIZES)
        COUNTED["block vectors"] += len(sizes)
    return check


def cbc(text):
    sizes = []
    for first, *lines in records(text):
        kind, n, l = head(first, "n", "l")
        same("the kind", kind, "cbc")
        key, start, plain, sealed = parts(lines, "key", "start", "plain", "sealed")
        same("the lengths", (len(key), len(start), len(plain) % (16 * n), len(sealed)), (8 * n * l, 16 * n, 0, len(plain)))
        same("theirs, sealed", sealed.hex(), their("cbc_encrypt", n, key, start, plain).hex())
        same("theirs, opened", plain.hex(), their("cbc_decrypt", n, key, start, sealed).hex())
        same("the page's text", make_paper_values.TEXT.rstrip().startswith(plain.decode("ascii")), True)
        same("ours, sealed", sealed.hex(), our("cbc_seal", n, l, key, start, plain).hex())
        same("ours, opened", plain.hex(), our("cbc_open", n, l, key, start, sealed).hex())
        same("more than one block", len(plain) > 16 * n, True)
        sizes.append(n)
    same("the sizes", sizes, [1, 2, 4])
    COUNTED["CBC runs"] += len(sizes)


def ctr(text):
    """Each page has a last block that is short."""
    runs = ctr_runs(text)
    same("the sizes", [n for n, *_ in runs], [1, 2, 4])
    same("short last blocks", [length % (16 * n) > 0 and length > 16 * n for n, _, length, *_ in runs], [True] * 3)


def ctr_carry(text):
    """q = 0 and whole blocks; then carries past 128, 256 and all 512 bits; pages shorter than a block."""
    runs = ctr_runs(text)
    same("the sizes", [n for n, *_ in runs], [1, 2, 4, 4])
    (n, q, length, start, last), *rest = runs
    same("q = 0, whole blocks", (q, length % (16 * n), length > 16 * n), (0, 0, True))
    for (n, _, _, start, last), bits in zip(rest, (128, 256, 512)):
        at = 16 * n - bits // 8
        same(f"a carry past {bits} bits", start[:at] != last[:at] or at == 0, True)
        same("the bits below it", (start[at] == 255, any(last[at:])), (True, False))
    same("shorter than a block", [length < 16 * n for n, _, length, *_ in rest], [False, True, True])


def ctr_runs(text):
    """n, q, length, start block and last counter block of each run."""
    runs = []
    for first, *lines in records(text):
        kind, n, l, q = head(first, "n", "l", "q")
        same("the kind", kind, "ctr")
        found = strings(lines)
        (_, key), (_, start), (_, plain), *counters, (_, sealed) = found
        count = -(-len(plain) // (16 * n))
        same("the names", [name for name, _ in found], ["key", "start", "plain", *(f"count-{i}" for i in range(count)), "sealed"])
        same("the lengths", (len(key), len(start), len(sealed)), (8 * n * l, 16 * n, len(plain)))
        if not 0 <= q < 2**64:
            raise Fault(f"q is {q}")
        stream = b"".join(their("encrypt_block", n, key, counter) for _, counter in counters)
        same("the counters' key stream", bytes(a ^ b for a, b in zip(plain, stream)).hex(), sealed.hex())
        same("theirs, sealed", sealed.hex(), their("ctr_crypt", n, key, start, q, plain).hex())
        same("theirs, opened", plain.hex(), their("ctr_crypt", n, key, start, q, sealed).hex())
        same("the page's text", make_paper_values.TEXT.rstrip().startswith(plain.decode("ascii")), True)
        same("ours, sealed", sealed.hex(), our("ctr", n, l, key, start, plain, q=q).hex())
        same("ours, opened", plain.hex(), our("ctr", n, l, key, start, sealed, q=q).hex())
        runs.append((n, q, len(plain), start, counters[-1][1]))
    COUNTED["CTR runs"] += len(runs)
    return runs


def flipped(data):
    """The string with each of its bits altered in turn."""
    for at in range(8 * len(data)):
        yield data[: at // 8] + bytes([data[at // 8] ^ 1 << at % 8]) + data[at // 8 + 1 :]


def tagged(l, key, message, tag):
    """A tag by both programs; ours says yes to it, and no where a bit of the tag or of the message is altered."""
    same("the lengths", (len(key), papers.tag(1, len(tag))), (8 * l, 0))
    same("theirs", tag.hex(), their("cmac", 1, key, message, len(tag)).hex())
    same("ours", tag.hex(), our_tag(l, key, message, len(tag)).hex())
    same("ours, verified", our_answer(l, key, message, tag), 1)
    others = [*((message, other) for other in flipped(tag)), *((other, tag) for other in flipped(message))]
    same("ours, verified, a bit altered", {our_answer(l, key, *other) for other in others}, {0})
    COUNTED["tags"] += 1
    COUNTED["flipped bits of tags and messages"] += len(others)


def cmac(text):
    """Each l, whole and short last parts, the empty message; the highest bits of L and K1 in all ways where they matter."""
    runs = []
    for first, *lines in records(text):
        kind, l, length, tag_length = head(first, "l", "message", "tag")
        same("the kind", kind, "cmac")
        key, *found = parts(lines, "key", "L", "K1", "K2", *["message"] * (length > 0), "last", "chain", "whole", "tag")
        if length == 0:
            found.insert(3, b"")
        zero, one, two, message, last, chain, whole, tag = found
        same("the lengths", (len(message), len(whole), len(tag)), (length, 16, tag_length))
        same("the message's text", make_paper_values.TEXT.rstrip().startswith(message.decode("ascii")), True)
        same("L", zero, their("encrypt_block", 1, key, bytes(16)))
        for name, source, double in (("K1", zero, one), ("K2", one, two)):
            number = 2 * int.from_bytes(source, "big")
            same(name, double, (number if number < 2**128 else number - 2**128 ^ 0x87).to_bytes(16, "big"))
            same(f"theirs, {name}", double, modes._dbl(source))
        end = message[(length - 1) // 16 * 16 :] if message else b""
        same("the last part", last, modes.xor(end, one) if len(end) == 16 else modes.xor(end + b"\x80" + bytes(15 - len(end)), two))
        same("the chain", chain, (bytes(16) + their("cbc_encrypt", 1, key, bytes(16), message[: length - len(end)]))[-16:])
        same("the whole", whole, their("encrypt_block", 1, key, modes.xor(chain, last)))
        for count in papers.TAG_LENGTHS:
            same(f"theirs, {count} bytes", whole[:count], their("cmac", 1, key, message, count))
            same(f"ours, {count} bytes", (whole[:count], 1), (our_tag(l, key, message, count), our_answer(l, key, message, whole[:count])))
        tagged(l, key, message, tag)
        runs.append((l, length, tag_length, zero[0] >> 7, one[0] >> 7))
    same("the messages", [length for _, length, *_ in runs], [0, 1, 15, 16, 17, 32, 40])
    same("each l", {l for l, *_ in runs}, {2, 3, 4})
    same("tags of 8, of 16 and of other lengths", {8, 16} < {tag for _, _, tag, *_ in runs}, True)
    same("the highest bits where K1 is used", {zero for _, length, _, zero, _ in runs if length in (16, 32)}, {0, 1})
    both = {(zero, one) for _, length, _, zero, one in runs if length not in (16, 32)}
    same("the highest bits where K2 is used", both, {(0, 0), (0, 1), (1, 0), (1, 1)})


@functools.lru_cache(maxsize=None)
def wrapped_key(l, master, key, wrapped):
    """A wrapped key by both programs, both ways; with any bit altered ours refuses it. How many bits."""
    same("the lengths", (len(master), papers.wrapping(1, len(key), len(wrapped))), (8 * l, 0))
    same("theirs, wrapped", wrapped.hex(), their("kw_wrap", 1, master, key).hex())
    same("theirs, unwrapped", key, their("kw_unwrap", 1, master, wrapped))
    same("ours, wrapped", wrapped.hex(), our_wrap("key_wrap", l, master, key).hex())
    same("ours, unwrapped", key.hex(), our_wrap("key_unwrap", l, master, wrapped).hex())
    others = list(flipped(wrapped))
    for other in others:
        our_wrap("key_unwrap", l, master, other, number=18)
    return len(others)


def kw_record(lines, *names):
    """What a record of a wrapped key has, the lengths being those of its head line."""
    first, *rest = lines
    kind, l, length = head(first, "l", "key")
    master, key, *found = parts(rest, "master", "key", *names)
    same("the kind and the lengths", (kind, len(master), len(key)), ("kw", 8 * l, length))
    return l, master, key, *found


def kw(text):
    """A key of each length that keys have; each l."""
    made = [kw_record(lines, "wrapped") for lines in records(text)]
    for one in made:
        COUNTED["flipped bits of wrapped keys"] += wrapped_key(*one)
    same("the lengths of keys", [len(key) for _, _, key, _ in made], sorted({8 * n * l for n, l in SIZES}))
    same("each l", {l for l, *_ in made}, {2, 3, 4})
    same("the one that is traced", TRACED["wrap"], {"wrapped": made[1]})
    COUNTED["wrapped keys"] += len(made)
    TRACED["kw"] = {at: one for at, one in enumerate(made)}


def wrap_trace(text):
    """The first six steps one by one, and the last; unwrapping has the same."""
    front, *steps = records(text)
    l, master, key = kw_record(front)
    m = len(key) // 8
    numbers = [*range(make_paper_values.KW_STEPS + 1), 6 * m]
    same("the steps", [first for first, *_ in steps], [f"step {t}" for t in numbers])
    rest = ["A", *(f"R_{i}" for i in range(1, m + 1))]
    before = None
    for t, (_, *lines) in zip(numbers, steps):
        if t in (0, 6 * m):
            a, *r = parts(lines, *rest)
        else:
            given, block, a, *r = parts(lines, "given", "B", *rest)
            same(f"what E is given at {t}", given, before[0] + before[1])
            same(f"E and U at {t}", (block, given), (their("encrypt_block", 1, master, given), their("decrypt_block", 1, master, block)))
            same(f"A after {t}", a, block[:7] + bytes([block[7] ^ t]))
            same(f"the R_i after {t}", r, [*before[2:], block[8:]])
        if t == 0:
            same("what wrapping starts from", (a, b"".join(r)), (bytes.fromhex("A6") * 8, key))
        before = [a, *r]
    wrapped = b"".join(before)
    wrapped_key(l, master, key, wrapped)
    TRACED["wrap"] = {"wrapped": (l, master, key, wrapped)}


def kw_refused(text):
    """Both programs refuse each, with the number that the head line tells; and the strings are what the text before them says."""
    told = []
    for first, *lines in records(text):
        kind, l, length, number = head(first, "l", "bytes", "number")
        master, string = parts(lines, "master", "string")
        same("the kind and the lengths", (kind, len(master), len(string)), ("refused", 8 * l, length))
        right = papers.unwrapping(1, length, max(length - 8, 0), right=lambda: their("kw_unwrap", 1, master, string) is not None)
        same("the number", number, right)
        our_wrap("key_unwrap", l, master, string, number=number)
        told.append((master, string))
    (l, one, key, wrapped), (_, two, _, other), (_, three, *_) = (TRACED["kw"][at] for at in range(3))
    flip = lambda data, at, bit: data[:at] + bytes([data[at] ^ bit]) + data[at + 1 :]
    padded = told[4][1]
    same("the strings", told, [
        (one, flip(wrapped, 0, 0x80)), (one, flip(wrapped, 23, 0x01)), (two, flip(other, 13, 0x10)), (two, other[8:] + other[:8]), (one, padded), (three, wrapped),
        (one, wrapped[:-8]), (one, wrapped[:-1]), (one, wrapped + bytes(1)),
    ])
    kept, modes.ICV1 = modes.ICV1, bytes.fromhex("A65959A600000010")
    try:
        same("with the check value of KWP", modes.kw_unwrap(theirs(1, one), padded), key)
    finally:
        modes.ICV1 = kept
    COUNTED["refused strings"] += len(told)


def card_wrapped(text):
    """The card's key, wrapped, and the master key."""
    said = {}
    for line in text.splitlines():
        name, value = line.split(maxsplit=1)
        said[name] = said.get(name, "") + value
    same("what the cards say", list(said), ["wrapped", "master-l", "master-key"])
    wrapped_key(int(said["master-l"]), bytes.fromhex(said["master-key"]), make_paper_values.card_run()[2], bytes.fromhex(said["wrapped"]))
    COUNTED["wrapped keys"] += 1


def wrong_wraps(text):
    same("the wrong readings of KW", text.splitlines(), made("wrong_wraps"))


@functools.lru_cache(maxsize=None)
def page_record(sealing, tagging, number, day, title, start, body, record):
    """A record by both programs, written, listed and opened; with any bit altered ours refuses to open it. How many bits."""
    same("the lengths", (len(title), len(start), len(body) % 16, len(record)), (32, 16, 0, papers.record_length(len(body) // 16)))
    sealed = their("cbc_encrypt", 1, sealing, start, body)
    same("theirs, opened", body, their("cbc_decrypt", 1, sealing, start, sealed))
    four = lambda value: value.to_bytes(4, "little")
    front = b"\x10" + four(number) + b"\x11" + four(day) + b"\x12" + title + b"\x13" + start
    front += b"".join(b"\x15" + sealed[at : at + 16] for at in range(0, len(sealed), 16))
    same("theirs, laid out", record.hex(), (front + b"\x1f" + their("cmac", 1, tagging, front)).hex())
    same("ours, written", record.hex(), our_record(sealing, tagging, number, day, title, start, body).hex())
    same("ours, listed", our_entry(record), (number, day, len(body) // 16, title))
    same("ours, opened", our_body(sealing, tagging, record), body)
    commands = {0, 5, 10, 43, *range(60, len(record), 17)}
    others = list(flipped(record))
    for bit, other in enumerate(others):
        refused = 19 if bit // 8 in commands else 20
        our_body(sealing, tagging, other, number=refused)
        same("ours, listed, a bit altered", our_entry(other, refused % 20) == (0, 0, 0, b""), refused == 19)
    return len(others)


def page_trace(text):
    """The record, each of its parts, the tag's steps, and each block opened."""
    (first, *lines), *rest = records(text)
    _, blocks, length = head(first, "blocks", "bytes")
    sealing, tagging, record = parts(lines, "sealing", "tagging", "record")
    same("the lengths", (len(record), length), (papers.record_length(blocks), len(record)))
    shown, (tag_head, *tag_lines), opened = rest[: 5 + blocks], rest[5 + blocks], rest[6 + blocks :]
    at, operands = 0, []
    names = ["number", "day", "title", "start", *(f"block {i}" for i in range(blocks)), "tag"]
    for (first, *lines), name, (byte, width) in zip(shown, names, (*papers.PAGE_HEAD, *[papers.PAGE_BLOCK] * blocks, papers.PAGE_TAG), strict=True):
        command_byte, operand = parts(lines, "command", "operand")
        number = f" {int.from_bytes(operand, 'little')}" if width == 4 else ""
        same("where a part stands", first, f"byte {at} {name}{number}")
        same(f"the part at {at}", (command_byte, len(operand), command_byte + operand), (bytes([byte]), width, record[at : at + 1 + width]))
        operands.append(operand)
        at += 1 + width
    same("the parts are all", at, length)
    number, day = (int.from_bytes(operand, "little") for operand in operands[:2])
    title, start, *sealed, tag = operands[2:]
    # the tag's steps
    message = record[: length - 17]
    same("what is tagged", tag_head, f"tag bytes {len(message)}")
    zero, one, two, last, chain, whole = parts(tag_lines, "L", "K1", "K2", "last", "chain", "whole")
    same("L, K1, K2", (zero, one, two), (their("encrypt_block", 1, tagging, bytes(16)), modes._dbl(zero), modes._dbl(one)))
    end = message[(len(message) - 1) // 16 * 16 :]
    same("the last part, which is short", (len(end) < 16, last), (True, modes.xor(end + b"\x80" + bytes(15 - len(end)), two)))
    same("the chain", chain, their("cbc_encrypt", 1, tagging, bytes(16), message[: len(message) - len(end)])[-16:])
    same("the whole, and the tag", (whole, tag), (their("encrypt_block", 1, tagging, modes.xor(chain, last)), whole))
    # the blocks
    body, before = b"", start
    for (first, *lines), i, block in zip(opened, range(blocks), sealed, strict=True):
        given, unsealed, mask, plain = parts(lines, "sealed", "U", "before", "body")
        same(f"block {i}", (first, given, mask), (f"open {i}", block, before))
        same(f"U and XOR of block {i}", (unsealed, plain), (their("decrypt_block", 1, sealing, block), modes.xor(unsealed, before)))
        body, before = body + plain, block
    COUNTED["flipped bits of records"] += page_record(sealing, tagging, number, day, title, start, body, record)
    same("the texts", (title, body), (make_paper_values.PAGE_TITLE, make_paper_values.PAGE_BODY))
    TRACED["page"] = {"given": (sealing, tagging, number, day, title, start, body, record)}
    COUNTED["page records"] += 1


def pages(text):
    """Records of no block, of one and of three; each l of both keys; a byte 15 inside a sealed block."""
    made = []
    for first, *lines in records(text):
        kind, l, tag_l, blocks, number, day = head(first, "l", "tag-l", "blocks", "number", "day")
        sealing, tagging, title, start, *rest, record = parts(lines, "sealing", "tagging", "title", "start", *["body"] * (blocks > 0), "record")
        body = b"".join(rest)
        same("the kind and the lengths", (kind, len(sealing), len(tagging), len(body)), ("page", 8 * l, 8 * tag_l, 16 * blocks))
        COUNTED["flipped bits of records"] += page_record(sealing, tagging, number, day, title, start, body, record)
        made.append((l, tag_l, blocks, number, day, record))
    same("blocks", [blocks for _, _, blocks, *_ in made], [0, 1, 3])
    same("each l", [{one[at] for one in made} for at in (0, 1)], [{2, 3, 4}, {2, 3, 4}])
    same("the least and the largest numbers", {0, 2**32 - 1} < {one[3] for one in made} and {0, 2**32 - 1} < {one[4] for one in made}, True)
    same("a byte 15 within the first sealed block", [0x15 in one[-1][61:77] for one in made[1:]], [True, True])
    TRACED["page 3"] = {"tagging": tagging}
    COUNTED["page records"] += len(made)


def pages_refused(text):
    """Both readers' numbers, and the strings are what the text before them says."""
    told = []
    for first, *lines in records(text):
        kind, length, number = head(first, "bytes", "number")
        sealing, tagging, record = parts(lines, "sealing", "tagging", "record")
        same("the kind and the length", (kind, len(record)), ("refused", length))
        our_body(sealing, tagging, record, number=number)
        our_entry(record, number % 20)
        if number == 20:
            same("theirs: another tag", their("cmac", 1, tagging, record[:-17]) == record[-16:], False)
        told.append((sealing, tagging, record))
    sealing, tagging, *_, whole = TRACED["page"]["given"]
    flip = lambda at, bit: whole[:at] + bytes([whole[at] ^ bit]) + whole[at + 1 :]
    same("the strings", told, [
        *((sealing, tagging, one) for one in (
            flip(1, 0x01), flip(42, 0x20), flip(61, 0x80), flip(110, 0x01), whole[:60] + whole[77:94] + whole[60:77] + whole[94:], whole[:77] + whole[94:],
        )),
        (sealing, TRACED["page 3"]["tagging"], whole), (sealing, tagging, flip(77, 0x0A)), (sealing, tagging, whole[:-1]), (sealing, tagging, whole + bytes(1)),
    ])
    COUNTED["refused strings"] += len(told)


def wrong_pages(text):
    same("the wrong readings of page records", text.splitlines(), made("wrong_pages"))


# ---- key registers

def looked_up(register, number):
    """The layout read entry by entry, once: the places of the number's own entry and of the one at the end, the rule, and how many were followed; None if
    it is absent."""
    count, *fields = struct.unpack("<Q" + 64 * "HH40x", register)
    own = end = None
    followed = 0
    for place, (has, replaces) in enumerate(zip(fields[::2], fields[1::2])):
        if place == count:
            break
        if own is None and has == number != 0:
            own, reached = place, has
            end = own
        elif own is not None and replaces == reached != 0:
            end, reached, followed = place, has, followed + 1
    return None if own is None else (own, end, int(followed > 0), followed)


def found_by_both(register, number):
    """The answer by the layout; the library must give the entry at the end with the same rule and count, or refuse the number."""
    answer = looked_up(register, number)
    if answer is None:
        our_found(register, number, refused=22)
    else:
        _, end, *rest = answer
        same(f"ours, {number}", our_found(register, number), (register[8 + 44 * end : 52 + 44 * end], *rest))
    return answer


def look_ups(lines, register, numbers):
    """Lines of numbers looked up; these numbers must be asked for, each that the register's entries have once, then two that are absent."""
    for line, number in zip(lines, make_paper_values.asked(numbers), strict=True):
        answer = found_by_both(register, number)
        says = "refused 22" if answer is None else "own {} end {} rule {} followed {}".format(*answer)
        same("a look-up", " ".join(line.split()), f"number {number} {says}")
        COUNTED["look-ups"] += 1


def key_register(text):
    """The register's bytes, each entry's key by both programs, and the register as the library makes it."""
    (first, *lines), *entries = records(text)
    _, count, length = head(first, "count", "bytes")
    master, front = parts(lines, "master", "count")
    same("the count and the lengths", (int.from_bytes(front, "little"), len(front), count, length), (len(entries), 8, len(entries), make_paper_values.REGISTER))
    register, made, numbers, keys = front, bytes(length), [], {}
    for place, (first, *lines) in enumerate(entries):
        entry, key = parts(lines, "entry", "key")
        number, replaces = (int.from_bytes(entry[at : at + 2], "little") for at in (0, 2))
        same("where an entry stands", first, f"entry {place} byte {len(register)} number {number} replaces {replaces}")
        same("its length and its key's", (len(entry), len(key)), (44, 32))
        COUNTED["flipped bits of wrapped keys"] += wrapped_key(len(master) // 8, master, key, entry[4:])
        register, made = register + entry, our_added(made, number, replaces, entry[4:])
        numbers.append((number, replaces))
        keys[place] = key
    register = register.ljust(length, b"\0")
    same("ours, made", register.hex(), made.hex())
    same("numbers whose bytes, exchanged, are another's, and the largest", {258, 513, 65535} < {number for number, _ in numbers}, True)
    COUNTED["wrapped keys"] += len(entries)
    COUNTED["key registers"] += 1
    TRACED["register"] = {"bytes": register, "numbers": numbers, "keys": keys}


def register_look_ups(text):
    look_ups(text.splitlines(), TRACED["register"]["bytes"], TRACED["register"]["numbers"])


def registers_by_hand(text):
    """Their numbers are what the text before them says; the library would not have made them."""
    read = []
    for first, *lines in records(text):
        entries = {}
        while lines and lines[0].startswith("entry "):
            place, number, replaces = head("the " + lines.pop(0), "entry", "number", "replaces")[1:]
            same("a place", place in range(make_paper_values.PLACES), True)
            entries[place] = number, replaces
        (count,) = head("the " + first, "count")[1:]
        register = bytearray(count.to_bytes(8, "little").ljust(make_paper_values.REGISTER, b"\0"))
        for place, numbers in entries.items():
            struct.pack_into("<HH", register, 8 + 44 * place, *numbers)
        look_ups(lines, bytes(register), entries.values())
        read.append((count, entries))
        COUNTED["key registers"] += 1
    same("the registers", tuple(read), make_paper_values.BY_HAND)


def card_register(text):
    """The card that names its key by a number: its page opens with the key of the number itself, and is noise with the one at the end of the replacements."""
    front, back = records(text)
    said = {}
    for line in front + back:
        name, value = line.split(maxsplit=1)
        said[name] = said.get(name, "") + value
    same("what the card says", list(said), ["n", "l", "key-number", "mode", "start", "q", "length", "sealed"])
    n, l, number, q, length = (int(said[name]) for name in ("n", "l", "key-number", "q", "length"))
    start, sealed = (bytes.fromhex(said[name]) for name in ("start", "sealed"))
    own, end, rule, _ = looked_up(TRACED["register"]["bytes"], number) or (None, None, 0, 0)
    keys = TRACED["register"]["keys"]
    same("the mode, the lengths, and a number that was replaced", (said["mode"], len(keys[own]), len(start), len(sealed), rule), ("CTR", 8 * n * l, 16 * n, length, 1))
    plain = make_paper_values.TEXT[:length].encode("ascii")
    for opened in (lambda key: their("ctr_crypt", n, key, start, q, sealed), lambda key: our("ctr", n, l, key, start, sealed, q=q)):
        same("opened with the number's own key", opened(keys[own]), plain)
        same("noise with the key at the end", sum(a == b for a, b in zip(opened(keys[end]), plain)) < 5, True)


def wrong_registers(text):
    same("the wrong readings of key registers", text.splitlines(), made("wrong_registers"))


def card(text):
    """The card, and that its page opens to the sentence in the text."""
    front, back = records(text)
    said = dict(line.split(maxsplit=1) for line in front)
    same("what the card says", list(said), ["n", "l", "key", "mode", "start", "q", "length"])
    n, l, q, length = (int(said[name]) for name in ("n", "l", "q", "length"))
    key, start = bytes.fromhex(said["key"]), bytes.fromhex(said["start"])
    same("the names", {line.split()[0] for line in back}, {"sealed"})
    sealed = bytes.fromhex("".join(line.split(maxsplit=1)[1] for line in back))
    same("the mode and the lengths", (said["mode"], len(key), len(start), len(sealed)), ("CTR", 8 * n * l, 16 * n, length))
    plain = make_paper_values.TEXT[:length].encode("ascii")
    same("a sentence", plain.index(b".") + 1, length)
    same("theirs, opened", their("ctr_crypt", n, key, start, q, sealed), plain)
    same("ours, opened", our("ctr", n, l, key, start, sealed, q=q), plain)
    TRACED["card"] = {"sealed": sealed}


def card_tag(text):
    """What the card's tag adds to the card."""
    said = dict(line.split(maxsplit=1) for line in text.splitlines())
    same("what the card says", list(said), ["tag", "tag-length", "tag-l", "tag-key", "tagged"])
    tag = bytes.fromhex(said["tag"])
    same("the tag's length and the tagged bytes", (said["tag-length"], said["tagged"]), (str(len(tag)), "the sealed page"))
    tagged(int(said["tag-l"]), bytes.fromhex(said["tag-key"]), TRACED["card"]["sealed"], tag)


def card_tables(text):
    """What tables of an archive's own add to the card: its page opens with them, and is noise with the published ones."""
    said = {}
    for line in text.splitlines():
        name, value = line.split(maxsplit=1)
        said[name] = said.get(name, b"") + bytes.fromhex(value)
    same("what the card says", list(said), ["row", "subst", "sealed", "tag"])
    row, substitution, sealed, tag = said.values()
    same("256 different bytes, not Table 1", (sorted(substitution), list(substitution) == lab.S), ([*range(256)], False))
    same("eight coefficients that don't XOR to zero, not the published ones", (len(row), functools.reduce(int.__xor__, row) > 0, list(row) == lab.G), (8, True, False))
    n, l, key, start, other = make_paper_values.card_run()
    plain = make_paper_values.TEXT[: len(other)].encode("ascii")
    opened = lambda: modes.ctr_crypt(lab.Labyrinth(n, key), start, 0, sealed)
    with archivists_sets.with_set(substitution, row):
        same("theirs, opened with these tables", opened(), plain)
        same("their tag with these tables", modes.cmac(lab.Labyrinth(1, make_paper_values.CARD_TAG_KEY), sealed, len(tag)), tag)
        same("mixed 1", lab.word_to_bytes(lab.cmbn_poly(1)), [*row])
        eight = 0x0123456789ABCDEF
        for _ in range(8):
            eight = lab.cmbn_poly(eight)
    power = functools.reduce(int.__xor__, row)
    for _ in range(3):
        power = lab.gf_mul(power, power)
    same("mixed eight times", lab.word_to_bytes(eight), [lab.gf_mul(b, power) for b in lab.word_to_bytes(0x0123456789ABCDEF)])
    page, given, yes = our_with(row, substitution, n, l, key, start, sealed, make_paper_values.CARD_TAG_KEY, tag)
    same("ours, opened with these tables, its tag and the answer to it", (page, given, yes), (plain, tag, 1))
    same("the tag's length, and another tag with the published tables", (len(tag), our_tag(len(make_paper_values.CARD_TAG_KEY) // 8, make_paper_values.CARD_TAG_KEY, sealed, len(tag)) != tag), (make_paper_values.CARD_TAG_LENGTH, True))
    noise = (opened(), our("ctr", n, l, key, start, sealed, q=0))
    same("noise with the published tables, by theirs and ours", (noise[0] == noise[1], sum(a == b for a, b in zip(noise[0], plain)) < 5), (True, True))


# ---- tapes

MIX, END, WRONG = command(0x05, bytes(range(8))), papers.END, b"\x01" * 128


def fronts(tape, answers):
    """Every proper front of a tape: it gets the answers to the whole commands in it, and one 08."""
    ends = [WIDTH.get(tape[0], 1)]
    while ends[-1] < len(tape):
        ends.append(ends[-1] + WIDTH.get(tape[ends[-1]], 1))
    for length in range(len(tape)):
        yield tape[:length], b"".join(answers[: sum(end <= length for end in ends)]) + b"\x08"


def ruled():
    """Tapes for what the shown ones do not meet: each refusal, which of two comes first, the key that stays, what is not read, the longest."""
    for wrong in (0, 3, 5, 255):
        yield from (set_key(wrong, 2) + MIX + END, set_key(wrong, wrong, WRONG) + END)
    for wrong in (0, 1, 5, 255):
        yield from (set_key(1, wrong) + MIX + END, set_key(4, wrong, WRONG) + END)
    for n, l in SIZES:
        good = set_key(n, l, bytes(range(8 * n * l)))
        blocks = command(0x03, bytes(range(16 * n))) + command(0x04, bytes(range(16 * n)))
        yield good + blocks + END
        for refused in (set_key(3, 2), set_key(1, 5), set_key(1, 2, WRONG)):
            yield good + refused + blocks + END
        for place in {8 * n * l, 127} if 8 * n * l < 128 else ():
            yield set_key(n, l, bytes(place) + b"\x80") + MIX + END
        for place in {16 * n, 63} if n < 4 else ():
            yield good + command(0x03, bytes(place) + b"\x80") + command(0x04, bytes(place) + b"\x01") + blocks + END
    for byte in (0x03, 0x04):
        yield command(byte, WRONG[:64]) + set_key(1, 5) + command(byte) + MIX + END
    for byte in (0x02, 0x06, 0x08, 0x80, 0xFF):
        yield MIX + bytes([byte]) + MIX + END
    for more in (END, MIX, EXAMPLE, b"\x08"):
        yield from (MIX + END + more, EXAMPLE + more)
    stops = command(0x03) * 8 + MIX * 7224  # at a command's end, and has 65,536 bytes
    for length in (LONGEST, LONGEST + 1):
        yield from ((MIX + END).ljust(length, b"\x05"), (MIX * length)[:length], stops.ljust(length, END))


COMMAND_LINES = [
    "command n-and-l key zeros answer".split(),
    "command block zeros answer sealed".split(),
    "command word answer mixed".split(),
    ["command"],
]


def tape(text):
    """The shown tape, command by command and whole; its fronts; the tape in the text and its fronts; the tapes for the other rules."""
    *records_of_commands, whole, short = records(text)
    shown, answers, found = b"", [], {}
    for lines in records_of_commands:
        read = []
        for line in lines:
            zeros = re.fullmatch(r"zeros   (\d+)", line)
            read += [("zeros", bytes(int(zeros[1])))] if zeros else strings([line])
        at = [*(name for name, _ in read), "answer"].index("answer")
        shown += b"".join(data for _, data in read[:at])
        answers.append(b"".join(data for _, data in read[at:]))
        same("the names", [name for name, _ in read], COMMAND_LINES[len(answers) - 1])
        found.update(read)
    same("the commands", len(answers), len(COMMAND_LINES))
    same("the key and the block of section 9", (found["key"], found["block"]), (TRACED[1]["key"], TRACED[1]["block"]))
    same("by the rules, one after another", papers.answers(shown), answers[:-1])
    same("the last number and the last byte", (answers[-2][0], answers[-2][-1]), (0, 0x08))
    wanted = [(shown, b"".join(answers)), (shown[:-1], b"".join(answers) + b"\x08")]
    for (first, *lines), (one, all_answers) in zip((whole, short), wanted):
        same("the lengths", head(f"the {first}", "tape", "answers")[1:], [len(one), len(all_answers)])
        same("the answers", parts(lines, "answers"), [all_answers])
    wanted += [(b"", b"\x08"), *fronts(shown, answers), *fronts(EXAMPLE, papers.answers(EXAMPLE))]
    for one, all_answers in wanted:
        same(f"by the rules, {len(one)} bytes", b"".join(papers.answers(one)).hex(), all_answers.hex())
    tried = {one for one, _ in wanted} | {EXAMPLE, *ruled()}
    for one in sorted(tried):
        same(f"ours, {len(one)} bytes", our_answers(one).hex(), b"".join(papers.answers(one)).hex())
    same("the numbers met", {answer[0] for one in tried for answer in papers.answers(one)}, set(papers.ANSWERED))
    COUNTED["tapes"] += len(tried)


# in the order in which they are checked: a trace's later blocks know the key and the block of its first ones, the card's tag its sealed page
CHECKS = {
    "table-1": table_1,
    "constants": constants,
    "byte-sources": byte_sources,
    "small-values": small_values,
    **{
        name: check
        for n, l in ((1, 2), (2, 3), (4, 4))
        for name, check in (
            (f"trace-{n}-expansion", expansion_of(n, l, n == 1)),
            (f"trace-{n}-it", it_of(n)),
            (f"trace-{n}-rounds", rounds_of(n, n == 1)),
            (f"trace-{n}-ft", ft_of(n, l)),
        )
    },
    "vectors-counting": blocks_of(True),
    "vectors-mixed": blocks_of(False),
    "vectors-cbc": cbc,
    "vectors-ctr": ctr,
    "vectors-ctr-carry": ctr_carry,
    "vectors-cmac": cmac,
    "trace-wrap": wrap_trace,
    "vectors-kw": kw,
    "vectors-kw-refused": kw_refused,
    "trace-page": page_trace,
    "vectors-page": pages,
    "vectors-page-refused": pages_refused,
    "key-register": key_register,
    "key-register-look-ups": register_look_ups,
    "key-register-by-hand": registers_by_hand,
    "card": card,
    "card-tag": card_tag,
    "card-wrapped": card_wrapped,
    "card-register": card_register,
    "card-tables": card_tables,
    "tape": tape,
    "wrong-readings": wrong_readings,
    "wrong-readings-ctr": wrong_by("wrong_counters"),
    "wrong-readings-cmac": wrong_by("wrong_tags"),
    "wrong-readings-kw": wrong_wraps,
    "wrong-readings-page": wrong_pages,
    "wrong-readings-register": wrong_registers,
}


# ---- what the text says outside the blocks

def polynomial(number):
    powers = [k for k in range(number.bit_length() - 1, -1, -1) if number >> k & 1]
    return " + ".join({0: "1", 1: "x"}.get(k, f"x^{k}") for k in powers)


def sentences():
    """Sentences of the paper that carry values, made from the archivists' values."""
    it, rounds, ft = lab.working_key_encipher(list(range(8)))
    for name, (a, b), keys, (c, d) in (
        ("enciphering, E", it, rounds, ft),
        ("deciphering, U", *lab.working_key_decipher(list(range(8)))),
    ):
        yield f"| {name} | high k_{a}, low k_{b} | {' '.join(f'k_{j}' for j in keys)} | high k_{c}, low k_{d} |"
    yield "With g_0 to g_7 = `" + " ".join(f"{g:02X}" for g in lab.G) + "`, byte i"
    yield "g(x) = " + " + ".join(f"`{lab.G[i]:02X}`" + ("", " x", f" x^{i}")[min(i, 2)] for i in range(7, -1, -1)) + ","
    yield f"the polynomial {polynomial(lab.F_MBN)}, written 0x{lab.F_MBN:X}"
    yield "all bytes " + ", ".join(f"`{lab.XC[t] & 255:02X}` for t = {t}" for t in range(4))
    yield f"add 0x{make_paper_values.ADDED:016X} modulo 2^64, then XOR 0x{make_paper_values.XORED:016X}"
    yield f"S(`53`) stands in line `50`, column `03`, and is `{lab.S[0x53]:02X}`"
    yield "each byte multiplied by `46`"
    yield "mixing eight times multiplies every byte by `46`"
    yield f"the bytes `{' '.join(f'{i:02X}' for i in range(8))}` are the word 0x{lab.bytes_to_word(list(range(8))):016X}"
    yield f"the line `01 02 03` has the check sum 1 + 4 + 9 = 14, written `{check_sum((1, 2, 3))}`"
    counting = make_paper_values.word(int.from_bytes(bytes(range(1, 9)), "big"))
    total = sum(i * i for i in range(1, 9))
    yield f"a line with the one word {counting} has 1 + 4 + 9 + 16 + 25 + 36 + 49 + 64 = {total}, written `{total:04X}`"
    by = functools.reduce(int.__xor__, lab.G)
    eighth = functools.reduce(lambda power, _: lab.gf_mul(power, power), range(3), by)
    yield f"with the published row the XOR is `{by:02X}` and its eighth power `{eighth:02X}`"
    yield "\n\n1. The sum of the products is rotated"
    yield f"\n{len(made('wrong_readings'))}. FT adds its key.\n\n"
    yield f"\n\n{len(made('wrong_readings')) + 1}. The counter is carried from byte 0 up"
    tags = len(made("wrong_readings")) + len(made("wrong_counters")) + 1
    yield f"\n{tags - 1}. U is used in place of E.\n\n"
    yield f"\n\n{tags}. Doubling takes byte 0 for the least"
    yield f"\n{tags + len(made('wrong_tags')) - 1}. The last bytes of the whole are taken for the tag.\n\n"
    wraps = tags + len(made("wrong_tags"))
    yield f"\n\n{wraps}. t is counted from 0.\n"
    yield f"\n{wraps + len(made('wrong_wraps')) - 1}. U is used in place of E, and E in place of U.\n\n"
    yield f"A is 8 bytes `{modes.ICV1[0]:02X}`, the check value."
    yield f"Since t never passes {6 * papers.UNWRAPPED_LENGTHS[-1] // 8},"
    sealed, plain = ({8 * n * l + more for n, l in SIZES} for more in (8, 0))
    few = lambda lengths: ", ".join(map(str, sorted(lengths)[:-1])) + f" and {max(lengths)}"
    yield f"{few(sealed - plain)} bytes are a wrapped key only, {few(plain - sealed)} bytes a key only; {few(sealed & plain)} bytes can be either."
    l, _, key = make_paper_values.KW_TRACED
    yield f"one key of {len(key)} bytes, so m is {len(key) // 8}, traced through the first six of its {6 * len(key) // 8} steps"
    yield "`kw l {} key {}`".format(make_paper_values.KW_RUNS[0][0], len(make_paper_values.KW_RUNS[0][2]))
    pages = wraps + len(made("wrong_wraps"))
    yield f"\n\n{pages}. The number and the day are written with their highest byte first.\n"
    yield f"\n{pages + len(made('wrong_pages')) - 1}. The tag is made under the sealing key.\n\n"
    least, one, most = (papers.record_length(blocks) for blocks in (0, 1, papers.PAGE_BLOCKS[-1]))
    each, at = one - least, 0
    for (byte, width), what in zip(papers.PAGE_HEAD, ("the number, 0 to 4294967295, **lowest byte first**", "the day, 0 to 4294967295, lowest byte first", "the title, 32 bytes", "the start block")):
        yield f"\n| {at} | `{byte:02X}` | bytes {at + 1} to {at + width} | {what} |\n"
        at += 1 + width
    end = lambda byte, by, what: f"\n| {at} + {each}{by} | `{byte:02X}` | bytes {at + 1} + {each}{by} to {at + 16} + {each}{by} | {what}"
    yield end(papers.PAGE_BLOCK[0], "i", "sealed block i; so for each i from 0 to m - 1 |\n")
    yield end(papers.PAGE_TAG[0], "m", "the tag |\n")
    yield f"m is the number of blocks of the page, 0 to {papers.PAGE_BLOCKS[-1]:,}."
    yield f"So a page record has {least} + {each}m bytes: {least} at least, {most:,} at most."
    yield f"Take {least} from the record's length, and divide by {each}. It must go without a remainder, and the quotient, m, must be 0 to {papers.PAGE_BLOCKS[-1]:,}."
    yield f"it has {least} bytes and {each} more for each block of the page."
    yield "Byte 0 must be `10`, byte 5 `11`, byte 10 `12`, byte 43 `13`, byte {0} + {1}i `15` for each i from 0 to m - 1, and byte {0} + {1}m `1F`.".format(at, each)
    yield f"from byte 0 to byte {at - 1} + {each}m"
    yield f"Make the tag of the first {at} + {each}m bytes"
    whole = [blocks for blocks in papers.PAGE_BLOCKS if (at + each * blocks) % 16 == 0]
    yield "unless m is {}, {}, {} and so on.".format(*whole[:3])
    same("the blocks with no short last part", whole, [*range(whole[0], papers.PAGE_BLOCKS[-1] + 1, 16)])
    yield f'The title is "{make_paper_values.PAGE_TITLE.decode()}", as ASCII, and the page opens to "{make_paper_values.PAGE_BODY.decode()}"'
    traced = make_paper_values.made_record(*make_paper_values.PAGE_TRACED)
    yield f"`page blocks {len(make_paper_values.PAGE_BODY) // 16} bytes {len(traced)}`"
    yield f"`tag bytes {len(traced) - 17}`"
    yield f"`{next(make_paper_values.page_vectors())}`"
    registers = pages + len(made("wrong_pages"))
    yield f"\n\n{registers}. A number and the number that was replaced are read with their highest byte first.\n"
    yield f"\n{registers + len(made('wrong_registers')) - 1}. The entries are counted, the first too, in place of the replacements.\n\n"
    whole, entry, places, wrapped = (getattr(make_paper_values, name) for name in ("REGISTER", "ENTRY", "PLACES", "WRAPPED"))
    front, numbers = whole - entry * places, entry - wrapped
    yield f"\n| 0 | {front} | the count, **lowest byte first** |\n"
    for at, width, what in (
        (front, numbers // 2, "the key's number, 1 to 65535, lowest byte first"),
        (front + numbers // 2, numbers // 2, "the number of the key that it replaced, lowest byte first; 0 if it replaced none"),
        (front + numbers, wrapped, "the wrapped key"),
    ):
        yield f"\n| {at} + {entry}i | {width} | entry i: {what} |\n"
    yield f"A key register is a file of {whole} bytes: a count, and {places} places for entries."
    yield f"is a file of {whole} bytes that keeps up to {places} wrapped keys"
    yield f"Then a register, a file of {whole} bytes, has the key, wrapped (section 7.6). The key has {wrapped - 8} bytes, so n and l are 1 and 4, or 2 and 2;"
    same("the sizes of such a key", [(n, l) for n, l in SIZES if 8 * n * l == wrapped - 8], [(1, 4), (2, 2)])
    yield f"i goes from 0 to {places - 1}, so the last entry ends with byte {whole - 1}. c is the count, but {places} if the count is above {places}."
    yield f"so f never passes {places - 1}."
    register = make_paper_values.kept_register()
    end = front + entry * len(make_paper_values.KEPT)
    same("zeros behind the entries", any(register[end:]), False)
    yield f"All bytes from byte {end} on are `00`."
    yield f"`entry` is its {entry} bytes as they are stored, and `key` is what the last {wrapped} of them unwrap to."
    yield from (f"`{line}`" for line in make_paper_values.key_register() if line.startswith(("register", "entry 0")))
    own, last, _, steps = make_paper_values.Registers().looked_up(register, make_paper_values.REGISTER_CARD[2])
    yield f"Number {make_paper_values.REGISTER_CARD[2]} was replaced {('', 'once', 'twice')[steps]} there. Entry {own} has the number itself,"
    yield f"The look-up of our programs gives entry {last}, whose key opens it as noise."
    yield "{} to {} bytes and unwrap strings of {} to {}, in steps of 8.".format(*(lengths[at] for lengths in (papers.UNWRAPPED_LENGTHS, papers.WRAPPED_LENGTHS) for at in (0, -1)))
    constant = modes._dbl(b"\x80" + bytes(15))[15]
    yield f"XOR the last byte, byte 15, with `{constant:02X}`."
    for front, back in (("and", " This"), (";", "\n")):
        yield f"{front} doubling is multiplication by x in GF(2^128) modulo {polynomial(2**128 + constant)}.{back}"
    zeros = [their("encrypt_block", 1, key, bytes(16)) for _, key, *_ in make_paper_values.CMAC_RUNS]
    yield "record by record: " + ", ".join(f"{zero[0] >> 7} {modes._dbl(zero)[0] >> 7}" for zero in zeros) + "."
    yield "`cmac l {0} message {2} tag {3}`".format(*make_paper_values.CMAC_RUNS[1])
    whole = [str(length) for _, _, length, _ in make_paper_values.CMAC_RUNS if length and length % 16 == 0]
    yield f"K1 is used as the mask where the message has {' or '.join(whole)} bytes,"
    text = make_paper_values.TEXT
    kept = next(make_paper_values.card_tag()).split()[1:]
    yield f"the tag, of {len(''.join(kept)) // 2} bytes, of the {text.index('.') + 1} sealed bytes"
    yield f'as ASCII: "{text[: text.index(".") + 1]}"\n'
    yield f"the sealed page of {text.index('.') + 1} bytes"
    yield f'without line ends: "{text.rstrip()}"\n'
    yield f"It never passes 0x{255 * sum(range(1, 17)):04X}."
    yield "the five commands have {}, {}, {}, {} and {} bytes.".format(*WIDTH.values())
    yield from (f"\n| {number} | `{number:02X}` | " for number in papers.ANSWERED if number != 4)
    yield f"A tape has at most {LONGEST:,} bytes."
    yield f"A tape of more than {LONGEST:,} bytes is answered by the byte `04` alone"
    commands = [given for given, _ in make_paper_values.tape_commands()]
    zeros, length = len(dict(commands[0])["zeros"]), sum(len(data) for given in commands for _, data in given)
    yield f"`zeros {zeros}` is {zeros} bytes `00`."
    yield f"the tape, of {length} bytes."
    yield f"to its first {length - 1} bytes, which lack the `00`."
    yield f"Each front of the tape, its first 0, 1, 2, ..., {length - 1} bytes, is answered"
    spaced = lambda data: f"`{data.hex(' ').upper()}`"
    first, *rest = all_answers = papers.answers(EXAMPLE)
    given = (EXAMPLE[:2], EXAMPLE[9:10], EXAMPLE[74:77], EXAMPLE[205:])
    yield "{} and seven bytes `00`; {} and 64 bytes `00`; {} and 128 bytes `00`; {}. Its answers".format(*map(spaced, given))
    yield f"Its answers are {len(b''.join(all_answers))} bytes: {spaced(first)} (0 and the mixed word), "
    yield "the mixed word), {} (no key was set), {} (n is 3), {} (the command is unknown).".format(*map(spaced, rest))
    by = {}
    for n, l in SIZES:
        by.setdefault(8 * n * l, []).append(f"({n}, {l})")
    alone = [(length, sizes[0]) for length, sizes in sorted(by.items()) if len(sizes) == 1]
    listed = lambda words: ", ".join(words[:-1]) + " and " + words[-1]
    yield f"{listed([str(length) for length, _ in alone])} bytes are (n, l) = {listed([size for _, size in alone])};"
    yield f"{listed([str(8 * l) for l in (2, 3, 4)])} bytes are l = {listed(['2', '3', '4'])}."
    yield "; ".join(f"{length} bytes are {' or '.join(sizes)}" for length, sizes in sorted(by.items()) if len(sizes) == 2) + "."


# ---- the head, the contents, the editions and the article

NAMES = "first second third fourth fifth sixth seventh eighth ninth tenth".split()
# what the article's copy prints of itself
ARTICLE = {
    "author": "С.А. Головашич",
    "author's place": "ООО Криптомаш, Харьков",
    "title": "АЛГОРИТМ БЛОЧНОГО СИММЕТРИЧНОГО ШИФРОВАНИЯ «ЛАБИРИНТ»",
    "UDC": "УДК 681.3.06 : 519.248.681",
    "key words": "криптозащита, блочное симметричное шифрование, поточное шифрование",
    "received": "Поступила в редколлегию 19.04.2007",
    "reviewer": "Рецензент: д-р. техн. наук, проф. О.Г. Руденко, Харьковский национальный университет радиоэлектроники, Харьков",
}


def sections(text):
    return re.findall(r"^# (\d+\. .*)$", text, re.M)


def contents(text):
    """The list behind 'Contents' has the sections, all of them and in order."""
    listed = re.search(r"^\*\*Contents\*\*\n\n((?:\d+\. .*\n)+)\n", text, re.M)
    same("the contents", listed and listed[1].splitlines(), sections(text))
    same("the sections' numbers", [int(line.split(".")[0]) for line in sections(text)], [*range(1, 15)])


def article(text):
    for what, printed in ARTICLE.items():
        same(f"the article's {what}", f"\n| {what} | {printed} | " in text, True)


def version():
    """The library's version: one in the header and for Rust, 0.k.0 with k landings in the changelog from the first release on, whose newest may be unwritten."""
    def found(pattern, *path):
        with open(os.path.join(ROOT, *path), encoding="utf-8") as file:
            return re.findall(pattern, file.read(), re.M)
    (stated,) = found(r'^#define LABYRINTH_VERSION "(.*)"$', HEADER)
    for crate in ("labyrinth", "labyrinth-cli"):
        same(f"the version of rust/{crate}", found(r'^version = "(.*)"$', "rust", crate, "Cargo.toml"), [stated])
    landings = found(r"^## (.*)$", "CHANGELOG.md")
    count = landings.index("First release: 0.1.0") + 1
    same(f"the version for {count} landings", stated in (f"0.{count}.0", f"0.{count + 1}.0"), True)
    return [int(part) for part in stated.split(".")]


def editions(text):
    """Each edition has a date and a version; the last is the one in the head, and not of a later version than the library's."""
    rows = re.findall(r"^\| (\w+) \| (\d{4}-\d\d-\d\d) \| (\d+\.\d+\.\d+) \| ", text, re.M)
    names, dates, versions = zip(*rows)
    numbers = [[int(part) for part in version.split(".")] for version in versions]
    same("the editions", (list(names), len(names) >= 4), (NAMES[: len(names)], True))
    same("dates and versions in order", (list(dates), numbers), (sorted(dates), sorted(numbers)))
    same("a version each", len(set(versions)), len(versions))
    same("the paper's version is not later than the library's", numbers[-1] <= version(), True)
    head = f"\nedition: {names[-1].capitalize()} edition, {dates[-1]}, with version {versions[-1]} of the library Sigourta\n---\n"
    same("the edition in the head", head in text, True)
    same("the edition in the text", f"This is the paper's {names[-1]} edition." in text, True)


# ---- print

def print_fault(text, blocks):
    """What is wrong with the form for print: every line of every block must be in it, in order; a page number for each section; the article's letters."""
    done = subprocess.run([os.path.join(ROOT, "tools", "paper_to_ms"), PAPER], capture_output=True, encoding="utf-8", timeout=60)
    if done.returncode:
        return done.stderr
    form = done.stdout.replace("\\-", "-")
    printed = iter(form.splitlines())
    for line in (line for block in blocks.values() for line in block.splitlines() if line):
        if "\\&" + line not in printed:
            return f"not in print: {line}"
    for number in range(1, len(sections(text)) + 1):
        if form.count(f"\\n[page:{number}]\n") != 1 or form.count(f".nr page:{number} \\n%\n") != 1:
            return f"no page number of section {number}"
    return next((f"not in print: {printed}" for printed in ARTICLE.values() if printed not in form), None)


# ---- altered digits

def next_digit(digit):
    return "0" if digit == "9" else "A" if digit == "F" else chr(ord(digit) + 1)


def altered(text):
    """Each line in turn with one digit exchanged for another; which digit goes round with the line's number."""
    lines = text.splitlines()
    for at, line in enumerate(lines):
        digits = [i for match in re.finditer(r"\b(?:0x)?([0-9A-F]+)\b", line) for i in range(*match.span(1))]
        if digits:
            i = digits[7 * at % len(digits)]
            yield line, "\n".join([*lines[:at], line[:i] + next_digit(line[i]) + line[i + 1 :], *lines[at + 1 :]]) + "\n"


# ---- what the check sums show

def readers(blocks):
    """Every line that has a check sum, the places of its bytes in it, and what reads such a line."""
    for name, block in blocks.items():
        for line in block.splitlines():
            total = re.search(r" +: [0-9A-F]{4}$", line)
            if not total:
                continue
            if name == "table-1":
                yield line, [match.start() for match in re.finditer(r"(?<= )[0-9A-F]{2}(?= )", line[: total.start() + 1])], table_line
            elif has_words(line):
                yield line, [at for match in re.finditer(r"0x([0-9A-F]{16})", line) for at in range(*match.span(1), 2)], word_line
            else:
                start, end = BYTE_LINE.match(line).span(2)
                yield line, [start + match.start() for match in re.finditer(r"[0-9A-F]{2}", line[start:end])], byte_line


def sums_show(blocks):
    """Each digit of each such line altered in turn, then each two of its bytes that differ exchanged: how many lines of bytes, lines of words and
    alterations there were. The line alone must show it."""
    counts, tried = {byte_line: 0, word_line: 0, table_line: 0}, 0
    for line, places, reader in readers(blocks):
        reader(line)
        counts[reader] += 1
        other = [line[:at] + next_digit(line[at]) + line[at + 1 :] for place in places for at in (place, place + 1)]
        for a, b in itertools.combinations(places, 2):
            if line[a : a + 2] != line[b : b + 2]:
                other.append(line[:a] + line[b : b + 2] + line[a + 2 : b] + line[a : a + 2] + line[b + 2 :])
        for altered_line in other:
            try:
                reader(altered_line)
            except Fault:
                continue
            raise Fault(f"an alteration that no check sum shows: {altered_line}, for {line}")
        tried += len(other)
    return [*counts.values()], tried


COUNTED = dict.fromkeys(READ, 0)


def main():
    global LIBRARY
    failures = []
    with open(PAPER, encoding="utf-8") as file:
        text = file.read()
    blocks = {}
    for match in FENCE.finditer(text):
        if match[1] in blocks:
            failures.append(f"{match[1]} is there twice")
        blocks[match[1]] = match[2]
    if sorted(blocks) != sorted(CHECKS):
        sys.exit(f"paper: FAILED: other blocks: {sorted(set(blocks) ^ set(CHECKS))}")
    with tempfile.TemporaryDirectory() as place:
        LIBRARY = ours(place)
    if not os.path.exists(PROGRAM):
        sys.exit("paper.py: crates/tape_program/out/tape_program is not there: make run")
    for name, check in CHECKS.items():
        COUNTED["blocks"] += 1
        try:
            check(blocks[name])
        except (Fault, ValueError, KeyError, IndexError) as fault:
            failures.append(f"{name}: {fault!r}"[:400])
    said = list(sentences())
    failures += [f"not in the text: {sentence}" for sentence in said if sentence not in text]
    wide = [line for block in blocks.values() for line in block.splitlines() if len(line) > 72]
    failures += [f"too wide: {line}" for line in wide]
    failures += [fault for fault in [print_fault(text, blocks)] if fault]
    for check in (contents, article, editions):
        try:
            check(text)
        except Fault as fault:
            failures.append(f"{check.__name__}: {fault}"[:400])
    if blocks != make_paper_values.values():
        failures.append("the blocks are not what tests/make_paper_values.py makes")
    if not failures and COUNTED != READ:
        failures.append(f"read: {COUNTED}, not {READ}")
    counts = ", ".join(f"{count} {what}" for what, count in COUNTED.items())
    # altered digits: only where all else is right
    tried, sums = 0, ""
    if not failures:
        try:
            lines, count = sums_show(blocks)
            same("lines with check sums, of bytes, of words and of Table 1", lines, SUMMED)
            sums = "{}, {} and {} lines of bytes, words and Table 1 with check sums, which show {} alterations; ".format(*lines, count)
        except Fault as fault:
            failures.append(str(fault))
        for name, check in CHECKS.items():
            keep = {n: dict(v) for n, v in TRACED.items()}
            for line, changed in altered(blocks[name]):
                tried += 1
                try:
                    check(changed)
                    failures.append(f"{name}: an altered digit passed: {line}")
                except (Fault, ValueError, KeyError, IndexError):
                    pass
                TRACED.clear()
                TRACED.update({n: dict(v) for n, v in keep.items()})
    for failure in failures:
        print(f"paper: FAILED: {failure}")
    print(f"paper: {counts}, {len(said)} sentences; {sums}{tried} altered digits tried; {len(failures)} failures")
    sys.exit(1 if failures or not tried else 0)


if __name__ == "__main__":
    main()
