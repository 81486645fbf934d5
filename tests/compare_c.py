#!/usr/bin/env python3
"""Asks our library, through its C interface, and the archivists' program for the same things and compares every byte and every number;
docs/COMPARE.md has the lines that they speak. Needs target/dist (make lib) and gcc.

    tests/compare_c.py [--short] [--seed NUMBER] [--archivist COMMAND] [--show CASE]

The cases are made from the seed, which is printed; without one it is another each time. Which number is expected is decided by tests/papers.py,
from documents 01 and 02; which bytes, by the archivists' program, or, after a refusal, by what the destination held, and for a row by the zero
word; whether a tag gets a yes, by how it was made, with the modules in tests/archivists, and by the archivists' program. Then it
shows that changed answers are noticed. --show prints the request of one case and asks nothing."""
import argparse
import collections
import functools
import operator
import os
import random
import re
import shlex
import subprocess
import sys
import tempfile
import time

sys.dont_write_bytecode = True
HERE = os.path.dirname(os.path.abspath(__file__))
sys.path[:0] = [os.path.join(HERE, "archivists"), HERE]
import labyrinth
import modes
import papers
from papers import MIXED, PUBLISHED, SIZES

DIST = os.path.join(os.path.dirname(HERE), "target", "dist")
ADAPTER = f"{shlex.quote(sys.executable)} {shlex.quote(os.path.join(HERE, 'archivists_lines.py'))}"
LIMIT = 1500  # seconds for a program

BLOCKS, CBC, CTR, TAGS = ("encipher", "decipher"), ("cbc_seal", "cbc_open"), ("ctr",), ("cmac", "cmac_verify")  # and mix, mix_row
WRAPS = ("wrap", "unwrap")
ONE = TAGS + WRAPS  # where n is 1
OPERATIONS = BLOCKS + CBC + CTR + ONE
LARGE = 2**64 - 1  # SIZE_MAX
# some are legal once cut to 8, 16 or 32 bits, or give a legal 8n or 16n modulo 2^64
DEMANDED = (0, 3, 8, 2**32 + 1, LARGE)
WRONG_N = (*DEMANDED, 5, 6, 7, 16, 2**8 + 1, 2**16 + 2, 2**32, 2**32 + 2, 2**32 + 4, 2**60 + 1, 2**61 + 2, 2**63 + 4, LARGE - 3)
WRONG_L = (*(x for x in DEMANDED if x != 3), 1, 5, 6, 2**8 + 2, 2**16 + 3, 2**32 + 2, 2**32 + 3, 2**60 + 2, 2**61 + 3, 2**63 + 4)
NEUTRAL, ZERO = b"\1" + bytes(7), bytes(8)

# a tag's message is the source, and the tag, made or given, the destination; n is 1; kind is how a given tag, or a key to be unwrapped, was made
Case = collections.namedtuple("Case", "op n l key start q source destination kind", defaults=[None])
KINDS = ("right", "one bit flipped", "right in the first bytes", "from the second byte on", "of another key", "of another message")
WRAPPED = ("right", "one bit flipped", "wrapped with another key", "any bytes")
Mix = collections.namedtuple("Mix", "op word row", defaults=[PUBLISHED])


def sizes(op):
    return SIZES[:3] if op in ONE else SIZES


def key_lengths(op):
    """Of sources."""
    return papers.UNWRAPPED_LENGTHS if op == "wrap" else papers.WRAPPED_LENGTHS


def flipped(data, rng):
    """With one bit changed."""
    at = rng.randrange(len(data))
    return data[:at] + bytes([data[at] ^ 1 << rng.randrange(8)]) + data[at + 1 :]


def xor(data):
    return functools.reduce(operator.xor, data, 0)


def number_of(case):
    if case.op == "mix":
        return 0
    if case.op == "mix_row":
        return papers.mixing_through_c(case.row)
    number = papers.through_c(case.op, case.n, case.l, *map(len, (case.key, case.start, case.source, case.destination)))
    return 18 if number == 0 and case.op == "unwrap" and case.kind != "right" else number


# ---- the cases


class Maker:
    def __init__(self, seed, short):
        self.rng, self.short = random.Random(seed), short

    def pick(self, *values):
        return values[self.rng.randrange(len(values))]

    def some(self, long, short):
        return range(short if self.short else long)

    def data(self, length):
        """Mostly random; else all bytes alike, or one bit set."""
        kind = self.rng.randrange(12)
        if kind == 0:
            return bytes([self.pick(0, 0xFF, 0x01, 0x80)]) * length
        if kind == 1 and length:
            return (1 << self.rng.randrange(8 * length)).to_bytes(length, "big")
        return self.rng.randbytes(length)

    def start(self, op, length):
        """For CTR also start blocks from which the counter carries far."""
        kind = self.rng.randrange(8)
        if op != "ctr" or kind > 4:
            return self.data(length)
        if kind == 0:
            return b"\xff" * length
        if kind == 1:
            return (256**length - 1 - self.rng.randrange(20)).to_bytes(length, "big") if length > 1 else self.data(length)
        ones = min(length, self.pick(1, 2, 4, 8, 12, length // 2))
        return self.rng.randbytes(length - ones) + b"\xff" * ones

    def q(self):
        return self.pick(0, 1, 2, 255, 2**32 - 1, 2**32, 2**63, LARGE - 1, LARGE, self.rng.randrange(1000), self.rng.getrandbits(64))

    def wrong(self, right):
        """Another length."""
        lengths = [right - 1, right + 1, 0, right // 2, 2 * right, right - 8, right + 8, right + 16, right + 256, self.rng.randrange(300)]
        return self.pick(*(x for x in lengths if x >= 0 and x != right))

    def given(self, case, kind):
        """The case with a tag of this kind, if its key is one."""
        if papers.expansion(1, case.l, len(case.key)):
            return case._replace(kind="of no key")
        key, message, length = case.key, case.source, len(case.destination)
        if kind == "of another key":
            key = flipped(key, self.rng)
        if kind == "of another message":
            message = self.pick(message + b"\x80", message + b"\0", *([message[:-1], flipped(message, self.rng)] if message else []))
        whole = modes.cmac(labyrinth.Labyrinth(1, key), message)
        tag = (whole[1:] + whole[:1] if kind == "from the second byte on" else whole)[:length] + self.data(max(0, length - 16))
        if kind == "one bit flipped" and tag:
            tag = flipped(tag, self.rng)
        if kind == "right in the first bytes":
            keep = self.rng.randrange(min(8, max(length - 1, 0)), max(length, 1))
            tag = tag[:keep] + bytes(byte ^ self.rng.randrange(1, 256) for byte in tag[keep:])
        return case._replace(destination=tag, kind=kind)

    def wrapped(self, case, kind):
        """The case with a source of this kind, if there are wrapped keys of its length under its key."""
        if papers.expansion(1, case.l, len(case.key)) or len(case.source) not in key_lengths("unwrap"):
            return case._replace(kind="any bytes")
        key = flipped(case.key, self.rng) if kind == "wrapped with another key" else case.key
        if kind != "any bytes":
            case = case._replace(source=modes.kw_wrap(labyrinth.Labyrinth(1, key), case.source[8:]))
        return case._replace(source=flipped(case.source, self.rng) if kind == "one bit flipped" else case.source, kind=kind)

    def case(self, op, n, l, source, damage=(), n_lengths=None, l_lengths=None, tag=None, kind=None):
        """A case whose lengths are right for n and l, or for n_lengths and l_lengths, apart from what is damaged."""
        m, c = n_lengths or n, l_lengths or l
        key, start = 8 * m * c, 0 if op in BLOCKS + ONE else 16 * m
        if "key" in damage:
            key = self.wrong(key)
        if "start" in damage:
            start = self.wrong(start)
        if "source" in damage:
            source = self.wrong(source) if op in BLOCKS else source + self.rng.randrange(1, 8 if op in WRAPS else 16 * m)
        destination = 16 * m if op in BLOCKS else source + 8 if op == "wrap" else max(source - 8, 0) if op == "unwrap" else source
        if op in TAGS:
            destination = self.pick(*papers.TAG_LENGTHS) if tag is None else tag
        if "destination" in damage:
            destination = self.pick(0, 1, 6, 7, 17, 18, 24, 32, 256 + destination) if op in TAGS else self.wrong(destination)
        q = self.q() if op in CTR else 0
        made = Case(op, n, l, self.data(key), self.start(op, start), q, self.data(source), self.data(destination))
        if op == "cmac_verify":
            return self.given(made, kind or self.pick("right", "right", "right", *KINDS))
        return self.wrapped(made, kind or self.pick("right", "right", "right", *WRAPPED)) if op == "unwrap" else made

    def length(self, op, n, most):
        """A source's length that op admits."""
        if op in BLOCKS:
            return 16 * n
        if op in WRAPS:
            return self.pick(*key_lengths(op))
        return 16 * n * self.rng.randrange(most + 1) if op in CBC else self.rng.randrange(16 * n * most + 1)

    def damaged(self):
        """Every set of damages at every size; the empty set is a valid case."""
        for op in OPERATIONS:
            own = [] if op in TAGS else ["source"] if op in WRAPS else ["n"] + ["start"] * (op not in BLOCKS) + ["source"] * (op not in CTR)
            parts = ["l", "key", "destination"] + own
            for n, l in sizes(op):
                for which in range(2 ** len(parts)):
                    damage = [part for i, part in enumerate(parts) if which >> i & 1]
                    given = self.pick(*WRONG_N) if "n" in damage else n, self.pick(*WRONG_L) if "l" in damage else l
                    yield self.case(op, *given, self.length(op, n, 4), damage, n, l)

    def numbers(self):
        """Every wrong n with every l, and every wrong l: all lengths fit a size that such a number may be mistaken for."""
        for op in OPERATIONS:
            for n in (1,) if op in ONE else (1, 2, 4, *WRONG_N):
                for l in (2, 3, 4, *WRONG_L):
                    if n in WRONG_N or l in WRONG_L:
                        m = n if n <= 16 else n % 16 if n % 16 in (1, 2, 4) else self.pick(1, 2, 4)
                        c = l if l <= 8 else l % 8 if l % 8 in (2, 3, 4) else self.pick(2, 3, 4)
                        yield self.case(op, n, l, self.length(op, m, 3), (), m, c)

    def far_lengths(self):
        """One length too long by 65,536."""
        for op in OPERATIONS:
            for part in ("key", "destination") if op in TAGS else ("key", "source", "destination") if op in WRAPS else ("key", "start", "source", "destination"):
                n, l = self.pick(*sizes(op))
                good = self.case(op, n, l, self.length(op, n, 3))
                yield good._replace(**{part: getattr(good, part) + bytes(65536)})

    def valid(self):
        for op in OPERATIONS:
            for n, l in sizes(op):
                for _ in self.some(150, 12):
                    yield self.case(op, n, l, self.length(op, n, 20))

    def near(self):
        """Runs about 1, 2 and 8 KiB long, where a program may change its way of working, tags of 2 and 4 KiB; and the empty run, one byte, one
        block and its neighbours."""
        for op in CBC + CTR + TAGS:
            for n, l in sizes(op):
                block = 16 * n
                for about in (2048, 4096) if op in TAGS else (1024, 2048, 8192):
                    long = [about - block, about, about + block] + [about - 1, about + 1, about + block - 1] * (op not in CBC)
                    for length in [about, about + block] if self.short else long:
                        yield self.case(op, n, l, length)
                for length in [0, block, 2 * block] + [1, block - 1, block + 1, 2 * block - 1, 2 * block + 1] * (op not in CBC):
                    yield self.case(op, n, l, length)

    def tags(self):
        """Every length of a tag, refused ones too, made, and given in every kind, for messages of no block to three."""
        for n, l in sizes("cmac"):
            for length in range(20):
                for op, kind in [("cmac", None), *(("cmac_verify", kind) for kind in (KINDS if length in papers.TAG_LENGTHS else KINDS[:1]))]:
                    for _ in self.some(8, 1):
                        yield self.case(op, n, l, self.rng.randrange(49), tag=length, kind=kind)

    def wraps(self):
        """Every length of a key to 144 bytes, refused ones too, and what is to be unwrapped in every kind."""
        for n, l in sizes("wrap"):
            for length in range(145):
                for op, kind in [("wrap", None), *(("unwrap", kind) for kind in (WRAPPED if length in key_lengths("unwrap") else WRAPPED[:1]))]:
                    for _ in self.some(3, 1):
                        yield self.case(op, n, l, length, kind=kind)

    def long(self):
        for op in CBC + CTR + TAGS:
            for n, l in sizes(op):
                for _ in self.some(1, 0):
                    yield self.case(op, n, l, self.length(op, n, 32768 // (16 * n)))
            for n in (1, 2, 4) if not self.short and op not in TAGS else ():
                yield self.case(op, n, self.pick(2, 3, 4), 2**18 - 16 * n * self.rng.randrange(9) + self.rng.randrange(16) * (op == "ctr"))

    def anyhow(self):
        """Any damage at all."""
        for _ in self.some(1500, 150):
            op = self.pick(*OPERATIONS)
            n, l = self.pick(*sizes(op))
            damage = [part for part in ("key", "start", "source", "destination") if self.rng.randrange(6) == 0]
            if op in BLOCKS + ONE:
                damage = [part for part in damage if part != "start"]
            given = self.pick(n, n, n, n, n, n, *WRONG_N[:5], self.rng.getrandbits(64)), self.pick(l, l, l, l, l, l, *DEMANDED, self.rng.getrandbits(64))
            yield self.case(op, n if op in ONE else given[0], given[1], self.length(op, n, 6), damage, n, l)

    def word(self):
        return self.rng.getrandbits(64)

    def words(self):
        for word in [*MIXED, 0, LARGE, *(1 << i for i in range(64)), *(self.word() for _ in self.some(1000, 150))]:
            yield Mix("mix", word)

    def vanishing(self, length):
        """A row whose bytes XOR to zero, mostly no zero row."""
        row = self.rng.randbytes(length - 1) if length else b""
        return row + bytes([xor(row)] * (length > 0))

    def rows(self):
        """Rows of eight coefficients: the published one, the one that changes no word, the zero row, single coefficients, some that XOR to zero,
        and any; then rows of other lengths."""
        made = [(row, given) for row in (PUBLISHED, NEUTRAL, ZERO) for given in (*MIXED, 0, LARGE, *(self.word() for _ in self.some(100, 10)))]
        for place in range(8):
            for value in (0x01, 0x02, 0x80, 0xFF, *(self.rng.randrange(1, 256) for _ in self.some(40, 2))):
                made.append((bytes(place) + bytes([value]) + bytes(7 - place), self.pick(self.word(), 0xFF << 8 * self.rng.randrange(8))))
        made += [(self.vanishing(8), self.word()) for _ in self.some(500, 50)]
        made += [(self.rng.randbytes(8), self.word()) for _ in self.some(10000, 300)]
        for length in (*(length for length in range(21) if length != 8), 2**8 + 8, 2**16 + 8):
            made += [(row, self.word()) for row in (self.rng.randbytes(length), self.vanishing(length), (PUBLISHED * length)[:length])]
        for row, given in made:
            yield Mix("mix_row", given, row)

    def all(self):
        for series in (self.damaged, self.numbers, self.far_lengths, self.valid, self.near, self.tags, self.wraps, self.long, self.anyhow, self.words, self.rows):
            yield from series()


def request(case):
    if case.op == "mix":
        return f"mix {case.word:016x}\n"
    if case.op == "mix_row":
        return f"mix_row {case.row.hex() or '-'} {case.word:016x}\n"
    fields = [case.op] + [case.n] * (case.op not in ONE) + [case.l, case.key]
    if case.op in CBC + CTR:
        fields.append(case.start)
    if case.op in CTR:
        fields.append(case.q)
    fields += [case.source, case.destination]
    return " ".join((field.hex() or "-") if isinstance(field, bytes) else str(field) for field in fields) + "\n"


def gaps(cases, numbers):
    """What the cases should have and lack."""
    have = {(case.op, case.n, case.l, number) for case, number in zip(cases, numbers) if case.op in OPERATIONS}
    need = set()
    for op in OPERATIONS:
        own = {11} if op in TAGS else {17, 5, 18} if op == "unwrap" else {17, 5} if op in WRAPS else {4, 5} if op in BLOCKS else {6, 5} if op in CTR else {6, 4, 5}
        need |= {(op, n, l, number) for n, l in sizes(op) for number in {0, 3} | own}
        need |= {(op, n, l, 2) for n, _ in sizes(op) for l in DEMANDED if l != 3}
        need |= {(op, n, l, 1) for n in DEMANDED for l in (2, 3, 4) if op not in ONE}
    have |= {(case.op, case.l, len(case.destination), case.kind) for case in cases if case.op in TAGS}
    need |= {("cmac_verify", l, length, kind) for l in (2, 3, 4) for length in papers.TAG_LENGTHS for kind in KINDS}
    need |= {(op, l, length, kind) for op, kind in (("cmac", None), ("cmac_verify", "right")) for l in (2, 3, 4) for length in range(20)}
    have |= {(case.op, case.l, len(case.source), case.kind) for case in cases if case.op in WRAPS}
    need |= {("wrap", l, length, None) for l in (2, 3, 4) for length in range(145)}
    need |= {("unwrap", l, length, kind) for l in (2, 3, 4) for length in key_lengths("unwrap") for kind in WRAPPED}
    need |= {("unwrap", l, length, "any bytes") for l in (2, 3, 4) for length in range(145)}
    rows = {(case.row, number) for case, number in zip(cases, numbers) if case.op == "mix_row"}
    have |= {("mix_row", len(row), number) for row, number in rows} | {("mix_row", row.hex(), number) for row, number in rows}
    have |= {("mix_row", 8 - row.count(0), "coefficients, and XOR to zero") for row, number in rows if number == 13}
    need |= {("mix_row", length, 4) for length in range(21) if length != 8} | {("mix_row", 8, "coefficients, and XOR to zero")}
    need |= {("mix_row", PUBLISHED.hex(), 0), ("mix_row", NEUTRAL.hex(), 0), ("mix_row", ZERO.hex(), 13)}
    return sorted(need - have, key=str)


# ---- asking


def ask(command, parts, place, name):
    """Runs the command once for each part, all at once; a part is a list of requests. Their answers, a list of lines each."""
    running, answers = [], []
    try:
        for i, part in enumerate(parts):
            paths = [os.path.join(place, f"{name}{i}.{kind}") for kind in ("requests", "answers")]
            with open(paths[0], "w") as file:
                file.writelines(part)
            with open(paths[0]) as given, open(paths[1], "w") as made:
                running.append((subprocess.Popen(shlex.split(command), stdin=given, stdout=made), paths[1], part))
        for process, path, part in running:
            status = process.wait(LIMIT)
            with open(path) as file:
                lines = file.read().split("\n")
            if lines.pop() != "" or status != 0 or len(lines) != len(part):
                sys.exit(f"compare_c: FAILED: {name}: status {status}, {len(lines)} answers to {len(part)} requests")
            answers.append(lines)
    except (OSError, ValueError, subprocess.TimeoutExpired) as fault:
        sys.exit(f"compare_c: FAILED: {name}: {fault}")
    finally:
        for process, _, _ in running:
            if process.poll() is None:
                process.kill()
                process.wait()
    return answers


def ask_ours(requests, place):
    program, library = os.path.join(place, "labyrinth_lines"), os.path.join(DIST, "liblabyrinth.a")
    build = ["gcc", "-std=c11", "-O2", "-Wall", "-Wextra", "-Werror", "-I", DIST, "-o", program, os.path.join(HERE, "labyrinth_lines.c"), library]
    if not os.path.exists(library):
        sys.exit("compare_c: FAILED: no target/dist/liblabyrinth.a: make lib")
    if subprocess.run(build).returncode:
        sys.exit("compare_c: FAILED: labyrinth_lines.c was not built")
    return ask(shlex.quote(program), [requests], place, "ours")[0]


def ask_theirs(command, cases, requests, admitted, place):
    """The answers by the case's number. The requests are dealt out, the long ones first, so that all processes have as much to do."""
    def cost(i):
        case = cases[i]
        if case.op in WRAPS:
            return len(case.source) * 3 // 4
        return 1 + len(case.source) // (16 * case.n) * (2 if case.n == 4 else 1) if case.op in OPERATIONS else 1

    count = os.cpu_count() or 1
    parts, costs = [[] for _ in range(count)], [0] * count
    for i in sorted(admitted, key=cost, reverse=True):
        least = costs.index(min(costs))
        parts[least].append(i)
        costs[least] += cost(i)
    answers = ask(command, [[requests[i] for i in part] for part in parts], place, "theirs")
    return {i: line for part, lines in zip(parts, answers) for i, line in zip(part, lines)}


# ---- comparing


def read(line):
    """Number and bytes of an answer, or None."""
    fields = line.split(" ")
    try:
        return (int(fields[0]), b"" if fields[1] == "-" else bytes.fromhex(fields[1])) if len(fields) == 2 else None
    except ValueError:
        return None


def difference(case, number, ours, theirs):
    """What is wrong with the answers to a case, or None."""
    if case.op == "mix":
        try:
            values = [int(ours, 16), int(theirs, 16), MIXED.get(case.word, int(theirs, 16))]
        except ValueError:
            return f"no words: {ours[:80]!r}, {theirs[:80]!r}"
        return None if len(set(values)) == 1 else f"ours {ours}, theirs {theirs}"
    if case.op == "mix_row":
        if number == 0 and not re.fullmatch("0 [0-9a-f]{16}", theirs):
            return f"theirs answers {theirs[:80]!r}"
        word = MIXED.get(case.word) if case.row == PUBLISHED else case.word if case.row == NEUTRAL else None
        want = f"{number} {0:016x}" if number else theirs if word is None else f"0 {word:016x}"
        return None if ours == want and (number or theirs == want) else f"ours answers {ours[:80]!r}, theirs {theirs[:80]!r}, not {want!r}"
    if case.op == "cmac_verify":
        want = f"{number} {int(number == 0 and case.kind == 'right')}"
        if number == 0 and theirs != want:
            return f"theirs answers {theirs[:80]!r}, not {want!r}, to a tag that is {case.kind}"
        return None if ours == want else f"ours answers {ours[:80]!r}, not {want!r}, to a tag that is {case.kind}"
    mine = read(ours)
    if mine is None:
        return f"ours answers {ours[:80]!r}"
    if mine[0] != number:
        return f"ours gives the number {mine[0]}, the documents {number}"
    want = case.destination
    if number == 0:
        other = read(theirs)
        if other is None or other[0] != 0 or len(other[1]) != len(case.destination):
            return f"theirs answers {theirs[:80]!r}"
        want = other[1]
    if mine[1] == want:
        return None
    at = next((i for i, (found, byte) in enumerate(zip(mine[1], want)) if found != byte), min(len(mine[1]), len(want)))
    return f"from byte {at} ours has {mine[1][at:at + 8].hex()}, not {want[at:at + 8].hex()}"


def differences(cases, numbers, ours, theirs):
    found = ((i, difference(case, numbers[i], ours[i], theirs.get(i, ""))) for i, case in enumerate(cases))
    return {i: text for i, text in found if text}


def changed_byte(line, rng):
    number, data = read(line)
    return f"{number} {flipped(data, rng).hex()}"


def changed_number(line, number):
    return f"{number} {line.split(' ')[1]}"


def changed_word(line, rng):
    number, space, word = line.rpartition(" ")
    return f"{number}{space}{int(word, 16) ^ 1 << rng.randrange(64):016x}"


def changed_answers(cases, numbers, ours, theirs, rng):
    """Changes one thing in each of some answers, no two of one case: those cases must differ then, and no others. How many were changed,
    and what is wrong."""
    ours, theirs, changed = list(ours), dict(theirs), {}

    def change(name, i, side, line):
        side[i], changed[i] = line, name

    for op in OPERATIONS:
        those = [i for i, case in enumerate(cases) if case.op == op and case.destination]
        i = iter(rng.sample([i for i in those if numbers[i] == 0], 5))
        for side, name in ((theirs, "theirs"), (ours, "ours")):
            if op != "cmac_verify":
                at = next(i)
                change(f"a byte of {name}", at, side, changed_byte(side[at], rng))
            at = next(i)
            change(f"a number of {name}", at, side, changed_number(side[at], rng.randrange(1, 7)))
        if op != "cmac_verify":
            at = next(i)
            change("a byte too few of theirs", at, theirs, theirs[at][:-2] if len(theirs[at]) > 4 else "0 -")
        i = iter(rng.sample([i for i in those if numbers[i]], 3))
        at = next(i)
        change("another refusal of ours", at, ours, changed_number(ours[at], numbers[at] % 6 + 1))
        at = next(i)
        change("a refusal of ours called done", at, ours, changed_number(ours[at], 0))
        at = next(i)
        refused = f"{numbers[at]} 1" if op == "cmac_verify" else changed_byte(ours[at], rng)
        change("what a refusal of ours left", at, ours, refused)
    for right, answers in ((True, ("0 0", "0 0", "0 2", "1 1")), (False, ("0 1", "0 1", "0 170", "1 1"))):
        tags = [i for i, case in enumerate(cases) if case.op == "cmac_verify" and numbers[i] == 0 and (case.kind == "right") == right]
        for at, side, answer in zip(rng.sample([i for i in tags if i not in changed], 4), (theirs, ours, ours, ours), answers):
            change(f"{side[at]} called {answer}", at, side, answer)
    for op in ("mix", "mix_row"):
        i = iter(rng.sample([i for i, case in enumerate(cases) if case.op == op and numbers[i] == 0], 6))
        for side, name in ((theirs, "theirs"), (ours, "ours")):
            at = next(i)
            change(f"a word of {name}", at, side, changed_word(side[at], rng))
            for number in (4, 13) if op == "mix_row" else ():
                at = next(i)
                change(f"a number of {name}", at, side, changed_number(side[at], number))
    for number in (4, 13):
        rows = [i for i, case in enumerate(cases) if case.op == "mix_row" and numbers[i] == number]
        for at, other in zip(rng.sample(rows, 3), (0, 17 - number, None)):
            line = changed_word(ours[at], rng) if other is None else changed_number(ours[at], other)
            change(f"a {number} of ours for a row called {line}", at, ours, line)
    found = differences(cases, numbers, ours, theirs)
    wrong = [f"not noticed in case {i}: {name}" for i, name in changed.items() if i not in found]
    return len(changed), wrong + [f"differs without a change: case {i}" for i in found if i not in changed]


def main():
    parser = argparse.ArgumentParser(description=__doc__, formatter_class=argparse.RawDescriptionHelpFormatter)
    parser.add_argument("--short", action="store_true")
    parser.add_argument("--seed", type=int)
    parser.add_argument("--archivist", default=ADAPTER)
    parser.add_argument("--show", type=int)
    chosen = parser.parse_args()
    seed = int.from_bytes(os.urandom(6), "big") if chosen.seed is None else chosen.seed
    began = time.monotonic()
    cases = list(Maker(seed, chosen.short).all())
    if chosen.show is not None:
        print(request(cases[chosen.show]), end="")
        return
    print(f"compare_c: seed {seed}{', short' if chosen.short else ''}", flush=True)
    numbers = [number_of(case) for case in cases]
    requests = [request(case) for case in cases]
    admitted = [i for i, number in enumerate(numbers) if number == 0]
    failures = [f"no case of {gap}" for gap in gaps(cases, numbers)]
    if len(cases) < (1000 if chosen.short else 10000):
        failures.append(f"only {len(cases)} cases")
    with tempfile.TemporaryDirectory() as place:
        ours = ask_ours(requests, place)
        theirs = ask_theirs(chosen.archivist, cases, requests, admitted, place)
    found = differences(cases, numbers, ours, theirs)
    failures += [f"case {i}: {requests[i][:100].strip()}..: {text}" for i, text in found.items()]
    changed, wrong = (0, []) if found else changed_answers(cases, numbers, ours, theirs, random.Random(seed))
    failures += wrong
    for failure in failures[:20]:
        print(f"compare_c: FAILED: {failure}")
    length = sum(len(cases[i].source) for i in admitted if cases[i].op in OPERATIONS)
    print(
        f"compare_c: seed {seed}: {len(cases)} cases, {len(admitted)} admitted ({length} bytes) and {len(cases) - len(admitted)} refused; "
        f"{len(found)} differ; {changed - len(wrong)} of {changed} changed answers noticed; {time.monotonic() - began:.0f} s"
    )
    sys.exit(1 if failures else 0)


main()
