"""Documents 01 and 02 for the tests, once: which number an operation gives, and the tape. Lengths are in bytes; a number is 0 or the first
that applies. Blocks and mixed words on a tape are the archivists'. tests/opener.py and tests/verifier.py, the tools for people, the tests in C
and those in Rust have rules of their own, to differ if these are wrong."""
import collections
import functools
import operator
import os
import sys

sys.dont_write_bytecode = True
sys.path.insert(0, os.path.join(os.path.dirname(os.path.abspath(__file__)), "archivists"))
import labyrinth

NS, LS = (1, 2, 4), (2, 3, 4)
SIZES = [(n, l) for n in NS for l in LS]
TAG_LENGTHS = range(8, 17)  # lengths of tags
PUBLISHED = bytes.fromhex("0101030F0A1F0F0C")  # the row
MIXED = {0x1: 0x0C0F1F0A0F030101, 0x100: 0x0F1F0A0F0301010C, 0x0101010101010101: 0x1A1A1A1A1A1A1A1A}  # words, and what mixing gives

# ---- numbers: document 01, 'Operations and what they turn away', and of Job 7 in document 02 the 15 where the set that is named is not loaded.
# n is the working key's, but for expansion


def expansion(n, l, key, loaded=True):
    return 1 if n not in NS else 2 if l not in LS else 15 if not loaded else 3 if key != 8 * n * l else 0


def block(n, source, destination, loaded=True):
    return 1 if n not in NS else 15 if not loaded else 4 if source != 16 * n else 5 if destination != 16 * n else 0


def cbc(n, start, source, destination, loaded=True):
    return 1 if n not in NS else 15 if not loaded else 6 if start != 16 * n else 4 if source % (16 * n) else 5 if destination != source else 0


def ctr(n, start, source, destination, loaded=True):
    return 1 if n not in NS else 15 if not loaded else 6 if start != 16 * n else 5 if destination != source else 0


# ---- document 02


def tag(n, length, loaded=True):
    """Job 1, of a tag that is made or verified."""
    return 1 if n not in NS else 15 if not loaded else 12 if n != 1 else 11 if length not in TAG_LENGTHS else 0


def mixing(row):
    """Job 4, of mixing by a row; and Job 5, of its inverse."""
    return 13 if functools.reduce(operator.xor, row, 0) == 0 else 0


def table(row, words):
    """Job 4, of a row's merged table in a buffer of so many words."""
    return mixing(row) or (5 if words != 256 else 0)


WRAPPED_LENGTHS, UNWRAPPED_LENGTHS = range(24, 137, 8), range(16, 129, 8)


def wrapping(n, source, destination, loaded=True):
    """Job 8, of a key that is wrapped."""
    return key_lengths(n, source, destination, loaded, UNWRAPPED_LENGTHS, source + 8)


def unwrapping(n, source, destination, loaded=True, right=lambda: True):
    """Of one that is unwrapped; whether its check value is right is asked last."""
    return key_lengths(n, source, destination, loaded, WRAPPED_LENGTHS, source - 8) or (0 if right() else 18)


def key_lengths(n, source, destination, loaded, sources, fits):
    return 1 if n not in NS else 15 if not loaded else 12 if n != 1 else 17 if source not in sources else 5 if destination != fits else 0


# Job 9, a page record: each command's byte with the width of its operand, those before the blocks in their order, a block's and the tag's
PAGE_HEAD = ((0x10, 4), (0x11, 4), (0x12, 32), (0x13, 16))  # number, day, title, start block
PAGE_BLOCK, PAGE_TAG = (0x15, 16), (0x1F, 16)
PAGE_BLOCKS = range(4097)  # none to 4,096


def record_length(blocks):
    """Every command is its byte and its operand, so 77 bytes and 17 for each block."""
    return sum(1 + width for _, width in (*PAGE_HEAD, *[PAGE_BLOCK] * blocks, PAGE_TAG))


def page_key(n, loaded=True):
    """Of the sealing key, and of the tag key."""
    return 1 if n not in NS else 15 if not loaded else 12 if n != 1 else 0


def page_lengths(title, start, body, destination):
    """What the writer looks at behind the keys."""
    whole = body % 16 == 0 and body // 16 in PAGE_BLOCKS
    return 19 if title != 32 else 6 if start != 16 else 4 if not whole else 5 if destination != record_length(body // 16) else 0


def page_writing(sealing, tagging, title, start, body, destination):
    """A key is its n, and whether its set is loaded."""
    return page_key(*sealing) or page_key(*tagging) or page_lengths(title, start, body, destination)


def page_reading(sealing, tagging, blocks, right, destination):
    """Of the keyed reader. Any other layout has None for its blocks; whether the tag is right is asked only of a record."""
    return page_key(*sealing) or page_key(*tagging) or (19 if blocks is None else 20 if not right() else 5 if destination != 16 * blocks else 0)


class Store:
    """Job 7, naively: four sets, each a substitution and a row, and what publishers 0 and 1 have taken, where 4 and above is none."""

    def __init__(self, sets, taken):
        self.sets, self.taken = list(sets), list(taken)

    @classmethod
    def fresh(cls):
        return cls([(bytes(labyrinth.S), PUBLISHED), *[(bytes(256), bytes(8))] * 3], [4, 4])

    def content(self, substitution, row):
        """What loading refuses for its content."""
        return 14 if sorted(substitution) != list(range(256)) else mixing(row)

    def tables(self, i):
        """Set 0 is the published one, whatever stands at its place."""
        return (bytes(labyrinth.S), PUBLISHED) if i == 0 else self.sets[i]

    def loaded(self, i):
        return i < 4 and self.content(*self.tables(i)) == 0

    def held(self, i):
        return i == 0 or i in self.taken

    def outside(self, publisher, i):
        return publisher > 1 or i > 3

    def load(self, publisher, i, substitution, row):
        number = 15 if self.outside(publisher, i) else self.content(substitution, row) or (16 if self.held(i) else 0)
        if number == 0:
            self.sets[i] = substitution, row
        return number

    def take(self, publisher, i):
        number = 15 if self.outside(publisher, i) or not self.loaded(i) else 0
        if number == 0:
            self.taken[publisher] = i
        return number


Entry = collections.namedtuple("Entry", "number replaces key")
BLANK = Entry(0, 0, bytes(40))
ENTRIES = 64  # at most


class Register:
    """Job 10, naively: a count, as it was written, and 64 entries, each a number, the number that it replaces (0 for none) and 40 bytes of wrapped key."""

    def __init__(self, count, entries):
        self.count, self.entries = count, list(entries)

    @classmethod
    def empty(cls):
        return cls(0, [BLANK] * ENTRIES)

    def held(self):
        """Document 01: 'a count of entries in it above its limit is read as the limit'."""
        return self.entries[: min(self.count, ENTRIES)]

    def matches(self, number, other):
        """'0 matches none'."""
        return number != 0 and number == other

    def present(self, number):
        return any(self.matches(number, entry.number) for entry in self.held())

    def replaced(self, number):
        """Whether any entry names it as replaced."""
        return any(self.matches(number, entry.replaces) for entry in self.held())

    def taken(self, number):
        return number == 0 or self.present(number)

    def replaceable(self, number):
        return number == 0 or self.present(number) and not self.replaced(number)

    def full(self):
        return len(self.held()) == ENTRIES

    def adding(self, number, replaces):
        return 21 if self.taken(number) else 22 if not self.replaceable(replaces) else 23 if self.full() else 0

    def add(self, number, replaces, key):
        answer = self.adding(number, replaces)
        if answer == 0:
            self.entries[self.count] = Entry(number, replaces, key)
            self.count += 1
        return answer

    def first(self, number):
        """The place of 'the first entry with the number', or None."""
        return next((at for at, entry in enumerate(self.held()) if self.matches(number, entry.number)), None)

    def later(self, place):
        """That of 'the first later entry that replaces the one reached', or None."""
        held = self.held()
        return next((at for at in range(place + 1, len(held)) if self.matches(held[place].number, held[at].replaces)), None)

    def chain(self, place):
        """The places from an entry to the end of its replacements."""
        places = []
        while place is not None:
            places.append(place)
            place = self.later(place)
        return places

    def rule(self, places):
        """0 'still current', 1 'replaced'."""
        return 0 if len(places) == 1 else 1

    def find(self, number):
        """The number; the rule, how many replacements were followed, and the entry, or None."""
        place = self.first(number)
        if place is None:
            return 22, 0, 0, None
        places = self.chain(place)
        return 0, self.rule(places), len(places) - 1, self.held()[places[-1]]


# ---- what the C interface adds: the key itself is handed in, so that expansion's numbers come first; and a row is a buffer


def through_c(op, n, l, key, start, source, destination):
    """A tag, made or to be verified, is the destination, and n is 1 there, as it is for keys that are wrapped and unwrapped."""
    own = {
        "encipher": block(n, source, destination),
        "decipher": block(n, source, destination),
        "cbc_seal": cbc(n, start, source, destination),
        "cbc_open": cbc(n, start, source, destination),
        "ctr": ctr(n, start, source, destination),
        "cmac": tag(n, destination),
        "cmac_verify": tag(n, destination),
        "wrap": wrapping(n, source, destination),
        "unwrap": unwrapping(n, source, destination),
    }
    return expansion(n, l, key) or own[op]


def mixing_through_c(row):
    """The 4 is the header's."""
    return 4 if len(row) != 8 else mixing(row)


# records as bytes; one of another length gets 4 before all else, and so does a row that isn't eight bytes, at loading, a wrapped key that isn't 40, at
# adding, and room for an entry that isn't 44

STORE, WORKING, WRAPPED, ENTRY = 1072, 272, 40, 44
REGISTER = 8 + ENTRIES * ENTRY


def number_bytes(number):
    return number.to_bytes(8, "little")


def store_bytes(store):
    return b"".join(substitution + row for substitution, row in store.sets) + b"".join(map(number_bytes, store.taken))


def store_of(data, kind=Store):
    sets = [(data[at : at + 256], data[at + 256 : at + 264]) for at in range(0, 1056, 264)]
    return kind(sets, [int.from_bytes(data[at : at + 8], "little") for at in (1056, 1064)])


def working_bytes(n, i, words):
    """n, the set, and up to 32 words as bytes."""
    return (number_bytes(n) + number_bytes(i) + words).ljust(WORKING, b"\0")


def working_of(data):
    return int.from_bytes(data[:8], "little"), int.from_bytes(data[8:16], "little"), data[16:]


def entry_bytes(entry):
    return entry.number.to_bytes(2, "little") + entry.replaces.to_bytes(2, "little") + entry.key


def register_bytes(register):
    return number_bytes(register.count) + b"".join(map(entry_bytes, register.entries))


def register_of(data, kind=Register):
    two = lambda at: int.from_bytes(data[at : at + 2], "little")
    return kind(int.from_bytes(data[:8], "little"), [Entry(two(at), two(at + 2), data[at + 4 : at + ENTRY]) for at in range(8, REGISTER, ENTRY)])


# ---- the tape: document 01, 'The command tape', with the end rule of document 02's Job 2

LONGEST = 65536  # of a tape
ROOM = 65  # of an answer buffer
WIDTH = {0x00: 1, 0x01: 131, 0x03: 65, 0x04: 65, 0x05: 9}  # of a command with its operands
ANSWERED = (0, 1, 2, 4, 7, 8, 9, 10)  # the numbers that the program can write


def command(byte, *operands):
    """A command whose operands are filled with zeros."""
    return (bytes([byte]) + b"".join(operands)).ljust(WIDTH[byte], b"\x00")


def set_key(n, l, key=b""):
    return command(0x01, bytes([n, l]), key)


END = command(0x00)
MIX, MIX_ANSWER = command(0x05, b"\x01"), b"\x00" + PUBLISHED
EXAMPLE = MIX + command(0x03) + set_key(3, 2) + b"\x7f"
EXAMPLE_ANSWERS = bytes.fromhex("00 01 01 03 0F 0A 1F 0F 0C 09 01 07")

# the marks are 0 or 1; the key is that of 8nl bytes which made the working key, if one did; the set is what the key names, which the tape passes over
State = collections.namedtuple("State", "n keyed ended key set", defaults=[b"", 0])
FRESH = State(0, 0, 0)


@functools.lru_cache(maxsize=None)
def cipher(n, key):
    return labyrinth.Labyrinth(n, key)


@functools.lru_cache(maxsize=None)
def mapped(byte, n, key, data):
    """What 03 and 04 do to a block."""
    return (cipher(n, key).encrypt_block if byte == 0x03 else cipher(n, key).decrypt_block)(data)


@functools.lru_cache(maxsize=None)
def mixed(data):
    return labyrinth.cmbn_poly(int.from_bytes(data, "little")).to_bytes(8, "little")


def unused(data):
    return 10 if any(data) else 0


def step(state, rest, room=ROOM):
    """The number, how many bytes are taken, the answer, the next state."""
    ended = state._replace(ended=1)
    if room != ROOM:
        return 5, 0, b"", state
    if state.ended:
        return 0, 0, b"", state
    if not rest:
        return 8, 0, b"\x08", ended
    byte = rest[0]
    if byte == 0x00:
        return 0, 1, b"", ended
    if byte not in WIDTH:
        return 7, 1, b"\x07", ended
    if len(rest) < WIDTH[byte]:
        return 8, len(rest), b"\x08", ended
    operands, number, data = rest[1 : WIDTH[byte]], 0, b""
    if byte == 0x01:
        n, l, used = operands[0], operands[1], 8 * operands[0] * operands[1]
        number = expansion(n, l, used) or unused(operands[2 + used :])
        if number == 0:
            state = State(n, 1, 0, operands[2 : 2 + used])
    elif byte == 0x05:
        data = mixed(operands)
    else:
        used = 16 * state.n
        number = 9 if not state.keyed else block(state.n, used, used) or unused(operands[used:])
        if number == 0:
            data = mapped(byte, state.n, state.key, operands[:used])
    return number, WIDTH[byte], bytes([number]) + data, state


def steps(tape):
    """The program's steps on a tape, to the one that ends it: number, bytes taken, answer."""
    state = FRESH
    while not state.ended:
        number, taken, answer, state = step(state, tape)
        yield number, taken, answer
        tape = tape[taken:]


def answers(tape):
    """What the program writes, one answer after another."""
    return [b"\x04"] if len(tape) > LONGEST else [answer for _, _, answer in steps(tape) if answer]
