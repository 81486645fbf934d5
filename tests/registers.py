#!/usr/bin/env python3
"""The register of page keys (document 02, Job 10) through the C interface. Asked are tests/labyrinth_lines.c's lines over the library; a request has the whole
register that a call is lent, so that one made by hand is tried as any other, or a register and many calls on it, one behind another. Needs target/dist (make
lib) and gcc.

    tests/registers.py [--seed NUMBER]

- 100,000 random calls from empty registers, numbers drawn from small ranges so that they meet; chains of 64; and of each register that these leave, by the
  library's own bytes, that chains from different entries replacing none never meet and that none closes;
- registers made by hand: counts to 2^64 - 1, equal numbers, rings, entries that name a number which stands later, entries with number 0, entries past the
  count; each number to 65535 looked up in some;
- every length of what is lent about the right one, and every set of faults at once that a call can have, for the order of the refusals.

Numbers, and every byte of every register, are those of papers.Register, a naive model. Then changed answers, changed input and wrong rules in the model are
shown to be noticed, and the rules' numbers are looked up in the text of our definitions. The random cases are made from a seed, which is printed."""
import argparse
import collections
import itertools
import os
import random
import subprocess
import sys
import tempfile
import time

sys.dont_write_bytecode = True
HERE = os.path.dirname(os.path.abspath(__file__))
sys.path[:0] = [HERE]
import papers
from definitions import looked_up
from lines import Wrong, asked, differences, line, program
from papers import BLANK, ENTRIES, ENTRY, REGISTER, WRAPPED, Entry

SEED = 10
LARGE, LAST = 2**64 - 1, 2**16 - 1
HISTORIES, CALLS = 400, 250

# how many calls of each kind there are
COUNTS = {
    "example": 29, "by hand, found": 2561, "by hand, added": 2477, "any by hand": 17100, "lengths": 391, "faults": 1088, "chains of 64": 2380,
    "histories": HISTORIES * CALLS, "all small": 14580, "all short": 28672, "every number": 3 * 2**16,
}  # fmt: skip


# ---- what is expected


class Kept(papers.Register):
    """The model, with what the C interface adds, so that a wrong rule can stand in for each."""

    @staticmethod
    def fits(length):
        return length == REGISTER

    def add_lent(self, number, replaces, key):
        return 4 if len(key) != WRAPPED else self.add(number, replaces, key)

    def find_lent(self, number, room):
        """The number, the rule, how many were followed, and what the room for an entry holds then."""
        answer, rule, followed, entry = (4, 0, 0, None) if len(room) != ENTRY else self.find(number)
        return answer, rule, followed, room if entry is None else papers.entry_bytes(entry)


def is_add(call):
    return len(call) == 3


def one_answer(register, call, apart):
    """Of a call on a register of the right length, without what it changed there."""
    if is_add(call):
        return str(register.add_lent(*call))
    *numbers, room = register.find_lent(*call)
    return apart.join([*map(str, numbers), room.hex() or "-"])


def changes(before, register):
    """The parts of a register, count and entries, that are not what they were."""
    count, entries = before
    if count != register.count:
        yield f",0:{papers.number_bytes(register.count).hex()}"
    if entries != register.entries:
        for at, (old, new) in enumerate(zip(entries, register.entries)):
            if old != new:
                yield f",{8 + ENTRY * at}:{papers.entry_bytes(new).hex()}"


def expected(request, kind=Kept):
    """The answer's line."""
    op, data, *given = request
    calls = given if op == "register_calls" else [given]
    if not kind.fits(len(data)):
        register, answers = None, ["4" if is_add(call) else f"4,0,0,{call[1].hex() or '-'}" for call in calls]
    else:
        register, answers = papers.register_of(data, kind), []
        for call in calls:
            before = register.count, list(register.entries)
            answers.append(one_answer(register, call, ",") + "".join(changes(before, register) if is_add(call) else ()))
    after = (data if register is None else papers.register_bytes(register)).hex() or "-"
    if op == "register_calls":
        return " ".join([*answers, after])
    return f"{answers[0].partition(',')[0]} {after}" if op == "register_add" else answers[0].replace(",", " ")


def calls_of(request):
    return request[2:] if request[0] == "register_calls" else [request[2:]]


def numbers_of(request, answer):
    """Which operation gave which number, of each call."""
    found = answer.split(" ") if request[0] == "register_calls" else [answer.partition(" ")[0]]
    return [("add" if is_add(call) else "find", int(one.partition(",")[0])) for call, one in zip(calls_of(request), found)]


# ---- registers


def by_pairs(rng, pairs, count=None, rest=()):
    """The bytes of a register of entries, given by number and replaced number; behind them may stand others, past the count."""
    entries = [Entry(number, replaces, rng.randbytes(WRAPPED)) for number, replaces in (*pairs, *rest)]
    return papers.register_bytes(papers.Register(len(pairs) if count is None else count, entries + [BLANK] * (ENTRIES - len(entries))))


EMPTY = bytes(REGISTER)

# the readings of the request, with values worked out by hand: entries, and calls; a look-up has the rule, how many are followed and the place of the entry
EXAMPLES = [
    # the entry that names 7 stands before it, and yet any entry counts for a refusal
    ([(5, 7), (7, 0)], [(("find", 7), (0, 0, 0, 1)), (("find", 5), (0, 0, 0, 0)), (("add", 8, 7), 22), (("add", 8, 5), 0), (("find", 5), (0, 1, 1, 2))]),
    # a ring ends, since only later entries are followed
    ([(5, 6), (6, 5)], [(("find", 5), (0, 1, 1, 1)), (("find", 6), (0, 0, 0, 1)), (("add", 7, 5), 22), (("add", 7, 6), 22)]),
    # equal numbers: the first starts; of two that name a number the first later one is followed
    ([(5, 0), (5, 0), (6, 5), (7, 5), (8, 6)], [(("find", 5), (0, 1, 2, 4)), (("find", 7), (0, 0, 0, 3))]),
    ([(5, 0), (6, 5), (6, 0), (7, 6)], [(("find", 6), (0, 1, 1, 3)), (("find", 5), (0, 1, 2, 3))]),
    # 0 matches none: not found, and what replaces none does not replace it
    ([(5, 0), (0, 5), (6, 0)], [(("find", 5), (0, 1, 1, 1)), (("find", 0), (22,)), (("add", 0, 0), 21), (("add", 7, 0), 0)]),
    # the rule belongs to the number asked for
    ([(5, 0), (6, 5)], [(("find", 6), (0, 0, 0, 1)), (("find", 5), (0, 1, 1, 1)), (("add", 5, 5), 21), (("add", 9, 9), 22), (("add", 7, 5), 22), (("add", 7, 6), 0)]),
    # a full register gives 21 and 22 first
    ([(1 + i, 0) for i in range(64)], [(("add", 64, 99), 21), (("add", 0, 0), 21), (("add", 65, 99), 22), (("add", 65, 1), 23), (("add", 65, 0), 23), (("find", 64), (0, 0, 0, 63))]),
]  # fmt: skip


def examples(rng):
    """Each request, and what the example says of it: the calls' numbers, and of look-ups all."""
    for pairs, calls in EXAMPLES:
        data, given, said = by_pairs(rng, pairs), [], []
        entries = papers.register_of(data).entries
        for (op, *words), answer in calls:
            given.append((*words, rng.randbytes(WRAPPED if op == "add" else ENTRY)))
            if op == "add" and answer == 0:
                entries[len(pairs)] = Entry(*given[-1])
            said.append(answer if op == "add" else (22, 0, 0, given[-1][1]) if answer == (22,) else (*answer[:3], papers.entry_bytes(entries[answer[3]])))
        yield ("register_calls", data, *given), said


def says(request, said, answer):
    """Whether an answer is what an example says."""
    found = []
    for call, one in zip(calls_of(request), answer.split(" ")):
        fields = one.split(",")
        found.append(int(fields[0]) if is_add(call) else (*map(int, fields[:3]), bytes.fromhex(fields[3])))
    return found == said


def look_ups(rng, data, numbers):
    """One request: each of these looked up, in room that holds anything."""
    return ("register_calls", data, *((number, rng.randbytes(ENTRY)) for number in numbers))


def chains_of_64(rng):
    """64 keys, each replacing the one before, with every number looked up at 1, 2, 63 and 64 of them; then a 65th."""
    orders = [list(range(1, 65)), list(range(64, 0, -1)), list(range(LAST, LAST - 64, -1)), [256 * i for i in range(1, 65)], [256 * i + 255 for i in range(64)]]
    orders += [rng.sample(range(1, 90), 64), rng.sample(range(1, LAST + 1), 64)]
    for order in orders:
        calls = []
        for at, number in enumerate(order):
            calls.append((number, order[at - 1] if at else 0, rng.randbytes(WRAPPED)))
            if at in (0, 1, 62, 63):
                calls += [(one, rng.randbytes(ENTRY)) for one in (*order, 0, 200)]
        more = next(number for number in itertools.count(100) if number not in order)
        calls += [(number, replaces, rng.randbytes(WRAPPED)) for number in (more, order[0], 0) for replaces in (order[-1], order[0], more, 0)]
        yield ("register_calls", EMPTY, *calls)


# legal once bits are lost, or near a limit
COUNTED = (0, 1, 2, 62, 63, 64, 65, 66, 127, 128, 129, 255, 256, 257, 319, 320, 2**16, 2**16 + 1, 2**31, 2**32, 2**32 + 1, 2**32 + 63, 2**63, 2**63 + 3, LARGE - 63, LARGE - 1, LARGE)


def by_hand(rng):
    """Registers that no calls leave, or that have something behind their entries."""
    four = [(100 + i, 96 + i if i >= 4 else 0) for i in range(64)]  # four chains of 16
    for count in COUNTED:
        yield by_pairs(rng, four, count)
    yield by_pairs(rng, [(0, 0)] * 64, 64)
    yield by_pairs(rng, [(0, 0)] * 64, 3)
    yield by_pairs(rng, [(5, 0)] * 64)
    yield by_pairs(rng, [(5, 5)] * 64)  # each replaces itself, and every one before it
    yield by_pairs(rng, [(5, 5)] * 64, 63)
    yield by_pairs(rng, [(5, 5)] * 64, LARGE)
    yield by_pairs(rng, [(1 + i, 1 + (i - 1) % 64) for i in range(64)])  # rings of 64, 3, 2 and 1
    yield by_pairs(rng, [(64 - i, 64 - (i - 1) % 64) for i in range(64)])
    yield by_pairs(rng, [(1 + i, 1 + (i + 1) % 64) for i in range(64)])
    yield by_pairs(rng, [(5, 7), (6, 5), (7, 6)])
    yield by_pairs(rng, [(5, 7), (7, 6), (6, 5)])
    yield by_pairs(rng, [(5, 6), (6, 5)])
    yield by_pairs(rng, [(5, 5)])
    yield by_pairs(rng, [(5, 7), (7, 0)])  # names a number that stands later
    yield by_pairs(rng, [(7, 6), (6, 5), (5, 0)])
    yield by_pairs(rng, [(7, 6), (6, 5), (5, 0), (8, 7), (9, 8)])
    yield by_pairs(rng, [(5, 0), (6, 5), (7, 5), (8, 7), (9, 6)])  # two name one number
    yield by_pairs(rng, [(5, 0), (7, 5), (6, 5), (8, 7), (9, 7)])
    yield by_pairs(rng, [(5, 0), (5, 0), (6, 5), (6, 0), (7, 6), (5, 7), (8, 5)])  # equal numbers
    yield by_pairs(rng, [(5, 0), (6, 5), (5, 6), (6, 5), (5, 6)])
    yield by_pairs(rng, [(5, 0), (0, 5), (6, 0), (7, 6)])  # number 0
    yield by_pairs(rng, [(0, 0), (5, 0), (0, 5), (0, 0), (6, 5)])
    yield by_pairs(rng, [(0, 5), (5, 0), (6, 0)])
    yield by_pairs(rng, [(5, 9), (6, 8)])  # what is named isn't there
    yield by_pairs(rng, [(0x0102, 0), (0x0201, 0x0102), (0x0103, 0x0201), (3, 1)])  # numbers that share bytes
    yield by_pairs(rng, [(256, 0), (1, 256), (257, 1), (LAST, 257)])
    yield by_pairs(rng, [(LAST, 0), (255, LAST), (0xFF00, 255)])
    for count in (0, 1, 2, 3):  # what would match stands past the count
        yield by_pairs(rng, [(5, 0), (6, 5), (7, 6), (5, 0), (8, 5), (9, 7), (6, 8)], count)
    yield by_pairs(rng, [(5, 0), (6, 0)], None, [(7, 5)] * 62)
    yield by_pairs(rng, [(1 + i, i) for i in range(63)], None, [(64, 63)])
    yield by_pairs(rng, [(1 + i, i) for i in range(64)], LARGE)
    yield by_pairs(rng, [(1 + i, i // 2 * 2) for i in range(64)])
    yield EMPTY
    yield b"\xff" * REGISTER


def seen(data):
    """Numbers to be tried on a register: those of its entries and of what they replace, past its count too; 0 and others."""
    entries = papers.register_of(data).entries
    return sorted({0, 1, 5, 6, 7, 200, LAST, *(entry.number for entry in entries), *(entry.replaces for entry in entries)})


def some_of(rng, register):
    """Of each kind of number one or two: what is present, named, both or neither, and what stands past the count only."""
    numbers = [number for number in seen(papers.register_bytes(register)) if number]
    past = {entry.number for entry in register.entries} | {entry.replaces for entry in register.entries}
    kinds = collections.defaultdict(list)
    for number in numbers:
        kinds[register.present(number), register.replaced(number), number in past].append(number)
    return [0, *itertools.chain(*(rng.sample(ones, min(2, len(ones))) for ones in kinds.values()))]


def adds(rng, data):
    """Every kind of number with every kind of replaced number, each on the register anew."""
    some = some_of(rng, papers.register_of(data))
    for number in some:
        for replaces in some:
            yield "register_add", data, number, replaces, rng.randbytes(WRAPPED)


def any_by_hand(rng):
    """Any entries, of few numbers or of any bytes, and any count: look-ups, and calls that add, one behind another."""
    for at in range(300):
        size = rng.choice((1, 2, 3, 4, 6, 8, 12, 30, 62, 63, 64))
        count = rng.choice((size, size, size, size + 64, 2**32 + size, LARGE))
        if at % 6:
            some = range((0, 1, 2, 3, 6, 19)[at % 6] + 2)
            data = by_pairs(rng, [(rng.choice(some), rng.choice(some)) for _ in range(ENTRIES)], count)
        else:
            data = papers.number_bytes(count) + rng.randbytes(REGISTER - 8)
            some = [entry.number for entry in papers.register_of(data).entries[:10]]
        more = [*some, *rng.sample(range(LAST + 1), 10)]
        calls = [(number, rng.randbytes(ENTRY)) for number in more]
        calls += [(rng.choice(more), rng.choice(more), rng.randbytes(WRAPPED)) for _ in range(20)]
        yield ("register_calls", data, *calls, *((number, rng.randbytes(ENTRY)) for number in more))


def all_small(rng):
    """Every register of three entries with numbers and replaced numbers from 0 to 2: 0 to 3 looked up, and every call that adds with such numbers."""
    few, key, room = range(4), rng.randbytes(WRAPPED), rng.randbytes(ENTRY)
    for pairs in itertools.product(itertools.product(range(3), repeat=2), repeat=3):
        yield ("register_calls", by_pairs(rng, pairs), *((number, room) for number in few), *((*pair, key) for pair in itertools.product(few, repeat=2)))


def all_short(rng):
    """Every history of three calls that add, with numbers and replaced numbers from 0 to 3; each of these looked up behind them."""
    few, keys, room = range(4), [rng.randbytes(WRAPPED) for _ in range(3)], rng.randbytes(ENTRY)
    for pairs in itertools.product(itertools.product(few, repeat=2), repeat=3):
        yield ("register_calls", EMPTY, *((*pair, key) for pair, key in zip(pairs, keys)), *((number, room) for number in few))


def every_number(rng):
    """Each number from 0 to 65535."""
    some = rng.sample(range(1, LAST), 40)
    pairs = [(LAST, 0), (256, LAST), (1, 256), (0, 1), *((number, some[at // 2] if at % 3 else 0) for at, number in enumerate(some))]
    room = rng.randbytes(ENTRY)
    for data in (by_pairs(rng, pairs, None, [(7, LAST), (8, 0)]), by_pairs(rng, [(rng.randrange(1, LAST + 1), rng.randrange(LAST + 1)) for _ in range(64)], LARGE), EMPTY):
        yield ("register_calls", data, *((number, room) for number in range(LAST + 1)))


# ---- lengths and faults

POWERS = [2**k for k in range(18)]


def lengths(rng):
    """Every length of a wrapped key and of room for an entry about the right one, of a register some; and longer by a power of two."""
    data, key, room = by_pairs(rng, [(5, 0), (6, 5)]), rng.randbytes(WRAPPED), rng.randbytes(ENTRY)
    for length in sorted({*range(91), *(WRAPPED + more for more in POWERS)}):
        yield "register_add", data, 7, 6, rng.randbytes(length)
    for length in sorted({*range(91), *(ENTRY + more for more in POWERS)}):
        yield "register_find", data, 5, rng.randbytes(length)
    others = {0, 1, 2, 7, 8, 9, 40, 44, 51, 52, 96, 1412, 2780, 2816, *(REGISTER - k for k in (1, 2, 8, 44)), *(REGISTER + more for more in POWERS), REGISTER + 44, 2 * REGISTER, REGISTER}
    for length in sorted(others):
        whole = (data + rng.randbytes(max(length - REGISTER, 0)))[:length]
        yield "register_add", whole, 7, 6, key
        yield "register_find", whole, 5, room
        yield "register_calls", whole, (5, room), (7, 6, key), (7, room)


def subsets(faults):
    """Each set of faults with the number of its first, faults being names with their numbers, in their order."""
    for which in range(2 ** len(faults)):
        chosen = [fault for at, fault in enumerate(faults) if which >> at & 1]
        yield {name for name, _ in chosen}, chosen[0][1] if chosen else 0


def faults(rng):
    """Requests with the number that the order of checks gives: the first fault's. The rules that the number is also held to are papers.py's. Number 0 may be
    present too, by hand, and a replaced number both absent and named already."""
    data, pick = rng.randbytes, rng.choice
    wrong_length = lambda right: pick((0, 1, right - 1, right + 1, 2 * right, right + 256))

    def register(full, zero, named, *, pairs=((5, 0), (6, 5), (7, 0))):
        """5 is replaced already, 6 and 7 are not; 0 is present, and 9 named and absent, if wanted."""
        pairs = [*pairs, *([(0, 0)] if zero else ()), *([(8, 9)] if named else ())]
        size = 64 if full else pick((len(pairs), len(pairs) + 1, 20, 63))
        pairs += [(1000 + at, 0) for at in range(len(pairs), size)]
        return by_pairs(rng, pairs, pick((64, 64, 65, 128, 2**32, 2**32 + 5, LARGE)) if full else size, [(9, 6), (20, 7)][: 64 - size])

    for _ in range(8):
        for chosen, number in subsets([("register", 4), ("wrapped", 4), ("zero", 21), ("present", 21), ("absent", 22), ("replaced", 22), ("full", 23)]):
            lent = register("full" in chosen, {"zero", "present"} <= chosen, {"absent", "replaced"} <= chosen)
            lent = (lent + data(REGISTER))[: wrong_length(REGISTER)] if "register" in chosen else lent
            add = 0 if "zero" in chosen else pick((5, 6, 7)) if "present" in chosen else pick((20, 30, LAST))
            replaces = 9 if "absent" in chosen else 5 if "replaced" in chosen else pick((0, 6, 7))
            yield number, ("register_add", lent, add, replaces, data(wrong_length(WRAPPED) if "wrapped" in chosen else WRAPPED))
        for chosen, number in subsets([("register", 4), ("entry", 4), ("absent", 22)]):
            lent = register(pick((True, False)), True, True)
            lent = (lent + data(REGISTER))[: wrong_length(REGISTER)] if "register" in chosen else lent
            look = pick((0, 9, 21, LAST)) if "absent" in chosen else pick((5, 6, 7, 8))
            yield number, ("register_find", lent, look, data(wrong_length(ENTRY) if "entry" in chosen else ENTRY))


# ---- random calls from an empty register


class History:
    """Calls on one register. The numbers come from a small range, so that they meet; what is replaced is mostly present."""

    def __init__(self, rng):
        self.rng, self.register = rng, Kept.empty()
        self.top = rng.choice((2, 5, 12, 40, 70, 70, 90, 120, 250, LAST))
        self.adds = rng.choice((0.3, 0.5, 0.8, 0.9))
        self.roots = rng.choice((0.05, 0.2, 0.5, 0.9))  # how many replace none
        self.ends = rng.choice((0.3, 0.7, 0.97))  # how many of the others replace one that is present and not replaced

    def number(self):
        held = self.register.held()
        if self.top == LAST and held and self.rng.random() < 0.4:
            return self.rng.choice(held).number
        return 0 if self.rng.random() < 0.02 else self.rng.randint(0, self.top)

    def replaced(self):
        held = self.register.held()
        if self.rng.random() < self.roots:
            return 0
        if held and self.rng.random() < self.ends:
            named = {entry.replaces for entry in held}
            return self.rng.choice([entry.number for entry in held if entry.number not in named])
        return self.number()

    def calls(self):
        data, odd = self.rng.randbytes, lambda right: self.rng.choice((0, right - 1, right + 1)) if self.rng.random() < 0.01 else right
        for _ in range(CALLS):
            if self.rng.random() < self.adds:
                call = self.number(), self.replaced(), data(odd(WRAPPED))
                self.register.add_lent(*call)
            else:
                call = self.number(), data(odd(ENTRY))
            yield call


def cases(seed, few=False):
    """Every request with its kind, in order; what the examples say, by place; and the number that the order of faults gives, by place. Or few: a tenth of the
    histories, and not those kinds of which there is all that there can be."""
    rng, made, said, ordered = random.Random(seed), [], {}, {}
    for request, words in examples(rng):
        said[len(made)] = words
        made.append(("example", request))
    for data in by_hand(rng):
        made.append(("by hand, found", look_ups(rng, data, seen(data))))
        made += [("by hand, added", request) for request in adds(rng, data)]
    made += [("any by hand", request) for request in any_by_hand(rng)]
    made += [("lengths", request) for request in lengths(rng)]
    for number, request in faults(rng):
        ordered[len(made)] = number
        made.append(("faults", request))
    made += [("chains of 64", request) for request in chains_of_64(rng)]
    made += [("histories", ("register_calls", EMPTY, *History(rng).calls())) for _ in range(HISTORIES // 10 if few else HISTORIES)]
    for kind, series in () if few else (("all small", all_small), ("all short", all_short), ("every number", every_number)):
        made += [(kind, request) for request in series(rng)]
    return made, said, ordered


def meetings(data):
    """What a register's bytes have against 'chains that start at different entries replacing none never meet, and no chain closes'. By numbers alone, wherever
    entries stand: an entry leads to all that name its number."""
    held = papers.register_of(data).held()
    leads = {at: [to for to, entry in enumerate(held) if entry.replaces == one.number != 0] for at, one in enumerate(held)}
    reached_from = {}
    for start, entry in enumerate(held):
        reached, ways = set(), [start]
        while ways:
            for to in leads[ways.pop()]:
                if to == start:
                    yield f"the chain from place {start} closes"
                elif to not in reached:
                    reached.add(to)
                    ways.append(to)
        for to in {start, *reached} if entry.replaces == 0 else ():
            if to in reached_from:
                yield f"the chains from places {reached_from[to]} and {start} meet at place {to}"
            reached_from[to] = start


# ---- wrong rules


def wrong_rules():
    """Each a model with one rule altered; and whether the histories from empty registers show it by themselves."""
    def rule(**methods):
        return type("Wrong", (Kept,), methods)

    def order(*numbers):
        """The refusals of adding in this order."""
        def adding(self, number, replaces):
            found = {21: self.taken(number), 22: not self.replaceable(replaces), 23: self.full()}
            return next((one for one in numbers if found[one]), 0)
        return adding

    def held(count):
        """The count read otherwise where it is above 64."""
        return lambda self: self.entries[: self.count if self.count <= 64 else min(count(self.count), 64)]

    def written(change):
        """Another entry written, or elsewhere."""
        def add(self, number, replaces, key):
            answer, at = papers.Register.add(self, number, replaces, key), self.count - 1
            if answer == 0:
                change(self, at, self.entries[at])
            return answer
        return add

    def put(**parts):
        def change(self, at, entry):
            self.entries[at] = entry._replace(**{name: part(getattr(entry, name)) for name, part in parts.items()})
        return written(change)

    def in_front(self, at, entry):
        self.entries[: at + 1] = [entry, *self.entries[:at]]

    def not_counted(self, at, entry):
        self.count -= 1

    def found(change):
        return lambda self, number: change(self, *papers.Register.find(self, number))

    def shown(change):
        """With a refusal."""
        def find_lent(self, number, room):
            answer = Kept.find_lent(self, number, room)
            return change(answer) if answer[0] == 22 else answer
        return find_lent

    def after(change):
        def add_lent(self, *call):
            answer = Kept.add_lent(self, *call)
            if answer:
                change(self, answer, *call)
            return answer
        return add_lent

    def as_limit(self, *call):
        self.count = min(self.count, ENTRIES)

    def over_the_last(self, answer, number, replaces, key):
        if answer == 23:
            self.entries[63] = Entry(number, replaces, key)

    def sixty_five(self, number, replaces, key):
        answer = papers.Register.add(self, number, replaces, key)
        if answer == 23 and self.count == 64:
            self.count, answer = 65, 0
        return answer

    def of_all(name):
        """Entries past the count are seen by one of the searches."""
        return lambda self, number: getattr(papers.Register(ENTRIES, self.entries), name)(number)

    def past(self, number):
        place, whole = self.first(number), papers.Register(ENTRIES, self.entries)
        if place is None:
            return 22, 0, 0, None
        places = whole.chain(place)
        return 0, whole.rule(places), len(places) - 1, whole.entries[places[-1]]

    def named_later(self, number):
        place = self.first(number)
        return place is not None and self.later(place) is not None

    def anywhere(self, place):
        entries = self.held()
        return next((at for at, entry in enumerate(entries) if at != place and self.matches(entries[place].number, entry.replaces)), None)

    def bounded(self, place):
        places = []
        while place is not None and len(places) < 65:
            places.append(place)
            place = self.later(place)
        return places

    def last_later(self, place):
        entries = self.held()
        return max((at for at in range(place + 1, len(entries)) if self.matches(entries[place].number, entries[at].replaces)), default=None)

    def goes_past_zero(self, place):
        entries = self.held()
        return next((at for at in range(place + 1, len(entries)) if entries[place].number == entries[at].replaces), None)

    def of_the_first(self, place):
        return papers.Register.later(self, place) if self.first(self.held()[place].number) == place else None

    def no_number_twice(self, place):
        places, numbers = [], set()
        while place is not None and self.held()[place].number not in numbers:
            numbers.add(self.held()[place].number)
            places.append(place)
            place = self.later(place)
        return places

    def last_with(self, number):
        return max((at for at, entry in enumerate(self.held()) if self.matches(number, entry.number)), default=None)

    def only_current(self, answer, rule, followed, entry):
        return (22, 0, 0, None) if rule else (answer, rule, followed, entry)

    def cut(self, number, replaces, key):
        return Kept.add_lent(self, number, replaces, key[:WRAPPED] if len(key) == WRAPPED + 1 else key)

    def padded(self, number, replaces, key):
        return Kept.add_lent(self, number, replaces, key + b"\0" if len(key) == WRAPPED - 1 else key)

    def wider(self, number, room):
        *answer, written = Kept.find_lent(self, number, room[:ENTRY] if len(room) == ENTRY + 1 else room)
        return *answer, written + room[len(written) :]

    def four_last(self, number, replaces, key):
        return self.adding(number, replaces) or Kept.add_lent(self, number, replaces, key)

    def four_behind_22(self, number, room):
        return (22, 0, 0, room) if self.find(number)[0] == 22 else Kept.find_lent(self, number, room)

    low, swapped = lambda number: number & 255, lambda number: number >> 8 | (number & 255) << 8

    yield "22 before 21", True, rule(adding=order(22, 21, 23))
    yield "23 before 22", True, rule(adding=order(21, 23, 22))
    yield "23 before 21", True, rule(adding=order(23, 21, 22))
    yield "number 0 is taken", True, rule(taken=lambda self, number: self.present(number))
    yield "a number that is present is taken", True, rule(taken=lambda self, number: number == 0)
    yield "a number that is named as replaced is not taken", False, rule(taken=lambda self, number: number == 0 or self.present(number) or self.replaced(number))
    yield "one that is replaced already is replaced", True, rule(replaceable=lambda self, number: number == 0 or self.present(number))
    yield "one that is absent is replaced", True, rule(replaceable=lambda self, number: number == 0 or not self.replaced(number))
    yield "replacing none needs a 0", True, rule(replaceable=lambda self, number: self.present(number) and not self.replaced(number))
    yield "none is replaced", True, rule(replaceable=lambda self, number: number == 0)
    yield "only later entries name a number as replaced", False, rule(replaced=named_later)
    yield "65 entries", True, rule(add=sixty_five)
    yield "63 entries", True, rule(full=lambda self: len(self.held()) >= 63)
    yield "a refused call writes the limit for the count", False, rule(add_lent=after(as_limit))
    yield "the sixty-fifth takes the last one's place", True, rule(add_lent=after(over_the_last))
    yield "a count above 64 modulo 64", False, rule(held=held(lambda count: count % 64))
    yield "a count above 64 modulo 65", False, rule(held=held(lambda count: count % 65))
    yield "a count above 64 modulo 256", False, rule(held=held(lambda count: count % 2**8))
    yield "a count above 64 modulo 2^16", False, rule(held=held(lambda count: count % 2**16))
    yield "a count above 64 modulo 2^32", False, rule(held=held(lambda count: count % 2**32))
    yield "a count above 64 is none", False, rule(held=held(lambda count: 0))
    yield "a count above 64 is 63", False, rule(held=held(lambda count: 63))
    yield "a count from 2^63 on is none", False, rule(held=held(lambda count: count if count < 2**63 else 0))
    yield "entries past the count are found", False, rule(first=of_all("first"))
    yield "entries past the count are followed", False, rule(find=past)
    yield "entries past the count are present", False, rule(present=of_all("present"))
    yield "entries past the count name a number", False, rule(replaced=of_all("replaced"))
    yield "the entry in front of the others", True, rule(add=written(in_front))
    yield "the count stays", True, rule(add=written(not_counted))
    yield "the wrapped key is not written", True, rule(add=put(key=lambda key: bytes(WRAPPED)))
    yield "39 bytes of the wrapped key", True, rule(add=put(key=lambda key: key[:-1] + b"\0"))
    yield "the wrapped key from its second byte", True, rule(add=put(key=lambda key: key[1:] + b"\0"))
    yield "the replaced number is not written", True, rule(add=put(replaces=lambda number: 0))
    yield "the low byte of the number", True, rule(add=put(number=low))
    yield "the low byte of the replaced number", True, rule(add=put(replaces=low))
    yield "the number's bytes the other way", True, rule(add=put(number=swapped))
    yield "numbers are compared by their low bytes", True, rule(matches=lambda self, number, other: number != 0 and low(number) == low(other))
    yield "0 is found", False, rule(first=lambda self, number: next((at for at, entry in enumerate(self.held()) if entry.number == number), None))
    yield "what replaces none replaces 0", False, rule(later=goes_past_zero)
    yield "the last entry with the number", False, rule(first=last_with)
    yield "replacements from the start on", False, rule(later=anywhere, chain=bounded)
    yield "the last later entry", False, rule(later=last_later)
    yield "only the first with its number is followed", False, rule(later=of_the_first)
    yield "a chain ends where a number comes again", False, rule(chain=no_number_twice)
    yield "one replacement", True, rule(chain=lambda self, place: papers.Register.chain(self, place)[:2])
    yield "no replacement", True, rule(chain=lambda self, place: [place])
    yield "62 replacements at most", False, rule(chain=lambda self, place: papers.Register.chain(self, place)[:63])
    yield "the rule of the entry that is given", True, rule(rule=lambda self, places: int(self.held()[places[-1]].replaces != 0))
    yield "the rules exchanged", True, rule(rule=lambda self, places: int(len(places) == 1))
    yield "entries are counted, not replacements", True, rule(find=found(lambda self, answer, rule, followed, entry: (answer, rule, followed + (entry is not None), entry)))
    yield "the entry before the last", True, rule(find=found(lambda self, answer, rule, followed, entry: (answer, rule, followed, entry and self.held()[max(self.held().index(entry) - 1, 0)])))
    yield "a replaced number is not found", True, rule(find=found(only_current))
    yield "22 clears the room", True, rule(find_lent=shown(lambda answer: (*answer[:3], bytes(len(answer[3])))))
    yield "22 leaves the rule", True, rule(find_lent=shown(lambda answer: (22, 255, *answer[2:])))
    yield "22 leaves how many were followed", True, rule(find_lent=shown(lambda answer: (22, 0, LARGE, answer[3])))
    yield "41 bytes for a wrapped key", True, rule(add_lent=cut)
    yield "39 bytes for a wrapped key", True, rule(add_lent=padded)
    yield "45 bytes for an entry", True, rule(find_lent=wider)
    yield "a longer register", False, rule(fits=staticmethod(lambda length: length >= REGISTER))
    yield "4 for a wrapped key behind 21, 22 and 23", True, rule(add_lent=four_last)
    yield "4 for an entry behind 22", True, rule(find_lent=four_behind_22)


# ---- our definitions

# what stands in their text, from each of our definitions
TEXTS = {
    "registers/specs/Registers.antt": {
        "blank": ["number = 0;", "replaces = 0;", f"key = replicate {WRAPPED} 0 "],
        "empty": ["count = 0;", f"replicate {ENTRIES} blank"],
        "held": [f"min r.count {ENTRIES})"],
        "matches": ["(eqb number 0)"],
        "rule": ["rule zero = 0\n", "(suc more) = 1\n"],
        "new": ["eqb number 0 ||"],
        "replaceable": ["eqb number 0 ||"],
        "add_refusal": ["(new number es) 21 ", "(replaceable replaces es) 22 ", f"(length es) {ENTRIES}) 23 0"],
        "look_up_refusal": ["(present number es) 22 0"],
        "AddNumber": ["number ≡ 0 ", "(r ≡ 21)", "replaces ≡ 0)", "(r ≡ 22)", f"length es < {ENTRIES})", "(r ≡ 23)", "(r ≡ 0)"],
        "LookUpNumber": ["number ≡ 0 ", "(r ≡ 22)", "(r ≡ 0)"],
        "extended": [".count + 1;"],
    },
    "registers/src/lib.rt": {"pub struct Entry": [f"[u8; {WRAPPED}]"], "pub struct Register": [f"[Entry; {ENTRIES}]"]},
}  # fmt: skip


# ---- asking and comparing


def gaps(given):
    """Which operations never gave which of their numbers."""
    need = {"add": {0, 4, 21, 22, 23}, "find": {0, 4, 22}}
    return sorted((op, number) for op in need for number in need[op] if (op, number) not in given)


def altered_answers(kinds, wanted):
    """Expected answers altered, the last of each kind, in three ways: a number of a call in its middle, a digit there, and the last digit. Their places, and each
    whole."""
    def other(digit):
        return "1" if digit == "0" else "0"

    def number(answer):
        fields = answer.split(" ")
        at = (len(fields) - 1) // 2 if "," in answer else 0
        first, *rest = fields[at].split(",")
        fields[at] = ",".join([str(int(first) + 1), *rest])
        return " ".join(fields)

    def middle(answer):
        at = next(at for at in range(len(answer) // 2, len(answer)) if answer[at].isalnum())
        return answer[:at] + other(answer[at]) + answer[at + 1 :]

    places = sorted({kind: at for at, kind in enumerate(kinds)}.values())
    for way in (number, middle, lambda answer: answer[:-1] + other(answer[-1])):
        yield places, [way(answer) if at in places else answer for at, answer in enumerate(wanted)]


def probes(rng):
    """Requests, each with others that have one thing changed from which the answer is made."""
    data = by_pairs(rng, [(5, 0), (6, 5), (7, 0), (0x0805, 7)], None, [(11, 6)])
    flipped = lambda data, at: data[:at] + bytes([data[at] ^ 1]) + data[at + 1 :]
    key, room, end = rng.randbytes(WRAPPED), rng.randbytes(ENTRY), 8 + 4 * ENTRY  # where an entry is added
    others = [(8, 6, key), (0x0109, 6, key), (9, 0, key), (9, 5, key), (9, 0x0106, key), *((9, 6, flipped(key, at)) for at in range(WRAPPED)), (9, 6, key[:-1])]
    others = [(data, *other) for other in others] + [(flipped(data, at), 9, 6, key) for at in range(REGISTER) if not end <= at < end + ENTRY]
    yield ("register_add", data, 9, 6, key), [("register_add", *other) for other in others]
    # the count, the first entry's number, and the whole second entry, which is given
    others = [(flipped(data, at), 5, room) for at in (*range(10), *range(52, 96))] + [(data, *other) for other in ((7, room), (0x0105, room), (0, room), (5, room[:-1]))]
    yield ("register_find", data, 5, room), [("register_find", *other) for other in others]


def apart(got, want):
    """Two answers, from where they part."""
    at = next((at for at, (a, b) in enumerate(zip(got, want)) if a != b), min(len(got), len(want)))
    return f"at digit {at} {got[at : at + 40]}.., not {want[at : at + 40]}.."


def breaks(request, kind, answer):
    """Whether a wrong model differs from an answer."""
    try:
        return expected(request, kind) != answer
    except IndexError:  # it adds past the 64 entries
        return True


def main():
    parser = argparse.ArgumentParser(description=__doc__, formatter_class=argparse.RawDescriptionHelpFormatter)
    parser.add_argument("--seed", type=int, default=SEED)
    seed, began = parser.parse_args().seed, time.monotonic()
    print(f"registers: seed {seed}", flush=True)
    failures, numbers = looked_up(TEXTS)
    made, said, ordered = cases(seed)
    kinds, requests = [kind for kind, _ in made], [request for _, request in made]
    wanted = [expected(request) for request in requests]
    counts = collections.Counter()
    for kind, request in made:
        counts[kind] += len(calls_of(request))
    tried = [*probes(random.Random(seed))]
    try:
        with tempfile.TemporaryDirectory() as place:
            answers = asked(program(place), [*requests, *(request for one, others in tried for request in (one, *others))])
    except (Wrong, OSError, subprocess.SubprocessError) as fault:
        sys.exit(f"registers: FAILED: {fault}")
    ours, probed = answers[: len(requests)], answers[len(requests) :]
    # every answer
    differ = differences(ours, wanted)
    for at in differ[:10]:
        failures.append(f"{kinds[at]}, request {at}: {apart(ours[at], wanted[at])}")
    failures += [f"an example says otherwise: request {at}: {words}" for at, words in said.items() if not says(requests[at], words, wanted[at])]
    failures += [f"the order of faults gives {number}, the papers' rules {wanted[at].split()[0]}: request {at}" for at, number in ordered.items() if f"{number}" != wanted[at].split()[0]]
    # the request's sentence, of the library's own bytes
    left = [bytes.fromhex(answer.split(" ")[-1]) for kind, answer in zip(kinds, ours) if kind in ("histories", "chains of 64", "all short")]
    for data in left:
        failures += [f"after calls from an empty register {one}" for one in meetings(data)]
    registers = [papers.register_of(data) for data in left]
    full = sum(register.count == ENTRIES for register in registers)
    longest = sum(max((len(register.chain(at)) for at in range(register.count)), default=0) >= 16 for register in registers)
    if full < 50 or longest < 30:
        failures.append(f"{full} registers that are full, {longest} with a chain of 16 or more")
    for name, one in (("rings", [(5, 6), (6, 5)]), ("meetings", [(5, 0), (5, 0), (6, 5)])):
        if not [*meetings(by_pairs(random.Random(seed), one))]:
            failures.append(f"{name} are not noticed")
    # nothing is missing
    failures += [f"{kind}: {counts[kind]} calls, not {count}" for kind, count in COUNTS.items() if counts[kind] != count]
    for name, of in (("calls", COUNTS), ("histories", ["histories"]), ("faults", ["faults"])):
        given = {one for kind, request, answer in zip(kinds, requests, wanted) if kind in of for one in numbers_of(request, answer)}
        failures += [f"no {op} with {number} among the {name}" for op, number in gaps(given)]
    # what is wrong is noticed
    altered = 0
    for places, whole in altered_answers(kinds, wanted):
        altered += len(places)
        if not differ and differences(ours, whole) != places:
            failures.append("altered answers are not noticed, or others")
    for _, others in tried:
        unchanged, *changed, probed = probed[0], *probed[1 : 1 + len(others)], probed[1 + len(others) :]
        failures += [f"a changed request got the answer of the unchanged one: {line(other)[:60].strip()}.." for other, answer in zip(others, changed) if answer == unchanged]
    rules, few = [*wrong_rules()], [at for one in ("example", "faults", "lengths", "any by hand", "all small", "by hand, found", "by hand, added", "chains of 64") for at, kind in enumerate(kinds) if kind == one]
    histories = [at for at, kind in enumerate(kinds) if kind == "histories"]
    for name, reached, wrong_rule in rules:
        if not any(breaks(requests[at], wrong_rule, ours[at]) for at in few):
            failures.append(f"a wrong rule is not noticed: {name}")
        if reached and not any(breaks(requests[at], wrong_rule, ours[at]) for at in histories):
            failures.append(f"a wrong rule is not noticed by the histories: {name}")
    for failure in failures[:20]:
        print(f"registers: FAILED: {failure}")
    told = ", ".join(f"{counts[kind]} {kind}" for kind in COUNTS)
    print(
        f"registers: seed {seed}: {told}: {len(differ)} of {len(wanted)} answers differ; {len(left)} registers left by calls, {full} of them full, looked through for chains that meet or "
        f"close; {numbers} numbers looked up in the definitions; {altered} altered answers, {sum(len(others) for _, others in tried)} altered requests and {len(rules)} wrong rules tried, {sum(one for _, one, _ in rules)} by the histories alone; "
        f"{len(failures)} failures; {time.monotonic() - began:.0f} s"
    )
    sys.exit(1 if failures else 0)


main()
