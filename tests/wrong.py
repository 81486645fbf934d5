#!/usr/bin/env python3
"""Shows of the must-fail edits, apart from the prover, that each makes a wrong program.

    tests/wrong.py [CRATE | CRATE/LABEL]...

Each edit of code is applied to a copy of its crate; a program that has this crate in it is run with no proof, by rt try; and the first case is
printed at which it answers otherwise than expected. The programs are tried in the order below until one shows the edit, and the unedited ones must pass
all their cases first. Functions for C are handed to C by a program in Rattle that is written here, since rt try runs programs alone:

    comparison    tests/expected.py's cases, by the archivists' program and vectors and the papers' numbers
    judge_row     rows of tests/judge.py, by determinants
    tape_program  the tapes of tests/tapes.py, by the papers and vectors
    rows_c        the C interface's functions on rows, by the archivists' product
    stores        tests/stores.py's, through the C interface: keys that name a set, stores and histories
    pages         tests/pages.py's, through the C interface: page records
    registers     tests/registers.py's, few of them, through the C interface: the register of page keys
    lines         tests/compare_c.py's, with one seed, through the C interface: long runs and damaged calls
    inner         tests/wrong/inner.txt, functions called by themselves, by what their definitions say, worked out here
    records       tests/c_interface, stores, working keys, page records and registers through the C interface: numbers by the papers, bytes by round trips and by the other functions

A program that rt try stops, at an index out of bounds say, or that does not end answers otherwise. An edit of a definition or a contract has no program, and is listed as such. Exit
status 1 if an edit is shown by no case and is no exception below, or is one and is shown, or is not there."""
import concurrent.futures
import functools
import glob
import hashlib
import itertools
import os
import re
import shutil
import subprocess
import sys
import tempfile
import threading
import time
import types

sys.dont_write_bytecode = True
HERE = os.path.dirname(os.path.abspath(__file__))
ROOT = os.path.dirname(HERE)
sys.path[:0] = [os.path.join(HERE, "archivists"), HERE]
import archivists_rows
import archivists_sets
import labyrinth
import modes
import page_records
import papers

LIMIT = 120  # seconds for a program to answer all its cases; the unedited ones take up to 70 with rt try's checks

# edits that no executed case can show, each with its reason
EXCEPTIONS = {
    "eight_tables/pays_from_8_bytes": "a choice of ours: when wider tables are made changes no answer of an operation",
    "eight_tables/pays_never": "a choice of ours: when wider tables are made changes no answer of an operation",
}


def loaded(name):
    """A test as a module, without its last line, which runs it."""
    path = os.path.join(HERE, f"{name}.py")
    with open(path) as file:
        text, line = file.read().rstrip("\n").rsplit("\n", 1)
    if not line.startswith("main("):
        raise SystemExit(f"wrong: the last line of tests/{name}.py is not its call of main")
    module = types.ModuleType(name)
    module.__file__ = path
    exec(compile(text, path, "exec"), module.__dict__)
    return module


# ---- the crates


@functools.cache
def uses():
    """What each crate uses."""
    found = {}
    with open(os.path.join(ROOT, "crates.txt")) as file:
        for line in file:
            head, colon, used = line.partition("#")[0].partition(":")
            if colon:
                found[head.split()[0]] = used.split()
    return found


@functools.cache
def reached(names):
    """All crates of the repository below these, and these."""
    found, todo = [], list(names)
    while todo:
        name = todo.pop()
        if name in uses() and name not in found:
            found.append(name)
            todo += uses()[name]
    return sorted(found)


def source(name):
    """The folder of a crate's code."""
    return os.path.join(ROOT, "crates", name, "src")


# ---- edits


class Fault(Exception):
    """Of an edit: it cannot be applied or compiled."""


class Broken(Exception):
    """Of an unedited program, so that nothing is shown."""


def edits():
    return sorted(glob.glob(os.path.join(ROOT, "crates", "*", "must-fail", "*.edit")))


def named(path):
    """CRATE/LABEL"""
    return f"{path.split(os.sep)[-3]}/{os.path.basename(path)[: -len('.edit')]}"


def replacements(path):
    """(file, old, new), as rt reads them."""
    file = old = None
    with open(path) as lines:
        for line in lines.read().split("\n"):
            if line.startswith("file: "):
                file = line[len("file: ") :]
            elif line.startswith("old: "):
                old = line[len("old: ") :]
            elif line.startswith("new:"):
                yield file, old, line[len("new:") :].removeprefix(" ")


def code(text):
    """Without contracts, imports of definitions and comments, which no program has."""
    return [line for line in text.split("\n") if not re.match(r"\s*(ensures|requires|ghost|//)", line)]


def edited(path, place):
    """The crate's code with the edit, in a folder of its own; None where it changes no code."""
    crate, changed = path.split(os.sep)[-3], False
    folder = os.path.join(place, crate)
    shutil.copytree(source(crate), folder)
    for file, old, new in replacements(path):
        if not file.startswith("src/"):
            continue
        name = os.path.join(folder, file[len("src/") :])
        with open(name) as given:
            before = given.read()
        if not old or before.count(old) != 1:
            raise Fault(f"its text is {before.count(old)} times in {file}")
        after = before.replace(old, new)
        changed = changed or code(before) != code(after)
        with open(name, "w") as made:
            made.write(after)
    return folder if changed else None


# ---- programs, run with no proof


def command(words, what):
    done = subprocess.run(words, capture_output=True, text=True, timeout=600)
    if done.returncode:
        raise Fault(f"{what}: {(done.stderr or done.stdout).strip()[:300]}")


def repository(place, roots, sources, made=()):
    """A repository for rt try: crates that are made for it, with what each uses, these and all that they reach. Each has a link to its code, but those
    made. A library for C is listed as one that other crates use."""
    for name, below in [*made, *((name, uses()[name]) for name in reached(roots))]:
        os.makedirs(os.path.join(place, "crates", name), exist_ok=True)
        if name not in dict(made):
            os.symlink(sources.get(name) or source(name), os.path.join(place, "crates", name, "src"))
        with open(os.path.join(place, "crates.txt"), "a") as file:
            file.write(f"{name}: {' '.join(below)}\n")


def program(crate, sources, place):
    """A program of the repository: the folder that rt try runs it in."""
    repository(place, (crate,), sources)
    return os.path.join(place, "crates", crate)


TYPES = {"usize": "size_t", "u64": "uint64_t", "u32": "uint32_t", "u16": "uint16_t", "u8": "uint8_t", None: "void"}


def in_c(kind):
    """A parameter's types in C: a slice is a pointer and a length."""
    reference, mutable, slice_of, item = re.fullmatch(r"(&?)(mut )?(\[?)(\w+)\]?", kind).groups()
    pointer = [f"{'' if mutable else 'const '}{TYPES[item]} *"] if reference else [TYPES[item]]
    return pointer + (["size_t"] if slice_of else [])


def exports(path):
    """The functions for C of a file: name, types of the parameters, type of the result."""
    with open(path) as file:
        found = re.findall(r'^pub extern "C" fn (\w+)\((.*?)\)(?: -> (\w+))?$', re.sub(r"\s*\{$", "", file.read(), flags=re.M), re.M | re.S)
    return [(name, re.findall(r"\w+: ([^,]+?)\s*(?:,|$)", parameters.strip()), result or None) for name, parameters, result in found]


def handed(roots, sources, place, made=()):
    """A program that hands each function for C of some crates to C and then has C go on, by the function `drive`; its folder. There a folder c, for rt try, gets
    a function of each one's own name that calls it."""
    repository(place, roots, sources, [*made, ("called", [name for name in (*dict(made), *roots)])])
    folder = os.path.join(place, "crates", "called")
    os.mkdir(os.path.join(folder, "src"))
    os.mkdir(os.path.join(folder, "c"))
    names, takes, gives, shims = [], [], [], ["#include <stddef.h>", "#include <stdint.h>"]
    for crate in (*dict(made), *roots):
        for name, kinds, result in exports(os.path.join(place, "crates", crate, "src", "lib.rt")):
            names.append(name)
            takes.append(f"    fn take_{name}(f: extern \"C\" fn({', '.join(kinds)}){f' -> {result}' if result else ''});")
            gives.append(f"    unsafe {{ take_{name}({crate}::{name}) }};")
            types = [kind for one in kinds for kind in in_c(one)]
            given = ", ".join(f"{kind} a{at}" for at, kind in enumerate(types)) or "void"
            shims.append(f"static {TYPES[result]} (*at_{name})({given});\nvoid take_{name}({TYPES[result]} (*f)({given})) {{ at_{name} = f; }}")
            shims.append(f"{TYPES[result]} {name}({given}) {{ {'return ' if result else ''}at_{name}({', '.join(f'a{at}' for at in range(len(types)))}); }}")
    with open(os.path.join(folder, "src", "main.rt"), "w") as file:
        file.write("\n".join(["#![tactic(auto)]", "", 'unsafe extern "C" {', *takes, "    fn drive();", "}", "", "fn main() {", *gives, "    unsafe { drive() };", "}", ""]))
    with open(os.path.join(folder, "c", "handed.c"), "w") as file:
        file.write("\n".join([*shims, ""]))
    os.mkdir(os.path.join(folder, "c", "include"))
    with open(os.path.join(folder, "c", "include", "called.h"), "w") as file:
        file.write("".join(f"void {name}(void);\n" for name in names) + "static const struct { const char *name; void (*at)(void); } called[] = {\n")
        file.write("".join(f'    {{"{name}", {name}}},\n' for name in names) + "};\n")
    return folder


def driven(folder, files, *words):
    """Has C go on with the main of a C program, given these words. It reads and writes files beside: rt try passes on no more than 64 and 1 MiB. All its other
    names are hidden, since rt try takes none that the C library has, as `times`."""
    said = ", ".join(f'"{word}"' for word in ("program", *words))
    with open(os.path.join(folder, "c", "drive.c"), "w") as file:
        file.write(
            f"""#include <stdio.h>
#include <stdlib.h>
int main_of_it(int count, char **words);
void drive(void)
{{
    char *words[] = {{{said}, NULL}};
    if (!freopen("{os.path.join(folder, 'asked')}", "r", stdin) || !freopen("{os.path.join(folder, 'answers')}", "w", stdout)) exit(3);
    setvbuf(stdout, NULL, _IOLBF, 0);
    int status = main_of_it({1 + len(words)}, words);
    fflush(stdout);
    if (status) exit(status);
}}
"""
        )
    out = os.path.join(folder, "c", "driven.o")
    words = ["gcc", "-std=gnu11", "-O1", "-Dmain=main_of_it", "-I", os.path.join(folder, "c", "include"), "-I", os.path.join(ROOT, "include")]
    command([*words, "-r", "-nostdlib", "-o", out, *files], "the program in C")
    command(["objcopy", "--keep-global-symbol=main_of_it", out], "the program in C")
    return folder


CIPHERS = "labyrinth_c", "rows_c", "stores_c", "blocks_c", "runs_c", "tags_c", "wraps_c"
LIBRARIES = *CIPHERS, "pages_c", "registers_c"  # what tests/labyrinth_lines.c and tests/c_interface call


def lines_program(sources, place):
    return driven(handed(LIBRARIES, sources, place), [os.path.join(HERE, "labyrinth_lines.c")])


def records_program(sources, place):
    """With another header: what rt try compiles takes more stack than the header says of the library."""
    folder = handed(LIBRARIES, sources, place)
    with open(os.path.join(ROOT, "include", "labyrinth.h")) as given, open(os.path.join(folder, "c", "include", "labyrinth.h"), "w") as made:
        made.write(re.sub("(?m)^(#define LABYRINTH_STACK) .*", r"\1 163840", given.read()))
    return driven(folder, sorted(glob.glob(os.path.join(HERE, "c_interface", "*.c"))), "--records", "--seed", "1")


def shown_by_records(folder):
    """What it finds wrong first."""
    wrote, ended = run(folder, b"", 12 * LIMIT)
    return (next(iter(wrote.decode(errors="replace").split("\n")), "").removeprefix("c_interface: ") or ended) if ended else None


CALLS_C = os.path.join(HERE, "wrong", "calls.c")
INNER = os.path.join(HERE, "wrong", "inner.txt")


def crates_called(path):
    with open(path) as file:
        return tuple(sorted(set(re.findall(r"\b(\w+)::", file.read()))))


def rows_program(sources, place):
    return driven(handed(("rows_c",), sources, place), [CALLS_C])


def inner(sources, place):
    roots = crates_called(INNER)
    os.makedirs(os.path.join(place, "crates", "inner", "src"))
    shutil.copyfile(INNER, os.path.join(place, "crates", "inner", "src", "lib.rt"))
    return driven(handed(roots, sources, place, [("inner", roots)]), [CALLS_C])


# ---- running


def tried_by_rt(folder, given, *words, seconds=LIMIT):
    """What rt try gives: the program's output, and its lines on standard error."""
    environment = {**os.environ, "RT_ALLOW_C": "called"}
    done = subprocess.run(["rt", "try", "--seconds", str(seconds), *words], cwd=folder, input=given, capture_output=True, env=environment, timeout=60 * LIMIT)
    told = done.stderr.decode(errors="replace").strip().split("\n")
    if "run=none" in told[-1] or not told[-1].endswith("proved=no"):
        raise Fault(f"rt try: {' '.join(told)[:300]}")
    return done.stdout, told


def run(folder, given, seconds=LIMIT):
    """What a program writes, and how it ended if it did not end well: by rt try's words, or by what it said on standard error."""
    driven_by_c = os.path.exists(os.path.join(folder, "c"))
    if driven_by_c:
        with open(os.path.join(folder, "asked"), "wb") as file:
            file.write(given)
    wrote, told = tried_by_rt(folder, b"" if driven_by_c else given, seconds=seconds)
    if driven_by_c:
        with open(os.path.join(folder, "answers"), "rb") as file:
            wrote = file.read()
    own = [line for line in told if not re.match(r"rt: |checked: |interpreter: |run=|the end of |\| ", line)]
    fault = next((line.removeprefix("checked: ") for line in told if line.startswith("checked: ")), told[-1])
    ended = re.match(r"run=ended status=0 ", told[-1]) and not own
    return wrote, "" if ended else " ".join([fault, *own[:1]])[:200]


def apart(want, got):
    """Two texts, each from a little before where they part."""
    at = next((i for i, (a, b) in enumerate(zip(want, got)) if a != b), min(len(want), len(got)))
    begin = 0 if at <= 40 else at - 12

    def part(text):
        return repr(("" if begin == 0 else "..") + text[begin : at + 20] + (".." if len(text) > at + 20 else ""))

    return f"expected {part(want)}, got {part(got)}"


def shown_by_cases(cases, folder, place):
    """Which of some cases, (name, what is read, what must be written), a program answers otherwise first; it is built once. And where, and what rt try says."""
    os.mkdir(place)
    for at, (_, given, want) in enumerate(cases):
        for end, data in (("", given), (".stdout", want)):
            with open(os.path.join(place, f"{at:05}{end}"), "wb") as file:
                file.write(data)
    _, told = tried_by_rt(folder, b"", "--cases", place)
    before = []
    for line in told:
        found = re.match(r"case=(\d+) run=(.*) proved=no$", line)
        if found and not found[2].startswith("ended status=0 ") or found and not found[2].endswith("output=expected"):
            differs = next((re.search(r"at byte (\d+), (expected .*)", one) for one in before if one.startswith("the output differs from")), None)
            words = re.sub(r'"((?:[^"\\]|\\.){32})(?:[^"\\]|\\.)*"(?: \(\d+ of [^)]*\))?', r'"\1.."', differs[2]) if differs else " ".join([*before[-1:], found[2]])
            return cases[int(found[1])], differs and int(differs[1]), words
        before = [] if found else [*before, line]
    if f"cases={len(cases)} " not in told[-1]:
        raise Fault(f"rt try: {told[-1][:300]}")
    return None


@functools.cache
def compared():
    """The cases of the program comparison, kind by kind: what it reads, and what it must print."""
    done = subprocess.run([os.path.join(HERE, "expected.py"), "--list"], capture_output=True, text=True, check=True).stdout
    with tempfile.TemporaryDirectory() as place:
        command([os.path.join(HERE, "expected.py"), "--all", place], "expected.py")

        def of(name, end):
            with open(os.path.join(place, f"{name}.{end}"), "rb") as file:
                return file.read()

        kinds = [line.split(" ", 3) for line in done.splitlines()]
        return [(f"'{kind}'", of(f"{name}.{at}", "stdin"), of(f"{name}.{at}", "stdout")) for name, at, _, kind in kinds if name == "comparison"]


def shown_by_comparison(folder):
    found = shown_by_cases(compared(), folder, os.path.join(folder, "cases"))
    if not found:
        return None
    (kind, _, want), at, words = found
    line = "" if at is None else f" case {want[:at].count(10) + 1} of {want.count(10)}"
    return f"{kind}{line}: {words}"


@functools.cache
def asked():
    """The requests through the C interface, and what tests/compare_c.py holds the answers to."""
    test = loaded("compare_c")
    cases = list(test.Maker(1, True).all())
    numbers, requests = [test.number_of(case) for case in cases], [test.request(case) for case in cases]
    with tempfile.TemporaryDirectory() as place:
        theirs = test.ask_theirs(test.ADAPTER, cases, requests, [i for i, number in enumerate(numbers) if number == 0], place)
    return test, cases, numbers, requests, theirs


def shown_by_lines(folder):
    test, cases, numbers, requests, theirs = asked()
    wrote, ended = run(folder, "".join(requests).encode())
    got = wrote.decode(errors="replace").split("\n")[:-1]
    for i, line in enumerate(got[: len(cases)]):
        differs = test.difference(cases[i], numbers[i], line, theirs.get(i, ""))
        if differs:
            return f"request {i} '{requests[i][:24].strip()}..': {differs}"
    if len(got) != len(cases) or ended:
        return f"request {len(got)} '{requests[min(len(got), len(cases) - 1)][:24].strip()}..': {ended or 'another count of answers'}"
    return None


FEWER = {"registers": (True,)}  # of these all would take long


@functools.cache
def requested(name):
    """The requests of tests/stores.py, tests/pages.py or tests/registers.py, with their kinds and what they must be answered."""
    test = loaded(name)
    made = test.cases(test.SEED, *FEWER.get(name, ()))[0]
    return [(kind, test.line(request), test.expected(request)) for kind, request in made]


def shown_by_requests(name, folder):
    wrote, ended = run(folder, "".join(line for _, line, _ in requested(name)).encode())
    got = wrote.decode(errors="replace").split("\n")[:-1]
    for i, ((kind, line, want), answer) in enumerate(zip(requested(name), got)):
        if answer != want:
            return f"request {i}, {kind}, '{line[:24].strip()}..': {apart(want, answer)}"
    if len(got) != len(requested(name)) or ended:
        return f"request {len(got)}: {ended or 'another count of answers'}"
    return None


@functools.cache
def rows_to_judge():
    test = loaded("judge")
    groups = test.GROUPS
    rows = [row for name in groups for row in (groups[name] if len(groups[name]) <= 16 else groups[name][:12])]
    return test, {row: test.singular(row) for row in rows}


def shown_by_judge(folder):
    test, sizes = rows_to_judge()
    wrote, ended = run(folder, "".join(row.hex() + "\n" for row in sizes).encode())
    got = wrote.decode(errors="replace").split("\n")
    for i, row in enumerate(sizes):
        line = got[i] if i < len(got) else ""
        differs = test.fault(row, sizes[row], line)
        if differs:
            right = "no" if sizes[row] else "yes"
            return f"row {row.hex()}: expected {right}, got {line[17:]!r}: {differs}{f' ({ended})' if ended else ''}"
    return ended or None


@functools.cache
def tapes():
    test = loaded("tapes")
    makers = (test.example, test.refused_last, test.data_end_in_08, test.lengths, test.longest, test.refusals, test.copied_short, test.block_vectors)
    return [case for maker in makers for case in maker()]


def shown_by_tapes(folder):
    found = shown_by_cases(tapes(), folder, os.path.join(folder, "cases"))
    return found and f"tape '{found[0][0]}': {f'at byte {found[1]}, ' if found[1] is not None else ''}{found[2]}"


# ---- functions called by themselves

class Lent:
    """A buffer, which tests/wrong/calls.c lends between two margins. A string or words with a length; or a place for one value, without."""

    def __init__(self, data, width=1, length=True, written=False):
        self.data, self.width, self.length, self.written = data, width, length, written

    def line(self):
        return f"#{self.width}:{self.data.hex()}" if self.length else f"*{self.data.hex()}"


def out(data, width=1):
    return Lent(data, width, written=True)


def place_for(size):
    return Lent(b"\x5a" * size, length=False, written=True)


def words(values):
    return b"".join(value.to_bytes(8, "little") for value in values)


def answer(kind, lent, line):
    """What a function returned, and what each buffer that it writes to then held, of an answer of tests/wrong/calls.c."""
    result, *buffers = line.split(" ")
    held = [None if text == "!" else bytes.fromhex(text.removeprefix("-")) for text in buffers]
    if any(now is None or not (value.written or now == value.data) for value, now in zip(lent, held)):
        return "a buffer written to that is not lent for it"
    return (*([int(result, 16) % 2**kind] if kind else []), *(now for value, now in zip(lent, held) if value.written))


def told(values):
    return " ".join(value.hex() or "-" if isinstance(value, bytes) else str(value) for value in values) if isinstance(values, tuple) else values


U8, U64 = 8, 64  # bits that a function returns
ROWS = [papers.PUBLISHED, bytes([1]).ljust(8, b"\0"), bytes(8), bytes(range(8)), bytes(range(1, 9)), *archivists_rows.GOOD]


def rows_cases():
    """Numbers by document 02 and the header: 4 for a row that isn't eight bytes, 5 for such a destination."""
    for word in (0, 1, 0x100, 0x0123456789ABCDEF):
        yield "labyrinth_mix", U64, [word], (labyrinth.cmbn_poly(word),)
    for row in (*ROWS, b"", bytes(7), papers.PUBLISHED + b"\1"):
        number = papers.mixing_through_c(row)
        for word in (1, 0x0123456789ABCDEF):
            mixed = 0 if number else archivists_rows.mixed(row, word)
            yield "labyrinth_mix_row", U8, [row, word, place_for(8)], (number, words([mixed]))
        for room in (8, 7, 0):
            kept = b"\x5a" * room
            answer = number or (5 if room != 8 else 0)
            yield "labyrinth_row_inverse", U8, [row, out(kept)], (answer, kept if answer else archivists_rows.inverse(row))
            for other in (*ROWS, b"", bytes(9)):
                answer = 4 if len(row) != 8 or len(other) != 8 else 5 if room != 8 else 0
                yield "labyrinth_row_product", U8, [row, other, out(kept)], (answer, kept if answer else archivists_rows.product(row, other))
    for row in (b"", bytes(7), papers.PUBLISHED + b"\1"):
        yield "labyrinth_row_judge", U8, [row, place_for(1), place_for(8)], (4, b"\0", words([0]))
    for row in (papers.PUBLISHED, bytes(8), bytes.fromhex("10a55a79be2ced87")):
        yield "labyrinth_row_judge", U8, [row, place_for(1), place_for(8)], functools.partial(judged, row)


def judged(row, got):
    """A yes with the zero word, or a no with a word that falls short: what is wrong with a verdict."""
    good = not archivists_rows.singular(row)
    if isinstance(got, str) or got[0] != 0 or got[1] != bytes([good]):
        return f"expected 0 and {'a yes' if good else 'a no'}"
    word = int.from_bytes(got[2], "little")
    if good:
        return None if word == 0 else "expected the zero word"
    count = archivists_rows.active(word) + archivists_rows.active(archivists_rows.mixed(row, word))
    return None if word != 0 and count < 9 else "expected a word that falls short"


def inner_cases():
    text = hashlib.shake_256(b"inner").digest(200)
    word = 0xFEDCBA9876543210
    # buffers
    for i in (*range(10), 2**61):
        yield "byte_at", U8, [word, i], (word >> 8 * i & 255 if i < 8 else 0,)
    for size in (0, 7, 8, 9, 20):
        for at in (0, 1, 8, 12, 13, 2**64 - 1):
            fits = at + 8 <= size
            yield "load_word", U64, [text[:size], at], (int.from_bytes(text[at : at + 8], "little") if fits else 0,)
            yield "store_word", None, [out(text[:size]), at, word], (text[:at] + words([word]) + text[at + 8 : size] if fits else text[:size],)
    # strings
    yield "zero_block", None, [out(b"\x5a" * 64)], (bytes(64),)
    for length in (0, 1, 16, 64, 65):
        yield "block_copy", None, [text[:length], out(b"\x5a" * 64)], (text[:length].ljust(64, b"\0")[:64],)
        for room in (0, 5, 16, 64):
            d = b"\x5a" * room
            m = min(length, room)
            yield "copy_into", None, [out(d), text[:length]], (text[:m] + d[m:],)
            for other in (0, 3, 16, 64):
                m = min(length, room, other)
                xored = bytes(a ^ b for a, b in zip(text[:m], text[100:]))
                yield "xor_to", None, [out(d), text[:length], text[100 : 100 + other]], (xored + d[m:],)
    for c in (b"", b"\xff", b"\x7f\xff", b"\x00\xff\xff", bytes(16), b"\xff" * 16, text[:16], text[:64]):
        for v in (0, 1, 200, 2**64 - 1):
            yield "add_into", None, [out(c), v], (((int.from_bytes(c, "big") + v) % 256 ** len(c)).to_bytes(len(c), "big"),)
        yield "double_into", None, [out(c)], ((2 * int.from_bytes(c, "big") % 256 ** len(c)).to_bytes(len(c), "big"),)
    for a, b in ((b"", b""), (b"", b"\0"), (text[:16], text[:16]), (text[:16], text[:15]), (text[:3], b"\0" + text[1:3]), (text[:3], text[:2] + b"\0")):
        yield "equal", U8, [a, b], (int(a == b),)
    # rows and mixing, with S, its inverse and another substitution
    for row in ROWS:
        for s in (bytes(labyrinth.S), bytes(labyrinth.S_INV), bytes(255 - b for b in range(256))):
            table = words(archivists_rows.mixed(row, b) for b in s)
            yield "table_of", None, [row, s, out(bytes(2048), 8)], (table,)
            looked = archivists_rows.mixed(row, int.from_bytes(bytes(s[b] for b in words([word])), "little"))
            yield "look_up", U64, [Lent(table, 8), word], (looked,)
            if row == papers.PUBLISHED and s == bytes(labyrinth.S):
                yield "substitute_and_mix", U64, [word], (looked,)
    # where the eight tables go
    yield "wide_zeros", None, [out(b"\x5a" * 16384, 8)], (bytes(16384),)
    # the tape
    yield "fresh", None, [out(b"\x5a" * 288, 8)], (bytes(288),)
    # round trips: the numbers are those of sealing, then of opening; a key names the published set, or set 1 of the two stores, the last not loaded
    given_sets = [*archivists_sets.OTHERS, (bytes(256), bytes(8))]

    def worked(tables, n, work):
        with archivists_sets.with_set(*tables):
            return work(archivists_sets.under(n, words([0x0123456789ABCDEF] * 8 * n)))

    for n, length, middle, end in ((1, 48, 48, 48), (2, 64, 64, 64), (4, 64, 64, 64), (1, 32, 16, 32), (1, 32, 32, 33), (1, 15, 15, 15), (3, 48, 48, 48)):
        start, given = text[100 : 100 + 16 * n], text[:length]
        for q, (i, here, there) in itertools.product((None, 5), ((0, 3, 3), (1, 0, 0), (1, 2, 2), (1, 1, 2), (1, 0, 3), (1, 3, 0))):
            pair = [archivists_sets.PUBLISHED if i == 0 else given_sets[at] for at in (here, there)]
            loaded_in = [i == 0 or at < 3 for at in (here, there)]
            numbers = papers.cbc if q is None else papers.ctr
            first = numbers(n, 16 * n, length, middle, loaded_in[0])
            number = first or numbers(n, 16 * n, middle, end, loaded_in[1])
            seal = lambda e: modes.cbc_encrypt(e, start, given) if q is None else modes.ctr_crypt(e, start, q, given)
            sealed = b"\x5a" * middle if first else worked(pair[0], n, seal)
            back = lambda e: modes.cbc_decrypt(e, start, sealed) if q is None else modes.ctr_crypt(e, start, q, sealed)
            buffers = [given, out(b"\x5a" * middle), out(b"\xa5" * end)]
            name, front = ("cbc_there_and_back", [n, i, start]) if q is None else ("ctr_there_and_back", [n, i, start, q])
            opened = b"\xa5" * end if number else worked(pair[1], n, back)
            yield name, U8, [*given_sets[here], *given_sets[there], *front, *buffers], (number, sealed, opened)
    for n, length, size in ((1, 0, 16), (1, 40, 8), (1, 16, 7), (2, 16, 16)):
        for i, at in ((0, 3), (1, 0), (1, 2), (1, 3)):
            number = papers.tag(n, size, i == 0 or at < 3)
            tables = archivists_sets.PUBLISHED if i == 0 else given_sets[at]
            tag = b"\x5a" * size if number else worked(tables, n, lambda e: modes.cmac(e, text[:length], size))
            yield "tag_made_and_verified", U8, [*given_sets[at], n, i, text[:length], out(b"\x5a" * size), place_for(1)], (number, tag, bytes([number == 0]))
    # the same of wrapped keys: one wrapped and unwrapped, and a string unwrapped and wrapped
    for n, length, middle, end in ((1, 16, 24, 16), (1, 40, 48, 40), (1, 16, 24, 17), (1, 16, 25, 16), (1, 17, 25, 17), (1, 128, 136, 128), (2, 16, 24, 16), (3, 16, 24, 16)):
        for i, here, there in ((0, 3, 3), (1, 0, 0), (1, 2, 2), (1, 1, 2), (1, 0, 3), (1, 3, 0)):
            pair = [archivists_sets.PUBLISHED if i == 0 else given_sets[at] for at in (here, there)]
            loaded_in = [i == 0 or at < 3 for at in (here, there)]
            wrapped = lambda at, key: worked(pair[at], 1, lambda e: modes.kw_wrap(e, key))
            unwrapped = lambda at, source: worked(pair[at], 1, lambda e: modes.kw_unwrap(e, source))
            first = papers.wrapping(n, length, middle, loaded_in[0])
            sent = b"\x5a" * middle if first else wrapped(0, text[:length])
            number = first or papers.unwrapping(n, middle, end, loaded_in[1], lambda: unwrapped(1, sent) is not None)
            buffers = [text[:length], out(b"\x5a" * middle), out(b"\xa5" * end)]
            came = b"\xa5" * end if number else unwrapped(1, sent)
            yield "key_wrapped_and_unwrapped", U8, [*given_sets[here], *given_sets[there], n, i, *buffers], (number, sent, came)
            # the other way round the longer of the three is in front and at the end
            fits = loaded_in[0] and length in papers.UNWRAPPED_LENGTHS
            whole = wrapped(0, text[:length]) if fits else text[: length + 8]
            for source in (whole, bytes([whole[0] ^ 1]) + whole[1:]):
                first = papers.unwrapping(n, len(source), end, loaded_in[0], lambda: unwrapped(0, source) is not None)
                key = b"\x5a" * end if first else unwrapped(0, source)
                number = first or papers.wrapping(n, end, middle, loaded_in[1])
                buffers = [source, out(b"\x5a" * end), out(b"\xa5" * middle)]
                again = b"\xa5" * middle if number else wrapped(1, key)
                yield "key_unwrapped_and_wrapped", U8, [*given_sets[here], *given_sets[there], n, i, *buffers], (number, key, again)
    for g in ROWS:
        for h in ROWS:
            number = papers.mixing(g) or papers.mixing(h)
            yield "word_converted", U8, [g, h, word, place_for(8)], (number, words([0 if number else archivists_rows.mixed(h, word)]))
    yield from page_cases(text, given_sets)
    yield from register_cases(text)


def page_cases(text, given_sets):
    """Page records: the part that the catalogue reader gives for the title; and a record written, then listed, or opened with another store."""
    rules = page_records.Records()
    whole = rules.layout(page_records.Page(1, 2, text[:32], text[32:48], text[48:80], text[80:96]))
    for record in (whole, whole[:60] + whole[-17:], whole[:-1], whole + b"\0", whole[:10] + whole[11:], b"\x11" + whole[1:], whole[:60], b""):
        page = rules.parts(record)
        title = b"" if page is None else page.title
        yield "title_of", U64, [record, out(b"\x5a" * 40)], (len(title), title.ljust(40, b"\x5a"))
    # lengths of title, start block, body, record and opened body; n and set of the sealing key and of the tag key; set 1 of the two stores, the last not loaded
    lengths = [(32, 16, 0, 77, 0), (32, 16, 48, 128, 48), (31, 16, 48, 128, 48), (32, 17, 48, 128, 48), (32, 16, 47, 111, 32), (32, 16, 48, 127, 48), (32, 16, 48, 128, 64)]
    keys = [((1, 0), (1, 0)), ((1, 0), (1, 1)), ((1, 1), (1, 0)), ((1, 1), (1, 1)), ((2, 0), (1, 1)), ((1, 0), (4, 0)), ((3, 1), (1, 0)), ((1, 1), (0, 0))]
    for length, pair, (here, there) in itertools.product(lengths, keys, ((0, 0), (2, 2), (1, 2), (0, 3), (3, 0))):
        *handed, middle, end = length
        given = [0x01020304, 0xFFFEFDFC, *(text[40 * at :][:size] for at, size in enumerate(handed))]

        def tables(at):
            return [archivists_sets.PUBLISHED if i == 0 else given_sets[at] if at < 3 else None for _, i in pair]

        def checked(at):
            return [(n, known is not None) for (n, _), known in zip(pair, tables(at))]

        def ciphers(at):
            return [page_records.Cipher(known, words([w] * 8)) for known, w in zip(tables(at), (0x0123456789ABCDEF, 0xFEDCBA9876543210))]

        number = papers.page_writing(*checked(here), *handed, middle)
        record = b"\x5a" * middle if number else rules.written(*ciphers(here), *given)
        entry = (number, 0, 0, 0) if number else rules.catalogue(record)[:4]
        front, mid = [*itertools.chain(*pair), *given], out(b"\x5a" * middle)
        yield "page_catalogued", None, [*given_sets[here], *front, mid, out(b"\xa5" * 32, 8)], (record, words(entry))
        yield "page_titled", U8, [*given_sets[here], *front, mid], (int(number == 0), record)
        page = rules.parts(record)
        number = number or papers.page_reading(*checked(there), len(page.sealed) // 16, lambda: rules.right(*ciphers(there), page), end)
        opened = b"\xa5" * end if number else rules.opened(*ciphers(there), page)
        yield "page_opened", U8, [*given_sets[here], *given_sets[there], *front, mid, out(b"\xa5" * end)], (number, record, opened)


def register_cases(text):
    """The register as it is handed on: the empty one, what adding gives, whole, after a refusal too, and what looking up does, which then gives zeros only."""
    room = b"\x5a" * papers.REGISTER
    yield "register_empty", None, [out(room)], (papers.register_bytes(papers.Register.empty()),)
    pairs = [(5, 0), (6, 5), (0x0107, 0), (8, 6), (0, 8)]
    for count in (0, 3, 5, 63, 64, 65, 2**64 - 1):
        entries = [papers.Entry(*(pairs[at] if at < len(pairs) else (1000 + at, 0)), bytes(text[at : at + 40])) for at in range(64)]
        given = papers.register_bytes(papers.Register(count, entries))
        for number, replaces in itertools.product((0, 5, 9, 0x0201, 2000), (0, 5, 0x0107, 9)):
            register = papers.Register(count, entries)
            answer = register.add(number, replaces, text[100:140])
            yield "register_added", U8, [given, number, replaces, text[100:140], out(room)], (answer, papers.register_bytes(register))
        for number in (0, 5, 6, 0x0107, 8, 9, 1063):
            answer, rule, followed, entry = papers.Register(count, entries).find(number)
            yield "register_looked_up", U8, [given, number, out(b"\x5a" * papers.ENTRY), out(b"\xa5" * 16, 8)], (answer, papers.entry_bytes(entry or papers.BLANK), words([rule, followed]))


def shown_by_calls(maker, folder):
    cases = [(function, kind, [Lent(value) if isinstance(value, bytes) else value for value in given], want) for function, kind, given, want in CALLS[maker]()]
    lines = [" ".join([function, *(value.line() if isinstance(value, Lent) else f"={value}" for value in given)]) for function, _, given, _ in cases]
    wrote, ended = run(folder, "".join(line + "\n" for line in lines).encode())
    answers = wrote.decode().split("\n")[:-1]
    for at, (function, kind, given, want) in enumerate(cases):
        texts = [told((value.data if isinstance(value, Lent) else value,)) for value in given]
        name = f"{function}({', '.join(text if len(text) <= 20 else text[:16] + '..' for text in texts)})"
        if at >= len(answers):
            return f"{name}: {ended or 'no answer'}"
        got = answer(kind, [value for value in given if isinstance(value, Lent)], answers[at])
        if callable(want):
            fault = want(got)
            if fault:
                return f"{name}: {fault}, got {told(got)}"
        elif got != want:
            return f"{name}: {apart(told(want), told(got))}"
    return ended or None


CALLS = {"rows_c": rows_cases, "inner": inner_cases}

# ---- the programs: what each is made of, how, and what it is held to. `ready` makes the cases

PROGRAMS = {
    "comparison": (("comparison",), functools.partial(program, "comparison"), shown_by_comparison, compared),
    "judge_row": (("judge_row",), functools.partial(program, "judge_row"), shown_by_judge, rows_to_judge),
    "tape_program": (("tape_program",), functools.partial(program, "tape_program"), shown_by_tapes, tapes),
    "rows_c": (
        ("rows_c",),
        rows_program,
        functools.partial(shown_by_calls, "rows_c"),
        lambda: None,
    ),
    "stores": (CIPHERS, lines_program, functools.partial(shown_by_requests, "stores"), functools.partial(requested, "stores")),
    "pages": (("pages_c",), lines_program, functools.partial(shown_by_requests, "pages"), functools.partial(requested, "pages")),
    "registers": (("registers_c",), lines_program, functools.partial(shown_by_requests, "registers"), functools.partial(requested, "registers")),
    "lines": (CIPHERS, lines_program, shown_by_lines, asked),
    "inner": (crates_called(INNER), inner, functools.partial(shown_by_calls, "inner"), lambda: None),
    "records": (LIBRARIES, records_program, shown_by_records, lambda: None),
}


def programs_of(crate):
    return [name for name, (roots, *_) in PROGRAMS.items() if crate in reached(roots)]


def shown(name, sources):
    """The first case at which a program answers otherwise, or None."""
    _, build, test, _ = PROGRAMS[name]
    with tempfile.TemporaryDirectory() as place:
        return test(build(sources, place))


LOCKS = {name: threading.Lock() for name in PROGRAMS}
PASSED = []  # programs that answer every case as expected, unedited


def ready(name):
    """Makes a program's cases and holds the unedited program to them, once, when the first edit comes to it."""
    with LOCKS[name]:
        if name in PASSED:
            return
        try:
            PROGRAMS[name][3]()
            case = shown(name, {})
        except Fault as fault:
            raise Broken(f"{name}: {fault}") from fault
        if case:
            raise Broken(f"the unedited program {name} answers otherwise than expected: {case}")
        PASSED.append(name)


DEFINITION, SHOWN, HIDDEN, FAULT = "definition", "shown", "shown by no case", "FAULT"


def tried(path):
    """What was found of an edit: the kind of it, and words."""
    crate = path.split(os.sep)[-3]
    try:
        with tempfile.TemporaryDirectory() as place:
            folder = edited(path, place)
            if folder is None:
                return DEFINITION, ""
            names = programs_of(crate)
            if not names:
                return FAULT, "no program here has its crate"
            for name in names:
                ready(name)
                case = shown(name, {crate: folder})
                if case:
                    return SHOWN, f"{name}, {case}"
            return HIDDEN, f"by {', '.join(names)}"
    except (Fault, OSError, subprocess.TimeoutExpired) as fault:
        return FAULT, str(fault)


def chosen(wanted):
    found = [path for path in edits() if not wanted or named(path) in wanted or named(path).split("/")[0] in wanted]
    for word in wanted:
        if not any(word in (named(path), named(path).split("/")[0]) for path in found):
            raise SystemExit(f"wrong: no must-fail edit {word}")
    return found


def main(wanted):
    began = time.monotonic()
    paths = chosen(wanted)
    jobs = int(os.environ.get("RT_JOBS") or os.cpu_count() or 1)
    with concurrent.futures.ThreadPoolExecutor(jobs) as pool:
        counts, bad = dict.fromkeys((SHOWN, DEFINITION, HIDDEN, FAULT), 0), 0
        for path, (kind, text) in zip(paths, pool.map(tried, paths)):
            label, reason = named(path), EXCEPTIONS.get(named(path))
            counts[kind] += 1
            failed = kind == FAULT or (kind == HIDDEN) != (reason is not None)
            bad += failed
            line = {DEFINITION: "definition, no program", SHOWN: text, HIDDEN: f"{HIDDEN}: {reason or text}", FAULT: text}[kind]
            print(f"{label}: {'FAILED: ' if failed else ''}{line}", flush=True)
    for label in EXCEPTIONS:
        if not os.path.exists(os.path.join(ROOT, "crates", *label.split("/")[:1], "must-fail", f"{label.split('/')[1]}.edit")):
            print(f"wrong: FAILED: the exception {label} is no edit")
            bad += 1
    print(f"wrong: unedited, as expected in every case: {', '.join(name for name in PROGRAMS if name in PASSED)}")
    print(
        f"wrong: {len(paths)} edits: {counts[SHOWN]} wrong programs shown, {counts[DEFINITION]} of definitions or contracts, "
        f"{counts[HIDDEN]} shown by no case, {counts[FAULT]} faults; {bad} failed; {time.monotonic() - began:.0f} s"
    )
    sys.exit(1 if bad or not paths else 0)


if __name__ == "__main__":
    try:
        main(sys.argv[1:])
    except Broken as broken:
        sys.exit(f"wrong: FAILED: {broken}")
