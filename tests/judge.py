#!/usr/bin/env python3
"""Holds the judge of rows to determinants over the archivists' product of two bytes: a row is good enough exactly where no square submatrix of
its matrix is singular. Every word shown with a no is mixed by the archivists' program and counted. Then rows written in other ways and input
that is no row; the time of a yes; and that altered verdicts are noticed."""
import hashlib
import os
import re
import subprocess
import sys
import time

sys.dont_write_bytecode = True
HERE = os.path.dirname(os.path.abspath(__file__))
sys.path.insert(0, HERE)
sys.path.insert(0, os.path.join(HERE, "archivists"))
from archivists_rows import GOOD, active, mixed, singular, times
import labyrinth

PROGRAM = os.path.join(os.path.dirname(HERE), "crates", "judge_row", "out", "judge_row")
PUBLISHED = bytes(labyrinth.G)
ZERO, NEUTRAL = bytes(8), bytes([1]).ljust(8, b"\0")
LIMIT = 0.050

# rows drawn at random whose singular submatrices all have one size, k for k: the words that fall short have k bytes before and 8 - k after
# that are not zero, and so miss by one
MISS = {
    1: ["8a85df00d0ecf6f6"],
    2: ["3bb24913dcb9692f"],
    3: ["b70e4d055a92c838"],
    4: ["10a55a79be2ced87", "e335104593c8cf93", "e62a9a958383aca2", "480161b9551d9c82"],
    5: ["f3e7f764d0e213bd"],
    6: ["c2d335259b80c402"],
    7: ["3514b16ff8cb62c3"],
    8: ["453c187e302ae2e7", "88b63c8e6099d2a7"],
}


def derived():
    """Rows that are as good as the published one: its multiples, its turns, the other way round, every coefficient squared."""
    for c in (0x02, 0x53, 0xFF):
        yield bytes(times(c, x) for x in PUBLISHED)
    for k in range(1, 8):
        yield PUBLISHED[k:] + PUBLISHED[:k]
    yield PUBLISHED[::-1]
    yield bytes(times(x, x) for x in PUBLISHED)


def drawn():
    data = hashlib.shake_256(b"rows to judge").digest(8 * 100)
    return [data[at : at + 8] for at in range(0, len(data), 8)]


def near():
    """The published row with one bit turned."""
    for bit in range(64):
        row = bytearray(PUBLISHED)
        row[bit // 8] ^= 1 << bit % 8
        yield bytes(row)


def run(text):
    done = subprocess.run([PROGRAM], input=text, capture_output=True, timeout=600)
    return done.stdout.decode(), done.stderr.decode()


LINE = re.compile(r"([0-9a-f]{16}) (?:yes|no ([0-9a-f]{16}) before (\d+) after (\d+) together (\d+))")


def fault(row, sizes, line):
    """What is wrong with a line for a row with these sizes of singular submatrices, or None."""
    match = LINE.fullmatch(line)
    if not match or match[1] != row.hex():
        return "no line for the row"
    if not match[2]:
        return "yes, but a submatrix is singular" if sizes else None
    if not sizes:
        return "no, but no submatrix is singular"
    word = int(match[2], 16)
    before, after = active(word), active(mixed(row, word))
    if word == 0:
        return "the zero word"
    if (int(match[3]), int(match[4]), int(match[5])) != (before, after, before + after):
        return "another count"
    if before + after > 8:
        return "a word that doesn't fall short"
    return None


def told(row, word):
    """A no with this word, truly counted."""
    before, after = active(word), active(mixed(bytes.fromhex(row), word))
    return f"{row} no {word:016x} before {before} after {after} together {before + after}"


def altered(line):
    """The line told otherwise: the other verdict, another word, other counts, another row."""
    row, verdict, *more = line.split(" ")
    if verdict == "yes":
        return [told(row, 1), told(row, 0), ""]
    word, before, after, together = more[0], *(int(n) for n in more[2::2])
    enough = [other for other in (told(row, 0x0102030405060708), told(row, 0x80)) if int(other.split()[-1]) > 8]
    return [
        *enough,
        f"{row} yes",
        told(row, 0),
        f"{row} no {word} before {before + 1} after {after} together {together + 1}",
        f"{row} no {word} before {before} after {after - 1} together {together - 1}",
        f"{row} no {word} before {before} after {after} together {together + 1}",
        f"{row[:-1]}{int(row[-1], 16) ^ 1:x} {' '.join([verdict, *more])}",
    ]


GROUPS = {
    "published": [PUBLISHED],
    "zero": [ZERO],
    "01 and seven 00": [NEUTRAL],
    "missing by one": [bytes.fromhex(row) for rows in MISS.values() for row in rows],
    "good at random": GOOD,
    "as good as the published": list(derived()),
    "the published but for a bit": list(near()),
    "at random": drawn(),
}
ROWS = [row for group in GROUPS.values() for row in group]
COUNT = 195


def verdict_faults(lines, sizes):
    """Of every row's line; the words of rows that miss by one in the one way that they can; and rows that must be good."""
    for row, line in zip(ROWS, lines):
        wrong = fault(row, sizes[row], line)
        if wrong:
            yield f"{line}: {wrong}"
    for size, rows in MISS.items():
        for row in map(bytes.fromhex, rows):
            match = LINE.fullmatch(lines[ROWS.index(row)])
            if sizes[row] != {size}:
                yield f"{row.hex()}: not only submatrices of {size} lines are singular"
            if not match or not match[2] or (int(match[3]), int(match[4])) != (size, 8 - size):
                yield f"{row.hex()}: not {size} before and {8 - size} after"
    for row in GROUPS["good at random"] + GROUPS["as good as the published"]:
        if sizes[row]:
            yield f"{row.hex()}: taken for a good row, and isn't"


def unnoticed(lines, sizes):
    """Altered lines that pass, and how many were tried."""
    tried = [(row, line, other) for row, line in zip(ROWS, lines) for other in altered(line)]
    return [f"not noticed: {other}" for row, line, other in tried if other == line or not fault(row, sizes[row], other)], len(tried)


def input_faults():
    """Rows written in other ways, and what is no row."""
    row, line = PUBLISHED.hex(), f"{PUBLISHED.hex()} yes\n"
    spaced = " ".join(f"{x:02X}" for x in PUBLISHED)
    message = "judge_row: a row is sixteen hexadecimal digits\n"
    long = "judge_row: nothing behind 65536 bytes is read\n"
    for text, out, err in (
        (f"{spaced}\r\n\t{row}", 2 * line, ""),
        (row + row, 2 * line, ""),
        ("", "", message),
        (" \n", "", message),
        (row[:15], "", message),
        (row + "0", line, message),
        (f"{row}\ng{row}", line, message),
        *((character + row, "", message) for character in "/:@G`g-\0\x7f"),
        (f"{row:>65535}", line, ""),
        (f"{row:>65536}", line, long),
        (f"{row:>65537}", "", message + long),
    ):
        given = run(text.encode())
        if given != (out, err):
            yield f"input {text.strip()[:40]!r} of {len(text)} bytes gives {given}"


def timed():
    """Seconds for a yes, with the program's start."""
    began = time.perf_counter()
    run(PUBLISHED.hex().encode())
    return time.perf_counter() - began


def main():
    printed, said = run("".join(row.hex() + "\n" for row in ROWS).encode())
    lines = printed.splitlines()
    if said or len(lines) != len(ROWS) or len(ROWS) != COUNT:
        sys.exit(f"judge: FAILED: {len(lines)} lines for {len(ROWS)} rows, not {COUNT}: {said}")
    sizes = {row: singular(row) for row in ROWS}
    faults, tried = [*verdict_faults(lines, sizes), *input_faults()], 0
    if not faults:
        faults, tried = unnoticed(lines, sizes)
    best = min(timed() for _ in range(5))
    if best > LIMIT:
        faults.append(f"a yes took {1000 * best:.1f} ms, more than {1000 * LIMIT:.0f}")
    for line in lines[:3]:
        print(f"judge: {line}")
    good = sum(1 for row in ROWS if not sizes[row])
    print(f"judge: {COUNT} rows, {good} good enough by determinants; {tried} altered lines; a yes in {1000 * best:.1f} ms")
    for wrong in faults:
        print(f"judge: FAILED: {wrong}")
    sys.exit(1 if faults else 0)


main()
