"""Rows over the archivists' program: a word mixed by a row, and over its product of two bytes the product of two rows, the inverse row and
the determinants that say whether a row is good enough, which it has not."""
import functools
import os
import sys

sys.dont_write_bytecode = True
sys.path.insert(0, os.path.join(os.path.dirname(os.path.abspath(__file__)), "archivists"))
import labyrinth

times = functools.lru_cache(None)(labyrinth.gf_mul)


def mixed(row, word):
    """By its program, which mixes by the row in G, with another row there for the while."""
    if len(row) != 8:
        raise ValueError("a row has eight coefficients")
    kept, labyrinth.G = labyrinth.G, list(row)
    try:
        return labyrinth.cmbn_poly(word)
    finally:
        labyrinth.G = kept


def product(g, h):
    """Exponent by exponent: x^j x^k is x^((j + k) mod 8)."""
    made = [0] * 8
    for j in range(8):
        for k in range(8):
            made[(j + k) % 8] ^= times(g[j], h[k])
    return bytes(made)


def inverse(g):
    """The row h with g h = 1, by elimination: eight equations, of which the ith has g_(i - j) before h_j; None where there is no such row."""
    lines = [[g[(i - j) % 8] for j in range(8)] + [int(i == 0)] for i in range(8)]
    for column in range(8):
        pivot = next((i for i in range(column, 8) if lines[i][column]), None)
        if pivot is None:
            return None
        lines[column], lines[pivot] = lines[pivot], lines[column]
        factor = next(x for x in range(256) if times(x, lines[column][column]) == 1)
        lines[column] = [times(factor, x) for x in lines[column]]
        for i in range(8):
            if i != column:
                lines[i] = [x ^ times(lines[i][column], y) for x, y in zip(lines[i], lines[column])]
    return bytes(line[8] for line in lines)


SUBSETS = [[subset for subset in range(256) if subset.bit_count() == size] for size in range(9)]
MEMBERS = [[k for k in range(8) if subset >> k & 1] for subset in range(256)]


def singular(row):
    """The sizes of which the matrix that the row makes has a square submatrix with determinant 0. All 12,869 determinants, each expanded by its
    first line. There is a word with a bytes before and b after mixing that are not zero, a + b < 9, exactly where there is such a submatrix: of a
    of the 8 - b lines that give zeros and of the word's a places."""
    by = {a: [times(a, b) for b in range(256)] for a in set(row)}
    lines = [[by[row[(i - j) % 8]] for j in range(8)] for i in range(8)]
    smaller, found = {(0, 0): 1}, set()
    for size in range(1, 9):
        these = {}
        for chosen in SUBSETS[size]:
            first, others = lines[MEMBERS[chosen][0]], chosen & (chosen - 1)
            for places in SUBSETS[size]:
                determinant = 0
                for j in MEMBERS[places]:
                    determinant ^= first[j][smaller[others, places ^ 1 << j]]
                these[chosen, places] = determinant
        if 0 in these.values():
            found.add(size)
        smaller = these
    return found


# rows drawn at random of which no square submatrix is singular
GOOD = [bytes.fromhex(row) for row in ("04be10029810c6db", "26e78b0dd8531f6d", "62a0172eb004e3b8", "f7693ae1a15ddd4b")]


def active(word):
    """How many of its eight bytes are not zero."""
    return sum(1 for byte in word.to_bytes(8, "little") if byte)
