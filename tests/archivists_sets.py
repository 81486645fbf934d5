"""Sets over the archivists' program: its substitution and its row exchanged for others for the while, and a cipher of its under a working key. Three
sets to try: the published substitution with another row, another substitution with the published row, and both others."""
import contextlib
import copy
import functools
import hashlib

import archivists_rows
from archivists_rows import labyrinth


@functools.lru_cache(None)
def tables(substitution, row):
    """What the program makes its tables from the article's of, made from these."""
    if sorted(substitution) != list(range(256)) or len(row) != 8:
        raise ValueError("a set has 256 different bytes and eight coefficients")
    products = [labyrinth.bytes_to_word([archivists_rows.times(g, x) for g in row]) for x in range(256)]
    return {"G": list(row), "S": list(substitution), "S_INV": [substitution.index(y) for y in range(256)], "TL": products}


@contextlib.contextmanager
def with_set(substitution, row):
    other = tables(bytes(substitution), bytes(row))
    kept = {name: getattr(labyrinth, name) for name in other}
    vars(labyrinth).update(other)
    try:
        yield
    finally:
        vars(labyrinth).update(kept)


@functools.lru_cache(None)
def some_cipher(n):
    return labyrinth.Labyrinth(n, bytes(16 * n))


def under(n, words):
    """A cipher under the words of a working key, 64n bytes of them, however they were made."""
    cipher = copy.copy(some_cipher(n))
    cipher.k = [labyrinth.bytes_to_half(words[8 * n * j : 8 * n * (j + 1)]) for j in range(8)]
    cipher.wk_e, cipher.wk_d = labyrinth.working_key_encipher(cipher.k), labyrinth.working_key_decipher(cipher.k)
    return cipher


def shuffled(name):
    """256 different bytes."""
    return bytes(sorted(range(256), key=lambda x: hashlib.sha256(f"{name} {x}".encode()).digest()))


PUBLISHED = bytes(labyrinth.S), bytes(labyrinth.G)
OTHERS = [
    (PUBLISHED[0], archivists_rows.GOOD[0]),
    (shuffled("another substitution"), PUBLISHED[1]),
    (shuffled("a random substitution"), hashlib.sha256(b"a random row").digest()[:8]),
]
