#!/usr/bin/env python3
"""Written from docs/OPENING-A-PAGE.md alone.

Opens (and, to check itself, seals) pages: the block cipher Labyrinth in the
modes CBC and CTR. Section numbers in the comments are that paper's.

    opener.py open|seal --mode cbc|ctr -n N -l L --key HEX --start HEX
              [--offset Q] IN OUT          ('-': standard input or output)
    opener.py check PAPER

"check" reads the values out of the paper's Markdown text and holds this
program to every one of them (only the block wrong-readings, which tells of
other programs, is left out). It prints how many it checked.

Exit status: 0 done; 1 "check" found a difference; 2 wrong usage, a wrong
length, or a file that cannot be read or written. Plain Python 3, nothing else
needed. It is slow: some hundred blocks a second at n = 4.
The order is the one that section 5 advises: from the inside to the outside.
"""

import argparse
import sys

# ---------------------------------------------------------------- 5.13, 5.9
# The constants and Table 1, typed from the paper.

FIELD = 0x12D
ROW = [0x01, 0x01, 0x03, 0x0F, 0x0A, 0x1F, 0x0F, 0x0C]
XC = [0x0000000000000000, 0x1111111111111111,
      0x2222222222222222, 0x8888888888888888]
DELTA_ADD = 0x1084210842108421
DELTA_XOR = 0x4444444444444444
IT_KEYS = [7, 4]                    # high, low
ROUNDS = [0, 1, 2, 3, 4, 5, 6, 7, 0, 3, 6, 1, 4, 7, 2, 5]
FT_KEYS = [6, 3]                    # high, low

TABLE_1 = """
00   2B F8 D2 D5 35 A2 3F C6 BB C2 A3 F1 9F 6F 1D E1 : 52FF
10   60 7E E0 7F 2D AC E3 0D BC 9D C0 FE 3B D1 1B C3 : 4E96
20   80 63 C9 46 79 E7 89 E9 1C AB 17 97 5A 20 30 EC : 3F24
30   71 B8 B2 02 06 F2 E5 FD 28 D3 3E 3C D0 BA CE 29 : 4A72
40   10 B9 50 08 A1 A8 7D 40 01 15 7C 78 33 69 EB 0E : 31DB
50   6E 7B 77 54 92 58 95 C1 98 EE 1F 9B 96 51 26 61 : 3EB1
60   2A CC B4 0C DF A7 27 9E 32 37 B3 FC 0A AD 2C 19 : 37D9
70   B1 11 C8 AA 90 18 45 36 75 94 8E CB 16 BD FB 48 : 44F2
80   E6 F4 73 BE 07 6A 42 F7 41 4C 05 EA DC 76 D8 6C : 48BC
90   74 87 A5 8B 1A 9C 4E 6B 0B 24 91 34 4A 2E F3 E8 : 3CBA
A0   DA 64 7A 8F EF D4 93 AF 66 13 CF 82 59 D7 31 4F : 43D3
B0   C4 65 03 BF D9 68 C5 E2 84 A6 23 99 C7 B0 5B 62 : 4AB0
C0   A0 12 83 ED 8C 00 57 DD 22 FF 9A A4 F5 F9 3D 6D : 4FEE
D0   FA 5C 49 39 43 5E 86 0F B7 67 52 CA 14 38 DB 25 : 35C2
E0   3A 70 E4 1E 04 55 72 DE 56 47 CD B6 8D 85 88 D6 : 4B48
F0   A9 F0 5F AE 09 8A 81 53 21 B5 F6 4B 4D 5D 44 2F : 3622
"""

# ---------------------------------------------------------------- 5.1, 5.2
# A half-block is a list of n words; word 0 is the least and stands first.

MASK = 2**64 - 1


def to_words(data):
    """Bytes in memory to words, byte 0 the least."""
    return [int.from_bytes(data[i:i + 8], "little")
            for i in range(0, len(data), 8)]


def to_bytes(words):
    return b"".join(w.to_bytes(8, "little") for w in words)


def add(x, y):
    return [(a + b) & MASK for a, b in zip(x, y)]


def subtract(x, y):
    return [(a - b) & MASK for a, b in zip(x, y)]


def xor(x, y):
    return [a ^ b for a, b in zip(x, y)]


def rotate_left(word, k):
    return ((word << k) | (word >> (64 - k))) & MASK


def rotate_right(word, k):
    return rotate_left(word, 64 - k)


# ---------------------------------------------------------------- 5.9  S

def table_lines(text):
    """The lines of Table 1 as (head, sixteen bytes, check sum)."""
    for line in text.strip().splitlines():
        left, total = line.split(":")
        head, *entries = left.split()
        yield int(head, 16), bytes.fromhex("".join(entries)), int(total, 16)


S = bytearray(256)
for head, entries, _ in table_lines(TABLE_1):
    S[head:head + 16] = entries

S_INVERSE = bytearray(256)
for x in range(256):
    S_INVERSE[S[x]] = x


def substitute(words, table):
    return to_words(to_bytes(words).translate(table))


# ---------------------------------------------------------------- 5.10  Mixing

def product(a, b):
    result = 0
    for k in range(8):
        if b >> k & 1:
            result ^= a
        a <<= 1
        if a & 0x100:
            a ^= FIELD
    return result


def mix_by_rule(word):
    """The first wording of 5.10. Slow; used by "check" only."""
    old = word.to_bytes(8, "little")
    new = bytearray(8)
    for i in range(8):
        for j in range(8):
            new[i] ^= product(ROW[(i - j) % 8], old[j])
    return int.from_bytes(new, "little")


# The third wording: for each byte B the word whose byte i is g_i times B.
PRODUCTS = [int.from_bytes(bytes(product(g, b) for g in ROW), "little")
            for b in range(256)]


def mix(word):
    result = 0
    for j in range(8):
        result ^= rotate_left(PRODUCTS[word >> 8 * j & 0xFF], 8 * j)
    return result


# ---------------------------------------------------------------- 5.11  SL
# Here and below "steps" is a dictionary in which the values on the way are
# left for "check", under the paper's names (section 9).

def SL(half, steps):
    """SL of every word of a half-block, word t at place t."""
    steps["substituted"] = x = substitute(half, S)
    steps["mixed"] = x = [mix(word) for word in x]
    steps["F"] = x = [word ^ XC[t] for t, word in enumerate(x)]
    return x


# ---------------------------------------------------------------- 5.8  P(n)

def permute(half):
    old = to_bytes(half)
    return to_words(bytes(old[9 * i % len(old)] for i in range(len(old))))


# ---------------------------------------------------------------- 5.5  F

def F(x, subkey, steps):
    steps["sum"] = x = add(x, subkey)
    steps["permuted"] = x = permute(x)
    return SL(x, steps)


# ---------------------------------------------------------------- 5.6  IMix

def IMix(L, R, steps):
    n = len(L)
    steps["XOR"] = sigma = xor(L, R)
    steps["sigma"] = sigma = [rotate_left(sigma[0], 28)] + sigma[1:]
    turned = [sigma[(j - 1) % n] for j in range(n)]
    return xor(L, turned), xor(R, turned)


# ---------------------------------------------------------------- 5.7  IT, FT

def IT(L, R, KL, KR, steps):
    steps.update({"L": L, "R": R, "key-L": KL, "key-R": KR})
    L, R = add(L, KL), add(R, KR)
    steps.update({"sum-L": L, "sum-R": R})
    L, R = substitute(L, S), substitute(R, S)
    steps.update({"subst-L": L, "subst-R": R})
    L, R = [rotate_left(w, 2) for w in L], [rotate_right(w, 2) for w in R]
    steps.update({"rotated-L": L, "rotated-R": R})
    L, R = IMix(L, R, steps)
    steps.update({"L_0": L, "R_0": R})
    return L, R


def FT(L, R, KL, KR, steps):
    steps.update({"L": L, "R": R, "key-L": KL, "key-R": KR})
    L, R = IMix(L, R, steps)
    steps.update({"mixed-L": L, "mixed-R": R})
    L, R = [rotate_right(w, 2) for w in L], [rotate_left(w, 2) for w in R]
    steps.update({"rotated-L": L, "rotated-R": R})
    L, R = substitute(L, S_INVERSE), substitute(R, S_INVERSE)
    steps.update({"subst-L": L, "subst-R": R})
    L, R = subtract(L, KL), subtract(R, KR)
    steps.update({"sealed-L": L, "sealed-R": R})
    return L, R


# ---------------------------------------------------------------- 5.4  EF
# "steps" holds here a dictionary for "it", for each round and for "ft".

def EF(block, it_key, subkeys, ft_key, steps):
    half = len(block) // 2
    R, L = to_words(block[:half]), to_words(block[half:])       # 5.1
    L, R = IT(L, R, *it_key, steps.setdefault("it", {}))
    for i in range(16):
        s = steps.setdefault("round %d" % i, {})
        s.update({"L_%d" % i: L, "R_%d" % i: R, "subkey": subkeys[i]})
        L, R = R, xor(L, F(R, subkeys[i], s))
        s.update({"L_%d" % (i + 1): L, "R_%d" % (i + 1): R})
    L, R = R, L
    L, R = FT(L, R, *ft_key, steps.setdefault("ft", {}))
    return to_bytes(R) + to_bytes(L)


# ---------------------------------------------------------------- 5.12

def step_register(word):
    return (word + DELTA_ADD & MASK) ^ DELTA_XOR


def expand(key, n, l, steps):
    k = [to_words(key[8 * n * j:8 * n * (j + 1)]) for j in range(l)]
    register = [0] * n
    for uk in k:
        register = xor(register, uk)
    first = steps.setdefault("expansion", {"XOR": register})
    register = [rotate_left(word, 29) for word in register]
    first["register"] = register
    for j in range(l, 8):
        s = steps.setdefault("j %d" % j, {})
        s["register"] = register = [step_register(word) for word in register]
        k.append(xor(F(k[j - 1], register, s), k[j - l]))
        s.update({"k_%d" % (j - l): k[j - l], "k_%d" % j: k[j]})
    first.update({"k_%d" % j: k[j] for j in range(8)})
    return k


# ---------------------------------------------------------------- 5.3  E, U

def E(block, k, steps):
    return EF(block, [k[j] for j in IT_KEYS], [k[j] for j in ROUNDS],
              [k[j] for j in FT_KEYS], steps)


def U(block, k, steps):
    return EF(block, [k[j] for j in FT_KEYS], [k[j] for j in ROUNDS[::-1]],
              [k[j] for j in IT_KEYS], steps)


# ---------------------------------------------------------------- 7  Modes

def xor_bytes(x, y):
    """As many bytes as the shorter of the two has."""
    return bytes(a ^ b for a, b in zip(x, y))


def cut(page, size):
    return [page[i:i + size] for i in range(0, len(page), size)]


def cbc_seal(page, k, n, start):                                # 7.1
    sealed, before = [], start
    for block in cut(page, 16 * n):
        before = E(xor_bytes(block, before), k, {})
        sealed.append(before)
    return b"".join(sealed)


def cbc_open(sealed, k, n, start):                              # 7.1
    page, before = [], start
    for block in cut(sealed, 16 * n):
        page.append(xor_bytes(U(block, k, {}), before))
        before = block
    return b"".join(page)


def counter_block(n, start, q, i):                              # 7.2, 1 and 2
    number = (int.from_bytes(start, "big") + q + i) % 2**(128 * n)
    return number.to_bytes(16 * n, "big")


def ctr(data, k, n, start, q):                                  # 7.2
    result = []
    for i, block in enumerate(cut(data, 16 * n)):
        stream = E(counter_block(n, start, q, i), k, {})
        result.append(xor_bytes(block, stream))
    return b"".join(result)


def run(what, mode, n, l, key, start, q, data):
    """Opens or seals a whole page."""
    k = expand(key, n, l, {})
    if mode == "ctr":
        return ctr(data, k, n, start, q)
    return (cbc_seal if what == "seal" else cbc_open)(data, k, n, start)


# ---------------------------------------------------------------- 4, 12  check

def check_sum(data):
    return sum((i + 1) * byte for i, byte in enumerate(data))


def read_blocks(text):
    """The value blocks of the paper: name to list of lines."""
    blocks, name = {}, None
    for line in text.splitlines():
        if line.startswith("```"):
            name = line[3:].strip() if name is None else None
            if name is not None:
                blocks[name] = []
        elif name is not None:
            blocks[name].append(line)
    return blocks


class Checker:
    def __init__(self, text):
        self.blocks = read_blocks(text)
        self.number = self.differences = 0

    def same(self, what, mine, paper):
        self.number += 1
        if mine != paper:
            self.differences += 1
            print("DIFFERENCE in %s:\n  mine  %s\n  paper %s"
                  % (what, show(mine), show(paper)))

    def lines(self, name):
        self.same("the paper: is block %s there" % name,
                  name in self.blocks, True)
        return [line for line in self.blocks.get(name, []) if line.strip()]

    def records(self, block):
        """The records of a block as (head line, name to value). A value is
        bytes for byte lines and a list of words for word lines."""
        records = [("", {})]
        for line in self.lines(block):
            if ":" in line:                                     # byte line
                left, total = line.split(":")
                name, *groups = left.split()
                data = bytes.fromhex("".join(groups))
                self.same("check sum in %s, %s" % (block, line),
                          check_sum(data), int(total, 16))
                values = records[-1][1]
                values[name] = values.get(name, b"") + data
            elif "0x" in line:                                  # word line
                values = records[-1][1]
                for part in line.split("|"):
                    name, *words = part.split()
                    values.setdefault(name, []).extend(
                        int(word, 16) for word in words)
            else:                                               # head line
                records.append((line.strip(), {}))
        return [(head, values) for head, values in records if values]


def show(value):
    if isinstance(value, (bytes, bytearray)):
        return value.hex(" ").upper()
    if isinstance(value, list) and all(type(word) is int for word in value):
        return " ".join("0x%016X" % word for word in value)
    return "0x%X" % value if type(value) is int else str(value)


def check_table(c):                                             # 12, step 1
    paper = list(table_lines("\n".join(c.lines("table-1")[1:])))
    mine = list(table_lines(TABLE_1))
    c.same("number of lines of Table 1", len(mine), len(paper))
    c.same("Table 1: heads of the columns", c.lines("table-1")[0].split(),
           ["%02X" % column for column in range(16)] + ["sum"])
    for (head, entries, total), line in zip(mine, paper):
        c.same("Table 1, line %02X" % head, (head, entries, total), line)
        c.same("check sum of my line %02X" % head, check_sum(entries), total)
    c.same("Table 1: each byte once", sorted(S), list(range(256)))
    c.same("inverse of S", [S_INVERSE[S[x]] for x in range(256)],
           list(range(256)))


def check_parts(c):                                             # 12, step 2
    mine = {"field": [FIELD], "row": ROW, "delta-add": [DELTA_ADD],
            "delta-xor": [DELTA_XOR], "IT": IT_KEYS, "rounds": ROUNDS,
            "FT": FT_KEYS}
    mine.update({"xc_%d" % t: [XC[t]] for t in range(4)})
    paper = {line.split()[0]: [int(value, 16) for value in line.split()[1:]]
             for line in c.lines("constants")}
    for name in sorted(mine.keys() | paper.keys()):
        c.same("constant " + name, mine.get(name), paper.get(name))

    parts = {
        "S": lambda x: [S[x]],
        "S-inverse": lambda x: [S_INVERSE[x]],
        "product": lambda a, b: [product(a, b)],
        "mix": lambda w: [mix(w)],
        "mix-8": lambda w: [mix(mix(mix(mix(mix(mix(mix(mix(w))))))))],
        "delta": lambda w: [step_register(w)],
        "IMix": lambda L, R: sum(IMix([L], [R], {}), []),
    }
    for t in range(4):
        parts["SL-%d" % t] = lambda w, t=t: [SL([w] * 4, {})[t]]
    text = "\n".join(c.lines("small-values")).replace("\n ", " ")
    c.same("small-values: the names",
           {line.split()[0] for line in text.splitlines()}, set(parts))
    for line in text.splitlines():
        left, right = line.split("=")
        name, *values = left.split()
        values = [int(value, 16) for value in values]
        c.same("small value " + " ".join(line.split()), parts[name](*values),
               [int(value, 16) for value in right.split()])
        if name == "mix":
            c.same("mixing by the first wording", mix_by_rule(values[0]),
                   mix(values[0]))
        if name == "mix-8":
            by_46 = bytes(product(0x46, b) for b in to_bytes(values))
            c.same("each byte times 46", to_words(by_46), parts[name](*values))

    c.same("byte-sources: number of lines", 7, len(c.lines("byte-sources")))
    for line in c.lines("byte-sources"):
        n, i, *sources = [int(number) for number in line.split()]
        moved = to_bytes(permute(to_words(bytes(range(8 * n)))))
        c.same("P(%d) at place %d" % (n, i), moved[i:i + 8], bytes(sources))


def check_trace(c, n, l):                                       # 12, steps 3-5
    name = "trace-%d-" % n
    expansion = c.records(name + "expansion")
    it, ft = c.records(name + "it"), c.records(name + "ft")
    rounds = c.records(name + "rounds")
    c.same(name + "rounds: the heads", [head for head, _ in rounds],
           ["round %d k_%d" % (i, ROUNDS[i]) for i in range(16)])
    if not (expansion and it and ft):
        return

    key = expansion[0][1].pop("key")
    block = it[0][1].pop("block")
    c.same(name + "expansion: length of the key", len(key), 8 * n * l)
    steps = {}
    k = expand(key, n, l, steps)
    sealed = E(block, k, steps)
    steps["ft"]["sealed"] = sealed

    for default, records in (("expansion", expansion), ("it", it),
                             ("rounds", rounds), ("ft", ft)):
        for head, values in records:
            place = head.split(" k_")[0] or default
            for value in values:
                c.same("%s%s, %s, %s" % (name, default, place, value),
                       steps.get(place, {}).get(value), values[value])

    # Deciphering goes back over the same values (the end of section 9.4).
    back = {}
    c.same(name + "ft deciphered", U(sealed, k, back), block)
    for head, values in rounds:
        i = int(head.split()[1])                # the halves after round i
        mine = back["round %d" % (15 - i)]      # after m = 15 - i rounds
        c.same("deciphering, after %d rounds" % (15 - i),
               mine["R_%d" % (15 - i)] + mine["L_%d" % (15 - i)],
               values["L_%d" % (i + 1)] + values["R_%d" % (i + 1)])


def check_vectors(c):                                           # 12, steps 6-7
    for name in ("vectors-counting", "vectors-mixed"):
        sizes = []
        for head, v in c.records(name):
            n, l = int(head.split()[2]), int(head.split()[4])
            sizes.append((n, l))
            c.same("%s, %s: lengths" % (name, head),
                   (8 * n * l, 16 * n), (len(v["key"]), len(v["plain"])))
            k = expand(v["key"], n, l, {})
            c.same("%s, %s: enciphered" % (name, head),
                   E(v["plain"], k, {}), v["sealed"])
            c.same("%s, %s: deciphered" % (name, head),
                   U(v["sealed"], k, {}), v["plain"])
        c.same(name + ": all nine sizes", sizes,
               [(n, l) for n in (1, 2, 4) for l in (2, 3, 4)])

    for mode in ("cbc", "ctr"):
        runs = c.records("vectors-" + mode)
        c.same("vectors-%s: number of runs" % mode, len(runs), 3)
        for head, v in runs:
            words = head.split()
            n, l = int(words[2]), int(words[4])
            q = int(words[6]) if mode == "ctr" else 0
            c.same("%s: lengths" % head, (8 * n * l, 16 * n),
                   (len(v["key"]), len(v["start"])))
            for what, page, result in (("seal", v["plain"], v["sealed"]),
                                       ("open", v["sealed"], v["plain"])):
                c.same("%s: %s" % (head, what),
                       run(what, mode, n, l, v["key"], v["start"], q, page),
                       result)
            for value in v:
                if value.startswith("count-"):
                    i = int(value[len("count-"):])
                    c.same("%s: %s" % (head, value),
                           counter_block(n, v["start"], q, i), v[value])


def check_own(c):                                               # 12, step 8
    for n in (1, 2, 4):
        for l in (2, 3, 4):
            key, start = bytes(range(8 * n * l)), bytes(range(16 * n))
            for mode, length in (("cbc", 0), ("cbc", 16 * n), ("ctr", 0),
                                 ("ctr", 1), ("ctr", 16 * n),
                                 ("ctr", 16 * n + 1)):
                page = bytes(i % 251 for i in range(length))
                sealed = run("seal", mode, n, l, key, start, 0, page)
                opened = run("open", mode, n, l, key, start, 0, sealed)
                c.same("own string, n %d l %d %s" % (n, l, mode), opened, page)


def check(path):
    try:
        with open(path, encoding="utf-8") as file:
            text = file.read()
    except (OSError, UnicodeDecodeError) as error:
        wrong_usage("the paper cannot be read: %s" % error)
    c = Checker(text)
    for title, part in (
            ("Table 1 and its inverse", check_table),
            ("constants and parts", check_parts),
            ("trace at n = 1", lambda c: check_trace(c, 1, 2)),
            ("trace at n = 2", lambda c: check_trace(c, 2, 3)),
            ("trace at n = 4", lambda c: check_trace(c, 4, 4)),
            ("vectors: blocks, CBC, CTR", check_vectors),
            ("own strings", check_own)):
        before = c.number, c.differences
        try:
            part(c)
        except (ValueError, KeyError, IndexError, TypeError) as error:
            c.differences += 1
            print("DIFFERENCE: the paper's values for '%s' cannot be read: %r"
                  % (title, error))
        print("%-26s %4d checked, %d different"
              % (title, c.number - before[0], c.differences - before[1]))
    print("%-26s %4d checked, %d different"
          % ("all", c.number, c.differences))
    return 1 if c.differences else 0


# ---------------------------------------------------------------- command line

def wrong_usage(message):
    print("opener.py: " + message, file=sys.stderr)
    sys.exit(2)


def from_digits(what, text, length, why):                       # section 3
    digits = "".join(text.split())
    if any(d not in "0123456789abcdefABCDEF" for d in digits):
        wrong_usage("%s: there is a sign that is no hexadecimal digit" % what)
    if len(digits) != 2 * length:
        wrong_usage("%s: %d digits were given, but %s, that is %d digits"
                    % (what, len(digits), why, 2 * length))
    return bytes.fromhex(digits)


def main():
    parser = argparse.ArgumentParser(
        prog="opener.py", allow_abbrev=False,
        description="Opens and seals pages by OPENING-A-PAGE.md.")
    commands = parser.add_subparsers(dest="what", required=True)
    for what in ("open", "seal"):
        p = commands.add_parser(what, allow_abbrev=False)
        p.add_argument("--mode", required=True, choices=["cbc", "ctr"])
        p.add_argument("-n", required=True, type=int, choices=[1, 2, 4])
        p.add_argument("-l", required=True, type=int, choices=[2, 3, 4])
        p.add_argument("--key", required=True, metavar="HEX")
        p.add_argument("--start", required=True, metavar="HEX")
        p.add_argument("--offset", metavar="Q", help="CTR only; 0 if not given")
        p.add_argument("IN")
        p.add_argument("OUT")
    commands.add_parser("check", allow_abbrev=False).add_argument("PAPER")
    a = parser.parse_args()
    if a.what == "check":
        sys.exit(check(a.PAPER))

    n, l = a.n, a.l
    key = from_digits("the key", a.key, 8 * n * l,
                      "at n = %d and l = %d a key has %d bytes"
                      % (n, l, 8 * n * l))
    start = from_digits("the start block", a.start, 16 * n,
                        "at n = %d it has %d bytes" % (n, 16 * n))
    if a.offset is not None and a.mode == "cbc":
        wrong_usage("an offset is for CTR only")
    q = "0" if a.offset is None else a.offset
    if not (q.isascii() and q.isdigit() and len(q) <= 20 and int(q) < 2**64):
        wrong_usage("the offset must be a decimal number from 0 to "
                    "18446744073709551615")
    try:
        if a.IN == "-":
            data = sys.stdin.buffer.read()
        else:
            with open(a.IN, "rb") as file:
                data = file.read()
    except OSError as error:
        wrong_usage("the page cannot be read: %s" % error)
    if a.mode == "cbc" and len(data) % (16 * n):
        wrong_usage("the page has %d bytes; CBC takes whole blocks only, and "
                    "at n = %d a block has %d bytes; left over: %d"
                    % (len(data), n, 16 * n, len(data) % (16 * n)))

    result = run(a.what, a.mode, n, l, key, start, int(q), data)
    try:
        if a.OUT == "-":
            sys.stdout.buffer.write(result)
            sys.stdout.buffer.flush()
        else:
            with open(a.OUT, "wb") as file:
                file.write(result)
    except OSError as error:
        wrong_usage("the result cannot be written: %s" % error)


if __name__ == "__main__":
    main()
