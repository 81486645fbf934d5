#!/usr/bin/env python3
"""Answers the requests of docs/COMPARE.md with the archivists' program, a line for a line. It has no refusals: it is asked only for what
is admitted."""
import os
import sys

sys.dont_write_bytecode = True
sys.path.insert(0, os.path.join(os.path.dirname(os.path.abspath(__file__)), "archivists"))
import archivists_rows
import labyrinth
import modes


def data(field):
    return b"" if field == "-" else bytes.fromhex(field)


def cipher(n, l, key):
    found = labyrinth.Labyrinth(int(n), data(key))
    if found.l != int(l):
        raise ValueError("the key has another length")
    return found


def answer(op, *fields):
    if op == "mix":
        return f"{labyrinth.cmbn_poly(int(fields[0], 16)):016x}"
    if op == "mix_row":
        return f"0 {archivists_rows.mixed(data(fields[0]), int(fields[1], 16)):016x}"
    if op in ("cmac", "cmac_verify"):
        l, key, message, tag = fields
        made = modes.cmac(cipher(1, l, key), data(message), len(data(tag)))
        return f"0 {made.hex()}" if op == "cmac" else f"0 {int(made == data(tag))}"
    if op in ("wrap", "unwrap"):
        l, key, source, _ = fields
        made = (modes.kw_wrap if op == "wrap" else modes.kw_unwrap)(cipher(1, l, key), data(source))
        return "18 -" if made is None else f"0 {made.hex()}"
    n, l, key, *rest = fields
    c = cipher(n, l, key)
    if op == "encipher":
        made = c.encrypt_block(data(rest[0]))
    elif op == "decipher":
        made = c.decrypt_block(data(rest[0]))
    elif op == "cbc_seal":
        made = modes.cbc_encrypt(c, data(rest[0]), data(rest[1]))
    elif op == "cbc_open":
        made = modes.cbc_decrypt(c, data(rest[0]), data(rest[1]))
    elif op == "ctr":
        made = modes.ctr_crypt(c, data(rest[0]), int(rest[1]), data(rest[2]))
    else:
        raise ValueError("no such operation")
    return f"0 {made.hex() or '-'}"


for line in sys.stdin:
    print(answer(*line.split()))
