#!/usr/bin/env python3
"""The worked values of key wrapping in crates/modes/proofs/KeyWrap.antt, which its definitions are held to, against the archivists' program: the same block
map stands in the cipher's place. The values are read out of the file; each with a bit altered must be noticed."""
import os
import re
import sys

sys.dont_write_bytecode = True
HERE = os.path.dirname(os.path.abspath(__file__))
sys.path[:0] = [os.path.join(HERE, "archivists"), HERE]
import archivists_wraps
import modes

PATH = os.path.join(HERE, "..", "crates", "modes", "proofs", "KeyWrap.antt")
BYTES = r"((?:0x[0-9A-F]{2} ∷ )+)\[\]"


def value(text, before):
    """The bytes of the one list behind such a text."""
    found = re.findall(re.escape(before) + r"\s+" + BYTES, text)
    if len(found) != 1:
        raise SystemExit(f"worked: FAILED: {len(found)} values behind '{before}' in KeyWrap.antt, not 1")
    return bytes(int(byte, 16) for byte in found[0].split(" ∷ ")[:-1])


def main():
    with open(PATH, encoding="utf-8") as file:
        text = file.read()
    if text.count("\nfifth b = drop 5 b ++ take 5 b\n") != 1:
        raise SystemExit("worked: FAILED: the block map is another one")
    encipher, decipher = lambda b: b[5:] + b[:5], lambda b: b[-5:] + b[:-5]
    key = value(text, "worked_key =")
    states = archivists_wraps.states(encipher, key)
    wanted = {f"wrap_steps fifth {t} (ICV1 ++ worked_key)\n    ≡": states[t] for t in (1, 2)} | {"wrapped fifth worked_key\n    ≡": states[-1]}
    failures, noticed = [], 0
    for before, want in wanted.items():
        got = value(text, before)
        if got != want:
            failures.append(f"{before.split(chr(10))[0]}: {got.hex()}, not {want.hex()}")
        front, behind = text.split(before)
        altered = front + before + re.sub("0x(..)", lambda byte: f"0x{int(byte[1], 16) ^ 1:02X}", behind, count=1)
        noticed += value(altered, before) != want
    whole = value(text, "wrapped fifth worked_key\n    ≡")
    if modes.kw_unwrap(archivists_wraps.Heard(encipher, decipher), whole) != key:
        failures.append("it is not unwrapped to the key")
    if noticed != len(wanted):
        failures.append("an altered value is not noticed")
    for failure in failures:
        print(f"worked: FAILED: {failure}")
    print(f"worked: {len(wanted)} values of key wrapping, {len(states) - 1} steps: {len(failures)} failures; {noticed} altered values noticed")
    sys.exit(1 if failures else 0)


main()
