#!/usr/bin/env python3
"""Works tapes with the tape program and holds what it writes to answers told case by case here, from the papers and the archivists' vectors and
program, and to those that the rules in tests/papers.py give; then the tools for people on the same tapes; then shows that an altered answer is
noticed."""
import importlib.machinery
import importlib.util
import json
import os
import subprocess
import sys
import tempfile
import time

sys.dont_write_bytecode = True
HERE = os.path.dirname(os.path.abspath(__file__))
ROOT = os.path.dirname(HERE)
PROGRAM = os.path.join(ROOT, "crates", "tape_program", "out", "tape_program")
TOOLS = os.path.join(ROOT, "tools")
sys.path[:0] = [os.path.join(HERE, "archivists"), HERE]
import labyrinth
import papers
from papers import END, LONGEST, MIX, MIX_ANSWER as MIXED, command as block, set_key as key

# the example, 225 vectors and one tape of all, 9 lengths, 6 of the longest, 266 cut short, 271 fronts of a tape and the tape, 6 with data
# that end in 08, 299 refusals, 13 that end by one
COUNT = 1098


REFUSED_KEYS = [("n", key(3, 2, b""), 1), ("l", key(1, 5, b""), 2), ("unused", key(1, 2, b"\x01" * 17), 10)]


def vectors():
    with open(os.path.join(HERE, "archivists", "vectors.json")) as file:
        found = json.load(file)["block"]
    if len(found) != 225:
        sys.exit(f"tapes.py: {len(found)} block vectors, not 225")
    for v in found:
        data, plain, secret = (bytes.fromhex(v[part]) for part in ("key", "pt", "ct"))
        yield v["n"], v["l"], data, plain, secret


def example():
    return [("the example", papers.EXAMPLE, papers.EXAMPLE_ANSWERS)]


def block_vectors():
    """A tape for each, and one tape of all."""
    tapes, answers = b"", b""
    for n, l, data, plain, secret in vectors():
        tape = key(n, l, data) + block(3, plain) + block(4, secret)
        answer = b"\x00" + b"\x00" + secret + b"\x00" + plain
        yield f"a vector at n = {n}, l = {l}", tape + END, answer
        tapes, answers = tapes + tape, answers + answer
    yield "all vectors", tapes + END, answers


def lengths():
    count = (LONGEST - 1) // 9
    full = (MIX * count + END).ljust(LONGEST, b"\x05")
    yield "65,536 bytes", full, MIXED * count
    yield "65,536 bytes of commands, no 00", MIX * count + key(1, 2, b"")[:7], MIXED * count + b"\x08"
    yield "65,537 bytes", full + END, b"\x04"
    yield "00 and 65,536 bytes", END + MIX.ljust(LONGEST, b"\x00"), b"\x04"
    yield "far longer", bytes(3 * LONGEST), b"\x04"
    yield "no bytes", b"", b"\x08"
    yield "00", END, b""
    yield "a command, no 00", MIX, MIXED + b"\x08"
    yield "bytes after 00", MIX + END + MIX + b"\x7f", MIXED


def longest():
    """Tapes of 65,536 bytes by how they end, and one byte more."""
    n, l, data, plain, secret = next(vectors())
    head, said = key(n, l, data) + block(3, plain), b"\x00\x00" + secret
    tape, answer = head + MIX * 7260, said + MIXED * 7260
    yield "the longest that stops between two commands", tape, answer + b"\x08"
    yield "the same, but its last 05 a 03", tape[:-9] + b"\x03" + tape[-8:], answer[:-9] + b"\x08"
    yield "the same and 00", tape + END, b"\x04"
    most, answer = head + block(4, secret) * 4 + MIX * 7231, said + (b"\x00" + plain) * 4 + MIXED * 7231
    if (len(tape), len(most)) != (LONGEST, LONGEST - 1):
        sys.exit(f"tapes.py: {len(tape)} and {len(most)} bytes")
    for last, number in ((END, b""), (b"\x05", b"\x08"), (b"\x7f", b"\x07")):
        yield f"the longest whose last byte is {last.hex()}", most + last, answer + number


def cut_short():
    whole = {"01": key(1, 2, bytes(range(16))), "03": block(3, b"\x01"), "04": block(4, b"\x01"), "05": MIX}
    for name, command in whole.items():
        for length in range(1, len(command)):
            yield f"{name} cut after {length} bytes", MIX + command[:length], MIXED + b"\x08"


def copied_short():
    """Every front of a tape that 00 ends: the answers of its whole commands, and one 08; and the tape."""
    n, l, data, plain, secret = next(v for v in vectors() if v[:2] == (2, 3))
    commands = [(key(n, l, data), b"\x00"), (block(3, plain), b"\x00" + secret), (block(4, secret), b"\x00" + plain), (MIX, MIXED)]
    tape = b"".join(command for command, _ in commands) + END
    for length in range(len(tape)):
        answers, at = b"", 0
        for command, answer in commands:
            at += len(command)
            if at <= length:
                answers += answer
        yield f"{length} of {len(tape)} bytes", tape[:length], answers + b"\x08"
    yield f"all {len(tape)} bytes", tape, b"".join(answer for _, answer in commands)


def data_end_in_08():
    """The last byte alone does not tell: a word and a block whose answer ends in 08, with 00, without it, and cut short."""
    word = next(word for word in range(256) if labyrinth.cmbn_poly(word) >> 56 == 8)
    mix, mixed = b"\x05" + word.to_bytes(8, "little"), b"\x00" + labyrinth.cmbn_poly(word).to_bytes(8, "little")
    plain = b"\x08" * 16
    deciphers = key(1, 2, b"") + block(4, labyrinth.Labyrinth(1, bytes(16)).encrypt_block(plain))
    for name, tape, answer in (("word", mix, mixed), ("block", deciphers, b"\x00\x00" + plain)):
        yield f"a {name} that ends in 08, and 00", tape + END, answer
        yield f"a {name} that ends in 08, no 00", tape, answer + b"\x08"
        yield f"a {name} that ends in 08, and a lone 01", tape + b"\x01", answer + b"\x08"


def refusals():
    n, l, data, plain, secret = next(v for v in vectors() if v[:2] == (2, 3))
    good, enciphered = key(n, l, data) + block(3, plain), b"\x00\x00" + secret
    for command in set(range(256)) - {0, 1, 3, 4, 5}:
        yield f"unknown {command:02X}", MIX + bytes([command]) + MIX + END, MIXED + b"\x07"
    for wrong in (0, 3, 5, 8, 255):
        yield f"n = {wrong}", key(wrong, 2, b"") + MIX + END, b"\x01" + MIXED
        yield f"n = {wrong} before l", key(wrong, 9, b"\x01" * 128) + END, b"\x01"
        yield f"l = {1 if wrong == 3 else wrong}", key(1, 1 if wrong == 3 else wrong, b"") + MIX + END, b"\x02" + MIXED
    yield "l before unused bytes", key(1, 5, b"\x01" * 128) + END, b"\x02"
    for size in (1, 2, 4):
        for count in (2, 3, 4):
            used = 8 * size * count
            for place in sorted({used, 127} - {128}):
                data_ = bytearray(128)
                data_[place] = 0x80
                if place >= used:
                    yield f"unused key byte {place} at n = {size}, l = {count}", key(size, count, bytes(data_)) + MIX + END, b"\x0a" + MIXED
    for command in (3, 4):
        yield f"0{command} without a key", block(command, b"\x01" * 64) + END, b"\x09"
        yield f"0{command} after a refused key", key(3, 2, b"") + block(command, b"") + END, b"\x01\x09"
        for size in (1, 2):
            for place in (16 * size, 63):
                data_ = bytearray(64)
                data_[place] = 1
                yield (
                    f"unused byte {place} of a block, n = {size}",
                    key(size, 2, bytes(16 * size)) + block(command, bytes(data_)) + MIX + END,
                    b"\x00\x0a" + MIXED,
                )
    for name, refused, number in REFUSED_KEYS:
        tape = key(n, l, data) + refused + block(3, plain) + END
        yield f"the key after one refused for {name}", tape, b"\x00" + bytes([number]) + b"\x00" + secret
    yield "a second key", key(1, 2, b"\x07" * 16) + good + END, b"\x00" + enciphered


def refused_last():
    """Tapes that end by a refusal: 1, 2, 9 and 10 end no tape, so 08 follows; nothing follows 7."""
    for name, refused, number in REFUSED_KEYS:
        yield f"a key refused for {name}, no more", refused, bytes([number, 8])
        yield f"a second key refused for {name}, no more", key(1, 2, b"") + refused, bytes([0, number, 8])
    for command in (3, 4):
        yield f"0{command} without a key, no more", block(command, b""), b"\x09\x08"
        yield f"unused byte of a 0{command}, no more", key(1, 2, b"") + block(command, b"\x01" * 17), b"\x00\x0a\x08"
    for command in (0x02, 0x08, 0x7F):
        yield f"unknown {command:02X}, no more", MIX + bytes([command]), MIXED + b"\x07"


def work(tape):
    done = subprocess.run([PROGRAM], input=tape, capture_output=True, timeout=60)
    return done.stdout, done.stderr


def brief(data):
    return data.hex() if len(data) <= 40 else f"{data[:20].hex()}..{data[-20:].hex()} ({len(data)} bytes)"


def difference(tape, answer):
    """What the program wrote, if it isn't the answer alone."""
    got, said = work(tape)
    return None if got == answer and not said else f"{brief(got)} {said.decode()}, not {brief(answer)}"


def slowly(tape):
    """The tape in pieces, so that reads are short."""
    done = subprocess.Popen([PROGRAM], stdin=subprocess.PIPE, stdout=subprocess.PIPE)
    for at in range(0, len(tape), 7):
        done.stdin.write(tape[at : at + 7])
        done.stdin.flush()
        time.sleep(0.002)
    done.stdin.close()
    answer = done.stdout.read()
    done.wait(60)
    return answer


def loaded(name):
    """A tool, as a module."""
    loader = importlib.machinery.SourceFileLoader(name, os.path.join(TOOLS, name))
    module = importlib.util.module_from_spec(importlib.util.spec_from_loader(name, loader))
    loader.exec_module(module)
    return module


WRITE, SHOW = loaded("write_tape"), loaded("show_tape")


def spoken(lines):
    """The commands of a text, without the answers."""
    return [line for line in lines if not line.startswith("#")]


# how a tape ends, and the lines that tell it
SHORT = "# verdict: copied short, neither 00 nor an unknown command ended the tape"
ENDING = {
    "00": ["# verdict: whole, 00 ended the tape"],
    "unknown": ["# 07 unknown command: the tape ends here", "# verdict: not known whether whole, an unknown command ended the tape"],
    "in a command": ["# 08 operands cut short: the tape ends here", SHORT],
    "between two": ["# 08 nothing is left and no 00 came: the tape ends here", SHORT],
    "long": [
        "# 04 the tape is longer than 65,536 bytes: nothing was done",
        "# verdict: not worked, the tape is longer than 65,536 bytes",
    ],
}


def ending(tape):
    """How a tape ends, by its last step."""
    if len(tape) > LONGEST:
        return "long"
    *_, (number, taken, _) = papers.steps(tape)
    return {0: "00", 7: "unknown", 8: "in a command" if taken else "between two"}[number]


def tools_fault(tape, answer):
    """The verdict; tape to text to tape, and text to tape to text, with the answers and without; or what is wrong."""
    try:
        lines = SHOW.lines(tape, answer)
    except SHOW.Fault as fault:
        return f"show_tape: {fault}"
    end = ending(tape)
    telling = [line for line in lines if line.startswith(("# 04", "# 07", "# 08", "# verdict"))]
    if telling != ENDING[end] or lines[-1] != telling[-1]:
        return "another verdict"
    if end == "long":
        return None
    if WRITE.ended(tape) != (end in ("00", "unknown")):
        return "write_tape finds another end"
    text = "\n".join(lines)
    if WRITE.tape(text) != tape or WRITE.tape("\n".join(spoken(lines))) != tape:
        return "the text makes another tape"
    if SHOW.lines(WRITE.tape(text), answer) != lines:
        return "the tape makes another text"
    for wrong in (answer + b"\x00", answer + b"\x08", *([answer[:-1]] if answer else [])):
        try:
            SHOW.lines(tape, wrong)
            return "answers of another tape were not noticed"
        except SHOW.Fault:
            pass
    return None


def kept(place, name, data):
    path = os.path.join(place, name)
    with open(path, "wb") as file:
        file.write(data)
    return path


def called(tool, *files):
    """A tool as people call it: the exit status, what it writes and what it says."""
    done = subprocess.run([os.path.join(TOOLS, tool), *files], capture_output=True, timeout=60)
    return done.returncode, done.stdout, done.stderr.decode()


def written_by_hand(place):
    """write_tape as it is called, on texts with an end and without; or what is wrong."""
    no_end = "write_tape: no 00 ends this tape: its last answer will be 08\n"
    for text, tape, said in (
        ("mix 01 00\nencipher   # without a key\n\nkey 3 2\nbytes 7f\n", example()[0][1], ""),
        ("mix 01\nend\n", MIX + END, ""),
        ("mix 01\nbytes 00 05\n", MIX + END + b"\x05", ""),
        ("", b"", no_end),
        ("mix 01\n", MIX, no_end),
        ("key 1 2\nencipher\ndecipher\n", key(1, 2, b"") + block(3, b"") + block(4, b""), no_end),
        ("bytes 05 00\n", b"\x05\x00", no_end),
        ("mix 01\n" * 7281, MIX * 7281, no_end),
        ("mix 01\n" * 7282, MIX * 7282, ""),
    ):
        got = called("write_tape", kept(place, "text", text.encode()))
        if got != (0, tape, said):
            yield f"write_tape on {text[:40]!r}: {got[0]} {brief(got[1])} {got[2]}"


def shown_by_hand(place):
    """show_tape as it is called, on tapes that end in each way; or what is wrong."""
    mix, done = "mix 0100000000000000", "# 00 done: 0101030F0A1F0F0C"
    refused = ["encipher 00", "# 09 no key was set", "key 3 2 00", "# 01 n isn't 1, 2 or 4", "bytes 7F"]
    _, whole, answer = next(data_end_in_08())
    word, mixed = f"mix {whole[1:9].hex().upper()}", f"# 00 done: {answer[1:].hex().upper()}"
    for tape, answers, status, lines in (
        (*example()[0][1:], 0, [mix, done, *refused, *ENDING["unknown"]]),
        (MIX + END, MIXED, 0, [mix, done, "end", *ENDING["00"]]),
        (END + MIX, b"", 0, ["end", "bytes 050100000000000000", "# not read: the tape had ended", *ENDING["00"]]),
        (bytes(LONGEST + 1), b"\x04", 0, ENDING["long"]),
        (MIX, MIXED + b"\x08", 2, [mix, done, *ENDING["between two"]]),
        (MIX + MIX[:2], MIXED + b"\x08", 2, [mix, done, "bytes 0501", *ENDING["in a command"]]),
        (b"", b"\x08", 2, ENDING["between two"]),
        (whole, answer, 0, [word, mixed, "end", *ENDING["00"]]),
        (whole[:-1], answer + b"\x08", 2, [word, mixed, *ENDING["between two"]]),
    ):
        got = called("show_tape", kept(place, "tape", tape), kept(place, "answers", answers))
        if got != (status, "".join(line + "\n" for line in lines).encode(), ""):
            yield f"show_tape on {brief(tape)}: {got[0]} {got[1].decode()[:400]} {got[2]}"


def faults_by_hand(place):
    """show_tape as it is called, on answers that are not the tape's, those by the older rule among them; or what is wrong."""
    older = "the last 08, of a tape without 00, is missing: these answers are by a program older than that rule, or cut"
    early, more = "the answers end before the tape does", "there are more answers than the tape has commands"
    _, whole, answer = next(data_end_in_08())
    for tape, answers, fault in (
        (b"", b"", older),
        (MIX, MIXED, older),
        (whole[:-1], answer, older),  # although its last byte is 08
        (MIX + MIX, MIXED, early),
        (MIX + MIX[:2], MIXED, early),
        (MIX + MIX, MIXED + b"\x08", "the number 08 cannot answer this command"),
        (MIX, MIXED + b"\x00", "the number 00 cannot answer the end of a tape without 00"),
        (MIX, MIXED + b"\x08\x08", more),
        (MIX + MIX[:2], MIXED + b"\x08\x08", more),
        (MIX + END, MIXED + b"\x08", more),
        (bytes(LONGEST + 1), b"\x04\x08", "a tape longer than 65,536 bytes is answered by 04 alone"),
    ):
        got = called("show_tape", kept(place, "tape", tape), kept(place, "answers", answers))
        if got != (1, b"", f"show_tape: {fault}\n"):
            yield f"show_tape on {brief(tape)} and {brief(answers)}: {got[0]} {got[1].decode()[:400]} {got[2]}"


def refused_text(line):
    try:
        WRITE.tape(line)
        return False
    except WRITE.Fault:
        return True


def main():
    failures = []
    makers = (example, block_vectors, lengths, longest, cut_short, copied_short, data_end_in_08, refusals, refused_last)
    tapes = [case for maker in makers for case in maker()]
    for name, tape, answer in tapes:
        wrong = difference(tape, answer)
        if wrong:
            failures.append(f"{name}: {wrong}")
        if b"".join(papers.answers(tape)) != answer:
            failures.append(f"{name}: the rules of tests/papers.py give another answer")
    # an altered answer is noticed: the last byte of a vector's, and one byte too many
    _, tape, answer = tapes[1]
    for altered in (answer[:-1] + bytes([answer[-1] ^ 1]), answer + b"\x00"):
        if not difference(tape, altered):
            failures.append("an altered answer passed")
    # so is the answer by the older rule, without the 08 of a tape that stops between two commands, and one with two
    between = [case for case in tapes if ending(case[1]) == "between two"]
    for name, tape, answer in between:
        for altered in (answer[:-1], answer + b"\x08"):
            if not difference(tape, altered):
                failures.append(f"{name}: an altered end passed")
    # short reads
    for name, tape, answer in [*tapes[:2], between[-1]]:
        if slowly(tape) != answer:
            failures.append(f"{name}, read slowly")
    # a read error is no end of tape
    with subprocess.Popen([PROGRAM], stdin=os.open("/", os.O_RDONLY), stdout=subprocess.PIPE, stderr=subprocess.PIPE) as done:
        got, said = done.communicate(timeout=60)
    if got != b"" or said.count(b"\n") != 1:
        failures.append(f"a read error: {got.hex()} {said}")
    # the tools for people
    people = [case for case in tapes if not case[0].startswith("a vector")]
    for name, tape, answer in people:
        fault = tools_fault(tape, answer)
        if fault:
            failures.append(f"{name}: {fault}")
    with tempfile.TemporaryDirectory() as place:
        failures += [*written_by_hand(place), *shown_by_hand(place), *faults_by_hand(place)]
    for line in ("key 256 2 00", "key 1", "mix 0", "mix 000000000000000000", "encipher " + "00" * 65, "stop", "end 00", "mix 0g"):
        if not refused_text(line):
            failures.append(f"write_tape took: {line}")
    for failure in failures:
        print(f"tapes: FAILED: {failure}")
    print(f"tapes: {len(tapes)} tapes, {len(people)} of them by the tools too")
    if len(tapes) != COUNT:
        sys.exit(f"tapes: not {COUNT} tapes")
    sys.exit(1 if failures else 0)


main()
