#!/usr/bin/env python3
"""Tries the command labyrinth (target/rust/release/labyrinth): the archivists' CBC, CTR, CMAC and KW vectors through files and standard streams,
pages, tags, wrapped keys and page records with three other sets of tables, page records written, listed and opened, registers of keys made, added to,
searched and listed, the page, the keys, the record and the register of its own help, every exit status and number, and that no run leaves a half-written
OUT; then shows that one altered byte is noticed. Expected numbers are those of documents 01 and 02 (tests/papers.py; of registers by rules of its own),
expected bytes, tags and keys the archivists', records laid out by tests/page_records.py."""
import fcntl
import json
import os
import pty
import random
import re
import resource
import shlex
import shutil
import signal
import subprocess
import sys
import tempfile
import time

sys.dont_write_bytecode = True
HERE = os.path.dirname(os.path.abspath(__file__))
ROOT = os.path.dirname(HERE)
sys.path[:0] = [os.path.join(HERE, "archivists"), HERE]
import archivists_sets
import labyrinth
import modes
import page_records
import papers

BUILT = os.path.join(ROOT, "target", "rust", "release", "labyrinth")
KEY = "f00dfeedf00dfeed0123456789abcdef"
TAG_KEY = KEY[10:] + KEY[:10]  # it has digits of KEY in it, so that a message that shows it is noticed
START = "ff" * 16
MIB = 1 << 20
OLD = b"what OUT held before"
NOBODY = 65534
COUNT = 6263


class Wrong(Exception):
    pass


def narrow():
    """Less memory than a page of 64 MiB has."""
    resource.setrlimit(resource.RLIMIT_AS, (32 * MIB, 32 * MIB))


def somebody():
    """Who may not read or write what is locked; a run by root takes nobody's place."""
    return {"user": NOBODY, "group": NOBODY, "extra_groups": []} if os.getuid() == 0 else {}


class Place:
    """A directory with the command, a key file and a page; what a run leaves in it besides OUT is noticed."""

    def __init__(self, path):
        self.path = path
        self.count = 0
        os.chmod(path, 0o755)
        shutil.copy(BUILT, self.at("labyrinth"))
        self.write("key", KEY.encode())
        self.write("page", bytes(i * 7 % 256 for i in range(48)))
        self.write("odd", bytes(17))

    def at(self, name):
        return os.path.join(self.path, name)

    def write(self, name, data):
        with open(self.at(name), "wb") as file:
            file.write(data)

    def read(self, name):
        with open(self.at(name), "rb") as file:
            return file.read()

    def write_long(self):
        with open(self.at("long"), "wb") as file:
            file.truncate(64 * MIB)

    def names(self):
        return sorted(os.listdir(self.path))

    def start(self, words, **more):
        return subprocess.Popen([self.at("labyrinth"), *words], cwd=self.path, stderr=more.pop("stderr", subprocess.PIPE), **more)

    def run(self, words, given=b"", program=None, **more):
        if "stdin" not in more:
            more["input"] = given
        more.setdefault("stdout", subprocess.PIPE)
        return subprocess.run([program or self.at("labyrinth"), *words], cwd=self.path, stderr=subprocess.PIPE, timeout=60, **more)

    def fails(self, what, status, says, words, out="out", **more):
        """The run ends with this status and message; OUT is what it was, once absent and once there, or, where there is none, nothing went
        to standard output; nothing else appears; the message shows nothing of the key."""
        for old in (None, OLD) if out == "out" else (None,):
            if old is not None:
                self.write("out", old)
            before = self.names()
            done = self.run(words, **more)
            message = done.stderr.decode()
            if done.returncode != status:
                raise Wrong(f"{what}: status {done.returncode}, not {status}: {message}")
            if not message.startswith("labyrinth: ") or says not in message:
                raise Wrong(f"{what}: the message lacks '{says}': {message}")
            if out is None and done.stdout:
                raise Wrong(f"{what}: bytes on standard output")
            if any(KEY[i : i + 6] in message.lower() for i in range(len(KEY) - 5)):
                raise Wrong(f"{what}: the message shows the key")
            self.untouched(what, before, old)
        self.count += 1

    def refuses(self, what, number, words, **more):
        """Status 1, with this number, which is the papers'."""
        wanted = papers_number(self, words)
        if number != wanted:
            raise Wrong(f"{what}: the papers give {wanted}, not {number}")
        self.fails(what, 1, f"refused with {number}:", words, **more)

    def untouched(self, what, before, old):
        """The files are those from before, and an old OUT, which goes now, is as it was."""
        if self.names() != before:
            raise Wrong(f"{what}: left {self.names()} where {before} were")
        if old is not None:
            if self.read("out") != old:
                raise Wrong(f"{what}: OUT was altered")
            os.remove(self.at("out"))

    def works(self, what, words, expected, out="out", **more):
        done = self.run(words, **more)
        if done.returncode != 0 or done.stderr:
            raise Wrong(f"{what}: status {done.returncode}: {done.stderr.decode()}")
        if (done.stdout if out == "-" else self.read(out)) != expected:
            raise Wrong(f"{what}: other bytes")
        self.count += 1


def words(way="seal", mode="ctr", n=1, l=2, key="key", start=START, q=None, names=("page", "out"), tables=None):
    options = ["--mode", mode, "-n", str(n), "-l", str(l), "--key-file", key, "--start", start]
    return [way, *options, *(["--offset", str(q)] if q is not None else []), *with_tables(tables), *names]


def tag_words(way="tag", l=2, key="key", value=None, names=("page",), tables=None):
    """The value is --length's for tag, --tag's for verify."""
    option = [] if value is None else ["--length" if way == "tag" else "--tag", str(value)]
    return [way, "-l", str(l), "--key-file", key, *option, *with_tables(tables), *names]


def wrap_words(way="wrap", l=2, key="key", names=("other.key", "out"), tables=None):
    return [way, "-l", str(l), "--key-file", key, *with_tables(tables), *names]


def page_words(way="write", l=2, key="key", tag_key="tag.key", tag_l=None, number=17, day=20014, title="Of the harbour", start=START, names=("page", "out"), **sets):
    """Sets are tables, and tag_tables."""
    options = ["-l", str(l), "--key-file", key, "--tag-key-file", tag_key, *([] if tag_l is None else ["--tag-l", str(tag_l)]), *with_tables(sets.get("tables"))]
    options += [] if sets.get("tag_tables") is None else ["--tag-set", sets["tag_tables"]]
    text = ["--number", str(number), "--day", str(day), "--title", title, "--start", start]
    return ["page", way, *options, *(text if way == "write" else []), *names]


def with_tables(name):
    return [] if name is None else ["--set", name]


def papers_number(place, words):
    """For words as the functions above make them, with files of hexadecimal digits for the keys and of bytes for IN, if it isn't a key."""
    if words[0] == "page":
        return papers_page_number(place, words)
    way, names = words[0], 1 if words[0] in ("tag", "verify") else 2
    said = dict(zip(words[1:-names:2], words[2:-names:2]))
    l, key = int(said["-l"]), len(place.read(said["--key-file"])) // 2
    if "--set" in said:
        data = bytes.fromhex(place.read(said["--set"]).decode())
        number = papers.Store.fresh().load(0, 1, data[:256], data[256:])
        if number:
            return number
    if names == 1:
        return papers.through_c("cmac", 1, l, key, 0, 0, int(said.get("--length", 16)) if way == "tag" else len(said["--tag"]) // 2)
    if way in ("wrap", "unwrap"):
        # an IN that isn't there is as good as any
        source = len(place.read(words[-2])) // 2 if os.path.exists(place.at(words[-2])) else 24
        return papers.through_c(way, 1, l, key, 0, source, source + (8 if way == "wrap" else -8))
    source = len(place.read(words[-2]))
    return papers.through_c("ctr" if said["--mode"] == "ctr" else f"cbc_{way}", int(said["-n"]), l, key, len(said["--start"]) // 2, source, source)


def papers_page_number(place, words):
    """Sets are files of digits too. An IN that isn't there is as good as an empty body, or as a record."""
    said = dict(zip(words[2:-2:2], words[3:-2:2]))
    for i, option in enumerate(("--set", "--tag-set"), 1):
        data = bytes.fromhex(place.read(said[option]).decode()) if option in said else b"".join(archivists_sets.PUBLISHED)
        if number := papers.Store.fresh().load(0, i, data[:256], data[256:]):
            return number
    for l, key in ((said["-l"], said["--key-file"]), (said.get("--tag-l", said["-l"]), said["--tag-key-file"])):
        if number := papers.expansion(1, int(l), len(place.read(key)) // 2):
            return number
    source = place.read(words[-2]) if os.path.exists(place.at(words[-2])) else b""
    if words[1] == "open":
        return 19 if RECORDS.parts(source) is None else 20
    title = max(32, len(said["--title"].encode()))
    return papers.page_lengths(title, len(said["--start"]) // 2, len(source), papers.record_length(len(source) // 16))


def sealed(mode, data, q=0):
    cipher, start = labyrinth.Labyrinth(1, bytes.fromhex(KEY)), bytes.fromhex(START)
    return modes.cbc_encrypt(cipher, start, data) if mode == "cbc" else modes.ctr_crypt(cipher, start, q, data)


def tag_of(data, length=16):
    return modes.cmac(labyrinth.Labyrinth(1, bytes.fromhex(KEY)), data, length).hex()


def archivists_vectors():
    with open(os.path.join(HERE, "archivists", "vectors.json")) as file:
        found = json.load(file)
    if (len(found["cbc"]), len(found["ctr"]), len(found["cmac"]), len(found["kw"])) != (72, 360, 40, 30):
        raise Wrong("not 72 CBC, 360 CTR, 40 CMAC and 30 KW vectors")
    return found


def vector_cases():
    found = archivists_vectors()
    for mode in ("cbc", "ctr"):
        for v in found[mode]:
            q = None if mode == "cbc" else "0x" + v["q"]
            yield mode, v["n"], v["l"], v["key"], v["iv" if mode == "cbc" else "start"], q, bytes.fromhex(v["pt"]), bytes.fromhex(v["ct"])


def vectors(place, alter=lambda data: data):
    """Each is sealed and opened from stream to stream; all by CBC and a fifth by CTR, 8 a size, from file to file too."""
    for i, (mode, n, l, key, start, q, plain, secret) in enumerate(vector_cases()):
        place.write("vector.key", key.encode())
        for way, source, expected in (("seal", plain, secret), ("open", secret, plain)):
            what = f"{way} {mode}, n = {n}, l = {l}, {len(source)} bytes"
            place.write("in", source)
            case = dict(way=way, mode=mode, n=n, l=l, key="vector.key", start=start, q=q)
            if mode == "cbc" or (i - 72) % 5 == (i - 72) // 40 % 5:
                place.works(what, words(**case, names=("in", "out")), alter(expected))
            place.works(what + ", streams", words(**case, names=("-", "-")), alter(expected), out="-", given=source)
    for name in ("in", "out", "vector.key"):
        os.remove(place.at(name))


def flipped(data):
    return data[:-1] + bytes([data[-1] ^ 1])


def tag_vectors(place, alter=lambda data: data):
    """Each tag is made and verified from a file and from standard input; with a bit altered, it or the message gets a no."""
    for v in archivists_vectors()["cmac"]:
        message, tag = bytes.fromhex(v["msg"]), alter(bytes.fromhex(v["tag"]))
        place.write("vector.key", v["key"].encode())
        place.write("in", message)
        case = dict(l=v["l"], key="vector.key")
        right = dict(case, way="verify", value=tag.hex())
        for name, given in (("in", b""), ("-", message)):
            what = f"l = {v['l']}, {len(message)} bytes, a tag of {v['taglen']} from {name}"
            place.works(what, tag_words(**case, value=v["taglen"], names=(name,)), tag.hex().encode() + b"\n", out="-", given=given)
            place.works(what + ", verified", tag_words(**right, names=(name,)), b"", out="-", given=given)
            wrong = tag_words(**case, way="verify", value=flipped(tag).hex(), names=(name,))
            place.fails(what + ", altered", 4, "no: altered", wrong, out=None, given=given)
        altered_message = flipped(message) if message else b"\0"
        place.fails("an altered message", 4, "standard input: no: altered", tag_words(**right, names=("-",)), out=None, given=altered_message)
    for name in ("in", "vector.key"):
        os.remove(place.at(name))


def tag_forms(place):
    """Ways to write one thing, every length of a tag, and the empty page."""
    page = place.read("page")
    whole, line = tag_of(page), tag_of(page).encode() + b"\n"
    spaced = " " + whole[:9].upper() + "\n" + whole[9:] + " "
    place.works("the length left out", tag_words(), line, out="-")
    place.works("the key from standard input", tag_words(key="-"), line, out="-", given=KEY.encode())
    place.works("a tag in groups", tag_words("verify", value=spaced), b"", out="-")
    place.works("verified by a key from standard input", tag_words("verify", key="-", value=whole), b"", out="-", given=KEY.encode())
    place.works("options last", ["verify", "page", *tag_words("verify", value=whole)[1:-1]], b"", out="-")
    place.write("-x", page)
    place.works("a name after --", tag_words(names=("--", "-x")), line, out="-")
    name = os.fsencode(place.path) + b"/\xff\xfe"
    place.write(os.fsdecode(name), page)
    place.works("a name that is no text", tag_words(names=(name,)), line, out="-")
    for length in papers.TAG_LENGTHS:
        place.works(f"{length} bytes", tag_words(value=length), tag_of(page, length).encode() + b"\n", out="-")
        place.works(f"{length} bytes verified", tag_words("verify", value=whole[: 2 * length]), b"", out="-")
        other = whole[: 2 * length - 1] + ("0" if whole[2 * length - 1] != "0" else "1")
        place.fails(f"{length} bytes, the last digit wrong", 4, "page: no: altered", tag_words("verify", value=other), out=None)
    place.write("empty", b"")
    place.works("an empty file", tag_words(names=("empty",)), tag_of(b"").encode() + b"\n", out="-")
    place.works("an empty file verified", tag_words("verify", value=tag_of(b""), names=("empty",)), b"", out="-")
    place.fails("an empty file by a page's tag", 4, "empty: no: altered", tag_words("verify", value=whole, names=("empty",)), out=None)
    for extra in ("-x", "empty", os.fsdecode(name)):
        os.remove(place.at(extra))


def altered_pages(place):
    """A page is sealed, tagged, verified and opened; under another key, or altered, it gets a no."""
    page = place.read("page")
    place.works("sealed", words(mode="cbc", names=("page", "secret")), sealed("cbc", page), out="secret")
    secret = place.read("secret")
    tag = tag_of(secret)
    place.works("sealed and tagged", tag_words(names=("secret",)), tag.encode() + b"\n", out="-")
    place.works("sealed, tagged and verified", tag_words("verify", value=tag, names=("secret",)), b"", out="-")
    place.write("other.key", flipped(bytes.fromhex(KEY)).hex().encode())
    place.fails("another key", 4, "secret: no: altered", tag_words("verify", key="other.key", value=tag, names=("secret",)), out=None)
    for bit in range(0, 8 * len(secret), 7):
        altered_page = bytes(byte ^ (1 << bit % 8 if i == bit // 8 else 0) for i, byte in enumerate(secret))
        place.fails(f"bit {bit} altered", 4, "no: altered", tag_words("verify", value=tag, names=("-",)), out=None, given=altered_page)
    for what, given in (("a byte less", secret[:-1]), ("a byte more", secret + b"\0"), ("padded as the standard does", secret + b"\x80")):
        place.fails(what, 4, "no: altered", tag_words("verify", value=tag, names=("-",)), out=None, given=given)
    place.works("then opened", words("open", "cbc", names=("secret", "out")), page)
    for name in ("secret", "out", "other.key"):
        os.remove(place.at(name))


def tag_refusals(place):
    """Status 1: the numbers in their order, and before IN is looked for."""
    whole = tag_of(place.read("page"))
    for way, short in (("tag", 7), ("verify", whole[:14])):
        for l in (0, 1, 5, 258, (1 << 32) + 2, 1 << 61, (1 << 64) - 1, 10**30):
            place.refuses(f"{way}, l = {l}", 2, tag_words(way, l=l, value=None if way == "tag" else whole), out=None)
        for count in (0, 15, 17, 32):
            place.write("other.key", b"ab" * count)
            place.refuses(f"{way}, a key of {count} bytes", 3, tag_words(way, key="other.key", value=whole if way == "verify" else 8), out=None)
        missing = dict(value=short, names=("missing",))
        place.refuses(f"{way}, 2 before 3", 2, tag_words(way, l=9, key="other.key", **missing), out=None)
        place.refuses(f"{way}, 3 before 11", 3, tag_words(way, key="other.key", **missing), out=None)
        place.refuses(f"{way}, 11 before IN", 11, tag_words(way, **missing), out=None)
    for length in (0, 1, 7, 17, 18, 256 + 16, (1 << 32) + 8, (1 << 64) - 1, 1 << 64, 10**30):
        place.refuses(f"a tag of {length} bytes", 11, tag_words(value=length), out=None)
    for count in (0, 1, 7, 17, 24, 256 + 16):
        place.fails(f"a tag of {count} bytes to be verified", 1, f"--tag gives {count} bytes", tag_words("verify", value=(whole * 17)[: 2 * count]), out=None)
    os.remove(place.at("other.key"))


def tag_usage(place):
    """Status 2."""
    whole = tag_of(place.read("page"))
    for way, good in (("tag", tag_words(value=16)), ("verify", tag_words("verify", value=whole))):
        for option in ("-l", "--key-file", "--tag") if way == "verify" else ("-l", "--key-file"):
            i = good.index(option)
            place.fails(f"{way}, no {option}", 2, f"{option} is missing", good[:i] + good[i + 2 :], out=None)
            place.fails(f"{way}, {option} twice", 2, "twice", good + good[i : i + 2], out=None)
        for option in ("--mode", "-n", "--start", "--offset", "--length" if way == "verify" else "--tag"):
            place.fails(f"{way} with {option}", 2, f"'{way}' takes no {option}", [*good, option, "1"], out=None)
        place.fails(f"{way}, no IN", 2, "where IN is wanted", good[:-1], out=None)
        place.fails(f"{way}, a word too many", 2, "where IN is wanted", [*good, "out"])
        place.fails(f"{way}, an empty name", 2, "name is empty", [*good[:-1], ""], out=None)
        place.fails(f"{way}, key and IN from one stream", 2, "standard input", tag_words(way, key="-", value=good[-2], names=("-",)), out=None)
    place.fails("n for a tag", 2, "a tag is always at n = 1", [*tag_words(), "-n", "1"], out=None)
    for option in ("--length", "--tag"):
        place.fails(f"a page with {option}", 2, f"'seal' takes no {option}", [*words(), option, "16"])
    for length in ("", "-8", "+8", "0x10", "8.0", "sixteen"):
        place.fails(f"a length of {length}", 2, "--length takes a number", tag_words(value=length), out=None)
    for what, says, value in (
        ("odd digits", "--tag: an odd number of hexadecimal digits (31)", whole[:31]), ("no digits", "--tag: character 5 ", whole[:4] + "x" + whole[5:]),
        ("0x", "--tag: character 2 ", "0x" + whole),
    ):  # fmt: skip
        place.fails(f"{what} in a tag", 2, says, tag_words("verify", value=value), out=None)


def tag_files(place):
    """Status 3."""
    whole = tag_of(place.read("page"))
    place.write("locked", b"")
    os.chmod(place.at("locked"), 0o000)
    place.write_long()
    for way, value in (("tag", None), ("verify", whole)):
        place.fails(f"{way}, no key file", 3, "missing.key", tag_words(way, key="missing.key", value=value), out=None)
        for name in ("missing", "."):
            place.fails(f"{way}, IN is {name}", 3, f"labyrinth: {name}: ", tag_words(way, value=value, names=(name,)), out=None)
        place.fails(f"{way}, IN that can't be read", 3, "ermission denied", tag_words(way, value=value, names=("locked",)), out=None, **somebody())
        place.fails(f"{way}, no memory for IN", 3, "labyrinth: long: ", tag_words(way, value=value, names=("long",)), out=None, preexec_fn=narrow)
    with open("/dev/full", "wb") as full:
        place.fails("no room for a tag", 3, "standard output", tag_words(), out=None, stdout=full)
    for extra in ("locked", "long"):
        os.remove(place.at(extra))


NOT_WRAPPED = "no: refused with 18: the wrapped key's check value is wrong"


def line(data):
    """A key as the command writes it."""
    return data.hex().encode() + b"\n"


def wrapped(key, master=KEY):
    return modes.kw_wrap(labyrinth.Labyrinth(1, bytes.fromhex(master)), key)


def some_key(count):
    """It has digits of KEY in it, so that a message that shows it is noticed."""
    return (bytes.fromhex(KEY) * 10)[3 : 3 + count]


def wrap_vectors(place, alter=lambda data: data):
    """Each key is wrapped and unwrapped from file to file and from stream to stream; with a bit altered it gets a no, and no OUT."""
    for v in archivists_vectors()["kw"]:
        key, secret = bytes.fromhex(v["pt"]), bytes.fromhex(v["ct"])
        place.write("vector.key", v["key"].encode())
        case = dict(l=v["l"], key="vector.key")
        for way, source, expected in (("wrap", key, secret), ("unwrap", secret, key)):
            what = f"{way}, l = {v['l']}, {len(source)} bytes"
            place.write("in", source.hex().encode())
            place.works(what, wrap_words(way, **case, names=("in", "out")), line(alter(expected)))
            os.remove(place.at("out"))
            place.works(what + ", streams", wrap_words(way, **case, names=("-", "-")), line(alter(expected)), out="-", given=line(source))
        place.write("in", flipped(secret).hex().encode())
        place.fails("an altered wrapped key", 4, f"in: {NOT_WRAPPED}", wrap_words("unwrap", **case, names=("in", "out")))
        place.fails("an altered wrapped key, streams", 4, NOT_WRAPPED, wrap_words("unwrap", **case, names=("-", "-")), out=None, given=line(flipped(secret)))
    for name in ("in", "vector.key"):
        os.remove(place.at(name))


def wrap_forms(place):
    """Ways to write one thing; every bit of a wrapped key; another master key; what is unwrapped seals a page."""
    key, page = some_key(16), place.read("page")
    secret = wrapped(key)
    digits = secret.hex()
    place.write("some.key", key.hex().encode())
    place.write("some.wrapped", line(secret))
    unwrap = dict(way="unwrap", names=("some.wrapped", "out"))
    place.write("spaced", ("\r\n".join(digits[i : i + 8].upper() for i in range(0, 48, 8)) + "\n\n").encode())
    place.works("a wrapped key in groups", wrap_words("unwrap", names=("spaced", "out")), line(key))
    place.works("the master key from standard input", wrap_words(key="-", names=("some.key", "out")), line(secret), given=KEY.encode())
    place.works("from standard input to a file", wrap_words(names=("-", "out")), line(secret), given=key.hex().encode())
    place.works("from a file to standard output", wrap_words("unwrap", names=("some.wrapped", "-")), line(key), out="-")
    place.works("options last", ["wrap", "some.key", "out", *wrap_words()[1:-2]], line(secret))
    place.write("-x", key.hex().encode())
    place.works("names after --", wrap_words(names=("--", "-x", "out")), line(secret))
    name = os.fsencode(place.path) + b"/\xff\xfe"
    place.works("a name that is no text", wrap_words(names=("some.key", name)), line(secret), out=os.fsdecode(name))
    for extra in ("-x", "spaced", "out", os.fsdecode(name)):
        os.remove(place.at(extra))
    # what OUT was: its permissions and a link to it stay; a new one is its owner's alone
    place.write("out", OLD)
    os.chmod(place.at("out"), 0o640)
    os.symlink("out", place.at("link"))
    place.works("OUT by a link", wrap_words("unwrap", names=("some.wrapped", "link")), line(key))
    if not os.path.islink(place.at("link")) or os.stat(place.at("out")).st_mode & 0o7777 != 0o640:
        raise Wrong("OUT's permissions or the link to it were lost")
    os.remove(place.at("link"))
    os.remove(place.at("out"))
    place.works("an unwrapped key to a new OUT", wrap_words(**unwrap), line(key), preexec_fn=lambda: os.umask(0o022))
    if os.stat(place.at("out")).st_mode & 0o7777 != 0o600:
        raise Wrong("a key that was unwrapped to a new OUT can be read by others")
    # the key that came back
    expected = modes.ctr_crypt(labyrinth.Labyrinth(1, key), bytes.fromhex(START), 0, page)
    place.works("a page sealed with the unwrapped key", words(key="out", names=("page", "-")), expected, out="-")
    os.remove(place.at("out"))
    for bit in range(8 * len(secret)):
        other = bytes(byte ^ (1 << bit % 8 if i == bit // 8 else 0) for i, byte in enumerate(secret))
        place.fails(f"bit {bit} altered", 4, f"standard input: {NOT_WRAPPED}", wrap_words("unwrap", names=("-", "out")), given=line(other))
    place.write("other.key", flipped(bytes.fromhex(KEY)).hex().encode())
    place.fails("another master key", 4, f"some.wrapped: {NOT_WRAPPED}", wrap_words(**unwrap, key="other.key"))
    place.fails("another l", 1, "refused with 3:", wrap_words(**unwrap, l=3))
    place.write("some.wrapped", place.read("some.key") + b"0" * 16)
    place.fails("a key that isn't wrapped", 4, f"some.wrapped: {NOT_WRAPPED}", wrap_words(**unwrap))
    for extra in ("some.key", "some.wrapped", "other.key"):
        os.remove(place.at(extra))


def wrap_refusals(place):
    """Status 1: the numbers in their order, 2 and 3 before IN is looked for; and every length of a key."""
    place.write("other.key", some_key(24).hex().encode())
    for way in ("wrap", "unwrap"):
        for l in (0, 1, 5, 258, (1 << 32) + 2, 1 << 61, (1 << 64) - 1, 10**30):
            place.refuses(f"{way}, l = {l}", 2, wrap_words(way, l=l))
        for count in (0, 15, 17, 32):
            place.write("master.key", b"ab" * count)
            place.refuses(f"{way}, a master key of {count} bytes", 3, wrap_words(way, key="master.key"))
        missing = dict(names=("missing", "out"))
        place.refuses(f"{way}, 2 before 3", 2, wrap_words(way, l=9, key="master.key", **missing))
        place.refuses(f"{way}, 3 before IN", 3, wrap_words(way, key="master.key", **missing))
        place.write("in", some_key(8).hex().encode())
        place.refuses(f"{way}, 2 before 17", 2, wrap_words(way, l=9, names=("in", "out")))
        place.refuses(f"{way}, 3 before 17", 3, wrap_words(way, key="master.key", names=("in", "out")))
        place.refuses(f"{way}, 17 before OUT", 17, wrap_words(way, names=("in", "none/out")), out=None)
        for count in range(145):
            place.write("in", some_key(count).hex().encode())
            case = wrap_words(way, names=("in", "out"))
            if count not in (papers.UNWRAPPED_LENGTHS if way == "wrap" else papers.WRAPPED_LENGTHS):
                place.refuses(f"{way}, {count} bytes", 17, case)
            elif way == "unwrap":
                place.fails(f"{count} bytes that aren't wrapped", 4, NOT_WRAPPED, case)
            else:
                place.works(f"{count} bytes", case, line(wrapped(some_key(count))))
                os.remove(place.at("out"))
        place.fails(f"{way}, the message", 1, "(IN holds 144 bytes)", wrap_words(way, names=("in", "out")))
    for name in ("other.key", "master.key", "in"):
        os.remove(place.at(name))


def wrap_usage(place):
    """Status 2."""
    key, secret = some_key(16), wrapped(some_key(16))
    place.write("other.key", key.hex().encode())
    place.write("some.wrapped", line(secret))
    for way, name in (("wrap", "other.key"), ("unwrap", "some.wrapped")):
        good = wrap_words(way, names=(name, "out"))
        for option in ("-l", "--key-file"):
            i = good.index(option)
            place.fails(f"{way}, no {option}", 2, f"{option} is missing", good[:i] + good[i + 2 :])
            place.fails(f"{way}, {option} twice", 2, "twice", good + good[i : i + 2])
        for option in ("--mode", "-n", "--start", "--offset", "--length", "--tag"):
            place.fails(f"{way} with {option}", 2, f"'{way}' takes no {option}", [*good, option, "1"])
        place.fails(f"n for {way}", 2, "a wrapped key is always at n = 1", [*good, "-n", "1"])
        place.fails(f"{way}, no OUT", 2, "where IN and OUT are wanted", good[:-1])
        place.fails(f"{way}, a word too many", 2, "where IN and OUT are wanted", [*good, "more"])
        place.fails(f"{way}, an empty name", 2, "name is empty", [*good[:-1], ""])
        place.fails(f"{way}, key and IN from one stream", 2, "standard input", wrap_words(way, key="-", names=("-", "out")))
        place.fails(f"{way}, set and IN from one stream", 2, "only one can come from standard input", wrap_words(way, names=("-", "out"), tables="-"))
        for what, says, text in (
            ("odd digits", "odd number of hexadecimal digits (31)", KEY[:31]), ("no digits", "character 5 ", KEY[:4] + "x" + KEY[5:]),
            ("0x", "character 2 ", "0x" + KEY), ("a long file", "more than 65536 bytes", "00" * 32769),
        ):  # fmt: skip
            place.write("wrong.key", text.encode())
            place.fails(f"{way}, {what} in IN", 2, "key file wrong.key", wrap_words(way, names=("wrong.key", "out")))
            place.fails(f"{way}, {what} in IN", 2, says, wrap_words(way, names=("wrong.key", "out")))
            place.fails(f"{way}, {what} in the master key's file", 2, says, wrap_words(way, key="wrong.key", names=(name, "out")))
        # one file twice
        before = place.read(name)
        os.link(place.at(name), place.at("hard"))
        os.symlink(name, place.at("soft"))
        for other in (name, "./" + name, "hard", "soft"):
            place.fails(f"{way}, IN is OUT by {other}", 2, "one file", wrap_words(way, names=(name, other)), out=other)
        with open(place.at(name), "ab") as file:
            place.fails(f"{way}, standard output is IN", 2, "one file", wrap_words(way, names=(name, "-")), out="-", stdout=file)
        place.fails(f"{way}, the key file is OUT", 2, "OUT is the key file", wrap_words(way, names=(name, "key")), out="key")
        place.write("some.set", b"".join(archivists_sets.PUBLISHED))
        place.fails(f"{way}, the set file is OUT", 2, "OUT is the set file", wrap_words(way, names=(name, "some.set"), tables="some.set"), out="some.set")
        if place.read(name) != before or place.read("key") != KEY.encode() or place.read("some.set") != b"".join(archivists_sets.PUBLISHED):
            raise Wrong("a key or a set was replaced")
        for extra in ("hard", "soft", "wrong.key", "some.set"):
            os.remove(place.at(extra))
    for name in ("other.key", "some.wrapped"):
        os.remove(place.at(name))


def wrap_files(place):
    """Status 3."""
    place.write("other.key", some_key(16).hex().encode())
    place.write("some.wrapped", line(wrapped(some_key(16))))
    os.mkdir(place.at("directory"))
    os.mkfifo(place.at("fifo"))
    os.symlink("nowhere", place.at("dangling"))
    place.write("locked", b"")
    os.chmod(place.at("locked"), 0o000)
    for way, name in (("wrap", "other.key"), ("unwrap", "some.wrapped")):
        place.fails(f"{way}, no key file", 3, "missing.key", wrap_words(way, key="missing.key", names=(name, "out")))
        place.fails(f"{way}, no set file", 3, "missing.set", wrap_words(way, names=(name, "out"), tables="missing.set"))
        for other in ("missing", "."):
            place.fails(f"{way}, IN is {other}", 3, f"labyrinth: {other}: ", wrap_words(way, names=(other, "out")))
        place.fails(f"{way}, IN that can't be read", 3, "ermission denied", wrap_words(way, names=("locked", "out")), **somebody())
        for other in ("directory", "fifo", "dangling", "/dev/null", "none/out", "other.key/out", "x" * 300):
            place.fails(f"{way}, OUT is {other}", 3, f"labyrinth: {other}: ", wrap_words(way, names=(name, other)), out=other)
        os.chmod(place.at("directory"), 0o555)
        inside = wrap_words(way, names=(name, "directory/out"))
        place.fails(f"{way}, OUT where none can be written", 3, "ermission denied", inside, out="directory/out", **somebody())
        os.chmod(place.at("directory"), 0o777)
        if os.listdir(place.at("directory")):
            raise Wrong("something was written where it may not")
        with open("/dev/full", "wb") as full:
            place.fails(f"{way}, no room behind standard output", 3, "standard output", wrap_words(way, names=(name, "-")), out="-", stdout=full)
        none = lambda: resource.setrlimit(resource.RLIMIT_FSIZE, (8, 8))
        place.fails(f"{way}, no room for OUT", 3, "labyrinth: out: ", wrap_words(way, names=(name, "out")), preexec_fn=none)
    os.rmdir(place.at("directory"))
    for extra in ("other.key", "some.wrapped", "fifo", "dangling", "locked"):
        os.remove(place.at(extra))


RECORDS = page_records.Records()
NO_TAG = "no: refused with 20: the page record's tag is wrong"
NO_RECORD = "refused with 19: no page record: "


def a_record(body, number=17, day=20014, title="Of the harbour", start=START, key=KEY, tag_key=TAG_KEY, tables=archivists_sets.PUBLISHED, tag_tables=archivists_sets.PUBLISHED):
    """By the archivists' program. A record is made of two keys, each with tables of its own; theirs has one set of them at a time."""
    title = title if isinstance(title, bytes) else title.encode()
    with archivists_sets.with_set(*tables):
        run = modes.cbc_encrypt(labyrinth.Labyrinth(1, bytes.fromhex(key)), bytes.fromhex(start), body)
    page = page_records.Page(number, day, title.ljust(32), bytes.fromhex(start), run, b"")
    with archivists_sets.with_set(*tag_tables):
        return RECORDS.layout(page._replace(tag=modes.cmac(labyrinth.Labyrinth(1, bytes.fromhex(tag_key)), RECORDS.front(page))))


def listed(name, number=17, day=20014, blocks=3, title="Of the harbour"):
    """A line of the list, the title as it is shown."""
    return f'{number:>10} {day:>10} {blocks:>5} "{title}" {name}\n'.encode()


def some_body(blocks):
    return bytes(i * i % 253 for i in range(16 * blocks))


def page_vectors(place, alter=lambda data: data):
    """Bodies of some lengths, keys of every l, numbers and days at their ends: written and opened from file to file and from stream to stream."""
    cases = [(b, 2 + b % 3, 2 + b // 3 % 3) for b in (0, 1, 2, 3, 4, 5, 6, 7, 8, 63, 64, 65, 130)]
    for i, (blocks, l, tag_l) in enumerate(cases):
        body, key, tag_key = some_body(blocks), (KEY * 2)[: 16 * l], (TAG_KEY * 2)[: 16 * tag_l]
        place.write("tag.key", tag_key.encode())
        place.write("vector.key", key.encode())
        text = dict(number=(0, 17, 2**32 - 1, 2**31)[i % 4], day=(2**32 - 1, 0, 20014)[i % 3], title=("", "A", "x" * 32, "\u0416" * 16)[i % 4], start=f"{i:032x}")
        record = a_record(body, **text, key=key, tag_key=tag_key)
        case = dict(l=l, tag_l=tag_l, key="vector.key")
        for way, source, expected, more in (("write", body, record, text), ("open", record, body, {})):
            what = f"page {way}, l = {l} and {tag_l}, {blocks} blocks"
            place.write("in", source)
            place.works(what, page_words(way, **case, **more, names=("in", "out")), alter(expected))
            os.remove(place.at("out"))
            place.works(what + ", streams", page_words(way, **case, **more, names=("-", "-")), alter(expected), out="-", given=source)
        line = listed("in", text["number"], text["day"], blocks, text["title"])
        place.works("the record listed", ["page", "list", "in"], alter(line), out="-")
        place.write("in", flipped(record))
        place.fails("an altered record", 4, f"in: {NO_TAG}", page_words("open", **case, names=("in", "out")))
        place.fails("an altered record, streams", 4, NO_TAG, page_words("open", **case, names=("-", "-")), out=None, given=flipped(record))
    for name in ("in", "vector.key", "tag.key"):
        os.remove(place.at(name))


def page_forms(place):
    """Ways to write one thing; the longest body; what OUT was."""
    page = place.read("page")
    record = a_record(page)
    place.write("tag.key", TAG_KEY.encode())
    place.works("a page", page_words(), record)
    place.works("the number and the day in hexadecimal", page_words(number="0x11", day="0x4E2e"), record)
    place.works("a start block in groups", page_words(start=" FF" * 16 + " "), record)
    place.works("the tag key's l", page_words(tag_l=2), record)
    place.works("the key from standard input", page_words(key="-"), record, given=KEY.encode())
    place.works("the tag key from standard input", page_words(tag_key="-"), record, given=TAG_KEY.encode() + b"\n")
    place.works("from standard input to a file", page_words(names=("-", "out")), record, given=page)
    place.works("from a file to standard output", page_words(names=("page", "-")), record, out="-")
    place.works("spaces behind the title", page_words(title="Of the harbour    "), record)
    words = page_words()
    place.works("options first", [*words[2:-2], "page", "write", "page", "out"], record)
    place.works("options last", ["page", "write", "page", "out", *words[2:-2]], record)
    place.works("options between", ["page", *words[2:-2], "write", "page", "out"], record)
    place.write("-x", page)
    place.works("names after --", page_words(names=("--", "-x", "out")), record)
    name = os.fsencode(place.path) + b"/\xff\xfe"
    place.works("a name that is no text", page_words(names=("page", name)), record, out=os.fsdecode(name))
    place.works("one key for both", page_words(tag_key="key"), a_record(page, tag_key=KEY))
    place.write("record", record)
    place.works("opened to a name that is no text", page_words("open", names=("record", name)), page, out=os.fsdecode(name))
    place.works("opened to standard output", page_words("open", names=("record", "-")), page, out="-")
    place.works("opened with the key from standard input", page_words("open", key="-", names=("record", "out")), page, given=KEY.encode())
    for extra in ("-x", "out", os.fsdecode(name)):
        os.remove(place.at(extra))
    # what OUT was: its permissions and a link to it stay
    for way, source, expected in (("write", "page", record), ("open", "record", page)):
        place.write("out", OLD)
        os.chmod(place.at("out"), 0o640)
        os.symlink("out", place.at("link"))
        place.works(f"page {way}, OUT by a link", page_words(way, names=(source, "link")), expected)
        if not os.path.islink(place.at("link")) or os.stat(place.at("out")).st_mode & 0o7777 != 0o640:
            raise Wrong("OUT's permissions or the link to it were lost")
        os.remove(place.at("link"))
        os.remove(place.at("out"))
        place.works(f"page {way}, a new OUT under a umask", page_words(way, names=(source, "out")), expected, preexec_fn=lambda: os.umask(0o027))
        if os.stat(place.at("out")).st_mode & 0o7777 != 0o640:
            raise Wrong("a new OUT doesn't heed the umask")
        os.remove(place.at("out"))
    # the most blocks; the record is laid out by the command itself here, the archivists' program being slow
    most = some_body(4096)
    place.write("record", most)
    done = place.run(page_words(names=("record", "-")))
    page_of = RECORDS.parts(done.stdout)
    if done.returncode != 0 or page_of is None or len(page_of.sealed) != len(most):
        raise Wrong(f"4,096 blocks: status {done.returncode}, {len(done.stdout)} bytes")
    place.works("4,096 blocks opened", page_words("open", names=("-", "-")), most, out="-", given=done.stdout)
    place.works("4,096 blocks listed", ["page", "list", "-"], listed("-", blocks=4096), out="-", given=done.stdout)
    for extra in ("record", "tag.key"):
        os.remove(place.at(extra))


def lists(place, what, status, files, lines, says, **more):
    """These lines on standard output, and each of these on standard error, in this order; nothing that a terminal would obey."""
    done = place.run(["page", "list", *files], **more)
    told = done.stderr.decode().splitlines()
    if done.returncode != status or done.stdout != b"".join(lines):
        raise Wrong(f"{what}: status {done.returncode}, other bytes: {done.stdout}, {told}")
    if len(told) != len(says) or not all(line.startswith("labyrinth: ") and say in line for line, say in zip(told, says)):
        raise Wrong(f"{what}: {told}")
    if any(not c.isprintable() for line in done.stdout.decode().splitlines() for c in line):
        raise Wrong(f"{what}: something that can't be seen goes to the terminal: {done.stdout}")
    place.count += 1


def page_list(place):
    """Many records at once; after one that is none, or can't be read, it goes on; titles of any bytes."""
    names = [f"{i}.page" for i in range(5)]
    for i, name in enumerate(names):
        place.write(name, a_record(some_body(i), number=i, day=9 - i, title=f"Page {i}"))
    lines = [listed(name, i, 9 - i, i, f"Page {i}") for i, name in enumerate(names)]
    lists(place, "five", 0, names, lines, [])
    lists(place, "one twice, in any order", 0, [names[3], names[1], names[3]], [lines[3], lines[1], lines[3]], [])
    place.write("cut", place.read(names[4])[:-1])
    place.write("longer", place.read(names[4]) + b"\0")
    place.write("other", place.read(names[4])[:60] + b"\x14" + place.read(names[4])[61:])
    place.write("empty", b"")
    place.write_long()
    os.mkdir(place.at("directory"))
    place.write("locked", b"")
    os.chmod(place.at("locked"), 0o000)
    bad = {"cut": "it has 144 bytes, and a record has 77 and 17 for each block", "longer": "it has 146 bytes", "other": "a command byte isn't where a record has it"}
    bad |= {"empty": "it has 0 bytes", "long": "it has more than 69709 bytes", "page": "it has 48 bytes"}
    for name, why in bad.items():
        for at in range(3):
            some = [*names[:at], name, *names[at:2]]
            lists(place, f"{name} at place {at}", 1, some, lines[:2], [f"{name}: {NO_RECORD}{why}", "1 of 3 were not listed"])
        place.fails(f"{name} alone", 1, f"{name}: {NO_RECORD}{why}", ["page", "list", name], out=None)
        place.write("tag.key", TAG_KEY.encode())
        place.fails(f"{name} to be opened", 1, f"{name}: {NO_RECORD}{why}", page_words("open", names=(name, "out")))
        os.remove(place.at("tag.key"))
    says = [f"cut: {NO_RECORD}", f"empty: {NO_RECORD}", "2 of 5 were not listed"]
    lists(place, "two that are none", 1, ["cut", *names[:2], "empty", names[2]], lines[:3], says)
    for name, why in (("missing", "missing: No such file"), ("directory", "directory: Is a directory"), ("locked", "locked: Permission denied")):
        says = [why, f"cut: {NO_RECORD}", "2 of 4 were not listed"]
        lists(place, f"{name} among them", 3, [names[0], name, "cut", names[1]], lines[:2], says, **somebody())
    narrowly = dict(preexec_fn=narrow)
    lists(place, "a long file where there is little memory", 1, ["long", names[0]], lines[:1], [f"long: {NO_RECORD}", "1 of 2 were not listed"], **narrowly)
    lists(place, "standard input", 0, [names[0], "-"], [lines[0], listed("-", 1, 8, 1, "Page 1")], [], given=place.read(names[1]))
    lists(place, "standard input that is none", 1, ["-", names[0]], lines[:1], [f"standard input: {NO_RECORD}", "1 of 2"], given=b"x" * 77)
    # needs no key: it lists what no key opens
    unknown = flipped(place.read(names[2]))
    place.write("unknown", unknown)
    lists(place, "a record with a wrong tag", 0, ["unknown"], [listed("unknown", 2, 7, 2, "Page 2")], [])
    # titles
    shown = {
        b"": "", b"   x": "   x", b"x" * 32: "x" * 32, b"a  b": "a  b", "\u0416\u00e9\u4e2d'".encode(): "\u0416\u00e9\u4e2d'", b"\x1b[2J\x1b]0;x\x07": r"\u{1b}[2J\u{1b}]0;x\u{7}",
        b"a\nb\r\tc\0": r"a\nb\r\tc\0", b"\x7f\x9b\xff": r"\u{7f}\x9b\xff", "\u009b\u202e\u2028\u200b".encode(): r"\u{9b}\u{202e}\u{2028}\u{200b}",
        b'"quoted" \\': r'\"quoted\" \\', "x".encode() * 31 + "\u0416".encode()[:1]: "x" * 31 + r"\xd0", bytes(32): r"\0" * 32,
    }  # fmt: skip
    for title, text in shown.items():
        place.write("unknown", unknown[:11] + title.ljust(32) + unknown[43:])
        lists(place, f"the title {title}", 0, ["unknown"], [listed("unknown", 2, 7, 2, text)], [])
    for value in range(256):
        place.write("unknown", unknown[:11] + bytes([value]) * 32 + unknown[43:])
        done = place.run(["page", "list", "unknown"])
        if done.returncode != 0 or done.stdout.count(b"\n") != 1 or any(not 0x20 <= byte <= 0x7E for byte in done.stdout[:-1]):
            raise Wrong(f"a title of bytes {value:02x}: {done.stdout}")
        place.count += 1
    # names
    place.write("-x", unknown)
    lists(place, "a name after --", 0, ["--", "-x"], [listed("-x", 2, 7, 2, "Page 2")], [])
    place.write("a\n\x1bb", unknown)
    lists(place, "a name that a terminal would obey", 0, ["a\n\x1bb"], [listed(r"a\n\u{1b}b", 2, 7, 2, "Page 2")], [])
    place.write(os.fsdecode(b"\xff"), unknown)
    lists(place, "a name that is no text", 0, [b"\xff"], [listed(r"\xff", 2, 7, 2, "Page 2")], [])
    with open("/dev/full", "wb") as full:
        place.fails("no room for a line", 3, "standard output", ["page", "list", names[0]], out=None, stdout=full)
    os.rmdir(place.at("directory"))
    for name in (*names, *(set(bad) - {"page"}), "locked", "unknown", "-x", "a\n\x1bb", os.fsdecode(b"\xff")):
        os.remove(place.at(name))


def page_alterations(place):
    """Every byte of a record; another key; the keys exchanged: OUT is what it was."""
    page = place.read("page")
    record = a_record(page)
    place.write("tag.key", TAG_KEY.encode())
    case = page_words("open", names=("-", "out"))
    commands = {0, 5, 10, 43, *range(60, len(record), 17)}
    for at in range(len(record)):
        other = record[:at] + bytes([record[at] ^ 1 << at % 8]) + record[at + 1 :]
        if at in commands:
            place.fails(f"byte {at} altered", 1, f"standard input: {NO_RECORD}a command byte", case, given=other)
        else:
            place.fails(f"byte {at} altered", 4, f"standard input: {NO_TAG}: altered, or written under another tag key", case, given=other)
    place.write("record", record)
    for what, words in (
        ("another tag key", page_words("open", tag_key="other.key", names=("record", "out"))),
        ("the keys exchanged", page_words("open", key="tag.key", tag_key="key", names=("record", "out"))),
        ("one key for both", page_words("open", tag_key="key", names=("record", "out"))),
    ):
        place.write("other.key", flipped(bytes.fromhex(TAG_KEY)).hex().encode())
        place.fails(what, 4, f"record: {NO_TAG}", words)
    # of another sealing key nothing tells
    cipher = labyrinth.Labyrinth(1, flipped(bytes.fromhex(KEY)))
    place.write("other.key", flipped(bytes.fromhex(KEY)).hex().encode())
    opened = modes.cbc_decrypt(cipher, bytes.fromhex(START), RECORDS.parts(record).sealed)
    place.works("another sealing key", page_words("open", key="other.key", names=("record", "out")), opened)
    for name in ("record", "tag.key", "other.key", "out"):
        os.remove(place.at(name))


def page_refusals(place):
    """Status 1: the numbers in their order, those of the keys, the title and the start block before IN is looked for; and every length of a body."""
    record = a_record(place.read("page"))
    place.write("tag.key", TAG_KEY.encode())
    place.write("record", record)
    long_title = "x" * 33
    for way, name in (("write", "page"), ("open", "record")):
        for l in (0, 1, 5, 258, (1 << 32) + 2, 1 << 61, (1 << 64) - 1, 10**30):
            place.refuses(f"page {way}, l = {l}", 2, page_words(way, l=l, tag_l=2, names=(name, "out")))
            place.refuses(f"page {way}, the tag key's l = {l}", 2, page_words(way, tag_l=l, names=(name, "out")))
        for count in (0, 15, 17, 32):
            place.write("other.key", b"ab" * count)
            place.refuses(f"page {way}, a key of {count} bytes", 3, page_words(way, key="other.key", names=(name, "out")))
            place.refuses(f"page {way}, a tag key of {count} bytes", 3, page_words(way, tag_key="other.key", names=(name, "out")))
        more = dict(title=long_title, start="00", names=("missing", "out"))
        for what, number, case in (
            ("2 of the sealing key before its 3", 2, dict(l=9, key="other.key", tag_l=9, tag_key="other.key")), ("3 before 2 of the tag key", 3, dict(key="other.key", tag_l=9)),
            ("2 of the tag key before its 3", 2, dict(tag_l=9, tag_key="other.key")), ("3 of the tag key before IN", 3, dict(tag_key="other.key")),
        ):  # fmt: skip
            place.refuses(f"page {way}, {what}", number, page_words(way, **case, **more))
        which = [("the sealing key", dict(key="other.key")), ("the tag key", dict(tag_key="other.key"))]
        for key, case in which:
            place.fails(f"page {way}, the message", 1, f"labyrinth: {key}: refused with 3:", page_words(way, **case, names=(name, "out")))
    place.refuses("19 before 6 and IN", 19, page_words(title=long_title, start="00", names=("missing", "out")))
    place.refuses("6 before IN", 6, page_words(start="00", names=("missing", "out")))
    place.refuses("6 before 4", 6, page_words(start="00", names=("odd", "out")))
    place.refuses("4 before OUT", 4, page_words(names=("odd", "none/out")), out=None)
    place.refuses("19 before OUT", 19, page_words("open", names=("page", "none/out")), out=None)
    for title in (long_title, "\u0416" * 16 + "x", "\u0416" * 32, "x" * 1000):
        place.refuses(f"a title of {len(title.encode())} bytes", 19, page_words(title=title))
        place.fails("the message", 1, f"the title has more than 32 bytes (--title has {len(title.encode())} in UTF-8)", page_words(title=title))
    for count in (0, 1, 15, 17, 32):
        place.refuses(f"a start block of {count} bytes", 6, page_words(start="ab" * count))
    for count in [*range(1, 50), 65535, 65537, 65552, 65553, MIB]:
        if count % 16 or count > 65536:
            place.write("in", bytes(count))
            place.refuses(f"a body of {count} bytes", 4, page_words(names=("in", "out")))
            why = f"IN has {count} bytes, and {-count % 16} are missing to the next whole block" if count < 65536 else "more than 4096 blocks of 16 bytes"
            place.fails(f"a body of {count} bytes, the message", 1, why, page_words(names=("in", "out")))
            place.fails(f"a body of {count} bytes, streams", 1, why, page_words(names=("-", "-")), out=None, given=bytes(count))
    for name in ("tag.key", "record", "other.key", "in"):
        os.remove(place.at(name))


def page_usage(place):
    """Status 2."""
    place.write("tag.key", TAG_KEY.encode())
    place.write("record", a_record(place.read("page")))
    good = {"write": page_words(tag_l=2), "open": page_words("open", tag_l=2, names=("record", "out"))}
    for way, words in good.items():
        text = ("--number", "--day", "--title", "--start")
        for option in ("-l", "--key-file", "--tag-key-file", *(text if way == "write" else ())):
            i = words.index(option)
            place.fails(f"page {way}, no {option}", 2, f"{option} is missing", words[:i] + words[i + 2 :])
            place.fails(f"page {way}, {option} twice", 2, "twice", words + words[i : i + 2])
            place.fails(f"page {way}, {option} without value", 2, "lacks its value", words[:i] + words[i + 2 :] + [option])
        for option in ("--mode", "-n", "--offset", "--length", "--tag", *(text if way == "open" else ())):
            place.fails(f"page {way} with {option}", 2, f"'page {way}' takes no {option}", [*words, option, "1"])
        place.fails(f"page {way} with n", 2, "a page record is always at n = 1", [*words, "-n", "1"])
        place.fails(f"page {way}, no OUT", 2, "where IN and OUT are wanted", words[:-1])
        place.fails(f"page {way}, a word too many", 2, "where IN and OUT are wanted", [*words, "more"])
        for what, case in (("IN", dict(names=("", "out"))), ("OUT", dict(names=("page", ""))), ("a key", dict(key="")), ("the tag key", dict(tag_key="")),
                           ("a set", dict(tables="")), ("the tag key's set", dict(tag_tables=""))):  # fmt: skip
            place.fails(f"page {way}, an empty name of {what}", 2, "name is empty", page_words(way, **case))
        for case in (dict(key="-", names=("-", "out")), dict(key="-", tag_key="-"), dict(tag_key="-", names=("-", "out")), dict(tables="-", tag_tables="-"), dict(key="-", tag_tables="-")):
            place.fails(f"page {way}, two from one stream", 2, "of the keys, the sets and IN only one can come from standard input", page_words(way, **case))
        for l in ("", "-2", "two", "0x2"):
            place.fails(f"page {way}, l = {l}", 2, "-l takes a number", page_words(way, l=l))
            place.fails(f"page {way}, the tag key's l = {l}", 2, "--tag-l takes a number", page_words(way, tag_l=l))
        for what, says, digits in (
            ("odd digits", "odd number of hexadecimal digits (31)", KEY[:31]), ("no digits", "character 5 ", KEY[:4] + "x" + KEY[5:]), ("a long file", "more than 65536 bytes", "00" * 32769),
        ):  # fmt: skip
            place.write("wrong.key", digits.encode())
            place.fails(f"page {way}, {what} in the key file", 2, says, page_words(way, key="wrong.key", names=words[-2:]))
            place.fails(f"page {way}, {what} in the tag key's file", 2, says, page_words(way, tag_key="wrong.key", names=words[-2:]))
        # one file twice
        name, held = words[-2], place.read(words[-2])
        published = b"".join(archivists_sets.PUBLISHED)
        place.write("some.set", published)
        os.link(place.at(name), place.at("hard"))
        os.symlink(name, place.at("soft"))
        for other in (name, "./" + name, "hard", "soft"):
            place.fails(f"page {way}, IN is OUT by {other}", 2, "one file", page_words(way, names=(name, other)), out=other)
        with open(place.at(name), "ab") as file:
            place.fails(f"page {way}, standard output is IN", 2, "one file", page_words(way, names=(name, "-")), out="-", stdout=file)
        for other in ("key", "tag.key"):
            place.fails(f"page {way}, {other} is OUT", 2, "OUT is the key file", page_words(way, names=(name, other)), out=other)
        for option in ("tables", "tag_tables"):
            place.fails(f"page {way}, a set file is OUT", 2, "OUT is the set file", page_words(way, names=(name, "some.set"), **{option: "some.set"}), out="some.set")
        if (place.read(name), place.read("key"), place.read("tag.key"), place.read("some.set")) != (held, KEY.encode(), TAG_KEY.encode(), published):
            raise Wrong("a page, a key or a set was replaced")
        for extra in ("hard", "soft", "wrong.key", "some.set"):
            os.remove(place.at(extra))
    for option in ("number", "day"):
        for value in ("", "-1", "+1", "1.0", "x", "ff", 1 << 32, "0x100000000", 1 << 64, 10**30):
            place.fails(f"{option} {value}", 2, f"--{option} takes a number below 2^32", page_words(**{option: value}))
    for what, value in (("odd digits", "f" * 31), ("no digits", "fg" * 16), ("0x", "0x" + START)):
        place.fails(f"{what} to --start", 2, "--start: ", page_words(start=value))
    place.fails("a title that is no text", 2, "--title: not a text", page_words(title=b"\xff"))
    for words in (["page"], ["page", ""], ["page", "read", "page"], ["page", "seal"], ["page", "write", "list"]):
        place.fails(f"{words}", 2, "usage: labyrinth", words, out="-")
    place.fails("a word after page", 2, "'write', 'list' or 'open' comes after 'page', not 'read'", ["page", "read"], out="-")
    place.fails("a list of none", 2, "where FILE is wanted", ["page", "list"], out="-")
    place.fails("an empty name in a list", 2, "name is empty", ["page", "list", "record", ""], out="-")
    place.fails("standard input twice in a list", 2, "standard input stands twice", ["page", "list", "-", "record", "-"], out="-")
    for option in ("-l", "--key-file", "--tag-key-file", "--set", "--tag-set", "--number", "--title", "--start", "--tag"):
        place.fails(f"a list with {option}", 2, f"'page list' takes no {option}: it needs no key", ["page", "list", "record", option, "2"], out="-")
    for option in ("--number", "--day", "--title", "--tag-l", "--tag-key-file", "--tag-set"):
        for way, words in (("seal", globals()["words"]()), ("tag", tag_words()), ("wrap", wrap_words())):
            place.fails(f"{way} with {option}", 2, f"'{way}' takes no {option}", [*words, option, "1"])
    for name in ("tag.key", "record"):
        os.remove(place.at(name))


def page_files(place):
    """Status 3; and OUT is never half-written."""
    place.write("tag.key", TAG_KEY.encode())
    place.write("record", a_record(place.read("page")))
    os.mkdir(place.at("directory"))
    os.mkfifo(place.at("fifo"))
    os.symlink("nowhere", place.at("dangling"))
    place.write("locked", b"")
    os.chmod(place.at("locked"), 0o000)
    for way, name in (("write", "page"), ("open", "record")):
        for option, file in (("key", "missing.key"), ("tag_key", "missing.key"), ("tables", "missing.set"), ("tag_tables", "missing.set")):
            place.fails(f"page {way}, no {file}", 3, file, page_words(way, names=(name, "out"), **{option: file}))
        for other in ("missing", "."):
            place.fails(f"page {way}, IN is {other}", 3, f"labyrinth: {other}: ", page_words(way, names=(other, "out")))
        place.fails(f"page {way}, IN that can't be read", 3, "ermission denied", page_words(way, names=("locked", "out")), **somebody())
        for other in ("directory", "fifo", "dangling", "/dev/null", "none/out", "page/out", "x" * 300):
            place.fails(f"page {way}, OUT is {other}", 3, f"labyrinth: {other}: ", page_words(way, names=(name, other)), out=other)
        os.chmod(place.at("directory"), 0o555)
        inside = page_words(way, names=(name, "directory/out"))
        place.fails(f"page {way}, OUT where none can be written", 3, "ermission denied", inside, out="directory/out", **somebody())
        os.chmod(place.at("directory"), 0o777)
        if os.listdir(place.at("directory")):
            raise Wrong("something was written where it may not")
        with open("/dev/full", "wb") as full:
            place.fails(f"page {way}, no room behind standard output", 3, "standard output", page_words(way, names=(name, "-")), out="-", stdout=full)
        for most in (0, 8, 40):
            less = lambda: resource.setrlimit(resource.RLIMIT_FSIZE, (most, most))
            place.fails(f"page {way}, room for {most} bytes of OUT", 3, "labyrinth: out: ", page_words(way, names=(name, "out")), preexec_fn=less)
    os.rmdir(place.at("directory"))
    for extra in ("tag.key", "record", "fifo", "dangling", "locked"):
        os.remove(place.at(extra))


def page_sets(place, alter=lambda data: data):
    """Records with other tables, for both keys, for one, or each its own; and sets that are refused."""
    body = some_body(3)
    place.write("tag.key", TAG_KEY.encode())
    place.write("body", body)
    one, two, published = archivists_sets.OTHERS[0], archivists_sets.OTHERS[1], archivists_sets.PUBLISHED
    for name, tables in (("one.set", one), ("two.set", two), ("published.set", published)):
        place.write(name, b"".join(tables).hex().encode())
    for what, options, tables in (
        ("both", dict(tables="one.set"), (one, one)), ("each its own", dict(tables="one.set", tag_tables="two.set"), (one, two)),
        ("the tag key's", dict(tag_tables="two.set"), (published, two)), ("the sealing key's", dict(tables="two.set", tag_tables="published.set"), (two, published)),
        ("one twice", dict(tables="two.set", tag_tables="two.set"), (two, two)),
    ):  # fmt: skip
        record = a_record(body, tables=tables[0], tag_tables=tables[1])
        place.works(f"written with other tables, {what}", page_words(**options, names=("body", "-")), alter(record), out="-")
        place.works(f"opened with other tables, {what}", page_words("open", **options, names=("-", "-")), alter(body), out="-", given=record)
        place.works(f"listed, whatever the tables, {what}", ["page", "list", "-"], listed("-"), out="-", given=record)
        if tables[1] is not published:
            place.fails(f"by the published tables, {what}", 4, NO_TAG, page_words("open", names=("-", "out")), given=record)
    place.works("a set from standard input", page_words(tables="-", names=("body", "out")), alter(a_record(body, tables=one, tag_tables=one)), given=b"".join(one))
    os.remove(place.at("out"))
    twice, none = bytes(256) + one[1], one[0] + bytes(8)
    place.write("other.key", b"ab" * 15)
    for what, number, data in (("one byte 256 times", 14, twice), ("a row of zeros", 13, none)):
        place.write("wrong.set", data.hex().encode())
        for options in (dict(tables="wrong.set"), dict(tag_tables="wrong.set"), dict(tables="one.set", tag_tables="wrong.set")):
            for way in ("write", "open"):
                place.refuses(f"page {way} by a set of {what}", number, page_words(way, **options, l=9, key="other.key", names=("missing", "out")))
    for name in ("tag.key", "body", "one.set", "two.set", "published.set", "wrong.set", "other.key"):
        os.remove(place.at(name))


# ---- registers of keys, by rules of this file's own, from document 02's Job 10

REGISTER = 2824
ALTERED = "; made by hand, or altered"


class Keys:
    """A register: entries of number, replaced number and wrapped key, and the count that its bytes say."""

    def __init__(self, entries=(), count=None, rest=b"\0"):
        self.entries, self.count, self.rest = list(entries), len(entries) if count is None else count, rest

    def data(self):
        body = b"".join(number.to_bytes(2, "little") + old.to_bytes(2, "little") + key for number, old, key in self.entries)
        return self.count.to_bytes(8, "little") + body.ljust(REGISTER - 8, self.rest)

    def seen(self):
        return self.entries[: min(self.count, 64)]

    def add(self, number, old, key):
        numbers, named = [entry[0] for entry in self.seen()], [entry[1] for entry in self.seen()]
        if number == 0 or number in numbers:
            return 21
        if old != 0 and (old not in numbers or old in named):
            return 22
        if len(numbers) == 64:
            return 23
        self.entries[self.count :] = [(number, old, key)]
        self.count += 1
        return 0

    def chain(self, at):
        number = self.seen()[at][0]
        later = [i for i, entry in enumerate(self.seen()) if i > at and number != 0 and entry[1] == number]
        return [at, *(self.chain(later[0]) if later else [])]

    def find(self, number):
        """The chain of the first entry with the number, if there is one."""
        first = [i for i, entry in enumerate(self.seen()) if number != 0 and entry[0] == number]
        return self.chain(first[0]) if first else None

    def arrows(self, chain):
        return " -> ".join(str(self.entries[at][0]) for at in chain)

    def told(self, number, own=False):
        chain = self.find(number)
        rule = "replaced" if len(chain) > 1 else "still current"
        given = f"; given: {number}'s own key, for pages sealed under it" if own else ""
        return f"key {number}: {rule}; key now: {self.entries[chain[-1]][0]}; replacements followed: {len(chain) - 1}; chain: {self.arrows(chain)}{given}\n"

    def listing(self, name):
        """Of a register that adding made."""
        firsts = [i for i, entry in enumerate(self.seen()) if entry[1] == 0]
        top = f"{name}: keys: {len(self.seen())} of 64; chains: {len(firsts)}\n"
        return (top + "".join(f"    {self.arrows(self.chain(i))} (current)\n" for i in firsts)).encode()


def add_words(number=17, replaces=None, names=("register", "some.wrapped")):
    return ["keys", "add", "--number", str(number), *([] if replaces is None else ["--replaces", str(replaces)]), *names]


def find_words(number=17, names=("register", "out"), own=False):
    return ["keys", "find", "--number", str(number), *(["--own"] if own else []), *names]


def keys_of(*pairs, **more):
    """Made by hand. The keys are all different, and have digits of KEY in them, so that a message that shows one is noticed."""
    return Keys([(number, old, bytes([i]) + some_key(80)[i % 7 :][:39]) for i, (number, old) in enumerate(pairs)], **more)


def stays(place, what, status, says, words, out=None, **more):
    """A run that fails leaves the register as it was, and prints nothing."""
    before = place.read("register")
    place.fails(what, status, says, words, out=out, **more)
    if place.read("register") != before:
        raise Wrong(f"{what}: the register was altered")


def finds(place, what, keys, number):
    """What is told, and OUT: left out, in a file and on standard output; by a register's file, and from standard input; the key at the chain's end,
    and with --own the one at its start."""
    for own in (False, True):
        told, expected = keys.told(number, own), line(keys.entries[keys.find(number)[0 if own else -1]][2])
        for name, given in (("register", b""), ("-", keys.data())):
            place.works(what, find_words(number, (name,), own), keys.told(number).encode(), out="-", given=given)
            done = place.run(find_words(number, (name, "out"), own), given=given)
            if (done.returncode, done.stdout.decode(), done.stderr, place.read("out")) != (0, told, b"", expected):
                raise Wrong(f"{what}, to OUT: {done}")
            os.remove(place.at("out"))
            done = place.run(find_words(number, (name, "-"), own), given=given)
            if (done.returncode, done.stdout, done.stderr.decode()) != (0, expected, "labyrinth: " + told):
                raise Wrong(f"{what}, to standard output: {done}")
            place.count += 2


def keys_calls(place, alter=lambda data: data):
    """Calls by chance from an empty register, until it is full: every answer, the bytes after each, and what is found and listed."""
    draw = random.Random(10)
    seen = {number: 0 for number in (0, 21, 22, 23)}
    for tries, last in ((160, 400), (60, 9), (60, 65535)):
        keys = Keys()
        place.works("an empty register", ["keys", "new", "register"], alter(keys.data()), out="register")
        for i in range(tries):
            number, key = draw.randint(0, last), draw.randbytes(40)
            old = draw.choice((0, 0, draw.randint(0, last), *[entry[0] for entry in keys.entries[-3:]] * 2))
            place.write("some.wrapped", line(key))
            answer = keys.add(number, old, key)
            seen[answer] += 1
            words = add_words(number, old if old or i % 2 else None)
            if answer:
                stays(place, f"{number} for {old}", 1, f"register: refused with {answer}: ", words)
            else:
                place.works(f"{number} for {old}", words, alter(keys.data()), out="register")
            if keys.find(number):
                place.works(f"{number} found", find_words(number), alter(line(keys.entries[keys.find(number)[-1]][2])))
                place.works(f"{number} told", find_words(number, names=("register",)), keys.told(number).encode(), out="-")
            else:
                place.fails(f"{number} not found", 1, f"register: refused with 22: it has no key {number}\n", find_words(number, names=("register",)), out=None)
            if i % 9 == 0:
                place.works("the register listed", ["keys", "list", "register"], keys.listing("register"), out="-")
        for number, _, _ in keys.entries[:: 1 + len(keys.entries) // 8]:
            finds(place, f"{number} found at the end", keys, number)
        os.remove(place.at("register"))
    if min(seen.values()) < 10:
        raise Wrong(f"the calls by chance answered {seen}")
    os.remove(place.at("some.wrapped"))


def keys_trip(place):
    """A page key is wrapped, added, replaced, found and unwrapped, from file to file and from stream to stream; an old page opens with its own."""
    one, two = some_key(32), flipped(some_key(32))
    place.write("other.key", one.hex().encode())
    place.write("two.key", two.hex().encode())
    wrap = lambda names: wrap_words(names=names)
    place.works("an empty register", ["keys", "new", "register"], bytes(REGISTER), out="register")
    place.works("a key wrapped", wrap(("other.key", "some.wrapped")), line(wrapped(one)), out="some.wrapped")
    held = Keys([(17, 0, wrapped(one))])
    place.works("a wrapped key added", add_words(17), held.data(), out="register")
    place.works("found", find_words(17), line(wrapped(one)))
    place.works("and unwrapped", wrap_words("unwrap", names=("out", "back.key")), line(one), out="back.key")
    page, old = place.read("page"), dict(mode="ctr", l=4, key="back.key")
    secret = modes.ctr_crypt(labyrinth.Labyrinth(1, one), bytes.fromhex(START), 0, page)
    place.works("a page sealed under it", words(**old, names=("page", "secret")), secret, out="secret")
    stream = place.run(wrap(("two.key", "-"))).stdout
    held.add(23, 17, wrapped(two))
    place.works("its replacement, from standard input", add_words(23, 17, names=("register", "-")), held.data(), out="register", given=stream)
    found = place.run(find_words(17, names=("-", "-")), given=place.read("register")).stdout
    place.works("found by the old number, and unwrapped", wrap_words("unwrap", names=("-", "-")), line(two), out="-", given=found)
    if place.run(find_words(23, names=("register", "-"))).stdout != found:
        raise Wrong("the new number leads to another key")
    place.write("back.key", line(two))
    noise = place.run(words("open", **old, names=("secret", "-"))).stdout
    if len(noise) != len(page) or noise == page:
        raise Wrong("the new key opens the old page")
    place.works("the replaced key itself", find_words(17, own=True), line(wrapped(one)))
    place.works("unwrapped", wrap_words("unwrap", names=("out", "back.key")), line(one), out="back.key")
    place.works("opens the old page", words("open", **old, names=("secret", "-")), page, out="-")
    found = place.run(find_words(17, ("-", "-"), own=True), given=place.read("register")).stdout
    place.works("itself, from stream to stream", wrap_words("unwrap", names=("-", "-")), line(one), out="-", given=found)
    finds(place, "the old number", held, 17)
    finds(place, "the new number", held, 23)
    place.works("found once more", find_words(17), line(wrapped(two)))
    stays(place, "the old key replaced again", 1, "register: refused with 22: key 17 is replaced already, by 23\n", add_words(40, 17))
    tag = modes.cmac(labyrinth.Labyrinth(1, bytes.fromhex(KEY)), held.data()).hex()
    place.works("a register tagged", tag_words(names=("register",)), tag.encode() + b"\n", out="-")
    place.works("and verified", tag_words("verify", value=tag, names=("register",)), b"", out="-")
    held.entries[1] = (23, 0, wrapped(two))
    place.write("register", held.data())
    place.works("altered: the old key is current again", find_words(17, names=("register",)), held.told(17).encode(), out="-")
    place.fails("and its tag tells", 4, "register: no: altered", tag_words("verify", value=tag, names=("register",)), out=None)
    for name in ("other.key", "two.key", "some.wrapped", "back.key", "register", "secret", "out"):
        os.remove(place.at(name))


def keys_forms(place):
    """Ways to write one thing; what the register's file was."""
    keys, key = keys_of((5, 0), (17, 5)), some_key(40)
    place.write("some.wrapped", line(key))
    more = keys_of((5, 0), (17, 5))
    more.add(65535, 17, key)
    digits = key.hex().upper()
    place.write("spaced", "\r\n".join(digits[i : i + 8] for i in range(0, 80, 8)).encode() + b"\n\n")
    place.write("-x", line(key))
    name = os.fsencode(place.path) + b"/\xff\xfe"
    options = ["--number", "65535", "--replaces", "17"]
    for what, words, given in (
        ("an added key", add_words(65535, 17), b""), ("numbers in hexadecimal", add_words("0xFFff", "0x11"), b""), ("zeros before", add_words("0065535", "00017"), b""),
        ("a wrapped key in groups", add_words(65535, 17, ("register", "spaced")), b""), ("a key from standard input", add_words(65535, 17, ("register", "-")), line(key)),
        ("options first", [*options, "keys", "add", "register", "some.wrapped"], b""), ("options last", ["keys", "add", "register", "some.wrapped", *options], b""),
        ("options between", ["keys", *options, "add", "register", "some.wrapped"], b""), ("names after --", add_words(65535, 17, ("--", "register", "-x")), b""),
    ):  # fmt: skip
        place.write("register", keys.data())
        place.works(what, words, more.data(), out="register", given=given)
    itself = line(more.entries[0][2])
    for what, words in (
        ("--own first", ["--own", *find_words(5)]), ("--own last", [*find_words(5), "--own"]), ("--own between the names", [*find_words(5)[:-1], "--own", "out"]),
        ("--own between the words", ["keys", "--own", *find_words(5)[1:]]), ("--own before --number", ["keys", "find", "--own", *find_words(5)[2:]]), ("names after --", find_words(5, ("--", "register", "out"), own=True)),
    ):  # fmt: skip
        place.works(what, words, itself)
        os.remove(place.at("out"))
    place.write("--own", more.data())
    place.works("a register named --own", find_words(5, ("--", "--own", "out")), line(key))
    for other in ("--own", "out"):
        os.remove(place.at(other))
    place.write(os.fsdecode(name), keys.data())
    place.works("a name that is no text", add_words(65535, 17, (name, "some.wrapped")), more.data(), out=os.fsdecode(name))
    shown = more.listing(place.path + r"/\xff\xfe")
    place.works("such a name listed", ["keys", "list", name], shown, out="-")
    place.works("several, and standard input", ["keys", "list", "register", "-", "./register"], more.listing("register") + keys.listing("-") + more.listing("./register"), out="-", given=keys.data())
    place.write("register", keys.data())
    more = keys_of((5, 0), (17, 5))
    more.add(18, 0, key)
    place.works("none replaced, as 0", add_words(18, 0), more.data(), out="register")
    # its permissions and a link to it stay; a new one is its owner's alone to write
    os.chmod(place.at("register"), 0o640)
    os.symlink("register", place.at("link"))
    more.add(19, 18, key)
    place.works("a register by a link", add_words(19, 18, ("link", "some.wrapped")), more.data(), out="register", preexec_fn=lambda: os.umask(0))
    if not os.path.islink(place.at("link")) or os.stat(place.at("register")).st_mode & 0o7777 != 0o640:
        raise Wrong("the register's permissions or the link to it were lost")
    os.remove(place.at("register"))
    for mask, mode in ((0, 0o644), (0o022, 0o644), (0o077, 0o600)):
        place.works("a new register", ["keys", "new", "register"], bytes(REGISTER), out="register", preexec_fn=lambda: os.umask(mask))
        if os.stat(place.at("register")).st_mode & 0o7777 != mode:
            raise Wrong("a new register has other permissions")
        os.remove(place.at("register"))
    for name in ("some.wrapped", "spaced", "-x", "link", os.fsdecode(name)):
        os.remove(place.at(name))


def keys_by_hand(place):
    """Registers that adding never makes are read as they are, and shown so; a refused call leaves their bytes."""
    place.write("some.wrapped", line(some_key(40)))
    for pairs, lines in (
        ([(5, 7), (7, 0)], ["5 (current); 5 replaces 7, which comes behind it", "7 (current)"]),
        ([(1, 2), (2, 1)], ["1 -> 2 (current); 1 replaces 2, which comes behind it"]),
        ([(4, 4)], ["4 (current); 4 replaces 4, itself"]),
        ([(9, 99)], ["9 (current); 9 replaces 99, which isn't there"]),
        ([(0, 0), (6, 0), (0, 6)], ["0 (current); 0 is never found", "6 -> 0 (current); 0 is never found"]),
        ([(3, 0), (10, 3), (11, 3)], ["3 -> 10 (current)", "11 (current); 11 replaces 3, which 10 replaced before"]),
        ([(3, 0), (3, 0), (9, 3)], ["3 -> 9 (current)", "3 -> [9] (current); another 3 comes first, and is found; [] is in a line above too"]),
        ([(8, 0), (2, 8), (8, 2), (7, 8)], ["8 -> 2 -> 8 -> 7 (current); another 8 comes first, and is found"]),
    ):  # fmt: skip
        keys = keys_of(*pairs, rest=b"\xa5")
        place.write("register", keys.data())
        text = "".join(f"    {line}\n" for line in lines)
        place.works("listed", ["keys", "list", "register"], f"register: keys: {len(pairs)} of 64; chains: {len(lines)}{ALTERED}\n{text}".encode(), out="-")
        for number in range(13):
            if keys.find(number):
                finds(place, f"{number} of {pairs}", keys, number)
            else:
                stays(place, f"{number} of {pairs}", 1, f"register: refused with 22: it has no key {number}\n", find_words(number), out="out")
                stays(place, f"{number} itself of {pairs}", 1, f"register: refused with 22: it has no key {number}\n", find_words(number, own=True), out="out")
    # of doubles the first is the number's own, wherever find ends
    for pairs, at in (([(3, 0), (3, 0), (9, 3)], 0), ([(0, 0), (3, 5), (3, 0), (3, 3)], 1), ([(8, 0), (2, 8), (8, 2), (7, 8)], 0), ([(1, 0), (6, 6), (6, 6), (6, 6)], 1)):
        keys = keys_of(*pairs)
        place.write("register", keys.data())
        place.works(f"the first double of {pairs}", find_words(pairs[at][0], own=True), line(keys.entries[at][2]))
        os.remove(place.at("out"))
    place.write("register", keys_of((5, 7), (7, 0)).data())
    stays(place, "a number that an entry before it names", 1, "register: refused with 22: key 7 is replaced already, by 5\n", add_words(8, 7))
    # counts
    pairs = [(i + 1, 1 if i == 63 else 0) for i in range(64)]
    text = "    1 -> 64 (current)\n" + "".join(f"    {i} (current)\n" for i in range(2, 64))
    for count in (64, 65, 256, 1 << 32, (1 << 64) - 1):
        keys = keys_of(*pairs, count=count)
        place.write("register", keys.data())
        more = f"; the count, {count}, is read as 64{ALTERED}" if count > 64 else ""
        place.works(f"a count of {count}, listed", ["keys", "list", "register"], f"register: keys: 64 of 64; chains: 63{more}\n{text}".encode(), out="-")
        finds(place, f"a count of {count}", keys, 1)
        finds(place, f"a count of {count}", keys, 64)
        for number, old, answer in ((0, 9, 21), (64, 9, 21), (65, 1, 22), (65, 66, 22), (65, 2, 23), (65, None, 23)):
            stays(place, f"{number} for {old} by a count of {count}", 1, f"refused with {answer}: ", add_words(number, old))
    for count in (0, 1, 63):
        keys = keys_of(*pairs, count=count)
        place.write("register", keys.data())
        for own in (False, True):
            stays(place, "an entry behind the count", 1, "refused with 22: it has no key 64\n", find_words(64, own=own), out="out")
        keys.entries[count] = (64, 0, some_key(40))
        keys.count += 1
        place.works("one in its place", add_words(64), keys.data(), out="register")
    # any bytes
    draw = random.Random(64)
    for i in range(60):
        last = draw.randint(1, 80)
        keys = keys_of(*((draw.randint(0, last), draw.randint(0, last)) for _ in range(64)), count=draw.randint(0, 70))
        place.write("register", keys.data())
        text = place.run(["keys", "list", "register"]).stdout.decode().splitlines()
        shown = [int(word) for line in text[1:] for word in line.split(" (current)")[0].split(" -> ") if "[" not in word]
        if not text[0].startswith(f"register: keys: {len(keys.seen())} of 64; ") or sorted(shown) != sorted(entry[0] for entry in keys.seen()):
            raise Wrong(f"a list doesn't show each entry once: {text}")
        place.count += 1
        number = draw.randint(1, last)
        if keys.find(number):
            finds(place, f"{number} by chance", keys, number)
    for name in ("some.wrapped", "register"):
        os.remove(place.at(name))


def keys_refusals(place):
    """Status 1: 21, 22, 23 in their order, by a register with room and by a full one; and what the message says."""
    place.write("some.wrapped", line(some_key(40)))
    room, full = keys_of((17, 0), (23, 17), (40, 0)), keys_of(*((i, max(0, i - 62)) for i in range(1, 65)))
    for keys, cases in (
        (room, ((0, None, 21, "a key's number is never 0"), (0, 99, 21, "a key's number is never 0"), (17, 99, 21, "it has key 17 already"), (40, 40, 21, "it has key 40 already"),
                (41, 41, 22, "it has no key 41"), (41, 99, 22, "it has no key 99"), (41, 17, 22, "key 17 is replaced already, by 23"))),
        (full, ((0, None, 21, "a key's number is never 0"), (64, 1, 21, "it has key 64 already"), (65, 1, 22, "key 1 is replaced already, by 63"), (65, 99, 22, "it has no key 99"),
                (65, 3, 23, "it has 64 keys, and no room for more"), (65, None, 23, "it has 64 keys, and no room for more"), (65, 0, 23, "it has 64 keys"))),
    ):  # fmt: skip
        place.write("register", keys.data())
        for number, old, answer, says in cases:
            if Keys(keys.entries).add(number, old or 0, b"") != answer:
                raise Wrong("the rules of this file give another number")
            stays(place, f"{number} for {old}", 1, f"labyrinth: register: refused with {answer}: {says}", add_words(number, old))
        for number in (0, 41 if keys is room else 65, 99, 65535):
            for own in (False, True):
                says = f"refused with 22: it has no key {number}\n"
                stays(place, f"{number} to be found", 1, f"labyrinth: register: {says}", find_words(number, own=own), out="out")
                stays(place, f"{number} to be told", 1, f"labyrinth: register: {says}", find_words(number, ("register",), own))
                stays(place, f"{number} to be found, streams", 1, f"labyrinth: standard input: {says}", find_words(number, ("-", "-"), own), given=keys.data())
        for own in (False, True):
            stays(place, "22 before OUT", 1, "refused with 22: ", find_words(99, ("register", "none/out"), own))
    for name in ("some.wrapped", "register"):
        os.remove(place.at(name))


def keys_usage(place):
    """Status 2."""
    keys = keys_of((17, 0), (23, 17))
    place.write("register", keys.data())
    place.write("some.wrapped", line(some_key(40)))
    listing = ["keys", "list", "register"]
    good = {"add": add_words(40, 23), "find": find_words(17), "new": ["keys", "new", "other"], "list": listing}
    for way in ("add", "find"):
        for option in ("--number", "--replaces") if way == "add" else ("--number",):
            i = good[way].index(option)
            without = good[way][:i] + good[way][i + 2 :]
            if option == "--number":
                stays(place, f"{way}, no {option}", 2, f"{option} is missing", without)
            stays(place, f"{way}, {option} twice", 2, "twice", good[way] + good[way][i : i + 2])
            stays(place, f"{way}, {option} without value", 2, "lacks its value", [*without, option])
            for value in ("", "-1", "+1", "1.0", "x", "ff", 1 << 16, "0x10000", 1 << 32, 1 << 64, 10**30):
                stays(place, f"{way}, {option} {value}", 2, f"{option} takes a number below 2^16", [*without, option, str(value)])
    for way, words in good.items():
        takes = {"add": ("--number", "--replaces"), "find": ("--number",)}.get(way, ())
        for option in ("--mode", "--start", "--offset", "--length", "--tag", "--day", "--title", "--tag-key-file", "--number", "--replaces"):
            if option not in takes:
                stays(place, f"keys {way} with {option}", 2, f"'keys {way}' takes no {option}\n", [*words, option, "1"])
        for option in ("-n", "-l", "--key-file", "--set"):
            stays(place, f"keys {way} with {option}", 2, f"'keys {way}' takes no {option}: it unwraps nothing", [*words, option, "1"])
        if way != "find":
            stays(place, f"keys {way} with --own", 2, f"'keys {way}' takes no --own\n", [*words, "--own"])
        stays(place, f"keys {way}, an empty name", 2, "name is empty", [*words[:-1], ""])
    for what, says, words in (
        ("no WRAPPED", "where REGISTER and WRAPPED are wanted", good["add"][:-1]), ("a word too many", "where REGISTER and WRAPPED are wanted", [*good["add"], "more"]),
        ("no REGISTER", "where REGISTER is, or REGISTER and OUT are, wanted", good["find"][:-2]), ("three files", "where REGISTER is, or REGISTER and OUT are, wanted", [*good["find"], "more"]),
        ("nothing new", "where REGISTER is wanted", ["keys", "new"]), ("two new ones", "where REGISTER is wanted", ["keys", "new", "other", "another"]),
        ("a list of none", "where REGISTER is wanted", ["keys", "list"]), ("standard input twice in a list", "standard input stands twice", ["keys", "list", "-", "register", "-"]),
        ("a new register to standard output", "REGISTER is a file here", ["keys", "new", "-"]), ("a key added to standard input", "REGISTER is a file here", add_words(names=("-", "some.wrapped"))),
        ("no word after keys", "'new', 'add', 'find' or 'list' comes after 'keys', not ''", ["keys"]), ("another word after keys", "comes after 'keys', not 'remove'", ["keys", "remove", "register"]),
        ("a word before", "'unwrap', 'page' or 'keys' comes first, not 'key'", ["key", "list", "register"]),
        ("--own twice", "--own stands twice", [*find_words(17, own=True), "--own"]), ("--own with a value", "unknown option --own=17", [*good["find"], "--own=17"]),
        ("--own in place of --number", "--number is missing", ["keys", "find", "--own", "register", "out"]), ("--own and a number", "where REGISTER is, or", ["keys", "find", "--own", "17", "register", "out"]),
    ):  # fmt: skip
        stays(place, what, 2, says, words)
        stays(place, what, 2, "usage: labyrinth", words)
    for way, words in (("seal", globals()["words"]()), ("tag", tag_words()), ("wrap", wrap_words()), ("page write", page_words())):
        place.fails(f"{way} with --replaces", 2, f"'{way}' takes no --replaces", [*words, "--replaces", "1"])
        place.fails(f"{way} with --own", 2, f"'{way}' takes no --own\n", [*words, "--own"])
    stays(place, "page list with --own", 2, "'page list' takes no --own", ["page", "list", "--own", "register"])
    # what WRAPPED holds
    for count in (0, 16, 24, 32, 39, 41, 48, 136):
        place.write("wrong", line(some_key(count)))
        says = f"the key file wrong: a register takes 40 bytes, what wrap makes of a key of 32; it holds {count}\n"
        stays(place, f"a wrapped key of {count} bytes", 2, says, add_words(40, 23, ("register", "wrong")))
    stays(place, "40 bytes before 21", 2, "it holds 136\n", add_words(17, 99, ("register", "wrong")))
    for what, says, text in (
        ("odd digits", "odd number of hexadecimal digits (79)", some_key(40).hex()[1:]), ("no digits", "character 5 ", "f00dx" + some_key(40).hex()[5:]), ("a long file", "more than 65536 bytes", "00" * 32769),
    ):  # fmt: skip
        place.write("wrong", text.encode())
        stays(place, f"{what} in WRAPPED", 2, says, add_words(40, 23, ("register", "wrong")))
    # what REGISTER holds
    for count, has in ((0, 0), (1, 1), (8, 8), (44, 44), (REGISTER - 1, REGISTER - 1), (REGISTER + 1, "more"), (2 * REGISTER, "more"), (MIB, "more")):
        data = keys.data()[:count].ljust(count, b"\0")
        place.write("wrong", data)
        says = f": no register: one has 2824 bytes, this has {has}\n"
        for words in (add_words(40, 23, ("wrong", "some.wrapped")), find_words(17, ("wrong", "-"))):
            stays(place, f"a register of {count} bytes", 2, "labyrinth: wrong" + says, words)
        stays(place, f"a register of {count} bytes to a file", 2, "labyrinth: wrong" + says, find_words(17, ("wrong", "out")), out="out")
        stays(place, f"a register of {count} bytes from standard input", 2, "labyrinth: standard input" + says, find_words(17, ("-",)), given=data)
        done = place.run(["keys", "list", "register", "wrong", "register"])
        if (done.returncode, done.stdout) != (2, 2 * keys.listing("register")) or done.stderr.decode() != f"labyrinth: wrong{says}labyrinth: 1 of 3 were not listed\n":
            raise Wrong(f"a list with what is no register: {done}")
        place.count += 1
        if place.read("wrong") != data:
            raise Wrong("what is no register was altered")
    # one file twice
    os.link(place.at("register"), place.at("hard"))
    os.symlink("register", place.at("soft"))
    for other in ("register", "./register", "hard", "soft"):
        for own in (False, True):
            stays(place, f"REGISTER is OUT by {other}", 2, "REGISTER and OUT are one file", find_words(17, ("register", other), own))
    with open(place.at("register"), "rb") as file:
        stays(place, "standard input is OUT", 2, "REGISTER and OUT are one file", find_words(17, ("-", "register")), stdin=file)
    with open(place.at("register"), "ab") as file:
        stays(place, "standard output is REGISTER", 2, "REGISTER and OUT are one file", find_words(17, ("register", "-")), stdout=file)
    place.write("both", some_key(40).hex().encode().ljust(REGISTER))
    stays(place, "REGISTER is WRAPPED", 2, "REGISTER and WRAPPED are one file", add_words(40, None, ("both", "both")))
    for name in ("register", "some.wrapped", "wrong", "hard", "soft", "both"):
        os.remove(place.at(name))


def keys_files(place):
    """Status 3; and a register is never half-written, nor one put in the place of a file."""
    keys = keys_of((17, 0), (23, 17))
    place.write("register", keys.data())
    place.write("some.wrapped", line(some_key(40)))
    os.mkdir(place.at("directory"))
    os.mkfifo(place.at("fifo"))
    os.symlink("nowhere", place.at("dangling"))
    for name in ("locked", "directory/register"):
        place.write(name, keys.data())
    os.chmod(place.at("locked"), 0o000)
    os.chmod(place.at("directory/register"), 0o666)
    for other in ("missing", "directory", "dangling", "none/register", "some.wrapped/register", "x" * 300):
        stays(place, f"REGISTER is {other}", 3, f"labyrinth: {other}: ", add_words(40, 23, (other, "some.wrapped")))
        stays(place, f"REGISTER to be searched is {other}", 3, f"labyrinth: {other}: ", find_words(17, (other, "out")), out="out")
    for other in ("fifo", "/dev/null", "/dev/full"):
        stays(place, f"REGISTER is {other}", 3, f"labyrinth: {other}: not a regular file\n", add_words(40, 23, (other, "some.wrapped")))
    for other in ("missing", ".", "dangling"):
        stays(place, f"WRAPPED is {other}", 3, f"labyrinth: {other}: ", add_words(40, 23, ("register", other)))
    for other in ("directory", "fifo", "dangling", "/dev/null", "none/out", "register/out", "x" * 300):
        stays(place, f"OUT is {other}", 3, f"labyrinth: {other}: ", find_words(17, ("register", other)))
    for words in (add_words(40, 23, ("locked", "some.wrapped")), add_words(40, 23, ("register", "locked")), find_words(17, ("locked",)), ["keys", "list", "locked"]):
        stays(place, "a file that can't be read", 3, "ermission denied", words, **somebody())
    os.chmod(place.at("register"), 0o444)
    stays(place, "a register that can't be written", 3, "labyrinth: register: Permission denied", add_words(40, 23), **somebody())
    os.chmod(place.at("directory"), 0o555)
    for words in (add_words(40, 23, ("directory/register", "some.wrapped")), find_words(17, ("register", "directory/out")), ["keys", "new", "directory/other"]):
        stays(place, "where none can be written", 3, "ermission denied", words, **somebody())
    if os.listdir(place.at("directory")) != ["register"] or place.read("directory/register") != keys.data():
        raise Wrong("something was written where it may not")
    os.chmod(place.at("directory"), 0o777)
    # no room
    for most in (0, 8, 40, REGISTER - 1):
        less = lambda: resource.setrlimit(resource.RLIMIT_FSIZE, (most, most))
        stays(place, f"room for {most} bytes of a register", 3, "labyrinth: register: ", add_words(40, 23), preexec_fn=less)
        stays(place, f"room for {most} bytes of a new register", 3, "labyrinth: other: ", ["keys", "new", "other"], preexec_fn=less)
        if most < 81:
            for own in (False, True):
                stays(place, f"room for {most} bytes of OUT", 3, "labyrinth: out: ", find_words(17, own=own), out="out", preexec_fn=less)
    with open("/dev/full", "wb") as full:
        for words in (find_words(17, ("register",)), find_words(17, ("register", "-")), ["keys", "list", "register"]):
            stays(place, "no room behind standard output", 3, "standard output", words, stdout=full)
        for own in (False, True):
            stays(place, "no room to tell", 3, "standard output", find_words(17, own=own), out="out", stdout=full)
    # what is there stays
    for name in ("register", "some.wrapped", "directory", "fifo", "dangling", "link"):
        if name == "link":
            os.symlink("some.wrapped", place.at(name))
        before = place.read("some.wrapped")
        stays(place, f"a new register where {name} is", 3, f"labyrinth: {name}: ", ["keys", "new", name])
        if place.read("some.wrapped") != before:
            raise Wrong("a file was replaced by a new register")
    done = place.run(["keys", "list", ".", "register", "fifo/none"])
    if (done.returncode, done.stdout) != (3, keys.listing("register")) or not done.stderr.endswith(b"labyrinth: 2 of 3 were not listed\n"):
        raise Wrong(f"a list with what can't be read: {done}")
    place.count += 1
    shutil.rmtree(place.at("directory"))
    for name in ("register", "some.wrapped", "fifo", "dangling", "locked", "link"):
        os.remove(place.at(name))


def keys_together(place):
    """Who adds a key waits for whoever is at it, and no key is lost."""
    keys = keys_of((17, 0))
    place.write("register", keys.data())
    place.write("some.wrapped", line(some_key(40)))
    with open(place.at("register"), "rb") as file:
        fcntl.flock(file, fcntl.LOCK_EX)
        process = place.start(add_words(23, 17))
        time.sleep(0.3)
        if process.poll() is not None or place.read("register") != keys.data():
            raise Wrong("a key was added to a register that someone else holds")
        keys.add(40, 0, some_key(40))
        place.write("next", keys.data())
        os.rename(place.at("next"), place.at("register"))
    process.stderr.read()
    process.stderr.close()
    keys.add(23, 17, some_key(40))
    if process.wait(20) != 0 or place.read("register") != keys.data():
        raise Wrong("of two who added a key at once one lost it")
    processes = [place.start(add_words(number)) for number in range(100, 124)]
    for process in processes:
        told = process.stderr.read()
        process.stderr.close()
        if process.wait(20) != 0 or told:
            raise Wrong(f"one of many who added a key: {told}")
    text = place.run(["keys", "list", "register"]).stdout.decode()
    if sorted(re.findall(r"^    (1\d\d) \(current\)$", text, re.M)) != [str(number) for number in range(100, 124)]:
        raise Wrong(f"of many who added a key some lost it: {text}")
    place.count += 2
    for name in ("register", "some.wrapped"):
        os.remove(place.at(name))


def forms(place):
    """Ways to write one thing."""
    page = place.read("page")
    secret = sealed("ctr", page, 31)
    spaced = "\r\n".join(KEY[i : i + 8].upper() for i in range(0, 32, 8)) + "\n\n"
    place.write("spaced.key", spaced.encode())
    place.works("a key in groups", words(key="spaced.key", q=31), secret)
    place.works("q in hexadecimal", words(q="0x1F"), secret)
    place.works("a start block in groups", words(q=31, start=" FF" * 16 + " "), secret)
    place.works("the key from standard input", words(key="-", q=31), secret, given=KEY.encode())
    place.works("from standard input to a file", words(q=31, names=("-", "out")), secret, given=page)
    place.works("from a file to standard output", words(q=31, names=("page", "-")), secret, out="-")
    place.works("q left out", words(), sealed("ctr", page))
    place.works("options last", ["seal", "page", "out", *words(q=31)[1:-2]], secret)
    place.write("-x", page)
    place.works("names after --", words(q=31, names=("--", "-x", "out")), secret)
    name = os.fsencode(place.path) + b"/\xff\xfe"
    place.works("a name that is no text", words(q=31, names=("page", name)), secret, out=os.fsdecode(name))
    for extra in ("-x", "spaced.key", "out", os.fsdecode(name)):
        os.remove(place.at(extra))
    # what OUT was: its permissions and a link to it stay
    place.write("out", OLD)
    os.chmod(place.at("out"), 0o664)
    os.symlink("out", place.at("link"))
    place.works("OUT by a link", words(q=31, names=("page", "link")), secret, preexec_fn=lambda: os.umask(0o077))
    if not os.path.islink(place.at("link")) or os.stat(place.at("out")).st_mode & 0o7777 != 0o664:
        raise Wrong("OUT's permissions or the link to it were lost")
    os.remove(place.at("link"))
    os.remove(place.at("out"))
    place.works("a new OUT under a umask", words(q=31), secret, preexec_fn=lambda: os.umask(0o027))
    if os.stat(place.at("out")).st_mode & 0o7777 != 0o640:
        raise Wrong("a new OUT doesn't heed the umask")
    os.remove(place.at("out"))


def help_page(place):
    """The card and the lines in the help tag, verify and open a page that the archivists' program sealed and tagged so; a key is wrapped and
    unwrapped by its lines, a record written, listed and opened, and a register kept."""
    text = place.run(["--help"]).stdout.decode()
    forms = re.findall(r"^    (labyrinth (?:seal|tag|verify|wrap|page|keys).* (?:IN|FILE\.\.|REGISTER).*)$", text, re.M)
    if len(forms) != 11 or any(form not in place.run([]).stderr.decode() for form in forms):
        raise Wrong("the help and the usage message differ")
    n, l, start, q = re.search(r"n = (\d), l = (\d), CTR, start block ([0-9a-f ]+), q = (\d+),", text).groups()
    key = re.search(r"^ +key ([0-9a-f ]+)$", text, re.M).group(1)
    tag, tag_l = re.search(r"^ +tag ([0-9a-f ]+), l = (\d),$", text, re.M).groups()
    tag_key = re.search(r"^ +tag key ([0-9a-f ]+)$", text, re.M).group(1)
    tag_line = re.search(r"^ +labyrinth (tag .*page\.sealed)$", text, re.M).group(1)
    both = re.search(r"^ +labyrinth verify .*&&\n +labyrinth open --mode ctr .*$", text, re.M).group()
    page = b"A page that was sealed by another program.\n"
    cipher = labyrinth.Labyrinth(int(n), bytes.fromhex(key))
    if len(bytes.fromhex(key)) != 8 * int(n) * int(l) or len(bytes.fromhex(tag_key)) != 8 * int(tag_l):
        raise Wrong("a key of the help's has another length")
    secret = modes.ctr_crypt(cipher, bytes.fromhex(start), int(q), page)
    if modes.cmac(labyrinth.Labyrinth(1, bytes.fromhex(tag_key)), secret) != bytes.fromhex(tag):
        raise Wrong("the help's tag is not the archivists'")
    place.write("card.key", key.encode())
    place.write("tag.key", tag_key.encode())
    place.write("page.sealed", secret)
    os.rename(place.at("page"), place.at("kept"))
    place.works("the help's line for a tag", shlex.split(tag_line), tag.replace(" ", "").encode() + b"\n", out="-")
    shell = dict(program="sh", env={**os.environ, "PATH": place.path + ":" + os.environ["PATH"]})
    place.works("the help's lines to verify and open", ["-c", both], page, out="page", **shell)
    os.remove(place.at("page"))
    place.write("page.sealed", flipped(secret))
    place.fails("the help's lines on an altered page", 4, "page.sealed: no: altered", ["-c", both], out=None, **shell)
    os.rename(place.at("kept"), place.at("page"))
    wrap, unwrap = (re.search(rf"^ +labyrinth ({way} -l 4 .*)$", text, re.M).group(1) for way in ("wrap", "unwrap"))
    place.write("master.key", KEY.encode() * 2)
    place.works("the help's line to wrap", shlex.split(wrap), line(wrapped(bytes.fromhex(key), KEY * 2)), out="card.wrapped")
    place.write("card.key", b"")
    place.works("the help's line to unwrap", shlex.split(unwrap), line(bytes.fromhex(key)), out="card.key")
    new, add, replace = re.search(r"^ +labyrinth (keys new .*)\n +labyrinth (keys add .*)\n +labyrinth (keys add .*)$", text, re.M).groups()
    finding = re.findall(r"^ +labyrinth keys find .*&&\n +labyrinth unwrap .*$", text, re.M)
    showing = re.search(r"^ +labyrinth (keys list .*\.register)$", text, re.M).group(1)
    entries = [(number, old, wrapped(some_key(32)[::step], KEY * 2)) for number, old, step in ((17, 0, 1), (23, 17, -1))]
    for number, _, secret in entries:
        place.write(f"card{number}.wrapped", line(secret))
    for i, words in enumerate((new, add, replace)):
        place.works("the help's lines for a register", shlex.split(words), Keys(entries[:i]).data(), out="keys.register")
    told, longer = Keys(entries).told(17), Keys(entries).told(17, own=True)
    for both, key_now, says, shown in zip(finding, (some_key(32)[::-1], some_key(32)), (told, longer), (told, longer[len(told) - 1 :]), strict=True):
        place.works("the help's lines to find a key", ["-c", both], line(key_now), out="card.key", **shell)
        if place.run(["-c", both], **shell).stdout.decode() != says or f"'{shown.strip()}'" not in text:
            raise Wrong("the help tells another thing of a key than the command")
    place.works("the help's line to list a register", shlex.split(showing), Keys(entries).listing("keys.register"), out="-")
    if Keys(entries).arrows([0, 1]) + " (current)" not in text:
        raise Wrong("the help shows another chain")
    place.write("card.key", line(bytes.fromhex(key)))
    for name in ("page.sealed", "master.key", "card.wrapped", "card17.wrapped", "card23.wrapped", "keys.register"):
        os.remove(place.at(name))
    kept = place.read("page")
    write = re.search(r"^ +(labyrinth page write -l 2 .*\\\n.* page page17)$", text, re.M).group(1)
    listing, opening = (re.search(rf"^ +labyrinth (page {way} .*page17.*)$", text, re.M).group(1) for way in ("list", "open"))
    title = "Of the harbour, second part"
    record = a_record(kept, title=title, start=start.replace(" ", ""), key=key, tag_key=tag_key)
    place.works("the help's line to write a record", ["-c", write], record, out="page17", **shell)
    for other in ("page18", "page19"):
        place.write(other, record)
    lines = b"".join(listed(f"page{i}", title=title) for i in (17, 18, 19))
    place.works("the help's line to list records", shlex.split(listing), lines, out="-")
    place.write("page", OLD)
    place.works("the help's line to open a record", shlex.split(opening), kept, out="page")
    for name in ("card.key", "tag.key", "page17", "page18", "page19"):
        os.remove(place.at(name))
    with open("/dev/full", "wb") as full:
        place.fails("help to a full disk", 3, "standard output", ["--help"], out="-", stdout=full)


def set_cases():
    """For each other set, at sizes in turn: what is sealed by the archivists' program with its tables exchanged."""
    for i, tables in enumerate(archivists_sets.OTHERS):
        for j, (n, l) in enumerate(papers.SIZES):
            key = bytes((7 * k + i) % 256 for k in range(8 * n * l))
            start, plain = bytes((k * k + j) % 256 for k in range(16 * n)), bytes(k * 11 % 256 for k in range(48 * n))
            with archivists_sets.with_set(*tables):
                cipher = labyrinth.Labyrinth(n, key)
                pages = [("cbc", None, plain, modes.cbc_encrypt(cipher, start, plain)), ("ctr", i, plain[:-5], modes.ctr_crypt(cipher, start, i, plain[:-5]))]
                tag = modes.cmac(cipher, plain, 8 + j) if n == 1 else None
                secret = modes.kw_wrap(cipher, plain[: 16 + 8 * j]) if n == 1 else None
            yield tables, n, l, key, start, pages, plain, tag, secret


def sets(place, alter=lambda data: data):
    """Pages, tags and wrapped keys with other tables, from a set file of bytes and from one of digits; with other tables, or the published ones, they
    differ."""
    for tables, n, l, key, start, pages, plain, tag, wrapped_key in set_cases():
        raw = b"".join(tables)
        text = "\n".join(raw.hex(" ", 4)[at : at + 36].upper() for at in range(0, 594, 36)).encode()
        place.write("raw.set", raw)
        place.write("text.set", text)
        place.write("set.key", key.hex().encode())
        for mode, q, page, secret in pages:
            what = f"{mode} with other tables, n = {n}, l = {l}"
            case = dict(mode=mode, n=n, l=l, key="set.key", start=start.hex(), q=q, names=("-", "-"))
            place.works(f"{what}, sealed", words(**case, tables="raw.set"), alter(secret), out="-", given=page)
            place.works(f"{what}, opened", words("open", **case, tables="text.set"), alter(page), out="-", given=secret)
            published = place.run(words("open", **case), given=secret)
            if published.returncode != 0 or published.stdout == page:
                raise Wrong(f"{what}: the published tables open it too")
        if tag:
            case = dict(l=l, key="set.key", names=("-",))
            place.works("a tag with other tables", tag_words(**case, value=len(tag), tables="raw.set"), alter(tag).hex().encode() + b"\n", out="-", given=plain)
            place.works("verified", tag_words("verify", **case, value=alter(tag).hex(), tables="text.set"), b"", out="-", given=plain)
            place.fails("by the published tables", 4, "no: altered", tag_words("verify", **case, value=tag.hex()), out=None, given=plain)
            short = plain[: len(wrapped_key) - 8]
            case = dict(l=l, key="set.key", names=("-", "-"))
            place.works("a key wrapped with other tables", wrap_words(**case, tables="raw.set"), line(alter(wrapped_key)), out="-", given=line(short))
            place.works("unwrapped", wrap_words("unwrap", **case, tables="text.set"), line(alter(short)), out="-", given=line(wrapped_key))
            place.fails("unwrapped by the published tables", 4, NOT_WRAPPED, wrap_words("unwrap", **case), out=None, given=line(wrapped_key))
    for name in ("raw.set", "text.set", "set.key"):
        os.remove(place.at(name))


def set_files(place):
    """Ways to write a set, and sets that are refused or cannot be read."""
    page, published = place.read("page"), b"".join(archivists_sets.PUBLISHED)
    other = b"".join(archivists_sets.OTHERS[2])
    place.write("published.set", published)
    place.works("the published tables", words(mode="cbc", tables="published.set"), sealed("cbc", page))
    place.works("the published tables for a tag", tag_words(tables="published.set"), tag_of(page).encode() + b"\n", out="-")
    digits = published.hex()
    for what, data in (
        ("one line", digits.encode()), ("capitals", digits.upper().encode()), ("two lines", f"{digits[:512]}\n{digits[512:]}\n".encode()),
        ("spaces and tabs", "\t".join(digits[i : i + 2] + " \r\n" for i in range(0, 528, 2)).encode()), ("bytes", published),
    ):  # fmt: skip
        place.write("some.set", data)
        place.works(f"a set as {what}", words(mode="cbc", tables="some.set"), sealed("cbc", page))
        place.works(f"a set as {what} from standard input", words(mode="cbc", tables="-"), sealed("cbc", page), given=data)
    os.remove(place.at("out"))
    # 14, 13, then the numbers of the key
    twice, none = other[:255] + other[:1] + other[256:], other[:256] + bytes(range(8))
    both = twice[:256] + none[256:]
    place.write("other.key", b"ab" * 15)
    for what, number, data in (("two equal bytes", 14, twice), ("a row that XORs to zero", 13, none), ("both", 14, both), ("zeros", 14, bytes(264))):
        for form, name in ((data.hex().encode(), "digits.set"), (data, "bytes.set")):
            place.write(name, form)
        for case in (words(tables="digits.set"), words(n=3, l=9, key="other.key", start="00", tables="digits.set"), words("open", "cbc", tables="digits.set")):
            place.refuses(f"a set of {what}", number, case)
        for way, value in (("tag", None), ("verify", "00" * 16)):
            place.refuses(f"{way} by a set of {what}", number, tag_words(way, l=9, value=value, tables="digits.set"), out=None)
        for way in ("wrap", "unwrap"):
            place.refuses(f"{way} by a set of {what}", number, wrap_words(way, l=9, names=("missing", "out"), tables="digits.set"))
        place.fails(f"bytes of {what}", 1, f"refused with {number}: ", words(tables="bytes.set"))
    place.write("digits.set", twice.hex().encode())
    place.fails("which bytes are equal", 1, f"bytes 0 and 255 of the substitution, from 0 on, are both {other[0]:02x}", words(tables="digits.set"))
    place.write("digits.set", other.hex().encode())
    place.refuses("a good set, and n = 3", 1, words(n=3, tables="digits.set"))
    place.refuses("a good set, and l = 9", 2, words(l=9, tables="digits.set"))
    place.refuses("a good set, and a short key", 3, words(key="other.key", tables="digits.set"))
    place.refuses("a good set, and a short start block", 6, words(start="00", tables="digits.set"))
    # usage
    for what, says, data in (
        ("263 bytes", "a set is 264 bytes", other[:-1].hex().encode()), ("265 bytes", "a set is 264 bytes", other.hex().encode() + b"00"),
        ("no byte", "a set is 264 bytes", b""), ("a substitution alone", "a set is 264 bytes", other[:256].hex().encode()),
        ("263 bytes as they are", "is no hexadecimal digit; it has 263 bytes", other[:-1]), ("odd digits", "odd number of hexadecimal digits (527)", other.hex()[1:].encode()),
        ("no digits", "character 5 is no hexadecimal digit", b"2bf8x" + other.hex().encode()), ("a long file", "more than 65536 bytes", b"00" * 32769),
    ):  # fmt: skip
        place.write("wrong.set", data)
        place.fails(f"a set of {what}", 2, says, words(tables="wrong.set"))
        place.fails(f"a set of {what} for a tag", 2, says, tag_words(tables="wrong.set"), out=None)
    good = words(tables="digits.set")
    place.fails("--set twice", 2, "--set stands twice", [*good, "--set", "digits.set"])
    place.fails("--set without value", 2, "--set lacks its value", [*words(), "--set"])
    place.fails("an empty name", 2, "name is empty", words(tables=""))
    place.fails("set and IN from one stream", 2, "only one can come from standard input", words(tables="-", names=("-", "out")))
    place.fails("set and key from one stream", 2, "only one can come from standard input", words(key="-", tables="-"))
    place.fails("the set file is OUT", 2, "OUT is the set file", words(tables="digits.set", names=("page", "digits.set")), out="digits.set")
    if place.read("digits.set") != other.hex().encode():
        raise Wrong("the set file was replaced")
    place.fails("no set file", 3, "missing.set", words(tables="missing.set"))
    place.fails("a directory for a set file", 3, "directory", words(tables="."))
    place.fails("no set file for a tag", 3, "missing.set", tag_words(tables="missing.set"), out=None)
    for name in ("published.set", "some.set", "digits.set", "bytes.set", "wrong.set", "other.key"):
        os.remove(place.at(name))


def refusals(place):
    """Status 1, with the number; where several apply, the first by document 01's order."""
    for n in (0, 3, 8, 257, (1 << 32) + 1, (1 << 64) - 1, 1 << 64, 10**30):
        place.refuses(f"n = {n}", 1, words(n=n))
    for l in (0, 1, 5, 258, (1 << 32) + 2, 1 << 61, (1 << 64) - 1, 10**30):
        place.refuses(f"l = {l}", 2, words(l=l))
    for count in (0, 15, 17, 32):
        place.write("other.key", b"ab" * count)
        place.refuses(f"a key of {count} bytes", 3, words(key="other.key"))
        place.refuses(f"a start block of {count} bytes", 6, words(start="ab" * count))
    for way in ("seal", "open"):
        cbc = dict(way=way, mode="cbc")
        place.refuses("17 bytes by CBC", 4, words(**cbc, names=("odd", "out")))
        place.fails("17 bytes by CBC", 1, "CBC takes whole blocks only, of 16 bytes", words(**cbc, names=("odd", "out")))
        for count in (1, 15, 17, MIB + 1):
            place.fails(f"{count} bytes by CBC", 1, f"IN has {count} bytes", words(**cbc, names=("-", "out")), given=bytes(count))
        place.fails("cut in the stream", 1, f"{MIB} bytes went to standard output", words(**cbc, names=("-", "-")), out="-", given=bytes(MIB + 1))
        place.refuses("1 before 2", 1, words(**cbc, n=3, l=9, key="other.key", start="00", names=("odd", "out")))
        place.refuses("2 before 3", 2, words(**cbc, l=9, key="other.key", start="00", names=("odd", "out")))
        place.refuses("3 before 6", 3, words(**cbc, key="other.key", start="00", names=("odd", "out")))
        place.refuses("6 before 4", 6, words(**cbc, start="00", names=("odd", "out")))
    os.remove(place.at("other.key"))


def usage(place):
    """Status 2."""
    good = words(q=1)
    place.fails("no words", 2, "usage: labyrinth seal|open", [], out="-")
    for option in ("--mode", "-n", "-l", "--key-file", "--start"):
        i = good.index(option)
        place.fails(f"no {option}", 2, option, good[:i] + good[i + 2 :])
        place.fails(f"{option} twice", 2, "twice", good + good[i : i + 2])
        place.fails(f"{option} without value", 2, "lacks its value", good[:i] + good[i + 2 :] + [option])
    for what, case in (
        ("another verb", words(way="unseal")), ("another mode", words(mode="ecb")), ("an unknown option", [*good, "--pad"]),
        ("n is no number", words(n="one")), ("n below 0", words(n=-1)), ("l is no number", words(l="")), ("no OUT", good[:-1]),
        ("a word too many", [*good, "more"]), ("q with CBC", words(mode="cbc", q=1)), ("q below 0", words(q=-1)), ("q too large", words(q=1 << 64)),
        ("q in bare hexadecimal", words(q="ff")), ("odd digits to start", words(start="f" * 31)), ("start is no number", words(start="fg" * 16)),
        ("0x to start", words(start="0x" + START)), ("an empty name", words(names=("page", ""))),
        ("key and IN from one stream", words(key="-", names=("-", "out"))),
    ):  # fmt: skip
        place.fails(what, 2, "usage: labyrinth", case)
    for what, says, text in (
        ("odd digits", "odd number of hexadecimal digits (31)", KEY[:31]), ("no digits", "character 5 ", KEY[:4] + "x" + KEY[5:]),
        ("0x", "character 2 ", "0x" + KEY), ("a long file", "more than 65536 bytes", "00" * 32769),
    ):  # fmt: skip
        place.write("wrong.key", text.encode())
        place.fails(f"{what} in the key file", 2, says, words(key="wrong.key"))
    os.remove(place.at("wrong.key"))

    # one file twice
    page = place.read("page")
    os.link(place.at("page"), place.at("hard"))
    os.symlink("page", place.at("soft"))
    for name in ("page", "./page", "hard", "soft"):
        place.fails(f"IN is OUT by {name}", 2, "one file", words(names=("page", name)), out=name)
    with open(place.at("page"), "rb") as file:
        place.fails("standard input is OUT", 2, "one file", words(names=("-", "page")), out="page", stdin=file)
    with open(place.at("page"), "ab") as file:
        place.fails("standard output is IN", 2, "one file", words(names=("page", "-")), out="-", stdout=file)
    place.fails("the key file is OUT", 2, "key file", words(names=("page", "key")), out="key")
    if place.read("page") != page or place.read("key") != KEY.encode():
        raise Wrong("a page or key was replaced by itself")
    os.remove(place.at("hard"))
    os.remove(place.at("soft"))


def files(place):
    """Status 3."""
    os.mkdir(place.at("directory"))
    os.mkfifo(place.at("fifo"))
    os.symlink("nowhere", place.at("dangling"))
    place.fails("no key file", 3, "missing.key", words(key="missing.key"))
    place.fails("a directory for a key file", 3, "directory", words(key="directory"))
    place.fails("no IN", 3, "missing", words(names=("missing", "out")))
    place.fails("a directory for IN", 3, "directory", words(names=("directory", "out")))
    for name in ("directory", "fifo", "dangling", "/dev/null", "none/out", "page/out", "x" * 300):
        place.fails(f"OUT is {name}", 3, f"labyrinth: {name}: ", words(names=("odd", name)), out=name)
    user = somebody()
    os.chmod(place.at("directory"), 0o555)
    place.fails("OUT in a directory that can't be written", 3, "ermission denied", words(names=("page", "directory/out")), out="directory/out", **user)
    os.chmod(place.at("directory"), 0o777)
    place.write("directory/locked", OLD)
    os.chmod(place.at("directory/locked"), 0o444)
    locked = words(names=("page", "directory/locked"))
    place.fails("OUT that can't be written", 3, "ermission denied", locked, out="directory/locked", **user)
    if os.listdir(place.at("directory")) != ["locked"] or place.read("directory/locked") != OLD:
        raise Wrong("something was written where it may not")
    os.remove(place.at("directory/locked"))

    # no room: a limit on a file's size, and a full disk behind standard output
    def small():
        resource.setrlimit(resource.RLIMIT_FSIZE, (MIB + MIB // 2, MIB + MIB // 2))

    place.fails("no room for OUT", 3, "labyrinth: out: ", words(names=("-", "out")), given=bytes(3 * MIB), preexec_fn=small)
    with open("/dev/full", "wb") as full:
        place.fails("no room behind standard output", 3, "standard output", words(names=("page", "-")), out="-", stdout=full)
    reading, writing = os.pipe()
    os.close(reading)
    place.fails("nobody reads standard output", 3, "standard output", words(names=("page", "-")), out="-", stdout=writing)
    os.close(writing)
    os.rmdir(place.at("directory"))
    for name in ("fifo", "dangling"):
        os.remove(place.at(name))


def parts(place):
    return [name for name in place.names() if name.endswith(".part")]


def begun(place, out="out", **more):
    """A run that has written its first piece and waits for more."""
    process = place.start(words(names=("-", out)), stdin=subprocess.PIPE, **more)
    process.stdin.write(bytes(MIB + 5))
    process.stdin.flush()
    until = time.monotonic() + 20
    while not any(f".{process.pid}." in name and os.stat(place.at(name)).st_size >= MIB for name in parts(place)):
        if time.monotonic() > until or process.poll() is not None:
            process.kill()
            raise Wrong("a long run doesn't write beside OUT")
        time.sleep(0.005)
    return process


def ended(place):
    """A signal in a long run: OUT is what it was, and all but KILL leave nothing beside it."""
    for number in (signal.SIGTERM, signal.SIGINT, signal.SIGHUP, signal.SIGQUIT, signal.SIGKILL):
        for old in (None, OLD):
            if old is not None:
                place.write("out", old)
                os.chmod(place.at("out"), 0o600)
            before = place.names()
            process = begun(place)
            if old is not None and any(os.stat(place.at(name)).st_mode & 0o077 for name in parts(place)):
                process.kill()
                raise Wrong("the new file may be read by more people than OUT")
            process.send_signal(number)
            status = process.wait(20)
            process.stdin.close()
            process.stderr.close()
            if status != -number:
                raise Wrong(f"{number.name}: status {status}")
            if number == signal.SIGKILL:
                for name in parts(place):
                    os.remove(place.at(name))
            place.untouched(number.name, before, old)
            place.count += 1
    # as nohup starts it
    process = begun(place, preexec_fn=lambda: signal.signal(signal.SIGHUP, signal.SIG_IGN))
    process.send_signal(signal.SIGHUP)
    process.stdin.close()
    if process.wait(20) != 0 or len(place.read("out")) != MIB + 5 or parts(place):
        raise Wrong("HUP ended a run that was to ignore it")
    process.stderr.close()
    os.remove(place.at("out"))
    place.count += 1


def progress(place):
    """A line on a terminal after a second, none before and none elsewhere; a page of 64 MiB passes where the command may take 32 MiB of memory."""
    ours, theirs = pty.openpty()
    processes = [begun(place, stderr=theirs), begun(place, out="other")]
    os.set_blocking(ours, False)
    try:
        early = os.read(ours, 4096)
    except BlockingIOError:
        early = b""
    time.sleep(1.1)
    for process in processes:
        process.stdin.write(bytes(2 * MIB))
        process.stdin.close()
        if process.wait(20) != 0:
            raise Wrong("a long run failed")
    with processes[1].stderr as told:
        if told.read():
            raise Wrong("a progress line where there is no terminal")
    shown = os.read(ours, 4096).decode()
    os.close(ours)
    os.close(theirs)
    if early or not re.match(r"\rlabyrinth: [23] MiB", shown) or not re.search(r"\r +\r$", shown):
        raise Wrong(f"the progress line: {early!r}, {shown!r}")
    os.remove(place.at("out"))
    os.remove(place.at("other"))
    place.write_long()
    done = place.run(words(names=("long", "-")), stdout=subprocess.DEVNULL, preexec_fn=narrow)
    if done.returncode != 0 or done.stderr:
        raise Wrong(f"64 MiB: status {done.returncode}: {done.stderr.decode()}")
    os.remove(place.at("long"))
    place.count += 2


def altered(place, part):
    """One changed bit of one expected page or tag is noticed."""
    try:
        part(place, lambda data: flipped(data) if data else data)
    except Wrong as wrong:
        if "other bytes" not in str(wrong):
            raise
        return
    raise Wrong("altered vectors passed")


def main():
    if not os.path.exists(BUILT):
        sys.exit("command: target/rust/release/labyrinth is not there: tests/rust.sh builds it")
    # what the gate was started to ignore (HUP by nohup, INT and QUIT behind a shell's &) the command would ignore too
    for number in (signal.SIGHUP, signal.SIGINT, signal.SIGQUIT):
        signal.signal(number, signal.SIG_DFL)
    with tempfile.TemporaryDirectory() as path:
        place = Place(path)
        held = place.names()
        try:
            tag_parts = (tag_vectors, tag_forms, altered_pages, tag_refusals, tag_usage, tag_files)
            wrap_parts = (wrap_vectors, wrap_forms, wrap_refusals, wrap_usage, wrap_files)
            page_parts = (page_vectors, page_forms, page_list, page_alterations, page_refusals, page_usage, page_files, page_sets)
            keys_parts = (keys_calls, keys_trip, keys_forms, keys_by_hand, keys_refusals, keys_usage, keys_files, keys_together)
            for part in (vectors, forms, help_page, refusals, usage, files, ended, progress, *tag_parts, *wrap_parts, sets, set_files, *page_parts, *keys_parts):
                part(place)
                if place.names() != held:
                    raise Wrong(f"{part.__name__} left {place.names()}")
            count = place.count
            for part in (vectors, tag_vectors, wrap_vectors, sets, page_vectors, page_sets, keys_calls):
                altered(Place(tempfile.mkdtemp(dir=path)), part)
        except Wrong as wrong:
            sys.exit(f"command: FAILED: {wrong}")
    if count != COUNT:
        sys.exit(f"command: FAILED: {count} checks, not {COUNT}")
    print(f"command: {count} checks, and an altered byte, tag, key, record or register is noticed")


if __name__ == "__main__":
    main()
