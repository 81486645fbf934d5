#!/usr/bin/env bash
# The Rust crate and the command, offline: builds both, runs their tests and the examples, holds the examples to the archivists' program
# and the crate's declarations to include/labyrinth.h, then tries the command (tests/command.py). Needs what `make lib` makes.
set -u
cd "$(dirname "$0")/.." || exit 1
for tool in cargo rustc python3; do
    command -v "$tool" >/dev/null || { echo "rust: $tool is not here"; exit 1; }
done
work=$(mktemp -d) || exit 1
trap 'rm -rf "$work"' EXIT
root=$PWD
unset LABYRINTH_DIST
export CARGO_TARGET_DIR=$root/target/rust CARGO_TERM_COLOR=never
status=0
wrong() { echo "rust: $*"; status=1; }
quietly() { "$@" >"$work/log" 2>&1 || { cat "$work/log"; return 1; }; }
cd rust || exit 1

quietly cargo build --offline --locked --release --workspace --examples --bins || { echo "rust: FAILED: the build"; exit 1; }
! grep -q '^warning' "$work/log" || { cat "$work/log"; wrong "the build warns"; }

# ---- the tests of both crates
quietly cargo test --offline --locked --release --workspace || wrong "cargo test"
passed=$(awk '/^test result: ok/ { n += $4 } END { print n + 0 }' "$work/log")
[ "$passed" -eq 54 ] || wrong "cargo test: $passed tests passed, not 54"

# ---- without the archive the build says what to do; LABYRINTH_DIST says where it is
mkdir "$work/none" "$work/dist" && cp "$root/target/dist/liblabyrinth.a" "$work/dist" || exit 1
export CARGO_TARGET_DIR=$root/target/rust-dist
! LABYRINTH_DIST=$work/none cargo build --offline --locked -p labyrinth >"$work/log" 2>&1 || wrong "built without the archive"
grep -q 'make lib' "$work/log" || { cat "$work/log"; wrong "without the archive the build doesn't say make lib"; }
LABYRINTH_DIST=$work/dist quietly cargo build --offline --locked -p labyrinth || wrong "LABYRINTH_DIST is not heeded"
cd "$root" || exit 1

# ---- the crate declares what the header declares
python3 - include/labyrinth.h rust/labyrinth/src/lib.rs <<'P' || wrong "the crate's declarations"
import re
import sys

TYPES = {"size_t": "usize", "uint8_t": "u8", "uint16_t": "u16", "uint32_t": "u32", "uint64_t": "u64", "const uint8_t *": "*const u8", "uint8_t *": "*mut u8"}
TYPES |= {"uint32_t *": "*mut u32", "uint64_t *": "*mut u64"}
header, crate = (open(name).read() for name in sys.argv[1:])
declared = set()
for result, name, parameters in re.findall(r"^(\w+) (labyrinth_\w+)\(([^)]*)\);", header, re.M):
    parts = [re.fullmatch(r"(.*[ *])(\w+)", p.strip()).groups() for p in parameters.split(",")]
    declared.add(f"{name}({', '.join(f'{word}: {TYPES[kind.strip()]}' for kind, word in parts)}) -> {TYPES[result]}")
block = re.search(r'extern "C" \{(.*?)\n\}', crate, re.S).group(1)
taken = {re.sub(r"\s+", " ", t).replace("( ", "(").replace(", )", ")") for t in re.findall(r"fn (.*?);", block, re.S)}
if len(declared) != 32 or declared != taken:
    sys.exit(f"rust: the header and the crate differ: {sorted(declared ^ taken)}")
P

# ---- the examples, and what they sealed and tagged by the archivists' program; an altered tag, page or record is noticed
"target/rust/release/examples/page" >"$work/page" || wrong "the example"
agrees() {
    python3 -B - "$1" <<'P'
import sys

sys.path.insert(0, "tests/archivists")
import labyrinth
import modes

lines = [line.split() for line in open(sys.argv[1])]
pages = {line[0]: dict(zip(line[1::2], line[2::2])) for line in lines}
if sorted(pages) != ["cbc", "ctr"]:
    sys.exit("rust: the example doesn't show two pages")
for mode, page in pages.items():
    key, start, plain, tag_key = (bytes.fromhex(page[part]) for part in ("key", "start", "page", "tag_key"))
    if len(key) != 8 * int(page["n"]) * int(page["l"]) or len(tag_key) != 8 * int(page["tag_l"]):
        sys.exit("rust: a key of the example has another length")
    cipher = labyrinth.Labyrinth(int(page["n"]), key)
    sealed = modes.cbc_encrypt(cipher, start, plain) if mode == "cbc" else modes.ctr_crypt(cipher, start, int(page["q"]), plain)
    if sealed.hex() != page["sealed"]:
        sys.exit(f"rust: the example's page by {mode} is not what the archivists' program seals")
    if modes.cmac(labyrinth.Labyrinth(1, tag_key), sealed).hex() != page["tag"]:
        sys.exit(f"rust: the example's tag of the page by {mode} is not what the archivists' program makes")
P
}
agrees "$work/page" || wrong "the example's pages"
for part in sealed tag; do
    for line in 1 2; do
        sed "$line"'s/ '$part' 0/ '$part' 1/;t;'"$line"'s/ '$part' ./ '$part' 0/' "$work/page" >"$work/altered"
        ! cmp -s "$work/page" "$work/altered" || wrong "the example shows no $part"
        ! agrees "$work/altered" 2>/dev/null || wrong "an altered $part passed"
    done
done

"target/rust/release/examples/record" >"$work/record" || wrong "the example of a record"
record_agrees() {
    python3 -B - "$1" <<'P'
import sys

sys.path[:0] = ["tests", "tests/archivists"]
import labyrinth
import page_records

words = open(sys.argv[1]).read().split()
said = dict(zip(words[1::2], words[2::2]))
key, tag_key, title, start, body = (bytes.fromhex(said[name]) for name in ("key", "tag_key", "title", "start", "body"))
if len(key) != 8 * int(said["l"]) or len(tag_key) != 8 * int(said["tag_l"]):
    sys.exit("rust: a key of the example has another length")
sealing, tagging = (labyrinth.Labyrinth(1, one) for one in (key, tag_key))
if page_records.Records().written(sealing, tagging, int(said["number"]), int(said["day"]), title, start, body).hex() != said["written"]:
    sys.exit("rust: the example's record is not what the archivists' program makes")
P
}
record_agrees "$work/record" || wrong "the example's record"
for part in number day title start body written; do
    sed 's/ '$part' 1/ '$part' 2/;t;s/ '$part' ./ '$part' 1/' "$work/record" >"$work/altered"
    ! cmp -s "$work/record" "$work/altered" || wrong "the example shows no $part"
    ! record_agrees "$work/altered" 2>/dev/null || wrong "an altered $part passed"
done

# ---- the command
tests/command.py || wrong "the command"

[ "$status" -eq 0 ] || { echo "rust: FAILED"; exit 1; }
echo "rust: both crates built, $passed tests, the examples, the declarations and the command: all as expected"
