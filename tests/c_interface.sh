#!/usr/bin/env bash
# The C interface: the header in three languages, the archive's symbols and sections, the examples against the archivists' program, and
# the program in tests/c_interface; each shown to notice what it is to notice. Builds target/dist if it isn't there.
#
#     tests/c_interface.sh [--long] [--seed N]      words for that program
set -u
export LC_ALL=C
cd "$(dirname "$0")/.." || exit 1
for tool in gcc g++ nm readelf ar python3; do
    command -v "$tool" >/dev/null || { echo "c_interface: $tool is not here"; exit 1; }
done
work=$(mktemp -d) || exit 1
trap 'rm -rf "$work"' EXIT
status=0
wrong() { echo "c_interface: $*"; status=1; }
archive=target/dist/liblabyrinth.a
warnings="-Wall -Wextra -Wpedantic -Werror"
[ -f "$archive" ] && [ -f target/dist/labyrinth.h ] || make lib >"$work/lib" 2>&1 || { cat "$work/lib"; echo "c_interface: make lib failed"; exit 1; }
cmp include/labyrinth.h target/dist/labyrinth.h || { echo "c_interface: target/dist is of another header: make lib"; exit 1; }

# ---- the header alone, and twice
printf '#include "labyrinth.h"\n#include "labyrinth.h"\n' >"$work/twice.c"
cp "$work/twice.c" "$work/twice.cc"
for std in c99 c11 c17; do gcc -std=$std $warnings -I target/dist -fsyntax-only "$work/twice.c" || wrong "the header as $std"; done
for std in c++98 c++11 c++17; do g++ -std=$std $warnings -I target/dist -fsyntax-only "$work/twice.cc" || wrong "the header as $std"; done

# ---- the archive: the functions on offer, no symbol but memcpy and memset, nothing that can be written
contents() {
    echo "offers $(nm -g --defined-only "$1" | awk 'NF == 3 { print $3 }' | sort -u | xargs)"
    echo "needs $(nm -u "$1" | awk 'NF == 2 { print $2 }' | sort -u | xargs)"
    echo "writable $(readelf -SW "$1" | sed 's/^ *\[ *[0-9]*\] *//' | awk '$7 ~ /W/ { print $1 }' | sort -u | xargs)"
}
cat >"$work/contents" <<'END'
offers labyrinth_cbc_open labyrinth_cbc_seal labyrinth_cmac labyrinth_cmac_verify labyrinth_ctr labyrinth_decipher labyrinth_encipher labyrinth_expand labyrinth_key_cbc_open labyrinth_key_cbc_seal labyrinth_key_cmac labyrinth_key_cmac_verify labyrinth_key_ctr labyrinth_key_decipher labyrinth_key_decipher_by_matrix labyrinth_key_encipher labyrinth_key_encipher_by_matrix labyrinth_key_unwrap labyrinth_key_wrap labyrinth_mix labyrinth_mix_row labyrinth_page_catalogue labyrinth_page_open labyrinth_page_write labyrinth_register_add labyrinth_register_find labyrinth_row_inverse labyrinth_row_judge labyrinth_row_product labyrinth_store_fresh labyrinth_store_load labyrinth_store_take
needs memcpy memset
writable 
END
contents "$archive" >"$work/found"
diff "$work/contents" "$work/found" || wrong "the archive holds something else than the header says"
# one more function, a call of malloc, a variable: each is noticed
alter() {
    cp "$archive" "$work/altered.a"
    echo "$2" | gcc -x c -c -o "$work/more.o" - && ar r "$work/altered.a" "$work/more.o" || wrong "no altered archive"
    contents "$work/altered.a" | diff "$work/contents" - >"$work/difference"
    grep -q "^> $1" "$work/difference" || wrong "an archive that $1 more passed"
}
alter offers 'int more(void) { return 1; }'
alter needs '#include <stdlib.h>
static void *more(void) { return malloc(1); }
static void *(*const at)(void) __attribute__((used)) = more;'
alter writable 'static int more __attribute__((used)) = 1;'
gcc -shared -Wl,-z,defs -Wl,-z,text -Wl,--whole-archive "$archive" -Wl,--no-whole-archive -o "$work/liblabyrinth.so" || wrong "no shared library"

# ---- the examples, as C and as C++: what they print is what the archivists' program says
for example in page convert record keys; do
    gcc -std=c99 $warnings -I target/dist "examples/$example.c" "$archive" -o "$work/$example" || wrong "$example.c as C99"
    g++ -std=c++11 $warnings -x c++ -I target/dist "examples/$example.c" -x none "$archive" -o "$work/$example++" || wrong "$example.c as C++"
    "$work/$example" >"$work/$example.printed" || wrong "$example.c failed"
    "$work/$example++" | cmp - "$work/$example.printed" || wrong "$example.c prints something else as C++"
done
page_agrees() {
    python3 -B - "$1" <<'END'
import sys

sys.path.insert(0, "tests/archivists")
import labyrinth
import modes

with open(sys.argv[1]) as file:
    said = dict(line.rstrip("\n").split(": ", 1) for line in file)
cipher, tagger = labyrinth.Labyrinth(2, bytes.fromhex(said["key"])), labyrinth.Labyrinth(1, bytes.fromhex(said["tag key"]))
starts = [bytes.fromhex(said[kind + " start"]) for kind in ("cbc", "ctr")]
cbc = modes.cbc_encrypt(cipher, starts[0], said["cbc page"].encode())
ctr = modes.ctr_crypt(cipher, starts[1], int(said["ctr q"]), said["ctr page"].encode())
tags = [modes.cmac(tagger, start + sealed) for start, sealed in zip(starts, (cbc, ctr))]
made = [bytes.fromhex(said[name]) for name in ("cbc sealed", "ctr sealed", "cbc tag", "ctr tag")]
answers = [said[name] for name in ("cbc genuine", "ctr genuine", "ctr altered genuine")]
sys.exit(made != [cbc, ctr, *tags] or answers != ["yes", "yes", "no"])
END
}
convert_agrees() {
    python3 -B - "$1" <<'END'
import sys

sys.path.insert(0, "tests")
from archivists_rows import labyrinth, mixed, product

with open(sys.argv[1]) as file:
    said = dict(line.rstrip("\n").split(": ", 1) for line in file)
old, inverse, converting = (bytes.fromhex(said[name]) for name in ("old row", "inverse", "converting row"))
right = len(old) == 8 and product(old, inverse) == bytes([1, 0, 0, 0, 0, 0, 0, 0]) and product(inverse, labyrinth.G) == converting
for word in ("word 1", "word 2", "word 3"):
    first, before, after = (int(said[word + name], 16) for name in ("", " mixed", " converted"))
    right = right and mixed(old, first) == before and labyrinth.cmbn_poly(first) == mixed(converting, before) == after
sys.exit(not right)
END
}
record_agrees() {
    python3 -B - "$1" <<'END'
import re
import sys

sys.path[:0] = ["tests", "tests/archivists"]
import labyrinth
import page_records

with open(sys.argv[1]) as file:
    said = dict(line.rstrip("\n").split(": ", 1) for line in file)
sealing, tagging = (labyrinth.Labyrinth(1, bytes.fromhex(said[name])) for name in ("key", "tag key"))
start, body, written = (bytes.fromhex(said[name]) for name in ("start", "body", "written"))
listed, altered_listed = (re.fullmatch(r'number (\d+), day (\d+), blocks (\d+), title "(.*)"', said[name]) for name in ("listed", "altered listed"))
if not listed or not altered_listed:
    sys.exit(1)
(number, day, blocks, title), (*others, other_title) = listed.groups(), altered_listed.groups()
records = page_records.Records()
record = records.written(sealing, tagging, int(number), int(day), title.encode(), start, body)
altered = record[:11] + other_title.encode() + record[43:]
right = written == record and int(blocks) == len(body) // 16 and said["opened"] + "\n" == body.decode() and others == [number, day, blocks]
right = right and sum(a != b for a, b in zip(record, altered)) == 1 and not records.right(sealing, tagging, records.parts(altered))
sys.exit(not right or said["altered opened"] != "refused with 20, nothing written")
END
}
keys_agrees() {
    python3 -B - "$1" <<'END'
import sys

sys.path.insert(0, "tests/archivists")
import labyrinth
import modes

with open(sys.argv[1]) as file:
    said = dict(line.rstrip("\n").split(": ", 1) for line in file)
master, old, new, register, unwrapped = (bytes.fromhex(said[name]) for name in ("master key", "key 17", "key 23", "register", "unwrapped"))
entry = lambda number, replaces, key: bytes([number, 0, replaces, 0]) + modes.kw_wrap(labyrinth.Labyrinth(1, master), key)
right = register == bytes([2, 0, 0, 0, 0, 0, 0, 0]) + entry(17, 0, old) + entry(23, 17, new) and unwrapped == new
answers = [said[name] for name in ("found", "17 replaced again")]
sys.exit(not right or answers != ["17 is now 23, replaced, replacements followed 1", "refused with 22, nothing written"])
END
}
# the example, then its lines that are noticed if they are altered
compare() {
    example=$1 printed=$work/$1.printed
    shift
    "${example}_agrees" "$printed" || wrong "what $example.c prints is not the archivists'"
    for line; do
        awk -v line="$line" -F ': ' '$1 == line { $0 = $1 ": " ($2 == "yes" ? "no" : $2 == "no" ? "yes" : (substr($2, 1, 1) == "0" ? "1" : "0") substr($2, 2)) }
            { print }' "$printed" >"$work/altered"
        ! cmp -s "$printed" "$work/altered" || wrong "$example.c prints no line '$line'"
        ! "${example}_agrees" "$work/altered" || wrong "an altered line passed as the archivists' ($example.c, $line)"
    done
}
compare page 'cbc sealed' 'ctr sealed' 'cbc tag' 'ctr tag' 'cbc genuine' 'ctr genuine' 'ctr altered genuine'
compare convert 'old row' 'inverse' 'converting row' 'word '{1,2,3}{'',' mixed',' converted'}
compare record 'key' 'tag key' 'start' 'body' 'written' 'listed' 'opened' 'altered listed' 'altered opened'
compare keys 'master key' 'key 17' 'key 23' 'register' 'found' 'unwrapped' '17 replaced again'
# the examples over functions of which one spoils what it gives or refuses: they fail then, and tell of a refusal, and else print the same
cat >"$work/spoil.c" <<'END'
#include <stdlib.h>
#include <string.h>
#include "labyrinth.h"
#define WRAP(name, made, parameters, arguments) \
    uint8_t __real_##name parameters; \
    uint8_t __wrap_##name parameters; \
    uint8_t __wrap_##name parameters \
    { \
        uint8_t returned = __real_##name arguments; \
        if (strcmp(getenv("SPOILS"), #name) == 0) (made)[0] = (uint8_t)atoi(getenv("WITH")); \
        return strcmp(getenv("REFUSES"), #name) == 0 ? 5 : returned; \
    }
#define KEY size_t l, const uint8_t *key, size_t key_len
#define FRONT size_t n, KEY, const uint8_t *start, size_t start_len
#define BACK const uint8_t *src, size_t src_len, uint8_t *dst, size_t dst_len
#define MESSAGE KEY, const uint8_t *msg, size_t msg_len
#define KEYS const uint8_t *store, size_t store_len, const uint8_t *sealing, size_t sealing_len, const uint8_t *tagging, size_t tagging_len
#define BY store, store_len, sealing, sealing_len, tagging, tagging_len
WRAP(labyrinth_cbc_seal, dst, (FRONT, BACK), (n, l, key, key_len, start, start_len, src, src_len, dst, dst_len))
WRAP(labyrinth_cbc_open, dst, (FRONT, BACK), (n, l, key, key_len, start, start_len, src, src_len, dst, dst_len))
WRAP(labyrinth_ctr, dst, (FRONT, uint64_t q, BACK), (n, l, key, key_len, start, start_len, q, src, src_len, dst, dst_len))
WRAP(labyrinth_cmac, tag, (MESSAGE, uint8_t *tag, size_t tag_len), (l, key, key_len, msg, msg_len, tag, tag_len))
WRAP(labyrinth_cmac_verify, yes, (MESSAGE, const uint8_t *tag, size_t tag_len, uint8_t *yes), (l, key, key_len, msg, msg_len, tag, tag_len, yes))
WRAP(labyrinth_mix_row, out, (const uint8_t *row, size_t row_len, uint64_t word, uint64_t *out), (row, row_len, word, out))
WRAP(labyrinth_row_product, dst, (const uint8_t *g, size_t g_len, const uint8_t *h, size_t h_len, uint8_t *dst, size_t dst_len),
     (g, g_len, h, h_len, dst, dst_len))
WRAP(labyrinth_row_inverse, dst, (const uint8_t *row, size_t row_len, uint8_t *dst, size_t dst_len), (row, row_len, dst, dst_len))
WRAP(labyrinth_page_write, dst + 61, (KEYS, uint32_t number, uint32_t day, const uint8_t *title, size_t title_len, const uint8_t *start, size_t start_len, const uint8_t *body,
     size_t body_len, uint8_t *dst, size_t dst_len), (BY, number, day, title, title_len, start, start_len, body, body_len, dst, dst_len))
WRAP(labyrinth_page_catalogue, blocks, (const uint8_t *record, size_t record_len, uint32_t *number, uint32_t *day, uint64_t *blocks, uint64_t *title_at),
     (record, record_len, number, day, blocks, title_at))
WRAP(labyrinth_page_open, dst, (KEYS, const uint8_t *record, size_t record_len, uint8_t *dst, size_t dst_len), (BY, record, record_len, dst, dst_len))
WRAP(labyrinth_register_add, reg, (uint8_t *reg, size_t reg_len, uint16_t number, uint16_t replaces, const uint8_t *wrapped, size_t wrapped_len),
     (reg, reg_len, number, replaces, wrapped, wrapped_len))
WRAP(labyrinth_register_find, entry, (const uint8_t *reg, size_t reg_len, uint16_t number, uint8_t *entry, size_t entry_len, uint8_t *rule, uint64_t *followed),
     (reg, reg_len, number, entry, entry_len, rule, followed))
uint64_t __real_labyrinth_mix(uint64_t word);
uint64_t __wrap_labyrinth_mix(uint64_t word);
uint64_t __wrap_labyrinth_mix(uint64_t word)
{
    return strcmp(getenv("SPOILS"), "labyrinth_mix") == 0 ? (uint64_t)atoi(getenv("WITH")) : __real_labyrinth_mix(word);
}
END
page_uses="labyrinth_cbc_seal labyrinth_cbc_open labyrinth_ctr labyrinth_cmac labyrinth_cmac_verify"
convert_uses="labyrinth_mix labyrinth_mix_row labyrinth_row_product labyrinth_row_inverse"
record_uses="labyrinth_page_write labyrinth_page_catalogue labyrinth_page_open"
keys_uses="labyrinth_register_add labyrinth_register_find"
for example in page convert record keys; do
    gcc -std=c99 $warnings -I target/dist $(printf ' -Wl,--wrap=%s' $page_uses $convert_uses $record_uses $keys_uses) "examples/$example.c" "$work/spoil.c" "$archive" -o "$work/spoilt" ||
        wrong "$example.c over spoilt functions"
    SPOILS='' REFUSES='' "$work/spoilt" | cmp - "$work/$example.printed" || wrong "$example.c prints something else over functions that spoil nothing"
    uses=${example}_uses
    for name in ${!uses}; do
        for with in 0 1; do # for cmac_verify: always a no, always a yes
            SPOILS=$name WITH=$with REFUSES='' "$work/spoilt" >/dev/null 2>&1
            [ $? -eq 1 ] || wrong "$example.c passed over a $name spoilt with $with"
        done
        [ "$name" != labyrinth_mix ] || continue # which refuses nothing
        SPOILS='' REFUSES=$name "$work/spoilt" >/dev/null 2>"$work/told"
        [ $? -eq 1 ] || wrong "$example.c passed over a refusing $name"
        grep -qx "${name#labyrinth_}: refused with 5" "$work/told" || wrong "$example.c tells no refusal of $name"
    done
done

# ---- numbers, NULL, runs, tags, rows and verdicts, stores and working keys, page records, registers, stack, lent memory
gcc -std=gnu11 -O2 $warnings -Wl,-z,now -I target/dist tests/c_interface/*.c "$archive" -o "$work/c_interface" || { echo "c_interface: not compiled"; exit 1; }
"$work/c_interface" "$@" || wrong "tests/c_interface failed"
[ $status -eq 0 ] || echo "c_interface: FAILED"
exit $status
