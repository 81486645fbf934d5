#!/usr/bin/env bash
# The gate: the must-fail edits' texts and names, rt ci once, then every other check, on what it built and on the library for C. The last line is rt ci's own,
# printed again only if all passed.
# With WITHOUT_RUST=1 the Rust crate and the command are not tried, and a line says so; without it cargo and rustc must be here.
set -u
cd "$(dirname "$0")/.." || exit 1
rust="cargo rustc"
[ "${WITHOUT_RUST:-}" != 1 ] || rust=
for tool in rt python3 sha256sum cmp awk sort gcc g++ make ar nm readelf; do
    command -v "$tool" >/dev/null || { echo "gate: $tool is not here"; exit 1; }
done
for tool in $rust; do
    "$tool" --version >/dev/null 2>&1 || { echo "gate: $tool is not here, or does not run; WITHOUT_RUST=1 leaves the Rust crate and the command untried"; exit 1; }
done
work=$(mktemp -d) || exit 1
trap 'rm -rf "$work"' EXIT
failures=0
fail() { echo "gate: FAILED: $*"; failures=$((failures + 1)); }

# ---- must-fail edits: each can be applied and is named in docs/CONTRACTS.md, and each name there is an edit. Told before the long part
tests/edit_names.py || { echo "gate: FAILED: the edits and their names"; exit 1; }

# ---- rt ci: layout, proofs, must-fail edits, programs. It passes with edits that are bad, which show nothing; the gate doesn't. Each line is kept with its second too
echo "$EPOCHSECONDS rt ci begins" >"$work/stamped"
rt ci 2>&1 | while IFS= read -r line; do
    printf '%s\n' "$line"
    printf '%s %s\n' "$EPOCHSECONDS" "$line" >&3
done 3>>"$work/stamped"
[ "${PIPESTATUS[0]}" -eq 0 ] || fail "rt ci"
sed '1d; s/^[0-9]* //' "$work/stamped" >"$work/ci"
last=$(tail -n 1 "$work/ci")
[[ $last =~ ^[0-9]+\ passed,\ 0\ failed$ ]] || fail "rt ci's last line: $last"
ok=$(grep '^rt: ok' "$work/ci" | tail -n 1)
[ -n "$ok" ] || fail "rt ci has no line 'rt: ok'"
[[ ! $ok =~ ,\ [0-9]+\ bad ]] || fail "bad must-fail edits: $ok"

# ---- every other check. They run two at a time, each with a log of its own, and the judge of rows, which is timed, alone. Then the logs are printed
check() { # NAME COMMAND..: runs it; its log, its status and how long it took are kept
    local name=$1 began=$EPOCHSECONDS
    shift
    "$@" >"$work/$name.log" 2>&1
    echo $? >"$work/$name.status"
    echo "$name $((EPOCHSECONDS - began)) s" >>"$work/took"
}
tell() { # NAME WHAT: prints the log, and counts a failure
    cat "$work/$1.log"
    [ "$(cat "$work/$1.status")" = 0 ] || fail "$2"
}
library() { make -s lib >"$work/lib" 2>&1 || { tail -n 20 "$work/lib"; return 1; }; }
archivists() { cd tests/archivists && sha256sum --quiet --strict -c SHA256SUMS; }

check library library &
check must_fail tests/must_fail.py "$work/ci"
check documents tests/documents.py
(check archivists archivists)
check compare tests/compare.sh
check worked tests/worked.py
check tapes tests/tapes.py
wait
check axioms tests/axioms.py "$work/ci" "$work/lib"
check judge tests/judge.py
{
    if [ -n "$rust" ]; then check rust tests/rust.sh; fi
    check compare_c tests/compare_c.py --short
    check pages tests/pages.py
    check paper tests/paper.py
    check opener tests/opener_test.py
} &
check c_interface tests/c_interface.sh
check stores tests/stores.py
check registers tests/registers.py
wait

# ---- must-fail edits: each was refused because a fact no longer holds
tell must_fail "must-fail edits"

# ---- library crates assume nothing
tell axioms "assumptions"

# ---- the documents name what is in the tree, and the tree's definitions and operations are in them
tell documents "the documents"

# ---- the archivists' program is as it was brought
tell archivists "tests/archivists was altered"

# ---- the expected outputs are the archivists'
tell compare "the comparison with the archivists"

# ---- the worked values of key wrapping, by the archivists' program
tell worked "the worked values of key wrapping"

# ---- the judge of rows, by determinants and by counting
tell judge "the judge of rows"

# ---- the tape program and the tools for people, on tapes made from the archivists' vectors and document 01
tell tapes "the tapes"

# ---- the library as C, Rust and people see it
tell library "make lib"
tell c_interface "the C interface"
tell compare_c "the comparison through the C interface"
tell stores "the store and keys that name a set"
tell pages "page records"
tell registers "the key register"
if [ -n "$rust" ]; then
    tell rust "the Rust crate and the command"
else
    echo "gate: WITHOUT_RUST=1: the Rust crate and the command were not tried"
fi

# ---- the paper for the successor
tell paper "the paper for the successor"
tell opener "the opener and the verifier written from the paper"

# ---- where the time behind rt ci went, and rt ci's minutes
echo "gate: the checks behind rt ci, two at a time: $(paste -s -d , "$work/took" | sed 's/,/, /g')"
tests/dearest.py "$work/stamped" || fail "the dearest checks and edits"

[ "$failures" -eq 0 ] || { echo "gate: $failures checks failed"; exit 1; }
echo "$last"
