#!/usr/bin/env bash
# Runs the comparison program and the judge that rt ci built, kind by kind of their cases, on input made anew here, and holds what they
# print to what the archivists' program and vectors say, made anew too; and shows of each kind that an altered digit of what is expected and
# an altered bit of its last case are noticed. (rt ci itself runs the programs on crates/NAME/stdin, all kinds together, and holds them to
# crates/NAME/stdout, which must be the same files.)
set -u
cd "$(dirname "$0")/.." || exit 1
work=$(mktemp -d) || exit 1
trap 'rm -rf "$work"' EXIT
status=0
declare -A programs
wrong() { echo "compare: $*"; status=1; }
mkdir "$work/expected" && tests/expected.py --all "$work/expected" || exit 1
while read -r name place cases kind; do
    files=$work/expected/$name.$place
    "crates/$name/out/$name" <"$files.stdin" >"$work/printed" || wrong "$name, $kind: it did not run"
    cmp "$files.stdout" "$work/printed" || wrong "$name, $kind: it prints something else than the archivists' program says"
    [ "$(wc -l <"$work/printed")" -eq "$cases" ] || wrong "$name, $kind: not $cases lines"
    # an altered vector fails: the last digit of the last line, and a bit of the last case
    awk '{ if (NR > 1) print line; line = $0 } END { d = substr(line, length(line)); print substr(line, 1, length(line) - 1) (d == "0" ? "1" : "0") }' \
        "$files.stdout" >"$work/altered"
    [ "$(wc -l <"$work/altered")" -eq "$cases" ] || wrong "$name, $kind: the altered copy has another length"
    ! cmp -s "$work/altered" "$work/printed" || wrong "$name, $kind: an altered digit passed"
    "crates/$name/out/$name" <"$files.altered" >"$work/printed" 2>/dev/null || wrong "$name, $kind: it did not run on the altered case"
    ! cmp -s "$files.stdout" "$work/printed" || wrong "$name, $kind: an altered case passed"
    echo "compare: $name, $kind: $cases cases"
    programs[$name]=1
done < <(tests/expected.py --list)
[ "${!programs[*]}" ] || wrong "no programs"
for name in "${!programs[@]}"; do
    for part in stdin stdout; do
        cmp "$work/expected/$name.$part" "crates/$name/$part" || wrong "crates/$name/$part is not what the archivists' program and vectors say"
    done
done
exit $status
