#!/usr/bin/env python3
"""Holds the documents to the tree:

    - every path in backquotes in README.md and docs/*.md is there (in target/ and crates/*/out/, where things are made, nothing is looked for);
    - every name in backquotes in docs/READING.md and docs/CONTRACTS.md is defined in the tree; of an expression every name is in its code;
    - every definition of crates/*/specs that the contract of a public function of a library names, and every one that these are made of,
      stands in backquotes in docs/READING.md, as Module.name where two modules have one of that name; and every statement of the promise;
    - every public function of a library has an `ensures` and no `requires`; those of bench_blocks state no result.

tests/edit_names.py holds the rows of docs/CONTRACTS.md to the public functions, and the edits named there to those of the tree.

    tests/documents.py [ROOT]              of the tree at ROOT, else of this one
    tests/documents.py --reached [ROOT]    lists the definitions that the third check asks for
"""
import glob
import os
import re
import sys

WORD = r"[^\W\d][\w⁻¹₀'-]*[\w⁻¹₀']|[^\W\d]"
PATH = r"(?:\w[\w.*+-]*/)+[\w.*-]*|\w[\w.-]*\.(?:md|py|sh|txt|antt|rt|rs|h|c|json|toml)"
DEFINED = {".antt": rf"^ *(?:(?:unfoldable|abbrev|pub|record|data) )*({WORD})(?= :| \([^()]* : )", ".rt": r"(?:\b(?:fn|struct|const) |^ +pub )(\w+)"}


def read(path):
    """A file; of code what is no comment."""
    text = open(path, encoding="utf-8").read()
    return re.sub(r"(^|\s)(?:--|//).*", r"\1", text) if path.endswith((".antt", ".rt")) else text


def made(path):
    """Whether a path is where things are made."""
    return re.match(r"target/|crates/\w+/out/", path)


def spans(path):
    """What stands in backquotes in a document: paths, and all else."""
    found = set(re.findall(r"`([^`\n]+)`", read(path)))
    paths = {span for span in found if re.fullmatch(PATH, span.split()[0])}
    return {span.split()[0] for span in paths}, found - paths


def imported(text):
    """Of each name from a module of specs what it is: (crate, module, name); of a module under another name, that with a dot, (crate, module)."""
    found = {}
    for crate, module, listed, alias in re.findall(r"use Rattle\.(\w+)\.specs\.(\w+)(?:\.\{([^}]*)\}| as ([\w-]+))", text):
        found[alias + "."] = (crate, module)
        for name in re.split(r",\s*", listed.strip(" ,\n")):
            given, _, local = name.partition(" as ")
            found[local or given] = (crate, module, given)
    return found


def definitions():
    """The text of each (crate, module, name), and for each (crate, module) what the names in it are."""
    texts, uses = {}, {}
    for path in glob.glob("crates/*/specs/*.antt"):
        place, text = (path.split("/")[1], os.path.basename(path)[:-5]), read(path)
        parts = re.split(rf"^(?:(?:unfoldable|abbrev) )?pub (?:(?:record|data) )?(?!mod )({WORD})", text, flags=re.M)
        uses[place] = imported(text) | {name: (*place, name) for name in parts[1::2]}
        texts |= {(*place, name): body for name, body in zip(parts[1::2], parts[2::2])}
    return texts, uses


def functions():
    """Of each public function of a library: its crate and name, its contract, and what the names in that are."""
    for path in sorted(glob.glob("crates/*/src/*.rt")):
        crate, text = path.split("/")[1], read(path)
        if os.path.exists(f"crates/{crate}/src/lib.rt"):
            for name, contract in re.findall(r'^pub (?:extern "C" )?fn (\w+)(.*?)\{$', text, re.M | re.S):
                yield crate, name, contract, imported(text)


def named(text, use, texts):
    """The definitions that a text names."""
    for whole in re.findall(rf"(?:{WORD})(?:\.(?:{WORD}))?", text):
        head, _, name = whole.partition(".")
        yield from {use.get(head), use.get(name), (*use.get(head + ".", ()), name)} & texts.keys()


def reached(texts, uses):
    left, done = {one for _, _, contract, use in functions() for one in named(contract, use, texts)}, set()
    while left:
        one = left.pop()
        done.add(one)
        left |= set(named(texts[one], uses[one[:2]], texts)) - done
    return sorted(done)


def paths_wrong():
    kept = {os.path.basename(path) for path in glob.glob("**", recursive=True) if not made(path)}
    # but for docs/PORT.md, which speaks of what is gone
    for document in ["README.md", *sorted({*glob.glob("docs/*.md")} - {"docs/PORT.md"})]:
        for path in sorted(spans(document)[0] - kept):
            places = [front + path.replace("/NAME/", "/*/") for front in ("", "crates/", "crates/*/")]
            places.append("crates/" + path.replace("/", "/must-fail/", 1) + ".edit")
            if not made(path) and not any(glob.glob(place) for place in places):
                yield f"{document}: {path} is not there"


def names_wrong(document, texts, public):
    code = [(path, read(path)) for path in glob.glob("crates/**", recursive=True) if path.endswith((".antt", ".rt")) and not made(path)]
    defined = {os.path.basename(path).split(".")[0] for path, _ in code} | {*os.listdir("crates"), "requires", "ensures"}
    own = "|".join(os.listdir("crates"))
    for path, text in code:
        defined |= set(re.findall(DEFINED[os.path.splitext(path)[1]], text, re.M))
        defined |= {name for listed in re.findall(rf"use (?!Rattle\.(?:{own})\.)[\w.]+\.\{{([^}}]*)\}}", text) for name in re.split(r",\s*", listed)}
    defined |= {os.path.basename(path)[: -len(".edit")] for path in glob.glob("crates/*/must-fail/*.edit")}
    words = defined | {word for _, text in code for word in re.findall(WORD, text)}
    for span in sorted(spans(document)[1]):
        head = re.sub(r"\(.*\)$", "", span)
        crate, module, name = head.rpartition("::")[0], head.rpartition(".")[0], re.split(r"::|\.", head)[-1]
        unknown = [word for word in re.findall(WORD, head) if len(word) > 1 and word not in words]
        if unknown or re.fullmatch(WORD, head) and head not in defined or crate and (crate, name) not in public:
            yield f"{document}: in `{span}`: {' '.join(unknown) or head} is not in the tree"
        elif re.fullmatch(WORD, module) and module[0].isupper() and (module, name) not in {one[1:] for one in texts}:
            yield f"{document}: {name} is not defined in a module {module} of specs"


def definitions_wrong(asked):
    shown = {word for span in spans("docs/READING.md")[1] for word in [span, *re.findall(WORD, span)]}
    for crate, module, name in asked:
        wanted = name if [one[2] for one in asked].count(name) == 1 else f"{module}.{name}"
        if wanted not in shown:
            yield f"docs/READING.md: no `{wanted}`, of crates/{crate}/specs/{module}.antt"


def functions_wrong(public):
    for (crate, name), contract in public.items():
        if "ensures" not in contract or "requires" in contract:
            yield f"crates/{crate}: the contract of {name} has no ensures, or a requires"


def main(words):
    listing = words[:1] == ["--reached"]
    os.chdir((words[listing:] or [os.path.join(os.path.dirname(os.path.abspath(__file__)), "..")])[0])
    texts, uses = definitions()
    asked, public = reached(texts, uses), {(crate, name): contract for crate, name, contract, _ in functions() if crate != "bench_blocks"}
    if listing:
        return print(*(" ".join(one) for one in asked), sep="\n")
    promised = [one for one in texts if one[0] == "promise"]
    wrong = [*paths_wrong(), *definitions_wrong(asked), *definitions_wrong(promised), *functions_wrong(public)]
    wrong += [line for document in ("docs/READING.md", "docs/CONTRACTS.md") for line in names_wrong(document, texts, public)]
    if wrong or not asked or not public:
        raise SystemExit("\n".join(f"documents: {line}" for line in wrong or ["nothing to hold them to"]))
    print(f"documents: {len(asked)} definitions that contracts reach are in them, {len(public)} public functions have a result stated, and what the documents name is in the tree")


main(sys.argv[1:])
