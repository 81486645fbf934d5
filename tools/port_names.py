#!/usr/bin/env python3
"""Brings the repository's own definitions and lemmas to the spelling of today's Rattle: snake case, types and modules in camel case.

usage: tools/port_names.py            in the repository, once, right after port.py: rewrites crates/ in place and says what it renamed
       tools/port_names.py --map      prints old and new, a line each, of a tree that is not yet renamed

A name that begins with a small letter loses its humps (xorBytes: xor_bytes), and a dash in a name is an underscore (by-none: by_none). What the library renamed
is renamed in our names too (getD: get_or). The article's own names (E, U, LCM, IMix, ..) keep their letters. Functions of src/ and what C sees keep their names.
"""

import collections
import os
import re
import sys

TOKEN = re.compile(r"[^\s(){}\[\];,.`\"λ⟦⟧]+")
DECLARED = re.compile(r"^(\s*)((?:(?:unfoldable|abbrev|opaque|pattern|pub|open)\s+)*)(record\s+|data\s+|ruleset\s+)?([^\s(){}\[\];,.`\"λ]+)\s*(?:\{[^}]*\}\s*|\([^)]*\)\s*)*:(?!:)\s")
RULESET = re.compile(r"^\s*(?:pub\s+)?ruleset\s+(\S+)")
# parts of names that follow the library's own renaming
RENAMED = {"getD": "get_or", "bitXor": "bit_xor"}


def files(root="crates"):
    for folder, dirs, names in os.walk(root):
        dirs[:] = sorted(d for d in dirs if d != "out")
        for name in sorted(names):
            if name.endswith((".antt", ".rt", ".edit")):
                yield os.path.join(folder, name)


def lemma_file(path):
    """specs/*.antt and proofs/*.antt: files of definitions and lemmas, and no function's own proof."""
    parts = path.split(os.sep)
    return path.endswith(".antt") and (parts[2] == "specs" or (parts[2] == "proofs" and len(parts) == 4))


def declared():
    """The names that files of definitions and lemmas declare, and where."""
    names = collections.defaultdict(set)
    for path in files():
        if not lemma_file(path):
            continue
        with open(path, encoding="utf-8") as f:
            for line in f:
                line = line.split("-- ")[0]
                m = DECLARED.match(line)
                name = m.group(4) if m else None
                r = RULESET.match(line)
                if r:
                    name = r.group(1)
                if name:
                    names[name].add(path)
    return names


def borrowed():
    """Names that some file takes from the library: they keep the library's spelling, and so do our own of the same spelling."""
    own = {folder for folder in os.listdir("crates")}
    out = set()
    for path in files():
        with open(path, encoding="utf-8") as f:
            for module, names in re.findall(r"^(?:ghost )?(?:pub )?use ([^\s{]+)\.\{([^}]*)\}", f.read(), re.M):
                parts = module.split(".")
                if not (parts[0] == "Rattle" and parts[1] in own):
                    out |= {name.strip().split(" as ")[0] for name in names.split(",")}
    return out


def snake(part):
    """One part of a name between dashes."""
    if part in RENAMED:
        return RENAMED[part]
    if not part or not (part[0].islower() and re.search(r"[A-Z]", part)):
        return part
    out = re.sub(r"(?<=[a-z0-9])([A-Z])", lambda m: "_" + m.group(1), part)
    return out.lower()


def respelled(name):
    return "_".join(snake(part) for part in name.split("-")) if "-" in name or name[0].islower() else name


def table():
    names = declared()
    taken = borrowed()
    out = {}
    for name in sorted(names):
        if name.startswith("+") or name in taken:
            continue
        new = respelled(name)
        if new != name:
            out[name] = new
    together = collections.defaultdict(set)
    for name in names:
        together[out.get(name, name)].add(name)
    for new, olds in together.items():
        if len(olds) > 1:
            # a definition keeps the name, a lemma that would have it gets _lem
            keeps = sorted(olds, key=lambda name: ("-" in name, name == new, name))[0]
            for old in olds - {keeps}:
                out[old] = new + "_lem"
    return out, names


def comment_of(line, path):
    mark = "-- " if path.endswith(".antt") else "// "
    at = line.find(mark)
    return (line, "") if at < 0 else (line[:at], line[at:])


def turned(text, path, renames):
    def code(m):
        return renames.get(m.group(0), m.group(0))

    def prose(m):
        word = m.group(0)
        tail = re.search(r"[:'?!]*$", word).group(0)
        bare = word[: len(word) - len(tail)] if tail else word
        return renames[bare] + tail if bare in renames and "-" not in bare else word

    lines = []
    for line in text.split("\n"):
        before, after = comment_of(line, path)
        lines.append(TOKEN.sub(code, before) + TOKEN.sub(prose, after))
    return "\n".join(lines)


def main(argv):
    renames, names = table()
    if argv == ["--map"]:
        for old, new in renames.items():
            print(old, new)
        return 0
    if argv:
        print(__doc__)
        return 2
    together = collections.defaultdict(set)
    for name in names:
        together[renames.get(name, name)].add(name)
    for new, olds in sorted(together.items()):
        if len(olds) > 1:
            print("fall together:", new, "of", " ".join(sorted(olds)))
    # a name of src/ may be spelled as a lemma of ours is: there only names go that no Rust name has
    source = {old: new for old, new in renames.items() if "-" in old or old != old.lower()}
    changed = 0
    for path in files():
        with open(path, encoding="utf-8") as f:
            text = f.read()
        new = turned(text, path, renames if path.endswith(".antt") else source)
        if new != text:
            changed += 1
            with open(path, "w", encoding="utf-8") as f:
                f.write(new)
    print(f"{len(renames)} names, {changed} files")
    return 0


if __name__ == "__main__":
    raise SystemExit(main(sys.argv[1:]))
