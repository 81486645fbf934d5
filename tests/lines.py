"""Asks tests/labyrinth_lines.c, over the library, many requests at once, for tests/stores.py, tests/pages.py and tests/registers.py. A request is an operation and
what the call is lent, bytes and numbers, or a tuple of these for one call of many; its line and the answer's are those of docs/COMPARE.md. Needs target/dist (make
lib) and gcc."""
import os
import subprocess
import tempfile

HERE = os.path.dirname(os.path.abspath(__file__))
DIST = os.path.join(os.path.dirname(HERE), "target", "dist")
LIMIT = 300  # seconds for the program


class Wrong(Exception):
    pass


def text(field):
    return (field.hex() or "-") if isinstance(field, bytes) else ",".join(map(text, field)) if isinstance(field, tuple) else str(field)


def line(request):
    return " ".join(map(text, request)) + "\n"


def program(place):
    library, path = os.path.join(DIST, "liblabyrinth.a"), os.path.join(place, "labyrinth_lines")
    if not os.path.exists(library):
        raise Wrong("no target/dist/liblabyrinth.a: make lib")
    words = ["gcc", "-std=c11", "-O2", "-Wall", "-Wextra", "-Werror", "-I", DIST, "-o", path, os.path.join(HERE, "labyrinth_lines.c"), library]
    if subprocess.run(words).returncode:
        raise Wrong("labyrinth_lines.c was not built")
    return path


def asked(path, requests):
    """The program's answers."""
    with tempfile.TemporaryFile("w+") as given, tempfile.TemporaryFile("w+") as made:
        given.writelines(map(line, requests))
        given.seek(0)
        status = subprocess.run([path], stdin=given, stdout=made, timeout=LIMIT).returncode
        made.seek(0)
        answers = made.read().split("\n")
    if answers.pop() != "" or status != 0 or len(answers) != len(requests):
        raise Wrong(f"status {status}, {len(answers)} answers to {len(requests)} requests")
    return answers


def differences(answers, wanted):
    return [at for at in range(len(wanted)) if answers[at] != wanted[at]]


def altered_vectors(kinds, wanted):
    """Expected answers altered, two of each kind: the last answer's number, and the last digit of the one before. Their places, and the whole."""
    places, whole = [], list(wanted)
    for kind in set(kinds):
        *_, before, last = (at for at, one in enumerate(kinds) if one == kind)
        number, _, rest = whole[last].partition(" ")
        whole[last] = f"{int(number) + 1} {rest}"
        whole[before] = whole[before][:-1] + ("1" if whole[before][-1] == "0" else "0")
        places += [before, last]
    return sorted(places), whole
