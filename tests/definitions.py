"""Numbers of the tests' rules looked up in the text of our definitions, for tests/pages.py and tests/registers.py, so that the two cannot part unseen; what they
mean is not compared."""
import os
import re

CRATES = os.path.join(os.path.dirname(os.path.dirname(os.path.abspath(__file__))), "crates")


def defined(text, name):
    """The lines of a definition."""
    return "".join(found + "\n" for found in re.findall(rf"^{name}\b(?! :).*(?:\n .*)*", text, re.M))


def missing(name, wanted, text):
    """Which of these do not stand in a definition, one behind another; the first, or None."""
    rest = defined(text, name)
    for one in wanted:
        before, found, rest = rest.partition(one)
        if not found:
            return one
    return None


def looked_up(texts):
    """What of the rules is not in the definitions, or not noticed if it is changed there; and how many were looked up. Given is what stands in their text, by
    file and definition; with a digit changed it must not be found."""
    wrong, count = [], 0
    for path, names in texts.items():
        with open(os.path.join(CRATES, path), encoding="utf-8") as file:
            text = file.read()
        for name, wanted in names.items():
            lost = missing(name, wanted, text)
            if lost is not None:
                wrong.append(f"crates/{path}: {name} has no {lost!r} in its place")
            for at, one in enumerate(wanted):
                count += 1
                other = [*wanted[:at], re.sub(r"\d(?=\D*$)", lambda digit: str((int(digit[0]) + 1) % 10), one), *wanted[at + 1 :]]
                if other == wanted or missing(name, other, text) is None:
                    wrong.append(f"crates/{path}: another number in the place of {one!r} of {name} is not noticed")
    return wrong, count
