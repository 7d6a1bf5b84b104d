#!/usr/bin/env python3
"""Holds the answer numbers to each other wherever they are written: Python (tests/answers.py), the C header and the crate `numbers`, its code
and its definitions.  Prints one line, and exits 1 if a file is missing or a name or number is not the same in all."""

import os
import re
import sys

from answers import BY_NAME

ROOT = os.path.dirname(os.path.dirname(os.path.abspath(__file__)))


def c_name(name):
    """WELLACORN_LOW_RANK: LOW_RANK."""
    return name[len("WELLACORN_"):]


def definition_name(name):
    """lowRank: LOW_RANK."""
    return re.sub(r"[A-Z]", lambda capital: "_" + capital.group(), name).upper()


# Of each file the pattern of a name and its number, and that name as Python has it.  In the header the answers are an enum of their own.
PLACES = (
    ("host/wellacorn.h", r"^\s*(WELLACORN_\w+) = (\d+)\b", c_name),
    ("crates/numbers/src/lib.rt", r"^pub const (\w+): u8 = (\d+);", str),
    ("crates/numbers/specs/Numbers.antt", r"^abbrev pub (\w+) : ℕ\n\1 = (\d+)$", definition_name),
)


def text_of(path):
    with open(os.path.join(ROOT, path), encoding="utf-8") as file:
        text = file.read()
    return answers_enum(text) if path.endswith(".h") else text


def answers_enum(header):
    """The enum that has SERVED in it."""
    enums = re.findall(r"^enum \{\n(.*?)^\};", header, re.M | re.S)
    return "".join(enum for enum in enums if "WELLACORN_SERVED" in enum)


def complaints(path, pattern, python_name):
    """What the file has otherwise than Python."""
    try:
        text = text_of(path)
    except OSError as error:
        return [f"{path}: {error.strerror}"]
    written = re.findall(pattern, text, re.M)
    found = {python_name(name): int(number) for name, number in written}
    names = [name for name in {**BY_NAME, **found} if found.get(name) != BY_NAME.get(name)]
    said = [f"{path}: {name} is {found.get(name, 'missing')}, in Python {BY_NAME.get(name, 'missing')}" for name in names]
    return said + ([f"{path}: a name stands twice"] if len(found) < len(written) else [])


def main():
    if len(set(BY_NAME.values())) < len(BY_NAME):
        sys.exit("numbers: tests/answers.py: two names for one number")
    said = [complaint for place in PLACES for complaint in complaints(*place)]
    if said:
        sys.exit("numbers: " + "; ".join(said))
    print(f"numbers: {len(BY_NAME)} answer numbers, the same in tests/answers.py, {', '.join(path for path, _, _ in PLACES)}")


if __name__ == "__main__":
    main()
