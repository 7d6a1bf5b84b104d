"""The names of inputs, out of a file of lines like `input 3 Lift port aft`."""

import re
import unicodedata

from protocol import CHANNELS

LONGEST = 40                # characters


class Wrong(Exception):
    """What is wrong with the file, a line of text for each."""


def fault_of(number, name, names):
    """What is wrong with a name; "" if nothing is."""
    if number not in CHANNELS:
        return "there are inputs 1 to 8"
    if names[number - 1]:
        return f"input {number} has a name already: {names[number - 1]}"
    if len(name) > LONGEST:
        return f"the name has {len(name)} characters; {LONGEST} is the most"
    if any(unicodedata.category(character) == "Cc" for character in name):
        return "the name has a control character in it: remove it"
    return ""


def take(line, names):
    """One line: puts its name into its place; what is wrong with it, or ""."""
    try:
        words = line.decode("utf-8").strip()
    except UnicodeDecodeError:
        return "it is not UTF-8: save the file as UTF-8"
    if not words or words.startswith("#"):
        return ""
    found = re.fullmatch(r"input\s+([0-9]{1,9})\s+(\S.*)", words, re.DOTALL)
    if not found:
        return "write for example: input 3 Lift port aft"
    number, name = int(found.group(1)), found.group(2)
    fault = fault_of(number, name, names)
    if not fault:
        names[number - 1] = name
    return fault


def read(path):
    """The eight names, "" for an input that has none."""
    names = [""] * len(CHANNELS)
    try:
        with open(path, "rb") as file:
            lines = file.read().removeprefix(b"\xef\xbb\xbf").split(b"\n")
    except OSError as fault:
        raise Wrong(f"cannot read the names in {path}: {fault.strerror}") from fault
    faults = [f"{path}, line {at}: {fault}" for at, fault in enumerate((take(line, names) for line in lines), 1) if fault]
    if faults:
        raise Wrong("\n".join(faults))
    return names
