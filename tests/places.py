#!/usr/bin/env python3
"""Holds docs/TRACE.md to the places of 01, and of what has landed of 02: each place stands there, in order, in one row or in rows that
follow one another and are marked a, b, and so on. How places are counted is said at TRACE's head. Of 01 only the number of sentences is
here. A comment in the sources or a paper that names a place names one that there is, and a line of crates.txt that TRACE quotes is one.
Prints what is wrong and exits 1, or one line with the counts. Where nothing is wrong it tries itself as well: on TRACE with a row taken
out, doubled, swapped or put elsewhere, and on comments that name no place."""
import glob
import itertools
import os
import re
import sys

os.chdir(os.path.join(os.path.dirname(os.path.abspath(__file__)), ".."))


def counted(section, sentences):
    return ["%s, %d" % (section, n) for n in range(1, sentences + 1)]


MESSAGES = [(5, 6), (1, 2), (7, 2), (10, 5), (21, 5), (23, 7), (26, 3)]  # a type, and the sentences of its item
OF_01 = (
    counted("Opening", 3) + counted("What the box holds", 10) + counted("Events", 8) + counted("Frame", 15)
    + ["Answer numbers, line %d" % n for n in range(14)] + ["Answer numbers, Taken", "Answer numbers, Left"] + counted("Answer numbers", 8)
    + counted("Messages", 2) + [p for kind, n in MESSAGES for p in counted("Messages, %d" % kind, n)] + ["Messages, IDs"]
    + counted("Edges", 11) + counted("Console", 6) + counted("Mistakes", 5) + counted("Forms", 16) + counted("Register", 5))
LANDED = [("M-100", 7), ("M-101", 4), ("M-102", 12), ("M-103", 3), ("M-104", 2), ("M-105", 4)]  # a request that has its page in docs/changes, and the sentences of its paragraph
OF_02 = counted("Requests", 3) + [p for request, n in LANDED for p in counted(request, n)]
SECTIONS = {p.split(", ")[0] for p in OF_01 + OF_02}
ITEMS = ["Messages, %d" % kind for kind, _ in MESSAGES]  # a comment may name a whole one


def read(path):
    with open(path, encoding="utf-8") as f:
        return f.read()


def rows_of(trace):
    """The first cell of each row, up to its colon, of the tables whose first column is the place."""
    found, of_places = [], False
    for line in trace.split("\n"):
        if not line.startswith("|"):
            of_places = False
        elif line.startswith("| place |"):
            of_places = True
        elif of_places and not line.startswith("|---"):
            found.append(line[2:].split(":")[0])
    return found


def complaints(trace):
    """What is wrong with TRACE's rows."""
    rows = [re.fullmatch(r"(.*?)((?<=\d)[a-z])?", row).groups("") for row in rows_of(trace)]
    told, wrong = [], []
    for place, group in itertools.groupby(rows, lambda row: row[0]):
        letters = [letter for _, letter in group]
        told.append(place)
        if letters != [""] and (len(letters) == 1 or letters != list("abcdefgh"[:len(letters)])):
            wrong.append("the rows of %s are marked %s" % (place, letters))
    wrong += ["no place %s" % place for place in told if place not in OF_01 + OF_02]
    wrong += ["%s stands %d times" % (p, told.count(p)) for p in OF_01 + OF_02 if told.count(p) != 1]
    if not wrong and told != OF_01 + OF_02:
        wrong.append("the places are not in their order")
    return wrong


def misnamed(text):
    """The places that a text names and that there are not: 01 or 02, a section, and numbers, of which several may be listed."""
    text = re.sub(r"\s*\n\s*(?:--|//)?\s*", " ", text)
    wrong = []
    for paper, section, numbers in re.findall(r"\b(0[12]), ([A-Z][\w-]*(?: [a-z]+)*)((?:(?:, | and | to )(?:lines? )?\d+|, IDs)*)", text):
        places = OF_01 + ITEMS if paper == "01" else OF_02
        listed = re.findall(r"lines?|\d+|IDs", numbers)
        name = section
        if listed[:1] in (["line"], ["lines"]):
            name += ", line"
            listed = listed[1:]
        elif section == "Messages" and re.match(r", \d+, \d", numbers):
            name += ", " + listed[0]
            listed = listed[1:]
        for n in listed:
            if (name + " " if name.endswith("line") else name + ", ") + n not in places:
                wrong.append("no place %s, %s%s" % (paper, section, numbers))
        if not listed and not any(section == known or section.startswith(known + " ") for known in SECTIONS):
            wrong.append("no section %s, %s" % (paper, section))
    return wrong


def try_itself(trace):
    lines = trace.split("\n")
    at = [n for n, l in enumerate(lines) if l.startswith("| Events, 5:")][0]
    half = [n for n, l in enumerate(lines) if l.startswith("| Events, 1b:")][0]
    tries = {
        "a row taken out": lines[:at] + lines[at + 1:],
        "a row doubled": lines[:at] + lines[at:at + 1] + lines[at:],
        "two rows swapped": lines[:at] + [lines[at + 1], lines[at]] + lines[at + 2:],
        "a row put elsewhere": lines[:at] + lines[at + 1:] + ["", "| place |", "|---|", lines[at]],
        "a row of a place taken out": lines[:half] + lines[half + 1:],
        "a row that names no place": lines[:at] + ["| Events, 9: more |"] + lines[at:],
        "rows of a place apart": lines[:half] + lines[half + 1:at] + [lines[half]] + lines[at:],
    }
    blind = [what for what, page in tries.items() if not complaints("\n".join(page))]
    for text, right in (("-- 01, Events, 9: x", False), ("-- 01, Answer numbers, line 14: x", False), ("-- 01, Messages offered, 7: x", False),
                        ("-- 01, Both sides, 1", False), ("-- 01, Messages, 5, 7", False), ("-- 02, M-100, 8", False),
                        ("-- 02, M-101, 5", False), ("-- 02, M-199, 1", False),
                        ("-- 01, Messages, 23, 4 and 5, and Events, 8", True), ("-- 01, Frame, 1, 6, 13 and 14.", True),
                        ("-- so 01, Answer\n-- numbers, lines 6 and 7", True), ("-- 01, What the box holds, 7 and 9: y", True)):
        if bool(misnamed(text)) == right:
            blind.append("the comment %r" % text)
    return blind


def main():
    trace = read("docs/TRACE.md")
    wrong = ["TRACE: " + c for c in complaints(trace)]
    wrong += ["TRACE: crates.txt has no line %s" % l for l in re.findall(r"crates\.txt: `([^`]+)`", trace) if l not in read("crates.txt").split("\n")]
    pages = {os.path.basename(p)[:-3] for p in glob.glob("docs/changes/M-*.md")}
    wrong += ["%s has landed, and its sentences are not counted here" % request for request in sorted(pages - dict(LANDED).keys())]
    named = 0
    for path in sorted(glob.glob("crates/*/specs/*.antt") + glob.glob("crates/*/src/*.rt") + glob.glob("docs/*.md") + glob.glob("docs/changes/*.md")):
        text = read(path)
        named += len(re.findall(r"\b0[12], [A-Z]", text))
        wrong += ["%s: %s" % (path, c) for c in misnamed(text)]
    wrong = wrong or ["this check does not see " + what for what in try_itself(trace)]
    for line in wrong:
        print("places:", line)
    if wrong:
        sys.exit(1)
    print("places: %d of 01 and %d of 02 stand in TRACE.md, in order, in %d rows; %d namings in comments and papers"
          % (len(OF_01), len(OF_02), len(rows_of(trace)), named))


main()
