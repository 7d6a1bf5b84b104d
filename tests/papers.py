#!/usr/bin/env python3
"""Holds docs/TRACE.md and docs/CONTRACTS.md to the sources: every definition, function, theorem and edit that they name exists, in the crate
that they mean, every public function has its row, and every edit is named. And every file of specs/ and proofs/ says first what it is, and every
file of a function's proof whose it is. Prints what is wrong and exits 1, or one line with the counts.

An edit is written `label` in the section of its crate, `crate/label` elsewhere; in TRACE *label* or *crate/label*, where *label* alone has to be
an edit of one crate only, or of a crate whose definitions or functions its row names. In a section of CONTRACTS on several crates edits stand
behind "tried as" and definitions elsewhere, which is tried on wrong copies of the page first."""
import glob
import os
import re
import sys
from collections import Counter

from mutants import MUTANTS

os.chdir(os.path.join(os.path.dirname(os.path.abspath(__file__)), ".."))
wrong = []
counts = {"definitions": 0, "functions": 0, "theorems": 0, "edits": 0, "tests": 0}


def read(path):
    with open(path, encoding="utf-8") as f:
        return f.read()


def declares(path, name):
    """Whether an antt file declares a name: as a signature, a record, a data type or a constructor."""
    if not os.path.exists(path):
        return False
    word = re.escape(name)
    return bool(re.search(r"(?m)^\s*(?:abbrev |unfoldable |pub )*(?:record |data |ruleset )?%s(?= |$)" % word, read(path))
                or re.search(r"(?m)^  (?:\S+ )*%s(?: \S+)* : " % word, read(path)))


def code(crate):
    return [read(path) for path in glob.glob("crates/%s/src/**/*.rt" % crate, recursive=True)]


def conversions(crate):
    """Each `impl From<B> for A`, by the name that the prover gives it, AFromB."""
    return ["%sFrom%s" % (to, of) for text in code(crate) for of, to in re.findall(r"(?m)^impl From<(\w+)> for (\w+) \{$", text)]


def public(crate):
    return [name for text in code(crate) for name in re.findall(r"(?m)^\s*pub (?:extern \"C\" )?fn (\w+)", text)] + conversions(crate)


def has_function(crate, name):
    return name in conversions(crate) or any(re.search(r"\bfn %s\b" % name, text) for text in code(crate))


crates = sorted(os.path.basename(p) for p in glob.glob("crates/*") if os.path.isdir(p))
edits = {c: {os.path.basename(p)[:-5] for p in glob.glob("crates/%s/must-fail/*.edit" % c)} for c in crates}


def owners(label):
    return {c for c in crates if label in edits[c]}


# ---- TRACE

trace = read("docs/TRACE.md").split("\n## ", 1)[1]  # what stands above the first heading only says how to read the rest

DEFINITION = r"(?<![\w*(])([a-z]+)/([A-Z]\w*)\.(?!md\b)([\w'-]+)"      # what ends in .md is a paper
FUNCTION = r"\b([a-z]+)::(\w+)"

for crate, file, name in re.findall(DEFINITION, trace):
    counts["definitions"] += 1
    if not declares("crates/%s/specs/%s.antt" % (crate, file), name):
        wrong.append("TRACE: no definition %s/%s.%s" % (crate, file, name))
for crate, name in re.findall(FUNCTION, trace):
    counts["functions"] += 1
    if not has_function(crate, name):
        wrong.append("TRACE: no function %s::%s" % (crate, name))
for name, crate, file in re.findall(r"\*\*([\w'-]+)\*\* \(([a-z]+)/([A-Z]\w*)\)", trace):
    counts["theorems"] += 1
    if not declares("crates/%s/proofs/%s.antt" % (crate, file), name):
        wrong.append("TRACE: no theorem %s in %s/proofs/%s" % (name, crate, file))
for name in re.findall(r"\*\*([\w'-]+)\*\*(?! \([a-z]+/[A-Z])", trace):
    wrong.append("TRACE: theorem %s without its place" % name)
for number, row in enumerate(trace.split("\n")):
    named = {m[0] for m in re.findall(DEFINITION, row) + re.findall(FUNCTION, row)}
    for crate, label in re.findall(r"(?<!\*)\*(?:([a-z]+)/)?([a-z][a-z0-9_]*)\*(?!\*)", row):
        counts["edits"] += 1
        meant = owners(label)
        if crate:
            if crate not in meant:
                wrong.append("TRACE: no edit %s/%s" % (crate, label))
        elif not meant:
            wrong.append("TRACE: no edit %s" % label)
        elif len(meant) > 1 and not meant & named:
            wrong.append("TRACE: *%s* is an edit of %s, and its row names none of them: %s" % (label, ", ".join(sorted(meant)), row[:60]))

vectors = read("crates/vectors/stdout")
for line in re.findall(r"vectors: ([^;|]+)", trace):
    for words in line.split(", "):
        counts["tests"] += 1
        if words.strip() not in vectors:
            wrong.append("TRACE: vectors prints no %r" % words.strip())

# A fault that is seeded into the model, and that the traces find: the compiled library is held to the model on them.
for line in re.findall(r'traces: ((?:"[^"]+"(?:, )?)+)', trace):
    for name in re.findall(r'"([^"]+)"', line):
        counts["tests"] += 1
        if name not in MUTANTS:
            wrong.append("TRACE: no seeded fault %r" % name)

# ---- CONTRACTS

LABEL = r"`(?:([a-z]+)/)?([a-z][a-z0-9_]*|[A-Z]\w*From[A-Z]\w*)`"
TRIED_AS = r"[Tt]ried as `[\w/]+`(?:, `[\w/]+`)*"


def tried_in(crate, text):
    """The edits that stand where only edits may: the cells "tried as" of a section's tables, and its sentences that begin "Also tried" or
    "Tried", behind their first colon."""
    found = []
    for row in re.findall(r"(?m)^\| `\w+` \|.*\|$", text):
        cells = [cell.strip() for cell in row.strip("|").split("|")]
        if len(cells) != 5:
            wrong.append("CONTRACTS: %s: a row of %d cells: %s" % (crate, len(cells), row[:60]))
            continue
        for cell in (cells[2], cells[4]):
            labels = re.findall(LABEL, cell)
            if cell != "–" and ", ".join("`%s`" % (c + "/" + l if c else l) for c, l in labels) != cell:
                wrong.append("CONTRACTS: %s: neither edits nor – in %r" % (crate, cell))
            found += labels
    for sentence in re.findall(r"(?:Also tried|Tried)[^:`]*(?:`\w+`[^:`]*)?:(.*?)(?=\. |\.?$)", text, re.M):
        found += re.findall(LABEL, sentence)
    return found


def crossing_faults(text):
    """What is wrong with a section on several crates. Behind "tried as" stand edits, written with their crates or of one crate only; every other
    name there that could be an edit's is a definition of a file of specs/ that the section names."""
    faults = []
    for named, label in re.findall(LABEL, " ".join(re.findall(TRIED_AS, text))):
        meant = {named} & owners(label) if named else owners(label)
        if len(meant) != 1:
            faults.append("`%s` is an edit of %s" % (named + "/" + label if named else label, ", ".join(sorted(owners(label))) or "no crate"))
    specs = ["crates/%s/specs/%s.antt" % place for place in re.findall(r"\b([a-z]+)/specs/([A-Z]\w*)", text)]
    for named, label in re.findall(LABEL, re.sub(TRIED_AS, "", text)):
        if named or not any(declares(path, label) for path in specs):
            faults.append("`%s` is neither behind \"tried as\" nor a definition of %s" % (label, ", ".join(specs)))
    return faults


# What a section on several crates may have wrong, each tried on a copy of the page: what stands there, and what is written for it.
CROSSED = [
    ("a definition for an edit", "Tried as `nothing_joined`", "Tried as `as_one`"),
    ("an edit that is not there", "`nothing_joined`, `taken_past_the_end`", "`nothing_joined`, `taken_past_its_end`"),
    ("an edit of two crates", "`demand/one_half`", "`one_half`"),
    ("an edit of another crate", "`demand/one_room`", "`halves/one_room`"),
    ("a definition that is not there", "`as_one` takes", "`as_ones` takes"),
    ("a definition of another file", "`widened_of` reads", "`step_of` reads"),
]

contracts = read("docs/CONTRACTS.md")
SECTION = r"(?ms)^## ([^\n]+)\n(.*?)(?=^## |\Z)"
sections = re.findall(SECTION, contracts)
for what, old, new in CROSSED:
    if contracts.count(old) != 1:
        wrong.append("CONTRACTS: no wrong copy with %s can be made: %r stands there %d times" % (what, old, contracts.count(old)))
    elif not any(crossing_faults(text) for crate, text in re.findall(SECTION, contracts.replace(old, new)) if " " in crate):
        wrong.append("CONTRACTS: this check does not see %s" % what)
for crate, text in sections:
    if " " in crate:
        wrong += ["CONTRACTS: %s: %s" % (crate, fault) for fault in crossing_faults(text)]
        continue
    if crate not in crates:
        wrong.append("CONTRACTS: no crate %s" % crate)
        continue
    rows = Counter(re.findall(r"(?m)^\| `(\w+)` \|", text))
    for function, so_many in Counter(public(crate)).items():     # methods of two types may have one name
        if rows[function] < so_many:
            wrong.append("CONTRACTS: %d of the %d rows for %s::%s" % (rows[function], so_many, crate, function))
    for function in re.findall(r"(?m)^\| `(\w+)` \|", text):
        if not has_function(crate, function):
            wrong.append("CONTRACTS: no function %s::%s" % (crate, function))
    for named, label in tried_in(crate, text):
        if label not in edits.get(named or crate, ()):
            wrong.append("CONTRACTS: no edit %s in %s" % (label, named or crate))
    words = re.findall(LABEL, text)
    for label in sorted(edits[crate] - {label for named, label in words if named in ("", crate)}):
        wrong.append("CONTRACTS: edit %s/%s is not named" % (crate, label))
    for named, label in words:
        if label not in edits.get(named or crate, ()) and not (not named and has_function(crate, label)):
            wrong.append("CONTRACTS: `%s` is neither an edit nor a function of %s" % (label, named or crate))
for crate in crates:
    if (edits[crate] or public(crate)) and crate not in dict(sections):
        wrong.append("CONTRACTS: no section of %s" % crate)

# ---- what a file says first

files = sorted(glob.glob("crates/*/specs/**/*.antt", recursive=True) + glob.glob("crates/*/proofs/**/*.antt", recursive=True))
for path in files:
    parts = path.split("/")
    first = "-- `%s::%s`" % (parts[1], "::".join(parts[3:-1])) if parts[2] == "proofs" and len(parts) > 4 else "-- "
    if parts[-1] != "Lib.antt" and not read(path).startswith(first):   # a Lib.antt only lists the others
        wrong.append("%s does not begin with %s" % (path, first if first != "-- " else "a comment that says what it is"))

for line in wrong:
    print("papers:", line)
if wrong:
    sys.exit(1)
print("papers: " + ", ".join("%d %s" % (n, what) for what, n in counts.items())
      + " named in TRACE.md, all there; CONTRACTS.md has every public function and every edit; %d files say what they are" % len(files))
