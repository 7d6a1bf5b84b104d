#!/usr/bin/env python3
"""Brings the names of definitions, fields, lemmas and modules' paths in the papers to the spelling that the sources have now.

usage: respell_papers.py OLD [--table] [--write] FILE..      OLD: the commit (or folder) before the respelling; run at the top of the repository

A script of the port to today's Rattle (docs/PORT.md), of no use besides: it was run once, over README.md, CHANGELOG.md and docs/, behind respell.py,
and stays so that what it did can be seen again. On the papers as they are now it changes nothing. Without --write it only tells what it would change.

The table is made from the sources: of each file of specs/ and proofs/ that is on both sides, the declared names in their order; where as many are
declared, the k-th of OLD is now the k-th; a pair that is not one name in two spellings is shown. Names are turned in code spans, in fenced text, behind
`crate/File.`, in **..**, and anywhere in prose where they cannot be English: with a capital inside, or a dash or an underscore. A name that is written
in two ways now is shown and stays.
"""
import glob
import os
import re
import subprocess
import sys
import collections


def text_of(side, path):
    if os.path.isdir(side):
        try:
            with open(os.path.join(side, path), encoding="utf-8") as f:
                return f.read()
        except OSError:
            return None
    done = subprocess.run(["git", "show", f"{side}:{path}"], stdout=subprocess.PIPE, stderr=subprocess.DEVNULL, encoding="utf-8")
    return done.stdout if done.returncode == 0 else None


def paths_of(side):
    if os.path.isdir(side):
        found = glob.glob(side + "/crates/*/specs/**/*.antt", recursive=True) + glob.glob(side + "/crates/*/proofs/*.antt")
        return sorted(os.path.relpath(p, side) for p in found if "/declared/" not in p)
    listed = subprocess.run(["git", "ls-tree", "-r", "--name-only", side, "crates"], stdout=subprocess.PIPE, encoding="utf-8", check=True).stdout
    return [p for p in listed.split("\n") if re.match(r"crates/\w+/(specs/.*|proofs/[^/]*)\.antt$", p)]


def declared(text):
    """The names that a file declares, in order: those with a type behind them, records, data types, constructors and fields, and parameters of signatures aside."""
    names = []
    for line in text.split("\n"):
        if line.lstrip().startswith(("--", "use ", "mod ", "pub mod", "pub use", "let ", "unfolding", "where", "→", "(", "{", "λ", "in ", "|")):
            continue
        m = re.match(r"^(\s*)(?:(?:abbrev|unfoldable|pub|instance) )*(record|data|ruleset) ([^\s:({]+)", line)
        if m:
            names.append(m[3])
            continue
        m = re.match(r"^(\s*)(?:(?:abbrev|unfoldable|pub) )*((?:[^\s:(){}=λ∷,.;@\"«»]+ )+): ", line + " ")
        if m:
            names += m[2].split()
    return names


def table(old):
    found, odd = collections.defaultdict(collections.Counter), []
    for path in paths_of(old):
        before, now = text_of(old, path), text_of(".", path)
        if now is None:
            continue
        a, b = declared(before), declared(now)
        if len(a) != len(b):
            odd.append((path, len(a), len(b)))
            continue
        for one, other in zip(a, b):
            found[one][other] += 1
    rows, two = {}, {}
    for one, others in found.items():
        if set(others) == {one}:
            continue
        if len(others) > 1:
            two[one] = others
            continue
        rows[one] = next(iter(others))
    return rows, two, odd, found


def bare(name):
    """A name without what its spelling alone has."""
    return re.sub(r"[-_'′]", "", name).lower()


def main():
    if len(sys.argv) < 2:
        sys.exit(__doc__)
    old, files = sys.argv[1], [a for a in sys.argv[2:] if not a.startswith("--")]
    rows, two, odd, found = table(old)
    for path, a, b in odd:
        print(f"look: {path} declares {a} names before and {b} now", file=sys.stderr)
    for one, others in sorted(two.items()):
        print(f"look: {one} is now {dict(others)}", file=sys.stderr)
    for one, other in sorted(rows.items()):
        if bare(one) != bare(other):
            print(f"look: {one} is now {other}, another name", file=sys.stderr)
    if not rows:
        sys.exit(f"respell_papers: every name is what it was at {old}")
    now = collections.defaultdict(set)
    for one, others in found.items():
        for other in others:
            now[other].add(one)
    for other, ones in sorted(now.items()):
        if len(ones) > 1:
            print(f"look: {sorted(ones)} are all {other} now", file=sys.stderr)
    if "--table" in sys.argv:
        for one, other in sorted(rows.items()):
            print(f"{one}\t{other}")
    word = re.compile(r"(?<![\w′'\-·])(" + "|".join(sorted(map(re.escape, rows), key=len, reverse=True)) + r")(?![\w′'\-])")
    plain = {one for one in rows if not re.search(r"[a-z0-9][A-Z]|[\w]-[\w]|_|′", one)}     # could be an English word

    def turn(m):
        return rows[m[0]]

    def prose(text):
        text = re.sub(r"(?<![\w*(])([a-z]+/(?:specs/|proofs/)?[A-Z]\w*\.)([\w′'-]+)", lambda m: m[1] + rows.get(m[2], m[2]), text)
        text = re.sub(r"(?<![\w/])([A-Z]\w*\.)([\w′'-]+)", lambda m: m[1] + rows.get(m[2], m[2]), text)
        text = re.sub(r"(\*\*)([\w′'-]+)(\*\*)", lambda m: m[1] + rows.get(m[2], m[2]) + m[3], text)
        return word.sub(lambda m: m[0] if m[0] in plain else rows[m[0]], text)

    for path in files:
        with open(path, encoding="utf-8") as f:
            text = f.read()
        # code, what is quoted (it stays), and prose
        parts = re.split(r'(^```.*?^```|`[^`\n]+`|"[^"`\n]*")', text, flags=re.S | re.M)
        turned = "".join(prose(p) if k % 2 == 0 else p if p[0] == '"' else word.sub(turn, p) for k, p in enumerate(parts))
        if turned != text:
            changed = sum(a != b for a, b in zip(text.split("\n"), turned.split("\n")))
            print(f"{path}: {changed} lines", file=sys.stderr)
            if "--write" in sys.argv:
                with open(path, "w", encoding="utf-8") as f:
                    f.write(turned)


main()
