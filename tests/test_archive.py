#!/usr/bin/env python3
"""Tries what host/archive says of itself: what it refuses, that it makes the same again, and that what the archives export is what the header declares.
Then that two watches see what they are there for: host/dirty.c finds out a library that looks above its arguments, and valgrind one that is lent less
than it is told.

Both archives and the programs of host/build are there already (tests/compiled).
"""

import importlib.machinery
import importlib.util
import os
import re
import subprocess
import sys
import tempfile
import unittest
from pathlib import Path
from unittest import mock

ROOT = Path(__file__).resolve().parent.parent
sys.path.insert(0, str(ROOT / "tests"))
sys.dont_write_bytecode = True
loader = importlib.machinery.SourceFileLoader("archive", str(ROOT / "host/archive"))
archive = importlib.util.module_from_spec(importlib.util.spec_from_loader("archive", loader))
loader.exec_module(archive)

import traces      # noqa: E402 (it stands beside this file)

OWN = f"{os.uname().machine}-linux-gnu"


def why_refused(call, *arguments):
    """What host/archive says where it refuses; None where it does not."""
    try:
        call(*arguments)
    except SystemExit as refusal:
        return str(refusal.code)
    return None


# ---------------------------------------------------------------------------------------------
# What is made
# ---------------------------------------------------------------------------------------------

# What rt may say last of the library, for aarch64, and how it may end; and what the refusal must name, where it is one.
VERDICT = "logic=proved functions=10 target=aarch64-unknown-linux-gnu sum=0123456789abcdef native=nat,char,string logic-built=trusted"
ENDS = {
    "proved": (VERDICT, 0, None),
    "not proved": ("logic=not-proved", 1, "this failed in crates/capi: rt lib --target aarch64-unknown-linux-gnu --cpu generic"),
    "not proved, and it ends well": ("logic=not-proved", 0, "logic=not-proved"),
    "no verdict": ("nothing", 0, "none"),
    "another machine": (VERDICT.replace("aarch64", "x86_64"), 0, "target=x86_64-unknown-linux-gnu"),
    "another processor": (VERDICT.replace(" sum=", " cpu=neoverse-v2 sum="), 0, "cpu=neoverse-v2"),
    "a verdict before the last": (f"{VERDICT}\nlogic=not-proved", 0, "logic=not-proved"),
}


def made_in(folder, said, status, below=0):
    """Has host/archive make the archive for aarch64 in a folder that has an older one, of two crates, with an rt that says so of the upper one, and ends so.
    Why it refuses, None where it does not.
    """
    for crate in "low", archive.CRATE:
        (folder / "crates" / crate / "out").mkdir(parents=True)
    (folder / "crates.txt").write_text(f"{archive.CRATE} staticlib: low check\nlow:\nhigh: low\n")
    (folder / "rt").write_text(f"#!/bin/sh\ncase $PWD in */low) exit {below} ;; esac\nprintf '%s\\n' '{said}'\nprintf new >out/lib{archive.CRATE}.a\nexit {status}\n")
    (folder / "rt").chmod(0o755)
    for path in archive.archive_of(archive.ARM), archive.digest_of(archive.ARM), archive.BUILT:
        (folder / path).parent.mkdir(parents=True, exist_ok=True)
        (folder / path).write_text("old")
    os.chdir(folder)
    try:
        with mock.patch.dict(os.environ, {"PATH": f"{folder}:{os.environ['PATH']}"}), open(os.devnull, "w", encoding="ascii") as nowhere, \
                mock.patch.object(sys, "stderr", nowhere):
            return why_refused(archive.make, [archive.ARM], "a digest")
    finally:
        os.chdir(ROOT)


class Made(unittest.TestCase):

    def test_nothing_is_made(self):
        """Of what is not proved, and for this machine, nothing is made, and what was there is gone."""
        tries = {**ENDS, "what it stands on is not proved": (VERDICT, 0, "this failed in crates/low: rt lib")}
        for name, (said, status, refused) in tries.items():
            with tempfile.TemporaryDirectory() as folder, self.subTest(name):
                why = made_in(Path(folder), said, status, below=int(name not in ENDS))
                self.assertEqual(refused is None, why is None, why)
                self.assertIn(refused or "", why or "")
                for path, new in (archive.archive_of(archive.ARM), "new"), (archive.digest_of(archive.ARM), "a digest"):
                    made = Path(folder, path)
                    self.assertEqual(new if refused is None else None, made.read_text() if made.exists() else None)

    def test_order(self):
        """Each crate of the library comes behind those that it stands on, by crates.txt, and the library last."""
        needs = archive.needs()
        crates = list(needs)
        self.assertGreater(len(crates), 30)
        self.assertEqual(archive.CRATE, crates[-1])
        for crate, below in needs.items():
            self.assertTrue(all(crates.index(need) < crates.index(crate) for need in below), crate)

    def test_same_again(self):
        """The library proved and compiled once more is the same archive, for both machines, to the byte."""
        for target in archive.TARGETS:
            with open(os.devnull, "w", encoding="ascii") as nowhere, mock.patch.object(sys, "stderr", nowhere):
                archive.BUILT.unlink(missing_ok=True)
                archive.prove(target)
            self.assertTrue(archive.BUILT.read_bytes() == archive.archive_of(target).read_bytes(), target)

    def test_logic(self):
        """Both archives say by which logic they are proved: the kit's."""
        kit = subprocess.run(["rt", "version"], stdout=subprocess.PIPE, text=True, check=True).stdout.split()[-1]
        for target in archive.TARGETS:
            text = subprocess.run(["readelf", "-p", ".comment", archive.archive_of(target)], stdout=subprocess.PIPE, text=True, check=True).stdout
            self.assertRegex(text, rf"rattle logic={kit}[0-9a-f]{{48}}\n", target)


# ---------------------------------------------------------------------------------------------
# What is exported
# ---------------------------------------------------------------------------------------------

C_TYPES = {"uint8_t": "u8", "uint16_t": "u16", "uint32_t": "u32", "uint64_t": "u64", "wellacorn_settings": "Settings", "wellacorn_done": "Done"}


def declared():
    """Each function that the header declares: what it takes, and what it gives."""
    header = re.sub(r"/\*.*?\*/", "", (ROOT / "host/wellacorn.h").read_text(), flags=re.S)
    found = {}
    for gives, name, takes in re.findall(r"^(void|wellacorn_done) (wellacorn_\w+)\(([^)]*)\);", header, re.M):
        parameters = [re.sub(r"\s+", " ", parameter).strip() for parameter in takes.split(",")]
        found[name] = (["pointer" if "*" in parameter or "[" in parameter else C_TYPES[parameter.split()[0]] for parameter in parameters],
                       C_TYPES.get(gives, gives))
    return found


def exported():
    """Each function that the crate exports, as C sees it: what is lent is a pointer, and a slice its length besides."""
    found = {}
    source = (ROOT / "crates" / archive.CRATE / "src/lib.rt").read_text()
    for name, takes, gives in re.findall(r'#\[unsafe\(no_mangle\)\]\npub extern "C" fn (\w+)\((.*?)\)(?: -> (\w+))?\s', source, re.S):
        kinds = []
        for parameter in [part.split(": ", 1)[1].strip() for part in takes.split(",") if part.strip()]:
            kinds += ["pointer", "u64"] if re.fullmatch(r"&(mut )?\[\w+\]", parameter) else ["pointer"] if parameter[0] == "&" else [parameter]
        found[name] = (kinds, gives or "void")
    return found


class Exported(unittest.TestCase):

    def test_header(self):
        """What the header declares is exported, as it declares it; besides it the slow way of passing time, which the library keeps apart for speed."""
        functions = exported()
        names = set(functions)
        self.assertEqual((["pointer", "pointer", "u64", "u32"], "u8"), functions.pop("wellacorn_pass_pulsed"))
        self.assertEqual(declared(), functions)
        for target in archive.TARGETS:
            listed = subprocess.run(["nm", "-g", "--defined-only", archive.archive_of(target)], stdout=subprocess.PIPE, text=True, check=True).stdout
            self.assertEqual(names, set(re.findall(r"^\w+ T (\w+)$", listed, re.M)), target)

    def test_undefined(self):
        """Of the C library both archives need memset and nothing else, as docs/HOST.md says."""
        for target in archive.TARGETS:
            listed = subprocess.run(["nm", "-u", ROOT / archive.archive_of(target)], stdout=subprocess.PIPE, text=True, check=True).stdout
            self.assertEqual({"memset"}, set(re.findall(r"U (\w+)", listed)), target)


# ---------------------------------------------------------------------------------------------
# Watches that must see
# ---------------------------------------------------------------------------------------------

C_WIDE = {"pointer": "void *", "u8": "uint64_t", "u32": "uint64_t", "u64": "uint64_t", "Settings": "settings"}
C_OWN = {**C_WIDE, "u8": "uint8_t", "u32": "uint32_t"}
C_RESULT = {"Done": "done", "void": "void", "u8": "uint8_t"}


def looking_text():
    """In C, functions that look at what stands above their small arguments: what they take for the argument is that and the argument. Each calls the
    library's own, under another name.
    """
    lines = ["#include <stdint.h>", "typedef struct { uint64_t words[32]; } settings;", "typedef struct { uint64_t taken, len, place; uint8_t answer; } done;"]
    for name, (takes, gives) in exported().items():
        wide = ", ".join(f"{C_WIDE[kind]} a{k}" for k, kind in enumerate(takes))
        own = ", ".join(C_OWN[kind] for kind in takes)
        width = {"u8": 8, "u32": 32}
        given = ", ".join(f"({C_OWN[kind]})(a{k} ^ a{k} >> {width[kind]})" if kind in width else f"a{k}" for k, kind in enumerate(takes))
        back = "" if gives == "void" else "return "
        lines += [f"{C_RESULT[gives]} own_{name}({own});", f"{C_RESULT[gives]} {name}({wide}) {{ {back}own_{name}({given}); }}"]
    return "\n".join(lines) + "\n"


def looking(target, work):
    """The library for a target with such functions in front of it: what a program is linked with."""
    tools = "" if target == OWN else f"{target}-"
    (work / "looking.c").write_text(looking_text())
    subprocess.run([os.environ.get("CC", "gcc") if target == OWN else f"{target}-gcc", "-std=c11", "-O1", "-c", "-o", work / "looking.o", work / "looking.c"], check=True)
    renamed = [word for name in exported() for word in ("--redefine-sym", f"{name}=own_{name}")]
    subprocess.run([f"{tools}objcopy", *renamed, ROOT / archive.archive_of(target), work / "own.a"], check=True)
    return [work / "looking.o", work / "own.a"]


class Watches(unittest.TestCase):

    def test_dirt_is_seen(self):
        """Of a library that looks above its arguments every function is found out."""
        for target in archive.TARGETS:
            with tempfile.TemporaryDirectory() as work, self.subTest(target):
                program = ROOT / "target/host/dirty-looking"
                compiler = os.environ.get("CC", "gcc") if target == OWN else f"{target}-gcc"
                subprocess.run([compiler, "-std=c11", "-O1", "-static", "-o", program, ROOT / "host/dirty.c", *looking(target, Path(work))], check=True)
                done = subprocess.run([ROOT / "host/exec", program.name, "20000"], stdout=subprocess.PIPE, text=True, check=False)
                self.assertEqual(1, done.returncode)
                differ = dict(re.findall(r"dirty: (\w+) .*?(\d+) differ", done.stdout))
                self.assertEqual(8, len(differ))
                self.assertNotIn("0", differ.values(), done.stdout)

    def test_short_loans_are_seen(self):
        """Where a byte fewer is lent than is said, valgrind says who read it."""
        lines = next(iter(traces.many("a trace", 1000, 1000))).lines
        with tempfile.TemporaryDirectory() as work:
            program = Path(work, "replay")
            subprocess.run([os.environ.get("CC", "gcc"), "-std=c11", "-O3", "-DWATCHED=2", "-o", program, ROOT / "host/replay.c",
                            ROOT / archive.archive_of(OWN)], check=True)
            done = subprocess.run(["valgrind", "-q", "--error-exitcode=9", program], input="".join(f"{line}\n" for line in lines), text=True,
                                  stdout=subprocess.DEVNULL, stderr=subprocess.PIPE, check=False)
        self.assertEqual(9, done.returncode)
        self.assertRegex(done.stderr, r"Invalid read of size \d+\n.*: wellacorn_bytes ")


if __name__ == "__main__":
    os.chdir(ROOT)
    unittest.main()
