#!/usr/bin/env python3
"""Installs the box below a folder of its own (./install), and tries what a box builder finds there: the header in every language that it is for, by
pkg-config, with its loop, its warnings and its frames; the programs; the service's paths; the manual pages, held to what the programs and the header
say.  Needs pkg-config, and no systemd; the manual pages are read by groff too, where that is there.
"""

import os
import random
import re
import shlex
import shutil
import subprocess
import sys
import tempfile
import unittest
from pathlib import Path

ROOT = Path(__file__).resolve().parent.parent
sys.path.insert(0, str(ROOT / "tests"))
sys.dont_write_bytecode = True

from answers import BY_NAME, SERVED                                         # noqa: E402 (they stand beside this file)
from boxd import CLOCK, MONITOR, PATIENCE, Client, Program, command, frame, login       # noqa: E402
from model import Box, crc16                                                # noqa: E402

HEADER = (ROOT / "host/wellacorn.h").read_text()
VERSION = re.search(r'^#define WELLACORN_VERSION "(.*?)"', HEADER, re.M)[1]
WARNINGS = ["-Wall", "-Wextra", "-Wpedantic", "-Werror"]
OWN_C, OWN_PLUS = os.environ.get("CC", "gcc"), os.environ.get("CXX", "g++")
LANGUAGES = [(OWN_C, "c99"), (OWN_C, "c11"), (OWN_PLUS, "c++11"), (OWN_PLUS, "c++17")]
CLANG = [("clang", "c99"), ("clang", "c11"), ("clang++", "c++17")]
PLAIN = {**os.environ, "LC_ALL": "C"}


def run(*words, **more):
    """A command that has to succeed; what it printed."""
    done = subprocess.run([str(word) for word in words], stdout=subprocess.PIPE, stderr=subprocess.STDOUT, timeout=PATIENCE, env=PLAIN, check=False, **more)
    if done.returncode != 0:
        raise AssertionError(f"{words}: {done.stdout}")
    return done.stdout if isinstance(done.stdout, str) else done.stdout.decode()


def refused(*words):
    """A command that has to fail; what it printed."""
    done = subprocess.run([str(word) for word in words], stdout=subprocess.PIPE, stderr=subprocess.STDOUT, text=True, timeout=PATIENCE, env=PLAIN, check=False)
    if done.returncode == 0:
        raise AssertionError(f"{words} was not refused: {done.stdout}")
    return done.stdout


def install(*words):
    return run(ROOT / "install", *words)


def setUpModule():
    """One installation for all tests, and a folder for what they compile."""
    global WORK, PREFIX         # pylint: disable=global-statement
    scratch = tempfile.TemporaryDirectory()
    unittest.addModuleCleanup(scratch.cleanup)
    WORK, PREFIX = Path(scratch.name), Path(scratch.name, "prefix")
    install(PREFIX)


# ---------------------------------------------------------------------------------------------
# The header
# ---------------------------------------------------------------------------------------------

def languages():
    """The compilers and the languages, of those that are there; the machine's own have to be."""
    return LANGUAGES + [(compiler, language) for compiler, language in CLANG if shutil.which(compiler)]


def kind(language):
    return "c++" if language.startswith("c++") else "c"


def pkg_config(*words):
    path = {**PLAIN, "PKG_CONFIG_PATH": str(PREFIX / "lib/pkgconfig")}
    return subprocess.run(["pkg-config", *words, "wellacorn"], stdout=subprocess.PIPE, text=True, env=path, timeout=PATIENCE, check=True).stdout.split()


def built(compiler, language, source):
    """A program of one source, compiled with the words of pkg-config alone."""
    program = WORK / f"{source.stem}-{compiler}-{language}"
    run(compiler, f"-std={language}", *WARNINGS, "-I", WORK, "-x", kind(language), source, "-x", "none", *pkg_config("--cflags", "--libs"), "-o", program)
    return program


def loop_of_header():
    """The lines to copy that stand in the header's first comment."""
    comment = HEADER[:HEADER.index("*/")]
    block = re.search(r"^ \*     static wellacorn_box box;\n(?: \*     .*\n| \*\n)*", comment, re.M)[0]
    return re.sub(r"^ \*(     )?", "", block, flags=re.M).strip() + "\n"


# What comes on connection 0: two messages joined, a stray byte, a keep-alive, a command that the other connection is told of, one that is refused, one
# that the box does not offer.
CAME = CLOCK + MONITOR + b"\x07\x06" + command(1, 3) + command(1, 77) + login(b"olav", b"secret")


def told_by_model(came):
    """What the loop has to print, by the model."""
    box = Box()
    for line in ("open 0 2", "open 1 1 1", "pass 1234"):
        assert box.line(line) == str(SERVED), line
    printed, at = [], 0
    while at < len(came):
        _, taken, _, reply = box.bytes_(0, 4096, came[at:])
        at += taken
        printed += [f"0 {reply.hex().upper()}"] if reply else []
    printed.append("all 1")
    return printed + [f"{c} {box.collect(c, 4096)[1].hex().upper()}" for c in (0, 1)]


class Header(unittest.TestCase):

    def test_languages(self):
        """It compiles alone in each language, and in each it refuses a layout that is not the archive's."""
        including = WORK / "including"
        wrong = WORK / "wrong" / "wellacorn.h"
        wrong.parent.mkdir()
        self.assertEqual(1, HEADER.count("WELLACORN_PLACE(wellacorn_done, len, 8)"))
        wrong.write_text(HEADER.replace("WELLACORN_PLACE(wellacorn_done, len, 8)", "WELLACORN_PLACE(wellacorn_done, len, 16)"))
        including.write_text("#include <wellacorn.h>\n")
        for compiler, language in languages():
            with self.subTest(compiler=compiler, language=language):
                words = [compiler, f"-std={language}", *WARNINGS, "-fsyntax-only", "-x", kind(language), including]
                run(*words, *pkg_config("--cflags"))
                self.assertIn("wellacorn_done_has_len_at_its_place", refused(*words, "-I", wrong.parent))

    def test_loop(self):
        """The loop of the header's comment, word for word, around which a host is compiled: it sends what the model sends."""
        (WORK / "loop.h").write_text(loop_of_header())
        expected = told_by_model(CAME) + ["content " + login(b"olav", b"secret")[5:].hex().upper(), "shut 0, content 0"]
        self.assertEqual(["0", "0", "all", "0", "1"], [line.split()[0] for line in expected[:5]])
        for compiler, language in LANGUAGES:
            with self.subTest(compiler=compiler, language=language):
                self.assertEqual(expected, run(built(compiler, language, ROOT / "tests/install/drain.c"), input=CAME).splitlines())

    def test_frames(self):
        """Checksums and frames: the published strings, and contents of every kind by the model."""
        rng = random.Random(1)
        strings = {b"0123456789": 0x443D, b"ABCDEFG": 0x9E6C, b"": 0x0000}
        contents = list(strings) + [bytes([byte]) for byte in range(256)] + [rng.randbytes(n) for n in (2, 3, 255, 256, 257, 1024, 65535)]
        sent = b"".join(len(content).to_bytes(2, "big") + content for content in contents)
        expected = [f"{strings.get(content, crc16(content)):04X} {frame(content).hex().upper()}" for content in contents]
        for compiler, language in (LANGUAGES[0], LANGUAGES[2]):
            lines = run(built(compiler, language, ROOT / "tests/install/frames.c"), input=sent).splitlines()
            self.assertEqual("too long 0 nothing written", lines.pop())
            self.assertTrue(expected == lines, f"{compiler} {language}")

    def test_dropped_answers(self):
        """Where an answer is dropped that a host must look at, the compiler says so, and where it may be left it does not."""
        box = "&box->board, "
        must = [f"wellacorn_box_{call};" for call in ("bytes(box, 0, piece, 1, reply, 4096)", "collect(box, 0, reply, 4096)", "level(box, 1, 1)",
                                                      "connect(box, 0, 2, 0)", "fill(box, 1)", "empty(box, 1)")]
        must += [f"wellacorn_{call};" for call in (f"bytes({box}box->halves, box->rooms, box->row, 31, 0, piece, 1, reply, 4096)",
                                                   f"collect({box}0, reply, 4096)", f"level({box}1, 1)", f"connect({box}box->halves, 0, 2, 0)",
                                                   f"fill({box}box->row, 31, 1)", f"empty({box}box->row, 31, 1)", f"pass({box}box->row, 31, 1)")]
        may = ["wellacorn_box_pass(box, 1);", "wellacorn_box_close(box, 0);", f"wellacorn_close({box}box->halves, 0);"]
        dropping = WORK / "dropping"
        dropping.write_text("\n".join(["#include <wellacorn.h>", "void drop(wellacorn_box *box, const uint8_t *piece, uint8_t *reply);",
                                       "void drop(wellacorn_box *box, const uint8_t *piece, uint8_t *reply) {", *must, *may, "}", ""]))
        for compiler, language in [language for language in languages() if language[1] in ("c11", "c++17")]:
            words = [compiler, f"-std={language}", "-Werror=unused-result", *pkg_config("--cflags"), "-x", kind(language)]
            said = refused(*words, "-c", dropping, "-o", os.devnull)
            lines = {int(line) for line in re.findall(r"dropping:(\d+):\d+: error: ignoring return value", said)}
            self.assertEqual(set(range(4, 4 + len(must))), lines, f"{compiler} {language}: {said}")


# ---------------------------------------------------------------------------------------------
# What is installed
# ---------------------------------------------------------------------------------------------

def help_of_boxd():
    return run(PREFIX / "sbin/boxd", "--help")


def below(folder):
    return {str(path.relative_to(folder)) for path in folder.rglob("*") if path.is_file()}


class Boxd(Program):
    """The installed host, on a port that is free."""

    def __init__(self, *words):
        super().__init__([PREFIX / "sbin/boxd", "--listen", "127.0.0.1:0", *words])
        self.port = int(self.wait_for(r"listens on 127\.0\.0\.1:(\d+)")[1])


class Installed(unittest.TestCase):

    def test_files(self):
        """What --help names is there, the whole panel, and the list of it all; nothing is left to be filled in, or half written."""
        there = below(PREFIX)
        for place in ("sbin/boxd", "bin/replay", "bin/wellacorn-panel", "bin/wellacorn-adduser"):
            self.assertTrue(os.access(PREFIX / place, os.X_OK), place)
        for place in ("include/wellacorn.h", "lib/libwellacorn.a", "lib/pkgconfig/wellacorn.pc", "lib/systemd/system/wellacorn-boxd.service",
                      "share/man/man8/boxd.8", "share/man/man1/replay.1", "share/man/man3/wellacorn.3",
                      *(f"share/doc/wellacorn/{name}" for name in ("README.md", "HOST.md", "REPLAY.md", "CHANGELOG.md", "examples/boxd.conf"))):
            self.assertEqual(0o644, (PREFIX / place).stat().st_mode & 0o777, place)
        panel = {f"lib/wellacorn/panel/{name}" for name in below(ROOT / "panel") if "__pycache__" not in name}
        self.assertEqual(panel, {place for place in there if place.startswith("lib/wellacorn/panel/")})
        self.assertEqual(there, set((PREFIX / "lib/wellacorn/installed").read_text().split()))
        for place in there - {"sbin/boxd", "bin/replay", "lib/libwellacorn.a"}:
            self.assertNotRegex((PREFIX / place).read_text(), "@(PREFIX|VERSION)@", place)

    def test_version(self):
        """It stands in the header, and everything else has it from there."""
        self.assertRegex(VERSION, r"^\d+\.\d+\.\d+$")
        self.assertEqual(f"boxd {VERSION}\n", run(PREFIX / "sbin/boxd", "--version"))
        self.assertEqual(f"replay {VERSION}\n", run(PREFIX / "bin/replay", "--version"))
        self.assertEqual([VERSION], pkg_config("--modversion"))
        self.assertEqual(VERSION, re.search(r"^## (\S+)", (PREFIX / "share/doc/wellacorn/CHANGELOG.md").read_text(), re.M)[1])
        for page in ("man8/boxd.8", "man1/replay.1", "man3/wellacorn.3"):
            self.assertRegex((PREFIX / "share/man" / page).read_text().split("\n")[0], rf'^\.TH .* "Wellacorn {re.escape(VERSION)}"')

    def test_programs(self):
        """The panel says how it is used, the replay tool replays, and boxd takes a user that adduser has made."""
        self.assertIn("--box HOST:PORT", run(PREFIX / "bin/wellacorn-panel", "--help"))
        self.assertEqual("1\n2 1 0 0 -\n", run(PREFIX / "bin/replay", input=b"open 0 2\nbytes 0 4096 06\n"))
        users = WORK / "users"
        users.write_text(run(PREFIX / "bin/wellacorn-adduser", "olav", "2", input=b"secret\n"))
        with Boxd("--users", users) as host:
            host.wait_for("1 user")

    def test_over_a_running_box(self):
        """A box that runs goes on while it is installed anew.  What an earlier version had is gone then, and what is somebody else's stays."""
        program, old, others = (PREFIX / place for place in ("sbin/boxd", "lib/wellacorn/panel/old.py", "lib/wellacorn/panel/others.py"))
        for path in old, others:
            path.write_text("")
        with (PREFIX / "lib/wellacorn/installed").open("a") as listed:
            listed.write(f"{old.relative_to(PREFIX)}\n")
        with Boxd() as host, Client(host.port) as client:
            client.clock()
            before = program.stat().st_ino
            self.assertIn(f"wellacorn {VERSION} is in {PREFIX}:", install(PREFIX))
            self.assertNotEqual(before, program.stat().st_ino)
            client.clock()
        self.assertEqual([False, True], [old.exists(), others.exists()])
        others.unlink()
        with Boxd() as host, Client(host.port) as client:
            client.clock()

    def test_package(self):
        """With --destdir the files name the prefix alone.  Uninstalled, all are gone that were put there, and no other."""
        stage = WORK / "stage"
        install("/opt/barge", "--destdir", stage)
        self.assertIn("prefix=/opt/barge\n", (stage / "opt/barge/lib/pkgconfig/wellacorn.pc").read_text())
        self.assertIn("ExecStart=/opt/barge/sbin/boxd ", (stage / "opt/barge/lib/systemd/system/wellacorn-boxd.service").read_text())
        others = stage / "opt/barge/share/doc/wellacorn/others.txt"
        others.write_text("")
        install("--uninstall", "/opt/barge", "--destdir", stage)
        self.assertEqual({str(others.relative_to(stage))}, below(stage))
        self.assertFalse((stage / "opt/barge/lib/wellacorn").exists())
        self.assertIn("nothing was installed", refused(ROOT / "install", "--uninstall", "/opt/barge", "--destdir", stage))

    def test_refused(self):
        for words, said in (([], "where to?"), (["usr"], "begins with /"), (["/a b"], "begins with /"), (["/"], "below /"), (["/a", "/b"], "one PREFIX"),
                            (["--prefix=/a"], "no argument --prefix=/a"), (["/a", "--destdir"], "missing after --destdir"),
                            (["/dev/null/a"], "cannot be written to")):
            self.assertIn(said, refused(ROOT / "install", *words))


class Service(unittest.TestCase):

    def setUp(self):
        self.unit = (PREFIX / "lib/systemd/system/wellacorn-boxd.service").read_text()
        self.examples = PREFIX / "share/doc/wellacorn/examples"

    def test_paths(self):
        """What the service names of the installation is there, and what it starts is the host."""
        paths = re.findall(rf"{re.escape(str(PREFIX))}[^\s:]*", self.unit)
        self.assertEqual(3, len(paths), paths)
        for path in paths:
            self.assertTrue(Path(path).exists(), path)
        self.assertEqual([str(PREFIX / "sbin/boxd"), "$BOXD_ARGUMENTS"], re.search(r"^ExecStart=(.*)", self.unit, re.M)[1].split())
        self.assertIn("EnvironmentFile=-/etc/wellacorn/boxd.conf\n", self.unit)

    def test_arguments(self):
        """The arguments of the service and of the examples are boxd's.  Without more it keeps its counts, and only this machine reaches it."""
        lines = re.findall(r'BOXD_ARGUMENTS=(.*)"', self.unit) + re.findall(r'^#BOXD_ARGUMENTS="(.*)"', (self.examples / "boxd.conf").read_text(), re.M)
        self.assertEqual(5, len(lines))
        self.assertEqual(["--listen", "127.0.0.1:9200", "--counts", "%S/wellacorn/counts"], lines[0].split())
        self.assertEqual(lines[0].replace("%S", "/var/lib"), lines[1])
        known = {entry.split()[0] for entry in options_of_help()}
        for line in lines:
            self.assertLessEqual({word for word in shlex.split(line) if word.startswith("-")}, known, line)

    def test_shut(self):
        """What boxd does not need is shut, and the drop-in for GPIO opens what it says."""
        settings = set(self.unit.split("\n"))
        self.assertLessEqual({"DynamicUser=yes", "NoNewPrivileges=yes", "ProtectSystem=strict", "ProtectHome=yes", "PrivateTmp=yes", "PrivateDevices=yes",
                              "CapabilityBoundingSet=", "MemoryDenyWriteExecute=yes", "RestrictAddressFamilies=AF_INET AF_INET6 AF_UNIX",
                              "SystemCallFilter=@system-service", "StateDirectory=wellacorn", "Restart=on-failure", "StandardInput=null"}, settings)
        opened = re.findall(r"^(\w+=.*)", (self.examples / "gpio.conf").read_text(), re.M)
        self.assertEqual(["PrivateDevices=no", "PrivateUsers=no", "DeviceAllow=/dev/gpiochip0 rw", "SupplementaryGroups=gpio"], opened)


# ---------------------------------------------------------------------------------------------
# The manual pages
# ---------------------------------------------------------------------------------------------

MACROS = set("TH SH SS PP TP TQ IP B I BR BI RB RI IB IR EX EE RS RE PD br".split())


def page(name):
    return (PREFIX / "share/man" / f"man{name[-1]}" / name).read_text()


def plain(line):
    """A line of a manual page as it is read: the words of its macro, which stand apart where it has one font alone."""
    macro, _, rest = line.partition(" ")
    words = re.findall(r'"([^"]*)"|(\S+)', re.sub(r"\\f.", "", rest))
    return ("" if len(macro) == 3 else " ").join(quoted or bare for quoted, bare in words).replace("\\-", "-")


def entries(text, section):
    """What stands at the edge of a section's lists."""
    part = re.search(rf"^\.SH {section}\n(.*?)(?=^\.SH |\Z)", text, re.M | re.S)[1]
    return [plain(line) for line in re.findall(r"^\.T[PQ](?: \d+)?\n(.*)", part, re.M)]


def options_of_help():
    return re.findall(r"^ {4}(-\S.*?)(?: {2,}.*)?$", help_of_boxd(), re.M)


class Manual(unittest.TestCase):

    def test_arguments(self):
        """boxd(8) has the arguments and the commands that boxd --help names, and no others."""
        options, commands = options_of_help(), re.findall("`([^`]+)`", help_of_boxd().split("Commands on standard input")[1])
        self.assertGreater(len(options), 15)
        self.assertEqual(sorted(options), sorted(entries(page("boxd.8"), "OPTIONS")))
        self.assertEqual(sorted(commands), sorted(entries(page("boxd.8"), "COMMANDS")))

    def test_lines(self):
        """replay(1) has the lines of docs/REPLAY.md's table, and no others."""
        table = re.findall(r"^\| (`.*?) \|", (ROOT / "docs/REPLAY.md").read_text(), re.M)
        lines = {word for row in table for word in re.findall(r"`(\w+)", row)}
        self.assertEqual(10, len(lines))
        self.assertEqual(lines, {entry.split()[0] for entry in entries(page("replay.1"), "LINES")})

    def test_calls(self):
        """wellacorn(3) has every function of the header as it is declared there, the answer numbers, and the loop."""
        text = page("wellacorn.3")
        header = re.sub(r"/\*.*?\*/", "", HEADER, flags=re.S)
        inside = {"wellacorn_box_keep_ended", "wellacorn_ends_content"}
        for gives, name, takes in re.findall(r"^static inline (\w+) (wellacorn_\w+)\((.*?)\)\n\{", header, re.M | re.S):
            declared = re.sub(r"\s+", " ", f"{gives} {name}({takes});")
            self.assertEqual(name not in inside, declared in re.sub(r"\s+", " ", text), declared)
        for name in re.findall(r"^(?:void|wellacorn_done) (wellacorn_\w+)\(", header, re.M):
            self.assertIn(f".BR {name} ()", text)
        self.assertEqual({f"{number} {name}" for name, number in BY_NAME.items()}, set(entries(text, "RETURN VALUE")))
        self.assertIn(f".EX\n{loop_of_header()}.EE\n", text.replace("\\-", "-"))

    def test_clean(self):
        """Each page is made of known macros, and groff, where it is there, has nothing to complain of."""
        for name in ("boxd.8", "replay.1", "wellacorn.3"):
            self.assertLessEqual({macro for macro in re.findall(r"^[.'](\w*)", page(name), re.M)}, MACROS, name)
            if shutil.which("groff"):
                self.assertEqual("", run("groff", "-man", "-ww", "-Tutf8", "-z", PREFIX / "share/man" / f"man{name[-1]}" / name))


if __name__ == "__main__":
    os.chdir(ROOT)
    unittest.main()
