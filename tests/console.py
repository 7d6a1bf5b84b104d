#!/usr/bin/env python3
"""Runs the compiled console on inputs that reads cut in every way: 01's example alone, byte by byte, without its last newline; nothing at all;
and some megabytes, more than a thousand reads, of lines that the independent model answers.

    python3 tests/console.py                the console of rt run, by host/exec
    python3 tests/console.py COMMAND...     another command, to see that these tests can fail

Prints what differs and exits 1, or one line."""

import fcntl
import os
import random
import re
import struct
import subprocess
import sys
import tempfile
import termios
import time

from model import Box, crc16, field

os.chdir(os.path.join(os.path.dirname(os.path.abspath(__file__)), ".."))

COMMAND = sys.argv[1:] or ["host/exec", "console"]
LIMIT = 120     # seconds until a run is given up

# "Input .. prints ..", 01, the console.
EXAMPLE = b"010004FFFF0A0A0505\n010004FFFF0A030001\n010003FFFF0A0300\n06\n"
ANSWERS = b"010005\n010004\n140004\n020004\n"


# ---------------------------------------------------------------------------------------------
# Running
# ---------------------------------------------------------------------------------------------

def run(text):
    """What is printed of a text that comes through a pipe."""
    done = subprocess.run(COMMAND, input=text, stdout=subprocess.PIPE, timeout=LIMIT)
    return ended(done.returncode, done.stdout)


def run_from_file(text):
    """The same from a file, of which every read but the last is full."""
    with tempfile.TemporaryFile() as file:
        file.write(text)
        file.seek(0)
        done = subprocess.run(COMMAND, stdin=file, stdout=subprocess.PIPE, timeout=LIMIT)
    return ended(done.returncode, done.stdout)


def run_byte_by_byte(text):
    """The same with each byte a read of its own: the next is written when the pipe is empty again."""
    until = time.monotonic() + LIMIT
    with subprocess.Popen(COMMAND, stdin=subprocess.PIPE, stdout=subprocess.PIPE, bufsize=0) as program:
        try:
            for k in range(len(text)):
                program.stdin.write(text[k:k + 1])
                while waiting(program.stdin) and program.poll() is None and time.monotonic() < until:
                    time.sleep(0.0002)
        except BrokenPipeError:
            pass    # it has ended: what it printed says so
        try:
            printed, _ = program.communicate(timeout=LIMIT)
        finally:
            program.kill()
    return ended(program.returncode, printed)


def waiting(pipe):
    """How many bytes of a pipe are not read yet."""
    return struct.unpack("i", fcntl.ioctl(pipe, termios.FIONREAD, b"\0" * 4))[0]


def ended(status, printed):
    return printed if status == 0 else printed + b"(exit status %d)" % status


# ---------------------------------------------------------------------------------------------
# Lines that the model answers
# ---------------------------------------------------------------------------------------------

def frame(content):
    return b"\x01" + field(len(content), 2) + field(crc16(content), 2) + content


def any_line(draw):
    """A line of some kind: commands, blocks, long writes, halves, refused frames, bytes at random, and lines that feed nothing."""
    command = frame(bytes([10, draw.randint(1, 3)]) + field(draw.randint(0, 17), 2))
    block = frame(bytes([10, 10, draw.randrange(256), draw.randrange(256)]))
    entry = field(0x0101FF + 256 * draw.randrange(8), 8) + field(2, 2) + bytes([1, draw.randrange(2)])
    unknown = field(999, 8)
    write = frame(field(23, 1) + field(2, 2) + entry + unknown + field(999, 2) + bytes(999))       # the longest there is
    piece = draw.choice((command, block, write, write, write, write, b"\x06", command[:draw.randint(1, 8)], command + block,
                         draw.randbytes(draw.randint(1, 20)), write[:draw.randint(1, 1028)]))
    text = piece.hex().upper().encode()
    return draw.choice((text,) * 12 + (text.lower(), text[1:], b"", text + b"00" * 1029, text[:-1] + b"\r"))


def expected(lines):
    """What 01 says of the lines, by the model: "fed to connection 0 open at rank 2"; what a call does not take is dropped."""
    box, printed = Box(), []
    box.open(0, 2)
    for line in lines:
        answer = 255
        if re.fullmatch(rb"(?:[0-9A-F]{2}){1,1029}", line):
            answer = box.bytes_(0, 4096, bytes.fromhex(line.decode()))[0]
        relays = sum(relay.state << k for k, relay in enumerate(box.relays))
        printed.append(b"%02X%04X\n" % (answer, relays))
    return b"".join(printed)


# ---------------------------------------------------------------------------------------------
# The tests
# ---------------------------------------------------------------------------------------------

def main():
    draw = random.Random(1)
    lines = []
    while sum(map(len, lines)) < 6000000:
        lines += [any_line(draw) for _ in range(1000)]
    much, answers = b"\n".join(lines), expected(lines)
    if lines[-1] == b"" or not EXAMPLE.endswith(b"\n") or expected(EXAMPLE.split(b"\n")[:-1]) != ANSWERS:
        sys.exit("console: the tests' own lines are not what they should be")
    tests = [
        ("01's example", run, EXAMPLE, ANSWERS),
        ("01's example without its last newline", run, EXAMPLE[:-1], ANSWERS),
        ("01's example byte by byte", run_byte_by_byte, EXAMPLE, ANSWERS),
        ("01's example byte by byte without its last newline", run_byte_by_byte, EXAMPLE[:-1], ANSWERS),
        ("nothing", run, b"", b""),
        ("an empty line", run, b"\n", b"FF0000\n"),
        ("%d lines through a pipe" % len(lines), run, much, answers),
        ("%d lines from a file" % len(lines), run_from_file, much, answers),
    ]
    failed = 0
    for name, play, text, told in tests:
        printed = play(text)
        if printed != told:
            failed += 1
            same = len(os.path.commonprefix([printed, told]))
            print("console: of %s %d bytes are printed and %d are due; they differ at %d: %r and %r"
                  % (name, len(printed), len(told), same, printed[same:same + 20], told[same:same + 20]))
    if failed:
        return 1
    print("console: %d inputs, %d lines and %.1f MB the longest, printed as 01 says" % (len(tests), len(lines), len(much) / 1e6))
    return 0


if __name__ == "__main__":
    sys.exit(main())
