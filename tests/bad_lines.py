#!/usr/bin/env python3
"""What docs/REPLAY.md says of the replay tool besides the box: its examples, lines that are no event, lines of any length, and bytes at
random. Each line has exactly one answer, and no input crashes the tool. The C side is built with sanitizers here, and without."""

import random
import re
import subprocess
import sys

TOOLS = ("replay", "replay-san", "replay-peer-san")

PAGE = "docs/REPLAY.md"

# A connection that is shut, and the whole state after `power`.
SHUT = " 0,0,0,0,0,0,0"
FRESH = "C 0 I" + " 0,0,0" * 8 + " R" + " 0,0" * 16 + " N" + SHUT * 4 + " P 0"

# Rows of every kind. A pulse of relay 1 for 3 ms and one of relays 1 and 2 for the longest time are asked for and run with rows of other
# lengths: from 31 on all calls share one row.
ROWS = [
    ("open 0 2", "1"),
    ("pass 1 0", "4"), ("pass 1 30", "4"), ("pass 0 30", "4"), ("pass 1 31", "1"), ("pass 1 32", "1"), ("pass 1 64", "1"), ("pass 1", "1"),
    ("bytes 0 4096 06 0", "4 0 0 0 -"), ("bytes 0 4096 06 30", "4 0 0 0 -"), ("bytes 0 4096 - 30", "4 0 0 0 -"), ("bytes 1 4096 06 30", "3 0 0 0 -"),
    ("bytes 0 4095 06 31", "4 0 0 0 -"), ("bytes 0 4096 06 31", "2 1 0 0 -"), ("bytes 0 4096 06 64", "2 1 0 0 -"), ("bytes 0 4096 - 64", "0 0 0 0 -"),
    ("bytes 0 4096 010008FFFF0A06000100000003 30", "4 0 0 0 -"),
    ("bytes 0 4096 010008FFFF0A06000100000003 64", "1 13 0 0 -"),
    ("bytes 0 4096 010008FFFF0A0703FEFFFFFFFF 31", "1 13 0 0 -"),
    ("state", "C 4 I" + " 0,0,0" * 8 + " R 1,0" + " 0,0" * 15 + " N 1,2,1,1,0,0,0" + SHUT * 3 + " P 2 1,1,3 3,2,4294967295 was 0"),
    ("pass 3 30", "4"),
    ("pass 3 32", "1"),
    ("state", "C 7 I" + " 0,0,0" * 8 + " R 0,3 1,0" + " 0,0" * 14 + " N 1,2,1,1,0,0,0" + SHUT * 3 + " P 1 3,2,4294967295 was 0"),
    ("pass 4294967294", "1"),
    ("pass 1 64", "1"),
    ("state", "C 4294967302 I" + " 0,0,0" * 8 + " R 0,3 0,4294967295" + " 0,0" * 14 + " N 1,2,1,1,0,0,0" + SHUT * 3 + " P 0"),
    ("power", "1"), ("state", FRESH),
]

# Places of every kind, with rows of every kind. Pulses of relays 9, 16, 1 and 12 stand, of 3, 9, 2 and 5 ms; the second module goes, then the first
# while its pulse runs, and comes back: the records of their own pulses change, and no others. Relay 9 was closed before its pulse. Connection 0
# has asked for no Monitor messages, connection 1 has just been opened.
DECK = [
    ("fill 1 0", "4"), ("fill 1 30", "4"), ("fill 3 30", "4"), ("empty 0 30", "4"), ("empty 255 0", "4"), ("fill 0", "11"), ("fill 3 64", "11"),
    ("fill 255 31", "11"), ("empty 0", "11"), ("empty 3 31", "11"), ("empty 255", "11"), ("empty 1", "1"), ("empty 2 64", "1"), ("state", FRESH),
    ("open 0 2", "1"), ("bytes 0 4096 010003FFFF050004", "1 8 0 0 -"), ("bytes 0 4096 010004FFFF0A010009", "11 9 0 0 -"),
    ("fill 1 31", "1"), ("fill 1 64", "1"), ("fill 00000000000000000002 064", "1"), ("fill 2", "1"), ("open 1 1", "1"),
    ("bytes 0 4096 010004FFFF0A010009", "1 9 0 0 -"), ("bytes 0 4096 010004FFFF0A010011", "11 9 0 0 -"),
    ("bytes 0 4096 010008FFFF0A06000900000003 64", "1 13 0 0 -"), ("bytes 0 4096 010008FFFF0A06001000000009", "1 13 0 0 -"),
    ("bytes 0 4096 010008FFFF0A06000100000002 32", "1 13 0 0 -"), ("bytes 0 4096 010008FFFF0A06000C00000005", "1 13 0 0 -"),
    ("state", "C 0 I" + " 0,0,0" * 8 + " R" + " 0,0" * 8 + " 1,0" + " 0,0" * 7 + " N 1,2,0,0,0,0,0 1,1,1,1,0,1,0" + SHUT * 2
     + " P 4 256,256,3 32768,32768,9 1,1,2 2048,2048,5 was 256"),
    ("empty 2 30", "4"), ("empty 2 64", "1"), ("empty 2 31", "1"), ("fill 2 32", "1"), ("pass 1", "1"), ("empty 1 0", "4"), ("empty 1", "1"),
    ("state", "C 1 I" + " 0,0,0" * 8 + " R" + " 0,0" * 16 + " N 1,2,0,0,0,0,0 1,1,1,1,0,1,0" + SHUT * 2
     + " P 4 0,0,2 0,0,9 1,1,2 0,0,5 was 0"),
    ("fill 1 64", "1"), ("pass 12 32", "1"),
    ("state", "C 13 I" + " 0,0,0" * 8 + " R 1,1" + " 0,0" * 15 + " N 1,2,0,0,0,0,0 1,1,1,1,0,1,0" + SHUT * 2 + " P 2 1,1,1 0,0,5 was 0"),
    ("collect 0 4096", "0 0 -"), ("empty 1", "1"), ("empty 2", "1"),
    ("state", "C 13 I" + " 0,0,0" * 8 + " R 1,1" + " 0,0" * 15 + " N 1,2,0,0,0,0,0 1,1,1,1,0,0,0" + SHUT * 2 + " P 2 1,1,1 0,0,5 was 0"),
    ("fill 2", "1"), ("collect 1 4095", "4 0 -"), ("close 1", "1"), ("open 1 1 1", "1"),
    ("state", "C 13 I" + " 0,0,0" * 8 + " R 1,1" + " 0,0" * 15 + " N 1,2,0,0,0,0,0 1,1,1,1,0,1,1" + SHUT * 2 + " P 2 1,1,1 0,0,5 was 0"),
    ("power", "1"), ("state", FRESH), ("open 0 2", "1"), ("bytes 0 4096 010004FFFF0A01000D", "11 9 0 0 -"), ("close 0", "1"),
]

# Openings with every kind of word for strictness. 0, however many digits it has, says not strict, and so does a line without the word. The
# message with 0xFFFF that follows masks no relay. A refused opening, of an open connection, at a bad rank or of no connection, changes nothing.
UNCHECKED = "4096 010004FFFF0A0A0000"
STRICT = [
    ("open 0 2", "1"), (f"bytes 0 {UNCHECKED}", "1 9 0 0 -"), ("open 0 2 1", "12"), (f"bytes 0 {UNCHECKED}", "1 9 0 0 -"),
    ("open 1 3 1", "13"), ("open 1 2 0", "1"), (f"bytes 1 {UNCHECKED}", "1 9 0 0 -"), ("open 4 2 1", "3"), ("open 255 255 255", "3"),
    ("open 2 2 00000000000000000000", "1"), (f"bytes 2 {UNCHECKED}", "1 9 0 0 -"),
    ("open 3 2 00000000000000000001", "1"), (f"bytes 3 {UNCHECKED}", "7 9 0 0 -"), ("open 3 2 0", "12"), (f"bytes 3 {UNCHECKED}", "7 9 0 0 -"),
    ("state", "C 0 I" + " 0,0,0" * 8 + " R" + " 0,0" * 16 + " N" + " 1,2,1,1,0,0,0" * 3 + " 1,2,1,1,0,0,1 P 0"),
] + [pair for word in ("2", "3", "127", "128", "254", "255", "0255") for pair in (
    ("close 0", "1"), (f"open 0 0 {word}", "1"), (f"bytes 0 {UNCHECKED}", "7 9 0 0 -"))] + [
    ("state", "C 0 I" + " 0,0,0" * 8 + " R" + " 0,0" * 16 + " N 1,0,1,0,0,0,1" + " 1,2,1,1,0,0,0" * 2 + " 1,2,1,1,0,0,1 P 0"),
    ("close 3", "1"), ("power", "1"), ("state", FRESH),
]

# Contents of every wrong length with the place that is told of them, and behind each something else, with which none is told. On connection 1
# nobody is logged in, and connection 2 is shut.
PLACES = [
    ("open 0 2", "1"), ("open 1 0", "1"),
    ("bytes 0 4096 010003FFFF0A0300", "20 8 3 0 -"), ("bytes 0 4096 06", "2 1 0 0 -"),
    ("bytes 0 4096 010006FFFF050004000000", "20 11 6 0 -"), ("bytes 0 4096 -", "0 0 0 0 -"),
    ("bytes 0 4096 010002FFFF1500", "20 7 2 0 -"), ("bytes 0 4096 00", "5 1 0 0 -"),
    ("bytes 0 4096 010001FFFF1A", "20 6 1 0 -"), ("bytes 0 4096 010002FFFF1A00", "11 7 0 0 -"),
    ("bytes 0 4096 010008FFFF0500040000000000", "21 13 7 0 -"), ("bytes 0 4095 06", "4 0 0 0 -"),
    ("bytes 0 4096 010009FFFF0A0600010000000100", "21 14 8 0 -"), ("bytes 0 4096 06 30", "4 0 0 0 -"),
    ("bytes 0 4096 01000CFFFF15000100000000000001FF00", "21 17 11 0 -"), ("bytes 2 4096 06", "3 0 0 0 -"),
    ("bytes 0 4096 010003FFFF1A0000", "21 8 2 0 -"), ("bytes 1 4096 010003FFFF1A0000", "9 8 0 0 -"),
    ("bytes 0 4096 010003FFFF150001", "22 8 3 0 -"), ("bytes 0 4096 0100030000150001", "7 8 0 0 -"),
    ("bytes 0 4096 01000DFFFF17000100000000000001FF0001", "22 18 13 0 -"), ("bytes 0 4096 010000FFFF", "8 5 0 0 -"),
    ("bytes 0 4096 01000CFFFF17000200000000000001FF00", "22 17 12 0 -"), ("bytes 0 4096 010401FFFF" + "00" * 1025, "6 1030 0 0 -"),
    ("bytes 0 4096 010400FFFF150080" + "00" * 1021, "22 1029 1024 0 -"), ("bytes 0 4096 010004FFFF0A0A0000", "1 9 0 0 -"),
    ("bytes 0 4096 010400FFFF15007F" + "00" * 1021, "21 1029 1019 0 -"), ("bytes 0 4096 010003FFFF1500", "0 7 0 0 -"),
    ("bytes 0 4096 0206", "22 1 3 0 -"), ("bytes 0 4096 06", "2 1 0 0 -"), ("collect 0 4095", "4 0 -"), ("collect 1 4096", "0 0 -"),
    ("state", "C 0 I" + " 0,0,0" * 8 + " R" + " 0,0" * 16 + " N 1,2,1,1,0,0,0 1,0,1,0,0,0,0" + SHUT * 2 + " P 0"),
]

# "any other line": `?`
OTHER = [
    "", " ", "?", "open", "open 0", "open 0 256", "open -1 2", "open +1 2", "open 0x1 2", "open  0 2", "open 0 2 ", " open 0 2",
    "Open 0 2", "close", "close 256", "close 0 0", "level 1", "level 1 256", "level 1 1 1", "pass", "pass 4294967296", "pass 1.0", "pass 1e3",
    "pass 99999999999999999999999999", "collect 0", "collect 0 65537", "collect 0 4096 -", "bytes 0 4096", "bytes 0 4096 0", "bytes 0 4096 0g",
    "bytes 0 4096 0a", "bytes 0 65537 06", "bytes 256 4096 06", "bytes 0 4096 --", "power 1", "power" + " 0" * 39,
    "power" + " 0" * 41, "power" + " 0 0 0 2" * 8 + " 0" * 8, "power 4294967296 0 0 0" + " 0" * 36, "power 0 0 18446744073709551616 0" + " 0" * 36,
    "state 0", "state ", "states", "open\t0\t2", "bytes 0 4096 " + "0" * 200001, "bytes 0 4096 " + "0" * 200002, "x" * 1000000, "open 0 2\r",
    "open 0 2\0", "\0", "pass 1 65", "pass 1 -", "pass 1 +31", "pass 1 -1", "pass 1 x", "pass 1 1F", "pass 1 31 31", "pass 1 31 ", "pass 1 ",
    "pass 1  31", "pass 4294967296 31", "pass 1 99999999999999999999999999", "pass 1 4294967327", "bytes 0 4096 06 65", "bytes 0 4096 06 -",
    "bytes 0 4096 06 0A", "bytes 0 4096 06 31 31", "bytes 0 4096 06 31 ", "bytes 0 4096 06 ", "bytes 0 4096 06  31", "bytes 0 4096 - 65",
    "bytes 0 4096 0 31", "bytes 0 4096 0g 31", "bytes 0 4096 06 18446744073709551647", "bytes 0 65537 06 31", "collect 0 4096 31", "level 1 1 31",
    "open 0 2 256", "open 0 2 -1", "open 0 2 +1", "open 0 2 -", "open 0 2 x", "open 0 2 1F", "open 0 2 strict", "open 0 2 1 1", "open 0 2 1 ",
    "open 0 2  1", "open 0 256 1", "open 256 2 1", "open 0 2 18446744073709551617", "open 0 2 000000000000000000001", "open 0 2 1\r",
    "state 31", "power 31", "bytes 0 4096 " + "00" * 100001 + " 31", "bytes 0 4096 " + "00" * 100000 + " 65",
    "fill", "fill ", "fill 256", "fill 257", "fill -1", "fill +1", "fill x", "fill 1F", "fill 1 65", "fill 1 -", "fill 1 -1", "fill 1 1F",
    "fill 1 31 31", "fill 1 31 ", "fill 1 ", "fill  1", "fill 1  31", " fill 1", "Fill 1", "fill1", "fills 1", "fill 256 31",
    "fill 18446744073709551617", "fill 1\r", "fill 000000000000000000001", "fill 1 4294967327", "empty", "empty ", "empty 256", "empty 258",
    "empty -1", "empty x", "empty 1 65", "empty 1 -", "empty 1 x", "empty 1 31 31", "empty 1 31 ", "empty 1 ", "empty  1", "empty 256 31", "Empty 1",
    "emptied 1", "empty 4294967297", "empty\t1",
]


def examples():
    """The page's own examples: blocks of lines that are set in, each a line for the tool, two or more blanks, and what it prints."""
    blocks, block = [], []
    with open(PAGE, encoding="utf-8") as page:
        for line in list(page) + [""]:
            if line.startswith("    "):
                block.append(tuple(re.split(r" {2,}", line.strip(), maxsplit=1)))
            elif block and not line.strip():
                blocks.append(block)
                block = []
    return blocks


def play(tool, text):
    run = subprocess.run(["host/exec", tool], input=text, capture_output=True, timeout=120)
    if run.returncode != 0 or run.stderr:
        sys.exit(f"bad_lines: {tool} ended with {run.returncode}: {run.stderr[-2000:].decode(errors='replace')}")
    return run.stdout


def expect(tool, what, pairs):
    said = play(tool, "".join(line + "\n" for line, _ in pairs).encode("latin-1")).decode("latin-1").split("\n")
    for (line, answer), got in zip(pairs, said):
        if got != answer:
            sys.exit(f"bad_lines: {tool}, {what}: {line[:60]!r} gave {got[:200]!r}, not {answer[:200]!r}")
    if len(said) != len(pairs) + 1:
        sys.exit(f"bad_lines: {tool}, {what}: {len(said) - 1} lines for {len(pairs)}")


def main():
    noise = random.Random(7)
    words = [b"open ", b"close ", b"level ", b"pass ", b"fill ", b"empty ", b"collect ", b"bytes ", b"state", b"power", b"0", b"1", b" ", b"-", b"4096",
             b"06", b"31", b"64", b"\n"]
    text = b"".join(noise.choice(words) if noise.random() < 0.9 else bytes([noise.randrange(256)]) for _ in range(60000)) + b"\n"
    pages = examples()
    if [len(block) for block in pages] != [7, 13, 12, 10, 20]:
        sys.exit(f"bad_lines: {PAGE} has other examples than were counted: {[len(block) for block in pages]}")
    # The longest piece there is: 100,000 stray bytes, of which the first is taken; and the same unread, of a shut connection.
    longest = [("open 0 0", "1"), ("bytes 0 4096 " + "00" * 100000, "5 1 0 0 -"), ("bytes 1 4096 " + "00" * 100000, "3 0 0 0 -"),
               ("bytes 0 4096 " + "00" * 100000 + " 64", "5 1 0 0 -"), ("bytes 0 4096 " + "00" * 100000 + " 30", "4 0 0 0 -")]
    for tool in TOOLS:
        for block in pages:
            expect(tool, "an example of the page", block)
        expect(tool, "rows", ROWS)
        expect(tool, "places of modules", DECK)
        expect(tool, "openings", STRICT)
        expect(tool, "places", PLACES)
        expect(tool, "other lines", [(line, "?") for line in OTHER])
        expect(tool, "the longest piece", longest)
        lines = play(tool, text).count(b"\n")
        if lines != text.count(b"\n"):
            sys.exit(f"bad_lines: {tool}: {lines} lines for {text.count(10)} of noise")
        if play(tool, b"open 0 2") not in (b"1\n",):
            sys.exit(f"bad_lines: {tool}: a last line without its end has no answer")
    print(f"bad_lines: {sum(map(len, pages))} lines of the page, {len(ROWS)} with rows, {len(DECK)} with modules, {len(STRICT)} with openings, "
          f"{len(PLACES)} with places, {len(OTHER)} other lines, {text.count(10)} lines of noise, each answered by {', '.join(TOOLS)}")


main()
