#!/usr/bin/env python3
"""Traces for the box: lists of replay lines made from a seed.

The maker plays each line to a model of its own as it goes.  From it it learns how many bytes were
taken, so that untaken bytes can be offered again first, which counts lie near a setpoint, and when
the next pulse ends.  The model's printed lines come with the trace.

    python3 tests/traces.py SEED EVENTS      prints one trace
"""

import random
import sys
from collections import namedtuple

from model import Box, DECK_IDS, INPUT_IDS, PLACES, PULSES, RELAY_IDS, TOP32, TOP64, crc16, field, number

Trace = namedtuple("Trace", "lines printed events")

LONGEST_PIECE = 100000          # bytes a line can hold: 200,000 digits

EVENTS = ("open", "close", "level", "pass", "collect", "bytes", "fill", "empty")


def answer_of(line, printed):
    """The answer number an event got; None for `power`, `state` and lines that are none."""
    if line.split(" ", 1)[0] not in EVENTS:
        return None
    first = printed.split(" ", 1)[0]
    return int(first) if first.isdigit() else None


def framed(content, sent=None, length=None):
    """A frame, right unless another checksum or length is given."""
    sent = crc16(content) if sent is None else sent
    length = len(content) if length is None else length
    return b"\x01" + field(length, 2) + field(sent, 2) + content


UNCHECKED = 0xFFFF

# Two bytes, as a number with the low byte first, whose checksum is 0xFFFF.
ENDING = next(ending for ending in range(65536) if crc16(ending.to_bytes(2, "little")) == UNCHECKED)


def truly_0xffff(content):
    """The content with another end, so that its true checksum is 0xFFFF.

    Two more bytes do to a checksum what they do to none, once it is put over them (exclusive or), low byte first.
    """
    begun = content[:-2]
    return begun + (ENDING ^ crc16(begun)).to_bytes(2, "little")


# Of each type without a list where its fields begin, and where the last of them ends.
FIELDS = {5: (1, 3, 7), 7: (1, 9), 10: (1, 2, 4, 8), 26: (1, 2)}


def edges(content):
    """Where the fields of a content begin, and where the last of them ends.  Those of a list go by the lengths that stand in it, as far
    as it goes.
    """
    if content[0] not in (21, 23):
        return list(FIELDS.get(content[0], (1,)))
    found, position = [1, 3], 3
    while position < len(content):
        if content[0] == 23:
            found += [position + 8, position + 10]
            position += 2 + number(content[position + 8:position + 10])
        position += 8
        found.append(position)
    return found


def cut_in(content):
    """Of a content that ends within a list, where it ends."""
    position = 3
    while True:
        rest = len(content) - position
        if rest < 8:
            return "in an ID" if rest else "before an ID"
        if content[0] == 23:
            if rest < 10:
                return "in a length" if rest == 9 else "before a length"
            size = number(content[position + 8:position + 10])
            if rest < 10 + size:
                return "in a block" if rest > 10 else "before a block"
            position += 2 + size
        position += 8


KNOWN_IDS = INPUT_IDS + RELAY_IDS

# Each of them is next to a known one in some way: one too low or high, another low byte, a bit above,
# the order of the bytes turned.
UNKNOWN_IDS = (
    0, 1, 0xFF, 0x00FF, 0x09FF, 0x0AFF, 0x10FF, 0x0100FF, 0x0111FF, 0x0118FF, 0x0201FF, 0x0209FF, 0x0001FE,
    0x0101FE, 0x0109FE, 0x0200, 0x010200, 0x010001FF, 0x01000101FF, 0x01000109FF, 0x8000000000000000 | 0x01FF,
    0x8000000000000000 | 0x0101FF, 0x01000000000001FF, 0xFF01000000000000, 0xFF01010000000000, TOP64,
)

WRONG_TYPES = (0, 1, 2, 3, 4, 6, 8, 9, 11, 12, 13, 14, 15, 16, 17, 18, 19, 20, 22, 24, 25, 27, 28, 29, 30,
               31, 32, 64, 125, 126, 127, 128, 133, 135, 138, 149, 151, 154, 254, 255)

BAD_LINES = (
    "", " ", "?", "-", "0", "hello", "POWER", "power 1", "power 0 0 0", "power on", "Open 0 2", "open", "open 0",
    "open 256 1", "open 0 256", "open x 1", "open 0 -1", "open 99999999999999999999999 1", "open 0 2 256", "open 0 2 -1",
    "open 0 2 -", "open 0 2 x", "open 0 2 strict", "open 0 2 ", "open 0 2 1 1", "open 0 2  1", "open 0 256 1", "open 256 2 1",
    "close", "close 256", "close 0 0", "close -", "level 1", "level 256 0", "level 1 256", "level 1 1 1",
    "level one 1", "pass", "pass -1", "pass 4294967296", "pass 18446744073709551616", "pass x", "pass 1.5", "pass 1 ",
    "pass 1 65", "pass 1 -", "pass 1 -1", "pass 1 x", "pass 1 31 31", "pass 4294967296 31", "collect 0",
    "collect 0 65537", "collect 256 4096", "collect 0 4096 0", "bytes", "bytes 0", "bytes 0 4096", "bytes 0 4096 0",
    "bytes 0 4096 060", "bytes 0 4096 0g", "bytes 0 4096 0G", "bytes 0 4096 --", "bytes 0 4096 010003ffff050000",
    "bytes 0 4096 0x06", "bytes 0 65537 06", "bytes 256 4096 06", "bytes 0 4096 06 ", "bytes 0 4096 06 65",
    "bytes 0 4096 06 -", "bytes 0 4096 06 0A", "bytes 0 4096 06 31 31", "bytes 0 4096 0 31", "collect 0 4096 31",
    "level 1 1 31", "bytes 0 -1 06", "state 0", "states", "stat", "State", "read 0", "read 0 4096 06",
    "byte 0 4096 06", "fill", "fill ", "fill 256", "fill 257", "fill -1", "fill x", "fill 1 65", "fill 1 -", "fill 1 x",
    "fill 1 31 31", "fill 1 ", "fill  1", "fill 256 31", "Fill 1", "filled 1", "empty", "empty 256", "empty 258", "empty -1",
    "empty 1 65", "empty 1 -1", "empty 1 31 31", "empty 2 ", "empty one", "emptied 1",
)


class Maker:
    """Makes one trace."""

    def __init__(self, seed):
        self.rng = random.Random(seed)
        self.box = Box()
        self.lines = []
        self.printed = []
        self.events = 0
        self.waiting = [b""] * 4                    # bytes of each connection not taken so far
        self.checked = False                        # whether messages are made for a strict connection

    # -- small choices ---------------------------------------------------------------------------

    def one_in(self, n):
        return self.rng.randrange(n) == 0

    def pick(self, *choices):
        return self.rng.choice(choices)

    def weighted(self, table):
        return self.rng.choices([entry for entry, _ in table], [weight for _, weight in table])[0]

    def open_ones(self, rank=0):
        return [c for c in range(4) if self.box.connections[c].open and self.box.connections[c].rank >= rank]

    def connection(self):
        """Mostly an open one; sometimes any of the four, sometimes any byte."""
        chance = self.rng.randrange(100)
        if chance < 3:
            return self.pick(4, 5, 127, 128, 131, 252, 255, self.rng.randrange(256))
        opened = self.open_ones()
        if chance < 7 or not opened:
            return self.rng.randrange(4)
        return self.rng.choice(opened)

    def capacity(self):
        chance = self.rng.randrange(100)
        if chance < 4:
            return self.pick(0, 1, 5, 102, 3437, 4095, 4095, 4095, self.rng.randrange(4096))
        if chance < 90:
            return 4096
        return self.pick(4097, 5000, 8192, 65535, 65536, self.rng.randrange(4096, 65537))

    def row(self, one_in):
        """The word for the lent row's length; mostly none, for 31."""
        if not self.one_in(one_in):
            return ""
        return f" {self.pick(0, 1, 16, 29, 30, 30, 30, 31, 31, 32, 32, 33, 62, 63, 64, 64)}"

    def relay(self):
        """A relay that there is; where modules are present one in three of theirs."""
        deck = self.box.deck()
        return self.rng.choice(deck) if deck and self.one_in(3) else self.rng.randrange(1, 9)

    def states(self):
        """Those of relays 1 to 8."""
        return self.box.relay_states() & 0xFF

    # -- lines -----------------------------------------------------------------------------------

    def say(self, line):
        printed = self.box.line(line)
        self.lines.append(line)
        self.printed.append(printed)
        if answer_of(line, printed) is not None:
            self.events += 1
        return printed

    def offer(self, c, piece, cap=None):
        """Offers a piece, into a buffer and with a row of any length if none is given; how many bytes were taken."""
        row = self.row(12) if cap is None else ""
        cap = self.capacity() if cap is None else cap
        return int(self.say(f"bytes {c} {cap} {piece.hex().upper() or '-'}{row}").split(" ")[1])

    def send(self, c, content):
        """One right message in one piece."""
        self.offer(c, framed(content), 4096)

    # -- events besides bytes ----------------------------------------------------------------------

    def do_power(self):
        self.waiting = [b""] * 4
        if self.one_in(8):
            self.say("power")
        else:
            self.say("power " + " ".join(str(n) for n in self.settings()))
        for place in PLACES:
            if self.one_in(3):
                self.say(f"fill {place}")
        for c in range(4):
            if not self.one_in(5):
                self.open_again(c)

    def settings(self):
        numbers = []
        for _ in range(8):
            numbers += [self.count_setpoint(), self.count_setpoint(), self.usage_setpoint(), self.rng.randrange(2)]
        return numbers + [self.usage_setpoint() for _ in range(8)]

    def count_setpoint(self):
        return self.pick(0, 0, 1, 2, 3, 100, 128, 255, 256, 2147483647, 2147483648, TOP32 - 1, TOP32,
                         self.rng.randrange(TOP32 + 1))

    def usage_setpoint(self):
        return self.pick(0, 0, 1, 2, 100, 1000, 65536, 2147483648, TOP32, TOP32 + 1, TOP64,
                         self.rng.randrange(1, 100000), self.rng.randrange(TOP64 + 1))

    def rank(self):
        return self.pick(2, 2, 2, 2, 2, 2, 1, 1, 1, 0)

    def bad_rank(self):
        return self.pick(3, 3, 4, 127, 128, 129, 130, 254, 255, self.rng.randrange(3, 256))

    def do_open(self):
        shut = [c for c in range(4) if not self.box.connections[c].open]
        chance = self.rng.randrange(10)
        if shut and chance < 6:
            c = self.rng.choice(shut)
        elif chance < 9:
            c = self.rng.randrange(4)
        else:
            c = self.pick(4, 5, 128, 255, self.rng.randrange(256))
        self.say(f"open {c} {self.bad_rank() if self.one_in(4) else self.rank()}{self.strict()}")

    def strict(self):
        """The word that says whether an opening is strict; often none, for one that is not."""
        if self.one_in(2):
            return ""
        return f" {self.pick(0, 0, 1, 1, 1, 2, 3, 128, 254, 255, self.rng.randrange(256))}"

    def open_again(self, c):
        """Sometimes a bad rank is tried first."""
        while self.one_in(3):
            self.say(f"open {c} {self.bad_rank()}{self.strict()}")
        self.say(f"open {c} {self.rank()}{self.strict()}")

    def do_close(self):
        """Rather one with half a message.  What was not taken is mostly forgotten with it."""
        half = [c for c in self.open_ones() if self.box.connections[c].joined]
        c = self.rng.choice(half) if half and not self.one_in(3) else self.connection()
        c = self.pick(4, 128, 255) if self.one_in(20) else c
        self.say(f"close {c}")
        if c < 4:
            rest = self.waiting[c]
            self.waiting[c] = rest if len(rest) < 30 and self.one_in(2) else b""
            if not self.one_in(4):
                self.open_again(c)

    def do_level(self):
        k = self.rng.randrange(1, 9)
        if self.one_in(10):
            good_k, good_v = self.pick((True, False), (False, True), (False, False))
            k = k if good_k else self.pick(0, 9, 10, 128, 129, 255)
            v = self.rng.randrange(2) if good_v else self.pick(2, 2, 3, 128, 129, 255)
            self.say(f"level {k} {v}")
        elif self.one_in(4):
            self.say(f"level {k} {self.box.inputs[k - 1].level}")
        else:
            self.say(f"level {k} {1 - self.box.inputs[k - 1].level}")

    def do_pass(self):
        ms = self.some_ms()
        self.say(f"pass {ms}{self.row(6 if ms else 2)}")

    def some_ms(self):
        """Mostly small; where a pulse runs, or a usage towards its setpoint, often just to it."""
        if self.box.queue and not self.one_in(4):
            return self.ms_to_an_end()
        if self.one_in(3):
            gaps = [device.usage_setpoint - device.usage + self.pick(-1, 0, 1)
                    for device in self.box.inputs + self.box.relays
                    if device.usage_setpoint and device.usage < device.usage_setpoint]
            gaps = [gap for gap in gaps if 0 <= gap <= TOP32]
            if gaps:
                return self.rng.choice(gaps)
        return self.pick(0, 1, 1, 2, 10, 999, 1000, 65535, 65536, 2147483648, TOP32, self.rng.randrange(100000),
                         self.rng.randrange(TOP32 + 1))

    def ms_to_an_end(self):
        """Up to the end of the running pulse or of one behind it; sometimes one less or more."""
        lefts = self.lefts()
        ends = self.pick(1, 1, 1, 2, self.rng.randrange(len(lefts)) + 1, len(lefts))
        return min(sum(lefts[:ends]) + self.pick(-1, 0, 0, 0, 1), TOP32)

    def lefts(self):
        """The ms that each pulse has to run."""
        return [self.box.left] + [pulse.duration for pulse in self.box.queue[1:]]

    def do_place(self):
        """Filled or emptied; sometimes again, sometimes a place that there is not."""
        chance, place = self.rng.randrange(4), self.pick(*PLACES)
        if chance == 0:
            self.say(f"{self.pick('fill', 'empty')} {self.bad_place()}{self.row(2)}")
        else:
            self.say(f"{self.again(place) if chance == 1 else self.turned(place)} {place}{self.row(2)}")

    def turned(self, place):
        """What changes the place."""
        return "empty" if place in self.box.filled else "fill"

    def again(self, place):
        """What does not."""
        return "fill" if place in self.box.filled else "empty"

    def bad_place(self):
        return self.pick(0, 0, 0, 3, 3, 3, 4, 5, 129, 130, 255, self.rng.randrange(3, 256))

    def do_collect(self):
        c = self.rng.randrange(4) if self.one_in(6) else self.connection()
        self.say(f"collect {c} {self.capacity()}")

    def do_state(self):
        self.say("state")

    def do_bad_line(self):
        if self.one_in(50):
            size = LONGEST_PIECE + self.pick(0, 1)              # at the limit and above it
            self.say("bytes %d 4096 %s" % (self.connection(), "06" * size))
        elif self.one_in(4):
            digits = framed(self.request_content()).hex().upper()
            spoilt = self.pick(digits.replace("F", "f").replace("A", "a") + "ff", digits[:-1], digits + "G0", digits + "+")
            self.say(f"bytes {self.connection()} 4096 {spoilt}")
        elif self.one_in(12):
            name, top = self.pick(("fill", 256), ("empty", 256), ("pass", TOP32 + 1))
            self.say(f"{name} {top + self.pick(0, 1, 2)}")
        elif self.one_in(6):
            line = ["power"] + [str(n) for n in self.settings()]
            spoil = self.pick("drop", "add", "switch", "large", "word")
            if spoil == "drop":
                line.pop()
            elif spoil == "add":
                line.append("0")
            elif spoil == "switch":
                line[4 * self.rng.randrange(1, 9)] = "2"
            elif spoil == "large":
                line[4 * self.rng.randrange(1, 9) - 1] = str(TOP64 + 1)
            else:
                line[self.rng.randrange(1, 41)] = "-"
            self.say(" ".join(line))
        else:
            self.say(self.rng.choice(BAD_LINES))

    # -- pieces ------------------------------------------------------------------------------------

    def do_talk(self):
        """Offers one piece to one connection: first what it has not taken, then new messages."""
        c = self.connection()
        if c > 3:
            self.offer(c, self.message())
            return
        if not self.waiting[c]:
            self.waiting[c] = self.new_bytes(c)
        stream = self.waiting[c]
        piece = stream[:min(self.cut(stream), LONGEST_PIECE)]
        taken = self.offer(c, piece)
        if taken < len(piece) and self.one_in(12):
            taken = len(piece)                                  # untaken bytes dropped
            if len(stream) - taken > 30 or self.one_in(2):
                taken = len(stream)
        self.waiting[c] = stream[taken:]

    def new_bytes(self, c):
        """The rest of a message whose header nobody meant, or one or more new messages."""
        self.checked = self.box.connections[c].strict == 1
        missing = self.missing(c)
        if missing and not self.one_in(4):
            return self.filler(missing)
        stream = self.message()
        while self.one_in(3):
            stream += self.message()
        if self.one_in(25):
            stream = stream[:self.rng.randrange(1, len(stream) + 1)]        # broken off
        return stream

    def missing(self, c):
        """How many bytes the half-read message of the connection lacks, so far as its bytes tell."""
        joined = self.box.connections[c].joined
        if len(joined) < 3:
            return 0
        return 5 + number(joined[1:3]) - len(joined)

    def filler(self, size):
        kind = self.rng.randrange(4)
        if kind == 0:
            return bytes([self.pick(0x00, 0x01, 0x06, 0xFF)]) * size
        if kind == 1:
            return (framed(self.request_content()) * (size // 8 + 1))[:size]
        return self.rng.randbytes(size)

    def cut(self, stream):
        """How many bytes of the stream make the next piece."""
        size = len(stream)
        chance = self.rng.randrange(100)
        if chance < 60:
            return size
        if chance < 62:
            return 0
        if chance < 68:
            return 1
        if chance < 82:                                         # around the end of the header and of the message
            whole = 5 + number(stream[1:3]) if stream[0] == 1 and size >= 3 else 1
            return max(0, min(size, self.pick(3, 4, 5, 6, whole - 2, whole - 1, whole - 1, whole, whole + 1)))
        if chance < 90:
            return min(size, self.rng.randrange(1, 12))
        return self.rng.randrange(size + 1)

    # -- messages ------------------------------------------------------------------------------------

    def message(self):
        return self.weighted(self.MESSAGES)(self)

    def keep_alive(self):
        return b"\x06" * self.pick(1, 1, 1, 2, 3)

    def stray(self):
        byte = self.pick(0x00, 0x02, 0x05, 0x07, 0x0A, 0x81, 0x86, 0xFE, 0xFF, self.rng.randrange(256))
        return bytes([byte if byte not in (0x01, 0x06) else 0x80])

    def right_or_wrong(self):
        """A message of an offered type, often with some fault in its content, length or checksum."""
        content = self.weighted(self.CONTENTS)(self)
        if self.one_in(5):
            content = self.off_length(content)
        if len(content) > 3 and self.one_in(20):
            content = truly_0xffff(content)
        return framed(content, self.checksum(content))

    def off_length(self, content):
        """Too short or too long by one or more."""
        if self.one_in(2):
            return content[:self.cut_place(content)]
        by = self.pick(1, 1, 1, 2, 3, 4, 8, 12, self.rng.randrange(1, 40), self.rng.randrange(1, 1024), 1024)
        again = (content * (by // len(content) + 1))[:by]
        return (content + self.pick(bytes(by), self.rng.randbytes(by), again))[:1024]

    def cut_place(self, content):
        """Where a content is cut off: before its last byte, anywhere, or at an edge or next to it; at one of the first two, between which
        a list has its count, as often as at all of them.
        """
        chance = self.rng.randrange(4)
        if chance == 0:
            place = len(content) - 1
        elif chance == 1:
            place = self.rng.randrange(len(content))
        else:
            place = self.rng.choice(edges(content)[:2] if chance == 2 else edges(content)) + self.pick(-1, 0, 0, 1)
        return max(1, min(place, len(content) - 1))

    def checksum(self, content):
        """To a strict connection less often 0xFFFF, which it refuses unless it is the true one."""
        chance = self.rng.randrange(100)
        if chance < (78 if self.checked else 60):
            return None                                         # the true one
        if chance < 90:
            return UNCHECKED
        return self.bad_checksum(content)

    def bad_checksum(self, content):
        true = crc16(content)
        near = [true ^ 1 << self.rng.randrange(16), true + 1 & 0xFFFF, true >> 8 | (true & 0xFF) << 8,
                crc16(content[:-1]), crc16(content[1:]), crc16(content[:-1] + b"\x00"), true ^ 0xFFFF, 0x0000, 0xFFFE,
                0x7FFF, 0xFF00, 0x00FF, self.rng.randrange(65536)]
        return self.rng.choice(near)

    def empty_content(self):
        """N is 0."""
        return framed(b"", self.pick(0xFFFF, 0xFFFF, 0x0000, 0x0000, 0x0001, 0xFFFE, 0x00FF, self.rng.randrange(65536)))

    def wrong_type(self):
        kind = self.pick(1, 2) if self.one_in(5) else self.rng.choice(WRONG_TYPES)
        rest = self.weighted(self.CONTENTS)(self)[1:] if self.one_in(2) else self.rng.randbytes(self.rng.randrange(20))
        content = bytes([kind]) + rest
        return framed(content, self.checksum(content))

    def oversize(self):
        """N above 1,024: mostly barely, sometimes to the very top.  A frame in it means nothing."""
        length = self.weighted(((1025, 5), (1026, 2), (self.rng.randrange(1025, 1400), 8), (0x0601, .5), (0x0606, .5),
                                (self.rng.randrange(1025, 65536), 1), (32767, .2), (32768, .2), (65530, .2), (65531, .3),
                                (65535, .4)))
        content = self.filler(length)
        return framed(content, self.pick(0xFFFF, 0, crc16(content) if length < 2000 else 1))

    def long(self):
        """N of 1,024 or less, judged.  Two of the lengths have 0x01 and 0x06 for their bytes."""
        length = self.pick(1024, 1024, 1024, 1024, 1023, 0x0101, 0x0106)
        kind = self.rng.randrange(4)
        if kind == 0:
            content = self.full_write(length)
            if self.one_in(3):
                content = content[:1] + field(self.spoilt_count(number(content[1:3]), 1), 2) + content[3:]
        elif kind == 1:
            content = self.rng.choice((b"\x05\x00\x00", b"\x05\x00\x03", b"\x0A\x01", b"\x0A\x04", b"\x0A\x07", b"\x63",
                                       b"\x1A\x01"))
            content += bytes(length - len(content))
        elif kind == 2:
            content = b"\x15" + field(self.pick(127, 128), 2) + self.rng.randbytes(length - 3)
        else:
            content = self.rng.randbytes(length)
        return framed(content, self.checksum(content))

    def garbage_header(self):
        """A frame whose length is not that of what follows."""
        content = self.weighted(self.CONTENTS)(self)
        return framed(content, self.pick(None, 0xFFFF), max(0, len(content) + self.pick(-2, -1, 1, 2, 7, 256)))

    # -- contents ------------------------------------------------------------------------------------

    def request_content(self):
        request = self.weighted(((0, 4), (1, 6), (2, 4), (4, 5), (5, 6), (3, 1), (6, 1), (7, .5), (255, .5), (256, .5),
                                 (0x0500, .5), (0x0400, .5), (0x8001, .5), (0xFFFF, .5), (128, .3),
                                 (self.rng.randrange(65536), .5)))
        return b"\x05" + field(request, 2) + (self.rng.randbytes(4) if self.one_in(3) else b"")

    def clock_setting(self):
        clock = self.pick(0, 1, 0x80, 1131000000000, 1 << 63, (1 << 63) - 1, TOP64, TOP64 - 1, TOP64 - 1000,
                          TOP64 - TOP32, TOP64 - 2 * TOP32, 0x8081828384858687, self.rng.randrange(TOP64 + 1))
        return b"\x07" + field(clock, 8)

    def command_content(self):
        action = self.weighted(((1, 5), (2, 5), (3, 5), (5, 3), (8, 3), (9, 3), (10, 7), (0, .4), (4, .7), (6, .7),
                                (7, .7), (11, .4), (129, .3), (138, .3), (255, .3), (self.rng.randrange(256), .3)))
        if action == 10:
            return self.block_command()
        return b"\x0A" + bytes([action]) + field(self.channel(), 2)

    def channel(self):
        """Often of a module, be it there or not."""
        chance = self.rng.randrange(12)
        if chance < 7:
            return self.rng.randrange(1, 9)
        if chance < 10:
            return self.rng.randrange(9, 17)
        return self.pick(0, 0, 0, 0, 0, 17, 17, 17, 18, 24, 255, 256, 257, 264, 265, 0x0800, 0x8001, 0xFFFF,
                         self.rng.randrange(65536))

    def block_command(self):
        """Seldom in 000's layout for 16 relays."""
        if self.one_in(25):
            return b"\x0A\x0A" + self.rng.randbytes(4)
        mask = self.pick(0, 1, 0x06, 0x80, 0xFF, self.rng.randrange(256), self.rng.randrange(256))
        now = self.states()
        state = self.pick(0, 0x02, 0x80, 0xFF, now, now, self.rng.randrange(256))
        return b"\x0A\x0A" + bytes([mask, state])

    def pulse_content(self):
        """A pulse, sometimes with a channel or a duration out of range; seldom in 001's layout for 16 relays."""
        duration = 0 if self.one_in(12) else self.duration()
        if self.one_in(3):
            return b"\x0A\x06" + field(self.channel(), 2) + field(duration, 4)
        if self.one_in(40):
            return b"\x0A\x07" + self.rng.randbytes(4) + field(duration, 4)
        return self.block_pulse(self.pick(0, 1, 0x06, 0x80, 0xFF, self.rng.randrange(256), self.rng.randrange(256)), duration)

    def right_pulse(self, duration):
        if self.one_in(3):
            return b"\x0A\x06" + field(self.relay(), 2) + field(duration, 4)
        return self.block_pulse(self.pick(0, 0xFF, self.rng.randrange(256), self.rng.randrange(256)), duration)

    def block_pulse(self, mask, duration):
        """Often of states that are no change, or that are one for every masked relay."""
        now = self.states()
        states = self.pick(0, 0xFF, now, now ^ 0xFF, now ^ 0xFF, self.rng.randrange(256), self.rng.randrange(256))
        return b"\x0A\x07" + bytes([mask, states]) + field(duration, 4)

    def duration(self):
        """Mostly short, so that a queue also empties."""
        if not self.one_in(8):
            return self.pick(1, 1, 1, 2, 3, 5, self.rng.randrange(1, 20), self.rng.randrange(1, 2000))
        return self.pick(255, 256, 65535, 65536, 0x01000000, 2147483647, 2147483648, TOP32 - 1, TOP32,
                         self.rng.randrange(1, TOP32 + 1))

    def an_id(self):
        chance = self.rng.randrange(100)
        if chance < 75:
            return self.rng.choice(KNOWN_IDS)
        if chance < 83:
            return self.rng.choice(DECK_IDS)
        if chance < 97:
            return self.rng.choice(UNKNOWN_IDS)
        return self.rng.randrange(TOP64 + 1)

    def read_content(self):
        size = self.weighted(((0, 1), (self.rng.randrange(1, 6), 20), (16, 1), (self.rng.randrange(128), 1), (126, .2),
                              (127, .8)))
        ids = [self.an_id() for _ in range(size)]
        if size == 16 and self.one_in(2):
            ids = list(KNOWN_IDS)
        elif ids and self.one_in(8):
            ids = [self.pick(*ids[:2])] * size                  # repeated
        count = self.spoilt_count(size)
        return b"\x15" + field(count, 2) + b"".join(field(id, 8) for id in ids)

    def spoilt_count(self, count, one_in=12):
        if not self.one_in(one_in):
            return count
        return self.pick(max(0, count - 1), count + 1, count | 0x100, 0x2000 | count, 0x8000 | count, 0xFFFF, 0)

    def write_content(self):
        size = self.weighted(((0, 1), (1, 8), (2, 4), (3, 4), (self.rng.randrange(4, 12), 4),
                              (self.rng.randrange(12, 60), .6)))
        entries = [self.entry() for _ in range(size)]
        if size > 1 and self.one_in(6):                         # close and then open, or the other way
            id, state = field(self.rng.choice(RELAY_IDS), 8), self.rng.randrange(2)
            entries[-2:] = [id + b"\x00\x02\x01" + bytes([1 - state]), id + b"\x00\x02\x01" + bytes([state])]
        return b"\x17" + field(self.spoilt_count(size), 2) + b"".join(entries)

    def full_write(self, length):
        """Exactly as many bytes; the last entry has an unknown ID and all the rest for its block."""
        entries, left = [], length - 3
        while left >= 60:
            entry = self.entry()
            entries.append(entry)
            left -= len(entry)
        entries.append(field(0xAAFF, 8) + field(left - 10, 2) + self.rng.randbytes(left - 10))
        return b"\x17" + field(len(entries), 2) + b"".join(entries)

    def entry(self):
        id = self.an_id()
        block = self.input_block(id) if id in INPUT_IDS else self.relay_block()
        if self.one_in(40):
            block = self.relay_block() if id in INPUT_IDS else self.input_block(id)
        if self.one_in(14):
            block = self.pick(b"", block + b"\x00", block[:-1], block[:1], block + bytes(4))
        length = len(block)
        if self.one_in(150):
            length = self.pick(length + 1, length + 256, 0x8000 | length, 0xFFFF, max(0, length - 1))   # does not fit
        return field(id, 8) + field(length, 2) + block

    def input_block(self, id):
        flags = self.weighted(((0, 1), (1, 2), (2, 6), (3, 2), (4, 2), (5, 1), (6, 2), (7, 1), (8, .4), (9, .3), (16, .2),
                               (128, .3), (130, .3), (255, .2)))
        if flags & 2 or self.one_in(3):
            return bytes([flags]) + field(self.some_count(id), 4)
        return bytes([flags])

    def relay_block(self):
        flags = self.weighted(((0, 1), (1, 6), (2, 2), (3, 2), (4, .4), (5, .4), (6, .2), (128, .3), (129, .3), (255, .2)))
        if flags & 1 or self.one_in(3):
            return bytes([flags, self.weighted(((0, 6), (1, 6), (2, .7), (128, .3), (129, .3), (255, .5)))])
        return bytes([flags])

    def some_count(self, id):
        """Often at a setpoint of the input or next to it, or at the top."""
        inp = self.box.devices.get(id)
        setpoints = [inp.setpoint1, inp.setpoint2] if id in INPUT_IDS else [0]
        if self.one_in(2):
            return min(TOP32, max(0, self.rng.choice(setpoints) + self.pick(-1, 0, 0, 1)))
        return self.pick(0, 1, 7, 0x80, 0x8000, 0x80000000, 0x7FFFFFFF, 0x00FF00FF, TOP32 - 1, TOP32 - 1, TOP32,
                         self.rng.randrange(TOP32 + 1))

    def enumerate_content(self):
        return b"\x1A" + bytes([self.pick(1, 1, 2, 2, 3, 3, 0, 4, 5, 128, 129, 255)])

    def of_any_type(self):
        """A content, none too long, of each type as often as of another; rather more clocks, which few ranks may set, and lists."""
        return self.pick(self.long_request, self.clock_setting, self.clock_setting, self.command_content, self.pulse_content,
                         self.enumerate_content, self.short_list, self.short_list, self.short_list)()

    def long_request(self):
        """A right one with its interval."""
        return b"\x05\x00" + bytes([self.pick(0, 1, 2, 4, 5)]) + self.rng.randbytes(4)

    def short_list(self):
        """A list whose count is right, of a few IDs or entries that fit."""
        size = self.pick(0, 1, 1, 2, 2, 3)
        if self.one_in(2):
            return b"\x15" + field(size, 2) + b"".join(field(self.an_id(), 8) for _ in range(size))
        blocks = [self.pick(b"", b"\x00", b"\x01\x01", b"\x01\x00", b"\x02\x00\x00\x00\x07", bytes(self.rng.randrange(20)))
                  for _ in range(size)]
        return b"\x17" + field(size, 2) + b"".join(field(self.an_id(), 8) + field(len(block), 2) + block for block in blocks)

    # -- scenes: a few lines about one edge ------------------------------------------------------------

    def do_scene(self):
        """On an open connection of rank 1 or 2 that is at a message start."""
        ready = [c for c in self.open_ones(1) if not self.box.connections[c].joined and not self.waiting[c]]
        if ready:
            self.rng.choice(self.SCENES)(self, self.rng.choice(ready))

    def scene_count_top(self, c):
        k = self.rng.randrange(8)
        self.send(c, b"\x17\x00\x01" + field(INPUT_IDS[k], 8) + b"\x00\x05\x02" + field(TOP32 - self.pick(0, 1, 1, 2), 4))
        for level in (0, 1, 0, 1):
            self.say(f"level {k + 1} {level}")
        self.send(c, b"\x15\x00\x01" + field(INPUT_IDS[k], 8))

    def scene_count_alarm(self, c):
        """From one below a setpoint to one above it, a fish at a time: both messages that show count alarms are asked for each time."""
        k = self.rng.randrange(8)
        inp, read = self.box.inputs[k], b"\x15\x00\x01" + field(INPUT_IDS[k], 8)
        below = max(0, self.pick(inp.setpoint1, inp.setpoint2) - 1)
        self.send(c, b"\x17\x00\x01" + field(INPUT_IDS[k], 8) + b"\x00\x05\x02" + field(below, 4))
        for rise in range(3):
            if rise:
                self.say(f"level {k + 1} 0")
                self.say(f"level {k + 1} 1")
            self.send(c, read)
            self.send(c, b"\x05\x00\x01")
        self.say(f"collect {c} 4096")

    def scene_usage_alarm(self, c):
        k = self.rng.randrange(8)
        if self.one_in(2):
            device, id = self.box.inputs[k], INPUT_IDS[k]
            self.say(f"level {k + 1} 1")
        else:
            device, id = self.box.relays[k], RELAY_IDS[k]
            self.send(c, b"\x0A\x01" + field(k + 1, 2))
        gap = device.usage_setpoint - device.usage
        if 1 <= gap <= TOP32:
            self.say(f"pass {gap - 1}")
            self.send(c, b"\x15\x00\x01" + field(id, 8))
            self.say("pass 1")
        else:
            self.say(f"pass {self.some_ms()}")
        self.send(c, b"\x15\x00\x01" + field(id, 8))

    def scene_clock(self, c):
        self.send(c, self.clock_setting())
        self.say(f"pass {self.some_ms()}")
        self.send(c, b"\x05\x00" + self.pick(b"\x00", b"\x02"))

    def scene_nothing_changed(self, c):
        """Collected, then something that is no real change: no due mark may come of it."""
        self.say(f"collect {c} 4096")
        k = self.rng.randrange(8)
        relay, inp = self.box.relays[k], self.box.inputs[k]
        same = self.rng.randrange(7)
        if same == 0:
            self.say(f"level {k + 1} {inp.level}")
        elif same == 1:
            channel = self.relay()
            self.send(c, b"\x0A" + bytes([2 - self.box.relays[channel - 1].state]) + field(channel, 2))
        elif same == 2:
            self.send(c, b"\x0A\x0A" + bytes([self.pick(0xFF, self.rng.randrange(256)), self.states()]))
        elif same == 3:
            self.send(c, b"\x0A\x0A\x00" + bytes([self.rng.randrange(256)]))
        elif same == 4:
            self.send(c, b"\x17\x00\x01" + field(RELAY_IDS[k], 8) + b"\x00\x02\x01" + bytes([relay.state]))
        elif same == 5:
            self.send(c, b"\x0A" + bytes([self.pick(5, 8, 9)]) + field(k + 1, 2))
        else:
            count = field(self.some_count(INPUT_IDS[k]), 4)
            self.send(c, b"\x17\x00\x01" + field(INPUT_IDS[k], 8) + b"\x00\x05\x07" + count)
        self.say(self.pick("state", f"collect {c} 4096"))

    def scene_there_and_back(self, c):
        """Close and then open in one WriteDevices, and as two messages: Monitor due each time."""
        k = self.rng.randrange(8)
        state = self.box.relays[k].state
        self.say(f"collect {c} 4096")
        entries = [field(RELAY_IDS[k], 8) + b"\x00\x02\x01" + bytes([s]) for s in (1 - state, state)]
        if self.one_in(2):
            self.send(c, b"\x17\x00\x02" + b"".join(entries))
        else:
            for entry in entries:
                self.send(c, b"\x17\x00\x01" + entry)
        self.say(self.pick("state", f"collect {c} 4096"))

    def scene_monitor_off_and_on(self, c):
        for request in (self.pick(1, 4, 5), self.pick(4, 5)):
            self.send(c, b"\x05\x00" + bytes([request]))
            self.say(self.pick("state", f"collect {c} 4096"))
            self.send(c, b"\x0A\x03" + field(self.relay(), 2))
        self.say(f"collect {c} 4096")
        self.offer(c, self.unchecked(), 4096)                   # strict or not as before all this

    def unchecked(self):
        """A message whose checksum is said to be 0xFFFF and mostly is not."""
        content = b"\x0A\x03" + field(self.rng.randrange(1, 9), 2)
        return framed(self.pick(content, content, self.weighted(self.CONTENTS)(self), self.free_end(), b"\x63", b""), UNCHECKED)

    def free_end(self):
        """A content that may end in any two bytes, of each type that has one and of one that is not offered; it ends in those for which
        its checksum is 0xFFFF.
        """
        entry = field(self.rng.choice(INPUT_IDS), 8) + b"\x00\x05" + bytes([self.pick(2, 3, 6, 7)])
        begun = self.pick(b"\x0A\x0A", b"\x05\x00" + bytes([self.pick(0, 1, 2, 5)]) + self.rng.randbytes(2),
                          b"\x07" + self.rng.randbytes(6), b"\x0A\x06" + field(self.rng.randrange(1, 9), 2) + b"\x00\x00",
                          b"\x0A\x07" + self.rng.randbytes(2) + b"\x00\x00", b"\x15\x00\x01" + self.rng.randbytes(6),
                          b"\x17\x00\x01" + entry + self.rng.randbytes(2), b"\x63" + self.rng.randbytes(3))
        return truly_0xffff(begun + b"\x00\x00")

    def scene_truly_0xffff(self, c):
        """0xFFFF where it is true, where a bit of the content is off, and a true 0xFFFF of which a bit is off."""
        content = self.free_end()
        bit = 1 << self.rng.randrange(8)
        for said, sent in ((content, UNCHECKED), (content[:-1] + bytes([content[-1] ^ bit]), UNCHECKED),
                           (content, UNCHECKED ^ bit << self.pick(0, 8))):
            self.offer(c, framed(said, sent), 4096)

    def scene_strict_anew(self, c):
        """Opened anew with other words, and in between openings that are refused: each time something unchecked."""
        for _ in range(self.pick(2, 3)):
            self.say(f"open {c} {self.pick(self.rank(), self.bad_rank())} {1 - self.box.connections[c].strict}")
            self.offer(c, self.unchecked(), 4096)
            self.say(f"close {c}")
            if self.one_in(2):
                self.say(f"open {c} {self.bad_rank()} {self.pick(0, 1, 255)}")
            self.say(f"open {c} {self.pick(1, 2)}{self.strict()}")
            self.offer(c, self.unchecked(), 4096)

    def scene_two_strictnesses(self, c):
        """One connection strict, another not.  Something unchecked comes to one of them in two parts, to the other in between."""
        d = self.rng.choice([d for d in range(4) if d != c])
        first, second = self.pick((c, d), (d, c))
        for e, strict in ((first, self.pick(1, 2, 128, 255)), (second, 0)):
            self.say(f"close {e}")
            self.say(f"open {e} {self.pick(1, 2)} {strict}")
            self.waiting[e] = b""
        cut, whole = self.pick((first, second), (second, first))
        message = self.unchecked()
        middle = self.rng.randrange(1, len(message))
        self.offer(cut, message[:middle], 4096)
        self.offer(whole, self.unchecked(), 4096)
        self.offer(cut, message[middle:], 4096)
        self.send(whole, self.command_content())
        self.say("state")

    def scene_lengths_in_a_row(self, c):
        """A content in several lengths, each a byte longer than the one before: up to an edge of it and over, the last one too."""
        content = self.of_any_type()
        longest = content + self.rng.randbytes(8)
        first = max(1, self.rng.choice(edges(content)) - self.pick(1, 2, 4, 6))
        for length in range(first, min(first + 8, len(longest) + 1)):
            self.send(c, longest[:length])

    def scene_place_gone(self, c):
        """A content of the wrong length, and behind it what has another answer, on the same connection or on another."""
        ready = [d for d in self.open_ones() if not self.box.connections[d].joined and not self.waiting[d]]
        for _ in range(self.pick(1, 2, 3)):
            content = self.of_any_type()
            self.send(c, self.off_length(content))
            self.place_gone(self.pick(c, c, *ready), content)

    def place_gone(self, c, content):
        """Something that has one of nearly all the answers without a place: a place that was kept would be told again."""
        after = self.rng.randrange(10)
        if after == 0:
            self.offer(c, self.pick(b"\x06", b"\x06\x06", self.stray()), 4096)
        elif after == 1:
            self.offer(self.pick(c, 4, 255, self.rng.randrange(4)), b"", 4096)
        elif after == 2:
            self.offer(c, framed(content), self.pick(0, 5, 4095))
        elif after == 3:
            self.offer(c, framed(content, self.bad_checksum(content)), 4096)
        elif after == 4:
            self.send(c, self.pick(b"", b"\x63", b"\x01" + content[1:]))
        elif after == 5:
            self.send(c, self.pick(b"\x05\x00\x03", b"\x0A\x04", b"\x0A\x01\x00\x09", b"\x1A\x00", b"\x0A\x07\xFF\xFF" + bytes(4)))
        elif after == 6:
            self.offer(c, framed(bytes(1025)), 4096)
        elif after == 7:
            self.say(f"collect {c} 4096")
        else:
            message = framed(self.pick(b"\x05\x00\x00", b"\x1A\x01", b"\x17\x00\x00", self.command_content(), content))
            middle = self.pick(0, 0, self.rng.randrange(1, len(message)))
            self.offer(c, message[:middle], 4096)
            self.offer(c, message[middle:], 4096)

    def scene_wrong_length_without_a_rank(self, c):
        """Opened anew without a rank, or with the one that does not set the clock: there no length is judged."""
        rank = self.rng.randrange(2)
        self.say(f"close {c}")
        self.say(f"open {c} {rank}{self.strict()}")
        for _ in range(self.pick(3, 4, 5)):
            content = self.clock_setting() if rank else self.of_any_type()
            self.send(c, self.pick(self.off_length(content), content[:self.pick(1, 2, 3)]))
        self.say(f"close {c}")
        self.open_again(c)

    def scene_half_and_close(self, c):
        """Half a message, close, open, the other half."""
        message = framed(self.weighted(self.CONTENTS)(self))
        middle = self.rng.randrange(1, len(message))
        self.offer(c, message[:middle], 4096)
        self.say(f"close {c}")
        self.say(f"open {c} {self.pick(1, 2)}{self.strict()}")
        self.waiting[c] = message[middle:] if len(message) - middle < 20 else b""

    def scene_two_halves(self, c):
        """Halves of two messages on two connections by turns."""
        others = [d for d in self.open_ones() if d != c and not self.box.connections[d].joined and not self.waiting[d]]
        if not others:
            return
        d = self.rng.choice(others)
        for e, message in ((c, framed(self.command_content())), (d, framed(self.request_content()))):
            middle = self.rng.randrange(1, len(message))
            self.offer(e, message[:middle], 4096)
            self.waiting[e] = message[middle:]
        for e in (c, d):
            taken = self.offer(e, self.waiting[e], 4096)
            self.waiting[e] = self.waiting[e][taken:]

    def scene_meanwhile(self, c):
        """A pulse, something done while it runs, then up to the ms before its end and over it."""
        self.send(c, self.right_pulse(self.pick(1, 2, 3, 10, self.rng.randrange(1, 2000))))
        if not self.box.queue:
            return
        self.say(f"pass {self.rng.randrange(min(self.box.left, TOP32))}{self.row(6)}")
        mask, k = self.box.queue[0].mask, self.rng.randrange(8)
        meanwhile = self.rng.randrange(7)
        if meanwhile == 0:
            self.send(c, self.clock_setting())
        elif meanwhile == 1:
            self.say(f"close {c}")
            self.say(f"open {c} {self.pick(1, 2)}{self.strict()}")
        elif meanwhile == 2:
            self.send(c, b"\x17\x00\x01" + field(RELAY_IDS[k], 8) + b"\x00\x02\x01" + bytes([1 - self.box.relays[k].state]))
        elif meanwhile == 3:
            self.send(c, b"\x0A\x03" + field(self.relay(), 2))
        else:
            self.send(c, b"\x0A\x0A" + bytes([self.pick(mask & 0xFF, ~mask & 0xFF, 0xFF), self.states() ^ 0xFF]))
        if self.one_in(2):
            self.say(f"collect {c} 4096")
        self.over_the_end(c, self.box.left)

    def scene_cancelling(self, c):
        """Two pulses alike: the first's end and the second's beginning cancel each other out."""
        mask, states = self.rng.randrange(1, 256), self.rng.randrange(256)
        for _ in range(2):
            self.send(c, b"\x0A\x07" + bytes([mask, states]) + field(self.pick(1, 2, self.rng.randrange(1, 2000)), 4))
        if len(self.box.queue) < 2:
            return
        first_end = sum(self.lefts()[:-1])
        if first_end <= TOP32:
            self.over_the_end(c, first_end)

    def over_the_end(self, c, ms):
        """So many ms, the last of them alone, with nothing due before it."""
        self.say(f"pass {ms - 1}")
        self.say(f"collect {c} 4096")
        self.say(f"pass 1{self.row(6)}")
        self.say(self.pick("state", f"collect {c} 4096"))

    def scene_full_queue(self, c):
        """Pulses until the queue is full, more of them, right and wrong; then some or all end, and more come."""
        short = self.one_in(2)
        while len(self.box.queue) < PULSES:
            self.send(c, self.right_pulse(self.rng.randrange(1, 9) if short else self.duration()))
        for _ in range(self.rng.randrange(4, 9)):
            self.more_than_full(c)
        self.say(f"pass {self.ms_to_an_end()}")
        for _ in range(self.rng.randrange(1, 4)):
            self.more_than_full(c)
        self.say("state")

    def more_than_full(self, c):
        """A right pulse, or one whose duration, channel, length or action is wrong: judged before the full queue."""
        right = self.right_pulse(self.duration())
        self.send(c, self.pick(right, right, right, self.pulse_content(), right[:4] + bytes(4), right[:7], right + b"\x00",
                               b"\x0A\x06" + field(self.pick(0, 9, 17, 257), 2) + right[4:],
                               b"\x0A\x06" + field(self.of_deck(), 2) + right[4:], b"\x0A\x04" + right[2:]))

    def scene_byte_by_byte(self, c):
        """A message in pieces of one byte.  Its content holds 0x01 and 0x06 where it can."""
        content = self.pick(b"\x17\x00\x01" + field(RELAY_IDS[0], 8) + b"\x00\x02\x01\x01", b"\x05\x00\x01\x01\x06\x06\x01",
                            b"\x0A\x0A\x06\x06", b"\x0A\x0A\x01\x01", b"\x0A\x06\x00\x01\x00\x00\x01\x06", b"\x05\x00\x01",
                            b"\x06", b"\x01",
                            b"\x17\x00\x01" + field(INPUT_IDS[5], 8) + b"\x00\x05\x02\x01\x06\x06\x01")
        self.checked = self.box.connections[c].strict == 1
        message = framed(content, self.checksum(content))
        for byte in message:
            self.offer(c, bytes([byte]), 4096)

    # -- scenes of the second deck ---------------------------------------------------------------------

    def fill_just(self, *places):
        """These places are filled, and no other."""
        for place in PLACES:
            if (place in places) != (place in self.box.filled):
                self.say(f"{self.turned(place)} {place}")

    def of_deck(self, *places):
        """A relay of the second deck, of these places if any are given; the first and the last of a place rather more."""
        channels = PLACES[self.pick(*places or PLACES)]
        return self.pick(channels[0], channels[-1], self.rng.choice(channels))

    def work(self, c, action, channel, duration=None):
        """A command to one channel, with a duration if it is given one."""
        self.send(c, b"\x0A" + bytes([action]) + field(channel, 2) + (b"" if duration is None else field(duration, 4)))

    def look(self, c):
        """What is so and due."""
        self.say(self.pick("state", "state", f"collect {c} 4096"))

    def scene_places(self, c):
        """With nothing due, places are filled and emptied, also again, and others, and with short rows."""
        for _ in range(self.pick(2, 3)):
            self.say(f"collect {c} 4096")
            for _ in range(self.pick(1, 2, 3)):
                self.do_place()
            self.look(c)

    def scene_channels(self, c):
        """Channels on both sides of an edge, or one of them again and again, for actions that go so far and for such as do not."""
        if self.one_in(2):
            self.fill_just(*self.pick((), (1,), (2,), (1, 2)))
        same = self.pick(None, self.of_deck(*self.box.filled))
        for _ in range(self.pick(3, 4, 5)):
            action = self.pick(1, 1, 2, 2, 2, 3, 5, 6, 8, 9)
            self.work(c, action, same or self.pick(0, 8, 9, 12, 13, 16, 17), self.duration() if action == 6 else None)
            if self.one_in(3):
                self.look(c)
        self.look(c)

    def scene_removed(self, c):
        """A module comes beside another or alone, relays are closed, and it goes, and comes again."""
        place = self.pick(*PLACES)
        self.fill_just(*self.pick((), (3 - place,), (3 - place,)))
        self.say(f"fill {place}")
        one, other, third = self.of_deck(place), self.of_deck(3 - place), self.relay()
        for channel in self.pick((), (one,), (other,), (one, other), (one, other, third)):
            self.work(c, 1, channel)
        self.say(f"collect {c} 4096")
        if self.one_in(3):
            self.say(f"fill {place}")
            self.look(c)
        for _ in range(self.pick(1, 2)):
            self.say(f"empty {place}{self.row(6)}")
            self.look(c)
        self.say(f"fill {place}{self.row(6)}")
        if self.one_in(2):
            self.work(c, 3, self.of_deck(place))
        self.look(c)

    def scene_pulsed_and_removed(self, c):
        """Pulses of modules' relays and of others; in the middle of them a module goes, and perhaps comes back."""
        place = self.pick(*PLACES)
        self.fill_just(*self.pick((place,), (1, 2), (1, 2)))
        beside = 13 if place == 1 else 12
        channels = [self.of_deck(place), self.pick(beside, self.of_deck(*self.box.filled)), self.of_deck(place)]
        self.rng.shuffle(channels)
        if self.one_in(2):
            self.work(c, 1, channels[0])
        if self.box.queue and not self.one_in(3):
            self.say(f"pass {min(sum(self.lefts()), TOP32)}")
        for channel in channels[:self.pick(1, 2, 2, 3)]:
            if self.one_in(4):
                self.send(c, self.right_pulse(self.pick(1, 2, 7)))
            self.work(c, 6, channel, self.pick(1, 3, 9, self.rng.randrange(1, 2000)))
        if self.box.queue and not self.one_in(3):
            self.say(f"pass {self.rng.randrange(min(self.box.left, TOP32))}")
        if self.one_in(2):
            self.say("state")
        self.say(f"empty {place}{self.row(6)}")
        self.say("state")
        if self.one_in(2):
            self.say(f"fill {place}")
            self.work(c, 3, channels[0])
        if self.box.queue:
            self.over_the_end(c, self.box.left)

    def scene_two_marks(self, c):
        """Each of the two Monitor messages due or not; then requests, and they are collected."""
        first, second = self.pick((0, 0), (0, 1), (1, 0), (1, 1))
        self.send(c, b"\x05\x00\x05")
        some = self.pick((1,), (2,), (1, 2))
        self.fill_just(*some if second else () if first else self.pick((), some))
        self.say(f"collect {c} 4096")
        if first:
            k = self.pick(1, 8, self.rng.randrange(1, 9))
            if self.one_in(2):
                self.say(f"level {k} {1 - self.box.inputs[k - 1].level}")
            else:
                self.work(c, 3, k)
            if not second:
                self.fill_just(*self.pick((), (1,), (2,), (1, 2)))
        elif second:
            channel = self.of_deck(*self.box.filled)
            self.work(c, self.pick(3, 1 + self.box.relays[channel - 1].state), channel)
        for _ in range(self.pick(0, 1, 2)):
            self.send(c, b"\x05\x00" + bytes([self.pick(0, 1, 1, 2, 4, 4, 5)]))
            if self.one_in(2):
                self.say("state")
        self.say(f"collect {c} 4096")

    def scene_opened_beside_modules(self, c):
        """Opened anew at each rank, with modules and without; then something changes."""
        self.fill_just(*self.pick((), (1,), (2,), (1, 2)))
        rank = self.pick(0, 1, 2, 2)
        self.say(f"close {c}")
        self.say(f"open {c} {rank}{self.strict()}")
        self.look(c)
        k = self.rng.randrange(8)
        self.say(f"level {k + 1} {1 - self.box.inputs[k].level}")
        self.look(c)
        if rank == 0:
            self.say(f"close {c}")
            self.open_again(c)

    def scene_deck_ids(self, c):
        """Listed, read and written, with modules and without: together with others, which are as ever."""
        self.fill_just(*self.pick((), (1,), (2,), (1, 2)))
        self.send(c, b"\x1A" + bytes([self.pick(1, 1, 2, 3)]))
        if self.one_in(2):
            ids = [self.pick(self.rng.choice(DECK_IDS), self.an_id()) for _ in range(self.pick(1, 2, 3))]
            self.send(c, b"\x15" + field(len(ids), 2) + b"".join(field(id, 8) for id in ids))
        else:
            id, block = field(self.rng.choice(DECK_IDS), 8), self.pick(b"\x01\x01", b"\x00", b"\x02", self.relay_block())
            entries = [id + field(len(block), 2) + block] + [self.entry() for _ in range(self.rng.randrange(3))]
            self.rng.shuffle(entries)
            self.send(c, b"\x17" + field(len(entries), 2) + b"".join(entries))
            self.look(c)

    # -- the whole ---------------------------------------------------------------------------------------

    MESSAGES = ((right_or_wrong, 70), (keep_alive, 8), (stray, 6), (empty_content, 4), (wrong_type, 5), (oversize, 4),
                (long, 1.5), (garbage_header, .7))

    CONTENTS = ((request_content, 15), (clock_setting, 6), (command_content, 24), (pulse_content, 16), (read_content, 10),
                (write_content, 20), (enumerate_content, 6))

    SCENES = (scene_count_top, scene_count_alarm, scene_usage_alarm, scene_clock, scene_nothing_changed,
              scene_there_and_back, scene_monitor_off_and_on, scene_half_and_close, scene_two_halves, scene_byte_by_byte,
              scene_meanwhile, scene_meanwhile, scene_cancelling, scene_cancelling, scene_full_queue, scene_truly_0xffff,
              scene_strict_anew, scene_two_strictnesses, scene_lengths_in_a_row, scene_lengths_in_a_row, scene_lengths_in_a_row,
              scene_place_gone, scene_place_gone, scene_wrong_length_without_a_rank, scene_places, scene_channels, scene_removed,
              scene_pulsed_and_removed, scene_pulsed_and_removed, scene_two_marks, scene_two_marks, scene_opened_beside_modules,
              scene_deck_ids)

    STEPS = ((do_talk, 84), (do_level, 7), (do_pass, 5), (do_collect, 7), (do_open, 6), (do_close, 2.5), (do_state, 5),
             (do_power, .4), (do_bad_line, 2), (do_place, 2.5), (do_scene, 8.5))

    def make(self, events):
        if not self.one_in(5):                                  # the tool starts as after `power`
            self.do_power()
        while self.events < events:
            self.weighted(self.STEPS)(self)
        self.say("state")
        return Trace(self.lines, self.printed, self.events)


def make(seed, events):
    """A trace of at least so many events."""
    return Maker(seed).make(events)


def many(seed, events, length=1000):
    """Traces of about `length` events each until there are so many events."""
    done = index = 0
    while done < events:
        trace = make(f"{seed}/{index}", min(length, events - done))
        done += trace.events
        index += 1
        yield trace


if __name__ == "__main__":
    print("\n".join(make(f"{sys.argv[1]}/0", int(sys.argv[2])).lines))
