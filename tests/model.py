#!/usr/bin/env python3
"""The box of 01-scope.md, with requests M-100 to M-103 and M-105 of 02, as a plain machine over joined bytes.

This is the judge a proved implementation is held to, so it is written for a reader: the rules in
01's order, one short function each.  It shares nothing with the implementation.

A sentence of 01 is named by its place and said in our own words: the section, then the sentence's
number in it, a bullet counting as one.  Answer numbers, line 5, is a line of the table; Answer numbers,
5, the fifth sentence under it.  Messages, 21, 3 is the third sentence on type 21; Messages, 1 and 2
stand before the types.  M-100, 4 is the fourth sentence of that request.

Per connection the bytes taken since its opening are joined.  A whole message is cut off the front
and served singly, so that at any time only the unfinished message is left of the joined bytes.

    python3 tests/model.py < trace      reads replay lines, prints what REPLAY.md says the tool prints
"""

import re
import sys

from answers import (ALREADY_OPEN, BAD_CHECKSUM, BAD_RANK, ENDS_EARLY, KEEP_ALIVE, LEFT_OVER, LIST_CUT, LOW_RANK,
                     NO_CONNECTION, NOT_OFFERED, OUT_OF_RANGE, QUEUE_FULL, SERVED, SHORT_BUFFER, STRAY, TOO_LONG, WAITING)

TOP32 = 4294967295                      # largest count, largest d
TOP64 = 18446744073709551615            # largest clock, largest usage

VERSION = b"jr310 3.10.0001"

PULSES = 31                             # M-100, 2 and 5: pulses that stand at most, and the least row that is lent for them

INTERNAL = 8                            # What the box holds, 2: relays that are always there
PLACES = {1: range(9, 13), 2: range(13, 17)}    # M-102, 1: of each place the relays that a module in it has


class Refused(Exception):
    """A message refused by its content: from its type on, up to a full queue.  Raised before anything is changed.

    M-105, 2: the place is where in the content, whose type is at 0, the first byte is missing or too many; 0 where
    it is not its length that is refused.
    """

    def __init__(self, answer, place=0):
        super().__init__(answer, place)
        self.answer = answer
        self.place = place


# ---------------------------------------------------------------------------------------------
# What the box holds
# ---------------------------------------------------------------------------------------------

class Input:
    """What the box holds, 1."""

    __slots__ = ("level", "count", "usage", "setpoint1", "setpoint2", "usage_setpoint", "switch")

    def __init__(self, setpoint1=0, setpoint2=0, usage_setpoint=0, switch=0):
        self.level = self.count = self.usage = 0
        self.setpoint1 = setpoint1
        self.setpoint2 = setpoint2
        self.usage_setpoint = usage_setpoint
        self.switch = switch


class Relay:
    """What the box holds, 2.  A closed relay has the state 1.  Relays 9 to 16 (M-102, 2) have no more: the rest stays 0."""

    __slots__ = ("state", "usage", "usage_setpoint")

    def __init__(self, usage_setpoint=0):
        self.state = self.usage = 0
        self.usage_setpoint = usage_setpoint


class Connection:
    """What the box holds, 4; M-102, 4: a second mark, for type 2, the External Monitor message; M-103, 2: and whether
    it is strict.

    `joined` holds the bytes taken since the opening, less the whole messages cut off their front.
    """

    __slots__ = ("open", "rank", "monitor", "due", "due2", "strict", "joined")

    def __init__(self, open=0, rank=0, monitor=0, due=0, due2=0, strict=0):
        self.open = open
        self.rank = rank
        self.monitor = monitor
        self.due = due
        self.due2 = due2
        self.strict = strict
        self.joined = bytearray()


class Pulse:
    """M-100, 1 and 2: a request that stands in the queue.  Of the states only those of masked relays count."""

    __slots__ = ("mask", "states", "duration")

    def __init__(self, mask, states, duration):
        self.mask = mask
        self.states = states & mask
        self.duration = duration

    def lose(self, mask):
        """M-102, 8: these relays are no longer in its mask."""
        self.mask &= ~mask
        self.states &= self.mask


# Messages, IDs.
INPUT_IDS = tuple(0x01FF + 0x100 * k for k in range(8))         # din1 to din8
RELAY_IDS = tuple(0x0101FF + 0x100 * k for k in range(8))       # rout1 to rout8
DECK_IDS = tuple(0x0109FF + 0x100 * k for k in range(8))        # M-102, 9, and 000: rout9 to rout16


# ---------------------------------------------------------------------------------------------
# Numbers, fields and checksum
# ---------------------------------------------------------------------------------------------

def number(data):
    """Frame, 2: the highest byte first, no sign."""
    return int.from_bytes(data, "big")


def field(value, size):
    return value.to_bytes(size, "big")


def make_crc_table():
    """Frame, 4: the table of 001, "CRC-16 Algorithm", generated as its code does."""
    table = []
    for n in range(256):
        c, d = 0, n
        for _ in range(8):
            c = (c >> 1) ^ 0xA001 if (c ^ d) & 1 else c >> 1
            d >>= 1
        table.append(c)
    return tuple(table)


CRC_TABLE = make_crc_table()


def crc16(data):
    """Frame, 4: 001's rule, which starts at 0."""
    table = CRC_TABLE
    crc = 0
    for byte in data:
        crc = (crc >> 8) ^ table[(crc ^ byte) & 0xFF]
    return crc


class Fields:
    """Messages, 2: a content is read from its front on, within its end and up to it."""

    __slots__ = ("content", "position", "in_list")

    def __init__(self, content, position):
        self.content = content
        self.position = position
        self.in_list = False

    def left(self):
        return len(self.content) - self.position

    def block(self, size):
        """M-105, 1 and 2: whichever field is cut, and wherever in it, the first byte that is missing is the one
        behind the content's last.
        """
        if size > self.left():
            raise Refused(LIST_CUT if self.in_list else ENDS_EARLY, len(self.content))
        start = self.position
        self.position = start + size
        return self.content[start:self.position]

    def number(self, size):
        return number(self.block(size))

    def listed(self, entry):
        """What `entry` reads, as often as a count (2) says.  M-105, 1: the list begins behind its count and ends
        with its last entry; one of no entries is never cut.
        """
        count = self.number(2)
        self.in_list = True
        entries = [entry() for _ in range(count)]
        self.in_list = False
        return entries

    def end(self):
        """M-105, 1 and 2: the layout has ended, so the next byte is too many if there is one."""
        if self.left():
            raise Refused(LEFT_OVER, self.position)


# ---------------------------------------------------------------------------------------------
# The box
# ---------------------------------------------------------------------------------------------

class Box:
    LONGEST = 1024                      # Frame, 12: longest content that is judged
    BUFFER = 4096                       # Frame, 15: least reply buffer
    PULSES = PULSES                     # M-100, 2: most pulses that stand in the queue
    ROW = PULSES                        # M-100, 5: least row that is lent for them

    # Message types offered, each with the method that serves it.
    OFFERED = {
        5: "request",
        7: "set_clock",
        10: "command",
        21: "read_devices",
        23: "write_devices",
        26: "enumerate_devices",
    }

    Fields = Fields

    def __init__(self):
        self.power()

    def power(self, settings=(0,) * 40):
        """What the box holds, 5 and 6: everything is 0, open or shut but for what the host sets."""
        self.inputs = [Input(*settings[4 * k:4 * k + 4]) for k in range(8)]
        self.relays = [Relay(settings[32 + k]) for k in range(8)] + [Relay() for _ in range(8)]
        self.filled = set()             # M-102, 1: the places in which a module is
        self.clock = 0
        self.connections = [Connection() for _ in range(4)]
        self.devices = dict(zip(INPUT_IDS + RELAY_IDS, self.inputs + self.internal()))
        self.queue = []                 # pulses, the running one first
        self.left = 0                   # ms up to the running one's end
        self.remembered = 0             # the relays' states at its beginning

    # -- alarms --------------------------------------------------------------------------------

    def alarm_state(self, inp):
        """What the box holds, 8: an input that is on, with its switch set."""
        return 1 if inp.switch and inp.level else 0

    def monitor_count_alarm(self, count, setpoint):
        """What the box holds, 7, and M-101, 2 and 3: in the Monitor message above the setpoint, where there is one."""
        return 1 if setpoint and count > setpoint else 0

    def block_count_alarm(self, count, setpoint):
        """What the box holds, 7, and M-101, 2 and 3: in the read block from the setpoint on, where there is one."""
        return 1 if setpoint and count >= setpoint else 0

    def usage_alarm(self, usage, setpoint):
        """What the box holds, 7 and 10: from the setpoint on, where there is one."""
        return 1 if setpoint and usage >= setpoint else 0

    # -- relays and modules ----------------------------------------------------------------------

    def internal(self):
        """Relays 1 to 8."""
        return self.relays[:INTERNAL]

    def deck(self):
        """M-102, 1 and 5: which relays the modules have that are present, rising."""
        return [k for place in sorted(self.filled) for k in PLACES[place]]

    def module_present(self):
        return len(self.filled) > 0

    # -- events besides bytes --------------------------------------------------------------------

    def level(self, k, v):
        """Events, 1: a rise counts one, up to the top; the level that the input has does nothing."""
        if not 1 <= k <= 8 or v > 1:
            return OUT_OF_RANGE
        inp = self.inputs[k - 1]
        if inp.level != v:
            inp.level = v
            if v:
                inp.count = self.one_more(inp.count)
            self.changed()
        return SERVED

    def one_more(self, count):
        return min(count + 1, TOP32)

    def pass_(self, d, row=PULSES):
        """Events, 2; M-100, 4: d ms do what one ms does, d times.  M-100, 5: a short row is refused.

        Nothing but growing happens before the running pulse's end, so the ms up to there are taken
        in one step.  That this comes to the same as `one_ms` d times is tried in test_model.py.
        """
        if row < self.ROW:
            return SHORT_BUFFER
        while d:
            step = min(d, self.left) if self.queue else d
            self.grow(step)
            self.run_down(step)
            d -= step
        return SERVED

    def pass_by_ms(self, d, row=PULSES):
        """The same by its definition."""
        if row < self.ROW:
            return SHORT_BUFFER
        for _ in range(d):
            self.one_ms()
        return SERVED

    def one_ms(self):
        """M-100, 4: first clock and usage, then the queue."""
        self.grow(1)
        self.run_down(1)

    def grow(self, d):
        """Events, 2: d ms more for the clock, for inputs that are on and for closed relays, none above 64 bits."""
        self.clock = self.grown(self.clock, d)
        for inp in self.inputs:
            if inp.level:
                inp.usage = self.grown(inp.usage, d)
        for relay in self.internal():
            if relay.state:
                relay.usage = self.grown(relay.usage, d)

    def grown(self, ms, d):
        return min(ms + d, TOP64)

    def run_down(self, ms):
        """So many ms of the running pulse, no more than it has left, are over.  M-100, 2 and 3: the next begins
        in the ms of its end, which is two changes and not one.
        """
        if self.queue:
            self.left -= ms
            if self.left == 0:
                self.end()
                if self.queue:
                    self.begin()

    def begin(self):
        """M-100, 3: the first pulse of the queue begins, and the relays' states before it are remembered."""
        pulse = self.queue[0]
        self.left = pulse.duration
        self.remembered = self.relay_states()
        self.put_masked(pulse.mask, pulse.states)

    def end(self):
        """M-100, 3: the relays in its mask go back to what they were at its beginning, whatever was done to
        them meanwhile.  M-100, 2: its place is free again.
        """
        pulse = self.queue.pop(0)
        self.put_masked(pulse.mask, self.remembered)

    def relay_states(self):
        """As a number, lowest bit relay 1."""
        return sum(relay.state << k for k, relay in enumerate(self.relays))

    def fill(self, place, row=PULSES):
        """M-102, 1: a place has a module, if it had none then from now on.  Its relays are open, so nothing changes with
        it and nothing is marked.
        """
        refused = self.refuse_place(place, row)
        if refused:
            return refused
        self.filled.add(place)
        return SERVED

    def empty(self, place, row=PULSES):
        """M-102, 1: a place has no module; where it has none nothing happens."""
        refused = self.refuse_place(place, row)
        if refused:
            return refused
        if place in self.filled:
            self.remove(place)
        return SERVED

    def refuse_place(self, place, row):
        """M-102, 12: first the row is judged, as for time, then the place.  None when the call may go on."""
        if row < self.ROW:
            return SHORT_BUFFER
        if place not in PLACES:
            return OUT_OF_RANGE
        return None

    def remove(self, place):
        """M-102, 8: the module's relays leave the masks of all pulses that stand, the running one's too, and each
        pulse keeps its place and its time; then they open, one change if one was closed.  M-102, 4: it marks where
        another module is still there; when the last has gone type 2 is due to nobody.
        """
        gone = sum(1 << k - 1 for k in PLACES[place])
        self.filled.remove(place)
        for pulse in self.queue:
            pulse.lose(gone)
        self.put_masked(gone, 0)
        if not self.module_present():
            for conn in self.connections:
                conn.due2 = 0

    def open(self, c, rank, strict=0):
        """Events, 3: nothing half read, Monitor on, and due to a user or administrator.  M-102, 4: type 2 likewise,
        while a module is present.  M-103, 2: strict or not, up to its closing; every number but 0 says strict.
        Answer numbers, 1: the number is judged first, then whether it is open, then the rank.
        """
        if c > 3:
            return NO_CONNECTION
        if self.connections[c].open:
            return ALREADY_OPEN
        if rank > 2:
            return BAD_RANK
        due = 1 if rank >= 1 else 0
        self.connections[c] = Connection(1, rank, 1, due, due if self.module_present() else 0, 1 if strict else 0)
        return SERVED

    def close(self, c):
        """Events, 4: half a message is forgotten.  Everything of the connection is 0 then."""
        if not self.is_open(c):
            return NO_CONNECTION
        self.connections[c] = Connection()
        return SERVED

    def collect(self, c, cap):
        """Events, 5 and 7: one Monitor message, as the box stands now, if one is due; it no longer is then.  M-102, 7:
        behind it the External one, if that is due.  Answers the number and the reply.
        """
        refused = self.refuse_call(c, cap)
        if refused:
            return refused, b""
        conn = self.connections[c]
        contents = []
        if conn.due:
            contents.append(self.monitor_content())
        if conn.due2:
            contents.append(self.external_content())
        conn.due = conn.due2 = 0
        return SERVED if contents else WAITING, self.frames(contents)

    def changed(self, internal=True):
        """Events, 6: a real change of a level or relay is due to every open connection that has a rank and
        Monitor on, whoever made it.  M-102, 4 and 6: in type 2, while a module is present, whatever changed; in type 1 a
        level or a relay from 1 to 8.
        """
        for conn in self.connections:
            if conn.open and conn.rank >= 1 and conn.monitor:
                if internal:
                    conn.due = 1
                if self.module_present():
                    conn.due2 = 1

    def relays_changed(self, channels):
        """One change, of the relays that really changed."""
        if channels:
            self.changed(any(k <= INTERNAL for k in channels))

    # -- frame -----------------------------------------------------------------------------------

    def is_open(self, c):
        return c <= 3 and self.connections[c].open == 1

    def refuse_call(self, c, cap, row=PULSES):
        """Answer numbers, 1: first the connection is judged, then what is lent; before any byte, for an empty
        piece too.  Answer numbers, 7: only these calls are lent a buffer; a collection is lent no row.  None
        when the call may go on.
        """
        if not self.is_open(c):
            return NO_CONNECTION
        if cap < self.BUFFER or row < self.ROW:
            return SHORT_BUFFER
        return None

    def bytes_(self, c, cap, piece, row=PULSES):
        """Frame, 10 and 11: bytes are taken up to the end of a message, or else all.  Answers the number,
        the bytes taken, the place (M-105, 2) and the reply.
        """
        refused = self.refuse_call(c, cap, row)
        if refused:
            return refused, 0, 0, b""
        conn = self.connections[c]
        before = len(conn.joined)
        conn.joined += piece
        end = self.message_end(conn.joined)
        if end is None:
            return WAITING, len(piece), 0, b""
        message = bytes(conn.joined[:end])
        conn.joined = bytearray()       # what follows in the piece was not taken
        answer, place, reply = self.judge(conn, message)
        return answer, end - before, place, reply

    def message_end(self, joined):
        """The length of the first message of the joined bytes; None while it is unfinished.

        Frame, 7, 8 and 1: only 0x01 in front begins a frame: 5 bytes, of which the second and third are
        the content's length, and the content.
        """
        if not joined:
            return None
        if joined[0] != 0x01:
            return 1
        if len(joined) < 5:
            return None
        end = 5 + number(joined[1:3])
        return end if len(joined) >= end else None

    def judge(self, conn, message):
        """One whole message: its number, its place and its reply.  Frame, 7; Answer numbers, 1: length before
        checksum, both before the content.  Frame, 12: of a content that is too long nothing else is judged.
        M-105, 2: no place but where the content is refused by its length.
        """
        if message[0] == 0x06:
            return KEEP_ALIVE, 0, b""
        if message[0] != 0x01:
            return STRAY, 0, b""
        content = message[5:]
        if len(content) > self.LONGEST:
            return TOO_LONG, 0, b""
        if not self.checksum_passes(conn, number(message[3:5]), content):
            return BAD_CHECKSUM, 0, b""
        try:
            return SERVED, 0, self.frames(self.serve(conn, content))
        except Refused as refusal:
            return refusal.answer, refusal.place, b""

    def checksum_passes(self, conn, sent, content):
        """Frame, 3 and 5: that of the content, without the header; 0xFFFF is none.  M-103, 3: on a strict connection
        it is judged like any other.
        """
        return sent == 0xFFFF and not conn.strict or sent == crc16(content)

    def frame(self, content):
        """Frame, 6: with the true checksum."""
        return b"\x01" + field(len(content), 2) + field(crc16(content), 2) + content

    def frames(self, contents):
        """M-102, 7: one behind the other."""
        return b"".join([self.frame(content) for content in contents])

    # -- messages offered --------------------------------------------------------------------------

    def serve(self, conn, content):
        """What a message is answered: the content of its reply, none or two.  Answer numbers, 1: the type is
        judged first, then the rank.  M-105, 4: then the length, for each type by itself, and what else it says.
        """
        if not content or content[0] not in self.OFFERED:
            raise Refused(NOT_OFFERED)
        kind = content[0]
        if conn.rank < self.rank_needed(kind):
            raise Refused(LOW_RANK)
        return getattr(self, self.OFFERED[kind])(conn, self.Fields(content, 1))

    def rank_needed(self, kind):
        """Messages, 1: administrators alone set the clock."""
        return 2 if kind == 7 else 1

    def request(self, conn, fields):
        """Messages, 5, 1: request (2) and, or not, an interval (4), for which there is no use yet.  Messages,
        5, 6; Answer numbers, 2: a request that is there is judged before the length.  M-105, 1: what is behind
        the request is an interval, be it a part of one.
        """
        request = fields.number(2)
        if request not in (0, 1, 2, 4, 5):
            raise Refused(OUT_OF_RANGE)
        if fields.left():
            fields.number(4)
        fields.end()
        if request == 0:
            return [self.clock_content()]
        if request == 1:                # Messages, 5, 3: the due marks stay.  M-102, 7: type 2 where there is a module
            return [self.monitor_content()] + ([self.external_content()] if self.module_present() else [])
        if request == 2:
            return [self.usage_content()]
        if request == 4:                # Messages, 5, 5, and M-102, 7: off, and what was due with it
            conn.monitor = conn.due = conn.due2 = 0
        else:                           # Messages, 5, 5, and M-102, 7: on; the due marks stay
            conn.monitor = 1
        return []

    def clock_content(self):
        """Messages, 5, 2: type 6, 9 bytes."""
        return b"\x06" + field(self.clock, 8)

    def monitor_content(self):
        """Messages, 1, 1: type 1: the version behind its length, the inputs, the relays, the clock; 97 bytes.  M-102, 6:
        relays 1 to 8, whatever modules there are.
        """
        content = bytearray(b"\x01" + field(len(VERSION), 1) + VERSION)
        for inp in self.inputs:
            content += self.input_status(inp, self.monitor_count_alarm)
        for relay in self.internal():
            content.append(relay.state)
        content += field(self.clock, 8)
        return bytes(content)

    def external_content(self):
        """M-102, 5, and 000: type 2: no inputs, how many outputs are present, 4 or 8, their states rising, the clock; 15 or
        19 bytes.
        """
        states = bytes([self.relays[k - 1].state for k in self.deck()])
        return b"\x02\x00" + field(len(states), 1) + states + field(self.clock, 8)

    def input_status(self, inp, count_alarm):
        """Messages, 1, 1, and 21, 4: the fields that Monitor message and read block share, each with its own count alarm."""
        return (field(inp.level, 1) + field(self.alarm_state(inp), 1) + field(inp.count, 4)
                + field(count_alarm(inp.count, inp.setpoint1), 1) + field(count_alarm(inp.count, inp.setpoint2), 1))

    def usage_content(self):
        """Messages, 5, 4: type 8: the usages of inputs and relays 1 to 8, the clock; 137 bytes."""
        usages = [device.usage for device in self.inputs + self.internal()]
        return b"\x08" + b"".join(field(usage, 8) for usage in usages) + field(self.clock, 8)

    def set_clock(self, conn, fields):
        """Messages, 7: a clock of 8 bytes, whatever it is.  No reply."""
        clock = fields.number(8)
        fields.end()
        self.clock = clock
        return []

    def command(self, conn, fields):
        """Messages, 10: 4 bytes with the type, 8 for the pulses of M-100, 1.  Answer numbers, 2, and M-105, 4: the
        action is judged first, then the length that it asks for, then the channel.  No reply.
        """
        action = fields.number(1)
        if action not in (1, 2, 3, 5, 6, 7, 8, 9, 10):
            raise Refused(OUT_OF_RANGE)
        if action == 6:
            self.channel_pulse(fields)
        elif action == 7:
            self.block_pulse(fields)
        elif action == 10:
            mask, state = fields.number(1), fields.number(1)
            fields.end()
            self.block_change(mask, state)
        else:
            channel = fields.number(2)
            fields.end()
            self.judge_channel(action, channel)
            self.channel_action(action, channel)
        return []

    def judge_channel(self, action, channel):
        """Messages, 10, 2: there are eight channels.  M-102, 2, 3 and 12: those that work a relay, and no others, also go
        to the relays of the modules that are present.
        """
        if not 1 <= channel <= INTERNAL and not (action in (1, 2, 3, 6) and channel in self.deck()):
            raise Refused(OUT_OF_RANGE)

    def channel_pulse(self, fields):
        """M-100, 1: action 6, 001: channel (2), duration (4): the pulse with that relay alone in its mask, and
        closed.
        """
        channel, duration = fields.number(2), fields.number(4)
        fields.end()
        self.judge_channel(6, channel)
        self.pulse(1 << channel - 1, 1 << channel - 1, duration)

    def block_pulse(self, fields):
        """M-100, 1: action 7, 001: mask (1), states (1), duration (4), lowest bit channel 1.  M-102, 2: up to 8 as ever."""
        mask, states, duration = fields.number(1), fields.number(1), fields.number(4)
        fields.end()
        self.pulse(mask, states, duration)

    def pulse(self, mask, states, duration):
        """M-100, 7: first the duration is judged, then whether the queue is full.  M-100, 2: where no other
        stands, the pulse begins here.
        """
        if duration == 0:
            raise Refused(OUT_OF_RANGE)
        if len(self.queue) >= self.PULSES:
            raise Refused(QUEUE_FULL)
        self.queue.append(Pulse(mask, states, duration))
        if len(self.queue) == 1:
            self.begin()

    def block_change(self, mask, state):
        """Messages, 10, 3: the masked relays take their bit of the state, lowest bit relay 1.  M-102, 2: up to 8 as ever."""
        self.put_masked(mask, state)

    def put_masked(self, mask, states):
        """One change, of all masked relays together."""
        self.relays_changed([k for k, relay in enumerate(self.relays, 1)
                             if mask >> k - 1 & 1 and self.put_relay(relay, states >> k - 1 & 1)])

    def channel_action(self, action, channel):
        """Messages, 10, 2: close, open or toggle the relay; clear the input's count or usage, or the relay's usage."""
        relay = self.relays[channel - 1]
        if action in (1, 2, 3):
            state = {1: 1, 2: 0, 3: 1 - relay.state}[action]
            self.relays_changed([channel] if self.put_relay(relay, state) else [])
        elif action == 5:
            self.inputs[channel - 1].count = 0
        elif action == 8:
            self.inputs[channel - 1].usage = 0
        elif action == 9:
            relay.usage = 0

    def put_relay(self, relay, state):
        """Whether the state of the relay really changed."""
        before = relay.state
        relay.state = state
        return before != state

    def read_devices(self, conn, fields):
        """Messages, 21, 1 and 2: count (2) and IDs (8); type 22 has the count too, and of each ID in turn
        itself, how long its block is (2), and the block.
        """
        ids = fields.listed(lambda: fields.number(8))
        fields.end()
        content = bytearray(b"\x16" + field(len(ids), 2))
        for id in ids:
            block = self.read_block(id)
            content += field(id, 8) + field(len(block), 2) + block
        return [bytes(content)]

    def read_block(self, id):
        """Messages, 21, 3 to 5: nothing of an unknown ID; else the fields that Monitor shows of the device, its usage
        and usage alarm: 17 bytes of an input, 10 of a relay.  M-102, 9: nothing of relays 9 to 16, present or not.
        """
        device = self.devices.get(id)
        if device is None:
            return b""
        status = self.input_status(device, self.block_count_alarm) if id in INPUT_IDS else field(device.state, 1)
        return (status + field(device.usage, 8)
                + field(self.usage_alarm(device.usage, device.usage_setpoint), 1))

    def write_devices(self, conn, fields):
        """Messages, 23, 1 to 3: count (2), and of each entry ID (8), length (2) and block; none is written before
        all are known to fit, then one by one.  Messages, 23, 6: type 24 says how many were (2).
        """
        entries = fields.listed(lambda: (fields.number(8), fields.block(fields.number(2))))
        fields.end()
        written = 0
        for id, block in entries:
            if self.write_entry(id, block):
                written += 1
        return [b"\x18" + field(written, 2)]

    def write_entry(self, id, block):
        """Messages, 23, 3: whether the entry was written; one that was not changes nothing, and no other is
        touched by it.  M-102, 9: one to relays 9 to 16 is not, present or not.
        """
        if id in INPUT_IDS:
            return self.write_input(self.devices[id], block)
        if id in RELAY_IDS:
            return self.write_relay(self.devices[id], block)
        return False

    def write_input(self, inp, block):
        """Messages, 23, 4: flag 1 clears the count, flag 2 then writes it and needs the four bytes behind the
        flags, flag 4 clears the usage.  Flags 0: written, changes nothing.
        """
        if len(block) not in (1, 5):
            return False
        flags = block[0]
        if flags > 1 + 2 + 4:
            return False
        if flags & 2 and len(block) != 5:
            return False
        if flags & 1:
            inp.count = 0
        if flags & 2:
            inp.count = number(block[1:5])
        if flags & 4:
            inp.usage = 0
        return True

    def write_relay(self, relay, block):
        """Messages, 23, 5: flag 1 writes the state and needs the byte behind the flags, flag 2 clears the
        usage.  A state byte whose flag is not set is read and not used.  Events, 8: each entry is a
        change by itself, so a later one takes no mark back.
        """
        if len(block) not in (1, 2):
            return False
        flags = block[0]
        if flags > 1 + 2:
            return False
        if flags & 1 and (len(block) != 2 or block[1] > 1):
            return False
        if flags & 2:
            relay.usage = 0
        if flags & 1 and self.put_relay(relay, block[1]):
            self.changed()
        return True

    def enumerate_devices(self, conn, fields):
        """Messages, 26: flags (1); type 27 repeats them before count (2) and IDs, first those of the inputs.
        Flag 1 finds all, flag 2 none.  M-102, 9: last those of the relays whose module is present.  M-105, 4: the
        length is judged before the flags.
        """
        flags = fields.number(1)
        fields.end()
        if flags not in (1, 2, 3):
            raise Refused(OUT_OF_RANGE)
        ids = INPUT_IDS + RELAY_IDS + self.deck_ids() if flags & 1 else ()
        return [b"\x1B" + field(flags, 1) + field(len(ids), 2)
                + b"".join(field(id, 8) for id in ids)]

    def deck_ids(self):
        return tuple(DECK_IDS[k - 9] for k in self.deck())

    # -- the lines of the replay tool -----------------------------------------------------------------

    def state(self):
        """`C` clock `I` eight times level,count,usage `R` sixteen times state,usage `N` four times
        open,rank,monitor,due,got,due2,strict `P` the queue.
        """
        inputs = " ".join([f"{i.level},{i.count},{i.usage}" for i in self.inputs])
        relays = " ".join([f"{r.state},{r.usage}" for r in self.relays])
        connections = " ".join([f"{c.open},{c.rank},{c.monitor},{c.due},{self.got(c)},{c.due2},{c.strict}"
                                for c in self.connections])
        return f"C {self.clock} I {inputs} R {relays} N {connections} P {self.queue_shown()}"

    def queue_shown(self):
        """How many pulses stand, then of each, the running one first, mask,states,left: the ms to its end, or the
        duration of one that waits.  If one runs, `was` and its relays' bits at its beginning.
        """
        if not self.queue:
            return "0"
        running, lefts = self.queue[0], [self.left] + [pulse.duration for pulse in self.queue[1:]]
        pulses = " ".join([f"{pulse.mask},{pulse.states},{left}" for pulse, left in zip(self.queue, lefts)])
        return f"{len(self.queue)} {pulses} was {self.remembered & running.mask}"

    def got(self, conn):
        """How many bytes of a half-read message have been taken."""
        return len(conn.joined)

    def line(self, text):
        """One line in, without its end; the line that is printed out."""
        try:
            return self.obey(*text.split(" "))
        except BadLine:
            return "?"

    def obey(self, name, *words):
        if name == "bytes" and len(words) >= 3:
            c, cap = numbers(words[:2], (255, 65536))
            answer, taken, place, reply = self.bytes_(c, cap, piece_of(words[2]), row_of(words[3:]))
            return f"{answer} {taken} {place} {len(reply)} {shown(reply)}"
        if name == "collect":
            answer, reply = self.collect(*numbers(words, (255, 65536)))
            return f"{answer} {len(reply)} {shown(reply)}"
        if name == "level":
            return str(self.level(*numbers(words, (255, 255))))
        if name == "pass":
            return str(self.pass_(*numbers(words[:1], (TOP32,)), row_of(words[1:])))
        if name == "open":
            return str(self.open(*numbers(words[:2], (255, 255)), strict_of(words[2:])))
        if name == "close":
            return str(self.close(*numbers(words, (255,))))
        if name == "fill":
            return str(self.fill(*numbers(words[:1], (255,)), row_of(words[1:])))
        if name == "empty":
            return str(self.empty(*numbers(words[:1], (255,)), row_of(words[1:])))
        if name == "state" and not words:
            return self.state()
        if name == "power":
            self.power(*([numbers(words, SETTING_TOPS)] if words else []))
            return str(SERVED)
        raise BadLine


# ---------------------------------------------------------------------------------------------
# Reading and printing a line
# ---------------------------------------------------------------------------------------------

class BadLine(Exception):
    """A line that REPLAY.md does not have: `?`"""


# The 40 numbers of `power`, each at most: four for each input, one for each relay.
SETTING_TOPS = (TOP32, TOP32, TOP64, 1) * 8 + (TOP64,) * 8

DECIMAL = re.compile(r"[0-9]{1,20}")
HEXADECIMAL = re.compile(r"[0-9A-F]+")


def numbers(words, tops):
    """Decimal and unsigned words, each at most its top."""
    if len(words) != len(tops):
        raise BadLine
    values = []
    for word, top in zip(words, tops):
        if not DECIMAL.fullmatch(word) or int(word) > top:
            raise BadLine
        values.append(int(word))
    return values


def strict_of(words):
    """What an opening says of strictness; without a word 0, which is not strict."""
    return numbers(words, (255,))[0] if words else 0


def row_of(words):
    """The records of the row that is lent, 64 at most; without a word as many as there must be."""
    return numbers(words, (64,))[0] if words else PULSES


def piece_of(word):
    """The piece: `-` where it is empty, else hexadecimal, 200,000 digits at most."""
    if word == "-":
        return b""
    if len(word) > 200000 or len(word) % 2 or not HEXADECIMAL.fullmatch(word):
        raise BadLine
    return bytes.fromhex(word)


def shown(reply):
    return reply.hex().upper() if reply else "-"


def main():
    box = Box()
    for line in sys.stdin.buffer:
        print(box.line(line.rstrip(b"\n").decode("latin-1")))


if __name__ == "__main__":
    main()
