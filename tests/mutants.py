#!/usr/bin/env python3
"""Seeded faults of the model, to show that the traces find them.

    python3 tests/mutants.py [--seed S] [--events N]     says for each after how many events it was caught
    python3 tests/mutants.py --as NAME < trace           plays one as a replay tool (to try hold.py on)
    python3 tests/mutants.py --list

Each fault is a small override of one method or number, named after what goes wrong.  Fails if one is not
caught within the events given (default 20,000).
"""

import argparse
import functools
import itertools
import sys
import time

import model
import traces
from answers import (ALREADY_OPEN, BAD_CHECKSUM, BAD_RANK, ENDS_EARLY, KEEP_ALIVE, LEFT_OVER, LIST_CUT, LOW_RANK, NO_CONNECTION,
                     NOT_OFFERED, OUT_OF_RANGE, QUEUE_FULL, SERVED, SHORT_BUFFER, STRAY, TOO_LONG, WAITING)
from model import Box, DECK_IDS, Fields, PLACES, PULSES, Refused, TOP32, TOP64, crc16, field, number

MUTANTS = {}


def named(name):
    def enter(box):
        MUTANTS[name] = box
        return box
    return enter


def hold_to(whole, content):
    """Refuses a content that is not so many bytes long."""
    if len(content) < whole:
        raise Refused(ENDS_EARLY, len(content))
    if len(content) > whole:
        raise Refused(LEFT_OVER, whole)


def marks_of(box):
    """Of each connection both its marks."""
    return [(conn.due, conn.due2) for conn in box.connections]


def signed(data):
    """Bytes widened with their sign, then put together."""
    value = 0
    for byte in data:
        value = (value << 8) + (byte - 256 if byte > 127 else byte)
    return value


# -- numbers and fields --------------------------------------------------------------------------

@named("written count's bytes widened with their sign")
class _(Box):
    def write_input(self, inp, block):
        written = super().write_input(inp, block)
        if written and block[0] & 2:
            inp.count = signed(block[1:5]) & TOP32
        return written


@named("clock's bytes widened with their sign")
class _(Box):
    def set_clock(self, conn, fields):
        super().set_clock(conn, fields)
        self.clock = signed(fields.content[1:9]) & TOP64
        return []


@named("channel's high byte not looked at")
class _(Box):
    def command(self, conn, fields):
        if len(fields.content) == 4 and fields.content[1] != 10:
            fields = Fields(fields.content[:2] + b"\x00" + fields.content[3:], 1)
        return super().command(conn, fields)


@named("ID compared in its low 4 bytes only")
class _(Box):
    def read_block(self, id):
        return super().read_block(id & TOP32)


def finding(name, taken_for):
    """A box that takes an ID for another, where it reads and where it writes."""
    @named(name)
    class _(Box):
        def read_block(self, id):
            return super().read_block(taken_for(id))

        def write_entry(self, id, block):
            return super().write_entry(taken_for(id), block)


finding("ID 256k + 254 found", lambda id: id + 1 if id & 0xFF == 0xFE else id)
finding("input 0 found", lambda id: 0x01FF if id == 0x00FF else id)
finding("relay 0 found", lambda id: 0x0101FF if id == 0x0100FF else id)
finding("relay 9 found", lambda id: 0x0108FF if id == 0x0109FF else id)
finding("ID's highest bit not looked at", lambda id: id & TOP64 >> 1)


@named("length of a frame kept in 16 bits")
class _(Box):
    def message_end(self, joined):
        if joined and joined[0] == 1 and len(joined) >= 5:
            end = max(5, 5 + number(joined[1:3]) & 0xFFFF)
            return end if len(joined) >= end else None
        return super().message_end(joined)


@named("left-over bytes of a content not seen")
class _(Box):
    class Fields(Fields):
        def end(self):
            pass


# -- alarms ----------------------------------------------------------------------------------------

@named("Monitor's count alarm by the read block's rule")
class _(Box):
    def monitor_count_alarm(self, count, setpoint):
        return self.block_count_alarm(count, setpoint)


@named("read block's count alarm by Monitor's rule")
class _(Box):
    def block_count_alarm(self, count, setpoint):
        return self.monitor_count_alarm(count, setpoint)


@named("the two rules exchanged")
class _(Box):
    def input_status(self, inp, count_alarm):
        other = self.block_count_alarm if count_alarm == self.monitor_count_alarm else self.monitor_count_alarm
        return super().input_status(inp, other)


@named("read block's second count alarm by Monitor's rule")
class _(Box):
    def input_status(self, inp, count_alarm):
        return super().input_status(inp, count_alarm)[:-1] + field(self.monitor_count_alarm(inp.count, inp.setpoint2), 1)


@named("usage alarm only above the setpoint")
class _(Box):
    def usage_alarm(self, usage, setpoint):
        return 1 if setpoint and usage > setpoint else 0


@named("count setpoint 0 alarms in the Monitor message")
class _(Box):
    def monitor_count_alarm(self, count, setpoint):
        return 1 if count > setpoint else 0


@named("count setpoint 0 alarms in the read block")
class _(Box):
    def block_count_alarm(self, count, setpoint):
        return 1 if count >= setpoint else 0


@named("the read block's 0 looked for in the count")
class _(Box):
    def block_count_alarm(self, count, setpoint):
        return 1 if count and count >= setpoint else 0


@named("usage setpoint 0 alarms")
class _(Box):
    def usage_alarm(self, usage, setpoint):
        return 1 if usage >= setpoint else 0


@named("Alarm State without its switch")
class _(Box):
    def alarm_state(self, inp):
        return inp.level


@named("usage setpoint cut to 32 bits")
class _(Box):
    def usage_alarm(self, usage, setpoint):
        return super().usage_alarm(usage, setpoint & TOP32)


# -- events besides bytes --------------------------------------------------------------------------

@named("count wraps")
class _(Box):
    def one_more(self, count):
        return count + 1 & TOP32


@named("count stops one early")
class _(Box):
    def one_more(self, count):
        return min(count + 1, max(count, TOP32 - 1))


@named("input on told on counts")
class _(Box):
    def level(self, k, v):
        if 1 <= k <= 8 and v == 1 and self.inputs[k - 1].level:
            self.inputs[k - 1].count = self.one_more(self.inputs[k - 1].count)
        return super().level(k, v)


@named("falling input counts")
class _(Box):
    def level(self, k, v):
        if 1 <= k <= 8 and v == 0 and self.inputs[k - 1].level:
            self.inputs[k - 1].count = self.one_more(self.inputs[k - 1].count)
        return super().level(k, v)


@named("level above 1 taken for on")
class _(Box):
    def level(self, k, v):
        return super().level(k, min(v, 1))


@named("clock wraps")
class _(Box):
    def grown(self, ms, d):
        return ms + d & TOP64


@named("usage grows while off or open")
class _(Box):
    def grow(self, d):
        before = [relay.usage for relay in self.internal()]
        super().grow(d)
        for relay, usage in zip(self.relays, before):
            relay.usage = self.grown(usage, d)


@named("clock setting changes usage")
class _(Box):
    def set_clock(self, conn, fields):
        before = self.clock
        super().set_clock(conn, fields)
        for inp in self.inputs:
            if inp.level:
                inp.usage = inp.usage + self.clock - before & TOP64
        return []


@named("clear usage of an input clears the relay's")
class _(Box):
    def channel_action(self, action, channel):
        super().channel_action(9 if action == 8 else action, channel)


@named("rank judged before the open mark")
class _(Box):
    def open(self, c, rank, strict=0):
        return BAD_RANK if c <= 3 and rank > 2 else super().open(c, rank, strict)


@named("rank 3 opened")
class _(Box):
    def open(self, c, rank, strict=0):
        return super().open(c, 2 if rank == 3 else rank, strict)


@named("Monitor due at rank 0")
class _(Box):
    def open(self, c, rank, strict=0):
        answer = super().open(c, rank, strict)
        if answer == SERVED:
            self.connections[c].due = 1
        return answer


@named("half-read message kept over a closing")
class _(Box):
    def open(self, c, rank, strict=0):
        kept = self.kept.get(c, b"") if c <= 3 else b""
        answer = super().open(c, rank, strict)
        if answer == SERVED:
            self.connections[c].joined = bytearray(kept)
        return answer

    def close(self, c):
        kept = bytes(self.connections[c].joined) if c <= 3 else b""
        answer = super().close(c)
        if answer == SERVED:
            self.kept[c] = kept
        return answer

    def power(self, *settings):
        super().power(*settings)
        self.kept = {}


@named("Monitor switch kept over a closing")
class _(Box):
    def open(self, c, rank, strict=0):
        off = c <= 3 and c in self.off
        answer = super().open(c, rank, strict)
        if answer == SERVED and off:
            self.connections[c].monitor = 0
        return answer

    def close(self, c):
        if self.is_open(c):
            (self.off.discard if self.connections[c].monitor else self.off.add)(c)
        return super().close(c)

    def power(self, *settings):
        super().power(*settings)
        self.off = set()


@named("shut connection collects")
class _(Box):
    def collect(self, c, cap):
        if c <= 3 and not self.connections[c].open and cap >= 4096:
            return WAITING, b""
        return super().collect(c, cap)


@named("collection leaves the due mark")
class _(Box):
    def collect(self, c, cap):
        answer = super().collect(c, cap)
        if answer[0] == SERVED:
            self.connections[c].due = 1
        return answer


@named("Monitor message made at the change, not at collection")
class _(Box):
    def changed(self, internal=True):
        super().changed(internal)
        self.made = self.monitor_content()

    def collect(self, c, cap):
        answer, reply = super().collect(c, cap)
        return answer, self.frame(self.made) + reply[102:] if reply[5:6] == b"\x01" and self.made else reply

    def power(self, *settings):
        super().power(*settings)
        self.made = b""


# -- due marks -------------------------------------------------------------------------------------

@named("sender left out of the marks")
class _(Box):
    def serve(self, conn, content):
        before = conn.due
        answer = super().serve(conn, content)
        if content[0] in (10, 23):
            conn.due = before
        return answer


@named("only the sender marked")
class _(Box):
    def serve(self, conn, content):
        before = [other.due for other in self.connections]
        answer = super().serve(conn, content)
        for other, due in zip(self.connections, before):
            if other is not conn:
                other.due = due
        return answer


@named("due set where no relay changed")
class _(Box):
    def put_relay(self, relay, state):
        super().put_relay(relay, state)
        return True


@named("due set by mask 0")
class _(Box):
    def block_change(self, mask, state):
        super().block_change(mask, state)
        if mask == 0:
            self.changed()


@named("due set where the level stays")
class _(Box):
    def level(self, k, v):
        answer = super().level(k, v)
        if answer == SERVED:
            self.changed()
        return answer


@named("due set by clearing a count")
class _(Box):
    def channel_action(self, action, channel):
        super().channel_action(action, channel)
        if action == 5:
            self.changed()


@named("due set with Monitor off")
class _(Box):
    def changed(self, internal=True):
        super().changed(internal)
        for conn in self.connections:
            if internal and conn.open and conn.rank >= 1:
                conn.due = 1


@named("due judged once for all entries of a write")
class _(Box):
    def write_devices(self, conn, fields):
        states = [relay.state for relay in self.relays]
        marks = [other.due for other in self.connections]
        answer = super().write_devices(conn, fields)
        if states == [relay.state for relay in self.relays]:
            for other, due in zip(self.connections, marks):
                other.due = due
        return answer


@named("request 1 clears the due mark")
class _(Box):
    def request(self, conn, fields):
        answer = super().request(conn, fields)
        if fields.content[1:3] == b"\x00\x01":
            conn.due = 0
        return answer


@named("request 4 leaves the due mark")
class _(Box):
    def request(self, conn, fields):
        due = conn.due
        answer = super().request(conn, fields)
        conn.due = due
        return answer


@named("request 5 sets the due mark")
class _(Box):
    def request(self, conn, fields):
        answer = super().request(conn, fields)
        if fields.content[1:3] == b"\x00\x05":
            conn.due = 1
        return answer


# -- frame -----------------------------------------------------------------------------------------

class OneStore(Box):
    """The bytes_ of a box with one half-read store."""

    def bytes_(self, c, cap, piece, row=PULSES):
        if c <= 3:
            self.connections[c].joined = self.store
        answer = super().bytes_(c, cap, piece, row)
        if c <= 3:
            self.store = self.connections[c].joined
        return answer

    def power(self, *settings):
        super().power(*settings)
        self.store = bytearray()


@named("one half-read store for all connections")
class _(OneStore):
    pass


@named("checksum judged before the last byte is in")
class _(Box):
    def bytes_(self, c, cap, piece, row=PULSES):
        if self.refuse_call(c, cap, row) is None:
            conn = self.connections[c]
            joined = bytes(conn.joined + piece)
            if len(joined) >= 5 and joined[0] == 1:
                size = number(joined[1:3])
                early = joined[5:4 + size]
                if 1 <= size <= 1024 and len(joined) >= 4 + size and not self.checksum_passes(conn, number(joined[3:5]), early):
                    if crc16(joined[5:5 + size]) != number(joined[3:5]):
                        taken = max(0, 4 + size - len(conn.joined))
                        conn.joined = bytearray()
                        return BAD_CHECKSUM, taken, 0, b""
        return super().bytes_(c, cap, piece, row)


@named("checksum without the last byte")
class _(Box):
    def checksum_passes(self, conn, sent, content):
        return super().checksum_passes(conn, sent, content[:-1])


@named("checksum 0xFFFF checked")
class _(Box):
    def checksum_passes(self, conn, sent, content):
        return sent == crc16(content)


@named("checksum 0 passes unchecked")
class _(Box):
    def checksum_passes(self, conn, sent, content):
        return sent == 0 or super().checksum_passes(conn, sent, content)


@named("checksum of N = 0 not judged")
class _(Box):
    def checksum_passes(self, conn, sent, content):
        return not content or super().checksum_passes(conn, sent, content)


@named("checksum judged after the type")
class _(Box):
    def judge(self, conn, message):
        if message[0] == 1 and 6 <= len(message) <= 1029 and message[5] not in self.OFFERED:
            return NOT_OFFERED, 0, b""
        return super().judge(conn, message)


@named("0x06 inside content a keep-alive")
class _(Box):
    def bytes_(self, c, cap, piece, row=PULSES):
        if self.refuse_call(c, cap, row) is None and len(self.connections[c].joined) > 5 and piece[:1] == b"\x06":
            return KEEP_ALIVE, 1, 0, b""
        return super().bytes_(c, cap, piece, row)


@named("0x01 inside content begins a frame")
class _(Box):
    def bytes_(self, c, cap, piece, row=PULSES):
        if self.refuse_call(c, cap, row) is None and len(self.connections[c].joined) > 5 and piece[:1] == b"\x01":
            self.connections[c].joined = bytearray()
        return super().bytes_(c, cap, piece, row)


@named("stray byte taken for a keep-alive")
class _(Box):
    def judge(self, conn, message):
        return (KEEP_ALIVE, 0, b"") if message[0] == 0x86 else super().judge(conn, message)


@named("taken one byte past the end")
class _(Box):
    def bytes_(self, c, cap, piece, row=PULSES):
        answer, taken, place, reply = super().bytes_(c, cap, piece, row)
        if answer == SERVED and taken < len(piece):
            taken += 1
        return answer, taken, place, reply


@named("all of the piece taken though a message ended in it")
class _(Box):
    def bytes_(self, c, cap, piece, row=PULSES):
        answer, taken, place, reply = super().bytes_(c, cap, piece, row)
        refused = answer in (BAD_CHECKSUM, NOT_OFFERED, LOW_RANK, ENDS_EARLY, LEFT_OVER, LIST_CUT, OUT_OF_RANGE)
        return answer, len(piece) if refused else taken, place, reply


@named("strays skipped in one call")
class _(Box):
    def bytes_(self, c, cap, piece, row=PULSES):
        answer, taken, place, reply = super().bytes_(c, cap, piece, row)
        if answer == STRAY:
            while taken < len(piece) and piece[taken] not in (1, 6):
                taken += 1
        return answer, taken, place, reply


@named("limit off by one: 1,024 refused")
class _(Box):
    LONGEST = 1023


@named("limit off by one: 1,025 judged")
class _(Box):
    LONGEST = 1025


@named("message above the limit answered at its header")
class _(Box):
    def message_end(self, joined):
        if len(joined) >= 5 and joined[0] == 1 and number(joined[1:3]) > 1024:
            return 5
        return super().message_end(joined)

    def judge(self, conn, message):
        if message[0] == 1 and number(message[1:3]) > 1024:
            return TOO_LONG, 0, b""
        return super().judge(conn, message)


@named("message above the limit: half-read message not cleared")
class _(Box):
    def judge(self, conn, message):
        answer, place, reply = super().judge(conn, message)
        if answer == TOO_LONG:
            conn.joined = bytearray(message[:3])
        return answer, place, reply


@named("bad checksum: half-read message not cleared")
class _(Box):
    def judge(self, conn, message):
        answer, place, reply = super().judge(conn, message)
        if answer == BAD_CHECKSUM:
            conn.joined = bytearray(message[:1])
        return answer, place, reply


@named("buffer off by one: 4,095 enough")
class _(Box):
    BUFFER = 4095


@named("buffer off by one: 4,096 too small")
class _(Box):
    BUFFER = 4097


@named("buffer not judged for an empty piece")
class _(Box):
    def bytes_(self, c, cap, piece, row=PULSES):
        if not piece and self.is_open(c):
            cap = 4096
        return super().bytes_(c, cap, piece, row)


@named("buffer not judged where nothing is due")
class _(Box):
    def collect(self, c, cap):
        if self.is_open(c) and not self.connections[c].due and not self.connections[c].due2:
            return WAITING, b""
        return super().collect(c, cap)


@named("buffer judged after the bytes are taken")
class _(Box):
    def bytes_(self, c, cap, piece, row=PULSES):
        answer = super().bytes_(c, cap, piece, row)
        if cap < 4096 and self.is_open(c) and super().bytes_(c, 4096, piece, row)[0] == WAITING:
            return SHORT_BUFFER, 0, 0, b""
        return answer


@named("reply with checksum 0xFFFF")
class _(Box):
    def frame(self, content):
        return b"\x01" + field(len(content), 2) + b"\xFF\xFF" + content


# -- messages offered --------------------------------------------------------------------------------

@named("rank judged before the type")
class _(Box):
    def serve(self, conn, content):
        if content and conn.rank == 0:
            raise Refused(LOW_RANK)
        return super().serve(conn, content)


@named("rank 1 sets the clock")
class _(Box):
    def rank_needed(self, kind):
        return 1


@named("Monitor message arriving answered")
class _(Box):
    OFFERED = dict(Box.OFFERED)
    OFFERED[1] = "arriving"

    def arriving(self, conn, fields):
        return [self.monitor_content()]


@named("length judged before the request")
class _(Box):
    def request(self, conn, fields):
        if len(fields.content) != 3:
            hold_to(7, fields.content)
        return super().request(conn, fields)


@named("length judged before the action")
class _(Box):
    def command(self, conn, fields):
        hold_to(8 if fields.content[1:2] in (b"\x06", b"\x07") else 4, fields.content)
        return super().command(conn, fields)


@named("channel judged before the length")
class _(Box):
    def command(self, conn, fields):
        content = fields.content
        if len(content) >= 4 and content[1] in (1, 2, 3, 5, 8, 9):
            self.judge_channel(content[1], number(content[2:4]))
        return super().command(conn, fields)


@named("flags of an enumeration judged before the length")
class _(Box):
    def enumerate_devices(self, conn, fields):
        if len(fields.content) >= 2 and fields.content[1] not in (1, 2, 3):
            raise Refused(OUT_OF_RANGE)
        return super().enumerate_devices(conn, fields)


@named("request 3 served")
class _(Box):
    def request(self, conn, fields):
        if fields.content == b"\x05\x00\x03":
            return []
        return super().request(conn, fields)


@named("interval of 3 bytes let through")
class _(Box):
    def request(self, conn, fields):
        if len(fields.content) == 6:
            fields = Fields(fields.content + b"\x00", 1)
        return super().request(conn, fields)


@named("action 10 changes relays that are not masked")
class _(Box):
    def block_change(self, mask, state):
        super().block_change(0xFF if mask else 0, state & mask)


@named("highest bit of the mask is channel 1")
class _(Box):
    def block_change(self, mask, state):
        turned = [int(f"{byte:08b}"[::-1], 2) for byte in (mask, state)]
        super().block_change(*turned)


@named("channel 8 not served")
class _(Box):
    def command(self, conn, fields):
        if len(fields.content) == 4 and fields.content[1] != 10 and fields.content[2:] == b"\x00\x08":
            raise Refused(OUT_OF_RANGE)
        return super().command(conn, fields)


@named("repeated ID reported once")
class _(Box):
    def read_devices(self, conn, fields):
        answer = super().read_devices(conn, fields)
        count = number(fields.content[1:3])
        ids = dict.fromkeys(fields.content[3 + 8 * k:11 + 8 * k] for k in range(count))
        return answer if len(ids) == count else super().read_devices(
            conn, Fields(b"\x15" + field(len(ids), 2) + b"".join(ids), 1))


@named("unknown ID left out of the answer")
class _(Box):
    def read_devices(self, conn, fields):
        super().read_devices(conn, fields)
        ids = [fields.content[k:k + 8] for k in range(3, len(fields.content), 8)]
        ids = [id for id in ids if number(id) in self.devices]
        return super().read_devices(conn, Fields(b"\x15" + field(len(ids), 2) + b"".join(ids), 1))


@named("127 IDs refused")
class _(Box):
    def read_devices(self, conn, fields):
        if fields.content[1:3] == b"\x00\x7F":
            raise Refused(LIST_CUT, len(fields.content))
        return super().read_devices(conn, fields)


@named("a bad third write entry undoes the first two")
class _(Box):
    def write_devices(self, conn, fields):
        counts = [inp.count for inp in self.inputs]
        states = [relay.state for relay in self.relays]
        self.entries = []
        answer = super().write_devices(conn, fields)
        if len(self.entries) >= 3 and not self.entries[2]:
            for inp, count in zip(self.inputs, counts):
                inp.count = count
            for relay, state in zip(self.relays, states):
                relay.state = state
        return answer

    def write_entry(self, id, block):
        self.entries.append(super().write_entry(id, block))
        return self.entries[-1]


@named("entries after a bad one not done")
class _(Box):
    def write_devices(self, conn, fields):
        self.failed = False
        return super().write_devices(conn, fields)

    def write_entry(self, id, block):
        if not self.failed:
            self.failed = not super().write_entry(id, block)
        return not self.failed


@named("entries written before the message is known to fit")
class _(Box):
    def write_devices(self, conn, fields):
        content, position = fields.content, 3
        try:
            return super().write_devices(conn, fields)
        except Refused:
            for _ in range(number(content[1:3]) if len(content) >= 3 else 0):
                block = position + 10
                size = number(content[position + 8:block])
                if block + size > len(content) or block > len(content):
                    break
                self.write_entry(number(content[position:position + 8]), content[block:block + size])
                position = block + size
            raise


@named("failed entries counted as written")
class _(Box):
    def write_devices(self, conn, fields):
        return [content[:1] + fields.content[1:3] for content in super().write_devices(conn, fields)]


@named("write answered with 14")
class _(Box):
    def write_devices(self, conn, fields):
        return [b"\x0E" + content[1:] for content in super().write_devices(conn, fields)]


@named("flags 1 and 2 together reset the count")
class _(Box):
    def write_input(self, inp, block):
        written = super().write_input(inp, block)
        if written and block[0] & 1:
            inp.count = 0
        return written


@named("count written without its flag")
class _(Box):
    def write_input(self, inp, block):
        written = super().write_input(inp, block)
        if written and len(block) == 5 and not block[0] & 3:
            inp.count = number(block[1:5])
        return written


@named("write flags 0 not written")
class _(Box):
    def write_entry(self, id, block):
        return block[:1] != b"\x00" and super().write_entry(id, block)


@named("unknown input flag let through")
class _(Box):
    def write_input(self, inp, block):
        return super().write_input(inp, bytes([block[0] & 7]) + block[1:] if block else block)


@named("unknown relay flag 4 let through")
class _(Box):
    def write_relay(self, relay, block):
        return super().write_relay(relay, bytes([block[0] & ~4]) + block[1:] if block else block)


@named("relay state above 1 taken for closed")
class _(Box):
    def write_relay(self, relay, block):
        if len(block) == 2 and block[0] & 1:
            block = block[:1] + bytes([1 if block[1] else 0])
        return super().write_relay(relay, block)


@named("relay state above 1 refused though it is not written")
class _(Box):
    def write_relay(self, relay, block):
        return not (len(block) == 2 and block[1] > 1) and super().write_relay(relay, block)


@named("usage reset though the entry fails")
class _(Box):
    def write_relay(self, relay, block):
        if block and block[0] == 3:
            relay.usage = 0
        return super().write_relay(relay, block)


@named("relay's block of one byte refused")
class _(Box):
    def write_relay(self, relay, block):
        return len(block) == 2 and super().write_relay(relay, block)


@named("enumeration flag 2 finds all")
class _(Box):
    def enumerate_devices(self, conn, fields):
        answer = super().enumerate_devices(conn, fields)
        if fields.content[1] == 2:
            answer = [answer[0][:2] + super().enumerate_devices(conn, Fields(b"\x1A\x03", 1))[0][2:]]
        return answer


@named("enumeration with relays before inputs")
class _(Box):
    def enumerate_devices(self, conn, fields):
        return [content[:4] + content[68:] + content[4:68] for content in super().enumerate_devices(conn, fields)]


# -- pulses: M-100 -------------------------------------------------------------------------------------

def pulsing(fields):
    """Whether a command has the length and an action of a pulse."""
    return len(fields.content) == 8 and fields.content[1] in (6, 7)


def duration_of(fields):
    return number(fields.content[4:])


def with_duration(fields, duration):
    return Fields(fields.content[:4] + field(duration, 4), fields.position)


@named("pulse end opens always")
class _(Box):
    def end(self):
        self.remembered = 0
        super().end()


@named("pulse end turns the masked relays round")
class _(Box):
    def end(self):
        self.remembered = self.relay_states() ^ 0xFFFF
        super().end()


@named("pulse ends before usage grows")
class _(Box):
    def grow(self, d):
        self.last = 1 if self.queue and d == self.left else 0
        super().grow(d - self.last)

    def run_down(self, ms):
        super().run_down(ms)
        if self.last:
            super().grow(1)


@named("pulse lasts one ms longer")
class _(Box):
    def begin(self):
        super().begin()
        self.left += 1


@named("second pulse begins a ms late")
class _(Box):
    def run_down(self, ms):
        if self.resting:
            self.resting = False
            self.begin()
        else:
            super().run_down(ms)

    def begin(self):
        if len(self.queue) < self.stood:            # begun by an end, not by a message
            self.resting, self.left = True, 1
            self.stood = 0
        else:
            super().begin()
            self.stood = 0

    def end(self):
        self.stood = len(self.queue)
        super().end()

    def power(self, *settings):
        super().power(*settings)
        self.resting, self.stood = False, 0


@named("next pulse begins before the last one ends")
class _(Box):
    def run_down(self, ms):
        if len(self.queue) > 1 and ms == self.left:
            ended, before = self.queue.pop(0), self.remembered
            self.begin()
            self.put_masked(ended.mask, before)
        else:
            super().run_down(ms)


@named("32nd pulse accepted")
class _(Box):
    PULSES = 32


@named("31st pulse refused")
class _(Box):
    PULSES = 30


@named("full queue answered as out of range")
class _(Box):
    def pulse(self, mask, states, duration):
        if len(self.queue) >= PULSES:
            raise Refused(OUT_OF_RANGE)
        super().pulse(mask, states, duration)


@named("full queue judged before the duration")
class _(Box):
    def pulse(self, mask, states, duration):
        if len(self.queue) >= PULSES:
            raise Refused(QUEUE_FULL)
        super().pulse(mask, states, duration)


@named("full queue judged before the channel")
class _(Box):
    def command(self, conn, fields):
        if pulsing(fields) and fields.content[1] == 6 and duration_of(fields) and len(self.queue) >= PULSES:
            raise Refused(QUEUE_FULL)
        return super().command(conn, fields)


@named("full queue judged before the length")
class _(Box):
    def command(self, conn, fields):
        if len(fields.content) > 1 and fields.content[1] in (6, 7) and len(fields.content) != 8 and len(self.queue) >= PULSES:
            raise Refused(QUEUE_FULL)
        return super().command(conn, fields)


@named("full queue refuses every command")
class _(Box):
    def command(self, conn, fields):
        if len(fields.content) == 4 and len(self.queue) >= PULSES:
            raise Refused(QUEUE_FULL)
        return super().command(conn, fields)


@named("a pulse that finds no place takes the last one's")
class _(Box):
    def pulse(self, mask, states, duration):
        try:
            super().pulse(mask, states, duration)
        except Refused as refusal:
            if refusal.answer == QUEUE_FULL:
                self.queue[-1] = model.Pulse(mask, states, duration)
            raise


@named("duration 0 accepted")
class _(Box):
    def pulse(self, mask, states, duration):
        if duration:
            super().pulse(mask, states, duration)


@named("duration 0 taken for one ms")
class _(Box):
    def pulse(self, mask, states, duration):
        super().pulse(mask, states, max(duration, 1))


@named("duration 0 judged before the length")
class _(Box):
    def command(self, conn, fields):
        if len(fields.content) > 8 and fields.content[1] in (6, 7) and fields.content[4:8] == bytes(4):
            raise Refused(OUT_OF_RANGE)
        return super().command(conn, fields)


@named("duration little-endian")
class _(Box):
    def command(self, conn, fields):
        if pulsing(fields):
            fields = with_duration(fields, int.from_bytes(fields.content[4:], "little"))
        return super().command(conn, fields)


@named("duration cut to 16 bits")
class _(Box):
    def command(self, conn, fields):
        if pulsing(fields) and duration_of(fields) & 0xFFFF:
            fields = with_duration(fields, duration_of(fields) & 0xFFFF)
        return super().command(conn, fields)


@named("duration above 2147483647 refused")
class _(Box):
    def pulse(self, mask, states, duration):
        super().pulse(mask, states, 0 if duration >> 31 else duration)


@named("pulse of 7 bytes let through")
class _(Box):
    def command(self, conn, fields):
        if len(fields.content) == 7 and fields.content[1] in (6, 7):
            fields = Fields(fields.content + b"\x00", fields.position)
        return super().command(conn, fields)


@named("pulse of 9 bytes let through")
class _(Box):
    def command(self, conn, fields):
        if len(fields.content) == 9 and fields.content[1] in (6, 7):
            fields = Fields(fields.content[:8], fields.position)
        return super().command(conn, fields)


@named("block pulse for 16 relays served")
class _(Box):
    def command(self, conn, fields):
        content = fields.content
        if len(content) == 10 and content[1] == 7:
            fields = Fields(content[:2] + content[3:4] + content[5:], fields.position)
        return super().command(conn, fields)


@named("action 6 refused")
class _(Box):
    def command(self, conn, fields):
        if fields.content[1:2] == b"\x06":
            raise Refused(OUT_OF_RANGE)
        return super().command(conn, fields)


@named("pulse's length judged before an unknown action")
class _(Box):
    def command(self, conn, fields):
        if len(fields.content) == 8 and fields.content[1] not in (6, 7):
            raise Refused(LEFT_OVER, 4)
        return super().command(conn, fields)


@named("pulse's channel: high byte not looked at")
class _(Box):
    def command(self, conn, fields):
        if pulsing(fields) and fields.content[1] == 6:
            fields = Fields(fields.content[:2] + b"\x00" + fields.content[3:], fields.position)
        return super().command(conn, fields)


@named("pulse's channel judged before the length")
class _(Box):
    def command(self, conn, fields):
        content = fields.content
        if len(content) >= 4 and content[1] == 6:
            self.judge_channel(6, number(content[2:4]))
        return super().command(conn, fields)


@named("pulse of channel 9 served as one of no relay")
class _(Box):
    def channel_pulse(self, fields):
        if fields.content[2:4] == b"\x00\x09" and pulsing(fields):
            self.pulse(0, 0, duration_of(fields))
        else:
            super().channel_pulse(fields)


@named("pulse of one channel toggles its relay")
class _(Box):
    def channel_pulse(self, fields):
        before, stood = self.relay_states(), len(self.queue)
        super().channel_pulse(fields)
        if not stood:
            self.put_masked(self.queue[0].mask, ~before)


@named("pulse of one channel takes all other relays along")
class _(Box):
    def channel_pulse(self, fields):
        super().channel_pulse(fields)
        self.queue[-1].mask = 0xFF


@named("action 7's mask and states swapped")
class _(Box):
    def command(self, conn, fields):
        content = fields.content
        if pulsing(fields) and content[1] == 7:
            fields = Fields(content[:2] + content[3:4] + content[2:3] + content[4:], fields.position)
        return super().command(conn, fields)


@named("action 7's highest bit is channel 1")
class _(Box):
    def block_pulse(self, fields):
        turned = bytes(int(f"{byte:08b}"[::-1], 2) for byte in fields.content[2:4])
        super().block_pulse(Fields(fields.content[:2] + turned + fields.content[4:], fields.position))


@named("mask ignored at the pulse's end")
class _(Box):
    def end(self):
        self.queue[0].mask = 0xFF
        super().end()


@named("mask ignored at the pulse's beginning")
class _(Box):
    def begin(self):
        super().begin()
        self.put_masked(0xFF if self.queue[0].mask else 0, self.queue[0].states)


@named("unmasked states used")
class _(Box):
    def pulse(self, mask, states, duration):
        super().pulse(mask, states, duration)
        self.queue[-1].states = states
        if len(self.queue) == 1:
            self.put_masked(0xFF, states)

    def begin(self):
        super().begin()
        self.put_masked(0xFF, self.queue[0].states)


@named("unmasked states shown")
class _(Box):
    def pulse(self, mask, states, duration):
        super().pulse(mask, states, duration)
        self.queue[-1].states = states


@named("pulse of mask 0 not queued")
class _(Box):
    def pulse(self, mask, states, duration):
        if mask or not duration:
            super().pulse(mask, states, duration)


@named("pulse of mask 0 refused")
class _(Box):
    def pulse(self, mask, states, duration):
        super().pulse(mask, states, duration if mask else 0)


@named("pulse of mask 0 ends at once")
class _(Box):
    def begin(self):
        super().begin()
        while self.queue and not self.queue[0].mask:
            self.queue.pop(0)
            if self.queue:
                super().begin()


@named("states remembered at acceptance instead of beginning")
class _(Box):
    def pulse(self, mask, states, duration):
        before = self.relay_states()
        super().pulse(mask, states, duration)
        self.accepted.append(before)

    def end(self):
        self.remembered = self.accepted.pop(0)
        super().end()

    def power(self, *settings):
        super().power(*settings)
        self.accepted = []


@named("states remembered once for all pulses of a queue")
class _(Box):
    def begin(self):
        first = self.first
        super().begin()
        self.first = self.remembered = self.remembered if first is None else first

    def end(self):
        super().end()
        if not self.queue:
            self.first = None

    def power(self, *settings):
        super().power(*settings)
        self.first = None


@named("states remembered after the beginning")
class _(Box):
    def begin(self):
        super().begin()
        self.remembered = self.relay_states()


@named("states of a command remembered")
class _(Box):
    def channel_action(self, action, channel):
        super().channel_action(action, channel)
        if action in (1, 2, 3):
            self.remembered = self.relay_states()


@named("relays that a command changed meanwhile do not return")
class _(Box):
    def end(self):
        pulse = self.queue[0]
        pulse.mask &= ~(self.relay_states() ^ pulse.states)
        super().end()


@named("a command ends the running pulse")
class _(Box):
    def channel_action(self, action, channel):
        if action in (1, 2, 3) and self.queue:
            self.run_down(self.left)
        super().channel_action(action, channel)


@named("a block ends the running pulse")
class _(Box):
    def block_change(self, mask, state):
        if self.queue and mask & self.queue[0].mask:
            self.run_down(self.left)
        super().block_change(mask, state)


@named("a write entry to a pulsed relay fails")
class _(Box):
    def write_relay(self, relay, block):
        mask = self.queue[0].mask if self.queue else 0
        pulsed = mask >> self.relays.index(relay) & 1
        return not (pulsed and block[:1] == b"\x01") and super().write_relay(relay, block)


@named("a new pulse ends the running one")
class _(Box):
    def pulse(self, mask, states, duration):
        super().pulse(mask, states, duration)
        if len(self.queue) == 2:
            self.run_down(self.left)


@named("a new pulse of the same relays lengthens the running one")
class _(Box):
    def pulse(self, mask, states, duration):
        super().pulse(mask, states, duration)
        if len(self.queue) == 2 and self.queue[0].mask == mask and mask:
            self.queue.pop()
            self.left += duration


@named("last come first run")
class _(Box):
    def end(self):
        super().end()
        self.queue[:] = self.queue[-1:] + self.queue[:-1]


@named("finished place not used again")
class _(Box):
    def pulse(self, mask, states, duration):
        if duration and self.used == PULSES:
            raise Refused(QUEUE_FULL)
        super().pulse(mask, states, duration)
        self.used += 1

    def power(self, *settings):
        super().power(*settings)
        self.used = 0


@named("finished places used again only after the last end")
class _(Box):
    def pulse(self, mask, states, duration):
        self.used = self.used if self.queue else 0
        if duration and self.used == PULSES:
            raise Refused(QUEUE_FULL)
        super().pulse(mask, states, duration)
        self.used += 1

    def power(self, *settings):
        super().power(*settings)
        self.used = 0


@named("pulses' beginnings not marked")
class _(Box):
    def begin(self):
        before = [conn.due for conn in self.connections]
        super().begin()
        for conn, due in zip(self.connections, before):
            conn.due = due


@named("pulses' ends not marked")
class _(Box):
    def end(self):
        before = [conn.due for conn in self.connections]
        super().end()
        for conn, due in zip(self.connections, before):
            conn.due = due


@named("beginning marks where no relay changed")
class _(Box):
    def begin(self):
        super().begin()
        self.changed()


@named("end marks where no relay changed")
class _(Box):
    def end(self):
        super().end()
        self.changed()


class OneChange(Box):
    """Judges by the relays' states before and after several steps whether something changed."""

    def as_one(self, steps):
        states, marks = self.relay_states(), marks_of(self)
        answer = steps()
        if states == self.relay_states():
            for conn, (due, due2) in zip(self.connections, marks):
                conn.due, conn.due2 = due, due2
        return answer


@named("end and beginning as one change")
class _(OneChange):
    def run_down(self, ms):
        self.as_one(lambda: Box.run_down(self, ms))


@named("all ends and beginnings of a pass as one change")
class _(OneChange):
    def pass_(self, d, row=PULSES):
        return self.as_one(lambda: Box.pass_(self, d, row))


@named("usage of a whole pass by the states before it")
class _(Box):
    def pass_(self, d, row=PULSES):
        if row >= PULSES:
            super().grow(d)
        self.growing = False
        answer = super().pass_(d, row)
        self.growing = True
        return answer

    def grow(self, d):
        if self.growing:
            super().grow(d)

    def power(self, *settings):
        super().power(*settings)
        self.growing = True


@named("a pass ends one pulse at most")
class _(Box):
    def pass_(self, d, row=PULSES):
        behind = sum(pulse.duration for pulse in self.queue[1:2])
        late = d - self.left - behind + 1 if behind else 0
        answer = super().pass_(d - max(late, 0), row)
        if answer == SERVED and late > 0:
            self.grow(late)
        return answer


@named("only the last pulse of a long pass ends")
class _(Box):
    def pass_(self, d, row=PULSES):
        self.ends, over = 0, d - self.left
        for pulse in self.queue[1:] + [None]:
            self.ends += over >= 0
            over -= pulse.duration if pulse else 0
        return super().pass_(d, row)

    def end(self):
        self.ends -= 1
        if self.ends:
            self.queue[0].mask = 0
        super().end()


@named("the rest of a pass after an end is lost to the next pulse")
class _(Box):
    def pass_(self, d, row=PULSES):
        rest = d - self.left if self.queue else 0
        answer = super().pass_(d - max(rest, 0), row)
        if answer == SERVED and rest > 0:
            self.grow(rest)
        return answer


@named("the time of waiting pulses runs too")
class _(Box):
    def run_down(self, ms):
        for pulse in self.queue[1:]:
            pulse.duration = max(pulse.duration - ms, 1)
        super().run_down(ms)


@named("d = 0 takes one ms off the running pulse")
class _(Box):
    def pass_(self, d, row=PULSES):
        if d == 0 and self.queue and row >= PULSES:
            self.run_down(1)
        return super().pass_(d, row)


@named("clock setting shifts the end")
class _(Box):
    def set_clock(self, conn, fields):
        end = self.clock + self.left
        super().set_clock(conn, fields)
        if self.queue:
            self.left = min(max(end - self.clock, 1), TOP32)
        return []


@named("pulse stands still while the clock is at its top")
class _(Box):
    def pass_(self, d, row=PULSES):
        moving = min(d, TOP64 - self.clock)
        answer = super().pass_(moving, row)
        if answer == SERVED:
            self.grow(d - moving)
        return answer


@named("closing drops the waiting pulses")
class _(Box):
    def close(self, c):
        answer = super().close(c)
        if answer == SERVED and self.queue:
            del self.queue[1:]
        return answer


@named("power-up leaves the queue")
class _(Box):
    def power(self, *settings):
        kept = getattr(self, "queue", [])
        super().power(*settings)
        self.queue = kept
        if kept:
            self.begin()


@named("pulse served at rank 0")
class _(Box):
    def serve(self, conn, content):
        if conn.rank == 0 and len(content) == 8 and content[0] == 10 and content[1] in (6, 7):
            return self.command(conn, Fields(content, 1))
        return super().serve(conn, content)


@named("row of 30 served")
class _(Box):
    ROW = 30


@named("row of 31 refused")
class _(Box):
    ROW = 32


@named("row of 64 refused")
class _(Box):
    def pass_(self, d, row=PULSES):
        return super().pass_(d, row if row < 64 else 0)


@named("row not judged for bytes")
class _(Box):
    def bytes_(self, c, cap, piece, row=PULSES):
        return super().bytes_(c, cap, piece)


@named("row judged only where a pulse is asked for")
class _(Box):
    def bytes_(self, c, cap, piece, row=PULSES):
        asked = b"\x0A\x06" in piece or b"\x0A\x07" in piece
        return super().bytes_(c, cap, piece, row if asked else PULSES)


@named("row not judged for an empty piece")
class _(Box):
    def bytes_(self, c, cap, piece, row=PULSES):
        return super().bytes_(c, cap, piece, row if piece else PULSES)


@named("row judged before the connection")
class _(Box):
    def bytes_(self, c, cap, piece, row=PULSES):
        if row < PULSES:
            return SHORT_BUFFER, 0, 0, b""
        return super().bytes_(c, cap, piece, row)


@named("row judged after the bytes are taken")
class _(Box):
    def bytes_(self, c, cap, piece, row=PULSES):
        answer = super().bytes_(c, cap, piece, row)
        if row < PULSES and self.is_open(c) and super().bytes_(c, cap, piece)[0] == WAITING:
            return SHORT_BUFFER, 0, 0, b""
        return answer


@named("row not judged for time")
class _(Box):
    def pass_(self, d, row=PULSES):
        return super().pass_(d)


@named("row judged for time only where a pulse runs")
class _(Box):
    def pass_(self, d, row=PULSES):
        return super().pass_(d, row if self.queue else PULSES)


@named("row not judged for d = 0")
class _(Box):
    def pass_(self, d, row=PULSES):
        return super().pass_(d, row if d else PULSES)


@named("time passes though the row is short")
class _(Box):
    def pass_(self, d, row=PULSES):
        if row < PULSES:
            self.grow(d)
        return super().pass_(d, row)


# -- strict connections: M-103 ---------------------------------------------------------------------------

@named("strictness said by nobody")
class _(Box):
    def open(self, c, rank, strict=0):
        return super().open(c, rank)


@named("every opening strict")
class _(Box):
    def open(self, c, rank, strict=0):
        return super().open(c, rank, 1)


@named("an opening that says nothing of it is strict")
class _(Box):
    def obey(self, name, *words):
        return super().obey(name, *words, "1") if name == "open" and len(words) == 2 else super().obey(name, *words)


@named("strict taken for not strict and the other way")
class _(Box):
    def open(self, c, rank, strict=0):
        return super().open(c, rank, not strict)


@named("only 1 says strict")
class _(Box):
    def open(self, c, rank, strict=0):
        return super().open(c, rank, strict == 1)


@named("only the lowest bit says strict")
class _(Box):
    def open(self, c, rank, strict=0):
        return super().open(c, rank, strict & 1)


@named("strictness from 128 on taken for below 0")
class _(Box):
    def open(self, c, rank, strict=0):
        return super().open(c, rank, 0 < strict < 128)


@named("strictness above 1 refused as a rank is")
class _(Box):
    def open(self, c, rank, strict=0):
        return super().open(c, 3 if strict > 1 else rank, strict)


@named("strictness above 1 taken for a bad line")
class _(Box):
    def obey(self, name, *words):
        if name == "open" and len(words) == 3 and words[2].isdigit() and int(words[2]) > 1:
            raise model.BadLine
        return super().obey(name, *words)


@named("strictness shown as it was said")
class _(Box):
    def open(self, c, rank, strict=0):
        answer = super().open(c, rank, strict)
        if answer == SERVED:
            self.connections[c].strict = strict
        return answer


@named("strictness written over the due mark")
class _(Box):
    def open(self, c, rank, strict=0):
        answer = super().open(c, rank, strict)
        if answer == SERVED:
            self.connections[c].due = self.connections[c].strict
        return answer


@named("strictness written over the Monitor switch")
class _(Box):
    def open(self, c, rank, strict=0):
        answer = super().open(c, rank, strict)
        if answer == SERVED and strict:
            self.connections[c].monitor = 0
        return answer


@named("only administrators' connections strict")
class _(Box):
    def open(self, c, rank, strict=0):
        return super().open(c, rank, strict if rank == 2 else 0)


@named("connections of rank 0 not strict")
class _(Box):
    def open(self, c, rank, strict=0):
        return super().open(c, rank, strict if rank else 0)


@named("an opening takes the others' strictness away")
class _(Box):
    def open(self, c, rank, strict=0):
        answer = super().open(c, rank, strict)
        if answer == SERVED:
            for other in self.connections[:c] + self.connections[c + 1:]:
                other.strict = 0
        return answer


@named("an opening is strict if another connection is")
class _(Box):
    def open(self, c, rank, strict=0):
        return super().open(c, rank, strict or any(conn.strict for conn in self.connections))


@named("strictness left at a closing")
class _(Box):
    def close(self, c):
        strict = self.is_open(c) and self.connections[c].strict
        answer = super().close(c)
        if answer == SERVED:
            self.connections[c].strict = strict
        return answer


@named("strictness kept over a closing")
class _(Box):
    def open(self, c, rank, strict=0):
        return super().open(c, rank, strict or c in self.once)

    def close(self, c):
        if self.is_open(c) and self.connections[c].strict:
            self.once.add(c)
        return super().close(c)

    def power(self, *settings):
        super().power(*settings)
        self.once = set()


@named("strictness kept over power-up")
class _(Box):
    def power(self, *settings):
        kept = [conn.strict for conn in getattr(self, "connections", ())]
        super().power(*settings)
        for conn, strict in zip(self.connections, kept):
            conn.strict = strict


@named("a closing takes the others' strictness away")
class _(Box):
    def close(self, c):
        answer = super().close(c)
        if answer == SERVED:
            for conn in self.connections:
                conn.strict = 0
        return answer


@named("opening an open one changes its strictness")
class _(Box):
    def open(self, c, rank, strict=0):
        answer = super().open(c, rank, strict)
        if answer == ALREADY_OPEN:
            self.connections[c].strict = 1 if strict else 0
        return answer


@named("a bad rank leaves its strictness on the shut connection")
class _(Box):
    def open(self, c, rank, strict=0):
        answer = super().open(c, rank, strict)
        if answer == BAD_RANK:
            self.connections[c].strict = 1 if strict else 0
        return answer


@named("a bad rank's strictness waits for the next opening")
class _(Box):
    def open(self, c, rank, strict=0):
        answer = super().open(c, rank, strict or c in self.tried)
        if answer == BAD_RANK and strict:
            self.tried.add(c)
        elif answer == SERVED:
            self.tried.discard(c)
        return answer

    def power(self, *settings):
        super().power(*settings)
        self.tried = set()


@named("request 4 takes strictness away")
class _(Box):
    def request(self, conn, fields):
        answer = super().request(conn, fields)
        if fields.content[1:3] == b"\x00\x04":
            conn.strict = 0
        return answer


@named("request 5 takes strictness away")
class _(Box):
    def request(self, conn, fields):
        answer = super().request(conn, fields)
        if fields.content[1:3] == b"\x00\x05":
            conn.strict = 0
        return answer


@named("a collection takes strictness away")
class _(Box):
    def collect(self, c, cap):
        answer = super().collect(c, cap)
        if answer[0] == SERVED:
            self.connections[c].strict = 0
        return answer


@named("a due mark takes strictness away")
class _(Box):
    def changed(self, internal=True):
        super().changed(internal)
        for conn in self.connections:
            if conn.due:
                conn.strict = 0


@named("a bad checksum takes strictness away")
class _(Box):
    def judge(self, conn, message):
        answer, place, reply = super().judge(conn, message)
        if answer == BAD_CHECKSUM:
            conn.strict = 0
        return answer, place, reply


@named("strictness lasts for one message")
class _(Box):
    def checksum_passes(self, conn, sent, content):
        passes = super().checksum_passes(conn, sent, content)
        conn.strict = 0
        return passes


@named("a true checksum makes a connection strict")
class _(Box):
    def checksum_passes(self, conn, sent, content):
        conn.strict = 1 if sent == crc16(content) else conn.strict
        return super().checksum_passes(conn, sent, content)


class Judging(Box):
    """A box that asks by a rule of its own whether a message is held to strictness.  `strict_for` gives what it goes by."""

    def checksum_passes(self, conn, sent, content):
        return sent == crc16(content) or sent == 0xFFFF and not self.strict_for(conn, content)


@named("strictness held and not looked at")
class _(Judging):
    def strict_for(self, conn, content):
        return False


@named("connection 0's strictness goes for all")
class _(Judging):
    def strict_for(self, conn, content):
        return self.connections[0].strict


@named("the next connection's strictness looked at")
class _(Judging):
    def strict_for(self, conn, content):
        return self.connections[(self.connections.index(conn) + 1) % 4].strict


@named("one strict connection makes all strict")
class _(Judging):
    def strict_for(self, conn, content):
        return any(other.strict for other in self.connections)


@named("strict only where all open ones are")
class _(Judging):
    def strict_for(self, conn, content):
        return all(other.strict for other in self.connections if other.open)


@named("the strictness of the last opening goes for all")
class _(Judging):
    def open(self, c, rank, strict=0):
        answer = super().open(c, rank, strict)
        if answer == SERVED:
            self.last = strict
        return answer

    def power(self, *settings):
        super().power(*settings)
        self.last = 0

    def strict_for(self, conn, content):
        return self.last


@named("only commands held to strictness")
class _(Judging):
    def strict_for(self, conn, content):
        return conn.strict and content[:1] == b"\x0A"


@named("requests not held to strictness")
class _(Judging):
    def strict_for(self, conn, content):
        return conn.strict and content[:1] != b"\x05"


@named("only what changes something held to strictness")
class _(Judging):
    def strict_for(self, conn, content):
        return conn.strict and content[:1] in (b"\x07", b"\x0A", b"\x17")


@named("administrators not held to strictness")
class _(Judging):
    def strict_for(self, conn, content):
        return conn.strict and conn.rank < 2


@named("N = 0 not held to strictness")
class _(Judging):
    def strict_for(self, conn, content):
        return conn.strict and content


@named("type judged before strictness")
class _(Judging):
    def strict_for(self, conn, content):
        return conn.strict and (not content or content[0] in self.OFFERED)


@named("rank judged before strictness")
class _(Judging):
    def strict_for(self, conn, content):
        offered = content and content[0] in self.OFFERED
        return conn.strict and not (offered and conn.rank < self.rank_needed(content[0]))


@named("a message whole in its piece not held to strictness")
class _(Judging):
    def bytes_(self, c, cap, piece, row=PULSES):
        self.whole = self.is_open(c) and not self.connections[c].joined
        return super().bytes_(c, cap, piece, row)

    def strict_for(self, conn, content):
        return conn.strict and not self.whole


@named("a message in several pieces not held to strictness")
class _(Judging):
    def bytes_(self, c, cap, piece, row=PULSES):
        self.whole = self.is_open(c) and not self.connections[c].joined
        return super().bytes_(c, cap, piece, row)

    def strict_for(self, conn, content):
        return conn.strict and self.whole


@named("0xFFFF refused on strict connections though it is true")
class _(Box):
    def checksum_passes(self, conn, sent, content):
        return not (conn.strict and sent == 0xFFFF) and super().checksum_passes(conn, sent, content)


@named("a true checksum of 0xFFFF refused wherever it comes")
class _(Box):
    def checksum_passes(self, conn, sent, content):
        return not (sent == crc16(content) == 0xFFFF) and super().checksum_passes(conn, sent, content)


@named("0xFFFF looked for in the true checksum")
class _(Box):
    def checksum_passes(self, conn, sent, content):
        return crc16(content) == 0xFFFF and not conn.strict or super().checksum_passes(conn, sent, content)


@named("a strict connection holds 0xFFFF alone to the content")
class _(Box):
    def checksum_passes(self, conn, sent, content):
        return conn.strict and sent != 0xFFFF or super().checksum_passes(conn, sent, content)


@named("0 stands for no checksum on strict connections")
class _(Box):
    def checksum_passes(self, conn, sent, content):
        return conn.strict and sent == 0 or super().checksum_passes(conn, sent, content)


@named("N = 0 refused by its checksum on strict connections")
class _(Box):
    def checksum_passes(self, conn, sent, content):
        return not (conn.strict and not content) and super().checksum_passes(conn, sent, content)


@named("strictness judged before the limit")
class _(Box):
    def judge(self, conn, message):
        answer, place, reply = super().judge(conn, message)
        if answer == TOO_LONG and conn.strict and message[3:5] == b"\xFF\xFF":
            return BAD_CHECKSUM, 0, b""
        return answer, place, reply


@named("strictness judged at the header")
class _(Box):
    def bytes_(self, c, cap, piece, row=PULSES):
        if self.refuse_call(c, cap, row) is None and self.connections[c].strict:
            conn = self.connections[c]
            begun = conn.joined + piece
            if begun[:1] == b"\x01" and begun[3:5] == b"\xFF\xFF" and self.message_end(begun) is None:
                taken = 5 - len(conn.joined)
                conn.joined = bytearray()
                return BAD_CHECKSUM, taken, 0, b""
        return super().bytes_(c, cap, piece, row)


@named("a message is done before strictness refuses it")
class _(Judging):
    def strict_for(self, conn, content):
        return False

    def judge(self, conn, message):
        answer, place, reply = super().judge(conn, message)
        judged = message[0] == 1 and answer != TOO_LONG
        refused = judged and conn.strict and not Box.checksum_passes(self, conn, number(message[3:5]), message[5:])
        return (BAD_CHECKSUM, 0, b"") if refused else (answer, place, reply)


@named("strict refusal: half-read message not cleared")
class _(Box):
    def judge(self, conn, message):
        answer, place, reply = super().judge(conn, message)
        if answer == BAD_CHECKSUM and message[3:5] == b"\xFF\xFF":
            conn.joined = bytearray(message[:5])
        return answer, place, reply


@named("strict refusal: all of the piece taken")
class _(Box):
    def bytes_(self, c, cap, piece, row=PULSES):
        answer, taken, place, reply = super().bytes_(c, cap, piece, row)
        strictly = answer == BAD_CHECKSUM and self.connections[c].strict
        return answer, len(piece) if strictly else taken, place, reply


@named("strict refusal answered as a type that is not offered")
class _(Box):
    def judge(self, conn, message):
        answer, place, reply = super().judge(conn, message)
        return NOT_OFFERED if answer == BAD_CHECKSUM and message[3:5] == b"\xFF\xFF" else answer, place, reply


# -- wrong lengths and their places: M-105 -----------------------------------------------------------------

BAD_LENGTH = 10                                     # what was given for every wrong length before
WRONG_LENGTHS = (ENDS_EARLY, LEFT_OVER, LIST_CUT)
LISTS = (21, 23)


def telling(name, told):
    """A box that tells something else of a content of the wrong length; `told` gives answer and place from them and the content."""
    @named(name)
    class _(Box):
        def judge(self, conn, message):
            answer, place, reply = super().judge(conn, message)
            if answer in WRONG_LENGTHS:
                answer, place = told(answer, place, message[5:])
            return answer, place, reply


def telling_of(answer, name, told):
    """The same of one answer alone."""
    telling(name, lambda given, place, content: told(place, content) if given == answer else (given, place))


def end_of(content, entries):
    """Where so many entries of a list end."""
    position = 3
    for _ in range(entries):
        position += 10 + number(content[position + 8:position + 10]) if content[0] == 23 else 8
    return position


def count_of(content):
    return number(content[1:3])


telling("place counted from behind the type byte", lambda answer, place, content: (answer, place - 1))
telling("place counted from 1", lambda answer, place, content: (answer, place + 1))
telling("place counted from the frame's first byte", lambda answer, place, content: (answer, place + 5))
telling("place always 0", lambda answer, place, content: (answer, 0))
telling("place kept in 8 bits", lambda answer, place, content: (answer, place & 0xFF))
telling("place kept in 10 bits", lambda answer, place, content: (answer, place & 0x3FF))
telling("place not above 255", lambda answer, place, content: (answer, min(place, 255)))
telling("place not above 1,023", lambda answer, place, content: (answer, min(place, 1023)))

telling_of(ENDS_EARLY, "end too early told of the content's last byte", lambda place, content: (ENDS_EARLY, place - 1))
telling_of(ENDS_EARLY, "end too early told one too far", lambda place, content: (ENDS_EARLY, place + 1))
telling_of(ENDS_EARLY, "end too early told without its place", lambda place, content: (ENDS_EARLY, 0))
telling_of(LIST_CUT, "cut list told of the content's last byte", lambda place, content: (LIST_CUT, place - 1))
telling_of(LIST_CUT, "cut list told one too far", lambda place, content: (LIST_CUT, place + 1))
telling_of(LIST_CUT, "cut list told without its place", lambda place, content: (LIST_CUT, 0))
telling_of(LIST_CUT, "cut list told of its beginning", lambda place, content: (LIST_CUT, 3))
telling_of(LIST_CUT, "cut list told of its count", lambda place, content: (LIST_CUT, 1))
telling_of(LEFT_OVER, "surplus told of the layout's last byte", lambda place, content: (LEFT_OVER, place - 1))
telling_of(LEFT_OVER, "surplus told one too far", lambda place, content: (LEFT_OVER, place + 1))
telling_of(LEFT_OVER, "surplus told without its place", lambda place, content: (LEFT_OVER, 0))
telling_of(LEFT_OVER, "surplus counted from the content's end", lambda place, content: (LEFT_OVER, len(content) - place))
telling_of(LEFT_OVER, "surplus told of the content's length", lambda place, content: (LEFT_OVER, len(content)))
telling_of(LEFT_OVER, "surplus told of the content's last byte", lambda place, content: (LEFT_OVER, len(content) - 1))

telling_of(ENDS_EARLY, "end too early answered 10 as before", lambda place, content: (BAD_LENGTH, 0))
telling_of(LEFT_OVER, "surplus answered 10 as before", lambda place, content: (BAD_LENGTH, 0))
telling_of(LIST_CUT, "cut list answered 10 as before", lambda place, content: (BAD_LENGTH, 0))
telling("10 answered, with the place", lambda answer, place, content: (BAD_LENGTH, place))
telling("20 and 21 exchanged",
        lambda answer, place, content: ({ENDS_EARLY: LEFT_OVER, LEFT_OVER: ENDS_EARLY}.get(answer, answer), place))
telling("20 and 22 exchanged",
        lambda answer, place, content: ({ENDS_EARLY: LIST_CUT, LIST_CUT: ENDS_EARLY}.get(answer, answer), place))
telling("21 and 22 exchanged",
        lambda answer, place, content: ({LEFT_OVER: LIST_CUT, LIST_CUT: LEFT_OVER}.get(answer, answer), place))


# Which end is one within a list.

def ending(name, answer, where):
    """A box that answers so of contents that end where `where` says."""
    telling(name, lambda given, place, content: (answer if given != LEFT_OVER and where(content) else given, place))


def in_a_list(content, *places):
    return content[0] in LISTS and len(content) >= 3 and traces.cut_in(content) in places


ending("20 inside a list", ENDS_EARLY, lambda content: True)
ending("20 inside a list of IDs", ENDS_EARLY, lambda content: content[0] == 21)
ending("20 inside a list of entries", ENDS_EARLY, lambda content: content[0] == 23)
ending("20 for a list of which no byte is there", ENDS_EARLY, lambda content: len(content) == 3)
ending("20 where only the first byte of a list is there", ENDS_EARLY, lambda content: len(content) == 4)
ending("20 between two entries", ENDS_EARLY, lambda content: len(content) > 3 and in_a_list(content, "before an ID"))
ending("20 in an ID", ENDS_EARLY, lambda content: in_a_list(content, "in an ID"))
ending("20 in an entry's length field", ENDS_EARLY, lambda content: in_a_list(content, "before a length", "in a length"))
ending("20 within an entry's length field", ENDS_EARLY, lambda content: in_a_list(content, "in a length"))
ending("20 in an entry's block", ENDS_EARLY, lambda content: in_a_list(content, "before a block", "in a block"))
ending("20 for a block of which no byte is there", ENDS_EARLY, lambda content: in_a_list(content, "before a block"))
ending("20 where not one entry is whole", ENDS_EARLY,
    lambda content: content[0] in LISTS and len(content) >= 3 and len(content) < end_of(content, 1))
ending("20 where more than the last entry is missing", ENDS_EARLY,
    lambda content: content[0] == 21 and len(content) >= 3 and len(content) < end_of(content, count_of(content) - 1))
ending("20 for a count that no content can hold", ENDS_EARLY, lambda content: content[0] == 21 and count_of(content) > 127)
ending("22 where the count is cut", LIST_CUT, lambda content: content[0] in LISTS)
ending("22 where half of the count is there", LIST_CUT, lambda content: content[0] in LISTS and len(content) == 2)
ending("22 where nothing of the count is there", LIST_CUT, lambda content: content[0] in LISTS and len(content) == 1)
ending("22 for whatever is cut", LIST_CUT, lambda content: True)
ending("22 for a clock that is cut", LIST_CUT, lambda content: content[0] == 7)
ending("22 for a pulse that is cut", LIST_CUT, lambda content: content[:2] in (b"\x0A\x06", b"\x0A\x07"))
ending("22 for an interval that is cut", LIST_CUT, lambda content: content[0] == 5 and len(content) > 3)


# Where what is missing begins, by the field that lacks it.

def cutting(name, place):
    """A box that tells another place of a field that is cut: `place` gives it from the fields and the field's size."""
    @named(name)
    class _(Box):
        class Fields(Fields):
            def block(self, size):
                try:
                    return super().block(size)
                except Refused as refusal:
                    raise Refused(refusal.answer, place(self, size)) from None


cutting("missing byte told of its field's beginning", lambda fields, size: fields.position)
cutting("missing byte told of its field's end", lambda fields, size: fields.position + size)
cutting("how many bytes are missing told for where", lambda fields, size: size - fields.left())
cutting("how many bytes are there told for where", lambda fields, size: fields.left())


@named("missing byte told of its entry's beginning")
class _(Box):
    class Fields(Fields):
        def listed(self, entry):
            def begun():
                start = self.position
                try:
                    return entry()
                except Refused as refusal:
                    raise Refused(refusal.answer, start) from None
            return super().listed(begun)


# Requests, whose interval may be missing.

def requesting(name, lengths, *told):
    """A box that tells this answer and place of Requests of those lengths."""
    telling(name, lambda answer, place, content: told if content[0] == 5 and len(content) in lengths else (answer, place))


requesting("Request of 4 to 6 bytes answered 10 as before", (4, 5, 6), BAD_LENGTH, 0)
requesting("Request of 4 to 6 bytes has a surplus from 3 on", (4, 5, 6), LEFT_OVER, 3)
requesting("Request of 6 bytes has a surplus from 3 on", (6,), LEFT_OVER, 3)
requesting("Request of 4 bytes has a surplus from 3 on", (4,), LEFT_OVER, 3)
requesting("Request of 4 to 6 bytes lacks its interval from 3 on", (4, 5, 6), ENDS_EARLY, 3)
requesting("Request of 4 to 6 bytes lacks something at 7", (4, 5, 6), ENDS_EARLY, 7)
requesting("Request of more than 7 bytes has a surplus from 3 on", range(8, 1025), LEFT_OVER, 3)
requesting("Request of 8 bytes has a surplus at 8", (8,), LEFT_OVER, 8)
requesting("Request of 9 bytes lacks a second interval", (9,), ENDS_EARLY, 9)
requesting("Request that is cut told of where it should end", (1, 2), ENDS_EARLY, 3)
requesting("Request that is cut answered as out of range", (1, 2), OUT_OF_RANGE, 0)


@named("Request of 11 bytes has two intervals")
class _(Box):
    def request(self, conn, fields):
        content = fields.content
        return super().request(conn, Fields(content[:7], 1) if len(content) == 11 else fields)


# Commands, whose length goes by their action.

@named("pulse of 5 to 7 bytes has a surplus from 4 on")
class _(Box):
    def command(self, conn, fields):
        if 4 < len(fields.content) < 8 and fields.content[1] in (6, 7):
            raise Refused(LEFT_OVER, 4)
        return super().command(conn, fields)


@named("pulse's surplus told from 4 on")
class _(Box):
    def command(self, conn, fields):
        if len(fields.content) > 8 and fields.content[1] in (6, 7):
            raise Refused(LEFT_OVER, 4)
        return super().command(conn, fields)


@named("command of 5 to 7 bytes ends too early")
class _(Box):
    def command(self, conn, fields):
        if 4 < len(fields.content) < 8 and fields.content[1] in (1, 2, 3, 5, 8, 9, 10):
            raise Refused(ENDS_EARLY, len(fields.content))
        return super().command(conn, fields)


@named("command's surplus told from 8 on")
class _(Box):
    def command(self, conn, fields):
        if len(fields.content) > 8 and fields.content[1] in (1, 2, 3, 5, 8, 9, 10):
            raise Refused(LEFT_OVER, 8)
        return super().command(conn, fields)


@named("missing action answered as out of range")
class _(Box):
    def command(self, conn, fields):
        if len(fields.content) == 1:
            raise Refused(OUT_OF_RANGE)
        return super().command(conn, fields)


@named("unknown action of 2 or 3 bytes ends too early")
class _(Box):
    def command(self, conn, fields):
        if len(fields.content) < 4:
            raise Refused(ENDS_EARLY, len(fields.content))
        return super().command(conn, fields)


@named("unknown action of more than 8 bytes has a surplus")
class _(Box):
    def command(self, conn, fields):
        if len(fields.content) > 8 and fields.content[1] not in (6, 7):
            raise Refused(LEFT_OVER, 4)
        return super().command(conn, fields)


# Enumerations.

@named("missing enumeration flags answered as out of range")
class _(Box):
    def enumerate_devices(self, conn, fields):
        if len(fields.content) == 1:
            raise Refused(OUT_OF_RANGE)
        return super().enumerate_devices(conn, fields)


# Lists.

def listing(name, place):
    """A box that tells another place of what is left over behind a list; `place` gives it from the content."""
    telling(name, lambda answer, told, content: (answer, place(content) if answer == LEFT_OVER and content[0] in LISTS else told))


listing("list's surplus told of its beginning", lambda content: 3)
listing("list's surplus told of the first entry's end", lambda content: end_of(content, min(count_of(content), 1)))
listing("list's surplus told of the last entry's beginning", lambda content: end_of(content, max(count_of(content) - 1, 0)))
listing("list's surplus told without the blocks", lambda content: 3 + count_of(content) * (10 if content[0] == 23 else 8))
listing("list's surplus told by entries of 8 bytes", lambda content: 3 + 8 * count_of(content))
listing("list's surplus told of a whole entry more", lambda content: min(end_of(content, count_of(content) + 1), len(content)))

telling("bytes behind a count of 0 told as a cut list",
        lambda answer, place, content: (LIST_CUT if content[0] in LISTS and content[1:3] == bytes(2) else answer, place))
telling("bytes behind a list told as one that is cut",
        lambda answer, place, content: (LIST_CUT if content[0] in LISTS and answer == LEFT_OVER else answer, place))


@named("surplus of a write judged before its blocks are read")
class _(Box):
    def write_devices(self, conn, fields):
        content = fields.content
        if len(content) > 3 + 15 * count_of(content):               # no block that is written is longer than 5 bytes
            raise Refused(LEFT_OVER, 3 + 15 * count_of(content))
        return super().write_devices(conn, fields)


@named("surplus of a read judged before its count is whole")
class _(Box):
    def read_devices(self, conn, fields):
        if len(fields.content) == 2:
            raise Refused(LEFT_OVER, 1)
        return super().read_devices(conn, fields)


@named("list of no entries taken for one that is cut")
class _(Box):
    def serve(self, conn, content):
        answer = super().serve(conn, content)
        if content[0] in LISTS and content[1:] == bytes(2):
            raise Refused(LIST_CUT, 3)
        return answer


@named("list's length worked out in 16 bits")
class _(Box):
    def read_devices(self, conn, fields):
        count = count_of(fields.content)
        if len(fields.content) >= 3 and count >> 13:
            fields = Fields(b"\x15" + field(count & 0x1FFF, 2) + fields.content[3:], 1)
        return super().read_devices(conn, fields)


@named("count's high byte not looked at")
class _(Box):
    def serve(self, conn, content):
        if len(content) >= 3 and content[0] in LISTS:
            content = content[:1] + b"\x00" + content[2:]
        return super().serve(conn, content)


@named("count little-endian")
class _(Box):
    def serve(self, conn, content):
        if len(content) >= 3 and content[0] in LISTS:
            content = content[:1] + content[2:3] + content[1:2] + content[3:]
        return super().serve(conn, content)


@named("high byte of an entry's length not looked at")
class _(Box):
    class Fields(Fields):
        def number(self, size):
            return super().number(size) & (0xFF if self.in_list and size == 2 else TOP64)


@named("last block may be cut")
class _(Box):
    class Fields(Fields):
        def block(self, size):
            return super().block(min(size, self.left()) if self.in_list and size not in (2, 8) else size)


@named("entries written before what is left over is seen")
class _(Box):
    def write_devices(self, conn, fields):
        try:
            return super().write_devices(conn, fields)
        except Refused as refusal:
            if refusal.answer == LEFT_OVER:
                super().write_devices(conn, Fields(fields.content[:refusal.place], 1))
            raise


# The place with other answers.

def placing(name, answers, place):
    """A box that tells a place with these answers too; `place` gives it from the content."""
    @named(name)
    class _(Box):
        def judge(self, conn, message):
            answer, told, reply = super().judge(conn, message)
            return answer, place(message[5:]) if answer in answers else told, reply


placing("place with answer 1: where the layout ended", (SERVED,), len)
placing("place with answer 6: where judging ends", (TOO_LONG,), lambda content: 1024)
placing("place with answer 7: the content's length", (BAD_CHECKSUM,), len)
placing("place with answer 8: behind the type", (NOT_OFFERED,), lambda content: 1)
placing("place with answer 9: behind the type", (LOW_RANK,), lambda content: 1)
placing("place with answer 11: request, action or flags", (OUT_OF_RANGE,), lambda content: 1)
placing("place with answer 11: the content's length", (OUT_OF_RANGE,), len)
placing("place with answer 14: the content's length", (QUEUE_FULL,), len)


@named("place with answer 9: what its length is")
class _(Box):
    def judge(self, conn, message):
        answer, place, reply = super().judge(conn, message)
        if answer == LOW_RANK and message[5] == 7 and len(message) != 14:
            place = min(len(message) - 5, 9)
        return answer, place, reply


@named("place with answer 0: how much of the content is there")
class _(Box):
    def bytes_(self, c, cap, piece, row=PULSES):
        answer, taken, place, reply = super().bytes_(c, cap, piece, row)
        if answer == WAITING:
            place = max(0, len(self.connections[c].joined) - 5)
        return answer, taken, place, reply


@named("place with refused calls: the piece's length")
class _(Box):
    def bytes_(self, c, cap, piece, row=PULSES):
        answer, taken, place, reply = super().bytes_(c, cap, piece, row)
        return answer, taken, len(piece) if answer in (NO_CONNECTION, SHORT_BUFFER) else place, reply


def remembering(name, *answers):
    """A box that with these answers tells the last place again."""
    @named(name)
    class _(Box):
        def bytes_(self, c, cap, piece, row=PULSES):
            answer, taken, place, reply = super().bytes_(c, cap, piece, row)
            if answer in WRONG_LENGTHS:
                self.last = place
            return answer, taken, self.last if answer in answers else place, reply

        def power(self, *settings):
            super().power(*settings)
            self.last = 0


remembering("place left over from an earlier refusal", WAITING, SERVED, KEEP_ALIVE, NO_CONNECTION, SHORT_BUFFER, STRAY, TOO_LONG,
            BAD_CHECKSUM, NOT_OFFERED, LOW_RANK, OUT_OF_RANGE, QUEUE_FULL)
remembering("place left over while a message is half read", WAITING)
remembering("place left over with a served message", SERVED)
remembering("place left over with a keep-alive", KEEP_ALIVE)
remembering("place left over with a refused connection", NO_CONNECTION)
remembering("place left over with a short buffer or row", SHORT_BUFFER)
remembering("place left over with a stray byte", STRAY)
remembering("place left over with a content above the limit", TOO_LONG)
remembering("place left over with a bad checksum", BAD_CHECKSUM)
remembering("place left over with a type that is not offered", NOT_OFFERED)
remembering("place left over with a low rank", LOW_RANK)
remembering("place left over with a number out of range", OUT_OF_RANGE)
remembering("place left over with a full queue", QUEUE_FULL)


@named("place left over until a message is served")
class _(Box):
    def bytes_(self, c, cap, piece, row=PULSES):
        answer, taken, place, reply = super().bytes_(c, cap, piece, row)
        if answer in WRONG_LENGTHS or answer == SERVED:
            self.last = place
        return answer, taken, self.last, reply

    def power(self, *settings):
        super().power(*settings)
        self.last = 0


@named("place left over from before an opening")
class _(Box):
    def open(self, c, rank, strict=0):
        answer = super().open(c, rank, strict)
        if answer == SERVED:
            self.anew.add(c)
        return answer

    def bytes_(self, c, cap, piece, row=PULSES):
        answer, taken, place, reply = super().bytes_(c, cap, piece, row)
        if answer in WRONG_LENGTHS:
            self.last[c] = place
        elif c in self.anew:
            place = self.last.get(c, 0)
        self.anew.discard(c)
        return answer, taken, place, reply

    def power(self, *settings):
        super().power(*settings)
        self.anew, self.last = set(), {}


@named("the first place told for every later one")
class _(Box):
    def judge(self, conn, message):
        answer, place, reply = super().judge(conn, message)
        self.first = self.first or place
        return answer, self.first if answer in WRONG_LENGTHS else place, reply

    def power(self, *settings):
        super().power(*settings)
        self.first = 0


@named("place told to administrators alone")
class _(Box):
    def judge(self, conn, message):
        answer, place, reply = super().judge(conn, message)
        return answer, place if conn.rank == 2 else 0, reply


# Messages in pieces, and what follows them.

@named("place counted within the last piece")
class _(Box):
    def bytes_(self, c, cap, piece, row=PULSES):
        before = len(self.connections[c].joined) if self.is_open(c) else 0
        answer, taken, place, reply = super().bytes_(c, cap, piece, row)
        return answer, taken, max(0, place - max(0, before - 5)), reply


@named("a content that ends too early waits for its rest")
class _(Box):
    def judge(self, conn, message):
        answer, place, reply = super().judge(conn, message)
        if answer in (ENDS_EARLY, LIST_CUT):
            conn.joined = bytearray(message)
        return answer, place, reply


@named("a byte that follows taken for the missing one")
class _(Box):
    def bytes_(self, c, cap, piece, row=PULSES):
        answer, taken, place, reply = super().bytes_(c, cap, piece, row)
        missing = answer in (ENDS_EARLY, LIST_CUT) and taken < len(piece)
        return answer, taken + missing, place, reply


@named("surplus bytes left for the next message")
class _(Box):
    def judge(self, conn, message):
        answer, place, reply = super().judge(conn, message)
        self.surplus = len(message) - 5 - place if answer == LEFT_OVER else 0
        return answer, place, reply

    def bytes_(self, c, cap, piece, row=PULSES):
        self.surplus = 0
        answer, taken, place, reply = super().bytes_(c, cap, piece, row)
        return answer, max(0, taken - self.surplus), place, reply


# Where they stand.

@named("clock's length judged before the rank")
class _(Box):
    def serve(self, conn, content):
        if content[:1] == b"\x07":
            hold_to(9, content)
        return super().serve(conn, content)


@named("a type alone in its content judged before the rank")
class _(Box):
    def serve(self, conn, content):
        if len(content) == 1 and content[0] in self.OFFERED:
            raise Refused(ENDS_EARLY, 1)
        return super().serve(conn, content)


@named("a count of which no entry is there judged before the rank")
class _(Box):
    def serve(self, conn, content):
        if len(content) == 3 and content[0] in LISTS and count_of(content):
            raise Refused(LIST_CUT, 3)
        return super().serve(conn, content)


@named("enumeration's length judged before the checksum")
class _(Box):
    def judge(self, conn, message):
        answer, place, reply = super().judge(conn, message)
        if answer == BAD_CHECKSUM and message[5:6] == b"\x1A" and len(message) > 7:
            return LEFT_OVER, 2, b""
        return answer, place, reply


@named("a type that is not offered and stands alone ends too early")
class _(Box):
    def judge(self, conn, message):
        answer, place, reply = super().judge(conn, message)
        return (ENDS_EARLY, 1, reply) if answer == NOT_OFFERED and len(message) == 6 else (answer, place, reply)


@named("no content at all ends too early")
class _(Box):
    def judge(self, conn, message):
        answer, place, reply = super().judge(conn, message)
        return ENDS_EARLY if answer == NOT_OFFERED and len(message) == 5 else answer, place, reply


# The line.

@named("place shown in hexadecimal")
class _(Box):
    def obey(self, name, *words):
        printed = super().obey(name, *words)
        if name == "bytes":
            answer, taken, place, *reply = printed.split(" ")
            printed = " ".join([answer, taken, f"{int(place):X}"] + reply)
        return printed


@named("place shown behind the reply's length")
class _(Box):
    def obey(self, name, *words):
        printed = super().obey(name, *words)
        if name == "bytes":
            answer, taken, place, length, reply = printed.split(" ")
            printed = " ".join([answer, taken, length, place, reply])
        return printed


@named("place shown with a collection too")
class _(Box):
    def obey(self, name, *words):
        printed = super().obey(name, *words)
        return printed.replace(" ", " 0 ", 1) if name == "collect" else printed


# -- the second deck: M-102 ------------------------------------------------------------------------------

class Recalling(Box):
    """A box that knows of each place which of its relays were closed when it was last emptied, and which pulses stood."""

    def remove(self, place):
        self.closed[place] = self.relay_states() & bits(PLACES[place])
        self.stood[place] = [(pulse, pulse.mask, pulse.states) for pulse in self.queue]
        super().remove(place)

    def power(self, *settings):
        super().power(*settings)
        self.closed, self.stood = {1: 0, 2: 0}, {1: [], 2: []}


def bits(channels):
    """As a mask, lowest bit relay 1."""
    return sum(1 << k - 1 for k in channels)


def as_they_stood(pulses):
    for pulse, mask, states in pulses:
        pulse.mask, pulse.states = mask, states


def ranked(conn):
    return conn.open and conn.rank >= 1


def mark2(box, *_):
    """Type 2, on every connection that a change marks."""
    for conn in box.connections:
        if ranked(conn) and conn.monitor:
            conn.due2 = 1


def clear2(box, *_):
    for conn in box.connections:
        conn.due2 = 0


def marks2_again(box, marks):
    """Type 2's marks as they were."""
    for conn, (_, due2) in zip(box.connections, marks):
        conn.due2 = due2


# Which places there are.

def placed(name, taken_for):
    """A box that takes a place for another."""
    @named(name)
    class _(Box):
        def fill(self, place, row=PULSES):
            return super().fill(taken_for(place), row)

        def empty(self, place, row=PULSES):
            return super().empty(taken_for(place), row)


placed("places counted from 0", lambda place: place + 1)
placed("the two places exchanged", lambda place: {1: 2, 2: 1}.get(place, place))
placed("both places are the first", lambda place: 1 if place == 2 else place)
placed("place 0 taken for the first", lambda place: place or 1)
placed("place 3 taken for the second", lambda place: 2 if place == 3 else place)
placed("places above the second taken for it", lambda place: min(place, 2))
placed("place's highest bit not looked at", lambda place: place & 0x7F)
placed("place's two lowest bits alone looked at", lambda place: place & 3)


def nodding(name, event, places):
    """A box that answers 1 to the event at such places, and does nothing."""
    def nods(self, place, row=PULSES):
        if place in places and row >= PULSES:
            return SERVED
        return getattr(Box, event)(self, place, row)
    named(name)(type("_", (Box,), {event: nods}))


nodding("place 0 filled with nothing", "fill", (0,))
nodding("place 3 filled with nothing", "fill", (3,))
nodding("places from 128 on filled with nothing", "fill", range(128, 256))
nodding("place 0 found empty", "empty", (0,))
nodding("place 3 found empty", "empty", (3,))
nodding("any other place found empty", "empty", range(3, 256))
nodding("place 2 never filled", "fill", (2,))
nodding("place 1 never emptied", "empty", (1,))


@named("place refused as what is not offered")
class _(Box):
    def refuse_place(self, place, row):
        refused = super().refuse_place(place, row)
        return NOT_OFFERED if refused == OUT_OF_RANGE else refused


# The row.

@named("place judged before the row")
class _(Box):
    def refuse_place(self, place, row):
        return super().refuse_place(place, row if place in PLACES else PULSES)


def lending(name, event, row_for):
    """A box that goes by another row's length at an event; `row_for` gives it from the box, the place and the row."""
    def lent(self, place, row=PULSES):
        return getattr(Box, event)(self, place, row_for(self, place, row))
    named(name)(type("_", (Box,), {event: lent}))


lending("row not judged for a filling", "fill", lambda box, place, row: PULSES)
lending("row not judged for an emptying", "empty", lambda box, place, row: PULSES)
lending("row not judged where a place is filled again", "fill", lambda box, place, row: PULSES if place in box.filled else row)
lending("row not judged where there is nothing to empty", "empty", lambda box, place, row: row if place in box.filled else PULSES)
lending("row judged for an emptying only where a pulse stands", "empty", lambda box, place, row: row if box.queue else PULSES)
lending("row of 30 enough for a filling", "fill", lambda box, place, row: row + 1)
lending("row of 30 enough for an emptying", "empty", lambda box, place, row: row + 1)
lending("row of 31 too short for a filling", "fill", lambda box, place, row: row - 1)
lending("row of 31 too short for an emptying", "empty", lambda box, place, row: row - 1)
lending("row of 64 refused for an emptying", "empty", lambda box, place, row: row if row < 64 else 0)


@named("filled though the row is short")
class _(Box):
    def fill(self, place, row=PULSES):
        super().fill(place)
        return super().fill(place, row)


@named("emptied though the row is short")
class _(Box):
    def empty(self, place, row=PULSES):
        super().empty(place)
        return super().empty(place, row)


# Again.

def again(name, event, also):
    """A box that does something where the event changes nothing: `also` does it to box and place, and may give another answer."""
    def does(self, place, row=PULSES):
        before = place in self.filled
        answer = getattr(Box, event)(self, place, row)
        if answer == SERVED and before == (event == "fill"):
            return also(self, place) or answer
        return answer
    named(name)(type("_", (Box,), {event: does}))


again("filling again refused", "fill", lambda box, place: OUT_OF_RANGE)
again("emptying again refused", "empty", lambda box, place: OUT_OF_RANGE)
again("filling again opens the module's relays", "fill", lambda box, place: box.put_masked(bits(PLACES[place]), 0))
again("filling again takes the module out first", "fill", lambda box, place: box.remove(place) or box.filled.add(place))
again("filling again empties the place", "fill", Box.remove)
again("filling again marks", "fill", mark2)
again("emptying again fills the place", "empty", lambda box, place: box.filled.add(place))
again("emptying again marks", "empty", lambda box, place: mark2(box) if box.filled else None)
again("emptying again clears the marks", "empty", clear2)
again("emptying again opens the other module's relays", "empty", lambda box, place: box.put_masked(0xFF00, 0))


# What is filled.

@named("filling fills both places")
class _(Box):
    def fill(self, place, row=PULSES):
        answer = super().fill(place, row)
        return super().fill(3 - place, row) if answer == SERVED else answer


@named("emptying empties both places")
class _(Box):
    def empty(self, place, row=PULSES):
        answer = super().empty(place, row)
        return super().empty(3 - place, row) if answer == SERVED else answer


@named("a second module drives the first out")
class _(Box):
    def fill(self, place, row=PULSES):
        answer = super().fill(place, row)
        return super().empty(3 - place, row) if answer == SERVED else answer


@named("a second module refused")
class _(Box):
    def fill(self, place, row=PULSES):
        return OUT_OF_RANGE if row >= PULSES and self.filled - {place} else super().fill(place, row)


@named("modules stay over power-up")
class _(Box):
    def power(self, *settings):
        kept = getattr(self, "filled", set())
        super().power(*settings)
        self.filled = kept


@named("place 1 filled at power-up")
class _(Box):
    def power(self, *settings):
        super().power(*settings)
        self.filled = {1}


@named("modules' relays stay closed over power-up")
class _(Box):
    def power(self, *settings):
        kept = [relay.state for relay in getattr(self, "relays", ())[8:]]
        super().power(*settings)
        for relay, state in zip(self.relays[8:], kept):
            relay.state = state


def filling(name, also):
    """A box that does something when a module comes; `also` does it to box and place."""
    @named(name)
    class _(Recalling):
        def fill(self, place, row=PULSES):
            before = set(self.filled)
            answer = super().fill(place, row)
            if self.filled != before:
                also(self, place)
            return answer


filling("filling marks type 2", mark2)
filling("filling marks type 1", lambda box, place: box.changed())
filling("the second filling marks type 2", lambda box, place: mark2(box) if len(box.filled) == 2 else None)
filling("a module comes back as it went", lambda box, place: box.put_masked(box.closed[place], 0xFFFF))
filling("a module's relays are closed when it comes", lambda box, place: box.put_masked(bits(PLACES[place]), 0xFFFF))
filling("a module that comes opens the other's relays", lambda box, place: box.put_masked(0xFF00, 0))
filling("a module that comes back is in the masks again", lambda box, place: as_they_stood(box.stood[place]))


# What goes with a module.

def removing(name, also):
    """A box that does something more when a module goes; `also` does it to box, place and the marks before."""
    @named(name)
    class _(Recalling):
        def remove(self, place):
            marks = marks_of(self)
            super().remove(place)
            also(self, place, marks)


def closed_again(box, channels, place):
    for k in channels:
        box.relays[k - 1].state = box.closed[place] >> k - 1 & 1


def clear1(box):
    for conn in box.connections:
        conn.due = 0


def at_the_last(do):
    return lambda box, place, marks: None if box.filled else do(box, place, marks)


def at_one_of_two(do):
    return lambda box, place, marks: do(box, place, marks) if box.filled else None


removing("removed relays stay closed", lambda box, place, marks: closed_again(box, PLACES[place], place))
removing("first relay alone of a removed module opens", lambda box, place, marks: closed_again(box, PLACES[place][1:], place))
removing("last relay of a removed module stays closed", lambda box, place, marks: closed_again(box, PLACES[place][3:], place))
removing("removed relays open, the other module's too", lambda box, place, marks: box.put_masked(0xFF00, 0))
removing("removed relays open, and all others", lambda box, place, marks: box.put_masked(0xFFFF, 0))
removing("the last emptying leaves the marks", at_the_last(lambda box, place, marks: marks2_again(box, marks)))
removing("the last emptying leaves its own change's mark",
         at_the_last(lambda box, place, marks: mark2(box) if box.closed[place] else None))
removing("the last emptying marks", at_the_last(mark2))
removing("the last emptying clears type 1's marks too", at_the_last(lambda box, place, marks: clear1(box)))
removing("every emptying clears the marks", clear2)
removing("emptying one of two marks nothing", at_one_of_two(lambda box, place, marks: marks2_again(box, marks)))
removing("emptying one of two marks though all was open", at_one_of_two(mark2))
removing("emptying one of two marks by the other's closed relays",
         at_one_of_two(lambda box, place, marks: mark2(box) if box.relay_states() >> 8 else None))
removing("emptying marks type 1", lambda box, place, marks: box.changed() if box.closed[place] else None)
removing("emptying marks type 1 though all was open", lambda box, place, marks: box.changed())


@named("the last emptying clears the first connection's mark alone")
class _(Box):
    def remove(self, place):
        marks = marks_of(self)
        super().remove(place)
        if not self.filled:
            for conn, (_, due2) in list(zip(self.connections, marks))[1:]:
                conn.due2 = due2


# Pulses that stand when it goes.

def keeping(name, which):
    """A box in which some pulses keep the relays of a module that goes; `which` picks them out of all that stand."""
    removing(name, lambda box, place, marks: as_they_stood(which(box.stood[place])))


keeping("running pulse keeps removed relays", lambda pulses: pulses[:1])
keeping("waiting pulses keep removed relays", lambda pulses: pulses[1:])
keeping("pulses behind the first that waits keep removed relays", lambda pulses: pulses[2:])
keeping("last pulse keeps removed relays", lambda pulses: pulses[-1:])


@named("states shown of relays that left the mask")
class _(Box):
    def remove(self, place):
        states = [pulse.states for pulse in self.queue]
        super().remove(place)
        for pulse, before in zip(self.queue, states):
            pulse.states = before


def baring(name, running, waiting):
    """A box that does something to a pulse which a module leaves without relays: one thing if it runs, another if it waits."""
    def also(box, place, marks):
        for pulse, mask, _ in box.stood[place]:
            if mask and not pulse.mask:
                (running if pulse is box.queue[0] else waiting)(box, pulse)
    removing(name, also)


def nothing(box, pulse):
    pass


def shorten(box, pulse):
    pulse.duration = 1


baring("running pulse left without relays ends at once", lambda box, pulse: box.run_down(box.left), nothing)
baring("running pulse left without relays has one ms left", lambda box, pulse: box.run_down(box.left - 1), nothing)
baring("running pulse left without relays begins its time anew",
       lambda box, pulse: box.run_down(box.left - pulse.duration), nothing)
baring("waiting pulse left without relays leaves the queue", nothing, lambda box, pulse: box.queue.remove(pulse))
baring("waiting pulse left without relays has one ms left", nothing, shorten)

removing("emptying ends the running pulse", lambda box, place, marks: box.run_down(box.left))
removing("emptying drops the queue", lambda box, place, marks: box.queue.clear())
removing("emptying drops the waiting pulses", lambda box, place, marks: [box.queue.remove(pulse) for pulse in box.queue[1:]])


def losing(name, lost):
    """A box whose pulses lose other relays with a module; `lost` gives their mask from the place."""
    @named(name)
    class _(Box):
        def remove(self, place):
            for pulse in self.queue:
                pulse.lose(lost(place))
            super().remove(place)


losing("all relays leave the masks with a module", lambda place: 0xFFFF)
losing("the other module's relays leave the masks too", lambda place: 0xFF00)
losing("relay 8 leaves the masks with the first module", lambda place: 0x80 if place == 1 else 0)
losing("relay 13 leaves the masks with the first module", lambda place: 0x1000 if place == 1 else 0)
losing("relay 12 leaves the masks with the second module", lambda place: 0x800 if place == 2 else 0)


@named("the running pulse's relays return when a module goes")
class _(Box):
    def remove(self, place):
        super().remove(place)
        if self.queue:
            self.put_masked(self.queue[0].mask, self.remembered)


# Channels.

def reaching(name, goes):
    """A box that takes other channels; `goes` says whether, from box, action, channel and whether it should."""
    @named(name)
    class _(Box):
        def judge_channel(self, action, channel):
            try:
                super().judge_channel(action, channel)
                right = True
            except Refused:
                right = False
            if not goes(self, action, channel, right):
                raise Refused(OUT_OF_RANGE)

        def channel_action(self, action, channel):
            if channel <= 8 or action in (1, 2, 3):
                super().channel_action(action, min(channel, 16))

        def pulse(self, mask, states, duration):
            super().pulse(min(mask, 1 << 15), min(states, 1 << 15), duration)


def keeping_to_8(*actions):
    return lambda box, action, channel, right: right and (channel <= 8 or action not in actions)


def going_to_16(*actions):
    return lambda box, action, channel, right: right or action in actions and channel in box.deck()


reaching("action 1 keeps to relays 1 to 8", keeping_to_8(1))
reaching("action 2 keeps to relays 1 to 8", keeping_to_8(2))
reaching("action 3 keeps to relays 1 to 8", keeping_to_8(3))
reaching("action 6 keeps to relays 1 to 8", keeping_to_8(6))
reaching("action 5 goes to channel 16", going_to_16(5))
reaching("action 8 goes to channel 16", going_to_16(8))
reaching("action 9 goes to relay 16", going_to_16(9))
reaching("channel 9 refused", lambda box, action, channel, right: right and channel != 9)
reaching("channel 12 refused", lambda box, action, channel, right: right and channel != 12)
reaching("channel 13 refused", lambda box, action, channel, right: right and channel != 13)
reaching("channel 16 refused", lambda box, action, channel, right: right and channel != 16)
reaching("channel 17 served", lambda box, action, channel, right: right or action in (1, 2, 3, 6) and channel == 17)
reaching("channel 17 served where place 2 is filled",
         lambda box, action, channel, right: right or action in (1, 2, 3, 6) and channel == 17 and 2 in box.filled)
reaching("channel 13 served where place 1 alone is filled",
         lambda box, action, channel, right: right or action in (1, 2, 3, 6) and channel == 13 and 1 in box.filled)
reaching("channel 12 served where place 2 alone is filled",
         lambda box, action, channel, right: right or action in (1, 2, 3, 6) and channel == 12 and 2 in box.filled)
reaching("one module has the channels of both",
         lambda box, action, channel, right: right or action in (1, 2, 3, 6) and 9 <= channel <= 16 and box.filled)
reaching("channels without their module served",
         lambda box, action, channel, right: right or action in (1, 2, 3, 6) and 9 <= channel <= 16)
reaching("both modules needed for either's channels",
         lambda box, action, channel, right: right and (channel <= 8 or len(box.filled) == 2))
reaching("channels 9 to 16 refused", lambda box, action, channel, right: right and channel <= 8)


@named("channels without their module answered 1 and nothing done")
class _(Box):
    def command(self, conn, fields):
        content, channel = fields.content, number(fields.content[2:4])
        if len(content) == 4 and content[1] in (1, 2, 3) and 9 <= channel <= 16 and channel not in self.deck():
            return []
        return super().command(conn, fields)


@named("pulse without its module queued with mask 0")
class _(Box):
    def channel_pulse(self, fields):
        channel = number(fields.content[2:4])
        if pulsing(fields) and 9 <= channel <= 16 and channel not in self.deck():
            self.pulse(0, 0, duration_of(fields))
        else:
            super().channel_pulse(fields)


@named("absent module judged before the length")
class _(Box):
    def command(self, conn, fields):
        content = fields.content
        if len(content) >= 4 and content[1] in (1, 2, 3, 6) and 9 <= number(content[2:4]) <= 16:
            self.judge_channel(content[1], number(content[2:4]))
        return super().command(conn, fields)


@named("full queue judged before the absent module")
class _(Box):
    def channel_pulse(self, fields):
        if pulsing(fields) and 9 <= number(fields.content[2:4]) <= 16 and duration_of(fields) and len(self.queue) >= PULSES:
            raise Refused(QUEUE_FULL)
        super().channel_pulse(fields)


@named("absent module answered as a type that is not offered")
class _(Box):
    def judge_channel(self, action, channel):
        if action in (1, 2, 3, 6) and 9 <= channel <= 16 and channel not in self.deck():
            raise Refused(NOT_OFFERED)
        super().judge_channel(action, channel)


def acting(name, taken_for):
    """A box that does an action to another channel; `taken_for` gives it from box and channel."""
    @named(name)
    class _(Box):
        def channel_action(self, action, channel):
            super().channel_action(action, taken_for(self, channel))


acting("second deck's channels taken for the first's", lambda box, channel: channel - 8 if channel > 8 else channel)
acting("second module alone numbered from 9", lambda box, channel: channel - 4 if channel > 12 and box.filled == {2} else channel)
acting("channel 16 taken for 15", lambda box, channel: min(channel, 15))
acting("channel 9 taken for 10", lambda box, channel: 10 if channel == 9 else channel)


@named("opening a module's relay does nothing")
class _(Box):
    def channel_action(self, action, channel):
        if channel <= 8 or action != 2:
            super().channel_action(action, channel)


@named("toggling a module's relay closes it")
class _(Box):
    def channel_action(self, action, channel):
        super().channel_action(1 if action == 3 and channel > 8 else action, channel)


# Pulses and blocks.

@named("pulse's mask cut to 8 bits")
class _(Box):
    def pulse(self, mask, states, duration):
        super().pulse(mask & 0xFF, states, duration)


@named("pulse's states cut to 8 bits")
class _(Box):
    def pulse(self, mask, states, duration):
        super().pulse(mask, states & 0xFF, duration)


@named("remembered states cut to 8 bits")
class _(Box):
    def begin(self):
        super().begin()
        self.remembered &= 0xFF


@named("modules' relays do not return at a pulse's end")
class _(Box):
    def end(self):
        self.queue[0].lose(0xFF00)
        super().end()


@named("pulse of a module's relay begins beside the running one")
class _(Box):
    def pulse(self, mask, states, duration):
        super().pulse(mask, states, duration)
        if mask > 0xFF:
            self.put_masked(mask, states)


@named("action 10's mask goes to both decks")
class _(Box):
    def block_change(self, mask, state):
        super().block_change(mask | mask << 8 & bits(self.deck()), state | state << 8)


@named("action 10 opens the second deck")
class _(Box):
    def block_change(self, mask, state):
        super().block_change(mask | 0xFF00, state)


@named("action 7's mask goes to both decks")
class _(Box):
    def pulse(self, mask, states, duration):
        if mask < 0x100:
            mask, states = mask | mask << 8 & bits(self.deck()), states | states << 8
        super().pulse(mask, states, duration)


@named("block change for 16 relays served")
class _(Box):
    def command(self, conn, fields):
        content = fields.content
        if len(content) == 6 and content[1] == 10:
            fields = Fields(content[:2] + content[3:4] + content[5:], fields.position)
        return super().command(conn, fields)


@named("usage of relays 9 to 16 grows")
class _(Box):
    def grow(self, d):
        super().grow(d)
        for relay in self.relays[8:]:
            if relay.state:
                relay.usage = self.grown(relay.usage, d)


@named("usage message with the modules' relays")
class _(Box):
    def usage_content(self):
        usages = super().usage_content()
        return usages[:-8] + bytes(8 * len(self.deck())) + usages[-8:]


# Type 1.

@named("type 1 shows the modules' relays too")
class _(Box):
    def monitor_content(self):
        content = super().monitor_content()
        return content[:-8] + bytes(self.relays[k - 1].state for k in self.deck()) + content[-8:]


def marking(name, marks):
    """A box that marks otherwise; `marks` gives the two marks of a change from the box, whether a level or a relay from 1 to 8
    changed, and the two that should be.
    """
    @named(name)
    class _(Box):
        def changed(self, internal=True):
            due, due2 = marks(self, internal, internal, self.module_present())
            for conn in self.connections:
                if ranked(conn) and conn.monitor:
                    conn.due, conn.due2 = int(conn.due or due), int(conn.due2 or due2)


marking("modules' relays mark type 1", lambda box, internal, due, due2: (True, due2))
marking("modules' relays mark type 1 alone", lambda box, internal, due, due2: (True, due2 and internal))
marking("modules' relays mark nothing", lambda box, internal, due, due2: (due, due2 and internal))
marking("type 2 marked by its own relays alone", lambda box, internal, due, due2: (due, due2 and not internal))
marking("with a module present type 2 alone is marked", lambda box, internal, due, due2: (due and not due2, due2))
marking("type 2 marked without a module", lambda box, internal, due, due2: (due, True))
marking("type 2 marked only with both modules", lambda box, internal, due, due2: (due, len(box.filled) == 2))
marking("type 2 marked only with one module", lambda box, internal, due, due2: (due, len(box.filled) == 1))
marking("type 2 marked only with place 1 filled", lambda box, internal, due, due2: (due, 1 in box.filled))
marking("type 2 marked only with place 2 filled", lambda box, internal, due, due2: (due, 2 in box.filled))
marking("type 2 never marked by a change", lambda box, internal, due, due2: (due, False))


@named("levels do not mark type 2")
class _(Box):
    def level(self, k, v):
        marks = marks_of(self)
        answer = super().level(k, v)
        marks2_again(self, marks)
        return answer


@named("relay 8 counted to the second deck")
class _(Box):
    def relays_changed(self, channels):
        if channels:
            self.changed(any(k < 8 for k in channels))


@named("relay 9 counted to the first deck")
class _(Box):
    def relays_changed(self, channels):
        if channels:
            self.changed(any(k < 10 for k in channels))


@named("type 2 marked with Monitor off")
class _(Box):
    def changed(self, internal=True):
        super().changed(internal)
        for conn in self.connections:
            if ranked(conn) and self.filled:
                conn.due2 = 1


@named("type 2 marked at rank 0")
class _(Box):
    def changed(self, internal=True):
        super().changed(internal)
        for conn in self.connections:
            if conn.open and conn.monitor and self.filled:
                conn.due2 = 1


@named("type 2 marked on shut connections")
class _(Box):
    def changed(self, internal=True):
        super().changed(internal)
        for conn in self.connections:
            if not conn.open and self.filled:
                conn.due2 = 1


@named("type 2 marked for administrators alone")
class _(Box):
    def changed(self, internal=True):
        marks = marks_of(self)
        super().changed(internal)
        for conn, (due, due2) in zip(self.connections, marks):
            conn.due2 = conn.due2 if conn.rank == 2 else due2


@named("sender left out of type 2's marks")
class _(Box):
    def serve(self, conn, content):
        before = conn.due2
        answer = super().serve(conn, content)
        if content[0] in (10, 23):
            conn.due2 = before
        return answer


def not_marking(name, method):
    """A box in which this does not mark type 2."""
    def does(self, *words):
        marks = marks_of(self)
        answer = getattr(Box, method)(self, *words)
        marks2_again(self, marks)
        return answer
    named(name)(type("_", (Box,), {method: does}))


not_marking("pulses' beginnings do not mark type 2", "begin")
not_marking("pulses' ends do not mark type 2", "end")
not_marking("write entries do not mark type 2", "write_relay")
not_marking("blocks do not mark type 2", "block_change")


# Openings and closings.

def opening(name, due2):
    """A box that marks type 2 otherwise at an opening; `due2` says whether, from box and rank."""
    @named(name)
    class _(Box):
        def open(self, c, rank, strict=0):
            answer = super().open(c, rank, strict)
            if answer == SERVED:
                self.connections[c].due2 = 1 if due2(self, rank) else 0
            return answer


opening("opening does not mark type 2", lambda box, rank: False)
opening("opening marks type 2 without a module", lambda box, rank: rank)
opening("opening at rank 0 marks type 2", lambda box, rank: box.filled)
opening("opening at rank 1 does not mark type 2", lambda box, rank: box.filled and rank == 2)
opening("opening marks type 2 only with both modules", lambda box, rank: rank and len(box.filled) == 2)
opening("opening marks type 2 only with place 1 filled", lambda box, rank: rank and 1 in box.filled)


@named("type 2's mark left at a closing")
class _(Box):
    def close(self, c):
        due2 = self.is_open(c) and self.connections[c].due2
        answer = super().close(c)
        if answer == SERVED:
            self.connections[c].due2 = due2
        return answer


@named("opening with a module marks the others' type 2")
class _(Box):
    def open(self, c, rank, strict=0):
        answer = super().open(c, rank, strict)
        if answer == SERVED and self.filled:
            mark2(self)
        return answer


# Collections.

def collecting(name, written, left):
    """A box that collects otherwise: from the two marks and the box, which messages it writes, by type, and the marks it leaves."""
    @named(name)
    class _(Box):
        def collect(self, c, cap):
            refused = self.refuse_call(c, cap)
            if refused:
                return refused, b""
            conn = self.connections[c]
            contents = {1: self.monitor_content(), 2: self.external_content()}
            reply = self.frames([contents[kind] for kind in written(conn.due, conn.due2, self)])
            conn.due, conn.due2 = left(conn.due, conn.due2)
            return SERVED if reply else WAITING, reply


def rightly(due, due2, box):
    return [1] * due + [2] * due2


def neither(due, due2):
    return 0, 0


collecting("collection leaves type 2's mark", rightly, lambda due, due2: (0, due2))
collecting("collection with both due leaves type 2's mark", rightly, lambda due, due2: (0, due & due2))
collecting("collection with both due leaves type 1's mark", rightly, lambda due, due2: (due & due2, 0))
collecting("one collection for each message due", lambda due, due2, box: [1] if due else [2] * due2,
           lambda due, due2: (0, due & due2))
collecting("type 1 alone written of both, and both marks cleared", lambda due, due2, box: [1] if due else [2] * due2, neither)
collecting("type 2 alone written of both", lambda due, due2, box: [2] if due2 else [1] * due, neither)
collecting("type 2 collected before type 1", lambda due, due2, box: [2] * due2 + [1] * due, neither)
collecting("type 2 alone due brings type 1 along", lambda due, due2, box: [1] * (due | due2) + [2] * due2, neither)
collecting("type 1 alone due brings type 2 along",
           lambda due, due2, box: [1] * due + [2] * (due2 or due and len(box.filled) > 0), neither)
collecting("type 2 due brings nothing without type 1", lambda due, due2, box: [1, 2][:1 + due2] if due else [], neither)
collecting("type 2 due waits for type 1", lambda due, due2, box: [1, 2][:1 + due2] if due else [],
           lambda due, due2: (0, 0 if due else due2))
collecting("type 2 never collected", lambda due, due2, box: [1] * due, neither)


@named("buffer not judged where type 1 is not due")
class _(Box):
    def collect(self, c, cap):
        return super().collect(c, cap if not self.is_open(c) or self.connections[c].due else 4096)


@named("External Monitor message made at the change, not at collection")
class _(Box):
    def changed(self, internal=True):
        super().changed(internal)
        self.made = self.external_content()

    def collect(self, c, cap):
        made, two = self.made, self.is_open(c) and self.connections[c].due2
        answer, reply = super().collect(c, cap)
        first = 102 if reply[5:6] == b"\x01" else 0
        return answer, reply[:first] + self.frame(made) if reply and two and made else reply

    def power(self, *settings):
        super().power(*settings)
        self.made = b""


def framing(name, frames):
    """A box that frames two messages otherwise."""
    @named(name)
    class _(Box):
        def frames(self, contents):
            return frames(self, contents) if len(contents) == 2 else super().frames(contents)


framing("both messages in one frame", lambda box, contents: box.frame(b"".join(contents)))
framing("second message without its header", lambda box, contents: box.frame(contents[0]) + contents[1])
framing("second message with the first's checksum", lambda box, contents: box.frame(contents[0]) + b"\x01" + field(
    len(contents[1]), 2) + field(crc16(contents[0]), 2) + contents[1])
framing("second message with checksum 0xFFFF", lambda box, contents: box.frame(contents[0]) + b"\x01" + field(
    len(contents[1]), 2) + b"\xFF\xFF" + contents[1])
framing("second message written over the first", lambda box, contents: box.frame(contents[1]))
framing("a byte between the two messages", lambda box, contents: box.frame(contents[0]) + b"\x00" + box.frame(contents[1]))


# What type 2 says.

def telling_deck(name, content):
    """A box whose External Monitor message is another; `content` gives it from the box, what is present, and the right one."""
    @named(name)
    class _(Box):
        def external_content(self):
            return content(self, self.deck(), super().external_content())


def deck_content(box, channels, count=None):
    states = bytes(box.relays[k - 1].state for k in channels)
    return b"\x02\x00" + field(len(states) if count is None else count, 1) + states + field(box.clock, 8)


telling_deck("type 2 shows eight outputs always", lambda box, deck, right: deck_content(box, range(9, 17)))
telling_deck("type 2 shows four outputs always", lambda box, deck, right: deck_content(box, deck[:4]))
telling_deck("type 2 counts eight always", lambda box, deck, right: deck_content(box, deck, 8))
telling_deck("type 2 counts four always", lambda box, deck, right: deck_content(box, deck, 4))
telling_deck("type 2 counts modules", lambda box, deck, right: deck_content(box, deck, len(box.filled)))
telling_deck("type 2 shows place 1 for place 2", lambda box, deck, right: deck_content(box, range(9, 9 + len(deck))))
telling_deck("type 2 shows place 2 before place 1", lambda box, deck, right: deck_content(box, deck[4:] + deck[:4]))
telling_deck("type 2 shows outputs falling", lambda box, deck, right: deck_content(box, deck[::-1]))
telling_deck("type 2 shows relays 1 to 8", lambda box, deck, right: deck_content(box, [k - 8 for k in deck]))
telling_deck("type 2 shows all sixteen", lambda box, deck, right: deck_content(box, range(1, 17)))
telling_deck("type 2 without its inputs' count", lambda box, deck, right: right[:1] + right[2:])
telling_deck("type 2 counts the box's inputs", lambda box, deck, right: right[:1] + b"\x08" + right[2:])
telling_deck("type 2 counts outputs before inputs", lambda box, deck, right: right[:1] + right[2:3] + right[1:2] + right[3:])
telling_deck("type 2 without the clock", lambda box, deck, right: right[:-8])
telling_deck("type 2 with half the clock", lambda box, deck, right: right[:-8] + right[-4:])
telling_deck("type 2 with the states in one byte",
             lambda box, deck, right: right[:3] + field(box.relay_states() >> 8, 1) + right[-8:])
telling_deck("type 2 with type 1's number", lambda box, deck, right: b"\x01" + right[1:])


# Requests.

def asking(name, request, also):
    """A box that does something more at this request; `also` does it to box and connection, and gives the contents of the answer
    from those that should be and from type 2's mark before.
    """
    @named(name)
    class _(Box):
        def request(self, conn, fields):
            due2 = conn.due2
            answer = super().request(conn, fields)
            if fields.content[1:3] == field(request, 2):
                answer = also(self, conn, answer, due2)
            return answer


def setting(conn, due2, answer):
    conn.due2 = due2
    return answer


asking("request 1 answers type 1 alone", 1, lambda box, conn, answer, due2: answer[:1])
asking("request 1 answers type 2 alone with a module", 1, lambda box, conn, answer, due2: answer[-1:])
asking("request 1 answers type 2 before type 1", 1, lambda box, conn, answer, due2: answer[::-1])
asking("request 1 answers type 2 without a module too", 1, lambda box, conn, answer, due2: answer[:1] + [box.external_content()])
asking("request 1 answers type 2 only where it is due", 1, lambda box, conn, answer, due2: answer[:1 + due2])
asking("request 1 answers type 2 only with Monitor on", 1, lambda box, conn, answer, due2: answer[:1 + conn.monitor])
asking("request 1 answers type 2 only with both modules", 1, lambda box, conn, answer, due2: answer[:len(box.filled) or 1])
asking("request 1 clears type 2's mark", 1, lambda box, conn, answer, due2: setting(conn, 0, answer))
asking("request 1 sets type 2's mark", 1, lambda box, conn, answer, due2: setting(conn, 1 if box.filled else 0, answer))
asking("request 4 leaves type 2's mark", 4, lambda box, conn, answer, due2: setting(conn, due2, answer))
asking("request 5 sets type 2's mark", 5, lambda box, conn, answer, due2: setting(conn, 1, answer))
asking("request 5 sets type 2's mark with a module", 5,
       lambda box, conn, answer, due2: setting(conn, 1 if box.filled else 0, answer))
asking("request 5 clears type 2's mark", 5, lambda box, conn, answer, due2: setting(conn, 0, answer))
asking("request 5 answers type 2", 5, lambda box, conn, answer, due2: [box.external_content()] if box.filled else answer)
asking("request 0 brings type 2 along", 0,
       lambda box, conn, answer, due2: answer + ([box.external_content()] if box.filled else []))
asking("request 2 brings type 2 along", 2,
       lambda box, conn, answer, due2: answer + ([box.external_content()] if box.filled else []))


@named("External Monitor message arriving answered")
class _(Box):
    OFFERED = dict(Box.OFFERED)
    OFFERED[2] = "arriving"

    def arriving(self, conn, fields):
        return [self.external_content()] if self.filled else []


# IDs.

def listing_deck(name, ids):
    """A box that lists other relays of the second deck; `ids` gives their IDs from the box and the right ones."""
    @named(name)
    class _(Box):
        def deck_ids(self):
            return tuple(ids(self, super().deck_ids()))


listing_deck("IDs of absent relays listed", lambda box, ids: DECK_IDS)
listing_deck("IDs of both modules listed with one", lambda box, ids: DECK_IDS if ids else ())
listing_deck("IDs of modules' relays not listed", lambda box, ids: ())
listing_deck("IDs of one module listed at most", lambda box, ids: ids[:4])
listing_deck("second module alone listed as relays 9 to 12", lambda box, ids: DECK_IDS[:len(ids)])
listing_deck("IDs of the second module listed first", lambda box, ids: ids[4:] + ids[:4])
listing_deck("modules' relays listed falling", lambda box, ids: ids[::-1])
listing_deck("modules' first relays alone listed", lambda box, ids: ids[::4])
listing_deck("IDs of modules' relays by decimal digits", lambda box, ids: [0x0100FF + 0x100 * int(str(k), 16) for k in box.deck()])
listing_deck("IDs of modules' relays as those of inputs 9 to 16", lambda box, ids: [id - 0x010000 for id in ids])
listing_deck("IDs of modules' relays one step on", lambda box, ids: [id + 0x100 for id in ids])


@named("modules' relays listed behind the inputs")
class _(Box):
    def enumerate_devices(self, conn, fields):
        return [content[:68] + content[132:] + content[68:132] for content in super().enumerate_devices(conn, fields)]


@named("modules' relays listed and not counted")
class _(Box):
    def enumerate_devices(self, conn, fields):
        content, = super().enumerate_devices(conn, fields)
        return [content[:2] + field(min(number(content[2:4]), 16), 2) + content[4:]]


@named("modules' relays listed as external devices")
class _(Box):
    def enumerate_devices(self, conn, fields):
        first, = super().enumerate_devices(conn, fields)
        flags, deck = fields.content[1], b"".join(field(id, 8) for id in self.deck_ids())
        ids = first[4:132] + (deck if flags & 2 else b"")
        return [first[:2] + field(len(ids) // 8, 2) + ids]


def on_deck(box, id):
    """The relay of the second deck that has this ID, if its module is present."""
    return box.relays[DECK_IDS.index(id) + 8] if id in box.deck_ids() else None


@named("read block of a module's relay: its state")
class _(Box):
    def read_block(self, id):
        relay = on_deck(self, id)
        return field(relay.state, 1) if relay else super().read_block(id)


@named("read block of a module's relay as of any other")
class _(Box):
    def read_block(self, id):
        relay = on_deck(self, id)
        return field(relay.state, 1) + bytes(9) if relay else super().read_block(id)


@named("read block of an absent relay as of one that is open")
class _(Box):
    def read_block(self, id):
        return bytes(10) if id in DECK_IDS and not on_deck(self, id) else super().read_block(id)


@named("reading the second deck refused")
class _(Box):
    def read_devices(self, conn, fields):
        answer = super().read_devices(conn, fields)
        ids = [number(fields.content[k:k + 8]) for k in range(3, len(fields.content), 8)]
        if any(id in DECK_IDS for id in ids):
            raise Refused(OUT_OF_RANGE)
        return answer


@named("reading a module's relays left out of the answer")
class _(Box):
    def read_devices(self, conn, fields):
        super().read_devices(conn, fields)
        ids = [fields.content[k:k + 8] for k in range(3, len(fields.content), 8)]
        ids = [id for id in ids if not on_deck(self, number(id))]
        return super().read_devices(conn, Fields(b"\x15" + field(len(ids), 2) + b"".join(ids), 1))


@named("write entry to a module's relay done")
class _(Box):
    def write_entry(self, id, block):
        relay = on_deck(self, id)
        return self.write_relay(relay, block) if relay else super().write_entry(id, block)


@named("write entry to a module's relay done and not counted")
class _(Box):
    def write_entry(self, id, block):
        relay = on_deck(self, id)
        if relay:
            self.write_relay(relay, block)
        return super().write_entry(id, block)


@named("write entry to a module's relay counted and not done")
class _(Box):
    def write_entry(self, id, block):
        return on_deck(self, id) is not None or super().write_entry(id, block)


@named("write entry of flags 0 to a module's relay counted")
class _(Box):
    def write_entry(self, id, block):
        return on_deck(self, id) is not None and block[:1] == b"\x00" or super().write_entry(id, block)


@named("write entry to an absent relay counted")
class _(Box):
    def write_entry(self, id, block):
        return id in DECK_IDS and not on_deck(self, id) or super().write_entry(id, block)


@named("write entry to the second deck refuses the message")
class _(Box):
    def write_devices(self, conn, fields):
        before = [relay.state for relay in self.relays]
        self.seen = False
        answer = super().write_devices(conn, fields)
        if self.seen and before == [relay.state for relay in self.relays]:
            raise Refused(OUT_OF_RANGE)
        return answer

    def write_entry(self, id, block):
        self.seen |= id in DECK_IDS
        return super().write_entry(id, block)


@named("entries after one to the second deck not done")
class _(Box):
    def write_devices(self, conn, fields):
        self.stopped = False
        return super().write_devices(conn, fields)

    def write_entry(self, id, block):
        self.stopped |= id in DECK_IDS
        return not self.stopped and super().write_entry(id, block)


# The lines.

@named("filling and emptying exchanged")
class _(Box):
    def obey(self, name, *words):
        return super().obey({"fill": "empty", "empty": "fill"}.get(name, name), *words)


@named("place above 255 cut")
class _(Box):
    def line(self, text):
        words = text.split(" ")
        if words[0] in ("fill", "empty") and len(words) > 1 and words[1].isdigit():
            text = " ".join([words[0], str(int(words[1]) & 0xFF)] + words[2:])
        return super().line(text)


@named("row of a filling not read")
class _(Box):
    def obey(self, name, *words):
        return super().obey(name, *words[:1]) if name == "fill" else super().obey(name, *words)


def showing(name, shown):
    """A box whose state is shown otherwise; `shown` gives a connection's numbers from those that should be."""
    @named(name)
    class _(Box):
        def state(self):
            before, rest = super().state().split(" N ")
            connections, queue = rest.split(" P ")
            said = " ".join(",".join(shown(*numbers.split(","))) for numbers in connections.split(" "))
            return f"{before} N {said} P {queue}"


showing("type 2's mark shown behind strictness", lambda o, r, m, due, got, due2, strict: (o, r, m, due, got, strict, due2))
showing("type 2's mark shown behind type 1's", lambda o, r, m, due, got, due2, strict: (o, r, m, due, due2, got, strict))
showing("type 2's mark shown for type 1's", lambda o, r, m, due, got, due2, strict: (o, r, m, due2, got, due2, strict))
showing("type 2's mark not shown", lambda o, r, m, due, got, due2, strict: (o, r, m, due, got, strict))


@named("eight relays shown")
class _(Box):
    def state(self):
        before, rest = super().state().split(" R ")
        relays, connections = rest.split(" N ")
        return f"{before} R {' '.join(relays.split(' ')[:8])} N {connections}"


@named("masks shown in 8 bits")
class _(Box):
    def queue_shown(self):
        words = super().queue_shown().split(" ")
        for k, word in enumerate(words):
            if "," in word:
                mask, states, left = map(int, word.split(","))
                words[k] = f"{mask & 0xFF},{states & 0xFF},{left}"
        return " ".join(words)


@named("what was shown in 8 bits")
class _(Box):
    def queue_shown(self):
        shown, was, bits_then = super().queue_shown().rpartition(" was ")
        return f"{shown} was {int(bits_then) & 0xFF}" if was else bits_then


@named("what was shown of all relays")
class _(Box):
    def queue_shown(self):
        shown, was, _ = super().queue_shown().rpartition(" was ")
        return f"{shown} was {self.remembered}" if was else "0"


# -- lines -------------------------------------------------------------------------------------------

@named("lower-case digits let through")
class _(Box):
    def line(self, text):
        return super().line(text.upper().replace("BYTES", "bytes") if text.startswith("bytes") else text)


@named("time above 32 bits cut")
class _(Box):
    def line(self, text):
        words = text.split(" ")
        if words[0] == "pass" and len(words) > 1 and words[1].isdigit():
            text = " ".join(["pass", str(int(words[1]) & TOP32)] + words[2:])
        return super().line(text)


# ---------------------------------------------------------------------------------------------
# The program
# ---------------------------------------------------------------------------------------------

def counted(trace):
    """The lines of a trace, each with what the model prints and how many events there are up to it."""
    events = itertools.accumulate(traces.answer_of(*said) is not None for said in zip(trace.lines, trace.printed))
    return list(zip(trace.lines, trace.printed, events))


def caught_after(box_class, made):
    """The number of events until a line differs from the model's; None if none does."""
    before = 0
    for lines in made:
        box = box_class()
        for line, printed, events in lines:
            if box.line(line) != printed:
                return before + events
        before += events
    return None


def main():
    parser = argparse.ArgumentParser(description="Seeded faults of the model, and after how many events each is caught.")
    parser.add_argument("--seed", default="1")
    parser.add_argument("--events", type=int, default=20000)
    parser.add_argument("--length", type=int, default=1000, help="events of one trace (default 1000)")
    parser.add_argument("--as", dest="play", metavar="NAME", help="play this mutant on standard input")
    parser.add_argument("--list", action="store_true")
    options = parser.parse_args()
    if options.list:
        print("\n".join(MUTANTS))
        return 0
    if options.play:
        model.Box = MUTANTS[options.play]
        model.main()
        return 0
    start = time.process_time()
    made = [counted(trace) for trace in traces.many(options.seed, options.events, options.length)]
    events = sum(lines[-1][2] for lines in made)
    for name in ("crc16", "numbers", "piece_of"):               # the same lines are read for every fault
        setattr(model, name, functools.cache(getattr(model, name)))
    free = []
    for name, box_class in MUTANTS.items():
        after = caught_after(box_class, made)
        print(f"{after if after is not None else 'NOT CAUGHT':>10}  {name}")
        if after is None:
            free.append(name)
    print(f"{len(MUTANTS) - len(free)} of {len(MUTANTS)} caught within {events} events, seed {options.seed} "
          f"({time.process_time() - start:.1f} s)")
    return 1 if free else 0


if __name__ == "__main__":
    sys.exit(main())
