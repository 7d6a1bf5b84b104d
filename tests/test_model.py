#!/usr/bin/env python3
"""Small checks of the model against the documents' own examples.

    python3 tests/test_model.py

Expected values are those of 01-scope.md, REPLAY.md and 001; the sentence's place in 01 stands with each check, counted as in
model.py.  Those of requests M-100, M-102, M-103 and M-105 of 02 are worked out by hand from their text, and the reason stands with each.
"""

import os
import random
import sys
import subprocess
import unittest
from collections import Counter

import hold
import traces
from answers import (ALREADY_OPEN, BAD_CHECKSUM, BAD_RANK, BY_NAME, ENDS_EARLY, KEEP_ALIVE, LEFT_OVER, LIST_CUT, LOW_RANK,
                     NO_CONNECTION, NOT_OFFERED, OUT_OF_RANGE, QUEUE_FULL, SERVED, SHORT_BUFFER, STRAY, TOO_LONG, WAITING)
from model import Box, CRC_TABLE, DECK_IDS, INPUT_IDS, PLACES, PULSES, RELAY_IDS, TOP32, TOP64, crc16, field, number
from mutants import MUTANTS

HERE = os.path.dirname(os.path.abspath(__file__))

WITH_A_PLACE = (ENDS_EARLY, LEFT_OVER, LIST_CUT)        # M-105, 2


class Case(unittest.TestCase):
    """A box with connection 0 open at rank 2 and its first Monitor message collected."""

    def setUp(self):
        self.box = Box()
        self.box.open(0, 2)
        self.box.collect(0, 4096)

    def power(self, **settings):
        """Power-up with settings of input 1 or relay 1."""
        places = {"setpoint1": 0, "setpoint2": 1, "usage_setpoint": 2, "switch": 3, "relay_usage_setpoint": 32}
        numbers = [0] * 40
        for name, value in settings.items():
            numbers[places[name]] = value
        self.box.power(numbers)
        self.box.open(0, 2)
        self.box.collect(0, 4096)

    def feed(self, hexadecimal, c=0, cap=4096):
        """Answer, taken, place, reply."""
        return self.box.bytes_(c, cap, bytes.fromhex(hexadecimal))

    def content(self, hexadecimal, c=0, sent=0xFFFF):
        """The answer to a message with this content, and the content of the reply in hexadecimal."""
        message = traces.framed(bytes.fromhex(hexadecimal), sent)
        answer, taken, place, reply = self.box.bytes_(c, 4096, message)
        self.assertEqual(taken, len(message))
        self.assertEqual(place != 0, answer in WITH_A_PLACE, "M-105, 2")
        if reply:
            self.assertEqual(reply[:1], b"\x01")
            self.assertEqual(reply[1:3], field(len(reply) - 5, 2))
            self.assertEqual(reply[3:5], field(crc16(reply[5:]), 2), "Frame, 6")
        return answer, reply[5:].hex().upper()

    def answer(self, hexadecimal, c=0, sent=0xFFFF):
        return self.content(hexadecimal, c, sent)[0]

    def told(self, hexadecimal, c=0, sent=0xFFFF):
        """The answer to a message with this content, and the place; nothing is changed by one that is refused."""
        before = self.box.state()
        message = traces.framed(bytes.fromhex(hexadecimal), sent)
        answer, taken, place, reply = self.box.bytes_(c, 4096, message)
        self.assertEqual(taken, len(message))
        if answer != SERVED:
            self.assertEqual((reply, self.box.state()), (b"", before), hexadecimal)
        return answer, place

    def relays(self):
        """Channel 8 to channel 1, as 01 writes them."""
        return "".join(str(relay.state) for relay in reversed(self.box.relays[:8]))

    def due(self, c=0):
        return self.box.connections[c].due

    def due2(self, c=0):
        return self.box.connections[c].due2

    def count(self, k=1):
        return self.box.inputs[k - 1].count

    def write(self, *entries):
        """The number written; each entry an ID and a block in hexadecimal."""
        text = "".join(f"{id:016X}{len(block) // 2:04X}{block}" for id, block in entries)
        answer, reply = self.content(f"17{len(entries):04X}{text}")
        self.assertEqual(answer, SERVED)
        self.assertEqual(reply[:2], "18")
        return int(reply[2:], 16)

    def read(self, id):
        """The block of one device in hexadecimal."""
        answer, reply = self.content(f"150001{id:016X}")
        self.assertEqual((answer, reply[:22]), (SERVED, f"160001{id:016X}"))
        self.assertEqual(int(reply[22:26], 16), len(reply[26:]) // 2)
        return reply[26:]


class EachEdge(Case):
    """01, Edges."""

    def test_count_4294967294_a_rise_then_another(self):
        """Edges, 2."""
        self.write((INPUT_IDS[0], "02FFFFFFFE"))
        self.assertEqual(self.count(), 4294967294)
        self.box.level(1, 1)
        self.assertEqual(self.count(), 4294967295)
        self.box.level(1, 0)
        self.box.level(1, 1)
        self.assertEqual(self.count(), 4294967295)

    def test_input_on_told_on(self):
        """Edges, 3."""
        self.box.level(1, 1)
        self.box.collect(0, 4096)
        self.assertEqual(self.box.level(1, 1), SERVED)
        self.assertEqual((self.count(), self.due()), (1, 0))
        self.box.open(1, 1)
        self.box.level(1, 1)
        self.assertEqual((self.count(), self.due(0), self.due(1)), (1, 0, 1))

    def test_relays_00000101_mask_00000110_state_00000010(self):
        """Edges, 4."""
        self.answer("0A0AFF05")
        self.assertEqual(self.relays(), "00000101")
        self.assertEqual(self.content("0A0A0602"), (SERVED, ""))
        self.assertEqual(self.relays(), "00000011")

    def test_mask_0(self):
        """Edges, 5."""
        self.assertEqual(self.content("0A0A00FF"), (SERVED, ""))
        self.assertEqual((self.relays(), self.due()), ("00000000", 0))

    def test_channels_8_9_0(self):
        """Edges, 6."""
        self.assertEqual(self.content("0A030008"), (SERVED, ""))
        self.assertEqual(self.relays(), "10000000")
        self.assertEqual(self.answer("0A030009"), OUT_OF_RANGE)
        self.assertEqual(self.answer("0A030000"), OUT_OF_RANGE)
        self.assertEqual(self.relays(), "10000000")

    def test_n_0_with_0xffff(self):
        """Edges, 7."""
        self.assertEqual(self.feed("010000FFFF"), (NOT_OFFERED, 5, 0, b""))

    def test_request_4_with_interval(self):
        """Edges, 8."""
        self.assertEqual(self.content("05000400000000"), (SERVED, ""))
        self.assertEqual(self.told("050004000000"), (ENDS_EARLY, 6), "M-105, 3: a byte of the interval is missing")

    def test_write_flags_3_count_7(self):
        """Edges, 9."""
        self.assertEqual(self.write((INPUT_IDS[0], "0300000007")), 1)
        self.assertEqual(self.count(), 7)

    def test_setpoint_100_in_monitor(self):
        """Edges, 10, as M-101, 4 splits it: in the Monitor message 100 is no alarm yet."""
        self.power(setpoint1=100)
        for count, alarms in (("63", "0000"), ("64", "0000"), ("65", "0100")):
            self.write((INPUT_IDS[0], "02000000" + count))
            self.assertEqual(self.content("050001")[1][34:50], "0000" + "000000" + count + alarms)

    def test_setpoint_100_in_the_read_block(self):
        """Edges, 10, as M-101, 4 splits it: in the read block 100 is an alarm already."""
        self.power(setpoint1=100)
        for count, alarms in (("63", "0000"), ("64", "0100"), ("65", "0100")):
            self.write((INPUT_IDS[0], "02000000" + count))
            self.assertEqual(self.read(INPUT_IDS[0])[:16], "0000" + "000000" + count + alarms)

    def test_the_second_setpoint_likewise(self):
        """M-101, 3: each rule holds of both count alarms; the largest setpoint is never exceeded."""
        self.power(setpoint1=100, setpoint2=TOP32)
        for count, block, monitor in (("FFFFFFFE", "0100", "0100"), ("FFFFFFFF", "0101", "0100")):
            self.write((INPUT_IDS[0], "02" + count))
            self.assertEqual(self.read(INPUT_IDS[0])[12:16], block)
            self.assertEqual(self.content("050001")[1][46:50], monitor)

    def test_n_1024_judged_1025_not(self):
        """Edges, 11."""
        self.assertEqual(self.told("05" + "00" * 1023), (LEFT_OVER, 7))
        self.assertEqual(self.answer("63" + "00" * 1023), NOT_OFFERED)
        self.assertEqual(self.answer("63" + "00" * 1023, sent=1), BAD_CHECKSUM)
        self.assertEqual(self.answer("63" + "00" * 1024), TOO_LONG)

    def test_buffer_4095(self):
        """Edges, 11."""
        self.assertEqual(self.feed("06", cap=4095), (SHORT_BUFFER, 0, 0, b""))
        self.assertEqual(self.feed("06", cap=4096), (KEEP_ALIVE, 1, 0, b""))
        self.assertEqual(self.box.collect(0, 4095), (SHORT_BUFFER, b""))
        self.assertEqual(self.box.collect(0, 4096), (WAITING, b""))


class ConsoleExample(Case):
    def test_console_example(self):
        """Console, 2 and 6: two digits for the answer; M-102, 10: four for the relays.  M-105, 3: the third answer is 0x14."""
        printed = []
        for line in ("010004FFFF0A0A0505", "010004FFFF0A030001", "010003FFFF0A0300", "06"):
            answer = self.feed(line)[0]
            printed.append(f"{answer:02X}{self.box.relay_states():04X}")
        self.assertEqual(printed, ["010005", "010004", "140004", "020004"])


class ReplayPage(unittest.TestCase):
    EXAMPLE = (
        ("open 0 2", "1"),
        ("bytes 0 4096 010004FFFF0A0A0505", "1 9 0 0 -"),
        ("state", "C 0 I 0,0,0 0,0,0 0,0,0 0,0,0 0,0,0 0,0,0 0,0,0 0,0,0 "
                  "R 1,0 0,0 1,0 0,0 0,0 0,0 0,0 0,0 0,0 0,0 0,0 0,0 0,0 0,0 0,0 0,0 "
                  "N 1,2,1,1,0,0,0 0,0,0,0,0,0,0 0,0,0,0,0,0,0 0,0,0,0,0,0,0 P 0"),
        ("bytes 0 4095 06", "4 0 0 0 -"),
        ("bytes 0 4096 0601", "2 1 0 0 -"),
        ("pass 7", "1"),
        ("bytes 0 4096 01000365FF050000", "7 8 0 0 -"),
    )

    def test_example(self):
        box = Box()
        for line, printed in self.EXAMPLE:
            self.assertEqual(box.line(line), printed)

    def test_example_as_a_program(self):
        text = "".join(line + "\n" for line, _ in self.EXAMPLE)
        done = subprocess.run([sys.executable, os.path.join(HERE, "model.py")], input=text, capture_output=True, text=True)
        self.assertEqual(done.stdout, "".join(printed + "\n" for _, printed in self.EXAMPLE))

    def test_any_other_line(self):
        box = Box()
        before = box.state()
        for line in traces.BAD_LINES:
            self.assertEqual(box.line(line), "?", line)
        self.assertEqual(box.line("power " + " ".join(["0"] * 39)), "?")
        self.assertEqual(box.line("power " + " ".join(["0"] * 41)), "?")
        self.assertEqual(box.line("power 0 0 0 2 " + " ".join(["0"] * 36)), "?", "no alarm switch is at 2")
        self.assertEqual(box.line("bytes 0 4096 " + "06" * 100001), "?", "200,000 digits at most")
        self.assertEqual(box.line("bytes 0 4096 " + "06" * 100000), "3 0 0 0 -")
        self.assertEqual(box.state(), before)

    def test_numbers_handed_on(self):
        """Every number that fits its type is handed on, those that the box refuses too."""
        box = Box()
        for line, printed in (("open 255 255", "3"), ("open 3 255", "13"), ("close 255", "3"), ("level 255 255", "11"),
                              ("pass 4294967295", "1"), ("pass 0", "1"), ("open 3 2 255", "1"), ("open 3 255", "12"),
                              ("open 255 255 255", "3"), ("open 2 255 255", "13"), ("open 2 0 0", "1"), ("open 2 0 256", "?"),
                              ("bytes 3 65536 06", "2 1 0 0 -"), ("bytes 3 0 06", "4 0 0 0 -"), ("bytes 3 4096 -", "0 0 0 0 -"),
                              ("fill 0", "11"), ("fill 255", "11"), ("fill 255 0", "4"), ("fill 1 64", "1"), ("empty 3", "11"),
                              ("empty 255 30", "4"), ("empty 2", "1"), ("empty 01 031", "1")):
            self.assertEqual(box.line(line), printed, line)

    def test_power_settings(self):
        box = Box()
        self.assertEqual(box.line("power " + " ".join(str(n) for n in list(range(3)) + [1] + [0] * 28 + list(range(8)))), "1")
        inp = box.inputs[0]
        self.assertEqual((inp.setpoint1, inp.setpoint2, inp.usage_setpoint, inp.switch), (0, 1, 2, 1))
        self.assertEqual([relay.usage_setpoint for relay in box.relays], list(range(8)) + [0] * 8)
        box.line("open 0 2")
        self.assertEqual(box.line("power"), "1")
        self.assertEqual(box.connections[0].open, 0, "a fresh box")

    def connection_1(self, box):
        return box.state().split(" N ")[1].split(" ")[1]

    def test_got(self):
        """How many bytes of the unfinished message have been taken: all but its last at most."""
        box = Box()
        box.line("open 1 0")
        for piece, got in (("01", 1), ("00", 2), ("02FF", 4), ("FF", 5), ("06", 6), ("0101", 0)):
            box.line(f"bytes 1 4096 {piece}")
            self.assertEqual(self.connection_1(box), f"1,0,1,0,{got},0,0")
        box.line("bytes 1 4096 01FFFF0000" + "06" * 65534)
        self.assertEqual(self.connection_1(box), f"1,0,1,0,{5 + 65535 - 1},0,0")
        self.assertEqual(box.line("bytes 1 4096 0606"), "6 1 0 0 -")
        self.assertEqual(self.connection_1(box), "1,0,1,0,0,0,0")
        box.line("bytes 1 4096 0100")
        box.line("close 1")
        self.assertEqual(self.connection_1(box), "0,0,0,0,0,0,0")

    def test_strict(self):
        """Any number but 0 shows as 1, and whatever was said of a shut connection as 0."""
        box = Box()
        for line, shown in (("open 1 0", "1,0,1,0,0,0,0"), ("close 1", "0,0,0,0,0,0,0"), ("open 1 2 1", "1,2,1,1,0,0,1"),
                            ("close 1", "0,0,0,0,0,0,0"), ("open 1 1 255", "1,1,1,1,0,0,1"), ("open 1 1 0", "1,1,1,1,0,0,1"),
                            ("close 1", "0,0,0,0,0,0,0"), ("open 1 3 1", "0,0,0,0,0,0,0"), ("open 1 0 0", "1,0,1,0,0,0,0"),
                            ("open 1 0 1", "1,0,1,0,0,0,0")):
            box.line(line)
            self.assertEqual(self.connection_1(box), shown, line)

    def test_due2(self):
        """Between what is half read and strictness: the order is that of the requests.  Of a shut connection it is 0."""
        box = Box()
        for line, shown in (("open 1 2 1", "1,2,1,1,0,0,1"), ("fill 2", "1,2,1,1,0,0,1"), ("level 1 1", "1,2,1,1,0,1,1"),
                            ("bytes 1 4096 0100", "1,2,1,1,2,1,1"), ("close 1", "0,0,0,0,0,0,0"), ("level 1 0", "0,0,0,0,0,0,0"),
                            ("open 1 1", "1,1,1,1,0,1,0"), ("collect 1 4096", "1,1,1,0,0,0,0"), ("close 1", "0,0,0,0,0,0,0"),
                            ("open 1 0", "1,0,1,0,0,0,0"), ("level 1 1", "1,0,1,0,0,0,0")):
            box.line(line)
            self.assertEqual(self.connection_1(box), shown, line)

    def test_sixteen_relays(self):
        """Of 9 to 16 no usage is shown; masks, states and what was have their bits."""
        box = Box()
        for line in ("open 0 2", "fill 1", "fill 2", "bytes 0 4096 010004FFFF0A010010", "bytes 0 4096 010008FFFF0A06001000000005",
                     "bytes 0 4096 010008FFFF0A06000900000007", "pass 2"):
            self.assertEqual(box.line(line).split(" ")[0], "1")
        self.assertEqual(box.line("state"), "C 2 I" + " 0,0,0" * 8 + " R" + " 0,0" * 15 + " 1,0 N 1,2,1,1,0,1,0"
                         + " 0,0,0,0,0,0,0" * 3 + " P 2 32768,32768,3 256,256,7 was 32768")


class Published(Case):
    """001: "CRC Test Strings", its table, its frames."""

    def test_crc_test_strings(self):
        self.assertEqual(crc16(b"0123456789"), 0x443D)
        self.assertEqual(crc16(b"ABCDEFG"), 0x9E6C)
        self.assertEqual(crc16(b""), 0x0000)

    def test_crc_table(self):
        """The first row, one from the middle and the last row of 001's printed table."""
        self.assertEqual(CRC_TABLE[:8], (0x0000, 0xC0C1, 0xC181, 0x0140, 0xC301, 0x03C0, 0x0280, 0xC241))
        self.assertEqual(CRC_TABLE[128:136], (0xA001, 0x60C0, 0x6180, 0xA141, 0x6300, 0xA3C1, 0xA281, 0x6240))
        self.assertEqual(CRC_TABLE[248:], (0x8201, 0x42C0, 0x4380, 0x8341, 0x4100, 0x81C1, 0x8081, 0x4040))

    FRAMES = (
        "01 00 0d 60 b7 7e 05 6a 6e 69 6f 72 05 6a 6e 69 6f 72",
        "01 00 02 f0 20 7d 80",
        "01 00 13 be 61 0b 00 01 00 de 0d 24 53 65 72 69 61 6c 4e 75 6d 62 65 72",
        "01 00 0f 9e d2 0c 00 01 00 de 09 31 30 35 31 30 30 33 32 38",
        "01 00 2c 2c 04 0f 00 03 00 00 0b 44 65 76 69 63 65 2f 44 65 73 63 00 01 08 24 56 65 72 73 69 6f 6e "
        "00 02 0d 24 53 65 72 69 61 6c 4e 75 6d 62 65 72",
        "01 00 31 98 9a 0c 00 03 00 00 16 6a 72 33 31 30 20 44 65 76 65 6c 6f 70 6d 65 6e 74 20 55 6e 69 74 "
        "00 01 08 32 2e 30 31 2e 33 34 36 00 02 07 34 39 30 34 30 30 34",
    )

    def test_frames(self):
        """Their lengths and checksums are right, so that it is their types that are refused."""
        for text in self.FRAMES:
            frame = bytes.fromhex(text)
            self.assertEqual(frame, self.box.frame(frame[5:]))
            self.assertEqual(self.box.bytes_(0, 4096, frame + b"\x06"), (NOT_OFFERED, len(frame), 0, b""))
            damaged = frame[:-1] + bytes([frame[-1] ^ 1])
            self.assertEqual(self.box.bytes_(0, 4096, damaged), (BAD_CHECKSUM, len(frame), 0, b""))

    def test_frame_with_0xffff(self):
        frame = "01 00 0d ff ff 7e 05 6a 6e 69 6f 72 05 6a 6e 69 6f 72"
        self.assertEqual(self.feed(frame), (NOT_OFFERED, 18, 0, b""))

    def test_ids(self):
        """Messages, IDs."""
        self.assertEqual(INPUT_IDS, (0x01FF, 0x02FF, 0x03FF, 0x04FF, 0x05FF, 0x06FF, 0x07FF, 0x08FF))
        self.assertEqual(RELAY_IDS, (0x0101FF, 0x0102FF, 0x0103FF, 0x0104FF, 0x0105FF, 0x0106FF, 0x0107FF, 0x0108FF))


class BoxAndEvents(Case):
    """01, What the box holds, and Events."""

    def test_power_up(self):
        """What the box holds, 5."""
        zeros = " ".join(["0,0,0"] * 8), " ".join(["0,0"] * 16), " ".join(["0,0,0,0,0,0,0"] * 4)
        self.assertEqual(Box().state(), "C 0 I %s R %s N %s P 0" % zeros)

    def test_alarm_state(self):
        """What the box holds, 8."""
        for switch in (0, 1):
            self.power(switch=switch)
            self.assertEqual(self.read(INPUT_IDS[0])[:4], "0000")
            self.box.level(1, 1)
            self.assertEqual(self.read(INPUT_IDS[0])[:4], f"010{switch}")

    def test_setpoint_0_means_no_alarm(self):
        """What the box holds, 7: in both messages, at a count of 0 and above."""
        self.assertEqual(self.read(INPUT_IDS[0])[12:16], "0000")
        self.assertEqual(self.content("050001")[1][46:50], "0000")
        self.box.level(1, 1)
        self.box.pass_(1)
        self.assertEqual(self.read(INPUT_IDS[0]), "0100" + "00000001" + "0000" + "0000000000000001" + "00")
        self.assertEqual(self.content("050001")[1][34:50], "0100" + "00000001" + "0000")

    def test_usage_alarm_at_or_above(self):
        """What the box holds, 10."""
        self.power(usage_setpoint=10, relay_usage_setpoint=10)
        self.box.level(1, 1)
        self.answer("0A010001")
        for d, alarm in ((9, "00"), (1, "01"), (1, "01")):
            self.box.pass_(d)
            self.assertEqual(self.read(INPUT_IDS[0])[-2:], alarm)
            self.assertEqual(self.read(RELAY_IDS[0])[-2:], alarm)

    def test_level(self):
        """Events, 1; Answer numbers, 6: one that is refused leaves everything as it was."""
        before = self.box.state()
        for k, v in ((0, 1), (9, 1), (255, 0), (1, 2), (8, 255)):
            self.assertEqual(self.box.level(k, v), OUT_OF_RANGE)
        self.assertEqual(self.box.state(), before)
        self.assertEqual([self.box.level(8, v) for v in (1, 0, 1)], [SERVED] * 3)
        self.assertEqual(self.count(8), 2)
        self.assertEqual(self.due(), 1)

    def test_pass(self):
        """Events, 2: the clock and the usages of what is on or closed, and of nothing else."""
        self.box.level(2, 1)
        self.answer("0A010003")
        self.assertEqual(self.box.pass_(TOP32), SERVED)
        self.assertEqual(self.box.pass_(5), SERVED)
        grown = TOP32 + 5
        self.assertEqual(self.box.clock, grown)
        self.assertEqual([inp.usage for inp in self.box.inputs], [0, grown] + [0] * 6)
        self.assertEqual([relay.usage for relay in self.box.relays], [0, 0, grown] + [0] * 13)

    def test_clock_stops(self):
        """Events, 2: at its largest number."""
        self.assertEqual(self.content("07FFFFFFFFFFFFFFFE"), (SERVED, ""))
        for d, clock in ((0, TOP64 - 1), (1, TOP64), (1, TOP64), (TOP32, TOP64)):
            self.box.pass_(d)
            self.assertEqual(self.box.clock, clock)

    def test_usage_stops(self):
        """Events, 2: at its largest number."""
        self.box.level(1, 1)
        self.box.inputs[0].usage = self.box.relays[0].usage = TOP64 - 1
        self.answer("0A010001")
        self.box.pass_(2)
        self.assertEqual((self.box.inputs[0].usage, self.box.relays[0].usage), (TOP64, TOP64))

    def test_open_and_close(self):
        """Events, 3 and 4; Answer numbers, 1: the number before the open mark, that before the rank."""
        for rank, due in ((0, 0), (1, 1), (2, 1)):
            self.assertEqual(self.box.open(1, rank), SERVED)
            conn = self.box.connections[1]
            self.assertEqual((conn.open, conn.rank, conn.monitor, conn.due), (1, rank, 1, due))
            self.assertEqual(self.box.open(1, 2), ALREADY_OPEN)
            self.assertEqual(self.box.open(1, 3), ALREADY_OPEN)
            self.assertEqual(self.box.close(1), SERVED)
            self.assertEqual(self.box.close(1), NO_CONNECTION)
            self.assertEqual(self.box.open(1, 3), BAD_RANK)
            self.assertEqual(self.box.open(4, 3), NO_CONNECTION)
        self.assertEqual(self.box.close(4), NO_CONNECTION)

    def test_close_drops_the_half_read_message(self):
        """Events, 4: the other half then stands at a message start."""
        self.feed("010004FFFF0A01")
        self.box.close(0)
        self.box.open(0, 2)
        self.assertEqual(self.feed("0001"), (STRAY, 1, 0, b""))

    def test_collect(self):
        """Events, 5 and 7: one message for all that changed, and it shows what is so now."""
        self.box.level(1, 1)
        self.box.pass_(3)
        self.box.level(1, 0)
        self.box.pass_(4)
        answer, reply = self.box.collect(0, 4096)
        self.assertEqual(answer, SERVED)
        self.assertEqual(reply[5:], self.box.monitor_content())
        self.assertEqual(reply[22:30].hex(), "0000000000010000")
        self.assertEqual(reply[-1], 7)
        self.assertEqual(self.box.collect(0, 4096), (WAITING, b""))
        self.assertEqual(self.box.collect(1, 4096), (NO_CONNECTION, b""))
        self.assertEqual(self.box.collect(1, 0), (NO_CONNECTION, b""))

    def test_due_marks(self):
        """Events, 6: rank 0, Monitor off and a shut connection are left out, who sent the command is not."""
        for c, rank in ((1, 1), (2, 0), (3, 2)):
            self.box.open(c, rank)
            self.box.collect(c, 4096)
        self.answer("050004", 3)
        self.answer("0A010001")
        self.assertEqual([self.due(c) for c in range(4)], [1, 1, 0, 0])
        self.box.close(1)
        self.answer("0A020001")
        self.assertEqual([self.due(c) for c in range(4)], [1, 0, 0, 0])

    def test_close_and_then_open_makes_due(self):
        """Events, 8."""
        self.assertEqual(self.write((RELAY_IDS[0], "0101"), (RELAY_IDS[0], "0100")), 2)
        self.assertEqual((self.relays(), self.due()), ("00000000", 1))

    def test_no_change_no_mark(self):
        """Events, 6: neither what was so already nor a count, a usage or the clock."""
        for content in ("0A020001", "0A050001", "0A080001", "0A090001", "0A0AFF00", "0700000000000000AA"):
            self.assertEqual(self.content(content), (SERVED, ""))
        self.write((RELAY_IDS[0], "0100"), (RELAY_IDS[0], "02"), (INPUT_IDS[0], "0700000001"), (RELAY_IDS[0], "0102"))
        self.assertEqual(self.due(), 0)


class FrameRules(Case):
    """01, Frame, Answer numbers and Mistakes."""

    def test_starts(self):
        """Frame, 7: what each byte is at a message start."""
        for byte in range(256):
            answer = {0x01: WAITING, 0x06: KEEP_ALIVE}.get(byte, STRAY)
            self.box.open(1, 0)
            self.assertEqual(self.box.bytes_(1, 4096, bytes([byte, 6])), (answer, 2 if byte == 1 else 1, 0, b""))
            self.box.close(1)

    def test_nothing_begins_inside_a_frame(self):
        """Frame, 8; Mistakes, 4."""
        for byte in bytes.fromhex("010004FFFF0A0A06"):
            self.assertEqual(self.box.bytes_(0, 4096, bytes([byte])), (WAITING, 1, 0, b""))
        self.assertEqual(self.feed("06"), (SERVED, 1, 0, b""))
        self.assertEqual(self.relays(), "00000110")

    def test_checksum_at_the_last_byte(self):
        """Mistakes, 1: not before."""
        self.assertEqual(self.feed("0100031234050000"[:-2]), (WAITING, 7, 0, b""))
        self.assertEqual(self.feed("00"), (BAD_CHECKSUM, 1, 0, b""))

    def test_n_0(self):
        """Answer numbers, 1: the checksum of nothing, which is 0, is judged before the type."""
        self.assertEqual(self.feed("0100000001"), (BAD_CHECKSUM, 5, 0, b""))
        self.assertEqual(self.feed("0100000000"), (NOT_OFFERED, 5, 0, b""))

    def test_two_half_read_messages(self):
        """Mistakes, 1: each connection has its own."""
        self.box.open(1, 1)
        self.assertEqual(self.feed("010004FFFF0A01", 0), (WAITING, 7, 0, b""))
        self.assertEqual(self.feed("010004FFFF0A0A", 1), (WAITING, 7, 0, b""))
        self.assertEqual(self.feed("0002", 0), (SERVED, 2, 0, b""))
        self.assertEqual(self.feed("F0F0", 1), (SERVED, 2, 0, b""))
        self.assertEqual(self.relays(), "11110010")

    def test_taken_through_the_end(self):
        """Frame, 11."""
        self.assertEqual(self.feed("010004FFFF0A01000106"), (SERVED, 9, 0, b""))
        self.assertEqual(self.feed(""), (WAITING, 0, 0, b""))
        self.assertEqual(self.feed("", cap=4095), (SHORT_BUFFER, 0, 0, b""))
        self.assertEqual(self.feed("", 1, 0), (NO_CONNECTION, 0, 0, b""))

    def test_above_the_limit(self):
        """Frame, 12: nothing is said before the last byte, and rank and checksum do not matter."""
        self.box.open(1, 0)
        for c in (0, 1):
            self.assertEqual(self.feed("01FFFF0000", c), (WAITING, 5, 0, b""))
            self.assertEqual(self.feed("01" * 65534, c), (WAITING, 65534, 0, b""))
            self.assertEqual(self.feed("0606", c), (TOO_LONG, 1, 0, b""))
            self.assertEqual(self.feed("06", c), (KEEP_ALIVE, 1, 0, b""))

    def test_refused_clears_the_half_read_message(self):
        """Answer numbers, lines 7 to 11, and M-105, 4."""
        for message, answer, place in (("0100031234050000", BAD_CHECKSUM, 0), ("010001FFFF63", NOT_OFFERED, 0),
                                       ("010001FFFF05", ENDS_EARLY, 1), ("010003FFFF1A0100", LEFT_OVER, 2),
                                       ("010003FFFF150001", LIST_CUT, 3), ("010003FFFF050003", OUT_OF_RANGE, 0)):
            self.assertEqual(self.feed(message), (answer, len(message) // 2, place, b""))
            self.assertEqual(self.box.got(self.box.connections[0]), 0)

    def test_order_of_checks(self):
        """Answer numbers, 1."""
        self.box.open(1, 0)
        self.box.open(2, 1)
        self.assertEqual(self.feed("05", 4, 0), (NO_CONNECTION, 0, 0, b""))
        self.assertEqual(self.feed("05", 3, 0), (NO_CONNECTION, 0, 0, b""))
        self.assertEqual(self.feed("05", 0, 0), (SHORT_BUFFER, 0, 0, b""))
        self.assertEqual(self.answer("63", 1, sent=1), BAD_CHECKSUM)
        self.assertEqual(self.answer("63", 1), NOT_OFFERED)
        self.assertEqual(self.answer("05", 1), LOW_RANK)
        self.assertEqual(self.answer("07", 2), LOW_RANK)
        self.assertEqual(self.told("07", 0), (ENDS_EARLY, 1))
        self.assertEqual(self.told("1A", 0), (ENDS_EARLY, 1))
        self.assertEqual(self.told("1A0000", 0), (LEFT_OVER, 2))
        self.assertEqual(self.answer("1A00", 0), OUT_OF_RANGE)

    def test_types(self):
        """Six are offered; the others, Monitor among them (Messages, 1, 2), are not."""
        for kind in range(256):
            told = (ENDS_EARLY, 1) if kind in (5, 7, 10, 21, 23, 26) else (NOT_OFFERED, 0)
            self.assertEqual(self.told(f"{kind:02X}"), told, kind)


class Messages(Case):
    """01, Messages."""

    def test_request_0(self):
        """Messages, 5, 2."""
        self.box.pass_(258)
        self.assertEqual(self.content("050000"), (SERVED, "060000000000000102"))

    def test_request_1(self):
        """Messages, 5, 3, and 1, 1."""
        self.box.level(1, 1)
        self.answer("0A010008")
        self.box.pass_(1)
        answer, reply = self.content("05000100000000")
        self.assertEqual(len(reply) // 2, 97)
        self.assertEqual(reply, "01" + "0F" + b"jr310 3.10.0001".hex().upper() + "0100" + "00000001" + "0000"
                         + "0000000000000000" * 7 + "0000000000000001" + "0000000000000001")
        self.assertEqual(self.due(), 1)

    def test_request_2(self):
        """Messages, 5, 4."""
        self.box.level(1, 1)
        self.answer("0A010001")
        self.box.pass_(1)
        self.answer("0A080001")
        reply = self.content("050002")[1]
        self.assertEqual(reply, "08" + "00" * 64 + "0000000000000001" + "00" * 56 + "0000000000000001")
        self.assertEqual(len(reply) // 2, 137)

    def test_requests_4_and_5(self):
        """Messages, 5, 5."""
        self.box.level(1, 1)
        self.assertEqual(self.content("050005"), (SERVED, ""))
        self.assertEqual(self.due(), 1, "5 leaves the due mark")
        self.assertEqual(self.content("050004"), (SERVED, ""))
        self.assertEqual(self.due(), 0)
        self.box.level(1, 0)
        self.assertEqual(self.due(), 0)
        self.assertEqual(self.content("050005"), (SERVED, ""))
        self.assertEqual(self.due(), 0)
        self.box.level(1, 1)
        self.assertEqual(self.due(), 1)

    def test_other_requests(self):
        """Messages, 5, 6; Answer numbers, 2: a request that is there whole is judged before the length."""
        for content in ("050003", "050006", "050100", "05FFFF", "05000300", "0500030000000000"):
            self.assertEqual(self.answer(content), OUT_OF_RANGE, content)
        for content, told in (("05", (ENDS_EARLY, 1)), ("0500", (ENDS_EARLY, 2)), ("05000000", (ENDS_EARLY, 4)),
                              ("0500000000000000", (LEFT_OVER, 7))):
            self.assertEqual(self.told(content), told, content)

    def test_set_clock(self):
        """Messages, 7, 1; Mistakes, 3: no usage changes with it."""
        self.box.level(1, 1)
        self.box.pass_(5)
        self.assertEqual(self.content("07FFFFFFFFFFFFFFFF"), (SERVED, ""))
        self.assertEqual((self.box.clock, self.box.inputs[0].usage), (TOP64, 5))
        self.assertEqual(self.told("0700000000000000"), (ENDS_EARLY, 8))
        self.assertEqual(self.told("07000000000000000000"), (LEFT_OVER, 9))
        self.assertEqual(self.box.clock, TOP64)

    def test_commands(self):
        """Messages, 10, 2."""
        for content, relays in (("0A010003", "00000100"), ("0A010003", "00000100"), ("0A030003", "00000000"),
                                ("0A030003", "00000100"), ("0A020003", "00000000")):
            self.assertEqual(self.content(content), (SERVED, ""))
            self.assertEqual(self.relays(), relays)
        self.box.level(3, 1)
        self.answer("0A010003")
        self.box.pass_(9)
        for content, left in (("0A050003", (0, 9, 9)), ("0A080003", (0, 0, 9)), ("0A090003", (0, 0, 0))):
            self.assertEqual(self.content(content), (SERVED, ""))
            self.assertEqual((self.count(3), self.box.inputs[2].usage, self.box.relays[2].usage), left)

    def test_bad_commands(self):
        """Messages, 10, 4, of whose actions M-100 leaves the first; Answer numbers, 2: action, length, then channel."""
        for content in ("0A04", "0A00", "0A0B", "0AFF", "0A040001", "0A04000100000001", "0A010000", "0A010009", "0A010101",
                        "0A01FFFF"):
            self.assertEqual(self.answer(content), OUT_OF_RANGE, content)
        for content, told in (("0A", (ENDS_EARLY, 1)), ("0A01", (ENDS_EARLY, 2)), ("0A0100", (ENDS_EARLY, 3)),
                              ("0A0AFF", (ENDS_EARLY, 3)), ("0A01000100", (LEFT_OVER, 4)), ("0A010000FF", (LEFT_OVER, 4)),
                              ("0A0A00FF00FF", (LEFT_OVER, 4))):
            self.assertEqual(self.told(content), told, content)
        self.assertEqual(self.relays(), "00000000")

    def test_read_devices(self):
        """Messages, 21: in the order asked, unknown and repeated IDs too."""
        self.power(setpoint1=1, usage_setpoint=2, switch=1)
        self.write((INPUT_IDS[0], "0200000001"))
        self.box.level(1, 1)
        self.answer("0A010001")
        self.box.pass_(3)
        block = "0101" + "00000002" + "0100" + "0000000000000003" + "01"
        relay = "01" + "0000000000000003" + "00"
        self.assertEqual((len(block) // 2, len(relay) // 2), (17, 10))
        one, two, none = "00000000000001FF", "00000000000101FF", "00000000000009FF"
        self.assertEqual(self.content("150004" + two + none + one + two),
                         (SERVED, "160004" + two + "000A" + relay + none + "0000" + one + "0011" + block + two + "000A" + relay))
        self.assertEqual(self.content("150000"), (SERVED, "160000"))
        for content, told in (("15", (ENDS_EARLY, 1)), ("1500", (ENDS_EARLY, 2)), ("150001", (LIST_CUT, 3)),
                              ("150000" + one, (LEFT_OVER, 3)), ("150001" + one + "00", (LEFT_OVER, 11)),
                              ("150001" + one[2:], (LIST_CUT, 10)), ("150002" + one, (LIST_CUT, 11))):
            self.assertEqual(self.told(content), told, content)

    def test_longest_reply(self):
        """Frame, 15."""
        answer, taken, place, reply = self.box.bytes_(0, 4096, traces.framed(b"\x15\x00\x7F" + field(INPUT_IDS[0], 8) * 127))
        self.assertEqual((answer, taken, place, len(reply)), (SERVED, 5 + 3 + 127 * 8, 0, 3437))

    def test_write_devices(self):
        """Messages, 23, 3 and 6; Mistakes, 2 and 5: a bad entry neither undoes the ones before it nor stops the next."""
        self.assertEqual(self.write((INPUT_IDS[0], "0280000000"), (RELAY_IDS[1], "0101"), (INPUT_IDS[1], "0800000001"),
                                    (INPUT_IDS[2], "0200000005")), 3)
        self.assertEqual([self.count(k) for k in (1, 2, 3)], [0x80000000, 0, 5])
        self.assertEqual(self.relays(), "00000010")
        self.assertEqual(self.content("170000"), (SERVED, "180000"))

    def test_write_must_fit(self):
        """Messages, 23, 2: where the last entry does not fit, the first is not written either."""
        entry = "00000000000101FF00020101"
        for content, told in (("17", (ENDS_EARLY, 1)), ("1700", (ENDS_EARLY, 2)), ("170001", (LIST_CUT, 3)),
                              ("170000" + entry, (LEFT_OVER, 3)), ("170001" + entry + "00", (LEFT_OVER, 15)),
                              ("170002" + entry, (LIST_CUT, 15)), ("170001" + entry[:-2], (LIST_CUT, 14)),
                              ("170002" + entry + entry[:-2], (LIST_CUT, 26)),
                              ("170002" + entry + "00000000000101FFFFFF0101", (LIST_CUT, 27))):
            self.assertEqual(self.told(content), told, content)
        self.assertEqual(self.relays(), "00000000")
        self.assertEqual(self.answer("170001" + entry), SERVED)
        self.assertEqual(self.relays(), "00000001")

    def test_input_entries(self):
        """Messages, 23, 3 and 4."""
        for block, written in (("", 0), ("00", 1), ("01", 1), ("02", 0), ("03", 0), ("04", 1), ("05", 1), ("06", 0), ("07", 0),
                               ("08", 0), ("80", 0), ("FF", 0), ("0200", 0), ("020000", 0), ("02000000", 0), ("0000000001", 1),
                               ("0100000001", 1), ("0700000001", 1), ("0800000001", 0), ("0A00000001", 0), ("020000000100", 0)):
            self.assertEqual(self.write((INPUT_IDS[4], block)), written, block)

    def test_input_flags(self):
        """Messages, 23, 4."""
        for flags, left in (("00", (9, 9)), ("01", (0, 9)), ("02", (5, 9)), ("03", (5, 9)), ("04", (9, 0)), ("05", (0, 0)),
                            ("06", (5, 0)), ("07", (5, 0)), ("0C", (9, 9))):
            inp = self.box.inputs[4]
            inp.count = inp.usage = 9
            self.write((INPUT_IDS[4], flags + "00000005"))
            self.assertEqual((inp.count, inp.usage), left, flags)

    def test_relay_entries(self):
        """Messages, 23, 3 and 5.  A state byte whose flag is not set is read and not used."""
        relay = self.box.relays[7]
        for block, written, left in (("", 0, (0, 9)), ("00", 1, (0, 9)), ("01", 0, (0, 9)), ("02", 1, (0, 0)), ("03", 0, (0, 9)),
                                     ("0002", 1, (0, 9)), ("0001", 1, (0, 9)), ("0101", 1, (1, 9)), ("0102", 0, (0, 9)),
                                     ("01FF", 0, (0, 9)), ("02FF", 1, (0, 0)), ("0301", 1, (1, 0)), ("0302", 0, (0, 9)),
                                     ("04", 0, (0, 9)), ("0501", 0, (0, 9)), ("8101", 0, (0, 9)), ("010100", 0, (0, 9))):
            relay.state, relay.usage = 0, 9
            self.assertEqual(self.write((RELAY_IDS[7], block)), written, block)
            self.assertEqual((relay.state, relay.usage), left, block)

    def test_enumerate_devices(self):
        """Messages, 26."""
        ids = "".join(f"{0x01FF + 0x100 * k:016X}" for k in range(8)) + "".join(f"{0x0101FF + 0x100 * k:016X}" for k in range(8))
        self.assertEqual(self.content("1A01"), (SERVED, "1B010010" + ids))
        self.assertEqual(self.content("1A02"), (SERVED, "1B020000"))
        self.assertEqual(self.content("1A03"), (SERVED, "1B030010" + ids))
        for content in ("1A00", "1A04", "1A81", "1AFF"):
            self.assertEqual(self.answer(content), OUT_OF_RANGE)


class Pulses(Case):
    """02, M-100.  Layouts: 001, "Command Message"."""

    def pulse(self, channel, duration, c=0):
        """Action 6."""
        return self.answer(f"0A06{channel:04X}{duration:08X}", c)

    def block(self, mask, states, duration, c=0):
        """Action 7."""
        return self.answer(f"0A07{mask:02X}{states:02X}{duration:08X}", c)

    def fill(self):
        """31 pulses of relay 1, of one ms each."""
        self.assertEqual([self.pulse(1, 1) for _ in range(31)], [SERVED] * 31)

    def usages(self, *channels):
        return [self.box.relays[k - 1].usage for k in channels]

    def collected(self):
        self.box.collect(0, 4096)

    def queue(self):
        return self.box.state().split(" P ")[1]

    # -- one pulse ---------------------------------------------------------------------------------

    def test_five_ms_are_five_of_usage(self):
        """In the fifth ms usage grows while the relay is still closed; only then does the pulse end."""
        self.assertEqual(self.content("0A06000100000005"), (SERVED, ""))
        self.assertEqual((self.relays(), self.due(), self.usages(1)), ("00000001", 1, [0]))
        self.collected()
        self.box.pass_(4)
        self.assertEqual((self.relays(), self.due(), self.usages(1)), ("00000001", 0, [4]))
        self.box.pass_(1)
        self.assertEqual((self.relays(), self.due(), self.usages(1)), ("00000000", 1, [5]))
        self.box.pass_(10)
        self.assertEqual((self.relays(), self.usages(1)), ("00000000", [5]))

    def test_duration_is_big_endian_and_four_bytes_wide(self):
        for duration in (0x100, 0x01000000, 0x80000000, TOP32):
            self.assertEqual(self.pulse(1, duration), SERVED)
            self.box.pass_(duration - 1)
            self.assertEqual(self.relays(), "00000001")
            self.box.pass_(1)
            self.assertEqual(self.relays(), "00000000")
        self.assertEqual(self.usages(1), [0x100 + 0x01000000 + 0x80000000 + TOP32])

    def test_lowest_bit_is_channel_1(self):
        """Mask 10000001: relay 8 closes, relay 1 opens; of the states no other bit counts."""
        self.answer("0A0A0302")
        self.assertEqual(self.relays(), "00000010")
        self.answer("0A010001")
        self.assertEqual(self.block(0b10000001, 0b11111110, 3), SERVED)
        self.assertEqual(self.relays(), "10000010")
        self.box.pass_(3)
        self.assertEqual(self.relays(), "00000011")

    def test_pulse_of_channel_8(self):
        self.assertEqual(self.pulse(8, 1), SERVED)
        self.assertEqual(self.relays(), "10000000")

    def test_a_closed_relay_pulsed_stays_closed(self):
        """Neither its beginning nor its end changes anything, so neither makes Monitor due."""
        self.answer("0A010001")
        self.collected()
        self.pulse(1, 2)
        self.assertEqual((self.relays(), self.due()), ("00000001", 0))
        self.box.pass_(2)
        self.assertEqual((self.relays(), self.due(), self.queue()), ("00000001", 0, "0"))

    def test_d_0(self):
        self.pulse(1, 1)
        self.pulse(2, 1)
        before = self.box.state()
        self.assertEqual(self.box.pass_(0), SERVED)
        self.assertEqual(self.box.state(), before)

    # -- one behind the other ----------------------------------------------------------------------

    def test_back_to_back(self):
        """Relay 1 for 2 ms, then relay 2 for 3: the second begins in the ms in which the first ends, and its usage
        grows from the next ms on."""
        self.pulse(1, 2)
        self.pulse(2, 3)
        for d, relays, usages in ((0, "00000001", [0, 0]), (1, "00000001", [1, 0]), (1, "00000010", [2, 0]),
                                  (2, "00000010", [2, 2]), (1, "00000000", [2, 3]), (9, "00000000", [2, 3])):
            self.box.pass_(d)
            self.assertEqual((self.relays(), self.usages(1, 2)), (relays, usages))

    def test_back_to_back_in_one_pass(self):
        for d, relays, usages in ((4, "00000010", [2, 2]), (5, "00000000", [2, 3]), (TOP32, "00000000", [2, 3])):
            self.power()
            self.pulse(1, 2)
            self.pulse(2, 3)
            self.box.pass_(d)
            self.assertEqual((self.relays(), self.usages(1, 2), self.box.clock), (relays, usages, d))

    def test_end_and_beginning_that_cancel_still_mark(self):
        """Relay 1 opens and closes within the ms: two changes, nothing to be seen but the mark."""
        self.pulse(1, 2)
        self.pulse(1, 2)
        self.collected()
        self.box.pass_(1)
        self.assertEqual((self.relays(), self.due()), ("00000001", 0))
        self.box.pass_(1)
        self.assertEqual((self.relays(), self.due(), self.usages(1)), ("00000001", 1, [2]))
        self.box.pass_(2)
        self.assertEqual((self.relays(), self.usages(1)), ("00000000", [4]))

    def test_marks_within_a_longer_pass(self):
        """The same in one pass of 3 ms, which begins and ends with relay 1 closed."""
        self.pulse(1, 2)
        self.pulse(1, 2)
        self.collected()
        self.box.pass_(3)
        self.assertEqual((self.relays(), self.due()), ("00000001", 1))

    def test_whom_a_pulse_marks(self):
        """As every change: open, rank 1 or 2, Monitor on."""
        for c, rank in ((1, 1), (2, 0), (3, 2)):
            self.box.open(c, rank)
        self.pulse(1, 5)
        self.answer("050004", 3)
        for c in range(4):
            self.box.collect(c, 4096)
        self.box.pass_(5)
        self.assertEqual([self.due(c) for c in range(4)], [1, 1, 0, 0])

    def test_remembered_at_the_beginning(self):
        """Relay 1 is open when its pulse is accepted and closed when it begins: closed it is after its end."""
        self.pulse(2, 3)
        self.block(0b00000001, 0, 2)
        self.answer("0A010001")
        self.box.pass_(3)
        self.assertEqual((self.relays(), self.queue()), ("00000000", "1 1,0,2 was 1"))
        self.box.pass_(2)
        self.assertEqual(self.relays(), "00000001")

    def test_first_come_first_run(self):
        for k in (3, 1, 2):
            self.pulse(k, 10)
        seen = []
        for _ in range(3):
            seen.append(self.relays())
            self.box.pass_(10)
        self.assertEqual(seen, ["00000100", "00000001", "00000010"])

    def test_many_end_in_one_pass(self):
        """31 pulses by turns of relays 1 and 2, of 1 to 31 ms, 496 ms in all: relay 1 has the odd durations, 256 ms."""
        for n in range(1, 32):
            self.assertEqual(self.pulse(1 if n % 2 else 2, n), SERVED)
        self.box.pass_(495)
        self.assertEqual((self.relays(), self.usages(1, 2), self.queue()), ("00000001", [255, 240], "1 1,1,1 was 0"))
        self.box.pass_(1)
        self.assertEqual((self.relays(), self.usages(1, 2), self.queue()), ("00000000", [256, 240], "0"))

    # -- meanwhile ---------------------------------------------------------------------------------

    def test_what_was_done_meanwhile_is_undone(self):
        """Relay 1 is open and pulsed open, closed by a command, a block or a write entry after 2 ms, and open again at the
        end after 5: 3 ms of usage.  The end is then a change."""
        for closing in ("0A010001", "0A030001", "0A0A0101", "17000100000000000101FF00020101"):
            self.power()
            self.block(0b00000001, 0, 5)
            self.box.pass_(2)
            self.assertEqual(self.answer(closing), SERVED)
            self.assertEqual((self.relays(), self.queue()), ("00000001", "1 1,0,3 was 0"))
            self.collected()
            self.box.pass_(2)
            self.assertEqual((self.relays(), self.due()), ("00000001", 0))
            self.box.pass_(1)
            self.assertEqual((self.relays(), self.due(), self.usages(1)), ("00000000", 1, [3]))

    def test_a_pulse_opened_by_a_command_runs_on(self):
        """Its end finds relay 1 open already, which is no change; it comes after 5 ms, not before."""
        self.pulse(1, 5)
        self.pulse(2, 1)
        self.answer("0A020001")
        self.collected()
        self.box.pass_(4)
        self.assertEqual((self.relays(), self.due(), self.usages(1)), ("00000000", 0, [0]))
        self.box.pass_(1)
        self.assertEqual((self.relays(), self.due()), ("00000010", 1))

    def test_an_unmasked_relay_is_not_touched(self):
        """Relays 2 and 3 are changed meanwhile and stay so, though relay 2's bit stands in the states."""
        self.answer("0A010003")
        self.block(0b00000001, 0b00000011, 5)
        self.assertEqual(self.relays(), "00000101")
        self.answer("0A0A0602")
        self.assertEqual(self.relays(), "00000011")
        self.box.pass_(5)
        self.assertEqual(self.relays(), "00000010")

    def test_a_clock_setting_changes_nothing_of_it(self):
        """Back, forth and to the top, where the clock stands still: the pulse lasts its 5 ms."""
        for clock in (0, 1000000, TOP64):
            self.power()
            self.box.pass_(100)
            self.pulse(1, 5)
            self.box.pass_(2)
            self.answer(f"07{clock:016X}")
            self.box.pass_(2)
            self.assertEqual((self.relays(), self.queue()), ("00000001", "1 1,1,1 was 0"))
            self.box.pass_(1)
            self.assertEqual((self.relays(), self.usages(1)), ("00000000", [5]))

    def test_closing_the_connection_changes_nothing_of_it(self):
        self.box.open(1, 1)
        self.pulse(1, 5, 1)
        self.pulse(2, 5, 1)
        self.box.close(1)
        self.assertEqual(self.queue(), "2 1,1,5 2,2,5 was 0")
        self.box.pass_(5)
        self.assertEqual(self.relays(), "00000010")
        self.box.pass_(5)
        self.assertEqual((self.relays(), self.usages(1, 2)), ("00000000", [5, 5]))

    def test_numbers_at_their_top(self):
        """Clock and usage stop at their largest number; the pulse ends all the same."""
        self.answer("07FFFFFFFFFFFFFFFE")
        self.box.relays[0].usage = TOP64 - 2
        self.pulse(1, 3)
        self.pulse(2, 4)
        for d, relays, usages in ((2, "00000001", [TOP64, 0]), (1, "00000010", [TOP64, 0]), (3, "00000010", [TOP64, 3]),
                                  (1, "00000000", [TOP64, 4])):
            self.box.pass_(d)
            self.assertEqual((self.relays(), self.usages(1, 2), self.box.clock), (relays, usages, TOP64))

    # -- the queue ---------------------------------------------------------------------------------

    def test_31_accepted_the_32nd_not(self):
        """The running one is one of the 31.  Each end makes one place free, and one only."""
        self.fill()
        before = self.box.state()
        self.assertEqual((self.pulse(1, 1), self.block(0, 0, 1)), (QUEUE_FULL, QUEUE_FULL))
        self.assertEqual(self.box.state(), before)
        self.box.pass_(1)
        self.assertEqual([self.pulse(1, 1) for _ in range(2)], [SERVED, QUEUE_FULL])
        self.box.pass_(3)
        self.assertEqual([self.pulse(1, 1) for _ in range(4)], [SERVED] * 3 + [QUEUE_FULL])

    def test_places_are_used_again_and_again(self):
        """100 pulses one after the other, and a full queue all through: each adds its ms of usage."""
        self.fill()
        for _ in range(100):
            self.box.pass_(1)
            self.assertEqual((self.pulse(1, 1), self.pulse(1, 1)), (SERVED, QUEUE_FULL))
        self.box.pass_(31)
        self.assertEqual((self.usages(1), self.queue()), ([131], "0"))

    def test_mask_0_holds_the_queue_for_its_time(self):
        """It changes nothing and marks nobody, but has its place and its 4 ms."""
        self.assertEqual(self.content("0A0700FF00000004"), (SERVED, ""))
        self.pulse(1, 2)
        self.assertEqual((self.relays(), self.due(), self.queue()), ("00000000", 0, "2 0,0,4 1,1,2 was 0"))
        self.box.pass_(3)
        self.assertEqual((self.relays(), self.due()), ("00000000", 0))
        self.box.pass_(1)
        self.assertEqual((self.relays(), self.due(), self.queue()), ("00000001", 1, "1 1,1,2 was 0"))

    def test_pulses_of_mask_0_fill_it_too(self):
        self.assertEqual([self.block(0, 0, 1) for _ in range(32)], [SERVED] * 31 + [QUEUE_FULL])

    # -- refusals ----------------------------------------------------------------------------------

    def test_order_of_refusals(self):
        """The action, the length, the channel, the duration, then the queue: with room in it and without."""
        refused = ((OUT_OF_RANGE, ("0A04", "0A0400010000000100", "0A06000900000001", "0A06000000000001", "0A06010100000001",
                                   "0A06FFFF00000001", "0A06000100000000", "0A06000900000000", "0A07FFFF00000000",
                                   "0A07000000000000")),
                   (ENDS_EARLY, ("0A06", "0A07", "0A060001", "0A060001000000", "0A060009000000", "0A07FFFF000000")),
                   (LEFT_OVER, ("0A0600010000000000", "0A0600090000000100", "0A07FFFF0000000100", "0A0700FF00FF00000001")))
        for fill, right in ((False, SERVED), (True, QUEUE_FULL)):
            if fill:
                self.power()
                self.fill()
            for content, answer in [(content, answer) for answer, contents in refused for content in contents]:
                place = {ENDS_EARLY: len(content) // 2, LEFT_OVER: 8}.get(answer, 0)
                self.assertEqual(self.told(content), (answer, place), content)
            self.assertEqual((self.pulse(1, 1), self.block(0xFF, 0, 1)), (right, right))

    def test_rank(self):
        """Messages, 1: users and administrators alone; judged before all of these."""
        self.box.open(1, 0)
        self.box.open(2, 1)
        for content in ("0A06000100000001", "0A06000900000000", "0A06", "0A07FFFF00000001"):
            self.assertEqual(self.answer(content, 1), LOW_RANK)
        self.assertEqual(self.pulse(1, 1, 2), SERVED)

    # -- the lent row ------------------------------------------------------------------------------

    def test_rows_for_time(self):
        """M-100, 5: refused under 31 records, and no ms has passed, d = 0 included."""
        self.pulse(1, 5)
        before = self.box.state()
        for row in (0, 1, 30):
            self.assertEqual((self.box.pass_(1, row), self.box.pass_(0, row), self.box.pass_by_ms(1, row)),
                             (SHORT_BUFFER,) * 3)
        self.assertEqual(self.box.state(), before)
        for row in (31, 32, 64):
            self.assertEqual(self.box.pass_(1, row), SERVED)
        self.assertEqual(self.usages(1), [3])

    def test_rows_for_bytes(self):
        """M-100, 5: behind the connection; of a piece that finds the row short no byte is taken, whatever it holds."""
        message = bytes.fromhex("010008FFFF0A06000100000005")
        before = self.box.state()
        for row in (0, 1, 30):
            for piece in (message, message[:3], b"\x06", b"\x00", b""):
                self.assertEqual(self.box.bytes_(0, 4096, piece, row), (SHORT_BUFFER, 0, 0, b""))
                self.assertEqual(self.box.bytes_(0, 4095, piece, row), (SHORT_BUFFER, 0, 0, b""))
                self.assertEqual(self.box.bytes_(1, 4096, piece, row), (NO_CONNECTION, 0, 0, b""))
                self.assertEqual(self.box.bytes_(4, 0, piece, row), (NO_CONNECTION, 0, 0, b""))
        self.assertEqual(self.box.state(), before)
        for row in (31, 32, 64):
            self.assertEqual(self.box.bytes_(0, 4095, message, row), (SHORT_BUFFER, 0, 0, b""))
            self.assertEqual(self.box.bytes_(0, 4096, message, row), (SERVED, 13, 0, b""))
        self.assertEqual(self.queue(), "3 1,1,5 1,1,5 1,1,5 was 0")

    def test_rows_in_replay_lines(self):
        for line, printed in (("pass 1 30", "4"), ("pass 1 31", "1"), ("pass 1 64", "1"), ("pass 1 65", "?"),
                              ("bytes 0 4096 06 30", "4 0 0 0 -"), ("bytes 1 4096 06 30", "3 0 0 0 -"),
                              ("bytes 0 4096 06 31", "2 1 0 0 -"), ("bytes 0 4096 06 32", "2 1 0 0 -"),
                              ("bytes 0 4096 06 64", "2 1 0 0 -"), ("bytes 0 4096 06 65", "?"), ("bytes 0 4096 - 0", "4 0 0 0 -")):
            self.assertEqual(self.box.line(line), printed, line)
        self.assertEqual(self.box.clock, 2)

    def test_state_line(self):
        """Relay 2 is closed.  Running: mask 3, states 1 of 11111101, 4 of 5 ms left; before it relay 2 of its two was closed.
        Waiting: mask 128, states 0, 7 ms."""
        self.answer("0A010002")
        self.assertEqual(self.queue(), "0")
        self.block(3, 0b11111101, 5)
        self.box.pass_(1)
        self.block(128, 0, 7)
        self.assertEqual(self.queue(), "2 3,1,4 128,0,7 was 2")
        self.box.power()
        self.assertEqual(self.queue(), "0")


class SecondDeck(Case):
    """02, M-102.  Layout of type 2: 000, "External Monitor Packet"."""

    PRESENT = {(): (), (1,): range(9, 13), (2,): range(13, 17), (1, 2): range(9, 17)}

    def modules(self, *places):
        """Just these places filled."""
        for place in (1, 2):
            self.assertEqual(self.box.fill(place) if place in places else self.box.empty(place), SERVED)

    def work(self, action, channel, c=0):
        return self.answer(f"0A{action:02X}{channel:04X}", c)

    def pulse(self, channel, duration):
        return self.answer(f"0A06{channel:04X}{duration:08X}")

    def deck(self):
        """Relay 9 to relay 16, in the order in which type 2 has them."""
        return "".join(str(relay.state) for relay in self.box.relays[8:])

    def queue(self):
        return self.box.state().split(" P ")[1]

    def marks(self, c=0):
        return self.due(c), self.due2(c)

    def nothing_due(self, *connections):
        for c in connections or range(4):
            self.box.collect(c, 4096)

    def contents(self, reply):
        """Of frames that stand one behind the other the contents, in hexadecimal."""
        found = []
        while reply:
            content = reply[5:5 + number(reply[1:3])]
            self.assertEqual(reply[:5], b"\x01" + field(len(content), 2) + field(crc16(content), 2), "Frame, 6")
            found.append(content.hex().upper())
            reply = reply[5 + len(content):]
        return found

    def collected(self, c=0):
        answer, reply = self.box.collect(c, 4096)
        self.assertEqual(answer, SERVED if reply else WAITING)
        return self.contents(reply)

    def asked(self, c=0):
        """What request 1 is answered."""
        answer, taken, place, reply = self.box.bytes_(c, 4096, traces.framed(b"\x05\x00\x01"))
        self.assertEqual((answer, taken, place), (SERVED, 8, 0))
        return self.contents(reply)

    def types(self, contents):
        return [content[:2] for content in contents]

    # -- places ------------------------------------------------------------------------------------

    def test_which_relays_each_place_has(self):
        """M-102, 1: 9 to 12 and 13 to 16.  Relays 1 to 8 are there always; 0 and 17 never are."""
        for places, present in self.PRESENT.items():
            self.modules(*places)
            for channel in (*range(19), 255, 256, 256 + 9, 0x0900, 0xFFFF):
                there = 1 <= channel <= 8 or channel in present
                self.assertEqual(self.work(3, channel), SERVED if there else OUT_OF_RANGE, (places, channel))

    def test_both_are_empty_at_power_up(self):
        self.assertEqual([self.work(1, channel) for channel in range(9, 17)], [OUT_OF_RANGE] * 8)
        self.modules(1, 2)
        self.work(1, 9)
        self.power()
        self.assertEqual((self.work(2, 9), self.work(2, 16), self.deck()), (OUT_OF_RANGE, OUT_OF_RANGE, "00000000"))

    def test_again_changes_nothing(self):
        """M-102, 1: answered 1 like the first time, with relays closed, pulses standing and messages due."""
        self.assertEqual((self.box.empty(1), self.box.empty(2)), (SERVED, SERVED))
        self.box.fill(1)
        self.work(1, 9)
        self.pulse(9, 5)
        self.pulse(12, 5)
        before = self.box.state()
        for _ in range(2):
            self.assertEqual((self.box.fill(1), self.box.empty(2)), (SERVED, SERVED))
            self.assertEqual(self.box.state(), before)
        self.assertEqual(self.marks(), (0, 1))

    def test_other_places(self):
        """M-102, 12: 11, and nothing is changed, whatever is filled."""
        for places in self.PRESENT:
            self.modules(*places)
            before = self.box.state()
            for place in (0, *range(3, 256)):
                self.assertEqual((self.box.fill(place), self.box.empty(place)), (OUT_OF_RANGE, OUT_OF_RANGE), place)
            self.assertEqual((self.box.state(), self.box.filled), (before, set(places)))

    def test_rows(self):
        """M-102, 12: 4 under 31 records, before the place is looked at; also where nothing would be done."""
        for places in self.PRESENT:
            self.modules(*places)
            for row in (0, 1, 30):
                for place in (0, 1, 2, 3, 255):
                    self.assertEqual((self.box.fill(place, row), self.box.empty(place, row)), (SHORT_BUFFER,) * 2, (place, row))
                    self.assertEqual(self.box.filled, set(places))
        for row in (31, 32, 64):
            self.assertEqual((self.box.fill(1, row), self.box.fill(3, row)), (SERVED, OUT_OF_RANGE))
            self.assertEqual((self.box.empty(1, row), self.box.empty(0, row)), (SERVED, OUT_OF_RANGE))

    def test_at_any_time(self):
        """M-102, 1: with every connection shut, and in the middle of a message, which is judged by what is there at its end."""
        self.box.close(0)
        self.assertEqual((self.box.fill(1), self.box.empty(1), self.box.fill(1)), (SERVED, SERVED, SERVED))
        self.box.open(0, 2)
        self.assertEqual(self.feed("010004FFFF0A0300"), (WAITING, 8, 0, b""))
        self.box.empty(1)
        self.assertEqual(self.feed("09"), (OUT_OF_RANGE, 1, 0, b""))
        self.assertEqual(self.feed("010004FFFF0A0300"), (WAITING, 8, 0, b""))
        self.box.fill(1)
        self.assertEqual(self.feed("09"), (SERVED, 1, 0, b""))
        self.assertEqual(self.deck(), "10000000")

    # -- actions -----------------------------------------------------------------------------------

    def test_close_open_and_toggle(self):
        """M-102, 2: of one relay each, and of no other."""
        self.modules(1, 2)
        for action, channel, deck in ((1, 9, "10000000"), (1, 9, "10000000"), (3, 9, "00000000"), (3, 12, "00010000"),
                                      (2, 12, "00000000"), (2, 12, "00000000"), (1, 13, "00001000"), (3, 16, "00001001"),
                                      (2, 13, "00000001"), (3, 16, "00000000")):
            self.assertEqual(self.content(f"0A{action:02X}{channel:04X}"), (SERVED, ""))
            self.assertEqual((self.deck(), self.relays()), (deck, "00000000"), (action, channel))

    def test_actions_that_keep_to_8(self):
        """M-102, 3, and 2: neither inputs nor usages have more than eight, whatever is filled."""
        self.modules(1, 2)
        before = self.box.state()
        for action in (5, 8, 9):
            self.assertEqual([self.work(action, channel) for channel in range(9, 18)], [OUT_OF_RANGE] * 9)
            self.assertEqual((self.work(action, 8), self.work(action, 0)), (SERVED, OUT_OF_RANGE))
        self.assertEqual(self.box.state(), before)

    def test_masks_of_one_byte(self):
        """M-102, 2: the actions of a block have one byte for eight relays still."""
        self.modules(1, 2)
        self.work(1, 10)
        for content in ("0A0AFFFF", "0A0AFF00", "0A07FFFF00000003"):
            self.assertEqual(self.answer(content), SERVED)
            self.assertEqual(self.deck(), "01000000")
        self.box.pass_(3)
        self.assertEqual((self.relays(), self.deck()), ("00000000", "01000000"))
        self.assertEqual(self.told("0A0AFFFFFFFF"), (LEFT_OVER, 4), "000's layout for sixteen")
        self.assertEqual(self.told("0A07FFFFFFFF00000003"), (LEFT_OVER, 8), "000's layout for sixteen")

    def test_channel_without_its_module(self):
        """M-102, 12: refused, nothing is done: one module has nothing to do with the other's channels."""
        for places, absent in (((), range(9, 17)), ((1,), range(13, 17)), ((2,), range(9, 13))):
            self.modules(*places)
            before = self.box.state()
            for channel in absent:
                self.assertEqual([self.work(action, channel) for action in (1, 2, 3)], [OUT_OF_RANGE] * 3)
                self.assertEqual((self.pulse(channel, 1), self.pulse(channel, 0)), (OUT_OF_RANGE, OUT_OF_RANGE))
            self.assertEqual(self.box.state(), before)

    def test_order_of_refusals(self):
        """M-102, 12, and M-100, 7: the action, the length, the channel with its module, the duration, then the queue."""
        self.box.fill(1)
        for content, told in (("0A04000D", (OUT_OF_RANGE, 0)), ("0A01000D00", (LEFT_OVER, 4)), ("0A0100", (ENDS_EARLY, 3)),
                              ("0A06000D000000", (ENDS_EARLY, 7)), ("0A06000D0000000100", (LEFT_OVER, 8)),
                              ("0A06000D00000001", (OUT_OF_RANGE, 0)), ("0A06000900000000", (OUT_OF_RANGE, 0))):
            self.assertEqual(self.told(content), told, content)
        self.assertEqual([self.pulse(9, 1) for _ in range(32)], [SERVED] * 31 + [QUEUE_FULL])
        self.assertEqual((self.pulse(9, 1), self.pulse(13, 1), self.pulse(17, 1)), (QUEUE_FULL, OUT_OF_RANGE, OUT_OF_RANGE))
        self.box.fill(2)
        self.assertEqual((self.pulse(13, 1), self.pulse(17, 1), self.pulse(13, 0)), (QUEUE_FULL, OUT_OF_RANGE, OUT_OF_RANGE))

    def test_no_usage(self):
        """Events, 2, of relays 1 to 8; type 8 has sixteen usages as before."""
        self.modules(1, 2)
        for channel in (8, 9, 16):
            self.work(1, channel)
        self.box.pass_(7)
        self.assertEqual([relay.usage for relay in self.box.relays], [0] * 7 + [7] + [0] * 8)
        reply = self.content("050002")[1]
        self.assertEqual(reply, "08" + "00" * 120 + "0000000000000007" + "0000000000000007")

    # -- type 2 ------------------------------------------------------------------------------------

    def test_what_it_says(self):
        """M-102, 5: no inputs, 4 or 8 outputs, those that are present from the lowest on, the clock."""
        self.modules(1, 2)
        for channel in (2, 10, 13, 16):
            self.work(1, channel)
        self.box.pass_(258)
        for places, states in (((1, 2), "0001000001000001"), ((2,), "01000001")):
            self.modules(*places)
            content = "0200" + f"{len(states) // 2:02X}" + states + "0000000000000102"
            self.assertEqual(self.asked()[1:], [content])
            self.assertEqual(len(content) // 2, 19 if len(places) == 2 else 15)
        self.modules(1)
        self.work(1, 9)
        self.assertEqual(self.asked()[1:], ["020004" + "01000000" + "0000000000000102"], "relay 10 went with its module")

    def test_type_1_is_as_it_was(self):
        """M-102, 6: 97 bytes, relays 1 to 8."""
        before = self.asked()[0]
        self.modules(1, 2)
        self.work(1, 9)
        self.work(1, 16)
        self.assertEqual(self.asked()[0], before)
        self.assertEqual(len(before) // 2, 97)

    def test_it_only_goes_out(self):
        """Like type 1: 8, at every rank and whatever is filled."""
        self.box.open(1, 0)
        for places in self.PRESENT:
            self.modules(*places)
            for content in ("02", "020000", "020004" + "00" * 12):
                self.assertEqual((self.told(content), self.told(content, 1)), ((NOT_OFFERED, 0), (NOT_OFFERED, 0)))

    # -- marks -------------------------------------------------------------------------------------

    def test_openings(self):
        """M-102, 4: as type 1, where a module is present."""
        for places in self.PRESENT:
            self.modules(*places)
            for rank in range(3):
                self.box.close(1)
                self.box.open(1, rank)
                self.assertEqual(self.marks(1), (int(rank > 0), int(rank > 0 and places != ())), (places, rank))
                self.assertEqual(self.marks(0), (0, 0))
            self.assertEqual((self.box.open(1, 2), self.box.open(2, 3), self.box.open(4, 2)), (ALREADY_OPEN, BAD_RANK, NO_CONNECTION))

    def test_changes(self):
        """M-102, 4 and 6: a level or a relay from 1 to 8 marks both, one from 9 on type 2 alone; without a module there is no type 2."""
        for places, present in self.PRESENT.items():
            self.modules(*places)
            second = int(places != ())
            for k in (1, 8):
                for level in (1, 0):
                    self.nothing_due()
                    self.box.level(k, level)
                    self.assertEqual(self.marks(), (1, second), (places, k))
            for channel in (1, 8, *present):
                for action in (1, 3, 3, 2):
                    self.nothing_due()
                    self.work(action, channel)
                    self.assertEqual(self.marks(), (int(channel <= 8), second), (places, channel, action))
            self.nothing_due()
            self.answer("0A0A8080")
            self.assertEqual(self.marks(), (1, second))
            self.nothing_due()
            self.write((RELAY_IDS[7], "0100"))
            self.assertEqual(self.marks(), (1, second))

    def test_no_change_no_mark(self):
        """M-102, 4: what is so already, and what is neither level nor relay."""
        self.modules(1, 2)
        self.work(1, 9)
        self.box.level(1, 1)
        self.nothing_due()
        for content in ("0A010009", "0A020010", "0A020001", "0A050001", "0A080001", "0A090001", "0A0AFF00", "0A0A00FF",
                        "0700000000000000AA"):
            self.assertEqual(self.answer(content), SERVED)
        self.box.level(1, 1)
        self.box.pass_(5)
        self.write((DECK_IDS[0], "0100"), (INPUT_IDS[0], "0700000001"))
        self.assertEqual(self.marks(), (0, 0))

    def test_whom_a_change_marks(self):
        """M-102, 4: those whom it marks in type 1: open, rank 1 or 2, Monitor on, the sender too."""
        self.box.fill(2)
        for c, rank in ((1, 1), (2, 0), (3, 2)):
            self.box.open(c, rank)
        self.answer("050004", 3)
        self.nothing_due()
        self.work(1, 16)
        self.assertEqual([self.marks(c) for c in range(4)], [(0, 1), (0, 1), (0, 0), (0, 0)])
        self.box.level(1, 1)
        self.assertEqual([self.marks(c) for c in range(4)], [(1, 1), (1, 1), (0, 0), (0, 0)])
        self.box.close(1)
        self.work(2, 16)
        self.assertEqual([self.marks(c) for c in range(4)], [(1, 1), (0, 0), (0, 0), (0, 0)])

    def test_filling_marks_nothing(self):
        """M-102, 4: it is no change, and what changed before it is not told afterwards."""
        self.box.level(1, 1)
        self.assertEqual(self.marks(), (1, 0))
        for place in (1, 2):
            self.box.fill(place)
            self.assertEqual(self.marks(), (1, 0))
        self.assertEqual(self.types(self.collected()), ["01"])
        self.modules()
        self.modules(1, 2)
        self.assertEqual(self.marks(), (0, 0))

    def test_emptying_one_of_two(self):
        """M-102, 8 and 4: a change if one of its own relays was closed, of type 2 alone; what was due stays due."""
        for place, channel, other in ((1, 12, 13), (2, 13, 12)):
            for closed, marks in (((), (0, 0)), ((other,), (0, 0)), ((channel,), (0, 1)), ((channel, other), (0, 1))):
                self.modules(1, 2)
                for k in closed:
                    self.work(1, k)
                self.nothing_due()
                self.box.empty(place)
                self.assertEqual(self.marks(), marks, (place, closed))
                self.modules()
        self.modules(1, 2)
        self.box.level(1, 1)
        self.box.empty(1)
        self.assertEqual(self.marks(), (1, 1))

    def test_emptying_the_last(self):
        """M-102, 4: no mark of type 2 is left on any connection, its own change's neither; those of type 1 stay."""
        for c, rank in ((1, 1), (2, 0), (3, 2)):
            self.box.open(c, rank)
        for place in (1, 2):
            for closed in ((), (PLACES[place][0],)):
                self.modules(place)
                self.nothing_due()
                self.box.level(1, 1 - self.box.inputs[0].level)
                for k in closed:
                    self.work(1, k)
                self.assertEqual([self.marks(c) for c in range(4)], [(1, 1), (1, 1), (0, 0), (1, 1)])
                self.box.empty(place)
                self.assertEqual([self.marks(c) for c in range(4)], [(1, 0), (1, 0), (0, 0), (1, 0)])
                self.assertEqual(self.types(self.collected()), ["01"])
                self.box.fill(place)
                self.assertEqual(self.marks(), (0, 0), "nor does it come back")

    def test_a_pulse_marks(self):
        """M-102, 4, and M-100, 3: each beginning and each end that changes a relay."""
        self.box.fill(1)
        for channel, marks in ((9, (0, 1)), (12, (0, 1)), (8, (1, 1))):
            self.nothing_due()
            self.pulse(channel, 2)
            self.assertEqual(self.marks(), marks)
            self.nothing_due()
            self.box.pass_(1)
            self.assertEqual(self.marks(), (0, 0))
            self.box.pass_(1)
            self.assertEqual(self.marks(), marks)
        self.work(1, 9)
        self.nothing_due()
        self.pulse(9, 2)
        self.box.pass_(2)
        self.assertEqual(self.marks(), (0, 0), "closed before, meanwhile and after")

    # -- collections and requests ------------------------------------------------------------------

    def due_just(self, first, second):
        """These two marks, with place 2 filled.  Type 1 alone is due where the level changed before."""
        self.modules(*() if first and not second else (2,))
        self.nothing_due()
        if first:
            self.box.level(1, 1 - self.box.inputs[0].level)
        elif second:
            self.work(3, 16)
        self.box.fill(2)
        self.assertEqual(self.marks(), (first, second))

    def test_collections(self):
        """M-102, 7: what is due, type 1 before type 2, each in its frame; then nothing is."""
        for first, second, types, length in ((0, 0, [], 0), (1, 0, ["01"], 102), (0, 1, ["02"], 20), (1, 1, ["01", "02"], 122)):
            self.due_just(first, second)
            self.assertEqual((self.box.collect(0, 4095), self.marks()), ((SHORT_BUFFER, b""), (first, second)))
            answer, reply = self.box.collect(0, 4096)
            self.assertEqual((answer, len(reply), self.marks()), (SERVED if types else WAITING, length, (0, 0)))
            self.assertEqual(self.types(self.contents(reply)), types)
        self.modules(1, 2)
        self.box.level(1, 1 - self.box.inputs[0].level)
        self.assertEqual(len(self.box.collect(0, 4096)[1]), 126)

    def test_a_collection_shows_what_is_so_now(self):
        """Events, 7, of type 2 as well: one message for all that changed."""
        self.box.fill(1)
        self.work(1, 9)
        self.box.pass_(3)
        self.work(2, 9)
        self.work(1, 12)
        self.box.pass_(4)
        self.assertEqual(self.collected(), ["020004" + "00000001" + "0000000000000007"])
        self.work(3, 12)
        self.box.fill(2)
        self.assertEqual(self.collected(), ["020008" + "00" * 8 + "0000000000000007"], "eight by now, though it was due with four")

    def test_request_1(self):
        """M-102, 7: both while a module is present, due or not, with Monitor on or off; all marks stay."""
        for first in (0, 1):
            for second in (0, 1):
                self.due_just(first, second)
                self.assertEqual((self.types(self.asked()), self.marks()), (["01", "02"], (first, second)))
        self.answer("050004")
        self.assertEqual((self.types(self.asked()), self.marks()), (["01", "02"], (0, 0)))
        for places in self.PRESENT:
            self.modules(*places)
            self.assertEqual(self.types(self.asked()), ["01", "02"] if places else ["01"])
        reply = self.box.bytes_(0, 4096, traces.framed(bytes.fromhex("05000100000000")))[3]
        self.assertEqual((len(reply), self.types(self.contents(reply))), (126, ["01", "02"]), "with its interval")

    def test_other_requests(self):
        """M-102, 7: requests 0 and 2 have their one reply."""
        self.modules(1, 2)
        self.assertEqual(self.content("050000"), (SERVED, "060000000000000000"))
        self.assertEqual(len(self.content("050002")[1]) // 2, 137)

    def test_requests_4_and_5(self):
        """M-102, 7: 4 clears both marks, and nothing marks until 5, which leaves both as they are."""
        for first in (0, 1):
            for second in (0, 1):
                self.due_just(first, second)
                self.assertEqual((self.content("050005"), self.marks()), ((SERVED, ""), (first, second)))
                self.assertEqual((self.content("050004"), self.marks()), ((SERVED, ""), (0, 0)))
                self.box.level(2, 1 - self.box.inputs[1].level)
                self.work(3, 16)
                self.assertEqual(self.marks(), (0, 0))
                self.assertEqual((self.content("050005"), self.marks()), ((SERVED, ""), (0, 0)))
                self.work(3, 16)
                self.assertEqual(self.marks(), (0, 1))

    # -- a module goes -----------------------------------------------------------------------------

    def test_removed_relays_are_open(self):
        """M-102, 8: those of the module that went, at once, and when it comes back; no others."""
        for place, deck in ((1, "00001111"), (2, "11110000")):
            self.modules(1, 2)
            for channel in (8, *range(9, 17)):
                self.work(1, channel)
            self.box.empty(place)
            self.assertEqual((self.deck(), self.relays()), (deck, "10000000"))
            self.box.fill(place)
            self.assertEqual(self.deck(), deck)
            self.assertEqual((self.work(3, PLACES[place][3]), self.deck().count("1")), (SERVED, 5))

    def test_running_pulse_loses_them(self):
        """M-102, 8: it runs on without relays for its time, then the next begins; the module that is back is not touched by it."""
        self.box.fill(1)
        self.pulse(9, 5)
        self.pulse(1, 2)
        self.box.pass_(2)
        self.assertEqual((self.deck(), self.queue()), ("10000000", "2 256,256,3 1,1,2 was 0"))
        self.box.empty(1)
        self.assertEqual((self.deck(), self.queue()), ("00000000", "2 0,0,3 1,1,2 was 0"))
        self.box.fill(1)
        self.work(1, 9)
        self.assertEqual(self.queue(), "2 0,0,3 1,1,2 was 0")
        self.box.pass_(2)
        self.assertEqual((self.deck(), self.relays()), ("10000000", "00000000"))
        self.box.pass_(1)
        self.assertEqual((self.deck(), self.relays(), self.queue()), ("10000000", "00000001", "1 1,1,2 was 0"))

    def test_a_closed_relay_pulsed_does_not_come_back_closed(self):
        """M-102, 8: it was closed at the pulse's beginning, and is in no mask at its end."""
        self.box.fill(1)
        self.work(1, 9)
        self.pulse(9, 5)
        self.assertEqual(self.queue(), "1 256,256,5 was 256")
        self.modules()
        self.modules(1)
        self.assertEqual(self.queue(), "1 0,0,5 was 0")
        self.nothing_due()
        self.box.pass_(5)
        self.assertEqual((self.deck(), self.queue(), self.marks()), ("00000000", "0", (0, 0)))

    def test_waiting_pulses_lose_them(self):
        """M-102, 8: each that waits, and of the masks those relays alone; places and times stay, also over a return."""
        self.modules(1, 2)
        for channel in (1, 12, 13, 9, 16, 8, 10):
            self.assertEqual(self.pulse(channel, channel), SERVED)
        self.assertEqual(self.queue(), "7 1,1,1 2048,2048,12 4096,4096,13 256,256,9 32768,32768,16 128,128,8 512,512,10 was 0")
        self.box.empty(1)
        emptied = "7 1,1,1 0,0,12 4096,4096,13 0,0,9 32768,32768,16 128,128,8 0,0,10 was 0"
        self.assertEqual(self.queue(), emptied)
        self.box.fill(1)
        self.assertEqual(self.queue(), emptied)
        self.box.empty(2)
        self.assertEqual(self.queue(), "7 1,1,1 0,0,12 0,0,13 0,0,9 0,0,16 128,128,8 0,0,10 was 0")
        self.box.pass_(1 + 12 + 13 + 9 + 16)
        self.assertEqual((self.relays(), self.deck(), self.queue()), ("10000000", "00000000", "2 128,128,8 0,0,10 was 0"))

    def test_pulses_of_other_relays_go_on(self):
        """M-102, 8: a running block of relays 1 to 8 and one of the other module return as if nothing had been."""
        self.modules(1, 2)
        self.work(1, 1)
        self.answer("0A07030200000005")
        self.pulse(16, 5)
        self.box.empty(1)
        self.assertEqual((self.relays(), self.queue()), ("00000010", "2 3,2,5 32768,32768,5 was 1"))
        self.box.pass_(5)
        self.assertEqual((self.relays(), self.deck(), self.queue()), ("00000001", "00000001", "1 32768,32768,5 was 0"))
        self.box.empty(1)
        self.box.pass_(5)
        self.assertEqual((self.relays(), self.deck(), self.queue()), ("00000001", "00000000", "0"))

    def test_a_pulse_without_relays_keeps_its_place(self):
        """M-102, 8: 31 of relay 9 stand, with its module and without: there is room for another only behind an end."""
        self.box.fill(1)
        self.assertEqual([self.pulse(9, 1) for _ in range(31)], [SERVED] * 31)
        self.box.empty(1)
        self.assertEqual(self.queue(), "31" + " 0,0,1" * 31 + " was 0")
        self.assertEqual(self.pulse(1, 1), QUEUE_FULL)
        self.box.pass_(1)
        self.assertEqual((self.pulse(1, 1), self.pulse(1, 1)), (SERVED, QUEUE_FULL))
        self.box.pass_(30)
        self.assertEqual((self.relays(), self.queue()), ("00000001", "1 1,1,1 was 0"))

    def test_a_pulse_of_a_module(self):
        """M-102, 2: as one of any other relay: first come first run, and back to what it was at its beginning."""
        self.modules(1, 2)
        self.work(1, 16)
        self.pulse(9, 2)
        self.pulse(16, 3)
        self.assertEqual((self.deck(), self.queue()), ("10000001", "2 256,256,2 32768,32768,3 was 0"))
        self.box.pass_(2)
        self.assertEqual((self.deck(), self.queue()), ("00000001", "1 32768,32768,3 was 32768"))
        self.work(2, 16)
        self.work(1, 9)
        self.box.pass_(2)
        self.assertEqual(self.deck(), "10000000")
        self.box.pass_(1)
        self.assertEqual((self.deck(), self.queue()), ("10000001", "0"))

    # -- IDs ---------------------------------------------------------------------------------------

    def test_ids(self):
        """M-102, 9: in hexadecimal steps, so that relay 10 has 0A and relay 16 has 10."""
        self.assertEqual(DECK_IDS, (0x0109FF, 0x010AFF, 0x010BFF, 0x010CFF, 0x010DFF, 0x010EFF, 0x010FFF, 0x0110FF))

    def test_listed_when_present(self):
        """M-102, 9: as internal outputs, behind relays 1 to 8; flag 2, for external devices, finds none."""
        first = [*INPUT_IDS, *RELAY_IDS]
        for places, present in self.PRESENT.items():
            self.modules(*places)
            ids = first + [65536 + 256 * k + 255 for k in present]
            listed = f"{len(ids):04X}" + "".join(f"{id:016X}" for id in ids)
            self.assertEqual(self.content("1A01"), (SERVED, "1B01" + listed))
            self.assertEqual(self.content("1A02"), (SERVED, "1B020000"))
            self.assertEqual(self.content("1A03"), (SERVED, "1B03" + listed))

    def test_read_blocks_are_empty(self):
        """M-102, 9: present or not, closed or open; the others' are as ever."""
        for places, present in self.PRESENT.items():
            self.modules(*places)
            for channel in present:
                self.work(1, channel)
            self.assertEqual([self.read(id) for id in DECK_IDS], [""] * 8)
        reply = self.content("150003" + f"{DECK_IDS[0]:016X}{RELAY_IDS[0]:016X}{DECK_IDS[0]:016X}")
        none, block = f"{DECK_IDS[0]:016X}0000", f"{RELAY_IDS[0]:016X}000A" + "00" * 10
        self.assertEqual(reply, (SERVED, "160003" + none + block + none))

    def test_write_entries_fail(self):
        """M-102, 9: each alone: it is not counted, changes nothing and marks nothing; those beside it are done."""
        for places in self.PRESENT:
            self.modules(*places)
            self.nothing_due()
            before = self.box.state()
            for id in DECK_IDS:
                for block in ("", "00", "02", "0101", "0100", "0301", "0002", "0200000001"):
                    self.assertEqual(self.write((id, block)), 0, (id, block))
            self.assertEqual(self.box.state(), before)
            self.assertEqual(self.write((DECK_IDS[0], "0101"), (RELAY_IDS[0], "0101"), (DECK_IDS[7], "0101"), (RELAY_IDS[0], "0100")), 2)
            self.assertEqual((self.relays(), self.deck(), self.marks()), ("00000000", "00000000", (1, int(places != ()))))

    # -- everywhere --------------------------------------------------------------------------------

    def held(self, box):
        """What is so of a box from power-up on, whatever came."""
        present = [*range(1, 9), *box.deck()]
        for k, relay in enumerate(box.relays, 1):
            self.assertTrue(k in present or relay.state == 0, "M-102, 8: what is not there is open")
            self.assertTrue(k <= 8 or relay.usage == relay.usage_setpoint == 0)
        self.assertLessEqual(len(box.queue), PULSES, "M-100, 2")
        for pulse in box.queue:
            self.assertEqual(pulse.mask & ~sum(1 << k - 1 for k in present), 0, "M-102, 8: and in no mask")
            self.assertEqual(pulse.states & ~pulse.mask, 0)
        for conn in box.connections:
            self.assertTrue(conn.due2 == 0 or box.filled, "M-102, 4: due only while a module is present")
            self.assertTrue(conn.due == conn.due2 == 0 or conn.open and conn.rank and conn.monitor, "Events, 6")
        self.assertLessEqual(box.filled, {1, 2})

    def test_in_traces(self):
        for trace in traces.many("deck", 10000):
            box = Box()
            for line in trace.lines:
                box.line(line)
                self.held(box)

    def test_faults_that_break_it_are_found(self):
        """Otherwise the check above would show nothing."""
        for name in ("removed relays stay closed", "running pulse keeps removed relays", "waiting pulses keep removed relays",
                     "the last emptying leaves the marks", "type 2 marked without a module", "type 2 marked at rank 0",
                     "channels without their module served", "usage of relays 9 to 16 grows",
                     "states shown of relays that left the mask"):
            box_class, found = MUTANTS[name], False
            for trace in traces.many("deck", 10000):
                box = box_class()
                for line in trace.lines:
                    box.line(line)
                    try:
                        self.held(box)
                    except AssertionError:
                        found = True
                        break
                if found:
                    break
            self.assertTrue(found, name)

    def test_replay_lines(self):
        """The answer number alone; the row's length may be left out."""
        for line, printed in (("fill 1", "1"), ("fill 1 31", "1"), ("fill 2 30", "4"), ("fill 3 30", "4"), ("fill 3", "11"),
                              ("fill 0 64", "11"), ("bytes 0 4096 010004FFFF0A010009", "1 9 0 0 -"),
                              ("bytes 0 4096 010004FFFF0A01000D", "11 9 0 0 -"), ("fill 2 64", "1"),
                              ("bytes 0 4096 010004FFFF0A01000D", "1 9 0 0 -"), ("empty 1 0", "4"), ("empty 2", "1"),
                              ("collect 0 4096", "1 20 01000F4671020004010000000000000000000000"), ("empty 1 31", "1"), ("empty 1", "1"),
                              ("collect 0 4096", "0 0 -"), ("fill 1 65", "?"), ("fill", "?"), ("empty 256", "?")):
            self.assertEqual(self.box.line(line), printed, line)


class Strict(Case):
    """02, M-103.  Connection 1 is strict, connection 0 is not; both are at rank 2."""

    def setUp(self):
        super().setUp()
        self.box.open(1, 2, 1)
        self.box.collect(1, 4096)

    def true(self, hexadecimal, c=1):
        return self.answer(hexadecimal, c, crc16(bytes.fromhex(hexadecimal)))

    def test_published_frames(self):
        """001's own checksums pass, so that it is the types that are refused; with 0xFFFF none of them gets so far."""
        for text in Published.FRAMES:
            frame = bytes.fromhex(text)
            unchecked = frame[:3] + b"\xFF\xFF" + frame[5:]
            for c, answers in ((0, (NOT_OFFERED, NOT_OFFERED)), (1, (NOT_OFFERED, BAD_CHECKSUM))):
                for message, answer in zip((frame, unchecked), answers):
                    self.assertEqual(self.box.bytes_(c, 4096, message + b"\x06"), (answer, len(frame), 0, b""))

    def test_refused_and_then_served(self):
        """What is refused has changed nothing, and the next message is read from its start."""
        before = self.box.state()
        self.assertEqual(self.content("0A0A0505", 1), (BAD_CHECKSUM, ""))
        self.assertEqual(self.box.state(), before)
        self.assertEqual(self.feed("01000489E00A0A0505", 1), (SERVED, 9, 0, b""), "0x89E0 by 001's rule, a bit at a time")
        self.assertEqual(self.relays(), "00000101")

    def test_every_type(self):
        """Commands, and all the others: those that only ask too."""
        contents = ("050000", "050001", "050002", "050004", "050005", "0700000000000000AA", "0A010001", "0A0AFFFF", "0A06000100000001",
                    "0A07FFFF00000001", "150000", "170000", "1A01", "63")
        for content in contents:
            before = self.box.state()
            self.assertEqual(self.content(content, 1), (BAD_CHECKSUM, ""), content)
            self.assertEqual(self.box.state(), before)
        for content in contents:
            self.assertEqual(self.true(content), NOT_OFFERED if content == "63" else SERVED, content)

    def test_every_other_wrong_checksum(self):
        """One bit off is refused on both, as ever."""
        true = crc16(bytes.fromhex("0A030001"))
        for bit in range(16):
            for c in (0, 1):
                self.assertEqual(self.answer("0A030001", c, true ^ 1 << bit), BAD_CHECKSUM)
        self.assertEqual(self.relays(), "00000000")

    def test_0xffff_where_it_is_true(self):
        """Of the 65,536 blocks one has this checksum, and no strict connection can tell: mask 11010001, states 10110010."""
        blocks = [block for block in range(65536) if crc16(b"\x0A\x0A" + field(block, 2)) == 0xFFFF]
        self.assertEqual(blocks, [0xD1B2])
        self.assertEqual(self.answer("0A0AD1B2", 1), SERVED)
        self.assertEqual(self.relays(), "10010000")
        for sent in (0xFFFE, 0x7FFF, 0x0000):
            self.assertEqual((self.answer("0A0AD1B2", 0, sent), self.answer("0A0AD1B2", 1, sent)), (BAD_CHECKSUM,) * 2)

    def test_n_0(self):
        """No bytes have the checksum 0.  Edges, 7 holds of the connection that is not strict."""
        for sent, c, answer in (("FFFF", 1, BAD_CHECKSUM), ("FFFF", 0, NOT_OFFERED), ("0000", 1, NOT_OFFERED), ("0001", 1, BAD_CHECKSUM)):
            self.assertEqual(self.feed("010000" + sent, c), (answer, 5, 0, b""))

    def test_old_place(self):
        """After what is lent and the limit, before type, rank, length and numbers."""
        self.box.open(2, 0, 1)
        frame = traces.framed(bytes.fromhex("0A030001"), 0xFFFF)
        self.assertEqual(self.box.bytes_(1, 4095, frame), (SHORT_BUFFER, 0, 0, b""))
        self.assertEqual(self.box.bytes_(1, 4096, frame, 30), (SHORT_BUFFER, 0, 0, b""))
        self.assertEqual(self.answer("63" + "00" * 1024, 1), TOO_LONG)
        self.assertEqual(self.answer("63" + "00" * 1023, 1), BAD_CHECKSUM)
        for content, answer in (("63", NOT_OFFERED), ("0A030001", LOW_RANK)):
            self.assertEqual((self.answer(content, 2), self.true(content, 2)), (BAD_CHECKSUM, answer))
        for content, answer in (("0A0300", ENDS_EARLY), ("0A030009", OUT_OF_RANGE)):
            self.assertEqual((self.answer(content, 1), self.true(content, 1)), (BAD_CHECKSUM, answer))
        self.assertEqual((self.feed("06", 1), self.feed("07", 1)), ((KEEP_ALIVE, 1, 0, b""), (STRAY, 1, 0, b"")))

    def test_full_queue(self):
        """The last refusal of all: 0xFFFF is refused before it, and the true checksum comes so far."""
        for _ in range(31):
            self.true("0A06000100000001")
        self.assertEqual((self.answer("0A06000100000001", 1), self.true("0A06000100000001")), (BAD_CHECKSUM, QUEUE_FULL))

    def test_cut_anywhere(self):
        """Nothing is said before the last byte; the other connection is served in between."""
        frame = bytes.fromhex("010004FFFF0A030001")
        for middle in range(1, len(frame)):
            self.assertEqual(self.box.bytes_(1, 4096, frame[:middle]), (WAITING, middle, 0, b""))
            self.assertEqual(self.box.bytes_(0, 4096, frame), (SERVED, 9, 0, b""))
            self.assertEqual(self.box.bytes_(1, 4096, frame[middle:]), (BAD_CHECKSUM, 9 - middle, 0, b""))
            self.assertEqual(self.box.bytes_(0, 4096, frame[:middle]), (WAITING, middle, 0, b""))
            self.assertEqual(self.box.bytes_(1, 4096, frame), (BAD_CHECKSUM, 9, 0, b""))
            self.assertEqual(self.box.bytes_(0, 4096, frame[middle:]), (SERVED, 9 - middle, 0, b""))
        self.assertEqual(self.relays(), "00000000", "relay 1 toggled 16 times")

    def test_what_says_strict(self):
        """Every byte but 0."""
        for strict in range(256):
            self.box.close(1)
            self.assertEqual(self.box.open(1, 1, strict), SERVED)
            self.assertEqual(self.answer("0A0A0000", 1), BAD_CHECKSUM if strict else SERVED)

    def test_each_connection_its_own(self):
        for strict in range(16):
            self.box.power()
            for c in range(4):
                self.box.open(c, 1, strict >> c & 1)
            answers = [BAD_CHECKSUM if strict >> c & 1 else SERVED for c in range(4)]
            self.assertEqual([self.answer("0A0A0000", c) for c in range(4)], answers)

    def test_until_it_is_closed(self):
        """Neither requests nor marks, collections, refusals or refused openings change it; the next opening says it anew."""
        for content in ("050004", "050005", "0A030001", "63"):
            self.true(content)
        self.box.level(1, 1)
        self.assertEqual(self.box.collect(1, 4096)[0], SERVED)
        self.assertEqual((self.box.open(1, 2, 0), self.box.open(1, 3, 0), self.box.open(0, 2, 1)), (ALREADY_OPEN,) * 3)
        self.assertEqual((self.answer("0A0A0000", 1), self.answer("0A0A0000", 0)), (BAD_CHECKSUM, SERVED))
        for strict, answer in ((0, SERVED), (1, BAD_CHECKSUM), (0, SERVED)):
            self.assertEqual(self.box.close(1), SERVED)
            self.assertEqual((self.box.open(1, 3, 1 - strict), self.box.open(4, 2, 1)), (BAD_RANK, NO_CONNECTION))
            self.assertEqual(self.box.open(1, 2, strict), SERVED)
            self.assertEqual(self.answer("0A0A0000", 1), answer)

    def test_half_a_message_over_a_closing(self):
        """It is forgotten, and what comes next is judged by the new opening."""
        self.feed("010004FFFF0A03", 1)
        self.box.close(1)
        self.box.open(1, 2)
        self.assertEqual(self.feed("010004FFFF0A030001", 1), (SERVED, 9, 0, b""))


class Lengths(Case):
    """02, M-105.  A place is counted from the type byte, which is at 0."""

    ONE, TWO = "00000000000001FF", "00000000000101FF"           # input 1 and relay 1
    CLOSE = TWO + "0002" + "0101"                               # an entry of 12 bytes
    COUNT = ONE + "0005" + "0200000007"                         # one of 15
    NOBODY = "00000000000009FF" + "0000"                        # one of 10, without a block

    def lengths_of(self, content, lists_from=None):
        """Each length of a content that is served whole, from nothing to three bytes too many, and more.  From `lists_from` on it lacks a
        part of a list whose count is whole, before that something else."""
        whole = len(content) // 2
        self.assertEqual(self.told(""), (NOT_OFFERED, 0))
        for n in range(1, whole):
            in_list = lists_from is not None and n >= lists_from
            self.assertEqual(self.told(content[:2 * n]), (LIST_CUT if in_list else ENDS_EARLY, n), content[:2 * n])
        self.assertEqual(self.told(content), (SERVED, 0), content)
        for surplus in ("00", "FFFF", "010101", "00000000", "FF" * 8, content, "00" * (1024 - whole)):
            self.assertEqual(self.told(content + surplus), (LEFT_OVER, whole), content + surplus)

    # -- each length of each type ------------------------------------------------------------------

    def test_request(self):
        """Three bytes, or seven: nothing between them is whole, and only what is behind the seventh is too many."""
        for request in ("0000", "0001", "0002", "0004", "0005"):
            content = "05" + request + "01060106"
            for n, told in ((0, (NOT_OFFERED, 0)), (1, (ENDS_EARLY, 1)), (2, (ENDS_EARLY, 2)), (3, (SERVED, 0)), (4, (ENDS_EARLY, 4)),
                            (5, (ENDS_EARLY, 5)), (6, (ENDS_EARLY, 6)), (7, (SERVED, 0))):
                self.assertEqual(self.told(content[:2 * n]), told, (request, n))
            for surplus in ("00", "0000", "000000", "00000000", "00" * 1017):
                self.assertEqual(self.told(content + surplus), (LEFT_OVER, 7), (request, len(surplus)))

    def test_request_out_of_range(self):
        """Answer numbers, 2: judged as soon as its second byte is there, whatever the length."""
        for request in ("0003", "0006", "0100", "FFFF"):
            content = "05" + request + "00" * 7
            self.assertEqual([self.told(content[:2 * n]) for n in range(1, 11)],
                             [(ENDS_EARLY, 1), (ENDS_EARLY, 2)] + [(OUT_OF_RANGE, 0)] * 8)

    def test_set_clock(self):
        self.lengths_of("07" + "0000000000000005")

    def test_commands_of_four_bytes(self):
        for action in ("01", "02", "03", "05", "08", "09", "0A"):
            self.lengths_of("0A" + action + "0001")

    def test_commands_of_eight_bytes(self):
        for action in ("06", "07"):
            self.lengths_of("0A" + action + "0001" + "00000001")

    def test_action_out_of_range(self):
        """Answer numbers, 2: judged as soon as it is there, whatever the length."""
        for action in ("00", "04", "0B", "FF"):
            content = "0A" + action + "00" * 9
            self.assertEqual([self.told(content[:2 * n]) for n in range(1, 12)], [(ENDS_EARLY, 1)] + [(OUT_OF_RANGE, 0)] * 10)

    def test_channel_and_duration_out_of_range(self):
        """M-105, 4: they are judged behind the length, where the layout has them whole."""
        for content in ("0A010009", "0A030000", "0A06000900000001", "0A06000100000000", "0A07FFFF00000000"):
            whole = len(content) // 2
            for n in range(1, whole):
                self.assertEqual(self.told(content[:2 * n]), (ENDS_EARLY, n), content[:2 * n])
            self.assertEqual(self.told(content), (OUT_OF_RANGE, 0))
            self.assertEqual(self.told(content + "00"), (LEFT_OVER, whole))

    def test_read_devices(self):
        """The count is at 1 and 2; the first ID is missing from 3 on."""
        self.lengths_of("150000")
        self.lengths_of("150001" + self.ONE, 3)
        self.lengths_of("150002" + self.ONE + self.TWO, 3)
        self.lengths_of("150005" + self.ONE * 5, 3)

    def test_write_devices(self):
        """Within an entry's ID, length or block, and between two: all of it is the list."""
        self.lengths_of("170000")
        self.lengths_of("170001" + self.CLOSE, 3)
        self.lengths_of("170001" + self.NOBODY, 3)
        self.lengths_of("170002" + self.CLOSE + self.COUNT, 3)
        self.lengths_of("170002" + self.COUNT + self.NOBODY, 3)
        self.lengths_of("170003" + self.NOBODY + self.COUNT + self.CLOSE, 3)

    def test_enumerate_devices(self):
        self.lengths_of("1A01")

    def test_enumeration_flags_out_of_range(self):
        """M-105, 4: there the length is judged before the flags."""
        for flags, whole in (("01", (SERVED, 0)), ("00", (OUT_OF_RANGE, 0)), ("04", (OUT_OF_RANGE, 0)), ("FF", (OUT_OF_RANGE, 0))):
            content = "1A" + flags + "000000"
            self.assertEqual([self.told(content[:2 * n]) for n in range(6)],
                             [(NOT_OFFERED, 0), (ENDS_EARLY, 1), whole, (LEFT_OVER, 2), (LEFT_OVER, 2), (LEFT_OVER, 2)])

    # -- single places -----------------------------------------------------------------------------

    def test_one_id_and_a_half(self):
        """3 bytes, 8 and 4 of two IDs."""
        self.assertEqual(self.told("150002" + self.ONE + self.TWO[:8]), (LIST_CUT, 15))

    def test_count_0_with_bytes_behind(self):
        """There is no list to be cut: what follows is too many from its first byte on."""
        for behind in ("00", self.ONE, self.CLOSE, "00" * 1021):
            for kind in ("15", "17"):
                self.assertEqual(self.told(kind + "0000" + behind), (LEFT_OVER, 3))

    def test_list_of_which_no_byte_is_there(self):
        """The count is whole, however much it says."""
        for count in ("0001", "0002", "0080", "0100", "2000", "8000", "FFFF"):
            for kind in ("15", "17"):
                self.assertEqual(self.told(kind + count), (LIST_CUT, 3))
                self.assertEqual(self.told(kind + count[:2]), (ENDS_EARLY, 2))

    def test_count_above_what_a_content_holds(self):
        """127 IDs are 1,019 bytes; with 128 the content would be 1,027 long, and ends before."""
        self.assertEqual(self.told("15007F" + self.ONE * 127), (SERVED, 0))
        self.assertEqual(self.told("150080" + self.ONE * 127), (LIST_CUT, 1019))
        self.assertEqual(self.told("150080" + self.ONE * 127 + self.ONE[:10]), (LIST_CUT, 1024))
        self.assertEqual(self.told("15007F" + self.ONE * 127 + self.ONE[:10]), (LEFT_OVER, 1019))
        self.assertEqual(self.told("15007E" + self.ONE * 127), (LEFT_OVER, 1011))
        self.assertEqual(self.told("158001" + self.ONE), (LIST_CUT, 11), "0x8001 times 8 is more than 16 bits, and not 8")

    def test_each_cut_of_the_second_entry(self):
        """The first entry ends at 15: ID up to 23, length up to 25, block up to 30."""
        content = "170002" + self.CLOSE + self.COUNT
        for n in (15, 16, 22, 23, 24, 25, 26, 29):
            self.assertEqual(self.told(content[:2 * n]), (LIST_CUT, n))
        self.assertEqual(self.relays(), "00000000", "Messages, 23, 2: not even the first is written")
        self.assertEqual(self.told(content), (SERVED, 0))
        self.assertEqual((self.relays(), self.count()), ("00000001", 7))

    def test_where_the_last_entry_ended(self):
        """Entries of 12, 15 and 10 bytes: what is behind the counted ones is too many, be it a whole entry."""
        entries = self.CLOSE + self.COUNT + self.NOBODY
        for count, end in (("0000", 3), ("0001", 15), ("0002", 30)):
            self.assertEqual(self.told("17" + count + entries), (LEFT_OVER, end))
        self.assertEqual(self.told("170003" + entries), (SERVED, 0))
        self.assertEqual(self.told("170003" + entries + "00" * 984), (LEFT_OVER, 40), "1,024 bytes in all")
        self.assertEqual(self.told("170004" + entries), (LIST_CUT, 40))

    def test_a_length_that_reaches_over_the_end(self):
        """A block that is said to be longer than the content is cut at its end, however much is missing; behind one that is said to be
        shorter, and was the last, the rest is too many."""
        for length, told in (("0003", (LIST_CUT, 15)), ("0100", (LIST_CUT, 15)), ("8002", (LIST_CUT, 15)), ("FFFF", (LIST_CUT, 15)),
                             ("0002", (SERVED, 0)), ("0001", (LEFT_OVER, 14)), ("0000", (LEFT_OVER, 13))):
            self.assertEqual(self.told("170001" + self.TWO + length + "0000"), told, length)
        self.assertEqual(self.told("170002" + self.TWO + "0001" + "0000" + self.TWO + "0000"), (LIST_CUT, 25),
                         "the second entry begins at 14 and finds 0xFF00 for its length")

    def test_longest_contents(self):
        """1,024 bytes are judged, and a place may be as far as their end."""
        block = "00" * (1024 - 3 - 10)
        self.assertEqual(self.told("170001" + self.ONE + "03F3" + block), (SERVED, 0))
        self.assertEqual(self.told("170001" + self.ONE + "03F4" + block), (LIST_CUT, 1024))
        self.assertEqual(self.told("170001" + self.ONE + "03F2" + block), (LEFT_OVER, 1023))
        self.assertEqual(self.told("170001" + self.ONE + "03F3" + block[2:]), (LIST_CUT, 1023))
        self.assertEqual(self.told("170001" + self.ONE + "03F3" + block + "00"), (TOO_LONG, 0))

    # -- the place goes with these answers alone ---------------------------------------------------

    WRONG = (("010003FFFF0A0300", (ENDS_EARLY, 8, 3, b"")), ("010008FFFF0500010000000000", (LEFT_OVER, 13, 7, b"")),
             ("010003FFFF150001", (LIST_CUT, 8, 3, b"")))

    def test_place_is_told_once(self):
        """Behind each of them every other answer has 0, on the same connection and on another."""
        self.box.open(1, 0)
        self.box.open(2, 2, 1)
        long = "010401FFFF" + "00" * 1025
        after = (("", 0, 4096, WAITING, 0), ("06", 0, 4096, KEEP_ALIVE, 1), ("06", 3, 4096, NO_CONNECTION, 0),
                 ("06", 4, 4096, NO_CONNECTION, 0), ("06", 0, 4095, SHORT_BUFFER, 0), ("07", 0, 4096, STRAY, 1),
                 (long, 0, 4096, TOO_LONG, 1030), ("0100031234050000", 0, 4096, BAD_CHECKSUM, 8),
                 ("010003FFFF050000", 2, 4096, BAD_CHECKSUM, 8), ("010000FFFF", 0, 4096, NOT_OFFERED, 5),
                 ("010001FFFF63", 0, 4096, NOT_OFFERED, 6), ("010003FFFF050000", 1, 4096, LOW_RANK, 8),
                 ("010003FFFF050003", 0, 4096, OUT_OF_RANGE, 8), ("010004FFFF0A030001", 0, 4096, SERVED, 9),
                 ("010003FFFF0A", 1, 4096, WAITING, 6))
        for wrong, told in self.WRONG:
            for piece, c, cap, answer, taken in after:
                self.assertEqual(self.feed(wrong), told)
                self.assertEqual(self.feed(piece, c, cap), (answer, taken, 0, b""), (wrong, piece[:20]))
            self.box.close(1)
            self.box.open(1, 0)

    def test_place_and_a_new_opening(self):
        for wrong, told in self.WRONG:
            self.assertEqual(self.feed(wrong), told)
            self.assertEqual((self.box.close(0), self.box.open(0, 2)), (SERVED, SERVED))
            self.assertEqual(self.feed("06"), (KEEP_ALIVE, 1, 0, b""))

    def test_reply_behind_a_place(self):
        for wrong, told in self.WRONG:
            self.assertEqual(self.feed(wrong), told)
            self.assertEqual(self.feed("010003FFFF050000")[:3], (SERVED, 8, 0))

    def test_one_place_behind_another(self):
        """Each message has its own."""
        for _ in range(2):
            for wrong, told in self.WRONG + self.WRONG[::-1]:
                self.assertEqual(self.feed(wrong), told)

    def test_full_queue_behind_a_place(self):
        for _ in range(31):
            self.answer("0A06000100000001")
        for wrong, told in self.WRONG:
            self.assertEqual(self.feed(wrong), told)
            self.assertEqual(self.told("0A06000100000001"), (QUEUE_FULL, 0))

    def test_cut_into_pieces(self):
        """The place is one of the content, in however many pieces that comes: nothing is told before its last byte."""
        for wrong, told in self.WRONG:
            answer, _, place, _ = told
            for byte in bytes.fromhex(wrong)[:-1]:
                self.assertEqual(self.box.bytes_(0, 4096, bytes([byte])), (WAITING, 1, 0, b""))
            self.assertEqual(self.feed(wrong[-2:] + "06"), (answer, 1, place, b""))
            self.assertEqual(self.feed("06"), (KEEP_ALIVE, 1, 0, b""), "neither waits for the missing byte nor leaves the surplus one")

    def test_what_follows_in_the_piece(self):
        """Missing bytes are not taken from behind the content, and surplus ones are not left for the next message."""
        for wrong, told in self.WRONG:
            self.assertEqual(self.feed(wrong + "010004FFFF0A030001"), told)
            self.assertEqual(self.feed("010004FFFF0A030001"), (SERVED, 9, 0, b""))

    # -- where they stand --------------------------------------------------------------------------

    def test_before_and_behind(self):
        """M-105, 4: behind the checksum, the type and the rank, whose answers have no place."""
        self.box.open(1, 0)
        self.box.open(2, 1)
        for wrong in ("0A0300", "0500010000000000", "150001", "1A", "1A0000", "17000000"):
            self.assertEqual(self.told(wrong, 0, 1), (BAD_CHECKSUM, 0))
            self.assertEqual(self.told("63" + wrong[2:]), (NOT_OFFERED, 0))
            self.assertEqual(self.told(wrong, 1), (LOW_RANK, 0))
            self.assertIn(self.told(wrong, 2)[0], WITH_A_PLACE)
            self.assertEqual(self.told(wrong, 2), self.told(wrong, 0), "to users and administrators alike")
        for wrong in ("07", "0700000000000000", "07000000000000000000"):
            self.assertEqual((self.told(wrong, 1), self.told(wrong, 2)), ((LOW_RANK, 0), (LOW_RANK, 0)))
            self.assertIn(self.told(wrong, 0)[0], WITH_A_PLACE)

    def test_full_queue(self):
        """M-100, 7: the length is judged before it."""
        for _ in range(31):
            self.answer("0A06000100000001")
        for content, told in (("0A060001000000", (ENDS_EARLY, 7)), ("0A0600010000000100", (LEFT_OVER, 8)), ("0A0600", (ENDS_EARLY, 3)),
                              ("0A06000100000001", (QUEUE_FULL, 0))):
            self.assertEqual(self.told(content), told)

    # -- everywhere --------------------------------------------------------------------------------

    def test_10_is_never_given(self):
        """M-105, 1: nor has it a name.  M-105, 2: what is missing is behind the content's last byte; what is too many is before its end,
        and behind the type and one more byte at least."""
        self.assertNotIn(10, BY_NAME.values())
        judged = []

        class Remembering(Box):
            def judge(self, conn, message):
                answer, place, reply = super().judge(conn, message)
                judged.append((answer, place, len(message) - 5))
                return answer, place, reply

        for trace in traces.many("lengths", 20000):
            box = Remembering()
            for line in trace.lines:
                box.line(line)
        self.assertLessEqual({answer for answer, _, _ in judged}, set(BY_NAME.values()))
        for answer, place, length in judged:
            if answer == LEFT_OVER:
                self.assertTrue(2 <= place < length, (place, length))
            else:
                self.assertEqual(place, length if answer in (ENDS_EARLY, LIST_CUT) else 0, answer)

    def test_replay_lines(self):
        """The place stands between the bytes taken and the reply's length; a collection has none."""
        for line, printed in (("bytes 0 4096 010003FFFF0A0300", "20 8 3 0 -"), ("bytes 0 4096 010005FFFF0A03000100", "21 10 4 0 -"),
                              ("bytes 0 4096 010003FFFF170001", "22 8 3 0 -"), ("bytes 0 4096 010006FFFF05000400000006", "20 11 6 0 -"),
                              ("bytes 0 4096 01000CFFFF1500010000000000000100FF", "21 17 11 0 -"),
                              ("bytes 0 4096 06", "2 1 0 0 -"), ("bytes 0 4096 010003FFFF170000", "1 8 0 8 0100030780180000"),
                              ("collect 0 4096", "0 0 -")):
            self.assertEqual(self.box.line(line), printed, line)


class TimeByTheMs(unittest.TestCase):
    """M-100, 4: d ms are d times one.  The model takes several in one step; here it is held to one at a time."""

    RUNS = 150

    class ByMs(Box):
        def pass_(self, d, row=PULSES):
            return self.pass_by_ms(d, row)

    CONTENTS = ("0A01{k:04X}", "0A02{k:04X}", "0A03{k:04X}", "0A09{k:04X}", "0A0A{a:02X}{b:02X}", "07{top:016X}",
                "17000100000000000{id:05X}000201{bit:02X}")

    def lines(self, rng):
        """Pulses and passes for the most part, so that queues of many lengths and many ends in one pass occur; often
        with nothing due before, so that a mark is seen."""
        for _ in range(46):
            kind = rng.randrange(16)
            if kind < 5:
                mask = rng.choice((0, 1, 3, 255, rng.randrange(256)))
                yield self.message(f"0A07{mask:02X}{rng.randrange(256):02X}{rng.choice((1, 1, 2, 3, rng.randrange(1, 9))):08X}", rng)
            elif kind < 8:
                yield f"pass {rng.choice((0, 1, 2, 3, rng.randrange(30)))}"
            elif kind < 9:
                yield self.message(rng.choice(self.CONTENTS).format(
                    k=rng.randrange(1, 17), a=rng.randrange(256), b=rng.randrange(256), top=TOP64 - rng.randrange(9),
                    id=0x0101FF + 0x100 * rng.randrange(8), bit=rng.randrange(2)), rng)
            elif kind < 10:
                yield f"level {rng.randrange(1, 9)} {rng.randrange(2)}"
            elif kind < 11:
                yield self.message(f"0A06{rng.randrange(1, 17):04X}{rng.randrange(1, 9):08X}", rng)
            elif kind < 12:
                yield f"{rng.choice(('fill', 'fill', 'empty'))} {rng.randrange(1, 3)}"
            else:
                yield from ("collect 0 4096", "collect 1 4096")

    def message(self, content, rng):
        return f"bytes {rng.randrange(2)} 4096 {traces.framed(bytes.fromhex(content)).hex().upper()}"

    def run_of(self, seed, box_class):
        """What the box prints for a run, and its state after each line."""
        rng = random.Random(seed)
        box = box_class()
        for line in ("open 0 2", "open 1 1", "open 2 0", "open 3 2", "bytes 3 4096 010003FFFF050004", f"fill {rng.randrange(1, 3)}"):
            box.line(line)
        for device in box.inputs + box.internal():
            device.usage = rng.choice((0, TOP64 - rng.randrange(20)))
        return [(line, box.line(line), box.state()) for line in self.lines(rng)]

    def differing(self, box_class, runs):
        """The seeds whose runs differ from those by the ms."""
        return [seed for seed in range(runs) if self.run_of(seed, box_class) != self.run_of(seed, self.ByMs)]

    def test_steps_are_as_single_ms(self):
        self.assertEqual(self.differing(Box, self.RUNS), [])

    def test_steps_that_are_not_are_found(self):
        for name in ("a pass ends one pulse at most", "only the last pulse of a long pass ends",
                     "all ends and beginnings of a pass as one change", "usage of a whole pass by the states before it",
                     "the rest of a pass after an end is lost to the next pulse"):
            self.assertGreater(len(self.differing(MUTANTS[name], 60)), 5, name)

    def test_runs_end_many_pulses_in_one_pass(self):
        """None, one, and many: otherwise the runs would show nothing."""
        ends = {0: 0, 1: 0, 2: 0}

        class Counting(Box):
            def pass_(self, d, row=PULSES):
                stood = len(self.queue)
                answer = super().pass_(d, row)
                if stood:
                    ends[min(stood - len(self.queue), 2)] += 1
                return answer

        for seed in range(self.RUNS):
            self.run_of(seed, Counting)
        self.assertGreater(min(ends.values()), 100, ends)

    def test_runs_pulse_modules(self):
        """M-102: pulses of relays that are there begin and end, and others lose theirs while they stand."""
        seen = Counter()

        class Counting(Box):
            def begin(self):
                super().begin()
                seen["begun"] += self.queue[0].mask > 0xFF

            def end(self):
                seen["ended"] += self.queue[0].mask > 0xFF
                super().end()

            def remove(self, place):
                masks = [pulse.mask for pulse in self.queue]
                super().remove(place)
                seen["lost"] += masks != [pulse.mask for pulse in self.queue]

        for seed in range(self.RUNS):
            self.run_of(seed, Counting)
        self.assertGreater(min(seen.values()), 10, seen)
        self.assertEqual(len(seen), 3)


class Tools(unittest.TestCase):
    def test_truly_0xffff(self):
        """The checksum is 0xFFFF, and only the last two bytes are others."""
        for content in (b"\x00\x00", b"\x0A\x0A\x00\x00", b"\x07" + bytes(8), bytes(range(256)) * 4):
            found = traces.truly_0xffff(content)
            self.assertEqual((crc16(found), found[:-2], len(found)), (0xFFFF, content[:-2], len(content)))

    def test_strict_traces(self):
        """On strict connections and on the others: served with the true checksum, refused or served with 0xFFFF, and
        0xFFFF where it is true.  Otherwise the traces would show nothing."""
        seen = {}

        class Counting(Box):
            def judge(self, conn, message):
                answer, place, reply = super().judge(conn, message)
                if message[0] == 1 and len(message) <= 5 + 1024:
                    sent, true = message[3:5], field(crc16(message[5:]), 2)
                    kind = (conn.strict, sent == b"\xFF\xFF", sent == true, answer == SERVED)
                    seen[kind] = seen.get(kind, 0) + 1
                return answer, place, reply

        for trace in traces.many("strict", 20000):
            box = Counting()
            for line in trace.lines:
                box.line(line)
        for kind in ((1, False, True, True), (1, False, False, False), (1, True, False, False), (1, True, True, True),
                     (0, False, True, True), (0, False, False, False), (0, True, False, True), (0, True, True, True)):
            self.assertGreater(seen[kind], 30, kind)
        self.assertNotIn((1, True, False, True), seen)

    def deck_in(self, events):
        """How often each situation of M-102 occurs in traces of so many events."""
        seen = Counter()

        def present(box, id):
            return "present" if id in box.deck_ids() else "absent"

        def acting(box, action, channel):
            if 1 <= channel <= 16:
                return action, "1 to 8" if channel <= 8 else "present" if channel in box.deck() else "absent", len(box.filled)
            return "switching" if action <= 3 else "pulse" if action == 6 else "clearing", "above 16" if channel else "0"

        class Counting(Box):
            closed = frozenset()

            def fill(self, place, row=PULSES):
                known = place if place in PLACES else "other"
                seen["fill", known, place in self.filled, row < PULSES] += 1
                before = set(self.filled)
                answer = super().fill(place, row)
                if self.filled != before and place in self.closed:
                    seen["back with relays that were closed"] += 1
                return answer

            def empty(self, place, row=PULSES):
                known = place if place in PLACES else "other"
                seen["empty", known, place in self.filled, row < PULSES] += 1
                return super().empty(place, row)

            def remove(self, place):
                mask = sum(1 << k - 1 for k in PLACES[place])
                closed, which = self.relay_states() & mask != 0, "last" if len(self.filled) == 1 else "one of two"
                told = [conn for conn in self.connections if conn.rank and conn.monitor]
                seen["removed", which, closed, "due"] += any(conn.due2 for conn in told)
                seen["removed", which, closed, "not due"] += any(not conn.due2 for conn in told)
                for k, pulse in enumerate(self.queue):
                    of = "its own" if pulse.mask & mask else "the other's" if pulse.mask > 0xFF else "1 to 8" if pulse.mask else "none"
                    seen["removed under a pulse", "running" if k == 0 else "waiting", of] += 1
                if self.remembered & self.queue[0].mask & mask if self.queue else False:
                    seen["removed under a pulse that found it closed"] += 1
                self.closed = self.closed - {place} | ({place} if closed else frozenset())
                super().remove(place)

            def judge_channel(self, action, channel):
                seen["action", *acting(self, action, channel)] += 1
                super().judge_channel(action, channel)

            def pulse(self, mask, states, duration):
                super().pulse(mask, states, duration)
                seen["pulse of a module", "begins" if len(self.queue) == 1 else "waits"] += mask > 0xFF

            def end(self):
                seen["end of a module's pulse", "closed" if self.remembered & self.queue[0].mask else "open"] += self.queue[0].mask > 0xFF
                super().end()

            def open(self, c, rank, strict=0):
                answer = super().open(c, rank, strict)
                seen["opened", rank, len(self.filled)] += answer == SERVED
                return answer

            def collect(self, c, cap):
                if self.is_open(c) and cap >= 4096:
                    conn = self.connections[c]
                    seen["collected", conn.due, conn.due2, len(self.filled)] += 1
                return super().collect(c, cap)

            def request(self, conn, fields):
                due, due2, on = conn.due, conn.due2, conn.monitor
                answer = super().request(conn, fields)
                asked = number(fields.content[1:3])
                seen["request", asked, due, due2, "module" if self.filled else "none"] += 1
                seen["request 1", "on" if on else "off", len(self.filled)] += asked == 1
                return answer

            def enumerate_devices(self, conn, fields):
                answer = super().enumerate_devices(conn, fields)
                seen["enumeration", fields.content[1], tuple(sorted(self.filled))] += 1
                return answer

            def read_block(self, id):
                seen["read", present(self, id)] += id in DECK_IDS
                return super().read_block(id)

            def write_entry(self, id, block):
                right = len(block) in (1, 2) and block[0] < 4
                seen["write", present(self, id), right] += id in DECK_IDS
                return super().write_entry(id, block)

            def changed(self, internal=True):
                seen["change", internal, len(self.filled)] += 1
                super().changed(internal)

        for trace in traces.many("deck", events):
            box = Counting()
            for line in trace.lines:
                box.line(line)
        return seen

    def test_second_deck_in_traces(self):
        """Places filled and emptied, again, others and with short rows; channels and pulses of relays that are there and that are not;
        modules that go from under pulses; each combination of the two marks at openings, requests and collections; the IDs.  Otherwise
        the traces would show nothing."""
        seen = self.deck_in(40000)
        marks = [(due, due2) for due in (0, 1) for due2 in (0, 1)]
        kinds = [(event, place, filled, short) for event in ("fill", "empty") for place in (1, 2) for filled in (False, True)
                 for short in (False, True)]
        kinds += [(event, "other", False, short) for event in ("fill", "empty") for short in (False, True)]
        kinds += [("removed", which, closed, due) for which in ("last", "one of two") for closed in (False, True)
                  for due in ("due", "not due")]
        kinds += [("removed under a pulse", which, of) for which in ("running", "waiting")
                  for of in ("its own", "the other's", "1 to 8", "none")]
        kinds += ["removed under a pulse that found it closed", "back with relays that were closed"]
        kinds += [("action", action, of, filled) for action in (1, 2, 3, 6, 5, 8, 9) for of, filled in (
            ("1 to 8", 0), ("absent", 0), ("1 to 8", 1), ("present", 1), ("absent", 1), ("1 to 8", 2), ("present", 2))]
        kinds += [("action", action, of) for action in ("switching", "pulse", "clearing") for of in ("0", "above 16")]
        kinds += [("pulse of a module", "begins"), ("pulse of a module", "waits")]
        kinds += [("end of a module's pulse", "closed"), ("end of a module's pulse", "open")]
        kinds += [("opened", rank, filled) for rank in (0, 1, 2) for filled in (0, 1, 2)]
        kinds += [("collected", due, due2, filled) for due, due2 in marks for filled in (0, 1, 2) if filled or not due2]
        kinds += [("request", request, due, due2, of) for request in (1, 4, 5) for due, due2 in marks for of in ("module", "none")
                  if of == "module" or not due2]
        kinds += [("request 1", on, filled) for on in ("on", "off") for filled in (0, 1, 2)]
        kinds += [("enumeration", flags, places) for flags in (1, 2, 3) for places in ((), (1,), (2,), (1, 2))]
        kinds += [("read", "present"), ("read", "absent")]
        kinds += [("write", of, right) for of in ("present", "absent") for right in (False, True)]
        kinds += [("change", internal, filled) for internal in (False, True) for filled in (0, 1, 2)]
        for kind in kinds:
            self.assertGreater(seen[kind], 2, kind)

    def ends_in(self, events):
        """How often contents of a wrong length occur in traces of so many events: of each type and answer by where they end."""
        seen = Counter()

        def where(content, answer, place):
            surplus = len(content) - place
            if answer == LEFT_OVER:
                return "one byte" if surplus == 1 else "a few bytes" if surplus < 50 else "many"
            return traces.cut_in(content) if answer == LIST_CUT else place

        class Counting(Box):
            def judge(self, conn, message):
                answer, place, reply = super().judge(conn, message)
                if answer in WITH_A_PLACE:
                    seen[message[5], answer, where(message[5:], answer, place)] += 1
                return answer, place, reply

        for trace in traces.many("ends", events):
            box = Counting()
            for line in trace.lines:
                box.line(line)
        return seen

    def test_each_end_in_traces(self):
        """Every length that is too short of the types without a list, every part of a list and of its count, and surplus of every kind.
        Otherwise the traces would show nothing."""
        seen = self.ends_in(40000)
        early = {5: (1, 2, 4, 5, 6), 7: range(1, 9), 10: range(1, 8), 21: (1, 2), 23: (1, 2), 26: (1,)}
        parts = {21: ("before an ID", "in an ID"),
                 23: ("before an ID", "in an ID", "before a length", "in a length", "before a block", "in a block")}
        kinds = [(kind, ENDS_EARLY, place) for kind, places in early.items() for place in places]
        kinds += [(kind, LIST_CUT, part) for kind, found in parts.items() for part in found]
        kinds += [(kind, LEFT_OVER, surplus) for kind in early for surplus in ("one byte", "a few bytes", "many")]
        self.assertLessEqual(set(seen), set(kinds))
        for kind in kinds:
            self.assertGreater(seen[kind], 2, kind)

    def test_where_a_list_is_cut(self):
        """An entry of 8, 2 and 1 bytes, and an ID."""
        content = b"\x17\x00\x02" + field(INPUT_IDS[0], 8) + b"\x00\x01\x00"
        found = ["before an ID"] + ["in an ID"] * 7 + ["before a length", "in a length", "before a block", "before an ID"]
        self.assertEqual([traces.cut_in(content[:n]) for n in range(3, 15)], found)
        self.assertEqual(traces.cut_in(content[:12] + b"\x02\x00"), "in a block")
        content = b"\x15\x00\x02" + field(INPUT_IDS[0], 8)
        self.assertEqual([traces.cut_in(content[:n]) for n in (3, 4, 10, 11)], ["before an ID", "in an ID", "in an ID", "before an ID"])

    def test_edges_of_a_content(self):
        """Where its fields begin and the last one ends; of a list that is cut, where what is begun would go on and end."""
        self.assertEqual(traces.edges(b"\x05\x00\x00"), [1, 3, 7])
        self.assertEqual(traces.edges(b"\x63\x00"), [1])
        self.assertEqual(traces.edges(b"\x15\x00\x02" + bytes(16)), [1, 3, 11, 19])
        self.assertEqual(traces.edges(b"\x17\x00\x02" + bytes(8) + b"\x00\x02\x01\x01" + bytes(10)), [1, 3, 11, 13, 15, 23, 25, 25])
        self.assertEqual(traces.edges(b"\x17\x00\x01" + bytes(3)), [1, 3, 11, 13, 13])

    def test_same_seed_same_trace(self):
        self.assertEqual(traces.make("a", 300), traces.make("a", 300))
        self.assertNotEqual(traces.make("a", 300).lines, traces.make("b", 300).lines)

    def test_trace_ends_with_state(self):
        trace = traces.make("a", 300)
        self.assertEqual(trace.lines[-1], "state")
        self.assertGreaterEqual(trace.events, 300)
        self.assertEqual(hold.expected_of(trace.lines), trace.printed)

    def test_first_difference(self):
        self.assertIsNone(hold.first_difference(["1", "2"], ["1", "2"]))
        self.assertEqual(hold.first_difference(["1", "2"], ["1", "3"]), 1)
        self.assertEqual(hold.first_difference(["1", "2"], ["1"]), 1)
        self.assertEqual(hold.first_difference(["1"], ["1", "2"]), 1)

    def test_shrinker(self):
        """A fault that three of many lines show is shrunk to those three."""
        class Wraps(Box):
            def one_more(self, count):
                return count + 1 & TOP32

        def play(lines):
            box = Wraps()
            return [box.line(line) for line in lines]

        for index in range(20):
            trace = traces.make(f"shrink/{index}", 1000)
            if play(trace.lines) != trace.printed:
                break
        lines = hold.Shrinker(play, 3000).shrink(trace.lines)
        self.assertNotEqual(play(lines), hold.expected_of(lines))
        self.assertLessEqual(len(lines), 6, lines)

    def test_shrinker_of_lists(self):
        """Entries are dropped with their count, so that a list of many keeps what is left over behind it, or missing."""
        entry = field(INPUT_IDS[0], 8) + b"\x00\x05\x02\x00\x00\x00\x07"
        for name, content, shortest in (("surplus told one too far", b"\x17\x00\x28" + entry * 40 + b"\x00", "010004FFFF17000000"),
                                        ("20 between two entries", b"\x17\x00\x29" + entry * 40, "010012FFFF170002" + entry.hex())):
            def play(lines):
                box = MUTANTS[name]()
                return [box.line(line) for line in lines]

            line = f"bytes 0 4096 {traces.framed(content).hex().upper()}"
            lines = hold.Shrinker(play, 3000).shrink(["open 0 2", "level 1 1", line, "state"])
            self.assertNotEqual(play(lines), hold.expected_of(lines))
            self.assertEqual([line.split(" ")[0] for line in lines], ["open", "bytes"], lines)
            self.assertEqual(len(lines[-1].split(" ")[3]), len(shortest), lines)


    def test_shrinker_of_places(self):
        """A fault that an opening, a filling and a command show; the row's length is left out where it does not matter."""
        def play(lines):
            box = MUTANTS["channel 13 served where place 1 alone is filled"]()
            return [box.line(line) for line in lines]

        lines = ["open 0 2 0", "fill 2 64", "empty 2 31", "fill 1 32", "empty 1 30", "level 1 1", "bytes 0 4096 010004FFFF0A01000D 31",
                 "state"]
        self.assertEqual(hold.Shrinker(play, 3000).shrink(lines), ["open 0 2", "fill 1", "bytes 0 4096 010004FFFF0A01000D"])


if __name__ == "__main__":
    unittest.main()
