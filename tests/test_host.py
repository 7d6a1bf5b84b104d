#!/usr/bin/env python3
"""The reference host over loopback, tried by a client of its own.  Every reply is compared with the model's.

    python3 tests/test_host.py              over target/host/boxd
    BOXD=boxd-san python3 tests/test_host.py    over the build with sanitizers

Seeds are fixed, ports are free ones, and nothing waits for a fixed time but what is slowed down or held up on purpose.
"""

import base64
import hashlib
import os
import random
import re
import select
import shutil
import signal
import socket
import subprocess
import sys
import tempfile
import threading
import time
import unittest

import traces
from answers import (BAD_CHECKSUM, ENDS_EARLY, KEEP_ALIVE, LEFT_OVER, LIST_CUT, LOW_RANK, NOT_OFFERED, OUT_OF_RANGE, QUEUE_FULL, SERVED, STRAY,
                     TOO_LONG, WAITING)
from boxd import (Boxd, CLOCK, Client, HOW_MANY, LAST_REFUSED, LIST, MONITOR, PATIENCE, PROGRAM, Program, ROOT, block_pulse, command, frame, judge,
                  login, outputs, pulse, refused, string, unchecked)
from model import Box, DECK_IDS, INPUT_IDS, RELAY_IDS, field, number

sys.path.insert(0, os.path.join(ROOT, "host"))
import adduser                                                                                      # noqa: E402

SETTINGS = "3 7 900 1 " * 8 + "500 " * 8            # alarms that a short test reaches


def settings_file(folder):
    path = os.path.join(folder, "settings")
    with open(path, "w", encoding="ascii") as file:
        file.write(SETTINGS)
    return path


def wrongly_asked(question):
    """Messages that are no question to the host: its content with another end, payload size, command type, name or type, or cut."""
    asks = question[5:]
    name = asks[2:-3]
    return [frame(content) for content in (asks[:-1], asks + b"\x00", asks[:-1] + b"\x01", asks[:-3] + b"\x01\x00\x00",
                                           asks.replace(name, name.title()), b"\xFE" + asks[1:], asks[:1], asks[:2 + len(name)])]


def run_all(*works):
    """Runs them at once; the first fault of any is raised."""
    faults = []

    def run(work):
        try:
            work()
        except BaseException as fault:              # noqa: B902
            faults.append(fault)

    threads = [threading.Thread(target=run, args=(work,)) for work in works]
    for thread in threads:
        thread.start()
    for thread in threads:
        thread.join()
    if faults:
        raise faults[0]


class Case(unittest.TestCase):
    def setUp(self):
        self.folder = tempfile.TemporaryDirectory()
        self.begun = time.monotonic()

    def tearDown(self):
        self.folder.cleanup()
        print(f"    {time.monotonic() - self.begun:5.1f} s  {self.id().split('.', 1)[1]}", flush=True)

    def users_file(self, *lines):
        path = os.path.join(self.folder.name, "users")
        with open(path, "w", encoding="latin-1", newline="") as file:
            file.write("".join(line + "\n" for line in lines))
        os.chmod(path, 0o600)
        return path

    def refused(self, *words):
        """Starts the host, which must not start; what it says."""
        with Program([os.path.join(ROOT, "host", "exec"), PROGRAM, *words]) as program:
            self.assertEqual(program.ended(), 1)
            self.assertFalse(program.find("listens on"))
            return "\n".join(program.lines)


# ---------------------------------------------------------------------------------------------
# Many clients at once
# ---------------------------------------------------------------------------------------------

class Clients(Case):
    def stream(self, seed, messages):
        """Now and then among them: which message was refused last, on whichever connection."""
        maker = traces.Maker(seed)
        return b"".join(maker.message() + (b"" if index % 25 else LAST_REFUSED) for index in range(messages))

    def one_client(self, host, clients, seed):
        """Three connections, one after the other.  Each may break off within a message."""
        rng = random.Random(seed)
        for part in range(3):
            stream = self.stream(f"{seed}/{part}", 500)
            if part == 1:
                stream = stream[:len(stream) - rng.randrange(1, 9)]
            client = Client(host.port)
            clients.append(client)
            client.talk(stream, rng, rng.choice((40, 400, 3000)))

    def lifts(self, host, seed, n):
        """Levels, and modules that are plugged in and pulled; at the end both are there."""
        rng = random.Random(seed)
        for _ in range(n):
            host.tell(f"level {rng.randrange(1, 9)} {rng.randrange(2)}")
            if rng.randrange(20) == 0:
                host.tell(f"{rng.choice(('filled', 'emptied'))} {rng.randrange(1, 3)}")
        host.tell("filled 1\nfilled 2")

    def four_at_once(self, *words):
        """What is played of four clients at a time, each of whom got what the model replies, no byte more or less."""
        clients = []
        with Boxd(*words, "--settings", settings_file(self.folder.name), trace=True) as host:
            run_all(*[lambda seed=seed: self.one_client(host, clients, f"four/{seed}") for seed in range(4)],
                    lambda: self.lifts(host, "lifts", 1000))
            host.quit()
            played = judge(host, clients)
        self.assertEqual(len(clients), 12)
        self.assertEqual(played.box.filled, {1, 2})
        self.assertGreater(sum(content[0] == 2 and 1 in outputs(content) for client in clients for content in client.contents()), 10)
        for answer in (WAITING, SERVED, KEEP_ALIVE, STRAY, TOO_LONG, BAD_CHECKSUM, NOT_OFFERED, OUT_OF_RANGE, ENDS_EARLY, LEFT_OVER, LIST_CUT):
            self.assertIn(answer, played.answers)
        return played

    def test_four_at_once_cut_and_joined(self):
        """Bytes of four connections, cut at random and joined.  The same bytes on strict connections: those with 0xFFFF are refused besides."""
        lenient, strict = self.four_at_once(), self.four_at_once("--strict")
        self.assertEqual({session.opened for session in lenient.sessions}, {("2",)})
        self.assertEqual({session.opened for session in strict.sessions}, {("2", "1")})
        self.assertGreater(strict.answers[BAD_CHECKSUM], 2 * lenient.answers[BAD_CHECKSUM])

    def test_slow_reader(self):
        """A client that does not read is not read from; the others notice nothing, and it loses no reply."""
        ids = (INPUT_IDS + RELAY_IDS) * 7 + INPUT_IDS[:6] * 2
        message = frame(b"\x15" + field(len(ids), 2) + b"".join(field(id, 8) for id in ids))
        with Boxd(trace=True) as host, Client(host.port, small=True) as slow, Client(host.port) as quick:
            sender = threading.Thread(target=slow.send, args=(message * 1000,))
            sender.start()
            self.stands_still(host, quick)
            self.assertLess(host.count("connection 0 read"), 500)
            reader = threading.Thread(target=self.read_replies, args=(slow, 1000))
            reader.start()
            sender.join(PATIENCE)
            reader.join(PATIENCE)
            slow.finish()
            quick.finish()
            host.quit()
            judge(host, [slow, quick])
        self.assertEqual(slow.got.count(frame(b"\x16")[5:] + field(len(ids), 2)), 1000)

    def stands_still(self, host, quick):
        """Asks on the quick connection until the slow one has not been served for 200 answers."""
        still = served = 0
        while still < 10:
            for _ in range(20):
                quick.clock()
            now = host.count("connection 0 read")
            still = still + 1 if now == served > 0 else 0
            served = now

    def read_replies(self, client, n):
        for _ in range(n):
            client.next_of(22)

    def test_strays_and_oversize_frames(self):
        """Floods of bytes that are no message do not hinder another client, and are told in few lines."""
        rng = random.Random("flood")
        strays = bytes(rng.choice((0x00, 0x02, 0x07, 0x80, 0xFE, 0xFF)) for _ in range(20000))
        oversize = b"".join(b"\x01" + field(size, 2) + b"\xFF\xFF" + bytes([rng.choice((0x01, 0x06, 0x55))]) * size
                            for size in (1025, 65535, 4096, 32768, 65535, 1025) * 5)
        with Boxd(trace=True) as host, Client(host.port) as other:
            floods = [Client(host.port) for _ in range(3)]
            run_all(lambda: floods[0].talk(strays + MONITOR, rng, 5000),
                    lambda: floods[1].talk(oversize + CLOCK, random.Random("1"), 9000),
                    lambda: floods[2].talk(strays[:9000] + oversize + MONITOR, random.Random("2"), 700),
                    lambda: [other.clock() for _ in range(100)])
            other.finish()
            host.quit()
            played = judge(host, floods + [other])
            self.assertLess(host.count("stray bytes"), 9000)
        self.assertEqual(played.answers[TOO_LONG], 60)
        self.assertGreaterEqual(played.answers[STRAY], 29000)

    def test_fifth_client(self):
        """The fifth is told so, in the protocol's own words, and closed; the four go on; a place that is left is given again."""
        with Boxd(trace=True) as host:
            four = [Client(host.port) for _ in range(4)]
            for client in four:
                client.clock()
            for greeting in (b"", CLOCK * 50):
                with Client(host.port) as fifth:
                    fifth.send(greeting)
                    told = fifth.next()
                    self.assertEqual(told[0], 3)
                    self.assertEqual(told[-2:], b"\n\x00")
                    self.assertIn(b"All four connections", told)
                    self.assertIsNone(fifth.next())
            four[2].finish()
            host.wait_for("connection 2 closed")
            with Client(host.port) as sixth:
                sixth.clock()
                for client in four[:2] + four[3:] + [sixth]:
                    client.clock()
                    client.finish()
                host.quit()
                judge(host, four + [sixth])

    def test_half_a_message_then_hang_up(self):
        """Its half is dropped: the next client of that connection begins afresh."""
        message = frame(b"\x0A\x01\x00\x03")
        with Boxd(trace=True) as host:
            clients = []
            for cut in range(1, len(message)):
                client = Client(host.port)
                clients.append(client)
                client.send(MONITOR + message[:cut])
                if cut % 2:
                    client.finish()
                else:                               # without a word: what the box still had to say is lost with it
                    client.next()
                    client.close()
                host.wait_for(f"connection 0 closed: .*{cut} bytes of an unfinished message were dropped")
            with Client(host.port) as last:
                last.send(message)
                last.finish()
            host.quit()
            judge(host, clients[0::2] + [last])
            self.assertEqual(host.count("relay 3 is closed now"), 1)

    def test_kill_and_restart(self):
        """A killed host leaves no trouble behind: it starts again on its port at once, as after power-up."""
        with Boxd() as host:
            client = Client(host.port)
            host.tell("level 2 1")
            client.send(frame(b"\x0A\x01\x00\x01"))
            host.wait_for("relay 1 is closed now")
            host.process.kill()
            self.assertEqual(host.ended(), -signal.SIGKILL)
            with self.assertRaises((ConnectionError, AssertionError)):
                while True:
                    self.assertIsNotNone(client.next())
            client.close()
        with Boxd(port=host.port) as again, Client(host.port) as client:
            content = client.ask(MONITOR, 1)
            self.assertEqual(content[17:89], bytes(72))
        for number_, word in ((signal.SIGTERM, "SIGTERM"), (signal.SIGINT, "SIGINT")):
            with Boxd(port=host.port) as ended, Client(host.port) as client, self.subTest(word):
                client.clock()
                ended.process.send_signal(number_)
                self.assertEqual(ended.ended(), 0)
                self.assertTrue(ended.find("the box has ended"))
                self.assertIsNone(client.next_of(99))


# ---------------------------------------------------------------------------------------------
# Time, inputs, commands
# ---------------------------------------------------------------------------------------------

class Events(Case):
    def test_monitor_when_due(self):
        """A change comes to every client that has Monitor on, without being asked for."""
        with Boxd(trace=True) as host, Client(host.port) as one, Client(host.port) as two:
            for client in (one, two):
                self.assertEqual(client.next()[0], 1)
            two.send(frame(b"\x05\x00\x04") + CLOCK)
            two.next_of(6)
            for k, count in ((3, 1), (3, 1), (8, 1), (3, 2)):
                before = len(host.lines)
                host.tell(f"level {k} {1 - self.level_of(one, k)}")
                host.wait_for(f"input {k} is ", before)
            self.assertFalse(two.waits())
            one.finish()
            two.finish()
            host.quit()
            judge(host, [one, two])
        self.assertGreater(one.got.count(b"jr310"), 4)

    def level_of(self, client, k):
        return client.ask(MONITOR, 1)[17 + 8 * (k - 1)]

    def test_time(self):
        """The clock goes as the monotonic clock does, through thousands of messages: no ms is lost or counted twice."""
        with Boxd(trace=True) as host, Client(host.port) as client:
            asked = []
            for turns, rest in ((700, 0), (15, 0.02), (700, 0), (0, 0)):            # busy, at rest between, busy
                before = time.monotonic()
                reading = client.clock()
                asked.append((before, time.monotonic(), reading))
                for _ in range(turns):
                    time.sleep(rest)
                    client.clock()
            for (sent, got, reading), (sent_, got_, reading_) in zip(asked, asked[1:]):
                self.assertLessEqual((sent_ - got) * 1000 - 2, reading_ - reading)
                self.assertLessEqual(reading_ - reading, (got_ - sent) * 1000 + 2)
            client.finish()
            host.quit()
            passed = judge(host, [client]).passed
        self.assertLessEqual((host.quit_at - host.up) * 1000 - 2, passed)
        self.assertLessEqual(passed, (host.end_at - host.begun) * 1000 + 2)

    def test_commands(self):
        """`level`, `state` and `quit`, and lines that are none.  What `state` prints is what the model holds."""
        with Boxd("--settings", settings_file(self.folder.name), trace=True) as host, Client(host.port) as client:
            client.send(frame(b"\x0A\x0A\x81\x81"))
            for line, said in (("level 1 1", "input 1 is on: 1 counted"), ("level 1 1", "input 1 was on already"),
                               ("  level\t8   1 ", "input 8 is on"), ("level 1 0", "input 1 is off: 1 counted"),
                               ("level 9 1", "level " + refused(OUT_OF_RANGE) + ": write"), ("level 1 2", "level " + refused(OUT_OF_RANGE)),
                               ("level x y", "level " + refused(OUT_OF_RANGE)), ("level 1", "no such command: write"),
                               ("stat", "no such command"), ("x" * 5000, "a line that long")):
                before = len(host.lines)
                host.tell(line)
                host.wait_for(said, before)
            client.clock()
            host.tell("\n\nstate\nlevel 5 0")
            host.wait_for("input 5 was off already")
            client.finish()
            host.quit()
            box = judge(host, [client]).box
            for k in range(8):
                self.assertTrue(host.find(f"state: input {k + 1} {'on' if box.inputs[k].level else 'off'}, count {box.inputs[k].count}, "))
                self.assertTrue(host.find(f"state: relay {k + 1} {'closed' if box.relays[k].state else 'open'}, usage "))
            self.assertTrue(host.find(r"state: connection 0 is 127\.0\.0\.1:\d+, administrator, Monitor on, 0 bytes"))
            self.assertTrue(host.find("state: connection 3 is free"))

    def test_state_at_the_setpoints(self):
        """M-101: `state` tells a count that stands at its setpoint from one above it."""
        with Boxd("--settings", settings_file(self.folder.name)) as host:
            words = {2: "", 3: ", setpoint 1 reached", 4: ", count alarm 1", 7: ", count alarm 1, setpoint 2 reached",
                     8: ", count alarm 1, count alarm 2"}
            for count in range(1, 9):
                host.tell("level 1 1\nlevel 1 0")
                if count in words:
                    before = len(host.lines)
                    host.tell("state")
                    host.wait_for(rf"state: input 1 off, count {count}, usage \d+ ms{words[count]}$", before)
            host.quit()

    def test_without_standard_input(self):
        """The end of standard input ends the commands, not the box."""
        with Boxd() as host, Client(host.port) as client:
            host.process.stdin.close()
            client.clock()
            host.process.terminate()
            self.assertEqual(host.ended(), 0)

    def test_output_that_nobody_reads(self):
        """Standard output that is not read delays no client; lines are left out, and that is said."""
        words = [os.path.join(ROOT, "host", "exec"), PROGRAM, "--listen", "127.0.0.1:0"]
        process = subprocess.Popen(words, stdin=subprocess.PIPE, stdout=subprocess.PIPE)
        try:
            port = int(process.stdout.readline().decode().rsplit(":", 1)[1])
            process.stdin.write(b"state\n" * 200)           # forty lines each
            process.stdin.flush()
            with Client(port) as client:
                client.talk(frame(b"\x05\x00\x00") * 9000, random.Random("unread"), 3000)
                self.assertEqual([content[0] for content in client.contents()].count(6), 9000)
            process.terminate()
            printed = process.stdout.read().decode()
            self.assertEqual(process.wait(PATIENCE), 0)
            self.assertTrue("lines were left out here" in printed)
            self.assertTrue("the box has ended" in printed.rsplit("\n", 2)[1])
        finally:
            process.kill()
            process.wait()
            process.stdin.close()
            process.stdout.close()

    def test_morning(self):
        """Fish rise at random; what is printed, what the clients get and what the model counts agree.  A seed fixes when each lift has
        its first: the host may be late where the machine is busy, never early."""
        with Boxd("--simulate", "--seed", "105", trace=True) as host, Client(host.port) as client:
            while host.count("fish on lift") < 4:
                client.next_of(1)
            client.finish()
            host.quit()
            played = judge(host, [client])
            self.assertEqual(sum(inp.count for inp in played.box.inputs), host.count("fish on lift"))
        due = self.first_fish(105)
        self.assertGreaterEqual(len(played.rises), 4)
        for k, at in played.rises.items():
            self.assertGreaterEqual(at, due[k - 1])

    def first_fish(self, seed):
        """The times in ms that host/morning.c draws."""
        state, times = (seed * 0x9E3779B97F4A7C15) % 2 ** 64 | 1, []
        for _ in range(16):
            state ^= (state << 13) % 2 ** 64
            state ^= state >> 7
            state ^= (state << 17) % 2 ** 64
            times.append((state >> 32) % 7500)
        return times[1::2]


# ---------------------------------------------------------------------------------------------
# Pulses
# ---------------------------------------------------------------------------------------------

class Pulses(Case):
    def relays(self, content):
        """The relays that a Monitor message shows closed."""
        return [k for k in range(1, 9) if content[80 + k]]

    def usage(self, client, k):
        """A relay's usage, by a message of type 21."""
        return number(client.ask(frame(b"\x15\x00\x01" + field(RELAY_IDS[k - 1], 8)), 22)[14:22])

    def how_many(self, client):
        return client.ask(HOW_MANY, 254)[4]

    def said(self, host, pattern):
        """What the host said that fits, in its order, without date and time."""
        return [line.split(" ", 2)[2] for line in list(host.lines) if re.search(pattern, line)]

    def test_begins_and_ends(self):
        """The relay opens again by itself, in a box that nothing else wakes, and was closed for that long to the ms."""
        with Boxd(trace=True) as host, Client(host.port) as client:
            self.assertEqual(self.relays(client.next()), [])
            begun = time.monotonic()
            client.send(pulse(3, 300))
            self.assertEqual(self.relays(client.next()), [3])
            self.assertEqual(self.relays(client.next()), [])
            self.assertGreaterEqual(time.monotonic() - begun, 0.29)
            self.assertEqual(self.usage(client, 3), 300)
            client.finish()
            host.quit()
            judge(host, [client])
        self.assertEqual(self.said(host, "pulse"), [
            "connection 0 asked for a pulse of relay 3, 300 ms: it has begun; relay 3 is closed now",
            "the pulse of relay 3, 300 ms, has ended; relay 3 is open now"])

    def test_several_ends_at_once(self):
        """A box that was held up tells several ends in one call, each in its turn; what then differs stands in the last line."""
        with Boxd(trace=True) as host, Client(host.port) as client:
            client.send(frame(b"\x0A\x01\x00\x02") + pulse(1, 1500) + block_pulse(0x06, 0x04, 2) + pulse(8, 3) + block_pulse(0xC0, 0, 60000))
            host.wait_for("waits behind 3 others")
            host.process.send_signal(signal.SIGSTOP)
            time.sleep(2)
            before = len(host.lines)
            host.process.send_signal(signal.SIGCONT)
            host.wait_for("mask C0 state 00, 60000 ms, has begun", before)
            self.assertEqual(self.how_many(client), 1)
            self.assertEqual([self.usage(client, k) for k in (1, 3, 8)], [1500, 2, 3])
            client.finish()
            host.quit()
            played = judge(host, [client])
            self.assertEqual([relay.state for relay in played.box.relays], [0, 1] + [0] * 14)
        self.assertEqual(self.said(host, "pulse of .* (has begun|has ended|waits)"), [
            "connection 0 asked for a pulse of relay 1, 1500 ms: it has begun; relay 1 is closed now",
            "connection 0 asked for a pulse of a block of relays, mask 06 state 04, 2 ms: it waits behind 1 other",
            "connection 0 asked for a pulse of relay 8, 3 ms: it waits behind 2 others",
            "connection 0 asked for a pulse of a block of relays, mask C0 state 00, 60000 ms: it waits behind 3 others",
            "the pulse of relay 1, 1500 ms, has ended",
            "the pulse of a block of relays, mask 06 state 04, 2 ms, has begun",
            "the pulse of a block of relays, mask 06 state 04, 2 ms, has ended",
            "the pulse of relay 8, 3 ms, has begun",
            "the pulse of relay 8, 3 ms, has ended",
            "the pulse of a block of relays, mask C0 state 00, 60000 ms, has begun; relay 1 is open now"])

    def test_full_queue(self):
        """31 stand at most: the next is refused and told why; with each end there is room for one more."""
        with Boxd(trace=True) as host, Client(host.port) as client, Client(host.port) as other:
            client.send(pulse(1, 1500) + pulse(2, 1) * 30 + pulse(3, 1) + HOW_MANY)
            self.assertEqual(client.next_of(254)[4], 31)
            self.assertEqual(self.how_many(other), 31)
            host.wait_for("connection 0 asked for a pulse of relay 2, 1 ms: it waits behind 30 others")
            host.wait_for(refused(QUEUE_FULL) + ": 31 pulses stand in the queue")
            while self.how_many(other):
                pass
            client.send(pulse(4, 1) * 40)
            while self.how_many(client):
                pass
            for one in (client, other):
                one.finish()
            host.quit()
            played = judge(host, [client, other])
        self.assertEqual(played.box.queue, [])
        self.assertEqual(host.count("pulse of relay 2, 1 ms, has ended"), 30)
        self.assertEqual(host.count("pulse of relay 3"), 0)
        self.assertGreaterEqual(host.count("pulse of relay 4, 1 ms, has ended"), 31)
        self.assertEqual(host.count("pulse of .* has ended"), host.count("pulse of .* has begun"))

    def test_commands_meanwhile(self):
        """What a client does to the relay while its pulse runs is undone at its end; a closed connection ends no pulse."""
        with Boxd(trace=True) as host, Client(host.port) as other:
            self.assertEqual(self.relays(other.next()), [])
            with Client(host.port) as client:
                client.send(frame(b"\x0A\x01\x00\x05") + block_pulse(0x30, 0x20, 1500) + frame(b"\x0A\x0A\xFF\x11"))
                client.finish()
            host.wait_for("connection 1 closed")
            self.assertEqual(self.how_many(other), 1)
            while self.how_many(other):
                pass
            self.assertEqual(self.relays(other.ask(MONITOR, 1)), [1, 5])
            other.finish()
            host.quit()
            judge(host, [client, other])
        self.assertTrue(host.find("mask 30 state 20, 1500 ms, has ended$"))

    def test_state(self):
        """`state` tells each pulse that stands."""
        with Boxd() as host, Client(host.port) as client:
            host.tell("state")
            host.wait_for("state: no pulse stands in the queue")
            client.send(pulse(2, 50000) + block_pulse(0x81, 0x01, 5) + pulse(7, 4294967295))
            self.assertEqual(self.how_many(client), 3)
            before = len(host.lines)
            host.tell("state")
            host.wait_for("connection 3 is free", before)
            left = int(host.find(r"state: the pulse of relay 2, 50000 ms, runs: (\d+) ms left", before).group(1))
            self.assertTrue(0 < left <= 50000)
            self.assertEqual([line.split("state: ")[1] for line in host.lines[before:] if re.search("state: .* waits", line)],
                             ["the pulse of a block of relays, mask 81 state 01, 5 ms, waits", "the pulse of relay 7, 4294967295 ms, waits"])
            host.quit()

    def test_how_many_is_asked_right(self):
        """Another name, command type or payload is no question of this host: no answer, and refused as a type that is not offered."""
        wrong = wrongly_asked(HOW_MANY)
        with Boxd(trace=True) as host, Client(host.port) as client:
            client.send(b"".join(wrong) + HOW_MANY)
            self.assertEqual(client.next_of(254), b"\xFE\x00\x00\x01\x00")
            client.finish()
            host.quit()
            judge(host, [client])
        self.assertEqual(host.count(refused(NOT_OFFERED)), len(wrong))


# ---------------------------------------------------------------------------------------------
# The second deck (M-102)
# ---------------------------------------------------------------------------------------------

class SecondDeck(Case):
    def say(self, host, line, pattern):
        """Writes a line to standard input, and waits for what is said of it."""
        before = len(host.lines)
        host.tell(line)
        return host.wait_for(pattern, before)

    def state(self, host):
        """What `state` says of places and of relays from 9 on."""
        before = len(host.lines)
        self.say(host, "state", "state: connection 3")
        return [line.split("state: ")[1] for line in host.lines[before:] if re.search(r"state: (place|relay (9|1\d)) ", line)]

    def kinds(self, client, n):
        """The types of the next messages."""
        return [client.next()[0] for _ in range(n)]

    def test_commands(self):
        """`filled` and `emptied`: what is said of a place, of one that is so already and of one that there is not; `state` tells the places and
        those relays that are there.
        """
        place = r" \(11\): write `{0} P` with P 1 \(relays 9 to 12\) or 2 \(relays 13 to 16\)$"
        with Boxd(trace=True) as host:
            self.assertEqual(self.state(host), ["place 1 is empty", "place 2 is empty"])
            for line, said in (("filled 2", "place 2 is filled: relays 13 to 16 are there, all open$"),
                               ("filled 2", "place 2 was filled already: nothing changed$"), ("emptied 1", "place 1 was empty already: nothing changed$"),
                               *((f"{name} {word}", f"{name} refused" + place.format(name))
                                 for name in ("filled", "emptied") for word in ("0", "3", "9", "255", "256", "x", "-1")),
                               ("filled", "no such command: write .*`filled P`, `emptied P`"), ("emptied 1 1", "no such command"), ("fill 1", "no such"),
                               (" filled\t1 ", "place 1 is filled: relays 9 to 12 are there, all open$")):
                self.say(host, line, said)
            with Client(host.port) as client:
                client.send(command(1, 10) + command(1, 16))
                client.clock()
            self.assertEqual(self.state(host), ["place 1 is filled, relays 9 to 12", "relay 9 open", "relay 10 closed", "relay 11 open", "relay 12 open",
                                                "place 2 is filled, relays 13 to 16", "relay 13 open", "relay 14 open", "relay 15 open", "relay 16 closed"])
            self.say(host, "emptied 1", "place 1 is empty: relays 9 to 12 are gone; relay 10 is open now$")
            self.assertEqual(self.state(host), ["place 1 is empty", "place 2 is filled, relays 13 to 16", "relay 13 open", "relay 14 open",
                                                "relay 15 open", "relay 16 closed"])
            self.say(host, "filled 1", "place 1 is filled")
            self.assertIn("relay 10 open", self.state(host))
            self.say(host, "emptied 1", "place 1 is empty: relays 9 to 12 are gone$")
            host.quit()
            box = judge(host, []).box
        self.assertEqual((box.filled, [relay.state for relay in box.relays[8:]]), ({2}, [0] * 7 + [1]))

    def test_two_messages(self):
        """Both Monitor messages come with a connection, with request 1 and with a level, one behind the other; a relay of the second deck brings type 2
        alone, and without a module there is no type 2.
        """
        with Boxd(trace=True) as host, Client(host.port) as early:
            self.assertEqual(early.next()[0], 1)
            self.say(host, "filled 2", "is filled")
            early.clock()
            self.assertFalse(early.waits())                         # a module that is plugged in makes nothing due
            with Client(host.port) as client:
                self.assertEqual(self.kinds(client, 2), [1, 2])
                client.send(MONITOR)
                self.assertEqual(self.kinds(client, 2), [1, 2])
                self.say(host, "level 3 1", "input 3 is on")
                for one in (client, early):
                    self.assertEqual(self.kinds(one, 2), [1, 2])
                client.send(command(1, 15))
                for one in (client, early):
                    self.assertEqual(outputs(one.next()), [0, 0, 1, 0])
                client.send(command(1, 5))
                for one in (client, early):
                    self.assertEqual(self.kinds(one, 2), [1, 2])
                self.say(host, "filled 1", "is filled")
                client.send(MONITOR)
                self.assertEqual((client.next()[0], outputs(client.next())), (1, [0, 0, 0, 0, 0, 0, 1, 0]))
                self.say(host, "emptied 2", "relay 15 is open now")
                for one in (client, early):
                    self.assertEqual(outputs(one.next()), [0, 0, 0, 0])
                self.say(host, "emptied 1", "is empty")
                client.send(MONITOR + CLOCK)
                self.assertEqual(self.kinds(client, 2), [1, 6])
                client.finish()
            early.finish()
            host.quit()
            judge(host, [client, early])

    def test_hung_up(self):
        """A client that has hung up still gets type 2, where that alone is due."""
        with Boxd(trace=True) as host:
            self.say(host, "filled 1", "is filled")
            with Client(host.port) as client:
                self.assertEqual(self.kinds(client, 2), [1, 2])
                client.send(command(3, 12))
                client.finish()
            host.quit()
            judge(host, [client])
        last = list(client.contents())[-1]
        self.assertEqual(outputs(last), [0, 0, 0, 1])

    def test_requests(self):
        """Requests 4 and 5 turn both messages off and on."""
        with Boxd(trace=True) as host:
            self.say(host, "filled 1", "is filled")
            with Client(host.port) as client:
                self.assertEqual(self.kinds(client, 2), [1, 2])
                client.send(frame(b"\x05\x00\x04") + command(1, 9) + command(1, 1) + CLOCK)
                self.assertEqual(self.kinds(client, 1), [6])
                client.send(frame(b"\x05\x00\x05") + command(2, 9) + CLOCK)
                self.assertEqual(sorted(self.kinds(client, 2)), [2, 6])
                client.finish()
            host.quit()
            judge(host, [client])

    def test_login(self):
        """Neither message comes before a login, and both come behind it."""
        with Boxd("--users", self.users_file(adduser.line("anna", 1, b"salmon", 1000))) as host:
            self.say(host, "filled 1", "is filled")
            with Client(host.port) as client:
                client.send(command(1, 9) + login(b"anna", b"salmon"))
                self.assertEqual(self.kinds(client, 3), [125, 1, 2])
                client.send(command(1, 9))
                self.assertEqual(outputs(client.next()), [1, 0, 0, 0])
            host.quit()
        self.assertEqual((host.count(refused(LOW_RANK)), host.count("relay 9 is closed now")), (1, 1))

    def test_told(self):
        """What is said of commands to relays 9 to 16, and of those whose module is not there."""
        absent = "sent a message of type 10; " + refused(OUT_OF_RANGE) + ": relay {}: no module at place {}"
        range_ = "sent a message of type 10; " + refused(OUT_OF_RANGE) + ": an action, request, channel, duration or flag is out of range"
        with Boxd(trace=True) as host, Client(host.port) as client:
            self.say(host, "filled 1", "is filled")
            for message, said in (
                    (command(1, 9), "commanded relay 9 closed; relay 9 is closed now$"), (command(1, 9), "commanded relay 9 closed$"),
                    (command(3, 12), "toggled relay 12; relay 12 is closed now$"), (command(2, 9), "commanded relay 9 open; relay 9 is open now$"),
                    *((message, absent.format(k, 2)) for k in range(13, 17) for message in (command(1, k), command(2, k), command(3, k), pulse(k, 5))),
                    (pulse(14, 0), absent.format(14, 2)), (pulse(10, 0), range_), (command(1, 17), range_), (command(5, 9), range_),
                    (command(8, 13), range_), (command(9, 16), range_), (command(1, 0), range_), (frame(b"\x0A\x04\x00\x0D"), range_),
                    (frame(b"\x0A\x00\x00\x0D"), range_), (frame(b"\x1A\x09"), range_.replace("type 10", "type 26")),
                    (LIST, "listed the devices: 20$"), (frame(b"\x02" + bytes(14)), "sent a message of type 2; " + refused(NOT_OFFERED)),
                    (frame(b"\x17\x00\x01" + field(DECK_IDS[0], 8) + b"\x00\x02\x01\x01"), "wrote 0 of 1 devices$")):
                before = len(host.lines)
                client.send(message)
                host.wait_for("connection 0 " + said, before)
            self.say(host, "filled 2\nemptied 1", "place 1 is empty: relays 9 to 12 are gone; relay 12 is open now")
            client.send(command(1, 9))
            host.wait_for(absent.format(9, 1))
            client.clock()                                          # reads the answer to the first list
            self.assertEqual(client.ask(LIST, 27)[-32:], b"".join(field(id, 8) for id in DECK_IDS[4:]))
            client.finish()
            host.quit()
            judge(host, [client])

    def test_pulses(self):
        """Pulses of the second deck are told as others are, and end by themselves, which comes in type 2 alone."""
        with Boxd(trace=True) as host:
            self.say(host, "filled 2", "is filled")
            with Client(host.port) as client:
                self.assertEqual(self.kinds(client, 2), [1, 2])
                client.send(pulse(13, 300))
                self.assertEqual([outputs(client.next()) for _ in range(2)], [[1, 0, 0, 0], [0, 0, 0, 0]])
                client.finish()
            host.quit()
            judge(host, [client])
        self.assertTrue(host.find("asked for a pulse of relay 13, 300 ms: it has begun; relay 13 is closed now$"))
        self.assertTrue(host.find("the pulse of relay 13, 300 ms, has ended; relay 13 is open now$"))

    def test_pulled_while_pulses_stand(self):
        """Pulses of a module that is pulled keep their places and their times, and lose its relays; that is said.  The others stay as they are."""
        with Boxd(trace=True) as host, Client(host.port) as client:
            self.say(host, "filled 1\nfilled 2", "place 2 is filled")
            client.send(command(1, 11) + pulse(9, 1500) + pulse(13, 20) + pulse(12, 30) + block_pulse(0x81, 0x80, 40) + pulse(9, 60000))
            host.wait_for("waits behind 4 others")
            self.say(host, "emptied 1", "place 1 is empty: relays 9 to 12 are gone; relay 9 is open now; relay 11 is open now; "
                                        "3 pulses have lost them from their masks$")
            before = len(host.lines)
            self.say(host, "state", "connection 3")
            self.assertEqual([re.sub(r"\d+ ms left", "left", line.split("state: ")[1]) for line in host.lines[before:] if "the pulse" in line],
                             ["the pulse of no relay any more, 1500 ms, runs: left", "the pulse of relay 13, 20 ms, waits",
                              "the pulse of no relay any more, 30 ms, waits", "the pulse of a block of relays, mask 81 state 80, 40 ms, waits",
                              "the pulse of no relay any more, 60000 ms, waits"])
            self.say(host, "filled 1", "is filled")
            host.wait_for("the pulse of no relay any more, 60000 ms, has begun")
            self.assertEqual(client.ask(HOW_MANY, 254)[4], 1)
            self.say(host, "emptied 2\nfilled 2", "place 2 is filled")
            client.send(pulse(16, 5))
            host.wait_for("relay 16, 5 ms: it waits behind 1 other")
            self.say(host, "emptied 2", "place 2 is empty: relays 13 to 16 are gone; 1 pulse has lost them from its mask$")
            client.finish()
            host.quit()
            played = judge(host, [client])
        self.assertEqual([pulse.mask for pulse in played.box.queue], [0, 0])
        self.assertEqual(played.box.relay_states(), 0)
        self.assertEqual([found.group(1) for found in (re.search("the pulse of (.* ms, has (begun|ended))", line) for line in host.lines) if found], [
            "no relay any more, 1500 ms, has ended", "relay 13, 20 ms, has begun", "relay 13, 20 ms, has ended",
            "no relay any more, 30 ms, has begun", "no relay any more, 30 ms, has ended",
            "a block of relays, mask 81 state 80, 40 ms, has begun", "a block of relays, mask 81 state 80, 40 ms, has ended",
            "no relay any more, 60000 ms, has begun"])


# ---------------------------------------------------------------------------------------------
# Where a message is refused (M-105)
# ---------------------------------------------------------------------------------------------

class Refused(Case):
    # How the host tells each, with the place.
    WORDS = {ENDS_EARLY: "it ends too early at byte {}", LEFT_OVER: "bytes are left over from byte {} on",
             LIST_CUT: "its list of {} is cut at byte {}"}

    # A right content of each type, with its lists and with its longer forms.
    RIGHT = (b"\x05\x00\x00", b"\x05\x00\x04" + bytes(4), b"\x07" + bytes(8), b"\x0A\x01\x00\x02", b"\x0A\x0A\x81\x01", pulse(3, 5)[5:],
             block_pulse(0x18, 0x08, 5)[5:], b"\x15\x00\x02" + field(INPUT_IDS[0], 8) + field(RELAY_IDS[7], 8),
             b"\x17\x00\x02" + field(RELAY_IDS[0], 8) + b"\x00\x02\x01\x01" + field(INPUT_IDS[1], 8) + b"\x00\x05\x02\x00\x00\x00\x07",
             b"\x1A\x03")

    def crooked(self):
        """The right contents cut behind every byte, and with bytes behind them."""
        for content in self.RIGHT:
            yield from (content[:n] for n in range(1, len(content)))
            yield from (content + bytes(more) for more in (1, 2, 9))

    def told(self, content, answer, place):
        """How the host has to begin what it tells of a content that the model refuses for its length."""
        words = self.WORDS[answer].format(*([number(content[1:3])] if answer == LIST_CUT else []), place)
        return f"connection 0 sent a message of type {content[0]}; refused ({answer}): {words} (its type is byte 0). It should have "

    def test_told_where(self):
        """Every wrong length is told by its number, whether bytes are missing or too many, and where; as the model has it."""
        box, expected = Box(), []
        box.open(0, 2)
        for content in self.crooked():
            answer, _, place, _ = box.bytes_(0, 4096, frame(content))
            if answer in self.WORDS:
                expected.append(self.told(content, answer, place))
        with Boxd(trace=True) as host, Client(host.port) as client:
            client.send(b"".join(frame(content) for content in self.crooked()))
            client.finish()
            host.quit()
            judge(host, [client])
        found = [line.split(" ", 2)[2] for line in host.lines if "byte 0" in line]
        self.assertEqual([line[:len(words)] for line, words in zip(found, expected)], expected)
        self.assertEqual(len(found), len(expected))
        self.assertGreater(len(expected), 80)
        for example in ("type 10; refused (20): it ends too early at byte 3 (its type is byte 0). It should have 4 bytes, or 8 for a pulse",
                        "type 5; refused (21): bytes are left over from byte 7 on (its type is byte 0). It should have 3 bytes, or 7 with an interval",
                        "type 21; refused (22): its list of 2 is cut at byte 15 (its type is byte 0). It should have 3 bytes, and 8 for each ID"):
            self.assertTrue(any(example in line for line in found), example)

    def last(self, client):
        """What the host answers: kind, connection, type, answer, place; and how many seconds ago."""
        payload = client.ask(LAST_REFUSED, 254)[4:]
        self.assertEqual(len(payload), 10)
        return (*payload[:4], number(payload[4:6])), number(payload[6:])

    # Each with what is then told of it, sent on connection 1.
    REFUSED = ((frame(b"\x0A\x03\x00"), (2, 1, 10, ENDS_EARLY, 3)), (frame(b"\x0A\x03\x00\x01\x00"), (2, 1, 10, LEFT_OVER, 4)),
               (frame(b"\x15\x00\x02" + bytes(12)), (2, 1, 21, LIST_CUT, 15)), (unchecked(bytes(1025)), (1, 1, 0, TOO_LONG, 0)),
               (b"\x01\x00\x02\x00\x00\x63\x00", (2, 1, 99, BAD_CHECKSUM, 0)), (unchecked(b""), (1, 1, 0, NOT_OFFERED, 0)),
               (frame(b"\xFF"), (2, 1, 255, NOT_OFFERED, 0)), (frame(b"\x00"), (2, 1, 0, NOT_OFFERED, 0)),
               (frame(b"\x0A\x03\x00\x09"), (2, 1, 10, OUT_OF_RANGE, 0)), (frame(b"\x15\xFF\xFF" + bytes(1021)), (2, 1, 21, LIST_CUT, 1024)),
               (pulse(1, 60000) * 32, (2, 1, 10, QUEUE_FULL, 0)))

    # What is no refusal of a message: single bytes, half a message and its end, what is served, and what the host itself answers.
    OTHERS = (b"\x06", b"\x55\xFF", MONITOR[:7], MONITOR[7:], frame(b"\x0A\x01\x00\x01"), frame(b"\x17\x00\x01" + bytes(10)), HOW_MANY, LAST_REFUSED,
              login(b"", b""), frame(b"\x7E\x09"))

    def test_last_refused(self):
        """The host tells the last refused message, of whichever connection, to every connection, and nothing else; also when it is closed."""
        with Boxd(trace=True) as host, Client(host.port) as asking, Client(host.port) as other:
            self.assertEqual(self.last(asking), ((0, 0, 0, 0, 0), 0))
            for message, told in self.REFUSED:
                other.send(message + CLOCK)
                other.next_of(6)
                self.assertEqual(self.last(asking)[0], told)
                self.assertEqual(self.last(other)[0], told)
                for sent in self.OTHERS:
                    other.send(sent)
                other.clock()
                self.assertEqual(self.last(asking)[0], told)
            other.finish()
            host.wait_for("connection 1 closed")
            self.assertEqual(self.last(asking)[0], told)
            asking.send(frame(b"\x1A"))
            self.assertEqual(self.last(asking)[0], (2, 0, 26, ENDS_EARLY, 1))
            asking.finish()
            host.quit()
            judge(host, [asking, other])
        self.assertGreater(host.count("connection 0 asked which message was refused last"), len(self.REFUSED))

    def test_how_long_ago(self):
        """The seconds since it was refused grow with the box's own time; another refusal begins them anew."""
        with Boxd(trace=True) as host, Client(host.port) as client:
            for _ in range(2):
                begun = time.monotonic()
                client.send(frame(b"\x1A"))
                self.assertLess(self.last(client)[1], 1 + int(time.monotonic() - begun))
                while self.last(client)[1] < 1:
                    self.assertLess(time.monotonic() - begun, PATIENCE)
                    time.sleep(0.02)
                self.assertGreaterEqual(time.monotonic() - begun, 0.99)
            client.finish()
            host.quit()
            judge(host, [client])

    def test_last_refused_is_asked_right(self):
        """As with the other question: what is asked otherwise is refused, and is then the last refused message itself."""
        wrong = wrongly_asked(LAST_REFUSED)
        with Boxd(trace=True) as host, Client(host.port) as client:
            client.send(b"".join(wrong))
            self.assertEqual(self.last(client)[0], (2, 0, 255, NOT_OFFERED, 0))
            client.finish()
            host.quit()
            judge(host, [client])
        self.assertEqual(host.count(refused(NOT_OFFERED)), len(wrong))


# ---------------------------------------------------------------------------------------------
# Hashes and users
# ---------------------------------------------------------------------------------------------

class Hashes(Case):
    def work_out(self, asked):
        program = PROGRAM.replace("boxd", "hashes")
        done = subprocess.run([os.path.join(ROOT, "host", "exec"), program], input="\n".join(asked) + "\n", text=True,
                              stdout=subprocess.PIPE, timeout=PATIENCE, check=True)
        return done.stdout.split()

    def test_against_python(self):
        """PBKDF2 in slices gives what Python's gives, with passwords at every length around a block's edge; a longer salt than there may be is cut."""
        rng = random.Random("hashes")
        asked, expected = [], []
        for size in list(range(0, 140)) + [255, 256, 1000, 4096]:
            for iterations in (1, 2, 8) if size not in (0, 1, 63, 64, 65, 255) else (1, 2, 3, 6, 7, 8, 1000, 5003):
                secret, salt = rng.randbytes(size), rng.randbytes(rng.choice((8, 16, 33, 63, 64, 65)))
                asked.append(f"pbkdf2 {secret.hex() or '-'} {salt.hex()} {iterations}")
                expected.append(hashlib.pbkdf2_hmac("sha256", secret, salt[:64], iterations).hex())
        self.assertEqual(self.work_out(asked), expected)

    def test_same(self):
        """Two hashes are the same where every bit is."""
        one = random.Random("same").randbytes(32)
        others = [one] + [bytes(byte ^ (1 << bit if at == place else 0) for at, byte in enumerate(one)) for place in range(32) for bit in range(8)]
        self.assertEqual(self.work_out([f"same {one.hex()} {other.hex()}" for other in others]), ["1"] + ["0"] * 256)


class Users(Case):
    GOOD = adduser.line("anna", 1, b"salmon", 1000)

    def test_bad_lines_are_named(self):
        """Each bad line is named with its number, and nothing starts."""
        name, rank, iterations, salt, digest = self.GOOD.split(" ")
        bad = (
            "anna", f"{name} 1 1000 {salt}", self.GOOD + " x", f"{name}  1 1000 {salt} {digest}", f"bo 0 1000 {salt} {digest}",
            f"bo 3 1000 {salt} {digest}", f"bo 01 1000 {salt} {digest}", f"bo 1 999 {salt} {digest}", f"bo 1 10000001 {salt} {digest}",
            f"bo 1 99999999999 {salt} {digest}", f"bo 1 -5 {salt} {digest}", f"bo 1 1000 {salt[:14]} {digest}", f"bo 1 1000 {salt}0 {digest}",
            f"bo 1 1000 {salt[:-1]}g {digest}", f"bo 1 1000 {'ab' * 65} {digest}", f"bo 1 1000 {salt} {digest[:-2]}",
            f"bo 1 1000 {salt} {digest}00", f"b:o 1 1000 {salt} {digest}", f"{'b' * 33} 1 1000 {salt} {digest}",
            f"b\xf6 1 1000 {salt} {digest}", f" 1 1000 {salt} {digest}", self.GOOD, "x" * 2000, f"bo 1 1000 {salt} strict",
            f"bo 1 1000 {salt} {digest} strict strict", f"bo 1 1000 {salt} {digest}  strict",
        )
        sixth = tuple(f"bo 1 1000 {salt} {digest} {word}" for word in ("x", "Strict", "strictly", "1", ""))
        said = self.refused("--users", self.users_file("# who may log in", "", self.GOOD, *bad, *sixth))
        self.assertEqual(said.count("the sixth word can only be strict"), len(sixth))
        bad += sixth
        for index, line in enumerate(bad):
            self.assertIn(f", line {index + 4}: ", said, line[:80])
        self.assertEqual(said.count(", line "), len(bad))
        self.assertIn(f"{len(bad)} bad lines in", said)
        self.assertNotIn(digest, said)

    def test_files_that_cannot_be_used(self):
        """Missing, empty, a folder, too many users: each says what to do."""
        self.assertIn("host/adduser.py", self.refused("--users", os.path.join(self.folder.name, "none")))
        self.assertIn("add one with host/adduser.py", self.refused("--users", self.users_file("# nobody")))
        self.assertIn("name a plain file", self.refused("--users", self.folder.name).lower())
        many = [self.GOOD.replace("anna", f"anna{i}") for i in range(65)]
        self.assertIn("line 65: there is room for 64 users", self.refused("--users", self.users_file(*many)))
        self.assertIn("would hold the passwords", self.refused("--users", self.users_file(self.GOOD), "--trace", "x"))

    def test_adduser(self):
        """host/adduser.py makes a line that Python's hash agrees with, from standard input alone."""
        words = [sys.executable, os.path.join(ROOT, "host", "adduser.py")]
        for more, behind in (([], []), (["--strict"], ["strict"])):
            done = subprocess.run(words + ["olav", "2", "--iterations", "2000"] + more, input="a long secret\n", text=True,
                                  stdout=subprocess.PIPE, timeout=PATIENCE, check=True)
            name, rank, iterations, salt, digest, *rest = done.stdout.removesuffix("\n").split(" ")
            self.assertEqual((name, rank, iterations, len(salt), rest), ("olav", "2", "2000", 32, behind))
            self.assertEqual(hashlib.pbkdf2_hmac("sha256", b"a long secret", bytes.fromhex(salt), 2000).hex(), digest)
        for wrong in (["ol av", "1"], ["olav", "3"], ["a:b", "1"], ["#a", "1"], ["olav", "1", "--iterations", "5"]):
            done = subprocess.run(words + wrong, input="secret\n", text=True, stdout=subprocess.PIPE, stderr=subprocess.PIPE,
                                  timeout=PATIENCE)
            self.assertNotEqual(done.returncode, 0)
            self.assertEqual(done.stdout, "")


# ---------------------------------------------------------------------------------------------
# Login
# ---------------------------------------------------------------------------------------------

REFUSED, USER, ADMINISTRATOR = frame(b"\x7D\xFF"), frame(b"\x7D\x02"), frame(b"\x7D\x80")


class Login(Case):
    def start(self, iterations=1000):
        return Boxd("--users", self.users_file(adduser.line("anna", 1, b"salmon", iterations),
                                                          adduser.line("olav", 2, b"Trout:7", iterations)))

    def answer(self, client, message):
        """The frame that answers a login, and after how many seconds."""
        begun = time.monotonic()
        content = client.ask(message, 125)
        return frame(content), time.monotonic() - begun

    def monitor_as_model(self, client, box):
        """A Monitor message, its clock taken as told, is the model's."""
        content = client.next_of(1)
        box.pass_(number(content[-8:]) - box.clock)
        self.assertEqual(content, box.monitor_content())

    def test_ranks(self):
        """Before a login nothing is served; after it what its rank allows.  The answers are 001's."""
        every = (CLOCK, MONITOR, frame(b"\x0A\x01\x00\x01"), pulse(1, 1), frame(b"\x15\x00\x00"), frame(b"\x17\x00\x00"), frame(b"\x1A\x01"))
        set_clock = frame(b"\x07" + field(1000000, 8))
        with self.start() as host, Client(host.port) as anna, Client(host.port) as olav:
            box = Box()
            anna.send(b"".join(every) + set_clock + HOW_MANY + LAST_REFUSED + b"\x06\x55")
            self.assertEqual(self.answer(anna, login(b"anna", b"salmon"))[0], USER)
            self.assertEqual(anna.got[:7], USER)                    # nothing before it: all was refused
            self.monitor_as_model(anna, box)
            self.assertEqual(anna.ask(LAST_REFUSED, 254)[4:10], bytes([2, 0, 255, NOT_OFFERED, 0, 0]))
            anna.send(set_clock)
            self.assertLess(anna.clock(), 900000)
            self.assertEqual(self.answer(olav, login(b"olav", b"Trout:7"))[0], ADMINISTRATOR)
            self.monitor_as_model(olav, Box())
            olav.send(set_clock)
            self.assertGreaterEqual(olav.clock(), 1000000)
            box.clock = 1000000
            anna.send(frame(b"\x0A\x01\x00\x04"))
            box.relays[3].state = 1
            self.monitor_as_model(anna, box)
            host.quit()
        self.assertEqual(host.count(refused(LOW_RANK)), 9)
        self.assertEqual(host.count(refused(NOT_OFFERED)), 2)
        self.assertTrue(host.find("anna logged in, user"))
        self.assertTrue(host.find("olav logged in, administrator"))

    def test_001_example(self):
        """The login that 001 prints, bytes and all, with its checksum and with 0xFFFF; whole and byte by byte."""
        users = self.users_file(adduser.line("jnior", 2, b"jnior", 1000))
        with Boxd("--users", users) as host:
            for request in ("01000d60b77e056a6e696f72056a6e696f72", "01000dffff7e056a6e696f72056a6e696f72"):
                for size in (18, 1, 7):
                    with Client(host.port) as client:
                        data = bytes.fromhex(request)
                        for at in range(0, len(data), size):
                            client.send(data[at:at + size])
                        client.next()
                        self.assertEqual(client.got[:7].hex(), "010002f0207d80")
                        self.assertEqual(client.next()[0], 1)

    def test_layouts(self):
        """A layout that is not 001's is refused at once and harms nothing; the encoded form is understood."""
        encode = base64.b64encode
        wrong = (b"", b"\x04anna", b"\x04anna\x06salmo", b"\x04anna\x06salmonx", b"\xFFanna", b"\x04anna\xFFsalmon", b"\x00",
                 b"\x00\x00", string(b"") + string(b"YW5u"), string(b"") + string(b"YW5uYTpzYWxtb24"), string(b"") + string(b"anna:salmon"),
                 string(b"") + string(b"===="), bytes(1023),
                 *(string(b"") + string(text) for text in (
                     b"YW5uYTpzYWxtb24=\n\n\n\n", b"YW5u YTpzYWxtb24=", b"YW5u    YTpzYWxtb24=", b"    YW5uYTpzYWxtb24=", b"YW5uYTpzYWxtb24=====",
                     b"YW5uYTpzYWxtb24=YW5u", b"YW5uYTpzYWxtb2_=", b"YW5uYTpzYWxtb24\x00", b"YW5uYTpzYWxtb24=\x00\x00\x00\x00", b"YW5uYTpz=WxtYWxtb24=",
                     b"YW5uYTpzYWxtb25=")))                                                         # bits left over
        with self.start() as host, Client(host.port) as client:
            for content in wrong:
                self.assertEqual(self.answer(client, frame(b"\x7E" + content))[0], REFUSED, content)
            client.send(b"\x01" + field(1025, 2) + b"\xFF\xFF" + b"\x7E" + bytes(1024))             # too long to be one
            client.send(b"\x01\x00\x0D\x12\x34" + login(b"anna", b"salmon")[5:])                    # a wrong checksum
            self.assertEqual(self.answer(client, login(b"", encode(b"anna:salmon")))[0], USER)
            self.assertEqual(self.answer(client, login(b"", encode(b"olav:Trout:7")))[0], ADMINISTRATOR)
            client.clock()
            host.quit()

    def test_without_users(self):
        """Where nobody has to log in, a LoginRequest of 001's layout is answered as an administrator's, any other is refused."""
        rng = random.Random("logins")
        stream = b""
        for _ in range(1500):
            name, password = rng.randbytes(rng.randrange(9)), rng.randbytes(rng.choice((0, 1, 8, 254, 255)))
            content = b"\x7E" + string(name) + string(password)
            change = rng.randrange(6)
            if change == 0:
                content = content[:rng.randrange(1, len(content) + 1)]
            elif change == 1:
                content += rng.randbytes(rng.randrange(1, 500))
            elif change == 2:
                content = content[:1] + bytes([rng.randrange(256)]) + content[2:]
            stream += frame(content)
        with Boxd(trace=True) as host, Client(host.port) as client:
            client.talk(stream, rng, 2000)
            host.quit()
            judge(host, [client])
        answers = [content[1] for content in client.contents() if content[0] == 125]
        self.assertEqual(len(answers), 1500)
        self.assertEqual(set(answers), {0x80, 0xFF})

    def test_again(self):
        """A login on a connection that has one: the right password changes the rank, a wrong one changes nothing."""
        with self.start() as host, Client(host.port) as client:
            self.assertEqual(self.answer(client, login(b"olav", b"Trout:7"))[0], ADMINISTRATOR)
            client.send(login(b"anna", b"no") + CLOCK)
            self.assertEqual(client.next_of(125), b"\x7D\xFF")
            self.assertEqual(client.next_of(6)[0], 6)
            client.send(frame(b"\x07" + field(5, 8)) + login(b"olav", b"Trout:7") + login(b"nobody", b"") + CLOCK)
            self.assertEqual([client.next_of(125) for _ in range(2)], [b"\x7D\x80", b"\x7D\xFF"])
            self.assertLess(number(client.next_of(6)[1:]), 900000)
            host.quit()

    def test_wrong_passwords_are_slowed_down(self):
        """On a connection and for a name, a user's or nobody's; others are not slowed down, and no password is printed."""
        with self.start() as host:
            run_all(lambda: self.slow_name(host), lambda: self.slow_connection(host), lambda: self.others(host))
            host.quit()
        printed = "\n".join(host.lines)
        for secret in ("salmon", "Trout", "guess", "nobody", "0X", b"guess".hex()):
            self.assertNotIn(secret, printed)

    def slow_name(self, host):
        for _ in range(2):
            begun = time.monotonic()
            with Client(host.port) as client:
                found, after = self.answer(client, login(b"anna", b"guess"))
                self.assertEqual(found, REFUSED)
                self.assertGreaterEqual(after, 0.99)
        with Client(host.port) as client:               # the second slows the name down for two seconds, its connection for one
            self.assertEqual(self.answer(client, login(b"anna", b"salmon"))[0], USER)
            self.assertGreaterEqual(time.monotonic() - begun, 1.99)
            self.assertEqual(self.answer(client, login(b"anna", b"salmon"))[0], USER)

    def slow_connection(self, host):
        with Client(host.port) as client:
            for attempt, least in ((b"nobody0X", 0.99), (b"nobody0Y", 1.99)):
                begun = time.monotonic()
                client.send(login(attempt, b"guess") + CLOCK)
                self.assertEqual(client.next_of(125), b"\x7D\xFF")
                self.assertGreaterEqual(time.monotonic() - begun, least)

    def others(self, host):
        with Client(host.port) as client:
            self.assertEqual(self.answer(client, login(b"olav", b"Trout:7"))[0], ADMINISTRATOR)
            for _ in range(300):
                client.clock()

    def test_work_delays_nobody(self):
        """While a long hash is worked out, another connection is served; a client that hangs up meanwhile is let go."""
        users = self.users_file(adduser.line("anna", 1, b"salmon", 700000), adduser.line("olav", 2, b"Trout:7", 1000))
        with Boxd("--users", users) as host, Client(host.port) as anna, Client(host.port) as olav:
            self.assertEqual(self.answer(olav, login(b"olav", b"Trout:7"))[0], ADMINISTRATOR)
            gone = Client(host.port)
            gone.send(login(b"anna", b"salmon"))
            gone.socket.setsockopt(socket.SOL_SOCKET, socket.SO_LINGER, b"\x01\0\0\0\0\0\0\0")
            gone.close()
            host.wait_for("connection 2 closed")
            served = max(self.served_meanwhile(anna, olav) for _ in range(3))       # a busy machine may hold us up once
            self.assertGreaterEqual(served, 20)
            host.quit()

    def served_meanwhile(self, anna, olav):
        """How often olav is answered while anna's login is worked on."""
        while anna.waits():
            anna.more()                                 # Monitor messages of an earlier login
        anna.send(login(b"anna", b"salmon"))
        served = 0
        while not anna.waits():
            olav.clock()
            served += 1
        self.assertEqual(anna.next_of(125), b"\x7D\x02")
        anna.next_of(1)
        return served


# ---------------------------------------------------------------------------------------------
# Passwords in memory
# ---------------------------------------------------------------------------------------------

LARGE = 64 << 20                        # bytes; of boxd itself nothing is so large, of the sanitizers their notes on its memory are


def writable(process):
    """All that a running process can write to, and the words by which the system names these places; places that are large are left out."""
    found, names, left_out = [], set(), 0
    with open(f"/proc/{process.pid}/maps", encoding="ascii") as maps, open(f"/proc/{process.pid}/mem", "rb", buffering=0) as memory:
        for place, rights, _, _, _, *name in (line.split() for line in maps):
            begin, end = (int(number_, 16) for number_ in place.split("-"))
            if rights[1] == "w" and end - begin <= LARGE:
                memory.seek(begin)
                found.append(memory.read(end - begin))
                assert len(found[-1]) == end - begin, place
                names.update(os.path.basename(word) for word in name)
            left_out += rights[1] == "w" and end - begin > LARGE
    return found, names, left_out


def shapes(password):
    """A password as it may lie in memory: as it is, and in the blocks that HMAC makes of it; as bytes and as words."""
    for mask in (0x00, 0x36, 0x5C):
        masked = bytes(byte ^ mask for byte in password)
        yield masked
        yield b"".join(masked[at:at + 4][::-1] for at in range(0, len(masked) // 4 * 4, 4))


class Wiped(Case):
    WRONG, RIGHT, ENCODED, HALF, GONE, GARBLED, LONG = (
        b"wrong-Piece-of-Driftwood", b"right-Harpoon-over-Hull7", b"codes-Kelp-and-Plankton5", b"halfs-Otter-at-the-Quay3",
        b"gone--Puffin-in-the-Fog9", b"noisy-Gale-on-the-Radio1", b"longs" + b"-Wave-and-Wave" * 12)

    def lies_in(self, host, *secrets):
        """Which of the secrets lie in the memory of the host."""
        found, names, left_out = writable(host.process)
        self.assertLessEqual({"[stack]", PROGRAM}, names)
        self.assertEqual(left_out > 0, PROGRAM.endswith("-san"))
        return [secret for secret in secrets if any(shape in place for shape in shapes(secret) for place in found)]

    def half(self, host):
        """A login that lacks its last byte lies in the library's room, which shows that this test finds passwords; with its connection it goes."""
        sent = login(b"nobody", self.HALF + b".")[:-1]
        with Client(host.port) as client:
            client.send(sent)
            begun = time.monotonic()
            while not host.find(f"state: connection 0 .*, {len(sent)} bytes"):
                self.assertLess(time.monotonic() - begun, PATIENCE)
                before = len(host.lines)
                host.tell("state")
                host.wait_for("state: connection 3", before)
            self.assertEqual(self.lies_in(host, self.HALF), [self.HALF])
        host.wait_for("connection 0 closed: .* bytes of an unfinished message were dropped")
        self.assertEqual(self.lies_in(host, self.HALF), [])

    def gone(self, host):
        """The client is gone while its password's hash is worked out, which takes long.  What comes with the login is refused, and told."""
        with Client(host.port) as client:
            client.send(CLOCK + login(b"costly", self.GONE))
            host.wait_for("connection 0 .*" + refused(LOW_RANK))
            client.socket.setsockopt(socket.SOL_SOCKET, socket.SO_LINGER, b"\x01\0\0\0\0\0\0\0")
            client.close()
        host.wait_for("connection 0 closed: (?!the client hung up)(?!.* bytes of an unfinished)")

    def garbled(self, host, client):
        """A wrong checksum: the library refuses it, and its content stands in the room."""
        client.send(b"\x01" + login(b"nobody", self.GARBLED)[1:3] + b"\x12\x34" + login(b"nobody", self.GARBLED)[5:])
        host.wait_for("connection . sent a message of type 126; " + refused(BAD_CHECKSUM))

    def test_passwords_are_wiped(self):
        """After a login, right, wrong, garbled, half or with its client gone, its password is nowhere in memory; the user's name is."""
        name = b"keeper-of-the-port-lifts"
        users = self.users_file(adduser.line(name.decode(), 1, self.RIGHT, 1000), adduser.line("anna", 1, self.ENCODED, 1000),
                                adduser.line("olav", 2, self.LONG, 1000), f"costly 1 10000000 {'5A' * 16} {'00' * 32}")
        with Boxd("--users", users) as host:
            self.half(host)
            self.gone(host)
            with Client(host.port) as wrong, Client(host.port) as right:
                self.garbled(host, right)
                self.assertEqual(self.lies_in(host, self.GARBLED, self.HALF, self.GONE, name), [name])
                wrong.send(login(b"anna", self.WRONG))
                for message in (login(name, self.RIGHT), login(b"", base64.b64encode(b"anna:" + self.ENCODED)), login(b"olav", self.LONG)):
                    self.assertNotEqual(right.ask(message, 125), b"\x7D\xFF")
                self.assertEqual(wrong.next_of(125), b"\x7D\xFF")
                encoded = base64.b64encode(b"anna:" + self.ENCODED)
                self.assertEqual(self.lies_in(host, self.WRONG, self.RIGHT, self.ENCODED, encoded, self.LONG, self.LONG[-40:], name), [name])
            host.quit()


# ---------------------------------------------------------------------------------------------
# Strict connections (M-103)
# ---------------------------------------------------------------------------------------------

class Strict(Case):
    TOGGLE_2 = unchecked(b"\x0A\x03\x00\x02")
    CHECKED_SO = frame(b"\x0A\x0A\xD1\xB2")          # relays 5 and 8 closed, 1 and 7 open; its true checksum is 0xFFFF

    def start(self, *words):
        """anna is strict, olav is not."""
        return Boxd(*words, "--users", self.users_file(adduser.line("anna", 1, b"salmon", 1000, strict=True),
                                                                  adduser.line("olav", 2, b"Trout:7", 1000)))

    def told_of(self, host, client, message=TOGGLE_2):
        """What the host says of a command that the client sends with 0xFFFF: toggled, or refused with which number."""
        before = len(host.lines)
        client.send(message)
        return host.wait_for(r"connection 0 .*(toggled|refused \(\d+\))", before).group(1)

    def state_of(self, host):
        """What `state` says of connection 0 behind its address."""
        before = len(host.lines)
        host.tell("state")
        return host.wait_for(r"state: connection 0 is [\d.:]+, (.*), Monitor", before).group(1)

    def logs_in(self, client, name, password, permissions):
        self.assertEqual(client.ask(login(name, password), 125), bytes([125, permissions]))

    def play(self, *words):
        """One client, whose replies are the model's: the host, which has ended, and the relays that are closed in the end."""
        sent = (self.TOGGLE_2, frame(b"\x0A\x01\x00\x03"), self.CHECKED_SO, unchecked(b""), unchecked(b"\x63"), unchecked(bytes(1025)),
                b"\x01\x00\x04\xFF\xFE\x0A\x01\x00\x06", MONITOR)
        with Boxd(*words, trace=True) as host, Client(host.port) as client:
            client.send(b"".join(sent))
            client.finish()
            host.quit()
            judge(host, [client])
        monitor = [content for content in client.contents() if content[0] == 1][-1]
        return host, [k for k in range(1, 9) if monitor[80 + k]]

    def test_every_connection(self):
        """With --strict 0xFFFF passes only where it is the true checksum: nothing is done, and the host says why.  It is refused before its
        type is looked at, and behind its length.
        """
        self.assertEqual(self.CHECKED_SO[3:5], b"\xFF\xFF")
        host, closed = self.play("--strict")
        self.assertEqual(closed, [3, 5, 8])
        self.assertEqual(host.count(refused(BAD_CHECKSUM) + ": its checksum differs, and 0xFFFF does not pass unchecked on this strict"), 4)
        self.assertEqual(host.count(refused(NOT_OFFERED)), 0)
        self.assertEqual(host.count(rf"swallowed \({TOO_LONG}\)"), 1)
        self.assertEqual(host.count("connected, administrator, strict$"), 1)

    def test_not_strict(self):
        """Without --strict 0xFFFF passes unchecked, and nothing is said of strictness."""
        host, closed = self.play()
        self.assertEqual(closed, [2, 3, 5, 8])
        self.assertEqual(host.count(refused(BAD_CHECKSUM) + r": its checksum differs\. The link"), 1)
        self.assertEqual(host.count(refused(NOT_OFFERED)), 2)
        self.assertEqual(host.count(rf"swallowed \({TOO_LONG}\)"), 1)
        self.assertEqual(host.count("connected, administrator$"), 1)
        self.assertEqual(host.count("strict"), 0)

    def test_users(self):
        """A connection is as strict as who logged in on it last; before that it is not, and a wrong password changes nothing."""
        passes, fails = "toggled", f"refused ({BAD_CHECKSUM})"
        with self.start() as host, Client(host.port) as client:
            self.assertEqual(self.told_of(host, client), f"refused ({LOW_RANK})")
            self.assertEqual(self.state_of(host), "not logged in")
            self.assertEqual(client.ask(unchecked(login(b"anna", b"salmon")[5:]), 125), b"\x7D\x02")
            self.assertEqual(self.told_of(host, client), fails)
            self.assertEqual(self.state_of(host), "user, strict")
            self.logs_in(client, b"olav", b"guess", 0xFF)
            self.assertEqual(self.told_of(host, client), fails)
            self.assertEqual(self.told_of(host, client, unchecked(login(b"olav", b"Trout:7")[5:])), fails)
            self.logs_in(client, b"olav", b"Trout:7", 0x80)
            self.assertEqual(self.told_of(host, client), passes)
            self.assertEqual(self.state_of(host), "administrator")
            self.logs_in(client, b"anna", b"guess", 0xFF)
            self.assertEqual(self.told_of(host, client), passes)
            self.assertEqual(self.told_of(host, client, login(b"anna", b"salmon") + self.TOGGLE_2), fails)
            host.quit()
        self.assertEqual(host.count("relay 2 is (closed|open) now"), 2)
        self.assertEqual(host.count("connected, not logged in$"), 1)
        self.assertEqual(host.count("anna logged in, user, strict$"), 2)
        self.assertEqual(host.count("olav logged in, administrator$"), 1)

    def test_users_of_a_strict_box(self):
        """With --strict every user is strict, and so is who has not logged in: a login with 0xFFFF is not even looked at."""
        fails = f"refused ({BAD_CHECKSUM})"
        with self.start("--strict") as host, Client(host.port) as client:
            self.assertEqual(self.told_of(host, client), fails)
            self.assertEqual(self.told_of(host, client, unchecked(login(b"olav", b"Trout:7")[5:])), fails)
            self.assertEqual(self.state_of(host), "not logged in, strict")
            self.logs_in(client, b"olav", b"Trout:7", 0x80)
            self.assertEqual(bytes(client.got[:7]), ADMINISTRATOR)              # the answer to the login alone
            self.assertEqual(self.told_of(host, client), fails)
            client.send(self.CHECKED_SO)
            host.wait_for("relay 5 is closed now; relay 8 is closed now")
            self.logs_in(client, b"anna", b"salmon", 0x02)
            self.assertEqual(self.told_of(host, client), fails)
            host.quit()
        self.assertEqual(host.count("connected, not logged in, strict$"), 1)
        self.assertEqual(host.count("logged in, (user|administrator), strict$"), 2)


# ---------------------------------------------------------------------------------------------
# Settings
# ---------------------------------------------------------------------------------------------

class Settings(Case):
    # The 40 numbers of the lines below.
    LINES = """# setpoints of the port lifts

        input 3 setpoint-one 100    # a remark
        input 3 setpoint-two 4294967295
        input\t3\tusage-setpoint  3600000\r
        input 3 alarm on# another
        relay 5 usage-setpoint 18446744073709551615
        relay 6 usage-setpoint 1500ms
        input 8 usage-setpoint 90 s
        relay 1 usage-setpoint 15min
        input 1 usage-setpoint 5124095576030 h
        input 2 alarm off
        input 2 setpoint-one 0"""
    NUMBERS = [0, 0, 5124095576030 * 3600000, 0, 0, 0, 0, 0, 100, 4294967295, 3600000, 1] + [0] * 16 + [0, 0, 90000, 0] + \
              [900000, 0, 0, 0, 18446744073709551615, 1500, 0, 0]
    WORDS = ["input 1: the usage alarm comes at 5124095576030 h", "input 3: the setpoint of count alarm 1 is 100",
             "input 3: the setpoint of count alarm 2 is 4294967295", "input 3: the usage alarm comes at 1 h", "input 3: the alarm switch is on",
             "input 8: the usage alarm comes at 90 s", "relay 1: the usage alarm comes at 15 min",
             "relay 5: the usage alarm comes at 18446744073709551615 ms", "relay 6: the usage alarm comes at 1500 ms",
             "Nothing else is set: every other setpoint is 0, which is no alarm, and every other alarm switch is off"]

    # Each with what is said of it.
    BAD = (("input 3 setpoint-three 1", "of an input there are"), ("input 3 Alarm on", "of an input there are"),
           ("relay 3 alarm on", "of a relay there is usage-setpoint alone"), ("relay 3 setpoint-one 1", "of a relay there is usage-setpoint alone"),
           ("input 0 alarm on", "numbered from 1 to 8"), ("relay 9 usage-setpoint 1", "numbered from 1 to 8"),
           ("input -1 alarm on", "numbered from 1 to 8"), ("lamp 3 alarm on", "begins with input or relay"), ("Input 3 alarm on", "begins with input"),
           ("input 3", "a line has four words"), ("input", "a line has four words"), ("input 3 alarm", "a line has four words"),
           ("input 3 alarm on and off", "a line has four words"), ("input 3 alarm on off", "a line ends behind its value"),
           ("input 3 setpoint-one 5 ms", "a line ends behind its value"), ("input 3 alarm 1", "on or off"), ("input 3 alarm ON", "on or off"),
           ("input 3 setpoint-one 4294967296", "from 0 to 4294967295"), ("input 3 setpoint-two -1", "from 0 to 4294967295"),
           ("input 3 setpoint-two 5s", "from 0 to 4294967295"), ("input 3 setpoint-two 1e3", "from 0 to 4294967295"),
           ("relay 3 usage-setpoint 18446744073709551616", "at most 18446744073709551615"),
           ("relay 3 usage-setpoint 5124095576031h", "at most 18446744073709551615"), ("relay 3 usage-setpoint min", "is a number"),
           ("relay 3 usage-setpoint " + "9" * 400, "at most 18446744073709551615"), ("relay 3 usage-setpoint 5d", "ms, s, min or h may stand"),
           ("relay 3 usage-setpoint 5 d", "ms, s, min or h may stand"), ("relay 3 usage-setpoint 5s s", "ms, s, min or h may stand"),
           ("relay 3 usage-setpoint 1h30min", "ms, s, min or h may stand"), ("relay 3 usage-setpoint -5", "ms, s, min or h may stand"))

    def file(self, text):
        path = os.path.join(self.folder.name, "settings")
        with open(path, "w", encoding="latin-1", newline="") as file:
            file.write(text)
        return path

    def powered(self, text):
        """The numbers with which the box is powered up."""
        with Boxd("--settings", self.file(text), trace=True) as host:
            host.quit()
            with open(host.trace, encoding="ascii") as trace:
                name, *numbers = trace.readline().split()
        self.assertEqual(name, "power")
        return [int(word) for word in numbers]

    def check(self, text, status):
        """What --check-settings prints, in lines: to standard output, and to standard error."""
        done = subprocess.run([os.path.join(ROOT, "host", "exec"), PROGRAM, "--check-settings", self.file(text)], stdout=subprocess.PIPE,
                              stderr=subprocess.PIPE, text=True, timeout=PATIENCE)
        self.assertEqual(done.returncode, status, done.stderr)
        return done.stdout.splitlines(), done.stderr.splitlines()

    def test_lines(self):
        """Each line sets what it names, and what no line names is 0 or off; the numbers of all that is set mean the same."""
        self.assertEqual(self.powered(self.LINES), self.NUMBERS)
        self.assertEqual(self.powered("\n  ".join(map(str, self.NUMBERS))), self.NUMBERS)
        self.assertEqual(self.powered("input 1 alarm on"), [0, 0, 0, 1] + [0] * 36)

    def test_every_thing(self):
        """Each of the 40, alone, where it belongs."""
        names = [f"input {k} {name}" for k in range(1, 9) for name in ("setpoint-one", "setpoint-two", "usage-setpoint", "alarm")]
        names += [f"relay {k} usage-setpoint" for k in range(1, 9)]
        numbers = [1 if name.endswith("alarm") else 1000 + place for place, name in enumerate(names)]
        lines = [f"{name} {'on' if name.endswith('alarm') else number_}\n" for name, number_ in zip(names, numbers)]
        random.Random("settings").shuffle(lines)
        self.assertEqual(self.powered("".join(lines)), numbers)

    def test_check(self):
        """--check-settings says what a file means, of lines and of numbers, and starts nothing."""
        self.assertEqual(self.check(self.LINES, 0), (self.WORDS, []))
        self.assertEqual(self.check(" ".join(map(str, self.NUMBERS)), 0), (self.WORDS, []))
        self.assertEqual(self.check("0 " * 40, 0), (self.WORDS[-1:], []))

    def test_example(self):
        """The example of docs/HOST.md is a settings file, and sets what it says."""
        with open(os.path.join(ROOT, "docs", "HOST.md"), encoding="utf-8") as paper:
            example = paper.read().split("\n## Settings\n")[1].split("\n|")[0]
        lines = [line for line in example.splitlines() if line.startswith("    ")]
        told, _ = self.check("\n".join(lines), 0)
        self.assertEqual([line.split(":")[0] for line in told], ["input 3"] * 4 + ["relay 5", "Nothing else is set"])

    def test_errors_are_named(self):
        """Each error with its line and what to do, all at once; nothing starts, and nothing is told of what would be set."""
        text = "# bad ones\ninput 3 setpoint-one 100\n" + "".join(line + "\n" for line, _ in self.BAD)
        told, wrong = self.check(text, 1)
        self.assertEqual(told, [])
        for index, (line, said) in enumerate(self.BAD):
            self.assertRegex(wrong[index], rf"settings, line {index + 3}: .*{re.escape(said)}", line)
        self.assertIn(f"{len(self.BAD)} errors in the settings file", wrong[len(self.BAD)])
        self.assertEqual(len(wrong), len(self.BAD) + 1)
        self.assertEqual(self.refused("--settings", self.file(text)).splitlines(), wrong)

    def test_set_twice(self):
        """The same thing set twice is an error that names both lines, also where both say the same; the same of another channel is none."""
        text = "input 2 alarm on\n\ninput 3 alarm on\nrelay 2 usage-setpoint 5\ninput 2 alarm on\nrelay 2 usage-setpoint 6s\nrelay 3 usage-setpoint 5\n"
        _, wrong = self.check(text, 1)
        self.assertEqual([re.sub(".*settings, ", "", line) for line in wrong[:-1]],
                         ["line 5: this is set in line 1 already; keep one of the two", "line 6: this is set in line 4 already; keep one of the two"])

    def test_files_that_cannot_be_used(self):
        """A folder, a file that sets nothing, one that is no text or too large, too many numbers: each says what to do."""
        self.assertIn("Name a plain file", self.refused("--settings", self.folder.name))
        self.assertIn("Name another file", self.refused("--check-settings", os.path.join(self.folder.name, "none")))
        for text in ("", "\n", "# input 3 alarm on"):
            self.assertIn("write a line into it", self.refused("--settings", self.file(text)))
        self.assertIn("Name a file of settings", self.refused("--settings", self.file("input 3 alarm on\n\0")))
        line = "input 3 alarm on"
        self.assertIn("Name a file of settings", self.refused("--settings", self.file(line + " " * (65537 - len(line)))))
        self.assertEqual(len(self.check(line + " " * (65536 - len(line)), 0)[0]), 2)
        self.assertIn("more than 40 numbers", self.refused("--settings", self.file("0 " * 41)))
        self.assertIn("number 4 of 40", self.refused("--settings", self.file("0 0 0 2 " + "0 " * 36)))


# ---------------------------------------------------------------------------------------------
# Arguments
# ---------------------------------------------------------------------------------------------

class Arguments(Case):
    def test_errors_say_what_to_do(self):
        short = os.path.join(self.folder.name, "short")
        with open(short, "w", encoding="ascii") as file:
            file.write("1 2 3")
        for words, said in ((("--listen", "9200"), "Write for example"), (("--listen", "localhost:9200"), "Write for example"),
                            (("--listen", "127.0.0.1:65536"), "Write for example"), (("--listen",), "--help says what"),
                            (("--loud",), "--help lists them"), (("--strict", "1"), "--help lists them"), (("--seed", "-1"), "Write for example"),
                            (("--settings", short), "number 4 of 40"), (("--settings", short + "x"), "Name another file"),
                            (("--check-settings",), "--help says what"),
                            (("--listen", "192.0.2.1:9200", "--open"), "choose one that it has"),
                            (("--listen", "127.0.0.1:0", "--trace", self.folder.name), "Name another file")):
            self.assertIn(said, self.refused(*words), words)

    def test_port_in_use(self):
        with Boxd() as host:
            said = self.refused("--listen", f"127.0.0.1:{host.port}")
            self.assertIn("Another box may be running: end it, or choose another port", said)

    def test_too_few_files(self):
        """Where the system allows too few open files to wait for clients, the box says so and ends."""
        shell = ["bash", "-c", 'ulimit -n 12; exec "$@"', "bash", os.path.join(ROOT, "host", "exec"), PROGRAM, "--listen", "127.0.0.1:0"]
        with Program(shell) as program:
            self.assertEqual(program.ended(), 1)
            self.assertTrue(program.find("Raise `ulimit -n`"))

    def test_open_is_meant(self):
        """An address that others reach, without a login, is refused unless --open says that it is meant; with a login it needs no such word."""
        for address in ("0.0.0.0:0", "[::]:0", "192.0.2.1:0", "[2001:db8::1]:0", "128.0.0.1:0", "[::ffff:127.0.0.1]:0"):
            said = self.refused("--listen", address)
            self.assertRegex(said, "others than this machine reach .* administrator. Write --users FILE for a login, or --open if that is meant")
        users = self.users_file(adduser.line("anna", 1, b"salmon", 1000))
        for words in (("--open",), ("--users", users)):         # this machine has no such address: it is tried, and so it was let through
            self.assertIn("choose one that it has", self.refused("--listen", "192.0.2.1:9200", *words))
        for words, greeting in ((("127.3.2.1:0",), "each client is an administrator$"),
                                (("0.0.0.0:0", "--open"), "each client is an administrator, and others than this machine reach it")):
            with Program([os.path.join(ROOT, "host", "exec"), PROGRAM, "--listen", *words]) as program:
                program.wait_for(greeting)
                program.tell("quit")
                self.assertEqual(program.ended(), 0)

    def printed(self, *words):
        """What it prints to standard output, and nothing besides, without starting anything."""
        done = subprocess.run(words, stdout=subprocess.PIPE, stderr=subprocess.PIPE, text=True, check=True, timeout=PATIENCE)
        self.assertEqual(done.stderr, "")
        return done.stdout

    def test_help(self):
        """-h and --help print the same, and --version the one place's; the whole of it is there before anything is built, by ./run."""
        exec_, run = (os.path.join(ROOT, "host", "exec"), PROGRAM), os.path.join(ROOT, "run")
        help_ = self.printed(*exec_, "--help")
        for word in ("--listen", "--users", "--open", "--strict", "--settings", "--check-settings", "--seed", "--trace", "--version", "level K V",
                     "filled P", "emptied P", "state", "quit"):
            self.assertIn(word, help_)
        self.assertEqual(self.printed(*exec_, "-h"), help_)
        self.assertEqual(self.printed(*exec_, "--listen", "nowhere", "-h"), help_)
        with open(os.path.join(ROOT, "host", "wellacorn.h"), encoding="ascii") as header:
            version = re.search(r'#define WELLACORN_VERSION "([\d.]+)"', header.read())[1]
        self.assertEqual(self.printed(*exec_, "--version"), f"boxd {version}\n")
        self.assertEqual(self.printed(run, "--version"), f"boxd {version}\n")
        for word in ("-h", "--help"):
            own, behind = self.printed(run, word).split("\nboxd: ", 1)
            self.assertEqual("boxd: " + behind, help_)
            self.assertIn("--panel", own)


# ---------------------------------------------------------------------------------------------
# The first start
# ---------------------------------------------------------------------------------------------

class FirstStart(Case):
    """host/progress and ./run, in a tree of their own, over what they start."""

    def copy(self, *files):
        for name in files:
            os.makedirs(os.path.dirname(os.path.join(self.folder.name, name)), exist_ok=True)
            shutil.copy(os.path.join(ROOT, name), os.path.join(self.folder.name, name))

    def progress(self, script, **more):
        self.copy("crates.txt", "host/progress")
        return subprocess.Popen([os.path.join(self.folder.name, "host", "progress"), "bash", "-c", script], stdin=subprocess.PIPE, **more)

    def shown(self, script, status):
        """What it shows, in lines, where that is no terminal."""
        with self.progress(script, stderr=subprocess.PIPE, stdout=subprocess.DEVNULL, text=True) as process:
            _, printed = process.communicate(timeout=PATIENCE)
        self.assertEqual(process.returncode, status, printed)
        return printed.splitlines()

    def log(self):
        with open(os.path.join(self.folder.name, "target", "prover.log"), encoding="ascii") as log:
            return log.read().splitlines()

    def proof(self):
        """The crates that are proved in their order, the library's own the last, and what is said of them: of that one twice, once for each archive."""
        with open(os.path.join(ROOT, "crates.txt"), encoding="ascii") as file:
            needs = {name.split()[0]: words.split() for name, words in (line.split(":") for line in file)}
        crates = []

        def visit(crate):
            for need in needs[crate]:
                visit(need)
            if crate not in crates:
                crates.append(crate)

        visit("capi")
        said = [line for crate in [*crates, crates[-1]] for line in (f"fn {crate}::part: proved", "logic=proved functions=1", f"proved: {crate}")]
        return crates, said

    def script(self, said):
        """A script that says so."""
        path = os.path.join(self.folder.name, "said")
        with open(path, "w", encoding="ascii") as file:
            file.write("\n".join(said) + "\n")
        return f"cat '{path}' >&2; "

    def test_progress(self):
        """A line for each crate, once, and how long all took; what host/archive says passes, and what the prover says is kept."""
        crates, said = self.proof()
        archive = ["host/archive: proving the library", "host/archive: target/x86_64-linux-gnu/libwellacorn.a"]
        lines = self.shown(self.script([archive[0], *said, archive[1]]), 0)
        self.assertGreater(len(crates), 30)
        self.assertEqual([re.sub(r", (\d+ min )?\d+ s$", "", line) for line in lines[1:-2]],
                         [f"crate {index + 1} of {len(crates)} ({crate})" for index, crate in enumerate(crates[:-1])])
        self.assertEqual([lines[0], lines[-2]], archive)
        self.assertRegex(lines[-1], rf"^host/progress: {len(crates)} crates proved in (\d+ min )?\d+ s; .* target/prover.log$")
        self.assertEqual(self.log(), said)

    def test_nothing_to_prove(self):
        """Then nothing is said, and what the prover said last stays; with the next proof it is gone."""
        self.shown(self.script(["proved: laws"]), 0)
        self.assertEqual(self.shown("true", 0), [])
        self.assertEqual(self.log(), ["proved: laws"])
        self.shown(self.script(["proved: numbers"]), 0)
        self.assertEqual(self.log(), ["proved: numbers"])

    def test_failure(self):
        """The last lines that the prover said, where the rest is, and the status of what failed, a signal's too."""
        said = [f"line {index}" for index in range(100)]
        lines = self.shown(self.script(said) + "echo host/archive: this failed in crates/laws: rt lib; exit 7", 7)
        self.assertEqual(lines[:-1], ["host/archive: this failed in crates/laws: rt lib"] + said[60:])
        self.assertRegex(lines[-1], "it failed after .* s. These are the last lines .* target/prover.log$")
        self.assertEqual(self.log(), said)
        self.shown("kill -KILL $$", 128 + signal.SIGKILL)

    def test_terminal(self):
        """On a terminal it is one line, which is rewritten, and on which the time goes on while nothing is said."""
        master, slave = os.openpty()
        gate = os.path.join(self.folder.name, "gate")
        os.mkfifo(gate)
        opened = os.open(gate, os.O_RDWR)
        seen, begun = b"", time.monotonic()
        with self.progress(self.script(["proved: laws", "proved: numbers"]) + f"read <'{gate}'; exit 7", stderr=slave) as process:
            os.close(slave)
            try:
                while not re.search(rb"\(numbers\), [1-9]\d* s", seen):
                    self.assertLess(time.monotonic() - begun, PATIENCE)
                    self.assertTrue(select.select([master], [], [], PATIENCE)[0])
                    seen += os.read(master, 4096)
            finally:
                os.write(opened, b"\n")
                self.assertEqual(process.wait(PATIENCE), 7)
                os.close(opened)
                os.close(master)
        self.assertNotIn(b"\n", seen)
        self.assertEqual(seen.count(b"\r\x1b[K"), seen.count(b"crate "))
        self.assertLess(seen.index(b"crate 1 of "), seen.index(b"crate 2 of "))

    def run_over_stubs(self, *words):
        """What ./run prints where host/exec prints the words that it is given, and nothing is built."""
        self.copy("run", "host/options.c", "host/wellacorn.h")
        for name, text in (("build", "exit 0"), ("exec", 'printf "%s\\n" "$@"')):
            path = os.path.join(self.folder.name, "host", name)
            with open(path, "w", encoding="ascii") as file:
                file.write(f"#!/bin/sh\n{text}\n")
            os.chmod(path, 0o755)
        done = subprocess.run([os.path.join(self.folder.name, "run"), *words], stdin=subprocess.DEVNULL, stdout=subprocess.PIPE, text=True,
                              timeout=PATIENCE, check=True)
        return done.stdout.splitlines()

    def test_run(self):
        """./run simulates and says so first; what only prints something, and --quiet, does neither."""
        first, *given = self.run_over_stubs("--strict")
        self.assertRegex(first, "^SIMULATED: ")
        self.assertEqual(given, ["boxd", "--simulate", "--strict"])
        self.assertEqual(self.run_over_stubs("--quiet", "--seed", "7"), ["boxd", "--seed", "7"])
        self.assertEqual(self.run_over_stubs("--check-settings", "a file"), ["boxd", "--check-settings", "a file"])
        self.assertRegex("\n".join(self.run_over_stubs("--version")), r"^boxd [\d.]+$")
        for word in ("-h", "--help"):
            lines = self.run_over_stubs(word)
            self.assertIn("--panel", "\n".join(lines))
            self.assertTrue(any(line.startswith("    --check-settings FILE ") for line in lines))


if __name__ == "__main__":
    subprocess.run([os.path.join(ROOT, "host", "build"), PROGRAM, PROGRAM.replace("boxd", "hashes")], check=True)
    unittest.main()
