#!/usr/bin/env python3
"""What a box needs that stays on a barge: lines that end, a log that ends nowhere, real inputs and outputs, counts that outlive the power.

    python3 tests/test_barge.py             over target/host/boxd
    BOXD=boxd-san python3 tests/test_barge.py   over the build with sanitizers

Times are short ones that the host is given. What is to stay is held a good deal longer than what is to go.
"""

import os
import re
import resource
import signal
import socket
import stat
import subprocess
import tempfile
import threading
import time
import unittest

from boxd import Boxd, CLOCK, Client, PATIENCE, PROGRAM, Program, ROOT, command, frame, judge, login, pulse
from model import INPUT_IDS, field, number
from test_host import Case, adduser, run_all

KEEP_ALIVE = b"\x06"
BAD = frame(b"\x05\x00\x00")[:3] + b"\x12\x34" + b"\x05\x00\x00"        # its checksum differs
HALF = CLOCK[:4]
EXEC = os.path.join(ROOT, "host", "exec")


def wait_until(what, is_so):
    """Waits until it is so."""
    end = time.monotonic() + PATIENCE
    while not is_so():
        if time.monotonic() > end:
            raise AssertionError(f"never: {what}")
        time.sleep(0.02)


def read(path):
    try:
        with open(path, encoding="utf-8") as file:
            return file.read()
    except FileNotFoundError:
        return ""


def is_closed(client):
    """Whether the host has closed it, as far as can be seen now; what came before is read."""
    while client.waits():
        try:
            if not client.more():
                return True
        except ConnectionResetError:
            return True
    return False


def closed_after(client, *, sending=b"", pause=0.1):
    """How long it took the host to close a connection, on which this is sent all the while; s."""
    begun = time.monotonic()
    while not is_closed(client):
        if time.monotonic() - begun > PATIENCE:
            raise AssertionError("it is not closed")
        try:
            client.socket.sendall(sending)
        except OSError:
            pass
        time.sleep(pause)
    return time.monotonic() - begun


def counts(client):
    """What ReadDevices tells of the inputs' counts."""
    reply = client.ask(frame(b"\x15" + field(8, 2) + b"".join(field(device, 8) for device in INPUT_IDS)), 22)
    return [number(reply[3 + 27 * k + 12:3 + 27 * k + 16]) for k in range(8)]


class WithUsers(Case):
    def setUp(self):
        super().setUp()
        self.users = self.users_file(*[adduser.line(name, 2, b"right", 1000) for name in ("olav", "anna", "kari", "nils", "eve")])

    def log_in(self, client, name=b"olav", password=b"right"):
        return client.ask(login(name, password), 125)


# ---------------------------------------------------------------------------------------------
# Lines that never end
# ---------------------------------------------------------------------------------------------

class QuietLines(WithUsers):
    def test_idle(self):
        """What is not served does not keep a connection.  A keep-alive does, and a served message, as long as they come."""
        with Boxd("--idle", "5") as host:
            silent, refused, alive, served = (Client(host.port) for _ in range(4))
            over, last = threading.Event(), {}

            def keep(client, message):
                while not over.wait(0.1):
                    last[client] = time.monotonic()
                    client.socket.sendall(message)

            def goes(client, sending):
                self.assertLess(closed_after(client, sending=sending), PATIENCE / 2)
                self.assertGreaterEqual(time.monotonic() - host.up, 4.9)

            def stay():
                time.sleep(11)                          # twice as long as the others stayed
                over.set()
                self.assertFalse(is_closed(alive) or is_closed(served))
                for client in (alive, served):
                    closed_after(client)
                    self.assertGreaterEqual(time.monotonic() - last[client], 4.9)

            run_all(lambda: goes(silent, b""), lambda: goes(refused, b"x" + BAD + frame(b"\x63") + HALF + b"\xFF" * 4), stay,
                    lambda: keep(alive, KEEP_ALIVE), lambda: keep(served, CLOCK))
            self.assertEqual(host.count("closed: no message was served for too long, nor was there a keep-alive"), 4)
            host.quit()

    def test_the_usual_times(self):
        """Without an argument the times are 15 minutes and a minute: nobody is closed within a few seconds."""
        with Boxd("--users", self.users) as host, Client(host.port) as client:
            time.sleep(4)
            self.assertFalse(is_closed(client))
            self.assertEqual(self.log_in(client), b"\x7D\x80")

    def test_login_time(self):
        """Who does not log in goes, whatever he sends; who has logged in stays."""
        with Boxd("--users", self.users, "--login-time", "5") as host, Client(host.port) as known, Client(host.port) as stranger:
            self.assertEqual(self.log_in(known), b"\x7D\x80")
            begun = time.monotonic()
            closed_after(stranger, sending=KEEP_ALIVE)
            self.assertGreaterEqual(time.monotonic() - begun, 3)
            self.assertTrue(host.find("connection 1 closed: nobody has logged in on it in time"))
            self.assertGreater(known.clock(), 4900)
            host.quit()

    def test_displaced(self):
        """Where all four are taken, the oldest goes on which nobody has logged in, and is told why."""
        with Boxd("--users", self.users) as host:
            clients = [Client(host.port) for _ in range(4)]
            host.wait_for("connection 3: .* connected")
            self.log_in(clients[0])
            fifth = Client(host.port)
            told = clients[1].next_of(3)
            self.assertIn(b"its place was needed", told)
            self.assertIsNone(clients[1].next())
            self.assertEqual(self.log_in(fifth, b"anna"), b"\x7D\x80")
            self.log_in(clients[2], b"kari")
            self.log_in(clients[3], b"nils")
            with Client(host.port) as late:             # nobody is left to be displaced
                self.assertIn(b"All four connections", late.next_of(3))
            for client in (clients[0], fifth, clients[2], clients[3]):
                self.assertGreater(client.clock(), 0)
            host.quit()

    def test_without_users_nobody_is_displaced(self):
        with Boxd() as host:
            clients = [Client(host.port) for _ in range(4)]
            host.wait_for("connection 3: .* connected")
            with Client(host.port) as fifth:
                self.assertIn(b"All four connections", fifth.next_of(3))
            for client in clients:
                self.assertGreater(client.clock() + 1, 0)
            host.quit()

    def test_wrong_logins_that_hang_up(self):
        """Four clients who send wrong passwords and hang up keep nobody out, though their refusals are held back."""
        with Boxd("--users", self.users) as host:
            for _ in range(3):
                for _ in range(4):
                    with Client(host.port) as client:
                        client.send(login(b"eve", b"wrong") * 3)
                with Client(host.port) as client:
                    self.assertEqual(self.log_in(client), b"\x7D\x80")
            self.assertFalse(host.find("turned away"))
            host.quit()

    def test_hang_up_while_a_refusal_is_held_back(self):
        """It is noticed at once, and the place is free: one who stays is refused later, though he was as wrong at the same time."""
        with Boxd("--users", self.users) as host, Client(host.port) as stays, Client(host.port) as goes:
            stays.send(login(b"eve", b"wrong") * 3)
            goes.send(login(b"nils", b"wrong") * 3)
            for client in (stays, stays, goes, goes):   # the third refusal is held back four seconds
                client.next_of(125)
            goes.socket.shutdown(socket.SHUT_WR)
            self.assertIsNone(goes.next_of(125))
            host.wait_for("connection 1 closed: the client hung up")
            wait_until("the other is refused", lambda: host.count("login of eve refused") == 3)
            said = [line.split(" ", 2)[2] for line in host.lines]
            third = len(said) - 1 - said[::-1].index("connection 0: login of eve refused")
            self.assertLess(said.index("connection 1 closed: the client hung up"), third)
            self.assertEqual(host.count("login of nils refused"), 2)
            host.quit()

    def test_what_was_sent_behind_a_wrong_login(self):
        """It is served though the client has hung up: a right login, and what it may ask then."""
        with Boxd("--users", self.users) as host, Client(host.port) as client:
            client.send(login(b"eve", b"wrong") + login(b"olav", b"right") + CLOCK)
            client.finish()
            self.assertEqual([content for content in client.contents() if content[0] == 125], [b"\x7D\xFF", b"\x7D\x80"])
            self.assertEqual([content[0] for content in client.contents()].count(6), 1)
            host.quit()

    def test_dead_link(self):
        """A client that acknowledges nothing new, because it does not read, is ended by the system after --link-time; the others notice nothing."""
        with Boxd("--link-time", "2") as host, Client(host.port) as good, Client(host.port, small=True) as dead:
            dead.socket.setblocking(False)
            many = frame(b"\x15" + field(100, 2) + field(INPUT_IDS[0], 8) * 100)
            end = time.monotonic() + PATIENCE
            while not host.find("connection 1 closed: Connection timed out"):
                self.assertLess(time.monotonic(), end, "the dead link is not ended")
                try:
                    dead.socket.send(many)
                except OSError:
                    time.sleep(0.05)
            self.assertGreater(good.clock(), 0)
            host.quit()


# ---------------------------------------------------------------------------------------------
# The log
# ---------------------------------------------------------------------------------------------

class Log(WithUsers):
    def flood(self, client, n):
        """So many bad frames, all of them read by the host when this is done."""
        client.send(BAD * n)
        client.ask(login(b"eve", b"wrong"), 125)

    def test_budget(self):
        """A stranger's bad frames make few lines, and one that says how many were left out; a wrong login is told all the same."""
        with Boxd("--users", self.users) as host, Client(host.port) as client:
            self.flood(client, 20000)
            client.finish()
            left_out = int(host.wait_for(r"connection 0: (\d+) more lines within a minute were left out here").group(1))
            host.wait_for("connection 0 closed")
            told = host.count(r"connection 0 sent a message of type 5; refused \(7\)")
            self.assertEqual(told + left_out, 20000)
            self.assertLessEqual(told, 60)
            self.assertTrue(host.find("connection 0: login of eve refused"))
            with Client(host.port) as again:            # another client on the same connection has no more lines
                self.flood(again, 100)
                again.finish()
            host.wait_for(r"connection 0: 100 more lines within a minute were left out here")
            host.quit()

    def test_budgets_are_apart(self):
        """The flood of one hides nothing of another, nor of the box."""
        with Boxd() as host, Client(host.port) as flooding, Client(host.port) as other:
            flooding.send(BAD * 5000)
            flooding.clock()
            other.send(command(1, 3))
            other.clock()
            host.wait_for("connection 1 commanded relay 3 closed")
            host.tell("level 2 1")
            host.wait_for("input 2 is on: 1 counted")
            host.quit()

    def test_every_line_has_date_and_time(self):
        with Boxd() as host, Client(host.port) as client:
            client.clock()
            host.quit()
        for line in host.lines:
            self.assertRegex(line, r"^\d{4}-\d\d-\d\d \d\d:\d\d:\d\d \S")
        self.assertLess(abs(time.mktime(time.strptime(host.lines[-1][:19], "%Y-%m-%d %H:%M:%S")) - time.time()), PATIENCE)

    def start(self, log, *words):
        program = Program([EXEC, PROGRAM, "--listen", "127.0.0.1:0", "--log", log, *words])
        wait_until("the box listens", lambda: "listens on" in read(log))
        return program

    def test_file_is_opened_anew(self):
        """After SIGHUP it goes on in a file of the old name."""
        log = os.path.join(self.folder.name, "log")
        with self.start(log) as program:
            program.tell("level 1 1")
            wait_until("the fish is in the log", lambda: "input 1 is on: 1 counted" in read(log))
            os.rename(log, log + ".1")
            program.process.send_signal(signal.SIGHUP)
            wait_until("there is a new log", lambda: os.path.exists(log))
            program.tell("level 2 1")
            program.tell("quit")
            self.assertEqual(program.ended(), 0)
            self.assertNotIn("input 2", read(log + ".1"))
            self.assertIn("input 2 is on: 1 counted", read(log))
            self.assertIn("the box has ended", read(log))
            self.assertEqual(program.lines, [])

    def test_hang_up_without_a_file(self):
        """It ends in order, by that signal; where it was started with it ignored, it goes on."""
        with Boxd() as host:
            host.process.send_signal(signal.SIGHUP)
            self.assertEqual(host.ended(), -signal.SIGHUP)
            self.assertTrue(host.find("the box has ended"))
        with Program(["nohup", EXEC, PROGRAM, "--listen", "127.0.0.1:0"]) as program:
            program.wait_for("listens on")
            program.process.send_signal(signal.SIGHUP)
            program.tell("quit")
            self.assertEqual(program.ended(), 0)

    def test_log_is_added_to(self):
        log = os.path.join(self.folder.name, "log")
        for _ in range(2):
            with self.start(log) as program:
                program.tell("quit")
                program.ended()
        self.assertEqual(read(log).count("the box has ended"), 2)

    def test_full_disk(self):
        """Nothing can be written for a while: clients are served, and when it can be again, the log goes on and says what is missing."""
        log = os.path.join(self.folder.name, "log")
        with self.start(log) as program:
            port = int(re.search(r"listens on 127\.0\.0\.1:(\d+)", read(log)).group(1))
            resource.prlimit(program.process.pid, resource.RLIMIT_FSIZE, (os.path.getsize(log) + 50, resource.RLIM_INFINITY))
            for _ in range(200):
                program.tell("state")
            with Client(port) as client:
                program.tell("level 5 1")
                while client.next_of(1)[17 + 4 * 8 + 5] == 0:         # the last byte of input 5's count
                    pass
            full = os.path.getsize(log)
            resource.prlimit(program.process.pid, resource.RLIMIT_FSIZE, (resource.RLIM_INFINITY, resource.RLIM_INFINITY))
            wait_until("the log goes on", lambda: os.path.getsize(log) > full + 1000)
            program.tell("level 5 0")
            wait_until("a later line is in the log", lambda: "input 5 is off" in read(log))
            program.tell("quit")
            self.assertEqual(program.ended(), 0)
        said = read(log)
        missing = int(re.search(r"\((\d+) lines were left out here: File too large\)", said).group(1))
        self.assertEqual(said.count("lines were left out"), 1)
        whole = 200 * self.lines_of_state()
        self.assertGreater(missing, 1000)
        self.assertIn(said.count("state: ") + missing - whole, range(5))       # and a few lines of the client and the fish
        for line in said.splitlines():
            self.assertRegex(line, r"^\d{4}-\d\d-\d\d ")

    def lines_of_state(self):
        """How many lines `state` prints."""
        with Boxd() as host:
            host.tell("state")
            host.wait_for("state: connection 3")
            n = host.count("state: ")
            host.quit()
        return n


# ---------------------------------------------------------------------------------------------
# Inputs and outputs for real
# ---------------------------------------------------------------------------------------------

class Inputs(Case):
    def file(self, name):
        return os.path.join(self.folder.name, name)

    def script(self, name, text):
        path = self.file(name)
        with open(path, "w", encoding="ascii") as file:
            file.write("#!/bin/sh\n" + text)
        os.chmod(path, 0o755)
        return path

    def relays(self, path):
        return read(path).splitlines()

    def test_command(self):
        """Levels come in, each relay goes out: when the command comes, at each change, with a module that comes and goes."""
        fifo, out = self.file("levels"), self.file("relays")
        os.mkfifo(fifo)
        script = self.script("io", f"cat {fifo} &\nexec cat > {out}\n")
        with Boxd("--io", script, trace=True) as host, open(fifo, "w", encoding="ascii") as levels, Client(host.port) as client:
            def tell(line):
                levels.write(line + "\n")
                levels.flush()

            at_start = [f"relay {k} 0" for k in range(1, 9)]
            wait_until("all relays are told", lambda: self.relays(out) == at_start)
            tell("level 3 1")
            host.wait_for("input 3 is on: 1 counted")
            tell("level 3 1")
            client.send(command(1, 5))
            wait_until("relay 5 is told", lambda: self.relays(out)[8:] == ["relay 5 1"])
            tell("filled 1")
            deck = [f"relay {k} 0" for k in range(9, 13)]
            wait_until("the module's relays are told", lambda: self.relays(out)[9:] == deck)
            client.send(command(1, 10))
            wait_until("relay 10 is told", lambda: self.relays(out)[13:] == ["relay 10 1"])
            tell("emptied 1")
            wait_until("relay 10 is told open", lambda: self.relays(out)[14:] == ["relay 10 0"])
            tell("filled 1")
            wait_until("they are told again", lambda: self.relays(out)[15:] == deck)
            for line in ("level 9 1", "level 1 2", "quit", "state", "x" * 300):
                tell(line)
            host.wait_for("a line that long is no command: write `level K V`, `filled P` or `emptied P`")
            self.assertEqual(host.count("level refused"), 2)
            self.assertEqual(host.count("no such command: write `level K V`, `filled P` or `emptied P`"), 2)
            self.assertEqual(counts(client), [0, 0, 1, 0, 0, 0, 0, 0])
            self.assertEqual(host.count("input 3"), 1)
            client.finish()
            host.quit()
            judge(host, [client])

    def test_each_change_is_told(self):
        """Pulses of one ms that wait behind each other: each closes its relay and opens it again."""
        out = self.file("relays")
        with Boxd("--io", f"cat > {out}; sleep 9") as host, Client(host.port) as client:
            wait_until("all relays are told", lambda: len(self.relays(out)) == 8)
            client.send(pulse(1, 300) + b"".join(pulse(2 + k % 2, 1) for k in range(20)))
            changes = ["relay 1 1", "relay 1 0"] + [f"relay {2 + k % 2} {v}" for k in range(20) for v in (1, 0)]
            wait_until("each change is told", lambda: len(self.relays(out)) >= 8 + len(changes))
            self.assertEqual(sorted(self.relays(out)[8:]), sorted(changes))
            for k in (1, 2, 3):                         # of each relay closed and open by turns
                self.assertEqual([line[-1] for line in self.relays(out)[8:] if line.startswith(f"relay {k} ")],
                                 ["1", "0"] * (1 if k == 1 else 10))
            host.quit()

    def test_command_that_ends(self):
        """It is said, and it is started again; it is told all relays anew."""
        out = self.file("relays")
        script = self.script("io", f"echo level 1 1\necho level 1 0\nhead -n 8 >> {out}\nexit 3\n")
        with Boxd("--io", script) as host:
            host.wait_for("the command of --io has ended with status 3: the inputs are not read. It is started again in 1 s")
            host.wait_for("the command of --io has ended with status 3: the inputs are not read. It is started again in 2 s")
            host.wait_for("input 1 is on: 2 counted")
            self.assertEqual(self.relays(out)[:16], [f"relay {k} 0" for k in range(1, 9)] * 2)
            host.quit()

    def test_command_that_only_tells(self):
        """It has closed its input, and its levels count all the same; it is not taken for one that has ended."""
        fifo = self.file("levels")
        os.mkfifo(fifo)
        with Boxd("--io", f"exec <&-; exec cat {fifo}") as host, open(fifo, "w", encoding="ascii") as levels, Client(host.port) as client:
            client.send(command(1, 1))
            host.wait_for("the command of --io takes no lines any more")
            levels.write("level 6 1\n")
            levels.flush()
            host.wait_for("input 6 is on: 1 counted")
            client.send(command(1, 2))
            client.clock()
            self.assertEqual(host.count("--io"), 1)
            host.quit()

    def test_command_ends_with_the_box(self):
        """It is asked to, and may clean up; where it does not look at its input and ignores the signal it is ended by force, with its children."""
        mark = self.file("asked")
        with Boxd("--io", f"trap 'echo asked > {mark}; exit' TERM; echo level 1 1; cat; while :; do sleep 0.1; done") as host:
            host.wait_for("input 1 is on")
            host.quit()
        self.assertEqual(read(mark), "asked\n")
        mark = self.file("pids")
        with Boxd("--io", f"trap '' TERM; sleep 1000 & echo $$ $! > {mark}; wait") as host:
            wait_until("it runs", lambda: read(mark).count(" ") == 1 and read(mark).endswith("\n"))
            host.quit()
        for pid in read(mark).split():
            wait_until(f"{pid} has ended", lambda pid=pid: not os.path.exists(f"/proc/{pid}") or " Z " in read(f"/proc/{pid}/stat"))

    def join(self, path):
        program = socket.socket(socket.AF_UNIX)
        program.settimeout(PATIENCE)
        program.connect(path)
        return program

    def test_socket(self):
        path = self.file("io.sock")
        with socket.socket(socket.AF_UNIX) as left_over:     # nobody listens on it any more
            left_over.bind(path)
        with Boxd("--io-socket", path) as host, Client(host.port) as client:
            self.assertEqual(stat.S_IMODE(os.stat(path).st_mode) & 0o077, 0)        # others than the owner cannot come
            with self.join(path) as program, program.makefile("r") as lines:
                self.assertEqual([lines.readline() for _ in range(8)], [f"relay {k} 0\n" for k in range(1, 9)])
                program.sendall(b"level 4 1\nlev")
                host.wait_for("input 4 is on: 1 counted")
                client.send(command(1, 2))
                self.assertEqual(lines.readline(), "relay 2 1\n")
                with self.join(path) as second:
                    self.assertEqual(second.recv(100), b"")
                program.sendall(b"el 4 0\n")
                host.wait_for("input 4 is off")
            host.wait_for("the program at .* has gone: the inputs are not read until it comes again")
            with self.join(path) as program, program.makefile("r") as lines:        # it is told how they are now
                self.assertEqual([lines.readline() for _ in range(8)], [f"relay {k} {int(k == 2)}\n" for k in range(1, 9)])
                self.assertIn("Another box may use it", self.refused("--listen", "127.0.0.1:0", "--io-socket", path))
            host.quit()
        self.assertFalse(os.path.exists(path))

    def test_program_that_does_not_read(self):
        """Nobody waits for it.  When it reads again, the last it is told of each relay is how that is."""
        path = self.file("io.sock")
        with Boxd("--io-socket", path) as host, Client(host.port) as client, self.join(path) as program:
            host.wait_for("has come to")
            for turn in range(300):
                client.send(b"".join(frame(b"\x0A\x0A\xFF" + bytes([states])) for states in (0x00, 0xFF) * 40))
                client.clock()
            client.send(frame(b"\x0A\x0A\xFF\xA5"))
            client.clock()
            program.setblocking(False)
            told = b""

            def states():
                nonlocal told
                try:
                    told += program.recv(1 << 20)
                except BlockingIOError:
                    pass
                last = dict(re.findall(rb"relay (\d) (\d)\n", told))
                return sum(int(v) << int(k) - 1 for k, v in last.items())

            wait_until("the relays are told as they are", lambda: states() == 0xA5)
            host.quit()

    def test_gpio_example(self):
        """docs/examples/gpio, with stand-ins for libgpiod's tools."""
        said, edges = self.file("set"), self.file("edges")
        os.mkfifo(edges)
        self.script("gpioget", "echo 0 0 1 0 0 0 0 0\n")
        self.script("gpiomon", f"exec cat {edges}\n")
        self.script("gpioset", f"echo \"$@\" > {said}\nexec cat >> {said}\n")
        with Boxd("--io", f"PATH={self.folder.name}:$PATH {ROOT}/docs/examples/gpio") as host, open(edges, "w", encoding="ascii") as edge, \
                Client(host.port) as client:
            host.wait_for("input 3 is on: 1 counted")
            edge.write("13 2\n5 1\n20 1\n")
            edge.flush()
            host.wait_for("input 3 is off")
            host.wait_for("input 1 is on: 1 counted")
            host.wait_for("input 8 is on: 1 counted")
            client.send(command(1, 8) + command(1, 1))
            wait_until("relays 8 and 1 are set", lambda: self.relays(said)[-2:] == ["set 7=1", "set 17=1"])
            self.assertEqual(self.relays(said)[0], "-c gpiochip0 --interactive 17=0 27=0 22=0 23=0 24=0 25=0 8=0 7=0")
            self.assertEqual(self.relays(said)[1:9], [f"set {line}=0" for line in (17, 27, 22, 23, 24, 25, 8, 7)])
            edge.close()                                    # gpiomon ends: nobody would read the inputs any more
            host.wait_for("the command of --io .* the inputs are not read")
            host.quit()


# ---------------------------------------------------------------------------------------------
# Counts over a power failure
# ---------------------------------------------------------------------------------------------

class Counts(Case):
    def setUp(self):
        super().setUp()
        self.path = os.path.join(self.folder.name, "counts")

    def saved(self):
        return [int(count) for count in re.findall(r"(?m)^input \d count (\d+)$", read(self.path))]

    def rise(self, host, *inputs):
        for k in inputs:
            host.tell(f"level {k} 1\nlevel {k} 0")

    def test_over_a_restart(self):
        """They go on where they were, by an ordinary message that the model knows too; nothing else does."""
        with Boxd("--counts", self.path) as host, Client(host.port) as client:
            self.assertEqual(self.saved(), [0] * 8)
            self.rise(host, 1, 1, 1, 8)
            host.wait_for("input 8 is off")
            client.send(frame(b"\x17" + field(1, 2) + field(INPUT_IDS[4], 8) + field(5, 2) + b"\x02" + field(4294967290, 4)))
            client.next_of(24)
            host.quit()
        self.assertEqual(self.saved(), [3, 0, 0, 0, 4294967290, 0, 0, 1])
        with Boxd("--counts", self.path, trace=True) as host, Client(host.port) as client:
            self.assertEqual(counts(client), [3, 0, 0, 0, 4294967290, 0, 0, 1])
            self.rise(host, 1)
            host.wait_for("input 1 is on: 4 counted")
            client.finish()
            host.quit()
            with open(host.trace, encoding="ascii") as trace:
                lines = [line for line in trace.read().splitlines() if not line.startswith("pass")]
            self.assertEqual([line.split(" ")[0] for line in lines[:4]], ["power", "open", "bytes", "close"])
            self.assertEqual(lines[1], "open 0 1 1")
        self.assertEqual(self.saved(), [4, 0, 0, 0, 4294967290, 0, 0, 1])

    def test_over_a_power_failure(self):
        """The box is gone without a word; what was saved is there, and what was cleared is not."""
        with Boxd("--counts", self.path) as host:
            self.rise(host, *[2] * 5)
            wait_until("five are saved", lambda: self.saved()[1:2] == [5])
            host.process.kill()
            host.ended()
        with Boxd("--counts", self.path) as host, Client(host.port) as client:
            self.assertEqual(counts(client)[1], 5)
            client.send(command(5, 2))
            wait_until("the clearing is saved", lambda: self.saved()[1] == 0)
            self.assertFalse(os.path.exists(self.path + ".new"))
            host.process.kill()
            host.ended()

    def test_without(self):
        """Off by default: at power-up every count is 0."""
        for _ in range(2):
            with Boxd() as host, Client(host.port) as client:
                self.rise(host, 1)
                host.wait_for("input 1 is on: 1 counted")
                self.assertEqual(counts(client)[0], 1)
                host.quit()

    def test_once_a_second(self):
        """However many rise, it is saved at most once a second, each time whole."""
        with Boxd("--counts", self.path) as host:
            begun, seen = time.monotonic(), set()
            while time.monotonic() < begun + 3.2:
                self.rise(host, 3)
                seen.add(os.stat(self.path).st_mtime_ns)
                self.assertEqual(len(self.saved()), 8)
                time.sleep(0.005)
            self.assertLessEqual(len(seen), time.monotonic() - begun + 2)
            self.assertGreaterEqual(len(seen), 2)
            host.quit()
            self.assertEqual(self.saved()[2], host.count("input 3 is on"))

    def test_cannot_be_saved_for_a_while(self):
        with Boxd("--counts", self.path) as host:
            os.mkdir(self.path + ".new")
            self.rise(host, 6)
            host.wait_for(r"the counts cannot be saved to .*: Is a directory\. It is tried again each second")
            os.rmdir(self.path + ".new")
            host.wait_for("the counts are saved to .* again")
            self.assertEqual(self.saved()[5], 1)
            self.assertEqual(host.count("cannot be saved"), 1)
            host.quit()

    def saver(self, host):
        return int(read(f"/proc/{host.process.pid}/task/{host.process.pid}/children").split()[0])

    def test_ended_as_a_service(self):
        """A service is ended by a signal to all of its processes: what was counted last is saved all the same."""
        with Boxd("--counts", self.path) as host:
            self.rise(host, *[4] * 7)
            host.wait_for("input 4 is on: 7 counted")
            os.kill(self.saver(host), signal.SIGTERM)
            host.process.terminate()
            self.assertEqual(host.ended(), 0)
            self.assertEqual(self.saved()[3], 7)
            self.assertFalse(host.find("cannot be saved|could not be saved"))

    def test_saver_that_was_killed(self):
        with Boxd("--counts", self.path) as host:
            os.kill(self.saver(host), signal.SIGKILL)
            host.wait_for("the counts cannot be saved")
            self.rise(host, 7)
            wait_until("another saver has saved it", lambda: self.saved()[6] == 1)
            host.quit()

    def test_bad_files(self):
        """They are named, nothing starts, and they stay as they are."""
        good = "".join(f"input {k} count 1\n" for k in range(1, 9))
        for text, said in ((good.replace("input 3 count 1", "input 3 count x"), "line 3: a count is a number up to 4294967295"),
                           (good.replace("input 3 count 1", "input 3 count 4294967296"), "line 3: a count is a number"),
                           (good.replace("input 8", "input 9"), "line 8: inputs have the numbers 1 to 8"),
                           (good.replace("input 8", "input 1"), "line 8: this input stands in an earlier line too"),
                           ("# counts\n\n" + good[:-16], "no count of input 8"), ("7\n", "line 1: a line is `input K count N`"),
                           ("", "no count of input 1")):
            with open(self.path, "w", encoding="ascii") as file:
                file.write(text)
            self.assertIn(said, self.refused("--listen", "127.0.0.1:0", "--counts", self.path), text)
            self.assertEqual(read(self.path), text)
        self.assertIn("cannot be", self.refused("--listen", "127.0.0.1:0", "--counts", os.path.join(self.folder.name, "no", "counts")))


# ---------------------------------------------------------------------------------------------
# No invented fish
# ---------------------------------------------------------------------------------------------

class Simulation(Case):
    def test_only_where_it_is_asked_for(self):
        for words in (("--io", "cat"), ("--io-socket", "/nowhere/x"), ("--counts", "x")):
            self.assertIn("--simulate does not go with", self.refused("--simulate", *words))
        self.assertIn("--seed is of a simulated morning", self.refused("--seed", "7"))
        self.assertIn("do not go together", self.refused("--io", "cat", "--io-socket", "x"))
        with Boxd("--simulate") as host:
            host.wait_for("SIMULATED: fish rise at random, none of them is real")
            host.quit()
        with Boxd() as host:
            host.tell("state")
            host.wait_for("state: connection 3")
            self.assertFalse(host.find("(?i)simulated|fish"))
            host.quit()


# ---------------------------------------------------------------------------------------------
# What needs a minute: it begins before all the others, and is looked at behind them
# ---------------------------------------------------------------------------------------------

if PROGRAM == "boxd":
    def setUpModule():
        UntilTheMinuteIsOver.host = Boxd()
        UntilTheMinuteIsOver.client = Client(UntilTheMinuteIsOver.host.port)
        UntilTheMinuteIsOver.client.send(BAD * 1000)

    def tearDownModule():
        UntilTheMinuteIsOver.client.close()
        UntilTheMinuteIsOver.host.__exit__()            # where other tests were asked for

    class UntilTheMinuteIsOver(Case):
        def test_left_out(self):
            """The line that says how many were left out comes with the minute's end, though nothing else happens; then all are told again."""
            with self.host as host, self.client as client:
                told = host.count("refused")
                with host.came:
                    host.came.wait_for(lambda: host.find("connection 0: .* left out here"), 2 * PATIENCE)
                left_out = int(host.find(r"connection 0: (\d+) more lines within a minute were left out here").group(1))
                self.assertEqual((told, left_out), (300, 700))
                client.send(command(1, 7))
                host.wait_for("connection 0 commanded relay 7 closed")
                host.quit()


if __name__ == "__main__":
    subprocess.run([os.path.join(ROOT, "host", "build"), PROGRAM], check=True)
    unittest.main()
