"""What the tests of the host share: the running host, a client of its own, and the trace held to the model.

Nothing here waits for a fixed time.  A wait ends with what is waited for, or fails after PATIENCE.
"""

import fcntl
import os
import re
import select
import socket
import subprocess
import tempfile
import threading
import time

from answers import KEEP_ALIVE, NOT_OFFERED, OUT_OF_RANGE, SERVED, STRAY, TOO_LONG, WAITING
from model import Box, crc16, field, number

ROOT = os.path.dirname(os.path.dirname(os.path.abspath(__file__)))
PATIENCE = 60.0                         # s; only a fault waits so long
PROGRAM = os.environ.get("BOXD", "boxd")        # boxd-san tries the build with sanitizers


def frame(content):
    return b"\x01" + field(len(content), 2) + field(crc16(content), 2) + content


def unchecked(content):
    """With 0xFFFF in the place of the checksum."""
    return b"\x01" + field(len(content), 2) + b"\xFF\xFF" + content


def string(text):
    return bytes([len(text)]) + text


def login(name, password):
    return frame(b"\x7E" + string(name) + string(password))


def command(action, channel):
    """Type 10 to one channel: 1 closes, 2 opens, 3 toggles a relay."""
    return frame(b"\x0A" + bytes([action]) + field(channel, 2))


def pulse(channel, ms):
    """Action 6: closes the relay for so long."""
    return frame(b"\x0A\x06" + field(channel, 2) + field(ms, 4))


def block_pulse(mask, states, ms):
    """Action 7."""
    return frame(b"\x0A\x07" + bytes([mask, states]) + field(ms, 4))


def refused(answer):
    """A pattern: how the host tells a refusal."""
    return rf"refused \({answer}\)"


def outputs(content):
    """The states that an External Monitor message (type 2) has, of 4 or 8 relays."""
    assert content[:2] == b"\x02\x00" and content[2] in (4, 8) and len(content) == 3 + content[2] + 8, content.hex()
    return list(content[3:-8])


CLOCK = frame(b"\x05\x00\x00")
MONITOR = frame(b"\x05\x00\x01")
LIST = frame(b"\x1A\x01")

# 001, Custom Command: what the host itself answers.
HOW_MANY = frame(b"\xFF" + string(b"pulses") + b"\x00\x00\x00")
LAST_REFUSED = frame(b"\xFF" + string(b"refused") + b"\x00\x00\x00")


# ---------------------------------------------------------------------------------------------
# A program that prints lines
# ---------------------------------------------------------------------------------------------

class Program:
    """A program that runs; its lines are read as they come, so that it never waits for us.  On a busy machine they are read late, so the pipe is large:
    the host leaves lines out that find no room.
    """

    def __init__(self, words, **more):
        self.process = subprocess.Popen(words, stdin=subprocess.PIPE, stdout=subprocess.PIPE, stderr=subprocess.STDOUT, **more)
        fcntl.fcntl(self.process.stdout, fcntl.F_SETPIPE_SZ, 1 << 20)
        self.lines = []
        self.over = self.finished = False
        self.came = threading.Condition()
        self.reader = threading.Thread(target=self.read, daemon=True)
        self.reader.start()

    def read(self):
        for line in self.process.stdout:
            with self.came:
                self.lines.append(line.decode("latin-1").rstrip("\n"))
                self.came.notify_all()
        with self.came:
            self.over = True
            self.came.notify_all()

    def find(self, pattern, start=0):
        for line in self.lines[start:]:
            found = re.search(pattern, line)
            if found:
                return found
        return None

    def wait_for(self, pattern, start=0):
        """The first line from `start` on that fits."""
        with self.came:
            self.came.wait_for(lambda: self.over or self.find(pattern, start), PATIENCE)
            found = self.find(pattern, start)
        if not found:
            raise AssertionError(f"no line {pattern!r} in:\n" + "\n".join(self.lines[-30:]))
        return found

    def count(self, pattern):
        return sum(1 for line in list(self.lines) if re.search(pattern, line))

    def tell(self, line):
        self.process.stdin.write(line.encode() + b"\n")
        self.process.stdin.flush()

    def ended(self):
        """Waits for its end; the exit status."""
        status = self.process.wait(PATIENCE)
        self.finished = True
        self.reader.join(PATIENCE)
        self.process.stdin.close()
        self.process.stdout.close()
        return status

    def __enter__(self):
        return self

    def __exit__(self, *why):
        if self.process.poll() is None:
            self.process.kill()
        if not self.finished:
            try:
                self.ended()
            except BrokenPipeError:
                pass


class Boxd(Program):
    """The host, on a free port unless one is given.  `trace`: each call is written down, for `judge`."""

    def __init__(self, *words, trace=False, port=0, program=None):
        self.trace = tempfile.mktemp(prefix="boxd-trace-") if trace else None
        self.begun = time.monotonic()
        more = ["--trace", self.trace] if trace else []
        super().__init__([os.path.join(ROOT, "host", "exec"), program or PROGRAM, "--listen", f"127.0.0.1:{port}", *words, *more])
        self.port = int(self.wait_for(r"listens on 127\.0\.0\.1:(\d+)").group(1))
        self.up = time.monotonic()

    def quit(self):
        self.quit_at = time.monotonic()
        self.tell("quit")
        status = self.ended()
        self.end_at = time.monotonic()
        if status != 0:
            raise AssertionError(f"the host ended with {status}:\n" + "\n".join(self.lines[-30:]))

    def __exit__(self, *why):
        super().__exit__(*why)
        if self.trace and os.path.exists(self.trace):
            os.remove(self.trace)


# ---------------------------------------------------------------------------------------------
# A client
# ---------------------------------------------------------------------------------------------

class Client:
    """An ordinary client.  `sent` and `got` hold all bytes of its connection."""

    def __init__(self, port, small=False):
        self.socket = socket.socket()
        self.socket.settimeout(PATIENCE)
        if small:                               # little is kept for us while we do not read
            self.socket.setsockopt(socket.SOL_SOCKET, socket.SO_RCVBUF, 4096)
        self.socket.connect(("127.0.0.1", port))
        self.socket.setsockopt(socket.IPPROTO_TCP, socket.TCP_NODELAY, 1)
        self.port = self.socket.getsockname()[1]
        self.sent = bytearray()
        self.got = bytearray()
        self.read_to = 0

    def send(self, data):
        self.sent += data
        self.socket.sendall(data)

    def more(self):
        """Reads something; False at the end."""
        data = self.socket.recv(65536)
        self.got += data
        return bool(data)

    def next(self):
        """The content of the next frame; None at the end."""
        while True:
            have = self.got[self.read_to:self.read_to + 5]
            size = 5 + number(have[1:3])
            if len(have) == 5 and len(self.got) >= self.read_to + size:
                whole = bytes(self.got[self.read_to:self.read_to + size])
                self.read_to += size
                assert whole[0] == 1 and number(whole[3:5]) == crc16(whole[5:]), whole.hex()
                return whole[5:]
            if not self.more():
                return None

    def contents(self):
        """The contents of all frames that have come whole."""
        at = 0
        while at < len(self.got):
            size = 5 + number(self.got[at + 1:at + 3])
            yield bytes(self.got[at + 5:at + size])
            at += size

    def next_of(self, kind):
        """The next content of a type; others are passed over."""
        while True:
            content = self.next()
            if content is None or content[0] == kind:
                return content

    def ask(self, message, kind):
        self.send(message)
        return self.next_of(kind)

    def clock(self):
        return number(self.ask(CLOCK, 6)[1:])

    def waits(self):
        """Whether something has come that was not read."""
        return bool(select.select([self.socket], [], [], 0)[0])

    def finish(self):
        """Says that it sends no more, and reads to the end."""
        self.socket.shutdown(socket.SHUT_WR)
        while self.more():
            pass
        self.socket.close()

    def talk(self, stream, rng, longest):
        """Sends a stream in pieces cut at random, reading all the while, and finishes."""
        self.socket.setblocking(False)
        at = 0
        while at < len(stream):
            size = rng.choice((1, 2, 5, 6, rng.randrange(1, longest)))
            readable, writable, _ = select.select([self.socket], [self.socket], [], PATIENCE)
            assert readable or writable, "the host neither reads nor writes"
            if readable:
                self.more()
            if writable:
                try:
                    done = self.socket.send(stream[at:at + size])
                except BlockingIOError:
                    done = 0
                self.sent += stream[at:at + done]
                at += done
        self.socket.settimeout(PATIENCE)
        self.finish()

    def close(self):
        self.socket.close()

    def __enter__(self):
        return self

    def __exit__(self, *why):
        self.close()


# ---------------------------------------------------------------------------------------------
# The trace, held to the model
# ---------------------------------------------------------------------------------------------

class Session:
    """What the trace says of one opening of a connection.  `opened`: the words of its line behind the connection's number."""

    def __init__(self, opened):
        self.opened = opened
        self.taken = bytearray()
        self.replies = bytearray()


def login_answer(content):
    """Without a users file: 0x80 to a LoginRequest of 001's layout, else 0xFF."""
    strings = content[1:]
    for _ in range(2):
        if not strings or strings[0] > len(strings) - 1:
            return frame(b"\x7D\xFF")
        strings = strings[1 + strings[0]:]
    return frame(b"\x7D\xFF" if strings else b"\x7D\x80")


def custom_answer(payload):
    """001, Custom Command Response, with status 0."""
    return frame(b"\xFE\x00" + field(len(payload), 2) + payload)


class Refusals:
    """The last message that was refused, as the host has to remember it."""

    def __init__(self):
        self.payload = bytes(6)                 # all but how long ago
        self.at = None

    def heard(self, c, content, answer, place, now):
        """Pieces that end nothing, messages that are served and single bytes are no refusals.  What was too long is not kept."""
        if answer not in (WAITING, SERVED, KEEP_ALIVE, STRAY):
            type_ = content[:1] if answer != TOO_LONG else b""
            self.payload = bytes([1 + len(type_), c]) + (type_ or b"\x00") + bytes([answer]) + field(place, 2)
            self.at = now

    def answer(self, now):
        seconds = 0 if self.at is None else (now - self.at) // 1000
        return custom_answer(self.payload + field(seconds, 4))


class Played:
    """The trace of a host without a users file, played to the model: sessions, and the model at the end."""

    def __init__(self, path):
        self.box = Box()
        self.sessions = []
        self.passed = 0
        self.rises = {}                         # when each input was first told on, in ms
        self.answers = {}
        self.refusals = Refusals()
        self.current = [None] * 4
        with open(path, encoding="ascii") as lines:
            for line in lines:
                self.play(*line.rstrip("\n").split(" "))

    def play(self, name, *words):
        if name == "bytes":
            self.bytes(int(words[0]), b"" if words[2] == "-" else bytes.fromhex(words[2]))
        elif name == "collect":
            answer, reply = self.box.collect(int(words[0]), int(words[1]))
            assert answer == SERVED, "collected though nothing was due"
            self.current[int(words[0])].replies += reply
        else:
            if name == "open":
                self.current[int(words[0])] = Session(words[1:])
                self.sessions.append(self.current[int(words[0])])
            self.passed += int(words[0]) if name == "pass" else 0
            if name == "level" and words[1] == "1":
                self.rises.setdefault(int(words[0]), self.passed)
            assert self.box.line(" ".join((name,) + words)) in (str(SERVED), str(OUT_OF_RANGE)), (name, words)

    def bytes(self, c, piece):
        content = (bytes(self.box.connections[c].joined) + piece)[5:]
        answer, taken, place, reply = self.box.bytes_(c, 4096, piece)
        assert taken == len(piece) > 0, "the box took other bytes than the model"
        self.answers[answer] = self.answers.get(answer, 0) + 1
        self.current[c].taken += piece
        own = self.host_answer(content) if answer == NOT_OFFERED else b""
        self.current[c].replies += own or reply
        if not own:
            self.refusals.heard(c, content, answer, place, self.passed)

    def host_answer(self, content):
        """What the host itself replies to a message that the box does not offer; nothing where it is not the host's either."""
        if content[:1] == b"\x7E":
            return login_answer(content)
        if content == HOW_MANY[5:]:
            return custom_answer(bytes([len(self.box.queue)]))
        return self.refusals.answer(self.passed) if content == LAST_REFUSED[5:] else b""


def judge(host, clients):
    """Holds what each client sent and got to the trace and the model.  Gives what was played."""
    played = Played(host.trace)
    ports = [int(found.group(1)) for found in (re.search(r"connection \d: 127\.0\.0\.1:(\d+) connected", line) for line in host.lines)
             if found]
    assert len(ports) == len(played.sessions), [line for line in host.lines if "left out" in line]
    of_port = dict(zip(ports, played.sessions))
    for client in clients:
        session = of_port[client.port]
        assert client.sent == session.taken, f"sent {len(client.sent)} bytes, the box took {len(session.taken)} or others"
        assert client.got == session.replies, f"got {len(client.got)} bytes, the model replies {len(session.replies)} or others"
    return played
