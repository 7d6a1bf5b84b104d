"""The panel's side of the published protocol (001): frames, the fields of messages, and the messages that the panel sends."""

CHANNELS = range(1, 9)
DECK = range(9, 17)                                             # relays of the second deck: a module at place 1 has 9 to 12, at place 2 13 to 16
RELAYS = range(1, 17)
INPUT_IDS = [0x0000FF + 0x100 * k for k in CHANNELS]            # din1 to din8
RELAY_IDS = [0x0100FF + 0x100 * k for k in CHANNELS]            # rout1 to rout8
DECK_IDS = [0x0100FF + 0x100 * k for k in DECK]                 # rout9 to rout16

QUEUE = 31                  # pulses that stand in the box's queue at most, the running one included
LONGEST_PULSE = 4294967295  # ms
LONGEST_STRING = 255        # characters, of ASCII alone


class Lost(Exception):
    """The box does not answer.  Its text says what to check."""


class Refused(Exception):
    """The box refused the panel's own login.  Its text says what to do."""


def checksum(content):
    """001, 'CRC-16 Algorithm'."""
    crc = 0
    for byte in content:
        crc ^= byte
        for _ in range(8):
            crc = crc >> 1 ^ 0xA001 if crc & 1 else crc >> 1
    return crc


def framed(content):
    return b"\x01" + len(content).to_bytes(2, "big") + checksum(content).to_bytes(2, "big") + content


def text(value):
    """A character string: its length in one byte, then US-ASCII."""
    data = value.encode("ascii")
    return bytes([len(data)]) + data


# 001, EnumerateDevices (type 26): which internal devices there are.  Request (type 5): for the Monitor message, and for the clock.
LIST = b"\x1A\x01"
MONITOR = b"\x05\x00\x01"
CLOCK = b"\x05\x00\x00"

# 001, Custom Command (type 255): what the box's host itself answers, by type 254, because no message of the box tells it: how many pulses stand
# in the queue, and which message was refused last, whoever sent it.  An answer does not name its question; the payload's length tells them apart.
HOW_MANY = b"\xFF" + text("pulses") + b"\x00\x00\x00"
LAST_REFUSED = b"\xFF" + text("refused") + b"\x00\x00\x00"
ANSWERS_HOW_MANY, ANSWERS_LAST_REFUSED = b"\x00\x00\x01", b"\x00\x00\x0A"     # status and payload size


def read_devices(ids):
    """001, ReadDevices (type 21)."""
    return b"\x15" + len(ids).to_bytes(2, "big") + b"".join(device.to_bytes(8, "big") for device in ids)


def switch_relay(channel, closed):
    """001, Command (type 10): action 1 closes, 2 opens."""
    return bytes([10, 1 if closed else 2]) + channel.to_bytes(2, "big")


def pulse_relay(channel, ms):
    """Action 6: closes the relay for so long."""
    return b"\x0A\x06" + channel.to_bytes(2, "big") + ms.to_bytes(4, "big")


def clear_count(channel):
    """Action 5."""
    return b"\x0A\x05" + channel.to_bytes(2, "big")


def set_clock(ms):
    """001, Set clock (type 7): ms since 1970 GMT.  The box takes it at rank 2."""
    return b"\x07" + ms.to_bytes(8, "big")


def log_in(name, password):
    """001, LoginRequest (type 126)."""
    return b"\x7E" + text(name) + text(password)


LOGIN_REFUSED = 0xFF


def rank_of(answer):
    """The rank that the answer to a login (type 125) gives: bit 7 is an administrator, bit 1 may control.  0 for 0xFF and for whoever may neither."""
    if answer == LOGIN_REFUSED:
        return 0
    return 2 if answer & 0x80 else 1 if answer & 0x02 else 0


# Why the box refuses a message, by the answer number: the one place where the panel has words for them.  {} stands for the place.
REFUSALS = {
    6: "it is too long",
    7: "its checksum differs",
    8: "this box does not offer it",
    9: "its sender has too low a rank",
    11: "a number in it is out of range",
    14: "the queue of pulses is full",
    20: "it ends too early at byte {}",
    21: "bytes are left over from byte {} on",
    22: "its list is cut at byte {}",
}


class Fields:
    """Fields off the front of a content."""

    def __init__(self, content):
        self.content = content
        self.at = 0

    def bytes(self, size):
        if self.at + size > len(self.content):
            raise Lost("It sent a message that ends too early. Check that it is a Wellacorn box or a JNIOR.")
        self.at += size
        return self.content[self.at - size:self.at]

    def number(self, size=1):
        return int.from_bytes(self.bytes(size), "big")


def ago(seconds):
    """How long ago, in the largest unit of which there is a whole one."""
    for size, unit in ((86400, "d"), (3600, "h"), (60, "min")):
        if seconds >= size:
            return f"{seconds // size} {unit} ago"
    return f"{seconds} s ago"


def refusal_words(payload):
    """The host's answer on the last refused message, in words; no words where there is none.

    Kind 2 has a type; of kind 1 the type is not known, because the message was empty or too long to be kept.
    """
    kind, connection, type_, answer, place, seconds = (payload.number(size) for size in (1, 1, 1, 1, 2, 4))
    if kind == 0:
        return ""
    message = f"message of type {type_}" if kind == 2 else "message" if answer == 6 else "empty message"
    why = REFUSALS.get(answer, "for a reason that this panel does not know").format(place)
    return f"Last refused: connection {connection}, {message}, {why} ({answer}), {ago(seconds)}"


# The count alarms of the two messages that have them (001): the Monitor message's are 1 above the setpoint and light the lamp, the read
# block's are 1 from the setpoint on.  At the setpoint itself they differ, so each is kept under its own name.
MONITOR_ALARMS = ("count_alarm_1", "count_alarm_2")
BLOCK_ALARMS = ("reached_1", "reached_2")


def input_status(fields, count_alarms):
    """What both messages say of an input."""
    status = {"on": fields.number() == 1, "alarm": fields.number() == 1, "count": fields.number(4)}
    status.update((name, fields.number() == 1) for name in count_alarms)
    return status


class Stream:
    """Frames out of the bytes that come."""

    def __init__(self):
        self.held = b""

    def feed(self, data):
        """The contents of the frames that are whole now.  Bytes outside a frame mean nothing; a frame whose checksum differs is
        ignored, and 0xFFFF passes (001)."""
        self.held += data
        contents = []
        while True:
            start = self.held.find(b"\x01")
            self.held = self.held[start:] if start >= 0 else b""
            size = 5 + int.from_bytes(self.held[1:3], "big")
            if len(self.held) < 5 or len(self.held) < size:
                return contents
            sent, content = int.from_bytes(self.held[3:5], "big"), self.held[5:size]
            self.held = self.held[size:]
            if content and sent in (0xFFFF, checksum(content)):
                contents.append(content)
