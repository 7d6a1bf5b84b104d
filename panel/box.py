"""The box as the panel last saw it: the connection that the panel keeps, and the commands that it sends there."""

import json
import select
import socket
import threading
import time

from protocol import (ANSWERS_HOW_MANY, ANSWERS_LAST_REFUSED, BLOCK_ALARMS, CHANNELS, CLOCK, DECK, DECK_IDS, Fields, HOW_MANY, INPUT_IDS,
                      LAST_REFUSED, LIST, LOGIN_REFUSED, Lost, MONITOR, MONITOR_ALARMS, QUEUE, RELAY_IDS, Refused, Stream, clear_count, framed,
                      input_status, log_in, pulse_relay, rank_of, read_devices, refusal_words, set_clock, switch_relay)
from tell import tell

ROUND = 2.0                 # s from one look at the box to the next; changes come by themselves
SILENCE = 5.0               # s without an answer after which the box does not answer
LOGIN_PATIENCE = 45.0       # s: wrong passwords are answered late, and after them right ones too
AGAIN = 1.0                 # s until the next try after a lost connection
ROUNDS_KEPT = 64            # rounds whose answers are kept for those who wait for them
NEAR = 5000                 # ms that a clock may differ from the one that was just set


def read(connection, stream, patience):
    """The messages that come within so many seconds."""
    if not select.select([connection], [], [], max(0.0, patience))[0]:
        return []
    data = connection.recv(65536)
    if not data:
        raise Lost("It closed the connection. Check that the box runs.")
    return stream.feed(data)


def said_by_box(content):
    """001, type 3: why the box closes a connection."""
    return Lost("It says: " + content[1:].rstrip(b"\x00\n").decode("ascii", "replace"))


def weigh(connection, stream, name, password, take=lambda content: None):
    """What the box answers to a login.  Other messages are given to `take`."""
    connection.sendall(framed(log_in(name, password)))
    end = time.monotonic() + LOGIN_PATIENCE
    while time.monotonic() < end:
        for content in read(connection, stream, 1.0):
            if content[0] == 125 and len(content) == 2:
                return content[1]
            if content[0] == 3:
                raise said_by_box(content)
            take(content)
    raise Lost("It does not answer the login. Check that it is a Wellacorn box or a JNIOR.")


class Told:
    """What only a round's own answers tell: how many pulses stood, and the counts of inputs that were read singly."""

    def __init__(self):
        self.standing = []
        self.counts = []


class Box:
    """Keeps a connection to the box, and what was last seen of it.  One thread reads; the commands may be called by others."""

    def __init__(self, address, user=None, password=None, names=None, day=None):
        self.address = address
        self.user, self.password = user, password
        self.day = day                          # takes the counts of each look
        self.changed = threading.Condition()
        self.version = 0                        # grows with each change of what follows
        self.seen = {"answers": False, "since": time.time(), "check": "The panel is connecting.", "box": f"{address[0]}:{address[1]}",
                     "at": None, "name": "", "clock": 0, "standing": None, "refused": "", "names": names or [""] * len(CHANNELS),
                     "rank": 2,                 # of the panel itself, as far as it knows
                     "inputs": [dict.fromkeys(("on", "alarm", *MONITOR_ALARMS, *BLOCK_ALARMS, "usage_alarm"), False) | {"count": 0}
                                for _ in CHANNELS],
                     "relays": [dict(closed=False, usage_alarm=False) for _ in CHANNELS],
                     "deck": []}                # the relays of the second deck that are there
        self.sending = threading.Lock()
        self.socket = None
        self.asked = self.answered = 0          # rounds
        self.telling = Told()                   # of the round that is being answered
        self.told = {}                          # of the last rounds that were answered whole
        self.refused = ""                       # the last refused message, as told in the round that is being answered
        self.listed = []                        # which relays of the second deck the box listed last
        self.deck_told = False                  # whether it has told their states since then

    # -- what is seen ------------------------------------------------------------------------------

    def shown(self, **more):
        """All that is seen, and more that only the asker is shown, as JSON."""
        with self.changed:
            return json.dumps({**self.seen, "now": time.time(), "day": self.day.version if self.day else 0, **more})

    def change(self, **values):
        with self.changed:
            self.seen.update(values)
            self.version += 1
            self.changed.notify_all()

    def take(self, content):
        """One message of the box."""
        takers = {1: self.take_monitor, 2: self.take_external, 6: self.take_clock, 22: self.take_devices, 27: self.take_list, 254: self.take_custom}
        fields = Fields(content)
        kind = fields.number()
        if kind == 3:
            raise said_by_box(content)
        if kind in takers:
            takers[kind](fields)

    def take_monitor(self, fields):
        name = fields.bytes(fields.number()).decode("ascii", "replace")
        inputs = [{**old, **input_status(fields, MONITOR_ALARMS)} for old in self.seen["inputs"]]
        relays = [{**old, "closed": fields.number() == 1} for old in self.seen["relays"]]
        clock = fields.number(8)
        if self.day:
            self.day.see([status["count"] for status in inputs], time.time())
        self.change(name=name, inputs=inputs, relays=relays, clock=clock)

    def take_external(self, fields):
        """The states of the second deck's relays, rising.  With four of them it does not say at which place their module is: the list of devices does.
        Where there are not as many as were listed, a module has come or gone since then, and the next round tells.
        """
        fields.bytes(fields.number())           # inputs of the second deck, of which there are none
        states = fields.bytes(fields.number())
        if len(states) == len(self.listed):
            self.deck_told = True
            self.change(deck=[{"relay": k, "closed": state == 1} for k, state in zip(self.listed, states)], clock=fields.number(8))

    def take_list(self, fields):
        """Which devices there are.  What is not listed any more is not there; what is new is shown when its state is told."""
        fields.number()
        ids = {fields.number(8) for _ in range(fields.number(2))}
        self.listed = [k for k, device in zip(DECK, DECK_IDS) if device in ids]
        self.deck_told = False
        self.change(deck=[relay for relay in self.seen["deck"] if relay["relay"] in self.listed])

    def take_devices(self, fields):
        inputs, relays = list(self.seen["inputs"]), list(self.seen["relays"])
        devices = fields.number(2)
        for _ in range(devices):
            device = fields.number(8)
            block = Fields(fields.bytes(fields.number(2)))
            if device in INPUT_IDS:
                at = INPUT_IDS.index(device)
                inputs[at] = {**inputs[at], **input_status(block, BLOCK_ALARMS), "usage": block.number(8), "usage_alarm": block.number() == 1}
                self.telling.counts += [inputs[at]["count"]] if devices == 1 else []
            elif device in RELAY_IDS:
                at = RELAY_IDS.index(device)
                relays[at] = {"closed": block.number() == 1, "usage": block.number(8), "usage_alarm": block.number() == 1}
        self.change(inputs=inputs, relays=relays)

    def take_custom(self, fields):
        """What the host itself answers.  Another host than Wellacorn's may answer otherwise: it tells nothing then."""
        answers, payload = fields.content[1:4], Fields(fields.content[4:])
        if answers == ANSWERS_HOW_MANY:
            standing = payload.number()
            self.telling.standing.append(standing)
            self.change(standing=standing)
        elif answers == ANSWERS_LAST_REFUSED:
            self.refused = refusal_words(payload)

    def take_clock(self, fields):
        """The last answer of a round: the box answers."""
        round_, told, self.telling = self.answered + 1, self.telling, Told()
        self.told[round_] = told
        self.told.pop(round_ - ROUNDS_KEPT, None)
        self.answered = round_
        values = {"clock": fields.number(8), "at": time.time(), "check": "", "refused": self.refused}
        self.refused = ""                       # a host that is asked and does not tell shows none
        if not self.deck_told:                  # request 1 was answered with type 1 alone: no module is there
            values["deck"] = []
        if not self.seen["answers"]:
            values.update(answers=True, since=time.time())
        self.change(**values)

    # -- what is sent ------------------------------------------------------------------------------

    def send(self, *contents):
        """Sends messages, and a round behind them; gives the number of the round, which is answered when all before it is done."""
        messages = [*contents, HOW_MANY, LAST_REFUSED, read_devices(INPUT_IDS + RELAY_IDS), LIST, MONITOR, CLOCK]
        with self.sending:
            if self.socket is None:
                raise Lost("There is no connection to it.")
            self.socket.sendall(b"".join(framed(message) for message in messages))
            self.asked += 1
            return self.asked

    def ask(self, *contents):
        """Sends messages with a round behind them, and waits for it: what only its answers told, or None if it was not answered."""
        mine = self.send(*contents)
        with self.changed:
            self.changed.wait_for(lambda: self.answered >= mine or not self.seen["answers"], SILENCE)
            return self.told.get(mine) if self.answered >= mine else None

    def closed(self, channel):
        """Whether a relay is closed, as last seen; None where it is not there."""
        with self.changed:
            if channel in CHANNELS:
                return self.seen["relays"][channel - 1]["closed"]
            return next((relay["closed"] for relay in self.seen["deck"] if relay["relay"] == channel), None)

    def count(self, channel):
        """The count of an input, as last seen."""
        with self.changed:
            return self.seen["inputs"][channel - 1]["count"]

    def switch(self, channel, closed):
        """Closes or opens a relay; whether the box then shows it so."""
        return self.ask(switch_relay(channel, closed)) is not None and self.closed(channel) == closed

    def pulse(self, channel, ms):
        """Asks for a pulse; how many stood before it, -1 if it was refused, None if the box did not tell.

        A command has no reply.  So it is asked how many stand directly before it and, by the round, directly behind it.
        """
        told = self.ask(HOW_MANY, pulse_relay(channel, ms))
        if told is None or len(told.standing) != 2:
            return None
        before, behind = told.standing
        return -1 if before >= QUEUE and behind >= QUEUE else before

    def other_count(self, channel, confirmed):
        """Looks at the box at once: the count that an input shows where it is not the one that was confirmed, else None."""
        if self.ask() is None:
            raise Lost("It does not answer.")
        count = self.count(channel)
        return None if count == confirmed else count

    def clear(self, channel):
        """Clears a count; how much was cleared, or None if the box does not show it cleared.

        The input is read directly before the command, in the same write, so that a fish that came since the last look is told.
        """
        told = self.ask(read_devices([INPUT_IDS[channel - 1]]), clear_count(channel))
        if told is None or len(told.counts) != 1:
            return None
        had, left = told.counts[0], self.count(channel)
        return had if left < had or left == 0 else None

    def set_clock(self):
        """Sets the box's clock to this machine's; whether the box then shows it."""
        sent = int(time.time() * 1000)
        told = self.ask(set_clock(sent))
        with self.changed:
            return told is not None and sent - NEAR <= self.seen["clock"] <= time.time() * 1000 + NEAR

    # -- the connection ----------------------------------------------------------------------------

    def run(self):
        """Keeps the connection.  A refused login is not tried again: each try would make the box slow down that name for everybody."""
        while True:
            try:
                self.session()
            except Lost as lost:
                self.lose(str(lost))
            except Refused as refused:
                self.lose(str(refused))
                tell(f"the box at {self.seen['box']} does not let the panel in. {refused}")
                return
            except OSError as fault:
                self.lose(f"{fault.strerror or fault}. Check that the box runs, that {self.seen['box']} is its address, "
                          "and that the cable or radio is up.")
            time.sleep(AGAIN)

    def lose(self, check):
        with self.sending:
            if self.socket is not None:
                self.socket.close()
            self.socket = None
        values = {"answers": False, "check": check}
        if self.seen["answers"]:
            values["since"] = time.time()
        self.change(**values)

    def session(self):
        with socket.create_connection(self.address, SILENCE) as connection:
            self.talk(connection, Stream())

    def talk(self, connection, stream):
        self.listed, self.deck_told = [], False
        if self.user is not None:
            self.log_in(connection, stream)
        with self.sending:
            self.socket = connection
            self.asked = self.answered = 0
            self.telling, self.told, self.refused = Told(), {}, ""
        self.send()
        heard = time.monotonic()
        next_round = heard + ROUND
        while True:
            now = time.monotonic()
            if now >= next_round:
                self.send()
                next_round = now + ROUND
            before = self.answered
            for content in read(connection, stream, next_round - now):
                self.take(content)
            heard = time.monotonic() if self.answered > before else heard
            if time.monotonic() - heard > SILENCE:
                raise Lost("It is connected and says nothing. If it asks for a login, start the panel with --user NAME.")

    def log_in(self, connection, stream):
        answer = weigh(connection, stream, self.user, self.password, self.take)
        if answer == LOGIN_REFUSED:
            raise Refused(f"It refused the login of {self.user}, which is not tried again. Start the panel again with the right name and password.")
        self.change(rank=rank_of(answer))
