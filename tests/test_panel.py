#!/usr/bin/env python3
"""The panel over HTTP, against the host: what it shows, its buttons, its pulses, clearing and setting the clock, the second deck, names, the day, who
may press the buttons and who is let in, and what it says when the box is gone.

    python3 tests/test_panel.py

tests/browser.py tries the page itself in a real browser.
"""

import http.client
import json
import os
import re
import signal
import socket
import subprocess
import sys
import tempfile
import threading
import time
import unittest
import unittest.mock

from answers import ALREADY_OPEN, BAD_CHECKSUM, BAD_RANK, BY_NAME, QUEUE_FULL, TOO_LONG
from boxd import (Boxd, CLOCK, Client, HOW_MANY, LAST_REFUSED, MONITOR, PATIENCE, PROGRAM, Program, ROOT, command, custom_answer, frame, pulse,
                  refused, unchecked)
from model import Box, INPUT_IDS, RELAY_IDS, field, number

sys.path.insert(0, os.path.join(ROOT, "host"))
sys.path.insert(0, os.path.join(ROOT, "panel"))
import adduser                                                                                      # noqa: E402
import box as panel_box                                                                             # noqa: E402
import day as panel_day                                                                             # noqa: E402
import door                                                                                         # noqa: E402
import names                                                                                        # noqa: E402
import protocol                                                                                     # noqa: E402


class Panel(Program):
    def __init__(self, port, *words, secret=None, listen=("--port", "0"), **more):
        super().__init__([sys.executable, os.path.join(ROOT, "panel", "panel.py"), "--box", f"127.0.0.1:{port}", *listen, *words], **more)
        if secret is not None:
            self.tell(secret)
        self.port = int(self.wait_for(r"open http://127\.0\.0\.1:(\d+)/").group(1))
        self.cookie = None

    def ask(self, method, path, body=None, **headers):
        """Status, headers and body of a reply."""
        connection = http.client.HTTPConnection("127.0.0.1", self.port, timeout=PATIENCE)
        headers.setdefault("Cookie", self.cookie)
        try:
            connection.request(method, path, body, {name.replace("_", "-"): value for name, value in headers.items() if value is not None})
            reply = connection.getresponse()
            return reply.status, reply.headers, reply.read().decode("utf-8")
        finally:
            connection.close()

    def state(self):
        return json.loads(self.ask("GET", "/state")[2])

    def wait_until(self, holds):
        """The first state that it holds for."""
        end = time.monotonic() + PATIENCE
        while time.monotonic() < end:
            state = self.state()
            if holds(state):
                return state
            time.sleep(0.02)
        raise AssertionError(f"never so: {state}")

    def post(self, path, body, headers):
        words = {"Origin": f"http://127.0.0.1:{self.port}", "Content_Type": "application/json", **headers}
        return self.ask("POST", path, body, **{name: value for name, value in words.items() if value is not None})

    def press(self, relay, closed, **headers):
        return self.post("/relay", json.dumps({"relay": relay, "closed": closed}), headers)

    def pulse(self, relay, ms, **headers):
        return self.post("/pulse", json.dumps({"relay": relay, "ms": ms}), headers)


    def clear(self, input_, count, **headers):
        return self.post("/clear", json.dumps({"input": input_, "count": count}), headers)

    def set_clock(self, **headers):
        return self.post("/clock", "{}", headers)

    def log_in(self, name, password, **headers):
        """Keeps the cookie, if there is one."""
        reply = self.post("/login", json.dumps({"name": name, "password": password}), headers)
        self.cookie = reply[1]["Set-Cookie"].split(";")[0] if reply[0] == 200 else self.cookie
        return reply


class Plain:
    """A box whose host answers nothing of its own but to those messages that are given: the model on a socket, for one client."""

    def __init__(self, own=None, modules=()):
        self.own = own or {}
        self.listener = socket.create_server(("127.0.0.1", 0))
        self.port = self.listener.getsockname()[1]
        self.box = Box()
        for place in modules:
            self.box.fill(place)
        self.box.open(0, 2)
        self.thread = threading.Thread(target=self.serve, daemon=True)
        self.thread.start()

    def serve(self):
        connection = self.listener.accept()[0]
        with connection:
            piece = connection.recv(65536)
            while piece:
                _, taken, _, reply = self.box.bytes_(0, 4096, piece)
                connection.sendall(self.own.get(piece[:taken], reply))
                piece = piece[taken:] or connection.recv(65536)

    def close(self):
        self.thread.join(PATIENCE)
        self.listener.close()


def answers(state):
    return state["answers"]


def deck(state):
    """The second deck as it is shown: each relay, and whether it is closed."""
    return {relay["relay"]: relay["closed"] for relay in state["deck"]}


def shown_open(*relays, closed=()):
    """A deck with these relays, of which some are closed."""
    return {k: k in closed for k in relays}


def listed(*relays):
    """What the box answers to EnumerateDevices, as far as relays go."""
    return b"\x1B\x01" + field(len(relays), 2) + b"".join(field(0x0100FF + 0x100 * k, 8) for k in relays)


def external(*states):
    """Type 2 with the states of so many relays."""
    return b"\x02\x00" + bytes([len(states), *states]) + field(7, 8)


def free_port():
    with socket.socket() as probe:
        probe.bind(("127.0.0.1", 0))
        return probe.getsockname()[1]


class Case(unittest.TestCase):
    def setUp(self):
        self.begun = time.monotonic()

    def tearDown(self):
        print(f"    {time.monotonic() - self.begun:5.1f} s  {self.id().split('.', 1)[1]}", flush=True)

    def test_shows_the_box(self):
        """Inputs, counts, relays, clock and alarms, as another client of the box sees them."""
        with tempfile.NamedTemporaryFile("w") as settings:
            settings.write("2 3 1 1 " * 8 + "1 " * 8)
            settings.flush()
            with Boxd("--settings", settings.name) as host, Panel(host.port) as panel, Client(host.port) as client:
                state = panel.wait_until(answers)
                self.assertEqual([i["count"] for i in state["inputs"]], [0] * 8)
                self.assertEqual(state["name"], "jr310 3.10.0001")
                for line in ("level 3 1", "level 3 0") * 4 + ("level 5 1",):
                    host.tell(line)
                client.send(frame(b"\x0A\x0A\x82\x82") + frame(b"\x07" + field(1763190000000, 8)))
                state = panel.wait_until(lambda s: s["inputs"][4]["usage_alarm"] and s["relays"][1]["usage_alarm"] and s["clock"] > 1.7e12)
                self.assertEqual([i["count"] for i in state["inputs"]], [0, 0, 4, 0, 1, 0, 0, 0])
                self.assertEqual([i["on"] for i in state["inputs"]], [False] * 4 + [True] + [False] * 3)
                self.assertEqual([r["closed"] for r in state["relays"]], [False, True] + [False] * 5 + [True])
                three, five = state["inputs"][2], state["inputs"][4]
                self.assertEqual((three["alarm"], three["count_alarm_1"], three["count_alarm_2"]), (False, True, True))
                self.assertEqual((five["alarm"], five["count_alarm_1"], five["count_alarm_2"]), (True, False, False))
                client.send(frame(b"\x0A\x05\x00\x03"))             # a count that is cleared comes without a Monitor message
                panel.wait_until(lambda s: s["inputs"][2]["count"] == 0)
                host.quit()

    def test_count_alarms(self):
        """M-101: the lamp's count alarms are the Monitor message's, on above the setpoint; the read block's, on from it, stand beside them.
        A count that is cleared puts both out, though the box sends no Monitor message for it by itself.
        """
        with tempfile.NamedTemporaryFile("w") as settings:
            settings.write("2 3 0 0 " * 8 + "0 " * 8)
            settings.flush()
            with Boxd("--settings", settings.name) as host, Panel(host.port) as panel, Client(host.port) as client:
                panel.wait_until(answers)

                def shows(count, lamp, reached):
                    self.assertEqual(panel.press(1, False)[0], 200)      # looks at the box at once
                    three = panel.state()["inputs"][2]
                    self.assertEqual((three["count"], three["count_alarm_1"], three["count_alarm_2"], three["reached_1"], three["reached_2"]),
                                     (count, *lamp, *reached))

                for count, lamp, reached in ((1, (False, False), (False, False)), (2, (False, False), (True, False)),
                                             (3, (True, False), (True, True)), (4, (True, True), (True, True))):
                    host.tell("level 3 1")
                    host.wait_for(f"input 3 is on: {count} counted")
                    host.tell("level 3 0")
                    shows(count, lamp, reached)
                client.send(frame(b"\x0A\x05\x00\x03"))
                client.clock()      # answered behind the command; a Monitor message may be an earlier one
                shows(0, (False, False), (False, False))
                host.quit()

    def test_buttons(self):
        """A button switches its relay, and says so when the box shows it; a second press of the same changes nothing."""
        with Boxd() as host, Panel(host.port) as panel, Client(host.port) as client:
            panel.wait_until(answers)
            for relay, closed in ((1, True), (8, True), (8, True), (1, False)):
                self.assertEqual(panel.press(relay, closed)[0], 200)
                self.assertEqual(client.ask(MONITOR, 1)[0], 1)
                self.assertEqual(panel.state()["relays"][relay - 1]["closed"], closed)
            self.assertEqual(host.count("relay 8 is closed now"), 1)
            self.assertEqual(host.count("relay 1 is open now"), 1)
            localhost = f"localhost:{panel.port}"
            self.assertEqual(panel.press(2, True, Host=localhost, Origin="http://" + localhost)[0], 200)
            for body in ("", "{}", "[]", "7", '{"relay":0,"closed":true}', '{"relay":17,"closed":true}', '{"relay":"1","closed":true}',
                         '{"relay":true,"closed":true}', '{"relay":1,"closed":1}', "\xff"):
                status = panel.ask("POST", "/relay", body.encode("latin-1"), Origin=f"http://127.0.0.1:{panel.port}",
                                   Content_Type="application/json")[0]
                self.assertEqual(status, 400, body)
            host.quit()

    def test_pulses(self):
        """A pulse button pulses its relay for so long, and says whether the pulse has begun or waits; how many stand is shown."""
        with Boxd() as host, Panel(host.port) as panel, Client(host.port) as client:
            self.assertEqual(panel.wait_until(answers)["standing"], 0)
            self.assertEqual(panel.pulse(3, 1500)[::2], (200, "The pulse of relay 3, 1500 ms, has begun.\n"))
            state = panel.state()
            self.assertEqual((state["standing"], [r["closed"] for r in state["relays"]]), (1, [False, False, True] + [False] * 5))
            self.assertEqual(panel.pulse(5, 20)[::2], (200, "The pulse of relay 5, 20 ms, waits behind 1 other.\n"))
            self.assertEqual(panel.pulse(5, 30)[::2], (200, "The pulse of relay 5, 30 ms, waits behind 2 others.\n"))
            self.assertEqual(panel.state()["standing"], 3)
            state = panel.wait_until(lambda s: s["standing"] == 0 and not s["relays"][2]["closed"])
            self.assertEqual([r["closed"] for r in state["relays"]], [False] * 8)
            self.assertEqual([self.usage(client, k) for k in (3, 5)], [1500, 50])
            host.wait_for("the pulse of relay 5, 30 ms, has ended; relay 5 is open now")
            host.quit()

    def usage(self, client, k):
        return number(client.ask(frame(b"\x15\x00\x01" + field(RELAY_IDS[k - 1], 8)), 22)[14:22])

    def test_full_queue(self):
        """Where 31 stand, the panel says that the box takes no more.  The longest pulse is taken."""
        with Boxd() as host, Panel(host.port) as panel, Client(host.port) as client:
            panel.wait_until(answers)
            self.assertEqual(panel.pulse(6, 4294967295)[0], 200)
            client.send(pulse(1, 5) * 29)
            client.clock()
            self.assertEqual(panel.pulse(2, 5)[::2], (200, "The pulse of relay 2, 5 ms, waits behind 30 others.\n"))
            for _ in range(2):
                status, _, said = panel.pulse(7, 5)
                self.assertEqual(status, 409)
                self.assertIn("31 pulses stand in the queue: the box takes no more", said)
            self.assertEqual(panel.state()["standing"], 31)
            host.wait_for(refused(QUEUE_FULL) + ": 31 pulses stand in the queue")
            host.quit()
        self.assertEqual(host.count(refused(QUEUE_FULL)), 2)
        self.assertEqual(host.count("relay 7"), 0)

    def test_clearing(self):
        """A count is cleared that was confirmed; where the input has another by then, nothing is cleared, and the other is told."""
        with Boxd() as host, Panel(host.port) as panel:
            panel.wait_until(answers)
            for line in ("level 3 1", "level 3 0") * 4 + ("level 5 1",):
                host.tell(line)
            host.wait_for("input 5 is on")
            for confirmed in (3, 5, 0, 4294967295):
                status, _, said = panel.clear(3, confirmed)
                self.assertEqual((status, json.loads(said)), (409, {"said": f"Input 3 has 4 counted now, not {confirmed}. Nothing was cleared.", "count": 4}))
            self.assertEqual(panel.state()["inputs"][2]["count"], 4)
            self.assertEqual(panel.clear(3, 4)[::2], (200, "Input 3 is cleared. It had 4 counted.\n"))
            self.assertEqual([i["count"] for i in panel.state()["inputs"]], [0, 0, 0, 0, 1, 0, 0, 0])
            for body in ("", "{}", "[]", "7", '{"input":3}', '{"count":0}', '{"input":0,"count":0}', '{"input":9,"count":0}', '{"input":"3","count":0}',
                         '{"input":true,"count":0}', '{"input":3,"count":-1}', '{"input":3,"count":4294967296}', '{"input":3,"count":false}', "\xff"):
                self.assertEqual(panel.post("/clear", body.encode("latin-1"), {})[0], 400, body)
            host.process.kill()
            panel.wait_until(lambda s: not s["answers"])
            status, _, said = panel.clear(5, 1)
            self.assertEqual(status, 502)
            self.assertIn("did not show the count of input 5 cleared", said)

    def test_fish_between_question_and_clearing(self):
        """What rose after the panel's last look is cleared with the count; the input is read directly before the command, so it is told."""
        block = b"\x00\x00" + field(2, 4) + bytes(11)
        read_three = frame(b"\x15\x00\x01" + field(INPUT_IDS[2], 8))
        plain = Plain({read_three: frame(b"\x16\x00\x01" + field(INPUT_IDS[2], 8) + field(len(block), 2) + block)})
        with Panel(plain.port) as panel:
            panel.wait_until(answers)
            self.assertEqual(panel.clear(3, 0)[::2], (200, "Input 3 is cleared. It had 2 counted, 2 more than was confirmed.\n"))
        plain.close()

    def test_clock(self):
        """The box's clock is set to that of the panel's machine, where the panel itself is an administrator there."""
        with Boxd() as host, Panel(host.port) as panel, Client(host.port) as client:
            panel.wait_until(answers)
            before = time.time() * 1000
            self.assertEqual(panel.set_clock()[::2], (200, "The clock of the box is set.\n"))
            self.assertTrue(before - 1 <= client.clock() <= time.time() * 1000 + 1000)
            host.process.kill()
            panel.wait_until(lambda s: not s["answers"])
            self.assertEqual(panel.set_clock()[0], 502)
        box = panel_box.Box(("nowhere", 0))
        box.seen["clock"] = int(time.time() * 1000)
        for answered, done in ((None, False), (panel_box.Told(), True)):        # a clock that is near already says nothing
            with unittest.mock.patch.object(box, "ask", return_value=answered):
                self.assertEqual(box.set_clock(), done)

    def test_clock_of_a_user(self):
        """A panel that is no administrator at the box does not even ask.  A connection that is lost is made again, with its login."""
        with tempfile.TemporaryDirectory() as folder:
            users = self.users(folder)
            with Boxd("--users", users) as host, Panel(host.port, "--user", "anna", secret="salmon") as panel:
                self.assertEqual(panel.wait_until(answers)["rank"], 1)
                status, _, said = panel.set_clock()
                self.assertEqual(status, 403)
                self.assertIn("anna has rank 1. Start the panel with --user of an administrator.", said)
                host.quit()
                with Boxd("--users", users, port=host.port) as again:
                    again.wait_for("anna logged in, user")
                    panel.wait_until(answers)
                    again.quit()
            self.assertEqual(host.count("type 7|set the clock"), 0)

    def users(self, folder):
        """A file with anna, a user, and olav, an administrator."""
        path = os.path.join(folder, "users")
        with open(path, "w", encoding="ascii") as file:
            file.write(adduser.line("anna", 1, b"salmon", 1000) + "\n" + adduser.line("olav", 2, b"cod", 1000) + "\n")
        return path

    def test_pulses_that_are_none(self):
        """A duration or a relay that the box would not take is not even sent."""
        with Boxd() as host, Panel(host.port) as panel:
            panel.wait_until(answers)
            for body in ("", "{}", "[]", '{"relay":1}', '{"ms":5}', '{"relay":1,"ms":0}', '{"relay":1,"ms":-1}', '{"relay":1,"ms":4294967296}',
                         '{"relay":1,"ms":1.5}', '{"relay":1,"ms":"5"}', '{"relay":1,"ms":true}', '{"relay":1,"ms":null}', '{"relay":0,"ms":5}',
                         '{"relay":17,"ms":5}', '{"relay":true,"ms":5}', "\xff"):
                self.assertEqual(panel.post("/pulse", body.encode("latin-1"), {})[0], 400, body)
            self.assertEqual(panel.post("/pulses", '{"relay":1,"ms":5}', {})[0], 404)
            self.assertEqual(panel.pulse(8, 1)[0], 200)
            host.quit()
        self.assertEqual(host.count("asked for a pulse"), 1)
        self.assertEqual(host.count("sent a message of type 10"), 0)

    def module(self, host, panel, line):
        """A module is plugged in or pulled, and the panel looks at the box at once; the deck that it shows."""
        before = len(host.lines)
        host.tell(line)
        host.wait_for("place [12] is (filled|empty):", before)
        self.assertEqual(panel.press(1, False)[0], 200)
        return deck(panel.state())

    def test_second_deck(self):
        """M-102: the second deck is shown as far as its modules are there, with the states that its relays have, whoever switched them."""
        with Boxd() as host, Panel(host.port) as panel, Client(host.port) as client:
            self.assertEqual(panel.wait_until(answers)["deck"], [])
            host.tell("filled 2")
            host.wait_for("place 2 is filled")
            client.send(command(1, 15))
            panel.wait_until(lambda s: deck(s) == shown_open(13, 14, 15, 16, closed=(15,)))         # by itself
            self.assertEqual(panel.press(13, True)[::2], (200, "Done.\n"))
            self.assertEqual(panel.press(15, False)[0], 200)
            self.assertEqual(deck(panel.state()), shown_open(13, 14, 15, 16, closed=(13,)))
            self.assertEqual(self.module(host, panel, "filled 1"), shown_open(*range(9, 17), closed=(13,)))
            self.assertEqual(panel.press(9, True)[0], 200)
            self.assertEqual(panel.pulse(16, 60000)[::2], (200, "The pulse of relay 16, 60000 ms, has begun.\n"))
            self.assertEqual(deck(panel.state()), shown_open(*range(9, 17), closed=(9, 13, 16)))
            self.assertEqual(self.module(host, panel, "emptied 2"), shown_open(9, 10, 11, 12, closed=(9,)))
            state = panel.state()
            self.assertEqual((state["standing"], [r["closed"] for r in state["relays"]]), (1, [False] * 8))
            host.tell("emptied 1")
            panel.wait_until(lambda s: s["deck"] == [])                                             # by itself
            self.assertEqual(self.module(host, panel, "filled 1"), shown_open(9, 10, 11, 12))
            host.quit()
        for said in ("relay 13 is closed now", "relay 15 is open now", "relay 9 is closed now", "asked for a pulse of relay 16, 60000 ms: it has begun"):
            self.assertEqual(host.count(said), 1, said)
        self.assertEqual(host.count(refused(r"\d+")), 0)

    def test_absent_relays(self):
        """M-102: a relay whose module is not there is not even asked for; where the module goes just then, the box refuses it, and the panel says so."""
        with Boxd() as host, Panel(host.port) as panel:
            panel.wait_until(answers)
            self.assertEqual(self.module(host, panel, "filled 1"), shown_open(9, 10, 11, 12))
            count = host.count("commanded")
            for relay, place in ((13, 2), (16, 2)):
                for status, _, said in (panel.press(relay, True), panel.pulse(relay, 5)):
                    self.assertEqual((status, said), (409, f"Relay {relay} is not there: no module stands at place {place}. Plug one in first.\n"))
            self.assertEqual((host.count("commanded"), host.count("type 10")), (count, 0))
            for press in (lambda: panel.press(9, True), lambda: panel.pulse(9, 5)):
                before = len(host.lines)
                host.tell("emptied 1")
                host.wait_for("place 1 is empty", before)
                self.assertEqual(press()[::2], (409, "Relay 9 is not there: no module stands at place 1. Plug one in first.\n"))
                self.assertEqual(self.module(host, panel, "filled 1"), shown_open(9, 10, 11, 12))
            host.quit()
        self.assertEqual(host.count("asked for a pulse"), 0)

    def test_other_deck_after_a_loss(self):
        """M-102: after the box was gone, the deck is that of the box as it is now."""
        with Boxd() as host, Panel(host.port) as panel:
            host.tell("filled 1")
            panel.wait_until(lambda s: deck(s) == shown_open(9, 10, 11, 12))
            host.process.kill()
            panel.wait_until(lambda s: not s["answers"])
            with Boxd(port=host.port) as again:
                again.tell("filled 2")
                panel.wait_until(lambda s: s["answers"] and deck(s) == shown_open(13, 14, 15, 16))
                again.quit()

    def test_deck_of_an_earlier_connection(self):
        """M-102: what was listed on one connection says nothing of the states that come on the next."""
        with socket.create_server(("127.0.0.1", 0)) as listener, Panel(listener.getsockname()[1]) as panel:
            with listener.accept()[0] as first:
                first.sendall(frame(listed(9, 10, 11, 12)) + frame(external(0, 0, 0, 0)))
                panel.wait_until(lambda s: deck(s) == shown_open(9, 10, 11, 12))
            with listener.accept()[0] as second:
                second.sendall(frame(external(1, 0, 0, 0)) + custom_answer(b"\x05"))
                self.assertEqual(deck(panel.wait_until(lambda s: s["standing"] == 5)), shown_open(9, 10, 11, 12))

    def test_deck_of_a_plain_box(self):
        """M-102: the same of a box whose host answers nothing of its own: both messages come in one piece, in answer to request 1."""
        for modules, relays in (((1,), range(9, 13)), ((2,), range(13, 17)), ((1, 2), range(9, 17))):
            plain = Plain(modules=modules)
            with self.subTest(modules), Panel(plain.port) as panel:
                panel.wait_until(lambda s: deck(s) == shown_open(*relays))
                self.assertEqual(panel.press(relays[-1], True)[0], 200)
                self.assertEqual(deck(panel.state()), shown_open(*relays, closed=(relays[-1],)))
            plain.close()

    def test_frames_behind_each_other(self):
        """M-102: two frames in one reply are two messages, wherever the network cuts them."""
        box = Box()
        box.fill(1)
        box.open(0, 2)
        reply = box.collect(0, 4096)[1]
        for cut in range(len(reply) + 1):
            stream = protocol.Stream()
            self.assertEqual([content[0] for content in stream.feed(reply[:cut]) + stream.feed(reply[cut:])], [1, 2])

    def test_what_tells_the_deck(self):
        """M-102: which relays are there the list of devices tells, their states type 2; where one of the two is missing, or they do not go together, the
        deck is not shown otherwise than before, and after a whole round without type 2 not at all.
        """
        clock = b"\x06" + field(9, 8)
        one, two = range(9, 13), range(13, 17)
        for contents, shown in (
                ([listed(*range(1, 9), *two), external(0, 1, 0, 0), clock], shown_open(*two, closed=(14,))),
                ([listed(*one), external(1, 0, 0, 255), clock], shown_open(*one, closed=(9,))),
                ([listed(*one, *two), external(0, 0, 0, 0, 0, 0, 0, 1), clock], shown_open(*one, *two, closed=(16,))),
                ([external(0, 1, 0, 0)], {}),                                                       # before any list
                ([listed(*one), external(*[0] * 8)], {}),                                           # one was pulled and told as both
                ([listed(*one)], {}),
                ([listed(*one), external(1, 0, 0, 0), listed(*one, *two)], shown_open(*one, closed=(9,))),
                ([listed(*one), external(1, 0, 0, 0), listed(*one, *two), external(*[1] * 4)], shown_open(*one, closed=(9,))),
                ([listed(*one, *two), external(*[1] * 8), listed(*two)], shown_open(*two, closed=two)),
                ([listed(*one), external(1, 0, 0, 0), listed(*two)], {}),
                ([listed(*one), external(1, 0, 0, 0), listed()], {}),
                ([listed(*one), external(1, 0, 0, 0), clock, listed(*one), clock], {}),             # request 1 was answered with type 1 alone
                ([listed(*one), external(1, 0, 0, 0), clock, listed(*one), external(0, 0, 0, 1), clock], shown_open(*one, closed=(12,))),
                ([listed(*one), external(1, 0, 0, 0), clock, external(0, 1, 0, 0)], shown_open(*one, closed=(10,)))):
            box = panel_box.Box(("nowhere", 0))
            for content in contents:
                box.take(content)
            self.assertEqual(deck(box.seen), shown, contents)
            self.assertEqual([box.closed(k) for k in (8, 9, 16)], [False, shown.get(9), shown.get(16)])

    def test_box_that_does_not_tell(self):
        """Where the box's host does not say how many stand, the panel shows none, and does not claim that a pulse was taken."""
        plain = Plain()
        with Panel(plain.port) as panel:
            state = panel.wait_until(answers)
            self.assertEqual((state["standing"], state["refused"]), (None, ""))
            status, _, said = panel.pulse(4, 60000)
            self.assertEqual(status, 502)
            self.assertIn("did not tell whether it took the pulse of relay 4", said)
            panel.wait_until(lambda s: s["relays"][3]["closed"])
            self.assertEqual(panel.press(1, True)[0], 200)
        plain.close()

    def test_last_refused(self):
        """M-105: the last message that the box refused, whoever sent it, stands on the panel in words; none after power-up."""
        with Boxd() as host, Panel(host.port) as panel:
            panel.wait_until(answers)
            with Client(host.port) as client:
                client.clock()
                self.assertEqual(panel.press(1, True)[0], 200)              # looks at the box at once
                self.assertEqual(panel.state()["refused"], "")
                for sent, words in (
                        (frame(b"\x0A\x03\x00"), "message of type 10, it ends too early at byte 3 (20)"),
                        (frame(b"\x05\x00\x00" + bytes(5)), "message of type 5, bytes are left over from byte 7 on (21)"),
                        (frame(b"\x15\x00\x02" + bytes(12)), "message of type 21, its list is cut at byte 15 (22)"),
                        (unchecked(bytes(1025)), "message, it is too long (6)"),
                        (b"\x01\x00\x01\x12\x34\x63", "message of type 99, its checksum differs (7)"),
                        (unchecked(b""), "empty message, this box does not offer it (8)"),
                        (frame(b"\xFF"), "message of type 255, this box does not offer it (8)"),
                        (frame(b"\x0A\x03\x00\x09"), "message of type 10, a number in it is out of range (11)"),
                        (pulse(1, 60000) * 32, "message of type 10, the queue of pulses is full (14)")):
                    client.send(sent + CLOCK)
                    client.next_of(6)
                    panel.press(1, True)
                    self.refused_is(panel, f"Last refused: connection 1, {words}, ")
            panel.wait_until(lambda s: re.search(r", [1-9]\d* (s|min) ago$", s["refused"]))
            host.process.kill()
            panel.wait_until(lambda s: not s["answers"])
            with Boxd(port=host.port) as again:
                panel.wait_until(lambda s: s["answers"] and s["refused"] == "")
                again.quit()

    def refused_is(self, panel, words):
        self.assertEqual(panel.wait_until(lambda s: s["refused"].startswith(words))["refused"].count(" ago"), 1)

    def test_refusals_of_a_rank(self):
        """What is refused before a login is shown too, to those who have logged in; the panel's own questions are none."""
        with tempfile.TemporaryDirectory() as folder:
            users = os.path.join(folder, "users")
            with open(users, "w", encoding="ascii") as file:
                file.write(adduser.line("anna", 1, b"salmon", 1000) + "\n")
            with Boxd("--users", users) as host, Panel(host.port, "--user", "anna", secret="salmon") as panel:
                self.assertEqual(panel.wait_until(answers)["refused"], "")
                with Client(host.port) as nobody:
                    nobody.send(frame(b"\x07"))
                    host.wait_for("connection 1 sent a message of type 7")
                panel.press(1, True)
                self.refused_is(panel, "Last refused: connection 1, message of type 7, its sender has too low a rank (9), ")
                host.quit()

    def test_words_of_refusals(self):
        """The host's answer in words: for every number that refuses a message, with every unit of time, the largest numbers, and a number that a
        later box may give.
        """
        def words(*numbers):
            return protocol.refusal_words(protocol.Fields(b"".join(field(x, size) for x, size in zip(numbers, (1, 1, 1, 1, 2, 4)))))

        of_messages = {answer for answer in BY_NAME.values() if answer >= TOO_LONG} - {ALREADY_OPEN, BAD_RANK}
        self.assertEqual(set(protocol.REFUSALS), of_messages)
        self.assertEqual(words(0, 0, 0, 0, 0, 0), "")
        for seconds, ago in ((0, "0 s"), (59, "59 s"), (60, "1 min"), (3599, "59 min"), (3600, "1 h"), (86399, "23 h"), (86400, "1 d"),
                             (4294967295, "49710 d")):
            self.assertEqual(words(2, 3, 255, 22, 1024, seconds),
                             f"Last refused: connection 3, message of type 255, its list is cut at byte 1024 (22), {ago} ago")
        self.assertEqual(words(2, 0, 10, 15, 0, 1),
                         "Last refused: connection 0, message of type 10, for a reason that this panel does not know (15), 1 s ago")

    def test_older_hosts(self):
        """A host that tells how many pulses stand, and not which message was refused, or answers that it cannot: the panel goes on without."""
        for more in ({}, {LAST_REFUSED: frame(b"\xFE\xFF\x00\x00")}, {LAST_REFUSED: custom_answer(b"\x02" * 9)}):
            plain = Plain({HOW_MANY: custom_answer(b"\x02"), **more})
            with self.subTest(more), Panel(plain.port) as panel:
                state = panel.wait_until(lambda s: s["answers"] and s["standing"] is not None)
                self.assertEqual((state["standing"], state["refused"]), (2, ""))
                self.assertEqual(panel.press(1, True)[0], 200)
                self.assertEqual(panel.pulse(2, 5)[::2], (200, "The pulse of relay 2, 5 ms, waits behind 2 others.\n"))
            plain.close()

    def test_other_sites_press_nothing(self):
        """A request under another name, or a command from another page, is refused."""
        with Boxd() as host, Panel(host.port) as panel:
            panel.wait_until(answers)
            own = f"127.0.0.1:{panel.port}"
            for headers in ({"Origin": "http://evil.example"}, {"Origin": None}, {"Origin": "null"}, {"Origin": "https://" + own},
                            {"Origin": f"http://127.0.0.1:{panel.port + 1}"}, {"Host": "evil.example"},
                            {"Host": f"evil.example:{panel.port}", "Origin": f"http://evil.example:{panel.port}"},
                            {"Content_Type": "text/plain"}, {"Content_Type": "application/x-www-form-urlencoded"}, {"Content_Type": None}):
                self.assertEqual(panel.press(4, True, **headers)[0], 403, headers)
                self.assertEqual(panel.pulse(4, 5, **headers)[0], 403, headers)
                self.assertEqual(panel.clear(4, 0, **headers)[0], 403, headers)
                self.assertEqual(panel.set_clock(**headers)[0], 403, headers)
            for path in ("/", "/state", "/events", "/day"):
                for name in ("evil.example", f"evil.example:{panel.port}", "127.0.0.1", f"127.0.0.2:{panel.port}", ""):
                    self.assertEqual(panel.ask("GET", path, Host=name)[0], 403, name)
            self.assertEqual(panel.press(4, True, Content_Length="100000")[0], 413)
            self.assertEqual(panel.ask("GET", "/../panel.py")[0], 404)
            self.assertFalse(host.find("relay 4|input 4"))
            self.assertLess(panel.state()["clock"], 1e9)
            host.quit()

    def test_page(self):
        """One page, with nothing from elsewhere; its events bring the state."""
        with Boxd() as host, Panel(host.port) as panel:
            status, headers, body = panel.ask("GET", "/")
            self.assertEqual(status, 200)
            self.assertNotIn("http:", body.replace("http://www.w3.org/2000/svg", ""))          # a name, which nothing is fetched by
            self.assertNotIn("https:", body)
            self.assertNotIn("src=", body)
            self.assertIn("default-src 'none'", headers["Content-Security-Policy"])
            self.assertEqual(headers["X-Frame-Options"], "DENY")
            connection = http.client.HTTPConnection("127.0.0.1", panel.port, timeout=PATIENCE)
            connection.request("GET", "/events")
            events = connection.getresponse()
            self.assertEqual(events.headers["Content-Type"], "text/event-stream")
            while not json.loads(self.event(events))["answers"]:
                pass
            host.tell("level 6 1")
            while not json.loads(self.event(events))["inputs"][5]["on"]:
                pass
            connection.close()
            host.quit()

    def event(self, events):
        data, blank = events.readline(), events.readline()
        self.assertEqual((data[:6], blank), (b"data: ", b"\n"))
        return data[6:]

    def test_box_gone_and_back(self):
        """When the box is gone the panel says so, since when and what to check; a button then fails; it finds the box again by itself."""
        with Boxd() as host, Panel(host.port) as panel:
            first = panel.wait_until(answers)
            host.process.kill()
            gone = panel.wait_until(lambda s: not s["answers"])
            self.assertGreaterEqual(gone["since"], first["at"])
            panel.wait_until(lambda s: "Check that the box runs" in s["check"])
            status, _, said = panel.press(1, True)
            self.assertEqual(status, 502)
            self.assertIn("The box did not close relay 1", said)
            status, _, said = panel.pulse(1, 5)
            self.assertEqual(status, 502)
            self.assertIn("did not tell whether it took the pulse of relay 1", said)
            with Boxd(port=host.port) as again:
                back = panel.wait_until(answers)
                self.assertGreaterEqual(back["since"], gone["since"])
                self.assertEqual(panel.press(1, True)[0], 200)
                again.quit()

    def test_fifth_connection(self):
        """When all four connections are in use, the panel says what the box told it."""
        with Boxd() as host:
            four = [Client(host.port) for _ in range(4)]
            for client in four:
                client.clock()
            with Panel(host.port) as panel:
                panel.wait_until(lambda s: "All four connections of this box are in use" in s["check"])
                four[0].finish()
                panel.wait_until(answers)
            for client in four[1:]:
                client.close()
            host.quit()

    def test_login(self):
        """With a users file the panel logs in; without a name or with a wrong password it says what is wrong."""
        with tempfile.TemporaryDirectory() as folder:
            users = os.path.join(folder, "users")
            with open(users, "w", encoding="ascii") as file:
                file.write(adduser.line("anna", 1, b"salmon", 1000) + "\n")
            with Boxd("--users", users) as host, Panel(host.port, "--user", "anna", secret="salmon") as panel, \
                    Panel(host.port) as nobody, Panel(host.port, "--user", "anna", secret="trout") as wrong:
                panel.wait_until(answers)
                self.assertEqual(panel.press(3, True)[0], 200)
                wrong.wait_until(lambda s: "It refused the login of anna, which is not tried again." in s["check"])
                wrong.wait_for("does not let the panel in. It refused the login of anna")
                nobody.wait_until(lambda s: "start the panel with --user NAME" in s["check"])       # seconds later: a second try would have been made
                self.assertTrue(panel.state()["answers"])
                self.assertEqual(wrong.press(3, False)[0], 502)
                host.quit()
            self.assertEqual(host.count("login of .* refused"), 1)

    def test_strict_box(self):
        """M-103: what the panel sends has its true checksum, its login too, so that a strict box refuses none of it."""
        with tempfile.TemporaryDirectory() as folder:
            users = os.path.join(folder, "users")
            with open(users, "w", encoding="ascii") as file:
                file.write(adduser.line("anna", 1, b"salmon", 1000, strict=True) + "\n")
            with Boxd("--strict", "--users", users) as host, Panel(host.port, "--user", "anna", secret="salmon") as panel:
                panel.wait_until(answers)
                self.assertEqual(panel.press(3, True)[0], 200)
                self.assertEqual(panel.pulse(5, 20)[::2], (200, "The pulse of relay 5, 20 ms, has begun.\n"))
                panel.wait_until(lambda s: s["standing"] == 0 and s["relays"][2]["closed"])
                host.quit()
            self.assertEqual(host.count("anna logged in, user, strict$"), 1)
            self.assertEqual(host.count(refused(BAD_CHECKSUM)), 0)

    def test_names(self):
        """Names of inputs from a file, in any UTF-8; what is wrong in it is told with its line, and then nothing starts."""
        with tempfile.TemporaryDirectory() as folder:
            path = os.path.join(folder, "names")

            def write(data):
                with open(path, "wb") as file:
                    file.write(data)

            write("\ufeff# The port side\n\n  input 3   Lift port aft \r\ninput 8 <b>緊急</b> & \u202e\n".encode() + b"input 1 " + b"x" * 40)
            self.assertEqual(names.read(path), ["x" * 40, "", "Lift port aft", "", "", "", "", "<b>緊急</b> & \u202e"])
            with Panel(free_port(), "--names", path) as panel:
                self.assertEqual(panel.state()["names"], names.read(path))
            write(b"input 3 one\ninput 3 two\ninput 0 a\ninput 9 a\nrelay 1 a\ninput 4\n# \xe6 \ninput 5 \xe6\ninput 6 " + b"x" * 41 +
                  b"\ninput 7 a\x1bb\ninput 99999999999 a\ninput x a\n")
            done = self.started("--names", path)
            self.assertEqual(re.findall(r"line (\d+)", done), ["2", "3", "4", "5", "6", "7", "8", "9", "10", "11", "12"])
            self.assertIn(f"panel: {path}, line 9: the name has 41 characters; 40 is the most\n", done)
            self.assertIn("cannot read the names in", self.started("--names", os.path.join(folder, "none")))

    def started(self, *words):
        """What a panel says that does not start."""
        done = subprocess.run([sys.executable, os.path.join(ROOT, "panel", "panel.py"), *words], stdout=subprocess.PIPE, stderr=subprocess.STDOUT,
                              stdin=subprocess.DEVNULL, text=True, timeout=PATIENCE)
        self.assertEqual(done.returncode, 1, done.stdout)
        return done.stdout

    def at(self, hour, minute, day=12):
        """A moment of a day in local time."""
        return time.mktime((2026, 3, day, hour, minute, 0, 0, 0, -1))

    def seen(self, day, now):
        """The quarters of the day that were seen, of inputs 1 and 2."""
        shown = json.loads(day.shown(now))
        return [{q: n for q, n in enumerate(row) if n is not None} for row in shown["quarters"][:2]]

    def test_day(self):
        """A rise counts to the quarter in which it was seen; a count that falls begins anew; quarters in which nothing was seen are gaps; a new day
        begins at midnight, local time.
        """
        day = panel_day.Day(now=self.at(6, 0))
        for hour, minute, counts in ((6, 1, (100, 7)), (6, 14, (103, 7)), (6, 15, (103, 8)), (6, 29, (104, 0)), (6, 29, (104, 2)), (7, 0, (110, 2)),
                                     (7, 1, (5, 3)), (7, 2, (6, 3)), (23, 59, (6, 4))):
            day.see([*counts] + [0] * 6, self.at(hour, minute))
        self.assertEqual(self.seen(day, self.at(23, 59)), [{24: 3, 25: 1, 28: 7, 95: 0}, {24: 0, 25: 3, 28: 1, 95: 1}])
        self.assertEqual(self.seen(day, self.at(0, 0, 13)), [{}, {}])
        day.see([8, 4] + [0] * 6, self.at(0, 16, 13))
        self.assertEqual(self.seen(day, self.at(0, 16, 13)), [{1: 2}, {1: 0}])
        shown = json.loads(day.shown(self.at(0, 16, 13)))
        self.assertEqual((shown["date"], shown["quarter"], len(shown["quarters"]), len(shown["quarters"][7])), ("2026-03-13", 1, 8, 96))

    def test_day_over_a_restart(self):
        """The day is taken up from its file, with what rose meanwhile; an older one is not; what is no day is named, and never written over."""
        with tempfile.TemporaryDirectory() as folder:
            path = os.path.join(folder, "day")
            with unittest.mock.patch("day.BETWEEN_WRITES", 1e9):
                day = panel_day.Day(path, self.at(6, 0))
                day.see([1] * 8, self.at(6, 0))
                day.see([3] * 8, self.at(6, 1))                             # too soon behind the first to be written by itself
            self.assertEqual(self.seen(panel_day.Day(path, self.at(6, 2)), self.at(6, 2))[0], {24: 0})
            day.keep(at_once=True)
            again = panel_day.Day(path, self.at(7, 0))
            again.see([8] * 8, self.at(7, 0))
            self.assertEqual(self.seen(again, self.at(7, 0))[0], {24: 2, 28: 5})
            later = panel_day.Day(path, self.at(7, 0, 13))
            later.see([9] * 8, self.at(7, 0, 13))
            self.assertEqual(self.seen(later, self.at(7, 0, 13))[0], {28: 0})
            self.assertEqual(os.listdir(folder), ["day"])
            with open(path, encoding="ascii") as file:
                good = file.read()
            for garbled in ("", "[]", "{}", good[:-3], good.replace('"last"', '"lost"'), good.replace("9", "-9", 1), good.replace("null", '""', 1),
                            good.replace("null, ", "", 1), good.replace('"day"', '"night"')):
                self.leaves(path, garbled)

    def leaves(self, path, garbled):
        with open(path, "w", encoding="ascii") as file:
            file.write(garbled)
        with unittest.mock.patch("builtins.print") as said:
            day = panel_day.Day(path, self.at(7, 0, 13))
            day.see([9] * 8, self.at(7, 0, 13))
            day.see([10] * 8, self.at(7, 0, 13))
            day.keep(at_once=True)
        self.assertIn(f"The day cannot be read from {path}", said.call_args[0][0])
        self.assertIn(f"The day cannot be read from {path}", json.loads(day.shown(0))["said"])
        self.assertEqual(self.seen(day, self.at(7, 0, 13))[0], {28: 1})
        with open(path, encoding="ascii") as file:
            self.assertEqual(file.read(), garbled)

    def test_day_that_cannot_be_written(self):
        """It is said once, and the day goes on; and once when it can be written again."""
        with tempfile.TemporaryDirectory() as folder, unittest.mock.patch("builtins.print") as said:
            path = os.path.join(folder, "missing", "day")
            day = panel_day.Day(path, self.at(6, 0))
            for count in (1, 2, 3):
                day.see([count] * 8, self.at(6, 0))
                day.keep(at_once=True)
            self.assertEqual(said.call_count, 1)
            self.assertIn(f"The day cannot be written to {path}", json.loads(day.shown(0))["said"])
            os.mkdir(os.path.dirname(path))
            day.keep(at_once=True)
            self.assertEqual((said.call_count, json.loads(day.shown(0))["said"]), (2, ""))
            self.assertEqual(self.seen(panel_day.Day(path, self.at(6, 1)), self.at(6, 0))[0], {24: 2})

    def test_day_of_a_panel(self):
        """What the box counts is on the page's plot, and after a restart of the panel still."""
        def counted(panel):
            return [sum(n or 0 for n in row) for row in json.loads(panel.ask("GET", "/day")[2])["quarters"]]

        with tempfile.TemporaryDirectory() as folder, Boxd() as host:
            words = ("--day", os.path.join(folder, "day"))
            with Panel(host.port, *words) as panel:
                panel.wait_until(answers)
                for line in ("level 3 1", "level 3 0") * 4 + ("level 5 1",):
                    host.tell(line)
                panel.wait_until(lambda _: counted(panel) == [0, 0, 4, 0, 1, 0, 0, 0])
                panel.process.terminate()
                self.assertEqual(panel.ended(), 0)
            with open(words[1], encoding="ascii") as file:
                self.assertEqual(json.load(file)["last"], [0, 0, 4, 0, 1, 0, 0, 0])             # written at its end
            with Panel(host.port, *words) as panel:
                self.assertEqual(counted(panel), [0, 0, 4, 0, 1, 0, 0, 0])
                panel.wait_until(answers)
                self.assertEqual(counted(panel), [0, 0, 4, 0, 1, 0, 0, 0])
            host.quit()

    def test_beyond_this_machine(self):
        """On another address than loopback people log in with the box's users, --open or not.  Nothing is shown and nothing done without; a user does
        not set the clock.
        """
        with tempfile.TemporaryDirectory() as folder:
            with Boxd("--users", self.users(folder)) as host, \
                    Panel(host.port, "--open", "--user", "olav", "--host-name", "Barge.example", secret="cod",
                          listen=("--listen", "0.0.0.0:0")) as panel:
                self.shut_out(panel, None)
                self.shut_out(panel, f"wellacorn-{panel.port}=x")
                self.assertEqual(panel.log_in("anna", "salmon", Origin="http://evil.example")[0], 403)
                status, headers, said = panel.log_in("anna", "trout")
                self.assertEqual((status, said, headers["Set-Cookie"]), (403, "The box refused that name and password.\n", None))
                self.may_do(panel, "olav", "cod", 200)
                self.may_do(panel, "anna", "salmon", 403)
                name = f"barge.example:{panel.port}"
                self.assertEqual(panel.press(2, True, Host=name, Origin="http://" + name)[0], 200)
                self.assertEqual(panel.ask("GET", "/state", Host="evil.example")[0], 403)
                self.ends_with_log_out(panel)
                host.quit()
            self.assertEqual(host.count("relay 4"), 0)

    def shut_out(self, panel, cookie):
        """Without a session there is the login page, and nothing else."""
        panel.cookie = cookie
        status, headers, body = panel.ask("GET", "/")
        self.assertEqual((status, "Log in with a name" in body, "Relay" in body), (200, True, False))
        self.assertIn("default-src 'none'", headers["Content-Security-Policy"])
        for path in ("/state", "/events", "/day"):
            self.assertEqual(panel.ask("GET", path)[0], 401, path)
        for reply in (panel.press(4, True), panel.pulse(4, 5), panel.clear(4, 0), panel.set_clock(), panel.post("/logout", "{}", {})):
            self.assertEqual(reply[0], 401)

    def may_do(self, panel, name, password, clock):
        """Logs in, which may have to wait, and does what everybody may; `clock` is what becomes of setting the clock."""
        end = time.monotonic() + PATIENCE
        status, headers, said = panel.log_in(name, password)
        while status == 429 and time.monotonic() < end:
            time.sleep(0.05)
            status, headers, said = panel.log_in(name, password)
        self.assertEqual((status, said), (200, "Logged in.\n"))
        self.assertRegex(headers["Set-Cookie"], rf"^wellacorn-{panel.port}=[\w-]{{43}}; HttpOnly; SameSite=Strict; Path=/; Max-Age=43200$")
        state = panel.wait_until(answers)
        self.assertEqual((state["user"], state["user_rank"]), (name, 1 if clock == 403 else 2))
        self.assertIn("Relay", panel.ask("GET", "/")[2])
        self.assertEqual([reply[0] for reply in (panel.press(3, True), panel.pulse(3, 5), panel.clear(3, 0), panel.set_clock())], [200, 200, 200, clock])

    def ends_with_log_out(self, panel):
        """The events of a session end with it."""
        connection = http.client.HTTPConnection("127.0.0.1", panel.port, timeout=PATIENCE)
        connection.request("GET", "/events", headers={"Cookie": panel.cookie})
        events = connection.getresponse()
        self.event(events)
        self.assertEqual(panel.post("/logout", "{}", {})[0], 200)
        end = time.monotonic() + PATIENCE
        while events.readline():
            self.assertLess(time.monotonic(), end, "the events go on")
        connection.close()
        self.shut_out(panel, panel.cookie)

    def test_box_without_users_beyond_this_machine(self):
        """Where the box lets everybody in, the panel does not listen beyond this machine, unless it is told to with --open."""
        with Boxd() as host:
            box = ("--box", f"127.0.0.1:{host.port}", "--listen", "0.0.0.0:0")
            said = self.started(*box)
            self.assertIn("the box asks for no login", said)
            self.assertIn("--open", said)
            with Panel(host.port, "--open", listen=("--listen", "0.0.0.0:0")) as panel:
                self.assertTrue(panel.find("everybody who reaches this address may command the box"))
                panel.wait_until(answers)
                self.assertEqual(panel.press(1, True)[0], 200)
                self.assertEqual(panel.log_in("anna", "x")[0], 404)
                self.assertEqual(panel.ask("GET", "/state", Host="evil.example")[0], 403)
            host.quit()

    def test_box_that_is_not_there_at_the_start(self):
        """Where the box cannot be asked, a login is asked, --open or not; a box without users that comes up later lets nobody in."""
        port = free_port()
        with Panel(port, "--open", listen=("--listen", "0.0.0.0:0")) as panel:
            self.assertTrue(panel.find("Nobody is let in before it refuses a login"))
            status, _, said = panel.log_in("anna", "x")
            self.assertEqual(status, 502)
            self.assertIn("The box could not be asked", said)
            with Boxd(port=port) as host:
                status, _, said = panel.log_in("anna", "x")
                self.assertEqual(status, 403)
                self.assertIn("The box asks for no login now", said)
                self.shut_out(panel, None)
                host.quit()

    def test_sessions(self):
        """They end after twelve hours; there are 48 at most, and the oldest gives way; a login that is none does not even reach the box."""
        now = 1000.0
        with unittest.mock.patch("door.seconds", lambda: now), unittest.mock.patch("door.box_ranks", lambda *_: [0, 1]):
            keeper = door.Door(("nowhere", 0))
            cookies = []
            for i in range(49):
                now += 1
                cookies.append(keeper.log_in(f"user {i}", "", "here")[1])
            self.assertEqual([keeper.session(cookie) is not None for cookie in cookies], [False] + [True] * 48)
            last = keeper.session(cookies[-1])
            self.assertEqual((last.name, last.rank, keeper.lets(last)), ("user 48", 1, True))
            now += 12 * 3600 - 1
            self.assertEqual([cookies.index(cookie) for cookie in cookies if keeper.session(cookie)], [48])
            self.assertTrue(keeper.lets(last))
            now += 1
            self.assertFalse(keeper.lets(last))
            self.assertIsNone(keeper.session(cookies[-1]))

    def test_slowing_down(self):
        """Each wrong password doubles the wait of its address, to half a minute; a right one ends it; other addresses do not wait."""
        now, ranks = 1000.0, [0, 0]
        with unittest.mock.patch("door.seconds", lambda: now), unittest.mock.patch("door.box_ranks", lambda *_: ranks):
            keeper = door.Door(("nowhere", 0))
            for wait in (1, 2, 4, 8, 16, 30, 30):
                self.assertEqual(self.turned(keeper, "here"), 403)
                self.assertEqual(self.turned(keeper, "here"), 429)
                now += wait - 0.01
                self.assertEqual(self.turned(keeper, "here"), 429)
                now += 0.01
            ranks = [0, 2]
            self.assertEqual(keeper.log_in("olav", "", "there")[0].rank, 2)
            self.assertEqual(keeper.log_in("olav", "", "here")[0].rank, 2)
            ranks = [0, 0]
            self.assertEqual((self.turned(keeper, "here"), keeper.slow.wait("here")), (403, 1))
            for i in range(300):
                self.turned(keeper, str(i))
            self.assertEqual(len(keeper.slow.wrong), door.MOST_ADDRESSES)
            for ranks, status in (([2, 2], 403), ([1, 1], 403), ([0, 0], 403)):
                self.assertEqual(self.turned(keeper, "elsewhere"), status)

    def turned(self, keeper, client):
        with self.assertRaises(door.Turned) as turned:
            keeper.log_in("anna", "", client)
        return turned.exception.status

    def test_one_login_at_a_time(self):
        """While one is weighed, which the box may draw out, another is told to come back, and does not reach the box."""
        begun, go_on = threading.Event(), threading.Event()

        def box_ranks(*_):
            begun.set()
            return [0, 1] if go_on.wait(PATIENCE) else [0, 0]

        with unittest.mock.patch("door.box_ranks", box_ranks):
            keeper, let_in = door.Door(("nowhere", 0)), []
            thread = threading.Thread(target=lambda: let_in.append(keeper.log_in("anna", "", "here")))
            thread.start()
            self.assertTrue(begun.wait(PATIENCE))
            with unittest.mock.patch("door.box_ranks", lambda *_: [0, 2]):
                self.assertEqual(self.turned(keeper, "there"), 503)
            go_on.set()
            thread.join(PATIENCE)
            self.assertEqual(let_in[0][0].rank, 1)
            self.assertEqual(keeper.log_in("olav", "", "there")[0].rank, 1)

    def test_ranks_of_logins(self):
        """001: bit 7 is an administrator, bit 1 may control; who may neither is not let in."""
        self.assertEqual([protocol.rank_of(answer) for answer in (0xFF, 0x80, 0x82, 0xFE, 0x02, 0x03, 0x00, 0x01, 0x7D)], [0, 2, 2, 2, 1, 1, 0, 0, 0])

    def test_logins_that_are_none(self):
        with Panel(free_port(), listen=("--listen", "0.0.0.0:0")) as panel:
            for body in ("", "{}", "[]", '{"name":"anna"}', '{"name":"","password":""}', '{"name":"anna","password":7}', '{"name":7,"password":""}',
                         json.dumps({"name": "x" * 256, "password": ""}), json.dumps({"name": "\u00e6", "password": ""}), "[" * 900):
                self.assertEqual(panel.post("/login", body, {})[0], 400, body)

    def test_room(self):
        """Beyond 64 connections a browser is turned away at once; when others go, there is room again."""
        with Panel(free_port()) as panel:
            idle = [socket.create_connection(("127.0.0.1", panel.port), PATIENCE) for _ in range(64)]
            with socket.create_connection(("127.0.0.1", panel.port), PATIENCE) as one_more:
                self.assertEqual(one_more.recv(1), b"")
            for connection in idle:
                connection.close()
            end = time.monotonic() + PATIENCE
            while not self.has_room(panel) and time.monotonic() < end:
                time.sleep(0.02)
            self.assertTrue(self.has_room(panel))

    def has_room(self, panel):
        try:
            return panel.ask("GET", "/state")[0] == 200
        except (OSError, http.client.HTTPException):
            return False

    def test_wrong_arguments(self):
        """Each says what to write instead."""
        for words, said in ((("--box", "9200"), "Write for example --box 127.0.0.1:9200"),
                            (("--listen", "9280"), "Write for example --listen 192.168.1.20:9280"),
                            (("--listen", "barge.example:9280"), "and the name with --host-name barge.example"),
                            (("--listen", "127.0.0.1:65536"), "--listen needs ADDRESS:PORT"),
                            (("--listen", "127.0.0.1:0", "--port", "9280"), "leave --port out"),
                            (("--host-name", "barge.example:9280"), "Write for example --host-name barge-7.lan"),
                            (("--host-name", ""), "Write for example --host-name barge-7.lan")):
            self.assertIn(said, self.started(*words))

    def test_start_and_end(self):
        """SIGTERM ends it cleanly; a port in use says which option chooses another; it starts through a link, from anywhere."""
        with Boxd() as host, Panel(host.port) as panel, tempfile.TemporaryDirectory() as folder:
            busy = str(panel.port)
            for more, said in ((("--port", busy), "choose another port with --port PORT"),
                               (("--port", busy, "--advice=--panel-port PORT"), "choose another port with --panel-port PORT"),
                               (("--listen", f"127.0.0.1:{busy}"), "choose another port with --listen ADDRESS:PORT")):
                self.assertIn(said, self.started(*more))
            link = os.path.join(folder, "wellacorn-panel")
            os.symlink(os.path.join(ROOT, "panel", "panel.py"), link)
            done = subprocess.run([sys.executable, link, "--help"], cwd="/", env=dict(os.environ, PYTHONSAFEPATH="1"), stdout=subprocess.PIPE, text=True,
                                  timeout=PATIENCE)
            self.assertEqual((done.returncode, "--listen" in done.stdout, "--advice" in done.stdout), (0, True, False))
            panel.process.terminate()
            self.assertEqual(panel.ended(), 0)
            self.assertTrue(panel.find("panel: ended"))
            host.quit()

    def test_run(self):
        """`./run --panel` starts both; Ctrl-C ends both, and so does `quit`, and even a kill of the box."""
        for end in ("Ctrl-C", "quit", "a kill"):
            words = [os.path.join(ROOT, "run"), "--quiet", "--panel", "--panel-port", "0", "--listen", f"127.0.0.1:{free_port()}"]
            with self.subTest(end), Program(words, start_new_session=True) as both:
                both.port = int(both.wait_for(r"open http://127\.0\.0\.1:(\d+)/").group(1))
                both.wait_for(r"127\.0\.0\.1:\d+ connected, administrator")
                if end == "Ctrl-C":
                    os.killpg(both.process.pid, signal.SIGINT)
                elif end == "a kill":
                    both.process.kill()
                else:
                    both.tell("quit")
                status = both.ended()                       # what it printed is read to its end: the panel has ended too
                self.assertEqual(status, -signal.SIGKILL if end == "a kill" else 0)
                self.assertEqual(both.count("the box has ended"), 0 if end == "a kill" else 1)
                self.assertTrue(both.over)

    def test_run_with_a_busy_port(self):
        """Started by ./run, the panel names the option of ./run; the box runs without it."""
        with socket.create_server(("127.0.0.1", 0)) as busy:
            port = str(busy.getsockname()[1])
            with Program([os.path.join(ROOT, "run"), "--quiet", "--panel", "--panel-port", port, "--listen", f"127.0.0.1:{free_port()}"]) as both:
                both.wait_for(f"cannot listen on 127.0.0.1:{port}: .*choose another port with --panel-port PORT")
                both.wait_for("listens on")
                both.tell("quit")
                self.assertEqual(both.ended(), 0)


if __name__ == "__main__":
    subprocess.run([os.path.join(ROOT, "host", "build"), PROGRAM], check=True)
    unittest.main()
