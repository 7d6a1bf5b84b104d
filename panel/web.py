"""The page over HTTP: the page, its events, the day, the buttons, and the login where one is asked."""

import base64
import hashlib
import http.cookies
import http.server
import ipaddress
import json
import os
import socket
import socketserver
import sys
import threading
import time

from door import SESSION_SECONDS, Session, Turned
from protocol import CHANNELS, LONGEST_PULSE, LONGEST_STRING, Lost, QUEUE, RELAYS

HERE = os.path.dirname(os.path.realpath(__file__))
LONGEST_BODY = 1000         # bytes of a request to the panel
MOST_CONNECTIONS = 64       # of browsers at a time
LARGEST_COUNT = 4294967295


class Bad(Exception):
    """A command that is none.  Its text says what one has."""


def number(value, allowed):
    """Whether it is a whole number among those allowed; true and false are none."""
    return type(value) is int and value in allowed


def read_fields(body, *names):
    """The fields of a command."""
    asked = json.loads(body)
    if not isinstance(asked, dict):
        raise ValueError
    return [asked[name] for name in names]


class Handler(http.server.BaseHTTPRequestHandler):
    """One page, its events, and the buttons.

    A page of another site must not press the buttons: a request counts only under the panel's own names (Host), and a command only
    from the panel's own page (Origin), as JSON, which no form of another site can send.
    """

    protocol_version = "HTTP/1.1"
    timeout = 60

    # -- answers -----------------------------------------------------------------------------------

    def answer(self, status, body, kind="text/plain; charset=utf-8", policy="default-src 'none'; frame-ancestors 'none'", cookie=None):
        data = body.encode("utf-8")
        self.send_response(status)
        self.send_header("Content-Type", kind)
        self.send_header("Content-Length", str(len(data)))
        self.send_header("Cache-Control", "no-store")
        self.send_header("X-Content-Type-Options", "nosniff")
        self.send_header("X-Frame-Options", "DENY")
        self.send_header("Referrer-Policy", "no-referrer")
        self.send_header("Content-Security-Policy", policy)
        if cookie is not None:
            self.send_header("Set-Cookie", cookie)
        self.end_headers()
        self.wfile.write(data)

    def page(self, page):
        self.answer(200, page.text, "text/html; charset=utf-8", page.policy)

    def log_message(self, *words):
        """The panel prints nothing for each request."""

    # -- who asks ----------------------------------------------------------------------------------

    def hosts(self):
        """The names under which a request counts: the address to which it came, and those that were given."""
        address, port = self.connection.getsockname()[:2]
        address = ipaddress.ip_address(address.split("%")[0])
        address = getattr(address, "ipv4_mapped", None) or address
        names = [f"[{address}]" if address.version == 6 else str(address), *self.server.names]
        names += ["localhost"] if address.is_loopback else []
        return [f"{name}:{port}" for name in names] + (names if port == 80 else [])

    def known_host(self):
        if self.headers.get("Host", "").lower() in self.hosts():
            return True
        self.close_connection = True
        self.answer(403, f"Open http://{self.hosts()[0]}/, or give the panel the other name with --host-name.\n")
        return False

    def cookie_name(self):
        """With the port in it: a browser gives one host's cookies to all of its ports."""
        return f"wellacorn-{self.server.server_address[1]}"

    def session(self):
        """Who asks; None if nobody who has logged in, where that is needed."""
        if self.server.door is None:
            return self.server.everybody
        try:
            morsel = http.cookies.SimpleCookie(self.headers.get("Cookie", "")).get(self.cookie_name())
        except http.cookies.CookieError:
            return None
        return None if morsel is None else self.server.door.session(morsel.value)

    def lets(self, session):
        return self.server.door is None or self.server.door.lets(session)

    # -- what is looked at -------------------------------------------------------------------------

    def do_GET(self):
        if not self.known_host():
            return
        session = self.session()
        if self.path == "/":
            self.page(self.server.login_page if session is None else self.server.panel_page)
        elif self.path not in ("/state", "/events", "/day"):
            self.answer(404, "There is one page here: /\n")
        elif session is None:
            self.answer(401, "Log in first.\n")
        elif self.path == "/state":
            self.answer(200, self.state(session), "application/json")
        elif self.path == "/day":
            self.answer(200, self.server.box.day.shown(time.time()), "application/json")
        else:
            self.events(session)

    def state(self, session):
        return self.server.box.shown(user=session.name, user_rank=session.rank)

    def events(self, session):
        """Server-sent events: the state, each time that it changes, as long as the session stands."""
        self.close_connection = True
        self.send_response(200)
        self.send_header("Content-Type", "text/event-stream")
        self.send_header("Cache-Control", "no-store")
        self.end_headers()
        box, last = self.server.box, -1
        while self.lets(session):
            with box.changed:
                box.changed.wait_for(lambda: box.version != last, 1.0)
                last, data = box.version, self.state(session)
            try:
                self.wfile.write(b"data: " + data.encode("ascii") + b"\n\n")
                self.wfile.flush()
            except OSError:
                return

    # -- what is commanded -------------------------------------------------------------------------

    def do_POST(self):
        if not self.known_host():
            return
        size = self.headers.get("Content-Length", "")
        body = self.rfile.read(int(size)) if size.isdecimal() and int(size) <= LONGEST_BODY else None
        if body is None:
            self.close_connection = True
            self.answer(413, "That is no command of the page.\n")
        elif self.headers.get("Origin") != "http://" + self.headers.get("Host").lower() or \
                self.headers.get("Content-Type", "").split(";")[0] != "application/json":
            self.answer(403, "A command counts from the panel's own page alone.\n")
        else:
            self.dispatch(body)

    def dispatch(self, body):
        commands = {"/relay": self.relay, "/pulse": self.pulse, "/clear": self.clear, "/clock": self.clock, "/logout": self.log_out}
        if self.path == "/login" and self.server.door is not None:
            self.log_in(body)
            return
        session = self.session()
        if session is None:
            self.answer(401, "Log in first.\n")
        elif self.path not in commands:
            self.answer(404, "There is no such command.\n")
        else:
            self.obey(commands[self.path], body, session)

    def obey(self, command, body, session):
        try:
            command(body, session)
        except Bad as bad:
            self.answer(400, f"{bad}\n")

    def misses(self, channel):
        """Whether the relay is not there, as last seen; it is answered then."""
        if self.server.box.closed(channel) is not None:
            return False
        self.answer(409, f"Relay {channel} is not there: no module stands at place {1 if channel <= 12 else 2}. Plug one in first.\n")
        return True

    def relay(self, body, _):
        try:
            channel, closed = read_fields(body, "relay", "closed")
            if not number(channel, RELAYS) or type(closed) is not bool:
                raise ValueError
        except (ValueError, KeyError, RecursionError) as fault:
            raise Bad("A command has a relay from 1 to 16, and closed true or false.") from fault
        if self.misses(channel):
            return
        try:
            done = self.server.box.switch(channel, closed)
        except (Lost, OSError):
            done = False
        if done:
            self.answer(200, "Done.\n")
        elif not self.misses(channel):          # its module may have gone meanwhile
            self.answer(502, f"The box did not {'close' if closed else 'open'} relay {channel}. Look whether it answers, and try again.\n")

    def pulse(self, body, _):
        try:
            channel, ms = read_fields(body, "relay", "ms")
            if not number(channel, RELAYS) or not number(ms, range(1, LONGEST_PULSE + 1)):
                raise ValueError
        except (ValueError, KeyError, RecursionError) as fault:
            raise Bad(f"A pulse has a relay from 1 to 16, and ms from 1 to {LONGEST_PULSE}.") from fault
        if self.misses(channel):
            return
        try:
            before = self.server.box.pulse(channel, ms)
        except (Lost, OSError):
            before = None
        if not self.misses(channel):            # its module may have gone meanwhile, and the pulse was refused
            self.tell_pulse(channel, ms, before)

    def tell_pulse(self, channel, ms, before):
        if before is None:
            self.answer(502, f"The box did not tell whether it took the pulse of relay {channel}. Look whether it answers, and at the relay.\n")
        elif before < 0:
            self.answer(409, f"{QUEUE} pulses stand in the queue: the box takes no more. Try again when one has ended.\n")
        elif before == 0:
            self.answer(200, f"The pulse of relay {channel}, {ms} ms, has begun.\n")
        else:
            self.answer(200, f"The pulse of relay {channel}, {ms} ms, waits behind {before} other{'s' if before > 1 else ''}.\n")

    def clear(self, body, _):
        """Clears the count that was confirmed, and no other."""
        try:
            channel, confirmed = read_fields(body, "input", "count")
            if not number(channel, CHANNELS) or not number(confirmed, range(LARGEST_COUNT + 1)):
                raise ValueError
        except (ValueError, KeyError, RecursionError) as fault:
            raise Bad("Clearing has an input from 1 to 8, and the count that was confirmed.") from fault
        box = self.server.box
        try:
            other = box.other_count(channel, confirmed)
            had = box.clear(channel) if other is None else None
        except (Lost, OSError):
            other = had = None
        if other is not None:
            said = f"Input {channel} has {other} counted now, not {confirmed}. Nothing was cleared."
            self.answer(409, json.dumps({"said": said, "count": other}), "application/json")
        elif had is None:
            self.answer(502, f"The box did not show the count of input {channel} cleared. Look whether it answers, and at the count.\n")
        else:
            more = "" if had == confirmed else f", {had - confirmed} more than was confirmed" if had > confirmed else f", not {confirmed}"
            self.answer(200, f"Input {channel} is cleared. It had {had} counted{more}.\n")

    def clock(self, _, session):
        """001 and 01: the box takes its clock from an administrator alone, and so does the panel."""
        box = self.server.box
        if session.rank < 2:
            self.answer(403, "Setting the clock needs an administrator. Log in as one.\n")
            return
        if box.seen["rank"] < 2:
            self.answer(403, f"The panel itself is no administrator at the box: {box.user} has rank 1. Start the panel with --user of an administrator.\n")
            return
        try:
            done = box.set_clock()
        except (Lost, OSError):
            done = False
        if done:
            self.answer(200, "The clock of the box is set.\n")
        else:
            self.answer(502, "The box does not show the clock that was set. Look whether it answers, and at its clock.\n")

    # -- login -------------------------------------------------------------------------------------

    def log_in(self, body):
        try:
            name, password = read_fields(body, "name", "password")
            if not all(isinstance(word, str) and word.isascii() and len(word) <= LONGEST_STRING for word in (name, password)) or not name:
                raise ValueError
        except (ValueError, KeyError, RecursionError):
            self.answer(400, f"A name and a password have at most {LONGEST_STRING} characters of ASCII: the box has no others.\n")
            return
        try:
            _, cookie = self.server.door.log_in(name, password, self.client_address[0])
        except Turned as turned:
            self.answer(turned.status, f"{turned}\n")
            return
        self.answer(200, "Logged in.\n", cookie=self.cookie(cookie, SESSION_SECONDS))

    def cookie(self, value, age):
        return f"{self.cookie_name()}={value}; HttpOnly; SameSite=Strict; Path=/; Max-Age={age}"

    def log_out(self, _, session):
        if self.server.door is not None:
            self.server.door.log_out(session)
        self.answer(200, "Logged out.\n", cookie=self.cookie("", 0))


class Page:
    """A page, and the policy under which nothing but what stands in it may run or style it."""

    def __init__(self, name):
        with open(os.path.join(HERE, name), encoding="utf-8") as page:
            self.text = page.read()
        self.policy = (f"default-src 'none'; style-src {self.digest('style')}; script-src {self.digest('script')}; connect-src 'self'; "
                       "img-src data:; frame-ancestors 'none'; base-uri 'none'; form-action 'none'")

    def digest(self, tag):
        """What stands in that element of the page, as a policy names it."""
        inside = self.text.split(f"<{tag}>", 1)[1].split(f"</{tag}>", 1)[0]
        return "'sha256-" + base64.b64encode(hashlib.sha256(inside.encode("utf-8")).digest()).decode("ascii") + "'"


class Server(http.server.ThreadingHTTPServer):
    """`door` is None where no login is asked: everybody may do everything then."""

    daemon_threads = True
    request_queue_size = MOST_CONNECTIONS

    def __init__(self, address, box, door=None, names=()):
        self.address_family = socket.AF_INET6 if ":" in address[0] else socket.AF_INET
        self.room = threading.BoundedSemaphore(MOST_CONNECTIONS)
        super().__init__(address, Handler)
        self.box, self.door, self.names = box, door, [name.lower() for name in names]
        self.everybody = Session("", 2)
        self.panel_page, self.login_page = Page("page.html"), Page("login.html")

    def server_bind(self):
        """Without the name of the address, which HTTPServer would look up on the network."""
        socketserver.TCPServer.server_bind(self)

    def process_request(self, request, client_address):
        """A browser beyond those that there is room for is turned away at once."""
        if self.room.acquire(blocking=False):
            super().process_request(request, client_address)
        else:
            self.shutdown_request(request)

    def process_request_thread(self, request, client_address):
        try:
            super().process_request_thread(request, client_address)
        finally:
            self.room.release()

    def handle_error(self, request, client_address):
        """A browser that goes away in the middle is no fault."""
        if not isinstance(sys.exc_info()[1], OSError):
            super().handle_error(request, client_address)
