"""Who may use a panel that others than this machine can open: people log in with the box's own users.

The panel keeps no passwords.  It weighs a name and a password by a login of its own at the box, on a short connection beside its own one.
"""

import hashlib
import secrets
import socket
import threading
import time

from box import SILENCE, weigh
from protocol import Lost, Stream, rank_of

SESSION_SECONDS = 12 * 3600
MOST_SESSIONS = 48
MOST_ADDRESSES = 256        # addresses whose wrong passwords are remembered
SLOW_MOST = 30.0            # s


class Turned(Exception):
    """Nobody is let in; the status and the words of the answer."""

    def __init__(self, status, words):
        super().__init__(words)
        self.status = status


class Session:
    """Somebody who has logged in."""

    def __init__(self, name, rank, key=None):
        self.name, self.rank, self.key = name, rank, key
        self.until = seconds() + SESSION_SECONDS


def seconds():
    """Goes on while the machine sleeps."""
    return time.clock_gettime(time.CLOCK_BOOTTIME)


def box_ranks(address, *logins):
    """The ranks that the box gives to logins, tried one behind the other on one connection."""
    with socket.create_connection(address, SILENCE) as connection:
        stream = Stream()
        return [rank_of(weigh(connection, stream, name, password)) for name, password in logins]


def nobody():
    """A login that no user has."""
    return secrets.token_hex(8), secrets.token_hex(16)


def asks_for_login(address):
    """Whether the box refuses a login that no user has; None if it cannot be asked now."""
    try:
        return box_ranks(address, nobody()) == [0]
    except (Lost, OSError):
        return None


class Slow:
    """Wrong passwords by the address that they came from: each doubles the time until the next is weighed, to half a minute."""

    def __init__(self):
        self.wrong = {}                         # address: how many, and from when on the next is weighed

    def wait(self, address):
        """How many whole seconds there are to wait."""
        return max(0, int(self.wrong.get(address, (0, 0.0))[1] - seconds() + 0.999))

    def was_wrong(self, address):
        times = self.wrong.pop(address, (0, 0.0))[0] + 1
        if len(self.wrong) >= MOST_ADDRESSES:
            self.wrong.pop(next(iter(self.wrong)))
        self.wrong[address] = (times, seconds() + min(SLOW_MOST, 2.0 ** min(times - 1, 10)))

    def was_right(self, address):
        self.wrong.pop(address, None)


class Door:
    """Weighs logins, one at a time, and keeps the sessions of those who were let in.  They end with the panel."""

    def __init__(self, address):
        self.address = address                  # of the box
        self.weighing = threading.Lock()
        self.lock = threading.Lock()
        self.sessions = {}                      # by the digest of the cookie, so that no comparison tells how much of one was right
        self.slow = Slow()

    def session(self, cookie):
        """The session that a cookie belongs to; None if there is none any more."""
        key = hashlib.sha256(cookie.encode("utf-8", "replace")).digest()
        with self.lock:
            session = self.sessions.get(key)
            if session is not None and seconds() >= session.until:
                del self.sessions[key]
                session = None
            return session

    def lets(self, session):
        """Whether a session still stands."""
        with self.lock:
            return self.sessions.get(session.key) is session and seconds() < session.until

    def log_in(self, name, password, client):
        """Gives a session and its cookie.  One login is weighed at a time, so that the panel is no way to try passwords faster than at the box."""
        if not self.weighing.acquire(blocking=False):
            raise Turned(503, "Another login is being weighed. Try again in some seconds.")
        try:
            wait = self.slow.wait(client)
            if wait > 0:
                raise Turned(429, f"That was wrong before. Try again in {wait} s.")
            return self.add(name, self.weighed(name, password, client))
        finally:
            self.weighing.release()

    def weighed(self, name, password, client):
        """The rank that the box gives.  A login that no user has goes before it: where the box takes that, it asks for none, and lets everybody in."""
        try:
            anybody, rank = box_ranks(self.address, nobody(), (name, password))
        except (Lost, OSError) as fault:
            raise Turned(502, f"The box could not be asked: {fault}") from fault
        if anybody:
            raise Turned(403, "The box asks for no login now, so nobody can be told apart, and nobody is let in. Start the box with its users.")
        if not rank:
            self.slow.was_wrong(client)
            raise Turned(403, "The box refused that name and password.")
        self.slow.was_right(client)
        return rank

    def add(self, name, rank):
        cookie = secrets.token_urlsafe(32)
        session = Session(name, rank, hashlib.sha256(cookie.encode("ascii")).digest())
        with self.lock:
            if len(self.sessions) >= MOST_SESSIONS:
                del self.sessions[min(self.sessions, key=lambda key: self.sessions[key].until)]
            self.sessions[session.key] = session
        return session, cookie

    def log_out(self, session):
        with self.lock:
            self.sessions.pop(session.key, None)
