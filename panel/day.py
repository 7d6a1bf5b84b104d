"""The day: how many each input counted in each quarter of an hour, from what the panel saw.

The day and its quarters go by the local time of the panel's machine.  A rise of a count between two looks counts to the quarter in which it was
seen.  A count that falls, because it was cleared or the box began anew, is the new beginning, and takes nothing away.  A quarter in which the box
was not seen is None: a gap.
"""

import json
import os
import threading
import time

from protocol import CHANNELS
from tell import tell

QUARTERS = 96
BETWEEN_WRITES = 5.0        # s
KEYS = {"wellacorn", "date", "last", "quarters"}
LARGEST = 4294967295 * QUARTERS


def is_count(value):
    return type(value) is int and 0 <= value <= LARGEST


def is_day(day):
    """Whether it has the form that `written` gives."""
    return (isinstance(day, dict) and set(day) == KEYS and day["wellacorn"] == "day" and isinstance(day["date"], str)
            and isinstance(day["last"], list) and len(day["last"]) == len(CHANNELS) and all(is_count(value) for value in day["last"])
            and isinstance(day["quarters"], list) and len(day["quarters"]) == len(CHANNELS) and all(is_row(row) for row in day["quarters"]))


def is_row(row):
    return isinstance(row, list) and len(row) == QUARTERS and all(value is None or is_count(value) for value in row)


def moment(now):
    """The date and the quarter of it, in local time."""
    local = time.localtime(now)
    return time.strftime("%Y-%m-%d", local), local.tm_hour * 4 + local.tm_min // 15


class Day:
    """The day that runs, kept in a file where one is given."""

    def __init__(self, path=None, now=None):
        self.lock = threading.Lock()
        self.writing = threading.Lock()
        self.path = path
        self.said = ""                          # what is wrong with the file
        self.version = 0
        self.date, self.last = "", None         # the counts at the last look
        self.quarters = []
        self.begin(moment(time.time() if now is None else now)[0])
        self.unwritten = False
        self.written_at = -BETWEEN_WRITES
        if path is not None:
            self.read()

    def begin(self, date):
        self.date = date
        self.quarters = [[None] * QUARTERS for _ in CHANNELS]

    # -- what is seen ------------------------------------------------------------------------------

    def see(self, counts, now):
        """A look at the box."""
        with self.lock:
            date, quarter = moment(now)
            if date != self.date:
                self.begin(date)
            rises = [0] * len(counts) if self.last is None else [max(0, count - last) for count, last in zip(counts, self.last)]
            if any(rises) or counts != self.last or self.quarters[0][quarter] is None:
                self.add(rises, quarter)
            self.last = counts
        self.keep()

    def add(self, rises, quarter):
        for row, rise in zip(self.quarters, rises):
            row[quarter] = (row[quarter] or 0) + rise
        self.version += 1
        self.unwritten = True

    def shown(self, now):
        """The day for the page, as JSON."""
        date, quarter = moment(now)
        with self.lock:
            quarters = self.quarters if date == self.date else [[None] * QUARTERS for _ in CHANNELS]
            return json.dumps({"version": self.version, "date": date, "quarter": quarter, "quarters": quarters, "said": self.said})

    # -- the file ----------------------------------------------------------------------------------

    def read(self):
        """Takes up the file's day, if it is today.  A file that is none of the panel's is left as it is."""
        try:
            with open(self.path, encoding="utf-8") as file:
                day = json.load(file)
        except FileNotFoundError:
            return
        except (OSError, ValueError, RecursionError) as fault:
            self.leave(getattr(fault, "strerror", None) or "it is garbled")
            return
        if not is_day(day):
            self.leave("it is garbled, or no day of the panel")
        elif day["date"] == self.date:
            self.last, self.quarters = day["last"], day["quarters"]

    def leave(self, why):
        self.say(f"The day cannot be read from {self.path}: {why}. The file is left as it is, and the day is kept only until the panel ends. "
                 "Remove the file, and start the panel again.")
        self.path = None

    def say(self, words):
        if words != self.said:
            self.said = words
            self.version += 1
            tell(words or "the day is written again")

    def keep(self, at_once=False):
        """Writes the day if something is new, at most once in some seconds."""
        with self.writing:
            if self.path is not None and self.unwritten and (at_once or time.monotonic() - self.written_at >= BETWEEN_WRITES):
                self.written_at = time.monotonic()
                self.put_away()

    def put_away(self):
        with self.lock:
            day = json.dumps({"wellacorn": "day", "date": self.date, "last": self.last, "quarters": self.quarters})
            self.unwritten = False
        try:
            self.write(f"{self.path}.{os.getpid()}", day)
            self.say("")
        except OSError as fault:
            self.unwritten = True
            self.say(f"The day cannot be written to {self.path}: {fault.strerror}. It is kept until the panel ends. "
                     "Make room there, or the folder writable; it is tried again.")

    def write(self, fresh, day):
        """Anew beside the file and then renamed, so that the file is whole at any time."""
        try:
            with open(fresh, "w", encoding="utf-8") as file:
                file.write(day + "\n")
                file.flush()
                os.fsync(file.fileno())
            os.replace(fresh, self.path)
        finally:
            if os.path.exists(fresh):
                os.remove(fresh)
