#!/usr/bin/env python3
"""Holds a command to the model.

    python3 tests/hold.py --seed S --events N -- COMMAND...

Generates traces, runs COMMAND on each (standard input to standard output) and compares each line it
prints with the model's.  On a difference prints the shortest trace found that shows it, and exits 1.
At the end prints the events and how often each answer number occurred; fails if one was too rare.
"""

import argparse
import subprocess
import sys
import time
from collections import Counter

import traces
from answers import BY_NAME
from model import Box, field, number

ANSWERS = sorted(BY_NAME.values())


# ---------------------------------------------------------------------------------------------
# Running and comparing
# ---------------------------------------------------------------------------------------------

class Command:
    """COMMAND, run anew for each trace."""

    def __init__(self, words, timeout):
        self.words = words
        self.timeout = timeout
        self.runs = 0
        self.seconds = 0.0

    def play(self, lines):
        """The lines it prints.  A crash or a time-out shows as one more line, which no model prints."""
        self.runs += 1
        start = time.monotonic()
        text = "".join(line + "\n" for line in lines).encode("latin-1")
        try:
            done = subprocess.run(self.words, input=text, stdout=subprocess.PIPE, timeout=self.timeout)
            printed, ending = done.stdout, done.returncode
        except subprocess.TimeoutExpired as late:
            printed, ending = late.stdout or b"", f"none within {self.timeout} s"
        self.seconds += time.monotonic() - start
        found = printed.decode("latin-1").split("\n")
        if found[-1] == "":
            found.pop()
        if ending != 0:
            found.append(f"(exit status {ending})")
        return found


def expected_of(lines):
    box = Box()
    return [box.line(line) for line in lines]


def first_difference(expected, found):
    """The number of the first line that differs, lines left out or added included; None if there is none."""
    for index, (one, other) in enumerate(zip(expected, found)):
        if one != other:
            return index
    return None if len(expected) == len(found) else min(len(expected), len(found))


# ---------------------------------------------------------------------------------------------
# Shrinking
# ---------------------------------------------------------------------------------------------

class Shrinker:
    """Makes a trace that shows a difference shorter as long as it still shows one.

    `play` gives the lines the other side prints for a list of lines.
    """

    def __init__(self, play, tries):
        self.play = play
        self.tries = tries

    def differs(self, lines):
        """The trace up to its first difference; None if it has none or the tries are used up."""
        if self.tries <= 0:
            return None
        self.tries -= 1
        index = first_difference(expected_of(lines), self.play(lines))
        return None if index is None else lines[:index + 1]

    def shrink(self, lines):
        lines = self.differs(lines) or lines
        seen = self.differs([said for line in lines for said in (line, "state")])
        if seen is not None:                        # a `state` after each line may show it earlier
            lines = seen
        while True:
            before = list(lines)
            lines = self.drop_lines(lines)
            lines = self.shorten_pieces(lines)
            lines = self.plain_settings(lines)
            lines = self.plain_ends(lines)
            if lines == before:
                return lines

    def drop_lines(self, lines):
        """Runs at fixed places, halved in turn; then short runs at every place."""
        lines = self.drop(lines, lambda kept: kept)
        for size in range(2, 10):
            end = len(lines)
            while end >= size:
                shorter = self.differs(lines[:end - size] + lines[end:])
                lines = lines if shorter is None else shorter
                end = min(end - 1, len(lines))
        return lines

    def drop(self, items, trace_with):
        """Drops runs of items, long runs first, from the end on, as long as the trace still differs.

        `trace_with(kept)` is the trace with those items only.  Where the items are the lines of the
        trace themselves, the trace is cut at its first difference too.
        """
        whole = trace_with(items) is items
        size = max(1, len(items) // 2)
        while True:
            dropped = False
            end = len(items)
            while end > 0:
                start = max(0, end - size)
                shorter = items[:start] + items[end:]
                cut = self.differs(trace_with(shorter))
                if cut is not None:
                    items = cut if whole else shorter
                    dropped = True
                end = min(start, len(items))
            if size == 1 and not dropped or self.tries <= 0:
                return items
            size = max(1, size // 2)

    def shorten_pieces(self, lines):
        for index, line in enumerate(lines):
            words = line.split(" ")
            if words[0] == "bytes" and len(words) in (4, 5) and is_piece(words[3]):
                self.shorten_piece(lines, index, words)
        return lines

    def shorten_piece(self, lines, index, words):
        """Of a piece that is one frame, entries and other content are dropped, the count and the header
        made to fit; then single bytes of any piece.
        """

        def with_piece(piece):
            return lines[:index] + [" ".join(words[:3] + [piece.hex().upper() or "-"] + words[4:])] + lines[index + 1:]

        piece = bytes.fromhex(words[3])
        if len(piece) > 5 and piece[0] == 1 and number(piece[1:3]) == len(piece) - 5:
            content = piece[5:]
            for frame in (unchecked, traces.framed):
                if self.differs(with_piece(frame(content))) is not None:
                    entries, missing, rest = parts_of(content)
                    if entries:
                        kept = self.drop(entries, lambda kept: with_piece(frame(with_entries(content, kept, missing, rest))))
                        content = with_entries(content, kept, missing, rest)
                    piece = frame(self.drop(content, lambda content: with_piece(frame(content))))
                    break
        piece = self.drop(piece, with_piece)
        lines[index] = with_piece(piece)[index]

    def plain_settings(self, lines):
        for index, line in enumerate(lines):
            words = line.split(" ")
            if words[0] == "power" and len(words) == 41:
                for place in range(1, 41):
                    if words[place] != "0":
                        plain = words[:place] + ["0"] + words[place + 1:]
                        if self.differs(lines[:index] + [" ".join(plain)] + lines[index + 1:]) is not None:
                            words = plain
                lines[index] = " ".join(words)
        return lines

    def plain_ends(self, lines):
        """Leaves out the last word that a line may end before, the lent row's length or strictness, where it does not matter."""
        for index, line in enumerate(lines):
            words = line.split(" ")
            usual = {"pass": 2, "bytes": 4, "open": 3, "fill": 2, "empty": 2}.get(words[0], len(words))
            plain = lines[:index] + [" ".join(words[:usual])] + lines[index + 1:]
            if len(words) > usual and self.differs(plain) is not None:
                lines = plain
        return lines


def is_piece(word):
    """Whether a word is written as the tool wants its pieces."""
    return len(word) % 2 == 0 and not word.strip("0123456789ABCDEF")


def unchecked(content):
    return traces.framed(content, 0xFFFF)


def parts_of(content):
    """Of a message of type 21 or 23 the whole entries, as many as its count says at most, how many of those are missing, and
    what is behind them; no entries of any other.
    """
    entries, position = [], 3
    if content[0] not in (21, 23) or len(content) < 3:
        return entries, 0, b""
    count = number(content[1:3])
    while len(entries) < count:
        size = 8 if content[0] == 21 else 10 + number(content[position + 8:position + 10])
        if position + size > len(content):
            break
        entries.append(content[position:position + size])
        position += size
    return entries, count - len(entries), content[position:]


def with_entries(content, entries, missing, rest):
    """The count goes with the entries: a message that fits still does, and another lacks or has left over as much as before."""
    return content[:1] + field(len(entries) + missing, 2) + b"".join(entries) + rest


def show(lines, play):
    """The trace with what the model prints and what was found, where they differ."""
    expected, found = expected_of(lines), play(lines)
    index = first_difference(expected, found)
    print("--- trace")
    for line in lines:
        print(line)
    print("--- line", "none (the difference did not come again)" if index is None else index + 1)
    if index is not None:
        print("expected:", expected[index] if index < len(expected) else "(nothing)")
        print("found:   ", found[index] if index < len(found) else "(nothing)")


# ---------------------------------------------------------------------------------------------
# The program
# ---------------------------------------------------------------------------------------------

def arguments():
    parser = argparse.ArgumentParser(description="Holds a command to the model.",
                                     usage="hold.py --seed S --events N [options] -- COMMAND...")
    parser.add_argument("--seed", default="1", help="any word; the same seed gives the same traces")
    parser.add_argument("--events", type=int, default=20000)
    parser.add_argument("--length", type=int, default=1000, help="events of one trace (default 1000)")
    parser.add_argument("--least", type=int, default=50, help="each answer number must occur so often (default 50)")
    parser.add_argument("--tries", type=int, default=2000, help="runs of COMMAND for shrinking at most (default 2000)")
    parser.add_argument("--timeout", type=float, default=60, help="seconds for one trace (default 60)")
    parser.add_argument("command", nargs=argparse.REMAINDER, metavar="COMMAND")
    options = parser.parse_args()
    if options.command[:1] == ["--"]:
        options.command = options.command[1:]
    if not options.command:
        parser.error("no COMMAND given")
    return options


def hold(options):
    """The answers counted, and whether all traces agreed."""
    command = Command(options.command, options.timeout)
    answers, lines = Counter(), 0
    start = time.process_time()
    for trace in traces.many(options.seed, options.events, options.length):
        found = command.play(trace.lines)
        if first_difference(trace.printed, found) is not None:
            index = first_difference(trace.printed, found)
            print(f"DIFFERENCE at line {lines + index + 1} of all, line {index + 1} of its trace; shrinking ...",
                  flush=True)
            show(Shrinker(command.play, options.tries).shrink(trace.lines[:index + 1]), command.play)
            return answers, False
        lines += len(trace.lines)
        answers.update(traces.answer_of(line, printed) for line, printed in zip(trace.lines, trace.printed))
    answers.pop(None, None)
    print(f"{sum(answers.values())} events, {lines} lines, {command.runs} traces: no difference "
          f"(model and traces {time.process_time() - start:.1f} s, command {command.seconds:.1f} s)")
    return answers, True


def main():
    options = arguments()
    answers, agreed = hold(options)
    if not agreed:
        return 1
    for answer in ANSWERS:
        print(f"answer {answer:2}: {answers[answer]:7}")
    rare = [answer for answer in ANSWERS if answers[answer] < options.least]
    if rare:
        print(f"FAILED: fewer than {options.least} of answer", ", ".join(map(str, rare)))
        return 1
    return 0


if __name__ == "__main__":
    try:
        sys.exit(main())
    except OSError as error:
        sys.exit(f"hold.py: {error}")
