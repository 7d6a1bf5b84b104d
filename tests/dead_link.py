#!/usr/bin/env python3
"""A radio link that goes dead, in a network of its own: boxd and a client, and then nothing passes any more.  Not part of ./test, since not every machine
gives a program a network of its own.

    unshare --map-root-user --net python3 tests/dead_link.py

The client has Monitor on, so boxd has something to send when an input rises, and hears no acknowledgement.  After --link-time the connection is closed, and
the place is free again.  A second client is as silent: nothing is sent to it, and probes find it out.  Prints what it saw; exits 1 where it is not so.
"""

import subprocess
import time

from boxd import Boxd, Client

LINK_TIME = 5       # s


def link(state):
    subprocess.run(["ip", "link", "set", "lo", state], check=True)


def main():
    link("up")
    with Boxd("--link-time", str(LINK_TIME)) as host:
        told, silent = Client(host.port), Client(host.port)
        told.clock()
        silent.send(b"\x01\x00\x03" + b"\xFF\xFF" + b"\x05\x00\x04")         # Monitor off: nothing will be sent to it
        silent.clock()
        link("down")
        begun = time.monotonic()
        host.tell("level 1 1")
        for c in (0, 1):
            closed = host.wait_for(rf"connection {c} closed: (.*)").group(1)
            took = time.monotonic() - begun
            print(f"dead_link: connection {c} was closed after {took:.1f} s: {closed}")
            assert LINK_TIME - 1 <= took < 4 * LINK_TIME, "that is not the time it was given"
        host.quit()


if __name__ == "__main__":
    main()
