#!/usr/bin/env python3
"""The panel: an ordinary client of the box that shows it on one page, with buttons that switch and pulse the relays.

    panel/panel.py [--box HOST:PORT] [--user NAME] [--port PORT | --listen ADDRESS:PORT] [--names FILE] [--day FILE]

The page is for this machine alone (127.0.0.1), unless --listen gives another address; then people log in with the box's users.
It is written from the published protocol (001) and the rules of the box (01).
With --user the panel logs in.  The password is asked for on the terminal, or read as the first line of standard input where
that is no terminal; it is neither an argument nor in the environment, where others could see it.
"""

import argparse
import getpass
import ipaddress
import os
import re
import signal
import sys
import threading

sys.path.insert(0, os.path.dirname(os.path.realpath(__file__)))     # its other files, from wherever and through whatever link it is started

import names                                                        # noqa: E402
from box import Box                                                 # noqa: E402
from day import Day                                                 # noqa: E402
from door import Door, asks_for_login                               # noqa: E402
from protocol import LONGEST_STRING                                 # noqa: E402
from tell import tell                                               # noqa: E402
from web import Server                                              # noqa: E402

PORT = 9280


def fail(words):
    sys.exit("panel: " + words)


def split(word, option, example):
    """HOST:PORT in two."""
    host, colon, port = word.rpartition(":")
    if not colon or not host or not (port.isascii() and port.isdecimal()) or int(port) > 65535:
        fail(f"{option} needs {example[0]}, not {word}. Write for example {option} {example[1]}")
    return host.strip("[]"), int(port)


def listens_on(asked):
    """The address and the port of the page."""
    if asked.listen is None:
        return "127.0.0.1", PORT if asked.port is None else asked.port
    if asked.port is not None:
        fail("--listen has a port already: leave --port out")
    address, port = split(asked.listen, "--listen", ("ADDRESS:PORT", "192.168.1.20:9280"))
    try:
        ipaddress.ip_address(address)
    except ValueError:
        fail(f"--listen needs an address of this machine in numbers, not {address}. Write for example --listen 192.168.1.20:9280, "
             f"and the name with --host-name {address}")
    return address, port


def host_names(words):
    for word in words:
        if not re.fullmatch(r"[A-Za-z0-9]([A-Za-z0-9.-]*[A-Za-z0-9])?", word):
            fail(f"--host-name needs a name without a port, not {word}. Write for example --host-name barge-7.lan")
    return words


def password():
    if sys.stdin.isatty():
        return getpass.getpass("Password: ")
    return sys.stdin.readline().rstrip("\r\n")


def read_names(path):
    try:
        return None if path is None else names.read(path)
    except names.Wrong as wrong:
        fail(str(wrong).replace("\n", "\npanel: "))


def door_of(address, box_address, is_open):
    """Who is let in beyond this machine.  None where no login is asked: on this machine alone, or where the box asks for none and --open says that
    everybody on the network may command it.  Where the box cannot be asked now, the safe side is taken: a login is asked.
    """
    if ipaddress.ip_address(address).is_loopback:
        return None
    asks = asks_for_login(box_address)
    if asks is None:
        tell("the box cannot be asked now whether it has users. Nobody is let in before it refuses a login that is no user's.")
    elif not asks and is_open:
        tell("everybody who reaches this address may command the box: it asks for no login, and --open lets them")
        return None
    elif not asks:
        fail("the box asks for no login: everybody on the network could command it through this panel. Start the box with --users, "
             "or listen on 127.0.0.1, or say --open if that is meant")
    return Door(box_address)


def stop(*_):
    raise KeyboardInterrupt


def end_with_input(server):
    for _ in sys.stdin:
        pass
    server.shutdown()


def arguments():
    parser = argparse.ArgumentParser(description=__doc__, formatter_class=argparse.RawDescriptionHelpFormatter)
    parser.add_argument("--box", default="127.0.0.1:9200", metavar="HOST:PORT", help="where the box is; %(default)s without it")
    parser.add_argument("--port", type=int, help=f"of the page, on 127.0.0.1; {PORT} without it, 0 for any that is free")
    parser.add_argument("--listen", metavar="ADDRESS:PORT", help="where the page is, instead of --port; beyond this machine people log in there "
                        "with the box's users")
    parser.add_argument("--host-name", action="append", default=[], metavar="NAME", help="a name under which the page may be opened, besides its "
                        "address; may be given several times")
    parser.add_argument("--open", action="store_true", help="where the box asks for no login, let everybody command it beyond this machine too")
    parser.add_argument("--user", metavar="NAME", help="log in as this user")
    parser.add_argument("--names", metavar="FILE", help="names of inputs: lines like `input 3 Lift port aft`")
    parser.add_argument("--day", metavar="FILE", help="where the day's counts are kept over a restart; in memory alone without it")
    parser.add_argument("--end-with-input", action="store_true", help="end when standard input does")
    parser.add_argument("--advice", default="--port PORT", help=argparse.SUPPRESS)     # the option for another port, of whoever starts the panel
    return parser.parse_args()


def make_server(asked, box, door):
    address, port = listens_on(asked)
    try:
        return Server((address, port), box, door, asked.host_name)
    except (OSError, OverflowError) as fault:
        other = "--listen ADDRESS:PORT" if asked.listen is not None else asked.advice
        fail(f"cannot listen on {address}:{port}: {fault}. Another panel may be running: end it, or choose another port with {other}")


def tell_address(asked, server):
    address, port = server.server_address[:2]
    everywhere = ipaddress.ip_address(address).is_unspecified
    here = "127.0.0.1" if everywhere else f"[{address}]" if ":" in address else address
    elsewhere = f", or http://{asked.host_name[0] if asked.host_name else 'ADDRESS-OF-THIS-MACHINE'}:{port}/ elsewhere," if everywhere else ""
    login = " after a login" if server.door is not None else ""
    tell(f"open http://{here}:{port}/{elsewhere} to see the box at {asked.box}{login}")


def serve(server, box, day, ends_with_input):
    signal.signal(signal.SIGTERM, stop)
    threading.Thread(target=box.run, daemon=True).start()
    if ends_with_input:
        threading.Thread(target=end_with_input, args=(server,), daemon=True).start()
    try:
        server.serve_forever()
    except KeyboardInterrupt:
        pass
    day.keep(at_once=True)
    tell("ended")


def main():
    asked = arguments()
    box_address = split(asked.box, "--box", ("HOST:PORT", "127.0.0.1:9200"))
    host_names(asked.host_name)
    input_names = read_names(asked.names)
    address, _ = listens_on(asked)
    secret = password() if asked.user is not None else None
    for word in (asked.user, secret):
        if word is not None and (len(word) > LONGEST_STRING or not word.isascii()):
            fail(f"name and password have at most {LONGEST_STRING} characters of ASCII: the protocol's strings have no others")
    day = Day(asked.day)
    box = Box(box_address, asked.user, secret, input_names, day)
    server = make_server(asked, box, door_of(address, box_address, asked.open))
    tell_address(asked, server)
    serve(server, box, day, asked.end_with_input)


if __name__ == "__main__":
    main()
