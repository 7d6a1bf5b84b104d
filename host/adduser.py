#!/usr/bin/env python3
"""Prints a line for the users file of boxd.

    host/adduser.py NAME RANK >> users.txt              RANK: 1 user, 2 administrator
    host/adduser.py NAME RANK --strict >> users.txt     and no message passes unchecked on the user's connections

The password is asked for on the terminal, or read as the first line of standard input where that is no terminal.
It is never an argument: arguments can be seen by everybody on the machine.
"""

import argparse
import getpass
import hashlib
import re
import secrets
import sys

ITERATIONS = 600000             # about a tenth of a second of work for each try on a desktop machine, more on a small board


def fail(words):
    sys.exit("adduser: " + words)


def password():
    if not sys.stdin.isatty():
        return sys.stdin.readline().rstrip("\r\n")
    first = getpass.getpass("Password: ")
    if getpass.getpass("Once more: ") != first:
        fail("the two are not the same; nothing was printed. Try again")
    return first


def line(name, rank, secret, iterations=ITERATIONS, salt=None, strict=False):
    salt = secrets.token_bytes(16) if salt is None else salt
    digest = hashlib.pbkdf2_hmac("sha256", secret, salt, iterations)
    return f"{name} {rank} {iterations} {salt.hex()} {digest.hex()}" + (" strict" if strict else "")


def main():
    parser = argparse.ArgumentParser(description=__doc__, formatter_class=argparse.RawDescriptionHelpFormatter)
    parser.add_argument("name", metavar="NAME")
    parser.add_argument("rank", metavar="RANK", choices=("1", "2"))
    parser.add_argument("--iterations", type=int, default=ITERATIONS, help="1000 to 10000000; %(default)s without it")
    parser.add_argument("--strict", action="store_true", help="for a line that garbles bytes: 0xFFFF does not pass unchecked")
    asked = parser.parse_args()
    if not re.fullmatch(r"[!-9;-~]{1,32}", asked.name):
        fail("a name has 1 to 32 printed characters, no blank and no colon")
    if asked.name.startswith("#"):
        fail("a name does not begin with #: such a line says nothing in the file")
    if not 1000 <= asked.iterations <= 10000000:
        fail("the iterations are a number from 1000 to 10000000")
    secret = password()
    if not secret or len(secret) > 255 or not secret.isascii():
        fail("a password has 1 to 255 characters of ASCII: the protocol's strings have no others")
    print(line(asked.name, asked.rank, secret.encode("ascii"), asked.iterations, strict=asked.strict))


if __name__ == "__main__":
    main()
