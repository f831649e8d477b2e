"""What lbctl and lb-blocklist share: where a console is, and a connection to it. It is no program."""
import argparse
import os
import re
import socket
import time

SETUP = "/etc/curlewrack/lb.conf"
REFUSALS = ("fault ", "refused ", "desk ")
# What an answer of one line begins with. Any other answer is a list, up to a line that begins with LAST.
ONE_LINE = (*REFUSALS, "edited ", "closed ")
LAST = "# end "


class NoAnswer(Exception):
    """Nobody answered, and why."""


def place_of(text):
    """The address and port of ADDR:PORT or [ADDR]:PORT; a port alone is one of 127.0.0.1."""
    found = re.fullmatch(r"(?:\[([0-9A-Fa-f:.]+)\]:|([0-9.]+):)?([0-9]{1,5})", text)
    if not found or not 0 < int(found[3]) < 65536:
        raise argparse.ArgumentTypeError(f"{text!r} is not ADDR:PORT, [ADDR]:PORT or PORT")
    return found[1] or found[2] or "127.0.0.1", int(found[3])


def console_of(path):
    """The address and port of the first console of a setup file."""
    try:
        with open(path, encoding="utf-8") as it:
            lines = it.read().split("\n")
    except (OSError, UnicodeDecodeError) as error:
        raise NoAnswer(f"{path}: {error}") from error
    for line in lines:
        words = line.split()
        if words[:2] == ["listen", "console"] and len(words) == 4 and words[3].isdigit():
            # A wildcard address is reached by the loopback.
            return {"0.0.0.0": "127.0.0.1", "::": "::1"}.get(words[2], words[2]), int(words[3])
    raise NoAnswer(f"{path}: no line `listen console ADDR PORT`")


def add_options(parser):
    """The options that say which console it is, and how long it may take."""
    where = parser.add_mutually_exclusive_group()
    where.add_argument("-c", metavar="ADDR:PORT", type=place_of, help="the address of the console")
    where.add_argument("-f", metavar="FILE", help=f"the setup file that names the console ({SETUP})")
    parser.add_argument("-t", metavar="SECONDS", type=float, default=10.0, help="how long an answer may take (10)")


def place_by(parser, words):
    """The console that options, LBCTL_CONSOLE or the setup file name, in this order."""
    if not 0 < words.t <= 3600:
        parser.error("-t: more than 0, and at most 3600")
    if words.c:
        return words.c
    named = os.environ.get("LBCTL_CONSOLE")
    if words.f is None and named:
        try:
            return place_of(named)
        except argparse.ArgumentTypeError as error:
            parser.error(f"LBCTL_CONSOLE: {error}")
    return console_of(words.f or SETUP)


class Console:
    """A connection to a console, on which each line has to be answered within some seconds."""

    def __init__(self, place, seconds):
        self.name = f"{place[0]} port {place[1]}"
        self.seconds = seconds
        self.rest = b""
        try:
            self.stream = socket.create_connection(place, seconds)
            self.stream.setsockopt(socket.IPPROTO_TCP, socket.TCP_NODELAY, 1)
        except (OSError, OverflowError) as error:
            raise NoAnswer(f"{self.name}: {error}") from error

    def ask(self, line):
        """The answer to a line, a list in several lines, without its last line feed."""
        end = time.monotonic() + self.seconds
        try:
            self.stream.settimeout(self.seconds)
            self.stream.sendall(line.encode("utf-8", "surrogateescape") + b"\n")
        except socket.timeout as error:
            raise NoAnswer(f"{self.name}: no answer in {self.seconds:g} s") from error
        except OSError as error:
            raise NoAnswer(f"{self.name}: {error}") from error
        lines = [self.line(end)]
        while not lines[0].startswith(ONE_LINE) and not lines[-1].startswith(LAST):
            lines.append(self.line(end))
        return "\n".join(lines)

    def line(self, end):
        """The next line of an answer, which comes before a moment."""
        try:
            while b"\n" not in self.rest:
                self.stream.settimeout(max(0.001, end - time.monotonic()))
                piece = self.stream.recv(65536)
                if not piece:
                    raise NoAnswer(f"{self.name}: closed without an answer")
                self.rest += piece
        except socket.timeout as error:
            raise NoAnswer(f"{self.name}: no answer in {self.seconds:g} s") from error
        except OSError as error:
            raise NoAnswer(f"{self.name}: {error}") from error
        answer, _, self.rest = self.rest.partition(b"\n")
        return answer.decode("utf-8", "replace")
