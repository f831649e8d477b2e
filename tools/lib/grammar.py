"""Reads the lines of `lb replay` and of setup files by their grammar (docs/FORMATS.md, "Lines").

It is plain Python, written from the document and apart from the sources, for tools that compare,
draw or translate lines. A line that does not read raises Fault, with the place and the name of
what is wrong with it.
"""
import re
from dataclasses import dataclass, field

MOST_NUMBER = 2**64 - 1
MOST_LINE = 300_000
MOST_OCTETS = 65_535
MOST_LANES = 8
ACTIONS = ("allow", "drop", "rcode", "pool", "tc", "spoof", "none", "norecurse", "skipcache")
POLICIES = ("firstAvailable", "leastOutstanding", "roundrobin")
COOKIE = 10
FAULTS = (
    "UnknownWord", "Missing", "Extra", "BadNumber", "BadName", "BadAddress", "BadHex", "BadTerm",
)  # fmt: skip
TYPES = {
    "A": 1, "NS": 2, "CNAME": 5, "SOA": 6, "PTR": 12, "MX": 15, "TXT": 16, "AAAA": 28, "SRV": 33,
    "ANY": 255,
}  # fmt: skip
RCODES = {"NOERROR": 0, "FORMERR": 1, "SERVFAIL": 2, "NXDOMAIN": 3, "NOTIMP": 4, "REFUSED": 5}


class Fault(Exception):
    """A line that does not read: the place and the name of its first fault."""

    def __init__(self, place, name):
        super().__init__(place, name)
        self.place, self.name = place, name

    def __str__(self):
        return f"at {self.place}: {FAULTS.index(self.name) + 1} {self.name}"


# ---- Texts of names, addresses and numbers: each gives None where the word is none.


def number_of(word, least, most):
    if not re.fullmatch("[0-9]+", word):
        return None
    digits = word.lstrip("0") or "0"
    if len(digits) > 20 or not least <= int(digits) <= most:
        return None
    return int(digits)


def name_of(word):
    """The labels of a name, with their spelling."""
    if word == ".":
        return ()
    labels = word.removesuffix(".").split(".")
    if not all(re.fullmatch("[A-Za-z0-9_*-]{1,63}", label) for label in labels):
        return None
    if sum(len(label) + 1 for label in labels) + 1 > 255:
        return None
    return tuple(label.encode() for label in labels)


def ident_of(word):
    """The name of a server, or of a pool other than the default one."""
    return word if re.fullmatch("[A-Za-z][A-Za-z0-9_-]{0,62}", word) else None


def address_of(word):
    """The 4 or 16 octets of an address."""
    if ":" in word:
        return address_v6_of(word)
    parts = word.split(".")
    are_decimal = all(re.fullmatch("0|[1-9][0-9]{0,2}", part) for part in parts)
    if len(parts) != 4 or not are_decimal or any(int(part) > 255 for part in parts):
        return None
    return bytes(int(part) for part in parts)


def address_v6_of(word):
    if word.count("::") > 1 or ":::" in word:
        return None
    front, gap, back = word.partition("::")
    groups_front = front.split(":") if front else []
    groups_back = back.split(":") if back else []
    given = len(groups_front) + len(groups_back)
    if given > 7 if gap else given != 8:
        return None
    groups = groups_front + ["0"] * (8 - given) + groups_back
    if not all(re.fullmatch("[0-9A-Fa-f]{1,4}", group) for group in groups):
        return None
    return b"".join(int(group, 16).to_bytes(2, "big") for group in groups)


def mask_of(word):
    """An address with the bits past the length cleared, and the length."""
    text, slash, length = word.partition("/")
    address = address_of(text)
    if address is None:
        return None
    bits = number_of(length, 0, 8 * len(address)) if slash else 8 * len(address)
    return None if bits is None else (masked(address, bits), bits)


def masked(address, bits):
    spare = 8 * len(address) - bits
    return (int.from_bytes(address, "big") >> spare << spare).to_bytes(len(address), "big")


def lane_of(word):
    """A lane as its transport and its number; without a number it is lane 0."""
    kind, slash, number = word.partition("/")
    number = number_of(number, 0, MOST_LANES - 1) if slash else 0
    return None if kind not in ("udp", "tcp") or number is None else (kind, number)


def lane_text(lane):
    """A lane as answers have it."""
    kind, number = lane
    return f"{kind}/{number}" if number else kind


# ---- Lines


class Line:
    """A line that is read from the left, as words and signs."""

    def __init__(self, text):
        self.text = text  # octets, without the end of the line
        self.at = 0

    def peek(self):
        """The next token's kind, place and text; nothing is passed."""
        place = self.at
        while self.text[place : place + 1] == b" ":
            place += 1
        found = re.compile(rb"[!-'*+\--~]+").match(self.text, place)
        if found:
            return "word", place, found.group().decode()
        if place == len(self.text):
            return "end", place, ""
        if self.text[place] in b"(),":
            return "sign", place, chr(self.text[place])
        return "byte", place, ""

    def next(self):
        """The next token, which is due: so the line may not end, and it is no stray byte."""
        kind, place, text = self.peek()
        if kind == "end":
            raise Fault(place, "Missing")
        if kind == "byte":
            raise Fault(place, "UnknownWord")
        self.at = place + len(text)
        return kind, place, text

    def word(self):
        kind, place, text = self.next()
        if kind != "word":
            raise Fault(place, "UnknownWord")
        return place, text

    def sign(self, signs):
        """One of these signs."""
        kind, place, text = self.next()
        if kind != "sign" or text not in signs:
            raise Fault(place, "UnknownWord")
        return text

    def one_of(self, words):
        place, text = self.word()
        if text not in words:
            raise Fault(place, "UnknownWord")
        return text

    def value(self, read, fault):
        """A word that `read` gives a value for."""
        place, text = self.word()
        value = read(text)
        if value is None:
            raise Fault(place, fault)
        return value

    def number(self, least=0, most=MOST_NUMBER):
        return self.value(lambda text: number_of(text, least, most), "BadNumber")

    def name(self):
        return self.value(name_of, "BadName")

    def server_name(self):
        return self.value(ident_of, "BadName")

    def pool_name(self):
        return self.value(lambda text: text if text == "-" else ident_of(text), "BadName")

    def address(self):
        return self.value(address_of, "BadAddress")

    def record_type(self):
        place, text = self.word()
        if text in TYPES:
            return TYPES[text]
        number = number_of(text, 0, 65_535)
        if number is None:
            raise Fault(place, "BadNumber" if text[0].isdigit() else "UnknownWord")
        return number

    def is_type_next(self):
        kind, _, text = self.peek()
        return kind == "word" and (text in TYPES or number_of(text, 0, 65_535) is not None)

    def octets(self):
        place, text = self.word()
        if text == "-":
            return b""
        if not re.fullmatch("([0-9A-Fa-f]{2})+", text) or len(text) > 2 * MOST_OCTETS:
            raise Fault(place, "BadHex")
        return bytes.fromhex(text)

    def members(self, read, fault, most):
        """At most so many values in parentheses, with commas between."""
        values = []
        self.sign("(")
        while True:
            place = self.peek()[1]
            value = self.value(read, fault)
            if len(values) == most:
                raise Fault(place, "BadTerm")
            values.append(value)
            if self.sign(",)") == ")":
                return values

    def end(self):
        kind, place, _ = self.peek()
        if kind == "byte":
            raise Fault(place, "UnknownWord")
        if kind != "end":
            raise Fault(place, "Extra")


@dataclass
class Limiter:
    """A term that holds over a rate, with the passes that it counts.

    A pass is a masked address with its moment.
    """

    qps: int
    bits: dict
    passes: list = field(default_factory=list)


class Term:
    """A term of a rule: its word and what stands in its parentheses."""

    def __init__(self, word, value=None):
        self.word, self.value = word, value

    def limiters(self):
        if self.word == "maxqps":
            return [self.value]
        members = self.value if self.word in ("and", "or", "not") else []
        return [limiter for member in members for limiter in member.limiters()]


class TermReader:
    """Reads a term, and counts its nodes."""

    def __init__(self, line):
        self.line = line
        self.nodes = 0

    def read(self, depth=1):
        line = self.line
        place = line.peek()[1]
        word = line.one_of(("all", "suffix", "masks", "qtype", "and", "or", "not", "maxqps"))
        self.nodes += 1
        if depth > 16 or self.nodes > 64:
            raise Fault(place, "BadTerm")
        if word == "all":
            return Term(word)
        if word == "suffix":
            return Term(word, line.members(name_of, "BadName", 1024))
        if word == "masks":
            return Term(word, line.members(mask_of, "BadAddress", 1024))
        line.sign("(")
        if word in ("and", "or"):
            value = [self.read(depth + 1)]
            while line.sign(",)") == ",":
                value.append(self.read(depth + 1))
            return Term(word, value)
        if word == "maxqps":
            return Term(word, self.read_limiter())
        value = line.record_type() if word == "qtype" else [self.read(depth + 1)]
        line.sign(")")
        return Term(word, value)

    def read_limiter(self):
        qps = self.line.number(1, 1000)
        v4, v6 = 32, 64
        if self.line.sign(",)") == ",":
            v4 = self.line.number(0, 32)
            self.line.sign(",")
            v6 = self.line.number(0, 128)
            self.line.sign(")")
        return Limiter(qps, {4: v4, 16: v6})


def read_action(line):
    """An action as its word and what stands in its parentheses."""
    word = line.one_of(ACTIONS)
    if word == "spoof":
        return word, line.members(address_of, "BadAddress", 8)
    if word not in ("rcode", "pool"):
        return word, None
    line.sign("(")
    value = RCODES[line.one_of(RCODES)] if word == "rcode" else line.pool_name()
    line.sign(")")
    return word, value


def read_rule_add(line):
    place = None
    if line.peek()[2] == "at":
        line.word()
        place = line.number()
    term = TermReader(line).read()
    return place, term, read_action(line)


def read_server_add(line):
    name = line.server_name()
    end = line.address(), line.number(1, 65_535)
    spec = {"name": name, "order": 1, "fall": 1, "rise": 1, "lanes": 1}
    pools = []
    while line.peek()[2] in ("order", "pool", "fall", "rise", "lanes", "resolve"):
        _, option = line.word()
        if option == "order":
            spec[option] = line.number(0, 65_535)
        elif option in ("fall", "rise"):
            spec[option] = line.number(1, 255)
        elif option == "lanes":
            spec[option] = line.number(1, MOST_LANES)
        elif option == "pool":
            place = line.peek()[1]
            pool = line.pool_name()
            if len(pools) == 8:
                raise Fault(place, "BadTerm")
            pools.append(pool)
    return spec, pools or ["-"], end


def read_skips(line):
    """The codes of the options that a cache leaves out of its keys, each at its first place."""
    if line.peek()[2] != "skip":
        return [COOKIE]
    line.word()
    if line.peek()[2] == "none":
        line.word()
        return []
    codes = []
    while True:
        place = line.peek()[1]
        code = line.number(0, 65_535)
        if len(codes) == 16:
            raise Fault(place, "BadTerm")
        codes.append(code)
        if line.peek()[2] != ",":
            return list(dict.fromkeys(codes))
        line.next()


def read_expunge(line):
    pool = line.pool_name()
    what = line.one_of(("name", "suffix", "all"))
    name = line.name() if what != "all" else ()
    # The line is whole before the type: what stands there and is none is too much.
    qtype = line.record_type() if what == "name" and line.is_type_next() else None
    return pool, what, name, qtype


def read_command(line):
    """A command: the method of the balancer that carries it out, and what it is given."""
    word = line.one_of(("rule", "server", "pool", "cache", "expunge", "timeout", "show"))
    if word == "expunge":
        return "expunge", read_expunge(line)
    if word == "timeout":
        return "set_timeout", (line.number(1, 60_000),)
    if word == "show":
        return "show", ()
    if word == "rule":
        what = line.one_of(("add", "remove", "move"))
        if what == "add":
            return "rule_add", read_rule_add(line)
        number = line.number()
        return "rule_" + what, (number,) if what == "remove" else (number, line.number())
    if word == "server":
        what = line.one_of(("add", "remove", "mode"))
        if what == "add":
            return "server_add", read_server_add(line)
        name = line.server_name()
        if what == "remove":
            return "server_remove", (name,)
        return "server_mode", (name, line.one_of(("up", "down", "auto")))
    if word == "pool":
        what = line.one_of(("add", "policy"))
        name = line.pool_name()
        if what == "add":
            return "pool_add", (name,)
        return "pool_policy", (name, line.one_of(POLICIES))
    what = line.one_of(("attach", "detach"))
    name = line.pool_name()
    if what == "detach":
        return "cache_detach", (name,)
    numbers = line.number(1, 1_000_000), line.number(1, 64), line.number(1, 604_800)
    return "cache_attach", (name, *numbers, read_skips(line))


def read_event(line):
    """An event: its moment, the method of the balancer that takes it, and what it is given."""
    word = line.one_of(("query", "reply", "tick", "health", "edit"))
    now = line.number()
    if word == "query":
        slot, kind, address = line.number(), line.one_of(("udp", "tcp")), line.address()
        event = now, "query", (slot, kind, address, line.number(0, 65_535), line.octets())
    elif word == "reply":
        event = now, "reply", (line.number(), line.value(lane_of, "UnknownWord"), line.octets())
    elif word == "tick":
        event = now, "tick", ()
    elif word == "health":
        event = now, "health", (line.number(), line.one_of(("ok", "fail")) == "ok")
    else:
        event = now, "edit", read_command(line)
    line.end()
    return event


def read_setup(line):
    """A line of a file that `lb check` or `lb serve` reads; `lb replay` reads none."""
    word = line.peek()[2]
    if word == "listen":
        line.word()
        kind = line.one_of(("udp", "tcp", "doh", "console"))
        setup = word, (kind, line.address(), line.number(1, 65_535))
    elif word == "log":
        line.word()
        setup = word, (line.number(0, 1_000_000),)
    else:
        setup = read_command(line)
    line.end()
    return setup


def is_told(text):
    """Whether a line without its end is more than blanks or a comment."""
    kind, _, word = Line(text).peek()
    return kind != "end" and not word.startswith("#")


def event_of(text):
    """The event of a line without its end; None if the line is blank or a comment."""
    if not is_told(text):
        return None
    if len(text) > MOST_LINE:
        raise Fault(MOST_LINE, "Extra")
    return read_event(Line(text))


def setup_of(text):
    """What a line of a setup file says; it is no comment, and has no end."""
    return read_setup(Line(text.encode()))


def ended(text):
    """A line as it is read from the input, without its end."""
    return text[:-1].removesuffix(b"\r") if text.endswith(b"\n") else text
