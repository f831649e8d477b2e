"""What the tools share that try `lb serve` on the loopback, among other programs.

It is no program. It has

- a network of one's own (`own_network`), and packages that are needed (`need`);
- programs that are started and surely ended (`Children`);
- messages of DNS (`query`, `frame`, `ask_udp`, ..), and lines of the console (`ask_console`);
- a balancer (`Balancer`): `lb serve` over lines of a setup file, or dnsdist over the same lines
  (`dry`), by which the tools were tried before `lb serve` was there.
"""
import atexit
import ctypes
import ipaddress
import os
import re
import select
import shutil
import signal
import socket
import struct
import subprocess
import sys
import tempfile
import threading
import time

import grammar
from programs import descriptors, memory
from repository import TOP

TYPES = {
    "A": 1, "NS": 2, "CNAME": 5, "SOA": 6, "MX": 15, "TXT": 16, "AAAA": 28, "SRV": 33, "IXFR": 251,
    "AXFR": 252, "ANY": 255, "DNSKEY": 48,
}  # fmt: skip
OWN_NETWORK = "CURLEWRACK_OWN_NETWORK"


# What a tool needs of the system.

def default_program():
    """The program that is built here, or else the one that is handed out."""
    built = os.path.join(TOP, "crates/lb/out/lb")
    return built if os.access(built, os.X_OK) else os.path.join(TOP, "release/lb")


def own_network():
    """Begins this tool anew in a network of its own, if the system lets it: nothing but a loopback.

    There all ports are free, counters count this tool alone, and there is no way out. Says whether
    it is in one.
    """
    if os.environ.get(OWN_NETWORK) == "1":
        return True
    enter = ["unshare", "--net", "--", "sh", "-c", 'ip link set lo up && exec "$@"', "sh"]
    if os.geteuid() == 0 and shutil.which("unshare") and shutil.which("ip"):
        tried = subprocess.run(enter + ["true"], capture_output=True, check=False)
        if tried.returncode == 0:
            os.environ[OWN_NETWORK] = "1"
            again = [sys.executable, os.path.realpath(sys.argv[0]), *sys.argv[1:]]
            os.execvp("unshare", enter + again)
    return False


def need(wanted):
    """Sees that these programs are there: {program: Debian's package}.

    Missing ones are installed, as root, and what is installed is said.
    """
    missing = {program: package for program, package in wanted.items() if not shutil.which(program)}
    if not missing:
        return
    packages = sorted(set(missing.values()))
    install = ["apt-get", "install", "-y", "--no-install-recommends", *packages]
    if os.geteuid() != 0 or not shutil.which("apt-get") or os.environ.get(OWN_NETWORK) == "1":
        sys.exit(f"missing: {', '.join(sorted(missing))}. As root: {' '.join(install)}")
    print(f"installing from Debian: {' '.join(packages)}", flush=True)
    environment = dict(os.environ, DEBIAN_FRONTEND="noninteractive", RUNLEVEL="1")
    ended = subprocess.run(install, capture_output=True, text=True, env=environment, check=False)
    if ended.returncode != 0:
        how = f"ended with status {ended.returncode} (apt-get update may help)"
        sys.exit(f"{' '.join(install)} {how}:\n{ended.stderr[-600:]}")
    for program in missing:  # Debian's packages of servers begin to serve as they are installed
        if program in ("nsd", "unbound", "dnsdist", "nginx") and shutil.which("service"):
            subprocess.run(["service", program, "stop"], capture_output=True, check=False)
    still = [program for program in missing if not shutil.which(program)]
    if still:
        sys.exit(f"still missing after the installation: {', '.join(still)}")


def free_port():
    """A port that neither UDP nor TCP uses on any address."""
    for _ in range(100):
        with (
            socket.socket(socket.AF_INET6, socket.SOCK_STREAM) as stream,
            socket.socket(socket.AF_INET6, socket.SOCK_DGRAM) as datagram,
        ):
            stream.bind(("::", 0))
            port = stream.getsockname()[1]
            try:
                datagram.bind(("::", port))
            except OSError:
                continue
            if port not in free_port.given:
                free_port.given.add(port)
                return port
    sys.exit("no free port was found")


free_port.given = set()


def die_with_parent():
    ctypes.CDLL(None).prctl(1, signal.SIGKILL)


class Children:
    """Programs that this one started, each in a session of its own, and a folder.

    All of them are ended at the end, however that comes.
    """

    def __init__(self):
        self.folder = tempfile.mkdtemp(prefix="curlewrack-")
        os.chmod(self.folder, 0o755)
        self.running = []
        self.keeper = os.getpid()
        atexit.register(self.end_all)
        for number in (signal.SIGTERM, signal.SIGHUP):
            signal.signal(number, lambda *_: sys.exit("ended by a signal"))

    def path(self, name):
        return os.path.join(self.folder, name)

    def write(self, name, text):
        with open(self.path(name), "w", encoding="utf-8") as out:
            out.write(text)
        return self.path(name)

    def start(self, words, name, **more):
        """Starts a program; what it prints goes to NAME.log in the folder, if nothing else is said.

        Call it from a thread that stays.
        """
        if "stdout" not in more:
            more["stdout"] = open(self.path(f"{name}.log"), "ab")
        more.setdefault("stderr", subprocess.STDOUT)
        more |= {"stdin": subprocess.DEVNULL, "start_new_session": True}
        child = subprocess.Popen(words, preexec_fn=die_with_parent, **more)
        child.name = name
        self.running.append(child)
        return child

    def end(self, child, how=signal.SIGTERM):
        """Ends a program and all that it began."""
        for number in (how, signal.SIGKILL):
            try:
                os.killpg(child.pid, number)
            except ProcessLookupError:
                pass
            try:
                child.wait(timeout=3)
                break
            except subprocess.TimeoutExpired:
                pass
        try:
            os.killpg(child.pid, signal.SIGKILL)  # what it left behind
        except ProcessLookupError:
            pass
        if child in self.running:
            self.running.remove(child)

    def log(self, name):
        try:
            with open(self.path(f"{name}.log"), encoding="utf-8", errors="replace") as it:
                return it.read()
        except FileNotFoundError:
            return ""

    def end_all(self):
        if os.getpid() != self.keeper:
            return
        for child in list(self.running):
            self.end(child, signal.SIGKILL)
        shutil.rmtree(self.folder, ignore_errors=True)


class Score:
    """What passed and what failed, a line each."""

    def __init__(self):
        self.passed = self.failed = self.skipped = 0

    def tell(self, case, wrong="", note=""):
        """One case: it failed where `wrong` says something."""
        if wrong:
            self.failed += 1
            print(f"failed  {case}: {wrong}", flush=True)
        else:
            self.passed += 1
            print(f"passed  {case}{': ' + note if note else ''}", flush=True)

    def skip(self, case, why):
        self.skipped += 1
        print(f"skipped {case}: {why}", flush=True)

    def end(self):
        skipped = f", {self.skipped} skipped" if self.skipped else ""
        print(f"{self.passed} passed, {self.failed} failed{skipped}", flush=True)
        sys.exit(1 if self.failed else 0)


# Messages.

def name_octets(text):
    labels = [label.encode() for label in text.rstrip(".").split(".") if label]
    return b"".join(bytes([len(label)]) + label for label in labels) + b"\0"


def opt(size=1232, do=False, options=b"", version=0, extended=0):
    flags = 0x8000 if do else 0
    return struct.pack(">BHHBBHH", 0, 41, size, extended, version, flags, len(options)) + options


def query(name, qtype="A", ident=0x1234, flags=0x0100, extra=b"", qclass=1, count=None):
    """A query; `extra` stands in its additional section, one record if nothing else is said."""
    number = TYPES.get(qtype, qtype)
    count = (1 if extra else 0) if count is None else count
    head, question = struct.pack(">6H", ident, flags, 1, 0, 0, count), name_octets(name)
    return head + question + struct.pack(">HH", number, qclass) + extra


def frame(message):
    return struct.pack(">H", len(message)) + message


def family_of(address):
    return socket.AF_INET6 if ":" in address else socket.AF_INET


def datagram_socket(where, timeout=4.0):
    it = socket.socket(family_of(where[0]), socket.SOCK_DGRAM)
    it.setsockopt(socket.SOL_SOCKET, socket.SO_RCVBUF, 1 << 20)
    it.settimeout(timeout)
    it.connect(where)
    return it


def stream_socket(where, timeout=4.0):
    it = socket.create_connection(where, timeout)
    it.setsockopt(socket.IPPROTO_TCP, socket.TCP_NODELAY, 1)
    return it


def read_octets(it, count):
    """So many octets, or fewer where the other side closed."""
    parts = b""
    while len(parts) < count:
        try:
            piece = it.recv(count - len(parts))
        except ConnectionResetError:
            return parts
        if not piece:
            return parts
        parts += piece
    return parts


def read_frame(it):
    """The next message of a stream; None where it was closed before a whole one."""
    head = read_octets(it, 2)
    if len(head) < 2:
        return None
    size = struct.unpack(">H", head)[0]
    message = read_octets(it, size)
    return message if len(message) == size else None


def ask_udp(where, message, timeout=4.0, tries=1):
    """The answer, or None. Answers with another ID are passed over."""
    with datagram_socket(where, timeout) as it:
        for _ in range(tries):
            it.send(message)
            end = time.monotonic() + timeout
            while time.monotonic() < end:
                try:
                    answer = it.recv(65535)
                except (TimeoutError, socket.timeout, ConnectionRefusedError):
                    break
                if answer[:2] == message[:2]:
                    return answer
    return None


def ask_tcp(where, message, timeout=4.0):
    try:
        with stream_socket(where, timeout) as it:
            it.sendall(frame(message))
            return read_frame(it)
    except (OSError, TimeoutError):
        return None


def ask(kind, where, message, timeout=4.0):
    return ask_udp(where, message, timeout) if kind == "udp" else ask_tcp(where, message, timeout)


def ask_console(where, *lines, timeout=10.0):
    """What a console answers to lines, by one connection: a line to each."""
    answers = []
    with socket.create_connection(where, timeout) as it, it.makefile("rb") as coming:
        for line in lines:
            it.sendall(line.encode() + b"\n")
            answers.append(coming.readline().decode().rstrip("\n"))
    return answers


def past_name(message, place):
    while message[place]:
        if message[place] >= 192:
            return place + 2
        place += 1 + message[place]
    return place + 1


def records(message):
    """(type, place of TTL, TTL, place of data, length of data) of each record."""
    counts = struct.unpack(">4H", message[4:12])
    place = 12
    for _ in range(counts[0]):
        place = past_name(message, place) + 4
    found = []
    for _ in range(sum(counts[1:])):
        place = past_name(message, place)
        kind, _, ttl, length = struct.unpack(">HHIH", message[place : place + 10])
        found.append((kind, place + 4, ttl, place + 10, length))
        place += 10 + length
    return found


def without_server_cookie(message):
    """The message with the server's half of a cookie blanked: it has the server's clock in it."""
    octets = bytearray(message)
    try:
        for kind, _, _, place, length in records(message):
            end = place + length
            while kind == 41 and place + 4 <= end:
                code, size = struct.unpack(">HH", message[place : place + 4])
                if code == 10 and size > 8:
                    octets[place + 12 : place + 4 + size] = bytes(size - 8)
                place += 4 + size
    except (IndexError, struct.error):
        return message
    return bytes(octets)


def aged_by(first, later):
    """By how many seconds each TTL of `later` is lower than that of `first`.

    It is None if more differs than these and the ID.
    """
    try:
        old, new = records(first), records(later)
    except (IndexError, struct.error):
        return None
    blank_first, blank_later, falls = bytearray(first), bytearray(later), set()
    if len(old) != len(new) or len(first) != len(later):
        return None
    for (kind, at, ttl, _, _), (_, there, ttl_later, _, _) in zip(old, new):
        if kind != 41:
            falls.add(ttl - ttl_later)
            blank_first[at : at + 4] = blank_later[there : there + 4] = bytes(4)
    if blank_first[2:] != blank_later[2:] or len(falls) > 1:
        return None
    return falls.pop() if falls else 0


def brief(octets):
    """A message as it is told at a failure."""
    if octets is None:
        return "nothing"
    return f"{octets[:48].hex()}{'..' if len(octets) > 48 else ''} ({len(octets)} octets)"


def difference(expected, got):
    """What is wrong with an answer: nothing, or both messages and the first octet that differs."""
    if expected == got:
        return ""
    told = f"expected {brief(expected)}, got {brief(got)}"
    if None in (expected, got):
        return told
    pairs = enumerate(zip(expected, got))
    first = next((place for place, (a, b) in pairs if a != b), min(len(expected), len(got)))
    return f"{told}, first at octet {first}"


# A balancer.

class Balancer:
    """`lb serve` over lines of a setup file, or dnsdist over the same.

    `listen` lines stand among them; `console` is a port, or None. `switches` are put into the
    environment.
    """

    def __init__(
        self, children, name, lines, program, dry=False, console=None, limit=None, switches=None,
    ):  # fmt: skip
        self.children, self.name, self.dry = children, name, dry
        self.console_at = ("127.0.0.1", console) if console else None
        self.closed = None
        if dry:
            path = children.write(f"{name}.lua", dnsdist_of(lines))
            words = ["dnsdist", "--supervised", "--disable-syslog", "-C", path]
        else:
            path = children.write(f"{name}.conf", "".join(f"{line}\n" for line in lines))
            words = [program, "serve", path]
        if limit:
            words = ["sh", "-c", f'ulimit -n {limit} && exec "$@"', "sh", *words]
        begun = time.monotonic()
        self.errors = open(children.path(f"{name}.err"), "wb")
        environment = {**os.environ, **(switches or {})}
        self.child = children.start(
            words, name, stdout=subprocess.PIPE, stderr=self.errors, env=environment
        )
        self.output = b""
        if dry:
            self.wait_for_dnsdist(lines)
        else:
            self.wait_for_ready()
        self.ready_after = time.monotonic() - begun
        self.reader = threading.Thread(target=self.read_rest, daemon=True)
        self.reader.start()

    @property
    def pid(self):
        return self.child.pid

    def told(self):
        with open(self.children.path(f"{self.name}.err"), encoding="utf-8", errors="replace") as it:
            return it.read().strip()

    def wait_for_ready(self):
        end = time.monotonic() + 20
        while not self.output.endswith(b"\n"):
            if not select.select([self.child.stdout], [], [], max(0, end - time.monotonic()))[0]:
                wrote = f"it wrote {self.output!r}, and on standard error {self.told()!r}"
                sys.exit(f"{self.name}: no line `ready` in 20 s; {wrote}")
            octet = os.read(self.child.stdout.fileno(), 1)
            if not octet:
                status = self.child.wait(timeout=5)
                how = f"ended with status {status} before `ready`"
                sys.exit(f"{self.name}: {how}; on standard error: {self.told()!r}")
            self.output += octet
        if self.output != b"ready\n":
            sys.exit(f"{self.name}: the first line is {self.output!r}, and not `ready`")

    def wait_for_dnsdist(self, lines):
        setup = map(grammar.setup_of, lines)
        ports = [given[1:] for word, given in setup if word == "listen" and given[0] == "tcp"]
        end = time.monotonic() + 20
        while time.monotonic() < end:
            if self.child.poll() is not None:
                status = self.child.returncode
                sys.exit(f"{self.name}: dnsdist ended with status {status}: {self.told()!r}")
            try:
                for address, port in ports:
                    socket.create_connection((str(ipaddress.ip_address(address)), port), 1).close()
                time.sleep(0.3)
                return
            except OSError:
                time.sleep(0.05)
        sys.exit(f"{self.name}: dnsdist does not serve")

    def read_rest(self):
        while piece := self.child.stdout.read1(4096):
            self.output += piece

    def is_running(self):
        return self.child.poll() is None

    def say(self, *lines, timeout=10.0):
        """The answers of the console, by one connection. In a dry run there are none."""
        if self.dry:
            return ["edited" for _ in lines]
        return ask_console(self.console_at, *lines, timeout=timeout)

    def show(self):
        """What `show` tells, by its words: rules, servers, pools, caches, outstanding, kept."""
        if self.dry:
            return {"outstanding": 0, "kept": 0, "rules": 0, "servers": 0, "pools": 0, "caches": 0}
        told = self.say("show")[0]
        words = told.split()
        if words[:1] != ["edited"] or len(words) != 13:
            raise AssertionError(f"`show` was answered {told!r}")
        return {word: int(number) for word, number in zip(words[1::2], words[2::2])}

    def stop(self, timeout=5.0):
        """Ends it by `stop`. What is wrong with how it ended, or nothing; N stands in `closed`."""
        if self.dry:
            self.children.end(self.child)
            self.closed = 1 << 62
            return ""
        begun = time.monotonic()
        try:
            said = self.say("stop", timeout=timeout)[0]
        except OSError as fault:
            return f"`stop` was not answered: {fault}; on standard error {self.told()!r}"
        try:
            status = self.child.wait(timeout=timeout)
        except subprocess.TimeoutExpired:
            return f"it runs on {timeout} s after `stop`, which was answered {said!r}"
        self.took = time.monotonic() - begun
        self.reader.join(5)
        last = self.output.decode(errors="replace").splitlines()[-1:]
        self.children.end(self.child)
        found = re.fullmatch(r"closed (\d+)", said)
        if status != 0 or not found or last != [said]:
            told = f"the console said {said!r}, the last line was {last}"
            return f"status {status}, {told}, standard error {self.told()!r}"
        self.closed = int(found[1])
        return ""

    def descriptors(self):
        return descriptors(self.pid)

    def resident(self):
        """KiB of memory that it holds."""
        return memory(self.pid)


def dnsdist_of(lines):
    """Lines of a setup file as dnsdist's configuration, as far as the tools use them."""
    out = [
        'setSecurityPollSuffix("")',
        'setACL({"0.0.0.0/0", "::/0"})',
        "setMaxTCPClientThreads(10)",
        "setMaxTCPConnectionsPerClient(0)",
        "addAction(OrRule({QTypeRule(252), QTypeRule(251)}), RCodeAction(5))",
    ]
    listens, rcodes = {}, {number: word for word, number in grammar.RCODES.items()}

    def named(pool):
        return f'"{"" if pool == "-" else pool}"'

    for line in lines:
        word, given = grammar.setup_of(line)
        if word == "listen" and given[0] in ("udp", "tcp"):
            listens[at(*given[1:])] = True
        elif word == "server_add":
            spec, of, end = given
            inside = ", ".join(map(named, of))
            out.append(
                f'newServer({{address="{at(*end)}", name="{spec["name"]}", pool={{{inside}}}, '
                f"sockets={spec['lanes']}}}):setUp()"
            )
        elif word == "cache_attach":
            pool, most, _, longest, _ = given
            cache = f"newPacketCache({most}, {{maxTTL={longest}}})"
            out.append(f"getPool({named(pool)}):setCache({cache})")
        elif word == "rule_add":
            place, term, (action, value) = given
            if place is not None or term.word != "suffix" or action not in ("pool", "rcode"):
                sys.exit(f"a dry run cannot say to dnsdist: {line}")
            names = ", ".join(f'"{b".".join(name).decode()}."' for name in term.value)
            if action == "rcode":
                does = f"RCodeAction(DNSRCode.{rcodes[value]})"
            else:
                does = f"PoolAction({named(value)})"
            out.append(f"addAction({{{names}}}, {does})")
    out[2:2] = [f'addLocal("{listen}", {{tcpListenQueueSize=2000}})' for listen in listens]
    return "\n".join(out) + "\n"


def at(address, port):
    """An address's octets and a port, as dnsdist writes them."""
    text = str(ipaddress.ip_address(address))
    return f"[{text}]:{port}" if ":" in text else f"{text}:{port}"


def write_nsd(children, name, ports, zones, more=""):
    """nsd's configuration: addresses with a port each, zones by their file."""
    lines = ["server:", *(f"    ip-address: {address}@{port}" for address, port in ports)]
    lines += [
        "    server-count: 1", '    username: ""', '    chroot: ""', '    database: ""',
        '    pidfile: ""', f'    zonesdir: "{children.folder}"',
        f'    zonelistfile: "{children.path(name + ".zones")}"',
        f'    xfrdfile: "{children.path(name + ".xfrd")}"', f'    xfrdir: "{children.folder}"',
        "    rrl-ratelimit: 0", "    rrl-whitelist-ratelimit: 0", "    tcp-count: 2000",
        "    minimal-responses: no", "    do-ip6: yes", more,
        "remote-control:", "    control-enable: no",
    ]  # fmt: skip
    for zone, file in zones.items():
        lines += [
            "zone:", f"    name: {zone}", f"    zonefile: {file}",
            "    provide-xfr: 127.0.0.1 NOKEY", "    provide-xfr: ::1 NOKEY",
        ]  # fmt: skip
    return children.write(f"{name}.conf", "\n".join(lines) + "\n")


def start_nsd(children, name, where, config):
    """Starts nsd and waits until it answers."""
    child = children.start(["nsd", "-d", "-c", config], name)
    end = time.monotonic() + 15
    while time.monotonic() < end:
        if child.poll() is not None:
            log = children.log(name)[-800:]
            sys.exit(f"{name}: nsd ended with status {child.returncode}: {log}")
        if ask_udp(where, query("version.bind", "TXT", qclass=3), 0.2):
            return child
    sys.exit(f"{name}: nsd does not answer: {children.log(name)[-800:]}")
