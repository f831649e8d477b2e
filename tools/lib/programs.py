"""Compiles a program in C, and asks the system about programs that run."""
import os
import re
import subprocess
import sys


def compiled(compiler, source, path, *options):
    """Compiles a file of C, and ends this program with the compiler's words if it fails."""
    words = [compiler, "-O2", "-o", path, source, *options]
    made = subprocess.run(words, capture_output=True, text=True, check=False)
    if made.returncode != 0:
        name = os.path.basename(source)
        sys.exit(f"{compiler} {name} ended with status {made.returncode}: {made.stderr}")
    return path


def processor_time(pid):
    """Nanoseconds that all threads of a program ran."""
    total = 0
    for thread in os.listdir(f"/proc/{pid}/task"):
        try:
            with open(f"/proc/{pid}/task/{thread}/schedstat", encoding="ascii") as it:
                total += int(it.read().split()[0])
        except FileNotFoundError:
            pass
    return total


def memory(pid, what="VmRSS"):
    """KiB of memory that a program holds, or of another line of its status (proc(5))."""
    with open(f"/proc/{pid}/status", encoding="ascii", errors="replace") as it:
        return int(re.search(rf"^{what}:\s+(\d+) kB", it.read(), re.M)[1])


def datagram_counters():
    """The kernel's counters of datagrams, of all sockets of this network."""
    with open("/proc/net/snmp", encoding="ascii") as it:
        heads, numbers = [line.split()[1:] for line in it if line.startswith("Udp:")]
    return dict(zip(heads, map(int, numbers)))


def descriptors(pid):
    """How many descriptors a program has."""
    return len(os.listdir(f"/proc/{pid}/fd"))


def threads(pid):
    """How many threads a program has."""
    return len(os.listdir(f"/proc/{pid}/task"))
