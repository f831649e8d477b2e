"""Says where the repository is, which crates it has in which order, and what each of them cites."""
import functools
import os
import re

TOP = os.path.dirname(os.path.dirname(os.path.dirname(os.path.realpath(__file__))))


@functools.cache
def uses():
    """The crates in the order of crates.txt, each with the libraries that it cites."""
    with open(f"{TOP}/crates.txt", encoding="utf-8") as it:
        lines = re.findall(r"^(\w+)(?: staticlib)?:(.*)", it.read(), re.M)
    return {name: cited.split() for name, cited in lines}


def order_of_crates():
    """The crates in the order of crates.txt."""
    return list(uses())
