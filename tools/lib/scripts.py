"""Loads a script as a module, one of tools/ or the command of the toolchain."""
import importlib.machinery
import importlib.util
import os
import shutil
import sys
import threading

from repository import TOP


def loaded(name, path):
    """The script at a path, as a module with this name."""
    loader = importlib.machinery.SourceFileLoader(name.replace("-", "_"), os.path.realpath(path))
    module = importlib.util.module_from_spec(importlib.util.spec_from_loader(loader.name, loader))
    # dataclasses look their module up there
    sys.modules[loader.name] = module
    loader.exec_module(module)
    return module


def load(name):
    """The script tools/NAME, where NAME has its folder, as gate/reference."""
    return loaded(os.path.basename(name), f"{TOP}/tools/{name}")


def sum_each_once(crates):
    """Has crates of rt make the sum of each crate below once, for each sum that is asked for.

    A crate's sum is of its files and of the sums of the crates that it cites. The toolchain's rt
    makes these anew on each way down: lb_program_serve has 23,760 of them, which take two minutes.
    """
    stamp, asked = crates.stamp, threading.local()

    def sum_of(crate):
        known = getattr(asked, "known", None)
        if known is None:
            asked.known = {}
            try:
                return stamp(crate)
            finally:
                asked.known = None
        if crate.name not in known:
            known[crate.name] = stamp(crate)
        return known[crate.name]

    crates.stamp = sum_of


def load_rt(names, of_rtlib=()):
    """The toolchain's rt, or None if there is none, and which of these names it and its rtlib lack.

    It promises none of them, so whoever uses one says what to do when it is missing.
    """
    path = shutil.which("rt")
    if not path:
        return None, []
    rt = loaded("rt", path)
    crates = getattr(getattr(rt, "rtlib", None), "Crate", None)
    if hasattr(crates, "stamp"):
        sum_each_once(crates)
    lacking = [it for it in names if not hasattr(rt, it)]
    lacking += [it for it in of_rtlib if not hasattr(getattr(rt, "rtlib", None), it)]
    return rt, lacking
