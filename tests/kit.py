"""The kit, as the repository's own scripts use it: its crates and how its command `rt` calls the prover for one of them.

`rt` keeps both in a module of its own, `rtlib`, which is read from the kit itself, so that what stands here are its words
and not a copy of them. `Crate(folder, top, known)` is a crate; `below()` are the repository's crates that it stands on."""

import importlib.machinery
import importlib.util
import os
import re
import shutil
import sys

# what a check was seen to take: 1.0 to 3.1 GB, and 4.3 of the program
BYTES_OF_A_CHECK = 2_200_000_000

sys.dont_write_bytecode = True


def kit_module():
    """The module `rtlib` of the kit whose `rt` is on the PATH."""
    command = shutil.which("rt")
    if not command:
        sys.exit("the kit isn't there: its command rt isn't on the PATH")
    file = os.path.join(os.path.dirname(os.path.realpath(command)), "rtlib.py")
    loader = importlib.machinery.SourceFileLoader("rtlib", file)
    made = importlib.util.module_from_spec(importlib.util.spec_from_loader("rtlib", loader))
    sys.modules["rtlib"] = made
    loader.exec_module(made)
    return made


rtlib = kit_module()


def crates(top):
    """The crates of the repository by their names, each behind those that it stands on."""
    found = sorted(rtlib.crates_below(top), key=lambda it: len(it.below()))
    return {it.name: it for it in found}


def side_by_side():
    """How many checks fit side by side: by the processors that this process may use, and by the free memory."""
    with open("/proc/meminfo", encoding="ascii") as it:
        free = 1024 * int(re.search(r"^MemAvailable:\s+(\d+)", it.read(), re.M)[1])
    return max(1, min(len(os.sched_getaffinity(0)), int(0.9 * free) // BYTES_OF_A_CHECK))


if __name__ == "__main__":
    print(side_by_side())
