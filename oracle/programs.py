"""Where `rt run` leaves the programs that it proves and builds: they run as they are, on x86-64 Linux."""

import os

ROOT = os.path.dirname(os.path.dirname(os.path.abspath(__file__)))


def path_of(name):
    return os.path.join(ROOT, "crates", name, "out", name)
