"""The programs of this repository, built from proved sources."""

import os
import subprocess
import sys

HERE = os.path.dirname(os.path.abspath(__file__))
TOP = os.path.dirname(HERE)


def words(data):
    """The lines of a small text file, without empty ones and comments."""
    return [line for line in data.decode().splitlines() if line and not line.startswith("#")]


def built():
    """What heapreplay can do."""
    with open(os.path.join(HERE, "BUILT"), "rb") as file:
        return set(words(file.read()))


def is_newer(path, time):
    """Whether a file at the path, or in the folder there, is newer than the time."""
    if os.path.isfile(path):
        return os.path.getmtime(path) > time
    return any(os.path.getmtime(os.path.join(folder, name)) > time for folder, _, names in os.walk(path) for name in names)


def is_old(program):
    """Whether the program isn't there, or a source of any crate is newer."""
    if not os.path.exists(program):
        return True
    crates = os.path.join(TOP, "crates")
    sources = [os.path.join(crates, name, "src") for name in os.listdir(crates)] + [os.path.join(TOP, "crates.txt")]
    return any(is_newer(source, os.path.getmtime(program)) for source in sources)


def program(name):
    """The path of the program of this crate, which is proved and built where it isn't yet."""
    crate = os.path.join(TOP, "crates", name)
    path = os.path.join(crate, "out", name)
    if is_old(path):
        done = subprocess.run(["rt", "run"], cwd=crate, stdin=subprocess.DEVNULL, stdout=subprocess.PIPE,
                              stderr=subprocess.STDOUT)
        if done.returncode != 0:
            sys.stderr.buffer.write(done.stdout)
            sys.exit(f"conformance: {name} was not proved or not built")
    return path
