"""The files that a command line names as its inputs."""

import os
import pathlib

from votmeshaw.command import Stop
from votmeshaw.names import readable


def called(path: str) -> str:
    """A path as a message has it."""
    return "standard input" if path == "-" else readable(path)


def read(path: str, longest: int) -> bytes:
    """The bytes of a file, or of standard input if it is called '-': no more than these."""
    with open(0 if path == "-" else path, "rb", closefd=path != "-") as file:
        data = file.read(longest + 1)
    if len(data) > longest:
        raise Stop(f"{called(path)}: longer than {longest:,} bytes")
    return data


def is_same(path: str, out: pathlib.Path) -> bool:
    """Whether an output is this input, by another name perhaps."""
    try:
        return os.path.samestat(os.fstat(0) if path == "-" else os.stat(path), out.stat())
    except OSError:
        return False
