"""Digests of what emulators gave, which are kept in its place: of a state, and of a picture."""

from __future__ import annotations

import zlib

import movies
import stella

SHOWN = {"A", "X", "Y", "S", "P", "PC", "collisions", "bank", "line cycle"} | movies.memory(bytes(128)).keys()


def of_state(numbers: dict[str, int]) -> str:
    """Four digits of what both emulators show of a state, as far as this one has it."""
    shown = [(name, number & sum(stella.FLAGS.values()) if name == "P" else number) for name, number in sorted(numbers.items())]
    return f"{zlib.crc32(repr([it for it in shown if it[0] in SHOWN and it != ('bank', 0)]).encode()) & 0xFFFF:04x}"


def of_picture(rows: list[bytes]) -> str:
    """Eight digits of a picture's rows."""
    return f"{zlib.crc32(b''.join(rows)):08x}"
