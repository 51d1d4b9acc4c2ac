"""What may have a run go another way than in another emulator: by the guide's rules habits of its game, which are looked for; by the
chip's what has to be the same."""

import pathlib
import re
import tempfile
from collections.abc import Iterator

from votmeshaw.habits import Habit, Habits
from votmeshaw.importing import boards
from votmeshaw.importing.making import LOOKED_AT, asked_of
from votmeshaw.verifier import Verifier

# What Stella does as well, and others perhaps don't.
MAY_DIFFER = (
    "memory and registers at power-on, which are 0 here, and the bank that is selected then",
    "what an emulator does otherwise than Stella 6.7, after which these rules were made",
)
# At how many places of a run's first minute it is looked at, and how many frames there.
PLACES, FRAMES = 12, 5
WRITE = re.compile(rb"write ([0-9A-F]{4}) ")


def places(frames: int) -> list[int]:
    """The first frames of these places."""
    looked_at = min(frames, LOOKED_AT)
    return sorted({1 + place * looked_at // PLACES for place in range(PLACES)})


def pieces(verifier: Verifier, movie: bytes, frames: int) -> Iterator[tuple[int, int, bytes]]:
    """Stretches of a run as movies of their own, each with the number of its first frame, and how many it has."""
    with tempfile.TemporaryDirectory(prefix="vcs_import-") as folder:
        piece = pathlib.Path(folder, "piece")
        for first in places(frames):
            count = min(FRAMES, frames - first + 1)
            asked_of(verifier, movie, "cut", "-", "--first", str(first), "--count", str(count), "--every", str(count), "--out", str(piece))
            yield first, count, piece.read_bytes()


def habits(verifier: Verifier, movie: bytes, frames: int) -> dict[Habit, int]:
    """The habits that are found, each with a frame that has it."""
    found: dict[Habit, int] = {}
    for first, count, piece in pieces(verifier, movie, frames):
        looked = Habits()
        for frame in range(count):
            out = asked_of(verifier, piece, "trace", "-", "--frame", str(frame + 1)).out
            looked.look(first + frame, out.decode("utf-8", "backslashreplace").splitlines())
        found = looked.first | found
    return found


def lost_write(verifier: Verifier, movie: bytes, frames: int, board: str) -> str:
    """A write of the game to where its board has nothing to write, and the frame; an empty text if none is found."""
    for frame in places(frames) if board in boards.PLAIN.values() else ():
        trace = asked_of(verifier, movie, "trace", "-", "--frame", str(frame)).out
        for address in map(bytes.decode, WRITE.findall(trace)):
            if boards.is_lost(board, int(address, 16)):
                return f"{address} in frame {frame}"
    return ""
