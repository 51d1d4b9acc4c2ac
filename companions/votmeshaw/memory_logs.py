"""Memory logs: what memory held at the end of each frame. A log is a text with a line a frame: the frame's number, and the bytes
at 80 to FF as 256 hexadecimal digits. From # on a line is a comment.

Two of them are laid beside each other under a shift: shift 2 says that frame 3 of the log is frame 1 of the run.
"""

from __future__ import annotations

import itertools
import re
from collections.abc import Iterable, Iterator, Mapping
from typing import BinaryIO, NamedTuple

# The memory of each frame, by the frame's number.
Frames = Mapping[int, bytes]

SIZE = 128
# More lines than any movie has frames, and more bytes than a line needs.
MOST_LINES = 1_000_000
LONGEST_LINE = 4096
LINE = re.compile(rb"[ \t]*([0-9]{1,7})[ \t]+([0-9A-Fa-f]{256})[ \t\r]*\n?")
CARTRIDGE = re.compile(rb"#[ \t]*cartridge (crc32|md5|sha1|sha256) ([0-9A-Fa-f]{8,64})[ \t\r]*\n?")
# Among how many shifts, how many of the log's frames and how many equal frames in a row the search looks.
MOST_SHIFT, SEARCHED, IN_A_ROW = 60, 600, 10
# What part of the bytes that aren't 0 in both has to agree where two logs are of one game.
OF_ONE_GAME = 0.25


class BadLog(Exception):
    """The file is no memory log; the text says where and why."""


class Digest(NamedTuple):
    """What a log says of its cartridge: the name of a digest, and its hexadecimal digits in small letters."""

    kind: str
    digits: str


class Log(NamedTuple):
    """A log: its frames in rising order, and of which cartridge it says that it is."""

    frames: dict[int, bytes]
    cartridge: Digest | None


class Fit(NamedTuple):
    """How two logs agree under a shift. Of two the lesser one fits better."""

    begins: float  # the log's frame from which on IN_A_ROW frames agree; infinity if there is none
    less_equal: int  # how many frames agree, less than 0
    less_bytes: int  # how many bytes that aren't 0 in both agree, less than 0
    distance: int
    shift: int
    compared: int  # frames
    bytes_compared: int  # those that aren't 0 in both

    def is_found(self) -> bool:
        """Whether so many frames in a row agree that this is no accident."""
        return self.begins != float("inf")

    def is_of_one_game(self) -> bool:
        """Whether the logs look as if they were of one game: enough of their bytes agree."""
        return self.is_found() or -self.less_bytes >= OF_ONE_GAME * self.bytes_compared


def _excerpt(line: bytes) -> str:
    """The beginning of a line that can't be read."""
    text = line.rstrip(b"\r\n")
    return ascii(text[:24].decode("latin-1")) + (".." if len(text) > 24 else "")


def read(file: BinaryIO) -> Log:
    """Reads a log to its end; BadLog if it isn't one."""
    frames: dict[int, bytes] = {}
    cartridge, last = None, 0
    for number in itertools.count(1):
        line = file.readline(LONGEST_LINE)
        if not line:
            break
        if number > MOST_LINES:
            raise BadLog(f"more than {MOST_LINES} lines")
        if number == 1 and line.startswith(b"A26M"):
            raise BadLog("a movie, and no memory log")
        if len(line) == LONGEST_LINE:
            raise BadLog(f"line {number}: longer than a line of a log, which has a number and 256 hexadecimal digits")
        if found := LINE.fullmatch(line):
            frame = int(found[1])
            if frame <= last:
                raise BadLog(f"line {number}: frame {frame} stands after frame {last}" if last else f"line {number}: frames count from 1")
            frames[frame], last = bytes.fromhex(found[2].decode()), frame
        elif said := CARTRIDGE.fullmatch(line):
            cartridge = Digest(said[1].decode(), said[2].decode().lower())
        elif line.strip() and not line.lstrip().startswith(b"#"):
            raise BadLog(f"line {number}: expected a frame's number and 256 hexadecimal digits, found {_excerpt(line)}")
    if not frames:
        raise BadLog("no frame in it")
    return Log(frames, cartridge)


def pairs(run: Frames, log: Frames, shift: int) -> Iterator[tuple[int, bytes, bytes]]:
    """The frames that both have, by their number in the run, with the memory of both."""
    return ((frame - shift, run[frame - shift], memory) for frame, memory in log.items() if frame - shift in run)


def _begin_of_stretch(equal: Iterable[int]) -> float:
    """The first of IN_A_ROW frames in a row among these."""
    begin = before = -1
    for frame in equal:
        begin = begin if frame == before + 1 else frame
        before = frame
        if frame - begin == IN_A_ROW - 1:
            return begin
    return float("inf")


def fit(run: Frames, log: Frames, shift: int) -> Fit:
    """How the two agree under a shift."""
    equal, compared, same, shown = [], 0, 0, 0
    for frame, here, there in pairs(run, log, shift):
        compared += 1
        if here == there:
            equal.append(frame + shift)
        one, other = int.from_bytes(here), int.from_bytes(there)
        empty = (one | other).to_bytes(SIZE).count(0)
        same, shown = same + (one ^ other).to_bytes(SIZE).count(0) - empty, shown + SIZE - empty
    return Fit(_begin_of_stretch(equal), -len(equal), -same, abs(shift), shift, compared, shown)


def best_fit(run: Frames, log: Frames) -> Fit:
    """The shift under which the two agree earliest, and then in most frames; in its first frames, since after a desync another
    shift may fit more frames. Whoever asks looks at is_found and is_of_one_game, too."""
    beginning = dict(itertools.islice(log.items(), SEARCHED))
    return min(fit(run, beginning, shift) for shift in range(-MOST_SHIFT, MOST_SHIFT + 1))


def ranges(numbers: Iterable[int]) -> list[range]:
    """Rising numbers as stretches without a gap."""
    found: list[range] = []
    for number in numbers:
        if found and found[-1].stop == number:
            found[-1] = range(found[-1].start, number + 1)
        else:
            found.append(range(number, number + 1))
    return found
