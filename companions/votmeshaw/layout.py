"""The parts of a movie's bytes, by docs/MOVIE_FORMAT.md, and what differs between the format's versions."""

from collections.abc import Iterator
from typing import NamedTuple, Self

MAGIC = b"A26M"
# The bytes of numbers in the header and before a checkpoint's record, and of an input.
VERSION, COUNT, CHECKPOINTS, FRAME, INPUT = 2, 4, 2, 4, 3


class Board(NamedTuple):
    """A board: its name, the lengths of its cartridges, and the bytes that it adds to a state's record, of its banks and its RAM."""

    name: str
    lengths: tuple[int, ...]
    added: int


# By their codes (tests/boards compares them with the program).
BOARDS = (
    Board("2K", (2048,), 0), Board("4K", (4096,), 0), Board("F8", (8192,), 1), Board("F8SC", (8192,), 129), Board("F6", (16384,), 1),
    Board("F6SC", (16384,), 129), Board("F4", (32768,), 1), Board("F4SC", (32768,), 129), Board("FA", (12288,), 257), Board("E0", (8192,), 3),
    Board("3F", (8192, 16384, 32768, 65536, 131072, 262144, 524288), 1), Board("FE", (8192,), 2), Board("E7", (16384,), 2050),
    Board("UA", (8192,), 1), Board("CV", (2048,), 1024), Board("0840", (8192,), 1), Board("F0", (65536,), 1), Board("0FA0", (8192,), 1),
)


class Version(NamedTuple):
    """A version: its number, the bytes of a board's code and of the cartridge's length, those of a state's record without what a board
    adds, and how many frames a movie has at most. Movies that name a board are judged by the chip's rules, others by the guide's."""

    number: int
    board_bytes: int
    length_bytes: int
    record: int
    most_frames: int

    @property
    def length(self) -> slice:
        """Where a header has the cartridge's length."""
        at = len(MAGIC) + VERSION + self.board_bytes
        return slice(at, at + self.length_bytes)

    @property
    def header(self) -> int:
        """The bytes of a header."""
        return self.length.stop + COUNT + CHECKPOINTS


# (ci/command-table prints these rows of the format's definitions)
VERSIONS = (
    Version(number=1, board_bytes=0, length_bytes=2, record=187, most_frames=65535),
    Version(number=2, board_bytes=0, length_bytes=2, record=188, most_frames=262143),
    Version(number=3, board_bytes=1, length_bytes=4, record=206, most_frames=262143),
)


class NoMovie(Exception):
    """Bytes that have no such parts; the text says what they have."""


def version_of(movie: bytes) -> Version:
    """The version of a movie, by its header."""
    pieces = _Pieces(movie)
    magic, number = pieces.take(len(MAGIC)), pieces.number(VERSION)
    version = next((it for it in VERSIONS if it.number == number), None)
    if magic != MAGIC or not version:
        raise NoMovie(f"has version {number}, which isn't known here" if magic == MAGIC else f"begins with {magic.hex(' ').upper()}")
    return version


class Parts(NamedTuple):
    """The parts of a movie; each checkpoint is its frame's number and a record. The board is its code, or no byte."""

    version: Version
    board: bytes
    cartridge: bytes
    start: bytes
    inputs: bytes
    checkpoints: list[tuple[int, bytes]]

    @classmethod
    def of(cls, movie: bytes) -> Self:
        """Takes a movie apart. Whether it is one in all else is for the program to say."""
        version, pieces = version_of(movie), _Pieces(movie)
        pieces.take(len(MAGIC) + VERSION)
        board = pieces.take(version.board_bytes)
        if board and board[0] >= len(BOARDS):
            raise NoMovie(f"has board {board[0]}, which isn't known here")
        record = version.record + sum(BOARDS[it].added for it in board)
        length, frames, checkpoints = pieces.number(version.length_bytes), pieces.number(COUNT), pieces.number(CHECKPOINTS)
        cartridge, start, inputs = (pieces.take(it) for it in (length, record, INPUT * frames))
        claims = [(pieces.number(FRAME), pieces.take(record)) for _ in range(checkpoints)]
        if pieces.at < len(movie):
            raise NoMovie(f"has {len(movie)} bytes, and its last part ends at {pieces.at}")
        return cls(version, board, cartridge, start, inputs, claims)

    @property
    def frames(self) -> int:
        """How many frames it has."""
        return len(self.inputs) // INPUT

    def written(self) -> bytes:
        """Its bytes."""
        return b"".join(self._written())

    def _written(self) -> Iterator[bytes]:
        yield MAGIC + self.version.number.to_bytes(VERSION) + self.board
        yield len(self.cartridge).to_bytes(self.version.length_bytes) + self.frames.to_bytes(COUNT) + len(self.checkpoints).to_bytes(CHECKPOINTS)
        yield from (self.cartridge, self.start, self.inputs)
        yield from (frame.to_bytes(FRAME) + record for frame, record in self.checkpoints)


class _Pieces:
    """Bytes that are taken from the front."""

    def __init__(self, data: bytes) -> None:
        self.data, self.at = data, 0

    def take(self, count: int) -> bytes:
        """The next bytes; NoMovie if there are too few."""
        self.at += count
        if self.at > len(self.data):
            raise NoMovie(f"has {len(self.data)} bytes, and a part ends at {self.at}")
        return self.data[self.at - count : self.at]

    def number(self, count: int) -> int:
        """The next bytes as a number."""
        return int.from_bytes(self.take(count))
