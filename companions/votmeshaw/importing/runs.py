"""A run as it comes in: what is held in each frame, and what its file says besides."""

import dataclasses
import io
from collections.abc import Iterator
from typing import NamedTuple

from votmeshaw.facts import KINDS, NONE
from votmeshaw.layout import VERSIONS
from votmeshaw.names import printable

# What docs/MOVIE_FORMAT.md calls the keys that can be held, in the order in which 'vcs_check inputs' prints them.
KEYS = (*(f"{it}{port}" for port in (0, 1) for it in ("up", "down", "left", "right", "fire")), "reset", "select")
# The frames of the longest movie, and the bytes of the longest text that the program takes.
MOST_FRAMES = max(it.most_frames for it in VERSIONS)
LONGEST = 16_777_216
# The lines of a text: each may be a frame, and as many may be something else.
MOST_LINES = 2 * MOST_FRAMES


class Refused(Exception):
    """A run or a game doesn't come in; the text says why."""


class Switch(NamedTuple):
    """A switch of the console: the word with which it is held, its name, its two positions, and the option that says one."""

    word: str
    name: str
    off: str
    on: str
    option: str


SWITCHES = (
    Switch("monochrome", "colour switch", "colour", "black and white", "--monochrome"),
    Switch("pro0", "left difficulty", "B", "A", "--left-difficulty"),
    Switch("pro1", "right difficulty", "B", "A", "--right-difficulty"),
)
HELD = (*KEYS, *(it.word for it in SWITCHES))


class Stretch(NamedTuple):
    """Equal frames, one after another, and the words of what is held in each."""

    frames: int
    held: tuple[str, ...]


class Frames:
    """The frames of a run, which are added one after another."""

    def __init__(self) -> None:
        self.stretches: list[Stretch] = []
        self.count = 0

    def add(self, held: tuple[str, ...], frames: int = 1) -> None:
        """Adds equal frames; Refused beyond the longest movie."""
        self.count += frames
        if self.count > MOST_FRAMES:
            raise Refused(f"more than {MOST_FRAMES:,} frames, which is the longest movie")
        if self.stretches and self.stretches[-1].held == held:
            frames += self.stretches.pop().frames
        self.stretches.append(Stretch(frames, held))

    def text(self) -> bytes:
        """The frames as 'vcs_check make --text' reads them."""
        return "".join(f"{frames} {' '.join(held)}\n" for frames, held in self.stretches).encode()


class Notes:
    """What is said of a run and its game, a line each: printed at once, if it is, and kept for the text beside the movie; and at the
    end the lines that say what was made."""

    def __init__(self, is_printed: bool = True) -> None:
        self.is_printed = is_printed
        self.lines: list[str] = []
        self.ends: list[str] = []
        self.reason = ""

    def say(self, what: str, text: str) -> None:
        """Says a thing. Few words stand before the colon, so that a script finds its lines: 'carried', 'assumed' and the like."""
        self.lines.append(f"{what}: {text}")
        self._print(self.lines[-1])

    def end(self, line: str) -> None:
        """Says what was made of them, or why nothing was."""
        self.ends.append(line)
        self._print(line)

    def _print(self, line: str) -> None:
        if self.is_printed:
            print(line, flush=True)

    def members(self) -> dict[str, object]:
        """The same as members of an object."""
        parts = (line.partition(": ") for line in self.lines)
        verdict = next((it for it in KINDS if self.ends[-1].startswith(it)), NONE)
        said = {"verdict": verdict, "line": self.ends[-1], "notes": [{"kind": kind, "text": text} for kind, _, text in parts]}
        return said | ({"reason": self.reason} if self.reason else {})


@dataclasses.dataclass
class Run:
    """A run: its frames, the switches before the first of them, the digests of its game and its board where the file says them,
    and what a movie has no place for: what is named of it, and all of its texts by their names."""

    frames: Frames
    switches: tuple[str, ...] = ()
    digests: list[str] = dataclasses.field(default_factory=list)
    board: str = ""
    kept: list[str] = dataclasses.field(default_factory=list)
    texts: dict[str, str] = dataclasses.field(default_factory=dict)


def shown(text: str, most: int = 80) -> str:
    """A text of a stranger on one line, with escapes, and cut if it is long."""
    return printable(text if len(text) <= most else f"{text[:most]}..")


def quoted(data: bytes) -> str:
    """The beginning of what stands in a file, in quotes."""
    return f"'{shown(data[:80].decode('utf-8', 'backslashreplace'), 40)}'"


def numbered(data: bytes) -> Iterator[tuple[int, bytes]]:
    """The lines of a text with their numbers; Refused if they are too many to be a run."""
    if data.count(b"\n") > MOST_LINES:
        raise Refused(f"more than {MOST_LINES:,} lines")
    return enumerate(io.BytesIO(data), 1)


def spelled(held: set[str]) -> tuple[str, ...]:
    """What is held, in the order of HELD."""
    return tuple(it for it in HELD if it in held)


def switches_of(asked: dict[str, bool], said: dict[str, tuple[bool, str]], notes: Notes) -> tuple[str, ...]:
    """The switches that are held before the first frame: as they were asked for, else as the run's file says, which is told with the
    setting that says it, else none."""
    held = {it.word: asked.get(it.word, said.get(it.word, (False, ""))[0]) for it in SWITCHES}
    for it in SWITCHES:
        position = f"{it.name} at {it.on if held[it.word] else it.off}"
        if it.word in asked:
            notes.say("asked", position + (f", and the run says {said[it.word][1]}" if it.word in said else ""))
        elif it.word in said:
            notes.say("carried", f"{position}, for which {said[it.word][1]} is taken")
        else:
            notes.say("assumed", f"{position}, since the run doesn't say it; else {it.option}")
    return spelled({word for word, is_held in held.items() if is_held})
