"""What is asked of vcs_check: the movie of a run, its verdict, and how many lines its frames have."""

import pathlib
import re
import statistics
import tempfile
from typing import NamedTuple

from votmeshaw.command import Stop
from votmeshaw.importing.runs import Frames
from votmeshaw.verifier import Answer, NoAnswer, Verifier

# The status of a run that faults.
FAULTS = 2
# How many frames are looked at for their lines: those of a minute.
LOOKED_AT = 3600
CYCLES = re.compile(rb"^frame \d+: (\d+) cycles", re.M)
CYCLES_OF_A_LINE = 76
# Below, and from this many lines on, a frame isn't one of a television; between are NTSC (262) and PAL (312), which this parts, and which
# have so many lines more or less in games.
SHORTEST, PARTING, LONGEST = 240, 288, 325
NTSC, PAL, FEW = 262, 312, 4


class Game(NamedTuple):
    """A cartridge, and the name of its board; by the guide's rules it is on none."""

    data: bytes
    board: str = ""


class Made(NamedTuple):
    """What was made of a run: the movie, or none, the line that says so, and the reason why there is none."""

    movie: bytes | None
    line: str
    reason: str


def asked_of(verifier: Verifier, movie: bytes, *words: str) -> Answer:
    """The answer to a question; Stop if the program can't answer."""
    try:
        answer = verifier.answer(movie, *words)
    except NoAnswer as error:
        raise Stop(f"vcs_check {words[0]}: {error}") from None
    if answer.is_error:
        raise Stop(f"vcs_check {words[0]}: {answer.told}")
    return answer


def made(verifier: Verifier, game: Game, frames: Frames, every: int, to_the_end: bool = False, to_the_fault: bool = False) -> Made:
    """The movie of a game with these inputs, from power-on, with a checkpoint after each so many frames, and to the end after the last
    one too. Of a run that faults there is one to the fault, which ends with the frame that does."""
    with tempfile.TemporaryDirectory(prefix="vcs_import-") as folder:
        rom, inputs, movie = (pathlib.Path(folder, it) for it in ("game", "inputs", "movie"))
        rom.write_bytes(game.data)
        inputs.write_bytes(frames.text())
        end = [word for word, is_asked in (("--to-the-end", to_the_end), ("--to-the-fault", to_the_fault)) if is_asked]
        end += ["--board", game.board] if game.board else []
        answer = asked_of(verifier, b"", "make", str(rom), str(inputs), "--text", "--every", str(every), *end, "--out", str(movie))
        is_made = answer.status == 0 or (to_the_fault and answer.status == FAULTS)
        if is_made and not movie.exists():
            raise Stop("vcs_check make: no movie was made")
        return Made(movie.read_bytes() if is_made else None, answer.line, "" if is_made else answer.reason)


def verdict(verifier: Verifier, movie: bytes) -> tuple[bool, str]:
    """Whether a movie is genuine, and the line that says so."""
    answer = asked_of(verifier, movie, "verify", "-")
    return answer.status == 0, answer.line


def standard(verifier: Verifier, movie: bytes) -> str:
    """What the lines of a movie's frames say of the television that its game is for."""
    out = asked_of(verifier, movie, "frames", "-", "--count", str(LOOKED_AT)).out
    lines = round(statistics.median_low([int(it) for it in CYCLES.findall(out)] or [0]) / CYCLES_OF_A_LINE)
    if not SHORTEST <= lines < LONGEST:
        return f"{lines} lines a frame, which is neither NTSC ({NTSC}) nor PAL ({PAL})"
    if lines < PARTING:
        return f"{lines} lines a frame, " + ("as NTSC has" if abs(lines - NTSC) <= FEW else f"nearer to NTSC ({NTSC}) than to PAL ({PAL})")
    like = "as PAL has" if abs(lines - PAL) <= FEW else f"nearer to PAL ({PAL}) than to NTSC ({NTSC})"
    return f"{lines} lines a frame, {like}; the machine here has the colours and the time of NTSC"
