"""By how many frames a run has to be shifted, so that it agrees with a memory log of another emulator for the longest time."""

import itertools
import os
import pathlib
import re
from typing import NamedTuple

from votmeshaw import files, memory_logs
from votmeshaw.command import Stop
from votmeshaw.importing import cartridges, making, runs
from votmeshaw.importing.making import Game
from votmeshaw.importing.runs import Refused, Run
from votmeshaw.layout import NoMovie, Parts
from votmeshaw.memory_logs import Frames
from votmeshaw.names import readable
from votmeshaw.progress import Progress
from votmeshaw.verifier import Verifier

# How far a run is shifted, and how far the log's numbers of frames may be from those here.
REACH = 10
# How many frames are compared: as many as a movie can have checkpoints.
LOOKED_AT = 4095
FAULT = re.compile(r"fault at frame (\d+)")
# Where a state's record has the memory (docs/MOVIE_FORMAT.md).
MEMORY = slice(7, 7 + 128)


class Agreement(NamedTuple):
    """How many frames of a log have the memory that the run has, if it is shifted so; the first of them, and its number here."""

    frames: int
    shift: int
    first: int
    here: int

    def rank(self) -> tuple[int, int, int]:
        """What is better is greater: more frames, then less of a shift, then numbers that are shifted with the run."""
        return self.frames, -abs(self.shift), -abs(self.here - self.first - self.shift)


def memory_log(name: str, game: bytes) -> Frames:
    """The first frames of a log; Stop if it is none, or of another game."""
    try:
        with open(files.opened(pathlib.Path(os.path.realpath(name)), os.O_RDONLY), "rb") as file:
            log = memory_logs.read(file)
    except memory_logs.BadLog as error:
        raise Stop(f"{readable(name)}: {error}") from None
    if log.cartridge and not cartridges.is_of(game, log.cartridge.digits):
        raise Stop(f"{readable(name)} is of another game than GAME: its {log.cartridge.kind} is {log.cartridge.digits}")
    return dict(itertools.islice(log.frames.items(), LOOKED_AT))


def shifted(run: Run, by: int) -> runs.Frames:
    """A run's frames with so many frames without input before them, or with so many taken away at the start."""
    frames, away = runs.Frames(), max(-by, 0)
    if by > 0:
        frames.add(run.switches, by)
    for count, held in run.frames.stretches:
        taken = min(away, count)
        away -= taken
        if count > taken:
            frames.add(held, count - taken)
    return frames


def _first(frames: runs.Frames, most: int) -> runs.Frames:
    """The first frames, and at most so many."""
    found = runs.Frames()
    for count, held in frames.stretches:
        if count := min(count, most - found.count):
            found.add(held, count)
    return found


def memories(verifier: Verifier, game: Game, frames: runs.Frames, most: int) -> list[bytes]:
    """The memory after each of the first frames, at most so many, up to a fault."""
    frames = _first(frames, min(most, LOOKED_AT))
    while frames.count:
        made = making.made(verifier, game, frames, 1)
        if made.movie is not None:
            return _claimed(made.movie)
        if not (fault := FAULT.match(made.line)):
            raise Refused(made.line)
        frames = _first(frames, int(fault[1]) - 1)
    return []


def _claimed(movie: bytes) -> list[bytes]:
    """The memory that each checkpoint of a movie claims; Stop if its version isn't known here."""
    try:
        return [record[MEMORY] for _, record in Parts.of(movie).checkpoints]
    except NoMovie as error:
        raise Stop(f"the movie that vcs_check makes {error}") from None


def agreement(log: Frames, ours: list[bytes], shift: int, offset: int) -> Agreement:
    """The longest stretch of a log's frames that agree, where its frame k is frame k + offset here."""
    best, begin, before = Agreement(0, shift, 0, 0), 0, None
    for number, memory in log.items():
        is_equal = 1 <= number + offset <= len(ours) and ours[number + offset - 1] == memory
        if not is_equal or before != number - 1:
            begin = number
        before = number if is_equal else None
        if is_equal and number - begin + 1 > best.frames:
            best = Agreement(number - begin + 1, shift, begin, begin + offset)
    return best


def aligned(verifier: Verifier, game: Game, run: Run, log: Frames) -> list[Agreement]:
    """The best agreement of each shift, the best first; Refused if there is none at all."""
    def best(shift: int) -> Agreement:
        ours = memories(verifier, game, shifted(run, shift), max(log) + REACH)
        return max((agreement(log, ours, shift, it) for it in range(-REACH, REACH + 1)), key=Agreement.rank)
    found, shifts = [], range(max(-REACH, 1 - run.frames.count), REACH + 1)
    with Progress() as progress:
        for _, it in verifier.side_by_side(best, shifts):
            found.append(it)
            progress.say(f"{len(found)} of {len(shifts)} shifts tried")
    found.sort(key=Agreement.rank, reverse=True)
    if not found[0].frames:
        raise Refused(f"with no shift from {-REACH} to {REACH} a frame of the log has the memory that it has here")
    return found
