"""What the program shows of a movie's run, read from pipes as it comes: pictures, and what is held."""

import contextlib
import fcntl
import os
import re
import subprocess
from collections.abc import Iterator
from typing import IO, NamedTuple

from votmeshaw.command import Stop
from votmeshaw.verifier import REFUSED, Answer, Refusal, Verifier, ended

# A picture's width in pixels, of three bytes each.
WIDTH = 160
ROW = 3 * WIDTH
HEAD = re.compile(rb"P6\n%d (\d{1,4})\n255\n" % WIDTH)
# A pipe that holds some pictures.
PIPE = 1 << 20
# The statuses of a run whose pictures are all there: it went to its end, or to its fault.
ENDED, FAULTED = 0, 2


class Run:
    """A run of a movie in the program: its pictures, and once they have ended the line of its fault, if it has one."""

    def __init__(self, process: subprocess.Popen[bytes], pipe: IO[bytes], movie: str) -> None:
        self.process, self.pipe, self.movie, self.fault = process, pipe, movie, ""

    def pictures(self) -> Iterator[bytes]:
        """The pixels of each picture, row after row. Stop if the program has no run."""
        while head := self.pipe.readline() + self.pipe.readline() + self.pipe.readline():
            found = HEAD.fullmatch(head)
            pixels = self.pipe.read(ROW * int(found[1])) if found else b""
            if not found or len(pixels) != ROW * int(found[1]):
                break
            yield pixels
        self.pipe.close()
        out, err = self.process.communicate()
        answer = Answer(self.process.returncode, out, err)
        if answer.status == REFUSED and not head:
            raise Refusal(self.movie, answer)
        if head or answer.status not in (ENDED, FAULTED):
            is_said = answer.line and answer.status > 0 and not head
            raise Stop(answer.told if is_said else f"the program {ended(answer.status)}, and no whole picture")
        self.fault = answer.line if answer.status == FAULTED else ""


@contextlib.contextmanager
def run_of(verifier: Verifier, movie: bytes, name: str, first: int, count: int | None) -> Iterator[Run]:
    """The run of so many frames of a movie from this one on, or of all. The program ends when this is left."""
    reader, writer = os.pipe()
    with open(reader, "rb", buffering=PIPE) as pipe, contextlib.ExitStack() as stack:
        try:
            with contextlib.suppress(OSError):  # (more than this user may have)
                fcntl.fcntl(reader, fcntl.F_SETPIPE_SZ, PIPE)
            words = ["pictures", "-", "--first", str(first), "--out", f"/dev/fd/{writer}"]
            words += [] if count is None else ["--count", str(count)]
            process = stack.enter_context(verifier.running(movie, *words, pass_fds=(writer,)))
        finally:
            os.close(writer)
        yield Run(process, pipe, name)


def held_in(verifier: Verifier, movie: bytes, first: int) -> Iterator[tuple[str, ...]]:
    """The words for what is held in each frame from this one on."""
    skipped = first - 1
    with verifier.running(movie, "inputs", "-") as process:
        for line in process.stdout:
            frames, *words = line.decode().split()
            yield from (tuple(words) for _ in range(skipped, int(frames)))
            skipped = max(0, skipped - int(frames))


class Extent(NamedTuple):
    """What pictures have in common: how many there are, the first row in which any of them has a pixel that isn't black, the one
    after the last, and the rows of the highest."""

    frames: int
    first: int
    end: int
    rows: int

    def whole(self) -> "Extent":
        """The same with each row."""
        return self._replace(first=0, end=self.rows)


def extent_of(pictures: Iterator[bytes]) -> Extent:
    """The extent of these pictures: all rows, if all is black."""
    frames, first, end, rows = 0, 1 << 20, 0, 0
    for frames, pixels in enumerate(pictures, 1):
        rows = max(rows, len(pixels) // ROW)
        if drawn := pixels.rstrip(b"\0"):
            first = min(first, (len(drawn) - len(drawn.lstrip(b"\0"))) // ROW)
            end = max(end, -(-len(drawn) // ROW))
    return Extent(frames, first, end, rows) if first < end else Extent(frames, 0, rows, rows)
