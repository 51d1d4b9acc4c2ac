"""The memory of a movie's run at the end of each frame, as vcs_check gives it."""

from __future__ import annotations

import re

from votmeshaw.progress import Progress
from votmeshaw.verifier import Answer, Verifier

# What 'frames --memory' says of a frame: its number, and its memory at the end of the line.
FRAME = re.compile(rb"frame ([0-9]+): .*, memory ([0-9A-F]{256})\n")
FAULT = re.compile(rb"fault at frame ([0-9]+): .*")


class Refused(Exception):
    """There is no run: the text is what the program says, or what is wrong with its answer."""

    def __init__(self, text: str, answer: Answer | None = None) -> None:
        super().__init__(text)
        self.answer = answer


class Run(dict[int, bytes]):
    """The memory after each frame, by its number. If the run ended by a fault, its line and its frame."""

    fault: str | None = None
    fault_frame: int | None = None


def frame_memory(verifier: Verifier, movie: bytes, first: int = 1, count: int | None = None, progress: Progress | None = None) -> Run:
    """The memory after each frame from the first on."""
    words = ["frames", "-", "--memory", "--first", str(first), *(["--count", str(count)] if count is not None else [])]
    run, rest = Run(), b""
    with verifier.running(movie, *words) as process:
        for line in process.stdout or ():
            if told := FRAME.fullmatch(line):
                run[int(told[1])] = bytes.fromhex(told[2].decode())
                if progress:
                    progress.say(f"{int(told[1])} frames of the movie played")
            else:
                rest = line.rstrip()
        said = process.stderr.read() if process.stderr else b""
        answer = Answer(process.wait(), rest, said)
    if fault := FAULT.fullmatch(rest):
        run.fault, run.fault_frame = fault[0].decode(), int(fault[1])
    elif answer.status:
        raise Refused(answer.told, answer)
    return run
