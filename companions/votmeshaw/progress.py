"""How far a run is that may take minutes, told on standard error."""

import sys
import time
from collections.abc import Callable
from typing import Self, TextIO

from votmeshaw.command import NAME

# After how many seconds the line of a terminal is written again, and after how many elsewhere a line more.
ON_TERMINAL, ELSEWHERE = 0.2, 60


class Progress:
    """On a terminal a line, which is written again at most five times a second and wiped at the end; elsewhere a line a minute."""

    def __init__(self, stream: TextIO | None = None, clock: Callable[[], float] = time.monotonic) -> None:
        self.stream, self.clock = stream or sys.stderr, clock
        self.is_terminal, self.told, self.width = self.stream.isatty(), clock(), 0

    def __enter__(self) -> Self:
        return self

    def __exit__(self, *_: object) -> None:
        if self.width:
            print(f"\r{' ' * self.width}\r", end="", file=self.stream, flush=True)

    def say(self, text: str) -> None:
        """Tells this, if it is time again."""
        if self.clock() - self.told < (ON_TERMINAL if self.is_terminal else ELSEWHERE):
            return
        self.told = self.clock()
        if self.is_terminal:
            print(f"\r{text:<{self.width}}", end="", file=self.stream, flush=True)
            self.width = len(text)
        else:
            print(f"{NAME}: {text}", file=self.stream, flush=True)
