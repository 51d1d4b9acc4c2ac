"""A process that ends the verifiers of a run that was ended itself, by whatever signal: SIGKILL leaves a run no time to do so."""

import contextlib
import os
import signal
import time
from collections.abc import Iterator

PROCESSES = "/proc"


class Guard:
    """The end of a pipe to a process that waits. The system closes it when the run ends, however it does; then the process ends what
    has the pipe's other end, and itself. Each process that the run starts gets that end, before it is one that could be left."""

    def __init__(self) -> None:
        self.mark, self.end = os.pipe()
        if os.fork() == 0:
            try:
                _wait(self.mark)
            finally:
                os._exit(0)


def _wait(mark: int) -> None:
    """What the process does. It keeps no file of the run open, nor the folder in which the run began, whose disk may be unmounted once
    the run has ended; and what ends the run's group doesn't end it."""
    os.setsid()
    os.chdir("/")
    for it in (signal.SIGINT, signal.SIGTERM, signal.SIGHUP):
        signal.signal(it, signal.SIG_IGN)
    os.dup2(mark, 0)
    for descriptor in map(int, os.listdir(f"{PROCESSES}/self/fd")):
        with contextlib.suppress(OSError):  # (that of the list is closed)
            if descriptor:
                os.close(descriptor)
    os.read(0, 1)
    # (each may have started another one meanwhile)
    while found := list(_marked(os.readlink(f"{PROCESSES}/self/fd/0"))):
        for process in found:
            _end(process)
        time.sleep(0.01)


def _marked(mark: str) -> Iterator[int]:
    """The numbers of the other processes that have this pipe."""
    for process in map(int, filter(str.isdecimal, os.listdir(PROCESSES))):
        with contextlib.suppress(OSError):  # (it has ended, or is somebody else's)
            folder = f"{PROCESSES}/{process}/fd"
            if process != os.getpid() and any(os.readlink(f"{folder}/{it}") == mark for it in os.listdir(folder)):
                yield process


def _end(process: int) -> None:
    """Ends a process, with its group if it leads one."""
    with contextlib.suppress(OSError):
        os.kill(process, signal.SIGKILL)
        os.killpg(process, signal.SIGKILL)
