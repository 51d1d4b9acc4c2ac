"""The program vcs_check: one process a question, within limits, and ended when the run is."""

import argparse
import concurrent.futures
import contextlib
import os
import signal
import subprocess
import threading
from collections.abc import Callable, Iterator, Sequence
from typing import Any, NamedTuple, Self, TypeVar

from votmeshaw import command
from votmeshaw.command import Stop, signals_held
from votmeshaw.guard import Guard
from votmeshaw.names import readable
from votmeshaw.program import Program

It, Found = TypeVar("It"), TypeVar("Found")
# Starts a program with a limit on its memory, in kilobytes.
LIMITED = 'ulimit -v "$0" && exec "$@"'
# Has the program say why it refuses or fails. The file's name is at the beginning, and each movie comes on standard input.
EXPLAIN, NAME_OF_MOVIES = "--explain", "standard input: "
# The status of a movie that is refused. From the next one on it has no verdict, and says on standard error what is wrong.
REFUSED, ERRORS = 3, 4


class Refusal(Stop):
    """The program refuses a movie, and says as what."""

    def __init__(self, movie: str, answer: "Answer") -> None:
        super().__init__(f"{movie}: {answer.told}")
        self.movie, self.answer = movie, answer

    def members(self) -> dict[str, str]:
        refusal, _, reason = self.answer.told.removeprefix("refused: ").partition(": ")
        return {"verdict": "refused", "refusal": refusal, "file": self.movie} | ({"reason": reason} if reason else {})


class NoAnswer(Stop):
    """The program didn't answer; the text says why."""


class Answer(NamedTuple):
    """What the program said of one question."""

    status: int
    out: bytes
    err: bytes

    @property
    def is_error(self) -> bool:
        """Whether it says that it could do nothing, or was ended."""
        return not 0 <= self.status < ERRORS

    @property
    def line(self) -> str:
        """The first line: of an error that of standard error, else that of standard output."""
        return readable(os.fsdecode((self.err if self.is_error else self.out).partition(b"\n")[0]))

    @property
    def reason(self) -> str:
        """Why it refuses or fails: the lines of standard error, of an error those after its first. Nothing if it doesn't say."""
        lines = (readable(os.fsdecode(it)).strip() for it in self.err.split(b"\n")[1 if self.is_error else 0 :])
        return "; ".join(it.removeprefix(NAME_OF_MOVIES) for it in lines if it)

    @property
    def told(self) -> str:
        """The line with the reason behind it, or the status if there is no line."""
        return with_reason(self.line, self.reason) if self.line else f"the program {ended(self.status)}"


def ended(status: int) -> str:
    """How a process ended, by its status, which is below 0 if that was by a signal."""
    if status >= 0:
        return f"ended with status {status}"
    known = {int(it): it.name for it in signal.Signals}
    return "was ended by " + known.get(-status, f"signal {-status}")


def with_reason(line: str, reason: str) -> str:
    """A line, and behind it the reason if there is one."""
    return f"{line}: {reason}" if reason else line


def program_options(parser: argparse.ArgumentParser) -> None:
    """Adds the options that say which program is asked, and within which limits."""
    parser.add_argument("--program", default="vcs_check", metavar="PATH", help="the verifier (vcs_check on the path)")
    parser.add_argument("--timeout", type=command.seconds, metavar="SECONDS", help="how long one question to it may take (no limit)")
    parser.add_argument("--memory", type=command.number(1_000_000), metavar="MB", help="how much memory it may take (no limit)")


class Verifier:
    """The verifier, with limits of a question: seconds and megabytes, or none."""

    def __init__(self, path: str, timeout: float | None = None, memory: int | None = None) -> None:
        self.program, self.guard, self.timeout = Program(path), Guard(), timeout
        # The open files that each process gets.
        self.needs = (*self.program.needs, self.guard.mark)
        self.words = ["/bin/sh", "-c", LIMITED, str(memory * 1024), self.program.path] if memory else [self.program.path]
        self.lock, self.processes, self.is_stopped = threading.Lock(), set[subprocess.Popen[bytes]](), False
        try:
            said = self._version(EXPLAIN)
            # (one of before gives no reasons)
            self.explain: tuple[str, ...] = () if said.returncode else (EXPLAIN,)
            if said.returncode:
                said = self._version()
                said.check_returncode()
        except OSError as error:
            raise Stop(f"cannot run {path}: {error.strerror}") from None
        except subprocess.CalledProcessError as error:
            raise Stop(f"cannot run {path}: asked for its version it {ended(error.returncode)}") from None
        except subprocess.TimeoutExpired:
            raise Stop(f"cannot run {path}: no answer to --version within {timeout:g} s") from None
        self.version = said.stdout.decode(errors="replace").strip()

    def _version(self, *words: str) -> subprocess.CompletedProcess[bytes]:
        """What the program says of its version."""
        line = [self.program.path, "--version", *words]
        return subprocess.run(line, stdin=subprocess.DEVNULL, capture_output=True, pass_fds=self.needs, timeout=self.timeout)

    def answer(self, movie: bytes, *words: str) -> Answer:
        """The answer to a question, whose movie is '-': these bytes come on standard input."""
        # (one pipe alone is read to its end, and costs less than two that are read by turns)
        with os.fdopen(os.memfd_create("errors"), "w+b", buffering=0) as errors:
            with self.running(movie, *words, stderr=errors) as process:
                out, _ = process.communicate()
            errors.seek(0)
            return Answer(process.returncode, out, errors.read())

    @contextlib.contextmanager
    def running(self, movie: bytes, *words: str, **how: Any) -> Iterator[subprocess.Popen[bytes]]:
        """The process of a question, whose movie is on standard input. However this is left, it has ended then; NoAnswer if that
        was for its time, or if another program answered."""
        started: list[subprocess.Popen[bytes]] = []
        is_late = threading.Event()
        timer = threading.Timer(self.timeout or 0, lambda: (is_late.set(), self._end(started[0])))
        try:
            self._start(started, movie, words, how)
            if self.timeout:
                timer.start()
            yield started[0]
        except Exception:
            if not is_late.is_set():
                raise
        finally:
            timer.cancel()
            for process in started:
                self._end(process)
                process.wait()
                for pipe in filter(None, (process.stdout, process.stderr)):
                    pipe.close()
                with self.lock:
                    self.processes.discard(process)
        if is_late.is_set():
            raise NoAnswer(f"no answer within {self.timeout:g} s")
        if not self.program.is_same():
            raise NoAnswer("the program was replaced during the run")

    def _start(self, started: list[subprocess.Popen[bytes]], movie: bytes, words: tuple[str, ...], how: dict[str, Any]) -> None:
        """Starts a process, in a group of its own, and puts it in this list, even where a signal came meanwhile. It reads the movie
        from a file in memory, so no file is left, and no pipe is full."""
        with os.fdopen(os.memfd_create("movie"), "w+b") as file:
            file.write(movie)
            file.seek(0)
            pipes = {"stdin": file, "stdout": subprocess.PIPE, "stderr": subprocess.PIPE, **how}
            pipes["pass_fds"] = (*how.get("pass_fds", ()), *self.needs)
            with signals_held(), self.lock:
                if self.is_stopped:
                    raise NoAnswer("the run ends")
                started.append(subprocess.Popen([*self.words, *words, *self.explain], process_group=0, **pipes))
                self.processes.add(started[0])

    @classmethod
    def asked_for(cls, asked: argparse.Namespace) -> Self:
        """The one that the command line names, within its limits."""
        return cls(asked.program, asked.timeout, asked.memory)

    def side_by_side(self, work: Callable[[It], Found], items: Sequence[It]) -> Iterator[tuple[It, Found]]:
        """Does work that asks the program, for as many items at once as there are processors: each in its order, with what was found.
        If not all of them are wanted, the run ends."""
        with concurrent.futures.ThreadPoolExecutor(len(os.sched_getaffinity(0))) as pool:
            try:
                yield from zip(items, pool.map(work, items))
            except BaseException:
                self.stop()
                raise

    def stop(self) -> None:
        """Ends what runs, and starts no more."""
        with self.lock:
            self.is_stopped = True
            for process in self.processes:
                self._end(process)

    @staticmethod
    def _end(process: subprocess.Popen[bytes]) -> None:
        """Ends a process, with those that it started."""
        if process.returncode is None:  # (so nobody else has its number)
            with contextlib.suppress(ProcessLookupError):
                os.killpg(process.pid, signal.SIGKILL)
