"""The command line of a program: its name, its arguments, its messages, and how it ends."""

import argparse
import contextlib
import io
import json
import os
import pathlib
import re
import signal
import sys
import threading
from collections.abc import Callable, Iterator
from typing import Any, NoReturn

from votmeshaw import VERSION
from votmeshaw.names import printable, readable

# The name by which the program was called.
NAME = pathlib.Path(sys.argv[0]).name
# The status of a run that could do nothing, which is also that of wrong arguments.
NOTHING_DONE = 2
ENDING = (signal.SIGINT, signal.SIGTERM, signal.SIGHUP)
# What Python says where the system has no thread for it.
NO_THREAD = "can't start new thread"


class Stop(Exception):
    """Nothing can be done; the text says why."""

    def members(self) -> dict[str, str]:
        """The members of the object that says so, as the program has them of an error."""
        return {"error": str(self)}


class Ended(BaseException):
    """A signal, which is the argument, asks the run to end."""


def say(text: str) -> None:
    """Prints a message on standard error, on one line."""
    print(f"{NAME}: {printable(text)}", file=sys.stderr, flush=True)


class Parser(argparse.ArgumentParser):
    """What reads the arguments. A wrong one, which may be the name of a stranger's file, is shown with escapes, and help that can't
    be written is an error."""

    def print_help(self, file: Any = None) -> None:
        (file or sys.stdout).write(self.format_help())

    def error(self, message: str) -> NoReturn:
        super().error(printable(message))


class _Version(argparse.Action):
    """Prints the version, and ends; a version that can't be written is an error."""

    def __call__(self, parser: argparse.ArgumentParser, *_: object) -> NoReturn:
        print(f"{NAME} {VERSION}")
        parser.exit()


class _Json(argparse.Action):
    """Has objects printed, of what stops the run too."""

    is_on = False

    def __call__(self, _: argparse.ArgumentParser, asked: argparse.Namespace, *__: object) -> None:
        asked.json = _Json.is_on = True


def json_option(parser: argparse.ArgumentParser) -> None:
    """Adds the option that has objects printed."""
    parser.add_argument("--json", action=_Json, nargs=0, default=False, help="print one object of JSON on one line")


def parser(description: str | None) -> Parser:
    """What reads the arguments. The description, a module's docstring, is printed as it stands."""
    made = Parser(NAME, description=description, formatter_class=argparse.RawDescriptionHelpFormatter)
    made.add_argument("-V", "--version", action=_Version, nargs=0, help="print the version and exit")
    return made


def number(most: int) -> Callable[[str], int]:
    """Reads a number from 1 to this one."""
    def of(text: str) -> int:
        if not re.fullmatch("[0-9]{1,18}", text) or not 1 <= int(text) <= most:
            raise argparse.ArgumentTypeError(f"a number from 1 to {most}")
        return int(text)
    return of


def seconds(text: str) -> float:
    """Reads a number of seconds, which the system can wait."""
    if not re.fullmatch(r"[0-9]{1,7}(\.[0-9]+)?", text) or not 0 < float(text) <= 1_000_000:
        raise argparse.ArgumentTypeError("a number of seconds above 0, and at most 1000000")
    return float(text)


def reason(error: OSError) -> str:
    """What the system says, with the file of which it says it."""
    if error.strerror is None or error.filename is None:
        return error.strerror or str(error)
    return f"{readable(os.fsdecode(error.filename))}: {error.strerror}"


class _Held:
    """Whether a signal has to wait, and the one that does."""

    is_on = False
    number = 0


def _end(number: int, _: object) -> None:
    """What a signal does: it ends the run in its order. Another one changes nothing."""
    for it in ENDING:
        signal.signal(it, signal.SIG_IGN)
    if _Held.is_on:
        _Held.number = number
    else:
        raise Ended(number)


@contextlib.contextmanager
def signals_held() -> Iterator[None]:
    """Lets a signal wait until a block has ended, as while a process is started: one that is not known yet could not be ended."""
    if threading.current_thread() is not threading.main_thread():
        yield
        return
    _Held.is_on = True
    try:
        yield
    finally:
        _Held.is_on = False
        number, _Held.number = _Held.number, 0
        if number:
            raise Ended(number)


class _Output(io.FileIO):
    """Standard output, which an error names."""

    def write(self, data: Any) -> int:
        try:
            return super().write(data)
        except OSError as error:
            raise OSError(error.errno, error.strerror, "standard output") from None


def _open_streams() -> None:
    """Puts nothing in the place of standard streams that are closed, so that no file gets their numbers. Without an output nothing
    is done."""
    is_closed = sys.stdout is None
    while (nowhere := os.open(os.devnull, os.O_RDWR)) < 3:
        pass
    os.close(nowhere)
    if sys.stderr is None:
        sys.stderr = open(os.devnull, "w")
    if is_closed:
        sys.stdout = open(os.devnull, "w")
        raise Stop("standard output is closed")
    if sys.stdout is sys.__stdout__:
        buffer = io.BufferedWriter(_Output(1, "wb", closefd=False))
        sys.stdout = io.TextIOWrapper(buffer, sys.stdout.encoding, sys.stdout.errors, line_buffering=sys.stdout.line_buffering)


def _drop_output() -> None:
    """Takes back what standard output doesn't take, so that no second error is told of it."""
    try:
        sys.stdout.flush()
    except OSError:
        nowhere = os.open(os.devnull, os.O_WRONLY)
        os.dup2(nowhere, sys.stdout.fileno())
        os.close(nowhere)


def _status(work: Callable[[], int]) -> int:
    """Does a program's work, and returns its status, which argparse raises."""
    try:
        return work()
    except SystemExit as ended:
        return ended.code if isinstance(ended.code, int) else NOTHING_DONE


def _stop_of(error: Exception) -> Stop | None:
    """Why nothing can be done: by an error of this program, or since the system has no room or no thread for it, as it may for a moment.
    None of other errors, which are mistakes here."""
    if isinstance(error, Stop):
        return error
    if isinstance(error, OSError):
        return Stop(reason(error))
    if isinstance(error, MemoryError):
        return Stop("out of memory")
    return Stop("no thread") if isinstance(error, RuntimeError) and str(error) == NO_THREAD else None


def _told(work: Callable[[], int]) -> int:
    """Does a program's work, and returns its status; an error is told, and has status 2."""
    try:
        _open_streams()
        status = _status(work)
        sys.stdout.flush()
        return status
    except Exception as error:
        if not (stop := _stop_of(error)):
            raise
        say(str(stop))
        if _Json.is_on:
            print(json.dumps(stop.members()))
        _drop_output()
        return NOTHING_DONE


def _speak_utf8() -> None:
    """Starts the program again in UTF-8 where the locale has another encoding, so that names and lines are the same everywhere."""
    if sys.getfilesystemencoding() != "utf-8" and not sys.flags.utf8_mode:
        os.execv(sys.executable, [sys.executable, "-X", "utf8", *sys.orig_argv[1:]])


def carried_out(work: Callable[[], int]) -> int:
    """Does a program's work, and returns its status, which is 2 after an error. After SIGINT, SIGTERM or SIGHUP the work is left by
    Ended, and then the process ends by the same signal, so that whoever started it sees which."""
    _speak_utf8()
    if sys.stdout is None:
        say("standard output is closed")
        return NOTHING_DONE
    ending = [it for it in ENDING if signal.getsignal(it) != signal.SIG_IGN]
    for it in ending:
        signal.signal(it, _end)
    try:
        status = _told(work)
        for it in ending:
            signal.signal(it, signal.SIG_DFL)
        return status
    except Ended as ended:
        _drop_output()
        signal.signal(ended.args[0], signal.SIG_DFL)
        os.kill(os.getpid(), ended.args[0])
        return 128 + ended.args[0]
