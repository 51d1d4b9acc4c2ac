"""Files that are read and written so that no link, device, kill or full disk can spoil them: each is the old one whole, or the new one."""

import contextlib
import fcntl
import hashlib
import os
import pathlib
import secrets
import stat
import time
from collections.abc import Iterable, Iterator
from typing import IO

from votmeshaw.command import Stop, say

# How many bytes of a long file are looked at together.
BLOCK = 1 << 16


def opened(file: pathlib.Path, flags: int) -> int:
    """Opens a file for its bytes: never through a link that somebody put there, and nothing but a regular file."""
    descriptor = os.open(file, flags | os.O_NOFOLLOW | os.O_NONBLOCK | os.O_CLOEXEC, 0o666)
    if not stat.S_ISREG(os.fstat(descriptor).st_mode):
        os.close(descriptor)
        raise OSError(f"{file} is not a regular file")
    return descriptor


def content(file: pathlib.Path) -> bytes:
    """The bytes of a file; none if it isn't there."""
    try:
        with open(opened(file, os.O_RDONLY), "rb") as source:
            return source.read()
    except FileNotFoundError:
        return b""


def lines(file: pathlib.Path, start: int = 0) -> Iterator[bytes]:
    """The lines of a file from this byte on, each with its line feed; none if it isn't there."""
    with contextlib.suppress(FileNotFoundError), open(opened(file, os.O_RDONLY), "rb") as source:
        source.seek(start)
        yield from source


def length(file: pathlib.Path) -> int:
    """How many bytes a file has; none if it isn't there."""
    try:
        return file.lstat().st_size
    except FileNotFoundError:
        return 0


def lock(descriptor: int, place: pathlib.Path, is_patient: bool = True) -> bool:
    """Keeps other runs from an open file or folder, and says whether it could: it waits if it is patient, and tells so after a second.
    The system ends this when the process ends, however it does."""
    until = time.monotonic() + 1
    while True:  # (at least once: a process may stand still for a second)
        try:
            fcntl.flock(descriptor, fcntl.LOCK_EX | fcntl.LOCK_NB)
            return True
        except BlockingIOError:
            if not is_patient:
                return False
        except OSError as error:
            raise Stop(f"{place}: the file system knows no locks ({error.strerror})") from None
        if time.monotonic() >= until:
            break
        time.sleep(0.02)
    say("waiting for the run that is there")
    fcntl.flock(descriptor, fcntl.LOCK_EX)
    return True


@contextlib.contextmanager
def naming(file: pathlib.Path | str) -> Iterator[None]:
    """Puts the name of a file into the errors of a block that have none."""
    try:
        yield
    except OSError as error:
        if error.errno is None or isinstance(error.filename, (str, bytes)):
            raise
        raise OSError(error.errno, error.strerror, os.fspath(file)) from None


def append(file: IO[bytes], data: bytes) -> None:
    """Writes lines to an unbuffered file that is open for appending: all of them, or after an error nothing."""
    end = os.fstat(file.fileno()).st_size
    try:
        with naming(file.name):
            while data:  # (a full disk takes a part, and says so when it is asked again)
                data = data[file.write(data) :]
    except BaseException:
        os.ftruncate(file.fileno(), end)
        raise


def sync(file: IO[bytes]) -> None:
    """Asks the disk to have the bytes of a file."""
    with naming(file.name):
        os.fsync(file.fileno())


def for_appending(file: pathlib.Path) -> IO[bytes]:
    """A file to which lines are appended."""
    return open(file, "ab", buffering=0, opener=lambda *_: opened(file, os.O_RDWR | os.O_APPEND | os.O_CREAT))


def add(file: pathlib.Path, start: int, data: bytes) -> None:
    """Adds data to a file, which belongs behind this many of its bytes, and asks the disk to have it. What a run that was ended added
    of it isn't added again, and nothing is taken away."""
    with for_appending(file) as opened:
        there = os.pread(opened.fileno(), len(data), start)
        append(opened, data.removeprefix(there) if data.startswith(there) else b"\n" + data)
        sync(opened)


def _take_after(file: pathlib.Path, descriptor: int) -> None:
    """Gives a new file the owner and the mode of the one in whose place it comes, as far as this user may."""
    with contextlib.suppress(FileNotFoundError):
        old = file.lstat()
        for owner in (old.st_uid, -1):
            with contextlib.suppress(PermissionError):
                os.fchown(descriptor, owner, old.st_gid)
                break
        os.fchmod(descriptor, stat.S_IMODE(old.st_mode) & 0o777)


def cut_torn_line(file: pathlib.Path) -> None:
    """Takes away what follows the last line feed, so that the next line begins at a line's start."""
    if not (end := length(file)):
        return
    with open(opened(file, os.O_RDWR), "rb+", buffering=0) as torn:
        while end:
            start = max(end - BLOCK, 0)
            if found := os.pread(torn.fileno(), end - start, start).rfind(b"\n") + 1:
                end = start + found
                break
            end = start
        if end != length(file):
            os.ftruncate(torn.fileno(), end)


def sync_folder(folder: pathlib.Path) -> None:
    """Asks the disk to have the names of a folder."""
    descriptor = os.open(folder, os.O_RDONLY)
    try:
        os.fsync(descriptor)
    finally:
        os.close(descriptor)


def beside(file: pathlib.Path) -> pathlib.Path:
    """Where a file is written anew, before it comes into its place."""
    return file.with_name(f"{file.name}.new")


def write_beside(file: pathlib.Path, data: Iterable[bytes]) -> None:
    """Writes a file anew, whole and on the disk, beside its place."""
    beside(file).unlink(missing_ok=True)
    try:
        with naming(file), open(opened(beside(file), os.O_WRONLY | os.O_CREAT | os.O_EXCL), "wb") as new:
            _take_after(file, new.fileno())
            new.writelines(data)
            new.flush()
            os.fsync(new.fileno())
    except BaseException:
        beside(file).unlink(missing_ok=True)
        raise


def into_place(file: pathlib.Path) -> None:
    """Puts what was written beside a file into its place: whoever reads it, or after a kill finds it, has the old one whole or the new
    one."""
    beside(file).replace(file)
    sync_folder(file.parent)


def replace(file: pathlib.Path, data: bytes) -> None:
    """Writes a file anew, and puts it into its place."""
    write_beside(file, [data])
    into_place(file)


def _begin(place: pathlib.Path) -> str:
    """How the names of the files begin that are made beside this one, and renamed to it."""
    return f".{hashlib.sha256(os.fsencode(place.name)).hexdigest()[:16]}-"


def _take_away(file: pathlib.Path) -> None:
    """Removes a file that a killed run left; one that still runs keeps its own locked."""
    with contextlib.suppress(OSError), open(opened(file, os.O_RDONLY), "rb") as left:
        fcntl.flock(left.fileno(), fcntl.LOCK_EX | fcntl.LOCK_NB)
        file.unlink()


def _made_beside(place: pathlib.Path) -> tuple[pathlib.Path, IO[bytes]]:
    """A new file, locked, in the folder of another one. What killed runs left there for that one is taken away."""
    for left in place.parent.glob(f"{_begin(place)}*.new"):
        _take_away(left)
    while True:
        beside = place.with_name(f"{_begin(place)}{secrets.token_hex(8)}.new")
        new = open(beside, "x+b")
        with contextlib.suppress(OSError):  # (the file system may know no locks)
            fcntl.flock(new.fileno(), fcntl.LOCK_EX)
        if beside.exists():  # (another run may have taken it away before it was locked)
            return beside, new
        new.close()


@contextlib.contextmanager
def anew(file: pathlib.Path) -> Iterator[IO[bytes]]:
    """What will be the file that a user named, once it is written whole. No other file is touched."""
    place = pathlib.Path(os.path.realpath(file))
    beside = None
    try:
        beside, new = _made_beside(place)
        with new:
            yield new
            if place.exists():
                os.fchmod(new.fileno(), stat.S_IMODE(place.stat().st_mode))
            new.flush()
            os.fsync(new.fileno())
            beside.replace(place)
    except OSError as error:
        if error.filename is not None and not os.path.basename(str(error.filename)).startswith(_begin(place)):
            raise
        raise OSError(error.errno, error.strerror, os.fspath(file)) from None
    finally:
        if beside:
            with contextlib.suppress(OSError):
                beside.unlink()


def write_together(contents: dict[pathlib.Path, bytes]) -> None:
    """Writes files that a user named: all of them whole, and only then each in its place, the last one first."""
    with contextlib.ExitStack() as stack:
        for file, data in contents.items():
            new = stack.enter_context(anew(file))
            new.write(data)
            new.flush()
            os.fsync(new.fileno())


def write(file: pathlib.Path, data: bytes) -> None:
    """Writes a file that a user named, whole or not at all; what isn't a regular file, as a pipe, takes the bytes as they come."""
    try:
        with open(file, "wb") if file.exists() and not file.is_file() else anew(file) as new:
            new.write(data)
    except OSError as error:
        raise OSError(error.errno, error.strerror, os.fspath(file)) from None
