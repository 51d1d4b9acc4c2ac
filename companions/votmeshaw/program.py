"""The file of a program, as it is executed: the same bytes from the first question to the last, with their SHA-256.

A copy in memory is executed, so what is put in the file's place meanwhile has no part in the run. A script may look for others
beside itself, so it is executed where it is; what it is then is compared after each answer, and its SHA-256 says nothing of what it
starts.
"""

import errno
import fcntl
import hashlib
import os
import pathlib
import shutil
import time

from votmeshaw.command import Stop

SCRIPT = b"#!"
# Nobody writes to the copy any more.
SEALS = fcntl.F_SEAL_WRITE | fcntl.F_SEAL_GROW | fcntl.F_SEAL_SHRINK | fcntl.F_SEAL_SEAL
# For how many seconds a busy system is asked for that, and how many it is left alone between two times.
PATIENCE, PAUSE = 30.0, 0.05


def _why_none(name: str) -> str:
    """Why no program of this name can be run: it isn't there, or what is there, here or on the path, isn't executable."""
    there = shutil.which(name, os.F_OK) or (name if os.path.dirname(name) and os.path.exists(name) else "")
    if not there:
        return f"{name}: " + (os.strerror(errno.ENOENT) if os.path.dirname(name) else "it isn't on the path; --program names another place")
    return (there if there == name else f"{name}: {there}") + f": {os.strerror(errno.EISDIR if os.path.isdir(there) else errno.EACCES)}"


def _seal(descriptor: int) -> None:
    """Lets nobody write to a file in memory any more. While the system itself holds a page of it, as it may for a moment under load, it
    answers that the file is busy, and is asked again."""
    last = time.monotonic() + PATIENCE
    while True:
        try:
            fcntl.fcntl(descriptor, fcntl.F_ADD_SEALS, SEALS)
            return
        except OSError as error:
            if error.errno != errno.EBUSY or time.monotonic() > last:
                raise
        time.sleep(PAUSE)


class Program:
    """A program of this name, on the path or elsewhere; Stop if there is none."""

    def __init__(self, name: str) -> None:
        if not (found := shutil.which(name)):
            raise Stop(f"cannot run {_why_none(name)}")
        self.file = pathlib.Path(found)
        try:
            data = self.file.read_bytes()
            # The path that is executed, and the open file that a process needs for it.
            self.path, self.needs = (found, ()) if data.startswith(SCRIPT) else self._copied(data)
        except OSError as error:
            raise Stop(f"cannot run {name}: {error.strerror}") from None
        self.digest = hashlib.sha256(data).hexdigest()

    @staticmethod
    def _copied(data: bytes) -> tuple[str, tuple[int, ...]]:
        """The path of a copy, and its open file."""
        descriptor = os.memfd_create("program", os.MFD_CLOEXEC | os.MFD_ALLOW_SEALING)
        with open(descriptor, "wb", closefd=False) as copy:
            copy.write(data)
        _seal(descriptor)
        return f"/proc/self/fd/{descriptor}", (descriptor,)

    def is_same(self) -> bool:
        """Whether what is executed is what was digested."""
        try:
            return bool(self.needs) or hashlib.sha256(self.file.read_bytes()).hexdigest() == self.digest
        except OSError:
            return False
