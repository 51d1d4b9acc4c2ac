"""Cartridges in a folder, found by their SHA-256; what was digested before is kept, and not read again."""

import contextlib
import hashlib
import json
import os
import pathlib
import stat
import threading

from votmeshaw import files, verdicts
from votmeshaw.command import Stop, say
from votmeshaw.layout import BOARDS
from votmeshaw.movies import Folder
from votmeshaw.names import name_in, named, readable

# The file of digests. It may be taken away at any time.
NAME = "cartridges.jsonl"
# No cartridge is longer, and no folder is looked through that has more files as short as one.
LONGEST, MOST = max(max(it.lengths) for it in BOARDS), 100_000
# By what a file is known to be the one that was digested: size, times of its bytes and of its inode, and that.
Known = tuple[int, int, int, int]


class Cartridges:
    """A folder of cartridges, which is read as an archive's folder is. With a file of digests each is read once."""

    def __init__(self, folder: str, kept: pathlib.Path | None = None) -> None:
        os.scandir(folder).close()  # (says why it can't be read)
        self.folder, self.kept, self.lock = Folder(os.fsencode(folder), []), kept, threading.Lock()
        self.found: dict[int, dict[bytes, Known]] | None = None
        self.digests: dict[bytes, tuple[Known, str]] = {}
        self.digested: dict[int, dict[str, bytes]] = {}

    def find(self, length: int, digest: str) -> tuple[str, bytes] | None:
        """The path of a cartridge, and its bytes."""
        name = self._name(length, digest)
        data = self._read(name, length) if name else b""
        if name and hashlib.sha256(data).hexdigest() == digest:
            return os.fsdecode(os.path.join(self.folder.root, name)), data
        return None

    def has(self, length: int, digest: str) -> bool:
        """Whether there is a cartridge of this length and digest."""
        return self._name(length, digest) is not None

    def _name(self, length: int, digest: str) -> bytes | None:
        """The name of a cartridge, of which each length is looked through once."""
        with self.lock:
            if length not in self.digested:
                self.digested[length] = self._digested(length)
            return self.digested[length].get(digest)

    def _read(self, name: bytes, length: int) -> bytes:
        """The bytes of a file; none if it can't be read."""
        try:
            return self.folder.read(name, length)
        except OSError:
            return b""

    def _digested(self, length: int) -> dict[str, bytes]:
        """The files of this length by their digests."""
        if self.found is None:
            self.found = self._looked_through()
            self.digests = self._kept_digests({name: now for names in self.found.values() for name, now in names.items()})
        known, is_new = {}, False
        for name, now in self.found.get(length, {}).items():
            if name not in self.digests:
                self.digests[name], is_new = (now, hashlib.sha256(self._read(name, length)).hexdigest()), True
            known.setdefault(self.digests[name][1], name)
        if is_new:
            self._keep()
        return known

    def _looked_through(self) -> dict[int, dict[bytes, Known]]:
        """All files that are as short as a cartridge, by their length."""
        found: dict[int, dict[bytes, Known]] = {}
        left = MOST
        for name, reason in self.folder.files():
            if reason:
                say(f"{readable(os.fsdecode(name))}: {reason}")
                continue
            with contextlib.suppress(OSError):
                now = os.stat(os.path.join(self.folder.root, name))
                if stat.S_ISREG(now.st_mode) and 0 < now.st_size <= LONGEST:
                    found.setdefault(now.st_size, {})[name] = (now.st_size, now.st_mtime_ns, now.st_ctime_ns, now.st_ino)
                    left -= 1
            if left < 0:
                raise Stop(f"{readable(os.fsdecode(self.folder.root))} has more than {MOST:,} files that could be cartridges")
        return found

    def _kept_digests(self, there: dict[bytes, Known]) -> dict[bytes, tuple[Known, str]]:
        """What the file of digests has of files that are there as they were. A line that is damaged is left out."""
        kept: dict[bytes, tuple[Known, str]] = {}
        for line in files.content(self.kept).split(b"\n") if self.kept else ():
            with contextlib.suppress(ValueError, LookupError, TypeError):
                item = verdicts.object_in(line)
                name, known = os.fsencode(name_in(item, "path")), tuple(item["known"])
                if there[name] == known and verdicts.is_digest(item["sha256"]):
                    kept[name] = known, item["sha256"]
        return kept

    def _keep(self) -> None:
        """Writes the file of digests anew, if it can be."""
        lines = ({**named("path", os.fsdecode(name)), "known": known, "sha256": digest} for name, (known, digest) in self.digests.items())
        if self.kept:
            with contextlib.suppress(OSError):
                files.replace(self.kept, "".join(json.dumps(it) + "\n" for it in lines).encode())
