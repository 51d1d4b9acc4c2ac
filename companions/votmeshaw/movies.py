"""The movies below a folder: which there are, and the bytes of each, read so that no name, link or device can stop a run."""

import contextlib
import dataclasses
import errno
import fnmatch
import hashlib
import os
import re
import stat
import zlib
from collections.abc import Iterator
from typing import Self

# The program takes no longer files.
LONGEST = 16_777_216
# How the names of movies end, with their cartridge and without it.
MOVIES = (b".a26m", b".a26s")
PACKED = tuple(ending + packing for ending in MOVIES for packing in (b".gz", b".xz", b".bz2", b".zst", b".zip"))
# What git-annex has in the place of a movie: a link to this folder, or a short file that begins with its name.
ANNEX = b"/annex/objects/"
LONGEST_POINTER = 32_768
# How a folder on the way to a file is opened, and a file: never through a link.
FOLDER = os.O_PATH | os.O_DIRECTORY | os.O_NOFOLLOW | os.O_CLOEXEC
FILE = os.O_RDONLY | os.O_NONBLOCK | os.O_NOFOLLOW | os.O_CLOEXEC
LONGEST_PATH = 4096
# What the system says where a link stands in the place of a folder, or of a file.
LINKS = (errno.ENOTDIR, errno.ELOOP)


@dataclasses.dataclass(slots=True)
class Movie:
    """A file as it was found: without a digest, if it could not be read for this reason. One that git-annex keeps elsewhere
    is away; it may have a digest, from its name in the annex."""

    path: str
    digest: str | None
    size: int
    reason: str = ""
    is_away: bool = False


def matches(path: bytes, globs: list[bytes]) -> bool:
    """Whether a path, or its last name, is of one of these patterns."""
    return any(fnmatch.fnmatchcase(it, glob) for it in (path, os.path.basename(path)) for glob in globs)


class Way:
    """The way to files: each folder is opened in the one before, so no link is followed, whoever plants one, and whenever. The last
    folder stays open, since the next file is mostly in it, or below it."""

    def __init__(self) -> None:
        self.path, self.descriptor = b"", os.open(b"/", FOLDER)

    def __enter__(self) -> Self:
        return self

    def __exit__(self, *_: object) -> None:
        os.close(self.descriptor)

    def _step(self, path: bytes, descriptor: int) -> None:
        os.close(self.descriptor)
        self.path, self.descriptor = path, descriptor

    def folder(self, path: bytes) -> int:
        """A folder of this absolute path, which is open until another one is asked for."""
        if not (path + b"/").startswith(self.path + b"/"):
            self._step(b"", os.open(b"/", FOLDER))
        for name in path[len(self.path) :].split(b"/")[1:]:
            self._step(b"/".join((self.path, name)), os.open(name, FOLDER, dir_fd=self.descriptor))
        return self.descriptor

    def opened(self, path: bytes, flags: int) -> int:
        """Opens an absolute path."""
        if len(path) >= LONGEST_PATH:
            raise OSError(errno.ENAMETOOLONG, os.strerror(errno.ENAMETOOLONG))
        above, _, name = path.rpartition(b"/")
        return os.open(name or b".", flags, dir_fd=self.folder(above))


class Folder:
    """An archive's folder, which is read by name and never left."""

    def __init__(self, root: bytes, excluded: list[str]) -> None:
        self.root, self.excluded = os.path.realpath(root), [os.fsencode(it) for it in excluded]
        annex = next((it for it in map(self._annex_at, self._and_above(self.root)) if os.path.isdir(it)), None)
        self.inside = tuple(os.path.join(it, b"") for it in (self.root, annex) if it)

    def _path(self, name: bytes) -> bytes:
        """The path of a name below the folder; that of none is the folder's own."""
        if b".." in name.split(b"/"):
            raise OSError("a path that leads upwards")
        return os.path.join(self.root, name) if name else self.root

    @staticmethod
    def _annex_at(folder: bytes) -> bytes:
        return os.path.join(folder, b".git", b"annex", b"objects")

    @staticmethod
    def _and_above(folder: bytes) -> Iterator[bytes]:
        """A folder and those that it is in."""
        while True:
            yield folder
            if folder == (folder := os.path.dirname(folder)):
                return

    def is_excluded(self, name: bytes) -> bool:
        """Whether a path, or a folder that it is in, is to be left out: by the whole path or by its last name."""
        return any(matches(it, self.excluded) for it in (name, *self._and_above(os.path.dirname(name)))) if self.excluded else False

    def _opened(self, way: Way, name: bytes) -> int:
        """Opens the file of this name. A link is followed to where it leads now, if that is in the archive or its annex."""
        path = self._path(name)
        try:
            return way.opened(path, FILE)
        except OSError as error:
            if error.errno not in LINKS:
                raise
        real = os.path.realpath(path)
        if not real.startswith(self.inside):
            raise OSError("a link that leads out of the archive")
        try:
            return way.opened(real, FILE)
        except OSError as error:
            if error.errno in LINKS:
                raise OSError("a link that leads nowhere") from None
            raise

    def read(self, name: bytes, longest: int = LONGEST) -> bytes:
        """The bytes of a file, at most one more than the longest has; of a movie that is one more than the program takes."""
        with Way() as way:
            return self._read(way, name, longest)

    def _read(self, way: Way, name: bytes, longest: int) -> bytes:
        with open(descriptor := self._opened(way, name), "rb") as file:
            if not stat.S_ISREG(os.fstat(descriptor).st_mode):
                raise OSError("not a regular file")
            data = file.read(longest + 1)
        if data is None:
            raise OSError("no bytes to be had")
        return data

    def _looked_at(self, way: Way, name: bytes) -> Movie:
        """The movie of this name."""
        shown = os.fsdecode(name)
        if name.lower().endswith(PACKED):
            return Movie(shown, None, 0, "packed: unpack it first")
        try:
            data = self._read(way, name, LONGEST)
        except (OSError, ValueError) as error:
            if key := self._key(way, name):
                return self._away(shown, key)
            return Movie(shown, None, 0, f"cannot read: {getattr(error, 'strerror', None) or error}")
        if len(data) > LONGEST:
            return Movie(shown, None, len(data), "file too long")
        if len(data) < LONGEST_POINTER and data.startswith(ANNEX):
            return self._away(shown, data)
        return Movie(shown, hashlib.sha256(data).hexdigest(), len(data))

    def _key(self, way: Way, name: bytes) -> bytes:
        """Where a link of git-annex leads whose file isn't here; nothing of another file."""
        with contextlib.suppress(OSError, ValueError):
            above, last = os.path.split(self._path(name))
            key = os.readlink(last, dir_fd=way.folder(above))
            return key if ANNEX in key and not os.path.exists(self._path(name)) else b""
        return b""

    @staticmethod
    def _away(name: str, key: bytes) -> Movie:
        """A movie that git-annex has elsewhere."""
        found = re.search(rb"/SHA256E?(?:-s(\d+))?-\S*?-?([0-9a-f]{64})\b[^/]*\s*$", key)
        digest, size = (found[2].decode(), int(found[1] or 0)) if found else (None, 0)
        return Movie(name, digest, size, "not here: git annex get brings it", is_away=True)

    def _entries(self, way: Way, at: bytes) -> list[tuple[bytes, bool, bool]]:
        """The names in a folder, in their order, each with whether it is a folder, or a link to one whose movies are elsewhere."""
        descriptor = way.opened(self._path(at), os.O_RDONLY | os.O_DIRECTORY | os.O_NOFOLLOW | os.O_CLOEXEC)
        try:
            with os.scandir(descriptor) as entries:
                return sorted((name := os.fsencode(entry.name), entry.is_dir(follow_symlinks=False),
                               entry.is_symlink() and self._leads_out(os.path.join(at, name))) for entry in entries)
        finally:
            os.close(descriptor)

    def _leads_out(self, name: bytes) -> bool:
        """Whether a link leads to a folder that isn't looked into for itself: one out of the archive, or below a hidden folder."""
        if not os.path.isdir(path := self._path(name)):
            return False
        inside = os.path.relpath(os.path.realpath(path), self.root).split(b"/")
        return any(it.startswith(b".") for it in inside if it != b".")

    def movies(self, part: tuple[int, int]) -> Iterator[Movie]:
        """A part's movies, in the order of their names; folders that can't be read are among them, with a '/' at their end."""
        number, parts = part
        with Way() as way:
            for path, error in self._paths(way, (*MOVIES, *PACKED)):
                if error:
                    yield Movie(os.fsdecode(path), None, 0, error)
                elif zlib.crc32(path) % parts == number - 1:
                    yield self._looked_at(way, path)

    def has_movies(self) -> bool:
        """Whether there is a movie, or a folder that can't be read."""
        with Way() as way:
            return next(self._paths(way, (*MOVIES, *PACKED)), None) is not None

    def files(self) -> Iterator[tuple[bytes, str]]:
        """The paths of all files, but for those in hidden folders; and of folders that can't be read, with the reason."""
        with Way() as way:
            yield from self._paths(way, (b"",))

    def _paths(self, way: Way, endings: tuple[bytes, ...]) -> Iterator[tuple[bytes, str]]:
        """The paths of all files with these endings; and of folders that can't be read, with the reason."""
        waiting = [b""]
        while waiting:
            at = waiting.pop()
            try:
                found = self._entries(way, at)
            except OSError as error:
                if not at:
                    raise
                yield at + b"/", f"cannot read: {error.strerror}"
                continue
            below = [(os.path.join(at, name), *kind, name) for name, *kind in found]
            below = [it for it in below if not self.is_excluded(it[0])]
            waiting += [path for path, is_folder, _, name in reversed(below) if is_folder and not name.startswith(b".")]
            for path, is_folder, leads_out, name in below:
                if leads_out and not name.startswith(b"."):
                    yield path + b"/", "a link to a folder that is outside or hidden isn't followed"
                elif not is_folder and path.lower().endswith(endings):
                    yield path, ""
