"""The file verdicts.jsonl: what was answered of each movie of an archive, an object a line.

An object has the keys of Verdict. Its path is relative to the archive's folder. A name that isn't UTF-8 stands there with
escapes, and has the member path_base64, which counts. Who reads it by this module has the path as os.fsdecode gives it. Of
several objects with one path the last counts.
"""

import collections
import contextlib
import json
import math
import os
import pathlib
import re
import sys
import zlib
from collections.abc import Iterator
from typing import Any, BinaryIO, NamedTuple, NotRequired, TypedDict

from votmeshaw import files, sums
from votmeshaw.command import Stop
from votmeshaw.facts import KINDS, NONE, contradiction, is_of, wrong_fact
from votmeshaw.files import opened
from votmeshaw.names import name_in, named, readable, shell_word

NAME = "verdicts.jsonl"
# The files of parts. What a run of the whole answers is in that of part 1 of 1, until it ends.
PARTS = "verdicts-*-of-*.jsonl"


class Verdict(TypedDict):
    """What was answered of one movie. Its facts are the object that 'vcs_check report --json' printed, and its line is that of
    the verdict; of a movie that isn't judged there are no facts, and the line says why. 'reason' is what the program gave as its
    reason to refuse the movie, or to fail; 1.2.0 and older kept none. 'program' is what the program says of its version in this answer,
    and 'program_sha256' of the file that was executed; 1.2.0 and older kept none. If a movie that isn't judged was judged before, and can't be
    read now, 'before' is what was kept of it. One that was read from a file is in brief: it has a few of its facts, and the place of its
    line, where the others are; the file has no such member."""

    path: str
    digest: str | None
    size: int
    verdict: str
    status: int | None
    line: str
    facts: dict[str, Any]
    seconds: float
    judged: str
    program: str
    program_sha256: NotRequired[str]
    reason: NotRequired[str]
    before: NotRequired[dict[str, Any]]
    place: NotRequired["Place"]


# The types of what an object must have.
TYPES: dict[str, tuple[type, ...]] = {
    "path": (str,), "digest": (str, type(None)), "size": (int,), "verdict": (str,), "status": (int, type(None)), "line": (str,),
    "facts": (dict,), "seconds": (int, float), "judged": (str,), "program": (str,),
}
# The facts of a verdict in brief.
IN_BRIEF = ("verdict", "program", "start", "checkpoints", "after_last_checkpoint", "frames", "frame", "cartridge", "md5", "sha1", "sha256",
            "reason", "fault", "refusal", "version", "banks")
# How many objects and lists may stand in one another; the reports of the program have three.
DEEPEST = 60


class Damaged(Stop):
    """A file of verdicts has a line that is none."""


def is_judged(verdict: Verdict) -> bool:
    """Whether this is the verdict of a program whose facts have the names that are known here, which they have since 1.2.0."""
    return verdict["verdict"] in KINDS and verdict["facts"].get("verdict") == verdict["verdict"]


def reason_of(verdict: Verdict) -> str:
    """Why a movie is refused or isn't judged, and of a false one in which claims the run is, as the program says it; or nothing. That of
    a false one stands in its facts, which the file of changes doesn't keep."""
    facts = verdict.get("facts", {})
    return verdict.get("reason", "") or (facts.get("reason", "") if facts.get("verdict") == verdict["verdict"] else "")


def object_in(line: bytes) -> dict[str, Any]:
    """The object of a line; ValueError if there is none."""
    try:
        found = json.loads(line.decode("utf-8"), parse_constant=lambda word: _no(f"{word} is no number"), object_pairs_hook=_members)
    except RecursionError:
        raise ValueError("too deep") from None
    within, depth = [found], 0
    while within and depth < DEEPEST:
        depth += 1
        within = [it for value in within if isinstance(value, dict | list) for it in (value.values() if isinstance(value, dict) else value)]
    return found if isinstance(found, dict) and not within else _no("too deep" if within else "not an object")


def _members(pairs: list[tuple[str, Any]]) -> dict[str, Any]:
    """An object of these members, none of which is there twice."""
    found = dict(pairs)
    return found if len(found) == len(pairs) else _no("a member stands there twice")


def _no(reason: str) -> Any:
    raise ValueError(reason)


def is_digest(value: Any) -> bool:
    """Whether this is a SHA-256 as it is written here."""
    return isinstance(value, str) and re.fullmatch("[0-9a-f]{64}", value) is not None


def is_path(path: Any) -> bool:
    """Whether this can be the path of a file below a folder. That of a folder has a '/' at its end."""
    if not isinstance(path, str) or not path or path.startswith("/") or "\0" in path:
        return False
    try:
        os.fsencode(path)
    except UnicodeEncodeError:
        return False
    return ".." not in path.split("/")


def checked(item: dict[str, Any]) -> Verdict:
    """The verdict in an object, or ValueError with what is wrong."""
    for name, types in TYPES.items():
        if name not in item or not is_of(item[name], types):
            raise ValueError(name)
    if not 0 <= item["seconds"] < math.inf:
        raise ValueError("seconds")
    item["path"] = name_in(item, "path")
    item.pop("path_base64", None)
    if not is_path(item["path"]):
        raise ValueError("path")
    if item["digest"] is not None and not is_digest(item["digest"]):
        raise ValueError("digest")
    if item["verdict"] not in (*KINDS, NONE) or item["verdict"] != NONE and not item["digest"]:
        raise ValueError("verdict")
    if not isinstance(item.get("reason", ""), str):
        raise ValueError("reason")
    if "program_sha256" in item and not is_digest(item["program_sha256"]):
        raise ValueError("program_sha256")
    verdict: Verdict = item  # type: ignore[assignment]
    if is_judged(verdict) and (name := wrong_fact(item["facts"])):
        raise ValueError(f"facts: {name}")
    if wrong := contradiction(item["verdict"], item["status"], item["line"], item["facts"]):
        raise ValueError(wrong)
    if "before" in item:
        checked(item["before"] if isinstance(item["before"], dict) else _no("before"))
    return verdict


def object_line(item: dict[str, Any]) -> bytes:
    """The line of an object: ASCII alone, since json escapes the rest, a line feed in a name too."""
    return json.dumps(item).encode("ascii") + b"\n"


class Source:
    """A file of lines. That of a whole archive stays open, so that its lines are those that were read, whatever comes into its place."""

    def __init__(self, file: pathlib.Path) -> None:
        self.file = file
        self.kept = self.opened() if file.name == NAME else None

    def opened(self) -> BinaryIO:
        """The file, opened anew."""
        return open(opened(self.file, os.O_RDONLY), "rb")

    def bytes_at(self, place: "Place") -> bytes:
        """The bytes of a line, as they were when it was read."""
        with contextlib.nullcontext(self.kept) if self.kept else self.opened() as file:
            data = os.pread(file.fileno(), place.length, place.start)
        if zlib.crc32(data) != place.crc:
            raise Stop(f"{readable(str(self.file))} was changed during the run")
        return data


class Place(NamedTuple):
    """Where the line of a verdict stands, and under which path; or of what was kept before, in the line of a movie that can't be read
    now."""

    source: Source
    path: str
    start: int
    length: int
    crc: int
    is_before: bool = False


def in_brief(verdict: Verdict, place: Place) -> Verdict:
    """A verdict in brief, since many are in memory at once, and a line may have 19 kilobytes."""
    facts = {name: _shared(it) for name in IN_BRIEF if (it := verdict["facts"].get(name)) is not None}
    found: Any = {name: it if name in ("path", "digest") else _shared(it) for name, it in verdict.items()} | {"facts": facts, "place": place}
    if before := verdict.get("before"):
        found["before"] = in_brief(before, place._replace(path=before["path"], is_before=True))  # type: ignore[arg-type]
    return found


def _shared(value: Any) -> Any:
    """A value, of which texts that are equal are one in memory."""
    return sys.intern(value) if type(value) is str else value


def whole(verdict: Verdict) -> Verdict:
    """A verdict with all of its facts: of one in brief they are read where its line stands."""
    if not (place := verdict.get("place")):
        return verdict
    found = checked(object_in(place.source.bytes_at(place)))
    return {**(found["before"] if place.is_before else found), "path": verdict["path"]}  # type: ignore[return-value, typeddict-item]


def spelled(verdict: Verdict) -> bytes:
    """The line of a verdict, which of one in brief stands in its file, unless the movie has another path now."""
    place = verdict.get("place")
    if place and place.path == verdict["path"] and not place.is_before:
        return place.source.bytes_at(place)
    found = whole(verdict)
    item: dict[str, Any] = {**named("path", found["path"]), **{key: it for key, it in found.items() if key != "path"}}
    if "before" in found:
        before = whole(found["before"])  # type: ignore[arg-type]
        item["before"] = {**before, **named("path", before["path"])}
    return object_line(item)


def append(file: BinaryIO, source: Source, verdict: Verdict) -> Verdict:
    """Adds the line of a verdict to an unbuffered file, which is this source; returns the verdict in brief."""
    data, start = spelled(verdict), os.fstat(file.fileno()).st_size
    files.append(file, data)
    return in_brief(verdict, Place(source, verdict["path"], start, len(data), zlib.crc32(data)))


def refuse_parts(file: pathlib.Path) -> None:
    """Refuses a folder in which parts have files, of which the file of the whole archive isn't made yet."""
    if not os.path.lexists(file) and any(file.parent.glob(PARTS)):
        raise Stop(f"{readable(str(file))} isn't there yet: vcs_judge makes it of the files of parts, by --merge or at the end of a run")


def verdicts_in(file: pathlib.Path) -> Iterator[Verdict]:
    """The verdicts of a file, in brief. What follows the last line feed was cut off as it was written, and is none. A file of a whole
    archive has to be as it was written."""
    if file.name == NAME:
        refuse_parts(file)
        settled(file)
    yield from lines_in(file)


def settled(file: pathlib.Path) -> sums.Sum | None:
    """The sum by which a file is as it was written, or nothing if there is none beside it. Damaged, with the number of the first line
    that is wrong, if it isn't so."""
    try:
        return sums.settled(file)
    except sums.Damaged as error:
        with contextlib.suppress(FileNotFoundError):
            collections.deque(lines_in(file), 0)
        raise Damaged(str(error)) from None


def lines_in(file: pathlib.Path) -> Iterator[Verdict]:
    """The verdicts of a file, line by line."""
    source, start = Source(file), 0
    with source.opened() as lines:
        for number, line in enumerate(lines, 1):
            if not line.endswith(b"\n"):
                return
            try:
                verdict = checked(object_in(line))
            except (ValueError, KeyError, TypeError) as error:
                raise Damaged(_repair(file, number, str(error))) from None
            yield in_brief(verdict, Place(source, verdict["path"], start, len(line), zlib.crc32(line)))
            start += len(line)


def _repair(file: pathlib.Path, number: int, reason: str) -> str:
    """What is wrong with a line, and what to do."""
    removal = f" && {sums.removal(file)}" if file.name == NAME else ""
    repair = f"sed -i {number}d {shell_word(os.fspath(file))}{removal}"
    said = f"{readable(str(file))}: line {number} is not a verdict ({readable(reason)[:80]})"
    return f"{said}. Put back a copy that is whole, or take the line out, so that its movie is judged again: {repair}"
