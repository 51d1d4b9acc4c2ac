"""The file verdicts.sum.json, which stands beside verdicts.jsonl and says how that was written: the number of its lines, its SHA-256, how
long changes.jsonl was then, and by which schema its lines are. So a file that was cut, or of which a part is of a backup, is no archive
of fewer movies.

It is written before verdicts.jsonl, with what is there and what will be, so that after a kill between the two either is right; and
with that alone once all is told that changed.
"""

import hashlib
import json
import os
import pathlib
from typing import Any, NotRequired, TypedDict

from votmeshaw import files
from votmeshaw.command import Stop
from votmeshaw.names import readable, shell_word

NAME = "verdicts.sum.json"
# The number of docs/archive.schema.json. It grows if a line of before can't be read any more.
SCHEMA = 1


class Sum(TypedDict):
    """How a file is written: its lines and SHA-256, and the length of changes.jsonl when that had what changed until then."""

    lines: int
    sha256: str
    changes: NotRequired[int]


class Damaged(Stop):
    """A file isn't as it was written."""


def of_data(data: bytes) -> Sum:
    """The sum of what a file has, or will have."""
    return Sum(lines=data.count(b"\n"), sha256=hashlib.sha256(data).hexdigest())


def of_file(file: pathlib.Path) -> Sum:
    """The sum of what a file has. That of one that isn't there is of no lines."""
    lines, digest = 0, hashlib.sha256()
    try:
        with open(files.opened(file, os.O_RDONLY), "rb") as source:
            while data := source.read(1 << 20):
                lines += data.count(b"\n")
                digest.update(data)
    except FileNotFoundError:
        pass
    return Sum(lines=lines, sha256=digest.hexdigest())


def kept(file: pathlib.Path) -> list[Sum]:
    """What stands beside a file of verdicts: how it is written, and how it was before; nothing if 1.2.0 or older wrote it."""
    place = file.with_name(NAME)
    if not (data := files.content(place)):
        return []
    try:
        found: dict[str, Any] = json.loads(data)
        if (schema := int(found["schema"])) > SCHEMA:
            raise Stop(f"{readable(str(file))} is of schema {schema}, and this program knows no later one than {SCHEMA}: take the program that wrote it")
        return [Sum(lines=int(it["lines"]), sha256=str(it["sha256"]), changes=int(it["changes"])) for it in (found["now"], found["before"])]
    except (ValueError, LookupError, TypeError, RecursionError):
        raise Damaged(f"{readable(str(place))} is damaged. {_advice(file)}") from None


def settled(file: pathlib.Path) -> Sum | None:
    """The sum by which a file of verdicts is as it was written; nothing if there is none beside it. Damaged if it isn't so."""
    sums, found = kept(file), of_file(file)
    for it in sums:
        if is_same(it, found):
            return it
    if sums:
        raise Damaged(f"{readable(str(file))} isn't as it was written: it has {found['lines']} lines, and had {sums[0]['lines']}. {_advice(file)}")
    return None


def is_same(one: Sum, other: Sum) -> bool:
    """Whether two sums are of the same lines."""
    return (one["lines"], one["sha256"]) == (other["lines"], other["sha256"])


def _advice(file: pathlib.Path) -> str:
    return f"Put back a copy of both that is whole; or, if it is right as it is: {removal(file)}"


def removal(file: pathlib.Path) -> str:
    """The command after which a file that was put right by hand is taken as it is."""
    return f"rm -f {shell_word(os.fspath(file.with_name(NAME)))}"


def keep(file: pathlib.Path, before: Sum, now: Sum) -> None:
    """Writes down how a file of verdicts will be written, and how it is."""
    text = json.dumps({"schema": SCHEMA, "now": now, "before": before})
    files.replace(file.with_name(NAME), text.encode() + b"\n")
