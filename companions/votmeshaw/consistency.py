"""Whether a file of verdicts can be made pages of: that it wasn't cut off, and that no line contradicts another one."""

import os
import pathlib
import shlex
from collections.abc import Iterator

from votmeshaw import sums, verdicts
from votmeshaw.facts import NONE
from votmeshaw.files import opened
from votmeshaw.names import readable
from votmeshaw.verdicts import Damaged, Verdict


def _command(words: str, file: pathlib.Path) -> str:
    """A command that changes a file, and has vcs_judge take it as it is then."""
    return f"{words} {shlex.quote(os.fspath(file))} && {sums.removal(file)}"


def _advice(file: pathlib.Path, *numbers: int) -> str:
    """What to do about lines that are wrong."""
    removal = _command(f"sed -i {shlex.quote(';'.join(f'{it}d' for it in numbers))}", file)
    return f"Put back a copy that is whole, or have vcs_judge judge again what is missing, after: {removal}"


def refuse_torn(file: pathlib.Path) -> None:
    """Refuses a file that doesn't end with a line feed. It is only ever written whole, so what stood behind is lost."""
    with open(opened(file, os.O_RDONLY), "rb") as source:
        if not source.seek(0, os.SEEK_END):
            raise Damaged(f"{file} is empty. Put back a copy that is whole, or have vcs_judge judge the movies again, after: {_command('rm', file)}")
        source.seek(-1, os.SEEK_END)
        if source.read() != b"\n":
            source.seek(0)
            number = sum(1 for _ in source)
            raise Damaged(f"{file}: line {number} is cut off, and what stood behind it is lost. {_advice(file, number)}")


def consistent_in(file: pathlib.Path) -> Iterator[Verdict]:
    """The verdicts of a file; Damaged if it was cut off, or a line contradicts another one about the same bytes and of the same
    program."""
    verdicts.refuse_parts(file)
    refuse_torn(file)
    said: dict[tuple[str | None, ...], tuple[int, str]] = {}
    for number, verdict in enumerate(verdicts.verdicts_in(file), 1):
        key = (verdict["digest"], verdict["program"], verdict.get("program_sha256"))
        other, line = said.setdefault(key, (number, verdict["line"])) if verdict["verdict"] != NONE else (number, verdict["line"])
        if line != verdict["line"]:
            said_of_both = f"of the same bytes and program ({readable(verdict['line'])[:80]})"
            raise Damaged(f"{file}: line {number} contradicts line {other}, {said_of_both}. {_advice(file, other, number)}")
        yield verdict
