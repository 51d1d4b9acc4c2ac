"""The file changes.jsonl: which movies came, were moved, replaced, taken away, or judged at last, an object each. Lines are added
to it, and nothing ever rewrites it.

An object has 'change', 'when', 'path' (and of a name that isn't UTF-8 path_base64), of a movie that was moved 'from', and
what was kept of it before and after, 'old' and 'new': digest, verdict, line, program with its SHA-256, the time of the verdict, and the
reason if there is one, that of a false movie too; and 'rules' if they are the chip's; or null.
"""

import contextlib
import dataclasses
import datetime
import json
import os
import pathlib
from collections.abc import Iterable, Iterator
from typing import Any, Self

from votmeshaw import files, verdicts
from votmeshaw.facts import CHIP, KINDS, NONE, rules_of
from votmeshaw.names import name_in, named, readable
from votmeshaw.verdicts import Verdict
from votmeshaw.verifier import with_reason

NAME = "changes.jsonl"
NEW, MOVED, REPLACED, GONE = "new", "moved", "replaced", "gone"
# A movie that wasn't judged is; one that was judged can't be read; another program says something else; the same program does.
NOW_JUDGED, UNREAD, OTHERWISE, CONTRADICTED = "now judged", "cannot be read", "judged otherwise", "contradicted"
# In the order in which they are told. The first are always counted.
COUNTED = (NEW, MOVED, REPLACED, GONE)
ALL = (*COUNTED, NOW_JUDGED, UNREAD, OTHERWISE, CONTRADICTED)
KEPT = ("digest", "verdict", "line", "program", "judged")
# What 1.2.0 and older left out.
PERHAPS = ("program_sha256",)
# What the same program says of the same bytes each time.
SAME = ("verdict", "status", "line", "facts")


def of_before(verdict: Verdict) -> Verdict:
    """What was last answered of a movie that can't be read now; of another one what there is."""
    return verdict.get("before", verdict)  # type: ignore[return-value]


@dataclasses.dataclass(slots=True)
class Change:
    """What happened to one movie. One that was read from the file has of both sides what is kept there."""

    kind: str
    path: str
    old: Verdict | None
    new: Verdict | None
    moved_from: str = ""

    @classmethod
    def read(cls, item: dict[str, Any]) -> Self:
        """The change in an object of the file."""
        return cls(item["change"], name_in(item, "path"), item["old"], item["new"], name_in(item, "from") if "from" in item else "")

    def is_loss(self) -> bool:
        """Whether a movie that was judged isn't there any more."""
        return self.kind in (REPLACED, GONE) and self.old is not None and self.old["verdict"] != NONE

    def item(self, when: str) -> dict[str, Any]:
        """The object of the file."""
        found = {"change": self.kind, "when": when, **named("path", self.path), "old": _side(self.old), "new": _side(self.new)}
        return found | (named("from", self.moved_from) if self.moved_from else {})


def _side(verdict: Verdict | None) -> dict[str, Any] | None:
    """What the file keeps of a verdict: its reason too, wherever that stands, and its rules if they aren't the guide's. One that was read
    from the file has both."""
    if not verdict:
        return None
    said = {"reason": verdicts.reason_of(verdict), "rules": verdict.get("rules") or rules_of(verdict.get("facts", {}))}
    said["rules"] = said["rules"] if said["rules"] == CHIP else ""
    return {key: verdict[key] for key in (*KEPT, *PERHAPS) if key in verdict} | {key: it for key, it in said.items() if it}  # type: ignore[literal-required]


def worded(side: dict[str, Any]) -> str:
    """The verdict of a side of an object, with the rules if they aren't the guide's."""
    return side["verdict"] + (f" by {side['rules']}" if side.get("rules") else "")


def told(item: dict[str, Any]) -> str:
    """An object of the file as a line."""
    old, new = (f"{worded(it)} {it['digest'] or '(no digest)'}" if it else "" for it in (item["old"], item["new"]))
    name = readable(name_in(item, "path"))
    if item["change"] == MOVED:
        name = f"{readable(name_in(item, 'from'))} to {name}"
        old = ""
    return f"{item['change']}: {name}: {' now '.join(filter(None, (f'was {old}' if old and new else old, new)))}"


def why(item: dict[str, Any]) -> str:
    """What is wrong with the movie of an object of the file now, if it isn't genuine; what is wrong if a program contradicts itself; or
    nothing."""
    new = item["new"] or {}
    if item["change"] == CONTRADICTED:
        return f"{readable(name_in(item, 'path'))}: the same program said something else of the same bytes. Don't rely on this machine, or on this program"
    if not new or new["verdict"] == KINDS[0]:
        return ""
    return f"{readable(name_in(item, 'path'))}: {with_reason(new['line'], new.get('reason', ''))}"


def is_same(old: Verdict, final: Verdict) -> bool:
    """Whether two answers are the same, number by number. Those of one line are."""
    if old.get("place", old) == final.get("place", final):
        return True
    sides = [verdicts.whole(it) for it in (old, final)]
    return all(sides[0].get(it) == sides[1].get(it) for it in SAME)


def step(path: str, old: Verdict, final: Verdict) -> Iterator[Change]:
    """How a movie that was there and is there was replaced, judged at last, judged otherwise, or can't be read any more."""
    program = old.get("program_sha256")
    before, after = of_before(old), of_before(final)
    if before["digest"] and after["digest"] and before["digest"] != after["digest"]:
        yield Change(REPLACED, path, before, after)
    elif program and program == final.get("program_sha256") and verdicts.is_judged(old) and verdicts.is_judged(final):
        if not is_same(old, final):
            yield Change(CONTRADICTED, path, old, final)
    elif NONE not in (before["verdict"], after["verdict"]) and before["verdict"] != after["verdict"]:
        yield Change(OTHERWISE, path, before, after)
    elif old["verdict"] == NONE != final["verdict"]:
        yield Change(NOW_JUDGED, path, old, final)
    elif old["verdict"] != NONE == final["verdict"]:
        yield Change(UNREAD, path, old, final)


def between(old: dict[str, Verdict], answers: list[Verdict]) -> list[Change]:
    """What changed between the lines of the file and what is there. What stands for a folder that can't be read is no movie, and
    is told once."""
    there = {it["path"]: it for it in answers if not it["path"].endswith("/")}
    gone = {path: of_before(line) for path, line in old.items() if path not in there and not path.endswith("/")}
    left: dict[str, list[str]] = {}
    for path, verdict in reversed(gone.items()):
        left.setdefault(verdict["digest"] or "", []).append(path)
    found = [Change(UNREAD, it["path"], None, it) for it in answers if it["path"].endswith("/") and it["path"] not in old]
    for path, verdict in there.items():
        if path in old:
            found += step(path, old[path], verdict)
        elif verdict["digest"] and (places := left.get(verdict["digest"])):
            before = gone.pop(source := places.pop())
            steps = list(step(path, before, verdict))
            # (what was moved is what was there; what became of it then is a change of its own)
            found += [Change(MOVED, path, before, before if steps else verdict, source), *steps]
        else:
            found.append(Change(NEW, path, None, verdict))
    found += [Change(GONE, path, verdict, None) for path, verdict in gone.items()]
    return sorted(found, key=lambda it: ALL.index(it.kind))


def untold(file: pathlib.Path, changes: list[Change], length: int | None) -> list[Change]:
    """The changes that don't stand behind this length of the file: a run that was killed may have kept some, and told none."""
    if length is None:
        return changes
    kept = set()
    for line in files.lines(file, length):
        with contextlib.suppress(ValueError, LookupError, TypeError, AttributeError):
            kept.add(_without_times(verdicts.object_in(line)))
    return [it for it in changes if _without_times(it.item("")) not in kept]


def _without_times(item: dict[str, Any]) -> str:
    """An object as text, without the times at which it was written and its movie judged."""
    sides = {side: {key: it for key, it in (item[side] or {}).items() if key != "judged"} for side in ("old", "new")}
    return json.dumps({**item, "when": "", **sides}, sort_keys=True)


def lines(file: pathlib.Path, changes: list[Change], when: str) -> Iterator[bytes]:
    """What is to be added to the file for these changes. A line that was cut off stays, on a line of its own."""
    if changes and b"".join(files.lines(file, max(files.length(file) - 1, 0))) not in (b"", b"\n"):
        yield b"\n"
    yield from (verdicts.object_line(it.item(when)) for it in changes)


def read(data: Iterable[bytes]) -> Iterator[Change]:
    """The changes in lines of the file; those that are cut off or damaged are none."""
    for line in data:
        with contextlib.suppress(ValueError, LookupError, TypeError, AttributeError):
            yield Change.read(verdicts.object_in(line))


def left(file: pathlib.Path) -> dict[str, str | None]:
    """The paths at which there is no movie any more, by the last change of each, with the digest of what was there."""
    found: dict[str, str | None] = {}
    for it in read(files.lines(file)):
        found.pop(it.path, None)
        if it.kind == GONE and it.old:
            found[it.path] = it.old["digest"]
        elif it.kind == MOVED and it.new:
            found[it.moved_from] = it.new["digest"]
    return found


def since(file: pathlib.Path, moment: datetime.datetime) -> Iterator[tuple[str, str]]:
    """The lines of the changes since a moment, each after its time, with the reason; of a line that is damaged that it is so."""
    for number, line in enumerate(files.lines(file), 1):
        try:
            item = verdicts.object_in(line) if line.strip() else {}
            if item and datetime.datetime.fromisoformat(item["when"]) >= moment:
                yield f"{item['when']} {told(item)}", why(item)
        except (ValueError, LookupError, TypeError, AttributeError):
            yield f"(line {number} of {NAME} is cut off or damaged)", ""
