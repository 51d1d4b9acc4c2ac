"""How the answers of an archive are kept, and what changed: in verdicts.jsonl and changes.jsonl, whatever ends a run.

All that is to be written is written beside these files first. Then verdicts.sum.json says what is there and what will be: from this
moment on it is kept. If the run ends before all is in its place, or before it told what changed, the next run does so.
"""

import pathlib

from votmeshaw import changes, files, sums, verdicts
from votmeshaw.changes import Change
from votmeshaw.sums import Sum
from votmeshaw.verdicts import Verdict


class Kept:
    """The files of an archive in a folder."""

    def __init__(self, folder: pathlib.Path) -> None:
        self.file, self.changes = folder / verdicts.NAME, folder / changes.NAME
        # (by a run that was ended before it told anything)
        self.is_first = not sums.kept(self.file)[-1]["lines"] if sums.kept(self.file) else not self.file.exists()
        self.sum: Sum | None = None

    def lines(self) -> list[Verdict]:
        """The lines that are kept."""
        self.sum = verdicts.settled(self.file)
        return list(verdicts.lines_in(self.file)) if self.file.exists() else []

    def keep(self, answers: list[Verdict], found: list[Change], when: str) -> None:
        """Keeps answers, and what changed, where there were these lines before."""
        untold = changes.untold(self.changes, found, self.sum["changes"] if self.sum else None)
        if not untold and not self.is_first and self._are_there(answers):
            return
        end = files.length(self.changes)
        before: Sum = {**(self.sum or sums.of_file(self.file)), "changes": end}
        files.write_beside(self.changes, changes.lines(self.changes, untold, when))
        try:
            files.write_beside(self.file, map(verdicts.spelled, answers))
        except BaseException:
            files.beside(self.changes).unlink(missing_ok=True)
            raise
        now: Sum = {**sums.of_file(files.beside(self.file)), "changes": end + files.length(files.beside(self.changes))}
        sums.keep(self.file, before, now)
        self._add(before)
        files.into_place(self.file)
        self.sum = now

    def _add(self, before: Sum) -> None:
        """Adds to the changes what is written beside them."""
        if data := files.content(files.beside(self.changes)):
            files.add(self.changes, before["changes"], data)

    def _are_there(self, answers: list[Verdict]) -> bool:
        """Whether these answers are the lines that are there, each under its path, and in their order."""
        end = 0
        for it in answers:
            place = it.get("place")
            if not place or place.source.file != self.file or place.is_before or (place.start, place.path) != (end, it["path"]):
                return False
            end += place.length
        return end == files.length(self.file)

    def left(self) -> list[Change]:
        """What a run kept that was ended, and may not have told; what it left to do is done then. If what it wrote isn't beside the
        files any more, nothing of it was kept."""
        found = sums.kept(self.file)
        if not found or found[0] == found[1]:
            return []
        now, before = found
        is_there = sums.is_same(now, sums.of_file(self.file))
        is_beside = sums.is_same(now, sums.of_file(files.beside(self.file)))
        data = files.content(files.beside(self.changes))
        if not is_there and not is_beside or len(data) != now["changes"] - before["changes"]:
            return []
        self._add(before)
        if not is_there:
            files.into_place(self.file)
        return list(changes.read(data.split(b"\n")))

    def told(self) -> None:
        """Writes down that all is told that is kept."""
        now: Sum = {**(self.sum or sums.of_file(self.file)), "changes": files.length(self.changes)}
        if sums.kept(self.file) != [now, now]:
            sums.keep(self.file, now, now)
        files.beside(self.changes).unlink(missing_ok=True)
        self.is_first = False
