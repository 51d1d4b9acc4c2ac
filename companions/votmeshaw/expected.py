"""What is expected of a movie: that it is genuine, and whatever else is asked for, as a start at power-on; and how the others are named."""

import dataclasses
import os
from collections.abc import Iterator

from votmeshaw.cartridges import Cartridges
from votmeshaw.facts import CHIP, KINDS, NONE, rules_of
from votmeshaw.names import printable, readable, shell_word
from votmeshaw.verdicts import Verdict, reason_of
from votmeshaw.verifier import with_reason


@dataclasses.dataclass
class Expected:
    """What is asked for of a genuine movie. Without it nothing is."""

    power_on: bool = False
    to_the_end: bool = False
    cartridges: Cartridges | None = None

    def words(self) -> str:
        """The options that ask for it, each after a blank."""
        found = " --power-on" if self.power_on else ""
        found += " --to-the-end" if self.to_the_end else ""
        folder = shell_word(os.fsdecode(self.cartridges.folder.root)) if self.cartridges else ""
        return found + (f" --known-cartridges --roms {folder}" if folder else "")

    def missed(self, verdict: Verdict) -> str:
        """What a genuine movie isn't that is asked for, or nothing."""
        facts = verdict["facts"]
        found = []
        if self.power_on and facts.get("start") != "power-on":
            found.append("it doesn't begin at power-on")
        if self.to_the_end and not (facts.get("checkpoints") and facts.get("after_last_checkpoint") == 0):
            found.append("no checkpoint stands after its last frame")
        if self.cartridges and not self.cartridges.has(facts.get("cartridge", 0), facts.get("sha256", "")):
            found.append(f"its cartridge isn't known, which has the MD5 {facts.get('md5', '(none)')}")
        return ", ".join(found)

    def told(self, verdict: Verdict | None) -> str:
        """What a movie that is genuine isn't, after its name; or nothing."""
        missed = self.missed(verdict) if verdict and verdict["verdict"] == KINDS[0] else ""
        return f"{readable(verdict['path'])}: genuine, but {missed}" if verdict and missed else ""

    def others(self, answers: list[Verdict]) -> Iterator[str]:
        """A line for each movie that isn't as it should be: its name, the line of its verdict, and the reason."""
        for it in answers:
            if it["verdict"] != KINDS[0]:
                word = NONE if it["verdict"] == NONE else "not genuine"
                rules = f" (by {CHIP})" if rules_of(it["facts"]) == CHIP else ""
                yield f"{word}: {readable(it['path'])}: {printable(with_reason(it['line'], reason_of(it)))}{rules}"
            elif told := self.told(it):
                yield f"not as expected: {told}"


def has_notes(verdict: Verdict) -> bool:
    """Whether there is something to look at before a genuine movie is accepted."""
    facts = verdict["facts"]
    return facts.get("start") != "power-on" or not facts.get("checkpoints") or facts.get("after_last_checkpoint") != 0
