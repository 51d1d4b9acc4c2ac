"""What a program's report has of a movie, the object that 'vcs_check report --json' prints: which verdicts there are, the line of each,
and whether an object can be a report, of that verdict. The facts of 1.1.0 and older have other names, and aren't looked at."""

import re
from collections.abc import Iterator
from typing import Any

from votmeshaw.layout import VERSIONS

# The rules by which movies of each version are judged.
CHIP, GUIDE = "the chip's rules", "the guide's rules"
RULES = {it.number: CHIP if it.board_bytes else GUIDE for it in VERSIONS}
# The verdicts in the order of their statuses: status 0 is genuine.
KINDS = ("genuine", "false checkpoint", "fault", "refused")
NONE = "not judged"
# The facts that a verdict can't be without, and those of one verdict alone.
FACTS: dict[str, tuple[str, ...]] = {
    KINDS[0]: ("frames", "checkpoints", "start", "after_last_checkpoint"), KINDS[1]: ("checkpoint", "frame", "differs"),
    KINDS[2]: ("frame", "fault"), KINDS[3]: ("refusal",),
}
OF_ONE = {"differs": KINDS[1], "fault": KINDS[2], "refusal": KINDS[3]}
# The types of facts; one without a type here may be anything.
NUMBERS = ("cartridge", "checkpoints", "first_checkpoint", "last_checkpoint", "largest_gap", "after_last_checkpoint", "version",
           "frames", "scanline", "cycle", "checkpoint", "frame")
TEXTS = ("md5", "sha1", "sha256", "banks", "start", "movie_sha256", "program", "segments", "claims", "reason", "fault", "refusal")
LISTS = {"differs": {"number", "claimed", "found"}, "start_differs": {"number", "start", "power_on"}}
# What can't be more than something else.
AT_MOST = (("frame", "frames"), ("checkpoint", "checkpoints"), ("last_checkpoint", "frames"), ("first_checkpoint", "last_checkpoint"))


def line_of(facts: dict[str, Any]) -> str:
    """The line of the verdict in these facts, as 'vcs_check verify' prints it."""
    kind = facts["verdict"]
    if kind == KINDS[0]:
        return f"genuine: {facts['frames']} frames, {facts['checkpoints']} checkpoints"
    if kind == KINDS[1]:
        return f"false checkpoint {facts['checkpoint']} at frame {facts['frame']}"
    if kind == KINDS[2]:
        return f"fault at frame {facts['frame']}: {facts['fault']}"
    if kind == KINDS[3]:
        return f"refused: {facts['refusal']}"
    raise ValueError("no such verdict")


def rules_of(facts: dict[str, Any]) -> str:
    """By which rules a movie was judged; nothing of one that is refused, and of reports without a version."""
    return RULES.get(facts.get("version", 0), "")


def is_of(value: Any, types: tuple[type, ...]) -> bool:
    """Whether a value has one of these types; true and false are no numbers."""
    return isinstance(value, types) and not isinstance(value, bool)


def wrong_fact(facts: dict[str, Any]) -> str:
    """The first fact of a report that isn't as reports have it, or nothing."""
    kind = facts["verdict"]
    wrong = [it for it in FACTS[kind] if it not in facts]
    wrong += [it for it in NUMBERS if not is_of(facts.get(it, 0), (int,))]
    wrong += [it for it in TEXTS if not is_of(facts.get(it, ""), (str,))]
    notes = facts.get("notes", [])
    wrong += ["notes"] if not isinstance(notes, list) or not all(isinstance(it, str) for it in notes) else []
    wrong += ["last_input"] if not is_of(facts.get("last_input"), (int, type(None))) else []
    wrong += ["start_differs"] if kind == KINDS[0] and facts.get("start") != "power-on" and "start_differs" not in facts else []
    registers = facts.get("registers", {})
    wrong += ["registers"] if not is_of(registers, (dict,)) or not all(is_of(it, (str,)) for it in registers.values()) else []
    wrong += ["scanline"] if registers and not facts.keys() >= {"scanline", "cycle"} else []
    for name, keys in LISTS.items():
        rows = facts.get(name, [])
        is_right = isinstance(rows, list) and all(
            isinstance(row, dict) and row.keys() == keys and all(isinstance(it, str) for it in row.values()) for row in rows)
        wrong += [] if is_right else [name]
    return wrong[0] if wrong else ""


def _of_numbers(facts: dict[str, int]) -> Iterator[str]:
    """Numbers of a report that can't be, alone or together."""
    yield from (f"{name} {facts[name]}" for name in NUMBERS if facts.get(name, 0) < 0)
    for less, more in AT_MOST:
        if less in facts and more in facts and facts[less] > facts[more]:
            yield f"{less} {facts[less]}, {more} {facts[more]}"
    if facts.keys() >= {"frames", "after_last_checkpoint"}:
        rest = facts["frames"] - facts.get("last_checkpoint", 0)
        if facts["after_last_checkpoint"] != rest:
            yield f"after_last_checkpoint {facts['after_last_checkpoint']}, frames without a claim {rest}"


def _contradictions(kind: str, status: int | None, line: str, facts: dict[str, Any]) -> Iterator[str]:
    """What can't be so together."""
    if kind == NONE:
        yield from ["with facts"] if facts else []
        return
    if status != KINDS.index(kind):
        yield f"with status {status}"
    if not re.match(f"{kind}( |:|$)", line):
        yield f"with the line {line[:80]!r}"
    if facts.get("verdict") not in KINDS:
        return
    if facts["verdict"] != kind:
        yield f"with facts of {facts['verdict']}"
        return
    if line_of(facts) != line:
        yield f"with the line {line[:80]!r} and facts of {line_of(facts)[:80]!r}"
    yield from (f"with {name}" for name, its in OF_ONE.items() if facts.get(name) and kind != its)
    for name in ("segments", "claims"):
        if kind == KINDS[0] and set(facts.get(name, "")) - {"."}:
            yield f"with {name} {facts[name][:80]}"
    if kind == KINDS[1] and "claims" in facts and facts["claims"].find("X") != facts["checkpoint"] - 1:
        yield f"with claims {facts['claims'][:80]}"
    yield from (f"with {it}" for it in _of_numbers(facts))


def contradiction(kind: str, status: int | None, line: str, facts: dict[str, Any]) -> str:
    """What says something else than this verdict, or nothing."""
    return next((f"{kind}, {it}" for it in _contradictions(kind, status, line, facts)), "")
