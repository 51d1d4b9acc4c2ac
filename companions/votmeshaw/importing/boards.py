"""On which board a cartridge is, by its length and its bytes, for a movie of version 3.

The byte patterns are those by which Stella (its CartDetector) and MAME (its slot of the 2600) tell bank schemes apart, and which both
name as public knowledge. A cartridge may have a pattern by chance: so a pattern is told, and where two boards fit none is chosen."""

import functools
import re
from collections.abc import Iterator
from typing import NamedTuple

from votmeshaw.hot_spots import is_hot_spot, places
from votmeshaw.importing.cartridges import ABSOLUTE, AFTER_FE, BANK, BEFORE_FE, COMMAVID, FE, INDEXED, NOT_PLAYED, STORES_OF_F8, Scheme, bank_scheme
from votmeshaw.importing.runs import Refused, shown
from votmeshaw.layout import BOARDS, Board

BY_NAME = {it.name: it for it in BOARDS}
LENGTHS = tuple(sorted({length for board in BOARDS for length in board.lengths}))
# The patterns of boards, by the boards' names.
PATTERNS = {it.name: it for it in (*BEFORE_FE, FE, *AFTER_FE, COMMAVID)} | {
    "E7": Scheme("E7", ("ADE2FF", "ADE5FF", "ADE51F", "ADE71F", "0CE71F", "8DE7FF", "8DE71F")),
    "0FA0": Scheme("0FA0", ("2CC00F", "8DC00F", "ADC00F", "2CC0EF")),
}
# Those of schemes that aren't played, by the lengths that these have.
OTHERS = {8192: (Scheme("WD", ("A5394C",)), Scheme("E7", ("ADE4FF", "ADE5FF", "ADE6FF"))), 4096: (COMMAVID,), 12_288: (PATTERNS["E7"],)}
# Of any longer length, with which 3F could be taken for it: MAME's, and what Stella looks for beside the pattern of 3F.
TIGERVISION_WITH_RAM, STORE_OF_3E = Scheme("3E", ("853EA900",)), Scheme("3E", ("853E",))
# The lengths at which neither looks for a board's pattern, since another board has them.
NOT_LOOKED_FOR = {"3F": (16_384,)}
# The board of a length whose cartridges have no pattern, and the places of the memory into which one of these writes.
PLAIN = {2048: "2K", 4096: "4K", 8192: "F8", 12_288: "FA", 16_384: "F6", 32_768: "F4", 65_536: "F0"}
WRITTEN = {"FA": range(0x100)}


class Found(NamedTuple):
    """A board, and why it is taken."""

    board: Board
    why: str


def named(data: bytes, name: str) -> Board:
    """The board of this name; Refused if its cartridges have another length."""
    board = BY_NAME[name]
    if len(data) not in board.lengths:
        raise Refused(f"GAME has {len(data)} bytes, and a cartridge of board {name} has {' or '.join(map(str, board.lengths))}")
    return board


def of_run(data: bytes, said: str) -> Found | None:
    """The board that a run names, if it names one; Refused if that isn't played."""
    name = bank_scheme(said)
    if name in BY_NAME and len(data) in BY_NAME[name].lengths:
        return Found(BY_NAME[name], f"the run was played on the board {shown(said)}")
    if name in NOT_PLAYED or name in BY_NAME:
        why = f"and GAME has {len(data)} bytes" if name in BY_NAME else "which isn't played here"
        raise Refused(f"the run was played on the board {shown(said)}, {why} (--board says another one)")
    return None


def is_lost(name: str, address: int) -> bool:
    """Whether a write to this address does nothing on a plain board, where no memory and no hot spot is."""
    is_used = is_hot_spot(name, address) or address & 0xFFF in WRITTEN.get(name, ())
    return name in PLAIN.values() and bool(address & 0x1000) and not is_used


def _banks(data: bytes) -> list[bytes]:
    """A cartridge in pieces of 4096 bytes."""
    return [data[at : at + BANK] for at in range(0, len(data), BANK)]


def _pattern(data: bytes, scheme: Scheme | None) -> str:
    """The pattern of a scheme that stands in a cartridge often enough, or nothing."""
    return next((it for it in scheme.patterns if data.count(bytes.fromhex(it)) >= scheme.times), "") if scheme else ""


def _sign(data: bytes, name: str) -> str:
    """What of a cartridge is as on this board alone, or nothing."""
    if name.endswith("SC"):
        is_twice = all(it[:128] == it[128:256] for it in _banks(data))
        return "each of its banks begins with 128 bytes that stand there twice, as where a cartridge has memory" if is_twice else ""
    if len(data) in NOT_LOOKED_FOR.get(name, ()) or name == "FE" and any(data.count(bytes.fromhex(it)) >= 2 for it in STORES_OF_F8):
        return ""
    found = _pattern(data, PATTERNS.get(name))
    times = " twice" if found and PATTERNS[name].times > 1 else ""
    return f"it has the bytes {found}{times}, as such cartridges have" if found else ""


def fitting(data: bytes) -> Iterator[Found]:
    """The boards of which a cartridge has a sign."""
    for board in BOARDS:
        if len(data) in board.lengths and (sign := _sign(data, board.name)):
            yield Found(board, sign)


@functools.cache
def _selecting(first: int, last: int) -> re.Pattern[bytes]:
    """An instruction with an absolute address, perhaps with an index below ten, that reaches an address with one of these last bytes."""
    plain, indexed = (re.escape(bytes(range(it, last + 1))) for it in (first, max(first - 9, 0)))
    return re.compile(b"(?s:[%s][%s]|[%s][%s])[\x1f\x3f\x5f\x7f\x9f\xbf\xdf\xff]" % (ABSOLUTE, plain, INDEXED, indexed))


def _not_played(data: bytes) -> str:
    """Why a cartridge may be of a scheme that isn't played, or nothing."""
    stores = (STORE_OF_3E,) if _pattern(data, PATTERNS["3F"]) else ()
    others = (*OTHERS.get(len(data), ()), *((TIGERVISION_WITH_RAM, *stores) if len(data) >= 2 * BANK else ()))
    found = ((it.name, _pattern(data, it)) for it in others)
    return next((f"it has the bytes {sign} of the scheme {name}, which isn't played with {len(data)} bytes" for name, sign in found if sign), "")


def doubt(data: bytes) -> str:
    """Why a cartridge without a sign may be on another board than the plain one of its length, or nothing."""
    if not (name := PLAIN.get(len(data))):
        return "it has no byte pattern of a board"
    if not (spots := places(name)) or len({*_banks(data)}) == 1 or _selecting(spots[0] & 0xFF, spots[-1] & 0xFF).search(data):
        return ""
    return f"no instruction in it has an address that selects banks on the board {name}"


def found(data: bytes, said: str) -> Found:
    """The board of a cartridge, of which a run perhaps says one; Refused if it isn't known."""
    if board := of_run(data, said):
        return board
    fits, why = list(fitting(data)), _not_played(data)
    if len(fits) == 1 and not why:
        return fits[0]
    if len(fits) > 1:
        names = " and ".join(f"{it.board.name} ({it.why})" for it in fits)
        raise Refused(f"GAME could be on the boards {names}: --board says which")
    if why := why or doubt(data):
        names = ", ".join(it.name for it in BOARDS if len(data) in it.lengths)
        raise Refused(f"GAME's board isn't known: {why} (--board says it: {names})")
    return Found(BY_NAME[PLAIN[len(data)]], f"it has {len(data)} bytes, and no byte pattern of another board")
