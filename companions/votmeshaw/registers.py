"""The registers that a program reads, and which habit of a game has one read otherwise elsewhere."""

from __future__ import annotations

import dataclasses
import re
from collections.abc import Sequence

from votmeshaw.habits import Habit
from votmeshaw.hot_spots import is_hot_spot

READ = re.compile(r"read ([0-9A-F]{4}) [0-9A-F]{2}")
COLLISIONS = ("CXM0P", "CXM1P", "CXP0FB", "CXP1FB", "CXM0FB", "CXM1FB", "CXBLPF", "CXPPMM")
OF_THE_TIA = (*COLLISIONS, "INPT0", "INPT1", "INPT2", "INPT3", "INPT4", "INPT5")
PORTS = ("SWCHA", "SWACNT", "SWCHB", "SWBCNT")
TIMER = ("INTIM", "the timer's flag")
HOT_SPOT = "a hot spot"
# Of boards with memory of their own the places from 000 to FFF where it is read (docs/MACHINE.md, 13.2), and the banks with which they are.
OF_SC = ((range(0x80, 0x100), ""),)
MEMORY = {"F8SC": OF_SC, "F6SC": OF_SC, "F4SC": OF_SC, "FA": ((range(0x100, 0x200), ""),), "CV": ((range(0x400), ""),),
          "E7": ((range(0x400, 0x800), " B=7."), (range(0x900, 0xA00), ""))}
# Of each habit the registers that it has read otherwise.
EXPLAINED = {Habit.HMOVE: COLLISIONS, Habit.WIDE: COLLISIONS, Habit.BLANKED: COLLISIONS, Habit.TIMER: TIMER, Habit.WHOLE: OF_THE_TIA}


@dataclasses.dataclass
class Read:
    """A read of a register, or of a hot spot of the board: its name, and the instruction as 'vcs_check trace' has it."""

    register: str
    by: str


def register_of(address: int, board: str) -> str | None:
    """The name of the register that a read of an address reaches, by docs/MACHINE.md, section 2, or that it is a hot spot of this board;
    none of memory and other addresses of the cartridge."""
    if is_hot_spot(board, address):
        return HOT_SPOT
    if address & 0x1000:
        return None
    if address & 0x80 == 0:
        return OF_THE_TIA[address & 0x0F] if address & 0x0F < len(OF_THE_TIA) else None
    if address & 0x200:
        return TIMER[address & 1] if address & 4 else PORTS[address & 3]
    return None


def names_in(line: str, board: str) -> list[str]:
    """The registers that the instruction of a line reads, of a game on this board."""
    return [name for it in READ.findall(line) if (name := register_of(int(it, 16), board))]


def all_read(trace: Sequence[str], board: str) -> list[str]:
    """The registers that are read in these lines of a frame, in the order of the first reads."""
    return list(dict.fromkeys(name for line in trace for name in names_in(line, board)))


def last_read(trace: Sequence[str], board: str) -> Read | None:
    """The last read of a register in these lines of a frame."""
    for line in reversed(trace):
        if names := names_in(line, board):
            return Read(names[-1], " ".join(line.split()))
    return None


def _reads_memory(line: str, board: str) -> bool:
    """Whether the instruction of a line reads memory of the board's own."""
    found = [address for it in READ.findall(line) if (address := int(it, 16)) & 0x1000]
    return any(address & 0xFFF in places and banks in line for places, banks in MEMORY.get(board, ()) for address in found)


def last_memory_read(trace: Sequence[str], board: str) -> str | None:
    """The last instruction in these lines of a frame that reads memory of the board's own."""
    return next((" ".join(line.split()) for line in reversed(trace) if _reads_memory(line, board)), None)
