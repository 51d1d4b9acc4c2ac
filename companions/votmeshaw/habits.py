"""Habits of a game that may make its run go another way than in MAME or Stella, looked for in the text of 'vcs_check trace'.
docs/EVIDENCE.md counts what each of them does there. A habit says that a run may go another way, not that it does."""

from __future__ import annotations

import enum
import re
from collections.abc import Iterable
from typing import NamedTuple

# A line of 'trace': scanline, cycle, opcode, text, and the accesses.
LINE = re.compile(r" *(\d+) +(\d+)  ....  (..).{6}  (.{11})  A=.*?P=..(?: B=.)?((?:  (?:read|write) .{4} ..)*)\n?")
# The cycles of a line in which MAME and Stella move objects as this machine does; 0 is the 76th of the line before.
CYCLES_OF_HMOVE = {0, 1, 2, 3, 75}
WIDE = (5, 7)
VBLANK, HMOVE, CXCLR = 0x01, 0x2A, 0x2C
NUSIZ, PLAYFIELD, GRAPHICS, ENABLES = (0x04, 0x05), (0x0D, 0x0E, 0x0F), (0x1B, 0x1C), (0x1D, 0x1E, 0x1F)
INTERVALS = (1, 8, 64, 1024)
# The collision registers that name a player.
OF_PLAYER = ({0, 1, 2, 7}, {0, 1, 3, 7})
LOADS = {"LDA": ("STA", "PHA", "TAX", "TAY", "CMP", "ADC", "SBC", "EOR"), "LDX": ("STX", "TXA", "CPX"), "LDY": ("STY", "TYA", "CPY")}


class Habit(enum.StrEnum):
    """What a game does."""

    HMOVE = "HMOVE in another cycle than 1 to 3, 75 and 76 of a line"
    WIDE = "a collision read of a player of 16 or 32 pixels"
    BLANKED = "a collision read after objects were on while VBLANK blanked"
    TIMER = "INTIM read again past zero"
    WHOLE = "a register of the TIA kept with the bits that nothing drives"


class Access(NamedTuple):
    """A data access: whether it is a write, its address, its byte, and its cycle, counted from the beginning of the first frame."""

    is_write: bool
    address: int
    byte: int
    cycle: int


class Habits:
    """The habits in the frames that were looked at so far, each with the number of the first frame that has it."""

    def __init__(self) -> None:
        self.first: dict[Habit, int] = {}
        self.registers = [0] * 64
        self.base = 0  # the scanline in which the frame began
        self.wide: set[int] = set()  # the players that were wide since the last CXCLR
        self.met_blanked = False
        self.zero: int | None = None  # the cycle in which the timer passes zero
        self.reads_past_zero = 0
        self.loaded: tuple[str, ...] = ()  # the instructions that would keep what the last one read of the TIA

    def look(self, frame: int, trace: Iterable[str]) -> None:
        """Looks at a frame, the next one, as 'trace' prints it."""
        scanline = 0
        for found in filter(None, map(LINE.fullmatch, trace)):
            scanline, cycle, name = int(found[1]), int(found[2]), found[4][:3]
            if name in self.loaded:
                self.note(Habit.WHOLE, frame)
            self.loaded = ()
            accesses = found[5].split("  ")[1:]
            last = 76 * (self.base + scanline) + cycle + cycles(int(found[3], 16))
            for later, access in enumerate(reversed(accesses)):
                kind, address, byte = access.split()
                accesses[-1 - later] = Access(kind == "write", int(address, 16) & 0x1FFF, int(byte, 16), last - later)
            for access in accesses:
                self.access(frame, name, access)
        self.base += scanline

    def note(self, habit: Habit, frame: int) -> None:
        """A frame has a habit."""
        self.first.setdefault(habit, frame)

    def access(self, frame: int, name: str, access: Access) -> None:
        """Looks at a data access."""
        address = access.address
        if address & 0x1080 == 0:
            if access.is_write:
                self.write(frame, address & 0x3F, access)
            else:
                self.read(frame, name, address & 0x0F)
        elif access.is_write and address & 0x1294 == 0x0294:
            self.zero, self.reads_past_zero = access.cycle + access.byte * INTERVALS[address & 3] + 1, 0
        elif address & 0x1285 == 0x0284 and self.zero is not None and access.cycle >= self.zero:
            self.reads_past_zero += 1
            if self.reads_past_zero > 1:
                self.note(Habit.TIMER, frame)

    def write(self, frame: int, register: int, access: Access) -> None:
        """Looks at a write to a register of the TIA."""
        if register == HMOVE and access.cycle % 76 not in CYCLES_OF_HMOVE:
            self.note(Habit.HMOVE, frame)
        if register == CXCLR:
            self.wide, self.met_blanked = set(), False
        self.registers[register] = access.byte
        self.wide |= {it for it in (0, 1) if self.registers[NUSIZ[it]] & 7 in WIDE and self.registers[GRAPHICS[it]]}
        objects = [self.registers[it] for it in GRAPHICS] + [self.registers[it] & 2 for it in ENABLES]
        shown = sum(map(bool, objects)) + any(self.registers[it] for it in PLAYFIELD)
        self.met_blanked |= bool(self.registers[VBLANK] & 2) and shown > 1

    def read(self, frame: int, name: str, register: int) -> None:
        """Looks at a read of a register of the TIA."""
        self.loaded = LOADS.get(name, ())
        if register < 8 and any(register in OF_PLAYER[it] for it in self.wide):
            self.note(Habit.WIDE, frame)
        if register < 8 and self.met_blanked:
            self.note(Habit.BLANKED, frame)


def cycles(opcode: int) -> int:
    """The cycle of an instruction in which its last data access is, if it takes none more for a crossed page."""
    if opcode in (0x48, 0x08):
        return 3
    low, mode = opcode & 3, opcode >> 2 & 7
    if low == 1:
        return (6, 3, 0, 4, 6 if opcode >> 5 == 4 else 5, 4, 5 if opcode >> 5 == 4 else 4, 5 if opcode >> 5 == 4 else 4)[mode]
    is_change = low == 2 and opcode >> 5 not in (4, 5)
    return {1: 5 if is_change else 3, 3: 6 if is_change else 4, 5: 6 if is_change else 4, 7: 7 if is_change else 4}.get(mode, 0)
