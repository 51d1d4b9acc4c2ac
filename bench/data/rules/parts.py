"""What cartridges that are made at random share: choices that follow from a name, pieces of source, and inputs."""

from __future__ import annotations

import hashlib
from collections.abc import Sequence
from typing import TypeVar

T = TypeVar("T")
OBJECTS = ("RESP0", "RESP1", "RESM0", "RESM1", "RESBL")
MOTIONS = ("HMP0", "HMP1", "HMM0", "HMM1", "HMBL")
NARROW = (0, 1, 2, 3, 4, 6)  # the modes in which a player has 8 pixels
COMMON = """
.page 64
wait: jmp ($0086)
slide: .byte SLIDE,$C5,$EA
rts
.page 60
random: ldy #5
step: lda $80
lsr
bcc even
eor #$B4
even: sta $80
dey
bne step
rts
pick: jsr random
and #$3F
cmp #50
bcc slow
sbc #32
slow: clc
adc #lo(slide)
sta $86
rts
place: ldx #4
placed: jsr pick
sta WSYNC
jsr wait
sta RESP0,x
dex
bpl placed
rts
off: lda #0
sta WSYNC
sta GRP0
sta GRP1
sta GRP0
sta ENAM0
sta ENAM1
sta ENABL
sta WSYNC
sta PF0
sta PF1
sta PF2
sta GRP1
sta VDELP0
sta VDELP1
sta VDELBL
rts
pack: ldx #7
register: lda CXM0P,x
asl
rol $88
rol $89
asl
rol $88
rol $89
dex
bpl register
lda $88
sta $A0,y
lda $89
sta $A1,y
sta WSYNC
sta CXCLR
rts
""".replace("SLIDE", ",".join(["$C9"] * 48))
START = """
start: sei
cld
{first}
ldx #$FF
txs
lda #0
sta VSYNC
sta VBLANK
ldx #$29
clear: sta $00,x
dex
cpx #3
bne clear
sta WSYNC
sta HMCLR
sta CXCLR
lda #{seed}
sta $80
lda #hi(slide)
sta $87
{before}
"""
FRAME = """
frame: lda #2
sta WSYNC
sta VBLANK
sta WSYNC
sta VSYNC
sta WSYNC
sta WSYNC
sta WSYNC
lda #0
sta VSYNC
inputs: inc $81
lda SWCHA
sta $82
lda SWCHB
sta $83
lda INPT4
and #$80
sta $84
lda INPT5
and #$80
sta $85
eor $84
eor $83
eor $82
eor $80
bne seeded
lda #$5A
seeded: sta $80
sta WSYNC
sta CXCLR
ldx #18
above: sta WSYNC
dex
bne above
lda #0
sta WSYNC
sta VBLANK
{bands}
lda #2
sta WSYNC
sta VBLANK
jsr off
{below}
jmp frame
"""


class Chance:
    """Choices that follow from a name."""

    def __init__(self, name: str) -> None:
        self.left = iter(hashlib.shake_256(name.encode()).digest(1 << 16))

    def below(self, count: int) -> int:
        """A number from 0 on."""
        return (next(self.left) << 8 | next(self.left)) % count

    def of(self, things: Sequence[T]) -> T:
        """One of these."""
        return things[self.below(len(things))]

    def byte(self, mask: int = 0xFF) -> int:
        """A byte with bits of this mask."""
        return self.below(256) & mask

    def graphic(self) -> int:
        """A shape of eight bits."""
        return self.of((0xFF, 0x81, 0xAA, 0x3C, self.byte(), self.byte()))

    def mode(self, modes: Sequence[int] = NARROW) -> int:
        """What NUSIZ gets: a mode, and a size of the missile."""
        return self.of(modes) | self.below(4) << 4


def nops(cycles: int) -> str:
    """Instructions that take so many cycles, and do nothing."""
    return "lda $80; " * (cycles % 2) + "nop; " * ((cycles - 3 * (cycles % 2)) // 2)


def lines(count: int) -> str:
    """So many lines."""
    return "sta WSYNC; " * count


def writes(pairs: Sequence[tuple[str, int]]) -> str:
    """Registers that get a byte at the beginning of a line, four in each."""
    groups = [pairs[at : at + 4] for at in range(0, len(pairs), 4)]
    return "".join("sta WSYNC; " + "".join(f"lda #{byte}; sta {name}; " for name, byte in group) for group in groups)


def when(name: str, byte: int) -> str:
    """A register that gets a byte in cycle 24 to 73 of a line, as the frame's number says."""
    return f"jsr pick; lda #{byte}; sta WSYNC; jsr wait; sta {name}; "


def shapes(chance: Chance, modes: Sequence[int] = NARROW, control: Sequence[int] = (0, 1, 4, 5), is_on: bool = True) -> str:
    """Modes, colours, playfield and, if they are on, graphics and missiles."""
    pairs = [(f"NUSIZ{it}", chance.mode(modes)) for it in (0, 1)] + [("CTRLPF", chance.of(control) | chance.below(4) << 4)]
    pairs += [(f"REFP{it}", chance.byte(8)) for it in (0, 1)] + [(it, chance.byte()) for it in ("COLUP0", "COLUP1", "COLUPF", "COLUBK")]
    pairs += [(f"PF{it}", chance.graphic()) for it in (0, 1, 2)]
    return writes(pairs + (graphics(chance) if is_on else []))


def graphics(chance: Chance) -> list[tuple[str, int]]:
    """All objects on."""
    return [("GRP0", chance.graphic()), ("GRP1", chance.graphic()), ("ENAM0", 2), ("ENAM1", 2), ("ENABL", 2)]


def motions(chance: Chance) -> str:
    """Each motion register set to some motion."""
    return writes([(it, chance.byte(0xF0)) for it in MOTIONS])


def inputs(name: str, frames: int, has_switches: bool = True) -> bytes:
    """What is held: joysticks not to both sides at once, some switches, and buttons; mostly as in the frame before."""
    chance, held, found = Chance(f"inputs of {name}"), (0xFF, 0x3F, 0), b""
    for _ in range(frames):
        if chance.below(3) == 0:
            sticks = [chance.of((0xF, 0xE, 0xD, 0xB, 0x7, 0xA, 0x9, 0x6, 0x5)) for _ in range(2)]
            console = 0x34 | chance.of((3, 3, 3, 2, 1)) | chance.byte(0xC8)
            held = (sticks[0] << 4 | sticks[1], console if has_switches else 0x3F, chance.below(4))
        found += bytes(held)
    return found
