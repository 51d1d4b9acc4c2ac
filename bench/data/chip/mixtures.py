"""Cartridges that write to the TIA in mid-line, at random. A frame has two places in which the objects are put somewhere and shown, and
after each some stretches of lines. In a line registers of the cartridge's kind are written, at a fixed cycle or at one that the frame's
number chooses, with fixed bytes or with those of the frame: its number, and what is held. After each stretch the collisions are put into
memory, and cleared."""

from __future__ import annotations

from assembler import assemble, length
from parts import COMMON, FRAME, MOTIONS, START, Chance, graphics, nops, shapes, writes

FRAMES, LINES, SIZE = 32, 262, 4096
NUMBERS = (1, 2, 3, 4)
MOST_LINES, MOST_STRETCHES, ABOVE_AND_BELOW = 206, 16, 24
STROBES = "RESP0 RESP1 RESM0 RESM1 RESBL HMOVE HMCLR CXCLR RSYNC"
# The registers of each kind; one that is named twice is written twice as often.
KINDS = {
    "all": f"NUSIZ0 NUSIZ1 COLUP0 COLUP1 COLUPF COLUBK CTRLPF CTRLPF REFP0 REFP1 PF0 PF1 PF2 {STROBES} GRP0 GRP0 GRP1 GRP1 ENAM0 ENAM1 "
    "ENABL HMP0 HMP1 HMM0 HMM1 HMBL VDELP0 VDELP1 VDELBL RESMP0 RESMP1 HMOVE HMOVE VBLANK",
    "sizes": "NUSIZ0 NUSIZ0 NUSIZ0 NUSIZ1 NUSIZ1 NUSIZ1 CTRLPF CTRLPF RESP0 RESP1 RESM0 RESM1 GRP0 GRP1 ENAM0 RESMP0 RESMP1 HMOVE HMP0 "
    "HMP1",
    "motions": "HMP0 HMP1 HMM0 HMM1 HMBL HMOVE HMOVE HMOVE HMOVE HMCLR RESP0 RESP1 RESM0 RESM1 RESBL NUSIZ0 NUSIZ1 CTRLPF CXCLR",
    "shots": "RESM0 RESM0 RESM1 RESM1 RESBL RESBL RESMP0 RESMP0 RESMP1 RESMP1 NUSIZ0 NUSIZ1 CTRLPF ENAM0 ENAM1 ENABL HMOVE HMM0 HMM1 HMBL",
    "shapes": "GRP0 GRP0 GRP1 GRP1 PF0 PF1 PF2 REFP0 REFP1 ENAM0 ENAM1 ENABL VDELP0 VDELP1 VDELBL CTRLPF CTRLPF COLUPF COLUBK VBLANK CXCLR",
    "edges": "RESP0 RESP1 RESM0 RESM1 RESBL RESBL HMOVE HMOVE HMOVE HMP0 HMP1 HMBL NUSIZ0 NUSIZ1 GRP0 GRP1 ENABL RSYNC VBLANK RESMP0",
}
# Cycles before a write.
FIXED = (0, 2, 3, 4, 5, 6, 7, 8, 10, 12, 14, 16, 17, 18, 19, 20, 21, 22, 25, 30, 35, 40, 45, 50, 55, 60, 61, 62, 63, 64)


def byte(chance: Chance, name: str) -> str:
    """What a register gets."""
    kind = name.rstrip("01")
    if kind in ("GRP", "PF") or name == "PF2":
        return f"#{chance.graphic()}"
    if chance.below(4) == 0:
        return f"${0x80 + chance.below(4):X}"
    own = {"NUSIZ": chance.mode(range(8)), "CTRLPF": chance.below(6) | chance.below(4) << 4, "REFP": chance.byte(8)}
    own |= {"ENAM": chance.of((0, 2, 2)), "ENABL": chance.of((0, 2, 2)), "RESMP": chance.of((0, 0, 2))}
    own |= {it: chance.of((0, 0, 1)) for it in ("VDELP", "VDELBL")} | {it: chance.byte(0xF0) for it in MOTIONS}
    return f"#{own.get(kind, own.get(name, chance.byte()))}"


def write(chance: Chance, name: str) -> str:
    """A register that is written."""
    if name == "VBLANK":
        return f"lda #2; sta VBLANK; {nops(chance.of((0, 2, 3, 4, 5, 8)))}lda #0; sta VBLANK; "
    if name in STROBES.split():
        return f"{'inc' if chance.below(12) == 0 and name != 'RSYNC' else 'sta'} {name}; "
    return f"lda {byte(chance, name)}; sta {name}; "


def line(chance: Chance, names: list[str]) -> tuple[str, int]:
    """A line, or two, in which registers are written; and how many lines it takes, about."""
    if chance.below(5) < 2:
        name = chance.of([it for it in names if it != "VBLANK"])
        more = "".join(nops(chance.of((0, 0, 2, 3, 4))) + write(chance, chance.of(names)) for _ in range(chance.below(3)))
        return f"jsr pick; lda {byte(chance, name)}; sta WSYNC; jsr wait; sta {name}; {more}", 3
    text = f"sta WSYNC; {nops(chance.of(FIXED))}"
    for _ in range(chance.of((1, 1, 2, 2, 3, 4, 5))):
        text += write(chance, chance.of(names)) + nops(chance.of((0, 0, 0, 2, 3, 4, 5, 6, 9)))
    return text, 1 + (2 * text.count("nop;") + 3 * text.count("sta") + 2 * text.count("lda")) // 70


def stretch(chance: Chance, names: list[str], place: int) -> tuple[str, int]:
    """Some lines, and the collisions; and how many lines that takes, about."""
    found = [line(chance, names) for _ in range(3 + chance.below(4))]
    shown = writes([*graphics(chance), ("RESMP0", 0), ("RESMP1", 0)]) if chance.below(3) == 0 else ""
    return "".join(it for it, _ in found) + f"{shown}ldy #{2 * place}; jsr pack\n", 5 + shown.count("WSYNC") + sum(it for _, it in found)


def put(chance: Chance) -> tuple[str, int]:
    """The objects put somewhere, and shown; and how many lines that takes, about."""
    return f"jsr off; jsr place; {writes([('RESMP0', 0), ('RESMP1', 0), ('HMCLR', 0)])}{shapes(chance, range(8), range(6))}", 22


def cartridge(kind: str, number: int) -> bytes:
    """A mixture."""
    chance, names = Chance(f"{kind}-{number}"), KINDS[kind].split()
    text, lines = put(chance)
    for place in range(MOST_STRETCHES):
        again, more = put(chance) if place == 5 else ("", 0)
        next_text, count = stretch(chance, names, place)
        if lines + more + count > MOST_LINES or length(text + again + next_text) > SIZE - 500:
            break
        text, lines = text + again + next_text, lines + more + count
    below = f"lda #0; sta RESMP0; sta RESMP1; ldx #{LINES - ABOVE_AND_BELOW - lines}; under: sta WSYNC; dex; bne under\n"
    return assemble(START.format(seed=number, first="", before="") + FRAME.format(bands=text, below=below) + COMMON, SIZE)
