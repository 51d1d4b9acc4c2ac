"""Cartridges for the boards of movies of version 3, two for each. In every frame they make the same accesses, chosen at random: loads,
stores and changes of a byte, by address, index and pointer, which select banks by the access that counts or by one that is thrown away;
accesses of a board's memory, at both its ports; calls of what stands in the selected bank. What they find stays in the RIOT's memory.

Each bank has the same program at the same place, so a run goes on whichever is selected, and has bytes and subroutines of its own. Over
the places that select stand instructions of one byte, other ones in each bank. The first cartridge of a board keeps the bytes that it
reads at such places, runs over them, and selects by all addresses that do; the second does none of this, since MAME differs there.

VSYNC, VBLANK and WSYNC are written at 0040 to 0042, where 3F doesn't select.

Not made, since Stella has a way of its own there: reads where memory is written; on FE accesses of 01FE but by loads and the stack; on 3F
reads of 0000 to 003F that aren't thrown away, and writes of the TIA's registers there; on 0840 accesses of 0880 and above; on 0FA0 writes
of ROM."""

from __future__ import annotations

import hashlib
from typing import NamedTuple

from assembler import length, part
from parts import Chance

FRAMES = 24
# The RIOT's memory: a pointer, the banks at power-on, random bytes of the frame, and what was found.
POINTER, AT_START, RANDOM, FOUND, PLACES = 0x84, 0x8C, 0x90, 0xA0, 80
SUBROUTINE = 16  # the bytes that one has
ONE_BYTE = (0xE8, 0xC8, 0xCA, 0x88, 0xEA, 0x18, 0x38, 0x8A, 0x98, 0x4A, 0x0A, 0xB8)  # INX INY DEX DEY NOP CLC SEC TXA TYA LSR ASL CLV
RTS = 0x60
START = """
start: sei; cld; ldx #$FF; txs
{first}
ldx #$70; lda #0
clear: sta $7F,x; dex; bne clear
{kept}
ldx #15
number: txa; ora #$51; sta $90,x; dex; bpl number
lda #2; sta VBLANK+$40
frame: lda #2; sta WSYNC+$40; sta VSYNC+$40
sta WSYNC+$40; sta WSYNC+$40; sta WSYNC+$40
lda #0; sta VSYNC+$40
sta $8C; sta $8D; sta $8E; inc $81
ldx #15
random: lda $90,x; lsr; bcc even; eor #$B4
even: clc; adc $81; adc SWCHA; bne odd; lda #$47
odd: sta $90,x; dex; bpl random
"""
END = "clc; clv; ldy $9F; ldx #170; wait: sta WSYNC+$40; dex; bne wait; jmp frame"


class Layout(NamedTuple):
    """A board: the bytes of its cartridge and of a bank; the places that select; where the program is, which is in the last bank alone if
    banks are smaller than 4096 bytes; where bytes tell banks apart; where its memory is read and written, and how much there is."""

    size: int
    bank: int = 4096
    spots: tuple[int, ...] = ()
    program: tuple[int, int] = (0x1260, 0x1FC0)
    told: tuple[tuple[int, int], ...] = ((0x1200, 0x1260), (0x1FC8, 0x1FE0))
    memory: tuple[int, int, int] | None = None


def span(first: int, count: int) -> tuple[int, ...]:
    """So many addresses."""
    return tuple(range(first, first + count))


EXTRA = (0x1080, 0x1000, 128)
E0_TOLD = ((0x1100, 0x1400), (0x1500, 0x1800), (0x1900, 0x1C00))
LAYOUTS = {
    "2K": Layout(2048, 2048, program=(0x1000, 0x1700), told=((0x1000, 0x17F0),)),
    "4K": Layout(4096, program=(0x1000, 0x1E00), told=((0x1000, 0x1FF0),)),
    "F8": Layout(8192, spots=span(0x1FF8, 2)),
    "F8SC": Layout(8192, spots=span(0x1FF8, 2), memory=EXTRA),
    "F6": Layout(16384, spots=span(0x1FF6, 4)),
    "F6SC": Layout(16384, spots=span(0x1FF6, 4), memory=EXTRA),
    "F4": Layout(32768, spots=span(0x1FF4, 8)),
    "F4SC": Layout(32768, spots=span(0x1FF4, 8), memory=EXTRA),
    "FA": Layout(12288, spots=span(0x1FF8, 3), memory=(0x1100, 0x1000, 256)),
    "E0": Layout(8192, 1024, span(0x1FE0, 24), (0x1C40, 0x1FDF), E0_TOLD),
    "3F": Layout(8192, 2048, (), (0x1840, 0x1FF9), ((0x1100, 0x1780),)),
    "FE": Layout(8192, spots=(0x01FE,)),
    "E7": Layout(16384, 2048, span(0x1FE0, 12), (0x1A00, 0x1FDF), ((0x1500, 0x1700),)),
    "UA": Layout(8192, spots=(0x0220, 0x0240)),
    "CV": Layout(2048, 2048, program=(0x1800, 0x1FF0), told=((0x1800, 0x1FF0),), memory=(0x1000, 0x1400, 1024)),
    "0840": Layout(8192, spots=(0x0800, 0x0840)),
    "F0": Layout(65536, spots=(0x1FF0,)),
    "0FA0": Layout(8192, spots=(0x06A0, 0x06C0)),
}
# Places below 1000 that select: the lines that don't count there, and what is added where a read or a write shall do nothing else.
FREE = {"UA": (0x0100, 0x0400, 0x0800, 0x0013, 0x000F), "0840": (0x0100, 0x0200, 0x0400, 0x003F, 0x0012), "0FA0": (0x0100, 0x0800, 0x0002)}
WRITTEN = {"UA": 6, "0840": 6, "0FA0": 5}
# Where 3F is written: places that select, and some that don't.
SELECTING = ("$3F", "$3E", "$2D", "$34", "!$003F", "!$203F", "!$803F", "$38,x", "!$0030,x", "!$0030,y")
OTHERS = ("$7F", "$6D", "!$013F", "!$093F")


def layout_of(board: str, number: int) -> Layout:
    """The layout of a cartridge. The second of 3F is a longer one, and that of 0FA0 selects by the addresses that MAME knows."""
    found = LAYOUTS[board]
    if board == "3F" and number == 2:
        return found._replace(size=65536)
    return found._replace(spots=(0x0FA0, 0x0FC0)) if board == "0FA0" and number == 2 else found


class Program:
    """What a cartridge does in a frame: pieces of source."""

    def __init__(self, board: str, number: int, chance: Chance) -> None:
        self.board, self.layout, self.keeps, self.chance = board, layout_of(board, number), number == 1, chance
        self.found, self.labels = 0, 0

    def anywhere(self, address: int) -> int:
        """The same address, or one that differs in lines which nothing has."""
        return address | self.chance.below(8) << 13

    def random(self) -> str:
        """A random byte of the frame."""
        return f"${RANDOM + self.chance.below(16):X}"

    def keep(self) -> str:
        """A into the memory."""
        self.found += 1
        place = FOUND + self.found % PLACES
        return f"sta ${place:X}; " if self.found <= PLACES else f"eor ${place:X}; sta ${place:X}; "

    def told(self) -> int:
        """An address at which a byte tells banks apart."""
        first, last = self.chance.of(self.layout.told)
        return first + self.chance.below(last - first)

    def probe(self) -> str:
        """A byte of a bank, kept."""
        return f"lda !${self.anywhere(self.told()):X}; {self.keep()}"

    def index(self, address: int, may_pass: bool) -> tuple[int, int]:
        """What is added to an index, and the index. In half of the cases, if it may be, the sum is a page further, and the address itself
        is that of the access that is thrown away."""
        low, chance = address & 0xFF, self.chance
        index = low + 1 + chance.below(255 - low) if may_pass and chance.below(2) else chance.below(low + 1)
        return address & 0xFF00 | low - index & 0xFF, index

    def pointed(self, base: int) -> str:
        """The pointer."""
        return f"lda #${base & 255:X}; sta ${POINTER:X}; lda #${base >> 8:X}; sta ${POINTER + 1:X}; "

    def read(self, address: int, may_pass: bool) -> str:
        """Some way to read an address, with the byte or its flags in A; or to throw away what is read there."""
        chance = self.chance
        (base, index), way = self.index(address, may_pass), chance.below(7)
        if way == 0:
            name = chance.of("xy")
            return f"ld{name} !${address:X}; t{name}a; "
        if way == 1:
            return f"lda {self.random()}; {chance.of(('cmp', 'cpx', 'cpy', 'bit'))} !${address:X}; php; pla; "
        if way == 2:
            name = chance.of("xy")
            return f"ld{name} #{index}; {chance.of(('lda', 'eor', 'and', 'ora'))} !${base:X},{name}; "
        if way == 3:
            return f"{self.pointed(base)}ldy #{index}; lda (${POINTER:X}),y; "
        if way == 4:
            return f"{self.pointed(address)}ldx #{index}; lda (${POINTER - index & 255:X},x); "
        return f"lda {self.random()}; {chance.of(('lda', 'eor', 'and', 'ora'))} !${address:X}; "

    def write(self, address: int) -> str:
        """Some way to write, or to change a byte; it may be a page further, and what is thrown away here."""
        chance = self.chance
        (base, index), way, change = self.index(address, True), chance.below(6), chance.of(("inc", "dec", "asl", "lsr", "rol", "ror"))
        if way == 0:
            return f"{change} !${address:X}; "
        if way == 1:
            return f"ldx #{index}; {change} !${base:X},x; "
        if way == 2:
            name = chance.of("xy")
            return f"ld{name} #{index}; lda {self.random()}; sta !${base:X},{name}; "
        if way == 3:
            return f"{self.pointed(base)}ldy #{index}; lda {self.random()}; sta (${POINTER:X}),y; "
        name = chance.of("axy")
        return f"ld{name} {self.random()}; st{name} !${address:X}; "

    def select(self) -> str:
        """An access that selects, or should; and a byte of what is selected."""
        board, chance = self.board, self.chance
        if board == "3F":
            return f"lda {self.random()}; ldx #7; ldy #{chance.below(16)}; sta {chance.of(SELECTING + OTHERS)}; {self.probe()}"
        spot, writes = chance.of(self.layout.spots), board != "FE" and chance.below(3) == 0 and 0x0FA0 not in self.layout.spots
        if board in FREE and not writes and self.keeps:
            spot |= chance.of((0, 0, *FREE[board]))
        spot = self.anywhere(spot | WRITTEN.get(board, 0)) if writes else spot if board == "FE" else self.anywhere(spot)
        text = self.write(spot) if writes else self.read(spot, board != "FE")
        if not self.keeps:
            text = text.replace("php; pla; ", "")
        return text + (self.keep() if self.keeps and not writes else "clc; ") + self.probe()

    def port(self) -> str:
        """A byte of the board's memory, written, read, or written where it is read."""
        (read, write, count), chance, before = self.layout.memory or (0x1900, 0x1800, 256), self.chance, ""
        if self.board == "E7" and chance.below(2):
            read, write, count = 0x1400, 0x1000, 1024
            before = f"lda !${self.anywhere(0x1FE7):X}; "
        elif self.board == "E7":
            before = f"lda !${self.anywhere(0x1FE8 + chance.below(4)):X}; "
        at, way = chance.below(count), chance.below(8)
        if way < 3:
            name = chance.of("axy")
            return f"{before}ld{name} {self.random()}; st{name} !${self.anywhere(write + at):X}; "
        if way == 3:
            return f"{before}{self.pointed(self.anywhere(write + at))}ldx #4; lda {self.random()}; sta (${POINTER - 4:X},x); "
        if way == 4:
            return f"{before}{chance.of(('inc', 'asl', 'sta'))} !${self.anywhere(read + at):X}; "
        return before + self.read(self.anywhere(read + at), False) + self.keep()

    def call(self) -> str:
        """A subroutine of the selected bank."""
        if self.layout.bank == 4096:
            return f"jsr ${self.anywhere(0x1200 + SUBROUTINE * self.chance.below(6)):X}; "
        first = {"E0": (0x1000, 0x1400, 0x1800)}.get(self.board, (0x1000,))
        before = f"lda !${self.anywhere(0x1FE0 + self.chance.below(7)):X}; " if self.board == "E7" else ""
        return f"{before}jsr ${self.anywhere(self.chance.of(first) + SUBROUTINE * self.chance.below(4)):X}; "

    def run_over(self) -> str:
        """The instructions of one byte at the places that select."""
        registers = "; ".join(f"ld{it} {self.random()}" for it in "axy")
        first = 0x1FED + self.chance.below(3) if self.board == "F0" else 0x1FE4 + self.chance.below(12)  # (MAME's F0 has something at 1FEC)
        return f"{registers}; jsr ${self.anywhere(first):X}; {self.chance.of(('', 'txa; ', 'tya; '))}{self.keep()}"

    def elsewhere(self) -> str:
        """The program goes on at the same place by an address that differs in lines which nothing has."""
        self.labels += 1
        return f"jmp other{self.labels}-$2000*{self.chance.below(8)}; other{self.labels}: "

    def by_stack(self) -> str:
        """Accesses of 01FE by instructions of the stack."""
        return self.chance.of(("pha; pha; pla; pla; ", "php; pha; pla; plp; ", "ldx #$FE; txs; pha; pla; ldx #$FF; txs; ")) + self.probe()

    def piece(self) -> str:
        """Something of all this."""
        layout, way = self.layout, self.chance.below(20)
        if way == 0:
            return self.elsewhere()
        if way < 7 and (layout.memory or self.board == "E7"):
            return self.port()
        if way < 10 and self.board == "FE":
            return self.by_stack()
        if way < 14 and (layout.spots or self.board == "3F"):
            return self.select()
        if way < 16 and self.keeps and layout.bank == 4096 and max(layout.spots, default=0) > 0x1FE4:
            return self.run_over()
        return self.call() + self.probe() if way < 19 and layout.size > 4096 else self.probe()

    def begin(self) -> tuple[str, str]:
        """What tells the banks at power-on, put into X, Y and the stack, and selects others; and what keeps it until the frame's end."""
        places = {"E0": (0x1300, 0x1700, 0x1B00), "E7": (0x1600,), "3F": (0x1700,)}.get(self.board, (0x1FC9,))
        text = "".join(f"lda ${it:X}; pha; " for it in places)
        kept = "".join(f"pla; sta ${AT_START + it:X}; " for it in reversed(range(len(places))))
        chosen = {"E0": (0x1FE0, 0x1FE9, 0x1FF2), "E7": (0x1FE0, 0x1FE8), "F0": ()}.get(self.board, self.layout.spots[:1])
        if self.board == "F0":  # (it can't be told which, so this goes on until it is bank 3)
            text += "further: lda $1FC8; cmp #3; beq chosen; lda $1FF0; jmp further; chosen: "
        return text + "".join(f"lda !${it:X}; " for it in chosen) + ("lda #0; sta $3F; " if self.board == "3F" else ""), kept

    def code(self) -> bytes:
        """The program, as long as there is room."""
        first, kept = self.begin()
        low, high = self.layout.program
        text = START.format(first=first, kept=kept)
        room, pieces = high - low - length(text + END), ""
        while (room := room - length(piece := self.piece())) >= 0:
            pieces += piece
        return part(text + pieces + "\n" + END, low | 0xF000)[0]

    def subroutine(self) -> bytes:
        """One of a bank, as long as those of other banks: it reads something, and keeps what it makes of it."""
        chance, spots = self.chance, [it for it in self.layout.spots if (self.board, it) != ("E7", 0x1FE7)]
        address = chance.of(spots) if spots and chance.below(2) else self.told()
        other = f"{'eor' if self.keeps else 'lda'} !${self.anywhere(self.told()):X}"
        made = f"{chance.of(('adc', 'eor', 'ora', 'and'))} #{chance.byte()}"
        kept = f"{chance.of(('sta', 'eor', 'inc'))} ${FOUND + chance.below(PLACES):X}"
        return part(f"lda !${address:X}; {other}; {made}; {kept}; rts", 0xF000)[0]


def cartridge(board: str, number: int) -> bytes:
    """A cartridge, the first or the second of a board."""
    name = f"{board}-{number}"
    program = Program(board, number, Chance(name))
    layout, code = program.layout, program.code()
    made = bytearray(hashlib.shake_256(f"bytes of {name}".encode()).digest(layout.size))
    for bank in range(0, layout.size, layout.bank):
        whole = layout.bank == 4096
        if layout.size > 4096:
            subroutines = b"".join(program.subroutine().ljust(SUBROUTINE, bytes((RTS,))) for _ in range(6 if whole else 4))
            put(made, bank + 0x200 * whole, subroutines)
        if whole and layout.size > 4096:
            put(made, bank + 0xFC8, bytes((bank // 4096,)))
            put(made, bank + 0xFE0, over_spots(layout, program.chance))
        if whole or bank == layout.size - layout.bank:
            put(made, bank + (layout.program[0] - 0x2000) % layout.bank, code)
            put(made, bank + layout.bank - 4, (layout.program[0] | 0xF000).to_bytes(2, "little") * 2)
    return bytes(made)


def put(made: bytearray, at: int, piece: bytes) -> None:
    """Lays a piece into a cartridge."""
    made[at : at + len(piece)] = piece


def over_spots(layout: Layout, chance: Chance) -> bytes:
    """Instructions of one byte from 1FE0 to the last place that selects, and what comes back after them."""
    end = min(max(layout.spots) + 1, 0x1FFB) if max(layout.spots) > 0x1FE4 else 0x1FFB
    return bytes(chance.of(ONE_BYTE) for _ in range(0x1FE0, end)).ljust(0x1C, bytes((RTS,)))
