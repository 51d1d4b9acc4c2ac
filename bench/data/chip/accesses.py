"""Cartridges that access what isn't the cartridge's own, at random: the timer, or each address below 1000. What they find stays in the
RIOT's memory.

timer: in a frame the timer is started some times, with each interval. Then so many cycles pass, by the frame's number some more or less,
that a step, zero or some time past zero is near. INTIM and its flag are read, some times in a row, or the timer is written again.

bus: objects are shown, and addresses of the TIA and of the RIOT's memory, ports and timer are read, written and changed, through all their
mirrors, so that accesses that are thrown away meet registers too; the stack stands in the TIA, pointers are read from it, instructions
stand in memory. Bytes of the TIA are kept whole. On boards with banks the places that select are among the addresses.

Cartridges of an even number do nothing of this that MAME has otherwise: they read INTIM far from a step, and past zero the flag alone; they
write the TIA as a line begins, and change nothing of it, keep only the bits that it drives, use no port for output, and nothing from 02A0
to 02FF.

Not made, since the emulators' scripts can't show it: an instruction that ends vertical sync and begins it again; and, where the latch of
port B gives Stella the switches, reads of its direction, so that pointers in the TIA are left to cartridges that use this port."""

from __future__ import annotations

import hashlib
from collections.abc import Sequence

from assembler import assemble, length
from parts import COMMON, FRAME, NARROW, START, Chance, nops, shapes

FRAMES = 32
NUMBERS = tuple(range(1, 11))
# The boards of the bus's cartridges; those of the timer have 4K. And of what banks the places select.
BOARDS = ("4K", "4K", "4K", "4K", "4K", "4K", "F6", "F8", "UA", "2K")
BANKS = {"F8": (2, (0x1FF8, 0x1FF9)), "F6": (4, (0x1FF6, 0x1FF7, 0x1FF8, 0x1FF9)), "UA": (2, (0x0220, 0x0240))}
# Where bytes tell the banks apart; the lines of a frame's pieces at most, and those below them.
DATA, MOST_LINES, BELOW = 0xFE00, 200, 30
# The RIOT's memory: a pointer, where BRK leads, a routine, and what was found.
POINTER, BROKEN, ROUTINE, FOUND, PLACES = 0x8A, 0x8C, 0x90, 0xA0, 80
CHANGES = ("inc", "dec", "asl", "lsr", "rol", "ror")
# The assembler's modes: of all instructions, of changes, of loads and stores.
PLAIN, OF_CHANGES, MODES = ("z", "a", "a"), ("z", "z,x", "a", "a,x"), ("z", "z,x", "a", "a,x", "a,y", "(z,x)", "(z),y")
# Lines of an address that nothing has in the TIA, the RIOT's memory, its ports and timer; of these the ones that MAME needs; what the
# RIOT doesn't look at if it is read.
OF_TIA, OF_MEMORY, OF_RIOT, NEEDED, UNREAD = 0x0F00, 0x0D00, 0x0D68, 0x0060, 0x0010
# What of the TIA is written: all but VSYNC; and what acts in MAME as here, as a line begins.
SELDOM = (0x01, 0x02, 0x03, *range(0x15, 0x1B), *range(0x2D, 0x40))
WRITTEN = [it for it in range(1, 0x40) for _ in range(1 if it in SELDOM else 4)]
ALIKE = (0x06, 0x07, 0x08, 0x09, 0x0B, 0x0C, 0x0D, 0x0E, 0x0F, 0x1B, 0x1C, 0x1D, 0x1E, 0x1F, 0x25, 0x26, 0x27, 0x2B, 0x2C, *range(0x2D, 0x40))
# The timer's intervals, and of how many of each it begins at less than.
INTERVALS, MOST = (1, 8, 64, 1024), (256, 64, 9, 2)
# What clears its flag past zero, or doesn't: by a read that counts, or by one that is thrown away.
CLEARING = ("", "lda !$0284; ", "ldx #$85; lda $02FF,x; ", "ldx #1; sta $0283,x; ", "inc !$028C; ", "ldy #1; sta !$1283,y; ")
# The cartridges that use port B for output, and the registers of the TIA that give two bits.
USING_B, DRIVEN = ("bus-5", "bus-9"), (0, 1, 2, 3, 4, 5, 7)
DELAY = """
.page 4
delay: dex
bne delay
rts
break: ldx #$FF
txs
jmp ($008C)
"""


def waiting(cycles: int) -> str:
    """Instructions that take so many cycles, or two more; they use A and X."""
    loops = min(max(cycles - 13, 0) // 5, 255)
    rest = cycles - (5 * loops + 13) * (loops > 0)
    return (f"ldx #{loops}; jsr delay; " if loops else "") + (waiting(rest) if rest > 17 else nops(max(rest, 0)))


def pointed(address: int) -> str:
    """The pointer set to an address."""
    return f"lda #{address & 255}; sta ${POINTER:X}; lda #{address >> 8}; sta ${POINTER + 1:X}; "


class Accesses:
    """What a cartridge does in a frame: pieces of source."""

    def __init__(self, kind: str, number: int) -> None:
        self.chance, self.number, self.all = Chance(f"{kind}-{number}"), number, number % 2 == 1
        self.board, self.uses_b = (BOARDS[number - 1], f"{kind}-{number}" in USING_B) if kind == "bus" else ("4K", False)
        self.found, self.labels = 0, 0

    def anywhere(self, address: int, lines: int) -> int:
        """The same address, or one that differs in lines which nothing has."""
        return address | self.chance.below(65536) & (lines | 0xE000)

    def in_riot(self, address: int, more: int = 0) -> int:
        """A port, or the timer."""
        return self.anywhere(address, (OF_RIOT if self.all else OF_RIOT & ~NEEDED) | more)

    def keep(self) -> str:
        """A into the memory."""
        self.found += 1
        place = FOUND + self.found % PLACES
        return f"sta ${place:X}; " if self.found <= PLACES else f"eor ${place:X}; sta ${place:X}; "

    def label(self) -> str:
        """A name that nothing has."""
        self.labels += 1
        return f"label{self.labels}"

    def value(self) -> str:
        """A byte of the frame: its number, what is held, or what was found."""
        return f"${self.chance.of((0x80, 0x81, 0x82, FOUND + self.chance.below(PLACES))):X}"

    def named(self, address: int, modes: Sequence[str]) -> tuple[str, str]:
        """What has to be done before, and an operand that leads to an address in one of these modes of the assembler, if it has them. With
        an index there may be a read that is thrown away, a page below."""
        mode, index = self.chance.of([it for it in modes if address < 0x100 or it[0] != "z"]), self.chance.byte()
        mark, base = ("", address - index & 0xFF) if mode[0] == "z" else ("!", address - index & 0xFFFF)
        if mode == "(z),y":
            return f"{pointed(base)}ldy #{index}; ", f"(${POINTER:X}),y"
        if mode == "(z,x)":
            return f"{pointed(address)}ldx #{index}; ", f"(${POINTER - index & 255:X},x)"
        return (f"ld{mode[-1]} #{index}; ", f"{mark}${base:X}{mode[1:]}") if mode[1:] else ("", f"{mark}${address:X}")

    def read(self, address: int) -> str:
        """Some way to read an address, with the byte or flags in A."""
        way = self.chance.below(6)
        if way == 0:
            name, index = self.chance.of(("xy", "yx"))
            before, operand = self.named(address, (*PLAIN, f"a,{index}"))
            return f"{before}ld{name} {operand}; t{name}a; "
        if way == 1:
            return f"lda {self.value()}; {self.chance.of(('bit', 'cpx', 'cpy'))} {self.named(address, PLAIN)[1]}; php; pla; "
        before, operand = self.named(address, MODES)
        what = self.chance.of(("lda", "lda", "eor", "and", "ora", "adc", "sbc", "cmp"))
        return f"{before}lda {self.value()}; {what} {operand}; {'php; pla; ' if what == 'cmp' else ''}"

    def write(self, address: int, may_change: bool = True) -> str:
        """Some way to write, or to change, a byte."""
        way = self.chance.below(4)
        if way == 0 and may_change:
            before, operand = self.named(address, OF_CHANGES)
            return f"{before}{self.chance.of(CHANGES)} {operand}; "
        if way == 1:
            name = self.chance.of("xy")
            return f"ld{name} {self.value()}; st{name} {self.named(address, PLAIN)[1]}; "
        before, operand = self.named(address, MODES)
        return f"{before}lda {self.value()}; sta {operand}; "

    def around(self, bands: str) -> str:
        """The source of a frame with these bands."""
        first = {"F8": "lda $FFF8", "F6": "lda $FFF6", "UA": "lda $0220"}.get(self.board, "")
        below = f"ldx #{BELOW}; under: sta WSYNC; dex; bne under; ldy #0; clc; clv{'; lda #$2A; sta SWCHB' * self.uses_b}\n"
        return START.format(seed=self.number, first=first, before="") + FRAME.format(bands=bands, below=below) + COMMON + DELAY

    def bands(self) -> str:
        """What is done in a frame."""
        raise NotImplementedError


class Timer(Accesses):
    """Those of the timer."""

    def read_it(self) -> str:
        """INTIM or its flag, kept; or both, one soon after the other."""
        way, gap = self.chance.below(6), nops(self.chance.of((0, 0, 2, 3, 4, 5, 6, 7, 9)))
        if way == 0:
            first, second, third = (f"!${self.in_riot(0x284 + self.chance.below(2), 2 | UNREAD):X}" for _ in range(3))
            return f"ldx {first}; ldy {second}; lda {third}; {self.keep()}txa; {self.keep()}tya; {self.keep()}"
        return gap + self.read(self.in_riot(0x284 + (way < 3), 2 | UNREAD)) + self.keep()

    def poll(self, interval: int) -> str:
        """Waits for zero, or for the flag."""
        label = self.label()
        ways = (f"lda !${self.in_riot(0x284):X}; bne", f"bit !${self.in_riot(0x285):X}; bpl", f"ldx !${self.in_riot(0x284):X}; cpx #1; bcs")
        return f"{label}: {self.chance.of(ways if interval < 3 else ways[1:2])} {label}; "

    def moment(self, interval: int, count: int) -> int:
        """When the timer is read, in cycles after it was started."""
        whole, below = count * INTERVALS[interval], self.chance.below
        near, wrapped = whole + below(17) - 8, whole + 256 + below(9) - 4
        return max(self.chance.of((near, near, below(whole + 1), below(whole + 1), whole + below(600), wrapped)), 2)

    def piece(self) -> tuple[str, int]:
        """The timer started, and read at some moment; and how many lines that takes, about."""
        chance, interval = self.chance, self.chance.below(4)
        count = chance.below(MOST[interval])
        cycles = self.moment(interval, count)
        text, way = f"jsr pick; sta WSYNC; {nops(chance.below(9))}lda #{count}; sta !${self.in_riot(0x294 + interval):X}; ", chance.below(8)
        text += f"{waiting(cycles - 47)}jsr wait; " if cycles > 60 and way else waiting(cycles - 4)
        if way == 1 and interval < 3 and cycles < 300:
            text += self.poll(interval)
        if way == 2:
            text += self.write(self.in_riot(0x294 + chance.below(3))) + waiting(chance.below(60))
        if way == 3:
            text += self.write(self.in_riot(0x284 + chance.below(4)))
        for _ in range(1 + chance.below(4)):
            text += self.read_it()
        if way == 4:
            text += waiting(cycles := cycles + chance.below(300)) + self.read_it()
        return text, 4 + (cycles + (700 if way == 1 else 0)) // 76

    def calm_piece(self) -> tuple[str, int]:
        """The same, but read far from each step, and past zero the flag alone."""
        chance, interval, is_past = self.chance, 2 + self.chance.below(2), self.chance.below(3) == 0
        count = 1 + chance.below(MOST[interval] - 1)
        whole = INTERVALS[interval]
        cycles = count * whole + 20 + chance.below(150) if is_past else chance.below(count) * whole + 12 + chance.below(whole - 40)
        text = f"sta WSYNC; {nops(chance.below(9))}lda #{count}; sta !${self.in_riot(0x294 + interval):X}; {waiting(cycles - 4)}"
        flag = f"lda !${self.in_riot(0x285, 2 | UNREAD):X}; and #$80; "
        if not is_past:
            return f"{text}ldx !${self.in_riot(0x284, 2 | UNREAD):X}; {flag}{self.keep()}txa; {self.keep()}", 3 + cycles // 76
        clearing = chance.of(CLEARING)
        return f"{text}{flag}{self.keep()}{clearing}{flag}{self.keep()}", 3 + cycles // 76

    def bands(self) -> str:
        """All pieces for which there is time."""
        text, lines = "", 0
        while (more := self.piece() if self.all else self.calm_piece())[1] + lines < MOST_LINES:
            text, lines = text + more[0] + "\n", lines + more[1]
        return text


class Bus(Accesses):
    """Those of the bus."""

    def readable(self) -> int:
        """An address that is read."""
        way = self.chance.below(14)
        if way < 7:
            return self.anywhere(self.chance.below(8) << 4 | self.chance.below(16 if self.all else 14), OF_TIA if self.chance.below(3) else 0)
        if way < 9:
            return self.anywhere(0x80 + self.chance.below(0x80), OF_MEMORY if self.chance.below(3) else 0)
        if way < 11:
            return self.in_riot(0x280 + self.chance.below(4 if self.uses_b else 3), UNREAD)
        if way < 12 and self.all:
            return self.in_riot(0x284 + self.chance.below(4), UNREAD)
        return self.chance.of(BANKS[self.board][1]) if self.board in BANKS and self.all else self.told()

    def told(self) -> int:
        """An address whose byte tells banks apart."""
        return self.anywhere(DATA & 0x1FFF | self.chance.below(0x100), 0)

    def look(self) -> str:
        """An address read, and what is found kept; in cartridges of an even number only the bits that the TIA drives."""
        address = self.readable()
        if self.all or address & 0x1080:
            return self.read(address) + self.keep()
        before, operand = self.named(address, MODES)
        return f"{before}lda {operand}; and #{0xC0 if address & 0x0F in DRIVEN else 0x80}; {self.keep()}"

    def write_tia(self) -> str:
        """A register of the TIA written, or changed."""
        if self.all:
            return self.write(self.anywhere(self.chance.of(WRITTEN) | self.chance.of((0, 0x40)), OF_TIA if self.chance.below(3) else 0))
        address = self.anywhere(self.chance.of(ALIKE) | self.chance.of((0, 0x40)), OF_TIA)
        name = self.chance.of("axy")
        return f"ld{name} {self.value()}; sta WSYNC; st{name} !${address:X}; "

    def write_memory(self) -> str:
        """A byte of the memory written, or changed, and read again."""
        place = FOUND + self.chance.below(PLACES)
        return self.write(self.anywhere(place, OF_MEMORY if self.chance.below(3) else 0)) + self.read(self.anywhere(place, OF_MEMORY)) + self.keep()

    def write_riot(self) -> str:
        """The timer started, or where nothing is written; or a port used."""
        chance, way = self.chance, self.chance.below(4)
        if way == 0 and self.all:
            return self.write(self.in_riot(0x280 + chance.below(4 if self.uses_b else 2)))
        if way == 1:
            return self.write(self.in_riot(0x284 + chance.below(4)), self.all)
        if self.all:
            return self.write(self.in_riot(0x294 + chance.below(4)))
        name, flag = chance.of("xy"), f"lda !${self.in_riot(0x285):X}; and #$80; {self.keep()}"
        clearing = chance.of(CLEARING)
        return f"ld{name} #3; sta WSYNC; st{name} !${self.in_riot(0x295):X}; sta WSYNC; {nops(chance.below(9))}{clearing}{flag}"

    def stack_in_tia(self) -> str:
        """The stack's instructions with S at registers of the TIA; it is back at FF then."""
        chance, label = self.chance, self.label()
        if not self.all:
            return f"ldx #{chance.below(8) << 4 | chance.below(4)}; txs; {chance.of(('', 'pla; '))}pla; ldx #$FF; txs; and #$C0; {self.keep()}"
        if chance.below(2):
            pulls = chance.of(("pla; ldx #$FF; txs; ", "pla; pla; ldx #$FF; txs; ", "plp; ldx #$FF; txs; php; pla; cld; "))
            return f"ldx #{chance.below(0x7F)}; txs; {pulls}{self.keep()}"
        first = 3 + chance.below(0x3D) | chance.of((0, 0x40))
        if chance.below(5) == 0:
            return f"{self.lead_to(label)}lda {self.value()}; ldx #{first}; txs; brk; {label}: "
        calls = ("pha; ", "php; ", "pha; pha; ", f"jsr {label}; {label}: ", f"jsr {label}-$2000*{chance.below(4)}; {label}: ")
        return f"lda {self.value()}; ldx #{first}; txs; {chance.of(calls)}ldx #$FF; txs; "

    def lead_to(self, label: str) -> str:
        """A label's address where BRK leads, and a jump."""
        return f"lda #lo({label}); sta ${BROKEN:X}; lda #hi({label}); sta ${BROKEN + 1:X}; "

    def by_pointer_in_tia(self) -> str:
        """A read by a pointer that stands in the TIA."""
        register, index = self.chance.below(0x7F), self.chance.byte()
        operand = self.chance.of((f"(${register - index & 255:X},x)", f"(${register:X}),y"))
        return f"ldx #{index}; ldy #{index}; lda {self.value()}; {self.chance.of(('lda', 'eor', 'and', 'adc'))} {operand}; {self.keep()}"

    def in_memory(self) -> str:
        """A routine written into the memory, and called."""
        chance = self.chance
        read = self.readable() if self.all else self.anywhere(0x80 + chance.below(0x80), OF_MEMORY)
        by_x = (0xB5 if self.all else 0xA5, read & 0xFF)
        made = chance.of(((0xAD, read & 0xFF, read >> 8), (0xA5, read & 0xFF), by_x, (0xE6, FOUND + chance.below(PLACES), 0xEA)))
        routine = (*made, chance.of((0xEA, 0x0A, 0x4A, 0xE8)), 0x60)
        text = "".join(f"lda #{it}; sta ${ROUTINE + at:X}; " for at, it in enumerate(routine))
        return f"{text}ldx #{chance.below(256)}; jsr ${self.anywhere(ROUTINE, OF_MEMORY):X}; {self.keep()}"

    def jump(self) -> str:
        """A jump by a pointer in the memory; or to the same place by another address."""
        label = self.label()
        if self.chance.below(2):
            return f"jmp {label}-$2000*{self.chance.below(8)}; {label}: "
        return f"{self.lead_to(label)}jmp (${self.anywhere(BROKEN, OF_MEMORY):X}); {label}: "

    def select(self) -> str:
        """An access that selects a bank, and a byte of the bank."""
        if self.board not in BANKS:
            return self.look()
        spot = self.anywhere(self.chance.of(BANKS[self.board][1]), 0)
        text = self.write(spot) if self.board != "UA" and self.chance.below(2) else self.read(spot)
        text += self.keep() if self.all else "clc; clv; ldx #0; ldy #0; "
        return f"{text}lda !${self.told():X}; {self.keep()}"

    def piece(self) -> str:
        """Something of all this."""
        way = self.chance.below(24)
        if way < 8:
            return self.look()
        if way < 13:
            return self.write_tia()
        pieces = (self.write_memory, self.write_memory, self.write_riot, self.write_riot, self.stack_in_tia, self.stack_in_tia, self.in_memory)
        more = (self.by_pointer_in_tia if self.uses_b else self.stack_in_tia, self.jump, self.select, self.select)
        return (*pieces, *more)[way - 13]()

    def bands(self) -> str:
        """The objects put somewhere and shown, and as many pieces as there is room for."""
        text = f"jsr off; jsr place; {shapes(self.chance, range(8) if self.all else NARROW)}"
        room = (2048 if self.board == "2K" else 4096) - length(self.around(text)) - 0x200
        while (room := room - length(more := ("" if self.chance.below(6) else "sta WSYNC; ") + self.piece())) >= 0:
            text += more + "\n"
        return text

    def around(self, bands: str) -> str:
        """The source of a frame with these bands. Vertical sync begins and ends as it is changed; where the bits that nothing drives are
        others, as it is written next."""
        text = super().around(bands)
        if self.all:
            first, last = self.anywhere(0x0100, 0x0C00), self.anywhere(0x0200, 0x0800)
            begin, end = f"{self.chance.of(('inc', 'asl'))} !${first:X}\n", f"{self.chance.of(('dec', 'lsr'))} !${last:X}\n"
            text = text.replace("sta VSYNC\nsta WSYNC", f"{begin}lda #2\nsta VSYNC\nsta WSYNC", 1)
            text = text.replace("lda #0\nsta VSYNC\ninputs", f"{end}lda #0\nsta VSYNC\ninputs", 1)
        return text


def cartridge(kind: str, number: int) -> tuple[str, bytes]:
    """A cartridge of a kind, and its board. Its banks have the same program, and bytes of their own."""
    made = KINDS[kind](kind, number)
    size, banks = 2048 if made.board == "2K" else 4096, BANKS[made.board][0] if made.board in BANKS else 1
    told = hashlib.shake_256(f"bytes of {kind}-{number}".encode()).digest(0x100 * banks)
    program, at = assemble(made.around(made.bands()), size), DATA % size
    return made.board, b"".join(program[:at] + told[it : it + 0x100] + program[at + 0x100 :] for it in range(0, len(told), 0x100))


KINDS: dict[str, type[Accesses]] = {"timer": Timer, "bus": Bus}
