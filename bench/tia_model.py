"""What the TIA draws and which objects meet, of a list of writes to its registers: sections 5 and 6 of docs/MACHINE.md as a second body.

A Rule puts one of other emulators in place of one of that page, and changes nothing else. MAME and STELLA are the rules by which each
of the two draws. What moves objects otherwise (HMOVE late, RESMP) isn't here: the objects' positions are compared with MAME's own.
"""

from __future__ import annotations

import enum
import functools
from typing import Iterable, Iterator, NamedTuple

LINE, BLANK, WIDTH, MOST_ROWS = 228, 68, 160, 322
COPIES = ((0,), (0, 16), (0, 32), (0, 16, 32), (0, 64), (0,), (0, 32, 64), (0,))
SIZES = (1, 1, 1, 1, 1, 2, 1, 4)  # pixels for each bit of a player, by its mode
VSYNC, VBLANK, NUSIZ, COLUP, COLUPF, COLUBK, CTRLPF, REFP = 0x00, 0x01, 0x04, 0x06, 0x08, 0x09, 0x0A, 0x0B
PF0, RESP0, RESBL, GRP0, GRP1, ENAM, ENABL, HMP0, VDELP, VDELBL = 0x0D, 0x10, 0x14, 0x1B, 0x1C, 0x1D, 0x1F, 0x20, 0x25, 0x27
RESMP, HMOVE, HMCLR, CXCLR = 0x28, 0x2A, 0x2B, 0x2C
MIRROR_BIT, BALL_SIZE, FIRST_COPY = 0x40, 0x41, 0x42  # beyond the registers: parts of CTRLPF, and what a write does later
# The pairs of a state's 15 bits, from the highest on, by the numbers of objects: players, missiles, ball, playfield.
PAIRS = ((2, 1), (2, 0), (3, 0), (3, 1), (0, 5), (0, 4), (1, 5), (1, 4), (2, 5), (2, 4), (3, 5), (3, 4), (4, 5), (0, 1), (2, 3))


class Rule(enum.Flag):
    """A rule of another emulator in place of one of docs/MACHINE.md."""

    WIDE = enum.auto()  # a player of 16 or 32 pixels begins a pixel later
    GRAPHIC = enum.auto()  # GRP0 and GRP1 act a clock later
    ENABLE = enum.auto()  # ENAM0, ENAM1, ENABL, REFP0 and REFP1 act a clock later
    PLAYFIELD = enum.auto()  # PF0, PF1 and PF2 act two clocks later, from a fourth pixel on
    MIRROR = enum.auto()  # the bit that mirrors the playfield is looked at as pixel 80 begins
    FIRST = enum.auto()  # RESP and RESM outside of the blank: the first copy is shown from the next line on
    UNMET = enum.auto()  # no objects meet while VBLANK blanks
    COMB = enum.auto()  # no objects meet under the comb
    NEXT_COMB = enum.auto()  # HMOVE in the last two cycles of a line gives the next line the comb
    BALL = enum.auto()  # the ball's size acts a clock later
    RELEASE = enum.auto()  # a released missile's copy is shown in this line only if it begins five pixels later or more
    SCORE = enum.auto()  # in score mode the playfield's left half is behind player 0, and its right half in front of player 1
    LATE_BLANK = enum.auto()  # VBLANK acts a clock later


NONE = Rule(0)
MAME = Rule.WIDE | Rule.GRAPHIC | Rule.ENABLE | Rule.PLAYFIELD | Rule.MIRROR | Rule.FIRST | Rule.UNMET | Rule.NEXT_COMB
STELLA = MAME | Rule.COMB | Rule.BALL | Rule.RELEASE | Rule.SCORE | Rule.LATE_BLANK


class Write(NamedTuple):
    """A write to a register: the cycles that have passed, its own among them, its number and the byte."""

    cycle: int
    register: int
    byte: int


@functools.lru_cache(1 << 16)
def player(position: int, mode: int, graphic: int, is_reflected: bool, later: int, hides_first: bool) -> frozenset[int]:
    """The pixels that a player covers."""
    size = SIZES[mode]
    bits = [at for at in range(8) if graphic >> (at if is_reflected else 7 - at) & 1]
    begins = [position + copy + later for copy in COPIES[mode][hides_first:]]
    return frozenset((begin + bit * size + at) % WIDTH for begin in begins for bit in bits for at in range(size))


@functools.lru_cache(1 << 16)
def block(position: int, mode: int, size: int, hides_first: bool) -> frozenset[int]:
    """The pixels that a missile or the ball covers."""
    return frozenset((position + copy + at) % WIDTH for copy in COPIES[mode][hides_first:] for at in range(size))


@functools.lru_cache(1 << 12)
def playfield(pf0: int, pf1: int, pf2: int, is_mirrored: bool) -> frozenset[int]:
    """The pixels that the playfield covers."""
    bits = [pf0 >> at & 1 for at in range(4, 8)] + [pf1 >> at & 1 for at in range(7, -1, -1)] + [pf2 >> at & 1 for at in range(8)]
    both = bits + (bits[::-1] if is_mirrored else bits)
    return frozenset(x for x in range(WIDTH) if both[x // 4])


class Row(NamedTuple):
    """A line on which nothing is written: its colours, and which pairs meet in each pixel."""

    colours: bytes
    met: tuple[int, ...]
    meets: bool


class Tia:
    """The registers, the lines that are drawn, and the pairs that have met."""

    def __init__(self, rules: Rule) -> None:
        self.rules = rules
        self.kept = [0] * 67
        self.at = [0] * 5  # the positions of players, missiles and ball
        self.old = [0, 0, 0]  # the old graphics and the ball's old enable
        self.hidden = [0] * 4  # up to which clock the first copy of a player or a missile isn't shown
        self.gone: dict[tuple[int, int], set[int]] = {}  # pixels in which a missile isn't shown, by its number and the line
        self.clock, self.comb, self.met = 0, -1, 0  # the comb's line
        self.later: list[tuple[int, int, int]] = []  # what writes do later: the clock, the register, the byte
        self.lines: dict[int, bytearray] = {}
        self.rows: dict[tuple[object, ...], Row] = {}
        self.now: Row | None = None  # until something is written

    def look(self) -> tuple[object, ...]:
        """All that a line depends on."""
        kept, at, line = self.kept, self.at, self.clock // LINE
        modes = [kept[NUSIZ + it % 2] & 7 for it in range(4)]
        hides = [self.hidden[it] > self.clock for it in range(4)]
        shapes = []
        for it in (0, 1):
            graphic = self.old[it] if kept[VDELP + it] & 1 else kept[GRP0 + it]
            later = int(Rule.WIDE in self.rules and SIZES[modes[it]] > 1)
            shapes.append(player(at[it], modes[it], graphic, bool(kept[REFP + it] & 8), later, hides[it]))
        for it in (0, 1):
            is_shown = kept[ENAM + it] & 2 and not kept[RESMP + it] & 2
            size = 1 << (kept[NUSIZ + it] >> 4 & 3)
            shape = block(at[2 + it], modes[it], size, hides[2 + it]) if is_shown else frozenset()
            shapes.append(shape - self.gone[it, line] if (it, line) in self.gone else shape)
        ball = self.old[2] if kept[VDELBL] & 1 else kept[ENABL]
        shapes.append(block(at[4], 0, 1 << kept[BALL_SIZE], False) if ball & 2 else frozenset())
        shapes.append(playfield(kept[PF0] & 0xF0, kept[PF0 + 1], kept[PF0 + 2], bool(kept[MIRROR_BIT])))
        return (*shapes, *(it & 0xFE for it in kept[COLUP : COLUBK + 1]), kept[CTRLPF] & 6)

    def row(self) -> Row:
        """The line as it is now."""
        if (look := self.look()) not in self.rows:
            *shapes, colup0, colup1, colupf, colubk, how = look
            p0, p1, m0, m1, ball, field = shapes
            halves = (colup0, colup1) if how == 2 else (colupf, colupf)
            first, second = (p0 | m0, colup0), (p1 | m1, colup1)
            row = bytearray()
            for x in range(WIDTH):
                back = (ball, colupf), (field, halves[x // 80])
                order = (*back, first, second) if how & 4 else (first, second, *back)
                if how == 2 and Rule.SCORE in self.rules:
                    order = first, back[1], second, back[0]
                row.append(next((colour for shape, colour in order if x in shape), colubk))
            met = [0] * WIDTH
            for bit, (one, other) in enumerate(PAIRS):
                for x in shapes[one] & shapes[other]:
                    met[x] |= 1 << 14 - bit
            self.rows[look] = Row(bytes(row), tuple(met), any(met))
        return self.rows[look]

    def draw(self, until: int) -> None:
        """Draws the clocks up to this one, which is not drawn yet."""
        while self.clock < until:
            line, h = divmod(self.clock, LINE)
            end = min(until - LINE * line, LINE)
            first, last = max(h - BLANK, 0), max(end - BLANK, 0)
            if first < last:
                row, is_blanked = (not self.gone and self.now) or self.row(), self.kept[VBLANK] & 2
                self.now, shown = row, max(first, 8) if self.comb == line else first
                if row.meets and not (is_blanked and Rule.UNMET in self.rules):
                    for pairs in set(row.met[shown if Rule.COMB in self.rules else first : last]):
                        self.met |= pairs
                if not is_blanked and not self.kept[VSYNC] & 2:
                    into = self.lines.setdefault(line, bytearray(WIDTH))
                    into[shown:last] = row.colours[shown:last]
            self.clock = LINE * line + end

    def pass_to(self, until: int) -> None:
        """Draws up to this clock, and does what earlier writes do before it."""
        while self.later and self.later[0][0] <= until:
            clock, register, byte = self.later.pop(0)
            self.draw(clock)
            self.act(register, byte)
        self.draw(until)

    def acts_at(self, register: int) -> int:
        """From which clock on a write acts that is done now."""
        rules, clock = self.rules, self.clock
        x = clock % LINE - BLANK
        if register in (GRP0, GRP1):
            return clock + (Rule.GRAPHIC in rules)
        if ENAM <= register <= ENABL or register in (REFP, REFP + 1):
            return clock + (Rule.ENABLE in rules)
        if register == VBLANK:
            return clock + (Rule.LATE_BLANK in rules)
        if register == BALL_SIZE:
            return clock + (Rule.BALL in rules)
        if PF0 <= register <= PF0 + 2 and Rule.PLAYFIELD in rules:
            return clock + 2 + (-(x + 2) % 4 if x + 2 > 0 else 0)
        if register == MIRROR_BIT and Rule.MIRROR in rules and x > WIDTH // 2:
            return clock - clock % LINE + LINE
        return clock

    def write(self, write: Write) -> None:
        """Draws up to a write, and does it."""
        self.pass_to(3 * write.cycle)
        register, byte = write.register & 0x3F, write.byte
        if RESP0 <= register < RESBL and Rule.FIRST in self.rules and self.clock % LINE >= BLANK:
            self.hidden[register - RESP0] = self.clock + LINE
            self.later.append((self.clock + LINE, FIRST_COPY, 0))
        for what, value in ((register, byte), (MIRROR_BIT, byte & 1), (BALL_SIZE, byte >> 4 & 3))[: 3 if register == CTRLPF else 1]:
            if (at := self.acts_at(what)) == self.clock:
                self.act(what, value)
            else:
                self.later.append((at, what, value))
        self.later.sort()

    def release(self, it: int) -> None:
        """Notes the pixels in which a released missile isn't shown: those of copies that began before, or begin too soon."""
        line, x = self.clock // LINE, max(self.clock % LINE - BLANK, 0)
        nusiz = self.kept[NUSIZ + it]
        self.gone = {key: those for key, those in self.gone.items() if key[1] >= line}
        for begin in ((self.at[2 + it] + copy) % WIDTH for copy in COPIES[nusiz & 7]):
            for pixel in range(begin, begin + (1 << (nusiz >> 4 & 3))):
                if begin < x + 5:
                    self.gone.setdefault((it, line + pixel // WIDTH), set()).add(pixel % WIDTH)
                if pixel >= WIDTH:
                    self.gone.setdefault((it, line), set()).add(pixel - WIDTH)

    def act(self, register: int, byte: int) -> None:
        """What a write does, at this clock."""
        h, kept, self.now = self.clock % LINE, self.kept, None
        if RESP0 <= register <= RESBL:
            far = 5 if register < RESP0 + 2 else 4
            self.at[register - RESP0] = (h - BLANK + far) % WIDTH if h >= BLANK else far - 2
        elif register == HMOVE:
            motions = [it >> 4 for it in kept[HMP0 : HMP0 + 5]]
            self.at = [(it - (motion if motion < 8 else motion - 16)) % WIDTH for it, motion in zip(self.at, motions)]
            self.comb = self.clock // LINE if h < BLANK else self.comb
            self.comb = self.clock // LINE + 1 if h >= LINE - 6 and Rule.NEXT_COMB in self.rules else self.comb
        elif register == HMCLR:
            kept[HMP0 : HMP0 + 5] = [0] * 5
        elif register == GRP0:
            self.old[1] = kept[GRP1]
        elif register == GRP1:
            self.old[0], self.old[2] = kept[GRP0], kept[ENABL]
        elif register in (RESMP, RESMP + 1) and kept[register] & 2 and not byte & 2:
            it = register - RESMP
            self.at[2 + it] = (self.at[it] + 4 * SIZES[kept[NUSIZ + it] & 7]) % WIDTH
            if Rule.RELEASE in self.rules:
                self.release(it)
        elif register == CXCLR:
            self.met = 0
        kept[register] = byte


class Frame(NamedTuple):
    """What a frame shows: its rows, and rows of black below; and the pairs that have met at its end."""

    rows: list[bytes]
    collisions: int


def frames(writes: Iterable[Write], rules: Rule = NONE) -> Iterator[Frame]:
    """Each frame of these writes."""
    tia, begin, black = Tia(rules), 0, bytes(WIDTH)
    for write in writes:
        is_end = write.register & 0x3F == VSYNC and tia.kept[VSYNC] & 2 and not write.byte & 2
        tia.write(write)
        if is_end:
            yield Frame([bytes(tia.lines.get(line, black)) for line in range(begin, begin + MOST_ROWS)], tia.met)
            begin, tia.lines = 3 * write.cycle // LINE, {}
