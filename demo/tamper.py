#!/usr/bin/env python3
"""Writes tampered copies of demo.a26m and harbour.a26m, beside them or into the folder that is named.

    python3 tamper.py [FOLDER]

Each copy differs from the movie in one byte. What the verifier answers of it stands in expected.txt.
The places are those of docs/MOVIE_FORMAT.md, and the addresses those of labels of demo.asm and
harbour.asm, as 'dasm demo.asm -f3 -odemo.rom -sdemo.sym' writes them to demo.sym.
"""

import pathlib
import sys

HERE = pathlib.Path(__file__).resolve().parent

CARTRIDGE = 14
LENGTH = 4096
STATE = 187
INPUTS = CARTRIDGE + LENGTH + STATE
FRAMES = 720
CHECKPOINTS = INPUTS + 3 * FRAMES
CHECKPOINT = 4 + STATE

SCORE = 0x81  # Score: six decimal digits, the highest pair first
VERTICAL_SYNC = 0xF022  # VerticalSync: LDA #2, STA VSYNC
ROW_FOUND = 0xF455  # RowFound: a shot has met an alien; LDA #FlashTime
ROCK_IS_HIT = 0xF452  # before RowFound: JMP ShotEnds, after a shot has met the rock


def code(address):
    """Where the byte of the cartridge at this address stands."""
    return CARTRIDGE + address % LENGTH


def pressed(frame, byte):
    """Where a byte of a frame's input stands; frames count from 1, bytes from 0."""
    return INPUTS + 3 * (frame - 1) + byte


def claim(checkpoint, offset):
    """Where a checkpoint claims this byte of the state; checkpoints count from 1."""
    return CHECKPOINTS + CHECKPOINT * (checkpoint - 1) + 4 + offset


def memory(checkpoint, address):
    """Where a checkpoint claims the byte of the memory at this address."""
    return claim(checkpoint, 7 + address - 0x80)


# The copies: the place of a byte, and the bits of it that are turned.
COPIES = {
    # The claim after frame 300 has a thousand points more.
    "more-points": (memory(5, SCORE + 1), 0b0001_0000),
    # In frame 200 the joystick is pressed to the other side.
    "other-joystick": (pressed(200, 0), 0b1000_0000),
    # Where a shot meets an alien stands 02, which is no opcode, in the place of A9.
    "bad-opcode": (code(ROW_FOUND), 0xA9 ^ 0x02),
    # Where a shot meets the rock the processor jumps to the ports of the RIOT.
    "jump-to-the-ports": (code(ROCK_IS_HIT + 2), 0xF4 ^ 0x02),
    # VSYNC is never set, so no frame ends.
    "no-vertical-sync": (code(VERTICAL_SYNC + 1), 0b0000_0010),
    # In frame 400 a third button is pressed.
    "third-button": (pressed(400, 2), 0b0000_0100),
    # The claim after frame 420 has a bit in the flags that the processor doesn't have.
    "flag-that-is-none": (claim(7, 4), 0b0001_0000),
}

# The harbour is a movie of version 2: two banks of 4096 bytes, and records of 188 bytes, whose last one is the bank.
BANK = 187
HARBOUR_FRAMES = 240
HARBOUR_CHECKPOINTS = CARTRIDGE + 2 * LENGTH + 188 + 3 * HARBOUR_FRAMES
TO_SEA = 0xF006  # ToSea0, in the first bank: BIT FFF9


def harbour_bank(checkpoint):
    """Where a checkpoint of the harbour claims the bank."""
    return HARBOUR_CHECKPOINTS + (4 + 188) * (checkpoint - 1) + 4 + BANK


HARBOUR_COPIES = {
    # The claim after frame 120 has the first bank selected in place of the second.
    "harbour-other-bank": (harbour_bank(4), 0b0000_0001),
    # The claim after frame 180 has a bank 3, which no cartridge has.
    "harbour-third-bank": (harbour_bank(6), 0b0000_0010),
    # The way to the sea selects the first bank again.
    "harbour-never-at-sea": (code(TO_SEA + 1), 0b0000_0001),
}


def main():
    folder = pathlib.Path(sys.argv[1]) if len(sys.argv) > 1 else HERE
    for source, copies in (("demo.a26m", COPIES), ("harbour.a26m", HARBOUR_COPIES)):
        movie = (HERE / source).read_bytes()
        for name, (place, bits) in copies.items():
            copy = bytearray(movie)
            copy[place] ^= bits
            (folder / (name + ".a26m")).write_bytes(copy)


if __name__ == "__main__":
    main()
