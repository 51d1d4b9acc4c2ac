#!/usr/bin/env python3
"""Makes three movies that are genuine and not what they seem, beside this script or in the folder that is named.

    python3 remake.py PROGRAM [FOLDER]

PROGRAM is vcs_check. 'verify' finds nothing wrong with these movies; 'report' shows what they are, as
docs/BEFORE_YOU_ACCEPT.md explains:

    other-points.a26m         a cartridge whose table of points was changed
    points-at-the-start.a26m  a start in the middle of the game, with 999,999 points
    joystick-at-the-end.a26m  a joystick that was turned after the last checkpoint

The places are those of docs/MOVIE_FORMAT.md, and the addresses those of labels of demo.asm.
"""

import pathlib
import re
import subprocess
import sys
import tempfile

import tamper
from tamper import CHECKPOINT, CHECKPOINTS, FRAMES, HERE, INPUTS, LENGTH, SCORE, STATE

POINTS_LOW = 0xF68B  # PointsLow: what an alien of each kind is worth, without hundreds
EVERY = 60
FIRST_CLAIM = CHECKPOINTS + 4


def answer(program, *arguments):
    """What the program prints."""
    return subprocess.run([program, *arguments], stdin=subprocess.DEVNULL, stdout=subprocess.PIPE, text=True, check=False).stdout


def made(program, rom, every):
    """The movie of a cartridge's bytes and the demo's inputs, with a checkpoint after every so many frames."""
    with tempfile.TemporaryDirectory() as folder:
        cartridge, movie = pathlib.Path(folder, "rom"), pathlib.Path(folder, "movie")
        cartridge.write_bytes(rom)
        answer(program, "make", str(cartridge), str(HERE / "demo.txt"), "--text", "--every", str(every), "--out", str(movie))
        return bytearray(movie.read_bytes())


def other_points(program):
    """An alien of the second kind is worth 90 points in place of 30."""
    rom = bytearray((HERE / "demo.rom").read_bytes())
    rom[(POINTS_LOW + 1) % LENGTH] ^= 0x30 ^ 0x90
    return made(program, rom, EVERY)


def joystick_at_the_end(program):
    """A movie whose last checkpoint stands after frame 700, with the joystick pressed to the right in frame 712."""
    movie = made(program, (HERE / "demo.rom").read_bytes(), 100)
    movie[tamper.pressed(712, 0)] ^= 0b1000_0000
    return movie


def places():
    """The place and the length of each number of a state record, by the names of the format's page."""
    found = {f"memory {address:02X}": (7 + address - 0x80, 1) for address in range(0x80, 0x100)}
    page = (HERE.parent / "docs" / "MOVIE_FORMAT.md").read_text(encoding="utf-8")
    table = page.partition("## A state record")[2].partition("\n## ")[0]
    for first, last, name in re.findall(r"^\| (\d+)(?: to (\d+))? \| ([^|]*[^| ]) \|", table, re.M):
        found.setdefault(name, (int(first), int(last or first) - int(first) + 1))
    return found


def with_claims_of_its_run(program, movie, claims):
    """The movie with each false claim replaced by the state of its run, one checkpoint after the other, as 'report' tells."""
    numbers = places()
    with tempfile.TemporaryDirectory() as folder:
        path = pathlib.Path(folder, "movie")
        while True:
            path.write_bytes(movie)
            line, *facts = answer(program, "report", str(path)).splitlines()
            false = re.fullmatch(r"false checkpoint (\d+) at frame \d+", line)
            if not false:
                return movie
            record = claims + CHECKPOINT * (int(false[1]) - 1)
            for name, value in re.findall(r"^(.*): claimed [0-9A-F]+, found ([0-9A-F]+)$", "\n".join(facts), re.M):
                place, length = numbers[name]
                movie[record + place : record + place + length] = bytes.fromhex(value)


def points_at_the_start(program):
    """The demo from the state after frame 60 on, with 999,999 points in it."""
    demo = (HERE / "demo.a26m").read_bytes()
    start = bytearray(demo[FIRST_CLAIM : FIRST_CLAIM + STATE])
    start[7 + SCORE - 0x80 : 7 + SCORE - 0x80 + 3] = b"\x99\x99\x99"
    frames, checkpoints = FRAMES - EVERY, FRAMES // EVERY - 1
    header = demo[:8] + frames.to_bytes(4, "big") + checkpoints.to_bytes(2, "big")
    movie = bytearray(header + demo[14 : 14 + LENGTH] + start + demo[INPUTS + 3 * EVERY : CHECKPOINTS])
    claims = len(movie) + 4
    for number in range(1, checkpoints + 1):
        claim = FIRST_CLAIM + CHECKPOINT * number
        movie += (number * EVERY).to_bytes(4, "big") + demo[claim : claim + STATE]
    return with_claims_of_its_run(program, movie, claims)


def main():
    program = str(pathlib.Path(sys.argv[1]).resolve())
    folder = pathlib.Path(sys.argv[2]) if len(sys.argv) > 2 else HERE
    for make in (other_points, points_at_the_start, joystick_at_the_end):
        (folder / (make.__name__.replace("_", "-") + ".a26m")).write_bytes(make(program))


if __name__ == "__main__":
    main()
