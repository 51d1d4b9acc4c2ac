"""What the scripts share that compare a program of this project with other emulators: the parts of a movie, the program's own movies
and pictures, and the numbers of a state."""

from __future__ import annotations

import os
import pathlib
import re
import subprocess
import sys
from typing import Iterator, NoReturn

import tia_model

HOME = pathlib.Path(__file__).resolve().parent
# (the module alone: with its package SIGINT ends a run at once, and temporary folders stay)
sys.path.append(str(HOME.parent / "companions" / "votmeshaw"))
from layout import BOARDS, VERSIONS, NoMovie, Parts  # noqa: E402

DEMOS = (HOME.parent / "demo" / "demo.a26m", HOME.parent / "demo" / "harbour.a26m")
MOST_PICTURES = 600
# The palette of docs/MACHINE.md (9): each colour byte by its red, green and blue.
BASES = (
    (0, 0, 0), (64, 64, 0), (87, 48, 0), (87, 32, 8), (87, 0, 0), (80, 0, 56), (64, 0, 87), (40, 0, 87),
    (0, 0, 87), (0, 24, 87), (0, 48, 80), (0, 64, 56), (0, 72, 0), (24, 64, 0), (48, 56, 0), (72, 40, 0),
)
COLOURS = {bytes(part + 12 * (colour & 0x0E) for part in BASES[colour >> 4]): colour for colour in range(0, 256, 2)}

# A line of 'trace': scanline, cycle, opcode, and what follows A, X, Y, S, P and bank.
TRACED = re.compile(r" *(\d+) +(\d+)  ....  (..).* P=..(?: B=.)?(.*)")
# The cycles in which instructions write, by docs/MACHINE.md (1.4, 1.5).
STORES = {0x84: 3, 0x85: 3, 0x86: 3, 0x94: 4, 0x95: 4, 0x96: 4, 0x8C: 4, 0x8D: 4, 0x8E: 4, 0x99: 5, 0x9D: 5, 0x81: 6, 0x91: 6}
CHANGES = {0x06: (4, 5), 0x16: (5, 6), 0x0E: (5, 6), 0x1E: (6, 7)}  # those of ASL, and of the others alike
PUSHES = {0x48: (3,), 0x08: (3,), 0x20: (4, 5), 0x00: (3, 4, 5)}


def fail(text: str) -> NoReturn:
    """Ends the script that is run."""
    sys.exit(f"bench/{pathlib.Path(sys.argv[0]).name}: {text}")


def program(word: str) -> str:
    """The program that was asked for."""
    if not os.access(word, os.X_OK) or not os.path.isfile(word):
        fail(f"no program at {word!r}")
    return os.path.abspath(word)


def read(movie: pathlib.Path) -> Parts:
    """The parts of a movie."""
    try:
        return Parts.of(movie.read_bytes())
    except OSError as error:
        fail(f"cannot read {str(movie)!r}: {error.strerror}")
    except NoMovie as error:
        fail(f"no movie: {str(movie)!r}: {error}")


def lay_out(cartridge: bytes, inputs: bytes, folder: pathlib.Path) -> None:
    """Leaves what other emulators play of a movie."""
    lines = ["%d %d %d\n" % tuple(inputs[at : at + 3]) for at in range(0, len(inputs), 3)]
    (folder / "cartridge.bin").write_bytes(cartridge)
    (folder / "made.inputs").write_bytes(inputs)
    (folder / "inputs").write_text("".join(lines))


def by_guide(movie: pathlib.Path) -> Parts:
    """The parts of a movie that is judged by the guide's rules."""
    parts = read(movie)
    if parts.board:
        fail(f"{movie.name} is of version 3, and judged by the chip's rules: bench/chip plays it")
    return parts


def make(program: str, movie: pathlib.Path, folder: pathlib.Path) -> list[bytes]:
    """Makes a movie again by the guide's rules, as 'made_of' does; leaves what other emulators play."""
    parts = by_guide(movie)
    lay_out(parts.cartridge, parts.inputs, folder)
    return made_of(program, movie.name, folder)


def made_of(program: str, name: str, folder: pathlib.Path, board: str = "") -> list[bytes]:
    """Makes a movie of what 'lay_out' left, as 'made', with a checkpoint after every frame, by the chip's rules if it has a board.
    Returns the states before frame 1, 2, .. and after the last."""
    words = [program, "make", "cartridge.bin", "made.inputs", "--every", "1", "--out", "made", *(["--board", board] if board else [])]
    made = subprocess.run(words, cwd=folder, capture_output=True, text=True)
    if made.returncode:
        fail(f"no movie made of {name}: {(made.stdout + made.stderr).strip()}")
    states = read(folder / "made")
    return [states.start, *(record for _, record in states.checkpoints)]


def pictures(program: str, folder: pathlib.Path, wanted: int) -> Iterator[list[bytes]]:
    """The program's pictures of the first frames of what 'make' left, each as its rows of colour bytes."""
    words = [program, "verify", "made", "--count", str(wanted), "--pictures", "own.ppm"]
    subprocess.run(words, cwd=folder, stdout=subprocess.DEVNULL, check=True)
    data, at, known = (folder / "own.ppm").read_bytes(), 0, {}
    while at < len(data):
        begin = at
        for _ in range(3):  # the lines of a header
            begin = data.index(b"\n", begin) + 1
        at, begin = begin + 480 * int(data[at:begin].split()[2]), begin
        rows = [data[row : row + 480] for row in range(begin, at, 480)]
        for row in set(rows) - known.keys():
            known[row] = bytes(COLOURS[row[pixel : pixel + 3]] for pixel in range(0, 480, 3))
        yield [known[row] for row in rows]


def writing_cycles(opcode: int) -> tuple[int, ...]:
    """The cycles of an instruction in which it writes."""
    return (STORES[opcode],) if opcode in STORES else PUSHES.get(opcode) or CHANGES.get(opcode & 0x1F, ())


def writes(program: str, folder: pathlib.Path, wanted: int) -> Iterator[tia_model.Write]:
    """The writes to the TIA's registers in the first frames of what 'make' left, as 'trace' prints them."""
    base = 0
    for frame in range(1, wanted + 1):
        words = [program, "trace", "made", "--frame", str(frame)]
        said = subprocess.run(words, cwd=folder, capture_output=True, text=True, check=True).stdout
        cycle = 0
        for line in said.splitlines():
            found = TRACED.fullmatch(line) if "write" in line else None
            accesses = [it.split() for it in found[4].split("  ") if it.startswith("write")] if found else []
            for (_, address, byte), after in zip(accesses, writing_cycles(int(found[3], 16)) if found else ()):
                if int(address, 16) & 0x1080 == 0:
                    cycle = 76 * (base + int(found[1])) + int(found[2]) + after
                    yield tia_model.Write(cycle, int(address, 16) & 0x3F, int(byte, 16))
        base = cycle // 76


def memory(found: bytes) -> dict[str, int]:
    """The RIOT's memory as numbers of a state."""
    return {f"memory {128 + place:02X}": byte for place, byte in enumerate(found)}


def numbers(record: bytes) -> dict[str, int]:
    """The numbers of a record that each emulator shows: processor, memory, collisions, beam; in version 2 the bank."""
    by_chip = len(record) >= VERSIONS[2].record
    latched, beam = (194, 199) if by_chip else (182, 185)
    found = dict(zip(("A", "X", "Y", "S", "P"), record), PC=int.from_bytes(record[5:7], "big")) | memory(record[7:135])
    found |= {"collisions": int.from_bytes(record[latched : latched + 2], "big"), "line cycle": record[beam]}
    return found | ({"bank": record[187]} if len(record) > 187 and not by_chip else {})


def collisions(found: list[int]) -> int:
    """Eight registers of collisions as the bits of a record: two of each, but for one of BL-PF."""
    bits = 0
    for number, byte in enumerate(found):
        bits = bits << 2 | byte >> 6 & 3 if number != 6 else bits << 1 | byte >> 7 & 1
    return bits


def differences(here: dict[str, int], there: dict[str, int]) -> list[str]:
    """The names of the numbers in which two states differ, as far as both have them."""
    return [name for name in here if name in there and here[name] != there[name]]


def compare(name: str, emulator: str, ours: list[dict[str, int]], theirs: list[dict[str, int]]) -> bool:
    """Prints how many frames agree, and what differs in the first that doesn't; returns whether all agree."""
    wrong = {frame: differences(*pair) for frame, pair in enumerate(zip(ours, theirs), 1)}
    equal = sum(not names for names in wrong.values())
    compared = sum(it in theirs[0] for it in ours[0]) if theirs else 0
    print(f"{name}: {equal} of {len(ours)} frames agree, each in {compared} numbers")
    for frame in [frame for frame, names in wrong.items() if names][:1]:
        here, there = ours[frame - 1], theirs[frame - 1]
        said = [f"{key}: {here[key]:X}, in {emulator} {there[key]:X}" for key in wrong[frame]]
        print(f"frame {frame} is the first that doesn't: {'; '.join(said)}")
    if len(theirs) < len(ours):
        print(f"{emulator} ended after {len(theirs)} frames")
    return equal == len(ours)
