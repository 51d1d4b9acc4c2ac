"""A movie in Stella's debugger, on a screen in memory: the scripts for it, and what it played. bench/in-stella says what is compared."""

from __future__ import annotations

import itertools
import os
import pathlib
import re
import shutil
import subprocess

import movies

STELLA = shutil.which("stella", path=f"{os.environ.get('PATH', '')}:/usr/games")
SCREEN = shutil.which("xauth") and shutil.which("xvfb-run")
# Seconds that Stella may take: to start, and for a frame. And the numbers of screens, one for each call.
START, FRAME = 500, 4
SCREENS = itertools.count(100 + os.getpid() % 5000 * 10)
# Its time machine keeps the states, and with them the pictures.
OPTIONS = {
    "-video": "software", "-audio.enabled": 0, "-confirmexit": 0, "-exitlauncher": 0, "-dev.settings": 1, "-dev.ramrandom": 0,
    "-dev.tiarandom": 0, "-dev.tiadriven": 0, "-dev.bankrandom": 0, "-dev.colorloss": 0, "-dev.timemachine": 1, "-dev.tm.size": 1000,
    "-dev.tm.uncompressed": 1000, "-dev.rwportbreak": 0, "-dev.wrportbreak": 0,
}
# Power-on as docs/MACHINE.md has it: the processor's registers, then a write of 0 to T1024T and one to HMCLR.
POWER_ON = ("a 0", "x 0", "y 0", "s ff", "n 0", "v 0", "d 0", "z 0", "c 0", "ram 297 0", "ram 2b 0")
# The debugger's names of the pins of port A, with their bits.
PINS = {
    "joy0Up": 0x10, "joy0Down": 0x20, "joy0Left": 0x40, "joy0Right": 0x80, "joy1Up": 0x01, "joy1Down": 0x02, "joy1Left": 0x04,
    "joy1Right": 0x08,
}
# What the debugger knows by these names is put into the output latch of port B, from which it is read.
BY_LATCH = {"line cycle": "_sCycles", "bank": "_bank", "timer value": "_inTim"}
# Where a dump has the flags of P. I isn't compared: it is set here at power-on, and the debugger has no command for it.
FLAGS = {0: 0x80, 1: 0x40, 3: 0x08, 5: 0x02, 6: 0x01}
# A saved state begins with the first of these; three pictures of 320 rows stand before the second, the whole one in the middle.
STATE, MESSAGE = b"06070000state", b"\x04\x00\x00\x00step"
ROWS, WIDTH = 320, 160
# Its first row is one of the frame's first, and it has at least so many rows, black ones among them.
MOST_ABOVE, SHOWN = 90, 190


class Stella:
    """A run of Stella in a folder in which 'movies.make' left a cartridge, of so many frames and pictures."""

    def __init__(self, folder: pathlib.Path, inputs: bytes, names: list[str], wanted: int = 0, board: str = "") -> None:
        """names are those of BY_LATCH; with none the cartridge uses port B itself, and the switches stay as Stella has them. Without a
        board Stella chooses one."""
        self.folder, self.inputs, self.names, self.wanted, self.board = folder, inputs, names, wanted, board
        self.count = len(inputs) // 3
        self.play()
        found = (re.fullmatch(r".*_dbg_(.+)-(\d+)\.dump", file.name, re.S) for file in folder.iterdir())
        self.dumps = {(it[1], int(it[2])): it.string for it in found if it}
        self.played = next(at for at in itertools.count() if not all((it, at + 1) in self.dumps for it in ("state", "collisions")))

    def held(self, frame: bytes) -> list[str]:
        """The commands for what is held in a frame. There is none for the console's switches, so the latch of port B gives them."""
        port, console, buttons = frame
        pins = {name: bool(port & bit) for name, bit in PINS.items()}
        pins |= {"joy0Fire": not buttons & 1, "joy1Fire": not buttons & 2}
        return [*(f"{name} {int(pin)}" for name, pin in pins.items()), *([f"ram 282 {console:x}", "ram 283 ff"] if self.names else [])]

    def write_scripts(self) -> None:
        """The script that the debugger runs when it starts, and those that it runs for each frame, since each call of one has a file."""
        # (a frame of Stella's own ends elsewhere, if it is a long one)
        scripts = {"state": ["stepWhile { !(_vsync) }", "stepWhile { _vsync }", "dump 80 ff 3"], "collisions": ["dump 40 47 1"]}
        scripts |= {name.replace(" ", "-"): [f"ram 282 {{ {BY_LATCH[name]} }}", "dump 282 282 1"] for name in self.names}
        lines = list(POWER_ON)
        for number in range(1, self.count + 1):
            lines += self.held(self.inputs[3 * number - 3 : 3 * number])
            # A step keeps a state, with the picture of the frame before.
            lines += ["step"] if 1 < number <= self.wanted + 1 else []
            lines += [f"exec {self.folder}/{name}.script {name}-{number}" for name in scripts]
        lines += [*(["step"] if self.wanted == self.count else []), "saveAllStates"] if self.wanted else []
        for name, said in scripts.items():
            (self.folder / f"{name}.script").write_text("\n".join(said) + "\n")
        (self.folder / "base").mkdir()
        (self.folder / "base/autoexec.script").write_text("\n".join([*lines, "exitRom"]) + "\n")

    def play(self) -> None:
        """Plays it."""
        self.write_scripts()
        words = [SCREEN, "-a", "-n", str(next(SCREENS)), "timeout", "-k", "10", str(START + FRAME * self.count)]
        words += [STELLA, "-debug", "-basedir", self.folder / "base", *(str(it) for pair in OPTIONS.items() for it in pair)]
        words += [*(["-bs", self.board] if self.board else []), self.folder / "cartridge.bin"]
        environment = os.environ | {"SDL_AUDIODRIVER": "dummy", "HOME": str(self.folder), "XDG_RUNTIME_DIR": str(self.folder)}
        said = subprocess.run(words, cwd=self.folder, env=environment, capture_output=True, text=True)
        # The cartridge's own name stands before it, if Stella knows one.
        if not list(self.folder.glob("*_dbg_state-1.dump")):
            movies.fail(f"Stella wrote nothing: {(said.stdout + said.stderr)[-300:]}")

    def dumped(self, name: str, number: int) -> list[tuple[str, list[int]]]:
        """The lines of a dump: what stands before the colon, and the bytes after it."""
        text = (self.folder / self.dumps[name.replace(" ", "-"), number]).read_text()
        lines = [line.partition(":") for line in text.splitlines() if ":" in line]
        return [(head, [int(byte, 16) for byte in rest.split() if byte != "-"]) for head, _, rest in lines]

    def state(self, number: int) -> dict[str, int]:
        """The numbers of a frame's end."""
        *memory, (_, cpu) = self.dumped("state", number)
        numbers = {"A": cpu[3], "X": cpu[4], "Y": cpu[5], "S": cpu[2], "PC": cpu[0] | cpu[1] << 8}
        numbers["P"] = sum(bit for place, bit in FLAGS.items() if cpu[8 + place])
        numbers |= movies.memory(bytes(byte for _, line in memory for byte in line))
        numbers["collisions"] = movies.collisions(self.dumped("collisions", number)[0][1])
        return numbers | {name: self.dumped(name, number)[0][1][0] for name in self.names}

    def states(self) -> list[dict[str, int]]:
        """The numbers of all frames that were played."""
        return [self.state(number) for number in range(1, self.played + 1)]

    def pictures(self, ours: list[list[bytes]]) -> dict[int, list[bytes]]:
        """The rows of the pictures, by the number of the frame, from the second on: up to the last that isn't black. None where Stella
        shows nothing, as after vertical sync of an odd length, and we do."""
        found = {}
        for file in (self.folder / "base/state").glob("*.sta"):
            data = file.read_bytes()
            begins = [it.start() for it in re.finditer(re.escape(STATE), data)][1:]
            for frame, (begin, end) in list(enumerate(zip(begins, [*begins[1:], len(data)])))[2 : self.wanted + 1]:
                at = data.rindex(MESSAGE, begin, end) - 4 - 2 * ROWS * WIDTH
                rows = [data[row : row + WIDTH] for row in range(at, at + ROWS * WIDTH, WIDTH)]
                while rows and not any(rows[-1]):
                    rows.pop()
                if rows or not any(map(any, ours[frame - 1])):
                    found[frame] = rows
        return found


def claimed(record: bytes) -> dict[str, int]:
    """The numbers of a record that Stella shows."""
    numbers = movies.numbers(record)
    return {"bank": 0} | numbers | {"P": record[4] & sum(FLAGS.values()), "timer value": record[139]}


def uses_port_b(records: list[bytes]) -> bool:
    """Whether a cartridge writes to port B or its direction, as the states show."""
    return any(record[137] or record[138] for record in records)


def window(rows: list[bytes], above: int, count: int) -> list[bytes]:
    """So many rows of a picture, from some row on, with black ones below it."""
    found = rows[above : above + count]
    return found + [bytes(WIDTH)] * (count - len(found))


def shown_from(theirs: list[bytes], ours: list[bytes]) -> int | None:
    """The row of our picture from which on a picture of Stella's shows it, or none."""
    shown = window(theirs, 0, max(SHOWN, len(theirs)))
    return next((above for above in range(MOST_ABOVE) if window(ours, above, len(shown)) == shown), None)


def is_shown(theirs: list[bytes], ours: list[bytes]) -> bool:
    """Whether a picture of Stella's shows our rows, from some row on."""
    return shown_from(theirs, ours) is not None
