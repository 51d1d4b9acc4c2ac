"""A movie in MAME: how it is started, and what it played. another-emulator.lua, which runs in MAME, says what it sets at power-on and
what it writes down. What doesn't depend on MAME (the parts of a movie, the program's own pictures) stands in movies.py."""

from __future__ import annotations

import hashlib
import os
import pathlib
import shutil
import struct
import subprocess
import zlib

import movies
import tia_model

MAME = shutil.which("mame", path=f"{os.environ.get('PATH', '')}:/usr/games")
SECONDS = 100  # more than a movie with so many checkpoints has; MAME ends after its last frame
# MAME's names of what a record has from byte 146 on, and the bits of it that are kept.
TIA_FROM = 146
TIA = {
    "VBLANK": 0xC2, "NUSIZ0": 0x37, "NUSIZ1": 0x37, "COLUP0": 0xFE, "COLUP1": 0xFE, "COLUPF": 0xFE, "COLUBK": 0xFE,
    "CTRLPF": 0x37, "REFP0": 0x08, "REFP1": 0x08, "PF0": 0xF0, "PF1": 0xFF, "PF2": 0xFF,
    "GRP0": 0xFF, "prevGRP0": 0xFF, "GRP1": 0xFF, "prevGRP1": 0xFF, "ENAM0": 2, "ENAM1": 2, "ENABL": 2, "prevENABL": 2,
    "HMP0": 0xF0, "HMP1": 0xF0, "HMM0": 0xF0, "HMM1": 0xF0, "HMBL": 0xF0, "VDELP0": 1, "VDELP1": 1, "VDELBL": 1,
    "RESMP0": 2, "RESMP1": 2, "horzP0": 0xFF, "horzP1": 0xFF, "horzM0": 0xFF, "horzM1": 0xFF, "horzBL": 0xFF,
}
POSITIONS = ("horzP0", "horzP1", "horzM0", "horzM1", "horzBL")  # MAME has 160 to 164 for 0 to 4
# The latches of the ports, from byte 135 on.
PORTS = ("m_port[0].m_out", "m_port[0].m_ddr", "m_port[1].m_out", "m_port[1].m_ddr")
COLLISIONS = ("CXM0P", "CXM1P", "CXP0FB", "CXP1FB", "CXM0FB", "CXM1FB", "CXBLPF", "CXPPMM")
# MAME's buffer of lines: how many it draws, the colours of each, and where pixel 0 is.
ROWS, COLOURS, LEFT = 262, 228, 34
# MAME's boards by the names that movies have, and the bytes of their memory. A cartridge on a named board comes from a list of software.
SLOTS = {
    "2K": "a26_2k_4k", "4K": "a26_2k_4k", "F8": "a26_f8", "F8SC": "a26_f8", "F6": "a26_f6", "F6SC": "a26_f6", "F4": "a26_f4",
    "F4SC": "a26_f4", "FA": "a26_fa", "E0": "a26_e0", "3F": "a26_3f", "FE": "a26_fe", "E7": "a26_e7", "UA": "a26_ua", "CV": "a26_cv",
    "F0": "a26_dc", "0FA0": "a26_jvp",
}
MEMORY = {"F8SC": 128, "F6SC": 128, "F4SC": 128, "FA": 256, "E7": 2048, "CV": 1024}
LIST = """<?xml version="1.0"?>
<!DOCTYPE softwarelist SYSTEM "softwarelist.dtd">
<softwarelist name="a2600" description="one cartridge"><software name="one"><description>one</description><year>2026</year>
<publisher>none</publisher><part name="cart" interface="a2600_cart"><feature name="slot" value="{slot}"/>
<dataarea name="rom" size="{size}"><rom name="cartridge.bin" size="{size}" crc="{crc:08x}" sha1="{sha1}" offset="0"/></dataarea>
{memory}</part></software></softwarelist>
"""


def on_board(folder: pathlib.Path, board: str) -> list[str]:
    """Leaves a list with the cartridge of a folder on a board; MAME's words for it."""
    cartridge = (folder / "cartridge.bin").read_bytes()
    memory = f'<dataarea name="ram" size="{MEMORY[board]}"></dataarea>\n' if board in MEMORY else ""
    sums = {"crc": zlib.crc32(cartridge), "sha1": hashlib.sha1(cartridge).hexdigest()}
    (folder / "a2600/one").mkdir(parents=True)
    (folder / "a2600/one/cartridge.bin").write_bytes(cartridge)
    (folder / "a2600.xml").write_text(LIST.format(slot=SLOTS[board], size=len(cartridge), memory=memory, **sums))
    return ["one", "-hashpath", str(folder), "-rompath", str(folder)]


def play(
    folder: pathlib.Path, pictures: int = 0, traced: list[int] | None = None, undriven: bool = False, board: str = ""
) -> list[str]:
    """The states that MAME writes, a line a frame. Its status says nothing: after a script it sometimes crashes at the end."""
    cartridge = on_board(folder, board) if board else ["-cart", "cartridge.bin"]
    words = ["timeout", "-k", "10", str(4 * SECONDS), MAME, "a2600", *cartridge]
    words += ["-bench", str(SECONDS), "-skip_gameinfo", "-noreadconfig"]
    words += ["-noplugins", "-autoboot_script", movies.HOME / "another-emulator.lua", "-autoboot_delay", "0"]
    words += ["-debug", "-debugger", "none"] if traced else []
    environment = os.environ | {"SDL_VIDEODRIVER": "dummy", "HOME": str(folder), "PICTURES": str(pictures)}
    environment |= {"TRACED": " ".join(map(str, traced or []))} | ({"UNDRIVEN": "1"} if undriven else {}) | ({"BOARD": board} if board else {})
    said = subprocess.run(words, cwd=folder, env=environment, capture_output=True, text=True)
    states = folder / "states"
    if not states.exists():
        movies.fail(f"MAME wrote nothing: {(said.stdout + said.stderr)[-300:]}")
    return states.read_text().splitlines()


def claimed(record: bytes) -> dict[str, int]:
    """The numbers of a record that are compared, by name."""
    numbers = movies.numbers(record)
    numbers |= dict(zip(PORTS, record[135:139]))
    numbers |= {"timer interval": record[142], "timer past zero": record[143], "timer flag": record[144]}
    return numbers | dict(zip(TIA, record[TIA_FROM:]))


def next_instruction(address: int, opcode: int) -> int:
    """The address after an instruction that writes: MAME's PC stands at it until the next is fetched."""
    return address + (3 if opcode & 0x0C == 0x0C or opcode & 0x1F == 0x19 else 2)


def seen(line: str) -> dict[str, int]:
    """The same numbers of a line that MAME wrote."""
    words = dict(word.split("=") for word in line.split())
    memory = bytes.fromhex(words.pop("memory"))
    found = {name: int(number) for name, number in words.items() if number.isdigit()}
    numbers = {name: found[name] for name in ("A", "X", "Y")}
    numbers |= {"S": found["SP"] & 0xFF, "P": found["P"] & 0xCF, "PC": next_instruction(found["PC"], found["IR"])}
    numbers |= movies.memory(memory)
    numbers |= {name: found[name] for name in PORTS}
    numbers |= {"timer interval": (0, 3, 6, 10).index(found["m_timershift"])}
    numbers |= {"timer past zero": int(found["m_timerstate"] == 2), "timer flag": found["m_irqstate"] >> 7 & 1}
    numbers |= {name: found[name] & mask for name, mask in TIA.items()} | {name: found[name] % 160 for name in POSITIONS}
    numbers |= {"collisions": movies.collisions([found[name] for name in COLLISIONS]), "line cycle": found["cycles"] % 76}
    return numbers | ({"bank": found["bank"]} if "bank" in found else {})


def writes(folder: pathlib.Path) -> list[tia_model.Write]:
    """The writes to the TIA's registers that MAME's processor made."""
    return [tia_model.Write(*map(int, line.split())) for line in (folder / "writes").read_text().splitlines()]


def pictures(folder: pathlib.Path) -> dict[int, list[bytes]]:
    """The rows of MAME's pictures, by the number of the frame, from the second on. A buffer begins with the line in which vertical
    sync began, which ends the frame before, and it is whole when the next one begins."""
    syncs, was, begin = [], 0, 0
    for cycle, register, byte in writes(folder):
        if register == tia_model.VSYNC:
            begin = cycle if byte & 2 and not was & 2 else begin
            syncs += [(begin // 76, cycle // 76)] if was & 2 and not byte & 2 else []
            was = byte
    data, size, found = (folder / "pictures").read_bytes(), 2 * COLOURS * ROWS, {}
    for frame in range(2, len(data) // size + 1):
        (base, first), (last, _) = syncs[frame - 2], syncs[frame - 1]
        begins = [(frame - 1) * size + 2 * COLOURS * row for row in range(first - base, min(last - base + 1, ROWS))]
        found[frame] = [bytes(2 * it for it in struct.unpack_from("<160H", data, row + 2 * LEFT)) for row in begins]
    return found
