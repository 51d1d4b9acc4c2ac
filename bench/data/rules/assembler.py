"""An assembler for cartridges: the documented instructions, one to a line or with ';' between, labels 'name:', '!' before an operand
for an absolute address, '.byte', '.page N' (so many bytes come in one page) and '.at ADDRESS'. Operands are sums
of numbers, labels and registers; lo() and hi() are the bytes of an address."""

from __future__ import annotations

import re

GROUP = {"ora": 0x01, "and": 0x21, "eor": 0x41, "adc": 0x61, "sta": 0x81, "lda": 0xA1, "cmp": 0xC1, "sbc": 0xE1}
GROUP_MODES = {"(z,x)": 0, "z": 4, "#": 8, "a": 12, "(z),y": 16, "z,x": 20, "a,y": 24, "a,x": 28}
SHIFTS = {"asl": 0x06, "rol": 0x26, "lsr": 0x46, "ror": 0x66, "dec": 0xC6, "inc": 0xE6}
SHIFT_MODES = {"z": 0, "": 4, "a": 8, "z,x": 16, "a,x": 24}
OTHERS = {
    "ldx": {"#": 0xA2, "z": 0xA6, "z,y": 0xB6, "a": 0xAE, "a,y": 0xBE}, "ldy": {"#": 0xA0, "z": 0xA4, "z,x": 0xB4, "a": 0xAC, "a,x": 0xBC},
    "stx": {"z": 0x86, "z,y": 0x96, "a": 0x8E}, "sty": {"z": 0x84, "z,x": 0x94, "a": 0x8C}, "cpx": {"#": 0xE0, "z": 0xE4, "a": 0xEC},
    "cpy": {"#": 0xC0, "z": 0xC4, "a": 0xCC}, "bit": {"z": 0x24, "a": 0x2C}, "jmp": {"a": 0x4C, "(a)": 0x6C}, "jsr": {"a": 0x20},
}
IMPLIED = {
    "brk": 0x00, "php": 0x08, "clc": 0x18, "plp": 0x28, "sec": 0x38, "rti": 0x40, "pha": 0x48, "cli": 0x58, "rts": 0x60, "pla": 0x68,
    "sei": 0x78, "dey": 0x88, "txa": 0x8A, "tya": 0x98, "txs": 0x9A, "tay": 0xA8, "tax": 0xAA, "clv": 0xB8, "tsx": 0xBA, "iny": 0xC8,
    "dex": 0xCA, "cld": 0xD8, "inx": 0xE8, "nop": 0xEA, "sed": 0xF8,
}
BRANCHES = {"bpl": 0x10, "bmi": 0x30, "bvc": 0x50, "bvs": 0x70, "bcc": 0x90, "bcs": 0xB0, "bne": 0xD0, "beq": 0xF0}
REGISTERS = dict(zip("""VSYNC VBLANK WSYNC RSYNC NUSIZ0 NUSIZ1 COLUP0 COLUP1 COLUPF COLUBK CTRLPF REFP0 REFP1 PF0 PF1 PF2 RESP0 RESP1
    RESM0 RESM1 RESBL AUDC0 AUDC1 AUDF0 AUDF1 AUDV0 AUDV1 GRP0 GRP1 ENAM0 ENAM1 ENABL HMP0 HMP1 HMM0 HMM1 HMBL VDELP0 VDELP1 VDELBL
    RESMP0 RESMP1 HMOVE HMCLR CXCLR""".split(), range(0x40)))
REGISTERS |= dict(zip("CXM0P CXM1P CXP0FB CXP1FB CXM0FB CXM1FB CXBLPF CXPPMM".split(), range(0x30, 0x38))) | {"INPT4": 0x3C, "INPT5": 0x3D}
REGISTERS |= dict(zip("SWCHA SWACNT SWCHB SWBCNT INTIM TIMINT".split(), range(0x280, 0x286)))
REGISTERS |= dict(zip("TIM1T TIM8T TIM64T T1024T".split(), range(0x294, 0x298)))
OPERAND = re.compile(r"(?P<kind>!|\(?)(?P<what>.*?)(?P<tail>(?:,x\)|\),y|\)|,x|,y)?)")


def modes(name: str) -> dict[str, int]:
    """The opcodes of an instruction, by its modes."""
    if name in GROUP:
        return {mode: GROUP[name] + more for mode, more in GROUP_MODES.items()}
    if name in SHIFTS:
        return {mode: SHIFTS[name] + more for mode, more in SHIFT_MODES.items()}
    return OTHERS[name]


class Assembly:
    """One pass over a text; labels are those of the pass before."""

    def __init__(self, text: str, origin: int, labels: dict[str, int], is_last: bool) -> None:
        self.origin, self.labels, self.is_last = origin, labels, is_last
        self.bytes, self.found = bytearray(), {}
        for line in re.split("[\n;]", text):
            self.line(line.strip())

    def here(self) -> int:
        """The address of the next byte."""
        return self.origin + len(self.bytes)

    def value(self, text: str) -> int:
        """A sum; an address that isn't known yet is in no page zero."""
        names = REGISTERS | self.labels | {"lo": lambda it: it & 255, "hi": lambda it: it >> 8, "here": self.here()}
        try:
            return eval(text.replace("$", "0x"), {"__builtins__": {}}, names)
        except NameError:
            if self.is_last:
                raise
            return 0xFFFF

    def line(self, line: str) -> None:
        """A label, a directive, an instruction, or nothing."""
        label = re.match(r"(\w+):\s*", line)
        if label:
            self.found[label[1]] = self.here()
            line = line[label.end() :]
        name, _, operand = line.partition(" ")
        if name == ".byte":
            self.bytes += bytes(self.value(it) & 255 for it in operand.split(","))
        elif name == ".page" and (self.here() & 255) + self.value(operand) > 256:
            self.bytes += bytes(-self.here() & 255)
        elif name == ".at":
            self.bytes += bytes(self.value(operand) - self.here())
        elif name and name != ".page":
            self.instruction(name, operand.strip())

    def instruction(self, name: str, operand: str) -> None:
        """Its opcode and its operand's bytes."""
        if name in IMPLIED:
            self.bytes.append(IMPLIED[name])
        elif name in BRANCHES:
            far = self.value(operand) - self.here() - 2
            if self.is_last and not -128 <= far <= 127:
                raise ValueError(f"too far: {name} {operand}")
            self.bytes += bytes((BRANCHES[name], far & 255))
        elif not operand:
            self.bytes.append(modes(name)[""])
        else:
            self.with_operand(name, operand)

    def with_operand(self, name: str, operand: str) -> None:
        """An instruction that has one."""
        if operand[0] == "#":
            self.bytes += bytes((modes(name)["#"], self.value(operand[1:]) & 255))
            return
        found = OPERAND.fullmatch(operand)
        value, shape = self.value(found["what"]), "(" * (found["kind"] == "(") + "%s" + found["tail"]
        is_short = shape % "z" in modes(name) and value < 256 and found["kind"] != "!"
        self.bytes.append(modes(name)[shape % ("z" if is_short else "a")])
        self.bytes += value.to_bytes(2, "little")[: 1 if is_short else 2]


def length(text: str) -> int:
    """How many bytes a text has."""
    return len(Assembly(text, 0xF000, {}, False).bytes)


def part(text: str, origin: int) -> tuple[bytes, dict[str, int]]:
    """The bytes of a text that begins at an address, and its labels."""
    labels: dict[str, int] = {}
    for _ in range(3):
        labels = Assembly(text, origin, labels, False).found
    return bytes(Assembly(text, origin, labels, True).bytes), labels


def assemble(text: str, size: int) -> bytes:
    """A cartridge, or a bank, of so many bytes, which ends with three vectors: to 'start', and the last to 'break', if there is one."""
    made, labels = part(text, 0x10000 - size)
    if len(made) > size - 6:
        raise ValueError(f"{len(made)} bytes are too many")
    vectors = [labels["start"], labels["start"], labels.get("break", labels["start"])]
    return made + bytes(size - 6 - len(made)) + b"".join(it.to_bytes(2, "little") for it in vectors)
