"""What a cartridge looks like, by its bytes alone: whether its length is one that is played, and, by the guide's rules, which bank
scheme it may have.

The patterns are the byte patterns by which Stella and MAME tell schemes apart, and were tried on Stella 6.7. A game that isn't of a
scheme may have its pattern all the same, so what they say is a doubt."""

import hashlib
import re
import zlib
from typing import NamedTuple

from votmeshaw.importing.runs import Refused, shown
from votmeshaw.layout import BOARDS

# By the guide's rules.
SIZES = (2048, 4096, 8192)
BANK = 4096
# How much of a file is looked at.
MOST = 1_048_576
# What a file is that is no cartridge, by its first bytes, and where a tar says that it is one.
PACKED = {
    b"PK\x03\x04": "a zip", b"\x1f\x8b\x08": "packed by gzip", b"7z\xbc\xaf": "packed by 7-Zip",
    b"Rar!": "packed by RAR", b"\xfd7zXZ": "packed by xz",
}
TAR = slice(257, 262), b"ustar"
OTHERS = {
    b"A26M": "a movie of this project", b"\x01ATARI7800": "a cartridge of the Atari 7800, with its header",
    b"\x00ATARI7800": "a cartridge of the Atari 7800, with its header", b"NES\x1a": "a cartridge of the NES, with its header",
}
# What other lengths are known for.
LENGTHS = {
    6144: "a game of the Supercharger", 8448: "a game of the Supercharger", 10_240: "a cartridge with the chip DPC",
    10_495: "a cartridge with the chip DPC", 12_288: "a cartridge of three banks", 16_384: "a cartridge of four banks",
    32_768: "a cartridge of eight banks",
}
# What a header in front of a cartridge has; 512 is that of a copier.
HEADERS = (16, 64, 128, 512)


class Scheme(NamedTuple):
    """A bank scheme with the patterns of which one stands in its cartridges, and how often at least."""

    name: str
    patterns: tuple[str, ...]
    times: int = 1


# In the order in which they are looked for.
BEFORE_FE = (
    Scheme("E0", ("8DE01F", "8DE05F", "8DE9FF", "0CE01F", "ADE01F", "ADE9FF", "ADEDFF", "ADF3BF")),
    Scheme("3F", ("853F",), 2),
    Scheme("UA", ("8D4002", "AD4002", "BD1F02", "2CC002", "8DC002", "ADC002")),
)
FE = Scheme("FE", ("2000D0C6C5", "20C3F8A582", "D0FB2073FE", "2000F084D6"))
AFTER_FE = (
    Scheme("0840", ("AD0008", "AD4008", "2C0008", "0C00084C", "0CFF0F4C"), 2),
    Scheme("E7", ("ADE5FF",)),
    Scheme("WD", ("A5394C",)),
)
# A cartridge in which one of these stands twice isn't taken for FE.
STORES_OF_F8 = ("8DF91F", "8DF9FF")
# What BizHawk calls its boards, perhaps behind an 'm', that aren't played here; and those that aren't by the guide's rules.
NOT_PLAYED = ("3E", "4A50", "AR", "BF", "CM", "DF", "DPC", "DPCPLUS", "EF", "EFSC", "FA2", "MC", "MDM", "SB", "X07")
NOT_BY_THE_GUIDE = (*NOT_PLAYED, *(it.name for it in BOARDS if it.name not in ("2K", "4K", "F8")))
COMMAVID = Scheme("CV", ("9DFFF3", "9900F4"))
# An instruction with an absolute address, perhaps with an index, that reaches 1FF8 or 1FF9 in one of its mirrors.
ABSOLUTE = rb"\x0c\x0d\x0e\x2c\x2d\x2e\x4d\x4e\x6d\x6e\x8c\x8d\x8e\xac\xad\xae\xcc\xcd\xce\xec\xed\xee"
INDEXED = rb"\x19\x1d\x1e\x39\x3d\x3e\x59\x5d\x5e\x79\x7d\x7e\x99\x9d\xb9\xbc\xbd\xbe\xd9\xdd\xde\xf9\xfd\xfe"
REACHES_F8 = re.compile(b"(?s:[%s][\xf8\xf9]|[%s][\xf0-\xf9])[\x1f\x3f\x5f\x7f\x9f\xbf\xdf\xff]" % (ABSOLUTE, INDEXED))


def _has(data: bytes, scheme: Scheme) -> bool:
    """Whether a pattern of a scheme stands in a cartridge often enough."""
    return any(data.count(bytes.fromhex(it)) >= scheme.times for it in scheme.patterns)


def check_length(data: bytes, lengths: tuple[int, ...]) -> None:
    """Refused if this is no cartridge of one of these lengths."""
    if data.startswith(b"PK") and b"Input Log.txt" in data:
        raise Refused("GAME is a BizHawk movie; RUN comes first, and then GAME")
    for begin, what in (*PACKED.items(), *OTHERS.items()):
        if data.startswith(begin):
            raise Refused(f"GAME is {what}" + (": unpack it first" if begin in PACKED else ""))
    if (length := len(data)) in lengths:
        return
    if data[TAR[0]] == TAR[1]:
        raise Refused("GAME is a tar: unpack it first")
    said = f"more than {MOST:,} bytes" if length > MOST else f"{length} bytes"
    if length in LENGTHS:
        said += f", as {LENGTHS[length]} has"
    for size in lengths:
        if length - size in HEADERS:
            said += f", as a cartridge of {size} behind a header of {length - size} has: take the header away"
    *first, last = map(str, lengths)
    rules = " by the guide's rules, others without --guide" if lengths == SIZES else ""
    raise Refused(f"GAME has {said}, and cartridges of {', '.join(first)} and {last} bytes are played{rules}")


def bank_scheme(said: str) -> str:
    """The bank scheme or board that a run names, as it is called here; the names of some begin with an 'M' of their own."""
    name = said.upper()
    return name if name in NOT_PLAYED else name.removeprefix("M")


def doubt(data: bytes, board: str) -> str:
    """Why a cartridge looks as if it had another scheme than the one by which the guide's rules play it, or nothing; board is what the
    run says."""
    if bank_scheme(board) in NOT_BY_THE_GUIDE:
        return f"the run was played on the board {shown(board)}"
    if len(data) < 2 * BANK:
        return f"it has a byte pattern of cartridges with memory of their own ({COMMAVID.name})" if _has(data, COMMAVID) else ""
    banks = data[:BANK], data[BANK:]
    if banks[0] == banks[1]:
        return ""
    if all(it[:128] == it[128:256] for it in banks):
        return "each of its banks begins with 128 bytes that stand there twice, as where a cartridge has memory of its own (F8SC)"
    is_f8 = any(data.count(bytes.fromhex(it)) >= 2 for it in STORES_OF_F8)
    for scheme in (*BEFORE_FE, *(() if is_f8 else (FE,)), *AFTER_FE):
        if _has(data, scheme):
            return f"it has a byte pattern of the scheme {scheme.name}, and F8 is played"
    return "" if REACHES_F8.search(data) else "no instruction in it has the address 1FF8 or 1FF9, which select the banks of F8"


def is_of(data: bytes, digest: str) -> bool:
    """Whether a cartridge has this digest, of whichever kind it is by its length."""
    found = f"{zlib.crc32(data):08x}", hashlib.md5(data).hexdigest(), hashlib.sha1(data).hexdigest(), hashlib.sha256(data).hexdigest()
    return digest in found


def kind_of(digest: str) -> str:
    """What a digest is called."""
    return {8: "CRC-32", 32: "MD5", 40: "SHA-1", 64: "SHA-256"}[len(digest)]
