"""Pictures as PNG, and pictures that follow one another as GIF."""

import functools
import struct
import zlib
from typing import IO

# Two codes of a GIF's data.
CLEAR, END = 256, 257
# The key of a string's own code, which is no pixel.
CODE = -1


def png(width: int, pixels: bytes) -> bytes:
    """A PNG of pixels of three bytes, row after row."""
    step = 3 * width
    rows = b"".join(b"\0" + pixels[at : at + step] for at in range(0, len(pixels), step))
    header = struct.pack(">IIBBBBB", width, len(pixels) // step, 8, 2, 0, 0, 0)
    chunks = (b"IHDR", header), (b"IDAT", zlib.compress(rows, 9)), (b"IEND", b"")
    parts = (struct.pack(">I", len(data)) + name + data + struct.pack(">I", zlib.crc32(name + data)) for name, data in chunks)
    return b"\x89PNG\r\n\x1a\n" + b"".join(parts)


def enlarged(row: bytes, size: int, wide: int) -> bytes:
    """A row with each pixel, of so many bytes, so many times as wide."""
    made = bytearray(len(row) * wide)
    for byte in range(size):
        for copy in range(wide):
            made[copy * size + byte :: size * wide] = row[byte::size]
    return bytes(made)


def strings() -> list[dict[int, int | dict]]:
    """The strings of a pixel each. A string has its code, and by the next pixel the longer strings that are known."""
    return [{CODE: pixel} for pixel in range(256)]


def lzw(pixels: bytes) -> bytes:
    """Pixels of a byte as the data of a GIF's image: codes of 9 to 12 bits, the lowest bit first, in blocks of at most 255 bytes."""
    known, last = strings(), END
    bits, filled, width, packed = CLEAR, 9, 9, bytearray()
    string = known[pixels[0]]
    for pixel in memoryview(pixels)[1:]:
        longer = string.get(pixel)
        if longer is not None:
            string = longer
            continue
        last += 1
        string[pixel] = {CODE: last}
        bits |= string[CODE] << filled
        filled += width
        if last == 1 << width:
            width += 1
        if width > 12:
            bits |= CLEAR << filled
            filled, width = filled + 12, 9
            known, last = strings(), END
        string = known[pixel]
        if filled >= 256:
            packed += (bits & (1 << 256) - 1).to_bytes(32, "little")
            bits, filled = bits >> 256, filled - 256
    bits |= string[CODE] << filled
    filled += width
    # (a reader adds a string for the last code too)
    if last + 1 == 1 << width and width < 12:
        width += 1
    bits |= END << filled
    packed += bits.to_bytes((filled + width + 7) // 8, "little")
    blocks = (packed[at : at + 255] for at in range(0, len(packed), 255))
    return b"\x08" + b"".join(bytes([len(it)]) + it for it in blocks) + b"\0"


class Gif:
    """A GIF that is written picture by picture, each as the rectangle in which it differs from the one before. Its palette, of all
    pictures, is written last."""

    def __init__(self, file: IO[bytes], width: int, height: int, scale: tuple[int, int]) -> None:
        self.file, self.width, self.height, self.scale = file, width, height, scale
        self.palette: dict[bytes, int] = {}
        self.rows: list[bytes] = []
        self.waiting, self.shown = b"", 0
        self.indexed = functools.lru_cache(8192)(self._indexed)
        size = struct.pack("<HH", width * scale[0], height * scale[1])
        file.write(b"GIF89a" + size + b"\xf7\0\0" + bytes(768) + b"\x21\xff\x0bNETSCAPE2.0\x03\x01\0\0\0")

    def _indexed(self, row: bytes) -> bytes:
        """A row of pixels of three bytes as places in the palette."""
        pixels = (row[at : at + 3] for at in range(0, len(row), 3))
        return bytes(self.palette.setdefault(it, len(self.palette)) for it in pixels)

    def add(self, pixels: bytes, hundredths: int) -> None:
        """Adds a picture, which is shown for so many hundredths of a second."""
        step = 3 * self.width
        rows = [self.indexed(pixels[at : at + step]) for at in range(0, len(pixels), step)]
        if self.rows == rows and self.shown + hundredths < 1 << 16:
            self.shown += hundredths
            return
        self._flush()
        self.waiting, self.shown = self._image(rows), hundredths
        self.rows = rows

    def _image(self, rows: list[bytes]) -> bytes:
        """The rectangle in which rows differ from those that are shown."""
        before = self.rows or [b""] * self.height
        changed = [at for at in range(self.height) if rows[at] != before[at]] or [0]
        top, end = changed[0], changed[-1] + 1
        left, right = self._columns(rows[top:end], before[top:end]) if self.rows else (0, self.width)
        wide, high = self.scale
        lines = [enlarged(row[left:right], 1, wide) for row in rows[top:end]]
        place = struct.pack("<HHHHB", left * wide, top * high, (right - left) * wide, (end - top) * high, 0)
        return b"\x2c" + place + lzw(b"".join(it * high for it in lines))

    def _columns(self, rows: list[bytes], before: list[bytes]) -> tuple[int, int]:
        """The first column in which rows differ, and the one after the last."""
        differ = 0
        for row, old in zip(rows, before):
            differ |= int.from_bytes(row) ^ int.from_bytes(old)
        columns = differ.to_bytes(self.width) if differ else b"\1"
        return len(columns) - len(columns.lstrip(b"\0")), len(columns.rstrip(b"\0"))

    def _flush(self) -> None:
        """Writes the picture that waits, once it is known how long it is shown."""
        if self.waiting:
            self.file.write(b"\x21\xf9\x04\x04" + struct.pack("<H", self.shown) + b"\0\0" + self.waiting)

    def end(self) -> None:
        """Writes what is left, and the palette."""
        self._flush()
        self.file.write(b"\x3b")
        self.file.seek(13)
        self.file.write(b"".join(self.palette))
