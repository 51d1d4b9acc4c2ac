"""A band below a picture: what is held, and the frame's number, in letters of its own."""

import functools

from votmeshaw.command import Stop
from votmeshaw.pictures import ROW, WIDTH

# Each sign's columns, and its seven rows as digits of base 32, whose bits are pixels.
SIGNS: dict[str, tuple[int, str]] = {
    "0": (3, "7555557"), "1": (3, "2622227"), "2": (3, "7117447"), "3": (3, "7117117"), "4": (3, "5557111"),
    "5": (3, "7447117"), "6": (3, "7447557"), "7": (3, "7112222"), "8": (3, "7557557"), "9": (3, "7557117"),
    "c": (3, "7444447"), "d": (3, "6555556"), "e": (3, "7446447"), "f": (3, "7446444"), "g": (3, "7445557"), "h": (3, "5557555"),
    "i": (3, "7222227"), "l": (3, "4444447"), "m": (5, "hrllhhh"), "n": (4, "9ddbb99"), "o": (3, "2555552"), "p": (3, "7557444"),
    "r": (3, "6556555"), "s": (3, "3442116"), "t": (3, "7222222"), "u": (3, "5555557"), "w": (5, "hhhllrh"),
}
# The words of an input, as 'vcs_check inputs' prints them, line by line.
WORDS = (
    ("up0", "down0", "left0", "right0", "fire0"), ("up1", "down1", "left1", "right1", "fire1"),
    ("reset", "select", "monochrome", "pro0", "pro1"),
)
# Rows of a sign, from one line to the next, and above the first; where a line begins, and where a number ends; columns between words.
HIGH, LINE, TOP = 7, 9, 3
LEFT, RIGHT, SPACE = 2, WIDTH - 2, 4
HELD, LET_GO = b"\xff\xff\xff", b"\x40\x40\x40"


def width_of(text: str) -> int:
    """The columns that a text takes, with one after each sign."""
    return sum(SIGNS[it][0] + 1 for it in text)


def draw(band: bytearray, text: str, left: int, top: int, colour: bytes) -> None:
    """Draws a text in rows of pixels of three bytes."""
    for sign in text:
        width, rows = SIGNS[sign]
        for at in range(HIGH * width):
            row, column = divmod(at, width)
            if int(rows[row], 32) >> width - 1 - column & 1:
                place = ROW * (top + row) + 3 * (left + column)
                band[place : place + 3] = colour
        left += width + 1


class Band:
    """The band of a film: the words for what is held, bright, with those for what isn't, dark; or numbers; or both; or nothing."""

    def __init__(self, has_inputs: bool, has_numbers: bool) -> None:
        self.lines = WORDS if has_inputs else ((),) if has_numbers else ()
        self.has_numbers = has_numbers
        self.rows = TOP + LINE * len(self.lines) if self.lines else 0
        self.words = functools.lru_cache(256)(self._words)

    def _words(self, held: tuple[str, ...]) -> bytes:
        """The band without a number."""
        band = bytearray(ROW * self.rows)
        for top, words in enumerate(self.lines):
            left = LEFT
            for word in words:
                draw(band, word, left, TOP + LINE * top, HELD if word in held else LET_GO)
                left += width_of(word) + SPACE
        if unknown := set(held).difference(*WORDS):
            raise Stop(f"this film has no place for {min(unknown)}")
        return bytes(band)

    def pixels(self, frame: int, held: tuple[str, ...]) -> bytes:
        """The band of a frame."""
        if not self.has_numbers:
            return self.words(held)
        band, number = bytearray(self.words(held)), str(frame)
        draw(band, number, RIGHT - width_of(number) + 1, TOP, HELD)
        return bytes(band)
