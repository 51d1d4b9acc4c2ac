"""Writes copies of demo/demo.a26m into the folder that is named, each false in another way, for the sentences of a report."""

import pathlib
import sys

sys.path.insert(0, "demo")

import tamper  # noqa: E402

DEMO = pathlib.Path("demo/demo.a26m").read_bytes()
OTHER_POINTS = pathlib.Path("demo/other-points.a26m").read_bytes()
POINTS_AT_THE_START = pathlib.Path("demo/points-at-the-start.a26m").read_bytes()
# The run of other-joystick, as a movie that claims what it does.
OTHER_RUN = (pathlib.Path(sys.argv[1]) / "other-run.a26m").read_bytes()
LAST_CLAIM = tamper.CHECKPOINTS + 11 * tamper.CHECKPOINT
RIGHT, MONOCHROME = 0b1000_0000, 0b0000_1000


def turned(*places: tuple[int, int], movie: bytes = DEMO) -> bytes:
    """The demo, or another movie, with bits turned over: the place of a byte, and its bits."""
    copy = bytearray(movie)
    for place, bits in places:
        copy[place] ^= bits
    return bytes(copy)


def exchanged(first: int, second: int) -> bytes:
    """The demo with two claimed states exchanged."""
    copy = bytearray(DEMO)
    one, other = (slice(tamper.claim(it, 0), tamper.claim(it, tamper.STATE)) for it in (first, second))
    copy[one], copy[other] = DEMO[other], DEMO[one]
    return bytes(copy)


def without(frame: int) -> bytes:
    """The demo without the input of a frame, and with its last input twice."""
    place, end = tamper.pressed(frame, 0), tamper.pressed(tamper.FRAMES, 3)
    return DEMO[:place] + DEMO[place + 3 : end] + DEMO[end - 3 : end] + DEMO[end:]


def with_more(frame: int) -> bytes:
    """The demo with the input of a frame twice, and without its last input."""
    place, end = tamper.pressed(frame, 0), tamper.pressed(tamper.FRAMES, 3)
    return DEMO[:place + 3] + DEMO[place : end - 3] + DEMO[end:]


# The demo without its claims but the last.
ONE_CLAIM = DEMO[:12] + b"\0\1" + DEMO[14 : tamper.CHECKPOINTS] + DEMO[LAST_CLAIM:]

COPIES = {
    # In frame 240, the last before a claim, the picture is black and white.
    "black-and-white-once": turned((tamper.pressed(240, 1), MONOCHROME)),
    # In frame 30 the joystick is pressed to the other side.
    "other-start": turned((tamper.pressed(30, 0), RIGHT)),
    # The claims from the fourth on are those of another run.
    "joined-runs": DEMO[: tamper.CHECKPOINTS] + OTHER_RUN[tamper.CHECKPOINTS :],
    # A byte of the cartridge is changed, which matters in frames 601 to 660 alone.
    "cartridge-once": turned((tamper.CARTRIDGE + 0x829, 0b0000_0010)),
    # The start has 909,999 points, and the claims have 999,999 and more.
    "other-points-at-the-start": turned((tamper.CARTRIDGE + tamper.LENGTH + 7 + tamper.SCORE - 0x80, 0b1001_0000), movie=POINTS_AT_THE_START),
    # The last claim has a thousand points more.
    "more-points-at-the-end": turned((tamper.memory(12, tamper.SCORE + 1), 0b0001_0000)),
    # In frame 700 the joystick is pressed to the other side.
    "other-joystick-at-the-end": turned((tamper.pressed(700, 0), RIGHT)),
    # All but the last claim are of another run.
    "last-claim-of-the-demo": OTHER_RUN[:LAST_CLAIM] + DEMO[LAST_CLAIM:],
    "one-claim-more-points": turned((tamper.CHECKPOINTS + 4 + 7 + tamper.SCORE + 1 - 0x80, 0b0001_0000), movie=ONE_CLAIM),
    "one-claim-other-joystick": turned((tamper.pressed(200, 0), RIGHT), movie=ONE_CLAIM),
    "one-claim-other-cartridge": turned((tamper.CARTRIDGE + 0x829, 0b0000_0010), movie=ONE_CLAIM),
    # Of two claims, the first has a thousand points more, and an input after them is another.
    "two-mistakes": turned((tamper.memory(5, tamper.SCORE + 1), 0b0001_0000), (tamper.pressed(500, 0), RIGHT)),
    "exchanged-claims": exchanged(4, 5),
    "frame-is-missing": without(301),
    # Frames 385 to 408 have the same input, and so has one more.
    "frame-too-many": with_more(400),
    # The cartridge of other-points, in which an alien has other points.
    "other-cartridge": DEMO[: tamper.CARTRIDGE] + OTHER_POINTS[tamper.CARTRIDGE : tamper.CARTRIDGE + tamper.LENGTH] + DEMO[tamper.CARTRIDGE + tamper.LENGTH :],
    # The picture is black and white one frame later, on the other side of a claim.
    "moved-over-a-claim": turned((tamper.pressed(240, 0), RIGHT), (tamper.pressed(241, 0), RIGHT)),
}

for name, movie in COPIES.items():
    (pathlib.Path(sys.argv[1]) / (name + ".a26m")).write_bytes(movie)
