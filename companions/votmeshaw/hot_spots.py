"""The hot spots of boards: the addresses that select a cartridge's banks (docs/MACHINE.md, 13.1), where a read may give another byte in
another emulator."""

# All lines of an address.
_ALL = 0x1FFF
# Of boards whose banks fill the cartridge's 4096 addresses: the lines of an address that count, and what they are at a hot spot
# (ci/command-table prints these rows of the boards' definitions).
_HOT_SPOTS: dict[str, tuple[int, tuple[int, ...]]] = {
    "F8": (0x1FFF, (0x1FF8, 0x1FF9)),
    "F8SC": (0x1FFF, (0x1FF8, 0x1FF9)),
    "F6": (0x1FFF, (0x1FF6, 0x1FF7, 0x1FF8, 0x1FF9)),
    "F6SC": (0x1FFF, (0x1FF6, 0x1FF7, 0x1FF8, 0x1FF9)),
    "F4": (0x1FFF, (0x1FF4, 0x1FF5, 0x1FF6, 0x1FF7, 0x1FF8, 0x1FF9, 0x1FFA, 0x1FFB)),
    "F4SC": (0x1FFF, (0x1FF4, 0x1FF5, 0x1FF6, 0x1FF7, 0x1FF8, 0x1FF9, 0x1FFA, 0x1FFB)),
    "FA": (0x1FFF, (0x1FF8, 0x1FF9, 0x1FFA)),
    "UA": (0x1260, (0x0220, 0x0240)),
    "0840": (0x1840, (0x0800, 0x0840)),
    "F0": (0x1FFF, (0x1FF0,)),
    "0FA0": (0x16E0, (0x06A0, 0x06C0)),
}


def places(board: str) -> tuple[int, ...]:
    """The hot spots in the cartridge on a board, in rising order; none of another board."""
    lines, selecting = _HOT_SPOTS.get(board, (0, ()))
    return selecting if lines == _ALL else ()


def is_hot_spot(board: str, address: int) -> bool:
    """Whether an address selects a bank on a board of these."""
    lines, selecting = _HOT_SPOTS.get(board, (0, ()))
    return address & lines in selecting
