"""BizHawk's input log: its line LogKey names the columns, and each line after it is a frame, with a dot where a key isn't pressed."""

import functools

from votmeshaw.importing.runs import Frames, Notes, Refused, numbered, quoted, shown, spelled

BEGIN = b"LogKey:"
FRAMING = (b"", b"[Input]", b"[/Input]")
BUTTONS = {"Up": "up", "Down": "down", "Left": "left", "Right": "right", "Button": "fire"}
WORDS = {f"P{port + 1} {key}": f"{word}{port}" for port in (0, 1) for key, word in BUTTONS.items()} | {"Reset": "reset", "Select": "select"}
# Keys that turn a switch over, once for a press however long, and what the switch is called.
TOGGLES = {"Toggle Left Difficulty": ("pro0", "left difficulty"), "Toggle Right Difficulty": ("pro1", "right difficulty")}
POWER = "Power"
MOST_COLUMNS = 200


class Log:
    """The columns of a log, and which of them are pressed in a line."""

    def __init__(self, line: bytes) -> None:
        # A group of keys begins with '#', and each key ends with '|'.
        names = line.removeprefix(BEGIN).replace(b"#", b"|").split(b"|", MOST_COLUMNS * 2)
        self.columns = [it.decode("utf-8", "backslashreplace") for it in names if it]
        if len(self.columns) > MOST_COLUMNS:
            raise Refused(f"LogKey names more than {MOST_COLUMNS} keys")
        if not self.columns:
            raise Refused("LogKey names no key")
        for name in self.columns:
            if self.columns.count(name) > 1:
                raise Refused(f"LogKey names '{shown(name)}' twice")
        self.unknown = [it for it in self.columns if it not in WORDS and it not in TOGGLES and it != POWER]
        self.pressed = functools.lru_cache(4096)(self._pressed)

    def _pressed(self, line: bytes) -> frozenset[str]:
        """The keys that are pressed in a line; Refused without a line's number."""
        marks = line.replace(b"|", b"")
        if len(marks) != len(self.columns) or not marks.isascii() or not marks.decode().isprintable() or b" " in marks:
            if self.unknown:
                raise Refused(f"no joystick and no switch has the key '{shown(self.unknown[0])}'")
            raise Refused(f"{quoted(line)} hasn't a mark for each of {len(self.columns)} keys")
        found = frozenset(name for name, mark in zip(self.columns, marks) if mark != ord("."))
        for name in self.unknown:
            if name in found:
                raise Refused(f"'{shown(name)}' is pressed, which no joystick and no switch has")
        return found


class Switches:
    """The switches that keys turn over, and how often that was."""

    def __init__(self, held: tuple[str, ...]) -> None:
        self.held, self.down, self.turns = set(held), frozenset[str](), dict.fromkeys(TOGGLES, 0)

    def step(self, pressed: frozenset[str]) -> set[str]:
        """What the switches are in a frame with these keys."""
        for key, (word, _) in TOGGLES.items():
            if key in pressed and key not in self.down:
                self.held ^= {word}
                self.turns[key] += 1
        self.down = pressed
        return self.held


def frames_of(data: bytes, held: tuple[str, ...], notes: Notes) -> Frames:
    """The frames of a log that begins with these switches held."""
    log, frames, switches = None, Frames(), Switches(held)
    for number, line in numbered(data):
        try:
            line = line.rstrip(b"\r\n")
            if line.startswith(b"|") and log:
                _add(frames, log.pressed(line), switches)
            elif line.startswith(BEGIN) and not log:
                log = Log(line)
            elif line not in FRAMING:
                raise Refused(f"{quoted(line)} is no frame" + ("" if log else ", since no line LogKey comes before it"))
        except Refused as error:
            raise Refused(f"input log, line {number}: {error}") from None
    if not log:
        raise Refused("the input log has no line LogKey")
    for name in log.unknown:
        notes.say("left out", f"the key '{shown(name)}', which is never pressed")
    for key, turns in switches.turns.items():
        if turns:
            notes.say("carried", f"{TOGGLES[key][1]} turned over {turns} time{'s' * (turns > 1)} ({key})")
    return frames


def _add(frames: Frames, pressed: frozenset[str], switches: Switches) -> None:
    """Adds a frame with these keys."""
    if POWER in pressed:
        raise Refused(f"Power is pressed in frame {frames.count + 1}, and a movie has no such input")
    frames.add(spelled({WORDS[it] for it in pressed if it in WORDS} | switches.step(pressed)))
