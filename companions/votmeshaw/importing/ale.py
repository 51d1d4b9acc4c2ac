"""A list of actions of the Arcade Learning Environment: a number for each frame."""

import re

from votmeshaw.importing.runs import Frames, Refused, quoted, spelled

# The actions 0 to 17 in the order of ALE's list; of each the directions, and whether the button is pressed.
ACTIONS = (
    "", "FIRE", "UP", "RIGHT", "LEFT", "DOWN", "UP RIGHT", "UP LEFT", "DOWN RIGHT", "DOWN LEFT", "UP FIRE", "RIGHT FIRE", "LEFT FIRE",
    "DOWN FIRE", "UP RIGHT FIRE", "UP LEFT FIRE", "DOWN RIGHT FIRE", "DOWN LEFT FIRE",
)
HELD = [{f"{it.lower()}0" for it in action.split()} for action in ACTIONS]


def frames_of(data: bytes, held: tuple[str, ...]) -> Frames:
    """The frames of a list whose numbers stand between spaces, line ends, commas or brackets."""
    frames, actions = Frames(), {str(number).encode(): spelled({*it, *held}) for number, it in enumerate(HELD)}
    for found in re.finditer(rb"[^\s,\[\]]+", data):
        if found[0] not in actions:
            raise Refused(f"action {frames.count + 1} of the list: {quoted(found[0])} is none of ALE's actions 0 to 17")
        frames.add(actions[found[0]])
    return frames


def is_list(data: bytes) -> bool:
    """Whether this reads as a list of actions."""
    try:
        return frames_of(data, ()).count > 0
    except Refused:
        return False
