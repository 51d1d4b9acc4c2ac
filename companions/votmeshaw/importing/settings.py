"""What a BizHawk movie was recorded with: SyncSettings.json of the core Atari2600Hawk.

The names and values are those that are publicly known of BizHawk. They were not tried there."""

import json
from typing import Any

from votmeshaw import facts, verdicts
from votmeshaw.importing.runs import Notes, Refused, shown

NAME = "SyncSettings.json"
BYTE_ORDER_MARK = b"\xef\xbb\xbf"
# What a port can have, in the order of their numbers in the file, and which of them are played here.
CONTROLLERS = ("Unplugged", "Joystick", "Paddle", "BoostGrip", "Driving", "Keyboard")
PLAYED = ("Unplugged", "Joystick")
# The switches: of each setting the word that is held, and the value with which it is. A difficulty of true is taken for B.
SWITCHES = {"BW": ("monochrome", True), "LeftDifficulty": ("pro0", False), "RightDifficulty": ("pro1", False)}
# Settings that change nothing for the cartridges that are played here.
WITHOUT_EFFECT = {"FastScBios": "of the Supercharger alone"}
TYPE = "$type"
MOST = 200


def settings_in(data: bytes | None) -> dict[str, Any]:
    """The settings in the file, by their names; none if it isn't there or holds none."""
    data = (data or b"").removeprefix(BYTE_ORDER_MARK).strip()
    try:
        found = None if data in (b"", b"null") else verdicts.object_in(data)
        found = found.get("o", found) if found else {}
    except ValueError as error:
        raise Refused(f"{NAME}: {shown(str(error))}") from None
    if not isinstance(found, dict | None):
        raise Refused(f"{NAME} has no object of settings")
    if len(found or {}) > MOST:
        raise Refused(f"{NAME} has more than {MOST} settings")
    return {name: value for name, value in (found or {}).items() if name != TYPE}


def check_ports(settings: dict[str, Any], notes: Notes) -> None:
    """Says which controllers the settings have; Refused if one isn't a joystick."""
    for port in ("Port1", "Port2"):
        value = settings.get(port, "Joystick")
        found = CONTROLLERS[value] if facts.is_of(value, (int,)) and 0 <= value < len(CONTROLLERS) else value
        if found not in PLAYED:
            raise Refused(f"{NAME}: {port} is {shown(json.dumps(found))}, and joysticks alone are played here")
        notes.say(*(("carried", f"{port} {found}") if port in settings else ("assumed", f"{port} Joystick, since the run doesn't say it")))


def switches_in(settings: dict[str, Any]) -> dict[str, tuple[bool, str]]:
    """The switches that the settings say: whether each is held, and the setting that says so."""
    said = {}
    for name, (word, held) in SWITCHES.items():
        if name in settings:
            if not isinstance(value := settings[name], bool):
                raise Refused(f"{NAME}: {name} is {shown(json.dumps(value))}, which is neither true nor false")
            said[word] = (value == held, f"{name} {str(value).lower()}")
    return said


def say_the_rest(settings: dict[str, Any], notes: Notes) -> None:
    """Names the settings that nothing was made of."""
    for name, value in settings.items():
        if name in WITHOUT_EFFECT:
            notes.say("left out", f"{name} {shown(json.dumps(value))}, which is {WITHOUT_EFFECT[name]}")
        elif name not in (*SWITCHES, "Port1", "Port2"):
            notes.say("unknown", f"the setting {shown(name)} {shown(json.dumps(value))}, which may matter")
