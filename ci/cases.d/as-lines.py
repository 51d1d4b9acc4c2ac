"""Reads the object of 'vcs_check report --json', and prints the lines of 'vcs_check report'."""

import json
import sys

facts = json.load(sys.stdin)


def lines():
    """The lines, in the order of a report."""
    match facts["verdict"]:
        case "genuine":
            yield f"genuine: {facts['frames']} frames, {facts['checkpoints']} checkpoints"
        case "false checkpoint":
            yield f"false checkpoint {facts['checkpoint']} at frame {facts['frame']}"
        case "fault":
            yield f"fault at frame {facts['frame']}: {facts['fault']}"
    for it in facts.get("differs", []):
        yield f"{it['number']}: claimed {it['claimed']}, found {it['found']}"
    if registers := facts.get("registers"):
        yield "registers: " + ", ".join(f"{name} {registers[name]}" for name in ("A", "X", "Y", "S", "P", "PC"))
        yield f"beam: scanline {facts['scanline']}, cycle {facts['cycle']}"
    if (frame := facts.get("claimed_state_after")) is not None:
        yield f"claimed state: the run's after frame {frame}"
    for name in "segments", "claims":
        signs = facts.get(name, "")
        for at in range(0, len(signs), 64):
            yield f"{name}: {signs[at:at + 64]}"
    if "reason" in facts:
        yield facts["reason"]
    if (frame := facts.get("input_left_out")) is not None:
        yield f"without the input of frame {frame} the run is in claim {facts['checkpoint']} after frame {facts['in_claim_after']}"
    if (frame := facts.get("input_twice")) is not None:
        yield f"with the input of frame {frame} twice the run is in claim {facts['checkpoint']} after frame {facts['in_claim_after']}"
    for name in "cartridge", "start", "last_frame":
        if (answer := facts.get(f"{name}_expected")) is not None:
            yield f"{name.replace('_', ' ')} expected: {'yes' if answer else 'no'}"
    for note in facts["notes"]:
        yield f"note: {note}"
    yield f"cartridge: {facts['cartridge']} bytes"
    for name in "md5", "sha1", "sha256", "banks", "start":
        yield f"{name}: {facts[name]}"
    yield f"checkpoints: {facts['checkpoints']}"
    if facts["checkpoints"]:
        yield f"first checkpoint: frame {facts['first_checkpoint']}"
        yield f"last checkpoint: frame {facts['last_checkpoint']}"
        yield f"largest gap: {facts['largest_gap']} frames"
    yield f"after the last checkpoint: {facts['after_last_checkpoint']} frames"
    yield f"movie version: {facts['version']}"
    yield f"movie frames: {facts['frames']}"
    yield f"movie sha256: {facts['movie_sha256']}"
    yield "last input: " + ("none" if facts["last_input"] is None else f"frame {facts['last_input']}")
    yield f"program: {facts['program']}"
    for it in facts.get("start_differs", []):
        yield f"start {it['number']}: {it['start']}, at power-on {it['power_on']}"


print("\n".join(lines()))
