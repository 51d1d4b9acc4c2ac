"""Reads the objects of 'vcs_check frames --json', and prints the lines of 'vcs_check frames'."""

import json
import sys


def parts(frame):
    """The parts of the line of a frame that ended."""
    yield f"frame {frame['frame']}: {frame['cycles']} cycles, {frame['rows']} rows"
    if "checkpoint" in frame:
        yield f"checkpoint {frame['checkpoint']} {'true' if frame['claim_is_true'] else 'false'}"
    for it in frame.get("watched", []):
        yield f"memory {it['address']} {it['byte']}"
    for name in "memory", "state", "picture":
        if name in frame:
            yield f"{name} {frame[name]}"


for line in sys.stdin:
    found = json.loads(line)
    print(f"fault at frame {found['frame']}: {found['fault']}" if "fault" in found else ", ".join(parts(found)))
