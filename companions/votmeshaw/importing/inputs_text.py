"""This project's own text of inputs, as 'vcs_check inputs' prints it (docs/MOVIE_FORMAT.md)."""

import re

from votmeshaw.importing.runs import HELD, Frames, Refused, numbered, quoted, spelled


def frames_of(data: bytes) -> Frames:
    """The frames of a text."""
    frames = Frames()
    for number, line in numbered(data):
        words = [it for it in re.split(rb"[ \t\r\n]+", line.partition(b"#")[0]) if it]
        if not words:
            continue
        if not re.fullmatch(rb"0*[1-9][0-9]{0,5}", words[0]):
            raise Refused(f"line {number}: {quoted(words[0])} is no number of frames")
        for word in words[1:]:
            if word.decode("latin-1") not in HELD:
                raise Refused(f"line {number}: {quoted(word)} is nothing that can be held")
        frames.add(spelled({it.decode() for it in words[1:]}), int(words[0][-6:]))
    return frames

