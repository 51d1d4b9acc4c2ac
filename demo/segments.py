#!/usr/bin/env python3
"""Plays each segment of a movie from the state that is claimed at its beginning, and prints a sign for each.

    python3 segments.py PROGRAM MOVIE

A segment goes from the start to the first checkpoint, from each checkpoint to the next, and from the last one to the movie's
end if frames follow it. A movie of its own is made of each, by docs/MOVIE_FORMAT.md, and PROGRAM, called as 'PROGRAM verify FILE',
judges it: '.' if it is genuine, 'X' if its checkpoint is false, 'F' if it faults. So this is what the line of 'report' must say,
found in another way.
"""

import argparse
import pathlib
import subprocess
import sys
import tempfile

SIGNS = {0: ".", 1: "X", 2: "F"}


def segments(movie: bytes) -> list[bytes]:
    """Returns a movie for each segment."""
    begin = 17 if movie[4:6] == b"\0\3" else 14  # where the cartridge begins; before it stand frames and checkpoints
    length = int.from_bytes(movie[7 if begin == 17 else 6 : begin - 6], "big")
    frames, checkpoints = (int.from_bytes(movie[at : at + count], "big") for at, count in ((begin - 6, 4), (begin - 2, 2)))
    # What is left are the start state, and of each checkpoint a frame's number and a state.
    record = (len(movie) - begin - length - 3 * frames - 4 * checkpoints) // (checkpoints + 1)
    inputs = begin + length + record
    claims = range(inputs + 3 * frames, len(movie), 4 + record)
    states = [movie[begin + length : inputs]] + [movie[at + 4 : at + 4 + record] for at in claims]
    ends = [0] + [int.from_bytes(movie[at : at + 4], "big") for at in claims]
    found = []
    for place, (first, state) in enumerate(zip(ends, states)):
        is_last = place + 1 == len(ends)
        count = (frames if is_last else ends[place + 1]) - first
        claimed = b"" if is_last else count.to_bytes(4, "big") + states[place + 1]
        if count:
            header = movie[: begin - 6] + count.to_bytes(4, "big") + (0 if is_last else 1).to_bytes(2, "big")
            held = movie[inputs + 3 * first : inputs + 3 * (first + count)]
            found.append(header + movie[begin : begin + length] + state + held + claimed)
    return found


def sign(program: str, movie: bytes) -> str:
    """Returns the sign of a segment's movie."""
    with tempfile.NamedTemporaryFile() as file:
        file.write(movie)
        file.flush()
        said = subprocess.run([program, "verify", file.name], capture_output=True, text=True)
    return SIGNS.get(said.returncode) or sys.exit(f"segments.py: {(said.stdout + said.stderr).strip()}")


def main() -> None:
    asked = argparse.ArgumentParser(description=__doc__, formatter_class=argparse.RawDescriptionHelpFormatter)
    asked.add_argument("program")
    asked.add_argument("movie", type=pathlib.Path)
    words = asked.parse_args()
    print("".join(sign(words.program, part) for part in segments(words.movie.read_bytes())))


if __name__ == "__main__":
    main()
