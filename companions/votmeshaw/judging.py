"""What the program says of a movie, as an object of the file of verdicts."""

import datetime
import hashlib
import os
import time

from votmeshaw import verdicts
from votmeshaw.cartridges import Cartridges
from votmeshaw.facts import KINDS, NONE, contradiction, line_of, wrong_fact
from votmeshaw.movies import Folder, Movie
from votmeshaw.stripped import Damaged, Stripped, is_stripped
from votmeshaw.verdicts import Verdict
from votmeshaw.verifier import Answer, NoAnswer, Verifier, ended


def now() -> str:
    """The time, as an object has it."""
    return datetime.datetime.now(datetime.timezone.utc).isoformat(timespec="seconds")


def unjudged(movie: Movie, line: str, verifier: Verifier | None) -> Verdict:
    """What is kept of a movie without a verdict."""
    found = Verdict(path=movie.path, digest=movie.digest, size=movie.size, verdict=NONE, status=None, line=line, facts={}, seconds=0.0,
                    judged=now(), program=verifier.version if verifier else "")
    if verifier:
        found["program_sha256"] = verifier.program.digest
    return found


def judged(verifier: Verifier, folder: Folder, movie: Movie, cartridges: Cartridges | None = None) -> Verdict:
    """Judges a movie: the bytes that it has now, whose digest is taken again. One without its cartridge gets that first."""
    try:
        data = folder.read(os.fsencode(movie.path))
    except OSError as error:
        return unjudged(movie, f"cannot read: {error.strerror or error}", verifier)
    if hashlib.sha256(data).hexdigest() != movie.digest:
        return unjudged(movie, "changed while it was judged", verifier)
    began = time.monotonic()
    try:
        movie_data = whole(data, cartridges)
        answer = verifier.answer(movie_data, "report", "-", "--json")
    except (NoAnswer, Damaged) as error:
        return unjudged(movie, str(error), verifier)
    digest = movie.digest if movie_data is data else hashlib.sha256(movie_data).hexdigest()
    verdict = _verdict(movie, digest, answer, verifier)
    verdict["seconds"] = round(time.monotonic() - began, 3)
    return verdict


def whole(data: bytes, cartridges: Cartridges | None) -> bytes:
    """The bytes of a movie, with its cartridge if it came without; Damaged if it can't have it."""
    if not is_stripped(data):
        return data
    stripped = Stripped.read(data)
    if not cartridges or not (found := cartridges.find(stripped.length, stripped.digest)):
        raise Damaged(f"needs the cartridge {stripped.digest}")
    return stripped.joined(found[1])


def _verdict(movie: Movie, digest: str, answer: Answer, verifier: Verifier) -> Verdict:
    """The verdict in an answer about bytes of this digest, with the program as it names itself there. An object that isn't that of
    the status, is of other bytes, or contradicts itself, is none."""
    verdict = unjudged(movie, "", verifier)
    verdict["status"] = answer.status
    try:
        facts = verdicts.object_in(answer.out)
        verdict["line"] = line_of(facts)
        if facts.get("movie_sha256", digest) != digest or wrong_fact(facts) or contradiction(facts["verdict"], answer.status, verdict["line"], facts):
            raise ValueError
        verdict["verdict"], verdict["facts"] = facts["verdict"], facts
        verdict["program"] = facts.get("program", verifier.version)
    except (ValueError, LookupError, TypeError):
        said = answer.line if answer.is_error else ""
        verdict["line"] = said or f"the program {ended(answer.status)}, and no verdict"
    if answer.reason and verdict["verdict"] in (KINDS[3], NONE):
        verdict["reason"] = answer.reason
    return verdict
