"""A page and a feed (Atom, RFC 4287) of what changes.jsonl keeps, the newest change first."""

import collections
import dataclasses
import datetime
import hashlib
import pathlib
import uuid
from typing import Any, Self

from votmeshaw import changes, files, verdicts
from votmeshaw.names import counted, name_in, readable
from votmeshaw.pages import PAGE, SIGNS_OF_VERDICTS, groups, stretches, text
from votmeshaw.verifier import with_reason

PAGE_NAME, FEED_NAME = "changes.html", "changes.atom"
TITLE = "What changed"
# How many changes the page has, and the feed, which is fetched again and again.
MOST, MOST_OF_FEED = 10_000, 250
# What the kinds of changes say. One that isn't known here is shown by its name.
MEANINGS = {
    changes.NEW: "a movie that was not there", changes.MOVED: "a movie that is elsewhere now", changes.REPLACED: "a movie that has other bytes now",
    changes.GONE: "a movie that is not there any more", changes.NOW_JUDGED: "a movie that was not judged before",
    changes.UNREAD: "a movie or a folder that can't be read any more",
    changes.OTHERWISE: "the same bytes, and another verdict of another version of the program",
    changes.CONTRADICTED: "the same bytes, and another answer of the same program: don't rely on that machine, or on that program",
}
# Before the first change.
NEVER = datetime.datetime(1970, 1, 1, tzinfo=datetime.timezone.utc)


@dataclasses.dataclass(frozen=True)
class Answer:
    """What was kept of a movie before a change, or after it."""

    verdict: str
    line: str
    reason: str
    digest: str
    rules: str = ""  # if they aren't the guide's

    @classmethod
    def read(cls, item: Any) -> Self | None:
        """The answer in a member of an object, which may be null; ValueError if there is none."""
        if item is None:
            return None
        found = cls(item["verdict"], item["line"], item.get("reason", ""), item["digest"] or "", item.get("rules", ""))
        if not all(isinstance(it, str) for it in dataclasses.astuple(found)):
            raise ValueError("not a text")
        return found

    @property
    def told(self) -> str:
        """The answer on a line. Of a movie that isn't judged the line alone may not say so."""
        said = with_reason(self.line, self.reason)
        rules = f" (by {self.rules})" if self.rules else ""
        return (f"{self.verdict}: {said}" if self.verdict == verdicts.NONE else said or self.verdict) + rules


@dataclasses.dataclass(frozen=True)
class Change:
    """A line of the file."""

    number: int
    identity: uuid.UUID
    kind: str
    when: datetime.datetime
    name: str
    old: Answer | None
    new: Answer | None

    @classmethod
    def read(cls, number: int, line: bytes, identity: uuid.UUID) -> Self:
        """The change in a line, or ValueError, LookupError, TypeError or AttributeError."""
        item = verdicts.object_in(line)
        when = datetime.datetime.fromisoformat(item["when"])
        if when.tzinfo is None or not isinstance(item["change"], str) or not 1970 < when.year < 9999:
            raise ValueError("no time, or no name")
        name = readable(name_in(item, "path")) if "path" in item else ""
        if item.get("from") is not None:
            name = f"{readable(name_in(item, 'from'))} to {name}"
        old, new = (Answer.read(item.get(it)) for it in ("old", "new"))
        return cls(number, identity, item["change"], when.astimezone(datetime.timezone.utc), name, old, new)


def identity_of(data: bytes) -> uuid.UUID:
    """A name for these bytes, which no others have."""
    return uuid.UUID(bytes=hashlib.sha256(data).digest()[:16], version=5)


def _cell(style: str, answer: Answer | None) -> str:
    """What was answered before a change, or after it."""
    if not answer:
        return f'<td class="{style}"></td>'
    sign, of_verdict = SIGNS_OF_VERDICTS.get(answer.verdict, ("", "none"))
    said = f'<span class="{of_verdict}"><span aria-hidden="true">{sign}</span> {text(answer.verdict)}</span>'
    said += f" by {text(answer.rules)}" if answer.rules else ""
    said += f'<div class="reason">{text(with_reason(answer.line, answer.reason))}</div><code>{text(answer.digest)}</code>'
    return f'<td class="{style}">{said}</td>'


def _row(change: Change, pages: set[str]) -> str:
    """A change's row, with a link to the page of the movie if there is one."""
    name = f"<bdi>{text(change.name)}</bdi>"
    if change.new and change.new.digest in pages:
        name = f'<a href="movies/{change.new.digest}.html">{name}</a>'
    cells = f'<td class="when"><time datetime="{change.when.isoformat()}">{change.when:%Y-%m-%d %H:%M}</time></td><td class="kind">{text(change.kind)}</td>'
    cells += f'<th scope="row" class="name">{name}</th>{_cell("old", change.old)}{_cell("new", change.new)}'
    return f'<tr id="change-{change.number}">{cells}</tr>'


def _entry(change: Change) -> str:
    """A change's entry in the feed."""
    answers = {"before": change.old, "now": change.new}
    said = [f"{word}: {it.told}\n{it.digest}" for word, it in answers.items() if it]
    last = f", {change.new.verdict}" if change.new else ""
    return f"""<entry>
<id>{change.identity.urn}</id>
<title>{text(f"{change.kind}: {change.name}{last}")}</title>
<updated>{change.when.isoformat()}</updated>
<link rel="alternate" type="text/html" href="{PAGE_NAME}#change-{change.number}"/>
<content type="text">{text(chr(10).join(said))}</content>
</entry>"""


@dataclasses.dataclass(frozen=True)
class Told:
    """The newest changes, the last one first, the number of all, and the numbers of lines that are cut off or damaged."""

    identity: uuid.UUID
    changes: list[Change]
    count: int
    damaged: list[int]

    @classmethod
    def read(cls, folder: pathlib.Path) -> Self:
        """What the file of a folder tells; nothing if it isn't there. Lines are only ever added to it, so that a line's number is part
        of its name."""
        found, first, count, damaged = collections.deque[Change](maxlen=MOST), b"", 0, list[int]()
        for number, line in enumerate((it.removesuffix(b"\n") for it in files.lines(folder / changes.NAME)), 1):
            first = line if number == 1 else first
            try:
                if line:
                    found.append(Change.read(number, line, identity_of(b"%s\n%d\n%s" % (first, number, line))))
                    count += 1
            except (ValueError, LookupError, TypeError, AttributeError):
                damaged.append(number)
        return cls(identity_of(first), list(reversed(found)), count, damaged)

    def page(self, pages: set[str]) -> str:
        """The page of the changes. Those that are in 'pages' have a page of their own."""
        found, kinds = self.changes, {it.kind for it in self.changes}
        said = counted(self.count, "change") + (f", of which these are the newest {len(found)}" if len(found) < self.count else "")
        meanings = "; ".join(f"{kind}: {meaning}" for kind, meaning in MEANINGS.items() if kind in kinds)
        body = ['<p><a href="index.html">All movies</a></p>', f"<main>\n<h1>{TITLE}</h1>"]
        body += [f'<p>{said}. The times are in UTC. <a href="{FEED_NAME}">The newest as a feed</a></p>']
        body += [f"<p>Cut off or damaged in {changes.NAME}: line {stretches(self.damaged)}.</p>" if self.damaged else ""]
        body += [f'<p class="quiet">{text(meanings)}.</p>' if meanings else ""]
        heads = {"when": "When", "kind": "Change", "name": "Movie", "old": "Before", "new": "Now"}
        head = "".join(f'<th scope="col" class="{style}">{name}</th>' for style, name in heads.items())
        rows = groups(_row(it, pages) for it in found)
        body += [f'<table class="movies changes all">\n<thead><tr>{head}</tr></thead>\n{rows}\n</table>' if found else "", "</main>"]
        return PAGE.substitute(title=TITLE, top="", scripts="'none'", body="\n".join(filter(None, body)))

    def feed(self) -> str:
        """The feed of the newest changes. Its links are relative, since nobody says where it will stand."""
        updated = max((it.when for it in self.changes), default=NEVER)
        entries = "\n".join(map(_entry, self.changes[:MOST_OF_FEED]))
        return f"""<?xml version="1.0" encoding="utf-8"?>
<feed xmlns="http://www.w3.org/2005/Atom" xml:lang="en">
<id>{self.identity.urn}</id>
<title>{TITLE} in an archive of movies of the Atari 2600</title>
<updated>{updated.isoformat()}</updated>
<author><name>vcs_judge</name></author>
<generator>vcs_pages</generator>
<link rel="self" type="application/atom+xml" href="{FEED_NAME}"/>
<link rel="alternate" type="text/html" href="{PAGE_NAME}"/>
{entries}
</feed>
"""
