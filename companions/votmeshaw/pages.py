"""What web pages of verdicts have in common: their frame, text in them, and rows of tables."""

import html
import string
from collections.abc import Iterable
from typing import Any

from votmeshaw.names import printable
from votmeshaw.facts import KINDS, NONE

# What stands before a verdict, and its class in style.css: a colour is never alone.
SIGNS_OF_VERDICTS = {
    KINDS[0]: ("\u2713", "genuine"), KINDS[1]: ("\u2717", "bad"), KINDS[2]: ("\u21af", "bad"), KINDS[3]: ("\u2298", "bad"), NONE: ("?", "none"),
}
# How many rows a browser lays out at once, when they are seen: thousands take seconds.
ROWS_OF_A_GROUP = 50
PAGE = string.Template("""<!doctype html>
<html lang="en">
<meta charset="utf-8">
<meta name="viewport" content="width=device-width">
<meta name="generator" content="vcs_pages">
<meta http-equiv="Content-Security-Policy" content="default-src 'none'; img-src 'self' file:; style-src 'self' file: 'unsafe-inline'; script-src $scripts; base-uri 'none'; form-action 'none'">
<title>$title</title>
<link rel="alternate" type="application/atom+xml" title="What changed" href="${top}changes.atom">
<link rel="stylesheet" href="${top}style.css">
$body
</html>
""")


def text(value: Any) -> str:
    """Anything as text of a page."""
    return html.escape("\n".join(map(printable, str(value).split("\n"))))


def stretches(found: list[int]) -> str:
    """Rising numbers, those that follow one another as a stretch."""
    parts: list[list[int]] = []
    for number in found:
        if parts and parts[-1][-1] == number - 1:
            parts[-1][1:] = [number]
        else:
            parts.append([number])
    return ", ".join(" to ".join(map(str, part)) for part in parts)


def groups(rows: Iterable[str]) -> str:
    """Rows in the groups by which a browser lays them out."""
    made = list(rows)
    parts = (made[at : at + ROWS_OF_A_GROUP] for at in range(0, len(made), ROWS_OF_A_GROUP))
    return "\n".join(f"<tbody>\n{chr(10).join(it)}\n</tbody>" for it in parts)
