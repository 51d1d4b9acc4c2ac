"""Names of files, which may have any bytes: how they are shown, written into objects, and named to a shell; and numbers of things."""

import base64
import os
import re
import shlex
from typing import Any


def printable(text: str) -> str:
    """Text with escapes in the place of signs that don't print, as those that turn its direction."""
    return text if text.isprintable() else "".join(it if it.isprintable() else it.encode("unicode_escape").decode() for it in text)


def readable(name: str) -> str:
    """A name as it can be shown on one line: bytes that aren't UTF-8 and signs that don't print as escapes."""
    return printable(os.fsencode(name).decode("utf-8", "backslashreplace"))


def named(member: str, name: str) -> dict[str, str]:
    """The members of an object that has a name: the text, and the bytes too if they aren't UTF-8."""
    data = os.fsencode(name)
    try:
        return {member: data.decode("utf-8")}
    except UnicodeDecodeError:
        return {member: data.decode("utf-8", "backslashreplace"), f"{member}_base64": base64.b64encode(data).decode()}


def name_in(item: dict[str, Any], member: str) -> str:
    """The name that 'named' put into an object."""
    if (coded := item.get(f"{member}_base64")) is not None:
        return os.fsdecode(base64.b64decode(coded, validate=True))
    return item[member]


def counted(number: int, name: str) -> str:
    """A number of things of this name."""
    return f"{number} {name}" + "s" * (number != 1)


def shell_word(name: str) -> str:
    """A name as a shell reads it, and as no option."""
    return quoted(name if name[0].isalnum() or name[0] in "._/" else f"./{name}")


def quoted(name: str) -> str:
    """A name as a shell reads it. One with signs that don't print needs bash or zsh."""
    if name == readable(name):
        return shlex.quote(name)
    return "$'" + "".join(f"\\x{it:02x}" if not 32 <= it < 127 or it in b"'\\" else chr(it) for it in os.fsencode(name)) + "'"


def pattern(name: str) -> str:
    """A pattern of file names that this name alone is of."""
    return re.sub(r"[*?\[]", r"[\g<0>]", name)


def operand(name: str) -> str:
    """A movie as a command names it: one whose name isn't UTF-8, which no argument can be, comes from standard input."""
    return f"- < {shell_word(name)}" if re.search("[\ud800-\udfff]", name) else shell_word(name)
