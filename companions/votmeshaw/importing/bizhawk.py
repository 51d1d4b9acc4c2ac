"""BizHawk's movies (.bk2): a zip of a header, an input log, settings and texts."""

import re

from votmeshaw.importing import input_log, settings
from votmeshaw.importing.archives import Members
from votmeshaw.importing.runs import LONGEST, Notes, Refused, Run, shown, switches_of

HEADER, LOG = "Header.txt", "Input Log.txt"
# The texts that a movie has no place for.
TEXTS = ("Comments.txt", "Subtitles.txt")
# How much is read of a member, but of the log.
MOST = 1_048_576
PLATFORM, CORE = "A26", "Atari2600Hawk"
DIGESTS = ("sha1", "md5", "sha256", "crc32")
# How many digits they have. BizHawk may put another one where it says SHA1.
LENGTHS = (8, 32, 40, 64)
MOST_LINES = 200
STARTS = {"startsfromsavestate": "a savestate", "startsfromsaveram": "saved memory (SaveRAM)"}
# What a movie has that starts from one of these, without the ending of its name.
STARTING = {"core": "a savestate", "coretext": "a savestate", "moviesaveram": "saved memory (SaveRAM)", "saveram": "saved memory (SaveRAM)"}
# What is kept in the text beside the movie, and is no setting of the run.
KEPT = ("movieversion", "author", "emuversion", "originalemuversion", "gamename", "rerecordcount", "vblankcount",
        "cyclecount", "clockrate")
# What of it is named, and as what.
NAMED = {"author": "author", "game name": "gamename", "rerecords": "rerecordcount", "emulator": "emuversion"}
VALUES = {"true": True, "1": True, "false": False, "0": False}


class Header:
    """The lines of a header: a name, a space, a value. The case of names doesn't matter."""

    def __init__(self, text: str) -> None:
        self.names: dict[str, str] = {}
        self.values: dict[str, str] = {}
        lines = text.split("\n")
        if len(lines) > MOST_LINES:
            raise Refused(f"{HEADER} has more than {MOST_LINES} lines")
        for line in lines:
            name, _, value = line.strip().partition(" ")
            if (key := name.lower()) in self.values:
                raise Refused(f"{HEADER} says {shown(name)} twice")
            if name:
                self.names[key], self.values[key] = name, value.strip()

    def value(self, key: str) -> str:
        """A value as it is shown; empty if there is none."""
        return shown(self.values.get(key, ""))

    def is_set(self, key: str) -> bool:
        """Whether a value is true; Refused if it is neither true nor false."""
        if (value := self.values.get(key, "false").lower()) not in VALUES:
            raise Refused(f"{HEADER}: {self.names[key]} is {self.value(key)}, which is neither true nor false")
        return VALUES[value]

    def digests(self) -> list[str]:
        """The game's digests, whatever they are called."""
        found = {it: self.values[it].rpartition(":")[2].lower() for it in DIGESTS if self.values.get(it)}
        for key, digest in found.items():
            if len(digest) not in LENGTHS or not re.fullmatch("[0-9a-f]+", digest):
                raise Refused(f"{HEADER}: {self.names[key]} is {self.value(key)}, which is no digest")
        return [*found.values()]


def run_of(data: bytes, asked: dict[str, bool], notes: Notes) -> Run:
    """The run of a movie."""
    members = Members(data, HEADER)
    texts = {name: _text(members.content(name, MOST)) for name in (HEADER, *TEXTS)}
    header = Header(texts[HEADER])
    check_header(header, notes)
    check_start(header, members, notes)
    found = settings.settings_in(members.content(settings.NAME, MOST))
    settings.check_ports(found, notes)
    switches = switches_of(asked, settings.switches_in(found), notes)
    settings.say_the_rest(found, notes)
    if (log := members.content(LOG, LONGEST)) is None:
        raise Refused(f"a zip without {LOG}")
    frames = input_log.frames_of(log.removeprefix(settings.BYTE_ORDER_MARK), switches, notes)
    if others := sorted({*members.members} - {HEADER, LOG, settings.NAME, *TEXTS}) + members.others:
        more = f" and {len(others) - 8} more" if len(others) > 8 else ""
        notes.say("left out", "in the zip, and not read: " + ", ".join(shown(it, 40) for it in others[:8]) + more)
    texts = {name: it for name, it in texts.items() if it.strip()}
    kept = [f"{name} {header.value(key)}" for name, key in NAMED.items() if header.value(key)] + [it for it in texts if it != HEADER]
    return Run(frames, switches, header.digests(), header.value("boardname"), kept, texts)


def _text(data: bytes | None) -> str:
    """The text of a member."""
    return (data or b"").decode("utf-8-sig", "backslashreplace")


def check_header(header: Header, notes: Notes) -> None:
    """Says what the header is taken for; Refused if it is of another console."""
    if (platform := header.value("platform")).upper() not in ("", PLATFORM):
        raise Refused(f"a run on {platform}, and not on the Atari 2600 ({PLATFORM})")
    if header.is_set("pal"):
        raise Refused(f"a PAL run ({HEADER}: PAL {header.value('pal')}), and the machine here is NTSC")
    for key, value in (("platform", PLATFORM), ("core", CORE)):
        if not (found := header.value(key)):
            notes.say("assumed", f"{key} {value}, since the run doesn't say it")
        elif found.upper() == value.upper():
            notes.say("carried", f"{key} {value}")
        else:
            notes.say("unknown", f"{key} {found}: what its frames and settings are isn't known here")
    for key, name in header.names.items():
        if key not in (*KEPT, *DIGESTS, *STARTS, "platform", "core", "pal", "boardname"):
            notes.say("unknown", f"{HEADER}: {shown(name)} {header.value(key)}, which may matter")


def check_start(header: Header, members: Members, notes: Notes) -> None:
    """Refused unless the run starts at power-on."""
    for key, what in STARTS.items():
        if header.is_set(key):
            raise Refused(f"the run starts from {what} ({HEADER}: {header.names[key]} {header.value(key)}), and not at power-on")
    for name in members.members:
        if what := STARTING.get(name.partition(".")[0].lower()):
            raise Refused(f"the run starts from {what} ({shown(name)} in the zip), and not at power-on")
    notes.say("carried", "start at power-on")
