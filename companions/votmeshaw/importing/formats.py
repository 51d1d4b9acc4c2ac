"""The formats of runs: which one a file has, by its bytes."""

from votmeshaw.command import Stop
from votmeshaw.importing import ale, archives, bizhawk, input_log, inputs_text
from votmeshaw.importing.runs import KEYS, LONGEST, SWITCHES, Notes, Refused, Run, switches_of
from votmeshaw.importing.settings import BYTE_ORDER_MARK

MAME = "a recording of MAME (.inp); play it there with companions/logs/mame.lua, which writes inputs as text"
# What a file is that doesn't come in, by its first bytes, and what may be done.
OTHERS = {
    b"A26M": "a movie of this project; 'vcs_check inputs' prints its inputs",
    b"\x1f\x8b": "packed by gzip; unpack it first", b"7z\xbc\xaf": "packed by 7-Zip; unpack it first",
    b"Rar!": "packed by RAR; unpack it first", b"\xfd7zXZ": "packed by xz; unpack it first",
    b"\xff\xfe": "text in UTF-16; save it as UTF-8", b"\xfe\xff": "text in UTF-16; save it as UTF-8",
    b"MAMEINP\0": MAME,
    b"INP\0": MAME,
    b"MovieVersion": "a BizHawk movie of the old format (.bkm); open it in BizHawk, and save it as .bk2",
}
# How far into a text its LogKey is looked for.
HEAD = 4096


def run_of(data: bytes, is_ale: bool, asked: dict[str, bool], notes: Notes) -> Run:
    """The run in a file. Says what it is taken for."""
    if len(data) > LONGEST:
        raise Refused(f"RUN has more than {LONGEST:,} bytes, which is the most that is read")
    data = data.removeprefix(BYTE_ORDER_MARK)
    for begin, what in OTHERS.items():
        if data.startswith(begin):
            raise Refused(f"RUN is {what}")
    run = _read(data, is_ale, asked, notes)
    if not run.frames.count:
        raise Refused("RUN has no frame")
    if not any(word in KEYS for _, held in run.frames.stretches for word in held):
        notes.say("carried", "nothing: no direction, button, reset or select is held in any frame")
    return run


def _read(data: bytes, is_ale: bool, asked: dict[str, bool], notes: Notes) -> Run:
    """The run in a file of one of the formats that come in."""
    if is_ale:
        notes.say("run", "actions of the Arcade Learning Environment, one a frame")
        switches = switches_of(asked, {}, notes)
        return Run(ale.frames_of(data, switches), switches)
    if data.startswith(archives.BEGIN):
        notes.say("run", "BizHawk movie")
        return bizhawk.run_of(data, asked, notes)
    if input_log.BEGIN in data[:HEAD]:
        notes.say("run", "input log of BizHawk")
        switches = switches_of(asked, {}, notes)
        return Run(input_log.frames_of(data, switches, notes), switches)
    if asked:
        raise Stop("RUN is taken for inputs as text, which say the switches in each frame, so none can be asked for")
    try:
        frames = inputs_text.frames_of(data)
    except Refused as error:
        hint = "; as a list of ALE's actions it needs --ale" if ale.is_list(data) else ""
        raise Refused(f"RUN is no BizHawk movie, no input log with LogKey, and no inputs as text: {error}{hint}") from None
    notes.say("run", "inputs as text")
    if ale.is_list(data):
        notes.say("unknown", "RUN reads as a list of ALE's actions too, for which --ale would take it")
    first = frames.stretches[0].held if frames.stretches else ()
    return Run(frames, tuple(it.word for it in SWITCHES if it.word in first))
