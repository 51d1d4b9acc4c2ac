"""The members of a zip from a stranger. They are read up to a limit, and nothing is ever written to a disk."""

import io
import posixpath
import struct
import zipfile
import zlib

from votmeshaw.importing.runs import Refused, shown

BEGIN = b"PK"
# What stands before each member in a zip's directory.
ENTRY = b"PK\x01\x02"
MOST_MEMBERS = 4096
# BizHawk packs by these two; what others unpack to has no bound before it is unpacked.
METHODS = (zipfile.ZIP_STORED, zipfile.ZIP_DEFLATED)
ENCRYPTED = 0x41
DAMAGES = (zipfile.BadZipFile, zipfile.LargeZipFile, NotImplementedError, RuntimeError, ValueError, EOFError, OSError, LookupError,
           OverflowError, TypeError, struct.error, zlib.error)


class Members:
    """The members in that folder of a zip in which the one of this name is."""

    def __init__(self, data: bytes, first: str) -> None:
        if data.count(ENTRY) > MOST_MEMBERS:
            raise Refused(f"a zip of more than {MOST_MEMBERS:,} members")
        try:
            self.zip = zipfile.ZipFile(io.BytesIO(data))
            entries = [it for it in self.zip.infolist() if not it.is_dir()]
        except DAMAGES as error:
            raise Refused(f"a damaged zip, or the beginning of one: {shown(str(error))}") from None
        for it in entries:
            if it.filename.startswith("/") or ".." in it.filename.replace("\\", "/").split("/"):
                raise Refused(f"a zip with a member '{shown(it.filename)}', whose name leads out of it")
        folders = [posixpath.dirname(it.filename) for it in entries if posixpath.basename(it.filename) == first]
        if len(folders) != 1:
            raise Refused(f"a zip with {len(folders)} members {first}, where a BizHawk movie has one")
        self.members: dict[str, zipfile.ZipInfo] = {}
        # The members elsewhere, by their whole names.
        self.others: list[str] = []
        for it in entries:
            name = posixpath.basename(it.filename)
            if posixpath.dirname(it.filename) != folders[0]:
                self.others.append(it.filename)
            elif name in self.members:
                raise Refused(f"a zip with two members '{shown(it.filename)}'")
            else:
                self.members[name] = it

    def content(self, name: str, most: int) -> bytes | None:
        """The bytes of a member, at most so many; None if there is no such member."""
        if not (member := self.members.get(name)):
            return None
        if member.flag_bits & ENCRYPTED:
            raise Refused(f"{name} in the zip is encrypted")
        if member.compress_type not in METHODS:
            raise Refused(f"{name} in the zip is packed by method {member.compress_type}, which BizHawk doesn't use: pack it by deflate")
        try:
            with self.zip.open(member) as file:
                data = file.read(most + 1)
        except DAMAGES as error:
            raise Refused(f"{name} in the zip is damaged: {shown(str(error))}") from None
        if len(data) > most:
            raise Refused(f"{name} in the zip has more than {most:,} bytes, which is the most that is read of it")
        return data
