"""Movies without their cartridges, byte by byte as docs/MOVIE_FORMAT.md has them."""

import dataclasses
import hashlib

from votmeshaw.layout import NoMovie, Version, version_of

MAGIC = b"A26S"
# Each form of such a file, by its number: the bytes of the cartridge's length, as many as the movie's own header has.
FORMS = {1: 2, 2: 4}
# The bytes of that number, and of the cartridge's SHA-256.
FORM, DIGEST = 2, 32


class Damaged(Exception):
    """Bytes that are no movie without its cartridge; the text says why."""


@dataclasses.dataclass(frozen=True)
class Stripped:
    """A movie without its cartridge: what that was, the movie's version, and all other bytes, of which its header is the first."""

    length: int
    digest: str
    version: Version
    rest: bytes

    @classmethod
    def of(cls, movie: bytes) -> "Stripped":
        """What is left of a movie, which the program has accepted."""
        version = version_of(movie)
        begin, length = version.header, int.from_bytes(movie[version.length], "big")
        digest = hashlib.sha256(movie[begin : begin + length]).hexdigest()
        return cls(length, digest, version, movie[:begin] + movie[begin + length :])

    @classmethod
    def read(cls, data: bytes) -> "Stripped":
        """What a file spells. Whether it is a movie with its cartridge is for the program to say."""
        if not is_stripped(data):
            raise Damaged("not a movie without its cartridge" + (", but one with it" if data.startswith(b"A26M") else ""))
        form = int.from_bytes(data[len(MAGIC) : (at := len(MAGIC) + FORM)], "big")
        if len(data) >= at and form not in FORMS:
            raise Damaged(f"of form {form}, which isn't known here")
        end = at + FORMS.get(form, 0)
        length, digest, rest = data[at:end], data[end : end + DIGEST], data[end + DIGEST :]
        try:
            version = version_of(rest)
        except NoMovie as error:
            raise Damaged(f"damaged: its header {error}" if len(rest) >= 6 else "damaged: it ends too early") from None
        if len(rest) < version.header:
            raise Damaged("damaged: it ends too early")
        if version.length_bytes != FORMS[form]:
            raise Damaged(f"damaged: no movie of version {version.number} has the form {form}")
        if rest[version.length] != length:
            raise Damaged("damaged: it has two lengths of the cartridge")
        return cls(int.from_bytes(length, "big"), digest.hex(), version, rest)

    def data(self) -> bytes:
        """The bytes of its file."""
        size = self.version.length_bytes
        form = next(form for form, it in FORMS.items() if it == size)
        return MAGIC + form.to_bytes(FORM, "big") + self.length.to_bytes(size, "big") + bytes.fromhex(self.digest) + self.rest

    def is_of(self, cartridge: bytes) -> bool:
        """Whether this is the cartridge that is missing."""
        return len(cartridge) == self.length and hashlib.sha256(cartridge).hexdigest() == self.digest

    def joined(self, cartridge: bytes) -> bytes:
        """The movie with this cartridge."""
        return self.rest[: self.version.header] + cartridge + self.rest[self.version.header :]

    def wanted(self) -> str:
        """The cartridge that is missing, in words."""
        return f"the cartridge of {self.length} bytes with the SHA-256 {self.digest}"


def is_stripped(data: bytes) -> bool:
    """Whether bytes begin as a movie without its cartridge does."""
    return data.startswith(MAGIC)
