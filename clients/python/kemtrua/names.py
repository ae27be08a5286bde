"""Names and keys as replies print them: one word each, whatever bytes they have."""
from __future__ import annotations

import re
from dataclasses import dataclass

DEFAULT_GROUP = "DEFAULT"
RECOVERIES = "RECOVERING_JOBS"
EMPTY = "%"  # how an empty text is printed

_ESCAPE = re.compile(rb"%([0-9A-F]{2})")


def escape(name: str) -> str:
    """The name with `%` and two hexadecimal digits for each byte that isn't printed as itself."""
    plain = (chr(byte) if 0x21 <= byte <= 0x7E and byte not in b"/%" else f"%{byte:02X}" for byte in name.encode(errors="surrogateescape"))
    return "".join(plain) or EMPTY


def unescape(word: str) -> str:
    """The name that a reply prints as this word."""
    if word == EMPTY:
        return ""
    return _ESCAPE.sub(lambda found: bytes([int(found[1], 16)]), word.encode()).decode(errors="replace")


@dataclass(frozen=True, order=True)
class Key:
    """The key of a job or a trigger."""

    group: str
    name: str

    @classmethod
    def of_word(cls, word: str) -> Key:
        group, _, name = word.partition("/")
        return cls(unescape(group), unescape(name))

    @classmethod
    def of_user(cls, text: str) -> Key:
        """What a user typed: NAME, or GROUP/NAME."""
        group, slash, name = text.partition("/")
        return cls(group, name) if slash else cls(DEFAULT_GROUP, text)

    def __str__(self) -> str:
        return f"{escape(self.group)}/{escape(self.name)}"

    def members(self) -> dict[str, object]:
        """The members of a line that name this key."""
        return {"name": self.name, "group": self.group}
