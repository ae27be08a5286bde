"""Reads a stream of serialized Java objects as data. No class is looked up, and nothing of it is run.

The form is that of Java's "Object Serialization Stream Protocol", version 5.
"""
from __future__ import annotations

import struct
from collections.abc import Callable
from dataclasses import dataclass, field

MAGIC = b"\xac\xed\x00\x05"
FIRST_HANDLE = 0x7E0000
DEEPEST = 100

WRITES_MORE, SERIALIZABLE, EXTERNALIZABLE, IN_BLOCKS = 1, 2, 4, 8  # flags of a class
PRIMITIVES = {"B": ">b", "C": ">H", "D": ">d", "F": ">f", "I": ">i", "J": ">q", "S": ">h", "Z": ">?"}


class BadStream(ValueError):
    """The bytes are no such stream, or one that can't be read without its classes."""


@dataclass
class ClassDescription:
    name: str
    flags: int = 0
    fields: list[tuple[str, str]] = field(default_factory=list)  # type code and name
    parent: ClassDescription | None = None

    def line(self) -> list[ClassDescription]:
        """The classes from the topmost one down to this."""
        found: list[ClassDescription] = []
        at: ClassDescription | None = self
        while at is not None and len(found) <= DEEPEST:
            found.append(at)
            at = at.parent
        if at is not None:
            raise BadStream("its classes have no end")
        return found[::-1]


@dataclass
class Instance:
    """An object: its fields by name, and what its classes wrote themselves, by the name of the class."""

    kind: ClassDescription
    fields: dict[str, object] = field(default_factory=dict)
    more: dict[str, list[object]] = field(default_factory=dict)


@dataclass
class Array:
    kind: str
    items: list[object] = field(default_factory=list)


@dataclass
class EnumConstant:
    kind: str
    name: str


class _End:
    """The mark behind what a class wrote itself."""


_END = _End()


def read(data: bytes) -> object:
    """The first object of a stream."""
    if data[:4] != MAGIC:
        raise BadStream("it doesn't begin as a stream of Java objects")
    return _Reader(data).content()


class _Reader:
    def __init__(self, data: bytes):
        self._data, self._at, self._depth = data, 4, 0
        self._handles: list[object] = []
        self._forms: dict[int, Callable[[], object]] = {
            0x70: lambda: None, 0x71: self._reference, 0x72: self._class_description, 0x73: self._object, 0x74: self._string, 0x75: self._array,
            0x76: self._class, 0x77: lambda: self._take(self._whole(">B")), 0x78: lambda: _END, 0x7A: lambda: self._take(self._whole(">i")),
            0x7C: self._long_string, 0x7E: self._enum,
        }

    def content(self) -> object:
        tag = self._whole(">B")
        form = self._forms.get(tag)
        if form is None:
            raise BadStream(f"byte {self._at - 1} is {tag:02X}, which begins nothing that is read here")
        self._depth += 1
        if self._depth > DEEPEST:
            raise BadStream(f"its objects nest deeper than {DEEPEST}")
        found = form()
        self._depth -= 1
        return found

    def _take(self, count: int) -> bytes:
        if count < 0 or self._at + count > len(self._data):
            raise BadStream(f"it is cut off at byte {len(self._data)}")
        self._at += count
        return self._data[self._at - count:self._at]

    def _value(self, form: str) -> int | float | bool:
        found: int | float | bool = struct.unpack(form, self._take(struct.calcsize(form)))[0]
        return found

    def _whole(self, form: str) -> int:
        return int(self._value(form))

    def _text(self, count: int) -> str:
        """Java's own form of UTF-8: the character 0 has two bytes, and those past 16 bits are pairs of surrogates."""
        try:
            parts = self._take(count).replace(b"\xc0\x80", b"\0").decode("utf-8", "surrogatepass")
            return parts.encode("utf-16-le", "surrogatepass").decode("utf-16-le", "surrogatepass")
        except UnicodeDecodeError:
            raise BadStream(f"a text before byte {self._at} isn't right") from None

    def _keep(self, found: object) -> int:
        self._handles.append(found)
        return len(self._handles) - 1

    def _reference(self) -> object:
        number = self._whole(">i") - FIRST_HANDLE
        if not 0 <= number < len(self._handles):
            raise BadStream(f"it refers to an object that isn't there, before byte {self._at}")
        return self._handles[number]

    def _string(self) -> str:
        place = self._keep("")
        self._handles[place] = found = self._text(self._whole(">H"))
        return found

    def _long_string(self) -> str:
        place = self._keep("")
        self._handles[place] = found = self._text(self._whole(">q"))
        return found

    def _class_description(self) -> ClassDescription:
        found = ClassDescription(self._text(self._whole(">H")))
        self._take(8)  # (the number of its version)
        self._keep(found)
        found.flags = self._whole(">B")
        for _ in range(self._whole(">H")):
            code = chr(self._whole(">B"))
            found.fields.append((code, self._text(self._whole(">H"))))
            if code in "L[":
                self.content()  # (the name of its class)
            elif code not in PRIMITIVES:
                raise BadStream(f"the class {found.name} has a field of the unknown type {code!r}")
        self._up_to_the_end()
        found.parent = self._description()
        return found

    def _description(self) -> ClassDescription | None:
        found = self.content()
        if found is not None and not isinstance(found, ClassDescription):
            raise BadStream(f"no class stands before byte {self._at}")
        return found

    def _needed_description(self) -> ClassDescription:
        found = self._description()
        if found is None:
            raise BadStream(f"no class stands before byte {self._at}")
        return found

    def _up_to_the_end(self) -> list[object]:
        found: list[object] = []
        while (one := self.content()) is not _END:
            found.append(one)
        return found

    def _class(self) -> str:
        found = self._needed_description().name
        self._keep(found)
        return found

    def _enum(self) -> EnumConstant:
        kind = self._needed_description().name
        place = self._keep(None)
        self._handles[place] = found = EnumConstant(kind, str(self.content()))
        return found

    def _array(self) -> Array:
        found = Array(self._needed_description().name)
        self._keep(found)
        count, code = self._whole(">i"), found.kind[1:2]
        if not 0 <= count <= len(self._data) - self._at:
            raise BadStream(f"it is cut off at byte {len(self._data)}")
        for _ in range(count):
            found.items.append(self._field(code))
        return found

    def _field(self, code: str) -> object:
        if code in "L[":
            return self.content()
        if code not in PRIMITIVES:
            raise BadStream(f"an array of the unknown type {code!r} stands before byte {self._at}")
        return self._value(PRIMITIVES[code])

    def _object(self) -> Instance:
        found = Instance(self._needed_description())
        self._keep(found)
        for kind in found.kind.line():
            if kind.flags & EXTERNALIZABLE and not kind.flags & IN_BLOCKS:
                raise BadStream(f"only the class {kind.name} itself can read what it wrote")
            if kind.flags & SERIALIZABLE:
                for code, name in kind.fields:
                    found.fields[name] = self._field(code)
            if kind.flags & (WRITES_MORE | EXTERNALIZABLE):
                found.more[kind.name] = self._up_to_the_end()
        return found
