"""Reads an XML file into elements that know their lines. A file with a document type, and so with entities of its own, is refused."""
from __future__ import annotations

from collections.abc import Iterator
from dataclasses import dataclass, field
from xml.parsers import expat

from .model import BadSource

MOST_BYTES = 64 * 1024 * 1024
DEEPEST = 32


@dataclass
class Element:
    """An element: its namespace and name, its line, its own text, and the elements in it."""

    space: str
    name: str
    line: int
    attributes: dict[str, str]
    children: list[Element] = field(default_factory=list)
    text: str = ""

    def all(self, name: str) -> Iterator[Element]:
        return (child for child in self.children if child.name == name)

    def one(self, name: str) -> Element | None:
        return next(self.all(name), None)

    def value(self, name: str) -> str | None:
        """The text of the first element of that name without blanks around it; None where there is none, or it is blank."""
        found = self.one(name)
        return (found.text.strip() or None) if found is not None else None


class _Builder:
    def __init__(self, path: str):
        self.path, self.top = path, Element("", "", 0, {})
        self._open, self._texts = [self.top], [[""]]
        self.parser = expat.ParserCreate(namespace_separator=" ")
        self.parser.buffer_text = True
        self.parser.StartDoctypeDeclHandler = self._refuse_doctype
        self.parser.EntityDeclHandler = self._refuse_entity
        self.parser.ExternalEntityRefHandler = self._refuse_external
        self.parser.StartElementHandler = self._start
        self.parser.EndElementHandler = self._end
        self.parser.CharacterDataHandler = self._data

    def error(self, line: int, why: str) -> BadSource:
        return BadSource(f"{self.path}: line {line}: {why}")

    def _refuse_doctype(self, *_: object) -> None:
        raise self.error(self.parser.CurrentLineNumber, "it declares a document type (DOCTYPE). No file of job_scheduling_data has one, and entities "
                         "of a file's own aren't read here: take the declaration out")

    def _refuse_entity(self, *_: object) -> None:
        raise self.error(self.parser.CurrentLineNumber, "it declares an entity, and entities of a file's own aren't read here")

    def _refuse_external(self, *_: object) -> int:
        raise self.error(self.parser.CurrentLineNumber, "it refers to another file, and no other file is read here")

    def _start(self, name: str, attributes: dict[str, str]) -> None:
        space, _, own = name.rpartition(" ")
        made = Element(space, own, self.parser.CurrentLineNumber, attributes)
        if len(self._open) > DEEPEST:
            raise self.error(made.line, f"its elements nest deeper than {DEEPEST}")
        self._open[-1].children.append(made)
        self._open.append(made)
        self._texts.append([])

    def _end(self, _: str) -> None:
        self._open.pop().text = "".join(self._texts.pop())

    def _data(self, text: str) -> None:
        self._texts[-1].append(text)


def read(path: str) -> Element:
    """The root of a file. Raises BadSource, with the line and the reason."""
    try:
        with open(path, "rb") as file:
            data = file.read(MOST_BYTES + 1)
    except OSError as error:
        raise BadSource(f"{path} can't be read: {error.strerror}") from None
    if len(data) > MOST_BYTES:
        raise BadSource(f"{path}: it has more than {MOST_BYTES} bytes")
    builder = _Builder(path)
    try:
        builder.parser.Parse(data, True)
    except expat.ExpatError as error:
        raise builder.error(error.lineno, f"it isn't XML: {expat.ErrorString(error.code)}") from None
    except (LookupError, ValueError) as error:
        raise builder.error(builder.parser.CurrentLineNumber, f"it can't be read: {error}") from None
    return builder.top.children[0]
