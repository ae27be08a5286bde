"""Which team a hub's folder belongs to: the file `team.json`, which stands in the folder, beside each of its stores and in each backup."""
from __future__ import annotations

import json
import os
import re
import secrets
from dataclasses import dataclass

from . import durable
from .errors import BadFolder

FORMAT = 1
FILE = "team.json"
_ID = re.compile(r"[0-9a-f]{32}")


@dataclass(frozen=True)
class Team:
    """A random id, and a generation that each restore raises: entry and epoch numbers are unique within one."""

    id: str
    generation: int

    @classmethod
    def new(cls) -> Team:
        return cls(secrets.token_hex(16), 1)

    @classmethod
    def read(cls, folder: str) -> Team | None:
        """The team that a folder names; None where it names none. Raises BadFolder where that can't be understood."""
        path = os.path.join(folder, FILE)
        try:
            with open(path, encoding="utf-8") as file:
                found = json.load(file)
        except FileNotFoundError:
            return None
        except ValueError:
            raise BadFolder(f"{path} is no JSON: put it back from a backup") from None
        if not isinstance(found, dict) or not isinstance(form := found.get("format"), int):
            raise BadFolder(f"{path} has no format: put it back from a backup")
        if form != FORMAT:
            raise BadFolder(f"{path} has the format {form}, and this version of kemtrua knows {FORMAT}: use the version that made it")
        team, generation = found.get("id"), found.get("generation")
        if not isinstance(team, str) or not _ID.fullmatch(team) or not isinstance(generation, int) or generation < 1:
            raise BadFolder(f"{path} has no id of 32 hexadecimal digits, or no generation from 1 on: put it back from a backup")
        return cls(team, generation)

    def write(self, folder: str) -> None:
        text = json.dumps({"format": FORMAT, "id": self.id, "generation": self.generation})
        durable.write(os.path.join(folder, FILE), text.encode() + b"\n")

    def __str__(self) -> str:
        return f"team {self.id}, generation {self.generation}"
