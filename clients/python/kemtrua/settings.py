"""The settings file of a node, in TOML."""
from __future__ import annotations

import math
import os
import shutil
import socket
import tomllib
from collections.abc import Mapping, Sequence
from dataclasses import dataclass
from typing import Any

from .address import DEFAULT, Address, Tls
from .commands import Command
from .errors import BadSettings
from .jobs import Code, Retry
from .node import Work
from .values import node as node_name


FORMAT = 1  # of settings files
WORDS = {int: "a whole number", float: "a number", str: "a text", bool: "true or false", list: "a list", dict: "a table"}
DAY = 86_400_000  # ms
MOST_WORKERS = 10_000  # each is a thread, begun with the node
MOST_AHEAD = 2**52  # ms: with the present moment it is still one that a line may have


@dataclass(frozen=True)
class CommandClass:
    command: Command
    retry: Retry
    ends_when_cut_off: bool


@dataclass(frozen=True)
class NodeSettings:
    """What a node's file says. Either `addresses`, of its hub or of several, or `store` is there."""

    name: str
    addresses: Sequence[Address]
    store: str | None
    program: str
    tls: Tls | None
    check_in: int
    work: Work
    finish_within: float | None
    clock_limit: int
    spool: str | None
    classes: Mapping[str, CommandClass]


class Table:
    """A table of a TOML file, of which each member is taken once and of the right type."""

    def __init__(self, where: str, values: Any):
        if not isinstance(values, dict):
            raise BadSettings(f"{where} is no table")
        self.where, self._left = where, dict(values)

    def take(self, name: str, kind: type | tuple[type, ...], default: Any = None, low: float | None = None, high: float | None = None) -> Any:
        if name not in self._left:
            return default
        value = self._left.pop(name)
        kinds = kind if isinstance(kind, tuple) else (kind,)
        if not isinstance(value, kinds) or isinstance(value, bool) and bool not in kinds:
            raise BadSettings(f"{self.where}: {name} = {value!r}; allowed is {' or '.join(WORDS[it] for it in kinds)}")
        if isinstance(value, float) and not math.isfinite(value):
            raise BadSettings(f"{self.where}: {name} = {value!r}; allowed is a number that is finite")
        if low is not None and value < low or high is not None and value > high:
            raise BadSettings(f"{self.where}: {name} = {value!r}; allowed is {low} {'or more' if high is None else f'to {high}'}")
        return value

    def end(self) -> None:
        """Raises where a member is left that nobody knows."""
        if self._left:
            raise BadSettings(f"{self.where}: {', '.join(self._left)}: there is no such setting")


def read_node(path: str, name: str | None = None) -> NodeSettings:
    """The settings of this file. Raises BadSettings, with the setting that is wrong and what is allowed."""
    try:
        with open(path, "rb") as file:
            top = Table(path, tomllib.load(file))
    except OSError as error:
        raise BadSettings(f"{path} can't be read: {error.strerror}") from None
    except (tomllib.TOMLDecodeError, UnicodeDecodeError) as error:
        raise BadSettings(f"{path} is no TOML: {error}") from None
    form = top.take("format", int, FORMAT)
    if form != FORMAT:
        raise BadSettings(f"{path}: format = {form}; this client knows {FORMAT}")
    node = Table(f"{path}: [node]", top.take("node", dict, {}))
    tls = tls_of(f"{path}: [tls]", top.take("tls", dict))
    classes = {klass: _class_of(f'{path}: [class."{klass}"]', values) for klass, values in top.take("class", dict, {}).items()}
    top.end()
    hubs, store = node.take("hub", (str, list)), node.take("store", str)
    if hubs is not None and store is not None:
        raise BadSettings(f"{node.where}: a node has a hub or a store of its own, and not both")
    finish = node.take("finish_within", (int, float), None, 0)
    work = Work(node.take("workers", int, 10, 1, MOST_WORKERS), node.take("batch", int, 1, 1), node.take("window", int, 0, 0, MOST_AHEAD),
                node.take("ahead", int, 1000, 0, MOST_AHEAD))
    found = NodeSettings(name or node.take("name", str, socket.gethostname()), () if store else _addresses(node.where, hubs), store,
                         node.take("program", str, "qz_sched"), tls, node.take("check_in", int, 15000, 1000, DAY), work, finish,
                         round(1000 * node.take("clock_limit", (int, float), 5.0, 0)), node.take("spool", str), classes)
    node.take("name", str)
    node.end()
    if list(node_name(found.name, "")):
        raise BadSettings(f"{node.where}: a node's name has 1 to 120 bytes of UTF-8")
    if not classes:
        raise BadSettings(f"{path}: it has no class, as [class.backup]: a node takes whatever is due, and one without classes "
                          "would put all triggers into the state ERROR")
    return found


def _addresses(where: str, hubs: Any) -> list[Address]:
    """That of the hub, or those of several."""
    if isinstance(hubs, list) and not (hubs and all(isinstance(one, str) for one in hubs)):
        raise BadSettings(f"{where}: hub = {hubs!r}; allowed is an address, or a list of them")
    return [Address.parse(one) for one in (hubs if isinstance(hubs, list) else [hubs or DEFAULT])]


def tls_of(where: str, values: Any) -> Tls | None:
    if values is None:
        return None
    table = Table(where, values)
    certificate, key, authority, revoked = (table.take(name, str) for name in ("certificate", "key", "authority", "revoked"))
    table.end()
    if None in (certificate, key, authority):
        raise BadSettings(f"{where}: certificate, key and authority belong together")
    return Tls(certificate, key, authority, revoked)


def _code(where: str, value: Any) -> Code:
    try:
        return Code(value)
    except ValueError:
        raise BadSettings(f"{where}: {value!r} is no completion code; allowed are {', '.join(code.value for code in Code)}") from None


def _class_of(where: str, values: Any) -> CommandClass:
    table = Table(where, values)
    words = table.take("command", list)
    if not words or not all(isinstance(word, str) and "\0" not in word for word in words):
        raise BadSettings(f'{where}: command is missing or no list of texts, as command = ["/usr/bin/true"]')
    directory = table.take("directory", str, "/")
    if not os.path.isdir(directory):
        raise BadSettings(f"{where}: directory = {directory!r} isn't there")
    if shutil.which(words[0], path=os.environ.get("PATH")) is None:
        raise BadSettings(f"{where}: the command {words[0]!r} isn't there, or can't be run")
    statuses = table.take("codes", dict, {"0": "NOOP", "75": "RE_EXECUTE_JOB"})
    if not all(status.isdecimal() and int(status) <= 255 for status in statuses):
        raise BadSettings(f"{where}: codes maps exit statuses, 0 to 255, to completion codes")
    command = Command(
        words,
        {int(status): _code(where, code) for status, code in statuses.items()},
        _code(where, table.take("otherwise", str, "NOOP")),
        timeout=table.take("timeout", (int, float), None, 0),
        directory=directory,
        environment=_texts(where, table.take("environment", dict, {})),
        output=table.take("output", int, 1 << 20, 0),
    )
    retry = Retry(table.take("retries", int, 8, 0), table.take("retry_after", (int, float), 0.0, 0), _code(where, table.take("then", str, "SET_TRIGGER_ERROR")))
    found = CommandClass(command, retry, table.take("end_when_cut_off", bool, False))
    table.end()
    return found


def _texts(where: str, variables: Mapping[str, Any]) -> dict[str, str]:
    for name, value in variables.items():
        if not isinstance(value, str):
            raise BadSettings(f"{where}: environment: {name} = {value!r} is no text")
        if not name or "=" in name or "\0" in name + value:
            raise BadSettings(f"{where}: environment: {name!r} = {value!r}: no command can be given that variable")
    return dict(variables)
