"""The store files of the stand-in: the trigger store's journal, with its tables in the file of states."""
from __future__ import annotations

import json
import os
import pickle
import struct
import sys

TRIGGERS, STATES = "qz-triggers.store", "qz-states.store"
STATES_HEADER = b"QZ23\x01S" + bytes(11)
CODES = ("NOOP", "RE_EXECUTE_JOB", "SET_TRIGGER_COMPLETE", "DELETE_TRIGGER", "SET_ALL_JOB_TRIGGERS_COMPLETE", "SET_TRIGGER_ERROR",
         "SET_ALL_JOB_TRIGGERS_ERROR")
COMMANDS = {"add_job": 0, "delete_job": 1, "add_trigger": 2, "delete_trigger": 3, "pause_trigger": 4, "resume_trigger": 5, "add_calendar": 8, "trigger_now": 0x0C, "threshold": 0x0D,
            "join": 0x0E, "leave": 0x0F, "acquire": 0x10, "release": 0x11, "fire": 0x12, "complete": 0x13, "misfires": 0x14, "recover": 0x15,
            "reset_trigger": 0x17, "pause_job_group": 0x18, "resume_job_group": 0x19}
TOLD = b"\xfftold"  # what stands before it in a record
HEAD = b"\xf0" + bytes(52)  # a snapshot, which has nothing here
SLOTS = (6, 11)  # the gates of the two slots


class Journal:
    """The trigger store's file."""

    def __init__(self, file):
        self.file, self.count, self.behind = file, 0, 0
        file.seek(16)
        while (block := file.read(5))[:1] == b"\xa5":
            payload = file.read(int.from_bytes(block[1:], "big"))
            self.count, self.behind = self.count + 1, 0 if payload[:1] == b"\xf0" else self.behind + 1

    def append(self, payload):
        """Adds a payload at the closed gate at the end of the file."""
        self.file.seek(-1, os.SEEK_END)
        self.file.write(b"\xa5" + struct.pack(">I", len(payload)) + payload + b"\x00")
        self.file.flush()
        self.count, self.behind = self.count + 1, self.behind + 1

    def show_room(self, tables):
        states = os.path.getsize(STATES)
        return f"room triggers {self.file.seek(0, os.SEEK_END) - 1} {self.count} behind {self.behind} states {states} {tables.check_ins}"

    def checkpoint(self):
        at = self.file.seek(0, os.SEEK_END) - 1
        self.append(HEAD)
        self.file.seek(0)
        free = min(SLOTS, key=lambda gate: slots_of(self.file).get(gate, 0))
        self.file.seek(free)
        self.file.write(b"\xa5" + struct.pack(">I", at))
        self.file.flush()
        self.behind = 0
        return "checkpoint made"


def slots_of(file):
    """The open slots of a trigger store, each with where it leads."""
    file.seek(0)
    header = file.read(16)
    return {gate: int.from_bytes(header[gate + 1 : gate + 5], "big") for gate in SLOTS if header[gate] == 0xA5}


def record(line, now, epoch):
    """The record of a transaction, as far as `kemtrua.journal` reads it."""
    do = line["do"]
    short = lambda name: struct.pack(">H", len(name.encode())) + name.encode()
    by_node = do in ("leave", "acquire", "release", "fire", "complete", "misfires", "recover")
    actor = b"\x01" + short(line["node"]) + struct.pack(">Q", epoch) if by_node else b"\x00"
    body = {"join": lambda: short(line["node"]), "recover": lambda: short(line["failed"])}.get(do, lambda: b"")()
    body += struct.pack(">Q", line["entry"]) if "entry" in line else b""
    body += bytes([CODES.index(line.get("code", "NOOP"))]) if do == "complete" else b""
    return b"\x01" + struct.pack(">q", now) + actor + struct.pack(">I", 0) + bytes([COMMANDS[do]]) + body


def told(line, now, epoch, reply):
    """What `history` tells of a transaction, behind its record: which the real one reads from the record itself."""
    defaults = {"code": "NOOP", "replace": False, "window": 0, "max": 1}
    kept = {name: value for name, value in line.items() if name not in ("at", "do", "interval") and value != defaults.get(name, ...)}
    named = {"epoch": epoch} if "node" in line and line["do"] != "join" else {}
    return TOLD + json.dumps({**named, "line": {"at": now, "do": line["do"], **kept}, "reply": reply}, separators=(",", ":"), ensure_ascii=False).encode()


def history(after):
    """The transactions behind the snapshot in use."""
    with open(TRIGGERS, "rb") as file:
        begin = max(slots_of(file).values(), default=0)
        file.seek(16)
        number, base, found = 0, 0, []
        while (block := file.read(5))[:1] == b"\xa5":
            if file.tell() - 5 == begin:
                base, found = number, []
            payload = file.read(int.from_bytes(block[1:], "big"))
            if payload[:1] != b"\xf0":
                number += 1
                found.append((number, payload.partition(TOLD)[2]))
    for number, text in found:
        if number > after:
            sys.stdout.buffer.write(b'{"number":%d,' % number + text[1:] + b"\n")
    if after < base:
        sys.stderr.write(f"qz: begins at {base + 1}\n")
    return 0


def load(path=STATES):
    """The tables of a file of states, of either form."""
    with open(path, "rb") as file:
        data = file.read()
    at, found = len(STATES_HEADER) - 1, data[len(STATES_HEADER) :]
    while data[at : at + 1] == b"\xa5":
        length = int.from_bytes(data[at + 1 : at + 5], "big")
        found, at = data[at + 5 : at + 5 + length], at + 5 + length
    return pickle.loads(found)


def save(tables):
    if os.environ.get("STAND_IN_STATES") == "journal":
        save_in_journal(tables)
        return
    with open(STATES + ".new", "wb") as file:
        file.write(STATES_HEADER)
        pickle.dump(tables, file)
    os.replace(STATES + ".new", STATES)


def save_in_journal(tables):
    """Adds the tables as a payload, so that the file grows as that of the program does."""
    if not os.path.exists(STATES):
        with open(STATES, "wb") as file:
            file.write(STATES_HEADER)
    payload = pickle.dumps(tables)
    with open(STATES, "r+b") as file:
        at = file.seek(-1, os.SEEK_END)
        file.write(b"\x00" + struct.pack(">I", len(payload)) + payload + b"\x00")
        file.flush()
        file.seek(at)
        file.write(b"\xa5")


def make_compacted():
    """A trigger store that begins with a snapshot."""
    with open(TRIGGERS, "wb") as file:
        file.write(b"QZ23\x01T\xa5" + struct.pack(">I", 16) + bytes(5) + b"\xa5" + struct.pack(">I", len(HEAD)) + HEAD + b"\x00")
