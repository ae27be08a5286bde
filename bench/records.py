"""Transactions as bytes, and stores of them: what docs/specification/records.md and journal.md say, for the scripts of this folder."""
import os
import struct

CLIENT = b"\x00"


def text(value):
    return struct.pack(">H", len(value)) + value.encode()


def key(name):
    return text("DEFAULT") + text(name)


def entry(at, actor, command):
    return b"\x02" + struct.pack(">q", at) + actor + struct.pack(">I", 0) + command


def node(name, epoch):
    return b"\x01" + text(name) + struct.pack(">Q", epoch)


def job(name, no_concurrent=False):
    flags = bytes([1, no_concurrent, 0])
    return key(name) + text("ok") + flags + text("")


def add_job(name, no_concurrent=False, replace=False):
    return b"\x00" + job(name, no_concurrent) + bytes([replace])


def add_trigger(name, of, start, count=0, interval=0, replace=False):
    schedule = b"\x00" + struct.pack(">qq", interval, count)
    timing = schedule + b"\xff" + struct.pack(">q", start) + b"\x00"
    return b"\x02" + key(name) + key(of) + struct.pack(">i", 5) + b"\x00" + timing + bytes([replace])


def of_key(place, name):
    return bytes([place]) + key(name)


def join(name):
    return b"\x0e" + text(name)


def acquire(no_later, most):
    return b"\x10" + struct.pack(">qqI", no_later, 0, most)


def of_entry(place, number):
    return bytes([place]) + struct.pack(">Q", number)


def store(folder, entries):
    payloads = (b"\xa5" + struct.pack(">I", len(record)) + record for record in entries)
    with open(os.path.join(folder, "qz-triggers.store"), "wb") as file:
        file.write(b"QZ23\x02T" + bytes(10) + b"".join(payloads) + b"\x00")
