"""The journal of a store file, by docs/specification/journal.md: its header with the two slots, its gates and its payloads. Only reads."""
import collections
import os

HEADERS = {b"QZ23" + bytes([version]) + kind: (version, kind.decode()) for version in (1, 2) for kind in (b"T", b"S")}
HEADER, OPEN_GATE, LENGTH, PAYLOAD_LIMIT = 16, 0xA5, 4, 32768
BYTES_LIMIT, PAYLOADS_LIMIT = 1 << 29, 1 << 23
WINDOW = 1 << 17  # bytes read at a time: more than two blocks
SLOT_GATES, OFFSET = (6, 11), 4
HEAD, PIECE, HEAD_BYTES = 0xF0, 0xF1, 53  # the first bytes of a snapshot's payloads, and how many bytes its head has

Slot = collections.namedtuple("Slot", "gate offset")
Header = collections.namedtuple("Header", "version kind slot")  # the kind is T or S; `slot` is the one in use, None where both are closed


class NotAStore(Exception):
    """The file doesn't begin with the header of a store of version 1 or 2."""


class Damaged(Exception):
    """The file has a bad place: at the offset of the gate that is missing, or of the open one after which no whole payload stands, or at the gate of a slot."""

    def __init__(self, at):
        super().__init__(f"damaged at {at}")
        self.at = at


class Closed(Exception):
    """The gate at an offset is closed, by this byte: the payloads end there."""

    def __init__(self, at, byte):
        super().__init__(f"closed at {at}")
        self.at, self.byte = at, byte


def header_in(content):
    """The header of a store that begins with these bytes."""
    if len(content) < HEADER or content[: SLOT_GATES[0]] not in HEADERS:
        raise NotAStore
    slots = [Slot(gate, int.from_bytes(content[gate + 1 : gate + 1 + OFFSET], "big")) for gate in SLOT_GATES if content[gate] == OPEN_GATE]
    return Header(*HEADERS[content[: SLOT_GATES[0]]], max(slots, key=lambda slot: slot.offset, default=None))  # of equal ones max takes the first


def header_of(file):
    """The header of a store that is open for reading."""
    return header_in(os.pread(file, HEADER, 0))


def is_part(kind, payload):
    """Whether a payload is a part of a snapshot, and no record. A state store has none."""
    return kind == "T" and payload[0] in (HEAD, PIECE)


def check_slot(file, header):
    """That the slot in use leads to the head of a snapshot. Else Damaged is raised: at its gate, or at the offset where an open gate stands there and no whole
    payload. So it is where an opening of the store answers that, but for snapshots whose rows are wrong. A state store's slot leads to none."""
    if header.slot is None:
        return
    gate, offset = header.slot
    if offset < HEADER or os.pread(file, 1, offset) != bytes([OPEN_GATE]):
        raise Damaged(gate)
    _, payload = next(payloads(file, offset))
    if header.kind == "S" or payload[0] != HEAD or len(payload) != HEAD_BYTES:
        raise Damaged(gate)


def blocks_in(window, at):
    """The open blocks of a piece of the file that begins with the gate at `at`: (the next gate, the payload) each. Ends with Closed or
    Damaged, or at a block that the piece doesn't have whole."""
    place = 0
    while place < len(window):
        if window[place] != OPEN_GATE:
            raise Closed(at + place, window[place])
        start = place + 1 + LENGTH
        if len(window) < start:
            return
        length = int.from_bytes(window[place + 1 : start], "big")
        if not 1 <= length <= PAYLOAD_LIMIT:
            raise Damaged(at + place)
        if len(window) < start + length:
            return
        place = start + length
        yield at + place, window[start:place]


def payloads(file, gate=HEADER, slot=None):
    """Each payload after a gate, as (the offset of the gate before it, the payload). Ends with Closed or Damaged. Where a slot is given that leads to a head, this
    head is one of the payloads, unless it stands before the first of them: Damaged are a gate that is closed before it, and, after all payloads, a slot that leads
    into one of them."""
    head, astray = slot.offset if slot else gate, False
    while True:
        before, window = gate, os.pread(file, WINDOW, gate)
        try:
            for following, payload in blocks_in(window, gate):
                astray |= gate < head < following
                yield gate, payload
                gate = following
            if gate == before:
                raise Damaged(gate)
        except (Closed, Damaged) as end:
            if astray:
                raise Damaged(slot.gate) from None
            if end.at < head:
                raise Damaged(end.at) from None
            raise


def store_payloads(file, header):
    """Each payload of a store with this header, from the first gate on, as those of `payloads`. Ends with Closed or Damaged. What the slot in use leads to is
    looked at first."""
    check_slot(file, header)
    yield from payloads(file, slot=header.slot)


def payloads_of(path):
    """All payloads of a store, also the parts of snapshots: a list of (gate, payload), the offset of the closed gate, and the header."""
    file = os.open(path, os.O_RDONLY)
    try:
        header, found = header_of(file), []
        try:
            for one in store_payloads(file, header):
                found.append(one)
        except Closed as end:
            return found, end.at, header
    finally:
        os.close(file)
