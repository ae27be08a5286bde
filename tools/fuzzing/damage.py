"""Spoils copies of the stores, and looks at what the program says to them."""
import os
import re
import shutil

from fuzzing.calls import call, check_status
from fuzzing.judge import STATES, TRIGGERS, need
from stores import journal

NAMES = {TRIGGERS: "triggers", STATES: "states"}


def tear(path, chance):
    """Leaves what a torn last commit may leave: the bytes after the closed gate are any, and so is the gate, as long as it isn't open."""
    _, gate, _ = journal.payloads_of(path)
    with open(path, "r+b") as store:
        if chance.random() < 0.3:
            store.truncate(gate + 1)
        store.seek(gate)
        store.write(bytes([chance.choice([0, 0x5A, 0xFF, chance.randrange(journal.OPEN_GATE)])]))
        store.write(chance.randbytes(chance.choice([0, 1, 4, 5, 40, 32774, 70000])))
    return f"torn after {gate}"


def spoil(path, chance):
    """Flips bits, overwrites bytes or cuts the file, anywhere, or opens a slot."""
    size = max(os.path.getsize(path), 1)
    way = chance.choice(["flip", "flip", "flip", "flip", "bytes", "cut", "empty", "slot"])
    gates = layout_of(path)[0] if way == "slot" else []
    with open(path, "r+b") as store:
        if way == "slot":
            store.seek(place := chance.choice(journal.SLOT_GATES))
            offset = chance.choice([*gates, chance.randrange(2 * size), chance.randrange(1 << 32)])
            store.write(bytes([journal.OPEN_GATE]) + offset.to_bytes(journal.OFFSET, "big"))
        elif way == "cut":
            store.truncate(place := chance.randrange(size))
        elif way == "empty":
            store.truncate(place := 0)
        else:
            place = chance.randrange(16, size) if size > 16 and chance.random() < 0.95 else chance.randrange(min(size, 16))
            old = os.pread(store.fileno(), 1, place)
            store.seek(place)
            store.write(bytes(byte ^ 1 << chance.randrange(8) for byte in old) if way == "flip" else chance.randbytes(chance.choice([1, 4, 20])))
    return f"{way} at {place}"


def layout_of(path):
    """What the layout alone says to an opening, which begins at the slot in use: the places that may be named as damaged, since the payload after that gate, or the
    snapshot after that slot, may not be right; and the bad place (None: none; -1: it is no store)."""
    gates, file = [], os.open(path, os.O_RDONLY)
    try:
        header = journal.header_of(file)
        journal.check_slot(file, header)
        gates = [header.slot.gate] if header.slot else []
        for gate, _ in journal.payloads(file, header.slot.offset if header.slot else journal.HEADER):
            gates.append(gate)
    except journal.NotAStore:
        return gates, -1
    except journal.Closed:
        return gates, None
    except journal.Damaged as damaged:
        return gates, damaged.at
    finally:
        os.close(file)


def check_answer(ended, store, gates, bad, statuses):
    """What a call on a store with this layout says."""
    check_status(ended.status, ended.said, statuses)
    said = re.fullmatch(rf"qz: {NAMES[store]} (?:damaged at (\d+)|not a store)\n", ended.said)
    if bad == -1:
        need(said and said.group(1) is None, f"it is no store, and was answered {ended.said!r}, status {ended.status}")
    elif bad is not None:
        need(said and said.group(1) and int(said.group(1)) in [*gates, bad], f"it is damaged at {bad}, and was answered {ended.said!r}, status {ended.status}")
    elif ended.status == 6:
        need(said and said.group(1) and int(said.group(1)) in gates, f"its layout is whole, and it was answered {ended.said!r}")


def try_damage(program, folder, scratch, chance):
    """Spoils one store of a copy, and makes some calls on it. Answers the status of the first, and leaves the copy where something is wrong."""
    shutil.rmtree(scratch, ignore_errors=True)
    shutil.copytree(folder, scratch)
    store = chance.choice([TRIGGERS, TRIGGERS, STATES])
    path = os.path.join(scratch, store)
    if chance.random() < 0.4:
        listed = call(program, folder, ["list"]).written
        tear(path, chance)
        ended = call(program, scratch, ["script"])
        need((ended.status, ended.said, ended.written) == (0, "", b""), f"a torn {store} was answered {ended.said!r}, status {ended.status}")
        need(call(program, scratch, ["list"]).written == listed, f"a torn {store} has another list")
        return "torn"
    for _ in range(chance.choice([1, 1, 1, 3])):
        spoil(path, chance)
    gates, bad = layout_of(path)
    ended = call(program, scratch, ["script"])
    check_answer(ended, store, gates, bad, (0, 6))
    listed = call(program, scratch, ["list"])
    check_answer(listed, store, gates, bad, (0, 6))
    need((ended.status, ended.said) == (listed.status, listed.said), f"script said {ended.said!r}, and list {listed.said!r}")
    words, statuses = chance.choice([(["run", "2", "1704067200000", "1704067500000", "40"], (0, 6, 8, 11, 12)), (["gen", "1", "1", "1"], (0, 6, 8, 10, 11, 12)),
                                     (["load"], (0, 6)), (["migrate"], (0, 6)), (["init"], (0, 6, 10)), (["script"], (0, 6))])
    lines = b'{"jobs":[{"name":"x","class":"ok"}]}' if words == ["load"] else b'{"do":"join","node":"A"}\n' if words == ["script"] else b""
    then = call(program, scratch, words, lines)
    check_status(then.status, then.said, statuses)
    return "spoilt, and opened" if ended.status == 0 else "spoilt, and refused"
