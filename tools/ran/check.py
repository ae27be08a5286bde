"""Compares a hub's database with the store's own history, and with what commands wrote themselves."""
import os
import time

from kemtrua.errors import KemtruaError
from kemtrua.history.filling import Copy
from kemtrua.history.questions import Filter, Questions

ALWAYS = ("trigger", "node", "scheduled", "fired")
NEAR = 5000  # ms by which an end may differ that the hub saw since its start, and that isn't taken from the store yet


def told_by(program, stores):
    """The executions of the store's history, from its beginning on: a reading of its own, which shares the program's lines with the hub's and nothing else."""
    copy = Copy(stores, program)
    found, acquired = {}, {}
    try:
        while copy.set_back():
            pass
        for it in copy.history(0):
            words = it.reply.split()
            if words[0] == "acquired" and words[1] != "none":
                acquired.update(zip(map(int, words[1::3]), words[2::3]))
            elif words[0] == "fired":
                found[int(words[1])] = {"trigger": acquired.get(int(words[1])), "node": it.line["node"], "scheduled": int(words[3]), "fired": int(words[5]), "ended": None,
                                        "lost": False}
            elif words[0] == "completed" and int(words[1]) in found:
                found[int(words[1])]["ended"] = it.at
            elif words[0] in ("joined", "recovered"):
                node = it.line["failed" if it.do == "recover" else "node"]
                for one in found.values():
                    if one["node"] == node and one["ended"] is None:
                        one.update(ended=it.at, lost=True)
    finally:
        copy.close()
    return found


class Tally:
    """How many checks passed and failed, with a line for each."""

    def __init__(self):
        self.passed = self.failed = 0

    def that(self, holds, what, why=""):
        self.passed, self.failed = self.passed + bool(holds), self.failed + (not holds)
        print(f"{'ok' if holds else 'FAILED'}  {what}" + (f": {why}" if why and not holds else ""), flush=True)


class Checks(Tally):
    def __init__(self, team):
        super().__init__()
        self._team = team
        self._told, self._untold = {}, set()  # all that the store told at any time, and the entries that it can't have told

    def _stores(self):
        current = os.path.join(self._team.store, "current")
        return current if os.path.islink(current) else self._team.store

    def _recorded(self):
        found = {}
        with Questions(self._team.store) as asked:
            before = None
            while page := asked.executions(Filter(before=before)):
                found |= {one["entry"]: one for one in page}
                before = tuple(page[-1][name] for name in ("fired", "generation", "entry"))
        return found

    def agrees(self, what, within, exact=False):
        """The database says of each execution what the store says."""
        told, until, wrong = told_by(self._team.program, self._stores()), time.monotonic() + within, ["nothing was compared"]
        self._untold |= set(range(max(self._told, default=0) + 1, min(told, default=0)))  # (what a compaction took between two looks)
        self._told |= told
        while wrong and time.monotonic() < until:
            try:
                wrong = list(self._differences(told, self._recorded(), exact))
            except KemtruaError as error:
                wrong = [str(error)]
            time.sleep(0.2 if wrong else 0)
        self.that(not wrong, f"{what} the database agrees with the store's history on {len(told)} executions", "; ".join(wrong[:5]))

    def _differences(self, told, recorded, exact):
        for entry, one in told.items():
            mine = recorded.get(entry)
            if mine is None:
                yield f"{entry} isn't there"
            elif [mine[name] for name in ALWAYS if one[name] is not None] != [one[name] for name in ALWAYS if one[name] is not None]:
                yield f"{entry} is {mine} and was told as {one}"
            elif one["ended"] is not None and not self._same_end(one, mine, exact):
                yield f"{entry} ended at {mine['ended']}, {mine['state']}, and was told as {one}"
        if exact:
            yield from (f"{entry} was never told" for entry in recorded if entry not in self._told and entry not in self._untold)

    def _same_end(self, one, mine, exact):
        near = 0 if exact or one["ended"] < self._team.begun["hub"] else NEAR
        return mine["ended"] is not None and abs(mine["ended"] - one["ended"]) <= near and (mine["state"] == "lost") == one["lost"]

    def reports(self, deletions):
        """Each execution that the store completed has its node's report, but for those whose report was in a database that was deleted."""
        with open(os.path.join(self._team.folder, "evidence")) as file:
            evidence = {int(entry): int(status) for entry, status in map(str.split, file)}
        recorded = self._recorded()
        completed = {entry for entry, one in recorded.items() if one["state"] in ("done", "failed", "ended")}
        kept = {entry for entry in completed if recorded[entry]["ended"] > self._team.deleted}
        bare = sorted(entry for entry in kept if recorded[entry]["state"] == "ended")
        self.that(not bare, f"each of {len(kept)} executions that ended since the last deletion has its report", f"{bare}")
        wrong = [entry for entry in kept if entry in evidence and recorded[entry].get("status") not in (None, evidence[entry])]
        self.that(not wrong, "with the status of its command", f"{wrong}")
        good = [entry for entry in kept if recorded[entry]["state"] == "done" and evidence.get(entry) != 0 or recorded[entry]["state"] == "failed" and evidence.get(entry) == 0]
        self.that(not good, "and with the state that it stands for", f"{good}")
        with Questions(self._team.store) as asked:
            silent = [entry for entry in kept if recorded[entry]["state"] != "ended" and asked.output(recorded[entry]["generation"], entry)[1] != b"entry %d\n" % entry]
        self.that(not silent, "and its output", f"{silent}")
        missing = [entry for entry, one in recorded.items() if one["state"] in ("runs", "missing")]
        self.that(not missing, "nothing is open at the end", f"{missing}")
        self.that(deletions == 0 or len(recorded) > 0, f"{len(recorded)} executions in all, {len(evidence)} begun, after {deletions} deletions")
