"""What has to hold of a store, judged from its records, the lines that were sent, the replies that came, and lists."""
import dataclasses
import os
import re
from urllib.parse import quote, unquote

from stores import journal, records

TRIGGERS, STATES = "qz-triggers.store", "qz-states.store"
LAST = 7258118399999
CLOCK_SLACK = 10000  # ms by which the record of a line without `at` may differ from the clock here

NUMBER, KEY = r"-?\d+", r"[!-~]+/[!-~]+"
JOB = rf"job {KEY} [!-~]+ durable [01] no_concurrent [01] requests_recovery [01]"
TRIGGER = rf"trigger {KEY} job {KEY} [A-Z_]+ next (none|{NUMBER}) prev (none|{NUMBER}) times \d+ priority {NUMBER} start {NUMBER} (cron|interval|daily|simple {NUMBER})"
ENTRY = rf"\d+ [!-~]+ \d+ {KEY} (ACQUIRED|EXECUTING) scheduled {NUMBER} at (none|{NUMBER})"
FORMS = {
    "add_trigger": rf"ok next {NUMBER}", "delete_job": r"deleted \d+", "trigger_now": rf"triggered {KEY} {NUMBER}", "join": r"joined \d+ executions \d+ triggers \d+",
    "acquire": rf"acquired( none|( \d+ {KEY} {NUMBER})+)", "fire": rf"fired \d+ scheduled {NUMBER} at {NUMBER} next (none|{NUMBER})", "complete": r"(completed|again) \d+",
    "misfires": rf"misfired( none|( {KEY} (none|{NUMBER}))+)", "recover": r"recovered executions \d+ triggers \d+", "restart": "restarted",
    "show_job": rf"job none|{JOB} data [!-~]+", "show_trigger": rf"trigger none|{TRIGGER} misfire {NUMBER} calendar [!-~]+ zone [!-~]+",
    "show_entry": rf"entry none|entry {ENTRY} job {KEY} (none|[!-~]+ data [!-~]+)", "show_next": rf"next (none|{NUMBER})",
    "checkpoint": r"checkpoint (made|no room)", "show_room": r"room triggers \d+ \d+ behind \d+ states \d+ \d+",
}
REFUSED = rf"refused (1 live (none|\d+)|11 by \d+|12 at \d+|13 entry \d+|16 owner [!-~]+ \d+|19 next {NUMBER}|21 until {NUMBER}|22 count \d+|26 last {NUMBER}|2|[3-9]|10|14|15|17|18|20|23|24|25|27|28|29)"
LISTED = [r"threshold \d+", r"zone [!-~]+ \d+", r"calendar [!-~]+ (annual|holiday|weekly|monthly|daily|cron) base [!-~]+", JOB, TRIGGER, r"paused [!-~]+",
          r"paused_jobs [!-~]+", r"member [!-~]+ \d+", rf"fired {ENTRY}", rf"state [!-~]+ last {NUMBER} interval \d+"]
WITHOUT_RECORD = {"stop", "restart", "resume", "show_job", "show_trigger", "show_entry", "show_next", "checkpoint", "show_room"}
DEFAULTS = {"group": "DEFAULT", "job_group": "DEFAULT", "durable": False, "no_concurrent": False, "requests_recovery": False, "data": "", "replace": False,
            "priority": 5, "window": 0, "max": 1, "code": "NOOP", "interval": 15000}
PARTS = {"add_job": "job", "add_trigger": "trigger", "add_calendar": "calendar"}


class Violation(Exception):
    """Something that has to hold doesn't."""


def need(holds, what):
    if not holds:
        raise Violation(what)


def printed(group, name):
    return "/".join(quote(part, safe="!\"#$&'()*+,-.:;<=>?@[\\]^_`{|}~") for part in (group, name))


@dataclasses.dataclass
class Row:
    """An entry: its node and trigger; of an execution also its job, and whether that asked for recovery then (None: not known)."""

    node: str
    trigger: str
    job: str | None = None
    asks: bool | None = None


class Judge:
    """What is known of a folder's stores: how many payloads were looked at, and how many of them are records, and what these mean."""

    def __init__(self, folder):
        self.folder, self.known, self.counts = folder, [0, 0], [0, 0]
        self.jobs, self.job_of, self.acquired, self.executing = {}, {}, {}, {}  # a job's flags; a trigger's job; entries and their rows
        self.members, self.states, self.held = {}, {}, {}  # epochs of members; last check-ins; epochs that nodes hold in this call
        self.last_entry = self.last_epoch = self.last_state_moment = 0
        self.lost = set()

    def new_records(self):
        """The records of both stores that weren't looked at yet."""
        found = []
        for place, (name, read) in enumerate(((TRIGGERS, records.of_triggers), (STATES, records.of_states))):
            try:
                payloads, _, header = journal.payloads_of(os.path.join(self.folder, name))
                need(len(payloads) >= self.known[place], f"{name} has {len(payloads)} payloads, and had {self.known[place]}")
                found.append([])
                for number, (_, payload) in list(enumerate(payloads))[self.known[place] :]:
                    if not journal.is_part(header.kind, payload):
                        found[place].append(read(payload))
                    elif payload[0] == journal.HEAD:
                        self.check_head(records.head_of(payload), number, self.counts[place] + len(found[place]))
            except (journal.Damaged, journal.NotAStore, records.BadRecord) as fault:
                raise Violation(f"{name}: {fault or 'no store'}") from None
            self.known[place], self.counts[place] = len(payloads), self.counts[place] + len(found[place])
        return found

    def check_head(self, head, payloads, entries):
        """That the head of a snapshot tells how many payloads and records come before it."""
        need((head.payloads, head.entries) == (payloads, entries), f"{payloads} payloads and {entries} records come before a snapshot, and its head is {head}")

    def take_script(self, sent, replies, clock):
        """Judges a call of script. `sent` has the lines that ask for a step, with None where it isn't known which; `clock` is when the call began and ended."""
        triggers, states = self.new_records()
        self.held = {}
        need(len(replies) <= len(sent), f"{len(replies)} replies to {len(sent)} lines")
        for asked, reply in zip(sent, replies):
            if asked is None:  # a line that was spoilt, and ends the script
                break
            self.check_form(asked, reply)
            stored = not re.match("refused|stopped", reply) and asked["do"] not in WITHOUT_RECORD
            if asked["do"] in ("join", "check_in", "forget") and (stored or (asked["do"] == "join" and "22" in reply)):
                need(states, f"{asked} was answered {reply}, and its record isn't in the state store")
                self.take_state(states.pop(0), asked, clock)
            if stored and asked["do"] not in ("check_in", "forget"):
                need(triggers, f"{asked} was answered {reply}, and its record isn't in the trigger store")
                self.take_transaction(triggers.pop(0), asked, reply, clock)
            elif reply in ("ok", "restarted") and asked["do"] in WITHOUT_RECORD:
                self.change_held(asked)
        need(len(triggers) <= 1 and len(states) <= 1, f"{len(triggers)} and {len(states)} records more than steps that were answered")
        last = sent[len(replies)] if len(replies) < len(sent) else None
        need(not (triggers or states) or len(replies) < len(sent) or None in sent, f"records without a line: {triggers} {states}")
        for record in states:
            self.take_state(record, last, clock)
        for record in triggers:
            self.take_transaction(record, last, None, clock)

    def check_form(self, asked, reply):
        if reply == "stopped":
            need(self.needs_epoch(asked), f"{asked} was answered stopped")
            need(asked["node"] not in self.held, f"{asked} was answered stopped, and the node holds epoch {self.held.get(asked['node'])}")
        elif not re.fullmatch(REFUSED, reply):
            need(re.fullmatch(FORMS.get(asked["do"], "ok"), reply), f"{asked} was answered {reply}")
            need(not self.needs_epoch(asked) or asked["node"] in self.held, f"{asked} was answered {reply}, and the node holds no epoch")

    def needs_epoch(self, asked):
        """Whether it is a step of a node that is stopped where it holds no epoch: a check-in is one, too."""
        return "node" in asked and asked["do"] not in ("join", "resume")

    def change_held(self, asked):
        if asked["do"] == "restart":
            self.held = {}
        elif asked["do"] == "stop":
            del self.held[asked["node"]]
        elif asked["do"] == "resume":
            need(self.members.get(asked["node"]) == asked["epoch"], f"{asked} was answered ok, and its member has epoch {self.members.get(asked['node'])}")
            self.held[asked["node"]] = asked["epoch"]

    def check_record(self, record, asked, clock):
        """That a record is that of a line."""
        named = asked.get(PARTS.get(asked["do"]), asked)
        for member, value in record.named.items():
            wanted = asked.get(member, named.get(member, DEFAULTS.get(member))) if member == "replace" else named.get(member, DEFAULTS.get(member))
            need(value == wanted or member == "last", f"the record of {asked} has {member} {value!r}")
        if "at" in asked:
            need(record.at == asked["at"], f"the record of {asked} has the reading {record.at}")
        else:
            need(clock[0] - CLOCK_SLACK <= record.at <= clock[1] + CLOCK_SLACK, f"the record of {asked} has the reading {record.at}, and the clock was at {clock}")

    def take_state(self, record, asked, clock=None):
        if asked is not None:
            need(record.word == ("check_in" if asked["do"] == "join" else asked["do"]), f"the record of {asked} in the state store is a {record.word}")
            self.check_record(record, asked, clock)
            need(not self.needs_epoch(asked) or asked["node"] in self.held, f"{asked} has a record, and the node holds no epoch")
        self.last_state_moment = max(self.last_state_moment, min(max(record.at, 0), LAST))
        if record.word == "check_in":
            self.states[record.named["node"]] = self.last_state_moment, record.named["interval"]
        else:
            last = self.states.pop(record.named["failed"], (None, 0))[0]
            need(last == record.named["last"], f"a forget of {record.named}, whose last check-in was at {last}")

    def take_transaction(self, record, asked, reply, clock=None):
        self.lost = set()
        if asked is not None:
            need(record.word == asked["do"], f"the record of {asked} is a {record.word}")
            self.check_record(record, asked, clock)
        if record.node is not None:
            need(self.members.get(record.node) == record.epoch, f"a {record.word} by {record.node} of epoch {record.epoch}, and its member has {self.members.get(record.node)}")
            need(asked is None or self.held.get(record.node) == record.epoch, f"a {record.word} by {record.node}, which doesn't hold epoch {record.epoch}")
        change = getattr(self, record.word, None)
        if change:
            change(record, (reply or "").split())

    # What each command changes. `reply` has the reply's words, none where it didn't come.

    def add_job(self, record, reply):
        named = record.named
        self.jobs[printed(named["group"], named["name"])] = named

    def delete_job(self, record, reply):
        self.jobs.pop(printed(record.named["group"], record.named["name"]), None)

    def add_trigger(self, record, reply):
        named = record.named
        self.job_of[printed(named["group"], named["name"])] = printed(named["job_group"], named["job"])

    def trigger_now(self, record, reply):
        if reply:
            self.job_of[reply[1]] = printed(record.named["group"], record.named["name"])
            entry = int(reply[1].rpartition("_")[2])
            need(entry > self.last_entry, f"{reply[1]}, and entry {self.last_entry} was given before")
            self.last_entry = entry

    def join(self, record, reply):
        node = record.named["node"]
        self.lose(node, reply)
        self.last_epoch += 1
        need(not reply or int(reply[1]) == self.last_epoch, f"epoch {reply[1:2]} was given after {self.last_epoch - 1}")
        self.members[node] = self.held[node] = self.last_epoch

    def leave(self, record, reply):
        need(not any(row.node == record.node for row in self.executing.values()), f"{record.node} left, and executes")
        del self.members[record.node]
        self.held.pop(record.node, None)

    def recover(self, record, reply):
        need(record.named["failed"] in self.members, f"a recovery of {record.named['failed']}, which is no member")
        self.lose(record.named["failed"], reply)
        del self.members[record.named["failed"]]

    def acquire(self, record, reply):
        if reply[1:] and reply[1] != "none":
            for entry, key in zip(map(int, reply[1::3]), reply[2::3]):
                need(entry > self.last_entry, f"entry {entry} was given after {self.last_entry}")
                self.last_entry, self.acquired[entry] = entry, Row(record.node, key)

    def fire(self, record, reply):
        entry = record.named["entry"]
        need(entry not in self.executing, f"entry {entry} fired twice")
        row = self.acquired.pop(entry, None) or Row(record.node, "")
        need(row.node == record.node, f"{record.node} fired entry {entry} of {row.node}")
        row.job = self.job_of.get(row.trigger)
        flags = self.jobs.get(row.job)
        if flags:
            row.asks = flags["requests_recovery"]
            other = [one for one, its in self.executing.items() if its.job == row.job]
            need(not (flags["no_concurrent"] and other), f"entry {entry} of {row.job} fired, which has no_concurrent, and {other} execute")
        self.executing[entry] = row

    def release(self, record, reply):
        self.acquired.pop(record.named["entry"], None)

    def complete(self, record, reply):
        entry = record.named["entry"]
        need(entry in self.executing, f"a complete of entry {entry}, which doesn't execute")
        need(self.executing[entry].node == record.node, f"a complete of entry {entry} by {record.node}")
        if record.named["code"] != "RE_EXECUTE_JOB":
            del self.executing[entry]

    def lose(self, node, reply):
        """The executions of this node end. `reply` tells how many there were, and how many recovery triggers were added."""
        lost = {entry: row for entry, row in self.executing.items() if row.node == node}
        stays = lambda row: row.job in self.jobs and self.jobs[row.job]["durable"]
        certain = sum(row.asks is True and stays(row) for row in lost.values())
        possible = sum(row.asks is not False for row in lost.values())
        if reply:
            executions, triggers = int(reply[-3]), int(reply[-1])
            need(executions == len(lost), f"{executions} executions of {node} were lost, and not {sorted(lost)}")
            need(certain <= triggers <= possible, f"{triggers} recovery triggers for {lost}: {certain} to {possible} asked")
        for entry, row in lost.items():
            self.job_of[printed("RECOVERING_JOBS", f"recover_{node}_{entry}")] = row.job
            del self.executing[entry]
        self.acquired = {entry: row for entry, row in self.acquired.items() if row.node != node}
        # those that have to be stored now, until the next transaction
        self.lost = {printed("RECOVERING_JOBS", f"recover_{node}_{entry}") for entry, row in lost.items() if row.asks is True and stays(row)}

    def take_run(self, lines):
        """Judges a call of run by the lines that it wrote: one for each record."""
        triggers, states = self.new_records()
        need(len(triggers) == len(lines), f"run wrote {len(lines)} lines and {len(triggers)} records")
        for record in states:
            self.take_state(record, None)
        for record, line in zip(triggers, lines):
            _, _, actor, word, reply = line.split(" ", 4)
            wanted = "client" if record.node is None else f"{quote(record.node)}:{record.epoch}"
            need((actor, word) == (wanted, record.word), f"run wrote {line}, and the record is a {record.word} of {wanted}")
            self.take_transaction(record, None, reply)

    def take_list(self, text):
        """Compares a list with what the records mean, and takes from it what replies that didn't come would have told."""
        rows = {}
        for line in text.splitlines():
            need(any(re.fullmatch(form, line) for form in LISTED), f"list wrote {line}")
            kind, *words = line.split(" ")
            rows.setdefault(kind, []).append(words)
        members = {unquote(node): int(epoch) for node, epoch in rows.get("member", [])}
        need(members == self.members, f"list has the members {members}, and the records {self.members}")
        states = {unquote(words[0]): (int(words[2]), int(words[4])) for words in rows.get("state", [])}
        need(states == self.states, f"list has the check-ins {states}, and the records {self.states}")
        self.job_of = {words[0]: words[2] for words in rows.get("trigger", [])}
        self.jobs = {words[0]: {name: words[place] == "1" for name, place in (("durable", 3), ("no_concurrent", 5), ("requests_recovery", 7))} for words in rows.get("job", [])}
        need(self.lost <= self.job_of.keys(), f"of the recovery triggers {self.lost} some aren't stored")
        self.check_rows(rows.get("fired", []))

    def check_rows(self, fired):
        executing, acquired = {}, {}
        for entry, node, epoch, key, state, *_ in fired:
            need(self.members.get(unquote(node)) == int(epoch), f"list has entry {entry} of {node} {epoch}, and the members {self.members}")
            (executing if state == "EXECUTING" else acquired)[int(entry)] = Row(unquote(node), key)
        need(executing.keys() == self.executing.keys(), f"list has the executions {sorted(executing)}, and the records {sorted(self.executing)}")
        for entry, row in executing.items():
            need(row.node == self.executing[entry].node, f"list has entry {entry} of {row.node}, and it was fired by {self.executing[entry].node}")
            if self.executing[entry].job is None:
                self.executing[entry] = Row(row.node, row.trigger, self.job_of.get(row.trigger))
        self.acquired = acquired
        self.last_entry = max([self.last_entry, *executing, *acquired])
        for job, flags in self.jobs.items():
            entries = [entry for entry, row in self.executing.items() if row.job == job]
            need(not flags["no_concurrent"] or len(entries) < 2, f"{job} has no_concurrent, and {entries} execute")
