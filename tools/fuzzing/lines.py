"""Random lines of a script: those that ask for steps, on few names so that they meet, and bad ones with the fault that each has."""
import json
import time

JOB_GROUPS, GROUPS = ["DEFAULT", "g é/%"], ["DEFAULT", "g", "MANUAL_TRIGGERS", "RECOVERING_JOBS"]
NODES = ["A", "B", "C", "n é"]
CODES = ["NOOP"] * 6 + ["RE_EXECUTE_JOB", "SET_TRIGGER_COMPLETE", "DELETE_TRIGGER", "SET_ALL_JOB_TRIGGERS_COMPLETE", "SET_TRIGGER_ERROR", "SET_ALL_JOB_TRIGGERS_ERROR"]
CRONS = ["0 * * * * ?", "0 0/5 * ? * MON-FRI", "0 30 2 L-1 * ?", "0 0 12 ? * 6#5 2024-2199", "*/7 * * LW * ?"]
UNITS = ["SECOND", "MINUTE", "HOUR", "DAY", "WEEK", "MONTH", "YEAR"]
BAD_LINES = [
    (b'{"do":"fire","node":"A"', "not JSON"), (b"\xff\xfe", "not JSON"), (b"[" * 128 + b"]" * 128, "not JSON"), (b'{"do":1e999}', "not JSON"),
    (b"[" * 127 + b"]" * 127, "not a step"), (b'{"do":"fire","node":"A"}', "not a step"), (b'{"do":"nothing"}', "not a step"), (b"{}", "not a step"),
    (b'{"do":"fire","node":"A","entry":1.0}', "not a step"), (b'{"do":"fire","node":"A","entry":-0}', "not a step"), (b'{"do":"show_next","at":1}', "not a step"),
    (b'{"do":"join","node":""}', "not a step"), (b'{"do":"show_job","name":"' + b"n" * 201 + b'"}', "not a step"), (b'{"do":"stop","node":null}', "not a step"),
    (b'{"do":"acquire","node":"A","no_later":0,"max":65}', "not a step"), (b'{"do":"threshold","ms":0}', "not a step"), (b" " * 65537, "too long"),
    (b'{"do":"fire","node":"A","entry":18446744073709551616}', "not a step"), (b'{"do":"show_entry","entry":' + b"1" * 400 + b"}", None),
    *[(b'{"do":"add_trigger","trigger":{"name":"t","job":"j","start":0,"kind":"cron","cron":"%s"}}' % text, f"bad cron {number}")
      for text, number in ((b"x", 1), (b"0 0 0 1 * 1", 4), (b"0 0 0 ? * ?", 5), (b"0 0 25 * * ?", 3), (b"0 0/60 * * * ?", 6), (b"0 0 0 L,1 * ?", 7))],
]


class Seen:
    """What lines may name so that they are about something: epochs that nodes hold, entries and their nodes, members. It may be wrong."""

    def __init__(self):
        self.begin({}, {}, {}, 0)

    def begin(self, members, acquired, executing, last_entry):
        """A new call begins, on stores that have these."""
        self.held, self.members, self.acquired, self.executing, self.last_entry = {}, members, acquired, executing, last_entry

    def expect(self, asked):
        """Guesses what the reply will be."""
        if asked["do"] == "join":
            return f"joined {max([0, *self.members.values()]) + 1}"
        if asked["do"] == "acquire":
            return f"acquired {self.last_entry + 1} k 0"
        return {"fire": "fired", "complete": "completed"}.get(asked["do"], "ok")

    def take(self, asked, reply):
        word, *rest = reply.split()
        node, entry = asked.get("node"), asked.get("entry")
        if word == "joined":
            self.held[node] = self.members[node] = int(rest[0])
        elif word == "acquired" and rest[0] != "none":
            self.acquired.update({int(one): node for one in rest[::3]})
            self.last_entry = max(self.acquired)
        elif word == "fired":
            self.acquired.pop(entry, None)
            self.executing[entry] = node
        elif word == "completed":
            self.executing.pop(entry, None)
        elif word == "restarted":
            self.held = {}
        elif word == "ok" and asked["do"] in ("stop", "leave"):
            self.held.pop(node, None)
        elif word == "ok" and asked["do"] == "resume":
            self.held[node] = asked["epoch"]
        elif word == "ok" and asked["do"] == "release":
            self.acquired.pop(entry, None)


class Lines:
    """What is drawn next, over what was seen of the stores."""

    def __init__(self, chance):
        self.chance, self.seen, self.now = chance, Seen(), 1704067200000

    def draw(self):
        """A line without its line feed, what it asks for (None if that isn't known), and the fault that it must have: a text, "" for none, None for any."""
        lot = self.chance.random()
        if lot < 0.005:
            bad, fault = self.chance.choice(BAD_LINES)
            return bad, None, fault
        if lot < 0.02:
            return self.chance.choice([b"", b"  \t", b"\r"]), None, ""
        asked = self.step()
        data = json.dumps(asked, ensure_ascii=self.chance.random() < 0.5).encode()
        if lot < 0.023:
            place = self.chance.randrange(len(data))
            return data[:place] + bytes([self.chance.randrange(256)]).replace(b"\n", b" ") + data[place + 1 :], None, None
        return data, asked, ""

    def step(self):
        makers = [(self.job, 4), (self.trigger, 9), (self.calendar, 1), (self.zone, 1), (self.of_key, 5), (self.of_group, 2), (self.of_name, 1), (self.threshold, 1),
                  (self.join, 4), (self.check_in, 3), (self.acquire, 16), (self.entry, 26), (self.of_node, 5), (self.of_two, 5), (self.resume, 2), (self.show, 4)]
        (make,) = self.chance.choices([one for one, _ in makers], [weight for _, weight in makers])
        asked = make()
        if not asked["do"].startswith(("show", "resume")) or asked["do"] in ("resume_trigger", "resume_group", "resume_job_group"):
            self.pass_time()
            if self.chance.random() < 0.999:
                asked["at"] = self.now + self.chance.choice([-5000, 0, 0, 0])
            else:  # the clock is read
                self.now = max(self.now, int(time.time() * 1000))
        return asked

    def pass_time(self):
        self.now += self.chance.choice([0, 0, 0, 1, 100, 1000, 5000]) if self.chance.random() < 0.97 else self.chance.choice([30000, 90000, 3600000])

    def of(self, *words):
        return self.chance.choice(words)

    def name(self, letter, count):
        return f"{letter}{self.chance.randrange(count)}"

    def flags(self, *names):
        return {name: self.chance.random() < 0.5 for name in names if self.chance.random() < 0.8}

    def job(self):
        job = {"name": self.name("j", 6), "class": self.of("ok", "fail", "last", "again", "é"), "group": self.of(*JOB_GROUPS), **self.flags("durable", "no_concurrent", "requests_recovery")}
        if self.chance.random() < 0.1:
            job["data"] = "d" * self.of(0, 1, 4096)
        return {"do": "add_job", "job": job, **self.flags("replace")}

    def trigger(self):
        start = self.now + self.chance.randrange(-90000, 60000)
        trigger = {"name": self.name("t", 12), "group": self.of(*GROUPS[:2], *GROUPS), "job": self.name("j", 6), "job_group": self.of(*JOB_GROUPS), "start": start}
        if self.chance.random() < 0.3:
            trigger["priority"] = self.chance.randrange(-3, 9)
        if self.chance.random() < 0.1:
            trigger["calendar"] = self.name("c", 3)
        if self.chance.random() < 0.2:
            trigger["end"] = start + self.chance.randrange(600000)
        return {"do": "add_trigger", "trigger": {**trigger, **self.kind()}, **self.flags("replace")}

    def kind(self):
        kind, misfire = self.of("simple", "simple", "simple", "cron", "interval", "daily"), {"misfire": self.chance.randrange(-1, 3)}
        if kind == "simple":
            return {"kind": kind, **misfire, **self.of({}, {}, {"interval": 1000, "count": 5}, {"interval": 20000, "count": -1})}
        zone = {"zone": self.name("z", 2)} if self.chance.random() < 0.2 else {}
        if kind == "cron":
            return {"kind": kind, **misfire, **zone, "cron": self.of(*CRONS)}
        if kind == "interval":
            return {"kind": kind, **misfire, **zone, "unit": self.of(*UNITS), "every": self.of(1, 2, 30, 2147483647), **self.flags("preserveHourOfDay", "skipDayIfHourDoesNotExist")}
        return {"kind": kind, **misfire, **zone, "unit": self.of(*UNITS[:3]), "every": self.of(1, 24), "from": "08:00:00", "days": [2, 3]}

    def calendar(self):
        kinds = [("annual", {"days": [[12, 25], [2, 29]]}), ("holiday", {"dates": ["2024-01-01"]}), ("weekly", {}), ("monthly", {"days": [31]}),
                 ("daily", {"from": 0, "to": 1000}), ("cron", {"cron": "0 0 3 * * ?"})]
        kind, rest = self.of(*kinds)
        base = {"base": self.name("c", 3)} if self.chance.random() < 0.4 else {}
        return {"do": "add_calendar", "calendar": {"name": self.name("c", 3), "kind": kind, **base, **rest}, **self.flags("replace")}

    def zone(self):
        table = self.of({"rule": "CET-1CEST,M3.5.0,M10.5.0/3"}, {"stretches": [[0, 3600], [1711846800000, 7200]]})
        return {"do": "add_zone", "name": self.name("z", 2), **table}

    def of_key(self):
        word = self.of("delete_job", "trigger_now", "trigger_now", "delete_trigger", "pause_trigger", "resume_trigger", "reset_trigger")
        if word in ("delete_job", "trigger_now"):
            return {"do": word, "name": self.name("j", 6), "group": self.of(*JOB_GROUPS)}
        if self.seen.executing and self.chance.random() < 0.2:
            entry = self.of(*self.seen.executing)
            return {"do": word, "group": GROUPS[3], "name": f"recover_{self.seen.executing[entry]}_{entry}"}
        return {"do": word, "name": self.name("t", 12), "group": self.of(*GROUPS[:2])}

    def of_group(self):
        word = self.of("pause_group", "resume_group", "resume_group", "pause_job_group", "resume_job_group", "resume_job_group")
        return {"do": word, "group": self.of(*(JOB_GROUPS if "job" in word else GROUPS))}

    def of_name(self):
        word, letter = self.of(("delete_calendar", "c"), ("delete_zone", "z"))
        return {"do": word, "name": self.name(letter, 3)}

    def threshold(self):
        return {"do": "threshold", "ms": self.of(1000, 60000, 86400000)}

    def join(self):
        return {"do": "join", "node": self.of(*NODES), "interval": self.of(1000, 15000)}

    def check_in(self):
        return {"do": "check_in", "node": self.node(), "interval": self.of(1, 15000)}

    def node(self):
        return self.of(*(list(self.seen.held) or NODES)) if self.chance.random() < 0.95 else self.of(*NODES)

    def acquire(self):
        return {"do": "acquire", "node": self.node(), "no_later": self.now + self.of(0, 1000), "window": self.of(0, 5000), "max": self.of(1, 1, 4, 64)}

    def entry(self):
        """A fire, a complete or a release, mostly of what was acquired or executes, and by its node."""
        word, held = self.of("fire", "fire", "complete", "complete", "release"), self.seen.held
        rows = self.seen.executing if word == "complete" else self.seen.acquired
        mine = [entry for entry, node in rows.items() if node in held]
        if mine and self.chance.random() < 0.93:
            entry = self.of(*mine)
            node = rows[entry]
        else:
            entry, node = max(0, self.seen.last_entry + self.chance.randrange(-6, 3)), self.node()
        return {"do": word, "node": node, "entry": entry, **({"code": self.of(*CODES)} if word == "complete" and self.chance.random() < 0.6 else {})}

    def of_node(self):
        word = self.of("misfires", "misfires", "misfires", "leave", "stop") if self.chance.random() < 0.95 else "restart"
        return {"do": word} if word == "restart" else {"do": word, "node": self.node()}

    def of_two(self):
        return {"do": self.of("recover", "recover", "recover", "forget"), "node": self.node(), "failed": self.of(*NODES)}

    def resume(self):
        node = self.of(*(list(self.seen.members) or NODES))
        return {"do": "resume", "node": node, "epoch": self.seen.members.get(node, 1) if self.chance.random() < 0.9 else 1}

    def show(self):
        word = self.of("show_job", "show_trigger", "show_entry", "show_next", "show_room", "checkpoint")
        rest = {"show_job": {"name": self.name("j", 6)}, "show_trigger": {"name": self.name("t", 12)}, "show_entry": {"entry": self.seen.last_entry}, "show_next": {}, "show_room": {}, "checkpoint": {}}
        return {"do": word, **rest[word]}
