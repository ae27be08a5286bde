"""A fortnight of a team that isn't there, for pictures and for what takes days to come: pages over a history that is made up, and a stand-in of the hub."""
import asyncio
import json
import random
import threading
from datetime import datetime, timedelta
from zoneinfo import ZoneInfo

from kemtrua import replies
from kemtrua.address import Address
from kemtrua.history.executions import Execution, put
from kemtrua.history.schema import opened
from kemtrua.rows import job_of

ZONE = ZoneInfo("Europe/Berlin")
MINUTE, HOUR, DAY = 60_000, 3_600_000, 86_400_000
# group/name, class, cron text, minutes that it takes, processors that it takes
JOBS = (("backup/postgres-main", "backup", "0 0 2 * * ?", 45, 2.6), ("backup/files-nas", "backup", "0 30 1 * * ?", 54, 2.4), ("backup/verify-restore", "backup", "0 27 7 * * ?", 28, 0.8),
        ("etl/warehouse-load", "etl", "0 15 2 * * ?", 39, 3.1), ("etl/orders-incremental", "etl", "0 0/15 * * * ?", 0.7, 0.3), ("etl/customer-dedup", "etl", "0 30 3 * * ?", 16, 1.0),
        ("etl/exchange-rates", "etl", "0 10 5 * * ?", 2.2, 0.2), ("report/daily-sales", "report", "0 0 6 * * ?", 3.2, 0.9), ("report/us-close", "report", "0 30 6 * * ?", 3.8, 0.9),
        ("billing/invoice-run", "billing", "0 0 3 * * ?", 22, 1.1), ("billing/reconcile-payments-with-bank-statements", "billing", "0 45 4 * * ?", 7, 0.5),
        ("ops/log-rotate", "ops", "0 5 0 * * ?", 1, 0.4), ("ops/cert-renew", "ops", "0 20 4 * * ?", 0.2, 0.1), ("ops/db-vacuum", "ops", "0 30 23 * * ?", 18, 0.7),
        ("ops/docker-prune", "ops", "0 0 22 * * ?", 9.8, 0.3), ("search/reindex-products", "search", "0 0 1 * * ?", 61, 2.2), ("search/warm-cache", "search", "0 45 6 * * ?", 4, 0.6),
        ("DEFAULT/cleanup-temp", "ops", "0 40 4 * * ?", 0.5, 0.1))
NODES = ("north", "east", "west")
OUTPUT = "Reading the sales of {day}\n  12 tables, 4.1 million rows\nWriting /srv/reports/sales-{day}.pdf\npsycopg2.OperationalError: could not connect to server: Connection refused\n"


class Sample:
    """The executions of a fortnight up to a morning, and what the hub would say then."""

    def __init__(self, folder, present):
        self.folder, self.present, self.entry, self._chance = folder, present, 1000, random.Random(7)
        self.connection = opened(folder)
        self.connection.execute("INSERT INTO stores VALUES (1, '2026-11-02T081500.000Z', 41208, 41208, 'ok', 0)")
        self.running = []
        for moment, job in sorted((moment, job) for job in JOBS for moment in self._times(job)):
            self._execute(moment, *job)
        self._say(present)

    def _times(self, job):
        """The fire times of a fortnight."""
        fields = job[2].split()
        morning = datetime.fromtimestamp(self.present / 1000, ZONE)
        for day in range(14, -1, -1):
            for step in range(96 if "/" in fields[1] else 1):
                hour, minute = (step // 4, step % 4 * 15) if "/" in fields[1] else (int(fields[2]), int(fields[1]))
                date = (morning - timedelta(days=day)).date()
                moment = round(datetime(date.year, date.month, date.day, hour, minute, tzinfo=ZONE).timestamp() * 1000)
                if moment < self.present and (job[0] not in ("DEFAULT/cleanup-temp", "ops/cert-renew") or day > 0):
                    yield moment

    def _execute(self, moment, key, klass, _, minutes, cores):
        last = moment > self.present - 10 * HOUR
        took = round(minutes * MINUTE * self._chance.uniform(0.9, 1.12))
        node, late = self._chance.choice(NODES), self._chance.randint(20, 400)
        if last and key == "backup/files-nas":
            lost = self._put(key, klass, "west", moment, late, 38 * MINUTE, "lost")
            self._put(key, klass, "east", moment, late + 42 * MINUTE, took, "done", cores, recovers=lost, trigger=f"RECOVERING_JOBS/recover_west_{lost}")
        elif last and key == "report/daily-sales":
            entry = self._put(key, klass, node, moment, late, 17 * MINUTE, "failed", 0.1, status=75, refires=3)
            self._write(entry, OUTPUT.format(day=datetime.fromtimestamp(moment / 1000, ZONE).date()))
        elif last and key in ("etl/exchange-rates", "backup/verify-restore"):
            self._put(key, klass, node, moment, late, None, "runs", most=4 * HOUR)
        elif key == "ops/cert-renew" and moment > self.present - 32 * HOUR:
            self._put(key, klass, node, moment, late, took, "failed", 0.1, status=127, code="SET_ALL_JOB_TRIGGERS_ERROR", why="its command isn't there")
        elif last and key == "etl/orders-incremental" and self._chance.random() < 0.03:
            self._put(key, klass, node, moment, late, took, "failed", cores, status=1)
        else:
            self._put(key, klass, node, moment, late, took, "done", cores)

    def _put(self, key, klass, node, moment, late, took, state, cores=1.0, trigger="", **more):
        self.entry += 1
        it = Execution(1, self.entry, trigger or f"{key}", node, key, klass, 4, moment, moment + late, None if took is None else moment + late + took, state=state)
        if state in ("done", "failed"):
            it.code, it.ok, it.status, it.cpu, it.peak, it.told = "NOOP", int(state == "done"), 0, round(cores * took), 310_000, self.present
        it.most = 2 * HOUR
        for name, value in more.items():
            setattr(it, name, value)
        put(self.connection, [it])
        if state == "runs":
            self.running.append(it)
        return self.entry

    def _write(self, entry, text):
        self.connection.execute("INSERT INTO outputs VALUES (1, ?, ?, ?, ?)", (entry, len(text), text.encode(), self.present))

    def _say(self, present):
        lines = [{"do": "add_trigger", "trigger": {"name": key.partition("/")[2], "group": key.partition("/")[0], "job": key.partition("/")[2], "job_group": key.partition("/")[0],
                                                    "kind": "cron", "cron": cron, "start": 0, "zone": "Europe/Berlin"}} for key, _, cron, _, _ in JOBS]
        from kemtrua.zones import stretches_of
        lines.insert(0, {"do": "add_zone", "name": "Europe/Berlin", "stretches": stretches_of("Europe/Berlin")})
        lines.append({"do": "pause_trigger", "name": "cleanup-temp", "group": "DEFAULT"})
        for place, line in enumerate(lines):
            who = "certificate admin, through user kemtrua-web" if line["do"] == "pause_trigger" else "certificate admin"
            self.connection.execute("INSERT INTO audit (at, who, line, reply) VALUES (?, ?, ?, 'ok')", (present - 14 * HOUR + place, who, json.dumps(line)))
        for node, workers, skew in zip(NODES, (6, 6, 6), (3, -11, 0)):
            self.connection.execute("INSERT INTO nodes VALUES (?, ?, ?, ?, ?)", (node, present, workers, 1, skew))


class StandIn:
    """A hub's answers."""

    def __init__(self, sample, program):
        self.address, self.why, self.answered = Address.parse("unix:/run/kemtrua/hub.sock"), None, sample.present
        self._sample = sample
        times = self._next(program)
        states = {"DEFAULT/cleanup-temp": "PAUSED", "ops/cert-renew": "ERROR", "etl/exchange-rates": "BLOCKED"}
        self.lines = [f"job {key} {klass} durable 1 no_concurrent 1 requests_recovery 1" for key, klass, *_ in JOBS]
        for key, *_ in JOBS:
            state = states.get(key, "WAITING")
            next_ = times[key] - DAY if state in ("PAUSED", "ERROR") else times[key]
            self.lines.append(f"trigger {key} job {key} {state} next {next_} prev none times 14 priority 5 start 0 cron")
        self.lines += [f"fired {it.entry} {it.node} 4 {it.job} EXECUTING scheduled {it.scheduled} at {it.fired}" for it in sample.running]
        for place, node in enumerate(NODES):
            self.lines += [f"member {node} {place + 3}", f"state {node} last {sample.present - 1000 * (4 * place + 3)} interval 15000"]
        self.lines.append("zone Europe/Berlin 300")

    def _next(self, program):
        from kemtrua_web.definitions import Definitions
        known = Definitions(self._sample.folder, program)
        known.learn()
        return {key: found[0] for key, found in known.times([key for key, *_ in JOBS], self._sample.present, 1).items()}

    def listed(self):
        return self.lines

    def room(self):
        return replies.Room((18_900_000, 310_000), (104_000_000, 2_600_000), 2070)

    def figures(self):
        return {"bounds": [0.0005, 0.001, 0.0025, 0.005], "within": [3000, 900, 80, 10, 4], "seconds": 1.9, "connections": 7}

    def team(self):
        return "0.4.0", "5f23c01d, generation 1"

    def show(self, key):
        return job_of([str(key), "backup", "durable", "1", "no_concurrent", "1", "requests_recovery", "1", "data", "/srv"])

    def close_connection(self):
        pass


class Pages:
    """The pages over a sample, at a moment that stands still: this morning, or another one."""

    def __init__(self, folder, program, port, morning=None):
        from kemtrua import clock
        from kemtrua_web.safety import Origins, Pace
        from kemtrua_web.server import Server
        from kemtrua_web.settings import Listening, WebSettings
        today = (morning or datetime.now(ZONE)).replace(hour=7, minute=40, second=12, microsecond=0)
        self.sample = Sample(folder, round(today.timestamp() * 1000))
        self._clock, self._real = clock, clock.now
        clock.now = lambda: self.sample.present
        self.server = Server(WebSettings(folder, Address.parse("unix:/x"), (Listening.parse(f"127.0.0.1:{port}"),), Origins.of([f"http://127.0.0.1:{port}"]), zone=ZONE,
                                         zone_name="Europe/Berlin", program=program, team="production"))
        self.server._pace = Pace(1e9, 1e9)
        self.server.site.hub = self.server.site.rows._hub = StandIn(self.sample, program)
        self._ended, self._port = threading.Event(), port
        self._begun = threading.Event()
        threading.Thread(target=lambda: asyncio.run(self._serve()), daemon=True).start()
        self._begun.wait()

    async def _serve(self):
        from aiohttp import web
        runner = web.AppRunner(self.server.application(), access_log=None)
        await runner.setup()
        await web.TCPSite(runner, "127.0.0.1", self._port).start()
        self._begun.set()
        while not self._ended.is_set():
            await asyncio.sleep(0.1)
        await runner.cleanup()

    def close(self):
        self._ended.set()
        self._clock.now = self._real
        self.server.site.close()
        self.sample.connection.close()
