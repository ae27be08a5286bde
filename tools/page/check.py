"""What has to hold of the pages, over a team at work."""
import http.client
import json
import os
import re
import subprocess
import time
from datetime import datetime, timedelta
from urllib.parse import urlencode
from zoneinfo import ZoneInfo

from kemtrua_web.safety import A_SECOND

from . import refusals
from .browser import NARROW, WIDE, Browser
from .fronts import Front, make_certificates
from .sample import Pages
from .team import HOSTILE, PRINTED, free_port, parts

ZONE = ZoneInfo("Europe/Berlin")
GROWS_WITHIN = 900  # seconds
A_PAGE, AT_ONCE = 6, 40  # requests: of a page with what belongs to it, and those made without a rest
PAGES = {"now": "/", "timeline": "/timeline", "timeline-week": "/timeline?by=node&span=week", "jobs": "/jobs", "job": "/job?group=ops&name=poll",
         "executions": "/executions", "store": "/store"}


class Checks:
    """One browser, the pages for everybody, and the pages as an operator and as a viewer see them."""

    def __init__(self, team, short, pictures):
        self.team, self.short, self.pictures = team, short, pictures
        self.passed = self.failed = 0
        self.browser = None
        self._free = 0.0  # when the pages have answered all that was asked for, at the pace that is kept

    def that(self, holds, what, why=""):
        self.passed, self.failed = self.passed + bool(holds), self.failed + (not holds)
        print(f"{'ok' if holds else 'FAILED'}  {what}" + (f": {why}" if why and not holds else ""), flush=True)

    def equal(self, one, two, what):
        self.that(one == two, what, f"{str(one)[:600]} is not {str(two)[:600]}")

    def begin(self):
        self.port = self.team.start_web()
        tls = make_certificates(self.team.folder)
        self.admin, self.viewer = Front(self.team.folder, "admin"), Front(self.team.folder, "viewer")
        words = ["--listen", "tls:127.0.0.1:PORT", *tls, "--operator", "admin", "--origin", self.admin.origin, "--origin", self.viewer.origin]
        port = self.team.start_web(*words, name="web-tls")
        for front in (self.admin, self.viewer):
            front.begin(port)
        self.browser = Browser()

    def close(self):
        if self.browser is not None:
            self.browser.close()

    def run(self):
        self.begin()
        self.facts_of_now()
        self.facts_of_executions()
        self.facts_of_each_execution()
        self.facts_of_jobs()
        self.facts_of_the_store()
        self.metrics()
        self.forms()
        self.keys()
        self.actions()
        refusals.run(self)
        self.output_grows()
        self.made_up()

    # -- what is read

    def _keep_pace(self, requests):
        """Rests where the pages, which answer an address so many times a second, would put a request off: a fast machine asks more often than anybody by hand."""
        present, pace = time.monotonic(), 0.75 * A_SECOND
        self._free = max(self._free, present) + requests / pace
        time.sleep(max(0.0, self._free - present - AT_ONCE / pace))

    def open(self, path, port=None):
        self._keep_pace(A_PAGE)
        self.browser.get(f"http://127.0.0.1:{port or self.port}{path}")

    def text(self, selector):
        return self.browser.run("const at = document.querySelector(arguments[0]); return at ? at.textContent.replace(/\\s+/g, ' ').trim() : null", selector)

    def texts(self, selector):
        return self.browser.run("return [...document.querySelectorAll(arguments[0])].map((at) => at.textContent.replace(/\\s+/g, ' ').trim())", selector)

    def rows(self, table):
        script = "return [...document.querySelectorAll(arguments[0] + ' tbody tr')].map((row) => [...row.cells].map((at) => at.textContent.replace(/\\s+/g, ' ').trim()))"
        return self.browser.run(script, table)

    def ask(self, method, path, body=None, port=None, **headers):
        """An answer as it comes, without a browser: status, headers and body."""
        self._keep_pace(1)
        return self.ask_at_once(method, path, body, port, **headers)

    def ask_at_once(self, method, path, body=None, port=None, **headers):
        connection = http.client.HTTPConnection("127.0.0.1", port or self.port, timeout=60)
        given = {name.replace("_", "-"): value for name, value in headers.items()}
        connection.request(method, path, body=body, headers=given)
        answer = connection.getresponse()
        found = answer.status, answer.headers, answer.read()
        connection.close()
        return found

    # -- facts

    def facts_of_now(self):
        self.open("/")
        night = datetime.now(ZONE).replace(hour=18, minute=0, second=0, microsecond=0) - timedelta(days=1)
        found = [one for one in self.team.history() if one["fired"] >= night.timestamp() * 1000]
        for state, name in (("failed", "failed"), ("lost", "lost"), ("done", "done"), ("runs", "executing")):
            self.equal(self.text(f"#n-{name}"), str(sum(one["state"] == state for one in found)), f"Now counts what is {name} as `kemtrua history`")
        last = self.team.told("last")
        look = [one["job"] for one in last if one["last"] and one["last"]["state"] in ("failed", "missing") or any("is in ERROR" in note for note in one["notes"])]
        self.equal(sorted(self.texts(".look:not(.quiet) .w-job")), sorted(look), "Now has the jobs that `kemtrua last` has in trouble")
        ran = {row[1].split(" recovery")[0].split(" 1 retry")[0].split(" 2 retries")[0] for row in self.rows(".ran")}
        ran = {re.sub(r" \d+ times$", "", name) for name in ran}
        self.equal({name.replace(" ", "") for name in ran}, {shown(one["job"]).replace(" ", "") for one in found}, "Now has each job that ran")
        self.equal(len(self.texts(".nodes li")), len(self.team.told("nodes")), "Now has each node")

    def facts_of_executions(self):
        self.open("/executions?since=7d")
        told = self.team.history()
        rows = self.rows(".last")
        self.equal([int(row[1]) for row in rows], [one["entry"] for one in told[:50]], "Executions has the entries of `kemtrua history`, in its order")
        states = {"runs": "executing"}
        self.equal([re.split(r" \d| recovery", row[0])[0] for row in rows], [states.get(one["state"], one["state"]) for one in told[:50]], "and their states")
        self.equal([row[6] for row in rows], [one["node"] for one in told[:50]], "and their nodes")
        self.equal([row[7] for row in rows], [str(one.get("status", "–")) if "signal" not in one else f"signal {one['signal']}" for one in told[:50]], "and their exit statuses")
        self.equal({int(row[1]) for row in rows}, self.fired_of_the_store(), "and they are those that `qz_sched history` has as fired")
        self.open("/executions?since=7d&result=failed")
        self.equal([int(row[1]) for row in self.rows(".last")], [one["entry"] for one in told if one["state"] == "failed"], "what failed is listed alone")
        self.open("/executions?since=7d&job=report/daily-sales")
        self.equal([int(row[1]) for row in self.rows(".last")], [one["entry"] for one in told if one["job"] == "report/daily-sales"], "and those of one job")

    def fired_of_the_store(self):
        """The entries that the store's own history has as fired, read anew."""
        from kemtrua.history.filling import Copy
        copy = Copy(os.path.join(self.team.home, "current"), self.team.program)
        try:
            return {int(it.reply.split()[1]) for it in copy.history(0) if it.reply.startswith("fired ")}
        finally:
            copy.close()

    def facts_of_each_execution(self):
        told = self.team.history()
        chosen = {one["state"]: one for one in told}  # the first of each state
        chosen["recovery"] = next(one for one in told if "recovers" in one)
        chosen["again"] = next(one for one in told if one["refires"])
        for state, one in chosen.items():
            self.open(f"/execution/{one['entry']}")
            facts = dict(zip(self.texts(".facts .kv dt"), self.texts(".facts .kv dd")))
            expected = {"Node": f"{one['node']} epoch {one['epoch']}", "Class": one["class"], "Retries": str(one["refires"])}
            expected["Code"] = one.get("code", "none")
            self.equal({name: facts.get(name) for name in expected}, expected, f"an execution's facts ({state})")
            lines = subprocess.run([*self.client_words(), "log", str(one["entry"]), "--json"], env=self.environment(), capture_output=True, text=True).stdout
            import base64
            data = base64.b64decode(json.loads(lines)[0]["data"]).decode()
            shown_lines = self.texts(".out .ln")
            self.equal([line for line in shown_lines if "end" not in line], [" ".join(line.split()) for line in data.splitlines() if not line.endswith(" end")],
                       f"and its output ({state})")
            self.that(PRINTED in shown_lines or not shown_lines, f"scripts in it are text ({state})", str(shown_lines))
        lost = next(one for one in told if one["state"] == "lost")
        self.open(f"/execution/{lost['entry']}")
        self.equal(self.texts(".chain a")[:2], [str(lost["entry"]), str(chosen["recovery"]["entry"])], "the chain of a lost execution leads to the one that made up for it")

    def client_words(self):
        return ["python3", "-m", "kemtrua.cli.client", "--hub", self.team.hub]

    def environment(self):
        from . import CLIENT
        return {**os.environ, "PYTHONPATH": CLIENT}

    def facts_of_jobs(self):
        last = {one["job"]: one for one in self.team.told("last")}
        self.open("/jobs")
        rows = {row[1]: row for row in self.rows(".jobs")}
        self.equal(sorted(rows), sorted(shown(job) for job in last), "Jobs has each job of `kemtrua last`")
        states = {"runs": "executing"}
        for job, one in last.items():
            state = states.get(one["last"]["state"], one["last"]["state"]) if one["last"] else "never fired"
            self.that(rows[shown(job)][3].startswith(state), f"and its last result ({job[:20]})", rows[shown(job)][3])
        self.open("/jobs?q=CERT")
        self.equal([row[1] for row in self.rows(".jobs")], ["ops/cert-renew"], "a search finds a job by a part of its name")
        entry = min(one["entry"] for one in self.team.history())  # (1 may be one that was given back)
        self.open(f"/jobs?q={entry}")
        self.that(self.text("h1").startswith(f"Execution {entry} "), "a number in the search goes to that execution", self.text("h1"))
        self.open("/jobs?state=look")
        self.that("ops/cert-renew" in [row[1] for row in self.rows(".jobs")], "those to look at are listed alone")
        triggers = {f"{row['group']}/{row['name']}": row for row in self.team.told("list", "triggers")}
        self.open("/job?group=ops&name=poll")
        self.equal(self.text(".trig .say"), "At 02:30 each day, Europe/Berlin", "a cron text in words")
        times = self.browser.run("return [...document.querySelectorAll('.ten time')].map((at) => Date.parse(at.dateTime))")
        self.that(len(times) == 10 and times[0] == triggers["ops/cron"]["next"], "the next ten times, of which the first is the store's", f"{times} {triggers['ops/cron']['next']}")
        self.that(all(datetime.fromtimestamp(at / 1000, ZONE).strftime("%H:%M") == "02:30" for at in times), "each at 02:30 by its own clock", str(times))
        self.open("/job?" + urlencode({"group": "x&y", "name": HOSTILE}))
        self.equal(self.text("h1"), " ".join(HOSTILE.split()), "a job's name is text, whatever it is")

    def facts_of_the_store(self):
        audit = self.team.told("audit")
        self.open("/store")
        shown_lines = [row[2].removesuffix(" …") for row in self.rows(".audit")]
        self.equal(shown_lines[:10], [" ".join(one["line"][:300].split()) for one in audit[:10]], "the audit of `kemtrua audit`")
        nodes = {row[0]: row for row in self.rows(".nodes")}
        self.equal(sorted(nodes), sorted(one["node"] for one in self.team.told("nodes")), "the nodes of `kemtrua nodes`")
        counts = {row[0]: row[1] for row in self.rows(".plain")}
        self.equal((counts["jobs"], counts["triggers"]), (str(len(self.team.told("list", "jobs"))), str(len(self.team.told("list", "triggers")))), "how many rows there are")

    def metrics(self):
        status, headers, body = self.ask("GET", "/metrics", Host=f"127.0.0.1:{self.port}")
        text = body.decode()
        self.that(status == 200 and headers["Content-Type"].startswith("text/plain"), "metrics are told", str(status))
        checked = subprocess.run(["promtool", "check", "metrics"], input=text, capture_output=True, text=True) if _has("promtool") else None
        if checked is not None:
            self.that(checked.returncode == 0, "promtool takes them", checked.stdout + checked.stderr)
        values = dict(line.rsplit(" ", 1) for line in text.splitlines() if line and not line.startswith("#"))
        self.equal(float(values["kemtrua_executing"]), 1.0, "what executes, as `kemtrua history`")
        self.equal(float(values["kemtrua_jobs"]), float(len(self.team.told("list", "jobs"))), "how many jobs there are")
        self.equal(float(values.get('kemtrua_triggers_by_state{state="ERROR"}', 0)), 1.0, "and triggers in ERROR")
        self.that(not any(job in text for job in ("daily-sales", "warm-cache", "script")), "no label is a job's name")

    # -- forms, keys

    def forms(self):
        """Each page wide and narrow, light and dark: no wider than the window, with WCAG's contrast, without a complaint of the browser."""
        told = self.team.history()
        pages = {**PAGES, "execution": f"/execution/{next(one['entry'] for one in told if one['state'] == 'lost')}", "no-such-page": "/nothing"}
        forms = [(WIDE, False), (NARROW, True)] if self.short else [(WIDE, False), (WIDE, True), (NARROW, False), (NARROW, True)]
        self.browser.complaints()
        for width, dark in forms:
            self.browser.form(width, dark)
            form = f"{'wide' if width == WIDE else 'narrow'}-{'dark' if dark else 'light'}"
            wrong = []
            for name, path in pages.items():
                self.open(path)
                wrong += [f"{name}: {self.browser.overflow()} pixels too wide"] if self.browser.overflow() > 0 else []
                wrong += [f"{name}: {text}" for text in self.browser.contrasts()]
                wrong += [f"{name}: {text}" for text in self.browser.complaints() if "404" not in text]
                wrong += [f"{name}: a script ran"] if self.browser.run("return document.title") in ("taken", "777") else []
                wrong += [f"{name}: foreign marks"] if self.browser.run("return document.querySelectorAll('main script, main img, main b b').length") else []
                if self.pictures:
                    self.browser.picture(os.path.join(self.pictures, f"{name}-{form}.png"))
            self.that(not wrong, f"each page, {form}: fits, is read well, and runs nothing", str(wrong[:8]))
        self.browser.form(WIDE, False)

    def keys(self):
        """Tab reaches each link and field of a page; `/` finds, and `g` goes."""
        from selenium.webdriver.common.action_chains import ActionChains
        from selenium.webdriver.common.keys import Keys
        for path in ("/", "/jobs", "/job?group=ops&name=poll"):
            self.open(path)
            wanted = self.browser.run("let n = 0; for (const at of document.querySelectorAll('a[href], button, input:not([type=hidden]), select, [tabindex=\"0\"]')) "
                                      "if (at.getAttribute('tabindex') !== '-1' && at.getClientRects().length) at.dataset.wanted = n++; return n")
            for _ in range(wanted + 5):
                ActionChains(self.browser.driver).send_keys(Keys.TAB).perform()
                self.browser.run("document.activeElement.dataset.reached = 1")
            missed = self.browser.run("return [...document.querySelectorAll('[data-wanted]:not([data-reached])')].map((at) => at.outerHTML.slice(0, 80))")
            self.that(wanted > 5 and not missed, f"Tab reaches all {wanted} links and fields of {path}", str(missed[:5]))
        self.open("/")
        ActionChains(self.browser.driver).send_keys("/").perform()
        self.equal(self.browser.run("return document.activeElement.id"), "q", "/ goes to the search")
        ActionChains(self.browser.driver).send_keys("warm", Keys.ENTER).perform()
        self.team.wait(lambda: "/jobs" in self.browser.driver.current_url, "the search")
        self.equal([row[1] for row in self.rows(".jobs")], ["search/warm-cache"], "and finds by Enter")
        ActionChains(self.browser.driver).send_keys("g").send_keys("s").perform()
        self.team.wait(lambda: self.browser.driver.current_url.endswith("/store"), "the store's page by keys")
        self.that(True, "g and s go to the store's page")

    # -- actions

    def press(self, words):
        """Goes to a link or button by its words, and presses Enter."""
        from selenium.webdriver.common.keys import Keys
        found = [at for at in self.browser.driver.find_elements("css selector", "main a.btn, main button") if at.text.strip() == words]
        if not found:
            return False
        found[0].send_keys(Keys.ENTER)
        return True

    def act(self, job, words, button):
        """Asks for an action, and presses its button."""
        self.open(f"/job?{urlencode({'group': parts(job)['group'], 'name': parts(job)['name']})}", self.admin.port)
        if not self.press(words):
            return False
        self.team.wait(lambda: "/job/ask" in self.browser.driver.current_url, f"{words} asks once more")
        self.token = self.browser.run("return document.querySelector('[name=token]').value")
        pressed = self.press(button)
        self.team.wait(lambda: "was=" in self.browser.driver.current_url or "/do/" in self.browser.driver.current_url, f"{button} was pressed")
        return pressed

    def audit(self):
        return [(one["who"], json.loads(one["line"])["do"]) for one in reversed(self.team.told("audit"))]

    def actions(self):
        who, before, counted = "certificate admin, through user root", self.audit(), self.counter("kemtrua_firings_total")
        total = len(self.team.history())
        count = sum(one["job"] == "search/warm-cache" for one in self.team.history())
        self.that(self.act("search/warm-cache", "Fire now…", "Fire now"), "an operator fires a job by keys alone")
        self.team.wait(lambda: sum(one["job"] == "search/warm-cache" and one["state"] == "done" for one in self.team.history()) > count, "the execution")
        used = self.token
        status, _, _ = self.ask("POST", "/do/fire", urlencode({"group": "search", "name": "warm-cache", "token": used}), self.admin.port, Origin=self.admin.origin,
                                Host=f"127.0.0.1:{self.admin.port}", Content_Type="application/x-www-form-urlencoded")
        self.equal(status, 403, "its button works once")
        state = lambda: {f"{row['group']}/{row['name']}": row["state"] for row in self.team.told("list", "triggers")}  # noqa: E731
        self.act("ops/poll", "Pause…", "Pause")
        self.equal(state()["ops/cron"], "PAUSED", "an operator pauses a job's triggers")
        self.that("paused" in (self.text(".figures dd") or ""), "which its page shows at once", self.text(".figures dd"))
        self.act("ops/poll", "Resume…", "Resume")
        self.equal(state()["ops/cron"], "WAITING", "and resumes them")
        self.equal(state()["ops/cert-renew"], "ERROR", "a trigger is in ERROR")
        self.act("ops/cert-renew", "Reset…", "Reset")
        self.that(state().get("ops/cert-renew") != "ERROR", "and an operator resets it")
        self.equal(self.audit()[len(before):], [(who, "trigger_now"), (who, "pause_trigger"), (who, "resume_trigger"), (who, "reset_trigger")],
                   "each stands in the audit once, under the viewer's name")
        self.equal(sum(one["job"] == "search/warm-cache" for one in self.team.history()), count + 1, "and it fired once")
        self.equal(self.counter("kemtrua_firings_total") - counted, len(self.team.history()) - total, "and metrics count each firing since then")
        by = self.team.told("audit", "--by", "admin")
        self.equal(len(by), 4, "`kemtrua audit --by admin` has them")

    def counter(self, name):
        """The sum of a counter over its labels."""
        text = self.ask("GET", "/metrics", Host=f"127.0.0.1:{self.port}")[2].decode()
        return sum(float(line.rsplit(" ", 1)[1]) for line in text.splitlines() if line.startswith((f"{name} ", f"{name}{{")))

    def made_up(self):
        """Over a fortnight that is made up: heavy jobs that meet at night, a turn of the clock, and a page for each state."""
        folder, port = os.path.join(self.team.folder, "made-up"), free_port()
        os.mkdir(folder)
        pages = Pages(folder, self.team.program, port, datetime(2026, 10, 25, tzinfo=ZONE))
        try:
            self.open("/timeline", port)
            pairs = [row[0] for row in self.rows(".meet")]
            self.that(any("postgres-main and etl/warehouse-load" in pair for pair in pairs), "a night at which two heavy jobs meet is told", str(pairs))
            self.that(self.browser.run("return document.querySelectorAll('rect.meet').length") > 4, "and seen: both have a line where they do")
            self.that("02:00 to 03:00 comes twice" in (self.text(".lanes") or ""), "a turn of the clock is marked on the timeline")
            self.open("/", port)
            self.that("02:00 to 03:00 comes twice" in (self.text(".night") or ""), "and on Now")
            self.equal(self.text("h1"), "3 jobs need a look", "jobs that need a look are counted")
        finally:
            pages.close()
        pages = Pages(_made(folder, "before"), self.team.program, port := free_port(), datetime(2026, 10, 24, tzinfo=ZONE))
        try:
            self.open("/job?group=backup&name=postgres-main", port)
            self.equal(self.texts(".ten .turnrow"), ["⇄The clock turns before this: from CEST to CET"], "where the clock turns between two of the next ten times, that is said")
            self.that(len(self.texts(".ten li:not(.turnrow)")) == 10, "beside ten times", str(self.texts(".ten li")))
        finally:
            pages.close()

    def output_grows(self):
        """An execution's page shows what comes while somebody looks, and its end."""
        entry = next(one["entry"] for one in self.team.history() if one["state"] == "runs")
        self.open(f"/execution/{entry}")
        self.that("got it" not in (self.text("main") or ""), "an execution that hangs is looked at")
        with open(os.path.join(self.team.folder, "let-go"), "w"):
            pass
        until = time.monotonic() + GROWS_WITHIN
        while time.monotonic() < until and not ("got it" in self.texts(".out .ln") and "done" in (self.text("h1") or "")):
            time.sleep(1)
        self.that("got it" in self.texts(".out .ln"), "its output grows on the page while it is looked at", str(self.texts(".out .ln")))
        self.that("done" in (self.text("h1") or ""), "and its end comes", str(self.text("h1")))


def _made(folder, name):
    path = os.path.join(folder, name)
    os.mkdir(path)
    return path


def shown(key):
    """A job's key as pages show it, from how replies print it."""
    from kemtrua.names import Key
    found = Key.of_word(key)
    return " ".join(f"{found.group}/{found.name}".split())


def _has(program):
    import shutil
    return shutil.which(program) is not None
