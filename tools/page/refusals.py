"""What the pages refuse: those who may only look, other origins, forged hosts, paths that climb, long and many requests."""
import functools
import http.server
import os
import socket
import threading
import time
from urllib.parse import urlencode

from kemtrua_web.safety import A_SECOND, AT_ONCE

FORM = "application/x-www-form-urlencoded"
SECRETS = ("root:", "PRIVATE KEY", "Traceback")
CLIMBING = ("/../../../../etc/passwd", "/%2e%2e/%2e%2e/etc/passwd", "/output/../../etc/passwd", "/page.css/../../server.py", "/static/page.css", "/output/1%2f..%2f..%2fetc",
            "/execution/1;ls", "/execution/99999999999999999999", "/output/-1", "//etc/passwd", "/job?group=../..&name=../../etc/passwd")
FOREIGN = """<!doctype html><title>elsewhere</title><form method="post" action="{origin}/do/fire"><input name="group" value="ops"><input name="name" value="poll">
<input name="token" value="{token}"></form><script>document.forms[0].submit()</script>"""


def run(checks):
    lines = len(checks.audit())
    _without_rights(checks)
    _from_elsewhere(checks)
    _forged(checks)
    _climbing(checks)
    _behind_a_proxy(checks)
    checks.equal(len(checks.audit()), lines, "nothing of all that was done")
    _many(checks)


def _without_rights(checks):
    for who, port, origin in (("a viewer's certificate", checks.viewer.port, checks.viewer.origin), ("the port of this machine", checks.port, f"http://127.0.0.1:{checks.port}")):
        checks.open("/job?group=ops&name=poll", port)
        offered = checks.texts("main .acts, main form")
        checks.that(not offered and "Fire now" not in checks.text("main"), f"no action is offered to {who}", str(offered))
        host = f"127.0.0.1:{port}"
        checks.equal(checks.ask("GET", "/job/ask?do=fire&group=ops&name=poll", port=port, Host=host)[0], 403, f"nor may {who} ask for one")
        body = urlencode({"group": "ops", "name": "poll", "token": "x"})
        checks.equal(checks.ask("POST", "/do/fire", body, port, Host=host, Origin=origin, Content_Type=FORM)[0], 403, f"nor do one ({who})")


def _fresh_token(checks):
    checks.open("/job/ask?do=fire&group=ops&name=poll", checks.admin.port)
    has_one = lambda: checks.browser.run("return document.querySelector('[name=token]') !== null")
    checks.team.wait(has_one, "a button and its token")
    return checks.browser.run("return document.querySelector('[name=token]').value")


def _from_elsewhere(checks):
    """With an operator's certificate and a token that is right: a page of another origin does nothing."""
    host, right = f"127.0.0.1:{checks.admin.port}", {"group": "ops", "name": "poll"}
    for name, headers in (("another origin", {"Origin": "http://evil.example"}), ("no origin", {}), ("an origin that is null", {"Origin": "null"}),
                          ("another site's page", {"Sec_Fetch_Site": "cross-site"}), ("the right origin from another site", {"Origin": checks.admin.origin, "Sec_Fetch_Site": "cross-site"}),
                          ("the same host over another scheme", {"Origin": checks.admin.origin.replace("http:", "https:")})):
        body = urlencode({**right, "token": _fresh_token(checks)})
        checks.equal(checks.ask("POST", "/do/fire", body, checks.admin.port, Host=host, Content_Type=FORM, **headers)[0], 403, f"an action from {name} is refused")
    for name, body in (("of another job", {**right, "name": "cert-renew"}), ("for another action", right)):
        path = "/do/pause" if "action" in name else "/do/fire"
        sent = urlencode({**body, "token": _fresh_token(checks)})
        checks.equal(checks.ask("POST", path, sent, checks.admin.port, Host=host, Origin=checks.admin.origin, Content_Type=FORM)[0], 403, f"a token {name} is refused")
    checks.equal(checks.ask("GET", f"/do/fire?{urlencode({**right, 'token': _fresh_token(checks)})}", port=checks.admin.port, Host=host)[0], 405, "a link does nothing")
    page = FOREIGN.format(origin=checks.admin.origin, token=_fresh_token(checks)).encode()
    elsewhere = _serve(page)
    checks.browser.get(f"http://localhost:{elsewhere}/")
    checks.team.wait(lambda: checks.text("h1") is not None, "the answer to a foreign form")
    checks.equal(checks.text("h1"), "This didn't come from here", "a form of a page elsewhere, sent by the browser itself, is refused")
    checks.browser.complaints()


def _serve(page):
    class Handler(http.server.BaseHTTPRequestHandler):
        def do_GET(self):
            self.send_response(200)
            self.send_header("Content-Type", "text/html")
            self.end_headers()
            self.wfile.write(page)

        def log_message(self, *_):
            pass

    server = http.server.ThreadingHTTPServer(("127.0.0.1", 0), functools.partial(Handler))
    threading.Thread(target=server.serve_forever, daemon=True).start()
    return server.server_address[1]


def _forged(checks):
    for host in ("evil.example", f"evil.example:{checks.port}", "127.0.0.1", f"127.0.0.1:{checks.port}.evil.example", f"127.0.0.1:{checks.port}@evil.example", ""):
        status, headers, body = checks.ask("GET", "/", Host=host)
        checks.that(status in (400, 421) and b"What ran" not in body, f"the host {host!r} is refused", str(status))
    status, headers, _ = checks.ask("GET", "/", Host=f"127.0.0.1:{checks.port}", X_Forwarded_Host="evil.example")
    checks.that(status == 200 and "evil" not in str(headers), "what a header says of another host is passed over")
    policy = headers["Content-Security-Policy"]
    checks.that("default-src 'none'" in policy and "unsafe" not in policy and headers["X-Content-Type-Options"] == "nosniff" and headers["Set-Cookie"] is None,
                "each page has the strict policy, and sets no cookie", str(headers))


def _climbing(checks):
    host = f"127.0.0.1:{checks.port}"
    for path in CLIMBING:
        status, _, body = checks.ask("GET", path, Host=host)
        text = body.decode(errors="replace")
        checks.that(status in (400, 404) and not any(secret in text for secret in SECRETS), f"{path} leads nowhere", f"{status} {text[:200]}")
    for name, path, body, allowed in (("a long address", f"/jobs?q={'a' * 3000}", None, (414,)), ("a very long address", f"/jobs?q={'a' * 20000}", None, (400, 414)),
                                      ("a long body", "/do/fire", "a" * 100_000, (403, 413)), ("a long name", f"/job?group=a&name={'b' * 1900}", None, (404,)),
                                      ("bytes that are no text", "/jobs?q=%ff%fe%00", None, (200,))):
        status, _, _ = checks.ask("POST" if body else "GET", path, body, Host=host, Content_Type=FORM, Origin=f"http://{host}")
        checks.that(status in allowed, f"{name} is borne", str(status))
    with socket.create_connection(("127.0.0.1", checks.port), 30) as sock:
        sock.sendall(b"GET / HTTP/1.1\r\nHost: x\r\n" + b"X-A: b\r\n" * 20_000)
        checks.that(b"200" not in sock.recv(100)[:20], "many headers are borne")


def _behind_a_proxy(checks):
    """At a Unix socket: whoever the proxy lets in may look, under the name that browsers know, and nobody may act."""
    path = f"{checks.team.folder}/page.sock"
    checks.team.start("web-unix", ["-m", "kemtrua_web.command", checks.team.home, "--hub", checks.team.hub, "--program", checks.team.program, "--listen", f"unix:{path}", "--origin",
                                   "https://jobs.example.org"], checks.team.python)
    checks.team.wait(lambda: os.path.exists(path), "the pages at a Unix socket")

    def ask(text):
        with socket.socket(socket.AF_UNIX) as sock:
            sock.connect(path)
            sock.sendall(text.encode())
            found = b""
            while data := sock.recv(65536):
                found += data
        return int(found.split()[1])

    end = "Connection: close\r\n"
    checks.equal(ask(f"GET /jobs HTTP/1.1\r\nHost: jobs.example.org\r\n{end}\r\n"), 200, "behind a proxy the pages are answered")
    checks.equal(ask(f"GET /jobs HTTP/1.1\r\nHost: localhost\r\n{end}\r\n"), 421, "but for another host")
    post = f"POST /do/fire HTTP/1.1\r\nHost: jobs.example.org\r\nOrigin: https://jobs.example.org\r\nContent-Type: {FORM}\r\nContent-Length: 7\r\n{end}\r\ntoken=x"
    checks.equal(ask(post), 403, "and nobody acts")


def _many(checks):
    """More requests than anybody makes by hand: some are put off, and a little later all is as before."""
    host, statuses, begun = f"127.0.0.1:{checks.port}", [], time.monotonic()
    while 429 not in statuses and time.monotonic() < begun + 60:
        statuses.append(checks.ask_at_once("GET", "/icon.svg", Host=host)[0])
    may = AT_ONCE + A_SECOND * (time.monotonic() - begun)  # (on a machine that is too busy nobody can ask too often)
    checks.that(set(statuses) <= {200, 429} and len(statuses) <= may + 1, "too many requests are put off", f"{set(statuses)} {len(statuses)} {may}")
    time.sleep(5)
    checks.equal(checks.ask("GET", "/jobs", Host=host)[0], 200, "and a little later they are answered again")
