"""Floods of connections, and certificates that end, are revoked or made anew."""
from __future__ import annotations

import datetime
import os
import signal
import socket
import ssl
import subprocess
import time
import unittest
from unittest import mock

from kemtrua import Connection, Tls, certificates, clock, errors
from tests.helpers import HubProcess, WithFolder, wait_until
from tests.test_tls import make_authority, make_certificate


def free_port() -> int:
    with socket.socket() as sock:
        sock.bind(("127.0.0.1", 0))
        return int(sock.getsockname()[1])


class OverTls(WithFolder):
    def setUp(self) -> None:
        super().setUp()
        make_authority(self.folder, "team")
        self.own = make_certificate(self.folder, "team", "hub")
        self.port = free_port()

    def serve(self, *words: str) -> HubProcess:
        hub = HubProcess(self.folder, f"tls:localhost:{self.port}", "--make", "--listen", f"unix:{self.folder}/hub.sock", "--certificate", self.own.certificate,
                         "--key", self.own.key, "--authority", self.own.authority, *words)
        self.addCleanup(hub.kill)
        return hub

    def short_lived(self, name: str, seconds: float) -> Tls:
        """A certificate that ends so soon. Its authority keeps a list of those that it revoked."""
        os.makedirs(f"{self.folder}/ca", exist_ok=True)
        for file, text in (("ca/index", ""), ("ca/serial", "77\n"), ("ca/crlnumber", "01\n")):
            if not os.path.exists(f"{self.folder}/{file}"):
                with open(f"{self.folder}/{file}", "w") as made:
                    made.write(text)
        with open(f"{self.folder}/ca.cnf", "w") as made:
            made.write(f"[ca]\ndefault_ca=d\n[d]\nnew_certs_dir={self.folder}/ca\ndatabase={self.folder}/ca/index\nserial={self.folder}/ca/serial\n"
                       f"crlnumber={self.folder}/ca/crlnumber\ndefault_crl_days=1\ncertificate={self.folder}/team.pem\nprivate_key={self.folder}/team.key\n"
                       "default_md=sha256\npolicy=p\n[p]\ncommonName=supplied\n")
        self.openssl("req", "-newkey", "ec", "-pkeyopt", "ec_paramgen_curve:prime256v1", "-nodes", "-subj", f"/CN={name}", "-keyout", f"{name}.key", "-out", f"{name}.csr")
        end = datetime.datetime.now(datetime.timezone.utc) + datetime.timedelta(seconds=seconds)
        self.openssl("ca", "-config", "ca.cnf", "-batch", "-in", f"{name}.csr", "-out", f"{name}.pem", "-enddate", end.strftime("%y%m%d%H%M%SZ"))
        return Tls(f"{self.folder}/{name}.pem", f"{self.folder}/{name}.key", f"{self.folder}/team.pem")

    def openssl(self, *words: str) -> None:
        subprocess.run(["openssl", *words], cwd=self.folder, check=True, capture_output=True)

    def broke(self, connection: Connection) -> bool:
        try:
            connection.clock()
            return False
        except errors.KemtruaError:
            return True


class Certificates(OverTls):
    def test_a_connection_ends_with_its_certificate(self) -> None:
        """Before, whoever was connected was served on for as long as it liked."""
        hub = self.serve()
        with hub.connect(self.short_lived("A", 30)) as one:
            one.join("A", 1000)
            wait_until(lambda: self.broke(one))
        self.assertIn("its certificate has ended", hub.said())

    def test_certificates_are_read_again_at_sighup(self) -> None:
        hub = self.serve("--operator", "admin")
        admin = make_certificate(self.folder, "team", "admin")
        with hub.connect(admin) as one:
            one.listed()
            make_authority(self.folder, "other")
            for name in ("hub", "admin"):
                make_certificate(self.folder, "other", name)
            for name in ("-hub.pem", "-hub.key", "-admin.pem", "-admin.key", ".pem"):
                os.replace(f"{self.folder}/other{name}", f"{self.folder}/team{name}")
            hub.process.send_signal(signal.SIGHUP)
            wait_until(lambda: self.broke(one))
        with hub.connect(Tls(admin.certificate, admin.key, f"{self.folder}/team.pem")) as again:
            again.listed()

    def test_files_that_are_wrong_change_nothing(self) -> None:
        hub = self.serve()
        node = make_certificate(self.folder, "team", "A")
        with hub.connect(node) as one:
            one.join("A", 1000)
            with open(self.own.certificate, "w"):
                pass
            hub.process.send_signal(signal.SIGHUP)
            wait_until(lambda: "the former certificates go on" in hub.said())
            one.clock()
            with hub.connect(node) as other:
                other.clock()

    def test_a_revoked_certificate_gets_in_no_more(self) -> None:
        node = self.short_lived("A", 3600)
        self.openssl("ca", "-config", "ca.cnf", "-gencrl", "-out", "revoked.pem")
        hub = self.serve("--revoked", f"{self.folder}/revoked.pem")
        with hub.connect(node) as one:
            one.join("A", 1000)
            self.openssl("ca", "-config", "ca.cnf", "-revoke", "A.pem")
            self.openssl("ca", "-config", "ca.cnf", "-gencrl", "-out", "revoked.pem")
            hub.process.send_signal(signal.SIGHUP)
            wait_until(lambda: self.broke(one))
        with self.assertRaises(errors.Unreachable):
            Connection(hub.address, node).clock()
        with hub.connect(self.short_lived("B", 3600)) as other:
            other.join("B", 1000)

    def test_when_a_certificate_ends(self) -> None:
        tls = self.short_lived("A", 20 * 86400 + 60)
        self.assertAlmostEqual(certificates.ends_of(tls.certificate), clock.now() / 1000 + 20 * 86400 + 60, delta=30)
        with self.assertLogs("kemtrua.certificates", "WARNING") as logs:
            self.assertTrue(certificates.warn(tls.certificate, "A's"))
        self.assertIn("ends in 20 days", logs.output[0])
        real = clock.now
        with mock.patch.object(clock, "now", lambda: real() - 11 * 86_400_000):
            self.assertFalse(certificates.warn(tls.certificate, "A's"))
        with mock.patch.object(clock, "now", lambda: real() + 21 * 86_400_000), self.assertLogs("kemtrua.certificates", "WARNING") as logs:
            self.assertTrue(certificates.warn(tls.certificate, "A's"))
        self.assertIn("has ended", logs.output[0])

    def test_without_operator_no_certificate_operates(self) -> None:
        """Before, each one did."""
        with self.serve().connect(make_certificate(self.folder, "team", "north")) as one:
            with self.assertRaises(errors.HubRefused) as raised:
                one.listed()
            self.assertEqual(raised.exception.word, "no-right")

    def test_a_certificate_for_all_below_it(self) -> None:
        hub = self.serve("--node", "app.*:5")
        app = make_certificate(self.folder, "team", "app")
        with hub.connect(app) as one, hub.connect(app) as other:
            one.join("app.one", 1000)
            other.join("app.two", 1000)
            self.assertEqual(one.peers(), ["app.one", "app.two"])
        with hub.connect(make_certificate(self.folder, "team", "north")) as one:
            with self.assertRaises(errors.HubRefused):
                one.join("north", 1000)


class Floods(OverTls):
    def test_silent_connections_keep_nobody_out(self) -> None:
        """Before, 1024 of them took all descriptors: a new client waited for seconds, and `list` failed."""
        hub = self.serve("--operator", "admin")
        node, admin = make_certificate(self.folder, "team", "A"), make_certificate(self.folder, "team", "admin")
        silent: list[socket.socket] = []
        self.addCleanup(lambda: [sock.close() for sock in silent])
        with hub.connect(node) as one:
            one.join("A", 15000)
            for _ in range(1000):
                silent.append(socket.create_connection(("127.0.0.1", self.port), 10))
            begun = time.monotonic()
            one.check_in("A", 15000)
            with Connection(hub.address, admin) as over_tls:
                over_tls.listed()
            with hub.connect_at(f"unix:{self.folder}/hub.sock") as local:
                local.listed()
            self.assertLess(time.monotonic() - begun, 60)
        descriptors = len(os.listdir(f"/proc/{hub.process.pid}/fd"))
        self.assertLess(descriptors, 250)
        self.assertLess(hub.said().count("\n"), 20)

    def test_a_certificate_has_so_many_connections(self) -> None:
        hub = self.serve()
        context = make_certificate(self.folder, "team", "A").context(server=False)
        opened: list[ssl.SSLSocket] = []
        self.addCleanup(lambda: [sock.close() for sock in opened])
        hub.connect(make_certificate(self.folder, "team", "B")).close()
        for _ in range(70):
            opened.append(context.wrap_socket(socket.create_connection(("127.0.0.1", self.port), 10), server_hostname="localhost"))
            opened[-1].sendall(b'{"do":"clock"}\n')
            self.assertTrue(opened[-1].recv(100).startswith(b"clock "))
        opened[0].settimeout(10)
        self.assertEqual(opened[0].recv(100), b"")  # (the first that speaks for no node has given way)


if __name__ == "__main__":
    unittest.main()
