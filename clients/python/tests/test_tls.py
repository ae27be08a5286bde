"""A hub over TCP: TLS with client certificates alone."""
import os
import shutil
import socket
import subprocess
import unittest

from kemtrua import Address, Connection, Tls, errors
from kemtrua.replies import Joined, Next
from tests.helpers import HubProcess, WithFolder, job


def openssl(folder: str, *words: str) -> None:
    subprocess.run(["openssl", *words], cwd=folder, check=True, capture_output=True)


def make_authority(folder: str, name: str) -> None:
    openssl(folder, "req", "-x509", "-newkey", "ec", "-pkeyopt", "ec_paramgen_curve:prime256v1", "-nodes", "-days", "2", "-subj", f"/CN={name}",
            "-keyout", f"{name}.key", "-out", f"{name}.pem")


def make_certificate(folder: str, authority: str, name: str) -> Tls:
    """A certificate for this common name, for localhost as a server."""
    with open(os.path.join(folder, "extensions"), "w") as file:
        file.write("subjectAltName=DNS:localhost,IP:127.0.0.1\n")
    base = f"{authority}-{name}"
    openssl(folder, "req", "-newkey", "ec", "-pkeyopt", "ec_paramgen_curve:prime256v1", "-nodes", "-subj", f"/CN={name}", "-keyout", f"{base}.key", "-out", f"{base}.csr")
    openssl(folder, "x509", "-req", "-in", f"{base}.csr", "-CA", f"{authority}.pem", "-CAkey", f"{authority}.key", "-CAcreateserial", "-days", "2",
            "-extfile", "extensions", "-out", f"{base}.pem")
    return Tls(*(os.path.join(folder, name) for name in (f"{base}.pem", f"{base}.key", f"{authority}.pem")))


@unittest.skipUnless(shutil.which("openssl"), "openssl makes the certificates")
class OverTls(WithFolder):
    def setUp(self) -> None:
        super().setUp()
        for authority in ("team", "stranger"):
            make_authority(self.folder, authority)
        self.own = make_certificate(self.folder, "team", "hub")

    def begun(self, *words: str) -> HubProcess:
        with socket.socket() as probe:
            probe.bind(("127.0.0.1", 0))
            port = probe.getsockname()[1]
        hub = HubProcess(self.folder, f"tls:localhost:{port}", "--make", "--certificate", self.own.certificate, "--key", self.own.key,
                         "--authority", self.own.authority, *words)
        self.addCleanup(hub.kill)
        return hub

    def test_a_node_is_named_as_its_certificate(self) -> None:
        with self.begun().connect(make_certificate(self.folder, "team", "A")) as one:
            with self.assertRaises(errors.HubRefused) as raised:
                one.ask("join", node="B")
            self.assertEqual(raised.exception.word, "no-right")
            self.assertIsInstance(one.ask("join", node="A"), Joined)

    def test_operators(self) -> None:
        hub = self.begun("--operator", "admin")
        with hub.connect(make_certificate(self.folder, "team", "admin")) as one:
            one.ask("add_job", job=job())
        with Connection(hub.address, make_certificate(self.folder, "team", "A")) as one:
            with self.assertRaises(errors.HubRefused) as raised:
                one.ask("add_job", job=job("k"))
            self.assertEqual(raised.exception.word, "no-right")
            with self.assertRaises(errors.HubRefused):
                one.listed()
            self.assertEqual(one.ask("show_next"), Next(None))

    def test_certificates_that_are_not_trusted(self) -> None:
        hub = self.begun()
        right = make_certificate(self.folder, "team", "A")
        hub.connect(right).close()
        stranger = make_certificate(self.folder, "stranger", "A")
        with self.assertRaises(errors.NotTrusted) as raised:
            Connection(hub.address, stranger)
        self.assertIn("isn't trusted", str(raised.exception))
        with self.assertRaises(errors.NotTrusted) as raised:
            with Connection(hub.address, Tls(stranger.certificate, stranger.key, right.authority)) as one:
                one.ask("show_next")
        self.assertIn("doesn't trust this side's certificate", str(raised.exception))

    def test_no_certificate_and_no_tls(self) -> None:
        hub = self.begun()
        hub.connect(make_certificate(self.folder, "team", "A")).close()
        with self.assertRaises(errors.BadSettings):
            Connection(hub.address)
        with socket.create_connection((hub.address.host, hub.address.port)) as plain:
            plain.settimeout(20)
            plain.sendall(b'{"do":"show_next"}\n')
            self.assertNotIn(b"next", plain.recv(100))

    def test_files_that_are_not_there(self) -> None:
        for tls, word in ((Tls(self.own.certificate, self.own.key, "/nowhere"), "authority"), (Tls("/nowhere", self.own.key, self.own.authority), "certificate")):
            with self.assertRaises(errors.BadSettings) as raised:
                Connection(Address.parse("tls:localhost:1"), tls)
            self.assertIn(word, str(raised.exception))


if __name__ == "__main__":
    unittest.main()
