"""What stands between the browser and kemtrua-web over TLS: it shows a client's certificate, and hands on bytes."""
import os
import socket
import ssl
import subprocess
import threading


def make_certificates(folder):
    """An authority, and certificates of the pages, an operator and somebody who only looks."""
    curve = ["-newkey", "ec", "-pkeyopt", "ec_paramgen_curve:prime256v1", "-nodes"]

    def run(*words):
        subprocess.run(["openssl", *words], cwd=folder, check=True, capture_output=True)

    run("req", "-x509", *curve, "-days", "2", "-subj", "/CN=team", "-keyout", "team.key", "-out", "team.pem")
    for name in ("page", "admin", "viewer"):
        run("req", *curve, "-subj", f"/CN={name}", "-keyout", f"{name}.key", "-out", f"{name}.csr")
        run("x509", "-req", "-in", f"{name}.csr", "-CA", "team.pem", "-CAkey", "team.key", "-CAcreateserial", "-days", "2", "-out", f"{name}.pem")
    return ["--certificate", os.path.join(folder, "page.pem"), "--key", os.path.join(folder, "page.key"), "--authority", os.path.join(folder, "team.pem")]


class Front:
    """Listens at a port of this machine, and speaks TLS with the pages as the owner of a certificate."""

    def __init__(self, folder, name):
        self._context = ssl.SSLContext(ssl.PROTOCOL_TLS_CLIENT)
        self._context.check_hostname = False
        self._context.load_verify_locations(os.path.join(folder, "team.pem"))
        self._context.load_cert_chain(os.path.join(folder, f"{name}.pem"), os.path.join(folder, f"{name}.key"))
        self._listening = socket.create_server(("127.0.0.1", 0))
        self.port = self._listening.getsockname()[1]
        self.to = 0

    @property
    def origin(self):
        return f"http://127.0.0.1:{self.port}"

    def begin(self, to):
        self.to = to
        threading.Thread(target=self._accept, daemon=True).start()

    def _accept(self):
        while True:
            try:
                sock, _ = self._listening.accept()
                other = self._context.wrap_socket(socket.create_connection(("127.0.0.1", self.to)), server_hostname="page")
            except OSError:
                continue
            for one, two in ((sock, other), (other, sock)):
                threading.Thread(target=self._copy, args=(one, two), daemon=True).start()

    @staticmethod
    def _copy(one, two):
        try:
            while data := one.recv(65536):
                two.sendall(data)
        except OSError:
            pass
        for sock in (one, two):
            try:
                sock.shutdown(socket.SHUT_RDWR)
            except OSError:
                pass
