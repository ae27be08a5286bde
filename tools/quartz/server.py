"""A PostgreSQL server of one's own, on the loopback alone, in a folder that goes with it."""
import os
import pwd
import shutil
import socket
import subprocess
import tempfile

FOLDERS = ["/usr/lib/postgresql/15/bin", "/usr/lib/postgresql/16/bin", "/usr/lib/postgresql/17/bin"]
USER = "postgres"  # (the server doesn't run as root)


def program(name):
    """The path of one of PostgreSQL's programs, or None."""
    return shutil.which(name, path=os.pathsep.join([*FOLDERS, os.environ.get("PATH", "")]))


def is_there():
    return all(program(name) for name in ("initdb", "pg_ctl", "psql")) and (os.getuid() != 0 or any(entry.pw_name == USER for entry in pwd.getpwall()))


def free_port():
    with socket.socket() as found:
        found.bind(("127.0.0.1", 0))
        return found.getsockname()[1]


class Server:
    """While it is entered it serves the database `postgres`, whose user `postgres` needs no password."""

    def __enter__(self):
        self.folder = tempfile.mkdtemp(prefix="quartz-tables-")
        self.port = free_port()
        if os.getuid() == 0:
            shutil.chown(self.folder, USER)
        self._run("initdb", "--pgdata", f"{self.folder}/data", "--auth", "trust", "--username", USER, "--encoding", "UTF8", "--no-sync")
        options = f"-c listen_addresses=127.0.0.1 -c port={self.port} -c unix_socket_directories= -c fsync=off -c timezone=UTC"
        self._run("pg_ctl", "--pgdata", f"{self.folder}/data", "--log", f"{self.folder}/log", "--wait", "--options", options, "start")
        return self

    def __exit__(self, *_):
        try:
            self._run("pg_ctl", "--pgdata", f"{self.folder}/data", "--mode", "immediate", "--wait", "stop")
        finally:
            shutil.rmtree(self.folder, ignore_errors=True)

    def _run(self, name, *words):
        before = ["runuser", "-u", USER, "--"] if os.getuid() == 0 else []
        ended = subprocess.run([*before, program(name), *words], cwd="/", stdin=subprocess.DEVNULL, stdout=subprocess.DEVNULL, stderr=subprocess.PIPE, text=True, timeout=120)
        if ended.returncode:
            raise SystemExit(f"{name} ended with the status {ended.returncode}: {ended.stderr.strip()}")

    @property
    def url(self):
        return f"postgresql://{USER}@127.0.0.1:{self.port}/postgres"

    @property
    def jdbc(self):
        return f"jdbc:postgresql://127.0.0.1:{self.port}/postgres?user={USER}"
