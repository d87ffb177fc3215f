# SPDX-License-Identifier: LicenseRef-Wengeludo
"""A private PostgreSQL server of a test: in a folder of its own, on loopback, started and stopped by the test; skipped if Debian's package is missing."""

import glob
import os
import pwd
import shutil
import socket
import subprocess
import tempfile
import uuid
from pathlib import Path

PROGRAMS = (sorted(glob.glob("/usr/lib/postgresql/*/bin")) or [""])[-1]
HBA = "local all all trust\nhost all guarded 127.0.0.1/32 scram-sha-256\nhost all all 127.0.0.1/32 trust\n"


def missing():
    """Why there is no server on this machine; nothing if there can be one."""
    if not PROGRAMS:
        return "there is no PostgreSQL (apt-get install postgresql)"
    try:
        import psycopg2  # noqa: F401
    except ImportError:
        return "there is no psycopg2 (apt-get install python3-psycopg2)"
    return ""


class Server:
    """A server, running."""

    def __init__(self):
        self.folder = Path(tempfile.mkdtemp(prefix="wengeludo-pg-"))
        self.user = "postgres" if os.getuid() == 0 else pwd.getpwuid(os.getuid()).pw_name
        if os.getuid() == 0:
            shutil.chown(self.folder, "postgres", "postgres")
        with socket.socket() as one:
            one.bind(("127.0.0.1", 0))
            self.port = one.getsockname()[1]
        self._run("initdb", "-D", self.data, "-A", "trust", "-U", "postgres", "-E", "UTF8", "--no-locale", "-N")
        (self.data / "pg_hba.conf").write_text(HBA)
        self.start()

    @property
    def data(self):
        return self.folder / "data"

    def _run(self, program, *words):
        how = {"user": "postgres", "group": "postgres", "extra_groups": []} if os.getuid() == 0 else {}
        subprocess.run([f"{PROGRAMS}/{program}", *map(str, words)], check=True, stdout=subprocess.DEVNULL, stderr=subprocess.DEVNULL, cwd=self.folder, **how)

    def start(self):
        options = f"-p {self.port} -k {self.folder} -c listen_addresses=127.0.0.1 -c max_connections=60"
        self._run("pg_ctl", "-D", self.data, "-w", "-l", self.folder / "log", "-o", options, "start")

    def stop(self, how="fast"):
        self._run("pg_ctl", "-D", self.data, "-m", how, "-w", "stop")

    def end(self):
        try:
            self.stop("immediate")
        finally:
            shutil.rmtree(self.folder, ignore_errors=True)

    def address(self, base="postgres", user="postgres"):
        return f"postgresql://{user}@127.0.0.1:{self.port}/{base}"

    def asked(self, sql, where=""):
        """The rows of a statement, by a connection of its own."""
        import psycopg2

        connection = psycopg2.connect(where or self.address())
        try:
            connection.autocommit = True
            with connection.cursor() as cursor:
                cursor.execute(sql)
                return cursor.fetchall() if cursor.description else []
        finally:
            connection.close()

    def fresh(self):
        """The address of an empty schema: as good as a database, and made in no time."""
        name = f"b{uuid.uuid4().hex[:12]}"
        self.asked(f"CREATE SCHEMA {name}; GRANT USAGE ON SCHEMA {name} TO PUBLIC")
        return f"{self.address()}?options=-csearch_path%3D{name}"

    def pids(self):
        """The server's processes."""
        found = subprocess.run(["pgrep", "-P", (self.data / "postmaster.pid").read_text().split()[0]], capture_output=True, text=True).stdout.split()
        return [int((self.data / "postmaster.pid").read_text().split()[0]), *map(int, found)]
