"""PostgreSQL with one synchronous standby on this machine, for bench/cluster.py: the same accounts, and a transfer as
one transaction of a function that locks the lower account first. Servers aren't run by root: as root it is the user
postgres who has them."""
from __future__ import annotations

import glob
import os
import pathlib
import shutil
import statistics
import subprocess
import tempfile
from typing import List, Optional, Tuple

ACCOUNTS = 16
PRIMARY = """
listen_addresses = '127.0.0.1'
unix_socket_directories = '{folder}'
max_wal_senders = 5
wal_level = replica
synchronous_commit = on
"""
MADE = """
CREATE TABLE accounts (id int PRIMARY KEY, balance bigint NOT NULL) WITH (fillfactor = 50);
INSERT INTO accounts SELECT it, 1000000 FROM generate_series(0, {last}) it;
CREATE FUNCTION transfer(giver int, taker int) RETURNS void LANGUAGE plpgsql AS $$
BEGIN
    PERFORM 1 FROM accounts WHERE id IN (giver, taker) ORDER BY id FOR UPDATE;
    UPDATE accounts SET balance = balance - 1 WHERE id = giver;
    UPDATE accounts SET balance = balance + 1 WHERE id = taker;
END $$;
"""
ONE = """
\\set giver random(0, {last})
\\set taker random(0, {last})
SELECT transfer(:giver, :taker);
"""
MANY = """
SELECT count(*) FROM (SELECT transfer(it % {count}, (it + 7) % {count}) FROM generate_series(1, {per}) it) them;
"""


def folder_of_programs() -> Optional[str]:
    """Where PostgreSQL's programs are, or None."""
    found = sorted(glob.glob("/usr/lib/postgresql/*/bin"))
    return found[-1] if found and os.path.exists(f"{found[-1]}/pgbench") else None


class Postgres:
    """A primary, and where it is told so a standby that has synced each commit before it is answered."""

    def __init__(self, programs: str, port: int, has_standby: bool = True) -> None:
        self.programs, self.port = programs, port
        self.folder = pathlib.Path(tempfile.mkdtemp(prefix="postgres-", dir=os.environ.get("FOLDER")))
        if os.getuid() == 0:
            shutil.chown(self.folder, "postgres")
        self.begun: List[pathlib.Path] = []
        one, other = self.folder / "one", self.folder / "other"
        self.call("initdb", "-D", one, "-A", "trust", "-U", "bench")
        with open(one / "postgresql.conf", "a", encoding="utf-8") as file:
            file.write(PRIMARY.format(folder=self.folder))
        self.start(one, port)
        self.sql(MADE.format(last=ACCOUNTS - 1))
        if has_standby:
            self.call("pg_basebackup", *self.at(port), "-D", other, "-R", "-X", "stream", "-c", "fast")
            self.start(other, port + 1)
            self.sql("ALTER SYSTEM SET synchronous_standby_names = '*'")
            self.sql("SELECT pg_reload_conf()")
            self.sql("UPDATE accounts SET balance = balance")

    def call(self, name: str, *words: object, given: str = "") -> str:
        """Calls one of PostgreSQL's programs."""
        line = [f"{self.programs}/{name}", *map(str, words)]
        if os.getuid() == 0:
            line = ["setpriv", "--reuid=postgres", "--regid=postgres", "--clear-groups", *line]
        done = subprocess.run(line, input=given, capture_output=True, text=True, cwd=self.folder, check=False)
        if done.returncode:
            raise SystemExit(f"{name}: {done.stderr[-500:]}")
        return done.stdout

    def at(self, port: int) -> Tuple[object, ...]:
        """Where a server is asked."""
        return "-h", self.folder, "-p", port, "-U", "bench"

    def start(self, place: pathlib.Path, port: int) -> None:
        """Begins a server."""
        self.begun.append(place)
        self.call("pg_ctl", "-D", place, "-o", f"-p {port}", "-l", self.folder / f"{port}.log", "-w", "start")

    def sql(self, text: str) -> None:
        """Some statements."""
        self.call("psql", *self.at(self.port), "-d", "postgres", "-q", "-v", "ON_ERROR_STOP=1", given=text)

    def transfers(self, clients: int, per: int, seconds: float) -> Tuple[float, float, float]:
        """Transfers a second, and the middle and the 99th of a hundred latencies in ms, of so many clients that make
        so many transfers in one transaction."""
        script = self.folder / "script"
        script.write_text(ONE.format(last=ACCOUNTS - 1) if per == 1 else MANY.format(count=ACCOUNTS, per=per))
        for old in self.folder.glob("times.*"):
            old.unlink()
        words = ["-n", "-M", "prepared", "-c", clients, "-j", min(clients, 4), "-T", max(1, round(seconds))]
        self.call("pgbench", *self.at(self.port), *words, "-f", script, "-l", "--log-prefix=times", "postgres")
        lines = [it for file in self.folder.glob("times.*") for it in file.read_text().splitlines()]
        times = sorted(int(it.split()[2]) / 1000 for it in lines)
        rate = len(times) * per / max(1, round(seconds))
        return rate, statistics.median(times), times[int(0.99 * len(times))]

    def end(self) -> None:
        """Ends the servers."""
        for place in reversed(self.begun):
            try:
                self.call("pg_ctl", "-D", place, "-m", "immediate", "stop")
            except SystemExit:
                pass
        shutil.rmtree(self.folder, ignore_errors=True)
