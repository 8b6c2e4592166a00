"""A desk as a server of its own, with users that come by tokens: for tests, for `kill_desk.py`, and for `bench/desk.py`."""

import contextlib
import http.client
import json
import os
import random
import signal
import socket
import subprocess
import threading
import time
from pathlib import Path
from typing import Any

from desk_helpers import COMPANION, hashed, serving_python

from gasday_desk.command import make_folder
from gasday_desk.demo import begun_day
from gasday_desk.people import new_token
from gasday_desk.program import Program, written
from gasday_desk.rows import words_of
from gasday_desk.settings import User, write_users

ZONE = "CST6CDT,M3.2.0,M11.1.0"
SETTINGS = """listen = "127.0.0.1:{port}"
[[pipeline]]
name = "live"
book = "LIVE"
zone = "{zone}"
"""
START_SECONDS = 60.0


def free_port() -> int:
    """A port that is free now, and that the system gives to no connection of another test before the desk takes it."""
    while True:
        port = random.randrange(20000, 32000)
        with contextlib.suppress(OSError), socket.socket() as probe:
            probe.bind(("127.0.0.1", port))
            return port


class LiveDesk:
    """A desk of so many shippers, each with a contract over one pipeline, and of a scheduler."""

    def __init__(self, folder: Path, program: str, users: int, date: str = "") -> None:
        self.folder, self.program, self.port = folder, Program(program), free_port()
        self.names = [f"user{at}" for at in range(users)]
        self.tokens: dict[str, str] = {}
        self.local = threading.local()
        self.process: subprocess.Popen[bytes] | None = None
        make_folder(folder, SETTINGS.format(port=self.port, zone=ZONE))
        people = {name: self.person(name, f"S{at}", "shipper") for at, name in enumerate(self.names)}
        write_users(folder / "users.toml", {**people, "sam": self.person("sam", "PIPE", "scheduler")})
        date = date or begun_day(self.program, time.time())
        self.book = f"LIVE-{date.replace('-', '')}"
        self.file = folder / "books" / f"{self.book}.book"
        self.opening = self.opening_text(date)

    def person(self, name: str, party: str, role: str) -> User:
        self.tokens[name], token = new_token()
        return User(name, party, role, hashed(), (token,))

    def opening_text(self, date: str) -> bytes:
        rows = [["segment", "S1", "A", "B", "1000000000"], ["point", "R1", "receipt", "A", "OPR", "1000000000"],
                ["point", "D1", "delivery", "B", "OPD", "1000000000"]]
        rows += [["contract", f"C{at}", f"S{at}", "interruptible", "1000000000"] for at in range(len(self.names))]
        rows.append(["day", date, ZONE, self.book])
        return written([row + [""] * (8 - len(row)) for row in rows])

    def make_book(self) -> None:
        self.program.make_book(self.file, self.opening)

    # The server.

    def start(self) -> None:
        self.hang_up()
        python = serving_python()
        assert python
        environment = {**os.environ, "PYTHONDONTWRITEBYTECODE": "1"}
        self.process = subprocess.Popen([python, COMPANION / "gasday-desk", "run", self.folder, "--gasday", self.program.path],
                                        stderr=subprocess.DEVNULL, env=environment)
        until = time.monotonic() + START_SECONDS
        while time.monotonic() < until:
            try:
                socket.create_connection(("127.0.0.1", self.port), 1).close()
                return
            except OSError:
                time.sleep(0.02)
        raise AssertionError("the server doesn't start")

    def pid(self) -> int:
        assert self.process
        return self.process.pid

    def children(self) -> list[int]:
        """The programs that the server drives now."""
        try:
            parts = [path.read_text() for path in Path(f"/proc/{self.pid()}/task").glob("*/children")]
        except OSError:
            return []
        return [int(number) for part in parts for number in part.split()]

    def end(self, number: int = signal.SIGTERM) -> int:
        """Ends the server by a signal; its exit status."""
        assert self.process
        self.process.send_signal(number)
        return self.process.wait(60)

    # Who comes.

    def connection(self) -> http.client.HTTPConnection:
        if getattr(self.local, "connection", None) is None:
            self.local.connection = http.client.HTTPConnection("127.0.0.1", self.port, timeout=120)
        found = self.local.connection
        assert isinstance(found, http.client.HTTPConnection)
        return found

    def ask(self, user: str, method: str, address: str, body: bytes | None = None, **headers: str) -> tuple[int, bytes]:
        """A request, on a connection that each thread keeps."""
        sent = {name.replace("_", "-"): value for name, value in headers.items()}
        sent["Authorization"] = f"Bearer {self.tokens[user]}"
        try:
            self.connection().request(method, address, body, sent)
            answer = self.connection().getresponse()
            return answer.status, answer.read()
        except (OSError, http.client.HTTPException):
            self.hang_up()
            raise

    def hang_up(self) -> None:
        """Ends this thread's connection."""
        if getattr(self.local, "connection", None) is not None:
            self.local.connection.close()
            self.local.connection = None

    def call(self, user: str, key: str, **fields: Any) -> tuple[int, dict[str, Any]]:
        status, told = self.ask(user, "POST", f"/api/days/{self.book}/calls", json.dumps(fields).encode(),
                                Content_Type="application/json", Idempotency_Key=key)
        return status, json.loads(told)

    def nominate(self, at: int, package: str, key: str, quantity: int = 1) -> tuple[int, dict[str, Any]]:
        return self.call(self.names[at], key, kind="nominate", contract=f"C{at}", package=package, origin="R1", destination="D1",
                         quantity=quantity)

    # What the file says afterwards.

    def kept(self) -> tuple[list[str], list[str]]:
        """The calls of the file, and the first row that each was told."""
        kept = self.program.kept_by(self.file)
        return [",".join(rows[-1]) for rows in kept.calls], [words_of(told[0]) for told in kept.told]
