"""What the tests of the desk's pages share: browsers without a window, as users of each role."""

import re
import secrets
import unittest
from typing import Any

from desk_helpers import BOOK, HAS_FLASK, NO_FLASK, PASSWORD, DeskTest

from gasday_desk.desk import Desk

if HAS_FLASK:
    from gasday_desk.web import app_of

DAY = f"/days/{BOOK}"
CSRF = re.compile(r'name="csrf" value="([^"]+)"')


class Browser:
    """Somebody at a browser."""

    def __init__(self, app: Any, user: str = "", password: str = PASSWORD) -> None:
        self.client = app.test_client()
        self.csrf = ""
        if user:
            self.status = self.log_in(user, password)

    def log_in(self, user: str, password: str = PASSWORD) -> int:
        self.take_csrf("/login")
        status = self.post("/login", user=user, password=password)[0]
        if status == 303:
            self.take_csrf("/days")
        return status

    def take_csrf(self, address: str) -> None:
        found = CSRF.search(self.client.get(address).text)
        self.csrf = found[1] if found else ""

    def get(self, address: str, **headers: str) -> tuple[int, str]:
        answer = self.client.get(address, headers={name.replace("_", "-"): value for name, value in headers.items()})
        return answer.status_code, answer.text

    def json(self, address: str) -> Any:
        return self.client.get(address).json

    def post(self, address: str, **fields: Any) -> tuple[int, str]:
        """The status, and where it leads to or what is told."""
        data = {"csrf": self.csrf, "form": secrets.token_hex(8), **fields}
        answer = self.client.post(address, data=data)
        return answer.status_code, answer.headers.get("Location") or answer.text

    def nominate(self, quantity: str = "70", contract: str = "FIRM", **fields: str) -> tuple[int, str]:
        wish = {"contract": contract, "package": "P", "origin": "R1", "destination": "D1", "quantity": quantity, **fields}
        return self.post(f"{DAY}/call/nominate", **wish)


@unittest.skipUnless(HAS_FLASK, NO_FLASK)
class PagesTest(DeskTest):
    """A desk behind its application, without a server."""

    def setUp(self) -> None:
        super().setUp()
        self.path = self.make_desk()
        self.desk = self.start()

    def start(self) -> Desk:
        desk = Desk(self.path, self.clock, self.program, idle=0.5)
        self.addCleanup(self.end, desk)
        self.app = app_of(desk)
        return desk

    def end(self, desk: Desk) -> None:
        if not desk.is_ending.is_set():
            desk.close()

    def browser(self, user: str = "", password: str = PASSWORD) -> Browser:
        return Browser(self.app, user, password)
