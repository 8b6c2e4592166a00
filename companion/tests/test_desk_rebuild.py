"""What the desk does where its journal or a book is lost: it makes no call that could be the second of one form."""

import contextlib
import io
import os
import shutil
import unittest
from unittest import mock

from desk_helpers import BOOK, USERS, needs_waitress
from desk_pages import DAY, PagesTest

from gasday_desk.command import main
from gasday_desk.coprocess import Coprocess
from gasday_desk.people import new_token
from gasday_desk.settings import User, users_of, write_users


class Lost(PagesTest):
    def setUp(self) -> None:
        super().setUp()
        users = users_of(self.path / "users.toml")
        self.tokens = {}
        for name, party, role in USERS:
            self.tokens[name], hashed = new_token()
            users[name] = User(name, party, role, users[name].password, (hashed,))
        write_users(self.path / "users.toml", users)

    def call(self, user: str, key: str, **fields: object) -> tuple[int, dict[str, object]]:
        headers = {"Authorization": f"Bearer {self.tokens[user]}", "Idempotency-Key": key}
        answer = self.app.test_client().post(f"/api/days/{BOOK}/calls", json=fields, headers=headers)
        return answer.status_code, answer.json or {}

    def nominate(self, key: str, quantity: int = 70, **more: object) -> tuple[int, dict[str, object]]:
        return self.call("sue", key, kind="nominate", contract="FIRM", package="P", origin="R1", destination="D1",
                         quantity=quantity, **more)

    def restart(self, *lost: str) -> None:
        """A new start, after these files were taken away."""
        self.desk.close()
        for name in lost:
            for path in self.path.glob(f"{name}*"):
                path.unlink()
        self.desk = self.start()

    def rebuild(self) -> tuple[int, str]:
        self.desk.close()
        out = io.StringIO()
        with contextlib.redirect_stdout(out), contextlib.redirect_stderr(out):
            status = main(["rebuild", str(self.path), "--gasday", self.program])
        self.desk = self.start()
        return status, out.getvalue()


class Journals(Lost):
    def test_without_desk_db(self) -> None:
        """A key that had its call makes no second one: not before the journal is rebuilt, and not afterwards."""
        self.assertEqual(self.nominate("order-0001")[1]["call"], 1)
        self.restart("desk.db")
        status, told = self.nominate("order-0001")
        self.assertEqual((status, "gasday-desk rebuild" in str(told["error"])), (503, True))
        self.assertEqual(self.call("sam", "order-0002", kind="freeze")[0], 503)
        self.assertIn("No calls are made", self.browser("sam").get(DAY)[1])
        self.assertEqual(self.rebuild(), (0, f"{BOOK}: 1 calls entered\n"))
        self.assertEqual(self.nominate("order-0001")[0], 409)
        self.assertEqual(self.nominate("order-0003", 50)[1]["call"], 2)
        self.assertEqual(self.nominate("order-0004", 70, repeat=True)[1]["call"], 3)
        self.assertEqual(self.nominate("order-0004", 70, repeat=True)[1]["call"], 3)
        self.assertEqual(len(self.browser("aud").json(f"{DAY}/calls.json")["rows"]), 3)

    def test_with_an_older_desk_db(self) -> None:
        self.nominate("order-0001")
        self.desk.close()
        shutil.copy(self.path / "desk.db", self.path / "copy")
        self.desk = self.start()
        self.nominate("order-0002", 50)
        self.restart("desk.db")
        self.desk.close()
        shutil.move(self.path / "copy", self.path / "desk.db")
        self.desk = self.start()
        self.assertEqual(self.nominate("order-0002", 50)[0], 503)
        self.assertEqual(self.nominate("order-0001")[1]["call"], 1)
        self.assertEqual(self.rebuild(), (0, f"{BOOK}: 1 calls entered\n"))
        self.assertEqual((self.nominate("order-0001")[1]["call"], self.nominate("order-0002", 50)[0]), (1, 409))
        self.assertEqual(self.rebuild(), (0, f"{BOOK}: desk.db has all its calls\n"))

    def test_a_form_after_a_rebuild(self) -> None:
        """The page says which call may be the same, and makes a new one where the user says so."""
        self.browser("sue").nominate()
        self.restart("desk.db")
        self.rebuild()
        sue = self.browser("sue")
        status, told = sue.nominate()
        self.assertEqual((status, "call 1 of the book asks for the same" in told.lower(), 'name="repeat" value="yes"' in told),
                         (409, True, True))
        self.assertEqual(sue.nominate(repeat="yes"), (303, f"{DAY}/calls/2"))
        row = self.browser("aud").json(f"{DAY}/calls.json")["rows"][0]
        self.assertEqual((row["user"], row["party"]), ("not known", "SHIP"))

    def test_an_alarm_after_a_rebuild(self) -> None:
        """The state of the cycle keeps a freeze from being made twice, so none is held up."""
        self.browser("sue").nominate()
        sam = self.browser("sam")
        for kind in ("freeze", "settle"):
            sam.post(f"{DAY}/call/{kind}")
        self.restart("desk.db")
        self.rebuild()
        self.assertEqual(self.browser("sam").post(f"{DAY}/call/freeze")[0], 303)

    def test_a_rebuild_beside_a_server(self) -> None:
        with contextlib.redirect_stderr(io.StringIO()) as told:
            self.assertEqual(main(["rebuild", str(self.path), "--gasday", self.program]), 2)
        self.assertIn("another gasday-desk runs", told.getvalue())

    @needs_waitress
    def test_a_damaged_desk_db(self) -> None:
        self.desk.close()
        for path in self.path.glob("desk.db*"):
            path.unlink()
        (self.path / "desk.db").write_bytes(b"not a database at all, but long enough to be read as the head of one" * 20)
        with contextlib.redirect_stderr(io.StringIO()) as told:
            self.assertEqual(main(["run", str(self.path), "--gasday", self.program]), 2)
        self.assertRegex(told.getvalue(), "desk.db can't be used: .*gasday-desk rebuild")


class Books(Lost):
    def test_one_that_is_deleted_under_a_run(self) -> None:
        """No call is answered as stored whose file nobody has."""
        self.assertEqual(self.nominate("order-0001")[0], 200)
        file = self.path / "books" / f"{BOOK}.book"
        away = file.with_suffix(".away")
        file.rename(away)
        status, told = self.nominate("order-0002", 50)
        self.assertEqual((status, "taken away" in str(told["error"])), (503, True))
        status, told = self.nominate("order-0003", 40)
        self.assertEqual((status, "is gone" in str(told["error"])), (503, True))
        away.rename(file)
        self.assertEqual(self.nominate("order-0002", 50)[1]["call"], 2)

    def test_one_that_is_deleted_while_a_call_is_made(self) -> None:
        self.nominate("order-0001")
        file = self.path / "books" / f"{BOOK}.book"
        copy = file.read_bytes()
        sent = Coprocess.ask

        def ask(run, calls):  # type: ignore[no-untyped-def]
            yield from sent(run, calls)
            file.unlink()

        with mock.patch.object(Coprocess, "ask", ask):
            self.assertEqual(self.nominate("order-0002", 50)[0], 503)
        file.write_bytes(copy)
        self.assertEqual(self.nominate("order-0002", 50)[1]["call"], 2)

    def test_one_that_is_replaced(self) -> None:
        """By an older copy: it lacks what was told, and isn't served."""
        file = self.path / "books" / f"{BOOK}.book"
        older = file.read_bytes()
        self.nominate("order-0001")
        for path in file.parent.glob(f"{file.name}*"):  # with its logs
            path.unlink()
        file.write_bytes(older)
        self.assertEqual(self.nominate("order-0002", 50)[0], 503)
        self.assertIn("lacks call 1", str(self.nominate("order-0002", 50)[1]["error"]))

    def test_the_public_page_without_one(self) -> None:
        """It shows the pipelines whose books are well."""
        zone = 'zone = "CST6CDT,M3.2.0,M11.1.0"'
        path = self.path / "desk.toml"
        path.write_text(path.read_text() + f'[[pipeline]]\nname = "south"\nbook = "SOUTH"\n{zone}\n')
        (self.path / "books" / "SOUTH-20260308.book").write_text("no book at all\n")
        self.restart()
        status, told = self.browser().get("/public")
        self.assertEqual((status, "S1" in told, "SOUTH-20260308" in told), (200, True, True))
        self.assertEqual({row["book"] for row in self.browser().json("/public.json")["rows"]}, {BOOK})


@unittest.skipUnless(os.access("/proc/self/fd", os.R_OK), "no /proc")
class BuiltBooks(Books):
    """The same with the built program."""

    real = True


if __name__ == "__main__":
    unittest.main()
