"""What one user may take from others: changes of users, sessions, passwords, hashes of receipts, and the machine."""

import concurrent.futures
import contextlib
import io
import os
import subprocess
import sys
import threading
import time
import unittest
from pathlib import Path
from unittest import mock

from desk_helpers import BOOK, COMPANION, PASSWORD, DeskTest, needs_waitress
from desk_pages import DAY, PagesTest

from gasday_desk import command
from gasday_desk.rows import row_of, sha256_of
from gasday_desk.settings import users_of

NEW = "a pipe and seven ducks"


def run(*words: str | Path) -> tuple[int, str]:
    """The exit status of the command, and what it says on standard error."""
    with contextlib.redirect_stderr(io.StringIO()) as told, contextlib.redirect_stdout(io.StringIO()):
        status = command.main([str(word) for word in words])
    return status, told.getvalue()


class Users(DeskTest):
    """Changes of users.toml at the same time."""

    def setUp(self) -> None:
        super().setUp()
        self.path = self.make_desk()

    def names(self) -> set[str]:
        return set(users_of(self.path / "users.toml"))

    def test_a_removal_while_a_password_is_typed(self) -> None:
        def typed(*_: object) -> str:
            run("user", "remove", self.path, "tim")
            return NEW

        with mock.patch.object(command, "new_password", typed):
            self.assertEqual(run("user", "add", self.path, "ida", "--party", "SHIP", "--role", "shipper")[0], 0)
        self.assertEqual(("tim" in self.names(), "ida" in self.names()), (False, True))

    def test_twelve_removals_and_twelve_additions(self) -> None:
        for at in range(12):
            with mock.patch.object(command, "new_password", lambda *_: NEW):
                run("user", "add", self.path, f"old{at}", "--party", "SHIP", "--role", "shipper")
        words = [["add", self.path, f"new{at}", "--party", "SHIP", "--role", "shipper", "--stdin"] for at in range(12)]
        words += [["remove", self.path, f"old{at}"] for at in range(12)]

        def change(one: list[str | Path]) -> int:
            return subprocess.run([sys.executable, COMPANION / "gasday-desk", "user", *one], input=NEW.encode(),
                                  capture_output=True, timeout=120).returncode

        with concurrent.futures.ThreadPoolExecutor(24) as pool:
            self.assertEqual(list(pool.map(change, words)), [0] * 24)
        self.assertEqual({name for name in self.names() if name.startswith("old")}, set())
        self.assertEqual(len([name for name in self.names() if name.startswith("new")]), 12)

    def test_without_a_terminal(self) -> None:
        """One sentence that says what to do, and no traceback."""
        user = ["ida", "--party", "SHIP", "--role", "shipper"]
        words: list[str | Path] = [sys.executable, COMPANION / "gasday-desk", "user", "add", self.path, *user]
        done = subprocess.run(words, stdin=subprocess.DEVNULL, capture_output=True, start_new_session=True, timeout=60)
        self.assertEqual((done.returncode, b"Traceback" in done.stderr), (2, False))
        self.assertIn(b"--stdin", done.stderr)

    def test_a_party_that_no_file_names(self) -> None:
        for party, role, words in (("SHIPP", "shipper", "did you mean SHIP?"), ("OPQ", "operator", "did you mean OP"),
                                   ("SHIP", "operator", "no point or pool names the operator SHIP"),
                                   ("TESTS", "scheduler", "did you mean TEST?")):
            with mock.patch.object(command, "new_password", lambda *_: NEW):
                status, told = run("user", "add", self.path, "ida", "--party", party, "--role", role)
                self.assertEqual((status, words in told), (2, True), told)
        self.assertNotIn("ida", self.names())
        with mock.patch.object(command, "new_password", lambda *_: NEW):
            self.assertEqual(run("user", "add", self.path, "ida", "--party", "OTHER", "--role", "auditor", "--unnamed")[0], 0)

    def test_an_article(self) -> None:
        for role, words in (("auditor", "ida is an auditor of TEST."), ("operator", "ida is an operator of OPR."),
                            ("shipper", "ida is a shipper of SHIP.")):
            out = io.StringIO()
            with mock.patch.object(command, "new_password", lambda *_: NEW), contextlib.redirect_stdout(out):
                command.main(["user", "add", str(self.path), "ida", "--party", words.split()[-1][:-1], "--role", role])
            self.assertEqual(out.getvalue().strip(), words)

    def test_common_passwords(self) -> None:
        for password in ("password123", "Password!!", "1234567890", "qwertyuiop", "P@ssw0rd2026", "aaaaaaaaaaaa",
                         "letmeinletmein", "iloveyou12", "9876543210", "ida-ship-ida", "summer2026!", "short"):
            with mock.patch.object(sys, "stdin", io.StringIO(password + "\n")):
                status, told = run("user", "add", self.path, "ida", "--party", "SHIP", "--role", "shipper", "--stdin")
            self.assertEqual((status, "password" in told), (2, True), password)
        with mock.patch.object(sys, "stdin", io.StringIO(NEW + "\n")):
            self.assertEqual(run("user", "add", self.path, "ida", "--party", "SHIP", "--role", "shipper", "--stdin")[0], 0)


class Sessions(PagesTest):
    def test_twelve_hours_after_the_login(self) -> None:
        """Whatever came since; and another start of the server ends none before."""
        browser = self.browser("sue")
        for hour in range(1, 12):
            self.clock.pass_to(1772910000 + 3600 * hour)
            self.assertEqual(browser.get("/days")[0], 200)
        self.desk.close()
        self.desk = self.start()
        again = self.browser()
        again.client = self.with_cookie(cookie_of(browser))
        self.assertEqual(again.get("/days")[0], 200)
        self.clock.pass_to(1772910000 + 12 * 3600)
        self.assertEqual(again.get("/days")[0], 302)

    def with_cookie(self, value: str):  # type: ignore[no-untyped-def]
        client = self.app.test_client()
        client.set_cookie("desk", value) if hasattr(client, "_cookies") else client.set_cookie("localhost", "desk", value)
        return client

    def test_a_copy_of_a_cookie_after_the_log_out(self) -> None:
        browser = self.browser("sue")
        copy = self.with_cookie(cookie_of(browser))
        self.assertEqual(copy.get("/days").status_code, 200)
        self.assertEqual(browser.post("/logout")[0], 303)
        self.assertEqual(copy.get("/days").status_code, 302)

    def test_a_removed_user(self) -> None:
        """The session, the token and the streams end."""
        browser = self.browser("sue")
        answer = browser.client.get(f"{DAY}/events", buffered=False)
        parts = iter(answer.response)
        next(parts)
        taking = threading.Thread(target=list, args=(parts,), daemon=True)
        taking.start()
        run("user", "remove", self.path, "sue")
        self.assertEqual(browser.get("/days")[0], 302)
        taking.join(10)
        self.assertFalse(taking.is_alive())

    def test_a_removed_user_in_the_midst_of_an_upload(self) -> None:
        """What wasn't sent by then is not."""
        browser, rows = self.browser("sue"), b"nominate,,,FIRM,P,R1,D1,7\n" * 2000
        self.assertEqual(browser.get(DAY)[0], 200)
        made = self.desk.keepers[BOOK].call_all

        def remove_first(*words, **more):  # type: ignore[no-untyped-def]
            run("user", "remove", self.path, "sue")
            return made(*words, **more)

        with mock.patch.object(self.desk.keepers[BOOK], "call_all", remove_first):
            self.assertEqual(browser.post(f"{DAY}/upload", file=(io.BytesIO(rows), "x.csv"))[0], 403)
        self.assertEqual(len(self.desk.keepers[BOOK].view.calls), 0)


def cookie_of(browser) -> str:  # type: ignore[no-untyped-def]
    answer = browser.client.get("/days")
    request = answer.request if hasattr(answer, "request") else None
    return str(request.cookies["desk"])


class Passwords(PagesTest):
    def change(self, browser, old: str, new: str, again: str) -> tuple[int, str]:  # type: ignore[no-untyped-def]
        return browser.post("/password", old=old, new=new, again=again)  # type: ignore[no-any-return]

    def test_own_change(self) -> None:
        """Other sessions end; a wrong old password, a common new one and two that differ change nothing."""
        sue, other = self.browser("sue"), self.browser("sue")
        before = users_of(self.path / "users.toml")
        for old, new, again, words in (("wrong", NEW, NEW, "old password is wrong"), (PASSWORD, NEW, NEW + "x", "differ"),
                                       (PASSWORD, "password123", "password123", "common one"),
                                       (PASSWORD, "a", "a", "10 letters")):
            status, told = self.change(sue, old, new, again)
            self.assertEqual((status, words in told), (400, True))
        self.assertEqual(users_of(self.path / "users.toml"), before)
        self.assertEqual(self.change(sue, PASSWORD, NEW, NEW)[0], 200)
        self.assertEqual((sue.get("/days")[0], other.get("/days")[0]), (200, 302))
        self.assertNotEqual(self.browser("sue").status, 303)
        self.assertEqual(self.browser("sue", NEW).status, 303)

    def test_a_user_that_is_removed_meanwhile(self) -> None:
        """A change of its password doesn't bring it back."""
        from gasday_desk import entry
        sue = self.browser("sue")

        def remove_first(*_: object) -> None:
            run("user", "remove", self.path, "sue")

        with mock.patch.object(entry, "check_password", remove_first):
            self.assertEqual(self.change(sue, PASSWORD, NEW, NEW)[0], 400)
        self.assertNotIn("sue", users_of(self.path / "users.toml"))

    def test_twenty_wrong_tries(self) -> None:
        """They keep out nobody else who comes from the same address, whatever names were tried."""
        browser = self.browser()
        for at in range(20):
            browser.log_in("tim" if at < 5 else f"nobody{at // 5}", "wrong")
        self.assertEqual(self.browser("sam").status, 303)
        self.assertEqual(self.browser("sue").status, 303)
        self.assertEqual(browser.log_in("tim"), 429)


class Receipts(PagesTest):
    def setUp(self) -> None:
        super().setUp()
        self.browser("sue").nominate("70")
        self.browser("tim").nominate("40", "INT")
        sam = self.browser("sam")
        for kind in ("freeze", "settle"):
            sam.post(f"{DAY}/call/{kind}")

    def test_hashes_are_of_what_is_shown(self) -> None:
        """Nobody finds another one's quantity by trying which one gives the hash."""
        for user in ("sue", "tim", "ora"):
            for number in (3, 4):
                receipt = self.browser(user).json(f"{DAY}/calls/{number}.json")
                shown = [row_of(*row.split(",")) for row in receipt["reply"]]
                self.assertEqual(receipt["sha256_of_reply"], sha256_of(shown))
                if user == "tim":
                    self.assertEqual(self.searched(receipt), [])

    def searched(self, receipt: dict[str, str]) -> list[int]:
        """The quantities of sue's that would give the hash, with what tim sees besides."""
        head, kind = receipt["reply"][0].split(","), "bound" if receipt["kind"] == "freeze" else "sched"
        found = []
        for quantity in range(1000):
            if kind == "bound":
                rows = [row_of(*head), row_of("bound", 1, 1, 0, quantity), row_of("bound", 2, 1, 0, 40)]
            else:
                rows = [row_of(*head), row_of("total", 1, 0), row_of("sched", 1, quantity), row_of("sched", 2, 40)]
            if sha256_of(rows) == receipt["sha256_of_reply"]:
                found.append(quantity)
        return found

    def test_hashes_of_what_was_asked(self) -> None:
        """A settle stands in the file with the rows of everybody's lines; the hash is of its own row alone."""
        self.desk.close()
        (self.path / "desk.db").unlink()
        run("rebuild", self.path, "--gasday", self.program)
        self.desk = self.start()
        receipt = self.browser("tim").json(f"{DAY}/calls/4.json")
        self.assertEqual(receipt["sha256_of_rows"], sha256_of([row_of(*receipt["row"].split(","))]))

    def test_who_sees_all_has_the_hash_of_all(self) -> None:
        call = self.desk.keepers[BOOK].view.calls[3]
        receipt = self.browser("aud").json(f"{DAY}/calls/4.json")
        self.assertEqual((receipt["sha256_of_reply"], receipt["is_whole"]), (sha256_of(call.told), True))


class Bounded(PagesTest):
    def upload(self, data: bytes, user: str = "sue") -> tuple[int, str]:
        return self.browser(user).post(f"{DAY}/upload", file=(io.BytesIO(data), "x.csv"))

    def test_a_row_of_a_million_fields(self) -> None:
        began = time.monotonic()
        self.assertEqual(self.upload(b"a," * 1_900_000)[0], 400)
        self.assertLess(time.monotonic() - began, 5)

    def test_rows(self) -> None:
        for data, words in ((b"nominate,,,FIRM,P,R1,D1,7\n" * 20_200, "20,201 lines"), (b"\n" * 30_000, "30,001 lines")):
            status, told = self.upload(data)
            self.assertEqual((status, words in told), (400, True))

    def test_the_importer_has_little_time_and_memory(self) -> None:
        """What takes more of either ends by itself, and says so."""
        from gasday_desk import importing, uploads
        data = (b"nominate," + b"a," * 90 + b"\n") * 20_000
        for name, most in (("CPU_SECONDS", 1), ("MEMORY_BYTES", 60_000_000)):
            code = (f"import sys; from gasday_desk import importing; importing.{name} = {most};"
                    " sys.exit(importing.run(*sys.argv[1:]))")
            self.assertGreater(getattr(importing, name), most)
            with mock.patch.object(uploads, "RUN", ["-c", code]), self.assertRaisesRegex(Exception, "too long|memory"):
                uploads.imported(data)

    def test_one_file_of_a_user_at_once(self) -> None:
        """A second one is refused at once, and so is a fifth one of all; when they have ended the next is taken."""
        from gasday_desk.bounds import BOUNDS, TooMany
        held = [self.desk.bounds.take("uploads", name) for name in ("sue", "x", "y", "z")]
        self.assertEqual(self.upload(b"nominate,,,FIRM,P,R1,D1,7\n")[0], 429)
        self.assertEqual(self.upload(b"nominate,,,INT,P,R1,D1,7\n", "tim")[0], 503)
        with self.assertRaises(TooMany):
            self.desk.bounds.take("uploads", "new")
        for release in held:
            release()
            release()
        self.assertEqual(self.upload(b"nominate,,,FIRM,P,R1,D1,7\n")[0], 303)
        self.assertEqual(sum(self.desk.bounds.going.values()), 0)
        self.assertEqual(BOUNDS["uploads"].of_user, 1)

    def test_streams(self) -> None:
        """A user has four; those of all shippers leave the scheduler's own."""
        sue = self.browser("sue")
        answers = [sue.client.get(f"{DAY}/events", buffered=False) for _ in range(5)]
        self.assertEqual([one.status_code for one in answers], [200] * 4 + [429])
        for at in range(44):
            self.desk.bounds.take("streams", f"other{at}")
        self.assertEqual(self.browser("tim").client.get(f"{DAY}/events", buffered=False).status_code, 503)
        self.assertEqual(self.browser("sam").client.get(f"{DAY}/events", buffered=False).status_code, 200)
        for one in answers:
            one.close()

    @needs_waitress
    def test_threads_are_left_for_schedulers(self) -> None:
        from gasday_desk.bounds import BOUNDS
        from gasday_desk.serving import THREADS
        taken = sum(bound.of_all + bound.of_schedulers for name, bound in BOUNDS.items() if name in ("requests", "streams"))
        self.assertLess(taken, THREADS)

    def test_deeply_nested_json(self) -> None:
        from gasday_desk.people import new_token
        from gasday_desk.settings import write_users
        token, hashed = new_token()
        users = users_of(self.path / "users.toml")
        sue = users["sue"]
        write_users(self.path / "users.toml", {**users, "sue": type(sue)(sue.name, sue.party, sue.role, sue.password, (hashed,))})
        headers = {"Authorization": f"Bearer {token}", "Idempotency-Key": "12345678", "Content-Type": "application/json"}
        deep = "[" * 100_000 + "]" * 100_000
        for text in ("[" * 200_000, '{"kind": ' * 100_000, '{"kind": "nominate", "quantity": ' + deep + "}"):
            answer = self.app.test_client().post(f"/api/days/{BOOK}/calls", data=text, headers=headers)
            self.assertEqual(answer.status_code, 400)

    def test_letters_of_other_alphabets(self) -> None:
        """None becomes one of A to Z, in a form or in a file."""
        for field, text in (("contract", "f\u0131rm"), ("package", "stra\u00dfe"), ("package", "\ufb01ne"), ("package", "\u017f"),
                            ("quantity", "\u0667"), ("quantity", "\uff17")):
            status, told = self.browser("sue").post(f"{DAY}/call/nominate", **{
                "contract": "FIRM", "package": "P", "origin": "R1", "destination": "D1", "quantity": "7", field: text})
            self.assertIn(status, (400, 403), text)
        for names in ("FIRM,stra\u00dfe", "f\u0131rm,P", "FIRM,Caf\u00e9"):
            self.assertEqual(self.upload(f"nominate,,,{names},R1,D1,7\n".encode())[0], 400)
        self.assertEqual(len(self.desk.keepers[BOOK].view.calls), 0)


class Modes(PagesTest):
    def test_books_and_exports(self) -> None:
        """They are read by their owner and its group alone, whatever the umask of the desk."""
        for mask, date in ((0o000, "2026-03-09"), (0o077, "2026-03-10")):
            before = os.umask(mask)
            try:
                book = self.desk.open_day(self.desk.settings.pipelines[0], date, [])
            finally:
                os.umask(before)
            self.assertEqual(self.desk.folder.book_file(book).stat().st_mode & 0o777, 0o640)
        self.assertEqual((self.path / "users.toml").stat().st_mode & 0o777, 0o600)


if __name__ == "__main__":
    unittest.main()
