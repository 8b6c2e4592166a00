#!/usr/bin/env python3
"""desk_browser.py PROGRAM [PICTURES]

A whole gas day in headless Chromium, by four users: the worked day of examples/gas-day/five-cycles.csv, with a bump, a capacity
that is cut, an impossible cycle with a waiver, another one that is skipped, and a nomination that comes too late. What the pages
have to show stands in examples/README.md. PROGRAM is the built `gasday`; pictures of the pages go into the folder PICTURES.

It needs Flask, waitress, Selenium and Chromium (Debian: python3-flask python3-waitress python3-selenium chromium-driver). The
exit status is 0 only where all was as it has to be.
"""

import contextlib
import logging
import os
import sys
import tempfile
import threading
import time
from collections.abc import Iterator
from contextlib import contextmanager
from pathlib import Path
from typing import Any

from desk_helpers import PASSWORD, HandClock, hashed
from helpers import TOP
from selenium import webdriver
from selenium.common.exceptions import WebDriverException
from selenium.webdriver.common.by import By
from selenium.webdriver.support.ui import Select
from waitress.server import create_server

from gasday_desk.alarms import look_at
from gasday_desk.command import make_folder
from gasday_desk.desk import ALARM, Desk
from gasday_desk.moments import shown
from gasday_desk.rows import words_of
from gasday_desk.settings import Settings, User, write_users
from gasday_desk.web import app_of

SETTINGS = """title = "North pipeline"
listen = "127.0.0.1:0"
[[pipeline]]
name = "north"
book = "NORTH"
zone = "CST6CDT,M3.2.0,M11.1.0"
"""
USERS = (("uta", "UTILITY", "shipper"), ("tom", "TRADER", "shipper"), ("olga", "OPS", "operator"), ("sam", "NORTH", "scheduler"),
         ("audrey", "NORTH", "auditor"))
BOOK = "NORTH-20260115"
DAY = f"/days/{BOOK}"
# examples/README.md: what lines 1, 2 and 3 are scheduled for in each cycle; Intraday 2 is skipped.
SCHEDULED = {1: [30000, 15000, 0], 2: [40000, 10000, 0], 3: [33917, 2083, 0], 5: [36917, 2083, 0]}
# By hand: what each had before and was confirmed, less what it gets.
BUMPED = {2: {2: 15000 - 10000}, 3: {1: 40000 - 33917, 2: 10000 - 2083}}
WIDE, WIDER, NARROW = (1280, 900), (1920, 1080), (390, 844)
SIZES = {"desk": WIDE, "wide": WIDER, "phone": NARROW}
# At these widths too no table is cut off.
WIDTHS = (1300, 1366, 1440, 1600, 1760)
CUT_OFF = """return Array.from(document.querySelectorAll(".scroll")).map(part => part.scrollWidth - part.clientWidth)
    .concat([document.documentElement.scrollWidth - document.documentElement.clientWidth])"""
SECONDS = 20.0


def need(holds: object, words: str) -> None:
    if not holds:
        raise AssertionError(words)


def example_parts() -> tuple[list[str], list[list[str]]]:
    """The rows of the example before its day, of one operator alone, and its calls."""
    lines = (TOP / "examples" / "gas-day" / "five-cycles.csv").read_text().splitlines()
    for operator in ("PLANT-OPS", "MILL-OPS", "TOWN-OPS"):
        lines = [line.replace(operator, "OPS") for line in lines]
    at = next(at for at, line in enumerate(lines) if line.startswith("day,"))
    return lines[:at], [line.split(",") for line in lines[at + 2:]]


def make_desk(folder: Path, program: str, clock: HandClock) -> Desk:
    make_folder(folder, SETTINGS)
    users = {name: User(name, party, role, hashed()) for name, party, role in USERS}
    write_users(folder / "users.toml", users)
    rows, _ = example_parts()
    texts = folder / "pipelines" / "north"
    texts.mkdir()
    (texts / "pipeline.csv").write_text("".join(row + "\n" for row in rows if not row.startswith("contract,")))
    (texts / "contracts.csv").write_text("".join(row + "\n" for row in rows if row.startswith("contract,")))
    return Desk(folder, clock, program)


@contextmanager
def served(desk: Desk) -> Iterator[str]:
    """The desk's server in a thread of its own; its address."""
    server: Any = create_server(app_of(desk), host="127.0.0.1", port=0, threads=16)
    threading.Thread(target=server.run, daemon=True).start()
    try:
        yield f"http://127.0.0.1:{server.effective_port}"
    finally:
        desk.close()
        # (a thread that still answers would write to what is closed)
        server.task_dispatcher.shutdown()
        server.close()


def driver_of() -> Any:
    options = webdriver.ChromeOptions()
    for word in ("--headless=new", "--no-sandbox", "--disable-gpu", "--disable-dev-shm-usage", "--hide-scrollbars"):
        options.add_argument(word)
    options.set_capability("goog:loggingPrefs", {"browser": "ALL"})
    return webdriver.Chrome(options=options)


class People:
    """The users at one browser, each with the cookie of a login of its own."""

    def __init__(self, driver: Any, address: str, desk: Desk, clock: HandClock, pictures: Path | None) -> None:
        self.driver, self.address, self.desk, self.clock, self.pictures = driver, address, desk, clock, pictures
        self.cookies: dict[str, Any] = {}
        self.since: dict[str, float] = {}
        self.taken = 0
        self.driver.set_window_size(*WIDE)
        for name, _, _ in USERS:
            self.log_in(name)

    def log_in(self, name: str) -> None:
        self.driver.delete_all_cookies()
        self.go("/login")
        self.fill("user", name)
        self.fill("password", PASSWORD)
        self.press("Log in")
        need("Gas days" in self.text(), f"{name} isn't logged in: {self.text()[:200]}")
        self.cookies[name], self.since[name] = self.driver.get_cookie("desk"), self.clock.now()

    def be(self, name: str, address: str = DAY) -> None:
        """Somebody else sits down at the browser, on a page, and logs in again after eleven hours, since a session ends."""
        if self.clock.now() > self.since[name] + 11 * 3600:
            self.log_in(name)
        self.driver.delete_all_cookies()
        self.driver.add_cookie(self.cookies[name])
        self.go(address)

    def go(self, address: str) -> None:
        self.driver.get(self.address + address)

    def text(self) -> str:
        """What the page shows; one that is on its way is waited for."""
        until = time.monotonic() + SECONDS
        while True:
            try:
                return str(self.driver.find_element(By.TAG_NAME, "body").text)
            except WebDriverException:
                if time.monotonic() > until:
                    raise
                time.sleep(0.05)

    def fill(self, name: str, value: str) -> None:
        field = self.driver.find_element(By.NAME, name)
        field.clear()
        field.send_keys(value)

    def choose(self, name: str, value: str) -> None:
        select = Select(self.driver.find_element(By.NAME, name))
        values = [option.get_attribute("value") for option in select.options]
        select.select_by_index(values.index(value))

    def press(self, words: str) -> None:
        """Presses a button or follows a link of these words, and waits for the page that comes."""
        found = self.driver.find_elements(
            By.XPATH, f"//main//button[normalize-space()='{words}']|//main//a[normalize-space()='{words}']")
        need(found, f"there is no button '{words}' on {self.driver.current_url}: {self.text()[:600]}")
        self.driver.execute_script("arguments[0].scrollIntoView({block: 'center'})", found[0])
        found[0].click()
        until = time.monotonic() + SECONDS
        with contextlib.suppress(WebDriverException):
            while time.monotonic() < until:
                found[0].is_enabled()  # until it belongs to a page that has gone
                time.sleep(0.05)

    def wait_for(self, words: str) -> None:
        until = time.monotonic() + SECONDS
        while words not in self.text():
            need(time.monotonic() < until, f"'{words}' doesn't come: {self.text()[:600]}")
            time.sleep(0.1)

    def look(self, name: str) -> None:
        """Looks whether anything is cut off in several widths, and takes pictures of the page in three of them."""
        for width in WIDTHS:
            self.driver.set_window_size(width, WIDE[1])
            self.need_width(name, width)
        for kind, size in SIZES.items():
            self.driver.set_window_size(*size)
            self.need_width(name, size[0])
            if self.pictures:
                height = self.driver.execute_script("return document.documentElement.scrollHeight")
                self.driver.set_window_size(size[0], min(3000, max(size[1], int(height) + 90)))
                self.driver.save_screenshot(str(self.pictures / f"{name}-{kind}.png"))
        self.driver.set_window_size(*WIDE)

    def need_width(self, name: str, width: int) -> None:
        cut = max(self.driver.execute_script(CUT_OFF))
        need(cut <= 0, f"the page {name} lacks {cut} pixels at a width of {width}")

    def errors(self) -> list[str]:
        """What the browser has to complain of, but for addresses that answer with a refusal."""
        return [entry["message"] for entry in self.driver.get_log("browser")
                if entry["level"] == "SEVERE" and "Failed to load resource" not in entry["message"]]

    # What they do, row by row of the example.

    def nominate(self, row: list[str]) -> None:
        _, _, party, contract, package, origin, destination, quantity = row
        self.be(next(name for name, own, _ in USERS if own == party), f"{DAY}/nominate")
        self.choose("contract", contract)
        self.fill("package", package)
        self.choose("origin", origin)
        self.choose("destination", destination)
        self.fill("quantity", quantity)
        self.press("Nominate")
        need("Receipt of call" in self.text(), f"no receipt: {self.text()[:400]}")

    def respond(self, row: list[str]) -> None:
        _, _, _, line, end, quantity, _, _ = row
        self.be("olga", f"{DAY}/confirm")
        self.fill(f"quantity {line} {end}", quantity)
        self.press("Confirm what is filled in")
        need("1 accepted." in self.text(), f"not confirmed: {self.text()[:400]}")

    def post(self, row: list[str]) -> None:
        self.be("sam", f"{DAY}/capacities")
        self.choose("element", row[2])
        self.fill("capacity", row[3])
        self.press("Post")
        need("done, as event" in self.text(), f"not posted: {self.text()[:400]}")

    def name(self) -> str:
        view = self.desk.keepers[BOOK].view
        return {1: "Timely", 2: "Evening", 3: "Intraday 1", 4: "Intraday 2", 5: "Intraday 3"}[view.cycle]

    def freeze(self, row: list[str]) -> None:
        name, state = self.name(), self.desk.keepers[BOOK].view.state
        self.be("sam", f"{DAY}/impossible" if state == "impossible" else DAY)
        self.press(f"Freeze {name} again" if state == "impossible" else f"Freeze {name}")
        need("frozen as event" in self.text(), f"not frozen: {self.text()[:400]}")

    def settle(self, row: list[str]) -> None:
        name = self.name()
        self.be("sam")
        self.press(f"Solve and publish {name}")
        need("published as event" in self.text() or "has no schedule" in self.text(), f"not settled: {self.text()[:400]}")

    def waive(self, row: list[str]) -> None:
        """The cut and what the waiver frees: 42083 must leave where 36000 can, and the floor of 40000 falls to 8333."""
        self.be("sam", f"{DAY}/impossible")
        for words in ("6,083", "place NORTH", "31,667", "8,333", "PASS"):
            need(words in self.text(), f"'{words}' isn't on the page of the cut: {self.text()[:900]}")
        self.look("impossible")
        self.press(f"Waive line {row[2]}")
        need("done, as event" in self.text(), f"not waived: {self.text()[:400]}")

    def skip(self, row: list[str]) -> None:
        self.be("sam", f"{DAY}/impossible")
        self.press(f"Skip {self.name()}")
        need("done, as event" in self.text(), f"not skipped: {self.text()[:400]}")


def open_day(people: People) -> None:
    """The scheduler opens the day. Nothing is carried over, which makes no difference here, as the example says."""
    people.be("sam", "/days")
    people.driver.execute_script("document.querySelector('input[name=date]').value = '2026-01-15'")
    people.press("Open")
    need("Gas day 2026-01-15" in people.text(), f"no day: {people.text()[:400]}")


def play(people: People) -> None:
    """The calls of the example at their moments."""
    for number, row in enumerate(example_parts()[1], start=1):
        people.clock.pass_to(int(row[1]))
        if number == FIRST_FREEZE:
            check_live(people)
        else:
            getattr(people, row[0])(row)
        need(len(people.desk.keepers[BOOK].view.calls) == number, f"{number} calls were made, {row} not once")
        if number in PICTURED:
            name, user, address = PICTURED[number]
            people.be(user, address)
            people.look(name)


# Which call an alarm makes, while somebody looks.
FIRST_FREEZE = 9
# After so many calls: the picture's name, who looks, and at which page.
PICTURED = {5: ("confirm", "olga", f"{DAY}/confirm"), 11: ("nominate", "tom", f"{DAY}/nominate"), 13: ("day", "sam", DAY),
            15: ("schedule", "audrey", f"{DAY}/schedules/2"), 16: ("shipper", "tom", f"{DAY}/schedules/2")}


def check_pages(people: People) -> None:
    """What the pages show at the end is what the example says, and what the file tells once more."""
    people.be("audrey", f"{DAY}/calls")
    people.look("history")
    people.go(f"{DAY}/calls/32")
    need("DayClosed" in people.text(), "the last nomination came too late, and isn't told so")
    people.look("receipt")
    people.be("tom", f"{DAY}/lines")
    need("SPOT" in people.text() and "HEAT" not in people.text(), "a shipper sees another one's line")
    people.be("sam", f"{DAY}/tomorrow")
    need("carry,HEAT,BASE,PLANT,TOWN,36917" in people.text(), f"tomorrow carries something else: {people.text()[:400]}")
    people.look("tomorrow")
    people.driver.delete_all_cookies()
    people.go("/public")
    need("TRUNK" in people.text() and "UTILITY" not in people.text(), "the public page shows something else")
    people.look("public")


def check_schedules(people: People) -> None:
    people.be("audrey")
    for cycle, quantities in SCHEDULED.items():
        rows = people.driver.execute_async_script(
            "const done = arguments[arguments.length - 1];"
            f"fetch('{DAY}/schedules/{cycle}.json').then(answer => answer.json()).then(told => done(told.rows))")
        need([row["scheduled"] for row in rows] == quantities, f"cycle {cycle} shows {rows}")
        bumped = {row["line"]: row["bumped"] for row in rows if row["bumped"]}
        need(bumped == BUMPED.get(cycle, {}), f"cycle {cycle} shows {bumped} bumped")
    people.go(f"{DAY}/schedules/4")
    need("This cycle was skipped" in people.text(), "Intraday 2 isn't shown as skipped")


def check_live(people: People) -> None:
    """A page that is open shows a call of somebody else without a click."""
    keeper = people.desk.keepers[BOOK]
    people.be("tom")
    need("confirming" in people.text(), "the cycle isn't confirming")
    people.clock.pass_to(1768429800)
    asked = look_at(keeper.view, people.clock.now(), Settings("", "", 0, None, "UTC", False, 0, True, True, 30), ALARM)
    assert asked
    need(keeper.call(asked).told[0][0] == "frozen", "the alarm freezes nothing")
    people.wait_for("frozen")


def check_file(people: People, folder: Path, pages: list[str]) -> None:
    """The file audits, and `gasday text FILE | gasday day` tells what the pages showed."""
    file = folder / "books" / f"{BOOK}.book"
    audit = people.desk.program.ask("audit", str(file)).first()
    need(audit[:1] == ("replayed",), f"gasday audit tells {audit}")
    told = [words_of(row) for group in people.desk.program.kept_by(file).told for row in group]
    need(told == pages, f"the file tells {len(told)} rows, the receipts showed {len(pages)}, or others")


def receipts(people: People) -> list[str]:
    """What the receipts of all calls show as told."""
    people.be("audrey")
    rows: list[str] = []
    for number in range(1, len(people.desk.keepers[BOOK].view.calls) + 1):
        found = people.driver.execute_async_script(
            "const done = arguments[arguments.length - 1];"
            f"fetch('{DAY}/calls/{number}.json').then(answer => answer.json()).then(told => done(told.reply))")
        rows += found
    return rows


def main() -> int:
    # Who turns pages fast has more of them waiting for events than one user may; a page that gets none asks again later.
    logging.basicConfig(level=logging.ERROR)
    program = os.path.abspath(sys.argv[1])
    pictures = Path(sys.argv[2]) if len(sys.argv) > 2 else None
    if pictures:
        pictures.mkdir(parents=True, exist_ok=True)
    clock = HandClock(1768415000)
    with tempfile.TemporaryDirectory() as name:
        folder = Path(name) / "desk"
        desk = make_desk(folder, program, clock)
        driver = driver_of()
        try:
            with served(desk) as address:
                people = People(driver, address, desk, clock, pictures)
                open_day(people)
                play(people)
                check_pages(people)
                check_schedules(people)
                pages = receipts(people)
                errors = people.errors()
                need(not errors, f"the browser complains: {errors}")
            check_file(people, folder, pages)
        finally:
            driver.quit()
    print(f"{len(pages)} rows told on {len(desk.keepers[BOOK].view.calls)} receipts; the last at {shown(clock.now(), 'UTC')}")
    return 0


if __name__ == "__main__":
    sys.exit(main())
