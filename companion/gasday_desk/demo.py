"""A desk to look at: a pipeline, shippers and operators, and a gas day that has begun by the server's clock.

What has happened on it so far is made up, its moments too; all of it was accepted or refused by the program.
"""

import csv
import io
import os
import secrets
import shutil
import sys
import webbrowser
from collections.abc import Iterator
from dataclasses import dataclass
from datetime import timedelta
from pathlib import Path

from .clock import Clock, Guard
from .command import make_folder
from .desk import Desk
from .journal import Maker
from .keeper import Asked, Keeper
from .moments import day_of
from .people import hash_of
from .program import Failed, Program, written
from .rows import of_kind
from .settings import User, Wrong, write_users, write_whole
from .view import CYCLES, Times

ZONE, CLOCK = "CST6CDT,M3.2.0,M11.1.0", "America/Chicago"
PIPELINE = """segment,NORTH-LEG,NORTHFIELD,MERGE,60000,,,
segment,WEST-LEG,WESTFIELD,MERGE,45000,,,
segment,TRUNK-1,MERGE,STATION,80000,,,
segment,TRUNK-2,STATION,CITY-GATE,80000,,,
segment,MILL-LATERAL,STATION,MILLTOWN,20000,,,
segment,RIVER-LEG,CITY-GATE,RIVERBEND,25000,,,
point,NORTH-PLANT,receipt,NORTHFIELD,NORTHCO,60000,,
point,WEST-PLANT,receipt,WESTFIELD,WESTCO,45000,,
point,MILL-POWER,delivery,MILLTOWN,MILLCO,20000,,
point,CITY-UTILITY,delivery,CITY-GATE,CITYCO,60000,,
point,RIVER-TOWN,delivery,RIVERBEND,RIVERCO,25000,,
pool,MERGE-POOL,MERGE,POOLCO,,,,
"""
CONTRACTS = """contract,HEAT,CITYGAS,firm,40000,NORTH-PLANT,CITY-UTILITY,
contract,RIVER,CITYGAS,firm,15000,WEST-PLANT,RIVER-TOWN,
contract,POWER,MILLCO,firm,12000,NORTH-PLANT,MILL-POWER,
contract,SPOT,TRADER,interruptible,30000,,,
contract,BULK,TRADER,interruptible,20000,2,,
"""
USERS = (("anna", "CITYGAS", "shipper"), ("tom", "TRADER", "shipper"), ("mia", "MILLCO", "shipper"),
         ("nora", "NORTHCO", "operator"), ("wes", "WESTCO", "operator"), ("carl", "CITYCO", "operator"),
         ("sam", "DEMO", "scheduler"), ("audrey", "DEMO", "auditor"))
SETTINGS = """title = "Demo pipeline"
listen = "{listen}"
clock = "{clock}"
program = {program}

[alarms]
freeze = false
settle = false

[[pipeline]]
name = "demo"
book = "DEMO"
zone = "{zone}"
"""
# Lines of the day: who nominates, the contract, both ends, the quantity in Timely, and in Evening where it changes.
LINES = (("anna", "HEAT", "NORTH-PLANT", "CITY-UTILITY", 30000, 38000), ("anna", "RIVER", "WEST-PLANT", "RIVER-TOWN", 12000, 0),
         ("mia", "POWER", "NORTH-PLANT", "MILL-POWER", 10000, 0), ("tom", "SPOT", "WEST-PLANT", "CITY-UTILITY", 20000, 0),
         ("tom", "BULK", "NORTH-PLANT", "MILL-POWER", 8000, 0), ("tom", "SPOT", "WEST-PLANT", "RIVER-TOWN", 6000, 0))
OPERATORS = {"NORTH-PLANT": ("nora", "NORTHCO"), "WEST-PLANT": ("wes", "WESTCO"), "CITY-UTILITY": ("carl", "CITYCO"),
             "MILL-POWER": ("milo", "MILLCO"), "RIVER-TOWN": ("rita", "RIVERCO")}


@dataclass
class Pretended(Guard):
    """A clock that shows the moment of what is made up."""

    at: int = 0

    def moment(self) -> int:
        return self.at


def maker_of(name: str) -> Maker:
    return next(Maker(user, role, party) for user, party, role in USERS if user == name)


def nomination(at: int, line: tuple[str, str, str, str, int, int], quantity: int, cycle: int) -> Asked:
    user, contract, origin, destination, _, _ = line
    maker = maker_of(user)
    fields = (maker.party, contract, "P", origin, destination, str(quantity))
    return Asked("nominate", fields, maker, f"demo-{cycle}-nominate-{at}")


def responses(at: int, line: tuple[str, str, str, str, int, int], quantity: int, cycle: int) -> Iterator[Asked]:
    for end, point in (("origin", line[2]), ("dest", line[3])):
        name, party = OPERATORS[point]
        yield Asked("respond", (party, str(at), end, str(quantity)), Maker(name, "operator", party), f"demo-{cycle}-{end}-{at}")


def made_up(cycle: int, times: Times) -> Iterator[tuple[int, Asked]]:
    """What happens in a cycle that is over, with the moments at which it does."""
    if cycle == 1:
        yield from ((times.leaves - 900 + at, nomination(at, line, line[4], 1)) for at, line in enumerate(LINES, 1))
        for at, line in enumerate(LINES, 1):
            yield from ((times.quick + 60 * at, asked) for asked in responses(at, line, line[4], 1))
    if cycle == 2:
        changed = [(at, line) for at, line in enumerate(LINES, 1) if line[5]]
        yield from ((times.leaves + at, nomination(at, line, line[5], 2)) for at, line in changed)
        for at, line in changed:
            yield from ((times.quick + 60 * at, asked) for asked in responses(at, line, line[5], 2))
    if cycle == 3:
        yield times.leaves - 600, Asked("post", ("TRUNK-1", "77000"), maker_of("sam"), "demo-3-post")
    for kind, behind in (("freeze", 0), ("settle", 30)):
        yield times.confirmed + behind, Asked(kind, (), maker_of("sam"), f"demo-{cycle}-{kind}")


def times_of(program: Program, date: str) -> dict[int, Times]:
    rows = program.ask("calendar", text=written([["day", date, ZONE, "", "", "", "", ""]])).rows()
    times = {int(row[1]): Times(*map(int, row[2:8])) for row in of_kind(rows, "cycle")}
    if len(times) != len(CYCLES):
        raise Failed(f"gasday calendar gives {date} no cycles")
    return times


def begun_day(program: Program, now: float) -> str:
    """The gas day that has begun and still takes nominations: today's, or the next one after today's last cycle."""
    today = day_of(now, CLOCK)
    is_over = now > times_of(program, today.isoformat())[5].received
    return (today + timedelta(days=1 if is_over else 0)).isoformat()


def pass_time(keeper: Keeper, guard: Pretended, now: float) -> None:
    """All cycles whose confirmation time has come are over."""
    for cycle, times in keeper.view.opening.times.items():
        if times.confirmed + 30 >= now:
            return
        for moment, asked in made_up(cycle, times):
            guard.at = moment
            keeper.call(asked)


def make_demo(folder: Path, program: str | None, listen: str, clock: Clock | None = None) -> str:
    """Makes the desk, its users and its day; the one password of its users."""
    clock = clock or Clock()
    named = f'"{Path(program).resolve()}"' if program else '""'
    make_folder(folder, SETTINGS.format(listen=listen, clock=CLOCK, zone=ZONE, program=named))
    pipeline = folder / "pipelines" / "demo"
    pipeline.mkdir(parents=True)
    write_whole(pipeline / "pipeline.csv", PIPELINE.encode())
    write_whole(pipeline / "contracts.csv", CONTRACTS.encode())
    password = "demo-" + secrets.token_hex(3)
    hashed = hash_of(password)
    write_users(folder / "users.toml", {name: User(name, party, role, hashed) for name, party, role in USERS})
    desk = Desk(folder, clock, program)
    try:
        book = desk.open_day(desk.settings.pipelines[0], begun_day(desk.program, clock.now()), [])
        guard = Pretended(clock, lambda reason: None)
        keeper = Keeper(desk.program, desk.folder.book_file(book), book, desk.journal, guard)
        try:
            pass_time(keeper, guard, clock.now())
        finally:
            keeper.close()
    finally:
        desk.close()
    return password


def check_texts() -> None:
    """Each row of the pipeline and the contracts has eight fields."""
    for row in csv.reader(io.StringIO(PIPELINE + CONTRACTS)):
        if len(row) != 8:
            raise Wrong(f"{row} has {len(row)} fields")


def make_whole(folder: Path, program: str | None, listen: str) -> None:
    """Makes the demo, or leaves no folder behind."""
    is_new = not folder.exists()
    try:
        write_whole(folder / "password", make_demo(folder, program, listen).encode(), 0o600)
    except BaseException:
        if is_new:
            shutil.rmtree(folder, ignore_errors=True)
        raise


def run_demo(folder: Path, program: str | None, listen: str) -> int:
    from .serving import log_to, report, serve
    kept = folder / "password"
    if (folder / "desk.toml").exists():
        if not kept.exists():
            raise Wrong(f"{folder} has a desk that is no demo; `gasday-desk run {folder}` runs it")
    else:
        check_texts()
        make_whole(folder, program, listen)
    desk = Desk(folder, program=program)
    log_to(folder)
    report(desk.wake())
    host, port = desk.settings.host, desk.settings.port
    address = f"http://{host}:{port}/days/{next(iter(desk.books()))}"

    def ready() -> None:
        print(f"The demo's desk is {address}\nIts users, all with the password {kept.read_text()}:", file=sys.stderr)
        for name, party, role in USERS:
            print(f"  {name:8} {role} of {party}", file=sys.stderr)
        print("Ctrl-C ends it; the same command goes on with it.", file=sys.stderr, flush=True)
        if os.environ.get("DISPLAY") or os.environ.get("WAYLAND_DISPLAY"):
            webbrowser.open(address)

    serve(desk, host, port, ready)
    return 0
