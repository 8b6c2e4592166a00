#!/usr/bin/env python3
"""kill_desk.py PROGRAM [KILLS] [USERS]

Kills a desk (SIGKILL) KILLS times, 200 without a number, at random moments under the calls of USERS users, 20 without a number:
in turn the server, which is started again, and the program that it drives. A user whose call isn't answered sends it again with
the same key. PROGRAM is the built `gasday`.

Afterwards the file has to audit, and has to have each answered call once, at the number and with the reply that was told.
What differs is printed. The last line is 'N answered, M differences', and the exit status is 0 only where there are none.
"""

import http.client
import os
import random
import signal
import sys
import tempfile
import threading
import time
from collections import Counter
from dataclasses import dataclass, field
from pathlib import Path

from desk_live import LiveDesk

BEFORE_A_KILL = (0.05, 0.6)
TRIES = 400


@dataclass
class Calls:
    """What the users were told, by the package of each call, which no other call has."""

    told: dict[str, tuple[int, str]] = field(default_factory=dict)
    lock: threading.Lock = field(default_factory=threading.Lock)
    over: threading.Event = field(default_factory=threading.Event)
    lost: int = 0


def answered(desk: LiveDesk, user: int, package: str, calls: Calls) -> None:
    """Sends a call until it is answered."""
    for _ in range(TRIES):
        try:
            status, told = desk.nominate(user, package, f"order-{package}")
        except (OSError, http.client.HTTPException):
            time.sleep(0.05)
            continue
        if status == 200:
            with calls.lock:
                calls.told[package] = int(told["call"]), told["reply"][0]
            return
        with calls.lock:
            calls.lost += 1
    raise SystemExit(f"the call {package} was never answered")


def use(desk: LiveDesk, user: int, calls: Calls) -> None:
    number = 0
    while not calls.over.is_set():
        answered(desk, user, f"U{user}N{number}", calls)
        number += 1


def kill(desk: LiveDesk, kills: int, chance: random.Random) -> Counter[str]:
    """Kills the server or the program, each time another one."""
    killed: Counter[str] = Counter()
    while sum(killed.values()) < kills:
        time.sleep(chance.uniform(*BEFORE_A_KILL))
        if sum(killed.values()) % 2:
            desk.end(signal.SIGKILL)
            desk.start()
            killed["server"] += 1
        else:
            for child in desk.children():
                os.kill(child, signal.SIGKILL)
                killed["program"] += 1
                break
    return killed


def differences(desk: LiveDesk, calls: Calls) -> list[str]:
    found = []
    audit = desk.program.ask("audit", str(desk.file)).first()
    if audit[0] != "replayed":
        found.append(f"gasday audit tells {','.join(audit)}")
    rows, told = desk.kept()
    packages = [row.split(",")[4] for row in rows]
    found += [f"{package} is there {count} times" for package, count in Counter(packages).items() if count > 1]
    for package, (number, reply) in calls.told.items():
        if not 1 <= number <= len(rows) or packages[number - 1] != package:
            found.append(f"{package} was told to be call {number}, and isn't")
        elif told[number - 1] != reply:
            found.append(f"{package} was told {reply}, and the file tells {told[number - 1]}")
    found += [f"{package} is kept, and nobody was told" for package in packages if package not in calls.told]
    return found


def main() -> int:
    if not 2 <= len(sys.argv) <= 4:
        print(str(__doc__).strip())
        return 2
    kills, users = (int(sys.argv[at]) if len(sys.argv) > at else default for at, default in ((2, 200), (3, 20)))
    with tempfile.TemporaryDirectory() as name:
        desk = LiveDesk(Path(name) / "desk", os.path.abspath(sys.argv[1]), users)
        desk.make_book()
        desk.start()
        calls = Calls()
        threads = [threading.Thread(target=use, args=(desk, at, calls)) for at in range(users)]
        for thread in threads:
            thread.start()
        try:
            killed = kill(desk, kills, random.Random(2016))
        finally:
            calls.over.set()
            for thread in threads:
                thread.join()
            desk.end()
        found = differences(desk, calls)
        for words in found:
            print(f"FAIL {words}")
        print(f"killed: {dict(killed)}; told to send again: {calls.lost}")
        print(f"{len(calls.told)} answered, {len(found)} differences")
    return 0 if calls.told and not found else 1


if __name__ == "__main__":
    sys.exit(main())
