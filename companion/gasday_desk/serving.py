"""The server: waitress on one address, ended in order by SIGTERM and Ctrl-C."""

import logging
import logging.handlers
import signal
import sys
from collections.abc import Callable
from pathlib import Path
from types import FrameType
from typing import NoReturn

from waitress.server import create_server

from .desk import Desk
from .program import Failed
from .web import MOST_BYTES, app_of

# More than `bounds.BOUNDS` lets all requests and streams have together, so that a scheduler's request finds a thread free.
THREADS = 320
CONNECTIONS = 1000
LOG_BYTES, LOG_FILES = 10_000_000, 10


def log_to(folder: Path) -> None:
    """Keeps a log of who was refused what, and of what went wrong; no password, token or cookie is in it."""
    handler = logging.handlers.RotatingFileHandler(folder / "log" / "desk.log", maxBytes=LOG_BYTES, backupCount=LOG_FILES)
    handler.setFormatter(logging.Formatter("%(asctime)s %(levelname)s %(name)s %(message)s"))
    root = logging.getLogger()
    root.setLevel(logging.INFO)
    root.addHandler(handler)


def end_by_signal(desk: Desk) -> None:
    """SIGTERM ends the server as Ctrl-C does."""
    def end(number: int, frame: FrameType | None) -> NoReturn:
        desk.is_ending.set()
        raise SystemExit(0)
    signal.signal(signal.SIGTERM, end)


def serve(desk: Desk, host: str, port: int, ready: Callable[[], None]) -> None:
    """Serves until it is told to end, and then ends after the calls at hand."""
    try:
        server = create_server(
            app_of(desk), host=host, port=port, threads=THREADS, connection_limit=CONNECTIONS, ident="gasday-desk",
            max_request_body_size=MOST_BYTES, channel_timeout=60, expose_tracebacks=False,
            clear_untrusted_proxy_headers=not desk.settings.proxies)
    except OSError as error:
        desk.close()
        raise Failed(f"{host}:{port} can't be listened on: {error.strerror}; `listen` in desk.toml names another one") from None
    end_by_signal(desk)
    desk.start()
    ready()
    try:
        server.run()
    finally:
        desk.close()
        server.close()


def report(wrong: list[str]) -> None:
    """Prints what is wrong with some books; the server serves the others."""
    for words in wrong:
        print(f"gasday-desk: {words}", file=sys.stderr, flush=True)


def run_desk(folder: Path, program: str | None) -> int:
    desk = Desk(folder, program=program)
    log_to(folder)
    report(desk.wake())
    settings = desk.settings
    serve(desk, settings.host, settings.port, lambda: print(f"The desk of {folder} is http://{settings.host}:{settings.port}/",
                                                            file=sys.stderr, flush=True))
    return 0
