"""The interface for other programs: the same calls as JSON, and events that say that something changed."""

import time
from collections.abc import Callable, Iterator
from typing import Any

from flask import Blueprint, Response, jsonify, request
from werkzeug.wrappers import Response as Answer

from . import tables
from .calls import FIELDS, Unclear, Wish, asked_of, token_of
from .desk import Desk
from .entry import still_here, take
from .keeper import Keeper, Told
from .rows import words_of
from .web import day, desk, page, viewer

INTERFACE = Blueprint("interface", __name__)
# A stream says that it is there, and ends after a while; the browser comes again.
ALIVE_SECONDS, STREAM_SECONDS = 15.0, 600.0
PAUSE_SECONDS = 1.0


@INTERFACE.route("/api/days/<book:book>/calls", methods=["POST"])
@page("day")
def call(book: str) -> tuple[Answer, int]:
    """Makes a call. The same Idempotency-Key is the same call, however often it comes."""
    sent = sent_object()
    kind = str(sent.get("kind", ""))
    unknown = set(sent) - {"kind", "rows", "repeat", *FIELDS.get(kind, ())}
    if unknown:
        raise Unclear(f"{sorted(unknown)[0][:20]!r} is no field of {kind[:20]!r}")
    rows = sent.get("rows", [])
    if not isinstance(rows, list) or not all(isinstance(row, str) for row in rows):
        raise Unclear("rows are a list of texts")
    keeper = day(book)
    fields = {name: str(value) for name, value in sent.items() if name in FIELDS.get(kind, ())}
    wish = Wish(kind, fields, "\n".join(rows), sent.get("repeat") is True)
    token = token_of(viewer(), request.headers.get("Idempotency-Key", ""))
    return told_as_json(keeper, keeper.call(asked_of(wish, viewer(), keeper.view, token)))


def sent_object() -> dict[str, Any]:
    """The JSON object of a request."""
    try:
        sent = request.get_json(silent=True)
    except RecursionError:  # of lists within lists
        sent = None
    if not isinstance(sent, dict) or not all(isinstance(value, str | int | list) for value in sent.values()):
        raise Unclear('a call is a JSON object: {"kind": "nominate", "contract": .., ..}')
    if any(isinstance(value, bool) for name, value in sent.items() if name != "repeat"):
        raise Unclear("a field of a call is a text or a number; only repeat is true or false")
    return sent


def told_as_json(keeper: Keeper, told: Told) -> tuple[Answer, int]:
    if told.call is None:
        answer = {"book": keeper.book, "state": told.entry.state, "reply": [words_of(row) for row in told.told],
                  "told": tables.answer_words(keeper.view, viewer(), told, desk().settings.clock)}
        return jsonify(answer), 422 if told.told else 503
    receipt: dict[str, Any] = tables.receipt_of(keeper.view, viewer(), told.call, told.entry, desk().settings.clock)
    return jsonify({"state": told.entry.state, **receipt}), 200


@INTERFACE.route("/days/<book:book>/events")
@page("day")
def events(book: str) -> Response:
    """Server-sent events: one whenever the day has changed."""
    keeper = day(book)
    release = take("streams")  # a page that gets none asks again every half minute
    response = Response(stream_of(desk(), keeper, still_here()), mimetype="text/event-stream")
    response.headers["X-Accel-Buffering"] = "no"
    response.call_on_close(release)
    return response


def stream_of(made: Desk, keeper: Keeper, is_good: Callable[[], bool]) -> Iterator[str]:
    """The events of a day, until the server or the stream ends, or the session or token of who asked."""
    yield "retry: 5000\n\n"
    seen, until, quiet = -1, time.monotonic() + STREAM_SECONDS, 0.0
    while not made.is_ending.is_set() and time.monotonic() < until and is_good():
        with keeper.changed:
            if keeper.version == seen:
                keeper.changed.wait(PAUSE_SECONDS)
            version = keeper.version
        quiet = quiet + PAUSE_SECONDS if version == seen else 0.0
        if version != seen:
            seen = version
            yield f"event: changed\ndata: {version}\n\n"
            made.is_ending.wait(PAUSE_SECONDS)  # what changes meanwhile is one event
        elif quiet >= ALIVE_SECONDS:
            quiet = 0.0
            yield ": here\n\n"
