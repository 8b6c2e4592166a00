"""The server's application: who comes, what is let in, and what each answer is sent with. The pages are in `pages`, the
interface for other programs in `interface`."""

import logging
import secrets
from collections.abc import Callable, Sequence
from datetime import timedelta
from pathlib import Path
from typing import Any, TypeVar

from flask import Flask, Response, current_app, g, jsonify, render_template, request
from jinja2 import FileSystemLoader
from werkzeug.exceptions import HTTPException
from werkzeug.middleware.proxy_fix import ProxyFix
from werkzeug.routing import BaseConverter
from werkzeug.wrappers import Response as Answer

from .bounds import TooMany
from .calls import Forbidden, Unclear
from .clock import Stopped
from .desk import Desk
from .keeper import Keeper, Refused, Repeated, Resent
from .moments import shown, shown_short
from .permissions import PAGES, Viewer
from .program import Failed
from .sessions import SECONDS

LOG = logging.getLogger("gasday_desk.requests")
HERE = Path(__file__).resolve().parent
MOST_BYTES = 4_000_000
# A page asks for nothing from outside, and runs and shows nothing that isn't this server's own.
POLICY = ("default-src 'none'; style-src 'self'; script-src 'self'; img-src 'self'; connect-src 'self'; form-action 'self';"
          " frame-ancestors 'none'; base-uri 'none'")
# The report is one page with its own style and script within.
REPORT_POLICY = ("default-src 'none'; style-src 'unsafe-inline'; script-src 'unsafe-inline'; frame-ancestors 'none';"
                 " base-uri 'none'; form-action 'none'")
HEADERS = {"X-Content-Type-Options": "nosniff", "X-Frame-Options": "DENY", "Referrer-Policy": "same-origin",
           "Cross-Origin-Opener-Policy": "same-origin", "Cross-Origin-Resource-Policy": "same-origin"}


class Missing(Exception):
    """What an address names isn't there."""


View = TypeVar("View", bound=Callable[..., Any])


def desk() -> Desk:
    found = current_app.extensions["desk"]
    assert isinstance(found, Desk)
    return found


def viewer() -> Viewer:
    found = g.viewer
    assert isinstance(found, Viewer)
    return found


def page(name: str) -> Callable[[View], View]:
    """Notes the permission of a page, which is looked at before it is made."""
    assert name in PAGES

    def noted(view: View) -> View:
        view.permission = name  # type: ignore[attr-defined]
        return view

    return noted


def day(book: str) -> Keeper:
    """The open day of an address, or 404."""
    found = desk().keeper(book)
    if found is None:
        raise Missing("there is no such gas day")
    return found


# What is sent back.

def add_headers(response: Answer) -> Answer:
    for name, value in HEADERS.items():
        response.headers.setdefault(name, value)
    response.headers.setdefault("Content-Security-Policy", POLICY)
    response.headers.setdefault("Cache-Control", "no-store")
    if desk().settings.https:
        response.headers.setdefault("Strict-Transport-Security", "max-age=31536000")
    return response


def wants_json() -> bool:
    return request.path.startswith("/api/") or request.path.endswith(".json") or g.get("by_token", False)


def told(status: int, words: str, repeat: Sequence[tuple[str, str]] = ()) -> tuple[Answer | str, int]:
    """A refused request: logged with who and what, and answered in words. A form may be offered once more, as a repeat."""
    who = g.viewer.user.hide() if "viewer" in g and g.viewer.user else "nobody"
    LOG.warning("refused %d: %s, address %s, %s %r: %s", status, who, request.remote_addr, request.method, request.path[:200],
                words)
    if wants_json():
        return jsonify(error=words, status=status), status
    if "viewer" not in g:
        g.viewer = Viewer(None)
    return render_template("message.html", status=status, words=words, repeat=repeat), status


STATUS = {Missing: 404, Forbidden: 403, Unclear: 400, Stopped: 503, Resent: 409, Refused: 503, Failed: 503, TooMany: 503}


def tell_error(error: Exception) -> tuple[Answer | str, int]:
    status = next(status for kind, status in STATUS.items() if isinstance(error, kind))
    if isinstance(error, TooMany) and error.is_own:
        status = 429
    again: list[tuple[str, str]] = []
    if isinstance(error, Repeated) and not request.files:
        again = [(name, value) for name, value in request.form.items() if name not in ("csrf", "form", "repeat")]
    return told(status, f"calls are stopped: {error}" if isinstance(error, Stopped) else str(error), again)


def tell_http(error: HTTPException) -> tuple[Answer | str, int] | HTTPException:
    if error.code is None or error.code < 400:
        return error
    return told(error.code, error.description or error.name)


def tell_fault(error: Exception) -> tuple[Answer | str, int]:
    logging.getLogger("gasday_desk").exception("a fault of the desk at %s %r", request.method, request.path[:200])
    return told(500, "a fault of the desk; it is in the log")


# The application.

class BookConverter(BaseConverter):
    """A book's name in an address; what can't be one leads nowhere."""

    regex = "[A-Z0-9-]{1,7}-[0-9]{8}"


def context() -> dict[str, Any]:
    from .entry import csrf
    found = desk()
    return {"viewer": g.get("viewer", Viewer(None)), "title": found.settings.title, "csrf": csrf, "stopped": found.guard.reason,
            "form_token": lambda: secrets.token_urlsafe(16), "moment": lambda at: shown(at, found.settings.clock),
            "short": lambda at: shown_short(at, found.settings.clock),
            "clock": found.settings.clock}


def style() -> Response:
    return own_file("desk.css", "text/css")


def script() -> Response:
    return own_file("desk.js", "text/javascript")


def icon() -> tuple[str, int]:
    """There is none, and browsers ask for one."""
    return "", 204


def own_file(name: str, kind: str) -> Response:
    response = Response((HERE / name).read_bytes(), mimetype=kind)
    response.headers["Cache-Control"] = "max-age=300"
    return response


def app_of(made: Desk) -> Flask:
    """The application of a desk."""
    from . import entry, interface, pages

    app = Flask("gasday_desk", static_folder=None)
    app.url_map.converters["book"] = BookConverter
    app.jinja_env.trim_blocks = app.jinja_env.lstrip_blocks = True
    app.jinja_loader = FileSystemLoader(HERE)
    app.config.update(
        SECRET_KEY=made.secret, SESSION_COOKIE_NAME="desk", SESSION_COOKIE_HTTPONLY=True, SESSION_COOKIE_SAMESITE="Lax",
        SESSION_COOKIE_SECURE=made.settings.https, PERMANENT_SESSION_LIFETIME=timedelta(seconds=SECONDS),
        SESSION_REFRESH_EACH_REQUEST=False,
        MAX_CONTENT_LENGTH=MOST_BYTES, MAX_FORM_MEMORY_SIZE=MOST_BYTES, MAX_FORM_PARTS=50_000)
    app.extensions["desk"] = made
    app.add_url_rule("/desk.css", "style", style)
    app.add_url_rule("/desk.js", "script", script)
    app.add_url_rule("/favicon.ico", "icon", icon)
    app.register_blueprint(pages.PAGES)
    app.register_blueprint(interface.INTERFACE)
    app.before_request(entry.let_in)
    app.after_request(add_headers)
    app.teardown_request(entry.let_out)
    app.context_processor(context)
    for kind in STATUS:
        app.register_error_handler(kind, tell_error)
    app.register_error_handler(HTTPException, tell_http)
    app.register_error_handler(Exception, tell_fault)
    if made.settings.proxies:
        count = made.settings.proxies
        proxied = ProxyFix(app.wsgi_app, x_for=count, x_proto=count, x_host=count)
        setattr(app, "wsgi_app", proxied)  # noqa: B010 (it is a method, to which mypy lets nothing be assigned)
    return app
