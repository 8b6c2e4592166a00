"""Who comes to the server: sessions, tokens, logins and passwords, and who is let in to which page."""

import logging
import secrets
import threading
from collections.abc import Callable
from dataclasses import replace
from functools import partial

from flask import abort, current_app, g, redirect, request, session, url_for
from werkzeug.wrappers import Response as Answer

from .desk import Desk
from .passwords import MOST_LETTERS, check_password
from .people import NOBODY, hash_of, is_password, token_hash
from .permissions import Viewer
from .settings import User, Wrong, change_users
from .web import MOST_BYTES, desk, viewer

LOG = logging.getLogger("gasday_desk.requests")
# So many passwords are hashed at once, since each takes 32 MB.
PASSWORDS = threading.Semaphore(4)
# What needs no login.
OPEN = ("login", "style", "script", "icon", "public", "public_csv", "public_json")


def key_of(user: User) -> str:
    """What a session is good for: it ends where the user gets another password, role or party."""
    return token_hash(f"{user.password} {user.role} {user.party}")[:32]


def user_of_session(made: Desk, number: object) -> User | None:
    """The user of a session that is on."""
    found = made.sessions.find(number) if isinstance(number, str) else None
    user = made.users().get(found.user) if found else None
    return user if found and user and secrets.compare_digest(found.key, key_of(user)) else None


def user_of_token(made: Desk, hashed: str) -> User | None:
    return next((user for user in made.users().values() if hashed in user.tokens), None)


def hash_in(header: str) -> str:
    """The hash of the token in a header; that of none is no token's."""
    kind, _, token = header.partition(" ")
    return token_hash(token.strip()) if kind.lower() == "bearer" and token.strip() else ""


def find_viewer() -> None:
    header = request.headers.get("Authorization", "")
    g.by_token = bool(header)
    user = user_of_token(desk(), hash_in(header)) if header else user_of_session(desk(), session.get("id"))
    g.viewer = Viewer(user)
    if header and user is None:
        abort(401, "the token is not known")


def still_here() -> Callable[[], bool]:
    """Whether the session or token of this request is still good, for what goes on after the request."""
    made, user, number, hashed = desk(), viewer().user, session.get("id"), hash_in(request.headers.get("Authorization", ""))
    return lambda: (user_of_token(made, hashed) if hashed else user_of_session(made, number)) == user is not None


def name_of_comer() -> str:
    """Under which name this request counts: the user's, or the address of a stranger."""
    user = viewer().user
    return user.name if user else f"at {request.remote_addr}"


def take(kind: str) -> Callable[[], None]:
    """Counts what this request begins, or refuses it."""
    return desk().bounds.take(kind, name_of_comer(), viewer().role == "scheduler")


def let_in() -> Answer | None:
    """Finds who comes, and lets in who may."""
    if (request.content_length or 0) > MOST_BYTES:
        abort(413, f"{MOST_BYTES:,} bytes are the most that is taken")
    find_viewer()
    g.release = take("requests")
    endpoint = request.endpoint or ""
    if endpoint.rpartition(".")[2] in OPEN or not endpoint:
        if request.method == "POST":
            check_csrf()
        return None
    if viewer().user is None:
        if request.method == "GET" and not request.path.endswith((".csv", ".json")) and not request.path.startswith("/api/"):
            return redirect(url_for("pages.login", next=request.path))
        abort(401, "log in first, or send a token")
    permission = getattr(current_app.view_functions[endpoint], "permission", None)
    if permission is None or not viewer().may_see(permission):
        abort(403, f"the role {viewer().role} may not see this")
    if request.method == "POST":
        check_csrf()
    return None


def let_out(error: BaseException | None = None) -> None:
    """The request is over."""
    release = g.pop("release", None)
    if release:
        release()


def check_csrf() -> None:
    """A form is of this session; a program's token is in no browser, and needs none."""
    if g.by_token:
        return
    sent = request.form.get("csrf", "")
    if not secrets.compare_digest(sent.encode(), str(session.get("csrf", "")).encode()) or not sent:
        abort(403, "the form is of no session, or of one that has ended; open it anew")


def csrf() -> str:
    if "csrf" not in session:
        session["csrf"] = secrets.token_urlsafe(24)
    return str(session["csrf"])


def is_right(name: str, password: str, user: User | None) -> bool:
    """Whether this is the user's password; 429 after too many wrong ones."""
    address = request.remote_addr or ""
    if not desk().tries.may_try(name[:64], address):
        abort(429, "too many wrong passwords; try again in a minute")
    release = take("logins")
    try:
        with PASSWORDS:
            is_own = len(password) <= MOST_LETTERS and is_password(password, user.password if user else NOBODY)
    finally:
        release()
    if user is None or not is_own:
        LOG.warning("wrong password: user %r, address %s", name[:64], address)
        return False
    desk().tries.was_right(name[:64], address)
    return True


def begin_session(user: User) -> None:
    """A session of its own number, and a cookie that has it."""
    end_session()
    session.permanent = True
    session["id"] = desk().sessions.begin(user.name, key_of(user))


def end_session() -> None:
    """Ends the session here, so that a copy of its cookie is good for nothing."""
    number = session.get("id")
    if isinstance(number, str):
        desk().sessions.end(number)
    session.clear()


def log_in(name: str, password: str) -> bool:
    user = desk().users().get(name)
    if not is_right(name, password, user) or user is None:
        return False
    begin_session(user)
    LOG.info("logged in: %s, address %s", user.hide(), request.remote_addr)
    return True


def change_password(old: str, new: str, again: str) -> str:
    """Gives the user who has logged in another password, or says why not. The user's other sessions end."""
    user = viewer().user
    assert user is not None
    if not is_right(user.name, old, user):
        return "The old password is wrong."
    if new != again:
        return "The two new passwords differ."
    try:
        check_password(new, user.name, user.party)
        with PASSWORDS:
            changed = replace(user, password=hash_of(new))
        change_users(desk().folder.at("users.toml"), partial(put_in_place, user, changed))
    except Wrong as wrong:
        return f"The password stays as it was: {wrong}."
    begin_session(changed)
    LOG.info("changed the password: %s, address %s", user.hide(), request.remote_addr)
    return ""


def put_in_place(old: User, new: User, users: dict[str, User]) -> None:
    """Changes a user who is still as the session found it; one who was removed meanwhile doesn't come back."""
    now = users.get(old.name)
    if now is None or key_of(now) != key_of(old):
        raise Wrong("the user was changed meanwhile; log in again")
    users[old.name] = replace(now, password=new.password)
