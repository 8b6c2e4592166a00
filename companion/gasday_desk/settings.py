"""The settings of a desk: `desk.toml`, and its users in `users.toml`, in one folder with all that it keeps."""

import fcntl
import json
import os
import re
import tomllib
from collections.abc import Callable, Iterator, Mapping
from contextlib import contextmanager
from dataclasses import dataclass, field
from pathlib import Path
from typing import Any
from zoneinfo import ZoneInfo

from gasday_import.writing import whole

ROLES = ("shipper", "operator", "scheduler", "auditor")
# What the program takes as a name, and what a book's name has behind its pipeline's: -20260115.
PARTY = re.compile(r"[A-Z0-9-]{1,16}")
BOOK = re.compile(r"[A-Z0-9-]{1,7}")
USER = re.compile(r"[a-z0-9][a-z0-9._-]{0,31}")
FOLDERS = ("pipelines", "books", "archives", "log")


class Wrong(Exception):
    """The settings can't be used: which file, what is wrong, and what to do."""


@dataclass(frozen=True)
class User:
    name: str
    party: str
    role: str
    password: str  # its hash
    tokens: tuple[str, ...] = ()  # the hashes of those by which other programs come

    def hide(self) -> str:
        return f"{self.name} ({self.role}, {self.party})"


@dataclass(frozen=True)
class Pipeline:
    name: str
    book: str  # how the names of its books begin
    zone: str  # a POSIX rule, as a day row has it


@dataclass(frozen=True)
class Settings:
    title: str
    host: str
    port: int
    program: str | None
    clock: str  # the zone by whose clock times are shown
    https: bool  # whether a proxy brings TLS, so that cookies are sent by it alone
    proxies: int  # how many proxies stand before the desk, whose headers are believed
    freezes: bool
    settles: bool
    remind_minutes: int
    pipelines: tuple[Pipeline, ...] = ()


@dataclass(frozen=True)
class Folder:
    """The folder of a desk."""

    path: Path
    users: dict[str, User] = field(default_factory=dict)

    def at(self, *names: str) -> Path:
        return self.path.joinpath(*names)

    def book_file(self, book: str) -> Path:
        return self.at("books", f"{book}.book")


def read_toml(path: Path) -> dict[str, Any]:
    try:
        with path.open("rb") as file:
            return tomllib.load(file)
    except OSError as error:
        raise Wrong(f"{path} can't be read: {error.strerror}; `gasday-desk init FOLDER` makes one") from None
    except (tomllib.TOMLDecodeError, UnicodeDecodeError) as error:
        raise Wrong(f"{path} is no TOML: {error}") from None


class Fields:
    """The fields of a table in a file, each told by its name where it is wrong."""

    def __init__(self, path: Path, table: Mapping[str, Any], where: str) -> None:
        self.path, self.table, self.where = path, dict(table), where

    def text(self, name: str, default: str | None = None, form: re.Pattern[str] | None = None) -> str:
        found = self.table.pop(name, default)
        if not isinstance(found, str) or (form and not form.fullmatch(found)):
            raise Wrong(f"{self.path}: {self.where}{name} has to be a text" + (f" of the form {form.pattern}" if form else ""))
        return found

    def number(self, name: str, default: int, most: int) -> int:
        found = self.table.pop(name, default)
        if type(found) is not int or not 0 <= found <= most:
            raise Wrong(f"{self.path}: {self.where}{name} has to be a number from 0 to {most}")
        return found

    def truth(self, name: str, default: bool) -> bool:
        found = self.table.pop(name, default)
        if type(found) is not bool:
            raise Wrong(f"{self.path}: {self.where}{name} has to be true or false")
        return found

    def part(self, name: str) -> "Fields":
        found = self.table.pop(name, {})
        if not isinstance(found, dict):
            raise Wrong(f"{self.path}: {self.where}{name} has to be a table, [{name}]")
        return Fields(self.path, found, f"{self.where}{name}.")

    def parts(self, name: str) -> list["Fields"]:
        found = self.table.pop(name, [])
        if not isinstance(found, list) or not all(isinstance(one, dict) for one in found):
            raise Wrong(f"{self.path}: {self.where}{name} has to be tables, [[{name}]]")
        return [Fields(self.path, one, f"{self.where}{name} {at}: ") for at, one in enumerate(found, 1)]

    def texts(self, name: str) -> tuple[str, ...]:
        found = self.table.pop(name, [])
        if not isinstance(found, list) or not all(isinstance(one, str) for one in found):
            raise Wrong(f"{self.path}: {self.where}{name} has to be a list of texts")
        return tuple(found)

    def end(self) -> None:
        if self.table:
            raise Wrong(f"{self.path}: {self.where}{next(iter(self.table))} is not known")


def pipeline_of(fields: Fields) -> Pipeline:
    name = fields.text("name", form=re.compile(r"[a-z0-9][a-z0-9_-]{0,31}"))
    pipeline = Pipeline(name, fields.text("book", form=BOOK), fields.text("zone"))
    fields.end()
    return pipeline


def settings_of(path: Path) -> Settings:
    fields = Fields(path, read_toml(path), "")
    host, _, port = fields.text("listen", "127.0.0.1:8043", re.compile(r"[0-9a-z.:-]+:[0-9]{1,5}")).rpartition(":")
    alarms = fields.part("alarms")
    settings = Settings(
        fields.text("title", "Gas scheduling office"), host, int(port), fields.text("program", "") or None,
        fields.text("clock", "America/Chicago"), fields.truth("https", False), fields.number("proxies", 0, 9),
        alarms.truth("freeze", False), alarms.truth("settle", False), alarms.number("remind_minutes", 30, 1440),
        tuple(map(pipeline_of, fields.parts("pipeline"))))
    alarms.end()
    fields.end()
    check_settings(path, settings)
    return settings


def check_settings(path: Path, settings: Settings) -> None:
    try:
        ZoneInfo(settings.clock)
    except (KeyError, ValueError, OSError):
        raise Wrong(f"{path}: clock: there is no zone {settings.clock} (a name such as America/Chicago is wanted)") from None
    for names in ([one.name for one in settings.pipelines], [one.book for one in settings.pipelines]):
        if len(set(names)) < len(names):
            raise Wrong(f"{path}: two pipelines have the same name or book")


def user_of(fields: Fields) -> User:
    user = User(fields.text("name", form=USER), fields.text("party", form=PARTY), fields.text("role"), fields.text("password"),
                fields.texts("tokens"))
    if user.role not in ROLES:
        raise Wrong(f"{fields.path}: {fields.where}role is one of {', '.join(ROLES)}")
    fields.end()
    return user


def users_of(path: Path) -> dict[str, User]:
    fields = Fields(path, read_toml(path), "")
    found = list(map(user_of, fields.parts("user")))
    fields.end()
    users = {user.name: user for user in found}
    if len(users) < len(found):
        raise Wrong(f"{path}: a user is there twice")
    return users


def toml_text(text: str) -> str:
    """A text in quotation marks; JSON's escapes are TOML's."""
    return json.dumps(text).replace("\x7f", "\\u007f")


def write_users(path: Path, users: Mapping[str, User]) -> None:
    """Writes all users, whole or not at all, for the owner's eyes alone."""
    parts = []
    for user in users.values():
        lines = [f"{name} = {toml_text(getattr(user, name))}" for name in ("name", "party", "role", "password")]
        tokens = ", ".join(map(toml_text, user.tokens))
        parts.append("\n".join(["[[user]]", *lines, f"tokens = [{tokens}]", ""]))
    write_whole(path, "\n".join(parts).encode(), 0o600)


@contextmanager
def locked(path: Path) -> Iterator[None]:
    """Holds the lock of this file, which is made if it is not there; other processes and threads wait for it."""
    with open(os.open(path, os.O_RDWR | os.O_CREAT, 0o600), "rb") as file:
        give_to_owner(file.fileno(), path.parent)
        fcntl.flock(file, fcntl.LOCK_EX)
        yield


def give_to_owner(number: int, like: Path) -> None:
    """What root makes belongs to the owner of the folder, or of the file that it replaces, so that the server can read it."""
    if os.geteuid() == 0:
        owner = like.stat()
        os.fchown(number, owner.st_uid, owner.st_gid)


def change_users(path: Path, change: Callable[[dict[str, User]], None]) -> None:
    """Reads the users, changes them and replaces the file, with one lock around all three. So no change is lost."""
    try:
        with locked(path.with_name("users.lock")):
            users = users_of(path)
            change(users)
            write_users(path, users)
    except OSError as error:
        raise Wrong(f"{error.filename or path} can't be written: {error.strerror}") from None


def write_whole(path: Path, data: bytes, mode: int = 0o640) -> None:
    """Writes a file whole or not at all, with this mode whatever the umask is."""
    with whole(path, mode) as file:
        os.fchmod(file.fileno(), mode)
        give_to_owner(file.fileno(), path if path.exists() else path.parent)
        file.write(data)
