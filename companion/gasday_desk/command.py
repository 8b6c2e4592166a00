"""The command: the folder of a desk, its users, its server, and what is taken out of it."""

import argparse
import getpass
import os
import sys
from collections.abc import Mapping, Sequence
from dataclasses import replace
from pathlib import Path

from gasday_report.ending import ends_in_order
from gasday_version import add_version

from .parties import check_party, meant
from .passwords import check_password
from .people import hash_of, new_token
from .program import Failed
from .settings import FOLDERS, PARTY, ROLES, USER, User, Wrong, change_users, users_of, write_whole

DESCRIPTION = """A live office of gas days in the browser, on books that files keep. It decides nothing itself: each answer is
that of the proved program `gasday`, shown once it is kept. The desk is not proved. docs/DESK.md says more.

Exit status: 0 after the end of a server or of what was asked, 2 after a fault of usage, settings, reading or writing."""

SETTINGS = """# The settings of this desk; docs/DESK.md tells all of them.
title = "Gas scheduling office"
listen = "127.0.0.1:8043"
# The zone by whose clock times are shown.
clock = "America/Chicago"
# Whether a reverse proxy before it brings TLS, and how many proxies stand there.
https = false
proxies = 0

[alarms]
# Whether each cycle is frozen at its confirmation time, and settled then; else the scheduler is reminded.
freeze = false
settle = false
remind_minutes = 30

# A pipeline for each folder in pipelines/, which has its texts pipeline.csv (segment, point and pool rows) and contracts.csv
# (contract rows). The names of its books begin with `book`, of at most 7 letters.
# [[pipeline]]
# name = "main"
# book = "MAIN"
# zone = "CST6CDT,M3.2.0,M11.1.0"
"""


def make_folder(path: Path, settings: str = SETTINGS) -> None:
    """An empty desk; a folder that has one is left as it is."""
    if (path / "desk.toml").exists():
        raise Wrong(f"{path} has a desk already; `gasday-desk run {path}` runs it")
    for name in FOLDERS:
        (path / name).mkdir(mode=0o750, parents=True, exist_ok=True)
    write_whole(path / "users.toml", b"", 0o600)
    write_whole(path / "desk.toml", settings.encode())


def init(options: argparse.Namespace) -> int:
    make_folder(options.folder)
    print(f"{options.folder} is made. Next: put a pipeline into {options.folder}/pipelines and desk.toml, add users by\n"
          f"  gasday-desk user add {options.folder} NAME --party PARTY --role {'|'.join(ROLES)}\n"
          f"and run it by\n  gasday-desk run {options.folder}")
    return 0


def typed_password() -> str:
    """A password from the terminal, typed twice."""
    try:
        password = getpass.getpass("Password: ")
        again = getpass.getpass("Once more: ")
    except (EOFError, OSError):
        raise Wrong("there is no terminal to type a password at; give it on standard input with --stdin") from None
    if again != password:
        raise Wrong("the two passwords differ")
    return password


def new_password(options: argparse.Namespace) -> str:
    """The password of a user, from standard input or from the terminal."""
    try:
        password = sys.stdin.readline().rstrip("\r\n") if options.stdin else typed_password()
    except UnicodeDecodeError:
        raise Wrong("the password on standard input is not text in UTF-8") from None
    check_password(password, options.name, options.party)
    return password


def with_article(role: str) -> str:
    return f"{'an' if role[0] in 'aeiou' else 'a'} {role}"


def add_user(options: argparse.Namespace) -> int:
    """A new user, or another password, party or role of one that is there."""
    if not USER.fullmatch(options.name) or not PARTY.fullmatch(options.party):
        raise Wrong("a user's name has small letters, digits, '.', '_' and '-'; a party's is 1 to 16 of A to Z, 0 to 9 and '-'")
    path = options.folder / "users.toml"
    users_of(path)  # a folder without users is reported before anybody types a password
    if not options.unnamed:
        check_party(options.folder, options.party, options.role)
    user = User(options.name, options.party, options.role, hash_of(new_password(options)))
    change_users(path, lambda users: users.update({user.name: user}))
    print(f"{user.name} is {with_article(user.role)} of {user.party}.")
    return 0


def known_user(users: Mapping[str, User], name: str) -> User:
    if name not in users:
        raise Wrong(f"there is no user {name}{meant(name, users)}; `gasday-desk user add` makes one")
    return users[name]


def add_token(options: argparse.Namespace) -> int:
    token, hashed = new_token()

    def add(users: dict[str, User]) -> None:
        user = known_user(users, options.name)
        users[user.name] = replace(user, tokens=(*user.tokens, hashed))

    change_users(options.folder / "users.toml", add)
    print(token)
    print("This token is shown once and stored nowhere. A program that has it may do what its user may.", file=sys.stderr)
    return 0


def remove_user(options: argparse.Namespace) -> int:
    """Takes a user away. The server sees it with the next request, and ends the user's streams within seconds."""
    def remove(users: dict[str, User]) -> None:
        del users[known_user(users, options.name).name]

    change_users(options.folder / "users.toml", remove)
    return 0


def run(options: argparse.Namespace) -> int:
    from .serving import run_desk
    return run_desk(options.folder, options.gasday)


def demo(options: argparse.Namespace) -> int:
    from .demo import run_demo
    return run_demo(options.folder, options.gasday, options.listen)


def export(options: argparse.Namespace) -> int:
    from .export import export_day
    print(export_day(options.folder, options.day, options.gasday, options.output))
    return 0


def rebuild(options: argparse.Namespace) -> int:
    from .rebuild import rebuild as rebuild_all
    for book, calls in rebuild_all(options.folder, options.gasday).items():
        print(f"{book}: {calls} calls entered" if calls else f"{book}: desk.db has all its calls")
    return 0


def add_folder(parser: argparse.ArgumentParser) -> None:
    parser.add_argument("folder", type=Path, metavar="FOLDER", help="the folder of the desk")


def add_people(parser: argparse.ArgumentParser) -> None:
    commands = parser.add_subparsers(required=True, metavar="COMMAND")
    added = commands.add_parser("add", help="add a user, or give one another password, party or role")
    add_folder(added)
    added.add_argument("name", metavar="NAME")
    added.add_argument("--party", required=True, help="the shipper or operator, or the pipeline's own name")
    added.add_argument("--role", required=True, choices=ROLES)
    added.add_argument("--stdin", action="store_true", help="read the password from standard input")
    added.add_argument("--unnamed", action="store_true", help="take a party that no file of the pipelines names")
    added.set_defaults(do=add_user)
    for name, do, words in (("token", add_token, "make a token, by which a program comes as this user"),
                            ("remove", remove_user, "take a user away, with its tokens and sessions")):
        other = commands.add_parser(name, help=words)
        add_folder(other)
        other.add_argument("name", metavar="NAME")
        other.set_defaults(do=do)


def parser_of() -> argparse.ArgumentParser:
    parser = argparse.ArgumentParser(prog="gasday-desk", description=DESCRIPTION,
                                     formatter_class=argparse.RawDescriptionHelpFormatter)
    add_version(parser)
    commands = parser.add_subparsers(required=True, metavar="COMMAND")
    for name, do, words in (("init", init, "make the folder of a desk"), ("run", run, "run the server of a desk")):
        added = commands.add_parser(name, help=words)
        add_folder(added)
        added.set_defaults(do=do)
        if name == "run":
            added.add_argument("--gasday", metavar="PROGRAM",
                               help="else the one that desk.toml names, the built one, or that on the PATH")
    shown = commands.add_parser("demo", help="make a desk with a pipeline, users and a day that has begun, and run it")
    shown.add_argument("folder", type=Path, metavar="FOLDER", nargs="?", default=Path("gasday-demo"), help="else gasday-demo")
    shown.add_argument("--gasday", metavar="PROGRAM")
    shown.add_argument("--listen", default="127.0.0.1:8043", metavar="ADDRESS", help="else 127.0.0.1:8043")
    shown.set_defaults(do=demo)
    add_people(commands.add_parser("user", help="the users of a desk"))
    again = commands.add_parser("rebuild", help="enter the calls of the books into a desk.db that was lost, or is an old copy")
    add_folder(again)
    again.add_argument("--gasday", metavar="PROGRAM")
    again.set_defaults(do=rebuild)
    taken = commands.add_parser("export", help="a day's text, file, answers and reports in one archive, with hashes")
    add_folder(taken)
    taken.add_argument("day", metavar="DAY", help="the name of its book, as MAIN-20260115")
    taken.add_argument("--gasday", metavar="PROGRAM")
    taken.add_argument("--output", type=Path, metavar="FILE", help="else archives/DAY.tar.gz in the folder")
    taken.set_defaults(do=export)
    return parser


@ends_in_order("gasday-desk")
def main(words: Sequence[str] | None = None) -> int:
    options = parser_of().parse_args(words)
    before = os.umask(0o027)
    try:
        return int(options.do(options))
    except (Wrong, Failed) as error:
        print(f"gasday-desk: {error}", file=sys.stderr)
    except ModuleNotFoundError as error:
        print(f"gasday-desk: Python has no {error.name}: apt-get install python3-flask python3-waitress, and run it by"
              " /usr/bin/python3", file=sys.stderr)
    finally:
        os.umask(before)
    return 2
