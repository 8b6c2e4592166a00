"""The pages. Each table stands at its page's address, and with .csv or .json behind it."""

import logging
from collections.abc import Callable, Mapping
from typing import Any, TypeAlias

from flask import Blueprint, Response, g, jsonify, redirect, render_template, request, url_for
from werkzeug.wrappers import Response as Answer

from . import tables
from .alarms import reminders
from .calls import FIELDS, Forbidden, Unclear, Wish, asked_of, token_of
from .entry import change_password, end_session, log_in, still_here, take
from .keeper import Keeper, Refused, Told
from .moments import day_of, next_day, shown
from .program import Failed
from .rows import words_of
from .tables import Cell, Table
from .tomorrow import carried_rows
from .uploads import answers_of_upload
from .view import CYCLES, DayView
from .web import REPORT_POLICY, Missing, View, day, desk, page, viewer

LOG = logging.getLogger("gasday_desk")
PAGES = Blueprint("pages", __name__)
ENDINGS = ("", ".csv", ".json")
MOST_SHOWN, MOST_ANSWERS = 300, 20_000  # rows of a table on a page; its CSV has all
Made: TypeAlias = str | Answer


def tabled(rule: str, name: str) -> Callable[[View], View]:
    """A page with a table, at its address and with both endings."""
    def added(view: View) -> View:
        for ending in ENDINGS:
            endpoint = view.__name__ + ending.replace(".", "_")
            made = page(name)(with_ending(view, ending))
            PAGES.add_url_rule(rule + ending, endpoint, made)
        return view
    return added


def with_ending(view: Callable[..., Any], ending: str) -> Callable[..., Any]:
    def called(**words: Any) -> Any:
        g.ending = ending
        return view(**words)
    return called


def answered(table: Table, template: str = "table.html", **more: Any) -> Made:
    """A table as its address asks for it."""
    if g.ending == ".csv":
        response = Response(table.as_csv(), mimetype="text/csv")
        response.headers["Content-Disposition"] = f'attachment; filename="{table.name}.csv"'
        return response
    if g.ending == ".json":
        return jsonify(table.as_json())
    return render_template(template, table=table, most=MOST_SHOWN, address=request.path, **more)


def of_day(keeper: Keeper) -> dict[str, Any]:
    """What each page of a day shows at its top."""
    view = keeper.view
    return {"book": keeper.book, "view": view, "cycles": CYCLES, "version": keeper.version, "halted": keeper.halted}


# Who comes.

@PAGES.route("/login", methods=["GET", "POST"])
def login() -> Made:
    words = ""
    after = request.args.get("next", "")
    if request.method == "POST":
        if log_in(request.form.get("user", ""), request.form.get("password", "")):
            return redirect(after if is_own_address(after) else url_for("pages.home"), 303)
        words = "The user or the password is wrong."
    return render_template("login.html", words=words)


def is_own_address(address: str) -> bool:
    """Whether an address leads to no other server."""
    return address.startswith("/") and not address.startswith(("//", "/\\")) and "\\" not in address and address.isprintable()


@PAGES.route("/logout", methods=["POST"])
@page("home")
def logout() -> Made:
    end_session()
    return redirect(url_for("pages.login"), 303)


@PAGES.route("/password", methods=["GET", "POST"])
@page("home")
def password() -> Made:
    """Each user may have another password; its other sessions end then."""
    words, is_changed = "", False
    if request.method == "POST":
        words = change_password(*(request.form.get(name, "") for name in ("old", "new", "again")))
        is_changed = not words
    return Response(render_template("password.html", words=words, is_changed=is_changed), 400 if words else 200)


@PAGES.route("/clock", methods=["POST"])
@page("home")
def clock() -> Made:
    """A scheduler has looked at the clock."""
    if not viewer().may_call("clock"):
        raise Forbidden(f"the role {viewer().role} may not confirm the clock")
    desk().guard.confirm()
    return redirect(url_for("pages.home"), 303)


# Days.

def days_table() -> Table:
    table = Table("days", "Gas days", tables.columns("book", "pipeline", "date gas day", "cycle", "state", "#calls"))
    for book in desk().books():
        pipeline = desk().pipeline_of(book)
        keeper = desk().keepers.get(book)
        view = keeper.view if keeper else None
        known: list[Cell] = [CYCLES.get(view.cycle, ""), view.state, len(view.calls)] if view else ["", "", None]
        table.rows.append([book, pipeline.name if pipeline else "", f"{book[-8:-4]}-{book[-4:-2]}-{book[-2:]}", *known])
    return table


@tabled("/days", "home")
def days() -> Made:
    today = day_of(desk().clock.now(), desk().settings.clock).isoformat()
    return answered(days_table(), "home.html", pipelines=desk().settings.pipelines, tomorrow=next_day(today))


@PAGES.route("/")
@page("home")
def home() -> Made:
    return redirect(url_for("pages.days"))


@PAGES.route("/days/open", methods=["POST"])
@page("home")
def open_day() -> Made:
    """Opens a gas day, with what the day before carries over."""
    if not viewer().may_call("open"):
        raise Forbidden(f"the role {viewer().role} may not open a gas day")
    pipeline = next((one for one in desk().settings.pipelines if one.name == request.form.get("pipeline")), None)
    date = request.form.get("date", "")
    try:
        before = desk().keeper(f"{pipeline.book}-{next_day(date, -1).replace('-', '')}") if pipeline else None
    except (ValueError, OverflowError):
        raise Unclear("a gas day is a date of the form 2026-01-15") from None
    if pipeline is None:
        raise Unclear("there is no such pipeline")
    carried = [row for _, _, row in carried_rows(before.view)] if before else []
    return redirect(url_for("pages.one_day", book=desk().open_day(pipeline, date, carried)), 303)


@tabled("/days/<book:book>", "day")
def one_day(book: str) -> Made:
    keeper = day(book)
    now, settings = desk().clock.now(), desk().settings
    reminded = reminders(keeper.view, now, settings) if viewer().role == "scheduler" else []
    return answered(tables.cycle_table(keeper.view, now, settings.clock), "day.html", **of_day(keeper), reminders=reminded,
                    now=shown(now, settings.clock))


# Calls.

def call_and_show(keeper: Keeper, wish: Wish) -> Made:
    """Makes the call of a form, and leads to its receipt."""
    asked = asked_of(wish, viewer(), keeper.view, token_of(viewer(), request.form.get("form", "")))
    return shown_call(keeper, keeper.call(asked))


def shown_call(keeper: Keeper, told: Told) -> Made:
    if told.call is None:
        words = f"The call was not taken: {tables.answer_words(keeper.view, viewer(), told, desk().settings.clock)}."
        return Response(render_template("message.html", status=422, words=words, faults=told.told, **of_day(keeper)), 422)
    return redirect(url_for("pages.receipt", book=keeper.book, number=told.call.number), 303)


def wish_of(kind: str) -> Wish:
    fields = {name: request.form.get(name, "") for name in FIELDS[kind]}
    return Wish(kind, fields, request.form.get("rows", ""), is_repeat())


def is_repeat() -> bool:
    """Whether a form says that it is a new call, though one that lost its form asks for the same."""
    return request.form.get("repeat") == "yes"


@PAGES.route("/days/<book:book>/call/<kind>", methods=["POST"])
@page("day")
def make_call(book: str, kind: str) -> Made:
    """The one address to which forms of single calls go."""
    if kind not in FIELDS:
        raise Missing("there is no such call")
    return call_and_show(day(book), wish_of(kind))


@PAGES.route("/days/<book:book>/nominate")
@page("lines")
def nominate(book: str) -> Made:
    if not viewer().may_call("nominate"):
        raise Forbidden(f"the role {viewer().role} may not nominate")
    keeper = day(book)
    elements = keeper.view.opening.elements.values()
    return render_template("nominate.html", **of_day(keeper), contracts=tables.contract_table(keeper.view, viewer()),
                           lines=tables.line_table(keeper.view, viewer()), filled=request.args,
                           origins=[one.name for one in elements if one.kind in ("receipt", "pool")],
                           destinations=[one.name for one in elements if one.kind in ("delivery", "pool")])


@PAGES.route("/days/<book:book>/upload", methods=["POST"])
@page("lines")
def upload(book: str) -> Made:
    """A file of calls, through the importer; each row is answered by itself."""
    if not (viewer().may_call("nominate") or viewer().may_call("respond")):
        raise Forbidden(f"the role {viewer().role} may not upload calls")
    keeper = day(book)
    file = request.files.get("file")
    data = file.read() if file else b""
    token = token_of(viewer(), request.form.get("form", ""))
    release = take("uploads")
    try:
        answers_of_upload(desk(), keeper, viewer(), data, token, check_is_here(still_here()))
    finally:
        release()
    return redirect(url_for("pages.answers", book=book, token=request.form["form"]), 303)


def check_is_here(is_good: Callable[[], bool]) -> Callable[[], None]:
    """A check that fails once the session or token of an upload has ended, as where its user was removed."""
    def check() -> None:
        if not is_good():
            raise Forbidden("your session has ended; the rest of the file was not sent")
    return check


@PAGES.route("/days/<book:book>/answers/<token>")
@page("lines")
def answers(book: str, token: str) -> Made:
    """What became of the calls of a form with several."""
    keeper = day(book)
    told = [keeper.told_of(entry) for entry in keeper.journal.of_form(book, token_of(viewer(), token))]
    return render_template("answers.html", **of_day(keeper), most=MOST_ANSWERS,
                           table=tables.answer_table(keeper.view, viewer(), told, desk().settings.clock))


@tabled("/days/<book:book>/confirm", "confirmations")
def confirm(book: str) -> Made:
    keeper = day(book)
    return answered(tables.confirmation_table(keeper.view, viewer()), "confirm.html", **of_day(keeper))


@PAGES.route("/days/<book:book>/confirm", methods=["POST"])
@page("confirmations")
def confirm_several(book: str) -> Made:
    """Confirms what was filled in, or all silent ends as they are nominated."""
    if not viewer().may_call("respond"):
        raise Forbidden(f"the role {viewer().role} may not confirm")
    keeper, token = day(book), token_of(viewer(), request.form.get("form", ""))
    wishes = [(name, wish) for name, wish in responses_of(keeper.view, request.form)]
    asked = [asked_of(wish, viewer(), keeper.view, f"{token}.{name}") for name, wish in wishes]
    if not asked:
        raise Unclear("no quantity is filled in")
    keeper.call_all(asked)
    return redirect(url_for("pages.answers", book=book, token=request.form["form"]), 303)


def responses_of(view: DayView, form: Mapping[str, str]) -> list[tuple[str, Wish]]:
    if form.get("all"):
        return silent_ends(view, form.get("seen", ""))
    found = []
    for name, quantity in form.items():
        kind, _, rest = name.partition(" ")
        if kind == "quantity" and quantity.strip():
            line, _, end = rest.partition(" ")
            wish = Wish("respond", {"line": line, "end": end, "quantity": quantity}, is_repeat=is_repeat())
            found.append((f"{line}-{end}", wish))
    return found


def silent_ends(view: DayView, seen: str) -> list[tuple[str, Wish]]:
    """All silent ends, each with what the page showed as nominated: it was made after so many calls."""
    if not (seen.isascii() and seen.isdigit() and len(seen) < 10):
        raise Unclear("the form doesn't say what was seen; open it anew")
    found = []
    for row in tables.confirmation_table(view, viewer()).rows:
        nomination = view.lines[int(row[0] or 0) - 1].nominated(view.cycle, int(seen))
        if row[-1] == "silent" and nomination:
            wish = {"line": str(row[0]), "end": str(row[5]), "quantity": str(nomination.quantity)}
            found.append((f"{row[0]}-{row[5]}", Wish("respond", wish, is_repeat=is_repeat())))
    return found


@tabled("/days/<book:book>/calls", "calls")
def calls(book: str) -> Made:
    keeper = day(book)
    most = None if g.ending else MOST_SHOWN
    table = tables.call_table(keeper.view, viewer(), keeper.entries, desk().settings.clock, most)
    user = viewer().user
    lost = [one for one in keeper.journal.not_kept(book) if viewer().sees_all("calls") or (user and one.maker.user == user.name)]
    return answered(table, "calls.html", **of_day(keeper), lost=lost, words_of=words_of)


def receipt_or_none(keeper: Keeper, number: int) -> dict[str, Any]:
    call = keeper.view.calls[number - 1] if 1 <= number <= len(keeper.view.calls) else None
    if call is None:
        raise Missing("there is no such call")
    if not viewer().sees_call(keeper.view, call):
        raise Forbidden("this call is another party's")
    return tables.receipt_of(keeper.view, viewer(), call, keeper.entries.get(number), desk().settings.clock)


@PAGES.route("/days/<book:book>/calls/<int:number>")
@page("calls")
def receipt(book: str, number: int) -> Made:
    keeper = day(book)
    return render_template("receipt.html", **of_day(keeper), receipt=receipt_or_none(keeper, number))


@PAGES.route("/days/<book:book>/calls/<int:number>.json")
@page("calls")
def receipt_json(book: str, number: int) -> Made:
    return jsonify(receipt_or_none(day(book), number))


# Tables.

@tabled("/days/<book:book>/lines", "lines")
def lines(book: str) -> Made:
    keeper = day(book)
    return answered(tables.line_table(keeper.view, viewer()), **of_day(keeper))


@tabled("/days/<book:book>/contracts", "contracts")
def contracts(book: str) -> Made:
    keeper = day(book)
    return answered(tables.contract_table(keeper.view, viewer()), **of_day(keeper))


@tabled("/days/<book:book>/capacities", "capacities")
def capacities(book: str) -> Made:
    keeper = day(book)
    return answered(tables.capacity_table(keeper.view), "capacities.html", **of_day(keeper))


@tabled("/days/<book:book>/tomorrow", "tomorrow")
def tomorrow(book: str) -> Made:
    keeper = day(book)
    return answered(tables.tomorrow_table(keeper.view, viewer()), "tomorrow.html", **of_day(keeper))


@tabled("/days/<book:book>/schedules", "rounds")
def schedules(book: str) -> Made:
    keeper = day(book)
    return answered(tables.round_table(keeper.view), "rounds.html", **of_day(keeper))


def known_cycle(cycle: int) -> None:
    if cycle not in CYCLES:
        raise Missing("there is no such cycle")


@tabled("/days/<book:book>/schedules/<int:cycle>", "schedule")
def schedule(book: str, cycle: int) -> Made:
    known_cycle(cycle)
    keeper = day(book)
    answer = desk().answer(keeper, keeper.view.published(cycle))
    table = tables.schedule_table(keeper.view, viewer(), cycle, answer)
    return answered(table, "schedule.html", **of_day(keeper), answer=answer, cycle=cycle, round=keeper.view.published(cycle))


@tabled("/days/<book:book>/schedules/<int:cycle>/elements", "elements")
def elements(book: str, cycle: int) -> Made:
    known_cycle(cycle)
    keeper = day(book)
    return answered(tables.element_table(desk().answer(keeper, keeper.view.published(cycle))), **of_day(keeper))


@PAGES.route("/days/<book:book>/rounds/<int:number>/report")
@page("report")
def report(book: str, number: int) -> Made:
    """The report of a round as one page, as `gasday-report` makes it."""
    keeper = day(book)
    answer = desk().answer(keeper, next((one for one in keeper.view.rounds if one.number == number), None))
    if answer is None:
        raise Missing("this round has no answer yet")
    response = Response(answer.page(), mimetype="text/html")
    response.headers["Content-Security-Policy"] = REPORT_POLICY
    return response


@tabled("/days/<book:book>/impossible", "impossible")
def impossible(book: str) -> Made:
    keeper = day(book)
    one = keeper.view.declared
    if one is None:
        if g.ending:
            raise Missing("the cycle isn't impossible")
        return render_template("impossible.html", **of_day(keeper), cut=None, table=None)
    cut = desk().cut(keeper, one)
    return answered(tables.waiver_table(keeper.view, viewer(), cut), "impossible.html", **of_day(keeper), cut=cut, round=one)


@PAGES.route("/days/<book:book>/text")
@page("text")
def text(book: str) -> Made:
    """The text of the day, as its file keeps it."""
    response = Response(day(book).kept_text(), mimetype="text/csv")
    response.headers["Content-Disposition"] = f'attachment; filename="{book}.csv"'
    return response


# Without a login.

@tabled("/public", "public")
def public() -> Made:
    """The public page: of each pipeline's latest day constraints and room, and nothing of anybody's gas. A pipeline whose book
    can't be opened doesn't keep the others from being shown."""
    books: dict[str, str] = {}
    for book in desk().books():
        books.setdefault(book[:-9], book)
    table = Table("public", "Constraints and unsubscribed room", [])
    parts, missing = [], []
    for book in books.values():
        try:
            parts.append(public_part(book))
        except (Failed, Missing, Refused) as error:
            LOG.error("the public page lacks %s: %s", book, error)
            missing.append(book)
            continue
        _, date, cycle, part = parts[-1]
        table.columns = tables.columns("book", "date gas day", "cycle") + part.columns
        table.rows += [[book, date, cycle, *row] for row in part.rows]
    return answered(table, "public.html", parts=parts, missing=missing)


def public_part(book: str) -> tuple[str, str, str, Table]:
    """What the public page shows of a book."""
    keeper = day(book)
    view = keeper.view
    one = view.in_effect()
    part = tables.public_table(view, desk().answer(keeper, one), desk().contracted(keeper))
    return book, view.opening.date, CYCLES[one.cycle] if one else "", part
