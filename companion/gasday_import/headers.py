"""Headers: which column of a file has which field of a row."""

import difflib
from dataclasses import dataclass, field

from .forms import FIELDS, Form, forms_of
from .log import Log, Place
from .titles import KIND_NAMES, OPTIONAL, all_names, names_in, names_of, rank
from .units import OURS, QUANTITIES, is_taken, units_in

WAYS = "name it so, or begin the header with # if each field stands where `gasday` has it"
# Fields that no column is taken for by its place: a column that is named otherwise may well be the other one of the two.
NEVER_TAKEN = {"FLOOR", "CEILING"}
LIKE = 0.75


@dataclass(frozen=True)
class Taken:
    """A row's fields in their own order, and what each is called if that isn't its number."""

    fields: tuple[str, ...]
    labels: tuple[str, ...] = ()


@dataclass(frozen=True)
class Columns:
    """Where a header has the fields of a form, each by its column from 0, or nowhere."""

    form: Form
    places: tuple[int | None, ...]
    is_plain: bool  # whether each that it has stands where it would stand without a header
    wrong: tuple[str, ...]  # why the header can't be followed
    taken: int | None = None  # the one field that no column is named for, where its own place has a name that none has
    labels: tuple[str, ...] = ()  # what people call the eight fields of a row, or the nine


def is_header(fields: tuple[str, ...]) -> bool:
    """Whether a first row names a column for the kind of row, and nothing else but fields."""
    names = [names_in(title) for title in fields]
    known = all_names() | set(KIND_NAMES)
    return any(set(name) & set(KIND_NAMES) for name in names[1:]) and all(known & set(name) for name in names if name)


def names_a_field(fields: tuple[str, ...]) -> bool:
    """Whether a row names at least one field, or the kind of row, so that it may be a header."""
    known = all_names() | set(KIND_NAMES)
    return any(known & set(names_in(title)) for title in fields)


def is_like(words: tuple[str, ...], names: tuple[str, ...]) -> bool:
    """Whether a title is a short or misspelt form of a field's name: `Cap`, or `capacty`, of capacity."""
    return any(name.startswith(word) or difflib.get_close_matches(word, [name], 1, LIKE)
               for word in words if len(word) > 1 for name in names)


def kind_column(names: list[tuple[str, ...]]) -> int | None:
    """The column that has the kind of row: the one that is named so, or else the first, if it doesn't name a field."""
    for name in KIND_NAMES:
        found = next((at for at, column in enumerate(names) if name in column), None)
        if found is not None:
            return found
    return 0 if not set(names[0]) & (all_names() - {"type"}) else None


@dataclass
class Header:
    """A file's first row, which names its columns."""

    place: Place
    titles: tuple[str, ...]
    log: Log
    found: dict[tuple[str, Form], Columns] = field(default_factory=dict)
    plain: dict[str, bool] = field(default_factory=dict)
    used: set[tuple[str, Form]] = field(default_factory=set)
    surplus: set[tuple[str, Form, int]] = field(default_factory=set)

    def __post_init__(self) -> None:
        self.names = [names_in(title) for title in self.titles]
        at = kind_column(self.names)
        if at is None:
            self.log.error(self.place, f"the header can't be followed: no column is named kind, {WAYS}")
        self.kind_at = at or 0

    def columns(self, kind: str, form: Form) -> Columns:
        if (kind, form) not in self.found:
            self.found[kind, form] = self.columns_of(kind, form)
        return self.found[kind, form]

    def columns_of(self, kind: str, form: Form) -> Columns:
        places, wrong = [], []
        for title in form:
            ranks = [(rank(kind, title, names), at) for at, names in enumerate(self.names) if at != self.kind_at]
            fits = sorted((fit, at) for fit, at in ranks if fit is not None)
            if len(fits) > 1 and fits[0][0] == fits[1][0]:
                wrong.append(f"columns {fits[0][1] + 1} and {fits[1][1] + 1} both name {names_of(kind, title)[0]}")
            places.append(fits[0][1] if fits else None)
        stays = self.kind_at == 0 and all(at is None or at == own for own, at in enumerate(places, 1))
        if stays:  # then a column without a name has what would stand there without a header
            places = [own if at is None and not self.is_named(own) else at for own, at in enumerate(places, 1)]
        lacking = [own for own, (title, at) in enumerate(zip(form, places, strict=True)) if at is None and title not in OPTIONAL]
        taken = lacking[0] if stays and len(lacking) == 1 and self.is_short(lacking[0] + 1, kind, form[lacking[0]]) else None
        if taken is not None:
            places[taken] = taken + 1
        elif lacking:
            wrong.append(f"no column is named {' or '.join(names_of(kind, form[own])[0] for own in lacking)}")
        wrong += [f"{self.label(at)} is in {unit}: {OURS}" for title, at in zip(form, places, strict=True)
                  if title in QUANTITIES and at is not None for unit in self.other_units(at)[:1]]
        labels = [*map(self.label, (self.kind_at, *places)), *[""] * (FIELDS - 1 - len(places))]
        return Columns(form, tuple(places), stays, tuple(wrong), taken, tuple(labels))

    def is_short(self, at: int, kind: str, title: str) -> bool:
        """Whether a column has a name that no field has, and that is like one of this field's."""
        is_strange = self.is_named(at) and not set(self.names[at]) & (all_names() | set(KIND_NAMES))
        return is_strange and title not in NEVER_TAKEN and is_like(self.names[at], names_of(kind, title))

    def other_units(self, at: int) -> list[str]:
        """The units that a column's title names and that no text has."""
        return [unit for unit in units_in(self.titles[at] if at < len(self.titles) else "") if not is_taken(unit)]

    def is_named(self, at: int) -> bool:
        return at < len(self.names) and bool(self.names[at])

    def label(self, at: int | None) -> str:
        title = self.titles[at].strip() if at is not None and at < len(self.titles) else ""
        return f'"{title}"' if title else "a column without a name" if at is None else f"column {at + 1}"

    def has(self, kind: str, title: str) -> bool:
        """Whether a column is named for a field of a kind of row."""
        return any(rank(kind, title, names) is not None for names in self.names)

    def forms(self, kind: str) -> tuple[Form, ...]:
        """The forms of a kind that the columns can have: confirmations name contracts where a column does."""
        forms = forms_of(kind)
        if kind != "respond":
            return forms
        if not self.has(kind, "CONTRACT"):
            return forms[:1]
        return forms if self.has(kind, "LINE") else forms[1:]

    def form_of(self, kind: str, fields: tuple[str, ...]) -> Form:
        """The form of a row: what it says itself, where its kind has several."""
        forms = self.forms(kind)
        if len(forms) == 1:
            return forms[0]
        title = "firm|interruptible" if kind == "contract" else "LINE"
        at = self.columns(kind, forms[0]).places[forms[0].index(title)]
        word = fields[at].strip().lower() if at is not None and at < len(fields) else ""
        return forms[word == "interruptible" if kind == "contract" else not word]

    def is_plain(self, kind: str) -> bool:
        """Whether rows of a kind stand as they would without a header, whatever their form."""
        if kind not in self.plain:
            self.plain[kind] = all(columns.is_plain and columns.taken is None and not columns.wrong and None not in columns.places
                                   for columns in (self.columns(kind, form) for form in self.forms(kind)))
        return self.plain[kind]

    def taken(self, kind: str, fields: tuple[str, ...], line: int) -> Taken | None:
        """The fields of a row in their own order; none where the header can't be followed."""
        columns = self.columns(kind, self.form_of(kind, fields))
        if (kind, columns.form) not in self.used:
            self.used.add((kind, columns.form))
            self.tell(kind, columns)
        if columns.is_plain and None not in columns.places:
            return Taken(fields)
        places = (self.kind_at, *columns.places)
        if columns.wrong or self.has_surplus(kind, columns, fields, line):
            return None
        values = [fields[at] if at is not None and at < len(fields) else "" for at in places]
        return Taken((*values, *[""] * (FIELDS - len(values))), columns.labels)

    def tell(self, kind: str, columns: Columns) -> None:
        """Tells how rows of a form are read, the first time that one comes."""
        for why in columns.wrong:
            self.log.error(self.place, f"the header can't be followed for {kind} rows: {why}; {WAYS}")
        if columns.taken is not None:
            name = names_of(kind, columns.form[columns.taken])[0]
            words = f"{self.label(columns.taken + 1)} is taken for {name} in {kind} rows"
            self.log.repair(self.place, "columns taken for the one that lacks", words, is_doubtful=True)
        if not columns.is_plain and not columns.wrong:
            words = f"the columns of {kind} rows are {', '.join(self.label(at) for at in columns.places if at is not None)}"
            self.log.repair(self.place, "columns taken by their names", words, is_doubtful=True)

    def has_surplus(self, kind: str, columns: Columns, fields: tuple[str, ...], line: int) -> bool:
        """Whether a column has something and no field's name, which is told once of it."""
        used = {self.kind_at, *columns.places}
        surplus = [at for at, text in enumerate(fields) if at not in used and text.strip()]
        for at in surplus[:1]:
            if (kind, columns.form, at) not in self.surplus:
                self.surplus.add((kind, columns.form, at))
                wanted = ", ".join(names_of(kind, title)[0] for title in columns.form)
                self.log.error(self.place, f"the header can't be followed for {kind} rows: line {line} has {fields[at].strip()!r}"
                                           f" in {self.label(at)} (column {at + 1}), which is none of {wanted}; {WAYS}")
        return bool(surplus)
