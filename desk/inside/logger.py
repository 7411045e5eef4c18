"""A logger's CSV as readings and samples: rows with a time, a current, and perhaps a voltage and a temperature."""
import csv
import datetime
import re
from dataclasses import dataclass
from fractions import Fraction
from typing import Iterable, Iterator, NamedTuple, Optional

from . import records, units
from .packs import Pack
from .records import Record
from .slips import Place, Slip, nearest

NAMES = {"time": ("time", "timestamp", "date", "datetime", "t", "tick", "ticks"), "current": ("current", "i"),
         "voltage": ("voltage", "volt", "volts", "u", "v"), "temperature": ("temperature", "temp")}
USUAL = {"time": "s", "current": "mA", "voltage": "V", "temperature": "C"}
MOST_TICKS = 64
NUMBER = re.compile(r"[+-]?[0-9]{1,15}(\.[0-9]{1,15})?([eE][+-]?[0-9]{1,2})?$")
UNITS = {"A": "A, mA or uA", "V": "V or mV", "C": "C"}


class Column(NamedTuple):
    """A column of the file: where it stands, its name there and its unit."""
    at: int
    name: str
    unit: str


class Row(NamedTuple):
    """A row: its tick, and counts of what it has."""
    place: Place
    tick: int
    raw: Fraction
    volt: Optional[int]
    temp: Optional[int]


def split_name(name: str) -> "tuple[str, str]":
    """The name of a column without its unit, and the unit: `current [mA]`, `current (mA)`, `current_mA`."""
    bare = name.strip()
    marked = re.match(r"^(.*?)\s*[\[(]\s*([^\])]*?)\s*[\])]$", bare)
    if marked:
        return marked.group(1).strip().lower(), marked.group(2)
    parts = re.match(r"^(.*)_([A-Za-zµμ°]+)$", bare)
    if parts and parts.group(2) in ("A", "mA", "uA", "V", "mV", "C", "s", "ms", "min", "h", "ticks"):
        return parts.group(1).lower(), parts.group(2)
    return bare.lower(), ""


def columns(head: "list[str]", place: Place, wanted: "dict[str, str]") -> "dict[str, Column]":
    """Where each measure stands, by the names of the head; `wanted` has names that the call gives."""
    found: "dict[str, Column]" = {}
    for at, name in enumerate(head):
        bare, unit = split_name(name)
        for measure, known in NAMES.items():
            if (wanted[measure] in (name.strip(), bare)) if measure in wanted else bare in known:
                unit = "ticks" if bare in ("tick", "ticks") else unit or USUAL[measure]
                found.setdefault(measure, Column(at, name.strip(), unit))
    if len(head) == 1 and (";" in head[0] or "\t" in head[0]):
        raise Slip(place, "the cells of this file have semicolons or tabs between them", "expected commas, RFC 4180: write it anew as such a CSV, "
                   "with a point for decimals")
    for measure, name in wanted.items():
        if measure not in found:
            raise Slip(place, f"no column is called {name}", f"the columns are {', '.join(head)}; {nearest(name, [h.strip().lower() for h in head])}")
    for measure in ("time", "current"):
        if measure not in found:
            raise Slip(place, f"no column is the {measure}", f"call it {measure}, or name it: --{measure}=NAME. The columns are {', '.join(head)}")
    return found


@dataclass
class Logger:
    """Rows to records, for one pack."""
    pack: Pack
    wanted: "dict[str, str]"
    fill: bool = False
    began: Optional[datetime.datetime] = None

    def rows(self, file: str, lines: Iterable[str]) -> Iterator[Row]:
        taken = csv.reader(lines, strict=True)
        found: "Optional[dict[str, Column]]" = None
        try:
            for cells in taken:
                place = Place(file, taken.line_num, 1, ",".join(cells))
                if not any(cell.strip() for cell in cells):
                    continue
                if found is None:
                    found = self.head(cells, place)
                else:
                    yield self.row(cells, place, found)
            if found is None:
                raise Slip(Place(file, 1, 1, ""), "the file is empty", "expected a head with the names of the columns, as time,current")
        except csv.Error as fault:
            raise Slip(Place(file, taken.line_num, 1, ""), f"this is no CSV: {fault}", "expected rows of cells with commas between them, RFC 4180") from fault

    def head(self, cells: "list[str]", place: Place) -> "Optional[dict[str, Column]]":
        """The columns of the first row; None of a comment ahead of it, in which some loggers say who they are."""
        cells[0] = cells[0].lstrip("\ufeff")  # as some spreadsheets write it
        comment = cells[0].startswith("#")
        cells[0] = cells[0].lstrip("# ") if comment else cells[0]
        try:
            return columns(cells, place, self.wanted)
        except Slip:
            if not comment:
                raise
            return None

    def row(self, cells: "list[str]", place: Place, found: "dict[str, Column]") -> Row:
        def cell(measure: str) -> str:
            column = found.get(measure)
            return cells[column.at].strip() if column and column.at < len(cells) else ""

        def here(measure: str) -> Place:
            return place._replace(column=1 + sum(len(before) + 1 for before in cells[:found[measure].at]))

        if not cell("time") or not cell("current"):
            raise Slip(place, "this row has no time, or no current", f"expected a value under {found['time'].name} and under {found['current'].name}")
        volt, temp = (self.counts(self.amount(cell(measure), found[measure], here(measure), base) / weight, here(measure)) if cell(measure) else None
                      for measure, base, weight in (("voltage", "V", units.VOLTAGE[self.pack.kind]), ("temperature", "C", units.TEMPERATURE)))
        if not self.pack.rsnsp:
            raise Slip(place, "the pack states no sense resistor, so no current can be turned into counts", "give the pack one, as rsns 20 mOhm")
        raw = self.amount(cell("current"), found["current"], here("current"), "A") / (units.CURRENT * self.pack.rsnsp)
        self.counts(raw, here("current"))
        return Row(here("time"), self.tick(cell("time"), found["time"], here("time")), raw, volt, temp)

    @staticmethod
    def amount(cell: str, column: Column, place: Place, base: str) -> Fraction:
        """A cell in its base unit: A, V or C."""
        if not NUMBER.match(cell):
            raise Slip(place, f"{cell} is no number", f"expected one under {column.name}, with a point for decimals")
        number = Fraction(cell)
        if base == "C" and column.unit in ("C", "°C"):
            return number
        parts = units.split_unit(column.unit)
        if parts is None or parts[1] != base:
            raise Slip(place, f"{column.unit} is no unit of {column.name}", f"expected {UNITS[base]}")
        return number * parts[0]

    @staticmethod
    def counts(exact: Fraction, place: Place) -> int:
        number = units.rounded(exact)
        if not -(1 << 31) <= number < 1 << 31:
            raise Slip(place, f"that is {number} counts", "a record holds 32 bits: see whether the unit in the head is right")
        return number

    def tick(self, cell: str, column: Column, place: Place) -> int:
        """The tick of a time, from the start of the file: a number in the column's unit, or a date."""
        try:
            if re.match(r"\d{4}-\d{2}-\d{2}", cell):
                when = datetime.datetime.fromisoformat(cell.replace("Z", "+00:00"))
                self.began = self.began or when
                return units.rounded(Fraction((when - self.began) / datetime.timedelta(microseconds=1)) * Fraction(units.TICKS_AN_HOUR, 3600 * 10**6))
            if not NUMBER.match(cell):
                raise ValueError(cell)
            number = Fraction(cell)
        except (ValueError, TypeError):
            raise Slip(place, f"{cell} is no time", f"expected a number of {column.unit}, or a date as 2024-03-01T12:00:00, "
                       "all with a time zone or all without") from None
        if column.unit == "ticks":
            return units.rounded(number)
        if column.unit not in units.TIMES:
            raise Slip(place, f"{column.unit} is no unit of time", "expected s, min, h, d or ticks")
        return units.rounded(number * units.TIMES[column.unit])

    # ---- records

    def records(self, file: str, lines: Iterable[str]) -> Iterator[Record]:
        """A reading, where the row has both its values, and a sample for each tick that has rows: their mean current."""
        gathered: "list[Row]" = []
        last: Optional[int] = None
        for row in self.rows(file, lines):
            if gathered and row.tick < gathered[-1].tick:
                raise Slip(row.place, "time goes back here", "rows are to stand in the order of their times")
            if gathered and row.tick != gathered[-1].tick:
                yield from self.stretch(gathered, last)
                last = gathered[-1].tick
                gathered = []
            gathered.append(row)
        if gathered:
            yield from self.stretch(gathered, last)

    def stretch(self, rows: "list[Row]", last: Optional[int]) -> Iterator[Record]:
        tick = rows[0].tick
        raw = units.rounded(sum((row.raw for row in rows), Fraction(0)) / len(rows))
        if last is not None and tick - last > MOST_TICKS:
            if not self.fill:
                raise Slip(rows[0].place, f"{tick - last} ticks ({units.decimal(Fraction(tick - last, 1024) * 60, 1)} min) have passed since the row before",
                           "a sample covers at most 64 ticks, 3.75 min; --fill books this row's current for all of the gap")
            for at in range(last + MOST_TICKS, tick, MOST_TICKS):
                yield records.sample(raw, at % 65536)
        read = [row for row in rows if row.volt is not None and row.temp is not None]
        if read and read[-1].volt is not None and read[-1].temp is not None:
            yield records.reading(read[-1].volt, read[-1].temp)
        yield records.sample(raw, tick % 65536)
