"""A session as a story: its moments over time with what the packs show then, their marks, and what is told of the whole. Every number of a gauge comes
from the proved programs, by way of view.explained."""
import functools
from dataclasses import dataclass, field
from fractions import Fraction
from typing import Iterable, Iterator, NamedTuple, Optional

from . import image, records, registers, report_amounts, report_saves, units, view
from .records import Piece, Record
from .report_marks import KINDS, Mark, command, marks, plain_kind
from .report_thin import Keeper
from .view import Explained, Seen

SERIES = ("charge", "active", "standby", "voltage", "current", "temperature", "FULL", "AE", "SE")
SENSED = ("charge", "current", "FULL", "AE", "SE")  # what the sense resistor turns from counts into units
READ_OFF = ("active", "standby", "voltage", "temperature", "FULL", "AE", "SE")  # what a reading moves
KIND_NAMES = {records.IMAGE: "pack", records.CAMERA: "pack", records.READING: "reading", records.CONVERSION: "conversion", records.SAMPLE: "sample",
              records.TRANSACTION: "transaction", records.LONG: "transaction", records.POWER_ON: "power-on"}
TOLD_ELSEWHERE = tuple(f"{name} " for name in (*SERIES, "average"))  # changes that have a column, or that the picture and the moment looked at show
NOBODY = -1  # the slot of a record that is of no pack, or of all
AGAIN = "″"  # the words of a further row of the same record


@dataclass
class Tick:
    """A tick of a pack's clock: how many ticks the record took that ends with it, and how many records came then that take no time."""
    at: int
    took: int = 0
    count: int = 0


@dataclass
class Clock:
    """A pack's time: a conversion is a tick, a sample as many as have passed since the one before. Over a power-on the clock stands still: what a logger
    counts from then on may begin anywhere, so the first sample takes no time."""
    here: Tick = field(default_factory=lambda: Tick(0))
    last: Optional[int] = None

    def take(self, piece: Piece, taken: bool) -> "tuple[Tick, int]":
        """The tick of a record, and its place among those of this tick that take no time; 0 is the end of the tick itself."""
        kind = plain_kind(piece)
        if taken and kind in (records.CONVERSION, records.SAMPLE) and isinstance(piece, Record):
            ticks = 1
            if kind == records.SAMPLE:
                tick = int.from_bytes(piece.payload[-2:], "little")
                ticks, self.last = 0 if self.last is None else (tick - self.last) % 65536, tick
            if ticks:
                self.here = Tick(self.here.at + ticks, ticks)
                return self.here, 0
        if taken and kind == records.POWER_ON:
            self.last = None
        self.here.count += 1
        return self.here, self.here.count


class Shows(NamedTuple):
    """What a pack shows: each value as a text, in the order of registers.shown; the flags; the numbers of SERIES, None where no event has set one; and
    whether it states no sense resistor, so that charges and currents are counts."""
    texts: "tuple[str, ...]"
    flags: str
    numbers: "tuple[Optional[float], ...]"
    counted: bool


@dataclass(eq=False)
class Moment:
    """A record as one pack meets it."""
    number: int
    slot: int
    tick: Tick
    step: int
    stretch: int
    kind: str
    words: str
    answer: int
    came: str
    shows: Optional[Shows]
    marks: "list[Mark]"
    at: float = 0.0  # where it stands on the axis: hours, or the number of its record

    def time(self) -> float:
        """Its time in ticks. Records that take no time are spread over the tick that comes next, in their order."""
        return self.tick.at + self.step / (self.tick.count + 1)


class Extreme(NamedTuple):
    """A value, and the record that it was shown behind."""
    value: float
    number: int


@dataclass
class Course:
    """How a value went: where it began and ended, and how far it went."""
    first: Extreme
    last: Extreme
    least: Extreme
    most: Extreme

    def then(self, value: Extreme) -> None:
        self.last = value
        self.least = min(self.least, value, key=lambda extreme: extreme.value)
        self.most = max(self.most, value, key=lambda extreme: extreme.value)


@dataclass
class Pack:
    """A pack of the story."""
    address: bytes
    kind: int
    clock: Clock = field(default_factory=Clock)
    seen: Optional[Seen] = None
    read: bool = False
    driven: bool = False
    stretch: int = 0
    counted: bool = False
    courses: "dict[str, Course]" = field(default_factory=dict)
    cells: bytes = b""

    def rsnsp(self) -> int:
        """The sense resistor that it states now, as 1/Ohm; 0 where it states none."""
        return self.seen.data[0x69] if self.seen else 0

    def note(self, piece: Piece, taken: bool) -> None:
        """What is there to be seen since the last power-on."""
        kind = plain_kind(piece)
        if taken and (kind in image.SIZE or kind == records.POWER_ON):
            self.read = self.driven = False
            self.stretch += 1
        self.read = self.read or taken and kind == records.READING
        self.driven = self.driven or taken and kind in (records.CONVERSION, records.SAMPLE)


@dataclass
class Story:
    """All of it. `kept` has the moments that are shown, all of them or the ones that thinning leaves; `rows` is how many there were."""
    name: str
    tray: bool
    packs: "list[Pack]" = field(default_factory=list)
    kept: "list[Moment]" = field(default_factory=list)
    rows: int = 0
    records: int = 0
    counts: "dict[str, int]" = field(default_factory=lambda: dict.fromkeys(KINDS, 0))
    remarks: "list[str]" = field(default_factory=list)
    timed: bool = False  # whether anything states a time: else the records themselves are the axis

    def end(self) -> float:
        """The end of the axis."""
        return max([moment.at for moment in self.kept], default=1.0) or 1.0

    def settle(self) -> None:
        """Once all has come: each moment gets its place, and no curve goes over from counts to units."""
        self.timed = any(pack.clock.here.at for pack in self.packs)
        for moment in self.kept:
            moment.at = moment.time() / units.TICKS_AN_HOUR if self.timed else float(moment.number)
            if moment.shows and moment.shows.counted != self.packs[moment.slot].counted:
                numbers = tuple(None if name in SENSED else here for name, here in zip(SERIES, moment.shows.numbers))
                moment.shows = moment.shows._replace(numbers=numbers)

    def of(self, slot: int) -> "list[Moment]":
        return [moment for moment in self.kept if moment.slot == slot]


@functools.lru_cache(maxsize=1024)
def shows(data: bytes, kind: int, read: bool, driven: bool) -> Shows:
    """What the map of a pack shows. FULL, AE and SE are shares of Full40; here they are charges, as the charge is."""
    values = registers.shown(data, kind)
    found = {value.name: float(value.value) for value in values}
    full40 = float(report_amounts.whole(data, 0x6A) * (units.CHARGE * data[0x69] * 1000 or 1))
    found.update({name: report_amounts.whole(data, at) * full40 / 16384 for name, at in (("FULL", 0x16), ("AE", 0x18), ("SE", 0x1A))})
    there = {name: read if name in READ_OFF else driven if name == "current" else True for name in SERIES}
    numbers = tuple(found[name] if there[name] else None for name in SERIES)
    texts = tuple(units.fixed(Fraction(value.value), value.places) + (" counts" if value.unit == "counts" else "") for value in values)
    return Shows(texts, " ".join(registers.flags(data)), numbers, not data[0x69])


def came_of(told: Explained, slot: int) -> str:
    """What came of a record, in words: why it was refused, what a reply says, and what changed that is not told elsewhere."""
    if told.answer:
        return f"refused with {told.answer}: {told.meaning}"
    said = [", ".join(told.spelt)] if told.spelt else ["reply " + told.reply.hex(" ").upper()] if told.reply else []
    return "; ".join([*said, *(change for change in told.changed.get(slot, []) if not change.startswith(TOLD_ELSEWHERE))])


class Teller:
    """Gathers the story of a session, record by record."""

    def __init__(self, name: str, tray: bool, most: int) -> None:
        self.story = Story(name, tray)
        self.keeper = Keeper(most, self.story.counts)
        self.line = Clock()
        self.session = bytearray()
        self.asked: "list[tuple[report_saves.Question, Moment, Pack]]" = []

    def tell(self, explained: Iterable[Explained]) -> Story:
        for told in explained:
            self.record(told)
        self.ask()
        self.story.kept = self.keeper.moments()
        self.story.settle()
        return self.story

    def slots(self, told: Explained) -> "list[int]":
        """The packs that a record is of: one row for each."""
        piece, packs = told.told.piece, self.story.packs
        if not self.story.tray:
            return [0] if packs else [NOBODY]
        if isinstance(piece, Record) and piece.kind in records.UNSLOTTED and piece.payload and piece.payload[0] < len(packs):
            return [piece.payload[0]]
        if told.answer == 0 and plain_kind(piece) in image.SIZE:
            return [len(packs) - 1]
        asked = command(piece)
        if asked is not None and asked.address:
            return [slot for slot, pack in enumerate(packs) if pack.address == asked.address] or [NOBODY]
        return list(told.changed) or [NOBODY]

    def record(self, told: Explained) -> None:
        piece, taken = told.told.piece, told.answer == 0
        self.story.records += 1
        if isinstance(piece, Record):
            self.session += piece.encoded()
            if taken and piece.kind in image.SIZE:
                self.story.packs.append(Pack(piece.payload[:8], piece.kind, Clock() if self.story.tray else self.line))
        for at, slot in enumerate(self.slots(told)):
            self.row(told, slot, told.words if at == 0 else AGAIN)
        for slot, seen in told.seen.items():
            self.story.packs[slot].seen = seen

    def row(self, told: Explained, slot: int, words: str) -> None:
        piece, taken = told.told.piece, told.answer == 0
        pack = self.story.packs[slot] if slot != NOBODY else None
        tick, step = (pack.clock if pack else self.line).take(piece, taken)
        if tick.at > self.line.here.at:
            self.line.here = Tick(tick.at)
        before, now = (pack.seen, told.seen.get(slot, pack.seen)) if pack else (None, None)
        read_before = pack.read if pack else False
        if pack:
            pack.note(piece, taken)
        kind = plain_kind(piece)
        shown = shows(now.data, now.kind, pack.read, pack.driven) if pack and now else None
        moment = Moment(told.number, slot, tick, step, pack.stretch if pack else 0, KIND_NAMES.get(kind, "other"), words, told.answer,
                        came_of(told, slot), shown, marks(told, pack.address if pack else b"", before, now))
        if pack and now and taken and report_saves.may_save(kind, read_before, before, now):
            asked = report_saves.Question(len(self.session), slot, pack.address, report_saves.shown(now))
            self.asked.append((asked, moment, pack))
            moment.marks.append(Mark("save", "saved: charge " + report_amounts.saved(asked.shown, pack.rsnsp())))
        self.add(moment, pack)

    def add(self, moment: Moment, pack: Optional[Pack]) -> None:
        self.story.rows += 1
        for mark in moment.marks:
            self.story.counts[mark.kind] += 1
        if pack and moment.shows and moment.shows.counted != pack.counted:  # counts and units are not told in one breath
            pack.counted = moment.shows.counted
            pack.courses = {name: course for name, course in pack.courses.items() if name not in SENSED}
        for name, value in zip(SERIES, moment.shows.numbers if moment.shows else ()):
            if pack and value is not None:
                here = Extreme(value, moment.number)
                if name in pack.courses:
                    pack.courses[name].then(here)
                else:
                    pack.courses[name] = Course(here, here, here, here)
        self.keeper.add(moment)

    def ask(self) -> None:
        """Asks the proved program of each save; a mark that it does not bear out goes. And what is saved at the end has to be what the last one saved."""
        story, session = self.story, bytes(self.session)
        found = report_saves.answers(session, [asked for asked, _, _ in self.asked], story.tray)
        for (asked, moment, pack), cells in zip(self.asked, found):
            if cells is not None and cells != asked.shown:
                moment.marks = [mark for mark in moment.marks if mark.kind != "save"]
                story.counts["save"] -= 1
            else:
                pack.cells = asked.shown
        unasked = sum(cells is None for cells in found)
        if unasked:
            story.remarks.append(f"{unasked:,} of {len(found):,} saves are told by RARC alone; the others were asked of the proved program.")
        for slot, pack in enumerate(story.packs):
            end = report_saves.saved(session, report_saves.Question(len(session), slot, pack.address, b""), story.tray)
            if end and pack.cells and end != pack.cells:
                story.remarks.append(f"At the end {report_amounts.saved(end, pack.rsnsp())} is saved, and no mark tells of it.")
            pack.cells = end or pack.cells


def tell(name: str, pieces: Iterator[Piece], tray: bool, most: int) -> Story:
    """The story of some records, with at most so many moments."""
    return Teller(name, tray, most).tell(view.explained(pieces, tray))


def fewer(moments: "list[Moment]", most: int, counts: "dict[str, int]") -> "list[Moment]":
    """The same moments, thinned to so many."""
    keeper = Keeper(most, counts)
    for moment in moments:
        keeper.add(moment)
    return keeper.moments()
