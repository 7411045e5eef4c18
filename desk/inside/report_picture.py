"""The picture of a story, as SVG: charge, per cents, voltage, current and temperature over one axis of time, and a row of marks of each kind; of a tray a
strip for each pack. It is drawn by hand: docs/DECISIONS.md says why."""
from dataclasses import dataclass, field
from typing import Callable, Iterable, NamedTuple, Optional

from . import report_colours, report_scale, units
from .report_marks import KINDS
from .report_scale import Scale, exactly, path, short
from .report_story import NOBODY, SERIES, Moment, Pack, Story

Line = "list[tuple[float, float]]"
GUIDED = ("full", "empty", "save", "power-on")  # kinds of marks that a line through all curves goes with
LANE, CLOSE, MOST_DOTS = 20, 5.0, 150  # the height of a row of marks; marks of one kind that are nearer than this are one; readings up to which each has a dot

MOST_GUIDES = 12  # marks of a kind up to which a line goes with each
WIDE_LETTERS = "WMmw@%"
PLACES = {name: at for at, name in enumerate(SERIES)}


class Look(NamedTuple):
    """How wide a picture is, what is left free beside the curves, and how many ticks fit."""
    width: int
    left: int
    right: int
    tall: float
    hours: int
    prefix: str

    def inner(self) -> int:
        return self.width - self.right


WIDE = Look(960, 74, 118, 1.0, 10, "m")
NARROW = Look(360, 62, 12, 0.95, 4, "n")


def clean(text: str) -> str:
    """A text as XML and HTML take it anywhere, in attributes too; what no document may hold is shown as ?."""
    allowed = "".join(letter if letter in "\n\t" or letter.isprintable() else "?" for letter in text)
    return allowed.replace("&", "&amp;").replace("<", "&lt;").replace(">", "&gt;").replace('"', "&quot;").replace("'", "&#39;")


class Label(NamedTuple):
    """The name of a line, at its end."""
    y: float
    text: str
    style: str


@dataclass
class Sheet:
    """A picture while it is drawn, from the top down."""
    story: Story
    look: Look
    linked: bool
    parts: "list[str]" = field(default_factory=list)
    y: float = 8
    panels: "list[tuple[float, float]]" = field(default_factory=list)

    def __post_init__(self) -> None:
        first = 0.0 if self.story.timed else 1.0
        self.across = Scale(first, max(self.story.end(), first + 1e-9 if self.story.timed else 2.0), self.look.left, self.look.inner())

    def x(self, moment: Moment) -> float:
        return self.across.at(moment.at)

    def add(self, part: str) -> None:
        self.parts.append(part)

    def text(self, x: float, y: float, text: str, style: str = "", anchor: str = "start") -> None:
        end = "" if anchor == "start" else f' text-anchor="{anchor}"'
        room = self.look.width - x - 2
        if anchor == "start" and sum(11 if letter in WIDE_LETTERS else 7 for letter in text) > room:  # a wide name is made as narrow as the paper asks
            end += f' textLength="{short(room)}" lengthAdjust="spacingAndGlyphs"'
        self.add(f'<text x="{short(x)}" y="{short(y)}" class="{style}"{end}>{clean(text)}</text>')

    def rule(self, x1: float, y1: float, x2: float, y2: float, style: str) -> None:
        self.add(f'<path class="{style}" d="M{short(x1)} {short(y1)}L{short(x2)} {short(y2)}"/>')

    # ---- a panel: its name, its grid, and its lines

    def panel(self, name: str, height: float, low: float, high: float, most: int = 4) -> Scale:
        """Begins a panel, and gives its scale."""
        top = self.y + 20
        bottom = top + round(height * self.look.tall)
        self.text(self.look.left, self.y + 13, name, "name")
        scale = Scale(low, high, bottom, top)
        marks = report_scale.ticks(low, high, most)
        each = report_scale.step(high - low, most)
        for value in marks:
            self.rule(self.look.left, scale.at(value), self.look.inner(), scale.at(value), "grid")
            self.text(self.look.left - 8, scale.at(value) + 4, report_scale.written(value, each), "small quiet", "end")
        self.panels.append((top, bottom))
        self.y = bottom + 14
        return scale

    def curve(self, lines: "Iterable[list[tuple[float, float]]]", style: str) -> None:
        drawn = path(lines)
        if drawn:
            self.add(f'<path class="l {style}" d="{drawn}"/>')
            if "tube" in style.split():
                self.add(f'<path class="l core" d="{drawn}"/>')

    def labels(self, labels: "list[Label]", top: float, bottom: float) -> None:
        """Names of lines, moved apart where they would lie on each other."""
        placed: "list[tuple[float, Label]]" = []
        for label in sorted(labels, key=lambda each: each.y):
            y = max(label.y, top + 6, placed[-1][0] + 14 if placed else 0)
            placed.append((y, label))
        over = placed[-1][0] - (bottom + 2) if placed else 0
        for at in range(len(placed) - 1, -1, -1):
            most = placed[at + 1][0] - 14 if at + 1 < len(placed) else bottom + 2
            placed[at] = (min(placed[at][0], most) if over > 0 else placed[at][0], placed[at][1])
        beside = self.look.right > 60
        for y, label in placed:
            x = self.look.inner() + 8 if beside else self.look.inner() - 2
            anchor = "start" if beside else "end"
            if not beside:
                self.text(x, y - 4, label.text, "small halo", anchor)
            self.text(x, y + (4 if beside else -4), label.text, f"small {label.style}", anchor)


def value(moment: Moment, name: str) -> Optional[float]:
    return moment.shows.numbers[PLACES[name]] if moment.shows else None


def runs(sheet: Sheet, moments: "list[Moment]", name: str, scale: Scale, held: "Callable[[Moment], bool]") -> "list[list[tuple[float, float]]]":
    """The lines of a value: straight from moment to moment, or, where it is held, level up to a moment and then at once to its value."""
    lines: "list[list[tuple[float, float]]]" = []
    last: Optional[float] = None
    for moment in moments:
        here = value(moment, name)
        if here is None:
            last = None
            continue
        point = (sheet.x(moment), scale.at(here))
        if last is None:
            lines.append([])
        elif held(moment):
            lines[-1].append((point[0], last))
        lines[-1].append(point)
        last = point[1]
    return lines


def ended(moments: "list[Moment]", name: str) -> Optional[float]:
    """The last value of a line."""
    return next((here for here in (value(moment, name) for moment in reversed(moments)) if here is not None), None)


def values(moments: "list[Moment]", name: str) -> "list[float]":
    return [here for here in (value(moment, name) for moment in moments) if here is not None]


def units_of(pack: Optional[Pack]) -> "tuple[str, str]":
    return ("mA", "mAh") if pack is None or pack.rsnsp() else ("counts", "counts")


def charge_panel(sheet: Sheet, moments: "list[Moment]", name: str, unit: str, height: float) -> None:
    """The charge, with FULL, AE and SE; those that are too far away are named at the edge."""
    lines = {line: values(moments, line) for line in ("FULL", "AE", "SE")}
    charge = values(moments, "charge")
    there = report_scale.near(charge, lines)
    flat = 0.02 * max(charge, default=1.0) if len(set(charge)) < 2 else 0.0
    low, high = report_scale.span([*charge, *(each for line in there for each in lines[line])], flat or 0.01, 0.0)
    scale = sheet.panel(name, height, low, high, 4 if height > 100 else 3)
    top, bottom = sheet.panels[-1]
    labels = []
    for line in ("FULL", "AE", "SE"):
        last = ended(moments, line)
        if last is None:
            continue
        if line in there:
            sheet.curve(runs(sheet, moments, line, scale, lambda _: True), f"{line} thin")
            labels.append(Label(scale.at(last), line, line))
        else:
            above = last > high
            labels.append(Label(top - 2 if above else bottom + 2, f"{line} {exactly(last, 0)} {'↑' if above else '↓'}", line))
    sheet.curve(runs(sheet, moments, "charge", scale, lambda moment: moment.step > 0), "charge")
    last = ended(moments, "charge")
    if last is not None:
        labels.append(Label(scale.at(last), f"charge {exactly(last, 1)}" if unit == "mAh" else "charge", "charge"))
    sheet.labels(labels, top, bottom)


def percent_panel(sheet: Sheet, moments: "list[Moment]", height: float) -> None:
    """The two per cents. Where they lie on each other both are seen: one is hollow, and the other runs inside it."""
    both = values(moments, "active") + values(moments, "standby")
    low, high = report_scale.span(both, 4, 0, 100) if both else (0.0, 100.0)
    scale = sheet.panel("Left under load (active) and at rest (standby), %" if sheet.look.width > 600 else "Left: active, standby, %", height, low, high)
    top, bottom = sheet.panels[-1]
    sheet.curve(runs(sheet, moments, "active", scale, lambda _: True), "active tube")
    sheet.curve(runs(sheet, moments, "standby", scale, lambda _: True), "standby")
    sheet.labels([Label(scale.at(last), f"{name} {last:.0f} %", name) for name in ("active", "standby") for last in [ended(moments, name)] if last is not None],
                 top, bottom)


def measured_panel(sheet: Sheet, moments: "list[Moment]", name: str, title: str, height: float, least: float, limits: "dict[str, float]") -> None:
    """Voltage or temperature: a line from reading to reading, with a dot at each while they can be told apart."""
    read = [moment for moment in moments if value(moment, name) is None or moment.kind == "reading" and moment.answer == 0]
    there = values(read, name)
    shown = {text: limit for text, limit in limits.items() if there and min(there) - 1.0 <= limit <= max(there) + 1.0}
    low, high = report_scale.span([*there, *shown.values()], least)
    scale = sheet.panel(title, height, low, high, 3)
    top, bottom = sheet.panels[-1]
    for limit in shown.values():
        sheet.curve([[(sheet.look.left, scale.at(limit)), (sheet.look.inner(), scale.at(limit))]], "limit thin")
    sheet.curve(runs(sheet, read, name, scale, lambda _: False), name)
    if len(there) <= MOST_DOTS:
        dots = [(sheet.x(moment), scale.at(here)) for moment in read for here in [value(moment, name)] if here is not None]
        sheet.add(f'<g class="dot-{name}">' + "".join(f'<circle cx="{short(x)}" cy="{short(y)}" r="3"/>' for x, y in dots) + "</g>")
    last = ended(read, name)
    labels = [Label(scale.at(limit), text, "quiet") for text, limit in shown.items()]
    labels += [Label(scale.at(last), f"{exactly(last, 2)} V" if name == "voltage" else f"{exactly(last, 1)} °C", name)] if last is not None else []
    sheet.labels(labels, top, bottom)


def current_panel(sheet: Sheet, moments: "list[Moment]", unit: str, height: float) -> None:
    """The current: level over the time that a conversion or a sample stands for."""
    driven = [moment for moment in moments if moment.kind in ("conversion", "sample") and not moment.answer and value(moment, "current") is not None]
    low, high = report_scale.span([0.0, *values(driven, "current")], 1.0)
    scale = sheet.panel(f"Current, {unit} (above 0 it charges)", height, low, high, 3)
    top, bottom = sheet.panels[-1]
    line: "list[tuple[float, float]]" = []
    for moment in driven:
        began = sheet.across.at((moment.tick.at - moment.tick.took) / units.TICKS_AN_HOUR) if sheet.story.timed and moment.step == 0 else sheet.x(moment)
        y = scale.at(value(moment, "current") or 0.0)
        if line:
            line.append((began, line[-1][1]))
        line += [(began, y), (sheet.x(moment), y)]
    zero = scale.at(0.0)
    if line:
        sheet.add(f'<path class="area" d="{path([[(line[0][0], zero), *line, (line[-1][0], zero)]])}Z"/>')
        sheet.rule(sheet.look.left, zero, sheet.look.inner(), zero, "axis")
        sheet.curve([line], "current thin")
        last = ended(driven, "current")
        text = "" if last is None else f"{exactly(last, 1)} {unit}" if unit == "mA" else exactly(last, 0)
        sheet.labels([Label(line[-1][1], text, "current")], top, bottom)


# ---- marks

def shape(kind: str, x: float, y: float) -> str:
    """The sign of a kind of mark around a place."""
    at = f"M{short(x)} {short(y)}"
    drawn = {
        "full": f'<path d="{at}m-6 5h12l-6-11z"/>',
        "empty": f'<path class="open" d="{at}m-6-5h12l-6 11z"/>',
        "learn": f'<path d="{at}m0-7l6 7l-6 7l-6-7z"/>',
        "save": f'<path d="{at}m-5-5h10v10h-10z"/>',
        "power-on": f'<path class="open" d="{at}m-3.5-4a5.5 5.5 0 1 0 7 0m-3.5-3v7"/>',
        "copy": f'<path class="open" d="{at}m-6-6h8v8h-8zm4 4h8v8h-8z"/>',
        "lock": f'<path class="open" d="{at}m-5-1h10v7h-10zm2 0v-2a3 3 0 0 1 6 0v2"/>',
        "label": f'<path class="open" d="{at}m-7-4h8l5 4l-5 4h-8z"/>',
        "refused": f'<path class="open" d="{at}m-5-5l10 10m0-10l-10 10"/>',
    }
    return drawn[kind]


def anchor(moment: Moment, kind: str, tray: bool) -> str:
    return f"{moment.number}-{kind}" + (f"-{moment.slot}" if tray and moment.slot != NOBODY else "")


def row_of(moment: Moment, tray: bool) -> str:
    """The name of a moment's row in the table."""
    return f"r{moment.number}" + (f"-{moment.slot}" if tray and moment.slot != NOBODY else "")


def grouped(sheet: Sheet, moments: "list[Moment]", kind: str) -> "list[list[Moment]]":
    """The marks of a kind; those that would lie on each other are one."""
    groups: "list[list[Moment]]" = []
    for moment in moments:
        if not any(mark.kind == kind for mark in moment.marks):
            continue
        if groups and sheet.x(moment) - sheet.x(groups[-1][0]) < CLOSE and len(groups[-1]) < 1000:
            groups[-1].append(moment)
        else:
            groups.append([moment])
    return groups


def anchors(story: Story, look: Look) -> "dict[tuple[int, int, str], str]":
    """The name of the mark that stands for a record, by number, slot and kind: that of the first where several are one."""
    sheet = Sheet(story, look, True)
    rows = [story.of(slot) for slot in range(NOBODY, len(story.packs))] if story.tray else [story.kept]
    groups = [(kind, group) for moments in rows for kind in KINDS for group in grouped(sheet, moments, kind)]
    return {(moment.number, moment.slot, kind): look.prefix + anchor(group[0], kind, story.tray) for kind, group in groups for moment in group}


def mark(sheet: Sheet, group: "list[Moment]", kind: str, y: float) -> None:
    """A mark, which leads to its row where the picture is in a page."""
    first, tray = group[0], sheet.story.tray
    x = sheet.x(first)
    text = "; ".join(each.text for each in first.marks if each.kind == kind)
    hours = f", {first.at:.4f} h" if sheet.story.timed else ""
    said = f"{kind}, record {first.number}{hours}: {text}"
    if len(group) > 1:
        said = f"{kind}, {len(group)} times from record {first.number} to {group[-1].number}; the first: {text}"
    inside = f"<title>{clean(said)}</title>{shape(kind, x, y)}"
    if not sheet.linked:
        sheet.add(f'<g class="m-{kind}">{inside}</g>')
        return
    hit = f'<path class="hit" d="M{short(x - 10)} {short(y - 10)}h20v20h-20z"/>'
    numbers = " ".join(row_of(each, tray) for each in group)
    name = sheet.look.prefix + anchor(first, kind, tray)
    sheet.add(f'<a class="mark m-{kind}" href="#{row_of(first, tray)}" id="{name}" data-r="{numbers}">{inside}{hit}</a>')


def lanes(sheet: Sheet, moments: "list[Moment]") -> None:
    """A row of marks of each kind that there is."""
    there = [kind for kind in KINDS if any(mark.kind == kind for moment in moments for mark in moment.marks)]
    if not there:
        return
    sheet.text(sheet.look.left, sheet.y + 13, "Marks", "name")
    sheet.y += 22
    for kind in there:
        y = sheet.y + LANE / 2
        sheet.rule(sheet.look.left, y, sheet.look.inner(), y, "grid")
        sheet.text(sheet.look.left - 8, y + 4, kind, "small quiet", "end")
        groups = grouped(sheet, moments, kind)
        for group in groups:
            if kind in GUIDED and len(groups) <= MOST_GUIDES:
                guide(sheet, sheet.x(group[0]), kind)
            mark(sheet, group, kind, y)
        sheet.y += LANE
    sheet.y += 8


def guide(sheet: Sheet, x: float, kind: str) -> None:
    """A line through all panels at a mark."""
    lines = "".join(f"M{short(x)} {short(top)}V{short(bottom)}" for top, bottom in sheet.panels)
    sheet.parts.insert(0, f'<path class="guide m-{kind}" d="{lines}"/>')


def legend(sheet: Sheet, kinds: "list[str]") -> None:
    x = float(sheet.look.left)
    for kind in kinds:
        wide = 32 + 7 * len(kind)
        if x + wide > sheet.look.width:
            x, sheet.y = float(sheet.look.left), sheet.y + LANE
        sheet.add(f'<g class="m-{kind}">{shape(kind, x + 8, sheet.y + 8)}</g>')
        sheet.text(x + 20, sheet.y + 12, kind, "small quiet")
        x += wide
    sheet.y += LANE + 6


def axis(sheet: Sheet) -> None:
    """The axis of time."""
    story, scale = sheet.story, sheet.across
    each = report_scale.step(scale.high - scale.low, sheet.look.hours)
    sheet.rule(sheet.look.left, sheet.y, sheet.look.inner(), sheet.y, "axis")
    for place in report_scale.ticks(scale.low, scale.high, sheet.look.hours):
        if not story.timed and place != int(place):
            continue
        x = scale.at(place)
        sheet.rule(x, sheet.y, x, sheet.y + 5, "axis")
        sheet.text(x, sheet.y + 19, report_scale.written(place, each if story.timed else 1.0), "small quiet", "middle")
    ticks = max((pack.clock.here.at for pack in story.packs), default=0)
    said = f"hours; {ticks:,} ticks of 3600/1024 s, {spoken_time(ticks)} in all" if story.timed else "records: no time passes in them"
    if sheet.look.width < 600:
        said = f"hours; {ticks:,} ticks, {spoken_time(ticks)}" if story.timed else "records: no time passes"
    sheet.text(sheet.look.left, sheet.y + 38, said, "small quiet")
    sheet.y += 48


def spoken_time(ticks: int) -> str:
    """A number of ticks as people say it."""
    seconds = ticks * 3600 / units.TICKS_AN_HOUR
    for size, unit in ((86400, "d"), (3600, "h"), (60, "min")):
        if seconds >= 2 * size:
            return f"{seconds / size:,.1f} {unit}"
    return f"{seconds:,.0f} s"


def plain(sheet: Sheet) -> None:
    """The picture of one pack: a panel for each thing that there is something to show of."""
    story = sheet.story
    pack = story.packs[0] if story.packs else None
    moments = story.of(0)
    flow, charge = units_of(pack)
    limits = {}
    if pack and pack.seen:
        limits = {"VAE": 4 * pack.seen.data[0x66] * float(units.VOLTAGE[pack.kind]), "VCHG": 4 * pack.seen.data[0x64] * float(units.VOLTAGE[pack.kind])}
    there = [name for name in SERIES if values(moments, name)]
    if "charge" in there:
        charge_panel(sheet, moments, f"Charge, {charge}", charge, 170)
    if "active" in there:
        percent_panel(sheet, moments, 90)
        measured_panel(sheet, moments, "voltage", "Voltage, V", 100, 0.1, limits)
    if "current" in there:
        current_panel(sheet, moments, flow, 80)
    if "temperature" in there:
        measured_panel(sheet, moments, "temperature", "Temperature, °C", 70, 2.0, {})
    lanes(sheet, story.kept)


def strips(sheet: Sheet) -> None:
    """The picture of a tray: a strip for each pack, with its marks below it."""
    story = sheet.story
    for slot, pack in enumerate(story.packs):
        moments = story.of(slot)
        label = pack.seen.label if pack.seen else ""
        last = ended(moments, "active")
        unit = [f"charge, {units_of(pack)[1]}"] if sheet.look.width > 600 or slot == 0 and not label.strip() else []
        name = " · ".join([f"Slot {slot}", *([label] if label.strip() else []), *([f"{last:.0f} %"] if last is not None else []), *unit])
        charge_panel(sheet, moments, name, units_of(pack)[1], 64)
        marked(sheet, moments)
    rest = story.of(NOBODY)
    if any(moment.marks for moment in rest):
        sheet.text(sheet.look.left, sheet.y + 13, "Of no pack, or of all", "name")
        sheet.y += 20
        marked(sheet, rest)
    if sheet.look.width < 600:
        sheet.text(sheet.look.left, sheet.y + 10, "The curves are charges, " + " and ".join(sorted({units_of(pack)[1] for pack in story.packs})), "small quiet")
        sheet.y += LANE
    legend(sheet, [kind for kind in KINDS if story.counts[kind]])


def marked(sheet: Sheet, moments: "list[Moment]") -> None:
    """All marks of some moments, in as few rows as they need."""
    groups = sorted(((sheet.x(group[0]), kind, group) for kind in KINDS for group in grouped(sheet, moments, kind)), key=lambda each: each[0])
    ends: "list[float]" = []  # of each row so far
    for x, kind, group in groups:
        row = next((at for at, end in enumerate(ends) if end < x), len(ends))
        ends[row:row + 1] = [x + 16]
        mark(sheet, group, kind, sheet.y + 2 + row * (LANE - 3))
    for row in range(max(1, len(ends))):
        sheet.parts.insert(0, f'<path class="grid" d="M{sheet.look.left} {short(sheet.y + 2 + row * (LANE - 3))}H{sheet.look.inner()}"/>')
    sheet.y += (LANE - 3) * max(1, len(ends)) + 5


def drawn(story: Story, look: Look, linked: bool) -> str:
    """The picture as an SVG element. In a page it is linked with the table, and a line can be moved over it."""
    sheet = Sheet(story, look, linked)
    (strips if story.tray else plain)(sheet)
    axis(sheet)
    height = round(sheet.y)
    top, bottom = (sheet.panels[0][0], sheet.panels[-1][1]) if sheet.panels else (0, height)
    size = f'viewBox="0 0 {look.width} {height}"'
    if linked:
        line = f'<path class="cursor" visibility="hidden" d="M0 {short(top)}V{short(bottom)}"/>'
        data = f'data-left="{look.left}" data-right="{look.inner()}" data-low="{sheet.across.low:g}" data-high="{sheet.across.high!r}"'
        data += f' data-strips="{" ".join(short(top) for top, _ in sheet.panels)}"' if story.tray else ""
        return f'<svg {size} {data} class="{look.prefix}" role="group" aria-label="{clean(title(story))}">{"".join(sheet.parts)}{line}</svg>'
    return "".join(sheet.parts)


def title(story: Story) -> str:
    labels = [pack.seen.label for pack in story.packs if pack.seen]
    drawn = "charge and per cent of each pack" if story.tray else "charge, per cents, voltage, current and temperature"
    return f"Picture of {', '.join(labels) or story.name}: {drawn} over time, with marks"


def headline(story: Story) -> str:
    """Whose picture it is, in a few words."""
    labels = [pack.seen.label for pack in story.packs if pack.seen and pack.seen.label.strip()]
    whose = "a tray" if story.tray else labels[0] if labels else story.name
    return f"{whose}: {story.records:,} record{'s' * (story.records != 1)}"


def alone(story: Story, described: str, dark: bool = True) -> str:
    """The picture as a file of its own."""
    sheet = Sheet(story, WIDE, False)
    sheet.text(WIDE.left, 26, headline(story), "title")
    sheet.y = 40
    (strips if story.tray else plain)(sheet)
    axis(sheet)
    height = round(sheet.y)
    return (f'<svg xmlns="http://www.w3.org/2000/svg" viewBox="0 0 {WIDE.width} {height}" width="{WIDE.width}" height="{height}" role="img">'
            f"<title>{clean(title(story))}</title><desc>{clean(described)}</desc><style>{report_colours.style(dark)}</style>"
            f'<rect class="paper" width="{WIDE.width}" height="{height}"/>{chr(10)}' + "\n".join(sheet.parts) + "\n</svg>\n")


def overlaid(story: Story, look: Look) -> str:
    """The charge of each stretch from one power-on to the next, all from the same start, on each other; nothing where there is only one."""
    stretches: "dict[int, list[Moment]]" = {}
    for moment in story.of(0) if story.timed and not story.tray else []:
        stretches.setdefault(moment.stretch, []).append(moment)
    told = [moments for moments in stretches.values() if moments[-1].tick.at > moments[0].tick.at and len(values(moments, "charge")) > 1]
    if len(told) < 2:
        return ""
    sheet = Sheet(story, look, False)
    began = [moments[0].at for moments in told]
    longest = max(moments[-1].at - start for moments, start in zip(told, began))
    sheet.across = Scale(0.0, longest, look.left, look.inner())
    low, high = report_scale.span([each for moments in told for each in values(moments, "charge")], 0.01, 0.0)
    scale = sheet.panel(f"Charge since each power-on, {units_of(story.packs[0])[1]}", 150, low, high)
    labels = []
    for at, (moments, start) in enumerate(zip(told, began)):
        line: "list[tuple[float, float]]" = []
        for moment in moments:
            x, y = sheet.across.at(moment.at - start), scale.at(value(moment, "charge") or 0.0)
            line += [(x, line[-1][1]), (x, y)] if line and moment.step > 0 else [(x, y)]
        style = at % len(report_colours.STRETCHES)
        dash = ("", ' stroke-dasharray="7 5"', ' stroke-dasharray="2 4"')[at % 3]
        if at == 0:
            sheet.curve([line], f"s{style} tube")
        else:
            sheet.add(f'<path class="l s{style}"{dash} d="{path([line])}"/>')
        if at < 8:
            labels.append(Label(line[-1][1], f"from record {moments[0].number}", f"s{style}"))
    sheet.labels(labels, *sheet.panels[-1])
    each = report_scale.step(longest, look.hours)
    for place in report_scale.ticks(0.0, longest, look.hours):
        sheet.text(sheet.across.at(place), sheet.y + 5, report_scale.written(place, each), "small quiet", "middle")
    sheet.text(look.left, sheet.y + 24, "hours since the power-on", "small quiet")
    height = round(sheet.y + 34)
    said = clean(f"The charge of {len(told)} stretches between power-ons, each from its start, on each other")
    return f'<svg viewBox="0 0 {look.width} {height}" class="{look.prefix}" role="img" aria-label="{said}">{"".join(sheet.parts)}</svg>'
