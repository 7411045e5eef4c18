"""A report as one page: the cards of its packs, the picture, what there is to say of it, and the explained table. It asks no network for anything."""
import base64
import hashlib
import html
import json
from fractions import Fraction

from . import records, report_amounts, report_picture, report_script, report_style
from .report_marks import KINDS
from .report_picture import NARROW, WIDE, anchors, clean, row_of, spoken_time, units_of
from .report_scale import exactly, path
from .report_story import Course, Moment, Pack, Story
from .slips import plain as unprinted

MOST_BYTES = 1000000
COLUMNS = (("charge", 4), ("active", 5), ("standby", 6), ("voltage", 0), ("current", 1), ("temperature", 3))  # and their places among what is shown
MORE = (("average", 2), ("active left", 7), ("standby left", 8), ("FULL", 9), ("AE", 10), ("SE", 11), ("AS", 12), ("cycles", 13))
PARTS = {records.IMAGE: "DS2781", records.CAMERA: "DS2775"}
KIND_ORDER = ("pack", "reading", "conversion", "sample", "transaction", "power-on", "other")


def in_script(value: object) -> str:
    """Data that stands inside a script element or an attribute: nothing in it can end either."""
    text = json.dumps(value, ensure_ascii=True)
    return text.replace("<", "\\u003c").replace(">", "\\u003e").replace("&", "\\u0026").replace("'", "\\u0027")


def digest(text: str) -> str:
    return "'sha256-" + base64.b64encode(hashlib.sha256(text.encode()).digest()).decode() + "'"


def locked(pack: Pack) -> str:
    byte = pack.seen.data[0x1F] if pack.seen else 0
    return " and ".join(name for bit, name in ((1, "block 0 (label)"), (2, "block 1 (parameters)")) if byte & bit) or "none"


def card(pack: Pack, name: str) -> str:
    """What a pack is, as it stands at the end."""
    if pack.seen is None:
        return ""
    data, rsnsp = pack.seen.data, pack.rsnsp()
    flags = " ".join(flag for flag in pack.seen.flags if not flag.startswith("BL"))
    ohm = f"{1000 / rsnsp:.3g} mΩ" if rsnsp else "not stated: charges and currents are counts"
    capacity = report_amounts.spoken(Fraction(report_amounts.whole(data, 0x6A)), rsnsp)
    left = f"{data[0x06]} % under load, {data[0x07]} % at rest" if pack.read else "not known: no reading since the power-on"
    rows = [("address", pack.address.hex(" ").upper()), ("part", PARTS[pack.kind]), ("capacity", capacity + " (Full40)"),
            ("age", f"AS {data[0x14]}/128, {100 * data[0x14] // 128} % of a new pack")]
    rows += [("cycles", str(data[0x1E]))] if pack.kind == records.CAMERA else []
    rows += [("locks", locked(pack)), ("sense resistor", ohm), ("charge at the end", report_amounts.charge(data)),
             ("left at the end", left), ("flags at the end", flags or "none")]
    if pack.cells:
        rows.append(("saved at the end", report_amounts.saved(pack.cells, rsnsp)))
    told = "".join(f"<dt>{clean(term)}<dd>{clean(text)}" for term, text in rows)
    title = report_amounts.label(data).strip() or "(no label)"
    level = 3 if name else 2  # cards of a tray have a heading above them
    return f'<li class="card"><h{level}>{clean(name)}{clean(title)}</h{level}><dl>{told}</dl>'


# ---- the summary

def linked(number: int, kept: "set[int]") -> str:
    """A record's number, which leads to its row, in a tray to the first of its rows, where that is there."""
    return f'<a href="#r{number}">{number:,}</a>' if number in kept else f"{number:,}"


def course(name: str, unit: str, places: int, went: Course, kept: "set[int]") -> str:
    first, last, least, most = (exactly(extreme.value, places) for extreme in (went.first, went.last, went.least, went.most))
    return (f"<li>{name}: {first} {unit} at first and {last} {unit} at the end; least {least} (record {linked(went.least.number, kept)}), "
            f"most {most} (record {linked(went.most.number, kept)}).")


def knee(story: Story, kept: "set[int]") -> str:
    """Where the voltage falls the most from one reading to the next."""
    read = [(moment.stretch, moment.number, here) for moment in story.of(0) if moment.kind == "reading" and not moment.answer
            for here in [report_picture.value(moment, "voltage")] if here is not None]
    falls = [(before[2] - after[2], before, after) for before, after in zip(read, read[1:]) if before[0] == after[0]]  # not over a power-on
    fall, before, after = max(falls, key=lambda each: each[0], default=(0.0, (0, 0, 0.0), (0, 0, 0.0)))
    if fall <= 0 or story.tray:
        return ""
    where = f"{linked(before[1], kept)} and {linked(after[1], kept)}"
    return (f"<li>The voltage falls the most from one reading to the next between records {where}: "
            f"from {exactly(before[2], 2)} V to {exactly(after[2], 2)} V.")


def said_of(story: Story, kind: str, kept: "set[int]") -> str:
    """The marks of a kind, the first few of them by their records."""
    there = [moment for moment in story.kept if any(mark.kind == kind for mark in moment.marks)]
    first = "; ".join(f"record {linked(moment.number, kept)}: " + clean(", ".join(mark.text for mark in moment.marks if mark.kind == kind))
                      for moment in there[:6])
    rest = story.counts[kind] - min(6, len(there))
    return f"<li>{kind}, {story.counts[kind]:,} in all: {first}{f'; and {rest:,} more' if rest > 0 else ''}."


def summary(story: Story) -> str:
    """The picture in words."""
    kept = {moment.number for moment in story.kept}
    ticks = max((pack.clock.here.at for pack in story.packs), default=0)
    time = f"over {ticks:,} ticks, {spoken_time(ticks)}" if story.timed else "in which no time passes"
    items = [f"<li>{story.records:,} record{'s' * (story.records != 1)} {time}, of {len(story.packs)} pack{'s' * (len(story.packs) != 1)}."]
    for slot, pack in enumerate(story.packs):
        flow, charge = units_of(pack)
        who = f"slot {slot}, " if story.tray else ""
        for name, unit, places in (("charge", charge, 1), ("active", "%", 0), ("standby", "%", 0), ("voltage", "V", 2), ("current", flow, 1),
                                   ("temperature", "°C", 1)):
            if name in pack.courses and (not story.tray or name in ("charge", "active")):
                items.append(course(who + name, unit, places, pack.courses[name], kept))
    items.append(knee(story, kept))
    items += [said_of(story, kind, kept) for kind in KINDS if story.counts[kind]]
    items += [] if story.counts["refused"] else ["<li>No record is refused."]
    return "".join(items)


def described(story: Story) -> str:
    """The summary as plain text, for a picture that is alone."""
    text = summary(story)
    while "<" in text:
        start = text.index("<")
        text = text[:start] + " " + text[text.index(">", start) + 1:]
    return html.unescape(" ".join(text.split()))


# ---- the table

class Rows:
    """The rows of the table: a cell is filled where a record changed what the pack shows; more of it stands in an attribute, for the moment looked at."""

    def __init__(self, story: Story, longest: int) -> None:
        self.story = story
        self.longest = longest
        self.last: "dict[int, tuple[tuple[str, ...], str]]" = {}
        self.cut = False
        self.ids: "set[str]" = set()
        self.marks = anchors(story, WIDE)

    def shortened(self, text: str) -> str:
        if len(text) <= self.longest:
            return clean(text)
        self.cut = True
        return clean(text[:self.longest - 1] + "…")

    def row(self, moment: Moment) -> str:
        story = self.story
        name = row_of(moment, story.tray)
        extra = f" data-k={moment.kind}" + (f" data-s={moment.slot}" if story.tray and moment.slot >= 0 else "") + (" class=no" if moment.answer else "")
        number = str(moment.number)
        if story.tray and f"r{number}" not in self.ids:  # whoever looks for the record finds its first row
            self.ids.add(f"r{number}")
            number = f"<span id=r{number}>{number}</span>" if name != f"r{number}" else number
        kinds = dict.fromkeys(mark.kind for mark in moment.marks)
        back = "".join(f"<a href=#{self.marks[moment.number, moment.slot, kind]} data-k={kind}>▲ {kind}</a>" for kind in kinds)
        slot = f"slot {moment.slot}: " if story.tray and moment.slot >= 0 and not moment.words.startswith("slot ") else ""
        told = self.shortened(slot + moment.came) if moment.came or slot else ""
        saved = "; ".join(mark.text for mark in moment.marks if mark.kind == "save")
        told += clean(("; " if told else "") + saved) if saved else ""
        under = f"<i>{back}{told}</i>" if back or told else ""
        time = f"{moment.at:.5f}" if story.timed else ""
        return f"<tr\nid={name}{extra}{self.more(moment)}><th>{number}<td>{time}<td>{self.shortened(moment.words)}{under}{self.cells(moment)}"

    def cells(self, moment: Moment) -> str:
        """What has a column, where it is not as it was."""
        before = self.last.get(moment.slot, ((), ""))[0]
        if moment.shows is None:
            return "<td>" * len(COLUMNS)
        texts = moment.shows.texts
        self.last[moment.slot] = (texts, moment.shows.flags)
        return "".join("<td>" + (texts[at] if not before or before[at] != texts[at] else "") for _, at in COLUMNS)

    def more(self, moment: Moment) -> str:
        before, flags = self.last.get(moment.slot, ((), "?"))
        if moment.shows is None:
            return ""
        texts = moment.shows.texts
        found = [texts[at] if at < len(texts) and (not before or before[at] != texts[at]) else "" for _, at in MORE]
        found.append((moment.shows.flags or "-") if moment.shows.flags != flags else "")
        joined = "|".join(found).rstrip("|")
        return f' data-m="{clean(joined)}"' if joined else ""


def table(story: Story, longest: int) -> "tuple[str, bool]":
    """The table, and whether texts in it were cut."""
    flow, charge = units_of(story.packs[0] if story.packs else None)
    unit = {"charge": charge, "active": "%", "standby": "%", "voltage": "V", "current": flow, "temperature": "°C", "average": flow, "active left": "mAh",
            "standby left": "mAh", "FULL": "%", "AE": "%", "SE": "%", "AS": "/128"}
    heads = "".join(f'<th scope=col data-n="{name}">{name}, {clean(unit[name])}' for name, _ in COLUMNS)
    rows = Rows(story, longest)
    told = "".join(rows.row(moment) for moment in story.kept)
    names = "|".join([*(name for name, _ in MORE), "flags"])
    timed = " data-timed=1" if story.timed else " class=by-number"
    return (f'<table id=records{timed} data-more="{names}" data-units="{clean(in_script(unit))}">'
            "<caption class=quiet>A value stands where a record changed it; the moment above shows all of them.</caption>"
            f"<thead><tr><th scope=col>record<th scope=col>{'hours' if story.timed else ''}"
            f"<th scope=col>what it says, and what came of it{heads}<tbody>{told}</table>", rows.cut)


# ---- the page

def thumbnail(story: Story) -> str:
    """The small picture of an index: the charge of each pack, as paths in a frame of 100 by 24."""
    paths = []
    for slot in range(len(story.packs)):
        points = [(moment.at, here) for moment in story.of(slot) for here in [report_picture.value(moment, "charge")] if here is not None]
        if points:
            low, high = min(y for _, y in points), max(y for _, y in points)
            end = story.end()
            paths.append(path([[(1 + 98 * x / end, 22.5 - 21 * (y - low) / (high - low) if high > low else 12.0) for x, y in points]]))
    return "".join(paths)


def about(story: Story) -> "dict[str, object]":
    """What an index says of a page; it stands in the page itself."""
    ticks = max((pack.clock.here.at for pack in story.packs), default=0)
    packs = [{"label": pack.seen.label.strip() or "(no label)", "charge": report_amounts.charge(pack.seen.data),
              "left": f"{pack.courses['active'].last.value:.0f} %" if "active" in pack.courses else "no reading"} for pack in story.packs if pack.seen]
    return {"name": unprinted(story.name), "records": story.records, "time": spoken_time(ticks), "packs": packs,
            "marks": {kind: count for kind, count in story.counts.items() if count}, "path": thumbnail(story)}


MOMENT = (
    '<section class=moment hidden aria-label="A moment of the picture">'
    "<label for=moment>Moment: move it, or point at the picture; Enter leads to its row</label>"
    "<input type=range id=moment min=0 max=0 value=0 step=1><div id=values class=values></div>"
    "<button type=button id=tell>Show it in the table</button></section>")
FOOT = (
    "<footer><p>Every number of a gauge comes from the proved programs of Trovimbe, by a read of the whole map behind each record, which changes "
    "nothing; this page, its words and its picture are plain and not proved. A conversion is a tick, a sample as many as have passed since the one "
    "before; over a power-on the clock stands still. Records that take no time are spread over the tick that comes next, in their order.</footer>")


def thinned(story: Story) -> str:
    if len(story.kept) == story.rows:
        return ""
    return (f"<p>This session is long: of {story.rows:,} rows {len(story.kept):,} are shown, in the picture and in the table. Of neighbours the first "
            "and the last are kept, the least and the most of each value, and what is marked (of more than 200 marks of a kind the first and the last "
            "of neighbours). The summary counts all. <code>./trovimbe explain</code> tells each record.")


def head(title: str, style: str, script: str) -> str:
    """The head of a page. Its policy lets in this style and this script, by their sums, and nothing from anywhere else."""
    scripts = digest(script) if script else "'none'"
    policy = f"default-src 'none'; style-src {digest(style)}; script-src {scripts}; base-uri 'none'; form-action 'none'"
    return ('<!DOCTYPE html>\n<html lang=en><meta charset=utf-8><meta name=viewport content="width=device-width,initial-scale=1">'
            f'<meta http-equiv=Content-Security-Policy content="{policy}"><title>{clean(title)}</title><style>{style}</style>\n')


class Around:
    """A page but for its table, which may take some tries until it is short enough."""

    def __init__(self, story: Story) -> None:
        self.story = story
        self.style, self.script = report_style.style(), report_script.SCRIPT
        packs = "".join(card(pack, f"Slot {slot}: " if story.tray else "") for slot, pack in enumerate(story.packs))
        cards = f'<ul class="cards{" one" if len(story.packs) == 1 else ""}">{packs}</ul>'
        over = report_picture.overlaid(story, WIDE)
        laid = (f"<h2>Stretch by stretch</h2><figure>{over}{report_picture.overlaid(story, NARROW)}<figcaption class=quiet>The charge from each power-on on, "
                "all from the same start: lines that lie on each other drew the same current.</figcaption></figure>") if over else ""
        remarks = "".join(f"<p>{clean(remark)}" for remark in story.remarks)
        name = unprinted(story.name)
        nobody = "" if story.packs else "<p>No image is accepted in it, so there is no pack to look at."
        drawn = report_picture.drawn(story, WIDE, True) + report_picture.drawn(story, NARROW, True)
        self.before = "".join([
            head(f"Report of {name}", self.style, self.script),
            f'<body><a class=skip href="#records">To the table</a><header><p class=quiet>Report of {clean(name)}',
            f"<h1>{clean(report_picture.headline(story))}</h1></header><main>",
            "" if story.tray else cards, nobody, thinned(story), remarks,
            f"<h2 id=picture>Picture</h2><figure class=main aria-describedby=summary>{drawn}</figure>{MOMENT}",
            f"<h2>What it shows</h2><ul id=summary>{summary(story)}</ul>{laid}",
            f"<h2>The packs</h2>{cards}" if story.tray else "",
            f"<h2 id=table>Record by record</h2>{self.filter()}"])
        itself = f'<script type="application/json" id=card>{in_script(about(story))}</script>'
        self.after = f"</main>{FOOT}{itself}<script>{self.script}</script>\n"

    def filter(self) -> str:
        kinds = [kind for kind in KIND_ORDER if any(moment.kind == kind for moment in self.story.kept)]
        choice = "".join(f"<option value={kind}>{kind}" for kind in kinds)
        return ('<div class=filter hidden role=search aria-label="Filter of the table">'
                f'<label>Kind <select id=kind><option value="">all{choice}</select></label>'
                "<label><input type=checkbox id=refused> refused alone</label><label><input type=checkbox id=marked> marked alone</label>"
                "<span id=count role=status></span></div>")

    def page(self, longest: int) -> str:
        """The whole page, in whose table no text is longer than this."""
        rows, cut = table(self.story, longest)
        short = "<p>Long texts in the table are cut, which … shows; <code>./trovimbe explain</code> has them whole." if cut else ""
        return f"{self.before}{short}{rows}{self.after}"
