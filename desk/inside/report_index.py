"""An index of a folder of reports: a small picture of each, by what each page says of itself."""
import json
import os
import re
from typing import Optional

from . import report_page, report_style
from .report_picture import clean
from .slips import Unfit, plain

CARD = re.compile(r'<script type="application/json" id=card>(.*?)</script>')
PATH = re.compile(r"[MLhvl0-9. -]*$")  # what a small picture may be
TAIL = 1 << 18  # bytes at the end of a page in which its card stands


def page_name(file: str, taken: "set[str]") -> str:
    """The name of a file's page, which no other of the call has: letters that a name in an address can have as they are."""
    base = re.sub(r"\.(session|tray|txt|csv)$", "", os.path.basename(file))
    bare = re.sub(r"[^A-Za-z0-9._-]", "_", base).lstrip(".") or "session"
    name, again = bare, 1
    while name in taken or name == "index":
        again += 1
        name = f"{bare}-{again}"
    taken.add(name)
    return name + ".html"


def card_of(path: str) -> "Optional[dict[str, object]]":
    """What a page says of itself, or None where it is no report."""
    with open(path, "rb") as file:
        file.seek(0, os.SEEK_END)
        file.seek(max(0, file.tell() - TAIL))
        found = CARD.findall(file.read().decode("utf-8", errors="replace"))
    try:
        card = json.loads(found[-1]) if found else None
    except ValueError:
        return None
    return card if isinstance(card, dict) else None


def item(page: str, card: "dict[str, object]") -> str:
    """The card of a page. Whatever it says is text, and a path is a path."""
    path = str(card.get("path", ""))
    line = f'<path class="l charge" vector-effect="non-scaling-stroke" d="{path}"/>'
    drawn = f'<svg viewBox="0 0 100 24" role="img" aria-label="charge over time">{line}</svg>' if PATH.match(path) else ""
    packs = card.get("packs")
    told = [pack for pack in packs if isinstance(pack, dict)] if isinstance(packs, list) else []
    labels = [f"{pack.get('label', '')}: {pack.get('charge', '')}, {pack.get('left', '')}" for pack in told]
    counts = card.get("marks")
    marks = [f"{kind} {count}" for kind, count in counts.items()] if isinstance(counts, dict) else []
    lines = [f"{card.get('records', '?')} records, {card.get('time', '?')}", *labels[:8], ", ".join(marks) or "no marks"]
    return (f'<li class=card><a href="{clean(page)}"><h3>{clean(str(card.get("name", page)))}</h3>{drawn}</a>'
            + "".join(f"<p class=quiet>{clean(line)}" for line in lines))


def index(folder: str) -> str:
    """The index of all reports in a folder."""
    try:
        names = sorted(name for name in os.listdir(folder) if name.endswith(".html") and name != "index.html" and not name.startswith("."))
        cards = [(name, card_of(os.path.join(folder, name))) for name in names]
    except OSError as fault:
        raise Unfit(f"cannot read the pages of {plain(folder)}: {fault.strerror}") from fault
    items = [item(name, card) for name, card in cards if card is not None]
    style = report_style.style()
    title = f"{len(items):,} report{'s' * (len(items) != 1)}"
    return report_page.head("Reports", style, "") + f"<body><main><h1>{title}</h1><ul class=index>{''.join(items)}</ul></main>\n"
