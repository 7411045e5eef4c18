"""The numbers of docs/RANGES.md: how far each goes, and at which widths wrong programs are to be told from the right one."""
import os
import re
from typing import List, NamedTuple

WIDTHS = (8, 15, 16, 17, 20, 24, 28, 31)  # bits of a machine's number, its sign not counted
PAGE = os.path.join(os.path.dirname(os.path.abspath(__file__)), "..", "..", "docs", "RANGES.md")


class Row(NamedTuple):
    number: str
    rule: str
    where: List[str]  # definitions, and fields of the state
    least: int
    most: int
    wraps: List[int]
    stops: List[int]
    why: str

    @property
    def inside(self) -> List[int]:
        """The widths in which the number does not fit."""
        return [bits for bits in WIDTHS if self.most >= 2 ** bits or self.least < -2 ** bits]


def worked_out(text: str) -> int:
    """A number as the page writes it: 32 × 65,535 - 1, 2^28, (2^31 + 128) / 2 rounded down."""
    plain = text.replace(",", "").replace("×", "*").replace("^", "**").replace("/", "//")
    if not re.fullmatch(r"[-+*/() 0-9]+", plain):
        raise ValueError(f"docs/RANGES.md: {text!r} is no number")
    return eval(plain)  # digits and signs alone


def widths(text: str) -> List[int]:
    return [int(bits) for bits in text.split(", ")] if text not in ("", "-") else []


def tables(page: str) -> List[List[str]]:
    """The rows of the tables whose first head is `number`."""
    found, inside = [], False
    for line in page.splitlines():
        cells = [cell.strip() for cell in line.strip().strip("|").split("|")] if line.startswith("|") else None
        if cells is None:
            inside = False
        elif cells[0] == "number":
            inside = True
        elif inside and not set(line) <= set("|- :"):
            found.append(cells)
    return found


def rows(page: str = "") -> List[Row]:
    """Of the page, or of another text of it."""
    if not page:
        with open(PAGE, encoding="utf-8") as file:
            page = file.read()
    return [Row(number, rule, where.split(", "), worked_out(least), worked_out(most), widths(wraps), widths(stops), why)
            for number, rule, where, least, most, wraps, stops, why in tables(page)]
