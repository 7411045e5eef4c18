"""A slip in what somebody wrote: where it is, what stands there, and what was expected."""
import difflib
from typing import Iterable, NamedTuple


class Place(NamedTuple):
    """A column of a line of a file, both from 1, and the line's text."""
    file: str
    line: int
    column: int
    text: str


class Slip(Exception):
    """What is wrong at a place, and what to write instead."""

    def __init__(self, place: Place, wrong: str, remedy: str = "") -> None:
        super().__init__(wrong)
        self.place = place
        self.wrong = wrong
        self.remedy = remedy

    def told(self) -> str:
        """The slip as it is shown: where and what, the line, a mark below the column, and the remedy."""
        where = plain(f"{self.place.file}:{self.place.line}:{self.place.column}: {self.wrong}")
        shown = plain(self.place.text.replace("\t", " "))
        lines = [where, "  " + shown, "  " + " " * (self.place.column - 1) + "^"]
        if self.remedy:
            lines.append("  " + self.remedy)
        return "\n".join(lines)


def plain(text: str) -> str:
    """A text without what a terminal would obey: each such character is shown as ?, so that columns stay."""
    return "".join(letter if letter.isprintable() else "?" for letter in text)


class Unfit(Exception):
    """Something outside of what was written does not fit: a file that cannot be read, a program that is missing. The text says what to do."""


def nearest(word: str, known: Iterable[str]) -> str:
    """`did you mean X?` of the known word that is like this one, or nothing."""
    like = difflib.get_close_matches(word.lower(), list(known), n=1, cutoff=0.6)
    return f"did you mean `{like[0]}`?" if like else ""
