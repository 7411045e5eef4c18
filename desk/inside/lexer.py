"""Words of a text, each with its place; a statement is a line and the indented lines below it."""
import os
import re
from typing import Callable, Iterable, Iterator, NamedTuple, Optional

from .slips import Place, Slip

PIECES = re.compile(r'\s*(?:(?P<comment>#.*)|(?P<text>"(?:[^"\\]|\\.)*")|(?P<open>")|(?P<sign>=)|(?P<word>[^\s"=#]+))')
ESCAPES = {'"': 0x22, "\\": 0x5C, "n": 0x0A, "t": 0x09}
MOST_INCLUDED = 16  # files within files
MOST_WORDS = 100000  # of one statement


class Word(NamedTuple):
    """A word as it stands, or a quoted text as its bytes."""
    place: Place
    word: str
    text: Optional[bytes] = None


def quoted(place: Place, inside: str) -> bytes:
    """The bytes of a quoted text: characters of ASCII, and \\\\, \\", \\n, \\t, \\xHH."""
    found = bytearray()
    at = 0
    while at < len(inside):
        here = place._replace(column=place.column + 1 + at)
        letter = inside[at]
        at += 1
        if letter != "\\":
            if ord(letter) > 126:
                raise Slip(here, f"`{letter}` is not in ASCII", "write its bytes as \\xHH: what a pack keeps is bytes")
            found.append(ord(letter))
        elif inside[at] in ESCAPES:
            found.append(ESCAPES[inside[at]])
            at += 1
        elif re.match(r"x[0-9A-Fa-f]{2}", inside[at:]):
            found.append(int(inside[at + 1:at + 3], 16))
            at += 3
        else:
            raise Slip(here, f"`\\{inside[at]}` is no escape", 'expected \\", \\\\, \\n, \\t or \\xHH with two hex digits')
    return bytes(found)


def words_of(file: str, number: int, line: str) -> Iterator[Word]:
    """The words of a line, without its comment."""
    at = 0
    line = line.rstrip("\r\n")
    end = len(line.rstrip())
    while at < end:
        piece = PIECES.match(line, at)
        if piece is None or piece.group("comment") is not None:
            return
        at = piece.end()
        kind = str(piece.lastgroup)
        place = Place(file, number, piece.start(kind) + 1, line)
        if kind == "open":
            raise Slip(place, "a text begins here and does not end on this line", 'expected a closing "')
        word = piece.group(kind)
        yield Word(place, word, quoted(place, word[1:-1]) if kind == "text" else None)


def statements(file: str, lines: Iterable[str], tell: "Optional[Callable[[Slip], None]]" = None) -> Iterator["list[Word]"]:
    """The statements of a text: each line with the indented lines below it. Of one that is typed, where `tell` is given, an empty line ends a statement
    too: who types wants its answer before the next one. A slip is told there, and its statement is left out, to the end."""
    gathered: "list[Word]" = []
    left_out = False
    for number, line in enumerate(lines, 1):
        ends = line[:1].strip() not in ("", "#") or tell is not None and not line.strip()
        if gathered and ends:
            yield gathered
            gathered = []
        left_out = left_out and not ends
        try:
            words = [] if left_out else list(words_of(file, number, line))
            if len(gathered) + len(words) > MOST_WORDS:
                raise Slip(words[0].place, f"the statement has over {MOST_WORDS:,} words by here",
                           "say it in parts: a line that is not indented begins a new one")
            gathered += words
        except Slip as slip:
            if tell is None:
                raise
            tell(slip)
            gathered, left_out = [], True
    if gathered:
        yield gathered


def beside(file: str, name: str) -> str:
    """The path of a file that another one includes."""
    return os.path.join(os.path.dirname(file), name)
