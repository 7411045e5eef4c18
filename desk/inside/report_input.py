"""What a report is made of: records as bytes, records as words, or a logger's CSV, each told from the others."""
import io
from typing import Iterator, NamedTuple, Optional

from . import logger, looks, pack_file, proved, records, start
from .language import Writer
from .packs import Packs
from .records import Piece
from .slips import Place, Slip, Unfit


class Csv(NamedTuple):
    """A logger's file: the file of its pack, names of columns, and whether gaps are filled."""
    pack: str
    columns: "dict[str, str]"
    fill: bool


def whole(name: str) -> bytes:
    """All of a file, or of standard input."""
    try:
        with start.binary(name) as file:
            return file.read()
    except OSError as fault:
        raise Unfit(f"cannot read {called(name)}: {fault.strerror}; name a file, or hand one over by <") from fault


def called(name: str) -> str:
    return "standard input" if name == "-" else name


def text_lines(name: str, data: bytes) -> "list[str]":
    try:
        return data.decode("utf-8").splitlines(keepends=True)
    except UnicodeDecodeError as fault:
        raise Unfit(f"{called(name)} is no text: it has bytes that are not UTF-8") from fault


def pieces(name: str, csv: Optional[Csv]) -> Iterator[Piece]:
    """The records of a file or of standard input."""
    data = whole(name)
    if csv is not None:
        return logged(called(name), text_lines(name, data), csv)
    head = data[:looks.LOOKED_AT]
    if not looks.is_text(head):
        return records.pieces(io.BytesIO(data))
    if looks.is_csv(head):
        raise no_words(called(name), text_lines(name, data), looks.opening(head))
    return Writer(proved.checksum, start.included).pieces(called(name), text_lines(name, data))


def no_words(name: str, lines: "list[str]", opening: str) -> Slip:
    """The slip that a logger's file is handed over as if it were words."""
    number = next((at for at, line in enumerate(lines, 1) if opening in line), 1)
    return Slip(Place(name, number, 1, opening), "this looks like the head of a logger's CSV, and not like words",
                "draw it with --csv --pack=PACK: PACK is the image of the pack that was logged, or words that say one")


def logged(name: str, lines: "list[str]", csv: Csv) -> Iterator[Piece]:
    """A logger's rows behind the image of its pack."""
    record = pack_file.packed(csv.pack)
    packs = Packs()
    packs.add(record)
    yield record
    yield from logger.Logger(packs.here(), csv.columns, csv.fill).records(name, lines)
