"""What an answer means, in words."""
from . import records
from .records import Piece, Record

ANSWERS = {
    0: "done",
    1: "the session is over 32,768 bytes",
    2: "the record is cut: its bytes end before it does",
    3: "there is no such kind of record",
    4: "the payload has not the length that its kind asks",
    6: "the image's address has another family than its kind, or a wrong CRC",
    7: "the image's lock byte is above 3",
    9: "too little reply room is left",
    10: "the image's breakpoints are crossed, or one is above 40 C",
    11: "0 ticks, or more than 64, have passed since the last sample",
    12: "a pack with this address is in the tray",
}


def meaning(piece: Piece, number: int, tray: bool) -> str:
    """What an answer says of a record."""
    kind = piece.kind if isinstance(piece, Record) else 0
    if number == 5 and kind in (records.IMAGE, records.CAMERA):
        return "the tray is closed, or full" if tray else "an image was accepted before"
    if number == 5:
        return "no image was accepted" + (" for this slot" if kind in records.UNSLOTTED else "")
    if number == 8:
        return f"the read count is above {records.MOST.get(kind, 64)}"
    return ANSWERS.get(number, f"answer {number}")
