"""The marks of a report: what happened at a record that deserves a look, read off what the pack showed before and after it, and off what the record
asks. Whether and what was saved is asked of the proved programs, in report_saves."""
from typing import NamedTuple, Optional

from . import image, records, report_amounts
from .records import Piece, Record
from .view import Explained, Seen

KINDS = ("full", "empty", "learn", "save", "power-on", "copy", "lock", "label", "refused")
BLOCKS = (range(0x20, 0x30), range(0x60, 0x80))
LOCKED = (0x01, 0x02)  # of 1Fh, by block


class Mark(NamedTuple):
    """Something to look at: its kind, and what happened."""
    kind: str
    text: str


class Command(NamedTuple):
    """What a transaction asks: of the pack with an address, or of all; the command, where it begins, and its bytes."""
    address: bytes
    code: int
    at: int
    data: bytes

    def block(self) -> int:
        """The block that has the place, or -1."""
        return next((number for number, places in enumerate(BLOCKS) if self.at in places), -1)


def plain_kind(piece: Piece) -> int:
    """The kind of a record, of a slot's event that of the plain one; 0 for bytes that are none."""
    return records.UNSLOTTED.get(piece.kind, piece.kind) if isinstance(piece, Record) else 0


def command(piece: Piece) -> Optional[Command]:
    """The command of a transaction that selects somebody, or None."""
    if not isinstance(piece, Record) or piece.kind not in records.HEAD:
        return None
    master = piece.payload[records.HEAD[piece.kind]:]
    skip = {records.SKIP: 1, records.MATCH: 9}.get(master[0] if master else -1, len(master))
    return Command(master[1:skip], master[skip], master[skip + 1], master[skip + 2:]) if len(master) > skip + 1 else None


def charge(pack: Seen) -> str:
    return report_amounts.charge(pack.data)


def marks(told: Explained, address: bytes, before: Optional[Seen], now: Optional[Seen]) -> "list[Mark]":
    """The marks of a record for the pack with this address, which showed `before` and shows `now`; for no pack where there is none."""
    if told.answer:
        return [Mark("refused", f"refused with {told.answer}: {told.meaning}")]
    kind = plain_kind(told.told.piece)
    if kind in image.SIZE:
        return [Mark("power-on", "the pack is put in")]
    if kind == records.POWER_ON:
        return [Mark("power-on", f"power-on: the charge is what was saved, {charge(now)}" if now else "power-on")]
    if before is None or now is None:
        return []
    asked = command(told.told.piece)
    of_bus = of_command(asked, before, now) if asked and asked.address in (b"", address) else []
    return [*found(kind, before, now), *learnt(before, now), *of_bus, *locked(before, now)]


def rose(before: Seen, now: Seen, flag: str) -> bool:
    return flag in now.flags and flag not in before.flags


def found(kind: int, before: Seen, now: Seen) -> "list[Mark]":
    """Full and empty. A reading moves the charge at an empty point and nowhere else, so one that finds it again is told, too, though AEF stays."""
    told = []
    moved = charge(now) != charge(before)
    what = f"the charge is {charge(now)}" + (f" (was {charge(before)})" if moved else "")
    if rose(before, now, "CHGTF"):
        told.append(Mark("full", f"full is found, CHGTF is set; {what}"))
    if rose(before, now, "AEF"):
        told.append(Mark("empty", f"the pack is empty, AEF is set; {what}"))
    elif kind == records.READING and moved:
        told.append(Mark("empty", f"the empty point is found again; {what}"))
    return told


def learnt(before: Seen, now: Seen) -> "list[Mark]":
    old, new = before.data[0x14], now.data[0x14]
    if rose(before, now, "LEARNF"):
        return [Mark("learn", "learning begins, LEARNF is set")]
    if rose(now, before, "LEARNF"):
        return [Mark("learn", f"learning ends, LEARNF is cleared; AS {new}/128" + (f" (was {old}/128)" if new != old else ", as before"))]
    return []


def of_command(asked: Command, before: Seen, now: Seen) -> "list[Mark]":
    """Copies, and writes over the label."""
    block = asked.block()
    shut = block >= 0 and bool(before.data[0x1F] & LOCKED[block])
    if asked.code == records.COPY and block >= 0:
        return [Mark("copy", f"block {block} is copied to the EEPROM" if not shut else f"block {block} is locked, and nothing is copied")]
    over_label = asked.code == records.WRITE and asked.at < 0x30 and asked.at + len(asked.data) > 0x20
    if now.data[0x20:0x30] != before.data[0x20:0x30]:
        return [Mark("label", f'the label is now "{report_amounts.label(now.data)}"')]
    if over_label:
        return [Mark("label", "block 0 is locked, and the label stays" if before.data[0x1F] & LOCKED[0] else "the label is written as it was")]
    return []


def locked(before: Seen, now: Seen) -> "list[Mark]":
    return [Mark("lock", f"block {number} is locked for good") for number in (0, 1) if rose(before, now, f"BL{number}")]

