"""Amounts of a report in words: a charge of counts in the units of a pack, and a label as people read it."""
from fractions import Fraction

from . import units


def whole(data: bytes, at: int, size: int = 2) -> int:
    """A number of a map, high byte first."""
    return int.from_bytes(data[at:at + size], "big")


def spoken(count: Fraction, rsnsp: int) -> str:
    """A charge of so many counts of ACR, by the sense resistor that a pack states."""
    return units.fixed(count * units.CHARGE * rsnsp * 1000, 1) + " mAh" if rsnsp else units.decimal(count, 3) + " counts"


def charge(data: bytes) -> str:
    """The charge that a map shows, ACR with its fraction."""
    return spoken(whole(data, 0x10) + Fraction(whole(data, 0x12) >> 4, 4096), data[0x69])


def saved(cells: bytes, rsnsp: int) -> str:
    """What is saved: ACR and AS."""
    return f"{spoken(Fraction(whole(cells, 0)), rsnsp)}, AS {cells[2]}/128"


def label(data: bytes) -> str:
    """The label that a map shows; a byte that is no letter is shown in hex."""
    return "".join(chr(byte) if 32 <= byte <= 126 else f"\\x{byte:02X}" for byte in data[0x20:0x30]).rstrip()
