"""A pack image by name: where each setting stands in its 60 or 61 bytes, and its unit."""
from fractions import Fraction
from typing import NamedTuple

from . import units

SIZE = {1: 60, 8: 61}
FAMILY = {0x3D: 1, 0x32: 8}
PROFILE = {1: "ds2781", 8: "ds2775"}
LABEL_AT, LABEL_SIZE = 8, 16
CONTROL_AT, RSNSP_AT, CYCLES_AT, LOCKS_AT = 24, 33, 60, 59
NBEN, RNAOP = 0x80, 0x10
LOCKS = {"none": 0, "block0": 1, "block1": 2, "both": 3}


class Number(NamedTuple):
    """A setting that is one number: its place, its size (high byte first but for the saved charge), what it is a measure of, and how many of that
    measure's counts are one of it."""
    at: int
    size: int = 1
    signed: bool = False
    measure: str = "count"
    each: int = 1
    low_first: bool = False


class Row(NamedTuple):
    """A setting of several bytes, each in its place."""
    at: "tuple[int, ...]"
    signed: bool = False
    measure: str = "count"


NUMBERS = {  # full40 first: a charge that is not stated is that of a full pack
    "full40": Number(34, 2, measure="charge"),
    "charge": Number(56, 2, measure="charge", low_first=True),
    "as": Number(58),
    "cycles": Number(CYCLES_AT),
    "ac": Number(26, 2, measure="charge"),
    "ab": Number(25, signed=True, measure="current"),
    "cob": Number(51, signed=True, measure="current"),
    "vchg": Number(28, measure="voltage", each=4),
    "vae": Number(30, measure="voltage", each=4),
    "imin": Number(29, measure="current", each=32),
    "iae": Number(31, measure="current", each=128),
    "ae40": Number(32),
    "rsgain": Number(48, 2),
    "rstc": Number(50),
    "spare": Number(55),
}
ROWS = {
    "breakpoints": Row((54, 53, 52), signed=True, measure="degrees"),  # TBP12, TBP23, TBP34: as they rise
    "full-slopes": Row((36, 37, 38, 39)),  # segments 4, 3, 2, 1: from 40 °C down
    "ae-slopes": Row((40, 41, 42, 43)),
    "se-slopes": Row((44, 45, 46, 47)),
}
OTHERS = ("label", "rsns", "rsnsp", "locks", "nben", "rnaop", "control", "profile")
SETTINGS = (*NUMBERS, *ROWS, *OTHERS)

# What a pack has where nothing is said: two lithium-ion cells of 3,125 mAh behind 20 mΩ, full, by the curve of the scope paper's figures.
USUAL = {"rsnsp": 50, "full40": 10000, "as": 128, "cycles": 0, "ab": 0, "cob": 0, "vchg": 210, "vae": 154, "imin": 30, "iae": 20, "ae40": 4, "rsgain": 1024,
         "rstc": 0, "spare": 0}
USUAL_ROWS = {"breakpoints": (-12, 0, 18), "full-slopes": (10, 20, 30, 40), "ae-slopes": (5, 10, 20, 30), "se-slopes": (1, 2, 3, 4)}


def weight(number: Number, kind: int, rsnsp: int) -> Fraction:
    """What one of a setting is in its base unit: A, Ah or V; 0 where the pack states no sense resistor."""
    if number.measure == "charge":
        return units.CHARGE * rsnsp
    if number.measure == "current":
        return units.CURRENT * rsnsp * number.each
    return units.VOLTAGE[kind] * number.each


def got(image: bytes, number: Number) -> int:
    """The number that an image has for a setting."""
    return int.from_bytes(image[number.at:number.at + number.size], "little" if number.low_first else "big", signed=number.signed)


def put(image: bytearray, number: Number, value: int) -> None:
    image[number.at:number.at + number.size] = value.to_bytes(number.size, "little" if number.low_first else "big", signed=number.signed)


def bounds(number: Number) -> "tuple[int, int]":
    """The least and the most that a setting can be."""
    bits = 8 * number.size
    return (-(1 << (bits - 1)), (1 << (bits - 1)) - 1) if number.signed else (0, (1 << bits) - 1)
