"""What a pack shows: the 256 bytes of its map by name and in units. Addresses and units are those of docs/FORMATS.md."""
import functools
from dataclasses import dataclass
from fractions import Fraction
from typing import Callable, NamedTuple, Union

from . import units

Amount = Union[Fraction, int]
Value = Union[int, float, str, None, "list[str]", "list[int]"]
FLAGS = {0x80: "CHGTF", 0x40: "AEF", 0x20: "SEF", 0x10: "LEARNF", 0x02: "PORF"}
LOCKS = {0x40: "LOCK", 0x02: "BL1", 0x01: "BL0"}
CONTROL = {0x80: "NBEN", 0x10: "RNAOP"}
RSNSP, PARAMETERS = 0x69, 0x60
IN_KEYS = {"%": "percent", "/128": "128ths", "/4096": "4096ths", "1/Ohm": "per_Ohm"}  # units whose signs are no letters


def key(name: str, unit: str) -> str:
    """A name with its unit, as programs like it: `active_left_mAh`."""
    return "_".join([*name.split(), *([IN_KEYS.get(unit, unit)] if unit else [])])


def plain(number: str) -> Union[int, float]:
    """The number of a text, with just its digits."""
    return float(number) if "." in number else int(number)


@dataclass(frozen=True)
class Shown:
    """A value of a pack: its name, the unit that it is in, how many decimals it is shown with, and the value."""
    name: str
    unit: str
    places: int
    value: Amount

    @functools.cached_property
    def number(self) -> str:
        return units.fixed(Fraction(self.value), self.places)

    def text(self) -> str:
        return f"{self.name} {self.number}" + (f" {self.unit}" if self.unit else "")

    def key(self) -> str:
        return key(self.name, self.unit)


class Said(NamedTuple):
    """What a register says: as a text, and as a value in a unit, where it has one."""
    text: str
    value: Value
    unit: str = ""


class Register(NamedTuple):
    """A register of the map: where it stands, how many bytes it has, its name, and how its bytes are said."""
    at: int
    size: int
    name: str
    said: Callable[[bytes, "Units"], Said]


def amount(number: str, unit: str) -> Said:
    return Said(f"{number} {unit}", plain(number), unit)


class Units(NamedTuple):
    """What amounts are in: the pack's sense resistor, as 1/Ohm, and its kind."""
    rsnsp: int
    kind: int

    def current(self, count: int) -> str:
        return flow(count, self).text

    def charge(self, count: Fraction) -> str:
        return stored(count, self).text

    def voltage(self, count: int) -> str:
        return level(count, self).text


def flow(count: int, by: Units) -> Said:
    """A current."""
    return amount(units.fixed(count * units.CURRENT * by.rsnsp * 1000, 2), "mA") if by.rsnsp else amount(str(count), "counts")


def stored(count: Fraction, by: Units) -> Said:
    """A charge."""
    return amount(units.fixed(count * units.CHARGE * by.rsnsp * 1000, 1), "mAh") if by.rsnsp else amount(units.decimal(count, 3), "counts")


def level(count: int, by: Units) -> Said:
    """A voltage."""
    return amount(units.fixed(count * units.VOLTAGE[by.kind], 2), "V")


def unsigned(part: bytes) -> int:
    return int.from_bytes(part, "big")


def signed(part: bytes) -> int:
    return int.from_bytes(part, "big", signed=True)


def flagged(names: "dict[int, str]", byte: int, none: str = "no flag") -> Said:
    found = [name for bit, name in names.items() if byte & bit]
    return Said(" ".join(found) or none, found)


def capacity(part: bytes) -> Said:
    return amount(units.fixed(unsigned(part) * units.CAPACITY, 1), "mAh")


def point(count: int) -> Said:
    """A share of Full40 in units of 2^-14."""
    return amount(units.fixed(Fraction(100 * count, 16384), 2), "%")


def printable(part: bytes) -> str:
    return '"' + "".join(chr(byte) if 32 <= byte <= 126 else f"\\x{byte:02X}" for byte in part).rstrip() + '"'


def quoted(part: bytes) -> Said:
    return Said(printable(part), printable(part)[1:-1])


def row(part: bytes) -> Said:
    return Said(" ".join(str(byte) for byte in part), list(part))


def bare(number: int) -> Said:
    return Said(str(number), number)


def share(number: int, whole: int) -> Said:
    return Said(f"{number}/{whole}", number, f"/{whole}")


REGISTERS = (
    Register(0x01, 1, "STATUS", lambda part, by: flagged(FLAGS, part[0])),
    Register(0x02, 2, "RAAC", lambda part, by: capacity(part)),
    Register(0x04, 2, "RSAC", lambda part, by: capacity(part)),
    Register(0x06, 1, "RARC", lambda part, by: amount(str(part[0]), "%")),
    Register(0x07, 1, "RSRC", lambda part, by: amount(str(part[0]), "%")),
    Register(0x08, 2, "IAVG", lambda part, by: flow(signed(part), by)),
    Register(0x0A, 2, "TEMP", lambda part, by: amount(units.decimal((signed(part) >> 5) * units.TEMPERATURE, 3), "C")),
    Register(0x0C, 2, "VOLT", lambda part, by: level(unsigned(part) >> 5, by)),
    Register(0x0E, 2, "CURRENT", lambda part, by: flow(signed(part), by)),
    Register(0x10, 2, "ACR", lambda part, by: stored(Fraction(unsigned(part)), by)),
    Register(0x12, 2, "ACRL", lambda part, by: share(unsigned(part) >> 4, 4096)),
    Register(0x14, 1, "AS", lambda part, by: share(part[0], 128)),
    Register(0x16, 2, "FULL", lambda part, by: point(unsigned(part))),
    Register(0x18, 2, "AE", lambda part, by: point(unsigned(part))),
    Register(0x1A, 2, "SE", lambda part, by: point(unsigned(part))),
    Register(0x1E, 1, "cycles", lambda part, by: bare(part[0]) if by.kind == 8 else Said("none", None)),
    Register(0x1F, 1, "EEPROM", lambda part, by: flagged(LOCKS, part[0])),
    Register(0x20, 16, "label", lambda part, by: quoted(part)),
    Register(0x60, 1, "CONTROL", lambda part, by: flagged(CONTROL, part[0])),
    Register(0x61, 1, "AB", lambda part, by: bare(signed(part))),
    Register(0x62, 2, "AC", lambda part, by: stored(Fraction(unsigned(part)), by)),
    Register(0x64, 1, "VCHG", lambda part, by: level(4 * part[0], by)),
    Register(0x65, 1, "IMIN", lambda part, by: flow(32 * part[0], by)),
    Register(0x66, 1, "VAE", lambda part, by: level(4 * part[0], by)),
    Register(0x67, 1, "IAE", lambda part, by: flow(128 * part[0], by)),
    Register(0x68, 1, "AE40", lambda part, by: point(16 * part[0])),
    Register(0x69, 1, "RSNSP", lambda part, by: amount(str(part[0]), "1/Ohm")),
    Register(0x6A, 2, "Full40", lambda part, by: stored(Fraction(unsigned(part)), by)),
    Register(0x6C, 4, "Full slopes", lambda part, by: row(part)),
    Register(0x70, 4, "AE slopes", lambda part, by: row(part)),
    Register(0x74, 4, "SE slopes", lambda part, by: row(part)),
    Register(0x78, 2, "RSGAIN", lambda part, by: bare(unsigned(part))),
    Register(0x7A, 1, "RSTC", lambda part, by: bare(part[0])),
    Register(0x7B, 1, "COB", lambda part, by: bare(signed(part))),
    Register(0x7C, 1, "TBP34", lambda part, by: amount(str(signed(part)), "C")),
    Register(0x7D, 1, "TBP23", lambda part, by: amount(str(signed(part)), "C")),
    Register(0x7E, 1, "TBP12", lambda part, by: amount(str(signed(part)), "C")),
)


def number(data: bytes, at: int, size: int, signed: bool = False) -> int:
    return int.from_bytes(data[at:at + size], "big", signed=signed)


def count(data: bytes) -> Fraction:
    """ACR with its fraction."""
    return Fraction(number(data, 0x10, 4) >> 4, 4096)


def flags(data: bytes) -> "list[str]":
    """The flags that are set, by name."""
    return [name for bit, name in FLAGS.items() if data[0x01] & bit] + [name for bit, name in LOCKS.items() if data[0x1F] & bit]


class Measure(NamedTuple):
    """One of the values that are shown: its unit, its decimals and what one of it is, by the pack; and where it stands, with the bits below it that do
    not count. A current or a charge is in counts, with other decimals, where the pack states no sense resistor."""
    name: str
    unit: str
    places: int
    at: int
    size: int
    weight: Callable[["Units"], Amount]
    signed: bool = False
    shift: int = 0
    bare: int = -1  # decimals of a count


POINT = Fraction(100, 16384)  # of FULL, AE and SE in per cent of Full40
MEASURES = (
    Measure("voltage", "V", 2, 0x0C, 2, lambda by: units.VOLTAGE[by.kind], shift=5),
    Measure("current", "mA", 2, 0x0E, 2, lambda by: units.CURRENT * by.rsnsp * 1000, signed=True, bare=0),
    Measure("average", "mA", 2, 0x08, 2, lambda by: units.CURRENT * by.rsnsp * 1000, signed=True, bare=0),
    Measure("temperature", "C", 3, 0x0A, 2, lambda by: units.TEMPERATURE, signed=True, shift=5),
    Measure("charge", "mAh", 1, 0x10, 4, lambda by: units.CHARGE * by.rsnsp * 1000 / 4096, shift=4, bare=3),  # ACR with its fraction
    Measure("active", "%", 0, 0x06, 1, lambda by: 1),
    Measure("standby", "%", 0, 0x07, 1, lambda by: 1),
    Measure("active left", "mAh", 1, 0x02, 2, lambda by: units.CAPACITY),
    Measure("standby left", "mAh", 1, 0x04, 2, lambda by: units.CAPACITY),
    Measure("FULL", "%", 2, 0x16, 2, lambda by: POINT),
    Measure("AE", "%", 2, 0x18, 2, lambda by: POINT),
    Measure("SE", "%", 2, 0x1A, 2, lambda by: POINT),
    Measure("AS", "/128", 0, 0x14, 1, lambda by: 1),
)
CYCLES = Measure("cycles", "", 0, 0x1E, 1, lambda by: 1)


@functools.lru_cache(maxsize=1 << 11)
def measured(of: Measure, part: bytes, by: Units) -> Shown:
    """A value of its bytes. Most of them are those of the record before."""
    counts = number(part, 0, of.size, of.signed) >> of.shift
    if of.bare >= 0 and not by.rsnsp:
        return Shown(of.name, "counts", of.bare, Fraction(counts, 4096) if of.name == "charge" else counts)
    return Shown(of.name, of.unit, of.places, counts * of.weight(by))


def shown(data: bytes, kind: int) -> "list[Shown]":
    """All that a pack shows, in the order in which it is told."""
    by = Units(data[RSNSP], kind)
    return [measured(of, data[of.at:of.at + of.size], by) for of in (MEASURES + (CYCLES,) if kind == 8 else MEASURES)]


def read(at: int, reply: bytes, by: Units) -> "dict[str, Said]":
    """The registers that a reply from an address on runs over whole, by name."""
    inside = [(register, register.at - at) for register in REGISTERS if register.at >= at and register.at + register.size <= at + len(reply)]
    return {register.name: register.said(reply[start:start + register.size], by) for register, start in inside}

