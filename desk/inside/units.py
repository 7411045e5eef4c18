"""Units and counts, by the sheets: 001 for the DS2781, 000 for the DS2775. All in exact fractions; a count is the nearest one, halves away from 0."""
from fractions import Fraction
from typing import Optional

CURRENT = Fraction(15625, 10**10)      # V across the sense resistor: 1.5625 µV
CHARGE = Fraction(625, 10**8)          # Vh: 6.25 µVh, a count of ACR
CAPACITY = Fraction(16, 10)            # mAh: a count of RAAC and RSAC
TEMPERATURE = Fraction(1, 8)           # °C
TICKS_AN_HOUR = 1024
VOLTAGE = {1: Fraction(976, 10**5), 8: Fraction(48828, 10**7)}  # V, by the kind of the image: 9.76 mV of the stack in 001, 4.8828 mV of a cell in 000

SCALE = {"": 0, "m": -3, "u": -6, "µ": -6, "μ": -6}
BASES = ("V", "Ah", "A", "Ohm", "Ω")
TIMES = {"s": Fraction(TICKS_AN_HOUR, 3600), "min": Fraction(TICKS_AN_HOUR, 60), "h": Fraction(TICKS_AN_HOUR), "d": Fraction(24 * TICKS_AN_HOUR)}


def split_unit(unit: str) -> Optional["tuple[Fraction, str]"]:
    """A unit as a factor and its base: `mAh` is 1/1000 and Ah. None where it is none."""
    for base in BASES:
        if unit.endswith(base) and unit[:-len(base)] in SCALE:
            return Fraction(10) ** SCALE[unit[:-len(base)]], "Ohm" if base == "Ω" else base
    return None


def rounded(exact: Fraction) -> int:
    """The nearest whole number, halves away from 0."""
    whole = (2 * abs(exact.numerator) + exact.denominator) // (2 * exact.denominator)
    return whole if exact.numerator >= 0 else -whole


def scaled(exact: Fraction, places: int) -> "tuple[str, str, str]":
    """A fraction as its sign, its whole part and so many decimals."""
    number = (2 * abs(exact.numerator) * 10**places + exact.denominator) // (2 * exact.denominator)
    digits = f"{number:0{places + 1}d}"
    return "-" if exact.numerator < 0 < number else "", digits[:len(digits) - places], digits[len(digits) - places:]


def decimal(exact: Fraction, places: int) -> str:
    """A fraction with at most so many decimals, without zeros at its end."""
    sign, whole, part = scaled(exact, places)
    part = part.rstrip("0")
    return sign + whole + ("." + part if part else "")


def fixed(exact: Fraction, places: int) -> str:
    """A fraction with just so many decimals."""
    sign, whole, part = scaled(exact, places)
    return sign + whole + ("." + part if part else "")


def shortest(count: int, weight: Fraction, most: int = 6) -> Optional[str]:
    """The shortest decimal that is nearest to this count of a weight, or None where none of so many decimals is."""
    for places in range(most + 1):
        text = decimal(count * weight, places)
        if rounded(Fraction(text) / weight) == count:
            return text
    return None
