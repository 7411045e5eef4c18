"""Scales of a picture: nice ticks, numbers as they are written beside them, and paths without points that nobody can see."""
import math
from fractions import Fraction
from typing import Iterable, NamedTuple, Optional

from . import units


class Scale(NamedTuple):
    """From values to places on the paper."""
    low: float
    high: float
    start: float
    end: float

    def at(self, value: float) -> float:
        return self.start + (value - self.low) / (self.high - self.low) * (self.end - self.start)


def exactly(value: float, places: int) -> str:
    """A number with so many decimals, rounded as everywhere on the desk, halves away from 0, and with commas between thousands."""
    text = units.fixed(Fraction(value), places)
    whole, point, rest = text.lstrip("-").partition(".")
    sign = "-" if text.startswith("-") and text.strip("-0.") else ""
    return f"{sign}{int(whole):,}{point}{rest}"


def step(span: float, most: int) -> float:
    """A distance of 1, 2 or 5 times a power of ten that a span has at most so many of."""
    raw = max(span, 1e-9) / max(most, 1)
    power = 10.0 ** math.floor(math.log10(raw))
    return next(power * factor for factor in (1, 2, 5, 10) if power * factor >= raw * 0.9999)


def ticks(low: float, high: float, most: int) -> "list[float]":
    each = step(high - low, most)
    first = math.ceil(low / each - 1e-6)
    return [at * each for at in range(first, int(math.floor(high / each + 1e-6)) + 1)]


def written(value: float, each: float) -> str:
    """A number with as many decimals as the distance between ticks asks for."""
    places = max(0, -math.floor(math.log10(each) + 1e-9))
    text = f"{value:,.{places}f}"
    return text[1:] if text.startswith("-") and not text.strip("-0.,") else text


def span(values: "Iterable[float]", least: float, floor: "Optional[float]" = None, roof: "Optional[float]" = None) -> "tuple[float, float]":
    """From where to where an axis goes that shows these values: with 0 where that is near, at least so far, and between nice numbers."""
    there = list(values)
    low, high = (min(there), max(there)) if there else (0.0, least)
    if 0 < low < 0.45 * high:
        low = 0.0
    if 0.45 * low < high < 0:
        high = 0.0
    if high - low < least:
        low, high = (low + high - least) / 2, (low + high + least) / 2
    each = step(high - low, 4)
    low, high = math.floor(low / each + 1e-9) * each, math.ceil(high / each - 1e-9) * each
    if floor is not None and low < floor:
        low = floor
    if roof is not None and high > roof:
        high = roof
    return low, high if high > low else low + least


def near(charge: "list[float]", lines: "dict[str, list[float]]") -> "set[str]":
    """Which lines are near enough to a curve to be shown beside it: those that leave it a sixth of the height."""
    there: "set[str]" = set()
    if not charge:
        return set(lines)
    low, high = min(charge), max(charge)
    own = max(high - low, 0.02 * abs(high), 1e-9)
    reach = {name: max(low - min(values), max(values) - high, 0.0) for name, values in lines.items() if values}
    for name in sorted(reach, key=lambda each: reach[each]):
        lower, higher = min(low, *lines[name]), max(high, *lines[name])
        if higher - lower <= 6 * own:
            there.add(name)
            low, high = lower, higher
    return there


def rough(points: "list[tuple[float, float]]") -> "list[tuple[float, float]]":
    """The same line to the eye: of the points in one column of the paper the first, the lowest, the highest and the last; none on a straight line."""
    columns: "list[list[tuple[float, float]]]" = []
    for point in points:
        if columns and int(columns[-1][0][0]) == int(point[0]):
            columns[-1].append(point)
        else:
            columns.append([point])
    seen: "list[tuple[float, float]]" = []
    for column in columns:
        chosen = {0, len(column) - 1, min(range(len(column)), key=lambda at: column[at][1]), max(range(len(column)), key=lambda at: column[at][1])}
        for at in sorted(chosen):
            point = (round(column[at][0], 1), round(column[at][1], 1))
            while len(seen) > 1 and straight(seen[-2], seen[-1], point):
                seen.pop()
            if not seen or seen[-1] != point:
                seen.append(point)
    return seen


def straight(first: "tuple[float, float]", middle: "tuple[float, float]", last: "tuple[float, float]") -> bool:
    """Whether the middle of three points is no corner: on the way from one to the other, and off it by less than a twentieth of a pixel."""
    ahead = (middle[0] - first[0]) * (last[0] - middle[0]) + (middle[1] - first[1]) * (last[1] - middle[1]) >= 0
    twice = abs((middle[0] - first[0]) * (last[1] - first[1]) - (last[0] - first[0]) * (middle[1] - first[1]))
    return ahead and twice <= 0.05 * max(1.0, math.hypot(last[0] - first[0], last[1] - first[1]))


def short(number: float) -> str:
    """A number of a path, without what it can do without."""
    text = f"{number:.1f}"
    text = text[:-2] if text.endswith(".0") else text
    return text.replace("-0.", "-.", 1) if text.startswith("-0.") else text[1:] if text.startswith("0.") else "0" if text == "-0" else text


def path(lines: "Iterable[list[tuple[float, float]]]") -> str:
    """The path of some lines, by steps from point to point."""
    told = []
    for line in lines:
        points = rough(line)
        for at, (x, y) in enumerate(points):
            if at == 0:
                told.append(f"M{short(x)} {short(y)}")
                continue
            right, down = x - points[at - 1][0], y - points[at - 1][1]
            told.append(f"h{short(right)}" if abs(down) < 0.05 else f"v{short(down)}" if abs(right) < 0.05 else f"l{short(right)} {short(down)}")
    return "".join(told)
