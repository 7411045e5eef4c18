"""Time, as far as records state it: ticks of 3600/1024 s, since a pack's first sample."""
from dataclasses import dataclass
from typing import Optional

from . import records
from .gauge import Line, Told
from .records import Record

ROUND = 65536  # where the ticks of samples begin anew


@dataclass
class Clock:
    """The time of one pack. A sample stands at its tick, and a conversion is a tick. Over a power-on the clock stands still: what a logger counts from
    then on may begin anywhere."""
    ticks: int = 0
    last: Optional[int] = None

    def passed(self, kind: int, payload: bytes) -> None:
        """An event of this pack that was accepted."""
        if kind == records.CONVERSION:
            self.ticks += 1
        elif kind == records.POWER_ON:
            self.last = None
        elif kind == records.SAMPLE:
            tick = int.from_bytes(payload[4:], "little")
            self.ticks += 0 if self.last is None else (tick - self.last) % ROUND
            self.last = tick


class Clocks:
    """The time of each pack, by its slot."""

    def __init__(self) -> None:
        self.of: "dict[int, Clock]" = {}

    def heard(self, told: Told, line: Line) -> None:
        """A record with its answer."""
        piece = told.piece
        if not isinstance(piece, Record) or told.answer.number != 0:
            return
        if line.tray and piece.kind in records.UNSLOTTED:
            self.at(piece.payload[0]).passed(records.UNSLOTTED[piece.kind], piece.payload[1:])
        elif not line.tray:
            self.at(0).passed(piece.kind, piece.payload)

    def at(self, slot: int) -> Clock:
        return self.of.setdefault(slot, Clock())
