"""Records to words: what `write` makes the same bytes of."""
import functools
from dataclasses import dataclass, field
from fractions import Fraction
from typing import Iterator, Optional

from . import image, records, units
from .packs import Pack, Packs
from .records import Cut, Piece, Record

A_LINE = 32  # bytes in hex
PLAIN = 1 << 17  # counts of current beyond this are no current of a pack, and are said as counts
COMMANDS = {records.COPY: "copy", records.RECALL: "recall", records.LOCK: "lock"}
EVENTS = {records.READING: "reading", records.CONVERSION: "conversion", records.SAMPLE: "sample", records.POWER_ON: "power-on"}
BARE = ("ab", "cob")  # some counts: an amount would have more digits than sense


def pairs(data: bytes) -> str:
    return data.hex(" ").upper()


def text(data: bytes) -> str:
    """Bytes as a quoted text."""
    shown = ""
    for byte in data:
        if byte in (0x22, 0x5C):
            shown += "\\" + chr(byte)
        else:
            shown += chr(byte) if 32 <= byte <= 126 else f"\\x{byte:02X}"
    return f'"{shown}"'


def readable(data: bytes) -> bool:
    return len(data) > 1 and all(32 <= byte <= 126 for byte in data)


def listed(head: str, data: bytes) -> str:
    """Bytes in hex behind a head, on as many lines as they take."""
    rows = [pairs(data[at:at + A_LINE]) for at in range(0, len(data), A_LINE)]
    return "\n  ".join([" ".join([head, *rows[:1]]), *rows[1:]])


def milli(count: int, weight: Fraction, unit: str, most: int = 4) -> str:
    """A count in thousandths of a base unit, with just the digits that it takes; as it is where that cannot be."""
    amount = units.shortest(count, weight * 1000, most) if weight else None
    return f"{amount} m{unit}" if amount is not None else str(count)


@dataclass
class Speaker:
    """Says records in words, one after the other."""
    packs: Packs = field(default_factory=Packs)

    def said(self, pieces: Iterator[Piece]) -> Iterator[str]:
        for piece in pieces:
            yield self.say(piece)

    def hear(self, piece: Piece) -> None:
        """Takes in what later records are measured by: an image."""
        if isinstance(piece, Record) and len(piece.payload) == image.SIZE.get(piece.kind, -1):
            self.packs.add(piece)

    def say(self, piece: Piece, taken: bool = True) -> str:
        """A record as a statement; its lines below the first are indented. An image that is known to be refused is no pack to measure by."""
        if taken:
            self.hear(piece)
        if isinstance(piece, Cut):
            return listed("bytes", piece.rest)
        if len(piece.payload) == image.SIZE.get(piece.kind, -1):
            return self.pack(piece)
        return self.event(piece) or self.transaction(piece) or listed(f"record {piece.kind}", piece.payload)

    # ---- events

    def event(self, record: Record) -> str:
        plain = records.UNSLOTTED.get(record.kind)
        if plain is None:
            return self.change(record, self.packs.here())
        if not record.payload:
            return ""
        slot = record.payload[0]
        said = self.change(Record(plain, record.payload[1:]), self.packs.at(slot))
        return said and f"slot {slot} {said}"

    @staticmethod
    def change(record: Record, pack: Pack) -> str:
        if len(record.payload) != records.SIZES.get(record.kind, -1):
            return ""
        name = EVENTS[record.kind]
        first = int.from_bytes(record.payload[:4], "little", signed=True)
        if record.kind == records.POWER_ON:
            return name
        if record.kind == records.READING:
            return f"{name} {voltage(first, pack.kind)} {temperature(int.from_bytes(record.payload[4:], 'little', signed=True))}"
        said = f"{name} {current(first, pack.rsnsp)}"
        return said if record.kind == records.CONVERSION else f"{said} at {int.from_bytes(record.payload[4:], 'little')}"

    # ---- transactions

    @staticmethod
    def transaction(record: Record) -> str:
        head = records.HEAD.get(record.kind)
        if head is None or len(record.payload) < head:
            return ""
        count, master = int.from_bytes(record.payload[:head], "little"), record.payload[head:]
        usual = records.TRANSACTION if max(count, len(master)) <= records.MOST[records.TRANSACTION] else records.LONG
        form = "" if record.kind == usual else "long " if record.kind == records.LONG else "short "
        return form + (asked(count, master) or listed(f"transaction {count}", master))

    # ---- a pack

    @staticmethod
    def pack(record: Record) -> str:
        made, kind = record.payload, record.kind
        rsnsp = made[image.RSNSP_AT]
        number = {name: setting(made, name, kind, rsnsp) for name in image.NUMBERS if name != "cycles" or kind == records.CAMERA}
        row = {name: values(made, name) for name in image.ROWS}
        profile = [] if image.FAMILY.get(made[0]) == kind else ["profile " + image.PROFILE[kind]]
        label = made[image.LABEL_AT:image.LABEL_AT + image.LABEL_SIZE]
        cycles = [number.pop("cycles")] if "cycles" in number else []
        lines = [
            ["pack " + pairs(made[:8]), *profile],
            ["label " + text(label.rstrip(b" ")), sense(rsnsp), number.pop("full40"), number.pop("charge"), number.pop("as"), *cycles, locks(made)],
            [*control(made), *(number.pop(name) for name in ("vae", "iae", "vchg", "imin", "ac", "ab", "cob"))],
            [row["breakpoints"] + " C", number.pop("ae40"), row["full-slopes"], row["ae-slopes"], row["se-slopes"]],
            list(number.values()),
        ]
        return "\n  ".join("  ".join(line) for line in lines)


def asked(count: int, master: bytes) -> str:
    """What a transaction asks, where there is a statement for it; its bytes say all else."""
    chosen = ""
    rest = master
    if master[:1] in (b"\x33", b"\x39") and len(master) == 1:
        return f"net-address {master[0]:02X}h" + ("" if count == 8 else f" {count}")
    if master[:1] == bytes([records.MATCH]) and len(master) > 9:
        chosen, rest = f"match {pairs(master[1:9])} ", master[9:]
    elif master[:1] == bytes([records.SKIP]):
        rest = master[1:]
    else:
        return ""
    if len(rest) < 2:
        return ""
    command, at, data = rest[0], f"{rest[1]:02X}h", rest[2:]
    if command == records.READ and not data:
        return f"{chosen}read {at} {count}"
    if command == records.WRITE and count == 0:
        return listed(f"{chosen}write {at}", data) if not readable(data) else f"{chosen}write {at} {text(data)}"
    if command in COMMANDS and not data and count == 0:
        return f"{chosen}{COMMANDS[command]} {at}"
    return ""


@functools.lru_cache(maxsize=1 << 10)
def voltage(count: int, kind: int) -> str:
    amount = units.shortest(count, units.VOLTAGE[kind], 3) if 0 <= count < 4096 else None
    return f"{amount} V" if amount is not None else str(count)


def temperature(count: int) -> str:
    return f"{units.decimal(count * units.TEMPERATURE, 3)} C" if abs(count) < 4096 else str(count)


@functools.lru_cache(maxsize=1 << 10)
def current(count: int, rsnsp: int) -> str:
    return milli(count, units.CURRENT * rsnsp, "A") if abs(count) < PLAIN else str(count)


def setting(made: bytes, name: str, kind: int, rsnsp: int) -> str:
    number = image.NUMBERS[name]
    count = image.got(made, number)
    if number.measure == "count" or name in BARE:
        return f"{name} {count}"
    weight = image.weight(number, kind, rsnsp)
    if number.measure == "voltage":
        amount: Optional[str] = units.shortest(count, weight, 3)
        return f"{name} {amount} V" if amount is not None else f"{name} {count}"
    return f"{name} {milli(count, weight, 'Ah' if number.measure == 'charge' else 'A')}"


def values(made: bytes, name: str) -> str:
    row = image.ROWS[name]
    return " ".join([name, *(str(int.from_bytes(made[at:at + 1], "big", signed=row.signed)) for at in row.at)])


def sense(rsnsp: int) -> str:
    for places in range(5):
        if not rsnsp:
            break
        amount = units.decimal(Fraction(1000, rsnsp), places)
        if Fraction(amount) and units.rounded(1000 / Fraction(amount)) == rsnsp:
            return f"rsns {amount} mOhm"
    return f"rsnsp {rsnsp}"


def locks(made: bytes) -> str:
    byte = made[image.LOCKS_AT]
    return "locks " + next((name for name, value in image.LOCKS.items() if value == byte), f"{byte:02X}h")


def control(made: bytes) -> "list[str]":
    byte = made[image.CONTROL_AT]
    if byte & ~(image.NBEN | image.RNAOP):
        return [f"control {byte:02X}h"]
    return ["nben on" if byte & image.NBEN else "nben off", "rnaop 39h" if byte & image.RNAOP else "rnaop 33h"]
