"""A record as a person reads it: what it says, what it was answered, what the pack shows then, and what changed."""
from typing import Iterator, NamedTuple, Union

from . import gauge, records, registers
from .gauge import Line, Told
from .meanings import meaning
from .records import Piece, Record
from .registers import Said
from .speak import Speaker


class Seen(NamedTuple):
    """What a pack shows, as texts by name, and its flags."""
    values: "dict[str, str]"
    flags: "list[str]"
    label: str
    data: bytes
    kind: int

    def numbers(self) -> "dict[str, Union[int, float]]":
        """The same as numbers, with units in their names."""
        return {value.key(): registers.plain(value.number) for value in registers.shown(self.data, self.kind)}


class Explained(NamedTuple):
    """A record, explained."""
    number: int
    words: str
    answer: int
    meaning: str
    reply: bytes
    spelt: "list[str]"
    seen: "dict[int, Seen]"
    changed: "dict[int, list[str]]"
    told: Told
    registers: "dict[str, Said]"


def seen(data: bytes, kind: int) -> Seen:
    values = {value.name: value.text() for value in registers.shown(data, kind)}
    return Seen(values, registers.flags(data), "".join(chr(b) if 32 <= b <= 126 else "." for b in data[0x20:0x30]).rstrip(), data, kind)


def changes(before: Seen, after: Seen) -> "list[str]":
    """What is not as it was: what is shown, and by their names the registers and parameters that move nothing that is shown."""
    told = [f"{text} (was {before.values.get(name, '-').replace(name + ' ', '')})" for name, text in after.values.items() if before.values.get(name) != text]
    told += [f"{flag} set" for flag in after.flags if flag not in before.flags]
    told += [f"{flag} cleared" for flag in before.flags if flag not in after.flags]
    told += [f'label "{after.label}"'] if before.label != after.label else []
    if told and before.data[registers.PARAMETERS:] == after.data[registers.PARAMETERS:]:
        return told
    by = registers.Units(after.data[registers.RSNSP], after.kind)
    for register in registers.REGISTERS:
        old, new = (data[register.at:register.at + register.size] for data in (before.data, after.data))
        if old != new and (register.at >= registers.PARAMETERS or not told):
            told.append(f"{register.name} {register.said(new, by).text} (was {register.said(old, by).text})")
    return told


def read_from(piece: Piece) -> int:
    """The address that a transaction reads from, or -1."""
    if not isinstance(piece, Record) or piece.kind not in records.HEAD:
        return -1
    master = piece.payload[records.HEAD[piece.kind]:]
    at = {records.SKIP: 1, records.MATCH: 9}.get(master[0] if master else -1)
    if at is None or master[at:at + 1] != bytes([records.READ]) or len(master) < at + 2:
        return -1
    return master[at + 1]


def answering(piece: Piece, line: Line) -> int:
    """The slot of the one pack that answers a read, or -1 where nobody does, or several at once, whose AND is no number of any."""
    master = piece.payload[records.HEAD.get(piece.kind, 0):] if isinstance(piece, Record) else b""
    if master[:1] == bytes([records.MATCH]):
        return line.addresses.index(master[1:9]) if master[1:9] in line.addresses else -1
    return 0 if len(line.addresses) == 1 else -1


def explained(pieces: Iterator[Piece], tray: bool, every: int = 1) -> Iterator[Explained]:
    """Records, explained: each, or each so-manieth and each that is refused. What changed is told since the one that was told before."""
    line, speaker = Line(tray), Speaker()
    last: "dict[int, Seen]" = {}
    for number, told in enumerate(gauge.told(pieces, line), 1):
        taken = told.answer.number == 0
        if number % every and taken:
            speaker.hear(told.piece)
            continue
        now = {slot: seen(data, line.kinds[slot]) for slot, data in told.maps.items()}
        changed = {slot: changes(last[slot], pack) for slot, pack in now.items() if slot in last and last[slot] != pack}
        read = read_by(told, line)
        yield Explained(number, speaker.say(told.piece, taken), told.answer.number, meaning(told.piece, told.answer.number, tray), told.answer.reply,
                        [f"{name} {said.text}" for name, said in read.items()], now, changed, told, read)
        last = now


def read_by(told: Told, line: Line) -> "dict[str, Said]":
    """The registers that a reply tells, by name, where one pack gave it."""
    at, slot = read_from(told.piece), answering(told.piece, line)
    if at < 0 or slot not in told.maps:
        return {}
    return registers.read(at, told.answer.reply, registers.Units(told.maps[slot][registers.RSNSP], line.kinds[slot]))
