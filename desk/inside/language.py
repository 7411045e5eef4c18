"""Words to records: the language of docs/WORDS.md, one statement after the other."""
import copy
import itertools
import re
from dataclasses import dataclass, field
from fractions import Fraction
from typing import Callable, Iterable, Iterator, NoReturn, Optional, TypeVar, Union

from . import image, lexer, records, units
from .lexer import Word
from .packs import Pack, Packs
from .records import Cut, Piece, Record
from .slips import Place, Slip, Unfit, nearest

Value = TypeVar("Value")
Tell = Callable[[Union[Slip, Unfit]], None]

AMOUNT = re.compile(r"([+-]?[0-9]{1,15}(?:\.[0-9]{1,15})?)([A-Za-zµμΩ°%]*)$")
BYTE = re.compile(r"[0-9A-Fa-f]{2}$")
HEX = re.compile(r"([0-9A-Fa-f]{1,4})h$")
NAME = re.compile(r"[A-Za-z][A-Za-z0-9_-]*$")
CELLS = re.compile(r'[^#"]*[,;]')  # a line that may be a row of a CSV
WORDS = ("let", "include", "pack", "reading", "conversion", "sample", "power-on", "slot", "read", "write", "copy", "recall", "lock", "net-address",
         "transaction", "skip", "match", "long", "short", "tick", "record", "bytes")
EVENTS = ("reading", "conversion", "sample", "power-on")
COMMANDS = {"copy": records.COPY, "recall": records.RECALL, "lock": records.LOCK}
MOST_TICKS = 64  # that a sample covers
MOST_REPEATED = 1 << 20  # records of one statement


class Reader:
    """The words of one statement, taken one after the other."""

    def __init__(self, words: "list[Word]", names: "dict[str, list[Word]]") -> None:
        self.in_pack = words[0].word == "pack"
        self.words: "list[Word]" = []
        for word in words:
            known = names.get(word.word) if word.text is None else None
            self.words += [w._replace(place=word.place) for w in known] if known else [word]
            if len(self.words) > lexer.MOST_WORDS:
                raise Slip(word.place, f"with its names spelt out this statement has over {lexer.MOST_WORDS:,} words", "let a name stand for less")
        self.at = 0
        last = words[-1]
        self.end = last.place._replace(column=last.place.column + len(last.word))

    def place(self) -> Place:
        return self.words[self.at].place if self.at < len(self.words) else self.end

    def left(self) -> bool:
        return self.at < len(self.words)

    def peek(self) -> str:
        return self.words[self.at].word if self.left() and self.words[self.at].text is None else ""

    def fail(self, expected: str, known: Iterable[str] = ()) -> NoReturn:
        """The slip that something else stands here than was expected."""
        if not self.left():
            raise Slip(self.place(), "the statement ends here", f"expected {expected}")
        remedy = f"expected {expected}"
        like = nearest(self.peek(), known) if self.peek() else ""
        raise Slip(self.place(), f"{self.words[self.at].word} is not what belongs here", remedy + (f"; {like}" if like else ""))

    def take(self, expected: str, known: Iterable[str] = ()) -> Word:
        if not self.left():
            self.fail(expected, known)
        self.at += 1
        return self.words[self.at - 1]

    def took(self, word: str) -> bool:
        """Takes this word where it stands here."""
        if self.peek().lower() == word:
            self.at += 1
            return True
        return False

    def choice(self, expected: str, known: "Iterable[str]") -> str:
        """One of the known words."""
        known = list(known)
        if self.peek().lower() not in known:
            self.fail(expected, known)
        return self.take(expected).word.lower()

    def whole(self, expected: str, low: int, high: int) -> int:
        """A whole number in low..high, in decimal or as hex with an h behind it."""
        found = HEX.match(self.peek())
        if found is None and not re.match(r"[+-]?[0-9]{1,15}$", self.peek()):
            self.fail(f"{expected}, {low} to {high}")
        number = int(found.group(1), 16) if found else int(self.peek())
        if not low <= number <= high:
            raise Slip(self.place(), f"{self.peek()} is out of range", f"expected {expected}, {low} to {high}")
        self.at += 1
        return number

    def amount(self, expected: str, taken: "Iterable[str]") -> "tuple[Fraction, str, Place]":
        """A number and its unit, which may stand apart; "" for a bare count. `taken` are the base units that may follow."""
        taken = list(taken)
        place = self.place()
        found = AMOUNT.match(self.peek())
        if found is None:
            self.fail(expected)
        self.at += 1
        number, unit = Fraction(found.group(1)), found.group(2)
        if not unit and self.is_unit(self.peek(), [*taken, *units.BASES, *units.TIMES]):
            unit = self.take("a unit").word
        if unit and not self.is_unit(unit, taken):
            raise Slip(place, f"{unit} is not a unit of what belongs here", f"expected {expected}")
        return number, unit, place

    @staticmethod
    def is_unit(unit: str, taken: "list[str]") -> bool:
        parts = units.split_unit(unit)
        return unit in taken or (parts is not None and parts[1] in taken)

    def counted(self, expected: str, base: str, weight: Fraction, low: int, high: int) -> int:
        """An amount as counts of a weight in its base unit, in low..high; a bare number is counts already."""
        exact, unit, place = self.amount(expected, [base])
        if unit:
            parts = units.split_unit(unit)
            factor = parts[0] if parts else Fraction(1)
            if not weight:
                raise Slip(place, f"{unit} cannot be turned into counts: no pack above says its sense resistor", "write counts, or a pack with `rsns 20 mOhm`")
            exact = exact * factor / weight
        elif exact.denominator != 1:
            raise Slip(place, "counts are whole numbers", f"expected {expected}")
        number = units.rounded(exact)
        if not low <= number <= high:
            raise Slip(place, f"that is {number} counts", f"expected {low} to {high} counts" + (f", {units.decimal(low * weight, 6)} to "
                       f"{units.decimal(high * weight, 6)} {base}" if weight else ""))
        return number

    def ticks(self, expected: str) -> int:
        exact, unit, place = self.amount(expected, ["ticks", "tick", *units.TIMES])
        if not unit:
            raise Slip(place, "how long?", "expected a unit: s, min, h, d or ticks (1,024 in an hour)")
        number = units.rounded(exact * units.TIMES.get(unit, Fraction(1)))
        if number < 1:
            raise Slip(place, "that is less than a tick", "a tick is 3600/1024 s: at least 3.52 s")
        return number

    def address(self, expected: str) -> int:
        """A place on the bus: hex with an h, or two hex digits."""
        if BYTE.match(self.peek()):
            return int(self.take(expected).word, 16)
        if not HEX.match(self.peek()):
            self.fail(f"{expected}, as 20h")
        return self.whole(expected, 0, 255)

    def is_byte(self) -> bool:
        return self.left() and (self.words[self.at].text is not None or BYTE.match(self.peek()) is not None)

    def is_setting(self) -> bool:
        """Whether `ab` or `ac` stands here as a setting: its value comes next, which is no setting."""
        behind = self.words[self.at + 1].word.lower() if self.at + 1 < len(self.words) else ""
        return self.peek().lower() in ("ab", "ac") and self.in_pack and behind != "" and behind not in image.SETTINGS and self.at > 7

    def bytes_left(self, expected: str, least: int, most: int) -> bytes:
        """Bytes up to the end of the statement."""
        found = self.bytes_here(expected, least, most)
        if self.left():
            self.fail(expected)
        return found

    def bytes_here(self, expected: str, least: int, most: int) -> bytes:
        """Bytes as pairs of hex digits and as quoted texts, as many as stand here."""
        place, found = self.place(), bytearray()
        while self.is_byte() and not self.is_setting():
            word = self.take(expected)
            found += word.text if word.text is not None else bytes.fromhex(word.word)
        if len(found) < least and self.left():
            self.fail(expected)
        if not least <= len(found) <= most:
            raise Slip(place, f"{len(found)} bytes stand here", f"expected {expected}")
        return bytes(found)

    def done(self) -> None:
        if self.left():
            raise Slip(self.place(), f"{self.words[self.at].word} is too much here", "expected the end of the statement, or a # comment")


@dataclass
class Writer:
    """Statements to records. `check` gives the CRC of seven bytes of an address, and `opened` the lines of a file that is included. `tell` is there where
    somebody types them at a terminal, who is told of a slip and can say the statement again."""
    check: Callable[[bytes], int]
    opened: Callable[[Word, str], "Iterable[str]"]
    names: "dict[str, list[Word]]" = field(default_factory=dict)
    packs: Packs = field(default_factory=Packs)
    tell: "Optional[Tell]" = None

    # ---- a text

    def pieces(self, file: str, lines: Iterable[str], depth: int = 0) -> Iterator[Piece]:
        tell = self.tell if depth == 0 else None
        for statement in lexer.statements(file, lines, tell):
            yield from self.whole(statement, tell) if tell else self.said(statement, depth)

    def whole(self, statement: "list[Word]", tell: "Tell") -> "list[Piece]":
        """All records of a statement that is typed, or none where it has a slip: then names, packs and their ticks are as they were before it."""
        names, packs = dict(self.names), copy.deepcopy(self.packs)
        try:
            return list(self.said(statement))
        except (Slip, Unfit) as fault:
            self.names, self.packs = names, packs
            tell(fault)
            return []

    def said(self, statement: "list[Word]", depth: int = 0) -> Iterator[Piece]:
        """The records of one statement."""
        if statement[0].word == "include" and statement[0].text is None:
            yield from self.included(statement, depth)
        else:
            yield from self.statement(statement)

    def included(self, statement: "list[Word]", depth: int) -> Iterator[Piece]:
        words = Reader(statement[1:] or statement[:1], {})
        if len(statement) != 2 or statement[1].text is None:
            raise Slip(words.place(), "include what?", 'expected one file name in quotes, as include "packs.txt"')
        if depth >= lexer.MOST_INCLUDED:
            raise Slip(statement[0].place, f"files include each other {depth} deep", "a file may not include itself, by way of another one either")
        name = statement[1].text.decode("ascii", "replace")
        if not name or not name.isascii() or not name.isprintable():
            raise Slip(statement[1].place, "no file has such a name", 'expected one file name in quotes, as include "packs.txt"')
        path = lexer.beside(statement[0].place.file, name)
        yield from self.pieces(path, self.opened(statement[1], path), depth + 1)

    def statement(self, words: "list[Word]") -> Iterator[Piece]:
        if words[0].word == "let" and words[0].text is None:
            self.let(words)
            return
        reader = Reader(words, self.names)
        first = reader.choice("a statement" + (", and a logger's CSV becomes records by `from_csv`" if CELLS.match(words[0].place.text) else ""), WORDS)
        if first == "slot":
            yield from self.slotted(reader)
        elif first in EVENTS:
            yield from self.event(first, reader, self.packs.here())
        elif first == "pack":
            yield self.pack(reader)
        elif first == "tick":
            self.packs.here().tick = reader.whole("a tick", 0, 65535)
        elif first == "bytes":
            yield Cut(reader.bytes_left("bytes as pairs of hex digits", 1, 1 << 20))
        elif first == "record":
            kind = reader.whole("a kind", 0, 65535)
            yield Record(kind, reader.bytes_left("bytes as pairs of hex digits", 0, 65535))
        else:
            yield self.transaction(first, reader)
        reader.done()

    def let(self, words: "list[Word]") -> None:
        """let NAME = WORD ..: the name stands for these words from here on."""
        if len(words) < 2 or not NAME.match(words[1].word) or words[1].text is not None:
            raise Slip(words[min(1, len(words) - 1)].place, "let what?", "expected a name, as let can = 3D 41 07 11 00 29 10")
        name = words[1].word
        if name in WORDS or name in image.SETTINGS or BYTE.match(name):
            raise Slip(words[1].place, f"{name} means something already", "choose another name; two hex digits are a byte")
        if len(words) < 4 or words[2].word != "=":
            raise Slip(words[min(2, len(words) - 1)].place, f"what is {name}?", f"expected = and its words, as let {name} = 3D 41")
        self.names[name] = Reader(words[3:], self.names).words

    # ---- events

    def slotted(self, reader: Reader) -> Iterator[Piece]:
        slot = reader.whole("a slot", 0, 255)
        event = reader.choice("reading, conversion, sample or power-on", EVENTS)
        for record in self.event(event, reader, self.packs.at(slot)):
            yield records.slotted(record, slot)

    def event(self, event: str, reader: Reader, pack: Pack) -> Iterator[Record]:
        if event == "power-on":
            pack.sampled = False
            yield Record(records.POWER_ON, b"")
        elif event == "reading":
            volt = reader.counted("a voltage, as 7.41 V or 759", "V", units.VOLTAGE[pack.kind], -(1 << 31), (1 << 31) - 1)
            yield records.reading(volt, self.temperature(reader))
        else:
            weight = units.CURRENT * pack.rsnsp
            raw = reader.counted("a current, as -120 mA or -1536", "A", weight, -(1 << 31), (1 << 31) - 1)
            yield from self.converted(raw, reader) if event == "conversion" else self.sampled(raw, reader, pack)

    @staticmethod
    def temperature(reader: Reader) -> int:
        exact, unit, place = reader.amount("a temperature, as 4.5 C or 36", ["C", "°C"])
        if not unit and exact.denominator != 1:
            raise Slip(place, "counts are whole numbers", "expected a temperature, as 4.5 C or 36")
        count = units.rounded(exact / units.TEMPERATURE) if unit else int(exact)
        if not -(1 << 31) <= count < 1 << 31:
            raise Slip(place, f"that is {count} counts", "expected what 32 bits hold")
        return count

    @staticmethod
    def converted(raw: int, reader: Reader) -> Iterator[Record]:
        """One conversion, or one for each tick of a time, or a number of times."""
        times, place = 1, reader.place()
        if reader.took("for"):
            times = reader.ticks("how long, as 30 min")
            few(place, times)
        elif reader.left():
            times = reader.whole("how often, as 8 times", 1, MOST_REPEATED)
            reader.choice("`times`", ["times"])
        for _ in range(times):
            yield records.conversion(raw)

    @staticmethod
    def sampled(raw: int, reader: Reader, pack: Pack) -> Iterator[Record]:
        """One sample, or one every so many ticks for a time. The first since a power-on counts as one tick, whatever its own is: so that a stretch
        has its time, a sample at its start goes ahead where there was none."""
        if not reader.took("for"):
            tick = reader.whole("a tick", 0, 65535) if reader.took("at") else (pack.tick + pack.sampled) % 65536
            pack.tick, pack.sampled = tick, True
            yield records.sample(raw, tick)
            return
        place = reader.place()
        length = reader.ticks("how long, as 3 h")
        step = 1
        if reader.took("every"):
            often = reader.place()
            step = reader.ticks("how often, as 10 ticks")
            if step > MOST_TICKS:
                raise Slip(often, f"that is {step} ticks", f"a sample covers at most {MOST_TICKS} ticks, 3.75 min; after a longer gap the pack powers on")
        few(place, length // step)
        if not pack.sampled:
            pack.sampled = True
            yield records.sample(raw, pack.tick)
        for at in itertools.chain(range(step, length, step), [length]):
            yield records.sample(raw, (pack.tick + at) % 65536)
        pack.tick = (pack.tick + length) % 65536

    # ---- transactions

    def transaction(self, first: str, reader: Reader) -> Record:
        kind: Optional[int] = None
        if first in ("long", "short"):
            kind = records.LONG if first == "long" else records.TRANSACTION
            first = reader.choice("a transaction", [w for w in WORDS if w in (*COMMANDS, "read", "write", "net-address", "transaction", "skip", "match")])
        chosen = bytes([records.SKIP])
        if first in ("skip", "match"):
            if first == "match":
                chosen = bytes([records.MATCH]) + self.net_address(reader)
            first = reader.choice("read, write, copy, recall or lock", ["read", "write", *COMMANDS])
        count, master = self.asked(first, chosen, reader)
        if kind is None:
            kind = records.TRANSACTION if max(count, len(master)) <= records.MOST[records.TRANSACTION] else records.LONG
        if count >= 256 ** records.HEAD[kind]:
            raise Slip(reader.end, f"a short transaction has one byte for its read count, and {count} does not fit", "leave `short` away")
        return records.transaction(kind, count, master)

    @staticmethod
    def asked(command: str, chosen: bytes, reader: Reader) -> "tuple[int, bytes]":
        """How many bytes are read, and what the master sends."""
        if command == "transaction":
            count = reader.whole("a read count", 0, 65535)
            return count, reader.bytes_left("the master's bytes, as pairs of hex digits", 0, 65533)
        if command == "net-address":
            ask = bytes([reader.address("33h, or 39h where RNAOP is set")]) if reader.left() else b"\x33"
            return reader.whole("a read count", 0, 65535) if reader.left() else 8, ask
        at = bytes([reader.address("an address of the map")])
        if command == "read":
            return reader.whole("how many bytes", 0, 65535), chosen + bytes([records.READ]) + at
        if command == "write":
            return 0, chosen + bytes([records.WRITE]) + at + reader.bytes_left("what is written: pairs of hex digits, or a text in quotes", 0, 65000)
        return 0, chosen + bytes([COMMANDS[command]]) + at

    def net_address(self, reader: Reader) -> bytes:
        """Eight bytes, or seven to which the CRC is worked out. (`ab` and `ac` are bytes and settings: with a value behind it, it is a setting.)"""
        given = reader.bytes_here("an address of 7 bytes, or of 8 with its CRC", 7, 8)
        return given if len(given) == 8 else given + bytes([self.check(given)])

    # ---- a pack

    def pack(self, reader: Reader) -> Record:
        place = reader.place()
        address = self.net_address(reader)
        settings = self.settings(reader)
        kind = image.FAMILY.get(address[0])
        if "profile" in settings:
            named = one(settings.pop("profile"), lambda reader: reader.choice("ds2781 or ds2775", image.PROFILE.values()))
            kind = next(kind for kind, name in image.PROFILE.items() if name == named)
        if kind is None:
            raise Slip(place, f"the family {address[0]:02X}h is neither 3Dh (a DS2781) nor 32h (a DS2775)", "say which, as profile ds2781")
        made = bytearray(image.SIZE[kind])
        made[:8] = address
        rsnsp = self.sense(settings)
        made[image.RSNSP_AT] = rsnsp
        self.put_label(made, settings)
        self.put_control(made, settings)
        self.put_locks(made, settings)
        self.put_numbers(made, kind, rsnsp, settings)
        for name in image.ROWS:
            self.put_row(made, name, settings)
        record = Record(kind, bytes(made))
        self.packs.add(record)
        return record

    @staticmethod
    def settings(reader: Reader) -> "dict[str, list[Word]]":
        """Each setting's name with the words behind it."""
        found: "dict[str, list[Word]]" = {}
        while reader.left():
            place = reader.place()
            name = reader.choice("a setting of a pack", image.SETTINGS)
            if name in found:
                raise Slip(place, f"{name} is said twice", "leave one of them away")
            found[name] = []
            while reader.left() and reader.peek().lower() not in image.SETTINGS:
                found[name].append(reader.take("a value"))
            if not found[name]:
                raise Slip(reader.place(), f"{name} has no value", "expected one behind its name")
        return found

    @staticmethod
    def sense(settings: "dict[str, list[Word]]") -> int:
        """RSNSP: the sense resistor as whole 1/Ω."""
        if "rsnsp" in settings:
            if "rsns" in settings:
                raise Slip(settings["rsns"][0].place, "rsns and rsnsp say the same", "leave one of them away")
            reader = Reader(settings["rsnsp"], {})
            number = reader.whole("the sense resistor in 1/Ohm", 0, 255)
        elif "rsns" in settings:
            reader = Reader(settings["rsns"], {})
            exact, unit, place = reader.amount("a sense resistor, as 20 mOhm", ["Ohm"])
            parts = units.split_unit(unit)
            ohms = exact * parts[0] if parts else Fraction(0)
            if ohms <= 0 or not 1 <= units.rounded(1 / ohms) <= 255:
                raise Slip(place, "no pack can state this sense resistor", "expected 3.922 mOhm to 1 Ohm: it is kept as 1/R in one byte")
            number = units.rounded(1 / ohms)
        else:
            return image.USUAL["rsnsp"]
        reader.done()
        return number

    @staticmethod
    def put_label(made: bytearray, settings: "dict[str, list[Word]]") -> None:
        label = b""
        if "label" in settings:
            reader = Reader(settings["label"], {})
            label = reader.bytes_left('a label of at most 16 bytes, in quotes, as label "VAULT 3"', 0, image.LABEL_SIZE)
            reader.done()
        made[image.LABEL_AT:image.LABEL_AT + image.LABEL_SIZE] = label.ljust(image.LABEL_SIZE)

    @staticmethod
    def put_control(made: bytearray, settings: "dict[str, list[Word]]") -> None:
        control = image.NBEN
        if "control" in settings:
            control = one(settings["control"], lambda reader: reader.whole("the byte of 60h, as 80h", 0, 255))
        if "nben" in settings:
            on = one(settings["nben"], lambda reader: reader.choice("on or off", ["on", "off"])) == "on"
            control = control & ~image.NBEN | (image.NBEN if on else 0)
        if "rnaop" in settings:
            ask = one(settings["rnaop"], lambda reader: reader.choice("33h or 39h: which byte asks for the net address", ["33h", "39h"]))
            control = control & ~image.RNAOP | (image.RNAOP if ask == "39h" else 0)
        made[image.CONTROL_AT] = control

    @staticmethod
    def put_locks(made: bytearray, settings: "dict[str, list[Word]]") -> None:
        if "locks" not in settings:
            return

        def locks(reader: Reader) -> int:
            if HEX.match(reader.peek()):
                return reader.whole("the lock byte", 0, 255)
            return image.LOCKS[reader.choice("none, block0, block1, both, or the lock byte, as 07h", image.LOCKS)]
        made[image.LOCKS_AT] = one(settings["locks"], locks)

    @staticmethod
    def put_numbers(made: bytearray, kind: int, rsnsp: int, settings: "dict[str, list[Word]]") -> None:
        for name, number in image.NUMBERS.items():
            if name == "cycles" and kind != records.CAMERA:
                if name in settings:
                    raise Slip(settings[name][0].place, "only a DS2775 counts cycles", "leave it away, or say profile ds2775")
                continue
            value = image.USUAL.get(name)
            if name in settings:
                value = Writer.setting(Reader(settings[name], {}), number, kind, rsnsp)
            elif value is None:  # charge and ac: as much as a full pack has
                value = image.got(bytes(made), image.NUMBERS["full40"])
            image.put(made, number, value)

    @staticmethod
    def setting(reader: Reader, number: image.Number, kind: int, rsnsp: int) -> int:
        low, high = image.bounds(number)
        if number.measure == "count":
            value = reader.whole("a number", low, high)
            reader.done()
            return value
        base = {"charge": "Ah", "current": "A", "voltage": "V"}[number.measure]
        shape = {"charge": "a charge, as 3125 mAh or 10000", "current": "a current, as 75 mA or 30", "voltage": "a voltage, as 8.2 V or 210"}
        value = reader.counted(shape[number.measure], base, image.weight(number, kind, rsnsp), low, high)
        reader.done()
        return value

    @staticmethod
    def put_row(made: bytearray, name: str, settings: "dict[str, list[Word]]") -> None:
        row = image.ROWS[name]
        values = image.USUAL_ROWS[name]
        if name in settings:
            reader = Reader(settings[name], {})
            low, high = (-128, 127) if row.signed else (0, 255)
            values = tuple(reader.whole(f"{len(row.at)} numbers", low, high) for _ in row.at)
            if row.measure == "degrees" and reader.peek() in ("C", "°C"):
                reader.take("C")
            reader.done()
        for at, value in zip(row.at, values):
            made[at] = value % 256


def few(place: Place, count: int) -> None:
    if count > MOST_REPEATED:
        raise Slip(place, f"that is {count:,} records", f"a statement says at most {MOST_REPEATED:,}: say it in parts")


def one(words: "list[Word]", taken: Callable[[Reader], Value]) -> Value:
    """What stands for a setting, and nothing behind it."""
    reader = Reader(words, {})
    value = taken(reader)
    reader.done()
    return value
