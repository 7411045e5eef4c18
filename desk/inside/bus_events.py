"""What happens to packs on a line, in words: as somebody types it, or from a file in the packs' own time."""
import asyncio
import os
import threading
from typing import Awaitable, Callable, Iterator

from . import image, lexer, proved, records, start, units
from .bus_line import Line
from .language import MOST_TICKS, Writer
from .lexer import Word
from .meanings import meaning
from .packs import Pack, Packs
from .records import Piece, Record
from .slips import Slip, Unfit, plain
from .speak import pairs

SECONDS = 3600 / units.TICKS_AN_HOUR  # of a tick
LONGEST = 1 << 16  # bytes of a line
AHEAD = 64  # lines that wait


class Clock:
    """How long the packs' own time takes: a conversion is a tick, a sample as many as have passed since the one before. All else takes none. Each pack
    has its own time, and they begin together."""

    def __init__(self) -> None:
        self.ticks: "dict[int, int]" = {}
        self.last: "dict[int, int]" = {}

    def moment(self, record: Record) -> int:
        """The tick of its pack at which an event is over; of all that is no event, how far the furthest pack is."""
        if record.kind not in records.UNSLOTTED or not record.payload:
            return max(self.ticks.values(), default=0)
        slot, kind = record.payload[0], records.UNSLOTTED[record.kind]
        self.ticks[slot] = self.ticks.get(slot, 0) + self.took(slot, kind, record.payload[1:])
        return self.ticks[slot]

    def took(self, slot: int, kind: int, payload: bytes) -> int:
        if kind == records.POWER_ON:
            self.last.pop(slot, None)
        if kind != records.SAMPLE:
            return int(kind == records.CONVERSION)
        tick = int.from_bytes(payload[4:], "little")
        passed = (tick - self.last.get(slot, tick - 1)) % 65536
        if not 1 <= passed <= MOST_TICKS:
            return 0  # it will be refused
        self.last[slot] = tick
        return passed


class OnTheLine(Packs):
    """The packs on a line, all of which were accepted."""

    def add(self, record: Record) -> None:
        """None is added: a `pack` is refused, and leaves what others are measured by."""


class Bench:
    """Statements about the packs of a tray, run on their line. Ticks go on from one statement to the next, whoever says it."""

    def __init__(self, line: Line, said: Callable[[str], None]) -> None:
        self.line, self.said = line, said
        self.packs = self.known()

    def known(self) -> Packs:
        images = self.line.tray.images
        return OnTheLine(images, [Pack(made.kind, made.payload[image.RSNSP_AT]) for made in images], slots=list(range(len(images))))

    def writer(self, packs: Packs) -> Writer:
        return Writer(self.checked_by, start.included, packs=packs)

    def checked_by(self, seven: bytes) -> int:
        """The CRC of an address. Those of the packs on the line are known: the proved program need not be started while somebody waits."""
        known = next((address for address in self.line.tray.addresses if address[:7] == seven), None)
        return known[7] if known is not None else proved.checksum(seven)

    def records(self, writer: Writer, statement: "list[Word]") -> Iterator[Record]:
        """The records of a statement, as this tray has them."""
        for piece in writer.said(statement):
            yield self.slotted(piece, statement[0])

    def slotted(self, piece: Piece, word: Word) -> Record:
        """An event of a pack in its slot, or a transaction."""
        if isinstance(piece, Record) and piece.kind in records.SLOTTED:
            if len(self.packs.images) > 1:
                raise Slip(word.place, f"{len(self.packs.images)} packs are on the line", "say which, as slot 0 " + word.word)
            return records.slotted(piece, 0)
        if isinstance(piece, Record) and (piece.kind in records.UNSLOTTED or piece.kind in records.HEAD):
            return piece
        raise Slip(word.place, "this is nothing that happens to a pack on a line", "expected an event or a transaction; the packs are those of the call")

    async def run(self, statement: "list[Word]", writer: Writer, waited: Callable[[Record], Awaitable[None]]) -> None:
        """Runs a statement, each record when it was waited for. What it replies is said; of its refusals the first, and how many there were."""
        place = statement[0].place
        where, refused = plain(f"{place.file}:{place.line}"), 0
        for record in self.records(writer, statement):
            await waited(record)
            answer = self.line.transaction(record) if record.kind in records.HEAD else self.line.event(record)
            refused += answer.number != 0
            if answer.number != 0 and refused == 1:
                self.said(f"{where}: refused with {answer.number}: {meaning(record, answer.number, True)}")
            elif answer.reply:
                self.said("reply " + pairs(answer.reply))
        if refused > 1:
            self.said(f"{where}: refused {refused} records of this statement")

    # ---- as somebody types it

    async def typed(self) -> bool:
        """Each line of standard input is a statement, and is run at once; a slip is said, and nothing of the rest of its line is run. Whether `quit` ended
        them, or the end of the lines, which is an empty one without its end."""
        writer, lines = self.writer(self.packs), Lines()
        number = 0

        async def others(_: Record) -> None:
            await asyncio.sleep(0)  # who is on the line comes in between

        while True:
            line = await lines.next()
            number += 1
            if not line or line.strip().lower() == b"quit":
                return bool(line)
            try:
                words = list(lexer.words_of("standard input", number, line.decode("utf-8", "replace")))
                if words:
                    await self.run(words, writer, others)
            except Slip as slip:
                self.said(slip.told())
            except proved.Gone:
                raise
            except Unfit as fault:
                self.said(str(fault))

    # ---- from a file

    def checked(self, name: str, text: "list[str]") -> None:
        """Raises the first slip of a text, before anything of it is run."""
        writer = self.writer(self.known())
        for statement in lexer.statements(name, text):
            for _ in self.records(writer, statement):
                pass

    async def played(self, name: str, text: "list[str]", speed: float) -> None:
        """A text, each record when its time has come."""
        writer, clock = self.writer(self.packs), Clock()
        loop = asyncio.get_running_loop()
        began = loop.time()

        async def due(record: Record) -> None:
            await asyncio.sleep(max(0.0, began + clock.moment(record) * SECONDS / speed - loop.time()))

        for statement in lexer.statements(name, text):
            await self.run(statement, writer, due)


def lines_of(descriptor: int) -> Iterator[bytes]:
    """Each line of an input as it comes, and at its end an empty one. A line that is too long comes in parts."""
    rest, more = b"", b"more"
    while more:
        try:
            more = os.read(descriptor, LONGEST)
        except OSError:
            more = b""
        *lines, rest = (rest + more).split(b"\n")
        yield from (line + b"\n" for line in lines)
        if rest and (not more or len(rest) > LONGEST):
            yield rest
            rest = b""
    yield b""


class Lines:
    """Standard input, line by line. It is read by a thread that nobody waits for, since it may stand there for good (so it goes past sys.stdin, which
    Python would wait for), and not far ahead of what is run."""

    def __init__(self) -> None:
        self.loop = asyncio.get_running_loop()
        self.queue: "asyncio.Queue[bytes]" = asyncio.Queue()
        self.room = threading.Semaphore(AHEAD)
        threading.Thread(target=self.read, daemon=True).start()

    def read(self) -> None:
        try:
            for line in lines_of(0):
                self.room.acquire()
                self.loop.call_soon_threadsafe(self.queue.put_nowait, line)
        except RuntimeError:
            pass  # the bus is over

    async def next(self) -> bytes:
        line = await self.queue.get()
        self.room.release()
        return line
