"""Records as bytes: how they are made, and how they are read off a stream, cut ones too."""
from typing import BinaryIO, Callable, Iterable, Iterator, NamedTuple, TypeVar, Union

from .slips import Unfit

IMAGE, READING, CONVERSION, TRANSACTION, POWER_ON, SAMPLE, LONG, CAMERA = range(1, 9)
SLOTTED = {READING: 18, CONVERSION: 19, POWER_ON: 21, SAMPLE: 22}
UNSLOTTED = {tray: plain for plain, tray in SLOTTED.items()}
SIZES = {READING: 8, CONVERSION: 4, POWER_ON: 0, SAMPLE: 6}
MOST = {TRANSACTION: 64, LONG: 256}  # bytes read, and bytes of the master
HEAD = {TRANSACTION: 1, LONG: 2}     # bytes of the read count
READ, WRITE, COPY, RECALL, LOCK = 0x69, 0x6C, 0x48, 0xB8, 0x6A
SKIP, MATCH = 0xCC, 0x55
HEADER = 4
CHUNK = 65536  # bytes that are read at once
Thing = TypeVar("Thing")


class Record(NamedTuple):
    """A whole record."""
    kind: int
    payload: bytes

    def encoded(self) -> bytes:
        return len(self.payload).to_bytes(2, "little") + self.kind.to_bytes(2, "little") + self.payload


class Cut(NamedTuple):
    """Bytes at the end of a session that are no whole record."""
    rest: bytes

    def encoded(self) -> bytes:
        return self.rest


Piece = Union[Record, Cut]


class Pieces:
    """Records of bytes that come, one after the other; what is cut at their end comes last. `more` reads some, none at their end, and `before` is done
    before that, which may have to wait."""

    def __init__(self, more: "Callable[[int], bytes]", before: "Callable[[], None]" = lambda: None) -> None:
        self.more, self.before = more, before
        self.came = bytearray()
        self.at = 0  # where the next record starts in what came
        self.over = False

    def __iter__(self) -> "Pieces":
        return self

    def __next__(self) -> Piece:
        while self.waits():
            self.read()
        size = self.size()
        if size == 0:
            raise StopIteration
        start, self.at = self.at, self.at + size
        piece = bytes(self.came[start:self.at])
        if len(piece) < size or size < HEADER:
            self.at = len(self.came)
            return Cut(piece)
        return Record(int.from_bytes(piece[2:HEADER], "little"), piece[HEADER:])

    def waits(self) -> bool:
        """Whether what was read does not have the whole of the next record: more has to be read first."""
        return not self.over and (len(self.came) - self.at < HEADER or len(self.came) - self.at < self.size())

    def size(self) -> int:
        """How many bytes the next record has, where its header is there; else those that are left."""
        left = len(self.came) - self.at
        return HEADER + self.came[self.at] + 256 * self.came[self.at + 1] if left >= HEADER else left

    def read(self) -> None:
        self.before()
        try:
            data = self.more(CHUNK)
        except OSError as fault:
            raise Unfit(f"the records cannot be read: {fault.strerror}; name a file, or hand one over by <") from fault
        del self.came[:self.at]
        self.at = 0
        self.came += data
        self.over = not data


def pieces(stream: BinaryIO, before: "Callable[[], None]" = lambda: None) -> Pieces:
    """The records of a stream."""
    return Pieces(getattr(stream, "read1", None) or stream.read, before)


def anew(pieces: "Iterable[Piece]") -> Pieces:
    """The bytes of these, read as records again: words can say bytes of no record anywhere, and what stands behind them is then read with them."""
    parts = (piece.encoded() for piece in pieces)
    return Pieces(lambda size: next(parts, b""))


def waits(things: Iterator[Thing]) -> bool:
    """Whether the next of these would have to be read first; of what is no stream, never."""
    ask = getattr(things, "waits", None)
    return ask is not None and bool(ask())


def signed(number: int, size: int) -> bytes:
    return number.to_bytes(size, "little", signed=True)


def reading(volt: int, temp: int) -> Record:
    return Record(READING, signed(volt, 4) + signed(temp, 4))


def conversion(raw: int) -> Record:
    return Record(CONVERSION, signed(raw, 4))


def sample(raw: int, tick: int) -> Record:
    return Record(SAMPLE, signed(raw, 4) + tick.to_bytes(2, "little"))


def transaction(kind: int, count: int, master: bytes) -> Record:
    return Record(kind, count.to_bytes(HEAD[kind], "little") + master)


def slotted(record: Record, slot: int) -> Record:
    return Record(SLOTTED[record.kind], bytes([slot]) + record.payload)


def whole_map(address: bytes = b"") -> Record:
    """A read of all 256 bytes, of the pack with this address or of any: it changes nothing."""
    chosen = bytes([MATCH]) + address if address else bytes([SKIP])
    return transaction(LONG, 256, chosen + bytes([READ, 0]))
