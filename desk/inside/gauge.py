"""A proved gauge, asked what it shows behind each record: the programs `live` and `live_tray`, which are kept open. A look is a read of a pack's whole map,
which changes nothing."""
import itertools
from dataclasses import dataclass, field
from typing import Iterator, NamedTuple

from . import image, proved, records
from .feed import BYTES as BYTES
from .feed import NO_ROOM, Feed, Step
from .records import Cut, Piece, Record

SLOTS = 8
AT_FIRST = 64  # records that are looked at to see whether they are of a tray


class Answer(NamedTuple):
    """What a record was answered."""
    number: int
    reply: bytes


class Told(NamedTuple):
    """A record, its answer, and the map of each pack then, by its slot; none before an image was accepted, and none behind a record that is cut."""
    piece: Piece
    answer: Answer
    maps: "dict[int, bytes]"


@dataclass
class Line:
    """The packs that were accepted so far, by their slots; and whether an event was, which closes a tray: a look would close it too."""
    tray: bool
    addresses: "list[bytes]" = field(default_factory=list)
    kinds: "list[int]" = field(default_factory=list)
    closed: bool = False

    def looks(self) -> "list[Record]":
        """The reads of all packs' maps. In a plain session one is refused before an image was accepted, which does no harm."""
        return [records.whole_map(address) for address in self.addresses] if self.tray else [records.whole_map()]

    def joined(self, piece: Piece, answer: Answer) -> None:
        if not isinstance(piece, Record) or answer.number != 0:
            return
        if piece.kind in image.SIZE:
            self.addresses.append(piece.payload[:8])
            self.kinds.append(piece.kind)
        else:
            self.closed = True


def answer_of(line: bytes) -> Answer:
    """A line that a proved program prints of a record."""
    number, reply = line.split()[2:4]
    return Answer(int(number), b"" if reply == b"-" else bytes.fromhex(reply.decode()))


def as_first(images: "list[Record]") -> "list[int]":
    """What each of these images would be answered as the first record of a session. A tray judges an image as a session does its first, unless a pack
    with this address is there or eight packs are: so eight with different addresses share a run of `tray`."""
    found: "dict[int, int]" = {}
    while len(found) < len(images):
        batch: "dict[bytes, int]" = {}
        for at in (at for at in range(len(images)) if at not in found and len(batch) < SLOTS):
            batch.setdefault(images[at].payload[:8], at)
        lines = proved.output("tray", b"".join(images[at].encoded() for at in batch.values())).splitlines()[1:]
        found.update(zip(batch.values(), (answer_of(line).number for line in lines)))
    return [found[at] for at in range(len(images))]


class Again:
    """Records that were looked at, once more, and those behind them."""

    def __init__(self, seen: "list[Piece]", rest: Iterator[Piece]) -> None:
        self.seen, self.rest = iter(seen), rest
        self.left = len(seen)

    def __iter__(self) -> "Again":
        return self

    def __next__(self) -> Piece:
        if self.left:
            self.left -= 1
            return next(self.seen)
        return next(self.rest)

    def waits(self) -> bool:
        return not self.left and records.waits(self.rest)


def sorted_out(pieces: Iterator[Piece]) -> "tuple[bool, Iterator[Piece]]":
    """Whether records are of a tray, by the first that tells, and all of them again. A tray's kinds tell, and two images with different addresses."""
    seen: "list[Piece]" = []
    tray = False
    for piece in itertools.islice(pieces, AT_FIRST):
        seen.append(piece)
        if isinstance(piece, Record) and piece.kind in (*records.UNSLOTTED, *records.SLOTTED):
            tray = piece.kind in records.UNSLOTTED
            break
    else:
        tray = len({piece.payload[:8] for piece in seen if isinstance(piece, Record) and piece.kind in image.SIZE}) > 1
    return tray, Again(seen, pieces)


def as_called(options: "set[str]", pieces: Iterator[Piece]) -> "tuple[bool, Iterator[Piece]]":
    """The same where a call may say it, --tray or --plain: then nothing has to be looked at first."""
    return ("--tray" in options, pieces) if options & {"--tray", "--plain"} else sorted_out(pieces)


def looked(program: proved.Kept, line: Line) -> "dict[int, bytes]":
    """What all packs show now."""
    found = (answer_of(told) for told in program.asked([look.encoded() for look in line.looks()]))
    return {slot: answer.reply for slot, answer in enumerate(found) if answer.number == 0}


def opening(feed: Feed, line: Line, program: proved.Kept) -> Iterator[Told]:
    """The records up to the one that closes a tray. A look would close it, and images could still come: so the packs are looked at in a second tray that
    gets the same images. A refused record changes nothing, so behind it they show what they showed."""
    images: "list[bytes]" = []
    maps: "dict[int, bytes]" = {}
    while not line.closed:
        steps = feed.batch(1)
        if not steps:
            return
        piece = steps[0].piece
        if isinstance(piece, Cut):
            yield from cut(piece, program)
            return
        answer = answer_of(program.ask(piece.encoded()))
        feed.replied(answer.reply)
        line.joined(piece, answer)
        if line.closed:
            maps = looked(program, line)
        elif answer.number == 0:
            images.append(piece.encoded())
            with proved.Kept(program.name) as second:
                second.asked(images)
                maps = looked(second, line)
        yield Told(piece, answer, maps)


def cut(piece: Cut, program: proved.Kept) -> Iterator[Told]:
    """What is cut at the end of the input, which the program knows once its input ends."""
    yield from (Told(piece, answer_of(told), {}) for told in program.end(piece.rest))


def run(steps: "list[Step]", line: Line, program: proved.Kept) -> Iterator[Told]:
    """Records with looks behind each, all of them sent at once."""
    looks = [look.encoded() for look in line.looks()]
    whole = [step for step in steps if not isinstance(step.piece, Cut)]
    found = iter(program.asked([part for step in whole for part in ([step.piece.encoded()] if step.sent else []) + looks]))
    for step in whole:
        answer = answer_of(next(found)) if step.sent else Answer(NO_ROOM, b"")
        line.joined(step.piece, answer)
        seen = [answer_of(next(found)) for _ in looks]
        yield Told(step.piece, answer, {slot: look.reply for slot, look in enumerate(seen) if look.number == 0})
    for step in steps[len(whole):]:
        if isinstance(step.piece, Cut):
            yield from cut(step.piece, program)


def told(pieces: Iterator[Piece], line: Line) -> Iterator[Told]:
    """Each record with its answer and what the packs show then; `line` has the packs that were accepted by then. Records that have come are sent in
    batches, and each is told before more has to be waited for; so any number of them takes the same memory. The answers are those of `session` or
    `tray` where the records are one of these, of at most 32,768 bytes, and those of `live` or `live_tray` where they are more."""
    feed = Feed(pieces, "tray" if line.tray else "session")
    with proved.Kept("live_tray" if line.tray else "live") as program:
        if line.tray:
            yield from opening(feed, line, program)
        while True:
            steps = feed.batch()
            if not steps:
                break
            for record in run(steps, line, program):
                feed.replied(record.answer.reply)
                yield record
        program.end()
