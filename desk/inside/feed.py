"""Records on their way to `live`, in batches: as many as have come, and no more than a batch has. And what `session` would refuse of them and `live` does
not: of records that are a session still, those for whose replies its one room does not suffice."""
import collections
import itertools
from typing import Iterator, NamedTuple, Optional

from . import proved, records
from .records import Cut, Piece, Record
from .slips import Slip, Unfit

BYTES, REPLIES = 32768, 65536  # that a session may have, and that its replies may
BATCH = 64
NO_ROOM = 9


class Step(NamedTuple):
    """A record, and whether `live` is sent it: what `session` refuses with 9 changes nothing, so it is left away."""
    piece: Piece
    sent: bool


def asked_for(piece: Piece) -> int:
    """How many bytes a record's reply has at most."""
    head = records.HEAD.get(piece.kind, 0) if isinstance(piece, Record) else 0
    if not head or not isinstance(piece, Record) or len(piece.payload) < head:
        return 0
    count = int.from_bytes(piece.payload[:head], "little")
    return count if count <= records.MOST[piece.kind] else 0


class Feed:
    """Records as they come. They are kept while they may be a session, which has at most 32,768 bytes; whether they are one is asked where the reply room
    of a session would be at its end, and nowhere else: then it is read on until that is known."""

    def __init__(self, pieces: Iterator[Piece], session: str) -> None:
        self.pieces, self.session = pieces, session
        self.ahead: "collections.deque[Piece]" = collections.deque()
        self.kept: "Optional[list[bytes]]" = []
        self.size = 0
        self.over = self.cut = False
        self.fault: "Optional[Exception]" = None
        self.room = REPLIES
        self.answers: "Optional[list[int]]" = None  # of `session`, where they matter
        self.number = 0  # of records that were handed on

    def batch(self, most: int = BATCH) -> "list[Step]":
        """The next records, one at least where there are any. What comes behind is not waited for."""
        found: "list[Step]" = []
        room = self.room
        while len(found) < most and not (found and not self.ahead and records.waits(self.pieces)) and (self.ahead or self.pull()):
            room -= asked_for(self.ahead[0])
            if room < 0 and self.kept is not None and self.answers is None:
                if found:
                    break  # once these are answered it is known what room is left
                self.judge()
            self.number += 1
            found.append(Step(self.ahead.popleft(), self.answers is None or self.answers[self.number - 1] != NO_ROOM))
        if not found and self.fault:
            raise self.fault
        return found

    def replied(self, reply: bytes) -> None:
        self.room -= len(reply)

    def pull(self) -> bool:
        """Takes one more record in; False where there is none."""
        try:
            piece = None if self.over else next(self.pieces, None)
            if isinstance(piece, Cut) and not self.cut:
                self.cut, self.pieces = True, records.anew(itertools.chain([piece], self.pieces))
                piece = next(self.pieces, None)
        except (Slip, Unfit) as fault:  # it is told behind what came before
            piece, self.fault, self.kept = None, fault, None
        self.over = piece is None
        if piece is None:
            return False
        self.ahead.append(piece)
        if self.kept is not None:
            self.kept.append(piece.encoded())
            self.size += len(self.kept[-1])
            if self.size > BYTES:
                self.kept = None
        return True

    def judge(self) -> None:
        """Reads on until it is known whether this is a session, and asks `session` then."""
        while self.kept is not None and self.pull():
            pass
        if self.kept is not None:
            self.answers = [int(line.split()[2]) for line in proved.output(self.session, b"".join(self.kept)).splitlines()[1:]]
