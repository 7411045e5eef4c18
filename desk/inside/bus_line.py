"""A 1-Wire line at the level of bytes: resets and byte slots on one side, the transactions of a tray on the other.

A transaction is all that passes from one reset to the next. A master may send it in pieces of any size, and break it off anywhere: what a pack drives
onto the line is asked of the tray as soon as the master reads, and what changes a pack is done at the reset, by which a chip has done it too. The line
is 1 unless somebody pulls it down, so each byte of it is the AND of what the master sends and of what the packs do."""
from typing import Callable, Optional

from . import records
from .bus_packs import Tray
from .gauge import Answer
from .records import Record

SEARCH, CONDITIONAL = 0xF0, 0xEC
BITS = 64  # of a net address
SEARCHED = 1 + 3 * BITS // 8  # bytes of a whole search
HEADS = {0x33: 1, 0x39: 1, records.SKIP: 3, records.MATCH: 11}
ENOUGH = SEARCHED + 2 + records.MOST[records.LONG]  # bytes behind a reset: whatever the master sends behind these, no pack answers and none takes
ACR_HIGH, LAST = 0x10, 0xFF


def divided(sent: bytes) -> "tuple[bytes, int]":
    """What passed since the reset as a transaction: what the master sent, and how many byte slots behind it are the packs'.

    This is the direction rule. No byte tells a read from a write: a master that reads sends FFh, and so does one that writes FFh. As in the chip it goes
    by what came before alone. The first byte says how long the head is: 33h and 39h are a head by themselves, behind CCh stand a command and an address,
    behind 55h eight bytes before these. Behind a head of 33h, 39h or with the command 69h all slots are the packs', up to the next reset; behind every
    other one they are the master's, and the packs are silent. Slots past the 256th say FFh, and bytes of a master past the 256th are dropped or ignored
    whatever they are (nothing above 7Fh can be written), so that a longer transaction is one of 256."""
    head = HEADS.get(sent[0], 0) if sent else 0
    most = records.MOST[records.LONG]
    if head and len(sent) >= head and (head == 1 or sent[head - 2] == records.READ):
        return sent[:head], min(len(sent) - head, most)
    return sent[:most], 0


def acts(master: bytes) -> bool:
    """Whether a pack has something to do: a command that is no read, and its address, are there."""
    head = HEADS.get(master[0], 0) if master else 0
    return 1 < head <= len(master) and master[head - 2] != records.READ


def gone_on(master: bytes) -> Optional[bytes]:
    """A transaction that goes on behind what was done of it, as one of its own; None where nothing can come. A write goes on at the next address. 10h is
    only held until 11h comes, so it goes ahead once more."""
    head = HEADS[master[0]]
    data = master[head:]
    if master[head - 2] != records.WRITE:
        return None
    first = master[head - 1]
    held = data[-1:] if data and first + len(data) == ACR_HIGH + 1 else b""
    at = first + len(data) - len(held)
    return master[:head - 1] + bytes([at]) + held if at <= LAST else None


def record_of(master: bytes, count: int) -> Record:
    kind = records.TRANSACTION if max(count, len(master)) <= records.MOST[records.TRANSACTION] else records.LONG
    return records.transaction(kind, count, master)


class Search:
    """A search, slot by slot. Each bit of the address takes three: the bit of all packs that are left, its complement, and the bit with which the master
    goes on, at which every pack with another one drops out."""

    def __init__(self, addresses: "list[bytes]") -> None:
        self.left = [int.from_bytes(address, "little") for address in addresses]
        self.at = 0

    def slot(self, sent: int) -> int:
        bit, step = divmod(self.at, 3)
        self.at += 1
        if bit >= BITS:
            return sent
        if step == 2:
            self.left = [address for address in self.left if address >> bit & 1 == sent]
            return sent
        return sent & int(all((address >> bit & 1) != step for address in self.left))

    def slots(self, sent: bytes) -> bytes:
        return bytes(sum(self.slot(byte >> bit & 1) << bit for bit in range(8)) for byte in sent)

    def chosen(self) -> bytes:
        """The bytes that select what a whole search found: a Match of it, or nothing. (Two packs have two addresses.)"""
        return b"".join(bytes([records.MATCH]) + address.to_bytes(8, "little") for address in self.left)


class Line:
    """The line. `told` is called with each record that was run, its answer and its reply, in their order, and `remarked` with what was no record."""

    def __init__(self, tray: Tray, told: Callable[[Record, Answer], None], remarked: Callable[[str], None]) -> None:
        self.tray, self.told, self.remarked = tray, told, remarked
        self.heard: Optional[bytes] = None  # what the master sent since the reset; None where nobody listens
        self.done = True  # what was heard has been told
        self.read: Optional["tuple[Record, Answer]"] = None  # of what was heard, where it reads

    # ---- the master

    def reset(self) -> None:
        self.close()
        self.heard = b""

    def slots(self, data: bytes) -> bytes:
        """The line while the master sends these bytes; where it only listens they are FFh."""
        if self.heard is None or not data:
            return data
        at = len(self.heard)
        if at >= ENOUGH:
            return data
        self.done = False
        line = self.passed(self.heard + data)[at:]
        self.heard = (self.heard + data)[:ENOUGH]
        return line

    def passed(self, heard: bytes) -> bytes:
        """The whole line since the reset."""
        sent, front = self.translated(heard)
        master, count = divided(sent)
        line = sent
        if count:
            asked = record_of(master, count)
            self.read = asked, self.tray.ask(asked)
            behind = sent[len(master):]
            line = master + bytes(mine & pulled for mine, pulled in zip(behind, self.read[1].reply)) + behind[count:]
        return front + line[len(sent) - len(heard) + len(front):]

    def translated(self, heard: bytes) -> "tuple[bytes, bytes]":
        """What was heard as a transaction that a tray knows, and the line of what was none: a tray knows no search. The pack that a whole search leaves
        over is selected, as by a Match; where none is left nobody listens."""
        if heard[:1] not in (bytes([SEARCH]), bytes([CONDITIONAL])):
            return heard, b""
        search = Search(self.tray.addresses if heard[0] == SEARCH else [])  # no pack has a condition by which it would answer
        front, behind = heard[:1] + search.slots(heard[1:SEARCHED]), heard[SEARCHED:]
        if len(heard) < SEARCHED or not search.left:
            return b"", front + behind
        return search.chosen() + behind, front

    def search(self, conditional: bool = False) -> "list[bytes]":
        """All addresses, as an adapter finds them: a pass for each, with another way taken at the last fork that has one left."""
        found: "list[bytes]" = []
        ways: "list[list[int]]" = [[]]
        while ways:
            way = ways.pop()
            self.close()
            walk = Search([] if conditional else self.tray.addresses)
            taken: "list[int]" = []
            for bit in range(BITS):
                zero, one = walk.slot(1), walk.slot(1)
                if zero and one:  # nobody is there
                    break
                if bit < len(way):
                    zero = way[bit]
                elif not zero and not one:
                    ways.append([*taken, 1])
                taken.append(walk.slot(zero))
            else:
                found.append(sum(bit << at for at, bit in enumerate(taken)).to_bytes(8, "little"))
                self.heard = walk.chosen()
        self.remarked("conditional search: nobody answers" if conditional else f"search: {len(found)} found")
        return found

    # ---- the bench

    def event(self, record: Record) -> Answer:
        """What happens to a pack while the master is where it is: what it sent so far has been done by then, and what it sends next goes on."""
        self.settle()
        answer = self.run(record)
        if records.UNSLOTTED.get(record.kind) == records.POWER_ON and answer.number == 0 and self.listening(record.payload[0]):
            self.heard = None  # a pack that lost its power waits for a reset, and a tray has no record for what the others hear without it
        return answer

    def transaction(self, record: Record) -> Answer:
        """A whole transaction, from a reset to what the next one brings."""
        self.close()
        return self.run(record)

    def listening(self, slot: int) -> bool:
        """Whether a pack takes part in what is going on."""
        sent = self.translated(self.heard or b"")[0]
        return sent[:1] != bytes([records.MATCH]) or self.tray.addresses[slot].startswith(sent[1:9])

    # ---- both

    def settle(self) -> None:
        """What was heard so far is done, where a pack does anything."""
        if self.done or self.heard is None:
            return
        master, count = divided(self.translated(self.heard)[0])
        if count or acts(master):
            self.finish(master, count)
            self.heard = self.heard if count else gone_on(master)
            self.done = True

    def close(self) -> None:
        """The transaction is over."""
        if not self.done and self.heard is not None:
            master, count = divided(self.translated(self.heard)[0])
            if master:
                self.finish(master, count)
        self.heard, self.done, self.read = None, True, None

    def finish(self, master: bytes, count: int) -> None:
        if count and self.read is not None:
            self.told(*self.read)  # a read changes nothing: it needs not be run again
        else:
            self.run(record_of(master, count))

    def run(self, record: Record) -> Answer:
        answer = self.tray.ask(record)
        self.told(record, answer)
        return answer
