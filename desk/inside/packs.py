"""What units need to know of the packs that a text or a session has brought so far."""
from dataclasses import dataclass, field

from . import image, proved, records

MOST = 64  # images that are looked at: eight have a slot, and who is refused more often than that has no pack to measure by


@dataclass
class Pack:
    """A pack's kind and sense resistor, and the tick that its next sample goes on from."""
    kind: int = records.IMAGE
    rsnsp: int = 0
    tick: int = 0
    sampled: bool = False


def accepted(images: "list[records.Record]") -> "list[bool]":
    """Which of these images a tray takes, one after the other, by the proved program."""
    lines = proved.output("tray", b"".join(record.encoded() for record in images)).splitlines()[1:]
    return [line.split()[2] == b"0" for line in lines]


@dataclass
class Packs:
    """The packs in the order of their slots. Where all that came measure alike it does not matter which of them were refused; else the proved program
    is asked."""
    images: "list[records.Record]" = field(default_factory=list)
    packs: "list[Pack]" = field(default_factory=list)
    nobody: Pack = field(default_factory=Pack)
    slots: "list[int]" = field(default_factory=list)

    def add(self, record: records.Record) -> None:
        if len(self.images) == MOST:
            return
        self.images.append(record)
        self.packs.append(Pack(record.kind, record.payload[image.RSNSP_AT]))
        self.slots = []

    def taken(self) -> "list[int]":
        """The numbers of the images that have a slot, by slot."""
        if not self.slots:
            alike = len({(pack.kind, pack.rsnsp) for pack in self.packs}) == 1
            addresses = [record.payload[:8] for record in self.images]
            fresh = [at for at, address in enumerate(addresses) if address not in addresses[:at]]
            self.slots = fresh if alike else [at for at, took in enumerate(accepted(self.images)) if took]
        return self.slots

    def here(self) -> Pack:
        """The pack of a plain session: the first that is accepted."""
        return self.at(0)

    def at(self, slot: int) -> Pack:
        if not self.packs:
            return self.nobody
        taken = self.taken()
        return self.packs[taken[slot]] if slot < len(taken) else self.nobody
