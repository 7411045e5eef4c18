"""The packs on a line: a tray that a proved program keeps, one record after the other. Nothing here knows what a pack does with one."""
import os

from . import gauge, image, proved, records, start
from .gauge import Answer
from .meanings import meaning
from .records import Record
from .slips import Unfit, plain

MOST = 8  # packs of a tray


def read(name: str) -> Record:
    """The image in a file, as the record that brings it."""
    with start.binary(name) as file:
        data = file.read(image.SIZE[records.CAMERA] + 1)
    kind = next((kind for kind, size in image.SIZE.items() if size == len(data)), None)
    if kind is None:
        raise Unfit(f"{plain(name)} is no image: it has to have 60 bytes, of a DS2775 61. `./trovimbe make` and `./trovimbe image` write one")
    return Record(kind, data)


class Tray:
    """A tray of these images. Its state is kept by the proved program, which leaves it in a file at the end, whole or not at all; from there the images
    are taken out by it too, so that they are exact."""

    def __init__(self, names: "list[str]", state: str) -> None:
        self.images = [read(name) for name in names]
        self.addresses = [made.payload[:8] for made in self.images]
        self.state = state
        self.program = proved.Kept("resume_tray", state)
        try:
            self.fill(names)
        except BaseException:
            self.program.stop()
            raise

    def fill(self, names: "list[str]") -> None:
        for name, made in zip(names, self.images):
            answer = self.ask(made)
            if answer.number != 0:
                raise Unfit(f"{plain(name)}: refused with {answer.number}, {meaning(made, answer.number, True)}")

    def ask(self, record: Record) -> Answer:
        """What a record is answered; from then on it has happened."""
        return gauge.answer_of(self.program.ask(record.encoded()))

    def end(self) -> None:
        self.program.end()

    def save(self, slot: int, name: str) -> None:
        """Once it has ended: the image of the pack in a slot, to a file, which is whole or as it was."""
        made = name + ".new"
        proved.output("resume_tray", b"", self.state, str(slot), made)
        os.replace(made, name)
