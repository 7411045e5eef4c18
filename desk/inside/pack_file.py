"""The pack that a logger watched, as a call names it: a file with its image, or words that say one `pack`."""
from . import image, proved, start
from .language import Writer
from .records import Record
from .slips import Unfit


def packed(name: str) -> Record:
    """The image record of a pack: of its bytes, or of words."""
    with start.binary(name) as file:
        data = file.read(1 << 20)
    for kind, size in image.SIZE.items():
        if len(data) == size and image.FAMILY.get(data[0]) == kind:
            return Record(kind, data)
    made = list(Writer(proved.checksum, start.included).pieces(name, start.opened_text(name)))
    if len(made) != 1 or not isinstance(made[0], Record) or made[0].kind not in image.SIZE:
        raise Unfit(f"{name} is neither an image of 60 or 61 bytes nor words that say one `pack`")
    return made[0]
