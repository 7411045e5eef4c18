"""What bytes look like that a program was handed by mistake: words, a logger's CSV or an image, where records are due. Whoever handed them over is told
what makes records of them."""
import codecs
import re
from typing import Callable, Optional

from . import image, records
from .language import WORDS
from .slips import nearest

LOOKED_AT = 4096  # bytes by which words are told from bytes
BLANK = b"\t\n\r\f"
CELLS = re.compile(r"[^,;\t]+([,;\t][^,;\t]*)+$")


def is_text(head: bytes) -> bool:
    """Whether bytes can be words: UTF-8 without the control characters that every record of under 256 bytes has, zeros to begin with."""
    if not head or any(byte < 32 and byte not in BLANK for byte in head):
        return False
    try:
        codecs.getincrementaldecoder("utf-8")().decode(head, len(head) < LOOKED_AT)  # the last letter of a longer text may be cut here
    except UnicodeDecodeError:
        return False
    return True


def opening(head: bytes) -> str:
    """The first line of a text that is neither empty nor a comment."""
    lines = (line.strip() for line in head.decode("utf-8-sig", "ignore").splitlines())
    return next((line for line in lines if line and not line.startswith("#")), "")


def is_words(head: bytes) -> bool:
    """Whether a text begins with a statement, or with a word that is nearly one."""
    first = re.match(r"[A-Za-z-]+(?=\s|$)", opening(head))
    return first is not None and (first.group().lower() in WORDS or nearest(first.group(), WORDS) != "")


def is_csv(head: bytes) -> bool:
    """Whether a text begins as a logger's file does: cells with commas, semicolons or tabs between them, and no statement."""
    return CELLS.match(opening(head)) is not None and not is_words(head)


def hint(head: bytes, called: str, program: str, file: str) -> Optional[str]:
    """What is to be said of bytes that do not look like records; nothing of those that do. `called` is how the command is called."""
    if head and image.SIZE.get(image.FAMILY.get(head[0], 0)) == len(head):
        return f"this looks like a pack's image, and not like the bytes of a session: `{called} show {file}` lists it"
    if len(head) < records.HEADER or not is_text(head):
        return None
    if is_words(head):
        return f"this looks like words, and not like the bytes of a session: `{called} write {file} | {called} {program}` makes bytes of them first"
    if is_csv(head):
        return ("this looks like a logger's CSV, and not like the bytes of a session: "
                f"`{called} from_csv --pack=PACK {file} | {called} {program}` makes bytes of it first")
    return (f"this looks like hex text or another text, and not like the bytes of a session: `{called} write` makes them of words, and "
            "docs/FIRST-TEN-MINUTES.md shows how to make them of hex text")


def watched(read: Callable[[int], bytes], told: Callable[[bytes], None]) -> Callable[[int], bytes]:
    """Reads as `read` does; what comes first, a header at least where there is one, is told of once."""
    head: "Optional[bytes]" = b""

    def more(size: int) -> bytes:
        nonlocal head
        data = read(size)
        if head is not None:
            head += data[:LOOKED_AT]
            if len(head) >= records.HEADER or not data:
                told(head[:LOOKED_AT])
                head = None
        return data
    return more
