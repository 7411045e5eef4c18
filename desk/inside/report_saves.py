"""Whether a reading saved the charge, by the proved programs. What is saved stands in no register: a power-on brings it to light. So for each record
that may have saved, the session up to it is run with a power-on and a read behind it. docs/FORMATS.md says which records may: readings at which
RARC / 4 changes, and that are not the first since a power-on. The gauge shows both RARC; what was saved then, the proved program says."""
from concurrent.futures import ThreadPoolExecutor
from typing import NamedTuple, Optional

from . import proved, records
from .records import READING, Record
from .view import Seen

MOST_ASKED = 100  # runs, each of which takes a tenth of a second: of more saves these are asked, evenly, and the others are told by RARC
AT_ONCE = 4
SESSION = 32768  # bytes that `session` and `tray` take; more goes to the programs that take any number


class Question(NamedTuple):
    """What a pack had saved: how far the session goes, the pack's slot and address, and the charge and age that it showed then."""
    size: int
    slot: int
    address: bytes
    shown: bytes


def may_save(kind: int, read_before: bool, before: Optional[Seen], now: Optional[Seen]) -> bool:
    """Whether a record is one of those that save: a reading, not the first since the power-on, at which RARC / 4 changes."""
    return kind == READING and read_before and before is not None and now is not None and before.data[0x06] // 4 != now.data[0x06] // 4


def shown(pack: Seen) -> bytes:
    """ACR and AS as the map has them."""
    return pack.data[0x10:0x12] + pack.data[0x14:0x15]


def saved(session: bytes, asked: Question, tray: bool) -> bytes:
    """ACR and AS as a power-on brings them back behind so much of a session; nothing where no reply room is left."""
    power_on = Record(records.SLOTTED[records.POWER_ON], bytes([asked.slot])) if tray else Record(records.POWER_ON, b"")
    chosen = bytes([records.MATCH]) + asked.address if tray else bytes([records.SKIP])
    look = records.transaction(records.TRANSACTION, 5, chosen + bytes([records.READ, 0x10]))
    given = session[:asked.size] + power_on.encoded() + look.encoded()
    name = ("tray" if tray else "session") if len(given) <= SESSION else ("live_tray" if tray else "live")
    reply = proved.output(name, given).splitlines()[-1].split()[3]
    cells = bytes.fromhex(reply.decode()) if reply != b"-" else b""
    return cells[:2] + cells[4:5]


def answers(session: bytes, questions: "list[Question]", tray: bool) -> "list[Optional[bytes]]":
    """Of each question what was saved, or None where it was not asked."""
    step = max(1, -(-len(questions) // MOST_ASKED))
    found: "list[Optional[bytes]]" = [None] * len(questions)
    places = [at for at in range(len(questions)) if at % step == step - 1 or at == len(questions) - 1]
    with ThreadPoolExecutor(AT_ONCE) as runs:
        for at, cells in zip(places, runs.map(lambda at: saved(session, questions[at], tray), places)):
            found[at] = cells or None
    return found
