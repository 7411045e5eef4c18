"""Wrong second programs: each breaks one rule of the papers and must be found by a comparison. They show that the comparison can fail.

A mutant is a label (the id of the rule's row in docs/MAP.md first), then pairs of a text that stands once in second.c and the text put in its
place. Each file has those of one subject: a new mutant is a row there, a new file a line here. Generated sessions find IN_SESSIONS
(tests/cases/against_c: SLIPS always, the others with --long), generated trays find IN_TRAYS (tests/cases/trays: some always, all with --long), and
PRESET, MEND and HEX are found by the case of that name. tests/cases/books tries many of them too.
"""
from .breakpoints import BREAKPOINTS
from .bus import BUS
from .camera import CYCLES, CYCLES_TRAYS
from .conversion import CONVERSION
from .hex import HEX
from .longer_transactions import LONGER, LONGER_TRAYS
from .mend import MEND
from .moments_and_widths import LATCHED
from .offset import OFFSETS
from .power_on import POWER_ON
from .preset import PRESET
from .ranges import RANGES
from .reading import READING
from .samples import SAMPLES
from .session import SESSION
from .slips import SLIPS
from .thresholds import THRESHOLDS
from .trays import TRAYS
from .writes_of_as import AS_WRITES, AS_WRITES_TRAYS

RULES = SESSION + BREAKPOINTS + POWER_ON + BUS + CONVERSION + READING

IN_SESSIONS = SLIPS + RULES + AS_WRITES + SAMPLES + OFFSETS + LONGER + CYCLES + LATCHED + THRESHOLDS + RANGES
IN_TRAYS = TRAYS + LONGER_TRAYS + CYCLES_TRAYS + AS_WRITES_TRAYS


def source_of(mutant, source):
    """The second program's text with one rule broken."""
    label, *edits = mutant
    for old, new in zip(edits[::2], edits[1::2]):
        if source.count(old) != 1:
            raise ValueError(f"{label}: a text of it stands {source.count(old)} times in second.c")
        source = source.replace(old, new)
    return source
