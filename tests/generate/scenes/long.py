"""Longer transactions: kind 7, which reads up to 256 bytes and takes up to 256 of the master, beside the same ones as kind 4."""
from builder import (
    COPY, LOCK, LONG_TRANSACTION, MOST, READ, RECALL, SESSION_LIMIT, TRANSACTION, WRITE, Session, little, play, profile, scene, some, tray_profile)
from scenes.bus import any_address, any_event, any_selection
from scenes.pack import battery, start
from scenes.refusals import early_event
from scenes.trays import opened, refused_event, slot_event

MASTERS = MOST[LONG_TRANSACTION]


def readable(session):
    return session.room > 4000


def seen(session):
    """The whole map in one record, now and then in four of kind 4 as well."""
    if not readable(session):
        return
    session.read(0x00, 256, LONG_TRANSACTION)
    if session.chance.random() < 0.3:
        for address in (0x00, 0x40, 0x80, 0xC0):
            session.read(address, 64)


@scene(long=3)
def far_reads(session):
    """Reads of more than kind 4 can have, up to FFh, to just before it and past it."""
    chance = session.chance
    for _ in range(chance.randint(1, 4) if readable(session) else 0):
        address = any_address(chance)
        count = some(chance, 65, 128, 255, 256, 256 - address, min(256, 257 - address), lambda: chance.randint(65, 256))
        session.read(address, count, LONG_TRANSACTION)


@scene(long=4)
def far_writes(session):
    """Writes over several places of the map, with the label and block 1 among them, as many bytes as there may be."""
    chance = session.chance
    selected = session.select()
    address = some(chance, 0x00, 0x01, 0x0F, 0x10, 0x1F, 0x20, 0x20, 0x2F, 0x30, 0x60, 0x7F, 0xC0, 0xFF, lambda: any_address(chance))
    most = MASTERS - len(selected) - 2
    size = some(chance, most, 65, 96, 128, lambda: chance.randint(60, most))
    session.transaction(chance.choice([0, 0, 1, 256]) if readable(session) else 0,
                        selected + bytes([WRITE, address]) + chance.randbytes(size), LONG_TRANSACTION)
    seen(session)


@scene(long=2)
def sizes(session):
    """As many bytes as a record may have, a few less, and one too many."""
    chance = session.chance
    count = chance.choice([0, 1, 64, 65, 256]) if readable(session) else 0
    whole = little(count, 2) + b"\xCC" + bytes([chance.choice([READ, WRITE, COPY, RECALL]), any_address(chance)]) + chance.randbytes(300)
    size = chance.choice([0, 1, 2, 3, 4, 5, 65, 66, 67, 255, 256, 257, 257, 258, 258, 259, 259, 260])
    session.add(LONG_TRANSACTION, whole[:size])
    if 2 <= size <= 258:
        session.room -= count


@scene(long=2)
def counts(session):
    """Counts on both sides of each limit, and those whose bytes, turned round or alone, would be others."""
    chance = session.chance
    count = chance.choice([63, 64, 65, 255, 256, 256, 257, 257, 258, 511, 512, 0x0101, 0x0140, 0x4000, 0xFF00, 0xFFFF])
    if count > MASTERS or readable(session):
        session.read(any_address(chance), count, LONG_TRANSACTION)


@scene(long=2)
def blocks(session):
    """Copy, recall and lock, with bytes behind them that are ignored."""
    chance = session.chance
    address = chance.choice([0x20, 0x2F, 0x60, 0x7F, 0x30])
    if chance.random() < 0.4:
        session.write(0x1F, [0x40], LONG_TRANSACTION)
    session.write(address, chance.randbytes(chance.randint(1, 20)), LONG_TRANSACTION)
    session.transaction(0, session.select() + bytes([chance.choice([COPY, COPY, RECALL, LOCK]), address]) +
                        bytes(chance.choice([0, 1, 100, 245])), LONG_TRANSACTION)
    seen(session)


@scene(long=2)
def selections(session):
    """Net address reads, addresses of others and first bytes of no meaning, with long replies."""
    chance = session.chance
    if readable(session):
        session.transaction(chance.choice([8, 65, 100, 256]), any_selection(session) + bytes([READ, 0x00]) + bytes(chance.choice([0, 1, 200])),
                            LONG_TRANSACTION)


@scene(long=4)
def both_forms(session):
    """A transaction that either kind may have, as both of them, one after the other."""
    chance = session.chance
    count = chance.choice([0, 1, 8, 32, 63, 64]) if readable(session) else 0
    master = (any_selection(session) + bytes([chance.choice([READ, READ, WRITE, WRITE, COPY, RECALL, LOCK]), any_address(chance)]) +
              chance.randbytes(chance.choice([0, 1, 2, 5, 16, 61])))[:64]
    kinds = [TRANSACTION, LONG_TRANSACTION]
    chance.shuffle(kinds)
    for kind in kinds:
        session.transaction(count, master, kind)
    seen(session)


@profile(turns=2)
def long(chance):
    """Long transactions of every kind before and after the image, with events between them."""
    session = Session(chance)
    battery(session)
    for _ in range(chance.choice([0, 0, 3])):
        some(chance, lambda: early_event(session), lambda: sizes(session), lambda: counts(session))
    start(session, locks=chance.choice([0, 0, 0, 1, 2]))
    session.room = 65536
    length = chance.randint(3000, SESSION_LIMIT - 3000)
    while len(session.records) < length:
        play(session, "long")
        if chance.random() < 0.3:
            any_event(session)
        if chance.random() < 0.02:
            session.power_on()
    return session.finish()


@tray_profile(turns=2)
def long_line(chance):
    """The same in trays: matched to one pack, to all and to nobody."""
    tray = opened(chance, locks=None if chance.random() < 0.5 else 0)
    if chance.random() < 0.3:
        sizes(tray.everyone)
    length = chance.randint(2000, SESSION_LIMIT - 9000)
    while len(tray.records) < length and tray.room > 8000:
        some(chance, lambda: play(tray.anyone(), "long"), lambda: play(tray.anyone(), "long"), lambda: slot_event(chance.choice(tray.packs)),
             lambda: refused_event(tray))
    return tray.finish()
