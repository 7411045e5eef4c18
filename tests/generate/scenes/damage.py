"""Bytes that are no session of anyone's making, and sessions of a certain size."""
from builder import (
    CONVERSION, COPY, FINISH_BYTES, LOCK, LONG_TRANSACTION, READ, READING, RECALL, SESSION_LIMIT, SIZES, TRANSACTION, WRITE, Session, boundaries,
    little, profile, some, unknown)
from scenes.bus import any_event, bus
from scenes.charge import walk
from scenes.pack import battery, start
from scenes.refusals import cut, refusals


@profile()
def rubbish(chance):
    """Records of likely kinds and lengths with any payload."""
    session = Session(chance)
    if chance.random() < 0.7:
        battery(session)
        start(session)
    for _ in range(chance.randint(1, 300)):
        kind = some(chance, *SIZES, TRANSACTION, TRANSACTION, TRANSACTION, CONVERSION, READING, lambda: unknown(chance))
        size = chance.randint(*SIZES.get(kind, (0, 11))) if chance.random() < 0.9 else chance.randrange(80)
        payload = bytearray(chance.randbytes(size))
        if kind == TRANSACTION and size > 3 and chance.random() < 0.7:
            payload[0] %= 66
            payload[1:3] = bytes([0xCC, chance.choice([READ, WRITE, COPY, RECALL, LOCK])])
        if kind == LONG_TRANSACTION and size > 4 and chance.random() < 0.7:
            payload[0:4] = little(chance.randrange(258), 2) + bytes([0xCC, chance.choice([READ, WRITE, COPY, RECALL, LOCK])])
        session.add(kind, payload)
        if not session.room_for(400):
            break
    return session.finish() + (cut(chance) if chance.random() < 0.5 else b"")


@profile()
def damaged(chance):
    whole = bytearray(chance.choice([walk, bus, refusals, rubbish, rubbish])(chance))
    kind = chance.randrange(7)
    if kind == 0:
        return bytes(whole[:chance.randrange(len(whole) + 1)])
    if kind == 6:
        return bytes(whole[:max(0, chance.choice(boundaries(whole)[1:]) - chance.choice([0, 1, 1, 1, 2, 3, 4]))])
    if kind == 1:
        for _ in range(chance.randint(1, 20)):
            whole[chance.randrange(64, len(whole))] ^= 1 << chance.randrange(8)
    elif kind == 2:
        at = chance.randrange(64, len(whole))
        del whole[at:at + chance.randint(1, 9)]
    elif kind == 3:
        at = chance.randrange(64, len(whole))
        whole[at:at] = chance.randbytes(chance.randint(1, 9))
    elif kind == 4:
        whole[64:] = chance.randbytes(chance.randrange(400))
    elif kind == 5:
        whole = bytearray(chance.randbytes(chance.choice([0, 1, 2, 3, 4, 5, 8, 30, 300])))
    return bytes(whole[:SESSION_LIMIT])


def filled(session, size):
    """Records of no known kind, or events that change little, up to this size."""
    chance = session.chance
    while size - len(session.records) >= 4:
        left = size - len(session.records)
        if left > 200 and chance.random() < 0.9:
            some(chance, lambda: any_event(session), lambda: session.transaction(0, b"\xCC"))
        elif left > 80:
            session.add(unknown(chance), bytes(chance.randint(0, 60)))
        else:
            session.add(unknown(chance), bytes(left - 4))


@profile()
def sized(chance):
    """Exactly the most that is allowed, a little less, or more."""
    session = Session(chance)
    battery(session)
    if chance.random() < 0.8:
        start(session)
    target = chance.choice([SESSION_LIMIT, SESSION_LIMIT, SESSION_LIMIT, SESSION_LIMIT - chance.randint(1, 5),
                            SESSION_LIMIT + 1, SESSION_LIMIT + chance.randint(1, 300), 70000])
    filled(session, min(target, SESSION_LIMIT) - FINISH_BYTES)
    session.finish()
    filled(session, target)
    session.records += bytes(max(0, target - len(session.records)))  # what the last event ran over is more, too
    return bytes(session.records)
