"""The pack under test: its parameters and image, and readings that fit them."""
from builder import (
    AB, AC, COB, CONTROL, COPY, EMPTY_40, FULL_40, FULL_SLOPES, IAE, IMIN, RSNSP, SE_SLOPES, TBP34, VAE, VCHG, signed, some)


def temperature(chance):
    degrees = chance.choice([-128, -20, -12, -1, 0, 18, 39, 40, 41, 127])
    return some(chance, lambda: chance.randint(-300, 400), lambda: chance.randint(-1024, 1023),
                lambda: 8 * degrees + chance.randint(-1, 8),
                lambda: chance.choice([-1025, -1024, -1, 0, 319, 320, 1023, 1024]))


def breakpoints(chance):
    """TBP34, TBP23 and TBP12: in order, at an edge of that, or crossed."""
    points = [chance.randint(-40, 40) for _ in range(3)]
    ordered = sorted(points, reverse=True)
    wild = [chance.randint(-128, 127) for _ in range(3)]
    return [value % 256 for value in chance.choice([ordered, ordered, points, wild, [18, 0, -12], points[:1] * 3, [40] + ordered[1:],
                                                            ordered[:1] + 2 * ordered[2:]])]


def in_order(points):
    """Breakpoints that an image may have: capped at 40, and none above the one before."""
    return bytes(value % 256 for value in sorted((min(40, signed(value)) for value in points), reverse=True))


def battery(session):
    """Parameters of a battery small enough to be walked through in a session."""
    chance = session.chance
    block = session.block_1
    for at in range(32):
        block[at] = 0
    block[0x78 - 0x60:0x7B - 0x60] = chance.randbytes(3)
    block[0x7F - 0x60] = chance.randrange(256)
    session.set_parameter(CONTROL, some(chance, 0, 0x80, 0x10, 0x90, lambda: chance.randrange(256)))
    session.set_parameter(AB, some(chance, 0, 0, 1, 255, 127, 128, lambda: chance.randrange(256)))
    session.set_parameter(AC, some(chance, 0, 1, 1, 2, 3, 5, 20, lambda: chance.randrange(65536)), 2)
    session.set_parameter(VCHG, chance.randint(100, 250))
    session.set_parameter(IMIN, some(chance, 1, 2, 3, 10, 40, lambda: chance.randrange(256)))
    session.set_parameter(VAE, some(chance, 1, 50, lambda: chance.randint(1, 100), lambda: chance.randint(1, 255)))
    session.set_parameter(IAE, some(chance, 0, 1, 50, 254, 255, lambda: chance.randrange(256)))
    session.set_parameter(EMPTY_40, some(chance, 4, 0, lambda: chance.randrange(64), lambda: chance.randrange(256)))
    session.set_parameter(RSNSP, some(chance, 50, 1, 255, lambda: chance.randrange(256)))
    session.set_parameter(FULL_40, some(chance, lambda: chance.randint(20, 200), lambda: chance.randint(100, 800),
                                        lambda: chance.randint(500, 3000), 10000, 65535), 2)
    steep = chance.choice([5, 20, 60, 255])
    for at in range(FULL_SLOPES, SE_SLOPES + 4):
        session.set_parameter(at, chance.randint(0, steep))
    session.set_parameter(COB, some(chance, 0, 0, 1, 255, lambda: chance.randrange(256)))
    block[TBP34 - 0x60:TBP34 - 0x60 + 3] = bytes(breakpoints(chance))


def insert(session, saved_acr, saved_as, locks=0):
    """An image that is accepted. Breakpoints that it cannot have come over the bus, where block 1 can be written."""
    at = slice(TBP34 - 0x60, TBP34 - 0x60 + 3)
    wanted = bytes(session.block_1[at])
    session.block_1[at] = in_order(wanted)
    session.image(saved_acr, saved_as, locks)
    if session.block_1[at] != wanted and locks < 2:
        session.block_1[at] = wanted
        session.write(TBP34, wanted)
        if session.chance.random() < 0.5:
            session.command(COPY, TBP34)
            if session.chance.random() < 0.3:
                session.block_1[at] = in_order(wanted)
                session.write(TBP34, session.block_1[at])


def start(session, locks=None):
    """An image that is accepted, with any saved cells."""
    chance = session.chance
    full_40 = session.parameter(FULL_40, 2)
    insert(session, saved_acr=some(chance, 0, 5000, full_40 * 9 // 10, lambda: chance.randrange(65536)),
           saved_as=some(chance, 128, 122, 100, 64, 63, 62, 0, 129, 255, lambda: chance.randrange(256)),
           locks=chance.choice([0, 0, 0, 1, 2, 3]) if locks is None else locks)


def voltage_above(session, parameter):
    edge = 4 * session.parameter(parameter)
    return some(session.chance, edge, edge + 1, lambda: edge + session.chance.randint(0, 200), 1023)


def look(session):
    if session.chance.random() < 0.3:
        session.registers()
