"""Charge and discharge of a battery that is small enough to be walked through in a session."""
from builder import (
    AB, AC, COB, CONTROL, COPY, FULL_40, FULL_SLOPES, IAE, IMIN, RECALL, SESSION_LIMIT, TBP34, VAE, VCHG, Session,
    play, profile, scene, some)
from scenes.pack import battery, look, start, temperature, voltage_above


@scene(walk=1)
def discharge(session):
    """Currents below -128 x IAE, mostly, at voltages not below 4 x VAE."""
    chance = session.chance
    threshold = -128 * session.parameter(IAE)
    for _ in range(chance.randint(5, 60)):
        session.current(some(chance, threshold - 1, threshold, -32768, lambda: chance.randint(-32768, -1),
                             lambda: chance.randint(-32768, threshold - 1)))
        if chance.random() < 0.3:
            session.reading(voltage_above(session, VAE), temperature(chance))
            look(session)


def reach_empty(session):
    """The empty point, or just not."""
    chance = session.chance
    threshold = -128 * session.parameter(IAE)
    strong = [chance.randint(-32768, threshold - 1), threshold - 1, -32768]
    currents = [chance.choice(strong), chance.choice(strong)]
    if chance.random() < 0.2:
        currents[chance.randrange(2)] = some(chance, threshold, threshold + 1, 0, 5)
    cold = temperature(chance)
    if chance.random() < 0.85:
        session.reading(voltage_above(session, VAE), cold)
    for c in currents:
        session.current(c)
    if chance.random() < 0.2:
        session.change(some(chance, IAE, VAE), chance.randrange(256))
    if chance.random() < 0.1:
        session.change(FULL_40, some(chance, 0, 1, 300, lambda: chance.randrange(65536)), 2)
    edge = 4 * session.parameter(VAE)
    for _ in range(chance.randint(1, 3)):
        session.reading(some(chance, edge - 1, edge - 1, 0, lambda: chance.randint(0, max(0, edge - 1))), cold)
        session.registers()
        if chance.random() < 0.5:
            session.current(-1 - chance.randrange(4000))


def charge(session, amount):
    """About this many units of ACR, each 4,096 counts."""
    chance = session.chance
    gone = 0
    while gone < amount:
        c = chance.randint(16000, 32767)
        gone += c / 4096
        session.current(c)
        if chance.random() < 0.2:
            session.reading(voltage_above(session, VAE), temperature(chance))
            look(session)
        if chance.random() < 0.005:
            session.current(some(chance, -1, -15, -16, 0))


@scene(walk=1)
def reach_full(session, degrees=None):
    """Two averages in 1..32 x IMIN - 1 under a high voltage, or just not."""
    chance = session.chance
    limit = 32 * session.parameter(IMIN)
    warm = temperature(chance) if degrees is None else degrees
    while session.run != 0:
        session.current(chance.randint(1, max(1, limit - 1)))
    for _ in range(chance.randint(2, 4)):
        target = some(chance, 1, limit - 1, limit // 2, lambda: chance.randint(1, max(1, limit - 1)))
        if chance.random() < 0.08:
            target = chance.choice([0, limit])
        readings = chance.choice([1, 1, 2, 4]) if chance.random() < 0.95 else 0
        places = [chance.randrange(8) for _ in range(readings)]
        rest = 8 * target + chance.choice([0, 0, 0, 1, 7])
        for at in range(8):
            for _ in range(places.count(at)):
                edge = 4 * session.parameter(VCHG)
                low = edge if chance.random() < 0.15 else edge + 1
                session.reading(some(chance, low, edge + 1, 1023, lambda: chance.randint(edge + 1, 1023)), warm)
            c = rest // (8 - at)
            rest -= c
            session.current(c)
        if chance.random() < 0.15:
            session.change(*some(chance, lambda: (IMIN, chance.randint(1, 255)), lambda: (VCHG, chance.randint(1, 255)),
                                 lambda: (VCHG, session.parameter(VCHG) + 1 & 255)))
        session.registers()
    session.reading(voltage_above(session, VAE), warm)
    session.registers()


@scene(walk=1, aimed=1)
def moved_thresholds(session):
    """Averages and readings that fit IMIN and VCHG as they were, and not as they are when the average is formed."""
    chance = session.chance
    cold = temperature(chance)
    while session.run != 0:
        session.current(20)
    for _ in range(chance.randint(3, 5)):
        average = chance.choice([20, 20, 40, 100])
        read, change, turn = (chance.randrange(8) for _ in range(3))
        for at in range(8):
            if at == read:
                session.reading(chance.choice([401, 441, 501, 600]), cold)
            if at == change:
                session.change(VCHG, chance.choice([100, 110, 125]))
            if at == turn:
                session.change(FULL_SLOPES + chance.randrange(4), chance.randrange(256))
            session.current(average)
        session.registers()
        session.change(IMIN, chance.choice([1, 2, 4]))


@scene(walk=2, aimed=1)
def moved_empty(session):
    """A previous reading and CURRENTs that fit VAE and IAE as they were, and not as they are, or the other way round."""
    chance = session.chance
    voltage, current = chance.randint(20, 200), chance.randint(1, 250)
    session.change(VAE, voltage)
    session.change(IAE, current)
    session.reading(4 * voltage + chance.choice([-1, 0, 0, 3, 4, 8]), temperature(chance))
    for _ in range(2):
        session.current(-128 * current + chance.choice([-1, -1, -128, -129, -129, 0]))
    if chance.random() < 0.7:
        session.change(IAE, current + chance.choice([-1, 1]))
    if chance.random() < 0.5:
        session.change(VAE, voltage + chance.choice([-1, 1, 2]))
    session.reading(4 * session.parameter(VAE) - chance.choice([0, 1, 1, 5]), temperature(chance))
    session.registers()


@scene(walk=1)
def rest(session):
    """Small currents round the blanking edges."""
    chance = session.chance
    for _ in range(chance.randint(1, 12)):
        session.current(some(chance, -17, -16, -15, -1, 0, 1, 63, 64, 65, lambda: chance.randint(-200, 200)))
        session.registers()


@scene(walk=1)
def crossings(session):
    """Readings round a multiple of 4 per cent, then a power-on that shows the saved cells."""
    chance = session.chance
    full_40 = session.parameter(FULL_40, 2)
    acr = chance.randrange(full_40 + 1)
    warm = chance.choice([320, temperature(chance)])
    for _ in range(chance.randint(2, 6)):
        session.write_acr(acr)
        session.reading(some(chance, 1023, lambda: voltage_above(session, VAE)), warm)
        acr += chance.randint(-full_40 // 20 - 1, full_40 // 20 + 1)
    session.registers()
    session.power_on()
    session.registers()


@scene(walk=1)
def disturb(session):
    """Something from outside that a walk has to bear."""
    chance = session.chance
    block_0 = chance.randbytes(chance.randint(0, 16))
    some(chance,
         lambda: session.write_acr(chance.randrange(65536)),
         lambda: session.guess_as(chance.randrange(256)),
         lambda: session.write(0x01, bytes([chance.randrange(256)])),
         lambda: session.write(0x20, block_0),
         lambda: session.command(chance.choice([COPY, RECALL]), chance.choice([0x20, 0x60])),
         lambda: session.change(AC, some(chance, 0, 1, 2, lambda: chance.randrange(65536)), 2),
         lambda: session.change(some(chance, AB, COB), chance.randrange(256)),
         lambda: session.change(CONTROL, chance.choice([0, 0x80])),
         lambda: session.change(FULL_40, some(chance, 0, 1, 400, lambda: chance.randrange(65536)), 2),
         lambda: session.change(TBP34 + chance.randrange(3), chance.randrange(256)))


@scene(walk=2)
def cycle(session):
    """Discharged to empty, charged to about full, and held there."""
    reach_empty(session)
    charge(session, min(1800, session.parameter(FULL_40, 2) * session.chance.choice([0.4, 0.7, 0.9, 1.1, 1.3])))
    reach_full(session)


@profile(turns=2)
def walk(chance):
    session = Session(chance)
    battery(session)
    start(session)
    length = chance.randint(4000, SESSION_LIMIT - 9000)
    while len(session.records) < length:
        play(session, "walk")
        if chance.random() < 0.1:
            session.power_on()
            session.registers()
    return session.finish()
