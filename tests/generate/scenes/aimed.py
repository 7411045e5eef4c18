"""Scenes at 40 degrees and above, where FULL is 16,384, AE 16 x byte 68h and SE 0, so that values can be aimed at."""
from builder import (
    AB, COPY, EMPTY_40, FULL_40, IAE, IMIN, RECALL, SESSION_LIMIT, VAE, Session, play, profile, scene, signed, some)
from scenes.charge import reach_full
from scenes.pack import battery, start, temperature, voltage_above


def hot(chance):
    return chance.choice([320, 321, 400, 1023, 2000])


def empty_charge(session):
    return 16 * session.parameter(EMPTY_40) * session.parameter(FULL_40, 2) // 16384


def charge_at(session, percent, empty):
    """The least ACR that is this many per cent with AS 128, over this empty line."""
    units = percent * (16384 - empty) + 100 * empty
    return min(65535, -(-units * session.parameter(FULL_40, 2) // 1638400))


def strong(session):
    threshold = -128 * session.parameter(IAE)
    return some(session.chance, threshold - 1, -32768, lambda: session.chance.randint(-32768, threshold - 1))


def below_empty(session):
    chance, edge = session.chance, 4 * session.parameter(VAE)
    session.reading(some(chance, edge - 1, lambda: chance.randint(0, max(0, edge - 1))), hot(chance))


def above_empty(session):
    session.reading(voltage_above(session, VAE), hot(session.chance))


def at_empty(session):
    """The empty point, with an E above 0 if the parameters allow one."""
    above_empty(session)
    session.current(strong(session))
    session.current(strong(session))
    below_empty(session)
    session.registers()


def learn_as(session, wanted):
    """AS brought to about this value, by a learn: ACR is E at the empty point, and AS is then E x 128 / Full40 at full."""
    chance = session.chance
    before = [(EMPTY_40, session.parameter(EMPTY_40), 1), (FULL_40, session.parameter(FULL_40, 2), 2)]
    session.change(VAE, chance.randint(1, 200))
    session.change(IAE, chance.randint(0, 100))
    session.change(IMIN, chance.randint(2, 255))
    session.change(EMPTY_40, chance.randint(100, 255))
    session.change(FULL_40, chance.randint(20000, 30000), 2)
    above_empty(session)
    for _ in range(2):
        session.current(strong(session))
    below_empty(session)
    session.change(FULL_40, empty_charge(session) * 128 // wanted, 2)
    session.sampled(20, 8 - session.run)
    for _ in range(2):
        session.reading(1023, hot(chance))
        session.sampled(20, 8)
    session.read(0x14, 1)
    for parameter, value, size in before:
        session.change(parameter, value, size)


@scene(walk=2, aimed=4)
def learning(session):
    """What may and may not clear LEARNF, and what a learning gauge leaves alone."""
    chance = session.chance
    charge_then = empty_charge(session)

    def second_point():
        session.current(strong(session))
        above_empty(session)
        if chance.random() < 0.7:
            session.change(FULL_40, some(chance, 0, 1, lambda: chance.randrange(65536)), 2)
        else:
            session.change(EMPTY_40, some(chance, 0, lambda: chance.randrange(256)))
        below_empty(session)

    def turns():
        for c in some(chance, [-1], [0, -1], [0, 0, -5000], [5, -1], [-1, 0, 1, -20],
                      lambda: [chance.randint(-5, 5) for _ in range(4)]):
            session.current(c)
            session.registers()

    def to_nothing():
        """Down to ACR 0, at first with a fraction left."""
        bias = signed(session.parameter(AB))
        left = min(200, charge_then) * 4096
        while left > 30000:
            session.current(-28000 - bias)
            left -= 28000
        for c in (chance.randint(1, 4095) - left - bias, -1, -4096):
            session.current(c)
            session.registers()

    def in_the_dark():
        for _ in range(chance.randint(2, 8)):
            session.current(chance.randint(20000, 32767))
            some(chance, lambda: below_empty(session), lambda: above_empty(session))
            session.registers()

    at_empty(session)
    for _ in range(chance.randint(1, 2)):
        some(chance, second_point, turns, to_nothing, in_the_dark,
             lambda: session.write_acr(charge_then),
             lambda: session.write_acr(charge_then + 1),
             lambda: session.write(chance.choice([0x10, 0x11]), chance.randbytes(1)),
             lambda: session.command(RECALL, 0x60),
             lambda: session.command(COPY, 0x7F),
             lambda: session.command(RECALL, 0x20),
             lambda: session.guess_as(chance.randint(60, 130)),
             lambda: session.write(0x01, bytes([chance.randrange(256)])),
             lambda: session.write(0x1F, b"\x40"),
             session.power_on)
        session.registers()
    if chance.random() < 0.4:
        reach_full(session, hot(chance))


def full_surely(session, degrees):
    """Averages that find full unless something else forbids it."""
    chance = session.chance
    c = some(chance, 1, 31, lambda: chance.randint(1, max(1, 32 * session.parameter(IMIN) - 1)))
    while session.run != 0:
        session.current(c)
    for _ in range(chance.randint(2, 3)):
        session.reading(chance.choice([1021, 1023]), degrees)
        for _ in range(8):
            session.current(c)
    session.registers()


@scene(walk=2, aimed=1)
def learn(session):
    """A learn whose AS lies anywhere round 63..128: ACR comes from E, and Full40 is written anew before the charge."""
    chance = session.chance
    session.change(VAE, chance.randint(1, 255))
    session.change(IMIN, chance.randint(1, 255))
    session.change(EMPTY_40, chance.randint(40, 255))
    session.change(FULL_40, some(chance, 65535, lambda: chance.randint(1000, 65535)), 2)
    at_empty(session)
    wanted = int(empty_charge(session) / chance.uniform(0.4, 1.1)) if chance.random() < 0.9 else 0
    session.change(FULL_40, min(65535, wanted), 2)
    full_surely(session, some(chance, lambda: hot(chance), lambda: temperature(chance)))
    session.reading(1023, temperature(chance))
    session.registers()


@scene(walk=1, aimed=1)
def per_cents(session):
    """Flags and saves at their edges."""
    chance = session.chance
    if chance.random() < 0.4:
        learn_as(session, 128)
    ae = 16 * session.parameter(EMPTY_40)
    aims = [some(chance, lambda: (chance.choice([89, 90, 91]), ae), lambda: (chance.choice([4, 5, 6, 7]), ae),
                 lambda: (chance.choice([9, 10, 11, 15, 16, 17]), 0), lambda: (4 * chance.randrange(26), ae),
                 lambda: (chance.randrange(101), ae)) for _ in range(chance.randint(3, 10))]
    if chance.random() < 0.7:
        session.change(FULL_40, chance.randint(1000, 60000), 2)
    if chance.random() < 0.5:
        reach_full(session, hot(chance))
        aims = [(91, ae), (90, ae), (89, ae)] + aims
    for percent, empty in aims:
        session.write_acr(charge_at(session, percent, empty) + chance.choice([-1, 0, 0, 0, 1]))
        some(chance, lambda: above_empty(session), lambda: above_empty(session), lambda: above_empty(session),
             lambda: below_empty(session))
        session.registers()
    if chance.random() < 0.5:
        session.power_on()
        session.registers()


@scene(walk=1, aimed=1)
def after_power_on(session):
    """Too few readings, conversions or averages since power-on, or just enough."""
    chance = session.chance
    session.power_on()
    for _ in range(chance.randint(0, 2)):
        session.current(strong(session))
    if chance.random() < 0.6:
        above_empty(session)
    for _ in range(chance.randint(0, 2)):
        session.current(strong(session))
    below_empty(session)
    session.registers()


@profile(turns=2)
def aimed(chance):
    """The aimed scenes of a walk alone, on a battery whose E is well above 0 and whose block 1 can be written."""
    session = Session(chance)
    battery(session)
    session.set_parameter(VAE, chance.randint(10, 200))
    session.set_parameter(IAE, chance.randint(0, 100))
    session.set_parameter(EMPTY_40, chance.randint(20, 255))
    session.set_parameter(FULL_40, chance.randint(200, 20000), 2)
    start(session, locks=chance.choice([0, 1]))
    length = chance.randint(6000, SESSION_LIMIT - 4000)
    while len(session.records) < length:
        play(session, "aimed")
        if chance.random() < 0.2:
            session.command(RECALL, 0x60)
            session.block_1[:] = session.records[28:60]
    return session.finish()
