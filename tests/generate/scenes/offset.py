"""The offset conversion: every 1024th since power-on, and the first conversion after a write of ACR."""
from builder import (
    AB, AC, COB, CONTROL, CONVERSION, COPY, EMPTY_40, FULL_40, IAE, IMIN, RECALL, SAMPLE, SESSION_LIMIT, VAE, VCHG, WRITE,
    Session, little, play, profile, scene, some)
from scenes.aimed import above_empty, at_empty, below_empty, hot, learn_as, strong
from scenes.pack import battery, start, temperature, voltage_above


def approach(session, left):
    """Conversions until so many are left up to a 1024th, that one too: mostly by samples of 64 ticks, else one by one."""
    chance = session.chance
    one_by_one = chance.random() < 0.15 and session.room_for(8 * 1024 + 6000)
    while session.to_offset != left:
        if one_by_one:
            session.current(chance.randint(-300, 300))
        else:
            session.sampled(chance.randint(-300, 300), min(64, (session.to_offset - left) % 1024))


def any_current(chance):
    return some(chance, 0, 1, 63, 64, -1, -15, -16, 5000, -5000, 32767, -32768, lambda: chance.randint(-300, 300))


def converted(session, c):
    """A conversion of this c, or a sample of a few."""
    chance = session.chance
    some(chance, lambda: session.current(c), lambda: session.current(c), lambda: session.sampled(c, chance.randint(1, 5)))
    session.registers()


def acr_write(session):
    session.write_acr(session.chance.choice([0, 1, 255, 256, 5000, 60000, 65535]))


def refused(session):
    """A conversion, a sample or a write of ACR that is refused."""
    chance = session.chance
    asked = b"\xCC" + bytes([WRITE, 0x10, 0x12, 0x34])
    some(chance,
         lambda: session.add(CONVERSION, little(chance.randint(-3000, 3000), 4) + b"\x00"),
         lambda: session.add(SAMPLE, little(chance.randint(-3000, 3000), 4)),
         lambda: session.sample(chance.randint(-3000, 3000), 65 if session.tick is not None else 1),
         lambda: session.transaction(65, asked),
         lambda: session.transaction(0, asked + bytes(60)))


def half_written(session):
    """What looks like a write of ACR and is none."""
    chance = session.chance
    value = chance.randbytes(2)
    some(chance,
         lambda: session.write(0x10, value[:1]),
         lambda: session.write(0x11, value),
         lambda: session.write(0x12, value),
         lambda: session.transaction(0, b"\x55" + session.new_address() + bytes([WRITE, 0x10]) + value))


def between(session):
    """Something between two conversions."""
    chance = session.chance
    some(chance,
         lambda: acr_write(session),
         lambda: acr_write(session),
         lambda: acr_write(session),
         lambda: session.write(chance.choice([0x0E, 0x0F, 0x10]), chance.randbytes(5)),
         lambda: half_written(session),
         lambda: refused(session),
         lambda: session.reading(voltage_above(session, VAE), temperature(chance)),
         lambda: session.change(AB, chance.randrange(256)),
         lambda: session.change(COB, chance.randrange(256)),
         lambda: session.change(CONTROL, chance.choice([0, 0x80])),
         lambda: session.guess_as(chance.randint(63, 128)),
         lambda: session.write(0x20, chance.randbytes(2)),
         lambda: session.command(chance.choice([COPY, RECALL]), 0x20))


@scene(offset=6, walk=1)
def edge(session):
    """Both sides of a 1024th, and between the conversions what does and does not matter to them."""
    chance = session.chance
    approach(session, chance.randint(1, 4))
    for _ in range(chance.randint(3, 8)):
        if chance.random() < 0.7:
            between(session)
        converted(session, any_current(chance))


@scene(offset=2)
def outlier(session):
    """A steady current, and as the 1024th one far from it."""
    chance = session.chance
    c = any_current(chance)
    approach(session, chance.randint(2, 10))
    while session.to_offset > 1:
        session.current(c)
    session.registers()
    if chance.random() < 0.3:
        acr_write(session)
    session.conversion(some(chance, 2 ** 31 - 1, -2 ** 31, -c, lambda: chance.randint(-32768, 32767)))
    session.registers()
    converted(session, c)


@scene(offset=2)
def moved(session):
    """Parameters written just before the 1024th, and raw values that look like the c before it."""
    chance = session.chance
    approach(session, 2)
    c = some(chance, -15, -10, -1, 63, 64, lambda: chance.randint(-300, 300))
    session.current(c)
    some(chance,
         lambda: session.change(CONTROL, 0x80 ^ session.parameter(CONTROL)),
         lambda: session.change(AB, chance.randrange(256)),
         lambda: session.change(COB, chance.randrange(256)),
         lambda: None)
    session.conversion(some(chance, c, 5000))
    session.registers()
    session.current(-c)
    session.registers()


@scene(offset=2)
def refused_at_it(session):
    """Refused records where a 1024th is due or ACR was just written."""
    chance = session.chance
    approach(session, chance.randint(1, 2))
    if chance.random() < 0.5:
        acr_write(session)
    for _ in range(chance.randint(1, 2)):
        refused(session)
    for _ in range(3):
        converted(session, any_current(chance))


@scene(offset=2, walk=1)
def written(session):
    """Writes of ACR, to the same value too, each with conversions after it."""
    chance = session.chance
    value = chance.choice([0, 1, 300, 5000, 65535])
    for _ in range(chance.randint(2, 4)):
        for _ in range(chance.randint(1, 2)):
            session.write_acr(value)
        if chance.random() < 0.3:
            between(session)
        for _ in range(chance.randint(1, 3)):
            converted(session, any_current(chance))
        value = chance.choice([value, value, 300])


@scene(offset=2)
def full_at_it(session):
    """Averages that find full or do not, the last c of the second that of a 1024th or after a write of ACR, or both."""
    chance = session.chance
    session.change(IMIN, chance.randint(2, 255))
    session.change(VCHG, chance.randint(1, 200))
    limit = 32 * session.parameter(IMIN) - 1
    if chance.random() < 0.7:
        approach(session, 16)
    while session.run != 0:
        session.current(limit)
    for place in range(16):
        if place % 8 == 0:
            session.reading(4 * session.parameter(VCHG) + 1, hot(chance))
        if place == 15 and chance.random() < 0.5:
            acr_write(session)
        steady = limit // 2 if place < 14 else some(chance, limit // 2, 3 * limit, -3 * limit)
        session.current(steady if place < 15 else some(chance, steady, limit // 2, 8 * limit + 9, -8 * limit))
    session.registers()
    converted(session, 500)


def emptiable(session):
    """Parameters with which the empty point can be found, and E is above 0."""
    chance = session.chance
    session.change(VAE, chance.randint(1, 100))
    session.change(IAE, chance.randint(3, 60))
    session.change(EMPTY_40, chance.randint(20, 255))
    session.change(FULL_40, chance.randint(2000, 20000), 2)


@scene(offset=2)
def empty_at_it(session):
    """The empty point, or just not, with a 1024th as the last of the two currents."""
    chance = session.chance
    emptiable(session)
    approach(session, 2)
    above_empty(session)
    for _ in range(2):
        session.current(some(chance, 0, lambda: strong(session)))
    below_empty(session)
    session.registers()
    converted(session, any_current(chance))


@scene(offset=2)
def learning_over_it(session):
    """LEARNF over a 1024th whose raw value turns negative, or whose c would have."""
    chance = session.chance
    emptiable(session)
    approach(session, 4)
    at_empty(session)
    for _ in range(3):
        session.current(chance.choice([5, -5, 500, -500]))
        session.registers()


@scene(offset=2)
def corrected(session):
    """ACR corrected at empty, after a write of it or not, and then counted on."""
    chance = session.chance
    emptiable(session)
    above_empty(session)
    for _ in range(2):
        session.current(some(chance, 0, lambda: strong(session), lambda: strong(session)))
    if chance.random() < 0.6:
        session.write_acr(chance.randint(2000, 60000))
    below_empty(session)
    for _ in range(3):
        converted(session, some(chance, -5000, lambda: chance.randint(1000, 5000)))


@scene(offset=2)
def aged_at_it(session):
    """An age counter above the step, or AC = 0, as ACR is written; then AC as it was."""
    chance = session.chance
    session.change(AC, 2000, 2)
    if chance.random() < 0.3:
        learn_as(session, 128)
    session.write_acr(60000)
    session.sampled(-32768, 64)
    session.sampled(-32768, chance.choice([5, 64]))
    session.change(AC, chance.choice([0, 0, 1, 3]), 2)
    acr_write(session)
    session.current(some(chance, -32768, 0, 5000))
    session.registers()
    session.change(AC, 1, 2)
    converted(session, some(chance, -32768, 0, 5000))


@scene(offset=1)
def cleared(session):
    """A count and a mark over a power-on."""
    chance = session.chance
    approach(session, chance.randint(1, 4))
    if chance.random() < 0.5:
        acr_write(session)
    session.power_on()
    for _ in range(chance.randint(3, 6)):
        converted(session, any_current(chance))


@profile(turns=3)
def offset(chance):
    """Up to and over many a 1024th, on a battery whose block 1 can be written and whose COB and AB are mostly not 0."""
    session = Session(chance)
    battery(session)
    session.set_parameter(AB, some(chance, 0, 5, 251, lambda: chance.randrange(256)))
    session.set_parameter(COB, some(chance, 0, 3, 253, lambda: chance.randrange(256)))
    start(session, locks=chance.choice([0, 1]))
    length = chance.randint(6000, SESSION_LIMIT - 10000)
    while len(session.records) < length:
        play(session, "offset")
    return session.finish()
