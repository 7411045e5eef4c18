"""Samples: ticks and their edges, and what comes along the way of one that stands for many conversions."""
from builder import (
    AB, AC, CONTROL, COPY, EMPTY_40, FULL_40, IAE, IMIN, RECALL, SESSION_LIMIT, VAE, VCHG, Session, play, profile, scene, some)
from scenes.aimed import above_empty, at_empty, below_empty, empty_charge, hot, learn_as, strong
from scenes.pack import battery, start, temperature, voltage_above


def some_ticks(chance):
    """A number of ticks that is accepted."""
    return some(chance, 1, 2, 7, 8, 9, 16, 63, 64, lambda: chance.randint(2, 7), lambda: chance.randint(8, 16),
                lambda: chance.randint(1, 64))


@scene(samples=2, walk=1)
def edges(session):
    """Differences that are refused or just not, and what a refused one leaves."""
    chance = session.chance
    for _ in range(chance.randint(2, 8)):
        ticks = some(chance, 0, 65, 65535, 1, 64, 66, 128, 256, 32768, lambda: chance.randrange(65536), lambda: some_ticks(chance),
                     lambda: 256 * chance.randint(1, 255) + chance.randint(0, 70))
        session.sampled(chance.randint(-3000, 3000), ticks)
        session.registers()
    session.sampled(chance.randint(-3000, 3000), some_ticks(chance))
    session.registers()


@scene(samples=2)
def over_power_on(session):
    """Samples with a power-on between them, after which the tick may be near the last one, far from it or the same."""
    chance = session.chance
    session.sampled(chance.randint(-3000, 3000), some_ticks(chance))
    before = session.tick
    session.power_on()
    if chance.random() < 0.8:
        session.tick = (before + chance.choice([0, 1, 2, 5, 64, 65, 1000]) - 1) % 65536
        session.sampled(chance.randint(-32768, 32767), 1)
        session.registers()
    session.sampled(chance.randint(-32768, 32767), some_ticks(chance))
    session.registers()


@scene(samples=2, walk=1)
def cut_runs(session):
    """Runs of eight that samples, conversions, readings and label events share."""
    chance = session.chance
    c = chance.randint(-2000, 2000)
    for _ in range(chance.randint(3, 12)):
        some(chance,
             lambda: session.sampled(c, chance.randint(1, 9)),
             lambda: session.sampled(chance.randint(-2000, 2000), some_ticks(chance)),
             lambda: session.current(c),
             lambda: session.reading(voltage_above(session, VAE), temperature(chance)),
             lambda: session.write(0x20 + chance.randrange(16), chance.randbytes(chance.randint(1, 3))),
             lambda: session.command(chance.choice([COPY, RECALL]), 0x20),
             lambda: session.read(0x20, 4))
        session.registers()


@scene(samples=1, walk=1)
def conversions_between(session):
    """Conversions between samples, which leave the tick, and a sample a tick later."""
    chance = session.chance
    session.sampled(chance.randint(-3000, 3000), some_ticks(chance))
    for _ in range(chance.randint(1, 3)):
        session.current(chance.randint(-3000, 3000))
    session.sampled(chance.randint(-3000, 3000), chance.choice([1, 1, 2, 64]))
    session.registers()


@scene(samples=3, walk=1)
def sampled_full(session):
    """Averages that find full, formed by samples: at their first eighth conversion alone, and counted on after it."""
    chance = session.chance
    session.change(IMIN, chance.randint(1, 255))
    session.change(VCHG, chance.randint(1, 200))
    if chance.random() < 0.4:
        session.change(VAE, chance.randint(1, 100))
        session.change(EMPTY_40, chance.randint(40, 255))
        session.change(FULL_40, chance.randint(200, 20000), 2)
        at_empty(session)
        session.change(FULL_40, int(empty_charge(session) / chance.uniform(0.4, 1.1)) or 1, 2)
    limit = 32 * session.parameter(IMIN)
    for _ in range(chance.randint(2, 5)):
        if chance.random() < 0.85:
            session.reading(4 * session.parameter(VCHG) + chance.choice([0, 1, 1, 1, 100]), hot(chance))
        session.sampled(some(chance, 1, limit - 1, limit - 1, limit, lambda: chance.randint(1, limit)),
                        some(chance, 8, 8, 16, 24, 64, lambda: chance.randint(1, 64)))
        session.registers()


@scene(samples=2)
def sampled_to_an_end(session):
    """The count brought to 0 or to the top within a sample, with LEARNF or without, by a current or by AB alone."""
    chance = session.chance
    session.change(AB, chance.choice([0, 0, 1, 127, 128, 255]))
    session.change(CONTROL, chance.choice([0, 0x80]))
    ticks = chance.randint(2, 64)
    if chance.random() < 0.5:
        session.write_acr(65535 - chance.randint(0, ticks * 8))
        c = some(chance, 32767, 5, lambda: chance.randint(64, 32767))
    else:
        session.write_acr(some(chance, 0, 1, lambda: chance.randint(0, ticks * 8)))
        c = some(chance, -32768, -1, -15, lambda: chance.randint(-32768, -1))
    for _ in range(chance.randint(1, 4)):
        session.sampled(c, ticks)
        session.registers()


@scene(samples=2)
def sampled_learning(session):
    """LEARNF set by the empty point, then a sample that clears it at its first conversion, on the way, or not at all."""
    chance = session.chance
    session.change(VAE, chance.randint(1, 100))
    session.change(IAE, chance.randint(0, 60))
    session.change(EMPTY_40, chance.randint(1, 60))
    session.change(FULL_40, chance.randint(300, 20000), 2)
    if chance.random() < 0.5:
        above_empty(session)
        session.sampled(strong(session), chance.randint(2, 64))
        session.sampled(strong(session), chance.choice([1, 1, 2, 9]))
        below_empty(session)
    else:
        at_empty(session)
    session.registers()
    left = empty_charge(session) * 4096
    ticks = chance.randint(2, 64)
    session.sampled(some(chance, -1, 5000, -32768, lambda: max(-32768, -left // ticks - chance.randint(0, 300))), ticks)
    session.registers()
    session.sampled(some(chance, -1, 0, -32768), chance.randint(1, 20))
    session.registers()


@scene(samples=3)
def sampled_ageing(session):
    """AS that falls within samples, also where AC is lowered far below the counter, and AC = 0."""
    chance = session.chance
    if chance.random() < 0.4:
        learn_as(session, chance.choice([128, 128, 100, 66, 64]))
    session.change(AC, some(chance, 1, 2, 3, lambda: chance.randint(1, 300), lambda: chance.randint(300, 3000)), 2)
    session.write_acr(chance.randint(500, 65535))
    for _ in range(chance.randint(1, 5)):
        session.sampled(some(chance, -32768, lambda: chance.randint(-32768, -1000)), chance.choice([64, 64, 33, 10]))
        session.registers()
    if chance.random() < 0.7:
        session.change(AC, some(chance, 0, 1, 1, 2, 5), 2)
    for _ in range(chance.randint(1, 3)):
        session.sampled(some(chance, -32768, 0, 5, 30000, lambda: chance.randint(-32768, 0)), some_ticks(chance))
        session.registers()


@profile(turns=2)
def samples(chance):
    """Samples alone and among other events, on a battery whose block 1 can be written."""
    session = Session(chance)
    battery(session)
    start(session, locks=chance.choice([0, 1]))
    length = chance.randint(4000, SESSION_LIMIT - 4000)
    while len(session.records) < length:
        play(session, "samples")
        if chance.random() < 0.05:
            session.power_on()
            session.registers()
    return session.finish()
