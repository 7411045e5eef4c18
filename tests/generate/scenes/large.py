"""Large numbers: counters, charges and quotients that 8, 15, 16, 17, 20, 24, 28 or 31 bits do not hold (docs/RANGES.md), and thresholds at their ends."""
from builder import (
    AB, AC, COB, CONTROL, CYCLES, EMPTY_40, FULL_40, FULL_SLOPES, HEADER, IAE, IMIN, LONG_TRANSACTION, POWER_ON, READ, SE_SLOPES, TBP34, VAE,
    VCHG, Session, play, profile, scene, some)
from scenes.aimed import at_empty, below_empty, empty_charge, hot
from scenes.pack import battery, insert

STRONGEST = -32768  # the current at which ACR falls by 8 in a conversion
FALL = 8


def anew(session):
    """A power-on, after which ACR moves by what is asked and nothing else: no bias, no offset, no blanking below 0."""
    session.power_on()
    for parameter in (AB, COB, CONTROL):
        session.change(parameter, 0)


def drained(session, units):
    """ACR falls by exactly so many units at the strongest current, written to 65,535 again and again."""
    odd, left = units % FALL, 0
    while units > 0:
        if left < FALL:
            session.write_acr(65535)
            session.sampled(STRONGEST, 1)  # which adds nothing
            left = 65535
            if odd:
                session.sampled(-4096 * odd, 1)
                units, left, odd = units - odd, left - odd, 0
        ticks = min(64, units // FALL, left // FALL)
        if ticks > 0:
            session.sampled(STRONGEST, ticks)
        units, left = units - FALL * ticks, left - FALL * ticks
        if left < FALL or units == 0:
            session.read(0x10, 4)  # so that the books can be closed


def age_counted(session, bits):
    """An age counter of so many bits and one more, which AC shows once it is lowered: AS falls by one."""
    anew(session)
    session.change(AC, 65535, 2)
    portion = 2 ** bits // 32 + session.chance.randint(0, 40)
    drained(session, 32 * portion + session.chance.randint(0, 3000))
    session.read(0x14, 1)
    session.change(AC, portion, 2)
    for _ in range(2):
        session.sampled(0, 1)
        session.read(0x14, 1)


def age_portion(session, bits):
    """A portion 32 x AC of so many bits and one more: AS stays until the counter comes to it."""
    anew(session)
    portion = 2 ** bits // 32 + session.chance.randint(1, 60)
    session.change(AC, portion, 2)
    drained(session, 32 * portion - session.chance.choice([1, 1, 8, 30]))
    session.read(0x14, 1)
    session.write_acr(5000)
    for _ in range(7):
        session.sampled(STRONGEST, 1)
        session.read(0x14, 1)


@scene(large=3)
def aged_far(session):
    session.chance.choice([age_counted, age_portion])(session, session.chance.choice([15, 15, 16, 16, 17]))


def counted_cycles(session):
    session.read(CYCLES, 1)


def cycle_step(session, bits):
    """A step 2 x Full40 of so many bits and a little more, and a fall that is one short of it."""
    chance = session.chance
    anew(session)
    full_40 = min(65535, 2 ** bits // 2 + chance.randint(0, 60)) if bits < 17 else 65535
    session.change(FULL_40, full_40, 2)
    session.write(CYCLES, [chance.choice([0, 7, 254])])
    drained(session, 2 * full_40 - 1)
    counted_cycles(session)
    session.sampled(some(chance, -4096, -4096, STRONGEST), 1)
    counted_cycles(session)
    session.change(FULL_40, 1, 2)
    session.sampled(0, 1)
    counted_cycles(session)


def cycle_rest(session, bits):
    """A rest of so many bits and one more, which Full40 shows once it is lowered."""
    chance = session.chance
    anew(session)
    session.change(FULL_40, 65535, 2)
    session.write(CYCLES, [0])
    drained(session, 2 ** bits + chance.randint(0, 400) if bits < 17 else 131064 + chance.randint(0, 5))
    counted_cycles(session)
    session.change(FULL_40, some(chance, 1, 1, 2 ** (bits - 2), 2 ** (bits - 4) - 1), 2)
    session.sampled(STRONGEST, 1)
    counted_cycles(session)


@scene(large=3)
def cycled_far(session):
    if session.camera:
        session.chance.choice([cycle_step, cycle_rest])(session, session.chance.choice([15, 16, 17, 17]))


def charged(session, units):
    """ACR rises by exactly so many units."""
    session.sampled(4096 * (units % 7), 1)
    units -= units % 7
    while units > 0:
        ticks = min(64, units // 7)
        session.sampled(4096 * 7, ticks)
        units -= 7 * ticks


@scene(large=4)
def learnt_far(session):
    """A learn from a charge above 2^15, or whose quotient is a power of two and a little more, so that its low bits alone would teach another AS."""
    chance = session.chance
    anew(session)
    session.change(VAE, chance.randint(1, 200))
    session.change(IAE, chance.randint(0, 100))
    session.change(EMPTY_40, 255)
    session.change(FULL_40, 65535, 2)
    at_empty(session)
    least = empty_charge(session)
    bits = chance.choice([0, 0, 8, 15, 16, 17, 20])
    if bits == 0:
        charge = chance.randint(32768, 65535)
        full_40 = min(65535, charge * 128 // chance.randint(64, 127))
    else:
        full_40 = chance.randint(least // 2 ** (bits - 7) + 1, 65535 // (2 ** (bits - 7) + 1))
        charge = full_40 * 2 ** (bits - 7) + chance.randrange(min(full_40, 60))
    charged(session, charge - least)
    session.change(FULL_40, full_40, 2)
    session.change(IMIN, 255)
    session.change(VCHG, 100)
    session.sampled(20, 8 - session.run)
    for _ in range(2):
        session.reading(1023, hot(chance))
        session.sampled(20, 8)
    session.registers()


# AS, D / Full40, Full40 and ACR at which 100 x N / D is 2^bits, a multiple of it, or up to 99 more, over the line SE = 64 x AS - D / Full40.
QUOTIENTS = [(24, 128, 7, 57, 8200), (24, 128, 7, 47, 40451), (28, 123, 13, 1, 12780), (28, 123, 13, 5, 63900),
             (31, 123, 16, 1, 20972), (31, 123, 16, 3, 62916)]


def steep_lines(session, aging, apart):
    """At -24 degrees FULL is 8,192, and SE is so far below AF = 64 x AS: of 64 steps the last is in segment 3."""
    for at in range(4):
        session.change(FULL_SLOPES + at, 255)
    session.change(TBP34, 256 - 23)
    session.change(SE_SLOPES, aging)
    session.change(SE_SLOPES + 1, aging - apart)
    session.change(TBP34 + 1, 128)


@scene(quotients=3)
def quotient_by_standby(session):
    """100 x N / D is 100 x ACR / Full40 over SE = 0 with AS 128: a power of two, or up to 99 more."""
    chance = session.chance
    for bits, full_40 in chance.sample([(8, 1000), (15, 100), (16, 50), (16, 25), (17, 25), (17, 5), (20, 5), (20, 4)], 4):
        session.change(FULL_40, full_40, 2)
        session.write_acr(-(-2 ** bits * full_40 // 100) + chance.choice([0, 0, 1, 2]))
        session.reading(1023, hot(chance))
        session.registers()


@scene(quotients=3)
def quotient_by_slopes(session):
    """The same where D is smallest, so that it comes to 2^24, 2^28 and 2^31."""
    for _, aging, apart, full_40, acr in QUOTIENTS:
        if aging == session.aging:
            steep_lines(session, aging, apart)
            session.change(FULL_40, full_40, 2)
            session.write_acr(acr)
            session.reading(1023, -8 * 24)
            session.registers()


@scene(large=1, quotients=1)
def low_bits_would_do(session):
    """A read count and a difference of ticks above 2^15, whose low bits would be taken."""
    chance = session.chance
    session.transaction(0x8000 + chance.randint(0, 256), b"\xCC" + bytes([READ, 0x00]), LONG_TRANSACTION)
    session.sampled(100, 1)
    session.sampled(chance.randint(100, 3000), 0x8000 + chance.randint(1, 64))
    session.registers()


@scene(walk=1, aimed=1, large=1)
def full_thresholds(session):
    """IMIN and VCHG at 0 and 255, with averages and voltages on both sides of them."""
    chance = session.chance
    session.change(IMIN, chance.choice([0, 255, 255]))
    session.change(VCHG, chance.choice([0, 255]))
    limit, edge = 32 * session.parameter(IMIN), 4 * session.parameter(VCHG)
    while session.run != 0:
        session.current(1)
    for _ in range(4):
        c = chance.choice([1, max(1, limit - 1), limit, max(1, limit - 1)])
        session.reading(edge + chance.choice([0, 1, 1]), hot(chance))
        session.sampled(c, 8)
        session.registers()


@scene(walk=1, aimed=1, large=1)
def empty_thresholds(session):
    """VAE and IAE at 0 and 255, with voltages and currents on both sides of them."""
    chance = session.chance
    session.change(VAE, chance.choice([0, 255, 255]))
    session.change(IAE, chance.choice([0, 255]))
    edge, threshold = 4 * session.parameter(VAE), -128 * session.parameter(IAE)
    for _ in range(3):
        session.reading(chance.choice([edge, 1023]), hot(chance))
        for _ in range(2):
            session.current(threshold - chance.choice([0, 1, 1, 1]))
        session.reading(edge - chance.choice([0, 1, 1, 1]), hot(chance))
        session.registers()
        session.write_acr(chance.choice([3000, 50000]))
        below_empty(session)


def ended(session):
    """The session, or with a last record whose length would do if its highest bit were dropped."""
    whole = session.finish()
    return whole + HEADER.pack(0x8000, POWER_ON) if session.chance.random() < 0.5 else whole


@profile()
def large(chance):
    """A pack that loses millions of units, one that counts and learns by the largest charges, or results by the largest quotients."""
    session = Session(chance, camera=chance.random() < 0.6)
    battery(session)
    session.set_parameter(AC, 0, 2)
    session.aging = chance.choice([128, 123])
    kind = chance.choice(["ageing", "large", "large", "quotients"])
    insert(session, saved_acr=chance.randrange(65536), saved_as=session.aging if kind == "quotients" else 128)
    if kind == "ageing":
        chance.choice([age_counted, age_portion])(session, 20)
    while session.room_for(6000):
        play(session, "quotients" if kind == "quotients" else "large")
    return ended(session)
