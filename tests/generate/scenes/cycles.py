"""The cycle counter of camera packs: steps of twice Full40, one and many in a conversion, both ends of the counter, writes, saves and locks."""
from builder import (
    AB, AC, CONTROL, COPY, CYCLES, EMPTY_40, FULL_40, IAE, IMIN, LOCK, LONG_TRANSACTION, RECALL, SESSION_LIMIT, VAE, VCHG, Session, play, profile,
    scene, some)
from scenes.aimed import above_empty, at_empty, below_empty, hot, strong
from scenes.bus import any_event
from scenes.charge import rest as small_currents
from scenes.pack import battery, start, temperature


def counter(session):
    session.read(CYCLES, 1)


def discharged(session, ticks):
    """As much as this many conversions can take, by samples or one by one."""
    chance = session.chance
    while ticks > 0:
        some_of_them = min(ticks, chance.choice([1, 1, 2, 9, 64]))
        session.sampled(some(chance, -32768, -32768, lambda: chance.randint(-32768, -4096)), some_of_them)
        ticks -= some_of_them


def no_fall(session):
    """A conversion at which ACR does not fall."""
    session.current(some(session.chance, 0, 5, 30000))


@scene(cycles=3)
def steps(session):
    """A Full40 so small that steps come at each conversion, several of them at the smallest."""
    chance = session.chance
    session.change(FULL_40, chance.choice([1, 1, 2, 3, 4, 5, 9]), 2)
    session.write_acr(chance.randint(2000, 65535))
    if chance.random() < 0.4:
        session.write(CYCLES, [chance.choice([0, 1, 100, 126])])
    no_fall(session)
    for _ in range(chance.randint(3, 20)):
        session.current(some(chance, -32768, -4096, -4095, -1, -8192, lambda: chance.randint(-32768, 0), 20000))
        counter(session)


@scene(cycles=2)
def sampled_steps(session):
    """Steps within samples, up to hundreds of them."""
    chance = session.chance
    session.change(FULL_40, chance.choice([1, 2, 5, 20, 60, 130, 300]), 2)
    session.write_acr(chance.randint(4000, 65535))
    for _ in range(chance.randint(1, 5)):
        session.sampled(some(chance, -32768, lambda: chance.randint(-32768, -1000)), chance.choice([64, 64, 33, 10]))
        counter(session)


@scene(cycles=3)
def at_the_top(session):
    """The counter brought to 255 and held there, then written lower: what was taken off at 255 does not come back."""
    chance = session.chance
    session.write_acr(65535)
    no_fall(session)
    session.write(CYCLES, [chance.choice([250, 253, 254, 254, 255])])
    session.change(FULL_40, chance.choice([1, 2, 3]), 2)
    for _ in range(chance.randint(2, 8)):
        session.current(-32768)
        counter(session)
    session.write(CYCLES, [chance.choice([0, 7, 254])])
    session.current(chance.choice([-32768, 0, -4096]))
    counter(session)


def rest_kept(session):
    """A large rest, under a Full40 that is larger."""
    session.change(FULL_40, 65535, 2)
    session.write_acr(65535)
    no_fall(session)
    discharged(session, session.chance.choice([1, 3, 64, 128, 300]))


@scene(cycles=3)
def lowered(session):
    """A rest of many steps once Full40 is lowered, which come at the next conversion, be it a fall, a rise or one after a write of ACR."""
    chance = session.chance
    if chance.random() < 0.5:
        session.write(CYCLES, [chance.choice([0, 3, 200])])
    rest_kept(session)
    session.change(FULL_40, chance.choice([1, 2, 7, 30, 100, 400, 1000]), 2)
    counter(session)
    if chance.random() < 0.4:
        session.write_acr(chance.choice([0, 100, 65535]))
    some(chance, lambda: no_fall(session), lambda: discharged(session, 1), lambda: session.sampled(0, chance.choice([1, 2, 64])))
    counter(session)
    no_fall(session)
    counter(session)


@scene(cycles=3)
def zeroed(session):
    """Full40 = 0 with a rest, with a conversion while it is so or with none, and Full40 back again."""
    chance = session.chance
    rest_kept(session)
    session.change(FULL_40, 0, 2)
    if chance.random() < 0.3:
        session.write_acr(chance.randint(100, 60000))
    if chance.random() < 0.6:
        some(chance, lambda: no_fall(session), lambda: discharged(session, chance.choice([1, 2, 70])))
    session.change(FULL_40, chance.choice([1, 2, 50]), 2)
    no_fall(session)
    counter(session)


@scene(cycles=2)
def written(session):
    """Writes of the counter alone and among others, with a rest that they leave."""
    chance = session.chance
    session.change(FULL_40, chance.choice([10, 40, 100]), 2)
    session.write_acr(chance.randint(1000, 65535))
    no_fall(session)
    for _ in range(chance.randint(1, 4)):
        discharged(session, chance.randint(1, 30))
        some(chance,
             lambda: session.write(CYCLES, chance.randbytes(1)),
             lambda: session.write(CYCLES - 2, chance.randbytes(chance.randint(2, 5))),
             lambda: session.write(0x10, chance.randbytes(16)),
             lambda: session.write(0x1D, chance.randbytes(100), LONG_TRANSACTION))
        counter(session)
        discharged(session, chance.randint(1, 30))
        counter(session)


@scene(cycles=3)
def saved(session):
    """Readings that save and readings that do not, steps between them, and a power-on that shows what was saved."""
    chance = session.chance
    session.change(EMPTY_40, 0)
    full_40 = chance.choice([50, 200, 1000])
    session.change(FULL_40, full_40, 2)
    session.write_acr(full_40)
    no_fall(session)
    for _ in range(chance.randint(2, 6)):
        session.reading(1023, chance.choice([320, 400]))
        some(chance,
             lambda: session.write(CYCLES, chance.randbytes(1)),
             lambda: discharged(session, chance.randint(1, 80)),
             lambda: session.write_acr(chance.randint(0, full_40)))
        counter(session)
    session.power_on()
    counter(session)
    discharged(session, chance.randint(1, 40))
    counter(session)


@scene(cycles=1)
def copied(session):
    """Copy and recall of either block, which leave the counter and its cell."""
    chance = session.chance
    session.write(CYCLES, chance.randbytes(1))
    session.command(chance.choice([COPY, COPY, RECALL]), chance.choice([0x20, 0x60, CYCLES]))
    counter(session)
    if chance.random() < 0.5:
        session.power_on()
        counter(session)


@scene(cycles=3)
def corrected(session):
    """ACR brought far down by the empty point, by a cut, by full and by a write: no cycle is counted."""
    chance = session.chance
    session.change(VAE, chance.randint(20, 100))
    session.change(IAE, chance.randint(0, 60))
    session.change(EMPTY_40, chance.randint(1, 60))
    session.change(FULL_40, chance.choice([1, 2, 30]), 2)
    session.write_acr(chance.randint(2000, 65535))

    def full():
        session.change(IMIN, 255)
        session.change(VCHG, 20)
        while session.run != 0:
            session.current(100)
        for _ in range(2):
            session.reading(1000, hot(chance))
            session.sampled(100, 8)

    some(chance,
         lambda: at_empty(session),
         lambda: (above_empty(session), session.current(strong(session)), below_empty(session)),
         full,
         lambda: session.write_acr(0))
    counter(session)
    some(chance, lambda: no_fall(session), lambda: session.current(-32768))
    counter(session)


@scene(cycles=1)
def aged(session):
    """Ageing and cycles in the same conversions."""
    chance = session.chance
    session.change(AC, chance.choice([1, 2]), 2)
    session.change(FULL_40, chance.choice([2, 8, 16, 32]), 2)
    session.write_acr(60000)
    no_fall(session)
    discharged(session, chance.choice([20, 64, 130]))
    session.registers()


@scene(cycles=1)
def blanked(session):
    """Both edges of blanking, and AB alone that moves ACR."""
    chance = session.chance
    session.change(CONTROL, chance.choice([0, 0x80, 0x80]))
    session.change(AB, chance.choice([0, 0, 1, 128]))
    small_currents(session)


def locked(session):
    """Block 1 is locked for good: writes of the counter are dropped, and it goes on."""
    chance = session.chance
    session.change(EMPTY_40, 0)
    session.change(FULL_40, chance.choice([2, 20, 100]), 2)
    session.write(0x1F, [0x40])
    session.command(LOCK, 0x60)
    session.write_acr(chance.choice([100, 65535]))
    for _ in range(chance.randint(3, 8)):
        some(chance,
             lambda: session.write(CYCLES, chance.randbytes(1)),
             lambda: session.write(0x1C, chance.randbytes(5)),
             lambda: discharged(session, chance.randint(1, 64)),
             lambda: session.reading(1023, 320),
             lambda: (session.write_acr(chance.randint(0, 100)), session.reading(1023, 320), session.power_on()))
        counter(session)


@profile(turns=3)
def cycles(chance):
    """A camera pack whose Full40 is changed at will."""
    session = Session(chance, camera=True)
    battery(session)
    session.set_parameter(AB, chance.choice([0, 0, 0, 128, 1, 255]))
    start(session, locks=chance.choice([0, 0, 0, 1]))
    length = chance.randint(3000, SESSION_LIMIT - 6000)
    while len(session.records) < length and session.room > 8000:
        play(session, "cycles")
        if chance.random() < 0.05:
            some(chance, lambda: any_event(session), lambda: session.reading(1023, temperature(chance)), session.power_on)
    if chance.random() < 0.5:
        locked(session)
    return session.finish()
