"""Transactions: first bytes, commands, addresses, blocks and locks."""
from builder import CONTROL, COPY, EDGES, LOCK, LONG_TRANSACTION, READ, RECALL, SESSION_LIMIT, TBP34, TRANSACTION, WRITE, Session, profile, scene, some
from scenes.pack import breakpoints, in_order, start, temperature


def any_address(chance):
    return some(chance, lambda: chance.choice(EDGES), lambda: chance.choice(EDGES), lambda: chance.randrange(256))


def any_selection(session):
    chance = session.chance
    other = bytearray(session.address)
    other[chance.choice([0, 1, 6, 7, 7])] ^= 1 << chance.randrange(8)
    return some(chance, b"\xCC", b"\xCC", b"\xCC", b"\xCC", b"\x55" + session.address, b"\x55" + session.address,
                b"\x33", b"\x39", b"", b"\x55" + bytes(other), b"\x55" + session.new_address(),
                b"\x55" + session.address[:chance.randrange(8)], b"\xF0", b"\xA5", bytes([chance.randrange(256)]))


def any_transaction(session):
    chance = session.chance
    count = some(chance, 0, 1, 2, 8, 9, 16, 32, 33, 64, lambda: chance.randrange(65))
    if session.room < 2000 or chance.random() < 0.3:
        count = 0
    command = bytes([some(chance, READ, READ, WRITE, WRITE, WRITE, COPY, RECALL, LOCK, lambda: chance.randrange(256))])
    data = some(chance, b"", lambda: chance.randbytes(1), lambda: chance.randbytes(2), lambda: chance.randbytes(3),
                lambda: chance.randbytes(chance.randrange(40)), lambda: chance.randbytes(64),
                lambda: bytes([chance.choice([0x00, 0x40, 0xBF, 0xFF, 0xFD, 0x02])]) * chance.randint(1, 30))
    master = any_selection(session) + some(chance, command + bytes([any_address(chance)]) + data,
                                           command + bytes([any_address(chance)]) + data,
                                           command + bytes([any_address(chance)]), command, b"")
    session.transaction(count, master[:64], LONG_TRANSACTION if chance.random() < 0.2 else TRANSACTION)


def any_event(session):
    chance = session.chance
    some(chance,
         lambda: session.reading(chance.randint(-50, 1100), temperature(chance)),
         lambda: session.conversion(chance.randint(-33000, 33000)),
         lambda: session.conversion(chance.randint(-33000, 33000)),
         lambda: session.sample(chance.randint(-33000, 33000), chance.randint(1, 64)))


def lock_dance(session):
    """LOCK set or not, then a lock command that acts or not, then what the lock covers."""
    chance = session.chance
    if chance.random() < 0.7:
        session.write(0x1F, [chance.choice([0x40, 0xFF, 0x43, 0x00, 0xBF])])
    if chance.random() < 0.3:
        any_transaction(session)
    address = some(chance, 0x20, 0x2F, 0x60, 0x7F, 0x1F, 0x30, 0x5F, 0x80)
    if chance.random() < 0.8:
        session.command(LOCK, address)
    else:
        session.transaction(0, session.select() + bytes([LOCK]))
    session.read(0x1F, 1)
    session.write(address, chance.randbytes(chance.randint(1, 20)))
    session.command(COPY, address)
    session.read(0x20, 16)
    session.command(RECALL, address)
    session.read(0x60, 32)


def block_dance(session):
    """Write, copy, write again, recall: which bytes come back."""
    chance = session.chance
    first = chance.choice([0x20, 0x60])
    for _ in range(chance.randint(2, 5)):
        some(chance,
             lambda: session.write(first + chance.randrange(8), chance.randbytes(chance.randint(1, 40))),
             lambda: session.command(COPY, first + chance.randrange(16)),
             lambda: session.command(RECALL, first + chance.randrange(16)),
             lambda: session.power_on())
        session.read(first, 32)


@scene(walk=1)
def breakpoint_dance(session):
    """Breakpoints in order and crossed, written, copied and recalled, and the curve read over them."""
    chance = session.chance
    for _ in range(chance.randint(2, 6)):
        some(chance,
             lambda: session.write(TBP34, breakpoints(chance)),
             lambda: session.write(TBP34, in_order(breakpoints(chance))),
             lambda: session.command(COPY, TBP34),
             lambda: session.command(RECALL, TBP34))
        session.reading(1023, temperature(chance))
        session.registers()


def net_address_dance(session):
    """33h and 39h with both RNAOP."""
    chance = session.chance
    session.write(CONTROL, [chance.choice([0x00, 0x10, 0xEF, 0xFF])])
    for command in (0x33, 0x39):
        surplus = chance.choice([b"", b"\x69\x00", b"\xCC\x69\x00"])
        session.transaction(chance.choice([0, 1, 7, 8, 9, 12]), bytes([command]) + surplus)


def acr_writes(session):
    """10h and 11h, alone, together and run over."""
    chance = session.chance
    address = chance.choice([0x0E, 0x0F, 0x10, 0x10, 0x11, 0x12])
    session.write(address, chance.randbytes(chance.randint(1, 7)))
    session.read(0x10, 5)


def status_dance(session):
    """PORF cleared, and bit 1 written again."""
    for _ in range(3):
        session.write(0x01, [session.chance.choice([0x00, 0x02, 0xFD, 0xFF])])
        session.read(0x01, 1)


def past_the_end(session):
    """Reads and writes that run past FFh, with something to lose at the start of the map."""
    chance = session.chance
    address = chance.randint(0xF0, 0xFF)
    session.write(address, chance.randbytes(chance.randint(1, 50)))
    session.read(address, chance.randint(1, 64))
    session.read(0x00, 48)


def sweep(session):
    """Every address once, written and read alone."""
    chance = session.chance
    for address in chance.sample(range(256), 60):
        session.write(address, chance.randbytes(1))
        session.read(address, 1)


@profile(turns=2)
def bus(chance):
    session = Session(chance)
    session.block_1[:] = chance.randbytes(32)
    start(session, locks=chance.choice([0, 0, 0, 0, 0, 1, 2, 3]))
    sweeps = 1 if chance.random() < 0.5 else 0
    length = chance.randint(4000, SESSION_LIMIT - 4000)
    while len(session.records) < length and session.room > 2500:
        kind = chance.random()
        if kind < 0.5:
            any_transaction(session)
        elif kind < 0.6:
            any_event(session)
        elif kind < 0.63:
            lock_dance(session)
        elif kind < 0.65:
            some(chance, lambda: status_dance(session), lambda: past_the_end(session))
        elif kind < 0.75:
            some(chance, lambda: block_dance(session), lambda: breakpoint_dance(session))
        elif kind < 0.8:
            net_address_dance(session)
        elif kind < 0.9:
            acr_writes(session)
        elif kind < 0.93:
            session.whole_map()
        elif kind < 0.94:
            session.power_on()
        elif sweeps > 0:
            sweeps -= 1
            sweep(session)
    return session.finish()
