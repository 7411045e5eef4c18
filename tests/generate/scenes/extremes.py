"""Both ends of every number."""
from builder import Session, profile, some
from scenes.pack import battery, insert


@profile()
def extremes(chance):
    """Counts at both ends of 32 bits and of every clamp, under parameters that are all 00h, FFh and the like."""
    session = Session(chance)
    battery(session)
    ends = [0x00, 0xFF, 0x80, 0x7F]
    session.block_1[:] = some(chance, lambda: bytes([chance.choice(ends)]) * 32,
                              lambda: bytes(chance.choice(ends) for _ in range(32)), session.block_1)
    insert(session, saved_acr=chance.choice([0, 1, 0x7FFF, 0x8000, 0xFFFF, 0x00FF, 0xFF00]),
           saved_as=chance.choice([0, 63, 64, 127, 128, 255]))
    counts = [-2 ** 31, 2 ** 31 - 1, -2 ** 31 + 128, 2 ** 31 - 129, -32768, 32767, -32769, 32768, -32640, 32895, -32896, -1, 0,
              1, 128, -128, 64, 63, -16]
    voltages = counts + [-1, 0, 1, 1020, 1022, 1023, 1024] * 3
    temperatures = counts + [-1025, -1024, -1023, 1022, 1023, 1024, 0, -1, 319, 320] * 2
    for _ in range(chance.randint(100, 500)):
        some(chance,
             lambda: session.conversion(chance.choice(counts)),
             lambda: session.conversion(chance.choice(counts) + chance.randint(-3, 3)),
             lambda: session.sample(chance.choice(counts), chance.choice([1, 2, 8, 64])),
             lambda: session.reading(chance.choice(voltages), chance.choice(temperatures)),
             lambda: session.reading(chance.choice(voltages), chance.choice(temperatures)),
             lambda: session.write_acr(chance.choice([0, 1, 0x7FFF, 0x8000, 0xFFFE, 0xFFFF])))
        session.registers()
        if chance.random() < 0.03:
            session.block_1[:] = bytes(chance.choice(ends + [0x01, 0xFE]) for _ in range(32))
            session.write(0x60, session.block_1)
        if chance.random() < 0.01:
            session.power_on()
    return session.finish()
