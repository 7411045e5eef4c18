"""The three lines and the results."""
from builder import FULL_40, VAE, Session, profile, some
from scenes.aimed import learn_as
from scenes.pack import battery, start, temperature, voltage_above


@profile()
def model(chance):
    """Results over the whole range of temperatures, parameters, ACR and AS."""
    session = Session(chance)
    battery(session)
    start(session, locks=chance.choice([0, 1]))
    while session.room_for(900):
        kind = chance.random()
        if kind < 0.3:
            session.block_1[:] = chance.randbytes(32)
            session.write(0x60, session.block_1)
        elif kind < 0.6:
            battery(session)
            session.write(0x60, session.block_1)
        elif kind < 0.7:
            session.change(chance.randrange(0x60, 0x80), chance.randrange(256))
        full_40 = session.parameter(FULL_40, 2)
        if chance.random() < 0.7:
            session.write_acr(some(chance, lambda: chance.randrange(65536), lambda: chance.randrange(full_40 + 1),
                                   lambda: chance.randrange(full_40 // 6 + 1)))
        if chance.random() < 0.06:
            learn_as(session, some(chance, 128, 63, lambda: chance.randint(63, 128)))
        if chance.random() < 0.1:
            session.guess_as(chance.randrange(256))
        session.reading(some(chance, 1023, lambda: voltage_above(session, VAE), lambda: chance.randrange(1024)),
                        temperature(chance))
        session.registers()
        if chance.random() < 0.03:
            session.power_on()
            session.registers()
    return session.finish()
