"""AS that falls, and AC changed on the way."""
from builder import AB, AC, VAE, Session, profile, some
from scenes.aimed import learn_as
from scenes.charge import charge
from scenes.pack import battery, insert, temperature, voltage_above


@profile()
def ageing(chance):
    """Long discharges and charges with a small AC, so that AS falls far, and AC changed on the way."""
    session = Session(chance)
    battery(session)
    session.set_parameter(AC, chance.randint(1, 4), 2)
    session.set_parameter(AB, chance.choice([0, 0, 5, 251]))
    insert(session, saved_acr=chance.randint(200, 3000), saved_as=some(chance, 128, 100, 66, 64, 63, lambda: chance.randint(63, 128)))
    while session.room_for(2500):
        for _ in range(chance.randint(5, 60)):
            session.current(some(chance, -32768, -4096, lambda: chance.randint(-32768, -1000)))
        session.registers()
        some(chance,
             lambda: session.write_acr(chance.randint(100, 3000)),
             lambda: charge(session, chance.randint(50, 300)),
             lambda: session.reading(voltage_above(session, VAE), temperature(chance)),
             lambda: learn_as(session, chance.randint(63, 128)),
             lambda: session.guess_as(chance.randint(63, 128)),
             lambda: None)
        session.registers()
        if chance.random() < 0.5:
            session.change(AC, some(chance, 0, 1, 2, 9, lambda: chance.randrange(300), 2000), 2)
            for _ in range(chance.randint(1, 4)):
                session.current(some(chance, -32768, 0, 5, 30000))
                session.registers()
    return session.finish()
