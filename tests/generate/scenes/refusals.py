"""Records that are refused, and a reply room that is used up."""
from builder import (
    CAMERA_IMAGE, CONVERSION, FAMILY, IMAGE, LONG_TRANSACTION, POWER_ON, READING, REPLY_ROOM, SAMPLE, TRANSACTION, WRITE,
    Session, crc, little, profile, record, some, unknown)
from scenes.bus import any_event, any_transaction
from scenes.pack import battery, start


def crossed(chance):
    """TBP34, TBP23 and TBP12 that no image may have, often for one reason alone."""
    base = chance.choice([-128, -1, 0, 39, chance.randint(-128, 39)])
    more = base + chance.choice([1, 1, chance.randint(1, 40 - base)])
    high = chance.choice([41, 41, 42, 127])
    return bytes(value % 256 for value in chance.choice([
        [base, more, base], [more, base, more], [base, more, more], [base, base, more], [more, base, 40],
        [high, base, base], [high, more, base], [high, high, high]]))


def with_family(image, family):
    """An image or an address with another first byte, and the CRC that belongs to it."""
    serial = bytes([family]) + bytes(image[1:7])
    return serial + bytes([crc(serial)]) + bytes(image[8:])


def wrong_image(session):
    """An image that is refused, also where none was accepted before."""
    chance = session.chance
    kind = chance.choice([IMAGE, IMAGE, CAMERA_IMAGE])
    end = b"\x07" if kind == CAMERA_IMAGE else b""
    good = with_family(session.address, FAMILY[kind]) + bytes(48) + b"\x00\x00\x80\x00" + end
    flipped = bytearray(good)
    flipped[chance.randrange(8)] ^= 1 << chance.randrange(8)
    other_family = with_family(good, chance.choice([0x00, FAMILY[IMAGE + CAMERA_IMAGE - kind], FAMILY[IMAGE + CAMERA_IMAGE - kind], 0x3C, 0x3E]))
    lock = bytes([chance.choice([4, 4, 5, 8, 255])]) + end
    cross = crossed(chance) + good[55:59]
    session.add(kind, some(chance, flipped, other_family, other_family, good[:59] + lock, bytes(flipped[:59]) + lock, good[:-1],
                           good + b"\x00", good[:52] + cross + good[59:], good[:52] + cross + good[59:],
                           good[:52] + cross + lock, bytes(flipped[:52]) + cross + good[59:]))


def other_image(session):
    """An image of the other kind, which is good, and refused after one was accepted."""
    kind = IMAGE + CAMERA_IMAGE - session.image_kind
    session.add(kind, with_family(session.address, FAMILY[kind]) + bytes(48) + b"\x00\x00\x80\x00" + bytes([9] if kind == CAMERA_IMAGE else []))


def wrong_record(session):
    """A record that some number from 3 to 11 refuses, often for two reasons at once."""
    chance = session.chance
    some(chance,
         lambda: session.add(unknown(chance), chance.randbytes(chance.choice([0, 1, 4, 8, 60, 70]))),
         lambda: session.add(unknown(chance), chance.randbytes(chance.choice([0, chance.randrange(10)]))),
         lambda: session.add(READING, chance.randbytes(chance.choice([0, 4, 7, 9, 60]))),
         lambda: session.add(CONVERSION, chance.randbytes(chance.choice([0, 2, 3, 5, 8]))),
         lambda: session.add(TRANSACTION, b""),
         lambda: session.add(TRANSACTION, chance.randbytes(chance.choice([66, 67, 100]))),
         lambda: session.add(TRANSACTION, bytes([200]) + bytes(65)),
         lambda: session.add(LONG_TRANSACTION, chance.randbytes(chance.choice([0, 1, 1, 259, 259, 260, 300]))),
         lambda: session.add(LONG_TRANSACTION, little(chance.choice([0, 300]), 2) + bytes(257)),
         lambda: session.transaction(chance.choice([257, 258, 320, 0x0101, 0x4000, 0xFF00, 0xFFFF]),
                                     chance.choice([b"", b"\xCC\x69\x00", b"\xCC\x6C\x10\x12\x34"]), LONG_TRANSACTION),
         lambda: session.add(POWER_ON, chance.randbytes(chance.choice([1, 4, 60]))),
         lambda: session.add(SAMPLE, chance.randbytes(chance.choice([0, 4, 5, 7, 7, 8, 60]))),
         lambda: session.sample(chance.randint(-33000, 33000), chance.choice([0, 65, 66, 300, 32768, 65535])),
         lambda: wrong_image(session),
         lambda: wrong_image(session),
         lambda: session.transaction(chance.choice([65, 66, 100, 200, 255]),
                                     chance.choice([b"", b"\xCC\x69\x00", b"\xCC\x6C\x10\x12\x34"])))


def early_event(session):
    """Any record but a good image; refused while no image was accepted."""
    chance = session.chance
    some(chance,
         lambda: session.reading(500, 200),
         lambda: session.conversion(-5000),
         lambda: session.sample(-5000, 1),
         lambda: session.add(TRANSACTION, bytes([chance.choice([0, 8, 64, 65, 200])]) + b"\xCC\x69\x00"),
         lambda: session.add(LONG_TRANSACTION, little(chance.choice([0, 8, 256, 257, 0x0400]), 2) + b"\xCC\x69\x00"),
         lambda: session.power_on())


def cut(chance):
    """Bytes at which a session stops: a header or a payload that is not whole."""
    whole = record(chance.choice([READING, CONVERSION, TRANSACTION, unknown(chance)]), chance.randbytes(chance.choice([1, 4, 8])))
    return whole[:chance.choice([1, 2, 3, 4, -1, -1])]


@profile()
def refusals(chance):
    session = Session(chance)
    battery(session)
    for _ in range(chance.randint(0, 40)):
        some(chance, lambda: wrong_record(session), lambda: wrong_image(session), lambda: early_event(session))
    start(session)
    session.room = REPLY_ROOM
    for _ in range(chance.randint(50, 250)):
        some(chance, lambda: wrong_record(session), lambda: wrong_record(session), lambda: any_event(session),
             lambda: any_transaction(session), lambda: session.image(), lambda: other_image(session),
             lambda: session.registers())
        if not session.room_for(1500):
            break
    return session.finish() + (cut(chance) if chance.random() < 0.7 else b"")


@profile()
def room(chance):
    """The reply room used up, refused reads, and smaller ones after them."""
    session = Session(chance)
    battery(session)
    start(session)
    usual = chance.choice([64, 64, 63, 48, 40])
    while session.room > 0 and session.room_for(600):
        count = usual if session.room > 600 else chance.randrange(65)
        if chance.random() < 0.1:
            count = chance.randrange(66)
        some(chance,
             lambda: session.read(chance.choice([0x00, 0x60, 0xF0, chance.randrange(256)]), count),
             lambda: session.read(0x00, count),
             lambda: session.read(0x00, count * chance.choice([1, 1, 3, 4]), LONG_TRANSACTION),
             lambda: session.transaction(count, chance.choice([b"", b"\x33", b"\x39", b"\xA5"])))
        if chance.random() < 0.02:
            any_event(session)
    for count in [chance.randrange(65) for _ in range(8)] + [1, 0, 65, 0]:
        session.read(0x01, count)
        session.read(0x01, chance.choice([count, count + 60, 256, 257, 300]), LONG_TRANSACTION)
        any_event(session)
        session.transaction(chance.choice([0, count]), session.select() + bytes([WRITE, 0x10]) + chance.randbytes(2))
        any_event(session)
    return session.finish()
