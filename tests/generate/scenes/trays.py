"""Trays: up to eight packs on one line, what opens and closes a tray, events by slot, and transactions to one pack, to all and to nobody."""
from builder import (
    CAMERA_IMAGE, CONTROL, CONVERSION, COPY, CYCLES, FAMILY, IMAGE, LOCK, LONG_TRANSACTION, POWER_ON, READ, READING, RECALL, SAMPLE, SESSION_LIMIT, SLOT_KINDS,
    SLOTS, TBP34, TRANSACTION, TRAY_SIZES, WRITE, Tray, boundaries, crc, little, play, record, some, tray_profile, tray_unknown)
from scenes.bus import (
    acr_writes, any_event, any_transaction, block_dance, lock_dance, net_address_dance, past_the_end, status_dance)
from scenes.pack import battery, in_order, temperature
from scenes.refusals import crossed, with_family
from scenes.samples import some_ticks


def how_many(chance):
    return chance.choice([1, 2, 2, 3, 4, 5, 6, 7, 8, 8, 8])


def addresses(tray):
    """An address for each pack; in half of the trays two differ in one byte and the CRC alone, which is the family of packs of two kinds."""
    chance = tray.chance
    for pack in tray.packs[1:]:
        if chance.random() < 0.5:
            other = chance.choice(tray.packs[:pack.slot])
            near = bytearray(with_family(other.address, FAMILY[pack.image_kind])[:7])
            if other.camera == pack.camera:
                near[chance.choice([1, 5, 6, 6])] ^= 1 << chance.randrange(8)
            pack.address = bytes(near) + bytes([crc(near)])
    if len({pack.address for pack in tray.packs}) < len(tray.packs):  # two near ones of one address may be the same
        for pack in tray.packs:
            pack.address = pack.new_address()


def put_in(pack, locks=None):
    """The image of a pack, which is accepted."""
    chance = pack.chance
    battery(pack)
    pack.block_1[TBP34 - 0x60:TBP34 - 0x60 + 3] = in_order(pack.block_1[TBP34 - 0x60:TBP34 - 0x60 + 3])
    pack.image(some(chance, 0, 5000, lambda: chance.randrange(65536)), some(chance, 128, 122, 63, 0, 255),
               chance.choice([0, 0, 0, 0, 1, 2, 3]) if locks is None else locks)


def opened(chance, packs=None, locks=None):
    """A tray with all its images."""
    tray = Tray(chance, packs or how_many(chance))
    addresses(tray)
    for pack in tray.packs:
        put_in(pack, locks)
    return tray


def image_of(pack, address=None, breakpoints=None, locks=0):
    """The kind and the bytes of some image, of the kind that the address asks for."""
    block = bytearray(pack.block_1)
    block[TBP34 - 0x60:TBP34 - 0x60 + 3] = breakpoints or in_order(block[TBP34 - 0x60:TBP34 - 0x60 + 3])
    address = address or pack.new_address()
    camera = address[0] == FAMILY[CAMERA_IMAGE]
    bytes_there = address + pack.chance.randbytes(16) + bytes(block) + pack.chance.randbytes(3) + bytes([locks])
    return (CAMERA_IMAGE, bytes_there + pack.chance.randbytes(1)) if camera else (IMAGE, bytes_there)


def of_another_size(image, change):
    kind, bytes_there = image
    return kind, bytes_there[:-1] if change < 0 else bytes_there + b"\x00"


def of_another_kind(image):
    """With the length of the other kind, and the family of its own."""
    kind, bytes_there = image
    return (CAMERA_IMAGE, bytes_there + b"\x05") if kind == IMAGE else (IMAGE, bytes_there[:60])


def odd_image(tray, taken):
    """An image that is refused, or repeats an address that is taken, often for two reasons at once."""
    chance, pack = tray.chance, tray.everyone
    known = chance.choice(taken) if taken else None
    broken = bytearray(known or pack.new_address())
    broken[chance.choice([0, 1, 7, 7])] ^= 1 << chance.randrange(8)
    lock = chance.choice([4, 4, 5, 255])
    pack.add(*some(
        chance,
        lambda: image_of(pack, known),
        lambda: image_of(pack, known),
        lambda: image_of(pack, known, locks=3),
        lambda: image_of(pack, known, crossed(chance)),
        lambda: image_of(pack, known, locks=lock),
        lambda: image_of(pack, known, crossed(chance), lock),
        lambda: image_of(pack, bytes(broken)),
        lambda: image_of(pack, bytes(broken), crossed(chance), lock),
        lambda: image_of(pack, breakpoints=crossed(chance)),
        lambda: image_of(pack, locks=lock),
        lambda: of_another_kind(image_of(pack, known)),
        lambda: of_another_size(image_of(pack, known), -1),
        lambda: of_another_size(image_of(pack, known), 1)))


def to_nobody(tray):
    """A transaction that selects no pack, and the count that it reads."""
    chance, known = tray.chance, tray.everyone
    other = bytearray(tray.packs[0].address)
    other[chance.choice([0, 1, 6, 7, 7])] ^= 1 << chance.randrange(8)
    address = chance.choice(tray.packs).address
    known.transaction(chance.choice([0, 0, 1, 8, 9, 64]) if tray.room > 3000 else 0, some(
        chance, b"", b"\xF0", b"\xA5\x69\x00", b"\x69\x00", b"\x55", b"\x55" + address[:7], b"\x55" + address[:chance.randrange(8)],
        b"\x55" + bytes(other) + b"\x69\x00", b"\x55" + known.new_address() + b"\x6C\x20AB", b"\x55" + address[1:] + b"\x69\x69\x00"))


def to_missing(tray):
    """An event at a slot that has no image."""
    chance = tray.chance
    slot = some(chance, len(tray.packs), len(tray.packs), 7, 8, 9, 16, 128, 254, 255)
    kind, size = chance.choice([(READING, 8), (CONVERSION, 4), (POWER_ON, 0), (SAMPLE, 6)])
    tray.everyone.add_at(slot, kind, chance.randbytes(size))


def missized(tray):
    """An event at a slot with a byte too few or too many, or nothing at all."""
    chance = tray.chance
    kind, size = chance.choice([(READING, 9), (CONVERSION, 5), (POWER_ON, 1), (SAMPLE, 7)])
    slot = chance.choice([0, len(tray.packs) - 1, len(tray.packs), 8, 255])
    payload = bytes([slot]) + chance.randbytes(10)
    tray.records += record(kind + 16, payload[:chance.choice([0, size - 1, size - 1, size + 1, size + 1, 1 if size != 1 else 2])])


def unknown_record(tray):
    """A kind that trays do not have; those of plain sessions with the payload that they have there."""
    chance = tray.chance
    sizes = {READING: 8, CONVERSION: 4, POWER_ON: 0, SAMPLE: 6}
    kind = chance.choice([*sizes, tray_unknown(chance), tray_unknown(chance), tray_unknown(chance)])
    slot = chance.choice([b"", b"", bytes([0])])
    tray.records += record(kind, slot + chance.randbytes(sizes.get(kind, chance.choice([0, 1, 4, 5, 9, 60]))))


def count_too_large(tray):
    chance = tray.chance
    count, kind = some(chance, lambda: (chance.choice([65, 66, 100, 200, 255]), TRANSACTION),
                       lambda: (chance.choice([257, 258, 0x4001, 0xFFFF]), LONG_TRANSACTION))
    tray.everyone.transaction(count, chance.choice([b"", b"\xCC\x69\x00", b"\xCC\x6C\x10\x12\x34"]), kind)


def missized_transaction(tray):
    chance = tray.chance
    tray.everyone.add(*some(
        chance,
        lambda: (TRANSACTION, chance.choice([b"", bytes([0]) + bytes(65), bytes([200, 0xCC]) + bytes(64), bytes([1]) + chance.randbytes(70)])),
        lambda: (LONG_TRANSACTION, chance.choice([b"", b"\x00", bytes(259), little(300, 2) + bytes(257), chance.randbytes(300)]))))


def refused_event(tray):
    """What is no image, and is refused while the tray is open as after it."""
    tray.chance.choice([to_missing, to_missing, missized, unknown_record, count_too_large, missized_transaction])(tray)


def late_sample(pack):
    """A sample that is refused with 11 where one came before."""
    pack.sample(pack.chance.randint(-3000, 3000), pack.chance.choice([0, 0, 65, 66, 300, 65535]))


def slot_event(pack):
    """An event of any kind, which is accepted."""
    chance = pack.chance
    some(chance,
         lambda: pack.reading(chance.randint(0, 1023), temperature(chance)),
         lambda: pack.conversion(chance.randint(-30000, 30000)),
         lambda: pack.sample(chance.randint(-30000, 30000), some_ticks(chance)),
         pack.power_on)


def seen(tray):
    """The registers of each pack."""
    for pack in tray.packs:
        pack.registers()


# What closes an opening.

CLOSERS = [to_nobody, to_nobody, lambda tray: slot_event(tray.chance.choice(tray.packs)), lambda tray: tray.packs[0].power_on(),
           lambda tray: tray.everyone.read(0x00, 8), lambda tray: tray.anyone().read(0x00, 100, LONG_TRANSACTION),
           lambda tray: tray.packs[-1].read(0x20, 4)]


@tray_profile(turns=3)
def opening(chance):
    """Images one after the other with refused ones and refused events between them; a ninth; then one event, and images after it."""
    tray = Tray(chance, how_many(chance))
    addresses(tray)
    for _ in range(chance.choice([0, 0, 1, 4])):  # before any image
        some(chance, lambda: refused_event(tray), lambda: refused_event(tray), lambda: slot_event(tray.packs[0]), lambda: to_nobody(tray),
             lambda: odd_image(tray, []))
    taken = []
    for pack in tray.packs:
        for _ in range(chance.choice([0, 0, 1, 1, 2])):
            some(chance, lambda: odd_image(tray, taken), lambda: odd_image(tray, taken), lambda: refused_event(tray))
        put_in(pack)
        taken.append(pack.address)
    tray.room = 65536
    refused_event(tray)
    if len(taken) < SLOTS and chance.random() < 0.7:
        for _ in range(chance.randint(1, 3)):
            odd_image(tray, taken)
    elif len(taken) == SLOTS:
        for _ in range(chance.randint(1, 3)):
            some(chance, lambda: tray.everyone.add(*image_of(tray.everyone)), lambda: odd_image(tray, taken))
    chance.choice(CLOSERS)(tray)
    for _ in range(chance.randint(1, 4)):
        some(chance, lambda: tray.everyone.add(*image_of(tray.everyone)), lambda: odd_image(tray, taken), lambda: refused_event(tray),
             lambda: to_missing(tray))
    for _ in range(chance.randint(0, 10)):
        some(chance, lambda: slot_event(chance.choice(tray.packs)), lambda: to_nobody(tray), lambda: odd_image(tray, taken))
    return tray.finish()


@tray_profile(turns=1)
def unopened(chance):
    """No image is accepted: every event is refused."""
    tray = Tray(chance, 1)
    for _ in range(chance.randint(0, 30)):
        some(chance, lambda: slot_event(tray.packs[0]), lambda: refused_event(tray), lambda: to_nobody(tray), lambda: odd_image(tray, []),
             lambda: tray.packs[0].registers())
    return bytes(tray.records)


# Events by slot.

def own_ticks(tray):
    """Samples at several slots, each with ticks of its own, some of them late, with power-ons between."""
    chance = tray.chance
    for _ in range(chance.randint(4, 30)):
        pack = chance.choice(tray.packs)
        some(chance,
             lambda: pack.sample(chance.randint(-30000, 30000), some_ticks(chance)),
             lambda: pack.sample(chance.randint(-30000, 30000), some_ticks(chance)),
             lambda: pack.sample(chance.randint(-30000, 30000), some_ticks(chance)),
             lambda: late_sample(pack),
             lambda: pack.conversion(chance.randint(-30000, 30000)),
             lambda: pack.power_on() if chance.random() < 0.4 else pack.registers())
        if chance.random() < 0.2:
            chance.choice(tray.packs).registers()


def same_ticks(tray):
    """The same tick at each slot, then the same difference, as a logger of eight packs has them."""
    chance = tray.chance
    start = chance.randrange(65536)
    for pack in tray.packs:
        if pack.tick is not None:
            pack.power_on()
    for turn in range(chance.randint(2, 4)):
        for pack in tray.packs:
            if turn == 0:
                pack.tick = (start - 1) % 65536  # which the pack does not know: any first tick is taken
            pack.sample(chance.randint(-20000, 20000), 1 if turn == 0 else 10)
    seen(tray)


def own_marks(tray):
    """ACR written in every pack or in one, and a conversion at each slot: those that were written add nothing."""
    chance = tray.chance
    chance.choice([tray.everyone, tray.everyone, chance.choice(tray.packs)]).write(0x10, chance.randbytes(2))
    for pack in chance.sample(tray.packs, len(tray.packs)):
        for _ in range(chance.randint(0, 2)):
            pack.conversion(chance.randint(-30000, 30000))
    seen(tray)


def own_offsets(tray):
    """The 1024th conversion of one pack, which the conversions of the others do not bring nearer."""
    chance = tray.chance
    pack, other = chance.choice(tray.packs), chance.choice(tray.packs)
    while pack.to_offset > 2:
        pack.sample(chance.randint(-300, 300), min(64, pack.to_offset - 2))
        if other is not pack and chance.random() < 0.3:
            other.conversion(chance.randint(-300, 300))
    for raw in (9000, -9000, 7000, -7000):
        pack.conversion(raw)
        other.conversion(raw + 1)
        pack.read(0x0E, 6)
        other.read(0x0E, 6)


@tray_profile(turns=3)
def slots(chance):
    """Events of every kind at every slot, at slots that are not there, of a wrong length, and of kinds that trays do not have."""
    tray = opened(chance)
    length = chance.randint(3000, SESSION_LIMIT - 9000)
    while len(tray.records) < length and tray.room > 12000:
        some(chance,
             lambda: slot_event(chance.choice(tray.packs)),
             lambda: slot_event(chance.choice(tray.packs)),
             lambda: own_ticks(tray), lambda: same_ticks(tray), lambda: own_marks(tray),
             lambda: own_offsets(tray) if chance.random() < 0.1 else own_marks(tray),
             lambda: refused_event(tray),
             lambda: late_sample(chance.choice(tray.packs)),
             lambda: chance.choice(tray.packs).registers())
    return tray.finish()


# The line.

def names_asked(tray):
    """33h and 39h, where the packs have RNAOP alike or not."""
    chance = tray.chance
    for pack in tray.packs if chance.random() < 0.7 else []:
        if chance.random() < 0.6:
            pack.write(CONTROL, [chance.choice([0x00, 0x10, 0x80, 0x90])])
    if chance.random() < 0.4:
        tray.everyone.write(CONTROL, [chance.choice([0x00, 0x10])])
    for command in (0x33, 0x39):
        tray.everyone.transaction(chance.choice([1, 7, 8, 8, 9, 12]), bytes([command]) + chance.choice([b"", b"", b"\x69\x00", b"\xCC\x69\x00"]))


def labels_read(tray):
    """The labels of all at once, and of each."""
    tray.everyone.read(0x20, 16)
    for pack in tray.packs:
        pack.read(0x20, 16)


def written_to_all(tray):
    """One write to every pack, then what each has; a copy or a recall over all."""
    chance, all_packs = tray.chance, tray.everyone
    first = chance.choice([0x20, 0x60, 0x10, 0x14, CYCLES, 0x1F, 0x01])
    size = {0x20: 16, 0x60: 32}.get(first, 2)
    all_packs.write(first, chance.randbytes(chance.randint(1, size)))
    if first in (0x20, 0x60) and chance.random() < 0.7:
        all_packs.command(chance.choice([COPY, RECALL]), first + chance.randrange(16))
    for pack in tray.packs:
        pack.read(first, size)
    all_packs.read(first, size)


def locked_in_all(tray):
    """LOCK set in some or in all, and a lock that reaches all: each pack locks by its own LOCK."""
    chance, all_packs = tray.chance, tray.everyone
    some(chance, lambda: all_packs.write(0x1F, [0x40]), lambda: chance.choice(tray.packs).write(0x1F, [0x40]),
         lambda: [pack.write(0x1F, [chance.choice([0x00, 0x40])]) for pack in tray.packs])
    block = chance.choice([0x20, 0x60])
    chance.choice([all_packs, all_packs, chance.choice(tray.packs)]).command(LOCK, block)
    all_packs.read(0x1F, 1)
    for pack in tray.packs:
        pack.read(0x1F, 1)
    all_packs.write(block, chance.randbytes(4))
    all_packs.command(COPY, block)
    for pack in tray.packs:
        pack.read(block, 8)


DANCES = [lock_dance, block_dance, net_address_dance, acr_writes, status_dance, past_the_end, any_transaction, any_transaction, any_event]


@tray_profile(turns=4)
def line(chance):
    """Transactions matched to each pack, to all and to nobody; locks and copies over all."""
    tray = opened(chance, locks=None if chance.random() < 0.5 else 0)
    length = chance.randint(2000, SESSION_LIMIT - 9000)
    while len(tray.records) < length and tray.room > 8000:
        some(chance,
             lambda: chance.choice(DANCES)(tray.anyone()), lambda: chance.choice(DANCES)(tray.anyone()),
             lambda: names_asked(tray), lambda: labels_read(tray), lambda: written_to_all(tray),
             lambda: locked_in_all(tray) if chance.random() < 0.3 else labels_read(tray),
             lambda: to_nobody(tray),
             lambda: tray.everyone.registers(),
             lambda: slot_event(chance.choice(tray.packs)))
    return tray.finish()


@tray_profile(turns=2)
def packs_at_work(chance):
    """The scenes of plain sessions, each on a pack of its own, mingled."""
    tray = opened(chance, locks=chance.choice([0, 1]))
    length = chance.randint(3000, SESSION_LIMIT - 9000)
    while len(tray.records) < length and tray.room > 8000:
        pack = chance.choice(tray.packs)
        play(pack, chance.choice(["walk", "samples", "aimed"] + ["cycles"] * 2 * pack.camera))
        some(chance, lambda: tray.everyone.registers(), lambda: to_nobody(tray), lambda: refused_event(tray))
    return tray.finish()


@tray_profile(turns=1)
def shared_room(chance):
    """The one reply room used up by reads of several packs, and smaller reads after those that are refused."""
    tray = opened(chance)
    usual = chance.choice([64, 64, 63, 48])
    while tray.room > 0 and tray.room_for(900):
        count = usual if tray.room > 600 else chance.randrange(65)
        some(chance,
             lambda: tray.everyone.read(chance.choice([0x00, 0x60, 0xF0]), count),
             lambda: chance.choice(tray.packs).read(0x00, count),
             lambda: tray.anyone().read(0x00, count * chance.choice([1, 3, 4]), LONG_TRANSACTION),
             lambda: tray.everyone.transaction(count, chance.choice([b"", b"\x33", b"\x39", b"\xA5"])))
    for count in [chance.randrange(65) for _ in range(8)] + [1, 0, 65, 0]:
        chance.choice(tray.packs).read(0x01, count)
        tray.anyone().read(0x01, chance.choice([count, count + 60, 256, 257, 300]), LONG_TRANSACTION)
        slot_event(chance.choice(tray.packs))
        tray.everyone.transaction(chance.choice([0, count]), b"\xCC" + bytes([WRITE, 0x10]) + chance.randbytes(2))
    return bytes(tray.records)


@tray_profile(turns=1)
def tray_rubbish(chance):
    """Records of likely kinds and lengths with any payload, cut off somewhere or too long."""
    tray = opened(chance, packs=chance.choice([1, 2, 3, 8]))
    for _ in range(chance.randint(1, 300)):
        kind = some(chance, *TRAY_SIZES, TRANSACTION, TRANSACTION, 19, 18, lambda: tray_unknown(chance))
        size = chance.randint(*TRAY_SIZES.get(kind, (0, 11))) if chance.random() < 0.9 else chance.randrange(80)
        payload = bytearray(chance.randbytes(size))
        if kind in SLOT_KINDS.values() and size > 0 and chance.random() < 0.8:
            payload[0] = chance.randrange(len(tray.packs))
        if kind == TRANSACTION and size > 3 and chance.random() < 0.7:
            payload[0] %= 66
            payload[1:3] = bytes([0xCC, chance.choice([READ, WRITE, COPY, RECALL, LOCK])])
        if kind == LONG_TRANSACTION and size > 4 and chance.random() < 0.7:
            payload[0:4] = little(chance.randrange(258), 2) + bytes([0xCC, chance.choice([READ, WRITE, COPY, RECALL, LOCK])])
        tray.records += record(kind, payload)
        if not tray.room_for(1700):
            break
    whole = tray.finish()
    return some(chance, whole, whole[:-chance.choice([1, 2, 3])], lambda: whole[:chance.randrange(len(whole))],
                lambda: whole[:chance.choice(boundaries(whole)[:-1]) + chance.choice([1, 2, 3, 4])],
                lambda: whole + bytes(SESSION_LIMIT + chance.choice([1, 2, 500]) - len(whole)))
