"""What sessions are made of: records, images, transactions, a session under construction; and where scenes enter themselves.

A scene is a function that adds records to a session; a profile is one that makes a whole session. A file of scenes/ enters its own by
`@scene(walk=2)`, twice among those that the profile `walk` plays, and `@profile(turns=2)`, two of the sessions of each round of seeds.
`@tray_profile` does the same with sessions of trays. A pack of a tray is a session too, so that any scene can be played on it.
"""

import struct

HEADER = struct.Struct("<HH")  # of a record: how many bytes its payload has, and its kind
SESSION_LIMIT = 32768
REPLY_ROOM = 65536
IMAGE, READING, CONVERSION, TRANSACTION, POWER_ON, SAMPLE, LONG_TRANSACTION, CAMERA_IMAGE = 1, 2, 3, 4, 5, 6, 7, 8
READ, WRITE, COPY, RECALL, LOCK = 0x69, 0x6C, 0x48, 0xB8, 0x6A

# How many bytes a payload of each kind has, at least and at most.
SIZES = {IMAGE: (60, 60), READING: (8, 8), CONVERSION: (4, 4), TRANSACTION: (1, 65), POWER_ON: (0, 0), SAMPLE: (6, 6), LONG_TRANSACTION: (2, 258),
         CAMERA_IMAGE: (61, 61)}

# Of the two kinds of image: the first byte of the address. Kind 8 is of the profile that cameras use.
FAMILY = {IMAGE: 0x3D, CAMERA_IMAGE: 0x32}

# Of the two kinds of transaction: how many bytes the read count has, and how many may be read, or sent by the master.
COUNT_SIZE = {TRANSACTION: 1, LONG_TRANSACTION: 2}
MOST = {TRANSACTION: 64, LONG_TRANSACTION: 256}

# Kinds that are meant as unknown. A request that gives a number a meaning takes it out of here, and nowhere else.
UNKNOWN = [0, 9, 10, 18, 19, 20, 21, 22, 99, 0x0100, 0x0101, 0x0501, 0xFFFF]

# In trays these come behind a slot byte, and have other numbers.
SLOTS = 8
SLOT_KINDS = {READING: 18, CONVERSION: 19, POWER_ON: 21, SAMPLE: 22}
TRAY_SIZES = {IMAGE: SIZES[IMAGE], CAMERA_IMAGE: SIZES[CAMERA_IMAGE], TRANSACTION: SIZES[TRANSACTION], LONG_TRANSACTION: SIZES[LONG_TRANSACTION],
              **{there: tuple(size + 1 for size in SIZES[kind]) for kind, there in SLOT_KINDS.items()}}

# The same for trays: kinds that are meant as unknown there.
TRAY_UNKNOWN = [0, 2, 3, 5, 6, 9, 10, 17, 20, 23, 34, 99, 0x0100, 0x0112, 0x1200, 0x1600, 0xFFFF]

CYCLES = 0x1E  # the cycle counter of camera packs

# Table 3 of the DS2781 sheet.
CONTROL, AB, AC, VCHG, IMIN, VAE, IAE, EMPTY_40 = 0x60, 0x61, 0x62, 0x64, 0x65, 0x66, 0x67, 0x68
RSNSP, FULL_40, FULL_SLOPES, AE_SLOPES, SE_SLOPES, COB, TBP34 = 0x69, 0x6A, 0x6C, 0x70, 0x74, 0x7B, 0x7C

# Where the map changes its manners.
EDGES = [0x00, 0x01, 0x02, 0x0E, 0x0F, 0x10, 0x11, 0x12, 0x13, 0x14, 0x15, 0x16, 0x1B, 0x1C, 0x1E, 0x1F, 0x20, 0x21, 0x2E,
         0x2F, 0x30, 0x5F, 0x60, 0x61, 0x7B, 0x7E, 0x7F, 0x80, 0xB0, 0xB1, 0xC0, 0xFE, 0xFF]

FINISH_BYTES = 64  # what finish() needs at most


def crc(data):
    total = 0
    for value in data:
        total ^= value
        for _ in range(8):
            total = total >> 1 ^ (0x8C if total & 1 else 0)
    return total


def signed(value):
    return value - 256 if value >= 128 else value


def little(value, size):
    return (value & (1 << 8 * size) - 1).to_bytes(size, "little")


def record(kind, payload):
    return HEADER.pack(len(payload), kind) + bytes(payload)


class Session:
    """The bytes of a session as they grow."""

    def __init__(self, chance, camera=None):
        self.chance = chance
        self.camera = chance.random() < 0.25 if camera is None else camera  # whether the image is of kind 8
        self.records = bytearray()
        self.room = REPLY_ROOM  # what is left if every transaction so far was accepted
        self.address = self.new_address()
        self.block_0 = bytearray(chance.randbytes(16))
        self.block_1 = bytearray(32)
        self.conversions = 0  # since power-on
        self.tick = None  # of the last sample since power-on

    @property
    def image_kind(self):
        return CAMERA_IMAGE if self.camera else IMAGE

    def new_address(self):
        serial = bytes([FAMILY[self.image_kind]]) + self.chance.randbytes(6)
        return serial + bytes([crc(serial)])

    def parameter(self, address, size=1):
        return int.from_bytes(self.block_1[address - 0x60:address - 0x60 + size], "big")

    def set_parameter(self, address, value, size=1):
        self.block_1[address - 0x60:address - 0x60 + size] = value.to_bytes(size, "big")

    @property
    def run(self):
        """Conversions since the last average."""
        return self.conversions % 8

    @property
    def to_offset(self):
        """Conversions up to the next 1024th, that one too."""
        return 1024 - self.conversions % 1024

    def room_for(self, size):
        return len(self.records) + size <= SESSION_LIMIT

    # Records.

    def add(self, kind, payload=b""):
        self.records += record(kind, payload)

    def image(self, saved_acr=0, saved_as=128, locks=0, address=None):
        cells = little(saved_acr, 2) + bytes([saved_as, locks]) + self.saved_cycles()
        self.add(self.image_kind, (address or self.address) + self.block_0 + self.block_1 + cells)
        self.conversions, self.tick = 0, None

    def saved_cycles(self):
        """The last byte of an image, of a camera pack alone."""
        return bytes([self.chance.choice([0, 0, 1, 127, 253, 254, 255, self.chance.randrange(256)])]) if self.camera else b""

    def power_on(self):
        self.add(POWER_ON)
        self.conversions, self.tick = 0, None

    def reading(self, voltage, temperature):
        self.add(READING, little(voltage, 4) + little(temperature, 4))

    def conversion(self, raw):
        self.add(CONVERSION, little(raw, 4))
        self.conversions += 1

    def current(self, c):
        """A conversion whose c is the one wanted."""
        self.conversion(c - signed(self.parameter(COB)))

    def sample(self, raw, ticks):
        """A sample so many ticks after the last one; the first since power-on is taken at any tick, and counts as one."""
        first = self.tick is None
        tick = self.chance.choice([0, 65535, 65500, self.chance.randrange(65536)]) if first else (self.tick + ticks) % 65536
        self.add(SAMPLE, little(raw, 4) + little(tick, 2))
        if first or 1 <= ticks % 65536 <= 64:
            self.conversions += 1 if first else ticks
            self.tick = tick

    def sampled(self, c, ticks):
        """A sample whose c is the one wanted."""
        self.sample(c - signed(self.parameter(COB)), ticks)

    def transaction(self, count, master=b"", kind=TRANSACTION):
        self.add(kind, little(count, COUNT_SIZE[kind]) + bytes(master))
        if count <= MOST[kind] and count <= self.room:
            self.room -= count

    def select(self):
        return b"\xCC" if self.chance.random() < 0.8 else b"\x55" + self.address

    def read(self, address, count, kind=TRANSACTION):
        self.transaction(count, self.select() + bytes([READ, address]), kind)

    def write(self, address, data, kind=TRANSACTION):
        self.transaction(0, self.select() + bytes([WRITE, address]) + bytes(data), kind)

    def command(self, command, address):
        self.transaction(0, self.select() + bytes([command, address]))

    # What most profiles do.

    def registers(self):
        if self.room >= 32 + 256:
            self.read(0x00, 32)

    def whole_map(self):
        self.read(0x00, 64)
        self.read(0x40, 64)

    def change(self, address, value, size=1):
        self.set_parameter(address, value, size)
        self.write(address, value.to_bytes(size, "big"))

    def write_acr(self, value):
        """The nearest charge that ACR can hold."""
        self.write(0x10, min(0xFFFF, max(0, value)).to_bytes(2, "big"))

    def guess_as(self, value):
        """A write at 14h, as hosts have tried it: it is dropped."""
        self.write(0x14, bytes([value]))

    def finish(self):
        """Everything that the gauge shows, and in half of the sessions the saved cells too."""
        self.whole_map()
        if self.chance.random() < 0.5:
            self.power_on()
            self.whole_map()
        return bytes(self.records)


class Tray:
    """The bytes of a tray's session as they grow. Its packs, and everyone at once, write to them."""

    def __init__(self, chance, packs):
        self.chance = chance
        self.records = bytearray()
        self.room = REPLY_ROOM
        self.packs = [Pack(self, slot) for slot in range(packs)]
        self.everyone = Everyone(self)

    def room_for(self, size):
        return len(self.records) + size <= SESSION_LIMIT

    def anyone(self):
        """A pack, or everyone."""
        return self.chance.choice(self.packs + [self.everyone] * max(1, len(self.packs) // 3))

    def finish(self):
        """Everything that each pack shows, in half of the sessions the saved cells too, and what all of them show at once."""
        for pack in self.packs:
            pack.whole_map()
        if self.chance.random() < 0.5:
            for pack in self.packs:
                pack.power_on()
                pack.whole_map()
        self.everyone.whole_map()
        return bytes(self.records)


class Shared(Session):
    """A session whose records and reply room are those of a tray."""

    def __init__(self, tray):
        self.tray = tray
        left = tray.room
        super().__init__(tray.chance)
        self.records, self.room = tray.records, left

    @property
    def room(self):
        return self.tray.room

    @room.setter
    def room(self, left):
        self.tray.room = left

    def add_at(self, slot, kind, payload=b""):
        super().add(SLOT_KINDS[kind], bytes([slot]) + bytes(payload))


class Pack(Shared):
    """A pack in its slot: events go there, and transactions are matched to it, but for a few that go to everyone."""

    def __init__(self, tray, slot):
        super().__init__(tray)
        self.slot = slot

    def add(self, kind, payload=b""):
        if kind in SLOT_KINDS:
            self.add_at(self.slot, kind, payload)
        else:
            super().add(kind, payload)

    def select(self):
        return b"\x55" + self.address if self.chance.random() < 0.95 else b"\xCC"


class Everyone(Shared):
    """All packs at once, by Skip; an event goes to one of them."""

    def one(self):
        return self.chance.choice(self.tray.packs)

    def power_on(self):
        self.one().power_on()

    def reading(self, voltage, temperature):
        self.one().reading(voltage, temperature)

    def conversion(self, raw):
        self.one().conversion(raw)

    def sample(self, raw, ticks):
        self.one().sample(raw, ticks)

    def set_parameter(self, address, value, size=1):
        for one in [super(), *self.tray.packs]:
            one.set_parameter(address, value, size)

    def select(self):
        return b"\xCC"


def some(chance, *choices):
    """One of the choices; a callable is called."""
    choice = chance.choice(choices)
    return choice() if callable(choice) else choice


def unknown(chance):
    """A kind that is refused with 3."""
    return chance.choice(UNKNOWN + 4 * [chance.randint(0x0100, 0xFFFF)])


def tray_unknown(chance):
    """A kind that is refused with 3 in trays."""
    return chance.choice(TRAY_UNKNOWN + 4 * [chance.randint(0x0100, 0xFFFF)])


def boundaries(session):
    """Where its records start, as far as they are whole, and where the last of them ends."""
    places = [0]
    while len(session) - places[-1] >= 4:
        after = places[-1] + 4 + int.from_bytes(session[places[-1]:places[-1] + 2], "little")
        if after > len(session):
            break
        places.append(after)
    return places


# Where scenes enter themselves.

PROFILES, TURNS, SCENES = {}, {}, {}
TRAYS, TRAY_TURNS = {}, {}


def profile(turns=1, among=PROFILES, often=TURNS):
    """Enters a function from chance to the bytes of a session, under its name."""
    def enter(made):
        among[made.__name__], often[made.__name__] = made, turns
        return made
    return enter


def tray_profile(turns=1):
    """The same of sessions of trays."""
    return profile(turns, TRAYS, TRAY_TURNS)


def scene(**often):
    """Enters a function that adds to a session into the profiles named, each as often as is said."""
    def enter(added):
        for name, times in often.items():
            SCENES.setdefault(name, []).extend([added] * times)
        return added
    return enter


def play(session, name):
    """One of the scenes of this profile."""
    session.chance.choice(SCENES[name])(session)
