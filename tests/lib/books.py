"""books.py SESSION: the charge books of a session, or of a tray, kept from outside: from its bytes, in a file, and the lines that are printed of
it, on standard input. Says what was held and how often; where the books do not close it says at which record, and the status is 1.

It is written from documents 01 and 02, and is no gauge: whether a record was done, and what was read, is taken from its line.

The count is ACR x 4,096 + fraction. It is known from where both are read, ACR is written or the image is accepted; from there on each conversion
adds what it counted plus AB, and every byte of ACR and ACRL that is read must be that of the sum. The count is lost at a power-on, where the sum
leaves its range, where full is found, and at a reading that sets ACR or may do so: one below 4 x VAE which is the empty point, or at which ACR, as
the books have it, is above E. In the last case it is kept where LEARNF was read as 1 and nothing came that clears it.

A byte of a block that is read must be that of the shadow, which after a power-on and a recall is the EEPROM's: the image's, or that of the last
copy while the block was not locked. The image taken out must have these bytes too."""
import sys
from collections import Counter
from functools import reduce
from operator import and_

from cases import Wrong

IMAGES, READING, CONVERSION, POWER_ON, SAMPLE = {1: 0x3D, 8: 0x32}, 2, 3, 5, 6  # an image's kind says its family
TRANSACTIONS = {4: 1, 7: 2}  # how many bytes the read count has
SLOTTED = 16  # what the kinds of events are higher by in trays, where a slot byte stands ahead
BLOCKS = (range(0x20, 0x30), range(0x60, 0x80))
STATUS, LOCKS = 0x01, 0x1F
AREAS = COUNT, LABEL, _ = range(0x10, 0x14), range(LOCKS, 0x30), BLOCKS[1]  # ACR and ACRL; the locks and the label; block 1
MOST = 2 ** 28 - 1
CONTROL, AB, VCHG, IMIN, VAE, IAE, EMPTY_40, FULL_40, AE_SLOPES, COB = 0x60, 0x61, 0x64, 0x65, 0x66, 0x67, 0x68, 0x6A, 0x70, 0x7B
TBP34, TBP23, TBP12 = 0x7C, 0x7D, 0x7E
NBEN, LEARNF, LOCK = 0x80, 0x10, 0x40


def little(data, signed=False):
    return int.from_bytes(data, "little", signed=signed)


def clamped(value, low, high):
    return max(low, min(high, value))


def shown(count):
    """ACR and ACRL as they are read."""
    return (count // 4096 * 65536 + count % 4096 * 16).to_bytes(4, "big")


def overlap(first, reply, area):
    """The addresses of an area that a reply from `first` upward has."""
    return range(max(first, area.start), min(first + len(reply), area.stop))


class Cells:
    """The two blocks, under their bus addresses, and their locks."""

    def __init__(self, image):
        self.eeprom = bytearray(256)
        self.eeprom[0x20:0x30], self.eeprom[0x60:0x80] = image[8:24], image[24:56]
        self.locked = [image[59] % 2 == 1, image[59] // 2 == 1]
        self.copied = [False, False]  # since the image
        self.power_on()

    def power_on(self):
        self.shadow = bytearray(self.eeprom)
        self.lock = False
        self.written = [False, False]  # since the EEPROM was taken over

    def write(self, address, byte):
        for number, block in enumerate(BLOCKS):
            if address in block and not self.locked[number]:
                self.shadow[address] = byte
                self.written[number] = True
        if address == LOCKS:
            self.lock = byte & LOCK != 0

    def command(self, command, number):
        """Copy, recall or lock of a whole block."""
        block = slice(BLOCKS[number].start, BLOCKS[number].stop)
        if command == 0x48 and not self.locked[number]:
            self.eeprom[block] = self.shadow[block]
            self.copied[number] = True
        elif command == 0xB8:
            self.shadow[block] = self.eeprom[block]
            self.written[number] = False
        elif command == 0x6A and self.lock:
            self.locked[number], self.lock = True, False

    def locks(self):
        return LOCK * self.lock + 2 * self.locked[1] + self.locked[0]

    def parameter(self, address, size=1, signed=False):
        return int.from_bytes(self.shadow[address:address + size], "big", signed=signed)


class Count:
    """The count as far as it is known, and what came since it was last seen whole."""

    def __init__(self, books):
        self.books, self.tally = books, books.tally
        self.value, self.seen = None, {}

    def begin(self, value, how, read_at=None):
        """The count is known from here; `read_at` says where, if it was read in one record."""
        self.tally[f"begun by {how}"] += 1
        self.value, self.read_at, self.lowest = value, read_at, value
        self.since = Counter()

    def lose(self, why):
        if self.value is not None:
            self.tally[f"lost: {why}"] += 1
            self.tally["conversions in no run"] += self.since["conversions"]
        self.value = None
        self.seen.clear()

    def add(self, amount):
        self.seen.clear()
        if self.value is None:
            self.tally["conversions in no run"] += 1
            return
        self.since["conversions"] += 1
        self.value += amount
        self.lowest = min(self.lowest, self.value)
        if not 0 <= self.value <= MOST:
            self.lose("the sum leaves its range")

    def note(self, what):
        if self.value is not None:
            self.since[what] += 1

    def look(self, first, data):
        """Bytes of ACR and ACRL that were read; it is whole once each of them was, and no event came between."""
        self.seen.update(zip(range(first, COUNT.stop), data))
        if len(self.seen) < len(COUNT):
            return
        together = int.from_bytes(bytes(self.seen[address] for address in COUNT), "big")
        self.seen.clear()  # to be seen whole again it has to be read anew
        if self.value is not None:
            self.closed()
            return
        self.books.hold(COUNT[-1], together % 256, together // 16 * 16 % 256)
        self.begin(together // 65536 * 4096 + together % 65536 // 16, "a read", self.books.here if len(data) >= len(COUNT) else None)

    def closed(self):
        """The sum is that of the count as it was read."""
        self.tally["runs"] += self.since["conversions"] > 0
        self.tally.update(self.since)
        if self.read_at:
            self.books.starts.append((*self.read_at, self.lowest))
            self.read_at = None
        self.since = Counter()


class Pack:
    """What the books know of one pack beside its cells and its count."""

    def __init__(self, image, family, books):
        self.address, self.family = image[:8], family
        self.books, self.tally = books, books.tally
        self.cells, self.count = Cells(image), Count(books)
        self.power_on()
        self.count.begin(little(image[56:58]) * 4096, "the image")

    def power_on(self):
        self.cells.power_on()
        self.count.lose("a power-on")
        self.conversions, self.mark, self.tick = 0, False, None
        self.last = self.before = None  # the last c, and the one before it
        self.total, self.average = 0, None  # of c since the last average, and that
        self.voltage = self.lowest = None  # of the last reading, and of those since the last average
        self.learning = False  # LEARNF was read as 1, and nothing came that clears it

    # Conversions.

    def conversion(self, raw):
        cells = self.cells
        self.conversions = (self.conversions + 1) % 1024
        c = self.last if self.conversions == 0 else clamped(raw + cells.parameter(COB, signed=True), -32768, 32767)
        self.learning = self.learning and (c >= 0 or self.last is not None and self.last < 0)
        self.before, self.last = self.last, c
        self.count.add(0 if self.mark else self.counted(c) + cells.parameter(AB, signed=True))
        self.noted(c)
        self.mark = False
        self.learning = self.learning and self.count.value is not None and self.count.value >= 4096
        self.total += c
        if self.conversions % 8 == 0:
            self.eighth()

    def counted(self, c):
        """Blanking, which takes in -16 in the DS2775 profile."""
        if 0 < c < 64 or self.cells.parameter(CONTROL) & NBEN and (-17 if self.family == 0x32 else -16) < c < 0:
            return 0
        return c

    def noted(self, c):
        """Conversions of which it matters that they are tried."""
        for name, there in (("marked", self.mark), ("1024th", self.conversions == 0), ("blanked", c != self.counted(c)),
                            ("of a DS2775", self.family == 0x32), ("of a DS2775 blanked at -16", c == -16 and self.counted(c) == 0)):
            if there:
                self.count.note(f"conversions {name}")

    def eighth(self):
        """Full is found by averages, readings, IMIN and VCHG alone."""
        previous, self.average, self.total = self.average, self.total // 8, 0
        small = range(1, 32 * self.cells.parameter(IMIN))
        if previous in small and self.average in small and self.lowest is not None and self.lowest > 4 * self.cells.parameter(VCHG):
            self.count.lose("full was found")
            self.learning = False
        self.lowest = None

    def sample(self, raw, tick):
        passed = 1 if self.tick is None else (tick - self.tick) % 65536
        if not 1 <= passed <= 64:
            raise Wrong(f"record {self.books.number}: a sample {passed} ticks after the last one was done")
        for _ in range(passed):
            self.conversion(raw)
        self.tick = tick

    # Readings.

    def reading(self, voltage, temperature):
        self.count.seen.clear()
        previous, self.voltage = self.voltage, clamped(voltage, 0, 1023)
        self.lowest = self.voltage if self.lowest is None else min(self.lowest, self.voltage)
        limit = 4 * self.cells.parameter(VAE)
        low = self.voltage < limit
        if low and previous is not None and previous >= limit and self.discharging():
            self.count.lose("the empty point")
            self.learning = False
        elif low and not self.learning and self.count.value is not None and self.count.value // 4096 > self.empty(temperature):
            self.count.lose("ACR was above the empty line")
        else:
            self.count.note("readings below VAE" if low else "readings above VAE")

    def discharging(self):
        limit = -128 * self.cells.parameter(IAE)
        return self.before is not None and self.last < limit and self.before < limit

    def empty(self, temperature):
        """E, by the AE line at this temperature."""
        degrees = (clamped(temperature, -1024, 1023) + 4) // 8
        line = 16 * self.cells.parameter(EMPTY_40) + sum(map(self.slope, range(degrees, 40)))
        return min(line, 8191) * self.cells.parameter(FULL_40, 2) // 16384

    def slope(self, degrees):
        segment = next((place for place, point in enumerate((TBP34, TBP23, TBP12)) if degrees >= self.cells.parameter(point, signed=True)), 3)
        return self.cells.parameter(AE_SLOPES + segment)

    # The bus.

    def write(self, first, data):
        held = None
        for address, byte in zip(range(first, 0x100), data):
            self.cells.write(address, byte)
            if address == 0x14:
                self.count.note("writes at 14h")
            if address == 0x10:
                held = byte
            elif address == 0x11 and held is not None:
                self.acr_written(256 * held + byte)

    def acr_written(self, acr):
        self.count.lose("ACR was written")
        self.count.begin(acr * 4096, "a write")
        self.mark, self.learning = True, False

    def command(self, command, address):
        for number, block in enumerate(BLOCKS):
            if address in block:
                self.tally["copies of a locked block"] += command == 0x48 and self.cells.locked[number]
                self.cells.command(command, number)

    def known(self, area):
        """What stands in one of the areas; None where the books do not know it."""
        if area is COUNT:
            return None if self.count.value is None else shown(self.count.value)
        if area is LABEL:
            return bytes([self.cells.locks()]) + self.cells.shadow[0x20:0x30]
        return bytes(self.cells.shadow[0x60:0x80])

    def look(self, first, reply):
        """A reply of this pack alone, held to the books before."""
        if first <= STATUS < first + len(reply):
            self.learning = reply[STATUS - first] & LEARNF != 0
        places = overlap(first, reply, COUNT)
        if places:
            self.count.look(places.start, reply[places.start - first:])
        for number, block in enumerate(BLOCKS):
            read_back = 0 if self.cells.written[number] else len(overlap(first, reply, block))
            self.tally["EEPROM bytes read back, " + ("as last copied" if self.cells.copied[number] else "as in the image")] += read_back
            self.tally["EEPROM bytes read back, locked"] += read_back * self.cells.locked[number]


class Books:
    """Of one session, or of a tray."""

    def __init__(self):
        self.packs, self.tally = [], Counter()
        self.number = 0  # of the record
        self.here = None  # and the address from which it reads
        self.checked = []  # the records in which one pack's count was read and was known, and the address from which they read
        self.starts = []  # the same of those that made it known to a later one, and how low it fell between

    def hold(self, address, byte, wanted):
        if byte != wanted:
            raise Wrong(f"record {self.number}: {byte:02x} is read at {address:02X}h, and the books have {wanted:02x}")

    def record(self, kind, payload, reply):
        """A record that was done."""
        if kind in IMAGES:
            self.packs.append(Pack(payload, IMAGES[kind], self))
        elif kind in TRANSACTIONS:
            size = TRANSACTIONS[kind]
            if len(reply) != little(payload[:size]):
                raise Wrong(f"record {self.number}: {len(reply)} bytes are replied, and {little(payload[:size])} were asked for")
            self.tally[f"transactions of kind {kind}"] += 1
            self.transaction(payload[size:], reply)
        elif kind > SLOTTED:
            self.event(payload[0], kind - SLOTTED, payload[1:])
        else:
            self.event(0, kind, payload)

    def event(self, slot, kind, payload):
        if slot >= len(self.packs):
            raise Wrong(f"record {self.number}: an event of a pack that is not there was done")
        pack = self.packs[slot]
        if kind == READING:
            pack.reading(little(payload[:4], signed=True), little(payload[4:], signed=True))
        elif kind == CONVERSION:
            pack.conversion(little(payload, signed=True))
        elif kind == SAMPLE:
            pack.sample(little(payload[:4], signed=True), little(payload[4:]))
        elif kind == POWER_ON:
            pack.power_on()
        else:
            raise Wrong(f"record {self.number}: kind {kind} was done")

    def transaction(self, master, reply):
        if master[:1] == b"\xcc":
            packs, asked = self.packs, master[1:]
        elif master[:1] == b"\x55":
            packs, asked = [pack for pack in self.packs if pack.address == master[1:9]], master[9:]
        else:
            return
        if len(asked) < 2 or not packs:
            return
        command, address = asked[:2]
        if command == 0x69:
            self.read(packs, address, reply)
        for pack in packs:
            if command == 0x6C:
                pack.write(address, asked[2:])
            elif command in (0x48, 0xB8, 0x6A):
                pack.command(command, address)

    def read(self, packs, first, reply):
        """Each byte is the bitwise AND of those of the packs."""
        self.here = self.number, first
        for area in AREAS:
            places, told = overlap(first, reply, area), [pack.known(area) for pack in packs]
            if not places or None in told:
                continue
            wanted = told[0] if len(told) == 1 else bytes(reduce(and_, column) for column in zip(*told))
            for place in places:
                self.hold(place, reply[place - first], wanted[place - area.start])
            if area is COUNT and len(packs) == 1:
                self.checked.append(self.here)
        if len(packs) == 1:
            packs[0].look(first, reply)

    def image(self, slot, image):
        """The image of a slot, taken out at the end."""
        pack = self.packs[slot]
        if len(image) != (61 if pack.family == 0x32 else 60):
            raise Wrong(f"the image taken out has {len(image)} bytes")
        wanted = pack.address + pack.cells.eeprom[0x20:0x30] + pack.cells.eeprom[0x60:0x80]
        for place, (byte, held) in enumerate(zip(image, wanted)):
            if byte != held:
                raise Wrong(f"byte {place} of the image taken out is {byte:02x}, and the books have {held:02x}")
        if image[59] != pack.cells.locks() % 4:
            raise Wrong(f"the lock byte taken out is {image[59]}, and the books have {pack.cells.locks() % 4}")
        self.tally["images taken out"] += 1


def kept(session, lines):
    """The books of a session, from its bytes and its printed lines, the first of which is the header."""
    books, at = Books(), 0
    for line in lines[1:]:
        number, kind, answer, reply = line.split()
        if answer in ("1", "2"):
            break
        books.number += 1
        size, there = little(session[at:at + 2]), little(session[at + 2:at + 4])
        if (number, kind) != (f"{books.number}", f"{there:04x}"):
            raise Wrong(f"record {books.number}: the line is of record {number}, kind {kind}, and the kind is {there:04x}")
        if answer == "0":
            books.record(there, session[at + 4:at + 4 + size], bytes.fromhex(reply.replace("-", "")))
        at += 4 + size
    return books


def main(arguments):
    if len(arguments) != 1:
        sys.exit("books.py SESSION <LINES")
    with open(arguments[0], "rb") as file:
        session = file.read()
    try:
        books = kept(session, sys.stdin.read().splitlines())
    except Wrong as fault:
        sys.exit(str(fault))
    for name, times in sorted(books.tally.items()):
        print(f"{times:8} {name}")


if __name__ == "__main__":
    main(sys.argv[1:])
