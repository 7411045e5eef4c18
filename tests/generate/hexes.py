"""Images to be exported and texts to be imported (request [10] of document 02), each text with the answer that it must get: exports, records in every
order, each kind of damage on each line, texts after the end record."""
import itertools
import random

from builder import crc

END = b":00000001FF\n"
PLACES = (0x20, 0x60, 0x70)


def image(chance, locks):
    """Any bytes, but for the address, the breakpoints, which are in order, and the locks."""
    serial = b"\x3d" + chance.randbytes(6)
    breakpoints = sorted((chance.randint(-128, 40) for _ in range(3)), reverse=True)
    block_1 = chance.randbytes(28) + bytes(point % 256 for point in breakpoints) + chance.randbytes(1)
    return serial + bytes([crc(serial)]) + chance.randbytes(16) + block_1 + chance.randbytes(3) + bytes([locks])


def pairs(seeds):
    """A pack's image and the factory's; every lock byte of either."""
    for seed in range(seeds):
        chance = random.Random(f"hex {seed}")
        yield image(chance, seed % 4), image(chance, seed // 4 % 4)


def spoilt(whole):
    """What is wrong with an image, and the image."""
    def put(at, value):
        return whole[:at] + bytes([value]) + whole[at + 1:]
    yield "no byte", b""
    yield "59 bytes", whole[:59]
    yield "61 bytes", whole + b"\x00"
    yield "100,000 bytes", whole + bytes(99940)
    yield "another family", put(0, 0x32)
    camera = b"\x32" + whole[1:7]
    camera += bytes([crc(camera)]) + whole[8:]
    yield "the family of kind 8, its CRC right", camera
    yield "an image of kind 8", camera + b"\x05"
    yield "a wrong CRC", put(7, whole[7] ^ 1)
    yield "lock byte 4", put(59, 4)
    yield "a breakpoint of 41", put(0x34, 41)
    yield "crossed breakpoints", put(0x34, 0x80)[:0x35] + b"\x00" + whole[0x36:]


def line(address, kind, data, count=None, sum_off=0):
    """A line with a right checksum, or one that is off."""
    body = bytes([len(data) if count is None else count, address // 256, address % 256, kind]) + data
    return b":" + (body + bytes([(sum_off - sum(body)) % 256])).hex().upper().encode() + b"\n"


def data_lines(bytes_48):
    return [line(place, 0, bytes_48[at:at + 16]) for place, at in zip(PLACES, (0, 16, 32))]


def orders(bytes_48):
    for some in itertools.permutations(data_lines(bytes_48)):
        yield b"".join(some) + END


def bad_lines(good, address, kind, data):
    """What is wrong, a line in the place of a good one, and its answer."""
    digits = good[1:-1]
    yield "lower case", good.lower() if good.lower() != good else None, 40
    for at in range(1, len(good) - 1):
        if good[at:at + 1].isalpha():
            yield f"lower case at {at}", good[:at] + good[at:at + 1].lower() + good[at + 1:], 40
            break
    yield "a CR", good[:-1] + b"\r\n", 40
    yield "an empty line before", b"\n" + good, 40
    yield "an empty line behind", good + b"\n", 40
    yield "a space before", b" " + good, 40
    yield "a space behind", good[:-1] + b" \n", 40
    yield "no colon", good[1:], 40
    yield "another first byte", b";" + good[1:], 40
    yield "two colons", b":" + good, 40
    for strange in b"G/:@g`\x00\xff":
        yield f"{strange:02x}h as a digit", b":" + digits[:5] + bytes([strange]) + digits[6:] + b"\n", 40
    yield "a digit less", good[:-2] + b"\n", 40
    yield "a digit more", good[:-1] + b"0\n", 40
    yield "a pair less", good[:-3] + b"\n", 40
    yield "a pair more", good[:-1] + b"00\n", 40
    yield "nothing but a colon", b":\n", 40
    yield "a cut line", good[:9] + b"\n", 40
    yield "a count that is one less", line(address, kind, data, count=(len(data) - 1) % 256), 40
    yield "a count that is one more", line(address, kind, data, count=len(data) + 1), 40
    for off in 1, 128, 255:
        yield f"a checksum off by {off}", line(address, kind, data, sum_off=off), 41
    yield "another byte", b":" + digits[:6] + (b"0" if digits[6:7] != b"0" else b"1") + digits[7:] + b"\n", 41
    for other in 2, 3, 4, 5, 0xFF:
        yield f"type {other:02X}", line(address, other, data), 42
    for strange in 0x00 if kind == 0 else 0x20, 0x10, 0x21, 0x30, 0x50, 0x61, 0x80, 0x0120, 0x2000, 0x6000, 0xFFFF:
        yield f"at {strange:04X}h", line(strange, kind, data), 42
    yield "no data" if kind == 0 else "data", line(address, kind, b"" if kind == 0 else bytes(16)), 42
    yield "15 bytes", line(address, kind, bytes(15)), 42
    yield "17 bytes", line(address, kind, bytes(17)), 42
    yield "255 bytes", line(address, kind, bytes(255)), 42
    yield "the other type", line(address, 1 - kind, data), 42
    yield "a wrong checksum and type 02", line(address, 2, data, sum_off=1), 41
    yield "a wrong checksum and a pair more", line(address, kind, data, sum_off=1)[:-1] + b"00\n", 40
    yield "type 02 in lower case", line(address, 2, data + b"\xab").lower(), 40


def records(bytes_48):
    """The four records of an export: address, type, data."""
    return [(place, 0, bytes_48[at:at + 16]) for place, at in zip(PLACES, (0, 16, 32))] + [(0, 1, b"")]


def damaged(bytes_48):
    """Each kind of damage on each line, and in front of the lines and behind the end record."""
    lines = data_lines(bytes_48) + [END]
    for at, (good, fields) in enumerate(zip(lines, records(bytes_48))):
        for wrong, bad, answer in bad_lines(good, *fields):
            if bad is not None:
                yield f"line {at + 1}: {wrong}", b"".join(lines[:at] + [bad] + lines[at + 1:]), answer
                yield f"line {at + 1} behind the end: {wrong}", b"".join(lines + [bad]), answer
    bad = {40: END.replace(b"F", b"f"), 41: line(0, 1, b"", sum_off=1), 42: line(0x30, 0, bytes(16))}
    for one, two in itertools.product(bad, bad):
        yield f"{one} and then {two}", b"".join(lines[:2] + [bad[one]] + lines[2:] + [bad[two]]), one
    yield "no last line feed", b"".join(lines)[:-1], 40
    for last in b"\r", b" ", b"F", b"\x00":
        yield f"{last!r} in the place of the last line feed", b"".join(lines)[:-1] + last, 40
    yield "no line feed", lines[0][:-1], 40


def incomplete(bytes_48):
    """43: no line is bad, and it is not the whole."""
    lines = data_lines(bytes_48) + [END]
    yield "empty", b"", 43
    for at in range(4):
        yield f"without line {at + 1}", b"".join(lines[:at] + lines[at + 1:]), 43
        yield f"line {at + 1} alone", lines[at], 43
        yield f"line {at + 1} twice", b"".join(lines[:at] + [lines[at]] + lines[at:]), 43
        yield f"line {at + 1} again behind the end", b"".join(lines + [lines[at]]), 43
        yield f"line {at + 1} again in front", b"".join([lines[at]] + lines), 43
    for at, place in enumerate(PLACES):
        yield f"another line at {place:04X}h", b"".join(lines[:3] + [line(place, 0, bytes(16)), END]), 43
        yield f"another line in the place of line {at + 1}", b"".join(lines[:at] + [line(PLACES[(at + 1) % 3], 0, bytes(16))] + lines[at + 1:]), 43
    for at in range(3):
        yield f"the end record before line {at + 1}", b"".join(lines[:at] + [END] + lines[at:3]), 43
    yield "the text twice", b"".join(lines + lines), 43
    yield "end records alone", END * 5461, 43


def mixed(chance, bytes_48):
    """Lines of every sort, one behind the other: answers that nobody wrote down."""
    fields = records(bytes_48)
    lines = data_lines(bytes_48) + [END]
    some = []
    for _ in range(chance.randint(0, 6)):
        at = chance.randrange(4)
        bad = [text for _, text, _ in bad_lines(lines[at], *fields[at]) if text is not None]
        some.append(lines[at] if chance.random() < 0.8 else chance.choice(bad))
    return b"".join(some)


def texts(seeds):
    """What is tried, the text, and its answer or None; with answer 0 the 48 bytes too."""
    for seed in range(seeds):
        chance = random.Random(f"text {seed}")
        bytes_48 = chance.randbytes(48) if seed else bytes(range(0xA0, 0xD0))
        for at, text in enumerate(orders(bytes_48)):
            yield f"order {at} of seed {seed}", text, 0, bytes_48
        if seed < max(1, seeds // 20):
            for wrong, text, answer in itertools.chain(damaged(bytes_48), incomplete(bytes_48)):
                yield f"{wrong}, seed {seed}", text, answer, b""
        for at in range(3):
            yield f"lines {at} of seed {seed}", mixed(chance, bytes_48), None, b""
        yield f"bytes of seed {seed}", chance.randbytes(chance.randint(1, 200)), None, b""
