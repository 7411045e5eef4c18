"""Dumps of packs: images of 60 bytes that are sound, and what can be wrong with one. A damage takes a dump and a source of chance and gives
the dump damaged; it does not say what mending makes of it."""
import itertools

from builder import crc, signed

BREAKS, AGING, LOCKS = 0x34, 0x3A, 0x3B


def put(dump, at, values):
    return dump[:at] + bytes(values) + dump[at + len(values):]


def sound(chance):
    """Any bytes, but for the family, its CRC, breakpoints in order, AS in range and a lock byte of 0 to 3."""
    address = b"\x3d" + chance.randbytes(6)
    points = sorted((chance.randint(-128, 40) for _ in range(3)), reverse=True)
    block_1 = chance.randbytes(28) + bytes(point % 256 for point in points) + chance.randbytes(1)
    return address + bytes([crc(address)]) + chance.randbytes(16) + block_1 + chance.randbytes(2) + bytes([chance.randint(63, 128), chance.randrange(4)])


# The four damages of the paper, that of the breakpoints in its two kinds.

def wrong_crc(dump, chance):
    return put(dump, 7, [dump[7] ^ chance.randint(1, 255)])


def aging_out_of_range(dump, chance):
    return put(dump, AGING, [chance.choice([0, 1, 62, 129, 130, 255, chance.randrange(63), chance.randint(129, 255)])])


def lock_bits(dump, chance):
    return put(dump, LOCKS, [dump[LOCKS] | 4 * chance.randint(1, 63)])


def above_40(dump, chance):
    """One to three breakpoints above 40, wherever they stand."""
    for at in chance.sample(range(3), chance.randint(1, 3)):
        dump = put(dump, BREAKS + at, [chance.choice([41, 127, chance.randint(41, 127)])])
    return dump


def out_of_order(dump, chance):
    """Three that differ, in any of the orders but the right one."""
    points = sorted(chance.sample(range(-128, 41), 3), reverse=True)
    turned = chance.choice([list(order) for order in itertools.permutations(points)][1:])
    return put(dump, BREAKS, [point % 256 for point in turned])


DAMAGES = [wrong_crc, aging_out_of_range, lock_bits, above_40, out_of_order]


def damaged(chance, damages):
    """A sound dump with these damages. One above 40 comes after a wrong order, which it may undo."""
    dump = sound(chance)
    for damage in sorted(damages, key=lambda damage: damage is above_40):
        dump = damage(dump, chance)
    return dump


def any_bytes(chance):
    """The family, and then whatever comes: breakpoints near 40 and near each other are tried more often."""
    dump = b"\x3d" + chance.randbytes(59)
    near = [40, 41, 39, 0, 127, 128, 255, dump[BREAKS]]
    return put(dump, BREAKS, [chance.choice([*near, chance.randrange(256)]) for _ in range(3)])


def acceptable(dump):
    """Whether a session accepts it: what the papers ask of an image."""
    low, middle, high = (signed(dump[BREAKS + at]) for at in (2, 1, 0))
    return len(dump) == 60 and dump[0] == 0x3D and dump[7] == crc(dump[:7]) and dump[LOCKS] <= 3 and low <= middle <= high <= 40
