"""The three classes of document 01, worked out from its words and not from the crates, and sessions that are mixed anew by them."""
import struct

HEADER = struct.Struct("<HH")  # of a record: how many bytes its payload has, and its kind
LABEL, GAUGE, FENCE = "label", "gauge", "fence"
IMAGES = {1: 60, 8: 61}  # of the two kinds of image: the bytes of the payload
COUNT_SIZE = {4: 1, 7: 2}  # of the two kinds of transaction: the bytes of the read count
MOST = {4: 64, 7: 256}  # that may be read
SIZES = {kind: range(COUNT_SIZE[kind], COUNT_SIZE[kind] + MOST[kind] + 1) for kind in MOST}  # of the payload


def records(session):
    """Each record's bytes; what is cut at the end is one too."""
    at, found = 0, []
    while at < len(session):
        size = 4 + int.from_bytes(session[at:at + 2], "little") if at + 4 <= len(session) else len(session) - at
        found.append(session[at:at + size])
        at += size
    return found


def kind_of(record):
    """The kind of a record; None where it is cut."""
    if len(record) < HEADER.size:
        return None
    size, kind = HEADER.unpack_from(record)
    return kind if len(record) == HEADER.size + size else None


def image_record(image):
    """An image as a record, of the kind that has its length."""
    kind = next(kind for kind, size in IMAGES.items() if size == len(image))
    return len(image).to_bytes(2, "little") + kind.to_bytes(2, "little") + image


def accepted(line):
    """Whether a line, without its number, is that of an image that was taken."""
    return line[:2] in [[f"{kind:04x}", "0"] for kind in IMAGES]


def asked(kind, payload):
    """The read count of a transaction of its size, and the bytes of the master."""
    return int.from_bytes(payload[:COUNT_SIZE[kind]], "little"), payload[COUNT_SIZE[kind]:]


def touched(addresses, count, master):
    """What a transaction touches in the packs with these addresses, and whether it is a lock."""
    if master[:1] == b"\xcc":
        function = master[1:]
    elif master[:1] == b"\x55" and master[1:9] in addresses:
        function = master[9:]
    else:
        return [], False
    if len(function) < 2:
        return [], False
    command, first, data = function[0], function[1], function[2:]
    if command == 0x69:
        return list(range(first, min(first + count, 0x100))), False
    if command == 0x6C:
        return list(range(first, min(first + len(data), 0x100))), False
    if command in (0x48, 0xB8, 0x6A):
        blocks = [list(range(0x20, 0x30)), list(range(0x60, 0x80))]
        return next((block for block in blocks if first in block), []), command == 0x6A
    return [], False


def transaction_class(addresses, kind, payload):
    """The class of a transaction of its size after the images with these addresses."""
    count, master = asked(kind, payload)
    if count > MOST[kind]:
        return GAUGE  # 8
    places, lock = touched(addresses, count, master)
    inside = [0x20 <= place <= 0x2F for place in places]
    if any(inside):
        return LABEL if all(inside) and not lock else FENCE
    return GAUGE


def asks(record):
    """How many bytes of reply room a record takes at most."""
    kind, payload = kind_of(record), record[4:]
    count = asked(kind, payload)[0] if kind in MOST and len(payload) in SIZES[kind] else 0
    return count if count <= MOST.get(kind, 0) else 0


def mixed(classes, chance):
    """Another order of the places 0, 1, ..: fences where they were, and in each section labels and gauge events in their order."""
    order, section = [], []

    def close():
        labels = [at for at in section if classes[at] == LABEL]
        gauges = [at for at in section if classes[at] == GAUGE]
        while labels or gauges:
            take = labels if chance.random() * (len(labels) + len(gauges)) < len(labels) else gauges
            order.append(take.pop(0))
        section.clear()

    for at, name in enumerate(classes):
        if name == FENCE:
            close()
            order.append(at)
        else:
            section.append(at)
    close()
    return order
