"""The proved gauge as a library, by ctypes on x86-64: include/trovimbe.h for Python, under the same names. This module is plain and decides nothing.

`./trovimbe library` builds what is loaded here. A state is a bytearray that the caller keeps; what a name means, and the answers, stand in the header.

    import trovimbe_library as gauge
    state = gauge.trovimbe_start()
    answer, reply = gauge.trovimbe_record(state, gauge.trovimbe_make_image(image))
    answer, reply = gauge.trovimbe_record(state, gauge.trovimbe_make_reading(772, 24))
    shown = gauge.trovimbe_map(state)
    print(gauge.trovimbe_volt_v(shown), gauge.trovimbe_acr_mah(shown))
"""
import ctypes
import functools
import os
import struct
from typing import Callable, Tuple

TROVIMBE_STATE_SIZE, TROVIMBE_TRAY_SIZE, TROVIMBE_IMAGE_SIZE, TROVIMBE_CAMERA_SIZE = 172, 1363, 60, 61
TROVIMBE_RECORD_MAX, TROVIMBE_REPLY_MAX, TROVIMBE_MAP_SIZE = 262, 256, 256
TROVIMBE_DS2781, TROVIMBE_DS2775 = 1, 8
TROVIMBE_DONE, TROVIMBE_CUT, TROVIMBE_KIND, TROVIMBE_LENGTH, TROVIMBE_ORDER, TROVIMBE_ADDRESS, TROVIMBE_LOCKS = 0, 2, 3, 4, 5, 6, 7
TROVIMBE_COUNT, TROVIMBE_ROOM, TROVIMBE_BREAKPOINTS, TROVIMBE_TICKS, TROVIMBE_TWICE = 8, 9, 10, 11, 12
TROVIMBE_STATE_LENGTH, TROVIMBE_STATE_VERSION, TROVIMBE_NO_STATE, TROVIMBE_STATE_ROOM, TROVIMBE_NO_HEADER = 50, 51, 52, 53, 54
LIBRARY = os.path.join(os.path.dirname(os.path.dirname(os.path.abspath(__file__))), "target", "staticlib", "libtrovimbe.so")


class Result(ctypes.Structure):
    """`trovimbe_result`: the answer, and how many bytes were written to the room."""
    _fields_ = [("answer", ctypes.c_uint8), ("count", ctypes.c_size_t)]


class Refused(Exception):
    """A call that was to hand back something was refused; its number is the answer."""

    def __init__(self, answer: int) -> None:
        super().__init__(f"the library refused with {answer}")
        self.answer = answer


@functools.lru_cache(maxsize=None)
def loaded() -> ctypes.CDLL:
    """The library; an OSError says that it is not built, or not for this machine, and what to do."""
    try:
        library = ctypes.CDLL(LIBRARY)
    except OSError as fault:
        raise OSError(f"{fault}: `./trovimbe library` builds it, for programs of x86-64") from fault
    lent = [ctypes.c_void_p, ctypes.c_size_t]
    library.trovimbe_start.argtypes, library.trovimbe_start.restype = lent, ctypes.c_uint8
    library.trovimbe_record.argtypes, library.trovimbe_record.restype = lent * 3, Result
    library.trovimbe_image.argtypes, library.trovimbe_image.restype = lent * 2, Result
    library.trovimbe_tray_start.argtypes, library.trovimbe_tray_start.restype = lent, ctypes.c_uint8
    library.trovimbe_tray_record.argtypes, library.trovimbe_tray_record.restype = lent * 3, Result
    library.trovimbe_tray_image.argtypes, library.trovimbe_tray_image.restype = [*lent, ctypes.c_uint8, *lent], Result
    return library


def _lent(room: bytearray) -> "ctypes.Array[ctypes.c_uint8]":
    return (ctypes.c_uint8 * len(room)).from_buffer(room)


def _read(given: bytes) -> "ctypes.Array[ctypes.c_uint8]":
    return (ctypes.c_uint8 * len(given)).from_buffer_copy(given)


# ---- the entries

def trovimbe_start() -> bytearray:
    """The state of a gauge without a pack."""
    state = bytearray(TROVIMBE_STATE_SIZE)
    answer = int(loaded().trovimbe_start(_lent(state), len(state)))
    if answer:
        raise Refused(answer)
    return state


def trovimbe_record(state: bytearray, record: bytes, room: int = TROVIMBE_REPLY_MAX) -> Tuple[int, bytes]:
    """Does a record in a state, which is changed in its place: its answer and its reply."""
    reply = bytearray(room)
    done: Result = loaded().trovimbe_record(_lent(state), len(state), _read(record), len(record), _lent(reply), len(reply))
    return int(done.answer), bytes(reply[:done.count])


def trovimbe_image(state: bytes, room: int = TROVIMBE_CAMERA_SIZE) -> Tuple[int, bytes]:
    """The answer, and the image of the pack as it is now."""
    image = bytearray(room)
    done: Result = loaded().trovimbe_image(_read(bytes(state)), len(state), _lent(image), len(image))
    return int(done.answer), bytes(image[:done.count])


def trovimbe_tray_start() -> bytearray:
    """The state of a tray without a pack."""
    state = bytearray(TROVIMBE_TRAY_SIZE)
    answer = int(loaded().trovimbe_tray_start(_lent(state), len(state)))
    if answer:
        raise Refused(answer)
    return state


def trovimbe_tray_record(state: bytearray, record: bytes, room: int = TROVIMBE_REPLY_MAX) -> Tuple[int, bytes]:
    """Does a record in a tray, which is changed in its place: its answer and its reply."""
    reply = bytearray(room)
    done: Result = loaded().trovimbe_tray_record(_lent(state), len(state), _read(record), len(record), _lent(reply), len(reply))
    return int(done.answer), bytes(reply[:done.count])


def trovimbe_tray_image(state: bytes, slot: int, room: int = TROVIMBE_CAMERA_SIZE) -> Tuple[int, bytes]:
    """The answer, and the image of the pack in a slot as it is now."""
    image = bytearray(room)
    done: Result = loaded().trovimbe_tray_image(_read(bytes(state)), len(state), bytes([slot])[0], _lent(image), len(image))
    return int(done.answer), bytes(image[:done.count])


# ---- records

def trovimbe_make(kind: int, payload: bytes) -> bytes:
    return struct.pack("<HH", len(payload), kind) + payload


def trovimbe_make_image(image: bytes) -> bytes:
    return trovimbe_make(8 if len(image) == TROVIMBE_CAMERA_SIZE else 1, image)


def trovimbe_make_reading(volt: int, temp: int) -> bytes:
    return trovimbe_make(2, struct.pack("<ii", volt, temp))


def trovimbe_make_conversion(current: int) -> bytes:
    return trovimbe_make(3, struct.pack("<i", current))


def trovimbe_make_sample(current: int, tick: int) -> bytes:
    return trovimbe_make(6, struct.pack("<iH", current, tick % 65536))


def trovimbe_make_power_on() -> bytes:
    return trovimbe_make(5, b"")


def trovimbe_make_transaction(count: int, master: bytes) -> bytes:
    return trovimbe_make(4, bytes([count]) + master)


def trovimbe_make_long_transaction(count: int, master: bytes) -> bytes:
    return trovimbe_make(7, struct.pack("<H", count) + master)


def trovimbe_make_slot_reading(slot: int, volt: int, temp: int) -> bytes:
    return trovimbe_make(18, struct.pack("<Bii", slot, volt, temp))


def trovimbe_make_slot_conversion(slot: int, current: int) -> bytes:
    return trovimbe_make(19, struct.pack("<Bi", slot, current))


def trovimbe_make_slot_sample(slot: int, current: int, tick: int) -> bytes:
    return trovimbe_make(22, struct.pack("<BiH", slot, current, tick % 65536))


def trovimbe_make_slot_power_on(slot: int) -> bytes:
    return trovimbe_make(21, bytes([slot]))


def trovimbe_make_match_read(net_address: bytes, address: int, count: int) -> bytes:
    return trovimbe_make_long_transaction(count, b"\x55" + net_address[:8] + bytes([0x69, address]))


def trovimbe_make_command(count: int, command: int, address: int, data: bytes = b"") -> bytes:
    return trovimbe_make_long_transaction(count, bytes([0xCC, command, address]) + data)


def trovimbe_make_read(address: int, count: int) -> bytes:
    return trovimbe_make_command(count, 0x69, address)


def trovimbe_make_write(address: int, data: bytes) -> bytes:
    return trovimbe_make_command(0, 0x6C, address, data)


def trovimbe_make_copy(address: int) -> bytes:
    return trovimbe_make_command(0, 0x48, address)


def trovimbe_make_recall(address: int) -> bytes:
    return trovimbe_make_command(0, 0xB8, address)


def trovimbe_make_lock(address: int) -> bytes:
    return trovimbe_make_command(0, 0x6A, address)


def trovimbe_make_net_address(rnaop: bool = False) -> bytes:
    return trovimbe_make_transaction(8, b"\x39" if rnaop else b"\x33")


# ---- the map

def trovimbe_map(state: bytearray) -> bytes:
    """All registers as they are, 256 bytes."""
    answer, shown = trovimbe_record(state, trovimbe_make_read(0x00, TROVIMBE_MAP_SIZE))
    if answer:
        raise Refused(answer)
    return shown


def trovimbe_tray_map(state: bytearray, net_address: bytes) -> bytes:
    """All registers of the pack of a tray that has this net address."""
    answer, shown = trovimbe_tray_record(state, trovimbe_make_match_read(net_address, 0x00, TROVIMBE_MAP_SIZE))
    if answer:
        raise Refused(answer)
    return shown


Counts = Callable[[bytes], int]
Amounts = Callable[[bytes], float]


def _at(address: int, size: int = 1, signed: bool = False, weight: int = 1, share: int = 1) -> Counts:
    """A register in counts; bits below a count, which a gauge shows as 0, are left away, so it is rounded down, as in the header."""
    return lambda shown: int.from_bytes(shown[address:address + size], "big", signed=signed) * weight // share


def _bit(address: int, bit: int) -> Counts:
    return lambda shown: shown[address] >> bit & 1


trovimbe_chgtf, trovimbe_aef, trovimbe_sef, trovimbe_learnf, trovimbe_porf = (_bit(0x01, bit) for bit in (7, 6, 5, 4, 1))
trovimbe_raac, trovimbe_rsac, trovimbe_rarc, trovimbe_rsrc = _at(0x02, 2), _at(0x04, 2), _at(0x06), _at(0x07)
trovimbe_iavg, trovimbe_temp, trovimbe_volt, trovimbe_current = (
    _at(0x08, 2, True), _at(0x0A, 2, True, share=32), _at(0x0C, 2, share=32), _at(0x0E, 2, True))
trovimbe_acr, trovimbe_acrl, trovimbe_as = _at(0x10, 2), _at(0x12, 2, share=16), _at(0x14)
trovimbe_full, trovimbe_ae, trovimbe_se, trovimbe_cycles = _at(0x16, 2), _at(0x18, 2), _at(0x1A, 2), _at(0x1E)
trovimbe_lock, trovimbe_bl1, trovimbe_bl0 = (_bit(0x1F, bit) for bit in (6, 1, 0))
trovimbe_nben, trovimbe_rnaop = _bit(0x60, 7), _bit(0x60, 4)
trovimbe_ab, trovimbe_ac, trovimbe_rsnsp, trovimbe_full40 = _at(0x61, 1, True), _at(0x62, 2), _at(0x69), _at(0x6A, 2)
trovimbe_vchg, trovimbe_imin, trovimbe_vae, trovimbe_iae, trovimbe_ae40 = (
    _at(0x64, weight=4), _at(0x65, weight=32), _at(0x66, weight=4), _at(0x67, weight=128), _at(0x68, weight=16))
trovimbe_rsgain, trovimbe_rstc, trovimbe_cob = _at(0x78, 2), _at(0x7A), _at(0x7B, 1, True)
trovimbe_tbp34, trovimbe_tbp23, trovimbe_tbp12 = (_at(address, 1, True) for address in (0x7C, 0x7D, 0x7E))


def trovimbe_label(shown: bytes) -> bytes:
    return shown[0x20:0x30]


def trovimbe_full_slopes(shown: bytes) -> bytes:
    return shown[0x6C:0x70]


def trovimbe_ae_slopes(shown: bytes) -> bytes:
    return shown[0x70:0x74]


def trovimbe_se_slopes(shown: bytes) -> bytes:
    return shown[0x74:0x78]


# ---- in units, by the pack's sense resistor

def _ma(counts: Counts) -> Amounts:
    return lambda shown: counts(shown) * 0.0015625 * trovimbe_rsnsp(shown)


def _mah(counts: Callable[[bytes], float]) -> Amounts:
    return lambda shown: counts(shown) * 0.00625 * trovimbe_rsnsp(shown)


def _times(counts: Counts, weight: float) -> Amounts:
    return lambda shown: counts(shown) * weight


def _v(counts: Counts) -> Callable[..., float]:
    return lambda shown, chip=TROVIMBE_DS2781: counts(shown) * (0.0048828 if chip == TROVIMBE_DS2775 else 0.00976)


trovimbe_raac_mah, trovimbe_rsac_mah, trovimbe_temp_c = _times(trovimbe_raac, 1.6), _times(trovimbe_rsac, 1.6), _times(trovimbe_temp, 0.125)
trovimbe_volt_v, trovimbe_vchg_v, trovimbe_vae_v = _v(trovimbe_volt), _v(trovimbe_vchg), _v(trovimbe_vae)
trovimbe_iavg_ma, trovimbe_current_ma, trovimbe_imin_ma, trovimbe_iae_ma, trovimbe_ab_ma, trovimbe_cob_ma = map(
    _ma, (trovimbe_iavg, trovimbe_current, trovimbe_imin, trovimbe_iae, trovimbe_ab, trovimbe_cob))
trovimbe_acr_mah, trovimbe_ac_mah, trovimbe_full40_mah = map(
    _mah, (lambda shown: trovimbe_acr(shown) + trovimbe_acrl(shown) / 4096, trovimbe_ac, trovimbe_full40))
trovimbe_as_percent, trovimbe_full_percent, trovimbe_ae_percent, trovimbe_se_percent, trovimbe_ae40_percent = (
    _times(trovimbe_as, 100 / 128), *(_times(counts, 100 / 16384) for counts in (trovimbe_full, trovimbe_ae, trovimbe_se, trovimbe_ae40)))


def trovimbe_rsns_mohm(shown: bytes) -> float:
    return 1000 / trovimbe_rsnsp(shown) if trovimbe_rsnsp(shown) else 0.0
