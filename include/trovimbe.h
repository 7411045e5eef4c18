/* trovimbe.h: a proved battery gauge (DS2781, DS2775) for programs in C11 and C++17. docs/LIBRARY.md says how to link it and what is proved.
 *
 * The gauge is a function of records. You keep its state, as bytes; each call takes a state, does one record in it, and leaves the state after it
 * in its place. What a record is, and what it does, is docs/FORMATS.md; the helpers below make each kind and read each register.
 *
 *     uint8_t state[TROVIMBE_STATE_SIZE], record[TROVIMBE_RECORD_MAX], map[TROVIMBE_MAP_SIZE];
 *     trovimbe_start(state, sizeof state);
 *     trovimbe_record(state, sizeof state, record, trovimbe_make_image(record, sizeof record, image, sizeof image), NULL, 0);
 *     trovimbe_record(state, sizeof state, record, trovimbe_make_reading(record, sizeof record, 772, 24), NULL, 0);
 *     if (trovimbe_map(state, sizeof state, map) == TROVIMBE_DONE)
 *         printf("%.2f V, %.1f mAh\n", trovimbe_volt_v(map, TROVIMBE_DS2781), trovimbe_acr_mah(map));
 *
 * Answers      Each call answers a number of `enum trovimbe_answer`. 0 is done. Anything else is a refusal, and then every byte that you lent is as
 *              it was: the state, the room for the reply, all of it.
 * Lifetimes    Nothing is kept between calls but what stands in your state: no memory is taken, no file is opened, no pointer is held. A state may be
 *              copied, moved, written to a file and read again, also by another process; there is nothing to free. Bytes that are no
 *              well-formed state are refused (50 to 52). A state has no checksum: one that is damaged and still well-formed is taken for what it says,
 *              so keep it where damage is seen.
 * Threads      There are no variables behind your back. Any number of threads may call at once, each with buffers of its own; of calls on one
 *              state at most one may run at a time.
 * Buffers      A pointer and the number of bytes that you lend there. No byte outside is read or written, whatever stands in them. A pointer whose
 *              number is 0 may be null. The buffers of one call must not overlap.
 * Stack        Some 4 KB, for a pack and for a tray.
 * Units        A count of current is 1.5625 uV across the sense resistor, above 0 while the pack is charged; a conversion is due each 3600/1024 s.
 *              A count of temperature is 1/8 degree, of ACR 6.25 uVh across the sense resistor. A count of voltage is 9.76 mV of the whole stack in a
 *              DS2781. In a DS2775 it is 4.8828 mV of one cell: that chip measures both of its cells and holds their average against VCHG and VAE. A
 *              reading has one voltage, so hand over that average; what is shown, VCHG and VAE are volts per cell then, half of the pack's.
 *
 * The entries are proved; the helpers below them, which are `static inline`, are plain C. */
#ifndef TROVIMBE_H
#define TROVIMBE_H

#include <stddef.h>
#include <stdint.h>
#include <string.h>

#ifdef __cplusplus
extern "C" {
#endif

/* Sizes, in bytes. */
#define TROVIMBE_STATE_SIZE 172  /* the state of one pack */
#define TROVIMBE_TRAY_SIZE 1363  /* the state of a tray: up to eight packs on one line */
#define TROVIMBE_IMAGE_SIZE 60   /* the image of a DS2781 */
#define TROVIMBE_CAMERA_SIZE 61  /* the image of a DS2775 */
#define TROVIMBE_RECORD_MAX 262  /* the longest record that is not refused for its length */
#define TROVIMBE_REPLY_MAX 256   /* the longest reply: a room of so many bytes is never too small */
#define TROVIMBE_MAP_SIZE 256    /* all registers */

enum trovimbe_answer {
    TROVIMBE_DONE = 0,
    TROVIMBE_CUT = 2,           /* the payload goes past the bytes that were handed over */
    TROVIMBE_KIND = 3,          /* the kind is unknown */
    TROVIMBE_LENGTH = 4,        /* the payload has not the length of its kind */
    TROVIMBE_ORDER = 5,         /* an event before an image was accepted, or an image after one was; in a tray also a slot without a pack */
    TROVIMBE_ADDRESS = 6,       /* image: the address has another family, or its CRC is wrong */
    TROVIMBE_LOCKS = 7,         /* image: the lock byte is above 3 */
    TROVIMBE_COUNT = 8,         /* transaction: more bytes are to be read than its kind allows */
    TROVIMBE_ROOM = 9,          /* the room is too small, for the reply or for the image */
    TROVIMBE_BREAKPOINTS = 10,  /* image: not TBP12 <= TBP23 <= TBP34 <= 40 */
    TROVIMBE_TICKS = 11,        /* sample: 0 ticks or more than 64 since the last one */
    TROVIMBE_TWICE = 12,        /* tray, image: a pack with this address is there already */
    TROVIMBE_STATE_LENGTH = 50, /* a state has another number of bytes */
    TROVIMBE_STATE_VERSION = 51, /* the bytes are as many, and the state is of another version of the library */
    TROVIMBE_NO_STATE = 52,     /* the bytes are no state: a flag is neither 0 nor 1, or a number is out of its bounds */
    TROVIMBE_STATE_ROOM = 53,   /* start: the room is not that of a state */
    TROVIMBE_NO_HEADER = 54     /* fewer than the 4 bytes of a record's header were handed over */
};

/* What a call answers, and how many bytes it wrote at the front of the room for the reply or the image. */
typedef struct trovimbe_result {
    uint8_t answer;
    size_t count;
} trovimbe_result;

/* ---- the entries, which are proved */

/* Writes the state of a gauge without a pack. 53 where size is not TROVIMBE_STATE_SIZE. */
uint8_t trovimbe_start(uint8_t *state, size_t size);

/* Does the record at the front of n bytes; what stands behind it is not looked at (trovimbe_record_size says where the next begins). The reply is at
 * the front of `reply`, `count` bytes. In this order: 54, then 50 to 52, then the answers of the record. */
trovimbe_result trovimbe_record(uint8_t *state, size_t size, const uint8_t *record, size_t n, uint8_t *reply, size_t room);

/* Writes the image of the pack as it is now: what outlives a loss of power, 60 bytes, or 61 of a DS2775. 50 to 52; 5 before an image was accepted; 9
 * where the room is too small. The state is only read. */
trovimbe_result trovimbe_image(const uint8_t *state, size_t size, uint8_t *image, size_t room);

/* The same of a tray: a state of TROVIMBE_TRAY_SIZE bytes, the records of a tray (its images come first, its events name a slot), and the image of the
 * pack in a slot, 5 where there is none. */
uint8_t trovimbe_tray_start(uint8_t *state, size_t size);
trovimbe_result trovimbe_tray_record(uint8_t *state, size_t size, const uint8_t *record, size_t n, uint8_t *reply, size_t room);
trovimbe_result trovimbe_tray_image(const uint8_t *state, size_t size, uint8_t slot, uint8_t *image, size_t room);

#ifdef __cplusplus
}
#endif

/* ---- what an answer means */

static inline const char *trovimbe_meaning(uint8_t answer) {
    switch (answer) {
    case TROVIMBE_DONE: return "done";
    case TROVIMBE_CUT: return "the record is cut";
    case TROVIMBE_KIND: return "unknown kind";
    case TROVIMBE_LENGTH: return "the payload has not the length of its kind";
    case TROVIMBE_ORDER: return "no image was accepted yet, or one was already";
    case TROVIMBE_ADDRESS: return "the family or the CRC of the address is wrong";
    case TROVIMBE_LOCKS: return "the lock byte is above 3";
    case TROVIMBE_COUNT: return "the read count is too large";
    case TROVIMBE_ROOM: return "the room is too small";
    case TROVIMBE_BREAKPOINTS: return "the breakpoints are not in order, or above 40";
    case TROVIMBE_TICKS: return "0 ticks or more than 64 since the last sample";
    case TROVIMBE_TWICE: return "a pack with this address is in the tray";
    case TROVIMBE_STATE_LENGTH: return "the state has another number of bytes";
    case TROVIMBE_STATE_VERSION: return "the state is of another version";
    case TROVIMBE_NO_STATE: return "the bytes are no state";
    case TROVIMBE_STATE_ROOM: return "the room is not that of a state";
    case TROVIMBE_NO_HEADER: return "the record is too short for its header";
    default: return "no answer of this library";
    }
}

/* ---- records. Each helper writes a record to `out` and returns how many bytes it has; 0, and nothing is written, where `room` is too small. */

static inline size_t trovimbe_make(uint8_t *out, size_t room, unsigned kind, const uint8_t *head, size_t heads, const uint8_t *payload, size_t n) {
    if (n > 65535 - heads || room < 4 + heads + n) return 0; /* in this order: no sum wraps, however large n is */
    out[0] = (uint8_t)((heads + n) & 0xFF);
    out[1] = (uint8_t)((heads + n) >> 8);
    out[2] = (uint8_t)(kind & 0xFF);
    out[3] = (uint8_t)(kind >> 8 & 0xFF);
    if (heads) memcpy(out + 4, head, heads);
    if (n) memcpy(out + 4 + heads, payload, n);
    return 4 + heads + n;
}

/* How many bytes the record at the front of n bytes has, as its header says; 0 where there is no header. */
static inline size_t trovimbe_record_size(const uint8_t *record, size_t n) {
    return n < 4 ? 0 : 4 + (size_t)record[0] + 256 * (size_t)record[1];
}

/* A number of four bytes, low byte first. */
static inline void trovimbe_put32(uint8_t *out, int32_t value) {
    uint32_t bits = (uint32_t)value;
    for (int i = 0; i < 4; i++) out[i] = (uint8_t)(bits >> 8 * i & 0xFF);
}

/* The pack's image, 60 bytes; 61 of a DS2775. */
static inline size_t trovimbe_make_image(uint8_t *out, size_t room, const uint8_t *image, size_t n) {
    return trovimbe_make(out, room, n == TROVIMBE_CAMERA_SIZE ? 8 : 1, NULL, 0, image, n);
}

/* A measured voltage and temperature, in counts. */
static inline size_t trovimbe_make_reading(uint8_t *out, size_t room, int32_t volt, int32_t temp) {
    uint8_t payload[8];
    trovimbe_put32(payload, volt);
    trovimbe_put32(payload + 4, temp);
    return trovimbe_make(out, room, 2, NULL, 0, payload, sizeof payload);
}

/* A measured current, in counts: one is due each 3600/1024 s. */
static inline size_t trovimbe_make_conversion(uint8_t *out, size_t room, int32_t current) {
    uint8_t payload[4];
    trovimbe_put32(payload, current);
    return trovimbe_make(out, room, 3, NULL, 0, payload, sizeof payload);
}

/* A current that stands for as many conversions as ticks of 3600/1024 s have passed since the last sample, 1 to 64. */
static inline size_t trovimbe_make_sample(uint8_t *out, size_t room, int32_t current, uint16_t tick) {
    uint8_t payload[6];
    trovimbe_put32(payload, current);
    payload[4] = (uint8_t)(tick & 0xFF);
    payload[5] = (uint8_t)(tick >> 8);
    return trovimbe_make(out, room, 6, NULL, 0, payload, sizeof payload);
}

static inline size_t trovimbe_make_power_on(uint8_t *out, size_t room) { return trovimbe_make(out, room, 5, NULL, 0, NULL, 0); }

/* What passes on the 1-Wire bus from one reset to the next: the n bytes of the master, and how many are read then. Of kind 4 both are at most 64. */
static inline size_t trovimbe_make_transaction(uint8_t *out, size_t room, uint8_t count, const uint8_t *master, size_t n) {
    return trovimbe_make(out, room, 4, &count, 1, master, n);
}

/* The same of kind 7: both are at most 256. */
static inline size_t trovimbe_make_long_transaction(uint8_t *out, size_t room, uint16_t count, const uint8_t *master, size_t n) {
    uint8_t counts[2] = {(uint8_t)(count & 0xFF), (uint8_t)(count >> 8)};
    return trovimbe_make(out, room, 7, counts, 2, master, n);
}

/* Events of the pack in a slot of a tray, 0 to 7: what the same without a slot is to one pack. Images and transactions are as above. */
static inline size_t trovimbe_make_slot_reading(uint8_t *out, size_t room, uint8_t slot, int32_t volt, int32_t temp) {
    uint8_t payload[8];
    trovimbe_put32(payload, volt);
    trovimbe_put32(payload + 4, temp);
    return trovimbe_make(out, room, 18, &slot, 1, payload, sizeof payload);
}
static inline size_t trovimbe_make_slot_conversion(uint8_t *out, size_t room, uint8_t slot, int32_t current) {
    uint8_t payload[4];
    trovimbe_put32(payload, current);
    return trovimbe_make(out, room, 19, &slot, 1, payload, sizeof payload);
}
static inline size_t trovimbe_make_slot_sample(uint8_t *out, size_t room, uint8_t slot, int32_t current, uint16_t tick) {
    uint8_t payload[6];
    trovimbe_put32(payload, current);
    payload[4] = (uint8_t)(tick & 0xFF);
    payload[5] = (uint8_t)(tick >> 8);
    return trovimbe_make(out, room, 22, &slot, 1, payload, sizeof payload);
}
static inline size_t trovimbe_make_slot_power_on(uint8_t *out, size_t room, uint8_t slot) { return trovimbe_make(out, room, 21, &slot, 1, NULL, 0); }

/* A read that one pack of a tray answers: Match (55h), its net address, 8 bytes, and from where. */
static inline size_t trovimbe_make_match_read(uint8_t *out, size_t room, const uint8_t *net_address, uint8_t address, uint16_t count) {
    uint8_t head[13] = {(uint8_t)(count & 0xFF), (uint8_t)(count >> 8), 0x55};
    memcpy(head + 3, net_address, 8);
    head[11] = 0x69;
    head[12] = address;
    return trovimbe_make(out, room, 7, head, sizeof head, NULL, 0);
}

/* Commands that any pack takes: Skip (CCh), the command and an address. */
static inline size_t trovimbe_make_command(uint8_t *out, size_t room, uint16_t count, uint8_t command, uint8_t address, const uint8_t *data, size_t n) {
    uint8_t head[5] = {(uint8_t)(count & 0xFF), (uint8_t)(count >> 8), 0xCC, command, address};
    return trovimbe_make(out, room, 7, head, sizeof head, data, n);
}

static inline size_t trovimbe_make_read(uint8_t *out, size_t room, uint8_t address, uint16_t count) {
    return trovimbe_make_command(out, room, count, 0x69, address, NULL, 0);
}
static inline size_t trovimbe_make_write(uint8_t *out, size_t room, uint8_t address, const uint8_t *data, size_t n) {
    return trovimbe_make_command(out, room, 0, 0x6C, address, data, n);
}
/* Shadow to EEPROM, EEPROM to shadow, and lock for good, of the block that has the address. A lock does nothing unless bit 6 of 1Fh was set by a write. */
static inline size_t trovimbe_make_copy(uint8_t *out, size_t room, uint8_t address) {
    return trovimbe_make_command(out, room, 0, 0x48, address, NULL, 0);
}
static inline size_t trovimbe_make_recall(uint8_t *out, size_t room, uint8_t address) {
    return trovimbe_make_command(out, room, 0, 0xB8, address, NULL, 0);
}
static inline size_t trovimbe_make_lock(uint8_t *out, size_t room, uint8_t address) {
    return trovimbe_make_command(out, room, 0, 0x6A, address, NULL, 0);
}
/* The pack's address, 8 bytes of reply; where RNAOP of CONTROL is set the byte is 39h. */
static inline size_t trovimbe_make_net_address(uint8_t *out, size_t room, int rnaop) {
    uint8_t master = rnaop ? 0x39 : 0x33;
    return trovimbe_make_transaction(out, room, 8, &master, 1);
}

/* ---- the map: all registers as they are, by a read that changes nothing */

static inline uint8_t trovimbe_map(uint8_t *state, size_t size, uint8_t map[TROVIMBE_MAP_SIZE]) {
    uint8_t record[16];
    size_t n = trovimbe_make_read(record, sizeof record, 0x00, TROVIMBE_MAP_SIZE);
    return trovimbe_record(state, size, record, n, map, TROVIMBE_MAP_SIZE).answer;
}

/* The map of the pack of a tray that has this net address; FFh everywhere where none has it. As any transaction it closes the tray: no image comes after. */
static inline uint8_t trovimbe_tray_map(uint8_t *state, size_t size, const uint8_t *net_address, uint8_t map[TROVIMBE_MAP_SIZE]) {
    uint8_t record[24];
    size_t n = trovimbe_make_match_read(record, sizeof record, net_address, 0x00, TROVIMBE_MAP_SIZE);
    return trovimbe_tray_record(state, size, record, n, map, TROVIMBE_MAP_SIZE).answer;
}

/* ---- registers in counts. A map has them high byte first. */

static inline unsigned trovimbe_u16(const uint8_t *map, unsigned at) { return 256u * map[at] + map[at + 1]; }
static inline int trovimbe_s16(const uint8_t *map, unsigned at) { return (int)trovimbe_u16(map, at) - (map[at] & 0x80 ? 65536 : 0); }
static inline int trovimbe_s8(const uint8_t *map, unsigned at) { return (int)map[at] - (map[at] & 0x80 ? 256 : 0); }

/* STATUS, 01h */
static inline int trovimbe_chgtf(const uint8_t *map) { return map[0x01] >> 7 & 1; }  /* full */
static inline int trovimbe_aef(const uint8_t *map) { return map[0x01] >> 6 & 1; }    /* empty under load */
static inline int trovimbe_sef(const uint8_t *map) { return map[0x01] >> 5 & 1; }    /* empty at rest */
static inline int trovimbe_learnf(const uint8_t *map) { return map[0x01] >> 4 & 1; } /* learning the full charge */
static inline int trovimbe_porf(const uint8_t *map) { return map[0x01] >> 1 & 1; }   /* power-on */
/* results of the last reading */
static inline unsigned trovimbe_raac(const uint8_t *map) { return trovimbe_u16(map, 0x02); } /* 1.6 mAh each */
static inline unsigned trovimbe_rsac(const uint8_t *map) { return trovimbe_u16(map, 0x04); } /* 1.6 mAh each */
static inline unsigned trovimbe_rarc(const uint8_t *map) { return map[0x06]; }               /* per cent */
static inline unsigned trovimbe_rsrc(const uint8_t *map) { return map[0x07]; }               /* per cent */
/* measured */
static inline int trovimbe_iavg(const uint8_t *map) { return trovimbe_s16(map, 0x08); }
/* TEMP and VOLT are counts x 32. What stands in their low five bits, as in the FFh of a pack that is not there, is left away: rounded down. */
static inline int trovimbe_temp(const uint8_t *map) { return (trovimbe_s16(map, 0x0A) - (map[0x0B] & 31)) / 32; }
static inline unsigned trovimbe_volt(const uint8_t *map) { return trovimbe_u16(map, 0x0C) / 32; }
static inline int trovimbe_current(const uint8_t *map) { return trovimbe_s16(map, 0x0E); }
/* counted */
static inline unsigned trovimbe_acr(const uint8_t *map) { return trovimbe_u16(map, 0x10); }
static inline unsigned trovimbe_acrl(const uint8_t *map) { return trovimbe_u16(map, 0x12) / 16; } /* 4096ths of a count of ACR */
static inline unsigned trovimbe_as(const uint8_t *map) { return map[0x14]; }                      /* 128ths */
static inline unsigned trovimbe_full(const uint8_t *map) { return trovimbe_u16(map, 0x16); }      /* 2^-14 of Full40, as AE and SE */
static inline unsigned trovimbe_ae(const uint8_t *map) { return trovimbe_u16(map, 0x18); }
static inline unsigned trovimbe_se(const uint8_t *map) { return trovimbe_u16(map, 0x1A); }
static inline unsigned trovimbe_cycles(const uint8_t *map) { return map[0x1E]; } /* of a DS2775, in steps of two cycles; 255 of a DS2781 */
/* EEPROM, 1Fh */
static inline int trovimbe_lock(const uint8_t *map) { return map[0x1F] >> 6 & 1; }
static inline int trovimbe_bl1(const uint8_t *map) { return map[0x1F] >> 1 & 1; }
static inline int trovimbe_bl0(const uint8_t *map) { return map[0x1F] & 1; }
/* block 0: 16 bytes for the user */
static inline const uint8_t *trovimbe_label(const uint8_t *map) { return map + 0x20; }
/* block 1: the parameters */
static inline int trovimbe_nben(const uint8_t *map) { return map[0x60] >> 7 & 1; }
static inline int trovimbe_rnaop(const uint8_t *map) { return map[0x60] >> 4 & 1; }
static inline int trovimbe_ab(const uint8_t *map) { return trovimbe_s8(map, 0x61); }
static inline unsigned trovimbe_ac(const uint8_t *map) { return trovimbe_u16(map, 0x62); }
static inline unsigned trovimbe_vchg(const uint8_t *map) { return 4u * map[0x64]; }   /* counts of voltage */
static inline unsigned trovimbe_imin(const uint8_t *map) { return 32u * map[0x65]; }  /* counts of current */
static inline unsigned trovimbe_vae(const uint8_t *map) { return 4u * map[0x66]; }    /* counts of voltage */
static inline unsigned trovimbe_iae(const uint8_t *map) { return 128u * map[0x67]; }  /* counts of current */
static inline unsigned trovimbe_ae40(const uint8_t *map) { return 16u * map[0x68]; }  /* 2^-14 of Full40 */
static inline unsigned trovimbe_rsnsp(const uint8_t *map) { return map[0x69]; }       /* 1/Ohm; 0: the pack does not say */
static inline unsigned trovimbe_full40(const uint8_t *map) { return trovimbe_u16(map, 0x6A); }
static inline const uint8_t *trovimbe_full_slopes(const uint8_t *map) { return map + 0x6C; } /* 4, of segments 4, 3, 2, 1 */
static inline const uint8_t *trovimbe_ae_slopes(const uint8_t *map) { return map + 0x70; }
static inline const uint8_t *trovimbe_se_slopes(const uint8_t *map) { return map + 0x74; }
static inline unsigned trovimbe_rsgain(const uint8_t *map) { return trovimbe_u16(map, 0x78); }
static inline unsigned trovimbe_rstc(const uint8_t *map) { return map[0x7A]; }
static inline int trovimbe_cob(const uint8_t *map) { return trovimbe_s8(map, 0x7B); }
static inline int trovimbe_tbp34(const uint8_t *map) { return trovimbe_s8(map, 0x7C); } /* degrees C */
static inline int trovimbe_tbp23(const uint8_t *map) { return trovimbe_s8(map, 0x7D); }
static inline int trovimbe_tbp12(const uint8_t *map) { return trovimbe_s8(map, 0x7E); }

/* ---- registers in units. A current or a charge goes by the sense resistor that the pack states, and is 0 where RSNSP is 0. */

enum trovimbe_chip { TROVIMBE_DS2781 = 1, TROVIMBE_DS2775 = 8 }; /* the kind of the record that brought the image */

static inline double trovimbe_ma(const uint8_t *map, double counts) { return counts * 0.0015625 * trovimbe_rsnsp(map); }
static inline double trovimbe_mah(const uint8_t *map, double counts) { return counts * 0.00625 * trovimbe_rsnsp(map); }
static inline double trovimbe_v(enum trovimbe_chip chip, double counts) { return counts * (chip == TROVIMBE_DS2775 ? 0.0048828 : 0.00976); }
static inline double trovimbe_share(double counts) { return counts * 100.0 / 16384.0; } /* per cent of Full40 */

static inline double trovimbe_rsns_mohm(const uint8_t *map) { return trovimbe_rsnsp(map) ? 1000.0 / trovimbe_rsnsp(map) : 0.0; }
static inline double trovimbe_raac_mah(const uint8_t *map) { return 1.6 * trovimbe_raac(map); }
static inline double trovimbe_rsac_mah(const uint8_t *map) { return 1.6 * trovimbe_rsac(map); }
static inline double trovimbe_iavg_ma(const uint8_t *map) { return trovimbe_ma(map, trovimbe_iavg(map)); }
static inline double trovimbe_temp_c(const uint8_t *map) { return trovimbe_temp(map) / 8.0; }
static inline double trovimbe_volt_v(const uint8_t *map, enum trovimbe_chip chip) { return trovimbe_v(chip, trovimbe_volt(map)); }
static inline double trovimbe_current_ma(const uint8_t *map) { return trovimbe_ma(map, trovimbe_current(map)); }
static inline double trovimbe_acr_mah(const uint8_t *map) { return trovimbe_mah(map, trovimbe_acr(map) + trovimbe_acrl(map) / 4096.0); }
static inline double trovimbe_as_percent(const uint8_t *map) { return trovimbe_as(map) * 100.0 / 128.0; }
static inline double trovimbe_full_percent(const uint8_t *map) { return trovimbe_share(trovimbe_full(map)); }
static inline double trovimbe_ae_percent(const uint8_t *map) { return trovimbe_share(trovimbe_ae(map)); }
static inline double trovimbe_se_percent(const uint8_t *map) { return trovimbe_share(trovimbe_se(map)); }
static inline double trovimbe_ab_ma(const uint8_t *map) { return trovimbe_ma(map, trovimbe_ab(map)); }
static inline double trovimbe_ac_mah(const uint8_t *map) { return trovimbe_mah(map, trovimbe_ac(map)); }
static inline double trovimbe_vchg_v(const uint8_t *map, enum trovimbe_chip chip) { return trovimbe_v(chip, trovimbe_vchg(map)); }
static inline double trovimbe_imin_ma(const uint8_t *map) { return trovimbe_ma(map, trovimbe_imin(map)); }
static inline double trovimbe_vae_v(const uint8_t *map, enum trovimbe_chip chip) { return trovimbe_v(chip, trovimbe_vae(map)); }
static inline double trovimbe_iae_ma(const uint8_t *map) { return trovimbe_ma(map, trovimbe_iae(map)); }
static inline double trovimbe_ae40_percent(const uint8_t *map) { return trovimbe_share(trovimbe_ae40(map)); }
static inline double trovimbe_full40_mah(const uint8_t *map) { return trovimbe_mah(map, trovimbe_full40(map)); }
static inline double trovimbe_cob_ma(const uint8_t *map) { return trovimbe_ma(map, trovimbe_cob(map)); }

/* ---- units as counts, the nearest, halves away from 0; a number that no count has becomes the last one on its side */

static inline int32_t trovimbe_nearest(double counts) {
    if (counts != counts) return 0; /* no number */
    if (counts >= 2147483647.0) return INT32_MAX;
    if (counts <= -2147483648.0) return INT32_MIN;
    return (int32_t)(counts < 0 ? counts - 0.5 : counts + 0.5);
}
static inline int32_t trovimbe_current_counts(double ma, unsigned rsnsp) { return rsnsp ? trovimbe_nearest(ma / (0.0015625 * rsnsp)) : 0; }
static inline int32_t trovimbe_volt_counts(double v, enum trovimbe_chip chip) { return trovimbe_nearest(v / trovimbe_v(chip, 1)); }
static inline int32_t trovimbe_temp_counts(double c) { return trovimbe_nearest(c * 8.0); }

#endif
