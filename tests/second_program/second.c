/* The gauge of the scope paper a second time, written from the papers alone, to be compared with the proved program.
 *
 *   second          reads a session from standard input and prints what `trovimbe session` prints
 *   second image    runs the session and writes the image taken out at its end, or the answer and its meaning on standard error
 *   second preset IMAGE PARAMETERS
 *                   writes the session that sets block 1, from two files by name, or the answer on standard error
 *   second mend OUT reads a damaged image from standard input, writes it mended to the file OUT and prints a line for each byte that is changed, or
 *                   the answer on standard error
 *   second hex_out PACK FACTORY
 *                   writes label and block 1 as Intel HEX, from two images by name, or the answer on standard error
 *   second hex_in   reads such a text from standard input and writes its 48 bytes, or the answer on standard error
 *   second dump     prints the session's lines and after each the whole state
 *   second tray, second tray_image SLOT, second tray_dump
 *                   do the same with a session of a tray
 *   second figures  holds the rules against the paper's "Figures to hold"
 *
 * Built with -DAIMS it also tells on standard error how often it came to what generated sessions aim at (aims.h).
 * All arithmetic is on signed 32 and 64-bit integers. Ids such as C4 are the rows of docs/MAP.md, rules of the paper. */

#include <stdbool.h>
#include <stdint.h>
#include <stdio.h>
#include <string.h>

typedef unsigned char byte;

enum { SESSION_LIMIT = 32768, REPLY_ROOM = 65536, IMAGE_BYTES = 60, DS2775_IMAGE_BYTES = 61, READ_LIMIT = 64, LONG_READ_LIMIT = 256 };

/* Table 3 of 001: where each parameter stands. A slope of segment s stands at its base + 4 - s. */
enum {
    CONTROL = 0x60, AB = 0x61, AC = 0x62, VCHG = 0x64, IMIN = 0x65, VAE = 0x66, IAE = 0x67, ACTIVE_EMPTY_40 = 0x68,
    RSNSP = 0x69, FULL_40 = 0x6A, FULL_SLOPES = 0x6C, AE_SLOPES = 0x70, SE_SLOPES = 0x74, COB = 0x7B,
    TBP34 = 0x7C, TBP23 = 0x7D, TBP12 = 0x7E
};
enum { NBEN = 0x80, RNAOP = 0x10 };

typedef struct {
    bool accepted; /* an image was accepted */
    bool ds2775;   /* by an image of kind 8 (W12.1) */

    /* What outlives a power-on. Blocks are held under their bus addresses: 20h..2Fh and 60h..7Fh. */
    byte address[8];
    byte eeprom[256];
    int32_t saved_acr, saved_as, saved_cycles;
    bool bl0, bl1;

    byte shadow[256];
    int32_t acr, fraction, as, age_counter;
    int32_t cycles, cycle_rest; /* the cycle counter, and what ACR has fallen since its last step */
    int32_t full, ae, se, raac, rsac, rarc, rsrc;
    int32_t iavg, temperature, voltage, current; /* temperature and voltage as clamped counts */
    bool chgtf, aef, sef, learnf, porf, lock;

    /* What is remembered between events. */
    bool had_reading, had_average;
    int32_t currents, previous_current;               /* how many of the last two CURRENTs exist; the one before CURRENT */
    int32_t run, run_sum;                             /* conversions since the last average, and the sum of their c */
    bool read_since_average; int32_t lowest_voltage;  /* of the readings since the last average */
    bool had_sample; int32_t last_tick;               /* of the last accepted sample since power-on */
    int32_t conversions;                              /* since power-on, modulo 1,024 (W7.1) */
    bool acr_written;                                 /* the mark: by the bus, and no conversion came since (W7.2) */
} Gauge;

enum { SLOTS = 8, SLOT_KINDS = 16 };

typedef struct {
    Gauge packs[SLOTS]; /* from slot 0 upward as their images were accepted (W8.2) */
    int32_t count;      /* of the slots that have an image */
    bool closed;        /* an event that is no image was accepted (W8.3) */
} Tray;

#ifdef AIMS
#include "aims.h"
#define WATCH(what) what
#else
#define WATCH(what) ((void)0)
#endif

/* ---- Numbers ---- */

static int64_t clamped(int64_t value, int64_t low, int64_t high)
{
    return value < low ? low : value > high ? high : value;
}

/* Rounded down, towards minus infinity; the divisor is above 0. */
static int64_t divided_down(int64_t value, int64_t divisor)
{
    int64_t quotient = value / divisor;
    return value % divisor < 0 ? quotient - 1 : quotient;
}

static int64_t divided_up(int64_t value, int64_t divisor)
{
    return -divided_down(-value, divisor);
}

static int32_t signed_byte(int32_t value)
{
    return value < 128 ? value : value - 256;
}

static int32_t little_endian_16(const byte *from)
{
    return from[0] + 256 * from[1];
}

static int32_t little_endian_signed_32(const byte *from)
{
    int64_t value = (int64_t)little_endian_16(from) + 65536 * (int64_t)little_endian_16(from + 2);
    return (int32_t)(value < 2147483648 ? value : value - 4294967296);
}

/* A20, bit by bit: X^8 + X^5 + X^4 + 1, low bit first, is 8Ch with the bits turned round. */
static int32_t crc(const byte *from, int32_t count)
{
    int32_t sum = 0;
    for (int32_t i = 0; i < count; i++) {
        sum ^= from[i];
        for (int32_t bit = 0; bit < 8; bit++)
            sum = sum % 2 == 1 ? (sum / 2) ^ 0x8C : sum / 2;
    }
    return sum;
}

/* ---- Parameters, read from the shadow whenever a rule is worked out (B30) ---- */

static int32_t parameter(const Gauge *g, int32_t address)
{
    return g->shadow[address];
}

static int32_t signed_parameter(const Gauge *g, int32_t address)
{
    return signed_byte(g->shadow[address]);
}

static int32_t wide_parameter(const Gauge *g, int32_t address)
{
    return 256 * g->shadow[address] + g->shadow[address + 1];
}

static int32_t moved_into_as_range(int32_t value)
{
    return (int32_t)clamped(value, 63, 128);
}

/* ---- Power-on ---- */

static void power_on(Gauge *g)
{
    memcpy(g->shadow, g->eeprom, sizeof g->shadow);
    g->acr = g->saved_acr;
    g->as = moved_into_as_range(g->saved_as);
    g->fraction = g->age_counter = 0;
    g->cycles = g->saved_cycles; /* W12.12 */
    g->cycle_rest = 0;
    g->full = g->ae = g->se = g->raac = g->rsac = g->rarc = g->rsrc = 0;
    g->iavg = g->temperature = g->voltage = g->current = 0;
    g->chgtf = g->aef = g->sef = g->learnf = g->lock = false;
    g->porf = true;
    g->had_sample = false;
    g->last_tick = 0;
    g->conversions = 0;
    g->acr_written = false;
    g->had_reading = g->had_average = g->read_since_average = false;
    g->currents = g->previous_current = g->run = g->run_sum = g->lowest_voltage = 0;
}

/* An image comes as kind 1 or, of the DS2775 profile, as kind 8: its own family, and a byte more (W12.1, W12.3). */
static bool is_image(int32_t kind) { return kind == 1 || kind == 8; }
static int32_t image_bytes(bool ds2775) { return ds2775 ? DS2775_IMAGE_BYTES : IMAGE_BYTES; }
static int32_t family_code(int32_t kind) { return kind == 8 ? 0x32 : 0x3D; }

static void accept_image(Gauge *g, int32_t kind, const byte *image)
{
    g->accepted = true;
    g->ds2775 = kind == 8;
    g->saved_cycles = g->ds2775 ? image[60] : 0;
    memcpy(g->address, image, 8);
    memcpy(g->eeprom + 0x20, image + 8, 16);
    memcpy(g->eeprom + 0x60, image + 24, 32);
    g->saved_acr = little_endian_16(image + 56); /* S6 */
    g->saved_as = image[58];
    g->bl0 = image[59] % 2 == 1;
    g->bl1 = image[59] / 2 == 1;
    power_on(g);
}

/* Hands back how many bytes it has (W12.15). */
static int32_t take_image_out(const Gauge *g, byte *image)
{
    memcpy(image, g->address, 8);
    memcpy(image + 8, g->eeprom + 0x20, 16);
    memcpy(image + 24, g->eeprom + 0x60, 32);
    image[56] = (byte)(g->saved_acr % 256);
    image[57] = (byte)(g->saved_acr / 256);
    image[58] = (byte)g->saved_as;
    image[59] = (byte)((g->bl1 ? 2 : 0) + (g->bl0 ? 1 : 0));
    if (g->ds2775)
        image[60] = (byte)g->saved_cycles;
    return image_bytes(g->ds2775);
}

/* ---- Conversion ---- */

/* AF, for full and for the results (C33, R30). */
static int32_t age_scaled_full(const Gauge *g)
{
    return (int32_t)divided_down((int64_t)g->full * g->as, 128);
}

/* C9 to C11: what of c goes into the charge count. The DS2775 takes in 25 uV itself (W12.4). */
static int32_t counted(const Gauge *g, int32_t c)
{
    bool blanks_negative = (parameter(g, CONTROL) & NBEN) != 0;
    int32_t lowest_blanked = g->ds2775 ? -16 : -15;
    if (0 < c && c < 64)
        return 0;
    if (blanks_negative && lowest_blanked <= c && c < 0)
        return 0;
    return c;
}

/* W12.8 to W12.11, at each conversion: the fall is the one that ageing counts. */
static void count_cycles(Gauge *g, int32_t fall)
{
    int32_t step = 2 * wide_parameter(g, FULL_40);
    if (!g->ds2775)
        return;
    g->cycle_rest += fall;
    if (step == 0)
        g->cycle_rest = 0;
    while (step > 0 && g->cycle_rest >= step) {
        g->cycle_rest -= step;
        g->cycles = (int32_t)clamped(g->cycles + 1, 0, 255);
    }
}

/* Steps 3 and 4, C12 to C21. The first conversion after a write of ACR adds nothing and uses up the mark (W7.7, W7.9). */
static void accumulate_and_age(Gauge *g, int32_t c)
{
    int32_t acr_before = g->acr;
    int64_t count = (int64_t)g->acr * 4096 + g->fraction;
    if (!g->acr_written)
        count = clamped(count + counted(g, c) + signed_parameter(g, AB), 0, 268435455);
    g->acr_written = false;
    g->acr = (int32_t)(count / 4096);
    g->fraction = (int32_t)(count % 4096);

    int32_t ageing_step = 32 * wide_parameter(g, AC);
    int32_t fall = g->acr < acr_before ? acr_before - g->acr : 0;
    g->age_counter += fall;
    if (ageing_step == 0) {
        g->age_counter = 0;
    } else if (g->age_counter >= ageing_step) {
        g->age_counter -= ageing_step;
        g->as = moved_into_as_range(g->as - 1);
    }
    count_cycles(g, fall);
}

/* C29 to C35, W1.1. A reading came before, so FULL is not 0. */
static void full_found(Gauge *g)
{
    int64_t full_40 = wide_parameter(g, FULL_40);
    WATCH(saw_full(g));
    g->chgtf = true;
    if (g->learnf && full_40 > 0)
        g->as = moved_into_as_range((int32_t)divided_down((int64_t)g->acr * 2097152, g->full * full_40));
    g->learnf = false;
    g->acr = (int32_t)divided_up(age_scaled_full(g) * full_40, 16384);
    g->fraction = 0;
}

/* Step 6 on the eighth conversion, C23 to C28. */
static void average_formed(Gauge *g)
{
    int32_t average = (int32_t)divided_down(g->run_sum, 8);
    int32_t limit = 32 * parameter(g, IMIN) - 1;
    bool both_small = g->had_average && 1 <= average && average <= limit && 1 <= g->iavg && g->iavg <= limit;
    bool voltage_high = g->read_since_average && g->lowest_voltage > 4 * parameter(g, VCHG);

    g->iavg = average;
    g->had_average = true;
    g->read_since_average = false;
    g->lowest_voltage = g->run = g->run_sum = 0;
    if (both_small && voltage_high)
        full_found(g);
}

/* Every 1024th conversion since power-on measures the offset, and the c before it stands in (W7.5). */
static void conversion(Gauge *g, int32_t raw)
{
    int32_t c = (int32_t)clamped((int64_t)raw + signed_parameter(g, COB), -32768, 32767);
    g->conversions = (g->conversions + 1) % 1024;
    if (g->conversions == 0)
        c = g->current;
    bool previous_negative = g->currents > 0 && g->current < 0;
    if (c < 0 && !previous_negative)
        g->learnf = false;
    g->previous_current = g->current;
    g->current = c;
    if (g->currents < 2)
        g->currents++;

    accumulate_and_age(g, c);

    if (g->acr == 0)
        g->learnf = false;

    g->run++;
    g->run_sum += c;
    if (g->run == 8)
        average_formed(g);
}

/* ---- Sample ---- */

enum { SAMPLE_BYTES = 6, LONGEST_SAMPLE = 64 };

/* The tick of a sample's payload, after its raw current (W5.1). */
static int32_t tick_of(const byte *payload)
{
    return little_endian_16(payload + 4);
}

/* W5.3 and W5.4: how many intervals a sample with this tick stands for. */
static int32_t elapsed(const Gauge *g, int32_t tick)
{
    return g->had_sample ? (tick + 65536 - g->last_tick) % 65536 : 1;
}

/* W5.5. */
static bool tick_fits(const Gauge *g, int32_t tick)
{
    int32_t intervals = elapsed(g, tick);
    return 1 <= intervals && intervals <= LONGEST_SAMPLE;
}

/* W5.7 and W5.8. */
static void sample(Gauge *g, int32_t raw, int32_t tick)
{
    int32_t intervals = elapsed(g, tick);
    for (int32_t i = 0; i < intervals; i++) {
        WATCH(before_interval(g));
        conversion(g, raw);
        WATCH(after_interval(g, raw, intervals));
    }
    g->had_sample = true;
    g->last_tick = tick;
}

/* ---- Reading ---- */

/* R5: halves go upward. */
static int32_t nearest_degree(int32_t temperature)
{
    return (int32_t)divided_down(temperature + 4, 8);
}

/* R7 to R11. */
static int32_t segment(const Gauge *g, int32_t t)
{
    if (t >= signed_parameter(g, TBP34))
        return 4;
    if (t >= signed_parameter(g, TBP23))
        return 3;
    if (t >= signed_parameter(g, TBP12))
        return 2;
    return 1;
}

/* Step 2. */
static void model_lines(Gauge *g, int32_t degrees)
{
    int32_t full = 16384, ae = 16 * parameter(g, ACTIVE_EMPTY_40), se = 0;
    for (int32_t t = 39; t >= degrees; t--) {
        int32_t offset = 4 - segment(g, t);
        full -= parameter(g, FULL_SLOPES + offset);
        ae += parameter(g, AE_SLOPES + offset);
        se += parameter(g, SE_SLOPES + offset);
    }
    g->full = full < 8192 ? 8192 : full;
    g->ae = ae > 8191 ? 8191 : ae;
    g->se = se > 8191 ? 8191 : se;
}

/* Step 3, of a reading below 4 x VAE. */
static void active_empty(Gauge *g, bool previous_was_above)
{
    int32_t e = (int32_t)divided_down((int64_t)g->ae * wide_parameter(g, FULL_40), 16384);
    int32_t threshold = -128 * parameter(g, IAE);
    bool discharging = g->currents == 2 && g->current < threshold && g->previous_current < threshold;

    g->aef = true;
    if (previous_was_above && discharging) {
        WATCH(saw_point(g, e));
        g->acr = e;
        g->fraction = 0;
        g->learnf = e > 0;
    } else if (!g->learnf && g->acr > e) {
        g->acr = e;
        g->fraction = 0;
        WATCH(SAW(true, "empty: ACR is cut to E without the point"));
    }
}

/* Step 4, over either empty line. */
static void results(const Gauge *g, int32_t empty, int32_t *percent, int32_t *absolute)
{
    int64_t full_40 = wide_parameter(g, FULL_40);
    int64_t n = 16384 * (int64_t)g->acr - empty * full_40;
    int64_t d = (age_scaled_full(g) - empty) * full_40;
    *percent = n <= 0 || d <= 0 ? 0 : (int32_t)clamped(divided_down(100 * n, d), 0, 100);
    *absolute = n <= 0 ? 0 : (int32_t)divided_down(n * parameter(g, RSNSP), 4194304);
}

static void reading(Gauge *g, int32_t voltage, int32_t temperature)
{
    int32_t empty_voltage = 4 * parameter(g, VAE);
    bool previous_was_above = g->had_reading && g->voltage >= empty_voltage;
    int32_t previous_rarc = g->rarc;

    g->voltage = (int32_t)clamped(voltage, 0, 1023);
    g->temperature = (int32_t)clamped(temperature, -1024, 1023);
    model_lines(g, nearest_degree(g->temperature));

    bool below = g->voltage < empty_voltage;
    if (below)
        active_empty(g, previous_was_above);

    results(g, g->ae, &g->rarc, &g->raac);
    results(g, g->se, &g->rsrc, &g->rsac);

    if (g->rarc < 90)
        g->chgtf = false;
    if (!below && g->rarc > 5)
        g->aef = false;
    if (g->rsrc < 10)
        g->sef = true;
    if (g->rsrc > 15)
        g->sef = false;

    if (g->had_reading && g->rarc / 4 != previous_rarc / 4) {
        g->saved_acr = g->acr;
        g->saved_as = g->as;
        g->saved_cycles = g->cycles; /* W12.13; 0 of kind 1 */
    }

    g->had_reading = true;
    if (!g->read_since_average || g->voltage < g->lowest_voltage)
        g->lowest_voltage = g->voltage;
    g->read_since_average = true;
}

/* ---- Bus bytes ---- */

static bool in_block_0(int32_t address) { return 0x20 <= address && address <= 0x2F; }
static bool in_block_1(int32_t address) { return 0x60 <= address && address <= 0x7F; }

static int32_t high_of(int32_t word) { return (word & 0xFFFF) / 256; } /* a negative word as two's complement */
static int32_t low_of(int32_t word) { return word & 0xFF; }
static int32_t bit(bool value, int32_t weight) { return value ? weight : 0; }

/* Tables 2 and 3 of 001 as the paper reads them, B28 to B59. */
static int32_t read_at(const Gauge *g, int32_t address)
{
    switch (address) {
    case 0x01:
        return bit(g->chgtf, 0x80) + bit(g->aef, 0x40) + bit(g->sef, 0x20) + bit(g->learnf, 0x10) + bit(g->porf, 0x02);
    case 0x02: return high_of(g->raac);
    case 0x03: return low_of(g->raac);
    case 0x04: return high_of(g->rsac);
    case 0x05: return low_of(g->rsac);
    case 0x06: return g->rarc;
    case 0x07: return g->rsrc;
    case 0x08: return high_of(g->iavg);
    case 0x09: return low_of(g->iavg);
    case 0x0A: return high_of(g->temperature * 32);
    case 0x0B: return low_of(g->temperature * 32);
    case 0x0C: return high_of(g->voltage * 32);
    case 0x0D: return low_of(g->voltage * 32);
    case 0x0E: return high_of(g->current);
    case 0x0F: return low_of(g->current);
    case 0x10: return high_of(g->acr);
    case 0x11: return low_of(g->acr);
    case 0x12: return high_of(g->fraction * 16);
    case 0x13: return low_of(g->fraction * 16);
    case 0x14: return g->as;
    case 0x15: return 0x00;
    case 0x16: return high_of(g->full);
    case 0x17: return low_of(g->full);
    case 0x18: return high_of(g->ae);
    case 0x19: return low_of(g->ae);
    case 0x1A: return high_of(g->se);
    case 0x1B: return low_of(g->se);
    case 0x1E: return g->ds2775 ? g->cycles : 0xFF; /* W12.6 */
    case 0x1F: return bit(g->lock, 0x40) + bit(g->bl1, 0x02) + bit(g->bl0, 0x01);
    }
    return in_block_0(address) || in_block_1(address) ? g->shadow[address] : 0xFF; /* past FFh too (B11) */
}

/* B12 to B16 and B89 to B96: the bytes act one by one, upward. */
static void write_from(Gauge *g, int32_t address, const byte *data, int32_t count)
{
    int32_t held = -1; /* the byte written at 10h */
    for (int32_t i = 0; i < count && address + i <= 0xFF; i++) {
        int32_t at = address + i, value = data[i];
        if (at == 0x01 && (value & 0x02) == 0)
            g->porf = false;
        if (at == 0x10)
            held = value;
        if (at == 0x11 && held >= 0) {
            g->acr = 256 * held + value;
            g->fraction = 0;
            g->learnf = false;
            g->acr_written = true;
        }
        if (at == 0x1E && g->ds2775 && !g->bl1)
            g->cycles = value; /* W12.7 */
        if (at == 0x1F)
            g->lock = (value & 0x40) != 0;
        if ((in_block_0(at) && !g->bl0) || (in_block_1(at) && !g->bl1))
            g->shadow[at] = (byte)value;
    }
}

/* 48h, B8h and 6Ah act on the whole block that holds the address, B17 to B23. */
static void block_command(Gauge *g, int32_t command, int32_t address)
{
    if (!in_block_0(address) && !in_block_1(address))
        return;
    bool *locked = in_block_0(address) ? &g->bl0 : &g->bl1;
    int32_t first = in_block_0(address) ? 0x20 : 0x60;
    size_t size = in_block_0(address) ? 16 : 32;
    if (command == 0x48 && !*locked)
        memcpy(g->eeprom + first, g->shadow + first, size);
    if (command == 0xB8)
        memcpy(g->shadow + first, g->eeprom + first, size);
    if (command == 0x6A && g->lock) {
        *locked = true;
        g->lock = false;
    }
}

/* The reply is the read count of bytes. B1 to B27. */
static void transaction(Gauge *g, const byte *master, int32_t masters, byte *reply, int32_t count)
{
    int32_t net_address_command = (parameter(g, CONTROL) & RNAOP) != 0 ? 0x39 : 0x33;
    int32_t at; /* where the function command stands */
    memset(reply, 0xFF, (size_t)count);
    if (masters >= 1 && master[0] == net_address_command) {
        memcpy(reply, g->address, (size_t)clamped(count, 0, 8));
        return;
    }
    if (masters >= 1 && master[0] == 0xCC)
        at = 1;
    else if (masters >= 9 && master[0] == 0x55 && memcmp(master + 1, g->address, 8) == 0)
        at = 9;
    else
        return;
    if (masters < at + 2)
        return;

    int32_t command = master[at], address = master[at + 1];
    if (command == 0x69) {
        for (int32_t i = 0; i < count; i++)
            reply[i] = (byte)read_at(g, address + i);
    } else if (command == 0x6C) {
        write_from(g, address, master + at + 2, masters - at - 2);
    } else {
        block_command(g, command, address);
    }
}

/* ---- The session ---- */

/* A transaction comes as kind 4 or, where it is longer, as kind 7 (W11.1, W11.4). */
static bool is_transaction(int32_t kind) { return kind == 4 || kind == 7; }

/* What stands ahead of the master bytes. */
static int32_t count_size(int32_t kind) { return kind == 4 ? 1 : 2; }

static int32_t read_count(int32_t kind, const byte *payload)
{
    return kind == 4 ? payload[0] : little_endian_16(payload);
}

/* W11.3. */
static int32_t read_limit(int32_t kind) { return kind == 4 ? READ_LIMIT : LONG_READ_LIMIT; }

static bool length_fits(int32_t kind, int32_t length)
{
    switch (kind) {
    case 1:
    case 8: return length == image_bytes(kind == 8);
    case 2: return length == 8;
    case 3: return length == 4;
    case 4: return 1 <= length && length <= 65;
    case 6: return length == SAMPLE_BYTES;
    case 7: return 2 <= length && length <= 258;
    default: return length == 0;
    }
}

/* W3.1: TBP12 <= TBP23 <= TBP34 <= 40, as signed bytes of the image. */
static bool breakpoints_ordered(const byte *image)
{
    int32_t low = signed_byte(image[0x36]), middle = signed_byte(image[0x35]), high = signed_byte(image[0x34]);
    return low <= middle && middle <= high && high <= 40;
}

/* Answers 3 to 11, the first that applies, or 0. */
static int32_t judged(const Gauge *g, int32_t room_left, int32_t kind, const byte *payload, int32_t length)
{
    if (kind < 1 || kind > 8)
        return 3;
    if (!length_fits(kind, length))
        return 4;
    if (is_image(kind) == g->accepted)
        return 5;
    if (is_image(kind) && (payload[0] != family_code(kind) || payload[7] != crc(payload, 7)))
        return 6;
    if (is_image(kind) && payload[59] > 3)
        return 7;
    if (is_image(kind) && !breakpoints_ordered(payload))
        return 10;
    if (kind == 6 && !tick_fits(g, tick_of(payload)))
        return 11;
    if (is_transaction(kind) && read_count(kind, payload) > read_limit(kind))
        return 8;
    if (is_transaction(kind) && read_count(kind, payload) > room_left)
        return 9;
    return 0;
}

/* ---- The tray ---- */

/* W8.4: 18, 19, 21 and 22 are a slot byte and the payload of 2, 3, 5 and 6. */
static bool has_slot(int32_t kind)
{
    return kind == 18 || kind == 19 || kind == 21 || kind == 22;
}

/* W8.13: the search stops at the slot whose address matches. -1 where there is none. */
static int32_t slot_with(const Tray *t, const byte *address)
{
    for (int32_t slot = 0; slot < t->count; slot++)
        if (memcmp(t->packs[slot].address, address, 8) == 0)
            return slot;
    return -1;
}

/* W8.7. */
static bool tray_length_fits(int32_t kind, int32_t length)
{
    if (has_slot(kind))
        return length >= 1 && length_fits(kind - SLOT_KINDS, length - 1);
    return length_fits(kind, length);
}

/* W8.9 to W8.11, of an image of its size: 5, 6, 7, 12, 10. */
static int32_t tray_image_judged(const Tray *t, int32_t kind, const byte *image)
{
    static const Gauge nobody;
    if (t->closed)
        return 5;
    if (t->count == SLOTS)
        return 5;
    int32_t by_itself = judged(&nobody, 0, kind, image, image_bytes(kind == 8));
    if (by_itself == 6 || by_itself == 7)
        return by_itself;
    if (slot_with(t, image) >= 0)
        return 12;
    return by_itself;
}

/* W8.6 to W8.11: the first answer that applies, or 0. */
static int32_t tray_judged(const Tray *t, int32_t room_left, int32_t kind, const byte *payload, int32_t length)
{
    if (!is_image(kind) && !is_transaction(kind) && !has_slot(kind))
        return 3;
    if (!tray_length_fits(kind, length))
        return 4;
    if (is_image(kind))
        return tray_image_judged(t, kind, payload);
    if (t->count == 0)
        return 5;
    if (is_transaction(kind))
        return judged(&t->packs[0], room_left, kind, payload, length);
    if (payload[0] >= t->count)
        return 5;
    return judged(&t->packs[payload[0]], room_left, kind - SLOT_KINDS, payload + 1, length - 1);
}

/* W8.13 to W8.16. A pack that does not answer leaves the line at FFh. */
static void tray_transaction(Tray *t, const byte *master, int32_t masters, byte *reply, int32_t count)
{
    memset(reply, 0xFF, (size_t)count);
    if (masters >= 1 && master[0] == 0x55) {
        int32_t slot = masters >= 9 ? slot_with(t, master + 1) : -1;
        if (slot >= 0)
            transaction(&t->packs[slot], master, masters, reply, count);
        return;
    }
    for (int32_t slot = 0; slot < t->count; slot++) {
        byte own[LONG_READ_LIMIT];
        transaction(&t->packs[slot], master, masters, own, count);
        for (int32_t i = 0; i < count; i++)
            reply[i] &= own[i];
    }
}

static void dump(const Gauge *g)
{
    printf("  acr %d+%d as %d age %d saved %d,%d | full %d ae %d se %d raac %d rsac %d rarc %d rsrc %d"
           " | iavg %d temp %d volt %d current %d | %s%s%s%s%s%s%s%s |",
           (int)g->acr, (int)g->fraction, (int)g->as, (int)g->age_counter, (int)g->saved_acr, (int)g->saved_as,
           (int)g->full, (int)g->ae, (int)g->se, (int)g->raac, (int)g->rsac, (int)g->rarc, (int)g->rsrc, (int)g->iavg,
           (int)g->temperature, (int)g->voltage, (int)g->current, g->chgtf ? "CHGTF " : "", g->aef ? "AEF " : "",
           g->sef ? "SEF " : "", g->learnf ? "LEARNF " : "", g->porf ? "PORF " : "", g->lock ? "LOCK " : "",
           g->bl1 ? "BL1 " : "", g->bl0 ? "BL0 " : "");
    printf(" reading %d average %d currents %d previous %d run %d sum %d since %d lowest %d tick %d conversions %d%s | shadow ",
           g->had_reading,
           g->had_average, (int)g->currents, (int)g->previous_current, (int)g->run, (int)g->run_sum,
           g->read_since_average, (int)g->lowest_voltage, g->had_sample ? (int)g->last_tick : -1, (int)g->conversions,
           g->acr_written ? " acr written" : "");
    for (int32_t i = 0x20; i <= 0x7F; i++)
        if (in_block_0(i) || in_block_1(i))
            printf("%02x", g->shadow[i]);
    if (g->ds2775)
        printf(" cycles %d rest %d kept %d", (int)g->cycles, (int)g->cycle_rest, (int)g->saved_cycles);
    printf(" eeprom ");
    for (int32_t i = 0x20; i <= 0x7F; i++)
        if (in_block_0(i) || in_block_1(i))
            printf("%02x", g->eeprom[i]);
    printf("\n");
}

enum { PRINT_NOTHING, PRINT_LINES, PRINT_STATES };

/* What a session runs on: one gauge, or a tray where that is not NULL. */
typedef struct {
    Gauge *gauge;
    Tray *tray;
} Subject;

static void print_states(Subject of)
{
    if (of.tray == NULL)
        dump(of.gauge);
    for (int32_t slot = 0; of.tray != NULL && slot < of.tray->count; slot++) {
        printf("  slot %d%s", (int)slot, of.tray->closed ? ", closed" : "");
        dump(&of.tray->packs[slot]);
    }
}

static void print_line(int printing, Subject of, int32_t number, const char *kind, int32_t answer, const byte *reply,
                       int32_t count)
{
    if (printing == PRINT_NOTHING)
        return;
    printf("%d %s %d ", (int)number, kind, (int)answer);
    for (int32_t i = 0; i < count; i++)
        printf("%02x", reply[i]);
    printf(count == 0 ? "-\n" : "\n");
    if (printing == PRINT_STATES)
        print_states(of);
}

/* A record that was judged 0. Hands back how many bytes it replies. */
static int32_t event(Gauge *g, int32_t kind, const byte *payload, int32_t length, byte *reply)
{
    int32_t ahead = count_size(kind);
    switch (kind) {
    case 1:
    case 8: accept_image(g, kind, payload); return 0;
    case 2: reading(g, little_endian_signed_32(payload), little_endian_signed_32(payload + 4)); return 0;
    case 3: conversion(g, little_endian_signed_32(payload)); return 0;
    case 4:
    case 7: transaction(g, payload + ahead, length - ahead, reply, read_count(kind, payload)); return read_count(kind, payload);
    case 6: sample(g, little_endian_signed_32(payload), tick_of(payload)); return 0;
    default: power_on(g); return 0;
    }
}

/* The same of a record of a tray. */
static int32_t tray_event(Tray *t, int32_t kind, const byte *payload, int32_t length, byte *reply)
{
    if (is_image(kind)) {
        accept_image(&t->packs[t->count++], kind, payload);
        return 0;
    }
    t->closed = true;
    if (is_transaction(kind)) {
        tray_transaction(t, payload + count_size(kind), length - count_size(kind), reply, read_count(kind, payload));
        return read_count(kind, payload);
    }
    return event(&t->packs[payload[0]], kind - SLOT_KINDS, payload + 1, length - 1, reply);
}

/* What a record is answered; one that is answered 0 is done, and `replied` has how many bytes it replies. */
static int32_t tray_record(Tray *t, int32_t room_left, int32_t kind, const byte *payload, int32_t length, byte *reply, int32_t *replied)
{
    int32_t answer = tray_judged(t, room_left, kind, payload, length);
    WATCH(before_tray_record(t));
    *replied = answer == 0 ? tray_event(t, kind, payload, length, reply) : 0;
    WATCH(after_tray_record(t, kind, payload, length, answer, reply, room_left));
    return answer;
}

static int32_t plain_record(Gauge *g, int32_t room_left, int32_t kind, const byte *payload, int32_t length, byte *reply, int32_t *replied)
{
    int32_t answer = judged(g, room_left, kind, payload, length);
    WATCH(before_record(g));
    *replied = answer == 0 ? event(g, kind, payload, length, reply) : 0;
    WATCH(after_record(g, kind, payload, length, answer, room_left));
    return answer;
}

/* Runs the session's records; the replies are printed and only their room is counted. */
/* The first image that a session refused: its record and its answer; 0 where none was. */
static int32_t refused_record, refused_answer;

static void run_session(Subject of, const byte *session, int32_t size, int printing)
{
    int32_t at = 0, room_left = REPLY_ROOM;
    if (printing != PRINT_NOTHING)
        printf("record kind answer reply\n");
    if (size > SESSION_LIMIT) {
        WATCH(of.tray != NULL ? saw_tray_end(1) : saw_end(size, 1));
        print_line(printing, of, 0, "----", 1, NULL, 0);
        return;
    }
    for (int32_t number = 1; at < size; number++) {
        const byte *header = session + at;
        if (size - at < 4 || size - at - 4 < little_endian_16(header)) {
            WATCH(of.tray != NULL ? saw_tray_end(2) : saw_end(size - at, 2));
            print_line(printing, of, number, "----", 2, NULL, 0);
            return;
        }
        int32_t length = little_endian_16(header), kind = little_endian_16(header + 2);
        int32_t replied;
        byte reply[LONG_READ_LIMIT];
        char kind_text[8];
        int32_t answer = of.tray != NULL ? tray_record(of.tray, room_left, kind, header + 4, length, reply, &replied)
                                         : plain_record(of.gauge, room_left, kind, header + 4, length, reply, &replied);
        if (refused_record == 0 && answer != 0 && (kind == 1 || kind == 8)) {
            refused_record = number;
            refused_answer = answer;
        }
        room_left -= replied;
        at += 4 + length;
        snprintf(kind_text, sizeof kind_text, "%04x", (unsigned)kind);
        print_line(printing, of, number, kind_text, answer, reply, replied);
    }
}

/* ---- Programming at the bench ---- */

enum { PRESET_BYTES = 120, BLOCK_1_BYTES = 32 };

/* W2.4 to W2.7: the first answer that applies, or 0. An image is judged as the first record of a session. */
static int32_t preset_judged(const byte *image, int32_t image_size, int32_t wanted_size, int32_t room)
{
    static const Gauge fresh;
    int32_t answer = judged(&fresh, 0, 1, image, image_size);
    if (answer != 0)
        return answer;
    if (wanted_size != BLOCK_1_BYTES)
        return 22;
    if (image[59] / 2 == 1)
        return 20;
    if (room < PRESET_BYTES)
        return 21;
    return 0;
}

/* Hands back where the next record starts. */
static byte *put_record(byte *at, int32_t kind, const byte *payload, size_t length)
{
    at[0] = (byte)(length % 256);
    at[1] = (byte)(length / 256);
    at[2] = (byte)(kind % 256);
    at[3] = (byte)(kind / 256);
    memcpy(at + 4, payload, length);
    return at + 4 + length;
}

/* W2.1 and W2.2: the image as it is, a write of block 1, its copy and its read-back. */
static void put_preset(byte *at, const byte *image, const byte *wanted)
{
    static const byte copy[] = {0x00, 0xCC, 0x48, 0x60}, read_back[] = {0x20, 0xCC, 0x69, 0x60};
    byte write[4 + BLOCK_1_BYTES] = {0x00, 0xCC, 0x6C, 0x60};
    memcpy(write + 4, wanted, BLOCK_1_BYTES);
    at = put_record(at, 1, image, IMAGE_BYTES);
    at = put_record(at, 4, write, sizeof write);
    at = put_record(at, 4, copy, sizeof copy);
    put_record(at, 4, read_back, sizeof read_back);
}

/* ---- Mending ---- */

enum { BREAKPOINT_LIMIT = 40 };

/* W9.2 and W9.3: the first answer that applies, or 0. */
static int32_t mend_judged(const byte *image, int32_t size, int32_t room)
{
    if (size != IMAGE_BYTES || room < IMAGE_BYTES)
        return 30;
    if (image[0] != 0x3D)
        return 31;
    return 0;
}

/* Of two neighbours the larger one, as a signed byte, comes first. */
static void larger_first(byte *two)
{
    if (signed_byte(two[0]) < signed_byte(two[1])) {
        byte other = two[0];
        two[0] = two[1];
        two[1] = other;
    }
}

/* W9.8: TBP34, TBP23 and TBP12 stand in this order, so the largest comes first. */
static void mend_breakpoints(byte *three)
{
    for (int32_t i = 0; i < 3; i++)
        if (signed_byte(three[i]) > BREAKPOINT_LIMIT)
            three[i] = BREAKPOINT_LIMIT;
    larger_first(three);
    larger_first(three + 1);
    larger_first(three);
}

/* W9.5 to W9.9, in place. */
static void mend_image(byte *image)
{
    image[0x07] = (byte)crc(image, 7);
    image[0x3A] = (byte)(image[0x3A] < 63 ? 63 : image[0x3A] > 128 ? 128 : image[0x3A]);
    image[0x3B] = (byte)(image[0x3B] & 3);
    mend_breakpoints(image + 0x34);
}

/* W9.10 */
static void print_changes(const byte *old, const byte *new)
{
    for (int32_t at = 0; at < IMAGE_BYTES; at++)
        if (old[at] != new[at])
            printf("%02x %02x %02x\n", (unsigned)at, (unsigned)old[at], (unsigned)new[at]);
}

/* ---- Intel HEX for the programmer ---- */

enum { EXPORT_TEXT = 144, IMPORT_BYTES = 48, HEX_LIMIT = 65536 };

/* W10.6 and W10.7 */
static int32_t export_judged(const byte *pack, int32_t pack_size, const byte *factory, int32_t factory_size, int32_t room)
{
    static const Gauge none_accepted;
    if (judged(&none_accepted, 0, 1, pack, pack_size) != 0 || judged(&none_accepted, 0, 1, factory, factory_size) != 0)
        return 44;
    return room < EXPORT_TEXT ? 45 : 0;
}

/* W10.2: hands back where the next line starts. */
static char *put_hex_line(char *at, int32_t address, int32_t type, const byte *data, int32_t count)
{
    int32_t sum = count + address / 256 + address % 256 + type;
    at += sprintf(at, ":%02X%04X%02X", (unsigned)count, (unsigned)address, (unsigned)type);
    for (int32_t i = 0; i < count; i++) {
        sum += data[i];
        at += sprintf(at, "%02X", (unsigned)data[i]);
    }
    return at + sprintf(at, "%02X\n", (unsigned)(-sum & 0xFF));
}

/* W10.3 to W10.5 */
static void put_export(char *at, const byte *pack, const byte *factory)
{
    const byte *label = pack[59] % 2 == 1 ? pack + 8 : factory + 8;
    at = put_hex_line(at, 0x20, 0, label, 16);
    at = put_hex_line(at, 0x60, 0, pack + 24, 16);
    at = put_hex_line(at, 0x70, 0, pack + 40, 16);
    put_hex_line(at, 0, 1, NULL, 0);
}

static int32_t digit_value(byte c)
{
    if (c >= '0' && c <= '9')
        return c - '0';
    return c >= 'A' && c <= 'F' ? c - 'A' + 10 : -1;
}

typedef struct {
    int32_t answer; /* 0, or 40 to 42 */
    bool end;
    int32_t place;  /* of the data among the 48 bytes */
    byte data[16];
} HexLine;

/* W10.9 to W10.11: a line up to its line feed, or to the end of the text. */
static HexLine hex_line(const byte *line, int32_t length)
{
    HexLine read = {40, false, 0, {0}};
    byte bytes[260];
    int32_t pairs = (length - 2) / 2, sum = 0;
    if (length < 12 || length % 2 != 0 || pairs > 260 || line[0] != ':' || line[length - 1] != '\n')
        return read;
    for (int32_t i = 0; i < pairs; i++) {
        int32_t high = digit_value(line[1 + 2 * i]), low = digit_value(line[2 + 2 * i]);
        if (high < 0 || low < 0)
            return read;
        bytes[i] = (byte)(16 * high + low);
        sum += bytes[i];
    }
    if (pairs != bytes[0] + 5)
        return read;
    read.answer = 41;
    if (sum % 256 != 0)
        return read;
    read.answer = 42;
    int32_t address = 256 * bytes[1] + bytes[2];
    if (bytes[3] == 1 && address == 0 && bytes[0] == 0) {
        read.end = true;
        read.answer = 0;
    } else if (bytes[3] == 0 && bytes[0] == 16 && (address == 0x20 || address == 0x60 || address == 0x70)) {
        read.place = address == 0x20 ? 0 : address - 0x50;
        memcpy(read.data, bytes + 4, 16);
        read.answer = 0;
    }
    return read;
}

/* W10.8 and W10.12 to W10.15: 0 and the 48 bytes, or the answer. */
static int32_t import_text(const byte *text, int32_t size, byte *room, int32_t room_size)
{
    byte bytes[IMPORT_BYTES] = {0};
    bool had[3] = {false, false, false}, ended = false, whole = true;
    for (int32_t at = 0, next; at < size; at = next) {
        for (next = at; next < size && text[next] != '\n'; next++)
            ;
        next += next < size ? 1 : 0;
        HexLine line = hex_line(text + at, next - at);
        if (line.answer != 0)
            return line.answer;
        if (ended || (!line.end && had[line.place / 16]))
            whole = false;
        if (line.end) {
            ended = true;
        } else {
            had[line.place / 16] = true;
            memcpy(bytes + line.place, line.data, 16);
        }
    }
    if (!whole || !ended || !had[0] || !had[1] || !had[2])
        return 43;
    if (room_size < IMPORT_BYTES)
        return 45;
    memcpy(room, bytes, IMPORT_BYTES);
    return 0;
}

/* ---- Figures to hold ---- */

static int failures;

static void hold(const char *figure, int64_t expected, int64_t found)
{
    printf("%-4s %s: %lld", expected == found ? "ok" : "FAIL", figure, (long long)found);
    printf(expected == found ? "\n" : ", not %lld\n", (long long)expected);
    if (expected != found)
        failures++;
}

static Gauge model_m(void)
{
    static const byte block_1[32] = {0, 0, 0, 0, 0, 0, 0, 0, 4, 50, 10000 / 256, 10000 % 256, 10, 20, 30, 40,
                                     5, 10, 20, 30, 1, 2, 3, 4, 0, 0, 0, 0, 18, 0, 256 - 12, 0};
    Gauge g;
    memset(&g, 0, sizeof g);
    g.accepted = true;
    memcpy(g.eeprom + 0x60, block_1, sizeof block_1);
    g.saved_as = 128;
    power_on(&g);
    return g;
}

static void hold_model_lines(void)
{
    static const int32_t rows[5][4] = {
        {40, 16384, 64, 0}, {18, 16164, 174, 22}, {0, 15804, 354, 58}, {-12, 15444, 594, 94}, {-20, 15124, 834, 126}};
    for (int32_t i = 0; i < 5; i++) {
        char name[40];
        Gauge g = model_m();
        reading(&g, 500, 8 * rows[i][0]);
        snprintf(name, sizeof name, "M at %d degrees, FULL", (int)rows[i][0]);
        hold(name, rows[i][1], g.full);
        snprintf(name, sizeof name, "M at %d degrees, AE", (int)rows[i][0]);
        hold(name, rows[i][2], g.ae);
        snprintf(name, sizeof name, "M at %d degrees, SE", (int)rows[i][0]);
        hold(name, rows[i][3], g.se);
    }
    Gauge g = model_m();
    reading(&g, 500, -1);
    hold("count -1, FULL", 15804, g.full);
    reading(&g, 500, 319);
    hold("count 319, FULL", 16384, g.full);
    static const int32_t degrees[9][2] = {
        {-1, 0}, {319, 40}, {320, 40}, {4, 1}, {3, 0}, {-4, 0}, {-5, -1}, {31, 4}, {1023, 128}};
    for (int32_t i = 0; i < 9; i++) {
        char name[40];
        snprintf(name, sizeof name, "count %d in degrees", (int)degrees[i][0]);
        hold(name, degrees[i][1], nearest_degree(degrees[i][0]));
    }
}

static void hold_results(void)
{
    Gauge g = model_m();
    g.acr = 5000;
    reading(&g, 500, 320);
    hold("M, 40 degrees, ACR 5000, RARC", 49, g.rarc);
    hold("M, 40 degrees, ACR 5000, RSRC", 50, g.rsrc);
    hold("M, 40 degrees, ACR 5000, RAAC", 968, g.raac);
    hold("M, 40 degrees, ACR 5000, RSAC", 976, g.rsac);

    g = model_m();
    g.shadow[ACTIVE_EMPTY_40] = 230; /* with 33 steps of 40: 5000 */
    memset(g.shadow + FULL_SLOPES, 255, 4);
    memset(g.shadow + AE_SLOPES, 40, 4);
    g.as = 63;
    g.acr = 60000;
    reading(&g, 500, 8 * 7);
    hold("AF 4032, AE 5000, AF", 4032, age_scaled_full(&g));
    hold("AF 4032, AE 5000, AE", 5000, g.ae);
    hold("AF 4032, AE 5000, RARC", 0, g.rarc);
}

/* Two averages of 16 with a reading before each; blanking leaves the count alone. */
static void charge_to_full(Gauge *g, int32_t temperature)
{
    g->shadow[IMIN] = 1;
    g->shadow[VCHG] = 100;
    for (int32_t i = 0; i < 16; i++) {
        if (i % 8 == 0)
            reading(g, 401, temperature);
        conversion(g, 16);
    }
}

static void hold_full_and_learn(void)
{
    Gauge g = model_m();
    g.as = 122;
    g.acr = 9000;
    charge_to_full(&g, 0);
    hold("full at 0 degrees, CHGTF", 1, g.chgtf);
    hold("full at 0 degrees, AF", 15063, age_scaled_full(&g));
    hold("full at 0 degrees, ACR", 9194, g.acr);
    reading(&g, 401, 0);
    hold("full at 0 degrees, then RARC", 100, g.rarc);

    g = model_m();
    g.acr = 9000;
    g.learnf = true;
    charge_to_full(&g, 320);
    hold("learn, FULL", 16384, g.full);
    hold("learn, AS", 115, g.as);
    hold("learn, ACR", 8985, g.acr);
}

static void hold_conversions(void)
{
    Gauge g = model_m();
    hold("63 counts as", 0, counted(&g, 63));
    hold("64 counts as", 64, counted(&g, 64));
    g.shadow[CONTROL] = NBEN;
    hold("with NBEN -15 counts as", 0, counted(&g, -15));
    hold("with NBEN -16 counts as", -16, counted(&g, -16));
    g.ds2775 = true;
    hold("with NBEN, as kind 8, -16 counts as", 0, counted(&g, -16));
    hold("with NBEN, as kind 8, -17 counts as", -17, counted(&g, -17));

    g = model_m();
    g.acr = 100;
    conversion(&g, -1);
    hold("ACR 100 and c -1, ACR", 99, g.acr);
    hold("ACR 100 and c -1, fraction", 4095, g.fraction);

    g = model_m();
    g.acr = 100;
    g.age_counter = 31;
    g.shadow[AC + 1] = 1;
    conversion(&g, -1);
    hold("AC 1 and counter 31, AS", 127, g.as);
    hold("AC 1 and counter 31, the counter after it", 0, g.age_counter);

    g = model_m();
    conversion(&g, -1);
    for (int32_t i = 0; i < 7; i++)
        conversion(&g, 0);
    hold("one c of -1 and seven of 0, IAVG", -1, g.iavg);
}

static void write_acr(Gauge *g, byte high, byte low)
{
    byte data[2] = {high, low};
    write_from(g, 0x10, data, 2);
}

static void hold_charge(const char *moment, const Gauge *g, int32_t current, int32_t acr, int32_t fraction)
{
    char name[60];
    snprintf(name, sizeof name, "%s, CURRENT", moment);
    hold(name, current, g->current);
    snprintf(name, sizeof name, "%s, ACR", moment);
    hold(name, acr, g->acr);
    snprintf(name, sizeof name, "%s, fraction", moment);
    hold(name, fraction, g->fraction);
}

/* W7.5 to W7.10, with COB 3 and AB 5. */
static void hold_offset(void)
{
    Gauge start = model_m();
    for (int32_t i = 0; i < 1022; i++)
        conversion(&start, 0);
    start.acr = 100;
    start.shadow[COB] = 3;
    start.shadow[AB] = 5;

    Gauge g = start;
    conversion(&g, 997);
    hold_charge("the 1023rd", &g, 1000, 100, 1005);
    conversion(&g, -30000);
    hold_charge("the 1024th", &g, 1000, 100, 2010);
    hold("the 1024th, IAVG of six 0 and two 1000", 250, g.iavg);
    conversion(&g, -103);
    hold_charge("the 1025th", &g, -100, 100, 1915);

    g = start;
    write_acr(&g, 0, 200);
    hold_charge("a write of ACR", &g, 0, 200, 0);
    conversion(&g, 997);
    hold_charge("the conversion after it", &g, 1000, 200, 0);
    conversion(&g, -30000);
    hold_charge("the one after that, the 1024th", &g, 1000, 200, 1005);

    g = start;
    conversion(&g, 997);
    write_acr(&g, 0, 200);
    conversion(&g, -30000);
    hold_charge("both at once", &g, 1000, 200, 0);
    conversion(&g, -103);
    hold_charge("the conversion after both", &g, -100, 199, 4001);
}

static Gauge with_wide(int32_t address, int32_t value)
{
    Gauge g = model_m();
    g.acr = 100;
    g.shadow[address] = (byte)(value / 256);
    g.shadow[address + 1] = (byte)(value % 256);
    return g;
}

/* A DS2775 with this Full40 and so much fallen in all, the last 8 of it by a conversion: the counter and the rest. */
static void hold_fallen(int32_t full_40, int32_t fallen, int32_t cycles, int32_t rest)
{
    char name[60];
    Gauge g = with_wide(FULL_40, full_40);
    g.ds2775 = true;
    g.cycle_rest = fallen - 8;
    conversion(&g, -32768);
    snprintf(name, sizeof name, "Full40 %d, %d fallen, the counter", (int)full_40, (int)fallen);
    hold(name, cycles, g.cycles);
    snprintf(name, sizeof name, "Full40 %d, %d fallen, the rest", (int)full_40, (int)fallen);
    hold(name, rest, g.cycle_rest);
}

/* The same with AC and the age counter: AS, which was 128, and the counter. */
static void hold_aged(int32_t ac, int32_t counter, int32_t as, int32_t left)
{
    char name[60];
    Gauge g = with_wide(AC, ac);
    g.age_counter = counter - 8;
    conversion(&g, -32768);
    snprintf(name, sizeof name, "AC %d at %d, AS", (int)ac, (int)counter);
    hold(name, as, g.as);
    snprintf(name, sizeof name, "AC %d at %d, the counter", (int)ac, (int)counter);
    hold(name, left, g.age_counter);
}

/* AS that this ACR teaches with this Full40, FULL 16,384. */
static void hold_learnt(int32_t full_40, int32_t acr, int32_t as)
{
    char name[60];
    Gauge g = with_wide(FULL_40, full_40);
    g.acr = acr;
    g.learnf = true;
    charge_to_full(&g, 320);
    snprintf(name, sizeof name, "Full40 %d, ACR %d teaches AS", (int)full_40, (int)acr);
    hold(name, as, g.as);
}

/* The figures beyond 16 bits, which are proved of the definitions too. */
static void hold_large(void)
{
    hold_fallen(65535, 131069, 0, 131069);
    hold_fallen(65535, 131070, 1, 0);
    hold_fallen(65535, 131072, 1, 2);
    hold_fallen(40000, 65543, 0, 65543);
    hold_fallen(1, 131072, 255, 0);
    hold_aged(65535, 65536, 128, 65536);
    hold_aged(65535, 262144, 128, 262144);
    hold_aged(65535, 1048576, 128, 1048576);
    hold_aged(65535, 2097119, 128, 2097119);
    hold_aged(65535, 2097120, 127, 0);
    hold_aged(1025, 32799, 128, 32799);
    hold_aged(1025, 32800, 127, 0);
    hold_learnt(60000, 60000, 128);
    hold_learnt(60000, 50000, 106);
    hold_learnt(60000, 32768, 69);
    hold_learnt(1, 512, 128);
}

/* At 40 degrees M gives RARC 51, 48, 47 for ACR 5120, 4821, 4820. */
static void hold_saves(void)
{
    static const int32_t acrs[3] = {5120, 4821, 4820}, rarcs[3] = {51, 48, 47}, saved[3] = {77, 77, 4820};
    Gauge g = model_m();
    g.saved_acr = 77;
    for (int32_t i = 0; i < 3; i++) {
        char name[40];
        g.acr = acrs[i];
        reading(&g, 500, 320);
        snprintf(name, sizeof name, "ACR %d, RARC", (int)acrs[i]);
        hold(name, rarcs[i], g.rarc);
        snprintf(name, sizeof name, "RARC %d, saved ACR", (int)rarcs[i]);
        hold(name, saved[i], g.saved_acr);
    }
}

/* Application Note 27's worked example: the address A2 00 00 00 01 B8 1C 02, read from its last byte. */
static void hold_crc(void)
{
    static const byte example[7] = {0x02, 0x1C, 0xB8, 0x01, 0x00, 0x00, 0x00};
    hold("CRC of Application Note 27's example", 0xA2, crc(example, 7));
}

static int hold_figures(void)
{
    hold_model_lines();
    hold_results();
    hold_full_and_learn();
    hold_conversions();
    hold_offset();
    hold_large();
    hold_saves();
    hold_crc();
    return failures == 0 ? 0 : 1;
}

/* ---- The program ---- */

static Gauge gauge; /* all zeros: no image was accepted */
static Tray tray;

/* What it means that an image is refused. */
static const char *refusal_meaning(int32_t answer)
{
    switch (answer) {
    case 4: return "it is not 60 bytes (61 in kind 8)";
    case 5: return "it comes after an event or after eight images";
    case 6: return "its address has another family code or a wrong CRC";
    case 7: return "its lock byte is above 3";
    case 10: return "its breakpoints are crossed or above 40 degrees";
    default: return "its address is there already"; /* 12 */
    }
}

/* The image of a gauge at the end of a session of so many bytes, or why there is none (W8.18). */
static int image_at_end(const Gauge *g, int32_t size, const char *none)
{
    byte image[DS2775_IMAGE_BYTES];
    if (SESSION_LIMIT < size) {
        fprintf(stderr, "1: the session is over 32,768 bytes\n");
        return 1;
    }
    if (!g->accepted) {
        fprintf(stderr, "5: %s", none);
        if (refused_record != 0)
            fprintf(stderr, "; the first that was refused, record %d, got %d: %s", (int)refused_record, (int)refused_answer, refusal_meaning(refused_answer));
        fprintf(stderr, "\n");
        return 1;
    }
    fwrite(image, 1, (size_t)take_image_out(g, image), stdout);
    return 0;
}

/* How many bytes of a file came, at most `most`; -1 where it cannot be read. */
static int32_t file_read(const char *name, byte *to, size_t most)
{
    FILE *file = fopen(name, "rb");
    int32_t size = file == NULL ? -1 : (int32_t)fread(to, 1, most, file);
    if (file == NULL || ferror(file)) {
        fprintf(stderr, "second: cannot read %s\n", name);
        size = -1;
    }
    if (file != NULL)
        fclose(file);
    return size;
}

static int preset(const char *image_name, const char *wanted_name)
{
    static byte image[IMAGE_BYTES + 1], wanted[BLOCK_1_BYTES + 1]; /* one byte more shows a file that is too long */
    static byte room[PRESET_BYTES];
    int32_t image_size = file_read(image_name, image, sizeof image);
    int32_t wanted_size = file_read(wanted_name, wanted, sizeof wanted);
    if (image_size < 0 || wanted_size < 0)
        return 1;
    int32_t answer = preset_judged(image, image_size, wanted_size, sizeof room);
    if (answer != 0) {
        fprintf(stderr, "%d: no session is written\n", (int)answer);
        return 1;
    }
    put_preset(room, image, wanted);
    fwrite(room, 1, sizeof room, stdout);
    return 0;
}

/* A slot as decimal digits; one above any slot that there is is SLOTS, and -1 is no number. */
static int32_t slot_read(const char *word)
{
    int32_t slot = *word == '\0' ? -1 : 0;
    for (; '0' <= *word && *word <= '9'; word++)
        slot = (int32_t)clamped(10 * slot + (*word - '0'), 0, SLOTS);
    return *word == '\0' ? slot : -1;
}

static int tray_image_at_end(const char *word, const byte *session, int32_t size)
{
    static const Gauge none;
    int32_t slot = slot_read(word);
    if (slot < 0) {
        fprintf(stderr, "tray_image: SLOT is no number: %s\n", word);
        return 1;
    }
    run_session((Subject){NULL, &tray}, session, size, PRINT_NOTHING);
    return image_at_end(slot < SLOTS ? &tray.packs[slot] : &none, size, "no image was accepted for this slot");
}

static int mend(const char *name)
{
    static byte dump[IMAGE_BYTES + 1], mended[IMAGE_BYTES]; /* one byte more shows an input that is too long */
    int32_t size = (int32_t)fread(dump, 1, sizeof dump, stdin);
    int32_t answer = mend_judged(dump, size, sizeof mended);
    if (answer != 0) {
        fprintf(stderr, "%d: it is not mended\n", (int)answer);
        return 1;
    }
    memcpy(mended, dump, sizeof mended);
    mend_image(mended);
    FILE *file = fopen(name, "wb");
    if (file == NULL || fwrite(mended, 1, sizeof mended, file) != sizeof mended || fclose(file) != 0) {
        fprintf(stderr, "second: cannot write %s\n", name);
        return 1;
    }
    print_changes(dump, mended);
    return 0;
}

static int hex_out(const char *pack_name, const char *factory_name)
{
    static byte pack[IMAGE_BYTES + 1], factory[IMAGE_BYTES + 1]; /* one byte more shows a file that is too long */
    static char text[EXPORT_TEXT + 1];                           /* and the end that sprintf puts */
    int32_t pack_size = file_read(pack_name, pack, sizeof pack);
    int32_t factory_size = file_read(factory_name, factory, sizeof factory);
    if (pack_size < 0 || factory_size < 0)
        return 1;
    int32_t refused = export_judged(pack, pack_size, factory, factory_size, EXPORT_TEXT);
    if (refused != 0) {
        fprintf(stderr, "%d: no text is written\n", (int)refused);
        return 1;
    }
    put_export(text, pack, factory);
    fwrite(text, 1, EXPORT_TEXT, stdout);
    return 0;
}

static int hex_in(void)
{
    static byte text[HEX_LIMIT + 1], bytes[IMPORT_BYTES]; /* one byte more shows a text that is too long */
    int32_t size = (int32_t)fread(text, 1, sizeof text, stdin);
    if (size > HEX_LIMIT) {
        fprintf(stderr, "hex_in: the text is over 65536 bytes\n");
        return 1;
    }
    int32_t refused = import_text(text, size, bytes, sizeof bytes);
    if (refused != 0) {
        fprintf(stderr, "%d: the text is not taken\n", (int)refused);
        return 1;
    }
    fwrite(bytes, 1, sizeof bytes, stdout);
    return 0;
}

int main(int count, char **arguments)
{
    static byte session[SESSION_LIMIT + 1]; /* one byte more shows a session that is too long */
    const char *mode = count > 1 ? arguments[1] : "session";
    if (strcmp(mode, "figures") == 0)
        return hold_figures();
    if (strcmp(mode, "preset") == 0)
        return count == 4 ? preset(arguments[2], arguments[3]) : 2;
    if (strcmp(mode, "tray_image") == 0 && count != 3)
        return 2;
    if (strcmp(mode, "mend") == 0)
        return count == 3 ? mend(arguments[2]) : 2;
    if (strcmp(mode, "hex_out") == 0)
        return count == 4 ? hex_out(arguments[2], arguments[3]) : 2;
    if (strcmp(mode, "hex_in") == 0)
        return hex_in();
    int32_t size = (int32_t)fread(session, 1, sizeof session, stdin);
    Subject of = {&gauge, strncmp(mode, "tray", 4) == 0 ? &tray : NULL};
    if (strcmp(mode, "tray_image") == 0)
        return tray_image_at_end(arguments[2], session, size);
    if (strcmp(mode, "image") == 0) {
        run_session(of, session, size, PRINT_NOTHING);
        return image_at_end(&gauge, size, "no image was accepted");
    }
    run_session(of, session, size, strstr(mode, "dump") != NULL ? PRINT_STATES : PRINT_LINES);
    WATCH(of.tray != NULL ? saw_tray_images_out(&tray) : saw_image_out(&gauge));
    WATCH(tell_reached());
    return 0;
}
