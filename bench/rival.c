/* The session program in C written for speed: what bench/run measures `./trovimbe session` against. Built with -DTRAY it is the program of
 * trays, for `./trovimbe tray`.
 *
 * It reads a session from standard input and prints the same lines. One pass over the session, nothing of it copied; the lines are put by hand
 * into one buffer, and written at once. The gauge keeps its memory as the bus reads it, so that a read turns bytes into digits and no more.
 * tests/second_program/second.c has the same rules written for clarity, with the ids of docs/MAP.md. `>>` of a negative number rounds down, as gcc
 * defines it. */

#include <stdbool.h>
#include <stdint.h>
#include <string.h>
#include <unistd.h>

typedef unsigned char byte;

enum { SESSION_LIMIT = 32768, REPLY_ROOM = 65536, LONGEST_READ = 256, LONGEST_SAMPLE = 64, HEADER = 4, LONGEST_LINE = 32, OFFSET_EVERY = 1024 };
enum { TEXT_ROOM = (SESSION_LIMIT / HEADER + 2) * LONGEST_LINE + 2 * REPLY_ROOM };

enum { IMAGE = 1, READING, CONVERSION, TRANSACTION, POWER_ON, SAMPLE, LONG_TRANSACTION, DS2775_IMAGE }; /* kinds */
enum { SLOTTED = 16 }; /* in trays 2, 3, 5 and 6 are so many more, behind a slot byte */
enum { DONE, OVERSIZED, CUT, UNKNOWN, MISSIZED, MISPLACED, WRONG_ADDRESS, WRONG_LOCKS, LONG_READ, NO_ROOM, CROSSED, LATE, REPEATED }; /* answers */

/* Tables 2 and 3 of 001, the cycle counter of 000, and the bits that are used. */
enum {
    STATUS = 0x01, RAAC = 0x02, RSAC = 0x04, RARC = 0x06, RSRC = 0x07, IAVG = 0x08, TEMP = 0x0A, VOLT = 0x0C, CURRENT = 0x0E, ACR = 0x10,
    AS = 0x14, FULL = 0x16, AE = 0x18, SE = 0x1A, LAST_RESULT = 0x1B, CYCLES = 0x1E, LOCKS = 0x1F, LABEL = 0x20, LABEL_END = 0x30,
    CONTROL = 0x60, AB = 0x61, AC = 0x62, VCHG = 0x64, IMIN = 0x65, VAE = 0x66, IAE = 0x67, ACTIVE_EMPTY_40 = 0x68, RSNSP = 0x69,
    FULL_40 = 0x6A, FULL_SLOPES = 0x6C, AE_SLOPES = 0x70, SE_SLOPES = 0x74, COB = 0x7B, TBP34 = 0x7C,
    PARAMETERS = CONTROL, PARAMETERS_END = 0x80
};
enum { CHGTF = 0x80, AEF = 0x40, SEF = 0x20, LEARNF = 0x10, PORF = 0x02 }; /* of STATUS */
enum { LOCK = 0x40, BL1 = 0x02, BL0 = 0x01 };                              /* of LOCKS */
enum { NBEN = 0x80, RNAOP = 0x10 };                                        /* of CONTROL */

/* Places in an image. */
enum { ADDRESS = 0, LABEL_CELLS = 8, PARAMETER_CELLS = 24, BREAKPOINTS = 52, SAVED_ACR = 56, SAVED_AS = 58, LOCK_BYTE = 59, IMAGE_BYTES = 60 };
enum { SAVED_CYCLES = IMAGE_BYTES }; /* a byte more, of a DS2775 */

enum { NONE_YET = -1, NONE_SINCE = 1024 }; /* for a VOLT, which is 0 to 1,023, and for a tick */

typedef struct {
    byte memory[256 + LONGEST_READ]; /* as the bus reads it, past FFh too */
    byte pack[IMAGE_BYTES + 1];      /* the image as it would be taken out, but for the lock bits, which are kept in memory */
    bool accepted;
    bool ds2775;
    int32_t previous_current; /* 0 where there is none, which no rule tells from one that is 0; so with CURRENT and IAVG */
    int32_t age_counter;
    int32_t cycle_rest;   /* what ACR fell since the last step of the cycle counter */
    int32_t conversions;  /* since power-on, modulo OFFSET_EVERY; modulo 8 those since the last average */
    int32_t run_sum;      /* of the c since the last average */
    bool acr_written;     /* and no conversion came since */
    int32_t last_volt;    /* of the last reading, or NONE_YET since power-on */
    int32_t lowest_volt;  /* of the readings since the last average, or NONE_SINCE */
    int32_t last_tick;    /* of the last sample, or NONE_YET since power-on */
} Gauge;

/* ---- Numbers */

/* Words of the session are little-endian as x86-64 is; on the bus the high byte stands first. */

static int32_t little_16(const byte *from)
{
    uint16_t value;
    memcpy(&value, from, sizeof value);
    return value;
}

static int32_t little_32(const byte *from)
{
    int32_t value;
    memcpy(&value, from, sizeof value);
    return value;
}

static int32_t big_16(const byte *from) { return __builtin_bswap16((uint16_t)little_16(from)); }

static void put_big_16(byte *to, int32_t value)
{
    uint16_t turned = __builtin_bswap16((uint16_t)value);
    memcpy(to, &turned, sizeof turned);
}

static int32_t clamped(int32_t value, int32_t low, int32_t high) { return value < low ? low : value > high ? high : value; }
static int32_t clamped_wide(int64_t value, int32_t low, int32_t high) { return (int32_t)(value < low ? low : value > high ? high : value); }
static byte as_from(int32_t value) { return (byte)clamped(value, 63, 128); }

/* ACR x 4,096 + fraction. ACR and after it the fraction x 16, high bytes first, are this number x 16. */
static int32_t charge_count(const byte *memory)
{
    return (int32_t)(__builtin_bswap32((uint32_t)little_32(memory + ACR)) >> 4);
}

static void set_charge_count(byte *memory, int32_t count)
{
    uint32_t turned = __builtin_bswap32((uint32_t)count << 4);
    memcpy(memory + ACR, &turned, sizeof turned);
}

static void set_acr(byte *memory, int32_t acr) { set_charge_count(memory, acr << 12); }

/* The 1-Wire CRC, four bits at a time. */
static int32_t crc(const byte *from, int32_t count)
{
    static const byte four_bits[16] = {0x00, 0x9D, 0x23, 0xBE, 0x46, 0xDB, 0x65, 0xF8, 0x8C, 0x11, 0xAF, 0x32, 0xCA, 0x57, 0xE9, 0x74};
    uint32_t sum = 0;
    for (int32_t i = 0; i < count; i++) {
        sum ^= from[i];
        sum = sum >> 4 ^ four_bits[sum & 15];
        sum = sum >> 4 ^ four_bits[sum & 15];
    }
    return (int32_t)sum;
}

/* ---- Power-on */

static void power_on(Gauge *g)
{
    byte *m = g->memory;
    memset(m + STATUS, 0, LAST_RESULT + 1 - STATUS);
    m[STATUS] = PORF;
    m[LOCKS] &= BL1 | BL0;
    set_acr(m, little_16(g->pack + SAVED_ACR));
    m[AS] = as_from(g->pack[SAVED_AS]);
    m[CYCLES] = g->pack[SAVED_CYCLES];
    memcpy(m + LABEL, g->pack + LABEL_CELLS, LABEL_END - LABEL);
    memcpy(m + PARAMETERS, g->pack + PARAMETER_CELLS, PARAMETERS_END - PARAMETERS);
    g->previous_current = g->age_counter = g->cycle_rest = g->conversions = g->run_sum = 0;
    g->acr_written = false;
    g->last_volt = g->last_tick = NONE_YET;
    g->lowest_volt = NONE_SINCE;
}

/* For a pack without a cycle counter FFh stands in its cell, which is what the bus reads there, and stays through power-ons and saves. */
static void accept_image(Gauge *g, const byte *image, bool ds2775)
{
    g->accepted = true;
    g->ds2775 = ds2775;
    memcpy(g->pack, image, IMAGE_BYTES);
    g->pack[SAVED_CYCLES] = ds2775 ? image[SAVED_CYCLES] : 0xFF;
    memset(g->memory, 0xFF, sizeof g->memory);
    g->memory[LOCKS] = image[LOCK_BYTE];
    power_on(g);
}

/* ---- Conversion */

static void full_found(byte *m)
{
    int32_t full_40 = big_16(m + FULL_40), full = big_16(m + FULL); /* a reading came before, so FULL is not 0 */
    if ((m[STATUS] & LEARNF) != 0 && full_40 > 0)
        m[AS] = (byte)clamped_wide(((int64_t)big_16(m + ACR) << 21) / (full * full_40), 63, 128);
    m[STATUS] = (byte)((m[STATUS] | CHGTF) & ~LEARNF);
    set_acr(m, ((full * m[AS] >> 7) * full_40 + 16383) >> 14);
}

static void average_formed(Gauge *g)
{
    byte *m = g->memory;
    int32_t average = g->run_sum >> 3, previous = (int16_t)big_16(m + IAVG), limit = 32 * m[IMIN];
    int32_t lowest_volt = g->lowest_volt;
    put_big_16(m + IAVG, average);
    g->run_sum = 0;
    g->lowest_volt = NONE_SINCE;
    if (0 < average && average < limit && 0 < previous && previous < limit && lowest_volt != NONE_SINCE && lowest_volt > 4 * m[VCHG])
        full_found(m);
}

/* Step 4, of so many conversions in which ACR falls so far in all. One of them lowers it by 9 at most, which is less than any limit, so AS
 * falls as often as the limit goes into the counter, but once for each conversion at most. */
static inline void age(Gauge *g, int32_t fall, int32_t conversions)
{
    byte *m = g->memory;
    int32_t limit = 32 * big_16(m + AC), counter = g->age_counter + (fall > 0 ? fall : 0);
    if (limit == 0) {
        counter = 0;
    } else if (counter >= limit) {
        int32_t steps = conversions == 1 ? 1 : clamped(counter / limit, 1, conversions);
        counter -= steps * limit;
        m[AS] = as_from(m[AS] - steps);
    }
    g->age_counter = counter;
}

/* The cycle counter of a DS2775, over a fall as above: as many steps as fit, the rest carried. */
static inline void count_cycles(Gauge *g, int32_t fall)
{
    byte *m = g->memory;
    int32_t step = 2 * big_16(m + FULL_40), rest = g->cycle_rest + (fall > 0 ? fall : 0);
    if (step == 0) {
        rest = 0;
    } else if (rest >= step) {
        m[CYCLES] = (byte)clamped(m[CYCLES] + rest / step, 0, 255);
        rest %= step;
    }
    g->cycle_rest = rest;
}

/* What a conversion adds to the charge count, AB with it. A DS2775 blanks -16 too. */
static int32_t counted(const Gauge *g, int32_t c)
{
    const byte *m = g->memory;
    bool blanked = (0 < c && c < 64) || (-16 - g->ds2775 < c && c < 0 && (m[CONTROL] & NBEN) != 0);
    return (blanked ? 0 : c) + (int8_t)m[AB];
}

static inline __attribute__((always_inline)) void conversion(Gauge *g, int32_t raw)
{
    byte *m = g->memory;
    int32_t previous = (int16_t)big_16(m + CURRENT), conversions = (g->conversions + 1) & (OFFSET_EVERY - 1);
    int32_t c = conversions == 0 ? previous : clamped_wide((int64_t)raw + (int8_t)m[COB], -32768, 32767);
    if (c < 0 && previous >= 0)
        m[STATUS] &= (byte)~LEARNF;
    g->previous_current = previous;
    put_big_16(m + CURRENT, c);

    int32_t before = charge_count(m);
    int32_t after = g->acr_written ? before : clamped(before + counted(g, c), 0, (1 << 28) - 1);
    g->acr_written = false;
    set_charge_count(m, after);
    age(g, (before >> 12) - (after >> 12), 1);
    if (g->ds2775)
        count_cycles(g, (before >> 12) - (after >> 12));
    if (after >> 12 == 0)
        m[STATUS] &= (byte)~LEARNF;

    g->run_sum += c;
    g->conversions = conversions;
    if ((conversions & 7) == 0)
        average_formed(g);
}

/* ---- Sample */

/* So many conversions of the c that the last one had; an offset among them has it too. Each adds the same, so that the count is clamped once, at
 * the end. An average is formed only where the run is empty at the start: then it is c, and no reading has come for it, so that full is not
 * found. */
static void stretch(Gauge *g, int32_t c, int32_t count)
{
    byte *m = g->memory;
    int32_t before = charge_count(m), run = (g->conversions & 7) + count;
    int32_t after = clamped(before + count * counted(g, c), 0, (1 << 28) - 1);
    set_charge_count(m, after);
    age(g, (before >> 12) - (after >> 12), count);
    if (g->ds2775)
        count_cycles(g, (before >> 12) - (after >> 12));
    if (after >> 12 == 0)
        m[STATUS] &= (byte)~LEARNF;
    g->previous_current = c;
    g->run_sum += count * c;
    if (run >= 8) {
        put_big_16(m + IAVG, c);
        g->run_sum = (run & 7) * c;
    }
    g->conversions = (g->conversions + count) & (OFFSET_EVERY - 1);
}

/* A conversion, and what of the rest can be taken at once after it: all of it where an average was just formed, since full is found at one
 * only with a reading before it; else up to the conversion that forms the next. Two turns at most. An offset conversion that comes first is taken
 * for itself, since its c is not that of the rest. */
static void sample(Gauge *g, int32_t raw, int32_t left)
{
    if (g->conversions == OFFSET_EVERY - 1) {
        conversion(g, raw);
        left--;
    }
    while (left > 0) {
        conversion(g, raw);
        left--;
        int32_t run = g->conversions & 7, reach = run == 0 ? left : clamped(left, 0, 7 - run);
        if (reach > 0)
            stretch(g, (int16_t)big_16(g->memory + CURRENT), reach);
        left -= reach;
    }
}

/* ---- Reading */

typedef struct {
    int32_t full, ae, se;
} Lines;

/* Step 2. Segments are taken from 40 degrees downward; each takes what is left down to its breakpoint, the last one all. A breakpoint above
 * where the one before it left off leaves its segment empty, whatever their order. */
static Lines model_lines(const byte *m, int32_t degrees)
{
    int32_t full = 16384, ae = 16 * m[ACTIVE_EMPTY_40], se = 0, top = 40;
    int32_t bottom = degrees < 40 ? degrees : 40;
#pragma GCC unroll 4
    for (int32_t i = 0; i < 4; i++) {
        int32_t down_to = i < 3 ? clamped((int8_t)m[TBP34 + i], bottom, top) : bottom;
        int32_t steps = top - down_to;
        full -= steps * m[FULL_SLOPES + i];
        ae += steps * m[AE_SLOPES + i];
        se += steps * m[SE_SLOPES + i];
        top = down_to;
    }
    return (Lines){full < 8192 ? 8192 : full, ae > 8191 ? 8191 : ae, se > 8191 ? 8191 : se};
}

/* Step 3, of a reading below 4 x VAE. */
static void active_empty(Gauge *g, int32_t ae)
{
    byte *m = g->memory;
    int32_t e = ae * big_16(m + FULL_40) >> 14, threshold = -128 * m[IAE];
    m[STATUS] |= AEF;
    if (g->last_volt >= 4 * m[VAE] && (int16_t)big_16(m + CURRENT) < threshold && g->previous_current < threshold) {
        set_acr(m, e);
        m[STATUS] = (byte)(e > 0 ? m[STATUS] | LEARNF : m[STATUS] & ~LEARNF);
    } else if ((m[STATUS] & LEARNF) == 0 && big_16(m + ACR) > e) {
        set_acr(m, e);
    }
}

/* Step 4 over either empty line: puts the charge and the per cent in their places, and hands back the per cent. ACR and Full40 are below 2^16
 * and the lines at most 2^14, so n and d fit. */
static inline int32_t results(byte *m, int32_t aged_full, int32_t empty, int32_t charge_at, int32_t percent_at)
{
    int32_t full_40 = big_16(m + FULL_40);
    int32_t n = 16384 * big_16(m + ACR) - empty * full_40, d = (aged_full - empty) * full_40;
    int32_t charge = n > 0 ? (int32_t)((int64_t)n * m[RSNSP] >> 22) : 0;
    int32_t percent = n <= 0 || d <= 0 ? 0 : n >= d ? 100 : (int32_t)(100 * (uint64_t)n / (uint64_t)d);
    put_big_16(m + charge_at, charge);
    m[percent_at] = (byte)percent;
    return percent;
}

static void reading(Gauge *g, int32_t voltage, int32_t temperature)
{
    byte *m = g->memory;
    int32_t volt = clamped(voltage, 0, 1023), temp = clamped(temperature, -1024, 1023);
    Lines lines = model_lines(m, (temp + 4) >> 3);
    put_big_16(m + VOLT, volt * 32);
    put_big_16(m + TEMP, temp * 32);
    put_big_16(m + FULL, lines.full);
    put_big_16(m + AE, lines.ae);
    put_big_16(m + SE, lines.se);

    bool below = volt < 4 * m[VAE];
    if (below)
        active_empty(g, lines.ae);

    int32_t previous_rarc = m[RARC], aged_full = lines.full * m[AS] >> 7;
    int32_t rarc = results(m, aged_full, lines.ae, RAAC, RARC);
    int32_t rsrc = results(m, aged_full, lines.se, RSAC, RSRC);
    int32_t cleared = (rarc < 90 ? CHGTF : 0) | (!below && rarc > 5 ? AEF : 0) | (rsrc > 15 ? SEF : 0);
    m[STATUS] = (byte)((m[STATUS] & ~cleared) | (rsrc < 10 ? SEF : 0));

    if (g->last_volt != NONE_YET && rarc >> 2 != previous_rarc >> 2) {
        g->pack[SAVED_ACR] = m[ACR + 1];
        g->pack[SAVED_ACR + 1] = m[ACR];
        g->pack[SAVED_AS] = m[AS];
        g->pack[SAVED_CYCLES] = m[CYCLES];
    }
    g->last_volt = volt;
    if (volt < g->lowest_volt)
        g->lowest_volt = volt;
}

/* ---- Bus bytes */

/* Bytes as pairs of hex digits: 00 01 .. ff. */
#define PAIRS(digit) \
    digit "0" digit "1" digit "2" digit "3" digit "4" digit "5" digit "6" digit "7" \
    digit "8" digit "9" digit "a" digit "b" digit "c" digit "d" digit "e" digit "f"
static const char HEX[] = PAIRS("0") PAIRS("1") PAIRS("2") PAIRS("3") PAIRS("4") PAIRS("5") PAIRS("6") PAIRS("7")
                          PAIRS("8") PAIRS("9") PAIRS("a") PAIRS("b") PAIRS("c") PAIRS("d") PAIRS("e") PAIRS("f");

static void put_pair(char *out, int32_t value) { memcpy(out, HEX + 2 * (size_t)value, 2); }

static char *put_hex(char *out, const byte *from, int32_t count)
{
    for (const byte *end = from + count; from < end; from++, out += 2)
        put_pair(out, *from);
    return out;
}

static char *put_ff(char *out, int32_t count)
{
    if (count > 0)
        memset(out, 'f', 2 * (size_t)count);
    return out + 2 * count;
}

/* A write of data upward from an address. */
typedef struct {
    const byte *data;
    int32_t from, end;
} Write;

static const byte *written_at(Write w, int32_t address)
{
    return w.from <= address && address < w.end ? w.data + (address - w.from) : NULL;
}

static void write_registers(Gauge *g, Write w)
{
    byte *m = g->memory;
    const byte *status = written_at(w, STATUS), *acr_high = written_at(w, ACR), *acr_low = written_at(w, ACR + 1);
    const byte *cycles = written_at(w, CYCLES), *locks = written_at(w, LOCKS);
    if (status && (*status & PORF) == 0)
        m[STATUS] &= (byte)~PORF;
    if (acr_high && acr_low) {
        set_acr(m, big_16(acr_high));
        m[STATUS] &= (byte)~LEARNF;
        g->acr_written = true;
    }
    if (cycles && g->ds2775 && (m[LOCKS] & BL1) == 0)
        m[CYCLES] = *cycles;
    if (locks)
        m[LOCKS] = (byte)((m[LOCKS] & (BL1 | BL0)) | (*locks & LOCK));
}

static void write_block(byte *m, int32_t first, int32_t block_end, Write w)
{
    int32_t from = w.from > first ? w.from : first, end = w.end < block_end ? w.end : block_end;
    if (from < end)
        memcpy(m + from, w.data + (from - w.from), (size_t)(end - from));
}

static void write_memory(Gauge *g, Write w)
{
    byte *m = g->memory;
    if (w.from <= LOCKS)
        write_registers(g, w);
    if ((m[LOCKS] & BL0) == 0)
        write_block(m, LABEL, LABEL_END, w);
    if ((m[LOCKS] & BL1) == 0)
        write_block(m, PARAMETERS, PARAMETERS_END, w);
}

static inline void block_command(byte *m, int32_t command, byte *shadow, byte *cells, size_t size, int32_t own_lock)
{
    if (command == 0x48 && (m[LOCKS] & own_lock) == 0)
        memcpy(cells, shadow, size);
    else if (command == 0xB8)
        memcpy(shadow, cells, size);
    else if (command == 0x6A && (m[LOCKS] & LOCK) != 0)
        m[LOCKS] = (byte)((m[LOCKS] | own_lock) & ~LOCK);
}

/* The function command, its address and what follows, of a gauge that is selected. Puts the reply and hands back its end. */
static char *function_command(Gauge *g, const byte *master, int32_t masters, char *out, int32_t count)
{
    byte *m = g->memory;
    if (masters < 2)
        return put_ff(out, count);
    int32_t command = master[0], address = master[1];
    if (command == 0x69)
        return put_hex(out, m + address, count);
    if (command == 0x6C)
        write_memory(g, (Write){master + 2, address, address + masters - 2});
    else if (LABEL <= address && address < LABEL_END)
        block_command(m, command, m + LABEL, g->pack + LABEL_CELLS, LABEL_END - LABEL, BL0);
    else if (PARAMETERS <= address && address < PARAMETERS_END)
        block_command(m, command, m + PARAMETERS, g->pack + PARAMETER_CELLS, PARAMETERS_END - PARAMETERS, BL1);
    return put_ff(out, count);
}

static char *transaction(Gauge *g, const byte *master, int32_t masters, char *out, int32_t count)
{
    int32_t first = masters > 0 ? master[0] : 0;
    if (first == 0xCC)
        return function_command(g, master + 1, masters - 1, out, count);
    if (first == 0x55 && masters >= 9 && memcmp(master + 1, g->pack + ADDRESS, 8) == 0)
        return function_command(g, master + 9, masters - 9, out, count);
    if (first == ((g->memory[CONTROL] & RNAOP) != 0 ? 0x39 : 0x33)) {
        int32_t shown = count < 8 ? count : 8;
        return put_ff(put_hex(out, g->pack + ADDRESS, shown), count - shown);
    }
    return put_ff(out, count);
}

/* ---- The session */

/* 4, of an image. */
static bool image_fits(int32_t length, bool ds2775) { return length == IMAGE_BYTES + ds2775; }

/* 6, 7 and 10. */
static int32_t image_answer(const byte *image, bool ds2775)
{
    if (image[ADDRESS] != (ds2775 ? 0x32 : 0x3D) || crc(image + ADDRESS, 7) != image[ADDRESS + 7])
        return WRONG_ADDRESS;
    if (image[LOCK_BYTE] > 3)
        return WRONG_LOCKS;
    int8_t high = (int8_t)image[BREAKPOINTS], middle = (int8_t)image[BREAKPOINTS + 1], low = (int8_t)image[BREAKPOINTS + 2];
    return low <= middle && middle <= high && high <= 40 ? DONE : CROSSED;
}

/* 4 and 5, of all events but an image. */
static int32_t event_answer(const Gauge *g, bool fits) { return !fits ? MISSIZED : !g->accepted ? MISPLACED : DONE; }

/* Ahead of the master bytes of a transaction stand so many bytes of read count, and at most so many bytes are read, or are master bytes. */
typedef struct {
    int32_t ahead, most;
} Form;

static Form form_of(int32_t kind) { return kind == TRANSACTION ? (Form){1, 64} : (Form){2, LONGEST_READ}; }
static int32_t read_count(Form form, const byte *payload) { return form.ahead == 1 ? payload[0] : little_16(payload); }

/* 4, 5, 8 and 9, of a transaction. */
static inline int32_t transaction_answer(const Gauge *g, Form form, const byte *payload, int32_t length, int32_t room)
{
    int32_t answer = event_answer(g, form.ahead <= length && length <= form.ahead + form.most);
    if (answer != DONE)
        return answer;
    int32_t count = read_count(form, payload);
    return count > form.most ? LONG_READ : count > room ? NO_ROOM : DONE;
}

/* A whole record of any kind: its answer, and what it does to the gauge. A reply is put at reply, and *line_end moved behind it. */
static inline int32_t record(Gauge *g, int32_t kind, const byte *payload, int32_t length, char *reply, char **line_end, int32_t *room)
{
    int32_t answer;
    bool ds2775 = kind == DS2775_IMAGE;
    Form form = form_of(kind);
    switch (kind) {
    case IMAGE:
    case DS2775_IMAGE:
        answer = !image_fits(length, ds2775) ? MISSIZED : g->accepted ? MISPLACED : image_answer(payload, ds2775);
        if (answer == DONE)
            accept_image(g, payload, ds2775);
        return answer;
    case READING:
        answer = event_answer(g, length == 8);
        if (answer == DONE)
            reading(g, little_32(payload), little_32(payload + 4));
        return answer;
    case CONVERSION:
        answer = event_answer(g, length == 4);
        if (answer == DONE)
            conversion(g, little_32(payload));
        return answer;
    case TRANSACTION:
    case LONG_TRANSACTION:
        answer = transaction_answer(g, form, payload, length, *room);
        if (answer == DONE) {
            int32_t count = read_count(form, payload);
            char *end = transaction(g, payload + form.ahead, length - form.ahead, reply, count);
            *room -= count;
            if (count > 0)
                *line_end = end;
        }
        return answer;
    case SAMPLE:
        answer = event_answer(g, length == 6);
        if (answer == DONE) {
            int32_t tick = little_16(payload + 4), intervals = g->last_tick == NONE_YET ? 1 : (tick - g->last_tick) & 0xFFFF;
            if (intervals == 0 || intervals > LONGEST_SAMPLE)
                return LATE;
            sample(g, little_32(payload), intervals);
            g->last_tick = tick;
        }
        return answer;
    case POWER_ON:
        answer = event_answer(g, length == 0);
        if (answer == DONE)
            power_on(g);
        return answer;
    default:
        return UNKNOWN;
    }
}

/* ---- The tray */

#ifdef TRAY

enum { SLOTS = 8, ADDRESS_BYTES = 8 };

typedef struct {
    Gauge packs[SLOTS];
    int32_t count; /* of the slots that have an image */
    bool closed;   /* no image is taken any more */
} Tray;

static uint64_t address_at(const byte *from)
{
    uint64_t value;
    memcpy(&value, from, sizeof value);
    return value;
}

/* The pack with this address, or NULL. */
static Gauge *matched(Tray *t, const byte *address)
{
    uint64_t wanted = address_at(address);
    for (Gauge *g = t->packs; g < t->packs + t->count; g++)
        if (address_at(g->pack + ADDRESS) == wanted)
            return g;
    return NULL;
}

/* What all packs have from an address on, eight bytes at a time; the memory goes on past FFh as far as any read. */
static char *read_every(const Tray *t, int32_t address, char *out, int32_t count)
{
    uint64_t line[LONGEST_READ / 8];
    for (int32_t word = 0; 8 * word < count; word++) {
        line[word] = ~UINT64_C(0);
        for (int32_t slot = 0; slot < t->count; slot++)
            line[word] &= address_at(t->packs[slot].memory + address + 8 * word);
    }
    return put_hex(out, (const byte *)line, count);
}

static char *command_every(Tray *t, const byte *master, int32_t masters, char *out, int32_t count)
{
    if (masters >= 2 && master[0] == 0x69)
        return read_every(t, master[1], out, count);
    for (int32_t slot = 0; slot < t->count; slot++)
        function_command(&t->packs[slot], master, masters, out, 0);
    return put_ff(out, count);
}

/* The addresses of all packs whose command this is. */
static char *name_every(const Tray *t, int32_t command, char *out, int32_t count)
{
    uint64_t line = ~UINT64_C(0);
    int32_t shown = count < ADDRESS_BYTES ? count : ADDRESS_BYTES;
    for (int32_t slot = 0; slot < t->count; slot++)
        if (command == ((t->packs[slot].memory[CONTROL] & RNAOP) != 0 ? 0x39 : 0x33))
            line &= address_at(t->packs[slot].pack + ADDRESS);
    return put_ff(put_hex(out, (const byte *)&line, shown), count - shown);
}

static char *tray_transaction(Tray *t, const byte *master, int32_t masters, char *out, int32_t count)
{
    int32_t first = masters > 0 ? master[0] : 0;
    if (first == 0xCC)
        return command_every(t, master + 1, masters - 1, out, count);
    if (first == 0x55 && masters >= 9) {
        Gauge *g = matched(t, master + 1);
        return g ? function_command(g, master + 9, masters - 9, out, count) : put_ff(out, count);
    }
    if (first == 0x33 || first == 0x39)
        return name_every(t, first, out, count);
    return put_ff(out, count);
}

static int32_t tray_image(Tray *t, const byte *payload, int32_t length, bool ds2775)
{
    if (!image_fits(length, ds2775))
        return MISSIZED;
    if (t->closed || t->count == SLOTS)
        return MISPLACED;
    int32_t answer = image_answer(payload, ds2775);
    if ((answer == DONE || answer == CROSSED) && matched(t, payload))
        return REPEATED;
    if (answer == DONE)
        accept_image(&t->packs[t->count++], payload, ds2775);
    return answer;
}

/* As `record`, of a tray. */
static inline int32_t tray_record(Tray *t, int32_t kind, const byte *payload, int32_t length, char *reply, char **line_end, int32_t *room)
{
    static Gauge nobody; /* in each slot that has no image */
    int32_t answer;
    Form form = form_of(kind);
    switch (kind) {
    case IMAGE:
    case DS2775_IMAGE:
        return tray_image(t, payload, length, kind == DS2775_IMAGE);
    case TRANSACTION:
    case LONG_TRANSACTION:
        answer = transaction_answer(&t->packs[0], form, payload, length, *room);
        if (answer == DONE) {
            int32_t count = read_count(form, payload);
            char *end = tray_transaction(t, payload + form.ahead, length - form.ahead, reply, count);
            *room -= count;
            if (count > 0)
                *line_end = end;
            t->closed = true;
        }
        return answer;
    case READING + SLOTTED:
    case CONVERSION + SLOTTED:
    case POWER_ON + SLOTTED:
    case SAMPLE + SLOTTED:
        if (length == 0)
            return MISSIZED;
        answer = record(payload[0] < t->count ? &t->packs[payload[0]] : &nobody, kind - SLOTTED, payload + 1, length - 1, reply, line_end, room);
        t->closed |= answer == DONE;
        return answer;
    default:
        return UNKNOWN;
    }
}

typedef Tray Subject;
#define RECORD tray_record
#else
typedef Gauge Subject;
#define RECORD record
#endif

/* ---- The lines */

/* The number of a line, counted as text. */
typedef struct {
    char digits[8];
    size_t length;
} Number;

static void count_up(Number *number)
{
    size_t at = number->length - 1;
    while (number->digits[at] == '9') {
        number->digits[at] = '0';
        if (at == 0) { /* all were 9: the 1 takes the first place, and a 0 comes after the last */
            number->digits[number->length++] = '0';
            break;
        }
        at--;
    }
    number->digits[at]++;
}

static char *put_text(char *out, const char *text)
{
    size_t length = strlen(text);
    memcpy(out, text, length);
    return out + length;
}

static char *run(const byte *at, const byte *end, char *out)
{
    static Subject subject;
    int32_t room = REPLY_ROOM;
    Number number = {"0", 1};
    while (at < end) {
        count_up(&number);
        memcpy(out, number.digits, sizeof number.digits);
        out += number.length;
        if (end - at < HEADER || end - at - HEADER < little_16(at))
            return put_text(out, " ---- 2 -\n");
        int32_t length = little_16(at), kind = little_16(at + 2);
        char *reply = out + 8, *line_end = reply + 1;
        memcpy(out, " .... . -", 9); /* a reply goes over the dash */
        put_pair(out + 1, kind >> 8);
        put_pair(out + 3, kind & 0xFF);
        int32_t answer = RECORD(&subject, kind, at + HEADER, length, reply, &line_end, &room);
        out[6] = (char)('0' + answer);
        if (answer > 9) { /* two digits, and no reply */
            memcpy(out + 6, "1. -", 4);
            out[7] = (char)('0' + answer - 10);
            line_end = out + 10;
        }
        *line_end = '\n';
        out = line_end + 1;
        at += HEADER + length;
    }
    return out;
}

int main(void)
{
    static byte session[SESSION_LIMIT + 1];
    static char text[TEXT_ROOM];
    size_t size = 0;
    ssize_t count = 1;
    while (count > 0 && size < sizeof session) {
        count = read(STDIN_FILENO, session + size, sizeof session - size);
        size += count > 0 ? (size_t)count : 0;
    }
    char *out = put_text(text, "record kind answer reply\n");
    out = size > SESSION_LIMIT ? put_text(out, "0 ---- 1 -\n") : run(session, session + size, out);
    for (const char *from = text; from < out && count >= 0; from += count)
        count = write(STDOUT_FILENO, from, (size_t)(out - from));
    return count < 0;
}
