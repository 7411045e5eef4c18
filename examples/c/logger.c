/* logger.c: a logger's day with a pack in a cold vault, on the proved gauge, printed hour by hour.
 *
 *     ./trovimbe library
 *     gcc examples/c/logger.c -Iinclude target/staticlib/libtrovimbe.a -o logger && ./logger
 *
 * The logger takes a current each 32 ticks (112.5 s) and a voltage and a temperature each hour. It charges the pack in the morning, works in the
 * vault at -20 degrees from nine to five, and rests else. */
#include <stdio.h>
#include <trovimbe.h>

#define TICKS_AN_HOUR 1024
#define EVERY 32

/* The pack "VAULT 3", 3,125 mAh on 20 mOhm, with 1,562.5 mAh in it; docs/FORMATS.md has the image byte by byte. */
static const uint8_t image[TROVIMBE_IMAGE_SIZE] = {
    0x3D, 0x01, 0x02, 0x03, 0x04, 0x05, 0x06, 0xAC,                                                   /* net address */
    'V', 'A', 'U', 'L', 'T', ' ', '3', ' ', ' ', ' ', ' ', ' ', ' ', ' ', ' ', ' ',                   /* label */
    0x80, 0xFE, 0x24, 0x54, 0xD2, 0x1E, 0x9A, 0x14, 0x04, 0x32, 0x27, 0x10, 0x0A, 0x14, 0x1E, 0x28,   /* 60h to 6Fh */
    0x05, 0x0A, 0x14, 0x1E, 0x01, 0x02, 0x03, 0x04, 0x00, 0x00, 0x00, 0x00, 0x12, 0x00, 0xF4, 0x00,   /* 70h to 7Fh */
    0x88, 0x13, 0x80, 0x00};                                                                          /* saved ACR and AS, locks */

static uint8_t state[TROVIMBE_STATE_SIZE], record[TROVIMBE_RECORD_MAX], map[TROVIMBE_MAP_SIZE];

static int done(size_t n) {
    uint8_t answer = trovimbe_record(state, sizeof state, record, n, NULL, 0).answer;
    if (answer != TROVIMBE_DONE) fprintf(stderr, "logger: a record was refused with %u: %s\n", answer, trovimbe_meaning(answer));
    return answer == TROVIMBE_DONE;
}

/* What the day is like: the current, the voltage and the temperature of an hour. */
static double milliamperes(int hour) { return hour >= 6 && hour < 9 ? 500 : hour >= 9 && hour < 17 ? -180 : -2; }
static double volts(int hour) { return hour < 6 ? 7.6 : hour < 9 ? 7.9 + 0.1 * (hour - 6) : hour < 17 ? 7.7 - 0.12 * (hour - 9) : 6.9; }
static double degrees(int hour) { return hour >= 9 && hour < 17 ? -20 : 21.5; }

static void print_hour(int hour) {
    printf("%02d:00  %5.2f V  %8.2f mA  %6.2f C  %7.1f mAh  %3u %%  full %.1f %%, empty %.2f %% of %.0f mAh%s%s%s\n", hour,
           trovimbe_volt_v(map, TROVIMBE_DS2781), trovimbe_current_ma(map), trovimbe_temp_c(map), trovimbe_acr_mah(map), trovimbe_rarc(map),
           trovimbe_full_percent(map), trovimbe_ae_percent(map), trovimbe_full40_mah(map), trovimbe_chgtf(map) ? "  CHGTF" : "",
           trovimbe_aef(map) ? "  AEF" : "", trovimbe_learnf(map) ? "  LEARNF" : "");
}

int main(void) {
    uint8_t out[TROVIMBE_IMAGE_SIZE];
    uint16_t tick = 0;
    if (trovimbe_start(state, sizeof state) != TROVIMBE_DONE || !done(trovimbe_make_image(record, sizeof record, image, sizeof image))) return 1;
    if (trovimbe_map(state, sizeof state, map) != TROVIMBE_DONE) return 1;
    unsigned rsnsp = trovimbe_rsnsp(map);
    printf("%.7s on %.0f mOhm\n", (const char *)trovimbe_label(map), trovimbe_rsns_mohm(map));
    for (int hour = 0; hour < 24; hour++) {
        int32_t volt = trovimbe_volt_counts(volts(hour), TROVIMBE_DS2781), temp = trovimbe_temp_counts(degrees(hour));
        if (!done(trovimbe_make_reading(record, sizeof record, volt, temp))) return 1;
        if (trovimbe_map(state, sizeof state, map) != TROVIMBE_DONE) return 1;
        print_hour(hour);
        int32_t current = trovimbe_current_counts(milliamperes(hour), rsnsp);
        for (int at = 0; at < TICKS_AN_HOUR; at += EVERY, tick = (uint16_t)(tick + EVERY))
            if (!done(trovimbe_make_sample(record, sizeof record, current, tick))) return 1;
    }
    trovimbe_result taken = trovimbe_image(state, sizeof state, out, sizeof out);
    printf("its image at midnight has %zu bytes; saved are %.1f mAh\n", taken.count, trovimbe_mah(map, out[56] + 256 * out[57]));
    return taken.answer == TROVIMBE_DONE ? 0 : 1;
}
