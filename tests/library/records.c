/* records.c: prints a record of each helper, in hex, a line each, and each again in a room that is a byte too small, which must be 0 bytes. */
#include <stdio.h>
#include <trovimbe.h>

static uint8_t out[TROVIMBE_RECORD_MAX + 8], bytes[300];

static void show(const char *name, size_t n) {
    printf("%s ", name);
    for (size_t i = 0; i < n; i++) printf("%02x", out[i]);
}

#define SHOW(name, ...) do { \
    size_t n = trovimbe_make_##name(out, sizeof out, __VA_ARGS__); \
    show(#name, n); \
    printf(" %zu\n", trovimbe_make_##name(out, n - 1, __VA_ARGS__)); \
} while (0)

int main(void) {
    for (size_t i = 0; i < sizeof bytes; i++) bytes[i] = (uint8_t)(i * 7 + 1);
    SHOW(image, bytes, 60);
    SHOW(image, bytes, 61);
    SHOW(image, bytes, 59);
    SHOW(reading, 772, -160);
    SHOW(reading, INT32_MIN, INT32_MAX);
    SHOW(conversion, -1280);
    SHOW(conversion, 70000);
    SHOW(sample, -120, 65530);
    show("power_on", trovimbe_make_power_on(out, sizeof out));
    printf(" %zu\n", trovimbe_make_power_on(out, 3));
    SHOW(transaction, 64, bytes, 64);
    SHOW(transaction, 0, NULL, 0);
    SHOW(long_transaction, 256, bytes, 256);
    SHOW(read, 0x0E, 2);
    SHOW(read, 0x00, 256);
    SHOW(write, 0x20, bytes, 16);
    SHOW(copy, 0x20);
    SHOW(recall, 0x60);
    SHOW(lock, 0x20);
    SHOW(slot_reading, 3, 772, -160);
    SHOW(slot_conversion, 7, -1280);
    SHOW(slot_sample, 0, -120, 65530);
    SHOW(slot_power_on, 255);
    SHOW(match_read, bytes, 0x20, 16);
    SHOW(net_address, 0);
    SHOW(net_address, 1);
    printf("%d %d %d %d %d %d\n", (int)trovimbe_current_counts(-120, 50), (int)trovimbe_volt_counts(7.41, TROVIMBE_DS2781),
           (int)trovimbe_volt_counts(3.7, TROVIMBE_DS2775), (int)trovimbe_temp_counts(-4.5), (int)trovimbe_nearest(1e300), (int)trovimbe_nearest(-1e300));
    /* a length that no sum may wrap at: nothing is written */
    volatile size_t huge = SIZE_MAX;
    if (trovimbe_make_transaction(out, sizeof out, 0, bytes, huge) || trovimbe_make_long_transaction(out, sizeof out, 0, bytes, huge)) return 1;
    if (trovimbe_make_write(out, sizeof out, 0x20, bytes, huge) || trovimbe_make_write(out, sizeof out, 0x20, bytes, huge - 4)) return 1;
    return 0;
}
