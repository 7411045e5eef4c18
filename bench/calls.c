/* calls.c: the records of a session on standard input, one call of a function for each, for bench/run: by the library, whose state is bytes, or with
 * RIVAL by the function of rival.c, whose state is a struct; of a tray where TRAY is defined, which rival.c takes too. Both are called with all that a
 * caller has by hand: a record, and a room for its reply. Prints the sum of the answers, and at the end all registers, those that the line has by Skip
 * and those of each pack by Match, so that the two can be compared; nothing is printed for a record. */
#include <stdint.h>
#include <stdio.h>
#include <string.h>

static uint8_t session[1 << 16], reply[1024];

#ifdef RIVAL
#define main static __attribute__((unused)) rival_main /* not seen from outside, so that its record function is called from here alone */
#include "rival.c"
#undef main
static Subject subject;

static void start(void) {}

__attribute__((noinline)) static unsigned call(const uint8_t *record_bytes, size_t n)
{
    char *end = (char *)reply;
    int32_t room = 256;
    if (n < HEADER || n - HEADER < (size_t)little_16(record_bytes))
        return 2;
    return (unsigned)RECORD(&subject, little_16(record_bytes + 2), record_bytes + HEADER, little_16(record_bytes), (char *)reply, &end, &room);
}

static void show_map(void) { printf("%.512s\n", (const char *)reply); }
#else
#include <trovimbe.h>
#ifdef TRAY
#define RECORD trovimbe_tray_record
#define START trovimbe_tray_start
static uint8_t state[TROVIMBE_TRAY_SIZE];
#else
#define RECORD trovimbe_record
#define START trovimbe_start
static uint8_t state[TROVIMBE_STATE_SIZE];
#endif

static void start(void) { START(state, sizeof state); }

static unsigned call(const uint8_t *record_bytes, size_t n)
{
    return RECORD(state, sizeof state, record_bytes, n, reply, 256).answer;
}

/* Digit by digit, which takes the same whatever the bytes are, so that it falls out of the counts. */
static void show_map(void)
{
    static const char digits[] = "0123456789abcdef";
    for (int i = 0; i < 256; i++) {
        putchar(digits[reply[i] >> 4]);
        putchar(digits[reply[i] & 15]);
    }
    putchar('\n');
}
#endif

static size_t size_at(size_t at) { return 4 + (size_t)session[at] + 256 * (size_t)session[at + 1]; }
static int image_at(size_t at) { return (session[at + 2] == 1 || session[at + 2] == 8) && session[at + 3] == 0; }

/* The answer, and the registers where there are any: else the room has what an earlier reply left, as bytes here and as digits there. */
static void show(const uint8_t *read, size_t n)
{
    unsigned answer = call(read, n);
    printf("%u\n", answer);
    if (answer == 0)
        show_map();
}

int main(void)
{
    static const uint8_t every[] = {5, 0, 7, 0, 0, 1, 0xCC, 0x69, 0};
    static uint8_t one[] = {13, 0, 7, 0, 0, 1, 0x55, 0, 0, 0, 0, 0, 0, 0, 0, 0x69, 0};
    size_t n = fread(session, 1, sizeof session, stdin);
    unsigned long sum = 0;
    start();
    for (size_t at = 0; at + 4 <= n; at += size_at(at))
        sum += call(session + at, n - at);
    printf("%lu\n", sum);
    show(every, sizeof every);
    for (size_t at = 0; at + 12 <= n && image_at(at); at += size_at(at)) { /* images stand first, so that a longer session takes no more here */
        memcpy(one + 7, session + at + 4, 8);
        show(one, sizeof one);
    }
    return 0;
}
