/* damaged.c SEED TIMES: hands the library, one pack and a tray in turn, damaged states, records and rooms of any size, by the thousand, from memory
 * with a page that cannot be touched on both sides. Each call is made three times: with each buffer at the front of its pages, at their end, and in
 * memory of its own size from malloc, over which AddressSanitizer watches where this is built with it. All must say and leave the same, nothing
 * outside of a buffer may change, a refusal may change nothing, and a state that is accepted must be accepted again after the record. */
#include <stdio.h>
#include <stdlib.h>
#include <sys/mman.h>
#include <trovimbe.h>
#include <unistd.h>

#define PAGES 2u
#define CANARY 0x5C

static size_t page;
static uint64_t seed;

static uint32_t drawn(uint32_t below) {
    seed = seed * 6364136223846793005u + 1442695040888963407u;
    return (uint32_t)(seed >> 33) % below;
}

/* Pages between two that cannot be touched. */
static uint8_t *fenced(void) {
    uint8_t *all = mmap(NULL, (PAGES + 2) * page, PROT_NONE, MAP_PRIVATE | MAP_ANONYMOUS, -1, 0);
    if (all == MAP_FAILED || mprotect(all + page, PAGES * page, PROT_READ | PROT_WRITE)) exit(2);
    return all + page;
}

struct lent {
    uint8_t *pages, *at, before[PAGES * 65536];
    size_t size;
};

static void lay(struct lent *l, const uint8_t *bytes, size_t size, int at_end) {
    memset(l->pages, CANARY, PAGES * page);
    l->size = size;
    l->at = at_end == 2 ? malloc(size) : at_end ? l->pages + PAGES * page - size : l->pages;
    if (size) memcpy(l->at, bytes, size);
    memcpy(l->before, bytes, size);
}

static void untouched(const struct lent *l, const char *what) {
    for (uint8_t *p = l->pages; p < l->pages + PAGES * page; p++)
        if (((uintptr_t)p < (uintptr_t)l->at || (uintptr_t)p >= (uintptr_t)l->at + l->size) && *p != CANARY)
            printf("a byte outside of the %s was written\n", what), exit(1);
}

static void as_before(const struct lent *l, const char *what) {
    if (l->size && memcmp(l->at, l->before, l->size)) printf("a refusal changed the %s\n", what), exit(1);
}

static struct lent state, record, room;
static int tray;
static uint8_t state_bytes[4096], record_bytes[4096], room_bytes[4096], state_left[4096], room_left[4096];

static const uint8_t image[TROVIMBE_IMAGE_SIZE] = {
    0x3D, 0x01, 0x02, 0x03, 0x04, 0x05, 0x06, 0xAC, 'V', 'A', 'U', 'L', 'T', ' ', '3', ' ', ' ', ' ', ' ', ' ', ' ', ' ', ' ', ' ',
    0x80, 0xFE, 0x24, 0x54, 0xD2, 0x1E, 0x9A, 0x14, 0x04, 0x32, 0x27, 0x10, 0x0A, 0x14, 0x1E, 0x28,
    0x05, 0x0A, 0x14, 0x1E, 0x01, 0x02, 0x03, 0x04, 0x00, 0x00, 0x00, 0x00, 0x12, 0x00, 0xF4, 0x00, 0x88, 0x13, 0x80, 0x00};

static void random_bytes(uint8_t *out, size_t n) {
    for (size_t i = 0; i < n; i++) out[i] = (uint8_t)drawn(256);
}

/* A record: of a kind that there is, mostly, with a length that fits or nearly; or any bytes; or cut. */
static size_t a_record(void) {
    uint8_t *r = record_bytes;
    size_t n = 0;
    switch (drawn(10)) {
    case 0: n = trovimbe_make_reading(r, 300, (int32_t)drawn(1200) - 50, (int32_t)drawn(2400) - 1200); break;
    case 1: n = trovimbe_make_conversion(r, 300, (int32_t)drawn(200000) - 100000); break;
    case 2: n = trovimbe_make_sample(r, 300, (int32_t)drawn(20000) - 10000, (uint16_t)drawn(65536)); break;
    case 3: n = trovimbe_make_read(r, 300, (uint8_t)drawn(256), (uint16_t)drawn(260)); break;
    case 4: random_bytes(room_bytes, 64); n = trovimbe_make_write(r, 300, (uint8_t)drawn(256), room_bytes, drawn(64)); break;
    case 5: n = trovimbe_make_command(r, 300, (uint16_t)drawn(4), (uint8_t)(drawn(2) ? 0x48 : 0xB8), (uint8_t)(32 + 64 * drawn(2)), NULL, 0); break;
    case 6: n = trovimbe_make_power_on(r, 300); break;
    case 7:
        n = trovimbe_make_image(r, 300, image, sizeof image);
        if (!drawn(3)) r[4 + drawn(sizeof image)] = (uint8_t)drawn(256);
        break;
    case 8: random_bytes(r, n = drawn(300)); r[1] = 0; break;
    default: random_bytes(room_bytes, 300); n = trovimbe_make(r, 700, drawn(12), NULL, 0, room_bytes, drawn(280)); break;
    }
    return drawn(12) ? n : drawn((uint32_t)n + 1);
}

/* The same as an event of a slot, where it is one of a pack. */
static size_t slotted(size_t n) {
    static const uint8_t kinds[7] = {0, 0, 18, 19, 0, 21, 22};
    uint8_t *r = record_bytes;
    if (n < 4 || r[2] > 6 || !kinds[r[2]] || !drawn(20)) return n;
    memmove(r + 5, r + 4, n - 4);
    r[0]++;
    r[2] = kinds[r[2]];
    r[4] = (uint8_t)drawn(drawn(4) ? 2 : 12);
    return n + 1;
}

/* What both ways of laying the buffers leave must be the same. */
static void once(unsigned what, size_t states, size_t records, size_t rooms) {
    trovimbe_result first = {0, 0}, done;
    uint8_t slot = (uint8_t)drawn(10);
    for (int at_end = 0; at_end < 3; at_end++) {
        lay(&state, state_bytes, states, at_end);
        lay(&record, record_bytes, records, at_end);
        lay(&room, room_bytes, rooms, at_end);
        if (what == 0) done = (tray ? trovimbe_tray_record : trovimbe_record)(state.at, states, record.at, records, room.at, rooms);
        else if (what == 1 && tray) done = trovimbe_tray_image(state.at, states, slot, room.at, rooms);
        else if (what == 1) done = trovimbe_image(state.at, states, room.at, rooms);
        else done.answer = (tray ? trovimbe_tray_start : trovimbe_start)(state.at, states), done.count = 0;
        untouched(&state, "state");
        untouched(&record, "record");
        untouched(&room, "room");
        as_before(&record, "record");
        if (done.answer != 0 || what == 1) as_before(&state, "state");
        if (done.answer != 0 || what == 2) as_before(&room, "room");
        if (done.count > rooms || (done.answer && done.count)) printf("%zu bytes are said of %zu\n", done.count, rooms), exit(1);
        for (size_t i = done.count; i < rooms; i++)
            if (room.at[i] != room.before[i]) printf("a byte behind the reply was written\n"), exit(1);
        if (at_end && (done.answer != first.answer || done.count != first.count || memcmp(state.at, state_left, states) || memcmp(room.at, room_left, rooms)))
            printf("elsewhere in memory it does something else\n"), exit(1);
        first = done;
        memcpy(state_left, state.at, states);
        memcpy(room_left, room.at, rooms);
        if (at_end == 2) free(state.at), free(record.at), free(room.at);
    }
}

int main(int count, char **words) {
    unsigned long times = count > 2 ? strtoul(words[2], NULL, 10) : 1000, answers[256] = {0};
    seed = count > 1 ? strtoull(words[1], NULL, 10) : 1;
    page = (size_t)sysconf(_SC_PAGESIZE);
    state.pages = fenced(), record.pages = fenced(), room.pages = fenced();
    for (unsigned long i = 0; i < times; i++) {
        static uint8_t both[2][TROVIMBE_TRAY_SIZE];
        tray = i & 1;
        uint8_t *good = both[tray];
        size_t size = tray ? TROVIMBE_TRAY_SIZE : TROVIMBE_STATE_SIZE, states = size, records = a_record(), rooms = drawn(3) ? 256 : drawn(300);
        unsigned damage = drawn(8);
        if (tray) records = slotted(records);
        if (i % 512 < 2) (tray ? trovimbe_tray_start : trovimbe_start)(good, size);
        memcpy(state_bytes, good, size);
        if (damage == 0) state_bytes[drawn((uint32_t)size)] = (uint8_t)drawn(256);
        if (damage == 1) for (unsigned k = drawn(8); k; k--) state_bytes[drawn((uint32_t)size)] ^= (uint8_t)(1u << drawn(8));
        if (damage == 2) random_bytes(state_bytes, 1500), state_bytes[0] = (uint8_t)(drawn(3) + 128 * drawn(2)), states = drawn(3) ? size : drawn(1500);
        random_bytes(room_bytes, rooms);
        once(0, states, records, rooms);
        uint8_t answer = trovimbe_record(NULL, 0, NULL, 0, NULL, 0).answer; /* null pointers, with no bytes */
        if (answer != TROVIMBE_NO_HEADER) printf("no bytes are answered %u\n", answer), exit(1);
        memcpy(state_left, state_bytes, states);
        trovimbe_result done = (tray ? trovimbe_tray_record : trovimbe_record)(state_left, states, record_bytes, records, room_left, rooms);
        answers[done.answer]++;
        if (done.answer == 0) { /* what was left is a state */
            memcpy(good, state_left, size);
            done = (tray ? trovimbe_tray_record : trovimbe_record)(state_left, states, (const uint8_t *)"\0\0\0\0", 4, NULL, 0);
            if (done.answer != TROVIMBE_KIND) printf("no state is left\n"), exit(1);
        }
        memcpy(state_bytes, state_left, states);
        once(1, states, 0, drawn(2) ? 61 : drawn(80));
        if (i % 64 < 2) once(2, drawn(2) ? size : drawn(1500), 0, 0);
    }
    for (unsigned i = 0; i < 256; i++)
        if (answers[i]) printf("%u:%lu ", i, answers[i]);
    printf("\n");
    return 0;
}
