/* walk.c [THREADS]: reads sessions on standard input and runs each record by record through the library. A session is a byte that says whether it is
 * one of a tray, 4 bytes of its length, low byte first, and its bytes. Between two records the state moves to other memory, and the memory that it
 * leaves is overwritten; the records of a session share a room of 65,536 bytes for their replies, as in `session`. Prints what `session` prints, then
 * the image at the end, of a tray that of each slot and of slot 8, and a line `end`. So many threads run all sessions at once, each with states of its
 * own: what the first says is printed, and the others have to say the same. With WRONG a byte of a reply is told wrong, which must be seen. */
#include <pthread.h>
#include <stdarg.h>
#include <stdio.h>
#include <stdlib.h>
#include <trovimbe.h>

#define ROOM 65536

static uint8_t *input;
static size_t given;

struct text {
    char *bytes;
    size_t used, room;
};

static void say(struct text *text, const char *form, ...) {
    va_list words;
    if (text->room - text->used < 4096) text->bytes = realloc(text->bytes, text->room = 2 * text->room + 8192);
    va_start(words, form);
    text->used += (size_t)vsnprintf(text->bytes + text->used, text->room - text->used, form, words);
    va_end(words);
}

static void hex(struct text *text, const uint8_t *bytes, size_t n) {
    for (size_t i = 0; i < n; i++) say(text, "%02x", bytes[i]);
    say(text, n ? "\n" : "-\n");
}

static void session(struct text *text, const uint8_t *bytes, size_t n, int tray) {
    size_t size = tray ? TROVIMBE_TRAY_SIZE : TROVIMBE_STATE_SIZE, at = 0, number = 0, used = 0;
    uint8_t *state = malloc(size), *reply = malloc(ROOM);
    if ((tray ? trovimbe_tray_start : trovimbe_start)(state, size) != TROVIMBE_DONE) say(text, "not started\n");
    while (at < n) {
        uint8_t *elsewhere = malloc(size);
        memcpy(elsewhere, state, size);
        memset(state, 0xA5, size);
        free(state);
        state = elsewhere;
        trovimbe_result done = (tray ? trovimbe_tray_record : trovimbe_record)(state, size, bytes + at, n - at, reply + used, ROOM - used);
        number++;
        if (done.answer == TROVIMBE_CUT || done.answer == TROVIMBE_NO_HEADER) {
            say(text, "%zu ---- %s -\n", number, (done.answer == TROVIMBE_NO_HEADER) == (n - at < 4) ? "2" : "wrong");
            break;
        }
#ifdef WRONG
        if (done.count && number == 7) reply[used] ^= 1;
#endif
        say(text, "%zu %02x%02x %u ", number, bytes[at + 3], bytes[at + 2], done.answer);
        hex(text, reply + used, done.count);
        used += done.count;
        at += trovimbe_record_size(bytes + at, n - at);
    }
    uint8_t image[TROVIMBE_CAMERA_SIZE];
    for (uint8_t slot = 0; slot < (tray ? 9 : 1); slot++) {
        trovimbe_result taken = tray ? trovimbe_tray_image(state, size, slot, image, sizeof image) : trovimbe_image(state, size, image, sizeof image);
        say(text, "image %u ", taken.answer);
        hex(text, image, taken.count);
    }
    say(text, "end\n");
    free(state);
    free(reply);
}

static void *all(void *to) {
    struct text *text = to;
    for (size_t at = 0; at + 5 <= given;) {
        size_t n = input[at + 1] + 256u * input[at + 2] + 65536u * input[at + 3] + 16777216u * (size_t)input[at + 4];
        session(text, input + at + 5, n, input[at]);
        at += 5 + n;
    }
    return NULL;
}

int main(int count, char **words) {
    int threads = count > 1 ? atoi(words[1]) : 1, differ = 0;
    size_t room = 0, got;
    pthread_t started[16];
    struct text texts[16] = {{0}};
    do {
        if (room - given < 65536) input = realloc(input, room = 2 * room + 131072);
        given += got = fread(input + given, 1, room - given, stdin);
    } while (got);
    for (int i = 0; i < threads && i < 16; i++)
        if (pthread_create(&started[i], NULL, all, &texts[i])) return 2;
    for (int i = 0; i < threads && i < 16; i++) {
        pthread_join(started[i], NULL);
        differ |= texts[i].used != texts[0].used || memcmp(texts[i].bytes, texts[0].bytes, texts[0].used);
    }
    fwrite(texts[0].bytes, 1, texts[0].used, stdout);
    if (differ) printf("the threads differ\n");
    for (int i = 0; i < 16; i++) free(texts[i].bytes);
    free(input);
    return differ;
}
