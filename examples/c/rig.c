/* rig.c: a test rig. It reads a case in words on standard input, plays it on the proved gauge, and holds it against what the case expects.
 *
 *     gcc examples/c/rig.c -Iinclude target/staticlib/libtrovimbe.a -o rig && ./rig <examples/c/cold.case
 *
 * A line is a statement, `#` starts a comment, and `\` at the end of a line goes on with the next. Bytes and addresses are hex; other numbers are
 * decimal, in V, mA, degrees C and ticks (3600/1024 s). Of a DS2775 a voltage is that of one cell.
 *
 *     image BYTE..             the pack's image, 60 bytes, or 61 of a DS2775
 *     reading VOLT DEGREES     a measured voltage and temperature
 *     conversion MA            a measured current
 *     sample MA TICKS TIMES    so many samples of a current, each so many ticks after the one before
 *     read AT COUNT            so many bytes from an address; the reply can be expected
 *     write AT BYTE..          bytes to an address on; `copy AT`, `recall AT`, `lock AT` take the block that has it
 *     power-on
 *     bytes BYTE..             any record, as it is
 *     answer NUMBER            the last record was answered so; without such a line it must be 0
 *     reply BYTE..             and replied so; `reply none`: nothing
 *     expect NAME LOW [HIGH]   what the gauge shows now is LOW, or lies between: volt, temp, current, average, charge, rarc, rsrc, aging (in %),
 *                              chgtf, aef, sef, learnf, porf
 *
 * It says each line that does not hold, and each that is not complete or not understood, with how such a line is written; at the end, how many
 * expectations held and how many faults there are. The status is 0 where there is none, 1 where there is one, and 2 where the call is wrong. */
#include <stdarg.h>
#include <stdio.h>
#include <stdlib.h>
#include <trovimbe.h>

#define MANY 1e9 /* in V, mA, degrees: far more than any pack has */
#define MOST_SAMPLES 1000000u

static uint8_t state[TROVIMBE_STATE_SIZE], record[TROVIMBE_RECORD_MAX + 8], reply[TROVIMBE_REPLY_MAX], map[TROVIMBE_MAP_SIZE];
static trovimbe_result last;
static enum trovimbe_chip chip = TROVIMBE_DS2781;
static unsigned line, lines, held, wrong, tick, unlooked; /* line: where the statement begins; unlooked: a refusal that no line has expected yet */
static int any;                                           /* whether a record was played */
static const char *form;                                  /* how the statement of this line is written */

/* ---- what is said */

static void say(const char *what, va_list words) {
    printf("line %u: ", line);
    vprintf(what, words);
    wrong++;
}

/* Something that does not hold. */
static void fault(const char *what, ...) {
    va_list words;
    va_start(words, what);
    say(what, words);
    va_end(words);
    printf("\n");
}

/* A line that is not complete, or not understood: nothing of it is played. */
static void unfit(const char *what, ...) {
    va_list words;
    va_start(words, what);
    say(what, words);
    va_end(words);
    printf("; write it as: %s\n", form);
}
#define UNFIT(...) (unfit(__VA_ARGS__), 0)

static void print_bytes(const uint8_t *some, size_t n) {
    for (size_t i = 0; i < n; i++) printf(" %02x", some[i]);
    if (!n) printf(" nothing");
}

/* ---- the words of a line. Each of these says what is wrong, and is then 0. */

static char *next(void) { return strtok(NULL, " "); }

static int ended(void) {
    const char *word = next();
    return word ? UNFIT("%s is too much here", word) : 1;
}

static int number(const char *what, double low, double high, double *to) {
    const char *word = next();
    char *end;
    if (!word) return UNFIT("%s is missing", what);
    *to = strtod(word, &end);
    if (*end) return UNFIT("%s is no number, and %s is one", word, what);
    return *to >= low && *to <= high ? 1 : UNFIT("%s is out of range: %s is %.10g to %.10g", word, what, low, high);
}

static int whole(const char *what, unsigned low, unsigned high, unsigned *to) {
    double given;
    if (!number(what, low, high, &given)) return 0;
    *to = (unsigned)given;
    return *to == given ? 1 : UNFIT("%g is no whole number, and %s is one", given, what);
}

static int byte(const char *what, const char *word, uint8_t *to) {
    if (!word) return UNFIT("%s is missing", what);
    if (strlen(word) > 2 || strspn(word, "0123456789abcdefABCDEF") != strlen(word)) return UNFIT("%s is no byte of two hex digits, and %s is one", word, what);
    *to = (uint8_t)strtoul(word, NULL, 16);
    return 1;
}

/* The bytes from this word to the end of the line, one at least. */
static int bytes(const char *word, uint8_t *out, size_t room, size_t *n) {
    *n = 0;
    do {
        if (*n == room) return UNFIT("over %zu bytes stand here", room);
        if (!byte("BYTE", word, &out[*n])) return 0;
        ++*n;
    } while ((word = next()));
    return 1;
}

/* ---- records */

/* A refusal is a fault, unless the next line expects it. */
static void settle(void) {
    unsigned here = line;
    line = unlooked;
    if (unlooked && last.answer)
        fault("refused with %u: %s; where that is right, `answer %u` belongs below it", last.answer, trovimbe_meaning(last.answer), last.answer);
    line = here;
    unlooked = 0;
}

static void run(size_t n) {
    settle();
    last = trovimbe_record(state, sizeof state, record, n, reply, sizeof reply);
    unlooked = line;
    any = 1;
}

/* A current in counts. Before an image it does not matter: the record is refused. */
static int counts(double ma, int32_t *to) {
    int shown = trovimbe_map(state, sizeof state, map) == TROVIMBE_DONE;
    unsigned rsnsp = shown ? trovimbe_rsnsp(map) : 0;
    *to = trovimbe_current_counts(ma, rsnsp);
    return !shown || rsnsp ? 1 : UNFIT("the pack states no sense resistor, 69h is 0, so mA are no counts: give its image one, or play `bytes`");
}

static void image(void) {
    uint8_t given[TROVIMBE_RECORD_MAX];
    size_t n;
    if (!bytes(next(), given, sizeof given, &n)) return;
    if (n != TROVIMBE_IMAGE_SIZE && n != TROVIMBE_CAMERA_SIZE) { unfit("%zu bytes are no image; one that is wrong on purpose is said by `bytes`", n); return; }
    run(trovimbe_make_image(record, sizeof record, given, n));
    if (!last.answer) chip = n == TROVIMBE_CAMERA_SIZE ? TROVIMBE_DS2775 : TROVIMBE_DS2781;
}

static void reading(void) {
    double v, c;
    if (number("VOLT", -MANY, MANY, &v) && number("DEGREES", -MANY, MANY, &c) && ended())
        run(trovimbe_make_reading(record, sizeof record, trovimbe_volt_counts(v, chip), trovimbe_temp_counts(c)));
}

static void conversion(void) {
    double ma;
    int32_t current;
    if (number("MA", -MANY, MANY, &ma) && ended() && counts(ma, &current)) run(trovimbe_make_conversion(record, sizeof record, current));
}

static void sample(void) {
    double ma;
    unsigned ticks, times;
    int32_t current;
    if (!number("MA", -MANY, MANY, &ma) || !whole("TICKS", 0, 65535, &ticks) || !whole("TIMES", 1, MOST_SAMPLES, &times) || !ended()) return;
    if (!counts(ma, &current)) return;
    for (unsigned i = 0; i < times; i++) run(trovimbe_make_sample(record, sizeof record, current, (uint16_t)(tick += ticks)));
}

static void read_bytes(void) {
    uint8_t at;
    unsigned count;
    if (byte("AT", next(), &at) && whole("COUNT", 0, TROVIMBE_REPLY_MAX, &count) && ended())
        run(trovimbe_make_read(record, sizeof record, at, (uint16_t)count));
}

static void write_bytes(void) {
    uint8_t at, given[TROVIMBE_RECORD_MAX - 9]; /* the longest write: Skip, 6Ch, AT and 253 bytes */
    size_t n;
    if (byte("AT", next(), &at) && bytes(next(), given, sizeof given, &n)) run(trovimbe_make_write(record, sizeof record, at, given, n));
}

static void of_block(size_t (*make)(uint8_t *, size_t, uint8_t)) {
    uint8_t at;
    if (byte("AT", next(), &at) && ended()) run(make(record, sizeof record, at));
}

static void copy(void) { of_block(trovimbe_make_copy); }
static void recall(void) { of_block(trovimbe_make_recall); }
static void lock(void) { of_block(trovimbe_make_lock); }

static void power_on(void) {
    if (ended()) run(trovimbe_make_power_on(record, sizeof record));
}

static void any_bytes(void) {
    uint8_t given[sizeof record];
    size_t n;
    if (!bytes(next(), given, sizeof given, &n)) return;
    memcpy(record, given, n);
    run(n);
}

/* ---- expectations */

static void answer(void) {
    unsigned given;
    unlooked = 0;
    if (!whole("NUMBER", 0, 255, &given) || !ended()) return;
    if (!any) fault("no record stands above that could be answered: put one there");
    else if (given != last.answer) fault("answered %u (%s), and not %u", last.answer, trovimbe_meaning(last.answer), given);
    else held++;
}

static void expect_reply(void) {
    uint8_t given[TROVIMBE_REPLY_MAX];
    size_t n = 0;
    const char *word = next();
    settle();
    if (word && !strcmp(word, "none") ? !ended() : !bytes(word, given, sizeof given, &n)) return;
    if (!any) { fault("no record stands above that could have replied: put one there"); return; }
    if (n == last.count && !memcmp(given, reply, n)) { held++; return; }
    printf("line %u: the reply is", line);
    print_bytes(reply, last.count);
    printf(", and not");
    print_bytes(given, n);
    printf("\n");
    wrong++;
}

static int shown(const char *name, double *to) {
    if (!strcmp(name, "volt")) *to = trovimbe_volt_v(map, chip);
    else if (!strcmp(name, "temp")) *to = trovimbe_temp_c(map);
    else if (!strcmp(name, "current")) *to = trovimbe_current_ma(map);
    else if (!strcmp(name, "average")) *to = trovimbe_iavg_ma(map);
    else if (!strcmp(name, "charge")) *to = trovimbe_acr_mah(map);
    else if (!strcmp(name, "rarc")) *to = trovimbe_rarc(map);
    else if (!strcmp(name, "rsrc")) *to = trovimbe_rsrc(map);
    else if (!strcmp(name, "aging")) *to = trovimbe_as_percent(map);
    else if (!strcmp(name, "chgtf")) *to = trovimbe_chgtf(map);
    else if (!strcmp(name, "aef")) *to = trovimbe_aef(map);
    else if (!strcmp(name, "sef")) *to = trovimbe_sef(map);
    else if (!strcmp(name, "learnf")) *to = trovimbe_learnf(map);
    else if (!strcmp(name, "porf")) *to = trovimbe_porf(map);
    else return UNFIT("nothing that is shown is called %s", name);
    return 1;
}

static void expect(void) {
    const char *name = next(), *more;
    char *end;
    double low, high, got = 0;
    int answered = trovimbe_map(state, sizeof state, map);
    settle();
    if (!name) { unfit("NAME is missing"); return; }
    if (!shown(name, &got) || !number("LOW", -MANY, MANY, &low)) return;
    more = next();
    high = more ? strtod(more, &end) : low;
    if (more && (*end || !(high >= low))) { unfit("%s is no HIGH, which is a number from LOW up", more); return; }
    if (!ended()) return;
    if (answered) fault("nothing is shown before an image was accepted: put one above");
    else if (got >= low - 1e-9 && got <= high + 1e-9) held++;
    else if (high > low) fault("%s is %.10g, and not %.10g to %.10g", name, got, low, high);
    else fault("%s is %.10g, and not %.10g", name, got, low);
}

/* ---- a case */

static const struct statement {
    const char *name, *form;
    void (*play)(void);
} statements[] = {
    {"image", "image BYTE.., 60 bytes, or 61 of a DS2775", image},
    {"reading", "reading VOLT DEGREES, as reading 7.41 4.5", reading},
    {"conversion", "conversion MA, as conversion -120", conversion},
    {"sample", "sample MA TICKS TIMES, as sample -120 32 96", sample},
    {"read", "read AT COUNT, as read 06 2", read_bytes},
    {"write", "write AT BYTE.., as write 20 56 41", write_bytes},
    {"copy", "copy AT, as copy 20", copy},
    {"recall", "recall AT, as recall 60", recall},
    {"lock", "lock AT, as lock 20", lock},
    {"power-on", "power-on", power_on},
    {"bytes", "bytes BYTE.., as bytes 00 00 63 00", any_bytes},
    {"answer", "answer NUMBER, as answer 11", answer},
    {"reply", "reply BYTE.., as reply 26 29, or reply none", expect_reply},
    {"expect", "expect NAME LOW [HIGH], as expect volt 7.40 7.42; NAME is volt, temp, current, average, charge, rarc, rsrc, aging, chgtf, aef, sef, "
               "learnf or porf", expect},
};

static void play(const char *name) {
    for (size_t i = 0; i < sizeof statements / sizeof *statements; i++)
        if (!strcmp(name, statements[i].name)) {
            form = statements[i].form;
            statements[i].play();
            return;
        }
    fault("no statement is called %s: write image, reading, conversion, sample, read, write, copy, recall, lock, power-on, bytes, answer, reply or expect, "
          "and behind it what the head of rig.c says", name);
}

/* Reads a statement: a line without its comment, and those that it goes on in. 0 at the end of the input. */
static int statement(char *text, size_t room) {
    size_t n = 0, left_out = 0;
    int letter, comment = 0, goes_on = 0, begun = 0; /* begun: something of this line was read */
    line = lines + 1;
    while ((letter = getchar()) != EOF || begun || goes_on) {
        begun = 1;
        if (letter != EOF && letter != '\n') {
            comment |= letter == '#';
            if (comment) continue;
            if (n < room - 1) text[n++] = (char)(letter < 32 ? ' ' : letter > 126 ? '?' : letter); /* nothing that a terminal would obey */
            else left_out++;
            continue;
        }
        lines++;
        while (n && text[n - 1] == ' ') n--;
        goes_on = n && text[n - 1] == '\\';
        if (goes_on && letter != EOF) {
            text[n - 1] = ' ';
            comment = begun = 0;
            if ((letter = getchar()) != EOF) { ungetc(letter, stdin); continue; }
        }
        text[n] = 0;
        if (goes_on) fault("the input ends where this statement is to go on: write what is missing, or take the last \\ away");
        if (left_out) fault("the statement has over %zu letters: write it in parts", room - 1);
        if (goes_on || left_out) *text = 0;
        return 1;
    }
    return 0;
}

int main(int words, char **word) {
    char text[2001];
    if (words > 1) { fprintf(stderr, "%s takes no words: give it the case on standard input, as %s <%s\n", word[0], word[0], word[1]); return 2; }
    if (trovimbe_start(state, sizeof state) != TROVIMBE_DONE) { fprintf(stderr, "%s: the library and its header do not belong together\n", word[0]); return 2; }
    while (statement(text, sizeof text)) {
        const char *name = strtok(text, " ");
        if (name) play(name);
    }
    if (ferror(stdin)) { fprintf(stderr, "%s: the case cannot be read to its end: name a file, as %s <examples/c/cold.case\n", word[0], word[0]); return 2; }
    settle();
    printf("%u expectations hold, %u faults\n", held, wrong);
    return wrong ? 1 : 0;
}
