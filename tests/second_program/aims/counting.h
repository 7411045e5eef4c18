/* How a thing is counted and told, and the rules of second.c that the aims use. */

typedef struct Thing {
    const char *name;
    long long times;
    struct Thing *next;
} Thing;

static Thing *things;
static long long reads_of[256], writes_of[256];

#define SAW(condition, text)                            \
    do {                                                \
        static Thing thing = {text, 0, NULL};           \
        if ((condition) && thing.times++ == 0) {        \
            thing.next = things;                        \
            things = &thing;                            \
        }                                               \
    } while (0)

static void tell_reached(void)
{
    static char together[1 << 16]; /* and not each line by itself, as to standard error else */
    setvbuf(stderr, together, _IOFBF, sizeof together);
    for (const Thing *thing = things; thing != NULL; thing = thing->next)
        fprintf(stderr, "%lld %s\n", thing->times, thing->name);
    for (int at = 0; at < 256; at++) {
        fprintf(stderr, "%lld read: %02Xh\n", reads_of[at], at);
        fprintf(stderr, "%lld write: %02Xh\n", writes_of[at], at);
    }
}

/* Rules of second.c that are used here. */
static int32_t little_endian_16(const byte *from);
static int32_t little_endian_signed_32(const byte *from);
static int32_t crc(const byte *from, int32_t count);
static int32_t tick_of(const byte *payload);
static int32_t elapsed(const Gauge *g, int32_t tick);
static bool tick_fits(const Gauge *g, int32_t tick);
static int32_t signed_byte(int32_t value);
static int32_t parameter(const Gauge *g, int32_t address);
static int32_t signed_parameter(const Gauge *g, int32_t address);
static int32_t wide_parameter(const Gauge *g, int32_t address);
static int32_t age_scaled_full(const Gauge *g);
static int32_t counted(const Gauge *g, int32_t c);
static int32_t segment(const Gauge *g, int32_t t);
static int32_t nearest_degree(int32_t temperature);
static bool in_block_0(int32_t address);
static bool in_block_1(int32_t address);
static int32_t signed_byte(int32_t value);
static int32_t take_image_out(const Gauge *g, byte *image);
static bool is_image(int32_t kind);
static int32_t image_bytes(bool ds2775);
static int32_t family_code(int32_t kind);
static bool length_fits(int32_t kind, int32_t length);
static bool is_transaction(int32_t kind);
static int32_t count_size(int32_t kind);
static int32_t read_count(int32_t kind, const byte *payload);
static int32_t read_limit(int32_t kind);
static bool breakpoints_ordered(const byte *image);
static int32_t judged(const Gauge *g, int32_t room_left, int32_t kind, const byte *payload, int32_t length);
static int32_t read_at(const Gauge *g, int32_t address);

/* Whether a shadow or an EEPROM holds breakpoints that no image may have. */
static bool crossed(const byte *memory) { return !breakpoints_ordered(memory + TBP34 - 0x34); }
