/* Aims: transactions of kind 7, by themselves and beside the same ones of kind 4. */

/* The transaction before: a long one is often the same in the other form. */
static struct {
    int32_t kind, count, masters;
    byte master[LONG_READ_LIMIT];
} last_asked;

/* Whether this is the transaction before in its other form (W11.7); remembers it. */
static bool in_the_other_form(int32_t kind, const byte *payload, int32_t length)
{
    int32_t count = read_count(kind, payload), masters = length - count_size(kind);
    const byte *master = payload + count_size(kind);
    bool same = last_asked.kind == 11 - kind && last_asked.count == count && last_asked.masters == masters &&
                memcmp(last_asked.master, master, (size_t)masters) == 0;
    last_asked.kind = kind, last_asked.count = count, last_asked.masters = masters;
    memcpy(last_asked.master, master, (size_t)masters);
    return same;
}

/* W11.2 and W11.3, of one gauge and of a tray. */
typedef struct {
    bool none, one, two, most, too_long, before_image, too_many, low_byte, eight_first, no_room, five_first;
} LongAnswers;

static LongAnswers long_answers(int32_t length, const byte *payload, int32_t answer, int32_t room_left)
{
    bool counted = length >= 2;
    int32_t count = counted ? read_count(7, payload) : 0;
    LongAnswers saw = {
        .none = answer == 4 && length == 0, .one = answer == 4 && length == 1, .two = answer == 0 && length == 2,
        .most = answer == 0 && length == 258, .too_long = answer == 4 && length == 259, .before_image = answer == 5,
        .too_many = answer == 8 && count == 257, .low_byte = answer == 8 && count % 256 > 0 && count % 256 <= 64,
        .eight_first = answer == 8 && count > room_left, .no_room = answer == 9 && count > 64, .five_first = answer == 5 && count > 256};
    return saw;
}

/* W11.1: what is asked, of one gauge and of a tray. */
typedef struct {
    bool all, over, up_to_end, past_end, sent, unheard, named, wide_write, write_past_end, label_write, block_write;
} LongAsked;

static LongAsked long_asked(const byte *master, int32_t masters, int32_t count)
{
    int32_t at = masters > 0 && master[0] == 0xCC ? 1 : masters >= 9 && master[0] == 0x55 ? 9 : masters;
    bool heard = masters >= at + 2, read = heard && master[at] == 0x69, write = heard && master[at] == 0x6C;
    int32_t address = heard ? master[at + 1] : 0, end = address + masters - at - 2;
    LongAsked saw = {
        .all = read && address == 0 && count == 256, .over = read && count > 64, .up_to_end = read && count > 64 && address + count == 256,
        .past_end = read && count > 64 && address + count > 256, .sent = masters == 256,
        .unheard = !heard && count > 64, .named = masters > 0 && (master[0] == 0x33 || master[0] == 0x39) && count > 64,
        .wide_write = write && address <= 0x20 && end >= 0x80, .write_past_end = write && address <= 0x7F && end > 0x100,
        .label_write = write && address == 0x20 && end > 0x60, .block_write = heard && master[at] == 0x48 && masters > at + 64};
    return saw;
}

static void saw_long(const Gauge *was, const Gauge *is, const byte *payload, int32_t length, int32_t answer, int32_t room_left)
{
    LongAnswers answers = long_answers(length, payload, answer, room_left);
    SAW(answers.none, "long: 4 without a byte");
    SAW(answers.one, "long: 4 for half a count");
    SAW(answers.two, "long: 0 for a count alone");
    SAW(answers.most, "long: 0 for 258 bytes");
    SAW(answers.too_long, "long: 4 for 259 bytes");
    SAW(answers.before_image, "long: 5 before an image");
    SAW(answers.five_first, "long: 5 where 8 would come next");
    SAW(answers.too_many, "long: 8 for a count of 257");
    SAW(answers.low_byte, "long: 8 for a count whose low byte would do");
    SAW(answers.eight_first, "long: 8 where 9 would come next");
    SAW(answers.no_room, "long: 9 for a count above 64");
    if (answer != 0)
        return;
    LongAsked asked = long_asked(payload + 2, length - 2, read_count(7, payload));
    SAW(asked.all, "long: the whole map");
    SAW(asked.over, "long: a read of more than 64 bytes");
    SAW(asked.up_to_end, "long: a read of more than 64 bytes that ends at FFh");
    SAW(asked.past_end, "long: a read of more than 64 bytes past FFh");
    SAW(asked.sent, "long: 256 bytes of the master");
    SAW(asked.unheard, "long: more than 64 bytes of nobody");
    SAW(asked.named, "long: more than 64 bytes to 33h or 39h");
    SAW(asked.wide_write && memcmp(was->shadow + 0x20, is->shadow + 0x20, 16) != 0 && memcmp(was->shadow + 0x60, is->shadow + 0x60, 32) != 0,
        "long: a write over the label and block 1");
    SAW(asked.wide_write && is->acr_written, "long: a write over ACR, the label and block 1");
    SAW(asked.wide_write && was->bl1, "long: a write over a block 1 that is locked");
    SAW(asked.wide_write && was->bl0 && !was->bl1, "long: a write over a label that is locked, to block 1");
    SAW(asked.write_past_end, "long: a write from below 80h past FFh");
    SAW(asked.label_write, "long: a write from the label to block 1");
    SAW(asked.block_write && memcmp(was->eeprom, is->eeprom, sizeof was->eeprom) != 0, "long: a copy with bytes behind it");
}

/* W11.7: what both forms did, one after the other. */
static void saw_both_forms(const Gauge *was, int32_t kind, const byte *payload)
{
    const byte *master = payload + count_size(kind);
    bool skip = master[0] == 0xCC;
    SAW(kind == 7, "long: the transaction before it, as kind 4");
    SAW(kind == 4, "long: the transaction before it, as kind 7");
    SAW(skip && master[1] == 0x69 && read_count(kind, payload) == 64, "long: a read of 64 bytes in both forms");
    SAW(skip && master[1] == 0x6C && was->acr_written, "long: a write in both forms, after a write of ACR");
    SAW(skip && master[1] == 0x48, "long: a copy in both forms");
}
