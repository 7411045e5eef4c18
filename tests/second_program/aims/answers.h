/* Aims: each answer, of two that fit the first, and the classes of events. */

/* W3.1 to W3.3, of an image of its size. */
static void saw_image_answer(const byte *image, int32_t answer)
{
    int32_t low = signed_byte(image[0x36]), middle = signed_byte(image[0x35]), high = signed_byte(image[0x34]);
    bool wrong = !breakpoints_ordered(image);
    SAW(answer == 10, "answer: 10");
    SAW(answer == 10 && low == middle + 1 && middle <= high && high <= 40, "answer: 10 for a TBP12 one above TBP23 alone");
    SAW(answer == 10 && low <= middle && middle == high + 1 && high <= 40, "answer: 10 for a TBP23 one above TBP34 alone");
    SAW(answer == 10 && low <= middle && middle <= high && high == 41, "answer: 10 for a TBP34 of 41 alone");
    SAW(answer == 0 && low == middle && middle < high, "answer: 0 for equal TBP12 and TBP23");
    SAW(answer == 0 && low < middle && middle == high, "answer: 0 for equal TBP23 and TBP34");
    SAW(answer == 0 && low == middle && middle == high, "answer: 0 for three equal breakpoints");
    SAW(answer == 0 && high == 40, "answer: 0 for a TBP34 of 40");
    SAW(answer == 0 && low < 0 && high > 0, "answer: 0 for breakpoints on both sides of 0");
    SAW(answer == 5 && wrong, "answer: 5 where 10 would come next");
    SAW(answer == 6 && wrong, "answer: 6 where 10 would come next");
    SAW(answer == 7 && wrong, "answer: 7 where 10 would come next");
}

static void saw_answer(const Gauge *g, int32_t kind, const byte *payload, int32_t length, int32_t answer)
{
    bool known = kind >= 1 && kind <= 8, sized = known && length_fits(kind, length);
    bool wrong_family = sized && is_image(kind) && payload[0] != family_code(kind);
    bool wrong_crc = sized && is_image(kind) && payload[7] != crc(payload, 7);
    bool wrong_lock_byte = sized && is_image(kind) && payload[59] > 3;
    bool wrong_count = sized && is_transaction(kind) && read_count(kind, payload) > read_limit(kind);

    SAW(answer == 0, "answer: 0");
    SAW(answer == 3, "answer: 3");
    SAW(answer == 3 && kind < 256, "answer: 3 for a kind below 256");
    SAW(answer == 3 && kind % 256 >= 1 && kind % 256 <= 8, "answer: 3 for a kind whose low byte is known");
    SAW(answer == 4 && kind == 1, "answer: 4 for an image");
    SAW(answer == 4 && kind == 2, "answer: 4 for a reading");
    SAW(answer == 4 && kind == 3, "answer: 4 for a conversion");
    SAW(answer == 4 && kind == 4 && length == 0, "answer: 4 for a transaction without a count");
    SAW(answer == 4 && kind == 4 && length == 66, "answer: 4 for a transaction of 66 bytes");
    SAW(answer == 4 && kind == 5, "answer: 4 for a power-on");
    SAW(answer == 4 && kind == 6 && length == 5, "answer: 4 for a sample of 5 bytes");
    SAW(answer == 4 && kind == 6 && length == 7, "answer: 4 for a sample of 7 bytes");
    SAW(answer == 0 && kind == 4 && length == 65, "answer: 0 for a transaction of 65 bytes");
    SAW(answer == 5 && is_image(kind), "answer: 5 for a second image");
    SAW(answer == 5 && kind == 2, "answer: 5 for a reading before an image");
    SAW(answer == 5 && kind == 3, "answer: 5 for a conversion before an image");
    SAW(answer == 5 && kind == 4, "answer: 5 for a transaction before an image");
    SAW(answer == 5 && kind == 5, "answer: 5 for a power-on before an image");
    SAW(answer == 5 && kind == 6, "answer: 5 for a sample before an image");
    SAW(answer == 6 && wrong_family && !wrong_crc, "answer: 6 for the family alone");
    SAW(answer == 6 && wrong_crc && !wrong_family, "answer: 6 for the CRC alone");
    SAW(answer == 7, "answer: 7");
    SAW(answer == 7 && payload[59] == 4, "answer: 7 for the lock byte 4");
    SAW(answer == 8, "answer: 8");
    SAW(answer == 8 && kind == 4 && payload[0] == 65, "answer: 8 for a count of 65");
    SAW(answer == 9, "answer: 9");
    SAW(answer == 4 && !g->accepted, "answer: 4 where 5 would come next");
    SAW(answer == 5 && (wrong_family || wrong_crc), "answer: 5 where 6 would come next");
    SAW(answer == 5 && wrong_count, "answer: 5 where 8 would come next");
    SAW(answer == 6 && wrong_lock_byte, "answer: 6 where 7 would come next");
    if (sized && is_image(kind))
        saw_image_answer(payload, answer);
}

static void saw_end(int32_t left, int32_t answer)
{
    SAW(answer == 1, "answer: 1");
    SAW(answer == 2, "answer: 2");
    SAW(answer == 2 && left < 4, "answer: 2 for a header that is cut");
    SAW(answer == 2 && left >= 4, "answer: 2 for a payload that is cut");
}

/* K1 to K13, of a record after the image; first and last are what it touches, where first is not above last. */
static void saw_class(int32_t kind, int32_t answer, int32_t first, int32_t last, bool lock)
{
    bool touches = first <= last, inside = first >= 0x20 && last <= 0x2F, meets = first <= 0x2F && last >= 0x20;
    bool refused = answer == 3 || answer == 4 || answer == 8;
    SAW(refused, "class: gauge event, a record refused with 3, 4 or 8");
    SAW(kind == 7 && answer == 4, "class: gauge event, a long transaction refused with 4");
    SAW(kind == 7 && answer == 8, "class: gauge event, a long transaction refused with 8");
    SAW(answer == 5 || answer == 9, "class: fence, a record refused with 5 or 9");
    SAW(answer == 11, "class: gauge event, a sample refused with 11");
    if (answer != 0)
        return;
    SAW(kind == 2, "class: gauge event, a reading");
    SAW(kind == 3, "class: gauge event, a conversion");
    SAW(kind == 6, "class: gauge event, a sample");
    SAW(kind == 5, "class: fence, a power-on");
    SAW(is_transaction(kind) && !touches, "class: gauge event, a transaction that touches nothing");
    SAW(is_transaction(kind) && touches && !meets, "class: gauge event, a transaction that touches nothing of the label");
    SAW(is_transaction(kind) && touches && inside && !lock, "class: label event");
    SAW(is_transaction(kind) && touches && inside && lock, "class: fence, a lock of the label");
    SAW(is_transaction(kind) && touches && meets && !inside, "class: fence, a transaction that touches the label and more");
    SAW(kind == 7 && !touches, "class: gauge event, a long transaction that touches nothing");
    SAW(kind == 7 && touches && !meets, "class: gauge event, a long transaction that touches nothing of the label");
    SAW(kind == 7 && touches && inside && !lock, "class: label event, a long transaction");
    SAW(kind == 7 && touches && inside && lock, "class: fence, a lock of the label by a long transaction");
    SAW(kind == 7 && touches && meets && !inside, "class: fence, a long transaction that touches the label and more");
}
