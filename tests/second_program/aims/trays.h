/* Each record of a tray, and the images at the end: where the aims of trays are asked for. */

static Tray tray_as_it_was;

static void before_tray_record(const Tray *t) { tray_as_it_was = *t; }

static void after_tray_record(const Tray *is, int32_t kind, const byte *payload, int32_t length, int32_t answer, const byte *reply,
                              int32_t room_left)
{
    const Tray *was = &tray_as_it_was;
    if (kind == 7)
        saw_tray_long(was, payload, length, answer, room_left);
    if (answer == 0 && is_transaction(kind)) {
        bool again = in_the_other_form(kind, payload, length), asks = length > count_size(kind) + 2;
        SAW(again && asks && was->count > 1 && payload[count_size(kind)] == 0xCC, "tray long: a Skip in both forms");
        SAW(again && asks && was->count > 1 && payload[count_size(kind)] == 0x55, "tray long: a match in both forms");
    }
    saw_tray_kind(kind, length, answer);
    saw_tray_closed(was, kind, payload, length, answer);
    if (answer == 3 || answer == 4)
        return;
    if (is_image(kind))
        saw_tray_image(was, kind, payload, answer);
    else
        saw_tray_event_answer(was, kind, payload, answer);
    if (kind == 22 && answer != 5)
        saw_tray_tick(was, payload, answer);
    if (answer == 0 && has_slot(kind))
        saw_tray_event(was, is, kind, payload);
    if (answer == 0 && is_transaction(kind))
        saw_tray_transaction(was, is, payload + count_size(kind), length - count_size(kind), reply, read_count(kind, payload));
}

/* W8.18: the image of each slot at the end of the session, given to a fresh gauge. */
static void saw_tray_images_out(const Tray *t)
{
    static const Gauge fresh;
    for (int32_t slot = 0; slot < t->count; slot++) {
        byte image[DS2775_IMAGE_BYTES];
        int32_t size = take_image_out(&t->packs[slot], image);
        int32_t answer = judged(&fresh, REPLY_ROOM, t->packs[slot].ds2775 ? 8 : 1, image, size);
        SAW(answer == 0 && slot == 7, "tray image out: slot 7");
        SAW(answer == 0 && slot > 0, "tray image out: accepted of a slot above 0");
        SAW(answer == 0 && slot > 0 && t->packs[slot].ds2775, "tray image out: accepted as kind 8 of a slot above 0");
        SAW(answer == 10, "tray image out: refused with 10");
    }
    SAW(t->count == 0, "tray image out: none was accepted");
    SAW(t->count == 1, "tray image out: a tray of one pack");
    SAW(t->count == SLOTS, "tray image out: a tray of eight packs");
}
