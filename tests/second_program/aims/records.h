/* Each record, and the image at the end: where the aims of plain sessions are asked for. */

static Gauge as_it_was;

static void before_record(const Gauge *g)
{
    static const Within nothing;
    as_it_was = *g;
    within = nothing;
}

static void after_record(const Gauge *is, int32_t kind, const byte *payload, int32_t length, int32_t answer, int32_t room_left)
{
    const Gauge *was = &as_it_was;
    if (kind == 7)
        saw_long(was, is, payload, length, answer, room_left);
    if (answer == 0 && is_transaction(kind) && in_the_other_form(kind, payload, length) && length > count_size(kind) + 2)
        saw_both_forms(was, kind, payload);
    saw_answer(was, kind, payload, length, answer);
    saw_camera_answer(was, kind, payload, length, answer);
    saw_flags(was, is);
    if (answer == 0)
        saw_cycle_cell(was, is, kind);
    if (was->accepted && (answer != 0 || !is_transaction(kind)))
        saw_class(kind, answer, 1, 0, false);
    saw_late(was, kind, payload, length, answer);
    saw_left(was, kind, payload, length, answer);
    refused_since = refused_since || answer == 11;
    if (answer != 0)
        return;
    switch (kind) {
    case 1:
    case 8: saw_power_on(was, is); break;
    case 2: saw_reading(was, is, little_endian_signed_32(payload), little_endian_signed_32(payload + 4)); break;
    case 3:
        saw_conversion(was, is, little_endian_signed_32(payload));
        saw_each(was, is, little_endian_signed_32(payload), 1, 0);
        conversions_since++;
        break;
    case 4:
    case 7: saw_transaction(was, is, kind, payload + count_size(kind), length - count_size(kind), read_count(kind, payload)); break;
    case 6: saw_tick(was, tick_of(payload)); saw_sample(was, is, little_endian_signed_32(payload)); break;
    default: saw_power_on(was, is); break;
    }
}

/* W3.8: the image at the end of the session, given to a fresh gauge. */
static void saw_image_out(const Gauge *g)
{
    static const Gauge fresh;
    byte image[DS2775_IMAGE_BYTES];
    int32_t size = take_image_out(g, image), answer = g->accepted ? judged(&fresh, REPLY_ROOM, g->ds2775 ? 8 : 1, image, size) : -1;
    SAW(answer == 0, "image out: accepted");
    SAW(answer == 0 && g->ds2775, "image out: accepted as kind 8");
    SAW(answer == 10 && g->ds2775, "image out: refused with 10 as kind 8");
    SAW(g->ds2775 && g->cycles != g->saved_cycles, "image out: the cell is behind the counter");
    SAW(answer == 0 && crossed(g->shadow), "image out: accepted, crossed breakpoints were not copied");
    SAW(answer == 10, "image out: refused with 10");
    SAW(answer == 10 && !crossed(g->shadow), "image out: refused with 10, though the shadow is in order");
}
