/* Aims: trays: each answer, and what opens and closes a tray. */

static bool has_slot(int32_t kind);
static int32_t slot_with(const Tray *t, const byte *address);

static void saw_tray_end(int32_t answer)
{
    SAW(answer == 1, "tray answer: 1");
    SAW(answer == 2, "tray answer: 2");
}

/* W8.6, W8.7. */
static void saw_tray_kind(int32_t kind, int32_t length, int32_t answer)
{
    SAW(answer == 3 && kind == 2, "tray answer: 3 for the kind of a plain reading");
    SAW(answer == 3 && kind == 3, "tray answer: 3 for the kind of a plain conversion");
    SAW(answer == 3 && kind == 5, "tray answer: 3 for the kind of a plain power-on");
    SAW(answer == 3 && kind == 6, "tray answer: 3 for the kind of a plain sample");
    SAW(answer == 3 && kind == 9, "tray answer: 3 for kind 9");
    SAW(answer == 3 && kind == 20, "tray answer: 3 for kind 20");
    SAW(answer == 3 && kind > 255 && has_slot(kind % 256), "tray answer: 3 for a kind whose low byte is known");
    SAW(answer == 4 && kind == 1, "tray answer: 4 for an image");
    SAW(answer == 4 && kind == 8 && length == 60, "tray camera: 4 for 60 bytes");
    SAW(answer == 4 && kind == 8 && length == 62, "tray camera: 4 for 62 bytes");
    SAW(answer == 4 && kind == 4 && length == 0, "tray answer: 4 for a transaction without a count");
    SAW(answer == 4 && kind == 4 && length == 66, "tray answer: 4 for a transaction of 66 bytes");
    SAW(answer == 4 && kind == 18 && length == 8, "tray answer: 4 for a reading of 8 bytes");
    SAW(answer == 4 && kind == 18 && length == 10, "tray answer: 4 for a reading of 10 bytes");
    SAW(answer == 4 && kind == 19 && length == 4, "tray answer: 4 for a conversion of 4 bytes");
    SAW(answer == 4 && kind == 19 && length == 6, "tray answer: 4 for a conversion of 6 bytes");
    SAW(answer == 4 && kind == 21 && length == 0, "tray answer: 4 for a power-on without a slot");
    SAW(answer == 4 && kind == 21 && length == 2, "tray answer: 4 for a power-on of 2 bytes");
    SAW(answer == 4 && kind == 22 && length == 6, "tray answer: 4 for a sample of 6 bytes");
    SAW(answer == 4 && kind == 22 && length == 8, "tray answer: 4 for a sample of 8 bytes");
    SAW(answer == 4 && has_slot(kind) && length == 0, "tray answer: 4 for an event without a slot");
}

/* W8.2, W8.3, W8.9 to W8.11: an image of its size. */
static void saw_tray_image(const Tray *was, int32_t kind, const byte *image, int32_t answer)
{
    bool wrong_address = image[0] != family_code(kind) || image[7] != crc(image, 7), wrong_locks = image[59] > 3, wrong = !breakpoints_ordered(image);
    int32_t known = slot_with(was, image);
    bool full = was->count == SLOTS, other_kind = was->count > 0 && was->packs[was->count - 1].ds2775 != (kind == 8);
    SAW(answer == 0 && kind == 8, "tray camera: an image");
    SAW(answer == 0 && other_kind, "tray camera: images of both kinds");
    SAW(answer == 0 && other_kind && memcmp(image + 1, was->packs[was->count - 1].address + 1, 6) == 0,
        "tray camera: an address that differs in the family alone");
    SAW(answer == 5 && kind == 8 && was->closed, "tray camera: 5 once the tray is closed");
    SAW(answer == 5 && kind == 8 && full && !was->closed, "tray camera: 5 for a ninth");
    SAW(answer == 6 && kind == 8 && image[0] == 0x3D && image[7] == crc(image, 7), "tray camera: 6 for the family of kind 1");
    SAW(answer == 6 && kind == 1 && image[0] == 0x32 && image[7] == crc(image, 7), "tray camera: 6 for its family in kind 1");
    SAW(answer == 7 && kind == 8, "tray camera: 7");
    SAW(answer == 12 && kind == 8, "tray camera: 12");
    SAW(answer == 10 && kind == 8, "tray camera: 10");
    SAW(answer == 0 && was->count == 0, "tray opening: an image in slot 0");
    SAW(answer == 0 && was->count == SLOTS - 1, "tray opening: an image in slot 7");
    SAW(answer == 0 && was->count > 0 && memcmp(image, was->packs[was->count - 1].address, 6) == 0,
        "tray opening: an address that differs from the one before in its last two bytes");
    SAW(answer == 5 && was->closed && !full, "tray opening: an image after it was closed");
    SAW(answer == 5 && full && !was->closed, "tray opening: a ninth image");
    SAW(answer == 5 && full && !was->closed && !wrong_address && !wrong_locks && !wrong && known < 0, "tray opening: a ninth image that is good");
    SAW(answer == 5 && was->closed && !wrong_address && !wrong_locks && !wrong && known < 0, "tray opening: a good image after it was closed");
    SAW(answer == 5 && known >= 0, "tray answer: 5 where 12 would come next");
    SAW(answer == 5 && wrong_address, "tray answer: 5 where 6 would come next");
    SAW(answer == 6 && wrong_locks, "tray answer: 6 where 7 would come next");
    SAW(answer == 7 && known >= 0, "tray answer: 7 where 12 would come next");
    SAW(answer == 12 && wrong, "tray answer: 12 where 10 would come next");
    SAW(answer == 12 && !wrong, "tray answer: 12 alone");
    SAW(answer == 12 && known == 0 && was->count > 1, "tray answer: 12 for the address of slot 0 among others");
    SAW(answer == 12 && known == was->count - 1 && was->count > 1, "tray answer: 12 for the address of the last slot");
    SAW(answer == 10, "tray answer: 10");
    SAW((answer == 6 || answer == 7 || answer == 10 || answer == 12) && was->count > 0, "tray opening: goes on after an image that is refused");
}

/* W8.8, W8.11: an event of its size that is no image. */
static void saw_tray_event_answer(const Tray *was, int32_t kind, const byte *payload, int32_t answer)
{
    int32_t slot = has_slot(kind) ? payload[0] : 0;
    SAW(answer == 5 && was->count == 0 && kind == 4, "tray answer: 5 for a transaction before an image");
    SAW(answer == 5 && was->count == 0 && is_transaction(kind) && read_count(kind, payload) > read_limit(kind), "tray answer: 5 where 8 would come next");
    SAW(answer == 5 && was->count == 0 && slot == 0 && kind == 18, "tray answer: 5 for a reading before an image");
    SAW(answer == 5 && was->count == 0 && slot == 0 && kind == 19, "tray answer: 5 for a conversion before an image");
    SAW(answer == 5 && was->count == 0 && slot == 0 && kind == 21, "tray answer: 5 for a power-on before an image");
    SAW(answer == 5 && was->count == 0 && slot == 0 && kind == 22, "tray answer: 5 for a sample before an image");
    SAW(answer == 5 && was->count > 0 && slot == was->count && kind == 18, "tray answer: 5 for a reading at the first slot that is not there");
    SAW(answer == 5 && was->count > 0 && slot == was->count && kind == 19, "tray answer: 5 for a conversion at the first slot that is not there");
    SAW(answer == 5 && was->count > 0 && slot == was->count && kind == 21, "tray answer: 5 for a power-on at the first slot that is not there");
    SAW(answer == 5 && was->count > 0 && slot == was->count && kind == 22, "tray answer: 5 for a sample at the first slot that is not there");
    SAW(answer == 5 && was->count == SLOTS && slot == 8, "tray answer: 5 for slot 8 of eight packs");
    SAW(answer == 5 && was->count == SLOTS && slot == 255, "tray answer: 5 for slot 255 of eight packs");
    SAW(answer == 8, "tray answer: 8");
    SAW(answer == 9, "tray answer: 9");
    SAW(answer == 9 && payload[count_size(kind)] == 0xCC, "tray answer: 9 for a Skip");
    SAW(answer == 11, "tray answer: 11");
}

/* W8.3: what closes the opening, and what leaves it open. */
static void saw_tray_closed(const Tray *was, int32_t kind, const byte *payload, int32_t length, int32_t answer)
{
    int32_t ahead = count_size(kind), first = is_transaction(kind) && length > ahead ? payload[ahead] : -1;
    bool whole = length >= ahead + 9, known = whole && slot_with(was, payload + ahead + 1) >= 0;
    if (was->closed || was->count == 0 || is_image(kind))
        return;
    SAW(answer == 0 && kind == 18, "tray opening: closed by a reading");
    SAW(answer == 0 && kind == 19, "tray opening: closed by a conversion");
    SAW(answer == 0 && kind == 21, "tray opening: closed by a power-on");
    SAW(answer == 0 && kind == 22, "tray opening: closed by a sample");
    SAW(answer == 0 && first == 0xCC, "tray opening: closed by a Skip");
    SAW(answer == 0 && first == 0x55 && known, "tray opening: closed by a transaction that is matched");
    SAW(answer == 0 && first == 0x55 && !known, "tray opening: closed by a match of nobody");
    SAW(answer == 0 && is_transaction(kind) && first == -1, "tray opening: closed by a transaction without a byte");
    SAW(answer == 0 && kind == 7, "tray opening: closed by a long transaction");
    SAW(answer == 3, "tray opening: left open by a record refused with 3");
    SAW(answer == 4, "tray opening: left open by a record refused with 4");
    SAW(answer == 5, "tray opening: left open by a record refused with 5");
    SAW(answer == 8, "tray opening: left open by a record refused with 8");
}
