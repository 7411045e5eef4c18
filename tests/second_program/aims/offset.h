/* Aims: the offset conversion, each 1024th, and the mark that a write of ACR leaves. */

static Gauge at_last_conversion;                     /* as it was before it */
static int32_t last_measured;                        /* its raw value and COB, clamped */
static int32_t since_write = -1;                     /* conversions since the last write of ACR, -1 before the first */
static bool full_last, point_last, cut_last;         /* ACR was corrected since the conversion before */

/* Whether an average of this sum would find full. */
static bool would_be_full(const Gauge *was, int32_t sum)
{
    int32_t limit = 32 * parameter(was, IMIN) - 1;
    bool small = 8 <= sum && sum < 8 * (limit + 1), was_small = was->had_average && 1 <= was->iavg && was->iavg <= limit;
    return small && was_small && was->read_since_average && was->lowest_voltage > 4 * parameter(was, VCHG);
}

/* W7.1, W7.5 and W7.6, of a conversion, or of one of a sample's: place is from 1, and ticks is 0 for a conversion. */
static void saw_offset(const Gauge *was, const Gauge *is, int32_t measured, int32_t place, int32_t ticks)
{
    const Gauge *last = &at_last_conversion;
    int32_t c = is->current, cob = parameter(was, COB), bias = parameter(was, AB);
    bool differs = measured != c, adds = !was->acr_written;
    offsets++;
    SAW(ticks == 0, "offset: a 1024th, a conversion");
    SAW(ticks == 1, "offset: a 1024th, a sample of 1 tick");
    SAW(ticks > 1 && place == 1, "offset: a 1024th, the first of a sample");
    SAW(place > 1 && place < ticks, "offset: a 1024th, within a sample");
    SAW(ticks > 1 && place == ticks, "offset: a 1024th, the last of a sample");
    SAW(offsets == 2 && differs, "offset: the 2048th since power-on");
    SAW(offsets == 3 && differs, "offset: the 3072nd since power-on");
    SAW(differs && ticks == 0, "offset: the raw value of a conversion is another");
    SAW(differs && ticks > 1, "offset: the raw value of a sample is another");
    SAW(differs && measured == was->current + signed_byte(cob) && cob != 0, "offset: the raw value is c, before COB is added");
    SAW(differs && cob != 0 && parameter(last, COB) != cob, "offset: COB was written since the c before it");
    SAW(adds && bias != parameter(last, AB), "offset: AB was written since the c before it");
    SAW(adds && bias != 0, "offset: AB is added");
    SAW(adds && counted(was, c) != c && counted(was, measured) == measured, "offset: c is blanked, the raw value would not be");
    SAW(adds && counted(was, c) == c && counted(was, measured) != measured, "offset: c is counted, the raw value would be blanked");
    SAW(adds && counted(was, c) != counted(last, c), "offset: NBEN was written since the c before it");
    SAW(full_now && !would_be_full(was, was->run_sum + measured), "offset: full is found, the raw value would not fit");
    SAW(!full_now && would_be_full(was, was->run_sum + measured), "offset: full is not found, the raw value would fit");
    SAW(was->learnf && is->learnf && c >= 0 && measured < 0, "offset: LEARNF stays, the raw value is below 0");
}

/* W7.2 and W7.7 to W7.11. */
static void saw_mark(const Gauge *was, const Gauge *is, int32_t measured, int32_t place, int32_t ticks)
{
    bool both = offset_due(was), c_and_bias = counted(was, is->current) != 0 && parameter(was, AB) != 0;
    SAW(ticks == 0 && c_and_bias, "mark: a conversion adds nothing");
    SAW(ticks == 1 && c_and_bias, "mark: a sample of 1 tick adds nothing");
    SAW(ticks > 1 && place == 1 && c_and_bias, "mark: the first of a sample adds nothing");
    SAW(was->conversions == 1022, "mark: on a 1023rd");
    SAW(both && ticks == 0 && measured != is->current, "mark: on a 1024th, a conversion");
    SAW(both && ticks > 1 && measured != is->current, "mark: on a 1024th, the first of a sample");
    SAW(was->conversions == 0 && was->currents > 0, "mark: on a 1025th");
    SAW(is->as < was->as && !full_now, "mark: AS falls");
    SAW(wide_parameter(was, AC) == 0 && was->age_counter > 0, "mark: AC = 0 zeroes the counter");
    SAW(is->run == 0, "mark: an average is formed");
    SAW(full_now, "mark: full is found");
}

/* Each conversion, those of samples too. */
static void saw_each(const Gauge *was, const Gauge *is, int32_t raw, int32_t place, int32_t ticks)
{
    int64_t sum = (int64_t)raw + signed_parameter(was, COB);
    int32_t measured = (int32_t)(sum < -32768 ? -32768 : sum > 32767 ? 32767 : sum);
    bool adds = added(was, is->current) != 0;
    if (offset_due(was))
        saw_offset(was, is, measured, place, ticks);
    if (was->acr_written)
        saw_mark(was, is, measured, place, ticks);
    if (was->ds2775)
        saw_cycles(was, is, place, ticks);
    saw_full_thresholds(was, is, full_now);
    SAW(since_write == 1 && adds && ticks == 0, "mark: the second conversion after a write adds");
    SAW(since_write == 1 && adds && place == 2, "mark: the second of a sample adds");
    SAW(full_last && adds, "mark: none after full, a conversion adds");
    SAW(point_last && adds, "mark: none after the empty point, a conversion adds");
    SAW(cut_last && adds, "mark: none after ACR was cut to E, a conversion adds");
    since_write += since_write >= 0;
    full_last = full_now;
    full_now = point_last = cut_last = false;
    at_last_conversion = *was;
    last_measured = measured;
}

/* W7.3 and W7.12: what leaves the count and the mark, of a record that is refused or no conversion. */
static void saw_left(const Gauge *was, int32_t kind, const byte *payload, int32_t length, int32_t answer)
{
    static const byte acr_write[3] = {0xCC, 0x6C, 0x10};
    bool asks_acr = kind == 4 && length >= 6 && memcmp(payload + 1, acr_write, 3) == 0, refused = answer != 0;
    SAW(refused && asks_acr && !was->acr_written && answer == 4, "mark: not set, the write is refused with 4");
    SAW(refused && asks_acr && !was->acr_written && answer == 8, "mark: not set, the write is refused with 8");
    SAW(refused && asks_acr && !was->acr_written && answer == 9, "mark: not set, the write is refused with 9");
    SAW(answer == 4 && kind == 3 && was->acr_written, "mark: stays, a conversion is refused");
    SAW(answer == 11 && was->acr_written, "mark: stays, a sample is refused");
    SAW(!refused && kind == 2 && was->acr_written, "mark: stays at a reading");
    SAW(!refused && is_transaction(kind) && was->acr_written, "mark: stays at a transaction");
    SAW(answer == 4 && kind == 3 && offset_due(was), "offset: a conversion is refused where a 1024th is due");
    SAW(answer == 11 && offset_due(was), "offset: a sample is refused where a 1024th is due");
}
