/* Aims: the current, the count, ageing, the average, and full. */

/* What came within the sample that is run, interval by interval. */
typedef struct {
    int32_t intervals, averages, fulls, fitting_averages, ageing_steps, bottoms, tops, emptied;
} Within;

static Within within;

/* Step 3: what a conversion of this c adds to the count. */
static int32_t added(const Gauge *was, int32_t c)
{
    return was->acr_written ? 0 : counted(was, c) + signed_parameter(was, AB);
}

static bool offset_due(const Gauge *was) { return was->conversions == 1023; }

static bool full_now; /* by the conversion that is run */

/* C29 to C35 and W1.1, as full is found. */
static void saw_full(const Gauge *g)
{
    int64_t full_40 = wide_parameter(g, FULL_40), whole = g->full * full_40;
    int64_t learnt = whole > 0 ? (int64_t)g->acr * 2097152 / whole : 0;
    bool learns = g->learnf && full_40 > 0;
    within.fulls++;
    full_now = true;
    SAW(true, "full: found");
    SAW(g->chgtf, "full: found again, CHGTF is set");
    SAW(!g->learnf, "full: nothing is learnt, LEARNF is 0");
    SAW(g->learnf && full_40 == 0, "full: nothing is learnt, Full40 is 0");
    SAW(learns && learnt >= 63 && learnt <= 128, "full: AS learnt");
    SAW(learns && learnt < 63, "full: AS learnt, moved up to 63");
    SAW(learns && learnt > 128, "full: AS learnt, moved down to 128");
    SAW(learns && learnt == 128, "full: AS learnt, 128");
    SAW(learns && learnt > g->as && learnt <= 128, "full: AS learnt, higher than it was");
    SAW(learns && learnt < g->as && learnt >= 63, "full: AS learnt, lower than it was");
    int64_t aged = g->full * (!learns ? g->as : learnt < 63 ? 63 : learnt > 128 ? 128 : learnt) / 128 * full_40;
    SAW(aged % 16384 != 0, "full: ACR rounded up");
    SAW(aged > 0 && aged % 16384 == 0, "full: ACR exact");
}

/* An average that just does not find full, or just does. */
static void saw_average(const Gauge *was, int32_t sum)
{
    int32_t limit = 32 * parameter(was, IMIN) - 1, average = (sum - (sum % 8 + 8) % 8) / 8;
    bool small = 1 <= average && average <= limit, was_small = 1 <= was->iavg && was->iavg <= limit;
    bool above = was->lowest_voltage > 4 * parameter(was, VCHG);
    bool read = was->read_since_average, formed = was->had_average;
    SAW(sum < 0 && sum % 8 != 0, "conversion: IAVG rounded down below 0");
    SAW(small && !formed && read && above, "full: not found, the average is the first");
    SAW(formed && small && !was_small && read && above, "full: not found, the average before does not fit");
    SAW(formed && was_small && average == 0 && read && above, "full: not found, the average is 0");
    SAW(formed && was_small && average == limit + 1 && read && above, "full: not found, the average is 32 x IMIN");
    SAW(formed && small && average == limit && was_small && read && above, "full: found at an average of 32 x IMIN - 1");
    SAW(formed && small && was_small && !read, "full: not found, no reading came");
    SAW(formed && small && was_small && read && was->lowest_voltage == 4 * parameter(was, VCHG),
        "full: not found, a reading is at 4 x VCHG");
}

static void saw_conversion(const Gauge *was, const Gauge *is, int32_t raw)
{
    int64_t sum = (int64_t)raw + signed_parameter(was, COB);
    int32_t c = is->current, step = 32 * wide_parameter(was, AC);
    int64_t count = (int64_t)was->acr * 4096 + was->fraction + added(was, c);
    bool measured = !offset_due(was), adds = !was->acr_written;
    bool blanked = adds && counted(was, c) != c, whole = adds && !blanked;
    bool negative_blanking = (parameter(was, CONTROL) & NBEN) != 0;
    bool turned = c < 0 && !(was->currents > 0 && was->current < 0), emptied = count < 4096;

    SAW(measured && sum > 32767, "conversion: c clamped to 32,767");
    SAW(measured && sum < -32768, "conversion: c clamped to -32,768");
    SAW(measured && (sum > 2147483647 || sum < -2147483648LL), "conversion: raw and COB leave 32 bits");
    SAW(blanked && c == 63, "conversion: 63 is blanked");
    SAW(whole && c == 64, "conversion: 64 is counted");
    SAW(blanked && c == -15, "conversion: -15 is blanked with NBEN");
    SAW(whole && c == -16 && negative_blanking, "conversion: -16 is counted with NBEN");
    SAW(whole && c < 0 && c > -16, "conversion: a small negative c is counted without NBEN");
    SAW(blanked && signed_parameter(was, AB) != 0, "conversion: AB is counted though c is blanked");
    SAW(count < 0, "conversion: the count clamped to 0");
    SAW(count > 268435455, "conversion: the count clamped to 2^28 - 1");

    SAW(step > 0 && is->age_counter < was->age_counter && is->as < was->as, "ageing: AS falls");
    SAW(step > 0 && was->as == 128 && is->as == 127, "ageing: AS falls from 128");
    SAW(step > 0 && was->as == 64 && is->as == 63, "ageing: AS falls to 63");
    SAW(step > 0 && is->age_counter < was->age_counter && was->as == 63, "ageing: AS stays at 63 and the step is taken off");
    SAW(step > 0 && is->age_counter < was->age_counter && was->acr <= is->acr, "ageing: a step though ACR does not fall");
    SAW(step > 0 && is->age_counter >= step, "ageing: the counter is above the step after it, AC was lowered");
    SAW(step == 0 && was->age_counter > 0, "ageing: AC = 0 zeroes the counter");

    SAW(was->learnf && turned, "conversion: LEARNF cleared by a c that turns negative");
    SAW(was->learnf && c < 0 && !turned && is->learnf, "conversion: LEARNF survives a discharge");
    SAW(was->learnf && !turned && emptied, "conversion: LEARNF cleared by ACR 0");
    SAW(was->learnf && !turned && emptied && is->fraction > 0, "conversion: LEARNF cleared by ACR 0 with a fraction");
    if (was->run == 7)
        saw_average(was, was->run_sum + c);
}
