/* Aims: ticks, and all that comes on the way of a sample. */

static Gauge at_interval;
static int32_t conversions_since, labels_since; /* the last accepted sample */
static bool refused_since;

static void before_interval(const Gauge *g) { at_interval = *g; }

static void after_interval(const Gauge *is, int32_t raw, int32_t ticks)
{
    const Gauge *was = &at_interval;
    int64_t count = (int64_t)was->acr * 4096 + was->fraction + added(was, is->current);
    int32_t limit = 32 * parameter(is, IMIN) - 1;
    within.intervals++;
    within.averages += is->run == 0;
    within.fitting_averages += is->run == 0 && 1 <= is->iavg && is->iavg <= limit && 1 <= was->iavg && was->iavg <= limit;
    within.ageing_steps += is->age_counter < was->age_counter && wide_parameter(is, AC) > 0;
    within.bottoms += count < 0;
    within.tops += count > 268435455;
    within.emptied += within.intervals > 1 && was->learnf && !is->learnf && count < 4096;
    saw_each(was, is, raw, within.intervals, ticks);
}

/* Answer 11, W5.5. */
static void saw_late(const Gauge *g, int32_t kind, const byte *payload, int32_t length, int32_t answer)
{
    bool whole = kind == 6 && length >= 6;
    int32_t ticks = whole ? elapsed(g, tick_of(payload)) : 0;
    SAW(answer == 11, "answer: 11");
    SAW(answer == 11 && ticks == 0, "answer: 11 for a difference of 0");
    SAW(answer == 11 && ticks == 65, "answer: 11 for a difference of 65");
    SAW(answer == 11 && ticks > 256 && ticks % 256 >= 1 && ticks % 256 <= 64, "answer: 11 for a difference whose low byte would do");
    SAW(answer == 11 && ticks == 65535, "answer: 11 for the tick before the last one");
    SAW(answer == 4 && g->accepted && whole && !tick_fits(g, tick_of(payload)), "answer: 4 where 11 would come next");
}

/* W5.3, W5.4, W5.8 and W5.9: the tick, and what came since the last one. */
static void saw_tick(const Gauge *was, int32_t tick)
{
    int32_t ticks = elapsed(was, tick), over = tick_before_power_on < 0 ? 0 : (tick + 65536 - tick_before_power_on) % 65536;
    SAW(!was->had_sample, "sample: the first since power-on");
    SAW(!was->had_sample && over > 64, "sample: the first since power-on, far from the tick before it");
    SAW(!was->had_sample && over > 1 && over <= 64, "sample: the first since power-on, near the tick before it");
    SAW(!was->had_sample && tick == 0, "sample: the first since power-on, at tick 0");
    SAW(was->had_sample && ticks == 1, "sample: 1 tick");
    SAW(ticks >= 2 && ticks <= 7, "sample: 2 to 7 ticks");
    SAW(ticks >= 8 && ticks <= 16, "sample: 8 to 16 ticks");
    SAW(ticks >= 17 && ticks <= 62, "sample: 17 to 62 ticks");
    SAW(ticks == 63, "sample: 63 ticks");
    SAW(ticks == 64, "sample: 64 ticks");
    SAW(was->had_sample && tick < was->last_tick, "sample: the counter of ticks goes round");
    SAW(was->had_sample && refused_since, "sample: samples were refused since the last one");
    SAW(was->had_sample && conversions_since == 1 && ticks == 1, "sample: a conversion came since the last one, a tick ago");
    SAW(was->had_sample && conversions_since > 1, "sample: conversions came since the last one");
    SAW(was->had_sample && labels_since > 0, "sample: the label was written since the last one");
    tick_before_power_on = -1;
    conversions_since = labels_since = 0;
    refused_since = false;
}

/* W5.7: all steps of a conversion come along the way. */
static void saw_sample(const Gauge *was, const Gauge *is, int32_t raw)
{
    int64_t sum = (int64_t)raw + signed_parameter(was, COB);
    int32_t c = is->current, step = 32 * wide_parameter(was, AC), n = within.intervals;
    bool blanked = counted(was, c) != c, turned = c < 0 && !(was->currents > 0 && was->current < 0);
    bool aged = n > 1 && within.ageing_steps > 0, learns = was->learnf && !turned;

    SAW(n > 1 && sum != c, "sample: c clamped");
    SAW(n > 1 && blanked, "sample: c is blanked");
    SAW(n > 1 && within.bottoms > 0 && within.bottoms < n, "sample: the count clamped to 0 on the way");
    SAW(n > 1 && within.tops > 0 && within.tops < n, "sample: the count clamped to 2^28 - 1 on the way");
    SAW(n > 1 && blanked && is->acr < was->acr, "sample: AB alone lowers ACR");

    SAW(within.averages == 0, "sample: no average");
    SAW(was->run > 0 && within.averages == 1, "sample: an average that was begun before");
    SAW(within.averages >= 2, "sample: two averages and more");
    SAW(n > 8 && is->run > 0, "sample: an average is begun after another");

    SAW(within.fulls == 1, "sample: full found");
    SAW(within.fulls == 1 && is->run > 0 && counted(is, c) == c, "sample: full found, and counted on");
    SAW(within.fulls == 1 && within.fitting_averages > 1, "sample: full found once, and another average fits");
    SAW(within.fulls == 1 && was->learnf && is->as != was->as, "sample: full found, AS learnt");
    SAW(within.fulls == 0 && within.fitting_averages > 0, "sample: full not found, no reading came");

    SAW(aged && within.ageing_steps == 1, "sample: AS falls once");
    SAW(aged && within.ageing_steps >= 2 && within.ageing_steps < n, "sample: AS falls twice and more");
    SAW(aged && within.ageing_steps == n && is->age_counter >= step, "sample: AS falls at each interval, AC was lowered");
    SAW(aged && within.ageing_steps < n && was->age_counter >= 2 * step, "sample: AS falls until the counter is below the step");
    SAW(aged && was->as > 63 && is->as == 63 && was->as - 63 < within.ageing_steps, "sample: AS comes to 63 and stays");
    SAW(n > 1 && step == 0 && was->age_counter > 0, "sample: AC = 0 zeroes the counter");
    SAW(n > 1 && step == 0 && is->acr < was->acr, "sample: AC = 0, ACR falls");

    SAW(n > 1 && was->learnf && turned, "sample: LEARNF cleared by a c that turns negative");
    SAW(learns && within.emptied > 0, "sample: LEARNF cleared by ACR 0 on the way");
    SAW(n > 1 && learns && c < 0 && is->learnf, "sample: LEARNF survives a discharge");
    SAW(n > 1 && learns && c > 0 && is->learnf, "sample: LEARNF survives a charge");
}
