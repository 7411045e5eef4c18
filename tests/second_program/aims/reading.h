/* Aims: the lines of the model, empty, the results, and what is saved. */

static void saw_lines(const Gauge *is)
{
    int32_t degrees = nearest_degree(is->temperature);
    int32_t high = signed_parameter(is, TBP34), middle = signed_parameter(is, TBP23), low = signed_parameter(is, TBP12);
    bool crossed = high < middle || middle < low;
    SAW(degrees >= 40, "model: no step, at 40 degrees or above");
    SAW(degrees == 39, "model: one step");
    int32_t eighths = is->temperature - 8 * degrees;
    SAW(eighths < 0, "model: a degree rounded up");
    SAW(eighths > 0, "model: a degree rounded down");
    SAW(eighths == -4, "model: half a degree rounded up");
    SAW(is->temperature < 0 && eighths == -4, "model: half a degree below 0 rounded up");
    SAW(degrees == 128, "model: 128 degrees");
    for (int32_t t = 39; t >= degrees; t--) {
        SAW(segment(is, t) == 4, "model: a step of segment 4");
        SAW(segment(is, t) == 3, "model: a step of segment 3");
        SAW(segment(is, t) == 2, "model: a step of segment 2");
        SAW(segment(is, t) == 1, "model: a step of segment 1");
        SAW(t == high, "model: the step at TBP34");
        SAW(crossed, "model: a step with crossed breakpoints");
        SAW(high < middle && t >= high && t < middle, "model: a step between TBP34 and a TBP23 above it");
        SAW(middle < low && t < high && t >= middle && t < low, "model: a step between TBP23 and a TBP12 above it");
    }
    SAW(is->full == 8192, "model: FULL at 8,192");
    SAW(is->ae == 8191, "model: AE at 8,191");
    SAW(is->se == 8191, "model: SE at 8,191");
}

/* R23 to R25, as the empty point is found. */
static void saw_point(const Gauge *g, int32_t e)
{
    SAW(e > 0, "empty: the point, E above 0");
    SAW(e == 0, "empty: the point, E = 0");
    SAW(e == 0 && g->learnf, "empty: the point, E = 0 clears LEARNF");
    SAW(g->acr < e, "empty: the point raises ACR");
    SAW(g->acr_written, "mark: stays at the empty point");
    SAW(g->conversions == 0 && last_measured >= -128 * parameter(g, IAE), "offset: the empty point, the raw value would not fit");
    point_last = true;
    SAW(g->had_sample && conversions_since == 0 && g->current == g->previous_current, "empty: the point, after a sample");
}

/* Step 3, where VOLT is below 4 x VAE: what just is no empty point, or just is one. */
static void saw_below(const Gauge *was, const Gauge *is, int32_t e)
{
    int32_t edge = 4 * parameter(was, VAE), threshold = -128 * parameter(was, IAE);
    bool before = was->had_reading && was->voltage >= edge;
    bool last = was->currents >= 1 && was->current < threshold;
    bool both = was->currents == 2 && last && was->previous_current < threshold;
    SAW(before && both && was->voltage == edge, "empty: the reading before is at 4 x VAE");
    SAW(!was->had_reading && both, "empty: no point, no reading before");
    SAW(was->had_reading && !before && both, "empty: no point, the reading before is below");
    SAW(before && was->currents < 2 && last, "empty: no point, one current only");
    SAW(before && was->currents == 2 && last && !both, "empty: no point, the current before does not fit");
    SAW(before && was->currents == 2 && was->current == threshold && was->previous_current <= threshold,
        "empty: no point, CURRENT is at the threshold");
    SAW(!(before && both) && !was->learnf && was->acr == e && was->fraction > 0, "empty: ACR is E already, the fraction stays");
    SAW(!(before && both) && was->learnf && was->acr > e, "empty: LEARNF leaves ACR above E");
    cut_last = !(before && both) && !was->learnf && was->acr > e;
    SAW(cut_last && was->acr_written, "mark: stays as ACR is cut to E");
    SAW(is->rarc > 5, "empty: AEF stays below 4 x VAE whatever RARC");
}

static void saw_reading(const Gauge *was, const Gauge *is, int32_t voltage, int32_t temperature)
{
    int64_t full_40 = wide_parameter(is, FULL_40), af = age_scaled_full(is);
    int64_t n = 16384 * (int64_t)is->acr - is->ae * full_40, d = (af - is->ae) * full_40;
    int64_t standby_n = 16384 * (int64_t)is->acr - is->se * full_40, standby_d = (af - is->se) * full_40;
    int32_t edge = 4 * parameter(is, VAE);
    bool changed = is->rarc != was->rarc, quarter = is->rarc / 4 != was->rarc / 4;

    SAW(voltage < 0, "reading: voltage clamped to 0");
    SAW(voltage > 1023, "reading: voltage clamped to 1,023");
    SAW(temperature < -1024, "reading: temperature clamped to -1,024");
    SAW(temperature > 1023, "reading: temperature clamped to 1,023");
    saw_lines(is);
    if (is->voltage < edge)
        saw_below(was, is, (int32_t)(is->ae * full_40 / 16384));
    SAW(is->voltage == edge, "reading: VOLT at 4 x VAE");
    saw_empty_thresholds(was, is);

    SAW(n > 0 && d > 0 && is->as == 128, "results: with AS 128");
    SAW(n > 0 && d > 0 && is->as == 63, "results: with AS 63");
    SAW(n > 0 && d > 0 && is->as > 63 && is->as < 128, "results: with an AS between");
    SAW(n > 0 && d > 0 && (int64_t)is->full * is->as % 128 != 0, "results: with an AF that is rounded");
    SAW(d > 0 && 100 * n / d > 100, "results: RARC clamped to 100");
    SAW(standby_d > 0 && 100 * standby_n / standby_d > 100, "results: RSRC clamped to 100");
    SAW(n < 0, "results: N below 0");
    SAW(n > 0 && d < 0, "results: D below 0");
    SAW(n > 0 && d == 0, "results: D = 0");
    SAW(n > 0 && d > 0 && is->rarc == 0, "results: RARC rounded down to 0");
    SAW(was->chgtf && is->chgtf && is->rarc == 100, "results: CHGTF stays at RARC 100");
    SAW(is->rarc == 90 && is->chgtf, "results: CHGTF stays at RARC 90");
    SAW(was->chgtf && is->rarc == 89, "results: CHGTF cleared at RARC 89");
    SAW(was->aef && is->aef && is->voltage >= edge && is->rarc == 5, "results: AEF stays at RARC 5");
    SAW(was->aef && !is->aef && is->rarc == 6, "results: AEF cleared at RARC 6");
    SAW(!was->sef && is->sef && is->rsrc == 9, "results: SEF set at RSRC 9");
    SAW(!is->sef && is->rsrc == 10, "results: SEF not set at RSRC 10");
    SAW(is->sef && is->rsrc == 15, "results: SEF stays at RSRC 15");
    SAW(was->sef && is->rsrc == 16, "results: SEF cleared at RSRC 16");

    SAW(was->had_reading && quarter, "save: the quarter of RARC changed");
    SAW(was->had_reading && quarter && is->bl1, "save: block 1 is locked");
    SAW(was->had_reading && quarter && is->as != was->saved_as, "save: AS changes in its cell");
    SAW(was->had_reading && changed && !quarter, "save: none, RARC changed and its quarter did not");
    SAW(!was->had_reading && quarter, "save: none at the first reading");
}
