/* Aims: VCHG, IMIN, VAE and IAE at 0 and 255, with what lies just on either side of them. */

/* C25 and C27, of a conversion that ends a run of eight; `full` is whether it finds full. */
static void saw_full_thresholds(const Gauge *was, const Gauge *is, bool full)
{
    int32_t limit = 32 * parameter(was, IMIN), vchg = parameter(was, VCHG), lowest = was->lowest_voltage;
    bool due = was->run == 7 && was->had_average && was->read_since_average, above = due && lowest > 4 * vchg;
    bool was_small = 1 <= was->iavg && was->iavg < limit, small = 1 <= is->iavg && is->iavg < limit;
    SAW(full && vchg == 0 && lowest == 1, "threshold: VCHG 0, full at VOLT 1");
    SAW(due && was_small && small && vchg == 0 && lowest == 0, "threshold: VCHG 0, no full at VOLT 0");
    SAW(full && vchg == 255 && lowest == 1021, "threshold: VCHG 255, full at VOLT 1,021");
    SAW(due && was_small && small && vchg == 255 && lowest == 1020, "threshold: VCHG 255, no full at VOLT 1,020");
    SAW(above && limit == 0 && was->iavg == 1 && is->iavg == 1, "threshold: IMIN 0, no full at averages of 1");
    SAW(above && limit == 0 && was->iavg > 0 && was->iavg < 8160 && is->iavg > 255 && is->iavg < 8160, "threshold: IMIN 0, no full at larger ones");
    SAW(full && limit == 8160 && is->iavg == 8159, "threshold: IMIN 255, full at an average of 8,159");
    SAW(above && was_small && limit == 8160 && is->iavg == 8160, "threshold: IMIN 255, no full at an average of 8,160");
}

/* R18, R21 and R22, of a reading. */
static void saw_empty_thresholds(const Gauge *was, const Gauge *is)
{
    int32_t vae = parameter(was, VAE), iae = parameter(was, IAE);
    int32_t weaker = was->current > was->previous_current ? was->current : was->previous_current;
    bool drop = is->voltage < 4 * vae && was->had_reading && was->voltage >= 4 * vae && was->currents == 2;
    SAW(vae == 0 && is->voltage == 0, "threshold: VAE 0, VOLT 0 is not below");
    SAW(vae == 255 && is->voltage == 1019, "threshold: VAE 255, VOLT 1,019 is below");
    SAW(vae == 255 && is->voltage == 1020, "threshold: VAE 255, VOLT 1,020 is not below");
    SAW(drop && vae == 255 && was->voltage == 1020 && weaker < -128 * iae, "threshold: VAE 255, the point after VOLT 1,020");
    SAW(drop && iae == 0 && weaker == -1, "threshold: IAE 0, the point at -1");
    SAW(drop && iae == 0 && weaker == 0, "threshold: IAE 0, no point at 0");
    SAW(drop && iae == 255 && weaker == -32641, "threshold: IAE 255, the point at -32,641");
    SAW(drop && iae == 255 && weaker == -32640, "threshold: IAE 255, no point at -32,640");
}
