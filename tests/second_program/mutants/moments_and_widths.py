"""A parameter or a result taken at another moment than the one at which a rule is worked out, or kept in too few bits."""

LATCHED = [
    ("B30-vchg-of-the-reading",
     "if (!g->read_since_average || g->voltage < g->lowest_voltage)\n        g->lowest_voltage = g->voltage;",
     "int32_t above = g->voltage > 4 * parameter(g, VCHG) ? 1023 : -1;\n"
     "    if (!g->read_since_average || above < g->lowest_voltage)\n        g->lowest_voltage = above;",
     "g->lowest_voltage > 4 * parameter(g, VCHG)", "g->lowest_voltage > 0"),
    ("B30-imin-of-the-previous-average",
     "bool both_small = g->had_average && 1 <= average && average <= limit && 1 <= g->iavg && g->iavg <= limit;",
     "static bool was_small;\n    bool small = 1 <= average && average <= limit;\n"
     "    bool both_small = g->had_average && small && was_small;\n    was_small = small;"),
    ("B30-vae-of-the-previous-reading", "bool previous_was_above = g->had_reading && g->voltage >= empty_voltage;",
     "static bool was_above;\n    bool previous_was_above = g->had_reading && was_above;\n"
     "    was_above = clamped(voltage, 0, 1023) >= empty_voltage;"),
    ("B30-iae-of-the-conversion", "/* ---- Conversion ---- */", "static int32_t strong_run;", "    g->current = c;\n",
     "    g->current = c;\n    strong_run = c < -128 * parameter(g, IAE) ? strong_run + 1 : 0;\n",
     "g->currents == 2 && g->current < threshold && g->previous_current < threshold;",
     "g->currents == 2 && strong_run >= 2;"),
    ("B30-results-follow-writes", "            g->shadow[at] = (byte)value;",
     "            g->shadow[at] = (byte)value, results(g, g->ae, &g->rarc, &g->raac);"),
    ("B30-results-follow-conversions", "    if (g->run == 8)\n",
     "    results(g, g->ae, &g->rarc, &g->raac);\n    if (g->run == 8)\n", "/* ---- Conversion ---- */",
     "static void results(const Gauge *g, int32_t empty, int32_t *percent, int32_t *absolute);"),
    ("C30-full-worked-out-anew", "/* ---- Conversion ---- */", "static void model_lines(Gauge *g, int32_t degrees);",
     "    g->chgtf = true;\n", "    g->chgtf = true;\n    model_lines(g, (int32_t)divided_down(g->temperature, 8));\n"),
    ("R31-in-32-bits", "divided_down(100 * n, d)", "divided_down((int32_t)(100 * n), (int32_t)d)"),
    ("R34-in-32-bits", "divided_down(n * parameter(g, RSNSP), 4194304)", "(uint32_t)(n * parameter(g, RSNSP)) / 4194304"),
    ("C30-in-32-bits", "(int32_t)divided_down((int64_t)g->acr * 2097152, g->full * full_40)",
     "(int32_t)((uint32_t)g->acr * 2097152u / (uint32_t)(g->full * full_40))"),
    ("C24-in-16-bits", "g->run_sum += c;", "g->run_sum = (int16_t)(g->run_sum + c);"),
]
