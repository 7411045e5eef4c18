"""The paper's "Likely slips" (L1 to L6)."""

SLIPS = [
    ("L1-count-rounded-to-acr", "g->fraction = (int32_t)(count % 4096);", "g->fraction = 0;"),
    ("L2-current-blanked", "    accumulate_and_age(g, c);\n",
     "    accumulate_and_age(g, c);\n    g->current = counted(g, c);\n"),
    ("L3-bias-skipped-when-blanked", "count + counted(g, c) + signed_parameter(g, AB)",
     "count + counted(g, c) + (counted(g, c) == c ? signed_parameter(g, AB) : 0)"),
    ("L4-saved-acr-high-byte-first", "little_endian_16(image + 56); /* S6 */", "256 * image[56] + image[57];"),
    ("L5-learnf-cleared-at-each-negative", "if (c < 0 && !previous_negative)", "(void)previous_negative;\n    if (c < 0)"),
    ("L6-lock-stops-the-save", "if (g->had_reading && g->rarc / 4", "if (!g->bl1 && g->had_reading && g->rarc / 4"),
]
