"""Writes at 14h, which leave AS (W13); AS_WRITES_TRAYS the same in trays."""

AT_1FH = "        if (at == 0x1F)\n            g->lock = (value & 0x40) != 0;\n"
EACH_BYTE = "        int32_t at = address + i, value = data[i];\n"
OVER_14H = "address <= 0x14 && address + count > 0x14"


def as_written(condition, becomes):
    """A program in which a write at 14h sets AS where the condition holds."""
    return AT_1FH, f"        if (at == 0x14 && {condition})\n            g->as = {becomes};\n" + AT_1FH


AS_WRITES = [
    ("W13.1-14h-sets-as", *as_written("true", "moved_into_as_range(value)")),
    ("W13.1-14h-sets-as-as-it-is", *as_written("true", "value")),
    ("W13.1-an-as-in-range-is-taken", *as_written("value >= 63 && value <= 128", "value")),
    ("W13.1-an-as-out-of-range-is-taken", *as_written("value < 63 || value > 128", "moved_into_as_range(value)")),
    ("W13.1-a-lower-as-is-taken", *as_written("value < g->as", "moved_into_as_range(value)")),
    ("W13.1-a-higher-as-is-taken", *as_written("value > g->as", "moved_into_as_range(value)")),
    ("W13.1-taken-by-14h-alone", *as_written("count == 1", "moved_into_as_range(value)")),
    ("W13.1-taken-with-acr", *as_written("held >= 0", "moved_into_as_range(value)")),
    ("W13.1-taken-while-block-1-is-unlocked", *as_written("!g->bl1", "moved_into_as_range(value)")),
    ("W13.1-taken-while-block-1-is-locked", *as_written("g->bl1", "moved_into_as_range(value)")),
    ("W13.1-taken-while-learning", *as_written("g->learnf", "moved_into_as_range(value)")),
    ("W13.1-taken-by-a-camera-pack", *as_written("g->ds2775", "moved_into_as_range(value)")),
    ("W13.1-taken-by-kind-1", *as_written("!g->ds2775", "moved_into_as_range(value)")),
    ("W13.2-the-whole-write-is-dropped", "    int32_t held = -1; /*", f"    if ({OVER_14H})\n        return;\n    int32_t held = -1; /*"),
    ("W13.2-the-write-ends-at-14h", EACH_BYTE, EACH_BYTE + "        if (at == 0x14)\n            return;\n"),
    ("W13.2-acr-is-not-set-with-it", "if (at == 0x11 && held >= 0) {", f"if (at == 0x11 && held >= 0 && !({OVER_14H})) {{"),
    ("W13.2-no-mark-with-it", "            g->acr_written = true;\n", f"            g->acr_written = g->acr_written || !({OVER_14H});\n"),
    ("W13.2-the-next-byte-is-dropped-too", EACH_BYTE, EACH_BYTE + "        if (at == 0x20 && address <= 0x14)\n            continue;\n"),
    ("W13.3-14h-reads-ff", "case 0x14: return g->as;", "case 0x14: return 0xFF;"),
    ("W13.3-14h-reads-0", "case 0x14: return g->as;", "case 0x14: return 0x00;"),
    ("W13.3-the-written-byte-is-read", "case 0x14: return g->as;", "case 0x14: return guessed >= 0 ? guessed : g->as;",
     "/* ---- Numbers ---- */", "static int32_t guessed = -1;", AT_1FH, "        if (at == 0x14)\n            guessed = value;\n" + AT_1FH),
    ("W13.3-a-reply-of-zeros", "        write_from(g, address, master + at + 2, masters - at - 2);\n",
     "        write_from(g, address, master + at + 2, masters - at - 2);\n"
     "        if (address <= 0x14 && address + masters - at - 2 > 0x14)\n            memset(reply, 0, (size_t)count);\n"),
    ("W13.4-the-saved-as-is-written", AT_1FH, "        if (at == 0x14)\n            g->saved_as = moved_into_as_range(value);\n" + AT_1FH),
    ("W13.4-results-follow-the-guess", "/* ---- Numbers ---- */", "static int32_t guessed;",
     AT_1FH, "        if (at == 0x14)\n            guessed = moved_into_as_range(value);\n" + AT_1FH,
     "return (int32_t)divided_down((int64_t)g->full * g->as, 128);",
     "return (int32_t)divided_down((int64_t)g->full * (guessed > 0 ? guessed : g->as), 128);"),
    ("W13.4-never-learnt", "        g->as = moved_into_as_range((int32_t)divided_down((int64_t)g->acr * 2097152, g->full * full_40));\n", "        ;\n"),
    ("W13.4-never-aged", "        g->as = moved_into_as_range(g->as - 1);\n", ""),
    ("W13.4-the-age-counter-is-reset", AT_1FH, "        if (at == 0x14)\n            g->age_counter = 0;\n" + AT_1FH),
    ("W13.4-learnf-is-cleared", AT_1FH, "        if (at == 0x14)\n            g->learnf = false;\n" + AT_1FH),
    ("W13.5-saved-as-not-honoured", "    g->as = moved_into_as_range(g->saved_as);\n", "    g->as = 128;\n"),
    ("W13.5-saved-as-not-moved", "    g->as = moved_into_as_range(g->saved_as);\n", "    g->as = g->saved_as;\n"),
]

AS_WRITES_TRAYS = [
    ("W13.1-tray-a-skip-sets-as", "        transaction(&t->packs[slot], master, masters, own, count);\n",
     "        transaction(&t->packs[slot], master, masters, own, count);\n"
     "        if (masters >= 4 && master[0] == 0xCC && master[1] == 0x6C && master[2] == 0x14)\n"
     "            t->packs[slot].as = moved_into_as_range(master[3]);\n"),
    ("W13.1-tray-a-match-sets-as", "            transaction(&t->packs[slot], master, masters, reply, count);\n",
     "            transaction(&t->packs[slot], master, masters, reply, count);\n"
     "        if (slot >= 0 && masters >= 12 && master[9] == 0x6C && master[10] == 0x14)\n"
     "            t->packs[slot].as = moved_into_as_range(master[11]);\n"),
]
