"""The offset conversion (W7): each 1024th, and the mark that a write of ACR leaves."""
from .texts import EACH_INTERVAL, JUDGED, LATE, REMEMBERED

COUNTED = "    g->conversions = (g->conversions + 1) % 1024;\n"
MEASURED = "    int32_t c = (int32_t)clamped((int64_t)raw + signed_parameter(g, COB), -32768, 32767);\n"
STANDS_IN = "        c = g->current;\n"
KEPT = MEASURED, MEASURED + "    int32_t measured = c;\n"
ADDED = "    if (!g->acr_written)\n        count = clamped(count + counted(g, c) + signed_parameter(g, AB), 0, 268435455);\n"
USED_UP = "    g->acr_written = false;\n    g->acr = (int32_t)(count / 4096);\n"
SET, MARKED = "            g->acr = 256 * held + value;\n", "            g->acr_written = true;\n"
CLEARED = "    g->conversions = 0;\n    g->acr_written = false;\n"
ALWAYS_ADDED = ADDED.replace("if (!g->acr_written)", "if (true)")
SHOWN = "    g->current = c;\n"
AVERAGED = "    g->run++;\n    g->run_sum += c;\n"
ONE_MORE, MARK, UNMARK = COUNTED.strip() + "\n", "g->acr_written = true;\n", "g->acr_written = false;\n"
POINT = "        g->learnf = e > 0;\n"
CUT = "    } else if (!g->learnf && g->acr > e) {\n"
MISSIZED = JUDGED + "        if (answer == 4)\n            if "
WAS_MARKED = "    accumulate_and_age(g, c);\n", "    bool marked = g->acr_written;\n    accumulate_and_age(g, c);\n"

OFFSETS = [
    ("W7.1-every-1023rd", COUNTED, COUNTED.replace("1024", "1023")),
    ("W7.1-every-1025th", COUNTED, COUNTED.replace("1024", "1025")),
    ("W7.1-every-512th", COUNTED, COUNTED.replace("1024", "512")),
    ("W7.1-every-2048th", COUNTED, COUNTED.replace("1024", "2048")),
    ("W7.1-the-conversion-before", "if (g->conversions == 0)", "if (g->conversions == 1023)"),
    ("W7.1-the-conversion-after", "if (g->conversions == 0)", "if (g->conversions == 1 && g->currents == 2)"),
    ("W7.1-not-modulo", COUNTED, "    g->conversions++;\n", "if (g->conversions == 0)", "if (g->conversions == 1024)"),
    ("W7.1-a-sample-counts-one", EACH_INTERVAL,
     "        g->conversions = (g->conversions + (i > 0 ? 1023 : 0)) % 1024;\n" + EACH_INTERVAL),
    ("W7.1-samples-do-not-count", EACH_INTERVAL,
     "        int32_t before = g->conversions;\n        g->conversions = 1;\n" + EACH_INTERVAL +
     "        g->conversions = before;\n"),
    ("W7.1-conversions-do-not-count", "case 3: conversion(g, little_endian_signed_32(payload)); return 0;",
     "case 3: length = g->conversions, g->conversions = 1, conversion(g, little_endian_signed_32(payload));\n"
     "            g->conversions = length; return 0;"),
    ("W7.1-readings-count", "    g->had_reading = true;\n", "    g->had_reading = true;\n    " + ONE_MORE),
    ("W7.2-no-mark", MARKED, ""),
    ("W7.2-by-10h-alone", "            held = value;", "            held = value, g->acr_written = true;"),
    ("W7.2-by-11h-alone", "        if (at == 0x11 && held >= 0) {",
     "        if (at == 0x11)\n            g->acr_written = true;\n        if (at == 0x11 && held >= 0) {"),
    ("W7.2-not-to-an-equal-value", MARKED, "", SET,
     "            g->acr_written = g->acr_written || g->acr != 256 * held + value;\n" + SET),
    ("W7.2-only-where-a-fraction-is-lost", MARKED, "", SET,
     "            g->acr_written = g->acr_written || g->fraction > 0;\n" + SET),
    ("W7.2-only-from-10h", MARKED, "            g->acr_written = g->acr_written || address == 0x10;\n"),
    ("W7.2-again-takes-it-back", MARKED, "            g->acr_written = !g->acr_written;\n"),
    ("W7.2-each-write-for-itself", "/* ---- Power-on ---- */", "static int32_t writes;",
     CLEARED, CLEARED + "    writes = 0;\n", MARKED, MARKED + "            writes++;\n",
     USED_UP, USED_UP.replace("false", "g->acr_written && --writes > 0")),
    ("W7.3-set-at-full", "full_40, 16384);\n", "full_40, 16384);\n    " + MARK),
    ("W7.3-set-at-the-empty-point", POINT, POINT + "        " + MARK),
    ("W7.3-used-up-at-the-empty-point", POINT, POINT + "        " + UNMARK),
    ("W7.3-set-as-acr-is-cut", CUT, CUT + "        " + MARK),
    ("W7.3-used-up-as-acr-is-cut", CUT, CUT + "        " + UNMARK),
    ("W7.3-used-up-by-a-reading", "    g->had_reading = true;\n", "    g->had_reading = true;\n    " + UNMARK),
    ("W7.3-used-up-by-a-read-of-acr", "    if (command == 0x69) {\n",
     "    if (command == 0x69) {\n        g->acr_written = g->acr_written && (address > 0x10 || address + count <= 0x10);\n"),
    ("W7.3-used-up-by-a-label-write", "            g->shadow[at] = (byte)value;",
     "            g->shadow[at] = (byte)value, g->acr_written = g->acr_written && !in_block_0(at);"),
    ("W7.3-used-up-by-a-parameter-write", "            g->shadow[at] = (byte)value;",
     "            g->shadow[at] = (byte)value, g->acr_written = g->acr_written && !in_block_1(at);"),
    ("W7.3-used-up-by-a-block-command", "    bool *locked =", "    " + UNMARK + "    bool *locked ="),
    ("W7.3-set-by-a-write-of-as", "        if (at == 0x1F)\n",
     "        if (at == 0x14)\n            " + MARK + "        if (at == 0x1F)\n"),
    ("W7.3-set-by-a-write-of-the-fraction", "        if (at == 0x1F)\n",
     "        if (at == 0x12)\n            " + MARK + "        if (at == 0x1F)\n"),
    ("W7.3-set-by-a-parameter-write", "            g->shadow[at] = (byte)value;",
     "            g->shadow[at] = (byte)value, g->acr_written = g->acr_written || in_block_1(at);"),
    ("W7.3-set-for-another-pack", "    else\n        return;\n    if (masters < at + 2)",
     "    else {\n        g->acr_written = g->acr_written || (masters >= 13 && master[9] == 0x6C && master[10] == 0x10);\n"
     "        return;\n    }\n    if (masters < at + 2)"),
    ("W7.4-count-kept", CLEARED, "    g->acr_written = false;\n"),
    ("W7.4-mark-kept", CLEARED, "    g->conversions = 0;\n"),
    ("W7.4-mark-set", CLEARED, CLEARED.replace("false", "true")),
    ("W7.5-raw-value-used", "if (g->conversions == 0)", "if (g->conversions == 0 && false)"),
    ("W7.5-cob-again", STANDS_IN, "        c = (int32_t)clamped(g->current + signed_parameter(g, COB), -32768, 32767);\n"),
    ("W7.5-nothing-stands-in", STANDS_IN, "        c = 0;\n"),
    ("W7.5-the-one-before-that", STANDS_IN, "        c = g->previous_current;\n"),
    ("W7.5-the-average-stands-in", STANDS_IN, "        c = g->iavg;\n"),
    ("W7.5-by-a-conversion-alone", "/* ---- Conversion ---- */", "static bool sampling;", "if (g->conversions == 0)",
     "if (g->conversions == 0 && !sampling)", EACH_INTERVAL,
     "        sampling = true;\n" + EACH_INTERVAL + "        sampling = false;\n"),
    ("W7.5-learnf-by-the-raw-value", *KEPT, "(c < 0 && !previous_negative)", "(measured < 0 && !previous_negative)"),
    ("W7.6-raw-value-shown", *KEPT, SHOWN, "    g->current = measured;\n"),
    ("W7.6-raw-value-averaged", *KEPT, AVERAGED, AVERAGED.replace("+= c", "+= measured")),
    ("W7.6-raw-value-counted", *KEPT, "    accumulate_and_age(g, c);\n", "    accumulate_and_age(g, measured);\n"),
    ("W7.6-not-averaged", AVERAGED, "    g->run++;\n    g->run_sum += g->conversions == 0 ? 0 : c;\n"),
    ("W7.6-no-average-at-it", AVERAGED,
     AVERAGED + "    if (g->conversions == 0)\n        g->run = g->run_sum = 0;\n"),
    ("W7.6-no-full-at-it", "if (both_small && voltage_high)", "if (both_small && voltage_high && g->conversions != 0)"),
    ("W7.6-nothing-counted", ADDED, ADDED.replace("!g->acr_written", "!g->acr_written && g->conversions != 0")),
    ("W7.6-bias-alone-counted", ADDED, ADDED.replace("counted(", "(g->conversions != 0) * counted(")),
    ("W7.6-no-bias", ADDED, ADDED.replace("signed_p", "(g->conversions != 0) * signed_p")),
    ("W7.6-not-blanked", ADDED, ADDED.replace("counted(g, c)", "(g->conversions == 0 ? c : counted(g, c))")),
    ("W7.6-counted-as-then", ADDED, "    static int32_t then;\n    int32_t now = counted(g, c) + signed_parameter(g, AB);\n"
     "    then = g->conversions == 0 ? then : now;\n" + ADDED.replace("counted(g, c) + signed_parameter(g, AB)", "then")),
    ("W7.6-not-one-of-the-last-two", "    g->previous_current = g->current;\n",
     "    if (g->conversions != 0)\n        g->previous_current = g->current;\n"),
    ("W7.7-all-is-added", ADDED, ALWAYS_ADDED),
    ("W7.7-bias-is-added", ADDED, ALWAYS_ADDED.replace("counted(", "!g->acr_written * counted(")),
    ("W7.7-c-is-added", ADDED, ALWAYS_ADDED.replace("signed_p", "!g->acr_written * signed_p")),
    ("W7.7-a-fall-is-added", ADDED, ADDED.replace("!g->acr_written", "!g->acr_written || c < 0")),
    ("W7.7-two-conversions", "/* ---- Conversion ---- */", "static int32_t skipped;", USED_UP,
     USED_UP.replace("false", "g->acr_written && ++skipped % 2 == 1")),
    ("W7.8-c-not-shown", SHOWN, "    if (!g->acr_written)\n        g->current = c;\n"),
    ("W7.8-nothing-shown", SHOWN, "    g->current = g->acr_written ? 0 : c;\n"),
    ("W7.8-c-not-averaged", *WAS_MARKED, AVERAGED, "    g->run++;\n    g->run_sum += marked ? 0 : c;\n"),
    ("W7.8-not-one-of-eight", *WAS_MARKED, AVERAGED, "    g->run += !marked;\n    g->run_sum += marked ? 0 : c;\n"),
    ("W7.8-no-ageing", ADDED, "    if (g->acr_written) {\n        " + UNMARK + "        return;\n    }\n" + ADDED),
    ("W7.8-no-step-of-as", ADDED, "    bool marked = g->acr_written;\n" + ADDED,
     "} else if (g->age_counter >= ageing_step) {", "} else if (g->age_counter >= ageing_step && !marked) {"),
    ("W7.8-ac-0-keeps-the-counter", ADDED, "    bool marked = g->acr_written;\n" + ADDED,
     "        g->age_counter = 0;\n    } else", "        g->age_counter = marked ? g->age_counter : 0;\n    } else"),
    ("W7.8-what-is-not-added-ages", ADDED, ADDED + "    if (g->acr_written && counted(g, c) < 0)\n"
     "        acr_before += -counted(g, c) / 4096;\n"),
    ("W7.8-no-full", *WAS_MARKED, "    if (g->run == 8)\n",
     "    g->read_since_average = g->read_since_average && !(marked && g->run == 8);\n    if (g->run == 8)\n"),
    ("W7.9-never-used-up", USED_UP, "    g->acr = (int32_t)(count / 4096);\n"),
    ("W7.9-a-sample-leaves-it", "    for (int32_t i = 0; i < intervals; i++) {",
     "    bool marked = g->acr_written;\n    for (int32_t i = 0; i < intervals; i++) {",
     REMEMBERED, REMEMBERED + "\n    g->acr_written = marked;"),
    ("W7.9-all-of-a-sample-add-nothing", EACH_INTERVAL,
     "        static bool marked;\n        marked = i == 0 ? g->acr_written : marked;\n        g->acr_written = marked;\n" +
     EACH_INTERVAL),
    ("W7.9-all-of-a-sample-add", EACH_INTERVAL, "        " + UNMARK + EACH_INTERVAL),
    ("W7.9-by-a-sample-alone", "case 3: conversion(g, little_endian_signed_32(payload)); return 0;",
     "case 3: length = g->acr_written; conversion(g, little_endian_signed_32(payload)); g->acr_written = length; return 0;"),
    ("W7.10-added-on-a-1024th", ADDED, ADDED.replace("!g->acr_written", "!g->acr_written || g->conversions == 0")),
    ("W7.10-raw-value-after-a-write", "if (g->conversions == 0)", "if (g->conversions == 0 && !g->acr_written)"),
    ("W7.10-mark-stays-over-a-1024th", USED_UP, USED_UP.replace("false", "g->acr_written && g->conversions == 0")),
    ("W7.11-count-starts-anew", MARKED, MARKED + "            g->conversions = 0;\n"),
    ("W7.11-the-next-is-not-counted", COUNTED, "    g->conversions = (g->conversions + !g->acr_written) % 1024;\n"),
    ("W7.11-the-write-is-counted", MARKED, MARKED + "            " + ONE_MORE),
    ("W7.12-a-refused-conversion-counts", JUDGED, MISSIZED + "(kind == 3)\n                " + ONE_MORE),
    ("W7.12-a-late-sample-counts", JUDGED, LATE + ONE_MORE),
    ("W7.12-any-refused-record-counts", JUDGED, JUDGED + "        if (answer == 3 || answer == 8)\n            " + ONE_MORE),
    ("W7.12-a-refused-conversion-uses-the-mark", JUDGED, MISSIZED + "(kind == 3)\n                " + UNMARK),
    ("W7.12-a-late-sample-uses-the-mark", JUDGED, LATE + UNMARK),
    ("W7.12-a-long-write-sets-the-mark", JUDGED, MISSIZED + "(kind == 4 && length > 65)\n                " + MARK),
    ("W7.12-a-write-that-asks-too-much-sets-the-mark", JUDGED,
     JUDGED + "        if (answer == 8 && length >= 6)\n            " + MARK),
    ("W7.12-a-write-without-room-sets-the-mark", JUDGED, JUDGED + "        if (answer == 9)\n            " + MARK),
]
