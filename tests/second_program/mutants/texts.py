"""Texts of second.c that wrong programs of several subjects replace."""

ASKED = "read_count(kind, payload)"
TOO_MANY = "    if (is_transaction(kind) && read_count(kind, payload) > read_limit(kind))\n        return 8;\n"
EACH_INTERVAL = "        conversion(g, raw);\n"
REMEMBERED = "    g->had_sample = true;\n    g->last_tick = tick;"
JUDGED = "    int32_t answer = judged(g, room_left, kind, payload, length);\n"
LATE = JUDGED + "    if (answer == 11)\n        "

# Of trays.
OPEN = "    t->closed = true;\n"
EVERY_SLOT = "    for (int32_t slot = 0; slot < t->count; slot++) {\n        byte own"
LINE = "            reply[i] &= own[i];\n"
