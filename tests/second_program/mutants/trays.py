"""Trays (W8): tests/cases/trays finds these."""
from .texts import EVERY_SLOT, LINE, OPEN, TOO_MANY

KINDS = "kind == 18 || kind == 19 || kind == 21 || kind == 22"
TAKEN = "        accept_image(&t->packs[t->count++], kind, payload);\n"
SLOT_EVENT = "    return event(&t->packs[payload[0]], kind - SLOT_KINDS, payload + 1, length - 1, reply);"
BY_SLOT = "    return judged(&t->packs[payload[0]], room_left, kind - SLOT_KINDS, payload + 1, length - 1);"
MISSING = "    if (payload[0] >= t->count)\n        return 5;\n"
REPEATED = "    if (slot_with(t, image) >= 0)\n        return 12;\n"
BY_ITSELF = "    int32_t by_itself = judged(&nobody, 0, kind, image, image_bytes(kind == 8));\n"
WRONG_FIRST = "    if (by_itself == 6 || by_itself == 7)\n        return by_itself;\n"
TRAY_JUDGED = "    int32_t answer = tray_judged(t, room_left, kind, payload, length);\n"
TRAY_REFUSED = TRAY_JUDGED + "    if (answer != 0)\n        "
EACH_SLOT = "    for (int32_t slot = 0; slot < t->count; slot++)\n"
SEARCHED = "        if (memcmp(t->packs[slot].address, address, 8) == 0)\n            return slot;\n    return -1;"
EACH_PACK = "        transaction(&t->packs[slot], master, masters, own, count);\n"
MATCHED = "            transaction(&t->packs[slot], master, masters, reply, count);\n"
NAMING = "masters > 0 && (master[0] == 0x33 || master[0] == 0x39)"
IMAGE_SLOT = "slot < SLOTS ? &tray.packs[slot] : &none"


def to_the_first_alone(command):
    """A command that goes to every pack, and reaches the first one alone."""
    return f"        if (slot > 0 && masters > 1 && master[0] == 0xCC && master[1] == 0x{command})\n            break;\n" + EACH_PACK


TRAYS = [
    ("W8.1-no-entry-of-its-own", 'strncmp(mode, "tray", 4) == 0 ? &tray : NULL', "NULL"),
    ("W8.2-refused-image-takes-a-slot", TRAY_JUDGED, TRAY_JUDGED + "    if (answer == 10 && is_image(kind))\n"
     "        t->packs[t->count++].accepted = true;\n"),
    ("W8.2-images-from-slot-7-down", TAKEN, "        memmove(t->packs + 1, t->packs, (SLOTS - 1) * sizeof t->packs[0]);\n"
     "        accept_image(&t->packs[0], kind, payload);\n        t->count++;\n"),
    ("W8.2-one-image-alone", "    if (t->count == SLOTS)", "    if (t->count == 1)"),
    ("W8.2-no-power-on", TAKEN, TAKEN + "        t->packs[t->count - 1].porf = t->count == 1;\n"),
    ("W8.3-refused-event-closes", TRAY_JUDGED, TRAY_REFUSED + "t->closed |= !is_image(kind);\n"),
    ("W8.3-missing-slot-closes", TRAY_JUDGED, TRAY_JUDGED + "    t->closed |= answer == 5 && !is_image(kind);\n"),
    ("W8.3-read-count-above-64-closes", TRAY_JUDGED, TRAY_JUDGED + "    t->closed |= answer == 8;\n"),
    ("W8.3-refused-image-closes", TRAY_JUDGED, TRAY_REFUSED + "t->closed |= is_image(kind);\n"),
    ("W8.3-nobody-does-not-close", OPEN,
     "    t->closed |= !is_transaction(kind) || kind == 7 || (length > 1 && (payload[1] == 0xCC || payload[1] == 0x33 || payload[1] == 0x39)) ||\n"
     "                 (length > 9 && slot_with(t, payload + 2) >= 0);\n"),
    ("W8.3-transactions-do-not-close", OPEN, "    t->closed |= !is_transaction(kind);\n"),
    ("W8.3-slot-events-do-not-close", OPEN, "    t->closed |= is_transaction(kind);\n"),
    ("W8.3-power-on-does-not-close", OPEN, "    t->closed |= kind != 21;\n"),
    ("W8.3-never-closed", OPEN, ""),
    ("W8.4-hexadecimal-kinds", KINDS, "kind == 0x18 || kind == 0x19 || kind == 0x21 || kind == 0x22"),
    ("W8.4-sample-and-power-on-swapped", "enum { SLOTS = 8, SLOT_KINDS = 16 };",
     "enum { SLOTS = 8 };\n#define SLOT_KINDS (kind == 21 ? 15 : kind == 22 ? 17 : 16)"),
    ("W8.4-slot-event-reaches-slot-0", SLOT_EVENT, SLOT_EVENT.replace("payload[0]", "0")),
    ("W8.4-slot-event-reaches-slot-0-too", SLOT_EVENT,
     "    if (payload[0] > 0 && kind == 19)\n        conversion(&t->packs[0], little_endian_signed_32(payload + 1));\n" + SLOT_EVENT),
    ("W8.4-power-on-of-all", SLOT_EVENT, "    for (int32_t slot = 0; kind == 21 && slot < t->count; slot++)\n"
     "        power_on(&t->packs[slot]);\n" + SLOT_EVENT),
    ("W8.4-reading-reaches-the-next-slot", SLOT_EVENT,
     SLOT_EVENT.replace("payload[0]", "kind == 18 && payload[0] + 1 < t->count ? payload[0] + 1 : payload[0]")),
    ("W8.4-slot-behind-the-payload", SLOT_EVENT,
     SLOT_EVENT.replace("payload + 1", "kind == 19 ? payload : payload + 1")),
    ("W8.5-limit-of-each-pack", "if (size > SESSION_LIMIT)", "if (size > SESSION_LIMIT * (of.tray != NULL ? 2 : 1))"),
    ("W8.5-cut-record-is-left-out", "        if (size - at < 4 || size - at - 4 < little_endian_16(header)) {",
     "        if (of.tray != NULL && size - at < 4)\n            return;\n"
     "        if (size - at < 4 || size - at - 4 < little_endian_16(header)) {"),
    ("W8.5-each-pack-uses-room", "        room_left -= replied;\n",
     "        room_left -= of.tray != NULL && kind == 4 && header[5] == 0xCC ? of.tray->count * replied : replied;\n"),
    ("W8.5-a-room-for-each-match", "        room_left -= replied;\n",
     "        room_left -= of.tray != NULL && kind == 4 && length > 1 && header[5] == 0x55 ? 0 : replied;\n"),
    ("W8.6-plain-reading-of-slot-0", "if (!is_image(kind) && !is_transaction(kind) && !has_slot(kind))",
     "if (kind == 2 && length == 8 && t->count > 0)\n        return 0;\n    if (!is_image(kind) && !is_transaction(kind) && !has_slot(kind))",
     SLOT_EVENT, "    if (kind == 2)\n        return event(&t->packs[0], kind, payload, length, reply);\n" + SLOT_EVENT),
    ("W8.6-plain-sample-is-4", "if (!is_image(kind) && !is_transaction(kind) && !has_slot(kind))",
     "if (kind == 6)\n        return 4;\n    if (!is_image(kind) && !is_transaction(kind) && !has_slot(kind))"),
    ("W8.6-twenty-is-a-transaction", "if (!is_image(kind) && !is_transaction(kind) && !has_slot(kind))",
     "if (kind == 20)\n        return 4;\n    if (!is_image(kind) && !is_transaction(kind) && !has_slot(kind))"),
    ("W8.6-low-byte-of-the-kind", "    if (!is_image(kind) && !is_transaction(kind) && !has_slot(kind))",
     "    kind %= 256;\n    if (!is_image(kind) && !is_transaction(kind) && !has_slot(kind))"),
    ("W8.7-power-on-without-a-slot", "return length >= 1 && length_fits(kind - SLOT_KINDS, length - 1);",
     "return (kind == 21 && length == 0) || (length >= 1 && length_fits(kind - SLOT_KINDS, length - 1));"),
    ("W8.7-lengths-without-the-slot", "return length >= 1 && length_fits(kind - SLOT_KINDS, length - 1);",
     "return length >= 1 && length_fits(kind - SLOT_KINDS, length);"),
    ("W8.7-longer-power-on", "return length >= 1 && length_fits(kind - SLOT_KINDS, length - 1);",
     "return length >= 1 && (kind == 21 || length_fits(kind - SLOT_KINDS, length - 1));"),
    ("W8.7-sample-of-six-bytes", "return length >= 1 && length_fits(kind - SLOT_KINDS, length - 1);",
     "return length >= 1 && (length_fits(kind - SLOT_KINDS, length - 1) || (kind == 22 && length == 6));"),
    ("W8.7-66-bytes", "    return length_fits(kind, length);", "    return length_fits(kind, kind == 4 && length == 66 ? 65 : length);"),
    ("W8.8-slot-8-answers-4", MISSING, "    if (payload[0] >= SLOTS)\n        return 4;\n" + MISSING),
    ("W8.8-slot-8-answers-3", MISSING, "    if (payload[0] >= SLOTS)\n        return 3;\n" + MISSING),
    ("W8.8-slots-modulo-eight", MISSING, MISSING.replace("payload[0]", "payload[0] % SLOTS"),
     BY_SLOT, BY_SLOT.replace("payload[0]", "payload[0] % SLOTS"), SLOT_EVENT, SLOT_EVENT.replace("payload[0]", "payload[0] % SLOTS")),
    ("W8.8-missing-slot-is-the-last", MISSING, "",
     BY_SLOT, BY_SLOT.replace("payload[0]", "payload[0] < t->count ? payload[0] : t->count - 1"),
     SLOT_EVENT, SLOT_EVENT.replace("payload[0]", "payload[0] < t->count ? payload[0] : t->count - 1")),
    ("W8.8-missing-slot-is-done", MISSING, MISSING.replace("return 5", "return 0"), SLOT_EVENT,
     "    if (payload[0] >= t->count)\n        return 0;\n" + SLOT_EVENT),
    ("W8.8-transaction-before-an-image", "    if (t->count == 0)\n        return 5;\n",
     "    if (t->count == 0)\n        return is_transaction(kind) ? 0 : 5;\n"),
    ("W8.9-ninth-image", "enum { SLOTS = 8,", "enum { SLOTS = 9,"),
    ("W8.9-seven-slots", "enum { SLOTS = 8,", "enum { SLOTS = 7,"),
    ("W8.9-image-after-the-opening", "    if (t->closed)\n        return 5;\n", ""),
    ("W8.9-six-before-five", "    if (t->closed)\n        return 5;\n    if (t->count == SLOTS)\n        return 5;\n" + BY_ITSELF,
     BY_ITSELF + "    if (by_itself == 6)\n        return 6;\n"
     "    if (t->closed)\n        return 5;\n    if (t->count == SLOTS)\n        return 5;\n"),
    ("W8.9-ninth-image-is-12", "    if (t->count == SLOTS)\n        return 5;\n", "    if (t->count == SLOTS)\n        return 12;\n"),
    ("W8.10-repeated-address", REPEATED, ""),
    ("W8.10-address-of-slot-0-alone", REPEATED, REPEATED.replace(">= 0", "== 0")),
    ("W8.10-address-of-the-last-alone", REPEATED, REPEATED.replace(">= 0", ">= 0 && slot_with(t, image) == t->count - 1")),
    ("W8.10-another-number", REPEATED, REPEATED.replace("12", "6")),
    ("W8.10-six-bytes-compared", REPEATED,
     "    for (int32_t slot = 0; slot < t->count; slot++)\n        if (memcmp(t->packs[slot].address, image, 6) == 0)\n            return 12;\n"),
    ("W8.10-session-stops", "        room_left -= replied;\n", "        if (answer == 12)\n            return;\n        room_left -= replied;\n"),
    ("W8.11-twelve-before-seven", WRONG_FIRST + REPEATED, "    if (by_itself == 6)\n        return 6;\n" + REPEATED + WRONG_FIRST),
    ("W8.11-twelve-after-ten", WRONG_FIRST + REPEATED, "    if (by_itself != 0)\n        return by_itself;\n" + REPEATED),
    ("W8.11-twelve-before-five", "    if (t->closed)\n        return 5;\n", REPEATED + "    if (t->closed)\n        return 5;\n"),
    ("W8.11-five-before-four", "    if (!tray_length_fits(kind, length))\n        return 4;\n",
     "    if (has_slot(kind) && length > 0 && payload[0] >= t->count)\n        return 5;\n"
     "    if (!tray_length_fits(kind, length))\n        return 4;\n"),
    ("W8.11-eight-before-five", "    if (t->count == 0)\n        return 5;\n",
     TOO_MANY + "    if (t->count == 0)\n        return 5;\n"),
    ("W8.12-repeated-image-is-put-in-place", TRAY_JUDGED,
     TRAY_JUDGED + "    if (answer == 12)\n        accept_image(&t->packs[slot_with(t, payload)], kind, payload);\n"),
    ("W8.12-late-sample-forgets-the-tick", TRAY_JUDGED,
     TRAY_JUDGED + "    if (answer == 11)\n        t->packs[payload[0]].had_sample = false;\n"),
    ("W8.12-refused-reads-use-room", "        room_left -= replied;\n", "        room_left -= of.tray != NULL && answer == 8 ? 1 : replied;\n"),
    ("W8.12-refused-image-clears-slot-0", TRAY_JUDGED, TRAY_REFUSED.replace("answer != 0", "answer != 0 && is_image(kind) && t->count > 0") +
     "power_on(&t->packs[0]);\n"),
    ("W8.13-the-search-goes-on", EACH_SLOT + SEARCHED,
     "    int32_t found = -1;\n" + EACH_SLOT + "        found = memcmp(t->packs[slot].address, address, 8) == 0 ? slot : -1;\n    return found;"),
    ("W8.13-matched-goes-to-all", MATCHED, "            for (slot = 0; slot < t->count; slot++) {\n                byte own[9 + LONG_READ_LIMIT];\n"
     "                memcpy(own, master, (size_t)masters);\n                memcpy(own + 1, t->packs[slot].address, 8);\n"
     "                transaction(&t->packs[slot], own, masters, reply, count);\n            }\n"),
    ("W8.13-matched-goes-to-the-next", MATCHED, "            slot = (slot + 1) % t->count;\n            byte own[9 + LONG_READ_LIMIT];\n"
     "            memcpy(own, master, (size_t)masters);\n            memcpy(own + 1, t->packs[slot].address, 8);\n"
     "            transaction(&t->packs[slot], own, masters, reply, count);\n"),
    ("W8.13-six-address-bytes", "memcmp(t->packs[slot].address, address, 8) == 0", "memcmp(t->packs[slot].address, address, 6) == 0"),
    ("W8.13-seven-slots-are-searched", "masters >= 9 ? slot_with(t, master + 1) : -1;",
     "masters >= 9 ? slot_with(t, master + 1) : -1;\n        slot = slot == SLOTS - 1 ? -1 : slot;"),
    ("W8.14-unknown-address-is-slot-0", "masters >= 9 ? slot_with(t, master + 1) : -1;",
     "masters >= 9 ? slot_with(t, master + 1) : -1;\n        byte own[9 + LONG_READ_LIMIT] = {0x55};\n        if (masters >= 9 && slot < 0) {\n"
     "            memcpy(own, master, (size_t)masters);\n            memcpy(own + 1, t->packs[0].address, 8);\n"
     "            master = own, slot = 0;\n        }"),
    ("W8.14-short-address-to-all", "if (masters >= 1 && master[0] == 0x55) {", "if (masters >= 9 && master[0] == 0x55) {",
     EACH_PACK, "        byte skip[LONG_READ_LIMIT];\n        memcpy(skip, master, (size_t)masters);\n        if (masters > 0 && skip[0] == 0x55)\n"
     "            skip[0] = 0x33;\n        transaction(&t->packs[slot], skip, masters, own, count);\n"),
    ("W8.14-nobody-replies-zero", "    memset(reply, 0xFF, (size_t)count);\n    if (masters >= 1 && master[0] == 0x55) {",
     "    memset(reply, masters >= 1 && master[0] == 0x55 ? 0x00 : 0xFF, (size_t)count);\n    if (masters >= 1 && master[0] == 0x55) {"),
    ("W8.15-or-for-and", LINE, "            reply[i] = slot == 0 ? own[i] : reply[i] | own[i];\n"),
    ("W8.15-reply-of-the-first", LINE, "            reply[i] = slot == 0 ? own[i] : reply[i];\n"),
    ("W8.15-reply-of-the-last", LINE, "            reply[i] = own[i];\n"),
    ("W8.15-first-byte-alone-anded", LINE, "            reply[i] = i == 0 || slot == 0 ? reply[i] & own[i] : reply[i];\n"),
    ("W8.15-write-to-the-first-pack", EACH_PACK, to_the_first_alone("6C")),
    ("W8.15-copy-to-the-first-pack", EACH_PACK, to_the_first_alone("48")),
    ("W8.15-recall-of-the-first-pack", EACH_PACK, to_the_first_alone("B8")),
    ("W8.15-lock-of-the-first-pack", EACH_PACK, to_the_first_alone("6A")),
    ("W8.15-stops-at-a-locked-pack", EACH_PACK,
     EACH_PACK + "        if (masters > 1 && master[0] == 0xCC && master[1] == 0x6C && t->packs[slot].bl1)\n            break;\n"),
    ("W8.15-lock-by-the-first-pack", EVERY_SLOT, "    bool first = t->packs[0].lock;\n" + EVERY_SLOT,
     EACH_PACK, "        if (masters > 1 && master[0] == 0xCC && master[1] == 0x6A)\n            t->packs[slot].lock = first;\n" + EACH_PACK),
    ("W8.15-seven-packs", EVERY_SLOT, EVERY_SLOT.replace("slot < t->count", "slot < t->count && slot < 7")),
    ("W8.16-rnaop-of-the-first", EACH_PACK, f"        if (slot > 0 && {NAMING} &&\n"
     "            ((parameter(&t->packs[0], CONTROL) & RNAOP) != 0) != ((parameter(&t->packs[slot], CONTROL) & RNAOP) != 0))\n"
     "            memcpy(own, t->packs[slot].address, (size_t)clamped(count, 0, 8));\n        else\n    " + EACH_PACK),
    ("W8.16-net-address-of-the-first", EACH_PACK, f"        if (slot > 0 && {NAMING})\n            break;\n" + EACH_PACK),
    ("W8.16-net-address-of-the-last", EACH_PACK, f"        if (slot < t->count - 1 && {NAMING})\n            continue;\n" + EACH_PACK),
    ("W8.16-other-rnaop-gives-zero", EACH_PACK,
     EACH_PACK + "        if (masters > 0 && master[0] == 0x33 && (parameter(&t->packs[slot], CONTROL) & RNAOP) != 0)\n"
     "            memset(own, 0, (size_t)clamped(count, 0, 8));\n"),
    ("W8.17-one-tick-for-all", SLOT_EVENT, SLOT_EVENT.replace("return", "int32_t done =") +
     "\n    for (int32_t slot = 0; kind == 22 && slot < t->count; slot++)\n"
     "        t->packs[slot].had_sample = true, t->packs[slot].last_tick = tick_of(payload + 1);\n    return done;"),
    ("W8.17-tick-of-slot-0", BY_SLOT, BY_SLOT.replace("payload[0]", "kind == 22 ? 0 : payload[0]")),
    ("W8.17-power-on-forgets-all-ticks", SLOT_EVENT, "    for (int32_t slot = 0; kind == 21 && slot < t->count; slot++)\n"
     "        t->packs[slot].had_sample = false;\n" + SLOT_EVENT),
    ("W8.17-one-mark-for-all", SLOT_EVENT, "    for (int32_t slot = 0; kind == 19 && slot < t->count; slot++)\n"
     "        t->packs[slot].acr_written &= slot == payload[0];\n" + SLOT_EVENT),
    ("W8.17-mark-of-the-first", EACH_PACK, "        bool mark = t->packs[slot].acr_written;\n" + EACH_PACK +
     "        t->packs[slot].acr_written = slot > 0 ? mark : t->packs[slot].acr_written;\n"),
    ("W8.17-one-count-of-conversions", SLOT_EVENT, "    for (int32_t slot = 0; kind == 19 && slot < t->count; slot++)\n"
     "        t->packs[slot].conversions = (t->packs[slot].conversions + (slot != payload[0])) % 1024;\n" + SLOT_EVENT),
    ("W8.18-image-of-slot-0", IMAGE_SLOT, "slot < SLOTS ? &tray.packs[tray.packs[slot].accepted ? 0 : slot] : &none"),
    ("W8.18-slots-from-1", IMAGE_SLOT, "1 <= slot && slot <= SLOTS ? &tray.packs[slot - 1] : &none"),
    ("W8.18-slot-8-is-slot-0", IMAGE_SLOT, "slot < SLOTS ? &tray.packs[slot] : &tray.packs[0]"),
    ("W8.18-missing-slot-is-the-last", IMAGE_SLOT, "slot < tray.count ? &tray.packs[slot] : tray.count > 0 ? &tray.packs[tray.count - 1] : &none"),
    ("W8.18-missing-slot-is-zeros", "    if (!g->accepted) {", "    if (!g->accepted && !tray.closed) {"),
    ("W8.18-missing-slot-is-9", 'fprintf(stderr, "5: %s", none);', 'fprintf(stderr, "9: %s", none);'),
]
