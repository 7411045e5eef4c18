"""Longer transactions, of kind 7 (W11); LONGER_TRAYS the same in trays."""
from .texts import ASKED, EVERY_SLOT, LINE, OPEN, TOO_MANY

FORM = "case 7: transaction(g, payload + ahead, length - ahead, reply, read_count(kind, payload)); return read_count(kind, payload);"
COUNT_OF = "return kind == 4 ? payload[0] : little_endian_16(payload);"
AHEAD = "return kind == 4 ? 1 : 2;"
LIMITS = "return kind == 4 ? READ_LIMIT : LONG_READ_LIMIT;"
LONG_SIZES = "return 2 <= length && length <= 258;"
THE_KIND = "/* ---- Bus bytes ---- */", "static int32_t the_kind = 4;", "    int32_t ahead = count_size(kind);\n", \
    "    int32_t ahead = count_size(kind);\n    the_kind = kind;\n"

LONGER = [
    ("W11.1-count-high-byte-first", COUNT_OF, "return kind == 4 ? payload[0] : 256 * payload[0] + payload[1];"),
    ("W11.1-low-byte-of-the-count", COUNT_OF, "return payload[0];"),
    ("W11.1-count-of-one-byte", COUNT_OF, "return payload[0];", AHEAD, "return kind > 0 ? 1 : 2;"),
    ("W11.1-count-behind-a-byte", COUNT_OF, "return kind == 4 ? payload[0] : payload[1];"),
    ("W11.1-64-bytes-of-the-master", FORM,
     FORM.replace("length - ahead", "length - ahead > 64 ? 64 : length - ahead")),
    ("W11.1-130-bytes-of-the-master", FORM,
     FORM.replace("length - ahead", "length - ahead > 130 ? 130 : length - ahead")),
    ("W11.1-reads-64-at-most", *THE_KIND, "        for (int32_t i = 0; i < count; i++)\n            reply[i] = (byte)read",
     "        for (int32_t i = 0; i < count && i < 64; i++)\n            reply[i] = (byte)read"),
    ("W11.1-read-goes-round", "read_at(g, address + i);", "read_at(g, count > 64 ? (address + i) & 0xFF : address + i);"),
    ("W11.1-write-goes-round", "i < count && address + i <= 0xFF; i++) {\n        int32_t at = address + i,",
     "i < count && (count > 62 || address + i <= 0xFF); i++) {\n        int32_t at = (address + i) & 0xFF,"),
    ("W11.1-writes-127-at-most", "i < count && address + i <= 0xFF;", "i < count && i < 127 && address + i <= 0xFF;"),
    ("W11.1-write-stops-at-30h", "i < count && address + i <= 0xFF;", "i < count && !(count > 62 && address + i == 0x30) && address + i <= 0xFF;"),
    ("W11.2-no-kind", "if (kind < 1 || kind > 8)", "if (kind < 1 || kind == 7 || kind > 8)"),
    ("W11.2-259-bytes", LONG_SIZES, LONG_SIZES.replace("258", "259")),
    ("W11.2-257-bytes", LONG_SIZES, LONG_SIZES.replace("258", "257")),
    ("W11.2-256-bytes", LONG_SIZES, LONG_SIZES.replace("258", "256")),
    ("W11.2-66-bytes", LONG_SIZES, LONG_SIZES.replace("258", "66")),
    ("W11.2-half-a-count", LONG_SIZES, LONG_SIZES.replace("2 <= length", "1 <= length")),
    ("W11.2-no-count", LONG_SIZES, "return length <= 258;"),
    ("W11.2-a-master-byte-asked", LONG_SIZES, LONG_SIZES.replace("2 <= length", "3 <= length")),
    ("W11.2-before-an-image", "if (is_image(kind) == g->accepted)", "if (kind != 7 && is_image(kind) == g->accepted)"),
    ("W11.2-five-after-eight", "    if (is_image(kind) == g->accepted)\n", TOO_MANY + "    if (is_image(kind) == g->accepted)\n"),
    ("W11.2-no-room-asked", "if (is_transaction(kind) && read_count(kind, payload) > room_left)", "if (kind == 4 && payload[0] > room_left)"),
    ("W11.2-room-by-the-low-byte", ASKED + " > room_left", ASKED + " % 256 > room_left"),
    ("W11.3-257-allowed", LIMITS, "return kind == 4 ? READ_LIMIT : 257;", "byte reply[LONG_READ_LIMIT];", "byte reply[512];"),
    ("W11.3-256-refused", LIMITS, "return kind == 4 ? READ_LIMIT : 255;"),
    ("W11.3-64-as-for-kind-4", LIMITS, "return kind == 4 ? READ_LIMIT : READ_LIMIT;"),
    ("W11.3-kind-4-up-to-256", LIMITS, "return LONG_READ_LIMIT + 0 * kind;"),
    ("W11.3-by-the-low-byte", "read_count(kind, payload) > read_limit(kind))", "read_count(kind, payload) % 256 > read_limit(kind))",
     "byte reply[LONG_READ_LIMIT];", "byte reply[65536];"),
    ("W11.3-nine-before-eight", TOO_MANY, "    if (is_transaction(kind) && read_count(kind, payload) > room_left)\n        return 9;\n" + TOO_MANY),
    ("W11.4-kind-4-up-to-258-bytes", "1 <= length && length <= 65", "1 <= length && length <= 258"),
    ("W11.4-kind-4-count-of-two-bytes", AHEAD, "return kind == 4 || kind == 7 ? 2 : 0;"),
    ("W11.6-longer-sessions", "if (size > SESSION_LIMIT)", "if (size > SESSION_LIMIT + 256)", "session[SESSION_LIMIT + 1];", "session[SESSION_LIMIT + 257];"),
    ("W11.7-reads-and-writes-alone", *THE_KIND, "    if (!in_block_0(address) && !in_block_1(address))\n        return;",
     "    if (the_kind == 7 || (!in_block_0(address) && !in_block_1(address)))\n        return;"),
    ("W11.7-no-net-address", *THE_KIND, "if (masters >= 1 && master[0] == net_address_command) {",
     "if (the_kind == 4 && masters >= 1 && master[0] == net_address_command) {"),
    ("W11.7-no-mark", *THE_KIND, "            g->acr_written = true;\n", "            g->acr_written = g->acr_written || the_kind == 4;\n"),
    ("W11.7-no-porf", *THE_KIND, "if (at == 0x01 && (value & 0x02) == 0)", "if (at == 0x01 && (value & 0x02) == 0 && the_kind == 4)"),
    ("W11.7-label-alone", *THE_KIND, "(in_block_1(at) && !g->bl1)", "(in_block_1(at) && !g->bl1 && the_kind == 4)"),
    ("W11.7-replies-256-bytes", FORM, FORM.replace("return read_count", "return kind == 7 && read_count(kind, payload) > 0 ? 256 : read_count")),
    ("W11.7-uses-256-of-the-room", "room_left -= replied;", "room_left -= kind == 7 && replied > 0 && room_left >= 256 ? 256 : replied;"),
]

TRAY_KINDS = "    if (!is_image(kind) && !is_transaction(kind) && !has_slot(kind))"
TRAY_FORM = "        tray_transaction(t, payload + count_size(kind), length - count_size(kind), reply, read_count(kind, payload));\n"

LONGER_TRAYS = [
    ("W11.2-not-in-trays", TRAY_KINDS, TRAY_KINDS.replace("!is_transaction(kind)", "kind != 4")),
    ("W11.2-tray-259-bytes", "    return length_fits(kind, length);", "    return length_fits(kind, kind == 7 && length == 259 ? 258 : length);"),
    ("W11.2-tray-66-bytes", "    return length_fits(kind, length);", "    return length_fits(kind == 7 && length > 66 ? 4 : kind, length);"),
    ("W11.2-tray-before-an-image", "    if (t->count == 0)\n        return 5;\n", "    if (t->count == 0)\n        return kind == 7 ? 0 : 5;\n"),
    ("W11.2-tray-no-room-asked", "        return judged(&t->packs[0], room_left,", "        return judged(&t->packs[0], kind == 7 ? 65536 : room_left,"),
    ("W11.3-tray-64-as-for-kind-4", "    if (is_transaction(kind))\n        return judged(",
     "    if (kind == 7 && read_count(kind, payload) > READ_LIMIT)\n        return 8;\n    if (is_transaction(kind))\n        return judged("),
    ("W11.7-tray-to-the-first-alone", EVERY_SLOT, EVERY_SLOT.replace("slot < t->count", "slot < (masters > 64 ? 1 : t->count)")),
    ("W11.7-tray-64-bytes-anded", LINE, "            reply[i] &= i < 64 ? own[i] : 0xFF;\n"),
    ("W11.7-tray-long-match-to-nobody", "masters >= 9 ? slot_with(t, master + 1) : -1;", "masters >= 9 && masters <= 64 ? slot_with(t, master + 1) : -1;"),
    ("W11.7-tray-master-a-byte-early", TRAY_FORM, TRAY_FORM.replace("payload + count_size(kind)", "payload + 1")),
    ("W11.7-tray-long-does-not-close", OPEN, "    t->closed |= kind != 7;\n"),
]
