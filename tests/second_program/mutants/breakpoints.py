"""Crossed breakpoints (W3): which images are refused, and that writes, copies and power-ons are not."""
from .texts import TOO_MANY

BREAKPOINTS = [
    ("W3.1-equal-lower-refused", "return low <= middle &&", "return low < middle &&"),
    ("W3.1-equal-upper-refused", "&& middle <= high &&", "&& middle < high &&"),
    ("W3.1-40-refused", "&& high <= 40;", "&& high < 40;"),
    ("W3.1-41-accepted", "&& high <= 40;", "&& high <= 41;"),
    ("W3.1-no-cap", " && high <= 40;", ";"),
    ("W3.1-lower-two-not-compared", "return low <= middle && middle <= high", "return middle <= high"),
    ("W3.1-upper-two-not-compared", "return low <= middle && middle <= high", "return low <= middle && low <= high"),
    ("W3.1-unsigned",
     "int32_t low = signed_byte(image[0x36]), middle = signed_byte(image[0x35]), high = signed_byte(image[0x34]);",
     "int32_t low = image[0x36], middle = image[0x35], high = image[0x34];"),
    ("W3.2-turned-round",
     "int32_t low = signed_byte(image[0x36]), middle = signed_byte(image[0x35]), high = signed_byte(image[0x34]);",
     "int32_t low = signed_byte(image[0x34]), middle = signed_byte(image[0x35]), high = signed_byte(image[0x36]);"),
    ("W3.2-one-byte-late",
     "int32_t low = signed_byte(image[0x36]), middle = signed_byte(image[0x35]), high = signed_byte(image[0x34]);",
     "int32_t low = signed_byte(image[0x37]), middle = signed_byte(image[0x36]), high = signed_byte(image[0x35]);"),
    ("W3.3-ten-before-seven", "    if (is_image(kind) && payload[59] > 3)\n        return 7;\n",
     "    if (is_image(kind) && !breakpoints_ordered(payload))\n        return 10;\n"
     "    if (is_image(kind) && payload[59] > 3)\n        return 7;\n"),
    ("W3.3-ten-before-six", "    if (is_image(kind) == g->accepted)\n        return 5;\n",
     "    if (is_image(kind) == g->accepted)\n        return 5;\n"
     "    if (is_image(kind) && !breakpoints_ordered(payload))\n        return 10;\n"),
    ("W3.3-ten-before-five", "    if (is_image(kind) == g->accepted)\n        return 5;\n",
     "    if (is_image(kind) && !breakpoints_ordered(payload))\n        return 10;\n"
     "    if (is_image(kind) == g->accepted)\n        return 5;\n"),
    ("W3.4-session-stops", "at += 4 + length;", "at += answer == 10 ? size : 4 + length;"),
    ("W3.4-counts-as-accepted", "room_left -= replied;", "room_left -= replied;\n        of.gauge->accepted |= answer == 10;"),
    ("W3.6-crossed-write-dropped", "            g->shadow[at] = (byte)value;",
     "            g->shadow[at] = at == TBP34 && signed_byte(value) < signed_parameter(g, TBP23) ? g->shadow[at] : (byte)value;"),
    ("W3.6-capped-write", "            g->shadow[at] = (byte)value;",
     "            g->shadow[at] = at == TBP34 && signed_byte(value) > 40 ? 40 : (byte)value;"),
    ("W3.6-crossed-not-copied", "command == 0x48 && !*locked)",
     "command == 0x48 && !*locked &&\n        (first == 0x20 || signed_parameter(g, TBP23) <= signed_parameter(g, TBP34)))"),
    ("W3.6-crossed-not-recalled", "command == 0xB8)",
     "command == 0xB8 && (first == 0x20 || signed_byte(g->eeprom[TBP23]) <= signed_byte(g->eeprom[TBP34])))"),
    ("W3.7-power-on-refused", TOO_MANY,
     "    if (kind == 5 && signed_byte(g->eeprom[TBP23]) > signed_byte(g->eeprom[TBP34]))\n        return 10;\n" + TOO_MANY),
]
