"""VCHG, IMIN, VAE and IAE at 0 and 255, taken as off, as another number or as signed (C25, C27, R18, R22)."""

ABOVE = "g->lowest_voltage > 4 * parameter(g, VCHG);"
LIMIT = "int32_t limit = 32 * parameter(g, IMIN) - 1;"
BELOW = "bool below = g->voltage < empty_voltage;"
EDGE = "int32_t empty_voltage = 4 * parameter(g, VAE);"
DRAIN = "int32_t threshold = -128 * parameter(g, IAE);"

THRESHOLDS = [
    ("C27-vchg-0-is-off", ABOVE, "parameter(g, VCHG) > 0 && " + ABOVE),
    ("C27-vchg-0-as-1", ABOVE, "g->lowest_voltage > 4 * (parameter(g, VCHG) > 0 ? parameter(g, VCHG) : 1);"),
    ("C27-vchg-0-lets-0-pass", ABOVE, "(g->lowest_voltage > 4 * parameter(g, VCHG) || parameter(g, VCHG) == 0);"),
    ("C27-vchg-255-is-off", ABOVE, "parameter(g, VCHG) < 255 && " + ABOVE),
    ("C27-vchg-255-lets-1020-pass", ABOVE, "g->lowest_voltage > 4 * parameter(g, VCHG) - (parameter(g, VCHG) == 255);"),
    ("C27-vchg-255-asks-1023", ABOVE, "g->lowest_voltage > (parameter(g, VCHG) == 255 ? 1022 : 4 * parameter(g, VCHG));"),
    ("C27-vchg-signed", ABOVE, "g->lowest_voltage > 4 * signed_parameter(g, VCHG);"),
    ("C25-imin-0-as-256", LIMIT, "int32_t limit = 32 * (parameter(g, IMIN) > 0 ? parameter(g, IMIN) : 256) - 1;"),
    ("C25-imin-0-as-1", LIMIT, "int32_t limit = 32 * (parameter(g, IMIN) > 0 ? parameter(g, IMIN) : 1) - 1;"),
    ("C25-imin-0-wraps", LIMIT, "int32_t limit = (uint16_t)(32 * parameter(g, IMIN) - 1);"),
    ("C25-imin-255-is-off", LIMIT, "int32_t limit = parameter(g, IMIN) == 255 ? 0 : 32 * parameter(g, IMIN) - 1;"),
    ("C25-imin-255-has-no-limit", LIMIT, "int32_t limit = parameter(g, IMIN) == 255 ? 32767 : 32 * parameter(g, IMIN) - 1;"),
    ("C25-imin-255-as-254", LIMIT, "int32_t limit = 32 * (parameter(g, IMIN) == 255 ? 254 : parameter(g, IMIN)) - 1;"),
    ("C25-imin-signed", LIMIT, "int32_t limit = 32 * signed_parameter(g, IMIN) - 1;"),
    ("R18-vae-0-finds-0-below", BELOW, "bool below = g->voltage < empty_voltage || (empty_voltage == 0 && g->voltage == 0);"),
    ("R18-vae-255-is-off", BELOW, "bool below = g->voltage < empty_voltage && empty_voltage < 1020;"),
    ("R18-vae-255-as-1024", EDGE, "int32_t empty_voltage = parameter(g, VAE) == 255 ? 1024 : 4 * parameter(g, VAE);"),
    ("R18-vae-255-as-1019", EDGE, "int32_t empty_voltage = parameter(g, VAE) == 255 ? 1019 : 4 * parameter(g, VAE);"),
    ("R18-vae-signed", EDGE, "int32_t empty_voltage = 4 * signed_parameter(g, VAE);"),
    ("R22-iae-0-is-off", DRAIN, "int32_t threshold = parameter(g, IAE) == 0 ? -32768 : -128 * parameter(g, IAE);"),
    ("R22-iae-0-takes-0-in", DRAIN, "int32_t threshold = parameter(g, IAE) == 0 ? 1 : -128 * parameter(g, IAE);"),
    ("R22-iae-0-as-1", DRAIN, "int32_t threshold = -128 * (parameter(g, IAE) > 0 ? parameter(g, IAE) : 1);"),
    ("R22-iae-255-is-off", DRAIN, "int32_t threshold = parameter(g, IAE) == 255 ? -32768 : -128 * parameter(g, IAE);"),
    ("R22-iae-255-takes-its-edge-in", DRAIN, "int32_t threshold = -128 * parameter(g, IAE) + (parameter(g, IAE) == 255);"),
    ("R22-iae-signed", DRAIN, "int32_t threshold = -128 * signed_parameter(g, IAE);"),
]
