"""Numbers that are kept in too few bits: they wrap, or stop at the largest that fits. docs/RANGES.md lists the numbers, with how far each goes, and at
which widths a wrong program wraps and stops; PLACES has where each stands in second.c, a number NAME as CUT{NAME}(what it is worked out as).

`watched` makes of second.c a program that tells how large each number became, by which tests/cases/generator_aims knows what was reached."""
import re

import ranges

PLACES = [
    # conversion
    ("clamped((int64_t)raw + signed_parameter(g, COB), -32768, 32767)",
     "clamped(CUT{raw + COB}(CUT{raw current}((int64_t)raw) + signed_parameter(g, COB)), -32768, 32767)"),
    ("    g->current = c;\n", "    g->current = (int32_t)CUT{CURRENT}(c);\n"),
    ("    g->conversions = (g->conversions + 1) % 1024;\n", "    g->conversions = (int32_t)CUT{conversions}(g->conversions + 1) % 1024;\n"),
    ("clamped(count + counted(g, c) + signed_parameter(g, AB), 0, 268435455)",
     "clamped(CUT{count + c + AB}(count + counted(g, c) + signed_parameter(g, AB)), 0, 268435455)"),
    ("    g->acr = (int32_t)(count / 4096);\n", "    count = CUT{count}(count);\n    g->acr = (int32_t)CUT{ACR}(count / 4096);\n"),
    ("32 * wide_parameter(g, AC);", "(int32_t)CUT{32 × AC}(32 * wide_parameter(g, AC));"),
    ("    g->age_counter += fall;\n", "    g->age_counter = (int32_t)CUT{age counter + fall}(g->age_counter + fall);\n"),
    ("int32_t step = 2 * wide_parameter(g, FULL_40);", "int32_t step = (int32_t)CUT{2 × Full40}(2 * wide_parameter(g, FULL_40));"),
    ("    g->cycle_rest += fall;\n", "    g->cycle_rest = (int32_t)CUT{rest + fall}(g->cycle_rest + fall);\n"),
    ("    while (step > 0 && g->cycle_rest >= step) {\n",
     "    if (step > 0) {\n        g->cycles = (int32_t)clamped(CUT{cycle counter + steps}(g->cycles + g->cycle_rest / step), 0, 255);\n"
     "        g->cycle_rest %= step;\n    }\n    while (step > 0 && g->cycle_rest >= step) {\n"),
    ("    g->run_sum += c;\n", "    g->run_sum = (int32_t)CUT{sum of c}(g->run_sum + c);\n"),
    ("    g->iavg = average;\n", "    g->iavg = (int32_t)CUT{IAVG}(average);\n"),
    ("32 * parameter(g, IMIN) - 1;", "(int32_t)CUT{32 × IMIN}(32 * parameter(g, IMIN)) - 1;"),
    ("g->lowest_voltage > 4 * parameter(g, VCHG);", "g->lowest_voltage > CUT{4 × VCHG}(4 * parameter(g, VCHG));"),
    ("        g->as = moved_into_as_range((int32_t)divided_down((int64_t)g->acr * 2097152, g->full * full_40));\n",
     "        g->as = moved_into_as_range((int32_t)CUT{learnt quotient}(divided_down(CUT{ACR × 2^21}(CUT{ACR that teaches}((int64_t)g->acr) * 2097152),\n"
     "            CUT{FULL × Full40}(g->full * full_40))));\n"),
    ("return (int32_t)divided_down((int64_t)g->full * g->as, 128);",
     "return (int32_t)CUT{AF}(divided_down(CUT{FULL × AS}((int64_t)g->full * g->as), 128));"),
    ("(int32_t)divided_up(age_scaled_full(g) * full_40, 16384);",
     "(int32_t)CUT{ACR at full}(divided_up(CUT{AF × Full40}(age_scaled_full(g) * full_40), 16384));"),
    # samples
    ("return g->had_sample ? (tick + 65536 - g->last_tick) % 65536 : 1;",
     "return g->had_sample ? (int32_t)CUT{elapsed ticks}(CUT{tick + 65,536}(tick + 65536 - g->last_tick) % 65536) : 1;"),
    ("    g->last_tick = tick;\n", "    g->last_tick = (int32_t)CUT{tick}(tick);\n"),
    # reading
    ("g->voltage = (int32_t)clamped(voltage, 0, 1023);", "g->voltage = (int32_t)CUT{VOLT}(clamped(CUT{raw voltage}(voltage), 0, 1023));"),
    ("g->temperature = (int32_t)clamped(temperature, -1024, 1023);",
     "g->temperature = (int32_t)CUT{temperature}(clamped(CUT{raw temperature}(temperature), -1024, 1023));"),
    ("        g->lowest_voltage = g->voltage;\n", "        g->lowest_voltage = (int32_t)CUT{lowest VOLT}(g->voltage);\n"),
    ("    g->full = full < 8192 ? 8192 : full;\n",
     "    full = 16384 - (int32_t)CUT{Full slopes}(16384 - full);\n    g->full = (int32_t)CUT{FULL}(full < 8192 ? 8192 : full);\n"),
    ("    g->ae = ae > 8191 ? 8191 : ae;\n",
     "    ae = (int32_t)CUT{16 × byte 68h + AE slopes}(ae);\n    g->ae = (int32_t)CUT{AE}(ae > 8191 ? 8191 : ae);\n"),
    ("    g->se = se > 8191 ? 8191 : se;\n", "    se = (int32_t)CUT{SE slopes}(se);\n    g->se = (int32_t)CUT{SE}(se > 8191 ? 8191 : se);\n"),
    ("int32_t empty_voltage = 4 * parameter(g, VAE);", "int32_t empty_voltage = (int32_t)CUT{4 × VAE}(4 * parameter(g, VAE));"),
    ("int32_t threshold = -128 * parameter(g, IAE);", "int32_t threshold = -(int32_t)CUT{128 × IAE}(128 * parameter(g, IAE));"),
    ("int32_t e = (int32_t)divided_down((int64_t)g->ae * wide_parameter(g, FULL_40), 16384);",
     "int32_t e = (int32_t)CUT{E}(divided_down(CUT{AE × Full40, for E}((int64_t)g->ae * wide_parameter(g, FULL_40)), 16384));"),
    ("int64_t n = 16384 * (int64_t)g->acr - empty * full_40;",
     "int64_t n = CUT{N}(CUT{16,384 × ACR}(16384 * (int64_t)g->acr) - CUT{AE or SE × Full40}(empty * full_40));"),
    ("int64_t d = (age_scaled_full(g) - empty) * full_40;", "int64_t d = CUT{D}((age_scaled_full(g) - empty) * full_40);"),
    ("clamped(divided_down(100 * n, d), 0, 100)", "clamped(CUT{100 × N / D}(divided_down(CUT{100 × N}(100 * n), d)), 0, 100)"),
    ("divided_down(n * parameter(g, RSNSP), 4194304)", "CUT{RAAC or RSAC}(divided_down(CUT{N × RSNSP}(n * parameter(g, RSNSP)), 4194304))"),
    ("        g->saved_acr = g->acr;\n", "        g->saved_acr = (int32_t)CUT{saved ACR}(g->acr);\n"),
    # bus
    ("            g->acr = 256 * held + value;\n", "            g->acr = (int32_t)CUT{ACR written}(256 * held + value);\n"),
    ("reply[i] = (byte)read_at(g, address + i);", "reply[i] = (byte)read_at(g, (int32_t)CUT{address that is read}(address + i));"),
    ("case 0x0A: return high_of(g->temperature * 32);", "case 0x0A: return high_of((int32_t)CUT{TEMP}(g->temperature * 32));"),
    ("case 0x0B: return low_of(g->temperature * 32);", "case 0x0B: return low_of((int32_t)CUT{TEMP}(g->temperature * 32));"),
    ("case 0x0C: return high_of(g->voltage * 32);", "case 0x0C: return high_of((int32_t)CUT{VOLT × 32}(g->voltage * 32));"),
    ("case 0x0D: return low_of(g->voltage * 32);", "case 0x0D: return low_of((int32_t)CUT{VOLT × 32}(g->voltage * 32));"),
    ("case 0x12: return high_of(g->fraction * 16);", "case 0x12: return high_of((int32_t)CUT{ACRL}(g->fraction * 16));"),
    ("case 0x13: return low_of(g->fraction * 16);", "case 0x13: return low_of((int32_t)CUT{ACRL}(g->fraction * 16));"),
    # session
    ("size - at - 4 < little_endian_16(header))", "size - at - 4 < CUT{payload length}(little_endian_16(header)))"),
    ("int32_t length = little_endian_16(header), kind = little_endian_16(header + 2);",
     "int32_t length = (int32_t)CUT{payload length}(little_endian_16(header)), kind = (int32_t)CUT{kind}(little_endian_16(header + 2));"),
    ("payload[0] : little_endian_16(payload);", "payload[0] : (int32_t)CUT{read count}(little_endian_16(payload));"),
    ("        room_left -= replied;\n", "        room_left = REPLY_ROOM - (int32_t)CUT{replied}(REPLY_ROOM - room_left + replied);\n"),
    ("print_line(printing, of, number, kind_text,", "print_line(printing, of, (int32_t)CUT{record number}(number), kind_text,"),
    ("    int32_t size = (int32_t)fread(session, 1, sizeof session, stdin);\n",
     "    int32_t size = (int32_t)CUT{session size}(fread(session, 1, sizeof session, stdin));\n"),
]

NUMBERS = list(dict.fromkeys(name for _, new in PLACES for name in re.findall(r"CUT\{(.+?)\}", new)))
HEAD = "typedef unsigned char byte;\n"

# A number of so many bits without a sign holds 0 to 2^bits - 1, one with a sign beside them -2^bits to 2^bits - 1.
HELPERS = HEAD + """
static inline int64_t wraps(int bits, int64_t x) { return (int64_t)((uint64_t)x & ((UINT64_C(1) << bits) - 1)); }
static inline int64_t wraps_signed(int bits, int64_t x) { return wraps(bits + 1, x + (INT64_C(1) << bits)) - (INT64_C(1) << bits); }
static inline int64_t stops(int bits, int64_t x) { return x >= INT64_C(1) << bits ? (INT64_C(1) << bits) - 1 : x; }
static inline int64_t stops_signed(int bits, int64_t x) { return x < -(INT64_C(1) << bits) ? -(INT64_C(1) << bits) : stops(bits, x); }
"""


def placed(source, calls):
    """The second program with each number of `calls` handed through the call that stands there, and all others as they are."""
    for old, new in PLACES:
        names = re.findall(r"CUT\{(.+?)\}", new)
        if any(name in calls for name in names):
            if source.count(old) != 1:
                raise ValueError(f"{names[0]}: its text stands {source.count(old)} times in second.c")
            source = source.replace(old, re.sub(r"CUT\{(.+?)\}\(", lambda found: calls.get(found[1], "("), new))
    return source


def edits(name, call):
    """The same as edits of a mutant: the texts, each with what is put in its place."""
    pairs = [(old, new) for old, new in PLACES if f"CUT{{{name}}}" in new]
    put = {name: call}
    return [text for old, new in pairs for text in (old, re.sub(r"CUT\{(.+?)\}\(", lambda found: put.get(found[1], "("), new))]


def mutants():
    made = []
    for row in ranges.rows():
        signed = "_signed" if row.least < 0 else ""
        for how, widths in (("wraps", row.wraps), ("stops", row.stops)):
            for bits in widths:
                label = f"{row.rule}-{row.number.replace(' ', '-').replace('/', 'by')}-{how}-at-{bits}-bits"
                made.append((label, HEAD, HELPERS, *edits(row.number, f"{how}{signed}({bits}, ")))
    return made


RANGES = mutants()


def watched(source):
    """The second program, which also tells of each number and each width how often it was too large for it."""
    text = placed(source, {name: f"watched({at}, " for at, name in enumerate(NUMBERS)})
    widths = ", ".join(map(str, ranges.WIDTHS))
    names = ", ".join(f'"{name}"' for name in NUMBERS)
    return text.replace(HEAD, HEAD + f"""
static const char *const watched_names[] = {{{names}}};
static const int watched_widths[] = {{{widths}}};
enum {{ WATCHED = {len(NUMBERS)}, WATCHED_WIDTHS = {len(ranges.WIDTHS)} }};
static long long watched_times[WATCHED][WATCHED_WIDTHS];

static inline int64_t watched(int number, int64_t x)
{{
    int64_t over = x < 0 ? -1 - x : x;
    for (int i = 0; i < WATCHED_WIDTHS && over >> watched_widths[i] > 0; i++)
        watched_times[number][i]++;
    return x;
}}

static void tell_watched(void)
{{
    for (int number = 0; number < WATCHED; number++)
        for (int i = 0; i < WATCHED_WIDTHS; i++)
            if (watched_times[number][i] > 0)
                fprintf(stderr, "%lld range: %s over %d bits\\n", watched_times[number][i], watched_names[number], watched_widths[i]);
}}
""", 1).replace("    WATCH(tell_reached());\n", "    WATCH(tell_reached());\n    tell_watched();\n", 1)
