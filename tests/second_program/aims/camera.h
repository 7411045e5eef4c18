/* Aims: the DS2775 profile, which cameras use: its cycle counter and its images. */

static int32_t cycles_in_sample; /* steps that came within the sample that is run */

/* W12.4, W12.5 and W12.8 to W12.11, of each conversion of a DS2775 pack: place is from 1, and ticks is 0 for a conversion. */
static void saw_cycles(const Gauge *was, const Gauge *is, int32_t place, int32_t ticks)
{
    int32_t step = 2 * wide_parameter(was, FULL_40), c = is->current, bias = signed_parameter(was, AB);
    int64_t count = (int64_t)was->acr * 4096 + was->fraction + added(was, c);
    int32_t after = count < 0 ? 0 : count > 268435455 ? 65535 : (int32_t)(count / 4096), fall = was->acr > after ? was->acr - after : 0;
    int32_t rest = was->cycle_rest + fall, steps = step > 0 ? rest / step : 0;
    bool blanks = (parameter(was, CONTROL) & NBEN) != 0 && !was->acr_written;
    cycles_in_sample = place <= 1 ? steps : cycles_in_sample + steps;
    SAW(blanks && c == -15, "cycle: -15 is blanked");
    SAW(blanks && c == -16 && bias == 0, "cycle: -16 is blanked with NBEN");
    SAW(blanks && c == -17, "cycle: -17 is counted");
    SAW(!blanks && c == -16 && !was->acr_written, "cycle: -16 is counted without NBEN");
    SAW(steps == 1, "cycle: a step");
    SAW(steps == 2, "cycle: two steps in a conversion");
    SAW(steps >= 3 && was->cycle_rest < step, "cycle: three steps and more in a conversion");
    SAW(steps >= 3 && was->cycle_rest >= step, "cycle: many steps at once, Full40 was lowered");
    SAW(steps > 255, "cycle: more steps at once than the counter has");
    SAW(steps > 0 && fall == 0, "cycle: a step though ACR does not fall");
    SAW(steps > 0 && fall == 0 && after > was->acr, "cycle: a step though ACR rises");
    SAW(steps > 0 && was->acr_written, "cycle: a step at the conversion after a write of ACR");
    SAW(steps > 0 && offset_due(was), "cycle: a step at a 1024th");
    SAW(steps > 0 && was->bl1, "cycle: a step while block 1 is locked");
    SAW(steps > 0 && is->as < was->as && !full_now, "cycle: a step as AS falls");
    SAW(steps > 0 && was->as < 120, "cycle: a step with AS well below 128");
    SAW(fall > 0 && steps == 0 && step > 0, "cycle: a fall that is carried");
    SAW(fall > 0 && step > 0 && rest == step, "cycle: a rest that comes to a step exactly");
    SAW(fall > 0 && step > 0 && rest == step - 1, "cycle: a rest that is one short of a step");
    SAW(steps > 0 && rest % step > 0, "cycle: a rest that is left by a step");
    SAW(was->cycles == 254 && is->cycles == 255, "cycle: 254 becomes 255");
    SAW(was->cycles == 255 && steps > 0, "cycle: 255 stays, and the step is taken off");
    SAW(was->cycles < 255 && was->cycles + steps > 255, "cycle: 255 is passed at once");
    SAW(was->cycles == 127 && is->cycles == 128, "cycle: 127 becomes 128");
    SAW(step == 0 && was->cycle_rest > 0, "cycle: Full40 = 0 zeroes the rest");
    SAW(step == 0 && was->cycle_rest == 0 && fall > 0, "cycle: Full40 = 0, and a fall is not kept");
    SAW(step == 0 && was->cycle_rest > 0 && was->acr_written, "cycle: Full40 = 0 zeroes the rest at the conversion after a write of ACR");
    SAW(full_now && was->acr > is->acr + step && step > 0, "cycle: full lowers ACR by more than a step");
    SAW(ticks > 1 && place == ticks && cycles_in_sample > 1, "cycle: steps within a sample");
    SAW(ticks > 1 && place == ticks && cycles_in_sample > 100, "cycle: a hundred steps within a sample");
}

/* W12.12 and W12.13: what a reading or a power-on does with the cell. */
static void saw_cycle_cell(const Gauge *was, const Gauge *is, int32_t kind)
{
    bool again = was->accepted && was->ds2775, powered = kind == 5 || kind == 8, saves = was->saved_acr != is->saved_acr;
    if (!is->ds2775)
        return;
    SAW(powered && is->cycles == 255, "cycle: 255 taken from the cell");
    SAW(powered && is->cycles == 0, "cycle: 0 taken from the cell");
    SAW(powered && again && was->cycles > is->cycles, "cycle: a power-on takes the counter back");
    SAW(powered && again && was->cycles < is->cycles, "cycle: a power-on takes back a counter that was written lower");
    SAW(powered && again && was->cycle_rest > 0, "cycle: a power-on loses the rest");
    SAW(kind == 2 && was->saved_cycles != is->saved_cycles, "cycle: the counter is saved");
    SAW(kind == 2 && was->saved_cycles != is->saved_cycles && is->bl1, "cycle: the counter is saved while block 1 is locked");
    SAW(kind == 2 && was->had_reading && !saves && was->saved_cycles != is->cycles && was->saved_cycles == is->saved_cycles,
        "cycle: a reading that leaves the cell behind the counter");
    SAW(kind == 2 && is->acr < was->acr && was->acr - is->acr > 2 * wide_parameter(is, FULL_40), "cycle: a reading lowers ACR by more than a step");
}

/* W12.6, W12.7 and W12.14: what the bus does. */
static void saw_cycle_bus(const Gauge *was, const Gauge *is, int32_t command, int32_t address, int32_t touched)
{
    bool here = address <= 0x1E && address + touched > 0x1E;
    SAW(!is->ds2775 && command == 0x69 && here, "cycle: 1Eh is read in kind 1");
    SAW(!is->ds2775 && command == 0x6C && here, "cycle: 1Eh is written in kind 1");
    if (!is->ds2775)
        return;
    SAW(command == 0x69 && here && !is->bl1, "cycle: the counter is read");
    SAW(command == 0x69 && here && is->bl1, "cycle: the counter is read while block 1 is locked");
    SAW(command == 0x6C && here && touched == 1 && was->cycles != is->cycles, "cycle: the counter is written");
    SAW(command == 0x6C && here && touched > 1 && was->cycles != is->cycles, "cycle: the counter is written among others");
    SAW(command == 0x6C && here && was->cycles > is->cycles, "cycle: the counter is written lower");
    SAW(command == 0x6C && here && was->cycle_rest > 0 && was->cycles != is->cycles, "cycle: the counter is written, and the rest stays");
    SAW(command == 0x6C && here && was->bl1, "cycle: a write is dropped, block 1 is locked");
    SAW(command == 0x6C && here && was->bl0 && !was->bl1 && was->cycles != is->cycles, "cycle: the counter is written while block 0 is locked");
    SAW(command == 0x6C && was->acr > is->acr + 2 * wide_parameter(is, FULL_40), "cycle: a write lowers ACR by more than a step");
    SAW(command == 0x48 && in_block_1(address) && is->cycles != is->saved_cycles, "cycle: a copy leaves the cell");
    SAW(command == 0xB8 && in_block_1(address) && is->cycles != is->saved_cycles, "cycle: a recall leaves the counter");
}

/* W12.1 to W12.3. */
static void saw_camera_answer(const Gauge *g, int32_t kind, const byte *payload, int32_t length, int32_t answer)
{
    bool whole = length >= 60, camera = kind == 8;
    SAW(camera && answer == 0, "camera: 0");
    SAW(camera && answer == 4 && length == 60, "camera: 4 for 60 bytes");
    SAW(camera && answer == 4 && length == 62, "camera: 4 for 62 bytes");
    SAW(kind == 1 && answer == 4 && length == 61, "camera: 4 for 61 bytes of kind 1");
    SAW(camera && answer == 5 && !g->ds2775, "camera: 5 after an image of kind 1");
    SAW(kind == 1 && answer == 5 && g->ds2775, "camera: 5 for kind 1 after an image of kind 8");
    SAW(camera && answer == 5 && g->ds2775, "camera: 5 for a second one");
    SAW(camera && answer == 6 && payload[0] == 0x3D && payload[7] == crc(payload, 7), "camera: 6 for the family of kind 1");
    SAW(kind == 1 && answer == 6 && whole && payload[0] == 0x32 && payload[7] == crc(payload, 7), "camera: 6 for its family in kind 1");
    SAW(camera && answer == 6 && payload[0] == 0x32, "camera: 6 for the CRC");
    SAW(camera && answer == 7, "camera: 7");
    SAW(camera && answer == 10, "camera: 10");
}
