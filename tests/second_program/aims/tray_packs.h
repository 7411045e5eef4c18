/* Aims: trays: that each pack has its own ticks, mark and count. */

/* W8.17, of a sample that is not refused with 5. */
static void saw_tray_tick(const Tray *was, const byte *payload, int32_t answer)
{
    const Gauge *own = &was->packs[payload[0]];
    int32_t tick = tick_of(payload + 1);
    bool other_fits = false, other_refuses = false;
    for (int32_t slot = 0; slot < was->count; slot++) {
        const Gauge *other = &was->packs[slot];
        other_fits |= other != own && other->had_sample && tick_fits(other, tick);
        other_refuses |= other != own && other->had_sample && !tick_fits(other, tick);
    }
    SAW(answer == 11 && other_fits, "tray packs: a sample that is late, and would not be in another slot");
    SAW(answer == 0 && own->had_sample && other_refuses, "tray packs: a sample in time that would be late in another slot");
    SAW(answer == 0 && !own->had_sample && other_refuses, "tray packs: the first sample of a slot where another had some");
}

/* W8.4, W8.17, W8.19: an event of a slot that is done. */
static void saw_tray_event(const Tray *was, const Tray *is, int32_t kind, const byte *payload)
{
    int32_t slot = payload[0];
    const Gauge *own = &was->packs[slot];
    bool other_marked = false;
    for (int32_t i = 0; i < was->count; i++)
        other_marked |= i != slot && was->packs[i].acr_written;
    bool other_camera = false;
    for (int32_t i = 0; i < was->count; i++)
        other_camera |= i != slot && was->packs[i].ds2775;
    SAW(own->ds2775 && other_camera && own->cycles != is->packs[slot].cycles && kind != 21, "tray camera: a step in one of several");
    SAW(own->ds2775 && own->saved_cycles != is->packs[slot].saved_cycles, "tray camera: the counter of a slot is saved");
    SAW(kind == 21 && own->ds2775 && own->cycles != is->packs[slot].cycles, "tray camera: a power-on takes the counter back");
    SAW(slot == 7 && kind == 18, "tray packs: a reading at slot 7");
    SAW(slot == 7 && kind == 19, "tray packs: a conversion at slot 7");
    SAW(slot == 7 && kind == 21, "tray packs: a power-on at slot 7");
    SAW(slot == 7 && kind == 22, "tray packs: a sample at slot 7");
    SAW(slot == 0 && was->count > 1 && kind == 21, "tray packs: a power-on of slot 0 among others");
    SAW((kind == 19 || kind == 22) && own->acr_written && other_marked, "tray packs: a conversion after a write of ACR in several packs");
    SAW((kind == 19 || kind == 22) && !own->acr_written && other_marked, "tray packs: a conversion after a write of ACR in another pack");
    SAW(kind == 19 && own->conversions == 1023 && was->count > 1, "tray packs: the 1024th conversion of one of several packs");
    SAW(kind == 18 && own->saved_acr != is->packs[slot].saved_acr && was->count > 1, "tray packs: a reading that saves, among others");
}
