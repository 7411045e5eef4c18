/* Aims: trays: what every pack is asked at once, what is matched to one, and longer transactions. */

/* W8.15, W8.16: what every pack is asked. */
static void saw_tray_every(const Tray *was, const Tray *is, const byte *master, int32_t masters, const byte *reply, int32_t count)
{
    bool some_other = false, each_other = was->count > 1;
    int32_t rnaop = 0, took = 0, locked = 0, copied = 0, marked = 0, cameras = 0, cycled = 0;
    for (int32_t slot = 0; slot < was->count; slot++) {
        const Gauge *before = &was->packs[slot], *after = &is->packs[slot];
        int32_t own = 0;
        for (int32_t i = 0; i < count; i++)
            own |= masters >= 3 && master[0] == 0xCC && master[1] == 0x69 && read_at(after, master[2] + i) != reply[i];
        some_other |= own != 0;
        each_other &= own != 0;
        rnaop += (parameter(before, CONTROL) & RNAOP) != 0;
        took += memcmp(before->shadow, after->shadow, sizeof before->shadow) != 0;
        locked += (before->bl0 != after->bl0) + (before->bl1 != after->bl1);
        copied += memcmp(before->eeprom, after->eeprom, sizeof before->eeprom) != 0;
        marked += !before->acr_written && after->acr_written;
        cameras += before->ds2775;
        cycled += before->cycles != after->cycles;
    }
    bool skip = master[0] == 0xCC, many = was->count > 1, named = count >= 8;
    int32_t command = skip && masters >= 3 ? master[1] : -1;
    SAW(command == 0x69 && some_other, "tray line: a Skip read that is not what some pack has");
    SAW(command == 0x69 && each_other, "tray line: a Skip read that is what no pack has");
    SAW(command == 0x69 && many && count > 0 && !some_other, "tray line: a Skip read that all packs answer alike");
    SAW(command == 0x6C && many && took == was->count, "tray line: a Skip write that every pack takes");
    SAW(command == 0x6C && took > 0 && took < was->count, "tray line: a Skip write that some pack takes and some drops");
    SAW(command == 0x6C && marked > 1, "tray line: a Skip write of ACR");
    bool counter = command == 0x69 && master[2] <= 0x1E && master[2] + count > 0x1E;
    SAW(counter && cameras > 0 && cameras < was->count, "tray camera: a Skip read of 1Eh where some packs have a counter");
    SAW(counter && cameras > 1 && some_other, "tray camera: a Skip read of 1Eh where several packs have a counter");
    SAW(command == 0x6C && cycled > 1, "tray camera: a Skip write that several counters take");
    SAW(command == 0x6C && cycled > 0 && cycled < cameras, "tray camera: a Skip write that some counter takes and some drops");
    SAW(command == 0x6A && many && locked == was->count, "tray line: a Skip lock of every pack");
    SAW(command == 0x6A && locked > 0 && locked < was->count, "tray line: a Skip lock of some pack, by its LOCK");
    SAW(command == 0x48 && copied > 1, "tray line: a Skip copy that several packs take");
    SAW(command == 0xB8 && took > 1, "tray line: a Skip recall that several packs take");
    SAW(master[0] == 0x33 && named && many && rnaop == 0, "tray line: 33h with RNAOP 0 in every pack");
    SAW(master[0] == 0x33 && named && rnaop > 0 && rnaop == was->count - 1, "tray line: 33h that one pack of several answers");
    SAW(master[0] == 0x33 && named && rnaop > 0 && rnaop < was->count - 1, "tray line: 33h that some packs answer and some not");
    SAW(master[0] == 0x33 && named && rnaop == was->count, "tray line: 33h that no pack answers");
    SAW(master[0] == 0x39 && named && many && rnaop == was->count, "tray line: 39h with RNAOP 1 in every pack");
    SAW(master[0] == 0x39 && named && rnaop > 1 && rnaop < was->count, "tray line: 39h that some packs answer and some not");
    SAW(master[0] == 0x33 && named && rnaop > 0 && (parameter(&was->packs[0], CONTROL) & RNAOP) != 0 && rnaop < was->count,
        "tray line: 33h that slot 0 does not answer and another does");
}

/* W8.13, W8.14. */
static void saw_tray_transaction(const Tray *was, const Tray *is, const byte *master, int32_t masters, const byte *reply, int32_t count)
{
    int32_t slot = masters >= 9 && master[0] == 0x55 ? slot_with(was, master + 1) : -1;
    bool near = false;
    for (int32_t i = 0; i < was->count; i++)
        near |= slot >= 0 && i != slot && memcmp(was->packs[i].address, master + 1, 6) == 0;
    SAW(slot == 0 && was->count > 1, "tray line: matched to slot 0 of several");
    SAW(slot == 7, "tray line: matched to slot 7");
    SAW(slot > 0 && slot < was->count - 1, "tray line: matched to a slot in the middle");
    SAW(near, "tray line: matched, where another address differs in its last two bytes alone");
    SAW(slot >= 0 && masters >= 12 && master[9] == 0x6C && was->count > 1 &&
            memcmp(was->packs[slot].shadow, is->packs[slot].shadow, sizeof was->packs[slot].shadow) != 0,
        "tray line: a write that is matched to one of several");
    SAW(slot < 0 && masters >= 9 && master[0] == 0x55, "tray line: 55h with an address of nobody");
    SAW(masters > 1 && masters < 9 && master[0] == 0x55, "tray line: 55h with a short address");
    SAW(masters == 0, "tray line: no byte");
    SAW(masters > 0 && master[0] != 0x33 && master[0] != 0x39 && master[0] != 0xCC && master[0] != 0x55, "tray line: another first byte");
    if (masters > 0 && master[0] != 0x55)
        saw_tray_every(was, is, master, masters, reply, count);
}

/* W11.2 and W11.3 in trays; W11.1 by a match and by Skip. */
static void saw_tray_long(const Tray *was, const byte *payload, int32_t length, int32_t answer, int32_t room_left)
{
    LongAnswers answers = long_answers(length, payload, answer, room_left);
    SAW(answers.none, "tray long: 4 without a byte");
    SAW(answers.one, "tray long: 4 for half a count");
    SAW(answers.two, "tray long: 0 for a count alone");
    SAW(answers.most, "tray long: 0 for 258 bytes");
    SAW(answers.too_long, "tray long: 4 for 259 bytes");
    SAW(answers.before_image, "tray long: 5 before an image");
    SAW(answers.too_many, "tray long: 8 for a count of 257");
    SAW(answers.eight_first, "tray long: 8 where 9 would come next");
    SAW(answers.no_room, "tray long: 9 for a count above 64");
    if (answer != 0 || length < 3)
        return;
    LongAsked asked = long_asked(payload + 2, length - 2, read_count(7, payload));
    bool many = was->count > 1, skip = many && payload[2] == 0xCC, match = many && payload[2] == 0x55;
    SAW(asked.all && skip, "tray long: the whole map of all packs at once");
    SAW(asked.all && match, "tray long: the whole map of one of several packs");
    SAW(asked.past_end && skip, "tray long: a Skip read of more than 64 bytes past FFh");
    SAW(asked.sent && match, "tray long: 256 bytes of the master to one of several packs");
    SAW(asked.sent && skip, "tray long: 256 bytes of the master to several packs");
    SAW(asked.wide_write && match, "tray long: a write over the label and block 1 of one of several packs");
    SAW(asked.wide_write && skip, "tray long: a write over the labels and blocks 1 of several packs");
    SAW(asked.named, "tray long: more than 64 bytes to 33h or 39h");
    SAW(asked.unheard && many, "tray long: more than 64 bytes of nobody");
}
