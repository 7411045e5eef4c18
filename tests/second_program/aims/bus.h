/* Aims: bus bytes: writes, reads, copies, recalls, locks, commands, and the first byte. */

static void saw_write_at(const Gauge *was, int32_t at, int32_t value, bool held)
{
    bool read_only = (at >= 0x02 && at <= 0x0F) || (at >= 0x12 && at <= 0x1B);
    writes_of[at]++;
    SAW(at == 0x01 && (value & 0x02) == 0 && was->porf, "write: PORF cleared");
    SAW(at == 0x01 && (value & 0x02) != 0 && !was->porf, "write: PORF not set");
    SAW(at == 0x11 && held, "write: ACR");
    SAW(at == 0x11 && held && was->fraction > 0, "write: ACR, a fraction is lost");
    SAW(at == 0x11 && held && was->learnf, "write: ACR, LEARNF cleared");
    SAW(at == 0x11 && !held, "write: 11h without 10h");
    SAW(at == 0x14 && value < 63, "write: 14h dropped, a byte below 63");
    SAW(at == 0x14 && value > 128, "write: 14h dropped, a byte above 128");
    SAW(at == 0x14 && value >= 63 && value <= 128 && value != was->as, "write: 14h dropped, another AS");
    SAW(at == 0x14 && held && value != was->as, "write: 14h dropped, and ACR set by the same write");
    SAW(at == 0x14 && was->learnf, "write: 14h dropped while LEARNF is 1");
    SAW(at == 0x14 && was->ds2775, "write: 14h dropped, of a camera pack");
    SAW(at == 0x14 && was->bl1, "write: 14h dropped while block 1 is locked");
    SAW(at == 0x1F && (value & 0x40) != 0, "write: LOCK set");
    SAW(at == 0x1F && (value & 0x40) == 0 && was->lock, "write: LOCK cleared");
    SAW(read_only, "write: dropped, read-only");
    SAW(in_block_0(at) && !was->bl0, "write: label");
    labels_since += in_block_0(at);
    SAW(in_block_1(at) && !was->bl1, "write: parameter");
    SAW(in_block_0(at) && was->bl0, "write: dropped, block 0 is locked");
    SAW(in_block_1(at) && was->bl1, "write: dropped, block 1 is locked");
}

static void saw_write(const Gauge *was, const Gauge *is, int32_t address, const byte *data, int32_t count)
{
    bool held = false;
    int32_t step = 32 * wide_parameter(is, AC);
    for (int32_t i = 0; i < count && address + i <= 0xFF; i++) {
        saw_write_at(was, address + i, data[i], held);
        held = held || address + i == 0x10;
    }
    SAW(address + count > 0x100, "write: past FFh");
    SAW(count == 0, "write: no byte");
    bool acr = address <= 0x10 && address + count > 0x11;
    SAW(acr && was->acr == is->acr, "write: ACR, to an equal value");
    SAW(acr && was->acr_written, "write: ACR, again before a conversion");
    SAW(acr && address < 0x10, "write: ACR, from below 10h");
    since_write = acr ? 0 : since_write;
    SAW(address == 0x10 && count == 1, "write: 10h alone");
    SAW(count > 0 && step > 0 && was->age_counter >= 2 * step && 32 * wide_parameter(was, AC) > was->age_counter,
        "write: AC lowered far below the counter");
    SAW((parameter(was, CONTROL) & RNAOP) != (parameter(is, CONTROL) & RNAOP), "write: RNAOP changed");
    SAW(!crossed(was->shadow) && crossed(is->shadow), "write: breakpoints crossed");
}

static void saw_read(int32_t address, int32_t count)
{
    for (int32_t at = address; at < address + count && at <= 0xFF; at++)
        reads_of[at]++;
    SAW(address + count > 0x100, "read: past FFh");
    SAW(count == 0, "read: no byte");
    SAW(count == 64, "read: 64 bytes");
}

static void saw_block_command(const Gauge *was, const Gauge *is, int32_t command, int32_t address)
{
    bool zero = in_block_0(address), one = in_block_1(address);
    bool eeprom = memcmp(was->eeprom, is->eeprom, 256) != 0, shadow = memcmp(was->shadow, is->shadow, 256) != 0;
    bool differ_0 = memcmp(was->shadow + 0x20, was->eeprom + 0x20, 16) != 0;
    bool differ_1 = memcmp(was->shadow + 0x60, was->eeprom + 0x60, 32) != 0;
    SAW(command == 0x48 && zero && eeprom, "copy: block 0");
    SAW(command == 0x48 && one && eeprom, "copy: block 1");
    SAW(command == 0x48 && one && !crossed(was->eeprom) && crossed(is->eeprom), "copy: crossed breakpoints");
    SAW(command == 0x48 && zero && was->bl0 && differ_0, "copy: dropped, block 0 is locked");
    SAW(command == 0x48 && one && was->bl1 && differ_1, "copy: dropped, block 1 is locked");
    SAW(command == 0x48 && !zero && !one && (differ_0 || differ_1), "copy: an address in no block");
    SAW(command == 0xB8 && zero && shadow, "recall: block 0");
    SAW(command == 0xB8 && one && shadow, "recall: block 1");
    SAW(command == 0xB8 && one && !crossed(was->shadow) && crossed(is->shadow), "recall: crossed breakpoints");
    SAW(command == 0xB8 && zero && shadow && was->bl0, "recall: block 0 is locked");
    SAW(command == 0xB8 && one && shadow && was->bl1, "recall: block 1 is locked");
    SAW(command == 0xB8 && one && was->learnf, "recall: LEARNF stays");
    SAW(command == 0xB8 && !zero && !one && (differ_0 || differ_1), "recall: an address in no block");
    SAW(command == 0x6A && zero && was->lock && !was->bl0, "lock: block 0");
    SAW(command == 0x6A && one && was->lock && !was->bl1, "lock: block 1");
    SAW(command == 0x6A && was->lock && ((zero && was->bl0) || (one && was->bl1)), "lock: a block that is locked");
    SAW(command == 0x6A && !was->lock && ((zero && !was->bl0) || (one && !was->bl1)), "lock: dropped, LOCK is 0");
    SAW(command == 0x6A && was->lock && !zero && !one, "lock: an address in no block");
}

static void saw_selected(const Gauge *was, const Gauge *is, int32_t kind, const byte *asked, int32_t left, int32_t count)
{
    SAW(left == 0, "command: none");
    SAW(left == 1, "command: no address");
    SAW(left == 1 && asked[0] == 0x6A && was->lock, "command: a lock without an address");
    if (left < 2) {
        saw_class(kind, 0, 1, 0, false);
        return;
    }
    int32_t command = asked[0], address = asked[1], first = 1, last = 0;
    bool block = command == 0x48 || command == 0xB8 || command == 0x6A;
    SAW(command == 0x69, "command: 69h");
    SAW(command == 0x6C, "command: 6Ch");
    SAW(command == 0x48, "command: 48h");
    SAW(command == 0xB8, "command: B8h");
    SAW(command == 0x6A, "command: 6Ah");
    SAW(command != 0x69 && command != 0x6C && !block, "command: another one");
    SAW(command == 0x69 && left > 2, "command: surplus bytes after 69h");
    SAW(block && left > 2, "command: surplus bytes after 48h, B8h or 6Ah");
    SAW(command == 0x6C && count > 0, "command: a reply to 6Ch");
    SAW(block && count > 0, "command: a reply to 48h, B8h or 6Ah");
    saw_cycle_bus(was, is, command, address, command == 0x69 ? count : left - 2);
    if (command == 0x69) {
        saw_read(address, count);
        first = address, last = address + count - 1;
    } else if (command == 0x6C) {
        saw_write(was, is, address, asked + 2, left - 2);
        first = address, last = address + left - 3;
    } else if (block) {
        saw_block_command(was, is, command, address);
        if (in_block_0(address) || in_block_1(address))
            first = in_block_0(address) ? 0x20 : 0x60, last = in_block_0(address) ? 0x2F : 0x7F;
    }
    saw_class(kind, 0, first, last, command == 0x6A);
}

static void saw_transaction(const Gauge *was, const Gauge *is, int32_t kind, const byte *master, int32_t masters, int32_t count)
{
    int32_t start = masters > 0 ? master[0] : -1;
    bool rnaop = (parameter(was, CONTROL) & RNAOP) != 0, whole = start == 0x55 && masters >= 9;
    bool own = whole && memcmp(master + 1, was->address, 8) == 0;
    bool net_address = start == (rnaop ? 0x39 : 0x33);
    SAW(start < 0, "first byte: none");
    SAW(start == 0x33 && !rnaop && count > 0, "first byte: 33h with RNAOP 0");
    SAW(start == 0x33 && rnaop && count > 0, "first byte: 33h with RNAOP 1");
    SAW(start == 0x39 && rnaop && count > 0, "first byte: 39h with RNAOP 1");
    SAW(start == 0x39 && !rnaop && count > 0, "first byte: 39h with RNAOP 0");
    SAW(net_address && count > 8, "first byte: more than the net address is read");
    SAW(net_address && count > 0 && masters > 1, "first byte: a net address read with bytes after it");
    SAW(start == 0xCC, "first byte: CCh");
    SAW(own, "first byte: 55h with the own address");
    SAW(whole && !own, "first byte: 55h with another address");
    SAW(whole && !own && memcmp(master + 1, was->address, 7) == 0, "first byte: 55h with an address that differs in its last byte");
    SAW(start == 0x55 && !whole, "first byte: 55h with a short address");
    SAW(start >= 0 && start != 0x33 && start != 0x39 && start != 0xCC && start != 0x55, "first byte: another one");
    if (start == 0xCC || own)
        saw_selected(was, is, kind, master + (own ? 9 : 1), masters - (own ? 9 : 1), count);
    else
        saw_class(kind, 0, 1, 0, false);
}
