/* Aims: each flag as it changes, and what a power-on takes back or loses. */

static void saw_flags(const Gauge *was, const Gauge *is)
{
    SAW(!was->porf && is->porf, "flag: PORF set");
    SAW(was->porf && !is->porf, "flag: PORF cleared");
    SAW(!was->chgtf && is->chgtf, "flag: CHGTF set");
    SAW(was->chgtf && !is->chgtf, "flag: CHGTF cleared");
    SAW(!was->aef && is->aef, "flag: AEF set");
    SAW(was->aef && !is->aef, "flag: AEF cleared");
    SAW(!was->sef && is->sef, "flag: SEF set");
    SAW(was->sef && !is->sef, "flag: SEF cleared");
    SAW(!was->learnf && is->learnf, "flag: LEARNF set");
    SAW(was->learnf && !is->learnf, "flag: LEARNF cleared");
    SAW(!was->lock && is->lock, "flag: LOCK set");
    SAW(was->lock && !is->lock, "flag: LOCK cleared");
    SAW(!was->bl0 && is->bl0, "flag: BL0 set");
    SAW(!was->bl1 && is->bl1, "flag: BL1 set");
}

static int32_t tick_before_power_on = -1; /* where power-ons came since the last sample, -1 if there was none */
static int32_t offsets;                   /* how many 1024ths came since power-on */

static void saw_power_on(const Gauge *was, const Gauge *is)
{
    bool again = was->accepted;
    SAW(is->saved_as < 63, "power-on: AS moved up to 63");
    SAW(is->saved_as > 128, "power-on: AS moved down to 128");
    SAW(is->saved_as >= 63 && is->saved_as <= 128, "power-on: AS as it was saved");
    SAW(is->bl0 && !is->bl1, "power-on: block 0 locked alone");
    SAW(is->bl1 && !is->bl0, "power-on: block 1 locked alone");
    SAW(is->bl1 && is->bl0, "power-on: both blocks locked");
    SAW(again && was->acr != is->acr, "power-on: ACR goes back to the saved one");
    SAW(again && was->as != is->as, "power-on: AS goes back to the saved one");
    SAW(again && was->fraction > 0, "power-on: a fraction is lost");
    SAW(again && was->age_counter > 0, "power-on: an age counter is lost");
    SAW(again && was->run > 0, "power-on: a run of conversions is cut");
    SAW(again && was->learnf, "power-on: LEARNF cleared");
    SAW(again && was->had_sample, "power-on: a tick is lost");
    SAW(again && was->acr_written, "power-on: a mark is lost");
    SAW(again && was->conversions > 1000, "power-on: a count near the 1024th is lost");
    if (was->had_sample)
        tick_before_power_on = was->last_tick;
    offsets = 0;
    SAW(again && was->lock, "power-on: LOCK cleared");
    SAW(again && crossed(is->eeprom), "power-on: crossed breakpoints in the EEPROM");
    SAW(again && memcmp(was->shadow + 0x20, is->shadow + 0x20, 16) != 0, "power-on: a label that was not copied is lost");
    SAW(again && memcmp(was->shadow + 0x60, is->shadow + 0x60, 32) != 0, "power-on: parameters that were not copied are lost");
}
