/* outside.c: entries of the library that do wrong what damaged.c has to see: FAULT is which. They stand in for the library, and know no gauge. */
#include <trovimbe.h>

uint8_t trovimbe_start(uint8_t *state, size_t size) {
    (void)state;
    return size == TROVIMBE_STATE_SIZE ? 0 : TROVIMBE_STATE_ROOM;
}

trovimbe_result trovimbe_image(const uint8_t *state, size_t size, uint8_t *image, size_t room) {
    trovimbe_result none = {TROVIMBE_ORDER, 0};
    (void)state, (void)size, (void)image, (void)room;
    return none;
}

trovimbe_result trovimbe_record(uint8_t *state, size_t size, const uint8_t *record, size_t n, uint8_t *reply, size_t room) {
    trovimbe_result none = {TROVIMBE_KIND, 0};
    volatile uint8_t seen = 0;
    (void)state, (void)size, (void)record, (void)reply, (void)room;
    if (n < 4) none.answer = TROVIMBE_NO_HEADER;
#if FAULT == 1
    else seen = record[n]; /* reads a byte behind the record */
#elif FAULT == 2
    else if (room) reply[room] = 0; /* writes a byte behind the room */
#elif FAULT == 3
    else if (size) seen = state[-1]; /* reads a byte ahead of the state */
#elif FAULT == 4
    else if (size) state[0] ^= 1; /* changes the state and refuses */
#elif FAULT == 5
    else if (room) reply[0] ^= 1; /* writes into the room and refuses */
#elif FAULT == 6
    else none.answer = (uint8_t)((uintptr_t)record / 8 % 2 + 3); /* goes by where its buffers lie */
#endif
    (void)seen;
    return none;
}

uint8_t trovimbe_tray_start(uint8_t *state, size_t size) {
    (void)state;
    return size == TROVIMBE_TRAY_SIZE ? 0 : TROVIMBE_STATE_ROOM;
}

trovimbe_result trovimbe_tray_image(const uint8_t *state, size_t size, uint8_t slot, uint8_t *image, size_t room) {
    (void)slot;
    return trovimbe_image(state, size, image, room);
}

trovimbe_result trovimbe_tray_record(uint8_t *state, size_t size, const uint8_t *record, size_t n, uint8_t *reply, size_t room) {
    return trovimbe_record(state, size, record, n, reply, room);
}
