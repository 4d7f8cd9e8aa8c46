/* A value added, loaded and checked; a mirror that goes back to an older cell; one that makes up a stamp; and serials that go round. docs/CALLING.md,
   "An example". */
#include <stdio.h>
#include <string.h>

#include "pintlecup.h"

static uint8_t mirror[PINTLECUP_STORE_BYTES];

static void check(pintlecup_state *state) {
    size_t address = 0;
    switch (pintlecup_check(state, mirror, sizeof mirror, &address)) {
    case PINTLECUP_DONE: printf("check accept\n"); break;
    case PINTLECUP_REJECTED_STAMP: printf("check reject stamp %zu\n", address); break;
    case PINTLECUP_REJECTED_TAG: printf("check reject tag\n"); break;
    default: printf("check nothing\n");
    }
}

static void compare(const pintlecup_filter *held, const pintlecup_filter *offered) {
    int32_t distance = 0;
    switch (pintlecup_compare(held, offered, &distance)) {
    case PINTLECUP_FORWARD: printf("forward %d\n", (int)distance); break;
    case PINTLECUP_BACK: printf("back %d\n", (int)distance); break;
    case PINTLECUP_OTHER_MEMBER: printf("other member\n"); break;
    case PINTLECUP_NO_ORDER: printf("no order\n"); break;
    }
}

int main(void) {
    uint8_t key[PINTLECUP_KEY_BYTES]; /* secret: yours comes from a source of randomness */
    for (size_t i = 0; i < sizeof key; i++)
        key[i] = (uint8_t)i;
    pintlecup_state state;
    printf("start %d\n", pintlecup_start(&state, key, sizeof key));

    pintlecup_filter filter = {PINTLECUP_IPV4, PINTLECUP_PERMIT, 24, 24, 64496, 7, {192, 0, 2}};
    uint8_t value[PINTLECUP_VALUE_BYTES];
    printf("pack %d\n", pintlecup_pack(&filter, value, sizeof value));

    size_t address = 0;
    printf("lowest free %d", pintlecup_lowest_free(&state, &address));
    printf(", at %zu\n", address);
    printf("add %d\n", pintlecup_add(&state, mirror, sizeof mirror, address, value, sizeof value));
    printf("look %d\n", memcmp(pintlecup_look_at(mirror, sizeof mirror, address), value, sizeof value));

    uint8_t out[PINTLECUP_VALUE_BYTES];
    printf("load %d\n", pintlecup_load(&state, mirror, sizeof mirror, address, out, sizeof out));
    check(&state);

    pintlecup_filter loaded;
    printf("unpack %d", pintlecup_unpack(out, sizeof out, &loaded));
    printf(", AS %u, serial %u\n", (unsigned)loaded.member, (unsigned)loaded.serial);

    /* a newer filter, and a mirror that hands out the cell that it had before */
    uint8_t older[PINTLECUP_CELL_BYTES];
    memcpy(older, mirror + PINTLECUP_CELL_BYTES * address, sizeof older);
    filter.serial = 8;
    printf("pack %d\n", pintlecup_pack(&filter, value, sizeof value));
    printf("store %d\n", pintlecup_store(&state, mirror, sizeof mirror, address, value, sizeof value));
    memcpy(mirror + PINTLECUP_CELL_BYTES * address, older, sizeof older);
    printf("load %d\n", pintlecup_load(&state, mirror, sizeof mirror, address, out, sizeof out));
    printf("unpack %d, ", pintlecup_unpack(out, sizeof out, &loaded));
    compare(&filter, &loaded);
    check(&state);
    printf("load %d\n", pintlecup_load(&state, mirror, sizeof mirror, address, out, sizeof out));

    /* a new start, and a mirror that hands out a stamp which is yet to come */
    printf("start %d\n", pintlecup_start(&state, key, sizeof key));
    printf("add %d\n", pintlecup_add(&state, mirror, sizeof mirror, 5, value, sizeof value));
    mirror[PINTLECUP_CELL_BYTES * 5 + PINTLECUP_VALUE_BYTES] = 1;
    printf("load %d\n", pintlecup_load(&state, mirror, sizeof mirror, 5, out, sizeof out));
    check(&state);

    /* a member's serials that have gone past the last one, one half way round, and another member */
    pintlecup_filter last = filter, next = filter, half = filter, other = filter;
    last.serial = 4294967295;
    next.serial = 0;
    half.serial = 2147483647;
    other.member = 64497;
    compare(&last, &next);
    compare(&next, &last);
    compare(&last, &half);
    compare(&last, &other);
    return 0;
}
