/*
 * Makes the calls that it is asked for on standard input, and answers on standard output what each gave and left; second/compare.py asks.
 *
 * A request is a call's number, how its buffers lie, how many there are, the address (8 bytes), each buffer's size (4 bytes), and their bytes. An
 * answer is the result (8 bytes), a byte that is 0 where nothing around a buffer was written, and the buffers' bytes. Numbers go low byte first.
 *
 * A buffer lies between bytes that are known, and at the other end of those is memory that cannot be touched: in the middle (0), or right against that
 * memory with its end (1) or with its beginning (2), so that a byte read past it ends the program. Where it is a struct or a number its size is a
 * multiple of its alignment, so that it is aligned each way.
 */
#define _DEFAULT_SOURCE
#include <stdio.h>
#include <stdlib.h>
#include <string.h>
#include <sys/mman.h>

#include "pintlecup.h"

enum { BUFFERS = 3, PAGE = 4096, ROOM = 16 * PAGE, AROUND = 64, KNOWN = 0xC5 };

static uint8_t *room[BUFFERS]; /* the memory of each buffer, between pages that cannot be touched */
static uint8_t *at[BUFFERS];
static size_t size[BUFFERS];

static int get(void *to, size_t n) { return fread(to, 1, n, stdin) == n; }

static void put(const void *from, size_t n) {
    if (fwrite(from, 1, n, stdout) != n)
        exit(3);
}

static uint64_t number(const uint8_t *bytes, size_t n) {
    uint64_t all = 0;
    while (n-- > 0)
        all = all << 8 | bytes[n];
    return all;
}

static size_t before(int i) { return (size_t)(at[i] - room[i]) < AROUND ? (size_t)(at[i] - room[i]) : AROUND; }

static size_t after(int i) {
    size_t left = (size_t)(room[i] + ROOM - at[i]) - size[i];
    return left < AROUND ? left : AROUND;
}

static void lay(int i, int how) {
    size_t from = how == 0 ? PAGE : how == 1 ? ROOM - size[i] : 0;
    at[i] = room[i] + from;
    memset(at[i] - before(i), KNOWN, before(i) + size[i] + after(i));
}

static int harmed(int i) {
    for (size_t k = 1; k <= before(i); k++)
        if (at[i][-(ptrdiff_t)k] != KNOWN)
            return 1;
    for (size_t k = 0; k < after(i); k++)
        if (at[i][size[i] + k] != KNOWN)
            return 1;
    return 0;
}

static uint64_t called(int call, size_t address) {
    void *a = at[0], *b = at[1], *c = at[2];
    switch (call) {
    case 1: return pintlecup_start((pintlecup_state *)a, (uint8_t *)b, size[1]);
    case 2: return pintlecup_add((pintlecup_state *)a, (uint8_t *)b, size[1], address, (uint8_t *)c, size[2]);
    case 3: return pintlecup_load((pintlecup_state *)a, (uint8_t *)b, size[1], address, (uint8_t *)c, size[2]);
    case 4: return pintlecup_store((pintlecup_state *)a, (uint8_t *)b, size[1], address, (uint8_t *)c, size[2]);
    case 5: return pintlecup_remove((pintlecup_state *)a, (uint8_t *)b, size[1], address);
    case 6: return pintlecup_check((pintlecup_state *)a, (uint8_t *)b, size[1], (size_t *)c);
    case 7: return pintlecup_look((uint8_t *)a, size[0], address);
    case 8: return pintlecup_count((pintlecup_state *)a);
    case 9: return pintlecup_lowest_free((pintlecup_state *)a, (size_t *)b);
    case 10: return pintlecup_digest((uint8_t *)a, size[0], (uint8_t *)b, size[1]);
    case 11: return pintlecup_hmac((uint8_t *)a, size[0], (uint8_t *)b, size[1], (uint8_t *)c, size[2]);
    case 12: return pintlecup_pack((pintlecup_filter *)a, (uint8_t *)b, size[1]);
    case 13: return pintlecup_unpack((uint8_t *)a, size[0], (pintlecup_filter *)b);
    case 14: return pintlecup_compare((pintlecup_filter *)a, (pintlecup_filter *)b, (int32_t *)c);
    }
    exit(4);
}

int main(void) {
    for (int i = 0; i < BUFFERS; i++) {
        uint8_t *whole = (uint8_t *)mmap(NULL, ROOM + 2 * PAGE, PROT_NONE, MAP_PRIVATE | MAP_ANONYMOUS, -1, 0);
        if (whole == MAP_FAILED || mprotect(whole + PAGE, ROOM, PROT_READ | PROT_WRITE) != 0)
            return 5;
        room[i] = whole + PAGE;
    }
    uint8_t head[11], bytes[4];
    while (get(head, sizeof head)) {
        int buffers = head[2];
        if (buffers > BUFFERS)
            return 6;
        for (int i = 0; i < buffers; i++) {
            if (!get(bytes, sizeof bytes) || (size[i] = (size_t)number(bytes, 4)) > ROOM - 2 * PAGE)
                return 6;
            lay(i, head[1]);
        }
        for (int i = 0; i < buffers; i++)
            if (!get(at[i], size[i]))
                return 6;
        uint64_t result = called(head[0], (size_t)number(head + 3, 8));
        uint8_t harm = 0;
        for (int i = 0; i < buffers; i++)
            harm = (uint8_t)(harm | harmed(i));
        for (int k = 0; k < 8; k++) {
            uint8_t byte = (uint8_t)(result >> 8 * k);
            put(&byte, 1);
        }
        put(&harm, 1);
        for (int i = 0; i < buffers; i++)
            put(at[i], size[i]);
        fflush(stdout);
    }
    return 0;
}
