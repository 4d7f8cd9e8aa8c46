/* Makes the calls of one part, with the key marked as not defined; performance/branches runs it under memcheck. It ends with status 1 where an answer is not
   the one that is expected: then the part does not try what it says. */
#include <stdio.h>
#include <stdlib.h>
#include <string.h>
#include <valgrind/memcheck.h>

#include "pintlecup.h"

static void must(int holds, const char *what)
{
    if (!holds) {
        printf("not as expected: %s\n", what);
        exit(1);
    }
}

/* An answer that must not hang on secret bytes. */
static void gives(uint8_t answer, uint8_t expected, const char *what)
{
    must(VALGRIND_CHECK_MEM_IS_DEFINED(&answer, 1) == 0 && answer == expected, what);
}

static uint8_t *secret(size_t length)
{
    uint8_t *bytes = malloc(length + 1);
    memset(bytes, 0x5a, length + 1);
    (void)VALGRIND_MAKE_MEM_UNDEFINED(bytes, length);
    return bytes;
}

/* ---- a store under a secret key */
static pintlecup_state state;
static uint8_t cells[PINTLECUP_STORE_BYTES], value[PINTLECUP_VALUE_BYTES], out[PINTLECUP_VALUE_BYTES];
static size_t address; /* that a check writes */

static void start(void)
{
    uint8_t *key = secret(PINTLECUP_KEY_BYTES);
    memset(cells, 0, sizeof cells);
    gives(pintlecup_start(&state, key, PINTLECUP_KEY_BYTES), 0, "start");
    free(key);
}

static void add(size_t a, uint8_t answer)
{
    memset(value, (int)a, sizeof value);
    gives(pintlecup_add(&state, cells, sizeof cells, a, value, sizeof value), answer, "add");
}

static void load(size_t a, uint8_t answer)
{
    gives(pintlecup_load(&state, cells, sizeof cells, a, out, sizeof out), answer, "load");
}

static void store(size_t a, uint8_t answer)
{
    memset(value, 0x77, sizeof value);
    gives(pintlecup_store(&state, cells, sizeof cells, a, value, sizeof value), answer, "store");
}

static void removes(size_t a, uint8_t answer)
{
    gives(pintlecup_remove(&state, cells, sizeof cells, a), answer, "remove");
}

static void check(size_t size, uint8_t answer)
{
    gives(pintlecup_check(&state, cells, size, &address), answer, "check");
    must(VALGRIND_CHECK_MEM_IS_DEFINED(&address, sizeof address) == 0, "an address");
}

/* The answer hangs on secret bytes, and with it whether the address is written. Both are public: they are marked as defined where they are read. */
static void verdict(uint8_t expected)
{
    uint8_t answer = pintlecup_check(&state, cells, sizeof cells, &address);
    (void)VALGRIND_MAKE_MEM_DEFINED(&answer, 1);
    (void)VALGRIND_MAKE_MEM_DEFINED(&address, sizeof address);
    must(answer == expected, "verdict");
}

/* Work of every kind, done and refused, at addresses of several words of marks. */
static void work(void)
{
    size_t lowest;
    start();
    for (size_t a = 0; a < PINTLECUP_ADDRESSES; a += 31)
        add(a, 0);
    add(31, PINTLECUP_IN_USE);
    add(1024, PINTLECUP_BAD_ADDRESS);
    load(62, 0);
    load(63, PINTLECUP_NOT_IN_USE);
    store(93, 0);
    store(1, PINTLECUP_NOT_IN_USE);
    removes(124, 0);
    removes(124, PINTLECUP_NOT_IN_USE);
    add(124, 0);
    check(sizeof cells - 1, PINTLECUP_BAD_STORE);
    must(pintlecup_count(&state) == 34, "count");
    gives(pintlecup_lowest_free(&state, &lowest), 0, "lowest free");
    must(lowest == 1, "lowest free");
}

/* ---- the parts */
static void hashes(void)
{
    uint8_t hash[32], *message = secret(8192), *key = secret(1024);
    for (size_t n = 0; n <= 8192; n += n < 200 ? 1 : 799)
        gives(pintlecup_digest(message, n, hash, 32), 0, "digest");
    gives(pintlecup_digest(message, 32, hash, 31), PINTLECUP_BAD_SIZE, "digest into 31");
    for (size_t k = 0; k <= 1024; k += k < 130 ? 1 : 149)
        for (size_t n = 0; n <= 4096; n += 127)
            gives(pintlecup_hmac(key, k, message, n, hash, 32), 0, "HMAC");
    gives(pintlecup_hmac(key, 32, message, 4097, hash, 32), PINTLECUP_BAD_SIZE, "HMAC of 4,097");
}

static void calls(void)
{
    uint8_t *key = secret(PINTLECUP_KEY_BYTES);
    work();
    cells[PINTLECUP_CELL_BYTES * 62 + PINTLECUP_VALUE_BYTES] = 0xff; /* a stamp ahead: the fault is marked, and decides */
    load(62, 0);
    must(state.fault && state.first == 62, "a fault");
    check(sizeof cells, PINTLECUP_REJECTED_STAMP);
    must(address == 62, "the address of the fault");
    check(sizeof cells, PINTLECUP_CLOSED);
    load(62, PINTLECUP_CLOSED);
    work();
    cells[PINTLECUP_CELL_BYTES * 93 + PINTLECUP_VALUE_BYTES] = 0xff; /* and one that the check itself takes */
    check(sizeof cells, PINTLECUP_REJECTED_STAMP);
    must(address == 93, "the address of the check's own fault");
    work();
    state.put.number += 1; /* as if an entry more had been put: the numbers differ, and decide */
    check(sizeof cells, PINTLECUP_REJECTED_TAG);
    gives(pintlecup_start(&state, key, PINTLECUP_KEY_BYTES - 1), PINTLECUP_BAD_KEY, "start");
    add(0, PINTLECUP_CLOSED);
}

static void verdicts(void)
{
    work();
    verdict(PINTLECUP_DONE);
    load(62, 0);
    verdict(PINTLECUP_DONE);
    for (size_t at = PINTLECUP_CELL_BYTES * 62; at < PINTLECUP_CELL_BYTES * 62 + PINTLECUP_VALUE_BYTES; at += 9) {
        work();
        cells[at] ^= 1; /* a lie that only the tags tell */
        load(62, 0);
        verdict(PINTLECUP_REJECTED_TAG);
        check(sizeof cells, PINTLECUP_CLOSED);
    }
}

/* What memcheck must tell of: a comparison of two tags that stops at the first difference. An add makes an entry's tag, and the first one of a period is the
   tag of what was put; nothing was taken, and that tag is zero. */
static void control(void)
{
    int i = 0;
    start();
    add(0, 0);
    while (i < PINTLECUP_TAG_BYTES && state.put.tag[i] == state.take.tag[i])
        i++;
    must(i < PINTLECUP_TAG_BYTES, "tags that differ");
}

int main(int count, char **words)
{
    const char *part = count == 2 ? words[1] : "";
    if (!strcmp(part, "hashes")) hashes();
    else if (!strcmp(part, "calls")) calls();
    else if (!strcmp(part, "verdict")) verdicts();
    else if (!strcmp(part, "control")) control();
    else return 2;
    return 0;
}
