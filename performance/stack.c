/* Makes each call on a painted stack, and prints how many bytes below the caller's it took, return address and all; performance/stack builds and runs it.
   It ends with status 1 where an answer is not the one that is expected. */
#include <stdio.h>
#include <stdlib.h>
#include <string.h>

#include "pintlecup.h"

/* ---- the calls: each at sizes that take it through all of its work */
static pintlecup_state state;
static pintlecup_filter filter = {PINTLECUP_IPV6, PINTLECUP_PERMIT, 128, 128, 64496, 7, {0x20, 0x01}};
static uint8_t cells[PINTLECUP_STORE_BYTES], value[PINTLECUP_VALUE_BYTES], bytes[8192], hash[32];
static size_t address, answer; /* the next address, or the one that a call writes; and what the call gave */
static int32_t distance;

static uint8_t __attribute__((noipa)) none(void) { return 0; }

static void nothing(void) { answer = none(); }
static void start(void) { answer = pintlecup_start(&state, bytes, PINTLECUP_KEY_BYTES); }
static void add(void) { answer = pintlecup_add(&state, cells, sizeof cells, address, value, sizeof value); }
static void load(void) { answer = pintlecup_load(&state, cells, sizeof cells, 5, value, sizeof value); }
static void store(void) { answer = pintlecup_store(&state, cells, sizeof cells, 5, value, sizeof value); }
static void removes(void) { answer = pintlecup_remove(&state, cells, sizeof cells, 5); }
static void check(void) { answer = pintlecup_check(&state, cells, sizeof cells, &address); }
static void look(void) { answer = pintlecup_look(cells, sizeof cells, 5) - 150; }
static void count(void) { answer = pintlecup_count(&state) - PINTLECUP_ADDRESSES; }
static void lowest_free(void) { answer = pintlecup_lowest_free(&state, &address); }
static void digest(void) { answer = pintlecup_digest(bytes, PINTLECUP_DIGEST_MESSAGE_MAX, hash, sizeof hash); }
static void hmac(void) { answer = pintlecup_hmac(bytes, PINTLECUP_HMAC_KEY_MAX, bytes, PINTLECUP_HMAC_MESSAGE_MAX, hash, sizeof hash); }
static void pack(void) { answer = pintlecup_pack(&filter, value, sizeof value); }
static void unpack(void) { answer = pintlecup_unpack(value, sizeof value, &filter); }
static void compare(void) { answer = pintlecup_compare(&filter, &filter, &distance); }

/* ---- the painted stack */
static uint8_t stack[1 << 20] __attribute__((aligned(16)));

static size_t taken(void (*call)(void), size_t expected)
{
    size_t at = 0;
    memset(stack, 0xa5, sizeof stack);
    __asm__ volatile("movq %%rsp, %%rbx\n\tmovq %0, %%rsp\n\tcall *%1\n\tmovq %%rbx, %%rsp"
                     : : "r"(stack + sizeof stack), "r"(call)
                     : "rax", "rbx", "rcx", "rdx", "rsi", "rdi", "r8", "r9", "r10", "r11", "xmm0", "xmm1", "xmm2", "xmm3", "xmm4", "xmm5", "xmm6", "xmm7",
                       "xmm8", "xmm9", "xmm10", "xmm11", "xmm12", "xmm13", "xmm14", "xmm15", "cc", "memory");
    if (answer != expected) {
        printf("not as expected: %zu, not %zu\n", answer, expected);
        exit(1);
    }
    while (stack[at] == 0xa5)
        at++;
    return sizeof stack - at;
}

/* Less what `nothing` takes, but for the return address of its own call. */
static void row(const char *name, void (*call)(void), size_t expected)
{
    printf("| %s | %zu |\n", name, taken(call, expected) - taken(nothing, 0) + sizeof(void *));
}

int main(void)
{
    puts("| call | bytes |\n|---|---:|");
    row("start", start, 0);
    row("add", add, 0);
    for (address = 1; address < PINTLECUP_ADDRESSES; address++)
        add();
    row("load", load, 0);
    row("store", store, 0);
    row("check that accepts, 1,024 addresses in use", check, 0);
    row("count", count, 0);
    row("lowest free", lowest_free, PINTLECUP_FULL);
    row("look", look, 0);
    row("remove", removes, 0);
    cells[0] ^= 1;
    row("check that rejects, 1,023 addresses in use", check, PINTLECUP_REJECTED_TAG);
    row("digest of 8,192 bytes", digest, 0);
    row("HMAC of 4,096 bytes under a key of 1,024", hmac, 0);
    row("pack", pack, 0);
    row("unpack", unpack, 0);
    row("compare", compare, 0);
    return 0;
}
