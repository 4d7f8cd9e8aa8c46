/*
 * Pintlecup from C11 and C++11.
 *
 * Up to 1,024 values of 28 bytes in a store that nobody trusts, beside a small trusted state that you hold; a check that accepts only if no load
 * since the start was lied to, or if hashes have collided; SHA-256, HMAC, and the filter record. The rules are in docs/RULES.md of the repository,
 * and what is promised in docs/PROMISES.md. Each call meets a proved contract, which is the definition of that call in the rules; nothing is
 * allocated, and nothing is global.
 *
 * From top to bottom: your duties, sizes, numbers, types, calls.
 *
 *
 * Duties
 *
 * The proofs take for granted what C does not check. It is yours:
 *
 * - A pointer is to as many bytes as the size beside it says, or to a struct of its type, and is not NULL, also where the size is 0. There is no
 *   number for this: a wrong pointer is read and written.
 * - Two things that are lent to one call do not overlap, unless both are const there. Nothing else writes to them while the call runs: no thread, no
 *   signal handler, no other process that has the store mapped. Between two calls anything may happen to the store, and nothing to the state.
 * - The state is one struct, from its start on. A copy of it that is put back is an older state, and the next check then accepts older values.
 * - The state and the key are secret, and nobody else can write to them. How long a call takes is not promised to tell nothing of them, and what a
 *   call leaves below the stack is not wiped.
 *
 * All else is answered. Any size and any address will do, and what is wrong is refused by a number; any bytes in the store and in the structs are legal.
 */
#ifndef PINTLECUP_H
#define PINTLECUP_H

#include <stddef.h>
#include <stdint.h>

#ifdef __cplusplus
#define PINTLECUP_HOLDS(what) static_assert(what, #what)
extern "C" {
#else
#define PINTLECUP_HOLDS(what) _Static_assert(what, #what)
#endif

/* ---- Sizes */

#define PINTLECUP_KEY_BYTES 32
#define PINTLECUP_TAG_BYTES 32
#define PINTLECUP_VALUE_BYTES 28
#define PINTLECUP_CELL_BYTES 30             /* a value and its stamp; the cell of address a begins at byte 30 a of the store */
#define PINTLECUP_ADDRESSES 1024            /* 0 to 1,023 */
#define PINTLECUP_STORE_BYTES 30720
#define PINTLECUP_LAST_CLOCK 65535
#define PINTLECUP_DIGEST_BYTES 32           /* of a digest and of an HMAC */
#define PINTLECUP_DIGEST_MESSAGE_MAX 8192
#define PINTLECUP_HMAC_KEY_MAX 1024
#define PINTLECUP_HMAC_MESSAGE_MAX 4096
#define PINTLECUP_FILTER_BYTES 28

/* ---- Numbers
 *
 * 0 is done. Any other is a refusal, but for 254 and 255, which only a check gives; compare has answers of its own, and 16. A refused call leaves the
 * state and every lent byte as they were (start and unpack, which write a struct anew, say below what they leave). Where several hold, it is 7 first,
 * then the smallest.
 */

#define PINTLECUP_DONE 0
#define PINTLECUP_BAD_STORE 1               /* the store is not 30,720 bytes */
#define PINTLECUP_BAD_ADDRESS 2             /* the address is above 1,023 */
#define PINTLECUP_BAD_VALUE 3               /* the value or the out buffer is not 28 bytes */
#define PINTLECUP_IN_USE 4                  /* add: the address is in use */
#define PINTLECUP_NOT_IN_USE 5              /* load, store, remove: the address is not in use */
#define PINTLECUP_CLOCK_USED_UP 6           /* add, load, store: a check that accepts sets the clock back to 1 */
#define PINTLECUP_CLOSED 7                  /* a check has rejected, or start was refused: start again, and add every value anew */
#define PINTLECUP_BAD_KEY 8                 /* start: the key is not 32 bytes */
#define PINTLECUP_FULL 9                    /* lowest free: every address is in use */
#define PINTLECUP_BAD_SIZE 10               /* digest, HMAC: an input above its bound, or an output that is not 32 bytes */
#define PINTLECUP_BAD_FILTER 11             /* pack, unpack: the buffer is not 28 bytes */
#define PINTLECUP_SPARE_BIT 12              /* unpack: a spare bit is set */
#define PINTLECUP_BAD_LENGTHS 13            /* pack, unpack: the lengths are not lawful */
#define PINTLECUP_PAST_PREFIX 14            /* pack, unpack: a bit past the prefix length is set */
#define PINTLECUP_NO_MEMBER 15              /* pack, unpack: the member number is 0 */
#define PINTLECUP_NO_ORDER 16               /* compare: the serials are exactly 2^31 apart */
#define PINTLECUP_REJECTED_STAMP 254        /* check: the store lied, and a stamp was ahead of the clock */
#define PINTLECUP_REJECTED_TAG 255          /* check: the store lied, and no stamp was ahead of the clock */

/* ---- Types */

typedef struct pintlecup_hash {
    uint8_t tag[PINTLECUP_TAG_BYTES];
    uint32_t number;
} pintlecup_hash;

/* The trusted state. Every value of it is legal; only start and the calls write it. A mark is clear where its byte is 0, and else set. */
typedef struct pintlecup_state {
    uint8_t key[PINTLECUP_KEY_BYTES];
    uint64_t marks[PINTLECUP_ADDRESSES / 64]; /* address a is in use: bit a % 64 of word a / 64, the lowest bit first */
    pintlecup_hash put;
    pintlecup_hash take;
    uint16_t clock;
    uint8_t fault;
    uint8_t closed;
    uint16_t first;  /* where fault is set: the address of the first take since the start, or since the last accept, whose stamp was ahead of the clock */
    uint16_t unused; /* no meaning; written as 0 */
} pintlecup_state;

#define PINTLECUP_IPV4 0
#define PINTLECUP_IPV6 1 /* or any other number; unpack writes 1 */
#define PINTLECUP_DENY 0
#define PINTLECUP_PERMIT 1 /* or any other number; unpack writes 1 */

/* A filter record. */
typedef struct pintlecup_filter {
    uint8_t family;
    uint8_t action;
    uint8_t length;  /* of the prefix, in bits */
    uint8_t longest; /* the longest length that it takes in */
    uint32_t member; /* an AS number */
    uint32_t serial; /* of a key */
    uint8_t prefix[16]; /* IPv4 has its own in the first 4 */
} pintlecup_filter;

PINTLECUP_HOLDS(sizeof(pintlecup_state) == 240);
PINTLECUP_HOLDS(sizeof(pintlecup_filter) == 28);
PINTLECUP_HOLDS(sizeof(size_t) == 8);
#undef PINTLECUP_HOLDS

/* ---- The store's calls
 *
 * Each is lent the store, which it trusts in nothing, and changes the state in place. A value that is loaded is not to be used before a check accepts.
 */

/* Writes a new state under a key of 32 secret bytes, whatever the struct held: 0, no address in use, the store's bytes of no account. With 8 it
 * writes a closed state, zero otherwise. */
uint8_t pintlecup_start(pintlecup_state *state, const uint8_t *key, size_t key_size);

/* Puts a value at an address that is not in use, and marks it in use: 0, or 7, 1, 2, 3, 4, 6. */
uint8_t pintlecup_add(pintlecup_state *state, uint8_t *store, size_t store_size, size_t address, const uint8_t *value, size_t value_size);

/* Copies the value at an address in use to out: 0, or 7, 1, 2, 3, 5, 6. The store and the state change too. */
uint8_t pintlecup_load(pintlecup_state *state, uint8_t *store, size_t store_size, size_t address, uint8_t *out, size_t out_size);

/* Puts another value at an address in use: 0, or 7, 1, 2, 3, 5, 6. */
uint8_t pintlecup_store(pintlecup_state *state, uint8_t *store, size_t store_size, size_t address, const uint8_t *value, size_t value_size);

/* Takes the value at an address in use, fills its cell with zeros, and clears its mark: 0, or 7, 1, 2, 5. */
uint8_t pintlecup_remove(pintlecup_state *state, uint8_t *store, size_t store_size, size_t address);

/* 0: it accepts. Every load so far gave what was last added or stored at its address, or hashes have collided; the clock is 1, and every cell in
 *    use has that stamp.
 * 254, 255: it rejects. The store lied, at some load, store or remove, or now: use nothing loaded since the last accept. The state is closed for good.
 *    254 is for a stamp that was ahead of the clock: when it was taken, nothing put since the last accept had reached it. *address is where: of several
 *    since then, the one that was taken first, and this check's own takes come last; of a state from a start it is below 1,024. 255 is for the tags: no stamp was ahead, and what was taken is not what was put.
 * 7, 1: refused, and nothing is said.
 * *address is written with 254 alone. */
uint8_t pintlecup_check(pintlecup_state *state, uint8_t *store, size_t store_size, size_t *address);

/* Where in the store the 28 bytes of an address's value begin; 30,720 where the store's size or the address is refused. It says nothing of truth. */
size_t pintlecup_look(const uint8_t *store, size_t store_size, size_t address);

/* The same as a pointer into the store; NULL where it is refused. */
static inline const uint8_t *pintlecup_look_at(const uint8_t *store, size_t store_size, size_t address) {
    size_t at = pintlecup_look(store, store_size, address);
    return at == PINTLECUP_STORE_BYTES ? NULL : store + at;
}

/* How many addresses are in use, of a closed state too. */
uint32_t pintlecup_count(const pintlecup_state *state);

/* The smallest address that is not in use, of a closed state too: 0; or 9, and *address is left. */
uint8_t pintlecup_lowest_free(const pintlecup_state *state, size_t *address);

/* ---- The hashes */

/* SHA-256 of a message of up to 8,192 bytes, into 32: 0, or 10. */
uint8_t pintlecup_digest(const uint8_t *message, size_t message_size, uint8_t *out, size_t out_size);

/* HMAC-SHA-256 of a message of up to 4,096 bytes under a key of up to 1,024, into 32: 0, or 10. */
uint8_t pintlecup_hmac(const uint8_t *key, size_t key_size, const uint8_t *message, size_t message_size, uint8_t *out, size_t out_size);

/* ---- The filter record */

/* The 28 bytes of a filter record: 0, or 11, 13, 14, 15. */
uint8_t pintlecup_pack(const pintlecup_filter *filter, uint8_t *out, size_t out_size);

/* The filter record of 28 bytes, whatever the struct held: 0; or 11 to 15, and the filter record is zero in every field. */
uint8_t pintlecup_unpack(const uint8_t *bytes, size_t bytes_size, pintlecup_filter *filter);

#define PINTLECUP_FORWARD 0
#define PINTLECUP_BACK 1
#define PINTLECUP_OTHER_MEMBER 2

/* Whether a filter record that is offered goes back behind the one held, by their key serials. These go round: after 4,294,967,295 comes 0
 * (RFC 1982 with 32 bits).
 * 2: other member. The AS numbers differ; the serials are not looked at.
 * 16: no order. The serials are exactly 2^31 apart, and neither is ahead.
 * 0: forward. *distance is how far ahead of the held serial the offered one is: 0, where they are equal, to 2,147,483,647.
 * 1: back. *distance is negative, -1 to -2,147,483,647: the offered serial is so far behind.
 * With 2 and 16 *distance stays as it was. */
uint8_t pintlecup_compare(const pintlecup_filter *held, const pintlecup_filter *offered, int32_t *distance);

#ifdef __cplusplus
}
#endif

#endif
