/* Tables and bodies, built field by field, for the tests. */
#ifndef VALUES_H
#define VALUES_H

#include "voter_slots.h"

#include <stdbool.h>
#include <string.h>

/* Bytes so far. */
typedef struct {
    uint8_t bytes[70000];
    size_t len;
} buffer;

static inline void put(buffer *b, const void *bytes, size_t len) {
    memcpy(b->bytes + b->len, bytes, len);
    b->len += len;
}

static inline void put_number(buffer *b, uint64_t number, size_t width) {
    for (size_t i = 0; i < width; i++) {
        b->bytes[b->len++] = (uint8_t)(number >> (8 * (width - 1 - i)));
    }
}

static inline void put_filled(buffer *b, uint8_t byte, size_t len) {
    memset(b->bytes + b->len, byte, len);
    b->len += len;
}

static inline void put_text(buffer *b, const char *text) {
    put_number(b, strlen(text), 2);
    put(b, text, strlen(text));
}

static inline void put_cut(buffer *b, uint64_t term, uint64_t index) {
    put_number(b, term, 8);
    put_number(b, index, 8);
}

/* ---- values: request 1 has the id and the digest of ones */

enum { REVISION = 70, EPOCH = 78, SLOTS = 87, SLOT_BYTES = 92 };

/* No request open, every slot in its first incarnation. */
static inline buffer idle_table(unsigned slots) {
    buffer b = {.len = 0};
    put(&b, "OPVI", 4);
    put_number(&b, 1, 2);
    put_filled(&b, 3, 32);
    put_filled(&b, 9, 32);
    put_number(&b, 1, 8);
    put_number(&b, 1, 8);
    put_number(&b, slots, 1);
    for (unsigned slot = 1; slot <= slots; slot++) {
        put_number(&b, slot, 2);
        put_number(&b, 1, 8);
        put_number(&b, 0, 8);
        put_filled(&b, (uint8_t)slot, 32);
        put_filled(&b, (uint8_t)(100 + slot), 32);
        put_number(&b, 1, 8);
        put_number(&b, 2, 1);
        put_number(&b, 0, 1);
    }
    put_number(&b, 0, 1);
    return b;
}

static inline void put_attestation(buffer *b, unsigned slot, uint8_t request, uint8_t digest) {
    put_number(b, 1, 2);
    put_filled(b, request, 16);
    put_filled(b, digest, 32);
    put_filled(b, 3, 32);
    put_number(b, slot, 2);
    put_number(b, 1, 8);
    put_filled(b, (uint8_t)(100 + slot), 32);
    put_filled(b, (uint8_t)(50 + request), 32);
    put_number(b, 2, 8);
    put_text(b, "spiffe://example/voter");
    put_text(b, "spiffe://example/controller");
    put_filled(b, 6, 32);
    put_number(b, 1, 1);
    put_filled(b, 7, 32);
    put_number(b, 1, 8);
    put_number(b, 2, 8);
    put_number(b, 3, 8);
    put_number(b, 4, 8);
    put_filled(b, 8, 64);
}

/* A Begin that fits a table of this revision and epoch. */
typedef struct {
    uint64_t index, revision, epoch;
    unsigned slot, candidate_slot;
    uint8_t request, digest, supplied;
    bool signed_well;
} begin;

static inline begin fitting(void) {
    begin b = {10, 1, 1, 2, 2, 1, 1, 1, true};
    return b;
}

static inline buffer begin_body(begin v) {
    buffer b = {.len = 0};
    buffer claims = {.len = 0};
    put_attestation(&claims, v.slot, v.request, v.digest);
    if (!v.signed_well) {
        claims.len--;
    }
    put_cut(&b, 2, v.index);
    put_number(&b, v.revision, 8);
    put_filled(&b, 3, 32);
    put_filled(&b, 0x55, 32);
    put_number(&b, v.epoch, 8);
    put_number(&b, v.candidate_slot, 2);
    put_number(&b, 2, 8);
    put_filled(&b, (uint8_t)(50 + v.request), 32);
    put_filled(&b, (uint8_t)(200 + v.request), 32);
    put_number(&b, 2, 8);
    put_number(&b, claims.len, 2);
    put(&b, claims.bytes, claims.len);
    put_filled(&b, v.supplied, 32);
    put_filled(&b, 0x55, 32);
    return b;
}

static inline buffer marker_body(uint64_t term, uint64_t index, uint8_t request) {
    buffer b = {.len = 0};
    put_cut(&b, term, index);
    put_filled(&b, request, 16);
    put_filled(&b, request, 32);
    return b;
}

/* Steps: 0 snapshot, 1 caught up, 2 continuation, 3 fence, 4 finalize. */
static inline buffer advance_body(uint64_t index, unsigned step, size_t id_len) {
    buffer b = marker_body(2, index, 1);
    put_number(&b, step, 1);
    if (step == 0) {
        put_cut(&b, 2, 10);
        put_number(&b, id_len, 2);
        put_filled(&b, 's', id_len);
        put_filled(&b, 0x5A, 32);
    }
    if (step == 1) {
        put_cut(&b, 2, 16);
    }
    return b;
}

static inline void put_ids(buffer *b, const uint64_t *ids, size_t count) {
    put_number(b, count, 2);
    for (size_t i = 0; i < count; i++) {
        put_number(b, ids[i], 8);
    }
}

static const uint64_t OLD[] = {1, 2, 3};
static const uint64_t NEW[] = {1, 3, 65538};
static const uint64_t BOTH[] = {1, 2, 3, 65538};

/* One set, or both, and the nodes. */
static inline buffer observation_body(uint64_t index, bool old, bool new, const uint64_t *nodes,
                               size_t count) {
    buffer b = {.len = 0};
    put_cut(&b, 2, index);
    put_number(&b, (uint64_t)old + (uint64_t)new, 1);
    if (old) {
        put_ids(&b, OLD, 3);
    }
    if (new) {
        put_ids(&b, NEW, 3);
    }
    put_ids(&b, nodes, count);
    return b;
}

#endif
