/* A Begin on a new installation of three voters, to start from:
 *     cc -I bindings/c bindings/c/begin.c target/staticlib/libvoter_slots.a -o begin && ./begin */
#include "voter_slots.h"

#include <stdio.h>
#include <string.h>

static uint8_t table[VOTER_SLOTS_TABLE_BYTES], next[VOTER_SLOTS_TABLE_BYTES], body[2048], claims[1024];

/* Each writes at a place and gives the place after it. Numbers are big-endian. */
static uint8_t *number(uint8_t *at, uint64_t value, int width) {
    for (int i = width - 1; i >= 0; i--) {
        *at++ = (uint8_t)(value >> (8 * i));
    }
    return at;
}

static uint8_t *bytes(uint8_t *at, const void *from, size_t len) {
    memcpy(at, from, len);
    return at + len;
}

static uint8_t *digest(uint8_t *at, uint8_t filled_with, size_t len) {
    memset(at, filled_with, len);
    return at + len;
}

static uint8_t *text(uint8_t *at, const char *from) {
    return bytes(number(at, strlen(from), 2), from, strlen(from));
}

/* Revision 1, epoch 1, slots 1 to 3 in their first incarnation, no request open. */
static size_t first_table(void) {
    uint8_t *at = number(bytes(table, "OPVI", 4), 1, 2);
    at = digest(digest(at, 3, 32), 9, 32); /* cluster, manifest */
    at = number(number(at, 1, 8), 1, 8);   /* revision, epoch */
    at = number(at, 3, 1);
    for (uint8_t slot = 1; slot <= 3; slot++) {
        at = number(number(number(at, slot, 2), 1, 8), 0, 8); /* slot, incarnation, retired through */
        at = digest(digest(at, slot, 32), slot, 32);          /* key, descriptor */
        at = number(number(number(at, 1, 8), 2, 1), 0, 1);    /* generation, voting, no receipt */
    }
    return (size_t)(number(at, 0, 1) - table);
}

/* The controller's statement that slot 2 is lost. */
static size_t attestation(void) {
    uint8_t *at = number(claims, 1, 2);
    at = digest(digest(digest(at, 1, 16), 7, 32), 3, 32); /* request id, request digest, cluster */
    at = number(number(at, 2, 2), 1, 8);                  /* slot, expected incarnation */
    at = digest(digest(at, 2, 32), 5, 32);                /* old descriptor, candidate's key */
    at = text(text(number(at, 2, 8), "spiffe://example/voter"), "spiffe://example/controller");
    at = number(digest(at, 6, 32), 1, 1);                 /* signing key, storage lost */
    at = digest(at, 8, 32);                               /* policy */
    at = number(number(number(number(at, 1, 8), 2, 8), 3, 8), 4, 8);
    return (size_t)(digest(at, 0xAB, 64) - claims);       /* signature, which the service has checked */
}

static size_t begin(void) {
    size_t claims_len = attestation();
    uint8_t *at = number(number(body, 2, 8), 10, 8);       /* cut */
    at = digest(digest(number(at, 1, 8), 3, 32), 0x55, 32); /* revision, cluster, configuration id */
    at = number(at, 1, 8);                                 /* epoch */
    at = number(number(at, 2, 2), 2, 8);                   /* candidate: slot, incarnation */
    at = number(digest(digest(at, 5, 32), 12, 32), 2, 8);  /* key, descriptor, generation */
    at = bytes(number(at, claims_len, 2), claims, claims_len);
    return (size_t)(digest(digest(at, 7, 32), 0x55, 32) - body); /* supplied digest, configuration id */
}

int main(void) {
    size_t table_len = first_table();
    size_t body_len = begin();
    voter_slots_result r =
        voter_slots_apply(table, table_len, VOTER_SLOTS_BEGIN, body, body_len, next, sizeof next);
    if (r.answer != VOTER_SLOTS_ACCEPTED) {
        printf("refused: %u\n", (unsigned)r.answer);
        return 1;
    }
    printf("revision %u, slot %u is being replaced\n", (unsigned)r.revision, (unsigned)r.open_slot);
    printf("node 2 is %s\n",
           voter_slots_retired(next, (size_t)r.count, 2) == VOTER_SLOTS_RETIRED ? "retired" : "not retired");
    return 0;
}
