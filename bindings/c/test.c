/* Every function of voter_slots.h: answers, numbers and lent bytes. Ends with 0 where all holds. */
#include "values.h"
#include "voter_slots.h"

#include <stdbool.h>
#include <stdio.h>
#include <stdlib.h>
#include <string.h>

static int failures = 0;
static int checks = 0;

#define CHECK(holds)                                                      \
    do {                                                                  \
        checks++;                                                         \
        if (!(holds)) {                                                   \
            failures++;                                                   \
            printf("%s:%d: %s does not hold\n", __FILE__, __LINE__, #holds); \
        }                                                                 \
    } while (0)

/* ---- calls with lent memory of exact length, so that a sanitizer sees a byte too far */

static uint8_t *exact(const uint8_t *bytes, size_t len) {
    uint8_t *copy = malloc(len == 0 ? 1 : len);
    if (copy == NULL) {
        exit(2);
    }
    if (len > 0) {
        memcpy(copy, bytes, len);
    }
    return copy;
}

static bool all_are(const uint8_t *bytes, size_t len, uint8_t byte) {
    for (size_t i = 0; i < len; i++) {
        if (bytes[i] != byte) {
            return false;
        }
    }
    return true;
}

static bool is_refused(voter_slots_result r, uint32_t answer) {
    return r.answer == answer && r.slots == 0 && r.count == 0 && r.revision == 0 && r.epoch == 0 &&
           r.open_slot == 0 && r.open_phase == VOTER_SLOTS_NO_PHASE;
}

/* The same call on a table that is kept in memory: it answers what the call over bytes does
 * (`told`), and the table afterwards has the bytes that were written (`out`). There is no buffer
 * that could be too short. */
static void check_kept(const buffer *table, uint32_t mark, const buffer *body,
                       voter_slots_result told, const uint8_t *out) {
    uint8_t *t = exact(table->bytes, table->len);
    uint8_t *b = exact(body->bytes, body->len);
    voter_slots_table *kept = calloc(1, sizeof *kept);
    uint8_t before[VOTER_SLOTS_TABLE_BYTES], after[VOTER_SLOTS_TABLE_BYTES];
    if (kept == NULL) {
        exit(2);
    }
    voter_slots_result read = voter_slots_table_read(kept, t, table->len);
    voter_slots_result by_bytes = voter_slots_read(table->bytes, table->len);
    CHECK(memcmp(&read, &by_bytes, sizeof read) == 0);
    voter_slots_result first = voter_slots_table_write(kept, before, sizeof before);
    CHECK(read.answer == 0 ? memcmp(&first, &read, sizeof read) == 0
                           : is_refused(first, VOTER_SLOTS_UNREPRESENTABLE));
    voter_slots_result r = first;
    if (mark == 0) {
        r = voter_slots_table_observe(kept, b, body->len);
    } else if (mark != 1) {
        r = voter_slots_table_apply(kept, mark, b, body->len);
    }
    if (read.answer != 0) {
        /* refused: the blank table, as it was; 33 first here too */
        CHECK(r.answer != 0 && is_refused(r, r.answer));
        CHECK(mark == 1 || (r.answer == VOTER_SLOTS_BAD_RECORD) ==
                               (told.answer == VOTER_SLOTS_BAD_RECORD));
        CHECK(is_refused(voter_slots_table_write(kept, after, sizeof after),
                         VOTER_SLOTS_UNREPRESENTABLE));
        CHECK(voter_slots_table_retired(kept, 2) == VOTER_SLOTS_UNREPRESENTABLE);
        free(t);
        free(b);
        free(kept);
        return;
    }
    CHECK(first.count == table->len && memcmp(before, table->bytes, table->len) == 0);
    voter_slots_result last = voter_slots_table_write(kept, after, sizeof after);
    CHECK(last.answer == 0);
    if (r.answer != 0) {
        CHECK(is_refused(r, told.answer));
        CHECK(last.count == first.count && memcmp(after, before, (size_t)first.count) == 0);
    } else if (told.answer != VOTER_SLOTS_BUFFER_TOO_SHORT) {
        CHECK(r.count == (mark == 1 ? last.count : 0));
        CHECK(memcmp(&last, &told, sizeof told) == 0);
        CHECK(memcmp(after, out, (size_t)told.count) == 0);
        CHECK(r.revision == last.revision && r.epoch == last.epoch && r.slots == last.slots);
        CHECK(r.open_slot == last.open_slot && r.open_phase == last.open_phase);
    }
    static const uint64_t nodes[] = {0, 1, 2, 3, 65537, 65538, UINT64_MAX};
    for (size_t i = 0; i < sizeof nodes / sizeof nodes[0]; i++) {
        CHECK(voter_slots_table_retired(kept, nodes[i]) ==
              voter_slots_retired(after, (size_t)last.count, nodes[i]));
    }
    /* a buffer of the exact length, one short, none */
    memset(before, 0xA5, sizeof before);
    CHECK(voter_slots_table_write(kept, before, (size_t)last.count).answer == 0);
    CHECK(memcmp(before, after, (size_t)last.count) == 0);
    CHECK(all_are(before + last.count, sizeof before - (size_t)last.count, 0xA5));
    memset(before, 0xA5, sizeof before);
    CHECK(is_refused(voter_slots_table_write(kept, before, (size_t)last.count - 1),
                     VOTER_SLOTS_BUFFER_TOO_SHORT));
    CHECK(is_refused(voter_slots_table_write(kept, NULL, 0), VOTER_SLOTS_BUFFER_TOO_SHORT));
    CHECK(all_are(before, sizeof before, 0xA5));
    free(t);
    free(b);
    free(kept);
}

/* Mark 0 is an observation, mark 1 the writer. A refusal must leave `out` alone, and what is
 * written must be read again as the result says; bytes after it stay. */
static voter_slots_result call(const buffer *table, uint32_t mark, const buffer *body, size_t room,
                               buffer *next) {
    uint8_t *t = exact(table->bytes, table->len);
    uint8_t *b = exact(body->bytes, body->len);
    uint8_t *out = malloc(room == 0 ? 1 : room);
    voter_slots_result r;
    if (out == NULL) {
        exit(2);
    }
    memset(out, 0xA5, room);
    if (mark == 0) {
        r = voter_slots_observe(t, table->len, b, body->len, out, room);
    } else if (mark == 1) {
        r = voter_slots_write(t, table->len, out, room);
    } else {
        r = voter_slots_apply(t, table->len, mark, b, body->len, out, room);
    }
    CHECK(memcmp(t, table->bytes, table->len) == 0);
    CHECK(memcmp(b, body->bytes, body->len) == 0);
    if (r.answer != VOTER_SLOTS_ACCEPTED) {
        CHECK(is_refused(r, r.answer));
        CHECK(all_are(out, room, 0xA5));
    } else {
        voter_slots_result again = voter_slots_read(out, (size_t)r.count);
        CHECK(memcmp(&again, &r, sizeof r) == 0);
        CHECK(all_are(out + r.count, room - r.count, 0xA5));
        if (next != NULL) {
            next->len = 0;
            put(next, out, (size_t)r.count);
        }
    }
    check_kept(table, mark, body, r, out);
    free(t);
    free(b);
    free(out);
    return r;
}

static uint32_t answer(const buffer *table, uint32_t mark, buffer body) {
    return call(table, mark, &body, VOTER_SLOTS_TABLE_BYTES, NULL).answer;
}

static void set_number(buffer *b, size_t at, uint64_t number) {
    size_t len = b->len;
    b->len = at;
    put_number(b, number, 8);
    b->len = len;
}

/* ---- the tests */

static const buffer EMPTY = {.len = 0};

static void check_step(buffer *table, uint32_t mark, buffer body, uint64_t revision,
                       uint32_t phase) {
    buffer next = {.len = 0};
    voter_slots_result r = call(table, mark, &body, VOTER_SLOTS_TABLE_BYTES, &next);
    CHECK(r.answer == VOTER_SLOTS_ACCEPTED && r.revision == revision && r.slots == 3);
    if (next.len == 0) {
        return;
    }
    CHECK(r.open_phase == phase);
    CHECK(r.open_slot == (phase == VOTER_SLOTS_NO_PHASE ? 0 : 2));
    CHECK(voter_slots_retired(next.bytes, next.len, 2) == VOTER_SLOTS_RETIRED);
    CHECK(voter_slots_retired(next.bytes, next.len, 65538) == VOTER_SLOTS_NOT_RETIRED);
    /* again: accepted, unchanged */
    r = call(&next, mark, &body, next.len, NULL);
    CHECK(r.answer == VOTER_SLOTS_ACCEPTED && r.revision == revision);
    /* a restart, and buffers of every kind of length */
    CHECK(call(&next, 1, &EMPTY, next.len, table).answer == VOTER_SLOTS_ACCEPTED);
    CHECK(table->len == next.len && memcmp(table->bytes, next.bytes, next.len) == 0);
    CHECK(call(&next, 1, &EMPTY, next.len - 1, NULL).answer == VOTER_SLOTS_BUFFER_TOO_SHORT);
    CHECK(call(&next, mark, &body, next.len - 1, NULL).answer == VOTER_SLOTS_BUFFER_TOO_SHORT);
    CHECK(call(&next, mark, &body, 0, NULL).answer == VOTER_SLOTS_BUFFER_TOO_SHORT);
}

/* From Begin to Finalize, with a restart after each step. */
static void test_replacement(void) {
    buffer table = idle_table(3);
    CHECK(voter_slots_retired(table.bytes, table.len, 2) == VOTER_SLOTS_NOT_RETIRED);
    check_step(&table, VOTER_SLOTS_BEGIN, begin_body(fitting()), 2, VOTER_SLOTS_PREPARED);
    check_step(&table, VOTER_SLOTS_ADVANCE, advance_body(12, 0, 8), 3,
               VOTER_SLOTS_SNAPSHOT_INSTALLED);
    check_step(&table, 0, observation_body(14, true, false, BOTH, 4), 4, VOTER_SLOTS_LEARNER_ADDED);
    CHECK(answer(&table, VOTER_SLOTS_MARKER, marker_body(1, 1, 1)) == VOTER_SLOTS_ACCEPTED);
    check_step(&table, VOTER_SLOTS_ADVANCE, advance_body(18, 1, 0), 5, VOTER_SLOTS_CAUGHT_UP);
    check_step(&table, VOTER_SLOTS_ADVANCE, advance_body(20, 3, 0), 6, VOTER_SLOTS_FENCED);
    begin past = fitting();
    past.request = past.digest = past.supplied = 2;
    past.index = 99;
    past.revision = 6;
    CHECK(answer(&table, VOTER_SLOTS_BEGIN, begin_body(past)) ==
          VOTER_SLOTS_REPLACEMENT_PAST_FENCE);
    check_step(&table, 0, observation_body(22, true, true, BOTH, 4), 7, VOTER_SLOTS_JOINT);
    check_step(&table, 0, observation_body(24, false, true, NEW, 3), 8, VOTER_SLOTS_UNIFORM);
    check_step(&table, VOTER_SLOTS_ADVANCE, advance_body(26, 4, 0), 9, VOTER_SLOTS_NO_PHASE);
}

static void test_table_refusals(void) {
    buffer table = idle_table(3);
    buffer bad = table;
    voter_slots_result r = voter_slots_read(table.bytes, table.len);
    CHECK(r.answer == 0 && r.slots == 3 && r.count == table.len && r.revision == 1 && r.epoch == 1);
    CHECK(r.open_slot == 0 && r.open_phase == VOTER_SLOTS_NO_PHASE);
    CHECK(is_refused(voter_slots_read(NULL, 0), VOTER_SLOTS_INVALID_RECORD));
    for (size_t len = 0; len < table.len; len++) {
        uint8_t *short_table = exact(table.bytes, len);
        CHECK(is_refused(voter_slots_read(short_table, len), VOTER_SLOTS_INVALID_RECORD));
        free(short_table);
    }
    bad.bytes[SLOTS + 1] = 0;
    CHECK(is_refused(voter_slots_read(bad.bytes, bad.len), VOTER_SLOTS_INVALID_SLOT));
    bad = table;
    set_number(&bad, SLOTS + 2, 0);
    CHECK(is_refused(voter_slots_read(bad.bytes, bad.len), VOTER_SLOTS_INVALID_INCARNATION));
    bad = table;
    bad.bytes[5] = 2;
    CHECK(is_refused(voter_slots_read(bad.bytes, bad.len), VOTER_SLOTS_FRESH_INSTALLATION_REQUIRED));
    CHECK(voter_slots_retired(bad.bytes, bad.len, 2) == VOTER_SLOTS_FRESH_INSTALLATION_REQUIRED);
    CHECK(is_refused(voter_slots_read(bad.bytes, 65537), VOTER_SLOTS_TOO_LARGE));
    buffer body = begin_body(fitting());
    CHECK(call(&table, VOTER_SLOTS_BEGIN, &body, VOTER_SLOTS_TABLE_BYTES, &bad).answer == 0);
    set_number(&bad, SLOTS + 3 * SLOT_BYTES + 1 + 8 + 2 + 84, (uint64_t)1 << 47);
    CHECK(is_refused(voter_slots_read(bad.bytes, bad.len), VOTER_SLOTS_INCARNATION_EXHAUSTED));
}

static void test_command_refusals(void) {
    buffer table = idle_table(3);
    buffer one = idle_table(1);
    buffer full = table;
    buffer open = {.len = 0};
    buffer body = begin_body(fitting());
    CHECK(call(&table, VOTER_SLOTS_BEGIN, &body, VOTER_SLOTS_TABLE_BYTES, &open).answer == 0);
    begin v = fitting();
    v.supplied = 0;
    CHECK(answer(&table, VOTER_SLOTS_BEGIN, begin_body(v)) == VOTER_SLOTS_INVALID_LOSS_EVIDENCE);
    v = fitting();
    v.revision = 2;
    CHECK(answer(&table, VOTER_SLOTS_BEGIN, begin_body(v)) == VOTER_SLOTS_STALE_INCARNATION);
    v = fitting();
    v.digest = 9;
    CHECK(answer(&open, VOTER_SLOTS_BEGIN, begin_body(v)) == VOTER_SLOTS_IDEMPOTENCY_CONFLICT);
    v = fitting();
    v.slot = v.candidate_slot = 3;
    v.request = v.digest = v.supplied = 2;
    v.index = 11;
    v.revision = 2;
    CHECK(answer(&open, VOTER_SLOTS_BEGIN, begin_body(v)) == VOTER_SLOTS_REPLACEMENT_IN_PROGRESS);
    v = fitting();
    v.slot = v.candidate_slot = 1;
    CHECK(answer(&one, VOTER_SLOTS_BEGIN, begin_body(v)) == VOTER_SLOTS_NO_SURVIVING_QUORUM);
    set_number(&full, EPOCH, UINT64_MAX);
    v = fitting();
    v.epoch = UINT64_MAX;
    CHECK(answer(&full, VOTER_SLOTS_BEGIN, begin_body(v)) ==
          VOTER_SLOTS_CONFIGURATION_EPOCH_EXHAUSTED);
    full = table;
    set_number(&full, REVISION, UINT64_MAX);
    v = fitting();
    v.revision = UINT64_MAX;
    CHECK(answer(&full, VOTER_SLOTS_BEGIN, begin_body(v)) == VOTER_SLOTS_REVISION_EXHAUSTED);
    CHECK(answer(&table, VOTER_SLOTS_MARKER, marker_body(1, 1, 1)) ==
          VOTER_SLOTS_INVALID_TRANSITION);
    CHECK(answer(&open, VOTER_SLOTS_ADVANCE, advance_body(12, 0, 257)) ==
          VOTER_SLOTS_UNREPRESENTABLE);
    static const uint64_t falling[] = {2, 1};
    static const uint64_t beyond[] = {(uint64_t)1 << 63};
    CHECK(answer(&table, 0, observation_body(14, true, false, falling, 2)) ==
          VOTER_SLOTS_NOT_RISING);
    CHECK(answer(&table, 0, observation_body(14, true, false, beyond, 1)) ==
          VOTER_SLOTS_UNREPRESENTABLE);
}

/* 33; the table reader's number; the attestation reader's; 30; the call; 32 last. */
static void test_order(void) {
    buffer table = idle_table(3);
    buffer bad = table;
    bad.bytes[5] = 2;
    buffer body = begin_body(fitting());
    body.len--;
    CHECK(answer(&bad, VOTER_SLOTS_BEGIN, body) == VOTER_SLOTS_BAD_RECORD);
    CHECK(answer(&table, VOTER_SLOTS_BEGIN, body) == VOTER_SLOTS_BAD_RECORD);
    begin v = fitting();
    v.signed_well = false;
    v.candidate_slot = 0;
    CHECK(answer(&bad, VOTER_SLOTS_BEGIN, begin_body(v)) ==
          VOTER_SLOTS_FRESH_INSTALLATION_REQUIRED);
    CHECK(answer(&table, VOTER_SLOTS_BEGIN, begin_body(v)) == VOTER_SLOTS_INVALID_RECORD);
    /* The attestation's number comes before the 30 of a table that was never read. */
    voter_slots_table blank = {{0}};
    body = begin_body(v);
    CHECK(is_refused(voter_slots_table_apply(&blank, VOTER_SLOTS_BEGIN, body.bytes, body.len),
                     VOTER_SLOTS_INVALID_RECORD));
    v.signed_well = true;
    v.revision = 7;
    CHECK(answer(&table, VOTER_SLOTS_BEGIN, begin_body(v)) == VOTER_SLOTS_UNREPRESENTABLE);
    v.candidate_slot = 2;
    body = begin_body(v);
    CHECK(call(&table, VOTER_SLOTS_BEGIN, &body, 0, NULL).answer == VOTER_SLOTS_STALE_INCARNATION);
    v.revision = 1;
    body = begin_body(v);
    CHECK(call(&table, VOTER_SLOTS_BEGIN, &body, 0, NULL).answer == VOTER_SLOTS_BUFFER_TOO_SHORT);
    CHECK(call(&bad, 1, &EMPTY, 0, NULL).answer == VOTER_SLOTS_FRESH_INSTALLATION_REQUIRED);
    body = observation_body(14, true, false, OLD, 3);
    body.len--;
    CHECK(answer(&bad, 0, body) == VOTER_SLOTS_BAD_RECORD);
    body.len++;
    CHECK(answer(&bad, 0, body) == VOTER_SLOTS_FRESH_INSTALLATION_REQUIRED);
}

/* Marks that are none, bodies of any length, and no bytes at all. */
static void test_forms(void) {
    buffer table = idle_table(3);
    buffer open = {.len = 0};
    buffer body = begin_body(fitting());
    static const uint32_t none[] = {0, 2, 0x5442, 0x4F42, 0x4B4D, 0x14D4B, UINT32_MAX};
    for (size_t i = 0; i < sizeof none / sizeof none[0]; i++) {
        voter_slots_result r = voter_slots_apply(table.bytes, table.len, none[i], body.bytes,
                                                 body.len, NULL, 0);
        CHECK(is_refused(r, VOTER_SLOTS_BAD_RECORD));
    }
    CHECK(is_refused(voter_slots_apply(NULL, 0, VOTER_SLOTS_BEGIN, NULL, 0, NULL, 0),
                     VOTER_SLOTS_BAD_RECORD));
    CHECK(is_refused(voter_slots_observe(NULL, 0, NULL, 0, NULL, 0), VOTER_SLOTS_BAD_RECORD));
    CHECK(is_refused(voter_slots_write(NULL, 0, NULL, 0), VOTER_SLOTS_INVALID_RECORD));
    CHECK(is_refused(voter_slots_write(table.bytes, table.len, NULL, 0),
                     VOTER_SLOTS_BUFFER_TOO_SHORT));
    CHECK(is_refused(voter_slots_apply(NULL, 0, VOTER_SLOTS_BEGIN, body.bytes, body.len, NULL, 0),
                     VOTER_SLOTS_INVALID_RECORD));
    CHECK(voter_slots_retired(NULL, 0, 1) == VOTER_SLOTS_INVALID_RECORD);
    voter_slots_table kept = {{0}};
    CHECK(is_refused(voter_slots_table_apply(&kept, VOTER_SLOTS_BEGIN, NULL, 0),
                     VOTER_SLOTS_BAD_RECORD));
    CHECK(is_refused(voter_slots_table_apply(&kept, VOTER_SLOTS_BEGIN, body.bytes, body.len),
                     VOTER_SLOTS_UNREPRESENTABLE));
    CHECK(is_refused(voter_slots_table_observe(&kept, NULL, 0), VOTER_SLOTS_BAD_RECORD));
    CHECK(is_refused(voter_slots_table_read(&kept, NULL, 0), VOTER_SLOTS_INVALID_RECORD));
    /* A reading that is refused leaves the table that stands; one that is accepted takes its place. */
    uint8_t again[VOTER_SLOTS_TABLE_BYTES];
    CHECK(voter_slots_table_read(&kept, table.bytes, table.len).answer == 0);
    CHECK(is_refused(voter_slots_table_read(&kept, NULL, 0), VOTER_SLOTS_INVALID_RECORD));
    CHECK(voter_slots_table_write(&kept, again, sizeof again).count == table.len);
    CHECK(memcmp(again, table.bytes, table.len) == 0);
    for (size_t i = 0; i < sizeof none / sizeof none[0]; i++) {
        CHECK(is_refused(voter_slots_table_apply(&kept, none[i], body.bytes, body.len),
                         VOTER_SLOTS_BAD_RECORD));
    }
    buffer one = idle_table(1);
    CHECK(voter_slots_table_read(&kept, one.bytes, one.len).slots == 1);
    CHECK(voter_slots_table_write(&kept, again, sizeof again).count == one.len);
    CHECK(memcmp(again, one.bytes, one.len) == 0);
    for (size_t len = 0; len < body.len; len++) {
        buffer cut_short = body;
        cut_short.len = len;
        CHECK(answer(&table, VOTER_SLOTS_BEGIN, cut_short) == VOTER_SLOTS_BAD_RECORD);
    }
    /* the longest body of a record, and one byte more */
    CHECK(call(&table, VOTER_SLOTS_BEGIN, &body, VOTER_SLOTS_TABLE_BYTES, &open).answer == 0);
    size_t most = VOTER_SLOTS_BODY_BYTES - advance_body(12, 0, 0).len;
    CHECK(answer(&open, VOTER_SLOTS_ADVANCE, advance_body(12, 0, most)) ==
          VOTER_SLOTS_UNREPRESENTABLE);
    CHECK(answer(&open, VOTER_SLOTS_ADVANCE, advance_body(12, 0, most + 1)) ==
          VOTER_SLOTS_BAD_RECORD);
    static uint64_t many[8190];
    for (size_t i = 0; i < 8190; i++) {
        many[i] = i + 1;
    }
    /* 16 bytes of the cut, 1, 26 for a set of three, 2 for the count: room for 8,186 nodes */
    CHECK(answer(&table, 0, observation_body(14, true, false, many, 8186)) ==
          VOTER_SLOTS_INVALID_TRANSITION);
    CHECK(answer(&table, 0, observation_body(14, true, false, many, 8187)) ==
          VOTER_SLOTS_BAD_RECORD);
    CHECK(answer(&table, 0, observation_body(14, true, false, OLD, 3)) == VOTER_SLOTS_ACCEPTED);
}

int main(void) {
    CHECK(sizeof(voter_slots_result) == 40);
    test_replacement();
    test_table_refusals();
    test_command_refusals();
    test_order();
    test_forms();
    printf("%d checks, %d failed\n", checks, failures);
    return failures == 0 ? 0 : 1;
}
