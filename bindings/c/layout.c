/* That `voter_slots_table` has the size and alignment of the table value, and that the value lies
 * as C lays it out: crates/records/src/records.rt, whose structs are `#[repr(C)]`. Ends with 0
 * where all holds. */
#include "values.h"
#include "voter_slots.h"

#include <stdbool.h>
#include <stdio.h>
#include <string.h>

typedef struct {
    uint64_t term, index;
} log_id;

typedef struct {
    bool is_some;
    log_id cut;
} optional_log_id;

typedef struct {
    uint16_t slot;
    uint64_t incarnation;
} identity;

typedef struct {
    identity identity;
    uint8_t key_digest[32], descriptor_digest[32];
    uint64_t admission_generation;
} member;

typedef struct {
    uint8_t request_id[16], request_digest[32];
    uint64_t incarnation, revision, configuration_epoch;
    uint8_t kind;
    log_id terminal;
} result;

typedef struct {
    member member;
    uint64_t retired_through;
    uint8_t phase;
    bool has_last_result;
    result last_result;
} slot_record;

typedef struct {
    uint64_t epoch;
    member members[9];
    size_t count;
} configuration;

typedef struct {
    size_t len;
    uint8_t bytes[2048];
} name;

typedef struct {
    uint8_t request_id[16], request_digest[32], cluster_instance[32];
    uint16_t slot;
    uint64_t expected_incarnation;
    uint8_t old_descriptor_digest[32], candidate_key_digest[32];
    uint64_t admission_generation;
    name candidate, controller;
    uint8_t signing_key_digest[32], reason, policy_digest[32];
    uint64_t observation_start_ms, decision_ms, issued_ms, expires_ms;
    uint8_t signature[64];
} attestation;

typedef struct {
    log_id prepare;
    bool has_snapshot;
    struct {
        log_id cut;
        struct {
            size_t len;
            uint8_t bytes[256];
        } snapshot_id;
        uint8_t digest[32];
    } snapshot;
    optional_log_id learner, caught_up, continuation, fence, joint, uniform;
} evidence;

typedef struct {
    uint8_t cluster_instance[32], manifest_digest[32];
    uint64_t revision, configuration_epoch;
    slot_record slots[9];
    size_t count;
    bool has_replacement;
    struct {
        uint64_t expected_revision;
        attestation attestation;
        configuration predecessor, successor;
        uint8_t phase;
        evidence evidence;
    } replacement;
} value;

_Static_assert(sizeof(voter_slots_table) == sizeof(value), "the size of a table");
_Static_assert(_Alignof(voter_slots_table) == _Alignof(value), "the alignment of a table");

static int failures = 0;

static void check(bool holds, const char *what) {
    if (!holds) {
        failures++;
        printf("layout: %s does not hold\n", what);
    }
}
#define CHECK(holds) check(holds, #holds)

int main(void) {
    buffer bytes = idle_table(3);
    buffer body = begin_body(fitting());
    union {
        voter_slots_table table;
        value value;
    } kept;
    memset(&kept, 0, sizeof kept);
    CHECK(voter_slots_table_read(&kept.table, bytes.bytes, bytes.len).answer == 0);
    CHECK(kept.value.revision == 1 && kept.value.configuration_epoch == 1);
    CHECK(kept.value.count == 3 && !kept.value.has_replacement);
    for (uint16_t i = 0; i < 3; i++) {
        CHECK(kept.value.slots[i].member.identity.slot == i + 1);
        CHECK(kept.value.slots[i].member.identity.incarnation == 1);
        CHECK(kept.value.slots[i].phase == 2 && !kept.value.slots[i].has_last_result);
    }
    CHECK(voter_slots_table_apply(&kept.table, VOTER_SLOTS_BEGIN, body.bytes, body.len).answer == 0);
    CHECK(kept.value.revision == 2 && kept.value.has_replacement);
    CHECK(kept.value.replacement.attestation.slot == 2);
    CHECK(kept.value.replacement.attestation.candidate.len > 0);
    CHECK(kept.value.replacement.predecessor.count == 3);
    CHECK(kept.value.replacement.successor.count == 3);
    CHECK(kept.value.replacement.successor.members[1].identity.incarnation == 2);
    CHECK(kept.value.replacement.evidence.prepare.index > 0);
    /* Fields that lie late. */
    body = advance_body(12, 0, 8);
    CHECK(voter_slots_table_apply(&kept.table, VOTER_SLOTS_ADVANCE, body.bytes, body.len).answer == 0);
    CHECK(kept.value.replacement.phase == 1 && kept.value.replacement.evidence.has_snapshot);
    CHECK(kept.value.replacement.evidence.snapshot.snapshot_id.len == 8);
    CHECK(!kept.value.replacement.evidence.uniform.is_some);
    printf("layout: %zu bytes, %d failed\n", sizeof(value), failures);
    return failures == 0 ? 0 : 1;
}
