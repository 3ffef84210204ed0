/*
 * What a C caller relies on: the records as structs, refusals, outputs that are too short, and bytes that are left alone.
 * One line for each check that fails; then the counts.
 */
#include <stdio.h>
#include <string.h>

#include "cosvint.h"

#define FILL 0xa5
#define BEHIND 16

static int passed, failed;

#define CHECK(what) check((what), #what)

static void check(bool good, const char *what) {
    if (good) {
        passed++;
    } else {
        failed++;
        printf("FAIL %s\n", what);
    }
}

static bool all(const uint8_t *bytes, size_t size, uint8_t value) {
    for (size_t i = 0; i < size; i++) {
        if (bytes[i] != value) {
            return false;
        }
    }
    return true;
}

/* A block of a packed region: a record. */
static void make_record(uint8_t *block, const char *name, const char *ids) {
    uint32_t sum = 0;
    memset(block, 0, COSVINT_BLOCK_SIZE);
    block[0] = 4;
    block[1] = (uint8_t)strlen(name);
    block[2] = (uint8_t)strlen(ids);
    memcpy(block + 8, name, strlen(name));
    memcpy(block + 258, ids, strlen(ids));
    for (uint32_t i = 0; i < 508; i++) {
        sum += (i + 1) * block[i];
    }
    for (int i = 0; i < 4; i++) {
        block[508 + i] = (uint8_t)(sum >> (8 * i));
    }
}

static const char name[] = "refs/tags/v1";
static const char id[] = "1111111111111111111111111111111111111111";
static const char both[] = "1111111111111111111111111111111111111111"
                           "2222222222222222222222222222222222222222";

static uint32_t find(const uint8_t *packed, size_t size, const char *sought, uint8_t *out, size_t out_size) {
    return cosvint_find(COSVINT_EMPTY, 0, COSVINT_EMPTY, 0, false, packed, size, (const uint8_t *)sought, strlen(sought),
                        COSVINT_EMPTY, 0, false, out, out_size);
}

static void check_found(const uint8_t *packed) {
    cosvint_answer a;
    memset(&a, FILL, sizeof a);
    CHECK(find(packed, COSVINT_BLOCK_SIZE, "v1", (uint8_t *)&a, sizeof a) == COSVINT_DONE);
    CHECK(a.number == COSVINT_DONE && a.region == 0 && a.block == 0);
    CHECK(a.kind == COSVINT_OBJECT && a.has_peeled == 1 && a.target_length == 0);
    CHECK(a.name_length == strlen(name) && memcmp(a.name, name, strlen(name)) == 0);
    CHECK(memcmp(a.id, id, sizeof a.id) == 0);
    CHECK(memcmp(a.peeled, both + sizeof a.id, sizeof a.peeled) == 0);
    CHECK(all(a.target, sizeof a.target, 0));
    CHECK(find(packed, COSVINT_BLOCK_SIZE, "v2", (uint8_t *)&a, sizeof a) == COSVINT_NOTHING);
    CHECK(a.number == COSVINT_NOTHING && a.kind == COSVINT_NONE && a.name_length == 0);
}

static void check_refused(const uint8_t *packed) {
    cosvint_answer a;
    CHECK(find(packed, 5, "v1", (uint8_t *)&a, sizeof a) == COSVINT_NOT_WHOLE);
    CHECK(find(packed, COSVINT_BLOCK_SIZE, "v..1", (uint8_t *)&a, sizeof a) == COSVINT_MALFORMED);
    CHECK(a.number == COSVINT_MALFORMED && a.kind == COSVINT_NONE);
    CHECK(find(packed, 2 * COSVINT_BLOCK_SIZE, "v1", (uint8_t *)&a, sizeof a) == COSVINT_DAMAGED);
    CHECK(a.number == COSVINT_DAMAGED && a.region == COSVINT_PACKED && a.block == 1);
}

static void check_short(const uint8_t *packed) {
    uint8_t out[COSVINT_ANSWER_SIZE + BEHIND];
    memset(out, FILL, sizeof out);
    CHECK(find(packed, 5, "v..1", out, COSVINT_ANSWER_SIZE - 1) == COSVINT_TOO_SHORT);
    CHECK(find(packed, COSVINT_BLOCK_SIZE, "v1", out, 0) == COSVINT_TOO_SHORT);
    CHECK(all(out, sizeof out, FILL));
    CHECK(find(packed, COSVINT_BLOCK_SIZE, "v1", out, sizeof out) == COSVINT_DONE);
    CHECK(all(out, 8, 0) && all(out + COSVINT_ANSWER_SIZE, BEHIND, FILL));
}

static uint32_t step(const uint8_t *packed, size_t size, cosvint_state *state, size_t state_size, cosvint_answer *a) {
    return cosvint_list_step(COSVINT_EMPTY, 0, COSVINT_EMPTY, 0, false, packed, size, (uint8_t *)state, state_size,
                             (uint8_t *)a, sizeof *a);
}

static uint32_t open_list(const uint8_t *packed, cosvint_state *state, size_t state_size) {
    return cosvint_list_open(COSVINT_EMPTY, 0, COSVINT_EMPTY, 0, false, packed, COSVINT_BLOCK_SIZE, COSVINT_EMPTY, 0,
                             false, (uint8_t *)state, state_size);
}

static void check_listing(const uint8_t *packed) {
    cosvint_state state, kept;
    cosvint_answer a;
    memset(&state, FILL, sizeof state);
    CHECK(open_list(packed, &state, COSVINT_STATE_SIZE - 1) == COSVINT_TOO_SHORT);
    CHECK(all((const uint8_t *)&state, sizeof state, FILL));
    CHECK(open_list(packed, &state, sizeof state) == COSVINT_DONE);
    CHECK(all((const uint8_t *)&state, COSVINT_STATE_SIZE, 0));
    memcpy(&kept, &state, sizeof kept);
    CHECK(step(packed, COSVINT_BLOCK_SIZE, &state, COSVINT_STATE_SIZE - 1, &a) == COSVINT_TOO_SHORT);
    CHECK(step(packed, 5, &state, sizeof state, &a) == COSVINT_NOT_WHOLE);
    CHECK(memcmp(&kept, &state, COSVINT_STATE_SIZE) == 0);
    CHECK(step(packed, COSVINT_BLOCK_SIZE, &state, sizeof state, &a) == COSVINT_DONE);
    CHECK(state.packed == 1 && state.ended == 0 && a.name_length == strlen(name));
    CHECK(step(packed, COSVINT_BLOCK_SIZE, &state, sizeof state, &a) == COSVINT_NOTHING);
    CHECK(state.ended == 1);
    CHECK(step(packed, COSVINT_BLOCK_SIZE, &kept, sizeof kept, &a) == COSVINT_DONE);
}

static uint32_t ask(uint32_t (*call)(const uint8_t *, size_t), const char *text) {
    return call((const uint8_t *)text, strlen(text));
}

static void check_names(void) {
    char letters[COSVINT_LONGEST_NAME + 2];
    memset(letters, 'a', sizeof letters);
    letters[COSVINT_LONGEST_NAME + 1] = 0;
    CHECK(ask(cosvint_partial_name, "main") == COSVINT_DONE && ask(cosvint_full_name, "main") == COSVINT_MALFORMED);
    CHECK(ask(cosvint_full_name, "refs/heads/main") == COSVINT_DONE && ask(cosvint_namespace, "a/b") == COSVINT_DONE);
    CHECK(ask(cosvint_partial_name, letters) == COSVINT_TOO_LONG && ask(cosvint_full_name, letters) == COSVINT_TOO_LONG);
    CHECK(ask(cosvint_namespace, letters) == COSVINT_TOO_LONG && ask(cosvint_namespace, "a/") == COSVINT_MALFORMED);
    CHECK(ask(cosvint_namespace, letters + 1) == COSVINT_EXPANSION_TOO_LONG);
    CHECK(cosvint_partial_name(COSVINT_EMPTY, 0) == COSVINT_MALFORMED);
}

int main(void) {
    uint8_t packed[2 * COSVINT_BLOCK_SIZE];
    make_record(packed, name, both);
    memset(packed + COSVINT_BLOCK_SIZE, 0, COSVINT_BLOCK_SIZE);
    check_found(packed);
    check_refused(packed);
    check_short(packed);
    check_listing(packed);
    check_names();
    printf("%d passed, %d failed\n", passed, failed);
    return failed > 0;
}
