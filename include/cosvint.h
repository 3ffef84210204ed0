/*
 * Cosvint: what C and C++ may call to read git references from a snapshot.
 *
 * A snapshot is three regions, worktree, common and packed, each a run of 512-byte blocks (document 01, "Blocks"). Every call
 * is handed the regions, looks at them, and answers a number. Link the archive that `tools/archive` makes,
 * target/staticlib/libcapi.a.
 *
 * What holds of every call:
 * - It keeps nothing between calls and writes to nothing but its outputs (`out`, `state`). So any number of
 *   threads may call at once, each with outputs of its own, while nobody writes to the regions.
 * - No pointer may be null, not even with a size of 0: hand COSVINT_EMPTY, 0 for what is not there.
 * - An output may not overlap any other argument.
 * - With has_common false there is no common region, and with has_namespace false no namespace, whatever is lent for it.
 *   Without a common region search reads worktree in its place; an empty one has no references. An absent packed region is an
 *   empty one.
 * - Names and namespaces are bytes with a length; a zero byte does not end them.
 *
 * C11 or C++11, on x86-64.
 */
#ifndef COSVINT_H
#define COSVINT_H

#include <assert.h>
#include <stdbool.h>
#include <stddef.h>
#include <stdint.h>

#if !defined(__x86_64__) && !defined(_M_X64)
#error "libcapi.a is for x86-64 only"
#endif

#if defined(__GNUC__)
#define COSVINT_NO_NULL __attribute__((nonnull))
#else
#define COSVINT_NO_NULL
#endif

/* An absent region or namespace: COSVINT_EMPTY with a size of 0. */
#define COSVINT_EMPTY ((const uint8_t *)"")

/* Sizes, in bytes. */
#define COSVINT_BLOCK_SIZE 512     /* a block; a region's size is a multiple of it */
#define COSVINT_MOST_BLOCKS 4096   /* the most blocks of a region */
#define COSVINT_LONGEST_NAME 250   /* the longest name, namespace and expansion */
#define COSVINT_ID_DIGITS 40       /* an object id: hexadecimal digits, lower case */

/*
 * The numbers that the calls answer.
 */

/* Done: found (find, list_step), an id reached (follow), fit for search (fitness), opened (list_open), accepted (names). */
#define COSVINT_DONE 0

/* 1 to 5: the call is turned away, the earliest row first, and nothing is looked up. A listing's state stays. */
#define COSVINT_NOT_WHOLE 1          /* a region's size is not a multiple of 512 bytes */
#define COSVINT_TOO_MANY_BLOCKS 2    /* a region has more than 4,096 blocks, or 40 for the programs */
#define COSVINT_TOO_LONG 3           /* a name or a namespace is longer than 250 bytes */
#define COSVINT_MALFORMED 4          /* a name or a namespace is not one that git allows: malformed, or not complete where a complete one is due */
#define COSVINT_EXPANSION_TOO_LONG 5 /* a namespace grows to more than 250 bytes where it is written out */

/*
 * 6 to 8: the snapshot is not fit for search. The first block counts, worktree before common before packed, and at one block
 * the lowest number; find, follow and fitness tell region and block. A listing gives 6 and 7 for single entries, and goes on.
 */
#define COSVINT_DAMAGED 6      /* a block is damaged: its sum, its lengths or its kind are wrong */
#define COSVINT_ERROR_BLOCK 7  /* a block says that a directory or packed-refs could not be read: kind 3 or 5 */
#define COSVINT_OUT_OF_ORDER 8 /* a name is not above the one before it in its region */

/* 9 to 12: one reference can't be read. A listing's state has moved on, and the next step gives the next entry. */
#define COSVINT_UNREAD 9             /* a reference's file was there and could not be read: kind 2 */
#define COSVINT_UNREADABLE 10        /* a reference's file holds neither an id nor `ref: ` and a name */
#define COSVINT_INCOMPLETE_TARGET 11 /* a symbolic reference names something that is no reference's name */
#define COSVINT_UNSUPPORTED 12       /* the repository keeps its references in another way (reftable): its target is `refs/heads/.invalid` */

/* 13 to 15: following stops, and the answer holds the last reference reached. */
#define COSVINT_TARGET_NOT_FOUND 13 /* a symbolic reference leads to a name that is not there */
#define COSVINT_CYCLE 14            /* symbolic references lead back to a name that was passed */
#define COSVINT_TOO_DEEP 15         /* a chain of symbolic references passes five names */

/* No refusal: not there (find, follow), or ended (list_step). */
#define COSVINT_NOTHING 100

/* An output is shorter than its record. This is found before anything else is looked at, and nothing at all is written. */
#define COSVINT_TOO_SHORT 101

/*
 * The answer: a record at the front of `out`. A call that does not answer COSVINT_TOO_SHORT writes every byte of it, refusals
 * too; bytes of `out` behind it are left as they are. Numbers are 8 bytes, low byte first.
 *
 * A reference is there: find 0, list_step 0, follow 0 (the last reference reached, whose id is the one sought) and follow 13 to
 * 15 (the last reference reached). Everywhere else `kind` and all that follows is zero.
 */
#define COSVINT_ANSWER_SIZE 636
#define COSVINT_ANSWER_NUMBER_AT 0         /* the number that the call answered */
#define COSVINT_ANSWER_REGION_AT 8         /* COSVINT_WORKTREE, _COMMON or _PACKED, of 6 to 8 by find, follow, fitness; else 0 */
#define COSVINT_ANSWER_BLOCK_AT 16         /* of the same: the block's number from 0; else 0 */
#define COSVINT_ANSWER_KIND_AT 24          /* COSVINT_OBJECT or COSVINT_SYMBOLIC; COSVINT_NONE where no reference is here */
#define COSVINT_ANSWER_HAS_PEELED_AT 32    /* 1 where a peeled id is there, else 0 */
#define COSVINT_ANSWER_NAME_LENGTH_AT 40   /* bytes of the name */
#define COSVINT_ANSWER_TARGET_LENGTH_AT 48 /* bytes of a symbolic target, else 0 */
#define COSVINT_ANSWER_ID_AT 56            /* 40 digits of an object target, else 40 zero bytes */
#define COSVINT_ANSWER_PEELED_AT 96        /* 40 digits of the peeled id, else 40 zero bytes */
#define COSVINT_ANSWER_NAME_AT 136         /* 250 bytes, zeros behind the name */
#define COSVINT_ANSWER_TARGET_AT 386       /* 250 bytes, zeros behind the symbolic target; all zero for an object */

/* Regions in an answer. */
#define COSVINT_WORKTREE 1
#define COSVINT_COMMON 2
#define COSVINT_PACKED 3

/* Kinds of a reference in an answer. */
#define COSVINT_NONE 0
#define COSVINT_OBJECT 1
#define COSVINT_SYMBOLIC 2

/*
 * The state of a listing: a record at the front of `state`. It is plain bytes, which may be copied, stored and loaded again.
 * Any bytes are a state: `ended` is "not zero", a length over 250 counts as 250, bytes behind the length are ignored, and a
 * position past a region is its end.
 */
#define COSVINT_STATE_SIZE 290
#define COSVINT_STATE_WORKTREE_AT 0          /* the next block looked for in worktree */
#define COSVINT_STATE_COMMON_AT 8            /* in common */
#define COSVINT_STATE_PACKED_AT 16           /* in packed */
#define COSVINT_STATE_ENDED_AT 24            /* 1 where the listing has ended, else 0 */
#define COSVINT_STATE_EXPANSION_LENGTH_AT 32 /* bytes of the namespace's expansion, 0 without a namespace */
#define COSVINT_STATE_EXPANSION_AT 40        /* 250 bytes, zeros behind the expansion */

/*
 * The records as structs, which may be lent as outputs: `(uint8_t *)&answer, sizeof answer`. They end in padding that the
 * calls leave as it is, so a state that is stored is its first COSVINT_STATE_SIZE bytes.
 */
typedef struct cosvint_answer {
    uint64_t number;
    uint64_t region;
    uint64_t block;
    uint64_t kind;
    uint64_t has_peeled;
    uint64_t name_length;
    uint64_t target_length;
    uint8_t id[COSVINT_ID_DIGITS];
    uint8_t peeled[COSVINT_ID_DIGITS];
    uint8_t name[COSVINT_LONGEST_NAME];
    uint8_t target[COSVINT_LONGEST_NAME];
} cosvint_answer;

typedef struct cosvint_state {
    uint64_t worktree;
    uint64_t common;
    uint64_t packed;
    uint64_t ended;
    uint64_t expansion_length;
    uint8_t expansion[COSVINT_LONGEST_NAME];
} cosvint_state;

#define COSVINT_STANDS(record, field, at) static_assert(offsetof(record, field) == (at), #record "." #field)
COSVINT_STANDS(cosvint_answer, number, COSVINT_ANSWER_NUMBER_AT);
COSVINT_STANDS(cosvint_answer, region, COSVINT_ANSWER_REGION_AT);
COSVINT_STANDS(cosvint_answer, block, COSVINT_ANSWER_BLOCK_AT);
COSVINT_STANDS(cosvint_answer, kind, COSVINT_ANSWER_KIND_AT);
COSVINT_STANDS(cosvint_answer, has_peeled, COSVINT_ANSWER_HAS_PEELED_AT);
COSVINT_STANDS(cosvint_answer, name_length, COSVINT_ANSWER_NAME_LENGTH_AT);
COSVINT_STANDS(cosvint_answer, target_length, COSVINT_ANSWER_TARGET_LENGTH_AT);
COSVINT_STANDS(cosvint_answer, id, COSVINT_ANSWER_ID_AT);
COSVINT_STANDS(cosvint_answer, peeled, COSVINT_ANSWER_PEELED_AT);
COSVINT_STANDS(cosvint_answer, name, COSVINT_ANSWER_NAME_AT);
COSVINT_STANDS(cosvint_answer, target, COSVINT_ANSWER_TARGET_AT);
COSVINT_STANDS(cosvint_state, worktree, COSVINT_STATE_WORKTREE_AT);
COSVINT_STANDS(cosvint_state, common, COSVINT_STATE_COMMON_AT);
COSVINT_STANDS(cosvint_state, packed, COSVINT_STATE_PACKED_AT);
COSVINT_STANDS(cosvint_state, ended, COSVINT_STATE_ENDED_AT);
COSVINT_STANDS(cosvint_state, expansion_length, COSVINT_STATE_EXPANSION_LENGTH_AT);
COSVINT_STANDS(cosvint_state, expansion, COSVINT_STATE_EXPANSION_AT);
#undef COSVINT_STANDS
static_assert(sizeof(cosvint_answer) >= COSVINT_ANSWER_SIZE, "an answer struct holds the record");
static_assert(sizeof(cosvint_state) >= COSVINT_STATE_SIZE, "a state struct holds the record");
static_assert(sizeof(size_t) == 8 && sizeof(bool) == 1, "the calls take 64-bit sizes and one-byte bools");

#ifdef __cplusplus
extern "C" {
#endif

/*
 * Search for a partial name, as git does: `main` finds `refs/heads/main`.
 * Answers 0 with the reference, 100 where it is not there, 1 to 12, or 101.
 */
uint32_t cosvint_find(const uint8_t *worktree, size_t worktree_size,
                      const uint8_t *common, size_t common_size, bool has_common,
                      const uint8_t *packed, size_t packed_size,
                      const uint8_t *name, size_t name_length,
                      const uint8_t *name_space, size_t namespace_length, bool has_namespace,
                      uint8_t *out, size_t out_size) COSVINT_NO_NULL;

/*
 * Search for a partial name and follow symbolic references to an object.
 * Answers 0 with the last reference reached, whose `id` is the one sought; 100 where the name is not there; 1 to 12; 13 to 15
 * with the last reference reached; or 101.
 */
uint32_t cosvint_follow(const uint8_t *worktree, size_t worktree_size,
                        const uint8_t *common, size_t common_size, bool has_common,
                        const uint8_t *packed, size_t packed_size,
                        const uint8_t *name, size_t name_length,
                        const uint8_t *name_space, size_t namespace_length, bool has_namespace,
                        uint8_t *out, size_t out_size) COSVINT_NO_NULL;

/*
 * Is the snapshot fit for search? Answers 0, 1, 2, 6 to 8 with region and block, or 101.
 */
uint32_t cosvint_fitness(const uint8_t *worktree, size_t worktree_size,
                         const uint8_t *common, size_t common_size, bool has_common,
                         const uint8_t *packed, size_t packed_size,
                         uint8_t *out, size_t out_size) COSVINT_NO_NULL;

/*
 * Open a listing of all references, or of those in a namespace: the state of a fresh one.
 * Answers 0, 1 to 5, or 101, and writes `state` only where it answers 0.
 */
uint32_t cosvint_list_open(const uint8_t *worktree, size_t worktree_size,
                           const uint8_t *common, size_t common_size, bool has_common,
                           const uint8_t *packed, size_t packed_size,
                           const uint8_t *name_space, size_t namespace_length, bool has_namespace,
                           uint8_t *state, size_t state_size) COSVINT_NO_NULL;

/*
 * One step of a listing: answers 0 with the next reference by name; 6, 7 or 9 to 12 for an entry that is refused, after which
 * the listing goes on; 100 where it has ended, as does every later step; 1 or 2 for the sizes; or 101.
 * The next state replaces the one in `state`. With 1 and 2 it means what it meant before, so stop there: another step with the
 * same regions gives the same number.
 */
uint32_t cosvint_list_step(const uint8_t *worktree, size_t worktree_size,
                           const uint8_t *common, size_t common_size, bool has_common,
                           const uint8_t *packed, size_t packed_size,
                           uint8_t *state, size_t state_size,
                           uint8_t *out, size_t out_size) COSVINT_NO_NULL;

/* May this be searched for? Well formed and at most 250 bytes: answers 0, 3 or 4. */
uint32_t cosvint_partial_name(const uint8_t *name, size_t name_length) COSVINT_NO_NULL;

/* Is this a complete name of at most 250 bytes? Answers 0, 3 or 4. */
uint32_t cosvint_full_name(const uint8_t *name, size_t name_length) COSVINT_NO_NULL;

/* Is this a namespace, and does its expansion fit 250 bytes? Answers 0, 3, 4 or 5. */
uint32_t cosvint_namespace(const uint8_t *name_space, size_t namespace_length) COSVINT_NO_NULL;

#ifdef __cplusplus
}
#endif

#endif
