/* The proved encoder over lent memory.
 *
 * A job and four limits are given; six work areas, and for kit_run a listing area, are lent. They must
 * not overlap, and no pointer may be null, also where the length is 0. docs/LIMITS.md says how long
 * each work area must be for the limits; one that is shorter is refusal 7. After a call the work areas
 * are zero over their whole length.
 *
 * Link with crates/kit_c/out/libkit_c.a, which `rt lib` makes in crates/kit_c. It needs memcpy and memset
 * and nothing else. The functions keep nothing between calls: several threads may call them at once,
 * each with memory of its own.
 */
#ifndef KIT_H
#define KIT_H

#include <stddef.h>
#include <stdint.h>

#ifdef __cplusplus
extern "C" {
#endif

/* What a call answers: 0 or the number of a refusal, and its place; the listing's length, the
 * variables and the clauses. */
struct kit_answer {
    uint64_t number;
    uint64_t place;
    uint64_t length;
    uint64_t variables;
    uint64_t clauses;
};

/* Is the job's catalogue in order? Refusals 1 to 7; an acceptance is all zeros. */
struct kit_answer kit_check(
    const uint8_t *job,
    size_t job_length,
    uint64_t variables,
    uint64_t clauses,
    uint64_t literals,
    uint64_t waiting,
    uint8_t *marks,
    size_t marks_length,
    uint8_t *unions,
    size_t unions_length,
    uint8_t *catalogue,
    size_t catalogue_length,
    uint8_t *store,
    size_t store_length,
    uint8_t *state,
    size_t state_length,
    uint8_t *deferred,
    size_t deferred_length);

/* Runs the job. Its listing is the first `length` bytes of the listing area; the rest of it, and after
 * a refusal all of it, is as it was. */
struct kit_answer kit_run(
    const uint8_t *job,
    size_t job_length,
    uint64_t variables,
    uint64_t clauses,
    uint64_t literals,
    uint64_t waiting,
    uint8_t *marks,
    size_t marks_length,
    uint8_t *unions,
    size_t unions_length,
    uint8_t *catalogue,
    size_t catalogue_length,
    uint8_t *store,
    size_t store_length,
    uint8_t *state,
    size_t state_length,
    uint8_t *deferred,
    size_t deferred_length,
    uint8_t *listing,
    size_t listing_length);

#ifdef __cplusplus
}
#endif

#endif
