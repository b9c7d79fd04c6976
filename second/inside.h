/*
 * What second.c and image.c share and hosts don't call.
 */
#ifndef INSIDE_H
#define INSIDE_H

#include "second.h"

/* For small functions that are fast as a part of their caller; compilers need to be told. */
#if defined(__GNUC__)
#define INLINE static inline __attribute__((always_inline))
#else
#define INLINE static inline
#endif

/* ---- Numbers ----------------------------------------------------------- */

enum { GROUPS_MAX = 5, LAST_GROUP_MAX = 0x0F, GROUP_BITS = 7, MORE = 0x80 };

static inline size_t encode(uint32_t value, uint8_t *bytes)
{
    size_t length = 0;
    while (value >= MORE) {
        bytes[length++] = (uint8_t)(MORE | (value & (MORE - 1)));
        value >>= GROUP_BITS;
    }
    bytes[length++] = (uint8_t)value;
    return length;
}

/* ---- Heads -------------------------------------------------------------- */

/* The head of a list: the edition, then each count with its rows after it. */
enum { EDITION = 1, LEVEL_COUNT_AT = 1, LEVEL_FIELDS = 3, SLAVE_FIELDS = 5 };

/* ---- Steps ------------------------------------------------------------- */

/* Refusals 9 and 8 of a step. */
enum mc_refusal mc_check_step(const struct mc_setup *setup, const struct mc_channel *channel,
                              const struct mc_stores *stores);

/* Refusals 9, 8 and 7 of a run. */
enum mc_refusal mc_check_run(const struct mc_setup *setup, const struct mc_channel *channel,
                             const struct mc_stores *stores, uint32_t budget);

/* One to four bytes on their way from one store to the other; no bytes where a step moves none. */
struct mc_move {
    uint8_t *to;
    const uint8_t *from;
    uint32_t bytes;
};

/*
 * A step of what mc_check_step has passed, but for its bytes: these are left to
 * mc_move_bytes.  Refusal 6, and nothing has changed.
 */
enum mc_refusal mc_decide_step(const struct mc_setup *setup, struct mc_channel *channel,
                               const struct mc_stores *stores, struct mc_entry *entry,
                               struct mc_move *later);

void mc_move_bytes(const struct mc_move *move);

#endif
