/*
 * The image: a set-up and a channel as one row of bytes.
 *
 * It is a row of the sheet's numbers: the layout, the edition, the level count
 * and rows, the slave count and rows, and the length of the master store; then
 * whether the channel has ever been granted (0 or 1), the clock, the owner (0
 * while arbitrating, else 1 + its level), the asked time (0 for none, else 1 and
 * the time), the inactive marks (bit n: level n), and for each level from 0 to 15
 * the bytes left of its request and, unless that is 0, direction, space, address
 * and offset.
 *
 * Malformed, 18, is an image of another shape.  One of this shape may still break
 * the frame or be unsound: that is 9, which the reader leaves to the calls.
 */
#ifndef IMAGE_H
#define IMAGE_H

#include "second.h"

enum {
    MC_LAYOUT = 2, /* 1 was without the flag of the grants */
    /*
     * The longest image of a sound channel: sixteen levels, sixteen memory rows
     * above 2 MB of which three lengths take three bytes and the rest two, and
     * all requests open.
     */
    MC_IMAGE_MOST = 1 + 1 + 1 + 3 * MC_LEVELS + 1 + (8 * MC_SLAVES + 3 * 3 + 13 * 2) + 3
                  + 1 + 5 + 1 + 6 + 3 + 11 * MC_LEVELS
};

/* ---- Reading and writing ------------------------------------------------ */

/*
 * Refusal 18; nothing is then written.  The rows behind the counts become 0.
 * *setup_end is where the set-up's bytes end: they never change.
 */
enum mc_refusal mc_read_image(const uint8_t *image, size_t length, struct mc_setup *setup,
                              struct mc_channel *channel, size_t *setup_end);

/*
 * The two calls below are for a set-up that keeps to the frame and a channel
 * that isn't unsound.
 */

size_t mc_image_size(const struct mc_setup *setup, const struct mc_channel *channel);

struct mc_image_result {
    enum mc_refusal refusal;
    size_t length; /* of the image */
};

/* Refusal 17; the length is then 0. */
struct mc_image_result mc_write_image(const struct mc_setup *setup,
                                      const struct mc_channel *channel, uint8_t *image,
                                      size_t capacity);

/* ---- The calls over an image, in place ----------------------------------- */

/*
 * The image stands at the start of a buffer of capacity bytes.  A refused call
 * changes nothing it was lent and gives back the length it was handed.  Bytes
 * past the new length stay as they were.
 */

/*
 * The first image, from the head of a sheet as a list: edition, level count and
 * rows, slave count and rows.  Refusals 18, 9, 17, in that order; the length is
 * then 0.
 */
struct mc_image_result mc_image_set_up(const uint32_t *list, size_t count, uint32_t master_length,
                                       uint8_t *image, size_t capacity);

/* Refusals 18, 9, 1, 2, 3, 4, 5, 17, in that order. */
struct mc_image_result mc_image_post(uint8_t *image, size_t capacity, size_t length,
                                     const struct mc_request *request);

struct mc_image_step_result {
    enum mc_refusal refusal;
    char kind; /* the letter of the step's line, C, G, R or I; 0 where refused */
    size_t length;
    struct mc_entry entry; /* all 0 where refused */
};

/* tally may be NULL.  Refusals 18, 9, 8, 6, 17, in that order. */
struct mc_image_step_result mc_image_step(uint8_t *image, size_t capacity, size_t length,
                                          const struct mc_stores *stores, struct mc_tally *tally);

struct mc_image_run_result {
    enum mc_refusal refusal; /* nothing was done */
    size_t length;
    uint32_t steps;       /* done */
    enum mc_refusal stop; /* 6: stopped before a step; else 0 */
};

/*
 * Up to budget steps.  tally may be NULL.  Refusals 18, 9, 8, 7, 17, in that
 * order; 17 wherever the capacity is below MC_IMAGE_MOST.
 */
struct mc_image_run_result mc_image_run(uint8_t *image, size_t capacity, size_t length,
                                        const struct mc_stores *stores, struct mc_tally *tally,
                                        uint32_t budget);

/* Why a level waits, by mc_why.  Refusals 18, 9, in that order; nothing is written. */
struct mc_told mc_image_why(const uint8_t *image, size_t capacity, size_t length, uint32_t level);

#endif
