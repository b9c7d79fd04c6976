/*
 * What the tests share: checks, random numbers, and machines to try.
 */
#ifndef TEST_H
#define TEST_H

#include "second.h"

#include <stdio.h>
#include <string.h>

static unsigned long checks;
static unsigned long failures;

static inline void check_that(bool holds, const char *what, int line)
{
    checks++;
    if (holds)
        return;
    failures++;
    if (failures <= 20)
        fprintf(stderr, "line %d: %s\n", line, what);
}

#define CHECK(what) check_that(what, #what, __LINE__)
#define LENGTH(array) (sizeof(array) / sizeof((array)[0]))

/* ---- Random numbers ------------------------------------------------------ */

/* The same in each run and with each compiler, so no statement may draw in an open order. */
struct random {
    uint64_t state;
};

static inline uint32_t draw(struct random *random)
{
    random->state = random->state * UINT64_C(6364136223846793005) + UINT64_C(1442695040888963407);
    uint64_t mixed = random->state ^ (random->state >> 29);
    return (uint32_t)((mixed * UINT64_C(0x9E3779B97F4A7C15)) >> 32);
}

static inline uint32_t below(struct random *random, uint32_t bound)
{
    return draw(random) % bound;
}

/* ---- Set-ups and machines ---------------------------------------------- */

struct machine {
    struct mc_setup setup;
    struct mc_channel channel;
    struct mc_tally tally;
    uint8_t slave[MC_STORE_MAX];
    uint8_t master[MC_STORE_MAX];
};

static inline struct mc_stores stores_of(struct machine *machine)
{
    return (struct mc_stores){
        .slave = machine->slave,
        .slave_length = mc_slave_length(&machine->setup),
        .master = machine->master,
        .master_length = machine->setup.master_length,
    };
}

static inline void start(struct machine *machine, const struct mc_setup *setup)
{
    machine->setup = *setup;
    CHECK(mc_set_up(setup, &machine->channel) == MC_OK);
    machine->tally = (struct mc_tally){0};
    memset(machine->slave, 0, sizeof machine->slave);
    for (size_t i = 0; i < sizeof machine->master; i++)
        machine->master[i] = (uint8_t)(i % 251);
}

static inline bool same_channel(const struct mc_channel *a, const struct mc_channel *b)
{
    return memcmp(a->direction, b->direction, sizeof a->direction) == 0
        && memcmp(a->space, b->space, sizeof a->space) == 0
        && memcmp(a->address, b->address, sizeof a->address) == 0
        && memcmp(a->left, b->left, sizeof a->left) == 0
        && memcmp(a->offset, b->offset, sizeof a->offset) == 0
        && a->inactive == b->inactive && a->phase == b->phase && a->owner == b->owner
        && a->has_asked == b->has_asked && a->asked == b->asked && a->ever == b->ever
        && a->clock == b->clock;
}

static inline bool same_tally(const struct mc_tally *a, const struct mc_tally *b)
{
    return a->grants == b->grants && a->cycles == b->cycles && a->bytes == b->bytes
        && a->hold == b->hold;
}

static inline bool same_entry(const struct mc_entry *a, const struct mc_entry *b)
{
    return a->kind == b->kind && a->clock == b->clock && a->level == b->level
        && a->address == b->address && a->bytes == b->bytes && a->direction == b->direction
        && a->master_lane == b->master_lane && a->slave_lane == b->slave_lane
        && a->ending == b->ending && a->has_hold == b->has_hold && a->hold == b->hold;
}

static inline bool same_machine(const struct machine *a, const struct machine *b)
{
    return same_channel(&a->channel, &b->channel) && same_tally(&a->tally, &b->tally)
        && memcmp(a->slave, b->slave, sizeof a->slave) == 0
        && memcmp(a->master, b->master, sizeof a->master) == 0;
}

static inline enum mc_refusal post(struct machine *machine, uint32_t level, uint32_t direction,
                                   uint32_t space, uint32_t address, uint32_t length,
                                   uint32_t offset)
{
    struct mc_request request = {level, direction, space, address, length, offset};
    return mc_post(&machine->setup, &machine->channel, &request);
}

static inline enum mc_refusal step(struct machine *machine, struct mc_entry *entry)
{
    struct mc_stores stores = stores_of(machine);
    return mc_step(&machine->setup, &machine->channel, &stores, &machine->tally, entry);
}

static inline struct mc_run_result run(struct machine *machine, uint32_t budget)
{
    struct mc_stores stores = stores_of(machine);
    return mc_run(&machine->setup, &machine->channel, &stores, &machine->tally, budget);
}

static inline struct mc_told why(const struct machine *machine, uint32_t level)
{
    return mc_why(&machine->setup, &machine->channel, level);
}

static inline bool is_told(struct mc_told told, enum mc_refusal refusal, enum mc_reason reason,
                           uint32_t level)
{
    return told.refusal == refusal && told.reason == reason && told.level == level;
}

/* A refused question has no reason and no level. */
static inline bool is_untold(struct mc_told told, enum mc_refusal refusal)
{
    return is_told(told, refusal, (enum mc_reason)0, 0);
}

/* All levels, and numbers that are none; the low eight bits of the last four are 15. */
static const uint32_t any_levels[] = {0, 1, 2, 3, 4, 5, 6, 7, 8, 9, 10, 11, 12, 13, 14, 15,
                                      16, 17, 31, 255, 256, 65536, UINT32_C(1) << 31, UINT32_MAX,
                                      271, 65551, 65536 + 271, (UINT32_C(1) << 31) + 15};

/* Levels 3 burst and fair, 7 fair, 9 burst and linger, 15; two slave rows that touch, and I/O. */
static const struct mc_setup small_setup = {
    .level_count = 4,
    .levels = {{3, 4, 3}, {7, 2, 2}, {9, 4, 5}, {15, 4, 0}},
    .slave_count = 3,
    .slaves = {{1, 4096, 64, 2, 200}, {1, 4160, 64, 4, 300}, {0, 0, 16, 1, 1950}},
    .master_length = 4096,
};

/* ---- Random set-ups and requests ------------------------------------------ */

static inline uint32_t random_time(struct random *random)
{
    static const uint32_t usual[] = {200, 300, 1950, 975, 250};
    return below(random, 2) ? usual[below(random, LENGTH(usual))]
                            : 200 + below(random, 1751);
}

/* A set-up that keeps to the frame, with rows often side by side or at the end. */
static inline struct mc_setup random_setup(struct random *random)
{
    struct mc_setup setup = {.master_length = 1};
    if (below(random, 10) != 0)
        setup.master_length += below(random, 600);
    for (uint32_t level = 0; level < 15; level++)
        if (below(random, 3) == 0)
            setup.levels[setup.level_count++].level = level;
    setup.levels[setup.level_count++].level = 15;
    for (uint32_t i = 0; i < setup.level_count; i++) {
        setup.levels[i].width = 2 + 2 * below(random, 2);
        setup.levels[i].options = below(random, 8);
    }
    setup.slave_count = 1 + below(random, 5);
    uint32_t base = below(random, 3) * 4;
    for (uint32_t i = 0; i < setup.slave_count; i++) {
        struct mc_slave_row *row = &setup.slaves[i];
        row->space = below(random, 2);
        row->base = base;
        row->length = 4 * (1 + below(random, below(random, 4) == 0 ? 120 : 8));
        row->port = UINT32_C(1) << below(random, 3);
        row->time = random_time(random);
        base += row->length + 4 * below(random, 2);
    }
    if (below(random, 4) == 0) { /* up against the end of the space */
        struct mc_slave_row *row = &setup.slaves[setup.slave_count - 1];
        row->base = (row->space == MC_IO ? MC_IO_END : MC_MEMORY_END) - row->length;
    }
    return setup;
}

/* A request that is mostly good, and near the edges. */
static inline struct mc_request random_request(struct random *random, const struct mc_setup *setup)
{
    const struct mc_slave_row *row = &setup->slaves[below(random, setup->slave_count)];
    uint32_t at = below(random, row->length);
    uint32_t length = 1 + below(random, row->length - at);
    struct mc_request request = {
        .space = row->space, .address = row->base + at, .length = length};
    request.level = setup->levels[below(random, setup->level_count)].level;
    request.direction = below(random, 2);
    request.offset = below(random, setup->master_length);
    if (length > setup->master_length - request.offset && below(random, 8) != 0)
        request.length = setup->master_length - request.offset;
    uint32_t *fields[] = {&request.level, &request.direction, &request.space, &request.address,
                          &request.length, &request.offset};
    if (below(random, 10) == 0) {
        uint32_t *field = fields[below(random, 6)];
        *field = below(random, 2) ? draw(random) : below(random, 20);
    }
    return request;
}

#endif
