#include "inside.h"

#include <string.h>

/*
 * The step is written once, as small functions, and used by mc_step, both runs
 * and the image.  A run is fast when they all become part of its loop, so that
 * the state of the running tenure stays in registers.
 */

INLINE uint32_t smaller(uint32_t a, uint32_t b)
{
    return a < b ? a : b;
}

static uint32_t level_bit(uint32_t level)
{
    return UINT32_C(1) << level;
}

/* ---- The frame --------------------------------------------------------- */

static bool is_width(uint32_t width)
{
    return width == 2 || width == 4;
}

static bool is_port(uint32_t port)
{
    return port == 1 || port == 2 || port == 4;
}

static bool is_count(uint32_t count, uint32_t most)
{
    return count >= 1 && count <= most;
}

/* Row i against the frame and the rows before it; level_count must be known. */
static bool level_row_fits(const struct mc_setup *setup, uint32_t i)
{
    const struct mc_level_row *row = &setup->levels[i];
    bool is_last = i + 1 == setup->level_count;

    return row->level < MC_LEVELS
        && (i == 0 || row->level > setup->levels[i - 1].level)
        && (!is_last || row->level == MC_SYSTEM_MASTER)
        && is_width(row->width)
        && row->options <= (MC_BURST | MC_FAIR | MC_LINGER);
}

static uint64_t row_end(const struct mc_slave_row *row)
{
    return (uint64_t)row->base + row->length;
}

static bool rows_overlap(const struct mc_slave_row *a, const struct mc_slave_row *b)
{
    return a->space == b->space && a->base < row_end(b) && b->base < row_end(a);
}

/* Where row i starts in the slave store: after the bytes of the rows before it. */
static uint32_t row_start(const struct mc_setup *setup, uint32_t i)
{
    uint32_t start = 0;
    for (uint32_t k = 0; k < i; k++)
        start += setup->slaves[k].length;
    return start;
}

/* Row i against the frame and the rows before it, which fit. */
static bool slave_row_fits(const struct mc_setup *setup, uint32_t i)
{
    const struct mc_slave_row *row = &setup->slaves[i];

    if (row->space > MC_MEMORY
        || row->base % 4 != 0 || row->length % 4 != 0 || row->length == 0
        || !is_port(row->port)
        || row->time < MC_TIME_MIN || row->time > MC_TIME_MAX)
        return false;
    if (row_end(row) > (row->space == MC_IO ? MC_IO_END : MC_MEMORY_END))
        return false;
    if ((uint64_t)row_start(setup, i) + row->length > MC_STORE_MAX)
        return false;
    for (uint32_t k = 0; k < i; k++)
        if (rows_overlap(row, &setup->slaves[k]))
            return false;
    return true;
}

bool mc_fits_frame(const struct mc_setup *setup)
{
    if (!is_count(setup->level_count, MC_LEVELS)
        || !is_count(setup->slave_count, MC_SLAVES)
        || !is_count(setup->master_length, MC_STORE_MAX))
        return false;
    for (uint32_t i = 0; i < setup->level_count; i++)
        if (!level_row_fits(setup, i))
            return false;
    for (uint32_t i = 0; i < setup->slave_count; i++)
        if (!slave_row_fits(setup, i))
            return false;
    return true;
}

uint32_t mc_slave_length(const struct mc_setup *setup)
{
    return row_start(setup, setup->slave_count);
}

/* The row of a level, or NULL where it isn't in the set-up. */
static const struct mc_level_row *find_level(const struct mc_setup *setup, uint32_t level)
{
    for (uint32_t i = 0; i < setup->level_count; i++)
        if (setup->levels[i].level == level)
            return &setup->levels[i];
    return NULL;
}

/* The row that wholly holds a range, or NULL; the sums are 64 bits wide, so none wraps. */
static const struct mc_slave_row *find_slave(const struct mc_setup *setup, uint32_t space,
                                             uint32_t address, uint32_t length)
{
    for (uint32_t i = 0; i < setup->slave_count; i++) {
        const struct mc_slave_row *row = &setup->slaves[i];
        if (row->space == space && row->base <= address
            && (uint64_t)address + length <= row_end(row))
            return row;
    }
    return NULL;
}

/* Bit n: level n is in the set-up with all of these options. */
static uint32_t levels_with(const struct mc_setup *setup, uint32_t options)
{
    uint32_t levels = 0;
    for (uint32_t i = 0; i < setup->level_count; i++)
        if ((setup->levels[i].options & options) == options)
            levels |= level_bit(setup->levels[i].level);
    return levels;
}

/* ---- Cycles ------------------------------------------------------------ */

const uint8_t mc_cycle_lengths[3][4][4] = {
    {{1, 1, 1, 1}, {1, 1, 1, 1}, {1, 1, 1, 1}, {1, 1, 1, 1}}, /* Q = 1 */
    {{1, 2, 2, 2}, {1, 1, 1, 1}, {1, 2, 2, 2}, {1, 1, 1, 1}}, /* Q = 2 */
    {{1, 2, 3, 4}, {1, 2, 3, 3}, {1, 2, 2, 2}, {1, 1, 1, 1}}, /* Q = 4 */
};

/*
 * Q, the smaller of W and P, is kept as its logarithm: a division by Q is then a
 * shift.  For 1, 2 and 4 the logarithm is half the number, rounded down.
 */
static uint32_t log_of_q(uint32_t width, uint32_t port)
{
    return smaller(width, port) / 2;
}

/* Cycles of a range; address + length must not pass 32 bits. */
INLINE uint32_t cycles_of(uint32_t address, uint32_t length, uint32_t q_log)
{
    return ((address + length - 1) >> q_log) - (address >> q_log) + 1;
}

/*
 * Cycles of the transfer that goes on or starts at this address: it ends at the
 * next multiple of W or with the request.
 */
INLINE uint32_t transfer_cycles(uint32_t address, uint32_t left, uint32_t width, uint32_t q_log)
{
    return cycles_of(address, smaller(left, width - (address & (width - 1))), q_log);
}

enum mc_refusal mc_count_cycles(uint32_t address, uint32_t length, uint32_t width, uint32_t port,
                                uint32_t *cycles)
{
    *cycles = 0;
    if (length == 0 || length > MC_LENGTH_MAX || !is_width(width) || !is_port(port))
        return MC_BAD_NUMBER;
    if ((uint64_t)address + length > MC_MEMORY_END)
        return MC_OUTSIDE_SLAVE;
    *cycles = cycles_of(address, length, log_of_q(width, port));
    return MC_OK;
}

/* ---- Requests ---------------------------------------------------------- */

/* Refusals 3, 4 and 5, for a post and for the rest of an open request. */
static enum mc_refusal judge_request(const struct mc_setup *setup, const struct mc_request *request)
{
    if (request->length == 0 || request->length > MC_LENGTH_MAX
        || request->direction > MC_WRITE || request->space > MC_MEMORY)
        return MC_BAD_NUMBER;
    if (find_slave(setup, request->space, request->address, request->length) == NULL)
        return MC_OUTSIDE_SLAVE;
    if ((uint64_t)request->offset + request->length > setup->master_length)
        return MC_OUTSIDE_MASTER;
    return MC_OK;
}

/* The rest of a level's request. */
static struct mc_request get_request(const struct mc_channel *channel, uint32_t level)
{
    return (struct mc_request){
        .level = level,
        .direction = channel->direction[level],
        .space = channel->space[level],
        .address = channel->address[level],
        .length = channel->left[level],
        .offset = channel->offset[level],
    };
}

static void put_request(struct mc_channel *channel, const struct mc_request *request)
{
    channel->direction[request->level] = request->direction;
    channel->space[request->level] = request->space;
    channel->address[request->level] = request->address;
    channel->left[request->level] = request->length;
    channel->offset[request->level] = request->offset;
}

/* Bit n: level n has an open request. */
static uint32_t open_levels(const struct mc_channel *channel)
{
    uint32_t levels = 0;
    for (uint32_t level = 0; level < MC_LEVELS; level++)
        if (channel->left[level] != 0)
            levels |= level_bit(level);
    return levels;
}

/* ---- Unsound channels -------------------------------------------------- */

/*
 * Each clause stands by itself: it may be asked of any channel, and says nothing
 * where only another clause is broken.
 */

static bool is_granted(const struct mc_channel *channel)
{
    return channel->phase == MC_GRANTED;
}

/* The bit of the owner; none while arbitrating. */
static uint32_t owner_of(const struct mc_channel *channel)
{
    return is_granted(channel) && channel->owner < MC_LEVELS ? level_bit(channel->owner) : 0;
}

static bool owner_has_request(const struct mc_channel *channel)
{
    return (owner_of(channel) & open_levels(channel)) != 0;
}

/* -PREEMPT: some level but the owner has an open request and isn't inactive. */
INLINE bool line_is_active(uint32_t open, uint32_t inactive, uint32_t owner)
{
    return (open & ~inactive & ~owner) != 0;
}

static bool channel_line(const struct mc_channel *channel)
{
    return line_is_active(open_levels(channel), channel->inactive, owner_of(channel));
}

static bool granted_to_absent(const struct mc_setup *setup, const struct mc_channel *channel)
{
    return is_granted(channel) && find_level(setup, channel->owner) == NULL;
}

static bool granted_without_request(const struct mc_channel *channel)
{
    return is_granted(channel) && channel->owner != MC_SYSTEM_MASTER
        && !owner_has_request(channel);
}

static bool granted_to_inactive(const struct mc_channel *channel)
{
    return (owner_of(channel) & channel->inactive) != 0;
}

static bool request_at_absent(const struct mc_setup *setup, const struct mc_channel *channel)
{
    return (open_levels(channel) & ~levels_with(setup, 0)) != 0;
}

static bool rest_is_refused(const struct mc_setup *setup, const struct mc_channel *channel)
{
    for (uint32_t level = 0; level < MC_LEVELS; level++) {
        struct mc_request rest = get_request(channel, level);
        if (rest.length != 0 && judge_request(setup, &rest) != MC_OK)
            return true;
    }
    return false;
}

static bool mark_at_absent(const struct mc_setup *setup, const struct mc_channel *channel)
{
    return (channel->inactive & ~levels_with(setup, 0)) != 0;
}

static bool mark_at_unfair(const struct mc_setup *setup, const struct mc_channel *channel)
{
    return (channel->inactive & levels_with(setup, 0) & ~levels_with(setup, MC_FAIR)) != 0;
}

static bool mark_without_line(const struct mc_channel *channel)
{
    return channel->inactive != 0 && !channel_line(channel);
}

static bool clock_above_limit(const struct mc_channel *channel)
{
    return channel->clock > MC_CLOCK_LIMIT;
}

/* Before the first grant there are only posts, which take no time and mark nobody. */
static bool used_without_grant(const struct mc_channel *channel)
{
    return !channel->ever
        && (is_granted(channel) || channel->inactive != 0 || channel->clock > 0);
}

static bool asked_while_arbitrating(const struct mc_channel *channel)
{
    return channel->phase == MC_ARBITRATING && channel->has_asked;
}

static bool asked_without_line(const struct mc_channel *channel)
{
    return is_granted(channel) && channel->has_asked && !channel_line(channel);
}

static bool line_without_asked(const struct mc_channel *channel)
{
    return is_granted(channel) && !channel->has_asked && channel_line(channel);
}

static bool asked_after_clock(const struct mc_channel *channel)
{
    return channel->has_asked && channel->asked > channel->clock;
}

/* The running or next transfer would end more than 7,800 ns after the asked time. */
static bool transfer_ends_late(const struct mc_setup *setup, const struct mc_channel *channel)
{
    if (!channel->has_asked || !owner_has_request(channel))
        return false;
    struct mc_request rest = get_request(channel, channel->owner);
    const struct mc_level_row *level = find_level(setup, rest.level);
    const struct mc_slave_row *slave = find_slave(setup, rest.space, rest.address, rest.length);
    if (level == NULL || slave == NULL)
        return false;
    uint32_t cycles = transfer_cycles(rest.address, rest.length, level->width,
                                      log_of_q(level->width, slave->port));
    uint64_t end = (uint64_t)channel->clock + (uint64_t)cycles * slave->time;
    return end > (uint64_t)channel->asked + MC_PREEMPT_TIME;
}

/* 15 without a request releases at once, so no time passes after the asking. */
static bool idle_owner_asked_earlier(const struct mc_channel *channel)
{
    return is_granted(channel) && channel->owner == MC_SYSTEM_MASTER
        && !owner_has_request(channel)
        && channel->has_asked && channel->asked != channel->clock;
}

/* Not of the document but of this layout: a phase of neither name. */
static bool phase_is_unknown(const struct mc_channel *channel)
{
    return channel->phase != MC_ARBITRATING && channel->phase != MC_GRANTED;
}

/* Likewise: something in the slot of a level without a request. */
static bool empty_slot_is_dirty(const struct mc_channel *channel)
{
    for (uint32_t level = 0; level < MC_LEVELS; level++)
        if (channel->left[level] == 0
            && (channel->direction[level] | channel->space[level]
                | channel->address[level] | channel->offset[level]) != 0)
            return true;
    return false;
}

bool mc_is_unsound(const struct mc_setup *setup, const struct mc_channel *channel)
{
    return phase_is_unknown(channel)
        || empty_slot_is_dirty(channel)
        || granted_to_absent(setup, channel)
        || granted_without_request(channel)
        || granted_to_inactive(channel)
        || request_at_absent(setup, channel)
        || rest_is_refused(setup, channel)
        || mark_at_absent(setup, channel)
        || mark_at_unfair(setup, channel)
        || mark_without_line(channel)
        || clock_above_limit(channel)
        || used_without_grant(channel)
        || asked_while_arbitrating(channel)
        || asked_without_line(channel)
        || line_without_asked(channel)
        || asked_after_clock(channel)
        || transfer_ends_late(setup, channel)
        || idle_owner_asked_earlier(channel);
}

/* Refusal 9 of a post, a step, a run and a question. */
static enum mc_refusal check_channel(const struct mc_setup *setup, const struct mc_channel *channel)
{
    return mc_fits_frame(setup) && !mc_is_unsound(setup, channel) ? MC_OK : MC_UNSOUND;
}

enum mc_refusal mc_check_step(const struct mc_setup *setup, const struct mc_channel *channel,
                              const struct mc_stores *stores)
{
    enum mc_refusal refusal = check_channel(setup, channel);
    if (refusal != MC_OK)
        return refusal;
    if (stores->slave_length != mc_slave_length(setup)
        || stores->master_length != setup->master_length)
        return MC_STORE_DIFFERS;
    return MC_OK;
}

enum mc_refusal mc_check_run(const struct mc_setup *setup, const struct mc_channel *channel,
                             const struct mc_stores *stores, uint32_t budget)
{
    enum mc_refusal refusal = mc_check_step(setup, channel, stores);
    if (refusal != MC_OK)
        return refusal;
    return budget > MC_STEPS_MAX ? MC_TOO_MANY_STEPS : MC_OK;
}

/* ---- The line rule ----------------------------------------------------- */

/* All but the requests: what the line rule reads and sets, and whether there was a grant. */
struct bus {
    uint32_t open;      /* bit n: level n has an open request */
    uint32_t inactive;  /* bit n: level n is inactive */
    uint32_t owner;     /* the owner's level and its bit; both 0 while arbitrating */
    uint32_t owner_bit;
    bool has_asked;
    uint32_t asked;
    bool ever;
    uint32_t clock;
};

static struct bus get_bus(const struct mc_channel *channel)
{
    return (struct bus){
        .open = open_levels(channel),
        .inactive = channel->inactive,
        .owner = is_granted(channel) ? channel->owner : 0,
        .owner_bit = owner_of(channel),
        .has_asked = channel->has_asked,
        .asked = channel->asked,
        .ever = channel->ever,
        .clock = channel->clock,
    };
}

/* All but the requests, which have slots of their own. */
INLINE void put_bus(struct mc_channel *channel, const struct bus *bus)
{
    channel->inactive = (uint16_t)bus->inactive;
    channel->phase = bus->owner_bit != 0 ? MC_GRANTED : MC_ARBITRATING;
    channel->owner = bus->owner;
    channel->has_asked = bus->has_asked;
    channel->asked = bus->has_asked ? bus->asked : 0;
    channel->ever = bus->ever;
    channel->clock = bus->clock;
}

INLINE bool bus_line(const struct bus *bus)
{
    return line_is_active(bus->open, bus->inactive, bus->owner_bit);
}

INLINE void apply_line_rule(struct bus *bus)
{
    if (!bus_line(bus))
        bus->inactive = 0;
    if (bus->owner_bit == 0)
        bus->has_asked = false;
    else if (!bus->has_asked && bus_line(bus)) {
        bus->has_asked = true;
        bus->asked = bus->clock;
    }
}

/* ---- The engine: a checked channel, unpacked for stepping --------------- */

/* Where the bytes of a level's request go; the same for all of its tenures. */
struct route {
    uint32_t options;
    uint32_t width;
    uint32_t port;
    uint32_t q_log;
    uint32_t time;
    uint32_t base;  /* of the slave row */
    uint32_t start; /* of the slave row in the slave store */
};

struct routes {
    uint32_t known; /* bit n: level n has been looked up */
    struct route of[MC_LEVELS];
};

/*
 * While a level owns the channel, the rest of its request is here and its slot
 * in the channel waits to be written back.  left 0: owner without a request.
 */
struct tenure {
    uint32_t direction;
    uint32_t address;
    uint32_t left;
    const uint8_t *from; /* the next byte in one store */
    uint8_t *to;         /* and its place in the other */
    struct route route;
};

struct engine {
    const struct mc_setup *setup;
    struct mc_channel *channel;
    uint8_t *slave;
    uint8_t *master;
    struct routes *routes;
    struct bus bus;
    struct tenure tenure;
};

static void find_route(const struct mc_setup *setup, const struct mc_channel *channel,
                       struct routes *routes, uint32_t level)
{
    struct mc_request rest = get_request(channel, level);
    const struct mc_level_row *row = find_level(setup, level);
    const struct mc_slave_row *slave = find_slave(setup, rest.space, rest.address, rest.length);

    routes->of[level] = (struct route){
        .options = row->options,
        .width = row->width,
        .port = slave->port,
        .q_log = log_of_q(row->width, slave->port),
        .time = slave->time,
        .base = slave->base,
        .start = row_start(setup, (uint32_t)(slave - setup->slaves)),
    };
    routes->known |= level_bit(level);
}

/* The owner's request, from its slot. */
INLINE void read_slot(struct engine *engine)
{
    struct tenure *tenure = &engine->tenure;
    uint32_t owner = engine->bus.owner;
    tenure->left = 0;
    if ((engine->bus.open & engine->bus.owner_bit) == 0)
        return;
    if ((engine->routes->known & engine->bus.owner_bit) == 0)
        find_route(engine->setup, engine->channel, engine->routes, owner);

    const struct route *route = &tenure->route;
    tenure->route = engine->routes->of[owner];
    tenure->direction = engine->channel->direction[owner];
    tenure->address = engine->channel->address[owner];
    tenure->left = engine->channel->left[owner];
    uint8_t *slave = engine->slave + route->start + (tenure->address - route->base);
    uint8_t *master = engine->master + engine->channel->offset[owner];
    tenure->from = tenure->direction == MC_READ ? slave : master;
    tenure->to = tenure->direction == MC_READ ? master : slave;
}

/* The owner's slot, from its tenure; a request that is done leaves an empty slot. */
INLINE void write_slot(const struct engine *engine)
{
    struct mc_channel *channel = engine->channel;
    const struct tenure *tenure = &engine->tenure;
    uint32_t owner = engine->bus.owner;
    if (tenure->left == 0) {
        put_request(channel, &(struct mc_request){.level = owner});
        return;
    }
    const uint8_t *master = tenure->direction == MC_READ ? tenure->to : tenure->from;
    channel->address[owner] = tenure->address;
    channel->left[owner] = tenure->left;
    channel->offset[owner] = (uint32_t)(master - engine->master);
}

INLINE void load(struct engine *engine, const struct mc_setup *setup, struct mc_channel *channel,
               const struct mc_stores *stores, struct routes *routes)
{
    routes->known = 0;
    *engine = (struct engine){
        .setup = setup,
        .channel = channel,
        .slave = stores->slave,
        .master = stores->master,
        .routes = routes,
        .bus = get_bus(channel),
    };
    if (engine->bus.owner_bit != 0)
        read_slot(engine);
}

INLINE void save(const struct engine *engine)
{
    if (engine->bus.owner_bit != 0)
        write_slot(engine);
    put_bus(engine->channel, &engine->bus);
}

/* ---- One step ---------------------------------------------------------- */

/*
 * The line rule comes after each step.  It is called where a step changes what
 * the line is judged by, at a grant and a release; after any other step it would
 * find its work done.
 */

/*
 * An entry with nothing but its kind, clock and level.  Set field by field: a
 * whole literal would keep the entry of a plain run in memory.
 */
INLINE void start_entry(struct mc_entry *entry, enum mc_entry_kind kind, uint32_t clock,
                      uint32_t level)
{
    entry->kind = kind;
    entry->clock = clock;
    entry->level = level;
    entry->address = 0;
    entry->bytes = 0;
    entry->direction = 0;
    entry->master_lane = 0;
    entry->slave_lane = 0;
    entry->ending = MC_KEPT;
    entry->has_hold = false;
    entry->hold = 0;
}

INLINE bool clock_would_pass(const struct bus *bus, uint32_t time)
{
    return time > MC_CLOCK_LIMIT - bus->clock;
}

/* The lowest-numbered of some levels, at least one, without a loop. */
INLINE uint32_t lowest_level(uint32_t levels)
{
    uint32_t level = 0;
    if ((levels & 0xFF) == 0) {
        level += 8;
        levels >>= 8;
    }
    if ((levels & 0xF) == 0) {
        level += 4;
        levels >>= 4;
    }
    if ((levels & 3) == 0) {
        level += 2;
        levels >>= 2;
    }
    return level + ((levels & 1) == 0);
}

/*
 * Only the first after set-up comes without a release before it.  The flag says
 * so and not the clock, which may be 0 in a channel that was granted before.
 */
INLINE uint32_t arbitration_time(const struct bus *bus)
{
    return bus->ever ? MC_TO_ARB_TIME + MC_ARBITRATION_TIME : MC_ARBITRATION_TIME;
}

/* Of the levels with an open request and no mark the lowest-numbered; with none, 15. */
INLINE uint32_t winner_of(const struct bus *bus)
{
    uint32_t contenders = bus->open & ~bus->inactive;
    return contenders != 0 ? lowest_level(contenders) : MC_SYSTEM_MASTER;
}

INLINE enum mc_refusal arbitrate(struct engine *engine, struct mc_entry *entry)
{
    struct bus *bus = &engine->bus;
    uint32_t time = arbitration_time(bus);
    if (clock_would_pass(bus, time))
        return MC_CLOCK_FULL;

    bus->owner = winner_of(bus);
    bus->owner_bit = level_bit(bus->owner);
    bus->ever = true;
    bus->clock += time;
    start_entry(entry, MC_GRANT, bus->clock, bus->owner);
    read_slot(engine);
    apply_line_rule(bus);
    return MC_OK;
}

/* The entry gets what a release shows besides its line. */
INLINE void release(struct engine *engine, struct mc_entry *entry)
{
    struct bus *bus = &engine->bus;
    entry->has_hold = bus->has_asked;
    entry->hold = bus->has_asked ? bus->clock - bus->asked : 0;
    write_slot(engine);
    if (engine->tenure.left == 0)
        bus->open &= ~bus->owner_bit;
    bus->owner = 0;
    bus->owner_bit = 0;
    apply_line_rule(bus);
}

/* 15 without a request: it gives way and isn't marked, or nothing changes. */
INLINE void give_way_or_idle(struct engine *engine, struct mc_entry *entry)
{
    const struct bus *bus = &engine->bus;
    if (bus_line(bus)) {
        start_entry(entry, MC_RELEASE, bus->clock, bus->owner);
        release(engine, entry);
    } else
        start_entry(entry, MC_IDLE, bus->clock, 0);
}

/* One to four bytes; the copies of fixed length are single moves. */
INLINE void copy_bytes(uint8_t *to, const uint8_t *from, uint32_t count)
{
    switch (count) {
    case 4:
        memcpy(to, from, 4);
        break;
    case 3:
        memcpy(to, from, 3);
        break;
    case 2:
        memcpy(to, from, 2);
        break;
    default:
        *to = *from;
        break;
    }
}

/*
 * The bytes of the next cycle.  Most cycles move Q bytes, and to see that needs
 * no wait for the table.
 */
INLINE uint32_t cycle_bytes(const struct tenure *tenure)
{
    uint32_t q = UINT32_C(1) << tenure->route.q_log;
    if ((tenure->address & (q - 1)) == 0 && tenure->left >= q)
        return q;
    return mc_cycle_lengths[tenure->route.q_log][tenure->address % 4]
                           [smaller(tenure->left, 4) - 1];
}

/* The bytes move at once or, where later is lent, are left to it. */
INLINE void pass_bytes(struct tenure *tenure, uint32_t bytes, struct mc_move *later)
{
    if (later != NULL)
        *later = (struct mc_move){.to = tenure->to, .from = tenure->from, .bytes = bytes};
    else
        copy_bytes(tenure->to, tenure->from, bytes);
    tenure->from += bytes;
    tenure->to += bytes;
    tenure->address += bytes;
    tenure->left -= bytes;
}

INLINE bool transfer_ended(const struct tenure *tenure)
{
    return tenure->left == 0 || (tenure->address & (tenure->route.width - 1)) == 0;
}

/* Asked at the end of a transfer.  No sum passes 32 bits: the clock has a limit. */
INLINE bool owner_releases(const struct tenure *tenure, const struct bus *bus)
{
    const struct route *route = &tenure->route;
    if (tenure->left == 0 || (route->options & MC_BURST) == 0)
        return true;
    if (!bus->has_asked)
        return false;
    if ((route->options & MC_LINGER) == 0)
        return true;
    uint32_t cycles = transfer_cycles(tenure->address, tenure->left, route->width, route->q_log);
    return bus->clock + cycles * route->time > bus->asked + MC_PREEMPT_TIME;
}

INLINE enum mc_refusal run_cycle(struct engine *engine, struct mc_entry *entry,
                                 struct mc_move *later)
{
    struct bus *bus = &engine->bus;
    struct tenure *tenure = &engine->tenure;
    const struct route *route = &tenure->route;
    if (clock_would_pass(bus, route->time))
        return MC_CLOCK_FULL;

    uint32_t bytes = cycle_bytes(tenure);
    bus->clock += route->time;
    start_entry(entry, MC_CYCLE, bus->clock, bus->owner);
    entry->address = tenure->address;
    entry->bytes = bytes;
    entry->direction = tenure->direction;
    entry->master_lane = tenure->address & (route->width - 1);
    entry->slave_lane = tenure->address & (route->port - 1);

    pass_bytes(tenure, bytes, later);

    /* Nothing is released inside a transfer. */
    if (transfer_ended(tenure) && owner_releases(tenure, bus)) {
        entry->ending = MC_RELEASED;
        if (bus->has_asked && (route->options & MC_FAIR) != 0) {
            entry->ending = MC_MARKED;
            bus->inactive |= bus->owner_bit;
        }
        release(engine, entry);
    }
    return MC_OK;
}

/* One step; a refused one changes nothing. */
INLINE enum mc_refusal advance(struct engine *engine, struct mc_entry *entry,
                               struct mc_move *later)
{
    if (engine->bus.owner_bit == 0)
        return arbitrate(engine, entry);
    if (engine->tenure.left != 0)
        return run_cycle(engine, entry, later);
    give_way_or_idle(engine, entry);
    return MC_OK;
}

/* ---- The tally --------------------------------------------------------- */

INLINE uint32_t add_up(uint32_t figure, uint32_t more)
{
    return more > UINT32_MAX - figure ? UINT32_MAX : figure + more;
}

INLINE struct mc_tally add_entry(struct mc_tally tally, const struct mc_entry *entry)
{
    if (entry->kind == MC_GRANT)
        tally.grants = add_up(tally.grants, 1);
    if (entry->kind == MC_CYCLE) {
        tally.cycles = add_up(tally.cycles, 1);
        tally.bytes = add_up(tally.bytes, entry->bytes);
    }
    if (entry->has_hold && entry->hold > tally.hold)
        tally.hold = entry->hold;
    return tally;
}

struct mc_tally mc_add_entry(struct mc_tally tally, const struct mc_entry *entry)
{
    return add_entry(tally, entry);
}

/* ---- The calls --------------------------------------------------------- */

enum mc_refusal mc_set_up(const struct mc_setup *setup, struct mc_channel *channel)
{
    *channel = (struct mc_channel){.phase = MC_ARBITRATING};
    return mc_fits_frame(setup) ? MC_OK : MC_UNSOUND;
}

enum mc_refusal mc_post(const struct mc_setup *setup, struct mc_channel *channel,
                        const struct mc_request *request)
{
    enum mc_refusal refusal = check_channel(setup, channel);
    if (refusal != MC_OK)
        return refusal;
    if (find_level(setup, request->level) == NULL)
        return MC_LEVEL_ABSENT;
    if (channel->left[request->level] != 0)
        return MC_LEVEL_OPEN;
    refusal = judge_request(setup, request);
    if (refusal != MC_OK)
        return refusal;

    put_request(channel, request);
    struct bus bus = get_bus(channel);
    apply_line_rule(&bus);
    put_bus(channel, &bus);
    return MC_OK;
}

/* One step of a checked channel. */
INLINE enum mc_refusal take_step(const struct mc_setup *setup, struct mc_channel *channel,
                                 const struct mc_stores *stores, struct mc_entry *entry,
                                 struct mc_move *later)
{
    struct engine engine;
    struct routes routes;
    load(&engine, setup, channel, stores, &routes);
    enum mc_refusal refusal = advance(&engine, entry, later);
    if (refusal == MC_OK)
        save(&engine);
    return refusal;
}

enum mc_refusal mc_step(const struct mc_setup *setup, struct mc_channel *channel,
                        const struct mc_stores *stores, struct mc_tally *tally,
                        struct mc_entry *entry)
{
    enum mc_refusal refusal = mc_check_step(setup, channel, stores);
    if (refusal != MC_OK)
        return refusal;

    struct mc_entry made;
    refusal = take_step(setup, channel, stores, &made, NULL);
    if (refusal != MC_OK)
        return refusal;
    if (tally != NULL)
        *tally = add_entry(*tally, &made);
    if (entry != NULL)
        *entry = made;
    return MC_OK;
}

enum mc_refusal mc_decide_step(const struct mc_setup *setup, struct mc_channel *channel,
                               const struct mc_stores *stores, struct mc_entry *entry,
                               struct mc_move *later)
{
    later->bytes = 0;
    return take_step(setup, channel, stores, entry, later);
}

void mc_move_bytes(const struct mc_move *move)
{
    if (move->bytes != 0)
        copy_bytes(move->to, move->from, move->bytes);
}

/* Both runs; watch is NULL or not at compile time, so the plain run makes no entries. */
INLINE struct mc_run_result run(const struct mc_setup *setup, struct mc_channel *channel,
                              const struct mc_stores *stores, struct mc_tally *tally,
                              uint32_t budget, mc_watch *watch, void *context)
{
    struct mc_run_result result = {.refusal = mc_check_run(setup, channel, stores, budget)};
    if (result.refusal != MC_OK)
        return result;

    struct engine engine;
    struct routes routes;
    load(&engine, setup, channel, stores, &routes);
    struct mc_tally sum = tally != NULL ? *tally : (struct mc_tally){0};
    while (result.steps < budget) {
        struct mc_entry entry;
        result.refusal = advance(&engine, &entry, NULL);
        if (result.refusal != MC_OK)
            break;
        result.steps++;
        sum = add_entry(sum, &entry);
        if (watch != NULL)
            watch(context, &entry);
    }
    save(&engine);
    if (tally != NULL)
        *tally = sum;
    return result;
}

struct mc_run_result mc_run(const struct mc_setup *setup, struct mc_channel *channel,
                            const struct mc_stores *stores, struct mc_tally *tally,
                            uint32_t budget)
{
    return run(setup, channel, stores, tally, budget, NULL, NULL);
}

struct mc_run_result mc_run_watched(const struct mc_setup *setup, struct mc_channel *channel,
                                    const struct mc_stores *stores, struct mc_tally *tally,
                                    uint32_t budget, mc_watch *watch, void *context)
{
    return run(setup, channel, stores, tally, budget, watch, context);
}

/* ---- Why a level waits ------------------------------------------------- */

/*
 * The first reason that is true, of a checked channel.  Where a test is reached,
 * all reasons before it are false, so the last two are of a level that contends
 * in the arbitration to come.
 */
static struct mc_told find_reason(const struct mc_setup *setup, const struct mc_channel *channel,
                                  uint32_t level)
{
    if (find_level(setup, level) == NULL)
        return (struct mc_told){.reason = MC_NOT_PRESENT};

    /* From here on it is a level, and has a bit. */
    struct bus bus = get_bus(channel);
    uint32_t bit = level_bit(level);
    if ((bus.open & bit) == 0)
        return (struct mc_told){.reason = MC_NO_REQUEST};
    if (bus.owner_bit == bit)
        return (struct mc_told){.reason = MC_OWNS};
    if ((bus.inactive & bit) != 0)
        return (struct mc_told){.reason = MC_INACTIVE};
    if (bus.owner_bit != 0)
        return (struct mc_told){.reason = MC_HOLDS, .level = bus.owner};
    uint32_t winner = winner_of(&bus);
    if (winner != level)
        return (struct mc_told){.reason = MC_OUTRANKED, .level = winner};
    return (struct mc_told){.reason = MC_WINS_NEXT};
}

struct mc_told mc_why(const struct mc_setup *setup, const struct mc_channel *channel,
                      uint32_t level)
{
    enum mc_refusal refusal = check_channel(setup, channel);
    if (refusal != MC_OK)
        return (struct mc_told){.refusal = refusal};
    return find_reason(setup, channel, level);
}

/* ---- The job sheet ----------------------------------------------------- */

/*
 * One judge reads both forms, a sheet's bytes or a list's numbers.  It keeps the
 * first fault; after that, numbers read as 0 and later faults are dropped, so
 * the reading order is the order of the code.
 */
struct judge {
    const uint8_t *bytes;  /* the sheet, or NULL where a list is judged */
    const uint32_t *list;
    size_t end;
    size_t at;             /* place of the next number */
    size_t result_length;  /* of what has been read, in the other form */
    enum mc_refusal refusal;
    size_t place;
};

static void set_fault(struct judge *judge, enum mc_refusal refusal, size_t place)
{
    if (judge->refusal != MC_OK)
        return;
    judge->refusal = refusal;
    judge->place = place;
}

/* Reads a number of at most left bytes; gives the bytes it took, or 0 and the refusal. */
static size_t decode(const uint8_t *bytes, size_t left, uint32_t *value, enum mc_refusal *refusal)
{
    *value = 0;
    for (size_t i = 0; i < GROUPS_MAX; i++) {
        if (i == left) {
            *refusal = MC_SHEET_ENDS;
            return 0;
        }
        bool is_past_largest = i == GROUPS_MAX - 1 && bytes[i] > LAST_GROUP_MAX;
        bool is_longer_than_due = i > 0 && bytes[i] == 0;
        if (is_past_largest || is_longer_than_due)
            break;
        *value |= (uint32_t)(bytes[i] & (MORE - 1)) << (GROUP_BITS * i);
        if (bytes[i] < MORE)
            return i + 1;
    }
    *refusal = MC_SHEET_NUMBER;
    return 0;
}

static size_t encoded_length(uint32_t value)
{
    size_t length = 1;
    while (value >= MORE) {
        value >>= GROUP_BITS;
        length++;
    }
    return length;
}

static uint32_t take_from_sheet(struct judge *judge)
{
    uint32_t value;
    enum mc_refusal refusal;
    size_t taken = decode(judge->bytes + judge->at, judge->end - judge->at, &value, &refusal);
    if (taken == 0) {
        set_fault(judge, refusal, judge->at);
        return 0;
    }
    judge->at += taken;
    judge->result_length++;
    return value;
}

static uint32_t take_from_list(struct judge *judge)
{
    if (judge->at == judge->end) {
        set_fault(judge, MC_SHEET_ENDS, judge->at);
        return 0;
    }
    uint32_t value = judge->list[judge->at++];
    judge->result_length += encoded_length(value);
    return value;
}

/* The next number. */
static uint32_t take(struct judge *judge)
{
    if (judge->refusal != MC_OK)
        return 0;
    return judge->bytes != NULL ? take_from_sheet(judge) : take_from_list(judge);
}

/* The next number, judged when read: it must be from least to most. */
static uint32_t take_between(struct judge *judge, uint32_t least, uint32_t most,
                             enum mc_refusal refusal)
{
    size_t place = judge->at;
    uint32_t value = take(judge);
    if (value < least || value > most)
        set_fault(judge, refusal, place);
    return value;
}

/* A row is judged when all its numbers are read, and its fault is at the first of them. */
static void judge_levels(struct judge *judge, struct mc_setup *setup)
{
    setup->level_count = take_between(judge, 1, MC_LEVELS, MC_SHEET_LEVELS);
    for (uint32_t i = 0; judge->refusal == MC_OK && i < setup->level_count; i++) {
        size_t place = judge->at;
        struct mc_level_row *row = &setup->levels[i];
        row->level = take(judge);
        row->width = take(judge);
        row->options = take(judge);
        if (!level_row_fits(setup, i))
            set_fault(judge, MC_SHEET_LEVELS, place);
    }
}

static void judge_slaves(struct judge *judge, struct mc_setup *setup)
{
    setup->slave_count = take_between(judge, 1, MC_SLAVES, MC_SHEET_SLAVES);
    for (uint32_t i = 0; judge->refusal == MC_OK && i < setup->slave_count; i++) {
        size_t place = judge->at;
        struct mc_slave_row *row = &setup->slaves[i];
        row->space = take(judge);
        row->base = take(judge);
        row->length = take(judge);
        row->port = take(judge);
        row->time = take(judge);
        if (!slave_row_fits(setup, i))
            set_fault(judge, MC_SHEET_SLAVES, place);
    }
}

/* A post's fields may hold any number: the post judges them. */
enum { POST_FIELDS = 6 };

static void judge_events(struct judge *judge)
{
    uint32_t count = take_between(judge, 0, MC_EVENTS_MAX, MC_SHEET_EVENTS);
    for (uint32_t i = 0; judge->refusal == MC_OK && i < count; i++) {
        uint32_t kind = take_between(judge, MC_EVENT_STEPS, MC_EVENT_POST, MC_SHEET_EVENTS);
        if (kind == MC_EVENT_STEPS)
            take_between(judge, 1, MC_STEPS_MAX, MC_SHEET_EVENTS);
        else
            for (int field = 0; field < POST_FIELDS; field++)
                take(judge);
    }
}

/* The whole sheet or list, against the room lent for its other form. */
static struct mc_sheet_result judge_all(struct judge *judge, size_t capacity)
{
    struct mc_setup setup = {0};
    take_between(judge, EDITION, EDITION, MC_SHEET_EDITION);
    judge_levels(judge, &setup);
    judge_slaves(judge, &setup);
    judge_events(judge);
    if (judge->at != judge->end)
        set_fault(judge, MC_SHEET_GOES_ON, judge->at);
    if (judge->result_length > capacity)
        set_fault(judge, MC_RESULT_SHORT, 0);
    return (struct mc_sheet_result){
        .refusal = judge->refusal,
        .place = judge->place,
        .length = judge->refusal == MC_OK ? judge->result_length : 0,
    };
}

struct mc_sheet_result mc_read_sheet(const uint8_t *sheet, size_t length, uint32_t *list,
                                     size_t capacity)
{
    /* An empty sheet may come as NULL, which the judge would take for a list. */
    static const uint8_t nothing = 0;
    struct judge judge = {.bytes = length > 0 ? sheet : &nothing, .end = length};
    struct mc_sheet_result result = judge_all(&judge, capacity);

    for (size_t i = 0, at = 0; i < result.length; i++) {
        enum mc_refusal refusal; /* can't come: the judge has read these numbers */
        at += decode(sheet + at, length - at, &list[i], &refusal);
    }
    return result;
}

struct mc_sheet_result mc_write_sheet(const uint32_t *list, size_t count, uint8_t *sheet,
                                      size_t capacity)
{
    struct judge judge = {.list = list, .end = count};
    struct mc_sheet_result result = judge_all(&judge, capacity);

    for (size_t i = 0, at = 0; at < result.length; i++)
        at += encode(list[i], sheet + at);
    return result;
}

static const uint32_t *slave_count_of(const uint32_t *list)
{
    const uint32_t *level_count = list + LEVEL_COUNT_AT;
    return level_count + 1 + *level_count * LEVEL_FIELDS;
}

static const uint32_t *event_count_of(const uint32_t *list)
{
    const uint32_t *slave_count = slave_count_of(list);
    return slave_count + 1 + *slave_count * SLAVE_FIELDS;
}

void mc_list_setup(const uint32_t *list, uint32_t master_length, struct mc_setup *setup)
{
    const uint32_t *slave_count = slave_count_of(list);
    *setup = (struct mc_setup){
        .level_count = list[LEVEL_COUNT_AT],
        .slave_count = *slave_count,
        .master_length = master_length,
    };
    const uint32_t *next = list + LEVEL_COUNT_AT + 1;
    for (uint32_t i = 0; i < setup->level_count; i++, next += LEVEL_FIELDS)
        setup->levels[i] = (struct mc_level_row){
            .level = next[0], .width = next[1], .options = next[2]};
    next = slave_count + 1;
    for (uint32_t i = 0; i < setup->slave_count; i++, next += SLAVE_FIELDS)
        setup->slaves[i] = (struct mc_slave_row){
            .space = next[0], .base = next[1], .length = next[2], .port = next[3],
            .time = next[4]};
}

struct mc_events mc_list_events(const uint32_t *list)
{
    const uint32_t *event_count = event_count_of(list);
    return (struct mc_events){.next = event_count + 1, .left = *event_count};
}

bool mc_take_event(struct mc_events *events, struct mc_event *event)
{
    if (events->left == 0)
        return false;
    events->left--;
    const uint32_t *field = events->next;
    if (field[0] == MC_EVENT_STEPS) {
        *event = (struct mc_event){.kind = MC_EVENT_STEPS, .steps = field[1]};
        events->next += 2;
    } else {
        *event = (struct mc_event){
            .kind = MC_EVENT_POST,
            .request = {.level = field[1], .direction = field[2], .space = field[3],
                        .address = field[4], .length = field[5], .offset = field[6]}};
        events->next += 1 + POST_FIELDS;
    }
    return true;
}
