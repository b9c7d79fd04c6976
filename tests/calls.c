/*
 * The archive's calls over the image, beside the second program's own calls on its set-up and channel, which know of no
 * image: sequences of both, made from a seed, and all that comes out compared.
 * Usage: calls COUNT SEED.  Prints what was met; fails at the first difference, and where something that a call can meet
 * was not met.
 *
 * Compared after every call: the refusal, the length, the clock, the log entry field by field, the hold, steps done, stop and
 * tally; both stores with the guard bytes around them; and all of the image's memory, the guard bytes before and behind it too.
 * An accepted call leaves the second program's image of its own channel and changes no byte past it; a refused one, and
 * the question why a level waits, changes nothing.  17 and 18, which the second program's own calls don't give, are told here.
 *
 * Not tested: null pointers, ranges that overlap, and calls at the same time from several threads.
 */
#include "image.h"
#include "lobrinkas.h"

#include <stdio.h>
#include <stdlib.h>
#include <string.h>

#define LENGTH(array) (sizeof(array) / sizeof((array)[0]))

_Static_assert(LOBRINKAS_READ == (int)MC_READ && LOBRINKAS_WRITE == (int)MC_WRITE, "directions");
_Static_assert(LOBRINKAS_IO == (int)MC_IO && LOBRINKAS_MEMORY == (int)MC_MEMORY, "spaces");
_Static_assert(LOBRINKAS_BURST == (int)MC_BURST && LOBRINKAS_FAIR == (int)MC_FAIR && LOBRINKAS_LINGER == (int)MC_LINGER, "options");
_Static_assert(LOBRINKAS_NOT_PRESENT == (int)MC_NOT_PRESENT && LOBRINKAS_NO_REQUEST == (int)MC_NO_REQUEST
                   && LOBRINKAS_OWNS == (int)MC_OWNS && LOBRINKAS_INACTIVE == (int)MC_INACTIVE && LOBRINKAS_HOLDS == (int)MC_HOLDS
                   && LOBRINKAS_OUTRANKED == (int)MC_OUTRANKED && LOBRINKAS_WINS_NEXT == (int)MC_WINS_NEXT, "reasons");
_Static_assert(LOBRINKAS_KEPT == (int)MC_KEPT && LOBRINKAS_RELEASED == (int)MC_RELEASED && LOBRINKAS_MARKED == (int)MC_MARKED, "endings");

/* ---- Random numbers ---------------------------------------------------- */

/* xorshift64*: the same sequences on every machine, so no statement may draw twice in an open order. */
static uint64_t state;

static uint32_t any(void)
{
    state ^= state >> 12;
    state ^= state << 25;
    state ^= state >> 27;
    return (uint32_t)((state * UINT64_C(2685821657736338717)) >> 32);
}

static uint32_t below(uint32_t n)
{
    return n == 0 ? 0 : any() % n;
}

static bool one_in(uint32_t n)
{
    return below(n) == 0;
}

/* Each sequence has a stream of its own. */
static void seed_random(uint64_t seed, uint64_t sequence)
{
    state = (seed * UINT64_C(0x9E3779B97F4A7C15) + sequence + 1) * UINT64_C(0xBF58476D1CE4E5B9) | 1;
    for (int i = 0; i < 8; i++)
        any();
}

/* ---- What was met ------------------------------------------------------ */

enum call { SET_UP, POST, STEP, RUN, COUNT, WHY, CALLS };
static const char *const call_names[CALLS] = {"set-up", "post", "step", "run", "cycle count", "why"};

/* Why a level waits, by the numbers that both sides have. */
enum { REASONS = MC_WINS_NEXT + 1 };
static const char *const reason_names[REASONS] = {"not present", "no request", "owns", "inactive", "holds", "outranked", "wins next"};

/* Each kind of step by its own, as each makes an image longer or shorter in its own way. */
enum kind { GRANT, KEPT, RELEASED, MARKED, RELEASE, IDLE, KINDS };
static const char *const kind_names[KINDS] = {"grant", "kept cycle", "releasing cycle", "marking cycle", "release", "idle step"};

enum sight {
    LEAST_SET_UP,
    SHORT_SET_UP,
    LEAST_POST,
    SHORT_POST,
    LEAST_RUN,
    SHORT_RUN,
    STOPPED_FULL,
    ABOVE_MEMORY,
    LARGEST_LENGTH,
    LONGEST_IMAGE,
    CAPPED_TALLY,
    UNSOUND_AND_MALFORMED,
    NEVER_AND_OWNED,
    NEVER_AND_MARKED,
    NEVER_AND_LATER,
    GRANTED_AT_0,
    FULL_AND_OTHER_STORE,
    MANY_AND_OTHER_STORE,
    FULL_AND_NO_ROOM,
    MANY_AND_NO_ROOM,
    SAVED,
    RESTORED,
    RESTORED_IN_TRANSFER,
    RESTORED_ASKED,
    RESTORED_ASKED_AT_0,
    RESTORED_MARKED,
    GONE_ON_TWICE,
    IDLE_OWNER,
    IDLE_WINNER,
    IDLE_HOLDER,
    INACTIVE_AND_HELD,
    MARKED_BELOW,
    CUT_LEVEL,
    FULL_AND_WINS,
    DAMAGED_18,
    DAMAGED_9,
    DAMAGED_SOUND,
    SIGHTS
};
static const char *const sight_names[SIGHTS] = {
    [LEAST_SET_UP] = "set-ups accepted in the least memory",
    [SHORT_SET_UP] = "and refused by 17 in a byte less",
    [LEAST_POST] = "posts accepted in the least memory",
    [SHORT_POST] = "and refused by 17 in a byte less",
    [LEAST_RUN] = "runs in memory for the longest image",
    [SHORT_RUN] = "and refused by 17 in a byte less",
    [STOPPED_FULL] = "runs stopped by 6",
    [ABOVE_MEMORY] = "lengths above the memory",
    [LARGEST_LENGTH] = "the largest length there is",
    [LONGEST_IMAGE] = "images of the longest length",
    [CAPPED_TALLY] = "tallies at their largest",
    [UNSOUND_AND_MALFORMED] = "18 where the image was unsound too",
    [NEVER_AND_OWNED] = "9 for an owner before the first grant alone",
    [NEVER_AND_MARKED] = "for a mark",
    [NEVER_AND_LATER] = "for a clock above 0",
    [GRANTED_AT_0] = "channels at clock 0 and arbitrating that were granted before",
    [FULL_AND_OTHER_STORE] = "8 where the clock was full too",
    [MANY_AND_OTHER_STORE] = "8 where the steps were too many too",
    [FULL_AND_NO_ROOM] = "6 where there was no room either",
    [MANY_AND_NO_ROOM] = "7 where there was no room either",
    [SAVED] = "saves",
    [RESTORED] = "restores",
    [RESTORED_IN_TRANSFER] = "of them inside a transfer",
    [RESTORED_ASKED] = "with an asked time",
    [RESTORED_ASKED_AT_0] = "with an asked time of 0",
    [RESTORED_MARKED] = "with marks",
    [GONE_ON_TWICE] = "stretches of calls gone on with twice from one save",
    [IDLE_OWNER] = "15 told that it has no request while it owns the channel",
    [IDLE_WINNER] = "and while it wins by default",
    [IDLE_HOLDER] = "15 told as the holder without a request",
    [INACTIVE_AND_HELD] = "levels told inactive while another holds",
    [MARKED_BELOW] = "winners told above a marked level with a request",
    [CUT_LEVEL] = "numbers above 15, not present, whose low bits are a level's that is",
    [FULL_AND_WINS] = "levels that win next with a full clock",
    [DAMAGED_18] = "damaged images refused by 18",
    [DAMAGED_9] = "by 9",
    [DAMAGED_SOUND] = "and images all the same",
};

enum { REFUSALS = LOBRINKAS_MALFORMED + 1 };

static struct {
    unsigned long calls[CALLS][REFUSALS];
    unsigned long least_steps[KINDS]; /* accepted in the least memory */
    unsigned long short_steps[KINDS]; /* refused by 17 in a byte less */
    unsigned long reasons[REASONS];
    unsigned long sights[SIGHTS];
} met;

/* ---- Telling a difference ---------------------------------------------- */

static struct {
    unsigned long seed, sequence, number;
    const char *what;
    size_t capacity, length;
} now;

static void differ(const char *what, uint64_t ours, uint64_t theirs)
{
    printf("calls: seed %lu, sequence %lu, call %lu, %s with %zu bytes of memory and a length of %zu: %s: %llu, not %llu\n", now.seed,
           now.sequence, now.number, now.what, now.capacity, now.length, what, (unsigned long long)ours, (unsigned long long)theirs);
    exit(1);
}

static void same(const char *what, uint64_t ours, uint64_t theirs)
{
    if (ours != theirs)
        differ(what, ours, theirs);
}

/* ---- Both machines ----------------------------------------------------- */

/* No row of numbers that has an image's shape is longer: each of its free numbers takes 5 bytes. */
enum { SHAPE_MOST = 1 + 1 + 1 + 3 * 5 * MC_LEVELS + 1 + 5 * 5 * MC_SLAVES + 5 + 1 + 5 + 1 + 6 + 3 + 5 * 5 * MC_LEVELS };
enum { GUARD = 64, IMAGE_ROOM = SHAPE_MOST + 80, IMAGE_BLOCK = GUARD + IMAGE_ROOM + GUARD };

/* A store, guard bytes before it and behind its length; both sides have the same guard bytes, which are compared with it. */
struct store {
    uint8_t block[GUARD + MC_STORE_MAX + GUARD];
};

static struct {
    uint8_t block[IMAGE_BLOCK + 8];
    uint8_t *image; /* somewhere in the block's middle, at any alignment */
    size_t length;
    bool is_malformed; /* the bytes there are no image */
    struct store slave, master;
} ours;

static struct {
    struct mc_setup setup;
    struct mc_channel channel;
    struct mc_tally tally;
    struct mc_entry last; /* of the last step; idle after anything else */
    struct store slave, master;
} theirs;

static const struct mc_entry idle = {.kind = MC_IDLE};

/* As long as the set-up says; a set-up that breaks the frame may say anything. */
static size_t store_length(uint64_t length)
{
    return length > MC_STORE_MAX ? MC_STORE_MAX : (size_t)length;
}

static size_t slave_length(void)
{
    uint64_t length = 0;
    for (uint32_t i = 0; i < theirs.setup.slave_count; i++)
        length += theirs.setup.slaves[i].length;
    return store_length(length);
}

static size_t master_length(void)
{
    return store_length(theirs.setup.master_length);
}

static struct mc_stores their_stores(void)
{
    return (struct mc_stores){theirs.slave.block + GUARD, slave_length(), theirs.master.block + GUARD, master_length()};
}

static void fill(uint8_t *bytes, size_t count)
{
    uint32_t first = any();
    for (size_t i = 0; i < count; i++)
        bytes[i] = (uint8_t)(first + i * 167 + (i >> 8));
}

/* Both sides' stores with the same new bytes, guards too. */
static void fill_stores(void)
{
    size_t slave = GUARD + slave_length() + GUARD, master = GUARD + master_length() + GUARD;
    fill(theirs.slave.block, slave);
    fill(theirs.master.block, master);
    memcpy(ours.slave.block, theirs.slave.block, slave);
    memcpy(ours.master.block, theirs.master.block, master);
}

/* The second program's image of a channel of the set-up, where there is room for any. */
static size_t write_image(const struct mc_channel *channel, uint8_t *image)
{
    return mc_write_image(&theirs.setup, channel, image, IMAGE_ROOM).length;
}

/* Other memory for the image, with anything in it. */
static void move_image(void)
{
    uint8_t image[IMAGE_ROOM];
    memcpy(image, ours.image, ours.length);
    fill(ours.block, sizeof ours.block);
    ours.image = ours.block + GUARD + below(8);
    memcpy(ours.image, image, ours.length);
}

/* Our image is written anew from their side: for channels that no calls lead to. */
static void write_our_image(void)
{
    ours.length = write_image(&theirs.channel, ours.image);
}

/* ---- One call ---------------------------------------------------------- */

static uint8_t before[sizeof ours.block];

/* Before a call: what it is, for telling a difference, and what the memory holds. */
static void begin(enum call call, size_t capacity, size_t length)
{
    now.number++;
    now.what = call_names[call];
    now.capacity = capacity;
    now.length = length;
    memcpy(before, ours.block, sizeof before);
}

/* The image's memory: an accepted call's image at its start, and all else as it was. Gives the length of the image. */
static size_t compare_image(bool is_accepted)
{
    size_t start = (size_t)(ours.image - ours.block);
    size_t length = is_accepted ? write_image(&theirs.channel, before + start) : 0;
    if (memcmp(before, ours.block, sizeof before) == 0)
        return length;

    size_t at = 0;
    while (before[at] == ours.block[at])
        at++;
    const char *what = at < start || at >= start + now.capacity ? "a guard byte of the image's memory"
                     : !is_accepted                            ? "a byte of the image's memory after a refusal"
                     : at < start + length                     ? "a byte of the new image"
                                                               : "a byte past the new image";
    printf("calls: at byte %ld of the image's memory\n", (long)at - (long)start);
    differ(what, ours.block[at], before[at]);
    return 0;
}

static void compare_store(const char *what, const struct store *our, const struct store *their, size_t length)
{
    if (memcmp(our->block, their->block, GUARD + length + GUARD) == 0)
        return;
    size_t at = 0;
    while (our->block[at] == their->block[at])
        at++;
    printf("calls: at byte %ld of a store of %zu\n", (long)at - GUARD, length);
    differ(what, our->block[at], their->block[at]);
}

/* What the calls since a save left behind, as one number. */
static uint64_t trail;

static void leave_trail(const uint8_t *bytes, size_t count)
{
    for (size_t i = 0; i < count; i++)
        trail = (trail ^ bytes[i]) * UINT64_C(1099511628211);
}

/* After a call: what every call answers, and all memory that it was lent. Gives whether it was accepted. */
static bool finish(enum call call, uint32_t refusal, uint32_t expected, size_t length, uint32_t clock)
{
    same("the refusal", refusal, expected);
    met.calls[call][refusal]++;
    bool is_accepted = refusal == LOBRINKAS_ACCEPTED;
    size_t written = compare_image(is_accepted);
    same("the length", length, is_accepted ? written : call == SET_UP ? 0 : now.length);
    same("the clock after the call", clock, is_accepted ? theirs.channel.clock : 0);
    if (is_accepted) {
        ours.length = length;
        met.sights[LONGEST_IMAGE] += length == LOBRINKAS_IMAGE_MOST;
    }
    compare_store("a byte of the slave store or its guard", &ours.slave, &theirs.slave, slave_length());
    compare_store("a byte of the master store or its guard", &ours.master, &theirs.master, master_length());
    leave_trail(ours.image, ours.length);
    return is_accepted;
}

/* A plain call has memory enough, and nothing is wrong with what it is lent. */
static bool is_plain;

/* The memory that the call is lent. least: with a byte less it is refused. */
static size_t draw_capacity(size_t least)
{
    switch (is_plain ? 7 : below(8)) {
    case 0:
    case 1:
        return least;
    case 2:
    case 3:
        return least - 1;
    case 4:
        return ours.length;
    case 5:
        return ours.length + below(12);
    case 6:
        return LOBRINKAS_IMAGE_MOST;
    default:
        return IMAGE_ROOM - below(64);
    }
}

/* The length that the call is handed: now and then another than the image's, even one that reaches past the memory. */
static size_t draw_length(size_t capacity)
{
    if (is_plain || !one_in(32))
        return ours.length;
    switch (below(6)) {
    case 0:
        return SIZE_MAX;
    case 1:
        return capacity + 1;
    case 2:
        return ours.length + 1;
    case 3:
        return 0;
    default:
        return below((uint32_t)ours.length);
    }
}

/*
 * The refusal with 18 and 17, around what the second program gives.  A part of an image is no image, nor is one with
 * something behind it.
 */
static uint32_t with_image(uint32_t refusal, size_t capacity, size_t length, size_t least)
{
    if (length > capacity || length != ours.length || ours.is_malformed) {
        met.sights[ABOVE_MEMORY] += length > capacity;
        met.sights[LARGEST_LENGTH] += length == SIZE_MAX;
        met.sights[UNSOUND_AND_MALFORMED] += refusal == LOBRINKAS_UNSOUND && !ours.is_malformed;
        return LOBRINKAS_MALFORMED;
    }
    return refusal == LOBRINKAS_ACCEPTED && capacity < least ? LOBRINKAS_NO_ROOM : refusal;
}

/* The least memory for a call that leads to this channel: the image before it and the one after it have room there. */
static size_t least_memory(const struct mc_channel *next)
{
    size_t size = mc_image_size(&theirs.setup, next);
    return size > ours.length ? size : ours.length;
}

/* ---- Set-ups ----------------------------------------------------------- */

static void draw_levels(struct mc_setup *setup)
{
    uint32_t chosen = any(), all_fair = one_in(3) ? MC_FAIR : 0;
    if (one_in(3))
        chosen |= any();
    setup->level_count = 0;
    for (uint32_t level = 0; level < MC_LEVELS; level++) {
        if (level != MC_SYSTEM_MASTER && (chosen >> level & 1) == 0)
            continue;
        struct mc_level_row *row = &setup->levels[setup->level_count++];
        row->level = level;
        row->width = one_in(2) ? 2 : 4;
        row->options = below(8) | all_fair;
    }
}

/* Where a number takes a byte more: rows and offsets begin near these, so that a step's image is often longer. */
static uint32_t draw_edge(void)
{
    static const uint32_t edges[] = {0, 1 << 7, 1 << 14, 1 << 21};
    uint32_t edge = edges[below(LENGTH(edges))], back = 4 * below(6);
    return edge > back ? edge - back : 4 * below(64);
}

/* Small rows mostly, as every byte of them is compared after each call. */
static void draw_slaves(struct mc_setup *setup)
{
    static const uint32_t ports[] = {1, 2, 4};
    uint32_t most = one_in(32) ? 4096 : 64, at[2];
    at[MC_IO] = draw_edge() % 32768;
    at[MC_MEMORY] = draw_edge();
    setup->slave_count = 1 + below(one_in(4) ? MC_SLAVES : 3);
    for (uint32_t i = 0; i < setup->slave_count; i++) {
        struct mc_slave_row *row = &setup->slaves[i];
        row->space = below(2);
        row->length = row->space == MC_IO ? 4 * (1 + below(64)) : 4 * (1 + below(most / 4));
        row->base = at[row->space];
        at[row->space] += row->length + (one_in(2) ? 0 : 4 * below(16));
        row->port = ports[below(LENGTH(ports))];
        row->time = one_in(3) ? MC_TIME_MAX : MC_TIME_MIN + below(one_in(2) ? 1 : 1751);
    }
}

/* The numbers of a sheet's head. */
struct list {
    uint32_t numbers[1 + 1 + 3 * MC_LEVELS + 1 + 5 * MC_SLAVES + 8];
    size_t count;
};

static void put(struct list *list, uint32_t number)
{
    list->numbers[list->count++] = number;
}

static struct list list_of(const struct mc_setup *setup)
{
    struct list list = {.count = 0};
    put(&list, LOBRINKAS_EDITION);
    put(&list, setup->level_count);
    for (uint32_t i = 0; i < setup->level_count; i++) {
        put(&list, setup->levels[i].level);
        put(&list, setup->levels[i].width);
        put(&list, setup->levels[i].options);
    }
    put(&list, setup->slave_count);
    for (uint32_t i = 0; i < setup->slave_count; i++) {
        put(&list, setup->slaves[i].space);
        put(&list, setup->slaves[i].base);
        put(&list, setup->slaves[i].length);
        put(&list, setup->slaves[i].port);
        put(&list, setup->slaves[i].time);
    }
    return list;
}

/* A number that breaks a clause of the frame or of the shape, or any near it. */
static uint32_t draw_odd(uint32_t number)
{
    static const uint32_t odd[] = {0, 1, 2, 3, 5, 8, 15, 16, 17, 199, 1951, 4097, 65535, 65536, 65540, 16777216, 16777220, 4000000001, UINT32_MAX};
    switch (below(4)) {
    case 0:
        return number + 1;
    case 1:
        return number + 4;
    case 2:
        return number - 1;
    default:
        return odd[below(LENGTH(odd))];
    }
}

/* A list of another shape, or of rows that break the frame; perhaps both. */
static void spoil_list(struct list *list)
{
    uint32_t at = below((uint32_t)list->count);
    if (one_in(2))
        list->numbers[at] = draw_odd(list->numbers[at]);
    else if (one_in(2))
        list->count = at;
    else
        for (uint32_t more = 1 + below(5); more > 0; more--)
            put(list, below(3));
    if (one_in(3))
        list->numbers[0] = 2 * below(2);
}

static uint32_t draw_master_length(void)
{
    if (one_in(16))
        return one_in(2) ? 65537 * below(2) : UINT32_MAX;
    return one_in(32) ? 65536 - below(9) : one_in(8) ? 128 * 128 - 64 + below(128) : 1 + below(256);
}

/* The set-up that the second program has of a list, and its fresh channel. Whether a list is a head's is asked of its image. */
static uint32_t their_set_up(const struct list *list, uint32_t length)
{
    uint8_t image[IMAGE_ROOM];
    if (mc_image_set_up(list->numbers, list->count, length, image, sizeof image).refusal == MC_MALFORMED)
        return LOBRINKAS_MALFORMED;
    mc_list_setup(list->numbers, length, &theirs.setup);
    theirs.last = idle;
    return mc_set_up(&theirs.setup, &theirs.channel);
}

/* The first call of a sequence. Until it is accepted the image's memory holds no image. */
static bool call_set_up(const struct list *list, uint32_t length)
{
    uint32_t refusal = their_set_up(list, length);
    ours.length = 0;
    size_t least = refusal == LOBRINKAS_ACCEPTED ? least_memory(&theirs.channel) : 1;
    size_t capacity = one_in(4) ? below((uint32_t)least) : draw_capacity(least);
    if (refusal == LOBRINKAS_ACCEPTED && capacity < least)
        refusal = LOBRINKAS_NO_ROOM;
    fill_stores();
    begin(SET_UP, capacity, 0);
    struct lobrinkas_answer answer = lobrinkas_set_up(ours.image, capacity, list->numbers, list->count, length);
    met.sights[LEAST_SET_UP] += refusal == LOBRINKAS_ACCEPTED && capacity == least;
    met.sights[SHORT_SET_UP] += refusal == LOBRINKAS_NO_ROOM && capacity == least - 1;
    return finish(SET_UP, answer.refusal, refusal, answer.length, answer.clock);
}

/* ---- Posts ------------------------------------------------------------- */

/* A request that is good where its level is free; short ones mostly, so that they come to an end. */
static struct mc_request draw_good_request(void)
{
    const struct mc_setup *setup = &theirs.setup;
    const struct mc_slave_row *row = &setup->slaves[below(setup->slave_count)];
    uint32_t start = below(row->length), left = row->length - start;
    uint32_t length = 1 + below(one_in(6) ? left : left < 12 ? left : 12);
    if (length > MC_LENGTH_MAX)
        length = MC_LENGTH_MAX;
    if (length > setup->master_length)
        length = setup->master_length;
    uint32_t last = setup->master_length - length;
    struct mc_request request = {.space = row->space, .address = row->base + start, .length = length};
    request.level = setup->levels[below(setup->level_count)].level;
    request.direction = below(2);
    request.offset = last > 64 && one_in(3) ? last - below(64) : below(last + 1);
    return request;
}

/* One with a fault, and now and then with two, so that their order is seen. */
static void spoil_request(struct mc_request *request)
{
    static const uint32_t odd_levels[] = {16, 255, 271, 65536 + 3, UINT32_MAX};
    switch (below(8)) {
    case 0:
        request->level = one_in(2) ? below(MC_LEVELS) : odd_levels[below(LENGTH(odd_levels))];
        break;
    case 1:
        request->length = one_in(2) ? 0 : MC_LENGTH_MAX + 1 + below(9);
        break;
    case 2:
        request->direction = 2 + below(5);
        break;
    case 3:
        request->space = one_in(2) ? 2 : 1 - request->space;
        break;
    case 4:
        request->address += theirs.setup.slaves[below(theirs.setup.slave_count)].length;
        break;
    case 5:
        request->address = UINT32_MAX - below(5);
        break;
    case 6:
        request->offset = theirs.setup.master_length - below(request->length);
        break;
    default:
        request->offset = UINT32_MAX - below(9);
        break;
    }
}

static struct mc_request draw_request(void)
{
    struct mc_request request = draw_good_request();
    while (one_in(4))
        spoil_request(&request);
    return request;
}

static bool call_post(const struct mc_request *request)
{
    struct mc_channel next = theirs.channel;
    uint32_t refusal = mc_post(&theirs.setup, &next, request);
    size_t least = least_memory(&next), capacity = draw_capacity(least), length = draw_length(capacity);
    refusal = with_image(refusal, capacity, length, least);
    begin(POST, capacity, length);
    struct lobrinkas_answer answer = lobrinkas_post(ours.image, capacity, length, request->level, request->direction, request->space,
                                                    request->address, request->length, request->offset);
    if (refusal == LOBRINKAS_ACCEPTED)
        theirs.channel = next;
    met.sights[LEAST_POST] += refusal == LOBRINKAS_ACCEPTED && capacity == least;
    met.sights[SHORT_POST] += refusal == LOBRINKAS_NO_ROOM && capacity == least - 1;
    return finish(POST, answer.refusal, refusal, answer.length, answer.clock);
}

/* ---- Steps and runs ---------------------------------------------------- */

/* What a decision is tried on before it is known to be accepted: no decision looks at a byte of a store. */
static uint8_t spare_slave[MC_STORE_MAX + GUARD], spare_master[MC_STORE_MAX + GUARD];

/* The lengths of the stores that a call is lent: now and then others than the set-up's. */
static struct mc_stores draw_stores(void)
{
    struct mc_stores stores = {spare_slave, slave_length(), spare_master, master_length()};
    if (!is_plain && one_in(24)) {
        size_t *length = one_in(2) ? &stores.slave_length : &stores.master_length;
        *length = one_in(3) ? 0 : one_in(2) ? *length + 1 + below(GUARD) : below((uint32_t)*length + 1);
    }
    return stores;
}

static struct lobrinkas_tally our_tally(void)
{
    struct lobrinkas_tally tally = {theirs.tally.grants, theirs.tally.cycles, theirs.tally.bytes, theirs.tally.hold};
    return tally;
}

/* The tally went in from their side, so an answer without it, or with another, is seen at once. */
static void compare_tally(const struct lobrinkas_tally *tally)
{
    same("grants", tally->grants, theirs.tally.grants);
    same("cycles", tally->cycles, theirs.tally.cycles);
    same("bytes moved", tally->bytes, theirs.tally.bytes);
    same("the longest hold", tally->hold, theirs.tally.hold);
    met.sights[CAPPED_TALLY] += tally->cycles == UINT32_MAX && tally->bytes == UINT32_MAX;
}

/* Where the step was refused the entry is empty. */
static void compare_entry(const struct lobrinkas_stepped *step, const struct mc_entry *entry)
{
    static const uint32_t letters[] = {[MC_GRANT] = 'G', [MC_CYCLE] = 'C', [MC_RELEASE] = 'R', [MC_IDLE] = 'I'};
    same("the kind", step->kind, step->refusal != LOBRINKAS_ACCEPTED ? UINT32_C(0) : letters[entry->kind]);
    same("the clock of the entry", step->clock, entry->clock);
    same("the level", step->level, entry->level);
    same("the address", step->address, entry->address);
    same("the bytes", step->bytes, entry->bytes);
    same("the direction", step->direction, entry->direction);
    same("the master lane", step->master_lane, entry->master_lane);
    same("the slave lane", step->slave_lane, entry->slave_lane);
    same("the ending", step->ending, (uint32_t)entry->ending);
    same("whether there was an asked time", step->asked, entry->has_hold);
    same("the hold", step->hold, entry->hold);
}

static enum kind kind_of(const struct mc_entry *entry)
{
    switch (entry->kind) {
    case MC_GRANT:
        return GRANT;
    case MC_CYCLE:
        return KEPT + (enum kind)entry->ending;
    case MC_RELEASE:
        return RELEASE;
    default:
        return IDLE;
    }
}

/* Refusals that come together with a full clock, of which the first is given. */
static void note_together(uint32_t refusal, size_t capacity)
{
    struct mc_channel next = theirs.channel;
    struct mc_stores stores = {spare_slave, slave_length(), spare_master, master_length()};
    if (next.clock < MC_CLOCK_LIMIT - MC_TIME_MAX || mc_step(&theirs.setup, &next, &stores, NULL, NULL) != MC_CLOCK_FULL)
        return;
    met.sights[FULL_AND_OTHER_STORE] += refusal == LOBRINKAS_STORE_LENGTH;
    /* a little earlier, where its numbers take as many bytes, the same step has an image */
    next.clock -= 2 * MC_TIME_MAX;
    next.asked -= next.has_asked ? 2 * MC_TIME_MAX : 0;
    if (refusal == LOBRINKAS_CLOCK_FULL && mc_step(&theirs.setup, &next, &stores, NULL, NULL) == MC_OK)
        met.sights[FULL_AND_NO_ROOM] += capacity < least_memory(&next);
}

static bool call_step(void)
{
    struct mc_channel next = theirs.channel;
    struct mc_stores lent = draw_stores(), stores = their_stores();
    struct mc_entry entry = idle, made = idle;
    uint32_t refusal = mc_step(&theirs.setup, &next, &lent, NULL, &entry);
    size_t least = least_memory(&next), capacity = draw_capacity(least), length = draw_length(capacity);
    refusal = with_image(refusal, capacity, length, least);
    note_together(refusal, capacity);
    begin(STEP, capacity, length);
    struct lobrinkas_stepped step = lobrinkas_step(ours.image, capacity, length, ours.slave.block + GUARD, lent.slave_length,
                                                   ours.master.block + GUARD, lent.master_length, our_tally());
    if (refusal == LOBRINKAS_ACCEPTED) {
        mc_step(&theirs.setup, &theirs.channel, &stores, &theirs.tally, &made);
        theirs.last = made;
    }
    same("the refusal", step.refusal, refusal);
    compare_entry(&step, &made);
    compare_tally(&step.tally);
    met.least_steps[kind_of(&entry)] += refusal == LOBRINKAS_ACCEPTED && capacity == least;
    met.short_steps[kind_of(&entry)] += refusal == LOBRINKAS_NO_ROOM && capacity == least - 1;
    return finish(STEP, step.refusal, refusal, step.length, step.clock);
}

static uint32_t draw_steps(void)
{
    if (one_in(16))
        return one_in(2) ? MC_STEPS_MAX + 1 : one_in(2) ? UINT32_MAX : MC_STEPS_MAX + 1 + below(1000);
    if (one_in(200))
        return MC_STEPS_MAX;
    return one_in(4) ? below(2) : below(one_in(8) ? 400 : 24);
}

/* A run's memory: 17 exactly where the longest image has no room, so that is where to look. */
static size_t draw_run_capacity(void)
{
    if (is_plain || one_in(4))
        return draw_capacity(ours.length);
    return one_in(2) ? LOBRINKAS_IMAGE_MOST : one_in(2) ? LOBRINKAS_IMAGE_MOST - 1 : LOBRINKAS_IMAGE_MOST + below(64);
}

static bool call_run(uint32_t steps)
{
    struct mc_stores lent = draw_stores(), stores = their_stores();
    size_t capacity = draw_run_capacity(), length = draw_length(capacity);
    struct mc_channel next = theirs.channel;
    /* a run of no steps, for what it is refused by */
    uint32_t refusal = mc_run(&theirs.setup, &next, &lent, NULL, steps > MC_STEPS_MAX ? steps : 0).refusal;
    refusal = with_image(refusal, capacity, length, LOBRINKAS_IMAGE_MOST);
    note_together(refusal, capacity);
    begin(RUN, capacity, length);
    struct lobrinkas_ran run = lobrinkas_run(ours.image, capacity, length, ours.slave.block + GUARD, lent.slave_length,
                                             ours.master.block + GUARD, lent.master_length, our_tally(), steps);
    struct mc_run_result result = {.steps = 0};
    if (refusal == LOBRINKAS_ACCEPTED) {
        result = mc_run(&theirs.setup, &theirs.channel, &stores, &theirs.tally, steps);
        theirs.last = idle;
    }
    same("the refusal", run.refusal, refusal);
    same("the steps done", run.steps, result.steps);
    same("the stop", run.stop, (uint32_t)result.refusal);
    compare_tally(&run.tally);
    met.sights[STOPPED_FULL] += run.stop == LOBRINKAS_CLOCK_FULL;
    met.sights[LEAST_RUN] += refusal == LOBRINKAS_ACCEPTED && capacity == LOBRINKAS_IMAGE_MOST;
    met.sights[SHORT_RUN] += refusal == LOBRINKAS_NO_ROOM && capacity == LOBRINKAS_IMAGE_MOST - 1;
    met.sights[MANY_AND_OTHER_STORE] += refusal == LOBRINKAS_STORE_LENGTH && steps > MC_STEPS_MAX;
    met.sights[MANY_AND_NO_ROOM] += refusal == LOBRINKAS_TOO_MANY_STEPS && capacity < LOBRINKAS_IMAGE_MOST;
    return finish(RUN, run.refusal, refusal, run.length, run.clock);
}

static void call_count(void)
{
    uint32_t address = one_in(2) ? below(64) : MC_MEMORY_END - below(64), width = 2 + 2 * below(2), port = 1u << below(3);
    uint32_t bytes = one_in(8) ? MC_LENGTH_MAX - 4 + below(8) : below(64), cycles;
    if (one_in(4))
        address = one_in(2) ? any() : UINT32_MAX - below(9);
    if (one_in(6))
        width = below(9);
    if (one_in(6))
        port = below(9);
    uint32_t refusal = mc_count_cycles(address, bytes, width, port, &cycles);
    begin(COUNT, 0, 0);
    struct lobrinkas_counted counted = lobrinkas_cycle_count(address, bytes, width, port);
    same("the refusal", counted.refusal, refusal);
    same("the cycles", counted.cycles, cycles);
    met.calls[COUNT][refusal]++;
}

/* ---- Why a level waits ------------------------------------------------- */

static uint32_t open_levels(const struct mc_channel *channel)
{
    uint32_t levels = 0;
    for (uint32_t level = 0; level < MC_LEVELS; level++)
        levels |= channel->left[level] != 0 ? 1u << level : 0;
    return levels;
}

static bool is_in_setup(uint32_t level)
{
    for (uint32_t i = 0; i < theirs.setup.level_count; i++)
        if (theirs.setup.levels[i].level == level)
            return true;
    return false;
}

/* What an answer shows of the rulings on it. */
static void see_reason(const struct mc_told *told, uint32_t level)
{
    const struct mc_channel *channel = &theirs.channel;
    bool is_owned = channel->phase == MC_GRANTED, is_low = level < MC_LEVELS;
    bool is_held = is_owned && channel->owner != level;
    uint32_t names = told->level;
    met.sights[IDLE_OWNER] += told->reason == MC_NO_REQUEST && is_owned && channel->owner == level;
    met.sights[IDLE_WINNER] += told->reason == MC_NO_REQUEST && level == MC_SYSTEM_MASTER && !is_owned && open_levels(channel) == 0;
    met.sights[IDLE_HOLDER] += told->reason == MC_HOLDS && channel->left[names] == 0;
    met.sights[INACTIVE_AND_HELD] += told->reason == MC_INACTIVE && is_held;
    if (told->reason == MC_OUTRANKED || told->reason == MC_WINS_NEXT) {
        uint32_t winner = told->reason == MC_OUTRANKED ? names : level;
        met.sights[MARKED_BELOW] += (open_levels(channel) & channel->inactive & ((1u << winner) - 1)) != 0;
    }
    met.sights[CUT_LEVEL] += told->reason == MC_NOT_PRESENT && !is_low && is_in_setup(level & 255);
    met.sights[FULL_AND_WINS] += told->reason == MC_WINS_NEXT && channel->clock > MC_CLOCK_LIMIT - 100;
}

/* The question reads the image and changes nothing; there is no 17. */
static void call_why(uint32_t level)
{
    struct mc_told told = mc_why(&theirs.setup, &theirs.channel, level);
    size_t capacity = draw_capacity(ours.length == 0 ? 1 : ours.length), length = draw_length(capacity);
    uint32_t refusal = with_image(told.refusal, capacity, length, 0);
    begin(WHY, capacity, length);
    struct lobrinkas_told answer = lobrinkas_why(ours.image, capacity, length, level);
    same("the refusal", answer.refusal, refusal);
    same("the reason", answer.reason, refusal == LOBRINKAS_ACCEPTED ? (uint32_t)told.reason : 0);
    same("the level that the reason names", answer.level, refusal == LOBRINKAS_ACCEPTED ? told.level : 0);
    compare_image(false);
    met.calls[WHY][refusal]++;
    if (refusal == LOBRINKAS_ACCEPTED) {
        met.reasons[told.reason]++;
        see_reason(&told, level);
    }
}

/* Of every level, and of numbers that are none. */
static void call_whys(void)
{
    static const uint32_t odd_levels[] = {16, 256, 271, 65536 + 3, UINT32_MAX};
    for (uint32_t level = 0; level < MC_LEVELS; level++)
        call_why(level);
    call_why(odd_levels[below(LENGTH(odd_levels))]);
    call_why(256 + below(MC_LEVELS));
}

/* ---- Save and restore -------------------------------------------------- */

struct saved {
    uint8_t image[IMAGE_ROOM];
    size_t length;
    struct mc_setup setup;
    struct mc_channel channel;
    struct mc_tally tally;
    struct mc_entry last;
    struct store slave, master;
};

static void save(struct saved *saved)
{
    memcpy(saved->image, ours.image, ours.length);
    saved->length = ours.length;
    saved->setup = theirs.setup;
    saved->channel = theirs.channel;
    saved->tally = theirs.tally;
    saved->last = theirs.last;
    memcpy(saved->slave.block, ours.slave.block, GUARD + slave_length() + GUARD);
    memcpy(saved->master.block, ours.master.block, GUARD + master_length() + GUARD);
    met.sights[SAVED]++;
}

/* Whether the next byte goes on with a transfer that has begun. */
static bool is_in_transfer(const struct saved *saved)
{
    const struct mc_entry *entry = &saved->last;
    if (entry->kind != MC_CYCLE || entry->ending != MC_KEPT)
        return false;
    for (uint32_t i = 0; i < saved->setup.level_count; i++)
        if (saved->setup.levels[i].level == entry->level)
            return (entry->address + entry->bytes) % saved->setup.levels[i].width != 0;
    return false;
}

/* Both sides as they were, our image in other memory. */
static void restore(const struct saved *saved)
{
    theirs.setup = saved->setup;
    theirs.channel = saved->channel;
    theirs.tally = saved->tally;
    theirs.last = saved->last;
    size_t slave = GUARD + slave_length() + GUARD, master = GUARD + master_length() + GUARD;
    memcpy(theirs.slave.block, saved->slave.block, slave);
    memcpy(theirs.master.block, saved->master.block, master);
    memcpy(ours.slave.block, saved->slave.block, slave);
    memcpy(ours.master.block, saved->master.block, master);
    ours.length = saved->length;
    memcpy(ours.image, saved->image, saved->length);
    move_image();
    met.sights[RESTORED]++;
    met.sights[RESTORED_IN_TRANSFER] += is_in_transfer(saved);
    met.sights[RESTORED_ASKED] += saved->channel.has_asked;
    met.sights[RESTORED_ASKED_AT_0] += saved->channel.has_asked && saved->channel.asked == 0;
    met.sights[RESTORED_MARKED] += saved->channel.inactive != 0;
}

static void call_one(void)
{
    uint32_t draw = below(21);
    if (draw < 8) {
        struct mc_request request = draw_request();
        call_post(&request);
    } else if (draw < 16)
        call_step();
    else if (draw < 19)
        call_run(draw_steps());
    else if (draw < 20)
        call_count();
    else
        call_whys();
}

/* The same calls twice from one save: they leave the same behind, in whatever memory the image stands. */
static void go_on_twice(void)
{
    static struct saved saved;
    uint32_t calls = 1 + below(8);
    uint64_t trails[2];
    save(&saved);
    uint64_t draws = state;
    for (int i = 0; i < 2; i++) {
        restore(&saved);
        state = draws;
        trail = 0;
        for (uint32_t k = 0; k < calls; k++)
            call_one();
        leave_trail(ours.slave.block, GUARD + slave_length());
        leave_trail(ours.master.block, GUARD + master_length());
        trails[i] = trail;
    }
    same("what came after a restore", trails[1], trails[0]);
    met.sights[GONE_ON_TWICE]++;
}

/* ---- Channels that no calls lead to ------------------------------------ */

/* The clock goes to where a number takes a byte more, or to its limit; an asked time goes with it. */
static void move_clock(void)
{
    static const uint32_t clocks[] = {1 << 7, 1 << 14, 1 << 21, 1 << 28, MC_CLOCK_LIMIT, MC_CLOCK_LIMIT};
    uint32_t clock = clocks[below(LENGTH(clocks))], back = below(one_in(2) ? 300 : 8000);
    struct mc_channel *channel = &theirs.channel;
    uint32_t since = channel->clock - channel->asked;
    clock = clock > back ? clock - back : 0;
    if (channel->has_asked && clock < since)
        return;
    channel->clock = clock;
    channel->ever = channel->ever || clock != 0;
    channel->asked = channel->has_asked ? clock - since : 0;
    write_our_image();
}

/* 15 owns the channel from clock 0 on, so that an asked time of 0 can come. */
static void grant_at_0(void)
{
    theirs.channel.phase = MC_GRANTED;
    theirs.channel.owner = MC_SYSTEM_MASTER;
    theirs.channel.ever = true;
    write_our_image();
}

static void put_request(struct mc_channel *channel, const struct mc_request *request)
{
    channel->direction[request->level] = request->direction;
    channel->space[request->level] = request->space;
    channel->address[request->level] = request->address;
    channel->left[request->level] = request->length;
    channel->offset[request->level] = request->offset;
}

/* Any channel that looks sound: the asked time may be too early for the owner's transfer. */
static struct mc_channel draw_channel(void)
{
    bool is_early = one_in(3);
    struct mc_channel channel = {.ever = true, .clock = is_early ? 0 : one_in(3) ? below(10000) : any() % MC_CLOCK_LIMIT};
    for (uint32_t posts = below(6); posts > 0; posts--) {
        struct mc_request request = draw_good_request();
        if (request.level < MC_LEVELS && request.length != 0)
            put_request(&channel, &request);
    }
    uint32_t open = open_levels(&channel), owner = below(MC_LEVELS);
    if (owner == MC_SYSTEM_MASTER || (open >> owner & 1) != 0) {
        channel.phase = MC_GRANTED;
        channel.owner = owner;
    }
    for (uint32_t i = 0; i < theirs.setup.level_count; i++) {
        uint32_t level = theirs.setup.levels[i].level;
        bool is_owner = channel.phase == MC_GRANTED && level == owner;
        if (level < MC_LEVELS && !is_owner && (theirs.setup.levels[i].options & MC_FAIR) != 0 && one_in(3))
            channel.inactive |= (uint16_t)(1u << level);
    }
    uint32_t waiting = open & ~(channel.phase == MC_GRANTED ? 1u << owner : 0);
    if ((waiting & ~channel.inactive) == 0)
        channel.inactive = 0;
    channel.has_asked = channel.phase == MC_GRANTED && waiting != 0;
    if (channel.has_asked) {
        uint32_t since = (open >> owner & 1) == 0 ? 0 : below(6000);
        channel.asked = channel.clock > since ? channel.clock - since : 0;
    }
    if (is_early && channel.phase == MC_ARBITRATING && channel.inactive == 0)
        channel.ever = one_in(2);
    return channel;
}

/* One thing in it is another: most of these are unsound. */
static void spoil_channel(struct mc_channel *channel)
{
    uint32_t level = below(MC_LEVELS);
    while (open_levels(channel) != 0 && channel->left[level] == 0)
        level = below(MC_LEVELS);
    uint32_t *fields[] = {&channel->direction[level], &channel->space[level], &channel->address[level], &channel->left[level],
                          &channel->offset[level]};
    uint32_t draw = below(16);
    if (draw < LENGTH(fields) && channel->left[level] != 0)
        *fields[draw] = draw_odd(*fields[draw]);
    else if (draw == 5)
        channel->clock = one_in(2) ? MC_CLOCK_LIMIT + below(3) : UINT32_MAX;
    else if (draw == 6)
        channel->inactive ^= (uint16_t)(1u << below(MC_LEVELS));
    else if (draw == 7)
        channel->has_asked = !channel->has_asked;
    else if (draw == 8) {
        channel->phase = one_in(2) ? MC_GRANTED : MC_ARBITRATING;
        channel->owner = below(MC_LEVELS);
    } else if (draw > 9)
        channel->ever = !channel->ever;
    else
        channel->asked = channel->has_asked ? draw_odd(channel->asked) : 0;
    if (channel->left[level] == 0)
        put_request(channel, &(struct mc_request){.level = level});
    if (!channel->has_asked)
        channel->asked = 0;
    if (channel->phase == MC_ARBITRATING)
        channel->owner = 0;
}

/* One number of the set-up's rows is another: most of these break the frame. */
static void spoil_setup(void)
{
    struct list list = list_of(&theirs.setup);
    uint32_t at = 2 + below((uint32_t)list.count - 2), slave_count_at = 2 + 3 * theirs.setup.level_count;
    if (at != slave_count_at)
        list.numbers[at] = draw_odd(list.numbers[at]);
    mc_list_setup(list.numbers, one_in(8) ? draw_odd(theirs.setup.master_length) : theirs.setup.master_length, &theirs.setup);
}

/* A channel that is unsound because it was never granted, and for nothing else: by which of the three it is. */
static void see_never_granted(void)
{
    struct mc_channel granted = theirs.channel;
    granted.ever = true;
    if (!mc_fits_frame(&theirs.setup) || mc_is_unsound(&theirs.setup, &granted))
        return;
    bool is_owned = granted.phase == MC_GRANTED, is_marked = granted.inactive != 0, is_later = granted.clock != 0;
    if (!theirs.channel.ever && is_owned + is_marked + is_later == 1)
        met.sights[is_owned ? NEVER_AND_OWNED : is_marked ? NEVER_AND_MARKED : NEVER_AND_LATER]++;
    met.sights[GRANTED_AT_0] += theirs.channel.ever && !is_owned && !is_later;
}

static void go_wild(void)
{
    theirs.last = idle;
    theirs.channel = draw_channel();
    if (one_in(2))
        spoil_channel(&theirs.channel);
    if (one_in(4))
        spoil_setup();
    see_never_granted();
    write_our_image();
}

/* ---- Damaged images ---------------------------------------------------- */

/* Bytes that may be no image: refused as the second program says, or written back as they are by a run of no steps. */
static void try_damaged(const uint8_t *bytes, size_t length)
{
    struct mc_setup setup;
    struct mc_channel channel;
    size_t setup_end;
    ours.is_malformed = mc_read_image(bytes, length, &setup, &channel, &setup_end) != MC_OK;
    if (!ours.is_malformed) {
        theirs.setup = setup;
        theirs.channel = channel;
    }
    memcpy(ours.image, bytes, length);
    ours.length = length;
    bool is_accepted = call_run(0);
    if (is_accepted && (ours.length != length || memcmp(ours.image, bytes, length) != 0))
        differ("the length of a damaged image that is written back as other bytes", ours.length, length);
    bool is_unsound = !is_accepted && !ours.is_malformed;
    met.sights[is_accepted ? DAMAGED_SOUND : is_unsound ? DAMAGED_9 : DAMAGED_18]++;
    call_why(below(MC_LEVELS + 2));
    struct mc_request request = draw_good_request();
    call_post(&request);
    call_step();
}

static size_t put_number(uint8_t *bytes, uint32_t number)
{
    size_t length = 0;
    for (; number >= 128; number /= 128)
        bytes[length++] = (uint8_t)(128 + number % 128);
    bytes[length++] = (uint8_t)number;
    return length;
}

/* In place of the bytes from start to end there are others. */
static void try_instead(const uint8_t *image, size_t length, size_t start, size_t end, const uint8_t *bytes, size_t count)
{
    uint8_t damaged[IMAGE_ROOM];
    memcpy(damaged, image, start);
    memcpy(damaged + start, bytes, count);
    memcpy(damaged + start + count, image + end, length - end);
    try_damaged(damaged, start + count + length - end);
}

/* Each number is another: in its place each of these, its own longer form, and what is too large to be one. */
static void damage_numbers(const uint8_t *image, size_t length)
{
    static const uint32_t odd[] = {0, 1, 2, 3, 4, 15, 16, 17, 127, 128, 1951, 4097, 65535, 65536, 65537, 16777216, 4000000001, UINT32_MAX};
    static const uint8_t too_large[] = {0xFF, 0xFF, 0xFF, 0xFF, 0x10}, too_long[] = {0x80, 0x80, 0x80, 0x80, 0x80, 0x01};
    uint8_t bytes[8];
    for (size_t start = 0, end = 1; start < length; start = end, end = start + 1) {
        while (image[end - 1] >= 128)
            end++;
        for (size_t i = 0; i < LENGTH(odd); i++)
            try_instead(image, length, start, end, bytes, put_number(bytes, odd[i]));
        memcpy(bytes, image + start, end - start);
        bytes[end - start - 1] |= 0x80;
        bytes[end - start] = 0;
        try_instead(image, length, start, end, bytes, end - start + 1);
        try_instead(image, length, start, end, too_large, sizeof too_large);
        try_instead(image, length, start, end, too_long, sizeof too_long);
    }
}

/* Every prefix, every byte more, every bit flipped, and every number another. */
static void damage_image(void)
{
    uint8_t image[IMAGE_ROOM], damaged[IMAGE_ROOM + 1];
    size_t length = ours.length;
    memcpy(image, ours.image, length);
    memcpy(damaged, image, length);
    is_plain = true;
    for (size_t cut = 0; cut < length; cut++)
        try_damaged(image, cut);
    for (uint32_t byte = 0; byte < 256; byte++) {
        damaged[length] = (uint8_t)byte;
        try_damaged(damaged, length + 1);
    }
    for (size_t bit = 0; bit < 8 * length; bit++) {
        damaged[bit / 8] ^= (uint8_t)(1u << bit % 8);
        try_damaged(damaged, length);
        damaged[bit / 8] = image[bit / 8];
    }
    damage_numbers(image, length);
    is_plain = false;
    ours.is_malformed = false;
}

/* ---- Sequences --------------------------------------------------------- */

/*
 * The longest image there is: every row, and every number as long as it can be.  14 is marked, so that the marks take
 * three bytes, and 0 owns the channel, asked by the others.
 */
static void reach_longest(void)
{
    struct mc_setup setup = {.level_count = MC_LEVELS, .slave_count = MC_SLAVES};
    for (uint32_t i = 0; i < MC_LEVELS; i++)
        setup.levels[i] = (struct mc_level_row){i, 4, MC_FAIR};
    for (uint32_t i = 0; i < MC_SLAVES; i++)
        setup.slaves[i] = (struct mc_slave_row){MC_MEMORY, (1u << 21) + i * 65536, i < 3 ? 16384 : 256, 4, MC_TIME_MAX};
    struct list list = list_of(&setup);
    while (!call_set_up(&list, MC_STORE_MAX))
        ;
    theirs.channel.ever = true;
    theirs.channel.clock = UINT32_C(3000000000);
    write_our_image();
    for (uint32_t i = 0; i < MC_LEVELS; i++) {
        uint32_t level = (14 + i) % MC_LEVELS;
        struct mc_request request = {level, level % 2, MC_MEMORY, setup.slaves[level].base, 256, 16384 + level};
        while (!call_post(&request))
            ;
        while (i == 0 && !call_step())
            ;
    }
    for (int steps = 0; steps < 2; steps++)
        while (!call_step())
            ;
    same("the length of the longest image", ours.length, LOBRINKAS_IMAGE_MOST);
}

static void call_any(struct saved *saved, bool *is_saved)
{
    uint32_t draw = below(100);
    if (draw < 88)
        call_one();
    else if (draw < 91) {
        save(saved);
        *is_saved = true;
    } else if (draw < 94 && *is_saved)
        restore(saved);
    else if (draw < 97)
        go_on_twice();
    else if (draw < 99)
        move_clock();
    else
        go_wild();
}

static void draw_tally(void)
{
    uint32_t back = below(9);
    theirs.tally = (struct mc_tally){0, 0, 0, 0};
    if (one_in(8))
        theirs.tally = (struct mc_tally){UINT32_MAX - back % 3, UINT32_MAX - back / 3, UINT32_MAX - back, 1000 * back};
}

static void run_sequence(void)
{
    static struct saved saved;
    bool is_saved = false;
    struct mc_setup setup;
    draw_levels(&setup);
    draw_slaves(&setup);
    struct list list = list_of(&setup);
    uint32_t length = draw_master_length();
    if (one_in(10))
        spoil_list(&list);
    draw_tally();
    for (int tries = 0; !call_set_up(&list, length); tries++)
        if (tries == 4)
            return;
    if (one_in(16))
        grant_at_0();
    else if (one_in(4))
        move_clock();
    for (uint32_t calls = 1 + below(48); calls > 0; calls--)
        call_any(&saved, &is_saved);
}

/* ---- What was met, printed --------------------------------------------- */

static bool is_all_met = true;

/* A count that must not be 0. */
static unsigned long met_times(unsigned long count)
{
    is_all_met = is_all_met && count != 0;
    return count;
}

static void print_refusals(void)
{
    static const uint8_t refusals[CALLS][9] = {{18, 9, 17}, {18, 9, 1, 2, 3, 4, 5, 17}, {18, 9, 8, 6, 17}, {18, 9, 8, 7, 17}, {3, 4}, {18, 9}};
    for (int call = 0; call < CALLS; call++) {
        printf("calls: %s: accepted %lu, refused", call_names[call], met_times(met.calls[call][LOBRINKAS_ACCEPTED]));
        for (const uint8_t *refusal = refusals[call]; *refusal != 0; refusal++)
            printf(" %u: %lu", *refusal, met_times(met.calls[call][*refusal]));
        printf("\n");
    }
}

/* A release and an idle step never make an image longer, so they are never refused by 17. */
static void print_kinds(void)
{
    printf("calls: steps accepted in the least memory, and refused by 17 in a byte less:");
    for (int kind = 0; kind < KINDS; kind++) {
        printf("%s %s %lu", kind > 0 ? "," : "", kind_names[kind], met_times(met.least_steps[kind]));
        if (kind < RELEASE)
            printf(" and %lu", met_times(met.short_steps[kind]));
    }
    printf("\n");
}

static void print_reasons(void)
{
    printf("calls: told");
    for (int reason = 0; reason < REASONS; reason++)
        printf("%s %s: %lu", reason > 0 ? "," : "", reason_names[reason], met_times(met.reasons[reason]));
    printf("\n");
}

static void print_sights(void)
{
    static const bool starts_line[SIGHTS] = {
        [STOPPED_FULL] = true, [UNSOUND_AND_MALFORMED] = true, [SAVED] = true, [IDLE_OWNER] = true, [DAMAGED_18] = true};
    for (int sight = 0; sight < SIGHTS; sight++)
        printf("%s%s: %lu", sight == 0 ? "calls: " : starts_line[sight] ? "\ncalls: " : ", ", sight_names[sight], met_times(met.sights[sight]));
    printf("\n");
}

int main(int argc, char **argv)
{
    enum { DAMAGED_IMAGES = 400 };
    if (argc != 3) {
        fprintf(stderr, "usage: calls COUNT SEED\n");
        return 2;
    }
    unsigned long count = strtoul(argv[1], NULL, 10), calls = 0, damaged = 0;
    now.seed = strtoul(argv[2], NULL, 10);
    ours.image = ours.block + GUARD;
    for (now.sequence = 0; now.sequence < count; now.sequence++) {
        seed_random(now.seed, now.sequence);
        now.number = 0;
        if (now.sequence == 0)
            reach_longest();
        else
            run_sequence();
        if (ours.length != 0 && damaged * count <= now.sequence * DAMAGED_IMAGES) {
            damage_image();
            damaged++;
        }
        calls += now.number;
    }
    print_refusals();
    print_kinds();
    print_reasons();
    print_sights();
    if (!is_all_met) {
        printf("calls: what has a count of 0 was never met\n");
        return 1;
    }
    printf("%lu sequences of calls, %lu calls in all, alike in both\n", count, calls);
    return 0;
}
