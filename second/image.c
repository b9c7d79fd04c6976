#include "image.h"

#include "inside.h"

#include <string.h>

/* No image is longer: its numbers, with five bytes for each. */
enum {
    SETUP_ROOM = GROUPS_MAX * (1 + 1 + 1 + LEVEL_FIELDS * MC_LEVELS + 1
                               + SLAVE_FIELDS * MC_SLAVES + 1),
    CHANNEL_ROOM = GROUPS_MAX * (1 + 1 + 1 + 2 + 1 + 5 * MC_LEVELS),
    IMAGE_ROOM = SETUP_ROOM + CHANNEL_ROOM
};

/* ---- Reading ------------------------------------------------------------ */

/*
 * An image is read from a copy with a fence behind it: bytes that all say that
 * another follows, so that no number can reach past the end and none has to look
 * for it.  A fault sends the reader into the fence, past the end, where it stays.
 */
enum { FENCE = 0xFF, FENCE_LENGTH = 1 + GROUPS_MAX };

struct reader {
    const uint8_t *at;
    const uint8_t *fault; /* where a fault sends the reader */
};

/* A number and where the reader goes on. */
struct taken {
    uint32_t value;
    const uint8_t *after;
};

INLINE uint32_t group(const uint8_t *at, uint32_t i)
{
    return (uint32_t)(at[i] % MORE) << (GROUP_BITS * i);
}

/*
 * A number that take doesn't know at a glance: three to five groups, or a fault.
 * A second byte that says no other follows is 0 here.
 */
static struct taken take_long(const uint8_t *at, const uint8_t *fault)
{
    struct taken taken = {.value = group(at, 0) | group(at, 1) | group(at, 2), .after = at + 3};
    uint32_t most = MORE - 1;
    if (at[2] >= MORE) {
        taken.value |= group(at, 3);
        taken.after = at + 4;
        if (at[3] >= MORE) {
            taken.value |= group(at, 4);
            taken.after = at + 5;
            most = LAST_GROUP_MAX;
        }
    }
    uint32_t last = taken.after[-1];
    if (at[1] < MORE || last == 0 || last > most)
        return (struct taken){.value = 0, .after = fault};
    return taken;
}

/* The next number; 0 after a fault. */
INLINE uint32_t take(struct reader *reader)
{
    const uint8_t *at = reader->at;
    if (at[0] < MORE) {
        reader->at = at + 1;
        return at[0];
    }
    if (at[1] != 0 && at[1] < MORE) {
        reader->at = at + 2;
        return group(at, 0) | group(at, 1);
    }
    struct taken taken = take_long(at, reader->fault);
    reader->at = taken.after;
    return taken.value;
}

INLINE uint32_t take_between(struct reader *reader, uint32_t least, uint32_t most)
{
    uint32_t value = take(reader);
    if (value >= least && value <= most)
        return value;
    reader->at = reader->fault;
    return 0;
}

INLINE void take_setup(struct reader *reader, struct mc_setup *setup)
{
    take_between(reader, MC_LAYOUT, MC_LAYOUT);
    take_between(reader, EDITION, EDITION);
    setup->level_count = take_between(reader, 0, MC_LEVELS);
    for (uint32_t i = 0; i < setup->level_count; i++) {
        struct mc_level_row *row = &setup->levels[i];
        row->level = take(reader);
        row->width = take(reader);
        row->options = take(reader);
    }
    setup->slave_count = take_between(reader, 0, MC_SLAVES);
    for (uint32_t i = 0; i < setup->slave_count; i++) {
        struct mc_slave_row *row = &setup->slaves[i];
        row->space = take(reader);
        row->base = take(reader);
        row->length = take(reader);
        row->port = take(reader);
        row->time = take(reader);
    }
    setup->master_length = take(reader);
}

INLINE void take_requests(struct reader *reader, struct mc_channel *channel)
{
    for (uint32_t level = 0; level < MC_LEVELS; level++) {
        channel->left[level] = take(reader);
        if (channel->left[level] == 0)
            continue;
        channel->direction[level] = take(reader);
        channel->space[level] = take(reader);
        channel->address[level] = take(reader);
        channel->offset[level] = take(reader);
    }
}

INLINE void take_channel(struct reader *reader, struct mc_channel *channel)
{
    *channel = (struct mc_channel){.ever = take_between(reader, 0, 1) != 0};
    channel->clock = take(reader);
    uint32_t owner = take_between(reader, 0, MC_LEVELS);
    if (owner != 0) {
        channel->phase = MC_GRANTED;
        channel->owner = owner - 1;
    }
    channel->has_asked = take_between(reader, 0, 1) != 0;
    if (channel->has_asked)
        channel->asked = take(reader);
    channel->inactive = (uint16_t)take_between(reader, 0, UINT16_MAX);
    take_requests(reader, channel);
}

/* What an image holds. */
struct content {
    struct mc_setup setup;
    struct mc_channel channel;
    size_t setup_end;
};

/* Refusal 18, which leaves anything in the content.  Rows behind the counts aren't written. */
static enum mc_refusal read_content(const uint8_t *image, size_t length, struct content *content)
{
    uint8_t bytes[IMAGE_ROOM + FENCE_LENGTH];
    if (length > IMAGE_ROOM)
        return MC_MALFORMED;
    memcpy(bytes, image, length);
    memset(bytes + length, FENCE, FENCE_LENGTH);

    const uint8_t *end = bytes + length;
    struct reader reader = {.at = bytes, .fault = end + 1};
    take_setup(&reader, &content->setup);
    content->setup_end = (size_t)(reader.at - bytes);
    take_channel(&reader, &content->channel);
    return reader.at == end ? MC_OK : MC_MALFORMED;
}

enum mc_refusal mc_read_image(const uint8_t *image, size_t length, struct mc_setup *setup,
                              struct mc_channel *channel, size_t *setup_end)
{
    struct content content = {.setup = {0}};
    enum mc_refusal refusal = read_content(image, length, &content);
    if (refusal != MC_OK)
        return refusal;
    *setup = content.setup;
    *channel = content.channel;
    *setup_end = content.setup_end;
    return MC_OK;
}

/* ---- Writing ------------------------------------------------------------- */

INLINE uint8_t *put(uint8_t *to, uint32_t value)
{
    return to + encode(value, to);
}

static uint8_t *put_setup(uint8_t *to, const struct mc_setup *setup)
{
    to = put(to, MC_LAYOUT);
    to = put(to, EDITION);
    to = put(to, setup->level_count);
    for (uint32_t i = 0; i < setup->level_count; i++) {
        const struct mc_level_row *row = &setup->levels[i];
        to = put(to, row->level);
        to = put(to, row->width);
        to = put(to, row->options);
    }
    to = put(to, setup->slave_count);
    for (uint32_t i = 0; i < setup->slave_count; i++) {
        const struct mc_slave_row *row = &setup->slaves[i];
        to = put(to, row->space);
        to = put(to, row->base);
        to = put(to, row->length);
        to = put(to, row->port);
        to = put(to, row->time);
    }
    return put(to, setup->master_length);
}

static uint8_t *put_channel(uint8_t *to, const struct mc_channel *channel)
{
    to = put(to, channel->ever);
    to = put(to, channel->clock);
    to = put(to, channel->phase == MC_GRANTED ? 1 + channel->owner : 0);
    to = put(to, channel->has_asked);
    if (channel->has_asked)
        to = put(to, channel->asked);
    to = put(to, channel->inactive);
    for (uint32_t level = 0; level < MC_LEVELS; level++) {
        to = put(to, channel->left[level]);
        if (channel->left[level] == 0)
            continue;
        to = put(to, channel->direction[level]);
        to = put(to, channel->space[level]);
        to = put(to, channel->address[level]);
        to = put(to, channel->offset[level]);
    }
    return to;
}

size_t mc_image_size(const struct mc_setup *setup, const struct mc_channel *channel)
{
    uint8_t bytes[IMAGE_ROOM];
    return (size_t)(put_channel(put_setup(bytes, setup), channel) - bytes);
}

struct mc_image_result mc_write_image(const struct mc_setup *setup,
                                      const struct mc_channel *channel, uint8_t *image,
                                      size_t capacity)
{
    uint8_t bytes[IMAGE_ROOM];
    size_t length = (size_t)(put_channel(put_setup(bytes, setup), channel) - bytes);
    if (length > capacity)
        return (struct mc_image_result){.refusal = MC_RESULT_SHORT};
    memcpy(image, bytes, length);
    return (struct mc_image_result){.length = length};
}

/* ---- The calls over an image ---------------------------------------------- */

/* Refusal 18. */
static enum mc_refusal open_image(const uint8_t *image, size_t capacity, size_t length,
                                  struct content *content)
{
    return length > capacity ? MC_MALFORMED : read_content(image, length, content);
}

/* The bytes that follow the set-up's. */
struct tail {
    size_t length;
    uint8_t bytes[CHANNEL_ROOM];
};

/* The tail of the later image, still apart from it.  Refusal 17. */
static enum mc_refusal make_tail(const struct content *content, size_t capacity, struct tail *tail)
{
    tail->length = (size_t)(put_channel(tail->bytes, &content->channel) - tail->bytes);
    return tail->length > capacity - content->setup_end ? MC_RESULT_SHORT : MC_OK;
}

/* Gives the length of the later image. */
static size_t close_image(uint8_t *image, const struct content *content, const struct tail *tail)
{
    memcpy(image + content->setup_end, tail->bytes, tail->length);
    return content->setup_end + tail->length;
}

/* Whether a list has the shape of a sheet's head and nothing after it. */
static bool is_head(const uint32_t *list, size_t count)
{
    if (count <= LEVEL_COUNT_AT || list[0] != EDITION || list[LEVEL_COUNT_AT] > MC_LEVELS)
        return false;
    size_t slave_count_at = LEVEL_COUNT_AT + 1 + list[LEVEL_COUNT_AT] * LEVEL_FIELDS;
    if (count <= slave_count_at || list[slave_count_at] > MC_SLAVES)
        return false;
    return count == slave_count_at + 1 + list[slave_count_at] * SLAVE_FIELDS;
}

struct mc_image_result mc_image_set_up(const uint32_t *list, size_t count, uint32_t master_length,
                                       uint8_t *image, size_t capacity)
{
    if (!is_head(list, count))
        return (struct mc_image_result){.refusal = MC_MALFORMED};
    struct mc_setup setup;
    struct mc_channel channel;
    mc_list_setup(list, master_length, &setup);
    enum mc_refusal refusal = mc_set_up(&setup, &channel);
    if (refusal != MC_OK)
        return (struct mc_image_result){.refusal = refusal};
    return mc_write_image(&setup, &channel, image, capacity);
}

struct mc_image_result mc_image_post(uint8_t *image, size_t capacity, size_t length,
                                     const struct mc_request *request)
{
    struct content content;
    struct tail tail;
    enum mc_refusal refusal = open_image(image, capacity, length, &content);
    if (refusal == MC_OK)
        refusal = mc_post(&content.setup, &content.channel, request);
    if (refusal == MC_OK)
        refusal = make_tail(&content, capacity, &tail);
    if (refusal != MC_OK)
        return (struct mc_image_result){.refusal = refusal, .length = length};
    return (struct mc_image_result){.length = close_image(image, &content, &tail)};
}

static const char entry_letters[] = {
    [MC_GRANT] = 'G', [MC_CYCLE] = 'C', [MC_RELEASE] = 'R', [MC_IDLE] = 'I'};

struct mc_image_step_result mc_image_step(uint8_t *image, size_t capacity, size_t length,
                                          const struct mc_stores *stores, struct mc_tally *tally)
{
    struct content content;
    struct tail tail;
    struct mc_entry entry;
    struct mc_move move;
    enum mc_refusal refusal = open_image(image, capacity, length, &content);
    if (refusal == MC_OK)
        refusal = mc_check_step(&content.setup, &content.channel, stores);
    if (refusal == MC_OK)
        refusal = mc_decide_step(&content.setup, &content.channel, stores, &entry, &move);
    if (refusal == MC_OK)
        refusal = make_tail(&content, capacity, &tail);
    if (refusal != MC_OK)
        return (struct mc_image_step_result){.refusal = refusal, .length = length};

    mc_move_bytes(&move);
    if (tally != NULL)
        *tally = mc_add_entry(*tally, &entry);
    return (struct mc_image_step_result){
        .kind = entry_letters[entry.kind],
        .length = close_image(image, &content, &tail),
        .entry = entry,
    };
}

/* Refusals 9, 8, 7, 17, in that order; or a run, which may have met 6. */
static struct mc_run_result run_content(struct content *content, size_t capacity,
                                        const struct mc_stores *stores, struct mc_tally *tally,
                                        uint32_t budget)
{
    if (capacity >= MC_IMAGE_MOST)
        return mc_run(&content->setup, &content->channel, stores, tally, budget);
    enum mc_refusal refusal = mc_check_run(&content->setup, &content->channel, stores, budget);
    return (struct mc_run_result){.refusal = refusal != MC_OK ? refusal : MC_RESULT_SHORT};
}

struct mc_image_run_result mc_image_run(uint8_t *image, size_t capacity, size_t length,
                                        const struct mc_stores *stores, struct mc_tally *tally,
                                        uint32_t budget)
{
    struct content content;
    struct mc_run_result run = {.refusal = open_image(image, capacity, length, &content)};
    if (run.refusal == MC_OK)
        run = run_content(&content, capacity, stores, tally, budget);
    if (run.refusal != MC_OK && run.refusal != MC_CLOCK_FULL)
        return (struct mc_image_run_result){.refusal = run.refusal, .length = length};

    const uint8_t *end = put_channel(image + content.setup_end, &content.channel);
    return (struct mc_image_run_result){
        .length = (size_t)(end - image), .steps = run.steps, .stop = run.refusal};
}

struct mc_told mc_image_why(const uint8_t *image, size_t capacity, size_t length, uint32_t level)
{
    struct content content;
    enum mc_refusal refusal = open_image(image, capacity, length, &content);
    if (refusal != MC_OK)
        return (struct mc_told){.refusal = refusal};
    return mc_why(&content.setup, &content.channel, level);
}
