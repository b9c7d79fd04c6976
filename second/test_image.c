/*
 * Tests of the image and of the calls over it.
 */
#include "image.h"
#include "test.h"

#include <stdlib.h>

/* ---- Images -------------------------------------------------------------- */

enum { IMAGE_ROOM = 2048, UNTOUCHED = 0xA5 };

struct image {
    size_t length;
    uint8_t bytes[IMAGE_ROOM];
};

/*
 * A buffer with an image at its start.  It is on the heap, where the sanitizer
 * sees each byte touched past it.
 */
static uint8_t *lend(const struct image *image, size_t capacity)
{
    uint8_t *buffer = malloc(capacity);
    memset(buffer, UNTOUCHED, capacity);
    memcpy(buffer, image->bytes, image->length < capacity ? image->length : capacity);
    return buffer;
}

/* Whether the later image stands in a lent buffer, the bytes past it being as they were. */
static bool holds(const uint8_t *buffer, size_t capacity, const struct image *lent,
                  const struct image *later)
{
    for (size_t i = 0; i < capacity; i++) {
        uint8_t was = i < lent->length ? lent->bytes[i] : UNTOUCHED;
        if (buffer[i] != (i < later->length ? later->bytes[i] : was))
            return false;
    }
    return true;
}

/* The machine's image, written into just enough room; with one byte less it is 17. */
static struct image image_of(const struct machine *machine)
{
    struct image image = {.length = mc_image_size(&machine->setup, &machine->channel)};
    struct image nothing = {.length = 0};
    uint8_t *buffer = lend(&nothing, image.length);
    struct mc_image_result written =
        mc_write_image(&machine->setup, &machine->channel, buffer, image.length - 1);
    CHECK(written.refusal == MC_RESULT_SHORT && written.length == 0);
    CHECK(holds(buffer, image.length, &nothing, &nothing));
    written = mc_write_image(&machine->setup, &machine->channel, buffer, image.length);
    CHECK(written.refusal == MC_OK && written.length == image.length);
    CHECK(image.length <= MC_IMAGE_MOST);
    memcpy(image.bytes, buffer, image.length);
    free(buffer);
    return image;
}

/* ---- Calls ---------------------------------------------------------------- */

enum name { POST, STEP, RUN };

struct call {
    enum name name;
    struct mc_request request;
    uint32_t budget;
};

/* What any of the calls answers; 0 where it has no such field. */
struct outcome {
    enum mc_refusal refusal;
    size_t length;
    char kind;
    struct mc_entry entry;
    uint32_t steps;
    enum mc_refusal stop;
};

static struct outcome make_call(const struct call *call, uint8_t *buffer, size_t capacity,
                                size_t length, const struct mc_stores *stores,
                                struct mc_tally *tally)
{
    if (call->name == POST) {
        struct mc_image_result posted = mc_image_post(buffer, capacity, length, &call->request);
        return (struct outcome){.refusal = posted.refusal, .length = posted.length};
    }
    if (call->name == STEP) {
        struct mc_image_step_result stepped =
            mc_image_step(buffer, capacity, length, stores, tally);
        return (struct outcome){.refusal = stepped.refusal, .length = stepped.length,
                                .kind = stepped.kind, .entry = stepped.entry};
    }
    struct mc_image_run_result ran =
        mc_image_run(buffer, capacity, length, stores, tally, call->budget);
    return (struct outcome){.refusal = ran.refusal, .length = ran.length, .steps = ran.steps,
                            .stop = ran.stop};
}

/* The same by the plain call. */
static struct outcome make_plain_call(const struct call *call, struct machine *machine)
{
    static const char letters[] = "GCRI";
    struct outcome outcome = {.refusal = MC_OK};
    if (call->name == POST)
        outcome.refusal = mc_post(&machine->setup, &machine->channel, &call->request);
    if (call->name == STEP)
        outcome.refusal = step(machine, &outcome.entry);
    if (call->name == STEP && outcome.refusal == MC_OK)
        outcome.kind = letters[outcome.entry.kind];
    if (call->name == RUN) {
        struct mc_run_result ran = run(machine, call->budget);
        outcome.steps = ran.steps;
        *(ran.refusal == MC_CLOCK_FULL ? &outcome.stop : &outcome.refusal) = ran.refusal;
    }
    outcome.length = mc_image_size(&machine->setup, &machine->channel);
    return outcome;
}

static bool same_outcome(const struct outcome *a, const struct outcome *b)
{
    return a->refusal == b->refusal && a->length == b->length && a->kind == b->kind
        && same_entry(&a->entry, &b->entry) && a->steps == b->steps && a->stop == b->stop;
}

static bool is_refused(const struct outcome *outcome, enum mc_refusal refusal, size_t length)
{
    return same_outcome(outcome, &(struct outcome){.refusal = refusal, .length = length});
}

/* The call over the machine's image, in a buffer of this capacity, with its stores and tally. */
static struct outcome call_over_image(const struct call *call, struct machine *machine,
                                      size_t capacity)
{
    struct image before = image_of(machine);
    struct mc_stores stores = stores_of(machine);
    uint8_t *buffer = lend(&before, capacity);
    struct outcome outcome =
        make_call(call, buffer, capacity, before.length, &stores, &machine->tally);
    if (outcome.refusal == MC_OK) {
        size_t end;
        CHECK(outcome.length <= capacity);
        CHECK(mc_read_image(buffer, outcome.length, &machine->setup, &machine->channel, &end)
              == MC_OK);
    } else
        CHECK(is_refused(&outcome, outcome.refusal, before.length));
    struct image later = image_of(machine);
    CHECK(later.length == outcome.length && holds(buffer, capacity, &before, &later));
    free(buffer);
    return outcome;
}

static void expect_refused(const struct call *call, const struct machine *machine,
                           size_t capacity, enum mc_refusal refusal, int line)
{
    static struct machine host;
    host = *machine;
    check_that(call_over_image(call, &host, capacity).refusal == refusal, "refusal", line);
    check_that(same_machine(&host, machine), "nothing changes", line);
}

/*
 * The same call by both ways, the host being the machine with the image.  There
 * is just enough room; with one byte less it is 17 where the later image, or any
 * that a run could give, is the longer one, and 18 where the present one is.
 */
static struct outcome call_both(const struct call *call, struct machine *plain,
                                struct machine *host)
{
    size_t before = mc_image_size(&plain->setup, &plain->channel);
    struct outcome expected = make_plain_call(call, plain);
    size_t later = call->name == RUN ? MC_IMAGE_MOST : expected.length;
    size_t enough = later > before ? later : before;
    expect_refused(call, host, enough - 1, later > before ? 17 : 18, __LINE__);
    struct outcome outcome = call_over_image(call, host, enough);
    CHECK(same_outcome(&outcome, &expected) && same_machine(host, plain));
    CHECK(memcmp(&host->setup, &plain->setup, sizeof host->setup) == 0);
    return outcome;
}

/* ---- The layout ---------------------------------------------------------- */

/* The image of a machine is these bytes, and they read as the machine. */
static void expect_bytes(const struct machine *machine, const uint8_t *bytes, size_t length,
                         size_t setup_end, int line)
{
    struct image image = image_of(machine);
    check_that(image.length == length && memcmp(image.bytes, bytes, length) == 0, "bytes", line);

    struct mc_setup setup;
    struct mc_channel channel;
    size_t end;
    memset(&setup, UNTOUCHED, sizeof setup);
    check_that(mc_read_image(bytes, length, &setup, &channel, &end) == MC_OK, "read", line);
    check_that(memcmp(&setup, &machine->setup, sizeof setup) == 0, "set-up", line);
    check_that(same_channel(&channel, &machine->channel), "channel", line);
    check_that(end == setup_end, "end of the set-up", line);
}

#define BYTES(...)                                                             \
    do {                                                                       \
        static const uint8_t bytes[] = {HEAD_BYTES, __VA_ARGS__};              \
        expect_bytes(&machine, bytes, sizeof bytes, HEAD_END, __LINE__);       \
    } while (0)

/* The set-up of the document's sheet, with 4,096 bytes of master store. */
#define HEAD_BYTES                                                             \
    2, 1, 3, 3, 4, 3, 7, 2, 2, 15, 4, 0, 1, 1, 0x80, 0x20, 16, 2, 0xC8, 1, 0x80, 0x20
enum { HEAD_END = 22 };

#define FOUR(...) __VA_ARGS__, __VA_ARGS__, __VA_ARGS__, __VA_ARGS__
#define SIXTEEN(...) FOUR(FOUR(__VA_ARGS__))

static void test_layout(void)
{
    static const struct mc_setup setup = {
        .level_count = 3,
        .levels = {{3, 4, 3}, {7, 2, 2}, {15, 4, 0}},
        .slave_count = 1,
        .slaves = {{1, 4096, 16, 2, 200}},
        .master_length = 4096,
    };
    static struct machine machine;
    start(&machine, &setup);
    BYTES(0, 0, 0, 0, 0, SIXTEEN(0));
    CHECK(post(&machine, 3, 1, 1, 4097, 7, 0) == MC_OK);
    BYTES(0, 0, 0, 0, 0, 0, 0, 0, 7, 1, 1, 0x81, 0x20, 0, FOUR(0, 0, 0));
    run(&machine, 1); /* the first grant, after 100 ns */
    BYTES(1, 100, 4, 0, 0, 0, 0, 0, 7, 1, 1, 0x81, 0x20, 0, FOUR(0, 0, 0));
    run(&machine, 1);
    BYTES(1, 0xAC, 2, 4, 0, 0, 0, 0, 0, 6, 1, 1, 0x82, 0x20, 1, FOUR(0, 0, 0));
    CHECK(post(&machine, 7, 0, 1, 4096, 2, 16) == MC_OK);
    BYTES(1, 0xAC, 2, 4, 1, 0xAC, 2, 0, 0, 0, 0, 6, 1, 1, 0x82, 0x20, 1, 0, 0, 0, 2, 0, 1, 0x80,
          0x20, 16, FOUR(0, 0));
    run(&machine, 1); /* 3 releases and is marked */
    BYTES(1, 0xF4, 3, 0, 0, 8, 0, 0, 0, 4, 1, 1, 0x84, 0x20, 3, 0, 0, 0, 2, 0, 1, 0x80, 0x20, 16,
          FOUR(0, 0));
    run(&machine, 1); /* at 630 the line falls with 7's grant, so the mark goes and 3 asks */
    BYTES(1, 0xF6, 4, 8, 1, 0xF6, 4, 0, 0, 0, 0, 4, 1, 1, 0x84, 0x20, 3, 0, 0, 0, 2, 0, 1, 0x80,
          0x20, 16, FOUR(0, 0));
    run(&machine, 5); /* all is done at 1490, and 15 owns the channel */
    BYTES(1, 0xD2, 11, 16, 0, 0, SIXTEEN(0));

    /* Granted before, and again arbitrating at clock 0: only the flag tells it from a fresh one. */
    start(&machine, &setup);
    machine.channel.ever = true;
    BYTES(1, 0, 0, 0, 0, SIXTEEN(0));

    /* What means nothing isn't written: an owner while arbitrating, a time without an asking. */
    start(&machine, &setup);
    struct image fresh = image_of(&machine);
    machine.channel.owner = 9;
    machine.channel.asked = 77;
    struct image same = image_of(&machine);
    CHECK(same.length == fresh.length && memcmp(same.bytes, fresh.bytes, same.length) == 0);
    CHECK(MC_IMAGE_MOST == 410 && MC_LAYOUT == 2 && MC_MALFORMED == 18);
}

/* The image after the first three lines of the document's sheet, by the calls over it alone. */
static void test_example(void)
{
    static const uint32_t head[] = {1, 3, 3, 4, 3, 7, 2, 2, 15, 4, 0, 1, 1, 4096, 16, 2, 200};
    static const struct mc_request request = {3, 1, 1, 4097, 7, 0};
    static const uint8_t expected[] = {
        0x02, 0x01, 0x03, 0x03, 0x04, 0x03, 0x07, 0x02, 0x02, 0x0F, 0x04, 0x00, 0x01, 0x01, 0x80,
        0x20, 0x10, 0x02, 0xC8, 0x01, 0x80, 0x20, 0x01, 0xAC, 0x02, 0x04, 0x00, 0x00, 0x00, 0x00,
        0x00, 0x06, 0x01, 0x01, 0x82, 0x20, 0x01, 0x00, 0x00, 0x00, 0x00, 0x00, 0x00, 0x00, 0x00,
        0x00, 0x00, 0x00, 0x00,
    };
    uint8_t image[MC_IMAGE_MOST], slave[16] = {0}, master[4096] = {0};
    const struct mc_stores stores = {slave, sizeof slave, master, sizeof master};

    struct mc_image_result made =
        mc_image_set_up(head, LENGTH(head), sizeof master, image, sizeof image);
    CHECK(made.refusal == MC_OK && made.length == 43 && image[HEAD_END] == 0);
    made = mc_image_post(image, sizeof image, made.length, &request);
    CHECK(made.refusal == MC_OK && image[HEAD_END] == 0);
    struct mc_image_step_result stepped =
        mc_image_step(image, sizeof image, made.length, &stores, NULL);
    CHECK(stepped.kind == 'G' && stepped.entry.clock == 100 && image[HEAD_END] == 1);
    stepped = mc_image_step(image, sizeof image, stepped.length, &stores, NULL);
    CHECK(stepped.kind == 'C' && stepped.entry.clock == 300);
    CHECK(sizeof expected == 49 && stepped.length == sizeof expected);
    CHECK(memcmp(image, expected, sizeof expected) == 0);
}

/* ---- Shape and sense ----------------------------------------------------- */

/* 18, 9 or 0, by the reader and the plain tests; what reads is written back as it was. */
static enum mc_refusal judge(const uint8_t *bytes, size_t length)
{
    struct {
        struct mc_setup setup;
        struct mc_channel channel;
        size_t end;
    } lent, read;
    memset(&lent, UNTOUCHED, sizeof lent);
    memset(&read, UNTOUCHED, sizeof read);
    if (mc_read_image(bytes, length, &read.setup, &read.channel, &read.end) != MC_OK) {
        CHECK(memcmp(&read, &lent, sizeof read) == 0);
        return MC_MALFORMED;
    }
    uint8_t back[IMAGE_ROOM];
    struct mc_image_result written =
        mc_write_image(&read.setup, &read.channel, back, sizeof back);
    CHECK(written.refusal == MC_OK && written.length == length);
    CHECK(memcmp(back, bytes, length) == 0);
    bool is_sound = mc_fits_frame(&read.setup) && !mc_is_unsound(&read.setup, &read.channel);
    return is_sound ? MC_OK : MC_UNSOUND;
}

/*
 * Questions judge an image by 18 and 9 alone, and a length past the buffer is 18.
 * 15 is in each set-up that keeps to the frame, and 16 in none.
 */
static void judge_by_questions(const uint8_t *buffer, size_t length, enum mc_refusal refusal)
{
    for (uint32_t level = 15; level <= 16; level++) {
        struct mc_told told = mc_image_why(buffer, length, length, level);
        if (refusal != MC_OK)
            CHECK(is_untold(told, refusal));
        else
            CHECK(told.refusal == MC_OK && (told.reason == MC_NOT_PRESENT) == (level == 16));
        CHECK(is_untold(mc_image_why(buffer, length, length + 1, level), MC_MALFORMED));
        CHECK(is_untold(mc_image_why(buffer, length, SIZE_MAX, level), MC_MALFORMED));
    }
}

/*
 * The calls judge an image like the plain tests, 18 and 9 before all else, and
 * change nothing: the post is of an absent level, the stores are too short and
 * the run is too long.  A length past the buffer is 18, whatever stands there.
 */
static enum mc_refusal judge_by_calls(const struct image *image)
{
    static const struct mc_stores none = {.slave_length = 0};
    static const struct call calls[] = {
        {POST, .request = {.level = 16}}, {STEP, .budget = 0}, {RUN, .budget = 65536}};
    static const enum mc_refusal next[] = {MC_LEVEL_ABSENT, MC_STORE_DIFFERS, MC_STORE_DIFFERS};
    struct mc_tally tally = {1, 2, 3, 4};
    size_t length = image->length;
    uint8_t *buffer = lend(image, length);
    enum mc_refusal refusal = judge(buffer, length);
    for (size_t i = 0; i < LENGTH(calls); i++) {
        struct outcome outcome = make_call(&calls[i], buffer, length, length, &none, &tally);
        CHECK(is_refused(&outcome, refusal != MC_OK ? refusal : next[i], length));
        outcome = make_call(&calls[i], buffer, length, length + 1, &none, &tally);
        CHECK(is_refused(&outcome, MC_MALFORMED, length + 1));
        outcome = make_call(&calls[i], buffer, length, SIZE_MAX, &none, &tally);
        CHECK(is_refused(&outcome, MC_MALFORMED, SIZE_MAX));
    }
    judge_by_questions(buffer, length, refusal);
    CHECK(holds(buffer, length, image, image));
    CHECK(same_tally(&tally, &(struct mc_tally){1, 2, 3, 4}));
    free(buffer);
    return refusal;
}

static void add_number(struct image *image, uint32_t number)
{
    for (; number >= 128; number /= 128)
        image->bytes[image->length++] = (uint8_t)(128 + number % 128);
    image->bytes[image->length++] = (uint8_t)number;
}

static void expect_judged(const uint32_t *numbers, size_t count, enum mc_refusal refusal, int line)
{
    struct image image = {.length = 0};
    for (size_t i = 0; i < count; i++)
        add_number(&image, numbers[i]);
    check_that(judge_by_calls(&image) == refusal, "judged", line);
}

#define JUDGED(refusal, ...)                                                   \
    do {                                                                       \
        static const uint32_t numbers[] = {__VA_ARGS__};                       \
        expect_judged(numbers, LENGTH(numbers), refusal, __LINE__);            \
    } while (0)

/* Parts of an image by their numbers; the slots are of levels without a request. */
#define LEVEL 15, 4, 0
#define SLAVE 1, 0, 16, 2, 200
#define SETUP 2, 1, 1, LEVEL, 1, SLAVE, 64
#define FIFTEEN_SLOTS FOUR(0, 0, 0), 0, 0, 0
#define SLOTS SIXTEEN(0)
#define FRESH 0, 0, 0, 0, 0, SLOTS
#define ANY UINT32_MAX

static void test_shape(void)
{
    JUDGED(0, SETUP, FRESH);
    JUDGED(18, SETUP, FRESH, 0);
    JUDGED(18, SETUP, 0, 0, 0, 0, 0, FIFTEEN_SLOTS);
    JUDGED(0, SETUP, 0, 0, 0, 0, 0, FIFTEEN_SLOTS, 4, 1, 1, 12, 60);
    JUDGED(18, SETUP, 0, 0, 0, 0, 0, FIFTEEN_SLOTS, 4, 1, 1, 12);
    JUDGED(18, SETUP, 0, 0, 0, 0, 0, FIFTEEN_SLOTS, 4, 1, 1, 12, 60, 0);
    JUDGED(18, 0, 1, 1, LEVEL, 1, SLAVE, 64, FRESH);
    JUDGED(18, 1, 1, 1, LEVEL, 1, SLAVE, 64, FRESH);
    JUDGED(18, 3, 1, 1, LEVEL, 1, SLAVE, 64, FRESH);
    JUDGED(18, ANY, 1, 1, LEVEL, 1, SLAVE, 64, FRESH);
    JUDGED(18, 2, 0, 1, LEVEL, 1, SLAVE, 64, FRESH);
    JUDGED(18, 2, 2, 1, LEVEL, 1, SLAVE, 64, FRESH);
    JUDGED(9, 2, 1, 16, SIXTEEN(LEVEL), 1, SLAVE, 64, FRESH);
    JUDGED(18, 2, 1, 17, SIXTEEN(LEVEL), LEVEL, 1, SLAVE, 64, FRESH);
    JUDGED(18, 2, 1, ANY, LEVEL, 1, SLAVE, 64, FRESH);
    JUDGED(9, 2, 1, 1, LEVEL, 16, SIXTEEN(SLAVE), 64, FRESH);
    JUDGED(18, 2, 1, 1, LEVEL, 17, SIXTEEN(SLAVE), SLAVE, 64, FRESH);
    JUDGED(18, 2, 1, 1, LEVEL, ANY, SLAVE, 64, FRESH);
    JUDGED(0, SETUP, 1, 0, 16, 0, 0, SLOTS);
    JUDGED(18, SETUP, 1, 0, 17, 0, 0, SLOTS);
    JUDGED(18, SETUP, 1, 0, ANY, 0, 0, SLOTS);
    JUDGED(9, SETUP, 1, 0, 16, 1, 0, 0, SLOTS);
    JUDGED(18, SETUP, 1, 0, 16, 2, 0, 0, SLOTS);
    JUDGED(9, SETUP, 1, 0, 0, 0, 65535, SLOTS);
    JUDGED(18, SETUP, 1, 0, 0, 0, 65536, SLOTS);

    struct image too_long = {.length = IMAGE_ROOM};
    memset(too_long.bytes, 1, IMAGE_ROOM);
    CHECK(judge_by_calls(&too_long) == MC_MALFORMED);
}

/* The flag of the grants is 0 or 1, and layout 1, which was without it, isn't read. */
static void test_flag(void)
{
    JUDGED(0, SETUP, 0, 0, 0, 0, 0, SLOTS);
    JUDGED(0, SETUP, 1, 0, 0, 0, 0, SLOTS);
    JUDGED(18, SETUP, 2, 0, 0, 0, 0, SLOTS);
    JUDGED(18, SETUP, 127, 0, 0, 0, 0, SLOTS);
    JUDGED(18, SETUP, 128, 0, 0, 0, 0, SLOTS);
    JUDGED(18, SETUP, 129, 0, 0, 0, 0, SLOTS);
    JUDGED(18, SETUP, 256, 0, 0, 0, 0, SLOTS);
    JUDGED(18, SETUP, ANY, 0, 0, 0, 0, SLOTS);
    JUDGED(18, SETUP, 2, ANY, 0, 0, 0, SLOTS);

    /* The images of layout 1: fresh, and as 15 owns the channel at 100. */
    JUDGED(18, 1, 1, 1, LEVEL, 1, SLAVE, 64, 0, 0, 0, 0, SLOTS);
    JUDGED(18, 1, 1, 1, LEVEL, 1, SLAVE, 64, 100, 16, 0, 0, SLOTS);
    /* The same under the new number lack the flag. */
    JUDGED(18, SETUP, 0, 0, 0, 0, SLOTS);
    JUDGED(18, SETUP, 1, 16, 0, 0, SLOTS);
    JUDGED(18, SETUP, 100, 16, 0, 0, SLOTS);
}

/* In an image of the right shape the numbers may be any; 18 comes before 9. */
static void test_sense(void)
{
    JUDGED(9, 2, 1, 0, 1, SLAVE, 64, FRESH);
    JUDGED(9, 2, 1, 1, LEVEL, 0, 64, FRESH);
    JUDGED(9, 2, 1, 1, ANY, 4, 0, 1, SLAVE, 64, FRESH);
    JUDGED(9, 2, 1, 1, 15, ANY, 0, 1, SLAVE, 64, FRESH);
    JUDGED(9, 2, 1, 1, 15, 4, ANY, 1, SLAVE, 64, FRESH);
    JUDGED(9, 2, 1, 1, LEVEL, 1, 2, 0, 16, 2, 200, 64, FRESH);
    JUDGED(9, 2, 1, 1, LEVEL, 1, 1, ANY, ANY, 2, 200, 64, FRESH);
    JUDGED(9, 2, 1, 1, LEVEL, 1, 1, 0, 16, 3, 200, 64, FRESH);
    JUDGED(9, 2, 1, 1, LEVEL, 1, 1, 0, 16, 2, 199, 64, FRESH);
    JUDGED(9, 2, 1, 1, LEVEL, 1, SLAVE, 0, FRESH);
    JUDGED(0, 2, 1, 1, LEVEL, 1, SLAVE, 65536, FRESH);
    JUDGED(9, 2, 1, 1, LEVEL, 1, SLAVE, 65537, FRESH);
    JUDGED(0, SETUP, 1, 4000000000, 0, 0, 0, SLOTS);
    JUDGED(9, SETUP, 1, 4000000001, 0, 0, 0, SLOTS);
    JUDGED(9, SETUP, 1, ANY, 0, 0, 0, SLOTS);
    JUDGED(9, SETUP, 1, 0, 1, 0, 0, SLOTS);
    JUDGED(9, SETUP, 1, 0, 0, 1, 0, 0, SLOTS);
    JUDGED(9, SETUP, 0, 0, 0, 0, 0, 1, 1, 1, 12, 60, FIFTEEN_SLOTS);
    JUDGED(9, SETUP, 0, 0, 0, 0, 0, FIFTEEN_SLOTS, 5, 1, 1, 12, 59);
    JUDGED(9, SETUP, 0, 0, 0, 0, 0, FIFTEEN_SLOTS, 4, 2, 1, 12, 60);
    JUDGED(9, SETUP, 0, 0, 0, 0, 0, FIFTEEN_SLOTS, 4, 1, 2, 12, 60);
    JUDGED(9, SETUP, 0, 0, 0, 0, 0, FIFTEEN_SLOTS, 4, 1, 1, 12, 61);
    JUDGED(9, 2, 1, 16, SIXTEEN(ANY, ANY, ANY), 16, SIXTEEN(ANY, ANY, ANY, ANY, ANY), ANY, 1, ANY,
           16, 1, ANY, 65535, SIXTEEN(ANY, ANY, ANY, ANY, ANY));
    JUDGED(18, SETUP, 1, ANY, 0, 0, 0, SLOTS, 0);
    JUDGED(18, 2, 1, 0, 0, 0, 1, ANY, 0, 2, 0, 0, SLOTS);
}

/* With level 3 fair, and 15 waiting: the line is active, so 3 may be marked. */
#define TWO_LEVELS 2, 1, 2, 3, 4, 2, LEVEL, 1, SLAVE, 64
#define WAITING FIFTEEN_SLOTS, 4, 1, 1, 12, 60

/* Never granted, which is 9 with an owner, a mark or a clock, and fine with a request. */
static void test_never_granted(void)
{
    JUDGED(9, SETUP, 0, 0, 16, 0, 0, SLOTS);
    JUDGED(0, SETUP, 1, 0, 16, 0, 0, SLOTS);
    JUDGED(9, SETUP, 0, 1, 0, 0, 0, SLOTS);
    JUDGED(0, SETUP, 1, 1, 0, 0, 0, SLOTS);
    JUDGED(9, SETUP, 0, 4000000000, 0, 0, 0, SLOTS);
    JUDGED(9, TWO_LEVELS, 0, 0, 0, 0, 8, WAITING);
    JUDGED(0, TWO_LEVELS, 1, 0, 0, 0, 8, WAITING);
    JUDGED(0, TWO_LEVELS, 0, 0, 0, 0, 0, WAITING);
    JUDGED(0, TWO_LEVELS, 1, 0, 0, 0, 0, WAITING);
}

/* The bytes of the flag and the clock, between the set-up and the rest. */
#define FLAG(refusal, ...)                                                     \
    do {                                                                       \
        static const struct image image = {                                    \
            .length = sizeof(uint8_t[]){HEAD_BYTES, __VA_ARGS__, REST},        \
            .bytes = {HEAD_BYTES, __VA_ARGS__, REST}};                         \
        CHECK(judge_by_calls(&image) == refusal);                              \
    } while (0)
#define REST 0, 0, 0, SIXTEEN(0)

/* The bytes of a number as the clock. */
#define NUMBER(refusal, ...) FLAG(refusal, 1, __VA_ARGS__)

static void test_numbers(void)
{
    NUMBER(0, 0x7F);
    NUMBER(0, 0x80, 0x01);
    NUMBER(0, 0xFF, 0x7F);
    NUMBER(0, 0x80, 0x80, 0x01);
    NUMBER(0, 0xFF, 0xFF, 0x7F);
    NUMBER(0, 0x80, 0x80, 0x80, 0x01);
    NUMBER(0, 0xFF, 0xFF, 0xFF, 0x7F);
    NUMBER(0, 0x80, 0x80, 0x80, 0x80, 0x01);
    NUMBER(9, 0xFF, 0xFF, 0xFF, 0xFF, 0x0F);
    NUMBER(18, 0x80, 0x00);
    NUMBER(18, 0xFF, 0x80, 0x00);
    NUMBER(18, 0xFF, 0xFF, 0x80, 0x00);
    NUMBER(18, 0xFF, 0xFF, 0xFF, 0x80, 0x00);
    NUMBER(18, 0x80, 0x80, 0x80, 0x80, 0x10);
    NUMBER(18, 0xFF, 0xFF, 0xFF, 0xFF, 0x8F, 0x00);
    NUMBER(18, 0xFF, 0xFF, 0xFF, 0xFF, 0xFF, 0x01);

    FLAG(0, 0x00, 0);
    FLAG(0, 0x01, 0);
    FLAG(18, 0x02, 0);
    FLAG(18, 0x80, 0);
    FLAG(18, 0x80, 0x00, 0);
    FLAG(18, 0x81, 0x00, 0);
    FLAG(18, 0x80, 0x01, 0);
}

/* ---- The set-up ---------------------------------------------------------- */

static void expect_set_up(const uint32_t *list, size_t count, uint32_t master_length,
                          size_t capacity, enum mc_refusal refusal, int line)
{
    struct image nothing = {.length = 0}, first = {.length = 0};
    uint8_t *buffer = lend(&nothing, capacity);
    struct mc_image_result result =
        mc_image_set_up(list, count, master_length, buffer, capacity);
    check_that(result.refusal == refusal, "set-up", line);
    if (refusal == MC_OK) {
        add_number(&first, 2);
        for (size_t i = 0; i < count; i++)
            add_number(&first, list[i]);
        add_number(&first, master_length);
        for (int i = 0; i < 5 + MC_LEVELS; i++)
            add_number(&first, 0);
    }
    check_that(result.length == first.length, "length", line);
    check_that(holds(buffer, capacity, &nothing, &first), "first image", line);
    free(buffer);
}

#define SET_UP(refusal, master_length, capacity, ...)                          \
    do {                                                                       \
        static const uint32_t list[] = {__VA_ARGS__};                          \
        expect_set_up(list, LENGTH(list), master_length, capacity, refusal, __LINE__); \
    } while (0)

static void test_set_up(void)
{
    enum { FIRST_LENGTH = 13 + 1 + 21 };
    SET_UP(0, 64, MC_IMAGE_MOST, 1, 1, LEVEL, 1, SLAVE);
    SET_UP(0, 64, FIRST_LENGTH, 1, 1, LEVEL, 1, SLAVE);
    SET_UP(17, 64, FIRST_LENGTH - 1, 1, 1, LEVEL, 1, SLAVE);
    SET_UP(17, 64, 0, 1, 1, LEVEL, 1, SLAVE);
    SET_UP(0, 65536, MC_IMAGE_MOST, 1, 2, 3, 2, 7, LEVEL, 2, SLAVE, 0, 65532, 4, 1, 1950);

    expect_set_up(NULL, 0, 64, MC_IMAGE_MOST, 18, __LINE__);
    SET_UP(18, 64, MC_IMAGE_MOST, 1);
    SET_UP(18, 64, MC_IMAGE_MOST, 1, 0);
    SET_UP(18, 64, MC_IMAGE_MOST, 0, 1, LEVEL, 1, SLAVE);
    SET_UP(18, 64, MC_IMAGE_MOST, 2, 1, LEVEL, 1, SLAVE);
    SET_UP(18, 64, MC_IMAGE_MOST, 1, 1, LEVEL);
    SET_UP(18, 64, MC_IMAGE_MOST, 1, 1, 15, 4);
    SET_UP(18, 64, MC_IMAGE_MOST, 1, 1, LEVEL, 1, 1, 0, 16, 2);
    SET_UP(18, 64, MC_IMAGE_MOST, 1, 1, LEVEL, 1, SLAVE, 0);
    SET_UP(18, 64, MC_IMAGE_MOST, 1, UINT32_MAX, LEVEL, 1, SLAVE);
    SET_UP(18, 64, MC_IMAGE_MOST, 1, 1, LEVEL, UINT32_MAX, SLAVE);
    SET_UP(18, 64, MC_IMAGE_MOST, 1, 17, SIXTEEN(LEVEL), LEVEL, 1, SLAVE);
    SET_UP(18, 64, MC_IMAGE_MOST, 1, 1, LEVEL, 17, SIXTEEN(SLAVE), SLAVE);
    SET_UP(18, 0, 0, 1, 1, 14, 4, 0, 1, SLAVE, 0);

    SET_UP(9, 64, 0, 1, 0, 0);
    SET_UP(9, 64, 0, 1, 0, 1, SLAVE);
    SET_UP(9, 64, 0, 1, 1, LEVEL, 0);
    SET_UP(9, 64, 0, 1, 1, 14, 4, 0, 1, SLAVE);
    SET_UP(9, 64, 0, 1, 1, LEVEL, 2, SLAVE, SLAVE);
    SET_UP(9, 0, 0, 1, 1, LEVEL, 1, SLAVE);
    SET_UP(9, 65537, 0, 1, 1, LEVEL, 1, SLAVE);
    SET_UP(9, UINT32_MAX, 0, 1, 1, LEVEL, 1, SLAVE);
}

/* ---- Room, and the order of refusals --------------------------------------- */

/* A step by both ways, which the machine then has behind it. */
static void expect_step(struct machine *machine, char kind, enum mc_ending ending,
                        bool gets_longer, int line)
{
    static const struct call one_step = {STEP, .budget = 0};
    static struct machine host;
    size_t before = mc_image_size(&machine->setup, &machine->channel);
    host = *machine;
    struct outcome outcome = call_both(&one_step, machine, &host);
    check_that(outcome.kind == kind && outcome.entry.ending == ending, "step", line);
    check_that((outcome.length > before) == gets_longer, "length", line);
}

#define STEPS(kind, ending, gets_longer)                                       \
    expect_step(&machine, kind, ending, gets_longer, __LINE__)

/* What makes an image longer; a release without a request and an idle step never do. */
static void test_room(void)
{
    static struct machine machine;
    start(&machine, &small_setup);
    STEPS('G', MC_KEPT, false);
    STEPS('I', MC_KEPT, false);
    CHECK(post(&machine, 3, 1, 1, 4096, 8, 1) == MC_OK);
    STEPS('R', MC_KEPT, false);

    start(&machine, &small_setup);
    CHECK(post(&machine, 3, 1, 1, 4096, 8, 1) == MC_OK);
    CHECK(post(&machine, 15, 1, 1, 4096, 8, 1) == MC_OK);
    STEPS('G', MC_KEPT, true); /* by the asked time */
    STEPS('C', MC_KEPT, true); /* by the clock */
    STEPS('C', MC_MARKED, false);

    struct mc_setup setup = small_setup;
    setup.levels[2] = (struct mc_level_row){14, 4, MC_BURST | MC_FAIR};
    start(&machine, &setup);
    CHECK(post(&machine, 14, 1, 1, 4162, 4, 1) == MC_OK);
    STEPS('G', MC_KEPT, false);
    CHECK(post(&machine, 15, 1, 1, 4096, 8, 1) == MC_OK);
    STEPS('C', MC_MARKED, true); /* by the clock and the mark */
}

#define REFUSED(refusal, capacity, ...)                                        \
    expect_refused(&(struct call){__VA_ARGS__}, &machine, capacity, refusal, __LINE__)

/* Each call has the faults of all later refusals too, and there is no room. */
static void test_order(void)
{
    static struct machine machine, plain;
    start(&machine, &small_setup);
    CHECK(post(&machine, 3, 1, 1, 4096, 8, 1) == MC_OK);
    CHECK(post(&machine, 9, 1, 0, 0, 8, 1) == MC_OK);
    machine.channel.ever = true;
    machine.channel.clock = MC_CLOCK_LIMIT - 129;
    struct image image = image_of(&machine);
    size_t full = image.length;
    CHECK(judge_by_calls(&image) == MC_OK); /* by 8, where a step would be 6 */
    REFUSED(1, full, POST, .request = {4, 2, 2, UINT32_MAX, 0, UINT32_MAX});
    REFUSED(2, full, POST, .request = {3, 2, 2, UINT32_MAX, 0, UINT32_MAX});
    REFUSED(3, full, POST, .request = {7, 2, 1, UINT32_MAX, 4, UINT32_MAX});
    REFUSED(4, full, POST, .request = {7, 1, 1, UINT32_MAX, 4, UINT32_MAX});
    REFUSED(5, full, POST, .request = {7, 1, 1, 4096, 4, UINT32_MAX});
    REFUSED(17, full, POST, .request = {7, 1, 1, 4096, 4, 4092});
    REFUSED(6, full, STEP, .budget = 0);
    REFUSED(7, full, RUN, .budget = 65536);
    REFUSED(7, 409, RUN, .budget = UINT32_MAX);
    REFUSED(7, 410, RUN, .budget = 65536);
    REFUSED(17, 409, RUN, .budget = 65535);
    REFUSED(17, 409, RUN, .budget = 0);
    machine.channel.clock--;
    REFUSED(17, full, STEP, .budget = 0);

    /* A run that meets 6 isn't refused. */
    static const struct call run_on = {RUN, .budget = 65535};
    plain = machine;
    struct outcome outcome = call_both(&run_on, &plain, &machine);
    CHECK(outcome.refusal == MC_OK && outcome.steps == 1 && outcome.stop == MC_CLOCK_FULL);
}

/* ---- Why a level waits ------------------------------------------------------ */

/*
 * What is told of a level over an image that fills its buffer, and over the same
 * with a byte behind it.  Nothing is changed.  In a buffer that is too short the
 * image is malformed, whatever else it is.
 */
static void expect_told(const uint32_t *numbers, size_t count, uint32_t level,
                        enum mc_refusal refusal, enum mc_reason reason, uint32_t told, int line)
{
    struct image image = {.length = 0};
    for (size_t i = 0; i < count; i++)
        add_number(&image, numbers[i]);
    size_t length = image.length;
    for (size_t capacity = length - 1; capacity <= length + 1; capacity++) {
        uint8_t *buffer = lend(&image, capacity);
        struct mc_told answer = mc_image_why(buffer, capacity, length, level);
        check_that(capacity < length ? is_untold(answer, MC_MALFORMED)
                                     : is_told(answer, refusal, reason, told), "told", line);
        check_that(holds(buffer, capacity, &image, &image), "nothing changes", line);
        free(buffer);
    }
}

#define TOLD_OF(level, reason, told, ...)                                      \
    do {                                                                       \
        static const uint32_t numbers[] = {THREE_LEVELS, __VA_ARGS__};         \
        expect_told(numbers, LENGTH(numbers), level, MC_OK, reason, told, __LINE__); \
    } while (0)
#define TOLD(level, reason, ...) TOLD_OF(level, reason, 0, __VA_ARGS__)
#define UNTOLD(level, refusal, ...)                                            \
    do {                                                                       \
        static const uint32_t numbers[] = {__VA_ARGS__};                       \
        expect_told(numbers, LENGTH(numbers), level, refusal, (enum mc_reason)0, 0, __LINE__); \
    } while (0)

/* Level 3 is fair, 7 isn't, and then there is 15; the slots with all three open, or some. */
#define THREE_LEVELS 2, 1, 3, 3, 4, 2, 7, 4, 0, LEVEL, 1, SLAVE, 64
#define OPEN 4, 1, 1, 12, 60
#define SLOTS_8_TO_14 0, 0, 0, 0, 0, 0, 0
#define OPEN_7_15 0, 0, 0, 0, 0, 0, 0, OPEN, SLOTS_8_TO_14, OPEN
#define OPEN_3_7 0, 0, 0, OPEN, 0, 0, 0, OPEN, SLOTS_8_TO_14, 0
#define OPEN_ALL 0, 0, 0, OPEN, 0, 0, 0, OPEN, SLOTS_8_TO_14, OPEN

/* Every reason, by the numbers of an image. */
static void test_why(void)
{
    /* Arbitrating, before the first grant. */
    TOLD(4, MC_NOT_PRESENT, 0, 0, 0, 0, 0, OPEN_ALL);
    TOLD(16, MC_NOT_PRESENT, 0, 0, 0, 0, 0, OPEN_ALL);
    TOLD(259, MC_NOT_PRESENT, 0, 0, 0, 0, 0, OPEN_ALL);
    TOLD(271, MC_NOT_PRESENT, 0, 0, 0, 0, 0, OPEN_ALL);
    TOLD(65551, MC_NOT_PRESENT, 0, 0, 0, 0, 0, OPEN_ALL);
    TOLD(ANY, MC_NOT_PRESENT, 0, 0, 0, 0, 0, OPEN_ALL);
    TOLD(3, MC_NO_REQUEST, 0, 0, 0, 0, 0, OPEN_7_15);
    TOLD(7, MC_WINS_NEXT, 0, 0, 0, 0, 0, OPEN_7_15);
    TOLD_OF(15, MC_OUTRANKED, 7, 0, 0, 0, 0, 0, OPEN_7_15);
    TOLD(3, MC_WINS_NEXT, 0, 0, 0, 0, 0, OPEN_ALL);
    TOLD_OF(7, MC_OUTRANKED, 3, 0, 0, 0, 0, 0, OPEN_ALL);
    TOLD(15, MC_NO_REQUEST, 0, 0, 0, 0, 0, OPEN_3_7);
    TOLD(15, MC_NO_REQUEST, 0, 0, 0, 0, 0, SLOTS);

    /* 3 owns; then it is marked, and 7 wins and owns. */
    TOLD(3, MC_OWNS, 1, 100, 4, 1, 100, 0, OPEN_ALL);
    TOLD_OF(7, MC_HOLDS, 3, 1, 100, 4, 1, 100, 0, OPEN_ALL);
    TOLD_OF(15, MC_HOLDS, 3, 1, 100, 4, 1, 100, 0, OPEN_ALL);
    TOLD(4, MC_NOT_PRESENT, 1, 100, 4, 1, 100, 0, OPEN_ALL);
    TOLD(3, MC_INACTIVE, 1, 500, 0, 0, 8, OPEN_ALL);
    TOLD(7, MC_WINS_NEXT, 1, 500, 0, 0, 8, OPEN_ALL);
    TOLD_OF(15, MC_OUTRANKED, 7, 1, 500, 0, 0, 8, OPEN_ALL);
    TOLD(3, MC_INACTIVE, 1, 630, 8, 1, 630, 8, OPEN_ALL);
    TOLD(7, MC_OWNS, 1, 630, 8, 1, 630, 8, OPEN_ALL);
    TOLD_OF(15, MC_HOLDS, 7, 1, 630, 8, 1, 630, 8, OPEN_ALL);
    TOLD(3, MC_NO_REQUEST, 1, 630, 8, 1, 630, 8, OPEN_7_15);

    /* 15 holds without a request. */
    TOLD(15, MC_NO_REQUEST, 1, 100, 16, 0, 0, SLOTS);
    TOLD(15, MC_NO_REQUEST, 1, 100, 16, 1, 100, 0, OPEN_3_7);
    TOLD_OF(3, MC_HOLDS, 15, 1, 100, 16, 1, 100, 0, OPEN_3_7);
    TOLD(3, MC_INACTIVE, 1, 100, 16, 1, 100, 8, OPEN_3_7);
    TOLD_OF(7, MC_HOLDS, 15, 1, 100, 16, 1, 100, 8, OPEN_3_7);

    /* The clock is full. */
    TOLD(3, MC_WINS_NEXT, 1, 4000000000, 0, 0, 0, OPEN_ALL);
    TOLD_OF(7, MC_OUTRANKED, 3, 1, 4000000000, 0, 0, 0, OPEN_ALL);
}

/* 18, then 9, and neither has a reason or a level; a level to name or to miss is no matter. */
static void test_why_refusals(void)
{
    UNTOLD(3, 9, THREE_LEVELS, 1, 4000000001, 0, 0, 0, OPEN_ALL);
    UNTOLD(7, 9, THREE_LEVELS, 1, 4000000001, 0, 0, 0, OPEN_ALL);
    UNTOLD(4, 9, THREE_LEVELS, 1, 4000000001, 0, 0, 0, OPEN_ALL);
    UNTOLD(ANY, 9, THREE_LEVELS, 1, 4000000001, 0, 0, 0, OPEN_ALL);
    UNTOLD(7, 9, THREE_LEVELS, 1, 100, 4, 0, 0, OPEN_ALL); /* nobody asks */
    UNTOLD(15, 9, 2, 1, 1, LEVEL, 1, SLAVE, 0, FRESH);     /* no master store */
    UNTOLD(16, 9, 2, 1, 1, LEVEL, 1, SLAVE, 0, FRESH);
    UNTOLD(15, 9, 2, 1, 0, 0, 0, FRESH);
    UNTOLD(7, 18, THREE_LEVELS, 1, 500, 0, 0, 0, OPEN_ALL, 0);
    UNTOLD(16, 18, THREE_LEVELS, 1, 500, 0, 0, 0, OPEN_ALL, 0);
    UNTOLD(7, 18, THREE_LEVELS, 1, 500, 17, 0, 0, OPEN_ALL);
    UNTOLD(15, 18, 1, 1, 1, LEVEL, 1, SLAVE, 64, FRESH);

    /* Both faults: in the clock and behind the end, in the master store and in the marks. */
    UNTOLD(7, 18, THREE_LEVELS, 1, ANY, 0, 0, 0, OPEN_ALL, 0);
    UNTOLD(16, 18, THREE_LEVELS, 1, ANY, 0, 0, 0, OPEN_ALL, 0);
    UNTOLD(15, 18, 2, 1, 1, LEVEL, 1, SLAVE, 0, 0, 0, 0, 0, 65536, SLOTS);

    /* No image at all. */
    CHECK(is_untold(mc_image_why((const uint8_t *)"", 0, 0, 15), MC_MALFORMED));
}

/* All questions by both ways. */
static void ask_both(const struct machine *machine)
{
    struct image image = image_of(machine);
    uint8_t *buffer = lend(&image, image.length);
    for (size_t i = 0; i < LENGTH(any_levels); i++) {
        struct mc_told plain = why(machine, any_levels[i]);
        CHECK(plain.refusal == MC_OK);
        struct mc_told told = mc_image_why(buffer, image.length, image.length, any_levels[i]);
        CHECK(is_told(told, MC_OK, plain.reason, plain.level));
    }
    CHECK(holds(buffer, image.length, &image, &image));
    free(buffer);
}

/* ---- Changed bytes --------------------------------------------------------- */

/*
 * Every beginning of an image and every longer one is malformed; with a bit
 * turned it is 18, 9 or sound, which is counted.
 */
static void change_image(const struct image *image, unsigned long *judged)
{
    struct image changed = *image;
    CHECK(judge_by_calls(image) == MC_OK);
    for (changed.length = 0; changed.length < image->length; changed.length++)
        CHECK(judge_by_calls(&changed) == MC_MALFORMED);
    changed.length = image->length + 1;
    for (uint32_t byte = 0; byte < 256; byte++) {
        changed.bytes[image->length] = (uint8_t)byte;
        CHECK(judge_by_calls(&changed) == MC_MALFORMED);
    }
    changed.length = image->length;
    for (size_t bit = 0; bit < 8 * image->length; bit++) {
        changed.bytes[bit / 8] ^= (uint8_t)(1 << bit % 8);
        judged[judge_by_calls(&changed)]++;
        changed.bytes[bit / 8] ^= (uint8_t)(1 << bit % 8);
    }
}

/* ---- Random machines --------------------------------------------------------- */

static void test_random(void)
{
    static struct machine plain, host;
    struct random random = {82611};
    unsigned long judged[MC_MALFORMED + 1] = {0};
    for (int trial = 0; trial < 120; trial++) {
        struct mc_setup setup = random_setup(&random);
        if (!mc_fits_frame(&setup))
            continue;
        start(&plain, &setup);
        plain.channel.ever = below(&random, 4) == 0;
        if (plain.channel.ever && below(&random, 2) == 0)
            plain.channel.clock = MC_CLOCK_LIMIT - below(&random, 30000);
        host = plain;
        for (int i = 0; i < 40; i++) {
            struct call call = {.name = (enum name)below(&random, 3)};
            call.request = random_request(&random, &setup);
            call.budget = below(&random, 20);
            call_both(&call, &plain, &host);
            ask_both(&host);
        }
        struct image image = image_of(&plain);
        change_image(&image, judged);
    }
    CHECK(judged[MC_MALFORMED] > 10000 && judged[MC_UNSOUND] > 10000 && judged[MC_OK] > 10000);
    printf("bits turned: %lu malformed, %lu unsound, %lu sound\n", judged[MC_MALFORMED],
           judged[MC_UNSOUND], judged[MC_OK]);
}

/* ---- The longest image -------------------------------------------------------- */

/* All rows lie above 2 MB; three are long, and a request of each level fits into those. */
static struct mc_setup longest_setup(void)
{
    struct mc_setup setup = {.level_count = 16, .slave_count = 16, .master_length = 65536};
    for (uint32_t i = 0; i < 16; i++) {
        setup.levels[i] = (struct mc_level_row){i, 4, i == 14 ? MC_FAIR : 0};
        setup.slaves[i] =
            (struct mc_slave_row){1, 0x200000 + 0x10000 * i, i < 3 ? 16384 : 1260, 1, 1950};
    }
    return setup;
}

static void post_long(struct machine *machine, uint32_t level)
{
    const struct call call = {
        POST, .request = {level, 1, 1, 0x200000 + 0x10000 * (level % 3), 4096, 16384}};
    CHECK(call_over_image(&call, machine, MC_IMAGE_MOST).refusal == MC_OK);
}

static void run_on(struct machine *machine, uint32_t budget)
{
    const struct call call = {RUN, .budget = budget};
    struct outcome outcome = call_over_image(&call, machine, MC_IMAGE_MOST);
    CHECK(outcome.refusal == MC_OK && outcome.steps == budget && outcome.stop == MC_OK);
}

/* By the calls over the image alone: 14 is marked, 0 owns and all the others wait. */
static void test_longest(void)
{
    static struct machine machine;
    static const struct call post_again = {POST, .request = {15, 1, 1, 0x200000, 4, 0}};
    unsigned long judged[MC_MALFORMED + 1] = {0};
    struct mc_setup setup = longest_setup();
    start(&machine, &setup);
    for (int i = 0; i < 34; i++) { /* until the clock takes five bytes */
        post_long(&machine, 15);
        run_on(&machine, 1024 + 4096); /* a grant for each transfer of four cycles */
    }
    post_long(&machine, 14);
    run_on(&machine, 1);
    for (uint32_t level = 0; level < 16; level++)
        if (level != 14)
            post_long(&machine, level);
    run_on(&machine, 5);
    CHECK(machine.channel.inactive == 1 << 14 && machine.channel.owner == 0);
    struct image image = image_of(&machine);
    CHECK(image.length == MC_IMAGE_MOST);
    change_image(&image, judged);
    ask_both(&machine);

    expect_refused(&post_again, &machine, MC_IMAGE_MOST, MC_LEVEL_OPEN, __LINE__);
    STEPS('C', MC_KEPT, false);
    run_on(&machine, 65535);
}

int main(void)
{
    test_layout();
    test_example();
    test_shape();
    test_flag();
    test_sense();
    test_never_granted();
    test_numbers();
    test_set_up();
    test_room();
    test_order();
    test_why();
    test_why_refusals();
    test_random();
    test_longest();
    printf("%lu checks, %lu failures\n", checks, failures);
    return failures == 0 ? 0 : 1;
}
