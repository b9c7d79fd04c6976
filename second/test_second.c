/*
 * Tests of the library and of the program, whose path is the only argument.
 */
#include "test.h"

#include <stdlib.h>

/* ---- The frame ---------------------------------------------------------- */

static void expect_frame(const struct mc_setup *setup, bool fits, int line)
{
    struct mc_channel channel;
    struct mc_channel fresh = {.phase = MC_ARBITRATING};
    memset(&channel, 1, offsetof(struct mc_channel, phase));
    channel.ever = true;
    channel.clock = 1;
    check_that(mc_fits_frame(setup) == fits, "frame", line);
    check_that(mc_set_up(setup, &channel) == (fits ? MC_OK : MC_UNSOUND), "set-up", line);
    check_that(same_channel(&channel, &fresh), "fresh channel", line);
    for (uint32_t level = 15; level <= 16; level++) {
        struct mc_told told = mc_why(setup, &fresh, level);
        check_that(fits ? is_told(told, MC_OK, level == 15 ? MC_NO_REQUEST : MC_NOT_PRESENT, 0)
                        : is_untold(told, MC_UNSOUND), "why", line);
    }
}

#define FRAME(change, fits)                                                    \
    do {                                                                       \
        static struct mc_setup setup;                                          \
        setup = small_setup;                                                   \
        change;                                                                \
        expect_frame(&setup, fits, __LINE__);                                  \
    } while (0)

static void test_frame(void)
{
    FRAME((void)setup, true);
    FRAME(setup.level_count = 0, false);
    FRAME(setup.level_count = 17, false);
    FRAME(setup.level_count = UINT32_MAX, false);
    FRAME(setup.level_count = 3, false);
    FRAME(setup.slave_count = 0, false);
    FRAME(setup.slave_count = 17, false);
    FRAME(setup.master_length = 0, false);
    FRAME(setup.master_length = 1, true);
    FRAME(setup.master_length = 65536, true);
    FRAME(setup.master_length = 65537, false);
    FRAME(setup.levels[0].level = 0, true);
    FRAME(setup.levels[1].level = 3, false);
    FRAME(setup.levels[1].level = 2, false);
    FRAME(setup.levels[2].level = 15, false);
    FRAME(setup.levels[3].level = 14, false);
    FRAME(setup.levels[3].level = 16, false);
    FRAME(setup.levels[0].width = 1, false);
    FRAME(setup.levels[0].width = 2, true);
    FRAME(setup.levels[0].width = 3, false);
    FRAME(setup.levels[0].width = 8, false);
    FRAME(setup.levels[0].options = 7, true);
    FRAME(setup.levels[0].options = 8, false);
    FRAME(setup.slaves[2].space = 2, false);
    FRAME(setup.slaves[2].space = 1, true);
    FRAME(setup.slaves[0].base = 4094, false);
    FRAME(setup.slaves[0].base = 4100, false);
    FRAME(setup.slaves[0].base = 4092, true);
    FRAME(setup.slaves[0].length = 0, false);
    FRAME(setup.slaves[0].length = 62, false);
    FRAME(setup.slaves[0].length = 60, true);
    FRAME(setup.slaves[0].length = 68, false);
    FRAME(setup.slaves[1].base = 4156, false);
    FRAME(setup.slaves[1].base = 4096, false);
    FRAME(setup.slaves[1].space = 0, true);
    FRAME(setup.slaves[0].port = 0, false);
    FRAME(setup.slaves[0].port = 1, true);
    FRAME(setup.slaves[0].port = 3, false);
    FRAME(setup.slaves[0].port = 8, false);
    FRAME(setup.slaves[0].time = 199, false);
    FRAME(setup.slaves[0].time = 1950, true);
    FRAME(setup.slaves[0].time = 1951, false);
    FRAME(setup.slaves[2].base = 65520, true);
    FRAME(setup.slaves[2].base = 65524, false);
    FRAME(setup.slaves[2].base = 4294967292, false);
    FRAME(setup.slaves[1].base = 16777152, true);
    FRAME(setup.slaves[1].base = 16777156, false);
    FRAME(setup.slaves[1].length = 65536 - 80, true);
    FRAME(setup.slaves[1].length = 65536 - 76, false);
    FRAME(setup.slaves[1].length = 4294967292, false);
}

/* ---- Cycles -------------------------------------------------------------- */

static uint32_t rule_length(uint32_t address, uint32_t left, uint32_t q)
{
    uint32_t to_multiple = q - address % q;
    return left < to_multiple ? left : to_multiple;
}

static void test_cycle_table(void)
{
    for (uint32_t q = 1; q <= 4; q *= 2)
        for (uint32_t address = 0; address < 4; address++)
            for (uint32_t left = 1; left <= 4; left++)
                CHECK(mc_cycle_lengths[q / 2][address][left - 1]
                      == rule_length(address, left, q));
}

static void expect_cycles(uint32_t address, uint32_t length, uint32_t width, uint32_t port,
                          enum mc_refusal refusal, uint32_t cycles, int line)
{
    uint32_t counted = 12345;
    check_that(mc_count_cycles(address, length, width, port, &counted) == refusal, "refusal",
               line);
    check_that(counted == cycles, "cycles", line);
}

#define CYCLES(a, n, w, p, cycles) expect_cycles(a, n, w, p, MC_OK, cycles, __LINE__)
#define NO_CYCLES(a, n, w, p, refusal) expect_cycles(a, n, w, p, refusal, 0, __LINE__)

static void test_cycle_count(void)
{
    CYCLES(0, 1, 2, 1, 1);
    CYCLES(4097, 7, 4, 2, 4);
    CYCLES(3, 4, 4, 4, 2);
    CYCLES(1, 3, 4, 4, 1);
    CYCLES(0, 4, 4, 1, 4);
    CYCLES(1, 2, 2, 4, 2);
    CYCLES(16777215, 1, 4, 4, 1);
    CYCLES(16777216 - 4096, 4096, 2, 1, 4096);
    NO_CYCLES(16777216 - 4095, 4096, 2, 1, MC_OUTSIDE_SLAVE);
    NO_CYCLES(16777216, 1, 2, 1, MC_OUTSIDE_SLAVE);
    NO_CYCLES(UINT32_MAX, 4096, 2, 1, MC_OUTSIDE_SLAVE);
    NO_CYCLES(0, 0, 2, 1, MC_BAD_NUMBER);
    NO_CYCLES(0, 4097, 2, 1, MC_BAD_NUMBER);
    NO_CYCLES(0, 1, 1, 1, MC_BAD_NUMBER);
    NO_CYCLES(0, 1, 3, 1, MC_BAD_NUMBER);
    NO_CYCLES(0, 1, 8, 1, MC_BAD_NUMBER);
    NO_CYCLES(0, 1, 2, 0, MC_BAD_NUMBER);
    NO_CYCLES(0, 1, 2, 3, MC_BAD_NUMBER);
    NO_CYCLES(0, 1, 2, 8, MC_BAD_NUMBER);
    NO_CYCLES(UINT32_MAX, 0, 2, 1, MC_BAD_NUMBER);

    for (uint32_t width = 2; width <= 4; width += 2)
        for (uint32_t port = 1; port <= 4; port *= 2)
            for (uint32_t address = 0; address < 8; address++)
                for (uint32_t length = 1; length <= 40; length++) {
                    uint32_t q = width < port ? width : port;
                    uint32_t cycles = 0;
                    for (uint32_t done = 0; done < length; cycles++)
                        done += rule_length(address + done, length - done, q);
                    CYCLES(address, length, width, port, cycles);
                }
}

/* ---- Posts --------------------------------------------------------------- */

static void test_post(void)
{
    static struct machine machine;
    start(&machine, &small_setup);
    struct mc_channel fresh = machine.channel;

    CHECK(post(&machine, 4, 2, 2, UINT32_MAX, 0, UINT32_MAX) == MC_LEVEL_ABSENT);
    CHECK(post(&machine, 16, 0, 1, 4096, 1, 0) == MC_LEVEL_ABSENT);
    CHECK(post(&machine, UINT32_MAX, 0, 1, 4096, 1, 0) == MC_LEVEL_ABSENT);
    CHECK(post(&machine, 3, 0, 1, 4096, 0, 0) == MC_BAD_NUMBER);
    CHECK(post(&machine, 3, 0, 1, 0, 4097, 5000) == MC_BAD_NUMBER);
    CHECK(post(&machine, 3, 2, 1, 4096, 1, 0) == MC_BAD_NUMBER);
    CHECK(post(&machine, 3, 0, 2, 4096, 1, 0) == MC_BAD_NUMBER);
    CHECK(post(&machine, 3, 0, 1, 4095, 1, 5000) == MC_OUTSIDE_SLAVE);
    CHECK(post(&machine, 3, 0, 1, 4095, 2, 0) == MC_OUTSIDE_SLAVE);
    CHECK(post(&machine, 3, 0, 1, 4159, 2, 0) == MC_OUTSIDE_SLAVE); /* inside two rows */
    CHECK(post(&machine, 3, 0, 0, 4096, 1, 0) == MC_OUTSIDE_SLAVE);
    CHECK(post(&machine, 3, 0, 1, 4294967295, 4096, 0) == MC_OUTSIDE_SLAVE);
    CHECK(post(&machine, 3, 0, 1, 4096, 1, 4096) == MC_OUTSIDE_MASTER);
    CHECK(post(&machine, 3, 0, 1, 4096, 2, 4095) == MC_OUTSIDE_MASTER);
    CHECK(post(&machine, 3, 0, 1, 4096, 64, UINT32_MAX) == MC_OUTSIDE_MASTER);
    CHECK(same_channel(&machine.channel, &fresh));

    CHECK(post(&machine, 3, 1, 1, 4097, 63, 4033) == MC_OK);
    CHECK(machine.channel.direction[3] == 1 && machine.channel.space[3] == 1
          && machine.channel.address[3] == 4097 && machine.channel.left[3] == 63
          && machine.channel.offset[3] == 4033);
    struct mc_channel once = machine.channel;
    CHECK(post(&machine, 3, 2, 2, 0, 0, UINT32_MAX) == MC_LEVEL_OPEN);
    CHECK(same_channel(&machine.channel, &once));

    machine.channel.ever = true;
    machine.channel.clock = MC_CLOCK_LIMIT;
    CHECK(post(&machine, 15, 0, 0, 0, 16, 0) == MC_OK);
    machine.channel.clock = MC_CLOCK_LIMIT + 1;
    CHECK(post(&machine, 4, 0, 0, 0, 16, 0) == MC_UNSOUND);
}

/* An asked time of 0 is a time: 15 owns from clock 0 on, and a level asks at once. */
static void test_asked_at_zero(void)
{
    static struct machine machine;
    struct mc_entry entry;
    start(&machine, &small_setup);
    machine.channel.phase = MC_GRANTED;
    machine.channel.owner = 15;
    machine.channel.ever = true;
    CHECK(!mc_is_unsound(&machine.setup, &machine.channel));
    CHECK(post(&machine, 3, 0, 1, 4096, 4, 0) == MC_OK);
    CHECK(machine.channel.has_asked && machine.channel.asked == 0);
    CHECK(step(&machine, &entry) == MC_OK);
    CHECK(entry.kind == MC_RELEASE && entry.clock == 0 && entry.level == 15);
    CHECK(entry.has_hold && entry.hold == 0);
    CHECK(machine.channel.phase == MC_ARBITRATING && !machine.channel.has_asked);
    CHECK(machine.channel.inactive == 0);
    /* It was granted before, so the next arbitration is a later one, though the clock is 0. */
    CHECK(step(&machine, &entry) == MC_OK);
    CHECK(entry.kind == MC_GRANT && entry.clock == 130 && entry.level == 3);
}

/* ---- Steps and runs ------------------------------------------------------ */

/* A step: its kind, how long it takes, and that only a grant touches the flag. */
static void expect_time(struct machine *machine, enum mc_entry_kind kind, uint32_t time, int line)
{
    struct mc_channel before = machine->channel;
    struct mc_entry entry = {0};
    check_that(step(machine, &entry) == MC_OK && entry.kind == kind, "step", line);
    check_that(entry.clock == before.clock + time, "time", line);
    check_that(machine->channel.clock == entry.clock, "clock", line);
    check_that(machine->channel.ever == (before.ever || kind == MC_GRANT), "ever", line);
}

#define TAKES(kind, time) expect_time(&machine, kind, time, __LINE__)

/* 100 ns for the first arbitration after set-up and 130 for each later one, whoever wins. */
static void test_arbitration_time(void)
{
    static struct machine machine;
    start(&machine, &small_setup);
    CHECK(!machine.channel.ever);
    CHECK(post(&machine, 7, 1, 1, 4096, 4, 0) == MC_OK);
    TAKES(MC_GRANT, 100);
    TAKES(MC_CYCLE, 200); /* releases, its request not done */
    TAKES(MC_GRANT, 130);
    CHECK(post(&machine, 3, 1, 1, 4100, 8, 0) == MC_OK);
    TAKES(MC_CYCLE, 200); /* releases, its request done, and is marked */
    TAKES(MC_GRANT, 130);
    TAKES(MC_CYCLE, 200); /* inside a transfer */
    TAKES(MC_CYCLE, 200); /* kept after it: a burst */
    TAKES(MC_CYCLE, 200);
    TAKES(MC_CYCLE, 200);
    TAKES(MC_GRANT, 130);
    CHECK(machine.channel.owner == 15 && machine.channel.clock == 100 + 3 * 130 + 6 * 200);
    TAKES(MC_IDLE, 0);

    /* The default grant to 15 is a first grant too, and R is a release like any other. */
    start(&machine, &small_setup);
    TAKES(MC_GRANT, 100);
    CHECK(machine.channel.owner == 15);
    TAKES(MC_IDLE, 0);
    CHECK(post(&machine, 7, 1, 1, 4096, 2, 0) == MC_OK);
    TAKES(MC_RELEASE, 0);
    TAKES(MC_GRANT, 130);
    CHECK(machine.channel.owner == 7);
    TAKES(MC_CYCLE, 200);
    TAKES(MC_GRANT, 130);
    CHECK(post(&machine, 9, 1, 0, 0, 1, 0) == MC_OK);
    TAKES(MC_RELEASE, 0);
    TAKES(MC_GRANT, 130);
    CHECK(machine.channel.owner == 9);

    /* It goes by the flag: at clock 0 too, with and without a request. */
    start(&machine, &small_setup);
    machine.channel.ever = true;
    TAKES(MC_GRANT, 130);
    start(&machine, &small_setup);
    machine.channel.ever = true;
    CHECK(post(&machine, 7, 1, 1, 4096, 4, 0) == MC_OK);
    TAKES(MC_GRANT, 130);
    CHECK(machine.channel.owner == 7);

    /* The asked time is the clock after all of the grant: the 30 ns are no part of a hold. */
    CHECK(post(&machine, 9, 1, 1, 4100, 4, 0) == MC_OK);
    TAKES(MC_CYCLE, 200);
    TAKES(MC_GRANT, 130);
    CHECK(machine.channel.owner == 9 && machine.channel.asked == 460);
    CHECK(machine.channel.clock == 460 && machine.tally.hold == 200);
}

/* The same in runs, cut anywhere: the flag goes from one to the next. */
static void test_arbitration_time_of_runs(void)
{
    static struct machine machine;
    static const uint32_t clocks[] = {0, 100, 300, 430, 630, 760, 760};
    for (uint32_t first = 0; first < LENGTH(clocks); first++)
        for (uint32_t second = 0; first + second < LENGTH(clocks); second++) {
            start(&machine, &small_setup);
            CHECK(post(&machine, 7, 1, 1, 4096, 4, 0) == MC_OK);
            CHECK(run(&machine, first).steps == first);
            CHECK(machine.channel.clock == clocks[first] && machine.channel.ever == (first > 0));
            CHECK(run(&machine, second).steps == second);
            CHECK(machine.channel.clock == clocks[first + second]);
            CHECK(machine.channel.ever == (first + second > 0));
        }

    start(&machine, &small_setup);
    CHECK(run(&machine, 1).steps == 1); /* the default grant */
    CHECK(machine.channel.owner == 15 && machine.channel.clock == 100 && machine.channel.ever);
    CHECK(post(&machine, 7, 1, 1, 4096, 2, 0) == MC_OK);
    CHECK(run(&machine, 2).steps == 2);
    CHECK(machine.channel.owner == 7 && machine.channel.clock == 230);

    start(&machine, &small_setup);
    machine.channel.ever = true;
    CHECK(run(&machine, 1).steps == 1 && machine.channel.clock == 130);
}

/* Posts, taken and refused, and refused steps and runs leave the flag, whichever it is. */
static void test_flag_is_left(void)
{
    static struct machine machine, before;
    for (int ever = 0; ever < 2; ever++) {
        start(&machine, &small_setup);
        machine.channel.ever = ever != 0;
        CHECK(post(&machine, 4, 0, 1, 4096, 1, 0) == MC_LEVEL_ABSENT);
        CHECK(post(&machine, 3, 0, 1, 4096, 0, 0) == MC_BAD_NUMBER);
        CHECK(post(&machine, 3, 0, 1, 4096, 1, 0) == MC_OK);
        CHECK(post(&machine, 3, 0, 1, 4096, 1, 0) == MC_LEVEL_OPEN);
        CHECK(post(&machine, 15, 0, 1, 4096, 1, 0) == MC_OK);
        CHECK(machine.channel.ever == (ever != 0) && machine.channel.clock == 0);

        before = machine;
        struct mc_stores wrong = stores_of(&machine);
        wrong.master_length++;
        CHECK(mc_step(&machine.setup, &machine.channel, &wrong, &machine.tally, NULL)
              == MC_STORE_DIFFERS);
        CHECK(run(&machine, 65536).refusal == MC_TOO_MANY_STEPS);
        CHECK(same_machine(&machine, &before));
        machine.channel.left[15] = 4097;
        CHECK(step(&machine, NULL) == MC_UNSOUND && machine.channel.ever == (ever != 0));
        CHECK(run(&machine, 1).refusal == MC_UNSOUND && machine.channel.ever == (ever != 0));
    }
}

/* A lingering burst of level 0, asked at its grant: its transfers, and its hold. */
static void expect_linger(uint32_t port, uint32_t time, uint32_t transfers, int line)
{
    static struct machine machine;
    struct mc_setup setup = {
        .level_count = 2,
        .levels = {{0, 4, MC_BURST | MC_LINGER}, {15, 4, 0}},
        .slave_count = 1,
        .slaves = {{1, 8192, 4096, port, time}},
        .master_length = 4096,
    };
    struct mc_entry entry = {0};
    uint32_t ended = 0;
    start(&machine, &setup);
    CHECK(post(&machine, 0, 1, 1, 8192, 4096, 0) == MC_OK);
    CHECK(post(&machine, 15, 1, 1, 8192, 4, 0) == MC_OK);
    CHECK(step(&machine, &entry) == MC_OK && entry.kind == MC_GRANT && entry.level == 0);
    CHECK(machine.channel.has_asked && machine.channel.asked == 100);
    bool goes_on; /* a refused step leaves the entry as it was, and would go on for ever */
    do {
        goes_on = step(&machine, &entry) == MC_OK && entry.kind == MC_CYCLE;
        CHECK(goes_on);
        ended += (entry.address + entry.bytes) % 4 == 0;
    } while (goes_on && entry.ending == MC_KEPT && ended < 4096);
    check_that(ended == transfers, "transfers", line);
    check_that(entry.ending == MC_RELEASED && entry.has_hold && entry.hold == 7800, "hold", line);
    check_that(machine.tally.hold == 7800 && machine.tally.bytes == 4 * transfers, "tally", line);
}

static void test_linger(void)
{
    expect_linger(4, 200, 39, __LINE__);
    expect_linger(4, 300, 26, __LINE__);
    expect_linger(1, 1950, 1, __LINE__);
}

/*
 * The limit is reached but not passed, by an arbitration and by a cycle.  Before
 * its first grant a sound channel has clock 0 and is far from it.
 */
static void test_clock_limit(void)
{
    static struct machine machine, before;
    struct mc_entry entry;

    static const uint32_t too_near[] = {129, 101, 100, 99, 30, 0};
    for (size_t i = 0; i < LENGTH(too_near); i++) {
        start(&machine, &small_setup);
        machine.channel.ever = true;
        machine.channel.clock = MC_CLOCK_LIMIT - too_near[i];
        before = machine;
        CHECK(step(&machine, &entry) == MC_CLOCK_FULL && same_machine(&machine, &before));
        struct mc_run_result none = run(&machine, 1);
        CHECK(none.refusal == MC_CLOCK_FULL && none.steps == 0);
        CHECK(same_machine(&machine, &before));
    }
    machine.channel.clock = MC_CLOCK_LIMIT - 130;
    CHECK(step(&machine, &entry) == MC_OK && entry.clock == MC_CLOCK_LIMIT);

    start(&machine, &small_setup);
    machine.channel.ever = true;
    machine.channel.clock = MC_CLOCK_LIMIT - 330;
    CHECK(post(&machine, 7, 1, 1, 4096, 4, 1) == MC_OK);
    CHECK(step(&machine, &entry) == MC_OK && entry.clock == MC_CLOCK_LIMIT - 200);
    CHECK(step(&machine, &entry) == MC_OK && entry.clock == MC_CLOCK_LIMIT);
    CHECK(entry.ending == MC_RELEASED && machine.channel.left[7] == 2);
    before = machine;
    CHECK(step(&machine, &entry) == MC_CLOCK_FULL && same_machine(&machine, &before));

    /* An idle owner stays idle and gives way at the limit: no time passes. */
    start(&machine, &small_setup);
    machine.channel.ever = true;
    machine.channel.clock = MC_CLOCK_LIMIT - 130;
    struct mc_run_result result = run(&machine, 65535);
    CHECK(result.refusal == MC_OK && result.steps == 65535);
    CHECK(machine.channel.clock == MC_CLOCK_LIMIT && machine.tally.grants == 1);
    CHECK(post(&machine, 9, 0, 0, 0, 4, 0) == MC_OK);
    result = run(&machine, 65535);
    CHECK(result.refusal == MC_CLOCK_FULL && result.steps == 1);
    CHECK(machine.channel.phase == MC_ARBITRATING && machine.channel.clock == MC_CLOCK_LIMIT);
}

static void test_run_refusals(void)
{
    static struct machine machine, before;
    start(&machine, &small_setup);
    struct mc_stores whole = stores_of(&machine);
    before = machine;

    struct mc_stores wrong[] = {whole, whole, whole, whole};
    wrong[0].slave_length++;
    wrong[1].slave_length--;
    wrong[2].master_length++;
    wrong[3].master_length--;
    for (size_t i = 0; i < LENGTH(wrong); i++) {
        CHECK(mc_step(&machine.setup, &machine.channel, &wrong[i], &machine.tally, NULL)
              == MC_STORE_DIFFERS);
        struct mc_run_result result = mc_run(&machine.setup, &machine.channel, &wrong[i],
                                             &machine.tally, i < 2 ? 65536 : 0);
        CHECK(result.refusal == MC_STORE_DIFFERS && result.steps == 0);
    }
    struct mc_run_result result = run(&machine, 65536);
    CHECK(result.refusal == MC_TOO_MANY_STEPS && result.steps == 0);
    result = run(&machine, UINT32_MAX);
    CHECK(result.refusal == MC_TOO_MANY_STEPS && result.steps == 0);
    result = run(&machine, 0);
    CHECK(result.refusal == MC_OK && result.steps == 0);
    CHECK(same_machine(&machine, &before));

    struct mc_setup bad = small_setup;
    bad.slaves[0].time = 0;
    CHECK(mc_step(&bad, &machine.channel, &wrong[0], NULL, NULL) == MC_UNSOUND);
    result = mc_run(&bad, &machine.channel, &wrong[0], NULL, 65536);
    CHECK(result.refusal == MC_UNSOUND && result.steps == 0);

    CHECK(mc_step(&machine.setup, &machine.channel, &whole, NULL, NULL) == MC_OK);
    result = mc_run(&machine.setup, &machine.channel, &whole, NULL, 5);
    CHECK(result.refusal == MC_OK && result.steps == 5);
    CHECK(same_tally(&machine.tally, &before.tally));
}

static void test_tally_stops(void)
{
    struct mc_tally full = {UINT32_MAX, UINT32_MAX, UINT32_MAX - 2, 7};
    struct mc_entry grant = {.kind = MC_GRANT};
    struct mc_entry cycle = {.kind = MC_CYCLE, .bytes = 4, .has_hold = true, .hold = 8};
    struct mc_entry release = {.kind = MC_RELEASE, .has_hold = true, .hold = 0};
    full = mc_add_entry(full, &grant);
    CHECK(same_tally(&full, &(struct mc_tally){UINT32_MAX, UINT32_MAX, UINT32_MAX - 2, 7}));
    full = mc_add_entry(full, &cycle);
    CHECK(same_tally(&full, &(struct mc_tally){UINT32_MAX, UINT32_MAX, UINT32_MAX, 8}));
    full = mc_add_entry(full, &release);
    CHECK(same_tally(&full, &(struct mc_tally){UINT32_MAX, UINT32_MAX, UINT32_MAX, 8}));

    static struct machine machine;
    start(&machine, &small_setup);
    machine.tally = (struct mc_tally){UINT32_MAX - 1, UINT32_MAX - 1, UINT32_MAX - 1, 0};
    CHECK(post(&machine, 7, 1, 1, 4096, 8, 0) == MC_OK);
    run(&machine, 65535);
    CHECK(same_tally(&machine.tally,
                     &(struct mc_tally){UINT32_MAX, UINT32_MAX, UINT32_MAX, 0}));
}

/* ---- Unsound channels ---------------------------------------------------- */

static void expect_unsound(const struct machine *given, bool unsound, int line)
{
    static struct machine machine;
    machine = *given;
    check_that(mc_is_unsound(&machine.setup, &machine.channel) == unsound, "unsound", line);
    for (size_t i = 0; i < LENGTH(any_levels); i++) {
        struct mc_told told = why(&machine, any_levels[i]);
        check_that(unsound ? is_untold(told, MC_UNSOUND) : told.refusal == MC_OK, "why", line);
    }
    if (!unsound)
        return;
    check_that(post(&machine, 4, 0, 0, 0, 0, 0) == MC_UNSOUND, "post", line);
    check_that(step(&machine, NULL) == MC_UNSOUND, "step", line);
    struct mc_run_result result = run(&machine, 65536);
    check_that(result.refusal == MC_UNSOUND && result.steps == 0, "run", line);
    check_that(same_machine(&machine, given), "nothing changes", line);
}

#define CHANGED(from, change, unsound)                                         \
    do {                                                                       \
        static struct machine changed;                                         \
        changed = from;                                                        \
        struct mc_channel *c = &changed.channel;                               \
        change;                                                                \
        expect_unsound(&changed, unsound, __LINE__);                           \
    } while (0)

static void set_slot(struct mc_channel *channel, uint32_t level)
{
    channel->space[level] = 1;
    channel->address[level] = 4096;
    channel->left[level] = 8;
}

static void test_unsound(void)
{
    static struct machine fresh, owned, asked, marked, idle, idle_asked;

    start(&fresh, &small_setup);
    owned = fresh; /* by 3, nobody else waits */
    post(&owned, 3, 0, 1, 4098, 20, 0);
    run(&owned, 2);
    asked = owned; /* now 7 waits */
    post(&asked, 7, 0, 1, 4096, 2, 0);
    marked = asked; /* 3 has released with a mark */
    run(&marked, 2);
    idle = fresh;
    run(&idle, 1);
    idle_asked = idle;
    post(&idle_asked, 3, 0, 1, 4096, 4, 0);
    CHECK(owned.channel.phase == MC_GRANTED && owned.channel.owner == 3);
    CHECK(asked.channel.has_asked && asked.channel.clock == 300);
    CHECK(marked.channel.phase == MC_ARBITRATING && marked.channel.inactive == 1 << 3);
    CHECK(idle.channel.phase == MC_GRANTED && idle.channel.owner == 15);

    CHANGED(fresh, (void)c, false);
    CHANGED(owned, (void)c, false);
    CHANGED(asked, (void)c, false);
    CHANGED(marked, (void)c, false);
    CHANGED(idle, (void)c, false);
    CHANGED(idle_asked, (void)c, false);

    CHANGED(idle, c->owner = 4, true);
    CHANGED(idle, c->owner = 16, true);
    CHANGED(idle, c->owner = UINT32_MAX, true);
    CHANGED(idle, c->owner = 7, true);
    CHANGED(asked, c->inactive |= 1 << 3, true);
    CHANGED(fresh, set_slot(c, 4), true);
    CHANGED(fresh, set_slot(c, 7), false);
    CHANGED(owned, c->direction[3] = 2, true);
    CHANGED(owned, c->space[3] = 2, true);
    CHANGED(owned, c->space[3] = 0, true);
    CHANGED(owned, c->left[3] = 4097, true);
    CHANGED(owned, c->left[3] = 60, false);
    CHANGED(owned, c->left[3] = 61, true);
    CHANGED(owned, c->address[3] = 4095, true);
    CHANGED(owned, c->address[3] = UINT32_MAX, true);
    CHANGED(owned, c->offset[3] = 4096 - 18, false);
    CHANGED(owned, c->offset[3] = 4096 - 17, true);
    CHANGED(owned, c->offset[3] = UINT32_MAX, true);
    CHANGED(marked, c->inactive |= 1 << 4, true);
    CHANGED(marked, c->inactive |= 1 << 9, true);
    CHANGED(marked, c->inactive |= 1 << 15, true);
    CHANGED(marked, c->inactive |= 1 << 7, true); /* then nobody drives the line */
    CHANGED(fresh, (c->ever = true, c->inactive = 1 << 3), true);
    CHANGED(owned, c->inactive = 1 << 7, true);
    CHANGED(asked, (set_slot(c, 9), c->inactive = 1 << 7), false);
    CHANGED(fresh, (c->ever = true, c->clock = MC_CLOCK_LIMIT), false);
    CHANGED(fresh, (c->ever = true, c->clock = MC_CLOCK_LIMIT + 1), true);
    CHANGED(fresh, (c->ever = true, c->clock = UINT32_MAX), true);
    CHANGED(fresh, c->has_asked = true, true);
    CHANGED(marked, (c->has_asked = true, c->asked = c->clock), true);
    CHANGED(owned, (c->has_asked = true, c->asked = c->clock), true);
    CHANGED(idle, (c->has_asked = true, c->asked = c->clock), true);
    CHANGED(asked, c->has_asked = false, true);
    CHANGED(idle_asked, c->has_asked = false, true);
    CHANGED(asked, c->asked = c->clock + 1, true);
    CHANGED(asked, c->asked = UINT32_MAX, true);
    CHANGED(idle_asked, c->asked = c->clock - 1, true);
    CHANGED(idle_asked, c->asked = c->clock + 1, true);
    /* 3 is at 4100, before a transfer of two cycles of 200 ns. */
    CHANGED(asked, (c->clock = 9000, c->asked = 9000 - 7400), false);
    CHANGED(asked, (c->clock = 9000, c->asked = 9000 - 7401), true);
    /* At 4102 one cycle is left of the running one, and at 4103 it moves one byte. */
    CHANGED(asked, (c->address[3] = 4102, c->clock = 9000, c->asked = 9000 - 7600), false);
    CHANGED(asked, (c->address[3] = 4103, c->clock = 9000, c->asked = 9000 - 7601), true);
    /* At 4101 the port cuts after one byte. */
    CHANGED(asked, (c->address[3] = 4101, c->clock = 9000, c->asked = 9000 - 7401), true);
    /* A request's last byte is a transfer of one cycle. */
    CHANGED(asked, (c->left[3] = 1, c->clock = 9000, c->asked = 9000 - 7600), false);
    CHANGED(asked, (c->clock = MC_CLOCK_LIMIT, c->asked = MC_CLOCK_LIMIT), false);

    /* Never granted: each fault by itself, and the same channel where it has been. */
    CHANGED(fresh, c->ever = true, false);
    CHANGED(fresh, (c->phase = MC_GRANTED, c->owner = 15), true);
    CHANGED(fresh, (c->phase = MC_GRANTED, c->owner = 15, c->ever = true), false);
    CHANGED(fresh, (set_slot(c, 7), c->phase = MC_GRANTED, c->owner = 7), true);
    CHANGED(fresh, (set_slot(c, 7), c->phase = MC_GRANTED, c->owner = 7, c->ever = true), false);
    CHANGED(fresh, (set_slot(c, 7), c->inactive = 1 << 3), true);
    CHANGED(fresh, (set_slot(c, 7), c->inactive = 1 << 3, c->ever = true), false);
    CHANGED(fresh, (set_slot(c, 3), c->inactive = 1 << 7), true);
    CHANGED(fresh, (set_slot(c, 3), c->inactive = 1 << 7, c->ever = true), false);
    CHANGED(fresh, c->clock = 1, true);
    CHANGED(fresh, (c->clock = 1, c->ever = true), false);
    CHANGED(fresh, c->clock = 100, true);
    CHANGED(fresh, c->clock = MC_CLOCK_LIMIT, true);
    CHANGED(owned, c->ever = false, true);
    CHANGED(asked, c->ever = false, true);
    CHANGED(marked, c->ever = false, true);
    CHANGED(idle, c->ever = false, true);
    CHANGED(idle, (c->ever = false, c->clock = 0), true);
    CHANGED(marked, (c->ever = false, c->clock = 0), true);
    CHANGED(marked, (c->clock = 0), false);
    /* Open requests are fine either way. */
    CHANGED(fresh, (set_slot(c, 3), set_slot(c, 7), set_slot(c, 9), set_slot(c, 15)), false);
    CHANGED(fresh, (set_slot(c, 3), set_slot(c, 15), c->ever = true), false);

    /* Of the layout. */
    CHANGED(fresh, c->phase = (enum mc_phase)2, true);
    CHANGED(fresh, c->direction[0] = 1, true);
    CHANGED(fresh, c->space[15] = 1, true);
    CHANGED(fresh, c->address[3] = 1, true);
    CHANGED(fresh, c->offset[3] = 1, true);
    CHANGED(fresh, c->owner = 9, false);  /* no owner while arbitrating */
    CHANGED(owned, c->asked = 77, false); /* no asked time */
}

/* ---- Why a level waits ---------------------------------------------------- */

/* What is told of a level; asking changes nothing. */
static void expect_told(const struct machine *machine, uint32_t level, enum mc_reason reason,
                        uint32_t told, int line)
{
    static struct machine before;
    memcpy(&before, machine, sizeof before);
    check_that(is_told(why(machine, level), MC_OK, reason, told), "told", line);
    check_that(memcmp(machine, &before, sizeof before) == 0, "nothing changes", line);
}

#define TOLD(level, reason) expect_told(&machine, level, reason, 0, __LINE__)
#define TOLD_OF(level, reason, told) expect_told(&machine, level, reason, told, __LINE__)

/* One step, of which only the kind and the level matter here. */
static void expect_next(struct machine *machine, enum mc_entry_kind kind, uint32_t level, int line)
{
    struct mc_entry entry = {0};
    check_that(step(machine, &entry) == MC_OK, "step", line);
    check_that(entry.kind == kind && entry.level == level, "entry", line);
}

#define NEXT(kind, level) expect_next(&machine, kind, level, __LINE__)

static void test_reason_numbers(void)
{
    CHECK(MC_NOT_PRESENT == 0 && MC_NO_REQUEST == 1 && MC_OWNS == 2 && MC_INACTIVE == 3);
    CHECK(MC_HOLDS == 4 && MC_OUTRANKED == 5 && MC_WINS_NEXT == 6);
}

/* Every reason, by posts and steps. */
static void test_why(void)
{
    static struct machine machine;
    start(&machine, &small_setup);
    TOLD(0, MC_NOT_PRESENT);
    TOLD(4, MC_NOT_PRESENT);
    TOLD(14, MC_NOT_PRESENT);
    TOLD(3, MC_NO_REQUEST);
    TOLD(7, MC_NO_REQUEST);
    TOLD(9, MC_NO_REQUEST);
    TOLD(15, MC_NO_REQUEST);

    CHECK(post(&machine, 15, 1, 1, 4096, 4, 0) == MC_OK);
    TOLD(15, MC_WINS_NEXT);
    CHECK(post(&machine, 9, 1, 1, 4096, 8, 0) == MC_OK);
    TOLD(9, MC_WINS_NEXT);
    TOLD_OF(15, MC_OUTRANKED, 9);
    CHECK(post(&machine, 7, 1, 1, 4096, 4, 0) == MC_OK);
    TOLD(7, MC_WINS_NEXT);
    TOLD_OF(9, MC_OUTRANKED, 7);
    TOLD_OF(15, MC_OUTRANKED, 7);
    TOLD(3, MC_NO_REQUEST);
    TOLD(8, MC_NOT_PRESENT);

    NEXT(MC_GRANT, 7);
    TOLD(7, MC_OWNS);
    TOLD_OF(9, MC_HOLDS, 7);
    TOLD_OF(15, MC_HOLDS, 7);
    TOLD(3, MC_NO_REQUEST);
    TOLD(8, MC_NOT_PRESENT);
    CHECK(post(&machine, 3, 1, 1, 4096, 4, 0) == MC_OK);
    TOLD_OF(3, MC_HOLDS, 7); /* it outranks the owner, and waits all the same */
    CHECK(post(&machine, 3, 1, 1, 4096, 4, 0) == MC_LEVEL_OPEN);
    TOLD_OF(3, MC_HOLDS, 7);
    TOLD(7, MC_OWNS);

    NEXT(MC_CYCLE, 7); /* releases with two bytes left, and is marked */
    TOLD(7, MC_INACTIVE);
    TOLD(3, MC_WINS_NEXT);
    TOLD_OF(9, MC_OUTRANKED, 3);
    TOLD_OF(15, MC_OUTRANKED, 3);
    TOLD(4, MC_NOT_PRESENT);

    NEXT(MC_GRANT, 3);
    TOLD(3, MC_OWNS);
    TOLD(7, MC_INACTIVE);
    TOLD_OF(9, MC_HOLDS, 3);
    TOLD_OF(15, MC_HOLDS, 3);
    NEXT(MC_CYCLE, 3); /* inside its transfer */
    TOLD(3, MC_OWNS);
    NEXT(MC_CYCLE, 3); /* done, and marked: without a request that isn't told */
    CHECK(machine.channel.inactive == (1 << 3 | 1 << 7));
    TOLD(3, MC_NO_REQUEST);
    TOLD(7, MC_INACTIVE);
    TOLD(9, MC_WINS_NEXT);
    TOLD_OF(15, MC_OUTRANKED, 9);

    /* All is served, and 15 holds by default. */
    CHECK(run(&machine, 100).steps == 100);
    CHECK(machine.channel.phase == MC_GRANTED && machine.channel.owner == 15);
    for (size_t i = 0; i < small_setup.level_count; i++)
        TOLD(small_setup.levels[i].level, MC_NO_REQUEST);
    TOLD(4, MC_NOT_PRESENT);
}

/* Any number may be asked about: it is compared whole, and is none of the levels it is cut to. */
static void expect_no_levels(const struct machine *machine)
{
    static const uint32_t none[] = {16, 271, UINT32_MAX};
    for (size_t i = 0; i < LENGTH(none); i++)
        expect_told(machine, none[i], MC_NOT_PRESENT, 0, __LINE__);
    for (uint32_t bit = 4; bit < 32; bit++)
        for (uint32_t i = 0; i < machine->setup.level_count; i++) {
            uint32_t level = (UINT32_C(1) << bit) + machine->setup.levels[i].level;
            CHECK(is_told(why(machine, level), MC_OK, MC_NOT_PRESENT, 0));
        }
}

/* Sixteen levels without options. */
static struct mc_setup sixteen_levels(void)
{
    struct mc_setup setup = small_setup;
    setup.level_count = MC_LEVELS;
    for (uint32_t level = 0; level < MC_LEVELS; level++)
        setup.levels[level] = (struct mc_level_row){level, 4, 0};
    return setup;
}

static void test_why_any_number(void)
{
    static struct machine machine;
    struct mc_setup setup = sixteen_levels();
    const struct mc_setup *setups[] = {&small_setup, &setup};
    for (size_t i = 0; i < LENGTH(setups); i++) {
        start(&machine, setups[i]);
        expect_no_levels(&machine);
        CHECK(post(&machine, 15, 1, 1, 4096, 8, 0) == MC_OK);
        TOLD(15, MC_WINS_NEXT);
        expect_no_levels(&machine); /* 271 is no 15 that wins */
        NEXT(MC_GRANT, 15);
        TOLD(15, MC_OWNS);
        expect_no_levels(&machine); /* or that owns */
        CHECK(post(&machine, 3, 1, 1, 4096, 8, 0) == MC_OK);
        TOLD_OF(3, MC_HOLDS, 15);
        expect_no_levels(&machine); /* and 259 no 3 that waits */
        NEXT(MC_CYCLE, 15);
        NEXT(MC_CYCLE, 15);
        TOLD_OF(15, MC_OUTRANKED, 3);
        expect_no_levels(&machine);
    }
}

/* 15 without a request has no request, whether it holds the channel or would win it by default. */
static void test_why_default_owner(void)
{
    static struct machine machine;
    start(&machine, &small_setup);
    TOLD(15, MC_NO_REQUEST);
    NEXT(MC_GRANT, 15);
    TOLD(15, MC_NO_REQUEST);
    NEXT(MC_IDLE, 0);
    TOLD(15, MC_NO_REQUEST);

    /* It is a holder like any other, though it gives way in the next step. */
    CHECK(post(&machine, 7, 1, 1, 4096, 2, 0) == MC_OK);
    TOLD_OF(7, MC_HOLDS, 15);
    TOLD(15, MC_NO_REQUEST);
    NEXT(MC_RELEASE, 15);
    TOLD(7, MC_WINS_NEXT);
    TOLD(15, MC_NO_REQUEST);
    NEXT(MC_GRANT, 7);
    TOLD(15, MC_NO_REQUEST);
    NEXT(MC_CYCLE, 7);
    TOLD(15, MC_NO_REQUEST); /* by default again, and the channel has been granted before */
    NEXT(MC_GRANT, 15);

    /* With a request it owns what it has held, and waits for nobody. */
    CHECK(post(&machine, 15, 1, 1, 4096, 4, 0) == MC_OK);
    TOLD(15, MC_OWNS);
    CHECK(post(&machine, 3, 1, 1, 4096, 4, 0) == MC_OK);
    TOLD(15, MC_OWNS);
    TOLD_OF(3, MC_HOLDS, 15);
}

/* "Inactive" comes before the holder, whoever that is. */
static void test_why_inactive(void)
{
    static struct machine machine;
    start(&machine, &small_setup);
    CHECK(post(&machine, 7, 1, 1, 4096, 8, 0) == MC_OK);
    NEXT(MC_GRANT, 7);
    CHECK(post(&machine, 9, 1, 1, 4096, 4, 0) == MC_OK);
    CHECK(post(&machine, 15, 1, 1, 4096, 4, 0) == MC_OK);
    NEXT(MC_CYCLE, 7);
    TOLD(7, MC_INACTIVE); /* while arbitrating */
    NEXT(MC_GRANT, 9);
    TOLD(7, MC_INACTIVE); /* while another holds */
    TOLD_OF(15, MC_HOLDS, 9);
    NEXT(MC_CYCLE, 9);
    NEXT(MC_CYCLE, 9);
    TOLD(7, MC_INACTIVE);
    TOLD(15, MC_WINS_NEXT);
    NEXT(MC_GRANT, 15); /* the line falls, and the mark with it */
    TOLD_OF(7, MC_HOLDS, 15);

    /* While an idle 15 holds: no step leads there, but the channel isn't unsound. */
    start(&machine, &small_setup);
    NEXT(MC_GRANT, 15);
    CHECK(post(&machine, 3, 1, 1, 4096, 4, 0) == MC_OK);
    CHECK(post(&machine, 7, 1, 1, 4096, 4, 0) == MC_OK);
    machine.channel.inactive = 1 << 3;
    CHECK(!mc_is_unsound(&machine.setup, &machine.channel));
    TOLD(3, MC_INACTIVE);
    TOLD_OF(7, MC_HOLDS, 15);
    TOLD(15, MC_NO_REQUEST);

    /* A mark without a request isn't told there either. */
    start(&machine, &small_setup);
    NEXT(MC_GRANT, 15);
    CHECK(post(&machine, 7, 1, 1, 4096, 4, 0) == MC_OK);
    machine.channel.inactive = 1 << 3;
    CHECK(!mc_is_unsound(&machine.setup, &machine.channel));
    TOLD(3, MC_NO_REQUEST);
    TOLD_OF(7, MC_HOLDS, 15);
}

/* Each owner, and each level that waits for it. */
static void test_why_holds(void)
{
    static struct machine machine;
    struct mc_setup setup = sixteen_levels();
    for (uint32_t owner = 0; owner < MC_LEVELS; owner++) {
        start(&machine, &setup);
        CHECK(post(&machine, owner, 1, 1, 4096, 8, 0) == MC_OK);
        NEXT(MC_GRANT, owner);
        for (uint32_t level = 0; level < MC_LEVELS; level++)
            if (level != owner) {
                TOLD(level, MC_NO_REQUEST);
                CHECK(post(&machine, level, 1, 1, 4096, 8, 0) == MC_OK);
                TOLD_OF(level, MC_HOLDS, owner);
            }
        TOLD(owner, MC_OWNS);
    }
}

/* Each winner, and each level that it outranks; marked levels don't contend. */
static void test_why_outranked(void)
{
    static struct machine machine;
    struct mc_setup setup = sixteen_levels();
    start(&machine, &setup);
    for (uint32_t winner = MC_LEVELS; winner-- > 0;) {
        CHECK(post(&machine, winner, 1, 1, 4096, 8, 0) == MC_OK);
        TOLD(winner, MC_WINS_NEXT);
        for (uint32_t level = winner + 1; level < MC_LEVELS; level++)
            TOLD_OF(level, MC_OUTRANKED, winner);
    }

    /* 3 is marked and waits again: it is the lowest-numbered, and yet 7 wins. */
    start(&machine, &small_setup);
    CHECK(post(&machine, 3, 1, 1, 4096, 8, 0) == MC_OK);
    NEXT(MC_GRANT, 3);
    CHECK(post(&machine, 7, 1, 1, 4096, 8, 0) == MC_OK);
    CHECK(post(&machine, 9, 1, 1, 4096, 8, 0) == MC_OK);
    NEXT(MC_CYCLE, 3);
    NEXT(MC_CYCLE, 3);
    TOLD(3, MC_INACTIVE);
    TOLD(7, MC_WINS_NEXT);
    TOLD_OF(9, MC_OUTRANKED, 7);
    TOLD(15, MC_NO_REQUEST);
    NEXT(MC_GRANT, 7);
    TOLD(3, MC_INACTIVE);
    NEXT(MC_CYCLE, 7);
    TOLD(3, MC_INACTIVE); /* both, and the lowest left is 9 */
    TOLD(7, MC_INACTIVE);
    TOLD(9, MC_WINS_NEXT);
    CHECK(post(&machine, 15, 1, 1, 4096, 8, 0) == MC_OK);
    TOLD_OF(15, MC_OUTRANKED, 9);

    /* An owner while arbitrating means nothing. */
    machine.channel.owner = 9;
    TOLD(9, MC_WINS_NEXT);
    TOLD_OF(15, MC_OUTRANKED, 9);
    machine.channel.owner = 15;
    TOLD(9, MC_WINS_NEXT);
    TOLD_OF(15, MC_OUTRANKED, 9);
}

/* The clock has no part in a reason, though the arbitration has no room. */
static void test_why_full_clock(void)
{
    static struct machine machine, before;
    static const uint32_t short_of[] = {0, 1, 99, 100, 129, 130, 131};
    for (size_t i = 0; i < LENGTH(short_of); i++) {
        start(&machine, &small_setup);
        machine.channel.ever = true;
        machine.channel.clock = MC_CLOCK_LIMIT - short_of[i];
        CHECK(post(&machine, 9, 1, 1, 4096, 8, 0) == MC_OK);
        CHECK(post(&machine, 7, 1, 1, 4096, 8, 0) == MC_OK);
        TOLD(7, MC_WINS_NEXT);
        TOLD_OF(9, MC_OUTRANKED, 7);
        TOLD(15, MC_NO_REQUEST);
        before = machine;
        enum mc_refusal refusal = step(&machine, NULL);
        CHECK(refusal == (short_of[i] < 130 ? MC_CLOCK_FULL : MC_OK));
        if (refusal == MC_OK) {
            TOLD(7, MC_OWNS);
            continue;
        }
        CHECK(same_machine(&machine, &before));
        TOLD(7, MC_WINS_NEXT);
    }

    /* By runs alone: the first event that meets 6 does so before an arbitration. */
    start(&machine, &small_setup);
    machine.channel.ever = true;
    machine.channel.clock = MC_CLOCK_LIMIT - 330;
    CHECK(post(&machine, 7, 1, 1, 4096, 8, 0) == MC_OK);
    struct mc_run_result result = run(&machine, 100);
    CHECK(result.refusal == MC_CLOCK_FULL && result.steps == 2);
    TOLD(7, MC_WINS_NEXT);
    /* And an owner that has no room for its cycle still holds. */
    machine.channel.clock = MC_CLOCK_LIMIT - 199 - 130;
    result = run(&machine, 100);
    CHECK(result.refusal == MC_CLOCK_FULL && result.steps == 1);
    CHECK(post(&machine, 3, 1, 1, 4096, 8, 0) == MC_OK);
    TOLD(7, MC_OWNS);
    TOLD_OF(3, MC_HOLDS, 7);
}

/*
 * 9, with no reason and no level, whatever would be told: a level to name, one
 * that isn't present.  More channels and set-ups are asked above, where they are
 * found unsound or against the frame.
 */
static void test_why_refusals(void)
{
    static struct machine sound, machine, before;
    start(&sound, &small_setup);
    CHECK(post(&sound, 7, 1, 1, 4096, 8, 0) == MC_OK);
    CHECK(post(&sound, 9, 1, 1, 4096, 8, 0) == MC_OK);
    for (int steps = 0; steps < 2; steps++) {
        for (int fault = 0; fault < 4; fault++) {
            machine = sound;
            if (fault == 0)
                machine.setup.master_length = 0;
            if (fault == 1)
                machine.setup.slaves[0].time = 199;
            if (fault == 2)
                machine.channel.clock = MC_CLOCK_LIMIT + 1;
            if (fault == 3)
                machine.channel.left[9] = 4097;
            memcpy(&before, &machine, sizeof before);
            for (size_t i = 0; i < LENGTH(any_levels); i++)
                CHECK(is_untold(why(&machine, any_levels[i]), MC_UNSOUND));
            CHECK(memcmp(&machine, &before, sizeof before) == 0);
        }
        machine = sound;
        TOLD_OF(9, steps == 0 ? MC_OUTRANKED : MC_HOLDS, 7);
        CHECK(step(&sound, NULL) == MC_OK);
    }
}

/* ---- Random questions ----------------------------------------------------- */

/* The lowest-numbered level with an open request and no mark; 16 for none. */
static uint32_t first_contender(const struct mc_channel *channel)
{
    uint32_t level = 0;
    while (level < MC_LEVELS
           && (channel->left[level] == 0 || (channel->inactive >> level) % 2 == 1))
        level++;
    return level;
}

/* Each reason by itself, in the words of the document; only the first is asked of no level. */
static bool is_true(const struct machine *machine, uint32_t level, int reason)
{
    const struct mc_channel *channel = &machine->channel;
    bool is_granted = channel->phase == MC_GRANTED;
    switch (reason) {
    case 0: /* not present */
        for (uint32_t i = 0; i < machine->setup.level_count; i++)
            if (machine->setup.levels[i].level == level)
                return false;
        return true;
    case 1: /* no request */
        return channel->left[level] == 0;
    case 2: /* it owns the channel */
        return is_granted && channel->owner == level;
    case 3: /* inactive */
        return (channel->inactive >> level) % 2 == 1;
    case 4: /* another owner still holds */
        return is_granted && channel->owner != level;
    case 5: /* outranked at the next arbitration */
        return !is_granted && first_contender(channel) < level;
    default: /* wins next */
        return !is_granted && first_contender(channel) == level;
    }
}

/* The reason told is true and all before it are false; the level told is the one it names. */
static void check_told(const struct machine *machine, uint32_t level, struct mc_told told)
{
    int reason = 0;
    while (reason < 6 && !is_true(machine, level, reason))
        reason++;
    CHECK(is_true(machine, level, reason));
    uint32_t named = reason == 4 ? machine->channel.owner
                   : reason == 5 ? first_contender(&machine->channel) : 0;
    CHECK(is_told(told, MC_OK, (enum mc_reason)reason, named));
}

/* What was told of a level, against the step that came then. */
static void check_step_told(const struct mc_told *told, uint32_t level,
                            const struct mc_entry *entry)
{
    bool is_grant = entry->kind == MC_GRANT;
    switch (told[level].reason) {
    case MC_NOT_PRESENT:
        CHECK(entry->kind == MC_IDLE || entry->level != level);
        break;
    case MC_NO_REQUEST: /* only 15 may be seen */
        CHECK(entry->kind == MC_IDLE || entry->level != level
              || (level == 15 && entry->kind != MC_CYCLE));
        break;
    case MC_OWNS:
        CHECK(entry->kind == MC_CYCLE && entry->level == level);
        break;
    case MC_INACTIVE:
        CHECK(entry->level != level && entry->kind != MC_IDLE);
        break;
    case MC_HOLDS:
        CHECK(!is_grant && entry->kind != MC_IDLE && entry->level == told[level].level);
        break;
    case MC_OUTRANKED:
        CHECK(is_grant && entry->level == told[level].level && entry->level < level);
        CHECK(told[entry->level].reason == MC_WINS_NEXT);
        break;
    case MC_WINS_NEXT:
        CHECK(is_grant && entry->level == level);
        break;
    }
}

/* Asks about all levels, takes a step and compares; false where the clock is full. */
static bool ask_and_step(struct machine *machine, unsigned long *met)
{
    static struct mc_told told[LENGTH(any_levels)];
    static struct mc_setup setup;
    struct mc_channel channel;
    memcpy(&setup, &machine->setup, sizeof setup);
    memcpy(&channel, &machine->channel, sizeof channel);
    for (size_t i = 0; i < LENGTH(any_levels); i++) {
        told[i] = why(machine, any_levels[i]);
        check_told(machine, any_levels[i], told[i]);
        met[told[i].reason]++;
    }
    CHECK(memcmp(&setup, &machine->setup, sizeof setup) == 0);
    CHECK(memcmp(&channel, &machine->channel, sizeof channel) == 0);

    struct mc_entry entry;
    enum mc_refusal refusal = step(machine, &entry);
    CHECK(refusal == MC_OK || refusal == MC_CLOCK_FULL);
    if (refusal != MC_OK)
        return false;
    for (uint32_t level = 0; level < MC_LEVELS; level++)
        check_step_told(told, level, &entry);
    if (entry.kind == MC_GRANT) /* to the one that was told so, or by default */
        CHECK(told[entry.level].reason == MC_WINS_NEXT
              || (entry.level == 15 && told[15].reason == MC_NO_REQUEST));
    return true;
}

static void test_why_random(void)
{
    static struct machine machine;
    struct random random = {3};
    unsigned long met[MC_WINS_NEXT + 1] = {0};
    unsigned long full = 0;
    for (int trial = 0; trial < 400; trial++) {
        struct mc_setup setup = random_setup(&random);
        if (!mc_fits_frame(&setup))
            continue;
        start(&machine, &setup);
        machine.channel.ever = below(&random, 4) == 0;
        if (machine.channel.ever)
            machine.channel.clock = MC_CLOCK_LIMIT - below(&random, 5000);
        for (int event = 0; event < 40; event++) {
            struct mc_request request = random_request(&random, &setup);
            if (below(&random, 3) == 0)
                mc_post(&machine.setup, &machine.channel, &request);
            if (!ask_and_step(&machine, met))
                full++;
        }
    }
    for (size_t i = 0; i < LENGTH(met); i++)
        CHECK(met[i] > 500);
    CHECK(full > 100);
    printf("random questions:");
    for (size_t i = 0; i < LENGTH(met); i++)
        printf(" %lu", met[i]);
    printf(" by reason, %lu steps with a full clock\n", full);
}

/* ---- Sheets -------------------------------------------------------------- */

static const uint8_t example_sheet[] = {
    0x01, 0x03, 0x03, 0x04, 0x03, 0x07, 0x02, 0x02, 0x0F, 0x04, 0x00, 0x01, 0x01, 0x80,
    0x20, 0x10, 0x02, 0xC8, 0x01, 0x04, 0x01, 0x03, 0x01, 0x01, 0x81, 0x20, 0x07, 0x00,
    0x00, 0x02, 0x01, 0x07, 0x00, 0x01, 0x80, 0x20, 0x02, 0x10, 0x00, 0x07,
};

static const uint32_t example_list[] = {
    1, 3, 3, 4, 3, 7, 2, 2, 15, 4, 0, 1, 1, 4096, 16, 2, 200, 4,
    1, 3, 1, 1, 4097, 7, 0, 0, 2, 1, 7, 0, 1, 4096, 2, 16, 0, 7,
};

static const char example_log[] =
    "P 0 3 0\n"
    "G 100 3\n"
    "C 300 3 4097 1 1 1 1 0\n"
    "P 300 7 0\n"
    "C 500 3 4098 2 1 2 0 2\n"
    "G 630 7\n"
    "C 830 7 4096 2 0 0 0 2\n"
    "G 960 3\n"
    "C 1160 3 4100 2 1 0 0 0\n"
    "C 1360 3 4102 2 1 2 0 1\n"
    "G 1490 15\n"
    "E 1490 9\n";

enum { SPARE = 3, UNTOUCHED = 0xA5 };

/* Reads into room of the right size and checks that no more than the result is written. */
static void expect_read(const uint8_t *sheet, size_t length, size_t capacity,
                        enum mc_refusal refusal, size_t place, size_t result, int line)
{
    static uint32_t list[MC_LIST_MAX + SPARE];
    /* A copy on the heap shows the sanitizer each byte read past the sheet. */
    uint8_t *copy = length > 0 ? malloc(length) : NULL;
    if (length > 0)
        memcpy(copy, sheet, length);
    memset(list, UNTOUCHED, sizeof list);
    struct mc_sheet_result read = mc_read_sheet(copy, length, list, capacity);
    free(copy);
    check_that(read.refusal == refusal, "refusal", line);
    check_that(read.place == place, "place", line);
    check_that(read.length == result, "length", line);
    for (size_t i = result; i < LENGTH(list); i++)
        if (list[i] != UINT32_C(0xA5A5A5A5))
            check_that(false, "written past the result", line);
}

static void expect_written(const uint32_t *list, size_t count, size_t capacity,
                           enum mc_refusal refusal, size_t place, size_t result, int line)
{
    static uint8_t sheet[MC_SHEET_MAX + SPARE];
    memset(sheet, UNTOUCHED, sizeof sheet);
    struct mc_sheet_result written = mc_write_sheet(list, count, sheet, capacity);
    check_that(written.refusal == refusal, "refusal", line);
    check_that(written.place == place, "place", line);
    check_that(written.length == result, "length", line);
    for (size_t i = result; i < LENGTH(sheet); i++)
        if (sheet[i] != UNTOUCHED)
            check_that(false, "written past the result", line);
}

#define SHEET(refusal, place, result, ...)                                     \
    do {                                                                       \
        static const uint8_t sheet[] = {__VA_ARGS__};                          \
        expect_read(sheet, sizeof sheet, MC_LIST_MAX, refusal, place, result, __LINE__);       \
    } while (0)
#define BAD_SHEET(refusal, place, ...) SHEET(refusal, place, 0, __VA_ARGS__)
#define GOOD_SHEET(result, ...) SHEET(MC_OK, 0, result, __VA_ARGS__)

#define LIST(refusal, place, result, ...)                                      \
    do {                                                                       \
        static const uint32_t list[] = {__VA_ARGS__};                          \
        expect_written(list, LENGTH(list), MC_SHEET_MAX, refusal, place, result, __LINE__);    \
    } while (0)
#define BAD_LIST(refusal, place, ...) LIST(refusal, place, 0, __VA_ARGS__)
#define GOOD_LIST(result, ...) LIST(MC_OK, 0, result, __VA_ARGS__)

/* A set-up of one level and one slave row, as bytes and as numbers; then come the events. */
#define HEAD_BYTES 1, 1, 15, 4, 0, 1, 1, 0, 16, 2, 0xC8, 0x01
#define HEAD 1, 1, 15, 4, 0, 1, 1, 0, 16, 2, 200
enum { EVENTS_BYTE = 12, EVENTS_INDEX = 11 };

/* The last number of a post is the whole of these bytes. */
#define POST_BYTES HEAD_BYTES, 1, 1, 15, 0, 1, 0, 4
enum { NUMBER_BYTE = EVENTS_BYTE + 7 };

static void expect_number(uint32_t number, const uint8_t *bytes, size_t length, int line)
{
    uint8_t sheet[NUMBER_BYTE + 5] = {POST_BYTES};
    uint8_t back[sizeof sheet];
    uint32_t list[MC_LIST_MAX];
    memcpy(sheet + NUMBER_BYTE, bytes, length);
    struct mc_sheet_result read =
        mc_read_sheet(sheet, NUMBER_BYTE + length, list, MC_LIST_MAX);
    check_that(read.refusal == MC_OK && read.length > 0, "read", line);
    check_that(list[read.length - 1] == number, "number", line);
    struct mc_sheet_result written = mc_write_sheet(list, read.length, back, sizeof back);
    check_that(written.refusal == MC_OK && written.length == NUMBER_BYTE + length
                   && memcmp(sheet, back, written.length) == 0, "written back", line);
}

#define NUMBER(number, ...)                                                    \
    do {                                                                       \
        static const uint8_t bytes[] = {__VA_ARGS__};                          \
        expect_number(number, bytes, sizeof bytes, __LINE__);                  \
    } while (0)

static void test_numbers(void)
{
    NUMBER(0, 0x00);
    NUMBER(1, 0x01);
    NUMBER(127, 0x7F);
    NUMBER(128, 0x80, 0x01);
    NUMBER(16383, 0xFF, 0x7F);
    NUMBER(16384, 0x80, 0x80, 0x01);
    NUMBER(2097151, 0xFF, 0xFF, 0x7F);
    NUMBER(2097152, 0x80, 0x80, 0x80, 0x01);
    NUMBER(268435455, 0xFF, 0xFF, 0xFF, 0x7F);
    NUMBER(268435456, 0x80, 0x80, 0x80, 0x80, 0x01);
    NUMBER(4294967295, 0xFF, 0xFF, 0xFF, 0xFF, 0x0F);

    BAD_SHEET(11, NUMBER_BYTE, POST_BYTES, 0x80, 0x00);
    BAD_SHEET(11, NUMBER_BYTE, POST_BYTES, 0xFF, 0x80, 0x00);
    BAD_SHEET(11, NUMBER_BYTE, POST_BYTES, 0x80, 0x80, 0x80, 0x80, 0x00);
    BAD_SHEET(11, NUMBER_BYTE, POST_BYTES, 0x80, 0x80, 0x80, 0x80, 0x10);
    BAD_SHEET(11, NUMBER_BYTE, POST_BYTES, 0xFF, 0xFF, 0xFF, 0xFF, 0x8F);
    BAD_SHEET(11, NUMBER_BYTE, POST_BYTES, 0xFF, 0xFF, 0xFF, 0xFF, 0x80);
    BAD_SHEET(11, NUMBER_BYTE, POST_BYTES, 0xFF, 0xFF, 0xFF, 0xFF, 0xFF, 0xFF);
    BAD_SHEET(10, NUMBER_BYTE, POST_BYTES);
    BAD_SHEET(10, NUMBER_BYTE, POST_BYTES, 0x80);
    BAD_SHEET(10, NUMBER_BYTE, POST_BYTES, 0x80, 0x80);
    BAD_SHEET(10, NUMBER_BYTE, POST_BYTES, 0xFF, 0xFF, 0xFF, 0xFF);
    BAD_SHEET(10, 0, 0x80);
    BAD_SHEET(11, 0, 0x80, 0x00);
}

static void test_read_refusals(void)
{
    expect_read(NULL, 0, MC_LIST_MAX, 10, 0, 0, __LINE__);
    expect_read(NULL, 0, 0, 10, 0, 0, __LINE__);

    /* Each beginning of the example ends inside a number or before one. */
    for (size_t length = 0; length < sizeof example_sheet; length++) {
        size_t place = length;
        while (place > 0 && example_sheet[place - 1] >= 0x80)
            place--;
        expect_read(example_sheet, length, MC_LIST_MAX, 10, place, 0, __LINE__);
    }

    BAD_SHEET(12, 0, 0);
    BAD_SHEET(12, 0, 2, 0x80, 0x00);
    BAD_SHEET(11, 0, 0x81, 0x00);

    BAD_SHEET(13, 1, 1, 0);
    BAD_SHEET(13, 1, 1, 17);
    BAD_SHEET(13, 1, 1, 0xFF, 0xFF, 0xFF, 0xFF, 0x0F);
    BAD_SHEET(13, 2, 1, 1, 14, 4, 0);          /* the last row isn't 15 */
    BAD_SHEET(13, 2, 1, 1, 16, 4, 0);
    BAD_SHEET(13, 2, 1, 1, 15, 3, 0);
    BAD_SHEET(13, 2, 1, 1, 15, 4, 8);
    BAD_SHEET(13, 5, 1, 2, 3, 4, 0, 3, 4, 0);  /* not rising */
    BAD_SHEET(13, 5, 1, 2, 15, 4, 0, 15, 4, 0);
    BAD_SHEET(13, 8, 1, 3, 14, 4, 0, 15, 4, 0, 0x80, 0x01, 4, 0);
    BAD_SHEET(10, 4, 1, 1, 14, 3);             /* judged when the row is read */
    BAD_SHEET(11, 4, 1, 1, 14, 3, 0x80, 0x00);

    BAD_SHEET(14, 5, 1, 1, 15, 4, 0, 0);
    BAD_SHEET(14, 5, 1, 1, 15, 4, 0, 17);
    BAD_SHEET(14, 6, 1, 1, 15, 4, 0, 1, 2, 0, 16, 2, 0xC8, 0x01);
    BAD_SHEET(14, 6, 1, 1, 15, 4, 0, 1, 1, 2, 16, 2, 0xC8, 0x01);
    BAD_SHEET(14, 6, 1, 1, 15, 4, 0, 1, 1, 0, 0, 2, 0xC8, 0x01);
    BAD_SHEET(14, 6, 1, 1, 15, 4, 0, 1, 1, 0, 16, 3, 0xC8, 0x01);
    BAD_SHEET(14, 6, 1, 1, 15, 4, 0, 1, 1, 0, 16, 2, 0xC7, 0x01);
    BAD_SHEET(10, 10, 1, 1, 15, 4, 0, 1, 2, 0, 16, 2, 0xC8);
    BAD_SHEET(14, 12, 1, 1, 15, 4, 0, 2, 1, 0, 16, 2, 0xC8, 0x01, 1, 12, 16, 2, 0xC8, 0x01);
    BAD_SHEET(14, 14, 1, 1, 15, 4, 0, 2, 1, 0, 0x80, 0x80, 0x04, 2, 0xC8, 0x01, /* 65,536 */
              0, 0, 4, 2, 0xC8, 0x01);

    BAD_SHEET(15, EVENTS_BYTE, HEAD_BYTES, 0x81, 0x08); /* 1,025 events */
    BAD_SHEET(10, EVENTS_BYTE + 2, HEAD_BYTES, 0x80, 0x08);
    BAD_SHEET(15, EVENTS_BYTE + 1, HEAD_BYTES, 1, 2);
    BAD_SHEET(15, EVENTS_BYTE + 2, HEAD_BYTES, 1, 0, 0);
    BAD_SHEET(15, EVENTS_BYTE + 2, HEAD_BYTES, 1, 0, 0x80, 0x80, 0x04); /* 65,536 steps */
    GOOD_SHEET(EVENTS_INDEX + 3, HEAD_BYTES, 1, 0, 0xFF, 0xFF, 0x03);

    GOOD_SHEET(EVENTS_INDEX + 1, HEAD_BYTES, 0);
    BAD_SHEET(16, EVENTS_BYTE + 1, HEAD_BYTES, 0, 0);
    BAD_SHEET(16, EVENTS_BYTE + 1, HEAD_BYTES, 0, 0x80);
    BAD_SHEET(16, EVENTS_BYTE + 1, HEAD_BYTES, 0, 0x80, 0x00);
    BAD_SHEET(16, EVENTS_BYTE + 1, HEAD_BYTES, 0, 0xFF, 0xFF, 0xFF, 0xFF, 0xFF);

    for (size_t capacity = 0; capacity < LENGTH(example_list); capacity++)
        expect_read(example_sheet, sizeof example_sheet, capacity, 17, 0, 0, __LINE__);
    expect_read(example_sheet, sizeof example_sheet, LENGTH(example_list), MC_OK, 0,
                LENGTH(example_list), __LINE__);
    static const uint8_t goes_on[] = {HEAD_BYTES, 0, 0};
    expect_read(goes_on, sizeof goes_on, 0, 16, EVENTS_BYTE + 1, 0, __LINE__);
}

static void test_write_refusals(void)
{
    expect_written(NULL, 0, MC_SHEET_MAX, 10, 0, 0, __LINE__);
    for (size_t count = 0; count < LENGTH(example_list); count++)
        expect_written(example_list, count, MC_SHEET_MAX, 10, count, 0, __LINE__);

    BAD_LIST(12, 0, 0);
    BAD_LIST(12, 0, UINT32_MAX);
    BAD_LIST(13, 1, 1, 0);
    BAD_LIST(13, 1, 1, UINT32_MAX);
    BAD_LIST(13, 2, 1, 1, 14, 4, 0);
    BAD_LIST(13, 2, 1, 1, 15, 4, UINT32_MAX);
    BAD_LIST(13, 5, 1, 2, 3, 4, 0, 3, 4, 0);
    BAD_LIST(10, 4, 1, 1, 14, 3);
    BAD_LIST(14, 5, 1, 1, 15, 4, 0, 17);
    BAD_LIST(14, 6, 1, 1, 15, 4, 0, 1, 1, 0, 16, 2, 199);
    BAD_LIST(14, 6, 1, 1, 15, 4, 0, 1, 1, 4294967292, 4, 2, 200);
    BAD_LIST(14, 6, 1, 1, 15, 4, 0, 1, 1, 4, 4294967292, 2, 200);
    BAD_LIST(14, 11, 1, 1, 15, 4, 0, 2, 1, 0, 16, 2, 200, 1, 12, 16, 2, 200);
    BAD_LIST(15, EVENTS_INDEX, HEAD, 1025);
    BAD_LIST(15, EVENTS_INDEX + 1, HEAD, 1, 2);
    BAD_LIST(15, EVENTS_INDEX + 2, HEAD, 1, 0, 0);
    BAD_LIST(15, EVENTS_INDEX + 2, HEAD, 1, 0, 65536);
    BAD_LIST(16, EVENTS_INDEX + 1, HEAD, 0, 0);
    GOOD_LIST(EVENTS_BYTE + 1, HEAD, 0);
    GOOD_LIST(EVENTS_BYTE + 2 + 30, HEAD, 1, 1, UINT32_MAX, UINT32_MAX, UINT32_MAX, UINT32_MAX,
              UINT32_MAX, UINT32_MAX);

    for (size_t capacity = 0; capacity < sizeof example_sheet; capacity++)
        expect_written(example_list, LENGTH(example_list), capacity, 17, 0, 0, __LINE__);
    expect_written(example_list, LENGTH(example_list), sizeof example_sheet, MC_OK, 0,
                   sizeof example_sheet, __LINE__);
}

static void test_example_list(void)
{
    uint32_t list[LENGTH(example_list)];
    uint8_t sheet[sizeof example_sheet];
    struct mc_sheet_result result =
        mc_read_sheet(example_sheet, sizeof example_sheet, list, LENGTH(list));
    CHECK(result.refusal == MC_OK && result.length == LENGTH(list));
    CHECK(memcmp(list, example_list, sizeof list) == 0);
    result = mc_write_sheet(list, LENGTH(list), sheet, sizeof sheet);
    CHECK(result.refusal == MC_OK && result.length == sizeof sheet);
    CHECK(memcmp(sheet, example_sheet, sizeof sheet) == 0);

    struct mc_setup setup;
    mc_list_setup(list, 4096, &setup);
    CHECK(mc_fits_frame(&setup));
    CHECK(setup.level_count == 3 && setup.levels[1].level == 7 && setup.levels[1].width == 2
          && setup.levels[1].options == 2 && setup.levels[2].level == 15);
    CHECK(setup.slave_count == 1 && setup.slaves[0].space == 1 && setup.slaves[0].base == 4096
          && setup.slaves[0].length == 16 && setup.slaves[0].port == 2
          && setup.slaves[0].time == 200 && setup.master_length == 4096);

    struct mc_events events = mc_list_events(list);
    struct mc_event event;
    CHECK(mc_take_event(&events, &event) && event.kind == MC_EVENT_POST
          && event.request.level == 3 && event.request.direction == 1
          && event.request.space == 1 && event.request.address == 4097
          && event.request.length == 7 && event.request.offset == 0);
    CHECK(mc_take_event(&events, &event) && event.kind == MC_EVENT_STEPS && event.steps == 2);
    CHECK(mc_take_event(&events, &event) && event.kind == MC_EVENT_POST);
    CHECK(mc_take_event(&events, &event) && event.kind == MC_EVENT_STEPS && event.steps == 7);
    CHECK(!mc_take_event(&events, &event) && !mc_take_event(&events, &event));
}

/* ---- The random self-check ------------------------------------------------ */

/* What the test keeps by itself while a machine runs. */
struct account {
    uint64_t asked[MC_LEVELS];
    uint64_t moved[MC_LEVELS];
    struct mc_request last[MC_LEVELS]; /* the last accepted post of each level */
    uint64_t moved_of_last[MC_LEVELS];
    bool granted; /* before or since the start */
    uint8_t slave[MC_STORE_MAX];
    uint8_t master[MC_STORE_MAX];
};

static const struct mc_level_row *row_of_level(const struct mc_setup *setup, uint32_t level)
{
    uint32_t i = 0;
    while (setup->levels[i].level != level)
        i++;
    return &setup->levels[i];
}

/* Where an address lies in the slave store, and its row. */
static uint32_t place_in_slave(const struct mc_setup *setup, uint32_t space, uint32_t address,
                               const struct mc_slave_row **row)
{
    uint32_t before = 0;
    for (uint32_t i = 0; i < setup->slave_count; i++) {
        *row = &setup->slaves[i];
        if ((*row)->space == space && address >= (*row)->base
            && address - (*row)->base < (*row)->length)
            return before + address - (*row)->base;
        before += (*row)->length;
    }
    CHECK(false);
    return 0;
}

/* Moves an entry's bytes one by one, and checks the entry against the request. */
static void follow_cycle(struct account *account, const struct mc_setup *setup,
                         const struct mc_entry *entry)
{
    const struct mc_request *request = &account->last[entry->level];
    const struct mc_level_row *level = row_of_level(setup, entry->level);
    uint64_t done = account->moved_of_last[entry->level];
    const struct mc_slave_row *row = NULL;
    uint32_t at = place_in_slave(setup, request->space, entry->address, &row);
    uint32_t q = level->width < row->port ? level->width : row->port;

    CHECK(entry->address == request->address + done);
    CHECK(entry->direction == request->direction);
    CHECK(entry->bytes == rule_length(entry->address, (uint32_t)(request->length - done), q));
    CHECK(entry->master_lane == entry->address % level->width);
    CHECK(entry->slave_lane == entry->address % row->port);
    for (uint32_t i = 0; i < entry->bytes; i++) {
        uint8_t *slave = &account->slave[at + i];
        uint8_t *master = &account->master[request->offset + done + i];
        if (request->direction == MC_READ)
            *master = *slave;
        else
            *slave = *master;
    }
    account->moved[entry->level] += entry->bytes;
    account->moved_of_last[entry->level] += entry->bytes;
    bool ends = (entry->address + entry->bytes) % level->width == 0
             || account->moved_of_last[entry->level] == request->length;
    CHECK(ends || entry->ending == MC_KEPT);
    CHECK(entry->ending != MC_MARKED || ((level->options & MC_FAIR) != 0 && entry->has_hold));
}

/* The time of a step by its entry, and the flag. */
static void follow_time(struct account *account, uint32_t clock, const struct mc_entry *entry)
{
    uint32_t time = entry->clock - clock;
    if (entry->kind == MC_GRANT) {
        CHECK(time == (account->granted ? 130 : 100));
        account->granted = true;
    } else
        CHECK(account->granted && (entry->kind == MC_CYCLE || time == 0));
}

static void check_account(const struct account *account, const struct machine *machine)
{
    CHECK(!mc_is_unsound(&machine->setup, &machine->channel));
    CHECK(machine->channel.ever == account->granted);
    for (uint32_t level = 0; level < MC_LEVELS; level++)
        if (account->asked[level] != account->moved[level] + machine->channel.left[level])
            CHECK(false);
}

static void random_post(struct random *random, struct machine *machine, struct account *account)
{
    struct mc_channel before = machine->channel;
    struct mc_request request = random_request(random, &machine->setup);
    if (mc_post(&machine->setup, &machine->channel, &request) != MC_OK) {
        CHECK(same_channel(&machine->channel, &before));
        return;
    }
    account->asked[request.level] += request.length;
    account->last[request.level] = request;
    account->moved_of_last[request.level] = 0;
    check_account(account, machine);
}

/* Some steps one by one, each followed by the account; the same as a run must do. */
static uint64_t random_steps(struct random *random, struct machine *machine,
                             struct account *account)
{
    static struct machine other;
    uint32_t budget = below(random, 40);
    uint32_t steps = 0;
    enum mc_refusal refusal = MC_OK;
    struct mc_entry entry;

    other = *machine;
    struct mc_run_result result = run(&other, budget);
    while (steps < budget) {
        uint32_t clock = machine->channel.clock;
        refusal = step(machine, &entry);
        if (refusal != MC_OK)
            break;
        steps++;
        CHECK(entry.clock == machine->channel.clock && entry.clock >= clock);
        follow_time(account, clock, &entry);
        if (entry.kind == MC_CYCLE)
            follow_cycle(account, &machine->setup, &entry);
        CHECK(!entry.has_hold || entry.hold <= MC_PREEMPT_TIME);
        check_account(account, machine);
    }
    CHECK(refusal == MC_OK || refusal == MC_CLOCK_FULL);
    if (refusal == MC_CLOCK_FULL && machine->channel.phase == MC_ARBITRATING)
        CHECK(account->granted && machine->channel.clock > MC_CLOCK_LIMIT - 130);
    CHECK(result.refusal == refusal && result.steps == steps);
    CHECK(same_machine(machine, &other));
    return steps;
}

static void test_random(void)
{
    static struct machine machine;
    static struct account account;
    struct random random = {1987};
    uint64_t steps = 0;
    uint32_t longest = 0;

    for (int trial = 0; trial < 400; trial++) {
        struct mc_setup setup = random_setup(&random);
        if (!mc_fits_frame(&setup))
            continue; /* the row moved to the end has met another there */
        start(&machine, &setup);
        machine.channel.ever = below(&random, 4) == 0;
        if (machine.channel.ever && below(&random, 2) == 0)
            machine.channel.clock = MC_CLOCK_LIMIT - below(&random, 30000);
        memset(&account, 0, sizeof account);
        account.granted = machine.channel.ever;
        memcpy(account.slave, machine.slave, sizeof account.slave);
        memcpy(account.master, machine.master, sizeof account.master);
        for (int event = 0; event < 40; event++) {
            if (below(&random, 2))
                random_post(&random, &machine, &account);
            else
                steps += random_steps(&random, &machine, &account);
        }
        CHECK(memcmp(account.slave, machine.slave, sizeof account.slave) == 0);
        CHECK(memcmp(account.master, machine.master, sizeof account.master) == 0);
        uint64_t moved = 0;
        for (uint32_t level = 0; level < MC_LEVELS; level++)
            moved += account.moved[level];
        CHECK(machine.tally.bytes == moved);
        if (machine.tally.hold > longest)
            longest = machine.tally.hold;
    }
    CHECK(steps > 50000);
    CHECK(longest == MC_PREEMPT_TIME);
    printf("random self-check: %llu steps, longest hold %lu\n", (unsigned long long)steps,
           (unsigned long)longest);
}

/* ---- Round trips ----------------------------------------------------------- */

static uint32_t random_number(struct random *random)
{
    uint32_t shift = below(random, 32);
    return draw(random) >> shift;
}

/* The head of a list, of a set-up; gives its length. */
static size_t list_head(const struct mc_setup *setup, uint32_t *list)
{
    size_t count = 0;
    list[count++] = 1;
    list[count++] = setup->level_count;
    for (uint32_t i = 0; i < setup->level_count; i++) {
        list[count++] = setup->levels[i].level;
        list[count++] = setup->levels[i].width;
        list[count++] = setup->levels[i].options;
    }
    list[count++] = setup->slave_count;
    for (uint32_t i = 0; i < setup->slave_count; i++) {
        list[count++] = setup->slaves[i].space;
        list[count++] = setup->slaves[i].base;
        list[count++] = setup->slaves[i].length;
        list[count++] = setup->slaves[i].port;
        list[count++] = setup->slaves[i].time;
    }
    return count;
}

/* A random set-up that keeps to the frame. */
static struct mc_setup random_good_setup(struct random *random)
{
    struct mc_setup setup;
    do
        setup = random_setup(random);
    while (!mc_fits_frame(&setup));
    return setup;
}

/* The list of a random set-up and random events; gives its length. */
static size_t random_list(struct random *random, uint32_t *list)
{
    struct mc_setup setup = random_good_setup(random);
    size_t count = list_head(&setup, list);
    uint32_t events = below(random, 10) == 0 ? 1024 : below(random, 12);
    list[count++] = events;
    for (uint32_t i = 0; i < events; i++) {
        list[count] = below(random, 2);
        if (list[count++] == MC_EVENT_STEPS)
            list[count++] = 1 + below(random, 65535);
        else
            for (int field = 0; field < 6; field++)
                list[count++] = random_number(random);
    }
    return count;
}

/* A sheet that reads must write back as it was; one that doesn't must write nothing. */
static void read_then_write(const uint8_t *sheet, size_t length, unsigned long *good)
{
    static uint32_t list[MC_LIST_MAX];
    static uint8_t back[MC_SHEET_MAX];
    struct mc_sheet_result read = mc_read_sheet(sheet, length, list, MC_LIST_MAX);
    if (read.refusal != MC_OK) {
        CHECK(read.refusal >= 10 && read.refusal <= 16 && read.place <= length);
        return;
    }
    ++*good;
    struct mc_sheet_result written = mc_write_sheet(list, read.length, back, sizeof back);
    CHECK(written.refusal == MC_OK && written.length == length);
    CHECK(memcmp(back, sheet, length) == 0);
}

static void test_round_trips(void)
{
    static uint32_t list[MC_LIST_MAX], back[MC_LIST_MAX];
    static uint8_t sheet[MC_SHEET_MAX + 1];
    struct random random = {611};
    unsigned long good = 0, changed = 0;

    for (int trial = 0; trial < 500; trial++) {
        size_t count = random_list(&random, list);
        struct mc_sheet_result written = mc_write_sheet(list, count, sheet, MC_SHEET_MAX);
        CHECK(written.refusal == MC_OK);
        struct mc_sheet_result read = mc_read_sheet(sheet, written.length, back, MC_LIST_MAX);
        CHECK(read.refusal == MC_OK && read.length == count);
        CHECK(memcmp(back, list, count * sizeof list[0]) == 0);
        read_then_write(sheet, written.length, &good);

        for (int k = 0; k < 20; k++) {
            size_t at = below(&random, (uint32_t)written.length);
            uint8_t kept = sheet[at];
            sheet[at] = below(&random, 2) ? (uint8_t)draw(&random) : (uint8_t)(kept ^ 1);
            read_then_write(sheet, written.length, &changed);
            sheet[at] = kept;
        }

        /* A list with one number changed: the writer never gives 11. */
        size_t at = below(&random, (uint32_t)count);
        list[at] = random_number(&random);
        written = mc_write_sheet(list, count, sheet, MC_SHEET_MAX);
        CHECK(written.refusal != MC_SHEET_NUMBER);
        if (written.refusal == MC_OK) {
            read = mc_read_sheet(sheet, written.length, back, MC_LIST_MAX);
            CHECK(read.refusal == MC_OK && memcmp(back, list, count * sizeof list[0]) == 0);
        }
    }
    CHECK(good == 500 && changed > 100);
}

/* ---- The program ------------------------------------------------------------ */

#define INPUT_FILE "test_input.tmp"
#define OUTPUT_FILE "test_output.tmp"

enum { LOG_ROOM = 4000000 };

/* What the program has printed, as a string; gives its length. */
static size_t read_output(char *output, size_t room)
{
    FILE *file = fopen(OUTPUT_FILE, "rb");
    CHECK(file != NULL);
    size_t got = file != NULL ? fread(output, 1, room - 1, file) : 0;
    output[got] = 0;
    if (file != NULL)
        fclose(file);
    remove(OUTPUT_FILE);
    return got;
}

/* Runs the program over the input; gives the length of its output, a string, and its status. */
static size_t run_program(const char *program, const char *argument, const uint8_t *input,
                          size_t length, char *output, size_t room, int *status)
{
    char command[512];
    snprintf(command, sizeof command, "%s %s <%s >%s 2>/dev/null", program, argument, INPUT_FILE,
             OUTPUT_FILE);
    FILE *file = fopen(INPUT_FILE, "wb");
    CHECK(file != NULL && fwrite(input, 1, length, file) == length && fclose(file) == 0);
    *status = system(command);
    remove(INPUT_FILE);
    return read_output(output, room);
}

static void expect_log(const char *program, const char *argument, const uint8_t *input,
                       size_t length, const char *log, int line)
{
    static char output[LOG_ROOM];
    int status;
    size_t got = run_program(program, argument, input, length, output, sizeof output, &status);
    check_that(status == 0, "status", line);
    check_that(got == strlen(log) && memcmp(output, log, got) == 0, "log", line);
}

#define SHEET_LOG(log, ...)                                                    \
    do {                                                                       \
        static const uint8_t sheet[] = {__VA_ARGS__};                          \
        expect_log(program, "", sheet, sizeof sheet, log, __LINE__);           \
    } while (0)

static void test_sheetrun(const char *program)
{
    expect_log(program, "", example_sheet, sizeof example_sheet, example_log, __LINE__);
    expect_log(program, "", (const uint8_t *)"", 0, "S 10 0\n", __LINE__);
    SHEET_LOG("S 12 0\n", 2);
    SHEET_LOG("S 16 13\n", HEAD_BYTES, 0, 0);
    SHEET_LOG("E 0 0\n", HEAD_BYTES, 0);
    /* A refused post; idle steps; a release without a request; the next tenure. */
    SHEET_LOG("P 0 4294967295 1\nG 100 15\nI 100\nI 100\nP 100 15 0\nC 300 15 0 1 0 0 0 1\n"
              "E 300 1\n",
              HEAD_BYTES, 4, 1, 0xFF, 0xFF, 0xFF, 0xFF, 0x0F, 0, 0, 0, 0, 0, 0, 3, 1, 15, 0, 1, 0,
              1, 0, 0, 1);
    SHEET_LOG("G 100 15\nP 100 3 0\nR 100 15\nG 230 3\nE 230 0\n", 1, 2, 3, 4, 0, 15, 4, 0, 1, 1,
              0, 16, 2, 0xC8, 0x01, 3, 0, 1, 1, 3, 0, 1, 0, 4, 0, 0, 2);
}

/* A sheet far longer than any valid one. */
static void test_long_sheets(const char *program)
{
    static uint8_t sheet[200000];
    static const uint8_t head[] = {HEAD_BYTES, 0};
    memcpy(sheet, head, sizeof head);
    expect_log(program, "", sheet, sizeof sheet, "S 16 13\n", __LINE__);
    memset(sheet, 0xFF, sizeof sheet);
    expect_log(program, "", sheet, sizeof sheet, "S 11 0\n", __LINE__);

    /* The longest events there are, 1,024 of them, and one byte more. */
    static const uint8_t events[] = {HEAD_BYTES, 0x80, 0x08};
    memcpy(sheet, events, sizeof events);
    size_t length = sizeof events;
    for (int i = 0; i < 1024; i++) {
        sheet[length++] = 1;
        for (int field = 0; field < 6; field++, length += 5)
            memcpy(sheet + length, "\xFF\xFF\xFF\xFF\x0F", 5);
    }
    char log[32];
    snprintf(log, sizeof log, "S 16 %lu\n", (unsigned long)length);
    expect_log(program, "", sheet, length + 1, log, __LINE__);
    expect_log(program, "", sheet, sizeof sheet, log, __LINE__);
}

static unsigned long digest(const uint8_t *store, size_t length)
{
    uint64_t d = 1;
    for (size_t i = 0; i < length; i++)
        d = (d * 257 + store[i] + 1) % 4294967291;
    return (unsigned long)d;
}

static size_t add_sheet(uint8_t *input, const uint8_t *sheet, size_t length)
{
    for (int i = 0; i < 4; i++)
        input[i] = (uint8_t)(length >> (8 * i));
    memcpy(input + 4, sheet, length);
    return 4 + length;
}

static void test_many(const char *program)
{
    static struct machine machine;
    static uint8_t input[4 * 70000];
    static const uint8_t zeros[70000];
    static char expected[4096], output[4096];

    struct mc_setup setup;
    mc_list_setup(example_list, 4096, &setup);
    start(&machine, &setup);
    unsigned long at_start = digest(machine.master, 4096);
    CHECK(post(&machine, 3, 1, 1, 4097, 7, 0) == MC_OK && run(&machine, 2).steps == 2);
    CHECK(post(&machine, 7, 0, 1, 4096, 2, 16) == MC_OK && run(&machine, 7).steps == 7);
    static const uint8_t slave[16] = {0, 0, 1, 2, 3, 4, 5, 6};
    CHECK(memcmp(machine.slave, slave, 16) == 0);
    CHECK(machine.master[16] == 0 && machine.master[17] == 0 && machine.master[18] == 18);
    CHECK(same_tally(&machine.tally, &(struct mc_tally){4, 5, 9, 200}));

    size_t length = add_sheet(input, example_sheet, sizeof example_sheet);
    length += add_sheet(input + length, zeros, 0);
    length += add_sheet(input + length, zeros, sizeof zeros);
    length += add_sheet(input + length, example_sheet, sizeof example_sheet);
    snprintf(expected, sizeof expected,
             "%sD %lu %lu 4 5 9 200\nS 10 0\nD 1 %lu 0 0 0 0\nS 12 0\nD 1 %lu 0 0 0 0\n"
             "%sD %lu %lu 4 5 9 200\n",
             example_log, digest(machine.slave, 16), digest(machine.master, 4096), at_start,
             at_start, example_log, digest(machine.slave, 16), digest(machine.master, 4096));
    expect_log(program, "--many", input, length, expected, __LINE__);
    expect_log(program, "--many", input, 0, "", __LINE__);

    int status;
    run_program(program, "--many", input, length - 1, output, sizeof output, &status);
    CHECK(status != 0);
    run_program(program, "--few", input, 0, output, sizeof output, &status);
    CHECK(status != 0);
}

/* ---- The program, asked why ------------------------------------------------- */

/* What --many-why asks about after each event. */
static const uint32_t many_levels[] = {0, 1, 2, 3, 4, 5, 6, 7, 8, 9, 10, 11, 12, 13, 14, 15,
                                       16, 271, 4294967295};

/* What the program is to print, which grows line by line. */
static struct {
    size_t length;
    char text[LOG_ROOM];
} due_log;

/* Adds what printf would print, of less than 100 characters. */
#define ADD(...)                                                               \
    (due_log.length +=                                                        \
     (size_t)snprintf(due_log.text + due_log.length, 100, __VA_ARGS__))

static void clear_due_log(void)
{
    due_log.length = 0;
    due_log.text[0] = 0;
}

static bool ends_due_log(const char *end)
{
    size_t length = strlen(end);
    return length <= due_log.length && strcmp(due_log.text + due_log.length - length, end) == 0;
}

static void add_answer(const struct machine *machine, uint32_t event, uint32_t level)
{
    struct mc_told told = why(machine, level);
    unsigned long named = told.level;
    ADD("event %lu, %lu ns, level %lu: ", (unsigned long)event,
        (unsigned long)machine->channel.clock, (unsigned long)level);
    switch (told.reason) {
    case MC_NOT_PRESENT:
        ADD("not present\n");
        break;
    case MC_NO_REQUEST:
        ADD("no request\n");
        break;
    case MC_OWNS:
        ADD("owns the channel\n");
        break;
    case MC_INACTIVE:
        ADD("inactive; others go first\n");
        break;
    case MC_HOLDS:
        ADD("waits; level %lu still holds\n", named);
        break;
    case MC_OUTRANKED:
        ADD("outranked; level %lu wins next\n", named);
        break;
    case MC_WINS_NEXT:
        ADD("wins next\n");
        break;
    }
}

/* Runs a list by the library and adds its answers; gives how many events met refusal 6. */
static uint32_t add_answers(const uint32_t *list, const uint32_t *levels, size_t count,
                            struct machine *machine)
{
    struct mc_setup setup;
    struct mc_event event;
    uint32_t full = 0;
    mc_list_setup(list, 4096, &setup);
    start(machine, &setup);
    struct mc_events events = mc_list_events(list);
    for (uint32_t number = 1; mc_take_event(&events, &event); number++) {
        if (event.kind == MC_EVENT_POST)
            mc_post(&machine->setup, &machine->channel, &event.request);
        else if (run(machine, event.steps).refusal != MC_OK)
            full++;
        for (size_t i = 0; i < count; i++)
            add_answer(machine, number, levels[i]);
    }
    return full;
}

/* The line that sums up a machine after its sheet. */
static void add_digests(const struct machine *machine)
{
    const struct mc_tally *tally = &machine->tally;
    ADD("D %lu %lu %lu %lu %lu %lu\n",
        digest(machine->slave, mc_slave_length(&machine->setup)), digest(machine->master, 4096),
        (unsigned long)tally->grants, (unsigned long)tally->cycles, (unsigned long)tally->bytes,
        (unsigned long)tally->hold);
}

#define WHY_LOG(level, log, ...)                                               \
    do {                                                                       \
        static const uint8_t sheet[] = {__VA_ARGS__};                          \
        expect_log(program, "--why " level, sheet, sizeof sheet, log, __LINE__); \
    } while (0)

/* The set-up of the document's sheet; then come the events. */
#define WHY_HEAD 1, 3, 3, 4, 3, 7, 2, 2, 15, 4, 0, 1, 1, 0x80, 0x20, 16, 2, 0xC8, 0x01

/* 3 and 7 are posted; 3 is granted, and gives way inside its request; 7 is granted; all is done. */
#define WHY_SHEET                                                              \
    WHY_HEAD, 6, 1, 3, 1, 1, 0x80, 0x20, 8, 0, 1, 7, 1, 1, 0x80, 0x20, 2, 0, 0, 1, 0, 2, 0, 1, 0, 9

static void test_why_program(const char *program)
{
    WHY_LOG("3", "event 1, 0 ns, level 3: wins next\n"
                 "event 2, 0 ns, level 3: wins next\n"
                 "event 3, 100 ns, level 3: owns the channel\n"
                 "event 4, 500 ns, level 3: inactive; others go first\n"
                 "event 5, 630 ns, level 3: waits; level 7 still holds\n"
                 "event 6, 1490 ns, level 3: no request\n", WHY_SHEET);
    WHY_LOG("7", "event 1, 0 ns, level 7: no request\n"
                 "event 2, 0 ns, level 7: outranked; level 3 wins next\n"
                 "event 3, 100 ns, level 7: waits; level 3 still holds\n"
                 "event 4, 500 ns, level 7: wins next\n"
                 "event 5, 630 ns, level 7: owns the channel\n"
                 "event 6, 1490 ns, level 7: no request\n", WHY_SHEET);
    WHY_LOG("15", "event 1, 0 ns, level 15: no request\n"
                  "event 2, 100 ns, level 15: no request\n", WHY_HEAD, 2, 1, 4, 0, 0, 0, 0, 0,
            0, 3);
    WHY_LOG("9", "event 1, 100 ns, level 9: not present\n", WHY_HEAD, 1, 0, 1);
    WHY_LOG("3", "event 1, 0 ns, level 3: no request\n", WHY_HEAD, 1, 1, 3, 0, 0, 0, 0, 0);
    /* Two figures of a level told. */
    WHY_LOG("7", "event 1, 0 ns, level 7: no request\n"
                 "event 2, 100 ns, level 7: no request\n"
                 "event 3, 100 ns, level 7: waits; level 15 still holds\n", WHY_HEAD, 3,
            1, 15, 0, 1, 0x80, 0x20, 2, 0, 0, 1, 1, 7, 0, 1, 0x80, 0x20, 2, 0);

    /* Any number of ten figures, printed without its leading zeros. */
    WHY_LOG("0", "event 1, 100 ns, level 0: not present\n", WHY_HEAD, 1, 0, 1);
    WHY_LOG("0000000000", "event 1, 100 ns, level 0: not present\n", WHY_HEAD, 1, 0, 1);
    WHY_LOG("0000000003", "event 1, 100 ns, level 3: no request\n", WHY_HEAD, 1, 0, 1);
    WHY_LOG("015", "event 1, 100 ns, level 15: no request\n", WHY_HEAD, 1, 0, 1);
    WHY_LOG("16", "event 1, 100 ns, level 16: not present\n", WHY_HEAD, 1, 0, 1);
    WHY_LOG("271", "event 1, 100 ns, level 271: not present\n", WHY_HEAD, 1, 0, 1);
    WHY_LOG("4294967294", "event 1, 100 ns, level 4294967294: not present\n", WHY_HEAD, 1, 0, 1);
    WHY_LOG("4294967295", "event 1, 100 ns, level 4294967295: not present\n", WHY_HEAD, 1, 0, 1);

    WHY_LOG("3", "", WHY_HEAD, 0);
    WHY_LOG("3", "S 16 20\n", WHY_HEAD, 0, 0);
    WHY_LOG("3", "S 12 0\n", 2);
    expect_log(program, "--why 3", (const uint8_t *)"", 0, "S 10 0\n", __LINE__);
}

/* Status 2, nothing on standard output, and the usage alone on standard error. */
static void expect_misuse(const char *program, const char *arguments, int line)
{
    static const char usage[] = "usage: second [--many | --why LEVEL | --many-why] <input\n";
    char command[512], output[200];
    int status;
    size_t got = run_program(program, arguments, (const uint8_t *)"", 0, output, sizeof output,
                             &status);
    check_that(status != 0 && got == 0, "no output", line);
    snprintf(command, sizeof command, "%s %s </dev/null >%s 2>&1; test $? -eq 2", program,
             arguments, OUTPUT_FILE);
    check_that(system(command) == 0, "status", line);
    read_output(output, sizeof output);
    check_that(strcmp(output, usage) == 0, "usage", line);
}

static void test_wrong_calls(const char *program)
{
    static const char *const wrong[] = {
        "--few", "''", "7", "why", "--many 7", "--many --many", "--many-why 7", "--many-why --many",
        "--many-", "--many-why-", "--wh 7", "--why=7", "--whyy 7", "--why", "--why 7 7",
        "--why 7 --many", "--many --why 7", "7 --why", "--why ''", "--why x", "--why 7x",
        "--why x7", "--why -1", "--why -0", "--why +7", "--why ' 7'", "--why '7 '", "--why 7.0",
        "--why 0x7", "--why 1e1", "--why /", "--why :", "--why 4294967296", "--why 4294967300",
        "--why 4294967305", "--why 9999999999", "--why 00000000007", "--why 00000000000",
        "--why 42949672950", "--why 18446744073709551619"};
    for (size_t i = 0; i < LENGTH(wrong); i++)
        expect_misuse(program, wrong[i], __LINE__);
}

/* A random history of good and bad posts and of few steps at a time; gives the list's length. */
static size_t random_history(struct random *random, uint32_t events, uint32_t *list)
{
    struct mc_setup setup = random_good_setup(random);
    setup.master_length = 4096;
    size_t count = list_head(&setup, list);
    list[count++] = events;
    for (uint32_t i = 0; i < events; i++) {
        list[count] = below(random, 2);
        if (list[count++] == MC_EVENT_STEPS) {
            list[count++] = 1 + below(random, 6);
            continue;
        }
        struct mc_request request = random_request(random, &setup);
        list[count++] = request.level;
        list[count++] = request.direction;
        list[count++] = request.space;
        list[count++] = request.address;
        list[count++] = request.length;
        list[count++] = request.offset;
    }
    return count;
}

/*
 * The clock comes to its limit: thirty-one times sixteen requests of 4,096 bytes,
 * a byte in each cycle and two in each tenure.  With cycles of 1,950 ns an owner
 * has no room for its next, with 1,937 ns there is none for an arbitration.
 * Gives the list's length.
 */
static size_t full_history(uint32_t time, uint32_t *list)
{
    struct mc_setup setup = {.level_count = MC_LEVELS,
                             .slave_count = 1,
                             .slaves = {{1, 0, 4096, 1, time}},
                             .master_length = 4096};
    for (uint32_t level = 0; level < MC_LEVELS; level++)
        setup.levels[level] = (struct mc_level_row){level, 2, 0};
    size_t count = list_head(&setup, list);
    list[count++] = 31 * (MC_LEVELS + 2);
    for (int round = 0; round < 31; round++) {
        for (uint32_t level = 0; level < MC_LEVELS; level++) {
            const uint32_t fields[] = {MC_EVENT_POST, level, MC_READ, MC_MEMORY, 0, 4096, 0};
            memcpy(list + count, fields, sizeof fields);
            count += LENGTH(fields);
        }
        for (int run = 0; run < 2; run++) {
            list[count++] = MC_EVENT_STEPS;
            list[count++] = MC_STEPS_MAX;
        }
    }
    return count;
}

/* The program's answers about one level are the library's; gives how many events met refusal 6. */
static uint32_t expect_answers(const char *program, const uint32_t *list, size_t count,
                               uint32_t level, int line)
{
    static struct machine machine;
    static uint8_t sheet[MC_SHEET_MAX];
    char argument[32];
    struct mc_sheet_result written = mc_write_sheet(list, count, sheet, sizeof sheet);
    check_that(written.refusal == MC_OK, "sheet", line);
    clear_due_log();
    uint32_t full = add_answers(list, &level, 1, &machine);
    snprintf(argument, sizeof argument, "--why %lu", (unsigned long)level);
    expect_log(program, argument, sheet, written.length, due_log.text, line);
    return full;
}

static void test_why_lists(const char *program)
{
    static uint32_t list[MC_LIST_MAX];
    struct random random = {271};
    for (int i = 0; i < 12; i++) {
        size_t count = random_history(&random, i == 0 ? 1024 : below(&random, 100), list);
        expect_answers(program, list, count, list[2], __LINE__); /* the lowest level */
        expect_answers(program, list, count, 15, __LINE__);
        expect_answers(program, list, count, draw(&random), __LINE__);
    }

    /* Steps that meet 6 are answered like any others, with no X. */
    size_t count = full_history(1937, list);
    CHECK(expect_answers(program, list, count, 7, __LINE__) == 2);
    CHECK(ends_due_log("event 557, 3999999974 ns, level 7: wins next\n"
                       "event 558, 3999999974 ns, level 7: wins next\n"));
    CHECK(expect_answers(program, list, count, 15, __LINE__) == 2);
    CHECK(ends_due_log("event 557, 3999999974 ns, level 15: outranked; level 7 wins next\n"
                       "event 558, 3999999974 ns, level 15: outranked; level 7 wins next\n"));
    count = full_history(1950, list);
    CHECK(expect_answers(program, list, count, 15, __LINE__) == 2);
    CHECK(ends_due_log("event 557, 3999998700 ns, level 15: waits; level 4 still holds\n"
                       "event 558, 3999998700 ns, level 15: waits; level 4 still holds\n"));
}

/* The nineteen lines of one event, which grants 15, as they stand. */
static void test_many_why_lines(const char *program)
{
    static const uint8_t sheet[] = {WHY_HEAD, 1, 0, 1};
    static struct machine machine;
    uint8_t input[4 + sizeof sheet];
    add_sheet(input, sheet, sizeof sheet);
    start(&machine, &small_setup);
    clear_due_log();
    ADD("event 1, 100 ns, level 0: not present\n");
    ADD("event 1, 100 ns, level 1: not present\n");
    ADD("event 1, 100 ns, level 2: not present\n");
    ADD("event 1, 100 ns, level 3: no request\n");
    ADD("event 1, 100 ns, level 4: not present\n");
    ADD("event 1, 100 ns, level 5: not present\n");
    ADD("event 1, 100 ns, level 6: not present\n");
    ADD("event 1, 100 ns, level 7: no request\n");
    ADD("event 1, 100 ns, level 8: not present\n");
    ADD("event 1, 100 ns, level 9: not present\n");
    ADD("event 1, 100 ns, level 10: not present\n");
    ADD("event 1, 100 ns, level 11: not present\n");
    ADD("event 1, 100 ns, level 12: not present\n");
    ADD("event 1, 100 ns, level 13: not present\n");
    ADD("event 1, 100 ns, level 14: not present\n");
    ADD("event 1, 100 ns, level 15: no request\n");
    ADD("event 1, 100 ns, level 16: not present\n");
    ADD("event 1, 100 ns, level 271: not present\n");
    ADD("event 1, 100 ns, level 4294967295: not present\n");
    ADD("D %lu %lu 1 0 0 0\n", digest(machine.slave, 16), digest(machine.master, 4096));
    expect_log(program, "--many-why", input, sizeof input, due_log.text, __LINE__);
}

/* One sheet more for --many-why: its bytes, its answers and its digests. */
static size_t add_many(uint8_t *input, const uint32_t *list, size_t count)
{
    static struct machine machine;
    static uint8_t sheet[MC_SHEET_MAX];
    struct mc_sheet_result written = mc_write_sheet(list, count, sheet, sizeof sheet);
    CHECK(written.refusal == MC_OK);
    add_answers(list, many_levels, LENGTH(many_levels), &machine);
    add_digests(&machine);
    return add_sheet(input, sheet, written.length);
}

/* Likewise a bad sheet, which has its S line and leaves the stores as they were. */
static size_t add_bad(uint8_t *input, const uint8_t *sheet, size_t length, const char *line)
{
    static struct machine machine;
    start(&machine, &small_setup);
    ADD("%s\nD 1 %lu 0 0 0 0\n", line, digest(machine.master, 4096));
    return add_sheet(input, sheet, length);
}

static void test_many_why(const char *program)
{
    static uint8_t input[200000];
    static uint32_t list[MC_LIST_MAX];
    static char output[LOG_ROOM];
    static const uint32_t no_events[] = {HEAD, 0};
    struct random random = {4096};
    int status;

    clear_due_log();
    size_t length = add_many(input, example_list, LENGTH(example_list));
    length += add_bad(input + length, example_sheet, 0, "S 10 0");
    length += add_bad(input + length, example_sheet, sizeof example_sheet - 1, "S 10 39");
    length += add_many(input + length, no_events, LENGTH(no_events));
    length += add_many(input + length, list, full_history(1937, list));
    for (int i = 0; i < 40; i++) {
        uint32_t events = i == 0 ? 1024 : below(&random, 40);
        length += add_many(input + length, list, random_history(&random, events, list));
    }
    length += add_many(input + length, example_list, LENGTH(example_list));
    CHECK(length < sizeof input && due_log.length > 1000000);
    CHECK(due_log.length < LOG_ROOM - 100);
    expect_log(program, "--many-why", input, length, due_log.text, __LINE__);
    expect_log(program, "--many-why", input, 0, "", __LINE__);

    run_program(program, "--many-why", input, length - 1, output, sizeof output, &status);
    CHECK(status != 0);
    run_program(program, "--many-why", input, 3, output, sizeof output, &status);
    CHECK(status != 0 && output[0] == 0);
}

int main(int argc, char **argv)
{
    if (argc != 2) {
        fputs("usage: test_second program\n", stderr);
        return 2;
    }
    test_frame();
    test_cycle_table();
    test_cycle_count();
    test_post();
    test_asked_at_zero();
    test_arbitration_time();
    test_arbitration_time_of_runs();
    test_flag_is_left();
    test_linger();
    test_clock_limit();
    test_run_refusals();
    test_tally_stops();
    test_unsound();
    test_reason_numbers();
    test_why();
    test_why_any_number();
    test_why_default_owner();
    test_why_inactive();
    test_why_holds();
    test_why_outranked();
    test_why_full_clock();
    test_why_refusals();
    test_why_random();
    test_numbers();
    test_read_refusals();
    test_write_refusals();
    test_example_list();
    test_random();
    test_round_trips();
    test_sheetrun(argv[1]);
    test_long_sheets(argv[1]);
    test_many(argv[1]);
    test_why_program(argv[1]);
    test_wrong_calls(argv[1]);
    test_why_lists(argv[1]);
    test_many_why_lines(argv[1]);
    test_many_why(argv[1]);
    printf("%lu checks, %lu failures\n", checks, failures);
    return failures == 0 ? 0 : 1;
}
