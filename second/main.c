/*
 * sheetrun: runs one job sheet from standard input and prints its log.
 *
 * With --many it runs many sheets, each led by its length as four bytes, lowest
 * first, and prints after each log a line that sums up the stores and the tally.
 *
 * With --why LEVEL it runs one sheet and prints, in the place of the log, after
 * each event why that level waits; with --many-why it does so for many sheets and
 * for each of a row of levels.
 */
#include "second.h"

#include <stdio.h>
#include <string.h>

enum { MASTER_LENGTH = 4096, MASTER_PERIOD = 251 };

/*
 * The judge of a sheet needs no byte past these: it never looks further than the
 * longest valid sheet and one row of five numbers.  So a longer sheet is judged
 * by its first bytes, and the rest is only read.
 */
enum { SHEET_KEPT = 32768 };
_Static_assert(SHEET_KEPT > MC_SHEET_MAX + 25, "a sheet's fault may lie past the bytes kept");

/* ---- Output ------------------------------------------------------------ */

enum { OUTPUT_SIZE = 65536, NUMBER_MAX = 20 };

struct output {
    size_t used;
    bool failed;
    char text[OUTPUT_SIZE];
};

static void flush_output(struct output *output)
{
    if (fwrite(output->text, 1, output->used, stdout) != output->used)
        output->failed = true;
    output->used = 0;
}

/* A line is put in parts once there is room for all of it. */
static void make_room(struct output *output, size_t longest)
{
    if (output->used + longest > OUTPUT_SIZE)
        flush_output(output);
}

static void put_text(struct output *output, const char *text)
{
    while (*text != 0)
        output->text[output->used++] = *text++;
}

/* A decimal number. */
static void put_number(struct output *output, uint64_t number)
{
    char digits[NUMBER_MAX];
    size_t count = 0;
    do {
        digits[count++] = (char)('0' + number % 10);
        number /= 10;
    } while (number != 0);

    while (count > 0)
        output->text[output->used++] = digits[--count];
}

static void put_line(struct output *output, char name, const uint64_t *fields, size_t count)
{
    make_room(output, 1 + count * (1 + NUMBER_MAX) + 1);
    output->text[output->used++] = name;
    for (size_t i = 0; i < count; i++) {
        output->text[output->used++] = ' ';
        put_number(output, fields[i]);
    }
    output->text[output->used++] = '\n';
}

/* A line of the log: its letter, then its numbers. */
#define PUT_LINE(output, name, ...)                                            \
    put_line(output, name, (const uint64_t[]){__VA_ARGS__},                    \
             sizeof((const uint64_t[]){__VA_ARGS__}) / sizeof(uint64_t))

/* ---- One sheet --------------------------------------------------------- */

struct machine {
    struct mc_setup setup;
    struct mc_channel channel;
    struct mc_tally tally;
    struct mc_stores stores;
    uint8_t slave[MC_STORE_MAX];
    uint8_t master[MASTER_LENGTH];
    uint32_t list[MC_LIST_MAX];
};

/* The machine before a sheet is read: no slave store, and nothing done. */
static void start_machine(struct machine *machine)
{
    machine->tally = (struct mc_tally){0};
    machine->stores = (struct mc_stores){
        .slave = machine->slave,
        .slave_length = 0,
        .master = machine->master,
        .master_length = MASTER_LENGTH,
    };
    for (size_t i = 0; i < MASTER_LENGTH; i++)
        machine->master[i] = (uint8_t)(i % MASTER_PERIOD);
}

static void print_entry(void *context, const struct mc_entry *entry)
{
    struct output *output = context;
    switch (entry->kind) {
    case MC_GRANT:
        PUT_LINE(output, 'G', entry->clock, entry->level);
        break;
    case MC_CYCLE:
        PUT_LINE(output, 'C', entry->clock, entry->level, entry->address, entry->bytes,
                 entry->direction, entry->master_lane, entry->slave_lane, entry->ending);
        break;
    case MC_RELEASE:
        PUT_LINE(output, 'R', entry->clock, entry->level);
        break;
    case MC_IDLE:
        PUT_LINE(output, 'I', entry->clock);
        break;
    }
}

static void do_steps(struct machine *machine, uint32_t steps, struct output *output)
{
    struct mc_run_result result =
        mc_run_watched(&machine->setup, &machine->channel, &machine->stores, &machine->tally,
                       steps, print_entry, output);
    if (result.refusal != MC_OK)
        PUT_LINE(output, 'X', machine->channel.clock, result.refusal);
}

static void do_post(struct machine *machine, const struct mc_request *request,
                    struct output *output)
{
    enum mc_refusal refusal = mc_post(&machine->setup, &machine->channel, request);
    PUT_LINE(output, 'P', machine->channel.clock, request->level, refusal);
}

static void do_events(struct machine *machine, struct output *output)
{
    struct mc_events events = mc_list_events(machine->list);
    struct mc_event event;
    while (mc_take_event(&events, &event)) {
        if (event.kind == MC_EVENT_STEPS)
            do_steps(machine, event.steps, output);
        else
            do_post(machine, &event.request, output);
    }
    PUT_LINE(output, 'E', machine->channel.clock, machine->tally.bytes);
}

/* ---- Why a level waits ------------------------------------------------- */

/* The levels that are asked about, which may be any numbers; with none the log is printed. */
struct question {
    const uint32_t *levels;
    size_t count;
};

/* A reason in words, and what follows the level told where there is one. */
struct words {
    const char *text;
    const char *after_level;
};

static const struct words words_of[] = {
    [MC_NOT_PRESENT] = {"not present", NULL},
    [MC_NO_REQUEST] = {"no request", NULL},
    [MC_OWNS] = {"owns the channel", NULL},
    [MC_INACTIVE] = {"inactive; others go first", NULL},
    [MC_HOLDS] = {"waits; level ", " still holds"},
    [MC_OUTRANKED] = {"outranked; level ", " wins next"},
    [MC_WINS_NEXT] = {"wins next", NULL},
};

/* More than any answer's line without its four numbers. */
enum { ANSWER_TEXT_MAX = 64 };

/* Never refused: a good sheet's set-up keeps to the frame, and posts and steps keep it sound. */
static void print_answer(const struct machine *machine, uint32_t event, uint32_t level,
                         struct output *output)
{
    struct mc_told told = mc_why(&machine->setup, &machine->channel, level);
    const struct words *words = &words_of[told.reason];
    make_room(output, ANSWER_TEXT_MAX + 4 * NUMBER_MAX);
    put_text(output, "event ");
    put_number(output, event);
    put_text(output, ", ");
    put_number(output, machine->channel.clock);
    put_text(output, " ns, level ");
    put_number(output, level);
    put_text(output, ": ");
    put_text(output, words->text);
    if (words->after_level != NULL) {
        put_number(output, told.level);
        put_text(output, words->after_level);
    }
    put_text(output, "\n");
}

/* An event without its log.  A refused post, or steps that meet 6, are answered like any other. */
static void do_event(struct machine *machine, const struct mc_event *event)
{
    if (event->kind == MC_EVENT_STEPS)
        mc_run(&machine->setup, &machine->channel, &machine->stores, &machine->tally,
               event->steps);
    else
        mc_post(&machine->setup, &machine->channel, &event->request);
}

static void answer_events(struct machine *machine, const struct question *question,
                          struct output *output)
{
    struct mc_events events = mc_list_events(machine->list);
    struct mc_event event;
    for (uint32_t number = 1; mc_take_event(&events, &event); number++) {
        do_event(machine, &event);
        for (size_t i = 0; i < question->count; i++)
            print_answer(machine, number, question->levels[i], output);
    }
}

/* ---- The whole of a sheet ---------------------------------------------- */

/* Runs a sheet and prints its log or its answers; a bad sheet leaves the machine as it started. */
static void run_sheet(struct machine *machine, const uint8_t *sheet, size_t length,
                      const struct question *question, struct output *output)
{
    start_machine(machine);
    struct mc_sheet_result read = mc_read_sheet(sheet, length, machine->list, MC_LIST_MAX);
    if (read.refusal != MC_OK) {
        PUT_LINE(output, 'S', read.refusal, read.place);
        return;
    }
    mc_list_setup(machine->list, MASTER_LENGTH, &machine->setup);
    mc_set_up(&machine->setup, &machine->channel);
    machine->stores.slave_length = mc_slave_length(&machine->setup);
    memset(machine->slave, 0, machine->stores.slave_length);
    if (question->count == 0)
        do_events(machine, output);
    else
        answer_events(machine, question, output);
}

static uint64_t digest(const uint8_t *store, size_t length)
{
    uint64_t d = 1;
    for (size_t i = 0; i < length; i++)
        d = (d * 257 + store[i] + 1) % UINT32_C(4294967291);
    return d;
}

static void print_digests(const struct machine *machine, struct output *output)
{
    const struct mc_stores *stores = &machine->stores;
    const struct mc_tally *tally = &machine->tally;
    PUT_LINE(output, 'D', digest(stores->slave, stores->slave_length),
             digest(stores->master, stores->master_length), tally->grants, tally->cycles,
             tally->bytes, tally->hold);
}

/* ---- Input ------------------------------------------------------------- */

/*
 * Reads up to wanted bytes, keeping the first SHEET_KEPT; gives how many came.
 * The length is 64 bits wide, so that "all there is" has a number.
 */
static uint64_t read_sheet_bytes(uint8_t *sheet, uint64_t wanted)
{
    uint8_t passed_over[4096];
    uint64_t come = 0;
    while (come < wanted) {
        bool is_kept = come < SHEET_KEPT;
        uint8_t *to = is_kept ? sheet + come : passed_over;
        uint64_t room = is_kept ? SHEET_KEPT - come : sizeof passed_over;
        size_t got = fread(to, 1, (size_t)(room < wanted - come ? room : wanted - come), stdin);
        if (got == 0)
            break;
        come += got;
    }
    return come;
}

static size_t kept_of(uint64_t length)
{
    return (size_t)(length < SHEET_KEPT ? length : SHEET_KEPT);
}

enum { DONE = 0, FAILED = 1, MISUSED = 2 };

static int run_one(struct machine *machine, const struct question *question,
                   struct output *output)
{
    uint8_t sheet[SHEET_KEPT];
    uint64_t length = read_sheet_bytes(sheet, UINT64_MAX);
    run_sheet(machine, sheet, kept_of(length), question, output);
    return DONE;
}

static int run_many(struct machine *machine, const struct question *question,
                    struct output *output)
{
    uint8_t sheet[SHEET_KEPT];
    uint8_t head[4];
    size_t got;
    while ((got = fread(head, 1, sizeof head, stdin)) == sizeof head) {
        uint64_t length = (uint64_t)head[0] | (uint64_t)head[1] << 8 | (uint64_t)head[2] << 16
                        | (uint64_t)head[3] << 24;
        if (read_sheet_bytes(sheet, length) != length) {
            fputs("second: the input ends inside a sheet\n", stderr);
            return FAILED;
        }
        run_sheet(machine, sheet, kept_of(length), question, output);
        print_digests(machine, output);
    }
    if (got != 0) {
        fputs("second: the input ends inside a length\n", stderr);
        return FAILED;
    }
    return DONE;
}

/* ---- The call ---------------------------------------------------------- */

/* Those of --many-why: all that a set-up may have, and three numbers that are no level. */
static const uint32_t many_levels[] = {
    0, 1, 2, 3, 4, 5, 6, 7, 8, 9, 10, 11, 12, 13, 14, 15, 16, 271, UINT32_MAX};
static const struct question every_level = {
    .levels = many_levels, .count = sizeof many_levels / sizeof many_levels[0]};

/* How the program was called.  It stays where it was made: the question may point to its level. */
struct call {
    bool is_many;
    struct question question;
    uint32_t level; /* of --why */
};

enum { LEVEL_DIGITS = 10 };

/* One to ten decimal digits of a value up to 4,294,967,295. */
static bool read_level(const char *text, uint32_t *level)
{
    size_t count = strlen(text);
    if (count == 0 || count > LEVEL_DIGITS)
        return false;
    *level = 0;
    for (size_t i = 0; i < count; i++) {
        if (text[i] < '0' || text[i] > '9')
            return false;
        uint32_t digit = (uint32_t)(text[i] - '0');
        if (*level > (UINT32_MAX - digit) / 10)
            return false;
        *level = *level * 10 + digit;
    }
    return true;
}

/* False for a wrong call. */
static bool read_call(int argc, char **argv, struct call *call)
{
    *call = (struct call){.is_many = false};
    if (argc == 1)
        return true;
    if (argc == 2 && strcmp(argv[1], "--many") == 0) {
        call->is_many = true;
        return true;
    }
    if (argc == 2 && strcmp(argv[1], "--many-why") == 0) {
        call->is_many = true;
        call->question = every_level;
        return true;
    }
    if (argc == 3 && strcmp(argv[1], "--why") == 0) {
        call->question = (struct question){.levels = &call->level, .count = 1};
        return read_level(argv[2], &call->level);
    }
    return false;
}

int main(int argc, char **argv)
{
    struct call call;
    if (!read_call(argc, argv, &call)) {
        fputs("usage: second [--many | --why LEVEL | --many-why] <input\n", stderr);
        return MISUSED;
    }

    struct machine machine;
    struct output output;
    output.used = 0;
    output.failed = false;
    int status = call.is_many ? run_many(&machine, &call.question, &output)
                              : run_one(&machine, &call.question, &output);
    if (ferror(stdin)) {
        fputs("second: the input can't be read\n", stderr);
        status = FAILED;
    }
    flush_output(&output);
    if (output.failed || fflush(stdout) != 0) {
        fputs("second: the output can't be written\n", stderr);
        status = FAILED;
    }
    return status;
}
