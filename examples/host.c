/*
 * A small emulator on Lobrinkas: a digitiser, a counter card and a synthesiser.
 *
 * It runs its cards until a tuning word is half on its way, saves the machine
 * there, goes on, restores it, goes on again, and holds the two logs to each
 * other. The log lines are sheetrun's. Status 0: both logs are alike; 1: they
 * are not, or a call was refused that should not have been.
 */
#include "lobrinkas.h"

#include <stdarg.h>
#include <stdio.h>
#include <stdlib.h>
#include <string.h>

/* ---- The frame: three levels and three slave rows ----------------------- */

enum { DIGITISER = 3, COUNTER = 7, SYSTEM = 15 };

enum { BUFFER = 4096, BUFFER_LENGTH = 64 };  /* memory for samples, 32 bits wide */
enum { COUNTS = 8192, COUNTS_LENGTH = 8 };   /* memory for counts, 16 bits wide */
enum { SYNTHESISER = 768, WORD_LENGTH = 4 }; /* a tuning word, byte by byte */

enum { SLAVE_LENGTH = BUFFER_LENGTH + COUNTS_LENGTH + WORD_LENGTH, MASTER_LENGTH = 128 };

static const uint32_t head[] = {
    LOBRINKAS_EDITION,
    3, /* levels: level, width, options */
    DIGITISER, 4, LOBRINKAS_BURST + LOBRINKAS_FAIR + LOBRINKAS_LINGER,
    COUNTER, 2, LOBRINKAS_FAIR,
    SYSTEM, 4, 0,
    3, /* slave rows: space, base, length, port, cycle time in ns */
    LOBRINKAS_MEMORY, BUFFER, BUFFER_LENGTH, 4, 200,
    LOBRINKAS_MEMORY, COUNTS, COUNTS_LENGTH, 2, 300,
    LOBRINKAS_IO, SYNTHESISER, WORD_LENGTH, 1, 500,
};

/* ---- The cards ----------------------------------------------------------- */

/* What is written for a card, by which level, and every how many steps. */
struct card {
    uint32_t level, space, address, bytes;
    uint32_t offset; /* of the bytes in the master store */
    unsigned every;
};

static const struct card cards[] = {
    {DIGITISER, LOBRINKAS_MEMORY, BUFFER, 20, 0, 23},
    {COUNTER, LOBRINKAS_MEMORY, COUNTS + 2, 4, 64, 9},
    {SYSTEM, LOBRINKAS_IO, SYNTHESISER, WORD_LENGTH, 96, 21}, /* the synthesiser has no level of its own */
};
enum { CARDS = sizeof cards / sizeof cards[0] };

/* ---- The machine: no pointers in it, so to copy it is to save it --------- */

struct machine {
    uint8_t image[LOBRINKAS_IMAGE_MOST]; /* room for every image, so 17 never comes */
    size_t length;                       /* of the image that is there now */
    uint8_t slave[SLAVE_LENGTH];
    uint8_t master[MASTER_LENGTH];
    struct lobrinkas_tally tally;
    uint32_t clock;
    unsigned steps;
};

/* A log is text here, so that two can be compared. */
struct log {
    char text[4096];
    size_t used;
};

static void note(struct log *log, const char *format, ...)
{
    size_t room = sizeof log->text - log->used;
    va_list fields;
    va_start(fields, format);
    int wanted = vsnprintf(log->text + log->used, room, format, fields);
    va_end(fields);
    if (wanted < 0 || (size_t)wanted >= room) {
        fprintf(stderr, "host: no room for the log\n");
        exit(1);
    }
    log->used += (size_t)wanted;
}

/* A refusal that is a fault of ours. It changed nothing, but there is no going on. */
static void must(const char *call, uint32_t refusal)
{
    if (refusal == LOBRINKAS_ACCEPTED)
        return;
    fprintf(stderr, "host: %s: refusal %u\n", call, refusal);
    exit(1);
}

/* A card's level asks for the channel. While its last request is open that is refused, and it asks again when its time comes. */
static void ask(struct machine *machine, const struct card *card, struct log *log)
{
    struct lobrinkas_answer answer =
        lobrinkas_post(machine->image, sizeof machine->image, machine->length, card->level,
                       LOBRINKAS_WRITE, card->space, card->address, card->bytes, card->offset);
    note(log, "P %u %u %u\n", machine->clock, card->level, answer.refusal);
    if (answer.refusal == LOBRINKAS_REQUEST_OPEN)
        return;
    must("post", answer.refusal);
    machine->length = answer.length;
    for (uint32_t i = 0; i < card->bytes; i++)
        machine->master[card->offset + i] = (uint8_t)(machine->steps + i);
}

/* The line of a step, as sheetrun prints it. */
static void note_step(const struct lobrinkas_stepped *step, struct log *log)
{
    note(log, "%c %u", (int)step->kind, step->clock);
    if (step->kind != LOBRINKAS_IDLE)
        note(log, " %u", step->level);
    if (step->kind == LOBRINKAS_CYCLE)
        note(log, " %u %u %u %u %u %u", step->address, step->bytes, step->direction,
             step->master_lane, step->slave_lane, step->ending);
    note(log, "\n");
}

/* The cards whose time has come ask, and the channel takes a step. */
static struct lobrinkas_stepped emulate(struct machine *machine, struct log *log)
{
    for (size_t i = 0; i < CARDS; i++)
        if (machine->steps % cards[i].every == 0)
            ask(machine, &cards[i], log);

    struct lobrinkas_stepped step =
        lobrinkas_step(machine->image, sizeof machine->image, machine->length,
                       machine->slave, sizeof machine->slave,
                       machine->master, sizeof machine->master, machine->tally);
    must("step", step.refusal);
    note_step(&step, log);
    machine->length = step.length;
    machine->tally = step.tally;
    machine->clock = step.clock;
    machine->steps++;
    return step;
}

/* What comes after the save: steps one by one, then all cards ask and many steps go at once, which leave a tally and no lines. */
static void go_on(struct machine *machine, struct log *log)
{
    for (int i = 0; i < 48; i++)
        emulate(machine, log);
    for (size_t i = 0; i < CARDS; i++)
        ask(machine, &cards[i], log);

    struct lobrinkas_ran run =
        lobrinkas_run(machine->image, sizeof machine->image, machine->length,
                      machine->slave, sizeof machine->slave,
                      machine->master, sizeof machine->master, machine->tally, 1000);
    must("run", run.refusal);
    machine->length = run.length;
    machine->tally = run.tally;
    machine->clock = run.clock;
    machine->steps += run.steps;
    note(log, "a run of %u steps, to clock %u; in all %u grants, %u cycles, %u bytes, longest hold %u ns\n", run.steps,
         run.clock, run.tally.grants, run.tally.cycles, run.tally.bytes, run.tally.hold);
    const uint8_t *word = machine->slave + BUFFER_LENGTH + COUNTS_LENGTH; /* rows lie in the store one after the other */
    note(log, "the synthesiser has %u %u %u %u\n", word[0], word[1], word[2], word[3]);
}

int main(void)
{
    static struct machine machine, saved; /* static: stores, tally and clock start with zeros */
    static struct log before, first, second;

    struct lobrinkas_answer answer =
        lobrinkas_set_up(machine.image, sizeof machine.image, head, sizeof head / sizeof head[0], MASTER_LENGTH);
    must("set-up", answer.refusal);
    machine.length = answer.length;
    struct lobrinkas_counted word = lobrinkas_cycle_count(SYNTHESISER, WORD_LENGTH, 4, 1);
    must("cycle count", word.refusal);
    printf("an image of %zu bytes; a tuning word takes %u cycles\n", machine.length, word.cycles);

    struct lobrinkas_stepped step;
    do
        step = emulate(&machine, &before);
    while (step.address != SYNTHESISER + 1 || step.ending != LOBRINKAS_KEPT);
    saved = machine;
    printf("%ssaved inside a transfer, an image of %zu bytes\n", before.text, saved.length);

    go_on(&machine, &first);
    machine = saved;
    go_on(&machine, &second);
    if (strcmp(first.text, second.text) != 0) {
        printf("%srestored, and the log is another:\n%s", first.text, second.text);
        return 1;
    }
    printf("%srestored and gone on: both logs are alike\n", first.text);
    return 0;
}
