/*
 * What a host in C does, for measuring: a job sheet without its log over an image, by the archive's calls and by those of
 * the plain C of second/, which are called alike.
 *
 * Each time the sheet's events are gone through from the first image of its set-up: a post is posted, and a step event is
 * one run, or as many single steps, or as many questions why a level waits, of one level after the other.  Then the length of
 * the last image, a digest of all its memory, the tally, digests of both stores and the sum of the answers are printed.
 * Status 1: there was no sheet, or a call was refused, or there is no such call.
 */
#include "image.h"
#include "job.h"
#include "lobrinkas.h"

#include <stdio.h>
#include <string.h>

_Static_assert((int)MC_IMAGE_MOST == LOBRINKAS_IMAGE_MOST, "both sides have the same room");

struct host {
    uint8_t image[LOBRINKAS_IMAGE_MOST];
    size_t length;
    struct mc_tally tally;
    uint32_t refusals; /* of all calls, one over the other */
    uint32_t answers;  /* reasons and levels of all questions, added up */
};

struct side {
    void (*set_up)(struct host *host, const uint32_t *head, size_t count);
    void (*post)(struct host *host, const struct mc_request *request);
    void (*step)(struct host *host, const struct mc_stores *stores, uint32_t steps);
    void (*run)(struct host *host, const struct mc_stores *stores, uint32_t steps);
    void (*why)(struct host *host, uint32_t level);
};

/* ---- The archive --------------------------------------------------------- */

static struct lobrinkas_tally our_tally(const struct mc_tally *tally)
{
    return (struct lobrinkas_tally){tally->grants, tally->cycles, tally->bytes, tally->hold};
}

static void keep_tally(struct host *host, const struct lobrinkas_tally *tally)
{
    host->tally = (struct mc_tally){tally->grants, tally->cycles, tally->bytes, tally->hold};
}

static void our_set_up(struct host *host, const uint32_t *head, size_t count)
{
    struct lobrinkas_answer answer = lobrinkas_set_up(host->image, sizeof host->image, head, count, MASTER_LENGTH);
    host->length = answer.length;
    host->refusals |= answer.refusal;
}

static void our_post(struct host *host, const struct mc_request *request)
{
    struct lobrinkas_answer answer =
        lobrinkas_post(host->image, sizeof host->image, host->length, request->level, request->direction, request->space,
                       request->address, request->length, request->offset);
    host->length = answer.length;
    host->refusals |= answer.refusal;
}

static void our_steps(struct host *host, const struct mc_stores *stores, uint32_t steps)
{
    struct lobrinkas_tally tally = our_tally(&host->tally);
    for (uint32_t i = 0; i < steps; i++) {
        struct lobrinkas_stepped step =
            lobrinkas_step(host->image, sizeof host->image, host->length, stores->slave, stores->slave_length,
                           stores->master, stores->master_length, tally);
        host->length = step.length;
        host->refusals |= step.refusal;
        tally = step.tally;
    }
    keep_tally(host, &tally);
}

static void our_run(struct host *host, const struct mc_stores *stores, uint32_t steps)
{
    struct lobrinkas_ran run =
        lobrinkas_run(host->image, sizeof host->image, host->length, stores->slave, stores->slave_length,
                      stores->master, stores->master_length, our_tally(&host->tally), steps);
    host->length = run.length;
    host->refusals |= run.refusal | run.stop;
    keep_tally(host, &run.tally);
}

static void our_why(struct host *host, uint32_t level)
{
    struct lobrinkas_told told = lobrinkas_why(host->image, sizeof host->image, host->length, level);
    host->refusals |= told.refusal;
    host->answers += 16 * told.reason + told.level;
}

static const struct side our_side = {our_set_up, our_post, our_steps, our_run, our_why};

/* ---- The plain C --------------------------------------------------------- */

static void plain_set_up(struct host *host, const uint32_t *head, size_t count)
{
    struct mc_image_result result = mc_image_set_up(head, count, MASTER_LENGTH, host->image, sizeof host->image);
    host->length = result.length;
    host->refusals |= result.refusal;
}

static void plain_post(struct host *host, const struct mc_request *request)
{
    struct mc_image_result result = mc_image_post(host->image, sizeof host->image, host->length, request);
    host->length = result.length;
    host->refusals |= result.refusal;
}

static void plain_steps(struct host *host, const struct mc_stores *stores, uint32_t steps)
{
    for (uint32_t i = 0; i < steps; i++) {
        struct mc_image_step_result step =
            mc_image_step(host->image, sizeof host->image, host->length, stores, &host->tally);
        host->length = step.length;
        host->refusals |= step.refusal;
    }
}

static void plain_run(struct host *host, const struct mc_stores *stores, uint32_t steps)
{
    struct mc_image_run_result run =
        mc_image_run(host->image, sizeof host->image, host->length, stores, &host->tally, steps);
    host->length = run.length;
    host->refusals |= run.refusal | run.stop;
}

static void plain_why(struct host *host, uint32_t level)
{
    struct mc_told told = mc_image_why(host->image, sizeof host->image, host->length, level);
    host->refusals |= told.refusal;
    host->answers += 16 * told.reason + told.level;
}

static const struct side plain_side = {plain_set_up, plain_post, plain_steps, plain_run, plain_why};

/* ---- Either --------------------------------------------------------------- */

/* How many of the sheet's numbers are its head: edition, levels and slave rows. */
static size_t head_count(const struct mc_setup *setup)
{
    return 3 + 3 * setup->level_count + 5 * setup->slave_count;
}

enum call { STEP, RUN, WHY, CALLS };

static void take_steps(const struct job *job, struct host *host, const struct side *side, enum call call, uint32_t steps)
{
    if (call == STEP)
        side->step(host, &job->stores, steps);
    else if (call == RUN)
        side->run(host, &job->stores, steps);
    else
        for (uint32_t i = 0; i < steps; i++)
            side->why(host, i % MC_LEVELS);
}

static void take_events(const struct job *job, struct host *host, const struct side *side, enum call call)
{
    struct mc_events events = mc_list_events(job->list);
    struct mc_event event;
    side->set_up(host, job->list, head_count(&job->setup));
    host->tally = (struct mc_tally){0};
    while (mc_take_event(&events, &event)) {
        if (event.kind == MC_EVENT_POST)
            side->post(host, &event.request);
        else
            take_steps(job, host, side, call, event.steps);
    }
}

static enum call call_named(const char *name)
{
    static const char *const names[CALLS] = {"image-step", "image-run", "image-why"};
    int call = 0;
    while (call < CALLS && strcmp(name, names[call]) != 0)
        call++;
    return (enum call)call;
}

int host_main(bool is_plain, const char *name)
{
    static struct host host;
    struct job job;
    enum call call = call_named(name);
    if (call == CALLS || !read_job(&job))
        return 1;
    for (uint32_t i = 0; i < job.times; i++)
        take_events(&job, &host, is_plain ? &plain_side : &our_side, call);
    print_number(host.length);
    print_digest(host.image, sizeof host.image);
    print_end(&host.tally, &job.stores);
    print_number(host.answers);
    if (host.refusals != 0)
        fprintf(stderr, "hosts: a call was refused\n");
    return host.refusals != 0;
}
