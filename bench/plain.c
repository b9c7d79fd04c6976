/*
 * What crates/benchrun does, by the plain C of second/: a job sheet without its log, for measuring.
 *
 * Each time the sheet's events are gone through from a fresh channel: a post is posted, and a step event is one mc_run, or
 * with an argument as many single steps.  Then the last channel, the tally and digests of both stores are printed, as
 * benchrun prints them.
 */
#include "job.h"

#include <stdio.h>

struct session {
    struct mc_channel channel;
    struct mc_tally tally;
};

static void take_steps(const struct mc_setup *setup, struct session *session, const struct mc_stores *stores,
                       uint32_t steps, bool single)
{
    if (!single) {
        mc_run(setup, &session->channel, stores, &session->tally, steps);
        return;
    }
    struct mc_entry entry;
    for (uint32_t i = 0; i < steps; i++)
        mc_step(setup, &session->channel, stores, &session->tally, &entry);
}

static void take_events(const struct job *job, struct session *session, bool single)
{
    struct mc_events events = mc_list_events(job->list);
    struct mc_event event;
    mc_set_up(&job->setup, &session->channel);
    session->tally = (struct mc_tally){0};
    while (mc_take_event(&events, &event)) {
        if (event.kind == MC_EVENT_STEPS)
            take_steps(&job->setup, session, &job->stores, event.steps, single);
        else
            mc_post(&job->setup, &session->channel, &event.request);
    }
}

static void print_channel(const struct mc_channel *channel)
{
    print_number(channel->phase == MC_GRANTED ? channel->owner : MC_LEVELS);
    if (channel->has_asked)
        print_number(channel->asked);
    else
        printf("not asked\n");
    print_number(channel->clock);
    for (uint32_t i = 0; i < MC_LEVELS; i++) {
        print_number(channel->inactive >> i & 1);
        print_number(channel->direction[i]);
        print_number(channel->space[i]);
        print_number(channel->address[i]);
        print_number(channel->left[i]);
        print_number(channel->offset[i]);
    }
}

int plain_main(int argc, char **argv)
{
    struct job job;
    struct session session;
    (void)argv;
    if (!read_job(&job))
        return 1;
    mc_set_up(&job.setup, &session.channel);
    session.tally = (struct mc_tally){0};
    for (uint32_t i = 0; i < job.times; i++)
        take_events(&job, &session, argc > 1);
    print_channel(&session.channel);
    print_end(&session.tally, &job.stores);
    return 0;
}
