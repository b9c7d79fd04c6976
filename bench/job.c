#include "job.h"

#include <stdio.h>

enum { MASTER_PERIOD = 251 };

static uint8_t input[65536];
static uint32_t list[MC_LIST_MAX];
static uint8_t slave[MC_STORE_MAX];
static uint8_t master[MASTER_LENGTH];

bool read_job(struct job *job)
{
    uint8_t header[4];
    if (fread(header, 1, sizeof header, stdin) < sizeof header)
        return false;
    size_t length = fread(input, 1, sizeof input, stdin);
    job->times = header[0] | (uint32_t)header[1] << 8 | (uint32_t)header[2] << 16 | (uint32_t)header[3] << 24;
    if (mc_read_sheet(input, length, list, MC_LIST_MAX).refusal != MC_OK) {
        printf("no sheet\n");
        return false;
    }
    job->list = list;
    mc_list_setup(list, MASTER_LENGTH, &job->setup);
    job->stores = (struct mc_stores){slave, mc_slave_length(&job->setup), master, MASTER_LENGTH};
    for (size_t i = 0; i < MASTER_LENGTH; i++)
        master[i] = (uint8_t)(i % MASTER_PERIOD);
    return true;
}

void print_number(uint64_t number)
{
    printf("%llu\n", (unsigned long long)number);
}

void print_digest(const uint8_t *bytes, size_t length)
{
    uint64_t digest = 1;
    for (size_t i = 0; i < length; i++)
        digest = (digest * 257 + bytes[i] + 1) % 4294967291u;
    print_number(digest);
}

void print_end(const struct mc_tally *tally, const struct mc_stores *stores)
{
    print_number(tally->grants);
    print_number(tally->cycles);
    print_number(tally->bytes);
    print_number(tally->hold);
    print_digest(stores->slave, stores->slave_length);
    print_digest(stores->master, stores->master_length);
}
