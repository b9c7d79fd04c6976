/*
 * A small Micro Channel: arbitration among levels 0 to 15, preemption, the
 * fairness rule, basic transfers with steering, and the job sheet.
 *
 * Everything works on memory the caller lends; nothing is allocated and nothing
 * is kept between calls.  Pointers must not be NULL unless a comment allows it,
 * and the memory lent to one call must not overlap.
 */
#ifndef SECOND_H
#define SECOND_H

#include <stdbool.h>
#include <stddef.h>
#include <stdint.h>

enum {
    MC_LEVELS = 16,            /* level numbers run from 0 to 15 */
    MC_SYSTEM_MASTER = 15,     /* always the last level row; the default owner */
    MC_SLAVES = 16,            /* most slave rows of a set-up */
    MC_STORE_MAX = 65536,      /* longest master store; all slave rows together */
    MC_IO_END = 65536,
    MC_MEMORY_END = 16777216,
    MC_TIME_MIN = 200,         /* ns, a slave's cycle */
    MC_TIME_MAX = 1950,
    MC_LENGTH_MAX = 4096,      /* bytes of one request */
    MC_STEPS_MAX = 65535,      /* steps of one run */
    MC_EVENTS_MAX = 1024,
    MC_ARBITRATION_TIME = 100, /* ns, T44 */
    MC_TO_ARB_TIME = 30,       /* ns more wherever the channel has been granted before, T41 */
    MC_PREEMPT_TIME = 7800     /* ns a preempted owner has */
};

#define MC_CLOCK_LIMIT UINT32_C(4000000000)

/* The refusal numbers; 0 is "not refused". */
enum mc_refusal {
    MC_OK = 0,
    MC_LEVEL_ABSENT = 1,
    MC_LEVEL_OPEN = 2,
    MC_BAD_NUMBER = 3,
    MC_OUTSIDE_SLAVE = 4,
    MC_OUTSIDE_MASTER = 5,
    MC_CLOCK_FULL = 6,
    MC_TOO_MANY_STEPS = 7,
    MC_STORE_DIFFERS = 8,
    MC_UNSOUND = 9,
    MC_SHEET_ENDS = 10,
    MC_SHEET_NUMBER = 11,
    MC_SHEET_EDITION = 12,
    MC_SHEET_LEVELS = 13,
    MC_SHEET_SLAVES = 14,
    MC_SHEET_EVENTS = 15,
    MC_SHEET_GOES_ON = 16,
    MC_RESULT_SHORT = 17,
    MC_MALFORMED = 18
};

/* ---- The set-up -------------------------------------------------------- */

enum { MC_BURST = 1, MC_FAIR = 2, MC_LINGER = 4 };

struct mc_level_row {
    uint32_t level;
    uint32_t width;   /* W: 2 or 4 bytes */
    uint32_t options; /* MC_BURST, MC_FAIR and MC_LINGER, added */
};

enum { MC_IO = 0, MC_MEMORY = 1 };

struct mc_slave_row {
    uint32_t space;
    uint32_t base;
    uint32_t length;
    uint32_t port; /* P: 1, 2 or 4 bytes */
    uint32_t time; /* ns of one cycle */
};

struct mc_setup {
    uint32_t level_count;
    struct mc_level_row levels[MC_LEVELS];
    uint32_t slave_count;
    struct mc_slave_row slaves[MC_SLAVES];
    uint32_t master_length;
};

/* Whether the set-up keeps to the frame. */
bool mc_fits_frame(const struct mc_setup *setup);

/* The length of the slave store of a set-up that keeps to the frame. */
uint32_t mc_slave_length(const struct mc_setup *setup);

/* ---- The channel ------------------------------------------------------- */

enum mc_phase { MC_ARBITRATING = 0, MC_GRANTED = 1 };

/*
 * One array per field of a request, indexed by level number.  left 0 means that
 * the level has no open request; the other four fields are then 0 as well.
 */
struct mc_channel {
    uint32_t direction[MC_LEVELS];
    uint32_t space[MC_LEVELS];
    uint32_t address[MC_LEVELS]; /* of the next byte */
    uint32_t left[MC_LEVELS];    /* bytes not yet moved */
    uint32_t offset[MC_LEVELS];  /* of the next byte, in the master store */
    uint16_t inactive;           /* bit n: level n is inactive */
    enum mc_phase phase;
    uint32_t owner; /* while granted */
    bool has_asked; /* while granted; an asked time of 0 is a time like any other */
    uint32_t asked; /* where has_asked */
    bool ever;      /* it has ever been granted */
    uint32_t clock; /* ns */
};

/*
 * Whether the channel is unsound.  The set-up must keep to the frame; the
 * channel may hold anything.
 */
bool mc_is_unsound(const struct mc_setup *setup, const struct mc_channel *channel);

/* The fresh channel, written in any case.  Refusal 9. */
enum mc_refusal mc_set_up(const struct mc_setup *setup, struct mc_channel *channel);

enum { MC_READ = 0, MC_WRITE = 1 }; /* slave to master; master to slave */

/* The six numbers of a post, in the order of the sheet. */
struct mc_request {
    uint32_t level;
    uint32_t direction;
    uint32_t space;
    uint32_t address;
    uint32_t length;
    uint32_t offset;
};

/* Refusals 9, 1, 2, 3, 4, 5, in that order. */
enum mc_refusal mc_post(const struct mc_setup *setup, struct mc_channel *channel,
                        const struct mc_request *request);

/* ---- Steps ------------------------------------------------------------- */

struct mc_stores {
    uint8_t *slave;
    size_t slave_length;
    uint8_t *master;
    size_t master_length;
};

enum mc_entry_kind { MC_GRANT, MC_CYCLE, MC_RELEASE, MC_IDLE };

enum mc_ending { MC_KEPT = 0, MC_RELEASED = 1, MC_MARKED = 2 };

/* What a step's sheetrun line shows, and the hold.  Fields not named are 0. */
struct mc_entry {
    enum mc_entry_kind kind;
    uint32_t clock;        /* after the step */
    uint32_t level;        /* MC_GRANT, MC_CYCLE, MC_RELEASE */
    uint32_t address;      /* MC_CYCLE, as are the next five: of the first byte */
    uint32_t bytes;
    uint32_t direction;
    uint32_t master_lane;  /* of the first byte */
    uint32_t slave_lane;
    enum mc_ending ending;
    bool has_hold;         /* at a release that had an asked time */
    uint32_t hold;         /* the clock less the asked time */
};

/* Each figure stops at 4,294,967,295. */
struct mc_tally {
    uint32_t grants;
    uint32_t cycles;
    uint32_t bytes;
    uint32_t hold; /* the longest */
};

/* The tally after one more step. */
struct mc_tally mc_add_entry(struct mc_tally tally, const struct mc_entry *entry);

/*
 * One step.  tally and entry may be NULL.  Refusals 9, 8, 6, in that order; a
 * refused step leaves everything it was lent as it was.
 */
enum mc_refusal mc_step(const struct mc_setup *setup, struct mc_channel *channel,
                        const struct mc_stores *stores, struct mc_tally *tally,
                        struct mc_entry *entry);

struct mc_run_result {
    enum mc_refusal refusal; /* 9, 8, 7: nothing was done; 6: stopped before a step */
    uint32_t steps;          /* done */
};

/* Up to budget steps.  tally may be NULL. */
struct mc_run_result mc_run(const struct mc_setup *setup, struct mc_channel *channel,
                            const struct mc_stores *stores, struct mc_tally *tally,
                            uint32_t budget);

/* Called after each step of a run; must leave alone what was lent to the run. */
typedef void mc_watch(void *context, const struct mc_entry *entry);

/* The same run, showing each step's entry. */
struct mc_run_result mc_run_watched(const struct mc_setup *setup, struct mc_channel *channel,
                                    const struct mc_stores *stores, struct mc_tally *tally,
                                    uint32_t budget, mc_watch *watch, void *context);

/* ---- Why a level waits ------------------------------------------------- */

/* In the order in which they are tried: the first that is true is the reason. */
enum mc_reason {
    MC_NOT_PRESENT = 0,
    MC_NO_REQUEST = 1,
    MC_OWNS = 2,      /* it owns the channel */
    MC_INACTIVE = 3,
    MC_HOLDS = 4,     /* another owner still holds */
    MC_OUTRANKED = 5, /* at the next arbitration */
    MC_WINS_NEXT = 6  /* whether or not the clock has room for it */
};

struct mc_told {
    enum mc_refusal refusal;
    enum mc_reason reason; /* 0 where refused */
    uint32_t level;        /* MC_HOLDS: the owner; MC_OUTRANKED: the winner; else 0 */
};

/* Why a level waits, or that it doesn't; it may be any number.  Refusal 9; nothing is changed. */
struct mc_told mc_why(const struct mc_setup *setup, const struct mc_channel *channel,
                      uint32_t level);

/* ---- Cycles ------------------------------------------------------------ */

/* Bytes one cycle moves: [Q / 2][address mod 4][the smaller of left and 4, less 1]. */
extern const uint8_t mc_cycle_lengths[3][4][4];

/* The cycles of a request.  Refusals 3, 4; *cycles is then 0. */
enum mc_refusal mc_count_cycles(uint32_t address, uint32_t length, uint32_t width, uint32_t port,
                                uint32_t *cycles);

/* ---- The job sheet ----------------------------------------------------- */

enum {
    /* Numbers of the longest valid sheet. */
    MC_LIST_MAX = 1 + 1 + 3 * MC_LEVELS + 1 + 5 * MC_SLAVES + 1 + 7 * MC_EVENTS_MAX,
    /*
     * No valid sheet has more bytes: a slave row takes up to 1 + 4 + 3 + 1 + 2,
     * the event count 2, and a post's six free numbers 5 each.
     */
    MC_SHEET_MAX = 1 + 1 + 3 * MC_LEVELS + 1 + 11 * MC_SLAVES + 2 + 31 * MC_EVENTS_MAX
};

struct mc_sheet_result {
    enum mc_refusal refusal;
    size_t place;  /* of the refusal: byte of the sheet, or index in the list */
    size_t length; /* written to the result; 0 where refused */
};

/* The numbers of a sheet.  Refusals 10 to 17. */
struct mc_sheet_result mc_read_sheet(const uint8_t *sheet, size_t length, uint32_t *list,
                                     size_t capacity);

/* The sheet of a list of numbers.  Refusals 10 and 12 to 17. */
struct mc_sheet_result mc_write_sheet(const uint32_t *list, size_t count, uint8_t *sheet,
                                      size_t capacity);

/*
 * The calls below take a valid list: one that mc_read_sheet gave or that
 * mc_write_sheet accepts.
 */

/* The set-up, from the list's head alone; the length of the master store isn't on the sheet. */
void mc_list_setup(const uint32_t *list, uint32_t master_length, struct mc_setup *setup);

enum mc_event_kind { MC_EVENT_STEPS = 0, MC_EVENT_POST = 1 };

struct mc_event {
    enum mc_event_kind kind;
    uint32_t steps;            /* MC_EVENT_STEPS */
    struct mc_request request; /* MC_EVENT_POST */
};

/* The events not yet taken. */
struct mc_events {
    const uint32_t *next;
    uint32_t left;
};

struct mc_events mc_list_events(const uint32_t *list);

/* Takes one event; false when none is left. */
bool mc_take_event(struct mc_events *events, struct mc_event *event);

#endif
