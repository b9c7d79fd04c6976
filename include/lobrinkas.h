/*
 * Lobrinkas: a proved stand-in for the IBM Micro Channel, for emulators.
 *
 * The whole machine - set-up, whether it was ever granted, clock, owner, marks,
 * open requests - is a row of bytes in memory of yours, the image. A call reads
 * the image, does what it does, and leaves the new image at the start of the
 * same memory. Nothing is allocated and nothing is kept anywhere else: to save
 * the machine, copy the image; to restore it, copy it back.
 *
 *     uint8_t image[LOBRINKAS_IMAGE_MOST];      holds every image there is
 *     size_t length;                            of the image in it
 *
 * Every call takes whatever it is handed, answers and ends. A refused call says
 * why by a number and changes nothing: not the image, not a store, not the
 * tally. `length` in an answer is that of the new image, and after a refusal the
 * one that the call was handed, so that `length = answer.length` is right after
 * every call; a set-up is handed none, and where it is refused answers 0.
 *
 * What a call assumes of its pointers: each points to as many elements as the
 * number behind it says and isn't null, even where that number is 0; the ranges
 * of one call don't overlap. Bytes need no alignment. Calls on different
 * memory may run at the same time.
 *
 * The archive is for x86-64 Linux. docs/IMAGE.md has the image byte by byte.
 */
#ifndef LOBRINKAS_H
#define LOBRINKAS_H

#include <stddef.h>
#include <stdint.h>

#ifdef __cplusplus
extern "C" {
#endif

#define LOBRINKAS_VERSION "2.1.0"
#define LOBRINKAS_VERSION_MAJOR 2
#define LOBRINKAS_VERSION_MINOR 1
#define LOBRINKAS_VERSION_PATCH 0

/* the first number of an image; an image of another layout is malformed, those of version 1 too */
#define LOBRINKAS_LAYOUT 2

/* the edition that a set-up's list begins with */
#define LOBRINKAS_EDITION 1

/* no image is longer, and one is as long */
#define LOBRINKAS_IMAGE_MOST 410

/* the most steps of one run */
#define LOBRINKAS_STEPS_MOST 65535

/* Why a call is refused, by the numbers of the build definition. */
enum lobrinkas_refusal {
    LOBRINKAS_ACCEPTED = 0,
    LOBRINKAS_LEVEL_ABSENT = 1,    /* the level isn't in the set-up */
    LOBRINKAS_REQUEST_OPEN = 2,    /* the level has an open request */
    LOBRINKAS_OUT_OF_RANGE = 3,    /* length, direction or space; of a cycle count also width or port */
    LOBRINKAS_OUTSIDE_SLAVE = 4,   /* the range isn't wholly inside one slave row */
    LOBRINKAS_OUTSIDE_MASTER = 5,  /* the range isn't wholly inside the master store */
    LOBRINKAS_CLOCK_FULL = 6,      /* the clock would pass 4,000,000,000 ns */
    LOBRINKAS_TOO_MANY_STEPS = 7,  /* more than LOBRINKAS_STEPS_MOST */
    LOBRINKAS_STORE_LENGTH = 8,    /* a store has another length than the set-up says */
    LOBRINKAS_UNSOUND = 9,         /* the set-up breaks the frame, or no rule leads to this channel */
    LOBRINKAS_NO_ROOM = 17,        /* the new image has no room in the memory; of a run, the longest has none */
    LOBRINKAS_MALFORMED = 18       /* these bytes are no image; this list is no set-up's */
};

/* Directions, spaces, and the options of a level, which are added. */
enum { LOBRINKAS_READ = 0, LOBRINKAS_WRITE = 1 }; /* slave to master, master to slave */
enum { LOBRINKAS_IO = 0, LOBRINKAS_MEMORY = 1 };
enum { LOBRINKAS_BURST = 1, LOBRINKAS_FAIR = 2, LOBRINKAS_LINGER = 4 };

/* What a step did: the letter of its log line. */
enum lobrinkas_kind {
    LOBRINKAS_NONE = 0,      /* it was refused */
    LOBRINKAS_CYCLE = 'C',   /* the owner moved some bytes */
    LOBRINKAS_GRANT = 'G',   /* a level was granted the channel */
    LOBRINKAS_IDLE = 'I',    /* level 15 owns the channel and has nothing to do */
    LOBRINKAS_RELEASE = 'R'  /* level 15 let go without a request */
};

/* How a cycle ends: the owner keeps the channel, releases it, or releases it and is marked inactive. */
enum lobrinkas_ending { LOBRINKAS_KEPT = 0, LOBRINKAS_RELEASED = 1, LOBRINKAS_MARKED = 2 };

/* Why a level waits, or that it doesn't: the first of these that is true. */
enum lobrinkas_reason {
    LOBRINKAS_NOT_PRESENT = 0, /* the set-up has no such level */
    LOBRINKAS_NO_REQUEST = 1,  /* it has asked for nothing; so has level 15 where it owns the channel and idles */
    LOBRINKAS_OWNS = 2,        /* it owns the channel: nobody keeps it waiting */
    LOBRINKAS_INACTIVE = 3,    /* it is fair and gave way: others that ask go first */
    LOBRINKAS_HOLDS = 4,       /* another level still holds the channel */
    LOBRINKAS_OUTRANKED = 5,   /* another level with a lower number wins the next arbitration */
    LOBRINKAS_WINS_NEXT = 6    /* it wins the next arbitration: the next step grants it the channel, if the clock has room */
};

/* What steps add up to. It goes in and comes back; start with zeros. A figure stops at 4,294,967,295. */
struct lobrinkas_tally {
    uint32_t grants;
    uint32_t cycles;
    uint32_t bytes;
    uint32_t hold; /* the longest time in ns that an owner held on after it was asked */
};

/* What a set-up or a post answers. */
struct lobrinkas_answer {
    uint32_t refusal; /* or 0 */
    uint32_t clock;   /* in ns, after the call; 0 where refused */
    size_t length;    /* of the image */
};

/* What a step answers. Its log entry is in the order of the log line; what that line does not show is 0. */
struct lobrinkas_stepped {
    uint32_t refusal; /* or 0 */
    uint32_t kind;    /* the letter of the line */
    size_t length;    /* of the image */
    uint32_t clock;   /* in ns, after the step; 0 where refused */
    uint32_t level;   /* C, G, R */
    uint32_t address; /* C, as are the next five: where its first byte lies */
    uint32_t bytes;
    uint32_t direction;
    uint32_t master_lane; /* of the first byte */
    uint32_t slave_lane;
    uint32_t ending;
    uint32_t asked; /* 1 at a release, by C or R, of an owner that had been asked to */
    uint32_t hold;  /* then: how long ago in ns */
    struct lobrinkas_tally tally;
};

/* What a run answers. */
struct lobrinkas_ran {
    uint32_t refusal; /* or 0 */
    uint32_t stop;    /* LOBRINKAS_CLOCK_FULL where it stopped before a step that has no time left; else 0 */
    size_t length;    /* of the image */
    uint32_t clock;   /* in ns, after the run; 0 where refused */
    uint32_t steps;   /* done */
    struct lobrinkas_tally tally;
};

/* What a cycle count answers. */
struct lobrinkas_counted {
    uint32_t refusal; /* or 0 */
    uint32_t cycles;
};

/* Why a level waits. */
struct lobrinkas_told {
    uint32_t refusal; /* or 0 */
    uint32_t reason;  /* an enum lobrinkas_reason; where the call is refused 0, which then means nothing */
    uint32_t level;   /* LOBRINKAS_HOLDS: the owner; LOBRINKAS_OUTRANKED: the winner; else 0 */
};

/*
 * The first image of a set-up: clock 0, nothing open, nobody owns the channel.
 * head is a sheet's: the edition; how many levels, and for each its level,
 * width (2 or 4) and options, levels rising and the last 15; how many slave
 * rows, and for each its space, base, length, port (1, 2 or 4) and cycle time
 * (200 to 1,950 ns). The slave store is as long as all rows together, and
 * master_length is that of the master store.
 * Refusals, in this order: 18 9 17.
 */
struct lobrinkas_answer lobrinkas_set_up(uint8_t *image, size_t capacity,
                                         const uint32_t *head, size_t head_count,
                                         uint32_t master_length);

/*
 * Posts a request of a level: `bytes` bytes from address on, and from offset on
 * in the master store.
 * Refusals, in this order: 18 9 1 2 3 4 5 17.
 */
struct lobrinkas_answer lobrinkas_post(uint8_t *image, size_t capacity, size_t length,
                                       uint32_t level, uint32_t direction, uint32_t space,
                                       uint32_t address, uint32_t bytes, uint32_t offset);

/*
 * One step: a grant, a cycle with its bytes, a release, or nothing to do.
 * Refusals, in this order: 18 9 8 6 17.
 */
struct lobrinkas_stepped lobrinkas_step(uint8_t *image, size_t capacity, size_t length,
                                        uint8_t *slave, size_t slave_length,
                                        uint8_t *master, size_t master_length,
                                        struct lobrinkas_tally tally);

/*
 * Up to `steps` steps, for the price of one reading and one writing of the
 * image. It stops before a step whose time has no room on the clock; that is no
 * refusal. The memory must have room for the longest image,
 * LOBRINKAS_IMAGE_MOST.
 * Refusals, in this order: 18 9 8 7 17.
 */
struct lobrinkas_ran lobrinkas_run(uint8_t *image, size_t capacity, size_t length,
                                   uint8_t *slave, size_t slave_length,
                                   uint8_t *master, size_t master_length,
                                   struct lobrinkas_tally tally, uint32_t steps);

/*
 * How many cycles a request takes, for a width of 2 or 4 and a port of 1, 2 or 4.
 * Refusals, in this order: 3 4.
 */
struct lobrinkas_counted lobrinkas_cycle_count(uint32_t address, uint32_t bytes,
                                               uint32_t width, uint32_t port);

/*
 * Why a level waits. Any number may be asked about, and one that is no level
 * of the set-up is not present. The image is only read.
 * Refusals, in this order: 18 9.
 */
struct lobrinkas_told lobrinkas_why(const uint8_t *image, size_t capacity, size_t length,
                                    uint32_t level);

#ifdef __cplusplus
}
#endif

#endif
