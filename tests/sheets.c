/*
 * Makes job sheets for the comparison of two programs: valid ones of every kind and damaged ones, from a seed.
 * Usage: sheets COUNT SEED.  Each sheet is written after its length, four bytes, lowest first.
 * The first sheets are made by hand: one whose clock comes to its limit, and two of the largest step count.
 */
#include <stdint.h>
#include <stdio.h>
#include <stdlib.h>
#include <string.h>

enum { ROOM = 40000, NUMBERS = 8000 };

static uint64_t state;

/* xorshift64*: the same sheets on every machine */
static uint32_t any(void)
{
    state ^= state >> 12;
    state ^= state << 25;
    state ^= state >> 27;
    return (uint32_t)((state * UINT64_C(2685821657736338717)) >> 32);
}

static uint32_t below(uint32_t n) { return n == 0 ? 0 : any() % n; }
static int one_in(uint32_t n) { return below(n) == 0; }

struct list {
    uint32_t numbers[NUMBERS];
    size_t count;
};

struct bytes {
    uint8_t data[ROOM];
    size_t count;
};

static void put(struct list *list, uint32_t n)
{
    if (list->count < NUMBERS) list->numbers[list->count++] = n;
}

static void encode(const struct list *list, struct bytes *out)
{
    out->count = 0;
    for (size_t i = 0; i < list->count; i++) {
        uint32_t n = list->numbers[i];
        while (n >= 128 && out->count < ROOM - 1) {
            out->data[out->count++] = (uint8_t)(128 + n % 128);
            n /= 128;
        }
        if (out->count < ROOM) out->data[out->count++] = (uint8_t)n;
    }
}

static void emit(const struct bytes *sheet)
{
    uint32_t n = (uint32_t)sheet->count;
    uint8_t head[4] = {(uint8_t)n, (uint8_t)(n >> 8), (uint8_t)(n >> 16), (uint8_t)(n >> 24)};
    fwrite(head, 1, 4, stdout);
    fwrite(sheet->data, 1, sheet->count, stdout);
}

/* ---- one sheet --------------------------------------------------------- */

struct slave {
    uint32_t space, base, length, port, time;
};

struct plan {
    uint32_t levels[16];
    uint32_t level_count;
    struct slave slaves[16];
    uint32_t slave_count;
};

static void put_levels(struct list *list, struct plan *plan)
{
    uint32_t chosen = any() | 0x8000u, contended = one_in(3);
    if (contended) chosen |= any();
    plan->level_count = 0;
    for (uint32_t l = 0; l < 16; l++)
        if (l == 15 || (chosen >> l & 1u)) plan->levels[plan->level_count++] = l;
    uint32_t all_fair = one_in(4) ? 2 : 0;
    put(list, plan->level_count);
    for (uint32_t i = 0; i < plan->level_count; i++) {
        put(list, plan->levels[i]);
        put(list, below(2) ? 4 : 2);
        put(list, below(8) | all_fair);
    }
}

static void put_slaves(struct list *list, struct plan *plan)
{
    static const uint32_t ports[3] = {1, 2, 4};
    plan->slave_count = 1 + below(one_in(4) ? 16 : 4);
    uint32_t at[2] = {4 * below(64), 4 * below(4096)}, left = 65536;
    put(list, plan->slave_count);
    for (uint32_t i = 0; i < plan->slave_count; i++) {
        struct slave *s = &plan->slaves[i];
        uint32_t share = left / (plan->slave_count - i);
        s->space = below(2);
        s->length = 4 * (1 + below(share / 4 > 1500 ? 1500 : share / 4));
        if (s->length > 4 * (share / 4)) s->length = 4 * (share / 4);
        s->base = at[s->space];
        at[s->space] += s->length + (one_in(2) ? 0 : 4 * below(16));
        if (s->space == 0 && s->base + s->length > 65536) s->space = 1, s->base = at[1], at[1] += s->length;
        left -= s->length;
        s->port = ports[below(3)];
        s->time = one_in(3) ? 1950 : one_in(2) ? 200 : 200 + below(1751);
        put(list, s->space);
        put(list, s->base);
        put(list, s->length);
        put(list, s->port);
        put(list, s->time);
    }
}

/* levels that no set-up has, though the low bits are those of one that it may have */
static const uint32_t odd_levels[] = {255, 271, 65536 + 3, 4294967295u};
enum { ODD_LEVELS = sizeof odd_levels / sizeof odd_levels[0] };

static void put_post(struct list *list, const struct plan *plan)
{
    const struct slave *s = &plan->slaves[below(plan->slave_count)];
    uint32_t level = plan->levels[below(plan->level_count)], direction = below(2), space = s->space;
    uint32_t start = below(s->length), most = s->length - start;
    uint32_t length = 1 + below(one_in(4) ? most : most > 24 ? 24 : most);
    if (length > 4096) length = 4096;
    uint32_t address = s->base + start, offset = below(4097 - length);
    switch (below(24)) {
    case 0: level = one_in(2) ? any() % 300 : odd_levels[below(ODD_LEVELS)]; break;
    case 1: length = one_in(2) ? 0 : 4097 + below(9); break;
    case 2: direction = 2 + below(5); break;
    case 3: space = one_in(2) ? 2 : 1 - space; break;
    case 4: address += s->length; break;
    case 5: address = 4294967295u - below(5); break;
    case 6: offset = 4096 - below(length); break;
    case 7: offset = 4294967295u - below(9); break;
    default: break;
    }
    put(list, 1);
    put(list, level);
    put(list, direction);
    put(list, space);
    put(list, address);
    put(list, length);
    put(list, offset);
}

static void put_events(struct list *list, const struct plan *plan)
{
    uint32_t count = one_in(8) ? 0 : 1 + below(one_in(5) ? 120 : 24);
    put(list, count);
    for (uint32_t i = 0; i < count; i++) {
        if (below(5) < 3) {
            put_post(list, plan);
        } else {
            put(list, 0);
            put(list, 1 + below(one_in(6) ? 600 : 20));
        }
    }
}

static void make(struct list *list, struct plan *plan)
{
    list->count = 0;
    put(list, 1);
    put_levels(list, plan);
    put_slaves(list, plan);
    put_events(list, plan);
}

/* ---- the first sheets -------------------------------------------------- */

enum { MOST_STEPS = 65535 };

static void put_all(struct list *list, const uint32_t *numbers, size_t count)
{
    for (size_t i = 0; i < count; i++) put(list, numbers[i]);
}

#define PUT_ALL(list, ...)                             \
    put_all(list, (const uint32_t[]){__VA_ARGS__},     \
            sizeof((const uint32_t[]){__VA_ARGS__}) / sizeof(uint32_t))

/* level 15 moves 4,096 bytes over a port of 1 byte at 1,950 ns, again and again, until the clock is full, which the largest step count meets too */
static void make_full(struct list *list)
{
    PUT_ALL(list, 1, 1, 15, 4, 1, 1, 1, 0, 4096, 1, 1950, 1024);
    for (uint32_t i = 1; i <= 512; i++) PUT_ALL(list, 1, 15, 0, 1, 0, 4096, 0, 0, i < 512 ? 4097 : MOST_STEPS);
}

/* nobody asks for anything, but levels that the set-up hasn't */
static void make_idle(struct list *list)
{
    PUT_ALL(list, 1, 1, 15, 4, 0, 1, 1, 0, 4096, 1, 200, 1 + ODD_LEVELS);
    for (size_t i = 0; i < ODD_LEVELS; i++) PUT_ALL(list, 1, odd_levels[i], 0, 1, 0, 1, 0);
    PUT_ALL(list, 0, MOST_STEPS);
}

/* sixteen levels move 4,096 bytes each over a port of 1 byte, which takes more steps than the largest count; it comes twice, a post between */
static void make_busy(struct list *list)
{
    PUT_ALL(list, 1, 16);
    for (uint32_t level = 0; level < 16; level++) PUT_ALL(list, level, level % 3 ? 4 : 2, level % 8);
    PUT_ALL(list, 1, 1, 0, 4096, 1, 200, 19);
    for (uint32_t level = 0; level < 16; level++) PUT_ALL(list, 1, level, level % 2, 1, 0, 4096, 0);
    PUT_ALL(list, 0, MOST_STEPS, 1, 3, 0, 1, 0, 4096, 0, 0, MOST_STEPS);
}

static void (*const made_by_hand[])(struct list *) = {make_full, make_idle, make_busy};
enum { BY_HAND = sizeof made_by_hand / sizeof made_by_hand[0] };

/* ---- damage ------------------------------------------------------------ */

/* a number of the list that breaks a clause of the frame or a range, or any number at all */
static void spoil_list(struct list *list)
{
    static const uint32_t odd[] = {0, 1, 2, 3, 5, 8, 16, 17, 199, 1951, 1025, 65536, 65540, 16777216, 16777220, 4294967295u};
    size_t early = list->count < 140 ? list->count : 140;
    size_t at = one_in(2) ? below((uint32_t)early) : below((uint32_t)list->count);
    uint32_t n = list->numbers[at];
    switch (below(4)) {
    case 0: n += 1; break;
    case 1: n += 4; break;
    case 2: n = n > 0 ? n - 1 : 1; break;
    default: n = odd[below(sizeof odd / sizeof odd[0])]; break;
    }
    list->numbers[at] = n;
}

static void insert(struct bytes *s, size_t at, uint8_t byte)
{
    if (s->count >= ROOM) return;
    memmove(s->data + at + 1, s->data + at, s->count - at);
    s->data[at] = byte;
    s->count++;
}

static void spoil_bytes(struct bytes *s)
{
    size_t at = s->count ? below((uint32_t)s->count) : 0;
    switch (below(6)) {
    case 0: s->count = at; break;                             /* cut */
    case 1: s->data[at] ^= (uint8_t)(1u << below(8)); break;  /* a flipped bit */
    case 2: insert(s, s->count, (uint8_t)any()); break;       /* something follows */
    case 3:                                                   /* not the shortest form */
        while (at > 0 && s->data[at] >= 128) at--;
        s->data[at] |= 0x80;
        insert(s, at + 1, 0);
        break;
    case 4:                                                   /* too long a number */
        for (int i = 0; i < 4; i++) insert(s, at, 0xFF);
        break;
    default: s->data[at] = (uint8_t)any(); break;
    }
}

int main(int argc, char **argv)
{
    static struct list list;
    static struct plan plan;
    static struct bytes sheet;
    if (argc != 3) {
        fprintf(stderr, "usage: sheets COUNT SEED\n");
        return 2;
    }
    unsigned long count = strtoul(argv[1], NULL, 10);
    state = strtoull(argv[2], NULL, 10) * UINT64_C(0x9E3779B97F4A7C15) + 1;
    for (unsigned long i = 0; i < count && i < BY_HAND; i++) {
        list.count = 0;
        made_by_hand[i](&list);
        encode(&list, &sheet);
        emit(&sheet);
    }
    for (unsigned long i = BY_HAND; i < count; i++) {
        make(&list, &plan);
        uint32_t kind = below(10);
        if (kind < 3) spoil_list(&list);
        encode(&list, &sheet);
        if (kind == 3 || kind == 4) spoil_bytes(&sheet);
        emit(&sheet);
    }
    return 0;
}
