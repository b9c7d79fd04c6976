/*
 * The sheets that the bench measures on.
 *
 *   scenes                     the names of all scenes, each with two step counts to measure between
 *   scenes NAME STEPS TIMES    the scene's posts and one event of STEPS steps, after TIMES in four bytes, lowest first
 *   scenes long                a sheet with millions of log lines, alone
 *
 * The measured steps lie inside the scene's work, so that an owner without a request never idles in between.
 */
#include "second.h"

#include <stdio.h>
#include <stdlib.h>
#include <string.h>

enum { ROW = 4096 };

/* The last `levels` level numbers, of which the first `posting` post `length` bytes each; `rows` slave rows alike. */
struct scene {
    const char *name;
    uint32_t levels, posting, options, width;
    uint32_t rows, port, length;
    uint32_t low, high;
};

enum { NEITHER = 0, BURST = MC_BURST, FAIR = MC_FAIR, LINGER = MC_BURST | MC_LINGER, ALL = MC_BURST | MC_FAIR | MC_LINGER };

static const struct scene scenes[] = {
    {"a", 3, 2, LINGER, 4, 1, 4, 4096, 100, 1000},
    {"alone", 2, 1, LINGER, 4, 1, 4, 4096, 100, 1000},
    {"b", 16, 16, FAIR, 4, 1, 4, 4096, 100, 1700},
    {"c", 2, 1, BURST, 4, 1, 1, 4096, 100, 1000},
    {"d", 16, 16, ALL, 4, 16, 4, 4096, 100, 1700},
    {"idle", 1, 0, NEITHER, 4, 1, 4, 0, 100, 1000},
    {"levels1", 1, 1, FAIR, 4, 1, 4, 4096, 100, 1000},
    {"levels2", 2, 2, FAIR, 4, 1, 4, 4096, 100, 1000},
    {"levels4", 4, 4, FAIR, 4, 1, 4, 4096, 100, 1000},
    {"levels8", 8, 8, FAIR, 4, 1, 4, 4096, 100, 1000},
    {"levels16", 16, 16, FAIR, 4, 1, 4, 4096, 100, 1700},
    {"rows1", 4, 4, ALL, 4, 1, 4, 4096, 100, 1000},
    {"rows2", 4, 4, ALL, 4, 2, 4, 4096, 100, 1000},
    {"rows4", 4, 4, ALL, 4, 4, 4, 4096, 100, 1000},
    {"rows8", 4, 4, ALL, 4, 8, 4, 4096, 100, 1000},
    {"rows16", 4, 4, ALL, 4, 16, 4, 4096, 100, 1000},
    {"bytes1", 2, 1, LINGER, 4, 1, 4, 1, 0, 2},
    {"bytes16", 2, 1, LINGER, 4, 1, 4, 16, 0, 5},
    {"bytes256", 2, 1, LINGER, 4, 1, 4, 256, 0, 65},
    {"bytes4096", 2, 1, LINGER, 4, 1, 4, 4096, 0, 1025},
};

enum { SCENES = sizeof scenes / sizeof scenes[0] };

static uint32_t list[MC_LIST_MAX];
static size_t count;

static void put(uint32_t number)
{
    list[count++] = number;
}

static void put_setup(const struct scene *scene)
{
    put(1);
    put(scene->levels);
    for (uint32_t i = 0; i < scene->levels; i++) {
        put(MC_LEVELS - scene->levels + i);
        put(scene->width);
        put(scene->options);
    }
    put(scene->rows);
    for (uint32_t i = 0; i < scene->rows; i++) {
        put(MC_MEMORY);
        put(ROW * i);
        put(ROW);
        put(scene->port);
        put(MC_TIME_MIN);
    }
}

/* Level i writes and reads by turns, the last row first. */
static void put_posts(const struct scene *scene)
{
    for (uint32_t i = 0; i < scene->posting; i++) {
        put(MC_EVENT_POST);
        put(MC_LEVELS - scene->levels + i);
        put(i % 2 == 0 ? MC_WRITE : MC_READ);
        put(MC_MEMORY);
        put(ROW * (scene->rows - 1 - i % scene->rows));
        put(scene->length);
        put(0);
    }
}

static void put_steps(uint32_t steps)
{
    put(MC_EVENT_STEPS);
    put(steps);
}

static int write_sheet(void)
{
    static uint8_t sheet[MC_SHEET_MAX];
    struct mc_sheet_result written = mc_write_sheet(list, count, sheet, sizeof sheet);
    if (written.refusal != MC_OK) {
        fprintf(stderr, "scenes: refusal %d at number %zu\n", written.refusal, written.place);
        return 1;
    }
    return fwrite(sheet, 1, written.length, stdout) != written.length;
}

static int write_scene(const struct scene *scene, uint32_t steps, uint32_t times)
{
    for (int i = 0; i < 4; i++)
        putchar((int)(times >> 8 * i & 0xFF));
    put_setup(scene);
    put(scene->posting + (steps > 0));
    put_posts(scene);
    if (steps > 0)
        put_steps(steps);
    return write_sheet();
}

/* Sixteen levels, byte by byte: 56 rounds of 65,536 cycles and 16 grants. */
static int write_long(void)
{
    static const struct scene scene = {"long", 16, 16, BURST, 4, 1, 1, 4096, 0, 0};
    enum { ROUNDS = 1024 / 18 };
    put_setup(&scene);
    put(ROUNDS * (scene.posting + 2));
    for (uint32_t i = 0; i < ROUNDS; i++) {
        put_posts(&scene);
        put_steps(60000);
        put_steps(65552 - 60000);
    }
    return write_sheet();
}

int main(int argc, char **argv)
{
    if (argc == 1) {
        for (size_t i = 0; i < SCENES; i++)
            printf("%s %u %u\n", scenes[i].name, scenes[i].low, scenes[i].high);
        return 0;
    }
    if (argc == 2 && strcmp(argv[1], "long") == 0)
        return write_long();
    for (size_t i = 0; argc == 4 && i < SCENES; i++)
        if (strcmp(scenes[i].name, argv[1]) == 0)
            return write_scene(&scenes[i], (uint32_t)strtoul(argv[2], NULL, 10), (uint32_t)strtoul(argv[3], NULL, 10));
    fprintf(stderr, "scenes: see the head of scenes.c\n");
    return 2;
}
