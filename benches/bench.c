/* How long the proved library takes beside two C versions of the same store, a straightforward one and the fastest one written
 * here, and beside libgc, if compiled with it, on the same graph. They take turns on the same arenas, and each figure is the
 * median of its turns. Nothing passes or fails by its time; that the three stores agree on answer, list and every word of the
 * arena is asked on the way.
 *
 *     bench [TURNS]
 *     bench judge|collect SEGMENTS small|all PERCENT ours|straight|fastest TIMES
 *
 * The second form makes one call of one store so many times, for callgrind or perf to look at.
 */
#include "../include/drawing_store.h"
#include "fastest.h"
#include "libgc.h"
#include "straight.h"

#include <stdio.h>
#include <stdlib.h>
#include <string.h>
#include <time.h>

enum { OURS, STRAIGHT, FASTEST, STORES, TURNS = 400, BLOCKS = 64 * 2048 };

/* A call to measure: judging an arena of which so many blocks in a hundred are taken, or collecting a full one of which as many are
 * live. What follows the percentage is known once the arena stands. */
struct call {
    int collects;
    uint32_t n;
    int mixed;
    uint32_t percent;
    size_t len;
    uint32_t blocks, references, roots, live;
};

/* The medians of a call, in microseconds. */
struct figures {
    double us[STORES], libgc;
};

static uint32_t arena[DS_ARENA_LENGTH(64)], copies[STORES][DS_ARENA_LENGTH(64)], works[STORES][BLOCKS], order[BLOCKS];
static double times[STORES][TURNS], libgc_times[TURNS];
static int turns = 40;
static uint64_t state;

static uint32_t below(uint32_t n)
{
    state += 0x9E3779B97F4A7C15u;
    uint64_t x = state;
    x = (x ^ (x >> 30)) * 0xBF58476D1CE4E5B9u;
    x = (x ^ (x >> 27)) * 0x94D049BB133111EBu;
    return (uint32_t)((x ^ (x >> 31)) % n);
}

static double seconds(clockid_t clock)
{
    struct timespec t;
    clock_gettime(clock, &t);
    return t.tv_sec + t.tv_nsec * 1e-9;
}

/* Seconds between start and stop: those that went by, or those on the processor if they are fewer, since another program ran
 * meanwhile. The processor's clock is read outside, as it takes longer to read. */
static double wall, processor;

static void start(void)
{
    processor = seconds(CLOCK_PROCESS_CPUTIME_ID);
    wall = seconds(CLOCK_MONOTONIC);
}

static double stop(void)
{
    double by = seconds(CLOCK_MONOTONIC) - wall, on = seconds(CLOCK_PROCESS_CPUTIME_ID) - processor;
    return by < on ? by : on;
}

static int by_size(const void *a, const void *b)
{
    double x = *(const double *)a, y = *(const double *)b;
    return (x > y) - (x < y);
}

/* In microseconds. */
static double median(double *turn, int count)
{
    qsort(turn, count, sizeof *turn, by_size);
    return turn[count / 2] * 1e6;
}

static void fail(const char *what)
{
    fprintf(stderr, "bench: %s\n", what);
    exit(1);
}

/* ---- the drawings */

/* The classes of a drawing's segments: small motifs, or all sizes. */
static uint32_t class_of_segment(uint32_t s, int mixed) { return 3 + s % (mixed ? 10 : 2); }

/* Records and places of N segments, so many in a hundred of whose blocks are taken. The taken blocks, in random order, and their number. */
static uint32_t lay_out(uint32_t n, int mixed, uint32_t taken)
{
    uint32_t ranks[13] = {0}, count = 0;
    memset(arena, 0, sizeof arena);
    arena[0] = n << 24;
    for (uint32_t s = 0; s < n; s++) {
        uint32_t i = class_of_segment(s, mixed), *rec = arena + HEAD + RECORD * s;
        for (uint32_t k = 0; k < straight_blocks[i]; k++)
            if (below(100) < taken) {
                rec[1 + k / 32] |= 1u << (k % 32);
                order[count++] = s * 2048 + k + 1;
            }
        straight_levels(rec, i, ranks[i]++);
    }
    for (uint32_t i = 3; taken == 100 && i <= 12; i++)
        arena[i - 2] = ranks[i] == 0 ? 0 : (ranks[i] - 1) << 24 | straight_blocks[i] << 12;
    for (uint32_t j = count; j > 1; j--) {
        uint32_t k = below(j), h = order[k];
        order[k] = order[j - 1];
        order[j - 1] = h;
    }
    return count;
}

static uint32_t *block(const struct call *c, uint32_t h)
{
    uint32_t s = (h - 1) / 2048, words = (1u << class_of_segment(s, c->mixed)) / 4;
    return arena + HEAD + RECORD * c->n + AREA * s + words * ((h - 1) % 2048);
}

/* Fills the blocks: the first `live` of the order are reached from the first `roots`, the others are not. */
static void draw(struct call *c)
{
    uint32_t next = c->roots;
    c->references = 0;
    for (uint32_t j = 0; j < c->blocks; j++) {
        uint32_t *b = block(c, order[j]), words = (1u << class_of_segment((order[j] - 1) / 2048, c->mixed)) / 4, r = words / 2;
        b[0] = (words - 1) << 20 | r << 8;
        for (uint32_t f = 1; f <= r; f++)
            b[f] = j >= c->live ? order[below(c->blocks)] : next < c->live ? order[next++] : order[below(c->live)];
        c->references += r;
    }
    if (next < c->live)
        fail("the drawing has too few references");
}

/* Makes the call's arena, the same one each time. */
static void prepare(struct call *c)
{
    state = 20261115;
    c->len = DS_ARENA_LENGTH(c->n);
    c->blocks = lay_out(c->n, c->mixed, c->collects ? 100 : c->percent);
    c->live = c->collects ? (uint64_t)c->blocks * c->percent / 100 : 1;
    c->roots = c->live < 256 ? c->live : 256;
    draw(c);
}

/* ---- the calls */

static int judged(int store, size_t len)
{
    uint32_t standing, shape[3];
    switch (store) {
    case OURS: return ds_standing(arena, len, 0, &standing, &shape[0], &shape[1], &shape[2]) == 0;
    case STRAIGHT: return straight_sound(arena, len);
    default: return fastest_sound(arena, len);
    }
}

static uint32_t collected(int store, const struct call *c, uint32_t *live)
{
    switch (store) {
    case OURS: return ds_collect(copies[store], c->len, order, c->roots, works[store], BLOCKS, live);
    case STRAIGHT: return straight_collect(copies[store], c->len, order, c->roots, works[store], BLOCKS, live);
    default: return fastest_collect(copies[store], c->len, order, c->roots, works[store], BLOCKS, live);
    }
}

/* The call and nothing else: callgrind counts what happens in here. */
__attribute__((noinline)) static int once(const struct call *c, int store)
{
    uint32_t found;
    return c->collects ? collected(store, c, &found) == 0 && found == c->live : judged(store, c->len);
}

/* One call's time. A collection gets a fresh copy of the arena first. */
static double timed(const struct call *c, int store)
{
    if (c->collects)
        memcpy(copies[store], arena, c->len * 4);
    start();
    int right = once(c, store);
    double taken = stop();
    if (!right)
        fail("an arena isn't sound, or a collection finds another number of blocks");
    return taken;
}

static double timed_libgc(const struct call *c)
{
    libgc_begin();
    for (uint32_t j = 0; j < c->blocks; j++)
        libgc_block(order[j], block(c, order[j]));
    libgc_link(order, c->roots);
    start();
    libgc_collect();
    double taken = stop();
    if (libgc_found() < c->live)
        fail("libgc loses a block");
    return taken;
}

/* The stores take turns on the call's arena. */
static struct figures measure(struct call *c)
{
    struct figures all = {{0}, 0};
    prepare(c);
    for (int t = 0; t < turns; t++) {
        for (int store = 0; store < STORES; store++)
            times[store][t] = timed(c, store);
        if (c->collects && libgc_here)
            libgc_times[t] = timed_libgc(c);
    }
    for (int store = 0; store < STORES; store++) {
        all.us[store] = median(times[store], turns);
        if (c->collects && (memcmp(copies[store], copies[OURS], c->len * 4) != 0 || memcmp(works[store], works[OURS], c->live * 4) != 0))
            fail("two collections differ");
    }
    all.libgc = median(libgc_times, turns);
    return all;
}

/* ---- the tables */

static void row(const char *what, struct call c)
{
    struct figures all = measure(&c);
    double *us = all.us;
    printf("%-14s %2u  %-5s %4u %% %7u %9.1f %9.1f %6.2f %9.1f %6.2f", what, c.n, c.mixed ? "all" : "small", c.percent,
           c.collects ? c.live : c.blocks, us[OURS], us[STRAIGHT], us[OURS] / us[STRAIGHT], us[FASTEST], us[OURS] / us[FASTEST]);
    if (c.collects && libgc_here)
        printf(" %9.1f %6.2f", all.libgc, us[OURS] / all.libgc);
    puts("");
}

static void judge_and_collect(void)
{
    static const uint32_t segments[3] = {1, 8, 64}, live[3] = {10, 60, 100};
    printf("Microseconds of a call, medians of %d turns\n", turns);
    printf("%-14s %2s  %-5s %6s %7s %9s %9s %6s %9s %6s%s\n", "", "N", "sizes", "", "blocks", "ours", "straight", "ratio", "fastest", "ratio",
           libgc_here ? "     libgc  ratio" : "");
    for (int k = 0; k < 3; k++) {
        row("judge, full", (struct call){.n = segments[k], .percent = 100});
        row("judge, full", (struct call){.n = segments[k], .mixed = 1, .percent = 100});
        row("judge, sparse", (struct call){.n = segments[k], .percent = 5});
        row("judge, sparse", (struct call){.n = segments[k], .mixed = 1, .percent = 5});
    }
    for (int k = 0; k < 3; k++)
        for (int p = 0; p < 3; p++)
            for (int mixed = 0; mixed < 2; mixed++)
                row("collect", (struct call){.collects = 1, .n = segments[k], .mixed = mixed, .percent = live[p]});
}

/* One allocation after the other until there is no room; each judges the arena first. */
static void allocate(uint32_t n)
{
    size_t len = DS_ARENA_LENGTH(n);
    uint32_t given = 0, h;
    int rounds = turns / 8 + 1;
    double us[STORES];
    for (int t = 0; t < rounds; t++)
        for (int store = OURS; store <= STRAIGHT; store++) {
            ds_make(copies[store], len, n);
            start();
            for (given = 0; (store == OURS ? ds_allocate : straight_allocate)(copies[store], len, 7, 3, 0, &h) == 0; given++) {
            }
            times[store][t] = stop();
        }
    if (memcmp(copies[OURS], copies[STRAIGHT], len * 4) != 0)
        fail("two allocations differ");
    for (int store = OURS; store <= STRAIGHT; store++)
        us[store] = median(times[store], rounds) / (given + 1);
    printf("%2u %7u %9.2f %9.2f %6.2f\n", n, given, us[OURS], us[STRAIGHT], us[OURS] / us[STRAIGHT]);
}

/* Half the line of a growing cost: for each segment in microseconds and for each block in nanoseconds, ours and the fastest's. */
static void grown(struct call c)
{
    struct figures all = measure(&c);
    printf("   %8.2f %8.2f %8.2f %8.2f", all.us[OURS] / c.n, all.us[FASTEST] / c.n, all.us[OURS] / c.blocks * 1000, all.us[FASTEST] / c.blocks * 1000);
}

static void grow(void)
{
    static const uint32_t taken[6] = {1, 5, 25, 50, 75, 100};
    printf("\nHow cost grows: small motifs, microseconds for each segment and nanoseconds for each block, ours and the fastest's\n"
           "%3s %5s %7s   %8s %8s %8s %8s   %8s %8s %8s %8s\n", "N", "taken", "blocks", "judge us", "fastest", "judge ns", "fastest",
           "coll. us", "fastest", "coll. ns", "fastest");
    for (uint32_t n = 1; n <= 64; n *= 2) {
        struct call full = {.n = n, .percent = 100};
        prepare(&full);
        printf("%3u %3u %% %7u", n, 100, full.blocks);
        grown(full);
        full.collects = 1;
        grown(full);
        puts("");
    }
    for (int k = 0; k < 6; k++) {
        struct call some = {.n = 64, .percent = taken[k]};
        prepare(&some);
        printf("%3u %3u %% %7u", 64, taken[k], some.blocks);
        grown(some);
        puts("");
    }
}

static void tables(void)
{
    judge_and_collect();
    printf("\nAllocation until full: microseconds of each, of blocks of 8 words\n%2s %7s %9s %9s %6s\n", "N", "blocks", "ours", "straight", "ratio");
    allocate(1);
    allocate(8);
    grow();
}

/* ---- one call, so many times */

/* Prints blocks (a collection's are the live ones), references and the median time. */
static void one(char **words)
{
    static const char *names[STORES] = {"ours", "straight", "fastest"};
    struct call c = {.collects = strcmp(words[0], "collect") == 0, .n = atoi(words[1]), .mixed = strcmp(words[2], "all") == 0, .percent = atoi(words[3])};
    int store = 0;
    while (store < STORES && strcmp(words[4], names[store]) != 0)
        store++;
    turns = atoi(words[5]);
    if (store == STORES || c.n < 1 || c.n > 64 || c.percent < 1 || c.percent > 100 || turns < 1)
        fail("judge|collect SEGMENTS small|all PERCENT ours|straight|fastest TIMES");
    prepare(&c);
    for (int t = 0; t < turns; t++)
        times[store][t % TURNS] = timed(&c, store);
    printf("%u %u %.1f\n", c.collects ? c.live : c.blocks, c.references, median(times[store], turns < TURNS ? turns : TURNS));
}

int main(int argc, char **argv)
{
    if (argc == 7) {
        one(argv + 1);
        return 0;
    }
    turns = argc > 1 ? atoi(argv[1]) : turns;
    if (turns < 1 || turns > TURNS)
        fail("turns are 1 to 400");
    tables();
    return 0;
}
