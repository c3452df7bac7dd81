/* What the benchmarks share: the memory lent to a call, the sizes, and best times of two implementations. */
#ifndef BENCH_H
#define BENCH_H

#include <stdio.h>
#include <stdlib.h>
#include <string.h>
#include <time.h>

#include "plain.h"

enum { SIZES = 4, ROUNDS = 25 };
static const uint16_t SIDES[SIZES] = {17, 33, 65, 129};
static const uint16_t DEPTHS[SIZES] = {4, 5, 6, 6};
static const double ROUND_SECONDS = 0.004;

/* Single pixels are asked for in sets, one out of each of 8 by 8 parts of the picture. */
enum { PARTS_A_SIDE = 8, ASKED = PARTS_A_SIDE * PARTS_A_SIDE };

/* Of a camera that does not use all greys. */
enum { CAMERA_BLACK = 16, CAMERA_WHITE = 235, CAMERA_GREYS = CAMERA_WHITE - CAMERA_BLACK + 1 };

/* The library is the first implementation, plain C the second. */
static const struct pyramid_calls *const PYRAMIDS[2] = {&library_pyramid, &fast_pyramid};
static const struct file_calls *const FILES[2] = {&library_file, &fast_file};
static const struct pgm_calls *const PGMS[2] = {&library_pgm, &fast_pgm};

struct asked_pixel {
    uint16_t column, row, read;
    uint8_t pixel;
};

struct job {
    int which;
    uint16_t answer, columns, rows;
    lepsarvu_settings settings, read_settings;
    lepsarvu_note note, read_note;
    unsigned nodes, pixels;
    size_t size;
    uint8_t picture[LEPSARVU_MOST_PIXELS], rebuilt[LEPSARVU_MOST_PIXELS], file[LEPSARVU_MOST_FILE_BYTES];
    int16_t levels[LEPSARVU_MOST_NODES];
    int32_t work[LEPSARVU_MOST_NODES];
    struct asked_pixel asked[ASKED];
};

typedef void call(struct job *it);

/* Zeroed memory, settings, and a picture of waves with some noise, whose greys are 16 to 235. */
static void prepare_shape(struct job *it, uint16_t side, uint16_t depth, uint16_t kernel)
{
    memset(it, 0, sizeof *it);
    it->settings = (lepsarvu_settings){
        .columns = side, .rows = side, .depth = depth, .kernel = kernel, .black = 0, .white = 255};
    for (unsigned slot = 0; slot <= it->settings.depth; slot++)
        it->settings.bins[slot] = (uint16_t)(3 + 2 * slot);
    it->pixels = (unsigned)side * side;
    it->nodes = (unsigned)fast_nodes(&it->settings);
    uint32_t noise = 1983;
    for (unsigned at = 0; at < it->pixels; at++) {
        unsigned row = at / side, column = at % side;
        noise = noise * 1664525u + 1013904223u;
        it->picture[at] = (uint8_t)(CAMERA_BLACK + (row * column / 3 + 2 * row + (noise >> 27)) % CAMERA_GREYS);
    }
}

static inline void prepare(struct job *it, int size, uint16_t kernel)
{
    prepare_shape(it, SIDES[size], DEPTHS[size], kernel);
}

/* Both implementations make the same call on the same memory; ends the program where they leave different bytes. */
static void must_agree(struct job *it, call *work)
{
    static struct job other;
    other = *it;
    it->which = 0;
    work(it);
    other.which = 1;
    work(&other);
    other.which = 0;
    if (memcmp(it, &other, sizeof other) != 0 || it->answer != 0) {
        fprintf(stderr, "library and plain C differ, or refuse: side %u, kernel %u, black %u\n", it->settings.columns,
                it->settings.kernel, it->settings.black);
        exit(1);
    }
}

static double seconds_of(struct job *it, call *work, long times)
{
    struct timespec start, stop;
    clock_gettime(CLOCK_MONOTONIC, &start);
    for (long done = 0; done < times; done++)
        work(it);
    clock_gettime(CLOCK_MONOTONIC, &stop);
    return (double)(stop.tv_sec - start.tv_sec) + 1e-9 * (double)(stop.tv_nsec - start.tv_nsec);
}

/* How many calls fill a round; finding it out warms the buffers. */
static long times_in_round(struct job *it, call *work)
{
    long times = 1;
    while (seconds_of(it, work, times) < ROUND_SECONDS)
        times *= 2;
    return times;
}

/* A call of one of the two implementations. */
struct timed {
    call *work;
    int which;
};

/* The best times of two of them, a round of each in turn. */
static void best_times(struct job *it, const struct timed timed[2], double best[2])
{
    long times[2];
    for (int at = 0; at < 2; at++) {
        it->which = timed[at].which;
        times[at] = times_in_round(it, timed[at].work);
        best[at] = 1e9;
    }
    for (int round = 0; round < ROUNDS; round++)
        for (int at = 0; at < 2; at++) {
            it->which = timed[at].which;
            double each = seconds_of(it, timed[at].work, times[at]) / (double)times[at];
            if (each < best[at])
                best[at] = each;
        }
}

/* What is counted is a node, of a PGM file a pixel, and of single pixels an index that is read. */
static void print_heading(const char *counted)
{
    printf("| %-18s | %10s | %5ss | %10s | %10s | %5s | library ns/%s | plain C ns/%s |\n", "call", "size", counted,
           "library us", "plain C us", "ratio", counted, counted);
    puts("|---|---|---|---|---|---|---|---|");
}

/* The seconds of a call that is made once, by the library and by plain C. */
static void print_times(const char *name, const struct job *it, double counted, const double best[2])
{
    printf("| %-18s | %3u by %3u | %6.0f | %10.3f | %10.3f | %5.2f | %15.3f | %15.3f |\n", name, it->settings.columns,
           it->settings.rows, counted, best[0] * 1e6, best[1] * 1e6, best[0] / best[1], best[0] * 1e9 / counted,
           best[1] * 1e9 / counted);
}

static void compare_times(const char *name, struct job *it, call *work)
{
    double best[2];
    best_times(it, (const struct timed[2]){{work, 0}, {work, 1}}, best);
    print_times(name, it, it->nodes, best);
}

#endif
