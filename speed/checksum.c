/* Times tinladle_checksum, with its checks, beside the plain loop of annex_d.c, which makes none, on noise of 8192 by 8192, and holds their
 * sums to each other: checksum RUNS. The two are run in turn; the first run of each brings the planes into memory and is not counted. */
#define _POSIX_C_SOURCE 199309L
#include <stdio.h>
#include <stdlib.h>
#include <time.h>
#include "annex_d.h"
#include "tinladle.h"

enum { SIDE = 8192, LUMA = SIDE * SIDE, CHROMA = LUMA / 4 };

/* At most so many ns a sample, and so many times the loop's time. */
static const double MOST_NS = 1.5, MOST_TIMES = 1.5;

struct Planes {
    uint32_t format, depth;
    size_t chroma; /* samples of Cb, and of Cr */
    uint16_t *y, *cb, *cr;
};

struct Sums {
    uint32_t y, cb, cr;
};

static double now(void) {
    struct timespec t;
    clock_gettime(CLOCK_MONOTONIC, &t);
    return (double)t.tv_sec * 1e9 + (double)t.tv_nsec;
}

/* The nanoseconds of a call, which must be accepted. */
static double ours(const struct Planes *p, struct Sums *sums) {
    uint64_t place = 1;
    double began = now();
    uint32_t number = tinladle_checksum(SIDE, SIDE, p->format, p->depth, p->depth, p->y, LUMA, p->cb, p->chroma, p->cr, p->chroma,
        &sums->y, &sums->cb, &sums->cr, &place);
    double took = now() - began;
    if (number != 0 || place != 0) {
        fprintf(stderr, "tinladle_checksum answers %u\n", number);
        exit(1);
    }
    return took;
}

static double loop(const struct Planes *p, struct Sums *sums) {
    double began = now();
    sums->y = annex_d_checksum(p->y, SIDE, SIDE, p->depth);
    if (p->format != 0) {
        sums->cb = annex_d_checksum(p->cb, SIDE / 2, SIDE / 2, p->depth);
        sums->cr = annex_d_checksum(p->cr, SIDE / 2, SIDE / 2, p->depth);
    }
    return now() - began;
}

/* Each is run once, into sums that are 0 before, and must leave the same. */
static void both(const struct Planes *p, double *our_time, double *loop_time) {
    struct Sums a = { 0, 0, 0 }, b = { 0, 0, 0 };
    *our_time = ours(p, &a);
    *loop_time = loop(p, &b);
    if (a.y != b.y || a.cb != b.cb || a.cr != b.cr) {
        fprintf(stderr, "the sums differ: %08x %08x %08x, the loop's %08x %08x %08x\n", a.y, a.cb, a.cr, b.y, b.cb, b.cr);
        exit(1);
    }
}

static int by_size(const void *a, const void *b) {
    double x = *(const double *)a, y = *(const double *)b;
    return (x > y) - (x < y);
}

/* The median in ns a sample, which is printed with the least and the most. */
static double median(double *times, size_t runs, double samples) {
    qsort(times, runs, sizeof *times, by_size);
    double middle = times[runs / 2] / samples;
    printf(" %.3f | %.3f to %.3f |", middle, times[0] / samples, times[runs - 1] / samples);
    return middle;
}

/* One row of the table; whether the targets are met. */
static int row(const struct Planes *p, size_t runs, double *our_times, double *loop_times) {
    double unused[2];
    both(p, &unused[0], &unused[1]);
    for (size_t run = 0; run < runs; run++) both(p, &our_times[run], &loop_times[run]);
    printf("| %s, depth %u |", p->format == 0 ? "monochrome" : "4:2:0", p->depth);
    double samples = (double)LUMA + 2 * (double)p->chroma;
    double a = median(our_times, runs, samples), b = median(loop_times, runs, samples);
    printf(" %.2f |\n", a / b);
    return a <= MOST_NS && a <= MOST_TIMES * b;
}

static void *room(size_t bytes) {
    void *got = malloc(bytes);
    if (!got) abort();
    return got;
}

/* Noise of a depth: the high bits of a linear congruence. */
static void fill(uint16_t *plane, size_t count, uint32_t depth) {
    uint64_t state = depth;
    for (size_t k = 0; k < count; k++) {
        state = state * 6364136223846793005u + 1442695040888963407u;
        plane[k] = (uint16_t)(state >> (64 - depth));
    }
}

/* Both formats at one depth; whether the targets are met. */
static int rows(uint32_t depth, size_t runs, uint16_t *y, double *our_times, double *loop_times) {
    uint16_t *cb = y + LUMA, *cr = cb + CHROMA;
    fill(y, LUMA + 2 * CHROMA, depth);
    struct Planes grey = { 0, depth, 0, y, NULL, NULL }, colour = { 1, depth, CHROMA, y, cb, cr };
    int met = row(&grey, runs, our_times, loop_times);
    return row(&colour, runs, our_times, loop_times) && met;
}

int main(int argc, char **argv) {
    long given = argc > 1 ? strtol(argv[1], NULL, 10) : 15;
    size_t runs = given > 0 ? (size_t)given : 1;
    uint16_t *planes = room((LUMA + 2 * (size_t)CHROMA) * sizeof *planes);
    double *our_times = room(runs * sizeof *our_times), *loop_times = room(runs * sizeof *loop_times);
    printf("8192 by 8192, %zu runs, ns a sample of all planes, medians, and the least and the most:\n\n", runs);
    printf("| planes | ours | from, to | plain loop | from, to | ours to the loop |\n|---|---|---|---|---|---|\n");
    int met = rows(8, runs, planes, our_times, loop_times);
    met = rows(10, runs, planes, our_times, loop_times) && met;
    printf("\nat most %.1f ns a sample, and %.1f times the loop: %s\n", MOST_NS, MOST_TIMES, met ? "yes" : "NO");
    free(planes);
    free(our_times);
    free(loop_times);
    return met ? 0 : 1;
}
