/*
 * The proved converter against plain C loops of the same conversions, in one process, in alternating rounds.
 * Prints for each format the best round of each in ns for a sample, and the ratio converter : C.
 * The C loops take the same pointers, know that the machine is little-endian, and check nothing. The last line of a size is no loop:
 * S16 as a call of memcpy, which is what gcc makes of the S16 loop where it is told that the buffers don't overlap (restrict).
 */
#define _DEFAULT_SOURCE
#include "wekshurag_convert.h"

#include <stdio.h>
#include <stdlib.h>
#include <string.h>
#include <time.h>

typedef void loop(const uint8_t *from, size_t n, uint8_t *to);

static int16_t mu_law_table[256];

static void put(uint8_t *to, int32_t v)
{
    int16_t s = (int16_t)v;
    memcpy(to, &s, 2);
}

static __attribute__((noinline)) void c_mu_law(const uint8_t *from, size_t n, uint8_t *to)
{
    for (size_t i = 0; i < n; i++)
        put(to + 2 * i, mu_law_table[from[i]]);
}

static __attribute__((noinline)) void c_s8(const uint8_t *from, size_t n, uint8_t *to)
{
    for (size_t i = 0; i < n; i++)
        put(to + 2 * i, (int8_t)from[i] * 256);
}

static __attribute__((noinline)) void c_u8(const uint8_t *from, size_t n, uint8_t *to)
{
    for (size_t i = 0; i < n; i++)
        put(to + 2 * i, (from[i] - 128) * 256);
}

static __attribute__((noinline)) void c_s16(const uint8_t *from, size_t n, uint8_t *to)
{
    for (size_t i = 0; i < n; i++) {
        int16_t v;
        memcpy(&v, from + 2 * i, 2);
        put(to + 2 * i, v);
    }
}

static __attribute__((noinline)) void c_u16(const uint8_t *from, size_t n, uint8_t *to)
{
    for (size_t i = 0; i < n; i++) {
        uint16_t v;
        memcpy(&v, from + 2 * i, 2);
        put(to + 2 * i, v - 32768);
    }
}

static __attribute__((noinline)) void c_s24(const uint8_t *from, size_t n, uint8_t *to)
{
    for (size_t i = 0; i < n; i++) {
        int16_t v;
        memcpy(&v, from + 3 * i + 1, 2);
        put(to + 2 * i, v);
    }
}

static __attribute__((noinline)) void c_s32(const uint8_t *from, size_t n, uint8_t *to)
{
    for (size_t i = 0; i < n; i++) {
        int32_t v;
        memcpy(&v, from + 4 * i, 4);
        put(to + 2 * i, v >> 16);
    }
}

static __attribute__((noinline)) void c_memcpy(const uint8_t *from, size_t n, uint8_t *to)
{
    memcpy(to, from, 2 * n);
}

static const struct {
    const char *name;
    uint32_t format;
    size_t bytes;
    loop *c;
} formats[] = {
    {"MU_LAW", WEKSHURAG_FMT_MU_LAW, 1, c_mu_law}, {"S8", WEKSHURAG_FMT_S8, 1, c_s8},
    {"U8", WEKSHURAG_FMT_U8, 1, c_u8},             {"S16", WEKSHURAG_FMT_S16, 2, c_s16},
    {"U16", WEKSHURAG_FMT_U16, 2, c_u16},          {"S24_3", WEKSHURAG_FMT_S24_3, 3, c_s24},
    {"S32", WEKSHURAG_FMT_S32, 4, c_s32},          {"memcpy", WEKSHURAG_FMT_S16, 2, c_memcpy},
};
#define LOOPS (sizeof formats / sizeof formats[0] - 1)

static double now(void)
{
    struct timespec t;
    clock_gettime(CLOCK_MONOTONIC, &t);
    return (double)t.tv_sec * 1e9 + (double)t.tv_nsec;
}

/* the best of many rounds, each of enough calls to be timed, the two by turns */
static double duel(size_t f, size_t n, const uint8_t *from, uint8_t *mine, uint8_t *theirs)
{
    size_t w = formats[f].bytes;
    size_t calls = 200000 / n + 1;
    double best[2] = {1e18, 1e18};
    for (int round = 0; round < 400; round++) {
        double start = now();
        for (size_t k = 0; k < calls; k++) {
            if (wekshurag_to_s16(formats[f].format, from, w * n, mine, 2 * n) != 0)
                exit(1);
            __asm__ volatile("" ::: "memory");
        }
        double middle = now();
        for (size_t k = 0; k < calls; k++) {
            formats[f].c(from, n, theirs);
            __asm__ volatile("" ::: "memory");
        }
        double end = now();
        if (middle - start < best[0])
            best[0] = middle - start;
        if (end - middle < best[1])
            best[1] = end - middle;
    }
    if (memcmp(mine, theirs, 2 * n) != 0) {
        fprintf(stderr, "%s: the two differ\n", formats[f].name);
        exit(1);
    }
    double each = (double)calls * (double)n;
    printf("%-7s %6zu samples: %.4f ns, C %.4f ns, ratio %.2f\n", formats[f].name, n, best[0] / each, best[1] / each,
           best[0] / best[1]);
    return best[0] / best[1];
}

int main(int argc, char **argv)
{
    double worst = 0;
    for (int code = 0; code < 256; code++) {
        int u = 255 - code, magnitude = (8 * (u & 15) + 132) * (1 << (u >> 4 & 7)) - 132;
        mu_law_table[code] = (int16_t)(u & 128 ? -magnitude : magnitude);
    }
    for (int a = 1; a < (argc > 1 ? argc : 2); a++) {
        size_t n = argc > 1 ? (size_t)atoi(argv[a]) : 960;
        uint8_t *from = malloc(4 * n), *mine = malloc(2 * n), *theirs = malloc(2 * n);
        if (n == 0 || !from || !mine || !theirs)
            return 1;
        for (size_t i = 0; i < 4 * n; i++)
            from[i] = (uint8_t)rand();
        for (size_t f = 0; f < LOOPS; f++) {
            double ratio = duel(f, n, from, mine, theirs);
            if (worst < ratio)
                worst = ratio;
        }
        duel(LOOPS, n, from, mine, theirs);
        free(from);
        free(mine);
        free(theirs);
    }
    printf("worst ratio to a loop %.2f\n", worst);
    return 0;
}
