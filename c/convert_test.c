/*
 * The converter against an independent plain C one: every code of 8 and 16 bits, random ones of 24 and 32, refusals and bounds.
 * With a format's number as its argument it is that plain one as a filter.
 */
#define _DEFAULT_SOURCE
#include "wekshurag_convert.h"

#include <stdio.h>
#include <stdlib.h>
#include <string.h>
#include <sys/mman.h>
#include <unistd.h>

static unsigned long checks;

static void check(int ok, const char *what, unsigned long at)
{
    checks++;
    if (!ok) {
        fprintf(stderr, "convert_test: %s, at %lu\n", what, at);
        exit(1);
    }
}

static uint32_t seed = 1;

static uint32_t any32(void)
{
    seed ^= seed << 13;
    seed ^= seed >> 17;
    seed ^= seed << 5;
    return seed;
}

/* ---- the conversions, from the words of the order */

static int32_t floor_div(int64_t a, int64_t b)
{
    int64_t q = a / b;
    if (a % b < 0)
        q--;
    return (int32_t)q;
}

static int32_t mu_law(uint32_t code)
{
    uint32_t u = ~code & 0xffu;
    int32_t m = (int32_t)(u & 15u);
    int32_t magnitude = (8 * m + 132) * (1 << ((u >> 4) & 7u)) - 132;
    return (u & 0x80u) ? -magnitude : magnitude;
}

static int64_t twos(uint64_t x, unsigned bits)
{
    return (x >> (bits - 1)) & 1u ? (int64_t)x - ((int64_t)1 << bits) : (int64_t)x;
}

static size_t bytes_of(uint32_t format)
{
    switch (format) {
    case WEKSHURAG_FMT_MU_LAW:
    case WEKSHURAG_FMT_S8:
    case WEKSHURAG_FMT_U8:
        return 1;
    case WEKSHURAG_FMT_S16:
    case WEKSHURAG_FMT_U16:
        return 2;
    case WEKSHURAG_FMT_S24_3:
        return 3;
    case WEKSHURAG_FMT_S32:
        return 4;
    default:
        return 0;
    }
}

static int32_t expected(uint32_t format, uint64_t x)
{
    switch (format) {
    case WEKSHURAG_FMT_MU_LAW:
        return mu_law((uint32_t)x);
    case WEKSHURAG_FMT_S8:
        return (int32_t)twos(x, 8) * 256;
    case WEKSHURAG_FMT_U8:
        return ((int32_t)x - 128) * 256;
    case WEKSHURAG_FMT_S16:
        return (int32_t)twos(x, 16);
    case WEKSHURAG_FMT_U16:
        return (int32_t)x - 32768;
    case WEKSHURAG_FMT_S24_3:
        return floor_div(twos(x, 24), 256);
    default:
        return floor_div(twos(x, 32), 65536);
    }
}

/* ---- the tests */

static const uint32_t formats[] = {
    WEKSHURAG_FMT_MU_LAW, WEKSHURAG_FMT_S8, WEKSHURAG_FMT_U8, WEKSHURAG_FMT_S16, WEKSHURAG_FMT_U16, WEKSHURAG_FMT_S24_3,
    WEKSHURAG_FMT_S32,
};
#define FORMATS (sizeof formats / sizeof formats[0])

/* n bytes that end where a page begins that can't be touched: an access past their end is a fault. The SLACK bytes before them hold
   a pattern. */
struct guarded {
    uint8_t *bytes;
    size_t n;
    void *map;
    size_t map_len;
};
#define SLACK 64u

static struct guarded guarded(size_t n)
{
    size_t page = (size_t)sysconf(_SC_PAGESIZE);
    size_t room = (n + SLACK + page - 1) / page * page;
    struct guarded g = {NULL, n, NULL, room + page};
    g.map = mmap(NULL, g.map_len, PROT_READ | PROT_WRITE, MAP_PRIVATE | MAP_ANONYMOUS, -1, 0);
    if (g.map == MAP_FAILED || mprotect((uint8_t *)g.map + room, page, PROT_NONE) != 0)
        exit(2);
    g.bytes = (uint8_t *)g.map + room - n;
    memset(g.bytes - SLACK, 0xa5, SLACK);
    return g;
}

static void release(struct guarded g)
{
    for (size_t j = 1; j <= SLACK; j++)
        check(g.bytes[-(ptrdiff_t)j] == 0xa5, "byte before a buffer", j);
    munmap(g.map, g.map_len);
}

/* n codes, converted in one call with `spare` bytes of room too many. */
static void run(uint32_t format, size_t n, size_t spare, uint64_t (*code)(size_t))
{
    size_t w = bytes_of(format);
    struct guarded from = guarded(w * n);
    struct guarded to = guarded(2 * n + spare);
    for (size_t i = 0; i < n; i++)
        for (size_t k = 0; k < w; k++)
            from.bytes[w * i + k] = (uint8_t)(code(i) >> (8 * k));
    for (size_t j = 0; j < to.n; j++)
        to.bytes[j] = (uint8_t)(0x5au ^ j);
    check(wekshurag_to_s16(format, from.bytes, from.n, to.bytes, to.n) == WEKSHURAG_CONVERT_DONE, "answer", format);
    for (size_t i = 0; i < n; i++) {
        int64_t got = twos((uint64_t)to.bytes[2 * i] | (uint64_t)to.bytes[2 * i + 1] << 8, 16);
        check(got == expected(format, code(i)), "sample", i);
        for (size_t k = 0; k < w; k++)
            check(from.bytes[w * i + k] == (uint8_t)(code(i) >> (8 * k)), "input kept", i);
    }
    for (size_t j = 2 * n; j < to.n; j++)
        check(to.bytes[j] == (uint8_t)(0x5au ^ j), "byte past the samples", j);
    release(from);
    release(to);
}

static uint64_t table[1u << 16];

static uint64_t in_order(size_t i)
{
    return i;
}

static uint64_t in_table(size_t i)
{
    return table[i];
}

static void every_code(void)
{
    for (size_t f = 0; f < FORMATS; f++) {
        size_t w = bytes_of(formats[f]);
        if (w < 3) {
            run(formats[f], (size_t)1 << (8 * w), 5, in_order);
            continue;
        }
        for (int turn = 0; turn < 16; turn++) {
            for (size_t i = 0; i < sizeof table / sizeof table[0]; i++) {
                /* numbers at random, and those next to each end and to each multiple of what is dropped */
                uint64_t x = any32();
                if (i % 4 == 1)
                    x = (x & ~(uint64_t)0xffff) + (uint64_t)(i / 4 % 3) - 1;
                if (i % 4 == 2)
                    x = (uint64_t)(i / 4 % 5) - 2;
                if (i % 4 == 3)
                    x = ((uint64_t)1 << (8 * w - 1)) + (i / 4 % 5) - 2;
                table[i] = x & (((uint64_t)1 << (8 * w)) - 1);
            }
            run(formats[f], sizeof table / sizeof table[0], 0, in_table);
        }
    }
}

/* Every length up to some blocks of a vector, with and without spare room. */
static void every_length(void)
{
    for (size_t f = 0; f < FORMATS; f++)
        for (size_t n = 0; n < 130; n++) {
            size_t w = bytes_of(formats[f]);
            for (size_t i = 0; i < n; i++)
                table[i] = any32() & (((uint64_t)1 << (8 * w)) - 1);
            run(formats[f], n, n % 4, in_table);
        }
}

static void refuses(uint32_t format, size_t from_len, size_t to_len, uint32_t answer)
{
    struct guarded from = guarded(from_len);
    struct guarded to = guarded(to_len);
    memset(to.bytes, 0x5a, to_len);
    check(wekshurag_to_s16(format, from.bytes, from_len, to.bytes, to_len) == answer, "refusal", format);
    for (size_t j = 0; j < to_len; j++)
        check(to.bytes[j] == 0x5a, "byte after a refusal", j);
    release(from);
    release(to);
}

static void refusals(void)
{
    for (uint32_t format = 0; format < 4096; format++)
        if (bytes_of(format) == 0) {
            refuses(format, 12, 24, 30);
            refuses(format, 7, 0, 30);
            refuses(format, 0, 0, 30);
        }
    for (uint32_t bit = 8; bit < 32; bit++)
        for (size_t f = 0; f < FORMATS; f++)
            refuses(formats[f] | UINT32_C(1) << bit, 12, 24, 30);
    for (size_t f = 0; f < FORMATS; f++) {
        size_t w = bytes_of(formats[f]);
        for (size_t cut = 1; cut < w; cut++) {
            refuses(formats[f], 10 * w + cut, 64, 31);
            refuses(formats[f], 10 * w + cut, 0, 31);
            refuses(formats[f], cut, 0, 31);
        }
        for (size_t room = 0; room < 20; room++)
            refuses(formats[f], 10 * w, room, 32);
        refuses(formats[f], w, 1, 32);
    }
}

/* Standard input, samples of `format`, converted to standard output: what the program's output is held against. */
static int filter(uint32_t format)
{
    uint8_t bytes[4];
    while (fread(bytes, 1, bytes_of(format), stdin) == bytes_of(format)) {
        uint64_t x = 0;
        for (size_t k = 0; k < bytes_of(format); k++)
            x |= (uint64_t)bytes[k] << (8 * k);
        uint32_t s = (uint32_t)expected(format, x);
        putchar((int)(s & 0xffu));
        putchar((int)(s >> 8 & 0xffu));
    }
    return 0;
}

int main(int argc, char **argv)
{
    if (argc > 1)
        return filter((uint32_t)strtoul(argv[1], NULL, 10));
    every_code();
    every_length();
    refusals();
    printf("convert_test: %lu checks\n", checks);
    return 0;
}
