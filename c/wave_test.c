/*
 * WAVE files against an independent plain C writer: every format, channel count and rate, lengths about the largest, every byte of a header
 * changed, files cut and lengthened, refusals and bounds.
 */
#define _DEFAULT_SOURCE
#include "wekshurag_wave.h"

#include <stdio.h>
#include <stdlib.h>
#include <string.h>
#include <sys/mman.h>
#include <unistd.h>

static unsigned long checks;

static void check(int ok, const char *what, unsigned long at)
{
    checks++;
    if (!ok) {
        fprintf(stderr, "wave_test: %s, at %lu\n", what, at);
        exit(1);
    }
}

static const uint32_t formats[4] = {4, 5, 11, 17};
static const uint32_t rates[14] = {5512, 8000, 11025, 16000, 22050, 32000, 44100, 48000, 64000, 88200, 96000, 176400, 192000, 384000};

static void put(uint8_t *at, unsigned bytes, uint64_t v)
{
    for (unsigned i = 0; i < bytes; i++)
        at[i] = (uint8_t)(v >> (8 * i));
}

/* The header, from the words of the order. */
static void plain(uint8_t *h, uint32_t width, uint32_t channels, uint32_t hz, uint64_t n)
{
    memcpy(h, "RIFF", 4);
    put(h + 4, 4, 36 + n + (n & 1));
    memcpy(h + 8, "WAVEfmt ", 8);
    put(h + 16, 4, 16);
    put(h + 20, 2, 1);
    put(h + 22, 2, channels);
    put(h + 24, 4, hz);
    put(h + 28, 4, (uint64_t)hz * channels * width);
    put(h + 32, 2, channels * width);
    put(h + 34, 2, 8 * width);
    memcpy(h + 36, "data", 4);
    put(h + 40, 4, n);
}

static void headers(void)
{
    static const uint64_t lengths[] = {0, 1, 1920, 1921, 65535, 4294967257u, 4294967258u};
    for (uint32_t f = 0; f < 4; f++)
        for (uint32_t c = 1; c <= 18; c++)
            for (uint32_t r = 0; r < 14; r++)
                for (size_t i = 0; i < sizeof lengths / sizeof *lengths; i++) {
                    uint8_t out[46], expected[46];
                    memset(out, 0xa5, sizeof out);
                    memset(expected, 0xa5, sizeof expected);
                    plain(expected, f + 1, c, rates[r], lengths[i]);
                    check(wekshurag_wave_header(formats[f], c, r, lengths[i], out, sizeof out) == 0, "header refused", c);
                    check(memcmp(out, expected, sizeof out) == 0, "header", c);
                }
}

static void refusals(void)
{
    uint8_t out[44], was[44];
    memset(out, 0xa5, sizeof out);
    memset(was, 0xa5, sizeof was);
    for (uint32_t f = 0; f < 600; f++) {
        int listed = f == 4 || f == 5 || f == 11 || f == 17;
        if (!listed)
            check(wekshurag_wave_header(f, 2, 7, UINT64_MAX, out, 0) == 20, "format", f);
    }
    for (uint32_t k = 0; k < 32; k++) {
        if (k > 4)
            check(wekshurag_wave_header(5 + (UINT32_C(1) << k), 2, 7, 0, out, 44) == 20, "format's high bits", k);
        if (k > 4)
            check(wekshurag_wave_header(5, 2 + (UINT32_C(1) << k), 7, 0, out, 44) == 20, "channels' high bits", k);
        if (k > 3)
            check(wekshurag_wave_header(5, 2, 7 + (UINT32_C(1) << k), 0, out, 44) == 20, "rate's high bits", k);
    }
    check(wekshurag_wave_header(5, 0, 7, 0, out, 44) == 20 && wekshurag_wave_header(5, 19, 7, 0, out, 44) == 20, "channels", 0);
    check(wekshurag_wave_header(5, 2, 14, 0, out, 44) == 20, "rate", 14);
    check(wekshurag_wave_header(5, 2, 7, 4294967259u, out, 0) == 21, "too long", 0);
    check(wekshurag_wave_header(5, 2, 7, UINT64_MAX, out, 44) == 21, "too long", 1);
    for (size_t room = 0; room < 44; room++)
        check(wekshurag_wave_header(5, 2, 7, 4294967258u, out, room) == 22, "room", room);
    check(memcmp(out, was, sizeof out) == 0, "a refusal wrote", 0);
}

/* The answer of the reader, by the plain header of what is said at each place. */
static uint32_t plain_read(const uint8_t *file, size_t len, uint64_t found[5])
{
    uint8_t h[44];
    uint32_t c, hz, bits, r = 0;
    uint64_t n;
    if (len < 44)
        return 23;
    if (memcmp(file, "RIFF", 4) || memcmp(file + 8, "WAVEfmt ", 8) || memcmp(file + 36, "data", 4))
        return 24;
    c = file[22] | (uint32_t)file[23] << 8;
    hz = file[24] | (uint32_t)file[25] << 8 | (uint32_t)file[26] << 16 | (uint32_t)file[27] << 24;
    bits = file[34] | (uint32_t)file[35] << 8;
    n = file[40] | (uint32_t)file[41] << 8 | (uint32_t)file[42] << 16 | (uint64_t)file[43] << 24;
    while (r < 14 && rates[r] != hz)
        r++;
    if (c < 1 || c > 18 || r == 14 || bits % 8 || bits < 8 || bits > 32 || n > 4294967258u)
        return 25;
    plain(h, bits / 8, c, hz, n);
    if (memcmp(h, file, 44))
        return 25;
    if (len != 44 + n + (n & 1))
        return 26;
    if ((n & 1) && file[len - 1])
        return 27;
    found[0] = formats[bits / 8 - 1];
    found[1] = c;
    found[2] = r;
    found[3] = 44;
    found[4] = n;
    return 0;
}

/* One file, at the end of a page behind which nothing can be read. */
static uint8_t *edge;

static void reads(const uint8_t *file, size_t len, const char *what, unsigned long at)
{
    uint64_t found[5] = {1, 2, 3, 4, 5}, expected[5] = {1, 2, 3, 4, 5};
    uint8_t *place = edge - len;
    memcpy(place, file, len);
    check(wekshurag_wave_read(place, len, found) == plain_read(file, len, expected), what, at);
    check(memcmp(found, expected, sizeof found) == 0, what, at);
    check(memcmp(place, file, len) == 0, "the file was changed", at);
}

static void files(void)
{
    uint8_t file[44 + 64];
    for (uint32_t f = 0; f < 4; f++)
        for (uint64_t n = 0; n < 8; n++) {
            size_t len = (size_t)(44 + n + (n & 1));
            memset(file, 0, sizeof file);
            for (uint64_t i = 0; i < n; i++)
                file[44 + i] = (uint8_t)(i + 1);
            plain(file, f + 1, 2, 48000, n);
            uint64_t found[5];
            check(wekshurag_wave_read(file, len, found) == 0 && found[0] == formats[f] && found[4] == n, "a sound file", f);
            for (size_t cut = 0; cut <= len + 8; cut++)
                reads(file, cut, "another length", cut);
            for (size_t at = 0; at < len; at++)
                for (unsigned v = 0; v < 256; v++) {
                    uint8_t was = file[at];
                    file[at] = (uint8_t)v;
                    reads(file, len, "a changed byte", at);
                    file[at] = was;
                }
        }
}

int main(void)
{
    size_t page = (size_t)sysconf(_SC_PAGESIZE);
    uint8_t *m = mmap(NULL, 2 * page, PROT_READ | PROT_WRITE, MAP_PRIVATE | MAP_ANONYMOUS, -1, 0);
    if (m == MAP_FAILED || mprotect(m + page, page, PROT_NONE) != 0) {
        perror("wave_test");
        return 1;
    }
    edge = m + page;
    headers();
    refusals();
    files();
    printf("wave_test: %lu checks\n", checks);
    return 0;
}
