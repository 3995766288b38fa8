/*
 * What a payload costs in the card, against memcpy of as many bytes, in one process and in alternating rounds: a play (capture) call that
 * works one message whole. Prints the best round of each in ns a call, their ratio, and what the card spends beside the copy. The message
 * has one descriptor for its payload, or as many as a payload scattered over pages of 4,096 bytes has. Last, what a play of 1,920 bytes
 * costs on a card with four outputs, with nothing in line beside it and with a message waiting on each of the three others, in turns.
 */
#define _DEFAULT_SOURCE
#include "card_adapter.h"

#include <stdio.h>
#include <stdlib.h>
#include <string.h>
#include <time.h>

enum { RAM = 1 << 20, ROUNDS = 400, CALLS = 50, CONTROL = 1, PLAY = 3, CAPTURE = 5, DATA = 16 };

static _Alignas(4096) uint8_t ram[RAM];
static uint8_t host[65536];
static uint16_t put_index[2];

static void fail(const char *what)
{
    fprintf(stderr, "payload: %s\n", what);
    exit(1);
}

static void put(size_t at, unsigned bytes, uint64_t v)
{
    for (unsigned i = 0; i < bytes; i++)
        ram[at + i] = (uint8_t)(v >> (8 * i));
}

static void descriptor(size_t table, uint32_t i, uint64_t address, uint32_t len, uint32_t flags)
{
    put(table + 16 * i, 8, address);
    put(table + 16 * i + 8, 4, len);
    put(table + 16 * i + 12, 2, flags);
    put(table + 16 * i + 14, 2, i + 1);
}

/* The n-th message on the control queue. */
static void command(uint16_t n, const uint32_t *words, uint32_t count)
{
    size_t count_out;
    for (uint32_t i = 0; i < count; i++)
        put(DATA * 4096 + 4 * i, 4, words[i]);
    descriptor(CONTROL * 4096, 0, DATA * 4096, 4 * count, 1);
    descriptor(CONTROL * 4096, 1, DATA * 4096 + 256, 4, 2);
    put(CONTROL * 4096 + 1024 + 2, 2, n);
    if (dev_control(ram, RAM, &count_out) != 0 || count_out != 1 || ram[DATA * 4096 + 256] != 0)
        fail("a command was refused");
}

static void set_up(uint32_t outputs)
{
    static const uint32_t pages[4] = {CONTROL, 0, PLAY, CAPTURE};
    uint16_t n = 0;
    if (dev_power_up_with(RAM, outputs) != 0)
        fail("power-up");
    dev_write(18, 1, 3);
    dev_write(4, 4, 0);
    dev_write(18, 1, 11);
    for (uint32_t i = 0; i < 4; i++) {
        dev_write(14, 2, i);
        dev_write(8, 4, pages[i]);
    }
    dev_write(18, 1, 15);
    put_index[0] = put_index[1] = 0;
    put(PLAY * 4096 + 4096, 4, 0);
    put(CAPTURE * 4096 + 1024, 4, 0);
    put(CONTROL * 4096 + 1024, 4, 0);
    for (uint32_t s = 0; s < outputs + 1; s++) {
        command(++n, (const uint32_t[]){0x101, s, 65536, 65536, 0, 0x00070502}, 6);
        command(++n, (const uint32_t[]){0x102, s}, 2);
        command(++n, (const uint32_t[]){0x104, s}, 2);
    }
}

/* Lays the one message of a stream out: every place of the available ring holds head 0. Its descriptors are at most `piece` long. */
static void lay_out(uint32_t stream, uint32_t payload, uint32_t piece)
{
    size_t table = (stream ? CAPTURE : PLAY) * 4096u, data = (32 + 64 * stream) * 4096u;
    uint32_t i = 0;
    put(data, 4, stream);
    descriptor(table, i++, data, 4, 1);
    for (uint32_t done = 0; done < payload; done += piece, i++)
        descriptor(table, i, data + 4096 + done, payload - done < piece ? payload - done : piece, 1u | (stream ? 2u : 0u));
    descriptor(table, i, data + 2048, 8, 2);
}

static double now(void)
{
    struct timespec t;
    clock_gettime(CLOCK_MONOTONIC, &t);
    return (double)t.tv_sec * 1e9 + (double)t.tv_nsec;
}

static void measure(uint32_t stream, uint32_t payload, uint32_t piece)
{
    double card = 1e18, copy = 1e18;
    size_t index = (stream ? CAPTURE * 4096u + 1024 : PLAY * 4096u + 4096) + 2, count, data = (33 + 64 * stream) * 4096u;
    lay_out(stream, payload, piece);
    for (int r = 0; r < ROUNDS; r++) {
        double from = now(), t;
        for (int i = 0; i < CALLS; i++) {
            put(index, 2, ++put_index[stream]);
            if ((stream ? dev_capture : dev_play)(ram, RAM, host, payload, &count) != 0 || count != payload)
                fail("a payload was not worked");
        }
        t = now() - from;
        card = t < card ? t : card;
        from = now();
        for (int i = 0; i < CALLS; i++) {
            if (stream)
                memcpy(ram + data, host, payload);
            else
                memcpy(host, ram + data, payload);
            __asm__ volatile("" : : "r"(host), "r"(ram) : "memory");
        }
        t = now() - from;
        copy = t < copy ? t : copy;
    }
    card /= CALLS;
    copy /= CALLS;
    printf("%-8s %6u bytes, pieces of %6u: card %8.1f ns, memcpy %7.1f ns, ratio %6.2f, beside it %8.1f ns\n",
           stream ? "capture" : "play", payload, piece, card, copy, card / copy, card - copy);
}

/* The best round of a play of 1,920 bytes on stream 0. */
static double best_play(int rounds)
{
    double best = 1e18;
    size_t count;
    for (int r = 0; r < rounds; r++) {
        double from = now(), t;
        for (int i = 0; i < CALLS; i++) {
            put(PLAY * 4096u + 4096 + 2, 2, ++put_index[0]);
            if (dev_play(ram, RAM, host, 1920, &count) != 0 || count != 1920)
                fail("a payload was not worked");
        }
        t = (now() - from) / CALLS;
        best = t < best ? t : best;
    }
    return best;
}

/* A message on each of streams 1 to 3, taken by a play without room; they wait. */
static void put_waiting(void)
{
    size_t count, data = 200 * 4096u;
    for (uint32_t s = 1; s < 4; s++) {
        put(data + 16 * s, 4, s);
        descriptor(PLAY * 4096u, 64 * s, data + 16 * s, 4, 1);
        descriptor(PLAY * 4096u, 64 * s + 1, data + 4096, 1920, 1);
        descriptor(PLAY * 4096u, 64 * s + 2, data + 2048, 8, 2);
        put(PLAY * 4096u + 4096 + 4 + 2 * (put_index[0] % 256u), 2, 64 * s);
        put_index[0]++;
    }
    put(PLAY * 4096u + 4096 + 2, 2, put_index[0]);
    if (dev_play(ram, RAM, host, 0, &count) != 0 || count != 0)
        fail("messages are not taken");
    for (uint32_t i = 0; i < 256; i++)
        put(PLAY * 4096u + 4096 + 4 + 2 * i, 2, 0);
}

static void lines(void)
{
    double alone = 1e18, beside = 1e18, t;
    for (int turn = 0; turn < 10; turn++) {
        set_up(4);
        lay_out(0, 1920, 65536);
        t = best_play(ROUNDS / 10);
        alone = t < alone ? t : alone;
        set_up(4);
        lay_out(0, 1920, 65536);
        put_waiting();
        t = best_play(ROUNDS / 10);
        beside = t < beside ? t : beside;
    }
    printf("play on stream 0 of four: alone %.1f ns, with a message waiting on each of the others %.1f ns, ratio %.3f\n", alone, beside,
           beside / alone);
}

int main(void)
{
    static const uint32_t payloads[] = {64, 480, 1920, 16384, 65536};
    set_up(1);
    for (uint32_t s = 0; s < 2; s++)
        for (size_t i = 0; i < sizeof payloads / sizeof *payloads; i++) {
            measure(s, payloads[i], 65536);
            if (payloads[i] > 4096)
                measure(s, payloads[i], 4096);
        }
    lines();
    return 0;
}
