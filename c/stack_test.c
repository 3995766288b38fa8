/*
 * How much stack each call takes: the random guest's calls, each on a stack of its own that was painted before. The header asks for 64 KiB;
 * the test fails if a call took more. (Built without the sanitizers, which take stack themselves.)
 */
#define _DEFAULT_SOURCE
#include "wekshurag.h"

#include <stdio.h>
#include <string.h>
#include <ucontext.h>

enum { STACK = 131072, ASKED = 65536, PAINT = 0xaa };
enum { POWER_UP, READ, WRITE, LINE, CONTROL, PLAY, CAPTURE, EVENT, ENTRIES };

static const char *const names[ENTRIES] = {"power_up", "read", "write", "interrupt_line", "control", "play", "capture", "event"};
static size_t most[ENTRIES];
static _Alignas(64) uint8_t stack[STACK];
static ucontext_t here, there;

/* A call's arguments and what it answered. */
static struct {
    int entry;
    struct wekshurag_card *card;
    const struct wekshurag_card *seen;
    const struct wekshurag_description *description;
    uint64_t offset, width, value;
    uint8_t *ram, *host;
    const uint8_t *bytes;
    size_t ram_len, host_len;
    uint32_t stream, backlog, code, data;
    uint8_t answer;
    bool raised;
    struct wekshurag_read_result read;
    struct wekshurag_write_result written;
    struct wekshurag_result result;
} c;

static void make_call(void)
{
    switch (c.entry) {
    case POWER_UP:
        c.answer = wekshurag_power_up(c.card, c.description, c.ram_len);
        break;
    case READ:
        c.read = wekshurag_read(c.card, c.offset, c.width);
        break;
    case WRITE:
        c.written = wekshurag_write(c.card, c.offset, c.width, c.value);
        break;
    case LINE:
        c.raised = wekshurag_interrupt_line(c.seen);
        break;
    case CONTROL:
        c.result = wekshurag_control(c.card, c.ram, c.ram_len);
        break;
    case PLAY:
        c.result = wekshurag_play(c.card, c.stream, c.ram, c.ram_len, c.host, c.host_len, c.backlog);
        break;
    case CAPTURE:
        c.result = wekshurag_capture(c.card, c.stream, c.ram, c.ram_len, c.bytes, c.host_len, c.backlog);
        break;
    default:
        c.result = wekshurag_event(c.card, c.ram, c.ram_len, c.code, c.data);
    }
}

static void on_painted_stack(int entry)
{
    size_t left = 0;
    c.entry = entry;
    memset(stack, PAINT, sizeof stack);
    getcontext(&there);
    there.uc_stack.ss_sp = stack;
    there.uc_stack.ss_size = sizeof stack;
    there.uc_link = &here;
    makecontext(&there, make_call, 0);
    swapcontext(&here, &there);
    while (left < STACK && stack[left] == PAINT)
        left++;
    if (STACK - left > most[entry])
        most[entry] = STACK - left;
}

static uint8_t painted_power_up(struct wekshurag_card *card, const struct wekshurag_description *description, size_t ram_len)
{
    c.card = card, c.description = description, c.ram_len = ram_len;
    on_painted_stack(POWER_UP);
    return c.answer;
}

static struct wekshurag_read_result painted_read(struct wekshurag_card *card, uint64_t offset, uint64_t width)
{
    c.card = card, c.offset = offset, c.width = width;
    on_painted_stack(READ);
    return c.read;
}

static struct wekshurag_write_result painted_write(struct wekshurag_card *card, uint64_t offset, uint64_t width, uint64_t value)
{
    c.card = card, c.offset = offset, c.width = width, c.value = value;
    on_painted_stack(WRITE);
    return c.written;
}

static bool painted_line(const struct wekshurag_card *card)
{
    c.seen = card;
    on_painted_stack(LINE);
    return c.raised;
}

static struct wekshurag_result painted_control(struct wekshurag_card *card, uint8_t *ram, size_t ram_len)
{
    c.card = card, c.ram = ram, c.ram_len = ram_len;
    on_painted_stack(CONTROL);
    return c.result;
}

static struct wekshurag_result painted_play(struct wekshurag_card *card, uint32_t stream, uint8_t *ram, size_t ram_len, uint8_t *host,
                                            size_t host_len, uint32_t backlog)
{
    c.card = card, c.stream = stream, c.ram = ram, c.ram_len = ram_len, c.host = host, c.host_len = host_len, c.backlog = backlog;
    on_painted_stack(PLAY);
    return c.result;
}

static struct wekshurag_result painted_capture(struct wekshurag_card *card, uint32_t stream, uint8_t *ram, size_t ram_len,
                                               const uint8_t *host, size_t host_len, uint32_t backlog)
{
    c.card = card, c.stream = stream, c.ram = ram, c.ram_len = ram_len, c.bytes = host, c.host_len = host_len, c.backlog = backlog;
    on_painted_stack(CAPTURE);
    return c.result;
}

static struct wekshurag_result painted_event(struct wekshurag_card *card, uint8_t *ram, size_t ram_len, uint32_t code, uint32_t data)
{
    c.card = card, c.ram = ram, c.ram_len = ram_len, c.code = code, c.data = data;
    on_painted_stack(EVENT);
    return c.result;
}

#define wekshurag_power_up painted_power_up
#define wekshurag_read painted_read
#define wekshurag_write painted_write
#define wekshurag_interrupt_line painted_line
#define wekshurag_control painted_control
#define wekshurag_play painted_play
#define wekshurag_capture painted_capture
#define wekshurag_event painted_event
#define main random_main
#include "random_test.c"
#undef main

int main(void)
{
    char *arguments[] = {"stack_test", "7", "40000"};
    if (random_main(3, arguments) != 0)
        return 1;
    printf("stack_test:");
    for (int i = 0; i < ENTRIES; i++) {
        printf(" %s %zu%s", names[i], most[i], i + 1 < ENTRIES ? "," : "\n");
        check(most[i] > 0 && most[i] <= ASKED, "a call takes more stack than the header says");
    }
    return 0;
}
