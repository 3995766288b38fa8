/*
 * A random hostile guest, and a monitor that makes every call: 1,200,000 calls from a fixed seed (random_test SEED CALLS for others). Much
 * of what the guest puts makes sense, so that streams run and sound flows; the rest is wild: descriptors, rings, indices, registers,
 * pages, messages.
 *
 * Checked of each call: its answer is one that it may give, its count is possible, a refused call and one that is lent memory of another
 * length leave memory and host buffer alone, what must only be read is only read, a broken queue is named and raises the line; the same
 * call on a copy of the card and of memory does the same. Card, memory and host buffer each end at a page that can't be touched and begin
 * behind bytes that must keep their value. At the end: every answer was seen, and bytes were played and recorded.
 */
#ifndef _DEFAULT_SOURCE
#define _DEFAULT_SOURCE
#endif
#include "wekshurag.h"

#include <stdio.h>
#include <stdlib.h>
#include <string.h>
#include <sys/mman.h>
#include <unistd.h>

enum { MAX_RAM = 98304, MAX_HOST = 12288, CANARY = 0xc5 };

static unsigned long calls, seed = 20261116, seen[16], played[6], recorded[6], rung;
static uint64_t state;

static void fail(const char *what)
{
    fprintf(stderr, "random_test: %s, call %lu of seed %lu\n", what, calls, seed);
    exit(1);
}

static void check(bool ok, const char *what)
{
    if (!ok)
        fail(what);
}

/* splitmix64 */
static uint64_t any(void)
{
    uint64_t z = (state += UINT64_C(0x9e3779b97f4a7c15));
    z = (z ^ (z >> 30)) * UINT64_C(0xbf58476d1ce4e5b9);
    z = (z ^ (z >> 27)) * UINT64_C(0x94d049bb133111eb);
    return z ^ (z >> 31);
}

static uint32_t below(uint32_t n)
{
    return (uint32_t)(any() % n);
}

static bool one_in(uint32_t n)
{
    return below(n) == 0;
}

/* ---- memory that ends at a page that can't be touched, its first bytes known -------------------------------------------------------- */

struct fenced {
    uint8_t *pages;
    size_t room, len;
    uint8_t *at;
};

static void fence(struct fenced *f, size_t room)
{
    size_t page = (size_t)sysconf(_SC_PAGESIZE);
    f->room = (room + page - 1) / page * page;
    f->pages = mmap(NULL, f->room + 2 * page, PROT_READ | PROT_WRITE, MAP_PRIVATE | MAP_ANONYMOUS, -1, 0);
    check(f->pages != MAP_FAILED && mprotect(f->pages, page, PROT_NONE) == 0, "no memory");
    f->pages += page;
    check(mprotect(f->pages + f->room, page, PROT_NONE) == 0, "no memory");
}

static void lend(struct fenced *f, size_t len)
{
    f->len = len;
    f->at = f->pages + (f->room - len);
    memset(f->pages, CANARY, f->room - len);
}

static void unharmed(const struct fenced *f, const char *what)
{
    for (const uint8_t *p = f->pages; p < f->at; p++)
        check(*p == CANARY, what);
}

static struct fenced card_pages, ram_pages, host_pages;
static struct wekshurag_card *card;
static uint8_t *ram;
static size_t ram_len;
static uint32_t outputs, inputs; /* how many streams the monitor described */
static uint8_t ram_before[MAX_RAM], host_before[MAX_HOST], ram_copy[MAX_RAM], host_copy[MAX_HOST];

/* ---- the monitor's calls, each checked ----------------------------------------------------------------------------------------------- */

static void answered(unsigned answer, const char *lawful, const char *what)
{
    static const char digits[] = "0123456789abc";
    check(answer <= 12 && strchr(lawful, digits[answer]) != NULL, what);
    seen[answer]++;
    calls++;
}

static uint32_t read_register(uint64_t offset, uint64_t width)
{
    struct wekshurag_read_result r = wekshurag_read(card, offset, width);
    answered(r.answer, "023", "a read's answer");
    check(r.answer == 0 || r.value == 0, "a refused read has a value");
    check(r.answer != 0 || width >= 4 || r.value >> (8 * width) == 0, "a value is too wide");
    return r.value;
}

static void write_register(uint64_t offset, uint64_t width, uint64_t value)
{
    struct wekshurag_write_result w = wekshurag_write(card, offset, width, value);
    answered(w.answer, "0234", "a write's answer");
    check(w.rung == WEKSHURAG_NO_QUEUE || (w.answer == 0 && offset == 16 && width == 2 && w.rung == value && w.rung < 4),
          "a queue is rung");
    rung += w.rung != WEKSHURAG_NO_QUEUE;
}

/* A call on a queue: which one, the memory lent to it, and what else it takes. */
struct call {
    char kind;
    uint32_t stream;
    size_t host_len;
    uint32_t backlog, code, data;
};

static struct wekshurag_result make(struct call c, struct wekshurag_card *on, uint8_t *memory, size_t memory_len, uint8_t *host)
{
    switch (c.kind) {
    case 'p':
        return wekshurag_play(on, c.stream, memory, memory_len, host, c.host_len, c.backlog);
    case 'c':
        return wekshurag_capture(on, c.stream, memory, memory_len, host, c.host_len, c.backlog);
    case 'e':
        return wekshurag_event(on, memory, memory_len, c.code, c.data);
    default:
        return wekshurag_control(on, memory, memory_len);
    }
}

/* Whether a call of this kind can find this queue broken: a RELEASE looks at its stream's too. */
static bool can_break(char kind, unsigned queue)
{
    switch (kind) {
    case 'p':
        return queue == WEKSHURAG_PLAY_QUEUE;
    case 'c':
        return queue == WEKSHURAG_CAPTURE_QUEUE;
    case 'e':
        return queue == WEKSHURAG_EVENT_QUEUE;
    default:
        return queue == WEKSHURAG_CONTROL_QUEUE || queue == WEKSHURAG_PLAY_QUEUE || queue == WEKSHURAG_CAPTURE_QUEUE;
    }
}

static struct wekshurag_result call(struct call c)
{
    const char *lawful = c.kind == 'k' ? "0159bc" : c.kind == 'e' ? "015789bc" : "01569bc";
    size_t lent = ram_len > 0 && one_in(64) ? below((uint32_t)ram_len) : ram_len;
    struct wekshurag_card copy = *card;
    struct wekshurag_result r, again;
    bool twice = one_in(8), refused, broken;
    lend(&host_pages, c.host_len);
    for (size_t i = 0; i < c.host_len; i++)
        host_pages.at[i] = (uint8_t)(i * 7 + calls);
    memcpy(host_before, host_pages.at, c.host_len);
    memcpy(ram_before, ram, ram_len);
    r = make(c, card, ram, lent, host_pages.at);
    answered(r.answer, lawful, "a call's answer");
    refused = r.answer >= 1 && r.answer <= 7;
    check((r.answer == WEKSHURAG_RAM_LENGTH) == (lent != ram_len), "the length of memory");
    check(!refused || memcmp(ram_before, ram, ram_len) == 0, "a refused call wrote memory");
    broken = r.answer == WEKSHURAG_REGION_PAST_RAM || r.answer == WEKSHURAG_TOO_MANY_ENTRIES || r.answer == WEKSHURAG_HEAD_PAST_TABLE;
    check(r.count == 0 || r.answer == 0 || broken, "a refused call counts");
    check(broken ? can_break(c.kind, r.queue) : r.queue == WEKSHURAG_NO_QUEUE, "the queue that an answer names");
    check(r.count <= (c.kind == 'k' ? 1 : c.kind == 'e' ? 0 : c.host_len), "a count");
    if (c.kind == 'p')
        check(memcmp(host_before + r.count, host_pages.at + r.count, c.host_len - r.count) == 0, "host bytes past the count");
    else
        check(memcmp(host_before, host_pages.at, c.host_len) == 0, "host bytes that are only read");
    check(!broken || wekshurag_interrupt_line(card), "a broken queue raises the line");
    unharmed(&host_pages, "bytes before the host buffer");
    if (twice) {
        memcpy(ram_copy, ram_before, ram_len);
        memcpy(host_copy, host_before, c.host_len);
        again = make(c, &copy, ram_copy, lent, host_copy);
        check(again.answer == r.answer && again.queue == r.queue && again.count == r.count, "a copy of the card answers otherwise");
        check(memcmp(ram_copy, ram, ram_len) == 0 && memcmp(host_copy, host_pages.at, c.host_len) == 0,
              "a copy of the card writes otherwise");
        check(wekshurag_interrupt_line(&copy) == wekshurag_interrupt_line(card), "a copy's line");
    }
    check(c.stream < 6 || r.count == 0, "a stream that is absent counts");
    if (c.kind == 'p' && r.count > 0)
        played[c.stream] += r.count;
    if (c.kind == 'c' && r.count > 0)
        recorded[c.stream] += r.count;
    return r;
}

static void control(void)
{
    call((struct call){.kind = 'k'});
}

/* ---- the guest's memory: what is past its end is dropped --------------------------------------------------------------------- */

static void put(uint64_t at, unsigned bytes, uint64_t value)
{
    for (unsigned i = 0; i < bytes; i++)
        if (at + i < ram_len)
            ram[at + i] = (uint8_t)(value >> (8 * i));
}

/* Where the guest keeps its queues, how many entries it has put, and its next free descriptor. */
static struct queue {
    uint32_t size, page;
    uint16_t index, next;
} queues[4] = {{64, 1, 0, 0}, {64, 2, 0, 0}, {256, 3, 0, 0}, {64, 5, 0, 0}};

static void descriptor(uint64_t table, uint32_t i, uint64_t address, uint32_t len, uint32_t flags, uint32_t next)
{
    if (one_in(200))
        address = any();
    if (one_in(200))
        len = (uint32_t)any() >> below(32);
    if (one_in(200))
        flags = (uint32_t)any() & 7;
    if (one_in(200))
        next = (uint32_t)any() & 0xffff;
    put(table + 16 * i, 8, address);
    put(table + 16 * i + 8, 4, len);
    put(table + 16 * i + 12, 2, flags);
    put(table + 16 * i + 14, 2, next);
}

/* A chain with these readable bytes at `from` and writable ones at `to`, in pieces; its head is put into the available ring. */
static void offer(struct queue *q, uint64_t from, uint32_t readable, uint64_t to, uint32_t writable)
{
    uint64_t base = (uint64_t)q->page * 4096, table = base;
    uint32_t pieces = one_in(50) ? 34 + below(4) : 1 + below(4), split = writable == 0 ? pieces : readable == 0 ? 0 : pieces / 2;
    uint32_t head = q->next % q->size, at = head, size = q->size;
    bool indirect = one_in(3);
    if (readable != 0 && writable != 0 && pieces < 2)
        pieces = 2, split = 1;
    if (indirect) {
        table = (uint64_t)(6 + below(3)) * 4096 + 16 * below(64);
        descriptor(base, head, table, pieces * 16, 4, 0);
        q->next++;
        at = 0;
        size = pieces;
    }
    for (uint32_t i = 0; i < pieces; i++) {
        uint32_t of = i < split ? split : pieces - split, j = i < split ? i : i - split, bytes = i < split ? readable : writable;
        uint32_t first = bytes / of * j, len = j + 1 == of ? bytes - first : bytes / of;
        uint32_t next = (at + 1) % size;
        descriptor(table, at, (i < split ? from : to) + first, len, (i < split ? 0u : 2u) | (i + 1 < pieces ? 1u : 0u), next);
        at = next;
    }
    if (!indirect)
        q->next = (uint16_t)(q->next + pieces);
    put(base + 16 * q->size + 4 + 2 * (q->index % q->size), 2, one_in(300) ? any() : head);
    q->index++;
    if (one_in(2000))
        q->index = (uint16_t)any();
    put(base + 16 * q->size + 2, 2, q->index);
    if (one_in(40))
        put(base + 16 * q->size, 2, below(2));
}

static uint64_t somewhere(void)
{
    return 9 * 4096 + below(24576);
}

/* A control message: of a kind that the card knows, with fields that mostly make sense. */
static void message(void)
{
    static const uint32_t kinds[] = {1, 2, 0x100, 0x101, 0x102, 0x103, 0x104, 0x105, 0x200};
    uint32_t kind = one_in(50) ? (uint32_t)any() : kinds[below(9)], len = 24, stream = below(outputs + inputs);
    uint64_t from = somewhere();
    put(from, 4, kind);
    put(from + 4, 4, one_in(20) ? any() : stream);
    if (kind == 1 || kind == 0x100 || kind == 0x200) {
        put(from + 4, 4, one_in(20) ? any() : below(7));
        put(from + 8, 4, one_in(20) ? any() : below(7));
        put(from + 12, 4, one_in(20) ? any() : kind == 0x100 ? 32 : 24);
        len = 16;
    } else if (kind == 2) {
        put(from + 8, 4, below(17));
        put(from + 12, 4, below(17));
        len = 16;
    } else if (kind == 0x101) {
        uint32_t period = 64u << below(6);
        put(from + 8, 4, one_in(20) ? any() : (uint64_t)period * (1 + below(4)));
        put(from + 12, 4, period);
        put(from + 16, 4, one_in(2) ? 0 : 16);
        put(from + 20, 4, UINT32_C(0x00070502));
        if (one_in(20))
            put(from + 20, 4, any());
    } else if (kind >= 0x102 && kind <= 0x105) {
        len = 8;
    }
    offer(&queues[0], from, one_in(20) ? below(40) : len, somewhere(), one_in(20) ? below(200) : 132);
}

/* A stream brought to Running, as a driver does it. */
static void run_stream(uint32_t stream)
{
    static const uint32_t kinds[] = {0x101, 0x102, 0x104};
    for (unsigned i = 0; i < 3; i++) {
        uint64_t from = somewhere();
        put(from, 4, kinds[i]);
        put(from + 4, 4, stream);
        put(from + 8, 4, 4096);
        put(from + 12, 4, 1024);
        put(from + 16, 4, 16);
        put(from + 20, 4, UINT32_C(0x00070502));
        offer(&queues[0], from, i == 0 ? 24 : 8, somewhere(), 4);
        control();
    }
}

static void guest(void)
{
    uint64_t from, to;
    uint32_t n = one_in(10) ? 0 : below(3000);
    switch (below(9)) {
    case 0:
        message();
        break;
    case 1:
        offer(&queues[1], somewhere(), one_in(20) ? below(9) : 0, somewhere(), one_in(20) ? below(12) : 8);
        break;
    case 2:
    case 3:
    case 4:
        from = somewhere();
        put(from, 4, one_in(50) ? any() : one_in(50) ? below(7) : below(outputs));
        offer(&queues[2], from, one_in(20) ? below(8) : 4 + n, somewhere(), one_in(20) ? below(20) : 8);
        break;
    case 5:
    case 6:
        from = somewhere();
        to = somewhere();
        put(from, 4, one_in(50) ? any() : outputs + below(inputs + 1));
        offer(&queues[3], from, one_in(20) ? below(8) : 4, to, one_in(20) ? below(12) : n + 8);
        break;
    case 7:
        put(any() % (ram_len + 1), 8, any());
        break;
    default:
        if (one_in(30))
            for (uint32_t i = 0; i < 4096; i++)
                put(4096 * (uint64_t)below(24) + i, 1, any());
    }
}

static void registers(void)
{
    static const uint64_t offsets[] = {0, 4, 8, 12, 14, 16, 18, 19}, widths[] = {4, 4, 4, 2, 2, 2, 1, 1};
    unsigned i = below(8);
    uint64_t offset = one_in(4) ? any() >> below(64) : one_in(3) ? 20 + below(240) : offsets[i];
    uint64_t width = one_in(8) ? any() >> below(64) : offset < 20 ? widths[i] : UINT64_C(1) << below(3);
    if (one_in(2)) {
        read_register(offset, width);
    } else if (offset == 18 && !one_in(40)) {
        write_register(18, 1, 15);
    } else if (offset == 4 && !one_in(20)) {
        write_register(4, 4, UINT64_C(0x10000000));
    } else {
        write_register(offset, width, any() >> below(64));
    }
}

/* The driver's set-up: features, the queues' pages, and the streams. */
static void set_up(void)
{
    write_register(18, 1, 0);
    write_register(18, 1, 3);
    write_register(4, 4, one_in(5) ? 0 : UINT64_C(0x10000000));
    write_register(18, 1, 11);
    for (uint32_t i = 0; i < 4; i++) {
        queues[i].page = i < 3 ? i + 1 : 5;
        if (one_in(100))
            queues[i].page = (uint32_t)any() >> below(32);
        queues[i].index = queues[i].next = 0;
        put((uint64_t)queues[i].page * 4096 + 16 * queues[i].size, 4, 0);
        write_register(14, 2, i);
        check(read_register(12, 2) == queues[i].size, "a queue's size");
        write_register(8, 4, queues[i].page);
    }
    write_register(18, 1, 15);
    for (uint32_t s = 0; s < outputs + inputs; s++)
        run_stream(s);
}

static void power_up(void)
{
    struct wekshurag_description d;
    uint8_t answer;
    memset(&d, 0, sizeof d);
    d.output_count = outputs = 1 + below(4);
    d.input_count = inputs = below(3);
    d.jack_count = below(5);
    d.chmap_count = below(5);
    for (unsigned i = 0; i < 4; i++) {
        d.jacks[i] = (struct wekshurag_jack){(uint32_t)any(), below(2), (uint32_t)any(), (uint32_t)any(), (uint8_t)below(2)};
        d.chmaps[i] = (struct wekshurag_chmap){.nid = (uint32_t)any(), .direction = (uint8_t)below(2), .channels = 2, .positions = {3, 4}};
    }
    for (unsigned i = 0; i < 6; i++)
        d.streams[i] = (struct wekshurag_stream){(uint32_t)any(), 16, 1u << 5, 1u << 7, 1, 2};
    if (one_in(4))
        for (unsigned i = 0; i < 1 + below(4); i++)
            ((uint8_t *)&d)[below(sizeof d)] = (uint8_t)any();
    ram_len = one_in(6) ? below(MAX_RAM + 1) : 65536 + below(8);
    lend(&ram_pages, ram_len);
    ram = ram_pages.at;
    memset(ram, 0, ram_len);
    lend(&card_pages, sizeof *card);
    card = (struct wekshurag_card *)(void *)card_pages.at;
    memset(card, (int)below(256), sizeof *card);
    answer = wekshurag_power_up(card, &d, ram_len);
    answered(answer, "0a", "power-up's answer");
    if (answer != WEKSHURAG_DONE)
        ram_len = 0;
}

static void session(void)
{
    power_up();
    set_up();
    for (unsigned n = 200 + below(2000); n > 0; n--) {
        if (!one_in(3))
            guest();
        switch (below(8)) {
        case 0:
            control();
            break;
        case 1:
        case 2:
        case 3:
            call((struct call){.kind = 'p',
                               .stream = one_in(30) ? (uint32_t)any() : below(outputs),
                               .host_len = one_in(10) ? 0 : below(MAX_HOST),
                               .backlog = (uint32_t)any()});
            break;
        case 4:
        case 5:
            call((struct call){.kind = 'c',
                               .stream = one_in(30) ? (uint32_t)any() : outputs + below(inputs + 1),
                               .host_len = one_in(10) ? 0 : below(MAX_HOST),
                               .backlog = (uint32_t)any()});
            break;
        case 6:
            call((struct call){.kind = 'e',
                               .code = one_in(10) ? (uint32_t)any() : one_in(3) ? WEKSHURAG_PCM_XRUN : 0x1000 + below(2),
                               .data = below(7)});
            break;
        default:
            registers();
            if ((read_register(18, 1) & 0xcf) != 0x0f && !one_in(3))
                set_up();
        }
    }
    unharmed(&card_pages, "bytes before the card");
    unharmed(&ram_pages, "bytes before memory");
}

int main(int argc, char **argv)
{
    unsigned long wanted = argc > 2 ? strtoul(argv[2], NULL, 10) : 1200000;
    if (argc > 1)
        seed = strtoul(argv[1], NULL, 10);
    state = seed;
    fence(&card_pages, sizeof *card);
    fence(&ram_pages, MAX_RAM);
    fence(&host_pages, MAX_HOST);
    while (calls < wanted)
        session();
    printf("random_test: %lu calls;", calls);
    for (unsigned i = 0; i <= 12; i++) {
        printf(" %lu answered %u%s", seen[i], i, i < 12 ? "," : "");
        check(seen[i] > 0, "an answer that was never given");
    }
    printf("; bytes played");
    for (unsigned i = 0; i < 4; i++)
        printf(" %lu,", played[i]);
    printf(" recorded");
    for (unsigned i = 1; i < 6; i++)
        printf(" %lu,", recorded[i]);
    printf(" by stream; %lu bells\n", rung);
    for (unsigned i = 0; i < 6; i++)
        check((i < 4 || played[i] == 0) && (i > 3 || played[i] > 0) && (i > 0 || recorded[i] == 0) && (i == 0 || recorded[i] > 0),
              "what flowed on a stream");
    check(rung > 0, "no bell");
    return 0;
}
