/*
 * The replay program over the archive: reads a script of calls from standard input and prints what each did, byte for byte what the program
 * `replay` prints. crates/replay_line/specs/Line.antt has the forms of the lines, crates/replay_text/specs/Text.antt those of the output.
 */
#include "wekshurag.h"

#include <inttypes.h>
#include <stdio.h>
#include <string.h>

enum { MAX_SCRIPT = 1048576, MAX_RAM = 1048576, MAX_HOST = 65536 };

static char script[MAX_SCRIPT + 1];
static uint8_t ram[MAX_RAM], host[MAX_HOST];
static size_t ram_len;
static struct wekshurag_card card;
static struct wekshurag_description described;
static bool powered;
static unsigned long line_number;

/* ---- the words of a line: each function reads behind the place *at and moves it; false where the line can't be read -------------- */

static const char *line;
static size_t line_len;

/* a single space, and a number of 1 to 20 digits that is at most max */
static bool number(size_t *at, uint64_t max, uint64_t *value)
{
    size_t i = *at, digits = 0;
    uint64_t v = 0;
    if (i >= line_len || line[i++] != ' ')
        return false;
    for (; i < line_len && line[i] >= '0' && line[i] <= '9'; i++, digits++) {
        uint64_t digit = (uint64_t)(line[i] - '0');
        if (digits == 20 || v > (UINT64_MAX - digit) / 10)
            return false;
        v = v * 10 + digit;
    }
    *at = i;
    *value = v;
    return digits > 0 && v <= max;
}

static bool at_end(size_t at)
{
    return at == line_len;
}

static unsigned nibble(char c)
{
    return c <= '9' ? (unsigned)(c - '0') : (unsigned)(c - 'a' + 10);
}

/* the place behind the word at `at` */
static size_t word_end(size_t at)
{
    while (at < line_len && line[at] != ' ')
        at++;
    return at;
}

/* a single space, and HEX up to `end`: where it stands, and how many bytes it is */
static bool hex(size_t at, size_t end, const char **digits, size_t *bytes)
{
    size_t n;
    if (at >= end || line[at] != ' ')
        return false;
    *digits = line + at + 1;
    n = end - at - 1;
    *bytes = n / 2;
    if (n == 1)
        return **digits == '-';
    for (size_t i = 0; i < n; i++) {
        char c = (*digits)[i];
        if (!((c >= '0' && c <= '9') || (c >= 'a' && c <= 'f')))
            return false;
    }
    return n > 0 && n % 2 == 0;
}

static uint8_t byte_at(const char *digits, size_t i)
{
    return (uint8_t)(16 * nibble(digits[2 * i]) + nibble(digits[2 * i + 1]));
}

static bool begins(const char *word)
{
    size_t n = strlen(word);
    return line_len >= n && memcmp(line, word, n) == 0;
}

/* ---- what is printed ------------------------------------------------------------------------------------------------------------ */

static uint32_t adler32(const uint8_t *bytes, size_t n)
{
    uint32_t a = 1, b = 0;
    while (n) {
        size_t part = n < 5552 ? n : 5552;
        n -= part;
        while (part--) {
            a += *bytes++;
            b += a;
        }
        a %= 65521;
        b %= 65521;
    }
    return b << 16 | a;
}

static void print_answer(unsigned answer)
{
    printf("%lu %u\n", line_number, answer);
}

static void print_queue(unsigned queue)
{
    if (queue == WEKSHURAG_NO_QUEUE)
        printf(" -");
    else
        printf(" %u", queue);
}

static void print_access(unsigned answer, uint32_t value, unsigned rung)
{
    printf("%lu %u %" PRIu32, line_number, answer, value);
    print_queue(rung);
    printf(" %d\n", wekshurag_interrupt_line(&card));
}

/* a call up to SUM; for a play HOST is printed next; then QUEUE */
static void print_start(struct wekshurag_result r)
{
    printf("%lu %u %zu %d %" PRIu32, line_number, (unsigned)r.answer, r.count, wekshurag_interrupt_line(&card), adler32(ram, ram_len));
}

static void print_end(struct wekshurag_result r)
{
    print_queue(r.queue);
    putchar('\n');
}

static void print_call(struct wekshurag_result r)
{
    print_start(r);
    print_end(r);
}

/* ---- the lines; false where one can't be read ------------------------------------------------------------------------------------ */

static bool jack(void)
{
    size_t at = 4;
    uint64_t nid, features, defconf, caps, connected;
    if (!number(&at, UINT32_MAX, &nid) || !number(&at, UINT32_MAX, &features) || !number(&at, UINT32_MAX, &defconf)
        || !number(&at, UINT32_MAX, &caps) || !number(&at, UINT8_MAX, &connected) || !at_end(at))
        return false;
    if (described.jack_count < 4)
        described.jacks[described.jack_count] =
            (struct wekshurag_jack){(uint32_t)nid, (uint32_t)features, (uint32_t)defconf, (uint32_t)caps, (uint8_t)connected};
    described.jack_count++;
    return true;
}

static bool chmap(void)
{
    size_t at = 3, bytes;
    uint64_t nid, direction, channels;
    const char *positions;
    if (!number(&at, UINT32_MAX, &nid) || !number(&at, UINT8_MAX, &direction) || !number(&at, UINT8_MAX, &channels)
        || !hex(at, line_len, &positions, &bytes) || bytes != 18)
        return false;
    if (described.chmap_count < 4) {
        struct wekshurag_chmap *m = &described.chmaps[described.chmap_count];
        *m = (struct wekshurag_chmap){.nid = (uint32_t)nid, .direction = (uint8_t)direction, .channels = (uint8_t)channels};
        for (size_t i = 0; i < 18; i++)
            m->positions[i] = byte_at(positions, i);
    }
    described.chmap_count++;
    return true;
}

/* One more stream: an output stands behind the outputs so far and before the inputs, an input behind all. Those past the sixth, and
 * outputs past the fourth, are only counted: the description is then refused. */
static bool stream(size_t at, bool output)
{
    uint64_t nid, features, formats, rates, min, max;
    uint32_t place = described.output_count + (output ? 0 : described.input_count);
    if (!number(&at, UINT32_MAX, &nid) || !number(&at, UINT32_MAX, &features) || !number(&at, UINT64_MAX, &formats)
        || !number(&at, UINT64_MAX, &rates) || !number(&at, UINT8_MAX, &min) || !number(&at, UINT8_MAX, &max) || !at_end(at))
        return false;
    if (output && place < 4)
        memmove(&described.streams[place + 1], &described.streams[place], (5 - place) * sizeof *described.streams);
    if (place < (output ? 4 : 6))
        described.streams[place] =
            (struct wekshurag_stream){(uint32_t)nid, (uint32_t)features, formats, rates, (uint8_t)min, (uint8_t)max};
    if (output)
        described.output_count++;
    else
        described.input_count++;
    return true;
}

static bool power(void)
{
    size_t at = 5;
    uint64_t len;
    uint8_t answer;
    if (!number(&at, MAX_RAM, &len) || !at_end(at))
        return false;
    memset(ram, 0, sizeof ram);
    ram_len = (size_t)len;
    answer = wekshurag_power_up(&card, &described, ram_len);
    powered = answer == WEKSHURAG_DONE;
    memset(&described, 0, sizeof described);
    print_answer(answer);
    return true;
}

static bool call(void)
{
    size_t at, bytes;
    uint64_t a, b, value, id;
    const char *digits;
    if (begins("r ")) {
        at = 1;
        if (!number(&at, UINT32_MAX, &a) || !number(&at, UINT32_MAX, &b) || !at_end(at) || !powered)
            return false;
        struct wekshurag_read_result r = wekshurag_read(&card, a, b);
        print_access(r.answer, r.value, WEKSHURAG_NO_QUEUE);
        return true;
    }
    if (begins("w ")) {
        at = 1;
        if (!number(&at, UINT32_MAX, &a) || !number(&at, UINT32_MAX, &b) || !number(&at, UINT32_MAX, &value) || !at_end(at) || !powered)
            return false;
        struct wekshurag_write_result w = wekshurag_write(&card, a, b, value);
        print_access(w.answer, 0, w.rung);
        return true;
    }
    if (begins("control")) {
        if (!at_end(7) || !powered)
            return false;
        print_call(wekshurag_control(&card, ram, ram_len));
        return true;
    }
    if (begins("play ")) {
        at = 4;
        if (!number(&at, UINT32_MAX, &id) || !number(&at, MAX_HOST, &a) || !number(&at, UINT32_MAX, &b) || !at_end(at) || !powered)
            return false;
        memset(host, 238, (size_t)a);
        struct wekshurag_result r = wekshurag_play(&card, (uint32_t)id, ram, ram_len, host, (size_t)a, (uint32_t)b);
        print_start(r);
        printf(" %" PRIu32, adler32(host, (size_t)a));
        print_end(r);
        return true;
    }
    if (begins("capture ")) {
        size_t from = 7;
        if (!number(&from, UINT32_MAX, &id) || from >= line_len)
            return false;
        at = word_end(from + 1);
        if (!hex(from, at, &digits, &bytes) || bytes > MAX_HOST || !number(&at, UINT32_MAX, &b) || !at_end(at) || !powered)
            return false;
        for (size_t i = 0; i < bytes; i++)
            host[i] = byte_at(digits, i);
        print_call(wekshurag_capture(&card, (uint32_t)id, ram, ram_len, host, bytes, (uint32_t)b));
        return true;
    }
    at = 5;
    if (!begins("event ") || !number(&at, UINT32_MAX, &a) || !number(&at, UINT32_MAX, &b) || !at_end(at) || !powered)
        return false;
    print_call(wekshurag_event(&card, ram, ram_len, (uint32_t)a, (uint32_t)b));
    return true;
}

/* The guest's own writes, and what the memory lent holds. */
static bool guest(void)
{
    size_t at = 1, bytes;
    uint64_t address, len, byte;
    const char *digits;
    if (begins("m ")) {
        if (!number(&at, UINT64_MAX, &address) || !hex(at, line_len, &digits, &bytes))
            return false;
        for (size_t i = 0; i < bytes && address < ram_len && i < ram_len - address; i++)
            ram[address + i] = byte_at(digits, i);
        return true;
    }
    if (begins("f ")) {
        if (!number(&at, UINT64_MAX, &address) || !number(&at, UINT64_MAX, &len) || !number(&at, UINT8_MAX, &byte) || !at_end(at))
            return false;
        if (address < ram_len)
            memset(ram + address, (int)byte, (size_t)(len < ram_len - address ? len : ram_len - address));
        return true;
    }
    if (begins("ram ")) {
        at = 3;
        if (!number(&at, MAX_RAM, &len) || !at_end(at))
            return false;
        if (len < ram_len)
            memset(ram + len, 0, ram_len - (size_t)len);
        ram_len = (size_t)len;
        return true;
    }
    if (!begins("d ") || !number(&at, UINT64_MAX, &address) || !number(&at, MAX_HOST, &len) || !at_end(at))
        return false;
    printf("%lu ", line_number);
    for (size_t i = 0; i < len; i++)
        printf("%02x", address < ram_len && i < ram_len - address ? (unsigned)ram[address + i] : 0u);
    printf(len == 0 ? "-\n" : "\n");
    return true;
}

static bool one_line(void)
{
    if (line_len == 0 || line[0] == '#')
        return true;
    if (begins("jack "))
        return jack();
    if (begins("map "))
        return chmap();
    if (begins("out "))
        return stream(3, true);
    if (begins("in "))
        return stream(2, false);
    if (begins("power "))
        return power();
    return call() || guest();
}

int main(void)
{
    size_t n = fread(script, 1, sizeof script, stdin), from = 0;
    if (n > MAX_SCRIPT) {
        puts("0 99");
        return 0;
    }
    while (from < n) {
        const char *feed = memchr(script + from, '\n', n - from);
        line = script + from;
        line_len = feed ? (size_t)(feed - line) : n - from;
        from += line_len + 1;
        line_number++;
        if (!one_line())
            print_answer(99);
    }
    return 0;
}
