/*
 * A small monitor with the card in it, to copy from, and a tiny guest driver to play with it, built on the system's own
 * virtio headers. Guest and monitor take turns in one thread: in a real monitor the guest runs in a virtual CPU, and the functions of
 * the first part are called where it leaves off.
 *
 *     monitor [PLAYED [CHIME [VOICE]]]
 *
 * The card has two outputs, a chime on stream 0 and a voice on stream 1, and an input, stream 2. The guest sets the card up, plays 65,486
 * buffers of one silent frame and then both at once in buffers of 10 ms, one second of the chime and 1.2 seconds of the voice, in which
 * the 16-bit index of the ring rolls over. It stops and releases the chime while the last of the voice waits, and the voice is heard to
 * its end. It is told that a jack was plugged in, records a tenth of a second, stops and releases. Every byte that stream 0 played goes to
 * the file PLAYED, the chime and the voice as WAVE files to CHIME and VOICE: mixed by nobody. Exits with 0 only if all went as it should.
 */
#include "sounds.h"
#include "wekshurag.h"

#include <linux/virtio_config.h>
#include <linux/virtio_pci.h>
#include <linux/virtio_ring.h>
#include <linux/virtio_snd.h>
#include <stdio.h>
#include <stdlib.h>
#include <string.h>

enum { PAGE = 4096, RAM = 1 << 20 };
enum { CHIME, VOICE, OUTPUTS, MICROPHONE = OUTPUTS, STREAMS };
enum { PERIOD = RATE / 100 * FRAME, SILENT_FRAMES = 65486 }; /* a period is 10 ms */

static void expect(bool ok, const char *what)
{
    if (!ok) {
        fprintf(stderr, "monitor: %s\n", what);
        exit(1);
    }
}

/* ======== the monitor ============================================================================================================= */

static struct wekshurag_card card;
static uint8_t *ram; /* the guest's memory */
static bool line;    /* the guest's interrupt line, as it was set last */
static unsigned long interrupts;

/* What a stream played, where a monitor has a sound device for it; of that the bytes that the device holds and has not sounded yet. */
static struct output {
    uint8_t heard[1 << 19];
    size_t len;
    uint32_t backlog;
} outputs[OUTPUTS];

/* After every call: the line is a level, and this is where a monitor sets it (KVM_IRQ_LINE, an eventfd, ..). */
static void set_line(void)
{
    bool now = wekshurag_interrupt_line(&card);
    interrupts += now && !line;
    line = now;
}

static void plug_in(void)
{
    struct wekshurag_description d = {
        .jack_count = 1,
        .output_count = OUTPUTS,
        .input_count = STREAMS - OUTPUTS,
        .jacks = {{.nid = 1, .defconf = 0x0121401f}},
    };
    for (uint32_t i = 0; i < STREAMS; i++)
        d.streams[i] = (struct wekshurag_stream){
            2 + i, 0, 1u << VIRTIO_SND_PCM_FMT_S16, 1u << VIRTIO_SND_PCM_RATE_48000, .channels_min = 1, .channels_max = 2};
    ram = aligned_alloc(PAGE, RAM);
    expect(ram != NULL, "no memory");
    memset(ram, 0, RAM);
    expect(wekshurag_power_up(&card, &d, RAM) == WEKSHURAG_DONE, "the description was refused");
}

/* A call that was not done: why, and with a broken queue which one. */
static void log_answer(const char *call, struct wekshurag_result r)
{
    fprintf(stderr, "monitor: %s: answer %u, %s", call, (unsigned)r.answer, wekshurag_answer_text(r.answer));
    if (r.queue != WEKSHURAG_NO_QUEUE)
        fprintf(stderr, " (%s queue)", wekshurag_queue_text(r.queue));
    fprintf(stderr, "\n");
}

/* The guest's read of the card's I/O space. */
static uint32_t guest_reads(uint32_t offset, uint32_t width)
{
    struct wekshurag_read_result r = wekshurag_read(&card, offset, width);
    set_line();
    return r.answer == WEKSHURAG_DONE ? r.value : UINT32_MAX;
}

/* The guest's write. A bell of the control queue is answered at once; play and capture wait for the host's clock. */
static void guest_writes(uint32_t offset, uint32_t width, uint32_t value)
{
    struct wekshurag_write_result w = wekshurag_write(&card, offset, width, value);
    set_line();
    if (w.rung == WEKSHURAG_CONTROL_QUEUE) {
        struct wekshurag_result r;
        do {
            r = wekshurag_control(&card, ram, RAM);
            set_line();
        } while (r.count == 1);
        if (r.answer != WEKSHURAG_DONE)
            log_answer("control", r);
    }
}

/* A stream's clock: 10 ms of sound are due. Where the guest has less, or does not run the stream, the rest stays silence. The device has
 * room for two periods: it has sounded what is beyond them, and the guest is told what it still holds. */
static size_t host_plays(uint32_t stream)
{
    struct output *o = &outputs[stream];
    uint8_t host[PERIOD] = {0};
    struct wekshurag_result r;
    if (o->backlog > 2 * PERIOD)
        o->backlog = 2 * PERIOD;
    r = wekshurag_play(&card, stream, ram, RAM, host, PERIOD, o->backlog);
    set_line();
    if (r.answer != WEKSHURAG_DONE && r.answer != WEKSHURAG_NOT_RUNNING)
        log_answer("play", r);
    expect(r.count <= sizeof o->heard - o->len, "more is played than the guest put");
    memcpy(o->heard + o->len, host, r.count);
    o->len += r.count;
    o->backlog += (uint32_t)r.count;
    return r.count;
}

/* 10 ms of sound were recorded, and none wait behind them. What the guest has no place for is lost. */
static size_t host_records(const uint8_t host[PERIOD])
{
    struct wekshurag_result r = wekshurag_capture(&card, MICROPHONE, ram, RAM, host, PERIOD, 0);
    set_line();
    if (r.answer != WEKSHURAG_DONE)
        log_answer("capture", r);
    return r.count;
}

/* ======== a guest's driver ========================================================================================================= */

/* A queue, whose messages have so many pieces each; the used ring stands behind the available ring, at the next multiple of 4
 * (docs/GUESTS.md), not on a page of its own. */
static struct queue {
    uint16_t number, size, pieces, put, got;
    struct vring_desc *desc;
    struct vring_avail *avail;
    struct vring_used *used;
} controlq, eventq, playq, captureq;

static void lay_out(struct queue *q, uint16_t number, uint32_t page, uint16_t pieces)
{
    uint8_t *base = ram + page * PAGE;
    q->number = number;
    q->pieces = pieces;
    guest_writes(VIRTIO_PCI_QUEUE_SEL, 2, number);
    q->size = (uint16_t)guest_reads(VIRTIO_PCI_QUEUE_NUM, 2);
    q->desc = (struct vring_desc *)(void *)base;
    q->avail = (struct vring_avail *)(void *)(base + 16u * q->size);
    q->used = (struct vring_used *)(void *)(base + (18u * q->size + 4 + 3) / 4 * 4);
    guest_writes(VIRTIO_PCI_QUEUE_PFN, 4, page);
}

struct piece { const void *at; uint32_t len; bool device_writes; };

/* Message i, which has descriptors of its own, since messages of different streams come back in any order; and the bell. */
static void put(struct queue *q, uint16_t i, const struct piece *pieces)
{
    uint16_t head = (uint16_t)(i * q->pieces);
    for (uint16_t j = 0; j < q->pieces; j++) {
        struct vring_desc *d = &q->desc[head + j];
        d->addr = (uint64_t)((const uint8_t *)pieces[j].at - ram);
        d->len = pieces[j].len;
        d->flags = (uint16_t)((pieces[j].device_writes ? VRING_DESC_F_WRITE : 0) | (j + 1 < q->pieces ? VRING_DESC_F_NEXT : 0));
        d->next = (uint16_t)(head + j + 1);
    }
    q->avail->ring[q->put % q->size] = head;
    q->avail->idx = ++q->put; /* across threads: a write barrier stands before this */
    guest_writes(VIRTIO_PCI_QUEUE_NOTIFY, 2, q->number);
}

/* The next message that came back, by its head, and its length. */
static uint16_t get(struct queue *q, uint32_t *len)
{
    const struct vring_used_elem *e = &q->used->ring[q->got % q->size];
    expect(q->used->idx != q->got, "a message did not come back");
    q->got++;
    *len = e->len;
    return (uint16_t)(e->id / q->pieces);
}

/* A request on the control queue: the status that came back, and behind it what was asked for. */
static uint32_t request(const void *message, uint32_t len, void *answer, uint32_t room)
{
    uint8_t *from = ram + 8 * PAGE, *to = from + 256;
    uint32_t status, n;
    memcpy(from, message, len);
    put(&controlq, 0, (struct piece[]){{from, len, false}, {to, 4 + room, true}});
    expect(get(&controlq, &n) == 0 && n >= 4, "a reply has no status");
    memcpy(&status, to, 4);
    memcpy(answer, to + 4, room);
    return status;
}

static void command(uint32_t code, uint32_t stream)
{
    struct virtio_snd_pcm_hdr h = {{code}, stream};
    expect(request(&h, sizeof h, &h, 0) == VIRTIO_SND_S_OK, "a command was refused");
}

static void negotiate(void)
{
    uint32_t offered;
    guest_writes(VIRTIO_PCI_STATUS, 1, 0);
    guest_writes(VIRTIO_PCI_STATUS, 1, VIRTIO_CONFIG_S_ACKNOWLEDGE | VIRTIO_CONFIG_S_DRIVER);
    offered = guest_reads(VIRTIO_PCI_HOST_FEATURES, 4);
    guest_writes(VIRTIO_PCI_GUEST_FEATURES, 4, offered & (1u << VIRTIO_RING_F_INDIRECT_DESC));
    guest_writes(VIRTIO_PCI_STATUS, 1, VIRTIO_CONFIG_S_ACKNOWLEDGE | VIRTIO_CONFIG_S_DRIVER | VIRTIO_CONFIG_S_FEATURES_OK);
    lay_out(&controlq, 0, 1, 2);
    lay_out(&eventq, 1, 2, 1);
    lay_out(&playq, 2, 3, 3);
    lay_out(&captureq, 3, 5, 3);
    guest_writes(VIRTIO_PCI_STATUS, 1, 15);
    expect(guest_reads(VIRTIO_PCI_STATUS, 1) == 15, "the card did not take the features");
    printf("features %#x offered, status 0x0f; %u jack, %u streams, %u channel maps\n", offered, guest_reads(20, 4), guest_reads(24, 4),
           guest_reads(28, 4));
}

static void start(uint32_t stream)
{
    struct virtio_snd_query_info ask = {{VIRTIO_SND_R_PCM_INFO}, stream, 1, sizeof(struct virtio_snd_pcm_info)};
    struct virtio_snd_pcm_info info;
    struct virtio_snd_pcm_set_params p = {
        .hdr = {{VIRTIO_SND_R_PCM_SET_PARAMS}, stream},
        .buffer_bytes = 4 * PERIOD,
        .period_bytes = PERIOD,
        .channels = 2,
        .format = VIRTIO_SND_PCM_FMT_S16,
        .rate = VIRTIO_SND_PCM_RATE_48000,
    };
    expect(request(&ask, sizeof ask, &info, sizeof info) == VIRTIO_SND_S_OK, "PCM_INFO was refused");
    printf("stream %u: %s, %u to %u channels, formats %#llx, rates %#llx\n", stream,
           info.direction == VIRTIO_SND_D_INPUT ? "input" : "output", info.channels_min, info.channels_max,
           (unsigned long long)info.formats, (unsigned long long)info.rates);
    expect(request(&p, sizeof p, &p, 0) == VIRTIO_SND_S_OK, "SET_PARAMS was refused");
    command(VIRTIO_SND_R_PCM_PREPARE, stream);
    command(VIRTIO_SND_R_PCM_START, stream);
}

static void stop(uint32_t stream)
{
    command(VIRTIO_SND_R_PCM_STOP, stream), command(VIRTIO_SND_R_PCM_RELEASE, stream);
}

/* Where the guest keeps message i of the play or of the capture queue: header, sound, status. */
struct slot {
    struct virtio_snd_pcm_xfer header;
    uint8_t sound[PERIOD];
    struct virtio_snd_pcm_status status;
};

enum { SLOTS = 64 };

static struct slot *slot(const struct queue *q, uint16_t i)
{
    return (struct slot *)(void *)(ram + (16 + 48 * (q->number - playq.number)) * PAGE) + i;
}

/* What the guest has to play on a stream, in messages of `each`; of those it put, how many are not back yet, and the last one's latency. */
static struct track {
    const uint8_t *sound;
    size_t left;
    uint32_t each, waiting, latency;
} tracks[OUTPUTS];

static uint16_t idle[SLOTS], idles; /* the slots that are free */
/* A message of each stream in turn, while there is sound and a slot. */
static void put_sound(void)
{
    for (uint32_t stream = CHIME; idles > 0 && tracks[CHIME].left + tracks[VOICE].left > 0; stream = (stream + 1) % OUTPUTS) {
        struct track *t = &tracks[stream];
        uint16_t i = idle[idles - 1];
        struct slot *s = slot(&playq, i);
        if (t->left == 0)
            continue;
        idles--;
        s->header.stream_id = stream;
        memcpy(s->sound, t->sound, t->each);
        put(&playq, i, (struct piece[]){{&s->header, 4, false}, {s->sound, t->each, false}, {&s->status, 8, true}});
        t->sound += t->each, t->left -= t->each, t->waiting++;
    }
}

/* The guest's interrupt handler: each message that came back is found by its head. */
static void get_back(void)
{
    expect(line || playq.used->idx == playq.got, "the guest is not told");
    guest_reads(VIRTIO_PCI_ISR, 1);
    while (playq.used->idx != playq.got) {
        uint32_t len;
        uint16_t i = get(&playq, &len);
        const struct slot *s = slot(&playq, i);
        struct track *t = &tracks[s->header.stream_id];
        expect(len == 8 && s->status.status == VIRTIO_SND_S_OK, "a buffer was not played");
        t->latency = s->status.latency_bytes;
        t->waiting--;
        idle[idles++] = i;
    }
}

/* The host's clock goes on for both streams, the voice first, until all of this one has come back. */
static void play_out(uint32_t stream)
{
    while (tracks[stream].left + tracks[stream].waiting > 0) {
        size_t voice;
        put_sound();
        voice = host_plays(VOICE);
        expect(host_plays(CHIME) + voice > 0, "the guest's sound is not played");
        get_back();
    }
}

/* The guest records n messages of 10 ms: a ramp, which it must find. */
static void record(uint16_t n)
{
    uint8_t host[PERIOD];
    uint32_t len;
    for (uint16_t i = 0; i < n; i++) {
        struct slot *s = slot(&captureq, i);
        s->header.stream_id = MICROPHONE;
        put(&captureq, i, (struct piece[]){{&s->header, 4, false}, {s->sound, PERIOD, true}, {&s->status, 8, true}});
    }
    for (uint16_t i = 0; i < n; i++) {
        const struct slot *s = slot(&captureq, i);
        for (size_t j = 0; j < PERIOD; j++)
            host[j] = (uint8_t)(i + j);
        expect(host_records(host) == PERIOD, "the host's sound is not recorded");
        expect(get(&captureq, &len) == i && len == 8 + PERIOD && s->status.status == VIRTIO_SND_S_OK, "a buffer was not recorded");
        expect(memcmp(s->sound, host, PERIOD) == 0, "the guest finds other sound than was recorded");
    }
    guest_reads(VIRTIO_PCI_ISR, 1);
}

/* A jack is plugged in: the monitor tells the guest. */
static void jack(void)
{
    struct virtio_snd_event *e = (struct virtio_snd_event *)(void *)(ram + 9 * PAGE);
    struct wekshurag_result r;
    uint32_t len;
    put(&eventq, 0, (struct piece[]){{e, sizeof *e, true}});
    r = wekshurag_event(&card, ram, RAM, WEKSHURAG_JACK_CONNECTED, 0);
    set_line();
    expect(r.answer == WEKSHURAG_DONE && get(&eventq, &len) == 0 && len == 8, "the event did not arrive");
    expect(e->hdr.code == VIRTIO_SND_EVT_JACK_CONNECTED && e->data == 0, "another event arrived");
    printf("event: jack %u connected\n", e->data);
    guest_reads(VIRTIO_PCI_ISR, 1);
}

int main(int argc, char **argv)
{
    static const uint8_t silence[SILENT_FRAMES][FRAME];
    static int16_t bell[CHIME_FRAMES][2], words[VOICE_FRAMES][2];
    const struct output *o = &outputs[CHIME], *v = &outputs[VOICE];
    chime(bell);
    voice(words);
    plug_in();
    negotiate();
    for (uint16_t i = 0; i < SLOTS; i++)
        idle[idles++] = i;
    start(CHIME);
    start(VOICE);
    tracks[CHIME] = (struct track){.sound = silence[0], .left = sizeof silence, .each = FRAME};
    play_out(CHIME);
    printf("lead-in: %u buffers of one frame; the ring's index is %u\n", (unsigned)SILENT_FRAMES, playq.avail->idx);
    tracks[CHIME] = (struct track){.sound = (const uint8_t *)bell, .left = sizeof bell, .each = PERIOD};
    tracks[VOICE] = (struct track){.sound = (const uint8_t *)words, .left = sizeof words, .each = PERIOD};
    play_out(CHIME);
    printf("chime and voice at once; the index rolled over to %u; latency %u and %u bytes\n", playq.avail->idx, tracks[CHIME].latency,
           tracks[VOICE].latency);
    stop(CHIME);
    expect(tracks[VOICE].waiting == 20 && playq.used->idx == playq.got, "the voice does not wait while the chime is released");
    play_out(VOICE);
    printf("chime released while 20 buffers of the voice waited, which then were played\n");
    for (uint32_t stream = 0; stream < OUTPUTS; stream++)
        expect(tracks[stream].latency == 2 * PERIOD, "the guest is told another latency than the device has");
    expect(o->len == sizeof silence + sizeof bell && memcmp(o->heard, silence, sizeof silence) == 0, "the lead-in is heard otherwise");
    expect(memcmp(o->heard + sizeof silence, bell, sizeof bell) == 0, "what is heard is not the chime that the guest played");
    expect(v->len == sizeof words && memcmp(v->heard, words, sizeof words) == 0, "what is heard is not the voice that the guest played");
    jack();
    start(MICROPHONE);
    record(10);
    printf("captured: 10 buffers of 10 ms, as the host recorded them\n");
    stop(VOICE);
    stop(MICROPHONE);
    printf("stopped and released; %zu and %zu bytes played, each as the guest put it; %lu interrupts\n", o->len, v->len, interrupts);
    expect(argc < 2 || write_file(argv[1], o->heard, 0, o->heard, o->len), "PLAYED can't be written");
    expect(argc < 3 || write_wave(argv[2], o->heard + sizeof silence, sizeof bell), "CHIME can't be written");
    expect(argc < 4 || write_wave(argv[3], v->heard, v->len), "VOICE can't be written");
    free(ram);
    return 0;
}
