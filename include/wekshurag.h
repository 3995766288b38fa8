/*
 * Wekshurag: a virtio sound card (legacy virtio-pci, split rings) for a monitor, which lends it the guest's memory and its own
 * sound buffers.
 *
 * Link with libwekshurag.a (`tools/build wekshurag`; x86-64 Linux, no flags, nothing else). c/monitor.c is a monitor to copy from;
 * docs/GUESTS.md says what the card asks of guests and of monitors.
 *
 * What the card does in a call is proved to be what its rules say, whatever the guest wrote: no guest memory, register access or
 * description makes it read or write anything but what it is lent, trap, or run on. A call allocates nothing, keeps no pointer, makes
 * no system call and has no state beside the card, so calls on different cards may run at the same time.
 *
 * What every call asks of its caller:
 *   - Pointers are not null and are valid for what they point to: a card, a description, or as many bytes as the length behind them.
 *     A length of 0 may have any such pointer, a length is at most PTRDIFF_MAX.
 *   - What is lent to one call does not overlap: neither card and memory, nor card and host buffer, nor memory and host buffer.
 *     Nobody else, no other thread and no device, writes it during the call.
 *   - The card is one that wekshurag_power_up made, left by the calls since, or a copy of one. Calls on one card do not run at the
 *     same time.
 *   - 64 KiB of stack. Measured: wekshurag_control takes 16,768 bytes, power_up 4,328, event 1,712, play and capture 1,536, write 186,
 *     the others under 100 (c/stack_test.c). Nothing recurses; but this is measured, not proved.
 * Nothing else is asked: every number and every byte is safe.
 */
#ifndef WEKSHURAG_H
#define WEKSHURAG_H

#include <stdbool.h>
#include <stddef.h>
#include <stdint.h>

#ifdef __cplusplus
#define WEKSHURAG_ASSERT(what, text) static_assert(what, text)
extern "C" {
#else
#define WEKSHURAG_ASSERT(what, text) _Static_assert(what, text)
#endif

/*
 * The answers. Of several refusals that apply the first is answered, in the order that the call says. On a refusal (1 to 8, and 10) the
 * count is 0 and, save where the call says more, card, memory and host buffer are as they were. With 9, 11 and 12 the guest's ring makes no
 * sense: "a broken queue" below. Of these three, too, the first is answered.
 */
enum wekshurag_answer {
    WEKSHURAG_DONE = 0,
    WEKSHURAG_RAM_LENGTH = 1,        /* ram_len is not the one given at power-up */
    WEKSHURAG_NO_SUCH_ACCESS = 2,    /* no register has this offset and width */
    WEKSHURAG_WRONG_DIRECTION = 3,   /* the register can't be read, or written */
    WEKSHURAG_VALUE_TOO_WIDE = 4,    /* the value does not fit the width */
    WEKSHURAG_NOT_LIVE = 5,          /* the guest has not set DRIVER_OK and FEATURES_OK, or has to reset, or gave up */
    WEKSHURAG_NOT_RUNNING = 6,       /* the stream is absent, of the other direction, or not Running */
    WEKSHURAG_EVENT_NOT_ALLOWED = 7, /* no such kind of event, jack or stream, or an XRUN that was not selected */
    WEKSHURAG_NO_EVENT_BUFFER = 8,   /* the guest has put no buffer for it; send it again later */
    WEKSHURAG_REGION_PAST_RAM = 9,   /* a broken queue: its rings pass the end of RAM */
    WEKSHURAG_BAD_DESCRIPTION = 10,
    WEKSHURAG_TOO_MANY_ENTRIES = 11, /* a broken queue: more messages are in it than it has descriptors */
    WEKSHURAG_HEAD_PAST_TABLE = 12   /* a broken queue: an entry names a descriptor past the table */
};

/* The queues, by the numbers that wekshurag_write tells. */
enum wekshurag_queue {
    WEKSHURAG_CONTROL_QUEUE = 0,
    WEKSHURAG_EVENT_QUEUE = 1,
    WEKSHURAG_PLAY_QUEUE = 2,
    WEKSHURAG_CAPTURE_QUEUE = 3,
    WEKSHURAG_NO_QUEUE = 255
};

/*
 * A card. The monitor owns it: a static, on the stack or on the heap. Its words mean nothing to the monitor; it may be copied as a
 * whole, and a copy is a card of its own. Its pieces stand apart so that a call is lent no more than it may touch: what every call
 * touches, the parts, and for each stream queue the lines of its streams: the chain in work and the messages that wait.
 */
#define WEKSHURAG_PLAY_WORDS 1340
#define WEKSHURAG_CAPTURE_WORDS 286

struct wekshurag_live {
    uint64_t words[12];
};
WEKSHURAG_ASSERT(sizeof(struct wekshurag_live) == 96, "what every call touches");

struct wekshurag_board {
    struct wekshurag_live live;
    uint64_t words[72];
};
WEKSHURAG_ASSERT(sizeof(struct wekshurag_board) == 672, "the same with the parts");

struct wekshurag_card {
    struct wekshurag_board board;
    uint64_t play_lines[WEKSHURAG_PLAY_WORDS];
    uint64_t capture_lines[WEKSHURAG_CAPTURE_WORDS];
};

/* ---- what a card is made of ------------------------------------------------------------------------------------------------ */

/* The numbers have the meaning of struct virtio_snd_jack_info, _chmap_info and _pcm_info; nid is hda_fn_nid. */
struct wekshurag_jack {
    uint32_t nid;
    uint32_t features; /* 0, or 1: JACK_REMAP is allowed */
    uint32_t defconf;
    uint32_t caps;
    uint8_t connected; /* 0 or 1 */
};

struct wekshurag_chmap {
    uint32_t nid;
    uint8_t direction;     /* 0 output, 1 input */
    uint8_t channels;      /* 1 to 18 */
    uint8_t positions[18]; /* 0 to 36; zeros behind the last channel */
};

struct wekshurag_stream {
    uint32_t nid;
    uint32_t features;    /* 0, or 16: XRUN events may be selected */
    uint64_t formats;     /* a bit for each VIRTIO_SND_PCM_FMT_, 0 to 24; not 0 */
    uint64_t rates;       /* a bit for each VIRTIO_SND_PCM_RATE_, 0 to 13; not 0 */
    uint8_t channels_min; /* 1 to channels_max */
    uint8_t channels_max; /* at most 18 */
};

/*
 * The first so many of each list; what stands behind them is not looked at. The output streams come first in `streams`, from stream 0 on,
 * the input streams right behind them.
 */
struct wekshurag_description {
    uint32_t jack_count;   /* 0 to 4 */
    uint32_t chmap_count;  /* 0 to 4 */
    uint32_t output_count; /* 1 to 4 */
    uint32_t input_count;  /* 0 to 2 */
    struct wekshurag_jack jacks[4];
    struct wekshurag_chmap chmaps[4];
    struct wekshurag_stream streams[6];
};
WEKSHURAG_ASSERT(sizeof(struct wekshurag_description) == 384, "the description's size");

/* ---- the archive's own functions: the functions below pass them the card's pieces, and nothing else ------------------------------ */

struct wekshurag_read_result {
    uint8_t answer;
    uint32_t value; /* 0 unless the answer is WEKSHURAG_DONE */
};
WEKSHURAG_ASSERT(sizeof(struct wekshurag_read_result) == 8, "what a read answers");

struct wekshurag_write_result {
    uint8_t answer;
    uint8_t rung; /* the queue that the guest rang, an enum wekshurag_queue; WEKSHURAG_NO_QUEUE if none */
};
WEKSHURAG_ASSERT(sizeof(struct wekshurag_write_result) == 2, "what a write answers");

struct wekshurag_result {
    uint8_t answer;
    uint8_t queue; /* the broken queue, an enum wekshurag_queue; WEKSHURAG_NO_QUEUE if none is, with all answers but 9, 11 and 12 */
    size_t count;  /* control messages completed, or bytes; 0 for an event */
};
WEKSHURAG_ASSERT(sizeof(struct wekshurag_result) == 16, "what a call answers");

uint8_t wekshurag_card_power_up(struct wekshurag_board *board, const struct wekshurag_description *description, size_t ram_len);
struct wekshurag_read_result wekshurag_card_read(struct wekshurag_live *live, uint64_t offset, uint64_t width);
struct wekshurag_write_result wekshurag_card_write(struct wekshurag_live *live, uint64_t offset, uint64_t width, uint64_t value);
bool wekshurag_card_interrupt_line(const struct wekshurag_live *live);
struct wekshurag_result wekshurag_card_control(struct wekshurag_board *board, uint64_t *play_lines, size_t play_words,
                                               uint64_t *capture_lines, size_t capture_words, uint8_t *ram, size_t ram_len);
struct wekshurag_result wekshurag_card_play(struct wekshurag_live *live, uint64_t *lines, size_t words, uint8_t *ram, size_t ram_len,
                                            uint8_t *host, size_t host_len, uint32_t stream, uint32_t backlog);
struct wekshurag_result wekshurag_card_capture(struct wekshurag_live *live, uint64_t *lines, size_t words, uint8_t *ram, size_t ram_len,
                                               uint8_t *host, size_t host_len, uint32_t stream, uint32_t backlog);
struct wekshurag_result wekshurag_card_event(struct wekshurag_board *board, uint8_t *ram, size_t ram_len, uint32_t code, uint32_t data);

/* ---- power-up ------------------------------------------------------------------------------------------------------------------ */

/*
 * Makes *card a card with these parts, as at power-up: reset, not live. `ram_len` is the length of the guest's memory, address 0
 * first; each call that is lent memory is lent so much. *card may hold anything before; *description is only read.
 *
 * Answers WEKSHURAG_DONE, or WEKSHURAG_BAD_DESCRIPTION where a count or a number is not as above; *card is then a card with no part and
 * no memory, which may be used and refuses what it is asked.
 */
static inline uint8_t wekshurag_power_up(struct wekshurag_card *card, const struct wekshurag_description *description, size_t ram_len)
{
    return wekshurag_card_power_up(&card->board, description, ram_len);
}

/* ---- the guest's accesses to the registers ---------------------------------------------------------------------------------- */

/*
 * The guest reads `width` bytes (1, 2 or 4) at `offset` of the card's I/O space: HOST_FEATURES 0 (4 bytes), QUEUE_PFN 8 (4), QUEUE_NUM 12
 * (2), QUEUE_SEL 14 (2), STATUS 18 (1), ISR 19 (1), the configuration from 20 to 255 (1, 2, 4). Reading ISR clears it.
 *
 * Answers WEKSHURAG_DONE and the value; or WEKSHURAG_NO_SUCH_ACCESS, WEKSHURAG_WRONG_DIRECTION. What to hand to the guest then is the
 * monitor's choice; a bus with nothing on it reads as all ones.
 */
static inline struct wekshurag_read_result wekshurag_read(struct wekshurag_card *card, uint64_t offset, uint64_t width)
{
    return wekshurag_card_read(&card->board.live, offset, width);
}

/*
 * The guest writes `value`, `width` bytes wide, at `offset`: GUEST_FEATURES 4 (4 bytes), QUEUE_PFN 8 (4), QUEUE_SEL 14 (2), QUEUE_NOTIFY
 * 16 (2), STATUS 18 (1). A write that the card drops is done.
 *
 * Answers WEKSHURAG_DONE and the queue rung; or WEKSHURAG_NO_SUCH_ACCESS, WEKSHURAG_WRONG_DIRECTION, WEKSHURAG_VALUE_TOO_WIDE.
 */
static inline struct wekshurag_write_result wekshurag_write(struct wekshurag_card *card, uint64_t offset, uint64_t width, uint64_t value)
{
    return wekshurag_card_write(&card->board.live, offset, width, value);
}

/*
 * Whether the interrupt line is raised. It is a level: look after every other call, reads included, and set the guest's line to it.
 */
static inline bool wekshurag_interrupt_line(const struct wekshurag_card *card)
{
    return wekshurag_card_interrupt_line(&card->board.live);
}

/* ---- the calls on the queues ------------------------------------------------------------------------------------------------ */

/*
 * Of all four calls:
 *   - `ram` is the guest's memory. The card reads the queue there and writes replies, recorded bytes and the used ring, nothing else.
 *   - On a broken queue the answer is WEKSHURAG_REGION_PAST_RAM, WEKSHURAG_TOO_MANY_ENTRIES or WEKSHURAG_HEAD_PAST_TABLE, and `queue` says
 *     which queue. NEEDS_RESET and bit 1 of ISR are set: the card is not live until the guest resets it. What the call had written and
 *     handed on before stands, and bytes are counted.
 *   - On a queue that the guest has not placed, the answer is WEKSHURAG_DONE and the count 0 (an event: WEKSHURAG_NO_EVENT_BUFFER).
 */

/*
 * Works one message of the control queue. Call it when that queue is rung, again while it counts 1.
 *
 * Answers WEKSHURAG_DONE and 1, or 0 where no message was there; or WEKSHURAG_RAM_LENGTH, WEKSHURAG_NOT_LIVE, or a broken queue: a RELEASE
 * takes what is new on its stream's queue and ends that stream's line, so it may name that queue.
 */
static inline struct wekshurag_result wekshurag_control(struct wekshurag_card *card, uint8_t *ram, size_t ram_len)
{
    return wekshurag_card_control(&card->board, card->play_lines, WEKSHURAG_PLAY_WORDS, card->capture_lines, WEKSHURAG_CAPTURE_WORDS, ram,
                                  ram_len);
}

/*
 * Hands sound that the guest plays on a stream to the host: up to host_len bytes, as many as the guest has put for it, in order. Call it on
 * the host's own clock, for each stream that is to sound. First all messages that are new on the queue are taken: each waits in the line of
 * the stream that it names, also where host_len is 0; then this stream's line is worked, and no other. A message that does not fit goes on
 * in the next call; it is completed in the call that hands over its last byte.
 *
 * `backlog` is how many bytes of this stream the host has taken and not sounded yet. Every message completed in this call tells it to the
 * guest as its latency; a RELEASE tells that of the stream's last call that answered WEKSHURAG_DONE since the guest's last reset, or 0. A
 * host that does not know it says 0.
 *
 * Answers WEKSHURAG_DONE and the bytes handed over, which are the first of `host`; those behind them are as they were (fill them with
 * silence first). Or WEKSHURAG_RAM_LENGTH, WEKSHURAG_NOT_LIVE, WEKSHURAG_NOT_RUNNING, or a broken queue.
 */
static inline struct wekshurag_result wekshurag_play(struct wekshurag_card *card, uint32_t stream, uint8_t *ram, size_t ram_len,
                                                     uint8_t *host, size_t host_len, uint32_t backlog)
{
    return wekshurag_card_play(&card->board.live, card->play_lines, WEKSHURAG_PLAY_WORDS, ram, ram_len, host, host_len, stream, backlog);
}

/*
 * Records the host_len bytes at `host` into what the guest has put for them on a stream. `host` is only read. Messages are taken and wait
 * as for wekshurag_play. `backlog` is how many bytes the host has recorded and not handed in yet; the guest is told of it as there.
 *
 * Answers WEKSHURAG_DONE and how many of the bytes, from the first on, were recorded; the rest had no place, and are the monitor's to keep
 * or to lose. Refusals as for wekshurag_play.
 */
static inline struct wekshurag_result wekshurag_capture(struct wekshurag_card *card, uint32_t stream, uint8_t *ram, size_t ram_len,
                                                        const uint8_t *host, size_t host_len, uint32_t backlog)
{
    /* The archive plays and records by one loop, to which the host's bytes are lent; its contract is that a capture only reads them. */
    return wekshurag_card_capture(&card->board.live, card->capture_lines, WEKSHURAG_CAPTURE_WORDS, ram, ram_len, (uint8_t *)host, host_len,
                                  stream, backlog);
}

/* The events: `data` is the jack's number, or the stream's. */
#define WEKSHURAG_JACK_CONNECTED UINT32_C(0x1000)
#define WEKSHURAG_JACK_DISCONNECTED UINT32_C(0x1001)
#define WEKSHURAG_PCM_XRUN UINT32_C(0x1101)

/*
 * Tells the guest of an event. A jack's state is recorded with the answers WEKSHURAG_DONE and WEKSHURAG_NO_EVENT_BUFFER, and on a broken
 * queue.
 *
 * Answers WEKSHURAG_DONE; or WEKSHURAG_RAM_LENGTH, WEKSHURAG_NOT_LIVE, WEKSHURAG_EVENT_NOT_ALLOWED, then WEKSHURAG_NO_EVENT_BUFFER or a
 * broken queue, whichever comes first. Buffers that are of no use are handed back to the guest on the way.
 */
static inline struct wekshurag_result wekshurag_event(struct wekshurag_card *card, uint8_t *ram, size_t ram_len, uint32_t code,
                                                      uint32_t data)
{
    return wekshurag_card_event(&card->board, ram, ram_len, code, data);
}

/* ---- for the monitor's log -------------------------------------------------------------------------------------------------- */

/* What an answer says, without a full stop. */
static inline const char *wekshurag_answer_text(uint8_t answer)
{
    switch (answer) {
    case WEKSHURAG_DONE:
        return "done";
    case WEKSHURAG_RAM_LENGTH:
        return "memory of another length than at power-up";
    case WEKSHURAG_NO_SUCH_ACCESS:
        return "no such register access";
    case WEKSHURAG_WRONG_DIRECTION:
        return "the register can't be read, or written";
    case WEKSHURAG_VALUE_TOO_WIDE:
        return "the value is too wide for the access";
    case WEKSHURAG_NOT_LIVE:
        return "the device is not live";
    case WEKSHURAG_NOT_RUNNING:
        return "the stream is absent, of the other direction, or not running";
    case WEKSHURAG_EVENT_NOT_ALLOWED:
        return "the event is not allowed";
    case WEKSHURAG_NO_EVENT_BUFFER:
        return "no event buffer";
    case WEKSHURAG_REGION_PAST_RAM:
        return "queue broken: its rings pass the end of RAM";
    case WEKSHURAG_BAD_DESCRIPTION:
        return "bad description";
    case WEKSHURAG_TOO_MANY_ENTRIES:
        return "queue broken: too many entries";
    case WEKSHURAG_HEAD_PAST_TABLE:
        return "queue broken: a head past the table";
    default:
        return "no answer of the card";
    }
}

/* A queue's name; "none" for WEKSHURAG_NO_QUEUE. */
static inline const char *wekshurag_queue_text(uint8_t queue)
{
    switch (queue) {
    case WEKSHURAG_CONTROL_QUEUE:
        return "control";
    case WEKSHURAG_EVENT_QUEUE:
        return "event";
    case WEKSHURAG_PLAY_QUEUE:
        return "play";
    case WEKSHURAG_CAPTURE_QUEUE:
        return "capture";
    default:
        return "none";
    }
}

#ifdef __cplusplus
}
#endif

#endif
