/* The card as the bench against a C card wants it: one card, with output stream 0 and input stream 1, both S16, 48 kHz, 2 channels. */
#include "wekshurag.h"

#define DEV_NAME "wekshurag"

static struct wekshurag_card dev;

/* A card with so many outputs, and one input behind them. */
static int dev_power_up_with(size_t ram_len, uint32_t outputs)
{
    struct wekshurag_description d = {.output_count = outputs, .input_count = 1};
    for (unsigned i = 0; i < outputs + 1; i++)
        d.streams[i] = (struct wekshurag_stream){.formats = 1u << 5, .rates = 1u << 7, .channels_min = 2, .channels_max = 2};
    return wekshurag_power_up(&dev, &d, ram_len);
}

static inline int dev_power_up(size_t ram_len)
{
    return dev_power_up_with(ram_len, 1);
}

static inline int dev_read(uint32_t offset, uint32_t width, uint32_t *value)
{
    struct wekshurag_read_result r = wekshurag_read(&dev, offset, width);
    *value = r.value;
    return r.answer;
}

static inline int dev_write(uint32_t offset, uint32_t width, uint32_t value)
{
    return wekshurag_write(&dev, offset, width, value).answer;
}

static inline int dev_control(uint8_t *ram, size_t ram_len, size_t *count)
{
    struct wekshurag_result r = wekshurag_control(&dev, ram, ram_len);
    *count = r.count;
    return r.answer;
}

static inline int dev_play(uint8_t *ram, size_t ram_len, uint8_t *host, size_t n, size_t *count)
{
    struct wekshurag_result r = wekshurag_play(&dev, 0, ram, ram_len, host, n, 0);
    *count = r.count;
    return r.answer;
}

static inline int dev_capture(uint8_t *ram, size_t ram_len, uint8_t *host, size_t n, size_t *count)
{
    struct wekshurag_result r = wekshurag_capture(&dev, 1, ram, ram_len, host, n, 0);
    *count = r.count;
    return r.answer;
}
