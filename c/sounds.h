/*
 * What the example monitor's guest plays, and files of it: a chime of one second and a voice of 1.2 seconds, each in stereo, 16-bit
 * samples, 48,000 frames a second.
 */
#include "wekshurag_wave.h"

#include <linux/virtio_snd.h>
#include <stdint.h>
#include <stdio.h>

enum { RATE = 48000, FRAME = 4, CHIME_FRAMES = RATE, VOICE_FRAMES = RATE / 100 * 120 };

/* Two notes that fade away, the second half a second behind the first: each a resonator that is struck once. */
static void chime(int16_t sound[CHIME_FRAMES][2])
{
    double a = 0, a1 = 0, b = 0, b1 = 0, t;
    for (int i = 0; i < CHIME_FRAMES; i++) {
        t = 1.9924330396378815 * a - 0.9998750078121744 * a1 + (i == 0 ? 800 : 0);
        a1 = a, a = t;
        t = 1.9952190370876004 * b - 0.9999083375345938 * b1 + (i == CHIME_FRAMES / 2 ? 800 : 0);
        b1 = b, b = t;
        sound[i][0] = (int16_t)(a + b / 2);
        sound[i][1] = (int16_t)(a / 2 + b);
    }
}

/* Two vowels, as in "father" and in "law": 120 pulses a second, through a resonator for each of three formants. */
static void voice(int16_t sound[VOICE_FRAMES][2])
{
    static const double vowels[2][3][2] = {{{1.979183, 0.988288}, {1.965475, 0.985704}, {1.877841, 0.977993}},
                                           {{1.984020, 0.989583}, {1.974953, 0.986995}, {1.880265, 0.977993}}};
    double y[3][2] = {{0}};
    for (int i = 0; i < VOICE_FRAMES; i++) {
        double sum = 0;
        for (int k = 0; k < 3; k++) {
            const double *formant = vowels[i / (VOICE_FRAMES / 2)][k];
            double t = formant[0] * y[k][0] - formant[1] * y[k][1] + (i % (RATE / 120) == 0 ? 1000 : 0);
            y[k][1] = y[k][0], y[k][0] = t;
            sum += t / (k + 1);
        }
        sound[i][0] = sound[i][1] = (int16_t)sum;
    }
}

/* A file of these bytes, and a WAVE file of this sound; false where it can't be written. */
static int write_file(const char *path, const uint8_t *header, size_t header_len, const uint8_t *sound, size_t n)
{
    FILE *f = fopen(path, "wb");
    return f && fwrite(header, 1, header_len, f) == header_len && fwrite(sound, 1, n, f) == n && fclose(f) == 0;
}

static int write_wave(const char *path, const uint8_t *sound, size_t n)
{
    uint8_t header[WEKSHURAG_WAVE_HEADER];
    return wekshurag_wave_header(WEKSHURAG_WAVE_FMT_S16, 2, VIRTIO_SND_PCM_RATE_48000, n, header, sizeof header) == WEKSHURAG_WAVE_DONE
        && write_file(path, header, sizeof header, sound, n);
}
