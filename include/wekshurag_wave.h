/*
 * Sound as a WAVE file, written and read (order 3).
 *
 * Link with libwave.a (`tools/build wave`; x86-64 Linux). The functions keep no state and touch nothing but the buffers lent to them, so any
 * thread may call them at any time, with buffers that no other thread uses during the call.
 */
#ifndef WEKSHURAG_WAVE_H
#define WEKSHURAG_WAVE_H

#include <stddef.h>
#include <stdint.h>

#ifdef __cplusplus
extern "C" {
#endif

/* The formats that are taken: the VIRTIO_SND_PCM_FMT_ numbers. Rates are the VIRTIO_SND_PCM_RATE_ numbers, 0 (5,512) to 13 (384,000). */
#define WEKSHURAG_WAVE_FMT_U8 UINT32_C(4)
#define WEKSHURAG_WAVE_FMT_S16 UINT32_C(5)
#define WEKSHURAG_WAVE_FMT_S24_3 UINT32_C(11)
#define WEKSHURAG_WAVE_FMT_S32 UINT32_C(17)

/* The bytes before the data, and the most data. */
#define WEKSHURAG_WAVE_HEADER 44
#define WEKSHURAG_WAVE_MAX_DATA UINT64_C(4294967258)

/* The answers. */
#define WEKSHURAG_WAVE_DONE UINT32_C(0)
#define WEKSHURAG_WAVE_NOT_LISTED UINT32_C(20) /* format, channels (1 to 18) or rate not in the list */
#define WEKSHURAG_WAVE_TOO_LONG UINT32_C(21)   /* data_len above WEKSHURAG_WAVE_MAX_DATA */
#define WEKSHURAG_WAVE_ROOM UINT32_C(22)       /* out_len below 44 */
#define WEKSHURAG_WAVE_SHORT UINT32_C(23)      /* the file has under 44 bytes */
#define WEKSHURAG_WAVE_WORD UINT32_C(24)       /* a wrong word */
#define WEKSHURAG_WAVE_NUMBER UINT32_C(25)     /* a number that the writer would not have put there */
#define WEKSHURAG_WAVE_LENGTH UINT32_C(26)     /* the file is shorter or longer than its numbers ask */
#define WEKSHURAG_WAVE_PAD UINT32_C(27)        /* the pad byte is not zero */

/*
 * Writes the 44 bytes that stand before data_len bytes of data in a file to the start of the out_len bytes at `out`. The data follows them in
 * the file, and one zero byte where data_len is odd.
 *
 * Answers WEKSHURAG_WAVE_DONE, and then the bytes of `out` past the 44 are as they were; or the first refusal that applies, in the order
 * above, and then `out` is as it was.
 */
uint32_t wekshurag_wave_header(uint32_t format, uint32_t channels, uint32_t rate, uint64_t data_len, uint8_t *out, size_t out_len);

/*
 * Reads the file_len bytes at `file`. Exactly the files that can be written with the header above are taken.
 *
 * Answers WEKSHURAG_WAVE_DONE, and then found[0] is the format, found[1] the channels, found[2] the rate's number, found[3] where in the file
 * the data starts, found[4] how many bytes it has; or the first refusal that applies, and then `found` is as it was.
 */
uint32_t wekshurag_wave_read(const uint8_t *file, size_t file_len, uint64_t found[5]);

/*
 * Of both: the pointers must be valid for their lengths and not null; for a length of 0 any such pointer will do. Buffers of one call must not
 * overlap. No length may be above PTRDIFF_MAX. Nothing else is asked: any numbers and any bytes are safe.
 */

#ifdef __cplusplus
}
#endif

#endif
