/*
 * Samples converted to S16, for the mixer (order 7).
 *
 * Link with libsamples.a (`tools/build samples`; x86-64 Linux). The function keeps no state and touches nothing but the two
 * buffers, so any thread may call it at any time, with buffers that no other thread uses during the call.
 */
#ifndef WEKSHURAG_CONVERT_H
#define WEKSHURAG_CONVERT_H

#include <stddef.h>
#include <stdint.h>

#ifdef __cplusplus
extern "C" {
#endif

/* The formats that are taken: the VIRTIO_SND_PCM_FMT_ numbers. */
#define WEKSHURAG_FMT_MU_LAW UINT32_C(1)
#define WEKSHURAG_FMT_S8 UINT32_C(3)
#define WEKSHURAG_FMT_U8 UINT32_C(4)
#define WEKSHURAG_FMT_S16 UINT32_C(5)
#define WEKSHURAG_FMT_U16 UINT32_C(6)
#define WEKSHURAG_FMT_S24_3 UINT32_C(11)
#define WEKSHURAG_FMT_S32 UINT32_C(17)

/* The answers. */
#define WEKSHURAG_CONVERT_DONE UINT32_C(0)
#define WEKSHURAG_CONVERT_FORMAT UINT32_C(30) /* the format is not one of those above */
#define WEKSHURAG_CONVERT_CUT UINT32_C(31)    /* from_len is not a multiple of the sample's bytes */
#define WEKSHURAG_CONVERT_ROOM UINT32_C(32)   /* to_len is less than 2 bytes for each sample */

/*
 * Converts the from_len bytes at `from`, samples of `format`, into S16 samples at the start of the to_len bytes at `to`. Samples
 * have their lowest byte first, in both buffers.
 *
 *   S8        times 256
 *   U8        less 128, times 256
 *   S16       as it is
 *   U16       less 32,768
 *   S24_3     divided by 256, rounded down (toward minus infinity)
 *   S32       divided by 65,536, rounded down
 *   MU_LAW    ITU-T G.711, scaled to 16 bits (0x80 is 32,124, 0x00 is -32,124)
 *
 * Answers WEKSHURAG_CONVERT_DONE, and then sample i of `to` is the conversion of sample i of `from` and the bytes of `to` past
 * 2 bytes for each sample are as they were; or the first refusal that applies, in the order above, and then `to` is as it was.
 * No samples (from_len 0) is done, with to_len 0 too.
 *
 * Both pointers must be valid for their lengths and not null; for a length of 0 any such pointer will do. The two buffers must
 * not overlap. No length may be above PTRDIFF_MAX. Nothing else is asked: any format number and any bytes are safe.
 */
uint32_t wekshurag_to_s16(uint32_t format, const uint8_t *from, size_t from_len, uint8_t *to, size_t to_len);

#ifdef __cplusplus
}
#endif

#endif
