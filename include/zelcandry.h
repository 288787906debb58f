/* Zelcandry: the wideband speech codec ITU-T G.722, for C and C++.
 *
 *     uint8_t coder[ZELCANDRY_CODER_BYTES] = ZELCANDRY_CODER_RESET;
 *     uint64_t answer = zelcandry_code(coder, sizeof coder, samples, 640, octets, 160);
 *     if (zelcandry_number(answer) != ZELCANDRY_DONE)
 *         the call was refused, and nothing has changed
 *
 * Samples    are at 16 kHz, of one channel, two bytes each, high byte first, two's complement, from -16384 to 16383:
 *            half the scale of a 16-bit file. What is outside is refused and not clipped.
 * Octets     are what goes over the line, 8000 a second: one for each pair of samples, so n octets are 4 * n bytes of
 *            samples. A call takes n from 0 to ZELCANDRY_MOST_OCTETS. Wherever a stream is cut into calls, it comes
 *            out the same.
 * Signals    are what stands between octets and samples where decoding is made in its two steps: a low one, of what is
 *            below 4 kHz, and a high one, of what is above, a pair of them for each octet. They have the bytes and the
 *            bounds of samples.
 * State      is what an end of the line remembers: ZELCANDRY_CODER_BYTES or ZELCANDRY_DECODER_BYTES bytes that the
 *            caller keeps, one run of them for each stream. A call reads it and leaves the next one in its place. It
 *            may be copied, stored and sent like any bytes; docs/C.md of the project has its layout.
 * Mode       1 is speech alone, 64 kbit/s. In mode 2 the last bit of each octet is data, 8 kbit/s, and in mode 3 the
 *            last two are, 16 kbit/s. The decoder is told the mode, and 0 where it is not known, which is mode 1. The
 *            coder has no mode: it always fills all eight bits, and zelcandry_put replaces the last ones.
 *
 * Overload   What comes out of a filter or a band beyond the range is limited to it, and heard as distortion. The answer
 *            counts how often a call did so: the light to show beside the level. A value that reaches an end of the
 *            range by itself is not counted. Each call counts from 0.
 *
 * Every call looks at all that it is given, and ends. A refused call changes no byte of what it was lent. Where several
 * refusals apply, the one named first below is given.
 *
 * Memory     A pointer and the length after it are one run of bytes. It must be there, and THE RUNS OF ONE CALL MUST NOT
 *            OVERLAP: these are the two things that no call can check. Where a length is 0 the pointer is not followed
 *            and may be null. No alignment is asked.
 * Threads    Nothing is kept between calls and nothing is allocated, so threads may call at the same time, each on
 *            memory of its own.
 * Stack      At most 40 kB a call, and 72 kB in zelcandry_join.
 * Machine    x86-64, any of them. The archive needs nothing else but memset, which every C library has.
 */
#ifndef ZELCANDRY_H
#define ZELCANDRY_H

#include <stddef.h>
#include <stdint.h>

#ifdef __cplusplus
extern "C" {
#endif

/* The lengths of the states and what they are at reset. This text is printed by the program reset_bytes. */
#define ZELCANDRY_CODER_BYTES 125
#define ZELCANDRY_CODER_RESET { \
    1, 0, 0, 0, 0, 0, 0, 0, 0, 0, 0, 0, 0, 0, 0, 0, 0, 0, 0, 0, 0, 0, 0, 0, 0, \
    0, 0, 0, 0, 0, 0, 0, 0, 0, 0, 0, 0, 0, 0, 0, 32, 0, 0, 0, 0, 0, 0, 0, 0, 0, \
    0, 0, 0, 0, 0, 0, 0, 0, 0, 0, 0, 0, 0, 0, 0, 0, 0, 0, 0, 0, 0, 0, 0, 0, 0, \
    0, 0, 0, 0, 0, 8, 0, 0, 0, 0, 0, 0, 0, 0, 0, 0, 0, 0, 0, 0, 0, 0, 0, 0, 0, \
    0, 0, 0, 0, 0, 0, 0, 0, 0, 0, 0, 0, 0, 0, 0, 0, 0, 0, 0, 0, 0, 0, 0, 0, 0 }
#define ZELCANDRY_DECODER_BYTES 125
#define ZELCANDRY_DECODER_RESET { \
    2, 0, 0, 0, 0, 0, 0, 0, 0, 0, 0, 0, 0, 0, 0, 0, 0, 0, 0, 0, 0, 0, 0, 0, 0, \
    0, 0, 0, 0, 0, 0, 0, 0, 0, 0, 0, 0, 0, 0, 0, 32, 0, 0, 0, 0, 0, 0, 0, 0, 0, \
    0, 0, 0, 0, 0, 0, 0, 0, 0, 0, 0, 0, 0, 0, 0, 0, 0, 0, 0, 0, 0, 0, 0, 0, 0, \
    0, 0, 0, 0, 0, 8, 0, 0, 0, 0, 0, 0, 0, 0, 0, 0, 0, 0, 0, 0, 0, 0, 0, 0, 0, \
    0, 0, 0, 0, 0, 0, 0, 0, 0, 0, 0, 0, 0, 0, 0, 0, 0, 0, 0, 0, 0, 0, 0, 0, 0 }

/* The most octets of one call: a second. */
#define ZELCANDRY_MOST_OCTETS 8000

/* The number that a call answers with. */
enum zelcandry_refusal {
    ZELCANDRY_DONE = 0,       /* not refused */
    ZELCANDRY_BAD_MODE = 1,   /* the mode is above 3 */
    ZELCANDRY_BAD_STATE = 2,  /* the state has another length, is of the other end, or breaks its bounds */
    ZELCANDRY_BAD_LENGTH = 3, /* more than 8000 octets or pairs; lengths that do not fit together */
    ZELCANDRY_BAD_SAMPLE = 4, /* a sample, or a signal, is outside -16384..16383; the index says which, from 0 up */
    ZELCANDRY_NO_DATA = 5     /* mode 0 or 1, which has no room for data */
};

/* The parts of an answer: the number; the index, which is 0 unless the number is ZELCANDRY_BAD_SAMPLE; and the count of
 * values that this call limited, which is 0 unless it is done. */
static inline unsigned zelcandry_number(uint64_t answer)
{
    return (unsigned)(answer & 0xFF);
}

static inline size_t zelcandry_index(uint64_t answer)
{
    return (size_t)(answer >> 8 & 0xFFFFFF);
}

static inline size_t zelcandry_limited(uint64_t answer)
{
    return (size_t)(answer >> 32);
}

/* Codes samples_len = 4 * octets_len bytes of samples to octets, and moves the coder's state on. Counted are the signals
 * that the transmit filter makes of them, of both bands together.
 * Refused, in this order: BAD_LENGTH, BAD_STATE, BAD_SAMPLE. */
uint64_t zelcandry_code(uint8_t *state, size_t state_len,
                        const uint8_t *samples, size_t samples_len,
                        uint8_t *octets, size_t octets_len);

/* Decodes octets to samples_len = 4 * octets_len bytes of samples, and moves the decoder's state on. Counted are samples,
 * and no signals.
 * Refused, in this order: BAD_MODE, BAD_LENGTH, BAD_STATE. */
uint64_t zelcandry_decode(uint8_t *state, size_t state_len, uint8_t mode,
                          const uint8_t *octets, size_t octets_len,
                          uint8_t *samples, size_t samples_len);

/* Decoding in its two steps, for a program that does something to the signals between them. zelcandry_hear moves both
 * bands of the decoder's state on and leaves its past pairs; zelcandry_join moves the past pairs and leaves the bands.
 * Hearing octets and then joining their signals leaves the samples and the state that zelcandry_decode leaves.
 *
 * The first step: octets to low_len = high_len = 2 * octets_len bytes of low and high signals. Counted are signals, of
 * both bands together.
 * Refused, in this order: BAD_MODE, BAD_LENGTH, BAD_STATE. */
uint64_t zelcandry_hear(uint8_t *state, size_t state_len, uint8_t mode,
                        const uint8_t *octets, size_t octets_len,
                        uint8_t *low, size_t low_len, uint8_t *high, size_t high_len);

/* The second step: low_len = high_len bytes of signals to samples_len = 2 * low_len bytes of samples. Counted are samples.
 * Refused, in this order: BAD_LENGTH, BAD_STATE, BAD_SAMPLE, of which the index counts pairs of signals. */
uint64_t zelcandry_join(uint8_t *state, size_t state_len,
                        const uint8_t *low, size_t low_len, const uint8_t *high, size_t high_len,
                        uint8_t *samples, size_t samples_len);

/* Puts data into the last bits of octets, the highest bit of each byte first, and changes no other bit. The data has to
 * fill the octets: one byte for 8 octets in mode 2, for 4 in mode 3. Nothing is limited or counted.
 * Refused, in this order: BAD_MODE, NO_DATA, BAD_LENGTH. */
uint64_t zelcandry_put(uint8_t mode, uint8_t *octets, size_t octets_len, const uint8_t *data, size_t data_len);

/* Takes data out of the last bits of octets: what zelcandry_put put in by the same mode. Refused as zelcandry_put is. */
uint64_t zelcandry_take(uint8_t mode, const uint8_t *octets, size_t octets_len, uint8_t *data, size_t data_len);

#ifdef __cplusplus
}
#endif

#endif
