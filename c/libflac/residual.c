/* residual.c: how many bits the Rice codes of a subframe take, by its samples, which the engine has decoded. To predict the
 * samples once more takes less time than to pass over one code after another, each of which waits for the one before. */
#include "decoder.h"

#ifdef __SSE2__
#include <emmintrin.h>
#define HAS_VECTORS 1
#else
#define HAS_VECTORS 0 /* then it doesn't */
#endif

/* How many samples are predicted at once. */
#define GROUP 8

/* Copies the samples of the subframe of a channel. Returns whether each has 16 bits at most. */
static int copy_samples(int16_t *to, const FLAC__FrameHeader *header, const int32_t *samples, uint32_t channel,
                        unsigned shift) {
    const int32_t *own = samples + (size_t)channel * header->blocksize, *right = samples + header->blocksize;
    uint32_t i, above = 0;
    switch (channel > 0 ? FLAC__CHANNEL_ASSIGNMENT_INDEPENDENT : header->channel_assignment) {
    case FLAC__CHANNEL_ASSIGNMENT_MID_SIDE:
        for (i = 0; i < header->blocksize; i++) {
            int32_t sample = (int32_t)((uint32_t)own[i] + (uint32_t)right[i]) >> 1 >> shift;
            above |= (uint32_t)sample + 0x8000;
            to[i] = (int16_t)sample;
        }
        break;
    case FLAC__CHANNEL_ASSIGNMENT_RIGHT_SIDE:
        for (i = 0; i < header->blocksize; i++) {
            int32_t sample = (int32_t)((uint32_t)own[i] - (uint32_t)right[i]) >> shift;
            above |= (uint32_t)sample + 0x8000;
            to[i] = (int16_t)sample;
        }
        break;
    default:
        for (i = 0; i < header->blocksize; i++) {
            int32_t sample = own[i] >> shift;
            above |= (uint32_t)sample + 0x8000;
            to[i] = (int16_t)sample;
        }
    }
    return above >> 16 == 0;
}

int residual_start(struct residual *residual, const FLAC__FrameHeader *header, const int32_t *samples, uint32_t channel,
                   unsigned wasted_bits) {
    if (!HAS_VECTORS || header->blocksize > RESIDUAL_MAX_SAMPLES || wasted_bits > 31) {
        return 0;
    }
    memset(residual->samples, 0, FLAC__MAX_LPC_ORDER * sizeof residual->samples[0]);
    return copy_samples(residual->samples + FLAC__MAX_LPC_ORDER, header, samples, channel, wasted_bits);
}

/* The magnitudes add up to less than 2^16, so that sums of products with samples of 16 bits have 32. */
int residual_fits(const struct residual *residual) {
    uint32_t i, sum = 0;
    for (i = 0; i < residual->order; i++) {
        sum += (uint32_t)abs(residual->coefficients[i]);
    }
    return sum < 0x10000;
}

/* What the code of a residual has beside the one after its zeros and the parameter's bits: its zeros. */
static uint32_t zeros_of(int32_t sample, int32_t sum, const struct residual *residual, unsigned parameter) {
    int32_t value = (int32_t)((uint32_t)sample - (uint32_t)(sum >> residual->shift));
    return ((uint32_t)value << 1 ^ (uint32_t)(value >> 31)) >> parameter;
}

/* The zeros of the codes of some samples, one sample at a time. */
static uint32_t count_zeros(const struct residual *residual, const int16_t *samples, uint32_t count, unsigned parameter) {
    uint32_t i, k, zeros = 0;
    for (i = 0; i < count; i++) {
        int32_t sum = 0;
        for (k = 0; k < residual->order; k++) {
            sum += residual->coefficients[k] * samples[(ptrdiff_t)i - 1 - (ptrdiff_t)k];
        }
        zeros += zeros_of(samples[i], sum, residual, parameter);
    }
    return zeros;
}

#ifdef __SSE2__

/* The zeros of four codes, by samples and sums of products. */
static inline __m128i zeros_of_four(__m128i samples, __m128i sums, __m128i shift, __m128i parameter) {
    __m128i values = _mm_sub_epi32(samples, _mm_sra_epi32(sums, shift));
    __m128i folded = _mm_xor_si128(_mm_add_epi32(values, values), _mm_srai_epi32(values, 31));
    return _mm_srl_epi32(folded, parameter);
}

/* The coefficients of a step, four times. */
static inline __m128i pair_of(const struct residual *residual, unsigned step) {
    const int32_t *pair = residual->coefficients + 2 * step;
    return _mm_set1_epi32((int32_t)((uint32_t)pair[0] << 16 | ((uint32_t)pair[1] & 0xffff)));
}

/* The zeros of the codes of groups of samples. Each step adds the products of two coefficients with the samples before. */
static inline uint32_t count_in_groups(const struct residual *residual, const int16_t *samples, uint32_t groups,
                                       unsigned parameter, unsigned steps) {
    const __m128i shift = _mm_cvtsi32_si128((int)residual->shift), width = _mm_cvtsi32_si128((int)parameter);
    __m128i zeros = _mm_setzero_si128();
    uint32_t four[4], i;
    unsigned k;
    for (i = 0; i < groups; i++, samples += GROUP) {
        __m128i low = _mm_setzero_si128(), high = low, own = _mm_loadu_si128((const __m128i *)samples);
        for (k = 0; k < steps; k++) {
            __m128i farther = _mm_loadu_si128((const __m128i *)(samples - 2 - 2 * (ptrdiff_t)k));
            __m128i nearer = _mm_loadu_si128((const __m128i *)(samples - 1 - 2 * (ptrdiff_t)k));
            __m128i pair = pair_of(residual, k);
            low = _mm_add_epi32(low, _mm_madd_epi16(_mm_unpacklo_epi16(farther, nearer), pair));
            high = _mm_add_epi32(high, _mm_madd_epi16(_mm_unpackhi_epi16(farther, nearer), pair));
        }
        zeros = _mm_add_epi32(zeros, zeros_of_four(_mm_srai_epi32(_mm_unpacklo_epi16(own, own), 16), low, shift, width));
        zeros = _mm_add_epi32(zeros, zeros_of_four(_mm_srai_epi32(_mm_unpackhi_epi16(own, own), 16), high, shift, width));
    }
    _mm_storeu_si128((__m128i *)four, zeros);
    return four[0] + four[1] + four[2] + four[3];
}

/* The same, with code of their own for the numbers of steps that most encoders write. */
static uint32_t count_groups(const struct residual *residual, const int16_t *samples, uint32_t groups, unsigned parameter) {
    unsigned steps = (residual->order + 1) / 2;
    switch (steps) {
    case 0: return count_in_groups(residual, samples, groups, parameter, 0);
    case 1: return count_in_groups(residual, samples, groups, parameter, 1);
    case 2: return count_in_groups(residual, samples, groups, parameter, 2);
    case 3: return count_in_groups(residual, samples, groups, parameter, 3);
    case 4: return count_in_groups(residual, samples, groups, parameter, 4);
    case 5: return count_in_groups(residual, samples, groups, parameter, 5);
    case 6: return count_in_groups(residual, samples, groups, parameter, 6);
    default: return count_in_groups(residual, samples, groups, parameter, steps);
    }
}

#else

static uint32_t count_groups(const struct residual *residual, const int16_t *samples, uint32_t groups, unsigned parameter) {
    return count_zeros(residual, samples, groups * GROUP, parameter);
}

#endif

uint64_t residual_length(const struct residual *residual, uint32_t from, uint32_t count, unsigned parameter) {
    const int16_t *samples = residual->samples + FLAC__MAX_LPC_ORDER + from;
    uint32_t groups = count / GROUP, zeros = count_groups(residual, samples, groups, parameter);
    zeros += count_zeros(residual, samples + groups * GROUP, count % GROUP, parameter);
    return zeros + (uint64_t)count * (parameter + 1);
}
