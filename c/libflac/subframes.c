/* subframes.c: the kinds of the subframes of a frame (RFC 9639, section 9.2), and nothing of their contents. The engine has
 * decoded the frame, and doesn't tell where a subframe begins. So the bits of those before it are passed over. */
#include "decoder.h"

/* Bits of bytes, in order, from `at` on. Beyond the end they are zeros. */
struct bits {
    const uint8_t *bytes;
    uint64_t at, end; /* counted in bits */
};

/* How many bits of eight bytes are there, from any bit of the first one on. It is a number of whole bytes. */
#define KNOWN 56

/* Eight bytes as a number. The compiler makes one load of it. */
static inline uint64_t word_at(const uint8_t *bytes) {
    return (uint64_t)bytes[0] << 56 | (uint64_t)bytes[1] << 48 | (uint64_t)bytes[2] << 40 | (uint64_t)bytes[3] << 32 |
           (uint64_t)bytes[4] << 24 | (uint64_t)bytes[5] << 16 | (uint64_t)bytes[6] << 8 | (uint64_t)bytes[7];
}

/* At least the next KNOWN bits, from the highest bit of a word on. */
static uint64_t peek(const struct bits *bits) {
    uint64_t byte = bits->at / 8, end = bits->end / 8, word = 0;
    unsigned i;
    if (byte + 8 <= end) {
        return word_at(bits->bytes + byte) << bits->at % 8;
    }
    for (i = 0; i < 8 && byte + i < end; i++) {
        word |= (uint64_t)bits->bytes[byte + i] << (KNOWN - 8 * i);
    }
    return word << bits->at % 8;
}

/* The next bits, at least one, as a number. */
static unsigned take(struct bits *bits, unsigned count) {
    uint64_t word = peek(bits);
    bits->at += count;
    return (unsigned)(word >> (64 - count));
}

/* Passes over zeros and the one after them, and returns how many bits these are. */
static unsigned pass_zeros(struct bits *bits) {
    uint64_t from = bits->at, word = peek(bits);
    while (word == 0 && bits->at < bits->end) {
        bits->at += KNOWN;
        word = peek(bits);
    }
    bits->at += word == 0 ? 0 : (unsigned)__builtin_clzll(word) + 1;
    return (unsigned)(bits->at - from);
}

/* The length of some Rice codes from the highest bit of a word on, which is moved after them. Each has `fixed` bits beside its
 * zeros. It is above KNOWN where a one isn't in the word. The place of a one is counted from the lowest bit, as x86-64 does. */
static inline unsigned length_of(uint64_t *word, unsigned codes, unsigned fixed) {
    unsigned i, length = 0;
    for (i = 0; i < codes; i++) {
        unsigned code;
        if (*word == 0) {
            return KNOWN + 1;
        }
        code = 63 + fixed - (63 ^ (unsigned)__builtin_clzll(*word));
        *word <<= code & 63; /* above that it is too long anyway */
        length += code;
    }
    return length;
}

/* Passes over Rice codes in groups, up to the first group that is longer than KNOWN bits, or near the end. Returns how many
 * codes are left. The next bytes are read without waiting for the length of a group, on which only the shift depends. */
static inline uint32_t pass_groups(struct bits *bits, uint32_t count, unsigned codes, unsigned fixed) {
    const uint8_t *next = bits->bytes + bits->at / 8, *end = bits->bytes + bits->end / 8;
    unsigned held = KNOWN - bits->at % 8;
    uint64_t word;
    if (end - next < 16) {
        return count;
    }
    word = word_at(next) << bits->at % 8;
    next += KNOWN / 8;
    while (count >= codes && end - next >= 8) {
        unsigned length;
        word |= word_at(next) >> held;
        next += (63 - held) / 8;
        held |= KNOWN;
        length = length_of(&word, codes, fixed);
        if (length > KNOWN) {
            break;
        }
        held -= length;
        count -= codes;
    }
    bits->at = 8 * (uint64_t)(next - bits->bytes) - held;
    return count;
}

/* Passes over Rice codes with this parameter. Groups are of as many codes as mostly fit into KNOWN bits. */
static void pass_codes(struct bits *bits, uint32_t count, unsigned parameter) {
    unsigned fixed = parameter + 1;
    while (count > 0 && bits->at < bits->end) {
        count = fixed <= 10   ? pass_groups(bits, count, 4, fixed)
                : fixed <= 15 ? pass_groups(bits, count, 3, fixed)
                              : pass_groups(bits, count, 2, fixed);
        if (count > 0) {
            pass_zeros(bits);
            bits->at += parameter;
            count--;
        }
    }
}

/* Passes over a residual (section 9.2.7), by samples where they are known. */
static void pass_residual(struct bits *bits, uint32_t block_size, uint32_t order, const struct residual *known) {
    unsigned width = take(bits, 2) == 0 ? 4 : 5, partition_order = take(bits, 4);
    uint32_t partition, size = block_size >> partition_order;
    for (partition = 0; partition >> partition_order == 0 && bits->at < bits->end; partition++) {
        unsigned parameter = take(bits, width);
        uint32_t from = partition > 0 ? partition * size : order, count = (partition + 1) * size;
        count = count > from ? count - from : 0;
        if (parameter == (1u << width) - 1) { /* the residuals have so many bits each */
            bits->at += (uint64_t)take(bits, 5) * count;
        } else if (known) {
            bits->at += residual_length(known, from, count, parameter);
        } else {
            pass_codes(bits, count, parameter);
        }
    }
}

/* Reads the predictor of a subframe, whose header and first samples were passed (sections 9.2.5 and 9.2.6). */
static void read_predictor(struct bits *bits, unsigned code, struct residual *residual) {
    static const int32_t fixed[5][4] = {{0}, {1}, {2, -1}, {3, -3, 1}, {4, -6, 4, -1}};
    uint32_t i, order = residual->order;
    memset(residual->coefficients, 0, sizeof residual->coefficients);
    residual->shift = 0;
    if (code >= 32) {
        unsigned precision = take(bits, 4) + 1;
        residual->shift = take(bits, 5);
        for (i = 0; i < order; i++) {
            int32_t coefficient = (int32_t)take(bits, precision);
            residual->coefficients[i] = coefficient - (coefficient >> (precision - 1) << precision);
        }
    } else if (order <= 4) {
        memcpy(residual->coefficients, fixed[order], sizeof fixed[order]);
    }
}

/* Reads the header of a subframe (sections 9.2.1 and 9.2.2). Returns the code of its type. */
static unsigned read_header(struct bits *bits, FLAC__Subframe *subframe) {
    unsigned header = take(bits, 8), code = header >> 1 & 0x3f;
    subframe->type = code == 0   ? FLAC__SUBFRAME_TYPE_CONSTANT
                     : code == 1 ? FLAC__SUBFRAME_TYPE_VERBATIM
                     : code < 32 ? FLAC__SUBFRAME_TYPE_FIXED
                                 : FLAC__SUBFRAME_TYPE_LPC;
    subframe->wasted_bits = header & 1 ? pass_zeros(bits) : 0;
    return code;
}

/* Whether a channel is that of the differences, whose samples have one bit more. */
static int is_side(const FLAC__FrameHeader *header, uint32_t channel) {
    return header->channel_assignment != FLAC__CHANNEL_ASSIGNMENT_INDEPENDENT &&
           channel == (header->channel_assignment == FLAC__CHANNEL_ASSIGNMENT_RIGHT_SIDE ? 0 : 1);
}

/* Passes over what follows the header of a channel's subframe (sections 9.2.3 to 9.2.6). */
static void pass_samples(struct bits *bits, unsigned code, const FLAC__Frame *frame, uint32_t channel, const int32_t *samples) {
    const FLAC__FrameHeader *header = &frame->header;
    uint32_t wasted_bits = frame->subframes[channel].wasted_bits, width = header->bits_per_sample + is_side(header, channel);
    struct residual residual;
    width = width > wasted_bits ? width - wasted_bits : 0;
    residual.order = code >= 32 ? code - 31 : code >= 8 ? code - 8 : 0;
    bits->at += (uint64_t)width * (code == 0 ? 1 : code == 1 ? header->blocksize : residual.order);
    if (code > 1) {
        int is_known;
        read_predictor(bits, code, &residual);
        is_known = residual_fits(&residual) && residual_start(&residual, header, samples, channel, wasted_bits);
        pass_residual(bits, header->blocksize, residual.order, is_known ? &residual : NULL);
    }
}

void fill_subframes(FLAC__Frame *frame, const uint8_t *bytes, size_t length, const int32_t *samples) {
    struct bits bits = {NULL, 0, 0};
    uint32_t channel;
    bits.bytes = bytes;
    bits.end = 8 * (uint64_t)length;
    for (channel = 0; channel < frame->header.channels; channel++) {
        unsigned code = read_header(&bits, &frame->subframes[channel]);
        if (channel + 1 < frame->header.channels) {
            pass_samples(&bits, code, frame, channel, samples);
        }
    }
}

void fill_contents(FLAC__Frame *frame, const int32_t *zeros) {
    static const uint32_t none[1] = {0};
    static const FLAC__EntropyCodingMethod_PartitionedRiceContents no_partitions = {(uint32_t *)none, (uint32_t *)none, 0};
    uint32_t channel;
    for (channel = 0; channel < frame->header.channels; channel++) {
        FLAC__Subframe *subframe = &frame->subframes[channel];
        switch (subframe->type) {
        case FLAC__SUBFRAME_TYPE_VERBATIM: subframe->data.verbatim.data.int32 = zeros; break;
        case FLAC__SUBFRAME_TYPE_FIXED:
            subframe->data.fixed.entropy_coding_method.data.partitioned_rice.contents = &no_partitions;
            subframe->data.fixed.residual = zeros;
            break;
        case FLAC__SUBFRAME_TYPE_LPC:
            subframe->data.lpc.entropy_coding_method.data.partitioned_rice.contents = &no_partitions;
            subframe->data.lpc.residual = zeros;
            break;
        default: break;
        }
    }
}
