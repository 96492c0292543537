/* any_bytes ROUNDS: fills the subframes of frames whose header, bytes and samples are drawn. Nothing outside of these may be
 * read, and each call has to return: sanitizers see that. With -DFUZZED it is a target of libFuzzer. */
#include "../decoder.h"

/* Fills the subframes of bytes and samples that are alone in their memory, or without samples where the block is large. Of the
 * header `numbers` draws what counts. */
static unsigned fill(const uint8_t *bytes, size_t length, uint32_t numbers) {
    static const uint32_t widths[8] = {0, 8, 12, 16, 20, 24, 32, 4};
    FLAC__Frame frame;
    uint8_t *alone = (uint8_t *)malloc(length > 0 ? length : 1);
    size_t i, count = numbers >> 16 <= RESIDUAL_MAX_SAMPLES ? (size_t)(numbers >> 16) * ((numbers & 7) + 1) : 0;
    int32_t *samples = (int32_t *)malloc(count > 0 ? count * sizeof *samples : 1);
    unsigned channel, sum = 0;
    if (!alone || !samples) {
        free(alone);
        free(samples);
        return 0;
    }
    if (length > 0) {
        memcpy(alone, bytes, length);
    }
    for (i = 0; i < count; i++) { /* mostly of 16 bits */
        uint32_t drawn = ((uint32_t)i ^ numbers) * 2654435761u;
        samples[i] = (int32_t)(drawn ^ (uint32_t)length << 20) >> (numbers >> 8 & 31);
    }
    memset(&frame, 0, sizeof frame);
    frame.header.blocksize = numbers >> 16;
    frame.header.channels = (numbers & 7) + 1;
    frame.header.channel_assignment = frame.header.channels == 2 ? (FLAC__ChannelAssignment)(numbers >> 3 & 3) : 0;
    frame.header.bits_per_sample = widths[numbers >> 5 & 7];
    fill_subframes(&frame, alone, length, samples);
    for (channel = 0; channel < FLAC__MAX_CHANNELS; channel++) {
        sum += frame.subframes[channel].type + frame.subframes[channel].wasted_bits;
    }
    free(alone);
    free(samples);
    return sum;
}

#ifdef FUZZED

int LLVMFuzzerTestOneInput(const uint8_t *bytes, size_t length) {
    if (length >= 4) {
        fill(bytes + 4, length - 4, bytes[0] | (uint32_t)bytes[1] << 8 | (uint32_t)bytes[2] << 16 | (uint32_t)bytes[3] << 24);
    }
    return 0;
}

#else

static uint32_t drawn;

static uint32_t draw(void) {
    drawn = drawn * 1664525u + 1013904223u;
    return drawn >> 8;
}

/* Bytes with mostly zeros, mostly ones, or any, and of any length up to the size, mostly small. */
static size_t draw_bytes(uint8_t *bytes, size_t size) {
    size_t i, length = draw() % (draw() % 4 == 0 ? size : 40);
    uint32_t kind = draw() % 4, rare = 2 + draw() % 30;
    for (i = 0; i < length; i++) {
        bytes[i] = draw() % rare == 0 || kind > 1 ? (uint8_t)draw() : (uint8_t)(kind == 0 ? 0 : 0xff);
    }
    return length;
}

int main(int count, char **words) {
    static uint8_t bytes[20000];
    long round, rounds = count == 2 ? atol(words[1]) : 0;
    unsigned sum = 0;
    for (round = 0; round < rounds; round++) {
        size_t length = draw_bytes(bytes, sizeof bytes);
        sum += fill(bytes, length, draw() << 16 ^ draw());
    }
    printf("any_bytes: %ld frames of drawn bytes, kinds %08x\n", rounds, sum);
    return 0;
}

#endif
