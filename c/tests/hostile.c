/* hostile MEGABYTES SECONDS: reads streams of so many megabytes that are made to cost time or memory, by claxon_stream.h, and
 * goes on after each fault up to the end. It prints the processor time of each, and fails where one takes more than so many
 * seconds, or one kind more than twice as many, or where the frame at the end, after 8 megabytes of zeros, isn't found. So it
 * is of searches in memory, of a frame and of a sample, whose budget is a sample for each byte: they have to find that frame,
 * or to stop. */
#include <stdio.h>
#include <stdlib.h>
#include <string.h>
#include <time.h>

#include "claxon_stream.h"
#include "known.h"

#define MEGABYTE 1000000

struct bytes {
    uint8_t *start;
    size_t length;
    size_t at;
    size_t piece;
};

static size_t read_bytes(void *from, uint8_t *bytes, size_t length) {
    struct bytes *source = from;
    size_t count = source->length - source->at;
    count = count < length ? count : length;
    count = count < source->piece ? count : source->piece;
    if (count > 0) {
        memcpy(bytes, source->start + source->at, count);
    }
    source->at += count;
    return count;
}

/* A head without comments: 16 bits, and one channel until put_head says another number. */
static const uint8_t head[42] = {'f',  'L', 'a', 'C', 0x80, 0, 0, 34,   0,    16,   0xff,
                                 0xff, 0,   0,   0,   0,    0, 0, 0x0a, 0xc4, 0x40, 0xf0};

static void put_head(uint8_t *bytes, unsigned channels, int is_last) {
    memcpy(bytes, head, sizeof head);
    bytes[4] = is_last ? 0x80 : 0;
    bytes[20] = (uint8_t)(0x40 | (channels - 1) << 1);
}

/* The header of a frame of 16 bits with so many channels and samples of each. Returns its length. */
static size_t put_frame_header(uint8_t *bytes, unsigned channels, unsigned duration) {
    const uint8_t header[7] = {
        0xff, 0xf8, 0x79, (uint8_t)((channels - 1) << 4 | 0x08), 0x00, (uint8_t)((duration - 1) >> 8), (uint8_t)(duration - 1)};
    memcpy(bytes, header, 7);
    bytes[7] = crc8(header, 7);
    return 8;
}

/* Appends the CRC of so many bytes, so that it is 0 after it, and stays 0 over zeros. Returns the length with it. */
static size_t put_crc(uint8_t *bytes, size_t length) {
    uint16_t crc = claxon_crc16(0, bytes, length);
    bytes[length] = (uint8_t)(crc >> 8);
    bytes[length + 1] = (uint8_t)crc;
    return length + 2;
}

/* The length of a small frame of eight channels. */
#define FRAME_OF_8 (8 + 3 * 8 + 2)

/* A frame of 16 samples, each 0x1234. Returns its length. */
static size_t put_small_frame(uint8_t *bytes, unsigned channels) {
    static const uint8_t constant[3] = {0x00, 0x12, 0x34};
    size_t at = put_frame_header(bytes, channels, 16);
    for (; channels > 0; channels--) {
        memcpy(bytes + at, constant, sizeof constant);
        at += sizeof constant;
    }
    return put_crc(bytes, at);
}

/* Fills the bytes with copies of a pattern. */
static void fill(uint8_t *bytes, size_t length, const uint8_t *pattern, size_t pattern_length) {
    for (size_t i = 0; i < length; i++) {
        bytes[i] = pattern[i % pattern_length];
    }
}

/* A frame's header, and zeros, which are one long Rice code. */
static void endless_frame(uint8_t *bytes, size_t length) {
    memset(bytes, 0, length);
    bytes[put_frame_header(bytes, 1, 65535)] = 0x10;
}

/* Many headers before such zeros, so that each is tried over all of them. */
static void endless_frames(uint8_t *bytes, size_t length) {
    uint8_t pattern[10] = {0};
    pattern[put_frame_header(pattern, 1, 65535)] = 0x10;
    memset(bytes, 0, length);
    fill(bytes, length / 4, pattern, sizeof pattern);
}

static void garbage(uint8_t *bytes, size_t length) {
    uint64_t state = 1;
    for (size_t i = 0; i < length; i++) {
        state = state * UINT64_C(6364136223846793005) + UINT64_C(1442695040888963407);
        bytes[i] = (uint8_t)(state >> 56);
    }
}

static void all_ff(uint8_t *bytes, size_t length) {
    memset(bytes, 0xff, length);
}

static void sync_codes(uint8_t *bytes, size_t length) {
    static const uint8_t pattern[2] = {0xff, 0xf8};
    fill(bytes, length, pattern, 2);
}

/* Headers whose CRC is wrong. */
static void wrong_headers(uint8_t *bytes, size_t length) {
    uint8_t pattern[8];
    put_frame_header(pattern, 8, 65535);
    pattern[7] ^= 1;
    fill(bytes, length, pattern, sizeof pattern);
}

/* Headers of frames of 65535 samples, whose Rice codes are the headers after them. */
static void nested_frames(uint8_t *bytes, size_t length) {
    uint8_t pattern[11] = {0};
    size_t at = put_frame_header(pattern, 1, 65535);
    pattern[at] = 0x10;
    pattern[at + 1] = 0x02; /* Rice parameter 8 */
    fill(bytes, length, pattern, sizeof pattern);
}

/* Frames of 8 * 65535 equal samples in 34 bytes, whose CRC is wrong. */
static void constant_frames(uint8_t *bytes, size_t length) {
    uint8_t pattern[34] = {0};
    put_frame_header(pattern, 8, 65535);
    fill(bytes, length, pattern, sizeof pattern);
}

/* Frames that decode, and between them such that don't. */
static void good_and_bad_frames(uint8_t *bytes, size_t length) {
    uint8_t pattern[FRAME_OF_8 + 46] = {0};
    put_small_frame(pattern, 8);
    put_frame_header(pattern + FRAME_OF_8, 8, 65535);
    pattern[FRAME_OF_8 + 8 + 24] = 0xff;
    fill(bytes, length, pattern, sizeof pattern);
}

/* A frame's header, a sample that is the CRC before it, and zeros, which are one long Rice code: the CRC is 0 at each byte. */
static void endless_footers(uint8_t *bytes, size_t length) {
    size_t at = put_frame_header(bytes, 1, 65535);
    memset(bytes + at, 0, length - at);
    bytes[at] = 0x12;
    put_crc(bytes, at + 1);
}

/* Good frames of 65535 samples as they are. The first one makes the CRC 0, and it is 0 at each byte after it. */
static void footers_in_zeros(uint8_t *bytes, size_t length) {
    const size_t frame_length = 8 + 1 + 2 * 65535 + 2;
    memset(bytes, 0, length);
    for (; length >= frame_length; length -= frame_length, bytes += frame_length) {
        bytes[put_frame_header(bytes, 1, 65535)] = 0x02;
        put_crc(bytes, 9);
    }
}

static unsigned ones_of(unsigned byte) {
    unsigned count = 0;
    for (; byte > 0; byte >>= 1) {
        count += byte & 1;
    }
    return count;
}

/* A good frame of 65535 samples, in Rice codes of some bits, with a CRC of 0 at each fourth byte. Returns its length. */
static size_t put_frame_of_footers(uint8_t *bytes) {
    size_t at = put_frame_header(bytes, 1, 65535), last;
    unsigned samples = 65535, byte;
    bytes[at] = 0x12; /* a predictor of order 1, whose sample is the CRC; then ten bits of 0, and Rice codes of 0 */
    at = put_crc(bytes, at + 1);
    bytes[at] = 0x00;
    bytes[at + 1] = 0x3f;
    last = put_crc(bytes, at + 2);
    for (samples -= 1; at + 1 < last; at++) {
        samples -= ones_of(bytes[at + 1]);
    }
    for (at = last; samples >= 64; at = last) {
        bytes[at] = bytes[at + 1] = 0x11;
        last = put_crc(bytes, at + 2);
        for (; at < last; at++) {
            samples -= ones_of(bytes[at]);
        }
    }
    for (; samples > 0; samples -= ones_of(byte)) {
        byte = samples < 8 ? (1u << samples) - 1 : 0xff;
        bytes[at++] = (uint8_t)byte;
    }
    return put_crc(bytes, at);
}

/* Headers of frames whose codes are the headers after them, and then zeros: the last code of each runs through all of these. */
static void long_codes(uint8_t *bytes, size_t length) {
    const size_t each = 11;
    size_t count = 1;
    unsigned ones = 0;
    while (count < 1600 && 15 * count * count < length) {
        count++;
    }
    memset(bytes, 0, length);
    for (size_t at = each * count; at > 0;) {
        at -= each;
        bytes[at + put_frame_header(bytes + at, 1, ones + 1)] = 0x10; /* then ten bits of 0, and Rice codes of 0 */
        for (size_t i = 0; i < each; i++) {
            ones += ones_of(bytes[at + i]);
        }
    }
}

/* They have some 250 million samples in half of the bytes. */
static void frames_of_footers(uint8_t *bytes, size_t length) {
    const size_t most = 3 * 65535;
    memset(bytes, 0, length);
    for (length /= 2; length >= most;) {
        size_t frame_length = put_frame_of_footers(bytes);
        bytes += frame_length;
        length -= frame_length;
    }
}

/* A good frame of eight channels of 65535 samples in a megabyte. Seven channels are constant. The last one is in Rice codes of
 * 0 bits, of which 120 are runs of 8 KB of zeros, in which the CRC is 0 at each byte. Returns its length. */
static size_t put_large_frame_of_footers(uint8_t *bytes) {
    size_t at = put_frame_header(bytes, 8, 65535) + 7 * 3;
    unsigned samples = 65535 - 1, code, byte;
    bytes[at] = 0x12; /* a predictor of order 1, whose sample is 0; then ten bits of 0, and Rice codes of 0 */
    bytes[at + 4] = 0x3f;
    samples -= ones_of(bytes[at + 4]);
    for (at += 5, code = 0; code < 120; code++) {
        size_t last = put_crc(bytes, at);
        samples -= ones_of(bytes[at]) + ones_of(bytes[at + 1]);
        at = last + 8000;
        bytes[at++] = 0x01;
        samples--;
    }
    for (; samples > 0; samples -= ones_of(byte)) {
        byte = samples < 8 ? (1u << samples) - 1 : 0xff;
        bytes[at++] = (uint8_t)byte;
    }
    return put_crc(bytes, at);
}

static void large_frames_of_footers(uint8_t *bytes, size_t length) {
    const size_t most = 1100000;
    memset(bytes, 0, length);
    while (length >= most) {
        size_t frame_length = put_large_frame_of_footers(bytes);
        bytes += frame_length;
        length -= frame_length;
    }
}

static void put_block_header(uint8_t *bytes, unsigned type, size_t length) {
    bytes[0] = (uint8_t)type;
    bytes[1] = (uint8_t)(length >> 16);
    bytes[2] = (uint8_t)(length >> 8);
    bytes[3] = (uint8_t)length;
}

/* A head of pictures: its last block ends before the frame at the end. */
static void pictures(uint8_t *bytes, size_t length) {
    const size_t most = 0xffffff;
    memset(bytes, 0, length);
    while (length > 0) {
        size_t content = length - 4 < most ? length - 4 : length - 8 < most ? most - 4 : most;
        put_block_header(bytes, CLAXON_PICTURE | (content + 4 == length ? 0x80 : 0), content);
        bytes += 4 + content;
        length -= 4 + content;
    }
}

/* Comments of 10 MiB with a tag in each five bytes, and pictures. */
static void many_tags(uint8_t *bytes, size_t length) {
    static const uint8_t tag[5] = {1, 0, 0, 0, '='};
    const size_t tags = (10 * 1024 * 1024 - 8) / 5;
    const size_t content = 8 + 5 * tags;
    if (length < content + 8) {
        return;
    }
    memset(bytes, 0, 12);
    put_block_header(bytes, CLAXON_VORBIS_COMMENT, content);
    for (int i = 0; i < 4; i++) {
        bytes[8 + i] = (uint8_t)(tags >> 8 * i);
    }
    fill(bytes + 12, 5 * tags, tag, 5);
    pictures(bytes + 4 + content, length - 4 - content);
}

/* Many blocks of application data. */
static void applications(uint8_t *bytes, size_t length) {
    uint8_t pattern[700] = {0};
    size_t whole = length / sizeof pattern * sizeof pattern - sizeof pattern;
    put_block_header(pattern, CLAXON_APPLICATION, sizeof pattern - 4);
    fill(bytes, whole, pattern, sizeof pattern);
    pictures(bytes + whole, length - whole);
}

/* Headers of frames of 65535 samples, every 16 bytes. Zeros are between them. */
static void many_headers(uint8_t *bytes, size_t length) {
    uint8_t pattern[16] = {0};
    put_frame_header(pattern, 1, 65535);
    fill(bytes, length, pattern, sizeof pattern);
}

/* So with eight channels, of equal samples. */
static void many_large_headers(uint8_t *bytes, size_t length) {
    uint8_t pattern[16] = {0};
    put_frame_header(pattern, 8, 65535);
    fill(bytes, length, pattern, sizeof pattern);
}

struct kind {
    const char *name;
    void (*fill)(uint8_t *bytes, size_t length);
    unsigned channels; /* of the stream; 0: these are metadata blocks */
    size_t piece;
    int is_fed; /* whether the pieces are handed in */
};

static const struct kind kinds[] = {
    {"zeros after a frame's header", endless_frame, 1, SIZE_MAX, 0},
    {"the same, in pieces of 100 bytes", endless_frame, 1, 100, 0},
    {"zeros after many headers", endless_frames, 1, SIZE_MAX, 0},
    {"garbage", garbage, 1, SIZE_MAX, 0},
    {"bytes ff", all_ff, 1, SIZE_MAX, 0},
    {"sync codes", sync_codes, 1, SIZE_MAX, 0},
    {"headers with a wrong CRC", wrong_headers, 1, SIZE_MAX, 0},
    {"frames within frames", nested_frames, 1, SIZE_MAX, 0},
    {"the same, in pieces of 100 bytes", nested_frames, 1, 100, 0},
    {"the same, handed in whole", nested_frames, 1, SIZE_MAX, 1},
    {"the same, handed in by 100 bytes", nested_frames, 1, 100, 1},
    {"a CRC of 0 at each byte of an endless frame", endless_footers, 1, SIZE_MAX, 0},
    {"the same, in pieces of 100 bytes", endless_footers, 1, 100, 0},
    {"the same, in pieces of 3 bytes", endless_footers, 1, 3, 0},
    {"the same, handed in by 3 bytes", endless_footers, 1, 3, 1},
    {"a CRC of 0 at each byte of good frames, in pieces of 100 bytes", footers_in_zeros, 1, 100, 0},
    {"the same, in pieces of 3 bytes", footers_in_zeros, 1, 3, 0},
    {"a CRC of 0 at each fourth byte of good frames, in pieces of 4 bytes", frames_of_footers, 1, 4, 0},
    {"a CRC of 0 at most bytes of good frames of a megabyte, in pieces of 100 bytes", large_frames_of_footers, 8, 100, 0},
    {"the same, in pieces of 3 bytes", large_frames_of_footers, 8, 3, 0},
    {"constant frames with a wrong CRC", constant_frames, 8, SIZE_MAX, 0},
    {"the same, of more channels than the stream", constant_frames, 1, SIZE_MAX, 0},
    {"good frames and bad ones", good_and_bad_frames, 8, SIZE_MAX, 0},
    {"the same, in pieces of 3 bytes", good_and_bad_frames, 8, 3, 0},
    {"pictures", pictures, 0, SIZE_MAX, 0},
    {"pictures, in pieces of 100 bytes", pictures, 0, 100, 0},
    {"pictures, handed in by 3 bytes", pictures, 0, 3, 1},
    {"tags and pictures", many_tags, 0, SIZE_MAX, 0},
    {"tags and pictures, handed in by 3 bytes", many_tags, 0, 3, 1},
    {"application data", applications, 0, SIZE_MAX, 0},
};

/* Reads each tag. Returns their number. */
static size_t read_tags(const struct claxon_stream *stream) {
    struct claxon_tag tag;
    size_t at = 0, tags = 0;
    char error[1];
    while (claxon_next_tag(stream->comments, stream->comments_length, &at, &tag, error, sizeof error) == CLAXON_OK) {
        tags++;
    }
    return tags;
}

/* Hands in the next piece, or the end. */
static void feed(struct claxon_stream *stream, struct bytes *source) {
    size_t count = source->length - source->at;
    count = count < source->piece ? count : source->piece;
    if (count == 0) {
        claxon_stream_feed_end(stream);
    } else if (claxon_stream_feed(stream, source->start + source->at, count) != CLAXON_OK) {
        exit(2);
    }
    source->at += count;
}

/* Reads the stream to its end. Returns whether its last frame was decoded. */
static int read_stream(struct bytes *source, int is_fed) {
    struct claxon_stream stream;
    uint64_t end = 0;
    int is_found;
    uint32_t status;
    if (is_fed) {
        claxon_stream_init_push(&stream);
    } else {
        claxon_stream_init(&stream, read_bytes, source);
    }
    while ((status = claxon_stream_open(&stream)) == CLAXON_NEED_MORE) {
        feed(&stream, source);
    }
    is_found = status == CLAXON_OK && read_tags(&stream) == stream.info.tags;
    while (status != CLAXON_NO_MORE && status != CLAXON_OUT_OF_MEMORY) {
        int is_lost = status != CLAXON_OK;
        while ((status = (is_lost ? claxon_stream_resync : claxon_stream_next_block)(&stream)) == CLAXON_NEED_MORE) {
            feed(&stream, source);
        }
        end = !is_lost && status == CLAXON_OK ? stream.position : end;
    }
    claxon_stream_free(&stream);
    return is_found && end == source->length;
}

/* Few bytes at a time, a stream may cost what real frames of a megabyte do in which the CRC is 0 by chance, and its runs of
 * zeros are decoded more slowly than those. */
static double most_of(const struct kind *kind, double most) {
    return kind->fill == large_frames_of_footers && kind->piece < 10 ? 2 * most : most;
}

/* Returns whether it was read in so many seconds. */
static int test_kind(const struct kind *kind, struct bytes *source, size_t length, double most) {
    unsigned channels = kind->channels ? kind->channels : 1;
    size_t before_last = sizeof head + length + 8 * MEGABYTE;
    memset(source->start, 0, before_last);
    put_head(source->start, channels, kind->channels > 0);
    kind->fill(source->start + sizeof head, length);
    source->length = before_last + put_small_frame(source->start + before_last, channels);
    source->at = 0;
    source->piece = kind->piece;
    clock_t start = clock();
    int is_found = read_stream(source, kind->is_fed);
    double seconds = (double)(clock() - start) / CLOCKS_PER_SEC;
    printf("hostile: %6.3f s, %s%s%s\n", seconds, kind->name, is_found ? "" : ": the last frame isn't found",
           seconds <= most ? "" : ": too slow");
    fflush(stdout);
    return is_found && seconds <= most;
}

/* Searches in memory. */
static const struct kind searched[] = {
    {"sync codes", sync_codes, 1, SIZE_MAX, 0},
    {"headers every 16 bytes", many_headers, 1, SIZE_MAX, 0},
    {"headers of eight channels every 16 bytes", many_large_headers, 1, SIZE_MAX, 0},
    {"zeros after many headers", endless_frames, 1, SIZE_MAX, 0},
    {"headers with a wrong CRC", wrong_headers, 1, SIZE_MAX, 0},
    {"frames within frames", nested_frames, 1, SIZE_MAX, 0},
    {"headers whose last code runs through all zeros", long_codes, 1, SIZE_MAX, 0},
    {"constant frames with a wrong CRC", constant_frames, 1, SIZE_MAX, 0},
    {"bytes ff", all_ff, 1, SIZE_MAX, 0},
    {"garbage", garbage, 1, SIZE_MAX, 0},
};

/* Prints the time, and returns whether it is within the limit and the search found the last frame or stopped. */
static int is_ended(const char *what, const char *name, clock_t start, uint32_t status, int is_last, double most) {
    double seconds = (double)(clock() - start) / CLOCKS_PER_SEC;
    int is_right = status == CLAXON_OVER_BUDGET || (status == CLAXON_OK && is_last);
    printf("hostile: %6.3f s, %s %s: %s%s\n", seconds, what, name, status == CLAXON_OK ? "found" : "stopped",
           !is_right        ? ": not the last frame"
           : seconds > most ? ": too slow"
                            : "");
    fflush(stdout);
    return is_right && seconds <= most;
}

static int64_t seek_bytes(void *from, int64_t offset, int whence) {
    struct bytes *source = from;
    source->at = (size_t)offset + (whence == SEEK_CUR ? source->at : whence == SEEK_END ? source->length : 0);
    return (int64_t)source->at;
}

/* A seek by claxon_stream.h, in a stream whose head was left. */
static int test_stream_seek(const char *name, struct bytes *source, size_t last, double most) {
    struct claxon_stream stream;
    clock_t start;
    uint32_t status;
    source->at = 0;
    source->piece = SIZE_MAX;
    claxon_stream_init(&stream, read_bytes, source);
    claxon_stream_set_seek(&stream, seek_bytes);
    claxon_stream_resync(&stream);
    start = clock();
    status = claxon_stream_seek(&stream, 7);
    int is_found = is_ended("seek in a stream of", name, start, status, stream.position == last, most);
    claxon_stream_free(&stream);
    return is_found;
}

/* The last frame is the only one, of samples 0 to 15. Returns whether both searches end in so many seconds. */
static int test_search(const struct kind *kind, struct bytes *source, double most) {
    const struct claxon_info info = {.first_frame = sizeof head, .channels = 1, .bits_per_sample = 16};
    size_t at = 0, last;
    uint64_t budget = source->length;
    struct claxon_block block;
    memset(source->start, 0, source->length);
    last = source->length - put_small_frame(source->start, 1);
    put_small_frame(source->start + last, 1);
    kind->fill(source->start, last);
    clock_t start = clock();
    uint32_t status = claxon_find_frame(source->start, source->length, &at, &info, &budget, &block);
    int is_found = is_ended("find in", kind->name, start, status, at == last, most);
    start = clock();
    status = claxon_seek(source->start, source->length, &info, 7, source->length, &at, &block);
    is_found &= is_ended("seek in", kind->name, start, status, at == last, most);
    return test_stream_seek(kind->name, source, last, most) && is_found;
}

/* Headers whose last code runs through all zeros, in shorter streams: the time is linear, but for what any search takes.
 * Returns whether they end in their parts of so many seconds. */
static int test_shorter(struct bytes *source, double most) {
    static const struct kind kind = {"fewer headers whose last code runs through all zeros", long_codes, 1, SIZE_MAX, 0};
    const size_t whole = source->length;
    int is_found = 1;
    for (size_t length = MEGABYTE; length <= 10 * MEGABYTE; length *= 10) {
        source->length = length;
        is_found &= test_search(&kind, source, most * (0.05 + (double)length / (double)whole));
    }
    source->length = whole;
    return is_found;
}

int main(int argc, char **argv) {
    size_t length = argc == 3 ? strtoul(argv[1], NULL, 10) * MEGABYTE : 0;
    struct bytes source = {NULL, 0, 0, 0};
    int failures = 0;
    if (length < 20 * MEGABYTE || !(source.start = malloc(sizeof head + length + 8 * MEGABYTE + FRAME_OF_8))) {
        fprintf(stderr, "usage: hostile MEGABYTES SECONDS, with 20 megabytes or more\n");
        return 2;
    }
    for (size_t i = 0; i < sizeof kinds / sizeof *kinds; i++) {
        failures += !test_kind(&kinds[i], &source, length, most_of(&kinds[i], strtod(argv[2], NULL)));
    }
    for (size_t i = 0; i < sizeof searched / sizeof *searched; i++) {
        failures += !test_search(&searched[i], &source, strtod(argv[2], NULL));
    }
    failures += !test_shorter(&source, strtod(argv[2], NULL));
    printf("hostile: %zu streams of %s megabytes, %d failures\n", sizeof kinds / sizeof *kinds, argv[1], failures);
    free(source.start);
    return failures != 0;
}
