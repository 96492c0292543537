/* seek FOLDER ROUNDS < LINES: tests claxon_find_frame, claxon_seek and claxon_seek_block.
 *
 * - The positions and times of frames are those that `flac --analyze` prints of files in FOLDER.
 * - Of each file that a line names, whole and damaged in ROUNDS ways, and of bytes that are made up, claxon_next_block is asked
 *   at each position whether a header and a frame begin there. A search has to say the same.
 * - Memory is refused.
 *
 * With 0 ROUNDS small files are read alone, for tools that make it slow. It is linked with --wrap for malloc and realloc. */
#include "faults.h"
#include "known.h"

#define UNTOUCHED 0x55

/* ---- what stands at each position */

struct place {
    int has_header; /* of a frame of the stream */
    int has_frame;
    int is_undecided; /* whether more bytes can make a frame */
    size_t wasted;    /* how many bytes are read for a frame that isn't there */
    struct claxon_block block;
};

struct stream {
    const char *name;
    const uint8_t *bytes;
    size_t length;
    struct claxon_info info;
    struct place *places;
};

static int is_known(const struct claxon_info *info) {
    return info->bits_per_sample >= 1 && info->bits_per_sample <= 32;
}

/* Whether a header says the number of channels and the bit depth of the stream. (RFC 9639, section 9.1.4.) */
static int has_format(const struct claxon_info *info, const uint8_t *header, const struct claxon_block *block) {
    static const uint32_t depths[8] = {0, 8, 12, 0, 16, 20, 24, 32};
    unsigned code = header[3] >> 1 & 7;
    return !is_known(info) || (block->channels == info->channels && (code == 0 || depths[code] == info->bits_per_sample));
}

/* How many bytes a fault takes of those from the position on: with fewer the input ends. */
static size_t length_of_fault(const struct stream *stream, size_t position) {
    static int32_t samples[CLAXON_MAX_SAMPLES];
    struct claxon_block block;
    char error[1];
    size_t fewer = 0, enough = stream->length - position;
    while (enough - fewer > 1) {
        size_t half = fewer + (enough - fewer) / 2, at = position;
        uint32_t status = claxon_next_block(stream->bytes, position + half, &at, &stream->info, samples, CLAXON_MAX_SAMPLES,
                                            &block, error, sizeof error);
        *(status == CLAXON_INPUT_ENDS || status == CLAXON_NO_MORE ? &fewer : &enough) = half;
    }
    return enough;
}

static struct place place_at(const struct stream *stream, size_t position) {
    static int32_t samples[CLAXON_MAX_SAMPLES];
    struct place place = {0, 0, 0, 0, {0, 0, 0, 0, 0}};
    struct claxon_block block;
    char error[1];
    size_t at = position;
    uint32_t status =
        claxon_next_block(stream->bytes, stream->length, &at, &stream->info, samples, 0, &place.block, error, sizeof error);
    int is_header = status == CLAXON_BUFFER_TOO_SMALL;
    place.has_header = is_header && has_format(&stream->info, stream->bytes + position, &place.block);
    if (is_header) {
        expect_format(stream->name, &place.block, stream->bytes + position);
        status = claxon_next_block(stream->bytes, stream->length, &at, &stream->info, samples, CLAXON_MAX_SAMPLES, &block,
                                   error, sizeof error);
    }
    place.has_frame = place.has_header && status == CLAXON_OK;
    place.is_undecided = (!is_header || place.has_header) && (status == CLAXON_INPUT_ENDS || status == CLAXON_NO_MORE);
    if (place.has_header && !place.has_frame) {
        place.wasted = place.is_undecided ? stream->length - position : length_of_fault(stream, position);
    }
    return place;
}

/* Reads what stands at each position. */
static void read_places(struct stream *stream) {
    stream->places = malloc((stream->length + 1) * sizeof *stream->places);
    for (size_t at = 0; at < stream->length; at++) {
        stream->places[at] = place_at(stream, at);
    }
}

static uint64_t samples_of(const struct claxon_block *block) {
    return (uint64_t)block->channels * block->duration;
}

static int has_sample(const struct claxon_block *block, uint64_t sample) {
    return block->time <= sample && sample - block->time < block->duration;
}

static int is_untouched(const struct claxon_block *block) {
    struct claxon_block untouched;
    memset(&untouched, UNTOUCHED, sizeof untouched);
    return memcmp(block, &untouched, sizeof untouched) == 0;
}

/* ---- the calls */

struct found {
    uint32_t status;
    size_t at;
    uint64_t left;
    struct claxon_block block;
};

static struct found find(const struct stream *stream, size_t from, uint64_t budget) {
    struct found found = {0, from, budget, {0, 0, 0, 0, 0}};
    memset(&found.block, UNTOUCHED, sizeof found.block);
    found.status = claxon_find_frame(stream->bytes, stream->length, &found.at, &stream->info, &found.left, &found.block);
    return found;
}

/* What claxon_seek_block gives with room for as many samples: this status, position and block, and these samples alone. */
static void expect_given(const struct stream *stream, uint64_t sample, size_t capacity, const struct found *expected,
                         const int32_t *given, size_t count) {
    static int32_t samples[CLAXON_MAX_SAMPLES + 1];
    struct claxon_block block;
    size_t at = UNTOUCHED;
    int32_t untouched;
    memset(&untouched, UNTOUCHED, sizeof untouched);
    memset(&block, UNTOUCHED, sizeof block);
    memset(samples, UNTOUCHED, (capacity + 1) * sizeof *samples);
    uint32_t status =
        claxon_seek_block(stream->bytes, stream->length, &stream->info, sample, expected->left, &at, samples, capacity, &block);
    expect(status == expected->status && at == expected->at, stream->name, "the status and the position of seek_block");
    expect(memcmp(&block, &expected->block, sizeof block) == 0, stream->name, "the block of seek_block");
    expect(count == 0 || memcmp(samples, given, count * sizeof *samples) == 0, stream->name, "the samples of seek_block");
    expect(samples[count] == untouched, stream->name, "the samples that seek_block leaves");
}

/* The same as of claxon_seek, and of claxon_next_block from there. */
static void test_seek_block(const struct stream *stream, uint64_t sample, struct found found) {
    static int32_t given[CLAXON_MAX_SAMPLES];
    struct claxon_block block;
    char error[1];
    if (found.status != CLAXON_OK) {
        expect_given(stream, sample, 0, &found, NULL, 0);
        return;
    }
    size_t count = (size_t)samples_of(&found.block);
    struct found larger = found;
    larger.status = CLAXON_BUFFER_TOO_SMALL;
    expect_given(stream, sample, count - 1, &larger, NULL, 0);
    uint32_t status = claxon_next_block(stream->bytes, stream->length, &found.at, &stream->info, given, CLAXON_MAX_SAMPLES,
                                        &block, error, sizeof error);
    expect(status == CLAXON_OK, stream->name, "the frame that is found");
    expect_given(stream, sample, count, &found, given, count);
}

static struct found seek(const struct stream *stream, uint64_t sample, uint64_t budget) {
    struct found found = {0, UNTOUCHED, budget, {0, 0, 0, 0, 0}};
    memset(&found.block, UNTOUCHED, sizeof found.block);
    found.status = claxon_seek(stream->bytes, stream->length, &stream->info, sample, budget, &found.at, &found.block);
    test_seek_block(stream, sample, found);
    return found;
}

/* A status, a position, and what is left of the budget. The block is untouched but with OK. */
static void expect_found(const struct stream *stream, struct found found, uint32_t status, size_t at, uint64_t left,
                         const char *what) {
    expect(found.status == status && found.at == at && found.left == left, stream->name, what);
    expect((status == CLAXON_OK) != is_untouched(&found.block), stream->name, what);
}

/* ---- searches say what stands at the positions */

/* Goes over the positions from this one on. */
static struct found find_place(const struct stream *stream, size_t from, uint64_t budget) {
    size_t end = from > stream->length ? from : stream->length, undecided = end;
    for (size_t at = from; at < stream->length; at++) {
        const struct place *place = &stream->places[at];
        if (place->has_header && samples_of(&place->block) > budget) {
            return (struct found){CLAXON_OVER_BUDGET, at, budget, place->block};
        }
        budget -= place->has_header ? samples_of(&place->block) : 0;
        budget -= budget < place->wasted ? budget : place->wasted;
        if (place->has_frame) {
            return (struct found){CLAXON_OK, at, budget, place->block};
        }
        undecided = place->is_undecided && undecided == end ? at : undecided;
    }
    return (struct found){CLAXON_NO_MORE, undecided, budget, {0, 0, 0, 0, 0}};
}

static void test_find(const struct stream *stream, size_t from, uint64_t budget) {
    struct found expected = find_place(stream, from, budget);
    struct found found = find(stream, from, budget);
    expect_found(stream, found, expected.status, expected.at, expected.left, "find_frame");
    expect(expected.status != CLAXON_OK || is_same_block(&found.block, &expected.block), stream->name,
           "the block that is found");
}

/* Whether a frame with the sample begins at the position. */
static int is_frame_with(const struct stream *stream, size_t at, uint64_t sample) {
    return at >= stream->info.first_frame && at < stream->length && stream->places[at].has_frame &&
           has_sample(&stream->places[at].block, sample);
}

static void test_seek(const struct stream *stream, uint64_t sample) {
    struct found found = seek(stream, sample, UINT64_MAX);
    size_t at = stream->info.first_frame;
    while (at < stream->length && !is_frame_with(stream, at, sample)) {
        at++;
    }
    if (at >= stream->length) {
        expect_found(stream, found, CLAXON_NO_MORE, UNTOUCHED, UINT64_MAX, "seek to a sample that isn't there");
    } else {
        expect(found.status == CLAXON_OK && is_frame_with(stream, found.at, sample), stream->name, "seek");
        expect(found.status == CLAXON_OK && is_same_block(&found.block, &stream->places[found.at].block), stream->name,
               "the block of seek");
    }
}

/* Around the position of a header: with each budget that decides something. */
static void test_around(const struct stream *stream, size_t at) {
    const struct claxon_block *block = &stream->places[at].block;
    uint64_t samples = samples_of(block);
    uint64_t times[] = {block->time, block->time + block->duration / 2, block->time + block->duration - 1,
                        block->time + block->duration, block->time - 1};
    for (size_t from = at > 0 ? at - 1 : 0; from <= at + 1; from++) {
        test_find(stream, from, UINT64_MAX);
        test_find(stream, from, samples);
        test_find(stream, from, samples - 1);
        test_find(stream, from, 2 * samples - 1);
        test_find(stream, from, 2 * samples + stream->places[at].wasted);
        test_find(stream, from, 2 * samples + stream->places[at].wasted - 1);
    }
    for (size_t i = 0; i < 5; i++) {
        test_seek(stream, times[i]);
    }
}

/* All of it, with this number of samples in the streaminfo. */
static size_t test_places(struct stream *stream, uint64_t samples) {
    size_t froms[] = {0, stream->info.first_frame, stream->length - 1, stream->length, stream->length + 5, SIZE_MAX};
    uint64_t lies[] = {0, 1, samples, 2 * samples + 1, UINT64_MAX};
    size_t frames = 0;
    read_places(stream);
    for (size_t i = 0; i < 6; i++) {
        test_find(stream, froms[i], UINT64_MAX);
        test_find(stream, froms[i], 0);
    }
    for (size_t at = 0; at < stream->length; at++) {
        frames += stream->places[at].has_frame;
        if (stream->places[at].has_header) {
            stream->info.samples = lies[below(5)];
            test_around(stream, at);
        }
    }
    for (size_t i = 0; i < 5; i++) {
        stream->info.samples = lies[i];
        test_seek(stream, samples);
        test_seek(stream, below((uint32_t)samples + 1));
        test_seek(stream, UINT64_MAX);
        test_find(stream, below((uint32_t)stream->length), below(100000));
    }
    free(stream->places);
    return frames;
}

static struct stream stream_of(const char *name, const uint8_t *bytes, size_t length) {
    struct stream stream = {name, bytes, length, {0}, NULL};
    char error[1];
    expect(claxon_open(bytes, length, &stream.info, error, sizeof error) == CLAXON_OK, name, "the head");
    return stream;
}

/* ---- files */

/* The file, with its streaminfo and with none; and damaged, of which a part is moved too, so that times are out of order. */
static size_t test_file(const char *name, const uint8_t *bytes, size_t length, uint32_t rounds) {
    struct claxon_info info;
    char error[1];
    size_t frames;
    if (claxon_open(bytes, length, &info, error, sizeof error) != CLAXON_OK || (rounds == 0 && length > 4096)) {
        return 0;
    }
    struct stream whole = {name, bytes, length, info, NULL};
    struct stream unknown = {name, bytes, length, {0}, NULL};
    frames = test_places(&whole, info.samples);
    test_places(&unknown, info.samples);
    uint8_t *damaged = malloc(length);
    for (uint32_t round = 0; round < rounds && length > info.first_frame; round++) {
        size_t frames_at = info.first_frame, half = (length - frames_at) / 2;
        memcpy(damaged, bytes, length);
        if (round % 2) {
            memcpy(damaged + frames_at, bytes + frames_at + half, length - frames_at - half);
            memcpy(damaged + length - half, bytes + frames_at, half);
        }
        damage(damaged + frames_at, length - frames_at);
        struct stream stream = {name, damaged, length - below(50) % (length - frames_at), info, NULL};
        test_places(&stream, info.samples);
    }
    free(damaged);
    return frames;
}

/* ---- rows */

/* Frames as `flac --analyze` has them: the position of each, and its number of samples; the times are their sums. The last
 * row of a file is its last frame. */
static const struct {
    const char *name;
    size_t at;
    uint64_t time;
    uint32_t duration;
} rows[] = {
    {"quiet_noise.flac", 88, 0, 4096},
    {"quiet_noise.flac", 2152, 4096, 4096},
    {"quiet_noise.flac", 4216, 8192, 4096},
    {"quiet_noise.flac", 20700, 40960, 3140},
    {"eight_bits.flac", 136, 0, 4096},
    {"eight_bits.flac", 2298, 4096, 4096},
    {"eight_bits.flac", 45276, 86016, 2184},
    {"wasted_bits_of_24.flac", 8348, 0, 4096},
    {"wasted_bits_of_24.flac", 11979, 8192, 4096},
    {"wasted_bits_of_24.flac", 54121, 131072, 96},
    {"left_channel_alone.flac", 14582, 8192, 4096},
    {"left_channel_alone.flac", 39451, 40960, 3140},
    {"other_encoder_speech.flac", 8288, 0, 576},
    {"other_encoder_speech.flac", 8721, 576, 576},
    {"other_encoder_speech.flac", 9679, 1152, 576},
    {"other_encoder_speech.flac", 58395, 39744, 256},
    {"escapes_of_a_real_encoder.flac", 1238, 4096, 4096},
    {"escapes_of_a_real_encoder.flac", 6424, 40960, 3140},
};

/* Each sample of the frame, and the samples beside it; the frame from its position on, and from the next one not. */
static void test_row(const char *folder, size_t row) {
    size_t length = 0, at = rows[row].at;
    uint64_t time = rows[row].time, end = time + rows[row].duration;
    int is_last = row + 1 == sizeof rows / sizeof *rows || strcmp(rows[row].name, rows[row + 1].name) != 0;
    uint8_t *bytes = read_file(folder, rows[row].name, &length);
    struct stream stream = stream_of(rows[row].name, bytes, length);
    for (uint64_t sample = time; sample < end; sample++) {
        struct found found = seek(&stream, sample, 0);
        expect_found(&stream, found, CLAXON_OK, at, 0, "seek to a frame of a row");
        expect(found.block.time == time && found.block.duration == rows[row].duration, stream.name, "the block of a row");
        expect(found.block.channels == stream.info.channels, stream.name, "the channels of a row");
    }
    expect(time == 0 || seek(&stream, time - 1, 0).at < at, stream.name, "the sample before a row");
    if (is_last) {
        expect_found(&stream, seek(&stream, end, 0), CLAXON_NO_MORE, UNTOUCHED, 0, "the sample after the last");
    } else {
        expect(seek(&stream, end, 0).at > at, stream.name, "the sample after a row");
    }
    expect_found(&stream,
                 find(&stream, at, samples_of(&(struct claxon_block){0, stream.info.channels, rows[row].duration, 0, 0})),
                 CLAXON_OK, at, 0, "a frame at its position");
    expect(find(&stream, at + 1, UINT64_MAX).at > at, stream.name, "a frame at the next position");
    free(bytes);
}

/* The positions of the first four frames of quiet_noise.flac: each has 4096 samples of two channels. */
static const size_t noise[4] = {88, 2152, 4216, 6278};

/* A frame that is cut at each byte is undecided at its position. */
static void test_cuts(const uint8_t *bytes, size_t length) {
    struct stream stream = stream_of("a frame that is cut", bytes, length);
    for (stream.length = noise[1]; stream.length < noise[2]; stream.length++) {
        uint64_t left = find(&stream, noise[1], UINT64_MAX).left;
        expect_found(&stream, find(&stream, noise[1], UINT64_MAX), CLAXON_NO_MORE, noise[1], left, "find_frame");
        expect(left == UINT64_MAX || left == UINT64_MAX - 8192 - (stream.length - noise[1]), stream.name, "the budget");
        expect_found(&stream, seek(&stream, 4096, UINT64_MAX), CLAXON_NO_MORE, UNTOUCHED, UINT64_MAX, "seek");
    }
    expect_found(&stream, find(&stream, noise[1], 8192), CLAXON_OK, noise[1], 0, "the whole frame");
    stream.length = stream.info.first_frame;
    expect_found(&stream, find(&stream, 0, 0), CLAXON_NO_MORE, stream.length - 1, 0, "find_frame without frames");
    expect_found(&stream, find(&stream, stream.length, 0), CLAXON_NO_MORE, stream.length, 0, "find_frame at the end");
    expect_found(&stream, seek(&stream, 0, 0), CLAXON_NO_MORE, UNTOUCHED, 0, "seek without frames");
    stream.length = 0;
    expect_found(&stream, find(&stream, 0, 0), CLAXON_NO_MORE, 0, 0, "find_frame without bytes");
    expect_found(&stream, seek(&stream, 0, 0), CLAXON_NO_MORE, UNTOUCHED, 0, "seek without bytes");
}

/* The first frame has a wrong CRC, which is found after its 2064 bytes. */
static void test_budgets(uint8_t *bytes, size_t length) {
    struct stream stream = stream_of("a budget", bytes, length);
    bytes[noise[1] - 1] ^= 1;
    expect_found(&stream, find(&stream, 88, 0), CLAXON_OVER_BUDGET, 88, 0, "none");
    expect_found(&stream, find(&stream, 88, 8191), CLAXON_OVER_BUDGET, 88, 8191, "one less than a frame that isn't one");
    expect_found(&stream, find(&stream, 88, 8192), CLAXON_OVER_BUDGET, noise[1], 0, "of a frame that isn't one");
    expect_found(&stream, find(&stream, 88, 9000), CLAXON_OVER_BUDGET, noise[1], 0, "of it and some of its bytes");
    expect_found(&stream, find(&stream, 88, 18447), CLAXON_OVER_BUDGET, noise[1], 8191, "one less than two, and its bytes");
    expect_found(&stream, find(&stream, 88, 18448), CLAXON_OK, noise[1], 0, "of two, and its bytes");
    expect_found(&stream, find(&stream, 89, 10000), CLAXON_OK, noise[1], 1808, "of one and more");
    expect_found(&stream, seek(&stream, 4095, 0), CLAXON_OVER_BUDGET, UNTOUCHED, 0, "of a seek, none");
    expect_found(&stream, seek(&stream, 4095, 8191), CLAXON_OVER_BUDGET, UNTOUCHED, 8191, "of a seek, one less");
    expect_found(&stream, seek(&stream, 4095, 8192), CLAXON_NO_MORE, UNTOUCHED, 8192, "of a seek");
    expect_found(&stream, seek(&stream, 4096, 0), CLAXON_OK, noise[1], 0, "of a seek that needs none");
    bytes[noise[1] - 1] ^= 1;
}

/* The second frame and the third in each other's place. */
static void test_order(uint8_t *bytes, size_t length) {
    struct stream stream = stream_of("times out of order", bytes, length);
    size_t first = noise[2] - noise[1], second = noise[3] - noise[2];
    uint8_t *kept = malloc(first);
    memcpy(kept, bytes + noise[1], first);
    memmove(bytes + noise[1], bytes + noise[2], second);
    memcpy(bytes + noise[1] + second, kept, first);
    for (uint64_t sample = 4096; sample < 12288; sample++) {
        size_t at = sample < 8192 ? noise[1] + second : noise[1];
        expect_found(&stream, seek(&stream, sample, UINT64_MAX), CLAXON_OK, at, UINT64_MAX, "seek");
    }
    free(kept);
}

/* What is said of the stream decides which frames are its own. */
static void test_infos(const uint8_t *bytes, size_t length) {
    struct stream stream = stream_of("another streaminfo", bytes, length);
    const struct claxon_info info = stream.info;
    memset(&stream.info, 0, sizeof stream.info);
    expect_found(&stream, find(&stream, 89, UINT64_MAX), CLAXON_OK, noise[1], UINT64_MAX - 8192, "zeros");
    expect_found(&stream, seek(&stream, 4096, 0), CLAXON_OK, noise[1], 0, "seek with zeros");
    stream.info.bits_per_sample = 33;
    expect_found(&stream, find(&stream, 89, UINT64_MAX), CLAXON_OK, noise[1], UINT64_MAX - 8192, "33 bits per sample");
    stream.info = info;
    stream.info.channels = 1;
    expect_found(&stream, find(&stream, 0, 0), CLAXON_NO_MORE, length - 1, 0, "one channel");
    stream.info = info;
    stream.info.bits_per_sample = 24;
    expect_found(&stream, seek(&stream, 4096, 0), CLAXON_NO_MORE, UNTOUCHED, 0, "24 bits per sample");
    stream.info = info;
    stream.info.first_frame = noise[2];
    expect_found(&stream, seek(&stream, 8191, 0), CLAXON_NO_MORE, UNTOUCHED, 0, "a frame before the first frame");
    expect_found(&stream, seek(&stream, 8192, 0), CLAXON_OK, noise[2], 0, "the first frame");
    stream.info.first_frame = SIZE_MAX;
    expect_found(&stream, seek(&stream, 8192, 0), CLAXON_NO_MORE, UNTOUCHED, 0, "a first frame past the end");
}

/* A frame of 16 samples of 16 bits, each 0x1234; and one whose samples as they are contain it, and a sync code. */
static void test_nested(void) {
    static const uint8_t inner[12] = {0xff, 0xf8, 0x69, 0x08, 0x00, 0x0f, 0x30, 0x00, 0x12, 0x34, 0xaa, 0x3b};
    uint8_t outer[42] = {0xff, 0xf8, 0x69, 0x08, 0x00, 0x0f, 0x30, 0x02};
    outer[10] = 0xff;
    outer[11] = 0xf8;
    memcpy(outer + 16, inner, sizeof inner);
    unsigned crc = crc_of(outer, 40, 0x18005, 16);
    outer[40] = (uint8_t)(crc >> 8);
    outer[41] = (uint8_t)crc;
    struct stream stream = {"a frame in a frame", outer, sizeof outer, {0}, NULL};
    expect_found(&stream, find(&stream, 0, 16), CLAXON_OK, 0, 0, "the outer one");
    expect_found(&stream, find(&stream, 1, 16), CLAXON_OK, 16, 0, "the inner one");
    expect_found(&stream, find(&stream, 17, 16), CLAXON_NO_MORE, 41, 16, "after them");
    expect(test_places(&stream, 16) == 2, stream.name, "the number of frames");
    outer[41] ^= 1;
    expect_found(&stream, find(&stream, 0, 32 + 42), CLAXON_OK, 16, 0, "the inner one of a frame with a wrong CRC");
    expect_found(&stream, seek(&stream, 3, 32), CLAXON_OK, 16, 32, "seek to the inner one");
}

/* Nothing is changed where memory is refused, and what needs none is answered. */
static void test_memory(const uint8_t *bytes, size_t length) {
    struct stream stream = stream_of("no memory", bytes, length);
    requests = 0;
    refused_from = 1;
    struct found first = find(&stream, 0, 10000), second = seek(&stream, 4096, 10000);
    struct found over = find(&stream, 0, 8191), none = seek(&stream, 44100, 10000);
    refused_from = 0;
    expect(requests >= 2, stream.name, "no request");
    expect_found(&stream, first, CLAXON_OUT_OF_MEMORY, 0, 10000, "find_frame");
    expect_found(&stream, second, CLAXON_OUT_OF_MEMORY, UNTOUCHED, 10000, "seek");
    expect_found(&stream, over, CLAXON_OVER_BUDGET, 88, 8191, "a frame over the budget");
    expect_found(&stream, none, CLAXON_NO_MORE, UNTOUCHED, 10000, "seek to a sample that isn't there");
    expect_found(&stream, find(&stream, 0, 10000), CLAXON_OK, 88, 1808, "find_frame with memory");
}

static void test_noise(const char *folder) {
    size_t length = 0;
    uint8_t *bytes = read_file(folder, "quiet_noise.flac", &length);
    if (bytes) {
        test_cuts(bytes, length);
        test_budgets(bytes, length);
        test_infos(bytes, length);
        test_memory(bytes, length);
        test_order(bytes, length);
    }
    free(bytes);
}

int main(int argc, char **argv) {
    struct known known;
    size_t files = 0, frames = 0;
    uint32_t rounds = argc == 3 ? (uint32_t)strtoul(argv[2], NULL, 10) : 0;
    for (size_t row = 0; argc == 3 && rounds > 0 && row < sizeof rows / sizeof *rows; row++) {
        test_row(argv[1], row);
    }
    test_nested();
    if (argc == 3) {
        test_noise(argv[1]);
    }
    while (argc == 3 && next_known(&known)) {
        size_t length = 0;
        uint8_t *bytes = read_file(argv[1], known.name, &length);
        frames += bytes ? test_file(known.name, bytes, length, rounds) : 0;
        free(bytes);
        files++;
    }
    printf("seek: %zu files, %zu frames, %d failures\n", files, frames, failures);
    return failures != 0 || frames == 0;
}
