/* stream_seek FOLDER ROUNDS < LINES: tests claxon_stream_seek.
 *
 * - Of each file that a line names, claxon_next_block says at each position from the first frame on whether a frame of the
 *   stream begins there. A stream is sought at the borders of all blocks, to and fro: with short reads, after other bytes in
 *   its source, with an end that isn't known, with a wrong number of samples in the head; and damaged in ROUNDS ways.
 * - Blocks of whole files are those at their times.
 * - Each read and each call that seeks fails in turn, each read can't be served in turn, and memory is refused in turn.
 *
 * With 0 ROUNDS small files are read alone, for tools that make it slow. It is linked with --wrap for malloc and realloc. */
#define _POSIX_C_SOURCE 200809L

#include "claxon_stream.h"

#include "faults.h"
#include "known.h"

/* A source that seeks. The stream begins after `origin` bytes of it, which are those of its own end. */

struct source {
    const uint8_t *bytes;
    size_t length;
    size_t origin;
    size_t at;
    size_t piece;
    int knows_end;
    size_t calls, failing_call; /* this one fails, if it isn't 0 */
    const char *failure;
    int is_pausing; /* a read that fails does so just now */
};

static int fails(struct source *source, const char *failure) {
    if (++source->calls != source->failing_call) {
        return 0;
    }
    source->failure = failure;
    return 1;
}

static size_t read_source(void *from, uint8_t *bytes, size_t length) {
    struct source *source = from;
    size_t end = source->origin + source->length, count = source->at < end ? end - source->at : 0;
    if (fails(source, "reading failed")) {
        return source->is_pausing ? CLAXON_NOT_NOW : (size_t)-1;
    }
    count = count < length ? count : length;
    count = count < source->piece ? count : source->piece;
    expect(source->at >= source->origin, "read", "before the stream");
    if (count > 0) {
        memcpy(bytes, source->bytes + source->at - source->origin, count);
    }
    source->at += count;
    return count;
}

static int64_t seek_source(void *from, int64_t offset, int whence) {
    struct source *source = from;
    int64_t end = (int64_t)(source->origin + source->length);
    if (fails(source, "seeking failed") || (whence == SEEK_END && !source->knows_end)) {
        return -1;
    }
    source->at = (size_t)(offset + (whence == SEEK_CUR ? (int64_t)source->at : whence == SEEK_END ? end : 0));
    return (int64_t)source->at;
}

static struct source any_source(const uint8_t *bytes, size_t length) {
    static const size_t pieces[] = {SIZE_MAX, SIZE_MAX, 10000, 1000, 61, 1};
    struct source source = {bytes, length, 0, 0, 0, 0, 0, 0, NULL, 0};
    source.origin = source.at = below(2) ? below(100000) : 0;
    source.piece = pieces[below(6)];
    source.knows_end = below(3) > 0;
    return source;
}

/* The frames of a stream, at any position from the first frame on. */

struct frame {
    size_t at;
    struct claxon_block block;
};

struct frames {
    const char *name;
    const uint8_t *bytes;
    size_t length;
    struct claxon_info info;
    struct frame *frames;
    size_t count;
};

static int32_t samples[CLAXON_MAX_SAMPLES];

static uint32_t decode(const struct frames *frames, size_t *at, size_t capacity, struct claxon_block *block) {
    char error[1];
    return claxon_next_block(frames->bytes, frames->length, at, &frames->info, samples, capacity, block, error, sizeof error);
}

/* Whether a header says the number of channels and the bit depth of the stream. (RFC 9639, section 9.1.4.) */
static int has_format(const struct claxon_info *info, const uint8_t *header, const struct claxon_block *block) {
    static const uint32_t depths[8] = {0, 8, 12, 0, 16, 20, 24, 32};
    unsigned code = header[3] >> 1 & 7;
    return info->channels == 0 || (block->channels == info->channels && (code == 0 || depths[code] == info->bits_per_sample));
}

static void find_frames(struct frames *frames) {
    frames->count = 0;
    frames->frames = malloc((frames->length / 8 + 1) * sizeof *frames->frames);
    for (size_t at = frames->info.first_frame; at + 8 < frames->length; at++) {
        struct frame frame = {at, {0, 0, 0, 0, 0}};
        size_t end = at;
        if (frames->bytes[at] == 0xff && decode(frames, &end, 0, &frame.block) == CLAXON_BUFFER_TOO_SMALL &&
            has_format(&frames->info, frames->bytes + at, &frame.block) &&
            decode(frames, &end, CLAXON_MAX_SAMPLES, &frame.block) == CLAXON_OK) {
            frames->frames[frames->count++] = frame;
        }
    }
}

static int has_sample(const struct claxon_block *block, uint64_t sample) {
    return block->time <= sample && sample - block->time < block->duration;
}

/* The frame at this position with the sample, or any frame with it. NULL: there is none. */
static const struct frame *frame_with(const struct frames *frames, uint64_t sample, const uint64_t *position) {
    for (size_t i = 0; i < frames->count; i++) {
        if (has_sample(&frames->frames[i].block, sample) && (!position || frames->frames[i].at == *position)) {
            return &frames->frames[i];
        }
    }
    return NULL;
}

/* The next block, and where it ends, as claxon_next_block says them. */
static void expect_block(struct claxon_stream *stream, const struct frames *frames, const struct frame *frame) {
    struct claxon_block block;
    size_t end = frame->at, count;
    uint32_t status = claxon_stream_next_block(stream);
    expect(status == CLAXON_OK && decode(frames, &end, CLAXON_MAX_SAMPLES, &block) == CLAXON_OK, frames->name,
           "the next block");
    count = (size_t)block.channels * block.duration;
    if (status == CLAXON_OK) {
        expect(is_same_block(&stream->block, &block) && stream->position == end, frames->name, "what it shows");
        expect_format(frames->name, &stream->block, frames->bytes + frame->at);
        expect(memcmp(stream->samples, samples, count * sizeof *samples) == 0, frames->name, "its samples");
    }
    while (end < frames->length && below(2)) {
        status = claxon_stream_next_block(stream);
        if (status != CLAXON_OK) {
            expect(decode(frames, &end, CLAXON_MAX_SAMPLES, &block) == status, frames->name, "a fault after it");
            break;
        }
        expect(decode(frames, &end, CLAXON_MAX_SAMPLES, &block) == CLAXON_OK && stream->position == end, frames->name,
               "a block after it");
    }
}

static void test_sample(struct claxon_stream *stream, const struct frames *frames, uint64_t sample) {
    uint32_t status = claxon_stream_seek(stream, sample);
    if (!frame_with(frames, sample, NULL)) {
        expect(status == CLAXON_NO_MORE && !stream->error[0], frames->name, "seek to a sample that isn't there");
        expect(claxon_stream_next_block(stream) == CLAXON_NO_MORE, frames->name, "the block after such a seek");
    } else {
        const struct frame *frame = frame_with(frames, sample, &stream->position);
        expect(status == CLAXON_OK && frame && !stream->error[0], frames->name, "seek");
        if (frame) {
            expect_block(stream, frames, frame);
        }
    }
}

/* The borders of some blocks, in any order; after faults, resync and the end too. */
static void test_borders(struct claxon_stream *stream, const struct frames *frames, size_t most) {
    for (size_t i = 0; i < most && frames->count > 0; i++) {
        size_t next = most < frames->count ? below((uint32_t)frames->count) : i % frames->count;
        const struct claxon_block *block = &frames->frames[next].block;
        test_sample(stream, frames, block->time);
        test_sample(stream, frames, block->time + block->duration - 1);
        if (below(8) == 0) {
            claxon_stream_resync(stream);
        }
        test_sample(stream, frames, block->time + block->duration);
        test_sample(stream, frames, block->time + below(block->duration));
        if (block->time > 0) {
            test_sample(stream, frames, block->time - 1);
        }
    }
    test_sample(stream, frames, 0);
    test_sample(stream, frames, frames->info.samples);
    test_sample(stream, frames, UINT64_MAX);
}

/* Another number of samples in the head, which may be wrong. */
static void put_samples(uint8_t *bytes, uint64_t count) {
    bytes[21] = (uint8_t)((bytes[21] & 0xf0) | (count >> 32 & 0x0f));
    for (int i = 0; i < 4; i++) {
        bytes[22 + i] = (uint8_t)(count >> 8 * (3 - i));
    }
}

static void test_stream(const char *name, const uint8_t *bytes, size_t length, size_t most) {
    struct claxon_stream stream;
    struct source source = any_source(bytes, length);
    struct frames frames = {name, bytes, length, {0}, NULL, 0};
    char error[1];
    expect(claxon_open(bytes, length, &frames.info, error, sizeof error) == CLAXON_OK, name, "the head");
    find_frames(&frames);
    claxon_stream_init(&stream, read_source, &source);
    claxon_stream_set_seek(&stream, seek_source);
    if (below(2)) {
        claxon_stream_next_block(&stream);
    }
    test_borders(&stream, &frames, most);
    claxon_stream_free(&stream);
    free(frames.frames);
}

/* Damages the frames. Of some streams the halves change places, so that times are out of order. */
static void move_and_damage(uint8_t *bytes, size_t length, uint8_t *spare) {
    if (below(2)) {
        size_t half = length / 2;
        memcpy(spare, bytes, half);
        memmove(bytes, bytes + half, length - half);
        memcpy(bytes + length - half, spare, half);
    }
    for (uint32_t changes = below(4); changes > 0; changes--) {
        size_t at = below((uint32_t)length), count = 1 + below(40);
        count = count < length - at ? count : length - at;
        if (below(2)) {
            bytes[at] ^= (uint8_t)(1 << below(8));
        } else {
            memmove(bytes + at, bytes + below((uint32_t)(length - count + 1)), count);
        }
    }
}

static void test_file(const char *name, const uint8_t *bytes, size_t length, unsigned rounds) {
    struct claxon_info info;
    char error[1];
    uint8_t *changed = malloc(length + 1), *spare = malloc(length + 1);
    if (claxon_open(bytes, length, &info, error, sizeof error) != CLAXON_OK || info.first_frame == length) {
        free(changed);
        free(spare);
        return;
    }
    for (unsigned round = 0; round < 5 + rounds; round++) {
        const uint64_t counts[5] = {info.samples, 0, 1, 2 * info.samples, UINT64_C(0xfffffffff)};
        memcpy(changed, bytes, length);
        put_samples(changed, counts[round % 5]);
        if (round >= 5) {
            move_and_damage(changed + info.first_frame, length - info.first_frame, spare);
        }
        test_stream(name, changed, round < 5 ? length : length - below((uint32_t)(length - info.first_frame) / 4 + 1),
                    rounds > 0 ? 40 : 5);
    }
    free(changed);
    free(spare);
}

/* A file whose blocks follow one another: each block by its number, from each sample at its borders. */
static void test_times(const char *name, const uint8_t *bytes, size_t length) {
    struct claxon_stream walk, stream;
    struct source walked = {bytes, length, 0, 0, SIZE_MAX, 1, 0, 0, NULL, 0}, source = walked;
    uint64_t time = 0, sample;
    claxon_stream_init(&walk, read_source, &walked);
    claxon_stream_init(&stream, read_source, &source);
    claxon_stream_set_seek(&stream, seek_source);
    while (claxon_stream_next_block(&walk) == CLAXON_OK) {
        size_t count = (size_t)walk.block.channels * walk.block.duration;
        expect(walk.block.time == time, name, "a time");
        for (int i = 0; i < 3; i++) {
            sample = time + (i == 0 ? 0 : i == 1 ? walk.block.duration / 2 : walk.block.duration - 1);
            expect(claxon_stream_seek(&stream, sample) == CLAXON_OK, name, "seek to a block");
            expect((i == 1 ? claxon_stream_next_block_planar : claxon_stream_next_block)(&stream) == CLAXON_OK, name,
                   "a block");
            expect(stream.block.time == time && stream.block.duration == walk.block.duration, name, "the block's time");
            expect(stream.samples[0] == walk.samples[0], name, "the block's first sample");
            expect(i == 1 || memcmp(stream.samples, walk.samples, count * sizeof *samples) == 0, name, "the block's samples");
        }
        time += walk.block.duration;
    }
    expect(time == walk.info.samples && !walk.error[0], name, "the number of samples");
    expect(claxon_stream_seek(&stream, time) == CLAXON_NO_MORE, name, "the sample after the last");
    claxon_stream_free(&walk);
    claxon_stream_free(&stream);
}

/* Calls that fail, and memory that is refused. */

struct attempt {
    struct claxon_stream stream;
    struct source source;
};

static void begin(struct attempt *attempt, const uint8_t *bytes, size_t length, int knows_end) {
    struct source source = {bytes, length, 5, 5, 3000, knows_end, 0, 0, NULL, 0};
    attempt->source = source;
    claxon_stream_init(&attempt->stream, read_source, &attempt->source);
    claxon_stream_set_seek(&attempt->stream, seek_source);
    expect(claxon_stream_open(&attempt->stream) == CLAXON_OK, "a failing call", "the head");
    attempt->source.calls = 0;
}

static void expect_sample(struct claxon_stream *stream, uint64_t sample, const char *name) {
    expect(claxon_stream_seek(stream, sample) == CLAXON_OK && claxon_stream_next_block(stream) == CLAXON_OK, name,
           "a seek again");
    expect(has_sample(&stream->block, sample), name, "the block of a seek again");
}

/* Returns whether there was such a call. A length that isn't told is no failure. */
static int test_failing_call(const char *name, const uint8_t *bytes, size_t length, uint64_t sample, size_t call,
                             int knows_end) {
    struct attempt attempt;
    struct claxon_stream *stream = &attempt.stream;
    int was_called;
    uint32_t status;
    begin(&attempt, bytes, length, knows_end);
    attempt.source.failing_call = call;
    status = claxon_stream_seek(stream, sample);
    was_called = attempt.source.failure != NULL;
    attempt.source.failing_call = 0;
    if (status == CLAXON_OK) {
        expect(!was_called || call == 2, name, "a seek whose call failed");
    } else {
        expect(was_called && status == CLAXON_READ_FAILED && strcmp(stream->error, attempt.source.failure) == 0, name,
               "the status of a seek whose call failed");
        if (call > 1) {
            size_t calls = attempt.source.calls;
            expect(claxon_stream_next_block(stream) == CLAXON_READ_FAILED, name, "a block after a call failed");
            expect(strcmp(stream->error, "seeking failed") == 0, name, "its text");
            expect(claxon_stream_resync(stream) == CLAXON_READ_FAILED, name, "resync after a call failed");
            expect(attempt.source.calls == calls, name, "a call of a callback after one failed");
        }
    }
    expect_sample(stream, sample, name);
    claxon_stream_free(stream);
    return was_called;
}

/* A read that can't be served: the seek is repeated, and no block is given before. Returns whether there was such a read, or a
 * call that seeks and fails. */
static int test_pausing_call(const char *name, const uint8_t *bytes, size_t length, uint64_t sample, size_t call) {
    struct attempt attempt;
    struct claxon_stream *stream = &attempt.stream;
    uint32_t status;
    begin(&attempt, bytes, length, 1);
    attempt.source.is_pausing = 1;
    attempt.source.failing_call = call;
    status = claxon_stream_seek(stream, sample);
    if (attempt.source.failure && strcmp(attempt.source.failure, "reading failed") == 0) {
        expect(status == CLAXON_NEED_MORE && !stream->error[0], name, "the status of a seek that can't be served");
        expect(claxon_stream_next_block(stream) == CLAXON_READ_FAILED, name, "a block after a seek that can't be served");
        expect_sample(stream, sample, name);
    }
    claxon_stream_free(stream);
    return attempt.source.failure != NULL;
}

static int test_refused(const struct frames *frames, uint64_t sample, size_t request) {
    const char *name = frames->name;
    struct attempt attempt;
    struct claxon_stream *stream = &attempt.stream;
    int was_refused;
    uint32_t status;
    begin(&attempt, frames->bytes, frames->length, 1);
    requests = 0;
    refused_request = request;
    status = claxon_stream_seek(stream, sample);
    was_refused = requests >= request;
    refused_request = 0;
    expect(status == (was_refused ? CLAXON_OUT_OF_MEMORY : CLAXON_OK), name, "the status where memory was refused");
    if (was_refused) {
        expect(strcmp(stream->error, "out of memory") == 0, name, "the text where memory was refused");
        expect(claxon_stream_next_block(stream) == CLAXON_READ_FAILED, name, "a block where memory was refused");
    }
    test_sample(stream, frames, sample);
    claxon_stream_free(stream);
    return was_refused;
}

static void test_failures(const char *name, const uint8_t *bytes, size_t length, uint64_t sample) {
    struct frames frames = {name, bytes, length, {0}, NULL, 0};
    size_t calls[2] = {1, 1}, request = 1, pause = 1;
    char error[1];
    for (int knows_end = 0; knows_end <= 1; knows_end++) {
        while (test_failing_call(name, bytes, length, sample, calls[knows_end], knows_end)) {
            calls[knows_end]++;
        }
        expect(calls[knows_end] > 5, name, "the number of calls that failed");
    }
    while (test_pausing_call(name, bytes, length, sample, pause)) {
        pause++;
    }
    expect(claxon_open(bytes, length, &frames.info, error, sizeof error) == CLAXON_OK, name, "the head");
    find_frames(&frames);
    while (test_refused(&frames, sample, request)) {
        request++;
    }
    expect(request > 1, name, "the number of requests that were refused");
    free(frames.frames);
}

/* The same where headers don't lead to the frame, as its half of the file is the first one. */
static void test_failures_of_search(const char *name, const uint8_t *bytes, size_t length) {
    struct claxon_info info;
    char error[1];
    uint8_t *changed = malloc(length);
    expect(claxon_open(bytes, length, &info, error, sizeof error) == CLAXON_OK, name, "the head");
    size_t half = (length - info.first_frame) / 2;
    memcpy(changed, bytes, info.first_frame);
    memcpy(changed + info.first_frame, bytes + length - half, half);
    memcpy(changed + info.first_frame + half, bytes + info.first_frame, length - info.first_frame - half);
    test_failures(name, changed, length, info.samples - 1);
    free(changed);
}

/* A stream that can't be sought goes on where it is. */
static void test_unsupported(const char *name, const uint8_t *bytes, size_t length) {
    for (int is_push = 0; is_push <= 1; is_push++) {
        struct claxon_stream stream;
        struct source source = {bytes, length, 0, 0, SIZE_MAX, 1, 0, 0, NULL, 0};
        if (is_push) {
            claxon_stream_init_push(&stream);
            claxon_stream_set_seek(&stream, seek_source);
            claxon_stream_feed(&stream, bytes, length);
        } else {
            claxon_stream_init(&stream, read_source, &source);
        }
        for (uint64_t time = 0; time < 8192; time += 4096) {
            expect(claxon_stream_seek(&stream, 20000) == CLAXON_UNSUPPORTED, name, "seek without a callback");
            expect(strcmp(stream.error, "no callback seeks") == 0, name, "the text of seek without a callback");
            expect(claxon_stream_next_block(&stream) == CLAXON_OK && stream.block.time == time, name, "the block after it");
        }
        claxon_stream_free(&stream);
    }
}

/* A head with a fault, which seek returns; after resync any frame is sought. */
static void test_damaged_head(const char *name, uint8_t *bytes, size_t length) {
    struct claxon_stream stream;
    struct source source = {bytes, length, 0, 0, SIZE_MAX, 1, 0, 0, NULL, 0};
    bytes[0] ^= 1;
    claxon_stream_init(&stream, read_source, &source);
    claxon_stream_set_seek(&stream, seek_source);
    expect(claxon_stream_seek(&stream, 20000) == CLAXON_FORMAT_ERROR, name, "seek after a damaged head");
    expect(strcmp(stream.error, "invalid stream header") == 0, name, "the text of seek after a damaged head");
    expect(claxon_stream_resync(&stream) == CLAXON_OK, name, "resync after a damaged head");
    expect_sample(&stream, 20000, name);
    expect_sample(&stream, 0, name);
    claxon_stream_free(&stream);
    bytes[0] ^= 1;
}

/* By the callbacks for a FILE and for a file descriptor, after other bytes; a pipe. */
static void test_files(const char *name, const uint8_t *bytes, size_t length) {
    FILE *file = tmpfile();
    int fd = fileno(file), ends[2];
    expect(fwrite("before", 1, 6, file) == 6 && fwrite(bytes, 1, length, file) == length, name, "a file");
    for (int by_fd = 0; by_fd <= 1; by_fd++) {
        struct claxon_stream stream;
        fseek(file, 6, SEEK_SET);
        lseek(fd, 6, SEEK_SET);
        claxon_stream_init(&stream, by_fd ? claxon_stream_read_fd : claxon_stream_fread, by_fd ? (void *)&fd : (void *)file);
        claxon_stream_set_seek(&stream, by_fd ? claxon_stream_seek_fd : claxon_stream_fseek);
        expect_sample(&stream, 44099, name);
        expect(claxon_stream_next_block(&stream) == CLAXON_NO_MORE, name, "the end of a file");
        expect_sample(&stream, 0, name);
        expect(claxon_stream_seek(&stream, 44100) == CLAXON_NO_MORE, name, "the sample after the last of a file");
        expect_sample(&stream, 20000, name);
        claxon_stream_free(&stream);
    }
    fclose(file);
    if (pipe(ends) == 0) {
        struct claxon_stream stream;
        expect(write(ends[1], bytes, 3000) == 3000, name, "a pipe");
        claxon_stream_init(&stream, claxon_stream_read_fd, &ends[0]);
        claxon_stream_set_seek(&stream, claxon_stream_seek_fd);
        expect(claxon_stream_seek(&stream, 4096) == CLAXON_READ_FAILED, name, "seek in a pipe");
        expect(strcmp(stream.error, "seeking failed") == 0, name, "the text of seek in a pipe");
        expect(claxon_stream_next_block(&stream) == CLAXON_OK && stream.block.time == 0, name, "the block of a pipe");
        claxon_stream_free(&stream);
        close(ends[0]);
        close(ends[1]);
    }
}

static void test_noise(const char *folder, unsigned rounds) {
    size_t length = 0;
    const char *name = "quiet_noise.flac"; /* blocks of 4096 samples, 44100 in all */
    uint8_t *bytes = read_file(folder, name, &length);
    if (bytes) {
        test_unsupported(name, bytes, length);
        test_damaged_head(name, bytes, length);
        test_files(name, bytes, length);
    }
    if (bytes && rounds > 0) {
        test_failures(name, bytes, length, 30000);
        test_failures_of_search(name, bytes, length);
    }
    free(bytes);
}

/* Files of encoders: their blocks follow one another. */
static int is_whole(const char *name) {
    static const char *const names[] = {"quiet_noise.flac",          "eight_bits.flac",
                                        "wasted_bits_of_24.flac",    "left_channel_alone.flac",
                                        "other_encoder_speech.flac", "escapes_of_a_real_encoder.flac"};
    for (size_t i = 0; i < sizeof names / sizeof *names; i++) {
        if (strcmp(name, names[i]) == 0) {
            return 1;
        }
    }
    return 0;
}

int main(int argc, char **argv) {
    struct known known;
    unsigned rounds = argc == 3 ? (unsigned)strtoul(argv[2], NULL, 10) : 0;
    int files = 0, whole = 0;
    while (argc == 3 && next_known(&known)) {
        size_t length = 0;
        uint8_t *bytes = read_file(argv[1], known.name, &length);
        if (bytes && (rounds > 0 || length <= 4096)) {
            test_file(known.name, bytes, length, rounds);
            files++;
        }
        if (bytes && rounds > 0 && is_whole(known.name)) {
            test_times(known.name, bytes, length);
            whole++;
        }
        free(bytes);
    }
    if (argc == 3) {
        test_noise(argv[1], rounds);
    }
    expect(files > 0 && (rounds == 0 || whole == 6), "stream_seek", "no files");
    printf("stream_seek: %d files, %d failures\n", files, failures);
    return failures != 0;
}
