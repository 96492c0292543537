/* long_seek MEGABYTES..: tests seeks in streams of so many megabytes, of frames that it writes: so it knows which frame has a
 * sample, and its samples.
 *
 * - claxon_stream_seek goes to samples at the borders of blocks and within them, and reads few bytes for that, however long the
 *   stream is: with a fixed and with a variable block size, with frames that are far shorter or longer than others, and with
 *   bytes between frames that belong to none.
 * - Where headers among the samples begin no frame, or where frames are out of order, all of them may be searched, as for a
 *   sample that isn't there: so many bytes are read at most, for each byte of the stream.
 * - claxon_seek finds the same in memory.
 * - In shorter streams memory is refused in turn, for the head, for a seek and for the blocks after it.
 *
 * The time of a longer stream is compared with that of the first one: it has to be linear. It is linked with --wrap for malloc
 * and realloc. */
#include <time.h>

#include "claxon_stream.h"

#include "faults.h"
#include "known.h"

#define MEGABYTE 1000000
#define CHANNELS 2
#define BLOCK_SIZE 4096

/* A frame that was written. Its time is the number of samples of each channel before it. */
struct frame {
    size_t at;
    size_t subframes;
    size_t end;
    uint32_t time;
    uint32_t duration;
    int is_constant;
};

struct made {
    uint8_t *bytes;
    size_t length;
    struct frame *frames;
    size_t count;
    uint32_t samples; /* of each channel */
};

/* What is written. */

static size_t put_16_bits(uint8_t *bytes, uint32_t number) {
    bytes[0] = (uint8_t)(number >> 8);
    bytes[1] = (uint8_t)number;
    return 2;
}

/* The number of a frame or of a sample (RFC 9639, section 9.1.5), which is below 2^31. Returns its length. */
static size_t put_number(uint8_t *bytes, uint32_t number) {
    static const uint32_t limits[] = {0x80, 0x800, 0x10000, 0x200000, 0x4000000};
    size_t more = 0;
    while (more < sizeof limits / sizeof *limits && number >= limits[more]) {
        more++;
    }
    bytes[0] = (uint8_t)(more == 0 ? number : (0xfe << (6 - more) & 0xff) | number >> 6 * more);
    for (size_t i = 1; i <= more; i++) {
        bytes[i] = (uint8_t)(0x80 | (number >> 6 * (more - i) & 0x3f));
    }
    return more + 1;
}

/* The header of a frame of 16 bits and two channels at 44,100 Hz. Returns its length. */
static size_t put_frame_header(uint8_t *bytes, int is_variable, uint32_t number, uint32_t duration) {
    const uint8_t start[4] = {0xff, is_variable ? 0xf9 : 0xf8, 0x79, 0x18};
    size_t length = sizeof start;
    memcpy(bytes, start, sizeof start);
    length += put_number(bytes + length, number);
    length += put_16_bits(bytes + length, duration - 1);
    bytes[length] = crc8(bytes, length);
    return length + 1;
}

/* Appends a frame of samples as they are, or of one for each channel. With `false_header`, a header is among the samples. */
static void put_frame(struct made *made, int is_variable, uint32_t number, uint32_t time, uint32_t duration, int is_constant,
                      int false_header) {
    struct frame *frame = &made->frames[made->count++];
    uint8_t *bytes = made->bytes + made->length;
    size_t length = put_frame_header(bytes, is_variable, number, duration);
    frame->at = made->length;
    frame->subframes = frame->at + length;
    frame->time = time;
    frame->duration = duration;
    frame->is_constant = is_constant;
    for (unsigned channel = 0; channel < CHANNELS; channel++) {
        bytes[length++] = is_constant ? 0x00 : 0x02;
        for (uint32_t i = 0; i < (is_constant ? 1 : duration); i++) {
            length += put_16_bits(bytes + length, below(0x10000));
        }
    }
    if (false_header) {
        put_frame_header(bytes + 20 + below(duration), 0, below(number + 100), 1 + below(BLOCK_SIZE));
    }
    length += put_16_bits(bytes + length, claxon_crc16(0, bytes, length));
    made->length += length;
    frame->end = made->length;
    made->samples = time + duration > made->samples ? time + duration : made->samples;
}

/* Kinds of streams. Each call appends the next frame to a stream that gets so many bytes. */

static void put_even(struct made *made, size_t length) {
    uint32_t number = (uint32_t)made->count;
    (void)length;
    put_frame(made, 0, number, number * BLOCK_SIZE, BLOCK_SIZE, 0, 0);
}

static void put_uneven(struct made *made, size_t length) {
    (void)length;
    put_frame(made, 1, made->samples, made->samples, 16 + below(2 * BLOCK_SIZE), 0, 0);
}

/* A sixteenth of the bytes is silence: that are most frames. */
static void put_silence_first(struct made *made, size_t length) {
    uint32_t number = (uint32_t)made->count;
    put_frame(made, 0, number, number * BLOCK_SIZE, BLOCK_SIZE, made->length < length / 16, 0);
}

static void put_large(struct made *made, size_t length) {
    uint32_t number = (uint32_t)made->count;
    (void)length;
    put_frame(made, 0, number, number * 65535, 65535, 0, 0);
}

static void put_between_others(struct made *made, size_t length) {
    put_even(made, length);
    for (uint32_t i = made->count % 20 == 0 ? 100000 : 0; i > 0; i--) {
        made->bytes[made->length++] = (uint8_t)below(0x100);
    }
}

static void put_with_false_header(struct made *made, size_t length) {
    uint32_t number = (uint32_t)made->count;
    (void)length;
    put_frame(made, 0, number, number * BLOCK_SIZE, BLOCK_SIZE, 0, 1);
}

/* The second half comes first, but for the last frames. */
static void put_out_of_order(struct made *made, size_t length) {
    uint32_t half = (uint32_t)(length / (4 * BLOCK_SIZE + 100) / 2), number = (uint32_t)made->count;
    number = number < half ? number + half : number < 2 * half ? number - half : number;
    put_frame(made, 0, number, number * BLOCK_SIZE, BLOCK_SIZE, 0, 0);
}

struct kind {
    const char *name;
    void (*put)(struct made *made, size_t length);
    unsigned min_block_size, max_block_size;
    unsigned seeks;
    size_t most; /* how many bytes are read at most for a seek and its blocks, or 0 where all of them are searched */
};

static const struct kind kinds[] = {
    {"a fixed block size", put_even, BLOCK_SIZE, BLOCK_SIZE, 200, MEGABYTE},
    {"a variable block size", put_uneven, 16, 16 + 2 * BLOCK_SIZE, 200, MEGABYTE},
    {"silence before noise", put_silence_first, BLOCK_SIZE, BLOCK_SIZE, 200, MEGABYTE},
    {"frames of 262 KB", put_large, 65535, 65535, 20, 4 * MEGABYTE},
    {"bytes between frames", put_between_others, BLOCK_SIZE, BLOCK_SIZE, 100, 2 * MEGABYTE},
    {"headers among samples", put_with_false_header, BLOCK_SIZE, BLOCK_SIZE, 20, 0},
    {"frames out of order", put_out_of_order, BLOCK_SIZE, BLOCK_SIZE, 8, 0},
};

/* How many bytes a search of all of them reads at most, for each byte of the stream. */
#define MOST_OF_ALL 3

static struct made make(const struct kind *kind, size_t length) {
    struct made made = {malloc(length + 3 * 65535 * CHANNELS), 42, malloc((length / 16) * sizeof *made.frames), 0, 0};
    uint8_t head[42] = {'f', 'L', 'a', 'C', 0x80, 0, 0, 34};
    if (!made.bytes || !made.frames) {
        exit(2);
    }
    random_state = length;
    while (made.length < length) {
        kind->put(&made, length);
    }
    put_16_bits(head + 8, kind->min_block_size);
    put_16_bits(head + 10, kind->max_block_size);
    memcpy(head + 18, "\x0a\xc4\x42\xf0", 4); /* 44,100 Hz, two channels, 16 bits */
    put_16_bits(head + 22, made.samples >> 16);
    put_16_bits(head + 24, made.samples);
    memcpy(made.bytes, head, sizeof head);
    return made;
}

/* What is sought. */

struct source {
    const struct made *made;
    size_t at;
    size_t read; /* how many bytes were read */
};

static size_t read_source(void *from, uint8_t *bytes, size_t length) {
    struct source *source = from;
    size_t count = source->at < source->made->length ? source->made->length - source->at : 0;
    count = count < length ? count : length;
    if (count > 0) {
        memcpy(bytes, source->made->bytes + source->at, count);
    }
    source->at += count;
    source->read += count;
    return count;
}

static int64_t seek_source(void *from, int64_t offset, int whence) {
    struct source *source = from;
    size_t start = whence == SEEK_SET ? 0 : whence == SEEK_CUR ? source->at : source->made->length;
    source->at = start + (size_t)offset;
    return (int64_t)source->at;
}

static const struct frame *frame_with(const struct made *made, uint32_t sample) {
    size_t i = 0;
    while (sample < made->frames[i].time || sample - made->frames[i].time >= made->frames[i].duration) {
        i++;
    }
    return &made->frames[i];
}

static int32_t sample_in(const struct made *made, const struct frame *frame, unsigned channel, uint32_t i) {
    size_t subframe = 1 + 2 * (frame->is_constant ? 1 : (size_t)frame->duration);
    const uint8_t *sample = made->bytes + frame->subframes + channel * subframe + 1 + 2 * (frame->is_constant ? 0 : i);
    return (int16_t)(uint16_t)(sample[0] << 8 | sample[1]);
}

static int has_samples(const struct claxon_stream *stream, const struct made *made, const struct frame *frame, int is_planar) {
    for (unsigned channel = 0; channel < CHANNELS; channel++) {
        for (uint32_t i = 0; i < frame->duration; i++) {
            size_t at = is_planar ? channel * frame->duration + i : i * CHANNELS + channel;
            if (stream->samples[at] != sample_in(made, frame, channel, i)) {
                return 0;
            }
        }
    }
    return 1;
}

static void expect_block(const char *name, struct claxon_stream *stream, const struct made *made, const struct frame *frame) {
    int is_planar = (int)below(2);
    uint32_t status = (is_planar ? claxon_stream_next_block_planar : claxon_stream_next_block)(stream);
    expect(status == CLAXON_OK && stream->block.time == frame->time && stream->block.duration == frame->duration &&
               stream->position == frame->end,
           name, "the block after a seek");
    expect(status == CLAXON_OK && has_samples(stream, made, frame, is_planar), name, "the samples after a seek");
}

/* Seeks, and reads a block or two. */
static void test_sample(const char *name, struct claxon_stream *stream, const struct made *made, uint32_t sample) {
    const struct frame *frame = frame_with(made, sample);
    uint32_t status = claxon_stream_seek(stream, sample);
    expect(status == CLAXON_OK && stream->position == frame->at && !stream->error[0], name, "a seek");
    expect_block(name, stream, made, frame);
    if (frame < made->frames + made->count - 1 && frame[1].at == frame->end) {
        expect_block(name, stream, made, frame + 1);
    }
}

/* Any sample, or one at a border of any block. */
static uint32_t any_sample(const struct made *made, unsigned i) {
    const struct frame *frame = i < 2 ? &made->frames[i * (made->count - 1)] : &made->frames[below((uint32_t)made->count)];
    switch (i % 4) {
    case 0: return frame->time;
    case 1: return frame->time + frame->duration - 1;
    case 2: return frame->time + below(frame->duration);
    default: return below(made->samples);
    }
}

static void test_stream(const struct kind *kind, const struct made *made) {
    struct claxon_stream stream;
    struct source source = {made, 0, 0};
    size_t most = kind->most > 0 ? kind->most : MOST_OF_ALL * made->length, before;
    claxon_stream_init(&stream, read_source, &source);
    claxon_stream_set_seek(&stream, seek_source);
    for (unsigned i = 0; i < kind->seeks; i++) {
        before = source.read;
        test_sample(kind->name, &stream, made, any_sample(made, i));
        expect(source.read - before <= most, kind->name, "how many bytes are read for a seek and its blocks");
    }
    before = source.read;
    expect(claxon_stream_seek(&stream, made->samples) == CLAXON_NO_MORE, kind->name, "a sample that isn't there");
    expect(source.read - before <= MOST_OF_ALL * made->length, kind->name, "how many bytes are read for it");
    claxon_stream_free(&stream);
}

static void test_memory(const struct kind *kind, const struct made *made) {
    struct claxon_info info;
    char error[1];
    expect(claxon_open(made->bytes, made->length, &info, error, sizeof error) == CLAXON_OK, kind->name, "the head");
    for (unsigned i = 0; i < 4; i++) {
        uint32_t sample = any_sample(made, i);
        const struct frame *frame = frame_with(made, sample);
        struct claxon_block block;
        size_t at = 0;
        expect(claxon_seek(made->bytes, made->length, &info, sample, made->length, &at, &block) == CLAXON_OK &&
                   at == frame->at && block.time == frame->time && block.duration == frame->duration,
               kind->name, "claxon_seek");
    }
}

/* Memory that is refused. */

/* The next block, and again where memory was refused for it: nothing was lost then. */
static uint32_t next_block_again(const char *name, struct claxon_stream *stream, int is_planar) {
    uint64_t position = stream->position;
    uint32_t status = (is_planar ? claxon_stream_next_block_planar : claxon_stream_next_block)(stream);
    if (status == CLAXON_OUT_OF_MEMORY) {
        expect(stream->position == position && strcmp(stream->error, "out of memory") == 0, name, "a block that was refused");
        status = (is_planar ? claxon_stream_next_block_planar : claxon_stream_next_block)(stream);
    }
    return status;
}

/* A seek for which memory was refused. Returns whether it may be repeated: not where it was refused for the head, which has a
 * fault then. */
static int is_repeated(const char *name, struct claxon_stream *stream, uint32_t sample) {
    expect(strcmp(stream->error, "out of memory") == 0, name, "the text of a seek that was refused");
    if (claxon_stream_open(stream) != CLAXON_OK) {
        expect(claxon_stream_seek(stream, sample) == CLAXON_OUT_OF_MEMORY, name, "a seek after its head was refused");
        return 0;
    }
    expect(claxon_stream_next_block(stream) == CLAXON_READ_FAILED, name, "a block after a seek that was refused");
    return 1;
}

/* Refuses this request for memory, of all from the head of a stream up to some blocks after a seek. What was refused is called
 * again. The second block is read in the other form than the first one. Returns whether there was such a request. */
static int test_refused(const char *name, const struct made *made, uint32_t sample, size_t request) {
    const struct frame *frame = frame_with(made, sample);
    struct claxon_stream stream;
    struct source source = {made, 0, 0};
    int was_refused;
    uint32_t status;
    claxon_stream_init(&stream, read_source, &source);
    claxon_stream_set_seek(&stream, seek_source);
    requests = 0;
    refused_request = request;
    status = claxon_stream_seek(&stream, sample);
    if (status == CLAXON_OUT_OF_MEMORY && is_repeated(name, &stream, sample)) {
        status = claxon_stream_seek(&stream, sample);
    }
    if (status != CLAXON_OUT_OF_MEMORY) {
        expect(status == CLAXON_OK && stream.position == frame->at, name, "a seek again");
        for (int is_planar = 1; is_planar >= 0; is_planar--, frame++) {
            status = next_block_again(name, &stream, is_planar);
            expect(status == CLAXON_OK && stream.block.time == frame->time && has_samples(&stream, made, frame, is_planar),
                   name, "a block again");
        }
    }
    was_refused = requests >= request;
    refused_request = 0;
    if (status != CLAXON_OUT_OF_MEMORY) {
        test_sample(name, &stream, made, sample);
    }
    claxon_stream_free(&stream);
    return was_refused;
}

/* The frames are larger than what is held at first, or are searched one by one. */
static void test_refusals(void) {
    static const struct kind refused[] = {
        {"memory refused, frames of 262 KB", put_large, 65535, 65535, 0, 0},
        {"memory refused, frames out of order", put_out_of_order, BLOCK_SIZE, BLOCK_SIZE, 0, 0},
    };
    for (size_t i = 0; i < sizeof refused / sizeof *refused; i++) {
        struct made made = make(&refused[i], MEGABYTE);
        size_t request = 1;
        while (test_refused(refused[i].name, &made, made.frames[made.count / 2].time + 5, request)) {
            request++;
        }
        expect(request > 5, refused[i].name, "the number of requests that were refused");
        free(made.bytes);
        free(made.frames);
    }
}

/* Returns the processor time for each megabyte. */
static double test_kind(const struct kind *kind, size_t megabytes) {
    struct made made = make(kind, megabytes * MEGABYTE);
    clock_t start = clock();
    double seconds;
    test_stream(kind, &made);
    test_memory(kind, &made);
    seconds = (double)(clock() - start) / CLOCKS_PER_SEC;
    printf("long_seek: %6.3f s, %zu megabytes, %s\n", seconds, megabytes, kind->name);
    free(made.bytes);
    free(made.frames);
    return seconds / (double)megabytes;
}

int main(int argc, char **argv) {
    test_refusals();
    for (size_t i = 0; argc > 1 && i < sizeof kinds / sizeof *kinds; i++) {
        double first = test_kind(&kinds[i], strtoul(argv[1], NULL, 10));
        for (int j = 2; j < argc; j++) {
            /* A busy machine may take twice as long, and a fiftieth of a second more. */
            expect(test_kind(&kinds[i], strtoul(argv[j], NULL, 10)) <= 2 * first + 0.02, kinds[i].name,
                   "the time isn't linear");
        }
    }
    printf("long_seek: %d streams of each of %zu kinds, %d failures\n", argc - 1, sizeof kinds / sizeof *kinds, failures);
    return argc < 2 || failures != 0;
}
