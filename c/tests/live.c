/* live FOLDER ROUNDS < LINES: tests that claxon_stream.h gives a block when the last byte of its frame was read.
 *
 * - The callback isn't called while a whole frame is held, and of bytes that are handed in each whole frame is given at once:
 *   of a stream of 149 frames of 4096 samples, of some with large frames, and of each file that a line `NAME COUNT HASH RESULT`
 *   names, in pieces of several sizes.
 * - Frames of one and a half megabytes are no exception.
 * - Another process sends the first stream through a pipe, and waits for each block before it goes on. Where a block is held
 *   back, both wait for ever: they are ended after two minutes. The pipe is also read as an event loop does it, which waits for
 *   bytes where a call needs more.
 * - A socket whose time to wait is up gives the same block later.
 *
 * With 0 ROUNDS the smaller files are read alone, for tools that make it slow. */
#define _POSIX_C_SOURCE 200809L
#include <fcntl.h>
#include <poll.h>
#include <sys/socket.h>
#include <sys/time.h>
#include <sys/types.h>
#include <sys/wait.h>
#include <unistd.h>

#include "claxon_stream.h"
#include "known.h"

#define FRAMES 149
#define FRAME_SAMPLES 4096

/* A stream, and where its frames end. */

struct live {
    uint8_t *bytes;
    size_t length, size;
    size_t first_frame;
    size_t ends[FRAMES];
    size_t frames;
};

static void put_byte(struct live *live, unsigned byte) {
    if (live->length == live->size) {
        live->size = 2 * live->size + 4096;
        live->bytes = realloc(live->bytes, live->size);
    }
    live->bytes[live->length++] = (uint8_t)byte;
}

static void put(struct live *live, const uint8_t *bytes, size_t length) {
    for (size_t i = 0; i < length; i++) {
        put_byte(live, bytes[i]);
    }
}

/* A block of padding follows the streaminfo. */
static void put_head(struct live *live, unsigned channels, unsigned bits) {
    uint8_t head[42] = {'f', 'L', 'a', 'C', 0, 0, 0, 34, 16, 0, 0xff, 0xff};
    const uint8_t padding[7] = {0x80 | CLAXON_PADDING, 0, 0, 3, 0, 0, 0};
    head[18] = 0x0a;
    head[19] = 0xc4;
    head[20] = (uint8_t)(0x40 | (channels - 1) << 1 | (bits - 1) >> 4);
    head[21] = (uint8_t)((bits - 1) << 4);
    put(live, head, sizeof head);
    put(live, padding, sizeof padding);
    live->first_frame = live->length;
}

/* What a frame has: its number, how many samples of each channel, and of how many bits those are; 0: each channel is constant.
 * Frames of other seeds have other samples. */
struct frame {
    unsigned number, duration, bits, channels, seed;
};

/* A number of the frame's bits that looks random. */
static int32_t sample_of(const struct frame *frame, unsigned channel, unsigned i) {
    uint32_t x = ((frame->seed * 100 + frame->number) * 8 + channel) * 0x10000u + (frame->bits ? i : 0);
    x = (x ^ x >> 15) * UINT32_C(2654435769);
    x = (x ^ x >> 13) * UINT32_C(2246822519);
    x = (x ^ x >> 16) >> (32 - (frame->bits ? frame->bits : 8));
    return (int32_t)x - (1 << ((frame->bits ? frame->bits : 8) - 1));
}

struct bits {
    struct live *live;
    unsigned bits, count;
};

static void put_bits(struct bits *to, uint32_t number, unsigned count) {
    while (count-- > 0) {
        to->bits = to->bits << 1 | (number >> count & 1);
        if (++to->count == 8) {
            put_byte(to->live, to->bits & 0xff);
            to->count = 0;
        }
    }
}

/* A constant channel; one of samples as they are; or one partition of them, after a predictor of order 0. */
static void put_channel(struct bits *to, const struct frame *frame, unsigned depth, unsigned channel) {
    if (frame->bits == 0) {
        put_bits(to, 0x00, 8);
        put_bits(to, (uint32_t)sample_of(frame, channel, 0), depth);
        return;
    }
    if (frame->channels > 2) {
        put_bits(to, 0x02, 8);
    } else {
        put_bits(to, 0x10, 8);
        put_bits(to, 0x00, 6);
        put_bits(to, 0x0f, 4);
        put_bits(to, frame->bits, 5);
    }
    for (unsigned i = 0; i < frame->duration; i++) {
        put_bits(to, (uint32_t)sample_of(frame, channel, i), frame->bits);
    }
}

static void put_frame(struct live *live, const struct frame *frame, unsigned depth) {
    size_t start = live->length;
    struct bits to = {live, 0, 0};
    uint8_t header[4] = {0xff, 0xf8, 0x79, (uint8_t)((frame->channels - 1) << 4)};
    unsigned crc, channel;
    put(live, header, 4);
    if (frame->number < 0x80) {
        put_byte(live, frame->number);
    } else {
        put_byte(live, 0xc0 | frame->number >> 6);
        put_byte(live, 0x80 | (frame->number & 0x3f));
    }
    put_byte(live, (frame->duration - 1) >> 8);
    put_byte(live, (frame->duration - 1) & 0xff);
    put_byte(live, crc_of(live->bytes + start, live->length - start, 0x107, 8));
    for (channel = 0; channel < frame->channels; channel++) {
        put_channel(&to, frame, depth, channel);
    }
    put_bits(&to, 0, (8 - to.count) % 8);
    crc = crc_of(live->bytes + start, live->length - start, 0x18005, 16);
    put_byte(live, crc >> 8);
    put_byte(live, crc & 0xff);
    live->ends[live->frames++] = live->length;
}

/* Each tenth frame is constant, in some 15 bytes; the others have up to 16 KiB. */
static struct frame frame_of(size_t number) {
    struct frame frame = {(unsigned)number, FRAME_SAMPLES, number % 10 == 9 ? 0 : 1 + (unsigned)number * 7 % 16, 2, 0};
    return frame;
}

/* Frames of 65535 samples, of nearly 400,000 bytes each. */
static struct frame large_frame_of(size_t number) {
    struct frame frame = {(unsigned)number, 65535, 24, 2, 0};
    return frame;
}

/* Constant frames of 65535 samples, in 15 bytes. */
static struct frame constant_frame_of(size_t number) {
    struct frame frame = {200 + (unsigned)number, 65535, 0, 2, 0};
    return frame;
}

/* Each seed gives other frames of eight channels of 65535 samples: of a megabyte, or of one and a half. */
static unsigned seed;

static struct frame huge_frame_of_16(size_t number) {
    struct frame frame = {(unsigned)number, 65535, 16, 8, seed};
    return frame;
}

static struct frame huge_frame_of_24(size_t number) {
    struct frame frame = {(unsigned)number, 65535, 24, 8, seed};
    return frame;
}

static struct live make(struct frame frame_at(size_t), size_t frames, unsigned depth) {
    struct live live = {NULL, 0, 0, 0, {0}, 0};
    put_head(&live, frame_at(0).channels, depth);
    for (size_t i = 0; i < frames; i++) {
        struct frame frame = frame_at(i);
        put_frame(&live, &frame, depth);
    }
    return live;
}

/* The samples of a block of a stream that was made. */
static void test_samples(const char *name, const struct claxon_stream *stream, const struct frame *frame) {
    size_t equal = 0;
    expect(stream->block.channels == 2 && stream->block.duration == frame->duration, name, "a block");
    for (unsigned i = 0; i < frame->duration; i++) {
        equal += stream->samples[2 * i] == sample_of(frame, 0, i) && stream->samples[2 * i + 1] == sample_of(frame, 1, i);
    }
    expect(equal == frame->duration, name, "the samples of a block");
}

/* A callback that would wait for ever where a block is to be given before. */

struct source {
    const struct live *live;
    size_t at, piece, limit;
};

static size_t read_source(void *from, uint8_t *bytes, size_t length) {
    struct source *source = from;
    size_t count = length < source->piece ? length : source->piece;
    expect(source->at < source->limit, "live", "a read before a block is given");
    count = count < source->live->length - source->at ? count : source->live->length - source->at;
    memcpy(bytes, source->live->bytes + source->at, count);
    source->at += count;
    return count;
}

static void test_callback(const char *name, const struct live *live, size_t piece, int planar) {
    struct claxon_stream stream;
    struct source source = {live, 0, piece, live->first_frame};
    claxon_stream_init(&stream, read_source, &source);
    expect(claxon_stream_open(&stream) == CLAXON_OK, name, "the head");
    for (size_t i = 0; i < live->frames; i++) {
        source.limit = live->ends[i];
        expect((planar ? claxon_stream_next_block_planar : claxon_stream_next_block)(&stream) == CLAXON_OK, name, "a frame");
        expect(stream.position == live->ends[i], name, "the end of a frame");
    }
    claxon_stream_free(&stream);
}

/* The next frame is found by resync before any byte after it is read. */
static void test_callback_after_damage(const char *name, const struct live *live, size_t piece) {
    struct claxon_stream stream;
    struct source source = {live, 0, piece, live->first_frame};
    live->bytes[live->ends[0] - 1] ^= 1;
    claxon_stream_init(&stream, read_source, &source);
    expect(claxon_stream_open(&stream) == CLAXON_OK, name, "the head");
    source.limit = live->ends[1];
    expect(claxon_stream_next_block(&stream) == CLAXON_FORMAT_ERROR, name, "a frame with a wrong CRC");
    expect(claxon_stream_resync(&stream) == CLAXON_OK && stream.position == live->ends[0], name, "resync");
    expect(claxon_stream_next_block(&stream) == CLAXON_OK && stream.position == live->ends[1], name, "a frame after resync");
    claxon_stream_free(&stream);
    live->bytes[live->ends[0] - 1] ^= 1;
}

static size_t frames_within(const struct live *live, size_t end) {
    size_t count = 0;
    while (count < live->frames && live->ends[count] <= end) {
        count++;
    }
    return count;
}

static void test_feed(const char *name, const struct live *live, size_t piece) {
    struct claxon_stream stream;
    size_t at = 0, blocks = 0;
    claxon_stream_init_push(&stream);
    while (at < live->length) {
        size_t count = live->length - at < piece ? live->length - at : piece;
        expect(claxon_stream_feed(&stream, live->bytes + at, count) == CLAXON_OK, name, "feed");
        at += count;
        expect((claxon_stream_open(&stream) == CLAXON_OK) == (at >= live->first_frame), name, "a head that is handed in");
        while (claxon_stream_next_block(&stream) == CLAXON_OK) {
            expect(blocks < live->frames && stream.position == live->ends[blocks], name, "the end of a frame");
            blocks++;
        }
        expect(blocks == frames_within(live, at), name, "the blocks of what was handed in");
    }
    expect(claxon_stream_next_block(&stream) == CLAXON_NEED_MORE && !stream.error[0], name, "the end before it is said");
    claxon_stream_feed_end(&stream);
    expect(claxon_stream_next_block(&stream) == CLAXON_NO_MORE && !stream.error[0], name, "the end");
    claxon_stream_free(&stream);
}

/* All is handed in at once, and each second frame has a wrong CRC: resync passes over none of the others. */
static void test_feed_of_damaged_frames(const struct live *live) {
    struct claxon_stream stream;
    for (size_t i = 0; i < live->frames; i += 2) {
        live->bytes[live->ends[i] - 1] ^= 1;
    }
    claxon_stream_init_push(&stream);
    expect(claxon_stream_feed(&stream, live->bytes, live->length) == CLAXON_OK, "damaged frames", "feed");
    for (size_t i = 0; i + 1 < live->frames; i += 2) {
        expect(claxon_stream_next_block(&stream) == CLAXON_FORMAT_ERROR, "damaged frames", "a frame with a wrong CRC");
        expect(claxon_stream_resync(&stream) == CLAXON_OK && stream.position == live->ends[i], "damaged frames", "resync");
        expect(claxon_stream_next_block(&stream) == CLAXON_OK && stream.position == live->ends[i + 1], "damaged frames",
               "a frame after resync");
    }
    claxon_stream_free(&stream);
    for (size_t i = 0; i < live->frames; i += 2) {
        live->bytes[live->ends[i] - 1] ^= 1;
    }
}

/* A process that sends the stream through a pipe, and reads a byte from another one for each block that was given. */

struct peer {
    pid_t process;
    int bytes, answers;
};

static void send_all(const struct live *live, size_t piece, int bytes, int answers) {
    size_t at = 0, answered = 0;
    char answer;
    alarm(120);
    while (at < live->length) {
        size_t count = live->length - at < piece ? live->length - at : piece;
        ssize_t sent = write(bytes, live->bytes + at, count);
        at += sent > 0 ? (size_t)sent : 0;
        if (sent <= 0) {
            _exit(1);
        }
        for (; answered < frames_within(live, at); answered++) {
            if (read(answers, &answer, 1) != 1) {
                _exit(1);
            }
        }
    }
    _exit(0);
}

static struct peer start(const struct live *live, size_t piece) {
    struct peer peer = {0, 0, 0};
    int bytes[2], answers[2];
    if (pipe(bytes) != 0 || pipe(answers) != 0 || (peer.process = fork()) < 0) {
        perror("live");
        exit(1);
    }
    if (peer.process == 0) {
        close(bytes[0]);
        close(answers[1]);
        send_all(live, piece, bytes[1], answers[0]);
    }
    close(bytes[1]);
    close(answers[0]);
    peer.bytes = bytes[0];
    peer.answers = answers[1];
    return peer;
}

static void finish(struct peer *peer) {
    int status = 1;
    close(peer->bytes);
    close(peer->answers);
    expect(waitpid(peer->process, &status, 0) == peer->process && status == 0, "a pipe", "the writer");
}

static void test_pipe(const struct live *live, size_t piece) {
    struct claxon_stream stream;
    struct peer peer = start(live, piece);
    size_t blocks = 0;
    claxon_stream_init(&stream, claxon_stream_read_fd, &peer.bytes);
    while (claxon_stream_next_block(&stream) == CLAXON_OK) {
        struct frame frame = frame_of(blocks++);
        test_samples("a pipe", &stream, &frame);
        expect(write(peer.answers, "", 1) == 1, "a pipe", "an answer");
    }
    expect(blocks == live->frames && !stream.error[0], "a pipe", "the end");
    claxon_stream_free(&stream);
    finish(&peer);
}

/* The next block of a descriptor that doesn't wait. */
static uint32_t next_when_ready(struct claxon_stream *stream, int fd, size_t *waits) {
    struct pollfd ready = {fd, POLLIN, 0};
    uint32_t status;
    while ((status = claxon_stream_next_block(stream)) == CLAXON_NEED_MORE) {
        expect(!stream->error[0] && poll(&ready, 1, -1) == 1, "an event loop", "more is needed");
        ++*waits;
    }
    return status;
}

static void test_event_loop(const struct live *live, size_t piece, int is_file) {
    struct claxon_stream stream;
    struct peer peer = start(live, piece);
    FILE *file = is_file ? fdopen(dup(peer.bytes), "rb") : NULL;
    size_t blocks = 0, waits = 0;
    uint32_t status;
    expect(fcntl(peer.bytes, F_SETFL, O_NONBLOCK) == 0, "an event loop", "a pipe that doesn't wait");
    claxon_stream_init(&stream, is_file ? claxon_stream_fread : claxon_stream_read_fd, is_file ? (void *)file : &peer.bytes);
    while ((status = next_when_ready(&stream, peer.bytes, &waits)) == CLAXON_OK) {
        struct frame frame = frame_of(blocks++);
        test_samples("an event loop", &stream, &frame);
        expect(write(peer.answers, "", 1) == 1, "an event loop", "an answer");
    }
    expect(status == CLAXON_NO_MORE && blocks == live->frames && !stream.error[0], "an event loop", "the end");
    expect(waits > 0, "an event loop", "that it waits");
    claxon_stream_free(&stream);
    if (file) {
        fclose(file);
    }
    finish(&peer);
}

/* The bytes of a frame, and each time that nothing was there. */
static void test_time_out(const struct live *live) {
    struct claxon_stream stream;
    const struct timeval soon = {0, 1000};
    const size_t places[4] = {live->first_frame - 1, live->first_frame, live->ends[0] - 1, live->ends[0]};
    size_t at = 0;
    int ends[2];
    expect(socketpair(AF_UNIX, SOCK_STREAM, 0, ends) == 0, "a socket", "socketpair");
    expect(setsockopt(ends[0], SOL_SOCKET, SO_RCVTIMEO, &soon, sizeof soon) == 0, "a socket", "its time");
    claxon_stream_init(&stream, claxon_stream_read_fd, &ends[0]);
    for (size_t i = 0; i < 4; i++) {
        expect(claxon_stream_next_block(&stream) == CLAXON_NEED_MORE && !stream.error[0], "a socket", "its time is up");
        expect(write(ends[1], live->bytes + at, places[i] - at) == (ssize_t)(places[i] - at), "a socket", "write");
        at = places[i];
    }
    expect(claxon_stream_next_block(&stream) == CLAXON_OK && stream.position == at, "a socket", "a block");
    close(ends[1]);
    expect(claxon_stream_next_block(&stream) == CLAXON_NO_MORE, "a socket", "the end");
    claxon_stream_free(&stream);
    close(ends[0]);
}

static void test_pipe_by_feed(const struct live *live, size_t piece) {
    struct claxon_stream stream;
    struct peer peer = start(live, piece);
    size_t blocks = 0;
    uint8_t bytes[5000];
    ssize_t count;
    claxon_stream_init_push(&stream);
    while ((count = read(peer.bytes, bytes, sizeof bytes)) > 0) {
        expect(claxon_stream_feed(&stream, bytes, (size_t)count) == CLAXON_OK, "a pipe", "feed");
        while (claxon_stream_next_block(&stream) == CLAXON_OK) {
            struct frame frame = frame_of(blocks++);
            test_samples("a pipe", &stream, &frame);
            expect(write(peer.answers, "", 1) == 1, "a pipe", "an answer");
        }
    }
    claxon_stream_feed_end(&stream);
    expect(claxon_stream_next_block(&stream) == CLAXON_NO_MORE && blocks == live->frames, "a pipe", "the end");
    claxon_stream_free(&stream);
    finish(&peer);
}

/* Streams, in pieces of many sizes. */

static void test_live(const char *name, const struct live *live) {
    static const size_t pieces[] = {1, 2, 7, 100, 1460, 4096, 70000, SIZE_MAX};
    for (size_t i = 0; i < sizeof pieces / sizeof *pieces; i++) {
        test_callback(name, live, pieces[i], 0);
        test_callback(name, live, pieces[i], 1);
        test_feed(name, live, pieces[i]);
    }
}

/* Frames in which the CRC is 0 by chance at many places. */
static void test_huge(unsigned depth) {
    struct live live = make(depth == 16 ? huge_frame_of_16 : huge_frame_of_24, 3, depth);
    const size_t pieces[2] = {1, 1460};
    expect(live.ends[0] - live.first_frame > 65535u * depth, "huge frames", "their size");
    for (size_t i = 0; i < 2; i++) {
        test_callback("huge frames", &live, pieces[i], 1);
        test_callback("huge frames", &live, pieces[i], 0);
        test_feed("huge frames", &live, pieces[i]);
    }
    free(live.bytes);
}

/* The head and the frames that a file begins with. */
static struct live live_of(uint8_t *bytes, size_t length) {
    static int32_t samples[CLAXON_MAX_SAMPLES];
    struct live live = {bytes, 0, length, 0, {0}, 0};
    struct claxon_info info;
    struct claxon_block block;
    char error[1];
    if (claxon_open(bytes, length, &info, error, sizeof error) == CLAXON_OK) {
        size_t at = live.length = live.first_frame = info.first_frame;
        while (live.frames < FRAMES && claxon_next_block(bytes, length, &at, &info, samples, CLAXON_MAX_SAMPLES, &block, error,
                                                         sizeof error) == CLAXON_OK) {
            live.ends[live.frames++] = live.length = at;
        }
    }
    return live;
}

static size_t test_files(const char *folder, size_t most) {
    struct known known;
    size_t files = 0;
    while (next_known(&known)) {
        size_t length = 0;
        uint8_t *bytes = read_file(folder, known.name, &length);
        struct live live = live_of(bytes, length);
        if (live.frames > 0 && length <= most) {
            test_live(known.name, &live);
            files++;
        }
        free(bytes);
    }
    return files;
}

int main(int argc, char **argv) {
    int is_whole = argc == 3 && strcmp(argv[2], "0") != 0;
    size_t files = argc == 3 ? test_files(argv[1], is_whole ? SIZE_MAX : 4096) : 0;
    expect(files > 0, "live", "no files");
    if (is_whole) {
        struct live live = make(frame_of, FRAMES, 16), large = make(large_frame_of, 3, 24);
        struct live constant = make(constant_frame_of, 16, 8);
        test_live("149 frames", &live);
        test_live("large frames", &large);
        test_live("constant frames", &constant);
        for (seed = 1; seed <= 3; seed++) {
            test_huge(16);
            test_huge(24);
        }
        test_feed_of_damaged_frames(&live);
        for (size_t piece = 1; piece <= 1460; piece += 1459) {
            test_callback_after_damage("149 frames", &live, piece);
            alarm(120);
            test_pipe(&live, piece);
            test_pipe_by_feed(&live, piece);
            alarm(120);
            test_event_loop(&live, piece, 0);
            test_event_loop(&live, piece, 1);
        }
        test_time_out(&live);
        free(live.bytes);
        free(large.bytes);
        free(constant.bytes);
    }
    printf("live: %zu files, %d failures\n", files, failures);
    return failures != 0;
}
