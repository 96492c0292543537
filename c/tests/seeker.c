/* seeker FOLDER ROUNDS < LINES: tests the calls of claxon.h for seeks in streams in pieces, and for times.
 *
 * - Streams that are made of four frames, numbered in three ways, of blocks of any size: each border is sought in pieces of
 *   several sizes, and each frame has its time.
 * - Each file that a line names is sought at the borders of its blocks, whole and damaged in ROUNDS ways: what is found is a
 *   frame with the sample by claxon_next_block, and none where claxon_seek finds none.
 * - Positions, sizes of buffers and the structs at their limits, and memory that is refused.
 *
 * It is linked with --wrap for malloc and realloc. */
#include "claxon.h"

#include "faults.h"
#include "known.h"

static int32_t samples[CLAXON_MAX_SAMPLES], whole_samples[CLAXON_MAX_SAMPLES];

/* The bytes of a stream, of which a piece is held. */
struct held {
    const uint8_t *bytes;
    size_t length, piece;
    uint64_t at, end; /* may be past the end of the bytes */
};

/* Goes to the bytes that are needed, and reads one piece of them. */
static void go_on(struct held *held, const struct claxon_seeker *seeker, const char *name) {
    uint64_t from = seeker->position < held->at || seeker->position > held->end ? seeker->position : held->end;
    expect(seeker->needed > 0 && (seeker->position < held->at || seeker->position + seeker->needed > held->end), name,
           "what is needed is there");
    held->at = seeker->position;
    held->end = held->piece < UINT64_MAX - from ? from + held->piece : UINT64_MAX;
    held->end = from > held->length ? from : held->end < held->length ? held->end : held->length;
}

/* Seeks, and returns the last status. */
static uint32_t sought(struct held *held, struct claxon_seeker *seeker, const struct claxon_info *info, int planar,
                       struct claxon_block *block, const char *name) {
    uint32_t status;
    do {
        size_t start = held->at < held->length ? (size_t)held->at : held->length, count = (size_t)(held->end - held->at);
        uint8_t *copy = malloc(count + 1);
        memcpy(copy, held->bytes + start, count);
        status = (planar ? claxon_seeker_next_planar : claxon_seeker_next)(
            seeker, copy, count, held->at, held->end >= held->length, info, samples, CLAXON_MAX_SAMPLES, block);
        free(copy);
        expect((status == CLAXON_NEED_MORE) == (seeker->needed > 0), name, "the bytes that a seek needs");
        if (status == CLAXON_NEED_MORE) {
            go_on(held, seeker, name);
        }
    } while (status == CLAXON_NEED_MORE);
    return status;
}

static uint32_t seek_in(const uint8_t *bytes, size_t length, size_t piece, const struct claxon_info *info, uint64_t told,
                        const struct claxon_clock *clock, uint64_t sample, struct claxon_seeker *seeker,
                        struct claxon_block *block, const char *name) {
    struct held held = {bytes, length, piece, 0, 0};
    claxon_seeker_start(seeker, info, told, sample, clock);
    return sought(&held, seeker, info, (int)(sample % 2), block, name);
}

/* Streams of one channel of 8 bits, whose blocks have one value. */

enum numbers { FRAMES, SAMPLES, OLD_SAMPLES };

/* Writes a frame of so many samples of a value. Returns its length, 12. (RFC 9639, section 9.) */
static size_t write_frame(uint8_t *bytes, enum numbers numbers, unsigned number, unsigned count, uint8_t value) {
    unsigned crc;
    const uint8_t header[7] = {0xff, numbers == SAMPLES ? 0xf9 : 0xf8, 0x79, 0x02, (uint8_t)number, 0, (uint8_t)(count - 1)};
    memcpy(bytes, header, 7);
    bytes[7] = crc8(bytes, 7);
    bytes[8] = 0;
    bytes[9] = value;
    crc = claxon_crc16(0, bytes, 10);
    bytes[10] = (uint8_t)(crc >> 8);
    bytes[11] = (uint8_t)crc;
    return 12;
}

struct row {
    enum numbers numbers;
    unsigned counts[4];
    uint16_t least, most;
    uint64_t times[5];
};

/* The first two frames tell what numbers count. `times` are the sums of `counts`. */
static const struct row rows[] = {
    {FRAMES, {16, 16, 16, 10}, 16, 16, {0, 16, 32, 48, 58}},      {FRAMES, {16, 16, 16, 10}, 10, 16, {0, 16, 32, 48, 58}},
    {SAMPLES, {16, 20, 10, 16}, 10, 20, {0, 16, 36, 46, 62}},     {OLD_SAMPLES, {16, 20, 10, 16}, 10, 20, {0, 16, 36, 46, 62}},
    {OLD_SAMPLES, {16, 16, 16, 16}, 15, 16, {0, 16, 32, 48, 64}},
};

/* Decodes all frames, and compares their times. Returns the clock after the first two. */
static struct claxon_clock walk(const struct row *row, const uint8_t *bytes, size_t length, const struct claxon_info *info) {
    struct claxon_clock clock, showing, first_two;
    struct claxon_frames frames;
    struct claxon_block block;
    char error[1];
    unsigned i;
    claxon_clock_start(&clock, info);
    first_two = clock;
    expect(claxon_clock_needs_frames(&clock) == (row->least != row->most), "a clock", "whether it needs frames");
    claxon_frames_start(&frames, 0);
    for (i = 0; i < 4; i++) {
        uint64_t time = 99, shown = 98;
        expect(claxon_frames_next(&frames, bytes, length, 0, 1, info, samples, 64, &block, error, 0) == CLAXON_OK, "a clock",
               "a frame");
        expect(frames.last.position == 12 * i && frames.last.end == 12 * i + 12 && frames.last.duration == row->counts[i] &&
                   frames.last.number == (row->numbers == FRAMES ? i : row->times[i]) &&
                   frames.last.is_variable == (row->numbers == SAMPLES),
               "a clock", "what is shown of a frame");
        expect(claxon_clock_time(&clock, &frames.last, &time) == 1 && time == row->times[i], "a clock", "a time");
        showing = clock;
        claxon_clock_show(&showing, info, &frames.last, &shown);
        expect(shown == (row->least == row->most ? 98 : row->times[i]), "a clock", "a time that is shown");
        claxon_clock_note(&clock, &frames.last);
        expect(memcmp(&showing, &clock, sizeof clock) == 0, "a clock", "that a frame is noted once it is shown");
        expect(row->numbers != SAMPLES || !claxon_clock_needs_frames(&clock), "a clock", "what it knows of a variable size");
        first_two = i == 1 ? clock : first_two;
    }
    expect(!claxon_clock_needs_frames(&first_two), "a clock", "what it knows after two frames");
    return first_two;
}

static void test_row(const struct row *row) {
    static const size_t pieces[] = {1, 5, SIZE_MAX};
    static const uint64_t lengths[] = {48, 20, 1000, UINT64_MAX};
    uint8_t bytes[48];
    struct claxon_info info;
    struct claxon_clock clock;
    size_t i, j, length = 0;
    memset(&info, 0, sizeof info);
    info.channels = 1;
    info.bits_per_sample = 8;
    info.min_block_size = row->least;
    info.max_block_size = row->most;
    for (i = 0; i < 4; i++) {
        unsigned number = row->numbers == FRAMES ? (unsigned)i : (unsigned)row->times[i];
        length += write_frame(bytes + length, row->numbers, number, row->counts[i], (uint8_t)(i + 1));
    }
    clock = walk(row, bytes, length, &info);
    for (i = 0; i < 12; i++) {
        for (j = 0; j <= row->times[4] + 1; j++) {
            struct claxon_seeker seeker;
            struct claxon_block block = {0, 0, 0, 0, 0};
            unsigned at = j < row->times[1] ? 0 : j < row->times[2] ? 1 : j < row->times[3] ? 2 : 3;
            uint32_t status =
                seek_in(bytes, length, pieces[i % 3], &info, lengths[i / 3], &clock, j, &seeker, &block, "a seek");
            expect(status == (j < row->times[4] ? CLAXON_OK : CLAXON_NO_MORE), "a seek", "its status");
            expect(status != CLAXON_OK ||
                       (seeker.found.position == 12 * at && seeker.found.end == 12 * at + 12 && block.time == row->times[at] &&
                        block.duration == row->counts[at] && samples[0] == (int)at + 1),
                   "a seek", "what is found");
        }
    }
}

/* A clock that has seen nothing doesn't know the times of a stream with two block sizes; frames that it hasn't seen as the
 * first ones tell it, too. */
static void test_unknown(void) {
    struct claxon_info none;
    struct claxon_clock clock;
    struct claxon_frame frame = {100, 112, 5, 16, 0}, next = {112, 124, 6, 16, 0}, other = {500, 512, 9, 10, 0};
    uint64_t time = 99;
    memset(&none, 0, sizeof none);
    claxon_clock_start(&clock, &none);
    expect(claxon_clock_time(&clock, &frame, &time) == 0 && time == 99, "a clock", "a time that isn't known");
    claxon_clock_note(&clock, &frame);
    expect(claxon_clock_time(&clock, &next, &time) == 0 && time == 99, "a clock", "the time of the second frame");
    claxon_clock_note(&clock, &next);
    expect(claxon_clock_time(&clock, &other, &time) == 1 && time == 9 * 16, "a clock", "the time of any frame");
    frame.is_variable = 1;
    frame.number = 1000;
    expect(claxon_clock_time(&clock, &frame, &time) == 1 && time == 1000, "a clock", "a number of a sample");
}

/* Files. */

static int has_sample(const struct claxon_block *block, uint64_t sample) {
    return block->time <= sample && sample - block->time < block->duration;
}

/* What is found is what claxon_next_block says of the position, and it has the sample. */
static void expect_found(const char *name, const uint8_t *bytes, size_t length, const struct claxon_info *info, uint64_t sample,
                         int planar, const struct claxon_seeker *seeker, const struct claxon_block *block) {
    struct claxon_block other;
    size_t at = (size_t)seeker->found.position;
    char error[1];
    uint32_t status = (planar ? claxon_next_block_planar : claxon_next_block)(bytes, length, &at, info, whole_samples,
                                                                              CLAXON_MAX_SAMPLES, &other, error, 0);
    size_t size = sizeof *samples * block->channels * block->duration;
    other.time = block->time;
    expect(status == CLAXON_OK && at == seeker->found.end && is_same_block(block, &other) && has_sample(block, sample), name,
           "the frame that is found");
    expect(memcmp(samples, whole_samples, size) == 0, name, "its samples");
}

static void test_file(const char *name, const uint8_t *bytes, size_t length, const struct claxon_info *info) {
    static const size_t sizes[] = {100, 1460, SIZE_MAX};
    struct claxon_clock clock;
    size_t i;
    claxon_clock_start(&clock, info);
    for (i = 0; i < 12; i++) {
        const uint64_t total = info->samples ? info->samples : 100000, step = total / 7 + 1;
        const uint64_t sample = i < 8 ? i * step : i == 8 ? total - 1 : i == 9 ? total : i == 10 ? 4096 : UINT64_MAX;
        struct claxon_seeker seeker;
        struct claxon_block block = {0, 0, 0, 0, 0}, other;
        size_t at = 0;
        uint32_t wanted = claxon_seek(bytes, length, info, sample, UINT64_MAX, &at, &other);
        uint32_t status = seek_in(bytes, length, sizes[below(3)], info, below(2) ? length : UINT64_MAX, &clock, sample, &seeker,
                                  &block, name);
        expect(status == wanted, name, "whether a frame is found");
        if (status == CLAXON_OK) {
            expect_found(name, bytes, length, info, sample, (int)(sample % 2), &seeker, &block);
        }
    }
}

static void test_files(const char *name, const uint8_t *bytes, size_t length, unsigned rounds) {
    struct claxon_info info;
    char error[1];
    unsigned i;
    for (i = 0; i <= rounds; i++) {
        uint8_t *damaged = malloc(length + 1);
        size_t left = i > 0 && below(2) ? below((uint32_t)length + 1) : length;
        memcpy(damaged, bytes, length);
        if (i > 0) {
            damage(damaged, left);
        }
        /* with one block size the clock says what headers say */
        if (claxon_open(damaged, left, &info, error, 0) == CLAXON_OK && info.min_block_size == info.max_block_size) {
            test_file(name, damaged, left, &info);
        }
        free(damaged);
    }
}

/* Limits. */

static void test_limits(void) {
    const uint64_t end = UINT64_C(1) << 63;
    struct claxon_info none;
    struct claxon_clock clock;
    struct claxon_seeker seeker, before, twice[2];
    struct claxon_block block = {0, 0, 0, 0, 0};
    uint8_t bytes[12];
    size_t i;
    write_frame(bytes, FRAMES, 0, 16, 7);
    memset(&none, 0, sizeof none);
    claxon_clock_start(&clock, &none);
    memset(twice, 0x55, sizeof twice);
    claxon_seeker_start(twice, &none, 12, 3, &clock);
    for (i = 0; i < sizeof seeker; i++) {
        expect(((uint8_t *)(twice + 1))[i] == 0x55, "a seeker", "what is written after it");
    }
    claxon_seeker_start(&seeker, &none, 12, 3, &clock);
    before = seeker;
    expect(claxon_seeker_next(&seeker, bytes, 12, end - 12, 1, &none, samples, 16, &block) == CLAXON_UNSUPPORTED &&
               memcmp(&before, &seeker, sizeof seeker) == 0 && block.channels == 0,
           "a seeker", "a position of 2^63");
    expect(claxon_seeker_next(&seeker, bytes, 12, 0, 1, &none, samples, 15, &block) == CLAXON_BUFFER_TOO_SMALL &&
               memcmp(&before, &seeker, sizeof seeker) == 0 && block.duration == 16,
           "a seeker", "samples that don't fit");
    refused_from = 1;
    requests = 0;
    expect(claxon_seeker_next(&seeker, bytes, 12, 0, 1, &none, samples, 16, &block) == CLAXON_OUT_OF_MEMORY, "a seeker",
           "memory that is refused");
    refused_from = 0;
    expect(claxon_seeker_next(&seeker, bytes, 12, 0, 1, &none, samples, 16, &block) == CLAXON_OK && samples[15] == 7 &&
               seeker.found.end == 12 && seeker.position == 0,
           "a seeker", "after memory was refused");
    none.first_frame = 1;
    claxon_seeker_start(&seeker, &none, 12, 3, &clock);
    expect(claxon_seeker_next(&seeker, bytes, 12, 0, 1, &none, samples, 16, &block) == CLAXON_NO_MORE && seeker.needed == 0,
           "a seeker", "a frame before the first one");
}

int main(int argc, char **argv) {
    unsigned rounds = argc == 3 ? (unsigned)strtoul(argv[2], NULL, 10) : 0;
    int files = 0;
    struct known known;
    size_t i;
    while (argc == 3 && next_known(&known)) {
        size_t length = 0;
        uint8_t *bytes = read_file(argv[1], known.name, &length);
        if (bytes && (rounds > 0 || length <= 4096)) {
            test_files(known.name, bytes, length, rounds);
            files++;
        }
        free(bytes);
    }
    for (i = 0; i < sizeof rows / sizeof *rows; i++) {
        test_row(&rows[i]);
    }
    test_unknown();
    test_limits();
    expect(files > 0, "seeker", "no files");
    printf("seeker: %d files, %d failures\n", files, failures);
    return failures != 0;
}
