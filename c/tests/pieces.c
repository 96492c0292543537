/* pieces FOLDER ROUNDS < LINES: tests the calls of claxon.h for streams in pieces.
 *
 * - Each file that a line `NAME COUNT HASH RESULT` names is handed in in pieces of several sizes. The number of its samples,
 *   their hash, and the result are compared. Of a file without a fault each block is answered when the last byte of its frame
 *   is there.
 * - The answers for files that are damaged in ROUNDS ways are compared with those of claxon_open, claxon_next_block and
 *   claxon_find_frame for the whole bytes.
 * - Positions, sizes of buffers and contents at their limits, and memory that is refused.
 *
 * It is linked with --wrap for malloc and realloc. */
#include "claxon.h"

#include "faults.h"
#include "known.h"

static int32_t samples[CLAXON_MAX_SAMPLES], whole_samples[CLAXON_MAX_SAMPLES];

/* Bytes of a stream, of which so many were handed in. Those before `dropped` are held no more. */
struct pieces {
    const uint8_t *bytes;
    size_t length, piece, given, dropped;
    uint64_t origin; /* the stream's positions are counted from here */
    uint8_t *copy;   /* of those that are held, so that what is read beside them is seen */
};

static const uint8_t *held(struct pieces *pieces) {
    free(pieces->copy);
    pieces->copy = malloc(pieces->given - pieces->dropped + 1);
    memcpy(pieces->copy, pieces->bytes + pieces->dropped, pieces->given - pieces->dropped);
    return pieces->copy;
}

/* What is held: the bytes, their number and position, and whether the stream ends with them. */
#define LENGTH(pieces) ((pieces)->given - (pieces)->dropped)
#define HELD(pieces) held(pieces), LENGTH(pieces), (pieces)->origin + (pieces)->dropped, (pieces)->given == (pieces)->length

/* Drops what isn't needed, and hands in the next piece. */
static void go_on(struct pieces *pieces, uint64_t position, size_t needed, const char *name) {
    size_t at = (size_t)(position - pieces->origin);
    expect(needed > 0 && pieces->given < pieces->length, name, "more is needed");
    expect(at >= pieces->dropped && at + needed > pieces->given, name, "what is needed is there");
    pieces->dropped = at < pieces->given ? at : pieces->given;
    pieces->given = pieces->length - pieces->given > pieces->piece ? pieces->given + pieces->piece : pieces->length;
}

/* Reads the head, and returns the last status. */
static uint32_t read_head(struct pieces *pieces, struct claxon_head *head, struct claxon_info *info, char *error, size_t size,
                          const char *name) {
    struct claxon_metadata metadata = {0, 0, 0, 0};
    uint32_t status;
    memset(info, 0, sizeof *info);
    claxon_head_start(head, pieces->origin);
    do {
        status = claxon_head_next(head, HELD(pieces), info, &metadata, error, size);
        expect((status == CLAXON_NEED_MORE) == (head->needed > 0), name, "the bytes that a head needs");
        if (status == CLAXON_NEED_MORE) {
            go_on(pieces, head->position, head->needed, name);
        }
    } while (status == CLAXON_OK || status == CLAXON_NEED_MORE);
    return status;
}

static uint32_t next_frame(struct pieces *pieces, struct claxon_frames *frames, const struct claxon_info *info, int planar,
                           struct claxon_block *block, char *error, size_t size, const char *name) {
    uint32_t status;
    do {
        status = planar ? claxon_frames_next_planar(frames, HELD(pieces), info, samples, CLAXON_MAX_SAMPLES, block, error, size)
                        : claxon_frames_next(frames, HELD(pieces), info, samples, CLAXON_MAX_SAMPLES, block, error, size);
        expect((status == CLAXON_NEED_MORE) == (frames->needed > 0), name, "the bytes that a frame needs");
        if (status == CLAXON_NEED_MORE) {
            go_on(pieces, frames->position, frames->needed, name);
        }
    } while (status == CLAXON_NEED_MORE);
    return status;
}

static uint32_t next_found(struct pieces *pieces, struct claxon_search *search, const struct claxon_info *info, uint64_t *found,
                           struct claxon_block *block, const char *name) {
    uint32_t status;
    do {
        status = claxon_search_next(search, HELD(pieces), info, found, block);
        expect((status == CLAXON_NEED_MORE) == (search->needed > 0), name, "the bytes that a search needs");
        if (status == CLAXON_NEED_MORE) {
            go_on(pieces, search->position, search->needed, name);
        }
    } while (status == CLAXON_NEED_MORE);
    return status;
}

/* A file whose result is known. Positions are counted from 1000. */
static void test_known(const struct known *known, const uint8_t *bytes, size_t length, size_t piece, int planar) {
    struct pieces pieces = {bytes, length, piece, 0, 0, 1000, NULL};
    struct claxon_head head;
    struct claxon_frames frames;
    struct claxon_info info;
    struct claxon_block block;
    struct tally tally = no_samples;
    char error[128] = "", text[256];
    uint32_t status = read_head(&pieces, &head, &info, error, sizeof error, known->name);
    claxon_frames_start(&frames, head.position);
    while (status == CLAXON_NO_MORE) {
        status = next_frame(&pieces, &frames, &info, planar, &block, error, sizeof error, known->name);
        if (status == CLAXON_OK) {
            size_t step = planar ? block.duration : 1, next = planar ? 1 : block.channels, end = frames.position - 1000;
            expect(strcmp(known->result, "ok") != 0 || pieces.given - end < piece || pieces.given == length, known->name,
                   "a block is late");
            for (size_t i = 0; i < block.duration; i++) {
                for (size_t ch = 0; ch < block.channels; ch++) {
                    add_sample(&tally, samples[ch * step + i * next]);
                }
            }
            status = CLAXON_NO_MORE;
        } else {
            break;
        }
    }
    result_of(status, error, text, sizeof text);
    expect(is_same_tally(tally, known->tally) && strcmp(text, known->result) == 0, known->name, text);
    free(pieces.copy);
}

/* Block after block, and after each fault the next frame that is found. */
static void compare_frames(struct pieces *pieces, const struct claxon_info *info, struct claxon_frames *frames,
                           const char *name) {
    struct claxon_search search;
    uint32_t status = CLAXON_OK;
    claxon_search_start(&search, frames->position);
    while (status == CLAXON_OK) {
        struct claxon_block block = {0, 0, 0, 0, 0}, other = {0, 0, 0, 0, 0};
        char error[128] = "", text[128] = "";
        uint64_t from = frames->position, found = 0, budget = UINT64_MAX;
        size_t at = (size_t)from;
        uint32_t wanted = claxon_next_block(pieces->bytes, pieces->length, &at, info, whole_samples, CLAXON_MAX_SAMPLES, &other,
                                            text, sizeof text);
        status = next_frame(pieces, frames, info, 0, &block, error, sizeof error, name);
        expect(status == wanted && strcmp(error, text) == 0 && is_same_block(&block, &other), name, "a frame");
        expect(status != CLAXON_OK || frames->position == at, name, "the position after a frame");
        expect(memcmp(samples, whole_samples, 4u * block.channels * block.duration) == 0, name, "samples");
        if (status == CLAXON_OK || status == CLAXON_NO_MORE) {
            continue;
        }
        expect(frames->position > from, name, "the position after a fault");
        at = (size_t)from + 1;
        wanted = claxon_find_frame(pieces->bytes, pieces->length, &at, info, &budget, &other);
        pieces->dropped = 0;
        claxon_search_go_on(&search, frames, from + 1);
        status = next_found(pieces, &search, info, &found, &block, name);
        expect(status == wanted && (status != CLAXON_OK || (found == at && is_same_block(&block, &other))), name, "a search");
        if (status == CLAXON_OK) {
            claxon_frames_go_on(frames, found);
        }
        expect(!search.has_passed_over, name, "a header is passed over");
    }
}

static void test_damaged(const char *name, const uint8_t *bytes, size_t length, unsigned rounds) {
    static const size_t sizes[] = {1, 2, 7, 100, 1460, SIZE_MAX};
    for (unsigned i = 0; i < rounds; i++) {
        uint8_t *damaged = malloc(length + 1);
        struct pieces pieces = {damaged, below(3) ? length : below((uint32_t)length + 1), sizes[below(6)], 0, 0, 0, NULL};
        struct claxon_head head;
        struct claxon_frames frames;
        struct claxon_info info, other;
        char error[128] = "", text[128] = "";
        memcpy(damaged, bytes, length);
        damage(damaged, pieces.length);
        uint32_t wanted = claxon_open(damaged, pieces.length, &other, text, sizeof text);
        uint32_t status = read_head(&pieces, &head, &info, error, sizeof error, name);
        expect(status == (wanted == CLAXON_OK ? (uint32_t)CLAXON_NO_MORE : wanted) && strcmp(error, text) == 0, name, "a head");
        expect(wanted != CLAXON_OK || memcmp(&info, &other, sizeof info) == 0, name, "the info of a head");
        if (wanted == CLAXON_OK) {
            expect(head.position == info.first_frame, name, "the position of the first frame");
            claxon_frames_start(&frames, head.position);
            compare_frames(&pieces, &info, &frames, name);
        }
        free(pieces.copy);
        free(damaged);
    }
}

/* A frame of 16 samples of 16 bits, a head of a streaminfo and a picture, and comments without tags. */
static const uint8_t frame[] = {0xff, 0xf8, 0x69, 0x08, 0x00, 0x0f, 0x30, 0x00, 0x12, 0x34, 0xaa, 0x3b};
static const uint8_t head_bytes[46] = {'f', 'L', 'a', 'C',  0,    0,    0,    34, 0, 16, 0, 16,       0,    0,    1,
                                       0,   1,   0,   0x0a, 0xc4, 0x40, 0xf0, 0,  0, 0,  4, [42] = 6, 0xff, 0xff, 0xff};
static const uint8_t comments[] = {0x84, 0, 0, 15, 0, 0, 0, 0, 1, 0, 0, 0, 3, 0, 0, 0, 'X', '=', 'Y'};

static void test_limits(void) {
    struct claxon_info none;
    struct claxon_frames frames, before;
    struct claxon_search search;
    struct claxon_block block = {0, 0, 0, 0, 0};
    const uint64_t end = UINT64_C(1) << 63;
    const size_t length = sizeof frame;
    uint64_t found = 0;
    char error[128] = "";
    memset(&none, 0, sizeof none);
    claxon_frames_start(&frames, end - length - 1);
    before = frames;
    expect(claxon_frames_next(&frames, frame, length, end - length, 1, &none, samples, 16, &block, error, sizeof error) ==
                   CLAXON_UNSUPPORTED &&
               strcmp(error, "positions from 2^63 on are not supported") == 0,
           "a position", "of 2^63");
    expect(memcmp(&before, &frames, sizeof frames) == 0 && block.channels == 0, "a position", "what is changed by 2^63");
    claxon_search_start(&search, end - length - 1);
    expect(claxon_search_next(&search, frame, length, end - length, 1, &none, &found, &block) == CLAXON_UNSUPPORTED,
           "a position", "of 2^63, in a search");
    expect(claxon_search_next(&search, frame, length, end - length - 1, 1, &none, &found, &block) == CLAXON_OK &&
               found == end - length - 1 && search.position == end - 1,
           "a position", "the last one, in a search");
    expect(claxon_frames_next(&frames, frame, length, end - length - 1, 1, &none, samples, 15, &block, error, 0) ==
                   CLAXON_BUFFER_TOO_SMALL &&
               block.duration == 16 && memcmp(&before, &frames, sizeof frames) == 0,
           "a frame", "that doesn't fit");
    expect(claxon_frames_next(&frames, frame, length, end - length, 1, &none, samples, 16, &block, error, 0) ==
               CLAXON_UNSUPPORTED,
           "a position", "of 2^63, without a text");
    expect(claxon_frames_next(&frames, frame, length, end - length - 1, 1, &none, samples, 16, &block, error, 0) == CLAXON_OK &&
               samples[15] == 0x1234 && frames.position == end - 1,
           "a frame", "that just fits");
    expect(claxon_frames_next(&frames, frame, 0, end - 1, 1, &none, samples, 16, &block, error, 0) == CLAXON_NO_MORE, "a frame",
           "after the last");
    claxon_frames_start(&frames, 100);
    expect(claxon_frames_next(&frames, frame, length, 101, 1, &none, samples, 16, &block, error, 0) == CLAXON_NEED_MORE &&
               frames.needed == 2 && frames.position == 100,
           "a frame", "before the bytes");
    expect(claxon_frames_next(&frames, frame, 5, 100, 0, &none, samples, 16, &block, error, 0) == CLAXON_NEED_MORE &&
               frames.needed == 6 && frames.position == 100,
           "a frame", "that isn't whole");
    claxon_frames_go_on(&frames, 200);
    expect(frames.position == 200 && frames.needed == 0, "a frame", "at another position");
}

/* Of a picture of the greatest length the last byte is needed; of comments all bytes. */
static void test_contents(void) {
    struct claxon_head head;
    struct claxon_info info;
    struct claxon_metadata metadata = {0, 0, 0, 0};
    const size_t picture = sizeof head_bytes, end = sizeof head_bytes + 0xffffff;
    char error[128] = "";
    uint32_t status;
    memset(&info, 0, sizeof info);
    claxon_head_start(&head, 0);
    expect(claxon_head_next(&head, head_bytes, 0, 0, 0, &info, &metadata, error, sizeof error) == CLAXON_NEED_MORE &&
               head.needed == 4,
           "a head", "of no bytes");
    for (unsigned part = CLAXON_MARKER; part != 4; part++) {
        status = claxon_head_next(&head, head_bytes, sizeof head_bytes, 0, 0, &info, &metadata, error, sizeof error);
        expect(status == CLAXON_OK && head.part == (part == 3 ? (unsigned)CLAXON_METADATA_HEADER : part), "a head", "a part");
    }
    expect(info.channels == 1 && info.bits_per_sample == 16 && metadata.type == CLAXON_PICTURE && metadata.content == picture &&
               metadata.length == 0xffffff && !metadata.is_last && head.position == end - 1 && head.begin == 42,
           "a head", "before a picture");
    expect(claxon_head_next(&head, comments, 0, end - 1, 0, &info, &metadata, error, 9) == CLAXON_NEED_MORE && head.needed == 1,
           "a head", "the last byte of a picture");
    expect(claxon_head_next(&head, comments, 1, end - 1, 0, &info, &metadata, error, 9) == CLAXON_OK && head.position == end,
           "a head", "after a picture");
    expect(claxon_head_next(&head, comments, 4, end, 0, &info, &metadata, error, 9) == CLAXON_OK && metadata.is_last, "a head",
           "the header of comments");
    expect(claxon_head_next(&head, comments, 18, end, 0, &info, &metadata, error, 9) == CLAXON_NEED_MORE && head.needed == 15 &&
               head.position == end + 4 && head.begin == end,
           "a head", "comments that aren't whole");
    refused_from = 1;
    requests = 0;
    expect(claxon_head_next(&head, comments, 19, end, 0, &info, &metadata, error, sizeof error) == CLAXON_OUT_OF_MEMORY &&
               strcmp(error, "out of memory") == 0 && info.tags == 0,
           "a head", "memory that is refused");
    refused_from = 0;
    expect(claxon_head_next(&head, comments, 19, end, 0, &info, &metadata, error, 9) == CLAXON_OK && info.tags == 1 &&
               head.part == CLAXON_METADATA_CONTENT,
           "a head", "comments");
    expect(claxon_head_next(&head, comments, 0, end + 19, 0, &info, &metadata, error, 9) == CLAXON_NO_MORE &&
               info.first_frame == end + 19 && head.position == end + 19,
           "a head", "its end");
    claxon_head_start(&head, 7);
    expect(claxon_head_next(&head, (const uint8_t *)"ID3", 3, 7, 1, &info, &metadata, error, 128) == CLAXON_INPUT_ENDS &&
               strcmp(error, "the bytes end") == 0 && head.begin == 7,
           "a head", "that is cut");
    expect(claxon_head_next(&head, (const uint8_t *)"ID3!", 4, 7, 1, &info, &metadata, error, 4) == CLAXON_FORMAT_ERROR &&
               strcmp(error, "str") == 0 && head.begin == 7,
           "a head", "that is none");
    expect(claxon_head_next(&head, comments, 4, (UINT64_C(1) << 63) - 4, 1, &info, &metadata, error, sizeof error) ==
                   CLAXON_UNSUPPORTED &&
               strcmp(error, "positions from 2^63 on are not supported") == 0,
           "a head", "at 2^63");
}

/* What a call says of zeros after a frame's header, from the position 100 on, and whether that is right. */
static void test_zeros(const uint8_t *bytes, size_t length, uint32_t is_end, uint32_t status, const char *text,
                       const char *what) {
    struct claxon_info none;
    struct claxon_frames frames;
    struct claxon_block block;
    char error[128] = "";
    size_t passed = status == CLAXON_NEED_MORE ? 0 : length < CLAXON_MAX_FRAME_BYTES ? length : CLAXON_MAX_FRAME_BYTES;
    memset(&none, 0, sizeof none);
    claxon_frames_start(&frames, 100);
    expect(claxon_frames_next(&frames, bytes, length, 100, is_end, &none, samples, 16, &block, error, sizeof error) == status &&
               strcmp(error, text) == 0 && frames.position == 100 + passed,
           "an endless frame", what);
}

/* A search isn't held up by it: it goes on 2^23 bytes after its first, where as many bytes are held as a frame may have. */
static void test_search_of_zeros(const uint8_t *bytes) {
    const size_t half = 1 << 23;
    struct claxon_info none;
    struct claxon_search search;
    struct claxon_block block;
    uint64_t found = 0;
    uint8_t rest[1 + sizeof frame] = {0}; /* the last zero, and a frame */
    memset(&none, 0, sizeof none);
    claxon_search_start(&search, 100);
    expect(claxon_search_next(&search, bytes, CLAXON_MAX_FRAME_BYTES - 1, 100, 0, &none, &found, &block) == CLAXON_NEED_MORE &&
               search.position == 100 && search.needed == CLAXON_MAX_FRAME_BYTES,
           "a search over an endless frame", "a byte less than the most");
    expect(claxon_search_next(&search, bytes, CLAXON_MAX_FRAME_BYTES, 100, 0, &none, &found, &block) == CLAXON_NEED_MORE &&
               search.position == 100 + half && search.needed == CLAXON_MAX_FRAME_BYTES - half + 1,
           "a search over an endless frame", "the most bytes");
    expect(claxon_search_next(&search, bytes + half, CLAXON_MAX_FRAME_BYTES - half, 100 + half, 0, &none, &found, &block) ==
                   CLAXON_NEED_MORE &&
               search.position == 100 + CLAXON_MAX_FRAME_BYTES - 1 && search.needed == 2,
           "a search over an endless frame", "its other half");
    memcpy(rest + 1, frame, sizeof frame);
    expect(claxon_search_next(&search, rest, sizeof rest, search.position, 0, &none, &found, &block) == CLAXON_OK &&
               found == 100 + CLAXON_MAX_FRAME_BYTES,
           "a search over an endless frame", "the frame after it");
    claxon_search_start(&search, 100);
    expect(claxon_search_next(&search, bytes, CLAXON_MAX_FRAME_BYTES, 100, 1, &none, &found, &block) == CLAXON_NO_MORE,
           "a search over an endless frame", "the end");
}

/* A frame has to end in as many bytes as a streaminfo can give. */
static void test_longest(void) {
    const char *longer = "frame longer than 16777215 bytes";
    uint8_t *bytes = calloc(1, CLAXON_MAX_FRAME_BYTES + 1);
    memcpy(bytes, frame, 7);
    bytes[7] = 0x10; /* a fixed predictor of order 0: then a run of zeros is a Rice code */
    test_zeros(bytes, CLAXON_MAX_FRAME_BYTES - 1, 0, CLAXON_NEED_MORE, "", "a byte less than the most");
    test_zeros(bytes, CLAXON_MAX_FRAME_BYTES - 1, 1, CLAXON_INPUT_ENDS, "the bytes end",
               "a byte less than the most at the end");
    test_zeros(bytes, CLAXON_MAX_FRAME_BYTES, 0, CLAXON_FORMAT_ERROR, longer, "the most bytes");
    test_zeros(bytes, CLAXON_MAX_FRAME_BYTES + 1, 0, CLAXON_FORMAT_ERROR, longer, "a byte more than the most");
    test_search_of_zeros(bytes);
    free(bytes);
}

/* Each request for memory is refused in turn: the call is repeated. */
static void test_memory(void) {
    struct claxon_info none;
    struct claxon_frames frames;
    struct claxon_search search;
    struct claxon_block block;
    uint64_t found = 0;
    char error[128] = "";
    memset(&none, 0, sizeof none);
    claxon_frames_start(&frames, 0);
    claxon_search_start(&search, 0);
    refused_from = 1;
    requests = 0;
    expect(claxon_frames_next(&frames, frame, sizeof frame, 0, 0, &none, samples, 16, &block, error, sizeof error) ==
                   CLAXON_OUT_OF_MEMORY &&
               strcmp(error, "out of memory") == 0 && frames.position == 0,
           "a frame", "memory that is refused");
    expect(claxon_search_next(&search, frame, sizeof frame, 0, 0, &none, &found, &block) == CLAXON_OUT_OF_MEMORY &&
               search.position == 0,
           "a search", "memory that is refused");
    refused_from = 0;
    expect(claxon_frames_next(&frames, frame, sizeof frame, 0, 0, &none, samples, 16, &block, error, 0) == CLAXON_OK, "a frame",
           "after memory was refused");
    expect(claxon_search_next(&search, frame, sizeof frame, 0, 0, &none, &found, &block) == CLAXON_OK && found == 0, "a search",
           "after memory was refused");
    expect(claxon_search_next(&search, frame, 0, sizeof frame, 1, &none, &found, &block) == CLAXON_NO_MORE, "a search",
           "after the last frame");
}

int main(int argc, char **argv) {
    static const size_t sizes[] = {1, 100, 1460, SIZE_MAX};
    unsigned rounds = argc == 3 ? (unsigned)strtoul(argv[2], NULL, 10) : 0;
    int files = 0;
    struct known known;
    while (argc == 3 && next_known(&known)) {
        size_t length = 0;
        uint8_t *bytes = read_file(argv[1], known.name, &length);
        for (size_t i = 0; bytes && i < 8; i++) {
            if (length <= 8192 || sizes[i / 2] > 1) {
                test_known(&known, bytes, length, sizes[i / 2], i % 2);
            }
        }
        if (bytes && length <= 8192) {
            test_damaged(known.name, bytes, length, rounds);
        }
        files += bytes != NULL;
        free(bytes);
    }
    expect(files > 0, "pieces", "no files");
    test_limits();
    test_contents();
    test_longest();
    test_memory();
    printf("pieces: %d files, %d failures\n", files, failures);
    return failures != 0;
}
