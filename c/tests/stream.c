/* stream FOLDER ROUNDS < LINES: tests claxon_stream.h.
 *
 * - Each file that a line `NAME COUNT HASH RESULT` names is read in pieces of several sizes. The number of its samples, the
 *   FNV-1a hash of their little-endian bytes, and the result are compared: `ok`, the error, or `IO` where the bytes end.
 * - What a stream gives is compared with what claxon_open and claxon_next_block give for the whole bytes: of files that are
 *   cut, or damaged in ROUNDS ways each, of heads that are made up, and of heads at each limit.
 * - Reading fails, memory is refused, a frame has no end.
 * - All but failing reads is tried with bytes that are handed in too, and with a callback that can't read each other time.
 *
 * With 0 ROUNDS small files are read alone, for tools that make it slow.
 * It is linked with --wrap for malloc and realloc, so that it can refuse memory and sees how much is asked for at once. */
#include "claxon_stream.h"

#include "faults.h"
#include "known.h"

/* How a stream gets its bytes: a callback reads them; they are handed in; or a callback that can't read each other time. */
enum way { PULL, PUSH, PAUSING, WAYS };

/* Bytes that are read in pieces. */

struct source {
    const uint8_t *bytes;
    size_t length;
    size_t at;
    size_t piece;    /* how many bytes are given at most */
    size_t fails_at; /* where reading fails */
    int has_ended;
    size_t calls; /* how many there were */
    enum way way;
};

static size_t read_source(void *from, uint8_t *bytes, size_t length) {
    struct source *source = from;
    size_t count = length < source->piece ? length : source->piece;
    source->calls++;
    expect(length > 0 && !source->has_ended, "read", "a call for nothing, or after the end");
    if (source->way == PAUSING && source->calls % 2 == 1) {
        return CLAXON_NOT_NOW;
    }
    count = count < source->length - source->at ? count : source->length - source->at;
    if (source->at + count > source->fails_at) {
        count = source->fails_at - source->at;
        if (count == 0) {
            source->has_ended = 1;
            return (size_t)-1;
        }
    }
    source->has_ended = count == 0;
    if (count > 0) {
        memcpy(bytes, source->bytes + source->at, count);
    }
    source->at += count;
    return count;
}

static struct source pieces_of(const uint8_t *bytes, size_t length, size_t piece) {
    struct source source = {bytes, length, 0, piece, SIZE_MAX, 0, 0, PULL};
    return source;
}

/* Begins a stream that gets the bytes of the source. */
static void begin(struct claxon_stream *stream, struct source *source, enum way way) {
    source->way = way;
    if (way == PUSH) {
        claxon_stream_init_push(stream);
    } else {
        claxon_stream_init(stream, read_source, source);
    }
}

/* Hands in the next piece, or the end, where a call needs it. Returns whether it is to be repeated. */
static int feeds(struct claxon_stream *stream, struct source *source, uint32_t status) {
    size_t count = source->length - source->at;
    count = count < source->piece ? count : source->piece;
    if (status != CLAXON_NEED_MORE) {
        return 0;
    }
    expect(source->way != PULL && !source->has_ended && !stream->error[0], "feed", "more is needed");
    if (source->way == PAUSING) {
        return 1;
    }
    if (count > 0) {
        /* A copy, so that what is read after its end is seen. */
        uint8_t *piece = malloc(count);
        memcpy(piece, source->bytes + source->at, count);
        expect(claxon_stream_feed(stream, piece, count) == CLAXON_OK, "feed", "its status");
        free(piece);
    } else {
        claxon_stream_feed_end(stream);
        source->has_ended = 1;
    }
    source->at += count;
    return 1;
}

typedef uint32_t stream_call(struct claxon_stream *);

/* Calls until no more is needed. */
static uint32_t call(stream_call *next, struct claxon_stream *stream, struct source *source) {
    uint32_t status;
    do {
        status = next(stream);
    } while (feeds(stream, source, status));
    return status;
}

/* Samples. */

/* Adds samples in the order of time. In memory the next channel is at a distance of `step`, and the next time of `next`. */
static void add_samples(struct tally *tally, const int32_t *samples, const struct claxon_block *block, size_t step,
                        size_t next) {
    for (size_t i = 0; i < block->duration; i++) {
        for (size_t ch = 0; ch < block->channels; ch++) {
            add_sample(tally, samples[ch * step + i * next]);
        }
    }
}

static void add_interleaved(struct tally *tally, const int32_t *samples, const struct claxon_block *block) {
    add_samples(tally, samples, block, 1, block->channels);
}

static int is_same_info(const struct claxon_info *a, const struct claxon_info *b) {
    return a->first_frame == b->first_frame && a->tags == b->tags && a->samples == b->samples &&
           a->sample_rate == b->sample_rate && a->channels == b->channels && a->bits_per_sample == b->bits_per_sample &&
           a->min_frame_size == b->min_frame_size && a->max_frame_size == b->max_frame_size &&
           a->min_block_size == b->min_block_size && a->max_block_size == b->max_block_size && memcmp(a->md5, b->md5, 16) == 0;
}

/* Files whose results are known. */

static void test_known(const struct known *known, const uint8_t *bytes, size_t length) {
    static const size_t pieces[] = {SIZE_MAX, 4099, 997, 61, 7, 1};
    for (size_t i = 0; i < 36; i++) {
        struct claxon_stream stream;
        struct source source = pieces_of(bytes, length, pieces[i / 6]);
        struct tally tally = no_samples;
        int planar = i % 2;
        char text[256];
        uint32_t status;
        begin(&stream, &source, (enum way)(i / 2 % WAYS));
        while ((status = call(planar ? claxon_stream_next_block_planar : claxon_stream_next_block, &stream, &source)) ==
               CLAXON_OK) {
            size_t channels = stream.block.channels, duration = stream.block.duration;
            add_samples(&tally, stream.samples, &stream.block, planar ? duration : 1, planar ? 1 : channels);
        }
        result_of(status, stream.error, text, sizeof text);
        if (!is_same_tally(tally, known->tally) || strcmp(text, known->result) != 0) {
            printf("%s by %zu, planar %d: %" PRIu64 " %016" PRIx64 " %s\n", known->name, source.piece, planar, tally.count,
                   tally.hash, text);
            failures++;
        }
        expect((status == CLAXON_NO_MORE) == (stream.error[0] == 0), known->name, "a text at the end");
        expect(stream.position <= length && (status != CLAXON_NO_MORE || stream.position + 1 >= length), known->name,
               "the position at the end");
        source.calls /= source.way == PAUSING ? 2 : 1;
        expect(source.piece != SIZE_MAX || source.calls <= 2 + 2 * length / 65536, known->name, "the number of reads");
        claxon_stream_free(&stream);
    }
}

/* Any bytes: the same as of the whole of them in memory. */

static int32_t samples[CLAXON_MAX_SAMPLES];

struct whole {
    const uint8_t *bytes;
    size_t length;
    size_t at;
    struct claxon_info info;
    struct claxon_block block;
    char error[128];
};

static uint32_t next_of_whole(struct whole *whole) {
    return claxon_next_block(whole->bytes, whole->length, &whole->at, &whole->info, samples, CLAXON_MAX_SAMPLES, &whole->block,
                             whole->error, sizeof whole->error);
}

/* Whether a frame of the stream begins there: with its number of channels and its bit depth, if these are known. */
static int is_frame_at(struct whole *whole, size_t at) {
    static const uint32_t bits[8] = {0, 8, 12, 0, 16, 20, 24, 32}; /* RFC 9639, section 9.1.4; 0: that of the stream */
    whole->at = at;
    if (at + 4 > whole->length || whole->bytes[at] != 0xff || next_of_whole(whole) != CLAXON_OK) {
        return 0;
    }
    if (whole->info.bits_per_sample > 0 && bits[whole->bytes[at + 3] >> 1 & 7] > 0 &&
        bits[whole->bytes[at + 3] >> 1 & 7] != whole->info.bits_per_sample) {
        return 0;
    }
    return whole->info.channels == 0 || whole->block.channels == whole->info.channels;
}

/* Goes to the next position at which a frame of the stream begins, after the present one. */
static uint32_t resync_of_whole(struct whole *whole) {
    for (size_t at = whole->at + 1; at < whole->length; at++) {
        if (is_frame_at(whole, at)) {
            whole->at = at;
            return CLAXON_OK;
        }
    }
    return CLAXON_NO_MORE;
}

static int is_fault(uint32_t status) {
    return status != CLAXON_OK && status != CLAXON_NO_MORE;
}

/* Compares block after block, and goes on after each fault. Returns the number of blocks. */
static size_t compare_frames(const char *name, struct claxon_stream *stream, struct source *source, struct whole *whole) {
    size_t blocks = 0;
    uint32_t status, expected;
    do {
        size_t before = whole->at;
        status = call(claxon_stream_next_block, stream, source);
        expected = next_of_whole(whole);
        expect(status == expected, name, "the status of a block");
        expect(!is_fault(expected) || strcmp(stream->error, whole->error) == 0, name, "the text of a frame's fault");
        expect(stream->position == whole->at && (expected == CLAXON_OK || whole->at == before), name, "the position");
        if (status == CLAXON_OK && expected == CLAXON_OK) {
            size_t count = (size_t)whole->block.channels * whole->block.duration;
            expect(is_same_block(&stream->block, &whole->block), name, "a block");
            expect_format(name, &stream->block, whole->bytes + before);
            expect(memcmp(stream->samples, samples, count * sizeof *samples) == 0, name, "the samples of a block");
            blocks++;
        } else if (is_fault(expected)) {
            status = call(claxon_stream_resync, stream, source);
            expected = resync_of_whole(whole);
            expect(status == expected, name, "the status of resync");
            expect(expected != CLAXON_OK || stream->position == whole->at, name, "the position after resync");
        }
    } while (status == CLAXON_OK && expected == CLAXON_OK);
    return blocks;
}

/* Returns the number of blocks, and leaves the text of the head's fault, or "", in `text`. */
static size_t compare_form(const char *name, const uint8_t *bytes, size_t length, size_t piece, enum way way, char *text,
                           size_t size) {
    struct claxon_stream stream;
    struct source source = pieces_of(bytes, length, piece);
    struct whole whole = {bytes, length, 0, {0}, {0}, ""};
    size_t blocks = 0;
    uint32_t status, expected = claxon_open(bytes, length, &whole.info, whole.error, sizeof whole.error);
    begin(&stream, &source, way);
    status = call(claxon_stream_open, &stream, &source);
    expect(status == expected, name, "the status of a head");
    snprintf(text, size, "%s", stream.error);
    if (expected == CLAXON_OK && status == CLAXON_OK) {
        expect(is_same_info(&stream.info, &whole.info), name, "the info of a head");
        whole.at = whole.info.first_frame;
        blocks = compare_frames(name, &stream, &source, &whole);
    } else {
        expect(strcmp(stream.error, whole.error) == 0, name, "the text of a head's fault");
        expect(claxon_stream_next_block(&stream) == status && claxon_stream_open(&stream) == status, name,
               "the status after a head's fault");
        expect(strcmp(stream.error, whole.error) == 0, name, "the text after a head's fault");
    }
    claxon_stream_free(&stream);
    return blocks;
}

static size_t compare(const char *name, const uint8_t *bytes, size_t length, size_t piece, char *text, size_t size) {
    compare_form(name, bytes, length, piece, PUSH, text, size);
    compare_form(name, bytes, length, piece, PAUSING, text, size);
    return compare_form(name, bytes, length, piece, PULL, text, size);
}

static size_t any_piece(void) {
    static const size_t pieces[] = {1, 2, 3, 5, 16, 100, 1000, SIZE_MAX};
    return pieces[below(8)];
}

/* Damaged files. */

static size_t damaged_blocks;

static void test_damaged(const char *name, const uint8_t *bytes, size_t length, unsigned rounds) {
    char text[128];
    uint8_t *damaged = malloc(length + 1);
    for (unsigned i = 0; i < rounds; i++) {
        size_t kept = below(3) ? length : below((uint32_t)length + 1);
        memcpy(damaged, bytes, length);
        damage(damaged, below(2) || kept < 100 ? kept : 100);
        damaged_blocks += compare(name, damaged, kept, any_piece(), text, sizeof text);
    }
    free(damaged);
}

static void test_cut(const char *name, const uint8_t *bytes, size_t length) {
    char text[128];
    for (size_t kept = 0; kept < length; kept += 1 + below((uint32_t)kept / 100)) {
        uint8_t *cut = malloc(kept + 1); /* so that what is read after its end is seen */
        memcpy(cut, bytes, kept);
        compare(name, cut, kept, any_piece(), text, sizeof text);
        free(cut);
    }
}

/* Heads that are made up. */

struct made {
    uint8_t *bytes;
    size_t length;
    size_t size;
};

/* Makes room for so many bytes at the end, and returns where they are. */
static uint8_t *put_space(struct made *made, size_t length) {
    if (made->size - made->length < length) {
        made->size = 2 * (made->size + length);
        made->bytes = realloc(made->bytes, made->size);
    }
    made->length += length;
    return made->bytes + made->length - length;
}

static void put(struct made *made, const void *bytes, size_t length) {
    memcpy(put_space(made, length), bytes, length);
}

static void put_many(struct made *made, int byte, size_t count) {
    if (count > 0) {
        memset(put_space(made, count), byte, count);
    }
}

static void put_byte(struct made *made, unsigned byte) {
    *put_space(made, 1) = (uint8_t)byte;
}

static void put_header(struct made *made, unsigned type, int is_last, size_t length) {
    put_byte(made, type | (is_last ? 0x80u : 0u));
    put_byte(made, (unsigned)(length >> 16 & 0xff));
    put_byte(made, (unsigned)(length >> 8 & 0xff));
    put_byte(made, (unsigned)(length & 0xff));
}

/* One channel of 16 bits, 4 samples. */
static void put_streaminfo(struct made *made, int is_last) {
    static const uint8_t content[34] = {0, 16, 0, 16, 0, 0, 1, 0, 1, 0, 0x0a, 0xc4, 0x40, 0xf0, 0, 0, 0, 4};
    put_header(made, CLAXON_STREAMINFO, is_last, 34);
    put(made, content, 34);
}

static void put_number(struct made *made, uint32_t number) {
    for (int i = 0; i < 4; i++) {
        put_byte(made, number >> 8 * i & 0xff);
    }
}

/* Comments with a vendor string of three bytes and so many tags. They say that there are `count`. */
static void put_comments(struct made *made, int is_last, uint32_t tags, uint32_t count) {
    put_header(made, CLAXON_VORBIS_COMMENT, is_last, 11 + 7 * (size_t)tags);
    put_number(made, 3);
    put(made, "abc", 3);
    put_number(made, count);
    for (uint32_t i = 0; i < tags; i++) {
        put_number(made, 3);
        put(made, "X=Y", 3);
    }
}

/* A block of any kind, right or wrong. */
static void put_any_block(struct made *made) {
    static const uint8_t types[] = {1, 2, 2, 3, 5, 6, 7, 126, 127};
    int is_last = below(4) == 0;
    size_t length = below(40);
    uint32_t tags = below(4);
    switch (below(8)) {
    case 0: put_streaminfo(made, is_last); break;
    case 1:
    case 2:
    case 3: put_comments(made, is_last, tags, below(4) ? tags : tags + below(4)); break;
    case 4:
        put_header(made, below(2) ? CLAXON_VORBIS_COMMENT : CLAXON_APPLICATION, is_last,
                   below(3) ? length : 10485759 + below(4));
        put_many(made, (int)below(4), length);
        break;
    default: put_header(made, types[below(sizeof types)], is_last, length); put_many(made, (int)below(256), length);
    }
}

#define MOST_TEXTS 64

static char texts[MOST_TEXTS][128];

/* Counts the texts of faults that were seen. */
static size_t note_text(const char *text) {
    size_t count = 0;
    while (count < MOST_TEXTS - 1 && texts[count][0]) {
        if (strcmp(texts[count], text) == 0) {
            return count;
        }
        count++;
    }
    snprintf(texts[count], sizeof texts[count], "%s", text);
    return count;
}

static int was_seen(const char *text) {
    for (size_t i = 0; i < MOST_TEXTS; i++) {
        if (strcmp(texts[i], text) == 0) {
            return 1;
        }
    }
    return 0;
}

static void test_made_head(struct made *made, size_t piece) {
    char text[128];
    compare("a head that is made up", made->bytes, made->length, piece, text, sizeof text);
    note_text(text[0] ? text : "none");
}

static void test_any_head(void) {
    struct made made = {NULL, 0, 0};
    put(&made, below(20) ? "fLaC" : below(2) ? "ID3!" : "fLaX", 4);
    if (below(10)) {
        put_streaminfo(&made, below(8) == 0);
    }
    for (uint32_t blocks = below(6); blocks > 0; blocks--) {
        put_any_block(&made);
    }
    if (below(10) == 0 && made.length >= 42) {
        made.bytes[9] = (uint8_t)below(32); /* the minimum block size, if the streaminfo block stands there */
    }
    if (below(3) == 0) {
        size_t at = below((uint32_t)(below(2) || made.length < 42 ? made.length : 42));
        made.bytes[at] = (uint8_t)(below(2) ? below(256) : made.bytes[at] ^ 1u << below(8));
    }
    made.length = below(3) ? made.length : below((uint32_t)made.length + 1);
    made.bytes = realloc(made.bytes, made.length + 1);
    test_made_head(&made, any_piece());
    free(made.bytes);
}

/* The texts of all faults of a head. */
static const char *const head_texts[] = {
    "none",
    "the bytes end",
    "stream starts with ID3 header rather than FLAC header",
    "invalid stream header",
    "streaminfo block missing",
    "encountered second Vorbis comment block",
    "encountered second streaminfo block",
    "more than 65536 metadata blocks are not supported",
    "invalid streaminfo metadata block length",
    "inconsistent bounds, min block size > max block size",
    "invalid block size, must be at least 16",
    "inconsistent bounds, min frame size > max frame size",
    "invalid sample rate",
    "invalid metadata block type",
    "application block length must be at least 4 bytes",
    "application blocks larger than 10 MiB are not supported",
    "Vorbis comment block is too short",
    "Vorbis comment blocks larger than 10 MiB are not supported",
    "vendor string too long",
    "Vorbis comment or vendor string is not valid UTF-8",
    "too many entries for Vorbis comment block",
    "Vorbis comment too long for Vorbis comment block",
    "Vorbis comment does not contain '='",
    "Vorbis comment field name contains invalid byte",
    "Vorbis comment block has excess data",
    "Vorbis comment block contains wrong number of entries",
};

static void test_heads(unsigned rounds) {
    for (unsigned i = 0; i < rounds; i++) {
        test_any_head();
    }
}

static void test_all_seen(void) {
    for (size_t i = 0; i < sizeof head_texts / sizeof *head_texts; i++) {
        expect(was_seen(head_texts[i]), head_texts[i], "this fault of a head wasn't seen");
    }
}

/* As many blocks as a head may have, one more, and more than 65536 after which the bytes end. */
static void test_many_blocks(void) {
    for (size_t others = 65535; others <= 65536; others++) {
        struct made made = {NULL, 0, 0};
        put(&made, "fLaC", 4);
        put_streaminfo(&made, 0);
        for (size_t i = 1; i <= others; i++) {
            put_header(&made, CLAXON_PADDING, i == others, 0);
        }
        test_made_head(&made, SIZE_MAX);
        made.length = 4 + 38 + 4 * 65535 - 1;
        test_made_head(&made, SIZE_MAX);
        free(made.bytes);
    }
}

/* Comments and application data of as many bytes as may be, and one more. */
static void test_long_blocks(void) {
    for (size_t more = 0; more <= 1; more++) {
        struct made made = {NULL, 0, 0};
        size_t length = 10 * 1024 * 1024 + more;
        put(&made, "fLaC", 4);
        put_streaminfo(&made, 0);
        put_header(&made, CLAXON_APPLICATION, 0, length);
        put_many(&made, 7, length);
        put_header(&made, CLAXON_VORBIS_COMMENT, 1, length);
        put_number(&made, (uint32_t)length - 8);
        put_many(&made, 'v', length - 8);
        put_number(&made, 0);
        test_made_head(&made, 65536);
        memcpy(made.bytes + 42 + 4 + length, made.bytes + 42, 4); /* in place of the comments, the application block's header */
        memmove(made.bytes + 42, made.bytes + 42 + 4 + length, 4 + length);
        made.bytes[42] = 0x80 | CLAXON_APPLICATION;
        made.length = 42 + 4 + length;
        test_made_head(&made, SIZE_MAX);
        made.bytes[42] = 0x80 | CLAXON_VORBIS_COMMENT;
        test_made_head(&made, SIZE_MAX);
        free(made.bytes);
    }
}

/* Comments of which just the length is there: no memory is taken for what isn't. */
static void test_missing_comments(void) {
    struct made made = {NULL, 0, 0};
    put(&made, "fLaC", 4);
    put_streaminfo(&made, 0);
    put_header(&made, CLAXON_VORBIS_COMMENT, 1, 10 * 1024 * 1024);
    greatest_request = 0;
    test_made_head(&made, SIZE_MAX);
    expect(greatest_request <= 65536, "comments that aren't there", "memory for them");
    free(made.bytes);
}

/* The metadata blocks of a stream, one after another. */

struct made_block {
    unsigned type;
    size_t length;
};

/* A head with two pictures of the greatest length, an application block, and comments with a tag; one frame follows. */
static const struct made_block blocks[] = {{CLAXON_STREAMINFO, 34},       {CLAXON_PICTURE, 0xffffff},
                                           {CLAXON_APPLICATION, 1000000}, {CLAXON_VORBIS_COMMENT, 18},
                                           {CLAXON_PICTURE, 0xffffff},    {CLAXON_PADDING, 0}};

#define BLOCKS (sizeof blocks / sizeof *blocks)

static const uint8_t frame[] = {0xff, 0xf8, 0x69, 0x08, 0x00, 0x0f, 0x30, 0x00, 0x12, 0x34, 0xaa, 0x3b};

static struct made make_pictures(void) {
    struct made made = {NULL, 0, 0};
    put(&made, "fLaC", 4);
    put_streaminfo(&made, 0);
    for (size_t i = 1; i < BLOCKS; i++) {
        if (blocks[i].type == CLAXON_VORBIS_COMMENT) {
            put_comments(&made, 0, 1, 1);
        } else {
            put_header(&made, blocks[i].type, i + 1 == BLOCKS, blocks[i].length);
            put_many(&made, (int)i, blocks[i].length);
        }
    }
    put(&made, frame, sizeof frame);
    return made;
}

/* Reads the content of a block in pieces, and compares it with the bytes. */
static void test_content(struct claxon_stream *stream, struct source *source, const uint8_t *bytes,
                         const struct claxon_metadata *metadata, size_t piece) {
    static uint8_t content[4096];
    size_t done = 0, got;
    do {
        got = claxon_stream_content(stream, content, piece);
        expect(memcmp(content, bytes + metadata->content + done, got) == 0, "a metadata block", "its content");
        done += got;
    } while (got > 0 || (done < metadata->length && feeds(stream, source, source->way == PULL ? CLAXON_OK : CLAXON_NEED_MORE)));
    expect(done == metadata->length, "a metadata block", "the length of its content");
}

static void test_tags(const uint8_t *comments, size_t length, size_t count) {
    size_t at = 0, vendor_at, vendor_length, tags;
    struct claxon_tag tag;
    char error[128];
    uint32_t status = claxon_vendor(comments, length, &vendor_at, &vendor_length, &tags, error, sizeof error);
    expect(status == CLAXON_OK && tags == count, "comments", "the number of tags");
    expect(vendor_length == (count ? 3u : 0u) && memcmp(comments + vendor_at, "abc", vendor_length) == 0, "comments",
           "the vendor");
    for (size_t i = 0; i < count; i++) {
        status = claxon_next_tag(comments, length, &at, &tag, error, sizeof error);
        expect(status == CLAXON_OK && tag.name_length == 1 && tag.value_length == 1, "comments", "a tag");
        expect(comments[tag.name_at] == 'X' && comments[tag.value_at] == 'Y', "comments", "the text of a tag");
    }
    status = claxon_next_tag(comments, length, &at, &tag, error, sizeof error);
    expect(status == CLAXON_NO_MORE, "comments", "the end of the tags");
}

static uint32_t next_metadata(struct claxon_stream *stream, struct source *source, struct claxon_metadata *metadata) {
    uint32_t status;
    do {
        status = claxon_stream_next_metadata(stream, metadata);
    } while (feeds(stream, source, status));
    return status;
}

/* Reads every `every`-th block, in pieces of `piece` bytes, and passes over the others. */
static void test_walk(const struct made *made, size_t every, size_t piece, enum way way) {
    struct claxon_stream stream;
    struct source source = pieces_of(made->bytes, made->length, 10000);
    struct claxon_metadata metadata, expected;
    size_t at = 4, i = 0;
    greatest_request = 0;
    begin(&stream, &source, way);
    test_tags(stream.comments, stream.comments_length, 0);
    while (next_metadata(&stream, &source, &metadata) == CLAXON_OK) {
        claxon_next_metadata(made->bytes, made->length, &at, &expected);
        expect(i < BLOCKS && metadata.type == blocks[i].type && metadata.length == blocks[i].length, "a head", "a block");
        expect(metadata.is_last == (i + 1 == BLOCKS) && metadata.content == expected.content, "a head",
               "the position of a block");
        test_tags(stream.comments, stream.comments_length, i >= 3);
        expect(stream.info.first_frame == 0, "a head", "the first frame, before the head has ended");
        expect(stream.info.channels == 1 && stream.info.samples == 4 && stream.info.tags == (i >= 3), "a head",
               "the info so far");
        if (i % every == 0) {
            test_content(&stream, &source, made->bytes, &metadata, piece);
        }
        i++;
    }
    expect(i == BLOCKS && stream.info.first_frame == at && stream.position == at, "a head", "its end");
    expect(greatest_request >= 1000000 && greatest_request < 4000000, "a head", "memory for what isn't a picture");
    expect(claxon_stream_next_metadata(&stream, &metadata) == CLAXON_NO_MORE, "a head", "a block after the end");
    expect(claxon_stream_content(&stream, made->bytes, 1) == 0, "a head", "content after the end");
    expect(call(claxon_stream_next_block, &stream, &source) == CLAXON_OK && stream.samples[15] == 0x1234, "a head",
           "the frame after it");
    expect(greatest_request < 4000000, "a head", "memory for the samples of a small block");
    expect(call(claxon_stream_next_block, &stream, &source) == CLAXON_NO_MORE, "a head", "the end of the stream");
    claxon_stream_free(&stream);
}

/* In the content of a block resync goes to the frame as from anywhere else, and the content is left. */
static void test_resync_in_content(const struct made *made) {
    struct claxon_stream stream;
    struct source source = pieces_of(made->bytes, made->length, 10000);
    struct claxon_metadata metadata;
    uint8_t byte;
    claxon_stream_init(&stream, read_source, &source);
    expect(claxon_stream_next_metadata(&stream, &metadata) == CLAXON_OK, "a head", "its first block");
    expect(claxon_stream_next_metadata(&stream, &metadata) == CLAXON_OK, "a head", "its second block");
    expect(claxon_stream_content(&stream, &byte, 1) == 1 && byte == 1, "a head", "a byte of a block");
    expect(claxon_stream_resync(&stream) == CLAXON_OK, "a head", "resync in a block");
    expect(stream.position == made->length - sizeof frame, "a head", "the position after resync in a block");
    expect(claxon_stream_content(&stream, &byte, 1) == 0, "a head", "content after resync");
    expect(claxon_stream_next_metadata(&stream, &metadata) == CLAXON_NO_MORE, "a head", "a block after resync");
    expect(claxon_stream_next_block(&stream) == CLAXON_OK && stream.samples[15] == 0x1234, "a head", "the frame after resync");
    claxon_stream_free(&stream);
}

static void test_metadata(void) {
    struct made made = make_pictures();
    test_resync_in_content(&made);
    for (int way = PULL; way < WAYS; way++) {
        test_walk(&made, 1, 4096, (enum way)way);
        test_walk(&made, 1, 4095, (enum way)way);
        test_walk(&made, 3, 1, (enum way)way);
        test_walk(&made, BLOCKS + 1, 1, (enum way)way);
    }
    free(made.bytes);
}

/* Frames without a head, after a head that is damaged, and after other bytes. */

static void test_resync_form(const char *name, const struct made *made, uint32_t head, uint64_t first, size_t count,
                             enum way way) {
    struct claxon_stream stream;
    struct source source = pieces_of(made->bytes, made->length, 7);
    begin(&stream, &source, way);
    if (head != CLAXON_OK) {
        expect(call(claxon_stream_next_block, &stream, &source) == head, name, "the head");
    }
    for (int i = 0; i < 2; i++) { /* a second time it stays where it is */
        expect(call(claxon_stream_resync, &stream, &source) == (count ? CLAXON_OK : CLAXON_NO_MORE), name, "resync");
        expect(!count || stream.position == first, name, "the position after resync");
    }
    for (size_t i = 0; i < count; i++) {
        expect(call(claxon_stream_next_block, &stream, &source) == CLAXON_OK && stream.samples[15] == 0x1234, name,
               "a frame after resync");
    }
    expect(call(claxon_stream_next_block, &stream, &source) == CLAXON_NO_MORE && !stream.error[0], name,
           "the end after resync");
    expect(claxon_stream_resync(&stream) == CLAXON_NO_MORE, name, "resync at the end");
    claxon_stream_free(&stream);
}

static void test_resync_to(const char *name, const struct made *made, uint32_t head, uint64_t first, size_t count) {
    test_resync_form(name, made, head, first, count, PULL);
    test_resync_form(name, made, head, first, count, PUSH);
    test_resync_form(name, made, head, first, count, PAUSING);
}

static void put_with_crc(struct made *made, const uint8_t *bytes, size_t length) {
    uint16_t crc = claxon_crc16(0, bytes, length);
    put(made, bytes, length);
    put_byte(made, crc >> 8);
    put_byte(made, crc & 0xff);
}

/* Goes to this frame from the bytes before it, in pieces of any size. */
static void test_resync_at(const char *name, const struct made *made, size_t at) {
    for (size_t piece = 1; piece <= made->length; piece++) {
        struct claxon_stream stream;
        struct source source = pieces_of(made->bytes, made->length, piece);
        begin(&stream, &source, (enum way)(piece % WAYS));
        do {
            expect(call(claxon_stream_resync, &stream, &source) == CLAXON_OK, name, "resync");
        } while (stream.position < at && call(claxon_stream_next_block, &stream, &source) == CLAXON_OK);
        expect(stream.position == at, name, "the position after resync");
        claxon_stream_free(&stream);
    }
}

/* Frames of another number of channels or another bit depth are passed over, after a head that is known. */
static void test_resync_of_others(void) {
    static const uint8_t two_channels[] = {0xff, 0xf8, 0x69, 0x18, 0x00, 0x0f, 0x92, 0x00, 0x12, 0x34, 0x00, 0x12, 0x34};
    static const uint8_t eight_bits[] = {0xff, 0xf8, 0x69, 0x02, 0x00, 0x0f, 0xb7, 0x00, 0x12};
    struct made made = {NULL, 0, 0};
    put(&made, "fLaC", 4);
    put_streaminfo(&made, 1);
    put_many(&made, 0x55, 10);
    put_with_crc(&made, two_channels, sizeof two_channels);
    put_with_crc(&made, eight_bits, sizeof eight_bits);
    put(&made, frame, sizeof frame);
    for (int way = PULL; way < WAYS; way++) {
        struct claxon_stream stream;
        struct source source = pieces_of(made.bytes, made.length, 5);
        begin(&stream, &source, (enum way)way);
        expect(call(claxon_stream_next_block, &stream, &source) == CLAXON_FORMAT_ERROR, "other frames", "no frame");
        expect(call(claxon_stream_resync, &stream, &source) == CLAXON_OK, "other frames", "resync");
        expect(stream.position == made.length - sizeof frame, "other frames", "the position after resync");
        claxon_stream_free(&stream);
    }
    memcpy(made.bytes, "none", 4);
    made.length -= sizeof frame;
    test_resync_at("a frame of two channels, without a head", &made, 4 + 38 + 10);
    test_resync_at("a frame of 8 bits, without a head", &made, 4 + 38 + 10 + sizeof two_channels + 2);
    free(made.bytes);
}

/* A frame within the samples of another one, as they are: the outer one is first, also where the inner one was read first. */
static void test_resync_of_nested(void) {
    uint8_t outer[40] = {0xff, 0xf8, 0x69, 0x08, 0x00, 0x0f, 0x30, 0x02};
    struct made made = {NULL, 0, 0};
    memcpy(outer + 16, frame, sizeof frame);
    put_many(&made, 0x55, 10);
    put_with_crc(&made, outer, sizeof outer);
    test_resync_at("a frame in a frame", &made, 10);
    made.bytes[made.length - 1] ^= 1;
    test_resync_at("a frame in a frame with a wrong CRC", &made, 10 + 16);
    free(made.bytes);
}

static void test_resync(void) {
    /* The header of a frame of 8 channels of 65535 samples, which zeros after it make constant. Its CRC would follow. */
    static const uint8_t large[8] = {0xff, 0xf8, 0x79, 0x78, 0x00, 0xff, 0xfe, 0x70};
    struct made made = {NULL, 0, 0};
    test_resync_to("nothing", &made, CLAXON_OK, 0, 0);
    put(&made, frame, sizeof frame);
    test_resync_to("a frame alone", &made, CLAXON_OK, 0, 1);
    put_many(&made, 0xff, 3);
    put(&made, frame, sizeof frame);
    put_many(&made, 0xff, 1);
    made.bytes[0] = 0;
    test_resync_to("a frame after bytes ff", &made, CLAXON_OK, sizeof frame + 3, 1);
    made.length = 0;
    put(&made, frame, 6);
    put_byte(&made, frame[6] ^ 1u);
    put(&made, frame, sizeof frame);
    test_resync_to("a frame after a header with a wrong CRC", &made, CLAXON_OK, 7, 1);
    made.length = 0;
    for (int i = 0; i < 30; i++) {
        put(&made, large, sizeof large);
        put_many(&made, 0, 24 + 2);
    }
    put(&made, frame, sizeof frame);
    test_resync_to("a frame after 30 large ones with a wrong CRC", &made, CLAXON_OK, 30 * 34, 1);
    made.length = 0;
    put(&made, "fLaC", 4);
    put_streaminfo(&made, 0);
    put_header(&made, 127, 0, 1000);
    put_many(&made, 0xf8, 100);
    put(&made, frame, sizeof frame);
    put(&made, frame, sizeof frame);
    test_resync_to("a damaged head", &made, CLAXON_FORMAT_ERROR, 4 + 38 + 4 + 100, 2);
    free(made.bytes);
}

/* Reading that fails. */

/* The number of frames whose last byte is before `end`. */
static size_t frames_before(const uint8_t *bytes, size_t length, size_t end) {
    struct whole whole = {bytes, length, 0, {0}, {0}, ""};
    size_t count = 0;
    if (claxon_open(bytes, length, &whole.info, whole.error, sizeof whole.error) == CLAXON_OK) {
        whole.at = whole.info.first_frame;
        while (next_of_whole(&whole) == CLAXON_OK && whole.at <= end) {
            count++;
        }
    }
    return count;
}

/* A call after the failure says the same, and reads no more. */
static void expect_failure(struct claxon_stream *stream, struct source *source, uint32_t status, const char *name,
                           const char *what) {
    expect(status == CLAXON_READ_FAILED && strcmp(stream->error, "reading failed") == 0, name, what);
    expect(source->has_ended, name, what);
}

/* The number of blocks of a stream that ends there, which is no failure. */
static size_t blocks_of_cut(const char *name, const uint8_t *bytes, size_t length) {
    struct claxon_stream stream;
    struct source source = pieces_of(bytes, length, 100);
    size_t count = 0;
    uint32_t status;
    claxon_stream_init(&stream, read_source, &source);
    while ((status = claxon_stream_next_block(&stream)) == CLAXON_OK) {
        count++;
    }
    expect(status == CLAXON_INPUT_ENDS || status == CLAXON_NO_MORE, name, "the status where the stream is cut");
    claxon_stream_free(&stream);
    return count;
}

static void test_failing(const char *name, const uint8_t *bytes, size_t length, size_t fails_at, size_t piece) {
    struct claxon_stream stream;
    struct source source = pieces_of(bytes, length, piece);
    size_t count = 0;
    uint64_t position;
    uint32_t status;
    source.fails_at = fails_at;
    claxon_stream_init(&stream, read_source, &source);
    while ((status = claxon_stream_next_block(&stream)) == CLAXON_OK) {
        count++;
    }
    position = stream.position;
    expect_failure(&stream, &source, status, name, "the status where reading fails");
    expect(count == frames_before(bytes, length, fails_at), name, "the frames before reading fails");
    expect(count == blocks_of_cut(name, bytes, fails_at), name, "the frames of a stream that is cut");
    expect_failure(&stream, &source, claxon_stream_next_block(&stream), name, "a block after reading failed");
    expect_failure(&stream, &source, claxon_stream_next_block_planar(&stream), name, "a planar block after reading failed");
    expect(stream.position == position, name, "the position after reading failed");
    expect_failure(&stream, &source, claxon_stream_resync(&stream), name, "resync where reading fails");
    expect_failure(&stream, &source, claxon_stream_next_block(&stream), name, "a block after resync where reading fails");
    claxon_stream_free(&stream);
}

/* In the content of a metadata block, and after it. */
static void test_failing_content(void) {
    struct made made = make_pictures();
    struct claxon_stream stream;
    struct source source = pieces_of(made.bytes, made.length, 1);
    struct claxon_metadata metadata;
    uint8_t content[100];
    const char *name = "content where reading fails";
    source.fails_at = 4 + 38 + 4 + 10;
    claxon_stream_init(&stream, read_source, &source);
    expect(claxon_stream_next_metadata(&stream, &metadata) == CLAXON_OK, name, "the streaminfo");
    expect(claxon_stream_next_metadata(&stream, &metadata) == CLAXON_OK && metadata.type == CLAXON_PICTURE, name, "a picture");
    expect(claxon_stream_content(&stream, content, sizeof content) == 10, name, "what was read of it");
    for (int i = 0; i < 2; i++) {
        expect_failure(&stream, &source, claxon_stream_next_metadata(&stream, &metadata), name, "the next metadata block");
        expect_failure(&stream, &source, claxon_stream_open(&stream), name, "the head");
        expect_failure(&stream, &source, claxon_stream_next_block(&stream), name, "a block");
    }
    claxon_stream_free(&stream);
    free(made.bytes);
}

/* A folder can be opened as a file, but not read. */
static void test_failing_file(void) {
    struct claxon_stream stream;
    FILE *folder = fopen(".", "rb");
    expect(folder != NULL, "a folder", "it can't be opened");
    if (folder) {
        claxon_stream_init(&stream, claxon_stream_fread, folder);
        expect(claxon_stream_next_block(&stream) == CLAXON_READ_FAILED, "a folder", "the status");
        expect(strcmp(stream.error, "reading failed") == 0, "a folder", "the text");
        claxon_stream_free(&stream);
        fclose(folder);
    }
}

/* Memory that is refused. */

/* Whether a frame of the stream begins there, with memory for it. */
static int is_frame_with_memory(const uint8_t *bytes, size_t length, uint64_t position) {
    struct whole whole = {bytes, length, 0, {0}, {0}, ""};
    size_t every = refused_every;
    int found;
    refused_every = 0;
    found = claxon_open(bytes, length, &whole.info, whole.error, sizeof whole.error) == CLAXON_OK &&
            is_frame_at(&whole, (size_t)position);
    refused_every = every;
    return found;
}

/* Where memory was refused for a frame of the stream, resync is still at it. */
static void test_resync_refused(struct claxon_stream *stream) {
    uint64_t position = stream->position;
    uint32_t status = claxon_stream_resync(stream);
    expect(status == CLAXON_OK || status == CLAXON_OUT_OF_MEMORY, "memory", "resync where memory was refused");
    expect(stream->position == position, "memory", "the position after memory was refused");
}

/* Decodes after the head, and calls again where memory was refused. */
static uint32_t decode_refused(struct claxon_stream *stream, const uint8_t *bytes, size_t length, struct tally *tally,
                               size_t *refusals) {
    uint32_t status;
    do {
        status = claxon_stream_next_block(stream);
        if (status == CLAXON_OK) {
            add_interleaved(tally, stream->samples, &stream->block);
        } else if (status == CLAXON_OUT_OF_MEMORY) {
            expect(strcmp(stream->error, "out of memory") == 0, "memory", "the text");
            refused_from = 0;
            if (++*refusals % 2 == 0 && is_frame_with_memory(bytes, length, stream->position)) {
                test_resync_refused(stream);
            }
        }
    } while (status == CLAXON_OK || status == CLAXON_OUT_OF_MEMORY);
    return status;
}

static size_t test_refused(const char *name, const uint8_t *bytes, size_t length, struct tally known, size_t request,
                           size_t every) {
    struct claxon_stream stream;
    struct source source = pieces_of(bytes, length, 100);
    struct tally tally = no_samples;
    size_t refusals = 0;
    uint32_t status;
    requests = 0;
    refused_from = request;
    claxon_stream_init(&stream, read_source, &source);
    status = claxon_stream_open(&stream);
    if (status == CLAXON_OUT_OF_MEMORY) {
        expect(claxon_stream_next_block(&stream) == status, name, "the status after memory was refused for the head");
        refusals++;
    } else {
        refused_every = every;
        status = decode_refused(&stream, bytes, length, &tally, &refusals);
        expect(status == CLAXON_NO_MORE && is_same_tally(tally, known), name, "what is decoded after memory was refused");
    }
    refused_from = refused_every = 0;
    claxon_stream_free(&stream);
    return refusals;
}

static void test_memory(const char *name, const uint8_t *bytes, size_t length, struct tally known) {
    size_t request = 1;
    while (test_refused(name, bytes, length, known, request, 0) > 0) {
        request++;
    }
    expect(request > 4, name, "the number of requests that were refused");
    expect(test_refused(name, bytes, length, known, 0, 3) > 0, name, "each third request refused");
    expect(test_refused(name, bytes, length, known, 0, 2) > 0, name, "each second request refused");
}

/* Bytes that are handed in while each second request is refused: none is taken, and they are handed in again. */
static void test_memory_of_feed(const char *name, const uint8_t *bytes, size_t length, struct tally known) {
    struct claxon_stream stream;
    struct tally tally = no_samples;
    size_t refusals = 0, refusals_of_feed = 0;
    claxon_stream_init_push(&stream);
    requests = 1; /* so that the first one is refused */
    refused_every = 2;
    for (size_t at = 0; at < length; at++) {
        while (claxon_stream_feed(&stream, bytes + at, 1) == CLAXON_OUT_OF_MEMORY) {
            refusals_of_feed++;
        }
    }
    claxon_stream_feed_end(&stream);
    refused_every = 0;
    expect(claxon_stream_open(&stream) == CLAXON_OK, name, "the head after memory was refused for bytes");
    expect(decode_refused(&stream, bytes, length, &tally, &refusals) == CLAXON_NO_MORE && is_same_tally(tally, known), name,
           "what is decoded after memory was refused for bytes");
    expect(refusals_of_feed > 0, name, "memory that was refused for bytes");
    claxon_stream_free(&stream);
}

/* A frame that has no end. What is asked for at once is at most `most` bytes. */
static void test_endless_frame(enum way way, size_t most) {
    struct claxon_stream stream;
    struct made made = {NULL, 0, 0};
    struct source source;
    put(&made, "fLaC", 4);
    put_streaminfo(&made, 1);
    put(&made, frame, 7);
    put_byte(&made, 0x10); /* a fixed predictor of order 0: then a run of zeros is a Rice code */
    put_many(&made, 0, 20000000);
    put(&made, frame, sizeof frame);
    source = pieces_of(made.bytes, made.length, 65536);
    greatest_request = 0;
    begin(&stream, &source, way);
    expect(call(claxon_stream_next_block, &stream, &source) == CLAXON_FORMAT_ERROR, "an endless frame", "its status");
    expect(strcmp(stream.error, "frame longer than 16777215 bytes") == 0, "an endless frame", "its text");
    expect(stream.position == 4 + 38, "an endless frame", "its position");
    expect(greatest_request >= CLAXON_MAX_FRAME_BYTES && greatest_request <= most, "an endless frame", "memory for it");
    expect(source.at <= 4 + 38 + most, "an endless frame", "reading ahead");
    expect(call(claxon_stream_resync, &stream, &source) == CLAXON_OK, "an endless frame", "resync");
    expect(call(claxon_stream_next_block, &stream, &source) == CLAXON_OK && stream.samples[15] == 0x1234, "an endless frame",
           "the frame after it");
    expect(call(claxon_stream_next_block, &stream, &source) == CLAXON_NO_MORE, "an endless frame", "the end");
    claxon_stream_free(&stream);
    free(made.bytes);
}

/* Larger files are left out of what takes time for each byte. */
#define SMALL 8192

static void test_file(const struct known *known, const uint8_t *bytes, size_t length, unsigned rounds) {
    const char *name = known->name;
    int is_ok = strcmp(known->result, "ok") == 0;
    test_known(known, bytes, length);
    if (is_ok) {
        test_memory_of_feed(name, bytes, length, known->tally);
    }
    if (length <= SMALL) {
        test_cut(name, bytes, length);
        for (size_t i = 0; i < length && is_ok; i += 1 + below(40)) {
            test_failing(name, bytes, length, i, any_piece());
        }
        for (size_t i = 0; i < length && is_ok; i += 61) {
            test_failing(name, bytes, length, i, 61);
        }
        if (is_ok) {
            test_memory(name, bytes, length, known->tally);
        }
    }
    test_damaged(name, bytes, length, length <= SMALL ? rounds : rounds / 50);
}

static int test_files(const char *folder, unsigned rounds) {
    struct known known;
    int files = 0;
    while (next_known(&known)) {
        size_t length = 0;
        uint8_t *bytes = read_file(folder, known.name, &length);
        if (bytes && (length <= SMALL || rounds > 0)) {
            test_file(&known, bytes, length, rounds);
            files++;
        }
        free(bytes);
    }
    return files;
}

int main(int argc, char **argv) {
    unsigned rounds = argc == 3 ? (unsigned)strtoul(argv[2], NULL, 10) : 0;
    int files = argc == 3 ? test_files(argv[1], rounds) : 0;
    expect(claxon_version() == CLAXON_VERSION, "claxon_version", "the version of claxon.h");
    expect(files > 0, "stream", "no files");
    test_heads(rounds > 0 ? 20000 : 200);
    test_resync();
    test_resync_of_others();
    test_resync_of_nested();
    test_missing_comments();
    test_failing_file();
    if (rounds > 0) {
        test_many_blocks();
        test_long_blocks();
        test_all_seen();
        test_metadata();
        test_failing_content();
        test_endless_frame(PULL, CLAXON_MAX_FRAME_BYTES);
        test_endless_frame(PUSH, CLAXON_MAX_FRAME_BYTES + 65536);
        test_endless_frame(PAUSING, CLAXON_MAX_FRAME_BYTES);
        expect(damaged_blocks > 0, "stream", "no blocks of damaged files");
    }
    printf("stream: %d files, %zu blocks of damaged files, %d failures\n", files, damaged_blocks, failures);
    return failures != 0;
}
