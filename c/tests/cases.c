/* cases FOLDER < LINES: decodes each file that a line `NAME COUNT HASH RESULT` names, passed whole and piece by piece, and
 * compares the number of its samples, the FNV-1a hash of their little-endian bytes, and the result: `ok`, the error, or `IO`
 * where the bytes end too early. It also tests planar samples, buffers that are too small, and the calls for metadata blocks:
 * by the lines of FOLDER/blocks.txt whose bytes are a whole content, by headers worked out by hand, and on the files. It tests
 * the sample rate and the bit depth of blocks, by each code of them. And it tests the MD5 sums of samples, by those of another
 * program and of the files' encoders, and the CRC of frames, by values that are known of CRC-16/UMTS, and by the last two bytes
 * of each frame. */
#include <ctype.h>
#include <stdarg.h>

#include "known.h"

#define UNTOUCHED 0x55

static int32_t samples[CLAXON_MAX_SAMPLES + 1];

static void add_samples(struct tally *tally, size_t count) {
    for (size_t i = 0; i < count; i++) {
        add_sample(tally, samples[i]);
    }
}

typedef uint32_t next_block(const uint8_t *, size_t, size_t *, const struct claxon_info *, int32_t *, size_t,
                            struct claxon_block *, char *, size_t);

/* A frame, and the block that it is known to hold. */
struct frame {
    const char *name;
    const uint8_t *bytes;
    size_t length;
    const struct claxon_info *info;
    struct claxon_block block;
};

static size_t sample_count(const struct frame *frame) {
    return (size_t)frame->block.channels * frame->block.duration;
}

static int is_untouched(const void *memory, size_t size) {
    const uint8_t *bytes = memory;
    for (size_t i = 0; i < size; i++) {
        if (bytes[i] != UNTOUCHED) {
            return 0;
        }
    }
    return 1;
}

/* The call gives this status for the first `length` bytes, and changes neither the position nor the samples. */
static void expect_status(next_block *call, const struct frame *frame, const uint8_t *bytes, size_t length, size_t capacity,
                          uint32_t status, const char *what) {
    struct claxon_block block;
    char error[64];
    size_t at = 0;
    memset(&block, UNTOUCHED, sizeof block);
    memset(error, UNTOUCHED, sizeof error);
    memset(samples, UNTOUCHED, sample_count(frame) * sizeof *samples);
    expect(call(bytes, length, &at, frame->info, samples, capacity, &block, error, sizeof error) == status, frame->name, what);
    expect(at == 0 && is_untouched(samples, sample_count(frame) * sizeof *samples), frame->name, what);
    if (status == CLAXON_BUFFER_TOO_SMALL) {
        expect(is_same_block(&block, &frame->block), frame->name, what);
        expect(is_untouched(error, sizeof error), frame->name, what);
    } else {
        expect(is_untouched(&block, sizeof block), frame->name, what);
        expect(is_untouched(error, sizeof error) == (status == CLAXON_NO_MORE), frame->name, what);
    }
}

/* The length of the header: of no fewer bytes does a small buffer tell the size of the block. */
static size_t test_truncated_header(next_block *call, const struct frame *frame) {
    size_t length = 0, at = 0;
    struct claxon_block block;
    char error[1];
    while (length < frame->length &&
           call(frame->bytes, length, &at, frame->info, samples, 0, &block, error, 0) != CLAXON_BUFFER_TOO_SMALL) {
        expect_status(call, frame, frame->bytes, length, 0, length < 2 ? CLAXON_NO_MORE : CLAXON_INPUT_ENDS,
                      "a truncated header");
        length++;
    }
    expect(length >= 6 && length <= 16, frame->name, "the length of a header");
    return length;
}

/* A buffer is too small before the subframes are read: whole, truncated or damaged. */
static void test_small_buffer(next_block *call, const struct frame *frame) {
    size_t count = sample_count(frame);
    size_t header = test_truncated_header(call, frame);
    size_t lengths[] = {header, frame->length - 1, frame->length};
    uint8_t *damaged = malloc(frame->length);
    for (size_t i = 0; i < 3; i++) {
        expect_status(call, frame, frame->bytes, lengths[i], 0, CLAXON_BUFFER_TOO_SMALL, "an empty buffer");
        expect_status(call, frame, frame->bytes, lengths[i], count - 1, CLAXON_BUFFER_TOO_SMALL, "a small buffer");
    }
    expect_status(call, frame, frame->bytes, frame->length - 1, count, CLAXON_INPUT_ENDS, "a truncated frame");
    expect(damaged != NULL, frame->name, "malloc");
    if (damaged) {
        memcpy(damaged, frame->bytes, frame->length);
        damaged[frame->length - 1] ^= 1; /* the CRC of the frame */
        expect_status(call, frame, damaged, frame->length, count - 1, CLAXON_BUFFER_TOO_SMALL,
                      "a small buffer for a damaged frame");
        expect_status(call, frame, damaged, frame->length, count, CLAXON_FORMAT_ERROR, "a damaged frame");
        damaged[header - 1] ^= 1; /* the CRC of its header */
        expect_status(call, frame, damaged, frame->length, 0, CLAXON_FORMAT_ERROR, "a damaged header");
        expect_status(call, frame, damaged, frame->length, count, CLAXON_FORMAT_ERROR, "a damaged header in a large buffer");
    }
    free(damaged);
}

/* The interleaved samples of the frame come one channel after another, and nothing after them is written. */
static void test_planar(const struct frame *frame, const int32_t *interleaved) {
    struct claxon_block block;
    char error[1];
    size_t at = 0, channels = frame->block.channels, duration = frame->block.duration, equal = 0;
    memset(&samples[channels * duration], UNTOUCHED, sizeof *samples);
    uint32_t status =
        claxon_next_block_planar(frame->bytes, frame->length, &at, frame->info, samples, channels * duration, &block, error, 0);
    expect(status == CLAXON_OK && at == frame->length, frame->name, "planar samples");
    expect(is_same_block(&block, &frame->block), frame->name, "the block of planar samples");
    expect(is_untouched(&samples[channels * duration], sizeof *samples), frame->name, "after planar samples");
    for (size_t ch = 0; ch < channels; ch++) {
        for (size_t i = 0; i < duration; i++) {
            equal += samples[ch * duration + i] == interleaved[i * channels + ch];
        }
    }
    expect(equal == channels * duration, frame->name, "the order of planar samples");
}

/* A buffer of exactly the size of the block, planar samples, and buffers that are too small. */
static void test_frame(const struct frame *frame) {
    static int32_t interleaved[CLAXON_MAX_SAMPLES];
    struct claxon_block block;
    char error[1];
    size_t at = 0, count = sample_count(frame);
    memset(&samples[count], UNTOUCHED, sizeof *samples);
    uint32_t status = claxon_next_block(frame->bytes, frame->length, &at, frame->info, samples, count, &block, error, 0);
    expect(status == CLAXON_OK && at == frame->length, frame->name, "a buffer of exactly that size");
    expect(is_same_block(&block, &frame->block), frame->name, "the block of a buffer of exactly that size");
    expect_format(frame->name, &block, frame->bytes);
    expect(is_untouched(&samples[count], sizeof *samples), frame->name, "after the samples");
    memcpy(interleaved, samples, count * sizeof *samples);
    test_planar(frame, interleaved);
    test_small_buffer(claxon_next_block, frame);
    test_small_buffer(claxon_next_block_planar, frame);
}

/* ---- the sample rate and the bit depth of blocks */

/* A frame with these codes of its block size, its sample rate and its bit depth, and these bytes after them: a constant channel
 * of zeros. Returns its length. */
static size_t put_frame(uint8_t *bytes, unsigned codes, unsigned depth_code, const char *fields, size_t fields_length) {
    size_t at = 4 + fields_length;
    uint16_t crc;
    memset(bytes, 0, 32);
    bytes[0] = 0xff;
    bytes[1] = 0xf8;
    bytes[2] = (uint8_t)codes;
    bytes[3] = (uint8_t)(depth_code << 1);
    memcpy(bytes + 4, fields, fields_length);
    bytes[at] = crc8(bytes, at);
    at += 2 + (depth_code == 0 || depth_code == 4 ? 2 : depth_code == 1 ? 1 : depth_code == 2 ? 2 : 3);
    crc = claxon_crc16(0, bytes, at);
    bytes[at] = (uint8_t)(crc >> 8);
    bytes[at + 1] = (uint8_t)crc;
    return at + 2;
}

/* All calls that fill a block say the same of this frame. */
static void expect_block(const char *name, const uint8_t *bytes, size_t length, const struct claxon_block *expected) {
    const uint32_t depth = expected->bits_per_sample ? expected->bits_per_sample : 16;
    const struct claxon_info info = {.channels = 1, .bits_per_sample = depth, .min_block_size = 16, .max_block_size = 65535};
    next_block *const calls[2] = {claxon_next_block, claxon_next_block_planar};
    uint64_t budget = UINT64_MAX;
    struct claxon_block block;
    char error[64] = "";
    size_t at;
    for (int i = 0; i < 4; i++) {
        size_t capacity = i % 2 ? CLAXON_MAX_SAMPLES : 0;
        at = 0;
        memset(&block, UNTOUCHED, sizeof block);
        uint32_t status = calls[i / 2](bytes, length, &at, &info, samples, capacity, &block, error, sizeof error);
        expect(status == (capacity ? CLAXON_OK : CLAXON_BUFFER_TOO_SMALL) && is_same_block(&block, expected), name,
               "next_block");
    }
    at = 0;
    memset(&block, UNTOUCHED, sizeof block);
    expect(claxon_find_frame(bytes, length, &at, &info, &budget, &block) == CLAXON_OK && is_same_block(&block, expected), name,
           "find_frame");
    memset(&block, UNTOUCHED, sizeof block);
    expect(claxon_seek(bytes, length, &info, expected->time, UINT64_MAX, &at, &block) == CLAXON_OK &&
               is_same_block(&block, expected),
           name, "seek");
    memset(&block, UNTOUCHED, sizeof block);
    expect(claxon_seek_block(bytes, length, &info, expected->time, UINT64_MAX, &at, samples, CLAXON_MAX_SAMPLES, &block) ==
                   CLAXON_OK &&
               is_same_block(&block, expected),
           name, "seek_block");
}

/* Each code of a sample rate, after a coded number of one byte or more, and a block size with and without a field. */
static const struct {
    unsigned codes;
    const char *fields;
    size_t length;
    struct claxon_block block;
} formats[] = {
    {0x10, "\0", 1, {0, 1, 192, 0, 0}},
    {0x11, "\0", 1, {0, 1, 192, 88200, 0}},
    {0x12, "\0", 1, {0, 1, 192, 176400, 0}},
    {0x13, "\0", 1, {0, 1, 192, 192000, 0}},
    {0x14, "\0", 1, {0, 1, 192, 8000, 0}},
    {0x15, "\0", 1, {0, 1, 192, 16000, 0}},
    {0x16, "\0", 1, {0, 1, 192, 22050, 0}},
    {0x17, "\0", 1, {0, 1, 192, 24000, 0}},
    {0x18, "\0", 1, {0, 1, 192, 32000, 0}},
    {0x19, "\0", 1, {0, 1, 192, 44100, 0}},
    {0x1a, "\0", 1, {0, 1, 192, 48000, 0}},
    {0x1b, "\0", 1, {0, 1, 192, 96000, 0}},
    {0x1c, "\0\xff", 2, {0, 1, 192, 255000, 0}},
    {0x1d, "\0\xac\x45", 3, {0, 1, 192, 44101, 0}},
    {0x1e, "\0\xff\xff", 3, {0, 1, 192, 655350, 0}},
    {0x6c, "\0\x0f\x03", 3, {0, 1, 16, 3000, 0}},
    {0x7d, "\0\x01\x01\x01\x02", 5, {0, 1, 258, 258, 0}},
    {0x7e, "\xc2\x80\xff\xfe\x03\xe8", 6, {128 * 65535, 1, 65535, 10000, 0}},
    {0x6d, "\xe0\xa0\x80\x0f\x00\x01", 6, {2048 * 16, 1, 16, 1, 0}},
};

static void test_formats(void) {
    static const uint32_t depths[8] = {0, 8, 12, 0, 16, 20, 24, 0};
    for (size_t row = 0; row < sizeof formats / sizeof *formats; row++) {
        for (unsigned depth_code = 0; depth_code < 7; depth_code++) {
            uint8_t bytes[32];
            char name[64];
            struct claxon_block block = formats[row].block;
            size_t length = put_frame(bytes, formats[row].codes, depth_code, formats[row].fields, formats[row].length);
            block.bits_per_sample = depths[depth_code];
            snprintf(name, sizeof name, "the codes %02x and %u", formats[row].codes, depth_code);
            if (depth_code != 3) {
                expect_block(name, bytes, length, &block);
                expect_format(name, &block, bytes);
            }
        }
    }
}

/* Values of CRC-16/UMTS, which has the same polynomial and begins with 0 too: of the text "123456789", that of the catalogue of
 * CRCs; of "abc"; of a byte, the polynomial without its highest power. */
static void test_crc(void) {
    const struct {
        const char *bytes;
        size_t length;
        uint16_t crc;
    } rows[] = {{"123456789", 9, 0xfee8}, {"abc", 3, 0xcadb}, {"\x01", 1, 0x8005}, {"\0\0\0", 3, 0}, {"", 0, 0}};
    for (size_t row = 0; row < sizeof rows / sizeof *rows; row++) {
        const uint8_t *bytes = (const uint8_t *)rows[row].bytes;
        for (size_t at = 0; at <= rows[row].length; at++) {
            uint16_t first = claxon_crc16(0, bytes, at);
            expect(claxon_crc16(first, bytes + at, rows[row].length - at) == rows[row].crc, "claxon_crc16", rows[row].bytes);
        }
        expect(claxon_crc16(rows[row].crc, bytes, 0) == rows[row].crc, "claxon_crc16", "of no more bytes");
    }
    expect(claxon_crc16(0xffff, (const uint8_t *)"123456789", 9) == 0xaee7, "claxon_crc16", "from all ones, as CRC-16/CMS");
}

/* A frame ends with the CRC of what comes before: so it is 0 of all, one byte after another, and parted at any place. */
static void test_crc_of_frame(const char *name, const uint8_t *bytes, size_t length) {
    uint16_t crc = 0;
    size_t step = length < 300 ? 1 : length / 300;
    expect(claxon_crc16(0, bytes, length - 2) == (bytes[length - 2] << 8 | bytes[length - 1]), name, "the CRC of a frame");
    for (size_t i = 0; i < length; i++) {
        crc = claxon_crc16(crc, bytes + i, 1);
    }
    expect(crc == 0, name, "the CRC of a frame, byte by byte");
    for (size_t at = 0; at <= length; at += step) {
        expect(claxon_crc16(claxon_crc16(0, bytes, at), bytes + at, length - at) == 0, name, "the CRC of a frame in two parts");
    }
}

/* The text of an error in a small buffer: a prefix of it, a 0, and nothing after the buffer. */
static void test_truncated_text(const char *name, const uint8_t *bytes, size_t length, const char *text) {
    struct claxon_info info;
    for (size_t capacity = 0; capacity < 8; capacity++) {
        char truncated[9];
        memset(truncated, UNTOUCHED, sizeof truncated);
        claxon_open(bytes, length, &info, truncated, capacity);
        expect(capacity == 0 || (strlen(truncated) == capacity - 1 && strncmp(truncated, text, capacity - 1) == 0), name,
               "a truncated text");
        expect(truncated[capacity] == UNTOUCHED, name, "after a truncated text");
    }
}

/* Passes the file in pieces of `piece` bytes, and returns the last status. */
static uint32_t decode(const char *name, const uint8_t *bytes, size_t length, size_t piece, struct tally *tally, char *error,
                       size_t error_size) {
    struct claxon_info info;
    struct claxon_block block;
    size_t start = 0, at = 0, end = 0;
    uint32_t status;
    do {
        end = length - end < piece ? length : end + piece;
        status = claxon_open(bytes, end, &info, error, error_size);
    } while (status == CLAXON_INPUT_ENDS && end < length);
    if (status != CLAXON_OK) {
        if (end == length) {
            test_truncated_text(name, bytes, length, error);
        }
        return status;
    }
    start = info.first_frame;
    for (;;) {
        size_t before = at;
        /* The bytes before `start` aren't passed any more. */
        status =
            claxon_next_block(bytes + start, end - start, &at, &info, samples, CLAXON_MAX_SAMPLES, &block, error, error_size);
        if (status == CLAXON_OK) {
            add_samples(tally, (size_t)block.channels * block.duration);
            if (piece == SIZE_MAX) {
                test_crc_of_frame(name, bytes + start + before, at - before);
                test_frame(&(struct frame){name, bytes + start + before, at - before, &info, block});
            }
            continue;
        }
        expect(at == before, name, "the position after no block");
        if ((status != CLAXON_INPUT_ENDS && status != CLAXON_NO_MORE) || end == length) {
            return status;
        }
        start += at;
        at = 0;
        end = length - end < piece ? length : end + piece;
    }
}

static void test_file(const struct known *known, const uint8_t *bytes, size_t length) {
    const size_t pieces[] = {SIZE_MAX, 997, 61, 1};
    for (size_t i = 0; i < 4; i++) {
        struct tally tally = no_samples;
        char error[128] = "";
        char reported[256];
        if (pieces[i] == 1 && length > 4096) {
            continue;
        }
        uint32_t status = decode(known->name, bytes, length, pieces[i], &tally, error, sizeof error);
        result_of(status, error, reported, sizeof reported);
        if (!is_same_tally(tally, known->tally) || strcmp(reported, known->result) != 0) {
            printf("%s by %zu: %" PRIu64 " %016" PRIx64 " %s\n", known->name, pieces[i], tally.count, tally.hash, reported);
            failures++;
        }
    }
}

/* ---- metadata blocks */

struct text {
    char chars[1 << 16];
    size_t length;
};

static void add(struct text *text, const char *format, ...) {
    va_list values;
    va_start(values, format);
    size_t left = sizeof text->chars - text->length;
    int count = vsnprintf(text->chars + text->length, left, format, values);
    va_end(values);
    text->length += count < 0 ? 0 : (size_t)count < left ? (size_t)count : left - 1;
}

/* In quotation marks, with escapes, as the lines have it. */
static void add_quoted(struct text *text, const uint8_t *bytes, size_t count) {
    add(text, "\"");
    for (size_t i = 0; i < count; i++) {
        uint8_t byte = bytes[i];
        if (byte == '"' || byte == '\\') {
            add(text, "\\%c", byte);
        } else if (byte == 0 || byte == '\t' || byte == '\n' || byte == '\r') {
            add(text, "\\%c", byte == 0 ? '0' : byte == '\t' ? 't' : byte == '\n' ? 'n' : 'r');
        } else if (byte < 0x20 || byte == 0x7f) {
            add(text, "\\u{%x}", byte);
        } else {
            add(text, "%c", byte);
        }
    }
    add(text, "\"");
}

static void add_size(struct text *text, const char *before, uint64_t size) {
    add(text, size ? "%s%" PRIu64 : "%snone", before, size);
}

static void add_error(struct text *text, uint32_t status, const char *error) {
    char result[256];
    add(text, "%s", result_of(status, error, result, sizeof result));
}

static void add_streaminfo(struct text *text, const uint8_t *content, size_t length) {
    struct claxon_info info, untouched;
    char error[128];
    memset(&untouched, UNTOUCHED, sizeof untouched);
    info = untouched;
    uint32_t status = claxon_streaminfo(content, length, &info, error, sizeof error);
    if (status != CLAXON_OK) {
        add_error(text, status, error);
        expect(memcmp(&info, &untouched, sizeof info) == 0, text->chars, "the info is changed");
        return;
    }
    add(text, "streaminfo blocks %u-%u", info.min_block_size, info.max_block_size);
    add_size(text, " frames ", info.min_frame_size);
    add_size(text, "-", info.max_frame_size);
    add(text, " rate %" PRIu32 " channels %" PRIu32 " width %" PRIu32, info.sample_rate, info.channels, info.bits_per_sample);
    add_size(text, " samples ", info.samples);
    add(text, " md5 ");
    for (int i = 0; i < 16; i++) {
        add(text, "%02x", info.md5[i]);
    }
    expect(info.first_frame == 0 && info.tags == 0, text->chars, "first_frame and tags of a streaminfo block");
}

/* Adds the tags to the text, counts them, and returns the last status. */
static uint32_t add_tags(struct text *text, const uint8_t *content, size_t length, size_t *tags, char *error,
                         size_t error_size) {
    size_t at = 0;
    for (*tags = 0;; ++*tags) {
        size_t before = at;
        struct claxon_tag tag;
        memset(&tag, UNTOUCHED, sizeof tag);
        uint32_t status = claxon_next_tag(content, length, &at, &tag, error, error_size);
        if (status != CLAXON_OK) {
            expect(at == before && is_untouched(&tag, sizeof tag), text->chars, "a position or a struct without a tag");
            return status;
        }
        expect(at > before && tag.value_at == tag.name_at + tag.name_length + 1 && tag.value_at + tag.value_length == at &&
                   at <= length && content[tag.value_at - 1] == '=',
               text->chars, "where a tag is");
        add(text, *tags ? ", (" : "(");
        add_quoted(text, content + tag.name_at, at - tag.name_at);
        add(text, ", %zu)", tag.name_length);
    }
}

static void add_comment(struct text *text, const uint8_t *content, size_t length) {
    size_t vendor = UNTOUCHED, vendor_length = UNTOUCHED, tags = UNTOUCHED, found;
    char error[128];
    uint32_t status = claxon_vendor(content, length, &vendor, &vendor_length, &tags, error, sizeof error);
    if (status != CLAXON_OK) {
        add_error(text, status, error);
        expect(vendor == UNTOUCHED && vendor_length == UNTOUCHED && tags == UNTOUCHED, text->chars,
               "numbers without a vendor string");
        return;
    }
    add(text, "comment ");
    add_quoted(text, content + vendor, vendor_length);
    add(text, " [");
    status = add_tags(text, content, length, &found, error, sizeof error);
    add(text, "]");
    expect(status == CLAXON_NO_MORE && found == tags, text->chars, "the number of tags");
}

/* A fault of an entry, or of what stands before all entries but the vendor string's bytes, is also one of the tags. */
static void test_faulty_tags(const uint8_t *content, size_t length, const char *expected) {
    static struct text text, ignored;
    const char *faults[] = {"block is too short", "vendor string too long", "too long for Vorbis comment block",
                            "does not contain '='", "field name contains invalid byte"};
    for (size_t i = 0; i < sizeof faults / sizeof *faults; i++) {
        if (strstr(expected, faults[i])) {
            size_t tags;
            char error[128];
            text.length = ignored.length = 0;
            add_error(&text, add_tags(&ignored, content, length, &tags, error, sizeof error), error);
            expect(strcmp(text.chars, expected) == 0, expected, text.chars);
        }
    }
}

/* Tests a line `TYPE LENGTH BYTES: CONSUMED FAULT` or `TYPE LENGTH BYTES: ok CONSUMED BLOCK`. Returns whether it has a whole
 * content: no other is tested. */
static int test_content_line(char *line) {
    static uint8_t content[1 << 15];
    static struct text text;
    size_t count = 0;
    char *rest = line;
    unsigned long type = strtoul(rest, &rest, 10), length = strtoul(rest, &rest, 10);
    for (rest++; isxdigit((unsigned char)rest[0]) && isxdigit((unsigned char)rest[1]) && count < sizeof content; rest += 2) {
        char digits[3] = {rest[0], rest[1], 0};
        content[count++] = (uint8_t)strtoul(digits, NULL, 16);
    }
    if (*rest != ':' || count != length || (type != CLAXON_STREAMINFO && type != CLAXON_VORBIS_COMMENT)) {
        return 0;
    }
    rest += strncmp(rest, ": ok ", 5) == 0 ? 5 : 2;
    rest += strspn(rest, "0123456789");
    rest += *rest == ' ';
    rest[strcspn(rest, "\n")] = 0;
    text.length = 0;
    if (type == CLAXON_STREAMINFO) {
        add_streaminfo(&text, content, count);
    } else {
        add_comment(&text, content, count);
        test_faulty_tags(content, count, rest);
    }
    expect(strcmp(text.chars, rest) == 0, rest, text.chars);
    return 1;
}

static int test_contents(const char *folder) {
    static char line[1 << 16];
    char path[512];
    int tested = 0;
    snprintf(path, sizeof path, "%s/blocks.txt", folder);
    FILE *file = fopen(path, "r");
    while (file && fgets(line, sizeof line, file)) {
        tested += test_content_line(line);
    }
    if (file) {
        fclose(file);
    }
    return tested;
}

/* Headers worked out by hand, at each position, and cut at each byte. */
static void test_headers(void) {
    const struct {
        uint8_t bytes[4];
        uint8_t type, is_last;
        uint32_t length;
    } headers[] = {{{0x84, 0x00, 0x01, 0x02}, 4, 1, 258},
                   {{0x7f, 0xff, 0xff, 0xff}, 127, 0, 16777215},
                   {{0x80, 0x00, 0x00, 0x22}, 0, 1, 34},
                   {{0x06, 0x80, 0x00, 0x00}, 6, 0, 8388608}};
    for (size_t i = 0; i < sizeof headers / sizeof *headers; i++) {
        for (size_t start = 0; start < 3; start++) {
            uint8_t bytes[8] = {0xff, 0xff, 0xff, 0xff, 0xff, 0xff, 0xff, 0xff};
            struct claxon_metadata metadata, untouched;
            memset(&untouched, UNTOUCHED, sizeof untouched);
            memcpy(bytes + start, headers[i].bytes, 4);
            for (size_t length = 0; length < start + 4; length++) {
                size_t at = start;
                metadata = untouched;
                expect(claxon_next_metadata(bytes, length, &at, &metadata) == CLAXON_INPUT_ENDS && at == start &&
                           memcmp(&metadata, &untouched, sizeof metadata) == 0,
                       "a header", "less than four bytes");
            }
            size_t at = start;
            expect(claxon_next_metadata(bytes, start + 4, &at, &metadata) == CLAXON_OK && at == start + 4 + headers[i].length &&
                       metadata.content == start + 4 && metadata.length == headers[i].length &&
                       metadata.type == headers[i].type && metadata.is_last == headers[i].is_last,
                   "a header", "its fields");
            for (int j = 0; j < 3; j++) {
                const size_t past[] = {start + 4, start + 5, SIZE_MAX};
                at = past[j];
                expect(claxon_next_metadata(bytes, start + 4, &at, &metadata) == CLAXON_INPUT_ENDS && at == past[j], "a header",
                       "a position past the end");
            }
        }
    }
}

/* A position past the end, and one at which no tag begins. */
static void test_positions(void) {
    const uint8_t content[] = {0, 0, 0, 0, 2, 0, 0, 0, 3, 0, 0, 0, 'A', '=', 'b', 2, 0, 0, 0, 'C', '='};
    const struct {
        size_t at;
        uint32_t status;
        size_t after;
        const char *error;
    } rows[] = {{0, CLAXON_OK, 15, ""},
                {8, CLAXON_OK, 15, ""},
                {15, CLAXON_OK, 21, ""},
                {21, CLAXON_NO_MORE, 21, ""},
                {22, CLAXON_NO_MORE, 22, ""},
                {SIZE_MAX, CLAXON_NO_MORE, SIZE_MAX, ""},
                {4, CLAXON_FORMAT_ERROR, 4, "Vorbis comment does not contain '='"},
                {12, CLAXON_FORMAT_ERROR, 12, "Vorbis comment too long for Vorbis comment block"},
                {18, CLAXON_FORMAT_ERROR, 18, "Vorbis comment block has excess data"}};
    for (size_t i = 0; i < sizeof rows / sizeof *rows; i++) {
        size_t at = rows[i].at;
        struct claxon_tag tag;
        char error[128] = "";
        uint32_t status = claxon_next_tag(content, sizeof content, &at, &tag, error, sizeof error);
        expect(status == rows[i].status && at == rows[i].after && strcmp(error, rows[i].error) == 0, "a position", error);
    }
}

/* The blocks of a head end where the first frame begins. Alone, each has what the whole head has of it. */
static void test_blocks_of(const char *name, const uint8_t *bytes, size_t length) {
    static struct text text;
    struct claxon_info info;
    struct claxon_metadata metadata = {0, 0, 0, 0};
    char error[128];
    size_t at = 4, tags = 0;
    if (claxon_open(bytes, length, &info, error, sizeof error) != CLAXON_OK) {
        return;
    }
    while (!metadata.is_last) {
        size_t start = at;
        if (claxon_next_metadata(bytes, length, &at, &metadata) != CLAXON_OK) {
            expect(0, name, "a block");
            return;
        }
        expect(metadata.content == start + 4 && at == metadata.content + metadata.length, name, "the position after a block");
        text.length = 0;
        if (metadata.type == CLAXON_STREAMINFO) {
            struct claxon_info alone;
            expect(start == 4 &&
                       claxon_streaminfo(bytes + metadata.content, metadata.length, &alone, error, sizeof error) == CLAXON_OK,
                   name, "the streaminfo");
            alone.first_frame = info.first_frame;
            alone.tags = info.tags;
            expect(memcmp(&alone, &info, sizeof info) == 0, name, "the streaminfo alone");
        } else if (metadata.type == CLAXON_VORBIS_COMMENT) {
            expect(add_tags(&text, bytes + metadata.content, metadata.length, &tags, error, sizeof error) == CLAXON_NO_MORE,
                   name, "the tags");
            add_comment(&text, bytes + metadata.content, metadata.length);
        }
    }
    expect(at == info.first_frame && tags == info.tags, name, "the end of the head");
}

/* ---- the MD5 sum of samples */

#define SUMMED 7

/* The sums are those of Python's hashlib, over bytes that its struct packed. */
static const struct {
    uint32_t bits;
    int32_t samples[SUMMED];
    const char *sum;
} sums[] = {
    {4, {0, 1, -1, 7, -8, 5, -6}, "ba8248ff10d1e5537a299f14dfe63bd5"},
    {8, {0, 1, -1, 127, -128, 100, -77}, "cfd8c8c1a59277ce2b10dcece880243f"},
    {12, {0, 1, -1, 2047, -2048, 1000, -777}, "f295de09ca5d74edf31be8e7d8e740ea"},
    {16, {0, 1, -1, 32767, -32768, 12345, -23456}, "1f13d0e7be54e29b38814bbe35728828"},
    {20, {0, 1, -1, 524287, -524288, 123456, -234567}, "a8c979af7758fa994d975bbfe21a7f88"},
    {24, {0, 1, -1, 8388607, -8388608, 1234567, -7654321}, "91a30b1557a0b02e116c84dcfd6e3a1b"},
    {32, {0, 1, -1, INT32_MAX, INT32_MIN, 123456789, -1987654321}, "b9e5acd02f153532eaae37678d56152e"},
};

static void expect_sum(const struct claxon_md5 *md5, const char *sum, const char *what) {
    uint8_t found[16];
    char text[33];
    claxon_md5_finish(md5, found);
    for (int i = 0; i < 16; i++) {
        snprintf(text + 2 * i, 3, "%02x", found[i]);
    }
    expect(strcmp(text, sum) == 0, "claxon_md5_finish", what);
}

/* Whatever the struct holds before. Samples are passed whole and one by one. */
static void test_bit_depths(void) {
    struct claxon_md5 md5;
    memset(&md5, UNTOUCHED, sizeof md5);
    for (size_t row = 0; row < sizeof sums / sizeof *sums; row++) {
        claxon_md5_start(&md5);
        expect_sum(&md5, "d41d8cd98f00b204e9800998ecf8427e", "of nothing");
        expect(claxon_md5_samples(&md5, sums[row].samples, SUMMED, sums[row].bits) == CLAXON_OK, "claxon_md5_samples",
               "a bit depth");
        expect_sum(&md5, sums[row].sum, "of samples");
        claxon_md5_start(&md5);
        for (size_t i = 0; i < SUMMED; i++) {
            claxon_md5_samples(&md5, sums[row].samples + i, 1, sums[row].bits);
            claxon_md5_samples(&md5, sums[row].samples, 0, sums[row].bits);
        }
        expect_sum(&md5, sums[row].sum, "of samples one by one");
    }
}

static void test_other_depths(void) {
    const uint32_t others[] = {0, 33, 40, UINT32_MAX};
    struct claxon_md5 md5, before;
    memset(&md5, UNTOUCHED, sizeof md5);
    before = md5;
    for (size_t i = 0; i < sizeof others / sizeof *others; i++) {
        expect(claxon_md5_samples(&md5, sums->samples, SUMMED, others[i]) == CLAXON_UNSUPPORTED, "claxon_md5_samples",
               "another bit depth");
        expect(memcmp(&md5, &before, sizeof md5) == 0, "claxon_md5_samples", "a sum after another bit depth");
    }
}

/* Sample i of channel ch is 7919 * i + 104729 * ch, modulo 65536, less 32768. The sums of 1300 samples of each of 1 to 8
 * channels are those of Python's hashlib, over interleaved samples of 16 bits that its struct packed. */
static const char *planar_sums[] = {
    "56d50ced1c16c660eb39e8b0d6938c7a", "a8100fd960ee22471233d71f6f1d2e07", "15223fa6f809bce0b863e15361a27095",
    "8cbb1a6f7cc1bdb23cafe750bc02c907", "498faa5af54fe98051f6b2c6ff5b1c9d", "67e31db91afe8256a7213005ade1f96c",
    "11f4ca7fe3b370f95ecdf86fcf11f61b", "59f8fb29c15fc5834c195f28212cf3c3",
};

/* Whatever is hashed before: half of the samples of each channel, and then the other half. */
static void test_planar_sums(void) {
    enum { DURATION = 1300, HALF = 650 };
    struct claxon_md5 md5;
    for (uint32_t channels = 1; channels <= 8; channels++) {
        claxon_md5_start(&md5);
        for (size_t start = 0; start < DURATION; start += HALF) {
            for (size_t ch = 0; ch < channels; ch++) {
                for (size_t i = 0; i < HALF; i++) {
                    samples[ch * HALF + i] = (int32_t)((7919 * (start + i) + 104729 * ch) % 65536) - 32768;
                }
            }
            expect(claxon_md5_planar(&md5, samples, channels * HALF, channels, 16) == CLAXON_OK, "claxon_md5_planar", "half");
            expect(claxon_md5_planar(&md5, samples, 0, channels, 16) == CLAXON_OK, "claxon_md5_planar", "no samples");
        }
        expect_sum(&md5, planar_sums[channels - 1], "of planar samples");
    }
}

static void test_other_planar(void) {
    const struct {
        size_t count;
        uint32_t channels, bits;
    } others[] = {{6, 2, 0}, {6, 2, 33}, {6, 0, 16}, {6, 9, 16}, {9, 9, 16}, {7, 2, 16}, {1, 8, 16}, {6, UINT32_MAX, 16}};
    struct claxon_md5 md5, before;
    memset(&md5, UNTOUCHED, sizeof md5);
    before = md5;
    for (size_t i = 0; i < sizeof others / sizeof *others; i++) {
        expect(claxon_md5_planar(&md5, samples, others[i].count, others[i].channels, others[i].bits) == CLAXON_UNSUPPORTED,
               "claxon_md5_planar", "other samples");
        expect(memcmp(&md5, &before, sizeof md5) == 0, "claxon_md5_planar", "a sum after other samples");
    }
}

/* A file of a real encoder has the sum that this encoder gave it. */
static int test_sum_of(const char *name, const uint8_t *bytes, size_t length) {
    const char *names[] = {"eight_bits.flac",         "escapes_of_a_real_encoder.flac",
                           "left_channel_alone.flac", "other_encoder_speech.flac",
                           "quiet_noise.flac",        "wasted_bits_of_24.flac"};
    size_t i = 0, count = sizeof names / sizeof *names;
    while (i < count && strcmp(name, names[i]) != 0) {
        i++;
    }
    if (i == count) {
        return 0;
    }
    struct claxon_info info = {0};
    struct claxon_block block;
    struct claxon_md5 md5;
    uint8_t sum[16];
    char error[64];
    claxon_md5_start(&md5);
    expect(claxon_open(bytes, length, &info, error, sizeof error) == CLAXON_OK, name, "the head");
    for (size_t at = info.first_frame;
         claxon_next_block(bytes, length, &at, &info, samples, CLAXON_MAX_SAMPLES, &block, error, sizeof error) == CLAXON_OK;) {
        claxon_md5_samples(&md5, samples, (size_t)block.channels * block.duration, info.bits_per_sample);
    }
    claxon_md5_finish(&md5, sum);
    expect(memcmp(sum, info.md5, 16) == 0, name, "the MD5 sum");
    claxon_md5_start(&md5);
    for (size_t at = info.first_frame; claxon_next_block_planar(bytes, length, &at, &info, samples, CLAXON_MAX_SAMPLES, &block,
                                                                error, sizeof error) == CLAXON_OK;) {
        claxon_md5_planar(&md5, samples, (size_t)block.channels * block.duration, block.channels, info.bits_per_sample);
    }
    claxon_md5_finish(&md5, sum);
    expect(memcmp(sum, info.md5, 16) == 0, name, "the MD5 sum of planar samples");
    return 1;
}

/* The texts of statuses, which are cut where they don't fit. */

static void test_status_texts(void) {
    static const char *texts[] = {"ok",
                                  "the stream is ill-formed",
                                  "the stream has something that isn't supported",
                                  "the bytes end too early",
                                  "out of memory",
                                  "there is no more",
                                  "the samples don't fit",
                                  "the search stopped at its budget",
                                  "unknown status"};
    char text[64];
    for (uint32_t status = 0; status < 9; status++) {
        memset(text, 'x', sizeof text);
        claxon_status_text(status, text, sizeof text);
        expect(strcmp(text, texts[status]) == 0, "claxon_status_text", texts[status]);
        expect(text[strlen(text) + 1] == 'x', "claxon_status_text", "what is after the text");
    }
    claxon_status_text(100, text, sizeof text);
    expect(strcmp(text, "more bytes are needed") == 0, "claxon_status_text", "CLAXON_NEED_MORE");
    claxon_status_text(101, text, sizeof text);
    expect(strcmp(text, "reading or seeking failed") == 0, "claxon_status_text", "CLAXON_READ_FAILED");
    claxon_status_text(CLAXON_OUT_OF_MEMORY, text, 4);
    expect(strcmp(text, "out") == 0 && text[4] == 'i', "claxon_status_text", "a text that is cut");
    claxon_status_text(CLAXON_OUT_OF_MEMORY, text, 0);
    expect(strcmp(text, "out") == 0, "claxon_status_text", "a text without room");
}

/* A tag by its name. Letters outside ASCII have a case in this text too. */

static uint32_t has_name(const char *own, const char *name) {
    struct claxon_tag tag = {0, 0, 0, 0};
    tag.name_length = strlen(own);
    return claxon_tag_has_name((const uint8_t *)own, strlen(own), &tag, name, strlen(name));
}

static void test_tag_names(void) {
    static const uint8_t content[] = "ab=cTiTlE=x";
    struct claxon_tag tag = {4, 5, 10, 1};
    const size_t length = sizeof content - 1;
    const size_t outside[4][2] = {{length, 1}, {SIZE_MAX, 1}, {4, SIZE_MAX}, {SIZE_MAX, SIZE_MAX}};
    expect(claxon_tag_has_name(content, length, &tag, "title", 5) == 1, "claxon_tag_has_name", "lower case");
    expect(claxon_tag_has_name(content, length, &tag, "TITLE", 5) == 1, "claxon_tag_has_name", "upper case");
    expect(claxon_tag_has_name(content, length, &tag, "title", 4) == 0, "claxon_tag_has_name", "a shorter name");
    expect(claxon_tag_has_name(content, length, &tag, "title=", 6) == 0, "claxon_tag_has_name", "a longer name");
    expect(claxon_tag_has_name(content, length, &tag, "titla", 5) == 0, "claxon_tag_has_name", "another name");
    for (size_t i = 0; i < 4; i++) {
        struct claxon_tag other = {outside[i][0], outside[i][1], 0, 0};
        expect(claxon_tag_has_name(content, length, &other, "x", 1) == 0, "claxon_tag_has_name", "positions outside");
    }
    tag.name_at = length;
    tag.name_length = 0;
    expect(claxon_tag_has_name(content, length, &tag, "", 0) == 1, "claxon_tag_has_name", "no name");
    for (unsigned byte = 1; byte < 128; byte++) {
        for (unsigned other = 1; other < 128; other++) {
            const char own[2] = {(char)byte, 0}, name[2] = {(char)other, 0};
            int are_letters = (byte | 32) >= 'a' && (byte | 32) <= 'z';
            expect(has_name(own, name) == (byte == other || (are_letters && (byte ^ other) == 32)), "claxon_tag_has_name",
                   "a byte");
        }
    }
    expect(has_name("\xc3\x84", "\xc3\xa4") == 0, "claxon_tag_has_name", "letters outside ASCII");
}

/* Samples of full scale, by the definitions in claxon.h. */

#define CONVERTED 400

static int32_t sample_of_bits(uint32_t bits, size_t i) {
    int64_t least = -((int64_t)1 << (bits - 1)), sample;
    static uint32_t state = 1;
    state = state * 1664525 + 1013904223;
    sample = i < 5 ? (int64_t)i - 2 : i < 10 ? least + (int64_t)i - 5 : i < 15 ? -least + 9 - (int64_t)i : (int32_t)state;
    while (sample < least || sample > -least - 1) {
        sample /= 2;
    }
    return (int32_t)sample;
}

static int16_t upper_16(uint32_t bits, int32_t sample) {
    int64_t number = sample;
    for (; bits < 16; bits++) {
        number *= 2;
    }
    for (; bits > 16; bits--) {
        number = (number - (number & 1)) / 2;
    }
    return (int16_t)number;
}

static void test_conversions(void) {
    static int32_t all[CONVERTED];
    static int16_t numbers[CONVERTED + 1];
    static float floats[CONVERTED + 1];
    for (uint32_t bits = 1; bits <= 32; bits++) {
        for (size_t i = 0; i < CONVERTED; i++) {
            all[i] = sample_of_bits(bits, i);
        }
        numbers[CONVERTED] = 77;
        floats[CONVERTED] = 77;
        expect(claxon_to_int16(all, CONVERTED, bits, numbers, CONVERTED + 1) == CLAXON_OK, "claxon_to_int16", "its status");
        expect(claxon_to_float(all, CONVERTED, bits, floats, CONVERTED + 1) == CLAXON_OK, "claxon_to_float", "its status");
        expect(numbers[CONVERTED] == 77 && floats[CONVERTED] == 77, "claxon_to_int16", "what is after the numbers");
        for (size_t i = 0; i < CONVERTED; i++) {
            double exact = (double)all[i] / (double)((int64_t)1 << (bits - 1));
            expect(numbers[i] == upper_16(bits, all[i]), "claxon_to_int16", "a number");
            expect(floats[i] == (float)exact && floats[i] >= -1 && floats[i] <= 1, "claxon_to_float", "a number");
        }
    }
    all[0] = 0x12345;
    all[1] = -0x12345;
    expect(claxon_to_int16(all, 2, 16, numbers, 2) == CLAXON_OK && numbers[0] == 0x2345 && numbers[1] == -0x2345,
           "claxon_to_int16", "samples of more bits");
    for (uint32_t bits = 0; bits < 40; bits += 33) {
        expect(claxon_to_int16(all, 2, bits, numbers, 2) == CLAXON_UNSUPPORTED, "claxon_to_int16", "no bit depth");
        expect(claxon_to_float(all, 2, bits, floats, 2) == CLAXON_UNSUPPORTED, "claxon_to_float", "no bit depth");
    }
    floats[0] = 77;
    expect(claxon_to_int16(all, 2, 16, numbers, 1) == CLAXON_BUFFER_TOO_SMALL && numbers[0] == 0x2345, "claxon_to_int16",
           "too little room");
    expect(claxon_to_float(all, 2, 16, floats, 1) == CLAXON_BUFFER_TOO_SMALL && floats[0] == 77, "claxon_to_float",
           "too little room");
    expect(claxon_to_int16(all, 0, 16, numbers, 0) == CLAXON_OK && numbers[0] == 0x2345, "claxon_to_int16", "no samples");
}

int main(int argc, char **argv) {
    struct known known;
    int files = 0, files_with_sum = 0, contents = argc == 2 ? test_contents(argv[1]) : 0;
    test_headers();
    test_positions();
    test_bit_depths();
    test_other_depths();
    test_planar_sums();
    test_other_planar();
    test_crc();
    test_formats();
    test_status_texts();
    test_tag_names();
    test_conversions();
    expect(claxon_version() == CLAXON_VERSION, "claxon_version", "not that of claxon.h");
    expect(contents > 0, "blocks.txt", "no line");
    while (argc == 2 && next_known(&known)) {
        size_t length = 0;
        uint8_t *bytes = read_file(argv[1], known.name, &length);
        if (bytes) {
            test_file(&known, bytes, length);
            test_blocks_of(known.name, bytes, length);
            files_with_sum += test_sum_of(known.name, bytes, length);
            files++;
        }
        free(bytes);
    }
    expect(files_with_sum == 6, "cases", "not all files with an MD5 sum");
    printf("cases: %d files, %d contents of blocks, %d MD5 sums, %d failures\n", files, contents, files_with_sum, failures);
    return failures != 0 || files == 0;
}
