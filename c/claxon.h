/* claxon.h: an exact FLAC decoder. README.md in this folder says how to use these calls, what is proved of them, and what
 * is trusted.
 *
 * Calls keep no state and are safe for any bytes. Pointers must not be null, not even for a length of 0, and a buffer that
 * a call writes to must not overlap any other argument of it. */
#ifndef CLAXON_H
#define CLAXON_H

#include <stddef.h>
#include <stdint.h>
#if (defined(__STDC_VERSION__) && __STDC_VERSION__ >= 201112L) || (defined(__cplusplus) && __cplusplus >= 201103L)
#include <assert.h>
#define CLAXON_HAS_STATIC_ASSERT
#endif

#ifdef __cplusplus
extern "C" {
#endif

/* The version of this header: 10000 * major + 100 * minor + patch. */
#define CLAXON_VERSION 300

/* The version of the library. */
uint32_t claxon_version(void);

/* What a call returns. */
enum claxon_status {
    CLAXON_OK = 0,
    CLAXON_FORMAT_ERROR = 1,     /* the stream is ill-formed: `error` says how */
    CLAXON_UNSUPPORTED = 2,      /* the stream has something that isn't supported: `error` says what */
    CLAXON_INPUT_ENDS = 3,       /* the bytes end too early: call again with these and more */
    CLAXON_OUT_OF_MEMORY = 4,    /* malloc failed */
    CLAXON_NO_MORE = 5,          /* no further block, no further tag, no such frame */
    CLAXON_BUFFER_TOO_SMALL = 6, /* the samples don't fit */
    CLAXON_OVER_BUDGET = 7,      /* a search stopped, as headers cost more than its budget */
    CLAXON_NEED_MORE = 100       /* nothing can be said before more bytes are handed in */
};

/* Writes what a status means, as "out of memory": a text that ends with 0, truncated if it doesn't fit. 64 bytes are enough.
 * Those of claxon_stream.h have texts too. What is wrong with a stream is said by `error` of the other calls. */
void claxon_status_text(uint32_t status, char *text, size_t text_size);

/* The maximum number of samples in a block, of all channels together. */
#define CLAXON_MAX_SAMPLES (8 * 65535)

/* The maximum number of bytes of a frame that a streaminfo can give. A window over a stream need never be larger: where a
 * frame doesn't stand in as many bytes, the stream is damaged. */
#define CLAXON_MAX_FRAME_BYTES 16777215

/* What the head of a stream says. All zeros mean that nothing is known of the stream. */
struct claxon_info {
    size_t first_frame;       /* the length of the head in bytes: the position of the first frame */
    size_t tags;              /* the number of tags */
    uint64_t samples;         /* the number of samples of each channel, or 0 if unknown */
    uint32_t sample_rate;     /* in Hz */
    uint32_t channels;        /* 1 to 8 */
    uint32_t bits_per_sample; /* 1 to 32 */
    uint32_t min_frame_size;  /* in bytes, or 0 if unknown */
    uint32_t max_frame_size;  /* in bytes, or 0 if unknown */
    uint16_t min_block_size;  /* in samples of each channel; the last block may be smaller */
    uint16_t max_block_size;
    uint8_t md5[16]; /* the MD5 sum of the samples, or zeros if unknown */
};

/* A metadata block. */
struct claxon_metadata {
    size_t content;  /* the position of its content */
    uint32_t length; /* the length of its content in bytes */
    uint8_t type;    /* one of enum claxon_block_type, or a reserved type */
    uint8_t is_last; /* 1 if the first frame follows it, else 0 */
};

/* The types of metadata blocks that have a name. */
enum claxon_block_type {
    CLAXON_STREAMINFO = 0,
    CLAXON_PADDING = 1,
    CLAXON_APPLICATION = 2,
    CLAXON_SEEK_TABLE = 3,
    CLAXON_VORBIS_COMMENT = 4,
    CLAXON_CUE_SHEET = 5,
    CLAXON_PICTURE = 6
};

/* Where a tag is in the content of a Vorbis comment block. */
struct claxon_tag {
    size_t name_at;      /* the position of its name: ASCII, of which upper and lower case mean the same */
    size_t name_length;  /* the length of its name in bytes */
    size_t value_at;     /* the position of its value: UTF-8 */
    size_t value_length; /* the length of its value in bytes */
};

/* The properties of a block, from the header of its frame. */
struct claxon_block {
    uint64_t time;            /* the number of samples of each channel before it */
    uint32_t channels;        /* 1 to 8 */
    uint32_t duration;        /* the number of samples of each channel, 1 to 65535 */
    uint32_t sample_rate;     /* in Hz, or 0 where the header leaves it to the streaminfo */
    uint32_t bits_per_sample; /* or 0 where the header leaves it to the streaminfo */
};

/* The MD5 sum of samples, as far as they were hashed. Its fields are for the calls alone. It needs no end, and may be
 * copied. */
struct claxon_md5 {
    uint32_t state[4];
    uint64_t length;
    uint8_t buffer[64];
};

/* The head of a stream whose bytes are handed in: its marker and its metadata blocks. It may be copied. */
struct claxon_head {
    uint64_t position; /* of the first byte that is needed */
    uint64_t begin;    /* where the marker or the metadata block begins that comes next, or is faulty or cut */
    /* The next seven are for the calls alone. */
    uint32_t next;
    uint8_t is_last, type;
    uint32_t length;
    uint8_t is_metadata_only, has_comment_option, has_info, has_comment;
    uint32_t most;
    size_t needed; /* after NEED_MORE how many bytes are needed at least, from `position` on; else 0 */
    uint32_t part; /* which part was read last: one of enum claxon_part */
};

/* The parts of a head. */
enum claxon_part { CLAXON_MARKER = 0, CLAXON_METADATA_HEADER = 1, CLAXON_METADATA_CONTENT = 2 };

/* A frame that was decoded: where it stands in its stream, and how it is numbered. */
struct claxon_frame {
    uint64_t position;    /* of its first byte */
    uint64_t end;         /* of the byte after its last one */
    uint64_t number;      /* the coded number: that of the frame, or with a variable block size that of its first sample */
    uint32_t duration;    /* the number of samples of each channel */
    uint32_t is_variable; /* 1 if the header says that the block size may vary, else 0 */
};

/* The frames of a stream whose bytes are handed in. It may be copied. */
struct claxon_frames {
    uint64_t position; /* of the first byte that is needed */
    /* The next seven are for the calls alone. */
    size_t tried, summed;
    uint16_t crc;
    uint8_t is_near;
    uint64_t wasted, counted, faults;
    size_t needed;            /* after NEED_MORE how many bytes are needed at least, from `position` on; else 0 */
    struct claxon_frame last; /* the frame that was decoded last */
};

/* A search for the next frame of a stream whose bytes are handed in. It may be copied. */
struct claxon_search {
    uint64_t position; /* of the first byte that is needed */
    /* The next nine are for the calls alone. */
    size_t tried, summed;
    uint16_t crc;
    uint8_t is_near;
    uint64_t wasted_by_tries, counted_by_tries, faults;
    uint64_t wasted, counted;
    uint8_t has_passed_over; /* 1 if a header was passed over untried, as very much work had led to no frame; else 0 */
    size_t needed;           /* after NEED_MORE how many bytes are needed at least, from `position` on; else 0 */
};

/* Where the blocks of a stream begin in time, by the frames that were noted. It may be copied. */
struct claxon_clock {
    uint64_t state[5]; /* for the calls alone */
};

/* A seek to a sample, in a stream whose bytes are handed in. It may be copied. */
struct claxon_seeker {
    uint64_t state[33];        /* for the calls alone */
    uint64_t position;         /* after NEED_MORE where the bytes begin that are needed, before or after those that are held, */
    size_t needed;             /*     and how many are needed at least; else 0 */
    struct claxon_frame found; /* the frame that was found */
};

/* The layout that the library has: that of Linux on x86-64 and 64-bit ARM, which it is built for. */
#ifdef CLAXON_HAS_STATIC_ASSERT
static_assert(sizeof(struct claxon_info) == 64 && offsetof(struct claxon_info, first_frame) == 0 &&
                  offsetof(struct claxon_info, tags) == 8 && offsetof(struct claxon_info, samples) == 16 &&
                  offsetof(struct claxon_info, sample_rate) == 24 && offsetof(struct claxon_info, channels) == 28 &&
                  offsetof(struct claxon_info, bits_per_sample) == 32 && offsetof(struct claxon_info, min_frame_size) == 36 &&
                  offsetof(struct claxon_info, max_frame_size) == 40 && offsetof(struct claxon_info, min_block_size) == 44 &&
                  offsetof(struct claxon_info, max_block_size) == 46 && offsetof(struct claxon_info, md5) == 48,
              "claxon is for Linux on x86-64 and 64-bit ARM: struct claxon_info has another layout here");
static_assert(sizeof(struct claxon_metadata) == 16 && offsetof(struct claxon_metadata, content) == 0 &&
                  offsetof(struct claxon_metadata, length) == 8 && offsetof(struct claxon_metadata, type) == 12 &&
                  offsetof(struct claxon_metadata, is_last) == 13,
              "claxon is for Linux on x86-64 and 64-bit ARM: struct claxon_metadata has another layout here");
static_assert(sizeof(struct claxon_tag) == 32 && offsetof(struct claxon_tag, name_at) == 0 &&
                  offsetof(struct claxon_tag, name_length) == 8 && offsetof(struct claxon_tag, value_at) == 16 &&
                  offsetof(struct claxon_tag, value_length) == 24,
              "claxon is for Linux on x86-64 and 64-bit ARM: struct claxon_tag has another layout here");
static_assert(sizeof(struct claxon_block) == 24 && offsetof(struct claxon_block, time) == 0 &&
                  offsetof(struct claxon_block, channels) == 8 && offsetof(struct claxon_block, duration) == 12 &&
                  offsetof(struct claxon_block, sample_rate) == 16 && offsetof(struct claxon_block, bits_per_sample) == 20,
              "claxon is for Linux on x86-64 and 64-bit ARM: struct claxon_block has another layout here");
static_assert(sizeof(struct claxon_md5) == 88 && offsetof(struct claxon_md5, state) == 0 &&
                  offsetof(struct claxon_md5, length) == 16 && offsetof(struct claxon_md5, buffer) == 24,
              "claxon is for Linux on x86-64 and 64-bit ARM: struct claxon_md5 has another layout here");
static_assert(sizeof(struct claxon_head) == 56 && offsetof(struct claxon_head, position) == 0 &&
                  offsetof(struct claxon_head, begin) == 8 && offsetof(struct claxon_head, next) == 16 &&
                  offsetof(struct claxon_head, is_last) == 20 && offsetof(struct claxon_head, type) == 21 &&
                  offsetof(struct claxon_head, length) == 24 && offsetof(struct claxon_head, is_metadata_only) == 28 &&
                  offsetof(struct claxon_head, has_comment_option) == 29 && offsetof(struct claxon_head, has_info) == 30 &&
                  offsetof(struct claxon_head, has_comment) == 31 && offsetof(struct claxon_head, most) == 32 &&
                  offsetof(struct claxon_head, needed) == 40 && offsetof(struct claxon_head, part) == 48,
              "claxon is for Linux on x86-64 and 64-bit ARM: struct claxon_head has another layout here");
static_assert(sizeof(struct claxon_frame) == 32 && offsetof(struct claxon_frame, position) == 0 &&
                  offsetof(struct claxon_frame, end) == 8 && offsetof(struct claxon_frame, number) == 16 &&
                  offsetof(struct claxon_frame, duration) == 24 && offsetof(struct claxon_frame, is_variable) == 28,
              "claxon is for Linux on x86-64 and 64-bit ARM: struct claxon_frame has another layout here");
static_assert(sizeof(struct claxon_frames) == 96 && offsetof(struct claxon_frames, position) == 0 &&
                  offsetof(struct claxon_frames, tried) == 8 && offsetof(struct claxon_frames, summed) == 16 &&
                  offsetof(struct claxon_frames, crc) == 24 && offsetof(struct claxon_frames, is_near) == 26 &&
                  offsetof(struct claxon_frames, wasted) == 32 && offsetof(struct claxon_frames, counted) == 40 &&
                  offsetof(struct claxon_frames, faults) == 48 && offsetof(struct claxon_frames, needed) == 56 &&
                  offsetof(struct claxon_frames, last) == 64,
              "claxon is for Linux on x86-64 and 64-bit ARM: struct claxon_frames has another layout here");
static_assert(sizeof(struct claxon_search) == 88 && offsetof(struct claxon_search, position) == 0 &&
                  offsetof(struct claxon_search, tried) == 8 && offsetof(struct claxon_search, summed) == 16 &&
                  offsetof(struct claxon_search, crc) == 24 && offsetof(struct claxon_search, is_near) == 26 &&
                  offsetof(struct claxon_search, wasted_by_tries) == 32 &&
                  offsetof(struct claxon_search, counted_by_tries) == 40 && offsetof(struct claxon_search, faults) == 48 &&
                  offsetof(struct claxon_search, wasted) == 56 && offsetof(struct claxon_search, counted) == 64 &&
                  offsetof(struct claxon_search, has_passed_over) == 72 && offsetof(struct claxon_search, needed) == 80,
              "claxon is for Linux on x86-64 and 64-bit ARM: struct claxon_search has another layout here");
static_assert(sizeof(struct claxon_clock) == 40,
              "claxon is for Linux on x86-64 and 64-bit ARM: struct claxon_clock has another layout here");
static_assert(sizeof(struct claxon_seeker) == 312 && offsetof(struct claxon_seeker, state) == 0 &&
                  offsetof(struct claxon_seeker, position) == 264 && offsetof(struct claxon_seeker, needed) == 272 &&
                  offsetof(struct claxon_seeker, found) == 280,
              "claxon is for Linux on x86-64 and 64-bit ARM: struct claxon_seeker has another layout here");
#endif

/* Reads the head that the bytes begin with. With CLAXON_OK, `info` is filled.
 * Else: FORMAT_ERROR, UNSUPPORTED, INPUT_ENDS, OUT_OF_MEMORY; `error` gets a text that ends with 0, truncated if it doesn't
 * fit. */
uint32_t claxon_open(const uint8_t *bytes, size_t length, struct claxon_info *info, char *error, size_t error_size);

/* Reads the header of the metadata block at the position *at, which takes four bytes. The first one is at 4, after the
 * marker `fLaC`. With CLAXON_OK, `metadata` is filled, and *at is moved after the block's content, which need not be there:
 * the position may be past `length`. INPUT_ENDS: fewer than four bytes are left at *at; nothing is changed. */
uint32_t claxon_next_metadata(const uint8_t *bytes, size_t length, size_t *at, struct claxon_metadata *metadata);

/* Reads the content of a streaminfo block, as Ogg, MP4 and Matroska hand it in: just these `length` bytes. With CLAXON_OK,
 * `info` is filled, with 0 for first_frame and tags, which such a block doesn't say. Else as claxon_open, but never
 * OUT_OF_MEMORY. */
uint32_t claxon_streaminfo(const uint8_t *content, size_t length, struct claxon_info *info, char *error, size_t error_size);

/* Reads the whole content of a Vorbis comment block: just these `length` bytes. With CLAXON_OK, the vendor string, in UTF-8,
 * is at `vendor_at` in the content, and `tags` is the number of tags. Else as claxon_open. */
uint32_t claxon_vendor(const uint8_t *content, size_t length, size_t *vendor_at, size_t *vendor_length, size_t *tags,
                       char *error, size_t error_size);

/* Finds the next tag in the content of a Vorbis comment block. *at is 0 for the first one. With CLAXON_OK, `tag` is filled,
 * and *at is moved after the tag. NO_MORE: no tag is left. FORMAT_ERROR: what stands at *at is no tag, `error` gets a text.
 * With any status but OK nothing else is changed. claxon_vendor tells whether the whole block is well-formed. */
uint32_t claxon_next_tag(const uint8_t *content, size_t length, size_t *at, struct claxon_tag *tag, char *error,
                         size_t error_size);

/* Whether the tag has this name in the content, in which a-z and A-Z are the same (RFC 9639, section 8.6): 1 if so, else 0.
 * `name` needs no 0 at its end. */
uint32_t claxon_tag_has_name(const uint8_t *content, size_t length, const struct claxon_tag *tag, const char *name,
                             size_t name_length);

/* Decodes the frame at the position *at. With CLAXON_OK, `block` is filled, channels * duration samples are written,
 * interleaved, and *at is moved after the frame. With any other status *at and the samples are unchanged:
 * NO_MORE: fewer than two bytes are left. INPUT_ENDS: the bytes end within the frame; or 2^32 zero bits run in it, and more
 * bytes don't help. BUFFER_TOO_SMALL: a frame's header is there, `block` is filled from it, and its samples don't fit; no more
 * than the header was read. FORMAT_ERROR, UNSUPPORTED, OUT_OF_MEMORY, INPUT_ENDS: `error` gets a text. */
uint32_t claxon_next_block(const uint8_t *bytes, size_t length, size_t *at, const struct claxon_info *info, int32_t *samples,
                           size_t capacity, struct claxon_block *block, char *error, size_t error_size);

/* As claxon_next_block, with the samples of one channel after those of another: sample `i` of channel `ch` is
 * samples[ch * block.duration + i]. */
uint32_t claxon_next_block_planar(const uint8_t *bytes, size_t length, size_t *at, const struct claxon_info *info,
                                  int32_t *samples, size_t capacity, struct claxon_block *block, char *error,
                                  size_t error_size);

/* Converts `count` samples of `bits_per_sample` bits, in any order, to 16 bits of full scale: to the upper 16 of their bits, so
 * that more bits are rounded down; fewer get zeros below. Of a sample with more bits than it should have the upper ones are
 * lost. OK: `count` numbers are written. UNSUPPORTED: the number of bits isn't 1 to 32. BUFFER_TOO_SMALL: `capacity` is below
 * `count`. Without OK nothing is changed. */
uint32_t claxon_to_int16(const int32_t *samples, size_t count, uint32_t bits_per_sample, int16_t *numbers, size_t capacity);

/* As claxon_to_int16, to single precision: the float nearest to the sample, divided by 2^(bits_per_sample - 1), so from -1
 * to 1. Up to 25 bits that is exact. */
uint32_t claxon_to_float(const int32_t *samples, size_t count, uint32_t bits_per_sample, float *numbers, size_t capacity);

/* The CRC of a frame (RFC 9639, section 9.3), as far as its bytes are there: `crc` is that of the bytes before these, 0 at
 * first, and the result that of all of them. After a whole frame it is 0: its last two bytes are the CRC of the others. */
uint16_t claxon_crc16(uint16_t crc, const uint8_t *bytes, size_t length);

/* Begins an MD5 sum of samples, for comparison with the one in the head. No samples are hashed yet. */
void claxon_md5_start(struct claxon_md5 *md5);

/* Hashes `count` interleaved samples, after those that were hashed before. `bits_per_sample` is that of the stream; of a
 * sample with more bits the low bytes are hashed. UNSUPPORTED: it isn't 1 to 32; nothing is changed. Else OK. */
uint32_t claxon_md5_samples(struct claxon_md5 *md5, const int32_t *samples, size_t count, uint32_t bits_per_sample);

/* The same for planar samples, those of one channel after those of another, as claxon_next_block_planar writes them: `count`
 * of 1 to 8 channels together. UNSUPPORTED also for another number of channels, or a `count` that isn't a multiple of it. */
uint32_t claxon_md5_planar(struct claxon_md5 *md5, const int32_t *samples, size_t count, uint32_t channels,
                           uint32_t bits_per_sample);

/* Fills `sum` with the sum of the samples that were hashed. More may be hashed after it. */
void claxon_md5_finish(const struct claxon_md5 *md5, uint8_t sum[16]);

/* Finds the first frame of the stream from the position *at on: one with the number of channels and the bit depth of `info`,
 * or any frame whose header gives its bit depth where `info` is all zeros. With CLAXON_OK, *at is moved to the frame, and
 * `block` is filled from its header. NO_MORE: there is none; *at is moved to where a search goes on: before it none can
 * begin, whatever follows. OVER_BUDGET: *at is moved to a header whose block has more samples than *budget, and no frame begins
 * before it; a search from there goes on, with a budget of CLAXON_MAX_SAMPLES or more. OUT_OF_MEMORY: nothing is changed.
 * `block` is changed with CLAXON_OK alone. From *budget are taken, down to 0, the samples, of all channels, of each block whose
 * header is found, and where no frame stands there the bytes that are read to find that: up to the fault, or all. So the time
 * is linear in `length` and *budget, also for hostile bytes. UINT64_MAX is no limit. */
uint32_t claxon_find_frame(const uint8_t *bytes, size_t length, size_t *at, const struct claxon_info *info, uint64_t *budget,
                           struct claxon_block *block);

/* Finds a frame from info->first_frame on whose block has the sample: block.time <= sample < block.time + block.duration. With
 * CLAXON_OK, *at is the frame's position, from which claxon_next_block decodes it, and `block` is filled from its header.
 * NO_MORE: there is none; with an `info` of zeros a shorter last block of a fixed block size has a wrong time, and isn't
 * found. OVER_BUDGET: headers whose blocks would have the sample, but that begin no frame, cost more than `budget`, as in
 * claxon_find_frame. OUT_OF_MEMORY. With any status but OK nothing is changed. */
uint32_t claxon_seek(const uint8_t *bytes, size_t length, const struct claxon_info *info, uint64_t sample, uint64_t budget,
                     size_t *at, struct claxon_block *block);

/* As claxon_seek and then claxon_next_block, which together decode the frame twice. With CLAXON_OK, channels * duration samples
 * are written, interleaved, and *at is moved after the frame; the sample that is sought begins at
 * (sample - block.time) * block.channels. BUFFER_TOO_SMALL: they don't fit; *at is the frame's position, and `block` is filled.
 * With any other status nothing is changed. */
uint32_t claxon_seek_block(const uint8_t *bytes, size_t length, const struct claxon_info *info, uint64_t sample,
                           uint64_t budget, size_t *at, int32_t *samples, size_t capacity, struct claxon_block *block);

/* Streams in pieces. The caller holds the bytes, and hands in those that he has: `length` bytes at the position `at` of the
 * stream, and `is_end` 1 if the stream ends with them, else 0. Bytes before `position` of the struct aren't needed any more.
 * NEED_MORE: `needed` bytes at least from `position` on are needed, or all up to the end. However a stream is cut into what is
 * handed in, the other answers are the same, one by one. Positions may be counted from anywhere, and are below 2^63: where
 * at + length isn't, the status is UNSUPPORTED and nothing is changed but `error`. OUT_OF_MEMORY: the call may be repeated. */

/* Begins with a head at this position. */
void claxon_head_start(struct claxon_head *head, uint64_t position);

/* Reads the next part of the head. With CLAXON_OK, head->part says which: the marker; a metadata block's header, and `metadata`
 * is filled; or its content, and of a streaminfo block `info` is filled, of Vorbis comments info->tags. Streaminfo, application
 * and Vorbis comment blocks are needed as a whole, and then stand in `bytes`, from metadata->content - at on. Of another
 * content just the last byte is needed: `position` is there after its header. NO_MORE: the head is whole; `position` and
 * info->first_frame are that of the first frame. FORMAT_ERROR, UNSUPPORTED: no head is there; `error` gets a text. INPUT_ENDS:
 * the stream ends within it. Both are of what begins at `begin`. */
uint32_t claxon_head_next(struct claxon_head *head, const uint8_t *bytes, size_t length, uint64_t at, uint32_t is_end,
                          struct claxon_info *info, struct claxon_metadata *metadata, char *error, size_t error_size);

/* Begins with a frame at this position. */
void claxon_frames_start(struct claxon_frames *frames, uint64_t position);

/* Goes on from another position, as after damage. Work that led to no frame stays counted, so that the time is linear. */
void claxon_frames_go_on(struct claxon_frames *frames, uint64_t position);

/* Decodes the next frame. With CLAXON_OK, `block` and `last` are filled, channels * duration samples are written, interleaved,
 * and `position` is moved after the frame. NEED_MORE: no whole frame is there; or very many tries were in vain, as in a stream
 * that was made to cost time. BUFFER_TOO_SMALL: a frame's header is there, and its samples don't fit; `block` is filled from
 * it, and nothing else is changed. FORMAT_ERROR, UNSUPPORTED: no frame begins there, or it has more than
 * CLAXON_MAX_FRAME_BYTES; `position` is moved after what is wrong. INPUT_ENDS: the stream ends within the frame. NO_MORE: it
 * ends after the last frame, or fewer than two bytes later. `position` is at its end then. FORMAT_ERROR, UNSUPPORTED,
 * INPUT_ENDS, OUT_OF_MEMORY: `error` gets a text. */
uint32_t claxon_frames_next(struct claxon_frames *frames, const uint8_t *bytes, size_t length, uint64_t at, uint32_t is_end,
                            const struct claxon_info *info, int32_t *samples, size_t capacity, struct claxon_block *block,
                            char *error, size_t error_size);

/* As claxon_frames_next, with the samples of one channel after those of another. */
uint32_t claxon_frames_next_planar(struct claxon_frames *frames, const uint8_t *bytes, size_t length, uint64_t at,
                                   uint32_t is_end, const struct claxon_info *info, int32_t *samples, size_t capacity,
                                   struct claxon_block *block, char *error, size_t error_size);

/* Begins a search at this position. */
void claxon_search_start(struct claxon_search *search, uint64_t position);

/* Goes on from another position, as after these frames. What was charged stays, and what their faults cost is charged, so that
 * the time is linear. */
void claxon_search_go_on(struct claxon_search *search, struct claxon_frames *frames, uint64_t position);

/* Finds the next frame of the stream, as claxon_find_frame does. With CLAXON_OK, *found is its position, `block` is filled from
 * its header, and `position` is moved after the frame; claxon_frames_go_on goes to it. NO_MORE: there is none, but for what
 * has_passed_over says; `position` is at the end of the stream. A frame that doesn't end within CLAXON_MAX_FRAME_BYTES isn't
 * waited for: the bytes that are held are searched as if the stream ended with them, and if no other is whole there the search
 * goes on 8,388,608 bytes after that frame's first. */
uint32_t claxon_search_next(struct claxon_search *search, const uint8_t *bytes, size_t length, uint64_t at, uint32_t is_end,
                            const struct claxon_info *info, uint64_t *found, struct claxon_block *block);

/* Begins a clock: it knows what the streaminfo says, which frames may correct. block.time is wrong of a shorter last block
 * where the streaminfo has two block sizes, and of each block of encoders from before headers had a bit for a variable block
 * size. */
void claxon_clock_start(struct claxon_clock *clock, const struct claxon_info *info);

/* Finds the sample of each channel at which the block of a frame begins, by those that were noted. 1: *time is it. 0: it isn't
 * known, and nothing is changed. It is known of each frame after those that were noted, one after another from the first; and
 * of any frame, once two that follow one another were noted, unless these show that the block size changes. */
uint32_t claxon_clock_time(const struct claxon_clock *clock, const struct claxon_frame *frame, uint64_t *time);

/* Notes a frame that was decoded, after its time was asked for: frames->last, or seeker->found. */
void claxon_clock_note(struct claxon_clock *clock, const struct claxon_frame *frame);

/* Finds the sample to show as the first of the frame's block, of which *time is block.time: that stays where the streaminfo has
 * one block size, or the clock doesn't know better. Then the frame is noted. */
void claxon_clock_show(struct claxon_clock *clock, const struct claxon_info *info, const struct claxon_frame *frame,
                       uint64_t *time);

/* 1 if the clock doesn't know yet what coded numbers count, else 0. Before a seek the first two frames of the stream are to be
 * noted then, or the first alone where the block size is variable. */
uint32_t claxon_clock_needs_frames(const struct claxon_clock *clock);

/* Begins a seek to this sample of each channel in a stream of `length` bytes; UINT64_MAX: it isn't known. The first frame is at
 * info->first_frame. Times are those of the clock, or block.time where it doesn't know them. */
void claxon_seeker_start(struct claxon_seeker *seeker, const struct claxon_info *info, uint64_t length, uint64_t sample,
                         const struct claxon_clock *clock);

/* Seeks. With CLAXON_OK, `found` is a frame whose block has the sample, `block` is filled from its header, with the time by the
 * clock, and its samples are written, interleaved; claxon_frames_go_on to found.end goes on after it. Headers lead there: they
 * and the length are never believed, and where they mislead all bytes are searched. NO_MORE: no frame from the first one on has
 * the sample. OVER_BUDGET: none was found, and headers were passed over untried, as very much work had led to no frame, or one
 * needs more than CLAXON_MAX_FRAME_BYTES. BUFFER_TOO_SMALL: the samples don't fit; `block` is filled, and the call is to be
 * repeated. After NEED_MORE bytes are needed from seeker->position on; fewer may be handed in. */
uint32_t claxon_seeker_next(struct claxon_seeker *seeker, const uint8_t *bytes, size_t length, uint64_t at, uint32_t is_end,
                            const struct claxon_info *info, int32_t *samples, size_t capacity, struct claxon_block *block);

/* As claxon_seeker_next, with the samples of one channel after those of another. */
uint32_t claxon_seeker_next_planar(struct claxon_seeker *seeker, const uint8_t *bytes, size_t length, uint64_t at,
                                   uint32_t is_end, const struct claxon_info *info, int32_t *samples, size_t capacity,
                                   struct claxon_block *block);

#ifdef __cplusplus
}
#endif

#endif
