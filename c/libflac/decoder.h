/* decoder.h: what the modules of libclaxon_flac share. They implement FLAC/stream_decoder.h over claxon_stream.h. README.md in
 * this folder says how the library is used, and where it differs from libFLAC. */
#ifndef CLAXON_FLAC_DECODER_H
#define CLAXON_FLAC_DECODER_H

#include <FLAC/stream_decoder.h>

#include "claxon_stream.h"

#ifdef CLAXON_FLAC_OGG
#include <ogg/ogg.h>
#endif

struct decoder;

/* Reads bytes of the native stream: at most *length, and sets it to how many came. */
typedef FLAC__StreamDecoderReadStatus decoder_read(struct decoder *self, uint8_t *bytes, size_t *length);

/* What a program sets before it begins a stream. */
struct settings {
    FLAC__bool checks_md5;
    FLAC__bool has_serial_number; /* of the logical stream of Ogg; else it is that of the first page */
    long serial_number;
    uint8_t responds[128]; /* to blocks of each type, */
    FLAC__byte (*ids)[4];  /* and of application blocks not as it says for those with these */
    size_t id_count;
};

struct callbacks {
    FLAC__StreamDecoderReadCallback read;
    FLAC__StreamDecoderSeekCallback seek;
    FLAC__StreamDecoderTellCallback tell;
    FLAC__StreamDecoderLengthCallback length;
    FLAC__StreamDecoderEofCallback eof;
    FLAC__StreamDecoderWriteCallback write;
    FLAC__StreamDecoderMetadataCallback metadata;
    FLAC__StreamDecoderErrorCallback error;
    void *client_data;
};

/* The bytes of the stream that were read, from the first one that isn't done with. */
struct source {
    uint8_t *window;
    size_t size, start, held;
    size_t given;                         /* how many of them the engine has */
    uint64_t base;                        /* the engine's position of the first of them */
    int is_moved;                         /* whether the callback has to seek first: to the engine's position `base` */
    int is_short;                         /* whether the last read gave less than it was asked for */
    int is_drained;                       /* whether what is held isn't counted, as no more can be read */
    FLAC__StreamDecoderReadStatus status; /* of the last read: why no more can be read */
};

/* The head that the engine gets: the marker and a streaminfo block. */
#define ENGINE_HEAD 42

/* What is known of Ogg pages and packets. */
struct ogg {
#ifdef CLAXON_FLAC_OGG
    ogg_sync_state pages;
    ogg_stream_state packets;
    ogg_packet packet; /* of which the bytes from `at` on weren't read */
    long at;
    long serial_number;
    int has_serial_number;
    int has_packets; /* whether the logical stream was found */
    int has_packet;
    int has_ended;
#else
    char none;
#endif
};

struct decoder {
    FLAC__StreamDecoder base; /* the first one, so that a pointer to it is one to the decoder */
    FLAC__StreamDecoderState state;
    struct settings settings;
    struct callbacks callbacks;
    FILE *file; /* of the forms that read a file, or NULL */
    decoder_read *read;
    FLAC__bool is_ogg;
    struct ogg ogg;
    struct source source;

    FLAC__bool has_streaminfo;
    FLAC__StreamMetadata_StreamInfo streaminfo;
    uint64_t first_frame;   /* its position for the callbacks */
    FLAC__bool reads_ahead; /* whether more may be read at once than is needed */

    struct claxon_stream engine;
    struct claxon_stream finder;   /* which seeks. It has the samples of the block that it found */
    struct claxon_stream *current; /* one of these two, or NULL before the first frame */
    uint8_t head[ENGINE_HEAD];     /* what the engine gets before the frames, */
    size_t head_length;            /*     or 0 where it has none, */
    size_t head_given;             /*     and how much of it the engine that seeks has */
    size_t longest_frame;          /* in bytes, as the streaminfo says, or of those that were read */
    uint32_t fixed_block_size;     /* as the first block has it, or 0 */
    uint64_t next_sample;          /* after the last frame */
    FLAC__bool is_told;            /* whether the program was told so */
    FLAC__bool is_lost;            /* whether the next frame has to be searched */
    FLAC__bool is_seeking;         /* no error is told then */

    FLAC__bool hashes;
    struct claxon_md5 md5;
    int32_t *silence;
    size_t silence_size;

    FLAC__Frame frame;                               /* what the write callback was handed over, */
    const FLAC__int32 *channels[FLAC__MAX_CHANNELS]; /*     with these samples */
    FLAC__FrameHeader last;                          /* of the last frame, or zeros */
    FLAC__bool has_last;                             /* whether it is a frame before the next one */
};

/* state.c */
struct decoder *decoder_of(const FLAC__StreamDecoder *decoder);
int is_initialized(const struct decoder *self);
int fail(struct decoder *self, FLAC__StreamDecoderState state);
int stop(struct decoder *self);
void send_error(struct decoder *self, FLAC__StreamDecoderErrorStatus status);

/* settings.c */
void default_settings(struct settings *settings);
int responds_to(const struct settings *settings, FLAC__MetadataType type, const uint8_t *id);

/* source.c: reading the bytes of the stream. */
FLAC__StreamDecoderReadStatus read_by_callback(struct decoder *self, uint8_t *bytes, size_t *length);
const uint8_t *source_bytes(const struct decoder *self);
int source_read(struct decoder *self);
int source_hold(struct decoder *self, size_t count);
void source_pass(struct decoder *self, size_t count);
void source_clear(struct decoder *self, uint64_t base);
void source_free(struct decoder *self);
size_t source_used(const struct decoder *self);
size_t source_unread(const struct decoder *self);

/* file.c: the callbacks of the forms that read a file. */
FLAC__StreamDecoderReadStatus file_read(const FLAC__StreamDecoder *decoder, FLAC__byte *bytes, size_t *length,
                                        void *client_data);
FLAC__StreamDecoderSeekStatus file_seek(const FLAC__StreamDecoder *decoder, FLAC__uint64 position, void *client_data);
FLAC__StreamDecoderTellStatus file_tell(const FLAC__StreamDecoder *decoder, FLAC__uint64 *position, void *client_data);
FLAC__StreamDecoderLengthStatus file_length(const FLAC__StreamDecoder *decoder, FLAC__uint64 *length, void *client_data);
FLAC__bool file_eof(const FLAC__StreamDecoder *decoder, void *client_data);

/* metadata.c: the head of the stream. */
int find_metadata(struct decoder *self);
int read_metadata(struct decoder *self);

/* content.c: the content of metadata blocks. */
struct block_memory {
    void *items;
    void *more;
};
enum content_status { CONTENT_OK, CONTENT_BAD, CONTENT_NO_MEMORY };
enum content_status parse_content(FLAC__StreamMetadata *block, const uint8_t *content, struct block_memory *memory);
void free_content(struct block_memory *memory);

/* raw.c: the bytes of a frame's header and footer. */
enum raw_header { RAW_NO_SYNC, RAW_DAMAGED, RAW_HEADER };
enum raw_header raw_header(const uint8_t *bytes, size_t length);
int raw_has_sample_number(const uint8_t *bytes);
void raw_fill_header(FLAC__FrameHeader *header, const uint8_t *bytes);
void raw_fill_rest(FLAC__Frame *frame, const uint8_t *bytes, size_t length, const int32_t *samples);

/* residual.c: how many bits a partition of a residual takes, by samples of 16 bits and the predictor's coefficients. */
#define RESIDUAL_MAX_SAMPLES 8192
struct residual {
    int16_t samples[FLAC__MAX_LPC_ORDER + RESIDUAL_MAX_SAMPLES]; /* those of the subframe, after zeros */
    int32_t coefficients[FLAC__MAX_LPC_ORDER];                   /* from that of the sample just before on; then zeros */
    uint32_t order, shift;
};
int residual_start(struct residual *residual, const FLAC__FrameHeader *header, const int32_t *samples, uint32_t channel,
                   unsigned wasted_bits);
int residual_fits(const struct residual *residual);
uint64_t residual_length(const struct residual *residual, uint32_t from, uint32_t count, unsigned parameter);

/* subframes.c: the kinds of subframes, of bytes from the first one on, where the frame's header is filled, and of its samples;
 * and as their contents zeros, as many as the block has samples, since a program may read what a pointer leads to. */
void fill_subframes(FLAC__Frame *frame, const uint8_t *bytes, size_t length, const int32_t *samples);
void fill_contents(FLAC__Frame *frame, const int32_t *zeros);

/* engine.c: the frames, as claxon_stream.h gives them. */
int engine_start(struct decoder *self);
int engine_make_head(struct decoder *self);
int engine_restart(struct decoder *self);
void engine_stop(struct decoder *self);
uint32_t engine_next(struct decoder *self, uint64_t *begin);
uint32_t engine_resync(struct decoder *self);
FLAC__StreamDecoderErrorStatus engine_error(const struct claxon_stream *engine);

/* frames.c: frames handed to the program. */
int read_frame(struct decoder *self, int is_written);
enum handed { HANDED, HANDED_IN_VAIN, HANDED_NOTHING }; /* the program aborted; the block is none of the stream */
enum handed hand_block(struct decoder *self, const struct claxon_stream *engine, uint64_t begin, uint64_t from, int is_written);

/* ogg.c: the bytes of a native stream in Ogg packets. */
int ogg_is_supported(void);
int ogg_start(struct decoder *self);
void ogg_restart(struct decoder *self);
void ogg_stop(struct decoder *self);
FLAC__StreamDecoderReadStatus ogg_read(struct decoder *self, uint8_t *bytes, size_t *length);
int ogg_seek(struct decoder *self, uint64_t sample);

#endif
