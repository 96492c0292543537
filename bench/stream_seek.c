/* Seeks to places by chance in a FLAC file, by claxon_stream.h or, with LIBFLAC, by libFLAC without its MD5 sum, and prints the
   sum of the samples there, of the first channel. The file is opened once. */
#include <inttypes.h>
#include <stdio.h>
#include <stdlib.h>

/* A number below the limit that looks random, the same in each run. */
static uint64_t place(uint64_t *state, uint64_t limit) {
    *state = *state * UINT64_C(6364136223846793005) + UINT64_C(1442695040888963407);
    return (*state >> 20) % limit;
}

#ifdef LIBFLAC
#include <FLAC/stream_decoder.h>

static FLAC__StreamDecoderWriteStatus add(const FLAC__StreamDecoder *decoder, const FLAC__Frame *frame,
                                          const FLAC__int32 *const channels[], void *sum) {
    *(uint64_t *)sum += (uint64_t)(int64_t)channels[0][0];
    (void)decoder;
    (void)frame;
    return FLAC__STREAM_DECODER_WRITE_STATUS_CONTINUE;
}

static void fail(const FLAC__StreamDecoder *decoder, FLAC__StreamDecoderErrorStatus status, void *sum) {
    (void)decoder;
    (void)sum;
    fprintf(stderr, "stream_seek: %s\n", FLAC__StreamDecoderErrorStatusString[status]);
}

static int seek(FILE *file, unsigned long count, uint64_t *sum) {
    FLAC__StreamDecoder *decoder = FLAC__stream_decoder_new();
    uint64_t state = 1, none = 0;
    int failed;
    FLAC__stream_decoder_set_md5_checking(decoder, false);
    failed = FLAC__stream_decoder_init_FILE(decoder, file, add, NULL, fail, sum) != FLAC__STREAM_DECODER_INIT_STATUS_OK ||
             !FLAC__stream_decoder_process_until_end_of_metadata(decoder);
    *sum = none;
    while (!failed && count-- > 0) {
        failed = !FLAC__stream_decoder_seek_absolute(decoder, place(&state, FLAC__stream_decoder_get_total_samples(decoder)));
    }
    FLAC__stream_decoder_delete(decoder);
    return failed;
}
#else
#include "claxon_stream.h"

static int seek(FILE *file, unsigned long count, uint64_t *sum) {
    struct claxon_stream stream;
    uint64_t state = 1;
    uint32_t status;
    claxon_stream_init(&stream, claxon_stream_fread, file);
    claxon_stream_set_seek(&stream, claxon_stream_fseek);
    status = claxon_stream_open(&stream);
    while (status == CLAXON_OK && count-- > 0) {
        uint64_t sample = place(&state, stream.info.samples);
        status = claxon_stream_seek(&stream, sample);
        if (status == CLAXON_OK) {
            status = claxon_stream_next_block(&stream);
        }
        if (status == CLAXON_OK) {
            *sum += (uint64_t)(int64_t)stream.samples[(sample - stream.block.time) * stream.block.channels];
        }
    }
    claxon_stream_free(&stream);
    return status != CLAXON_OK;
}
#endif

int main(int argc, char **argv) {
    uint64_t sum = 0;
    FILE *file = argc == 3 ? fopen(argv[1], "rb") : NULL;
    if (!file) {
        fprintf(stderr, "usage: stream_seek FILE COUNT\n");
        return 2;
    }
    if (seek(file, strtoul(argv[2], NULL, 10), &sum)) {
        fprintf(stderr, "stream_seek: failed\n");
        return 1;
    }
    printf("%" PRIu64 "\n", sum);
    return 0;
}
