/* Decodes a FLAC file by libFLAC, without its MD5 sum, and prints the sum of all samples modulo 2^64. */
#include <FLAC/stream_decoder.h>
#include <inttypes.h>
#include <stdio.h>

static FLAC__StreamDecoderWriteStatus add(const FLAC__StreamDecoder *decoder, const FLAC__Frame *frame,
                                          const FLAC__int32 *const channels[], void *sum) {
    uint64_t total = 0;
    for (unsigned channel = 0; channel < frame->header.channels; channel++) {
        for (unsigned index = 0; index < frame->header.blocksize; index++) {
            total += (uint64_t)(int64_t)channels[channel][index];
        }
    }
    *(uint64_t *)sum += total;
    (void)decoder;
    return FLAC__STREAM_DECODER_WRITE_STATUS_CONTINUE;
}

static void fail(const FLAC__StreamDecoder *decoder, FLAC__StreamDecoderErrorStatus status, void *sum) {
    (void)decoder;
    (void)sum;
    fprintf(stderr, "peer: %s\n", FLAC__StreamDecoderErrorStatusString[status]);
}

int main(int argc, char **argv) {
    uint64_t sum = 0;
    FLAC__StreamDecoder *decoder = FLAC__stream_decoder_new();
    if (argc != 2 || decoder == NULL) {
        fprintf(stderr, "usage: peer FILE\n");
        return 2;
    }
    FLAC__stream_decoder_set_md5_checking(decoder, false);
    if (FLAC__stream_decoder_init_file(decoder, argv[1], add, NULL, fail, &sum) != FLAC__STREAM_DECODER_INIT_STATUS_OK ||
        !FLAC__stream_decoder_process_until_end_of_stream(decoder)) {
        fprintf(stderr, "peer: %s can't be decoded\n", argv[1]);
        return 1;
    }
    FLAC__stream_decoder_delete(decoder);
    printf("%" PRIu64 "\n", sum);
    return 0;
}
