/* threads FILE: decodes a file by one decoder in each of several threads at once. Each has to find the MD5 sum of its head. */
#include <FLAC/stream_decoder.h>
#include <pthread.h>
#include <stdio.h>

#define THREADS 8
#define ROUNDS 20

static FLAC__StreamDecoderWriteStatus on_write(const FLAC__StreamDecoder *decoder, const FLAC__Frame *frame,
                                               const FLAC__int32 *const buffer[], void *samples) {
    (void)decoder;
    (void)buffer;
    *(uint64_t *)samples += frame->header.blocksize;
    return FLAC__STREAM_DECODER_WRITE_STATUS_CONTINUE;
}

static void on_error(const FLAC__StreamDecoder *decoder, FLAC__StreamDecoderErrorStatus status, void *samples) {
    (void)decoder;
    (void)status;
    *(uint64_t *)samples = 0;
}

/* Whether all samples of the file were decoded, in each round. */
static int decodes(const char *name) {
    FLAC__StreamDecoder *decoder = FLAC__stream_decoder_new();
    int round, is_right = decoder != NULL;
    for (round = 0; round < ROUNDS && is_right; round++) {
        uint64_t samples = 0, total;
        FLAC__stream_decoder_set_md5_checking(decoder, true);
        is_right = FLAC__stream_decoder_init_file(decoder, name, on_write, NULL, on_error, &samples) ==
                       FLAC__STREAM_DECODER_INIT_STATUS_OK &&
                   FLAC__stream_decoder_process_until_end_of_stream(decoder);
        total = FLAC__stream_decoder_get_total_samples(decoder);
        is_right = FLAC__stream_decoder_finish(decoder) && is_right && samples == total && total > 0;
    }
    FLAC__stream_decoder_delete(decoder);
    return is_right;
}

static void *run(void *name) {
    return decodes((const char *)name) ? name : NULL;
}

int main(int count, char **words) {
    pthread_t threads[THREADS];
    int i, failures = 0;
    if (count != 2) {
        return 2;
    }
    for (i = 0; i < THREADS; i++) {
        if (pthread_create(&threads[i], NULL, run, words[1]) != 0) {
            return 2;
        }
    }
    for (i = 0; i < THREADS; i++) {
        void *result;
        pthread_join(threads[i], &result);
        failures += result == NULL;
    }
    printf("threads: %d decoders at once, %d failures\n", THREADS, failures);
    return failures > 0;
}
