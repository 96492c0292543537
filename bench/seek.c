/* seek FILE PLACES: seeks to places by chance in a FLAC file, and prints the sum of the samples of the first channel there, and
   the user time of the seeks. By claxon_seek_block in memory; with -DLIBFLAC by libFLAC, with -DDR_FLAC
   by dr_flac, both from the file. */
#include <inttypes.h>
#include <stdio.h>
#include <stdlib.h>
#include <sys/resource.h>

static double user_time(void) {
    struct rusage usage;
    getrusage(RUSAGE_SELF, &usage);
    return (double)usage.ru_utime.tv_sec + (double)usage.ru_utime.tv_usec / 1e6;
}

#if defined LIBFLAC
#include <FLAC/stream_decoder.h>

static FLAC__StreamDecoder *decoder;
static int32_t first;
static int is_first;

static FLAC__StreamDecoderWriteStatus take(const FLAC__StreamDecoder *from, const FLAC__Frame *frame,
                                           const FLAC__int32 *const channels[], void *unused) {
    first = is_first ? channels[0][0] : first;
    is_first = 0;
    (void)from;
    (void)frame;
    (void)unused;
    return FLAC__STREAM_DECODER_WRITE_STATUS_CONTINUE;
}

static void fail(const FLAC__StreamDecoder *from, FLAC__StreamDecoderErrorStatus status, void *unused) {
    (void)from;
    (void)unused;
    fprintf(stderr, "seek: %s\n", FLAC__StreamDecoderErrorStatusString[status]);
}

static uint64_t open_file(const char *path) {
    decoder = FLAC__stream_decoder_new();
    FLAC__stream_decoder_set_md5_checking(decoder, false);
    if (FLAC__stream_decoder_init_file(decoder, path, take, NULL, fail, NULL) != FLAC__STREAM_DECODER_INIT_STATUS_OK ||
        !FLAC__stream_decoder_process_until_end_of_metadata(decoder)) {
        return 0;
    }
    return FLAC__stream_decoder_get_total_samples(decoder);
}

static int sample_at(uint64_t sample, int32_t *found) {
    is_first = 1;
    int is_right = FLAC__stream_decoder_seek_absolute(decoder, sample);
    *found = first;
    return is_right && !is_first;
}
#elif defined DR_FLAC
#define DR_FLAC_IMPLEMENTATION
#include "dr_flac.h"

static drflac *decoder;

static uint64_t open_file(const char *path) {
    decoder = drflac_open_file(path, NULL);
    return decoder ? decoder->totalPCMFrameCount : 0;
}

static int sample_at(uint64_t sample, int32_t *found) {
    drflac_int32 samples[8];
    int is_right = drflac_seek_to_pcm_frame(decoder, sample) && drflac_read_pcm_frames_s32(decoder, 1, samples) == 1;
    *found = samples[0] >> (32 - decoder->bitsPerSample);
    return is_right;
}
#else
#include "claxon.h"

static uint8_t *bytes;
static size_t length;
static struct claxon_info info;

static uint64_t open_file(const char *path) {
    char error[128];
    FILE *file = fopen(path, "rb");
    if (!file || fseek(file, 0, SEEK_END) != 0) {
        return 0;
    }
    length = (size_t)ftell(file);
    rewind(file);
    bytes = malloc(length + 1);
    if (!bytes || fread(bytes, 1, length, file) != length ||
        claxon_open(bytes, length, &info, error, sizeof error) != CLAXON_OK) {
        return 0;
    }
    fclose(file);
    return info.samples;
}

static int sample_at(uint64_t sample, int32_t *found) {
    static int32_t samples[CLAXON_MAX_SAMPLES];
    struct claxon_block block;
    size_t at;
    uint32_t status = claxon_seek_block(bytes, length, &info, sample, UINT64_MAX, &at, samples, CLAXON_MAX_SAMPLES, &block);
    if (status == CLAXON_OK) {
        *found = samples[(sample - block.time) * block.channels];
    }
    return status == CLAXON_OK;
}
#endif

int main(int argc, char **argv) {
    uint64_t state = 1, sum = 0;
    uint64_t samples = argc == 3 ? open_file(argv[1]) : 0;
    unsigned long places = argc == 3 ? strtoul(argv[2], NULL, 10) : 0;
    if (samples == 0) {
        fprintf(stderr, "usage: seek FILE PLACES, where the head of FILE says how many samples it has\n");
        return 2;
    }
    double start = user_time();
    for (unsigned long place = 0; place < places; place++) {
        int32_t found;
        state = state * UINT64_C(6364136223846793005) + UINT64_C(1442695040888963407);
        if (!sample_at((state >> 16) % samples, &found)) {
            fprintf(stderr, "seek: a place isn't found\n");
            return 1;
        }
        sum += (uint64_t)(int64_t)found;
    }
    printf("%" PRIu64 " %.4f s\n", sum, user_time() - start);
    return 0;
}
