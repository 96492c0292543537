/* ogg FILE: writes the samples of an Ogg FLAC file, of one stream, as play does. Where the file isn't whole, it says so at the
 * end. It trusts the pages: their CRCs and numbers aren't looked at. */
#include <stdio.h>
#include <string.h>

#include "claxon.h"

struct ogg {
    FILE *file;
    uint8_t lengths[255]; /* of the page's segments */
    size_t segments, next;
    int has_ended; /* whether nothing was left where a page could begin */
    size_t length; /* of the packet */
    uint8_t packet[CLAXON_MAX_FRAME_BYTES];
};

static int next_page(struct ogg *ogg) {
    uint8_t header[27];
    size_t count = fread(header, 1, 27, ogg->file);
    ogg->has_ended = count == 0;
    if (count != 27 || memcmp(header, "OggS", 4) != 0) {
        return 0;
    }
    ogg->segments = header[26];
    ogg->next = 0;
    return fread(ogg->lengths, 1, ogg->segments, ogg->file) == ogg->segments;
}

/* Reads a packet. Returns 0 at the end of the file, and where it is cut or isn't Ogg. */
static int next_packet(struct ogg *ogg) {
    size_t length = 255;
    ogg->length = 0;
    while (length == 255) {
        if (ogg->next == ogg->segments) {
            if (!next_page(ogg)) {
                return 0;
            }
            continue;
        }
        length = ogg->lengths[ogg->next++];
        if (length > sizeof ogg->packet - ogg->length || fread(ogg->packet + ogg->length, 1, length, ogg->file) != length) {
            return 0;
        }
        ogg->length += length;
    }
    return 1;
}

/* The last packet ended where the file does. */
static int is_whole(const struct ogg *ogg) {
    return ogg->has_ended && ogg->length == 0;
}

static uint32_t refuse(char error[128], const char *text) {
    strcpy(error, text);
    return CLAXON_FORMAT_ERROR;
}

/* The first packet has the content of the streaminfo block at 17. Then a packet is a metadata block or a frame. */
static uint32_t play_packets(struct ogg *ogg, char error[128]) {
    static int32_t samples[CLAXON_MAX_SAMPLES];
    struct claxon_info info;
    struct claxon_block block;
    if (!next_packet(ogg) || ogg->length < 17 || memcmp(ogg->packet, "\177FLAC", 5) != 0) {
        return refuse(error, "not Ogg FLAC");
    }
    uint32_t status = claxon_streaminfo(ogg->packet + 17, ogg->length - 17, &info, error, 128);
    while (status == CLAXON_OK && next_packet(ogg)) {
        size_t at = 0;
        if (ogg->length > 0 && ogg->packet[0] == 0xff) {
            status = claxon_next_block(ogg->packet, ogg->length, &at, &info, samples, CLAXON_MAX_SAMPLES, &block, error, 128);
            if (status == CLAXON_OK) {
                fwrite(samples, 4, (size_t)block.channels * block.duration, stdout);
            }
        }
    }
    return status != CLAXON_OK || is_whole(ogg) ? status : refuse(error, "the file isn't whole");
}

int main(int argc, char **argv) {
    static struct ogg ogg;
    char error[128];
    ogg.file = argc == 2 ? fopen(argv[1], "rb") : NULL;
    if (!ogg.file) {
        fprintf(stderr, "usage: ogg FILE\n");
        return 2;
    }
    uint32_t status = play_packets(&ogg, error);
    if (status != CLAXON_OK) {
        fprintf(stderr, "%s\n", error);
    }
    fclose(ogg.file);
    return fflush(stdout) != 0 || status != CLAXON_OK;
}
