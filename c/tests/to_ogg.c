/* to_ogg SEGMENTS < FLAC > OGG: writes the metadata blocks and the frames of a FLAC stream as packets of Ogg FLAC, in pages of
 * at most so many segments. Bytes after the last frame that decodes are a last packet. */
#include <stdio.h>
#include <stdlib.h>
#include <string.h>

#include "claxon.h"

static uint8_t bytes[1 << 26];
static int32_t samples[CLAXON_MAX_SAMPLES];

/* A page. */
static uint8_t lengths[255];
static uint8_t content[255 * 255];
static size_t most_segments, segments, content_length;
static uint32_t page_number;
static int is_continued;

static void put_number(uint8_t *to, uint32_t number) {
    for (int i = 0; i < 4; i++) {
        to[i] = (uint8_t)(number >> 8 * i);
    }
}

static uint32_t update_crc(uint32_t crc, const uint8_t *from, size_t length) {
    for (size_t i = 0; i < length; i++) {
        crc ^= (uint32_t)from[i] << 24;
        for (int bit = 0; bit < 8; bit++) {
            crc = crc >> 31 ? crc << 1 ^ 0x04c11db7u : crc << 1;
        }
    }
    return crc;
}

static void put_page(int is_last) {
    uint8_t header[27] = "OggS";
    uint32_t crc;
    header[5] = (uint8_t)((is_continued ? 1 : 0) | (page_number == 0 ? 2 : 0) | (is_last ? 4 : 0));
    put_number(header + 14, 1);
    put_number(header + 18, page_number++);
    header[26] = (uint8_t)segments;
    crc = update_crc(update_crc(update_crc(0, header, 27), lengths, segments), content, content_length);
    put_number(header + 22, crc);
    fwrite(header, 1, 27, stdout);
    fwrite(lengths, 1, segments, stdout);
    fwrite(content, 1, content_length, stdout);
    is_continued = segments > 0 && lengths[segments - 1] == 255;
    segments = content_length = 0;
}

static void put_packet(const uint8_t *packet, size_t length) {
    size_t part;
    do {
        part = length < 255 ? length : 255;
        if (segments == most_segments) {
            put_page(0);
        }
        memcpy(content + content_length, packet, part);
        content_length += part;
        lengths[segments++] = (uint8_t)part;
        packet += part;
        length -= part;
    } while (part == 255);
}

/* The first packet, on a page of its own, and one for each further metadata block. Returns the position of the first frame. */
static size_t put_head(size_t length) {
    static uint8_t first[51] = {0x7f, 'F', 'L', 'A', 'C', 1, 0};
    struct claxon_metadata metadata;
    size_t at = 4;
    memcpy(first + 9, bytes, 42);
    put_packet(first, 51);
    put_page(0);
    while (claxon_next_metadata(bytes, length, &at, &metadata) == CLAXON_OK) {
        if (metadata.content > 8) {
            put_packet(bytes + metadata.content - 4, metadata.length + 4);
        }
        if (metadata.is_last) {
            break;
        }
    }
    return at;
}

int main(int argc, char **argv) {
    struct claxon_info info;
    struct claxon_block block;
    char error[128];
    size_t length = fread(bytes, 1, sizeof bytes, stdin);
    most_segments = argc == 2 ? strtoul(argv[1], NULL, 10) : 0;
    if (most_segments < 1 || most_segments > 255 || claxon_open(bytes, length, &info, error, sizeof error) != CLAXON_OK) {
        fprintf(stderr, "usage: to_ogg SEGMENTS < FLAC > OGG, of a stream with a head\n");
        return 2;
    }
    size_t start = put_head(length), at = start;
    while (claxon_next_block(bytes, length, &at, &info, samples, CLAXON_MAX_SAMPLES, &block, error, sizeof error) ==
           CLAXON_OK) {
        put_packet(bytes + start, at - start);
        start = at;
    }
    if (start < length) {
        put_packet(bytes + start, length - start);
    }
    put_page(1);
    return fflush(stdout) != 0;
}
