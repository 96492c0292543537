/* known.h: what tests of files whose results are known share: failures, CRCs, samples as a number and a hash, results as text,
 * what a frame's header says, and the files and lines themselves. */
#ifndef KNOWN_H
#define KNOWN_H

#include <inttypes.h>
#include <stdio.h>
#include <stdlib.h>
#include <string.h>

#include "claxon.h"

static int failures;

static inline void expect(int holds, const char *name, const char *what) {
    if (!holds) {
        printf("%s: %s\n", name, what);
        failures++;
    }
}

/* The remainder of the bytes, followed by zeros, by a polynomial of so many bits. */
static inline unsigned crc_of(const uint8_t *bytes, size_t length, unsigned polynomial, int bits) {
    unsigned crc = 0;
    for (size_t i = 0; i < length; i++) {
        crc ^= (unsigned)bytes[i] << (bits - 8);
        for (int bit = 0; bit < 8; bit++) {
            crc = crc >> (bits - 1) & 1 ? crc << 1 ^ polynomial : crc << 1;
        }
        crc &= (1u << bits) - 1;
    }
    return crc;
}

/* The CRC of a header (RFC 9639, section 9.1.8). */
static inline uint8_t crc8(const uint8_t *bytes, size_t length) {
    return (uint8_t)crc_of(bytes, length, 0x107, 8);
}

/* The number of samples, and the FNV-1a hash of their little-endian bytes. */
struct tally {
    uint64_t count;
    uint64_t hash;
};

static const struct tally no_samples = {0, UINT64_C(0xcbf29ce484222325)};

static inline void add_sample(struct tally *tally, int32_t sample) {
    for (int i = 0; i < 4; i++) {
        tally->hash = (tally->hash ^ ((uint32_t)sample >> 8 * i & 0xff)) * UINT64_C(0x100000001b3);
    }
    tally->count++;
}

static inline int is_same_tally(struct tally a, struct tally b) {
    return a.count == b.count && a.hash == b.hash;
}

/* The last status and its text as the lines have them. */
static inline const char *result_of(uint32_t status, const char *error, char *text, size_t size) {
    const char *prefix = status == CLAXON_FORMAT_ERROR  ? "Ill-formed FLAC stream: "
                         : status == CLAXON_UNSUPPORTED ? "A currently unsupported feature of the FLAC format was encountered: "
                                                        : "";
    snprintf(text, size, "%s%s", prefix, status == CLAXON_NO_MORE ? "ok" : status == CLAXON_INPUT_ENDS ? "IO" : error);
    return text;
}

/* The sample rate in Hz that the header of a frame says, or 0 where it leaves that to the streaminfo (RFC 9639, sections 9.1.2
 * and 9.1.5 to 9.1.7): after four bytes are the coded number and the block size, where it has a field, and the field of the
 * rate. */
static inline uint32_t rate_in_header(const uint8_t *header) {
    static const uint32_t rates[12] = {0, 88200, 176400, 192000, 8000, 16000, 22050, 24000, 32000, 44100, 48000, 96000};
    unsigned size = header[2] >> 4, rate = header[2] & 15, bit = 0x40;
    const uint8_t *field = header + 5;
    if (rate < 12) {
        return rates[rate];
    }
    for (; header[4] & 0x80 && header[4] & bit; bit >>= 1) {
        field++;
    }
    field += size == 6 ? 1 : size == 7 ? 2 : 0;
    return rate == 12 ? 1000u * field[0] : (rate == 13 ? 1u : 10u) * ((uint32_t)field[0] << 8 | field[1]);
}

/* The block has the rate and the bit depth (RFC 9639, section 9.1.4) that the header of its frame says. */
static inline void expect_format(const char *name, const struct claxon_block *block, const uint8_t *header) {
    static const uint32_t depths[8] = {0, 8, 12, 0, 16, 20, 24, 32};
    expect(block->sample_rate == rate_in_header(header), name, "the sample rate of a block");
    expect(block->bits_per_sample == depths[header[3] >> 1 & 7], name, "the bit depth of a block");
}

static inline int is_same_block(const struct claxon_block *a, const struct claxon_block *b) {
    return a->time == b->time && a->channels == b->channels && a->duration == b->duration && a->sample_rate == b->sample_rate &&
           a->bits_per_sample == b->bits_per_sample;
}

/* A line `NAME COUNT HASH RESULT`. */
struct known {
    char name[256];
    struct tally tally;
    char result[256];
};

/* Reads the next line of standard input that names a file. Returns 0 where there is none. */
static inline int next_known(struct known *known) {
    char line[512];
    while (fgets(line, sizeof line, stdin)) {
        if (sscanf(line, "%255s %" SCNu64 " %" SCNx64 " %255[^\n]", known->name, &known->tally.count, &known->tally.hash,
                   known->result) == 4) {
            return 1;
        }
    }
    return 0;
}

static inline uint8_t *read_file(const char *folder, const char *name, size_t *length) {
    char path[512];
    snprintf(path, sizeof path, "%s/%s", folder, name);
    FILE *file = fopen(path, "rb");
    uint8_t *bytes = NULL;
    if (file && fseek(file, 0, SEEK_END) == 0) {
        *length = (size_t)ftell(file);
        rewind(file);
        bytes = malloc(*length + 1);
        *length = bytes ? fread(bytes, 1, *length, file) : 0;
    }
    if (file) {
        fclose(file);
    }
    expect(bytes != NULL, name, "the file can't be read");
    return bytes;
}

#endif
