/* raw.c: the bytes of a frame that the engine has decoded: what they say and the engine doesn't tell. */
#include "decoder.h"

/* The number of bytes of the coded number in a frame header, by its first byte (RFC 9639, section 9.1.5). */
static size_t number_length(uint8_t first) {
    size_t length = 1;
    if (first & 0x80) {
        length = 0;
        while (first & 0x80) {
            first = (uint8_t)(first << 1);
            length++;
        }
    }
    return length;
}

/* The CRC-8 of bytes (RFC 9639, section 9.1.8). */
static uint8_t crc8_of(const uint8_t *bytes, size_t length) {
    unsigned crc = 0, bit;
    size_t i;
    for (i = 0; i < length; i++) {
        crc ^= bytes[i];
        for (bit = 0; bit < 8; bit++) {
            crc = crc & 0x80 ? (crc << 1 ^ 0x07) & 0xff : crc << 1;
        }
    }
    return (uint8_t)crc;
}

/* The position of the CRC-8, which ends the header. */
static size_t crc8_at(const uint8_t *bytes) {
    unsigned size_code = bytes[2] >> 4, rate_code = bytes[2] & 15;
    size_t at = 4 + number_length(bytes[4]);
    at += size_code == 6 ? 1 : size_code == 7 ? 2 : 0;
    at += rate_code == 12 ? 1 : rate_code == 13 || rate_code == 14 ? 2 : 0;
    return at;
}

int raw_has_sample_number(const uint8_t *bytes) {
    return bytes[1] & 1;
}

enum raw_header raw_header(const uint8_t *bytes, size_t length) {
    size_t crc8;
    if (length < 5 || bytes[0] != 0xff || bytes[1] >> 1 != 0x7c) {
        return RAW_NO_SYNC;
    }
    crc8 = crc8_at(bytes);
    return crc8 < length && bytes[crc8] == crc8_of(bytes, crc8) ? RAW_HEADER : RAW_DAMAGED;
}

void raw_fill_header(FLAC__FrameHeader *header, const uint8_t *bytes) {
    static const FLAC__ChannelAssignment assignments[3] = {
        FLAC__CHANNEL_ASSIGNMENT_LEFT_SIDE, FLAC__CHANNEL_ASSIGNMENT_RIGHT_SIDE, FLAC__CHANNEL_ASSIGNMENT_MID_SIDE};
    unsigned channel_code = bytes[3] >> 4;
    header->channel_assignment =
        channel_code >= 8 && channel_code <= 10 ? assignments[channel_code - 8] : FLAC__CHANNEL_ASSIGNMENT_INDEPENDENT;
    header->crc = bytes[crc8_at(bytes)];
}

void raw_fill_rest(FLAC__Frame *frame, const uint8_t *bytes, size_t length, const int32_t *samples) {
    size_t subframes = crc8_at(bytes) + 1;
    if (length > subframes + 2) {
        fill_subframes(frame, bytes + subframes, length - subframes - 2, samples);
        frame->footer.crc = (FLAC__uint16)(bytes[length - 2] << 8 | bytes[length - 1]);
    }
}
