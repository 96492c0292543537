/* content.c: the content of metadata blocks (RFC 9639, section 8) as the structs of FLAC/format.h. */
#include "decoder.h"

/* Bytes that are read in order. What is read after their end is 0, and `is_cut` is set. */
struct reader {
    const uint8_t *bytes;
    size_t left;
    int is_cut;
};

static const uint8_t *take(struct reader *reader, size_t count) {
    const uint8_t *bytes = reader->bytes;
    if (reader->is_cut || count > reader->left) {
        reader->is_cut = 1;
        return NULL;
    }
    reader->bytes += count;
    reader->left -= count;
    return bytes;
}

static uint64_t take_number(struct reader *reader, size_t count) {
    const uint8_t *bytes = take(reader, count);
    uint64_t number = 0;
    size_t i;
    for (i = 0; bytes && i < count; i++) {
        number = number << 8 | bytes[i];
    }
    return number;
}

static uint32_t take_little(struct reader *reader) {
    const uint8_t *bytes = take(reader, 4);
    return bytes ? bytes[0] | (uint32_t)bytes[1] << 8 | (uint32_t)bytes[2] << 16 | (uint32_t)bytes[3] << 24 : 0;
}

/* A copy of bytes in *to, with a 0 after them. */
static uint8_t *copy_text(uint8_t **to, const uint8_t *bytes, size_t length) {
    uint8_t *text = *to;
    if (length > 0) {
        memcpy(text, bytes, length);
    }
    text[length] = 0;
    *to += length + 1;
    return text;
}

static enum content_status streaminfo(FLAC__StreamMetadata_StreamInfo *info, struct reader reader) {
    uint64_t bits;
    const uint8_t *md5;
    info->min_blocksize = (uint32_t)take_number(&reader, 2);
    info->max_blocksize = (uint32_t)take_number(&reader, 2);
    info->min_framesize = (uint32_t)take_number(&reader, 3);
    info->max_framesize = (uint32_t)take_number(&reader, 3);
    bits = take_number(&reader, 8);
    info->sample_rate = (uint32_t)(bits >> 44);
    info->channels = (uint32_t)(bits >> 41 & 7) + 1;
    info->bits_per_sample = (uint32_t)(bits >> 36 & 31) + 1;
    info->total_samples = bits & 0xfffffffff;
    md5 = take(&reader, 16);
    if (!md5) {
        return CONTENT_BAD;
    }
    memcpy(info->md5sum, md5, 16);
    return CONTENT_OK;
}

static enum content_status application(FLAC__StreamMetadata_Application *application, struct reader reader) {
    const uint8_t *id = take(&reader, 4);
    if (!id) {
        return CONTENT_BAD;
    }
    memcpy(application->id, id, 4);
    application->data = reader.left > 0 ? (FLAC__byte *)reader.bytes : NULL;
    return CONTENT_OK;
}

static enum content_status seek_table(FLAC__StreamMetadata_SeekTable *table, struct reader reader,
                                      struct block_memory *memory) {
    FLAC__StreamMetadata_SeekPoint *points;
    uint32_t i, count = (uint32_t)(reader.left / FLAC__STREAM_METADATA_SEEKPOINT_LENGTH);
    points = (FLAC__StreamMetadata_SeekPoint *)malloc((count + 1) * sizeof *points);
    if (!points) {
        return CONTENT_NO_MEMORY;
    }
    memory->items = points;
    for (i = 0; i < count; i++) {
        points[i].sample_number = take_number(&reader, 8);
        points[i].stream_offset = take_number(&reader, 8);
        points[i].frame_samples = (uint32_t)take_number(&reader, 2);
    }
    table->num_points = count;
    table->points = points;
    return CONTENT_OK;
}

/* One entry, or the vendor string: its length and its text. */
static int take_entry(struct reader *reader, FLAC__StreamMetadata_VorbisComment_Entry *entry, uint8_t **to) {
    uint32_t length = take_little(reader);
    const uint8_t *bytes = take(reader, length);
    if (reader->is_cut) {
        return 0;
    }
    entry->length = length;
    entry->entry = copy_text(to, bytes, length);
    return 1;
}

/* The entries up to the first one that doesn't fit. Without room for a vendor string and a number there is nothing. */
static enum content_status vorbis_comment(FLAC__StreamMetadata_VorbisComment *comment, struct reader reader,
                                          struct block_memory *memory) {
    size_t most = reader.left / 4;
    uint8_t *text = (uint8_t *)malloc(reader.left + most + 2);
    FLAC__StreamMetadata_VorbisComment_Entry *entries;
    uint32_t i, count;
    memory->more = text;
    entries = (FLAC__StreamMetadata_VorbisComment_Entry *)calloc(most + 1, sizeof *entries);
    memory->items = entries;
    if (!text || !entries) {
        return CONTENT_NO_MEMORY;
    }
    if (reader.left < 8) {
        return CONTENT_OK;
    }
    if (!take_entry(&reader, &comment->vendor_string, &text)) {
        return CONTENT_BAD;
    }
    count = take_little(&reader);
    for (i = 0; i < count && i < most && take_entry(&reader, &entries[i], &text); i++) {
    }
    comment->num_comments = i;
    comment->comments = i > 0 ? entries : NULL;
    return CONTENT_OK;
}

static void take_track(struct reader *reader, FLAC__StreamMetadata_CueSheet_Track *track,
                       FLAC__StreamMetadata_CueSheet_Index *indices, size_t left) {
    const uint8_t *isrc;
    uint8_t flags;
    size_t i;
    track->offset = take_number(reader, 8);
    track->number = (FLAC__byte)take_number(reader, 1);
    isrc = take(reader, 12);
    if (isrc) {
        memcpy(track->isrc, isrc, 12);
    }
    flags = (uint8_t)take_number(reader, 1);
    track->type = flags >> 7;
    track->pre_emphasis = flags >> 6 & 1;
    take(reader, 13);
    track->num_indices = (FLAC__byte)take_number(reader, 1);
    if (track->num_indices > left) {
        reader->is_cut = 1;
        return;
    }
    track->indices = track->num_indices > 0 ? indices : NULL;
    for (i = 0; i < track->num_indices; i++) {
        indices[i].offset = take_number(reader, 8);
        indices[i].number = (FLAC__byte)take_number(reader, 1);
        take(reader, 3);
    }
}

static enum content_status cue_sheet(FLAC__StreamMetadata_CueSheet *sheet, struct reader reader, struct block_memory *memory) {
    size_t most = reader.left / 12, used = 0;
    const uint8_t *catalog = take(&reader, 128);
    FLAC__StreamMetadata_CueSheet_Track *tracks = (FLAC__StreamMetadata_CueSheet_Track *)calloc(256, sizeof *tracks);
    FLAC__StreamMetadata_CueSheet_Index *indices = (FLAC__StreamMetadata_CueSheet_Index *)calloc(most + 1, sizeof *indices);
    uint32_t i;
    memory->items = tracks;
    memory->more = indices;
    if (!tracks || !indices) {
        return CONTENT_NO_MEMORY;
    }
    if (catalog) {
        memcpy(sheet->media_catalog_number, catalog, 128);
    }
    sheet->lead_in = take_number(&reader, 8);
    sheet->is_cd = take_number(&reader, 1) >> 7 ? true : false;
    take(&reader, 258);
    sheet->num_tracks = (uint32_t)take_number(&reader, 1);
    sheet->tracks = sheet->num_tracks > 0 ? tracks : NULL;
    for (i = 0; i < sheet->num_tracks && !reader.is_cut; i++) {
        take_track(&reader, &tracks[i], indices + used, most - used);
        used += reader.is_cut ? 0 : tracks[i].num_indices;
    }
    return reader.is_cut || reader.left > 0 ? CONTENT_BAD : CONTENT_OK;
}

static enum content_status picture(FLAC__StreamMetadata_Picture *picture, struct reader reader, struct block_memory *memory) {
    uint8_t *text = (uint8_t *)malloc(reader.left + 2);
    uint32_t length;
    const uint8_t *bytes;
    memory->more = text;
    if (!text) {
        return CONTENT_NO_MEMORY;
    }
    picture->type = (FLAC__StreamMetadata_Picture_Type)take_number(&reader, 4);
    length = (uint32_t)take_number(&reader, 4);
    bytes = take(&reader, length);
    picture->mime_type = bytes ? (char *)copy_text(&text, bytes, length) : NULL;
    length = (uint32_t)take_number(&reader, 4);
    bytes = take(&reader, length);
    picture->description = bytes ? copy_text(&text, bytes, length) : NULL;
    picture->width = (uint32_t)take_number(&reader, 4);
    picture->height = (uint32_t)take_number(&reader, 4);
    picture->depth = (uint32_t)take_number(&reader, 4);
    picture->colors = (uint32_t)take_number(&reader, 4);
    picture->data_length = (uint32_t)take_number(&reader, 4);
    picture->data = (FLAC__byte *)take(&reader, picture->data_length);
    return reader.is_cut || reader.left > 0 ? CONTENT_BAD : CONTENT_OK;
}

enum content_status parse_content(FLAC__StreamMetadata *block, const uint8_t *content, struct block_memory *memory) {
    struct reader reader = {NULL, 0, 0};
    reader.bytes = content;
    reader.left = block->length;
    switch (block->type) {
    case FLAC__METADATA_TYPE_STREAMINFO: return streaminfo(&block->data.stream_info, reader);
    case FLAC__METADATA_TYPE_PADDING: return CONTENT_OK;
    case FLAC__METADATA_TYPE_APPLICATION: return application(&block->data.application, reader);
    case FLAC__METADATA_TYPE_SEEKTABLE: return seek_table(&block->data.seek_table, reader, memory);
    case FLAC__METADATA_TYPE_VORBIS_COMMENT: return vorbis_comment(&block->data.vorbis_comment, reader, memory);
    case FLAC__METADATA_TYPE_CUESHEET: return cue_sheet(&block->data.cue_sheet, reader, memory);
    case FLAC__METADATA_TYPE_PICTURE: return picture(&block->data.picture, reader, memory);
    default: block->data.unknown.data = block->length > 0 ? (FLAC__byte *)content : NULL; return CONTENT_OK;
    }
}

void free_content(struct block_memory *memory) {
    free(memory->items);
    free(memory->more);
}
