/* tags FILE [NAME]: prints the tags of a FLAC file, or the values of those of this name, in upper or lower case, and reads no
 * further than its Vorbis comments. */
#include "claxon_stream.h"

static void print_all(const uint8_t *comments, size_t length) {
    struct claxon_tag tag;
    size_t at = 0;
    char error[128];
    while (claxon_next_tag(comments, length, &at, &tag, error, sizeof error) == CLAXON_OK) {
        fwrite(comments + tag.name_at, 1, tag.name_length, stdout);
        putchar('=');
        fwrite(comments + tag.value_at, 1, tag.value_length, stdout);
        putchar('\n');
    }
}

static void print_tags(const struct claxon_stream *stream, const char *name) {
    struct claxon_tag tag;
    size_t at = 0;
    if (!name) {
        print_all(stream->comments, stream->comments_length);
        return;
    }
    while (claxon_stream_find_tag(stream, name, &at, &tag) == CLAXON_OK) {
        fwrite(stream->comments + tag.value_at, 1, tag.value_length, stdout);
        putchar('\n');
    }
}

static int read_tags(FILE *file, const char *name) {
    struct claxon_stream stream;
    struct claxon_metadata metadata;
    uint32_t status;
    claxon_stream_init(&stream, claxon_stream_fread, file);
    do {
        status = claxon_stream_next_metadata(&stream, &metadata);
    } while (status == CLAXON_OK && metadata.type != CLAXON_VORBIS_COMMENT);
    if (status == CLAXON_OK) {
        print_tags(&stream, name);
    }
    if (stream.error[0]) {
        fprintf(stderr, "%s\n", stream.error);
    }
    claxon_stream_free(&stream);
    return stream.error[0] != 0;
}

int main(int argc, char **argv) {
    FILE *file = argc == 2 || argc == 3 ? fopen(argv[1], "rb") : NULL;
    if (!file) {
        fprintf(stderr, "usage: tags FILE [NAME]\n");
        return 2;
    }
    int failed = read_tags(file, argv[2]);
    fclose(file);
    return fflush(stdout) != 0 || failed;
}
