/* claxon_stream.h: reads a FLAC stream piece by piece: a loop over claxon_head_next, claxon_frames_next, claxon_search_next and
 * claxon_seeker_next of claxon.h, which are proved, with the memory and the callbacks that they leave to the caller. It is all
 * code there is: include it, and link claxon alone. README.md in this folder has examples.
 *
 *     struct claxon_stream stream;
 *     claxon_stream_init(&stream, claxon_stream_fread, file);
 *     while (claxon_stream_next_block(&stream) == CLAXON_OK) {
 *         .. stream.info, stream.block, stream.samples
 *     }
 *     .. stream.error says what is wrong, and is "" at the end of the stream
 *     claxon_stream_free(&stream);
 *
 * claxon_source.h says what such callbacks do. In place of them claxon_stream_init_push and claxon_stream_feed hand the bytes
 * in as they come. What has a name that ends with _ is for the calls alone.
 *
 * A block is given when the last byte of its frame was read, whatever the size of the frame and of the pieces: nothing is read
 * while a block can be given of the bytes that are held. Where the CRC of a frame is wrong, and in a stream that is made to
 * cost time, up to as many bytes again may be read.
 *
 * It holds 64 KiB of the stream, and twice as much where a frame, an application block or the Vorbis comments don't fit, up to
 * CLAXON_MAX_FRAME_BYTES; what is handed in at once; the samples of one block; and the Vorbis comments. Any other metadata
 * block is passed over without being held.
 *
 * Calls return an enum claxon_status or CLAXON_READ_FAILED. NEED_MORE: nothing is lost, and the call is to be repeated, after
 * claxon_stream_feed or claxon_stream_feed_end where bytes are handed in, and later where the callback returned
 * CLAXON_NOT_NOW. OUT_OF_MEMORY between frames: the call may be repeated. INPUT_ENDS: the bytes end within the head or a frame.
 * BUFFER_TOO_SMALL is never returned. Streams are independent of one another. */
#ifndef CLAXON_STREAM_H
#define CLAXON_STREAM_H

#include <stdlib.h>
#include <string.h>

#include "claxon.h"
#include "claxon_source.h"

/* How many bytes are read at once in a seek, beside those that are needed. */
#define CLAXON_SEEK_STEP_ 8192

/* What a stream has shown so far. */
struct claxon_stream {
    struct claxon_info info;   /* from its streaminfo block; zeros before */
    const uint8_t *comments;   /* the content of its Vorbis comment block, for claxon_vendor and claxon_next_tag; */
    size_t comments_length;    /*     without vendor and tags where the head has none, or before */
    struct claxon_block block; /* the last block, */
    int32_t *samples;          /*     and its samples, to read and change until the next call */
    uint64_t position;         /* the number of bytes before what is read next, or before what is wrong */
    char error[128];           /* what is wrong, or "" */

    /* The rest is for the calls alone. */
    struct claxon_window_ window; /* which has the bytes from `position` on */
    size_t wanted;                /* how many bytes are to be held, or 0: those that one read gives */
    int64_t origin;               /* where the stream begins in its source, */
    uint64_t source_length;       /*     and how many bytes there are from there, or UINT64_MAX, if the source was located */
    size_t samples_size;
    size_t content_left; /* how much is left of the content of the last metadata block */
    uint8_t *kept_comments;
    struct claxon_head head;
    struct claxon_frames frames;
    struct claxon_search search;
    struct claxon_clock clock;
    struct claxon_seeker seeker;
    struct claxon_metadata metadata;
    struct claxon_block next;
    uint32_t head_status; /* OK, or how the head ended: NO_MORE where frames follow */
    uint8_t is_ready;     /* whether the frame at `position` is decoded already, */
    uint8_t is_refused;   /*     or it is known that there is none */
    uint8_t is_planar, is_located;
};

/* Begins a stream. Nothing is read, and no memory is taken yet. `source` is handed to `read`. */
CLAXON_STATIC void claxon_stream_init(struct claxon_stream *stream, claxon_stream_read *read, void *source) {
    static const uint8_t no_comments[8] = {0, 0, 0, 0, 0, 0, 0, 0};
    memset(stream, 0, sizeof *stream);
    stream->comments = no_comments;
    stream->comments_length = sizeof no_comments;
    stream->window.read = read;
    stream->window.source = source;
    claxon_head_start(&stream->head, 0);
    claxon_frames_start(&stream->frames, 0);
    claxon_search_start(&stream->search, 0);
    claxon_clock_start(&stream->clock, &stream->info);
}

/* Begins a stream whose bytes are handed in. */
CLAXON_STATIC void claxon_stream_init_push(struct claxon_stream *stream) {
    claxon_stream_init(stream, NULL, NULL);
}

/* Gives its memory back. */
CLAXON_STATIC void claxon_stream_free(struct claxon_stream *stream) {
    free(stream->window.memory);
    free(stream->samples);
    free(stream->kept_comments);
    stream->window.memory = stream->kept_comments = NULL;
    stream->samples = NULL;
}

CLAXON_STATIC uint32_t claxon_stream_say_(struct claxon_stream *stream, uint32_t status, const char *text) {
    strcpy(stream->error, text);
    return status;
}

/* Ends a call: puts the text of its status into `error`, where a fault of the stream has put its own. Where the source failed,
 * the end of what is held isn't that of the stream. */
CLAXON_STATIC uint32_t claxon_stream_end_(struct claxon_stream *stream, uint32_t status) {
    if (stream->window.failure && (status == CLAXON_NO_MORE || status == CLAXON_INPUT_ENDS)) {
        return claxon_stream_say_(stream, CLAXON_READ_FAILED, stream->window.failure);
    }
    switch (status) {
    case CLAXON_OK:
    case CLAXON_NO_MORE:
    case CLAXON_NEED_MORE: return claxon_stream_say_(stream, status, "");
    case CLAXON_OUT_OF_MEMORY: return claxon_stream_say_(stream, status, "out of memory");
    case CLAXON_OVER_BUDGET: return claxon_stream_say_(stream, status, "too many headers lead to no frame");
    default: return status;
    }
}

/* Passes over the bytes before this position, as far as they are held. */
CLAXON_STATIC void claxon_stream_pass_(struct claxon_stream *stream, uint64_t position) {
    uint64_t most = position - stream->position;
    size_t count = most < stream->window.held ? (size_t)most : stream->window.held;
    stream->window.start += count;
    stream->window.held -= count;
    stream->position += count;
    stream->is_refused = stream->is_ready = 0;
}

/* Hands in the next bytes, which are copied. OUT_OF_MEMORY: none was taken. Else OK. What isn't a whole block yet is held, as
 * are the blocks that aren't taken: take all of them before the next bytes. */
CLAXON_STATIC uint32_t claxon_stream_feed(struct claxon_stream *stream, const uint8_t *bytes, size_t length) {
    uint32_t status = claxon_window_add_(&stream->window, bytes, length);
    return status == CLAXON_OK ? status : claxon_stream_end_(stream, status);
}

/* Says that all bytes were handed in. No call returns CLAXON_NEED_MORE after it. */
CLAXON_STATIC void claxon_stream_feed_end(struct claxon_stream *stream) {
    stream->window.has_ended = 1;
}

/* Makes room for so many samples. Those of the last block are lost. */
CLAXON_STATIC uint32_t claxon_stream_hold_samples_(struct claxon_stream *stream, size_t count) {
    if (count > stream->samples_size) {
        free(stream->samples);
        stream->samples = (int32_t *)malloc(count * sizeof *stream->samples);
        stream->samples_size = stream->samples ? count : 0;
    }
    return stream->samples ? CLAXON_OK : CLAXON_OUT_OF_MEMORY;
}

/* Makes a call of claxon.h by the bytes that are held, and again as long as it needs more of them, or more room for the samples
 * of the block `next`. */
CLAXON_STATIC uint32_t claxon_stream_answer_(struct claxon_stream *stream, uint32_t call(struct claxon_stream *stream)) {
    uint32_t status = claxon_stream_hold_samples_(stream, 8192);
    while (status == CLAXON_OK) {
        stream->wanted = 0;
        status = call(stream);
        if (status == CLAXON_BUFFER_TOO_SMALL) {
            status = claxon_stream_hold_samples_(stream, (size_t)stream->next.channels * stream->next.duration);
        } else if (status == CLAXON_NEED_MORE) {
            status = claxon_window_read_(&stream->window, stream->wanted);
        } else {
            break;
        }
    }
    return claxon_stream_end_(stream, status);
}

/* Reads up to the header of the next metadata block, or to the end of its content where that is a streaminfo or comments,
 * which are kept. */
CLAXON_STATIC uint32_t claxon_stream_try_metadata_(struct claxon_stream *stream) {
    const struct claxon_metadata *block = &stream->metadata;
    uint32_t status, last;
    do {
        claxon_stream_pass_(stream, stream->head.position);
        status =
            claxon_head_next(&stream->head, claxon_window_bytes_(&stream->window), stream->window.held, stream->position,
                             stream->window.has_ended, &stream->info, &stream->metadata, stream->error, sizeof stream->error);
        last = block->type == CLAXON_STREAMINFO || block->type == CLAXON_VORBIS_COMMENT ? CLAXON_METADATA_CONTENT
                                                                                        : CLAXON_METADATA_HEADER;
    } while (status == CLAXON_OK && stream->head.part != last);
    if (status == CLAXON_OK && block->type == CLAXON_VORBIS_COMMENT) {
        stream->kept_comments = (uint8_t *)malloc(block->length);
        if (!stream->kept_comments) {
            return CLAXON_OUT_OF_MEMORY;
        }
        memcpy(stream->kept_comments, claxon_window_bytes_(&stream->window), block->length);
        stream->comments = stream->kept_comments;
        stream->comments_length = block->length;
    }
    return status;
}

/* Goes to the next metadata block, whose content may then be read. NO_MORE: the head is complete. A streaminfo block is in
 * `info` then, and Vorbis comments are in `comments`. Faults and their texts are those of claxon_open for the same bytes; a
 * head that has one is at its end. */
CLAXON_STATIC uint32_t claxon_stream_next_metadata(struct claxon_stream *stream, struct claxon_metadata *metadata) {
    uint32_t status = stream->head_status;
    if (status != CLAXON_OK) {
        return status == CLAXON_NO_MORE ? claxon_stream_say_(stream, status, "") : status;
    }
    stream->content_left = 0;
    status = claxon_stream_answer_(stream, claxon_stream_try_metadata_);
    claxon_clock_start(&stream->clock, &stream->info); /* by what is known, as resync may leave the head */
    if (status == CLAXON_OK) {
        *metadata = stream->metadata;
        stream->content_left = metadata->length;
    } else if (status != CLAXON_NEED_MORE) {
        stream->head_status = status;
    }
    return status;
}

/* Reads the next bytes of the content of the last metadata block. Returns their number: less than `length` where its content,
 * the stream or what is there ends. */
CLAXON_STATIC size_t claxon_stream_content(struct claxon_stream *stream, uint8_t *bytes, size_t length) {
    uint64_t next = (uint64_t)stream->metadata.content + (stream->metadata.length - stream->content_left);
    size_t done = 0;
    length = length < stream->content_left ? length : stream->content_left;
    while (done < length) {
        size_t at = (size_t)(next - stream->position), count = length - done;
        if (stream->window.held > at) {
            count = count < stream->window.held - at ? count : stream->window.held - at;
            memcpy(bytes + done, claxon_window_bytes_(&stream->window) + at, count);
            next += count;
            done += count;
            claxon_stream_pass_(stream, next < stream->head.position ? next : stream->head.position);
        } else if (stream->window.has_ended || claxon_window_read_(&stream->window, 0) != CLAXON_OK) {
            break;
        }
    }
    stream->content_left -= done;
    return done;
}

/* Reads the head, or what is left of it. With CLAXON_OK, the stream is at its first frame or after it. Else as
 * claxon_stream_next_metadata. */
CLAXON_STATIC uint32_t claxon_stream_open(struct claxon_stream *stream) {
    struct claxon_metadata metadata;
    uint32_t status;
    do {
        status = claxon_stream_next_metadata(stream, &metadata);
    } while (status == CLAXON_OK);
    return status == CLAXON_NO_MORE ? (uint32_t)CLAXON_OK : status;
}

/* Finds the next tag of this name, in upper or lower case, in `comments`. *at is 0 for the first one. With CLAXON_OK, `tag` is
 * filled, as by claxon_next_tag, and *at is moved after it. NO_MORE: none is left. */
CLAXON_STATIC uint32_t claxon_stream_find_tag(const struct claxon_stream *stream, const char *name, size_t *at,
                                              struct claxon_tag *tag) {
    uint32_t status;
    char error[1];
    do {
        status = claxon_next_tag(stream->comments, stream->comments_length, at, tag, error, sizeof error);
    } while (status == CLAXON_OK && !claxon_tag_has_name(stream->comments, stream->comments_length, tag, name, strlen(name)));
    return status;
}

CLAXON_STATIC uint32_t claxon_stream_try_frame_(struct claxon_stream *stream) {
    if (stream->frames.position != stream->position) {
        claxon_frames_go_on(&stream->frames, stream->position);
    }
    return (stream->is_planar ? claxon_frames_next_planar : claxon_frames_next)(
        &stream->frames, claxon_window_bytes_(&stream->window), stream->window.held, stream->position, stream->window.has_ended,
        &stream->info, stream->samples, stream->samples_size, &stream->next, stream->error, sizeof stream->error);
}

CLAXON_STATIC uint32_t claxon_stream_next_(struct claxon_stream *stream, uint8_t is_planar) {
    const struct claxon_frame *frame = &stream->frames.last;
    uint32_t status = claxon_stream_open(stream);
    stream->is_ready = stream->is_ready && stream->is_planar == is_planar;
    stream->is_planar = is_planar;
    if (status == CLAXON_OK && !stream->is_ready) {
        status = claxon_stream_answer_(stream, claxon_stream_try_frame_);
        stream->is_refused = status == CLAXON_FORMAT_ERROR || status == CLAXON_UNSUPPORTED || status == CLAXON_INPUT_ENDS;
    }
    if (status == CLAXON_OK) {
        stream->block = stream->next;
        claxon_clock_show(&stream->clock, &stream->info, frame, &stream->block.time);
        claxon_stream_pass_(stream, frame->end);
    }
    return status;
}

/* Decodes the next frame into `block` and `samples`, interleaved. It opens the stream first where that wasn't done.
 * NO_MORE: the stream is at its end. FORMAT_ERROR, UNSUPPORTED, INPUT_ENDS: there is no frame at `position`, which stays,
 * as claxon_next_block says it; or it has more than CLAXON_MAX_FRAME_BYTES. */
CLAXON_STATIC uint32_t claxon_stream_next_block(struct claxon_stream *stream) {
    return claxon_stream_next_(stream, 0);
}

/* As claxon_stream_next_block, with the samples of one channel after those of another. */
CLAXON_STATIC uint32_t claxon_stream_next_block_planar(struct claxon_stream *stream) {
    return claxon_stream_next_(stream, 1);
}

/* Searches the bytes that are held, and passes over those before the next frame. */
CLAXON_STATIC uint32_t claxon_stream_try_search_(struct claxon_stream *stream) {
    struct claxon_search *search = &stream->search;
    uint64_t found;
    uint32_t status;
    if (search->position != stream->position) {
        claxon_search_go_on(search, &stream->frames, stream->position);
    }
    status = claxon_search_next(search, claxon_window_bytes_(&stream->window), stream->window.held, stream->position,
                                stream->window.has_ended, &stream->info, &found, &stream->next);
    claxon_stream_pass_(stream, status == CLAXON_OK ? found : search->position);
    return status;
}

/* Goes to the next position at which a frame of the stream begins: one with the number of channels and the bit depth of `info`,
 * or any frame where a fault in the head left that unknown. It goes on after what was refused, in the head too.
 * claxon_stream_next_block gives that frame, whose block.time says how much is missing before it. NO_MORE: there is none. The
 * time is linear in the bytes: where very many headers have led to no frame, as in a stream that was made for it, some bytes
 * are passed over unsearched. */
CLAXON_STATIC uint32_t claxon_stream_resync(struct claxon_stream *stream) {
    stream->head_status = CLAXON_NO_MORE;
    stream->content_left = 0;
    if (stream->is_refused) {
        claxon_stream_pass_(stream, stream->position + 1);
    }
    return stream->is_ready ? claxon_stream_end_(stream, CLAXON_OK) : claxon_stream_answer_(stream, claxon_stream_try_search_);
}

/* Lets a stream with a callback that reads seek too. */
CLAXON_STATIC void claxon_stream_set_seek(struct claxon_stream *stream, claxon_stream_seek_to *seek) {
    stream->window.seek = seek;
    stream->is_located = 0;
}

/* Forgets what is held. No block is given until a seek has succeeded. */
CLAXON_STATIC void claxon_stream_lose_(struct claxon_stream *stream) {
    claxon_stream_pass_(stream, UINT64_MAX);
    stream->window.has_ended = 1;
    stream->window.failure = "seeking failed";
}

/* Asks the source where it is and where it ends, where it is then. */
CLAXON_STATIC uint32_t claxon_stream_locate_(struct claxon_stream *stream) {
    uint64_t passed = stream->position + stream->window.held;
    int64_t at = stream->window.seek(stream->window.source, 0, SEEK_CUR), end;
    if (at < 0 || (uint64_t)at < passed) {
        return claxon_stream_say_(stream, CLAXON_READ_FAILED, "seeking failed");
    }
    stream->origin = at - (int64_t)passed;
    end = stream->window.seek(stream->window.source, 0, SEEK_END);
    stream->source_length = end < stream->origin ? UINT64_MAX : (uint64_t)(end - stream->origin);
    stream->is_located = 1;
    claxon_stream_lose_(stream);
    return CLAXON_OK;
}

/* Goes to a position of the stream. */
CLAXON_STATIC uint32_t claxon_stream_go_to_(struct claxon_stream *stream, uint64_t position) {
    int64_t at = (int64_t)((uint64_t)stream->origin + position);
    if (!stream->window.failure && position - stream->position <= stream->window.held) {
        claxon_stream_pass_(stream, position);
        return CLAXON_OK;
    }
    claxon_stream_lose_(stream);
    if (at < stream->origin || stream->window.seek(stream->window.source, at, SEEK_SET) != at) {
        return claxon_stream_end_(stream, CLAXON_NO_MORE);
    }
    stream->position = position;
    stream->window.has_ended = 0;
    stream->window.failure = NULL;
    return CLAXON_OK;
}

/* Seeks by the bytes that are held, and goes to those that are needed: then more of them are read at once, so that the time is
 * linear where a callback gives few. */
CLAXON_STATIC uint32_t claxon_stream_try_seek_(struct claxon_stream *stream) {
    struct claxon_seeker *seeker = &stream->seeker;
    uint32_t status;
    if (stream->window.failure) {
        return CLAXON_NO_MORE; /* what is held isn't the end of the stream */
    }
    status = (stream->is_planar ? claxon_seeker_next_planar : claxon_seeker_next)(
        seeker, claxon_window_bytes_(&stream->window), stream->window.held, stream->position, stream->window.has_ended,
        &stream->info, stream->samples, stream->samples_size, &stream->next);
    if (status == CLAXON_NEED_MORE && claxon_stream_go_to_(stream, seeker->position) != CLAXON_OK) {
        return CLAXON_READ_FAILED;
    }
    stream->wanted = seeker->needed + CLAXON_SEEK_STEP_;
    stream->wanted = stream->wanted < CLAXON_MAX_FRAME_BYTES ? stream->wanted : CLAXON_MAX_FRAME_BYTES;
    return status;
}

/* Begins a seek, and seeks. The clock may need the first two frames before, or as many as there are. */
CLAXON_STATIC uint32_t claxon_stream_find_sample_(struct claxon_stream *stream, uint64_t sample) {
    int frames = claxon_clock_needs_frames(&stream->clock) ? 2 : 0;
    uint32_t status = CLAXON_OK;
    if (stream->window.failure || frames > 0) {
        status = claxon_stream_go_to_(stream, stream->info.first_frame);
    }
    for (; status == CLAXON_OK && frames > 0 && claxon_clock_needs_frames(&stream->clock); frames--) {
        status = claxon_stream_next_(stream, stream->is_planar);
    }
    if (status == CLAXON_OUT_OF_MEMORY || status == CLAXON_NEED_MORE || status == CLAXON_READ_FAILED) {
        return status;
    }
    claxon_seeker_start(&stream->seeker, &stream->info, stream->source_length, sample, &stream->clock);
    return claxon_stream_answer_(stream, claxon_stream_try_seek_);
}

/* Goes to a frame of the stream whose block has the sample, counted in each channel: claxon_stream_next_block gives that block,
 * whose first sample - block.time samples come before it. It opens the stream first where that wasn't done. Headers lead there:
 * neither they nor the number of samples in the head are believed, and a seek table isn't read. Where they don't lead to such a
 * frame, all frames are searched. NO_MORE: none has the sample; the stream is at its end. UNSUPPORTED: no callback seeks; the
 * stream stays where it is, as it does after READ_FAILED where the source doesn't say where it is, as a pipe. READ_FAILED,
 * OUT_OF_MEMORY: reading or seeking failed, or memory was refused. OVER_BUDGET: none was found, and some bytes were passed over
 * unsearched, as by resync. NEED_MORE: the source can't be read now. After these four a call for a block returns READ_FAILED
 * until a seek has succeeded; it may be repeated, and begins anew. After a fault of the head it is returned. */
CLAXON_STATIC uint32_t claxon_stream_seek(struct claxon_stream *stream, uint64_t sample) {
    uint32_t status;
    if (!stream->window.read || !stream->window.seek) {
        return claxon_stream_say_(stream, CLAXON_UNSUPPORTED, "no callback seeks");
    }
    status = claxon_stream_open(stream);
    if (status == CLAXON_OK && !stream->is_located) {
        status = claxon_stream_locate_(stream);
    }
    if (status != CLAXON_OK) {
        return status;
    }
    status = claxon_stream_find_sample_(stream, sample);
    if (status == CLAXON_OK) {
        stream->frames.last = stream->seeker.found;
        claxon_stream_pass_(stream, stream->seeker.found.position);
        stream->is_ready = 1;
    } else if (status == CLAXON_NO_MORE) {
        claxon_stream_pass_(stream, UINT64_MAX);
    } else {
        claxon_stream_lose_(stream);
    }
    return status;
}

#endif
