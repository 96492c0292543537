/* claxon_source.h: the bytes of a stream, for claxon_stream.h, which includes it: callbacks that read and seek, those for files
 * and descriptors, and a window with the bytes that are held. What has a name that ends with _ is for claxon_stream.h alone. */
#ifndef CLAXON_SOURCE_H
#define CLAXON_SOURCE_H

#include <errno.h>
#include <stdio.h>
#include <stdlib.h>
#include <string.h>
#include <unistd.h>

#include "claxon.h"

/* What each call here is. In C89 `inline` is no word, and a function that isn't called brings a warning. */
#if defined(__cplusplus) || (defined(__STDC_VERSION__) && __STDC_VERSION__ >= 199901L)
#define CLAXON_STATIC static inline
#elif defined(__GNUC__)
#define CLAXON_STATIC static __inline__
#else
#define CLAXON_STATIC static
#endif

/* Reads at most `length` bytes, at least one, and returns their number, or 0 at the end. What is there is to be returned, as
 * read(2) does it, without waiting for more. Where nothing can be read now, as with EAGAIN, it may return CLAXON_NOT_NOW. Any
 * other number above `length` says that reading failed, so that the -1 of read(2) may be returned as it is. It isn't called
 * again after the end or a failure, unless a seek has succeeded. */
typedef size_t claxon_stream_read(void *source, uint8_t *bytes, size_t length);

/* What it returns where nothing can be read now, but later. */
#define CLAXON_NOT_NOW ((size_t)-2)

/* Moves the source as lseek(2) does: by `offset` from its start (SEEK_SET), from where it is (SEEK_CUR) or from its end
 * (SEEK_END). Returns where it is then, in bytes from its start, or -1 where that fails. To move past the end isn't a failure:
 * reading there gives the end. Where the end isn't known, SEEK_END may fail. */
typedef int64_t claxon_stream_seek_to(void *source, int64_t offset, int whence);

/* What the calls of claxon_stream.h return where a callback failed, of the source and not of the stream: `error` is "reading
 * failed" or "seeking failed". A later call returns it again, once it has given what it can of the bytes that are held, and
 * calls no callback but for a seek. After a seek that has succeeded the stream goes on from there. */
#define CLAXON_READ_FAILED 101

/* A claxon_stream_read whose source is a FILE *. It waits for all bytes that it is asked for, as fread does, and returns
 * CLAXON_NOT_NOW where there is none and its descriptor doesn't wait. */
CLAXON_STATIC size_t claxon_stream_fread(void *file, uint8_t *bytes, size_t length) {
    size_t count;
    do {
        errno = 0;
        count = fread(bytes, 1, length, (FILE *)file);
        if (count < length && (errno == EINTR || errno == EAGAIN)) {
            clearerr((FILE *)file); /* it would be seen at the end */
        }
    } while (count == 0 && errno == EINTR);
    if (count == 0 && errno == EAGAIN) {
        return CLAXON_NOT_NOW;
    }
    return count == 0 && ferror((FILE *)file) ? (size_t)-1 : count;
}

/* A claxon_stream_read whose source is an int *, a file descriptor. Of a pipe or a socket it returns what is there, and
 * CLAXON_NOT_NOW where that is nothing and the descriptor doesn't wait, or its time is up. */
CLAXON_STATIC size_t claxon_stream_read_fd(void *fd, uint8_t *bytes, size_t length) {
    ssize_t count;
    do {
        count = read(*(int *)fd, bytes, length);
    } while (count < 0 && errno == EINTR);
    return count < 0 && errno == EAGAIN ? CLAXON_NOT_NOW : (size_t)count;
}

/* The callbacks that seek for these two. A pipe or a socket can't be sought. */
CLAXON_STATIC int64_t claxon_stream_fseek(void *file, int64_t offset, int whence) {
    int failed = fseek((FILE *)file, (long)offset, whence);
    return failed ? -1 : whence == SEEK_SET ? offset : (int64_t)ftell((FILE *)file);
}

CLAXON_STATIC int64_t claxon_stream_seek_fd(void *fd, int64_t offset, int whence) {
    return (int64_t)lseek(*(int *)fd, offset, whence);
}

/* How many bytes are read at once. A window has space for as many. */
#define CLAXON_WINDOW_STEP_ 65536

/* The bytes of a stream that are held: so many, from `start` on in the memory. */
struct claxon_window_ {
    claxon_stream_read *read; /* NULL where bytes are handed in */
    claxon_stream_seek_to *seek;
    void *source;
    uint8_t *memory;
    size_t size, start, held;
    const char *failure; /* what failed of the source, or NULL */
    uint8_t has_ended;   /* whether no bytes follow, or none that can be read */
};

/* The bytes that are held, never NULL. */
CLAXON_STATIC const uint8_t *claxon_window_bytes_(const struct claxon_window_ *window) {
    static const uint8_t none[1] = {0};
    return window->memory ? window->memory + window->start : none;
}

/* Moves the bytes that are held to the front of a memory of at least this size. */
CLAXON_STATIC uint32_t claxon_window_resize_(struct claxon_window_ *window, size_t size) {
    if (window->start > 0) {
        memmove(window->memory, window->memory + window->start, window->held);
        window->start = 0;
    }
    if (size > window->size) {
        uint8_t *memory = (uint8_t *)realloc(window->memory, size);
        if (!memory) {
            return CLAXON_OUT_OF_MEMORY;
        }
        window->memory = memory;
        window->size = size;
    }
    return CLAXON_OK;
}

/* Adds bytes that are handed in. What is held is moved where that is at most half of the memory, so that the time is linear;
 * else the memory is doubled. While less than a frame is held, it has no more than CLAXON_MAX_FRAME_BYTES and these bytes. */
CLAXON_STATIC uint32_t claxon_window_add_(struct claxon_window_ *window, const uint8_t *bytes, size_t length) {
    size_t count = window->held + length, size = 2 * count, most = CLAXON_MAX_FRAME_BYTES + length;
    uint32_t status = count < length || size < count ? CLAXON_OUT_OF_MEMORY : CLAXON_OK;
    if (status == CLAXON_OK && count > window->size - window->start) {
        size = window->held < CLAXON_MAX_FRAME_BYTES && size > most ? most : size;
        status = claxon_window_resize_(window, size < CLAXON_WINDOW_STEP_ ? CLAXON_WINDOW_STEP_ : size);
    }
    if (status == CLAXON_OK && length > 0) {
        memcpy(window->memory + window->start + window->held, bytes, length);
        window->held += length;
    }
    return status;
}

/* Calls the callback once, or until as many bytes are held as are wanted. It gets space for at least one byte: the memory is
 * doubled where it is full. OUT_OF_MEMORY, NEED_MORE: nothing is lost. */
CLAXON_STATIC uint32_t claxon_window_read_(struct claxon_window_ *window, size_t wanted) {
    do {
        size_t size = window->size < CLAXON_WINDOW_STEP_ ? CLAXON_WINDOW_STEP_ : window->size, length, got;
        if (window->held == size) {
            size = size < CLAXON_MAX_FRAME_BYTES / 2 ? 2 * size : CLAXON_MAX_FRAME_BYTES;
        }
        if (!window->read || claxon_window_resize_(window, size) != CLAXON_OK) {
            return window->read ? CLAXON_OUT_OF_MEMORY : CLAXON_NEED_MORE;
        }
        length = wanted > window->held ? wanted - window->held : CLAXON_WINDOW_STEP_;
        length = length < size - window->held ? length : size - window->held;
        got = window->read(window->source, window->memory + window->held, length);
        if (got == CLAXON_NOT_NOW) {
            return CLAXON_NEED_MORE;
        }
        window->failure = got > length ? "reading failed" : NULL;
        window->has_ended = got == 0 || got > length;
        window->held += window->has_ended ? 0 : got;
    } while (window->held < wanted && !window->has_ended);
    return CLAXON_OK;
}

#endif
