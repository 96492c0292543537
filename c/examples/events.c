/* events < STREAM: writes the samples of a FLAC stream to standard output as listen does, by the calls of claxon.h alone. It is
 * the core of an event loop: `take` is called where there is something to read, and never waits. */
#include <poll.h>
#include <stdio.h>
#include <stdlib.h>
#include <string.h>
#include <unistd.h>

#include "claxon.h"

struct listener {
    struct claxon_head head;
    struct claxon_frames frames;
    struct claxon_info info;
    uint32_t status; /* of the head: NO_MORE where it is whole */
    uint8_t *bytes;  /* those that are held, */
    size_t length;   /*     their number, */
    uint64_t at;     /*     and the position of the first of them */
    char error[128];
};

static int32_t samples[CLAXON_MAX_SAMPLES];

/* Drops bytes that aren't needed any more. */
static void drop(struct listener *self, uint64_t position) {
    size_t count = position - self->at < self->length ? (size_t)(position - self->at) : self->length;
    memmove(self->bytes, self->bytes + count, self->length - count);
    self->length -= count;
    self->at += count;
}

/* Reads the head, as far as it is there. NO_MORE: it is whole. */
static uint32_t take_head(struct listener *self, uint32_t is_end) {
    struct claxon_metadata metadata;
    uint32_t status = self->status;
    while (status == CLAXON_OK || status == CLAXON_NEED_MORE) {
        status = claxon_head_next(&self->head, self->bytes, self->length, self->at, is_end, &self->info, &metadata, self->error,
                                  sizeof self->error);
        drop(self, self->head.position);
        if (status == CLAXON_NEED_MORE) {
            break;
        }
    }
    if (status == CLAXON_NO_MORE && self->status != CLAXON_NO_MORE) {
        claxon_frames_start(&self->frames, self->head.position);
    }
    return self->status = status;
}

/* Writes the blocks that are whole. NEED_MORE: so far all is well. NO_MORE: the stream is at its end. */
static uint32_t take(struct listener *self, uint32_t is_end) {
    uint32_t status = take_head(self, is_end);
    if (status != CLAXON_NO_MORE) {
        return status;
    }
    do {
        struct claxon_block block;
        status = claxon_frames_next(&self->frames, self->bytes, self->length, self->at, is_end, &self->info, samples,
                                    CLAXON_MAX_SAMPLES, &block, self->error, sizeof self->error);
        drop(self, self->frames.position);
        if (status == CLAXON_OK) {
            fwrite(samples, 4, (size_t)block.channels * block.duration, stdout);
        }
    } while (status == CLAXON_OK);
    fflush(stdout);
    return status;
}

/* Reads what is there into memory that grows with what is needed, and takes it. */
static uint32_t read_and_take(struct listener *self) {
    uint8_t *grown = realloc(self->bytes, self->length + 4096);
    ssize_t count;
    if (!grown) {
        return CLAXON_OUT_OF_MEMORY;
    }
    self->bytes = grown;
    count = read(STDIN_FILENO, self->bytes + self->length, 4096);
    if (count < 0) {
        perror("events");
        return CLAXON_INPUT_ENDS;
    }
    self->length += (size_t)count;
    return take(self, count == 0);
}

int main(void) {
    struct listener self;
    struct pollfd input = {STDIN_FILENO, POLLIN, 0};
    uint32_t status;
    memset(&self, 0, sizeof self);
    claxon_head_start(&self.head, 0);
    do {
        poll(&input, 1, -1); /* and what else the program waits for */
        status = read_and_take(&self);
    } while (status == CLAXON_NEED_MORE);
    if (self.error[0]) {
        fprintf(stderr, "%s\n", self.error);
    }
    free(self.bytes);
    return status != CLAXON_NO_MORE;
}
