/* faults.h: what tests of faults share: memory that is refused, numbers that look random, and damaged bytes. What includes it
 * is linked with --wrap for malloc and realloc. */
#ifndef FAULTS_H
#define FAULTS_H

#include <stdint.h>
#include <stdlib.h>
#include <string.h>

void *__real_malloc(size_t size);
void *__real_realloc(void *old, size_t size);
void *__wrap_malloc(size_t size);
void *__wrap_realloc(void *old, size_t size);

/* How many requests for memory there were, and the size of the greatest. Refused are, where it isn't 0: */
static size_t requests, greatest_request;
static size_t refused_request; /* this one */
static size_t refused_from;    /* this one and those after it */
static size_t refused_every;   /* each so many-th one */

static inline int is_refused(size_t size) {
    requests++;
    greatest_request = size > greatest_request ? size : greatest_request;
    return requests == refused_request || (refused_from && requests >= refused_from) ||
           (refused_every && requests % refused_every == 0);
}

void *__wrap_malloc(size_t size) {
    return is_refused(size) ? NULL : __real_malloc(size);
}

void *__wrap_realloc(void *old, size_t size) {
    return is_refused(size) ? NULL : __real_realloc(old, size);
}

static uint64_t random_state = 1;

/* A number below the limit that looks random; the same numbers come in each run. */
static inline uint32_t below(uint32_t limit) {
    random_state = random_state * UINT64_C(6364136223846793005) + UINT64_C(1442695040888963407);
    return limit ? (uint32_t)((random_state >> 33) % limit) : 0;
}

/* Changes up to three pieces of the bytes. */
static inline void damage(uint8_t *bytes, size_t length) {
    for (uint32_t changes = 1 + below(3); changes > 0 && length > 0; changes--) {
        size_t at = below((uint32_t)length);
        size_t count = 1 + below(40);
        count = count < length - at ? count : length - at;
        switch (below(4)) {
        case 0: bytes[at] ^= (uint8_t)(1 << below(8)); break;
        case 1: memset(bytes + at, below(2) ? 0 : 0xff, count); break;
        case 2: memmove(bytes + at, bytes + at + count, length - at - count); break;
        default: memmove(bytes + at, bytes + below((uint32_t)(length - count + 1)), count);
        }
    }
}

#endif
