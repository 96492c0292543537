/* The memory of the library on 64-bit ARM, over malloc. The toolchain has these three functions for x86-64 alone. */
#include <stddef.h>
#include <stdlib.h>

/* What a request returns, in two registers. The pointer is never null. */
struct rattle_memory {
    size_t is_granted;
    void *bytes;
};

static max_align_t no_bytes;

static struct rattle_memory granted(void *bytes) {
    struct rattle_memory memory = {bytes != NULL, bytes != NULL ? bytes : &no_bytes};
    return memory;
}

/* malloc may return null for a size of 0, so the alignment is taken for it. Alignments are at most those of malloc. */
struct rattle_memory rattle_alloc(size_t size, size_t alignment) {
    return granted(malloc(size != 0 ? size : alignment));
}

struct rattle_memory rattle_realloc(void *bytes, size_t old_size, size_t size, size_t alignment) {
    (void)old_size;
    return granted(realloc(bytes, size != 0 ? size : alignment));
}

void rattle_dealloc(void *bytes) {
    free(bytes);
}
