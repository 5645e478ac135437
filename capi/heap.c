// The heap of the library: proved code takes memory and gives it back by these three functions, which ask the host's malloc.
#include <stdint.h>
#include <stdlib.h>
#include <string.h>

// What proved code is answered: whether there was memory, and where.
struct tried {
    uint64_t ok;
    void *at;
};

// The alignment of what malloc gives.
enum { ALIGNED = 16 };

struct tried rattle_alloc(uint64_t bytes, uint64_t align) {
    if (bytes > UINT64_MAX - align) return (struct tried){0, NULL};
    void *at = align <= ALIGNED ? malloc(bytes ? bytes : 1) : aligned_alloc(align, (bytes + align) / align * align);
    return (struct tried){at != NULL, at};
}

void rattle_dealloc(void *block) { free(block); }

struct tried rattle_realloc(void *block, uint64_t kept, uint64_t bytes, uint64_t align) {
    if (align <= ALIGNED) {
        void *at = realloc(block, bytes ? bytes : 1);
        return (struct tried){at != NULL, at};
    }
    struct tried made = rattle_alloc(bytes, align);
    if (made.ok) {
        memcpy(made.at, block, kept < bytes ? kept : bytes);
        free(block);
    }
    return made;
}
