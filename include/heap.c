// The heap that libfast_c.a asks for, from the C library. A program with a heap of its own has these three functions in place of this file.
#include <stdbool.h>
#include <stddef.h>
#include <stdlib.h>

#ifdef __cplusplus
extern "C" {
#endif

struct tried {
    bool is_given;
    void *block;
};

struct tried rattle_alloc(size_t size, size_t alignment) {
    void *block = malloc(size ? size : alignment);
    struct tried it = {block != NULL, block};
    return it;
}

struct tried rattle_realloc(void *block, size_t kept, size_t size, size_t alignment) {
    (void)kept;
    void *moved = realloc(block, size ? size : alignment);
    struct tried it = {moved != NULL, moved};
    return it;
}

void rattle_dealloc(void *block) {
    free(block);
}

#ifdef __cplusplus
}
#endif
