// The heap of a program, in the place of the library's: it counts its blocks, and ends the program with status 9 where none was ever asked for or one
// is left at the end.
#include <stdbool.h>
#include <stddef.h>
#include <stdlib.h>
#include <unistd.h>

struct tried {
    bool is_given;
    void *block;
};

static size_t made, open;

static void look(void) {
    if (made == 0 || open != 0) _exit(9);
}

__attribute__((constructor)) static void begin(void) {
    atexit(look);
}

struct tried rattle_alloc(size_t size, size_t alignment) {
    made++, open++;
    struct tried it = {true, malloc(size ? size : alignment)};
    return it;
}

struct tried rattle_realloc(void *block, size_t kept, size_t size, size_t alignment) {
    (void)kept;
    struct tried it = {true, realloc(block, size ? size : alignment)};
    return it;
}

void rattle_dealloc(void *block) {
    if (block) open--;
    free(block);
}
