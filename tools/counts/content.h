// What is in a file: read whole, by programs whose instructions are counted.
#ifndef CONTENT_H
#define CONTENT_H

#include <stdint.h>
#include <stdio.h>
#include <stdlib.h>

struct content {
    uint8_t *bytes;
    size_t len;
};

// Reads a file. Ends the program with status 2 if there is none, or no memory.
static struct content content(const char *path) {
    struct content is = {NULL, 0};
    FILE *file = fopen(path, "rb");
    if (!file) exit(2);
    size_t room = 0;
    do {
        room = room ? 2 * room : 1 << 16;
        is.bytes = realloc(is.bytes, room);
        if (!is.bytes) exit(2);
        is.len += fread(is.bytes + is.len, 1, room - is.len, file);
    } while (is.len == room);
    fclose(file);
    return is;
}

#endif
