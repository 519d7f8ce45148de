// Measures how the decoder's time grows with the stream, the template set and the nesting, and the memory of a decoder.
//
// Each table prints the least of several runs: nanoseconds a byte, by the time of a run less that of a run without the stream, which reads
// the template set and makes a decoder too.
#define _POSIX_C_SOURCE 199309L
#include <inttypes.h>
#include <stdbool.h>
#include <stdio.h>
#include <stdlib.h>
#include <string.h>
#include <time.h>

struct answer {
    uint64_t status, consumed, events, sum;
};

// crates/fast_bench/src/lib.rt. A slice is a pointer and a length; numbers have the least significant byte first, as on x86-64.
void fast_bench_run(const uint8_t *templates, size_t templates_len, const uint8_t *stream, size_t stream_len, size_t piece,
                    uint32_t sink, uint32_t strict, uint32_t max_text, uint32_t max_elements, uint32_t max_total,
                    struct answer *out);

// The heap, which the library leaves to the program. It counts allocations, and the bytes of those past a number.
static size_t requests, passed, bytes_behind;

struct tried {
    bool is_given;
    void *block;
};

struct tried rattle_alloc(size_t size, size_t alignment) {
    void *block = malloc(size ? size : alignment);  // no alignment is greater than malloc's
    if (!block) exit(2);
    if (requests++ >= passed) bytes_behind += size;
    return (struct tried){true, block};
}

struct tried rattle_realloc(void *block, size_t kept, size_t size, size_t alignment) {
    struct tried to = rattle_alloc(size, alignment);
    memcpy(to.block, block, kept < size ? kept : size);
    free(block);
    return to;
}

void rattle_dealloc(void *block) {
    free(block);
}

struct bytes {
    uint8_t *at;
    size_t len, room;
};

static void push(struct bytes *b, uint8_t byte) {
    if (b->len == b->room) {
        b->room = b->room ? 2 * b->room : 4096;
        b->at = realloc(b->at, b->room);
        if (!b->at) exit(2);
    }
    b->at[b->len++] = byte;
}

static void push_text(struct bytes *b, const char *text) {
    while (*text) push(b, (uint8_t)*text++);
}

static void push_integer(struct bytes *b, uint32_t n) {
    int groups = 1;
    while (groups < 5 && n >> (7 * groups)) groups++;
    while (groups-- > 0) push(b, ((n >> (7 * groups)) & 0x7f) | (groups ? 0 : 0x80));
}

// Returns numbers of all lengths, the same in each run.
static uint32_t next_number(uint64_t *seed) {
    *seed = *seed * 6364136223846793005u + 1442695040888963407u;
    return (uint32_t)(*seed >> 33) >> (*seed >> 59);
}

// Makes a set of `count` templates with four fields each, and messages of them in turn.
static void make_templates(struct bytes *set, struct bytes *stream, int count, size_t stream_len) {
    char head[64];
    for (int i = 0; i < count; i++) {
        snprintf(head, sizeof head, "[[template]]\nname=\"T%d\"\nid=%d\nfields=[", i, i + 1);
        push_text(set, head);
        for (char name = 'A'; name <= 'D'; name++) {
            snprintf(head, sizeof head, "{kind=\"uInt32\",name=\"%c\"}%s", name, name < 'D' ? "," : "]\n");
            push_text(set, head);
        }
    }
    uint64_t seed = 1;
    for (int i = 0; stream->len < stream_len; i = (i + 7919) % count) {
        push(stream, 0xc0);
        push_integer(stream, (uint32_t)i + 1);
        for (int k = 0; k < 4; k++) push_integer(stream, next_number(&seed));
    }
}

// Makes one template with `depth` groups, nested by references, each with an integer first, and messages of it.
static void make_nested(struct bytes *set, struct bytes *stream, int depth, size_t stream_len) {
    char text[192];
    push_text(set, "[[template]]\nname=\"T\"\nid=1\nfields=[{kind=\"ref\",name=\"T0\"}]\n");
    for (int i = 0; i < depth; i++) {
        snprintf(text, sizeof text,
                 "[[template]]\nname=\"T%d\"\nfields=[{kind=\"uInt32\",name=\"N\"},"
                 "{kind=\"group\",name=\"G\",fields=[{kind=\"ref\",name=\"T%d\"}]}]\n",
                 i, i + 1);
        push_text(set, text);
    }
    snprintf(text, sizeof text, "[[template]]\nname=\"T%d\"\nfields=[{kind=\"uInt32\",name=\"N\"}]\n", depth);
    push_text(set, text);
    uint64_t seed = 1;
    while (stream->len < stream_len) {
        push(stream, 0xc0);
        push_integer(stream, 1);
        for (int i = 0; i <= depth; i++) push_integer(stream, next_number(&seed));
    }
}

static double seconds(void) {
    struct timespec now;
    clock_gettime(CLOCK_MONOTONIC, &now);
    return (double)now.tv_sec + 1e-9 * (double)now.tv_nsec;
}

static double least_of(const struct bytes *set, const struct bytes *stream, size_t len, int rounds, struct answer *is) {
    double least = 1e9;
    for (int i = 0; i < rounds; i++) {
        double from = seconds();
        fast_bench_run(set->at, set->len, stream->at, len, 1400, 0, 0, 1024, 1000, 1000, is);
        double took = seconds() - from;
        if (took < least) least = took;
    }
    return least;
}

static void measure(const char *name, const struct bytes *set, const struct bytes *stream, int rounds) {
    struct answer is;
    double without = least_of(set, stream, 0, rounds, &is);
    double with = least_of(set, stream, stream->len, rounds, &is);
    if (is.status > 1) exit(1);
    printf("| %s | %zu | %.2f | %.1f |\n", name, stream->len, 1e9 * (with - without) / (double)stream->len,
           1e9 * (with - without) / (double)is.events);
    fflush(stdout);
}

static struct answer decode(const char *text, uint32_t max_text) {
    struct answer is;
    requests = bytes_behind = 0;
    fast_bench_run((const uint8_t *)text, strlen(text), (const uint8_t *)"", 0, 0, 0, 0, max_text, 1000, 1000, &is);
    return is;
}

// Prints the memory of a decoder: the allocations after those of a run whose limits are refused before the decoder allocates.
static void weigh(const char *name, const char *text, uint32_t max_text) {
    passed = SIZE_MAX;
    decode(text, 1);
    passed = requests;
    if (decode(text, max_text).status) exit(1);
    printf("| %s | %u | %zu | %zu |\n", name, max_text, requests - passed, bytes_behind);
}

static char *read_text(const char *path) {
    FILE *file = fopen(path, "rb");
    if (!file) exit(2);
    static char text[1 << 16];
    text[fread(text, 1, sizeof text - 1, file)] = 0;
    fclose(file);
    return text;
}

int main(int count, char **words) {
    static const int sets[] = {10, 1000, 10000}, depths[] = {1, 8, 63}, sizes[] = {1, 16, 64};
    char name[64];
    puts("| stream | bytes | ns a byte | ns an event |\n|-|-:|-:|-:|");
    for (int i = 0; i < 3; i++) {
        struct bytes set = {0}, stream = {0};
        make_templates(&set, &stream, 10, (size_t)sizes[i] << 20);
        snprintf(name, sizeof name, "%d MiB", sizes[i]);
        measure(name, &set, &stream, 5);
    }
    for (int i = 0; i < 3; i++) {
        struct bytes set = {0}, stream = {0};
        make_templates(&set, &stream, sets[i], (size_t)8 << 20);
        snprintf(name, sizeof name, "%d templates", sets[i]);
        measure(name, &set, &stream, 5);
    }
    for (int i = 0; i < 3; i++) {
        struct bytes set = {0}, stream = {0};
        make_nested(&set, &stream, depths[i], (size_t)8 << 20);
        snprintf(name, sizeof name, "%d groups deep", depths[i]);
        measure(name, &set, &stream, 5);
    }
    puts("\n| set | max_text | requests | bytes of a decoder |\n|-|-:|-:|-:|");
    for (int i = 1; i < count; i++) {
        const char *text = read_text(words[i]);
        weigh(words[i], text, 16);
        weigh(words[i], text, 1024);
        weigh(words[i], text, 65536);
    }
    return 0;
}
