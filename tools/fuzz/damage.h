// Shared by fuzz.c and lines.c: a row as an input that is damaged at random, and a loop with a time limit.
#include <ctype.h>
#include <signal.h>
#include <time.h>
#include <unistd.h>

enum { most_rows = 512, most_seconds = 20, most_failures = 10 };

static struct row rows[most_rows], input;
static size_t row_count;
static uint64_t seed, inputs, failures;

static uint64_t next_random(void) {
    seed ^= seed << 13;
    seed ^= seed >> 7;
    return seed ^= seed << 17;
}

static size_t below(size_t limit) { return limit ? next_random() % limit : 0; }

static const struct row *any_row(void) { return &rows[below(row_count)]; }

// A file or a stream that is being made.
struct bytes {
    uint8_t *cells;
    size_t *len, room;
};

static void replace(struct bytes b, size_t at, size_t gone, const uint8_t *piece_in, size_t len) {
    if (*b.len - gone + len > b.room) return;
    memmove(b.cells + at + len, b.cells + at + gone, *b.len - at - gone);
    memmove(b.cells + at, piece_in, len);
    *b.len += len - gone;
}

// Replaces a run of bytes by a run of another row's bytes; either may be empty.
static void splice(struct bytes b, const uint8_t *other, size_t other_len, size_t most) {
    uint8_t run[64];
    size_t at = below(*b.len + 1), gone = below(most + 1), from = below(other_len + 1), len = below(most + 1);
    if (gone > *b.len - at) gone = *b.len - at;
    if (len > other_len - from) len = other_len - from;
    memcpy(run, other + from, len);
    replace(b, at, gone, run, len);
}

static void damage_stream(void) {
    static const uint8_t telling[] = {0x00, 0x01, 0x7f, 0x80, 0x81, 0xc0, 0xfe, 0xff};
    struct bytes b = {input.stream, &input.stream_len, sizeof input.stream};
    uint8_t byte = next_random() % 2 ? telling[below(sizeof telling)] : (uint8_t)next_random();
    const struct row *other = any_row();
    switch (next_random() % 4) {
    case 0: replace(b, below(*b.len + 1), 0, &byte, 1); break;
    case 1:
        if (*b.len) b.cells[below(*b.len)] = byte;
        break;
    case 2:
        if (*b.len) b.cells[below(*b.len)] ^= (uint8_t)(1u << below(8));
        break;
    default: splice(b, other->stream, other->stream_len, 24);
    }
}

// A part of a file: a line, a run of letters and digits, or any other single byte.
struct part {
    size_t at, len;
};

static struct part any_line(const uint8_t *text, size_t len) {
    struct part p = {below(len), 0};
    if (!len) return p;
    while (p.at && text[p.at - 1] != '\n') p.at--;
    do p.len++;
    while (p.at + p.len < len && text[p.at + p.len - 1] != '\n');
    return p;
}

static struct part any_word(const uint8_t *text, size_t len) {
    struct part p = {below(len), 0};
    if (!len) return p;
    while (p.at && isalnum(text[p.at]) && isalnum(text[p.at - 1])) p.at--;
    do p.len++;
    while (p.at + p.len < len && p.len < 40 && isalnum(text[p.at]) && isalnum(text[p.at + p.len]));
    return p;
}

// Replaces a word or a line by one of another file; now and then either is empty.
static void damage_text(struct bytes b, const uint8_t *other, size_t other_len) {
    static uint8_t copy[1 << 15];
    bool is_line = next_random() % 4 == 0;
    struct part here = is_line ? any_line(b.cells, *b.len) : any_word(b.cells, *b.len);
    struct part there = is_line ? any_line(other, other_len) : any_word(other, other_len);
    if (next_random() % 8 == 0) here.len = 0;
    if (next_random() % 8 == 0 || there.len > sizeof copy) there.len = 0;
    memcpy(copy, other + there.at, there.len);
    replace(b, here.at, here.len, copy, there.len);
}

static void show_input(const char *why);

static void fail(const char *why) {
    failures++;
    show_input(why);
}

static void end(int signal) {
    show_input(signal == SIGALRM ? "takes too long" : "crashes");
    _exit(1);
}

// Reads the rows and the arguments SECONDS SEED, and runs inputs for SECONDS seconds, or until there are many failures.
static bool run_inputs(int count, char **words, void (*run)(void)) {
    FILE *file = fopen("rows.txt", "r");
    int number = 0;
    while (file && row_count < most_rows && next_row(file, &number, &rows[row_count])) row_count++;
    if (count != 3 || !row_count) return false;
    seed = strtoull(words[2], NULL, 10) * 0x9e3779b97f4a7c15 + 1;
    time_t due = time(NULL) + strtoll(words[1], NULL, 10);
    static const int fatal[] = {SIGALRM, SIGSEGV, SIGBUS, SIGILL, SIGFPE, SIGABRT};
    for (size_t i = 0; i < sizeof fatal / sizeof *fatal; i++) signal(fatal[i], end);
    while (time(NULL) < due && failures < most_failures) {
        alarm(most_seconds);
        run();
        inputs++;
    }
    return true;
}
