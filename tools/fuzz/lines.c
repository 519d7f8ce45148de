// Damages lines for a number of seconds, those of the streams of tools/growths/rows.txt, and streams, and converts them into one another.
//
// Lines are read as messages, or have an invalid line, one of them or the one after the last; they are converted to a stream, or a message
// is refused, only by the encoder. A stream that was converted from lines is shown, in strict mode, as these lines, up to a missing LF at
// the end. A damaged stream that is whole is shown, and its lines are converted to a stream that is shown by the same lines, unless the
// encoder refuses a message. Now and then an allocation is refused: then a result that differs must be the status of a failed allocation.
// All blocks are freed. Nothing crashes, and nothing takes long.
#define _POSIX_C_SOURCE 200809L
#include "lines.h"

#include "damage.h"

enum { most_lines = 4096 };

// The lines of each row's stream; none if they are long.
static struct {
    uint8_t cells[most_lines];
    size_t len;
} good[most_rows];
static struct text lines, stream, shown;
static uint64_t texts, read_texts, streams, encoded, refusals, growths;

static void show_input(const char *why) {
    fprintf(stderr, "lines: %s, limits %" PRIu32 " %" PRIu32 " %" PRIu32 ", of row %d, stream ", why, input.max_text, input.max_elements,
            input.max_total, input.line);
    for (size_t i = 0; i < input.stream_len; i++) fprintf(stderr, "%02x", input.stream[i]);
    fprintf(stderr, ", lines:\n%.*s\nset:\n%.*s\n", (int)lines.len, (const char *)lines.cells, (int)input.templates_len,
            (const char *)input.templates);
}

static struct lines_answer checked(struct lines_answer is) {
    if (blocks) fail("leaves blocks behind");
    return is;
}

// Makes the lines of a row's stream.
static void make_good(size_t i) {
    struct lines_answer is = show(&rows[i], rows[i].stream, rows[i].stream_len, 0, &lines, none);
    good[i].len = is.status || is.len > most_lines ? 0 : is.len;
    memcpy(good[i].cells, lines.cells, good[i].len);
}

// Makes the valid lines of a row when they are first needed, and returns the row.
static size_t with_good(size_t i) {
    static bool is_made[most_rows];
    if (!is_made[i]) make_good(i);
    is_made[i] = true;
    return i;
}

// Returns the number of the line after the last one.
static uint64_t line_behind(void) {
    uint64_t count = 1;
    for (size_t i = 0; i < lines.len; i++) count += lines.cells[i] == '\n' || i + 1 == lines.len;
    return count;
}

// Swaps two adjacent lines.
static void swap_lines(struct bytes b) {
    uint8_t copy[most_lines];
    struct part first = any_line(b.cells, *b.len);
    size_t at = first.at + first.len, len = 0;
    while (at + len < *b.len && (!len || b.cells[at + len - 1] != '\n')) len++;
    if (!len || len > sizeof copy) return;
    memcpy(copy, b.cells + at, len);
    replace(b, at, len, NULL, 0);
    replace(b, first.at, 0, copy, len);
}

static void change_byte(struct bytes b) {
    static const char telling[] = "0123456789-\\\"{} \nuaieds\x7f\x80\xc3\xa9";
    if (*b.len) b.cells[below(*b.len)] = (uint8_t)telling[below(sizeof telling)];
}

static void damage_lines(void) {
    struct bytes b = {lines.cells, &lines.len, most_lines};
    size_t other = with_good(below(row_count));
    switch (next_random() % 6) {
    case 0: swap_lines(b); break;
    case 1: change_byte(b); break;
    case 2:
        if (lines.len && next_random() % 4 == 0) lines.len = below(lines.len + 1);
        break;
    case 3: splice(b, good[other].cells, good[other].len, 40); break;
    default: damage_text(b, good[other].cells, good[other].len);
    }
}

// Converts the lines to a stream once more, with one of `all` allocations refused.
static void refuse_one(struct lines_answer was, uint64_t all) {
    struct lines_answer is = checked(convert(&input, &lines, &shown, none, below(all)));
    bool is_as_it_was = is.status == was.status && is.place == was.place && is_same(&shown, &stream);
    bool is_front = shown.len <= stream.len && !memcmp(shown.cells, stream.cells, shown.len);
    growths++;
    if (!is_as_it_was && (is.status != no_memory || !is_front)) fail("neither as it was nor without memory");
}

// Converts the lines to a stream, which must be shown as these lines.
static void there_and_back(bool may_be_at_fault) {
    struct lines_answer is = checked(convert(&input, &lines, &stream, none, none));
    if (requests && next_random() % 8 == 0) refuse_one(is, requests);
    struct lines_answer read = checked(read_lines(&input, lines.cells, lines.len, none));
    if (is.status == bad_write) return;
    if (is_bad_line(is.status)) {
        if (!may_be_at_fault) fail("shown lines are not read");
        if (read.status != is.status || read.place != is.place || !is.place || is.place > line_behind()) fail("not the same line at fault");
        return;
    }
    if (read.status) fail("read once, and once not");
    read_texts += may_be_at_fault;
    // From 513: E1, E2, E3, E4, R9. Messages that were read suit their template.
    if (is.status >= 513 && is.status <= unspelled && is.status != 514 && (may_be_at_fault || is.status == unsent || is.status == unspelled)) {
        refusals++;
        if (is.place >= read.len) fail("a message is refused that is not there");
        return;
    }
    if (is.status) fail("not turned back");
    encoded++;
    is = checked(show(&input, stream.cells, stream.len, 1, &shown, none));
    if (lines.len && lines.cells[lines.len - 1] != '\n') lines.cells[lines.len++] = '\n';
    if (is.status || !is_same(&shown, &lines)) fail("not shown as it was");
}

static void run_lines(void) {
    size_t row = with_good(below(row_count));
    input = rows[row];
    memcpy(lines.cells, good[row].cells, lines.len = good[row].len);
    for (size_t left = below(4); left; left--) damage_lines();
    texts++;
    there_and_back(true);
}

static void run_stream(void) {
    input = *any_row();
    for (size_t left = 1 + below(3); left; left--) damage_stream();
    struct lines_answer is = checked(show(&input, input.stream, input.stream_len, 0, &lines, none));
    if (is.status) return;
    streams++;
    there_and_back(false);
}

static void run_input(void) {
    if (next_random() % 2) {
        run_lines();
    } else {
        run_stream();
    }
}

int main(int count, char **words) {
    if (!run_inputs(count, words, run_input)) return 2;
    printf("lines: %" PRIu64 " inputs, %" PRIu64 " texts, %" PRIu64 " of them read, %" PRIu64 " whole streams, %" PRIu64
           " there and back, %" PRIu64 " refused by the encoder, with a request refused %" PRIu64 ", %" PRIu64 " failures\n",
           inputs, texts, read_texts, streams, encoded, refusals, growths, failures);
    return !encoded || !growths || failures > 0;
}
