// Shows the streams of rows.txt as lines, reads these lines and converts them back to a stream, over a heap that counts allocations.
//
// Each allocation is refused in turn (of very many, the first and the last ones), and all others succeed: the result is that of a failed
// allocation, the output is a prefix of the whole output, and all blocks are freed. A second call then has the original result. The
// allocations of reading the set are tested by growths.c.
//
// A stream that is shown and converted back is shown as before. Lines that are truncated at a byte are read exactly if the byte is the end
// of a message, and have an invalid line otherwise.
#include "lines.h"

enum { most_cuts = 320, last_cuts = 64, most_refusals = 1000, last_refusals = 100 };

static struct text lines, stream, out;
static uint64_t runs, cuts, failures;
static struct {
    uint64_t showing, reading, converting;
} refusals;

static void fail(const struct row *r, const char *what, struct lines_answer is) {
    failures++;
    fprintf(stderr,
            "rows.txt:%d: %s, %s with requests from %" PRIu64 " and request %" PRIu64 " refused: status %" PRIu64 ", place %" PRIu64 ", length %" PRIu64
            ", requests %" PRIu64 ", blocks left %" PRIu64 "\n",
            r->line, r->name, what, allowed, refused, is.status, is.place, is.len, requests, blocks);
}

// Compares the result and the output of the last run with the expected ones. All blocks must be freed.
static void expect(const struct row *r, const char *what, struct lines_answer is, struct lines_answer due, const struct text *written) {
    runs++;
    bool is_right = is.status == due.status && is.place == due.place && is.len == due.len;
    if (!is_right || blocks || (written && !is_same(&out, written))) fail(r, what, is);
}

// Expects that an allocation of the last run failed, and that its output is a prefix of the whole output.
static void expect_none(const struct row *r, const char *what, struct lines_answer is, const struct text *whole) {
    runs++;
    bool is_front = is.len <= whole->len && !memcmp(out.cells, whole->cells, is.len);
    if (is.status != no_memory || is.place || blocks || !is_front) fail(r, what, is);
}

// Returns the next allocation to refuse: each in turn, but of very many only the first and the last ones.
static uint64_t next_refused(uint64_t i, uint64_t made, uint64_t all) {
    bool is_far = i + 1 == made + most_refusals && all > i + 1 + last_refusals;
    return is_far ? all - last_refusals : i + 1;
}

// Returns the number of allocations for reading the row's set.
static uint64_t requests_of_set(const struct row *r) {
    read_lines(r, lines.cells, 0, none);
    return requests;
}

// Shows the row's stream. Its allocations are those of a decoder and of the prefixes of field lines, which belong to the set.
static void refuse_in_showing(const struct row *r, uint64_t made, bool is_other_set) {
    struct lines_answer due = show(r, r->stream, r->stream_len, r->strict, &lines, none);
    if (!is_other_set) return;
    for (uint64_t i = made, all = requests; i < all; i = next_refused(i, made, all)) {
        expect_none(r, "shown", show(r, r->stream, r->stream_len, r->strict, &out, i), &lines);
        refusals.showing++;
    }
    expect(r, "shown again", show(r, r->stream, r->stream_len, r->strict, &out, none), due, &lines);
}

static void refuse_in_reading(const struct row *r, uint64_t made) {
    static const struct text nothing;
    out.len = 0;
    struct lines_answer due = read_lines(r, lines.cells, lines.len, none);
    if (due.status) fail(r, "read", due);
    for (uint64_t i = made, all = requests; i < all; i = next_refused(i, made, all)) {
        expect_none(r, "read", read_lines(r, lines.cells, lines.len, i), &nothing);
        refusals.reading++;
    }
    expect(r, "read again", read_lines(r, lines.cells, lines.len, none), due, NULL);
}

// Expects the output of a conversion with a refused allocation: a prefix of the whole, or the whole if the encoder did without it.
static void expect_none_or_all(const struct row *r, struct lines_answer is, struct lines_answer due) {
    if (is.status == no_memory) {
        expect_none(r, "turned back", is, &stream);
    } else {
        expect(r, "turned back", is, due, &stream);
    }
}

// The encoder may refuse messages of a stream, only by E3 and R9; the output for those before it is the same. If an allocation of the
// encoder is refused, it takes another path, which may need none.
static void refuse_in_converting(const struct row *r, uint64_t made) {
    struct lines_answer due = convert(r, &lines, &stream, none, none);
    if (due.status && due.status != unsent && due.status != unspelled) fail(r, "turned back", due);
    for (uint64_t i = made, all = requests; i < all; i = next_refused(i, made, all)) {
        expect_none_or_all(r, convert(r, &lines, &out, i, none), due);
        expect_none_or_all(r, convert(r, &lines, &out, none, i), due);
        refusals.converting++;
    }
    expect(r, "turned back again", convert(r, &lines, &out, none, none), due, &stream);
    if (due.status) return;
    expect(r, "shown as it was", show(r, stream.cells, stream.len, 1, &out, none), (struct lines_answer){0, 0, lines.len}, &lines);
}

// Returns whether the bytes end with this line, at the start of a line.
static bool ends_with_line(const uint8_t *bytes, size_t len, const char *line) {
    size_t is = strlen(line);
    return len >= is && !memcmp(bytes + len - is, line, is) && (len == is || bytes[len - is - 1] == '\n');
}

// Truncates the row's lines at each byte; very many only at the first and last ones.
static void cut_in_turn(const struct row *r) {
    for (size_t cut = 0; cut <= lines.len; cut++) {
        if (cut == most_cuts && lines.len > 2 * most_cuts) cut = lines.len - last_cuts;
        struct lines_answer is = read_lines(r, lines.cells, cut, none);
        bool is_whole = !cut || ends_with_line(lines.cells, cut, "end message") || ends_with_line(lines.cells, cut, "end message\n");
        if (is_whole ? is.status != 0 : !is_bad_line(is.status)) fail(r, "cut", is);
        if (blocks) fail(r, "cut", is);
        cuts++;
    }
}

int main(void) {
    FILE *file = fopen("rows.txt", "r");
    static struct row row;
    char last_set[sizeof row.set] = "";
    int number = 0, rows = 0;
    for (; file && next_row(file, &number, &row); rows++) {
        uint64_t made = requests_of_set(&row);
        refuse_in_showing(&row, made, strcmp(last_set, row.set));
        strcpy(last_set, row.set);
        if (row.due.status) continue;
        refuse_in_reading(&row, made);
        refuse_in_converting(&row, made);
        cut_in_turn(&row);
    }
    printf("lines: %d rows, %" PRIu64 " runs, refused one by one %" PRIu64 " in showing, %" PRIu64 " in reading and %" PRIu64
           " in turning back, %" PRIu64 " cuts, %" PRIu64 " failures\n",
           rows, runs, refusals.showing, refusals.reading, refusals.converting, cuts, failures);
    return !refusals.showing || !refusals.reading || !refusals.converting || !cuts || failures > 0;
}
