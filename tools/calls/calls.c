// Calls the library of crates/fast_c by include/fast.h on the rows of tools/growths/rows.txt: each stream whole and in pieces of one byte,
// with room for one record and for many; with each allocation refused in turn; messages back to bytes; messages that are refused; and calls
// with null pointers.
#include "../../include/fast.h"
#include "../growths/rows.h"

static int wrong;

static void expect(bool is, const struct row *r, const char *words) {
    if (is) return;
    wrong++;
    fprintf(stderr, "calls: rows.txt:%d: %s: %s\n", r->line, r->name, words);
}

// The checksum of docs/PERFORMANCE.md, over records.
static const uint64_t basis = 0xcbf29ce484222325, prime = 0x100000001b3, spread = 0x9e3779b97f4a7c15;

static void add(uint64_t *sum, uint64_t word) {
    *sum = (*sum ^ word) * prime;
}

static uint64_t ends;  // the checksum of the offsets at which messages end

static void add_record(uint64_t *sum, const fast_record *it, const uint8_t *texts) {
    uint64_t key = (it->node * UINT64_C(16) + it->kind) * spread;
    if (it->kind == FAST_MESSAGE_END) add(&ends, it->value);
    if (it->kind < FAST_ASCII || it->kind > FAST_BYTES) {
        add(sum, key + (it->kind == FAST_MESSAGE_END ? 0 : it->value));
        if (it->kind == FAST_DECIMAL) add(sum, (uint64_t)(int64_t)it->exponent);
        return;
    }
    add(sum, key + it->length);
    for (uint32_t at = 0; at < it->length; at += 8) {
        uint64_t word = 0;
        memcpy(&word, texts + it->value + at, it->length - at < 8 ? it->length - at : 8);
        add(sum, word);
    }
}

// The status of a row: 0 between two messages, 1 inside a message, from 2 a fault, in the order of its codes, then L4 and a sink that
// stopped.
static uint64_t status_of(const fast_fed *fed) {
    if (fed->status == FAST_DONE) return !fed->between;
    if (fed->status == FAST_L5) return 17;
    if (fed->status >= FAST_D2 && fed->status <= FAST_L3) return fed->status - FAST_D2 + 2;
    return fed->status == FAST_L4 ? 18 : fed->status == FAST_WAITING_MEMORY ? 19 : fed->status + 1000;
}

enum { RECORDS = 4096, TEXTS = 65536 };
static fast_record records[RECORDS];
static uint8_t texts[TEXTS];

static fast_limits limits_of(const struct row *r) {
    return (fast_limits){r->strict, r->max_text, r->max_elements, r->max_total};
}

// Decodes a row's stream in pieces, with this much room.
static struct answer decode(fast_decoder *decoder, const struct row *r, size_t piece, size_t room) {
    struct answer is = {.sum = basis};
    fast_fed fed = {.between = 1};
    size_t at = 0;
    ends = basis;
    do {
        size_t ahead = r->stream_len - at < piece ? r->stream_len - at : piece;
        fed = fast_feed(decoder, r->stream + at, ahead, records, room, texts, r->max_text);
        for (uint64_t i = 0; i < fed.records; i++) {
            add_record(&is.sum, &records[i], texts);
            bool is_end = piece == 1 && room == RECORDS && records[i].kind == FAST_MESSAGE_END;
            expect(!is_end || records[i].value == fed.consumed, r, "a message does not end at its last byte");
        }
        is.events += fed.records;
        at += fed.taken;
    } while (fed.status == FAST_MORE || (fed.status == FAST_DONE && at < r->stream_len));
    is.status = status_of(&fed);
    is.consumed = fed.consumed;
    return is;
}

// Decodes a row's stream from one offset to another as a packet, with this much room. `is` holds the result so far.
static struct answer decode_packet(fast_decoder *decoder, const struct row *r, uint32_t start, size_t at, size_t end, size_t room,
                                   struct answer is) {
    fast_fed fed;
    do {
        fed = fast_decode_packet(decoder, start, r->stream + at, end - at, records, room, texts, r->max_text);
        for (uint64_t i = 0; i < fed.records; i++) add_record(&is.sum, &records[i], texts);
        is.events += fed.records;
        at += fed.taken;
        start = FAST_CONTINUE;
    } while (fed.status == FAST_MORE);
    is.status = fed.status == FAST_TRUNCATED ? 1 : status_of(&fed);
    is.consumed = fed.consumed;
    return is;
}

static bool is_same(const struct answer *a, const struct answer *b) {
    return a->status == b->status && a->consumed == b->consumed && a->events == b->events && a->sum == b->sum;
}

static void run_row(const struct row *r) {
    fast_set *set = NULL;
    fast_decoder *decoder = NULL;
    begin_run(none, none);
    expect(fast_read_set(r->templates, r->templates_len, &set) == FAST_DONE, r, "no set");
    expect(fast_open_decoder(set, limits_of(r), &decoder) == FAST_DONE, r, "no decoder");
    uint64_t due = 0;
    static const size_t pieces[] = {1, SIZE_MAX, 3}, rooms[] = {RECORDS, 1, 5};
    for (int i = 0; i < 9; i++) {
        struct answer is = decode(decoder, r, pieces[i / 3], rooms[i % 3]);
        expect(is_same(&is, &r->due), r, "not what is due");
        if (!i) due = ends;
        expect(ends == due, r, "messages end elsewhere than in pieces of one byte");
        fast_reset_decoder(decoder);
        // Records may wait after this one.
        fast_feed(decoder, r->stream, r->stream_len, records, 1, texts, r->max_text);
        fast_reset_decoder(decoder);
    }
    fast_close_decoder(&decoder);
    fast_close_decoder(&decoder);
    fast_close_set(&set);
    fast_close_set(&set);
    expect(!blocks, r, "memory is left behind");
}

// Returns whether nothing is consumed or written after a packet that was truncated.
static bool stays_cut(const fast_fed *fed, uint64_t consumed) {
    return fed->status == FAST_TRUNCATED && !fed->taken && !fed->records && !fed->texts && !fed->between && fed->consumed == consumed;
}

// Checks that a row's stream has the same result as a packet, except that one which ends inside a message is truncated, and stays so until
// a reset.
static void run_packet(const struct row *r) {
    static const struct answer nothing = {.sum = basis};
    static const size_t rooms[] = {RECORDS, 1, 5};
    fast_set *set = NULL;
    fast_decoder *decoder = NULL;
    begin_run(none, none);
    fast_read_set(r->templates, r->templates_len, &set);
    fast_open_decoder(set, limits_of(r), &decoder);
    for (int i = 0; i < 3; i++) {
        struct answer is = decode_packet(decoder, r, i ? FAST_RESET : FAST_CONTINUE, 0, r->stream_len, rooms[i], nothing);
        expect(is_same(&is, &r->due), r, "not what is due of a packet");
        if (is.status == 1) {
            fast_fed packet = fast_decode_packet(decoder, FAST_CONTINUE, r->stream, r->stream_len, records, RECORDS, texts, TEXTS);
            fast_fed fed = fast_feed(decoder, r->stream, r->stream_len, records, RECORDS, texts, TEXTS);
            expect(stays_cut(&packet, is.consumed) && stays_cut(&fed, is.consumed), r, "bytes behind a packet that was cut are taken");
        }
        // Records may wait after this one.
        fast_decode_packet(decoder, FAST_RESET, r->stream, r->stream_len, records, 1, texts, r->max_text);
    }
    // In two packets, split anywhere; the second continues with the dictionary.
    for (size_t cut = 0; cut <= r->stream_len && r->stream_len <= 64; cut++) {
        struct answer first = decode_packet(decoder, r, FAST_RESET, 0, cut, RECORDS, nothing);
        struct answer both = decode_packet(decoder, r, FAST_CONTINUE, cut, r->stream_len, RECORDS, first);
        expect(is_same(&both, first.status == 1 ? &first : &r->due), r, "not what is due of two packets");
    }
    fast_close_decoder(&decoder);
    fast_close_set(&set);
    expect(!blocks, r, "memory is left behind packets");
}

// Refuses each allocation in turn, while a stream is fed with room for one record.
static void refuse_each(const struct row *r) {
    for (uint64_t number = 0;; number++) {
        fast_set *set = NULL;
        fast_decoder *decoder = NULL;
        begin_run(none, number);
        uint32_t status = fast_read_set(r->templates, r->templates_len, &set);
        if (!status) status = fast_open_decoder(set, limits_of(r), &decoder);
        bool is_waiting = false;
        if (!status) {
            struct answer is = decode(decoder, r, SIZE_MAX, 1);
            is_waiting = is.status == 19;
            expect(is_waiting || is_same(&is, &r->due), r, "a refused request changes what comes");
        }
        bool is_memory = status == FAST_SET_MEMORY || status == FAST_NO_MEMORY || is_waiting;
        expect(is_memory || number >= requests, r, "a refused request is not told");
        bool is_last = number >= requests;
        fast_close_decoder(&decoder);
        fast_close_set(&set);
        expect(!blocks, r, "memory is left behind a refused request");
        if (is_last) return;
    }
}

// Checks that the messages of a stream, encoded, are decoded to the same events again.
static void put_back(const struct row *r) {
    fast_set *set = NULL;
    fast_decoder *decoder = NULL;
    fast_encoder *encoder = NULL;
    begin_run(none, none);
    fast_read_set(r->templates, r->templates_len, &set);
    fast_open_decoder(set, limits_of(r), &decoder);
    expect(fast_open_encoder(set, limits_of(r), &encoder) == FAST_DONE, r, "no encoder");
    fast_fed fed = fast_feed(decoder, r->stream, r->stream_len, records, RECORDS, texts, TEXTS);
    struct row back = *r;
    back.stream_len = 0;
    bool is_whole = fed.status == FAST_DONE && fed.between, is_refused = false;
    for (uint64_t from = 0, to; is_whole && from < fed.records; from = to) {
        for (to = from; to < fed.records && records[to++].kind != FAST_MESSAGE_END;) {}
        fast_put put = fast_put_message(encoder, records + from, to - from, texts, TEXTS);
        is_refused = is_refused || put.status == FAST_MESSAGE_R9;
        if (is_refused) break;
        expect(put.status == FAST_DONE, r, "a message is refused");
        // One byte at a time.
        while (fast_take_bytes(encoder, back.stream + back.stream_len, 1) && back.stream_len < sizeof back.stream - 1) back.stream_len++;
        fast_put wanting = fast_put_message(encoder, records + from, to - from - 1, texts, TEXTS);
        expect(wanting.status == FAST_MISPLACED && wanting.record == to - from - 1, r, "half a message is taken");
    }
    if (is_whole && !is_refused) {
        fast_reset_decoder(decoder);
        struct answer is = decode(decoder, &back, SIZE_MAX, RECORDS);
        expect(is.status == 0 && is.events == r->due.events && is.sum == r->due.sum, r, "not the same behind the encoder");
    }
    fast_close_encoder(&encoder);
    fast_close_encoder(&encoder);
    fast_close_decoder(&decoder);
    fast_close_set(&set);
    expect(!blocks, r, "memory is left behind an encoder");
}

// Writes the bytes of the first message, from a new encoder. Allocation number `ahead` of the call is refused: the encoder does without it,
// or returns a status, and the message is put again.
static size_t put_anew(const struct row *r, fast_set *set, size_t len, uint64_t ahead, uint8_t *bytes, bool *was_refused) {
    fast_encoder *encoder = NULL;
    expect(fast_open_encoder(set, limits_of(r), &encoder) == FAST_DONE, r, "no encoder");
    refused = requests + ahead;
    fast_put put = fast_put_message(encoder, records, len, texts, TEXTS);
    *was_refused = refused < requests;
    refused = none;
    if (put.status == FAST_MESSAGE_MEMORY) {
        expect(*was_refused && !put.waiting, r, "an encoder tells of memory that was not refused");
        put = fast_put_message(encoder, records, len, texts, TEXTS);
    }
    size_t taken = fast_take_bytes(encoder, bytes, sizeof r->stream);
    fast_close_encoder(&encoder);
    return taken;
}

// Refuses each allocation in turn, while the first message of a stream is put; a refused one must change nothing.
static void refuse_each_put(const struct row *r) {
    static uint8_t due[sizeof r->stream], again[sizeof r->stream];
    fast_set *set = NULL;
    fast_decoder *decoder = NULL;
    begin_run(none, none);
    fast_read_set(r->templates, r->templates_len, &set);
    fast_open_decoder(set, limits_of(r), &decoder);
    uint64_t given = fast_feed(decoder, r->stream, r->stream_len, records, RECORDS, texts, TEXTS).records, len = 0;
    while (len < given && records[len++].kind != FAST_MESSAGE_END) {}
    bool is_refused = true;
    size_t due_len = put_anew(r, set, len, UINT32_MAX, due, &is_refused);
    expect(!is_refused, r, "a message asks for memory for ever");
    is_refused = due_len;
    for (uint64_t ahead = 0; is_refused; ahead++) {
        size_t len_again = put_anew(r, set, len, ahead, again, &is_refused);
        expect(len_again == due_len && !memcmp(again, due, due_len), r, "a refused request changes an encoder");
    }
    fast_close_decoder(&decoder);
    fast_close_set(&set);
    expect(!blocks, r, "memory is left behind a refused request of an encoder");
}

// A string at the start of the strings of put_refused.
#define TEXT(kind, node, length) {kind, node, 0, length, 0}
#define START(number) {FAST_MESSAGE_START, number, 0, 0, 0}
#define END {FAST_MESSAGE_END, 0, 0, 0, 0}

// Records, up to the first without a type, and the status that the encoder returns for them.
static const struct {
    uint32_t status, record;
    fast_record records[6];
} refusals[] = {
    {FAST_MISPLACED, 0, {{0, 0, 0, 0, 0}}},
    {FAST_MISPLACED, 0, {START(2), END}},
    {FAST_MISPLACED, 0, {END}},
    {FAST_MISPLACED, 1, {START(0)}},
    {FAST_MISPLACED, 1, {START(0), {99, 0, 0, 0, 0}, END}},
    {FAST_MISPLACED, 1, {START(0), {FAST_ASCII, 0, 64, 1, 0}, END}},
    {FAST_MISPLACED, 1, {START(0), {FAST_ASCII, 0, UINT64_MAX, 2, 0}, END}},
    {FAST_MISPLACED, 1, {START(0), {FAST_UNSIGNED, 1, 7, 1, 0}, END}},
    {FAST_MISPLACED, 2, {START(0), {FAST_UNSIGNED, 1, 7, 0, 0}, TEXT(FAST_ASCII, 0, 1), END}},
    {FAST_MISPLACED, 2, {START(0), TEXT(FAST_ASCII, 0, 1), START(0), END}},
    {FAST_MISPLACED, 3, {START(0), TEXT(FAST_ASCII, 0, 1), END, START(0), END}},
    {FAST_E1, 0, {START(1), END}},
    {FAST_E2, 0, {START(0), {FAST_UNSIGNED, 1, 7, 0, 0}, END}},
    {FAST_E2, 0, {START(0), TEXT(FAST_BYTES, 0, 1), {FAST_UNSIGNED, 1, 7, 0, 0}, END}},
    {FAST_E3, 0, {START(0), TEXT(FAST_ASCII, 0, 1), {FAST_UNSIGNED, 1, 8, 0, 0}, END}},
    {FAST_E4, 0, {START(0), TEXT(FAST_ASCII, 0, 17), {FAST_UNSIGNED, 1, 7, 0, 0}, END}},
    {FAST_MESSAGE_R9, 0, {START(0), {FAST_ASCII, 0, 17, 2, 0}, {FAST_UNSIGNED, 1, 7, 0, 0}, END}},
};

// Checks that each of these is refused with its status, and changes nothing: the bytes that wait stay, and the next message is encoded.
static void put_refused(const struct row *r) {
    static const char set_text[] = "[[template]]\nname = 'A'\nid = 1\n"
                                   "fields = [{ kind = 'ascii', name = 'a' }, { kind = 'uInt32', name = 'n', op = 'constant', value = '7' }]\n"
                                   "[[template]]\nname = 'B'\n";
    static const uint8_t all[64] = "xaaaaaaaaaaaaaaaa";  // and zeros
    static const fast_record good[] = {START(0), TEXT(FAST_ASCII, 0, 1), {FAST_UNSIGNED, 1, 7, 0, 0}, END};
    fast_set *set = NULL;
    fast_encoder *encoder = NULL;
    uint8_t out[8];
    begin_run(none, none);
    expect(fast_read_set((const uint8_t *)set_text, sizeof set_text - 1, &set) == FAST_DONE, r, "no set of messages to refuse");
    expect(fast_open_encoder(set, (fast_limits){0, 15, 1, 1}, &encoder) == FAST_BAD_LIMITS && !encoder, r, "limits of an encoder");
    expect(fast_open_encoder(set, (fast_limits){0, 16, 1, 1}, &encoder) == FAST_DONE, r, "no encoder of messages to refuse");
    expect(fast_put_message(encoder, NULL, 9, NULL, 9).status == FAST_MISPLACED, r, "no records are no message");
    expect(fast_put_message(encoder, good, 4, all, sizeof all).waiting == 3, r, "a message");
    for (size_t i = 0; i < sizeof refusals / sizeof *refusals; i++) {
        size_t len = 0;
        while (len < 6 && refusals[i].records[len].kind) len++;
        fast_put put = fast_put_message(encoder, refusals[i].records, len, all, sizeof all);
        bool is_due = put.status == refusals[i].status && put.record == refusals[i].record && put.waiting == 3;
        if (!is_due) fprintf(stderr, "calls: refusal %zu: %u at %u\n", i, put.status, (unsigned)put.record);
        expect(is_due, r, "not refused as it should be");
    }
    expect(fast_put_message(encoder, good, 4, all, sizeof all).waiting == 5, r, "a message behind those that are refused");
    expect(fast_take_bytes(encoder, NULL, 9) == 0 && fast_take_bytes(encoder, out, 0) == 0, r, "no room for bytes");
    expect(fast_take_bytes(encoder, out, 4) == 4 && !memcmp(out, "\xc0\x81\xf8\x80", 4), r, "the first bytes");
    fast_reset_encoder(encoder);
    expect(fast_take_bytes(encoder, out, 8) == 0, r, "bytes behind a reset");
    expect(fast_put_message(encoder, good, 4, all, sizeof all).waiting == 3, r, "a message behind a reset");
    fast_close_encoder(&encoder);
    fast_close_set(&set);
    expect(!blocks, r, "memory is left behind messages that are refused");
}

// Checks the results of calls with null pointers.
static void run_nothing(const struct row *r) {
    fast_set *set = NULL;
    fast_decoder *decoder = NULL;
    fast_encoder *encoder = NULL;
    uint8_t words[256];
    begin_run(none, none);
    expect(fast_interface() == FAST_INTERFACE, r, "another build");
    expect(fast_feed(decoder, NULL, 1, NULL, 1, NULL, 1).status == FAST_CLOSED, r, "a decoder that is not there");
    expect(fast_decode_packet(decoder, FAST_RESET, NULL, 1, NULL, 1, NULL, 1).status == FAST_CLOSED, r, "a packet without a decoder");
    expect(fast_put_message(encoder, NULL, 1, NULL, 1).status == FAST_CLOSED, r, "an encoder that is not there");
    expect(fast_open_decoder(set, fast_default_limits, &decoder) == FAST_CLOSED && !decoder, r, "a set that is not there");
    expect(fast_take_bytes(encoder, words, 1) == 0 && fast_count_nodes(set) == 0, r, "nothing");
    expect(fast_read_set(r->templates, r->templates_len, NULL) == FAST_CLOSED, r, "no place for a set");
    fast_set *of_none = NULL;
    uint32_t of_null = fast_read_set(NULL, 10, &of_none);
    fast_close_set(&of_none);
    expect(of_null == fast_read_set((const uint8_t *)"", 0, &of_none), r, "a null text is an empty one");
    fast_close_set(&of_none);
    fast_close_set(NULL);
    fast_close_decoder(NULL);
    fast_close_encoder(NULL);
    expect(fast_read_set((const uint8_t *)"\xff", 1, &set) == FAST_NOT_TEXT && !set, r, "a text that is none");
    expect(fast_read_set((const uint8_t *)"x", 1, &set) == FAST_S1 && !set, r, "a text that is refused");
    expect(fast_read_set(r->templates, r->templates_len, &set) == FAST_DONE, r, "no set");
    expect(fast_open_decoder(set, (fast_limits){0, 15, 1, 1}, &decoder) == FAST_BAD_LIMITS && !decoder, r, "limits");
    expect(fast_open_decoder(set, fast_default_limits, NULL) == FAST_CLOSED, r, "no place for a decoder");
    expect(fast_open_encoder(set, fast_default_limits, NULL) == FAST_CLOSED, r, "no place for an encoder");
    expect(fast_open_decoder(set, fast_default_limits, &decoder) == FAST_DONE, r, "no decoder");
    expect(fast_feed(decoder, NULL, 9, records, 1, texts, 1).status == FAST_DONE, r, "a null piece is an empty one");
    expect(fast_feed(decoder, r->stream, r->stream_len, NULL, 9, NULL, 9).status == FAST_NO_ROOM, r, "no room");
    fast_fed empty = fast_decode_packet(decoder, FAST_RESET, NULL, 9, NULL, 9, NULL, 9);
    expect(empty.status == FAST_DONE && empty.between && !empty.consumed, r, "an empty packet");
    fast_fed wanting = fast_decode_packet(decoder, FAST_RESET, r->stream, r->stream_len, NULL, 9, NULL, 9);
    expect(wanting.status == FAST_NO_ROOM && !wanting.taken, r, "no room for a packet");
    expect(fast_name_of_node(set, fast_count_nodes(set), NULL, 9) == 0, r, "a node that is not there");
    expect(fast_name_of_node(set, 0, NULL, 9) > 0 && fast_name_of_template(set, 0, (char *)words, 1) > 0, r, "names");
    for (uint32_t status = 0; status < 500; status++) {
        size_t length = fast_status_words(status, words, sizeof words);
        bool is_one = status <= FAST_TRUNCATED || (status > 100 && status < 118) || status == FAST_L5 || status == 201 || status == 202 ||
                      status == 204 || (status > 300 && status < 314) || (status > 400 && status < 407);
        expect(is_one ? length > 10 && length < 200 : !length, r, "the words of a status");
    }
    expect(fast_status_words(FAST_D5, words, 2) > 2 && words[0] == 'D' && words[1] == '5', r, "the words of D5");
    fast_close_decoder(&decoder);
    fast_close_set(&set);
    expect(!blocks, r, "memory is left behind nothing");
}

int main(void) {
    FILE *file = fopen("rows.txt", "rb");
    if (!file) {
        perror("rows.txt");
        return 2;
    }
    struct row r;
    int line = 0, rows = 0;
    while (next_row(file, &line, &r)) {
        run_row(&r);
        run_packet(&r);
        put_back(&r);
        if (rows++ % 16 == 0) {
            refuse_each(&r);
            refuse_each_put(&r);
        }
        if (rows == 4) {
            run_nothing(&r);
            put_refused(&r);
        }
    }
    fclose(file);
    printf("calls: %d streams by fast.h, %d wrong\n", rows, wrong);
    return wrong != 0 || !rows;
}
