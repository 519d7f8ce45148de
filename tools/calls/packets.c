// Decodes a stream to records by a call for each packet, for counts of instructions (tools/calls/packets).
//
//     packets BYTES ROUNDS TEMPLATES STREAM
//
// A packet is as many whole messages as reach BYTES bytes; 0: the whole stream is one piece. Each round starts at a reset. It prints the
// number of calls and of records of a round. The status is 1 if a packet is refused or ends inside a message, or if two rounds have
// different numbers of records.
#include "../counts/content.h"
#include <fast.h>

enum { RECORDS = 4096, TEXTS = 65536 };

static fast_record records[RECORDS];
static uint8_t texts[TEXTS];
static size_t calls;

// Decodes one packet, which goes on with the dictionary of the one before, or the rest of it. Returns the number of its records.
static size_t decode(fast_decoder *decoder, const uint8_t *packet, size_t len) {
    size_t written = 0;
    for (;;) {
        fast_fed fed = fast_decode_packet(decoder, FAST_CONTINUE, packet, len, records, RECORDS, texts, TEXTS);
        calls++;
        written += fed.records;
        if (fed.status == FAST_DONE) return written;
        if (fed.status != FAST_MORE) exit(1);
        packet += fed.taken, len -= fed.taken;
    }
}

// Decodes a stream, and writes the offset at which each message ends. Returns their number.
static size_t ends_of(fast_decoder *decoder, struct content stream, size_t *ends) {
    size_t known = 0, from = 0;
    fast_fed fed;
    do {
        fed = fast_feed(decoder, stream.bytes + from, stream.len - from, records, RECORDS, texts, TEXTS);
        for (size_t i = 0; i < fed.records; i++) {
            if (records[i].kind == FAST_MESSAGE_END) ends[known++] = (size_t)records[i].value;
        }
        from += fed.taken;
    } while (fed.status == FAST_MORE);
    if (fed.status != FAST_DONE || !fed.between) exit(1);
    return known;
}

// Keeps, of the ends of messages, those of packets. Returns their number.
static size_t packets_of(size_t *ends, size_t known, size_t bytes) {
    size_t count = 0, start = 0;
    for (size_t i = 0; i < known; i++) {
        if (i + 1 < known && (!bytes || ends[i] - start < bytes)) continue;
        ends[count++] = start = ends[i];
    }
    return count;
}

// Decodes a stream in packets, by their ends. Returns the number of its records.
static size_t round_of(fast_decoder *decoder, struct content stream, const size_t *ends, size_t count) {
    size_t written = 0, start = 0;
    fast_reset_decoder(decoder);
    calls = 0;
    for (size_t i = 0; i < count; start = ends[i++]) {
        written += decode(decoder, stream.bytes + start, ends[i] - start);
    }
    return written;
}

int main(int argc, char **words) {
    if (argc != 5) return 2;
    size_t bytes = strtoul(words[1], NULL, 10), rounds = strtoul(words[2], NULL, 10);
    struct content set_text = content(words[3]), stream = content(words[4]);
    size_t *ends = calloc(stream.len + 1, sizeof *ends);
    fast_limits limits = fast_default_limits;
    fast_set *set;
    fast_decoder *decoder;
    limits.max_total = UINT32_MAX;
    if (!ends || fast_read_set(set_text.bytes, set_text.len, &set) != FAST_DONE) return 2;
    if (fast_open_decoder(set, limits, &decoder) != FAST_DONE) return 2;
    size_t count = packets_of(ends, ends_of(decoder, stream, ends), bytes), due = 0;
    for (size_t i = 0; i < rounds; i++) {
        size_t written = round_of(decoder, stream, ends, count);
        if (i && written != due) return 1;
        due = written;
    }
    printf("%zu %zu\n", calls, due);
    fast_close_decoder(&decoder);
    fast_close_set(&set);
    free(ends), free(set_text.bytes), free(stream.bytes);
    return 0;
}
