// Decodes messages byte by byte. Before each byte the decoder says what it waits for, so the byte belongs to that.
#include "fast_plugin.h"

enum { RECORDS = 256, TEXTS = 1 << 20 };

// The bytes read so far of what the decoder waits for, and whether they are assigned.
typedef struct unit {
    fast_due due;
    guint from;
    gboolean is_assigned;
    gboolean has_map;  // whether the map of a message is complete in an earlier piece
} unit;

static mark *put(marking *it, uint32_t kind, uint32_t node, guint from, guint to) {
    mark made = {.kind = kind, .node = node, .start = from, .length = to - from};
    wmem_array_append_one(it->marks, made);
    return (mark *)wmem_array_index(it->marks, wmem_array_get_count(it->marks) - 1);
}

void mark_fault(marking *it, uint32_t status, uint32_t node, guint from) {
    mark *fault = put(it, MARK_FAULT, node, from, it->at);
    fault->value = status;
    fault->exponent = (int32_t)(it->at - it->first);
}

static gboolean is_text(uint32_t kind) {
    return kind == FAST_ASCII || kind == FAST_UNICODE || kind == FAST_BYTES;
}

static const char *copy_of(wmem_allocator_t *scope, const uint8_t *text, uint32_t length) {
    char *copy = wmem_alloc(scope, length + 1);
    memcpy(copy, text, length);
    copy[length] = 0;
    return copy;
}

// Returns the end of the first entity of some bytes, after its stop bit; 0 where there is none.
static guint end_of_entity(const marking *it, guint from, guint to) {
    for (guint at = from; at < to; at++) {
        if (it->bytes[at] & 0x80) return at + 1;
    }
    return 0;
}

// Appends the presence map and the identifier of a message.
static void put_head(marking *it, const unit *of, uint32_t node, guint to) {
    guint map = of->has_map ? of->from : end_of_entity(it, of->from, to);
    if (!of->has_map) put(it, MARK_MAP, FAST_NONE, of->from, map);
    if (map < to) put(it, MARK_ID, node, map, to);
}

// Assigns the bytes of a unit that no event has: those of a presence map or of a null.
static void put_silent(marking *it, unit *of, guint to) {
    if (of->due.what == FAST_AWAITS_MAP) put(it, MARK_MAP, FAST_NONE, of->from, to);
    if (of->due.what == FAST_AWAITS_NODE) put(it, MARK_ABSENT, of->due.node, of->from, to);
    of->is_assigned = TRUE;
}

// Whether an event is that of the unit's bytes.
static gboolean is_of_unit(const unit *of, const fast_record *r) {
    if (of->due.what == FAST_AWAITS_MESSAGE) return r->kind == FAST_MESSAGE_START;
    return of->due.what == FAST_AWAITS_NODE && r->node == of->due.node &&
        ((r->kind >= FAST_UNSIGNED && r->kind <= FAST_BYTES) || r->kind == FAST_SEQUENCE_START);
}

// Appends the mark of an event: with the bytes of the unit if it is the unit's, else with none, after the byte at `at`.
static void put_record(marking *it, unit *of, const fast_record *r, const uint8_t *texts) {
    guint to = it->at + 1, from = to;
    if (!of->is_assigned) {
        if (is_of_unit(of, r)) from = of->from;
        else put_silent(it, of, to);
        of->is_assigned = TRUE;
    }
    mark *made = put(it, r->kind, r->node, from, to);
    made->value = r->value;
    made->exponent = r->exponent;
    if (is_text(r->kind)) {
        made->text = copy_of(it->scope, texts + r->value, r->length);
        made->text_length = r->length;
    }
    if (r->kind == FAST_MESSAGE_START) put_head(it, of, r->node, to);
}

// Feeds one byte and appends the marks of its events. Returns the decoder's status.
static fast_fed feed_byte(marking *it, fast_decoder *decoder, unit *of, uint64_t *records) {
    static fast_record room[RECORDS];
    static uint8_t texts[TEXTS];
    size_t left = 1;
    fast_fed fed;
    *records = 0;
    do {
        fed = fast_feed(decoder, it->bytes + it->at + 1 - left, left, room, RECORDS, texts, TEXTS);
        left -= (size_t)fed.taken;
        *records += fed.records;
        for (uint64_t i = 0; i < fed.records; i++) put_record(it, of, &room[i], texts);
    } while (fed.status == FAST_MORE);
    fed.taken = 1 - left;
    return fed;
}

// Appends the fault that a byte has, and the bytes that are not decoded after it.
static void stop(marking *it, fast_decoder *decoder, const unit *of, const fast_fed *fed) {
    fast_due at = fast_in_hand(decoder);
    it->at += (guint)fed->taken;
    mark_fault(it, fed->status, at.what == FAST_AWAITS_NODE ? at.node : FAST_NONE, of->is_assigned ? it->at : of->from);
    if (it->at < it->end) put(it, MARK_REST, FAST_NONE, it->at, it->end);
    it->at = it->open = it->end;
    it->is_faulty = TRUE;
}

// Feeds the bytes from `at` on. An incomplete message at the end is no fault here.
void mark_messages(marking *it, fast_decoder *decoder) {
    unit of = {.due = fast_in_hand(decoder), .from = it->unit, .has_map = it->has_map};
    while (it->at < it->end) {
        uint64_t records;
        fast_fed fed = feed_byte(it, decoder, &of, &records);
        if (fed.status != FAST_DONE) {
            stop(it, decoder, &of, &fed);
            return;
        }
        fast_due next = fast_in_hand(decoder);
        it->at++;
        if (records || next.what != of.due.what || next.node != of.due.node) {
            if (!of.is_assigned) put_silent(it, &of, it->at);
            of = (unit){.due = next, .from = it->at};
        }
        if (fed.between) {
            it->open = it->at;
            it->open_marks = wmem_array_get_count(it->marks);
        }
    }
    it->unit = of.from;
    it->has_map = of.has_map || end_of_entity(it, of.from, it->end) > 0;
}
