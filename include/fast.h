// A decoder and an encoder of FAST 1.1 streams, proved in Rattle. For C11 and C++11 on little-endian machines of 64 bits, such as x86-64.
// Link with libfast_c.a, which `tools/library fast_c` makes, and with heap.c or another heap (below).
//
// A template set is read from TOML text; decoders and encoders are made from a set. The types of the pointers are opaque: do not read,
// copy or move them.
//
// Threads: any number of threads may use one set at the same time; close it after the last use. A decoder or an encoder may move to another
// thread between two calls, and only one call at a time may use it. Order the calls of different threads by a lock, the start or join of a
// thread, or a sequentially consistent atomic. The library calls the heap (below) on the thread that calls the library.
//
// The caller owns the set, decoder or encoder that it makes, and closes it once. A decoder or an encoder borrows its set from the time it is
// opened until it is closed; any number may share one set, which is closed after all of them. Buffers belong to the caller: the library keeps
// no pointer to one after a call. Each function below says what it returns for a null or closed pointer, a full buffer and limits out of range.
// A buffer shorter than its stated length, and a copy of a pointer used after it is closed, are undefined behavior.
//
//     fast_set *set = NULL;
//     fast_decoder *decoder = NULL;
//     if ((status = fast_read_set(text, text_len, &set)) != FAST_DONE) ..
//     if ((status = fast_open_decoder(set, fast_default_limits, &decoder)) != FAST_DONE) ..
//     fast_fed fed = fast_feed(decoder, piece, piece_len, records, 4096, texts, 65536);
//     .. records[0 .. fed.records - 1]; and again with the rest of the piece, while fed.status is FAST_MORE ..
//     fast_close_decoder(&decoder);
//     fast_close_set(&set);
#ifndef FAST_H
#define FAST_H

#include <stddef.h>
#include <stdint.h>

#ifdef __cplusplus
#define FAST_ASSERT(is, words) static_assert(is, words)
extern "C" {
#else
#include <assert.h>
#define FAST_ASSERT(is, words) _Static_assert(is, words)
#endif

// fast_interface() has to return this number: the header and the library are of one build.
#define FAST_INTERFACE 2

// ---- records: the events of a stream. Members that a kind does not use are 0.

enum fast_kind {
    FAST_MESSAGE_START = 1,  // node: the number of the template
    FAST_UNSIGNED,           // value
    FAST_SIGNED,             // value, as int64_t
    FAST_DECIMAL,            // value, as int64_t, times ten to exponent
    FAST_ASCII,              // the string at texts[value], of length bytes below 0x80
    FAST_UNICODE,            // the string at texts[value], of length bytes in UTF-8
    FAST_BYTES,              // the byte vector at texts[value], of length bytes
    FAST_GROUP_START,        // node
    FAST_GROUP_END,
    FAST_SEQUENCE_START,     // node; value: the number of elements that follow
    FAST_ELEMENT_START,
    FAST_ELEMENT_END,
    FAST_SEQUENCE_END,
    FAST_MESSAGE_END         // value: the number of bytes of the stream up to its end, since the decoder was made or reset
};

typedef struct fast_record {
    uint32_t kind;     // one of fast_kind
    uint32_t node;     // the number of the field, group or sequence in the set, or of the template; 0 at all others
    uint64_t value;    // an integer, a mantissa, a number of elements, the offset of a string in the buffer of texts, or that of a message's end
    uint32_t length;   // of a string, in bytes
    int32_t exponent;  // of a decimal
} fast_record;

FAST_ASSERT(sizeof(void *) == 8 && sizeof(size_t) == 8, "a machine of 64 bits");
FAST_ASSERT(sizeof(fast_record) == 24, "a record has 24 bytes");
FAST_ASSERT(offsetof(fast_record, node) == 4 && offsetof(fast_record, value) == 8, "the fields of a record");
FAST_ASSERT(offsetof(fast_record, length) == 16 && offsetof(fast_record, exponent) == 20, "the fields of a record");

// ---- statuses: the outcome of a call. fast_status_words has a sentence for each.

enum fast_status {
    FAST_DONE = 0,
    FAST_MORE = 1,       // records are buffered, or bytes are left: the next call continues with the rest of the piece
    FAST_NO_ROOM = 2,    // a buffer is too small for the next record: nothing was consumed or written
    FAST_NOT_TEXT = 3,   // the template text is not UTF-8
    FAST_CLOSED = 4,     // the pointer is null: the object is closed, or was never made
    FAST_MISPLACED = 5,  // the records are not those of one whole message
    FAST_TRUNCATED = 6,  // the packet ends inside a message, until a reset

    // a fault of the stream, until a reset
    FAST_D2 = 101, FAST_D4, FAST_D5, FAST_D6, FAST_D7, FAST_D9,
    FAST_R1, FAST_R2, FAST_R6, FAST_R7, FAST_R8, FAST_R9,
    FAST_L1, FAST_L2, FAST_L3, FAST_L4,
    FAST_WAITING_MEMORY = 117,  // out of memory for records that are buffered
    FAST_L5 = 119,

    // no decoder or encoder
    FAST_BAD_LIMITS = 201, FAST_INITIAL_TOO_LONG = 202, FAST_NO_MEMORY = 204,

    // a template text that is refused
    FAST_S1 = 301, FAST_S2, FAST_S3, FAST_S4, FAST_S5, FAST_D8,
    FAST_C1, FAST_C2, FAST_C3, FAST_C4, FAST_C5, FAST_C6, FAST_SET_MEMORY,

    // a message that is refused
    FAST_E1 = 401, FAST_E2, FAST_E3, FAST_E4, FAST_MESSAGE_R9, FAST_MESSAGE_MEMORY
};

FAST_ASSERT(FAST_R1 == 107 && FAST_L1 == 113 && FAST_L4 == 116, "the numbers of faults of streams");
FAST_ASSERT(FAST_D8 == 306 && FAST_C6 == 312 && FAST_SET_MEMORY == 313, "the numbers of faults of template texts");
FAST_ASSERT(FAST_E4 == 404 && FAST_MESSAGE_R9 == 405 && FAST_MESSAGE_MEMORY == 406, "the numbers of faults of messages");

// Writes the sentence of a status, in English and without a terminating zero, as far as there is room. Returns the length of the whole
// sentence, or 0 where no status has the number. The sentence of a code begins with its name and a colon: "D5: a mandatory field ..".
size_t fast_status_words(uint32_t status, uint8_t *out, size_t out_len);

// Returns FAST_INTERFACE of the library.
uint32_t fast_interface(void);

// ---- the heap: the library asks the program for memory. heap.c passes the requests to malloc, realloc and free. No alignment exceeds 16.
// If several threads call the library, the heap must be thread-safe.

// ---- template sets (fast_set_read is the library's function; programs call fast_read_set)

typedef struct fast_set fast_set;
typedef struct fast_set_handle {
    fast_set *at;
} fast_set_handle;

// Reads a template set from TOML text in UTF-8; the text is not kept. Returns FAST_DONE and sets *out, which the caller closes; or
// FAST_NOT_TEXT, FAST_S1 to FAST_SET_MEMORY or FAST_NO_MEMORY, and leaves *out unchanged.
uint32_t fast_set_read(const uint8_t *text, size_t text_len, fast_set **out);

// ---- decoders

typedef struct fast_decoder fast_decoder;
typedef struct fast_decoder_handle {
    fast_decoder *at;
} fast_decoder_handle;

typedef struct fast_limits {
    uint32_t strict;        // 1: overlong encodings are faults (R6, R7, R8); encoders ignore it
    uint32_t max_text;      // the most bytes of one string, 16 to 1,048,576
    uint32_t max_elements;  // the most elements of one sequence
    uint32_t max_total;     // the most elements of all sequences of one message
} fast_limits;

static const fast_limits fast_default_limits = {0, 1024, 1000, 1000};

typedef struct fast_fed {
    uint64_t taken;     // the number of bytes of the piece that were consumed
    uint64_t records;   // the number of records that were written
    uint64_t texts;     // the number of bytes of strings that were written
    uint64_t consumed;  // the number of bytes of the stream consumed since the decoder was opened or reset: at a fault its offset
    uint32_t between;   // 1: the decoder is between two messages, without a fault
    uint32_t status;    // FAST_DONE, FAST_MORE, FAST_NO_ROOM, FAST_TRUNCATED, or a fault from FAST_D2 on, after all records before it
} fast_fed;

FAST_ASSERT(sizeof(fast_fed) == 40, "what comes of a feed has 40 bytes");
FAST_ASSERT(offsetof(fast_fed, consumed) == 24 && offsetof(fast_fed, status) == 36, "its fields");

// How fast_decode_packet starts.
enum fast_start {
    FAST_CONTINUE = 0,  // with the dictionary as it is, and with the records of the packet that are buffered
    FAST_RESET = 1      // with a new dictionary: the decoder is reset first (every number but 0 does so)
};

// ---- encoders

typedef struct fast_encoder fast_encoder;
typedef struct fast_encoder_handle {
    fast_encoder *at;
} fast_encoder_handle;

typedef struct fast_put {
    uint64_t waiting;  // the number of encoded bytes that are not taken yet
    uint64_t record;   // at FAST_MISPLACED the number of the record, from 0
    uint32_t status;   // FAST_DONE; otherwise the message is refused, and nothing has changed
    uint32_t unused;
} fast_put;

FAST_ASSERT(sizeof(fast_put) == 24, "what comes of a message has 24 bytes");
FAST_ASSERT(offsetof(fast_put, record) == 8 && offsetof(fast_put, status) == 16 && offsetof(fast_put, unused) == 20, "its fields");
FAST_ASSERT(sizeof(fast_set_handle) == 8 && sizeof(fast_decoder_handle) == 8 && sizeof(fast_encoder_handle) == 8, "a handle is a pointer");

// ---- the library's functions. Programs call those of the next part, which check for null pointers first.
//
// Each handle that is passed here is open; no buffer is null, not even one of length 0; buffers and other places do not overlap. A handle is
// passed by value, and its ownership with it. Where a function has `back`, it writes the pointer of the handle there again, which returns
// the ownership, however the call ends. A function without `back` keeps what it is given if its name ends in `close`, and otherwise only
// borrows it.

// Closes a set and frees its memory: neither the pointer nor a copy of it may be used afterwards. No decoder or encoder may still borrow it.
void fast_set_close(fast_set_handle set);

// These borrow the set for the call. As much of the name as fits is written to the start of `out`, which has out_len bytes; the rest is unchanged.
uint32_t fast_set_templates(fast_set_handle set);
uint32_t fast_set_nodes(fast_set_handle set);
size_t fast_template_name(fast_set_handle set, uint32_t number, uint8_t *out, size_t out_len);
size_t fast_node_name(fast_set_handle set, uint32_t number, uint8_t *out, size_t out_len);

// Borrows the set until the decoder is closed. Returns FAST_DONE and sets *out to a new decoder; otherwise *out is unchanged, and nothing is
// borrowed.
uint32_t fast_decoder_open(fast_set_handle set, uint32_t strict, uint32_t max_text, uint32_t max_elements, uint32_t max_total,
                           fast_decoder **out);

// Reads piece[0 .. piece_len - 1], which is not kept. Writes records[0 .. fed->records - 1] and texts[0 .. fed->texts - 1], which are valid
// until the caller overwrites them or passes the buffers to the next call; the contents after them are unspecified. *fed is written whole.
// Records that did not fit are buffered in the decoder. A fault, a full buffer and a lack of memory are statuses: the decoder stays open.
void fast_decoder_feed(fast_decoder_handle decoder, fast_decoder **back, const uint8_t *piece, size_t piece_len,
                       fast_record *records, size_t records_len, uint8_t *texts, size_t texts_len, fast_fed *fed);

// Feeds the rest of a packet as fast_decoder_feed does a piece; start is one of fast_start.
void fast_decoder_packet(fast_decoder_handle decoder, fast_decoder **back, uint32_t start, const uint8_t *packet, size_t packet_len,
                         fast_record *records, size_t records_len, uint8_t *texts, size_t texts_len, fast_fed *fed);

// The decoder stays open and still borrows its set. Records that were written before stay valid.
void fast_decoder_reset(fast_decoder_handle decoder, fast_decoder **back);

// Closes a decoder and frees its memory, with the records that are buffered. It no longer borrows its set.
void fast_decoder_close(fast_decoder_handle decoder);

// Borrows the set until the encoder is closed. Returns FAST_DONE and sets *out to a new encoder; otherwise *out is unchanged, and nothing is
// borrowed.
uint32_t fast_encoder_open(fast_set_handle set, uint32_t max_text, uint32_t max_elements, uint32_t max_total, fast_encoder **out);

// Reads records[0 .. records_len - 1] and texts[0 .. texts_len - 1], which are not kept. A string that is not within texts as its record says
// is FAST_MISPLACED, as are too few or too many records, or none. *put is written whole. The bytes of the message are appended to those in
// the encoder that are not taken yet; at a status other than FAST_DONE the encoder is unchanged. Out of memory is FAST_MESSAGE_MEMORY.
void fast_encoder_put(fast_encoder_handle encoder, fast_encoder **back, const fast_record *records, size_t records_len,
                      const uint8_t *texts, size_t texts_len, fast_put *put);

// Moves the first encoded bytes to out, at most out_len of them, and returns how many; the others stay in the encoder. 0 where there are none,
// or out_len is 0. It cannot fail.
size_t fast_encoder_take(fast_encoder_handle encoder, fast_encoder **back, uint8_t *out, size_t out_len);

// The encoder stays open and still borrows its set. Bytes that are not taken yet are dropped.
void fast_encoder_reset(fast_encoder_handle encoder, fast_encoder **back);

// Closes an encoder and frees its memory, with the bytes that are not taken yet. It no longer borrows its set.
void fast_encoder_close(fast_encoder_handle encoder);

// ---- the functions that programs call. A null buffer is an empty one, whatever its length; buffers of one call do not overlap.

// Replaces a null buffer: the library wants an address even for nothing.
static fast_record fast_nothing;

// The result of a feed of a null decoder.
static const fast_fed fast_fed_closed = {0, 0, 0, 0, 0, FAST_CLOSED};

// Reads a template set from TOML text in UTF-8, which is not kept; a null text is an empty one. Returns FAST_DONE and sets *out, which the
// caller closes; FAST_CLOSED where out is null; FAST_NOT_TEXT, FAST_S1 to FAST_SET_MEMORY or FAST_NO_MEMORY, and *out is unchanged.
static inline uint32_t fast_read_set(const uint8_t *text, size_t text_len, fast_set **out) {
    if (!out) return FAST_CLOSED;
    return fast_set_read(text ? text : (uint8_t *)&fast_nothing, text ? text_len : 0, out);
}

// Closes a set, frees its memory and sets the pointer to null, so that a second call does nothing. Close its decoders and encoders first. A null
// argument does nothing, here and in the other functions that close.
static inline void fast_close_set(fast_set **set) {
    fast_set_handle handle = {set ? *set : NULL};
    if (!handle.at) return;
    fast_set_close(handle);
    *set = NULL;
}

// Return the number of templates and of nodes of a set; they are numbered from 0. 0 where the set is null.
static inline uint32_t fast_count_templates(fast_set *set) {
    fast_set_handle handle = {set};
    return set ? fast_set_templates(handle) : 0;
}
static inline uint32_t fast_count_nodes(fast_set *set) {
    fast_set_handle handle = {set};
    return set ? fast_set_nodes(handle) : 0;
}

// Write the name of a template or node, in UTF-8 and without a terminating zero, as far as there is room. Return the length of the whole name;
// 0 where the set has none of the number, or is null.
static inline size_t fast_name_of_template(fast_set *set, uint32_t number, char *out, size_t out_len) {
    fast_set_handle handle = {set};
    uint8_t *to = out ? (uint8_t *)out : (uint8_t *)&fast_nothing;
    return set ? fast_template_name(handle, number, to, out ? out_len : 0) : 0;
}
static inline size_t fast_name_of_node(fast_set *set, uint32_t number, char *out, size_t out_len) {
    fast_set_handle handle = {set};
    uint8_t *to = out ? (uint8_t *)out : (uint8_t *)&fast_nothing;
    return set ? fast_node_name(handle, number, to, out ? out_len : 0) : 0;
}

// Opens a decoder, which borrows the set until it is closed. It allocates all memory that it will need, but for records that it has to buffer.
// Returns FAST_DONE and sets *out, which the caller closes; or FAST_CLOSED (set or out is null), FAST_BAD_LIMITS, FAST_INITIAL_TOO_LONG or
// FAST_NO_MEMORY, and *out is unchanged.
static inline uint32_t fast_open_decoder(fast_set *set, fast_limits limits, fast_decoder **out) {
    fast_set_handle handle = {set};
    if (!set || !out) return FAST_CLOSED;
    return fast_decoder_open(handle, limits.strict, limits.max_text, limits.max_elements, limits.max_total, out);
}

// Feeds a piece of the stream, which may be split at any byte, and writes the records of its events from records[0] on and their strings from
// texts[0] on. FAST_MORE where the buffers are full: read records[0 .. fed.records - 1] and call again with the piece from piece[fed.taken]
// on, which may be empty. One record and max_text bytes of texts are enough to make progress; 4,096 records (96 KiB) are fast. Records that do
// not fit are buffered in memory that is allocated only then: at most the events of half as many bytes as there are records, rounded up.
// FAST_NO_ROOM where not even the next record fits with its string: call again with larger buffers. FAST_CLOSED, and nothing is written,
// where the decoder is null.
static inline fast_fed fast_feed(fast_decoder *decoder, const uint8_t *piece, size_t piece_len, fast_record *records,
                                 size_t records_len, uint8_t *texts, size_t texts_len) {
    fast_fed fed;
    fast_decoder_handle handle = {decoder};
    uint8_t *nothing = (uint8_t *)&fast_nothing;
    if (!decoder) return fast_fed_closed;
    fast_decoder_feed(handle, &handle.at, piece ? piece : nothing, piece ? piece_len : 0, records ? records : &fast_nothing,
                      records ? records_len : 0, texts ? texts : nothing + 8, texts ? texts_len : 0, &fed);
    return fed;
}

// Feeds the rest of one packet as fast_feed does a piece. FAST_RESET is for feeds whose packets start with a new dictionary, FAST_CONTINUE for
// those whose dictionaries persist. After FAST_MORE, call again with the rest of the packet, from packet[fed.taken] on, and FAST_CONTINUE. A
// packet has to end between two messages: otherwise the status is FAST_TRUNCATED, once all bytes are consumed and all records written, and
// fed.consumed is the offset. The decoder then consumes nothing: every feed returns FAST_TRUNCATED until a reset or a packet with FAST_RESET.
// An empty packet has no messages.
static inline fast_fed fast_decode_packet(fast_decoder *decoder, uint32_t start, const uint8_t *packet, size_t packet_len,
                                          fast_record *records, size_t records_len, uint8_t *texts, size_t texts_len) {
    fast_fed fed;
    fast_decoder_handle handle = {decoder};
    uint8_t *nothing = (uint8_t *)&fast_nothing;
    if (!decoder) return fast_fed_closed;
    fast_decoder_packet(handle, &handle.at, start, packet ? packet : nothing, packet ? packet_len : 0, records ? records : &fast_nothing,
                        records ? records_len : 0, texts ? texts : nothing + 8, texts ? texts_len : 0, &fed);
    return fed;
}

// Resets a decoder to the start of a stream, without a fault; records that are buffered are dropped. A null pointer does nothing.
static inline void fast_reset_decoder(fast_decoder *decoder) {
    fast_decoder_handle handle = {decoder};
    if (decoder) fast_decoder_reset(handle, &handle.at);
}

// Closes a decoder, frees its memory and sets the pointer to null, so that a second call does nothing. The set stays open.
static inline void fast_close_decoder(fast_decoder **decoder) {
    fast_decoder_handle handle = {decoder ? *decoder : NULL};
    if (!handle.at) return;
    fast_decoder_close(handle);
    *decoder = NULL;
}

// Opens an encoder, which borrows the set until it is closed, with an empty dictionary and no bytes. It uses all limits but `strict`. Returns
// FAST_DONE and sets *out, which the caller closes; or FAST_CLOSED (set or out is null), FAST_BAD_LIMITS, FAST_INITIAL_TOO_LONG or
// FAST_NO_MEMORY, and *out is unchanged.
static inline uint32_t fast_open_encoder(fast_set *set, fast_limits limits, fast_encoder **out) {
    fast_set_handle handle = {set};
    if (!set || !out) return FAST_CLOSED;
    return fast_encoder_open(handle, limits.max_text, limits.max_elements, limits.max_total, out);
}

// Encodes one message from its records, in the form in which a decoder writes them: FAST_MESSAGE_START to FAST_MESSAGE_END, strings anywhere
// in texts, and any value in FAST_MESSAGE_END. Records and texts are not kept. Returns FAST_DONE, and the bytes are appended to those in the
// encoder that are not taken yet; or FAST_CLOSED where the encoder is null; FAST_MISPLACED where the records are no message, with the number
// of the first that is no event, or else of the first that is out of place, which is the number of records where one is missing; FAST_E1 to
// FAST_MESSAGE_R9 where the message is refused; FAST_MESSAGE_MEMORY. A refusal changes nothing, and the next message can be put.
static inline fast_put fast_put_message(fast_encoder *encoder, const fast_record *records, size_t records_len,
                                        const uint8_t *texts, size_t texts_len) {
    fast_put put = {0, 0, FAST_CLOSED, 0};
    fast_encoder_handle handle = {encoder};
    if (encoder) {
        fast_encoder_put(handle, &handle.at, records ? records : &fast_nothing, records ? records_len : 0,
                         texts ? texts : (uint8_t *)&fast_nothing, texts ? texts_len : 0, &put);
    }
    return put;
}

// Moves the first encoded bytes to out, at most out_len of them, and returns how many. The others stay in the encoder, as do all where out is
// null. 0 where the encoder is null.
static inline size_t fast_take_bytes(fast_encoder *encoder, uint8_t *out, size_t out_len) {
    fast_encoder_handle handle = {encoder};
    if (!encoder || !out) return 0;
    return fast_encoder_take(handle, &handle.at, out, out_len);
}

// Resets an encoder to the start of a stream: use it where the reader's decoder is reset too. Bytes that are not taken yet are dropped. A null
// pointer does nothing.
static inline void fast_reset_encoder(fast_encoder *encoder) {
    fast_encoder_handle handle = {encoder};
    if (encoder) fast_encoder_reset(handle, &handle.at);
}

// Closes an encoder, frees its memory and sets the pointer to null, so that a second call does nothing. The set stays open.
static inline void fast_close_encoder(fast_encoder **encoder) {
    fast_encoder_handle handle = {encoder ? *encoder : NULL};
    if (!handle.at) return;
    fast_encoder_close(handle);
    *encoder = NULL;
}

#ifdef __cplusplus
}
#endif

#include "fast_queries.h"
#endif
