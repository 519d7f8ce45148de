// The packets of a capture, and the rows of their messages: the loops of `decode` that run once a packet, a message and a field. `decode`
// compiles this file and calls it over ctypes, a few thousand packets at a time.
#include "fast.h"
#include <errno.h>
#include <stdbool.h>
#include <stdlib.h>
#include <string.h>
#include <unistd.h>

#define NONE 0xFFFFFFFFu

// ---- packets

// How the packets of a feed begin: `skip` bytes, of which the first `number` are a sequence number. Port 0 is any.
typedef struct {
    uint32_t port, skip, number, is_little;
} form;

// A UDP datagram of a capture.
typedef struct {
    int64_t time;      // nanoseconds since 1970
    uint64_t at;       // the offset of its messages in the file
    uint64_t number;   // its sequence number
    uint64_t to;       // its destination, address and port
    uint32_t len;      // the number of bytes of its messages
    uint32_t skipped;  // the number of bytes before them
    uint32_t missing;  // the number of bytes that were sent and are not in the capture
    uint32_t unused;
} packet;

typedef struct {
    uint64_t packets, others;  // the number of packets, and of frames without one
    uint64_t end;              // how far the file could be read
} cutting;

static uint64_t number_at(const uint8_t *at, uint32_t size, bool is_little) {
    uint64_t number = 0;
    memcpy(&number, at, size);
    return is_little ? number : __builtin_bswap64(number) >> ((64 - 8 * size) & 63);
}

// Finds the UDP payload of an Ethernet frame of IPv4, with or without VLAN tags. Returns false if there is none to the port.
static bool find_payload(const uint8_t *frame, size_t len, const form *of, packet *it) {
    size_t at = 12;
    while (at + 6 <= len && number_at(frame + at, 2, false) == 0x8100) at += 4;
    if (at + 22 > len || number_at(frame + at, 2, false) != 0x0800) return false;
    const uint8_t *ip = frame + at + 2;
    size_t head = (ip[0] & 15) * 4, left = len - at - 2;
    if (ip[0] >> 4 != 4 || ip[9] != 17 || number_at(ip + 6, 2, false) & 0x3FFF || head < 20 || left < head + 8) return false;
    uint32_t port = (uint32_t)number_at(ip + head + 2, 2, false), sent = (uint32_t)number_at(ip + head + 4, 2, false);
    if (sent < 8 || (of->port && port != of->port)) return false;
    it->to = number_at(ip + 16, 4, false) << 16 | port;
    it->at = (uint64_t)(ip + head + 8 - frame);
    it->len = (uint32_t)(left - head < sent ? left - head : sent) - 8;
    it->missing = sent - 8 - it->len;
    return true;
}

// Removes what comes before the messages of a packet.
static void remove_preamble(const uint8_t *payload, const form *of, packet *it) {
    it->number = it->len >= of->number ? number_at(payload, of->number, of->is_little) : 0;
    it->skipped = it->len < of->skip ? it->len : of->skip;
    it->at += it->skipped;
    it->len -= it->skipped;
}

// Finds the packets of a pcap, and writes as many as there is room for. It ends where a record is cut, and at 0 if the file is no pcap of
// Ethernet.
void cut_packets(const uint8_t *file, uint64_t len, const form *of, packet *packets, uint64_t room, cutting *found) {
    *found = (cutting){0, 0, 0};
    if (len < 24) return;
    bool is_little = file[0] == 0xD4 || file[0] == 0x4D;
    uint64_t magic = number_at(file, 4, is_little), nanos = magic == 0xA1B23C4D ? 1 : 1000;
    if ((nanos == 1000 && magic != 0xA1B2C3D4) || number_at(file + 20, 4, is_little) != 1) return;
    for (found->end = 24; len - found->end >= 16;) {
        const uint8_t *head = file + found->end, *frame = head + 16;
        uint64_t kept = number_at(head + 8, 4, is_little);
        if (kept > len - found->end - 16) break;
        packet it = {.time = (int64_t)(number_at(head, 4, is_little) * 1000000000 + number_at(head + 4, 4, is_little) * nanos)};
        if (find_payload(frame, kept, of, &it)) {
            it.at += (uint64_t)(frame - file);
            remove_preamble(file + it.at, of, &it);
            if (found->packets < room) packets[found->packets] = it;
            found->packets++;
        } else {
            found->others++;
        }
        found->end += 16 + kept;
    }
}

// ---- rows

// Where the value of a node goes, in the row of the message or element that it is in. It is put by two stores, whatever its type: eight bytes
// at `at`, and a decimal's exponent and the flag that it is present at `after`. They may go beyond its columns, with zeros. That is harmless:
// fields come in the order of their columns, and a row is set to zero when it is added.
typedef struct {
    uint64_t mask;  // the bits of the value that are kept
    uint32_t at, after;
    uint32_t flag;  // 1, or 1 << 8 after an exponent, if the node has a flag, else 0
    uint32_t more;  // of a string, its width in bytes; of a sequence, the table of its elements
} column;

// How far the stores of a row go beyond its end, at most, and the reading of a string beyond its end.
#define BEYOND 32

// The rows of a template's messages, or of a sequence's elements. A message's row begins with the time and the number of its packet and the
// number of its capture, that of an element with the number of the row that it belongs to, in the table `parent`.
typedef struct {
    uint8_t *rows, *end;  // those that are not written yet, from the last multiple of PIECE on, which may be within a row
    uint8_t *limit;       // how far they go before `grow` is called
    uint64_t room;        // in bytes
    uint64_t used;        // the number of all rows
    uint64_t owner;       // of elements, the number of the row that they belong to
    uint32_t size, parent;
} table;

// A fault in a packet: a status of fast.h, or one of these.
typedef struct {
    uint32_t packet, code;
    uint64_t offset;
} fault;

enum fault_code { CUT = 1001, SHORT, GAP, SKIPPED };
#define FAULTS_OF_PACKET 3

enum trouble { FINE, OUT_OF_MEMORY, TEXT_TOO_LONG, NOT_WRITTEN };

// Rows are written in pieces of this many bytes, at multiples of it in their file, while they are in the cache. The kernel keeps such a piece
// in few folios, and writes to each once. From the start of a page it copies faster.
#define PIECE (1 << 17)
#define PAGE 4096

typedef struct {
    fast_decoder *decoder;
    fast_record *records;
    uint8_t *texts;
    uint64_t records_len, texts_len;  // the room for records is larger by one
    const column *columns;            // by node, and as many as templates
    const uint8_t *resets;            // by template: whether its messages reset the dictionary
    table *tables;                    // those of the templates, then those of the sequences, each after that which it is in
    const int32_t *files;             // the file of each table
    uint32_t tables_len, capture;
    uint32_t is_afresh, skip;  // whether each packet begins with a new dictionary, and the number of bytes before its messages

    fault *faults;  // FAULTS_OF_PACKET for each packet of a call
    uint64_t faults_len;
    uint64_t expected;       // the next sequence number; 0: any
    table *current;          // the table of the message or the element that values are put into
    uint8_t *row;            // its last row
    uint32_t message;        // the table of the message
    uint32_t is_lost;        // the dictionary is not the sender's
    uint32_t is_full;        // a table has a piece to be written
    uint32_t trouble, node;  // a call that cannot go on, and the node of a text that is too long
    uint32_t error;          // of a file that cannot be written
} work;

// Makes room for a row: a table may have more than a piece until the rows of a packet are all there. Returns false if there is no memory.
static bool grow(work *w, table *of) {
    size_t used = (size_t)(of->end - of->rows), room = of->room ? of->room : 2 * PIECE;
    while (room < used + of->size) room *= 2;
    if (room > of->room) {
        uint8_t *moved = aligned_alloc(PAGE, room + PAGE);
        if (!moved) {
            w->trouble = OUT_OF_MEMORY;
            return false;
        }
        if (used) memcpy(moved, of->rows, used);
        free(of->rows);
        of->rows = moved, of->end = moved + used, of->room = room;
    }
    of->limit = of->rows + room;
    w->is_full = 1;
    return true;
}

// Adds a row of zeros. Returns null if there is no memory.
static inline uint8_t *add_row(work *w, table *of) {
    if ((size_t)(of->limit - of->end) < of->size && !grow(w, of)) return NULL;
    uint8_t *row = of->end, *end = row + of->size;
    for (uint8_t *at = row; at < end; at += BEYOND) memset(at, 0, BEYOND);
    // The next row, so that it is in the cache when it is added.
    __builtin_prefetch(end + 64, 1);
    of->end = end, of->used++;
    return row;
}

// Puts what a message's row begins with.
static void start_message(const work *w, uint8_t *row, uint32_t number, const packet *it) {
    memcpy(row, &it->time, 8);
    memcpy(row + 8, &number, 4);
    memcpy(row + 12, &w->capture, 4);
}

// Removes the last row of a table.
static void drop_row(table *of) { of->end -= of->size, of->used--; }

// Removes the rows of a message without an end. None of them is written.
static void drop_message(work *w) {
    drop_row(&w->tables[w->message]);
    for (uint32_t i = 0; i < w->tables_len; i++) {
        table *of = &w->tables[i];
        for (uint64_t parent; of->parent != NONE && of->end - of->rows >= of->size; drop_row(of)) {
            memcpy(&parent, of->end - of->size, 8);
            if (parent < w->tables[of->parent].used) break;
        }
    }
    w->message = NONE;
}

// Puts a value into its row, and a decimal's exponent.
static inline void put_value(const column *to, uint8_t *row, uint64_t value, int32_t exponent) {
    uint16_t after = (uint16_t)(to->flag | (uint8_t)exponent);
    value &= to->mask;
    memcpy(row + to->at, &value, 8);
    memcpy(row + to->after, &after, 2);
}

// Puts a string into its row. It is a trouble, and false is returned, if it does not fit: NumPy drops zero bytes at its end.
static inline bool put_text(work *w, const fast_record *it, const column *to, uint8_t *row) {
    const uint8_t *text = w->texts + it->value;
    uint32_t len = it->length;
    uint64_t first = 0;
    if (len) {
        if (len > to->more || !text[len - 1]) {
            w->trouble = TEXT_TOO_LONG, w->node = it->node;
            return false;
        }
        memcpy(&first, text, 8);
        if (len < 8) {
            first &= ((uint64_t)1 << 8 * len) - 1;
        } else {
            memcpy(row + to->at + 8, text + 8, len - 8);
        }
    }
    put_value(to, row, first, 0);
    return true;
}

// Puts records into rows, up to a trouble. There is room for a record after them.
static void put_records(work *w, uint32_t number, const packet *of, uint64_t records) {
    const column *columns = w->columns;
    table *current = w->current;
    uint8_t *row = w->row;
    // No record is of this kind: it ends the loops.
    w->records[records].kind = 0;
    for (const fast_record *it = w->records;; it++) {
        // Most records are numbers.
        for (; it->kind - FAST_UNSIGNED <= FAST_DECIMAL - FAST_UNSIGNED; it++) put_value(&columns[it->node], row, it->value, it->exponent);
        // No number follows the end of an element.
        if (it->kind == FAST_ELEMENT_END) it++;
        const column *to = &columns[it->node];
        switch (it->kind) {
        case FAST_MESSAGE_START:
            w->message = it->node, current = &w->tables[it->node];
            if (!(row = add_row(w, current))) return;
            start_message(w, row, number, of);
            break;
        case FAST_ELEMENT_START:
            if (!(row = add_row(w, current))) return;
            memcpy(row, &current->owner, 8);
            break;
        case FAST_SEQUENCE_START:
            put_value(to, row, it->value, 0);
            w->tables[to->more].owner = current->used - 1, current = &w->tables[to->more];
            break;
        case FAST_SEQUENCE_END:
            current = &w->tables[current->parent];
            row = current->end - current->size;
            break;
        case FAST_GROUP_START: put_value(to, row, 0, 0); break;
        case FAST_MESSAGE_END: w->message = NONE; break;
        case FAST_GROUP_END: break;
        case 0: w->current = current, w->row = row; return;
        default:
            if (!put_text(w, it, to, row)) return;
        }
    }
}

static void add_fault(work *w, uint32_t packet, uint32_t code, uint64_t offset) {
    w->faults[w->faults_len++] = (fault){packet, code, offset};
}

// Decodes the messages of a packet. After a fault in a dictionary that lives on, packets are skipped up to one that starts with a reset.
static void decode_messages(work *w, const uint8_t *file, uint32_t number, const packet *it) {
    uint32_t start = w->is_afresh || w->is_lost ? FAST_RESET : FAST_CONTINUE;
    uint64_t taken = 0;
    fast_fed fed;
    do {
        fed = fast_decode_packet(w->decoder, start, file + it->at + taken, it->len - taken, w->records, w->records_len, w->texts,
                                 w->texts_len);
        taken += fed.taken, start = FAST_CONTINUE;
        if (w->is_lost && !(fed.records && w->records->kind == FAST_MESSAGE_START && w->resets[w->records->node])) {
            add_fault(w, number, SKIPPED, 0);
            return;
        }
        w->is_lost = 0;
        put_records(w, number, it, fed.records);
    } while (fed.status == FAST_MORE && !w->trouble);
    if (fed.status == FAST_DONE || w->trouble) return;
    if (w->message != NONE) drop_message(w);
    add_fault(w, number, fed.status, taken);
    w->is_lost = !w->is_afresh;
}

// Writes the pieces of each table to its file, and what is left after the last packet. The rest comes before the next rows.
static void write_rows(work *w, bool is_last) {
    for (uint32_t i = 0; i < w->tables_len; i++) {
        table *of = &w->tables[i];
        size_t used = (size_t)(of->end - of->rows), rest = is_last ? 0 : used % PIECE;
        const uint8_t *at = of->rows, *end = of->end - rest;
        for (ssize_t written; at < end; at += written) {
            written = write(w->files[i], at, (size_t)(end - at));
            if (written < 0) {
                w->trouble = NOT_WRITTEN, w->error = (uint32_t)errno;
                return;
            }
        }
        if (used == rest) continue;
        memmove(of->rows, end, rest);
        of->end = of->rows + rest, of->limit = of->rows + PIECE;
    }
    w->is_full = 0;
}

// Decodes packets, which have the numbers from `first` on, and writes the rows of their messages to the files of the tables, those of the last
// call all of them. It ends early with a trouble.
void decode_packets(work *w, const uint8_t *file, const packet *packets, uint32_t first, uint32_t many, uint32_t is_last) {
    for (uint32_t number = first; number < first + many && !w->trouble; number++) {
        const packet *it = &packets[number];
        if (!w->is_afresh && w->expected && it->number != w->expected) {
            add_fault(w, number, GAP, 0);
            w->is_lost = 1;
        }
        w->expected = it->number ? it->number + 1 : 0;
        if (it->skipped < w->skip) add_fault(w, number, SHORT, it->skipped);
        if (it->len) decode_messages(w, file, number, it);
        if (it->missing) add_fault(w, number, CUT, it->skipped + it->len);
        if (it->missing || it->skipped < w->skip) w->is_lost = !w->is_afresh;
        if (w->is_full && !w->trouble) write_rows(w, false);
    }
    if (is_last && !w->trouble) write_rows(w, true);
}

// Frees the rows of each table.
void free_rows(work *w) {
    for (uint32_t i = 0; i < w->tables_len; i++) free(w->tables[i].rows);
}
