// The parts of the dissector: feeds.c has the table of feeds, fields.c the filter names, marks.c decodes bytes to marks, tree.c shows marks,
// packet-fast.c registers it all and follows the flows.
#ifndef FAST_PLUGIN_H
#define FAST_PLUGIN_H

#include <epan/packet.h>
#include <epan/prefs.h>
#include <epan/range.h>
#include "fast.h"

// ---- feeds.c

enum { TRANSPORT_UDP = 0, TRANSPORT_TCP = 1 };

// A row of the table "Feeds".
typedef struct feed_row {
    guint transport;
    range_t *ports;
    char *templates;  // the path of the template file
    char *fields;     // the path of the table of from_xml's --fields, or empty
    char *sequence;   // the form of the sequence number, such as be4, or empty
    guint skip;       // the number of bytes before the messages
    gboolean reset;   // whether each packet resets the dictionary
} feed_row;

// A row whose template set is loaded. Decoders that borrow the set are closed before it.
typedef struct feed {
    guint transport;
    range_t *ports;
    gboolean reset;
    fast_set *set;
    fast_decoder *decoder;    // where each packet resets the dictionary
    int *field_of_node;       // the registered field of each node
    guint skip;               // the bytes of the preamble
    guint sequence_size;      // of these the first are a sequence number, if it is not 0
    gboolean sequence_is_le;  // whether it is little-endian
} feed;

// Incremented at each load: marks of an earlier generation have node numbers of other sets.
extern guint feed_generation;

void register_feeds(dissector_handle_t udp, dissector_handle_t tcp);

// Returns the feed of a packet by its destination port, else by its source port; NULL where the table has none.
feed *feed_of_packet(const packet_info *pinfo, guint transport);

// The limits of decoders: preferences.
extern fast_limits feed_limits;

// Called before sets are closed: closes every decoder that borrows one.
void close_flows(void);

// ---- fields.c

extern int proto_fast;

// Registers the fields of the nodes of all feeds, after those of the last load are deregistered. `tags` has for each feed the FIX tags of its
// nodes, where there are any.
void register_nodes(feed *feeds, guint count, char ***tags);

// Returns the name of a template or node, allocated with g_malloc.
char *name_of_template(fast_set *set, uint32_t number);
char *name_of_node(fast_set *set, uint32_t number);

// ---- marks.c

// The kinds of marks after those of fast_kind.
enum {
    MARK_MAP = 100,  // a presence map
    MARK_ID,         // a template identifier; node: the template
    MARK_ABSENT,     // the null of a node
    MARK_FAULT,      // value: the status; node: the instruction, or FAST_NONE; exponent: its offset in the messages
    MARK_REST        // bytes that are not decoded
};

// Something in a packet, with the bytes that it has there. What is derived from constants and previous values has none.
typedef struct mark {
    uint32_t kind, node;
    uint32_t start, length;
    uint64_t value;
    int32_t exponent;
    uint32_t text_length;
    const char *text;
} mark;

// A decoder for one direction of a conversation, with the message that a TCP stream has begun.
typedef struct flow {
    const feed *of;
    fast_decoder *decoder;
    gboolean has_begun;   // TCP: whether `next` is known
    uint32_t next;        // TCP: the sequence number of the next byte to feed
    uint32_t fed;         // TCP: the number of bytes of the incomplete message that are fed
    uint32_t unit;        // TCP: the number of these that belong to an incomplete field or presence map
    gboolean has_map;     // TCP: whether these have the presence map of a message whose identifier is incomplete
    wmem_array_t *begun;  // TCP: the marks of that message, from its first byte
} flow;

// The marks of the messages in bytes[first .. end - 1], which are fed from `at` on. An incomplete message starts at `open`, else `open` is `end`;
// its incomplete field or presence map at `unit`.
typedef struct marking {
    wmem_allocator_t *scope;
    wmem_array_t *marks;
    const guint8 *bytes;
    guint first, at, unit, end, open;
    gboolean has_map;    // whether the presence map of the first message is complete in an earlier piece
    guint open_marks;    // the number of marks before those of the incomplete message
    gboolean is_faulty;  // a fault was found: the decoder has to be reset
} marking;

void mark_messages(marking *it, fast_decoder *decoder);
void mark_fault(marking *it, uint32_t status, uint32_t node, guint from);

// ---- tree.c

void register_tree(void);

// Shows the protocol and returns its tree.
proto_tree *show_protocol(tvbuff_t *tvb, packet_info *pinfo, proto_tree *tree);
void show_preamble(const feed *of, tvbuff_t *tvb, proto_tree *tree);

// Shows the first `count` marks.
void show_marks(const feed *of, wmem_array_t *marks, guint count, tvbuff_t *tvb, packet_info *pinfo, proto_tree *tree);

// Shows a fault of the packet itself.
void show_note(tvbuff_t *tvb, packet_info *pinfo, proto_tree *tree, const char *note);

#endif
