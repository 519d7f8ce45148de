// FAST 1.1 over UDP and TCP for Wireshark 4. The table "Feeds" of the preferences has the ports and template files (docs/FEEDS.md).
//
// Where each packet resets the dictionary, a packet is decoded whenever it is shown. Where the dictionary persists, packets are decoded in
// the order of the capture, once, by a decoder for each direction of a conversation; their marks are kept with the frame.
#define WS_BUILD_DLL
#include "fast_plugin.h"
#include <epan/conversation.h>
#include <epan/dissectors/packet-tcp.h>
#include <epan/proto_data.h>
#include <ws_version.h>

WS_DLL_PUBLIC_DEF const gchar plugin_version[] = "1.0.0";
WS_DLL_PUBLIC_DEF const int plugin_want_major = WIRESHARK_VERSION_MAJOR;
WS_DLL_PUBLIC_DEF const int plugin_want_minor = WIRESHARK_VERSION_MINOR;
WS_DLL_PUBLIC void plugin_register(void);

static dissector_handle_t udp_handle, tcp_handle;

// The two directions of a conversation.
typedef struct talk {
    guint generation;
    flow ways[2];
} talk;

// The marks of a packet that is decoded once; and where in it, after how many marks, a message of a TCP stream is incomplete.
typedef struct kept {
    const feed *of;
    guint generation;
    wmem_array_t *marks;
    gboolean is_open;
    guint open, open_marks;
} kept;

// The decoders that are open, as places of pointers.
static GPtrArray *opened;

void close_flows(void) {
    for (guint i = 0; opened && i < opened->len; i++) fast_close_decoder(g_ptr_array_index(opened, i));
    if (opened) g_ptr_array_set_size(opened, 0);
}

// Returns the flow of a packet's direction, with a decoder.
static flow *flow_of(const feed *of, packet_info *pinfo) {
    conversation_t *conversation = find_or_create_conversation(pinfo);
    talk *both = conversation_get_proto_data(conversation, proto_fast);
    if (!both || both->generation != feed_generation) {
        both = wmem_new0(wmem_file_scope(), talk);
        both->generation = feed_generation;
        conversation_add_proto_data(conversation, proto_fast, both);
    }
    const conversation_element_t *key = conversation->key_ptr;
    gboolean is_first = addresses_equal(&pinfo->src, conversation_key_addr1(key)) && pinfo->srcport == conversation_key_port1(key);
    flow *way = &both->ways[is_first ? 0 : 1];
    if (way->of != of) fast_close_decoder(&way->decoder);
    way->of = of;
    if (!way->decoder && fast_open_decoder(of->set, feed_limits, &way->decoder) == FAST_DONE) {
        if (!opened) opened = g_ptr_array_new();
        g_ptr_array_add(opened, &way->decoder);
    }
    return way;
}

// Decodes the messages of one packet. One that ends inside a message is a fault.
static void mark_packet(marking *it, fast_decoder *decoder) {
    mark_messages(it, decoder);
    if (it->open < it->end) {
        fast_due due = fast_in_hand(decoder);
        mark_fault(it, FAST_TRUNCATED, due.what == FAST_AWAITS_NODE ? due.node : FAST_NONE, it->unit);
        it->is_faulty = TRUE;
    }
    if (it->is_faulty) fast_reset_decoder(decoder);
}

static marking marking_of(tvbuff_t *tvb, wmem_allocator_t *scope, guint first) {
    guint end = tvb_captured_length(tvb);
    marking it = {.scope = scope, .first = first, .at = first, .unit = first, .end = end, .open = first};
    it.bytes = tvb_get_ptr(tvb, 0, (gint)end);
    it.marks = wmem_array_new(scope, sizeof(mark));
    return it;
}

// Returns the marks of a feed kept with a frame under a number; NULL where there are none.
static kept *kept_of(const feed *of, packet_info *pinfo, guint32 number) {
    kept *it = p_get_proto_data(wmem_file_scope(), pinfo, proto_fast, number);
    return it && it->generation == feed_generation && it->of == of ? it : NULL;
}

static kept *keep(const feed *of, packet_info *pinfo, guint32 number, wmem_array_t *marks) {
    kept *it = wmem_new(wmem_file_scope(), kept);
    *it = (kept){.of = of, .generation = feed_generation, .marks = marks};
    p_remove_proto_data(wmem_file_scope(), pinfo, proto_fast, number);
    p_add_proto_data(wmem_file_scope(), pinfo, proto_fast, number, it);
    return it;
}

// Returns the marks of a datagram.
static wmem_array_t *datagram(feed *of, tvbuff_t *tvb, packet_info *pinfo) {
    if (of->reset) {
        marking it = marking_of(tvb, pinfo->pool, of->skip);
        fast_reset_decoder(of->decoder);
        mark_packet(&it, of->decoder);
        return it.marks;
    }
    kept *before = kept_of(of, pinfo, pinfo->curr_layer_num);
    if (before) return before->marks;
    marking it = marking_of(tvb, wmem_file_scope(), of->skip);
    mark_packet(&it, flow_of(of, pinfo)->decoder);
    return keep(of, pinfo, pinfo->curr_layer_num, it.marks)->marks;
}

static void show_packet(feed *of, tvbuff_t *tvb, packet_info *pinfo, proto_tree *shown) {
    wmem_array_t *marks = datagram(of, tvb, pinfo);
    show_marks(of, marks, wmem_array_get_count(marks), tvb, pinfo, shown);
}

static int dissect_udp(tvbuff_t *tvb, packet_info *pinfo, proto_tree *tree, void *data _U_) {
    feed *of = feed_of_packet(pinfo, TRANSPORT_UDP);
    guint length = tvb_captured_length(tvb), sent = tvb_reported_length(tvb);
    if (!of) return 0;
    proto_tree *shown = show_protocol(tvb, pinfo, tree);
    if (length < of->skip) {
        show_note(tvb, pinfo, shown, wmem_strdup_printf(pinfo->pool, "damaged preamble %u of %u", length, of->skip));
        return (int)length;
    }
    show_preamble(of, tvb, shown);
    show_packet(of, tvb, pinfo, shown);
    if (length < sent) show_note(tvb, pinfo, shown, wmem_strdup_printf(pinfo->pool, "cut %u of %u", length, sent));
    return (int)length;
}

// Resets a flow, for the byte with a sequence number.
static void start_over(flow *way, uint32_t next) {
    fast_reset_decoder(way->decoder);
    way->has_begun = TRUE;
    way->next = next;
    way->fed = 0;
    way->begun = NULL;
    way->has_map = FALSE;
}

// Returns whether all bytes of a piece are fed already: it is sent again.
static gboolean is_again(const flow *way, uint32_t first, guint length) {
    uint32_t fed = way->next - first;
    return way->has_begun && fed <= G_MAXINT32 && fed >= length;
}

// Brings a flow to the first byte of a piece of its stream. Returns the number of bytes of the piece that are fed already: those of the message
// with which it begins, the marks of which are appended; or the start of a segment that is sent again. After a gap the flow starts over.
static guint resume(flow *way, marking *it, uint32_t first) {
    uint32_t fed = way->next - first;
    if (!way->has_begun || fed > G_MAXINT32) {
        start_over(way, first);
        return 0;
    }
    if (way->begun && fed == way->fed) {
        wmem_array_append(it->marks, wmem_array_get_raw(way->begun), wmem_array_get_count(way->begun));
        it->unit = fed - way->unit;
        return fed;
    }
    it->has_map = way->has_map;
    return it->unit = fed;
}

// Keeps the marks of the message that is incomplete at the end of a piece, as from its first byte.
static void suspend(flow *way, const marking *it) {
    guint count = wmem_array_get_count(it->marks);
    way->fed = it->end - it->open;
    way->unit = it->end - it->unit;
    way->has_map = it->has_map;
    way->begun = wmem_array_new(wmem_file_scope(), sizeof(mark));
    for (guint i = it->open_marks; i < count; i++) {
        mark m = *(mark *)wmem_array_index(it->marks, i);
        m.start -= MIN(m.start, it->open);
        wmem_array_append_one(way->begun, m);
    }
}

// Decodes a piece of a TCP stream, which continues the pieces before it.
static kept *piece_of_stream(const feed *of, tvbuff_t *tvb, packet_info *pinfo, uint32_t first) {
    flow *way = flow_of(of, pinfo);
    marking it = marking_of(tvb, wmem_file_scope(), 0);
    if (is_again(way, first, it.end)) return keep(of, pinfo, first, it.marks);
    it.at = resume(way, &it, first);
    mark_messages(&it, way->decoder);
    kept *result = keep(of, pinfo, first, it.marks);
    way->next = first + it.end;
    way->fed = 0;
    way->begun = NULL;
    way->has_map = FALSE;
    if (it.is_faulty) fast_reset_decoder(way->decoder);
    if (it.open < it.end) {
        result->is_open = TRUE;
        result->open = it.open;
        result->open_marks = it.open_marks;
        suspend(way, &it);
    }
    return result;
}

// Shows a piece of a TCP stream. A message that is incomplete at its end is left for the piece with the rest, if TCP joins them.
static void show_piece(const feed *of, const kept *it, tvbuff_t *tvb, packet_info *pinfo, proto_tree *tree) {
    gboolean is_left = it->is_open && pinfo->can_desegment > 0;
    guint count = is_left ? it->open_marks : wmem_array_get_count(it->marks);
    if (is_left) {
        pinfo->desegment_offset = (int)it->open;
        pinfo->desegment_len = DESEGMENT_ONE_MORE_SEGMENT;
    }
    if (count == 0) return;
    proto_tree *shown = show_protocol(tvb, pinfo, tree);
    if (is_left) proto_item_set_len(proto_tree_get_parent(shown), (gint)it->open);
    show_marks(of, it->marks, count, tvb, pinfo, shown);
}

static int dissect_tcp(tvbuff_t *tvb, packet_info *pinfo, proto_tree *tree, void *data) {
    const struct tcpinfo *info = data;
    feed *of = feed_of_packet(pinfo, TRANSPORT_TCP);
    if (!of || !info) return 0;
    if (of->reset) {
        show_packet(of, tvb, pinfo, show_protocol(tvb, pinfo, tree));
    } else {
        kept *it = kept_of(of, pinfo, info->seq);
        if (!it) it = piece_of_stream(of, tvb, pinfo, info->seq);
        show_piece(of, it, tvb, pinfo, tree);
    }
    return (int)tvb_captured_length(tvb);
}

static void proto_register_fast(void) {
    proto_fast = proto_register_protocol("FIX Adapted for Streaming 1.1", "FAST", "fast");
    register_tree();
    udp_handle = register_dissector("fast.udp", dissect_udp, proto_fast);
    tcp_handle = register_dissector("fast.tcp", dissect_tcp, proto_fast);
    register_feeds(udp_handle, tcp_handle);
    register_cleanup_routine(close_flows);
}

void plugin_register(void) {
    static proto_plugin it;
    it.register_protoinfo = proto_register_fast;
    proto_register_plugin(&it);
}
