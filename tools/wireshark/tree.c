// Shows the marks of a packet as a tree.
#include "fast_plugin.h"

enum { DEEPEST = 256 };

static int hf_preamble = -1, hf_sequence = -1, hf_message = -1, hf_id = -1, hf_map = -1, hf_element = -1, hf_absent = -1, hf_fault = -1,
    hf_rest = -1, hf_length = -1;
static gint ett_fast = -1, ett_message = -1, ett_part = -1;

// The trees that are open, from the protocol's on, with their items, and the number of elements of each so far.
typedef struct shown {
    const feed *of;
    tvbuff_t *tvb;
    packet_info *pinfo;
    proto_tree *trees[DEEPEST];
    proto_item *items[DEEPEST];
    guint64 elements[DEEPEST];
    guint depth;
} shown;

// Makes an item the parent of the marks that follow.
static void go_into(shown *it, proto_item *item, gint ett) {
    if (it->depth + 1 == DEEPEST) return;
    it->depth++;
    it->items[it->depth] = item;
    it->trees[it->depth] = proto_item_add_subtree(item, ett);
    it->elements[it->depth] = 0;
}

// Ends the innermost tree. An end without a start belongs to a message that begins in an earlier packet.
static void go_out(shown *it, const mark *m) {
    if (it->depth == 0) return;
    proto_item_set_end(it->items[it->depth], it->tvb, (gint)m->start);
    it->depth--;
}

// Ends all trees, in front of a byte.
static void end_all(shown *it, guint end) {
    for (; it->depth; it->depth--) proto_item_set_end(it->items[it->depth], it->tvb, (gint)end);
}

static void show_message(shown *it, const mark *m) {
    char *name = name_of_template(it->of->set, m->node);
    proto_item *item = proto_tree_add_string(it->trees[0], hf_message, it->tvb, m->start, m->length, name);
    col_append_sep_str(it->pinfo->cinfo, COL_INFO, ", ", name);
    it->depth = 0;
    go_into(it, item, ett_message);
    g_free(name);
}

static void show_id(shown *it, const mark *m) {
    fast_template_info info = {0};
    fast_describe_template(it->of->set, m->node, &info);
    proto_tree_add_uint(it->trees[it->depth], hf_id, it->tvb, m->start, m->length, info.id);
}

// Adds a string. A zero, at which a string of Wireshark would end, is written as \x00.
static void show_string(shown *it, proto_tree *tree, int hf, const mark *m) {
    wmem_strbuf_t *text = wmem_strbuf_new(it->pinfo->pool, NULL);
    for (uint32_t i = 0; i < m->text_length; i++) {
        if (m->text[i]) wmem_strbuf_append_c(text, m->text[i]);
        else wmem_strbuf_append(text, "\\x00");
    }
    proto_tree_add_string(tree, hf, it->tvb, m->start, m->length, wmem_strbuf_get_str(text));
}

// Adds a decimal as the nearest double, with its mantissa and exponent beside.
static void show_decimal(shown *it, proto_tree *tree, int hf, const mark *m) {
    char *exact = wmem_strdup_printf(it->pinfo->pool, "%" PRId64 "e%d", (int64_t)m->value, m->exponent);
    double value = g_ascii_strtod(exact, NULL);
    proto_tree_add_double_format_value(tree, hf, it->tvb, m->start, m->length, value, "%.15g (%s)", value, exact);
}

// Adds a sequence, and the length within it, which has the bytes.
static void show_sequence(shown *it, proto_tree *tree, int hf, const mark *m) {
    go_into(it, proto_tree_add_uint64(tree, hf, it->tvb, m->start, m->length, m->value), ett_part);
    proto_tree_add_uint64(it->trees[it->depth], hf_length, it->tvb, m->start, m->length, m->value);
}

static void show_field(shown *it, const mark *m) {
    proto_tree *tree = it->trees[it->depth];
    int hf = it->of->field_of_node[m->node];
    switch (m->kind) {
    case FAST_UNSIGNED: proto_tree_add_uint64(tree, hf, it->tvb, m->start, m->length, m->value); break;
    case FAST_SIGNED: proto_tree_add_int64(tree, hf, it->tvb, m->start, m->length, (gint64)m->value); break;
    case FAST_DECIMAL: show_decimal(it, tree, hf, m); break;
    case FAST_BYTES:
        proto_tree_add_bytes_with_length(tree, hf, it->tvb, m->start, m->length, (const guint8 *)m->text, (gint)m->text_length);
        break;
    case FAST_GROUP_START: go_into(it, proto_tree_add_item(tree, hf, it->tvb, m->start, m->length, ENC_NA), ett_part); break;
    case FAST_SEQUENCE_START: show_sequence(it, tree, hf, m); break;
    default: show_string(it, tree, hf, m);
    }
}

static void show_absent(shown *it, const mark *m) {
    char *name = name_of_node(it->of->set, m->node);
    proto_tree_add_string(it->trees[it->depth], hf_absent, it->tvb, m->start, m->length, name);
    g_free(name);
}

void show_note(tvbuff_t *tvb, packet_info *pinfo, proto_tree *tree, const char *note) {
    proto_tree_add_string(tree, hf_fault, tvb, 0, 0, note);
    col_append_sep_fstr(pinfo->cinfo, COL_INFO, ", ", "[%s]", note);
}

// Adds a fault, which ends the message: the sentence of its status, its offset in the messages, and the field where it is known.
static void show_fault(shown *it, const mark *m) {
    uint8_t words[256];
    size_t length = MIN(fast_status_words((uint32_t)m->value, words, sizeof words), sizeof words);
    char *name = m->node == FAST_NONE ? NULL : name_of_node(it->of->set, m->node);
    const char *sentence = wmem_strndup(it->pinfo->pool, (char *)words, length);
    proto_tree_add_string_format_value(it->trees[it->depth], hf_fault, it->tvb, m->start, m->length, sentence, "%s; at byte %d%s%s", sentence,
        m->exponent, name ? ", " : "", name ? name : "");
    if (m->value == FAST_TRUNCATED) col_append_sep_str(it->pinfo->cinfo, COL_INFO, ", ", "[truncated]");
    else col_append_sep_fstr(it->pinfo->cinfo, COL_INFO, ", ", strcspn(sentence, ":") == 2 ? "[fault %.2s]" : "[fault]", sentence);
    end_all(it, m->start + m->length);
    g_free(name);
}

static void show_mark(shown *it, const mark *m) {
    proto_tree *tree = it->trees[it->depth];
    switch (m->kind) {
    case FAST_MESSAGE_START: show_message(it, m); break;
    case MARK_MAP: proto_tree_add_item(tree, hf_map, it->tvb, m->start, m->length, ENC_NA); break;
    case MARK_ID: show_id(it, m); break;
    case MARK_ABSENT: show_absent(it, m); break;
    case MARK_FAULT: show_fault(it, m); break;
    case MARK_REST: proto_tree_add_item(tree, hf_rest, it->tvb, m->start, m->length, ENC_NA); break;
    case FAST_ELEMENT_START:
        go_into(it, proto_tree_add_uint64(tree, hf_element, it->tvb, m->start, m->length, ++it->elements[it->depth]), ett_part);
        break;
    case FAST_GROUP_END: case FAST_ELEMENT_END: case FAST_SEQUENCE_END: case FAST_MESSAGE_END: go_out(it, m); break;
    default: show_field(it, m);
    }
}

proto_tree *show_protocol(tvbuff_t *tvb, packet_info *pinfo, proto_tree *tree) {
    col_set_str(pinfo->cinfo, COL_PROTOCOL, "FAST");
    col_clear(pinfo->cinfo, COL_INFO);
    return proto_item_add_subtree(proto_tree_add_item(tree, proto_fast, tvb, 0, -1, ENC_NA), ett_fast);
}

// Adds the sequence number of a packet, and the bytes of the preamble after it.
void show_preamble(const feed *of, tvbuff_t *tvb, proto_tree *tree) {
    gint size = (gint)of->sequence_size, left = (gint)of->skip - size;
    if (size) proto_tree_add_item(tree, hf_sequence, tvb, 0, size, of->sequence_is_le ? ENC_LITTLE_ENDIAN : ENC_BIG_ENDIAN);
    if (left > 0) proto_tree_add_item(tree, hf_preamble, tvb, size, left, ENC_NA);
}

void show_marks(const feed *of, wmem_array_t *marks, guint count, tvbuff_t *tvb, packet_info *pinfo, proto_tree *tree) {
    shown it = {.of = of, .tvb = tvb, .pinfo = pinfo, .trees = {tree}};
    for (guint i = 0; i < count; i++) show_mark(&it, wmem_array_index(marks, i));
    end_all(&it, tvb_captured_length(tvb));
}

void register_tree(void) {
    static hf_register_info fields[] = {
        {&hf_preamble, {"Preamble", "fast.preamble", FT_BYTES, BASE_NONE, NULL, 0, NULL, HFILL}},
        {&hf_sequence, {"Sequence number", "fast.packet_sequence", FT_UINT64, BASE_DEC, NULL, 0, NULL, HFILL}},
        {&hf_message, {"Message", "fast.message", FT_STRING, BASE_NONE, NULL, 0, NULL, HFILL}},
        {&hf_id, {"Template identifier", "fast.template_id", FT_UINT32, BASE_DEC, NULL, 0, NULL, HFILL}},
        {&hf_map, {"Presence map", "fast.map", FT_BYTES, BASE_NONE, NULL, 0, NULL, HFILL}},
        {&hf_length, {"Length", "fast.length", FT_UINT64, BASE_DEC, NULL, 0, NULL, HFILL}},
        {&hf_element, {"Element", "fast.element", FT_UINT64, BASE_DEC, NULL, 0, NULL, HFILL}},
        {&hf_absent, {"Absent", "fast.absent", FT_STRING, BASE_NONE, NULL, 0, "A field that is sent as null", HFILL}},
        {&hf_fault, {"Fault", "fast.fault", FT_STRING, BASE_NONE, NULL, 0, NULL, HFILL}},
        {&hf_rest, {"Not decoded", "fast.rest", FT_BYTES, BASE_NONE, NULL, 0, "The bytes after a fault", HFILL}},
    };
    static gint *trees[] = {&ett_fast, &ett_message, &ett_part};
    proto_register_field_array(proto_fast, fields, array_length(fields));
    proto_register_subtree_array(trees, array_length(trees));
}
