// Queries of a template set, and of what a decoder waits for. Part of fast.h, which includes it: programs include fast.h.
//
// Templates and nodes are numbered from 0. Nodes are the instructions of all templates, with references resolved, in preorder. No query
// allocates or changes anything. A query that finds nothing returns FAST_NONE, or 0 where it returns a count or whether it wrote something.
#ifndef FAST_QUERIES_H
#define FAST_QUERIES_H

#include <string.h>

#ifdef __cplusplus
extern "C" {
#endif

// No template, node or dictionary entry has this number.
#define FAST_NONE UINT32_C(0xffffffff)

// The types of nodes (FAST 1.1, Template Definition, Primitive Field Types and Instructions).
enum fast_type {
    FAST_TYPE_UINT32 = 1, FAST_TYPE_INT32, FAST_TYPE_UINT64, FAST_TYPE_INT64, FAST_TYPE_DECIMAL, FAST_TYPE_ASCII, FAST_TYPE_UNICODE,
    FAST_TYPE_BYTES,
    FAST_TYPE_DECIMAL_PARTS,  // a decimal whose exponent and mantissa have an operator each
    FAST_TYPE_GROUP, FAST_TYPE_SEQUENCE
};

// The field operators (FAST 1.1, Template Definition, Field Operators).
enum fast_operator {
    FAST_OP_NONE = 0, FAST_OP_CONSTANT, FAST_OP_DEFAULT, FAST_OP_COPY, FAST_OP_INCREMENT, FAST_OP_DELTA, FAST_OP_TAIL
};

typedef struct fast_template_info {
    uint32_t has_id;  // 1 if messages of the template can be sent: they have the identifier `id`
    uint32_t id;      // the template identifier, else 0
    uint32_t reset;   // 1 if a message of the template resets the dictionary
} fast_template_info;

typedef struct fast_node_info {
    uint32_t type;         // one of fast_type
    uint32_t optional;     // 1 if it may be absent
    uint32_t op;           // one of fast_operator: of a sequence its length's, of a decimal in parts its exponent's, of a group FAST_OP_NONE
    uint32_t entry;        // the dictionary entry of that operator, or FAST_NONE
    uint32_t mantissa_op;  // of a decimal in parts, else FAST_OP_NONE
    uint32_t mantissa_entry;  // of a decimal in parts, else FAST_NONE
} fast_node_info;

// The part of a stream that a decoder waits for.
enum fast_awaited {
    FAST_AWAITS_MESSAGE = 0,  // the presence map or the identifier of a message, or the end of a group or an element
    FAST_AWAITS_MAP = 1,      // the presence map of the group or the element that has begun
    FAST_AWAITS_NODE = 2      // the instruction of `node`
};

typedef struct fast_due {
    uint32_t what;  // one of fast_awaited
    uint32_t node;  // at FAST_AWAITS_NODE, else 0
} fast_due;

FAST_ASSERT(sizeof(fast_template_info) == 12 && sizeof(fast_node_info) == 24 && sizeof(fast_due) == 8, "the sizes of what queries write");
FAST_ASSERT(offsetof(fast_node_info, op) == 8 && offsetof(fast_node_info, mantissa_op) == 16, "the fields of a node");
FAST_ASSERT(FAST_TYPE_BYTES == 8 && FAST_TYPE_SEQUENCE == 11 && FAST_OP_TAIL == 6, "the numbers of types and operators");

// ---- the library's functions. Programs call those below, which check for null pointers first.

uint32_t fast_set_entries(fast_set_handle set);
uint32_t fast_set_depth(fast_set_handle set);
uint64_t fast_set_cap(fast_set_handle set, uint32_t max_elements, uint32_t max_total);
uint32_t fast_template_by_id(fast_set_handle set, uint32_t id);
uint32_t fast_template_by_name(fast_set_handle set, const uint8_t *name, size_t name_len);
uint32_t fast_template_describe(fast_set_handle set, uint32_t number, fast_template_info *out);
uint32_t fast_node_describe(fast_set_handle set, uint32_t number, fast_node_info *out);
size_t fast_template_body(fast_set_handle set, uint32_t number, uint32_t *out, size_t out_len);
size_t fast_node_body(fast_set_handle set, uint32_t number, uint32_t *out, size_t out_len);
uint32_t fast_template_child(fast_set_handle set, uint32_t number, const uint8_t *name, size_t name_len);
uint32_t fast_node_child(fast_set_handle set, uint32_t number, const uint8_t *name, size_t name_len);
uint32_t fast_node_parent(fast_set_handle set, uint32_t number);
uint32_t fast_node_template(fast_set_handle set, uint32_t number);
void fast_decoder_due(fast_decoder_handle decoder, fast_due *due);

// ---- what programs call

// Returns the number of dictionary entries. Entry 0 is the template identifier's. 0 where there is no set.
static inline uint32_t fast_count_entries(fast_set *set) {
    fast_set_handle handle = {set};
    return set ? fast_set_entries(handle) : 0;
}

// Returns how deep groups and sequences nest: 0 for a set without any.
static inline uint32_t fast_nesting_depth(fast_set *set) {
    fast_set_handle handle = {set};
    return set ? fast_set_depth(handle) : 0;
}

// Returns the greatest number of events that a message can have under these limits, at most 2^64 - 1.
static inline uint64_t fast_message_cap(fast_set *set, fast_limits limits) {
    fast_set_handle handle = {set};
    return set ? fast_set_cap(handle, limits.max_elements, limits.max_total) : 0;
}

// Returns the template with an identifier, or with a name that ends in a zero; FAST_NONE where the set has none.
static inline uint32_t fast_find_template_id(fast_set *set, uint32_t id) {
    fast_set_handle handle = {set};
    return set ? fast_template_by_id(handle, id) : FAST_NONE;
}
static inline uint32_t fast_find_template(fast_set *set, const char *name) {
    fast_set_handle handle = {set};
    return set && name ? fast_template_by_name(handle, (const uint8_t *)name, strlen(name)) : FAST_NONE;
}

// Describes a template or a node. Returns 1; 0 where there is none of the number, no set or no `out`, and then *out is as it was.
static inline uint32_t fast_describe_template(fast_set *set, uint32_t number, fast_template_info *out) {
    fast_set_handle handle = {set};
    return set && out ? fast_template_describe(handle, number, out) : 0;
}
static inline uint32_t fast_describe_node(fast_set *set, uint32_t number, fast_node_info *out) {
    fast_set_handle handle = {set};
    return set && out ? fast_node_describe(handle, number, out) : 0;
}

// Writes the nodes directly in a template, or in a group or an element of a sequence, in order, as many as there is room for. Returns how
// many there are: 0 for a field.
static inline size_t fast_body_of_template(fast_set *set, uint32_t number, uint32_t *out, size_t out_len) {
    fast_set_handle handle = {set};
    return set ? fast_template_body(handle, number, out ? out : (uint32_t *)&fast_nothing, out ? out_len : 0) : 0;
}
static inline size_t fast_body_of_node(fast_set *set, uint32_t number, uint32_t *out, size_t out_len) {
    fast_set_handle handle = {set};
    return set ? fast_node_body(handle, number, out ? out : (uint32_t *)&fast_nothing, out ? out_len : 0) : 0;
}

// Returns the group or sequence that a node is directly in; FAST_NONE where it is in none. Looks through the set: not for each event.
static inline uint32_t fast_parent_of_node(fast_set *set, uint32_t number) {
    fast_set_handle handle = {set};
    return set ? fast_node_parent(handle, number) : FAST_NONE;
}

// Returns the template that a node belongs to, at whatever depth. Looks through the set: not for each event.
static inline uint32_t fast_template_of_node(fast_set *set, uint32_t number) {
    fast_set_handle handle = {set};
    uint32_t outer;
    if (!set) return FAST_NONE;
    while ((outer = fast_node_parent(handle, number)) != FAST_NONE) number = outer;
    return fast_node_template(handle, number);
}

// Returns the node at a path below another node, or below a template where `node` is FAST_NONE.
static inline uint32_t fast_find_below(fast_set_handle set, uint32_t number, uint32_t node, const char *path, size_t path_len) {
    for (size_t cut = path_len; cut > 0; cut--) {
        const uint8_t *name = (const uint8_t *)path;
        uint32_t found;
        if (cut < path_len && path[cut] != '.') continue;
        found = node == FAST_NONE ? fast_template_child(set, number, name, cut) : fast_node_child(set, node, name, cut);
        if (found != FAST_NONE && cut < path_len) found = fast_find_below(set, number, found, path + cut + 1, path_len - cut - 1);
        if (found != FAST_NONE) return found;
    }
    return FAST_NONE;
}

// Returns the node at a path in a template, names with points between them, such as "MDEntries.MDEntryPx": of nodes with one name the first.
// Where a name has points itself, the longest name comes first. FAST_NONE where there is none.
static inline uint32_t fast_find_node(fast_set *set, uint32_t number, const char *path) {
    fast_set_handle handle = {set};
    return set && path ? fast_find_below(handle, number, FAST_NONE, path, strlen(path)) : FAST_NONE;
}

// Returns what a decoder waits for; at a fault, the instruction at which it has stopped: after a presence map at fault (R7, R8, L3) the first
// one of its segment, after a sequence that is too long (L2, L5) the one after it. FAST_AWAITS_MESSAGE where there is no decoder.
static inline fast_due fast_in_hand(fast_decoder *decoder) {
    fast_decoder_handle handle = {decoder};
    fast_due due = {FAST_AWAITS_MESSAGE, 0};
    if (decoder) fast_decoder_due(handle, &due);
    return due;
}

#ifdef __cplusplus
}
#endif
#endif
