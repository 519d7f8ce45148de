// queries FILE: writes what a template set answers to each query, a line each. The other faces write the same lines.
#include <fast.h>
#include <stdbool.h>
#include <stdio.h>

static fast_set *set;

static int wrong;

static void expect(bool is, const char *words) {
    if (is) return;
    wrong = 1;
    fprintf(stderr, "calls: queries.c: %s\n", words);
}

static void number(const char *name, uint32_t it) {
    if (it == FAST_NONE) printf(" %s -", name);
    else printf(" %s %u", name, it);
}

static void body(size_t (*body_of)(fast_set *, uint32_t, uint32_t *, size_t), uint32_t at) {
    uint32_t nodes[64];
    size_t count = body_of(set, at, nodes, 64);
    printf(" body");
    for (size_t i = 0; i < count; i++) printf(" %u", nodes[i]);
    puts("");
}

static void templates(void) {
    for (uint32_t at = 0; at <= fast_count_templates(set); at++) {
        fast_template_info it = {9, 9, 9};
        uint32_t found = fast_describe_template(set, at, &it);
        printf("template %u: %u id %u %u reset %u", at, found, it.has_id, it.id, it.reset);
        body(fast_body_of_template, at);
    }
}

static void nodes(void) {
    for (uint32_t at = 0; at <= fast_count_nodes(set); at++) {
        fast_node_info it = {9, 9, 9, 9, 9, 9};
        uint32_t found = fast_describe_node(set, at, &it);
        printf("node %u: %u type %u optional %u op %u", at, found, it.type, it.optional, it.op);
        number("entry", it.entry);
        printf(" mantissa %u", it.mantissa_op);
        number("entry", it.mantissa_entry);
        number("parent", fast_parent_of_node(set, at));
        number("template", fast_template_of_node(set, at));
        body(fast_body_of_node, at);
    }
}

static void find(void) {
    static const char *const names[] = {"All", "Nested.One", "Part", "", "al", "All.a", "\xff"};
    static const char *const paths[] = {"a", "e", "i", "", ".", "x", "x.s", "x.s.t", "x.y.z", "x.s.y", "x.s.y.z", "x.s.y.z.z", "x.", ".x", "x..s", "n", "x-y.z"};
    for (size_t i = 0; i < sizeof names / sizeof *names; i++) number(names[i][0] == '\xff' ? "?" : names[i], fast_find_template(set, names[i]));
    for (uint32_t id = 0; id < 9; id += 7) number("id", fast_find_template_id(set, id));
    number("id", fast_find_template_id(set, 1));
    puts("");
    for (uint32_t at = 0; at < 4; at++) {
        printf("in %u:", at);
        for (size_t i = 0; i < sizeof paths / sizeof *paths; i++) number(paths[i], fast_find_node(set, at, paths[i]));
        puts("");
    }
}

static void due(void) {
    static const uint8_t stream[] = {0xe0, 0x80, 0xc0, 0x81, 0x82, 0xc0, 0x81, 0x81, 0x80, 0x80, 0x80, 0xc0, 0x87, 0x80};
    fast_decoder *decoder = NULL;
    fast_record records[64];
    uint8_t texts[1024];
    fast_open_decoder(set, fast_default_limits, &decoder);
    for (size_t i = 0; i <= sizeof stream; i++) {
        fast_due it = fast_in_hand(decoder);
        printf("after %zu: %u %u\n", i, it.what, it.node);
        expect(it.what == (i == 2 ? FAST_AWAITS_MAP : i == 3 ? FAST_AWAITS_NODE : FAST_AWAITS_MESSAGE) || i > 3, "what a decoder waits for");
        if (i < sizeof stream) fast_feed(decoder, stream + i, 1, records, 64, texts, sizeof texts);
    }
    fast_close_decoder(&decoder);
}

// The numbers of the types and the operators.
static void kinds(void) {
    static const uint32_t types[] = {FAST_TYPE_UINT32, FAST_TYPE_INT32, FAST_TYPE_UINT64, FAST_TYPE_INT64, FAST_TYPE_DECIMAL, FAST_TYPE_DECIMAL_PARTS,
                                     FAST_TYPE_ASCII, FAST_TYPE_UNICODE, FAST_TYPE_BYTES, FAST_TYPE_GROUP, FAST_TYPE_UINT32, FAST_TYPE_SEQUENCE};
    static const uint32_t ops[] = {FAST_OP_COPY, FAST_OP_INCREMENT, FAST_OP_CONSTANT, FAST_OP_DELTA, FAST_OP_DEFAULT, FAST_OP_COPY,
                                   FAST_OP_TAIL, FAST_OP_NONE, FAST_OP_NONE, FAST_OP_NONE, FAST_OP_NONE, FAST_OP_COPY};
    for (uint32_t at = 0; at < 12; at++) {
        fast_node_info it;
        expect(fast_describe_node(set, at, &it) && it.type == types[at] && it.op == ops[at], "the type and the operator of a node");
    }
}

// Queries without a set, a decoder, a name or a place for what they write.
static void nothing(void) {
    fast_template_info template_info = {9, 9, 9};
    fast_node_info node_info = {9, 9, 9, 9, 9, 9};
    fast_due due = fast_in_hand(NULL);
    uint32_t nodes[2] = {99, 99};
    expect(!fast_describe_template(NULL, 0, &template_info) && template_info.id == 9, "a template of no set");
    expect(!fast_describe_node(NULL, 0, &node_info) && node_info.type == 9, "a node of no set");
    expect(!fast_count_entries(NULL) && !fast_nesting_depth(NULL) && !fast_message_cap(NULL, fast_default_limits), "no set has no size");
    expect(fast_find_template(NULL, "All") == FAST_NONE && fast_find_template_id(NULL, 7) == FAST_NONE, "no set has no template");
    expect(fast_find_node(NULL, 0, "a") == FAST_NONE, "no set has no node of a name");
    expect(fast_parent_of_node(NULL, 0) == FAST_NONE && fast_template_of_node(NULL, 0) == FAST_NONE, "no set has no node");
    expect(!fast_body_of_template(NULL, 0, NULL, 9) && !fast_body_of_node(NULL, 0, NULL, 9), "no set has no body");
    expect(due.what == FAST_AWAITS_MESSAGE && !due.node, "what no decoder waits for");
    expect(fast_find_template(set, NULL) == FAST_NONE && fast_find_node(set, 0, NULL) == FAST_NONE, "a null name");
    expect(!fast_describe_template(set, 0, NULL) && !fast_describe_node(set, 0, NULL), "a null place");
    expect(fast_body_of_node(set, 9, NULL, 9) == 2 && fast_body_of_node(set, 9, NULL, 0) == 2, "a node's body without room");
    expect(fast_message_cap(set, (fast_limits){0, 16, UINT32_MAX, UINT32_MAX}) > UINT32_MAX, "more events than 32 bits count");
    expect(fast_body_of_template(set, 0, NULL, 9) == 9 && fast_body_of_template(set, 0, nodes, 1) == 9, "room for one node");
    expect(!fast_nothing.kind && !fast_nothing.node, "nodes are written where there is no room");
    expect(nodes[0] == 0 && nodes[1] == 99, "one node");
    expect(fast_body_of_template(set, 0, nodes + 1, 0) == 9 && nodes[1] == 99, "room for no node");
}

int main(int count, char **words) {
    static uint8_t text[1 << 16];
    FILE *file = count == 2 ? fopen(words[1], "rb") : NULL;
    if (!file || fast_read_set(text, fread(text, 1, sizeof text, file), &set) != FAST_DONE) return 2;
    fclose(file);
    fast_limits limits = {0, 1024, 10, 30};
    printf("%u templates %u nodes %u entries %u deep %llu events\n", fast_count_templates(set), fast_count_nodes(set), fast_count_entries(set),
           fast_nesting_depth(set), (unsigned long long)fast_message_cap(set, limits));
    templates();
    nodes();
    find();
    due();
    kinds();
    nothing();
    fast_close_set(&set);
    return wrong;
}
