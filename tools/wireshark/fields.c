// The fields of Wireshark that the nodes of template sets have: fast.NAME, of the type of the node.
#include "fast_plugin.h"

int proto_fast = -1;

// The registered fields: one for each filter name, type and label.
static hf_register_info *registered;
static guint registered_count;

// The names that the dissector has for itself (tree.c).
static const char *const own_names[] = {"preamble", "packet_sequence", "message", "template_id", "map", "length", "element", "absent",
    "fault", "rest"};

static char *name_of(size_t (*write)(fast_set *, uint32_t, char *, size_t), fast_set *set, uint32_t number) {
    size_t length = write(set, number, NULL, 0);
    char *name = g_malloc0(length + 1);
    write(set, number, name, length);
    return name;
}

char *name_of_template(fast_set *set, uint32_t number) {
    return name_of(fast_name_of_template, set, number);
}

char *name_of_node(fast_set *set, uint32_t number) {
    return name_of(fast_name_of_node, set, number);
}

static enum ftenum type_of(uint32_t type) {
    switch (type) {
    case FAST_TYPE_UINT32: case FAST_TYPE_UINT64: case FAST_TYPE_SEQUENCE: return FT_UINT64;
    case FAST_TYPE_INT32: case FAST_TYPE_INT64: return FT_INT64;
    case FAST_TYPE_DECIMAL: case FAST_TYPE_DECIMAL_PARTS: return FT_DOUBLE;
    case FAST_TYPE_ASCII: case FAST_TYPE_UNICODE: return FT_STRING;
    case FAST_TYPE_BYTES: return FT_BYTES;
    default: return FT_NONE;
    }
}

static const char *word_of(enum ftenum type) {
    switch (type) {
    case FT_UINT64: return "uint";
    case FT_INT64: return "int";
    case FT_DOUBLE: return "decimal";
    case FT_STRING: return "string";
    case FT_BYTES: return "bytes";
    default: return "group";
    }
}

static enum ftenum type_of_node(fast_set *set, uint32_t node) {
    fast_node_info info = {0};
    fast_describe_node(set, node, &info);
    return type_of(info.type);
}

// Returns the name of a node as a part of a filter name, with an underscore for each point.
static char *filter_of(const char *name) {
    char *filter = g_strdup(name);
    for (char *it = filter; *it; it++) {
        if (!g_ascii_isalnum(*it) && *it != '-') *it = '_';
    }
    return filter;
}

// Adds the filter names of a set to `types`, from names to types: GUINT 1 + the type, or 0 for a name with more than one.
static void add_types(GHashTable *types, fast_set *set) {
    for (uint32_t node = 0; node < fast_count_nodes(set); node++) {
        char *name = name_of_node(set, node), *filter = filter_of(name);
        guint type = 1 + type_of_node(set, node);
        gpointer known = NULL;
        if (g_hash_table_lookup_extended(types, filter, NULL, &known) && GPOINTER_TO_UINT(known) != type) type = 0;
        g_hash_table_insert(types, filter, GUINT_TO_POINTER(type));
        g_free(name);
    }
}

static GHashTable *types_of_feeds(const feed *feeds, guint count) {
    GHashTable *types = g_hash_table_new_full(g_str_hash, g_str_equal, g_free, NULL);
    for (guint i = 0; i < array_length(own_names); i++) g_hash_table_insert(types, g_strdup(own_names[i]), NULL);
    for (guint i = 0; i < count; i++) add_types(types, feeds[i].set);
    return types;
}

// Adds a field to `fields`, and returns the place of its number.
static int *add_field(GArray *fields, char *label, char *filter, enum ftenum type) {
    int *number = g_new(int, 1);
    hf_register_info it = {number, {label, filter, type, BASE_NONE, NULL, 0, NULL, HFILL}};
    *number = -1;
    if (type == FT_UINT64 || type == FT_INT64) it.hfinfo.display = BASE_DEC;
    g_array_append_val(fields, it);
    return number;
}

// Returns the place of the number of a node's field, which is added to `fields` unless one of its filter name, type and label is there.
static int *field_of(GArray *fields, GHashTable *known, GHashTable *types, fast_set *set, uint32_t node, const char *tag) {
    enum ftenum type = type_of_node(set, node);
    char *name = name_of_node(set, node), *plain = filter_of(name);
    gboolean is_alone = g_hash_table_lookup(types, plain) != NULL;
    char *filter = is_alone ? g_strdup_printf("fast.%s", plain) : g_strdup_printf("fast.%s.%s", plain, word_of(type));
    char *label = tag ? g_strdup_printf("%s (%s)", name, tag) : g_strdup(name);
    char *key = g_strdup_printf("%s %s", filter, label);
    int *number = g_hash_table_lookup(known, key);
    if (!number) {
        number = add_field(fields, g_strdup(label), g_strdup(filter), type);
        g_hash_table_insert(known, g_strdup(key), number);
    }
    g_free(name), g_free(plain), g_free(filter), g_free(label), g_free(key);
    return number;
}

static void deregister_nodes(void) {
    for (guint i = 0; i < registered_count; i++) {
        proto_deregister_field(proto_fast, *registered[i].p_id);
        g_free(registered[i].p_id);
    }
    if (registered) proto_add_deregistered_data(registered);
    registered = NULL;
    registered_count = 0;
}

void register_nodes(feed *feeds, guint count, char ***tags) {
    GArray *fields = g_array_new(FALSE, FALSE, sizeof(hf_register_info));
    GHashTable *known = g_hash_table_new_full(g_str_hash, g_str_equal, g_free, NULL);
    GHashTable *types = types_of_feeds(feeds, count);
    GPtrArray *places = g_ptr_array_new();
    deregister_nodes();
    for (guint i = 0; i < count; i++) {
        for (uint32_t node = 0; node < fast_count_nodes(feeds[i].set); node++) {
            g_ptr_array_add(places, field_of(fields, known, types, feeds[i].set, node, tags[i] ? tags[i][node] : NULL));
        }
    }
    registered_count = fields->len;
    registered = (hf_register_info *)(void *)g_array_free(fields, FALSE);
    if (registered_count) proto_register_field_array(proto_fast, registered, (int)registered_count);
    for (guint i = 0, at = 0; i < count; i++) {
        uint32_t nodes = fast_count_nodes(feeds[i].set);
        feeds[i].field_of_node = g_new(int, nodes + 1);
        for (uint32_t node = 0; node < nodes; node++) feeds[i].field_of_node[node] = *(int *)g_ptr_array_index(places, at++);
    }
    g_ptr_array_free(places, TRUE);
    g_hash_table_destroy(types);
    g_hash_table_destroy(known);
}
