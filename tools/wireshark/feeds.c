// The table of feeds: ports, template files, preambles and the rule of the dictionary.
#include "fast_plugin.h"
#include <epan/uat.h>
#include <wsutil/report_message.h>

guint feed_generation;
fast_limits feed_limits = {0, 65536, 10000, 10000};

static feed_row *rows;
static guint row_count;
static feed *feeds;
static guint feed_count;
static dissector_handle_t handles[2];
static const char *const tables[] = {"udp.port", "tcp.port"};
static const value_string transports[] = {{TRANSPORT_UDP, "UDP"}, {TRANSPORT_TCP, "TCP"}, {0, NULL}};

UAT_VS_DEF(row, transport, feed_row, guint, TRANSPORT_UDP, "UDP")
UAT_RANGE_CB_DEF(row, ports, feed_row)
UAT_FILENAME_CB_DEF(row, templates, feed_row)
UAT_FILENAME_CB_DEF(row, fields, feed_row)
UAT_CSTRING_CB_DEF(row, sequence, feed_row)
UAT_DEC_CB_DEF(row, skip, feed_row)
UAT_BOOL_CB_DEF(row, reset, feed_row)

static void *copy_row(void *to, const void *from, size_t size _U_) {
    feed_row *copy = to;
    const feed_row *row = from;
    *copy = *row;
    copy->ports = range_copy(NULL, row->ports);
    copy->templates = g_strdup(row->templates);
    copy->fields = g_strdup(row->fields);
    copy->sequence = g_strdup(row->sequence);
    return to;
}

static void free_row(void *it) {
    feed_row *row = it;
    wmem_free(NULL, row->ports);
    g_free(row->templates), g_free(row->fields), g_free(row->sequence);
}

static gboolean is_empty(const char *text) {
    return !text || !*text;
}

// Returns what is wrong with a file or an object: its name and the sentence of the status; NULL for FAST_DONE.
static char *wrong_with(const char *name, uint32_t status) {
    uint8_t words[256];
    size_t length = MIN(fast_status_words(status, words, sizeof words), sizeof words);
    return status == FAST_DONE ? NULL : g_strdup_printf("%s: %.*s", name, (int)length, words);
}

// Reads the template set of a row. Returns NULL, or what is wrong with it.
static char *read_set(const feed_row *row, fast_set **set) {
    char *text = NULL;
    gsize length = 0;
    GError *error = NULL;
    if (!g_file_get_contents(row->templates, &text, &length, &error)) {
        char *wrong = g_strdup(error->message);
        g_error_free(error);
        return wrong;
    }
    uint32_t status = fast_read_set((const uint8_t *)text, length, set);
    g_free(text);
    return wrong_with(row->templates, status);
}

// Adds the tag of one line of a fields table: node, template, path, name, kind, tag, length, its tag. That of a sequence is its length's.
// Returns whether the set has the node.
static gboolean read_tag(fast_set *set, char **cells, char **tags) {
    if (g_strv_length(cells) < 8) return FALSE;
    if (strcmp(cells[4], "template") == 0) return TRUE;
    guint64 node = g_ascii_strtoull(cells[0], NULL, 10);
    if (node >= fast_count_nodes(set)) return FALSE;
    char *name = name_of_node(set, (uint32_t)node);
    gboolean is_same = strcmp(name, cells[3]) == 0;
    const char *tag = strcmp(cells[4], "sequence") == 0 ? cells[7] : cells[5];
    if (is_same && *tag) {
        g_free(tags[node]);
        tags[node] = g_strdup(tag);
    }
    g_free(name);
    return is_same;
}

// Reads the FIX tags of a fields table, by node. Returns NULL, or what is wrong with it.
static char *read_tags(const feed_row *row, fast_set *set, char ***tags) {
    char *text = NULL, *wrong = NULL;
    GError *error = NULL;
    *tags = NULL;
    if (is_empty(row->fields)) return NULL;
    if (!g_file_get_contents(row->fields, &text, NULL, &error)) {
        wrong = g_strdup(error->message);
        g_error_free(error);
        return wrong;
    }
    *tags = g_new0(char *, fast_count_nodes(set) + 1);
    char **lines = g_strsplit(text, "\n", -1);
    for (guint i = 1; i < g_strv_length(lines) && !wrong; i++) {
        char **cells = g_strsplit(lines[i], "\t", -1);
        if (*lines[i] && !read_tag(set, cells, *tags)) {
            wrong = g_strdup_printf("%s:%u: not a field of %s", row->fields, i + 1, row->templates);
        }
        g_strfreev(cells);
    }
    g_strfreev(lines);
    g_free(text);
    return wrong;
}

static void free_tags(char **tags, uint32_t count) {
    for (uint32_t i = 0; tags && i < count; i++) g_free(tags[i]);
    g_free(tags);
}

// Reads the form of a sequence number: be or le, and its size from 1 to 8. Returns whether it is one, or empty.
static gboolean read_sequence(const char *form, feed *to) {
    if (is_empty(form)) return TRUE;
    if (strlen(form) != 3 || form[2] < '1' || form[2] > '8') return FALSE;
    to->sequence_is_le = g_str_has_prefix(form, "le");
    to->sequence_size = (guint)(form[2] - '0');
    return to->sequence_is_le || g_str_has_prefix(form, "be");
}

// Loads a row. Returns NULL, or what is wrong with it; then nothing has to be closed.
static char *load_row(const feed_row *row, feed *to, char ***tags) {
    *to = (feed){.transport = row->transport, .reset = row->reset, .skip = row->skip};
    *tags = NULL;
    if (!read_sequence(row->sequence, to)) return g_strdup_printf("%s: none of be1 to be8 and le1 to le8", row->sequence);
    to->skip = MAX(to->skip, to->sequence_size);
    if (row->transport == TRANSPORT_TCP && to->skip) return g_strdup("a stream of TCP has no preamble");
    if (is_empty(row->templates)) return g_strdup("no template file");
    char *wrong = read_set(row, &to->set);
    if (!wrong) wrong = read_tags(row, to->set, tags);
    if (!wrong) wrong = wrong_with(row->templates, fast_open_decoder(to->set, feed_limits, &to->decoder));
    if (wrong) {
        if (to->set) free_tags(*tags, fast_count_nodes(to->set));
        fast_close_set(&to->set);
    }
    return wrong;
}

// Validates a row: it can be loaded.
static gboolean check_row(void *it, char **error) {
    feed loaded;
    char **tags;
    *error = load_row(it, &loaded, &tags);
    if (*error) return FALSE;
    free_tags(tags, fast_count_nodes(loaded.set));
    fast_close_decoder(&loaded.decoder);
    fast_close_set(&loaded.set);
    return TRUE;
}

static void unload_feeds(void) {
    close_flows();
    for (guint i = 0; i < feed_count; i++) {
        dissector_delete_uint_range(tables[feeds[i].transport], feeds[i].ports, handles[feeds[i].transport]);
        wmem_free(NULL, feeds[i].ports);
        fast_close_decoder(&feeds[i].decoder);
        fast_close_set(&feeds[i].set);
        g_free(feeds[i].field_of_node);
    }
    g_free(feeds);
    feeds = NULL;
    feed_count = 0;
}

// Loads the rows of the table and registers their ports and fields, in place of those loaded before.
static void load_feeds(void) {
    char ***tags = g_new0(char **, row_count + 1);
    unload_feeds();
    feed_generation++;
    feeds = g_new0(feed, row_count + 1);
    for (guint i = 0; i < row_count; i++) {
        char *wrong = load_row(&rows[i], &feeds[feed_count], &tags[feed_count]);
        if (wrong) report_failure("FAST feeds: %s", wrong);
        else feeds[feed_count++].ports = range_copy(NULL, rows[i].ports);
        g_free(wrong);
    }
    register_nodes(feeds, feed_count, tags);
    for (guint i = 0; i < feed_count; i++) {
        dissector_add_uint_range(tables[feeds[i].transport], feeds[i].ports, handles[feeds[i].transport]);
        free_tags(tags[i], fast_count_nodes(feeds[i].set));
    }
    g_free(tags);
}

// Opens the decoders again, after a change of the limits.
static void apply_limits(void) {
    close_flows();
    feed_generation++;
    for (guint i = 0; i < feed_count; i++) {
        fast_close_decoder(&feeds[i].decoder);
        char *wrong = wrong_with("FAST limits", fast_open_decoder(feeds[i].set, feed_limits, &feeds[i].decoder));
        if (wrong) report_failure("%s", wrong);
        g_free(wrong);
    }
}

static feed *feed_of_port(guint32 port, guint transport) {
    for (guint i = 0; i < feed_count; i++) {
        if (feeds[i].transport == transport && value_is_in_range(feeds[i].ports, port)) return &feeds[i];
    }
    return NULL;
}

feed *feed_of_packet(const packet_info *pinfo, guint transport) {
    feed *of = feed_of_port(pinfo->destport, transport);
    return of ? of : feed_of_port(pinfo->srcport, transport);
}

void register_feeds(dissector_handle_t udp, dissector_handle_t tcp) {
    static uat_field_t columns[] = {
        UAT_FLD_VS(row, transport, "Transport", transports, "UDP or TCP"),
        UAT_FLD_RANGE(row, ports, "Ports", 0xffff, "Ports, such as 16001-16060,16101"),
        UAT_FLD_FILENAME(row, templates, "Template file", "The template set, in TOML"),
        UAT_FLD_FILENAME(row, fields, "Fields table", "The table of tools/from_xml/run --fields with the FIX tags, or empty"),
        UAT_FLD_CSTRING(row, sequence, "Sequence", "The sequence number at the start of packets: be4, le4, .., or empty"),
        UAT_FLD_DEC(row, skip, "Skip", "The number of bytes before the messages of each packet, with the sequence number"),
        UAT_FLD_BOOL(row, reset, "Reset", "Whether each packet resets the dictionary"),
        UAT_END_FIELDS
    };
    uat_t *table = uat_new("FAST feeds", sizeof(feed_row), "fast_feeds", TRUE, &rows, &row_count, UAT_AFFECTS_DISSECTION | UAT_AFFECTS_FIELDS,
        NULL, copy_row, check_row, free_row, load_feeds, NULL, columns);
    module_t *module = prefs_register_protocol(proto_fast, apply_limits);
    handles[TRANSPORT_UDP] = udp;
    handles[TRANSPORT_TCP] = tcp;
    prefs_register_uat_preference(module, "feeds", "Feeds", "Ports, template files and packets of feeds", table);
    prefs_register_uint_preference(module, "max_text", "Longest string", "In bytes, 16 to 1048576", 10, &feed_limits.max_text);
    prefs_register_uint_preference(module, "max_elements", "Elements of one sequence", "The most that are decoded", 10, &feed_limits.max_elements);
    prefs_register_uint_preference(module, "max_total", "Elements of one message", "The most that are decoded", 10, &feed_limits.max_total);
}
