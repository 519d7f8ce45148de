// Access by name to a message of fast_messages.hpp, of which it is a part: programs include fast_messages.hpp.
#ifndef FAST_ITEMS_HPP
#define FAST_ITEMS_HPP

#include "fast.hpp"

#include <algorithm>
#include <iterator>
#include <map>

namespace fast {

#ifdef __cpp_exceptions
// A field that a message does not have, or that is of another type. path: as in "MDEntries[0].MDEntryPx". It owns its strings.
class access_error : public std::runtime_error {
public:
    access_error(std::string its_path, const std::string &words) : std::runtime_error(words), path(std::move(its_path)) {}
    std::string path;
};
#endif

namespace detail {

// The form of a set's messages: the keys of its nodes, and the name, the identifier and the nodes of its templates.
struct forms {
    struct form {
        std::string name;
        std::uint32_t id;
        std::vector<std::uint32_t> body;
    };

    explicit forms(const set &of) : keys(of.nodes()), bodies(of.nodes()) {
        for (std::uint32_t number = 0; number < of.templates(); number++) {
            templates.push_back({of.template_name(number), of.template_info(number)->id, of.body_of_template(number)});
            name_all(of, templates.back().body);
        }
    }

    std::vector<std::string> keys;
    std::vector<std::vector<std::uint32_t>> bodies;
    std::vector<form> templates;

private:
    void name_all(const set &of, const std::vector<std::uint32_t> &body) {
        std::map<std::string, unsigned> seen;
        for (std::uint32_t node : body) {
            std::string name = of.node_name(node);
            const unsigned number = ++seen[name];
            keys[node] = number == 1 ? name : name + '#' + std::to_string(number);
            bodies[node] = of.body_of_node(node);
            name_all(of, bodies[node]);
        }
    }
};

template <class F> struct gatherer;

}  // namespace detail

class message;

// A field, a group, a sequence or one of its elements, or the whole of a message; or nothing. Valid as long as its message is, which must not be
// moved, assigned or decoded into meanwhile.
class item {
public:
    item() = default;
    // Whether it is something.
    explicit operator bool() const { return of_; }
    // The kind of its record (fast_kind): FAST_UNSIGNED to FAST_BYTES, FAST_GROUP_START, FAST_SEQUENCE_START, FAST_ELEMENT_START, or
    // FAST_MESSAGE_START for the whole of a message; 0 for nothing.
    std::uint32_t kind() const;
    // Its key; empty for an element, the whole of a message and nothing.
    std::string_view key() const;
    // The path from the message on, as in "MDEntries[0].MDEntryPx".
    std::string path() const;

    // The field, group or sequence with a key in a group, an element or a message: nothing if it is absent. `[]` throws instead.
    item find(std::string_view key) const;
    bool has(std::string_view key) const { return static_cast<bool>(find(key)); }
    item operator[](std::string_view key) const;
    // An element of a sequence, from 0. It goes through those before it: iterate to read them all.
    item operator[](std::size_t index) const;
    // The number of elements of a sequence, or of fields, groups and sequences that are present in the others; 0 for a field.
    std::size_t size() const;

    // Iterates over what `size` counts, in the order of the template.
    class iterator;
    iterator begin() const;
    iterator end() const;

    // Reads the value if it is of this type, and returns whether it is; otherwise the argument is unchanged. A uInt32 or uInt64 is a
    // std::uint64_t, an int32 or int64 a std::int64_t, an ASCII or Unicode string a std::string_view in UTF-8.
    bool read(std::uint64_t &to) const;
    bool read(std::int64_t &to) const;
    bool read(decimal &to) const;
    bool read(std::string_view &to) const;
    bool read(bytes &to) const;

#ifdef __cpp_exceptions
    // Return the value. They throw access_error if it is of another type, or nothing.
    std::uint64_t as_u64() const { return as<std::uint64_t>("an unsigned integer"); }
    std::int64_t as_i64() const { return as<std::int64_t>("a signed integer"); }
    decimal as_decimal() const { return as<decimal>("a decimal"); }
    std::string_view as_text() const { return as<std::string_view>("a string"); }
    bytes as_bytes() const { return as<bytes>("a byte vector"); }
#endif

private:
    friend class message;
    item(const message *of, std::size_t at) : of_(of), at_(at) {}
    const fast_record &record() const;
    const std::vector<std::uint32_t> *body() const;
    bool holds_fields() const { return kind() == FAST_MESSAGE_START || kind() == FAST_GROUP_START || kind() == FAST_ELEMENT_START; }
    bool read_string(std::uint32_t least, std::uint32_t most, bytes &to) const;
#ifdef __cpp_exceptions
    template <class T> T as(const char *expected) const {
        T it{};
        if (!read(it)) fail(path(), std::string("is ") + kind_words() + ", and not " + expected);
        return it;
    }
    [[noreturn]] void fail(const std::string &at, const std::string &words) const;
    const char *kind_words() const;
#endif
    const message *of_ = nullptr;
    std::size_t at_ = 0;
};

// One message, which owns copies of its records and strings. It can be copied and moved.
class message {
public:
    // Of its template. Empty and 0 for a message that has not begun.
    std::string_view name() const { return begun() ? std::string_view(form().name) : std::string_view(); }
    std::uint32_t id() const { return begun() ? form().id : 0; }
    std::uint32_t template_number() const { return begun() ? records_[0].node : FAST_NONE; }
    // Whether it has its start, and its end.
    bool begun() const { return !records_.empty(); }
    bool whole() const { return begun() && records_.back().kind == FAST_MESSAGE_END; }

    // Its fields as those of an item.
    item fields() const { return begun() ? item(this, 0) : item(); }
    item find(std::string_view key) const { return fields().find(key); }
    bool has(std::string_view key) const { return fields().has(key); }
    item operator[](std::string_view key) const { return fields()[key]; }
    std::size_t size() const { return fields().size(); }
    item::iterator begin() const;
    item::iterator end() const;

    // Its records and their strings as fast.h has them: for an encoder.
    const std::vector<fast_record> &records() const { return records_; }
    const std::vector<std::uint8_t> &texts() const { return texts_; }

private:
    friend class item;
    friend class message_decoder;
    template <class F> friend struct detail::gatherer;

    explicit message(std::shared_ptr<const detail::forms> of) : forms_(std::move(of)) {}
    const detail::forms::form &form() const { return forms_->templates[records_[0].node]; }
    static bool opens(std::uint32_t kind) {
        return kind == FAST_GROUP_START || kind == FAST_SEQUENCE_START || kind == FAST_ELEMENT_START || kind == FAST_MESSAGE_START;
    }
    static bool closes(std::uint32_t kind) {
        return kind == FAST_GROUP_END || kind == FAST_SEQUENCE_END || kind == FAST_ELEMENT_END || kind == FAST_MESSAGE_END;
    }
    // The record that closes what the record `at` opens; the number of records while it is open.
    std::size_t end_of(std::size_t at) const { return ends_[at] ? ends_[at] : records_.size(); }
    // The record after a field, or after all of a group, a sequence or an element.
    std::size_t after(std::size_t at) const { return std::min(opens(records_[at].kind) ? end_of(at) + 1 : at + 1, records_.size()); }

    void clear() {
        records_.clear(), ends_.clear(), outer_.clear(), texts_.clear();
        inner_ = 0;
    }
    void add(std::uint32_t kind, std::uint32_t node = 0, std::uint64_t value = 0, std::uint32_t length = 0, std::int32_t exponent = 0) {
        const std::size_t at = records_.size();
        if (closes(kind)) ends_[inner_] = at, inner_ = outer_[inner_];
        records_.push_back({kind, node, value, length, exponent});
        ends_.push_back(0), outer_.push_back(inner_);
        if (opens(kind)) inner_ = at;
    }
    void add_string(std::uint32_t kind, std::uint32_t node, const std::uint8_t *data, std::size_t size) {
        add(kind, node, texts_.size(), static_cast<std::uint32_t>(size));
        texts_.insert(texts_.end(), data, data + size);
    }

    std::shared_ptr<const detail::forms> forms_;
    std::vector<fast_record> records_;
    std::vector<std::size_t> ends_;   // of each record that opens something, the one that closes it; else 0
    std::vector<std::size_t> outer_;  // of each record, the one that opens what it is in
    std::vector<std::uint8_t> texts_;
    std::size_t inner_ = 0;  // the record that opens what the next one is in
};

class item::iterator {
public:
    using value_type = item;
    using difference_type = std::ptrdiff_t;
    using pointer = const item *;
    using reference = item;
    using iterator_category = std::input_iterator_tag;

    item operator*() const { return {of_, at_}; }
    iterator &operator++() {
        at_ = of_->after(at_);
        return *this;
    }
    iterator operator++(int) {
        iterator before = *this;
        ++*this;
        return before;
    }
    friend bool operator==(const iterator &one, const iterator &other) { return one.at_ == other.at_; }
    friend bool operator!=(const iterator &one, const iterator &other) { return one.at_ != other.at_; }

private:
    friend class item;
    iterator(const message *of, std::size_t at) : of_(of), at_(at) {}
    const message *of_;
    std::size_t at_;
};

inline const fast_record &item::record() const { return of_->records_[at_]; }
inline std::uint32_t item::kind() const { return of_ ? record().kind : 0; }

inline std::string_view item::key() const {
    const bool has_key = of_ && kind() != FAST_MESSAGE_START && kind() != FAST_ELEMENT_START;
    return has_key ? std::string_view(of_->forms_->keys[record().node]) : std::string_view();
}

inline item::iterator item::begin() const { return {of_, of_ && message::opens(kind()) ? at_ + 1 : at_}; }
inline item::iterator item::end() const { return {of_, of_ && message::opens(kind()) ? of_->end_of(at_) : at_}; }
inline std::size_t item::size() const { return static_cast<std::size_t>(std::distance(begin(), end())); }

inline item item::find(std::string_view key) const {
    if (!holds_fields()) return {};
    for (item it : *this) {
        if (it.key() == key) return it;
    }
    return {};
}

inline item item::operator[](std::string_view key) const {
    const item found = find(key);
#ifdef __cpp_exceptions
    if (!found) {
        const std::string at = path() + (path().empty() ? "" : ".") + std::string(key);
        if (!holds_fields()) fail(at, std::string("is asked of ") + kind_words());
        const std::vector<std::uint32_t> &nodes = *body();
        const auto has_key = [&](std::uint32_t node) { return of_->forms_->keys[node] == key; };
        fail(at, std::any_of(nodes.begin(), nodes.end(), has_key) ? "is absent" : "is not in the template");
    }
#endif
    return found;
}

inline item item::operator[](std::size_t index) const {
    std::size_t left = index;
    if (kind() == FAST_SEQUENCE_START) {
        for (item it : *this) {
            if (left-- == 0) return it;
        }
    }
#ifdef __cpp_exceptions
    const std::string at = path() + '[' + std::to_string(index) + ']';
    if (kind() != FAST_SEQUENCE_START) fail(at, std::string("is asked of ") + kind_words());
    fail(at, "is asked of a sequence of " + std::to_string(size()));
#else
    return {};
#endif
}

// The nodes of the segment that an item is: of an element those of its sequence.
inline const std::vector<std::uint32_t> *item::body() const {
    if (kind() == FAST_MESSAGE_START) return &of_->form().body;
    const std::size_t named = kind() == FAST_ELEMENT_START ? of_->outer_[at_] : at_;
    return &of_->forms_->bodies[of_->records_[named].node];
}

inline std::string item::path() const {
    if (!of_ || at_ == 0) return {};
    const item outer{of_, of_->outer_[at_]};
    const std::string before = outer.path();
    if (kind() != FAST_ELEMENT_START) return before + (before.empty() ? "" : ".") + std::string(key());
    const auto is_before = [this](item it) { return it.at_ < at_; };
    return before + '[' + std::to_string(std::count_if(outer.begin(), outer.end(), is_before)) + ']';
}

inline bool item::read(std::uint64_t &to) const {
    if (kind() != FAST_UNSIGNED) return false;
    to = record().value;
    return true;
}
inline bool item::read(std::int64_t &to) const {
    if (kind() != FAST_SIGNED) return false;
    to = static_cast<std::int64_t>(record().value);
    return true;
}
inline bool item::read(decimal &to) const {
    if (kind() != FAST_DECIMAL) return false;
    to = {static_cast<std::int64_t>(record().value), record().exponent};
    return true;
}
inline bool item::read_string(std::uint32_t least, std::uint32_t most, bytes &to) const {
    if (kind() < least || kind() > most) return false;
    to = {of_->texts_.data() + record().value, record().length};
    return true;
}
inline bool item::read(bytes &to) const { return read_string(FAST_BYTES, FAST_BYTES, to); }
inline bool item::read(std::string_view &to) const {
    bytes it{};
    if (!read_string(FAST_ASCII, FAST_UNICODE, it)) return false;
    to = {reinterpret_cast<const char *>(it.data), it.size};
    return true;
}

#ifdef __cpp_exceptions
inline const char *item::kind_words() const {
    switch (kind()) {
    case FAST_MESSAGE_START: return "a message";
    case FAST_UNSIGNED: return "an unsigned integer";
    case FAST_SIGNED: return "a signed integer";
    case FAST_DECIMAL: return "a decimal";
    case FAST_ASCII:
    case FAST_UNICODE: return "a string";
    case FAST_BYTES: return "a byte vector";
    case FAST_GROUP_START: return "a group";
    case FAST_SEQUENCE_START: return "a sequence";
    case FAST_ELEMENT_START: return "an element";
    default: return "nothing";
    }
}
inline void item::fail(const std::string &at, const std::string &words) const {
    throw access_error(at, (at.empty() ? "it" : at) + (of_ ? " of " + of_->form().name : std::string()) + ' ' + words);
}
#endif

inline item::iterator message::begin() const { return fields().begin(); }
inline item::iterator message::end() const { return fields().end(); }

}  // namespace fast
#endif
