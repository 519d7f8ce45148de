// The decoder and the encoder of fast.h for C++17 and later: handles that close themselves, errors, and a visitor of events.
//
//     struct counter : fast::visitor {
//         std::uint64_t messages = 0;
//         void message_end() { messages++; }
//     };
//     fast::decoder decoder{fast::set{text}};
//     counter sees;
//     decoder.decode(piece, piece_len, sees);
//
// Threads may use one set, or copies of it, at the same time. A decoder or an encoder may be moved into another thread, with buffers that no
// other thread uses; only one call at a time may use it.
//
// Failures are thrown as fast::error. With -fno-exceptions nothing is thrown: each call that can fail returns its status, and status() of an
// object says whether its constructor succeeded.
#ifndef FAST_HPP
#define FAST_HPP

#include "fast.h"

#include <cstddef>
#include <cstdint>
#include <memory>
#include <optional>
#include <string>
#include <string_view>
#include <type_traits>
#include <utility>
#include <vector>

#ifdef __cpp_exceptions
#include <stdexcept>
#endif

namespace fast {

// Returns the sentence of a status.
inline std::string words_of(std::uint32_t status) {
    std::uint8_t words[256];
    std::size_t length = fast_status_words(status, words, sizeof words);
    return std::string(reinterpret_cast<const char *>(words), length < sizeof words ? length : sizeof words);
}

#ifdef __cpp_exceptions
// Why a call failed. place: at a fault of the stream or a truncated packet, the number of bytes consumed; for records that are no message
// (FAST_MISPLACED), the number of the first that is out of place. It owns its message.
class error : public std::runtime_error {
public:
    explicit error(std::uint32_t its_status, std::uint64_t its_place = 0)
        : std::runtime_error(words_of(its_status)), status(its_status), place(its_place) {}
    std::uint32_t status;
    std::uint64_t place;
};
#endif

// Throws where a status is not FAST_DONE and exceptions are on; otherwise returns it.
inline std::uint32_t expect(std::uint32_t status, std::uint64_t place = 0) {
#ifdef __cpp_exceptions
    if (status != FAST_DONE) throw error(status, place);
#else
    static_cast<void>(place);
#endif
    return status;
}

// A template set. Copies share the set, which is closed with the last of them and of its decoders and encoders. The constructor does not keep
// the text; names are copies.
class set {
public:
    explicit set(std::string_view text) {
        fast_set *made = nullptr;
        status_ = expect(fast_read_set(reinterpret_cast<const std::uint8_t *>(text.data()), text.size(), &made));
        if (made) it_ = std::shared_ptr<fast_set>(made, [](fast_set *its) { fast_close_set(&its); });
    }
    // FAST_DONE, or why the set was not made: the constructor throws it where exceptions are on.
    std::uint32_t status() const { return status_; }
    fast_set *get() const { return it_.get(); }
    std::uint32_t templates() const { return fast_count_templates(get()); }
    std::uint32_t nodes() const { return fast_count_nodes(get()); }
    std::string template_name(std::uint32_t number) const { return named(fast_name_of_template, number); }
    std::string node_name(std::uint32_t number) const { return named(fast_name_of_node, number); }

    // Queries as those of fast_queries.h: nothing where the set has no such template or node.
    std::uint32_t entries() const { return fast_count_entries(get()); }
    std::uint32_t depth() const { return fast_nesting_depth(get()); }
    std::uint64_t message_cap(fast_limits limits) const { return fast_message_cap(get(), limits); }
    // By their lengths: a zero in a name or a path is a byte like any other, and no name has one.
    std::optional<std::uint32_t> find_template(const std::string &name) const {
        const auto *bytes = reinterpret_cast<const std::uint8_t *>(name.data());
        return some(get() ? fast_template_by_name({get()}, bytes, name.size()) : FAST_NONE);
    }
    std::optional<std::uint32_t> find_template(std::uint32_t id) const { return some(fast_find_template_id(get(), id)); }
    std::optional<std::uint32_t> find_node(std::uint32_t in, const std::string &path) const {
        return some(get() ? fast_find_below({get()}, in, FAST_NONE, path.data(), path.size()) : FAST_NONE);
    }
    std::optional<std::uint32_t> parent_of_node(std::uint32_t number) const { return some(fast_parent_of_node(get(), number)); }
    std::optional<std::uint32_t> template_of_node(std::uint32_t number) const { return some(fast_template_of_node(get(), number)); }
    std::optional<fast_template_info> template_info(std::uint32_t number) const { return described<fast_template_info>(fast_describe_template, number); }
    std::optional<fast_node_info> node_info(std::uint32_t number) const { return described<fast_node_info>(fast_describe_node, number); }
    std::vector<std::uint32_t> body_of_template(std::uint32_t number) const { return body(fast_body_of_template, number); }
    std::vector<std::uint32_t> body_of_node(std::uint32_t number) const { return body(fast_body_of_node, number); }

private:
    static std::optional<std::uint32_t> some(std::uint32_t number) {
        return number == FAST_NONE ? std::nullopt : std::optional<std::uint32_t>(number);
    }
    template <class T> std::optional<T> described(std::uint32_t (*describe)(fast_set *, std::uint32_t, T *), std::uint32_t number) const {
        T it{};
        return describe(get(), number, &it) ? std::optional<T>(it) : std::nullopt;
    }
    std::vector<std::uint32_t> body(std::size_t (*of)(fast_set *, std::uint32_t, std::uint32_t *, std::size_t), std::uint32_t number) const {
        std::vector<std::uint32_t> nodes(of(get(), number, nullptr, 0));
        of(get(), number, nodes.data(), nodes.size());
        return nodes;
    }
    std::string named(std::size_t (*name)(fast_set *, std::uint32_t, char *, std::size_t), std::uint32_t number) const {
        std::string it(name(get(), number, nullptr, 0), '\0');
        name(get(), number, it.data(), it.size());
        return it;
    }
    std::shared_ptr<fast_set> it_;
    std::uint32_t status_ = FAST_CLOSED;
};

struct decimal {
    std::int64_t mantissa;
    std::int32_t exponent;
};

struct ascii {
    std::string_view text;
};

struct unicode {
    std::string_view text;
};

struct bytes {
    const std::uint8_t *data;
    std::size_t size;
};

// Why a message has no end: the status, and the number of bytes of the stream consumed.
struct fault {
    std::uint32_t status;
    std::uint64_t place;
};

// A visitor derives from this and defines the calls that it wants. It is a type parameter, so no call is virtual. Strings are valid during the
// call only. For values it defines any of these, or a template for all that the others do not accept:
//
//     void field(std::uint32_t node, std::uint64_t value);
//     void field(std::uint32_t node, std::int64_t value);
//     void field(std::uint32_t node, fast::decimal value);
//     void field(std::uint32_t node, fast::ascii value);
//     void field(std::uint32_t node, fast::unicode value);
//     void field(std::uint32_t node, fast::bytes value);
//
// A value is passed as its own type and no other, so that a signed one never arrives as an unsigned one; a `field` of another type does not
// compile.
//
// A visitor with `void message_end(std::uint64_t consumed)` in place of `void message_end()` gets the number of bytes of the stream up to the
// end of the message, since the decoder was made or reset.
struct visitor {
    void message_start(std::uint32_t) {}
    void group_start(std::uint32_t) {}
    void group_end() {}
    void sequence_start(std::uint32_t, std::uint32_t) {}
    void element_start() {}
    void element_end() {}
    void sequence_end() {}
    void message_end() {}
    // The current message has a fault, or its packet ends inside it: it has no end.
    void abandoned(fault) {}
};

namespace detail {

// Converts to a T and to nothing else.
template <class T> struct exactly {
    T value;
    template <class U, std::enable_if_t<std::is_same_v<U, T>, int> = 0> operator U() const { return value; }
};

// Only a template accepts it.
struct unknown {};

template <class V, class T, class = void> constexpr bool takes = false;
template <class V, class T> constexpr bool takes<V, T, std::void_t<decltype(std::declval<V &>().field(0u, std::declval<T>()))>> = true;
template <class V, class = void> constexpr bool has_one_field = false;
template <class V> constexpr bool has_one_field<V, std::void_t<decltype(&V::field)>> = true;

template <class V, class... Ts> constexpr bool takes_any = (takes<V, exactly<Ts>> || ...);
template <class V> constexpr bool takes_value = takes_any<V, std::uint64_t, std::int64_t, decimal, ascii, unicode, bytes>;
// Whether a visitor has a `field` of a type that no value of FAST is: another integer of the same size, a smaller one, a float, a string.
template <class V, class T> constexpr bool takes_other = !std::is_same_v<T, std::uint64_t> && !std::is_same_v<T, std::int64_t> && takes<V, exactly<T>>;
template <class V, class... Ts> constexpr bool takes_others = (takes_other<V, Ts> || ...);
template <class V> constexpr bool takes_foreign = takes_others<V, bool, char, signed char, unsigned char, short, unsigned short, int, unsigned, long,
    unsigned long, long long, unsigned long long, float, double, long double, std::string, std::string_view, const char *, void *>;

// Passes a value to the visitor, if it has a call for its type.
template <class V, class T> void show_field(V &sees, std::uint32_t node, T value) {
    if constexpr (takes<V, unknown>) {
        sees.field(node, value);
    } else {
        static_assert(!takes_foreign<V> && (takes_value<V> || !has_one_field<V>),
                      "a `field` takes a node and a std::uint64_t, a std::int64_t, or a fast::decimal, ascii, unicode or bytes");
        if constexpr (takes<V, exactly<T>>) sees.field(node, exactly<T>{value});
    }
}

template <class V, class T, class = void> constexpr bool takes_end = false;
template <class V, class T> constexpr bool takes_end<V, T, std::void_t<decltype(std::declval<V &>().message_end(std::declval<T>()))>> = true;

template <class V> void show_end(V &sees, std::uint64_t consumed) {
    if constexpr (takes_end<V, unknown>) {
        sees.message_end(consumed);
    } else if constexpr (takes_end<V, exactly<std::uint64_t>>) {
        sees.message_end(exactly<std::uint64_t>{consumed});
    } else {
        sees.message_end();
    }
}

inline std::string_view text_of(const fast_record &it, const std::uint8_t *texts) {
    return {reinterpret_cast<const char *>(texts + it.value), it.length};
}

}  // namespace detail

// Passes a record to a visitor.
template <class V> void visit(const fast_record &it, const std::uint8_t *texts, V &&sees) {
    using namespace detail;
    switch (it.kind) {
    case FAST_MESSAGE_START: return sees.message_start(it.node);
    case FAST_UNSIGNED: return show_field(sees, it.node, it.value);
    case FAST_SIGNED: return show_field(sees, it.node, static_cast<std::int64_t>(it.value));
    case FAST_DECIMAL: return show_field(sees, it.node, decimal{static_cast<std::int64_t>(it.value), it.exponent});
    case FAST_ASCII: return show_field(sees, it.node, ascii{text_of(it, texts)});
    case FAST_UNICODE: return show_field(sees, it.node, unicode{text_of(it, texts)});
    case FAST_BYTES: return show_field(sees, it.node, bytes{texts + it.value, it.length});
    case FAST_GROUP_START: return sees.group_start(it.node);
    case FAST_GROUP_END: return sees.group_end();
    case FAST_SEQUENCE_START: return sees.sequence_start(it.node, static_cast<std::uint32_t>(it.value));
    case FAST_ELEMENT_START: return sees.element_start();
    case FAST_ELEMENT_END: return sees.element_end();
    case FAST_SEQUENCE_END: return sees.sequence_end();
    case FAST_MESSAGE_END: return show_end(sees, it.value);
    }
}

// Buffers for the records of one call and their strings. One pair serves any number of decoders that are not fed at the same time.
struct buffers {
    // 96 KiB and 64 KiB; a decoder enlarges `texts` to its max_text where that is more.
    explicit buffers(std::size_t records_len = 4096, std::size_t texts_len = 65536) : records(records_len ? records_len : 1), texts(texts_len) {}
    std::vector<fast_record> records;
    std::vector<std::uint8_t> texts;
};

// A decoder, which keeps its set alive. It can be moved but not copied; after a move the old one returns FAST_CLOSED.
class decoder {
public:
    // A decoder with its own buffers, which hold a string of limits.max_text bytes.
    explicit decoder(set of, fast_limits limits = fast_default_limits, std::size_t records = 4096)
        : decoder(std::move(of), limits, std::make_shared<buffers>(records)) {}

    // A decoder that shares its buffers with others, which must not be fed at the same time.
    decoder(set of, fast_limits limits, std::shared_ptr<buffers> room) : set_(std::move(of)), room_(std::move(room)) {
        fast_decoder *made = nullptr;
        status_ = expect(fast_open_decoder(set_.get(), limits, &made));
        it_.reset(made);
        if (made && room_->texts.size() < limits.max_text) room_->texts.resize(limits.max_text);
    }

    // FAST_DONE, or why the decoder was not made: the constructor throws it where exceptions are on.
    std::uint32_t status() const { return status_; }

    // Feeds a piece, which is not kept, and passes its events to a visitor. A fault is thrown after the events before it, and again at each
    // call until a reset; the visitor's `abandoned` is called once for it. If the visitor throws, the remaining events of the buffer are lost:
    // reset the decoder.
    template <class V> std::uint32_t decode(const std::uint8_t *piece, std::size_t piece_len, V &&sees) {
        return show_all(piece, piece_len, sees, [this](const std::uint8_t *rest, std::size_t rest_len) {
            return fast_feed(it_.get(), rest, rest_len, room_->records.data(), room_->records.size(), room_->texts.data(), room_->texts.size());
        });
    }

    // Decodes one packet, which has to end between two messages, and passes its events to a visitor: with FAST_RESET from a new dictionary, with
    // FAST_CONTINUE from the one that the previous packet left. FAST_TRUNCATED, where it ends inside a message, is a fault like those of `decode`,
    // until a reset or FAST_RESET.
    template <class V>
    std::uint32_t packet(const std::uint8_t *data, std::size_t size, V &&sees, std::uint32_t start = FAST_RESET) {
        if (start == FAST_RESET) last_ = at_start;
        return show_all(data, size, sees, [this, start](const std::uint8_t *rest, std::size_t rest_len) mutable {
            const std::uint32_t now = std::exchange(start, std::uint32_t{FAST_CONTINUE});
            return fast_decode_packet(it_.get(), now, rest, rest_len, room_->records.data(), room_->records.size(), room_->texts.data(),
                                      room_->texts.size());
        });
    }

    // Whether the decoder is between two messages, without a fault.
    bool between() const { return last_.between != 0; }
    // The number of bytes consumed since the decoder was made or reset.
    std::uint64_t consumed() const { return last_.consumed; }
    // Returns what the decoder waits for; at a fault, the instruction at which it has stopped.
    fast_due in_hand() const { return fast_in_hand(it_.get()); }
    // Resets the decoder to the start of a stream.
    void reset() {
        fast_reset_decoder(it_.get());
        last_ = at_start;
    }
    const set &templates() const { return set_; }

private:
    struct closes {
        void operator()(fast_decoder *it) const { fast_close_decoder(&it); }
    };

    // Calls `feed` until all bytes are consumed, and passes the events on.
    template <class V, class F> std::uint32_t show_all(const std::uint8_t *piece, std::size_t piece_len, V &sees, F feed) {
        if (!it_) return expect(FAST_CLOSED);
        const bool was_abandoned = last_.status > FAST_MORE;
        do {
            last_ = feed(piece, piece_len);
            for (std::uint64_t i = 0; i < last_.records; i++) visit(room_->records[i], room_->texts.data(), sees);
            piece += last_.taken;
            piece_len -= last_.taken;
        } while (last_.status == FAST_MORE);
        if (last_.status != FAST_DONE && !was_abandoned) sees.abandoned(fault{last_.status, last_.consumed});
        return expect(last_.status, last_.consumed);
    }

    static constexpr fast_fed at_start = {0, 0, 0, 0, 1, FAST_DONE};
    set set_;  // before it_, so that it is closed after it
    std::shared_ptr<buffers> room_;
    std::unique_ptr<fast_decoder, closes> it_;
    fast_fed last_ = at_start;
    std::uint32_t status_ = FAST_CLOSED;
};

// Feeds a piece to a decoder and passes its events to a visitor.
template <class V> std::uint32_t decode(decoder &by, const std::uint8_t *piece, std::size_t piece_len, V &&sees) {
    return by.decode(piece, piece_len, std::forward<V>(sees));
}

// An encoder, which keeps its set alive. It can be moved but not copied; after a move the old one returns FAST_CLOSED.
class encoder {
public:
    explicit encoder(set of, fast_limits limits = fast_default_limits) : set_(std::move(of)) {
        fast_encoder *made = nullptr;
        status_ = expect(fast_open_encoder(set_.get(), limits, &made));
        it_.reset(made);
    }

    // FAST_DONE, or why the encoder was not made: the constructor throws it where exceptions are on.
    std::uint32_t status() const { return status_; }

    // Encodes one message from its records and appends its bytes to `out`. Records and texts are not kept. A refusal changes nothing:
    // FAST_MISPLACED where they are no message, FAST_E1 to FAST_MESSAGE_R9, FAST_MESSAGE_MEMORY. If `out` cannot grow, the bytes stay in the
    // encoder and come first at the next call.
    std::uint32_t encode(const fast_record *records, std::size_t count, const std::uint8_t *texts, std::size_t texts_len,
                         std::vector<std::uint8_t> &out) {
        fast_put put = fast_put_message(it_.get(), records, count, texts, texts_len);
        if (put.status != FAST_DONE) return expect(put.status, put.record);
        std::size_t before = out.size();
        out.resize(before + put.waiting);
        fast_take_bytes(it_.get(), out.data() + before, put.waiting);
        return FAST_DONE;
    }
    // Resets the encoder to the start of a stream: use it where the reader's decoder is reset too.
    void reset() { fast_reset_encoder(it_.get()); }

private:
    struct closes {
        void operator()(fast_encoder *it) const { fast_close_encoder(&it); }
    };
    set set_;
    std::unique_ptr<fast_encoder, closes> it_;
    std::uint32_t status_ = FAST_CLOSED;
};

}  // namespace fast
#endif
