// Messages by name for C++17 and later, over the decoder of fast.hpp.
//
//     fast::message_decoder decoder{fast::set{text}};
//     decoder.decode(piece, piece_len, [](const fast::message &book) {
//         for (fast::item entry : book["MDEntries"]) use(entry["MDEntryPx"].as_decimal());
//     });
//
// Keys are the names of fields, groups and sequences. Of nodes with one name in a segment (a template, a group or the elements of a sequence),
// the second has the key NAME#2, the third NAME#3 and so on, by their places in the template.
//
// A missing field and a value of another type are thrown as fast::access_error, which has the path. With -fno-exceptions operator[] returns an
// item that is nothing, and `read` returns whether there is a value of the type; `as_u64` and the like are not declared.
#ifndef FAST_MESSAGES_HPP
#define FAST_MESSAGES_HPP

#include "fast_items.hpp"

namespace fast {

namespace detail {

// A visitor that makes messages and passes the whole ones on.
template <class F> struct gatherer : visitor {
    message &open;
    F &take;

    gatherer(message &its_open, F &its_take) : open(its_open), take(its_take) {}
    void message_start(std::uint32_t number) {
        open.clear();
        open.add(FAST_MESSAGE_START, number);
    }
    void field(std::uint32_t node, std::uint64_t value) { open.add(FAST_UNSIGNED, node, value); }
    void field(std::uint32_t node, std::int64_t value) { open.add(FAST_SIGNED, node, static_cast<std::uint64_t>(value)); }
    void field(std::uint32_t node, decimal value) {
        open.add(FAST_DECIMAL, node, static_cast<std::uint64_t>(value.mantissa), 0, value.exponent);
    }
    void field(std::uint32_t node, ascii value) { add(FAST_ASCII, node, value.text); }
    void field(std::uint32_t node, unicode value) { add(FAST_UNICODE, node, value.text); }
    void field(std::uint32_t node, bytes value) { open.add_string(FAST_BYTES, node, value.data, value.size); }
    void group_start(std::uint32_t node) { open.add(FAST_GROUP_START, node); }
    void group_end() { open.add(FAST_GROUP_END); }
    void sequence_start(std::uint32_t node, std::uint32_t count) { open.add(FAST_SEQUENCE_START, node, count); }
    void element_start() { open.add(FAST_ELEMENT_START); }
    void element_end() { open.add(FAST_ELEMENT_END); }
    void sequence_end() { open.add(FAST_SEQUENCE_END); }
    void message_end() {
        open.add(FAST_MESSAGE_END);
        take(static_cast<const message &>(open));
        open.clear();
    }

private:
    void add(std::uint32_t kind, std::uint32_t node, std::string_view text) {
        open.add_string(kind, node, reinterpret_cast<const std::uint8_t *>(text.data()), text.size());
    }
};

}  // namespace detail

// A decoder that calls `take` with each whole message, as a const fast::message &, which is valid during the call: copy it to keep it. A message
// that does not end in a piece comes with the piece in which it ends.
class message_decoder {
public:
    explicit message_decoder(set of, fast_limits limits = fast_default_limits, std::size_t records = 4096)
        : decoder_(std::move(of), limits, records), open_(std::make_shared<const detail::forms>(decoder_.templates())) {}
    message_decoder(set of, fast_limits limits, std::shared_ptr<buffers> room)
        : decoder_(std::move(of), limits, std::move(room)), open_(std::make_shared<const detail::forms>(decoder_.templates())) {}
    // FAST_DONE, or why the decoder was not made: the constructor throws it where exceptions are on.
    std::uint32_t status() const { return decoder_.status(); }

    // As `decode` and `packet` of decoder: a fault comes after the messages before it.
    template <class F> std::uint32_t decode(const std::uint8_t *piece, std::size_t piece_len, F &&take) {
        return decoder_.decode(piece, piece_len, detail::gatherer<std::remove_reference_t<F>>(open_, take));
    }
    template <class F> std::uint32_t packet(const std::uint8_t *data, std::size_t size, F &&take, std::uint32_t start = FAST_RESET) {
        if (start == FAST_RESET) open_.clear();
        return decoder_.packet(data, size, detail::gatherer<std::remove_reference_t<F>>(open_, take), start);
    }
    // The message that has begun and not ended, or in which the fault is, as far as it has come.
    const message &partial() const { return open_; }

    // As those of decoder.
    bool between() const { return decoder_.between(); }
    std::uint64_t consumed() const { return decoder_.consumed(); }
    fast_due in_hand() const { return decoder_.in_hand(); }
    const set &templates() const { return decoder_.templates(); }
    void reset() {
        decoder_.reset();
        open_.clear();
    }

private:
    decoder decoder_;
    message open_;
};

// Encodes a message and appends its bytes to `out`, as encoder::encode does. The encoder's set has to be the one of the message's decoder.
inline std::uint32_t encode(encoder &by, const message &of, std::vector<std::uint8_t> &out) {
    return by.encode(of.records().data(), of.records().size(), of.texts().data(), of.texts().size(), out);
}

}  // namespace fast
#endif
