// show TEMPLATES STREAM [PIECE]: prints the lines of a stream, as `fastcat show` does, by a visitor.
#include <fast.hpp>

#include <cstdlib>
#include <fstream>
#include <iostream>
#include <iterator>

struct lines : fast::visitor {
    const fast::set &set;
    std::ostream &out;

    std::ostream &begin(std::uint32_t node) { return out << "field " << node << ' ' << set.node_name(node) << ' '; }
    std::ostream &hex(std::uint8_t byte) { return out << "0123456789abcdef"[byte >> 4] << "0123456789abcdef"[byte & 15]; }
    void quoted(std::string_view text) {
        out << '"';
        for (char c : text) {
            auto byte = static_cast<std::uint8_t>(c);
            if (byte < 0x20 || byte == 0x7f) {
                out << "\\x";
                hex(byte);
            } else {
                if (c == '"' || c == '\\') out << '\\';
                out << c;
            }
        }
        out << "\"\n";
    }

    void message_start(std::uint32_t number) { out << "message " << set.template_name(number) << '\n'; }
    void field(std::uint32_t node, std::uint64_t value) { begin(node) << "u " << value << '\n'; }
    void field(std::uint32_t node, std::int64_t value) { begin(node) << "i " << value << '\n'; }
    void field(std::uint32_t node, fast::decimal value) { begin(node) << "d " << value.mantissa << 'e' << value.exponent << '\n'; }
    void field(std::uint32_t node, fast::ascii value) { begin(node) << "a ", quoted(value.text); }
    void field(std::uint32_t node, fast::unicode value) { begin(node) << "s ", quoted(value.text); }
    void field(std::uint32_t node, fast::bytes value) {
        begin(node) << "b ";
        for (std::size_t i = 0; i < value.size; i++) hex(value.data[i]);
        out << '\n';
    }
    void group_start(std::uint32_t node) { out << "group " << node << ' ' << set.node_name(node) << '\n'; }
    void group_end() { out << "end group\n"; }
    void sequence_start(std::uint32_t node, std::uint32_t count) {
        out << "sequence " << node << ' ' << set.node_name(node) << ' ' << count << '\n';
    }
    void element_start() { out << "element\n"; }
    void element_end() { out << "end element\n"; }
    void sequence_end() { out << "end sequence\n"; }
    void message_end() { out << "end message\n"; }
};

static std::string read_whole(const char *path) {
    std::ifstream file(path, std::ios::binary);
    return {std::istreambuf_iterator<char>(file), {}};
}

int main(int argc, char **argv) {
    if (argc < 3) {
        std::cerr << "show TEMPLATES STREAM [PIECE]\n";
        return 2;
    }
    std::string stream = read_whole(argv[2]);
    std::size_t piece = argc > 3 ? std::strtoull(argv[3], nullptr, 10) : 0;
    if (!piece) piece = stream.size() + 1;
    std::ios::sync_with_stdio(false);
    try {
        fast::set set{read_whole(argv[1])};
        fast::decoder decoder{set};
        lines to{{}, set, std::cout};
        try {
            for (std::size_t at = 0; at < stream.size(); at += piece) {
                std::size_t ahead = std::min(piece, stream.size() - at);
                decoder.decode(reinterpret_cast<const std::uint8_t *>(stream.data()) + at, ahead, to);
            }
        } catch (const fast::error &fault) {
            std::string words = fault.what();
            std::cout << "fault " << words.substr(0, words.find(':')) << " at " << fault.place << '\n';
            return 1;
        }
        if (decoder.between()) return 0;
        std::cout << "truncated at " << decoder.consumed() << '\n';
        return 1;
    } catch (const fast::error &refused) {
        std::cerr << refused.what() << '\n';
        return 2;
    }
}
