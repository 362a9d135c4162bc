// Reads the put lines of a script as SplitStore does, and no more: splits the text into lines and fields, and decodes the
// hexadecimal of CIDs and blocks into memory of their own. Nothing is judged.
//
//     script FILE
#include <cstdint>
#include <cstdio>
#include <cstdlib>
#include <cstring>
#include <string>
#include <string_view>
#include <vector>

struct Pair {
    uint8_t cid[72];
    size_t cid_length;
    std::vector<uint8_t> data;
};

static int8_t values[256];

static bool decode(std::string_view text, uint8_t *out) {
    if (text.size() % 2 != 0) return false;
    int8_t seen = 0;
    for (size_t i = 0; i < text.size(); i += 2) {
        int8_t high = values[uint8_t(text[i])], low = values[uint8_t(text[i + 1])];
        seen |= high | low;
        out[i / 2] = uint8_t(high << 4 | low);
    }
    return seen >= 0;
}

static std::string_view cut(std::string_view &text, char at) {
    const char *found = static_cast<const char *>(memchr(text.data(), at, text.size()));
    size_t length = found ? found - text.data() : text.size();
    std::string_view piece = text.substr(0, length);
    text.remove_prefix(found ? length + 1 : length);
    return piece;
}

int main(int words, char **word) {
    if (words != 2) return 2;
    memset(values, -1, sizeof values);
    for (int i = 0; i < 16; i++) values[uint8_t("0123456789abcdef"[i])] = int8_t(i);
    std::string text;
    FILE *file = fopen(word[1], "rb");
    if (!file) return 1;
    char piece[65536];
    for (size_t n; (n = fread(piece, 1, sizeof piece, file)) > 0;) text.append(piece, n);
    std::vector<std::vector<Pair>> lines;
    for (std::string_view rest = text; !rest.empty();) {
        std::string_view line = cut(rest, '\n');
        std::string_view client = cut(line, ' '), name = cut(line, ' ');
        if (client.empty() || name != "put") continue;
        cut(line, ' ');
        std::vector<Pair> pairs;
        while (!line.empty()) {
            std::string_view cid = cut(line, ' '), data = cut(line, ' ');
            Pair &pair = pairs.emplace_back();
            if (cid.size() > 144) return 1;
            pair.cid_length = cid.size() / 2;
            pair.data.resize(data.size() / 2);
            if (!decode(cid, pair.cid) || !decode(data, pair.data.data())) return 1;
        }
        lines.push_back(std::move(pairs));
    }
    printf("%zu\n", lines.size());
    return 0;
}
