// What the peers do with a CAR, in place of the commands of peer.hh: its sections are put in the groups in which SplitStore
// puts them, each group synced.
//
//     PEER import FOLDER CAR plain|hashed
//
// `hashed` hashes each block and compares it with its CID: SHA-256 by libcrypto, BLAKE2b by libb2, as libcrypto has none of
// 32 bytes. The number of sections is printed. The seconds that this took are told on standard error, from the first read
// of the file on, without opening and closing the store.
#pragma once
#include "peer.hh"
#include <blake2.h>
#include <openssl/evp.h>

using Bytes = const unsigned char *;

static const size_t GROUP = 256, GROUP_BYTES = 4 << 20;

static bool varint_in(std::string_view &bytes, uint64_t &number) {
    number = 0;
    for (int shift = 0; shift < 63 && !bytes.empty(); shift += 7) {
        uint8_t byte = bytes[0];
        bytes.remove_prefix(1);
        number |= uint64_t(byte & 127) << shift;
        if (byte < 128) return true;
    }
    return false;
}

class Car {
    FILE *file;
    std::vector<char> buffer = std::vector<char>(65536);

    // A length; false at the end of the file.
    bool length(uint64_t &number) {
        number = 0;
        for (int shift = 0; shift < 63; shift += 7) {
            int byte = getc_unlocked(file);
            if (byte == EOF) {
                need(shift == 0, "the CAR is cut");
                return false;
            }
            number |= uint64_t(byte & 127) << shift;
            if (byte < 128) return true;
        }
        fail("a length that is too long");
    }

public:
    explicit Car(const char *path) : file(fopen(path, "rb")) {
        need(file, "no such file");
        setvbuf(file, buffer.data(), _IOFBF, buffer.size());
    }

    // The next header or section; false at the end of the file.
    bool next(std::string &body) {
        uint64_t len;
        if (!length(len)) return false;
        need(len <= 8 << 20, "a section that is too large");
        body.resize(len);
        need(fread(&body[0], 1, len, file) == len, "the CAR is cut");
        return true;
    }
};

class Hashing {
    EVP_MD_CTX *context = EVP_MD_CTX_new();
    EVP_MD *sha256 = EVP_MD_fetch(nullptr, "SHA256", nullptr);

public:
    bool is(uint64_t code, std::string_view digest, std::string_view data) {
        unsigned char made[32];
        if (digest.size() != sizeof made) return false;
        if (code == 0x12) {
            if (!EVP_DigestInit_ex2(context, sha256, nullptr) || !EVP_DigestUpdate(context, data.data(), data.size()) ||
                !EVP_DigestFinal_ex(context, made, nullptr))
                return false;
        } else if (code != 0xb220 || blake2b(made, data.data(), nullptr, sizeof made, data.size(), 0) != 0) {
            return false;
        }
        return memcmp(made, digest.data(), sizeof made) == 0;
    }
};

// The block of a section, which is hashed if that is asked for.
static Block block_in(std::string_view body, Hashing *hashing) {
    std::string_view rest = body;
    uint64_t version, codec, code, len;
    need(varint_in(rest, version) && varint_in(rest, codec) && varint_in(rest, code) && varint_in(rest, len), "no CID");
    need(version == 1 && len <= rest.size(), "no CID");
    size_t end = body.size() - rest.size() + len;
    Block block = {body.substr(0, end), body.substr(end)};
    need(!hashing || hashing->is(code, rest.substr(0, len), block.data), "a block that is not its CID's");
    return block;
}

template <typename Peer> int import_main(int words, char **word) {
    need(words == 5, "import, a folder, a CAR, and plain or hashed");
    Peer peer(word[2], true);
    Hashing hashing, *by = std::string(word[4]) == "hashed" ? &hashing : nullptr;
    double start = seconds();
    Car car(word[3]);
    std::vector<std::string> bodies(GROUP + 1);
    std::vector<Block> group;
    size_t size = 0, count = 0;
    need(car.next(bodies[0]), "no header");
    for (std::string *body = &bodies[0]; car.next(*body); body = &bodies[group.size()]) {
        if (!group.empty() && (group.size() == GROUP || size + body->size() > GROUP_BYTES)) {
            peer.put(group.data(), group.size());
            std::swap(bodies[0], *body);
            body = &bodies[0];
            group.clear();
            size = 0;
        }
        group.push_back(block_in(*body, by));
        size += body->size();
        count++;
    }
    if (!group.empty()) peer.put(group.data(), group.size());
    tell(start);
    printf("%zu\n", count);
    return 0;
}
