// What the peers share: the blocks, the clock and the commands. Each peer has a class Peer and ends with PEER_MAIN. Compiled
// with IMPORTS, a peer has the command of importing.hh instead.
//
//     PEER put FOLDER BLOCKS BATCH   makes a store in the folder and puts the blocks, BATCH at a time, each batch synced
//     PEER get FOLDER BLOCKS         gets each block of the file by its key, in order, and prints `found HEX` for each
//     PEER open FOLDER               opens the store, and nothing more
//
// The first two tell on standard error the seconds that this took, without opening and closing the store. A file of blocks holds,
// for each, a CID of 36 bytes, the length of the data in four bytes, the low byte first, and the data.
#pragma once
#include <algorithm>
#include <chrono>
#include <cstdint>
#include <cstdio>
#include <cstdlib>
#include <cstring>
#include <fstream>
#include <iterator>
#include <string>
#include <string_view>
#include <vector>

struct Block {
    std::string_view cid, data;
};

[[noreturn]] inline void fail(const std::string &why) {
    fprintf(stderr, "%s\n", why.c_str());
    exit(1);
}

inline void need(bool holds, const char *what) {
    if (!holds) fail(what);
}

inline std::string whole(const std::string &path) {
    std::ifstream file(path, std::ios::binary);
    need(file.good(), "no such file");
    return std::string(std::istreambuf_iterator<char>(file), {});
}

inline std::vector<Block> blocks_of(std::string_view bytes) {
    std::vector<Block> blocks;
    while (!bytes.empty()) {
        uint32_t len;
        memcpy(&len, bytes.data() + 36, 4);
        blocks.push_back({bytes.substr(0, 36), bytes.substr(40, len)});
        bytes.remove_prefix(40 + len);
    }
    return blocks;
}

inline double seconds() {
    return std::chrono::duration<double>(std::chrono::steady_clock::now().time_since_epoch()).count();
}

inline void tell(double start) { fprintf(stderr, "%.9f\n", seconds() - start); }

// Lines `found HEX` on standard output, by a buffer of 64 KiB.
class Found {
    std::vector<char> buffer = std::vector<char>(65536);
    char pair[256][2];
    std::string line;

public:
    Found() {
        setvbuf(stdout, buffer.data(), _IOFBF, buffer.size());
        for (int byte = 0; byte < 256; byte++) {
            pair[byte][0] = "0123456789abcdef"[byte >> 4];
            pair[byte][1] = "0123456789abcdef"[byte & 15];
        }
    }

    void print(std::string_view data) {
        line.resize(7 + 2 * data.size());
        char *at = &line[0];
        memcpy(at, "found ", 6);
        at += 6;
        for (uint8_t byte : data) {
            memcpy(at, pair[byte], 2);
            at += 2;
        }
        *at = '\n';
        need(fwrite(line.data(), 1, line.size(), stdout) == line.size(), "standard output");
    }

    void flush() { need(fflush(stdout) == 0, "standard output"); }
};

template <typename Peer> int peer_main(int words, char **word) {
    need(words >= 3, "put, get or open, a folder, and a file of blocks");
    std::string what = word[1], folder = word[2];
    Peer peer(folder, what == "put");
    if (what == "open") return 0;
    need(words >= 4, "a file of blocks");
    std::string bytes = whole(word[3]);
    std::vector<Block> blocks = blocks_of(bytes);
    if (what == "put") {
        size_t batch = strtoul(word[4], nullptr, 10);
        double start = seconds();
        for (size_t at = 0; at < blocks.size(); at += batch)
            peer.put(&blocks[at], std::min(batch, blocks.size() - at));
        tell(start);
        return 0;
    }
    // once to compare, and what that brings into memory is there when it is timed
    for (const Block &block : blocks) need(peer.get(block.cid) == block.data, "another block");
    static Found found;
    double start = seconds();
    for (const Block &block : blocks) found.print(peer.get(block.cid));
    found.flush();
    tell(start);
    return 0;
}

#ifdef IMPORTS
#include "importing.hh"
#define PEER_MAIN \
    int main(int words, char **word) { return import_main<Peer>(words, word); }
#else
#define PEER_MAIN \
    int main(int words, char **word) { return peer_main<Peer>(words, word); }
#endif
