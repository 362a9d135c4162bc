// A log as SplitStore writes it, by four calls a record and nothing else: the frame is written and synced, its gate is
// opened and synced. For `get` it reads the file once and enters each block into a std::map; the log may be SplitStore's.
#include "peer.hh"
#include <array>
#include <fcntl.h>
#include <map>
#include <sys/stat.h>
#include <unistd.h>

using Key = std::array<char, 36>;

static void put_number(std::string &out, uint32_t number, int length) {
    while (length-- > 0) out.push_back(char(number >> (8 * length)));
}

static uint32_t number_at(const std::string &bytes, size_t at, int length) {
    uint32_t number = 0;
    for (int i = 0; i < length; i++) number = number << 8 | uint8_t(bytes[at + i]);
    return number;
}

class Peer {
    int file;
    off_t end = 0;
    std::map<Key, std::pair<uint64_t, uint32_t>> places;

    void write_synced(const char *bytes, size_t len, off_t at) {
        need(pwrite(file, bytes, len, at) == ssize_t(len), "pwrite");
        need(fdatasync(file) == 0, "fdatasync");
    }

    // Enters the blocks of a Put whose body begins at `at`.
    void enter_put(const std::string &log, size_t at) {
        uint32_t count = number_at(log, at + 1, 2);
        for (at += 3; count > 0; count--) {
            Key key;
            memcpy(key.data(), &log[at], key.size());
            uint32_t len = number_at(log, at + 36, 4);
            places[key] = {at + 40, len};
            at += 40 + len;
        }
    }

    void read_log() {
        struct stat state;
        need(fstat(file, &state) == 0, "fstat");
        std::string log(state.st_size, 0);
        need(pread(file, &log[0], log.size(), 0) == state.st_size, "pread");
        size_t at = 0;
        while (uint8_t(log[at]) == 0xa5) {
            if (log[at + 5] == 3) enter_put(log, at + 5);
            at += 5 + number_at(log, at + 1, 4);
        }
        end = at;
    }

public:
    Peer(const std::string &folder, bool fresh) {
        file = open((folder + "/hot-a.log").c_str(), O_RDWR | (fresh ? O_CREAT | O_TRUNC : 0), 0644);
        need(file >= 0, "open");
        if (fresh)
            write_synced("", 1, 0);
        else
            read_log();
    }

    void put(const Block *blocks, size_t count) {
        std::string frame(4, 0);
        put_number(frame, 3, 1);
        put_number(frame, count, 2);
        for (size_t i = 0; i < count; i++) {
            frame += blocks[i].cid;
            put_number(frame, blocks[i].data.size(), 4);
            frame += blocks[i].data;
        }
        std::string length;
        put_number(length, frame.size() - 4, 4);
        frame.replace(0, 4, length);
        frame.push_back(0);
        write_synced(frame.data(), frame.size(), end + 1);
        write_synced("\xa5", 1, end);
        end += frame.size();
    }

    std::string get(std::string_view cid) {
        Key key;
        memcpy(key.data(), cid.data(), key.size());
        auto [at, len] = places.at(key);
        std::string data(len, 0);
        need(pread(file, &data[0], len, at) == ssize_t(len), "pread");
        return data;
    }
};

PEER_MAIN
