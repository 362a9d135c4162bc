// What LevelDB and RocksDB, which has LevelDB's calls, do alike: a synced write of a batch a put, with the other settings as
// they come. Whoever includes it has named the library `store`.
#include "peer.hh"

static void good(const store::Status &status) {
    if (!status.ok()) fail(status.ToString());
}

static store::Slice slice(std::string_view bytes) { return {bytes.data(), bytes.size()}; }

class Peer {
    store::DB *db = nullptr;

public:
    Peer(const std::string &folder, bool fresh) {
        store::Options options;
        options.create_if_missing = fresh;
        options.compression = store::kNoCompression;
        good(store::DB::Open(options, folder, &db));
    }

    ~Peer() { delete db; }

    void put(const Block *blocks, size_t count) {
        store::WriteBatch batch;
        for (size_t i = 0; i < count; i++) batch.Put(slice(blocks[i].cid), slice(blocks[i].data));
        store::WriteOptions synced;
        synced.sync = true;
        good(db->Write(synced, &batch));
    }

    std::string get(std::string_view cid) {
        std::string data;
        good(db->Get(store::ReadOptions(), slice(cid), &data));
        return data;
    }
};

PEER_MAIN
