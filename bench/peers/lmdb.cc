// LMDB: a transaction a put, synced when it commits; all gets in one transaction that only reads.
#include "peer.hh"
#include <lmdb.h>

static void good(int status) {
    if (status != 0) fail(mdb_strerror(status));
}

static MDB_val value(std::string_view bytes) { return {bytes.size(), const_cast<char *>(bytes.data())}; }

class Peer {
    MDB_env *env;
    MDB_dbi table;
    MDB_txn *reader = nullptr;

public:
    Peer(const std::string &folder, bool fresh) {
        MDB_txn *txn;
        good(mdb_env_create(&env));
        good(mdb_env_set_mapsize(env, size_t(1) << 32));
        good(mdb_env_open(env, folder.c_str(), 0, 0644));
        good(mdb_txn_begin(env, nullptr, fresh ? 0 : MDB_RDONLY, &txn));
        good(mdb_dbi_open(txn, nullptr, 0, &table));
        good(mdb_txn_commit(txn));
        if (!fresh) good(mdb_txn_begin(env, nullptr, MDB_RDONLY, &reader));
    }

    void put(const Block *blocks, size_t count) {
        MDB_txn *txn;
        good(mdb_txn_begin(env, nullptr, 0, &txn));
        for (size_t i = 0; i < count; i++) {
            MDB_val key = value(blocks[i].cid), data = value(blocks[i].data);
            good(mdb_put(txn, table, &key, &data, 0));
        }
        good(mdb_txn_commit(txn));
    }

    // the bytes in the map of the file: they are printed from there
    std::string_view get(std::string_view cid) {
        MDB_val key = value(cid), data;
        good(mdb_get(reader, table, &key, &data));
        return {static_cast<char *>(data.mv_data), data.mv_size};
    }
};

PEER_MAIN
