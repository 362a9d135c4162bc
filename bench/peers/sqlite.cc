// SQLite: a transaction a put, with synchronous=FULL and its write-ahead log.
#include "peer.hh"
#include <sqlite3.h>

class Peer {
    sqlite3 *db;
    sqlite3_stmt *insert, *select;

    void good(bool holds) {
        if (!holds) fail(sqlite3_errmsg(db));
    }

    void run(const char *text) { good(sqlite3_exec(db, text, nullptr, nullptr, nullptr) == SQLITE_OK); }

    sqlite3_stmt *statement(const char *text) {
        sqlite3_stmt *made;
        good(sqlite3_prepare_v2(db, text, -1, &made, nullptr) == SQLITE_OK);
        return made;
    }

    void bind(sqlite3_stmt *to, int place, std::string_view bytes) {
        good(sqlite3_bind_blob(to, place, bytes.data(), int(bytes.size()), SQLITE_STATIC) == SQLITE_OK);
    }

public:
    Peer(const std::string &folder, bool fresh) {
        good(sqlite3_open((folder + "/blocks.db").c_str(), &db) == SQLITE_OK);
        run("PRAGMA journal_mode=WAL");
        run("PRAGMA synchronous=FULL");
        if (fresh) run("CREATE TABLE blocks (cid BLOB PRIMARY KEY, data BLOB) WITHOUT ROWID");
        insert = statement("INSERT INTO blocks VALUES (?, ?)");
        select = statement("SELECT data FROM blocks WHERE cid = ?");
    }

    void put(const Block *blocks, size_t count) {
        run("BEGIN");
        for (size_t i = 0; i < count; i++) {
            bind(insert, 1, blocks[i].cid);
            bind(insert, 2, blocks[i].data);
            good(sqlite3_step(insert) == SQLITE_DONE);
            sqlite3_reset(insert);
        }
        run("COMMIT");
    }

    std::string get(std::string_view cid) {
        bind(select, 1, cid);
        good(sqlite3_step(select) == SQLITE_ROW);
        const char *data = static_cast<const char *>(sqlite3_column_blob(select, 0));
        std::string copy(data, sqlite3_column_bytes(select, 0));
        sqlite3_reset(select);
        return copy;
    }
};

PEER_MAIN
