// The work of `im_bench_commits` by other stores: so many threads make so many transactions each, of one insert: a key of 16 bytes, rising within each
// thread, and eight bytes. Each commit is synced before it returns.
//     c++ -O2 -o commits commits.cc -llmdb -lsqlite3 -ldb -lwiredtiger -lrocksdb -lpthread
//     ./commits FOLDER lmdb|sqlite|bdb|wiredtiger|rocksdb THREADS COMMITS
// LMDB has one writer, whose lock its `mdb_txn_begin` waits for. SQLite (WAL, synchronous=FULL) has one too, and is asked under a mutex, since a busy
// connection would sleep and try again. The other three make one sync for those that commit at once. A transaction of Berkeley DB or WiredTiger that
// loses to another is made again. A write of RocksDB is a synced Put after a Get, as a unique index has to look.
#include <chrono>
#include <cstdint>
#include <cstdio>
#include <cstdlib>
#include <cstring>
#include <db.h>
#include <functional>
#include <lmdb.h>
#include <memory>
#include <mutex>
#include <rocksdb/db.h>
#include <sqlite3.h>
#include <string>
#include <thread>
#include <vector>
#include <wiredtiger.h>

static void check(bool good, const char *what, const char *why) {
  if (good) return;
  fprintf(stderr, "%s: %s\n", what, why);
  exit(1);
}

struct Key {
  char bytes[16];
  Key(uint64_t thread, uint64_t number) {
    for (int i = 0; i < 8; i++) bytes[7 - i] = (char)(thread >> 8 * i), bytes[15 - i] = (char)(number >> 8 * i);
  }
};

// One insert, committed. Each thread has one of its own.
using Insert = std::function<void(const Key &, uint64_t)>;

struct Peer {
  virtual ~Peer() {}
  virtual Insert session() = 0;
};

struct Lmdb : Peer {
  MDB_env *env;
  MDB_dbi dbi;
  static void ok(int r, const char *what) { check(r == 0, what, mdb_strerror(r)); }
  explicit Lmdb(const std::string &dir) {
    ok(mdb_env_create(&env), "create");
    ok(mdb_env_set_mapsize(env, 1ull << 30), "map size");
    ok(mdb_env_open(env, dir.c_str(), 0, 0644), "open");
    MDB_txn *txn;
    ok(mdb_txn_begin(env, nullptr, 0, &txn), "begin");
    ok(mdb_dbi_open(txn, nullptr, 0, &dbi), "index");
    ok(mdb_txn_commit(txn), "commit");
  }
  ~Lmdb() { mdb_env_close(env); }
  Insert session() override {
    return [this](const Key &key, uint64_t rid) {
      MDB_txn *txn;
      MDB_val k{sizeof key.bytes, (void *)key.bytes}, v{sizeof rid, &rid};
      ok(mdb_txn_begin(env, nullptr, 0, &txn), "begin");
      ok(mdb_put(txn, dbi, &k, &v, MDB_NOOVERWRITE), "put");
      ok(mdb_txn_commit(txn), "commit");
    };
  }
};

struct Connection {
  sqlite3 *db;
  sqlite3_stmt *insert;
  void ok(int r, const char *what) { check(r == SQLITE_OK || r == SQLITE_DONE, what, sqlite3_errmsg(db)); }
  explicit Connection(const std::string &path) {
    ok(sqlite3_open(path.c_str(), &db), "open");
    const char *words = "PRAGMA page_size=4096; PRAGMA journal_mode=WAL; PRAGMA synchronous=FULL;"
                        "CREATE TABLE IF NOT EXISTS entries(k BLOB PRIMARY KEY, r INTEGER NOT NULL) WITHOUT ROWID";
    ok(sqlite3_exec(db, words, nullptr, nullptr, nullptr), "begin");
    ok(sqlite3_prepare_v2(db, "INSERT INTO entries VALUES(?,?)", -1, &insert, nullptr), "prepare");
  }
  ~Connection() {
    sqlite3_finalize(insert);
    sqlite3_close(db);
  }
  void put(const Key &key, uint64_t rid) {
    sqlite3_bind_blob(insert, 1, key.bytes, sizeof key.bytes, SQLITE_STATIC);
    sqlite3_bind_int64(insert, 2, (sqlite3_int64)rid);
    ok(sqlite3_step(insert), "insert");
    sqlite3_reset(insert);
  }
};

struct Sqlite : Peer {
  std::string path;
  std::mutex turn;
  explicit Sqlite(const std::string &dir) : path(dir + "/entries") { Connection made(path); }
  Insert session() override {
    auto connection = std::make_shared<Connection>(path);
    return [this, connection](const Key &key, uint64_t rid) {
      std::lock_guard<std::mutex> mine(turn);
      connection->put(key, rid);
    };
  }
};

struct Berkeley : Peer {
  DB_ENV *env;
  DB *db;
  static void ok(int r, const char *what) { check(r == 0, what, db_strerror(r)); }
  explicit Berkeley(const std::string &dir) {
    ok(db_env_create(&env, 0), "create");
    ok(env->set_cachesize(env, 0, 64 << 20, 1), "cache");
    ok(env->set_lk_detect(env, DB_LOCK_DEFAULT), "detector");
    ok(env->set_tx_max(env, 200), "transactions");
    int parts = DB_CREATE | DB_INIT_MPOOL | DB_INIT_TXN | DB_INIT_LOG | DB_INIT_LOCK | DB_PRIVATE | DB_THREAD;
    ok(env->open(env, dir.c_str(), parts, 0644), "open");
    ok(db_create(&db, env, 0), "create");
    ok(db->set_pagesize(db, 4096), "page size");
    ok(db->open(db, nullptr, "entries", nullptr, DB_BTREE, DB_CREATE | DB_AUTO_COMMIT | DB_THREAD, 0644), "index");
  }
  ~Berkeley() {
    db->close(db, 0);
    env->close(env, 0);
  }
  bool insert(const Key &key, uint64_t rid) {
    DB_TXN *txn;
    DBT k, v;
    memset(&k, 0, sizeof k), memset(&v, 0, sizeof v);
    k.data = (void *)key.bytes, k.size = sizeof key.bytes;
    v.data = &rid, v.size = sizeof rid;
    ok(env->txn_begin(env, nullptr, &txn, DB_TXN_SYNC), "begin");
    int r = db->put(db, txn, &k, &v, DB_NOOVERWRITE);
    if (r == DB_LOCK_DEADLOCK) {
      ok(txn->abort(txn), "abort");
      return false;
    }
    ok(r, "put");
    ok(txn->commit(txn, 0), "commit");
    return true;
  }
  Insert session() override {
    return [this](const Key &key, uint64_t rid) {
      while (!insert(key, rid)) {}
    };
  }
};

struct Wired : Peer {
  WT_CONNECTION *connection;
  static void ok(int r, const char *what) { check(r == 0, what, wiredtiger_strerror(r)); }
  explicit Wired(const std::string &dir) {
    const char *words = "create,cache_size=64MB,session_max=200,log=(enabled),transaction_sync=(enabled=true,method=fsync)";
    ok(wiredtiger_open(dir.c_str(), nullptr, words, &connection), "open");
    WT_SESSION *session;
    ok(connection->open_session(connection, nullptr, nullptr, &session), "session");
    ok(session->create(session, "table:entries", "key_format=u,value_format=q,leaf_page_max=4KB,internal_page_max=4KB"), "create");
    ok(session->close(session, nullptr), "close");
  }
  ~Wired() { connection->close(connection, nullptr); }
  static bool insert(WT_SESSION *session, WT_CURSOR *cursor, const Key &key, uint64_t rid) {
    WT_ITEM k;
    memset(&k, 0, sizeof k);
    k.data = key.bytes, k.size = sizeof key.bytes;
    ok(session->begin_transaction(session, nullptr), "begin");
    cursor->set_key(cursor, &k);
    cursor->set_value(cursor, (int64_t)rid);
    int r = cursor->insert(cursor);
    if (r == WT_ROLLBACK) {
      ok(session->rollback_transaction(session, nullptr), "rollback");
      return false;
    }
    ok(r, "insert");
    cursor->reset(cursor);
    ok(session->commit_transaction(session, nullptr), "commit");
    return true;
  }
  Insert session() override {
    WT_SESSION *session;
    WT_CURSOR *cursor;
    ok(connection->open_session(connection, nullptr, "isolation=snapshot", &session), "session");
    ok(session->open_cursor(session, "table:entries", nullptr, "overwrite=false", &cursor), "cursor");
    return [session, cursor](const Key &key, uint64_t rid) {
      while (!insert(session, cursor, key, rid)) {}
    };
  }
};

struct Rocks : Peer {
  rocksdb::DB *db;
  static void ok(const rocksdb::Status &s, const char *what) { check(s.ok(), what, s.ToString().c_str()); }
  explicit Rocks(const std::string &dir) {
    rocksdb::Options options;
    options.create_if_missing = true;
    options.compression = rocksdb::kNoCompression;
    ok(rocksdb::DB::Open(options, dir, &db), "open");
  }
  ~Rocks() { delete db; }
  Insert session() override {
    return [this](const Key &key, uint64_t rid) {
      rocksdb::Slice k(key.bytes, sizeof key.bytes);
      rocksdb::WriteOptions options;
      options.sync = true;
      std::string found;
      check(db->Get(rocksdb::ReadOptions(), k, &found).IsNotFound(), "get", "the key is there");
      ok(db->Put(options, k, rocksdb::Slice((const char *)&rid, sizeof rid)), "put");
    };
  }
};

static std::unique_ptr<Peer> opened(const std::string &peer, const std::string &dir) {
  if (peer == "lmdb") return std::make_unique<Lmdb>(dir);
  if (peer == "sqlite") return std::make_unique<Sqlite>(dir);
  if (peer == "bdb") return std::make_unique<Berkeley>(dir);
  if (peer == "wiredtiger") return std::make_unique<Wired>(dir);
  if (peer == "rocksdb") return std::make_unique<Rocks>(dir);
  return nullptr;
}

int main(int argc, char **argv) {
  auto peer = argc == 5 ? opened(argv[2], argv[1]) : nullptr;
  if (!peer) {
    fprintf(stderr, "commits FOLDER lmdb|sqlite|bdb|wiredtiger|rocksdb THREADS COMMITS\n");
    return 2;
  }
  uint64_t threads = strtoull(argv[3], nullptr, 10), commits = strtoull(argv[4], nullptr, 10);
  std::vector<Insert> sessions;
  for (uint64_t i = 0; i < threads; i++) sessions.push_back(peer->session());
  auto start = std::chrono::steady_clock::now();
  std::vector<std::thread> all;
  for (uint64_t i = 0; i < threads; i++)
    all.emplace_back([&sessions, i, commits] {
      for (uint64_t n = 0; n < commits; n++) sessions[i](Key(i, n), n);
    });
  for (auto &one : all) one.join();
  double seconds = std::chrono::duration<double>(std::chrono::steady_clock::now() - start).count();
  printf("%s %s threads: %llu commits in %.0f ms, %.0f a second\n", argv[2], argv[3], (unsigned long long)(threads * commits),
         seconds * 1e3, threads * commits / seconds);
  sessions.clear();
}
