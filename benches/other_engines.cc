// The workloads of fjall-bench over other engines: keys of 16 bytes, values of 100. LevelDB has all of them, SQLite and LMDB
// the fills and the synced writes. `other-engines FOLDER N` runs all; `other-engines FOLDER N fill` LevelDB's fill at random alone;
// `other-engines FOLDER N long ENGINE` the long run over `leveldb`, `rocksdb` or `sqlite`: a fill at random, a merge of all tables,
// reads, a scan, a reopening, and at last the size of the folder; `other-engines FOLDER N threads ENGINE T` a fill at random by T
// threads that share `leveldb` or `rocksdb`, and reads of all pairs by as many; `other-engines FOLDER N index` pairs loaded and found by an
// index over `sqlite`.
// Prints a line a workload on standard error: engine, workload, count, wall seconds, processor seconds, operations a second,
// processor seconds of the calling thread alone, parted by tabs.
#include <leveldb/db.h>
#include <leveldb/write_batch.h>
#include <lmdb.h>
#include <rocksdb/db.h>
#include <sqlite3.h>

#include <algorithm>
#include <chrono>
#include <cstdint>
#include <cstdio>
#include <cstdlib>
#include <cstring>
#include <ctime>
#include <filesystem>
#include <functional>
#include <memory>
#include <numeric>
#include <random>
#include <string>
#include <thread>
#include <vector>

using Numbers = std::vector<uint64_t>;

// So many pairs stand in a batch and in a range, and so many writes are synced one by one at most.
constexpr size_t kBatch = 100;
constexpr size_t kRange = 100;
constexpr size_t kSynced = 500;

static void check(bool ok, const char* what) {
    if (!ok) {
        std::fprintf(stderr, "failed: %s\n", what);
        std::exit(1);
    }
}

static void put_big_endian(char* bytes, uint64_t number) {
    for (int i = 0; i < 8; i++) bytes[i] = static_cast<char>(number >> (56 - 8 * i));
}

// The key of a number: twice the number in 16 bytes, so that a key stands between any two that no number has.
struct Key {
    char bytes[16] = {};
    explicit Key(uint64_t number, bool behind = false) {
        bytes[7] = static_cast<char>(number >> 63);
        put_big_endian(bytes + 8, number * 2 + behind);
    }
    leveldb::Slice slice() const { return {bytes, sizeof bytes}; }
};

// The value of a number, which begins with it.
struct Value {
    char bytes[100];
    explicit Value(uint64_t number) {
        std::memset(bytes, 'v', sizeof bytes);
        put_big_endian(bytes, number);
    }
    leveldb::Slice slice() const { return {bytes, sizeof bytes}; }
};

static bool is_value_of(const std::string& value, uint64_t number) {
    char begin[8];
    put_big_endian(begin, number);
    return value.size() == 100 && std::memcmp(value.data(), begin, sizeof begin) == 0;
}

static Numbers in_order(size_t count) {
    Numbers numbers(count);
    std::iota(numbers.begin(), numbers.end(), 0);
    return numbers;
}

static Numbers at_random(size_t count, uint64_t seed) {
    Numbers numbers = in_order(count);
    std::shuffle(numbers.begin(), numbers.end(), std::mt19937_64(seed));
    return numbers;
}

static double thread_seconds() {
    timespec spent;
    check(clock_gettime(CLOCK_THREAD_CPUTIME_ID, &spent) == 0, "clock");
    return static_cast<double>(spent.tv_sec) + static_cast<double>(spent.tv_nsec) / 1e9;
}

static void measure(const char* engine, const char* workload, size_t count, const std::function<void()>& work) {
    auto wall = std::chrono::steady_clock::now();
    std::clock_t processor = std::clock();
    double thread = thread_seconds();
    work();
    double alone = thread_seconds() - thread;
    double spent = static_cast<double>(std::clock() - processor) / CLOCKS_PER_SEC;
    double seconds = std::chrono::duration<double>(std::chrono::steady_clock::now() - wall).count();
    std::fprintf(stderr, "%s\t%s\t%zu\t%.6f\t%.6f\t%.0f\t%.6f\n", engine, workload, count, seconds, spent, count / seconds, alone);
}

// What an engine is asked to do: open a folder, write a pair with a sync or without one, close.
struct Engine {
    virtual ~Engine() = default;
    virtual void open(const std::string& folder) = 0;
    virtual void put(uint64_t number, bool sync) = 0;
    virtual void close() = 0;
};

// What the long run asks beside: merge all tables, look a pair up, and count all pairs in the order of their keys.
struct LongEngine : Engine {
    virtual void compact() = 0;
    virtual bool has(uint64_t number) = 0;
    virtual size_t pairs() = 0;
};

struct LevelDb : LongEngine {
    leveldb::DB* db = nullptr;
    size_t memtable_bytes = leveldb::Options().write_buffer_size;
    void open(const std::string& folder) override {
        leveldb::Options options;
        options.create_if_missing = true;
        options.compression = leveldb::kNoCompression;
        options.write_buffer_size = memtable_bytes;
        check(leveldb::DB::Open(options, folder, &db).ok(), "leveldb open");
    }
    void put(uint64_t number, bool sync) override {
        leveldb::WriteOptions options;
        options.sync = sync;
        check(db->Put(options, Key(number).slice(), Value(number).slice()).ok(), "leveldb put");
    }
    void close() override {
        delete db;
        db = nullptr;
    }
    void compact() override { db->CompactRange(nullptr, nullptr); }
    bool has(uint64_t number) override {
        std::string value;
        return holds(number, &value);
    }
    size_t pairs() override { return scan(); }
    void remove(uint64_t number) { check(db->Delete(leveldb::WriteOptions(), Key(number).slice()).ok(), "leveldb delete"); }
    void put_all(const uint64_t* from, const uint64_t* to) {
        leveldb::WriteBatch batch;
        for (; from != to; from++) batch.Put(Key(*from).slice(), Value(*from).slice());
        check(db->Write(leveldb::WriteOptions(), &batch).ok(), "leveldb batch");
    }
    bool holds(uint64_t number, std::string* value) {
        return db->Get(leveldb::ReadOptions(), Key(number).slice(), value).ok() && is_value_of(*value, number);
    }
    bool misses(uint64_t number, std::string* value) { return db->Get(leveldb::ReadOptions(), Key(number, true).slice(), value).IsNotFound(); }
    // How many pairs there are, each looked at in the order of the keys.
    size_t scan() {
        std::unique_ptr<leveldb::Iterator> pairs(db->NewIterator(leveldb::ReadOptions()));
        size_t found = 0;
        for (pairs->SeekToFirst(); pairs->Valid(); pairs->Next()) found += pairs->value().size() == 100;
        return found;
    }
    // The same from behind.
    size_t scan_back() {
        std::unique_ptr<leveldb::Iterator> pairs(db->NewIterator(leveldb::ReadOptions()));
        size_t found = 0;
        for (pairs->SeekToLast(); pairs->Valid(); pairs->Prev()) found += pairs->value().size() == 100;
        return found;
    }
    // How many pairs there are from a key on, up to those of a range.
    size_t range(uint64_t number) {
        std::unique_ptr<leveldb::Iterator> pairs(db->NewIterator(leveldb::ReadOptions()));
        size_t found = 0;
        pairs->Seek(Key(number).slice());
        for (size_t at = 0; at < kRange && pairs->Valid(); at++, pairs->Next()) found += pairs->value().size() == 100;
        return found;
    }
};

// By its default options but for compression.
struct RocksDb : LongEngine {
    rocksdb::DB* db = nullptr;
    void open(const std::string& folder) override {
        rocksdb::Options options;
        options.create_if_missing = true;
        options.compression = rocksdb::kNoCompression;
        check(rocksdb::DB::Open(options, folder, &db).ok(), "rocksdb open");
    }
    void put(uint64_t number, bool sync) override {
        rocksdb::WriteOptions options;
        options.sync = sync;
        Key key(number);
        Value value(number);
        check(db->Put(options, rocksdb::Slice(key.bytes, sizeof key.bytes), rocksdb::Slice(value.bytes, sizeof value.bytes)).ok(), "rocksdb put");
    }
    void close() override {
        check(db->Close().ok(), "rocksdb close");
        delete db;
        db = nullptr;
    }
    void compact() override { check(db->CompactRange(rocksdb::CompactRangeOptions(), nullptr, nullptr).ok(), "rocksdb compact"); }
    bool has(uint64_t number) override {
        Key key(number);
        std::string value;
        return db->Get(rocksdb::ReadOptions(), rocksdb::Slice(key.bytes, sizeof key.bytes), &value).ok() && is_value_of(value, number);
    }
    size_t pairs() override {
        std::unique_ptr<rocksdb::Iterator> pairs(db->NewIterator(rocksdb::ReadOptions()));
        size_t found = 0;
        for (pairs->SeekToFirst(); pairs->Valid(); pairs->Next()) found += pairs->value().size() == 100;
        return found;
    }
};

// Each write is a transaction of its own, over a write-ahead log; unsynced ones leave the log to the system.
struct Sqlite : LongEngine {
    sqlite3* db = nullptr;
    sqlite3_stmt* insert = nullptr;
    sqlite3_stmt* select = nullptr;
    bool synced = false;
    void run(const char* statement) { check(sqlite3_exec(db, statement, nullptr, nullptr, nullptr) == SQLITE_OK, statement); }
    void open(const std::string& folder) override {
        std::filesystem::create_directories(folder);
        check(sqlite3_open((folder + "/data.sqlite").c_str(), &db) == SQLITE_OK, "sqlite open");
        run("pragma journal_mode = wal");
        run("pragma synchronous = off");
        synced = false;
        run("create table if not exists items (k blob primary key, v blob) without rowid");
        check(sqlite3_prepare_v2(db, "insert into items values (?, ?)", -1, &insert, nullptr) == SQLITE_OK, "sqlite prepare");
        check(sqlite3_prepare_v2(db, "select v from items where k = ?", -1, &select, nullptr) == SQLITE_OK, "sqlite prepare");
    }
    void put(uint64_t number, bool sync) override {
        if (sync && !synced) {
            run("pragma synchronous = full");
            synced = true;
        }
        Key key(number);
        Value value(number);
        sqlite3_bind_blob(insert, 1, key.bytes, sizeof key.bytes, SQLITE_STATIC);
        sqlite3_bind_blob(insert, 2, value.bytes, sizeof value.bytes, SQLITE_STATIC);
        check(sqlite3_step(insert) == SQLITE_DONE, "sqlite insert");
        sqlite3_reset(insert);
    }
    void close() override {
        sqlite3_finalize(insert);
        sqlite3_finalize(select);
        sqlite3_close(db);
    }
    // A B-tree in one file has no tables to merge: its log is brought into it.
    void compact() override { run("pragma wal_checkpoint(truncate)"); }
    bool has(uint64_t number) override {
        Key key(number);
        sqlite3_bind_blob(select, 1, key.bytes, sizeof key.bytes, SQLITE_STATIC);
        bool found = sqlite3_step(select) == SQLITE_ROW;
        std::string value;
        if (found) value.assign(static_cast<const char*>(sqlite3_column_blob(select, 0)), sqlite3_column_bytes(select, 0));
        sqlite3_reset(select);
        return found && is_value_of(value, number);
    }
    size_t pairs() override {
        sqlite3_stmt* all = nullptr;
        check(sqlite3_prepare_v2(db, "select v from items order by k", -1, &all, nullptr) == SQLITE_OK, "sqlite prepare");
        size_t found = 0;
        while (sqlite3_step(all) == SQLITE_ROW) found += sqlite3_column_bytes(all, 0) == 100;
        sqlite3_finalize(all);
        return found;
    }
};

// Each write is a transaction of its own.
struct Lmdb : Engine {
    MDB_env* env = nullptr;
    MDB_dbi dbi = 0;
    void open(const std::string& folder) override {
        std::filesystem::create_directories(folder);
        check(mdb_env_create(&env) == 0, "lmdb create");
        check(mdb_env_set_mapsize(env, size_t{1} << 32) == 0, "lmdb map");
        check(mdb_env_open(env, folder.c_str(), 0, 0644) == 0, "lmdb open");
        MDB_txn* txn = nullptr;
        check(mdb_txn_begin(env, nullptr, 0, &txn) == 0 && mdb_dbi_open(txn, nullptr, 0, &dbi) == 0 && mdb_txn_commit(txn) == 0, "lmdb table");
    }
    void put(uint64_t number, bool sync) override {
        check(mdb_env_set_flags(env, MDB_NOSYNC, sync ? 0 : 1) == 0, "lmdb flags");
        MDB_txn* txn = nullptr;
        check(mdb_txn_begin(env, nullptr, 0, &txn) == 0, "lmdb begin");
        Key key(number);
        Value value(number);
        MDB_val k{sizeof key.bytes, key.bytes};
        MDB_val v{sizeof value.bytes, value.bytes};
        check(mdb_put(txn, dbi, &k, &v, 0) == 0 && mdb_txn_commit(txn) == 0, "lmdb put");
    }
    void close() override { mdb_env_close(env); }
};

// Writes each number's pair.
static void fill(Engine& engine, const char* name, const char* workload, const Numbers& numbers) {
    measure(name, workload, numbers.size(), [&] {
        for (uint64_t number : numbers) engine.put(number, false);
    });
}

// Fills a new database and closes it.
static void fill_new(Engine& engine, const char* name, const char* workload, const std::string& folder, const Numbers& numbers) {
    engine.open(folder);
    fill(engine, name, workload, numbers);
    engine.close();
}

// The workloads that each engine has.
static void run(Engine& engine, const char* name, const std::string& folder, size_t count) {
    std::string place = folder + "/" + name;
    fill_new(engine, name, "fill in order", place + "_order", in_order(count));
    fill_new(engine, name, "fill at random", place + "_random", at_random(count, 1));
    size_t few = std::min(count, kSynced);
    engine.open(place + "_sync");
    measure(name, "one sync a write", few, [&] {
        for (size_t number = 0; number < few; number++) engine.put(number, true);
    });
    engine.close();
}

// Looks each number's key up, or the key behind it, which isn't there.
static void look_up(LevelDb& engine, const char* workload, const Numbers& numbers, bool there) {
    measure("leveldb", workload, numbers.size(), [&] {
        std::string value;
        for (uint64_t number : numbers) check(there ? engine.holds(number, &value) : engine.misses(number, &value), workload);
    });
}

// LevelDB with memtables as large as this engine's, so that 400,000 pairs stay in memory and in the log.
static void use_memtables(const std::string& folder, size_t count) {
    LevelDb engine;
    engine.memtable_bytes = size_t{64} << 20;
    fill_new(engine, "leveldb", "fill in order, 64 MB in memory", folder + "/leveldb_order_log", in_order(count));
    measure("leveldb", "reopen after fill in order", count, [&] { engine.open(folder + "/leveldb_order_log"); });
    engine.close();
    engine.open(folder + "/leveldb_random_log");
    fill(engine, "leveldb", "fill at random, 64 MB in memory", at_random(count, 1));
    look_up(engine, "read hit from memtables", at_random(count, 2), true);
    engine.close();
    measure("leveldb", "reopen after fill at random", count, [&] { engine.open(folder + "/leveldb_random_log"); });
    engine.close();
}

// Reads what was filled at random, once it is merged into one level; then writes over all of it, and deletes it.
static void use_tables(const std::string& folder, size_t count) {
    LevelDb engine;
    Numbers numbers = at_random(count, 2);
    engine.open(folder + "/leveldb_random");
    measure("leveldb", "compact", count, [&] { engine.db->CompactRange(nullptr, nullptr); });
    look_up(engine, "first read hit from tables", numbers, true);
    look_up(engine, "read hit from tables", numbers, true);
    look_up(engine, "read miss from tables", numbers, false);
    measure("leveldb", "scan forward", count, [&] { check(engine.scan() == count, "leveldb scan"); });
    measure("leveldb", "scan back", count, [&] { check(engine.scan_back() == count, "leveldb scan back"); });
    size_t ranges = std::max<size_t>(count / kRange, 1);
    measure("leveldb", "range of 100", ranges, [&] {
        for (size_t at = 0; at < ranges; at++) check(engine.range(numbers[at]) == std::min(kRange, count - numbers[at]), "leveldb range");
    });
    fill(engine, "leveldb", "overwrite at random", numbers);
    measure("leveldb", "delete at random", count, [&] {
        for (uint64_t number : numbers) engine.remove(number);
    });
    check(engine.scan() == 0, "leveldb deletes");
    engine.close();
}

// Writes batches of pairs at random.
static void use_batches(const std::string& folder, size_t count) {
    LevelDb engine;
    Numbers numbers = at_random(count, 1);
    engine.open(folder + "/leveldb_batch");
    measure("leveldb", "batches of 100 writes", count, [&] {
        for (size_t at = 0; at < count; at += kBatch) engine.put_all(&numbers[at], numbers.data() + std::min(at + kBatch, count));
    });
    engine.close();
}

// How many bytes the files of a folder have.
static uintmax_t folder_bytes(const std::string& folder) {
    uintmax_t bytes = 0;
    for (const auto& file : std::filesystem::recursive_directory_iterator(folder)) {
        if (file.is_regular_file()) bytes += file.file_size();
    }
    return bytes;
}

// A fill at random, a merge of all tables, reads at random and a scan of all, and a reopening.
static void run_long(LongEngine& engine, const char* name, const std::string& folder, size_t count) {
    std::string place = folder + "/" + name + "_long";
    engine.open(place);
    fill(engine, name, "long: fill at random", at_random(count, 1));
    measure(name, "long: major merge", count, [&] { engine.compact(); });
    Numbers asked = at_random(count, 2);
    asked.resize(std::max<size_t>(count / 5, 1));
    measure(name, "long: read hit", asked.size(), [&] {
        for (uint64_t number : asked) check(engine.has(number), "long read");
    });
    measure(name, "long: scan forward", count, [&] { check(engine.pairs() == count, "long scan"); });
    measure(name, "long: close", count, [&] { engine.close(); });
    measure(name, "long: reopen", count, [&] { engine.open(place); });
    engine.close();
    std::printf("%s: folder of %ju bytes, %.2f times its pairs\n", name, folder_bytes(place), static_cast<double>(folder_bytes(place)) / (116.0 * count));
}

// Does something with each number, of which each thread takes the ones at its place in each row of as many as there are threads.
static void share_out(const char* name, const char* workload, const Numbers& numbers, size_t threads, const std::function<void(uint64_t)>& work) {
    measure(name, workload, numbers.size(), [&] {
        std::vector<std::thread> all;
        for (size_t place = 0; place < threads; place++) {
            all.emplace_back([&, place] {
                for (size_t at = place; at < numbers.size(); at += threads) work(numbers[at]);
            });
        }
        for (std::thread& one : all) one.join();
    });
}

// A fill at random and reads at random, each by so many threads.
static void run_threads(LongEngine& engine, const char* name, const std::string& folder, size_t count, size_t threads) {
    engine.open(folder + "/" + name + "_threads");
    std::string by = ", " + std::to_string(threads) + (threads == 1 ? " thread" : " threads");
    share_out(name, ("fill at random" + by).c_str(), at_random(count, 1), threads, [&](uint64_t number) { engine.put(number, false); });
    share_out(name, ("read" + by).c_str(), at_random(count, 2), threads, [&](uint64_t number) { check(engine.has(number), "read by threads"); });
    engine.close();
}

// So many pairs are loaded in one transaction, and so many have one field.
constexpr size_t kLoaded = 10000;
constexpr size_t kAlike = 10;

// Pairs at random, loaded in transactions, found by the field that their values begin with, and their index made anew.
static void use_index(const std::string& folder, size_t count) {
    Sqlite sqlite;
    sqlite.open(folder + "/sqlite_index");
    sqlite.run("create index by_group on items (substr(v, 1, 8))");
    size_t groups = (count + kAlike - 1) / kAlike;
    Numbers numbers = at_random(count, 1);
    measure("sqlite", "index: load", count, [&] {
        for (size_t at = 0; at < count; at += kLoaded) {
            sqlite.run("begin");
            for (size_t place = at; place < std::min(at + kLoaded, count); place++) {
                Key key(numbers[place]);
                Value value(numbers[place] % groups);
                sqlite3_bind_blob(sqlite.insert, 1, key.bytes, sizeof key.bytes, SQLITE_STATIC);
                sqlite3_bind_blob(sqlite.insert, 2, value.bytes, sizeof value.bytes, SQLITE_STATIC);
                check(sqlite3_step(sqlite.insert) == SQLITE_DONE, "sqlite insert");
                sqlite3_reset(sqlite.insert);
            }
            sqlite.run("commit");
        }
    });
    sqlite3_stmt* select = nullptr;
    check(sqlite3_prepare_v2(sqlite.db, "select k, v from items where substr(v, 1, 8) = ? order by k", -1, &select, nullptr) == SQLITE_OK, "sqlite prepare");
    size_t found = 0;
    measure("sqlite", "index: find", count, [&] {
        for (uint64_t group : at_random(groups, 2)) {
            char field[8];
            put_big_endian(field, group);
            sqlite3_bind_blob(select, 1, field, sizeof field, SQLITE_STATIC);
            while (sqlite3_step(select) == SQLITE_ROW) found += sqlite3_column_bytes(select, 1) == 100;
            sqlite3_reset(select);
        }
    });
    sqlite3_finalize(select);
    check(found == count, "sqlite index");
    measure("sqlite", "index: rebuild", count, [&] { sqlite.run("reindex by_group"); });
    sqlite.close();
}

// The engine of a name.
static std::unique_ptr<LongEngine> engine_of(const std::string& name) {
    if (name == "leveldb") return std::make_unique<LevelDb>();
    if (name == "rocksdb") return std::make_unique<RocksDb>();
    check(name == "sqlite", "no such engine");
    return std::make_unique<Sqlite>();
}

int main(int argc, char** argv) {
    bool is_fill = argc == 4 && std::strcmp(argv[3], "fill") == 0;
    bool is_long = argc == 5 && std::strcmp(argv[3], "long") == 0;
    bool is_index = argc == 4 && std::strcmp(argv[3], "index") == 0;
    bool is_threads = argc == 6 && std::strcmp(argv[3], "threads") == 0 && std::strcmp(argv[4], "sqlite") != 0;
    check(argc == 3 || is_fill || is_index || is_long || is_threads, "usage: other-engines FOLDER N [fill | index | long ENGINE | threads ENGINE T]");
    std::string folder = argv[1];
    size_t count = std::strtoull(argv[2], nullptr, 10);
    check(count > 0, "N is no count");
    std::filesystem::create_directories(folder);
    if (is_threads) {
        size_t threads = std::strtoull(argv[5], nullptr, 10);
        check(threads > 0, "T is no count");
        run_threads(*engine_of(argv[4]), argv[4], folder, count, threads);
        return 0;
    }
    if (is_index) {
        use_index(folder, count);
        return 0;
    }
    if (is_long) {
        run_long(*engine_of(argv[4]), argv[4], folder, count);
        return 0;
    }
    LevelDb leveldb;
    if (is_fill) {
        fill_new(leveldb, "leveldb", "fill at random", folder + "/leveldb_fill", at_random(count, 1));
        return 0;
    }
    run(leveldb, "leveldb", folder, count);
    use_memtables(folder, count);
    use_tables(folder, count);
    use_batches(folder, count);
    Sqlite sqlite;
    run(sqlite, "sqlite", folder, count);
    Lmdb lmdb;
    run(lmdb, "lmdb", folder, count);
}
