// SQLite: a table of two integers with a log of what is written (WAL), a connection a session, and statements that are prepared once. A put is a transaction of
// its own, unless one was begun. Keys are numbers with a sign to SQLite, so their order is another one.
#include <sqlite3.h>

#include "store.h"

namespace {

// How long a session waits while another one writes.
constexpr int PATIENCE_MILLISECONDS = 600'000;

class Connection {
 public:
  Connection(const std::string& file, Files files) {
    constexpr int FLAGS = SQLITE_OPEN_READWRITE | SQLITE_OPEN_CREATE | SQLITE_OPEN_NOMUTEX;
    must(sqlite3_open_v2(file.c_str(), &own_, FLAGS, nullptr));
    must(sqlite3_busy_timeout(own_, PATIENCE_MILLISECONDS));
    execute(files == Files::synced ? "PRAGMA synchronous = FULL" : "PRAGMA synchronous = OFF");
  }
  ~Connection() { sqlite3_close_v2(own_); }
  Connection(const Connection&) = delete;

  void must(int status, int right = SQLITE_OK) const {
    if (status != right) throw std::runtime_error(sqlite3_errmsg(own_));
  }
  void execute(const char* text) const { must(sqlite3_exec(own_, text, nullptr, nullptr, nullptr)); }
  // How many rows the last statement that wrote has changed.
  int changes() const { return sqlite3_changes(own_); }
  sqlite3* own() const { return own_; }

 private:
  sqlite3* own_ = nullptr;
};

class Statement {
 public:
  Statement(const Connection& connection, const char* text) : connection_(connection) {
    connection.must(sqlite3_prepare_v3(connection.own(), text, -1, SQLITE_PREPARE_PERSISTENT, &own_, nullptr));
  }
  ~Statement() { sqlite3_finalize(own_); }
  Statement(const Statement&) = delete;

  // Runs it with these numbers. Gives the first number of its row, where there is one.
  template <typename... Numbers>
  std::optional<uint64_t> run(Numbers... numbers) {
    int place = 0;
    (connection_.must(sqlite3_bind_int64(own_, ++place, sqlite3_int64(numbers))), ...);
    const int status = sqlite3_step(own_);
    std::optional<uint64_t> found;
    if (status == SQLITE_ROW) {
      found = uint64_t(sqlite3_column_int64(own_, 0));
    } else {
      connection_.must(status, SQLITE_DONE);
    }
    connection_.must(sqlite3_reset(own_));
    return found;
  }

 private:
  const Connection& connection_;
  sqlite3_stmt* own_ = nullptr;
};

class SqliteSession : public Session {
 public:
  SqliteSession(const std::string& file, Files files) : connection_(file, files) {}

  std::optional<uint64_t> get(uint64_t key) override { return get_.run(key); }

  bool put(uint64_t key, uint64_t value) override {
    if (!is_begun_) begin_.run();
    update_.run(value, key);
    const bool is_new = connection_.changes() == 0;
    if (is_new) insert_.run(key, value);
    if (!is_begun_) commit_.run();
    return is_new;
  }

  bool del(uint64_t key) override {
    delete_.run(key);
    return connection_.changes() == 1;
  }

  void begin() override {
    begin_.run();
    is_begun_ = true;
  }

  void commit() override {
    commit_.run();
    is_begun_ = false;
  }

 private:
  Connection connection_;
  Statement begin_{connection_, "BEGIN IMMEDIATE"}, commit_{connection_, "COMMIT"};
  Statement get_{connection_, "SELECT value FROM pairs WHERE key = ?1"};
  Statement update_{connection_, "UPDATE pairs SET value = ?1 WHERE key = ?2"};
  Statement insert_{connection_, "INSERT INTO pairs VALUES (?1, ?2)"};
  Statement delete_{connection_, "DELETE FROM pairs WHERE key = ?1"};
  bool is_begun_ = false;
};

class SqliteStore : public Store {
 public:
  SqliteStore(const std::string& folder, Files files) : file_(folder + "/pairs"), files_(files), connection_(file_, files) {
    connection_.execute("PRAGMA journal_mode = WAL");
    connection_.execute("CREATE TABLE IF NOT EXISTS pairs (key INTEGER PRIMARY KEY, value INTEGER NOT NULL)");
  }
  std::unique_ptr<Session> session() override { return std::make_unique<SqliteSession>(file_, files_); }

  // The log is synced, brought into the table's file, and that one synced.
  void sync() override {
    connection_.execute("PRAGMA synchronous = FULL");
    require(Statement(connection_, "PRAGMA wal_checkpoint(TRUNCATE)").run() == 0, "sync");
  }

 private:
  std::string file_;
  Files files_;
  // Open as long as the store is, so that no session's end brings the log into the table's file.
  Connection connection_;
};

}  // namespace

std::unique_ptr<Store> open_store(const Settings& settings) { return std::make_unique<SqliteStore>(settings.folder, settings.files); }
