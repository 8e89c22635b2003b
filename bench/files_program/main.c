// Makes the calls of a run again, at two servers in files of the C library's SQLite.
//
//   main CALLS FILE FILE    what bench/calls_program wrote down, and the new files of the servers hq and shop
//
// Each file has the table of the program. A call is the statement that the program runs at it, prepared once, and a row that is
// read is copied out. Whether there is a row, and how long its value is, must be what the program got. The calls are read before
// the clock starts, which runs from the opening of the files to their closing. It prints the microseconds and the count of the
// calls.
#include <sqlite3.h>
#include <stdint.h>
#include <stdio.h>
#include <stdlib.h>
#include <string.h>
#include <time.h>

// The statements are those of crates/keep_sqlite/src/statements.rt.
static const char CREATE[] = "CREATE TABLE IF NOT EXISTS kv (a INTEGER NOT NULL, t INTEGER NOT NULL, "
                             "k BLOB NOT NULL, v BLOB NOT NULL, PRIMARY KEY (a, t, k))";
static const char BEGIN[] = "BEGIN";
static const char COMMIT[] = "COMMIT";
static const char ROLLBACK[] = "ROLLBACK";
static const char GET[] = "SELECT v FROM kv WHERE a = ?1 AND t = ?2 AND k = ?3";
static const char NEXT[] = "SELECT k, v FROM kv WHERE a = ?1 AND t = ?2 AND k > ?3 ORDER BY k LIMIT 1";
static const char UPSERT[] = "INSERT INTO kv (a, t, k, v) VALUES (?1, ?2, ?3, ?4) "
                             "ON CONFLICT (a, t, k) DO UPDATE SET v = excluded.v";
static const char DELETE[] = "DELETE FROM kv WHERE a = ?1 AND t = ?2 AND k = ?3";

// The most bytes that a key and a value have.
enum { KEY_LIMIT = 1024, VALUE_LIMIT = 262144 };

// The bytes of a call before its key.
enum { HEAD = 16 };

struct server {
    sqlite3 *db;
    sqlite3_stmt *begin, *commit, *rollback, *get, *next, *upsert, *remove;
};

struct call {
    unsigned char letter, server, area, found;
    uint32_t table, key_length, value_length;
    const unsigned char *key, *value;
};

static void stop(const char *why) {
    fprintf(stderr, "bench/files: %s\n", why);
    exit(1);
}

// Stops with what the library says of its last call if that failed.
static void need(struct server *server, int is_well) {
    if (!is_well)
        stop(sqlite3_errmsg(server->db));
}

static void run_text(struct server *server, const char *text) {
    need(server, sqlite3_exec(server->db, text, NULL, NULL, NULL) == SQLITE_OK);
}

static sqlite3_stmt *prepare(struct server *server, const char *text) {
    sqlite3_stmt *statement = NULL;
    need(server, sqlite3_prepare_v2(server->db, text, -1, &statement, NULL) == SQLITE_OK);
    return statement;
}

// Opens a new file. What isn't set here is as the library has it.
static void open_server(struct server *server, const char *path) {
    need(server, sqlite3_open(path, &server->db) == SQLITE_OK);
    run_text(server, "PRAGMA journal_mode = WAL");
    run_text(server, "PRAGMA synchronous = FULL");
    run_text(server, CREATE);
    server->begin = prepare(server, BEGIN);
    server->commit = prepare(server, COMMIT);
    server->rollback = prepare(server, ROLLBACK);
    server->get = prepare(server, GET);
    server->next = prepare(server, NEXT);
    server->upsert = prepare(server, UPSERT);
    server->remove = prepare(server, DELETE);
}

// Closes a file. The library then copies its log into it.
static void close_server(struct server *server) {
    sqlite3_finalize(server->begin);
    sqlite3_finalize(server->commit);
    sqlite3_finalize(server->rollback);
    sqlite3_finalize(server->get);
    sqlite3_finalize(server->next);
    sqlite3_finalize(server->upsert);
    sqlite3_finalize(server->remove);
    need(server, sqlite3_close(server->db) == SQLITE_OK);
}

// Runs a statement that gives no row.
static void run(struct server *server, sqlite3_stmt *statement) {
    need(server, sqlite3_step(statement) == SQLITE_DONE);
    sqlite3_reset(statement);
}

static void bind_key(sqlite3_stmt *statement, const struct call *call) {
    // a key without bytes has a pointer too, since none would bind NULL
    sqlite3_bind_int64(statement, 1, call->area);
    sqlite3_bind_int64(statement, 2, call->table);
    sqlite3_bind_blob(statement, 3, call->key, (int)call->key_length, SQLITE_STATIC);
}

// Copies out a column of a row, and answers how long it is.
static int copy_column(sqlite3_stmt *statement, int column, unsigned char *to, int limit) {
    const void *bytes = sqlite3_column_blob(statement, column);
    int length = sqlite3_column_bytes(statement, column);
    if (length > limit)
        stop("a row is longer than the program's are");
    if (length > 0)
        memcpy(to, bytes, (size_t)length);
    return length;
}

// Reads the row at a key, or the first one above it, and copies it out.
static void read_row(struct server *server, sqlite3_stmt *statement, const struct call *call) {
    static unsigned char key[KEY_LIMIT], value[VALUE_LIMIT];
    int is_next = statement == server->next;
    int length = 0;
    bind_key(statement, call);
    int step = sqlite3_step(statement);
    need(server, step == SQLITE_ROW || step == SQLITE_DONE);
    if (step == SQLITE_ROW) {
        if (is_next)
            copy_column(statement, 0, key, KEY_LIMIT);
        length = copy_column(statement, is_next, value, VALUE_LIMIT);
    }
    if ((step == SQLITE_ROW) != call->found || (uint32_t)length != call->value_length)
        stop("a read gives another row than the program got");
    sqlite3_reset(statement);
}

static void put_row(struct server *server, const struct call *call) {
    bind_key(server->upsert, call);
    sqlite3_bind_blob(server->upsert, 4, call->value, (int)call->value_length, SQLITE_STATIC);
    run(server, server->upsert);
}

static void remove_row(struct server *server, const struct call *call) {
    bind_key(server->remove, call);
    run(server, server->remove);
    if ((sqlite3_changes(server->db) > 0) != call->found)
        stop("a remove finds another row than the program did");
}

static void make_call(struct server *server, const struct call *call) {
    switch (call->letter) {
    case 'b': run(server, server->begin); break;
    case 'c': run(server, server->commit); break;
    case 'r':
        // as in the program, a rollback without a transaction is no statement
        if (!sqlite3_get_autocommit(server->db))
            run(server, server->rollback);
        break;
    case 'g': read_row(server, server->get, call); break;
    case 'n': read_row(server, server->next, call); break;
    case 'p': put_row(server, call); break;
    case 'd': remove_row(server, call); break;
    default: stop("the file has what is no call");
    }
}

static uint32_t number_at(const unsigned char *at) {
    return (uint32_t)at[0] << 24 | (uint32_t)at[1] << 16 | (uint32_t)at[2] << 8 | at[3];
}

// Takes a call off the bytes, and answers where the next one begins.
static const unsigned char *take_call(const unsigned char *at, const unsigned char *end, struct call *call) {
    if (end - at < HEAD)
        stop("the file ends within a call");
    *call = (struct call){at[0], at[1], at[2], at[3], number_at(at + 4), number_at(at + 8), number_at(at + 12), at + HEAD, NULL};
    call->value = call->key + call->key_length;
    size_t left = (size_t)(end - at) - HEAD;
    size_t taken = call->key_length + (call->letter == 'p' ? (size_t)call->value_length : 0);
    if (call->server > 1 || taken > left)
        stop("the file ends within a call, or names a third server");
    return call->key + taken;
}

static unsigned char *read_whole(const char *path, size_t *length) {
    FILE *file = fopen(path, "rb");
    if (file == NULL || fseek(file, 0, SEEK_END) != 0)
        stop("the calls can't be read");
    *length = (size_t)ftell(file);
    unsigned char *bytes = malloc(*length + 1);
    rewind(file);
    if (bytes == NULL || fread(bytes, 1, *length, file) != *length)
        stop("the calls can't be read");
    fclose(file);
    return bytes;
}

static int64_t micros(void) {
    struct timespec now;
    clock_gettime(CLOCK_MONOTONIC, &now);
    return (int64_t)now.tv_sec * 1000000 + now.tv_nsec / 1000;
}

int main(int count, char **words) {
    if (count != 4)
        stop("the words are the file of the calls and two new files");
    size_t length, calls = 0;
    const unsigned char *at = read_whole(words[1], &length), *end = at + length;
    int64_t start = micros();
    struct server servers[2];
    open_server(&servers[0], words[2]);
    open_server(&servers[1], words[3]);
    for (; at < end; calls++) {
        struct call call;
        at = take_call(at, end, &call);
        make_call(&servers[call.server], &call);
    }
    close_server(&servers[0]);
    close_server(&servers[1]);
    printf("%lld %zu\n", (long long)(micros() - start), calls);
    return 0;
}
