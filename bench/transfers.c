/* transfers ENGINE PATH COUNT: COUNT transfers between 256 accounts, each a transaction of its own that is on the disk when it is
   done: with SQLite (journal_mode=WAL, synchronous=FULL) or with LMDB (as it opens: a sync for each commit). The accounts of transfer k
   are those of `big TRANSFERS` (docs/FORMATS.md). Prints the microseconds of each transfer, without the opening. */
#include <lmdb.h>
#include <sqlite3.h>
#include <stdio.h>
#include <stdlib.h>
#include <string.h>
#include <time.h>

enum { ACCOUNTS = 256, FUND = 1000 };

struct transfer {
    int from, to, amount;
};

static struct transfer transfer_at(int k) {
    int j = k / 2, a = 29 * j % ACCOUNTS, c = (a + 100 + j) % ACCOUNTS;
    struct transfer forth = {a, c, 1 + k % 9}, back = {c, a, 1 + k % 9};
    return k % 2 ? back : forth;
}

static void want(int good, const char *what) {
    if (!good) {
        fprintf(stderr, "transfers: %s\n", what);
        exit(1);
    }
}

static double now(void) {
    struct timespec at;
    clock_gettime(CLOCK_MONOTONIC, &at);
    return at.tv_sec * 1e6 + at.tv_nsec / 1e3;
}

static double with_sqlite(const char *path, int count) {
    sqlite3 *db;
    sqlite3_stmt *add, *begin, *commit;
    want(sqlite3_open(path, &db) == SQLITE_OK, "sqlite: open");
    want(sqlite3_exec(db, "PRAGMA journal_mode=WAL; PRAGMA synchronous=FULL; CREATE TABLE accounts (id INTEGER PRIMARY KEY, held INTEGER);", 0, 0, 0) == SQLITE_OK, "sqlite: make");
    want(sqlite3_exec(db, "WITH RECURSIVE ids(id) AS (SELECT 0 UNION ALL SELECT id + 1 FROM ids WHERE id < 255) INSERT INTO accounts SELECT id, 1000 FROM ids;", 0, 0, 0) == SQLITE_OK, "sqlite: fund");
    want(sqlite3_prepare_v2(db, "UPDATE accounts SET held = held + ?1 WHERE id = ?2 AND held + ?1 >= 0", -1, &add, 0) == SQLITE_OK, "sqlite: update");
    want(sqlite3_prepare_v2(db, "BEGIN IMMEDIATE", -1, &begin, 0) == SQLITE_OK, "sqlite: begin");
    want(sqlite3_prepare_v2(db, "COMMIT", -1, &commit, 0) == SQLITE_OK, "sqlite: commit");
    double start = now();
    for (int k = 0; k < count; k++) {
        struct transfer t = transfer_at(k);
        int amounts[2] = {-t.amount, t.amount}, ids[2] = {t.from, t.to};
        want(sqlite3_step(begin) == SQLITE_DONE, "sqlite: begins");
        sqlite3_reset(begin);
        for (int side = 0; side < 2; side++) {
            sqlite3_bind_int(add, 1, amounts[side]);
            sqlite3_bind_int(add, 2, ids[side]);
            want(sqlite3_step(add) == SQLITE_DONE, "sqlite: updates");
            sqlite3_reset(add);
        }
        want(sqlite3_step(commit) == SQLITE_DONE, "sqlite: commits");
        sqlite3_reset(commit);
    }
    return now() - start;
}

static void account(MDB_txn *txn, MDB_dbi dbi, int id, int change, int fund) {
    MDB_val key = {sizeof id, &id}, held;
    int value = fund;
    if (!fund) {
        want(mdb_get(txn, dbi, &key, &held) == 0, "lmdb: get");
        memcpy(&value, held.mv_data, sizeof value);
        value += change;
    }
    MDB_val next = {sizeof value, &value};
    want(mdb_put(txn, dbi, &key, &next, 0) == 0, "lmdb: put");
}

static double with_lmdb(const char *path, int count) {
    MDB_env *env;
    MDB_txn *txn;
    MDB_dbi dbi;
    want(mdb_env_create(&env) == 0 && mdb_env_open(env, path, MDB_NOSUBDIR, 0600) == 0, "lmdb: open");
    want(mdb_txn_begin(env, 0, 0, &txn) == 0 && mdb_dbi_open(txn, 0, MDB_INTEGERKEY, &dbi) == 0, "lmdb: make");
    for (int id = 0; id < ACCOUNTS; id++) account(txn, dbi, id, 0, FUND);
    want(mdb_txn_commit(txn) == 0, "lmdb: fund");
    double start = now();
    for (int k = 0; k < count; k++) {
        struct transfer t = transfer_at(k);
        want(mdb_txn_begin(env, 0, 0, &txn) == 0, "lmdb: begins");
        account(txn, dbi, t.from, -t.amount, 0);
        account(txn, dbi, t.to, t.amount, 0);
        want(mdb_txn_commit(txn) == 0, "lmdb: commits");
    }
    return now() - start;
}

int main(int many, char **words) {
    want(many == 4, "transfers ENGINE PATH COUNT");
    int count = atoi(words[3]);
    double took = strcmp(words[1], "sqlite") == 0 ? with_sqlite(words[2], count) : with_lmdb(words[2], count);
    printf("%.1f\n", took / count);
    return 0;
}
