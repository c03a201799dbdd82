/* transactions work URI LEDGER SEED [PRAGMA..]     transactions for ever, until the process is killed
   transactions check URI LEDGER [PRAGMA..]          whether the database is whole and no transaction of the ledger is missing

   The ledger is a mapped file of 8 bytes: the number of the last transaction that was acknowledged. The database must have that
   one or the next, and the sums and the integrity check of it. */
#include "common.h"
#include <fcntl.h>
#include <sys/mman.h>
#include <unistd.h>

enum { ACCOUNTS = 2000, HISTORY = 3000 };
static uint64_t seed;

static volatile uint64_t *ledger_of(const char *path) {
    int d = open(path, O_RDWR | O_CREAT, 0666);
    if (d < 0 || ftruncate(d, 8)) die(NULL, path);
    void *at = mmap(NULL, 8, PROT_READ | PROT_WRITE, MAP_SHARED, d, 0);
    if (at == MAP_FAILED) die(NULL, path);
    return at;
}

static int has_tables(sqlite3 *db) { return number(db, "select count(*) from sqlite_master where name='done'") != 0; }

static void make_tables(sqlite3 *db) {
    run(db, "begin;"
            "create table done(n integer, width integer); insert into done values(1, 30);"
            "create table account(id integer primary key, balance integer, text text);"
            "create table history(id integer primary key, text text); create index by_text on history(text);"
            "with recursive n(i) as (select 1 union all select i+1 from n where i<%d)"
            " insert into account select i, 0, printf('%%030d', i) from n;"
            "commit", ACCOUNTS);
}

/* One in a hundred each: a rollback after a spilled cache, a vacuum, a wide update, a delete, a savepoint. */
static void transact(sqlite3 *db, uint64_t n) {
    unsigned which = (unsigned)(drawn(&seed) % 100), width = (unsigned)(n % 90 + 10);
    int from = (int)(1 + drawn(&seed) % ACCOUNTS), to = (int)(1 + drawn(&seed) % ACCOUNTS), sum = (int)(drawn(&seed) % 1000);
    if (which == 0) run(db, "begin; update account set text=printf('%%0%dd', id); rollback", width);
    if (which == 1) run(db, "vacuum");
    run(db, "begin; update done set n=%lld", (sqlite3_int64)n);
    run(db, "update account set balance=balance-%d where id=%d; update account set balance=balance+%d where id=%d", sum, from, sum, to);
    run(db, "insert or replace into history values(%d, hex(randomblob(%d)))", (int)(drawn(&seed) % HISTORY), (int)(drawn(&seed) % 200));
    if (which == 2) run(db, "update account set text=printf('%%0%dd', id); update done set width=%d", width, width);
    if (which == 3) run(db, "delete from history where id between %d and %d", from, from + 300);
    if (which == 4) run(db, "savepoint s; update account set balance=balance+1; rollback to s; release s");
    run(db, "commit");
}

_Noreturn static void work(const char *uri, const char *path, const char *drawn_from, char **pragmas) {
    volatile uint64_t *ledger = ledger_of(path);
    sqlite3 *db = opened(uri, pragmas);
    seed = strtoull(drawn_from, NULL, 10) * 0x9E3779B97F4A7C15u + 1;
    run(db, "pragma cache_size=40");
    if (!has_tables(db)) {
        make_tables(db);
        *ledger = 1;
    }
    for (uint64_t n = *ledger + 1;; n++) {
        transact(db, n);
        *ledger = n;
    }
}

static int is_whole(sqlite3 *db) {
    sqlite3_stmt *s = prepared(db, "pragma integrity_check");
    const char *text = sqlite3_step(s) == SQLITE_ROW ? (const char *)sqlite3_column_text(s, 0) : sqlite3_errmsg(db);
    int is_ok = !strcmp(text, "ok");
    if (!is_ok) printf("integrity: %s\n", text);
    sqlite3_finalize(s);
    return is_ok;
}

static int check(const char *uri, const char *path, char **pragmas) {
    volatile uint64_t *ledger = ledger_of(path);
    sqlite3 *db = opened(uri, pragmas);
    if (!has_tables(db)) {
        printf("%s: no tables, %llu acknowledged\n", *ledger ? "BAD" : "good", (unsigned long long)*ledger);
        return *ledger != 0;
    }
    int is_good = is_whole(db);
    uint64_t last = (uint64_t)number(db, "select n from done"), acknowledged = *ledger;
    is_good &= last == acknowledged || last == acknowledged + 1;
    is_good &= (int)number(db, "select (select sum(balance) from account) = 0"
                               " and (select count(*) from account) = 2000"
                               " and (select sum(length(text)) from account) = 2000 * (select width from done)");
    printf("%s: last %llu acknowledged %llu\n", is_good ? "good" : "BAD", (unsigned long long)last, (unsigned long long)acknowledged);
    *ledger = last;
    sqlite3_close(db);
    return !is_good;
}

int main(int n, char **words) {
    load_extension();
    if (n > 4 && !strcmp(words[1], "work")) work(words[2], words[3], words[4], words + 5);
    if (n > 3 && !strcmp(words[1], "check")) return check(words[2], words[3], words + 4);
    fprintf(stderr, "usage: transactions work URI LEDGER SEED [PRAGMA..] | check URI LEDGER [PRAGMA..]\n");
    return 2;
}
