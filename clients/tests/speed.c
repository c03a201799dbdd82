/* speed LOAD COUNT WARM URI [PRAGMA..]: transactions a second of one load, and what each asks of the disk and the processor.

   LOAD: bank (three balances and a line of history), insert (a row of 100 letters), insert100 (a hundred of these).
   With LD_PRELOAD=shim.so writes, bytes and syncs are counted. COUNT transactions are timed, after WARM that aren't. */
#define _GNU_SOURCE
#include "common.h"
#include <dlfcn.h>
#include <sys/resource.h>
#include <time.h>

enum { ACCOUNTS = 100000, TELLERS = 100, BRANCHES = 10, LETTERS = 100 };
static uint64_t seed = 7;
static sqlite3 *db;
static sqlite3_stmt *begin, *commit, *insert, *account, *teller, *branch, *history;

typedef struct moment {
    double seconds, processor;
    uint64_t writes, bytes, syncs;
} moment;

static double now(void) {
    struct timespec t;
    clock_gettime(CLOCK_MONOTONIC, &t);
    return (double)t.tv_sec + (double)t.tv_nsec * 1e-9;
}

static moment look(void) {
    typedef void counts(uint64_t *, uint64_t *, uint64_t *);
    counts *ask = (counts *)dlsym(RTLD_DEFAULT, "shim_counts");
    struct rusage used;
    moment m = {0};
    getrusage(RUSAGE_SELF, &used);
    m.processor = (double)(used.ru_utime.tv_sec + used.ru_stime.tv_sec) + (double)(used.ru_utime.tv_usec + used.ru_stime.tv_usec) * 1e-6;
    if (ask) ask(&m.writes, &m.bytes, &m.syncs);
    m.seconds = now();
    return m;
}

static void step(sqlite3_stmt *s) {
    int rc;
    do rc = sqlite3_step(s);
    while (rc == SQLITE_ROW);
    if (rc != SQLITE_DONE) die(db, "step");
    sqlite3_reset(s);
}

static void change(sqlite3_stmt *s, int id, int sum) {
    sqlite3_bind_int(s, 1, id);
    sqlite3_bind_int(s, 2, sum);
    step(s);
}

static void bank(void) {
    int a = (int)(1 + drawn(&seed) % ACCOUNTS), t = (int)(1 + drawn(&seed) % TELLERS), b = 1 + (t - 1) / (TELLERS / BRANCHES);
    int sum = (int)(drawn(&seed) % 2000) - 1000;
    change(account, a, sum);
    change(teller, t, sum);
    change(branch, b, sum);
    sqlite3_bind_int(history, 1, a);
    sqlite3_bind_int(history, 2, sum);
    step(history);
}

static void insert_row(void) {
    char text[LETTERS];
    for (int i = 0; i < LETTERS; i++) text[i] = (char)('a' + drawn(&seed) % 26);
    sqlite3_bind_text(insert, 1, text, LETTERS, SQLITE_STATIC);
    step(insert);
}

static void make_tables(const char *accounts) {
    run(db, "begin; create table text(id integer primary key, text text);"
            "create table account(id integer primary key, balance integer not null, fill text);"
            "create table teller(id integer primary key, balance integer not null);"
            "create table branch(id integer primary key, balance integer not null);"
            "create table history(id integer primary key, account integer, sum integer);"
            "with recursive n(i) as (select 1 union all select i+1 from n where i<%s)"
            " insert into account select i, 0, '0123456789012345678901234567890123456789' from n;"
            "insert into teller select id, 0 from account where id<=%d; insert into branch select id, 0 from account where id<=%d;"
            "commit", accounts, TELLERS, BRANCHES);
    begin = prepared(db, "begin");
    commit = prepared(db, "commit");
    insert = prepared(db, "insert into text(text) values(?)");
    account = prepared(db, "update account set balance=balance+?2 where id=?1");
    teller = prepared(db, "update teller set balance=balance+?2 where id=?1");
    branch = prepared(db, "update branch set balance=balance+?2 where id=?1");
    history = prepared(db, "insert into history(account, sum) values(?, ?)");
}

static void transact(const char *load) {
    int rows = !strcmp(load, "insert") ? 1 : !strcmp(load, "insert100") ? 100 : 0;
    step(begin);
    if (!rows) bank();
    for (int i = 0; i < rows; i++) insert_row();
}

int main(int n, char **words) {
    if (n < 5) die(NULL, "usage: speed LOAD COUNT WARM URI [PRAGMA..]");
    long count = atol(words[2]), warm = atol(words[3]);
    double longest = 0;
    load_extension();
    db = opened(words[4], words + 5);
    make_tables("100000");
    moment first = {0};
    for (long i = -warm; i < count; i++) {
        if (!i) first = look();
        transact(words[1]);
        double began = now();
        step(commit);
        double took = now() - began;
        if (i >= 0 && took > longest) longest = took;
    }
    moment last = look();
    double seconds = last.seconds - first.seconds, each = 1.0 / (double)count;
    printf("%-9s %7.0f a second, %6.1f us of the processor, %7.0f bytes %5.2f writes %4.2f syncs each, longest commit %.1f ms\n",
           words[1], (double)count / seconds, (last.processor - first.processor) * each * 1e6, (double)(last.bytes - first.bytes) * each,
           (double)(last.writes - first.writes) * each, (double)(last.syncs - first.syncs) * each, longest * 1e3);
    if (number(db, "select (select sum(balance) from account) = (select sum(balance) from branch)") != 1) die(NULL, "sums differ");
    sqlite3_stmt *all[] = {begin, commit, insert, account, teller, branch, history};
    for (size_t i = 0; i < sizeof all / sizeof *all; i++) sqlite3_finalize(all[i]);
    return sqlite3_close(db) != SQLITE_OK;
}
