/* A bank's transfers on the memory in a file, on SQLite and on LMDB, with a sync behind every so many.

     kept_speed ENGINE FILE TRANSFERS EVERY

   There are 5 branches, 50 tellers and 500,000 accounts. A transfer adds a drawn number to the balances of an account, of
   a teller and of the teller's branch, and writes down the four numbers. First each balance is made, which isn't timed.
   It writes the microseconds for each transfer. A transfer is durable once the sync behind it has ended, whatever the
   engine:

     disk               2 KiB are written behind a file's end and synced, and nothing else is done
     keep PROGRAM       the program's word keep, fed by a pipe: each transfer a transaction of its own
     keep-bytewise PROGRAM   the same with --bytewise 1: the file is trusted to be written byte by byte
     kept               the same memory through the library (built with -DWITH_ENVY)
     kept-bytewise      the same with that premise
     sqlite-full        write-ahead log, synchronous = full: the transfers between two syncs are one transaction
     sqlite-full-each   the same; each is a transaction of its own, and only the last before a sync waits for the disk
     sqlite-normal      synchronous = normal: a sync comes with a checkpoint alone, so the last transfers may be lost
     lmdb               the transfers between two syncs are one transaction
     lmdb-nometasync    the same with MDB_NOMETASYNC: the last transaction may be lost
     trace              writes the lines for keep, whatever the file */
#define _GNU_SOURCE
#include <fcntl.h>
#include <inttypes.h>
#include <stdint.h>
#include <stdio.h>
#include <stdlib.h>
#include <string.h>
#include <sys/wait.h>
#include <time.h>
#include <unistd.h>

enum { BRANCHES = 5, TELLERS = 10 * BRANCHES, ACCOUNTS = 100000 * BRANCHES, HISTORY = 16384 };
/* how a name of a balance is made of its kind and number, for LMDB */
enum { BRANCH = 1, TELLER, ACCOUNT, PAST };

typedef struct transfer {
    uint32_t number, branch, teller, account;
    int64_t delta;
} transfer;

static void must(int holds, const char *what) {
    if (holds) return;
    fprintf(stderr, "kept_speed: %s\n", what);
    exit(1);
}

static uint64_t state = 1;
static uint64_t drawn(uint64_t below) {
    state = state * 6364136223846793005 + 1442695040888963407;
    return (state >> 33) % below;
}

static transfer next_transfer(uint32_t number) {
    transfer t = {number, 0, (uint32_t)drawn(TELLERS), (uint32_t)drawn(ACCOUNTS), (int64_t)drawn(1999999) - 999999};
    t.branch = t.teller / 10;
    return t;
}

typedef struct engine {
    const char *name;
    void (*open)(const char *path);
    /* a transfer, the first and the last behind which a sync comes */
    void (*transfer)(const transfer *t, int is_first, int is_last);
    int64_t (*sum)(void); /* of the accounts, where there are any */
} engine;

/* ---- where the array has its words: one counter, branches, tellers, accounts, and a round of the history */

enum {
    AT_BRANCH = 1,
    AT_TELLER = AT_BRANCH + BRANCHES,
    AT_ACCOUNT = AT_TELLER + TELLERS,
    AT_HISTORY = (AT_ACCOUNT + ACCOUNTS + 31) / 32 * 32,
    PAGES = AT_HISTORY / 32 + HISTORY / 8
};
#define SIZES "--segments=64", "--rows=512", "--shadows=64", "--frames=256", "--entries=4096"

static int64_t balances[AT_HISTORY];

/* Writes the lines of a transfer, whose balances are known here, to be fed without waiting for a reply. */
static void write_transfer(FILE *to, const transfer *t) {
    uint32_t at[] = {AT_BRANCH + t->branch, AT_TELLER + t->teller, AT_ACCOUNT + t->account};
    fputs("begin\n", to);
    for (int i = 0; i < 3; i++) {
        balances[at[i]] += t->delta;
        fprintf(to, "load %" PRIu32 "\nput 0 %" PRIu32 " %" PRIu64 "\n", at[i], at[i], (uint64_t)balances[at[i]]);
    }
    uint64_t past[] = {t->account, t->teller, t->branch, (uint64_t)t->delta};
    for (uint32_t i = 0; i < 4; i++)
        fprintf(to, "put 0 %" PRIu32 " %" PRIu64 "\n", AT_HISTORY + 4 * (t->number % HISTORY) + i, past[i]);
    fprintf(to, "put 0 0 %" PRIu32 "\ncommit 0\ntick\n", t->number + 1);
}

/* Writes what comes before the transfers: each page is stored once, so that all are there. */
static void write_setup(FILE *to) {
    for (uint32_t page = 0; page < PAGES; page++) fprintf(to, "store %" PRIu32 " 0\n", 32 * page);
    fputs("sync\n", to);
}

static void write_transfers(FILE *to, uint32_t transfers, uint32_t every) {
    for (uint32_t i = 0; i < transfers; i++) {
        transfer t = next_transfer(i);
        write_transfer(to, &t);
        if ((i + 1) % every == 0) fputs("sync\n", to);
    }
}

static double seconds(void) {
    struct timespec now;
    clock_gettime(CLOCK_MONOTONIC, &now);
    return (double)now.tv_sec + 1e-9 * (double)now.tv_nsec;
}

/* Feeds the program by a pipe, and takes its replies from another: seconds from the reply to the first sync, behind which
   the transfers are given, to the end. */
static double through_pipe(const char *program, const char *path, uint32_t transfers, uint32_t every, int bytewise) {
    int in[2], out[2], go[2];
    must(!pipe(in) && !pipe(out) && !pipe(go), "pipe");
    char pages[32];
    snprintf(pages, sizeof pages, "--pages=%d", PAGES);
    pid_t served = fork();
    if (!served) {
        dup2(in[0], 0), dup2(out[1], 1);
        close(in[0]), close(in[1]), close(out[0]), close(out[1]), close(go[0]), close(go[1]);
        execl(program, program, "keep", "--file", path, bytewise ? "--bytewise=1" : "--bytewise=0", SIZES, pages, (char *)NULL);
        _exit(127);
    }
    close(in[0]), close(out[1]);
    pid_t feeder = fork();
    if (!feeder) {
        char first;
        close(out[0]);
        FILE *to = fdopen(in[1], "w");
        write_setup(to);
        fflush(to);
        if (read(go[0], &first, 1) == 1) write_transfers(to, transfers, every);
        fclose(to);
        _exit(0);
    }
    close(in[1]);
    FILE *from = fdopen(out[0], "r");
    char line[64];
    double began = 0;
    uint32_t synced = 0;
    while (fgets(line, sizeof line, from))
        if (!strcmp(line, "synced\n") && synced++ == 0) {
            began = seconds();
            must(write(go[1], "x", 1) == 1, "go");
        }
    int status;
    must(waitpid(served, &status, 0) == served && status == 0, "the program failed");
    double ended = seconds();
    waitpid(feeder, &status, 0);
    must(synced == 1 + transfers / every, "a sync wasn't answered");
    return ended - began;
}

/* ---- the disk alone */

static int disk;

static void disk_open(const char *path) { must((disk = open(path, O_RDWR | O_CREAT | O_TRUNC, 0600)) >= 0, "open"); }

static void disk_transfer(const transfer *t, int is_first, int is_last) {
    static const char bytes[2048] = "x";
    (void)t, (void)is_first;
    if (is_last) must(write(disk, bytes, sizeof bytes) == sizeof bytes && !fdatasync(disk), "write");
}

/* ---- the library */

#ifdef WITH_ENVY
#include "../../c/envy.h"

static envy kept = ENVY_INIT;

static void answers(uint32_t code, const char *what) { must(code == ENVY_DONE, what); }

static void kept_open_by(const char *path, uint32_t flags) {
    const envy_setup setup = {
        .segments = 64, .rows = 512, .pages = PAGES, .shadows = 64, .frames = 256, .entries = 4096,
        .policy = ENVY_GREEDY, .part = 2, .limit = 100, .mark = 256,
    };
    uint32_t holder;
    answers(envy_open_file(&kept, path, &setup, ENVY_CREATE | flags), "open");
    for (uint32_t page = 0; page < PAGES; page++) answers(envy_store(&kept, 32 * page, 0, &holder), "store");
    answers(envy_sync(&kept), "sync");
}

static void kept_open(const char *path) { kept_open_by(path, 0); }
static void kept_open_bytewise(const char *path) { kept_open_by(path, ENVY_BYTEWISE); }

static void kept_transfer(const transfer *t, int is_first, int is_last) {
    (void)is_first;
    const uint32_t at[] = {AT_BRANCH + t->branch, AT_TELLER + t->teller, AT_ACCOUNT + t->account};
    const uint64_t past[] = {t->account, t->teller, t->branch, (uint64_t)t->delta};
    uint32_t slot, holder, did;
    uint64_t balance;
    size_t done;
    answers(envy_begin(&kept, &slot), "begin");
    for (int i = 0; i < 3; i++) {
        answers(envy_load(&kept, at[i], &balance), "load");
        answers(envy_put(&kept, slot, at[i], balance + (uint64_t)t->delta, &holder), "put");
    }
    answers(envy_write(&kept, slot, AT_HISTORY + 4 * (t->number % HISTORY), past, 4, &done, &holder), "write");
    answers(envy_put(&kept, slot, 0, t->number + 1, &holder), "put");
    answers(envy_commit(&kept, slot), "commit");
    answers(envy_tick(&kept, &did), "tick");
    if (is_last) answers(envy_sync(&kept), "sync");
}

static int64_t kept_sum(void) {
    uint64_t sum = 0, balance;
    for (uint32_t i = 0; i < ACCOUNTS; i++) {
        answers(envy_load(&kept, AT_ACCOUNT + i, &balance), "load");
        sum += balance;
    }
    return (int64_t)sum;
}
#endif

/* ---- SQLite */

#ifdef WITH_SQLITE
#include <sqlite3.h>

static sqlite3 *base;
static sqlite3_stmt *begin_it, *commit_it, *to_full, *to_normal, *add_to[3], *note, *add_up;
static int each_its_own;

static sqlite3_stmt *prepared(const char *text) {
    sqlite3_stmt *made;
    must(sqlite3_prepare_v2(base, text, -1, &made, NULL) == SQLITE_OK, text);
    return made;
}

static void done(sqlite3_stmt *s) {
    must(sqlite3_step(s) == SQLITE_DONE && sqlite3_reset(s) == SQLITE_OK, sqlite3_errmsg(base));
}

static void said(const char *text) { must(sqlite3_exec(base, text, NULL, NULL, NULL) == SQLITE_OK, sqlite3_errmsg(base)); }

static void sqlite_open(const char *path, const char *level) {
    must(sqlite3_open(path, &base) == SQLITE_OK, "open");
    said("pragma journal_mode = wal; pragma cache_size = -65536; pragma synchronous = off");
    said("create table branch(id integer primary key, balance integer);"
         "create table teller(id integer primary key, balance integer);"
         "create table account(id integer primary key, balance integer);"
         "create table history(number integer primary key, account integer, teller integer, branch integer, delta integer)");
    static const char *const tables[] = {"branch", "teller", "account"};
    const int sizes[] = {BRANCHES, TELLERS, ACCOUNTS};
    said("begin");
    for (int table = 0; table < 3; table++) {
        char text[200];
        snprintf(text, sizeof text, "with recursive n(i) as (select 0 union all select i + 1 from n where i < %d)"
                 "insert into %s select i, 0 from n", sizes[table] - 1, tables[table]);
        said(text);
        snprintf(text, sizeof text, "update %s set balance = balance + ? where id = ?", tables[table]);
        add_to[table] = prepared(text);
    }
    said("commit; pragma wal_checkpoint(truncate)");
    begin_it = prepared("begin immediate"), commit_it = prepared("commit");
    to_full = prepared("pragma synchronous = full"), to_normal = prepared("pragma synchronous = normal");
    note = prepared("insert or replace into history values (?, ?, ?, ?, ?)");
    add_up = prepared("select sum(balance) from account");
    said(level);
}

static void sqlite_open_full(const char *path) { sqlite_open(path, "pragma synchronous = full"); }
static void sqlite_open_normal(const char *path) { sqlite_open(path, "pragma synchronous = normal"); }
static void sqlite_open_each(const char *path) {
    sqlite_open(path, "pragma synchronous = normal");
    each_its_own = 1;
}

static void sqlite_transfer(const transfer *t, int is_first, int is_last) {
    if (each_its_own && is_last) done(to_full);
    if (each_its_own || is_first) done(begin_it);
    const int64_t ids[] = {t->branch, t->teller, t->account};
    for (int table = 0; table < 3; table++) {
        sqlite3_bind_int64(add_to[table], 1, t->delta);
        sqlite3_bind_int64(add_to[table], 2, ids[table]);
        done(add_to[table]);
    }
    const int64_t row[] = {t->number % HISTORY, t->account, t->teller, t->branch, t->delta};
    for (int i = 0; i < 5; i++) sqlite3_bind_int64(note, i + 1, row[i]);
    done(note);
    if (each_its_own || is_last) done(commit_it);
    if (each_its_own && is_last) done(to_normal);
}

static int64_t sqlite_sum(void) {
    must(sqlite3_step(add_up) == SQLITE_ROW, "sum");
    return sqlite3_column_int64(add_up, 0);
}
#endif

/* ---- LMDB */

#ifdef WITH_LMDB
#include <lmdb.h>

static MDB_env *environment;
static MDB_dbi table;
static MDB_txn *writing;

static void lmdb_put(uint64_t key, const void *bytes, size_t size) {
    MDB_val k = {sizeof key, &key}, v = {size, (void *)bytes};
    must(!mdb_put(writing, table, &k, &v, 0), "put");
}

static int64_t lmdb_balance(uint64_t key) {
    MDB_val k = {sizeof key, &key}, v;
    int64_t balance;
    must(!mdb_get(writing, table, &k, &v), "get");
    memcpy(&balance, v.mv_data, sizeof balance);
    return balance;
}

static uint64_t name_of(uint64_t kind, uint64_t id) { return kind << 32 | id; }

static void lmdb_open(const char *path, unsigned flags) {
    must(!mdb_env_create(&environment) && !mdb_env_set_mapsize(environment, 1ull << 30), "create");
    must(!mdb_env_open(environment, path, MDB_NOSUBDIR | flags, 0600), "open");
    must(!mdb_txn_begin(environment, NULL, 0, &writing), "begin");
    must(!mdb_dbi_open(writing, NULL, MDB_INTEGERKEY, &table), "table");
    const int64_t zero = 0;
    for (uint64_t i = 0; i < BRANCHES; i++) lmdb_put(name_of(BRANCH, i), &zero, sizeof zero);
    for (uint64_t i = 0; i < TELLERS; i++) lmdb_put(name_of(TELLER, i), &zero, sizeof zero);
    for (uint64_t i = 0; i < ACCOUNTS; i++) lmdb_put(name_of(ACCOUNT, i), &zero, sizeof zero);
    must(!mdb_txn_commit(writing), "commit");
}

static void lmdb_open_sync(const char *path) { lmdb_open(path, 0); }
static void lmdb_open_nometasync(const char *path) { lmdb_open(path, MDB_NOMETASYNC); }

static void lmdb_transfer(const transfer *t, int is_first, int is_last) {
    if (is_first) must(!mdb_txn_begin(environment, NULL, 0, &writing), "begin");
    const uint64_t names[] = {name_of(BRANCH, t->branch), name_of(TELLER, t->teller), name_of(ACCOUNT, t->account)};
    for (int i = 0; i < 3; i++) {
        int64_t balance = lmdb_balance(names[i]) + t->delta;
        lmdb_put(names[i], &balance, sizeof balance);
    }
    const int64_t past[] = {t->account, t->teller, t->branch, t->delta};
    lmdb_put(name_of(PAST, t->number % HISTORY), past, sizeof past);
    if (is_last) must(!mdb_txn_commit(writing), "commit");
}

static int64_t lmdb_sum(void) {
    int64_t sum = 0;
    must(!mdb_txn_begin(environment, NULL, MDB_RDONLY, &writing), "begin to read");
    for (uint64_t i = 0; i < ACCOUNTS; i++) sum += lmdb_balance(name_of(ACCOUNT, i));
    return sum;
}
#endif

static const engine engines[] = {
    {"disk", disk_open, disk_transfer, NULL},
#ifdef WITH_ENVY
    {"kept", kept_open, kept_transfer, kept_sum},
    {"kept-bytewise", kept_open_bytewise, kept_transfer, kept_sum},
#endif
#ifdef WITH_SQLITE
    {"sqlite-full", sqlite_open_full, sqlite_transfer, sqlite_sum},
    {"sqlite-full-each", sqlite_open_each, sqlite_transfer, sqlite_sum},
    {"sqlite-normal", sqlite_open_normal, sqlite_transfer, sqlite_sum},
#endif
#ifdef WITH_LMDB
    {"lmdb", lmdb_open_sync, lmdb_transfer, lmdb_sum},
    {"lmdb-nometasync", lmdb_open_nometasync, lmdb_transfer, lmdb_sum},
#endif
};

static double driven(const engine *e, const char *path, uint32_t transfers, uint32_t every) {
    e->open(path);
    sync();
    int64_t deltas = 0;
    double began = seconds();
    for (uint32_t i = 0; i < transfers; i++) {
        transfer t = next_transfer(i);
        e->transfer(&t, i % every == 0, (i + 1) % every == 0 || i + 1 == transfers);
        deltas += t.delta;
    }
    double ended = seconds();
    must(!e->sum || e->sum() == deltas, "the accounts don't add up");
    return ended - began;
}

int main(int words, char **word) {
    if (words < 5) return 2;
    uint32_t transfers = (uint32_t)strtoul(word[3], NULL, 10), every = (uint32_t)strtoul(word[4], NULL, 10);
    double took = -1;
    if (!strcmp(word[1], "trace")) {
        write_setup(stdout);
        write_transfers(stdout, transfers, every);
        return 0;
    }
    int bytewise = !strcmp(word[1], "keep-bytewise");
    if ((bytewise || !strcmp(word[1], "keep")) && words == 6) took = through_pipe(word[5], word[2], transfers, every, bytewise);
    for (size_t i = 0; i < sizeof engines / sizeof *engines; i++)
        if (!strcmp(engines[i].name, word[1])) took = driven(&engines[i], word[2], transfers, every);
    if (took < 0) return 2;
    printf("%.3f\n", 1e6 * took / transfers);
    return 0;
}
