/* threads URI: eight connections of one process, each in a thread of its own, transfer sums in one database at a time, half
   of them by transactions that begin as readers. Then the sums must be right, and as many transfers there as were done. */
#include "common.h"
#include <pthread.h>

enum { THREADS = 8, TRANSFERS = 100, ACCOUNTS = 50, WAIT_MS = 60000 };
static const char *uri;
static char *no_pragmas[] = {NULL};

/* A transaction that is refused because another writes is made again. */
static int transfer(sqlite3 *db, uint64_t *seed) {
    int is_reader_first = drawn(seed) % 2 == 0;
    char *sql = sqlite3_mprintf(
        "%s; select sum(balance) from account; update account set balance=balance-1 where id=%d;"
        "update account set balance=balance+1 where id=%d; insert into history default values; commit",
        is_reader_first ? "begin" : "begin immediate", (int)(1 + drawn(seed) % ACCOUNTS), (int)(1 + drawn(seed) % ACCOUNTS));
    int rc = sqlite3_exec(db, sql, NULL, NULL, NULL);
    sqlite3_free(sql);
    if (rc == SQLITE_OK) return 1;
    if (rc != SQLITE_BUSY) die(db, "transfer");
    if (!sqlite3_get_autocommit(db)) run(db, "rollback");
    return 0;
}

static void *work(void *number_of) {
    uint64_t seed = 77 + (uint64_t)(intptr_t)number_of;
    sqlite3 *db = opened(uri, no_pragmas);
    sqlite3_busy_timeout(db, WAIT_MS);
    for (int done = 0; done < TRANSFERS;) done += transfer(db, &seed);
    sqlite3_close(db);
    return NULL;
}

int main(int n, char **words) {
    pthread_t threads[THREADS];
    if (n != 2) return 2;
    uri = words[1];
    load_extension();
    sqlite3 *db = opened(uri, no_pragmas);
    run(db, "create table account(id integer primary key, balance integer); create table history(id integer primary key);"
            "with recursive n(i) as (select 1 union all select i+1 from n where i<%d) insert into account select i, 100 from n", ACCOUNTS);
    for (intptr_t i = 0; i < THREADS; i++)
        if (pthread_create(&threads[i], NULL, work, (void *)i)) die(NULL, "thread");
    for (int i = 0; i < THREADS; i++) pthread_join(threads[i], NULL);
    long long sum = number(db, "select sum(balance) from account"), transfers = number(db, "select count(*) from history");
    int is_good = sum == ACCOUNTS * 100 && transfers == THREADS * TRANSFERS;
    printf("%s: %d threads, %lld transfers, sum %lld\n", is_good ? "good" : "BAD", THREADS, transfers, sum);
    sqlite3_close(db);
    return !is_good;
}
