/* A small account book over a mapped file. A transfer is a transaction: it is there whole or not at all, whenever the
   process dies.

     book FILE new              makes the file, with 1,000 in each of 100 accounts
     book FILE move A B AMOUNT  moves an amount from account A to account B
     book FILE show A           prints what account A holds
     book FILE sum              prints the number of transfers and the sum of all accounts */
#include "../c/envy.h"
#include "../c/envy_text.h"
#include <stdio.h>
#include <stdlib.h>
#include <string.h>
#include <unistd.h>

enum { ACCOUNTS = 100, START = 1000 };
/* what is said beside the codes of the library */
enum { NO_ACCOUNT = 2000, TOO_LITTLE };

/* Word 0 counts the transfers. Each account has a page of its own, so that its balance is word 32 * (A + 1). */
static uint32_t account(uint32_t a) { return 32 * (a + 1); }

static const envy_setup setup = {
    .segments = 8, .rows = 32, .pages = ACCOUNTS + 1, .shadows = 16, .frames = 16, .entries = 16,
    .policy = ENVY_GREEDY, .limit = 100, .mark = 12,
};

static envy book = ENVY_INIT;

static const char *text(uint32_t code) {
    switch (code) {
    case NO_ACCOUNT: return "there is no such account";
    case TOO_LITTLE: return "it hasn't so much";
    default: return envy_error_text(code);
    }
}

static int failed(const char *what, uint32_t code) {
    fprintf(stderr, "book: %s: %s\n", what, text(code));
    return 1;
}

static int usage(void) {
    fputs("book: FILE new|move A B AMOUNT|show A|sum\n", stderr);
    return 2;
}

static uint32_t put(uint32_t slot, uint32_t address, uint64_t word) {
    uint32_t holder;
    return envy_put(&book, slot, address, word, &holder);
}

/* All accounts in transactions, each of no more pages than may be owned at once. */
static uint32_t fill(void) {
    uint32_t code = ENVY_DONE, slot;
    for (uint32_t a = 0; a < ACCOUNTS && code == ENVY_DONE;) {
        if ((code = envy_begin(&book, &slot)) != ENVY_DONE) return code;
        for (int i = 0; i < 10 && a < ACCOUNTS && code == ENVY_DONE; i++) code = put(slot, account(a++), START);
        if (code == ENVY_DONE) code = envy_commit(&book, slot);
    }
    return code;
}

/* Moves an amount, or nothing: where a call is refused the transaction is aborted. */
static uint32_t move(uint32_t from, uint32_t to, uint64_t amount) {
    uint64_t source, target, count;
    uint32_t slot, code = envy_begin(&book, &slot);
    if (code != ENVY_DONE) return code;
    code = envy_load(&book, account(from), &source);
    if (code == ENVY_DONE && source < amount) code = TOO_LITTLE;
    if (code == ENVY_DONE) code = put(slot, account(from), source - amount);
    if (code == ENVY_DONE) code = envy_load(&book, account(to), &target);
    if (code == ENVY_DONE) code = put(slot, account(to), target + amount);
    if (code == ENVY_DONE) code = envy_load(&book, 0, &count);
    if (code == ENVY_DONE) code = put(slot, 0, count + 1);
    if (code == ENVY_DONE) return envy_commit(&book, slot);
    envy_abort(&book, slot);
    return code;
}

static uint32_t sum(uint64_t *count, uint64_t *total) {
    uint32_t code = envy_load(&book, 0, count);
    *total = 0;
    for (uint32_t a = 0; a < ACCOUNTS && code == ENVY_DONE; a++) {
        uint64_t word = 0;
        code = envy_load(&book, account(a), &word);
        *total += word;
    }
    return code;
}

static int run(int words, char **word) {
    uint32_t code = ENVY_DONE;
    if (!strcmp(word[2], "new") && words == 3) return (code = fill()) ? failed("new", code) : 0;
    if (!strcmp(word[2], "move") && words == 6) {
        uint32_t from = strtoul(word[3], NULL, 10), to = strtoul(word[4], NULL, 10);
        if (from >= ACCOUNTS || to >= ACCOUNTS) return failed("move", NO_ACCOUNT);
        return (code = move(from, to, strtoull(word[5], NULL, 10))) ? failed("move", code) : 0;
    }
    if (!strcmp(word[2], "show") && words == 4) {
        uint64_t held = 0;
        uint32_t a = strtoul(word[3], NULL, 10);
        if (a >= ACCOUNTS) return failed("show", NO_ACCOUNT);
        if ((code = envy_load(&book, account(a), &held))) return failed("show", code);
        printf("%llu\n", (unsigned long long)held);
        return 0;
    }
    if (!strcmp(word[2], "sum") && words == 3) {
        uint64_t count = 0, total = 0;
        if ((code = sum(&count, &total))) return failed("sum", code);
        printf("%llu transfers, %llu in all\n", (unsigned long long)count, (unsigned long long)total);
        return 0;
    }
    return usage();
}

int main(int words, char **word) {
    if (words < 3) return usage();
    /* only a new book may be made */
    if (!strcmp(word[2], "new") == !access(word[1], F_OK)) {
        fprintf(stderr, "book: %s: %s\n", word[1], access(word[1], F_OK) ? "there is no such book" : "it is there already");
        return 1;
    }
    uint32_t code = envy_open_mapped(&book, word[1], &setup, ENVY_CREATE);
    if (code != ENVY_DONE) return failed(word[1], code);
    int status = run(words, word);
    code = envy_close(&book);
    return code == ENVY_DONE ? status : failed(word[1], code);
}
