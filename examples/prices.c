/* A table of prices by article, with an index of articles by price that is kept in step with it: each change is one
   transaction of both maps and of a counter, which is there whole or not at all, whenever the process dies.

     prices FILE set ARTICLE PRICE  sets a price
     prices FILE drop ARTICLE       takes an article out
     prices FILE show ARTICLE       prints its price
     prices FILE from LOW HIGH      prints the articles from one price to another, the cheapest first
     prices FILE count              prints how many articles there are, and how many changes were made

   Articles and prices are numbers of 32 bits. */
#include "../c/envy.h"
#include "../c/envy_text.h"
#include <stdio.h>
#include <stdlib.h>
#include <string.h>

/* the words of the array: two maps, and a page after them, whose first word counts changes */
enum { MAP_WORDS = 32 * 512, COUNTER = 2 * MAP_WORDS, PAGES = 2 * 512 + 1, TOGETHER = 64 };

static const envy_map by_article = {0, MAP_WORDS}, by_price = {MAP_WORDS, MAP_WORDS};

/* each map may put words in 15 pages at its two levels and in 11 at one, and the counter lies in one more */
static const envy_setup setup = {
    .segments = 16, .rows = 128, .pages = PAGES, .shadows = 64, .frames = 64, .entries = 64,
    .policy = ENVY_GREEDY, .limit = 100, .mark = 48,
};

static envy file = ENVY_INIT;

/* Articles of one price have keys that differ, and lie side by side. */
static uint64_t price_key(uint64_t price, uint64_t article) { return price << 32 | article; }

static int failed(const char *what, uint32_t code) {
    fprintf(stderr, "prices: %s: %s\n", what, envy_error_text(code));
    return 1;
}

/* One more change is counted. */
static uint32_t count_change(uint32_t slot) {
    uint64_t changes;
    uint32_t holder, code = envy_load(&file, COUNTER, &changes);
    return code == ENVY_DONE ? envy_put(&file, slot, COUNTER, changes + 1, &holder) : code;
}

static uint32_t set(uint32_t slot, uint64_t article, uint64_t price) {
    envy_old old, none;
    uint32_t code = envy_map_insert(&file, slot, &by_article, article, price, &old);
    if (code == ENVY_DONE && old.had)
        code = envy_map_remove(&file, slot, &by_price, price_key(old.value, article), &old.value);
    if (code == ENVY_DONE) code = envy_map_insert(&file, slot, &by_price, price_key(price, article), 0, &none);
    return code == ENVY_DONE ? count_change(slot) : code;
}

static uint32_t drop(uint32_t slot, uint64_t article) {
    uint64_t price;
    uint32_t code = envy_map_remove(&file, slot, &by_article, article, &price);
    if (code == ENVY_DONE) code = envy_map_remove(&file, slot, &by_price, price_key(price, article), &price);
    return code == ENVY_DONE ? count_change(slot) : code;
}

/* A change as one transaction: if a part of it is refused, nothing of it is kept. */
static uint32_t change(int sets, uint64_t article, uint64_t price) {
    uint32_t slot, code = envy_map_begin(&file, &slot);
    if (code != ENVY_DONE) return code;
    code = sets ? set(slot, article, price) : drop(slot, article);
    if (code == ENVY_DONE) return envy_map_commit(&file, slot);
    if (code != ENVY_BAD_ABORTED) envy_map_abort(&file, slot);
    return code;
}

static uint32_t print_from(uint64_t low, uint64_t high) {
    envy_pair pairs[TOGETHER];
    uint64_t key = price_key(low, 0);
    size_t count = TOGETHER;
    while (count == TOGETHER) {
        uint32_t code = envy_map_scan(&file, &by_price, key, pairs, TOGETHER, &count);
        if (code != ENVY_DONE) return code;
        for (size_t i = 0; i < count; i++) {
            if (pairs[i].key >> 32 > high) return ENVY_DONE;
            printf("%lu %lu\n", (unsigned long)(pairs[i].key & UINT32_MAX), (unsigned long)(pairs[i].key >> 32));
        }
        if (count) key = pairs[count - 1].key + 1;
        if (!key) return ENVY_DONE;
    }
    return ENVY_DONE;
}

static uint32_t print_count(void) {
    uint64_t articles = 0, prices = 0, changes = 0;
    uint32_t code = envy_map_count(&file, &by_article, &articles);
    if (code == ENVY_DONE) code = envy_map_count(&file, &by_price, &prices);
    if (code == ENVY_DONE) code = envy_load(&file, COUNTER, &changes);
    if (code == ENVY_DONE) printf("%lu articles, %lu prices, %lu changes\n", articles, prices, changes);
    return code;
}

static uint32_t show(uint64_t article) {
    uint64_t price = 0;
    uint32_t code = envy_map_get(&file, &by_article, article, &price);
    if (code == ENVY_DONE) printf("%lu\n", (unsigned long)price);
    return code;
}

static uint32_t number(const char *word) { return strtoul(word, NULL, 10); }

int main(int words, char **word) {
    if (words < 3) return fputs("prices: FILE set ARTICLE PRICE|drop ARTICLE|show ARTICLE|from LOW HIGH|count\n", stderr), 2;
    uint32_t code = envy_open_mapped(&file, word[1], &setup, ENVY_CREATE);
    if (code != ENVY_DONE) return failed(word[1], code);
    const char *what = word[2];
    if (!strcmp(what, "set") && words == 5) code = change(1, number(word[3]), number(word[4]));
    else if (!strcmp(what, "drop") && words == 4) code = change(0, number(word[3]), 0);
    else if (!strcmp(what, "show") && words == 4) code = show(number(word[3]));
    else if (!strcmp(what, "from") && words == 5) code = print_from(number(word[3]), number(word[4]));
    else if (!strcmp(what, "count") && words == 3) code = print_count();
    else return fputs("prices: no such word\n", stderr), 2;
    int status = code == ENVY_DONE ? 0 : failed(what, code);
    code = envy_close(&file);
    return code == ENVY_DONE ? status : failed(word[1], code);
}
