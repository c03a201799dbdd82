/* Setups that are chosen by a count of words: each is taken by the rules, has room for the words and the owned pages at a
   use of at most 80 rows in 100, and a file of it opens; what has none is refused by its cause.

     sized FILE */
#include "../../c/envy.h"
#include "../../c/envy_setup.h"
#include "../../c/envy_text.h"
#include <stdio.h>
#include <stdlib.h>
#include <string.h>
#include <unistd.h>

static void must(int holds, uint64_t words, uint32_t owned, const char *what) {
    if (holds) return;
    fprintf(stderr, "sized: %llu words, %u owned pages: %s\n", (unsigned long long)words, owned, what);
    exit(1);
}

static void fits(uint64_t words, uint32_t owned) {
    envy_setup s = {0};
    envy_sizes sizes;
    must(envy_setup_for(words, owned, &s) == ENVY_DONE, words, owned, "refused");
    must(envy_region_sizes(&s, &sizes) == ENVY_DONE, words, owned, "it breaks a rule");
    must(32 * (uint64_t)s.pages >= words && 32 * (uint64_t)(s.pages - 1) < words, words, owned, "pages");
    must(s.shadows == owned, words, owned, "shadows");
    must(100 * ((uint64_t)s.pages + s.shadows) <= 80 * sizes.rows, words, owned, "use");
    must(s.policy == ENVY_GREEDY && s.limit == 100, words, owned, "policy and limit");
}

static void refused(uint64_t words, uint32_t owned, uint32_t wanted) {
    envy_setup s = {.segments = 7}, before = s;
    uint32_t code = envy_setup_for(words, owned, &s);
    must(code == wanted, words, owned, envy_error_text(code));
    must(!memcmp(&s, &before, sizeof s), words, owned, "a refused setup was changed");
}

int main(int words, char **word) {
    if (words != 2) return 2;
    for (uint64_t n = 1; n <= 429496704; n += 1 + n / 7)
        for (uint32_t owned = 0; owned <= 2; owned++)
            if ((n + 31) / 32 + owned <= 13421772) fits(n, owned);
    /* 13,421,772 pages are 80 of 100 of the most rows, 16,777,216 */
    fits(13421772 * 32ull, 0);
    fits(32, 13421771);
    refused(13421772 * 32ull + 1, 0, ENVY_SETUP_TOTAL);
    refused(13421772 * 32ull, 1, ENVY_SETUP_TOTAL);
    refused(32, UINT32_MAX, ENVY_SETUP_TOTAL);
    refused(UINT64_MAX, 0, ENVY_SETUP_TOTAL);
    refused(0, 1, ENVY_SETUP_PAGES);

    envy_setup setup, found;
    envy f = ENVY_INIT;
    uint32_t holder;
    uint64_t last;
    must(envy_setup_for(100000, 20, &setup) == ENVY_DONE, 100000, 20, "refused");
    must(envy_open_mapped(&f, word[1], &setup, ENVY_CREATE) == ENVY_DONE, 100000, 20, "no file is made");
    must(envy_store(&f, 99999, 5, &holder) == ENVY_DONE, 100000, 20, "store");
    must(envy_close(&f) == ENVY_DONE, 100000, 20, "close");
    must(envy_file_shape(word[1], &found) == ENVY_DONE, 100000, 20, "no shape is found");
    must(found.segments == setup.segments && found.rows == setup.rows && found.entries == setup.entries, 100000, 20,
         "another shape is found");
    must(envy_open_mapped(&f, word[1], &found, ENVY_CREATE) == ENVY_DONE, 100000, 20, "its own shape doesn't open it");
    must(envy_load(&f, 99999, &last) == ENVY_DONE && last == 5, 100000, 20, "a word is lost");
    must(envy_close(&f) == ENVY_DONE, 100000, 20, "close");
    unlink(word[1]);
    puts("a setup for so many words has room for them, and what has none is refused");
    return 0;
}
