/* one_process FOLDER MPTEST WORD..: SQLite's mptest within one process. It starts its clients by system(), as processes, and an
   array belongs to one process: so each client is a thread here, with globals of its own.

   MPTEST is mptest.c as a shared object, with -Dmain=mptest_main -Dsystem=mptest_system -Dexit=mptest_exit; each thread loads a
   copy of it, which is put into FOLDER. The WORDs are mptest's. Answers what its main answers. */
#define _GNU_SOURCE
#include "common.h"
#include <dlfcn.h>
#include <pthread.h>

enum { MOST_WORDS = 32, MOST_TEXT = 1024 };
typedef int main_of(int n, char **words);
typedef struct client {
    char *words[MOST_WORDS];
    int n;
    main_of *main;
} client;

static const char *folder, *object;
static int copies;

static void *serve(void *it) {
    client *c = it;
    return (void *)(intptr_t)c->main(c->n, c->words);
}

/* A copy is another object to the loader, so it has other globals. */
static main_of *load_copy(void) {
    char words[3 * MOST_TEXT], path[MOST_TEXT];
    snprintf(path, sizeof path, "%s/mptest.%d.so", folder, __atomic_add_fetch(&copies, 1, __ATOMIC_RELAXED));
    snprintf(words, sizeof words, "cp '%s' '%s'", object, path);
    if (system(words)) die(NULL, "no copy is made");
    void *loaded = dlopen(path, RTLD_NOW | RTLD_LOCAL);
    main_of *found = loaded ? (main_of *)dlsym(loaded, "mptest_main") : NULL;
    if (!found) die(NULL, dlerror());
    return found;
}

static pthread_t begin(client *c) {
    pthread_t thread;
    c->main = load_copy();
    if (pthread_create(&thread, NULL, serve, c)) die(NULL, "no thread begins");
    return thread;
}

/* The words of a line, of which some are in quotes; & ends it. */
int mptest_system(const char *line) {
    client *c = calloc(1, sizeof *c);
    char *next = strdup(line);
    while (c->n < MOST_WORDS - 1 && *(next += strspn(next, " ")) && *next != '&') {
        const char *end = *next == '"' ? "\"" : " ";
        next += *next == '"';
        c->words[c->n++] = next;
        next += strcspn(next, end);
        if (*next) *next++ = 0;
    }
    pthread_detach(begin(c));
    return 0;
}

void mptest_exit(int status) { pthread_exit((void *)(intptr_t)status); }

int main(int n, char **words) {
    void *answer;
    client first = {.n = n - 2};
    if (n < 4 || n - 2 >= MOST_WORDS) die(NULL, "usage: one_process FOLDER MPTEST WORD..");
    folder = words[1];
    object = words[2];
    load_extension();
    memcpy(first.words, words + 2, (size_t)(n - 2) * sizeof *words);
    pthread_join(begin(&first), &answer);
    return (int)(intptr_t)answer;
}
