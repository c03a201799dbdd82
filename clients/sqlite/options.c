#define _GNU_SOURCE
#include "parts.h"
#include <stdlib.h>
#include <string.h>

enum { VALUE_ROOM = 64 };

/* Names that SQLite itself reads from a URI. */
static const char *const sqlite_names[] = {"cache", "immutable", "mode", "modeof", "nolock", "psow", "vfs", NULL};
/* Those of either kind of file, and of one kind alone. */
static const char *const names[] = {"size", "frames", "journal", "mapped", NULL};
static const char *const names_of_durable[] = {"bytewise", NULL};
static const char *const names_of_mapped[] = {"shadows", "nosync", NULL};

static int is_among(const char *name, const char *const *list) {
    for (; *list; list++)
        if (!strcmp(name, *list)) return 1;
    return 0;
}

/* The value of a name in ENVYVFS, which is as the part of a URI after its question mark. */
static const char *in_environment(const char *name, char value[VALUE_ROOM]) {
    size_t long_ = strlen(name);
    for (const char *at = secure_getenv("ENVYVFS"); at && *at; at += *at == '&') {
        size_t all = strcspn(at, "&");
        if (all > long_ && all - long_ <= VALUE_ROOM && !strncmp(at, name, long_) && at[long_] == '=') {
            memcpy(value, at + long_ + 1, all - long_ - 1);
            value[all - long_ - 1] = 0;
            return value;
        }
        at += all;
    }
    return NULL;
}

static const char *value_of(const char *uri, const char *name, char room[VALUE_ROOM]) {
    const char *value = sqlite3_uri_parameter(uri, name);
    return value ? value : in_environment(name, room);
}

static int refuse(char **why, const char *name, const char *value, const char *wanted) {
    *why = sqlite3_mprintf("%s=%s: %s", name, value, wanted);
    return *why ? SQLITE_MISUSE : SQLITE_NOMEM;
}

/* A number, maybe with a k, M or G. */
static int read_number(const char *uri, const char *name, uint64_t most, uint64_t *n, char **why) {
    static const char units[] = "kMG";
    char room[VALUE_ROOM], *end;
    const char *text = value_of(uri, name, room);
    if (!text) return SQLITE_OK;
    unsigned long long read = strtoull(text, &end, 10);
    const char *unit = *end ? strchr(units, *end == 'K' ? 'k' : *end == 'm' ? 'M' : *end == 'g' ? 'G' : *end) : NULL;
    unsigned shift = unit ? 10 * (unsigned)(unit - units + 1) : 0;
    int is_whole = !end[unit != NULL] && *text >= '0' && *text <= '9';
    if (!is_whole || read > most >> shift || (read == 0 && most > 1)) {
        sqlite3_free(*why);
        char *wanted = sqlite3_mprintf(most == 1 ? "it is 0 or 1" : "it is a number of 1 to %llu", most);
        int rc = wanted ? refuse(why, name, text, wanted) : SQLITE_NOMEM;
        sqlite3_free(wanted);
        return rc;
    }
    *n = (uint64_t)read << shift;
    return SQLITE_OK;
}

static int read_flag(const char *uri, const char *name, int *flag, char **why) {
    uint64_t n = (uint64_t)*flag;
    int rc = read_number(uri, name, 1, &n, why);
    *flag = (int)n;
    return rc;
}

static int read_count(const char *uri, const char *name, uint64_t most, uint32_t *count, char **why) {
    uint64_t n = *count;
    int rc = read_number(uri, name, most, &n, why);
    *count = (uint32_t)n;
    return rc;
}

static int read_journal(const char *uri, int mapped, int *is_file, char **why) {
    char room[VALUE_ROOM];
    const char *text = value_of(uri, "journal", room);
    *is_file = mapped || (text && !strcmp(text, "file"));
    if (!text || !strcmp(text, "file") || (!mapped && !strcmp(text, "memory"))) return SQLITE_OK;
    return refuse(why, "journal", text, mapped ? "over a mapped file it is file" : "it is memory or file");
}

/* What is wrong with a name, or NULL. */
static const char *wrong_with(const char *name, int mapped) {
    if (is_among(name, names) || is_among(name, sqlite_names)) return NULL;
    if (is_among(name, names_of_durable)) return mapped ? "a mapped file has no such parameter" : NULL;
    if (is_among(name, names_of_mapped)) return mapped ? NULL : "only a mapped file (mapped=1) has this parameter";
    return "no parameter has this name";
}

static int names_are_known(const char *uri, int mapped, char **why) {
    const char *name;
    for (int i = 0; (name = sqlite3_uri_key(uri, i)); i++) {
        const char *wrong = wrong_with(name, mapped);
        if (wrong) return refuse(why, name, sqlite3_uri_parameter(uri, name), wrong);
    }
    return SQLITE_OK;
}

static int read_of_kind(const char *uri, options *o, uint32_t most, char **why) {
    if (!o->bytes.mapped) return read_flag(uri, "bytewise", &o->bytes.bytewise, why);
    int rc = read_count(uri, "shadows", most, &o->bytes.shadows, why);
    return rc ? rc : read_flag(uri, "nosync", &o->syncs_nothing, why);
}

int options_read(const char *uri, options *o, char **why) {
    enum { MOST_FRAMES = 65536 };
    *o = (options){.bytes = BYTES_OPTIONS_INIT};
    int rc = read_flag(uri, "mapped", &o->bytes.mapped, why);
    if (!rc) rc = names_are_known(uri, o->bytes.mapped, why);
    if (!rc) rc = read_count(uri, "frames", MOST_FRAMES, &o->bytes.frames, why);
    if (!rc) rc = read_journal(uri, o->bytes.mapped, &o->journal_is_file, why);
    if (!rc) rc = read_of_kind(uri, o, MOST_FRAMES, why);
    /* the most that fits hangs on the others */
    if (!rc) rc = read_number(uri, "size", bytes_largest(&o->bytes), &o->bytes.size, why);
    return rc;
}
