// A registry of a few lines over libsqlite3, without proofs: the peer that `usbreg` is timed beside.
//
// Usage: peer STORE FILE TABLES [PAGE_SIZE]: acts on the request lines of a file over a new store, or over one that is
// there (:memory: for memory). It makes the checks of enrol, ask, grant and decline by prepared SQL statements,
// keeps counts and the least free number in memory, commits each accepted request, and writes each reply before
// the next request. It keeps no times and no digests. The lines are those of registry.py: their texts have no escapes.
#include <sqlite3.h>
#include <stdio.h>
#include <stdlib.h>
#include <string.h>
#include <sys/stat.h>
#include <unistd.h>

enum { VID = 0x1209, PIDS = 65536, TEXT = 512, SLUG = 33, SLOTS = 2 * PIDS, MOST_OPEN = 16, MOST_PETITIONS = 1000000 };

enum statement { BEGIN, COMMIT, ROLLBACK, KEPT, KEEP, ORG, PUT_ORG, LICENCE, CURATOR, PUT_PETITION, PETITION, GRANT, DECLINE, FIXED, SPAN, OWNER, PUT_ENTRY, STATEMENTS };

static const char *const texts[STATEMENTS] = {
    [BEGIN] = "BEGIN IMMEDIATE",
    [COMMIT] = "COMMIT",
    [ROLLBACK] = "ROLLBACK",
    [KEPT] = "SELECT request, reply FROM kept WHERE caller = ?1 AND request_key = ?2",
    [KEEP] = "INSERT INTO kept VALUES (?1, ?2, ?3, ?4)",
    [ORG] = "SELECT keeper FROM orgs WHERE slug = ?1",
    [PUT_ORG] = "INSERT INTO orgs VALUES (?1, ?2, ?3, ?4)",
    [LICENCE] = "SELECT 1 FROM licences WHERE name = ?1",
    [CURATOR] = "SELECT 1 FROM curators WHERE name = ?1",
    [PUT_PETITION] = "INSERT INTO petitions3 VALUES (?1, 4617, ?2, NULL, ?3, ?4, ?5, ?6, 0, NULL)",
    [PETITION] = "SELECT state, org, title, licence, site, source FROM petitions3 WHERE id = ?1",
    [GRANT] = "UPDATE petitions3 SET state = 1, pid = ?2 WHERE id = ?1",
    [DECLINE] = "UPDATE petitions3 SET state = 2 WHERE id = ?1",
    [FIXED] = "SELECT hi FROM fixed WHERE lo <= ?1 ORDER BY lo DESC LIMIT 1",
    [SPAN] = "SELECT hi FROM spans3 WHERE vid = 4617 AND lo <= ?1 ORDER BY lo DESC LIMIT 1",
    [OWNER] = "SELECT org, held FROM entries3 WHERE vid = 4617 AND pid = ?1",
    [PUT_ENTRY] = "INSERT INTO entries3 VALUES (4617, ?1, ?2, 1, ?3, ?4, ?5, ?6)",
};

static sqlite3 *db;
static sqlite3_stmt *made[STATEMENTS];
static long long last_petition, organisations;
static unsigned char owned[PIDS];
static int least = 17;
// How many petitions of each organisation are open: a table with open addressing, twice as large as is ever needed.
static struct { char slug[SLUG]; int count; } open_petitions[SLOTS];

static void must(int is_well) {
    if (!is_well) {
        fprintf(stderr, "%s\n", sqlite3_errmsg(db));
        exit(1);
    }
}

// Makes a statement ready, with its first texts bound.
static sqlite3_stmt *ready(enum statement which, const char *a, const char *b) {
    sqlite3_stmt *it = made[which];
    sqlite3_reset(it);
    if (a) sqlite3_bind_text(it, 1, a, -1, SQLITE_STATIC);
    if (b) sqlite3_bind_text(it, 2, b, -1, SQLITE_STATIC);
    return it;
}

static int finds(sqlite3_stmt *it) {
    int code = sqlite3_step(it);
    must(code == SQLITE_ROW || code == SQLITE_DONE);
    return code == SQLITE_ROW;
}

static void does(sqlite3_stmt *it) {
    must(sqlite3_step(it) == SQLITE_DONE);
    sqlite3_reset(it);
}

// The text of a field, or the digits of a number.
static const char *field(const char *line, const char *name, char *room) {
    char wanted[64];
    snprintf(wanted, sizeof wanted, "\"%s\":", name);
    const char *at = strstr(line, wanted);
    if (!at) return strcpy(room, "");
    at += strlen(wanted);
    const char *ends = *at == '"' ? "\"" : ",}";
    at += *at == '"';
    size_t length = strcspn(at, ends);
    if (length >= TEXT) length = TEXT - 1;
    memcpy(room, at, length);
    room[length] = 0;
    return room;
}

static int *open_count(const char *slug) {
    unsigned at = 5381;
    for (const char *byte = slug; *byte; byte++) at = at * 33 + (unsigned char)*byte;
    for (at %= SLOTS; open_petitions[at].slug[0]; at = (at + 1) % SLOTS)
        if (!strcmp(open_petitions[at].slug, slug)) return &open_petitions[at].count;
    snprintf(open_petitions[at].slug, SLUG, "%s", slug);
    return &open_petitions[at].count;
}

static int reaches(enum statement which, int pid) {
    sqlite3_stmt *it = ready(which, NULL, NULL);
    sqlite3_bind_int(it, 1, pid);
    return finds(it) && sqlite3_column_int(it, 0) >= pid;
}

// Each of these gives 0 and the reply's text, or the number of a refusal.
static int enrol(const char *line, const char *caller, char *reply) {
    char org[TEXT], title[TEXT], site[TEXT];
    field(line, "org", org);
    if (finds(ready(ORG, org, NULL))) return 5;
    if (organisations >= PIDS) return 18;
    sqlite3_stmt *it = ready(PUT_ORG, org, field(line, "title", title));
    sqlite3_bind_text(it, 3, field(line, "site", site), -1, SQLITE_STATIC);
    sqlite3_bind_text(it, 4, caller, -1, SQLITE_STATIC);
    does(it);
    organisations++;
    sprintf(reply, "enrolled %s", org);
    return 0;
}

static int ask(const char *line, const char *caller, char *reply) {
    char org[TEXT], title[TEXT], licence[TEXT], site[TEXT], source[TEXT];
    sqlite3_stmt *it = ready(ORG, field(line, "org", org), NULL);
    if (!finds(it)) return 4;
    if (strcmp((const char *)sqlite3_column_text(it, 0), caller)) return 3;
    if (!finds(ready(LICENCE, field(line, "licence", licence), NULL))) return 13;
    if (*open_count(org) >= MOST_OPEN) return 14;
    if (last_petition >= MOST_PETITIONS) return 18;
    it = ready(PUT_PETITION, NULL, org);
    sqlite3_bind_int64(it, 1, last_petition + 1);
    sqlite3_bind_text(it, 3, field(line, "title", title), -1, SQLITE_STATIC);
    sqlite3_bind_text(it, 4, licence, -1, SQLITE_STATIC);
    sqlite3_bind_text(it, 5, field(line, "site", site), -1, SQLITE_STATIC);
    sqlite3_bind_text(it, 6, field(line, "source", source), -1, SQLITE_STATIC);
    does(it);
    last_petition++;
    ++*open_count(org);
    sprintf(reply, "petition %lld", last_petition);
    return 0;
}

// Finds the open petition that a curator decides on: its row is that of PETITION then.
static int open_petition(const char *line, const char *caller, long long *id) {
    char digits[TEXT];
    if (!finds(ready(CURATOR, caller, NULL))) return 2;
    *id = atoll(field(line, "petition", digits));
    sqlite3_stmt *it = ready(PETITION, NULL, NULL);
    sqlite3_bind_int64(it, 1, *id);
    if (!finds(it)) return 6;
    return sqlite3_column_int(it, 0) ? 7 : 0;
}

static int grant(const char *line, const char *caller, char *reply) {
    long long id = 0;
    int refused = open_petition(line, caller, &id);
    if (refused) return refused;
    sqlite3_stmt *petition = made[PETITION];
    if (reaches(FIXED, least) || reaches(SPAN, least)) return 8;
    sqlite3_stmt *it = ready(OWNER, NULL, NULL);
    sqlite3_bind_int(it, 1, least);
    if (finds(it)) return 9;
    it = ready(PUT_ENTRY, NULL, (const char *)sqlite3_column_text(petition, 1));
    sqlite3_bind_int(it, 1, least);
    for (int at = 2; at <= 5; at++)
        sqlite3_bind_text(it, at + 1, (const char *)sqlite3_column_text(petition, at), -1, SQLITE_STATIC);
    does(it);
    sprintf(reply, "granted %04x to %s by petition %lld", least, sqlite3_column_text(petition, 1), id);
    --*open_count((const char *)sqlite3_column_text(petition, 1));
    it = ready(GRANT, NULL, NULL);
    sqlite3_bind_int64(it, 1, id);
    sqlite3_bind_int(it, 2, least);
    sqlite3_reset(petition);
    does(it);
    owned[least] = 1;
    while (least < PIDS - 1 && owned[least]) least++;
    return 0;
}

static int decline(const char *line, const char *caller, char *reply) {
    long long id = 0;
    int refused = open_petition(line, caller, &id);
    if (refused) return refused;
    --*open_count((const char *)sqlite3_column_text(made[PETITION], 1));
    sqlite3_reset(made[PETITION]);
    sqlite3_stmt *it = ready(DECLINE, NULL, NULL);
    sqlite3_bind_int64(it, 1, id);
    does(it);
    sprintf(reply, "declined petition %lld", id);
    return 0;
}

static int act(const char *line, char *reply) {
    char caller[TEXT], key[TEXT], order[TEXT];
    field(line, "caller", caller);
    field(line, "key", key);
    field(line, "order", order);
    does(ready(BEGIN, NULL, NULL));
    sqlite3_stmt *it = ready(KEPT, caller, key);
    int refused = 0, is_kept = finds(it);
    if (is_kept) {
        size_t length = strlen(line);
        int is_same = (size_t)sqlite3_column_bytes(it, 0) == length && !memcmp(sqlite3_column_blob(it, 0), line, length);
        refused = is_same ? 0 : 1;
        snprintf(reply, TEXT, "%s", sqlite3_column_text(it, 1));
    } else {
        refused = !strcmp(order, "enrol") ? enrol(line, caller, reply) : !strcmp(order, "ask") ? ask(line, caller, reply) : !strcmp(order, "grant") ? grant(line, caller, reply) : decline(line, caller, reply);
    }
    for (int at = 0; at < STATEMENTS; at++) sqlite3_reset(made[at]);
    if (refused || is_kept) {
        does(ready(ROLLBACK, NULL, NULL));
        return refused;
    }
    it = ready(KEEP, caller, key);
    sqlite3_bind_blob(it, 3, line, (int)strlen(line), SQLITE_STATIC);
    sqlite3_bind_text(it, 4, reply, -1, SQLITE_STATIC);
    does(it);
    does(ready(COMMIT, NULL, NULL));
    return 0;
}

static char *whole(const char *path) {
    FILE *file = fopen(path, "rb");
    struct stat about;
    if (!file || stat(path, &about)) {
        perror(path);
        exit(1);
    }
    char *bytes = malloc((size_t)about.st_size + 1);
    bytes[fread(bytes, 1, (size_t)about.st_size, file)] = 0;
    fclose(file);
    return bytes;
}

static long long number(const char *text) {
    sqlite3_stmt *it;
    must(sqlite3_prepare_v2(db, text, -1, &it, NULL) == SQLITE_OK && finds(it));
    long long found = sqlite3_column_int64(it, 0);
    sqlite3_finalize(it);
    return found;
}

// Opens a store, a new one with pages of this size and by the statements of a file, and reads the totals.
static void open_store(const char *store, const char *tables, const char *page_size) {
    int is_new = !strcmp(store, ":memory:") || access(store, F_OK);
    must(sqlite3_open(store, &db) == SQLITE_OK);
    char form[64];
    snprintf(form, sizeof form, "PRAGMA page_size = %s", page_size);
    must(sqlite3_exec(db, form, NULL, NULL, NULL) == SQLITE_OK);
    must(sqlite3_exec(db, "PRAGMA journal_mode = WAL; PRAGMA synchronous = FULL", NULL, NULL, NULL) == SQLITE_OK);
    if (is_new) must(sqlite3_exec(db, whole(tables), NULL, NULL, NULL) == SQLITE_OK);
    for (int at = 0; at < STATEMENTS; at++) must(sqlite3_prepare_v3(db, texts[at], -1, SQLITE_PREPARE_PERSISTENT, &made[at], NULL) == SQLITE_OK);
    organisations = number("SELECT count(*) FROM orgs");
    last_petition = number("SELECT coalesce(max(id), 0) FROM petitions3");
    sqlite3_stmt *it;
    must(sqlite3_prepare_v2(db, "SELECT pid FROM entries3", -1, &it, NULL) == SQLITE_OK);
    while (finds(it)) owned[sqlite3_column_int(it, 0)] = 1;
    sqlite3_finalize(it);
    must(sqlite3_prepare_v2(db, "SELECT org FROM petitions3 WHERE state = 0", -1, &it, NULL) == SQLITE_OK);
    while (finds(it)) ++*open_count((const char *)sqlite3_column_text(it, 0));
    sqlite3_finalize(it);
    while (least < PIDS - 1 && owned[least]) least++;
}

static inline int close_store(void) {
    for (int at = 0; at < STATEMENTS; at++) sqlite3_finalize(made[at]);
    return sqlite3_close(db) != SQLITE_OK;
}

// Acts on a line, and puts the reply line into the room, which has 2 * TEXT + 64 bytes.
static int reply_line(const char *line, char *shown) {
    char reply[2 * TEXT];
    int refused = act(line, reply);
    return refused ? sprintf(shown, "{\"refused\":%d}\n", refused) : sprintf(shown, "{\"done\":\"%s\"}\n", reply);
}

#ifndef NO_MAIN
int main(int count, char **words) {
    if (count != 4 && count != 5) return 2;
    open_store(words[1], words[3], count == 5 ? words[4] : "4096");
    char shown[2 * TEXT + 64];
    for (char *line = strtok(whole(words[2]), "\n"); line; line = strtok(NULL, "\n")) {
        int length = reply_line(line, shown);
        if (write(1, shown, (size_t)length) != length) return 1;
    }
    return close_store();
}
#endif
