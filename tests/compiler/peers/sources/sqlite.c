/* SQLite: fills a table in memory, and asks it five queries. */
#include "unit.h"

#include "sqlite3.h"

enum { ROWS = 8000, TEXT_MAX = 32 };
static sqlite3 *filled;
static uint32_t total;

/* ---- The system, which has no files. */

static int no_open(sqlite3_vfs *vfs, const char *name, sqlite3_file *file, int flags, int *out) {
    (void)vfs, (void)name, (void)flags, (void)out;
    file->pMethods = NULL;
    return SQLITE_CANTOPEN;
}

static int no_delete(sqlite3_vfs *vfs, const char *name, int sync) {
    (void)vfs, (void)name, (void)sync;
    return SQLITE_OK;
}

static int no_access(sqlite3_vfs *vfs, const char *name, int flags, int *out) {
    (void)vfs, (void)name, (void)flags;
    *out = 0;
    return SQLITE_OK;
}

static int same_name(sqlite3_vfs *vfs, const char *name, int room, char *out) {
    (void)vfs;
    sqlite3_snprintf(room, out, "%s", name);
    return SQLITE_OK;
}

static int same_bytes(sqlite3_vfs *vfs, int len, char *out) {
    (void)vfs;
    memset(out, 7, (size_t)len);
    return len;
}

static int no_sleep(sqlite3_vfs *vfs, int microseconds) {
    (void)vfs;
    return microseconds;
}

static int same_day(sqlite3_vfs *vfs, double *day) {
    (void)vfs;
    *day = 2459000.5;
    return SQLITE_OK;
}

static int no_error(sqlite3_vfs *vfs, int len, char *out) {
    (void)vfs, (void)len, (void)out;
    return 0;
}

int sqlite3_os_init(void) {
    /* clang-format off */
    static sqlite3_vfs vfs = {
        .iVersion = 1, .szOsFile = sizeof(sqlite3_file), .mxPathname = 512, .zName = "none", .xOpen = no_open, .xDelete = no_delete,
        .xAccess = no_access, .xFullPathname = same_name, .xRandomness = same_bytes, .xSleep = no_sleep, .xCurrentTime = same_day,
        .xGetLastError = no_error,
    };
    /* clang-format on */
    return sqlite3_vfs_register(&vfs, 1);
}

int sqlite3_os_end(void) {
    return SQLITE_OK;
}

/* ---- The operations. */

static int on_row(void *user, int columns, char **values, char **names) {
    int k;
    (void)user, (void)names;
    for (k = 0; k < columns; k++) {
        total = total * 31 + (values[k] ? (uint32_t)strlen(values[k]) + (unsigned char)values[k][0] : 7);
    }
    return 0;
}

static void ask(sqlite3 *db, const char *text) {
    need(sqlite3_exec(db, text, on_row, NULL, NULL) == SQLITE_OK);
}

/* Inserts a row of some printable bytes of the input. */
static void insert(sqlite3_stmt *statement, uint32_t random) {
    char text[TEXT_MAX];
    uint32_t at = (random >> 8) % (in_len - TEXT_MAX), len = 5 + (random >> 4) % 20, k;
    for (k = 0; k < len; k++) {
        text[k] = (char)(' ' + in[at + k] % 90);
    }
    need(sqlite3_bind_text(statement, 1, text, (int)len, SQLITE_TRANSIENT) == SQLITE_OK);
    need(sqlite3_bind_int(statement, 2, (int)len) == SQLITE_OK);
    need(sqlite3_bind_int(statement, 3, (int)((random >> 16) % 97)) == SQLITE_OK);
    need(sqlite3_step(statement) == SQLITE_DONE && sqlite3_reset(statement) == SQLITE_OK);
}

static sqlite3 *filled_anew(void) {
    sqlite3 *db;
    sqlite3_stmt *statement;
    uint32_t random = 12345, k;
    need(sqlite3_open(":memory:", &db) == SQLITE_OK);
    ask(db, "CREATE TABLE word(id INTEGER PRIMARY KEY, text TEXT, len INTEGER, part INTEGER); CREATE INDEX by_text ON word(text); BEGIN");
    need(sqlite3_prepare_v2(db, "INSERT INTO word(text, len, part) VALUES(?, ?, ?)", -1, &statement, NULL) == SQLITE_OK);
    for (k = 0; k < ROWS; k++) {
        random = random * 1103515245u + 12345u;
        insert(statement, random);
    }
    need(sqlite3_finalize(statement) == SQLITE_OK);
    ask(db, "COMMIT");
    return db;
}

static void fill(void) {
    if (filled != NULL) {
        need(sqlite3_close(filled) == SQLITE_OK);
    }
    filled = filled_anew();
    made_number((uint32_t)sqlite3_total_changes(filled));
}

static void query(void) {
    total = 0;
    ask(filled, "SELECT part, count(*), sum(len), min(text), max(text) FROM word GROUP BY part ORDER BY 2 DESC, 1");
    ask(filled, "SELECT count(*) FROM word a JOIN word b ON a.part = b.id WHERE b.len > 9");
    ask(filled, "SELECT text FROM word WHERE text LIKE '%ab%' ORDER BY len, text LIMIT 50");
    ask(filled, "SELECT count(DISTINCT substr(text, 1, 2)), max(length(upper(text))) FROM word");
    ask(filled, "WITH RECURSIVE c(x) AS (SELECT 1 UNION ALL SELECT x + 1 FROM c WHERE x < 8000) SELECT sum(x * x % 13) FROM c");
    made_number(total);
}

void unit_prepare(void) {
    need(sqlite3_initialize() == SQLITE_OK);
}

UNIT_OPERATIONS(fill, query)
