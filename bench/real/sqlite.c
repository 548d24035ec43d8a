/* SQLite: runs the statements of work.sql on a database in memory. Prints the last row of each statement, and sums over all rows. */
#include <stdio.h>
#include <string.h>

#include "embed.h"
#include "sqlite3.h"

EMBED(text, "work.sql");

/* SQLite is compiled with SQLITE_OS_OTHER, so this is its file system. It has no files. */
static int no_open(sqlite3_vfs *it, const char *name, sqlite3_file *file, int flags, int *out) {
    (void)it, (void)name, (void)flags, (void)out;
    file->pMethods = NULL;
    return SQLITE_CANTOPEN;
}

static int no_delete(sqlite3_vfs *it, const char *name, int sync) {
    (void)it, (void)name, (void)sync;
    return SQLITE_OK;
}

static int no_access(sqlite3_vfs *it, const char *name, int flags, int *answer) {
    (void)it, (void)name, (void)flags;
    *answer = 0;
    return SQLITE_OK;
}

static int same_path(sqlite3_vfs *it, const char *name, int room, char *path) {
    (void)it;
    snprintf(path, room, "%s", name);
    return SQLITE_OK;
}

/* Random numbers, the same in each run. */
static int bytes(sqlite3_vfs *it, int room, char *to) {
    (void)it;
    for (int i = 0; i < room; i++) {
        to[i] = (char)(i * 73 + 41);
    }
    return room;
}

static int no_sleep(sqlite3_vfs *it, int microseconds) {
    (void)it;
    return microseconds;
}

static int same_time(sqlite3_vfs *it, double *day) {
    (void)it;
    *day = 2460000.5;
    return SQLITE_OK;
}

static int no_error(sqlite3_vfs *it, int room, char *to) {
    (void)it, (void)room, (void)to;
    return 0;
}

int sqlite3_os_init(void) {
    static sqlite3_vfs none = {.iVersion = 1, .szOsFile = sizeof(sqlite3_file), .mxPathname = 64, .zName = "none", .xOpen = no_open,
        .xDelete = no_delete, .xAccess = no_access, .xFullPathname = same_path, .xRandomness = bytes, .xSleep = no_sleep,
        .xCurrentTime = same_time, .xGetLastError = no_error};
    return sqlite3_vfs_register(&none, 1);
}

int sqlite3_os_end(void) { return SQLITE_OK; }

static int failed(sqlite3 *base, int line) {
    printf("statement %d: %s\n", line, sqlite3_errmsg(base));
    return 1;
}

int main(void) {
    sqlite3 *base;
    const char *next = text;
    unsigned sum = SUM_START;
    if (sqlite3_open(":memory:", &base) != SQLITE_OK) {
        return failed(base, 0);
    }
    for (int number = 1; *next; number++) {
        sqlite3_stmt *statement;
        char last[200] = "";
        unsigned rows = 0;
        int step;
        if (sqlite3_prepare_v2(base, next, -1, &statement, &next) != SQLITE_OK) {
            return failed(base, number);
        }
        if (!statement) {
            break;
        }
        while ((step = sqlite3_step(statement)) == SQLITE_ROW) {
            last[0] = 0;
            for (int i = 0; i < sqlite3_column_count(statement); i++) {
                const unsigned char *value = sqlite3_column_text(statement, i);
                size_t used = strlen(last);
                sum = sum_of(sum, value ? value : (const unsigned char *)"NULL", value ? (unsigned)sqlite3_column_bytes(statement, i) : 4);
                snprintf(last + used, sizeof last - used, " %s", value ? (const char *)value : "NULL");
            }
            rows++;
        }
        if (step != SQLITE_DONE) {
            return failed(base, number);
        }
        sqlite3_finalize(statement);
        if (rows) {
            printf("statement %d: %u rows, sum %08x,%s\n", number, rows, sum, last);
        }
    }
    sqlite3_close(base);
    return 0;
}
