/* An app that has SQLite and the extension in itself, as on phones: every connection that it opens has the functions. */
#include <sqlite3.h>
#include <stdio.h>

int sqlite3_fuzzydate_init(sqlite3 *db, char **error, const void *api);

static int print_row(void *none, int count, char **values, char **names) {
    (void)none, (void)count, (void)names;
    printf("%s\n", values[0]);
    return 0;
}

int main(void) {
    static const char query[] = "SELECT fuzzy_read(1, 'next friday at 3 pm', '2026-02-11 09:30:15')";
    sqlite3 *db;
    int code = sqlite3_auto_extension((void (*)(void))sqlite3_fuzzydate_init);
    if (code == SQLITE_OK) code = sqlite3_open(":memory:", &db);
    if (code == SQLITE_OK) code = sqlite3_exec(db, query, print_row, NULL, NULL);
    if (code != SQLITE_OK) fprintf(stderr, "linked: %s\n", sqlite3_errstr(code));
    return code;
}
