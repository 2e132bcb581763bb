/*
 * Captures messages by libsqlite3, with the rows that a store has of each, for ./test speed captures.
 *
 *     captures DATABASE MESSAGES OCTETS GROUP [LINE]
 *
 * The tables are those of a store (docs/SPECIFICATION.md). MESSAGES is a file of messages of OCTETS each. So many as GROUP are captured
 * in one transaction, by prepared statements, in WAL with `synchronous = FULL`. With LINE, each has an event too, with a line of that
 * many octets. It prints the microseconds of the processor, and those on the clock, without those of its start.
 */
#include <sqlite3.h>
#include <stdio.h>
#include <stdlib.h>
#include <string.h>
#include <sys/resource.h>
#include <sys/time.h>

enum { MESSAGE, RECORD, DUE_DAY, EVENT, BEGIN, COMMIT, STATEMENTS };

static const char *const SCHEMA =
    "PRAGMA journal_mode = WAL; PRAGMA synchronous = FULL;"
    "CREATE TABLE message (number INTEGER PRIMARY KEY, body BLOB NOT NULL) STRICT;"
    "CREATE TABLE record (number INTEGER PRIMARY KEY, message INTEGER NOT NULL, path TEXT NOT NULL, day INTEGER NOT NULL,"
    " destroyed INTEGER NOT NULL) STRICT;"
    "CREATE TABLE due_day (record INTEGER PRIMARY KEY, day INTEGER NOT NULL) STRICT;"
    "CREATE INDEX due_by_day ON due_day (day, record);"
    "CREATE TABLE event (number INTEGER PRIMARY KEY, line TEXT NOT NULL, mark TEXT NOT NULL) STRICT;";

static const char *const TEXTS[STATEMENTS] = {
    "INSERT INTO message (number, body) VALUES (?1, ?2)",
    "INSERT INTO record (number, message, path, day, destroyed) VALUES (?1, ?1, 'unfiled', 20000, 0)",
    "INSERT INTO due_day (record, day) VALUES (?1, 22557)",
    "INSERT INTO event (number, line, mark) VALUES (?1, ?2, ?3)",
    "BEGIN IMMEDIATE",
    "COMMIT",
};

static sqlite3 *database;
static sqlite3_stmt *statements[STATEMENTS];

static void require(int is_so, const char *what)
{
    if (!is_so) {
        fprintf(stderr, "captures: %s: %s\n", what, database ? sqlite3_errmsg(database) : "no database");
        exit(1);
    }
}

static void run(sqlite3_stmt *statement)
{
    require(sqlite3_step(statement) == SQLITE_DONE, sqlite3_sql(statement));
    require(sqlite3_reset(statement) == SQLITE_OK, "reset");
}

static void capture(long number, const char *octets, long count, const char *line, long length)
{
    static const char mark[] = "91480a2c975e49653dc0f33e2cf77afa38160652e007ac064846d01829b205e9";
    int index;

    for (index = MESSAGE; index <= EVENT; index++)
        sqlite3_bind_int64(statements[index], 1, number);
    sqlite3_bind_blob(statements[MESSAGE], 2, octets, (int)count, SQLITE_STATIC);
    sqlite3_bind_text(statements[EVENT], 2, line, (int)length, SQLITE_STATIC);
    sqlite3_bind_text(statements[EVENT], 3, mark, (int)sizeof mark - 1, SQLITE_STATIC);
    for (index = MESSAGE; index <= (length > 0 ? EVENT : DUE_DAY); index++)
        run(statements[index]);
}

static long long microseconds(struct timeval time)
{
    return time.tv_sec * 1000000LL + time.tv_usec;
}

static long long spent(void)
{
    struct rusage usage;

    getrusage(RUSAGE_SELF, &usage);
    return microseconds(usage.ru_utime) + microseconds(usage.ru_stime);
}

static long long now(void)
{
    struct timeval time;

    gettimeofday(&time, NULL);
    return microseconds(time);
}

/* Captures the messages of a file, so many in a transaction, and returns how many these are. */
static long capture_all(FILE *file, long octets, long group, long length)
{
    char *message = malloc((size_t)octets), *line = malloc((size_t)length + 1);
    long number = 0;

    require(message && line, "memory");
    memset(line, 'e', (size_t)length);
    while (fread(message, (size_t)octets, 1, file) == 1) {
        if (number++ % group == 0)
            run(statements[BEGIN]);
        capture(number, message, octets, line, length);
        if (number % group == 0)
            run(statements[COMMIT]);
    }
    if (number % group != 0)
        run(statements[COMMIT]);
    free(message);
    free(line);
    return number;
}

int main(int count, char **words)
{
    long long used, began;
    FILE *file;
    int index;

    if (count < 5 || count > 6) {
        fprintf(stderr, "usage: captures DATABASE MESSAGES OCTETS GROUP [LINE]\n");
        return 2;
    }
    file = fopen(words[2], "rb");
    require(file != NULL, words[2]);
    require(sqlite3_open(words[1], &database) == SQLITE_OK, words[1]);
    require(sqlite3_exec(database, SCHEMA, NULL, NULL, NULL) == SQLITE_OK, "the tables");
    for (index = 0; index < STATEMENTS; index++)
        require(sqlite3_prepare_v2(database, TEXTS[index], -1, &statements[index], NULL) == SQLITE_OK, TEXTS[index]);
    used = spent();
    began = now();
    capture_all(file, atol(words[3]), atol(words[4]), count == 6 ? atol(words[5]) : 0);
    for (index = 0; index < STATEMENTS; index++)
        sqlite3_finalize(statements[index]);
    require(sqlite3_close(database) == SQLITE_OK, "the end");
    used = spent() - used;
    printf("%lld %lld\n", used, now() - began);
    return 0;
}
