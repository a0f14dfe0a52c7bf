// The desk list kept by SQLite in memory: a table of integer columns, triggers on each table, an index for each search, prepared statements.
#include "sqlite.h"

#include "../include/oratjolet.h"
#include <sqlite3.h>

static sqlite3 *desk;
static sqlite3_stmt *insert_into[4], *delete_from[4], *update_of[4];

static const char *settings = "PRAGMA journal_mode = OFF; PRAGMA synchronous = OFF; PRAGMA temp_store = MEMORY; PRAGMA locking_mode = EXCLUSIVE;";

static const char *tables =
    "CREATE TABLE loan (number INTEGER PRIMARY KEY, borrower INTEGER NOT NULL, copy INTEGER NOT NULL, due INTEGER NOT NULL);"
    "CREATE TABLE copy (barcode INTEGER PRIMARY KEY, title INTEGER NOT NULL, branch INTEGER NOT NULL);"
    "CREATE TABLE title (number INTEGER PRIMARY KEY, category INTEGER NOT NULL, shelf INTEGER NOT NULL);"
    "CREATE TABLE borrower (barcode INTEGER PRIMARY KEY, grp INTEGER NOT NULL, desk INTEGER NOT NULL);"
    "CREATE TABLE list (loan INTEGER PRIMARY KEY, copy INTEGER NOT NULL, shelf INTEGER NOT NULL, desk INTEGER NOT NULL, borrower INTEGER NOT NULL);"
    "CREATE INDEX copy_title ON copy (title);"
    "CREATE INDEX list_copy ON list (copy);"
    "CREATE INDEX list_borrower ON list (borrower);";

// What the list holds, for one row of a table or for all
#define LIST                                                                                                                                      \
    "INSERT INTO list SELECT loan.number, copy.barcode, title.shelf, borrower.desk, borrower.barcode FROM loan JOIN copy ON copy.barcode = loan.copy " \
    "JOIN title ON title.number = copy.title JOIN borrower ON borrower.barcode = loan.borrower WHERE copy.branch = 7 AND title.category BETWEEN 20 AND 29 "

// Tied columns never change, so an update changes at most a shelf or a desk
static const char *triggers =
    "CREATE TRIGGER loan_in AFTER INSERT ON loan BEGIN " LIST "AND loan.number = NEW.number; END;"
    "CREATE TRIGGER loan_out AFTER DELETE ON loan BEGIN DELETE FROM list WHERE loan = OLD.number; END;"
    "CREATE TRIGGER title_moved AFTER UPDATE OF shelf ON title WHEN NEW.shelf <> OLD.shelf BEGIN "
    "UPDATE list SET shelf = NEW.shelf WHERE copy IN (SELECT barcode FROM copy WHERE title = NEW.number); END;"
    "CREATE TRIGGER borrower_moved AFTER UPDATE OF desk ON borrower WHEN NEW.desk <> OLD.desk BEGIN "
    "UPDATE list SET desk = NEW.desk WHERE borrower = NEW.barcode; END;";

// Who does not trust that a parent comes before its children and goes after them needs these too
static const char *triggers_on_parents =
    "CREATE INDEX loan_copy ON loan (copy);"
    "CREATE INDEX loan_borrower ON loan (borrower);"
    "CREATE TRIGGER copy_in AFTER INSERT ON copy BEGIN " LIST "AND copy.barcode = NEW.barcode; END;"
    "CREATE TRIGGER title_in AFTER INSERT ON title BEGIN " LIST "AND title.number = NEW.number; END;"
    "CREATE TRIGGER borrower_in AFTER INSERT ON borrower BEGIN " LIST "AND borrower.barcode = NEW.barcode; END;"
    "CREATE TRIGGER copy_out AFTER DELETE ON copy BEGIN DELETE FROM list WHERE copy = OLD.barcode; END;"
    "CREATE TRIGGER title_out AFTER DELETE ON title BEGIN DELETE FROM list WHERE copy IN (SELECT barcode FROM copy WHERE title = OLD.number); END;"
    "CREATE TRIGGER borrower_out AFTER DELETE ON borrower BEGIN DELETE FROM list WHERE borrower = OLD.barcode; END;";

static const char *inserts[] = {"INSERT INTO loan VALUES (?1, ?2, ?3, ?4)",
                                "INSERT INTO copy VALUES (?1, ?2, ?3)",
                                "INSERT INTO title VALUES (?1, ?2, ?3)",
                                "INSERT INTO borrower VALUES (?1, ?2, ?3)"};
static const char *deletes[] = {"DELETE FROM loan WHERE number = ?1",
                                "DELETE FROM copy WHERE barcode = ?1",
                                "DELETE FROM title WHERE number = ?1",
                                "DELETE FROM borrower WHERE barcode = ?1"};
static const char *updates[] = {"UPDATE loan SET borrower = ?2, copy = ?3, due = ?4 WHERE number = ?1",
                                "UPDATE copy SET title = ?2, branch = ?3 WHERE barcode = ?1",
                                "UPDATE title SET category = ?2, shelf = ?3 WHERE number = ?1",
                                "UPDATE borrower SET grp = ?2, desk = ?3 WHERE barcode = ?1"};

static int run(const char *words)
{
    return sqlite3_exec(desk, words, NULL, NULL, NULL);
}

static int prepare(const char *words, sqlite3_stmt **statement)
{
    return sqlite3_prepare_v3(desk, words, -1, SQLITE_PREPARE_PERSISTENT, statement, NULL);
}

static int prepare_changes(void)
{
    int bad = 0;
    for (int t = 0; t < 4; t++)
        bad |= prepare(inserts[t], &insert_into[t]) | prepare(deletes[t], &delete_from[t]) | prepare(updates[t], &update_of[t]);
    return bad;
}

static int finish(sqlite3_stmt *statement, const uint64_t *row, size_t length)
{
    for (size_t c = 0; c < length; c++)
        sqlite3_bind_int64(statement, (int)c + 1, (sqlite3_int64)row[c]);
    int outcome = sqlite3_step(statement);
    sqlite3_reset(statement);
    return outcome != SQLITE_DONE;
}

static int put_tables(const uint64_t *base)
{
    size_t at = 4;
    int bad = 0;
    for (int t = 0; t < 4; t++)
        for (size_t i = 0; i < base[t]; i++, at += desk_width(t))
            bad |= finish(insert_into[t], base + at, desk_width(t));
    return bad;
}

static void drop_changes(void)
{
    for (int t = 0; t < 4; t++) {
        sqlite3_finalize(insert_into[t]);
        sqlite3_finalize(delete_from[t]);
        sqlite3_finalize(update_of[t]);
    }
}

int sqlite_open(const uint64_t *base, int trusting)
{
    if (sqlite3_open_v2(":memory:", &desk, SQLITE_OPEN_READWRITE | SQLITE_OPEN_CREATE | SQLITE_OPEN_NOMUTEX, NULL) != SQLITE_OK)
        return 1;
    if (run(settings) || run(tables) || prepare_changes() || run("BEGIN") || put_tables(base) || run(LIST) || run(triggers) || run("COMMIT"))
        return 1;
    if (!trusting && run(triggers_on_parents))
        return 1;
    // The statements are prepared again now that there are triggers, so that the day doesn't begin with that
    drop_changes();
    return run("ANALYZE") || prepare_changes();
}

int sqlite_begin(void)
{
    return run("BEGIN");
}

int sqlite_commit(void)
{
    return run("COMMIT");
}

int sqlite_change(const desk_change *c)
{
    if (c->kind == ORATJOLET_INSERT)
        return finish(insert_into[c->table], c->new_row, desk_width(c->table));
    if (c->kind == ORATJOLET_DELETE)
        return finish(delete_from[c->table], c->old_row, 1);
    return finish(update_of[c->table], c->new_row, desk_width(c->table));
}

int sqlite_compare(const uint64_t *rows, size_t count, size_t columns)
{
    sqlite3_stmt *all;
    size_t found = 0;
    int bad = prepare("SELECT loan, copy, shelf, desk, borrower FROM list ORDER BY loan, copy, shelf, desk, borrower", &all);
    for (; !bad && sqlite3_step(all) == SQLITE_ROW; found++)
        for (size_t c = 0; c < columns && !bad; c++)
            bad = count <= found || (uint64_t)sqlite3_column_int64(all, (int)c) != rows[found * columns + c];
    sqlite3_finalize(all);
    return bad || found != count;
}

void sqlite_close(void)
{
    drop_changes();
    sqlite3_close(desk);
}

const char *sqlite_version(void)
{
    return sqlite3_libversion();
}
