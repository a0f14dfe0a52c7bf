// The benchmarks: each call against one plain pass over the store's words and against plain C, and a desk day against SQLite too, as ratios in one run.
// Before a call is measured, its outcome is held to the plain one, word by word.
#include <stddef.h>
#include <stdint.h>
#include <stdio.h>
#include <string.h>
#include <time.h>

#include "../include/oratjolet.h"
#include "desk.h"
#include "plain.h"
#ifdef WITH_SQLITE
#include "sqlite.h"
#endif

typedef uint64_t word;
typedef unsigned long long printed;

enum { MOST = 600000, BASE = 1800000 };

static word store[MOST], fresh[MOST], other[MOST], base[BASE];
static size_t store_length;

static double now(void)
{
    struct timespec t;
    clock_gettime(CLOCK_MONOTONIC, &t);
    return 1e9 * (double)t.tv_sec + (double)t.tv_nsec;
}

// A call on a store: a change, or a fill if there is none
typedef struct {
    const word *sheet;
    size_t sheet_length, base_length;
    const desk_change *change;
} call;

static plain_answer proved(const call *c, word *on)
{
    const desk_change *d = c->change;
    plain_answer a = {0, 0, 0};
    if (!d)
        a.number = oratjolet_fill(c->sheet, c->sheet_length, base, c->base_length, on, store_length, &a.taken, &a.added);
    else
        a.number = oratjolet_change(c->sheet, c->sheet_length, on, store_length, d->kind, d->table, d->old_row, d->old_length, d->new_row, d->new_length,
                                    &a.taken, &a.added);
    return a;
}

static plain_answer plain(const call *c, word *on)
{
    const desk_change *d = c->change;
    if (!d)
        return plain_fill(c->sheet, c->sheet_length, base, c->base_length, on, store_length);
    return plain_change(c->sheet, c->sheet_length, on, store_length, d->kind, d->table, d->old_row, d->old_length, d->new_row, d->new_length);
}

static void make_fresh(word *on)
{
    memcpy(on, fresh, store_length * sizeof *on);
}

// Runs the call on `store`, and plain C's on `other`, which must be equal before and are held to be equal after; 1 if they are not
static int differ(const char *name, const call *c, plain_answer *answer)
{
    plain_answer a = proved(c, store), b = plain(c, other);
    *answer = a;
    if (a.number == b.number && a.taken == b.taken && a.added == b.added && memcmp(store, other, store_length * sizeof *store) == 0)
        return 0;
    printf("%-28s the two outcomes differ: %llu %llu %llu, %llu %llu %llu\n", name, (printed)a.number, (printed)a.taken, (printed)a.added, (printed)b.number,
           (printed)b.taken, (printed)b.added);
    return 1;
}

static double least(plain_answer (*run)(const call *, word *), const call *c, int times)
{
    double best = 1e18;
    for (int i = 0; i < times; i++) {
        make_fresh(store);
        double from = now();
        run(c, store);
        double took = now() - from;
        best = took < best ? took : best;
    }
    return best;
}

static double pass(int times)
{
    static volatile word sum;
    double best = 1e18;
    for (int i = 0; i < times; i++) {
        double from = now();
        sum = plain_pass(fresh, store_length);
        double took = now() - from;
        best = took < best ? took : best;
    }
    (void)sum;
    return best;
}

// How deep a call goes on the stack: what lies below is painted before it, and looked at after it
enum { DEPTH = 4 << 20, PAINT = 0xa5 };

__attribute__((noinline)) static void paint(void)
{
    volatile unsigned char room[DEPTH];
    for (size_t i = 0; i < DEPTH; i++)
        room[i] = PAINT;
}

__attribute__((noinline)) static size_t depth(void)
{
    volatile unsigned char room[DEPTH];
    size_t i = 0;
    while (i < DEPTH && room[i] == PAINT)
        i++;
    return DEPTH - i;
}

static double stack_of(plain_answer (*run)(const call *, word *), const call *c)
{
    make_fresh(store);
    paint();
    run(c, store);
    return (double)depth() / 1024;
}

static int measure(const char *name, const call *c, int times)
{
    plain_answer a;
    make_fresh(store);
    make_fresh(other);
    if (differ(name, c, &a))
        return 1;
    double p = least(proved, c, times), q = least(plain, c, times), floor = pass(times);
    printf("%-28s %9.1f us  %6.2f x plain C  %8.1f x one pass  %6.1f KiB of stack  (number %llu, taken %llu, added %llu)\n", name, p / 1e3, p / q, p / floor,
           stack_of(proved, c), (printed)a.number, (printed)a.taken, (printed)a.added);
    return 0;
}

static int fill_fresh(const word *sheet, size_t length, size_t base_length)
{
    word root, many, taken, added;
    if (plain_plan(sheet, length, &root, &many) != 0 || MOST < many)
        return 1;
    store_length = many;
    return oratjolet_fill(sheet, length, base, base_length, fresh, store_length, &taken, &added) != 0;
}

static int fill_desk(const word *sheet, size_t length, word count, word alike)
{
    return fill_fresh(sheet, length, desk_tables(base, count, 0, alike));
}

static int one_change(const char *name, const word *sheet, size_t length, word kind, word table, const word *old_row, const word *new_row, size_t width)
{
    desk_change d = {.kind = kind, .table = table};
    call c = {.sheet = sheet, .sheet_length = length, .change = &d};
    if (old_row)
        memcpy(d.old_row, old_row, width * sizeof *old_row), d.old_length = width;
    if (new_row)
        memcpy(d.new_row, new_row, width * sizeof *new_row), d.new_length = width;
    return measure(name, &c, 200);
}

// Every kind and table: the loan in the middle, and its copy, title and borrower
static int changes(const word *sheet, size_t length, word count)
{
    word i = count / 2, k = 40503 * i % 65536 % count;
    word loan[] = {9001 + i, desk_borrower(k), desk_copy(k), 20520 + i % 30}, later[] = {9001 + i, desk_borrower(k), desk_copy(k), 20999};
    word fresh_loan[] = {5, desk_borrower(k), desk_copy(k), 20520}, copy[] = {desk_copy(k), 500 + k, 7}, fresh_copy[] = {desk_copy(k) + 1, 500 + k, 7};
    word title[] = {500 + k, 24, k % 90}, moved[] = {500 + k, 24, 95}, fresh_title[] = {499, 24, 3};
    word borrower[] = {desk_borrower(k), 1, k % 12}, desk_moved[] = {desk_borrower(k), 1, 13}, fresh_borrower[] = {desk_borrower(k) + 1, 1, 3};
    int bad = 0;
    bad |= one_change("insert loan", sheet, length, 1, LOAN, NULL, fresh_loan, 4);
    bad |= one_change("insert copy", sheet, length, 1, COPY, NULL, fresh_copy, 3);
    bad |= one_change("insert title", sheet, length, 1, TITLE, NULL, fresh_title, 3);
    bad |= one_change("insert borrower", sheet, length, 1, BORROWER, NULL, fresh_borrower, 3);
    bad |= one_change("update loan", sheet, length, 3, LOAN, loan, later, 4);
    bad |= one_change("update copy to itself", sheet, length, 3, COPY, copy, copy, 3);
    bad |= one_change("update title", sheet, length, 3, TITLE, title, moved, 3);
    bad |= one_change("update borrower", sheet, length, 3, BORROWER, borrower, desk_moved, 3);
    bad |= one_change("delete loan", sheet, length, 2, LOAN, loan, NULL, 4);
    bad |= one_change("delete copy", sheet, length, 2, COPY, copy, NULL, 3);
    bad |= one_change("delete title", sheet, length, 2, TITLE, title, NULL, 3);
    bad |= one_change("delete borrower", sheet, length, 2, BORROWER, borrower, NULL, 3);
    return bad;
}

static void plans_and_shows(const word *sheet, size_t length)
{
    enum { TIMES = 200 };
    static struct oratjolet_answer answer;
    double p = 1e18, q = 1e18, r = 1e18, u = 1e18, floor = pass(TIMES);
    for (int i = 0; i < TIMES; i++) {
        word root, many, first, count, refusal;
        size_t start;
        double a = now();
        oratjolet_plan(sheet, length, &answer);
        double b = now();
        plain_plan(sheet, length, &root, &many);
        double c = now();
        oratjolet_show(sheet, length, fresh, store_length, 4, &first, &count);
        double d = now();
        plain_show(sheet, length, fresh, store_length, 4, &start, &refusal);
        double e = now();
        p = b - a < p ? b - a : p, q = c - b < q ? c - b : q, r = d - c < r ? d - c : r, u = e - d < u ? e - d : u;
    }
    printf("%-28s %9.1f us  %6.2f x plain C\n", "plan", p / 1e3, p / q);
    printf("%-28s %9.1f us  %6.2f x plain C  %8.1f x one pass\n", "show", r / 1e3, r / u, r / floor);
}

static int few_rows_at_stake(void)
{
    static const struct {
        const char *name;
        word count;
        int with;
    } desks[] = {{"-- desk, rooms of 4,096, 410 rows in each", 410, 0},
                 {"-- desk, rooms of 4,096, 3686 rows in each", 3686, 0},
                 {"-- the same with loans kept (borrower's barcode unlisted), 3686 rows in each", 3686, KEPT},
                 {"-- the same with the shelf listed first, 3686 rows in each: list rows move when titles do", 3686, BY_SHELF}};
    word sheet[160];
    int bad = 0;
    for (size_t k = 0; k < sizeof desks / sizeof *desks; k++) {
        size_t length = desk_sheet(sheet, 4096, desks[k].with);
        printf("%s\n", desks[k].name);
        if (fill_desk(sheet, length, desks[k].count, 0))
            return 1;
        bad |= changes(sheet, length, desks[k].count);
        if (desks[k].with == 0)
            plans_and_shows(sheet, length);
    }
    return bad;
}

static int many_rows_at_stake(void)
{
    static const struct {
        const char *name;
        word alike;
        int with;
    } desks[] = {{"-- an update that replaces all of 4,096 list rows", 1, 0},
                 {"-- the same with loans kept", 1, KEPT},
                 {"-- an update that moves about half of 4,096 list rows, by shelf", 2, BY_SHELF}};
    word sheet[160], title[] = {500, 24, 0}, moved[] = {500, 24, 95};
    int bad = 0;
    for (size_t k = 0; k < sizeof desks / sizeof *desks; k++) {
        size_t length = desk_sheet(sheet, 4096, desks[k].with);
        printf("%s\n", desks[k].name);
        if (fill_desk(sheet, length, 4096, desks[k].alike))
            return 1;
        bad |= one_change("update title", sheet, length, 3, TITLE, title, moved, 3);
    }
    return bad;
}

static int rooms_grow(void)
{
    word sheet[160];
    int bad = 0;
    printf("-- as rooms grow, each half full: insert loan, delete borrower\n");
    for (word room = 64; room <= 4096; room *= 4) {
        size_t length = desk_sheet(sheet, room, 0);
        if (fill_desk(sheet, length, room / 2, 0))
            return 1;
        word i = room / 4, fresh_loan[] = {5, desk_borrower(i), desk_copy(i), 20520}, borrower[] = {desk_borrower(i), 1, i % 12};
        char name[32] = "insert loan, room 0000", also[32] = "delete borrower, room 0000";
        for (int d = 0; d < 4; d++) {
            word tens[] = {1000, 100, 10, 1};
            name[18 + d] = also[22 + d] = (char)('0' + room / tens[d] % 10);
        }
        bad |= one_change(name, sheet, length, 1, LOAN, NULL, fresh_loan, 4);
        bad |= one_change(also, sheet, length, 2, BORROWER, borrower, NULL, 3);
    }
    return bad;
}

// A desk day: the changes of a day one by one, on a store nine tenths full.

static desk_change day[DAY];

static int hold_day(const word *sheet, size_t length, word *taken, word *added)
{
    call c = {.sheet = sheet, .sheet_length = length};
    make_fresh(store);
    make_fresh(other);
    *taken = *added = 0;
    for (int i = 0; i < DAY; i++) {
        plain_answer a;
        c.change = day + i;
        if (differ("a change of the day", &c, &a))
            return 1;
        if (a.number != 0) {
            printf("change %d of the day is refused: %llu\n", i, (printed)a.number);
            return 1;
        }
        *taken += a.taken, *added += a.added;
    }
    return 0;
}

// Each change's least time of some days
static double day_took[DAY];

static void start_days(void)
{
    for (int i = 0; i < DAY; i++)
        day_took[i] = 1e18;
}

static void took(int i, double time)
{
    day_took[i] = time < day_took[i] ? time : day_took[i];
}

static double whole_day(void)
{
    double sum = 0;
    for (int i = 0; i < DAY; i++)
        sum += day_took[i];
    return sum;
}

static double least_day(plain_answer (*run)(const call *, word *), const word *sheet, size_t length)
{
    call c = {.sheet = sheet, .sheet_length = length};
    start_days();
    for (int times = 0; times < 10; times++) {
        make_fresh(store);
        for (int i = 0; i < DAY; i++) {
            c.change = day + i;
            double from = now();
            run(&c, store);
            took(i, now() - from);
        }
    }
    return whole_day();
}

#ifdef WITH_SQLITE
typedef struct {
    const char *name;
    int trusting, one_transaction;
} sqlite_way;

static const sqlite_way sqlite_ways[] = {{"SQLite, one by one", 0, 0}, {"SQLite, one transaction", 0, 1}, {"SQLite, promises trusted", 1, 0}};

// A day on a database of its own; 1 if SQLite fails, or if its list in the evening isn't these rows
static int sqlite_day(const sqlite_way *way, const word *rows, size_t count, size_t columns)
{
    int bad = sqlite_open(base, way->trusting) || (way->one_transaction && sqlite_begin());
    for (int i = 0; i < DAY && !bad; i++) {
        double from = now();
        bad = sqlite_change(day + i) || (way->one_transaction && i == DAY - 1 && sqlite_commit());
        took(i, now() - from);
    }
    bad = bad || sqlite_compare(rows, count, columns);
    sqlite_close();
    return bad;
}

// `store` is as it is in the evening, after days that took p
static int against_sqlite(const word *sheet, size_t length, double p, size_t columns)
{
    word first, words;
    if (oratjolet_show(sheet, length, store, store_length, 4, &first, &words) != 0)
        return 1;
    for (size_t k = 0; k < sizeof sqlite_ways / sizeof *sqlite_ways; k++) {
        start_days();
        for (int times = 0; times < 10; times++)
            if (sqlite_day(sqlite_ways + k, store + first, words / columns, columns)) {
                printf("%s: it failed, or its list isn't the store's\n", sqlite_ways[k].name);
                return 1;
            }
        printf("%-28s %9.1f us a change; proved is %.2f x as long\n", sqlite_ways[k].name, whole_day() / DAY / 1e3, p / whole_day());
    }
    printf("SQLite %s: its list and the store's, %llu rows, agree in the evening\n", sqlite_version(), (printed)(words / columns));
    return 0;
}
#else
static int against_sqlite(const word *sheet, size_t length, double p, size_t columns)
{
    (void)sheet, (void)length, (void)p, (void)columns;
    printf("without SQLite, which is not there\n");
    return 0;
}
#endif

static int desk_days(void)
{
    word sheet[160], taken, added;
    for (int kept = 0; kept < 2; kept++) {
        size_t length = desk_sheet(sheet, 4096, kept ? KEPT : 0);
        if (fill_desk(sheet, length, 3686, 0))
            return 1;
        desk_day(base, day);
        if (hold_day(sheet, length, &taken, &added))
            return 1;
        double p = least_day(proved, sheet, length), q = least_day(plain, sheet, length), floor = pass(200);
        printf("-- a desk day, %d changes one by one from 3686 rows in each%s (taken %llu, added %llu)\n", DAY, kept ? ", loans kept" : "", (printed)taken,
               (printed)added);
        printf("%-28s %9.1f us a change  %6.2f x plain C  %8.1f x one pass\n", "proved", p / DAY / 1e3, p / q, p / DAY / floor);
        printf("%-28s %9.1f us a change\n", "plain C", q / DAY / 1e3);
        if (against_sqlite(sheet, length, p, kept ? 4 : 5))
            return 1;
    }
    return 0;
}

// Eight tables in a chain, each row of one for a row of the next, one in seventeen within its condition
static size_t chain(word *sheet)
{
    size_t at = 0;
    sheet[at++] = 8, sheet[at++] = 7, sheet[at++] = 8, sheet[at++] = 8;
    for (int t = 0; t < 8; t++)
        sheet[at++] = 3;
    for (word t = 0; t < 7; t++)
        sheet[at++] = t, sheet[at++] = 1, sheet[at++] = t + 1, sheet[at++] = 1;
    for (word t = 0; t < 8; t++)
        sheet[at++] = t, sheet[at++] = 2, sheet[at++] = 0, sheet[at++] = 0;
    for (word t = 0; t < 8; t++)
        sheet[at++] = t, sheet[at++] = 0;
    for (int t = 0; t < 9; t++)
        sheet[at++] = 4096;
    return at;
}

static size_t chain_tables(void)
{
    size_t at = 0;
    for (int t = 0; t < 8; t++)
        base[at++] = 65535;
    for (word t = 0; t < 8; t++)
        for (word i = 0; i < 65535; i++) {
            word k = 40503 * i % 65536;
            base[at++] = (k << 32) + 7 * t, base[at++] = (k << 32) + 7 * (t + 1), base[at++] = k % 17;
        }
    return at;
}

static int fills(void)
{
    word sheet[160];
    int bad = 0;
    printf("-- fill\n");
    for (int deep = 0; deep < 2; deep++) {
        size_t length = deep ? chain(sheet) : desk_sheet(sheet, 4096, GROUPS), base_length = deep ? chain_tables() : desk_tables(base, 65535, 1, 0);
        call c = {.sheet = sheet, .sheet_length = length, .base_length = base_length};
        if (fill_fresh(sheet, length, base_length))
            return 1;
        bad |= measure(deep ? "fill, chain, 8 x 65,535 rows" : "fill, desk, 4 x 65,535 rows", &c, 5);
    }
    return bad;
}

static int deepest_sheet(void)
{
    word sheet[160], last[] = {49, 56, 0}, altered[] = {49, 57, 0}, first[] = {0, 7, 0}, next[] = {1, 7, 0};
    size_t length = chain(sheet);
    int bad = 0;
    printf("-- the deepest sheet: eight tables in a chain\n");
    if (fill_fresh(sheet, length, chain_tables()))
        return 1;
    bad |= one_change("insert into the root", sheet, length, 1, 0, NULL, next, 3);
    bad |= one_change("delete from the root", sheet, length, 2, 0, first, NULL, 3);
    bad |= one_change("update the last", sheet, length, 3, 7, last, altered, 3);
    return bad;
}

int main(void)
{
    int bad = few_rows_at_stake();
    bad |= many_rows_at_stake();
    bad |= desk_days();
    bad |= rooms_grow();
    bad |= fills();
    bad |= deepest_sheet();
    return bad;
}
