// The desk sheet, tables for it, and a day of changes: what the benchmarks are run on.
#ifndef ORATJOLET_DESK_H
#define ORATJOLET_DESK_H

#include <stddef.h>
#include <stdint.h>

enum { LOAN, COPY, TITLE, BORROWER };
enum { DAY = 2000 };

typedef struct {
    uint64_t kind, table; // the kinds are include/oratjolet.h's
    uint64_t old_row[8], new_row[8];
    size_t old_length, new_length;
} desk_change;

size_t desk_width(uint64_t table);
uint64_t desk_copy(uint64_t i);
uint64_t desk_borrower(uint64_t i);

// The desk sheet with these rooms, and perhaps: group 1 alone of the borrowers; the loans kept, since the borrower's barcode is unlisted;
// the shelf as the first listed column, so that rows move when titles do. Its length.
enum { GROUPS = 1, KEPT = 2, BY_SHELF = 4 };
size_t desk_sheet(uint64_t *sheet, uint64_t room, int with);

// count rows in each of the desk's tables, each loan of some copy to some borrower; every row counts, or one in seventeen (few);
// each copy of its own title, or every so many-th (alike) of the first. The length.
size_t desk_tables(uint64_t *base, uint64_t count, int few, uint64_t alike);

// A lending desk's day, one lawful change after the other, from tables of at most 4,096 rows: always the same.
void desk_day(const uint64_t *base, desk_change *day);

#endif
