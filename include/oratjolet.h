// Oratjolet: a list over tables that stand elsewhere, kept right from a feed of row changes, with a few side tables beside it.
//
// All values are 64-bit words. The caller owns every run of words and lends it for the time of a call: the library keeps nothing, allocates nothing,
// has no state and may be called from any number of threads at once, as long as no two calls share words that one of them writes.
//
// What the caller sees to, since no call can test it:
//   - A run is a pointer and its length in words, all of them the caller's. The words that a call answers in (answer, taken, added, first, count) are lent too.
//   - No pointer is null, not even that of a run of length 0, and each is aligned as its type asks.
//   - What a call writes to lies apart from all else that it is lent: the store of fill and of change, answer, taken, added, first and count overlap neither a
//     run nor each other. Runs that are only read may overlap.
//
// Every call takes any words and ends. It returns a number: 0 if the call is accepted, otherwise that of the refusal below. A refused call alters no word of
// the store. On the stack, plan, show and change stay under 64 KiB and fill under 2 MiB.
//
// A sheet says what the list is (at most 145 words):
//   n tables (1 to 8), e = n - 1 edges, c conditions (0 to 16), p listed columns (1 to 16);
//   n widths (1 to 8; column 0 is a table's key);
//   e edges: child table, child column, parent table, promise (1: every child row has its parent; otherwise 0);
//   c conditions: table, column, lowest, highest, both ends included;
//   p listed columns: table, column;
//   n + 1 rooms (0 to 4,096 rows): of each table's side table, then of the list.
#ifndef ORATJOLET_H
#define ORATJOLET_H

#include <stddef.h>
#include <stdint.h>

#ifdef __cplusplus
extern "C" {
#endif

// What a call turns down: by number, but fill tests 10 before 9.
enum {
    ORATJOLET_ACCEPTED = 0,
    ORATJOLET_SHEET_LENGTH = 1,   // a sheet count out of range, e not n - 1, or the wrong sheet length
    ORATJOLET_SHEET_WORDS = 2,    // a width, table, column, promise, condition, room word or repeated listing breaks the sheet's rules
    ORATJOLET_SHEET_TREE = 3,     // the edges aren't a tree: one root without an edge into it, one edge into each other table, all reached
    ORATJOLET_STORE_LENGTH = 4,   // the store's length differs from the plan's
    ORATJOLET_NOT_ASKED_SO = 5,   // change: no such kind or table, a row not of the table's width, an update with two keys; show: no such part
    ORATJOLET_TIED_COLUMN = 6,    // an update alters a tied column: one in a condition, or a child column of an edge
    ORATJOLET_STORE_UNSOUND = 7,  // the store isn't sound
    ORATJOLET_CONTRADICTION = 8,  // the change contradicts the store
    ORATJOLET_NO_ROOM = 9,        // a count after the call would exceed its room
    ORATJOLET_BASE_TABLES = 10    // fill: base run of the wrong length, a count above 65,535, or base tables not lawful
};

// The kinds of change.
enum { ORATJOLET_INSERT = 1, ORATJOLET_DELETE = 2, ORATJOLET_UPDATE = 3 };

// What the plan call answers: 220 words.
struct oratjolet_answer {
    uint64_t number;
    uint64_t tables;        // how many tables the sheet has
    uint64_t root;          // the table without an edge into it
    uint64_t store;         // how many words a store of this sheet has
    uint64_t kept[8];       // 1 if the table has a side table
    uint64_t columns[8][8]; // columns[t][c] is 1 if table t's side table shows column c
    uint64_t dep[8][8];     // dep[t][u] is 1 if u is a parent of t along a promised edge
    uint64_t need[8][8];    // need[t][u] is 1 if t needs u
    uint64_t starts[8];     // where in the store table t's part begins, which is what show answers as *first; an unkept table's part has no words
    uint64_t rooms[8];      // table t's room word in the sheet, kept or not: for how many rows its side table has room, if it has one
};

// Derives the side tables and the store's length from a sheet (refusals 1 to 3). If it is refused, every field but the number is zero.
uint64_t oratjolet_plan(const uint64_t *sheet, size_t sheet_length, struct oratjolet_answer *answer);

// Fills a store from the base tables (refusals 1, 2, 3, 4, 10, 9): n counts (at most 65,535 each), then the rows, table by table. The old words of the store
// are not read. *taken is 0 and *added the number of rows on the list.
uint64_t oratjolet_fill(const uint64_t *sheet, size_t sheet_length, const uint64_t *base, size_t base_length, uint64_t *store, size_t store_length,
                        uint64_t *taken, uint64_t *added);

// Brings a store up to date with one change of one table (refusals 1 to 9). An insert has no old row and a delete no new one: its length is 0.
// *taken and *added are the numbers of rows taken from the list and added to it, 0 if the call is refused.
uint64_t oratjolet_change(const uint64_t *sheet, size_t sheet_length, uint64_t *store, size_t store_length, uint64_t kind, uint64_t table,
                          const uint64_t *old_row, size_t old_length, const uint64_t *new_row, size_t new_length, uint64_t *taken, uint64_t *added);

// Where the rows of a part stand: a table's side table (0 to n - 1) or the list (n). They are the *count words of the store from *first on, in rising
// order; none for a table without a side table, and none if the call is refused (1 to 5 and 7).
uint64_t oratjolet_show(const uint64_t *sheet, size_t sheet_length, const uint64_t *store, size_t store_length, uint64_t part,
                        uint64_t *first, uint64_t *count);

#ifdef __cplusplus
}
#endif

#endif
