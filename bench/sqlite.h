// The desk list kept by SQLite in memory: what a user would pick instead.
#ifndef ORATJOLET_SQLITE_H
#define ORATJOLET_SQLITE_H

#include "desk.h"

// Opens a database with these base tables and the list; 0 if all is well, as with the others. One that trusts the feed to keep the sheet's promises
// has no triggers on parents that come or go.
int sqlite_open(const uint64_t *base, int trusting);

// Carries out a change: its own transaction, or part of one that is begun and committed.
int sqlite_change(const desk_change *change);
int sqlite_begin(void);
int sqlite_commit(void);

// Holds its list to these rows, which show loan, copy, shelf, desk and, if it is listed, borrower: 0 if they are the same.
int sqlite_compare(const uint64_t *rows, size_t count, size_t columns);

void sqlite_close(void);

const char *sqlite_version(void);

#endif
