// The same calls in plain C, as quick as we can write them for the same contract: what the benchmarks measure the proved ones against.
// Nothing here is proved, and nothing but bench/ uses it.
#ifndef ORATJOLET_PLAIN_H
#define ORATJOLET_PLAIN_H

#include <stddef.h>
#include <stdint.h>

typedef struct {
    uint64_t number, taken, added;
} plain_answer;

// One plain pass over the words: the floor of every call.
uint64_t plain_pass(const uint64_t *words, size_t length);

// The number of the refusal, or 0, and then the root and the store's length.
uint64_t plain_plan(const uint64_t *sheet, size_t sheet_length, uint64_t *root, uint64_t *store_length);

plain_answer plain_change(const uint64_t *sheet, size_t sheet_length, uint64_t *store, size_t store_length, uint64_t kind, uint64_t table,
                          const uint64_t *old_row, size_t old_length, const uint64_t *new_row, size_t new_length);

plain_answer plain_fill(const uint64_t *sheet, size_t sheet_length, const uint64_t *base, size_t base_length, uint64_t *store, size_t store_length);

// How many rows part `number` holds, and where the first stands; the refusal in *refusal, 0 if none.
size_t plain_show(const uint64_t *sheet, size_t sheet_length, const uint64_t *store, size_t store_length, uint64_t number, size_t *start, uint64_t *refusal);

#endif
