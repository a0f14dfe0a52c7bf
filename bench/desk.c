// The desk sheet, tables for it, and a day of changes: mostly loans in and out, always the same ones.
#include "desk.h"

#include "../include/oratjolet.h"
#include <stdbool.h>
#include <string.h>

typedef uint64_t word;

size_t desk_width(word table)
{
    return table == LOAN ? 4 : 3;
}

size_t desk_sheet(word *sheet, word room, int with)
{
    word head[] = {4, 3, with & GROUPS ? 3 : 2, with & KEPT ? 4 : 5, 4, 3, 3, 3, 0, 2, 1, 1, 1, 1, 2, 1, 0, 1, 3, 1, 1, 2, 7, 7, 2, 1, 20, 29};
    word group[] = {3, 1, 1, 1}, listed[] = {0, 0, 1, 0, 2, 2, 3, 2, 3, 0}, by_shelf[] = {2, 2, 0, 0, 1, 0, 3, 2, 3, 0};
    size_t at = 0;
    memcpy(sheet, head, sizeof head), at += sizeof head / sizeof *head;
    if (with & GROUPS)
        memcpy(sheet + at, group, sizeof group), at += 4;
    memcpy(sheet + at, with & BY_SHELF ? by_shelf : listed, sizeof listed), at += with & KEPT ? 8 : 10;
    for (int t = 0; t < 5; t++)
        sheet[at++] = room;
    return at;
}

word desk_copy(word i)
{
    return 31234000000001 + 7 * i;
}

word desk_borrower(word i)
{
    return 21234000000001 + 3 * i;
}

size_t desk_tables(word *base, word count, int few, word alike)
{
    size_t at = 0;
    for (int t = 0; t < 4; t++)
        base[at++] = count;
    for (word i = 0; i < count; i++) {
        word k = 40503 * i % 65536 % count;
        base[at++] = 9001 + i, base[at++] = desk_borrower(k), base[at++] = desk_copy(k), base[at++] = 20520 + i % 30;
    }
    for (word i = 0; i < count; i++)
        base[at++] = desk_copy(i), base[at++] = alike && i % alike == 0 ? 500 : 500 + i, base[at++] = few && i % 17 ? 8 : 7;
    for (word i = 0; i < count; i++)
        base[at++] = 500 + i, base[at++] = few && i % 17 ? 40 : 24, base[at++] = i % 90;
    for (word i = 0; i < count; i++)
        base[at++] = desk_borrower(i), base[at++] = few && i % 17 ? 2 : 1, base[at++] = i % 12;
    return at;
}

// The tables as they are while the day is thought up

enum { MOST = 4096 + DAY };

typedef struct {
    size_t count;
    word rows[MOST][4], next_key;
} table;

static table desk[4];
static word state;

// Numbers that look random, always the same: xorshift
static word any(word limit)
{
    state ^= state << 13;
    state ^= state >> 7;
    state ^= state << 17;
    return state % limit;
}

static void read_tables(const word *base)
{
    size_t at = 4;
    for (word t = 0; t < 4; t++) {
        desk[t].count = base[t];
        for (size_t i = 0; i < base[t]; i++, at += desk_width(t))
            memcpy(desk[t].rows[i], base + at, desk_width(t) * sizeof *base);
        desk[t].next_key = desk[t].rows[base[t] - 1][0] + 1;
    }
}

static word *some(word t)
{
    return desk[t].rows[any(desk[t].count)];
}

static desk_change change_of(word kind, word t, const word *old_row, const word *new_row)
{
    desk_change c = {.kind = kind, .table = t};
    if (old_row)
        memcpy(c.old_row, old_row, desk_width(t) * sizeof *old_row), c.old_length = desk_width(t);
    if (new_row)
        memcpy(c.new_row, new_row, desk_width(t) * sizeof *new_row), c.new_length = desk_width(t);
    return c;
}

// A row with the next key
static desk_change insert(word t, word second, word third, word fourth)
{
    word row[4] = {desk[t].next_key++, second, third, fourth};
    memcpy(desk[t].rows[desk[t].count++], row, sizeof row);
    return change_of(ORATJOLET_INSERT, t, NULL, row);
}

static desk_change delete(word t, word *row)
{
    desk_change c = change_of(ORATJOLET_DELETE, t, row, NULL);
    memcpy(row, desk[t].rows[--desk[t].count], sizeof *desk[t].rows);
    return c;
}

static desk_change update(word t, word *row, size_t column, word value)
{
    word old_row[4];
    memcpy(old_row, row, sizeof old_row);
    row[column] = value;
    return change_of(ORATJOLET_UPDATE, t, old_row, row);
}

static bool refers(word t, size_t column, word key)
{
    for (size_t i = 0; i < desk[t].count; i++)
        if (desk[t].rows[i][column] == key)
            return true;
    return false;
}

static bool is_used(word t, word key)
{
    return t == COPY ? refers(LOAN, 2, key) : t == TITLE ? refers(COPY, 1, key) : refers(LOAN, 1, key);
}

// A row that no other refers to, if there is one
static word *unused(word t)
{
    size_t from = any(desk[t].count);
    for (size_t i = 0; i < desk[t].count; i++) {
        word *row = desk[t].rows[(from + i) % desk[t].count];
        if (!is_used(t, row[0]))
            return row;
    }
    return NULL;
}

// In a hundred changes 39 loans out, 37 back and 6 made longer, 5 borrowers who move to another desk and 4 titles to another shelf,
// and copies, titles and borrowers who come and go. One new copy in four is another branch's.
static desk_change next_change(void)
{
    word luck = any(100);
    if (luck < 39)
        return insert(LOAN, some(BORROWER)[0], some(COPY)[0], 20550 + any(30));
    if (luck < 76)
        return delete (LOAN, some(LOAN));
    if (luck < 82)
        return update(LOAN, some(LOAN), 3, 20580 + any(30));
    if (luck < 87)
        return update(BORROWER, some(BORROWER), 2, any(12));
    if (luck < 91)
        return update(TITLE, some(TITLE), 2, any(90));
    if (luck < 94)
        return insert(COPY, some(TITLE)[0], any(4) ? 7 : 8, 0);
    if (luck < 95)
        return insert(TITLE, any(4) ? 24 : 40, any(90), 0);
    if (luck < 97)
        return insert(BORROWER, 1 + any(3), any(12), 0);
    word t = luck < 98 ? COPY : luck < 99 ? TITLE : BORROWER, *row = unused(t);
    return row ? delete (t, row) : next_change();
}

void desk_day(const word *base, desk_change *day)
{
    state = 20261116;
    read_tables(base);
    for (int i = 0; i < DAY; i++)
        day[i] = next_change();
}
