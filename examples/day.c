// A library's day: reads a sheet, tables and changes as in day.txt, plans, fills, applies the changes, and prints the list before and after.
//     ./run day < examples/day.txt
#include <stddef.h>
#include <stdint.h>
#include <stdio.h>
#include <string.h>

#include "../include/oratjolet.h"

enum { TABLES = 8, WORDS = 4096, LINE = 512, NAMES = 256 };

static const char *const refusals[] = {
    "accepted",
    "a sheet count out of range, e not n - 1, or the wrong sheet length",
    "a width, table, column, promise, condition, room word or repeated listing breaks the sheet's rules",
    "the edges aren't a tree",
    "the store's length differs",
    "no such kind or table, a row not of the table's width, or an update with two keys",
    "an update alters a tied column",
    "the store isn't sound",
    "the change contradicts the store",
    "a count after the call would exceed its room",
    "base run of the wrong length, a count above 65,535, or base tables not lawful",
};

static struct oratjolet_answer plan;
static uint64_t sheet[WORDS], base[WORDS], store[WORDS], rows[TABLES][WORDS];
static size_t sheet_length, store_length, row_words[TABLES];
static char tables[TABLES][LINE], headings[TABLES * 2][LINE];
static size_t table_count, heading_count, filled;

static struct {
    size_t table;
    uint64_t key;
    char text[LINE];
} names[NAMES];
static size_t name_count;

static int stop(const char *what, const char *line)
{
    printf("day: %s: %s\n", what, line);
    return 1;
}

static int read_line(char *line)
{
    size_t at = 0;
    int c;
    while ((c = getchar()) != -1 && c != '\n')
        if (at + 1 < LINE)
            line[at++] = (char)c;
    line[at] = 0;
    return c != -1 || at != 0;
}

// The next word of a line; # ends the line's words
static const char *word(const char *line, char *out)
{
    size_t at = 0;
    while (*line == ' ')
        line++;
    while (*line != 0 && *line != ' ' && *line != '#')
        out[at++] = *line++;
    out[at] = 0;
    return line;
}

// The numbers up to > or the end of the line's words
static const char *numbers(const char *line, uint64_t *out, size_t *count)
{
    char text[LINE];
    *count = 0;
    for (;;) {
        line = word(line, text);
        if (text[0] < '0' || '9' < text[0])
            return line;
        uint64_t value = 0;
        for (const char *digit = text; *digit != 0; digit++)
            value = 10 * value + (uint64_t)(*digit - '0');
        out[(*count)++] = value;
    }
}

static size_t table_of(const char *name)
{
    for (size_t t = 0; t < table_count; t++)
        if (strcmp(tables[t], name) == 0)
            return t;
    return table_count;
}

static void keep_name(size_t table, uint64_t key, const char *line)
{
    while (*line == ' ')
        line++;
    if (*line != '#' || name_count == NAMES)
        return;
    line++;
    while (*line == ' ')
        line++;
    names[name_count].table = table;
    names[name_count].key = key;
    strcpy(names[name_count++].text, line);
}

static const char *name_of(size_t table, uint64_t key)
{
    for (size_t i = 0; i < name_count; i++)
        if (names[i].table == table && names[i].key == key)
            return names[i].text;
    return NULL;
}

static void print_list(const char *when)
{
    uint64_t first, count;
    size_t n = sheet[0], p = sheet[3];
    const uint64_t *listed = sheet + 4 + n + 4 * sheet[1] + 4 * sheet[2];
    oratjolet_show(sheet, sheet_length, store, store_length, n, &first, &count);
    printf("The list %s, %llu rows:\n", when, (unsigned long long)(count / p));
    for (uint64_t i = 0; i < count; i++) {
        size_t k = i % p;
        const char *name = listed[2 * k + 1] == 0 ? name_of(listed[2 * k], store[first + i]) : NULL;
        printf("%s%s %llu", k == 0 ? "  " : " ", headings[k], (unsigned long long)store[first + i]);
        if (name)
            printf(" (%s)", name);
        printf(k + 1 == p ? "\n" : ",");
    }
}

static int open_day(void)
{
    uint64_t taken, added;
    size_t at = 0;
    uint64_t number = oratjolet_plan(sheet, sheet_length, &plan);
    if (number != 0)
        return stop("the sheet is refused", refusals[number]);
    printf("Side tables:");
    for (size_t t = 0; t < sheet[0]; t++)
        if (plan.kept[t] == 1)
            printf(" %s", tables[t]);
    store_length = plan.store;
    printf("; the store has %llu words\n", (unsigned long long)store_length);
    if (WORDS < store_length)
        return stop("the store is too long for this example", "");
    for (size_t t = 0; t < sheet[0]; t++)
        base[at++] = row_words[t] / sheet[4 + t];
    for (size_t t = 0; t < sheet[0]; t++) {
        memcpy(base + at, rows[t], row_words[t] * sizeof *base);
        at += row_words[t];
    }
    number = oratjolet_fill(sheet, sheet_length, base, at, store, store_length, &taken, &added);
    if (number != 0)
        return stop("the tables are refused", refusals[number]);
    filled = 1;
    print_list("in the morning");
    return 0;
}

static int change(uint64_t kind, const char *line)
{
    char name[LINE];
    uint64_t first[LINE], second[LINE] = {0}, taken, added;
    size_t first_count, second_count = 0;
    const char *rest = word(line, name);
    size_t table = table_of(name);
    rest = numbers(rest, first, &first_count);
    if (kind == ORATJOLET_UPDATE)
        rest = numbers(rest, second, &second_count);
    uint64_t number = kind == ORATJOLET_INSERT
        ? oratjolet_change(sheet, sheet_length, store, store_length, kind, table, second, 0, first, first_count, &taken, &added)
        : oratjolet_change(sheet, sheet_length, store, store_length, kind, table, first, first_count, second, second_count, &taken, &added);
    if (number == 0) {
        keep_name(table, first[0], rest);
        printf("  %llu taken, %llu added\n", (unsigned long long)taken, (unsigned long long)added);
    } else {
        printf("  refused %llu: %s\n", (unsigned long long)number, refusals[number]);
    }
    return 0;
}

static int row(const char *line)
{
    char name[LINE];
    uint64_t values[LINE];
    size_t count, table = (line = word(line, name), table_of(name));
    line = numbers(line, values, &count);
    if (filled || table == table_count || count != sheet[4 + table] || WORDS / 16 < row_words[table] + count)
        return stop("no such row", line);
    memcpy(rows[table] + row_words[table], values, count * sizeof *values);
    row_words[table] += count;
    keep_name(table, values[0], line);
    return 0;
}

static size_t texts(const char *line, char out[][LINE], size_t most)
{
    size_t count = 0;
    while (count < most && (line = word(line, out[count]), out[count][0] != 0))
        count++;
    return count;
}

static int take(const char *line)
{
    static const char *const kinds[] = {"insert", "delete", "update"};
    static char said[LINE];
    char first[LINE];
    size_t count;
    const char *rest = word(line, first);
    if (first[0] == 0)
        return strcpy(said, line), 0;
    if (strcmp(first, "tables") == 0)
        return table_count = texts(rest, tables, TABLES), 0;
    if (strcmp(first, "list") == 0)
        return heading_count = texts(rest, headings, TABLES * 2), 0;
    if (strcmp(first, "sheet") == 0)
        return numbers(rest, sheet + sheet_length, &count), sheet_length += count, 0;
    if (strcmp(first, "row") == 0)
        return row(rest);
    for (uint64_t k = 0; k < 3; k++)
        if (strcmp(first, kinds[k]) == 0) {
            if (!filled && open_day())
                return 1;
            printf("%s\n%s\n", said, line);
            return change(k + 1, rest);
        }
    return stop("no such line", line);
}

int main(void)
{
    char line[LINE];
    while (read_line(line))
        if (take(line))
            return 1;
    if (!filled && open_day())
        return 1;
    print_list("in the evening");
    return 0;
}
